"""From ephemerides as providers write them to the cubic Hermite ephemerides that `conj` screens."""
