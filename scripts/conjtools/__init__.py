"""What the scripts round `conj` share: reading reports, ephemerides and messages, and what is made of them."""
