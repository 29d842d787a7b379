"""The manual page, made of the text that `conj --help` prints and of tables of docs/FORMATS.md."""
