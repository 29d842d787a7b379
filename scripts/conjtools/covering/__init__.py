"""What objects cover of a window, by the texts of their files: what runs that tell it, or that ask for all of it, are held against."""
