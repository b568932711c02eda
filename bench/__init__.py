"""What is measured of the program."""
