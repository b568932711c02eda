"""What must be answered, written down; and what fails the program."""
