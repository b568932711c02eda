"""What nobody wrote, of which program and reference must say the same."""
