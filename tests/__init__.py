"""What is tested beside the proofs (tests/README.md)."""
