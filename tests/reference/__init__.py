"""The reference: the rules, implemented a second time, in Python."""
