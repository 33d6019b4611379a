"""What C means by the machine's own compiler, and whether the unit that is made of it does the same."""
