"""The checks of the repository, and how they run beside each other."""
