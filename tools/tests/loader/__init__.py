"""What the tests of the loader need."""
