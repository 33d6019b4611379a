"""The tests, and what the checks of the gate share with them."""
