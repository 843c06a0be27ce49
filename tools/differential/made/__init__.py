"""Cases for the comparison."""
