"""How processor time grows with the input."""
