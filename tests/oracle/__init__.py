"""What the program must answer, by the definitions alone. It shares nothing with the crates."""
