"""What the program must answer: examples and commands with their answers."""
