"""What is refused to the program: memory, allocations and growths."""
