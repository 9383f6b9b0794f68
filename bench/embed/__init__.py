"""What calls of the C interface cost, from C and from Python."""
