"""What the gate runs after `rt ci`."""
