"""What generates valid messages, for the benches and for the tests."""
