"""Made-up inputs, and what the definitions say of them."""
