"""What the prover must refuse, over the libraries that it has proved."""
