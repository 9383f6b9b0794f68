"""What measures how long things take. The gate does not run it."""
