"""What the command `quay` is made of."""
