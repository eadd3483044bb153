"""What tools/ported is made of."""
