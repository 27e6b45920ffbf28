"""Rules that would let refused calls pass."""
