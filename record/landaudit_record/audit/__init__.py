"""The audit of a recording, with a policy or without, as values."""
