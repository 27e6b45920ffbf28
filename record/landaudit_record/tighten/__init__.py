"""A policy without the rights that recordings don't need."""
