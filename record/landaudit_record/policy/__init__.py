"""Policies: read, written, compared, put in force, and tried on calls that no program made."""
