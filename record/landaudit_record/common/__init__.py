"""What all others use: values, files and texts that know nothing of a policy."""
