"""Random scripts and command lines, the same for the same seed: most are answered, the rest refused in every way."""
