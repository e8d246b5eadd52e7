"""Bytes that look random, the same for the same seed."""


class Noise:
    """The high bytes of a linear congruential generator modulo 2^64, with Knuth's MMIX constants."""

    def __init__(self, seed):
        self.state = seed * 0x9E3779B97F4A7C15 % 2 ** 64

    def byte(self):
        """Any byte."""
        self.state = (self.state * 6364136223846793005 + 1442695040888963407) % 2 ** 64
        return self.state >> 56

    def below(self, bound):
        """A number below a bound."""
        return self.byte() % bound
