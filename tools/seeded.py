"""Numbers that look random and are the same on every machine and in every version of Python."""


class Seeded:
    """A 64-bit linear congruential generator; the high 32 bits of each state are given out."""

    def __init__(self, seed):
        self.state = seed

    def high_bits(self):
        self.state = (self.state * 6_364_136_223_846_793_005 + 1_442_695_040_888_963_407) % 2**64
        return self.state // 2**32

    def below(self, limit):
        """A number below limit: 64 bits more than limit has, then the remainder."""
        wide = 0
        for _ in range(limit.bit_length() // 32 + 3):
            wide = wide * 2**32 + self.high_bits()
        return wide % limit

    def between(self, least, most):
        return least + self.below(most - least + 1)

    def one_of(self, things):
        return things[self.below(len(things))]

    def chance(self, percent):
        return self.below(100) < percent
