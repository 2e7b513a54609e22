"""The dice that all cases come from: what is thrown follows from a seed alone."""
import hashlib


class Dice:
    """Bytes and numbers from a seed. Made from a hash, so they are the same wherever Python runs."""

    def __init__(self, *seed):
        self.seed, self.thrown = " ".join(map(str, seed)), 0

    def bytes(self, n):
        self.thrown += 1
        return hashlib.shake_128(f"{self.seed} {self.thrown}".encode()).digest(n)

    def below(self, n):
        return int.from_bytes(self.bytes(16), "little") % n

    def pick(self, things):
        return things[self.below(len(things))]

    def number(self):
        return self.below(2**64)
