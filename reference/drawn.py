"""What the slow programs here share: the generator of drawn bytes, the checksum, and numbers as bytes."""

from collections.abc import Iterable

MASK = 2**64 - 1


class Draw:
    """A generator of numbers: each state follows from the one before it, and its highest byte is what is drawn."""

    def __init__(self, state: int) -> None:
        self.state = state & MASK

    def step(self) -> int:
        """The next state."""
        self.state = (self.state * 6364136223846793005 + 1442695040888963407) & MASK
        return self.state

    def byte(self) -> int:
        return self.step() >> 56

    def bytes(self, count: int) -> bytes:
        return bytes(self.byte() for _ in range(count))

    def below(self, count: int) -> int:
        """A number below this one, which is at most 65536."""
        high = self.byte()
        return (high * 256 + self.byte()) % count


def crc(data: Iterable[int]) -> int:
    """CRC-16, x^16+x^12+x^5+1, from FFFF."""
    value = 0xFFFF
    for byte in data:
        value ^= byte << 8
        for _ in range(8):
            value = (value << 1 ^ 0x1021 if value & 0x8000 else value << 1) & 0xFFFF
    return value


def big(count: int, number: int) -> bytes:
    return number.to_bytes(count, "big")
