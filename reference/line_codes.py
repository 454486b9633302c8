#!/usr/bin/env python3
"""The nearest paths of small drawn windows under the four line codes, by trying every list of bits.

Written from the definitions: levels of a list of bits, the code of a list of levels by index, the cost of symbols
against values, and the order of two lists of levels from the last to the first. It shares no code with the crates.

Prints for each line code and each kind of drawn values the bits of ten windows of eight bits, as bytes, the first bit
the most significant one; and the symbols 12 to 63 of the marker.
"""
from collections.abc import Iterable
from itertools import product

import downlink
from downlink import coded, levels_of
from drawn import Draw

MARKER = downlink.bits_of(downlink.MARKER)


def past(marks: bool) -> list[int]:
    return levels_of(MARKER, marks)[-6:]


def value(v: int) -> int:
    return -127 if v == -128 else v


def cost(symbols: list[int], values: list[int]) -> int:
    return sum(127 - value(v) if s else 127 + value(v) for s, v in zip(symbols, values))


def nearest(marks: bool, inverted: int, window: list[int]) -> tuple[int, ...]:
    n = (len(window) - 12) // 2
    before = past(marks)
    z = before[-1]
    best: tuple[int, list[int], tuple[int, ...]] | None = None
    for x in product([0, 1], repeat=n):
        y = levels_of([*x, *MARKER[:6]], marks, z)
        price = cost(coded(before + y, inverted), window)
        found = (price, y[:n][::-1], x)
        if best is None or found < best:
            best = found
    assert best is not None
    return best[2]


def drawn(start: int, values: str) -> list[int]:
    window = []
    for draw in Draw(start).bytes(28):
        kinds = {"all": -127 if draw == 0 else draw - 128, "two": draw % 2 - 1, "three": draw % 3 - 1}
        window.append(kinds[values])
    return window


def number(bits: Iterable[int]) -> int:
    total = 0
    for bit in bits:
        total = 2 * total + bit
    return total


if __name__ == "__main__":
    for marks in (False, True):
        for inverted in (1, 0):
            tail = coded([0] * 6 + levels_of(MARKER, marks), inverted)[12:]
            name = ("marks" if marks else "levels") + (" inverted" if inverted else " plain")
            print(name, "tail %013X" % number(tail), "past", *past(marks))
            for values in ("all", "two", "three"):
                paths = [number(nearest(marks, inverted, drawn(j, values))) for j in range(1, 11)]
                print("   ", values, " ".join("0x%02X" % path for path in paths))
