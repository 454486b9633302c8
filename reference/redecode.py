#!/usr/bin/env python3
"""Outcomes of drawn windows after one to four passes, by a plain and slow program of its own.

Written from the definitions. A string of bits costs the sum of 127 - v for each symbol of its code that is 1 and
127 + v for each that is 0, against the values v of the window; of several that cost the same, the least levels count,
read from the last to the first. A path agrees with a known word where each byte of the word, randomised, stands in its
place. Each pass takes the nearest path that agrees with all words that are known, and restores those words of its block
that aren't. The numbers of a restored frame are those of bytes that differ from the block of the first path. The paths
come from a search through the 64 states that carries a cost and the levels as one number; `check` compares it with all
strings of short windows. Words are restored by blocks.py. It shares no code with the crates.

With no words it checks the search, and prints the cases of the trials: line code, seed, level of the noise, what else
happened to the window, and the outcomes after 1, 2, 3 and 4 passes.

    redecode.py LINE SEED LEVEL    prints one drawn case; LINE is 0 to 3: levels and marks, each with the second symbol
                                   inverted and plain
"""

import sys
from dataclasses import dataclass
from itertools import product
from typing import Optional

import downlink
from blocks import SEQUENCE, encoded, randomised, restored
from downlink import bits_of
from drawn import Draw

MARKER = bits_of(downlink.MARKER)
DATA_BITS = 8160
Word = list[int]
Pins = list[Optional[int]]


@dataclass(frozen=True)
class LineCode:
    marks: bool
    inverted: int

    def level(self, before: int, bit: int) -> int:
        return before ^ bit if self.marks else bit


LINES = [LineCode(marks, inverted) for marks in (False, True) for inverted in (1, 0)]


@dataclass(frozen=True)
class Case:
    """A window: blocks of 7F with some bytes changed in its words, noise, and what is cut off at the end."""

    line: int
    seed: int
    level: int
    hard: bool = False
    silent: int = 0
    planted: str = ""


def pair(line: LineCode, levels: tuple[int, ...]) -> tuple[int, int]:
    """The two symbols of seven levels, the newest first."""
    b = levels
    return (b[0] + b[1] + b[2] + b[3] + b[6]) % 2, (line.inverted + b[0] + b[2] + b[3] + b[5] + b[6]) % 2


def marker_levels(line: LineCode) -> list[int]:
    return downlink.levels_of(MARKER, line.marks)


def cost(symbols: tuple[int, int], values: list[int], at: int) -> int:
    here, after = values[2 * at], values[2 * at + 1]
    return (127 - here if symbols[0] else 127 + here) + (127 - after if symbols[1] else 127 + after)


def nearest(line: LineCode, values: list[int], pins: Pins) -> list[int]:
    """The bits of the nearest path that agrees with the pins."""
    count = len(pins)
    kept = {tuple(marker_levels(line)[:-7:-1]): (0, 0)}
    for at in range(count + 6):
        known = pins[at] if at < count else MARKER[at - count]
        after: dict[tuple[int, ...], tuple[int, int]] = {}
        for state, (price, levels) in kept.items():
            for bit in (0, 1) if known is None else (known,):
                level = line.level(state[0], bit)
                more = price + cost(pair(line, (level, *state)), values, at)
                way = (more, levels | level << at if at < count else levels)
                new = (level, *state[:5])
                if new not in after or way < after[new]:
                    after[new] = way
        kept = after
    levels = min(kept.values())[1]
    bits, before = [], marker_levels(line)[-1]
    for at in range(count):
        level = levels >> at & 1
        bits.append(before ^ level if line.marks else level)
        before = level
    return bits


def nearest_of_all(line: LineCode, values: list[int], pins: Pins) -> list[int]:
    """The same, by all strings."""
    best: Optional[tuple[int, list[int], list[int]]] = None
    for bits in product(*((0, 1) if pin is None else (pin,) for pin in pins)):
        state = tuple(marker_levels(line)[:-7:-1])
        price, levels = 0, []
        for at, bit in enumerate([*bits, *MARKER[:6]]):
            level = line.level(state[0], bit)
            price += cost(pair(line, (level, *state)), values, at)
            levels.append(level)
            state = (level, *state[:5])
        found = (price, levels[: len(pins)][::-1], list(bits))
        best = found if best is None else min(best, found)
    assert best is not None
    return best[2]


def bytes_sum(draw: Draw) -> int:
    """The sum of the four highest bytes of two states."""
    return sum(state >> shift & 255 for state in (draw.step(), draw.step()) for shift in (56, 48, 40, 32))


def check(windows: int) -> None:
    """Short windows: all strings give what the search gives, ties and pins included."""
    for seed in range(1, windows + 1):
        draws = Draw(seed)
        line = LINES[seed % 4]
        spread = (3, 5, 255)[seed % 3]
        values = [draws.byte() % spread - spread // 2 for _ in range(2 * 10 + 12)]
        pins: Pins = [(None, None, 0, 1)[draws.step() >> 62] for _ in range(10)]
        assert nearest(line, values, pins) == nearest_of_all(line, values, pins), seed


# ---- windows
def sent_block(planted: str) -> list[int]:
    """Four words of 7F, without the randomiser. 'seventeen' changes 17 bytes of the third one; 'false' does so too, and
    makes the second one a word that is 17 bytes from 7F and 16 from another codeword."""
    block = [0x7F] * 1020
    if planted:
        for i in range(17):
            block[4 * (7 * i) + 2] ^= 0x55
    if planted == "false":
        least = encoded([0] * 222 + [1])
        for i in range(222, 239):
            block[4 * i + 1] ^= least[i]
    return block


def coded(line: LineCode, block: list[int]) -> list[int]:
    """The symbols of a window: those of the randomised block, and of the next marker's first six bits."""
    past = marker_levels(line)[-6:]
    bits = bits_of(randomised(block)) + MARKER[:6]
    return downlink.coded(past + downlink.levels_of(bits, line.marks, past[-1]), line.inverted)


def window(case: Case) -> list[int]:
    draws = Draw(case.seed)
    mean = 1020 * case.level >> 8
    values = []
    for symbol in coded(LINES[case.line], sent_block(case.planted)):
        value = (64 if symbol else -64) + (bytes_sum(draws) * case.level >> 8) - mean
        values.append((1 if value > 0 else -1) if case.hard else max(-127, min(127, value)))
    return values[: len(values) - case.silent] + [0] * case.silent


# ---- the passes
def pins_of(known: list[Optional[Word]]) -> Pins:
    pins: Pins = []
    for place in range(1020):
        word = known[place % 4]
        byte = None if word is None else word[place // 4] ^ SEQUENCE[place]
        pins.extend(None if byte is None else byte >> (7 - k) & 1 for k in range(8))
    return pins


def words_by(line: LineCode, values: list[int], known: list[Optional[Word]]) -> list[Word]:
    """The words of the nearest path that agrees with what is known."""
    bits = nearest(line, values, pins_of(known))
    data = [int("".join(map(str, bits[i : i + 8])), 2) for i in range(0, DATA_BITS, 8)]
    plain = randomised(data)
    return [plain[k::4] for k in range(4)]


def outcomes(case: Case) -> list[str]:
    line, values = LINES[case.line], window(case)
    known: list[Optional[Word]] = [None] * 4
    first: Optional[list[Word]] = None
    said: list[str] = []
    settled = False
    for _ in range(4):
        if not settled:
            words = words_by(line, values, known)
            first = first or words
            answers = [restored(word) for word in words]
            more = [old or (answer[0] if answer else None) for old, answer in zip(known, answers)]
            settled = more == known or None not in more
            known = more
        said.append(outcome(known, first or []))
    return said


def outcome(known: list[Optional[Word]], first: list[Word]) -> str:
    if None in known:
        return "Lost(%d)" % known.index(None)
    changed = [sum(a != b for a, b in zip(word or [], old)) for word, old in zip(known, first)]
    return "Restored(%s)" % ", ".join(map(str, changed))


# One to four words restored at first and none; a second and a third further pass; all line codes; hard decisions, where
# most steps are ties; symbols that end before the window; words that no pass restores, and a false one.
CASES = [
    Case(0, 1, 64),
    Case(1, 30, 68),
    Case(2, 4, 67),
    Case(3, 17, 67),
    Case(0, 5, 68),
    Case(0, 213, 69),
    Case(2, 1571, 68),
    Case(1, 5, 68),
    Case(3, 19, 67),
    Case(3, 7, 54, hard=True),
    Case(0, 12, 60, silent=1000),
    Case(0, 1183, 60, silent=860),
    Case(0, 42, 60, silent=900),
    Case(0, 1, 60, silent=16332),
    Case(1, 1, 20, planted="seventeen"),
    Case(0, 1, 20, planted="false"),
    Case(3, 2, 20, planted="false"),
]


def show(case: Case) -> None:
    print(case, "; ".join(outcomes(case)), flush=True)


def main(words: list[str]) -> None:
    if words:
        line, seed, level = map(int, words)
        show(Case(line, seed, level))
        return
    check(240)
    for case in CASES:
        show(case)


if __name__ == "__main__":
    main(sys.argv[1:])
