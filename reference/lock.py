#!/usr/bin/env python3
"""Frames of streams of symbols, by a plain and slow program of its own.

Written from what a lock is. A symbol above 0 leans to 1, one below 0 to 0. The hits of a sign at a place are the
symbols 12 to 63 from there on that lean, times the sign, to the symbols of the marker 1A CF FC 1D, coded by CCSDS
131.0-B, section 3.3. A search goes to the first place with 45 hits of one sign and 16,384 symbols; after a frame 37
hits of one sign keep the lock, and after three markers in succession with fewer a search begins one symbol after the
fourth. The window of a frame is the 16,332 symbols from its 64th on, times the sign; -128 is read as -127, and 0 stands
where there are no more. It shares no code with the crates.

With no words it prints the frames of coded streams and of drawn ones: the number of symbols, then place, sign and
misses of each frame, and for the drawn ones a checksum of the frames and of their windows.
"""

from collections.abc import Iterable

import blocks
import downlink
from drawn import MASK, Draw

Frame = tuple[int, int, int]  # place, sign and misses

FRAME, WINDOW = 16384, 16332
MARKER = downlink.bits_of(downlink.MARKER)
TAIL = downlink.coded([0] * 6 + MARKER)[12:]


def leans(symbol: int, sign: int, one: int) -> bool:
    return sign * symbol > 0 if one else sign * symbol < 0


def hits(s: list[int], place: int, sign: int) -> int:
    return sum(leans(s[place + 12 + i], sign, TAIL[i]) for i in range(52))


def sign_with(s: list[int], place: int, least: int) -> int | None:
    for sign in (1, -1):
        if hits(s, place, sign) >= least:
            return sign
    return None


def found(s: list[int], place: int) -> Frame | None:
    while place + FRAME <= len(s):
        sign = sign_with(s, place, 45)
        if sign is not None:
            return place, sign, 0
        place += 1
    return None


def after(s: list[int], frame: Frame) -> Frame | None:
    place, sign, misses = frame
    here = place + FRAME
    if here + FRAME > len(s):
        return None
    seen = sign_with(s, here, 37)
    if seen is not None:
        return here, seen, 0
    if misses < 3:
        return here, sign, misses + 1
    return found(s, here + 1)


def frames(s: list[int]) -> list[Frame]:
    result = []
    frame = found(s, 0)
    while frame is not None:
        result.append(frame)
        frame = after(s, frame)
    return result


def window(s: list[int], frame: Frame) -> list[int]:
    place, sign, _ = frame
    return [sign * max(s[q], -127) if q < len(s) else 0 for q in range(place + 64, place + 64 + WINDOW)]


def checksum(s: list[int]) -> int:
    total = 0
    for frame in frames(s):
        total = (total * 31 + 2 * frame[0] + (frame[1] > 0)) & MASK
        values = 0
        for value in window(s, frame):
            values = (values * 31 + value + 128) & MASK
        total = (total * 31 + values) & MASK
    return total


def sent() -> list[int]:
    """Eight blocks of 7F behind their markers, each a codeword as it stands, coded in one go."""
    block = blocks.randomised([0x7F] * 1020)
    return [100 if symbol == 100 else -100 for symbol in downlink.symbols_of([block] * 8)]


def without(s: list[int], first: int, count: int) -> list[int]:
    return s[:first] + [0] * count + s[first + count :]


def with_hits(s: list[int], counts: Iterable[tuple[int, int]]) -> list[int]:
    """The marker of the frame with this number has this many hits."""
    for number, count in counts:
        s = without(s, FRAME * number + 12, 52 - count)
    return s


def drawn(seed: int) -> list[int]:
    """Noise with twelve markers in it, each with some damage; the stream ends near the end of the last one's frame."""
    draws = Draw(seed)
    s = [draws.byte() - 128 for _ in range(13 * FRAME)]
    place = 8 * draws.byte()
    for _ in range(12):
        positive = draws.byte() >= 64
        damaged = draws.byte() % 24
        first = draws.byte()
        for i in range(52):
            s[place + 12 + i] = 90 if TAIL[i] == positive else -90
        for j in range(damaged):
            at = place + 12 + (first + 7 * j) % 52
            s[at] = -s[at] if j % 2 else 0
        slip = draws.byte()
        place += FRAME + (slip % 8 if slip < 32 else 0)
    return s[: place + seed]


def show(name: str, s: list[int]) -> None:
    print(name, len(s), *("%d%s%d" % (place, "+" if sign > 0 else "-", misses) for place, sign, misses in frames(s)))


def main() -> None:
    e = sent()
    show("sent", e)
    show("markers 1, 2, 3 silent", with_hits(e, [(1, 0), (2, 0), (3, 0)]))
    show("markers 1 to 3 and frame 4 silent", without(with_hits(e, [(1, 0), (2, 0), (3, 0)]), 4 * FRAME, FRAME))
    show("one symbol short", e[:-1])
    show("negative", [-v for v in e])
    show("behind 700", [0] * 700 + e)
    show("loud", [127 if v > 0 else -128 for v in e])
    show("45 hits in front", with_hits(e, [(0, 45)]))
    show("44 hits in front", with_hits(e, [(0, 44)]))
    show("36 hits, four times", with_hits(e, [(k, 36) for k in (1, 2, 3, 4)]))
    show("36 hits, three times, then 37", with_hits(e, [(1, 36), (2, 36), (3, 36), (4, 37)]))
    for seed in range(1, 9):
        s = drawn(seed)
        show("drawn %d" % seed, s)
        print("checksum %016X" % checksum(s))


if __name__ == "__main__":
    assert "".join(map(str, TAIL)) == format(0x81C971AA73D3E, "052b")
    main()
