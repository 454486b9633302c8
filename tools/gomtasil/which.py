"""Tries the four line codes over the first 4,000,000 bytes of a recording, and where none locks over as many from its
middle. The last line has the options to give to `receive`. Where it has another form, what it looks like is told, and a
line that leads it to soft symbols, or from a recording of complex samples, I and Q, to files. Where none locks, the
reason is printed. Status 0: one locks. 1: none does.
"""

import collections
import os
import struct
import subprocess
from collections.abc import Callable
from typing import NamedTuple

from . import iq, program, reasons

TRIED_BYTES = 4_000_000  # 244 frames
LOOKED_BYTES = 65_536  # by which the form is told
CADU_BYTES, FRAME_BYTES = 1024, 892  # of a frame with marker and code, and of one alone
MARKER = b"\x1a\xcf\xfc\x1d"
LOST_BYTES = 65  # as which a lost frame counts: one more than can be corrected
CODES = [(line, g2) for line in ("nrz-l", "nrz-m") for g2 in ("inverted", "plain")]
FLIPPED = bytes(it ^ 0x80 for it in range(256))  # unsigned bytes as signed ones
SYMBOLS = (b"\xc0", b"\x40")  # of a bit 0 and of a bit 1: -64 and 64

UNSIGNED = r"LC_ALL=C tr '\000-\177\200-\377' '\200-\377\000-\177'"
BITS = r"LC_ALL=C tr '\000\001' '\300\100'"
PACKED = (
    r"""perl -e 'binmode STDIN; $/ = \65536; while (<STDIN>) { ($_ = unpack "B*", $_) =~ tr/01/\300\100/; print }'"""
)


class Tried(NamedTuple):
    """What a line code gives of some symbols."""

    options: tuple[str, ...]
    symbols: int
    frames: int
    restored: int
    corrected: int  # bytes, a lost frame as one more than can be

    @property
    def heard(self) -> reasons.Heard:
        return reasons.Heard(" ".join(self.options), self.frames, self.symbols)


def tried(symbols: bytes, options: tuple[str, ...]) -> Tried:
    done = subprocess.run([program.name(), "-", "decode", *options], input=symbols, stdout=subprocess.PIPE, check=True)
    *windows, last = map(bytes.split, done.stdout.splitlines())
    corrected = sum(LOST_BYTES if it[6] == b"lost" else sum(map(int, it[7:11])) for it in windows)
    numbers = dict(zip(last[::2], last[1::2]))
    return Tried(options, len(symbols), int(numbers[b"frames"]), int(numbers[b"restored"]), corrected)


def tries_of(symbols: bytes, is_told: bool) -> list[Tried]:
    """What each line code gives, that which restores most frames first."""
    found = []
    for line, g2 in CODES:
        found.append(tried(symbols, ("--line", line, "--g2", g2)))
        if is_told:
            print(f"{' '.join(found[-1].options)}: frames {found[-1].frames} restored {found[-1].restored}", flush=True)
    return sorted(found, key=lambda it: it.restored, reverse=True)


def piles(data: bytes) -> bool:
    """Whether more than a twentieth of the bytes stand at 0 and 255, where unsigned bytes end, and hardly any beside
    these."""
    ends = data.count(0) + data.count(255)
    return ends > len(data) / 20 and ends > 4 * (data.count(1) + data.count(254))


def sign_of(symbols: bytes, best: Tried) -> str:
    """Whether bytes that lock are signed or unsigned: by what is corrected, or where that is the same by their values;
    either where these don't tell."""
    flipped = tried(symbols.translate(FLIPPED), best.options)
    # (a frame that one of them doesn't find counts as a lost one)
    here, there = (it.corrected - LOST_BYTES * it.frames for it in (best, flipped))
    if there != here:
        return "unsigned" if there < here else "signed"
    return "unsigned" if piles(symbols[:LOOKED_BYTES]) else "either"


def of_bits(data: bytes) -> bytes:
    """The symbols of bits of a byte each; nothing where the bytes are others."""
    return data.translate(SYMBOLS[0] + SYMBOLS[1] + bytes(254)) if set(data[:LOOKED_BYTES]) <= {0, 1} else b""


def of_packed_bits(data: bytes) -> bytes:
    """The symbols of bits, eight a byte, most significant first."""
    table = [b"".join(SYMBOLS[it >> place & 1] for place in range(7, -1, -1)) for it in range(256)]
    return b"".join(map(table.__getitem__, data[: TRIED_BYTES // 8]))


# Other forms of symbols: what they are called, how symbols are made of them here, and by a line.
FORMS: tuple[tuple[str, Callable[[bytes], bytes], str], ...] = (
    ("unsigned bytes", lambda data: data.translate(FLIPPED), UNSIGNED),
    ("bits, eight a byte", of_packed_bits, PACKED),
    ("bits, a byte of 0 or 1 each", of_bits, BITS),
)


# ---- what a file looks like


def are_frames(data: bytes) -> bool:
    """Whether each 892 bytes begin as a transfer frame does: version 1, one spacecraft, and counters that go on."""
    heads = [struct.unpack_from(">HI", data, at) for at in range(0, len(data) - FRAME_BYTES, FRAME_BYTES)]
    if len(heads) < 2 or {head >> 6 for head, _ in heads} != {heads[0][0] >> 6} or heads[0][0] >> 14 != 1:
        return False
    counters: dict[int, int] = {}
    steps: collections.Counter[bool] = collections.Counter()
    for head, rest in heads:
        channel, counter = head & 0x3F, rest >> 8
        if channel in counters:
            steps[counter == (counters[channel] + 1) % (1 << 24)] += 1
        counters[channel] = counter
    return steps[True] >= steps[False]


def apart(one: bytes, other: bytes) -> float:
    """How far two lists of bytes differ in distribution, 0 to 100."""
    counts = collections.Counter(one)
    counts.subtract(collections.Counter(other))
    return 100 * sum(abs(it) for it in counts.values()) / max(1, len(one) + len(other))


def are_floats(data: bytes) -> bool:
    """Whether nearly all are floats from 1/65,536 to 65,536, of either byte order."""

    def has_exponents(at: int) -> bool:
        found = sum(55 <= it & 0x7F <= 71 for it in data[at::4])
        return 4 * found > 0.95 * len(data) and apart(data[at::4], data[3 - at :: 4]) > 25

    return has_exponents(3) or has_exponents(0)


def form_of(data: bytes) -> str:
    """What a file without a frame lock looks like, by its first bytes."""
    if data[:4] == MARKER and data[CADU_BYTES:][:4] == MARKER:
        return f"it looks like frames of {CADU_BYTES} bytes with their marker (SatDump's .cadu): see cadu.sh"
    if are_frames(data):
        return f"it looks like frames of {FRAME_BYTES} bytes (goesrecv's packets): give `receive --input frames`"
    if set(data) <= {0, 1}:
        return f"it looks like bits, a byte of 0 or 1 each: lead it through\n  {BITS}"
    if are_floats(data):
        return "it looks like floats of 32 bits, and not like a signed byte a symbol"
    quarters = [data[at::4] for at in range(4)]
    differ = [apart(quarters[0], it) > 15 for it in quarters[1:]]
    if differ[:2] == [True, False] and apart(quarters[1], quarters[3]) < 15:
        return "it looks like integers of 16 bits, and not like a signed byte a symbol"
    if any(differ):
        return "it looks like values of several bytes, and not like a signed byte a symbol"
    return "it looks like a byte a value: perhaps it isn't of symbols, or the signal is too weak"


# ---- the search


def read_part(path: str, start: int) -> bytes:
    with open(path, "rb") as it:
        it.seek(start)
        return it.read(TRIED_BYTES)


def gives_frames(symbols: bytes, options: str) -> bool:
    return tried(symbols[:TRIED_BYTES], tuple(options.split())).restored > 0


def which(path: str) -> int:
    """Tells of a recording. 0 where a line code locks, and else 1."""
    size = os.path.getsize(path)
    front = read_part(path, 0)[:LOOKED_BYTES]
    if sure := reasons.sure_reason(front, size):
        print(f"no frame lock\n{reasons.TEXTS[sure]}")
        return 1
    heard: list[reasons.Heard] = []
    for start in [0, size // 2] if size > 2 * TRIED_BYTES else [0]:
        data = read_part(path, start)
        print(f"bytes {start} to {start + len(data)} of the recording:", flush=True)
        best, *others = tries_of(data, True)
        if best.restored:
            return told_of_bytes(best, sign_of(data, best))
        heard += (it.heard for it in (best, *others))
    data = read_part(path, 0)
    for form in FORMS:
        best = tries_of(form[1](data), False)[0]
        if best.restored:
            return told(best, form)
    line = iq.line_of(path, data, are_floats(front), gives_frames)
    if line:
        print(f"it looks like complex samples, I and Q: lead it through\n  {line}\nlocks")
        return 0
    print(f"no frame lock\n{reasons.text_of(front, size, heard)}\n{form_of(front)}")
    return 1


def told_of_bytes(best: Tried, sign: str) -> int:
    if sign == "either":
        print(f"read as {FORMS[0][0]} it gives the same: if much is lost, lead it through\n  {FORMS[0][2]}")
    return told(best, FORMS[0] if sign == "unsigned" else None)


def told(best: Tried, form: tuple[str, Callable[[bytes], bytes], str] | None) -> int:
    if form:
        print(f"it looks like {form[0]}: lead it through\n  {form[2]}")
    print(f"locks: {' '.join(best.options)}")
    return 0
