"""Passes frames or blocks on from the place where the first whole one begins, which is found by the headers of frames
and their counters. Symbols are passed on as they are. It serves a program that begins to read in the middle of a
stream.
"""

import os

from . import which

BLOCK_BYTES = 1020
LOOKED_FRAMES = 8  # by which the place is found
# The first bytes of the randomising sequence (CCSDS 131.0-B), which lie over the header of a block's frame.
RANDOMISER = bytes.fromhex("ff480ec09a0d")
PIECE_BYTES = 65_536
SIZES = {"frames": which.FRAME_BYTES, "blocks": BLOCK_BYTES}


def begins_at(data: bytes, size: int) -> int | None:
    """Where the first frame or block begins in these bytes."""
    mask = RANDOMISER if size == BLOCK_BYTES else bytes(len(RANDOMISER))
    for place in range(min(size, len(data))):
        fronts = [data[at : at + len(mask)] for at in range(place, len(data) - len(mask), size)]
        plain = [bytes(a ^ b for a, b in zip(front, mask)).ljust(which.FRAME_BYTES, b"\0") for front in fronts]
        if which.are_frames(b"".join(plain) + bytes(1)):
            return place
    return None


def align(form: str) -> int:
    """Passes standard input on. 1 where no frame begins."""
    size = SIZES.get(form)
    if size:
        data = b""
        place = None
        while place is None:
            part = read_exactly(LOOKED_FRAMES * size)
            data = (data + part)[-2 * LOOKED_FRAMES * size :]
            place = begins_at(data, size)
            if place is None and len(part) < LOOKED_FRAMES * size:
                return 1
        write(data[place:])
    while data := os.read(0, PIECE_BYTES):
        write(data)
    return 0


def read_exactly(count: int) -> bytes:
    data = b""
    while len(data) < count and (part := os.read(0, count - len(data))):
        data += part
    return data


def write(data: bytes) -> None:
    while data:
        data = data[os.write(1, data) :]
