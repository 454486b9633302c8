"""Frames of drawn bytes, and their symbols as GOES-R HRIT sends them: RS(255,223) by four, randomiser, NRZ-M, rate 1/2.

The field, the basis and the sequence are those of reference/blocks.py.
"""

import sys
from dataclasses import dataclass
from pathlib import Path

import numpy
from numpy.typing import NDArray

sys.path.insert(0, str(Path(__file__).resolve().parents[2] / "reference"))

import blocks as blocks  # noqa: E402

Bytes = NDArray[numpy.uint8]
Soft = NDArray[numpy.int8]

MARKER = numpy.array([0x1A, 0xCF, 0xFC, 0x1D], numpy.uint8)
CADU, FRAME, WORD = 1024, 892, 223  # bytes
DEPTH = 4
CHECKS = 32  # bytes of a codeword
LEVEL = 100  # of a symbol that is sent


@dataclass
class Stream:
    """What is sent: the frames without marker, and the symbols of all."""

    frames: list[bytes]
    symbols: Soft


def parity(words: Bytes) -> Bytes:
    """The check bytes of each row of 223 bytes in the dual basis, by the shift register over all rows at once."""
    leading_in = numpy.array([blocks.by_rows(blocks.FROM_DUAL, b) for b in range(256)], numpy.uint8)
    leading_out = numpy.array([blocks.by_rows(blocks.TO_DUAL, b) for b in range(256)], numpy.uint8)
    tables = [numpy.array([blocks.times(b, c) for b in range(256)], numpy.uint8) for c in blocks.GENERATOR[:CHECKS]]
    rest = numpy.zeros((CHECKS, len(words)), numpy.uint8)  # the coefficient of x^0 first
    for place in range(WORD):
        feed = leading_in[words[:, place]] ^ rest[-1]
        rest = numpy.concatenate([numpy.zeros((1, len(words)), numpy.uint8), rest[:-1]])
        for k in range(CHECKS):
            rest[k] ^= tables[k][feed]
    return numpy.asarray(leading_out[rest[::-1].T], numpy.uint8)


def drawn_frames(count: int, seed: int) -> Bytes:
    """Frames of virtual channel 63, numbered, with drawn bytes."""
    frames = numpy.random.default_rng(seed).integers(0, 256, (count, FRAME), dtype=numpy.uint8)
    frames[:, 0:3] = [0x41, 0xFF, 0]
    frames[:, 3], frames[:, 4] = numpy.arange(count) >> 8, numpy.arange(count) & 255
    frames[:, 5:8] = [0, 0x07, 0xFE]
    return frames


def cadus_of(frames: Bytes) -> Bytes:
    """Marker and randomised block of each frame."""
    made = numpy.zeros((len(frames), DEPTH * (WORD + CHECKS)), numpy.uint8)
    for k in range(DEPTH):
        words = frames[:, k::DEPTH]
        made[:, k:FRAME:DEPTH] = words
        made[:, FRAME + k :: DEPTH] = parity(words)
    made ^= numpy.array(blocks.SEQUENCE, numpy.uint8)
    return numpy.asarray(numpy.concatenate([numpy.broadcast_to(MARKER, (len(frames), len(MARKER))), made], axis=1))


def coded(bits: Bytes) -> Bytes:
    """The convolutional code over the levels of NRZ-M, with the second symbol as it is."""
    levels = numpy.concatenate([numpy.zeros(6, numpy.uint8), numpy.bitwise_xor.accumulate(bits)])

    def back(count: int) -> Bytes:
        return numpy.asarray(levels[6 - count : len(levels) - count])

    first = back(0) ^ back(1) ^ back(2) ^ back(3) ^ back(6)
    second = back(0) ^ back(2) ^ back(3) ^ back(5) ^ back(6)
    return numpy.asarray(numpy.stack([first, second], axis=1).ravel())


def stream(count: int, seed: int) -> Stream:
    frames = drawn_frames(count, seed)
    bits = coded(numpy.unpackbits(cadus_of(frames).ravel()))
    return Stream([bytes(frame) for frame in frames], numpy.where(bits, LEVEL, -LEVEL).astype(numpy.int8))


def frames_in(cadus: bytes) -> list[bytes]:
    """The frames of whole transfer units, as SatDump writes them: with marker, and no longer randomised."""
    rows = numpy.frombuffer(cadus[: len(cadus) // CADU * CADU], numpy.uint8).reshape(-1, CADU)
    return [bytes(row[4 : 4 + FRAME]) for row in rows]
