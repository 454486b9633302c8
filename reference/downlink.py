"""Packets, frames, blocks and symbols, as the programs here and the trials send them: from CCSDS 131.0-B, 132.0-B and
133.0-B, with the records of CGMS 03. It shares no code with the crates."""

from collections.abc import Iterable, Sequence

import blocks
from drawn import big, crc

ZONE = 884
NONE = 2047  # the pointer of a frame in which no packet starts, and the application of idle packets
MARKER = bytes.fromhex("1ACFFC1D")
CLEAN = 100  # the value of a symbol


# ---- mission files


def record(kind: int, contents: bytes) -> bytes:
    return bytes([kind]) + big(2, 3 + len(contents)) + contents


def primary(kind: int, header_bytes: int, data_bits: int) -> bytes:
    return record(0, bytes([kind]) + big(4, header_bytes) + big(8, data_bits))


def transport(counter: int, bits: int) -> bytes:
    return big(2, counter % 65536) + big(8, bits)


# ---- packets and frames


def packet(apid: int, flags: int, count: int, data: bytes) -> bytes:
    """A packet with this data field; version, type and secondary header flag are 0."""
    return big(2, apid) + big(2, flags << 14 | count) + big(2, len(data) - 1) + data


def checked(body: bytes) -> bytes:
    return body + big(2, crc(body))


def idle(left: int) -> bytes:
    """The packet that fills the last bytes of a zone, and the next zone where they are too few."""
    return packet(NONE, 3, 0, bytes((left + ZONE if left <= 6 else left) - 6))


def flags_of(place: int, count: int) -> int:
    """The flags of the packet of a file's body in this place."""
    return (1 if place == 0 else 0) + (2 if place + 1 == count else 0)


def frame(vc: int, counter: int, pointer: int, zone: bytes, spacecraft: int = 7) -> bytes:
    bits = f"01{spacecraft:08b}{vc:06b}{counter % 2**24:024b}0{0:07b}{0:05b}{pointer:011b}"
    return big(8, int(bits, 2)) + zone


def frames_of(vc: int, packets: Sequence[bytes], counter: int = 0, count: int | None = None) -> list[bytes]:
    """The frames of a channel's packets, from this counter on: as many as are asked for, or as have a whole zone."""
    stream = b"".join(packets)
    starts, place = [], 0
    for one in packets:
        starts.append(place)
        place += len(one)
    made: list[bytes] = []
    for first in range(0, ZONE * (len(stream) // ZONE if count is None else count), ZONE):
        inside = [start - first for start in starts if first <= start < first + ZONE]
        made.append(frame(vc, counter + len(made), min(inside, default=NONE), stream[first : first + ZONE]))
    return made


def frames_of_files(vc: int, apid: int, files: Iterable[Sequence[bytes]]) -> list[bytes]:
    """The frames of these files, each a list of bodies, and an idle packet at the end."""
    packets: list[bytes] = []
    for bodies in files:
        for place, body in enumerate(bodies):
            packets.append(packet(apid, flags_of(place, len(bodies)), len(packets) % 16384, checked(body)))
    size = sum(map(len, packets))
    return frames_of(vc, [*packets, packet(NONE, 3, 0, bytes(max(7, ZONE - size % ZONE) - 6))], 0, size // ZONE + 1)


def frame_of_file(apid: int, number: int, proper: bytes) -> bytes:
    """The frame of channel 0 with this counter, in which a file stands whole."""
    good = packet(apid, 3, number % 16384, checked(transport(number, 8 * len(proper)) + proper))
    return frame(0, number, 0, good + idle(ZONE - len(good)))


# ---- blocks and symbols


def block(sent: bytes, wrong: int) -> list[int]:
    """The block of a frame, with this number of wrong bytes in each word."""
    words = [blocks.encoded([sent[4 * i + k] for i in range(223)]) for k in range(4)]
    for word in words:
        for m in range(wrong):
            word[15 * m] ^= 0x5A
    return blocks.randomised([words[place % 4][place // 4] for place in range(1020)])


def bits_of(data: Iterable[int]) -> list[int]:
    return [byte >> (7 - place) & 1 for byte in data for place in range(8)]


def levels_of(bits: Iterable[int], marks: bool, level: int = 0) -> list[int]:
    """The levels of the bits: with marks a 1 changes the level."""
    levels = []
    for bit in bits:
        level = level ^ bit if marks else bit
        levels.append(level)
    return levels


def coded(levels: Sequence[int], inverted: int = 1) -> list[int]:
    """The two symbols of each level but for the first six."""
    symbols = []
    for i in range(6, len(levels)):
        symbols.append(levels[i] ^ levels[i - 1] ^ levels[i - 2] ^ levels[i - 3] ^ levels[i - 6])
        symbols.append(levels[i] ^ levels[i - 2] ^ levels[i - 3] ^ levels[i - 5] ^ levels[i - 6] ^ inverted)
    return symbols


def symbols_of(sent: Iterable[Sequence[int]], marks: bool = False, inverted: int = 1) -> bytes:
    """The symbols of these blocks, each after a marker, by one encoder that begins after six levels 0."""
    bits = [bit for one in sent for bit in bits_of([*MARKER, *one])]
    return bytes(CLEAN if symbol else 256 - CLEAN for symbol in coded([0] * 6 + levels_of(bits, marks), inverted))
