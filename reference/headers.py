#!/usr/bin/env python3
"""The header of a mission file: its records, the fault of bytes that have none, and the printed lines of both, computed
from the definition alone, slowly.

A header of T bytes is tiled by its records: each record stands in one stretch, and the stretches, one after another,
are the places 0 to T - 1. Nothing is read in passing; a tiling is found among all lists of stretches that begin one
after another.

With no arguments it draws headers and prints how many of them there were, how many had which fault, and a checksum of
what they say, as the program `lr_cases` does. With the word `shown` it prints a frame with some files, and what `list`
and `show` print of a shelf with these.
"""
import datetime
import sys
from collections.abc import Iterable

import downlink
import shelf
from downlink import record
from drawn import Draw, big
from files import File

Fault = tuple[str | int, ...]  # its name, and the numbers that it tells

PRIMARY = 16
FIXED = {1: 9, 2: 51, 5: 10}
SIZED = {128: 17, 131: 7}


def number(data: bytes) -> int:
    return int.from_bytes(data, "big")


def signed(data: bytes) -> int:
    return int.from_bytes(data, "big", signed=True)


class Record:
    def __init__(self, proper: bytes, at: int) -> None:
        self.at = at
        self.kind = proper[at]
        self.length = number(proper[at + 1 : at + 3])
        self.contents = proper[at + 3 : at + self.length]


def broken(proper: bytes, end: int, at: int) -> Fault | None:
    """The rule that the record at this place breaks, or None."""
    if at + 3 > end:
        return "overrun", at
    length = number(proper[at + 1 : at + 3])
    if length < 3:
        return "short", at
    if at + length > end:
        return "overrun", at
    if FIXED.get(proper[at], length) != length:
        return "length", proper[at], length
    return None


def places(proper: bytes, end: int) -> list[int]:
    """The least set of places that has 16 and, with each place before the end whose record breaks no rule, the place
    after it."""
    found = {PRIMARY}
    while True:
        more = {at + Record(proper, at).length for at in found if at < end and not broken(proper, end, at)}
        if more <= found:
            return sorted(found)
        found |= more


def fault_of(proper: bytes) -> Fault | None:
    """The first fault, or None where there is a header."""
    if len(proper) < 16:
        return "ended", len(proper)
    if proper[0] != 0 or number(proper[1:3]) != 16:
        return ("not-primary",)
    end = number(proper[4:8])
    if end < 16:
        return "overrun", 0
    if len(proper) < end:
        return "ended", len(proper)
    faults = [broken(proper, end, at) for at in places(proper, end) if at < end]
    return next((fault for fault in faults if fault), None)


def records(proper: bytes) -> list[Record]:
    """The records of a header without a fault."""
    end = number(proper[4:8])
    found = [Record(proper, at) for at in [0] + places(proper, end) if at < end]
    assert b"".join(proper[r.at : r.at + r.length] for r in found) == proper[:end]
    return found


# ---- what a record says


def is_read_as(record: Record, kind: int) -> bool:
    return record.at > 0 and record.kind == kind and SIZED.get(kind, record.length) == record.length


def first(proper: bytes, kind: int) -> bytes | None:
    """The contents of the first record of this kind, or None."""
    return next((r.contents for r in records(proper) if is_read_as(r, kind)), None)


def is_encrypted(proper: bytes) -> bool:
    return any(is_read_as(r, 7) and any(r.contents) for r in records(proper))


def pairs(contents: bytes) -> list[int]:
    return [number(contents[place : place + 2]) for place in range(0, len(contents), 2)]


def structure(contents: bytes) -> tuple[int, int, int, int]:
    return contents[0], number(contents[1:3]), number(contents[3:5]), contents[5]


def escaped(text: bytes) -> str:
    return "".join(chr(byte) if 32 <= byte <= 126 and byte != 92 else "\\x%02X" % byte for byte in text)


def stamp(contents: bytes) -> str:
    form, days, milliseconds = contents[0], number(contents[1:3]), number(contents[3:7])
    if form != 64 or milliseconds >= 86400000:
        return "form %d days %d milliseconds %d" % (form, days, milliseconds)
    date = datetime.date(1958, 1, 1) + datetime.timedelta(days)
    seconds, rest = divmod(milliseconds, 1000)
    hours, minutes = divmod(seconds // 60, 60)
    return "%sT%02d:%02d:%02d.%03dZ" % (date.isoformat(), hours, minutes, seconds % 60, rest)


def words(record: Record) -> str:
    c = record.contents
    if record.at == 0:
        return " primary type %d header %d bits %d" % (c[0], number(c[1:5]), number(c[5:13]))
    if is_read_as(record, 1):
        return " image bits %d columns %d lines %d compression %d" % structure(c)
    if is_read_as(record, 2):
        factors = [signed(c[place : place + 4]) for place in (32, 36, 40, 44)]
        return f" navigation {escaped(c[:32].rstrip(bytes(1) + b' '))} {' '.join(map(str, factors))}"
    if record.kind in (3, 4, 6):
        return " text " + escaped(c)
    if is_read_as(record, 5):
        return " stamp " + stamp(c)
    if record.kind == 7:
        return " key"
    if is_read_as(record, 128):
        return " segment %d %d %d %d %d %d %d" % tuple(pairs(c))
    if is_read_as(record, 131):
        return " lossless flags %d block %d lines %d" % (number(c[:2]), c[2], c[3])
    return " other"


def lines(proper: bytes) -> str:
    """What `show` prints of the header."""
    fault = fault_of(proper)
    if fault:
        return "header fault %s\n" % " ".join(map(str, fault))
    return "".join("record %d length %d%s\n" % (r.kind, r.length, words(r)) for r in records(proper))


def file_line(place: int, file: File, origin: tuple[int, int, int] | None) -> str:
    """What `list` prints of a file (channel, application, bodies) and where it came from."""
    channel, application, bodies = file
    data = b"".join(bodies)
    declared, real = number(data[2:10]), 8 * (len(data) - 10)
    return "file %d vc %d apid %d counter %d bytes %d packets %d declared %d real %d %s type %s frames %s\n" % (
        place,
        channel,
        application,
        number(data[:2]),
        len(data),
        len(bodies),
        declared,
        real,
        "same" if declared == real else "differs",
        "fault" if fault_of(data[10:]) else data[13],
        "%d %d corrected %d" % origin if origin else "none",
    )


# ---- the drawn headers

HEADERS = 300
KINDS = [1, 2, 3, 4, 5, 6, 7, 128, 131, 0]
LENGTHS = {1: 9, 2: 51, 5: 10, 128: 17, 131: 7}


def drawn_record(draw: Draw) -> bytes:
    """A record that mostly has the length of its kind, and as many bytes after its head as its length says."""
    drawn = draw.byte()
    kind = KINDS[drawn % 10] if drawn < 240 else drawn
    short = 3 + draw.below(9)
    drawn = draw.byte()
    length = draw.below(4) if drawn < 10 else draw.below(24) if drawn < 30 else LENGTHS.get(kind, short)
    fill = draw.byte() if draw.byte() < 16 else None
    size = max(length, 3) - 3
    contents = draw.bytes(size) if fill is None else bytes([fill]) * size
    return bytes([kind]) + big(2, length) + contents


def drawn_proper(draw: Draw) -> bytes:
    """A mission file proper whose header mostly has no fault."""
    tiles = b"".join(drawn_record(draw) for _ in range(draw.below(7)))
    drawn = draw.byte()
    kind = drawn if drawn < 6 else 0
    length = 16 if draw.byte() < 250 else draw.below(32)
    end = 16 + len(tiles)
    if draw.byte() < 40:
        end = draw.below(end + 3)
    head = bytes([kind]) + big(2, length) + bytes([draw.byte()]) + big(4, end)
    bits = draw.bytes(8)
    data = draw.bytes(draw.below(5))
    proper = head + bits + tiles + data
    return proper[: draw.below(len(proper))] if draw.byte() < 20 else proper


def told(proper: bytes) -> bytes:
    """The lines, and what the first records of a kind say, as one text."""
    text = lines(proper).encode()
    if fault_of(proper):
        return text
    segment, lossless, image = first(proper, 128), first(proper, 131), first(proper, 1)
    said = [int(is_encrypted(proper))]
    said += pairs(segment)[-2:] if segment else [65535]
    said += [number(lossless[:2])] if lossless else [65534]
    said += [structure(image)[1]] if image else [65533]
    return text + b"".join(big(2, n) for n in said)


def main() -> None:
    draw = Draw(5)
    kinds = dict.fromkeys(["ended", "not-primary", "short", "overrun", "length"], 0)
    found = total = 0
    for _ in range(HEADERS):
        proper = drawn_proper(draw)
        fault = fault_of(proper)
        if fault:
            kinds[str(fault[0])] += 1
        else:
            found += len(records(proper))
        for byte in told(proper):
            total = (total * 65599 + byte) % 2**64
    counts = " ".join("%s %d" % kind for kind in kinds.items())
    print("headers %d %s records %d checksum %d" % (HEADERS, counts, found, total))


# ---- a shelf whose files have each kind of record, and each fault

EDGES = bytes([0x1F, 0x20, 0x5C, 0x7E, 0x7F, 0xFF])


def header(kind: int, tiles: bytes, end: int | None = None) -> bytes:
    size = 16 + len(tiles) if end is None else end
    return downlink.primary(kind, size, 1600) + tiles


def whole_header() -> bytes:
    name = b"GEOS\0(-75.2) \x1F \0" + bytes(16)
    factors = b"".join(n.to_bytes(4, "big", signed=True) for n in (20466275, -20466275, 5500, -1))
    return header(
        0,
        record(1, bytes([8, 0, 64, 1, 0, 2]))
        + record(2, name + factors)
        + record(2, bytes(48))
        + record(3, b"$HALFTONE:=8")
        + record(4, EDGES)
        + record(4, b"")
        + record(6, b"")
        + record(5, bytes([64]) + big(2, 4383) + big(4, 86399999))
        + record(5, bytes([65, 0, 7, 0, 0, 0, 9]))
        + record(7, b"\1")
        + record(128, bytes([0, 1, 0, 2, 0, 3, 0, 4, 0, 5, 0, 6, 1, 0]))
        + record(128, bytes(13))
        + record(131, bytes([0, 49, 16, 1]))
        + record(131, bytes(5))
        + record(0, bytes(13))
        + record(200, b"")
    )


SHOWN = [
    whole_header(),
    header(2, b"")[:15],
    b"\1" + header(2, b"")[1:],
    header(2, record(9, b"") + b"\4\0\2"),
    header(2, record(9, b"") + b"\4\0"),
    header(2, record(5, bytes(8))),
]


def frame(files: Iterable[File]) -> bytes:
    """The frame of channel 0 with these files and an idle packet after them, without the zeros at its end."""
    packets = b"".join(downlink.packet(100, 3, place, downlink.checked(it[2][0])) for place, it in enumerate(files))
    return downlink.frame(0, 0, 0, packets + downlink.idle(downlink.ZONE - len(packets))[:6], 1)


def shown() -> None:
    files: list[File] = [(0, 100, [downlink.transport(place, 8 * len(p)) + p]) for place, p in enumerate(SHOWN)]
    shelf.show("a frame with the files", frame(files))
    for place, file in enumerate(files):
        print(file_line(place, file, (0, 0, 0)), end="")
        print(lines(SHOWN[place]), end="")
    print("files %d used %d" % (len(files), 20 + sum(1 + len(shelf.add(file, (0, 0, 0))) for file in files)))


# ---- the worked examples


def check() -> None:
    plain = bytes.fromhex("0000100200000010") + bytes(8)
    assert fault_of(plain) is None and lines(plain) == "record 0 length 16 primary type 2 header 16 bits 0\n"
    assert fault_of(bytes.fromhex("00001002FFFFFFFF") + bytes(8)) == ("ended", 16)
    assert fault_of(bytes.fromhex("000010020000000F") + bytes(8)) == ("overrun", 0)
    assert fault_of(bytes.fromhex("0000100200000012") + bytes(8) + b"\4\0") == ("overrun", 16)
    assert fault_of(bytes.fromhex("0000100200000013") + bytes(8) + b"\4\0\2") == ("short", 16)
    assert fault_of(bytes.fromhex("0000100200000013") + bytes(8) + b"\4\0\4") == ("overrun", 16)
    late = record(5, bytes([64]) + big(2, 4383) + big(4, 86399999))
    assert lines(header(0, late)).endswith("record 5 length 10 stamp 1970-01-01T23:59:59.999Z\n")
    assert fault_of(header(0, late[:2] + b"\x0B" + late[3:] + b"\0")) == ("length", 5, 11)
    body = b"\0\7" + (136).to_bytes(8, "big") + plain
    told_of = "file 0 vc 0 apid 100 counter 7 bytes 26 packets 1 declared 136 real 128 differs type 2 frames 0 0 "
    assert file_line(0, (0, 100, [body]), (0, 0, 0)) == told_of + "corrected 0\n"


if __name__ == "__main__":
    check()
    if sys.argv[1:] == ["shown"]:
        shown()
    else:
        main()
