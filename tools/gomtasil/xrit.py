"""The headers of mission files, by CGMS 03 and the documents of the services: records, names, stamps, and the mark of a
file that lacks packets. docs/FORMATS.md has a table of the records."""

import datetime
import re
import struct
from typing import NamedTuple

TRANSPORT = struct.Struct(">HQ")  # file counter, declared bits
PRIMARY = struct.Struct(">BHBIQ")  # kind, length, file type, bytes of the header, bits of the data field
TYPE_PLACE = 3  # of the file type in it
RECORD = struct.Struct(">BH")  # kind, length
STRUCTURE = struct.Struct(">BHHB")  # bits a pixel, columns, lines, compression
STAMP = struct.Struct(">BHI")  # form, days since 1958, milliseconds of the day
STAMP_FORM = 0x40
STAMP_BEGIN = datetime.datetime(1958, 1, 1)
DAY_MILLISECONDS = 86_400_000
PRIMARY_KIND, STRUCTURE_KIND, NAVIGATION_KIND, ANNOTATION_KIND, STAMP_KIND, TEXT_KIND, KEY_KIND = 0, 1, 2, 4, 5, 6, 7
SEGMENT_KIND, LOSSLESS_KIND = 128, 131
LOSSLESS_BYTES = 7
NAVIGATION = struct.Struct(">32siiii")  # name, column factor, line factor, column offset, line offset
FIXED_LENGTHS = {STRUCTURE_KIND: 9, NAVIGATION_KIND: 51, STAMP_KIND: 10}
IMAGE_TYPE, GTS_TYPE, TEXT_TYPE = 0, 1, 2
FAULTY = -1  # in place of a type, where the header has a fault
NOT_COMPRESSED, LOSSLESS = 0, 1
RUN = rb"\d{1,7}(?:-\d{1,7})?"  # the place of a packet that stands in, or the first and the last of several
MENDED = re.compile(rb"gomtasil mended (" + RUN + rb"(?: " + RUN + rb"){0,1022}) of (\d{1,7})")
MOST_FILLERS = 1023


class Structure(NamedTuple):
    """Record 1, of an image."""

    bits: int
    columns: int
    lines: int
    compression: int  # 0 none, 1 lossless, 2 lossy

    @property
    def area(self) -> int:
        """The pixels."""
        return self.columns * self.lines


class Navigation(NamedTuple):
    """Record 2, of an image: how its columns and lines lead to angles."""

    name: bytes
    column_factor: int
    line_factor: int
    column_offset: int
    line_offset: int


class Mended(NamedTuple):
    """How many packets of a file stand in for some that were lost."""

    fillers: int
    packets: int  # all of them

    def __str__(self) -> str:
        return f"mended {self.fillers} of {self.packets}"


class Header(NamedTuple):
    """The header of a mission file: its type, its bytes, and the kinds and contents of its records after the first.
    One that has a fault has no record, and the whole file are its bytes."""

    file_type: int
    size: int
    records: list[tuple[int, bytes]]

    def first(self, kind: int) -> bytes | None:
        """The contents of the first record of a kind, or None."""
        for found, contents in self.records:
            if found == kind:
                return contents
        return None

    @property
    def structure(self) -> Structure | None:
        contents = self.first(STRUCTURE_KIND)
        return None if contents is None else Structure(*STRUCTURE.unpack(contents))

    @property
    def navigation(self) -> Navigation | None:
        contents = self.first(NAVIGATION_KIND)
        return None if contents is None else Navigation(*NAVIGATION.unpack(contents))

    @property
    def annotation(self) -> bytes:
        """The name that the file is given, or nothing."""
        return self.first(ANNOTATION_KIND) or b""

    @property
    def is_image(self) -> bool:
        return self.file_type == IMAGE_TYPE

    @property
    def is_declared_text(self) -> bool:
        return self.file_type in (GTS_TYPE, TEXT_TYPE)

    @property
    def is_lossless(self) -> bool:
        """Whether a record says how lines are coded without loss."""
        return any(is_lossless_record(*it) for it in self.records)

    @property
    def is_open(self) -> bool:
        """Whether it has no fault, and no key record has a byte that isn't 0, such as that of an encrypted file."""
        return self.file_type != FAULTY and not any(kind == KEY_KIND and any(it) for kind, it in self.records)

    @property
    def is_open_image(self) -> bool:
        """Whether it is of an image that isn't encrypted, with a record of its structure."""
        return self.is_open and self.is_image and self.structure is not None

    @property
    def stamp(self) -> datetime.datetime | None:
        found = self.first(STAMP_KIND)
        if not found:
            return None
        form, days, milliseconds = STAMP.unpack(found)
        if form != STAMP_FORM or milliseconds >= DAY_MILLISECONDS:
            return None
        return STAMP_BEGIN + datetime.timedelta(days=days, milliseconds=milliseconds)

    def stamped(self, form: str) -> str:
        """The time stamp in a form, or nothing."""
        stamp = self.stamp
        return f"{stamp:{form}}" if stamp else ""

    @property
    def mended(self) -> Mended | None:
        """What the last record of that text says, or None where no packet was missing."""
        found = [mended for mended in map(mended_of, self.texts) if mended]
        return found[-1] if found else None

    @property
    def fillers(self) -> list[range]:
        """The places of the packets that stand in, by the same record."""
        found = [it for it in map(fillers_of, self.texts) if it]
        return found[-1][0] if found else []

    @property
    def texts(self) -> list[bytes]:
        return [contents for kind, contents in self.records if kind == TEXT_KIND]

    @property
    def lines_per_packet(self) -> int:
        """Of lines that are coded without loss; 0 where no record says it."""
        found = [contents for kind, contents in self.records if is_lossless_record(kind, contents)]
        return found[0][3] if found else 0


def fillers_of(text: bytes) -> tuple[list[range], int] | None:
    """The places of the packets that stand in by such a text as `gomtasil mended 2 8-9 of 13`, and how many packets
    there are."""
    match = MENDED.fullmatch(text)
    if not match:
        return None
    packets, runs = int(match[2]), [range(0)]
    for run in match[1].split():
        first, _, last = run.partition(b"-")
        runs.append(range(int(first), int(last or first) + 1))
        if not runs[-2].stop <= runs[-1].start < runs[-1].stop <= packets:
            return None
    return (runs[1:], packets) if sum(map(len, runs)) <= MOST_FILLERS else None


def mended_of(text: bytes) -> Mended | None:
    """How many these are."""
    found = fillers_of(text)
    return Mended(sum(map(len, found[0])), found[1]) if found else None


def is_lossless_record(kind: int, contents: bytes) -> bool:
    return kind == LOSSLESS_KIND and RECORD.size + len(contents) == LOSSLESS_BYTES


def header_of(proper: bytes) -> Header:
    """The header of a mission file ("Header records")."""
    faulty = Header(FAULTY, len(proper), [])
    if len(proper) < PRIMARY.size:
        return faulty
    kind, length, file_type, size, _ = PRIMARY.unpack_from(proper)
    if kind != PRIMARY_KIND or length != PRIMARY.size or not PRIMARY.size <= size <= len(proper):
        return faulty
    records, at = [], PRIMARY.size
    while at < size:
        kind, length = RECORD.unpack_from(proper, at) if at + RECORD.size <= size else (0, 0)
        if not RECORD.size <= length <= size - at or FIXED_LENGTHS.get(kind, length) != length:
            return faulty
        records.append((kind, proper[at + RECORD.size : at + length]))
        at += length
    return Header(file_type, size, records)


def is_mission_file(front: bytes, size: int) -> bool:
    """Whether a file of this size begins as a mission file does, and its primary record says of no more bytes."""
    if len(front) < PRIMARY.size:
        return False
    fields: tuple[int, ...] = PRIMARY.unpack(front[: PRIMARY.size])
    kind, length, _, header_bytes, bits = fields
    is_primary = kind == 0 and length == PRIMARY.size
    return is_primary and PRIMARY.size <= header_bytes and header_bytes + (bits + 7) // 8 <= size


def record(kind: int, contents: bytes) -> bytes:
    return RECORD.pack(kind, len(contents) + RECORD.size) + contents


def mission_file(file_type: int, records: bytes, data: bytes, bits: int | None = None) -> bytes:
    """A mission file without its transport header; `bits` of the data field, where they aren't 8 a byte."""
    size = PRIMARY.size + len(records)
    primary = PRIMARY.pack(PRIMARY_KIND, PRIMARY.size, file_type, size, 8 * len(data) if bits is None else bits)
    return primary + records + data
