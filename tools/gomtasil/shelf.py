"""The files of a shelf, read by docs/FORMATS.md alone: its section "The shelf file" says what the bytes are.

A shelf may be read while a receiver writes to it: a gate opens only after its item stands whole on the disk, so whoever
reads a gate before its item sees whole items. Bytes are read in ascending order, and no length of the file is kept that
was asked for before a gate.
"""

import binascii
import contextlib
import os
import struct
from collections.abc import Callable, Iterable, Iterator
from dataclasses import dataclass
from functools import cached_property
from typing import NamedTuple, Self

from . import xrit

ENDING = ".shelf"  # of a shelf's name

# ---- the shelf's header (bytes)
COMPLETE = 0x5A
NAME = b"LRSHELF"
VERSIONS = (1, 2)
HEADER_BYTES = 19
FIRST_GATE = HEADER_BYTES
CHECKSUM_BYTES = 2
LENGTH_BYTES = 2  # of a body's length
CHECKSUM_BEGIN = 0xFFFF

# ---- gates and items
OPEN = 0x01
OPEN_GATE = bytes([OPEN])
FILE = 0x80
DISCARD = 0x81
CHANNELS = 64
FIELDS = struct.Struct(">BHII")  # channel, application, packets, bytes
ORIGIN = struct.Struct(">QQQ")  # the frames of the first and the last packet, corrected bytes
DISCARD_BYTES = 11
GATE_AND_HEAD_BYTES = 1 + 1 + FIELDS.size + ORIGIN.size
NEW_ITEM_BYTES = 1 + FIELDS.size + ORIGIN.size + CHECKSUM_BYTES  # of a file's item without its bodies and their lengths
MOST_FILE_BYTES = 67_108_864
PIECE_BYTES = 32_768  # that are read at once where many heads are looked at
MARK_BYTES = 512  # of an item's front, by which it is told from others


class ShelfError(Exception):
    """What stands there is no shelf, or its items break off, or a file of it can't be had."""


def checksum(data: bytes) -> int:
    """The CRC of CCSDS packets: x^16+x^12+x^5+1, first value FFFF hex."""
    return binascii.crc_hqx(data, CHECKSUM_BEGIN)


def has_its_checksum(data: bytes) -> bool:
    """Whether these bytes end with the checksum of those before it."""
    stored = int.from_bytes(data[-CHECKSUM_BYTES:], "big")
    return len(data) >= CHECKSUM_BYTES and checksum(data[:-CHECKSUM_BYTES]) == stored


class Head(NamedTuple):
    """Where an item stands. All places and lengths are in bytes."""

    gate: int  # the place of its gate
    extent: int  # the bytes of the item, without the gate
    number: int  # of a file its own number, of a discard that of the file which it discards
    is_discard: bool

    @property
    def next_gate(self) -> int:
        return self.gate + 1 + self.extent


class Fields(NamedTuple):
    """The fields at the front of a file's item."""

    size: int  # the bytes of its bodies
    channel: int
    application: int
    packets: int
    frames: tuple[int, int] | None  # of its first and its last packet; None on a shelf of version 1, or in disorder
    corrected: int  # bytes that were corrected in these frames


class Front(NamedTuple):
    """What stands before a file's contents. No checksum is compared for it."""

    head: Head
    fields: Fields
    counter: int  # of the transport header
    file_type: int  # as the primary record says, and -1 where there is none


@dataclass(frozen=True)
class StoredFile:
    """A file as it stands on a shelf."""

    head: Head
    fields: Fields
    counter: int  # of the transport header
    proper: bytes  # the mission file without its transport header
    item: bytes  # as it stands on the shelf, with the lengths of its bodies

    @property
    def number(self) -> int:
        return self.head.number

    @cached_property
    def header(self) -> xrit.Header:
        return xrit.header_of(self.proper)

    @property
    def lengths(self) -> list[int]:
        """Those of its bodies."""
        end = len(self.item) - CHECKSUM_BYTES - self.fields.size
        places = range(end - LENGTH_BYTES * self.fields.packets, end, LENGTH_BYTES)
        return [int.from_bytes(self.item[at : at + LENGTH_BYTES], "big") for at in places]

    @property
    def data(self) -> bytes:
        """What comes after the header; nothing where that has a fault."""
        return self.proper[self.header.size :]


def fields_of(item: bytes) -> Fields:
    at, origin, corrected = 0, None, 0
    if item[0] == FILE:
        at = 1
        first, last, corrected = ORIGIN.unpack_from(item, at + FIELDS.size)
        origin = (first, last) if first <= last else None
    channel, application, packets, count = FIELDS.unpack_from(item, at)
    return Fields(count, channel, application, packets, origin, corrected)


def file_of(head: Head, item: bytes) -> StoredFile:
    """The file that the bytes of an item hold."""
    fields = fields_of(item)
    content = item[len(item) - CHECKSUM_BYTES - fields.size : -CHECKSUM_BYTES]
    counter, _ = xrit.TRANSPORT.unpack_from(content)
    return StoredFile(head, fields, counter, content[xrit.TRANSPORT.size :], item)


def item_of(channel: int, application: int, bodies: list[bytes], frame: int = 0) -> bytes:
    """The item of a file whose packets, of one frame in which nothing was corrected, have these bodies."""
    fields = FIELDS.pack(channel, application, len(bodies), sum(map(len, bodies))) + ORIGIN.pack(frame, frame, 0)
    item = bytes([FILE]) + fields + b"".join(len(it).to_bytes(2, "big") for it in bodies) + b"".join(bodies)
    return item + checksum(item).to_bytes(CHECKSUM_BYTES, "big")


def shelf_of(items: Iterable[bytes]) -> bytes:
    """The bytes of a shelf that has these items alone."""
    body = b"".join(bytes([OPEN]) + item for item in items) + b"\0"
    return header_of(HEADER_BYTES + len(body)) + body


def header_of(capacity: int) -> bytes:
    """The header of a shelf of at most `capacity` bytes."""
    named = NAME + bytes([VERSIONS[-1]]) + capacity.to_bytes(8, "big")
    return bytes([COMPLETE]) + named + checksum(named).to_bytes(CHECKSUM_BYTES, "big")


def capacity_of(header: bytes) -> int | None:
    """The capacity that a shelf's header says; None where it is none."""
    named = header[1:]
    is_named = len(header) == HEADER_BYTES and header[0] == COMPLETE and named.startswith(NAME)
    if not is_named or named[len(NAME)] not in VERSIONS or not has_its_checksum(named):
        return None
    return int.from_bytes(named[len(NAME) + 1 : -CHECKSUM_BYTES], "big")


def discard_of(number: int) -> bytes:
    """The item that discards a file."""
    item = bytes([DISCARD]) + number.to_bytes(DISCARD_BYTES - 1 - CHECKSUM_BYTES, "big")
    return item + checksum(item).to_bytes(CHECKSUM_BYTES, "big")


def sound(heads: Iterable[Head]) -> Iterator[Head]:
    """Heads up to where the items break off."""
    with contextlib.suppress(ShelfError):
        yield from heads


class Pieces:
    """Bytes that are read in pieces, for many short looks in ascending order."""

    def __init__(self, read_on: Callable[[int, int], bytes]):
        self.read_on = read_on
        self.start = 0
        self.data = b""

    def read(self, place: int, count: int) -> bytes:
        at = self.place_of(place, count)
        return self.data[at : at + count]

    def place_of(self, place: int, count: int) -> int:
        """Where in `data` the bytes from a place on stand; fewer where the file ends."""
        at = place - self.start
        if at < 0 or at + count > len(self.data):
            self.data = self.read_on(place, max(count, PIECE_BYTES))
            self.start, at = place, 0
        return at


class Shelf:
    """A shelf that is open for reading."""

    def __init__(self, path: str):
        self.path = path
        self.descriptor = os.open(path, os.O_RDONLY)
        self.known_size = 0
        try:
            self.capacity = self.read_capacity()
        except BaseException:
            self.close()
            raise

    def __enter__(self) -> Self:
        return self

    def __exit__(self, *_: object) -> None:
        self.close()

    def close(self) -> None:
        os.close(self.descriptor)

    def read(self, place: int, count: int) -> bytes:
        """The bytes from a place on: fewer where the file ends."""
        data = b""
        while len(data) < count and (part := os.pread(self.descriptor, count - len(data), place + len(data))):
            data += part
        return data

    def read_capacity(self) -> int:
        capacity = capacity_of(self.read(0, HEADER_BYTES))
        if capacity is None:
            raise ShelfError("not a shelf at 0")
        return capacity

    def heads(self, gate: int = FIRST_GATE, number: int = 0) -> Iterator[Head]:
        """The heads of the items from a gate on, where the next file has this number."""
        pieces = Pieces(self.read)
        before, shortest = bytes([OPEN, FILE]), xrit.TRANSPORT.size
        while True:
            at = pieces.place_of(gate, GATE_AND_HEAD_BYTES)
            # (most items are files of the newer form, and a month has many)
            if pieces.data.startswith(before, at) and at + GATE_AND_HEAD_BYTES <= len(pieces.data):
                channel, _, packets, count = FIELDS.unpack_from(pieces.data, at + 2)
                extent = NEW_ITEM_BYTES + 2 * packets + count
                following = gate + 1 + extent
                is_sound = channel < CHANNELS and packets > 0 and shortest <= count <= MOST_FILE_BYTES
                if not is_sound or (following >= self.known_size and not self.is_before_the_end(following)):
                    raise ShelfError(f"not a shelf at {gate}")
                yield Head(gate, extent, number, False)
                gate, number = following, number + 1
                continue
            head = self.head_at(pieces, gate, number)
            if head is None:
                return
            yield head
            gate, number = head.next_gate, number + (not head.is_discard)

    def head_at(self, pieces: Pieces, gate: int, number: int) -> Head | None:
        """The head of the item after a gate, or None where the gate is closed."""
        data = pieces.read(gate, GATE_AND_HEAD_BYTES)
        if not data or data[0] != OPEN:
            return None
        is_discard = data[1:2] == bytes([DISCARD])
        head = discard_head(data, gate) if is_discard else file_head(data, gate, number)
        if head is None or (is_discard and head.number >= number) or not self.is_before_the_end(head.next_gate):
            raise ShelfError(f"not a shelf at {gate}")
        return head

    def is_before_the_end(self, place: int) -> bool:
        # (asked for after the gate was read, so it is never too small beside a receiver)
        if place >= self.known_size:
            self.known_size = os.fstat(self.descriptor).st_size
        return place < self.known_size

    def fronts(self, gate: int = FIRST_GATE, number: int = 0, gone: Iterable[int] = ()) -> Iterator[Front]:
        """The fronts of the files from a gate on, without these numbers, up to where the items break off."""
        pieces, left_out = Pieces(self.read), frozenset(gone)
        for head in sound(self.heads(gate, number)):
            if not head.is_discard and head.number not in left_out:
                yield self.front(head, pieces)

    def front(self, head: Head, pieces: Pieces | None = None) -> Front:
        read = pieces.read if pieces else self.read
        fields = fields_of(read(head.gate + 1, GATE_AND_HEAD_BYTES - 1))
        begin = read(head.next_gate - CHECKSUM_BYTES - fields.size, xrit.TRANSPORT.size + xrit.TYPE_PLACE + 1)
        counter, _ = xrit.TRANSPORT.unpack_from(begin)
        has_type = fields.size > xrit.TRANSPORT.size + xrit.TYPE_PLACE
        return Front(head, fields, counter, begin[-1] if has_type else -1)

    def images(self) -> Iterator[Head]:
        """The heads of the images that aren't discarded, by what stands at their fronts."""
        return (it.head for it in self.fronts(gone=self.gone()) if it.file_type == xrit.IMAGE_TYPE)

    def item(self, head: Head) -> bytes:
        """The bytes of an item, without its gate."""
        return self.read(head.gate + 1, head.extent)

    def load(self, head: Head) -> StoredFile | None:
        """The file of a head, or None where its checksum is wrong."""
        item = self.item(head)
        return file_of(head, item) if has_its_checksum(item) else None

    def mark(self, head: Head) -> bytes:
        """Some bytes of an item, by which another item in the same place is known."""
        front = self.read(head.gate + 1, min(head.extent, MARK_BYTES))
        return front + self.read(head.next_gate - CHECKSUM_BYTES, CHECKSUM_BYTES)

    def gone(self) -> set[int]:
        """The numbers of the files that are discarded."""
        return {head.number for head in sound(self.heads()) if head.is_discard}

    def kept(self) -> Iterator[Head]:
        """The heads of the files that aren't discarded, up to where the items break off."""
        gone = self.gone()
        return (head for head in sound(self.heads()) if not head.is_discard and head.number not in gone)

    def file(self, number: int) -> StoredFile:
        """The file of a number. ShelfError where there is none, it is discarded, or its checksum is wrong."""
        head = next((it for it in self.kept() if it.number == number), None)
        file = head and self.load(head)
        if not file:
            raise ShelfError(f"file {number} isn't there, is discarded, or has a bad checksum")
        return file


def discard_head(data: bytes, gate: int) -> Head | None:
    """The head of a discard that stands whole after its gate, or None."""
    item = data[1 : 1 + DISCARD_BYTES]
    if len(item) < DISCARD_BYTES or not has_its_checksum(item):
        return None
    return Head(gate, DISCARD_BYTES, int.from_bytes(item[1:-CHECKSUM_BYTES], "big"), True)


def file_head(data: bytes, gate: int, number: int) -> Head | None:
    """The head of a file's item of either version after its gate, or None."""
    is_new = data[1:2] == bytes([FILE])
    before = 2 if is_new else 1
    if len(data) < before + FIELDS.size:
        return None
    channel, _, packets, count = FIELDS.unpack_from(data, before)
    if channel >= CHANNELS or packets == 0 or not xrit.TRANSPORT.size <= count <= MOST_FILE_BYTES:
        return None
    fields = before - 1 + FIELDS.size + (ORIGIN.size if is_new else 0)
    return Head(gate, fields + 2 * packets + count + CHECKSUM_BYTES, number, False)


# ---- shelves of a folder


def label_of(path: str) -> str:
    """The name of a shelf without its folder and its ending."""
    return os.path.basename(path).removesuffix(ENDING)


def paths_of(path: str) -> list[str]:
    """The shelves to look at: this one, or those of this folder by their names."""
    if not os.path.isdir(path):
        return [path]
    names = sorted(name for name in os.listdir(path) if name.endswith(ENDING))
    return [whole for name in names if os.path.isfile(whole := os.path.join(path, name))]
