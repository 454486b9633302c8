"""Copies what a corrupt shelf still has onto a new shelf NEW: the whole items before the damage, and after it each item
that is found by its open gate and correct checksum. BROKEN is only read. NEW must not exist; it gets BROKEN's capacity.
Prints a line `file OLD new NEW` for each file; after the damage the old number may be unknown, and is `-` then. A
discard is copied if its file is known. Status 1: nothing was found, or NEW can't be written.
"""

# A copied item is never searched, and neither is what follows a closed gate, as that was never part of the shelf, nor a
# damaged item whose lengths lead to a sound one: a file may have bytes in it that look like an item. The bytes of any
# other damaged item are searched.

import binascii
import errno
import fcntl
import os
import re
from collections.abc import Iterator
from typing import NamedTuple

from . import program
from . import shelf as shelves
from .shelf import Head, Pieces, Shelf

SEARCHED_BYTES = 1 << 20  # that are searched at once for an open gate
BLOCK_BYTES = 4096  # of the disk, where it can't be read
MOST_CAPACITY = 1 << 40
MOST_VAIN_BYTES = 1 << 30  # whose checksum is wrong, in one search
MOST_BATCH_BYTES = 16 << 20
MOST_BATCH_ITEMS = 1024
LENGTHS_AT_ONCE = 4096
GATE = re.compile(rb"\x01[\x00-\x3f\x80\x81]")  # an open one, and how an item begins
CLOSED = b"\0"


class Item(NamedTuple):
    """A whole item of the broken shelf, with its old number, or None if that is unknown."""

    head: Head
    number: int | None


class Broken:
    """A broken shelf. Only its checksums are trusted."""

    def __init__(self, path: str):
        self.path = path
        self.descriptor = os.open(path, os.O_RDONLY)
        self.size = os.fstat(self.descriptor).st_size
        self.pieces = Pieces(self.read)

    def read(self, place: int, count: int) -> bytes:
        """Returns the bytes from a place on, with zeros where the disk can't be read."""
        data = b""
        while len(data) < count and place + len(data) < self.size:
            part = self.read_once(place + len(data), count - len(data))
            if not part:
                break
            data += part
        return data

    def read_once(self, place: int, count: int) -> bytes:
        try:
            return os.pread(self.descriptor, count, place)
        except OSError as fault:
            if fault.errno != errno.EIO:
                raise
        try:
            count = min(count, BLOCK_BYTES - place % BLOCK_BYTES)
            return os.pread(self.descriptor, count, place)
        except OSError:
            return bytes(count)

    def header(self) -> bytes:
        """Returns the header of the new shelf: that of the broken one, or one with the greatest capacity."""
        found = self.read(0, shelves.HEADER_BYTES)
        if shelves.capacity_of(found) is not None:
            return found
        program.tell(f"the header of {self.path} is damaged: the new shelf gets the greatest capacity")
        return shelves.header_of(MOST_CAPACITY)

    # ---- items

    def head_at(self, gate: int, number: int = 1 << 62) -> Head | None:
        """Returns the head of a possible item after a gate, whether the gate is open or not. The item may pass the
        end."""
        data = shelves.OPEN_GATE + self.pieces.read(gate, shelves.GATE_AND_HEAD_BYTES)[1:]
        is_discard = data[1:2] == bytes([shelves.DISCARD])
        return shelves.discard_head(data, gate) if is_discard else shelves.file_head(data, gate, number)

    def is_whole(self, head: Head) -> bool:
        """Returns whether an item is complete and its checksum is right."""
        if head.next_gate >= self.size:
            return False
        return head.is_discard or (self.has_its_lengths(head) and self.has_its_checksum(head))

    def has_its_lengths(self, head: Head) -> bool:
        """Returns whether the lengths of a file's bodies add up to the size in its fields."""
        begin = self.read(head.gate + 1, shelves.GATE_AND_HEAD_BYTES)
        fields = shelves.fields_of(begin)
        place = head.next_gate - shelves.CHECKSUM_BYTES - fields.size - 2 * fields.packets
        left, end = fields.size, place + 2 * fields.packets
        while place < end and left >= 0:
            data = self.read(place, min(2 * LENGTHS_AT_ONCE, end - place))
            left -= sum(data[::2]) * 256 + sum(data[1::2])
            place += len(data)
            if not data:
                return False
        return left == 0

    def has_its_checksum(self, head: Head) -> bool:
        place, end, sum_ = head.gate + 1, head.next_gate - shelves.CHECKSUM_BYTES, shelves.CHECKSUM_BEGIN
        while place < end:
            data = self.read(place, min(SEARCHED_BYTES, end - place))
            if not data:
                return False
            sum_, place = binascii.crc_hqx(data, sum_), place + len(data)
        return self.read(end, shelves.CHECKSUM_BYTES) == sum_.to_bytes(shelves.CHECKSUM_BYTES, "big")

    def items(self) -> Iterator[Item]:
        """Yields the whole items in order."""
        gate, number, is_known = shelves.FIRST_GATE, 0, True
        while gate + 1 < self.size:
            is_open = self.pieces.read(gate, 1) == shelves.OPEN_GATE
            head = self.head_at(gate, number)
            if head and self.is_whole(head):
                if is_open:
                    yield Item(head, head.number if head.is_discard else number if is_known else None)
            elif head and (self.has_its_lengths(head) or self.leads_on(head)):
                self.tell_damaged(head, is_open, is_known)
            else:
                is_known = False
                found = self.next_item(gate + 1) or self.size
                program.tell(f"{found - gate} bytes from {gate} on hold no whole item")
                gate = found
                continue
            number += not head.is_discard
            gate = head.next_gate

    def tell_damaged(self, head: Head, is_open: bool, is_known: bool) -> None:
        if is_open:
            which = f"file {head.number}" if is_known else "a file"
            what = "has a bad checksum" if head.next_gate < self.size else "is cut off"
            program.tell(f"{which} at {head.gate} {what} and is left out")

    def leads_on(self, head: Head) -> bool:
        """Returns whether this item is followed by a whole item, or by the closed gate at the end."""
        gate = head.next_gate
        data = self.pieces.read(gate, 1)
        if gate + 1 == self.size:
            return data == CLOSED
        further = self.head_at(gate) if data == shelves.OPEN_GATE else None
        return further is not None and self.is_whole(further)

    def next_item(self, place: int) -> int | None:
        """Returns the gate of the first whole item from a place on. (Hostile bytes may look like many items, so the
        bytes compared in vain are limited.)"""
        left = MOST_VAIN_BYTES
        while place < self.size:
            data = self.read(place, SEARCHED_BYTES + 1)
            for found in GATE.finditer(data):
                head = self.head_at(place + found.start())
                if head and head.extent <= left and self.has_its_lengths(head):
                    if self.is_whole(head):
                        return head.gate
                    left -= min(head.extent, self.size - place)
            place += SEARCHED_BYTES
        return None

    def item(self, head: Head) -> bytes:
        return self.read(head.gate + 1, head.extent)


# ---- the new shelf


class New:
    """A shelf that is being written. Items are written in runs: each run is complete and synced before the gate in
    front of it opens."""

    def __init__(self, path: str, header: bytes):
        self.path = path
        self.descriptor = os.open(path, os.O_RDWR | os.O_CREAT | os.O_EXCL, 0o644)
        fcntl.flock(self.descriptor, fcntl.LOCK_EX)
        self.gate = shelves.FIRST_GATE
        self.run: list[bytes] = []
        self.size = 0
        self.write(0, header + CLOSED)
        os.fsync(self.descriptor)

    def write(self, place: int, data: bytes) -> None:
        while data:
            count = os.pwrite(self.descriptor, data, place)
            data, place = data[count:], place + count

    def add(self, item: bytes) -> None:
        self.run.append(item)
        self.size += len(item)
        if self.size > MOST_BATCH_BYTES or len(self.run) >= MOST_BATCH_ITEMS:
            self.put()

    def put(self) -> None:
        if self.run:
            data = shelves.OPEN_GATE.join(self.run) + CLOSED
            self.write(self.gate + 1, data)
            os.fsync(self.descriptor)
            self.write(self.gate, shelves.OPEN_GATE)
            os.fsync(self.descriptor)
            self.gate += len(data)
            self.run, self.size = [], 0

    def close(self) -> None:
        os.close(self.descriptor)


def salvage(path: str, new_path: str) -> int:
    """Copies the items of a broken shelf. Returns the status."""
    broken = Broken(path)
    new = New(new_path, broken.header())
    try:
        count = copied(broken, new)
        new.put()
        new.close()
    except BaseException:
        os.unlink(new_path)
        raise
    if not count:
        os.unlink(new_path)
        program.tell(f"{path} has no whole file")
        return 1
    with Shelf(new_path) as it:
        files = sum(not head.is_discard for head in it.heads())
    print(f"files {files}", flush=True)
    return 0


def copied(broken: Broken, new: New) -> int:
    """Copies the items and prints the table of numbers. Returns the number of files."""
    numbers: dict[int, int] = {}
    count = 0
    for item in broken.items():
        if not item.head.is_discard:
            new.add(broken.item(item.head))
            if item.number is not None:
                numbers[item.number] = count
            print(f"file {'-' if item.number is None else item.number} new {count}")
            count += 1
        elif item.head.number in numbers:
            new.add(shelves.discard_of(numbers[item.head.number]))
            print(f"discarded {item.head.number} new {numbers[item.head.number]}")
        else:
            program.tell(f"the discard of file {item.head.number} is left out: its new number is unknown")
    return count
