"""What was taken of a shelf into a folder, so that each file is taken once: a log with a line for each item.

A log isn't kept in memory: 10^6 files take up to 190 MB. Its last line says where to go on, and the line of a file is
found by bisection, since the count of files grows along it.
"""

import contextlib
import fcntl
import hashlib
import itertools
import json
import os
import shutil
from collections.abc import Collection, Iterator
from typing import NamedTuple, Self

from . import folder as folders
from .shelf import Head, Shelf, label_of

MOST_LABEL_CHARACTERS = 40
MOST_BATCH_FILES = 4096  # that are noted at once, and then get their names
SUM_DIGITS = 32
TAIL_BYTES = 65_536  # at a log's end that are read for its last line; a line has fewer
NO_SUM = "-"


class Refusal(Exception):
    """The files of a shelf can't be extracted into this folder."""


class Line(NamedTuple):
    """A line of the log: an item of the shelf that is done with."""

    what: str  # file, left or discard; or renamed, with the place of the item before
    number: int  # of the file, or of the one that is discarded
    files: int  # up to this item
    gate: int
    extent: int
    sum: str  # of the item's bytes
    name: str  # of the file in the folder; of one that was left out, why
    file_sum: str = NO_SUM  # of the file as it was sent, without its transport header and whatever the shelf adds

    def __str__(self) -> str:
        return " ".join(map(str, self)) + "\n"

    @classmethod
    def of(cls, text: str) -> Self:
        # (lines of an earlier version have no sum of the file)
        what, number, files, gate, extent, found, name, *rest = text.split(" ")
        (file_sum,) = rest or (NO_SUM,)
        return cls(what, int(number), int(files), int(gate), int(extent), found, name, file_sum)


def sum_of(data: bytes) -> str:
    return hashlib.sha256(data).hexdigest()[:SUM_DIGITS]


class Log:
    """The log of a shelf, STATE/LABEL.log: the shelf's path and then a line for each item, each written before the file
    gets its name. It is locked while it is open."""

    def __init__(self, path: str):
        self.path = path
        self.descriptor = os.open(path, os.O_RDWR | os.O_CREAT, 0o644)
        self.is_mine = False
        try:
            with contextlib.suppress(BlockingIOError):
                fcntl.flock(self.descriptor, fcntl.LOCK_EX | fcntl.LOCK_NB)
                self.is_mine = True
            self.read()
        except BaseException:
            self.close()
            raise

    def read(self) -> None:
        """Finds the end of the last whole line, the shelf's path, and the last line."""
        size = os.fstat(self.descriptor).st_size
        begin = max(0, size - TAIL_BYTES)
        tail = os.pread(self.descriptor, size - begin, begin)
        # (a kill in the middle of a write leaves a line without its end)
        self.size = begin + tail.rfind(b"\n") + 1 if b"\n" in tail else 0
        first = os.pread(self.descriptor, min(self.size, TAIL_BYTES), 0).split(b"\n", 1)[0]
        self.begin_size = len(first) + 1 if self.size else 0
        lines = tail[: self.size - begin].split(b"\n")[:-1]
        try:
            self.shelf_path = json.loads(first) if self.size else None
            self.last = self.line(lines[-1]) if self.size > self.begin_size else None
        except (ValueError, TypeError):
            raise Refusal(f"{self.path} can't be read") from None

    def line(self, data: bytes) -> Line:
        try:
            return Line.of(data.decode("ascii"))
        except ValueError:
            raise Refusal(f"{self.path} can't be read") from None

    def close(self) -> None:
        os.close(self.descriptor)

    def begin(self, shelf_path: str) -> None:
        if self.shelf_path is None:
            self.append(json.dumps(shelf_path) + "\n")
            self.shelf_path = shelf_path
            self.begin_size = self.size

    def note(self, lines: list[Line]) -> None:
        self.append("".join(map(str, lines)))
        self.last = lines[-1]

    def rename(self, number: int, name: str) -> None:
        assert self.last
        self.note([self.last._replace(what="renamed", number=number, name=name)])

    def append(self, text: str) -> None:
        """Writes and syncs all of the text, or nothing."""
        data = text.encode("ascii")
        try:
            os.ftruncate(self.descriptor, self.size)
            if os.pwrite(self.descriptor, data, self.size) < len(data):
                raise OSError("the disk is full")
            os.fsync(self.descriptor)
        except OSError:
            os.ftruncate(self.descriptor, self.size)
            raise
        self.size += len(data)

    def lines_from(self, place: int) -> Iterator[Line]:
        """Yields the lines from the one that begins at a place."""
        rest = b""
        while place < self.size:
            data = os.pread(self.descriptor, min(TAIL_BYTES, self.size - place), place)
            if not data:
                raise Refusal(f"{self.path} can't be read")
            place += len(data)
            *whole, rest = (rest + data).split(b"\n")
            yield from map(self.line, whole)

    def line_after(self, place: int) -> int:
        """Returns the place of the first line that begins here or later."""
        if place <= self.begin_size:
            return self.begin_size
        data = os.pread(self.descriptor, min(TAIL_BYTES, self.size - place + 1), place - 1)
        return place + data.find(b"\n")

    def place_of(self, count: int) -> int:
        """Returns the place of the first line up to which there are `count` files."""
        low, high = self.begin_size, self.size
        while low < high:
            middle = self.line_after((low + high) // 2)
            line = next(self.lines_from(middle), None) if middle < high else None
            if line is None:
                high = (low + high) // 2
            elif line.files < count:
                low = middle + 1
            else:
                high = (low + high) // 2
        return self.line_after(low)

    def noted(self, numbers: Collection[int]) -> dict[int, str]:
        """Returns the latest names of those of these files that were extracted."""
        names: dict[int, str] = {}
        if not numbers:
            return names
        wanted, last = set(numbers), max(numbers)
        for line in self.lines_from(self.place_of(min(numbers) + 1)):
            # (a name is changed only before the next batch is noted)
            if line.files > last + 1 + MOST_BATCH_FILES:
                break
            if line.number in wanted and line.what in ("file", "renamed"):
                names[line.number] = line.name
        return names

    def name_of(self, number: int) -> str | None:
        """Returns the latest name of a file, or None if it wasn't extracted."""
        return self.noted([number]).get(number)

    def is_of(self, shelf: Shelf) -> bool:
        """Returns whether the log is of this shelf: its last item is there, or, with no item yet, the path is the
        same."""
        if self.last is None:
            return self.shelf_path in (None, os.path.realpath(shelf.path))
        return sum_of(shelf.read(self.last.gate + 1, self.last.extent)) == self.last.sum

    def mark_on(self, shelf: Shelf) -> bytes:
        """Returns some bytes of the last item in the log, which identify the shelf."""
        last = self.last
        return shelf.mark(Head(last.gate, last.extent, last.number, False)) if last else b""


def log_of(state: str, shelf: Shelf, prefix: str = "") -> tuple[str, Log]:
    """Returns the label of a shelf's files, and its log in this folder: its own, or a new one."""
    base = folders.safe(prefix + label_of(os.path.realpath(shelf.path)))[:MOST_LABEL_CHARACTERS]
    for place in itertools.count(1):
        label = base if place == 1 else f"{base}-{place}"
        log = Log(os.path.join(state, label + ".log"))
        if log.is_of(shelf):
            if not log.is_mine:
                log.close()
                raise Refusal(f"another process extracts {shelf.path} into this folder")
            log.begin(os.path.realpath(shelf.path))
            return label, log
        log.close()
    raise AssertionError


def forget(state: str, folder: str) -> None:
    """Removes the logs of shelves that are gone from a folder, and the remains of their parts."""
    for name in os.listdir(state):
        if name.endswith(".log"):
            path = os.path.join(state, name)
            with open(path, "rb") as it:
                first = it.readline(TAIL_BYTES)
            with contextlib.suppress(ValueError):
                shelf = str(json.loads(first))
                # (or of one that has the same name in a folder that was moved)
                is_here = os.path.dirname(shelf) == os.path.realpath(folder) or not os.path.isdir(
                    os.path.dirname(shelf)
                )
                if is_here and not os.path.lexists(os.path.join(folder, os.path.basename(shelf))):
                    os.unlink(path)
                    shutil.rmtree(path.removesuffix(".log") + ".parts", ignore_errors=True)
