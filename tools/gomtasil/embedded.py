"""The station within a Python program. `open` opens a shelf's file, or makes it; `run` and `receive` work on bytes.

    with embedded.open("my.shelf", create=100_000_000) as shelf, open("recording", "rb") as source:
        done = shelf.receive(source, ["--line", "nrz-m", "--g2", "plain"], on_file=print)
        earth = shelf.image(0)

Several calls may run at once on several threads, each with a shelf of its own: Python's lock is free while one works.
A call that may write a shelf which another call or another process writes raises ShelfBusy.
"""

from __future__ import annotations

import contextlib
import errno
import fcntl
import io
import os
import re
import threading
from collections.abc import Callable, Iterator, Sequence
from types import TracebackType
from typing import Any, BinaryIO, NamedTuple, Self

from .library import FIRST_ROOM, Buffer, Host, Source, Storage, as_bytes, library
from .library import Answer as Answer
from .library import EmbeddedError as EmbeddedError

WRITERS = {"init", "receive", "downlinks", "discard", "repack", "trial"}
RECEIPT = re.compile(r"shelved (\d+) vc (\d+) apid (\d+) counter (\d+) bytes (\d+) packets (\d+)(?: mended (\d+))?")
FILE = re.compile(
    r"file (\d+) vc (\d+) apid (\d+) counter (\d+) bytes (\d+) packets (\d+) declared (\d+) real (\d+) (same|differs)"
    r" type (\d+) frames (\d+) (\d+) corrected (\d+)"
)
PGM = re.compile(rb"P5\n(\d+) (\d+)\n(\d+)\n")
ONE_BYTE = 255  # the greatest value of a pixel of one byte


class ShelfBusy(EmbeddedError):
    """Another call, or another process, writes the shelf."""


class CommandError(EmbeddedError):
    """A command ended with another status than 0; docs/FORMATS.md has them. What it did before stands."""

    def __init__(self, status: int, line: str):
        super().__init__(line or f"status {status}")
        self.status = status


class WordsRefused(CommandError):
    """The words give no command, or a number is out of its range."""


class NotAShelf(CommandError):
    """There is no shelf, or it breaks off."""


class NoSuchFile(CommandError):
    """The shelf has fewer files."""


class NoImage(CommandError):
    """The file has no image, or its segments don't fit together."""


class ShelfFull(CommandError):
    """The next file would end past the shelf's capacity."""


class BadChecksum(CommandError):
    """The bytes of a file aren't those that were stored."""


class Discarded(CommandError):
    """The file is discarded."""


KINDS: dict[int, type[CommandError]] = {
    2: WordsRefused,
    6: NotAShelf,
    7: NoSuchFile,
    8: NoImage,
    10: ShelfFull,
    12: BadChecksum,
    13: Discarded,
}


class Receipt(NamedTuple):
    """A file that stands on the shelf."""

    number: int
    vc: int
    apid: int
    counter: int
    bytes: int
    packets: int
    mended: int  # how many of its packets are fillers


class File(NamedTuple):
    """A row of `list`."""

    number: int
    vc: int
    apid: int
    counter: int
    bytes: int
    packets: int
    declared: int
    real: int
    is_same: bool
    type: int
    first_frame: int
    last_frame: int
    corrected: int


class Image(NamedTuple):
    """An image: its pixels line by line, of one byte each, or of two, high byte first, where `most` is above 255."""

    rows: int
    columns: int
    most: int
    data: bytes

    def array(self) -> Any:
        """The pixels as numpy's array of rows and columns."""
        from numpy import frombuffer

        return frombuffer(self.data, ">u2" if self.most > ONE_BYTE else "u1").reshape(self.rows, self.columns)


class Received(NamedTuple):
    """What `receive` left."""

    status: int
    last: str  # the last line, with the counts
    err: str
    receipts: tuple[Receipt, ...]  # none where `on_file` took them


# ---- shelves


class MemoryShelf:
    """A shelf in an array of bytes, which changes in place. `sync` does nothing."""

    def __init__(self, data: bytearray):
        self.data = data

    def length(self) -> int:
        return len(self.data)

    def read(self, place: int, most: int) -> bytes:
        return bytes(self.data[place : place + most])

    def write(self, place: int, piece: bytes) -> None:
        self.data.extend(bytes(max(0, place - len(self.data))))
        self.data[place : place + len(piece)] = piece

    def cut(self, length: int) -> None:
        del self.data[length:]

    def sync(self) -> None:
        pass


class FileShelf:
    """A shelf in a file, by its descriptor. `sync` waits until the disk has it."""

    def __init__(self, descriptor: int):
        self.descriptor = descriptor

    def length(self) -> int:
        return os.fstat(self.descriptor).st_size

    def read(self, place: int, most: int) -> bytes:
        # (a short answer would be taken for the shelf's end)
        parts = []
        while most and (part := os.pread(self.descriptor, most, place)):
            parts.append(part)
            place, most = place + len(part), most - len(part)
        return b"".join(parts)

    def write(self, place: int, piece: bytes) -> None:
        while piece:
            count = os.pwrite(self.descriptor, piece, place)
            if not count:
                raise OSError(errno.EIO, "the disk took no byte")
            piece, place = piece[count:], place + count

    def cut(self, length: int) -> None:
        os.ftruncate(self.descriptor, min(length, self.length()))

    def sync(self) -> None:
        os.fsync(self.descriptor)


_written: set[object] = set()  # the shelves that calls of this process write
_guard = threading.Lock()


@contextlib.contextmanager
def held(key: object, descriptor: int | None) -> Iterator[None]:
    """Holds a shelf for a call that may write it: within this process by its key, and against other processes by the
    advisory lock that the program takes too. ShelfBusy where it is held."""
    with _guard:
        if key in _written:
            raise ShelfBusy("another call writes this shelf")
        _written.add(key)
    try:
        if descriptor is None:
            yield
            return
        try:
            fcntl.flock(descriptor, fcntl.LOCK_EX | fcntl.LOCK_NB)
        except BlockingIOError:
            raise ShelfBusy("another process writes this shelf") from None
        try:
            yield
        finally:
            fcntl.flock(descriptor, fcntl.LOCK_UN)
    finally:
        with _guard:
            _written.discard(key)


@contextlib.contextmanager
def storage_of(shelf: bytearray | BinaryIO | int, writes: bool) -> Iterator[Storage]:
    """The storage of a shelf that is given as an array, an open file or a descriptor, held where the call may write."""
    if isinstance(shelf, bytearray):
        with held(id(shelf), None) if writes else contextlib.nullcontext():
            yield MemoryShelf(shelf)
        return
    if not isinstance(shelf, int):
        shelf.flush()  # (so that no earlier write of the caller comes later)
        shelf = shelf.fileno()
    about = os.fstat(shelf)
    with held((about.st_dev, about.st_ino), shelf) if writes else contextlib.nullcontext():
        yield FileShelf(shelf)


# ---- receiving


class Lines:
    """The lines that `receive` prints, as they come."""

    def __init__(self, on_file: Callable[[Receipt], object] | None):
        self.receipts: list[Receipt] = []
        self.on_file = on_file or self.receipts.append
        self.rest = self.last = ""

    def take(self, data: bytes) -> None:
        *lines, self.rest = (self.rest + data.decode("utf-8", "replace")).split("\n")
        for line in lines:
            self.last = line
            found = RECEIPT.fullmatch(line)
            if found:
                self.on_file(Receipt(*(int(it or 0) for it in found.groups())))


class Interrupted:
    """A source that ends once the event is set."""

    def __init__(self, source: Source, event: threading.Event):
        self.take, self.event = getattr(source, "read1", source.read), event

    def read(self, most: int) -> bytes | None:
        return b"" if self.event.is_set() else self.take(most)


def checked(status: int, line: str) -> None:
    """Raises the error of a status, but for 0."""
    if status:
        raise KINDS.get(status, CommandError)(status, line)


def receive(
    source: Source,
    shelf: bytearray | BinaryIO | int,
    options: Sequence[str] = (),
    *,
    on_file: Callable[[Receipt], object] | None = None,
    interrupt: threading.Event | None = None,
    check: bool = False,
) -> Received:
    """Receives a source's symbols onto a shelf, as `lritstation SHELF receive OPTIONS` does. `on_file` is called with
    each file once it stands on the shelf. Where `interrupt` is set, the source ends at the next read. What the source,
    the shelf or `on_file` raises ends the call and is raised after it; the shelf then has what was received before.
    With `check` a status other than 0 raises its CommandError."""
    if isinstance(options, str):
        raise EmbeddedError(f"the options are one text: give a list, such as {options.split()}")
    lines = Lines(on_file)
    given = source if interrupt is None else Interrupted(source, interrupt)
    with storage_of(shelf, writes=True) as storage:
        status, err = library().run_over(["receive", *options], Host(given, storage, lines.take))
    if check:
        checked(status, err)
    return Received(status, lines.last, err, tuple(lines.receipts))


def run(
    words: Sequence[str], data: Buffer = b"", shelf: Buffer = b"", room: int = FIRST_ROOM, *, check: bool = False
) -> Answer:
    """Runs a command over bytes, and returns the shelf's bytes afterwards with its answer. With `check` a status other
    than 0 raises its CommandError."""
    answer = library().run(words, as_bytes(data), as_bytes(shelf), room)
    if check:
        checked(answer.status, answer.err)
    return answer


class Shelf:
    """A shelf's file that is open. Each method raises a CommandError for a status other than 0."""

    def __init__(self, path: str | os.PathLike[str], create: int | None = None, readonly: bool = False):
        flags = os.O_RDONLY if readonly else os.O_RDWR | (os.O_CREAT if create is not None else 0)
        self.descriptor = os.open(path, flags | os.O_CLOEXEC, 0o644)
        try:
            if create is not None and os.fstat(self.descriptor).st_size == 0:
                self.run(["init", str(create)])
                self.sync_folder(path)
        except BaseException:
            self.close()
            raise

    @staticmethod
    def sync_folder(path: str | os.PathLike[str]) -> None:
        """Waits until the disk has the new file's name."""
        folder = os.open(os.path.dirname(os.path.abspath(path)), os.O_RDONLY | os.O_DIRECTORY)
        try:
            os.fsync(folder)
        finally:
            os.close(folder)

    def close(self) -> None:
        if self.descriptor >= 0:
            os.close(self.descriptor)
            self.descriptor = -1

    def __enter__(self) -> Self:
        return self

    def __exit__(self, kind: type[BaseException] | None, fault: BaseException | None, at: TracebackType | None) -> None:
        self.close()

    def run(self, words: Sequence[str], data: Buffer = b"") -> bytes:
        """Runs a command over the file, of which only what the command reads comes into memory, and returns what it
        prints."""
        out = io.BytesIO()
        writes = bool(words) and words[0] in WRITERS
        with storage_of(self.descriptor, writes) as storage:
            host = Host(io.BytesIO(as_bytes(data)), storage, out.write)
            checked(*library().run_over(words, host))
        return out.getvalue()

    def receive(
        self,
        source: Source,
        options: Sequence[str] = (),
        *,
        on_file: Callable[[Receipt], object] | None = None,
        interrupt: threading.Event | None = None,
    ) -> Received:
        """`receive` onto this shelf."""
        return receive(source, self.descriptor, options, on_file=on_file, interrupt=interrupt, check=True)

    def files(self) -> list[File]:
        """The files that aren't discarded."""
        return [it for it in map(file_of, self.run(["list"]).decode().splitlines()) if it]

    def image(self, number: int) -> Image:
        """The image of a file."""
        return image_of(self.run(["export", str(number)]))


def file_of(line: str) -> File | None:
    """The file of a line of `list`, unless it is another line."""
    found = FILE.fullmatch(line)
    if not found:
        return None
    words = [it == "same" if it in ("same", "differs") else int(it) for it in found.groups()]
    return File._make(words)


def image_of(pgm: bytes) -> Image:
    """The image that `export` or `assemble` wrote."""
    head = PGM.match(pgm)
    if not head:
        raise EmbeddedError("this is no image that the station wrote")
    columns, rows, most = map(int, head.groups())
    return Image(rows, columns, most, pgm[head.end() :])


def open(path: str | os.PathLike[str], create: int | None = None, readonly: bool = False) -> Shelf:
    """Opens a shelf's file. With `create` a file that is missing or empty becomes a shelf of that capacity, in bytes.
    `readonly` serves a file that may not be written."""
    return Shelf(path, create, readonly)


def version() -> str:
    """That of the native library."""
    return library().version()
