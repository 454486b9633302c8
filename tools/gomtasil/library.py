"""The native library by ctypes: its two calls, with the devices of a caller. `embedded` is the module to use."""

from __future__ import annotations

import ctypes
import os
from collections.abc import Callable, Iterator, Sequence
from pathlib import Path
from typing import NamedTuple, Protocol

NAME = "liblritstation.so.1"
VARIABLE = "LRITSTATION_LIBRARY"  # may name the library, or the folder that it is in
NO_MEMORY, NO_TEXT, NO_ROOM = 256, 257, 258  # answers that are no status
DISK_FAILED, OUTPUT_FAILED = 4, 5
ERR_ROOM = 4096
FIRST_ROOM = 1 << 20
MOST_ROOM = 1 << 40
ROOM_A_CALL = 256  # of a shelf's bytes: as many calls of it are allowed
PIECE_BYTES = 65536  # that a source is asked for at most
FAILED = -1
STANDARD_OUTPUT = 1
THREADS = "--workers"


class EmbeddedError(Exception):
    """The library is missing, or the call can't be made."""


class Answer(NamedTuple):
    """What a command left."""

    status: int
    out: bytes
    err: str  # the line that says why it ended
    shelf: bytes


class Source(Protocol):
    """Where symbols come from, such as a file that is open for reading."""

    def read(self, most: int, /) -> bytes | None:
        """Returns at most `most` bytes, and b"" at the end. It may wait."""


class Storage(Protocol):
    """A shelf's bytes."""

    def length(self) -> int: ...

    def read(self, place: int, most: int, /) -> bytes: ...

    def write(self, place: int, piece: bytes, /) -> None: ...

    def cut(self, length: int, /) -> None: ...

    def sync(self) -> None: ...


Buffer = bytes | bytearray | memoryview


def as_bytes(data: Buffer) -> bytes:
    """The bytes of a buffer, such as one of numpy's."""
    return data if isinstance(data, bytes) else memoryview(data).tobytes()


class Counts(ctypes.Structure):
    """How many bytes a call wrote to each of its rooms."""

    _fields_ = [("out", ctypes.c_uint64), ("err", ctypes.c_uint64), ("shelf", ctypes.c_uint64)]


SIGNED, UNSIGNED, PLACE, SIZE = ctypes.c_int64, ctypes.c_uint64, ctypes.c_void_p, ctypes.c_size_t
DEVICES = {
    "take": ctypes.CFUNCTYPE(SIGNED, PLACE, PLACE, SIZE),
    "put": ctypes.CFUNCTYPE(SIGNED, PLACE, ctypes.c_uint32, PLACE, SIZE),
    "length": ctypes.CFUNCTYPE(SIGNED, PLACE),
    "read": ctypes.CFUNCTYPE(SIGNED, PLACE, UNSIGNED, PLACE, SIZE),
    "write": ctypes.CFUNCTYPE(SIGNED, PLACE, UNSIGNED, PLACE, SIZE),
    "cut": ctypes.CFUNCTYPE(SIGNED, PLACE, UNSIGNED),
    "sync": ctypes.CFUNCTYPE(SIGNED, PLACE),
}


class Devices(ctypes.Structure):
    """The seven functions of a caller, as packaging/lritstation.h has them."""

    _fields_ = [("context", PLACE), *DEVICES.items()]


def folders() -> Iterator[Path]:
    """Where the library may be."""
    named = os.environ.get(VARIABLE)
    if named:
        yield Path(named)
        return
    here = Path(__file__).resolve()
    yield here.parent  # (of an installation by pip)
    yield here.parents[3] / "lib"  # (of the archive)
    yield here.parents[2] / "out" / "library"  # (of a checkout)


def path() -> str:
    """The path of the library, or its name where only the loader may know it."""
    looked = [it if it.is_file() else it / NAME for it in folders()]
    found = next((it for it in looked if it.is_file()), None)
    return str(found or (looked[0] if os.environ.get(VARIABLE) else NAME))


def text_of(words: Sequence[str]) -> bytes:
    """The words in lines. EmbeddedError where they can't be those of a call."""
    if isinstance(words, str):
        raise EmbeddedError(f"the words are one text: give a list, such as {words.split()}")
    if not words or any("\n" in it for it in words):
        raise EmbeddedError("there is no word, or one has a line end")
    if THREADS in words:
        raise EmbeddedError(f"the library starts no thread, so {THREADS} isn't for it")
    return "\n".join(words).encode("utf-8")


class Host:
    """The devices of one call. What a device raises ends the call, and is raised again after it."""

    def __init__(self, source: Source, shelf: Storage, out: Callable[[bytes], object]):
        self.take_from = getattr(source, "read1", source.read)  # (which returns what a pipe or a socket has now)
        self.shelf, self.out = shelf, out
        self.fault: BaseException | None = None
        self.err = ""
        self.kept = {name: kind(self.guarded(getattr(self, name))) for name, kind in DEVICES.items()}
        self.devices = Devices(None, *self.kept.values())

    def guarded(self, work: Callable[..., int | None]) -> Callable[..., int]:
        def call(_: object, *words: int) -> int:
            try:
                return work(*words) or 0
            except BaseException as fault:  # (it may not leave a function that C calls)
                self.fault = self.fault or fault
                return FAILED

        return call

    def filled(self, into: int, part: bytes, most: int) -> int:
        # (of what is no bytes a view can't be had)
        data = memoryview(part).tobytes()
        if len(data) > most:
            raise EmbeddedError(f"a device gave {len(data)} bytes where {most} were asked for")
        ctypes.memmove(into, data, len(data))
        return len(data)

    def take(self, into: int, most: int) -> int:
        part = self.take_from(min(most, PIECE_BYTES))
        if part is None:
            raise EmbeddedError('the source has nothing yet: its `read` must wait, and return b"" at the end only')
        return self.filled(into, part, most)

    def put(self, output: int, piece: int, count: int) -> int:
        data = ctypes.string_at(piece, count)
        if output == STANDARD_OUTPUT:
            self.out(data)
        else:
            self.err += data.decode("utf-8", "replace")
        return count

    def length(self) -> int:
        return self.shelf.length()

    def read(self, place: int, into: int, most: int) -> int:
        return self.filled(into, self.shelf.read(place, most), most)

    def write(self, place: int, piece: int, count: int) -> None:
        self.shelf.write(place, ctypes.string_at(piece, count))

    def cut(self, length: int) -> None:
        self.shelf.cut(length)

    def sync(self) -> None:
        self.shelf.sync()


class Library:
    """The library that is loaded."""

    def __init__(self, where: str | os.PathLike[str] | None = None):
        name = os.fspath(where or path())
        try:
            self.functions = ctypes.CDLL(name)
            self.lr_run, self.lr_run_over = self.functions.lr_run, self.functions.lr_run_over
            self.lr_version = self.functions.lr_version
        except (OSError, AttributeError) as fault:
            raise EmbeddedError(f"the library can't be loaded: {fault}; packaging/library.sh makes it") from None
        given, room = [ctypes.c_char_p, SIZE], [PLACE, SIZE]
        self.lr_run.argtypes = [*given * 3, UNSIGNED, *room * 3, ctypes.POINTER(Counts)]
        self.lr_run_over.argtypes = [ctypes.POINTER(Devices), *given]
        self.lr_run.restype = self.lr_run_over.restype = ctypes.c_uint32
        self.lr_version.restype = ctypes.c_char_p

    def version(self) -> str:
        return str(self.lr_version().decode())

    def run_once(self, text: bytes, data: bytes, shelf: bytes, out_room: int, shelf_room: int) -> Answer:
        """One call with rooms of these sizes. Its status may be one of the three answers that are none."""
        out, err, kept = (ctypes.create_string_buffer(max(1, it)) for it in (out_room, ERR_ROOM, shelf_room))
        counts = Counts()
        given = [it for part in (text, data, shelf) for it in (part, len(part))]
        rooms = [it for pair in ((out, out_room), (err, ERR_ROOM), (kept, shelf_room)) for it in pair]
        status = self.lr_run(*given, shelf_room // ROOM_A_CALL + ROOM_A_CALL, *rooms, counts)
        if status >= NO_MEMORY:
            return Answer(status, b"", "", shelf)
        sizes = (out, counts.out), (err, counts.err), (kept, counts.shelf)
        said, told, left = (ctypes.string_at(it, size) for it, size in sizes)
        return Answer(status, said, told.decode("utf-8", "replace").rstrip("\n"), left)

    def run(self, words: Sequence[str], data: bytes, shelf: bytes, room: int) -> Answer:
        """Runs a command over bytes. Where the room for its output fills up, or that for the shelf and its calls, the
        command is run again over the same bytes with twice that room. MemoryError where memory was refused."""
        text = text_of(words)
        out_room, shelf_room = room, max(room, len(shelf))
        while True:
            answer = self.run_once(text, data, shelf, out_room, shelf_room)
            if answer.status == NO_MEMORY:
                raise MemoryError("the library got no memory")
            if answer.status == OUTPUT_FAILED and out_room <= MOST_ROOM:
                out_room *= 2
            elif answer.status in (DISK_FAILED, NO_ROOM) and shelf_room <= MOST_ROOM:
                shelf_room *= 2
            else:
                return answer

    def run_over(self, words: Sequence[str], host: Host) -> tuple[int, str]:
        """Runs a command over devices: its status and the line that says why it ended. What a device raised is raised
        after the call."""
        text = text_of(words)
        status = self.lr_run_over(host.devices, text, len(text))
        if host.fault:
            raise host.fault
        if status == NO_MEMORY:
            raise MemoryError("the library got no memory")
        return status, host.err.rstrip("\n")


_loaded: list[Library] = []


def library() -> Library:
    """The library, which is loaded once."""
    if not _loaded:
        _loaded.append(Library())
    return _loaded[0]
