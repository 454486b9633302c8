"""Searches a shelf, or all the shelves of a folder, for files whose name, name within a zip, or heading matches
PATTERN. Prints a line `SHELF NUMBER NAME` for each, followed by the names in a zip and the headings. A PATTERN without
`*`, `?` or `[` matches anywhere in a name, in upper or lower case. The names are kept next to the shelves, in
.state/names, so that only new files are read; `contents` and `page` update them too, and they are removed with their
shelf. Status 1: nothing matches.
"""

import contextlib
import fcntl
import fnmatch
import os
import re
from collections.abc import Iterable, Iterator
from typing import Any, NamedTuple

from . import bulletins, program, texts, xrit
from . import folder as folders
from . import shelf as shelves
from .shelf import FIRST_GATE, Head, Pieces, Shelf

STATE = os.path.join(".state", "names")  # beside the shelves
ENDING, NOTE_ENDING = ".names", ".json"
MOST_HEADER_BYTES = 4096  # of a file that is looked at for its name
MOST_BATCH_LINES = 2000  # that are written at once
MOST_NAME_CHARACTERS = 300
MOST_SHOWN = 8  # members and headings of a file


class Entry(NamedTuple):
    """An entry of the index. Members and headings are joined by commas."""

    number: int
    gate: int  # its place on the shelf
    kind: int  # the type of the file
    stamp: str
    name: str
    inside: str


class Index:
    """The names of a shelf's files, as lines of a file beside it. A note says how far that file is complete, so lines
    that a kill cut off are written again."""

    def __init__(self, shelf: Shelf, folder: str | None):
        self.shelf = shelf
        self.folder = folder
        label = folders.safe(shelves.label_of(shelf.path))
        self.path, self.note = (os.path.join(folder or "", label + it) for it in (ENDING, NOTE_ENDING))

    def update(self, gives_all: bool = True) -> bytes:
        """Adds the new files. Returns all lines, or nothing."""
        try:
            if self.folder is None:
                raise OSError
            os.makedirs(self.folder, exist_ok=True)
            with open(os.open(self.path, os.O_RDWR | os.O_CREAT, 0o644), "r+b") as it:
                fcntl.flock(it, fcntl.LOCK_EX)
                size, gate, number = folders.read_kept(self.note, self.begin_of) or (0, FIRST_GATE, 0)
                if os.fstat(it.fileno()).st_size < size:
                    size, gate, number = 0, FIRST_GATE, 0
                it.truncate(size)
                it.seek(size)
                for lines, last in self.batches(gate, number):
                    it.write(lines)
                    it.flush()
                    size += len(lines)
                    self.write_note(size, last)
                it.seek(0)
                return it.read() if gives_all else b""
        except OSError:
            # (in a folder that can't be written to, or on a full disk, nothing is kept)
            return b"".join(lines for lines, _ in self.batches(FIRST_GATE, 0)) if gives_all else b""

    def begin_of(self, kept: Any) -> tuple[int, int, int]:
        """Returns where to continue: the bytes of the lines, the gate and the number."""
        size, gate, extent, number, is_discard, mark = kept
        last = Head(int(gate), int(extent), int(number), bool(is_discard[0]))
        if self.shelf.mark(last).hex() != mark:
            raise ValueError
        return int(size), last.next_gate, int(is_discard[1])

    def write_note(self, size: int, last: tuple[Head, int]) -> None:
        head, number = last
        row = [size, head.gate, head.extent, head.number, [head.is_discard, number]]
        folders.write_kept(self.note, [*row, self.shelf.mark(head).hex()])

    def batches(self, gate: int, number: int) -> Iterator[tuple[bytes, tuple[Head, int]]]:
        """Yields the lines of the items from a gate on, with the last item and the next number."""
        lines: list[bytes] = []
        pieces = Pieces(self.shelf.read)
        last = None
        for head in shelves.sound(self.shelf.heads(gate, number)):
            number += not head.is_discard
            lines.append(b"%d\n" % head.number if head.is_discard else line_of(entry_of(self.shelf, head, pieces)))
            last = (head, number)
            if len(lines) >= MOST_BATCH_LINES:
                yield b"".join(lines), last
                lines = []
        if lines and last:
            yield b"".join(lines), last


def entry_of(shelf: Shelf, head: Head, pieces: Pieces) -> Entry:
    """Returns the entry of a file. Only zips are read whole."""
    size = shelves.fields_of(pieces.read(head.gate + 1, shelves.GATE_AND_HEAD_BYTES - 1)).size - xrit.TRANSPORT.size
    begin = pieces.read(head.next_gate - shelves.CHECKSUM_BYTES - size, min(size, MOST_HEADER_BYTES))
    header = xrit.header_of(begin)
    name = texts.readable(header.annotation).strip() or f"file {head.number}"
    stamp = header.stamped(folders.STAMP_FORM)
    data = begin[header.size :]
    inside: list[str] = []
    if header.is_open and not header.is_image:
        named = bulletins.heading_of_name(name)
        inside += [str(named)] if named else []
        if data.startswith(texts.ZIP_SIGNATURE):
            if size > MOST_HEADER_BYTES:
                file = shelf.load(head)
                data = file.data if file else b""
            if named:
                inside += map(clean, bulletins.names_in(data))
            else:
                for member, heading in bulletins.members_of(data):
                    inside += [clean(member), *([str(heading)] if heading else [])]
        elif not named and (heading := bulletins.heading_of_text(data)):
            inside.append(str(heading))
    return Entry(head.number, head.gate, header.file_type, stamp, clean(name), ", ".join(inside[: 2 * MOST_SHOWN]))


def clean(text: str) -> str:
    """Returns a text without the characters that end a field or a line."""
    if text.isascii() and text.isprintable():
        return text[:MOST_NAME_CHARACTERS]
    return re.sub(r"[\x00-\x1f\x7f\u2028\u2029]", "_", texts.readable(text.encode("utf-8", "replace")))[
        :MOST_NAME_CHARACTERS
    ]


def line_of(it: Entry) -> bytes:
    numbers = f"{it.number}\t{it.gate}\t{it.kind}\t"
    return f"{numbers}{it.stamp}\t{it.name}\t{it.inside}\n".encode("utf-8", "replace")


def entry_of_line(line: bytes) -> Entry:
    number, gate, kind, stamp, name, inside = line.decode("utf-8", "replace").rstrip("\n").split("\t", 5)
    return Entry(int(number), int(gate), int(kind), stamp, name, inside)


def gone_of(text: bytes) -> set[int]:
    """Returns the numbers of the discarded files."""
    return {int(it) for it in re.findall(rb"(?m)^([0-9]+)$", text)}


def regex_of(pattern: str) -> re.Pattern[bytes]:
    """Returns a pattern of lines in which a name, a name in a zip or a heading matches."""
    if not re.search(r"[*?\[]", pattern):
        return re.compile(rb"(?i)(?:[^\t\n]*\t){4}.*" + re.escape(pattern).encode() + rb".*\n")
    form = fnmatch.translate(pattern).removeprefix("(?s:").removesuffix(r")\Z").replace(".", r"[^\t\n,]")
    form = form.replace(r"\[^\t\n,]", r"\.")
    return re.compile(rb"(?i)(?:[^\t\n]*\t){4}(?:.*[\t ])?(?:" + form.encode() + rb")(?:[,\t].*)?\n")


def literal_of(pattern: str) -> bytes:
    """Returns the longest literal part of a pattern, in lower case; a tab if there is none."""
    parts = re.split(r"\[.*\]|[*?\[\]]", pattern) if re.search(r"[*?\[]", pattern) else [pattern]
    return max(parts, key=len).lower().encode() or b"\t"


def fitting(text: bytes, pattern: str) -> Iterator[bytes]:
    """Yields the lines that match a pattern. Only lines with its longest literal part are compared."""
    regex, literal, small = regex_of(pattern), literal_of(pattern), text.lower()
    place = small.find(literal)
    while place >= 0:
        begin, end = text.rfind(b"\n", 0, place) + 1, text.find(b"\n", place) + 1
        line = text[begin : end or len(text)]
        if regex.fullmatch(line):
            yield line
        place = small.find(literal, begin + len(line))


def state_of(source: str) -> str | None:
    """Returns where the names of shelves are kept: in the folder of shelves, or next to a shelf if names are kept there
    already; or None."""
    if os.path.isdir(source):
        return os.path.join(source, STATE)
    folder = os.path.join(os.path.dirname(source), STATE)
    return folder if os.path.isdir(folder) else None


def entries(shelf: Shelf, state: str | None, pattern: str | None = None) -> Iterator[Entry]:
    """Yields the files of a shelf whose names match, without discarded ones; without a pattern all, the newest
    first."""
    text = Index(shelf, state).update()
    gone = gone_of(text)
    if pattern is None:
        found: Iterable[bytes] = (it for it in reversed(text.split(b"\n")) if b"\t" in it)
    else:
        found = fitting(text, pattern)
    for line in found:
        entry = entry_of_line(line)
        if entry.number not in gone:
            yield entry


def forget(folder: str) -> None:
    """Removes the names of shelves that are gone from a folder."""
    state = os.path.join(folder, STATE)
    with contextlib.suppress(OSError):
        kept = {folders.safe(shelves.label_of(it)) for it in shelves.paths_of(folder)}
        for name in os.listdir(state):
            if name.endswith((ENDING, NOTE_ENDING)) and os.path.splitext(name)[0] not in kept:
                os.unlink(os.path.join(state, name))


def find(pattern: str, paths: list[str]) -> int:
    """Prints the matching files. Returns the status."""
    count = faults = 0
    for source in paths:
        for path in shelves.paths_of(source):
            try:
                with Shelf(path) as shelf:
                    for it in entries(shelf, state_of(source), pattern):
                        count += 1
                        print(f"{path} {it.number} {it.name}{' (' + it.inside + ')' if it.inside else ''}")
            except (OSError, shelves.ShelfError) as fault:
                program.tell(f"{path}: {program.reason(fault)}")
                faults += 1
        if os.path.isdir(source):
            forget(source)
    return int(not count or faults > 0)
