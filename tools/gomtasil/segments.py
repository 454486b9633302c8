"""Which files are parts of one picture: the segment records of NOAA, of Himawari and GK-2A, and of ELEKTRO. Which form
a record has, its length says."""

import re
import struct
from collections.abc import Callable, Iterable, Iterator
from dataclasses import dataclass, field
from typing import NamedTuple

from . import texts, xrit
from .shelf import Head, Shelf, StoredFile

NOAA = struct.Struct(">7H")  # image, number from 0, start column, start line, segments, columns, lines
NUMBERED = struct.Struct(">BBH")  # number from 1, segments, start line from 1
PLANNED = struct.Struct(">hBHHHb")  # spacecraft, channel, number, first and last of the image, form of the field
MOST_SEGMENTS = 255  # of the two latter forms
MOST_PIXELS = 134_217_728  # of an image that is put together
MOST_RUNS = 20  # of missing numbers that are told


class Segment(NamedTuple):
    """Which part of which picture a file is."""

    key: tuple[object, ...]  # the same for all segments of a picture
    number: int  # from 0
    total: int
    left: int  # of the whole picture, in pixels
    top: int | None  # None: by its number, as all segments have as many lines
    columns: int | None  # of the whole picture; None: those of the segment
    lines: int | None
    first: int = 0  # what the sender counts from


def segment_of(file: StoredFile) -> Segment | None:
    """The segment that a file is, by any of the three forms of record, or None."""
    found, structure = file.header.first(xrit.SEGMENT_KIND), file.header.structure
    if not found or not structure or not file.header.is_image:
        return None
    key: tuple[object, ...] = (file.fields.channel, file.fields.application)
    if len(found) == NOAA.size:
        image, number, left, top, count, columns, lines = NOAA.unpack(found)
        key += image, count, columns, lines
        return Segment(key, number, count, left, top, columns, lines) if count else None
    if len(found) == NUMBERED.size:
        (number, last, _), first, band = NUMBERED.unpack(found), 1, 0
    elif len(found) == PLANNED.size:
        _, band, number, first, last, _ = PLANNED.unpack(found)
    else:
        return None
    count = last - first + 1
    if not first <= number <= last or count > MOST_SEGMENTS or structure.area * count > MOST_PIXELS:
        return None
    key += structure.bits, structure.columns, count, band, unnumbered(texts.name_of(file), number)
    return Segment(key, number - first, count, 0, None, None, None, first)


def first_line_of(header: xrit.Header) -> int:
    """How many lines of the whole image stand before those of this file, as its line offset counts."""
    found = header.first(xrit.SEGMENT_KIND) or b""
    if len(found) == NOAA.size:
        return int(NOAA.unpack(found)[3])
    if len(found) == NUMBERED.size:
        return int(NUMBERED.unpack(found)[2]) - 1
    return 0


def unnumbered(name: str, number: int) -> str:
    """A name without its last run of digits that says this number, so that all segments of a picture have the same."""
    runs = [it for it in re.finditer(r"[0-9]+", name) if int(it[0]) == number]
    return name[: runs[-1].start()] + name[runs[-1].end() :] if runs else name


def in_words(numbers: Iterable[int], between: str = " ", through: str = " to ") -> str:
    """Numbers with their runs drawn together, and at most `MOST_RUNS` of these."""
    runs: list[list[int]] = []
    for it in numbers:
        if runs and it == runs[-1][1] + 1:
            runs[-1][1] = it
        else:
            runs.append([it, it])
    words = [str(a) if a == b else f"{a}{through}{b}" for a, b in runs]
    rest = [f"and {len(words) - MOST_RUNS} more"] if len(words) > MOST_RUNS else []
    return between.join(words[:MOST_RUNS] + rest)


def listed(numbers: Iterable[int]) -> str:
    """The same as 208-212, 215."""
    return in_words(numbers, ", ", "-")


# ---- groups


class Part(NamedTuple):
    """A file of a group, without its bytes."""

    head: Head
    mark: bytes
    segment: Segment | None
    mended: xrit.Mended | None
    origin: tuple[bytes | None, bytes]  # the record of its time stamp, and its annotation


@dataclass
class Group:
    """A file, or the segments of one picture."""

    file: StoredFile  # the first one that came; of an image without its pixels
    name: str
    parts: list[Part] = field(default_factory=list)

    @property
    def segments(self) -> list[Segment]:
        return [part.segment for part in self.parts if part.segment]

    @property
    def area(self) -> int:
        """The pixels of the whole picture."""
        structure = self.file.header.structure or xrit.Structure(0, 0, 0, 0)
        if not self.segments:
            return structure.area
        one = self.segments[0]
        return (one.columns or structure.columns) * (one.lines or structure.lines * one.total)

    @property
    def numbers(self) -> list[int]:
        """The numbers of its files on the shelf."""
        return [part.head.number for part in self.parts]

    @property
    def rank(self) -> tuple[bool, str, int]:
        """By which the latest of several is taken: that which lacks nothing, and then the newest one."""
        return not self.missing, self.file.header.stamped("%Y%m%dT%H%M%S%f"), self.file.number

    @property
    def missing(self) -> list[int]:
        """The numbers of the segments that aren't there, as the sender counts, but from 1 where that is from 0."""
        if not self.segments:
            return []
        first = self.segments[0].first or 1
        here = {it.number for it in self.segments}
        return [first + it for it in range(self.segments[0].total) if it not in here]

    @property
    def mended(self) -> xrit.Mended | None:
        """How many packets of its files stand in for some that were lost, or None where none does."""
        all_mended = [part.mended for part in self.parts if part.mended]
        fillers, packets = (sum(numbers) for numbers in zip(*all_mended)) if all_mended else (0, 0)
        return xrit.Mended(fillers, packets) if all_mended else None

    @property
    def note(self) -> str:
        """What is wrong with it, in words."""
        words = [f"segments missing: {in_words(self.missing)}"] if self.missing else []
        if self.mended:
            words.append(f"{self.mended} packets")
        return "; ".join(words)

    def add(self, part: Part) -> bool:
        """Takes a file. False where it belongs to another picture, as this one has its number already. Of a mended
        segment and a whole one with the same time stamp and annotation the whole one is kept."""
        for place, old in enumerate(self.parts):
            if old.segment and part.segment and old.segment.number == part.segment.number:
                if old.origin != part.origin or bool(old.mended) == bool(part.mended):
                    return False
                if old.mended:
                    self.parts[place] = part
                return True
        self.parts.append(part)
        return True


def groups_of(
    shelf: Shelf, heads: Iterable[Head], load: Callable[[Head], StoredFile | None] | None = None
) -> Iterator[Group | Head]:
    """Files in groups, in the order in which the first ones came: the segments of one picture are one group, until one
    of them comes again. The head of a file that can't be loaded, as its checksum is bad, comes as it is."""
    groups: list[Group | Head] = []
    opened: dict[tuple[object, ...], Group] = {}
    for head in heads:
        file = load(head) if load else shelf.load(head)
        if not file:
            groups.append(head)
            continue
        segment = segment_of(file)
        origin = file.header.first(xrit.STAMP_KIND), file.header.annotation
        part = Part(head, shelf.mark(head), segment, file.header.mended, origin)
        group = opened.get(segment.key) if segment else None
        if not group or not group.add(part):
            group = Group(shortened(file), texts.name_of(file), [part])
            groups.append(group)
            if segment:
                opened[segment.key] = group
    return iter(groups)


def shortened(file: StoredFile) -> StoredFile:
    """The file without the pixels of an image, of which many are kept."""
    if not file.header.is_image:
        return file
    return StoredFile(file.head, file.fields, file.counter, file.proper[: file.header.size], b"")
