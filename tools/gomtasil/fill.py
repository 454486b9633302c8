"""Lines of a picture that were lost, drawn from the received lines above and below them: for a viewer, since what is
drawn so was never sent."""

from __future__ import annotations

import array
import itertools
import re
from collections.abc import Iterator

from . import images, xrit
from .images import Picture
from .segments import Group
from .shelf import Shelf, StoredFile

RECEIVED, LOST = b"\xff", b"\0"


def lost_lines(file: StoredFile) -> list[range]:
    """The lines of an image for which packets stand in: those of its own packets if lines are coded, and else those
    of its bytes."""
    structure, fillers = file.header.structure, file.header.fillers
    if not structure or not structure.area or not fillers:
        return []
    found = [lines_of(file, structure, places) for places in fillers if places.stop <= file.fields.packets]
    return [it for it in found if it]


def lines_of(file: StoredFile, structure: xrit.Structure, places: range) -> range:
    """The lines that have pixels of these packets."""
    if structure.compression == xrit.LOSSLESS:
        each = file.header.lines_per_packet
        first, last = places.start * each, places.stop * each
        # (the first packet may hold the header alone, and then lines begin with the next one)
        late = each if sum(file.lengths[:1]) <= xrit.TRANSPORT.size + file.header.size else 0
        return range(max(0, first - late), min(structure.lines, last - late))
    ends = [0, *itertools.accumulate(file.lengths)]
    row = structure.bits * structure.columns
    start, end = (8 * (ends[it] - xrit.TRANSPORT.size - file.header.size) for it in (places.start, places.stop))
    return range(max(0, start // row), min(structure.lines, -(-end // row)))


def mask_of(file: StoredFile, structure: xrit.Structure) -> Picture:
    """Of an image: 255 where it was received, and 0 where it was lost."""
    rows = [RECEIVED * structure.columns] * structure.lines
    for lines in lost_lines(file):
        rows[lines.start : lines.stop] = [LOST * structure.columns] * len(lines)
    return Picture(8, structure.columns, structure.lines, b"".join(rows))


def received(shelf: Shelf, group: Group) -> Picture | None:
    """The same of a picture, whose segments are put together."""
    parts = []
    for part in group.parts:
        file = shelf.load(part.head)
        if file and file.header.structure:
            parts.append((part.segment, mask_of(file, file.header.structure)))
    if not group.segments:
        return parts[0][1] if parts else None
    known = [(segment, it) for segment, it in parts if segment]
    return images.joined(sorted(known, key=lambda part: part[0].number)) if known else None


def strips_of(masks: list[bytes]) -> Iterator[range]:
    """Columns next to each other, of which each line has all or none."""
    edges = {0, len(masks[0])}
    for mask in set(masks):
        edges.update(edge for found in re.finditer(LOST + b"+", mask) for edge in found.span())
    return (range(*it) for it in itertools.pairwise(sorted(edges)))


def gaps_of(masks: list[bytes], column: int) -> Iterator[range]:
    """The runs of lines that lack a column."""
    line = 0
    for level, same in itertools.groupby(mask[column] for mask in masks):
        lines = range(line, line + len(list(same)))
        line = lines.stop
        if not level:
            yield lines


class Rows:
    """The rows of a picture, whose pixels are read and written as numbers."""

    def __init__(self, picture: Picture):
        self.width = picture.width
        self.rows = [bytearray(it) for it in cut(picture.pixels, picture.columns * picture.width)]

    def values(self, line: int, columns: range) -> list[int]:
        part = bytes(self.rows[line][columns.start * self.width : columns.stop * self.width])
        return list(part) if self.width == 1 else list(images.big_endian(array.array("H", part)))

    def put(self, line: int, columns: range, values: list[int]) -> None:
        part = bytes(values) if self.width == 1 else images.big_endian(array.array("H", values)).tobytes()
        self.rows[line][columns.start * self.width : columns.stop * self.width] = part

    def fill(self, lines: range, columns: range) -> bool:
        """Draws these pixels from those above and below them, by their distances. False where there are none."""
        near = [it for it in (lines.start - 1, lines.stop) if 0 <= it < len(self.rows)]
        if not near:
            return False
        one, other, span = self.values(near[0], columns), self.values(near[-1], columns), len(lines) + 1
        for part, line in enumerate(lines, 1):
            self.put(line, columns, [(a * (span - part) + b * part + span // 2) // span for a, b in zip(one, other)])
        return True


def cut(data: bytes, size: int) -> list[bytes]:
    return [data[at : at + size] for at in range(0, len(data), size)]


def filled(picture: Picture, mask: Picture) -> tuple[Picture, int]:
    """The picture with its lost pixels drawn from those above and below, and in how many lines these are."""
    if (mask.columns, mask.lines) != (picture.columns, picture.lines):
        return picture, 0
    rows, masks = Rows(picture), cut(mask.pixels, mask.columns)
    changed: set[int] = set()
    for columns in strips_of(masks):
        for lines in gaps_of(masks, columns.start):
            if rows.fill(lines, columns):
                changed.update(lines)
    return picture._replace(pixels=b"".join(rows.rows)), len(changed)
