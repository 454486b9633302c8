"""The newest bulletin of each heading and centre, as the page shows them, by the index of the newest shelves."""

import collections
import contextlib
import os
from collections.abc import Iterator
from dataclasses import dataclass, field

from . import bulletins, index, products, texts
from .page_files import Source
from .shelf import Head, Pieces, Shelf, ShelfError
from .texts import Heading

SHELVES = 2  # that are looked into: after midnight the newest one has few
MOST_HEADINGS = 2000  # that are shown
MOST_TEXTS = 400  # of which the text is on the page, the newest ones
MOST_TEXT_CHARACTERS = 20_000  # of a bulletin that are shown
MOST_FILE_BYTES = 4 << 20  # of one whose text is shown


@dataclass
class Bulletin:
    """The newest bulletin of a heading."""

    heading: Heading
    shelf: str  # the name
    number: int
    gate: int  # its place on the shelf
    name: str
    when: str  # the time stamp, or when it came
    text: str = ""
    more: int = 0  # characters that aren't shown
    is_newest: bool = False

    @property
    def group(self) -> str:
        return products.bulletin_group(self.heading)


@dataclass
class Headings:
    """The newest bulletins by their headings, the newest first."""

    found: dict[str, Bulletin] = field(default_factory=dict)
    looked: int = 0  # shelves

    def take(self, source: Source, state: str | None) -> None:
        """Takes the headings of a shelf. The newest shelf comes first."""
        self.looked += 1
        if self.looked > SHELVES:
            return
        label = os.path.basename(source.shelf.path)
        for entry in index.entries(source.shelf, state):
            for heading in headings_in(entry.inside):
                key = bulletins.key_of(heading)
                if key not in self.found and len(self.found) < MOST_HEADINGS:
                    about = (entry.number, entry.gate, entry.name, when_of(entry.stamp))
                    self.found[key] = Bulletin(heading, label, *about)
        self.read(source.shelf, label)

    def read(self, shelf: Shelf, label: str) -> None:
        """Reads the texts of the newest bulletins on this shelf."""
        wanted = collections.defaultdict(list)
        for it in list(self.found.values())[:MOST_TEXTS]:
            if it.shelf == label:
                wanted[it.gate, it.number].append(it)
        pieces = Pieces(shelf.read)
        for (gate, number), row in sorted(wanted.items()):
            inside = []
            # (the names may be older than a break)
            with contextlib.suppress(ShelfError):
                inside = texts_in(shelf, shelf.head_at(pieces, gate, number))
            for it in row if inside else ():
                text = next((text for text in inside if fits(text, it.heading)), inside[0])
                it.text, it.more = text[:MOST_TEXT_CHARACTERS], max(0, len(text) - MOST_TEXT_CHARACTERS)

    def groups(self) -> list[tuple[str, list[Bulletin]]]:
        """Returns the bulletins by their groups, warnings first."""
        found = list(self.found.values())
        if found:
            found[0].is_newest = True
        rows = collections.defaultdict(list)
        for it in found:
            rows[it.group].append(it)
        return sorted(rows.items(), key=lambda row: products.place_of_group(row[0]))


def headings_in(inside: str) -> Iterator[Heading]:
    """Yields the headings in an entry of the index."""
    for it in inside.split(", "):
        if found := texts.HEADING.fullmatch(it):
            yield Heading(found[1], found[2], found[3], found[4] or "")


def when_of(stamp: str) -> str:
    """Formats a time stamp of the index."""
    return f"{stamp[:4]}-{stamp[4:6]}-{stamp[6:8]} {stamp[9:11]}:{stamp[11:13]}" if stamp else ""


def texts_in(shelf: Shelf, head: Head | None) -> list[str]:
    """Returns the texts in a file; none if it can't be read."""
    file = shelf.load(head) if head and head.extent <= MOST_FILE_BYTES else None
    try:
        inside = texts.inside(file) if file else {}
    except texts.BadZip:
        return []
    return [data.decode() for name, data in inside.items() if name.lower().endswith(texts.TEXT_ENDING)]


def fits(text: str, heading: Heading) -> bool:
    found = texts.heading_of(text)
    return found is not None and found[:2] == heading[:2]
