"""What the fronts of a shelf's files tell the page: counts, the newest images and other files, and the corrected
bytes."""

import collections
from collections.abc import Iterable
from dataclasses import dataclass, field
from typing import Any, NamedTuple, Self

from . import folder as folders
from . import segments, xrit
from . import shelf as shelves
from .shelf import Front, Head, Pieces, Shelf, StoredFile

EACH = 8  # images, and other files, of each application that are shown whatever else came
COUNTER_MODULUS = 65_536
MOST_GAP = 1000  # file counters that may be missing in a row; a greater step is a new start
MOST_STRETCHES = 240  # of the curve
MOST_OPEN = 1000  # images to which a segment may still come
MOST_HEADER_BYTES = 4096  # of an image that is looked at for its segment


class Place(NamedTuple):
    """A file on a shelf, and when it was received."""

    head: Head
    frame: int  # counted through all receptions on the shelf
    reception: int


class Steps:
    """The steps of the file counter from file to file. Senders count over all files or within some of them; the count
    with the most steps by one is taken."""

    WITHIN = ("over all files", "within each channel", "within each application")

    def __init__(self) -> None:
        self.before: dict[tuple[int, ...], int] = {}
        self.all, self.ones, self.missing = (dict.fromkeys(self.WITHIN, 0) for _ in range(3))

    def add(self, front: Front) -> None:
        channel, application, counter = front.fields.channel, front.fields.application, front.counter
        for name, key in zip(self.WITHIN, ((), (channel,), (channel, application))):
            step = (counter - self.before.get(key, counter)) % COUNTER_MODULUS
            self.all[name] += key in self.before
            self.ones[name] += step == 1
            self.missing[name] += step - 1 if 1 < step <= MOST_GAP else 0
            self.before[key] = counter

    @property
    def words(self) -> str:
        name = max(self.WITHIN, key=lambda it: self.ones[it] / max(1, self.all[it]))
        if 2 * self.ones[name] <= self.all[name]:
            return "File counters don't tell whether files are missing."
        return f"Missing by the file counters, which count {name}: {self.missing[name]}."


class Stretches:
    """Means over stretches of equal length, which doubles when there are too many."""

    def __init__(self) -> None:
        self.length = 1
        self.sums: dict[int, list[float]] = {}

    def add(self, place: int, value: float, count: float = 1) -> None:
        row = self.sums.setdefault(place // self.length, [0, 0])
        row[:] = row[0] + count, row[1] + value
        if len(self.sums) > MOST_STRETCHES:
            rows, self.sums, self.length = self.sums, {}, 2 * self.length
            for key, (number, total) in rows.items():
                self.add(key * self.length // 2, total, number)

    @property
    def points(self) -> list[tuple[float, float]]:
        return [((key + 0.5) * self.length, total / count) for key, (count, total) in sorted(self.sums.items())]


@dataclass
class Summary:
    """A summary of the files of a shelf. Its size doesn't grow with their number."""

    files: int = 0
    discarded: int = 0
    breaks_off: bool = False
    gaps: str = ""
    receptions: int = 0
    last_frame: int = 0
    counts: dict[str, list[int]] = field(default_factory=dict)  # of an application of a channel: files and bytes
    lasts: dict[str, Place] = field(default_factory=dict)  # the last file of each
    images: list[Place] = field(default_factory=list)  # the newest ones
    others: list[Place] = field(default_factory=list)
    points: list[tuple[float, float]] = field(default_factory=list)  # corrected bytes a frame, over frames

    @classmethod
    def of(cls, kept: dict[str, Any]) -> Self:
        def place(row: Any) -> Place:
            gate, extent, number, is_discard = row[0]
            return Place(Head(int(gate), int(extent), int(number), bool(is_discard)), int(row[1]), int(row[2]))

        found = cls(**kept)
        found.lasts = {key: place(row) for key, row in found.lasts.items()}
        found.images, found.others = list(map(place, found.images)), list(map(place, found.others))
        found.points = [(float(x), float(y)) for x, y in found.points]
        return found


class Newest:
    """The newest images or other files, each with the places of its files: at most `most` of all, and at most `EACH` of
    each application."""

    def __init__(self, most: int):
        self.all: collections.deque[list[Place]] = collections.deque(maxlen=most)
        self.each: dict[str, collections.deque[list[Place]]] = collections.defaultdict(
            lambda: collections.deque(maxlen=min(most, EACH))
        )

    def add(self, key: str, places: list[Place]) -> None:
        self.all.append(places)
        self.each[key].append(places)

    @property
    def places(self) -> list[Place]:
        rows: Iterable[list[Place]] = (*self.all, *(it for row in self.each.values() for it in row))
        return sorted({place for it in rows for place in it})


class Images:
    """The newest images: the segments of an image are kept together, until one of them is sent again."""

    def __init__(self, most: int):
        self.newest = Newest(most)
        self.opened: dict[tuple[object, ...], tuple[set[int], list[Place]]] = {}

    def add(self, key: str, place: Place, segment: segments.Segment | None) -> None:
        before = self.opened.get(segment.key) if segment else None
        if segment and before and segment.number not in before[0]:
            before[0].add(segment.number)
            before[1].append(place)
            return
        row = [place]
        self.newest.add(key, row)
        if segment:
            self.opened.pop(segment.key, None)
            self.opened[segment.key] = ({segment.number}, row)
            if len(self.opened) > MOST_OPEN:
                del self.opened[next(iter(self.opened))]


class Walk:
    """A walk over the files of a shelf."""

    def __init__(self, shelf: Shelf, newest: int):
        self.shelf = shelf
        self.found = Summary()
        self.steps, self.stretches = Steps(), Stretches()
        self.images, self.others = Images(newest), Newest(newest)
        self.before = self.latest = 0

    def add(self, front: Front) -> None:
        found, fields = self.found, front.fields
        if fields.frames:
            first, last = fields.frames
            if last < self.latest:  # a new reception counts from 0 again
                self.before += self.latest + 1
                found.receptions += 1
            self.latest = last
            self.stretches.add(self.before + last, fields.corrected / (last - first + 1))
        place = Place(front.head, self.before + self.latest, found.receptions)
        key = f"{fields.channel} {fields.application}"
        row = found.counts.setdefault(key, [0, 0])
        row[0] += 1
        row[1] += front.head.extent
        found.lasts[key] = place
        if front.file_type == xrit.IMAGE_TYPE:
            self.images.add(key, place, segments.segment_of(headed(self.shelf, front)))
        else:
            self.others.add(key, [place])
        self.steps.add(front)
        found.files += 1

    def end(self) -> Summary:
        found = self.found
        found.last_frame, found.gaps = self.before + self.latest, self.steps.words
        found.points = self.stretches.points
        found.images, found.others = self.images.newest.places, self.others.places
        return found


def headed(shelf: Shelf, front: Front) -> StoredFile:
    """Returns the header of a file as a file without data. Its checksum isn't checked."""
    head, size = front.head, front.fields.size
    place = head.next_gate - shelves.CHECKSUM_BYTES - size + xrit.TRANSPORT.size
    begin = shelf.read(place, min(size - xrit.TRANSPORT.size, MOST_HEADER_BYTES))
    length = xrit.PRIMARY.unpack_from(begin)[3] if len(begin) >= xrit.PRIMARY.size else 0
    return StoredFile(head, front.fields, front.counter, begin[: max(length, 0)], b"")


def summary_of(shelf: Shelf, newest: int, gone: frozenset[int] = frozenset()) -> Summary:
    """Summarises the files of a shelf, except these. It starts again if others turn out to be discarded."""
    walk, pieces, discarded = Walk(shelf, newest), Pieces(shelf.read), set()
    try:
        for head in shelf.heads():
            if head.is_discard:
                discarded.add(head.number)
            elif head.number not in gone:
                walk.add(shelf.front(head, pieces))
    except shelves.ShelfError:
        walk.found.breaks_off = True
    if not discarded <= gone:
        return summary_of(shelf, newest, frozenset(discarded))
    walk.found.discarded = len(discarded)
    return walk.end()


def kept_summary(shelf: Shelf, state: str, newest: int) -> Summary:
    """Returns the summary of a shelf, from the page's notes if the shelf is unchanged."""
    note = folders.Note(shelf, state, newest)
    kept = note.read(Summary.of)
    if kept:
        return kept
    found = summary_of(shelf, newest)
    note.write(vars(found))
    return found
