"""The shelves of a station's folder: their days, their order, which of them lie ahead of the clock, and which break
off.

The clock may be wrong. So the order of shelves is that of the days in their names, and whether one may go is decided by
how many later days there are with files, and never by the difference to the clock.
"""

import contextlib
import datetime
import os
import stat
import time
from collections.abc import Collection, Iterable
from dataclasses import dataclass
from functools import cached_property

from . import folder as folders
from . import shelf as shelves
from .days import DAY_SECONDS, day_of, is_ahead, named_days, seconds_of
from .shelf import Shelf

FEWEST_KEPT = 2  # of the newest shelves and days, which never go for want of room


@dataclass(frozen=True)
class Found:
    """The file of a shelf in a folder."""

    path: str
    size: int
    changed: float  # seconds since 1970
    capacity: int

    @property
    def name(self) -> str:
        return os.path.basename(self.path)

    @property
    def has_files(self) -> bool:
        return self.size > shelves.FIRST_GATE + 1

    @property
    def full(self) -> int:
        return 100 * self.size // self.capacity if self.capacity else 100

    @cached_property
    def first_day(self) -> datetime.date:
        """The day in its name, or else that of its last change."""
        named = named_days(shelves.label_of(self.path))
        return named[0] if named else day_of(self.changed)

    @property
    def days(self) -> int:
        """The days that it covers: of a week, those up to its last change."""
        named = named_days(shelves.label_of(self.path))
        most = named[1] if named else 1
        return min(most, max(1, (day_of(self.changed) - self.first_day).days + 1))

    @property
    def is_ahead(self) -> bool:
        """Whether its name or its last change is later than the clock says."""
        return is_ahead(self.changed) or is_ahead(seconds_of(self.first_day))


def found_in(folder: str) -> list[Found]:
    """Returns the shelves of a folder in the order of their days, without links and other files."""
    found = []
    for path in shelves.paths_of(folder):
        with contextlib.suppress(OSError, shelves.ShelfError):
            about = os.lstat(path)
            if stat.S_ISREG(about.st_mode):
                with Shelf(path) as shelf:
                    found.append(Found(path, about.st_size, about.st_mtime, shelf.capacity))
    return sorted(found, key=lambda it: (it.first_day, it.changed, it.path))


def newest_of(found: Collection[Found]) -> Found:
    """Returns the shelf that was changed last. A shelf that lies ahead of the clock only counts if there is no
    other."""
    now = [it for it in found if not is_ahead(it.changed)]
    return max(now or found, key=lambda it: (it.changed, it.path))


def kept_whatever(found: list[Found]) -> set[str]:
    """Returns the paths of the newest two shelves, by their days and by the clock."""
    by_clock = sorted((it for it in found if not it.is_ahead), key=lambda it: it.changed)
    return {it.path for it in found[-FEWEST_KEPT:] + by_clock[-FEWEST_KEPT:]}


def later_days(found: Iterable[Found], one: Found) -> int:
    """Returns how many days with files there are on later shelves."""
    later = {it.first_day: it.days for it in found if it.has_files and it.first_day > one.first_day}
    return sum(later.values())


# ---- shelves that break off


def broken_shelves(folder: str, state: str, most: int | None = None) -> list[str]:
    """Returns a sentence for each broken shelf of a folder. Results are kept in a folder of notes, and count for a day
    while the shelf is unchanged. Of more than `most` shelves, only the notes of the earlier ones count."""
    said = []
    paths = shelves.paths_of(folder)
    for place, path in enumerate(paths):
        is_looked_at = most is None or place >= len(paths) - most
        with contextlib.suppress(OSError):
            # (an empty file is a shelf that is just being made)
            has_bytes = not os.path.islink(path) and os.path.getsize(path) > 0
            if has_bytes and (fault := fault_of(path, state, is_looked_at)):
                said.append(f"{os.path.basename(path)} {fault}")
    folders.forget_notes(state, paths)
    return said


def fault_of(path: str, state: str, is_looked_at: bool) -> str:
    """Returns what is wrong with a shelf, or nothing."""
    try:
        with Shelf(path) as shelf:
            note = folders.Note(shelf, state, time.time() // DAY_SECONDS)
            kept = note.read(str)
            if kept is None and is_looked_at:
                kept = break_of(shelf)
                with contextlib.suppress(OSError):
                    note.write(kept)
            return kept or ""
    except shelves.ShelfError:
        return "has no header of a shelf"


def break_of(shelf: Shelf) -> str:
    """Returns where the items of a shelf break off, or nothing."""
    gate = shelves.FIRST_GATE
    try:
        for head in shelf.heads():
            gate = head.next_gate
    except shelves.ShelfError:
        return f"is corrupt at byte {gate}: `gomtasil salvage` copies the files before and after it"
    return ""
