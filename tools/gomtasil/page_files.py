"""The files that the page shows: pictures by what they show, bulletins without a heading, and others."""

import collections
import contextlib
import time
from collections.abc import Iterator
from dataclasses import dataclass, field
from typing import NamedTuple

from . import products, segments, texts, xrit
from .page_pictures import Drawn, Pictures
from .page_summary import Place, Summary, headed
from .quality import FRAME_SYMBOLS
from .segments import Group
from .shelf import Head, Shelf, StoredFile

STAMP_FORM = "%Y-%m-%d %H:%M:%S"
COMING_SECONDS = 600  # after the last file of an image, for which others are waited for
FAST_RATE = 1_000_000  # symbols a second, where the rate isn't known


def utc(seconds: float, form: str = "%Y-%m-%d %H:%M") -> str:
    """Formats a time in UTC. Returns nothing if there is no such time."""
    try:
        return time.strftime(form, time.gmtime(seconds))
    except (OverflowError, ValueError, OSError):
        return ""


@dataclass
class Shown:
    """A file or several segments, as the page shows them."""

    numbers: str  # of its files
    name: str
    words: str  # what it is
    when: str  # the time stamp
    came: str
    kind: str = ""
    note: str = ""
    is_full_disk: bool = False
    picture: str = ""  # the path of a picture from the page, or nothing
    thumbnail: str = ""
    large: str = ""
    texts: list[tuple[str, str]] = field(default_factory=list)  # the names and the texts of a bulletin
    group: str = ""
    heading: str = ""  # of a bulletin
    is_whole: bool = True  # nothing of it is missing or still to come


class Source(NamedTuple):
    """A shelf that the page reads."""

    shelf: Shelf
    summary: Summary
    changed: float  # seconds since 1970
    rate: int | None

    def seconds_of(self, place: Place, rate: int) -> float | None:
        """Returns the time of a file by its frame, or None if that is unknown."""
        if place.reception != self.summary.receptions:
            return None
        return self.changed - (self.summary.last_frame - place.frame) * FRAME_SYMBOLS / rate

    def came(self, place: Place) -> str:
        """Returns when a file was received, or nothing if that is unknown."""
        seconds = self.seconds_of(place, self.rate) if self.rate else None
        return "" if seconds is None else utc(seconds)

    def is_coming(self, place: Place) -> bool:
        """Returns whether the last file of an image is so recent that others may follow."""
        seconds = self.seconds_of(place, self.rate or FAST_RATE)
        return seconds is not None and time.time() - seconds < COMING_SECONDS


def shown_image(pictures: Pictures, source: Source, group: Group, place: Place) -> tuple[Shown, Drawn]:
    """Returns an image as the page shows it, and how it was drawn."""
    product = products.product_of(group.name)
    is_coming = bool(group.missing) and source.is_coming(place)
    drawn = pictures.of_group(source.shelf, group, is_coming)
    note = note_of(group, is_coming, drawn) if drawn.picture else "cannot be decoded as an image"
    numbers = segments.listed(sorted(group.numbers))
    when = group.file.header.stamped(STAMP_FORM)
    about = (numbers, group.name, product.words, when, source.came(place))
    shown = Shown(*about, "image", note, product.is_full_disk, drawn.picture, drawn.thumbnail)
    shown.is_whole = not group.missing and not drawn.damaged
    return shown, drawn


def note_of(group: Group, is_coming: bool, drawn: Drawn) -> str:
    """Returns a note on an image that isn't whole."""
    words = [group.note]
    if is_coming:
        here = len(group.segments)
        words = [f"still coming: {here} of {here + len(group.missing)}", *([str(group.mended)] if group.mended else [])]
    if drawn.damaged:
        words.append(f"bad checksum: file {segments.listed(drawn.damaged)}")
    return "; ".join(filter(None, words))


def shown_other(pictures: Pictures, source: Source, file: StoredFile, place: Place) -> list[Shown]:
    """Returns a file that isn't an image: its texts as one bulletin, each picture in it, or just its name."""
    header, name = file.header, texts.name_of(file)
    kind = "header with a fault" if header.file_type == xrit.FAULTY else f"type {header.file_type}"
    plain = Shown(str(file.number), name, name, header.stamped(STAMP_FORM), source.came(place), kind)
    inside, shown = {}, []
    if header.is_open:
        with contextlib.suppress(texts.BadZip):
            inside = texts.inside(file)
    found = [(it, data.decode()) for it, data in inside.items() if it.lower().endswith(texts.TEXT_ENDING)]
    for member, data in inside.items():
        ending = texts.ending_of(data)
        if ending:
            mark = pictures.name_of(source.shelf, [member.encode(), source.shelf.mark(file.head)], file.number)
            drawn = pictures.of_data(mark, ending, data)
            words = products.product_of(member if len(inside) > 1 else name).words
            shown.append(
                Shown(
                    plain.numbers,
                    name,
                    words,
                    plain.when,
                    plain.came,
                    "image",
                    "",
                    False,
                    drawn.picture,
                    drawn.thumbnail,
                )
            )
    if found:
        heading = texts.heading_of(found[0][1])
        plain.texts = [("" if member == texts.TEXT_ENDING else member, text) for member, text in found]
        plain.words, plain.group, plain.heading = (
            str(heading or name),
            products.bulletin_group(heading),
            str(heading or ""),
        )
        shown.append(plain)
    return [it for it in shown if it.picture or it.texts] or [plain]


@dataclass
class Content:
    """All that is shown of files, the newest first."""

    pictures: list[Shown] = field(default_factory=list)
    bulletins: list[Shown] = field(default_factory=list)
    others: list[Shown] = field(default_factory=list)
    missing: list[str] = field(default_factory=list)
    damaged: int = 0

    def add(self, it: Shown) -> None:
        (self.pictures if it.picture else self.bulletins if it.texts else self.others).append(it)

    def take(self, pictures: Pictures, source: Source) -> None:
        """Takes the files of a shelf, the newest first."""
        places = {it.head.number: it for it in source.summary.images + source.summary.others}

        def load(head: Head) -> StoredFile:
            return headed(source.shelf, source.shelf.front(head))

        groups = list(segments.groups_of(source.shelf, [it.head for it in source.summary.images], load))
        for group in reversed(groups):
            if isinstance(group, Head):
                continue
            last = places[max(group.numbers)]
            shown, drawn = shown_image(pictures, source, group, last)
            self.add(shown)
            self.damaged += len(drawn.damaged)
            if group.missing and not source.is_coming(last):
                self.missing.append(f"{group.name}: segments missing: {segments.in_words(group.missing)}")
        for place in reversed(source.summary.others):
            file = source.shelf.load(place.head)
            if not file:
                self.damaged += 1
                continue
            for it in shown_other(pictures, source, file, place):
                # (those with a heading have a table of their own)
                if not it.heading:
                    self.add(it)

    def kinds(self) -> list[list[Shown]]:
        """Returns the pictures by what they show: full disks first, then by their words. Each kind begins with its
        newest whole picture."""
        rows = collections.defaultdict(list)
        for it in self.pictures:
            rows[it.words].append(it)
        for row in rows.values():
            newest = next((it for it in row if it.is_whole), row[0])
            row.sort(key=lambda it: it is not newest)
        return sorted(rows.values(), key=lambda row: (not row[0].is_full_disk, row[0].words))

    def hero(self) -> Shown | None:
        """Returns the newest whole full disk, or else the newest picture."""
        found = [it for it in self.pictures if it.is_full_disk] or self.pictures
        return max(found, key=lambda it: (it.is_whole, it.when)) if found else None


def counts_of(source: Source) -> Iterator[tuple[str, ...]]:
    """Yields a row for each application of a channel."""
    for key, (files, size) in sorted(source.summary.counts.items(), key=lambda it: list(map(int, it[0].split()))):
        last = source.shelf.load(source.summary.lasts[key].head)
        yield *key.split(), f"{files:,}", f"{size:,}", texts.name_of(last) if last else ""
