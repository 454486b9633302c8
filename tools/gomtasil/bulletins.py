"""Bulletins by their headings (WMO-No. 386): which headings a file has, and the newest bulletin of each heading and
centre, such as latest/FZNT01-KWBC.txt."""

import contextlib
import fnmatch
import io
import os
import re
import struct
import zipfile
from collections.abc import Iterator, Sequence
from typing import Any

from . import days, texts
from . import folder as folders
from . import shelf as shelves
from .shelf import StoredFile
from .texts import Heading

LATEST = "latest"
STATE = "latest.json"
MOST_HEADINGS = 20_000  # that are kept; the oldest go
MOST_MEMBERS = 16  # of a zip whose headings are looked at
ZIP_ENTRY = struct.Struct("<28xH16x")  # of a zip's directory: the length of the name, which follows
LOOKED_BYTES = 2 * texts.HEADED_CHARACTERS
# As services name bulletins: A_FZNT01KWBC301200_C_KWIN_20261130120000_..
LIKE_HEADING = re.compile(rb"[A-Z]{4}[0-9]{2} [A-Z]{4} [0-9]{6}")  # (most files have none)
NAME = re.compile(r"[A-Z]_([A-Z]{4}[0-9]{2})([A-Z]{4})([0-9]{6})([A-Z]{3})?_C_[A-Z]{4}_.*")

Rank = tuple[str, str, int]


def key_of(heading: Heading) -> str:
    """Returns the heading without its time, such as FZNT01-KWBC."""
    return f"{heading.designator}-{heading.centre}"


def heading_of_name(name: str) -> Heading | None:
    found = NAME.fullmatch(name)
    return Heading(found[1], found[2], found[3], found[4] or "") if found else None


def heading_of_text(data: bytes) -> Heading | None:
    begin = data[:LOOKED_BYTES]
    return texts.heading_of(texts.readable(begin)) if LIKE_HEADING.search(begin) else None


def names_in(data: bytes) -> Iterator[str]:
    """Yields the names in a zip's directory, without opening the zip."""
    place = -1
    for _ in range(texts.MOST_ZIP_FILES):
        place = data.find(texts.ZIP_ENTRY_SIGNATURE, place + 1)
        if place < 0 or place + ZIP_ENTRY.size > len(data):
            return
        (length,) = ZIP_ENTRY.unpack_from(data, place)
        name = data[place + ZIP_ENTRY.size : place + ZIP_ENTRY.size + length]
        if not name.endswith(b"/"):
            yield name.decode("utf-8", "replace")


def members_of(data: bytes) -> Iterator[tuple[str, Heading | None]]:
    """Yields the names of the files in a zip, with the headings of its texts; fewer if the zip is damaged."""
    if data.count(texts.ZIP_ENTRY_SIGNATURE) > texts.MOST_ZIP_FILES:
        return
    with contextlib.suppress(Exception):  # (zipfile has errors of many kinds for bytes that are no zip)
        with zipfile.ZipFile(io.BytesIO(data)) as archive:
            for place, member in enumerate(filter(texts.is_file, archive.infolist())):
                heading = None
                if place < MOST_MEMBERS and texts.is_plain(member):
                    with archive.open(member) as it:
                        heading = heading_of_text(it.read(LOOKED_BYTES))
                yield member.filename, heading


def headings_of(file: StoredFile) -> list[Heading]:
    """Returns the headings of a file, from its name or else from its contents."""
    if not file.header.is_open or file.header.is_image:
        return []
    named = heading_of_name(texts.name_of(file))
    if named:
        return [named]
    if file.data.startswith(texts.ZIP_SIGNATURE):
        return [it for _, it in members_of(file.data) if it]
    found = heading_of_text(file.data)
    return [found] if found else []


def fits(file: StoredFile, patterns: Sequence[str]) -> bool:
    """Returns whether a heading of a file, such as FZNT01-KWBC, matches one of these patterns."""
    keys = [key_of(it) for it in headings_of(file)]
    return any(fnmatch.fnmatchcase(key, it) for key in keys for it in patterns)


# ---- the newest of each


class Newest:
    """Writes the newest bulletin of each heading into a folder, under a fixed name."""

    def __init__(self, folder: folders.Folder):
        self.note = os.path.join(folder.state, STATE)
        self.ranks: dict[str, Rank] = folders.read_kept(self.note, self.ranks_of) or {}
        self.waiting: dict[str, bytes] = {}

    @staticmethod
    def ranks_of(kept: Any) -> dict[str, Rank]:
        return {str(key): (str(day), str(label), int(number)) for key, (day, label, number) in kept.items()}

    def take(self, path: str, file: StoredFile, contents: bytes | dict[str, bytes]) -> None:
        """Takes the texts that were extracted from a file."""
        label = shelves.label_of(path)
        inside = contents if isinstance(contents, dict) else {"": contents}
        for data in inside.values():
            heading = heading_of_text(data) if texts.is_text(data[:LOOKED_BYTES]) else None
            if heading and not file.header.is_image:
                rank = (days.file_day(label, 0, file.header.stamp), label, file.number)
                key = key_of(heading)
                if rank >= self.ranks.get(key, ("", "", 0)):
                    self.ranks[key] = rank
                    self.waiting[key] = data

    def put(self, folder: folders.Folder) -> None:
        """Writes the bulletins that were taken since the last call."""
        if not self.waiting:
            return
        os.makedirs(folder.full(LATEST), exist_ok=True)
        for key, data in self.waiting.items():
            folders.write_whole(self.path_of(folder, key), data)
        self.waiting.clear()
        for key in sorted(self.ranks, key=lambda it: self.ranks[it])[:-MOST_HEADINGS]:
            del self.ranks[key]
            with contextlib.suppress(FileNotFoundError):
                os.unlink(self.path_of(folder, key))
        folders.write_kept(self.note, self.ranks)

    @staticmethod
    def path_of(folder: folders.Folder, key: str) -> str:
        return os.path.join(folder.full(LATEST), folders.safe(key) + texts.TEXT_ENDING)
