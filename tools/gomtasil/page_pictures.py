"""The folder of pictures beside the page: what is drawn, what is drawn again, and what goes."""

import hashlib
import os
import re
import time
from collections.abc import Callable, Iterable
from dataclasses import dataclass, field
from typing import Any

from . import folder as folders
from . import images, texts
from . import shelf as shelves
from .segments import Group
from .shelf import Shelf

THUMBNAIL_PIXELS, LARGE_PIXELS = 160, 1024
HASH_DIGITS = 24  # of the name of a picture
AGAIN_SECONDS = 300  # before an image that isn't whole is drawn again
NOTES = "pictures.json"  # in the page's state
OWN_PICTURE = re.compile(
    r"([A-Za-z0-9._~-]*-)?[0-9]{6,}-[0-9a-f]{24}(-small|-large)?\.(png|jpg|gif)|\..*\.[0-9]+\.part"
)


@dataclass
class Drawn:
    """The picture of an image. Both paths are empty if there is none."""

    picture: str = ""  # from the page
    thumbnail: str = ""
    at: float = 0.0  # when it was drawn
    damaged: list[int] = field(default_factory=list)  # files that couldn't be read for it


class Pictures:
    """The folder of pictures, with notes on how they were drawn."""

    def __init__(self, folder: str, state: str):
        self.folder = folder
        self.shown: set[str] = set()
        self.path = os.path.join(state, NOTES)
        self.notes: dict[str, Drawn] = folders.read_kept(self.path, self.notes_of) or {}
        self.used: dict[str, Drawn] = {}
        os.makedirs(os.path.join(folder, "pictures"), exist_ok=True)

    @staticmethod
    def notes_of(kept: Any) -> dict[str, Drawn]:
        return {
            str(stem): Drawn(str(it["picture"]), str(it["thumbnail"]), float(it["at"]), [int(n) for n in it["damaged"]])
            for stem, it in kept.items()
        }

    @staticmethod
    def stem_of(shelf: Shelf, number: int) -> str:
        return f"pictures/{folders.safe(shelves.label_of(shelf.path))[:40]}-{number:06d}"

    def name_of(self, shelf: Shelf, marks: Iterable[bytes], number: int) -> str:
        whole = hashlib.sha256(b"".join(hashlib.sha256(it).digest() for it in marks)).hexdigest()[:HASH_DIGITS]
        return f"{self.stem_of(shelf, number)}-{whole}"

    def has(self, name: str) -> bool:
        self.shown.add(os.path.basename(name))
        return os.path.exists(os.path.join(self.folder, name))

    def has_all(self, drawn: Drawn | None) -> bool:
        return drawn is not None and all([self.has(it) for it in (drawn.picture, drawn.thumbnail) if it])

    def write(self, name: str, data: bytes) -> None:
        folders.write_whole(os.path.join(self.folder, name), data)

    def of_group(self, shelf: Shelf, group: Group, is_coming: bool) -> Drawn:
        """Returns the picture of an image. An image that is still coming is drawn again after some minutes at the
        earliest."""
        stem = self.stem_of(shelf, group.file.number)
        name = self.name_of(shelf, [part.mark for part in group.parts], group.file.number)
        before = self.notes.get(stem)
        if before and self.has_all(before):
            is_same = before.picture.startswith(name) or (not before.picture and before.thumbnail == "")
            is_young = is_coming and 0 <= time.time() - before.at < AGAIN_SECONDS
            if (is_same and before.picture) or is_young:
                self.used[stem] = before
                return before
        drawn = self.drawn(shelf, group, name)
        self.used[stem] = drawn
        return drawn

    def drawn(self, shelf: Shelf, group: Group, name: str) -> Drawn:
        file = shelf.load(group.parts[0].head) if len(group.parts) == 1 else None
        ending = texts.ending_of(file.data) if file else None
        if file and ending and not group.missing:
            return self.of_data(name, ending, file.data)
        damaged = [it.head.number for it in group.parts if not shelf.load(it.head)]

        def draw() -> tuple[bytes, Any] | None:
            picture = images.group_picture(shelf, group) if group.area <= images.MOST_PIXELS else None
            return (images.png_of(picture, images.FAST_PNG_LEVEL), images.grey_of(picture)) if picture else None

        found = self.made(name, ".png", draw)
        return Drawn(found.picture, found.thumbnail, found.at, damaged)

    def of_data(self, name: str, ending: str, data: bytes) -> Drawn:
        """Returns a picture that is shown as it was sent."""
        return self.made(name, ending, lambda: (data, image) if (image := images.read_image(data)) else None)

    def made(self, name: str, ending: str, make: Callable[[], tuple[bytes, Any] | None]) -> Drawn:
        """Returns a picture that `make` draws if it doesn't exist yet."""
        drawn = Drawn(name + ending, name + "-small.jpg", time.time())
        if not self.has_all(drawn):
            found = make()
            if not found:
                return Drawn(at=time.time())
            self.write(drawn.picture, found[0])
            self.write(drawn.thumbnail, images.jpeg_of(found[1], THUMBNAIL_PIXELS))
        return drawn

    def large(self, picture: str) -> str:
        """Returns the path of a larger picture."""
        name = picture.rsplit(".", 1)[0] + "-large.jpg"
        if not self.has(name):
            with open(os.path.join(self.folder, picture), "rb") as it:
                image = images.read_image(it.read())
            if not image:
                return picture
            self.write(name, images.jpeg_of(images.levels_of(image), LARGE_PIXELS, 85))
        return name

    def clear_away(self) -> None:
        """Saves the notes, and removes the pictures that the page doesn't name and the parts that a kill left."""
        folders.write_kept(self.path, {stem: vars(it) for stem, it in self.used.items()})
        folder = os.path.join(self.folder, "pictures")
        for name in os.listdir(folder):
            if OWN_PICTURE.fullmatch(name) and name not in self.shown:
                os.unlink(os.path.join(folder, name))
