"""Draws each image as STAMP-NAME@SHELF.N.png: its time stamp, the name of the file (of the first segment received), the
name of the shelf, and the file's number there. JPEG, GIF and PNG images stay as they were sent. Segments are assembled,
by any of three forms of record, and so are strips of JPEG. If segments are missing, their places are black and the name
ends in -lacks-COUNT; if packets of a file were missing, in -mended-COUNT. A later run that finds more draws such a
picture again. All other pictures that exist are left as they are, whatever the options. The newest picture of each kind
is also latest/KIND.png. --loop draws the newest whole pictures of a kind one after another. --fill also draws each
picture that lacks something as NAME-filled.png, with its lost lines drawn from the received ones above and below them;
a comment in the file says how many lines those are.
"""

from __future__ import annotations

import os
import re
from collections.abc import Iterator, Sequence
from dataclasses import dataclass, replace
from typing import TYPE_CHECKING, NamedTuple

from . import colours, days, fill
from . import folder as folders
from . import geo, images, loops, overlay, products, program, segments
from . import shelf as shelves
from . import texts
from .segments import Group
from .shelf import Shelf

if TYPE_CHECKING:
    from PIL.Image import Image

STATE = ".pictures"
LATEST = "latest"
MOST_SHELF_CHARACTERS = 60  # of the shelf's name in that of a picture
ENDING = r"(-[a-z]+)?\.(png|jpg|gif)"
LESS = re.compile(rf"(?P<stem>.*@[^@]*\.[0-9]+)(?=-lacks-|-mended-)(-lacks-\d+)?(-mended-\d+)?{ENDING}")


class Enhancement(NamedTuple):
    """A colour table for the pictures whose names match a pattern."""

    pattern: str
    table: str

    @classmethod
    def of(cls, text: str) -> Enhancement:
        pattern, _, table = text.rpartition("=")
        if not pattern or table not in colours.TABLES:
            raise ValueError(f"it is PATTERN=TABLE, and the tables are {', '.join(colours.TABLES)}")
        return cls(pattern, table)


class Crop(NamedTuple):
    """The part of each picture to keep, in pixels."""

    width: int
    height: int
    left: int
    top: int

    @classmethod
    def of(cls, text: str) -> Crop:
        found = re.fullmatch(r"([0-9]{1,5})x([0-9]{1,5})\+([0-9]{1,5})\+([0-9]{1,5})", text)
        if not found or not int(found[1]) * int(found[2]):
            raise ValueError("it is WIDTHxHEIGHT+LEFT+TOP, such as 2000x1500+1200+300")
        return cls(*map(int, found.groups()))


@dataclass(frozen=True)
class Finish:
    """How each picture is processed before it is written."""

    lines: overlay.Lines | None = None
    crop: Crop | None = None
    scale: int | None = None  # pixels of the longer side at most
    jpeg: int | None = None  # its quality; None: as PNG

    @property
    def is_plain(self) -> bool:
        return not (self.lines or self.crop or self.scale or self.jpeg)

    def image_of(self, image: Image, placement: geo.Placement | None) -> Image:
        if self.lines and placement:
            image = self.lines.drawn(image, placement)
        if self.crop:
            crop = self.crop
            image = image.crop((crop.left, crop.top, crop.left + crop.width, crop.top + crop.height))
        if self.scale and max(image.size) > self.scale:
            image = images.scaled(image, self.scale)
        return image

    def bytes_of(self, image: Image, comment: str = "") -> bytes:
        if self.jpeg:
            return images.jpeg_of(image, max(image.size), self.jpeg, comment)
        return images.png_of_image(image, comment=comment)

    @property
    def ending(self) -> str:
        return ".jpg" if self.jpeg else ".png"


@dataclass(frozen=True)
class Wishes:
    """The options of a call."""

    patterns: tuple[str, ...] = ()  # of annotations; where there is none, all
    enhancements: tuple[Enhancement, ...] = ()
    false_colour: Sequence[str] | None = None  # patterns of the visible and of the infrared picture
    has_latest: bool = True
    has_days: bool = False  # a folder for each day
    keep_days: int | None = None
    is_whole: bool = False  # leave out what lacks segments
    is_quiet: bool = False
    finish: Finish = Finish()
    loops: tuple[loops.Loop, ...] = ()
    is_filled: bool = False  # also draw lost lines from those around them


class Drawn(NamedTuple):
    """A picture in the folder."""

    name: str
    group: Group


class Drawer:
    """Draws the images of one shelf."""

    def __init__(self, shelf: Shelf, folder: str, wishes: Wishes):
        self.shelf = shelf
        self.folder = folder
        self.wishes = wishes
        self.label = folders.safe(shelves.label_of(shelf.path))[:MOST_SHELF_CHARACTERS]
        self.changed = os.fstat(shelf.descriptor).st_mtime
        self.kept_from = kept_from(folder, wishes.keep_days) if wishes.has_days else ""
        self.failed = False
        self.count = 0

    def full(self, name: str) -> str:
        return os.path.join(self.folder, name)

    def groups(self) -> Iterator[Group]:
        """Yields the images of the shelf. A file that can't be read is reported."""
        for group in segments.groups_of(self.shelf, self.shelf.images()):
            if not isinstance(group, Group):
                self.failed = True
                program.tell(f"file {group.number} of {self.shelf.path} has a bad checksum and is left out")
            elif group.file.header.structure and self.wants(group):
                yield group

    def wants(self, group: Group) -> bool:
        """Returns whether an image is to be drawn: it lacks no segments if only whole ones are wanted, and its day is
        kept."""
        is_left_out = (self.wishes.is_whole and group.missing) or self.day_of(group) < self.kept_from
        return not is_left_out and folders.fits(group.file, self.wishes.patterns or ["*"])

    def day_of(self, group: Group) -> str:
        label = shelves.label_of(self.shelf.path)
        return days.file_day(label, self.changed, group.file.header.stamp) if self.wishes.has_days else ""

    def stem_of(self, group: Group) -> str:
        stamp = group.file.header.stamped(folders.STAMP_FORM + "-")
        name = folders.annotation_of(group.file).removesuffix(folders.WHOLE_ENDING) or "image"
        return os.path.join(self.day_of(group), f"{stamp}{name}@{self.label}.{group.file.number}")

    def name_of(self, group: Group) -> str:
        """Returns the name of a picture without its ending."""
        fillers = group.mended.fillers if group.mended else 0
        lacks = f"-lacks-{len(group.missing)}" if group.missing else ""
        return self.stem_of(group) + lacks + (f"-mended-{fillers}" if fillers else "")

    def draw_all(self) -> list[Drawn]:
        """Draws what isn't there yet. Returns all pictures that are there afterwards."""
        groups = list(self.groups())
        for group in groups:
            if group.note:
                program.tell(f"{self.name_of(group)}: {group.note}")
        wanted = [it for it in groups if not self.standing(self.name_of(it)) and not self.put_as_sent(it)]
        for group, picture in zip(wanted, images.group_pictures(self.shelf, wanted)):
            if picture and self.wishes.finish.is_plain:
                self.put(self.name_of(group) + ".png", images.png_of(picture))
            elif picture:
                self.put_finished(self.name_of(group), group, images.grey_of(picture))
            else:
                where = f"file {segments.listed(sorted(group.numbers))} of {self.shelf.path}"
                program.tell(f"{group.name}: {where} cannot be decoded as an image")
        drawn = [Drawn(name, it) for it in groups if (name := self.standing(self.name_of(it)))]
        for it in drawn:
            self.enhance(it)
            if self.wishes.is_filled and (it.group.missing or it.group.mended):
                self.fill(it)
        self.forget(drawn)
        return drawn

    def standing(self, name: str) -> str | None:
        """Returns the existing picture of a name, with its ending."""
        found = (name + ending for ending in (".png", ".jpg", ".gif"))
        return next((it for it in found if os.path.exists(self.full(it))), None)

    def put_as_sent(self, group: Group) -> bool:
        """Writes a JPEG, GIF or PNG that isn't a segment. Returns whether it is one."""
        file = self.shelf.load(group.parts[0].head) if not group.segments or group.segments[0].total == 1 else None
        ending = texts.ending_of(file.data) if file else None
        if not file or not ending or not file.header.is_open or not self.wishes.finish.is_plain:
            return False
        self.put(self.name_of(group) + ending, file.data)
        return True

    def put_finished(self, name: str, group: Group, image: Image, comment: str = "") -> None:
        """Processes a picture and writes it."""
        finish = self.wishes.finish
        placement = None
        if finish.lines:
            try:
                placement = geo.group_placement(self.shelf, group)
            except shelves.ShelfError as fault:
                program.tell(f"{name}: no coasts: {fault}")
        self.put(name + finish.ending, finish.bytes_of(finish.image_of(image, placement), comment))

    def put(self, name: str, data: bytes) -> None:
        try:
            os.makedirs(os.path.dirname(self.full(name)), exist_ok=True)
            folders.write_whole(self.full(name), data)
            self.count += 1
            if not self.wishes.is_quiet:
                print(name, flush=True)
        except OSError as fault:
            program.tell(f"{name}: {program.reason(fault)}")
            self.failed = True

    def forget(self, drawn: list[Drawn]) -> None:
        """Removes the pictures of an image that lack more than the current one."""
        names = {self.stem_of(it.group): self.name_of(it.group) for it in drawn}
        for day in {os.path.dirname(it) for it in names}:
            for other in (os.path.join(day, it) for it in os.listdir(self.full(day))):
                less = LESS.fullmatch(other)
                name = names.get(less["stem"]) if less else None
                if name and not re.fullmatch(re.escape(name) + ENDING, other):
                    os.unlink(self.full(other))

    # ---- lost lines

    def fill(self, drawn: Drawn) -> None:
        """Draws a picture with its lost lines filled, if that isn't there."""
        stem = os.path.splitext(drawn.name)[0] + "-filled"
        if os.path.exists(self.full(stem + self.wishes.finish.ending)):
            return
        picture, mask = images.group_picture(self.shelf, drawn.group), fill.received(self.shelf, drawn.group)
        if not picture or not mask:
            return
        whole, lines = fill.filled(picture, mask)
        comment = f"{lines} lines of {picture.lines} were lost, and are drawn from the lines around them"
        if not lines:
            return
        program.tell(f"{stem}: {comment}")
        if self.wishes.finish.is_plain:
            self.put(stem + ".png", images.png_of(whole, comment=comment))
        else:
            self.put_finished(stem, drawn.group, images.grey_of(whole), comment)

    # ---- colours

    def enhance(self, drawn: Drawn) -> None:
        for it in self.wishes.enhancements:
            stem = f"{os.path.splitext(drawn.name)[0]}-{it.table}"
            name = stem + self.wishes.finish.ending
            if folders.fits(drawn.group.file, [it.pattern]) and not os.path.exists(self.full(name)):
                image = self.read(drawn)
                if image:
                    self.put_finished(stem, drawn.group, colours.enhanced(image, it.table))

    def read(self, drawn: Drawn) -> Image | None:
        """Returns the picture in grey, before it is cropped or scaled."""
        if not self.wishes.finish.is_plain:
            picture = images.group_picture(self.shelf, drawn.group)
            return images.grey_of(picture).convert("L") if picture else None
        with open(self.full(drawn.name), "rb") as it:
            image = images.read_image(it.read())
        return images.levels_of(image).convert("L") if image else None

    def colour(self, drawn: list[Drawn]) -> None:
        """Draws false colours for each pair of a visible and an infrared picture of the same time."""
        if not self.wishes.false_colour:
            return
        visible, infrared = (self.by_time(drawn, pattern) for pattern in self.wishes.false_colour)
        for when in sorted(set(visible) & set(infrared)):
            stem = os.path.splitext(visible[when].name)[0] + "-colours"
            if not os.path.exists(self.full(stem + self.wishes.finish.ending)):
                one, other = self.read(visible[when]), self.read(infrared[when])
                if one and other:
                    self.put_finished(stem, visible[when].group, colours.false_colours(one, other))

    @staticmethod
    def by_time(drawn: list[Drawn], pattern: str) -> dict[str, Drawn]:
        """Returns the pictures whose names match, by their minutes."""
        fit = [it for it in drawn if it.group.file.header.stamp and folders.fits(it.group.file, [pattern])]
        return {it.group.file.header.stamped("%Y%m%d%H%M"): it for it in fit}

    # ---- the latest of each kind

    def link_latest(self, drawn: list[Drawn]) -> None:
        """Writes latest/KIND.png: the newest whole picture of each kind, or the newest one if none is whole."""
        newest: dict[str, Drawn] = {}
        for it in sorted(drawn, key=lambda it: it.group.rank):
            newest[products.product_of(it.group.name).short] = it
        if newest:
            os.makedirs(self.full(LATEST), exist_ok=True)
        for kind, it in newest.items():
            final = os.path.join(LATEST, kind + os.path.splitext(it.name)[1])
            if not folders.is_same(self.full(final), self.full(it.name)):
                renamed_over(self.full(it.name), self.full(final))


def renamed_over(one: str, other: str) -> None:
    """Gives a file a second name, replacing what has it, so that a file of this name always exists."""
    part = f"{other}.{os.getpid()}.part"
    try:
        os.link(one, part)
    except OSError:  # (where there are no links)
        with open(one, "rb") as it:
            folders.write_new(part, it.read())
    os.rename(part, other)


# ---- what was drawn


def kept_from(folder: str, keep_days: int | None) -> str:
    """Returns the first of the last `keep_days` days that have pictures."""
    found = folders.days_of(folder)
    return found[-keep_days] if keep_days and len(found) >= keep_days else ""


def draw_shelf(path: str, folder: str, wishes: Wishes) -> tuple[int, bool]:
    """Draws the images of a shelf. Returns how many pictures were written, and whether all succeeded."""
    with Shelf(path) as shelf:
        note = folders.Note(shelf, os.path.join(folder, STATE), repr_of(wishes))
        first = kept_from(folder, wishes.keep_days)

        def stands(names: list[str]) -> bool:
            return all(it < first or os.path.exists(os.path.join(folder, it)) for it in names)

        if note.read(stands):
            return 0, True
        drawer = Drawer(shelf, folder, wishes)
        drawn = drawer.draw_all()
        drawer.colour(drawn)
        if wishes.has_latest:
            drawer.link_latest(drawn)
    if not drawer.failed:
        note.write([it.name for it in drawn])
    return drawer.count, not drawer.failed


def repr_of(wishes: Wishes) -> str:
    """Returns the options as a note keeps them."""
    return repr(replace(wishes, is_quiet=False, keep_days=None, loops=(), finish=Finish())) + wishes.finish.ending


def draw(path: str, folder: str, wishes: Wishes) -> int:
    """Draws the images of a shelf, or of all the shelves of a folder. Returns the status."""
    os.makedirs(folder, exist_ok=True)
    faults = count = 0
    for it in (paths := shelves.paths_of(path)):
        try:
            written, is_done = draw_shelf(it, folder, wishes)
            count, faults = count + written, faults + (not is_done)
        except (OSError, shelves.ShelfError) as fault:
            program.tell(f"{it}: {program.reason(fault)}")
            faults += 1
    if not paths:
        program.tell(f"{path}: no shelf yet")
    if os.path.isdir(path):
        folders.forget_notes(os.path.join(folder, STATE), paths, {loops.NOTE})
    for name in folders.remove_days(folder, wishes.keep_days) if wishes.keep_days else ():
        program.tell(f"removed {os.path.join(folder, name)}")
    for loop in wishes.loops:
        count += loop.draw(folder, os.path.join(folder, STATE))
    if wishes.is_quiet and count:
        print(f"{count} pictures", flush=True)
    return int(faults > 0 or not paths)
