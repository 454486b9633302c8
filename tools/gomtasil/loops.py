"""Loops: the newest whole pictures of a kind one after another, as GIF or animated PNG."""

from __future__ import annotations

import fnmatch
import os
import re
from typing import TYPE_CHECKING, Any, NamedTuple

from . import folder as folders
from . import images

if TYPE_CHECKING:
    from PIL.Image import Image

FRAMES = 48  # a day of pictures each half hour
FRAME_MILLISECONDS = 150
LAST_MILLISECONDS = 1500
MOST_PIXELS = 800  # of the longer side
NOTE = "loops.json"
# STAMP-ANNOTATION@SHELF.NUMBER, without -lacks- and colours
WHOLE = re.compile(r"[0-9]{8}T[0-9]{6}Z-(?P<name>.*)@[^@]*\.[0-9]+\.(png|jpg)")


class Loop(NamedTuple):
    """A loop of the pictures whose names match a pattern."""

    pattern: str
    file: str

    @classmethod
    def of(cls, text: str) -> Loop:
        pattern, _, file = text.rpartition("=")
        if not pattern or folders.safe(file) != file or not file.endswith((".gif", ".png")):
            raise ValueError("it is PATTERN=FILE, and FILE a name that ends in .gif or .png")
        return cls(pattern, file)

    def names(self, folder: str) -> list[str]:
        """Returns the newest pictures that match, in the order of their time stamps."""
        found = []
        for day in ["", *folders.days_of(folder)]:
            for name in os.listdir(os.path.join(folder, day)):
                whole = WHOLE.fullmatch(name)
                if whole and fnmatch.fnmatchcase(whole["name"], self.pattern):
                    found.append((name, day))
        return [os.path.join(day, name) for name, day in sorted(found)[-FRAMES:]]

    def draw(self, folder: str, state: str) -> int:
        """Draws the loop if its pictures have changed. Returns how many loops were written."""
        names = self.names(folder)
        path = os.path.join(folder, self.file)
        kept: dict[str, Any] = folders.read_kept(os.path.join(state, NOTE), dict) or {}
        if len(names) < 2 or (kept.get(self.file) == names and os.path.exists(path)):
            return 0
        folders.write_whole(path, loop_of([os.path.join(folder, it) for it in names], self.file.endswith(".gif")))
        folders.write_kept(os.path.join(state, NOTE), kept | {self.file: names})
        return 1


def loop_of(paths: list[str], is_gif: bool) -> bytes:
    """Returns the bytes of a loop of these pictures, in the size of the newest one."""
    frames = []
    for path in paths:
        with open(path, "rb") as it:
            image = images.read_image(it.read())
        if image:
            frames.append(frame_of(image))
    size = frames[-1].size
    frames = [it if it.size == size else it.resize(size) for it in frames]
    times = [FRAME_MILLISECONDS] * (len(frames) - 1) + [LAST_MILLISECONDS]
    more = {"save_all": True, "append_images": frames[1:], "duration": times, "loop": 0}
    return images.written(frames[0], "GIF" if is_gif else "PNG", **more)


def frame_of(image: Image) -> Image:
    levels = images.levels_of(image)
    plain = levels if levels.mode in ("L", "RGB") else levels.convert("RGB")
    return images.scaled(plain, MOST_PIXELS) if max(plain.size) > MOST_PIXELS else plain
