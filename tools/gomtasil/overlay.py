"""Writes the image to which file N belongs as a PNG, with coasts and borders by its navigation record. The lines come
from GMT (apt-get install gmt gmt-gshhg-low), or from a file of the same form: a longitude and a latitude a line, and a
line that begins with > between two polygons.
"""

from __future__ import annotations

import subprocess
from collections.abc import Iterable, Iterator
from typing import TYPE_CHECKING

from . import geo, images, program
from .shelf import Shelf

if TYPE_CHECKING:
    from PIL.Image import Image

GMT_SECONDS = 300
COASTS, BORDERS = ("-W",), ("-N1",)
COAST_COLOUR, BORDER_COLOUR = (255, 220, 0), (255, 120, 0)
MOST_STEP = 0.25  # of the image's size; a longer step is one round the limb

Line = list[tuple[float, float]]


def lines_of(text: Iterable[str]) -> Iterator[Line]:
    """Lists of longitudes and latitudes."""
    line: Line = []
    for row in text:
        words = row.split()
        try:
            place = (float(words[0]), float(words[1]))
        except (IndexError, ValueError):
            if line:
                yield line
            line = []
            continue
        line.append(place)
    if line:
        yield line


def gmt_lines(which: tuple[str, ...], resolution: str) -> Iterator[Line]:
    words = ["gmt", "coast", "-Rd", f"-D{resolution}", "-M", *which]
    try:
        done = subprocess.run(
            words, capture_output=True, text=True, timeout=GMT_SECONDS, check=True, stdin=subprocess.DEVNULL
        )
    except FileNotFoundError:
        raise program.Missing(
            "gmt is missing: apt-get install gmt gmt-gshhg-low, or name a file of lines by --lines"
        ) from None
    except subprocess.SubprocessError as fault:
        raise OSError(f"gmt coast failed: {getattr(fault, 'stderr', '') or fault}") from None
    return lines_of(done.stdout.splitlines())


def draw(
    image: Image, placement: geo.Placement, lines: Iterable[Line], colour: tuple[int, int, int], width: int
) -> None:
    """Draws lines onto an image. What is behind the limb is left out."""
    from PIL import ImageDraw

    pen = ImageDraw.Draw(image)
    most = MOST_STEP * max(image.size)
    for line in lines:
        run: list[tuple[float, float]] = []
        for place in [*line, None]:
            pixel = placement.pixel_of(*place) if place else None
            is_next = pixel and (not run or max(abs(pixel[0] - run[-1][0]), abs(pixel[1] - run[-1][1])) < most)
            if pixel and is_next:
                run.append(pixel)
                continue
            if len(run) > 1:
                pen.line(run, fill=colour, width=width)
            run = [pixel] if pixel else []


class Lines:
    """The coasts and borders of GMT at a resolution, or the lines of a file, which are read once."""

    def __init__(self, path: str | None, resolution: str, width: int):
        self.path, self.resolution, self.width = path, resolution, width
        self.kinds: list[tuple[list[Line], tuple[int, int, int]]] | None = None

    def read(self) -> list[tuple[list[Line], tuple[int, int, int]]]:
        if self.path:
            with open(self.path, encoding="utf-8", errors="replace") as it:
                return [(list(lines_of(it)), COAST_COLOUR)]
        borders, coasts = (list(gmt_lines(it, self.resolution)) for it in (BORDERS, COASTS))
        return [(borders, BORDER_COLOUR), (coasts, COAST_COLOUR)]

    def drawn(self, image: Image, placement: geo.Placement) -> Image:
        """The image in colours with the lines over it."""
        self.kinds = self.kinds or self.read()
        image = image.convert("RGB")
        for lines, colour in self.kinds:
            draw(image, placement, lines, colour, self.width)
        return image


def overlay(
    path: str, number: int, lines_path: str | None, resolution: str, width: int, sweep: str | None = None
) -> bytes:
    """The PNG of the image to which a file belongs, with coasts and borders over it."""
    with Shelf(path) as shelf:
        found = geo.placed_image(shelf, number, sweep=sweep)
    drawn = Lines(lines_path, resolution, width).drawn(images.grey_of(found.picture), found.placement)
    return images.png_of_image(drawn)
