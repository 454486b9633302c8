"""Colours for pictures: tables for infrared, and false colours of a visible and an infrared picture.

A table leads from grey levels to colours, by its corners, between which it goes on evenly. The levels are those of the
picture: what is bright in infrared is cold, as services send it.
"""

from __future__ import annotations

from typing import TYPE_CHECKING

if TYPE_CHECKING:
    from PIL.Image import Image

Corner = tuple[int, tuple[int, int, int]]

TABLES: dict[str, tuple[Corner, ...]] = {
    # grey where it is warm, and colours for cold tops of clouds
    "ir": (
        (0, (0, 0, 0)),
        (160, (200, 200, 200)),
        (161, (0, 170, 220)),
        (185, (0, 40, 160)),
        (186, (0, 180, 60)),
        (205, (180, 220, 0)),
        (206, (255, 220, 0)),
        (225, (220, 40, 0)),
        (226, (120, 0, 60)),
        (255, (255, 255, 255)),
    ),
    # dry air in brown, moist air in white and blue
    "wv": ((0, (90, 45, 0)), (90, (190, 120, 40)), (140, (235, 235, 235)), (200, (70, 130, 220)), (255, (20, 20, 120))),
    "heat": ((0, (255, 240, 200)), (80, (230, 110, 30)), (160, (90, 30, 90)), (255, (10, 10, 60))),
}
DAY_LEVEL = 24  # of a visible picture, from which it shows something


def table_of(name: str) -> list[tuple[int, int, int]]:
    """The colours of all 256 levels."""
    corners = TABLES[name]
    colours = []
    for level in range(256):
        low, one = max((it for it in corners if it[0] <= level), key=lambda it: it[0])
        high, other = min((it for it in corners if it[0] >= level), key=lambda it: it[0])
        part = (level - low) / (high - low) if high > low else 0.0
        red, green, blue = (round(a + (b - a) * part) for a, b in zip(one, other))
        colours.append((red, green, blue))
    return colours


def enhanced(image: Image, name: str) -> Image:
    """A grey picture in the colours of a table."""
    from PIL import Image as Images

    coloured = Images.frombytes("P", image.size, image.tobytes())
    coloured.putpalette([part for colour in table_of(name) for part in colour])
    return coloured


def false_colours(visible: Image, infrared: Image) -> Image:
    """Red and green of the visible picture, blue of both, so that high clouds are white, low ones yellow, and sea and
    land dark; where it is night, the infrared picture in grey and blue."""
    from PIL import Image as Images

    if visible.size != infrared.size:
        size = min(visible.size, infrared.size)
        visible, infrared = visible.resize(size), infrared.resize(size)
    day = Images.merge("RGB", (visible, visible, infrared))
    night = Images.merge("RGB", (infrared.point(lambda it: it // 2), infrared.point(lambda it: it // 2), infrared))
    return Images.composite(day, night, visible.point(lambda it: 255 if it >= DAY_LEVEL else 0))
