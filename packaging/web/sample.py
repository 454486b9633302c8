"""The sample of README as a shelf of its own, for the page: six files, and no fill."""

from __future__ import annotations

import sys
from collections.abc import Iterator
from pathlib import Path

sys.path.insert(0, str(Path(__file__).resolve().parents[2] / "tools"))
from gomtasil import sample, shelf  # noqa: E402


def files() -> Iterator[tuple[int, int, bytes]]:
    """The channel, the application and the bytes of each file, in the order of `gomtasil sample`."""
    found = [(sample.IMAGE_CHANNEL, sample.IMAGE_APPLICATION, it) for it in sample.segments_of_earth()]
    text = (sample.TEXT_CHANNEL, sample.TEXT_APPLICATION)
    found.insert(0, (*text, sample.bulletin(sample.BULLETIN, 1)))
    found.insert(3, (*text, sample.zipped_bulletin(sample.BULLETIN)))
    yield from found


def sample_shelf() -> tuple[bytes, int]:
    """The bytes of the shelf, and how many files it has."""
    items = [shelf.item_of(channel, application, sample.bodies_of(number, it))
             for number, (channel, application, it) in enumerate(files())]
    return shelf.shelf_of(items), len(items)
