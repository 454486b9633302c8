"""What is measured, as text for Prometheus (its exposition format, version 0.0.4), and the totals that only grow."""

import time
from typing import Any

from . import quality
from .days import is_ahead
from .shelf import FIRST_GATE, Head, Shelf

PREFIX = "gomtasil_"
WORDS = {
    "last_file_age_seconds": ("gauge", "Seconds since something was added to a shelf."),
    "shelf_used_percent": ("gauge", "How full the newest shelf is."),
    "disk_used_percent": ("gauge", "How full the disk of the shelves is."),
    "frames": ("gauge", "Frames of the last minute, 0 where none is restored."),
    "frames_lost": ("gauge", "Frames of the last minute that could not be restored."),
    "frames_redecoded": ("gauge", "Frames of the last minute that were restored by decoding them again."),
    "corrected_bytes": ("gauge", "Corrected bytes of a restored frame of the last minute, on the average."),
    "demodulator_locked": ("gauge", "1 where the demodulator holds a signal, else 0."),
    "level_decibels": ("gauge", "Power of the radio's samples, where 0 is that of a full circle."),
    "clipped_percent": ("gauge", "Numbers of the radio's samples that were clipped."),
    "es_n0_decibels": ("gauge", "Es/N0 of the signal."),
    "carrier_offset_hertz": ("gauge", "Offset of the signal's carrier from the middle of the band."),
    "clock_error_ppm": ("gauge", "How much faster symbols come than was said."),
    "trouble": ("gauge", "1 where something is wrong, else 0."),
    "frames_total": ("counter", "Frames that came, the lost ones among them."),
    "frames_lost_total": ("counter", "Frames that could not be restored, or never came."),
    "corrected_bytes_total": ("counter", "Corrected bytes of restored frames."),
    "files_total": ("counter", "Files that came onto a shelf."),
    "file_bytes_total": ("counter", "Bytes on the shelf of the files that came."),
}


def quoted(text: str) -> str:
    text = text.encode("utf-8", "replace").decode("utf-8")
    return '"' + text.replace("\\", "\\\\").replace('"', '\\"').replace("\n", "\\n") + '"'


class Metrics:
    """Values in the order that Prometheus wants: all of a name together, after its help and type."""

    def __init__(self) -> None:
        self.lines: dict[str, list[str]] = {}

    def add(self, name: str, value: float, **labels: object) -> None:
        words = ",".join(f"{key}={quoted(str(text))}" for key, text in labels.items())
        number = f"{value:.2f}" if isinstance(value, float) else str(value)
        self.lines.setdefault(name, []).append(f"{PREFIX}{name}{{{words}}} {number}")

    def text(self) -> str:
        found = []
        for name, (kind, words) in WORDS.items():
            if name in self.lines:
                found += [f"# HELP {PREFIX}{name} {words}", f"# TYPE {PREFIX}{name} {kind}", *self.lines[name]]
        return "".join(line + "\n" for line in found)


class Totals:
    """Totals over all time, kept in a folder's state: the removal of a shelf doesn't change them."""

    def __init__(self, kept: dict[str, Any]):
        self.frames: list[int] = [int(it) for it in kept.get("frames", [0, 0, 0])]
        self.until = float(kept.get("until", 0))  # the minutes that were added
        self.files: dict[str, list[int]] = {
            str(key): [int(it) for it in row] for key, row in kept.get("files", {}).items()
        }
        # where to go on in each shelf: gate, number, and the last item and a mark of it
        self.places: dict[str, list[Any]] = dict(kept.get("places", {}))

    def kept(self) -> dict[str, Any]:
        return {"frames": self.frames, "until": self.until, "files": self.files, "places": self.places}

    def add_minutes(self, folder: str) -> None:
        """Adds the minutes after the last one that was added, in the order of the file, whatever the clock did."""
        minutes = quality.minutes_of(folder)
        places = [place for place, it in enumerate(minutes) if it.time == self.until]
        if places:
            minutes = minutes[places[-1] + 1 :]
        elif is_ahead(self.until):
            minutes = []
            self.until = time.time()
        else:
            minutes = [it for it in minutes if it.time > self.until]
        sum_ = quality.total(minutes)
        self.frames = [one + other for one, other in zip(self.frames, sum_[1:])]
        self.until = minutes[-1].time if minutes else self.until

    def add_shelf(self, shelf: Shelf) -> None:
        """Adds the new files of a shelf."""
        gate, number = FIRST_GATE, 0
        place = self.places.get(shelf.path)
        if place:
            last = Head(int(place[2]), int(place[3]), int(place[1]), False)
            if shelf.mark(last).hex() == place[4]:
                gate, number = int(place[0]), int(place[1])
        head = None
        for front in shelf.fronts(gate, number):
            head = front.head
            row = self.files.setdefault(f"{front.fields.channel} {front.fields.application}", [0, 0])
            row[0] += 1
            row[1] += head.extent
        if head:
            mark = shelf.mark(head).hex()
            self.places[shelf.path] = [head.next_gate, head.number + 1, head.gate, head.extent, mark]

    def forget(self, paths: list[str]) -> None:
        """Forgets shelves that are gone."""
        self.places = {path: place for path, place in self.places.items() if path in paths}

    def put(self, metrics: Metrics, folder: str) -> None:
        for name, value in zip(("frames_total", "frames_lost_total", "corrected_bytes_total"), self.frames):
            metrics.add(name, value, folder=folder)
        for key, (files, size) in sorted(self.files.items()):
            channel, application = key.split()
            metrics.add("files_total", files, folder=folder, channel=channel, application=application)
            metrics.add("file_bytes_total", size, folder=folder, channel=channel, application=application)
