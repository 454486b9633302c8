"""Reads the lines of `decode` or `frames`, and prints a line for each minute: its number, the frames that began in it,
how many of them were lost, the Reed-Solomon corrections per decoded frame (in bytes; one pass corrects 64 at most),
and, if any, how many frames were decoded again: those with more than 16 corrections in a word. For `frames`, which has
no code, a loss is a gap in a virtual channel's frame counter. A minute without a line is reported. Status 1: no frame
was decoded.
"""

import contextlib
import json
import os
import re
import select
import time
from collections.abc import Iterator
from typing import NamedTuple

from . import folder as folders
from .days import AHEAD_SECONDS

FRAME_SYMBOLS = 16_384
COUNTER_MODULUS = 1 << 24
MOST_STEP = 100_000  # frames of a channel that may be lost in a row; a greater step is a new start of its counter
SECONDS_PER_MINUTE = 60
WORD_LIMIT = 16  # bytes of a word that one pass can correct
OLD_SECONDS = 300  # after which a line says nothing any more
MOST_MINUTES = 3000  # that the folder keeps; where there are more, half of them go
MINUTES, QUALITY = "minutes", "quality"  # files of a station's folder
MINUTE_LINE = re.compile(r"minute \d+ frames (\d+) lost (\d+)(?: corrected ([0-9.]+))?(?: redecoded (\d+))?\b")
NOTHING = "no frame lock"
STARTED = "started"  # the line before the first one of a reception


class Minute(NamedTuple):
    """The frames of a minute, or a sum of several."""

    time: float  # at its end, in seconds since 1970
    frames: int
    lost: int
    corrected: int  # bytes of the restored frames


class Quality:
    """Counts frames, and makes a line for each minute."""

    def __init__(self, rate: int, seconds: int = SECONDS_PER_MINUTE):
        self.length = seconds * rate  # symbols of a minute, or of what is told in its place
        self.kept = (0, 0, 0)
        self.kept_redecoded = 0
        self.minute = self.frames = self.lost = self.corrected = self.redecoded = 0
        self.restored = 0  # in all
        self.place = 0  # in frames, where a line doesn't say it
        self.has_code = True
        self.counters: dict[str, int] = {}

    def take(self, line: str) -> Iterator[str]:
        """Takes a line. Yields the lines to print."""
        match line.split():
            case ["window", _, _, place, _, _, outcome, *numbers]:
                yield from self.add_outcome(int(place), outcome, numbers)
            case ["block", place, outcome, *numbers]:
                yield from self.add_outcome(FRAME_SYMBOLS * int(place), outcome, numbers)
            case ["frame", _, "vc", channel, _, counter, *_]:
                yield from self.add_frame(self.missing(channel, int(counter)), 0)
            case ["frame", _, *_]:
                yield from self.add_frame(0, 1)
            case ["symbols", count, *_]:
                yield from self.until(int(count) - 1)

    def until(self, place: int) -> Iterator[str]:
        """Yields the lines of the minutes that ended before a symbol."""
        while self.minute < place // self.length:
            yield self.told()

    def add(self, place: int, frames: int, lost: int, corrected: int) -> Iterator[str]:
        yield from self.until(place)
        self.frames, self.lost, self.corrected = self.frames + frames, self.lost + lost, self.corrected + corrected
        self.restored += frames - lost

    def add_outcome(self, place: int, outcome: str, numbers: list[str]) -> Iterator[str]:
        corrected = [] if outcome == "lost" else [int(it) for it in numbers[:4]]
        yield from self.add(place, 1, int(not corrected), sum(corrected))
        self.redecoded += any(it > WORD_LIMIT for it in corrected)

    def missing(self, channel: str, counter: int) -> int:
        """Returns how many frames are missing before one, by its channel's counter."""
        step = (counter - self.counters.get(channel, counter - 1) - 1) % COUNTER_MODULUS
        self.counters[channel] = counter
        return step if step <= MOST_STEP else 0

    def add_frame(self, missing: int, refused: int) -> Iterator[str]:
        """Adds a frame without its code, and the frames missing before it."""
        self.has_code = False
        self.place += 1 + missing
        return self.add(FRAME_SYMBOLS * (self.place - 1), 1 + missing, missing + refused, 0)

    def told(self) -> str:
        line = f"minute {self.minute} frames {self.frames} lost {self.lost}"
        if self.has_code:
            whole = self.frames - self.lost
            line += f" corrected {self.corrected / whole if whole else 0:.2f}"
        if self.redecoded:
            line += f" redecoded {self.redecoded}"
        self.kept, self.kept_redecoded = (self.frames, self.lost, self.corrected), self.redecoded
        self.frames = self.lost = self.corrected = self.redecoded = 0
        self.minute += 1
        return line

    def end(self) -> Iterator[str]:
        if self.frames:
            yield self.told()
        if not self.restored:
            yield NOTHING


def lines_of(descriptor: int, pause: float) -> Iterator[str | None]:
    """Yields the lines of a stream, or None when there was none for `pause` seconds."""
    rest = b""
    while True:
        if not select.select([descriptor], [], [], pause)[0]:
            yield None
            continue
        data = os.read(descriptor, 65536)
        if not data:
            return
        *lines, rest = (rest + data).split(b"\n")
        yield from (line.decode("ascii", "replace") for line in lines)


class Seconds:
    """The frames of each second, as lines of JSON."""

    def __init__(self, rate: int):
        self.quality = Quality(rate, 1)

    def take(self, line: str) -> None:
        for _ in self.quality.take(line):
            self.put()

    def end(self) -> None:
        if self.quality.frames:
            for _ in self.quality.end():
                self.put()
                break

    def put(self) -> None:
        frames, lost, corrected = self.quality.kept
        values = {"second": self.quality.minute - 1, "frames": frames, "lost": lost, "corrected": corrected}
        print(json.dumps(values | {"redecoded": self.quality.kept_redecoded}), flush=True)


def quality_json(rate: int) -> int:
    """Prints a line of JSON for each second of standard input. Returns 1 if no frame was decoded."""
    seconds = Seconds(rate)
    for line in lines_of(0, SECONDS_PER_MINUTE):
        if line is not None:
            seconds.take(line)
    seconds.end()
    return 0 if seconds.quality.restored else 1


def quality(rate: int, folder: str | None, pause: float) -> int:
    """Prints a line for each minute of standard input. Returns 1 if no frame was decoded."""
    quality, keeper = Quality(rate), Keeper(folder)
    silent = 0
    for line in lines_of(0, pause):
        silent = silent + 1 if line is None else 0
        for it in [f"no frame for {silent} minutes"] if line is None else quality.take(line):
            keeper.put(it, quality)
    for it in quality.end():
        keeper.put(it, quality)
    return 0 if quality.restored else 1


class Keeper:
    """Prints lines, and keeps the last one and the minutes in a station's folder. A failure to write there is
    ignored."""

    def __init__(self, folder: str | None):
        self.folder = folder
        self.count = len(minutes_of(folder)) if folder else 0
        if folder:
            self.begin(os.path.join(folder, QUALITY))

    @staticmethod
    def begin(path: str) -> None:
        """Notes that a reception has begun, if the last line is old. (A reception that restarts again and again leaves
        the line.)"""
        with contextlib.suppress(OSError):
            line, age = "", OLD_SECONDS + 1.0
            if os.path.isfile(path):
                age = abs(time.time() - os.stat(path).st_mtime)
                with open(path, encoding="ascii", errors="replace") as it:
                    line = it.read(100).rstrip("\n")
            if age > OLD_SECONDS and line != STARTED:
                folders.write_whole(path, (STARTED + "\n").encode())

    def put(self, line: str, quality: Quality) -> None:
        print(line, flush=True)
        if not self.folder:
            return
        try:
            folders.write_whole(os.path.join(self.folder, QUALITY), (line + "\n").encode())
            if line.startswith("minute "):
                self.keep(Minute(time.time(), *quality.kept))
        except OSError:
            pass

    def keep(self, minute: Minute) -> None:
        path = os.path.join(self.folder or "", MINUTES)
        self.count += 1
        if self.count > MOST_MINUTES:
            kept = minutes_of(self.folder or "")[-MOST_MINUTES // 2 :]
            folders.write_whole(path, "".join(map(text_of, kept)).encode())
            self.count = len(kept) + 1
        with open(path, "a", encoding="ascii") as it:
            it.write(text_of(minute))


def text_of(minute: Minute) -> str:
    return f"{minute.time:.0f} {minute.frames} {minute.lost} {minute.corrected}\n"


def minutes_of(folder: str) -> list[Minute]:
    """Returns the minutes kept in a station's folder, in the order of the file."""
    try:
        with open(os.path.join(folder, MINUTES), encoding="ascii", errors="replace") as it:
            rows = [line.split() for line in it if line.endswith("\n")]
    except OSError:
        return []
    return [Minute(*map(int, row)) for row in rows if len(row) == 4 and all(map(str.isdecimal, row))]


def last_minutes(folder: str, seconds: float) -> list[Minute]:
    """Returns those of the last `seconds`, without what lies ahead of the clock."""
    now = time.time()
    return sorted(it for it in minutes_of(folder) if now - seconds < it.time <= now + AHEAD_SECONDS)


def total(minutes: list[Minute]) -> Minute:
    frames, lost, corrected = (sum(column) for column in list(zip(*minutes))[1:]) if minutes else (0, 0, 0)
    return Minute(max((it.time for it in minutes), default=0), frames, lost, corrected)
