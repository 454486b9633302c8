"""What a demodulator says of its reception: the last line that `lritdemod --status FOLDER/demodulator` writes."""

import json
import os
import time
from typing import Any, NamedTuple

STATUS = "demodulator"
LAST_BYTES = 4096  # in which the last line stands


class Lock(NamedTuple):
    """What is held."""

    es_n0: float  # dB
    carrier: float  # Hz from the middle of the band
    clock: float  # parts of a million


class Reading(NamedTuple):
    """A line, and how old it is."""

    age: float  # seconds
    level: float  # dB, where 0 is that of a full circle
    clipped: float  # per cent of the samples' numbers
    lock: Lock | None

    @property
    def fact(self) -> str:
        clipped = f", {self.clipped:.1f} % clipped" if self.clipped >= 1 else ""
        if not self.lock:
            return f"level {self.level:.1f} dB{clipped}"
        return f"Es/N0 {self.lock.es_n0:.1f} dB, carrier {self.lock.carrier:.0f} Hz{clipped}"


def number(line: dict[str, Any], name: str) -> float:
    """A number of a line. Raises ValueError where it is none."""
    value = line.get(name)
    if isinstance(value, bool) or not isinstance(value, (int, float)) or abs(value) > 1e12:
        raise ValueError(name)
    return float(value)


def reading_from(text: str, age: float) -> Reading:
    """What a line says. Raises ValueError where it is no such line."""
    line = json.loads(text)
    if not isinstance(line, dict):
        raise ValueError(text)
    lock = None
    if line.get("locked") is True:
        lock = Lock(number(line, "es_n0_db"), number(line, "carrier_hz"), number(line, "clock_ppm"))
    return Reading(age, number(line, "level_db"), number(line, "clipped_percent"), lock)


def last_of(folder: str) -> Reading | None:
    """The last whole line of a station's folder; None where there is none that can be read."""
    try:
        with open(os.path.join(folder, STATUS), "rb") as it:
            about = os.fstat(it.fileno())
            it.seek(max(0, about.st_size - LAST_BYTES))
            lines = it.read(LAST_BYTES).rpartition(b"\n")[0].split(b"\n")
        return reading_from(lines[-1].decode("ascii"), time.time() - about.st_mtime)
    except (OSError, ValueError, RecursionError):
        return None
