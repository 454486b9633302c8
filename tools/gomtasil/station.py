"""Checks each folder of shelves and prints a line for it: OK, or ALERT and what is wrong. These are wrong: no file for
--minutes, more than --lost per cent of the last minute's frames lost, no frame lock, no quality report for 5 minutes,
the disk or the newest shelf fuller than --full per cent, less free disk than --keep-free wants, a corrupt shelf, a
failed unit of --units, and a time that lies ahead of the clock. The quality comes from station.sh (FOLDER/quality), and
the signal from `lritdemod --status FOLDER/demodulator`; where such a file is missing, it isn't checked. --remove and
--keep-free never remove the newest two shelves, nor one that another process has locked. Status 0: all is OK. 1:
something is wrong; with --once only if it is new, and then once a day.
"""

import contextlib
import json
import os
import time
from dataclasses import dataclass, field
from typing import Any

from . import alarm, demodulator, program, quality, removal, units
from . import folder as folders
from . import shelf as shelves
from .days import DAY_SECONDS, is_ahead
from .found import broken_shelves, found_in, newest_of
from .metrics import Metrics, Totals
from .removal import used_percent
from .shelf import Shelf

FEWEST_FRAMES = 100  # of a minute whose losses are judged
STATE = ".state"  # in a station's folder
SHELVES = "shelves"  # there, with notes of shelves
MOST_NAMED = 3  # shelves of a kind that a line names


@dataclass(frozen=True)
class Bounds:
    """The bounds past which something is wrong, and what may be removed."""

    minutes: int = 30  # without a file
    lost: int = 5  # per cent of a minute's frames
    full: int = 90  # per cent of the disk or of the newest shelf
    remove_days: int | None = None
    keep_free: int | None = None  # per cent of the disk
    units: tuple[str, ...] = ()  # patterns of their names
    looked: int | None = None  # shelves that are looked through for a break; of earlier ones what is known counts


@dataclass(frozen=True)
class Reports:
    """How the result of a check is reported."""

    once: bool = False
    prometheus: str | None = None
    alarm: str | None = None  # the queue of alarms
    json: bool = False


@dataclass
class State:
    """The result of a check of a folder: problems by their kinds, and facts."""

    folder: str
    troubles: dict[str, str] = field(default_factory=dict)
    facts: list[str] = field(default_factory=list)
    values: dict[str, float] = field(default_factory=dict)  # what was measured
    starting: set[str] = field(default_factory=set)  # kinds of troubles that may be over, or not
    is_again: bool = False  # whether a trouble that was told is over

    @property
    def line(self) -> str:
        facts = ", ".join(self.facts)
        if not self.troubles:
            return f"{self.folder}: {'recovered' if self.is_again else 'OK'}: {facts}"
        return f"{self.folder}: ALERT: {'; '.join(self.troubles.values())}" + (f" ({facts})" if facts else "")

    @property
    def json(self) -> str:
        found = {"folder": self.folder, "state": "ALERT" if self.troubles else "OK", "recovered": self.is_again}
        return json.dumps(found | {"troubles": self.troubles, "facts": self.facts} | self.values)


# ---- what is looked at


def look_at_shelves(state: State, bounds: Bounds, metrics: Metrics) -> None:
    notes = os.path.join(state.folder, STATE, SHELVES)
    if broken := broken_shelves(state.folder, notes, bounds.looked):
        state.troubles["broken"] = some(broken)
    found = found_in(state.folder)
    if not found:
        state.troubles.setdefault("shelf", "no shelf")
        return
    if ahead := [it.name for it in found if it.is_ahead]:
        is_one = len(ahead) == 1
        state.troubles["clock"] = f"{some(ahead)} {'is' if is_one else 'are'} ahead of the clock"
    newest, filled = newest_of(found), [it for it in found if it.has_files]
    seconds = max(0, int(time.time() - newest_of(filled or found).changed))
    age, name = seconds // 60, newest.name
    if filled:
        metrics.add("last_file_age_seconds", seconds, folder=state.folder)
        state.values["last_file_age_seconds"] = seconds
    metrics.add("shelf_used_percent", newest.full, folder=state.folder, shelf=name)
    state.values["shelf_used_percent"] = newest.full
    state.facts += [f"last file {age} minutes ago" if filled else "no file yet", f"{name} {newest.full} % full"]
    if age > bounds.minutes:
        state.troubles["quiet"] = f"no file for {age} minutes"
    if newest.full > bounds.full:
        state.troubles["full"] = f"{name} is {newest.full} % full"


def some(words: list[str]) -> str:
    more = [f"{len(words) - MOST_NAMED} more"] if len(words) > MOST_NAMED else []
    return ", ".join(words[:MOST_NAMED] + more)


def look_at_disk(state: State, bounds: Bounds, metrics: Metrics) -> None:
    full = used_percent(state.folder)
    metrics.add("disk_used_percent", full, folder=state.folder)
    state.values["disk_used_percent"] = full
    state.facts.append(f"disk {full} % full")
    if full > bounds.full:
        state.troubles["disk"] = f"the disk is {full} % full"


def look_at_quality(state: State, bounds: Bounds, metrics: Metrics) -> None:
    """Checks the last line of `gomtasil quality`."""
    path = os.path.join(state.folder, quality.QUALITY)
    if not os.path.isfile(path):
        return
    changed = os.stat(path).st_mtime
    age = time.time() - changed
    if age > quality.OLD_SECONDS or is_ahead(changed):
        since = f" for {int(age) // 60} minutes" if age > 0 else ""
        state.troubles["quality"] = f"no quality report{since}"
        return
    with open(path, encoding="ascii", errors="replace") as it:
        line = it.read(1000).rstrip("\n")
    if line == quality.STARTED:
        state.facts.append("no quality report yet")
        return
    told = quality.MINUTE_LINE.fullmatch(line)
    frames, lost = (int(told[1]), int(told[2])) if told else (0, 0)
    state.values["frames"], state.values["frames_lost"] = frames, lost
    if not told or frames == lost:
        metrics.add("frames", 0, folder=state.folder)
        state.troubles["locks"] = "no frame lock"
        return
    metrics.add("frames", frames, folder=state.folder)
    metrics.add("frames_lost", lost, folder=state.folder)
    if told[3]:
        metrics.add("corrected_bytes", float(told[3]), folder=state.folder)
        state.values["corrected_bytes"] = float(told[3])
        state.values["frames_redecoded"] = int(told[4] or 0)
        metrics.add("frames_redecoded", int(told[4] or 0), folder=state.folder)
    state.facts.append(f"{lost} of {frames} frames lost")
    if frames >= FEWEST_FRAMES and 100 * lost > bounds.lost * frames:
        state.troubles["lost"] = f"{lost} of {frames} frames lost, {100 * lost // frames} %"


def look_at_demodulator(state: State, bounds: Bounds, metrics: Metrics) -> None:
    """Checks the last line of `lritdemod --status FOLDER/demodulator`."""
    reading = demodulator.last_of(state.folder)
    if not reading:
        return
    if reading.age > quality.OLD_SECONDS:
        state.troubles["demodulator"] = f"no demodulator report for {int(reading.age) // 60} minutes"
        return
    metrics.add("demodulator_locked", int(bool(reading.lock)), folder=state.folder)
    metrics.add("level_decibels", reading.level, folder=state.folder)
    metrics.add("clipped_percent", reading.clipped, folder=state.folder)
    state.facts.append(reading.fact)
    if not reading.lock:
        state.troubles["signal"] = "the demodulator finds no signal"
        return
    metrics.add("es_n0_decibels", reading.lock.es_n0, folder=state.folder)
    metrics.add("carrier_offset_hertz", reading.lock.carrier, folder=state.folder)
    metrics.add("clock_error_ppm", reading.lock.clock, folder=state.folder)


def look_at_units(state: State, bounds: Bounds, _: Metrics) -> None:
    if not bounds.units:
        return
    try:
        failed, starting = units.failed(list(bounds.units))
    except units.Unknown as fault:
        state.troubles["units"] = str(fault)
        return
    for name in sorted(failed):
        state.troubles[f"unit {name}"] = f"{name} has failed"
    state.starting = {f"unit {name}" for name in starting}


LOOKS = (look_at_shelves, look_at_disk, look_at_quality, look_at_demodulator, look_at_units)


def look_at(folder: str, bounds: Bounds, metrics: Metrics | None = None) -> State:
    """Checks a folder of shelves. Only the notes about its shelves are written."""
    state, metrics = State(folder), metrics or Metrics()
    if not os.path.isdir(folder):
        state.troubles["folder"] = "no such folder"
        return state
    for look in LOOKS:
        look(state, bounds, metrics)
    return state


# ---- what is told


class Memory:
    """What is kept in a folder between calls: the totals, and which problems were reported when."""

    def __init__(self, folder: str):
        self.path = os.path.join(folder, STATE, "state.json")
        if not folders.read_kept(self.path, self.take):
            if os.path.exists(self.path):
                program.tell(f"{self.path} can't be read, so the totals start from scratch")
            self.take({})

    def take(self, kept: dict[str, Any]) -> bool:
        self.totals = Totals(kept.get("totals", {}))
        self.told = {str(kind) for kind in kept.get("told", [])}
        self.told_at = float(kept.get("told_at", 0))
        if is_ahead(self.told_at):
            self.told_at = 0.0
        return True

    def write(self) -> None:
        folders.write_kept(
            self.path, {"totals": self.totals.kept(), "told": sorted(self.told), "told_at": self.told_at}
        )

    def is_news(self, state: State) -> bool:
        """Returns whether a problem has to be reported: a new one, or any one after a day."""
        kinds = set(state.troubles) | (self.told & state.starting)
        is_news = bool(kinds - self.told) or (bool(kinds) and time.time() - self.told_at >= DAY_SECONDS)
        state.is_again = bool(self.told) and not kinds
        self.told = kinds
        self.told_at = time.time() if is_news else self.told_at
        return is_news


def count_on(memory: Memory, folder: str) -> None:
    """Adds what is new to the totals of a folder."""
    memory.totals.add_minutes(folder)
    found = found_in(folder)
    memory.totals.forget([it.path for it in found])
    for it in found:
        with Shelf(it.path) as shelf:
            memory.totals.add_shelf(shelf)


def watch(folders_: list[str], bounds: Bounds, reports: Reports) -> int:
    """Checks each folder and prints a line about it. Returns 1 if something is wrong; with `once` only if that is new.
    With a queue of alarms, new problems go there, and the status is 0."""
    metrics, status = Metrics(), 0
    for place, folder in enumerate(folders_):
        gone, lack = removal.removed_old(folder, bounds.remove_days, bounds.keep_free)
        # (the units are those of the whole machine)
        state = look_at(folder, bounds if place == 0 else without_units(bounds), metrics)
        state.facts += gone
        if lack:
            state.troubles["room"] = lack
        metrics.add("trouble", int(bool(state.troubles)), folder=folder)
        is_trouble = bool(state.troubles)
        if (reports.once or reports.prometheus) and os.path.isdir(folder):
            is_news = keep(folder, state, metrics, bool(reports.prometheus))
            is_trouble = is_news if reports.once else is_trouble
        print(state.json if reports.json else state.line, flush=True)
        if reports.alarm and (is_trouble or state.is_again):
            alarm.put(reports.alarm, state.line)
            is_trouble = False
        status = status or int(is_trouble)
    return written(reports.prometheus, metrics) or status


def without_units(bounds: Bounds) -> Bounds:
    return Bounds(bounds.minutes, bounds.lost, bounds.full, bounds.remove_days, bounds.keep_free)


def written(path: str | None, metrics: Metrics) -> int:
    """Writes the values for Prometheus. Returns 1 if that fails."""
    if path:
        try:
            folders.write_whole(path, metrics.text().encode())
            os.chmod(path, 0o644)
        except OSError as fault:
            program.tell(f"{path} can't be written: {program.reason(fault)}")
            return 1
    return 0


def keep(folder: str, state: State, metrics: Metrics, counts: bool) -> bool:
    """Saves what the next call needs. Returns whether a problem has to be reported."""
    memory = Memory(folder)
    is_news = memory.is_news(state)
    try:
        if counts:
            count_on(memory, folder)
            memory.totals.put(metrics, folder)
        memory.write()
    except (OSError, shelves.ShelfError) as fault:
        with contextlib.suppress(OSError):
            program.tell(f"{folder}: the state can't be saved: {program.reason(fault)}")
        return bool(state.troubles)
    return is_news
