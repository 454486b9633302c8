"""Writes FOLDER/index.html, with pictures in FOLDER/pictures, about a shelf or all the shelves of a station's folder:
the newest picture of each kind and older ones, the newest bulletin of each heading, status and reception quality, and
what is missing. The page needs no network and no script, and reloads itself. Pictures that it no longer names are
removed.
"""

# Jinja2 writes the page, with every text quoted; page.html is its form. What the page shows comes of page_summary (the
# fronts of all files), page_files and page_pictures (the newest ones), page_headings and page_quality.

import fcntl
import functools
import os
import time
from collections.abc import Iterator
from dataclasses import dataclass
from typing import Any

from . import folder as folders
from . import index, program, quality, station
from .days import DAY_SECONDS
from .found import Found, found_in
from .page_files import Content, Source, counts_of, utc
from .page_headings import Headings
from .page_pictures import Pictures
from .page_quality import HOUR, curve_of_frames, curve_of_minutes, missing_lines
from .page_summary import MOST_STRETCHES, kept_summary
from .shelf import Shelf

NEWEST = 64  # images that are shown, and as many other files
MOST_SHELVES = 8  # of a folder that are looked into for them
LOOKED_SHELVES = 1  # for a break, by the page itself
CORRECTABLE_BYTES = 64  # of a frame: sixteen in each of its four words
MOST_TEXT_CHARACTERS = 20_000  # of a text that are shown
STATE, LOCK = ".page", "lock"  # in the page's folder


@dataclass(frozen=True)
class Wishes:
    """The options of the page."""

    newest: int = NEWEST
    log: str | None = None
    rate: int | None = None
    refresh: int = 300  # seconds
    units: tuple[str, ...] = ()  # whose failure is shown


# ---- status


def ago(seconds: float) -> str:
    minutes = max(0, int(seconds)) // 60
    if minutes < 120:
        return f"{minutes} minutes ago"
    return f"{minutes // 60} hours ago" if minutes < 2880 else f"{minutes // 1440} days ago"


def state_of_station(folder: str, minutes: list[quality.Minute], units: tuple[str, ...]) -> dict[str, str]:
    """Returns the status line of a station's folder: green, amber or red."""
    state = station.look_at(folder, station.Bounds(units=units, looked=LOOKED_SHELVES))
    hour = quality.total([it for it in minutes if it.time > time.time() - HOUR])
    facts = list(state.troubles.values()) + [it for it in state.facts if "frames lost" not in it]
    if hour.frames:
        facts.append(f"{hour.lost} of {hour.frames} frames lost in the last hour")
    is_warning = 200 * hour.lost > hour.frames
    level = "bad" if state.troubles else "warn" if is_warning else "well"
    return {
        "level": level,
        "word": {"bad": "ALERT", "warn": "losses", "well": "OK"}[level],
        "facts": ", ".join(facts),
    }


def state_of_shelf(source: Source) -> dict[str, str]:
    """Returns the status line of a single shelf, which may or may not be received onto."""
    came = f"last change {ago(time.time() - source.changed)}" if source.summary.files else "no file yet"
    return {"level": "none", "word": "A shelf", "facts": f"{source.summary.files} files, {came}"}


# ---- the page


def sources_of(paths: list[str], state: str, wishes: Wishes) -> Iterator[Source]:
    """Yields the shelves to read, the newest first, until there are enough files."""
    count = {"images": 0, "others": 0}
    for path in paths[:MOST_SHELVES]:
        with Shelf(path) as shelf:
            changed = os.fstat(shelf.descriptor).st_mtime
            yield Source(shelf, summary := kept_summary(shelf, state, wishes.newest), changed, wishes.rate)
        count["images"] += len(summary.images)
        count["others"] += len(summary.others)
        if min(count.values()) >= wishes.newest:
            return


def write_page(path: str, folder: str, wishes: Wishes) -> None:
    """Writes the page of a shelf, or of a folder of shelves. A second call into the same folder waits for the first."""
    state = os.path.join(folder, STATE)
    os.makedirs(state, exist_ok=True)
    with open(os.path.join(state, LOCK), "wb") as lock:
        fcntl.flock(lock, fcntl.LOCK_EX)
        write_locked(path, folder, state, wishes)


def write_locked(path: str, folder: str, state: str, wishes: Wishes) -> None:
    is_folder = os.path.isdir(path)
    # (the newest first; one that lies ahead of the clock isn't the newest)
    found = sorted(found_in(path)[::-1], key=lambda it: it.is_ahead) if is_folder else []
    paths = [it.path for it in found] if is_folder else [path]
    pictures, content, headings = Pictures(folder, state), Content(), Headings()
    values: dict[str, Any] = {"counts": [], "curve": None, "state": None}
    first = None
    for source in sources_of(paths, state, wishes):
        content.take(pictures, source)
        headings.take(source, index.state_of(path) if is_folder else state)
        # (the newest shelf that has files; after midnight the next one has none yet)
        if not first or not first.summary.files:
            first = source
            values["counts"] = list(counts_of(source))
            values["state"] = state_of_shelf(source)
            values["curve"] = curve_of_frames(source)
    minutes = quality.last_minutes(path, DAY_SECONDS) if is_folder else []
    if is_folder:
        values["state"] = state_of_station(path, minutes, wishes.units)
        values["curve"] = curve_of_minutes(minutes) if minutes else values["curve"]
        index.forget(path)
    values |= content_values(pictures, content, headings)
    shown = f"{first.summary.files} files on {os.path.basename(first.shelf.path)}" if first else "No shelf yet"
    values |= {
        "title": os.path.basename(os.path.abspath(path)),
        "missing": missing_lines(content, first, wishes.log, minutes),
        "shelves": list(map(row_of, found)),
        "shown": shown,
    }
    folders.write_whole(os.path.join(folder, "index.html"), rendered(values, wishes).encode("utf-8", "replace"))
    pictures.clear_away()
    folders.forget_notes(state, paths, {os.path.basename(pictures.path)})


def content_values(pictures: Pictures, content: Content, headings: Headings) -> dict[str, Any]:
    """Returns what the page shows of files."""
    hero = content.hero()
    if hero:
        hero.large = pictures.large(hero.picture)
    return {
        "hero": hero,
        "kinds": content.kinds(),
        "headings": headings.groups(),
        "texts": content.bulletins,
        "others": [(it.numbers, it.name, it.when, it.kind, it.note) for it in content.others],
    }


def row_of(found: Found) -> tuple[str, ...]:
    return found.name, f"{found.size:,}", f"{found.full} %", utc(found.changed)


@functools.cache
def jinja() -> Any:
    """Returns the Jinja2 template of the page. Missing if Jinja2 isn't installed."""
    try:
        import jinja2
    except ImportError:
        raise program.Missing("Jinja2 is missing: apt-get install python3-jinja2") from None
    loader = jinja2.FileSystemLoader(os.path.dirname(os.path.abspath(__file__)))
    forms = jinja2.Environment(loader=loader, autoescape=True, undefined=jinja2.StrictUndefined)
    return forms.get_template("page.html")


def rendered(values: dict[str, Any], wishes: Wishes) -> str:
    constants = {"correctable": CORRECTABLE_BYTES, "most_text": MOST_TEXT_CHARACTERS, "stretches": MOST_STRETCHES}
    return str(jinja().render(**values, **constants, refresh=wishes.refresh, written=utc(time.time())))
