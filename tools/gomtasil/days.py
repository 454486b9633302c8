"""Days (UTC): those that the names of shelves say, those of files, and what lies ahead of the clock."""

import contextlib
import datetime
import re
import time

AHEAD_SECONDS = 3600  # of the clock, from which on a time counts as wrong
DAY_SECONDS = 86_400
WEEK_DAYS = 7
STAMP_DAYS = 2  # before the shelf's first day, and one after its last one, up to which a time stamp is believed
MOST_DAYS = 2_000_000  # after 1970, which Python's dates have
NAMED_DAY = re.compile(r"([0-9]{4}-[0-9]{2}-[0-9]{2})(-[0-9]+)?")
NAMED_WEEK = re.compile(r"([0-9]{4})-([0-9]{2})(-[0-9]+)?")
BEGIN = datetime.date(1970, 1, 1)


def is_ahead(seconds: float) -> bool:
    """Returns whether a time (seconds since 1970) is later than the clock by more than an hour."""
    return seconds > time.time() + AHEAD_SECONDS


def day_of(seconds: float) -> datetime.date:
    """Returns the day of a time."""
    return BEGIN + datetime.timedelta(days=min(max(0, int(seconds // DAY_SECONDS)), MOST_DAYS))


def seconds_of(day: datetime.date) -> float:
    return float((day - BEGIN).days * DAY_SECONDS)


def named_days(label: str) -> tuple[datetime.date, int] | None:
    """Returns the first day of a shelf that is named by a day or week, and how many days it is for."""
    with contextlib.suppress(ValueError):
        if day := NAMED_DAY.fullmatch(label):
            return datetime.date.fromisoformat(day[1]), 1
        if week := NAMED_WEEK.fullmatch(label):
            return datetime.date.fromisocalendar(int(week[1]), int(week[2]), 1), WEEK_DAYS
    return None


def file_day(label: str, changed: float, stamp: datetime.datetime | None) -> str:
    """Returns the day of a file on a shelf with this name and last change: that of its time stamp if that is plausible,
    or else the shelf's. On a shelf named by its days, a stamp is plausible near these."""
    named = named_days(label)
    first, days = named or (day_of(changed), 1)
    if stamp:
        apart = (stamp.date() - first).days
        if -STAMP_DAYS <= apart <= days or (not named and apart <= 0):
            return stamp.date().isoformat()
    return first.isoformat()
