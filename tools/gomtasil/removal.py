"""What goes of a station's folder: shelves by the days that came after them, and where the disk is full first the
copies that `contents` and `pictures` have made of them, and then the oldest shelves."""

import contextlib
import fcntl
import os
import shutil

from . import folder as folders
from . import program
from .found import FEWEST_KEPT, found_in, kept_whatever, later_days

COPIES = (".contents", ".pictures")  # the states by which a folder of copies is known


def used_percent(folder: str) -> int:
    """Returns how full the disk is, in the sense of `df`."""
    _, used, free = shutil.disk_usage(folder)
    return -(-100 * used // (used + free)) if used + free else 100


def removed(path: str) -> bool:
    """Removes a shelf unless a process has locked it. The lock is held during the removal."""
    with contextlib.suppress(OSError):
        with open(os.open(path, os.O_RDONLY | os.O_NOFOLLOW), "rb") as it:
            fcntl.flock(it, fcntl.LOCK_EX | fcntl.LOCK_NB)
            os.unlink(path)
        program.tell(f"removed {path}")
        return True
    return False


def removed_old(folder: str, days: int | None, keep_free: int | None) -> tuple[list[str], str]:
    """Removes each shelf after which there are `days` days with files, and then old copies and shelves until
    `keep_free` per cent of the disk is free; never the newest two shelves, nor one that is in use. Returns what was
    removed, and what is wrong if there still isn't enough room."""
    gone = 0
    found = found_in(folder)
    kept = kept_whatever(found)
    if days is not None:
        for it in found:
            gone += it.path not in kept and later_days(found, it) >= days and removed(it.path)
    copies, fault = 0, ""
    if keep_free is not None and os.path.isdir(folder):
        copies = removed_copies(folder, keep_free)
        for it in found_in(folder):
            if it.path not in kept and lacks_room(folder, keep_free):
                gone += removed(it.path)
        if lacks_room(folder, keep_free):
            free = 100 - used_percent(folder)
            fault = f"only {free} % of the disk is free, not {keep_free} %, and nothing more may be removed"
    said = [f"old days of copies removed: {copies}"] if copies else []
    return said + ([f"old shelves removed: {gone}"] if gone else []), fault


def lacks_room(folder: str, keep_free: int) -> bool:
    return 100 - used_percent(folder) < keep_free


# ---- copies


def copies_of(folder: str) -> list[str]:
    """Returns the day folders of copies on the disk of this folder, the oldest first, except the newest two of each."""
    found = []
    for name in os.listdir(folder):
        path = os.path.join(folder, name)
        if os.path.islink(path) or not any(os.path.isdir(os.path.join(path, it)) for it in COPIES):
            continue
        if os.stat(path).st_dev == os.stat(folder).st_dev:
            days = folders.days_of(path)
            found += [(day, os.path.join(path, day)) for day in days[:-FEWEST_KEPT]]
    return [path for _, path in sorted(found)]


def removed_copies(folder: str, keep_free: int) -> int:
    """Removes the oldest days of copies until enough of the disk is free. Returns how many."""
    gone = 0
    for path in copies_of(folder):
        if not lacks_room(folder, keep_free):
            break
        shutil.rmtree(path, ignore_errors=True)
        program.tell(f"removed {path}")
        gone += 1
    return gone
