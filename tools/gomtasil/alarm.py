"""Queues alarms until they are delivered. A LINE is added to the queue, which is the folder QUEUE. With --send COMMAND
the shell runs COMMAND for each queued line, the oldest first, with the line on its standard input and as $1. A line
leaves the queue when COMMAND exits with 0 within a minute. If COMMAND is empty, the lines are only printed. Status 1: a
line couldn't be delivered; it stays in the queue.
"""

import itertools
import os
import re
import signal
import subprocess
import time

from . import folder as folders
from . import program

SECONDS = 60  # that a delivery may take
MOST_WAITING = 100  # of which the oldest go
MOST_CHARACTERS = 2000  # of a line
NAME = re.compile(r"[0-9]{12}-[0-9]+")


def put(queue: str, line: str) -> None:
    """Adds a line to the queue."""
    os.makedirs(queue, exist_ok=True)
    text = " ".join(line.split())[:MOST_CHARACTERS] + "\n"
    last = max([int(it.split("-")[0]) for it in waiting(queue)], default=0)
    # (in the order in which they came, whatever the clock does)
    names = (f"{max(int(time.time()), last):012d}-{place:04d}" for place in itertools.count(os.getpid()))
    path = next(it for it in (os.path.join(queue, name) for name in names) if not os.path.exists(it))
    folders.write_whole(path, text.encode("utf-8", "replace"))
    for name in waiting(queue)[:-MOST_WAITING]:
        os.unlink(os.path.join(queue, name))


def waiting(queue: str) -> list[str]:
    """Returns the names of the queued lines, the oldest first."""
    return sorted(it for it in os.listdir(queue) if NAME.fullmatch(it)) if os.path.isdir(queue) else []


def send(queue: str, command: str, seconds: float = SECONDS) -> int:
    """Delivers the queued lines until one fails. Returns the status."""
    for name in waiting(queue):
        path = os.path.join(queue, name)
        with open(path, encoding="utf-8", errors="replace") as it:
            line = it.read(2 * MOST_CHARACTERS)
        print(line, end="", flush=True)
        fault = delivered(command, line, seconds) if command else ""
        if fault:
            program.tell(f"an alarm couldn't be delivered and stays in the queue: {fault}")
            return 1
        os.unlink(path)
    return 0


def delivered(command: str, line: str, seconds: float) -> str:
    """Runs the command for a line. Returns what went wrong, or nothing."""
    words = ["/bin/sh", "-c", command, "alarm", line.rstrip("\n")]
    with subprocess.Popen(words, stdin=subprocess.PIPE, text=True, start_new_session=True) as process:
        try:
            process.communicate(line, timeout=seconds)
        except subprocess.TimeoutExpired:
            # (with all that it has started)
            os.killpg(process.pid, signal.SIGKILL)
            return f"it took longer than {seconds:g} seconds"
    return f"it exited with {process.returncode}" if process.returncode else ""
