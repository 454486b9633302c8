"""What all commands share: the words that they say, the signals that end them, and calls of the proved program."""

import os
import signal
import subprocess
import sys
from collections.abc import Sequence

from . import shelf as shelves

SIGNALS = (signal.SIGTERM, signal.SIGINT, signal.SIGHUP)
EXPORT_SECONDS = 600


class Missing(Exception):
    """A package or a program that is needed isn't there."""


def tell(words: object) -> None:
    print(f"gomtasil: {words}", file=sys.stderr, flush=True)


def reason(fault: BaseException) -> str:
    """What went wrong, without the number of the system's error."""
    return str(getattr(fault, "strerror", None) or fault)


# ---- signals


def end_by_signals() -> None:
    """Makes the signals that ask for an end raise SystemExit, so that what is half done is removed."""
    for it in SIGNALS:
        signal.signal(it, lambda number, _: sys.exit(128 + number))


def hold_signals() -> None:
    """Blocks the signals that ask for an end, so that none ends anything in its middle."""
    signal.pthread_sigmask(signal.SIG_BLOCK, SIGNALS)
    for it in SIGNALS:  # (what is started from here has none of the handlers of `end_by_signals`)
        signal.signal(it, signal.SIG_DFL)


def pending_signal() -> signal.Signals | None:
    """The signal that asks for an end, if one has come."""
    return next((it for it in SIGNALS if it in signal.sigpending()), None)


def wait(seconds: float) -> bool:
    """Waits so long, or until a signal that is held asks for an end. Whether one does."""
    return signal.sigtimedwait(SIGNALS, seconds) is not None


def let_signals() -> None:
    """For a process that is started: what is held here isn't there."""
    signal.pthread_sigmask(signal.SIG_UNBLOCK, SIGNALS)


# ---- the proved program


def name() -> str:
    return os.environ.get("LRITSTATION", "lritstation")


def called(items: Sequence[bytes], *words: str) -> bytes | None:
    """What the program prints for these words, over a shelf in memory that has these items; None where it doesn't end
    well."""
    with open(os.memfd_create("shelf"), "wb") as it:
        it.write(shelves.shelf_of(items))
        it.flush()
        command = [name(), f"/proc/self/fd/{it.fileno()}", *words]
        try:
            done = subprocess.run(
                command, stdin=subprocess.DEVNULL, capture_output=True, timeout=EXPORT_SECONDS, pass_fds=[it.fileno()]
            )
        except (OSError, subprocess.SubprocessError):
            return None
    return done.stdout if done.returncode == 0 else None
