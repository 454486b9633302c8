"""What the programs of bench share: the time of a command, and a new shelf."""

import os
import resource
import subprocess
import time
from collections.abc import Sequence
from typing import NamedTuple


class Took(NamedTuple):
    """What a command took, in seconds, and what it printed."""

    real: float
    user: float
    system: float
    printed: bytes

    @property
    def processor(self) -> float:
        return self.user + self.system


def timed(command: Sequence[str], given: str | None = None, errors: int | None = None) -> Took:
    """A command over this file; with `errors` its standard error is among what it printed."""
    before, start = resource.getrusage(resource.RUSAGE_CHILDREN), time.perf_counter()
    with open(given or os.devnull, 'rb') as stdin:
        done = subprocess.run(command, stdin=stdin, stdout=subprocess.PIPE, stderr=errors, check=True)
    real, after = time.perf_counter() - start, resource.getrusage(resource.RUSAGE_CHILDREN)
    return Took(real, after.ru_utime - before.ru_utime, after.ru_stime - before.ru_stime, done.stdout)


def new_shelf(program: str = './lritstation') -> None:
    """Makes the shelf `shelf`, empty."""
    if os.path.exists('shelf'):
        os.remove('shelf')
    timed([program, 'shelf', 'init', '1000000000'])
