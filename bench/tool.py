#!/usr/bin/env python3
"""Times the tool over a shelf of many files: a page and all pictures, or `follow`, first into an empty folder and then
without new files. A row for each run has its wall time, its processor time with that of its children, and its peak of
memory.

Usage: tool.py [--files N] [--runs N] [--follow], with the built program as $LRITSTATION. It needs Debian's package
time. Of N files (100,000) one in fifty is a segment, four of which make a picture of 160 columns and lines; the others
are bulletins.
"""

import argparse
import datetime
import os
import shutil
import subprocess
import sys
import tempfile
from collections.abc import Iterator

TOP = os.path.dirname(os.path.dirname(os.path.abspath(__file__)))
sys.path.insert(0, os.path.join(TOP, "tools"))

from gomtasil import sample, shelf, xrit  # noqa: E402

TOOL = [sys.executable, os.path.join(TOP, "tools", "bin", "gomtasil")]
SIDE, PARTS = 160, 4  # columns and lines of a picture, and its segments
EVERY = 50  # a segment among so many files
TEXT = (
    b"\x01\r\r\n%06d\r\r\nWWUS%02d KWBC 301200\r\r\n" + 8 * b"GALE WARNING, WEST 8 TO 9, RAIN AT TIMES.\r\r\n" + b"\x03"
)


def missions(count: int) -> Iterator[tuple[int, int, bytes]]:
    """The channel, the application and the bytes of each file."""
    for number in range(count):
        if number % EVERY:
            name = sample.annotation(
                f"A_WWUS{number % 100:02d}KWBC301200_C_KWIN_20261130120000_{number:06d}-2-GALE.TXT.lrit"
            )
            yield 20, 614, xrit.mission_file(xrit.TEXT_TYPE, name, TEXT % (number, number % 100))
            continue
        image, part = divmod(number // EVERY, PARTS)
        lines = SIDE // PARTS
        records = [
            sample.structure(8, SIDE, lines),
            sample.annotation(f"OR_ABI-L2-CMIPF-M6C13_G16_s{image:011d}_{part}.lrit"),
            sample.stamp(sample.WHEN + image * datetime.timedelta(minutes=10)),
            sample.segment(image % 65536, part, part * lines, PARTS, SIDE, SIDE),
        ]
        pixels = bytes((image + part + place) % 256 for place in range(SIDE)) * lines
        yield 13, 313, xrit.mission_file(xrit.IMAGE_TYPE, b"".join(records), pixels)


def items(count: int) -> Iterator[bytes]:
    """The items of a shelf, one after another."""
    for number, (channel, application, proper) in enumerate(missions(count)):
        yield shelf.item_of(channel, application, sample.bodies_of(number, proper), number)


def run(words: list[str]) -> tuple[float, float, float]:
    """The wall, the processor time and the peak of memory (KiB) of a command, by GNU time."""
    done = subprocess.run(
        ["/usr/bin/time", "-f", "%e %U %S %M", *words], stdout=subprocess.DEVNULL, stderr=subprocess.PIPE
    )
    if done.returncode:
        sys.exit(f"{words} ended with {done.returncode}: {done.stderr.decode()}")
    wall, user, system, peak = map(float, done.stderr.split()[-4:])
    return wall, user + system, peak


def report(what: str, used: tuple[float, float, float]) -> None:
    wall, seconds, peak = used
    print(f"| {what} | {wall:.2f} s | {seconds:.2f} s | {peak / 1024:.0f} MB |", flush=True)


def main() -> None:
    parser = argparse.ArgumentParser(description=__doc__, formatter_class=argparse.RawDescriptionHelpFormatter)
    parser.add_argument("--files", type=int, default=100_000)
    parser.add_argument("--runs", type=int, default=1)
    parser.add_argument("--follow", action="store_true")
    words = parser.parse_args()
    with tempfile.TemporaryDirectory() as scratch:
        os.chdir(scratch)
        body = shelf.shelf_of(items(words.files))
        with open("many.shelf", "wb") as it:
            it.write(body)
        print(f"{words.files} files, {len(body) / 1e6:.0f} MB, load {os.getloadavg()[0]:.1f}")
        print("| what | wall | processor | memory |\n|---|---|---|---|", flush=True)
        del body
        for _ in range(words.runs):
            for what in ["follow"] if words.follow else ["page", "pictures"]:
                command = [*TOOL, what, "many.shelf", "folder"]
                report(what, run(command))
                report(f"{what}, again", run(command))
                shutil.rmtree("folder")
    print(f"load {os.getloadavg()[0]:.1f}")


if __name__ == "__main__":
    main()
