"""Images that lack packets: the files that `receive --mend N` puts onto a shelf, and their pixels beside those sent.

An image is cut into bodies of one length, after a body with its header alone, and is sent in frames, from which some
are left out. A second image follows, since a lost end comes with the next packet of its application. Where the first
image is mended, the mark in its header tells the places of the packets that stand in. All pixels outside of them have
to be those that were sent, and those of an image that isn't coded are 0 within them.
"""

from __future__ import annotations

import argparse
import dataclasses
import os
import pathlib
import random
import shutil
import struct
import subprocess
import sys
from collections.abc import Iterable

from gomtasil import sample, xrit
from gomtasil import shelf as shelves

FRAME = 892
CHANNEL, APPLICATION = 13, 313
RATES = (0.001, 0.005, 0.01, 0.02)
FILLERS = (16, 64, 255)
MARKER = b"\x1a\xcf\xfc\x1d"
CHECK_BYTES = 128
ORBITS = """TEST
1 25544U 98067A   24001.50000000  .00016717  00000-0  10270-3 0  9005
2 25544  51.6400 208.9163 0006317  69.9862  25.2906 15.49560000 10009
"""


@dataclasses.dataclass
class Image:
    """An image, and the bodies that it is sent in. A body after the first one has `pixels_in_body` pixels."""

    columns: int
    lines: int
    pixels: bytes
    bodies: list[bytes]
    pixels_in_body: int
    coded: bool

    def places(self, body: int) -> range:
        """The pixels that stand in a body, counted from 0."""
        first = (body - 1) * self.pixels_in_body
        return range(max(first, 0), min(first + self.pixels_in_body, len(self.pixels))) if body else range(0)


def plain_image(columns: int, lines: int, draw: random.Random) -> Image:
    """An image that isn't coded, a line in each body."""
    row = [draw.randrange(1, 256) for _ in range(columns)]
    pixels = b"".join(bytes((value + line) % 255 + 1 for value in row) for line in range(lines))
    proper = xrit.mission_file(xrit.IMAGE_TYPE, sample.structure(8, columns, lines), pixels)
    head = xrit.TRANSPORT.pack(1, 8 * len(proper)) + proper[: -len(pixels)]
    bodies = [head] + [pixels[at : at + columns] for at in range(0, len(pixels), columns)]
    return Image(columns, lines, pixels, bodies, columns, False)


class Station:
    """The program over one shelf in a folder."""

    def __init__(self, program: str, folder: pathlib.Path) -> None:
        self.program = program
        self.shelf = folder / "shelf"

    def run(self, *words: str, data: bytes = b"") -> bytes:
        ran = subprocess.run([self.program, str(self.shelf), *words], input=data, capture_output=True, check=False)
        if ran.returncode:
            sys.exit(f"trials/mend.sh: {' '.join(words)}: {ran.returncode} {ran.stderr.decode()}")
        return ran.stdout

    def fresh(self) -> None:
        self.shelf.unlink(missing_ok=True)
        self.run("init", "100000000")

    def received(self, frames: bytes, mend: int) -> list[str]:
        """The lines of the files of these frames, onto a new shelf."""
        self.fresh()
        words = ["receive", "--input", "frames"] + (["--mend", str(mend)] if mend else [])
        lines = self.run(*words, data=frames).decode().splitlines()
        return [line for line in lines if line.startswith("shelved ")]

    def pixels(self) -> bytes:
        """Those of the first file."""
        return self.run("export", "0").split(b"\n", 3)[3]

    def mark(self) -> list[int]:
        """The places of the packets that stand in, from the first file's header."""
        lines = [line for line in self.run("show", "0").decode().splitlines() if "gomtasil mended " in line]
        runs = lines[-1].split("gomtasil mended ")[1].split(" of ")[0].split() if lines else []
        places: list[int] = []
        for run in runs:
            first, _, last = run.partition("-")
            places += range(int(first), int(last or first) + 1)
        return places


def coded_image(station: Station, image: Image) -> Image:
    """The same image, each line coded by itself."""
    station.received(b"".join(sample.Sender().frames(CHANNEL, APPLICATION, image.bodies)), 0)
    station.run("repack", "0", "16")
    with shelves.Shelf(str(station.shelf)) as shelf:
        stored = shelf.load(list(shelf.heads())[1])
    if stored is None:
        sys.exit("trials/mend.sh: no coded image")
    packets, size = stored.fields.packets, stored.fields.size
    contents = stored.item[: -shelves.CHECKSUM_BYTES]
    lengths = struct.unpack_from(f">{packets}H", contents, len(contents) - size - 2 * packets)
    bodies, at = [], len(contents) - size
    for length in lengths:
        bodies.append(contents[at : at + length])
        at += length
    return dataclasses.replace(image, bodies=bodies, coded=True)


def check(station: Station, image: Image, places: Iterable[int], what: str) -> None:
    """All pixels outside of these packets are those that were sent."""
    came = bytearray(station.pixels())
    sent = bytearray(image.pixels)
    if len(came) != len(sent):
        sys.exit(f"trials/mend.sh: {what}: {len(came)} pixels in place of {len(sent)}")
    for body in places:
        inside = image.places(body)
        if not image.coded and any(came[inside.start : inside.stop]):
            sys.exit(f"trials/mend.sh: {what}: packet {body} isn't black")
        sent[inside.start : inside.stop] = came[inside.start : inside.stop]
    if came != sent:
        sys.exit(f"trials/mend.sh: {what}: other pixels than those sent outside of {list(places)}")


def row(station: Station, image: Image, rate: float, draws: int, seed: int) -> list[str]:
    """One row of the table: how many images are whole, and with each N how many are mended and lost."""
    draw = random.Random(seed)
    sender = sample.Sender()
    first, second = (list(sender.frames(CHANNEL, APPLICATION, image.bodies)) for _ in range(2))
    whole = 0
    mended = dict.fromkeys(FILLERS, 0)
    lost = dict.fromkeys(FILLERS, 0)
    for at in range(draws):
        frames = b"".join([it for it in first if draw.random() >= rate] + second)
        whole += len(station.received(frames, 0)) == 2
        for most in FILLERS:
            lines = station.received(frames, most)
            fillers = int(lines[0].rsplit(" mended ", 1)[1])
            what = f"{'coded' if image.coded else 'plain'}, {rate}, draw {at}, --mend {most}"
            if len(lines) == 1:
                lost[most] += 1
                continue
            places = station.mark() if fillers else []
            if len(places) != fillers:
                sys.exit(f"trials/mend.sh: {what}: {fillers} in the line, {len(places)} in the mark")
            mended[most] += fillers > 0
            check(station, image, places, what)
    counts = [f"{mended[most]}, {lost[most]}" for most in FILLERS]
    return ["coded" if image.coded else "plain", f"{rate * 100:g} %", str(whole), *counts]


class SatDump:
    """SatDump in a folder with a Debian system. It gets frames that were corrected, so their check bytes may be any."""

    def __init__(self, root: pathlib.Path) -> None:
        self.root = root
        self.folder = root / "tmp" / "mend-trial"

    def pictures(self, frames: bytes) -> list[tuple[tuple[int, int], bytes]]:
        """The size and the pixels of each picture that it writes."""
        from PIL import Image as Picture

        shutil.rmtree(self.folder, ignore_errors=True)
        self.folder.mkdir()
        (self.folder / "orbits").write_text(ORBITS)
        units = (frames[at : at + FRAME] for at in range(0, len(frames), FRAME))
        (self.folder / "frames").write_bytes(b"".join(MARKER + unit + bytes(CHECK_BYTES) for unit in units))
        words = "satdump goes_lrit cadu frames out --tle_override orbits --max_fill_lines 50 --fill_missing true"
        told = ["chroot", str(self.root), "sh", "-c", f"cd /tmp/mend-trial && {words}"]
        ran = subprocess.run(told, capture_output=True, check=False)
        if ran.returncode:
            sys.exit(f"trials/mend.sh: satdump: {ran.returncode} {ran.stdout.decode()[-400:]}")
        found = []
        for path in sorted(self.folder.glob("out/IMAGES/**/*.png")):
            with Picture.open(path) as picture:
                found.append((picture.size, picture.convert("L").tobytes()))
        shutil.rmtree(self.folder)
        return found


def lines_in_place(image: Image, pixels: bytes) -> int:
    """How many lines of a picture are those that were sent."""
    starts = range(0, len(image.pixels), image.columns)
    return sum(pixels[at : at + image.columns] == image.pixels[at : at + image.columns] for at in starts)


def beside(station: Station, satdump: SatDump, image: Image, rate: float, draws: int, seed: int) -> list[str]:
    """One row beside SatDump: of the images that are shown, how many lines stand in their place."""
    draw = random.Random(seed)
    sender = sample.Sender()
    first = list(sender.frames(CHANNEL, APPLICATION, image.bodies))
    other = plain_image(image.columns, image.lines, random.Random(2))
    second = list(sender.frames(CHANNEL, APPLICATION, other.bodies))
    ours: list[int] = []
    theirs: list[int] = []
    for _ in range(draws):
        frames = b"".join([it for it in first if draw.random() >= rate] + second)
        if len(station.received(frames, 64)) == 2:
            ours.append(lines_in_place(image, station.pixels()))
        size = (image.columns, image.lines)
        shown = [lines_in_place(image, pixels) for there, pixels in satdump.pictures(frames) if there == size]
        theirs += [most] if (most := max(shown, default=0)) else []
    counts = [f"{len(lines)}, {sum(lines) / max(1, len(lines)) / image.lines:.1%}" for lines in (ours, theirs)]
    return [f"{rate * 100:g} %", str(draws), *counts]


def main() -> None:
    parser = argparse.ArgumentParser(description=__doc__)
    parser.add_argument("folder", type=pathlib.Path)
    parser.add_argument("--draws", type=int, default=100)
    parser.add_argument("--satdump", type=pathlib.Path, metavar="ROOT", help="compare with SatDump, which is in ROOT")
    words = parser.parse_args()
    station = Station(os.environ["LRITSTATION"], words.folder)
    plain = plain_image(1330, 1330, random.Random(1))
    coded = coded_image(station, plain)
    counts = [len(list(sample.Sender().frames(CHANNEL, APPLICATION, it.bodies))) for it in (plain, coded)]
    print(f"plain {counts[0]} frames, coded {counts[1]}")
    print("lines | frames lost | whole | " + " | ".join(f"N = {most}: mended, lost" for most in FILLERS))
    for image in (plain, coded):
        for seed, rate in enumerate(RATES):
            print(" | ".join(row(station, image, rate, words.draws, seed)), flush=True)
    if words.satdump:
        print("frames lost | images | --mend 64: shown, lines in place | SatDump: shown, lines in place")
        satdump = SatDump(words.satdump)
        for seed, rate in enumerate(RATES):
            print(" | ".join(beside(station, satdump, plain, rate, min(words.draws, 20), seed)), flush=True)


if __name__ == "__main__":
    main()
