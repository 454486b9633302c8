"""Measures demodulators side by side, on the same recordings with known symbols.

The tables go to standard output in Markdown. A case of one receiver has a goal, in dB that it may lose at most compared
with the ideal symbols of the same run; the status is 1 where one isn't met.
"""

import argparse
import json
import sys
import tempfile
from dataclasses import dataclass, replace
from pathlib import Path
from statistics import median

import numpy

from . import receivers
from .channel import Fade, Link, clean, ideal, noise, received, written
from .frames import FRAME, Soft, Stream, stream
from .receivers import Tools
from .score import Score, lost_symbols, scored

LEAD, TAIL = 60000, 40000  # drawn symbols before and after the frames
LATE = 30011  # symbols of noise before a signal that is taken up
SCALE_SEED = 11
LONG = 10_000_000  # symbols without a slip
HOUR = 3600  # seconds of noise without a symbol
MOST_SHARE = 0.4  # of SatDump's processor time
MOST_MEMORY = 10_000_000  # bytes that are resident
PASSES = ("--passes", "4")
OWN_POWER = 0.51  # dB that a carrier inside the signal, 10 dB below it, costs at 1 dB: half its power is noise in phase
OTHER_FILTER = 0.07  # dB that a filter of the roll-off 0.5 itself loses where 0.3 is sent, or one of 0.3 where 0.5 is


@dataclass(frozen=True)
class Case:
    """A setting in which the demodulator is held to a goal."""

    name: str
    link: Link
    goal: float  # dB
    options: tuple[str, ...] = ()


@dataclass(frozen=True)
class Row:
    """What one receiver made of one recording."""

    es_n0: float
    receiver: str
    score: Score | None
    restored: int | None
    of: int
    processor: float  # seconds a second of signal


STANDARD = Link()
AT_1 = replace(STANDARD, es_n0=1.0)
LRIT = replace(AT_1, symbols=293883.0)
WIDE = replace(AT_1, roll_off=0.5)
CASES = [
    *(Case(f"standard, {level:g} dB", replace(STANDARD, es_n0=level), 0.05) for level in (-1.6, -1.0, 0.0, 2.0, 6.0)),
    Case("u8, rms 80 steps", replace(AT_1, form="u8", level=80.0), 0.05),
    Case("u8, rms 8 steps", replace(AT_1, form="u8", level=8.0), 0.05),
    Case("u8, rms 3 steps", replace(AT_1, form="u8", level=3.0), 0.14),
    Case("s8, rms 30 steps", replace(AT_1, form="s8"), 0.05),
    Case("s16 at 1.5 Msps", replace(AT_1, form="s16", rate=1.5e6), 0.05),
    Case("s16 at 2.5 Msps", replace(AT_1, form="s16", rate=2.5e6), 0.05),
    Case("s16 at 3.0 Msps", replace(AT_1, form="s16", rate=3.0e6), 0.05),
    Case("s16 at 6.0 Msps", replace(AT_1, form="s16", rate=6.0e6), 0.05),
    Case("LRIT, 293,883 at 2.4 Msps", replace(LRIT, roll_off=0.5), 0.05),
    Case("256,000 at 1.024 Msps", replace(AT_1, symbols=256e3, rate=1.024e6), 0.05),
    Case("50 kHz and 50 ppm", replace(AT_1, offset=50e3, ppm=50.0), 0.05),
    Case("drift 1 kHz/s, wobble 300 Hz", replace(AT_1, drift=1000.0, wobble=300.0), 0.05),
    Case("steps of gain of 3 dB", replace(AT_1, gain=2.0), 0.05),
    Case("constant of half the rms", replace(AT_1, constant=0.5), 0.05),
    Case("linewidth 10 Hz", replace(AT_1, linewidth=10.0), 0.05),
    Case("linewidth 100 Hz", replace(AT_1, linewidth=100.0), 0.4),
    Case("I/Q 1 dB and 5 degrees", replace(AT_1, imbalance=1.0, skew=5.0), 0.1),
    Case("I/Q the same, no offset", replace(AT_1, imbalance=1.0, skew=5.0, offset=900.0), 0.1),
    Case("carrier at 40 kHz, -10 dB", replace(AT_1, spur=40e3, spur_level=-10.0), OWN_POWER + 0.05),
    Case("clipped: u8, rms 120 steps", replace(AT_1, form="u8", level=120.0), 0.1),
    Case("50,000 samples dropped", replace(AT_1, gap=(2000000, 50000)), 0.1),
    Case("roll-off 0.5 received with 0.3", WIDE, OTHER_FILTER + 0.03, ("--quiet", "--roll-off", "0.3")),
    Case("roll-off 0.3 received with 0.5", AT_1, OTHER_FILTER + 0.03, ("--quiet", "--roll-off", "0.5")),
    Case("roll-off 0.3, and none is said", AT_1, 0.05, ("--quiet",)),
    Case("roll-off 0.5, and none is said", WIDE, 0.05, ("--quiet",)),
]
FADES = replace(
    STANDARD,
    es_n0=2.0,
    form="u8",
    drift=200.0,
    gain=2.0,
    fades=(Fade(0.8, 0.1, 15.0), Fade(1.5, 0.5, 30.0), Fade(2.6, 0.02, 20.0)),
    flips=(1000000, 2200000),
)


class Bench:
    """A folder for recordings, the programs, and a stream of frames."""

    def __init__(self, tools: Tools, folder: Path, frames: int) -> None:
        self.tools, self.folder = tools, folder
        self.stream: Stream = stream(frames, SCALE_SEED)
        self.draw = numpy.random.default_rng(1)
        ends = [self.draw.choice([-100, 100], count).astype(numpy.int8) for count in (LEAD, TAIL)]
        self.sent: Soft = numpy.concatenate([ends[0], self.stream.symbols, ends[1]])
        self.known = set(self.stream.frames)

    def record(self, link: Link) -> Path:
        path = self.folder / "iq"
        path.unlink(missing_ok=True)
        draw = numpy.random.default_rng(link.seed)
        path.write_bytes(written(received(clean(self.sent, link, draw), link, draw), link))
        return path

    def restored(self, soft: Path, options: tuple[str, ...] = ()) -> int | None:
        if self.tools.station is None:
            return None
        return receivers.restored(self.tools.station, soft, self.folder / "shelf", options)

    def row_of(self, link: Link, name: str, soft: Path, spent: float) -> Row:
        score = scored(self.sent, numpy.fromfile(soft, numpy.int8))
        return Row(link.es_n0, name, score, self.restored(soft), len(self.known), spent)

    def ideal_row(self, link: Link) -> Row:
        soft = self.folder / "soft"
        ideal(self.sent, link.es_n0, self.tools.scale, numpy.random.default_rng(link.seed + 1)).tofile(soft)
        return self.row_of(link, "ideal", soft, 0.0)

    def row(self, name: str, link: Link, iq: Path, options: tuple[str, ...] = ()) -> Row:
        soft = self.folder / "soft"
        run = receivers.receive(name, self.tools, link, iq, soft, options)
        spent = run.processor / (len(self.sent) / link.symbols)
        if name == "SatDump, whole":
            whole = len(self.known & {frame[:FRAME] for frame in run.frames})
            return Row(link.es_n0, name, None, whole, len(self.known), spent)
        return self.row_of(link, name, soft, spent)


def told(row: Row, best: Row) -> str:
    """A row of the table, with what is lost beside the ideal symbols."""
    frames = "" if row.restored is None else f"{row.restored} of {row.of}"
    lost = slips = ""
    if row.score is not None and best.score is not None:
        lost, slips = f"{best.score.es_n0 - row.score.es_n0:.3f}", str(row.score.slips)
    spent = f"{row.processor:.3f}" if row.processor else ""
    return f"| {row.es_n0:g} | {row.receiver} | {lost} | {slips} | {frames} | {spent} |"


def rows_of(bench: Bench, link: Link) -> list[Row]:
    """What each receiver makes of one recording, after the ideal symbols."""
    iq = bench.record(link)
    rows = [bench.ideal_row(link)]
    for name in receivers.names(bench.tools):
        rows.append(bench.row(name, link, iq))
        if name == "lritdemod":
            again = bench.restored(bench.folder / "soft", PASSES)
            rows.append(Row(link.es_n0, f"{name}, {' '.join(PASSES)}", None, again, rows[-1].of, 0.0))
    return rows


def side_by_side(bench: Bench, levels: list[float], form: str, out: Path | None) -> bool:
    """The receivers at each level, with the shares of frames as JSON in `out`; whether the demodulator takes no more
    processor time than it may beside SatDump."""
    print("| Es/N0, dB | receiver | dB lost | slips | frames restored | processor, s a second |")
    print("|---|---|---|---|---|---|")
    shares: list[float] = []
    curves: dict[str, list[tuple[float, float]]] = {}
    for level in levels:
        rows = rows_of(bench, replace(STANDARD, es_n0=level, form=form))
        for row in rows:
            print(told(row, rows[0]), flush=True)
            curves.setdefault(row.receiver, []).append((level, (row.restored or 0) / row.of))
        spent = {row.receiver: row.processor for row in rows}
        if "SatDump" in spent:
            shares.append(spent["lritdemod"] / spent["SatDump"])
    if out is not None:
        out.write_text(json.dumps({"frames": len(bench.known), "curves": curves}))
    if shares:
        print(f"\nof SatDump's processor time: {median(shares):.2f} in the median, goal {MOST_SHARE}")
    return not shares or median(shares) <= MOST_SHARE


def held(bench: Bench) -> bool:
    """What holds for long: no slip and no turn at -1 dB, no symbol of an hour of noise, and little memory."""
    link = replace(STANDARD, es_n0=-1.0)
    few = bench.sent
    bench.sent = bench.draw.choice([-100, 100], LONG + LEAD).astype(numpy.int8)
    score = bench.row("lritdemod", link, bench.record(link)).score
    bench.sent = few
    slips = None if score is None else score.slips + score.flips
    print(f"slips and turns within {LONG} symbols at {link.es_n0:g} dB: {slips}, goal 0", flush=True)
    symbols, memory = receivers.over_pipe(bench.tools, link, noise(link, HOUR))
    print(f"symbols of {HOUR} seconds of noise: {symbols}, goal 0; resident memory {memory} bytes", flush=True)
    return slips == 0 and symbols == 0 and memory <= MOST_MEMORY


def cases(bench: Bench) -> bool:
    """Each setting with its goal, which is of the dB lost of what was sent; whether all are met."""
    print("| setting | dB lost of what was sent | goal | beside the ideal symbols | slips | processor, s a second |")
    print("|---|---|---|---|---|---|")
    met = True
    for case in CASES:
        best = bench.ideal_row(case.link).score
        row = bench.row("lritdemod", case.link, bench.record(case.link), case.options)
        if row.score is None or best is None:
            met = False
            print(f"| {case.name} | no symbols | {case.goal:g} | | | {row.processor:.3f} |", flush=True)
            continue
        lost = case.link.es_n0 - row.score.es_n0
        is_met = round(lost, 2) <= case.goal
        met = met and is_met
        beside = f"{best.es_n0 - row.score.es_n0:.3f} | {row.score.slips} | {row.processor:.3f}"
        print(f"| {case.name} | {lost:.3f} | {case.goal:g}{'' if is_met else ' missed'} | {beside} |", flush=True)
    return met


def taken_up(bench: Bench) -> None:
    """The symbols that are lost until a receiver holds, after noise."""
    print("| Es/N0, dB | offset, kHz | receiver | symbols lost |")
    print("|---|---|---|---|")
    for level in (3.0, -1.0):
        for offset in (0.0, 5e3, 20e3, 50e3):
            link = replace(STANDARD, es_n0=level, offset=offset, drift=0.0, late=LATE, form="u8")
            iq = bench.record(link)
            for name in receivers.names(bench.tools):
                if name == "SatDump, whole":
                    continue
                bench.row(name, link, iq)
                lost = lost_symbols(bench.sent, numpy.fromfile(bench.folder / "soft", numpy.int8))
                count = "never" if lost is None else str(lost)
                print(f"| {level:g} | {offset / 1000:g} | {name} | {count} |", flush=True)


def through_fades(bench: Bench) -> None:
    """Three fades and two turns of the polarity."""
    print("| Es/N0, dB | receiver | frames restored |")
    print("|---|---|---|")
    for level in (2.0, -1.0):
        link = replace(FADES, es_n0=level)
        iq = bench.record(link)
        for name in receivers.names(bench.tools):
            row = bench.row(name, link, iq)
            print(f"| {level:g} | {name} | {row.restored} of {row.of} |", flush=True)


def words() -> argparse.ArgumentParser:
    parser = argparse.ArgumentParser(prog="demod", description=__doc__)
    parser.add_argument("part", choices=["levels", "held", "cases", "lock", "fades"])
    parser.add_argument("--demodulator", type=Path, required=True, help="lritdemod")
    parser.add_argument("--station", type=Path, help="lritstation; without it no frames are counted")
    parser.add_argument("--satdump", type=Path, help="a folder with a Debian system that has SatDump")
    parser.add_argument("--frames", type=int, default=150)
    parser.add_argument("--levels", default="-1.8,-1.6,-1.5,-1.4,-1.3,-1,0,1,2,4,6", help="Es/N0 in dB")
    parser.add_argument("--form", choices=["u8", "s8", "s16", "f32"], default="f32")
    parser.add_argument("--own", action="store_true", help="no other receivers")
    parser.add_argument("--out", type=Path, help="a file for the frames of `levels` as JSON, which plot.py draws")
    return parser


def main() -> int:
    given = words().parse_args()
    has_gnu_radio = not given.own and receivers.can_use_gnu_radio()
    tools = Tools(given.demodulator, given.station, None if given.own else given.satdump, has_gnu_radio)
    levels = [float(level) for level in given.levels.split(",")]
    with tempfile.TemporaryDirectory() as folder:
        bench = Bench(tools, Path(folder), given.frames)
        if given.part == "levels":
            return 0 if side_by_side(bench, levels, given.form, given.out) else 1
        if given.part == "held":
            return 0 if held(bench) else 1
        if given.part == "lock":
            taken_up(bench)
        elif given.part == "fades":
            through_fades(bench)
        else:
            return 0 if cases(bench) else 1
    return 0


if __name__ == "__main__":
    sys.exit(main())
