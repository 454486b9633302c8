"""The receivers that are measured: each reads a recording and writes soft symbols, and its processor time is told."""

import json
import os
import resource
import shutil
import subprocess
import sys
import tempfile
from collections.abc import Iterable
from dataclasses import dataclass, field
from pathlib import Path

from .channel import Link
from .frames import frames_in

HERE = Path(__file__).resolve().parent
GNU_RADIO = "/usr/bin/python3"
SATDUMP_FORMS = {"f32": "cf32", "s16": "cs16", "s8": "cs8", "u8": "cu8"}
TUNED = "--rrc_alpha 0.3 --pll_bw 0.004 --clock_gain_omega 1e-6 --clock_gain_mu 0.002".split()
# orbits of one satellite, so that SatDump doesn't look for them on the network
ORBITS = """TEST
1 25544U 98067A   24001.50000000  .00016717  00000-0  10270-3 0  9005
2 25544  51.6400 208.9163 0006317  69.9862  25.2906 15.49560000 10009
"""
# SatDump's psk_demod as its goes_hrit has it, and nothing after it
PIPELINE = {
    "demod": {
        "name": "BPSK",
        "live": False,
        "work": {
            "baseband": {},
            "soft": {
                "psk_demod": {
                    "constellation": "bpsk",
                    "symbolrate": 927000,
                    "rrc_alpha": 0.5,
                    "pll_bw": 0.02,
                }
            },
        },
    }
}


@dataclass(frozen=True)
class Tools:
    """Where the programs are; those that are none aren't measured."""

    demodulator: Path
    station: Path | None
    satdump: Path | None  # a root that has it
    has_gnu_radio: bool
    scale: float = 32.0


@dataclass
class Run:
    """What a receiver took."""

    processor: float = 0.0  # seconds
    frames: list[bytes] = field(default_factory=list)  # of a receiver that gives frames


def timed(words: list[str], source: Path, sink: Path) -> Run:
    before = resource.getrusage(resource.RUSAGE_CHILDREN)
    log = sink.with_suffix(".log")
    with source.open("rb") as given, sink.open("wb") as made, log.open("wb") as said:
        subprocess.run(words, stdin=given, stdout=made, stderr=said, check=False)
    after = resource.getrusage(resource.RUSAGE_CHILDREN)
    spent = after.ru_utime - before.ru_utime + after.ru_stime - before.ru_stime
    return Run(spent)


def own(tools: Tools, link: Link, iq: Path, soft: Path, options: tuple[str, ...]) -> Run:
    rates = ["--rate", f"{link.rate:.0f}", "--symbols", f"{link.symbols:.0f}", "--format", link.form]
    usual = ["--scale", f"{tools.scale:g}", "--roll-off", f"{link.roll_off:g}", "--quiet"]
    return timed([str(tools.demodulator), *rates, *(list(options) or usual)], iq, soft)


def over_pipe(tools: Tools, link: Link, parts: Iterable[bytes]) -> tuple[int, int]:
    """The symbols that the demodulator makes of unsigned bytes in a pipe, and its greatest resident memory."""
    words = [str(tools.demodulator), "--rate", f"{link.rate:.0f}", "--symbols", f"{link.symbols:.0f}", "--format", "u8"]
    with tempfile.TemporaryFile() as out:
        with subprocess.Popen([*words, "--quiet"], stdin=subprocess.PIPE, stdout=out) as run:
            assert run.stdin is not None
            for part in parts:
                run.stdin.write(part)
            status = Path(f"/proc/{run.pid}/status").read_text(encoding="ascii").split()
            run.stdin.close()
        return os.fstat(out.fileno()).st_size, 1024 * int(status[status.index("VmHWM:") + 1])


def gnu_radio(script: str, tools: Tools, link: Link, iq: Path, soft: Path) -> Run:
    rates = ["--rate", f"{link.rate:.0f}", "--symbols", f"{link.symbols:.0f}", "--form", link.form]
    more = ["--roll-off", "0.3"] if script == "gnuradio_usual.py" else []
    return timed([GNU_RADIO, str(HERE / script), *rates, "--scale", f"{tools.scale:g}", *more], iq, soft)


def satdump(pipeline: str, more: list[str], tools: Tools, link: Link, iq: Path, soft: Path) -> Run:
    """SatDump in its root: from the recording to `demod.soft`, or to the frames of its own goes_hrit."""
    assert tools.satdump is not None
    folder = tools.satdump / "tmp" / f"demod-{os.getpid()}"
    shutil.rmtree(folder, ignore_errors=True)
    folder.mkdir(parents=True)
    try:
        if pipeline == "demod":
            (folder / "pipelines").mkdir()
            (folder / "pipelines" / "demod.json").write_text(json.dumps(PIPELINE))
        (folder / "orbits").write_text(ORBITS)
        os.link(iq, folder / "iq") if iq.stat().st_dev == folder.stat().st_dev else shutil.copyfile(iq, folder / "iq")
        call = ["satdump", pipeline, "baseband", "iq", "out", "--samplerate", f"{link.rate:.0f}"]
        call += ["--baseband_format", SATDUMP_FORMS[link.form], "--tle_override", "orbits", *more]
        inside = "/" + str(folder.relative_to(tools.satdump))
        line = f"cd {inside} && exec {' '.join(call)} >&2"
        run = timed(["chroot", str(tools.satdump), "sh", "-c", line], Path(os.devnull), soft)
        made, frames = folder / "out" / "demod.soft", folder / "out" / f"{pipeline}.cadu"
        if made.exists():
            shutil.copyfile(made, soft)
        if frames.exists():
            run.frames = frames_in(frames.read_bytes())
        return run
    finally:
        shutil.rmtree(folder, ignore_errors=True)


def receive(name: str, tools: Tools, link: Link, iq: Path, soft: Path, options: tuple[str, ...] = ()) -> Run:
    """Runs the receiver of this name over a recording."""
    if name == "lritdemod":
        return own(tools, link, iq, soft, options)
    if name == "GNU Radio":
        return gnu_radio("gnuradio_usual.py", tools, link, iq, soft)
    if name == "GNU Radio, wide":
        return gnu_radio("gnuradio_wide.py", tools, link, iq, soft)
    if name == "SatDump":
        return satdump("demod", [], tools, link, iq, soft)
    if name == "SatDump, tuned":
        return satdump("demod", TUNED, tools, link, iq, soft)
    return satdump("goes_hrit", ["--max_fill_lines", "50", "--write_lrit", "true"], tools, link, iq, soft)


def names(tools: Tools) -> list[str]:
    """The receivers that can be measured here."""
    gnu = ["GNU Radio", "GNU Radio, wide"] if tools.has_gnu_radio else []
    theirs = ["SatDump", "SatDump, tuned", "SatDump, whole"] if tools.satdump is not None else []
    return ["lritdemod", *gnu, *theirs]


def restored(station: Path, soft: Path, shelf: Path, options: tuple[str, ...] = ()) -> int:
    """The frames that `receive` restores."""
    shelf.unlink(missing_ok=True)
    subprocess.run([str(station), str(shelf), "init", "100000000"], check=True, stdout=subprocess.DEVNULL)
    words = [str(station), str(shelf), "receive", "--line", "nrz-m", "--g2", "plain", *options]
    with soft.open("rb") as given:
        said = subprocess.run(words, stdin=given, stdout=subprocess.PIPE, check=True, text=True).stdout
    last = said.splitlines()[-1].split()
    return int(last[last.index("restored") + 1])


def can_use_gnu_radio() -> bool:
    found = subprocess.run([GNU_RADIO, "-c", "import gnuradio"], capture_output=True, check=False)
    return found.returncode == 0


if __name__ == "__main__":
    sys.exit("receivers.py is no program: python3 -m demod")
