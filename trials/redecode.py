"""How many frames and images come out of noise, with `--passes 4` and without it.

Symbols of the test stream get white Gaussian noise at one step of Es/N0 after another. A clean symbol is 64, and what
comes is rounded to a signed byte. Each frame that is restored in one pass has to be restored with four. Then the sample
of README is sent, gets noise, and is received with each of the options.
"""

from __future__ import annotations

import argparse
import math
import os
import pathlib
import random
import subprocess
import sys
from array import array

FRAME_BYTES, FRAME_SYMBOLS, CADU_BYTES, MARKER_BYTES = 892, 16_384, 1_024, 4
CLEAN = 64  # the value of a symbol without noise
DRAWN = 1 << 16  # values of a drawn number, each of which stands for one of the noise
IMAGE_STEPS = (-1.5, -1.3)
OPTIONS: tuple[list[str], ...] = ([], ["--passes", "4"], ["--mend", "64"], ["--passes", "4", "--mend", "64"])
CODE = ["--line", "nrz-m", "--g2", "plain"]
NEGATED = bytes(-value & 0xFF for value in range(256))
ORBITS = """TEST
1 25544U 98067A   24001.50000000  .00016717  00000-0  10270-3 0  9005
2 25544  51.6400 208.9163 0006317  69.9862  25.2906 15.49560000 10009
"""


def noisy_values(step: float) -> bytes:
    """For each drawn number the byte of a symbol of 1 at this Es/N0 in dB, by the normal distribution's quantiles."""
    sigma = CLEAN * math.sqrt(0.5 / 10 ** (step / 10))
    bounds = [DRAWN * 0.5 * (1 + math.erf((v + 0.5 - CLEAN) / sigma / math.sqrt(2))) for v in range(-127, 127)]
    values, value = bytearray(), -127
    for drawn in range(DRAWN):
        while value < 127 and drawn + 0.5 > bounds[value + 127]:
            value += 1
        values.append(value & 0xFF)
    return bytes(values)


def with_noise(clean: bytes, step: float, draw: random.Random) -> bytes:
    """The symbols of a recording with noise. All that counts of a clean one is its sign."""
    values, parts = noisy_values(step), []
    for at in range(0, len(clean), FRAME_SYMBOLS):
        signs = clean[at : at + FRAME_SYMBOLS]
        ones = bytes(map(values.__getitem__, array("H", draw.randbytes(2 * len(signs)))))
        mask = int.from_bytes(signs.translate(bytes(0xFF if b < 128 else 0 for b in range(256))), "big")
        both = int.from_bytes(ones, "big") & mask
        zeros = int.from_bytes(ones.translate(NEGATED), "big") & ~mask
        parts.append((both | zeros).to_bytes(len(signs), "big"))
    return b"".join(parts)


def run(program: str, *words: str, data: bytes = b"") -> bytes:
    ran = subprocess.run([program, *words], input=data, capture_output=True, check=False)
    if ran.returncode:
        sys.exit(f"trials/redecode.sh: {' '.join(words)}: {ran.returncode} {ran.stderr.decode()}")
    return ran.stdout


def restored(program: str, symbols: bytes, *words: str) -> dict[bytes, list[bytes]]:
    """For the place of each restored frame its corrected bytes."""
    lines = [line.split() for line in run(program, "-", "decode", *words, data=symbols).splitlines()]
    return {line[3]: line[7:11] for line in lines if line[:1] == [b"window"] and line[6] == b"restored"}


def by_satdump(root: pathlib.Path, symbols: bytes, frames: set[bytes]) -> int:
    """How many of these frames SatDump's pipeline of LRIT restores, which wants a second symbol as it is."""
    turned = bytearray(symbols)
    turned[1::2] = turned[1::2].translate(NEGATED)
    folder = root / "tmp" / "redecode"
    folder.mkdir(exist_ok=True)
    (folder / "symbols").write_bytes(turned)
    (folder / "orbits").write_text(ORBITS)
    words = "cd /tmp/redecode && satdump goes_lrit soft symbols out --tle_override orbits"
    subprocess.run(["chroot", str(root), "sh", "-c", words], capture_output=True, check=False)
    cadus = b"".join(path.read_bytes() for path in folder.glob("out/*.cadu"))
    starts = range(MARKER_BYTES, len(cadus), CADU_BYTES)
    return len({cadus[at : at + FRAME_BYTES] for at in starts} & frames)


def table_of_frames(program: str, steps: list[float], count: int, root: pathlib.Path | None) -> None:
    clean = run(program, "-", "make", "1", str(count), "0")
    made = run(program, "-", "make", "1", str(count), "0", "--output", "frames")
    frames = {made[at : at + FRAME_BYTES] for at in range(0, len(made), FRAME_BYTES)}
    print(f"Es/N0 in dB | lost of {count} frames | with --passes 4 | decoded again" + (" | SatDump" if root else ""))
    for step in steps:
        symbols = with_noise(clean, step, random.Random(round(step * 100)))
        once, again = restored(program, symbols), restored(program, symbols, "--passes", "4")
        if any(again.get(place) != numbers for place, numbers in once.items()):
            sys.exit(f"trials/redecode.sh: {step} dB: a frame of one pass differs after four")
        for passes, workers in ((2, 2), (3, 8)):
            first, option = symbols[: 64 * FRAME_SYMBOLS], ["--passes", str(passes)]
            others = restored(program, first, *option, "--workers", str(workers))
            alone = restored(program, first, *option)
            if others != alone:
                sys.exit(f"trials/redecode.sh: {step} dB: {workers} workers restore something else")
        redecoded = sum(any(int(number) > 16 for number in numbers) for numbers in again.values())
        row = [f"{step:.2f}", f"{100 * (1 - len(once) / count):.2f} %", f"{100 * (1 - len(again) / count):.2f} %"]
        row += [str(redecoded)] + ([f"{100 * (1 - by_satdump(root, symbols, frames) / count):.2f} %"] if root else [])
        print(" | ".join(row), flush=True)


def table_of_images(program: str, folder: pathlib.Path, draws: int) -> None:
    """Whole files and all files of the sample, for each choice of options."""
    top = pathlib.Path(__file__).resolve().parent.parent
    frames = run(sys.executable, str(top / "tools" / "bin" / "gomtasil"), "sample")
    sent, shelf = str(folder / "sent"), folder / "shelf"
    run(program, sent, "init", "30000000")
    run(program, sent, "receive", "--input", "frames", data=frames)
    clean = run(program, sent, "transmit", "0", "6", "0", *CODE)
    print(f"Es/N0 in dB | of {6 * draws} files whole" + "".join(f", with {' '.join(it)}" for it in OPTIONS if it))
    for step in IMAGE_STEPS:
        totals = [[0, 0] for _ in OPTIONS]
        for at in range(draws):
            symbols = with_noise(clean, step, random.Random(at))
            for total, options in zip(totals, OPTIONS):
                shelf.unlink(missing_ok=True)
                run(program, str(shelf), "init", "30000000")
                lines = run(program, str(shelf), "receive", *CODE, *options, data=symbols).decode().splitlines()
                files = [line for line in lines if line.startswith("shelved ")]
                total[0] += sum("mended" not in line or line.endswith(" mended 0") for line in files)
                total[1] += len(files)
        print(f"{step} | " + ", ".join(f"{whole} of {all_}" if whole != all_ else str(whole) for whole, all_ in totals))


def main() -> None:
    parser = argparse.ArgumentParser(description=(__doc__ or "").splitlines()[0])
    parser.add_argument("folder", type=pathlib.Path, nargs="?", help="for what is written")
    parser.add_argument("--noise", type=float, metavar="DB", help="put standard input with noise of this Es/N0, and end")
    parser.add_argument("--frames", type=int, default=3_000)
    parser.add_argument("--draws", type=int, default=10, help="how often the sample is sent")
    parser.add_argument("--steps", type=float, nargs="*", default=[-1.8 + 0.1 * at for at in range(7)])
    parser.add_argument("--satdump", type=pathlib.Path, help="a folder with a Debian system that has SatDump")
    options = parser.parse_args()
    if options.noise is not None:
        sys.stdout.buffer.write(with_noise(sys.stdin.buffer.read(), options.noise, random.Random(7)))
        return
    program = os.environ["LRITSTATION"]
    table_of_frames(program, options.steps, options.frames, options.satdump)
    if options.draws and options.folder:
        table_of_images(program, options.folder, options.draws)


if __name__ == "__main__":
    main()
