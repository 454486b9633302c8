#!/usr/bin/env python3
"""Tries `lritdemod` on a signal that is made here, beside the symbols that were sent.

Usage: demod.py DEMODULATOR STATION [REFUSE]. STATION sends the files and receives them again. REFUSE is a library that
refuses one request for memory (refuse.c), for the part that needs it. Or demod.py samples SYMBOLS FORM, which writes
the samples of a file of symbols alone, 2,500,000 for 1,000,000 symbols.
"""

import cmath
import json
import math
import os
import random
import struct
import subprocess
import sys
import tempfile
import time
from array import array
from collections.abc import Iterator
from pathlib import Path

RATE, SYMBOLS = 2_500_000, 1_000_000  # a second
EACH = RATE / SYMBOLS
PHASES = 5  # samples after which the pulse stands at the same place of a symbol again, two symbols later
REACH = 8  # symbols to each side
ROLL_OFF = 0.4
OFFSET = 0.004  # turns a sample
ES_N0 = 5.0  # dB
LEVEL = 0.2
LEAD, TAIL = 20_000, 200  # drawn symbols before and after the frames
FILES = 6
LINE = ["--line", "nrz-m", "--g2", "plain"]
FORMS = {"u8": ("B", 127.5, 128.0), "s8": ("b", 0.0, 127.0), "s16": ("h", 0.0, 32767.0), "f32": ("f", 0.0, 1.0)}
REFUSED = """--rate much
--rate 0
--rate 1e6
--symbols nan
--format u16
--roll-off 2
--scale 128
--range 1e6
--carrier-loop 1
--clock-loop 0
--downlink none
--status /no/such/folder/file
--sigmf /no/such/file
--speed 1""".splitlines()
BLOCK = 16_384  # samples of the demodulator's block
WAITED = 0.1  # seconds after which a live signal's symbols are there


def pulse(t: float) -> float:
    """The root raised cosine, t symbols from its middle."""
    if abs(t) < 1e-9:
        return 1 - ROLL_OFF + 4 * ROLL_OFF / math.pi
    divisor = 1 - (4 * ROLL_OFF * t) ** 2
    if abs(divisor) < 1e-9:
        angle = math.pi / 4 / ROLL_OFF
        return ROLL_OFF / 2**0.5 * ((1 + 2 / math.pi) * math.sin(angle) + (1 - 2 / math.pi) * math.cos(angle))
    x = math.pi * t
    return (math.sin(x * (1 - ROLL_OFF)) + 4 * ROLL_OFF * t * math.cos(x * (1 + ROLL_OFF))) / (x * divisor)


def samples_of(symbols: list[int]) -> list[complex]:
    """The signal with its noise."""
    draw = random.Random(2)
    taps = [[pulse(n / EACH - k) for k in range(-REACH, REACH + int(PHASES / EACH) + 1)] for n in range(PHASES)]
    padded = [0] * REACH + symbols + [0] * (REACH + int(PHASES / EACH) + 1)
    sigma = math.sqrt(EACH / 10 ** (ES_N0 / 10) / 2)
    made, turn, step = [], 1 + 0j, cmath.exp(2j * math.pi * OFFSET)
    for start in range(0, len(symbols) - 1, 2):
        window = padded[start : start + len(taps[0])]
        for row in taps:
            level = sum(map(float.__mul__, row, map(float, window)))
            made.append(LEVEL * (level * turn + complex(draw.gauss(0, sigma), draw.gauss(0, sigma))))
            turn *= step
    return made


def written(samples: list[complex], form: str) -> bytes:
    code, middle, scale = FORMS[form]
    values = (part for sample in samples for part in (sample.real, sample.imag))
    if form == "f32":
        return array("f", values).tobytes()
    low, high = (0, 255) if form == "u8" else (-int(scale) - 1, int(scale))
    return array(code, (min(high, max(low, round(value * scale + middle))) for value in values)).tobytes()


def wave(form: str, data: bytes, is_long: bool) -> bytes:
    """A WAV file of these samples; a long one has its sizes in RIFF64's chunk."""
    number, bits = (3, 32) if form == "f32" else (1, 8 if form == "u8" else 16)
    chunk = b"fmt " + struct.pack("<IHHIIHH", 16, number, 2, RATE, RATE * bits // 4, bits // 4, bits)
    if is_long:
        sizes = b"ds64" + struct.pack("<IQQQI", 28, len(data) + 80, len(data), len(data) // 2, 0)
        return b"RF64\xff\xff\xff\xffWAVE" + sizes + chunk + b"data\xff\xff\xff\xff" + data + b"LIST\4\0\0\0none"
    head = b"RIFF" + struct.pack("<I", len(data) + 36) + b"WAVE" + chunk
    return head + b"data" + struct.pack("<I", len(data)) + data + b"LIST\4\0\0\0none"


def levels_of(symbols: bytes) -> list[int]:
    """The levels of soft symbols, with drawn ones before and after them."""
    draw = random.Random(1)
    ends = [[draw.choice((-1, 1)) for _ in range(count)] for count in (LEAD, TAIL)]
    return [*ends[0], *(1 if level > 0 else -1 for level in array("b", symbols)), *ends[1]]


class Trial:
    """The programs, a folder, and what was sent."""

    def __init__(self, demodulator: str, station: str, folder: Path) -> None:
        self.demodulator, self.station, self.folder = demodulator, station, folder
        self.sent = folder / "sent.shelf"
        subprocess.run([station, str(self.sent), "trial", "1", str(FILES + 1), "0"], check=True, capture_output=True)
        words = [station, str(self.sent), "transmit", "0", str(FILES), "0", *LINE]
        made = subprocess.run(words, check=True, capture_output=True)
        self.samples = samples_of(levels_of(made.stdout))

    def run(self, words: list[str], data: bytes) -> subprocess.CompletedProcess[bytes]:
        return subprocess.run([self.demodulator, *words], input=data, capture_output=True, check=False, timeout=300)

    def demodulated(self, words: list[str], data: bytes) -> bytes:
        run = self.run(words, data)
        assert run.returncode == 0, (words, run.returncode, run.stderr)
        return run.stdout

    def check_received(self, soft: bytes, what: str) -> None:
        """Each file comes back with its bytes."""
        shelf = self.folder / "soft.shelf"
        shelf.unlink(missing_ok=True)
        subprocess.run([self.station, str(shelf), "init", "1000000"], check=True, capture_output=True)
        subprocess.run([self.station, str(shelf), "receive", *LINE], input=soft, check=True, capture_output=True)
        for number in range(FILES):
            words = [[self.station, str(path), "extract", str(number)] for path in (self.sent, shelf)]
            sent, came = (subprocess.run(one, capture_output=True, check=False) for one in words)
            assert sent.stdout == came.stdout and came.returncode == 0, (what, number)


def rates(form: str) -> list[str]:
    return ["--rate", str(RATE), "--symbols", str(SYMBOLS), "--format", form]


def try_forms(trial: Trial) -> None:
    for form in FORMS:
        data = written(trial.samples, form)
        soft = trial.demodulated(rates(form), data)
        trial.check_received(soft, form)
        if form != "s8":
            for is_long in (False, True):
                head = trial.demodulated(["--symbols", str(SYMBOLS)], wave(form, data, is_long))
                assert head == soft, (form, is_long)
    print(f"{FILES} files come back from each of {len(FORMS)} forms; WAV and RIFF64 give the same symbols")


def try_metadata(trial: Trial) -> None:
    data = written(trial.samples, "s16")
    path = trial.folder / "recording.sigmf-meta"
    path.write_text(json.dumps({"global": {"core:datatype": "ci16_le", "core:sample_rate": RATE}}))
    told = trial.demodulated(["--symbols", str(SYMBOLS), "--sigmf", str(path)], data)
    assert told == trial.demodulated(rates("s16"), data)
    for text in ("{", "{}", '{"global": {"core:datatype": "rf32_le", "core:sample_rate": 1}}'):
        path.write_text(text)
        run = trial.run(["--symbols", str(SYMBOLS), "--sigmf", str(path)], data)
        assert run.returncode == 2 and b"--sigmf" in run.stderr, text
    print("SigMF's metadata give the rate and the form")


def try_statuses(trial: Trial) -> None:
    data = written(trial.samples, "u8")
    soft = trial.demodulated(rates("u8"), data)
    torn = trial.run(rates("u8"), data + b"\x80")
    assert torn.returncode == 0 and torn.stdout == soft and b"inside a sample" in torn.stderr, torn.stderr
    refused = [word.split() for word in REFUSED]
    for words in refused:
        kept = [pair for pair in zip(rates("u8")[::2], rates("u8")[1::2]) if pair[0] != words[0]]
        run = trial.run([word for pair in kept for word in pair] + words, data)
        assert run.returncode == 2 and words[0].encode() in run.stderr and not run.stdout, (words, run.stderr)
    for left_out in ("--rate", "--symbols", "--format"):
        kept = [pair for pair in zip(rates("u8")[::2], rates("u8")[1::2]) if pair[0] != left_out]
        run = trial.run([word for pair in kept for word in pair], data)
        assert run.returncode == 2 and left_out.encode() in run.stderr, (left_out, run.stderr)
    words = [trial.demodulator, *rates("u8")]
    folder = os.open("/", os.O_RDONLY)
    assert subprocess.run(words, stdin=folder, capture_output=True, check=False).returncode == 3
    os.close(folder)
    with open("/dev/full", "wb") as full:
        assert subprocess.run(words, input=data, stdout=full, stderr=subprocess.PIPE, check=False).returncode == 5
    assert trial.run(["--help"], b"").returncode == 0
    print(f"statuses 0, 2 ({len(refused) + 3} times), 3 and 5")


def try_lines(trial: Trial) -> None:
    """The lines of JSON say what was sent."""
    path = trial.folder / "status"
    trial.demodulated([*rates("s16"), "--quiet", "--status", str(path)], written(trial.samples, "s16"))
    lines = [json.loads(line) for line in path.read_text().splitlines()]
    last = lines[-1]
    assert last["locked"] and abs(last["es_n0_db"] - ES_N0) < 0.5, last
    assert abs(last["carrier_hz"] - OFFSET * RATE) < 50 and abs(last["clock_ppm"]) < 20, last
    assert last["clipped_percent"] < 1 and -15 < last["level_db"] < 0, last
    assert abs(last["seconds"] - len(trial.samples) / RATE) < 0.11, last
    print(f"--status: Es/N0 {last['es_n0_db']} dB, carrier {last['carrier_hz']} Hz, clock {last['clock_ppm']} ppm")


def try_drawn_bytes(trial: Trial) -> None:
    """After drawn bytes, NaN and infinities it locks again."""
    draw = random.Random(3)
    for form in FORMS:
        words = {"u8": 0, "s8": 0, "s16": 0, "f32": 4}[form]
        absurd = struct.pack("<f", math.nan) * 4 * BLOCK + struct.pack("<f", math.inf) * 4 * BLOCK if words else b""
        data = written(trial.samples, form)
        noise = draw.randbytes(64 * BLOCK)
        # (it takes the signal up within the first of two)
        count = int(len(trial.samples) / EACH)
        for before in (noise + absurd, data + absurd + noise):
            trial.check_received(trial.demodulated(rates(form), before + data + data)[-count:], form)
    print("drawn bytes in each form, NaN and infinities are no fault, and it locks again")


def pieces(data: bytes, size: int) -> Iterator[bytes]:
    return (data[at : at + size] for at in range(0, len(data), size))


def try_live(trial: Trial) -> None:
    """While the input stays open and is silent, the symbols of all that came are there."""
    data = written(trial.samples, "u8")
    path = trial.folder / "live"
    words = [trial.demodulator, *rates("u8"), "--quiet"]
    with path.open("wb") as out, subprocess.Popen(words, stdin=subprocess.PIPE, stdout=out) as live:
        assert live.stdin is not None
        for piece in pieces(data, 65536):
            live.stdin.write(piece)
            live.stdin.flush()
        time.sleep(1.0)
        came = path.stat().st_size
        live.stdin.close()
    want = (len(trial.samples) - BLOCK) / EACH - 64
    assert came >= want and BLOCK / RATE < WAITED, (came, want)
    print(f"of {len(trial.samples)} live samples all but those of the last {BLOCK} have given their symbols")


def try_memory(trial: Trial, refuse: str) -> None:
    """One request for memory is refused in each run: it does its work, or ends with 9 and the beginning of its
    symbols."""
    data = written(trial.samples[: 8 * BLOCK], "u8")
    whole = trial.demodulated(rates("u8"), data)
    refusals = trial.folder / "refused"
    for number in range(1, 1000):
        refusals.unlink(missing_ok=True)
        told = {**os.environ, "LD_PRELOAD": refuse, "REFUSE": str(number), "REFUSED": str(refusals)}
        run = subprocess.run([trial.demodulator, *rates("u8")], input=data, capture_output=True, check=False, env=told)
        if not refusals.exists():
            print(f"statuses 9 and 0 where one of {number - 1} requests for memory is refused")
            assert number > 5
            return
        assert run.returncode in (0, 9) and whole.startswith(run.stdout), (number, run.returncode)
        assert run.returncode == 9 or run.stdout == whole, number


def main() -> None:
    if sys.argv[1] == "samples":
        sys.stdout.buffer.write(written(samples_of(levels_of(Path(sys.argv[2]).read_bytes())), sys.argv[3]))
        return
    demodulator, station = sys.argv[1:3]
    with tempfile.TemporaryDirectory() as folder:
        trial = Trial(demodulator, station, Path(folder))
        try_forms(trial)
        try_metadata(trial)
        try_statuses(trial)
        try_lines(trial)
        try_drawn_bytes(trial)
        try_live(trial)
        if len(sys.argv) > 3:
            try_memory(trial, sys.argv[3])


if __name__ == "__main__":
    main()
