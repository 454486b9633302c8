"""Recordings of complex samples, I and Q: what they say of themselves, and the line that leads them to files.

A head of WAV or RIFF64, SigMF's metadata beside a file, or a rate in the file's name gives the rate of samples; else
the usual ones are tried. The demodulator is $LRITDEMOD, or else `lritdemod` on the path.
"""

import json
import os
import re
import shlex
import subprocess
from collections.abc import Callable, Iterator
from typing import NamedTuple

DOWNLINKS = {"goes-hrit": "--line nrz-m --g2 plain", "gk2a-lrit": "--g2 plain", "goes-lrit": "--g2 plain"}
RATES = (2.4e6, 2.048e6, 2.5e6, 3e6, 1.024e6, 6e6)  # of the usual radios
FORMS = {"cu8": "u8", "ci8": "s8", "ci16_le": "s16", "cf32_le": "f32"}
METADATA = ".sigmf-meta"
TRIED_BYTES = 8_000_000
SECONDS = 60  # of a call of the demodulator
RATE_IN_NAME = re.compile(r"(?<![\d.])(\d+(?:\.\d+)?)\s*(M|k)?(?:sps|SPS|Sps|S/s|Hz|HZ)(?![a-z])")


class Recording(NamedTuple):
    """What is known of a recording."""

    options: tuple[str, ...]  # of the demodulator, by which it reads the recording
    rates: tuple[float, ...]  # that may be; none where the recording says it


def name() -> str:
    return os.environ.get("LRITDEMOD", "lritdemod")


def is_wave(data: bytes) -> bool:
    return data[:4] in (b"RIFF", b"RF64") and data[8:12] == b"WAVE"


def metadata_of(path: str) -> str | None:
    """SigMF's metadata beside a recording."""
    base, extension = os.path.splitext(path)
    found = base + METADATA
    return found if extension in (".sigmf-data", METADATA) and os.path.isfile(found) else None


def has_metadata(path: str) -> bool:
    """Whether they have a rate, and a form that is read."""
    try:
        with open(path, encoding="utf-8") as it:
            stated = json.loads(it.read(1_000_000))["global"]
        return stated["core:datatype"] in FORMS and float(stated["core:sample_rate"]) > 0
    except (OSError, ValueError, KeyError, TypeError, RecursionError):
        return False


def rates_of(path: str) -> tuple[float, ...]:
    """The rate in a file's name, or the usual ones."""
    match = RATE_IN_NAME.search(os.path.basename(path))
    if not match:
        return RATES
    rate = float(match[1]) * {"M": 1e6, "k": 1e3, None: 1.0}[match[2]]
    return (rate,) if 1e5 <= rate <= 1e8 else RATES


def forms_of(data: bytes, are_floats: bool) -> list[str]:
    """The forms that the samples may have."""
    if are_floats:
        return ["f32"]
    middle = sum(data) / max(1, len(data))
    spread = sum(abs(it - middle) for it in data) / max(1, len(data))
    bytes_ = ["u8"] if 120 <= middle <= 135 and spread < 64 else ["s8"]
    return ["s16", *bytes_]


def recordings_of(path: str, data: bytes, are_floats: bool) -> Iterator[Recording]:
    """What a file may be, by its head, by what stands beside it, and by its bytes."""
    metadata = metadata_of(path)
    if metadata and has_metadata(metadata):
        yield Recording(("--sigmf", metadata), ())
    elif is_wave(data):
        yield Recording((), ())
    else:
        for form in forms_of(data, are_floats):
            yield Recording(("--format", form), rates_of(path))


def symbols_of(data: bytes, words: list[str]) -> bytes:
    """The soft symbols; none where the demodulator isn't there, or refuses the words."""
    try:
        call = [name(), "--quiet", *words]
        done = subprocess.run(call, input=data, capture_output=True, timeout=SECONDS, check=False)
    except (OSError, subprocess.SubprocessError):
        return b""
    return done.stdout


def line_of(path: str, data: bytes, are_floats: bool, locks: Callable[[bytes, str], bool]) -> str | None:
    """The line that leads a recording of complex samples to a shelf, or None where none of those that are tried locks.
    `locks` says whether symbols give frames under these options of `receive`."""
    for recording in recordings_of(path, data[:65_536], are_floats):
        for rate in recording.rates or (0.0,):
            stated = ["--rate", f"{rate:.0f}"] if rate else []
            for downlink, options in DOWNLINKS.items():
                words = [*stated, *recording.options, "--downlink", downlink]
                symbols = symbols_of(data, words)
                if symbols and locks(symbols, options):
                    call = " ".join(map(shlex.quote, ["lritdemod", *words]))
                    return f"{call} < {shlex.quote(path)} | lritstation my.shelf receive {options}"
    return None
