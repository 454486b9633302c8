"""Why nothing was found in a file that was to be a recording. The page (packaging/web) has the same reasons in the same
order; tools/tests/reasons.json has cases for both.
"""

from collections.abc import Iterable
from typing import NamedTuple

from . import xrit

FRAME_SYMBOLS = 16_384
SHORT_BYTES = 40_000
LEAST_WEAK_FRAMES = 8  # (a marker that is found in noise is kept for four)
LEAST_WEAK_SHARE = 0.1  # of the frames that the symbols may hold
MIDDLE, MOST_SPREAD = (120, 135), 56  # of unsigned bytes of a radio
WAVE_CHANNELS = 22  # where a WAV has their number
SIGNATURES = {
    b"\xff\xd8\xff": "jpeg",
    b"\x89PNG\r\n\x1a\n": "png",
    b"GIF8": "gif",
    b"%PDF-": "pdf",
    b"PK\3\4": "zip",
}
TEXTS = {
    "empty": "The file is empty.",
    "short": "The file is very short.",
    "jpeg": "This is a JPEG picture, not a recording.",
    "png": "This is a PNG picture, not a recording.",
    "gif": "This is a GIF picture, not a recording.",
    "pdf": "This is a PDF document, not a recording.",
    "zip": "This is a zip, not a recording.",
    "lrit": "This is an LRIT file, not a recording.",
    "radio": "This seems to be a recording of the radio itself, not of symbols. "
    "A demodulator, such as lritdemod or SatDump, makes symbols of it first.",
    "weak": "A signal is there ({how}, {frames} frames), but too weak: no frame could be restored.",
    "noise": "Nothing that this receiver knows was found in the file. It may be noise, or something else.",
}


class Heard(NamedTuple):
    """What a line code found in some symbols, though it restored no frame."""

    how: str
    frames: int
    symbols: int

    @property
    def is_signal(self) -> bool:
        return self.frames >= max(LEAST_WEAK_FRAMES, LEAST_WEAK_SHARE * self.symbols / FRAME_SYMBOLS)


def sure_reason(front: bytes, size: int) -> str | None:
    """Why a file is no recording, where its first bytes say so."""
    if not size:
        return "empty"
    for signature, reason in SIGNATURES.items():
        if front.startswith(signature):
            return reason
    return "lrit" if xrit.is_mission_file(front, size) else None


def has_two_channels(front: bytes) -> bool:
    """Whether it is a WAV of two channels, as radios write I and Q."""
    is_wave = front[:4] in (b"RIFF", b"RF64") and front[8:12] == b"WAVE"
    return is_wave and front[WAVE_CHANNELS : WAVE_CHANNELS + 2] == b"\2\0"


def are_samples(front: bytes) -> bool:
    """Whether these are unsigned bytes around the middle, as an RTL-SDR gives them."""
    mean = sum(front) / len(front)
    spread = sum(abs(it - mean) for it in front) / len(front)
    return MIDDLE[0] <= mean <= MIDDLE[1] and 1 < spread < MOST_SPREAD


def reason_of(front: bytes, size: int, heard: Iterable[Heard], are_numbers: bool = False) -> tuple[str, Heard | None]:
    """Why nothing was found, and where a signal is too weak what was heard of it. `are_numbers` says that the file
    looks like numbers of several bytes, and that these were tried as symbols too."""
    if sure := sure_reason(front, size):
        return sure, None
    if has_two_channels(front):
        return "radio", None
    signals = sorted((it for it in heard if it.is_signal), key=lambda it: it.frames, reverse=True)
    if signals:
        return "weak", signals[0]
    if size < SHORT_BYTES:
        return "short", None
    return "radio" if are_numbers or are_samples(front) else "noise", None


def text_of(front: bytes, size: int, heard: Iterable[Heard]) -> str:
    """The same in words."""
    reason, signal = reason_of(front, size, heard)
    return TEXTS[reason].format(how=signal.how, frames=signal.frames) if signal else TEXTS[reason]
