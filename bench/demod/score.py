"""Soft symbols beside the symbols that were sent: where the first ones that agree stand, slips, polarity, and Es/N0."""

from dataclasses import dataclass

import numpy
from numpy.typing import NDArray

from .frames import Soft

Reals = NDArray[numpy.float32]

PART = 8192  # symbols that are compared at once
WINDOW = 512  # symbols that say where a receiver holds
AGREES = 0.4  # correlation from which on a part is the one that was sent
HOLDS = 0.35


@dataclass(frozen=True)
class Score:
    """What the parts that agree say."""

    es_n0: float  # dB, by the parts' median
    mean: float  # dB, by their mean
    slips: int
    flips: int
    parts: int  # that agree


def place_of(sent: Reals, soft: Reals, at: int, near: int | None) -> tuple[int, float]:
    """The place in `sent` of the part of `soft` at `at`, with the correlation there."""
    part = soft[at : at + PART]
    low = 0 if near is None else max(0, near - 4 * PART)
    there = sent if near is None else sent[low : near + 5 * PART]
    size = 1 << (len(there) + PART - 1).bit_length()
    product = numpy.fft.rfft(there, size) * numpy.conj(numpy.fft.rfft(part, size))
    found = numpy.fft.irfft(product, size)[: len(there)]
    best = int(numpy.argmax(abs(found)))
    return low + best, float(abs(found[best]) / (numpy.linalg.norm(part) * PART**0.5 + 1e-9))


def correlation(sent: Reals, part: Reals) -> float:
    return float((sent * part).mean() / (part.std() + 1e-9))


def scored(sent_symbols: Soft, soft_symbols: Soft) -> Score | None:
    """None where no part agrees."""
    sent, soft = numpy.sign(sent_symbols.astype(numpy.float32)), soft_symbols.astype(numpy.float32)
    lag: int | None = None
    polarity: bool | None = None
    slips = flips = 0
    ratios: list[float] = []
    for at in range(0, len(soft) - PART + 1, PART):
        part = soft[at : at + PART]
        place = -1 if lag is None else at + lag
        if not (0 <= place <= len(sent) - PART and abs(correlation(sent[place : place + PART], part)) > AGREES):
            place, strength = place_of(sent, soft, at, None if lag is None else max(0, at + lag))
            if strength < AGREES:
                continue
            if place + PART > len(sent):
                break
            slips += lag is not None and place - at != lag
            lag = place - at
        values = sent[place : place + PART] * part
        mean = float(values.mean())
        flips += polarity is not None and (mean > 0) != polarity
        polarity = mean > 0
        ratios.append(float(values.var()) / mean**2)
    if not ratios:
        return None
    decibels = [-10 * float(numpy.log10(2 * ratio)) for ratio in (numpy.median(ratios), numpy.mean(ratios))]
    return Score(decibels[0], decibels[1], slips, flips, len(ratios))


def lost_symbols(sent_symbols: Soft, soft_symbols: Soft) -> int | None:
    """The sent symbols before those from which on (for 4,000 at least) windows of 512 agree; none where none do."""
    sent, soft = numpy.sign(sent_symbols.astype(numpy.float32)), soft_symbols.astype(numpy.float32)
    for at in range(0, len(soft) - PART, PART):
        place, strength = place_of(sent, soft, at, None)
        if strength > AGREES:
            break
    else:
        return None
    lag = place - at
    low, high = max(0, -lag), min(len(soft), len(sent) - lag, at + PART)
    values = sent[low + lag : high + lag] * soft[low:high]
    count = len(values) // WINDOW
    means = abs(values[: count * WINDOW].reshape(count, WINDOW).mean(1))
    deviations = soft[low : low + count * WINDOW].reshape(count, WINDOW).std(1) + 1e-9
    bad = numpy.flatnonzero(means / deviations < HOLDS)
    return low + lag + (int(bad[-1] + 1) * WINDOW if len(bad) else 0)
