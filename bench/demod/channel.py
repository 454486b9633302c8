"""A radio link: symbols become BPSK with root raised cosine pulses, at any rate of samples, with a cheap receiver's
faults.

Each sample is the sum of the pulses at its own time (48 symbols of the pulse, at 1/2,048 of a symbol), so no rate is
favoured. Noise is white over the whole band of the samples, and its density alone says what Es/N0 is: the receiver has
to filter.

Usage: python3 -m demod.channel FORM < SYMBOLS > SAMPLES, which has the samples of soft symbols in the standard setting.
"""

import sys

from collections.abc import Iterator
from dataclasses import dataclass

import numpy
from numpy.typing import ArrayLike, NDArray

from .frames import Soft

Reals = NDArray[numpy.float32]
Complexes = NDArray[numpy.complex64]

HALF, FINE = 24, 2048  # symbols of the pulse to each side, and the places of a symbol
PART = 1 << 17  # samples that are made at once
FADE_EDGE = 0.005  # seconds
ENDS = 20_000  # drawn symbols before and after those that are given


@dataclass(frozen=True)
class Fade:
    start: float  # seconds
    length: float  # seconds
    depth: float  # dB


@dataclass(frozen=True)
class Link:
    """A sender, its way and a receiver."""

    rate: float = 2.4e6
    symbols: float = 927e3
    es_n0: float = 6.0  # dB
    offset: float = 7000.0  # of the carrier, Hz
    drift: float = 30.0  # Hz a second
    wobble: float = 0.0  # Hz, twice a second
    ppm: float = 20.0  # of the clock
    linewidth: float = 1.0  # of the oscillator's random walk, Hz
    roll_off: float = 0.3
    gain: float = 0.0  # dB of slow changes, with steps of 3 dB
    constant: float = 0.05  # of the rms of all
    imbalance: float = 0.0  # dB between Q and I
    skew: float = 0.0  # degrees that they are off a right angle
    spur: float = 0.0  # Hz, of a strong carrier
    spur_level: float | None = None  # dB over the signal; none: no such carrier
    late: int = 0  # symbols of noise before the signal
    fades: tuple[Fade, ...] = ()
    flips: tuple[int, ...] = ()  # symbols at which the sender's polarity turns
    gap: tuple[int, int] | None = None  # the first sample that is dropped, and how many are
    form: str = "f32"
    level: float = 30.0  # rms of all, in steps of eight bits
    seed: int = 1


def pulse(times: ArrayLike, roll_off: float) -> NDArray[numpy.float64]:
    """The root raised cosine of unit energy, at these times in symbols."""
    t = numpy.asarray(times, float)
    x = numpy.pi * t
    with numpy.errstate(divide="ignore", invalid="ignore"):
        rising = numpy.sin(x * (1 - roll_off)) + 4 * roll_off * t * numpy.cos(x * (1 + roll_off))
        h = rising / (x * (1 - (4 * roll_off * t) ** 2))
    h[t == 0] = 1 - roll_off + 4 * roll_off / numpy.pi
    angle = numpy.pi / 4 / roll_off
    edge = (1 + 2 / numpy.pi) * numpy.sin(angle) + (1 - 2 / numpy.pi) * numpy.cos(angle)
    h[numpy.isclose(abs(t), 1 / (4 * roll_off))] = roll_off / 2**0.5 * edge
    return numpy.asarray(h)


def shaped(symbols: Reals, each: float, first: float, roll_off: float) -> Reals:
    """The real signal: samples at the times first, first + 1 / each, .. in symbols."""
    places = numpy.arange(FINE + 1)[:, None] / FINE + (HALF - 1) - numpy.arange(2 * HALF)[None, :]
    table = pulse(places, roll_off).astype(numpy.float32)
    padded = numpy.concatenate([numpy.zeros(HALF, numpy.float32), symbols, numpy.zeros(HALF + 2, numpy.float32)])
    windows = numpy.lib.stride_tricks.sliding_window_view(padded, 2 * HALF)
    count = int((len(symbols) - first) * each)
    made = numpy.empty(count, numpy.float32)
    for at in range(0, count, PART):
        t = first + numpy.arange(at, min(count, at + PART)) / each
        whole = numpy.floor(t).astype(numpy.int64)
        fine = numpy.rint((t - whole) * FINE).astype(int)
        made[at : at + len(t)] = numpy.einsum("ij,ij->i", windows[whole + 1], table[fine])
    return made


def faded(signal: Reals, link: Link) -> Reals:
    time = numpy.arange(len(signal)) / link.rate
    for fade in link.fades:
        inside = numpy.minimum(time - fade.start, fade.start + fade.length - time)
        edge = numpy.clip(inside / FADE_EDGE, 0, 1)
        signal = signal * (10 ** (-fade.depth * edge / 20)).astype(numpy.float32)
    return signal


def turned(signal: Reals, link: Link, draw: numpy.random.Generator) -> Complexes:
    """At its carrier, with the oscillator's drift and noise."""
    time = numpy.arange(len(signal)) / link.rate
    turns = link.offset * time + link.drift * time**2 / 2
    turns += link.wobble * numpy.sin(2 * numpy.pi * 2 * time) / (4 * numpy.pi)
    phase = (turns % 1.0) * 2 * numpy.pi
    if link.linewidth:
        steps = draw.standard_normal(len(signal))
        phase += numpy.cumsum(steps * (2 * numpy.pi * link.linewidth / link.rate) ** 0.5)
    return numpy.asarray(signal * numpy.exp(1j * (phase + 1.0)).astype(numpy.complex64))


def clean(symbols: Soft, link: Link, draw: numpy.random.Generator) -> Complexes:
    """The signal without noise, of power 1 (a symbol's energy is that of rate / symbols samples)."""
    sent = numpy.sign(symbols.astype(numpy.float32))
    for place in link.flips:
        sent[place:] *= -1
    each = link.rate / (link.symbols * (1 + link.ppm * 1e-6))
    made = shaped(sent, each, draw.uniform(), link.roll_off)
    if link.late:
        made = numpy.concatenate([numpy.zeros(int(link.late * link.rate / link.symbols), numpy.float32), made])
    signal = turned(faded(made, link), link, draw)
    if link.spur_level is not None:
        time = numpy.arange(len(signal)) / link.rate
        spur = numpy.exp(2j * numpy.pi * ((link.spur * time) % 1.0)).astype(numpy.complex64)
        signal = signal + spur * numpy.float32(10 ** (link.spur_level / 20))
    return signal


def sigma_of(link: Link) -> float:
    """The deviation of the noise in I and in Q, beside a signal of power 1."""
    return float((link.rate / link.symbols / 10 ** (link.es_n0 / 10) / 2) ** 0.5)


def unbalanced(samples: Complexes, link: Link) -> Complexes:
    """With the receiver's two ways apart in gain and angle."""
    if not link.imbalance and not link.skew:
        return samples
    angle = numpy.deg2rad(link.skew)
    q = samples.imag * numpy.cos(angle) + samples.real * numpy.sin(angle)
    return numpy.asarray(samples.real + 1j * q * 10 ** (link.imbalance / 20), numpy.complex64)


def received(signal: Complexes, link: Link, draw: numpy.random.Generator) -> Complexes:
    """With noise, changes of the gain and a constant, at an rms of 1; some of it dropped."""
    sigma = sigma_of(link)
    noise = draw.standard_normal(2 * len(signal), dtype=numpy.float32).view(numpy.complex64)
    samples = noise * numpy.float32(sigma) + signal
    if link.gain:
        time = numpy.arange(len(signal)) / link.rate
        decibels = link.gain * numpy.sin(2 * numpy.pi * 0.7 * time) + numpy.where((time % 4) > 2, 3.0, 0)
        samples = samples * (10 ** (decibels / 20)).astype(numpy.float32)
    samples = unbalanced(samples / numpy.float32((1 + 2 * sigma**2) ** 0.5), link)
    samples = samples + numpy.complex64(link.constant * (1 + 0.5j))
    if link.gap is not None:
        first, count = link.gap
        samples = numpy.concatenate([samples[:first], samples[first + count :]])
    return numpy.asarray(samples)


def written(samples: Complexes, link: Link) -> bytes:
    """As the radio's form."""
    values = samples.view(numpy.float32)
    if link.form == "f32":
        return bytes((values * numpy.float32(0.1)).data)
    if link.form == "s16":
        return bytes(numpy.clip(numpy.rint(values * link.level * 64), -32768, 32767).astype(numpy.int16).data)
    if link.form == "s8":
        return bytes(numpy.clip(numpy.rint(values * link.level), -128, 127).astype(numpy.int8).data)
    return bytes(numpy.clip(numpy.rint(values * link.level + 127.5), 0, 255).astype(numpy.uint8).data)


def noise(link: Link, seconds: int) -> Iterator[bytes]:
    """Noise alone, a second of bytes each time: of normal distribution by a table of 2^16 values."""
    draw = numpy.random.default_rng(link.seed)
    values = link.level * draw.standard_normal(1 << 16) + 127.5
    table = numpy.clip(numpy.rint(values), 0, 255).astype(numpy.uint8)
    for _ in range(seconds):
        yield table[draw.integers(0, 1 << 16, 2 * int(link.rate), dtype=numpy.uint16)].tobytes()


def ideal(symbols: Soft, es_n0: float, scale: float, draw: numpy.random.Generator) -> Soft:
    """The soft symbols of no radio at all: the levels with their noise."""
    sigma = numpy.float32((10 ** (-es_n0 / 10) / 2) ** 0.5)
    noise = draw.standard_normal(len(symbols), dtype=numpy.float32)
    values = numpy.sign(symbols.astype(numpy.float32)) + sigma * noise
    return numpy.asarray(numpy.clip(numpy.rint(values * scale), -127, 127), numpy.int8)


def main() -> None:
    link = Link(form=sys.argv[1])
    draw = numpy.random.default_rng(link.seed)
    symbols = numpy.frombuffer(sys.stdin.buffer.read(), numpy.int8)
    ends = [draw.choice([-100, 100], ENDS).astype(numpy.int8) for _ in range(2)]
    signal = clean(numpy.concatenate([ends[0], symbols, ends[1]]), link, draw)
    sys.stdout.buffer.write(written(received(signal, link, draw), link))


if __name__ == "__main__":
    main()
