#!/usr/bin/env python3
"""The sending half of a radio link in GNU Radio: symbols become BPSK in baseband and go through a channel with noise.

Usage: radio.py SYMBOLS FORM: reads a signed byte a symbol, and writes to standard output complex samples, four a
symbol, in the form f32 or u8 of `lritdemod`.
"""
import sys

import numpy
from gnuradio import blocks, channels, filter, gr
from gnuradio.filter import firdes
from numpy.typing import NDArray

Samples = NDArray[numpy.complex64]

SAMPLES = 4  # a symbol
ROLL_OFF = 0.5
TAPS = 11 * SAMPLES
NOISE = 1.4  # volts; a clean sample of a symbol has 1
OFFSET = 0.0005  # cycles a sample
DRIFT = 1.00002  # samples of the sender a sample of the receiver
LEVEL = 20  # of an unsigned byte, for a volt
MIDDLE = 127.5


def levels(path: str) -> Samples:
    """What is sent: 20,000 drawn levels, by which the loops settle, the symbols, and 2,000 levels to push them through
    the filters."""
    drawn = numpy.random.default_rng(1).choice([-1.0, 1.0], 22000)
    symbols = numpy.sign(numpy.fromfile(path, numpy.int8).astype(numpy.float32))
    sent: Samples = numpy.concatenate([drawn[:20000], symbols, drawn[20000:]]).astype(numpy.complex64)
    return sent


def samples(symbols: str) -> Samples:
    graph, sink = gr.top_block(), blocks.vector_sink_c()
    graph.connect(
        blocks.vector_source_c(levels(symbols).tolist()),
        filter.interp_fir_filter_ccf(SAMPLES, firdes.root_raised_cosine(SAMPLES, SAMPLES, 1.0, ROLL_OFF, TAPS)),
        channels.channel_model(NOISE, OFFSET, DRIFT, [complex(0.8, 0.6)], 1),
        sink,
    )
    graph.run()
    return numpy.array(sink.data(), numpy.complex64)


def main(symbols: str, form: str) -> None:
    values = samples(symbols).view(numpy.float32)
    if form == "u8":
        values = numpy.clip(numpy.round(LEVEL * values + MIDDLE), 0, 255).astype(numpy.uint8)
    sys.stdout.buffer.write(values.tobytes())


main(*sys.argv[1:])
