#!/usr/bin/python3
"""A BPSK receiver in GNU Radio: complex samples of a radio in, soft symbols out, a signed byte each.

Usage: gnuradio_usual.py --rate SAMPLES --symbols SYMBOLS [--form FORM] [--roll-off R] [--scale S] < IN > OUT

SAMPLES and SYMBOLS are a second, and SAMPLES at least twice SYMBOLS. FORM is how the samples come, I and Q in turn: u8
(unsigned bytes, as rtl_sdr writes them), s8, s16 or f32 (the default). The signal has to stand near the middle of the
band, to some thousandths of SAMPLES. R is the roll-off of the matched filter (0.5). A symbol of the mean size becomes S
(64).
"""
import argparse
from typing import Any

from gnuradio import analog, blocks, digital, filter, gr
from gnuradio.filter import firdes

SPAN = 11  # symbols that the matched filter spans
MIDDLE = 127.5  # of an unsigned byte


def samples_of(form: str) -> tuple[int, list[Any]]:
    """The size of what is read, and the blocks that lead from it to complex samples between -1 and 1."""
    if form == "f32":
        return gr.sizeof_gr_complex, []
    if form == "s16":
        return gr.sizeof_short, [blocks.interleaved_short_to_complex(False, False), blocks.multiply_const_cc(1 / 32768)]
    if form == "s8":
        return gr.sizeof_char, [blocks.interleaved_char_to_complex(False), blocks.multiply_const_cc(1 / 128)]
    # (as shorts of twice the value, since no block leads from unsigned bytes to complex samples)
    shorts = [blocks.uchar_to_float(), blocks.add_const_ff(-MIDDLE), blocks.float_to_short(1, 2)]
    pairs = blocks.interleaved_short_to_complex(False, False)
    return gr.sizeof_char, [*shorts, pairs, blocks.multiply_const_cc(1 / 256)]


def symbols_of(samples: float, symbols: float, roll_off: float, scale: float) -> list[Any]:
    """The blocks that lead from complex samples to soft symbols: matched filter, an even level, clock, carrier."""
    each = samples / symbols
    return [
        filter.fir_filter_ccf(1, firdes.root_raised_cosine(1.0, each, 1.0, roll_off, int(SPAN * each))),
        analog.agc_cc(1e-4, 1.0, 1.0),
        digital.symbol_sync_cc(digital.TED_GARDNER, each, 0.01, 1.0, 1.0, 1.5, 1),
        digital.costas_loop_cc(0.01, 2),
        blocks.complex_to_real(),
        blocks.float_to_char(1, scale),
    ]


def main() -> None:
    words = argparse.ArgumentParser(usage=__doc__)
    words.add_argument("--rate", type=float, required=True)
    words.add_argument("--symbols", type=float, required=True)
    words.add_argument("--form", choices=["u8", "s8", "s16", "f32"], default="f32")
    words.add_argument("--roll-off", type=float, default=0.5)
    words.add_argument("--scale", type=float, default=64)
    given = words.parse_args()
    size, first = samples_of(given.form)
    graph = gr.top_block()
    graph.connect(
        blocks.file_descriptor_source(size, 0),
        *first,
        *symbols_of(given.rate, given.symbols, given.roll_off, given.scale),
        blocks.file_descriptor_sink(gr.sizeof_char, 1),
    )
    graph.run()


if __name__ == "__main__":
    main()
