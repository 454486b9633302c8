#!/usr/bin/python3
"""A BPSK receiver in GNU Radio, with a wide catch: the carrier by band edges, then clock and matched filter in one,
then the phase.

Usage: gnuradio_wide.py --rate SAMPLES --symbols SYMBOLS [--form FORM] [--scale S] < IQ > SYMBOLS
"""

import argparse

from gnuradio import analog, blocks, digital, gr
from gnuradio.filter import firdes

from gnuradio_usual import samples_of

ROLL_OFF, FINE, SPAN = 0.3, 32, 22  # filters a sample, symbols of a filter
BAND_EDGE_LOOP, CLOCK_LOOP, CARRIER_LOOP = 0.0005, 0.001, 0.004


def main() -> None:
    words = argparse.ArgumentParser(usage=__doc__)
    words.add_argument("--rate", type=float, required=True)
    words.add_argument("--symbols", type=float, required=True)
    words.add_argument("--form", choices=["u8", "s8", "s16", "f32"], default="f32")
    words.add_argument("--scale", type=float, default=32)
    given = words.parse_args()
    each = given.rate / given.symbols
    size, first = samples_of(given.form)
    taps = int(SPAN * FINE * each) | 1
    bank = firdes.root_raised_cosine(FINE, FINE * given.rate, given.symbols, ROLL_OFF, taps)
    points = digital.constellation_bpsk().base()
    clock = digital.symbol_sync_cc(
        digital.TED_SIGNAL_TIMES_SLOPE_ML, each, CLOCK_LOOP, 1.0, 0.3, 1.5, 1, points, digital.IR_PFB_MF, FINE, bank
    )
    graph = gr.top_block()
    graph.connect(
        blocks.file_descriptor_source(size, 0),
        *first,
        analog.agc_cc(1e-4, 1.0, 1.0),
        digital.fll_band_edge_cc(each, ROLL_OFF, int(2 * SPAN * each) | 1, BAND_EDGE_LOOP),
        clock,
        analog.agc_cc(1e-3, 1.0, 1.0),
        digital.costas_loop_cc(CARRIER_LOOP, 2),
        blocks.complex_to_real(),
        blocks.float_to_char(1, given.scale),
        blocks.file_descriptor_sink(gr.sizeof_char, 1),
    )
    graph.run()


if __name__ == "__main__":
    main()
