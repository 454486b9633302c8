#!/usr/bin/env python3
"""gnuradio_sink.py SHELF FILE [OPTION..]: a flow graph of GNU Radio whose sink is the station: it receives the soft
symbols of FILE, signed bytes, onto a shelf, which is made if it isn't there, and prints each file once it stands there.
OPTION.. are those of `lritstation SHELF receive`, such as --line nrz-m --g2 plain. In a graph of your own, connect
`StationSink` to what gives soft symbols, a signed byte each; floats of about -1 to 1 go through
`blocks.float_to_char(1, 64)` first. Needs GNU Radio 3.10, the module gomtasil and the station's library."""

from __future__ import annotations

import queue
import sys
import threading
from collections.abc import Callable, Sequence
from typing import Any

import numpy
from gnuradio import blocks, gr  # type: ignore  # (it has no types)
from gomtasil import embedded

CAPACITY = 10**9  # bytes of a shelf that is made
MOST_WAITING = 64  # pieces that wait; then the graph waits too
WAIT_SECONDS = 1  # after which it looks whether the reception has ended


class Pieces:
    """Symbols that one thread puts and another one reads. Nothing is left out."""

    def __init__(self) -> None:
        self.waiting: queue.Queue[bytes] = queue.Queue(MOST_WAITING)
        self.rest = b""

    def read(self, most: int, /) -> bytes:
        """At most `most` bytes, as soon as there are any; none is the end."""
        if not self.rest:
            self.rest = self.waiting.get()
        piece, self.rest = self.rest[:most], self.rest[most:]
        return piece


class StationSink(gr.sync_block):  # type: ignore[misc]
    """Receives soft symbols onto a shelf, on a thread of its own, while the graph runs."""

    def __init__(self, path: str, options: Sequence[str], on_file: Callable[[embedded.Receipt], object]):
        super().__init__("station sink", in_sig=[numpy.int8], out_sig=None)
        self.path, self.options, self.on_file = path, options, on_file
        self.pieces = Pieces()
        self.received: embedded.Received | None = None
        self.fault: Exception | None = None
        self.thread = threading.Thread(target=self.receive, daemon=True)

    def receive(self) -> None:
        try:
            with embedded.open(self.path, create=CAPACITY) as shelf:
                self.received = shelf.receive(self.pieces, self.options, on_file=self.on_file)
        except Exception as fault:
            self.fault = fault

    def start(self) -> bool:
        self.thread.start()
        return True

    def put(self, piece: bytes) -> bool:
        """Hands on a piece, and waits where many are there. False where the reception has ended."""
        while self.thread.is_alive():
            try:
                self.pieces.waiting.put(piece, timeout=WAIT_SECONDS)
                return True
            except queue.Full:
                continue
        return False

    def work(self, input_items: Sequence[Any], output_items: Sequence[Any]) -> int:
        (piece,) = input_items
        return len(piece) if self.put(piece.tobytes()) else -1  # (which ends the graph)

    def stop(self) -> bool:
        self.put(b"")
        self.thread.join()
        return True


def main(path: str, recording: str, *options: str) -> int:
    graph = gr.top_block()
    sink = StationSink(path, options, lambda it: print(*it, flush=True))
    graph.connect(blocks.file_source(gr.sizeof_char, recording, False), sink)
    graph.run()
    if sink.fault or not sink.received:
        print(f"gnuradio_sink.py: {sink.fault}", file=sys.stderr)
        return 1
    print(sink.received.last)
    return 0


if __name__ == "__main__":
    if len(sys.argv) < 3:
        sys.exit(__doc__)
    sys.exit(main(*sys.argv[1:]))
