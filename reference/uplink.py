#!/usr/bin/env python3
"""The frames that files are sent in, and their symbols, by a plain and slow program of its own.

Each file begins a new frame of its channel. Its bodies become packets, one for each: flags 3 for a single body, else 1,
then 0, then 2; the sequence count starts at 0 for each channel and application and goes on through all files, modulo
16,384; the data field is the body and its checksum. Where r bytes of the last zone are left, an idle packet of r bytes
follows, or of r + 884 where r is 1 to 6: flags 3, count 0, zeros as data. Frames have version 01, spacecraft 7, replay
0, rest 0 and spare 0; counters start at 0 for each channel and go on modulo 16,777,216; the pointer is the least place
in the zone at which a packet starts, or 2047. The symbols of the marker and the block of each frame are those of one
encoder that begins after six levels 0 and runs on. It shares no code with the crates.

    uplink.py

prints the checksums (CRC-16, x^16+x^12+x^5+1, from FFFF) of the frames of three files, of those of drawn lists of
files, of files of many sizes, and of the symbols of a short file under each line code, with sixteen wrong bytes in each
word (a symbol of -100 counts as 9C).
"""

from collections.abc import Sequence

from downlink import ZONE, block, checked, flags_of, frames_of, idle, packet, symbols_of
from drawn import Draw, big, crc

SHORT = bytes([0, 7, 0, 0, 0, 0, 0, 0, 0, 136, 0, 0, 16, 2, 0, 0, 0, 16]) + bytes(8)


class Sender:
    """What was sent up to now: the next counter of each channel, and the next count of each application there."""

    def __init__(self) -> None:
        self.counters: dict[int, int] = {}
        self.counts: dict[tuple[int, int], int] = {}

    def packets(self, vc: int, apid: int, bodies: Sequence[bytes]) -> list[bytes]:
        made = []
        for place, body in enumerate(bodies):
            count = self.counts.get((vc, apid), 0)
            self.counts[vc, apid] = (count + 1) % 16384
            made.append(packet(apid, flags_of(place, len(bodies)), count, checked(body)))
        left = -sum(map(len, made)) % ZONE
        return made + [idle(left)] * (left > 0)

    def frames(self, vc: int, apid: int, bodies: Sequence[bytes]) -> list[bytes]:
        counter = self.counters.get(vc, 0)
        made = frames_of(vc, self.packets(vc, apid, bodies), counter)
        self.counters[vc] = (counter + len(made)) % 16777216
        return made

    def sums(self, vc: int, apid: int, bodies: Sequence[bytes]) -> bytes:
        """The checksums of the frames of a file."""
        return b"".join(big(2, crc(frame)) for frame in self.frames(vc, apid, bodies))


def drawn_size(draw: Draw) -> int:
    kind = draw.byte() % 4
    drawn = draw.byte()
    return [drawn % 8, drawn, 866 + drawn % 16, 7 * drawn][kind]


def drawn_file(draw: Draw) -> tuple[int, int, list[bytes]]:
    vc = 31 * (draw.byte() % 3)
    apid = [0, 100, 2046][draw.byte() % 3]
    more = draw.byte() % 12
    bodies = [draw.bytes(drawn_size(draw) + 10)]
    for _ in range(more):
        bodies.append(draw.bytes(drawn_size(draw)))
    return vc, apid, bodies


def drawn_sums(seed: int) -> bytes:
    draw, sender = Draw(seed), Sender()
    return b"".join(sender.sums(*drawn_file(draw)) for _ in range(seed % 5 + 1))


def main() -> None:
    for name, vc, body in (("short", 0, SHORT), ("873 bytes", 5, bytes([7] * 873))):
        for place, frame in enumerate(Sender().frames(vc, 100, [body])):
            print(f"{name} {place}: {crc(frame):04X} {frame[:14].hex(' ')}")
    for first, lists in ((0, 10), (10, 90), (100, 100)):
        sums = b"".join(drawn_sums(seed) for seed in range(first, first + lists))
        print(f"lists {first} to {first + lists - 1}: {len(sums) // 2} frames {crc(sums):04X}")
    sender, sizes = Sender(), (10, 65534, 876, 875, 874, 873, 872, 871, 870, 869, 877)
    sums = b"".join(sender.sums(0, 100, [bytes([7] * size)]) for size in sizes)
    print(f"single bodies: {len(sums) // 2} frames {crc(sums):04X}")
    sender = Sender()
    sums = b"".join(sender.sums(0, 100, [bytes([7] * 10)] + 999 * [b"\7"]) for _ in range(17))
    print(f"17 files of 1,000 bodies: {len(sums) // 2} frames {crc(sums):04X}")
    (frame,) = Sender().frames(0, 100, [SHORT])
    for marks in (False, True):
        for inverted in (1, 0):
            sent = symbols_of([block(frame, 16)], marks, inverted)
            print(f"marks {int(marks)} inverted {inverted}: {crc(sent):04X}")


if __name__ == "__main__":
    main()
