#!/usr/bin/env python3
"""The test stream, by a plain and slow program of its own.

Written from docs/STREAM.md alone: whole files, whole channel streams, cut into zones afterwards; each symbol is summed
up from the bits before it. Words are encoded by the division of blocks.py. It shares no code with the crates.

    make.py START FRAMES WRONG

prints the checksum (CRC-16, x^16+x^12+x^5+1, from FFFF) of each frame, of each block and of the symbols of each frame
(a symbol of -100 counts as the byte 9C), and then the checksums of all frames, of all blocks and of all symbols. With
no arguments it prints those of a few streams.
"""

import sys

from downlink import NONE, ZONE, block, checked, flags_of, frame, frames_of, packet, primary, record, symbols_of
from downlink import transport
from drawn import Draw, big, crc


def image_stream(start: int, size: int) -> list[bytes]:
    """Packets of channel 0, with at least this number of bytes."""
    draw, packets = Draw(start), list[bytes]()
    k = 0
    while sum(map(len, packets)) < size:
        structure = record(1, bytes([8]) + big(2, 64) + big(2, 64) + bytes(1))
        file = primary(0, 25, 32768) + structure + draw.bytes(4096)
        assert 8 * len(file) == 32968
        whole = transport(k, 32968) + file
        bodies = [whole[:35]] + [whole[35 + 64 * j : 99 + 64 * j] for j in range(64)]
        for j, body in enumerate(bodies):
            packets.append(packet(100, flags_of(j, 65), (65 * k + j) % 16384, checked(body)))
        k += 1
    return packets


def text_stream(start: int, size: int) -> list[bytes]:
    draw, packets = Draw(start + 1), list[bytes]()
    k = 0
    while sum(map(len, packets)) < size:
        text = bytes(32 + byte % 64 for byte in draw.bytes(200))
        file = primary(2, 27, 1600) + record(4, b"TEXT%04d" % (k % 10000)) + text
        assert 8 * len(file) == 1816
        packets.append(packet(200, 3, k % 16384, checked(transport(k, 1816) + file)))
        k += 1
    return packets


def frames(start: int, count: int) -> list[bytes]:
    quarter = count // 4 + 1
    images = frames_of(0, image_stream(start, ZONE * 2 * quarter), 0, 2 * quarter)
    texts = frames_of(5, text_stream(start, ZONE * quarter), 0, quarter)
    fill = [frame(63, t, NONE - 1, bytes(ZONE)) for t in range(quarter)]
    return [
        (images[2 * (i // 4)], images[2 * (i // 4) + 1], texts[i // 4], fill[i // 4])[i % 4]
        for i in range(count)
    ]


def show(start: int, count: int, wrong: int) -> None:
    all_frames = frames(start, count)
    all_blocks = [block(one, wrong) for one in all_frames]
    all_symbols = symbols_of(all_blocks)
    print(f"start {start} frames {count} wrong {wrong}")
    for i, (one, sent) in enumerate(zip(all_frames, all_blocks)):
        symbols = all_symbols[16384 * i : 16384 * (i + 1)]
        print(f"  {i}: {crc(one):04X} {crc(sent):04X} {crc(symbols):04X} {one[:24].hex()}")
    print(f"  all: {crc(b''.join(all_frames)):04X} {crc(sum(all_blocks, [])):04X} {crc(all_symbols):04X}")


if __name__ == "__main__":
    if len(sys.argv) == 4:
        show(*map(int, sys.argv[1:]))
    else:
        show(1, 12, 0)
        show(1, 5, 16)
        show(2**64 - 1, 4, 3)
