#!/usr/bin/env python3
"""Pictures of many shapes, as the transfer frames that carry them: for trials/pictures.sh.

    pictures.py frames       writes the frames, in which each picture is a file, in order
    pictures.py list         a line for each picture: its number, what it is, W H and the greatest pixel
    pictures.py values N     the pixels of picture N, a row a line, as netpbm's pamtable writes them but for its widths
    pictures.py whole        the pixels of the picture that the segments make

The pixels are drawn. It shares no code with the crates: the packets and frames are made by reference/downlink.py, the
coded lines by reference/lines.py, from their definitions alone. PYTHONPATH names the folder of both.
"""

import sys

import lines
from downlink import frames_of_files, primary, record, transport
from drawn import big

# bits, columns, lines, and of coded ones the samples of a block and the lines of a piece
PLAIN = [(1, 13, 7), (2, 9, 5), (4, 15, 6), (7, 10, 3), (8, 31, 20), (9, 17, 4), (10, 33, 21), (12, 7, 7),
         (15, 5, 9), (16, 40, 12)]
CODED = [(8, 33, 9, 16, 4), (10, 100, 7, 32, 3), (12, 65, 5, 8, 1), (16, 20, 6, 64, 6)]
# The segments of an image of 40 columns and 30 lines: start column, start line, columns, lines. The last two overlap.
WHOLE = (10, 40, 30)
SEGMENTS = [(0, 0, 40, 10), (0, 10, 40, 10), (5, 15, 20, 15)]


def drawn(start: int, bits: int, columns: int, count: int) -> list[list[int]]:
    return [list(row) for row in lines.drawn_lines(bits, columns, count, start)]


def pictures() -> list[tuple[str, int, list[list[int]]]]:
    """What each picture is, its bits, and its rows."""
    found: list[tuple[str, int, list[list[int]]]] = []
    for bits, columns, count in PLAIN:
        found.append(("plain", bits, drawn(len(found) + 1, bits, columns, count)))
    for bits, columns, count, block, each in CODED:
        found.append((f"coded {block} {each}", bits, drawn(len(found) + 1, bits, columns, count)))
    for column, line, columns, count in SEGMENTS:
        found.append((f"segment {column} {line}", WHOLE[0], drawn(len(found) + 1, WHOLE[0], columns, count)))
    return found


def shape_of(bits: int, columns: int, count: int, compression: int) -> bytes:
    return record(1, bytes([bits]) + big(2, columns) + big(2, count) + bytes([compression]))


def bodies(number: int) -> list[bytes]:
    """The bodies of the file of this picture: its header in the first, then its data in pieces."""
    what, bits, rows = pictures()[number]
    words = what.split()
    coded = words[0] == "coded"
    records = shape_of(bits, len(rows[0]), len(rows), int(coded))
    if coded:
        block, each = int(words[1]), int(words[2])
        records += record(131, big(2, 49) + bytes([block, each]))
        groups = [rows[k : k + each] for k in range(0, len(rows), each)]
        data = [lines.packed("".join(lines.code_line(row, bits, block) for row in group)) for group in groups]
    else:
        pixels = lines.packed("".join(format(pixel, f"0{bits}b") for row in rows for pixel in row))
        data = [pixels[k : k + 100] for k in range(0, len(pixels), 100)]
    if words[0] == "segment":
        fields = [1, number, int(words[1]), int(words[2]), len(SEGMENTS), WHOLE[1], WHOLE[2]]
        records += record(128, b"".join(big(2, field) for field in fields))
    length = sum(map(len, data))
    header = primary(0, 16 + len(records), 8 * length) + records
    return [transport(number, 8 * (len(header) + length)) + header, *data]


def whole() -> list[list[int]]:
    _, columns, count = WHOLE
    canvas = [[0] * columns for _ in range(count)]
    for what, _, rows in pictures():
        if what.startswith("segment"):
            column, line = map(int, what.split()[1:])
            for place, row in enumerate(rows):
                canvas[line + place][column : column + len(row)] = row
    return canvas


def main(words: list[str]) -> None:
    if words == ["frames"]:
        sys.stdout.buffer.writelines(frames_of_files(1, 300, map(bodies, range(len(pictures())))))
    elif words == ["list"]:
        for number, (what, bits, rows) in enumerate(pictures()):
            print(f"{number} {len(rows[0])} {len(rows)} {2**bits - 1} {what}")
    elif words == ["whole"] or words[:1] == ["values"]:
        for row in whole() if words == ["whole"] else pictures()[int(words[1])][2]:
            print(*row)
    else:
        sys.exit("usage: pictures.py frames | list | values N | whole")


if __name__ == "__main__":
    main(sys.argv[1:])
