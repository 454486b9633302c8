"""What SatDump made of the files that `satdump.sh` sent, next to what it should have made.

Usage: satdump.py all STATION PIPELINE, in a folder with the shelf `shelf`, its list `listed`, and the folder PIPELINE
that SatDump wrote; satdump.py frames, which writes the frames of a file with a picture; satdump.py picture STATION
PIPELINE, for file 1 of `other.shelf`. It has its own reader of PNG.
"""

import struct
import subprocess
import sys
import zlib
from pathlib import Path

import make
import uplink
from downlink import primary, record, transport
from drawn import big
from pictures import shape_of

Picture = tuple[int, int, bytes]  # columns, lines, pixels

CADU, MARKER, FRAME = 1024, 4, 892


def files(packets: list[bytes]) -> list[list[bytes]]:
    """The bodies of each file of these packets."""
    found: list[list[bytes]] = []
    for packet in packets:
        flags, body = packet[2] >> 6, packet[6:-2]
        if flags in (1, 3):
            found.append([])
        found[-1].append(body)
    return found


def printed(*words: str) -> bytes:
    return subprocess.run([sys.argv[2], *words], stdout=subprocess.PIPE, check=True).stdout


def pixels_of_png(data: bytes) -> Picture:
    """Columns, lines and the pixels of a PNG of 8 bits a pixel without colours."""
    place, packed = 8, b""
    while place < len(data):
        size, kind = struct.unpack(">I4s", data[place : place + 8])
        if kind == b"IHDR":
            columns, lines, bits, colour = struct.unpack(">IIBB", data[place + 8 : place + 18])
            assert (bits, colour) == (8, 0), (bits, colour)
        if kind == b"IDAT":
            packed += data[place + 8 : place + 8 + size]
        place += size + 12
    lines_read, before = list[bytes](), [0] * columns
    raw = zlib.decompress(packed)
    for y in range(lines):
        kind, *line = raw[(columns + 1) * y : (columns + 1) * (y + 1)]
        for x in range(columns):
            left, up, corner = (line[x - 1], before[x], before[x - 1]) if x else (0, before[x], 0)
            guess = left + up - corner
            paeth = min((abs(guess - value), place, value) for place, value in enumerate((left, up, corner)))[2]
            line[x] = (line[x] + [0, left, up, (left + up) // 2, paeth][kind]) % 256
        lines_read.append(bytes(line))
        before = line
    return columns, lines, b"".join(lines_read)


def pixels_of_pgm(data: bytes) -> Picture:
    kind, size, most, pixels = data.split(b"\n", 3)
    assert (kind, most) == (b"P5", b"255")
    columns, lines = map(int, size.split())
    return columns, lines, pixels


def all_pictures(folder: str) -> list[Picture]:
    return [pixels_of_png(path.read_bytes()) for path in Path(folder, "IMAGES").glob("**/*.png")]


def frames_of_a_picture() -> bytes:
    """The frames of a file with a smooth picture of 64 columns and lines, and a record of NOAA that says it is coded."""
    pixels = bytes((3 * x * x + 5 * y + x * y // 7) // 9 % 256 for y in range(64) for x in range(64))
    noaa = record(129, b"NOAA" + big(2, 16) + big(2, 1) + big(2, 0) + bytes([1]))
    records = shape_of(8, 64, 64, 0) + noaa
    proper = primary(0, 16 + len(records), 8 * len(pixels)) + records + pixels
    whole = transport(7, 8 * len(proper)) + proper
    bodies = [whole[:60]] + [whole[place : place + 512] for place in range(60, len(whole), 512)]
    return b"".join(uplink.Sender().frames(0, 100, bodies))


def compare_picture(folder: str) -> bool:
    same = all_pictures(folder) == [pixels_of_pgm(printed("other.shelf", "export", "1"))]
    print(f"{folder}: the picture that was coded anew is {'the same' if same else 'another one'}")
    return same


def compare_all(folder: str) -> bool:
    # a file of the list by its channel and counter
    stream = {0: files(make.image_stream(1, 8 * 4651)), 5: files(make.text_stream(1, 64 * 245))}
    listed = [line.split() for line in Path("listed").read_text().splitlines() if line.startswith("file ")]
    sender, sent = uplink.Sender(), list[bytes]()
    texts: dict[str, bytes] = {}
    pictures: list[Picture] = []
    for words in listed:
        number, vc, apid, counter = words[1], int(words[3]), int(words[5]), int(words[7])
        sent += sender.frames(vc, apid, stream[vc][counter])
        if vc == 5:
            texts["TEXT%04d" % counter] = printed("shelf", "extract", number)
        else:
            pictures.append(pixels_of_pgm(printed("shelf", "export", number)))
    cadus = Path(folder, f"{folder}.cadu").read_bytes()
    theirs = {cadus[place + MARKER : place + MARKER + FRAME] for place in range(0, len(cadus), CADU)}
    frames = sum(frame in theirs for frame in sent)
    written = [Path(folder, "LRIT", name) for name in texts]
    same = sum(path.exists() and path.read_bytes() == texts[path.name] for path in written)
    found = all_pictures(folder)
    equal = sum(picture in found for picture in pictures)
    counts = f"{frames} of {len(sent)} frames, {same} of {len(texts)} text files, {equal} of {len(pictures)} pictures"
    print(f"{folder}: {counts}")
    return (frames, same, equal) == (len(sent), len(texts), len(pictures)) and len(found) == len(pictures)


what = sys.argv[1]
if what == "frames":
    sys.stdout.buffer.write(frames_of_a_picture())
elif not (compare_picture if what == "picture" else compare_all)(sys.argv[3]):
    sys.exit(1)
