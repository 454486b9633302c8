#!/usr/bin/env python3
"""files.py PROGRAM FOLDER: the files that the trials of the page need: README's sample and its recording, the same with
noise and in other forms, drawn recordings, and shelves that are damaged or hostile."""

from __future__ import annotations

import array
import io
import random
import subprocess
import sys
from pathlib import Path

TOP = Path(__file__).resolve().parents[2]
sys.path.insert(0, str(TOP / "tools"))
from tests import support as made  # noqa: E402

program, folder = sys.argv[1], Path(sys.argv[2])
CODE = ["--line", "nrz-m", "--g2", "plain"]
DRAWN = 40
FRAME_BYTES, ROOM = 892, 1_000_000
FRAME_SYMBOLS = 16384
LACKING = (140, 193, 328, 363, 389, 417)  # frames of README's recording, in place of which there are drawn symbols
MARKER = bytes.fromhex("1ACFFC1D")
PARITY_BYTES = 1024 - 4 - FRAME_BYTES
FORM_BYTES = 2_500_000  # of the recording that is turned into other forms
SEGMENTS = 65535
PICTURES, COLUMNS, LINES = 40, 5424, 2712
HOSTILE_NAME = b"<img src=x onerror=\"document.title='owned'\"><script>document.title='owned'</script>"


def run(shelf: str, *words: str, given: bytes = b"") -> bytes:
    path = shelf if shelf == "-" else str(folder / shelf)
    done = subprocess.run([program, path, *words], input=given, capture_output=True)
    assert done.returncode == 0, (words, done.stderr)
    return done.stdout


def write(name: str, data: bytes) -> None:
    (folder / name).write_bytes(data)


def noisy(symbols: bytes, level: float, noise: float, seed: int) -> bytes:
    """Symbols at a level, with Gaussian noise whose deviation is `noise` times the level."""
    draw = random.Random(seed)
    table = [draw.gauss(0, noise * level) for _ in range(1 << 16)]
    places = array.array("H", draw.randbytes(2 * len(symbols)))
    heights = [level * (it if it < 128 else it - 256) / 64 for it in range(256)]
    return bytes(max(-127, min(127, round(heights[it] + table[at]))) & 255 for it, at in zip(symbols, places))


def recordings() -> None:
    sample = subprocess.run([TOP / "tools/bin/gomtasil", "sample"], stdout=subprocess.PIPE, check=True).stdout
    write("frames", sample)
    write("none", b"")
    write("garbage", b"garbage")
    run("sent.shelf", "init", str(ROOM))
    run("sent.shelf", "receive", "--input", "frames", given=sample)
    recording = run("sent.shelf", "transmit", "0", "6", "8", *CODE)
    write("recording", recording)
    write("plain.soft", run("sent.shelf", "transmit", "0", "2", "0"))
    run("empty.shelf", "init", str(ROOM))
    run("small.shelf", "init", "200000")
    run("my.shelf", "init", str(ROOM))
    run("my.shelf", "receive", *CODE, given=recording)
    run("my.shelf", "discard", "3")
    write("earth.pgm", run("sent.shelf", "assemble", "0", "6", "313", "1"))
    lacking = bytearray(recording)
    for frame in LACKING:
        drawn = random.Random(frame).choices((40, 216), k=FRAME_SYMBOLS)
        lacking[frame * FRAME_SYMBOLS : (frame + 1) * FRAME_SYMBOLS] = bytes(drawn)
    write("lacking", bytes(lacking))
    damaged = bytearray((folder / "my.shelf").read_bytes())
    damaged[len(damaged) // 3] ^= 1
    write("damaged.shelf", bytes(damaged))
    whole = (folder / "my.shelf").read_bytes()
    write("torn.shelf", whole[: len(whole) * 2 // 3])
    write("cut", recording[1_000_003:2_200_000])
    write("part", run("-", "make", "1", "4", "0"))
    write("noise", random.Random(1).randbytes(2_000_000))
    write("weak", noisy(recording[:4_000_000], 48, 1.6, 4))
    write("noisy0.7", noisy(recording[:4_000_000], 48, 0.7, 2))
    write("noisy1.0", noisy(recording[:2_000_000], 48, 1.0, 3))
    for number in range(DRAWN):
        stream = run("-", "make", str(100 * number), "12", str(number % 17), "--output", "symbols")
        write(f"drawn{number:02}", noisy(stream, 48, 0.3 + 0.02 * number, number)[number:])


def forms() -> None:
    """The recording's first part in each form that the page turns."""
    symbols = array.array("b", (folder / "recording").read_bytes()[:FORM_BYTES])
    rough = array.array("b", noisy(symbols.tobytes(), 48, 0.3, 5))
    write("form.unsigned", bytes((it + 128) & 255 for it in rough))
    write("form.bits", bytes(it > 0 for it in symbols))
    bits = "".join("1" if it > 0 else "0" for it in symbols)
    write("form.packed", int(bits[: len(bits) // 8 * 8], 2).to_bytes(len(bits) // 8, "big"))
    shorts = array.array("h", (it * 120 for it in rough))
    floats = array.array("f", (it / 40 for it in rough))
    numbers: list[tuple[str, array.array[int] | array.array[float]]] = [("s16", shorts), ("f32", floats)]
    for name, values in numbers:
        write(f"form.{name}le", values.tobytes())
        values.byteswap()
        write(f"form.{name}be", values.tobytes())
    frames = (folder / "frames").read_bytes()
    write("form.frames", frames)
    cadus = (MARKER + frames[at : at + FRAME_BYTES] + bytes(PARITY_BYTES) for at in range(0, len(frames), FRAME_BYTES))
    write("form.cadu", b"".join(cadus))


def others() -> None:
    """Files that are no recordings."""
    write("other.jpeg", bytes.fromhex("ffd8ffe000104a464946") + bytes(100_000))
    write("other.zip", made.zip_of(("readme.txt", b"no recording")))
    write("other.pdf", b"%PDF-1.7\n" + bytes(100_000))
    draw = random.Random(8)
    form = (16).to_bytes(4, "little") + bytes((1, 0, 2, 0)) + (48_000).to_bytes(4, "little") + bytes(8)
    samples = draw.randbytes(400_000)
    write("other.wav", b"RIFF" + (400_036).to_bytes(4, "little") + b"WAVEfmt " + form + b"data" + bytes(4) + samples)


def given() -> None:
    """Files as other programs save them: alone, in a zip, and one whose lines are coded."""
    files = [run("sent.shelf", "extract", str(it)) for it in range(6)]
    for number, data in enumerate(files):
        write(f"given{number}.lrit", data)
    write("given.zip", made.zip_of(*((f"{it}.lrit", data) for it, data in enumerate(files)), ("about.txt", b"no file")))
    run("coded.shelf", "init", str(ROOM))
    run("coded.shelf", "receive", "--input", "frames", given=(folder / "frames").read_bytes())
    run("coded.shelf", "repack", "1", "16")
    write("coded.lrit", run("coded.shelf", "extract", "6"))


def many_pictures() -> None:
    """A shelf of 40 pictures of 5,424 columns, a quarter of an hour apart."""
    structure = (8, COLUMNS, LINES)
    with open(folder / "pictures.shelf", "wb") as shelf:
        shelf.write(made.header())
        for number in range(PICTURES):
            row = bytes((column // 8 + 5 * number) % 256 for column in range(COLUMNS))
            name = made.record(4, b"OR_ABI-C13_s2026333%02d%02d000.lrit" % divmod(15 * number, 60))
            stamp = made.stamp(25169, 900_000 * number)
            shelf.write(b"\1" + made.added(number, made.image(*structure, row * LINES, more=[name, stamp])))
        shelf.write(b"\0")


def bomb() -> bytes:
    packed: bytes = made.zip_of(("bomb", bytes(300_000_000)))
    return packed


def many() -> bytes:
    packed: bytes = made.zip_of(*((f"{it}", b"x") for it in range(5000)))
    return packed


def hostile() -> None:
    """Names with markup, zips that swell, pictures that say of too much, and what is no picture."""
    markup = b"<img src=x onerror=\"document.title='owned'\">\r\n<script>document.title='owned'</script>\r\n"
    nested = made.zip_of(("../../<b>up</b>.txt", markup), ("in.zip", made.zip_of(("a", markup))))
    png = bytes.fromhex("89504e470d0a1a0a0000000d49484452ffffffffffffffff0800000000")
    jpeg = bytes.fromhex("ffd8ffe000104a46494600010100000100010000ffc0000b08ffffffff01011100")
    inside = [
        made.text_file(HOSTILE_NAME, markup),
        made.text_file(b"\xff\xfe\x00../../etc/passwd\n", b"\xe2\x80\xaeturned"),
        made.text_file(b"long", b"line of a long text\r\n" * 40_000),
        made.text_file(b"nested.zip", nested),
        made.text_file(b"bomb.zip", bomb()),
        made.text_file(b"many.zip", many()),
        made.text_file(b"cut.zip", nested[:-10]),
        made.image(8, 65535, 65535, b"few", more=[made.record(4, HOSTILE_NAME)]),
        made.image(8, 8, 8, png, more=[made.record(4, b"huge.png")]),
        made.image(8, 8, 8, jpeg, more=[made.record(4, b"broken.jpg")]),
        made.image(0, 0, 0, b"", more=[made.record(4, b"nothing")]),
        made.image(8, 1, 1, b"x", more=[made.noaa(1, 0, 0, 65535, 65535, 65535)]),
        made.proper(0, [made.record(4, b"bare")], b"data"),
        b"\0" * 20,
    ]
    items = [made.added(number, it) for number, it in enumerate(inside)]
    write("hostile.shelf", made.shelf_of(items))
    parts = (
        made.added(it, made.image(8, 1, 1, bytes([it % 256]), more=[made.noaa(9, it, it, SEGMENTS, 1, SEGMENTS)]))
        for it in range(SEGMENTS)
    )
    write("segments.shelf", made.shelf_of(list(parts)))


def jpeg_strips() -> None:
    """Three strips of JPEG in ELEKTRO's form, where Pillow is there."""
    if not made.HAS_PILLOW:
        return
    from PIL import Image

    items = []
    for number in (1, 2, 3):
        out = io.BytesIO()
        Image.new("L", (64, 16), 60 * number).save(out, "JPEG", quality=95)
        more = [made.record(4, f"L_{number:06}".encode()), made.planned(6, number, 1, 3)]
        items.append(made.added(number, made.image(8, 64, 16, out.getvalue(), 2, more)))
    write("strips.shelf", made.shelf_of(items))


if __name__ == "__main__":
    recordings()
    forms()
    others()
    given()
    many_pictures()
    hostile()
    jpeg_strips()
