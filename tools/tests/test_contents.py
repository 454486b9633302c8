"""Texts, pictures in files, and everything else, as people open it."""

import os
import random
from collections.abc import Iterator
from typing import Any

from .support import (
    Case,
    added,
    image,
    named,
    needs_pillow,
    needs_program,
    packed_bits,
    pixels_of_png,
    read,
    record,
    shelf_of,
    station,
    taken,
    write,
    zip_of,
)

JPEG, GIF, PNG = b"\xff\xd8\xff\xe0jpeg\0\1", b"GIF89a\1\0", b"\x89PNG\r\n\x1a\n\0"
BULLETIN = b"\x01\r\r\n123 \r\r\nTTAA00 KWBC\r\r\nSHIP\x1b[31m 5\r\nEND\rx\x03"
LOSSLESS = record(131, b"\0\x20\x10\1")
# files, the names that what is inside them gets, and what that is; None: the whole file
OPENED = [
    (named(b"GTS.lrit", 1, BULLETIN), "GTS.txt", b"\n123 \nTTAA00 KWBC\nSHIP[31m 5\nEND\nx"),
    (named(b"UTF", 2, "café\n".encode()), "UTF.txt", "café\n".encode()),
    (named(b"LATIN.TXT.lrit", 2, b"caf\xe9"), "LATIN.TXT", "café".encode()),
    (named(b"TURNED", 2, "a\u202eb\u200bc".encode()), "TURNED.txt", b"abc"),
    (named(b"DCS", 130, b"\0\1\2"), "DCS.bin", b"\0\1\2"),
    (named(b"WORDS", 130, b"words"), "WORDS.txt", b"words"),
    (named(b"EMPTY", 2, b""), "EMPTY.txt", b""),
    (named(b"J", 0, JPEG, record(1, b"\x08\0\2\0\2\2")), "J.jpg", JPEG),
    (named(b"G.gif", 2, GIF), "G.gif", GIF),
    (named(b"P", 2, PNG), "P.png", PNG),
    (named(b"ONE", 2, zip_of(("b.txt", b"one\r\r\n"))), "ONE-b.txt", b"one\n"),
    (named(b"NOKEY", 2, b"text", record(7, b"\0")), "NOKEY.txt", b"text"),
    (named(b"KEY", 2, b"text", record(7, b"\1")), "KEY.lrit", None),
    (image(8, 9, 9, b"short"), "file.lrit", None),
    (image(0, 9, 9, b"none"), "file.lrit", None),
    (image(8, 65535, 65535, b"x"), "file.lrit", None),
    (image(8, 65535, 65535, b"x", 1, [LOSSLESS]), "file.lrit", None),
    (b"\0\0\x10\2\0\0\0\xff" + bytes(8), "file.lrit", None),
    (b"", "file.lrit", None),
]


@needs_pillow
class Contents(Case):
    def test_what_is_inside(self) -> None:
        write("inside.shelf", shelf_of([added(number, it) for number, (it, _, _) in enumerate(OPENED)]))
        self.call("contents", "inside.shelf", "inside")
        found = {int(path.split("-")[3]): (path.split("-", 4)[4], data) for path, data in taken("inside").items()}
        for number, (file, name, wanted) in enumerate(OPENED):
            self.assertEqual(found[number], (name, file if wanted is None else wanted))

    def test_a_zip_of_two_files(self) -> None:
        write("two.shelf", shelf_of([added(0, named(b"TWO", 2, zip_of(("a", b"one"), ("b.gif", GIF))))]))
        self.call("contents", "two.shelf", "two", "--flat")
        self.assertEqual(taken("two"), {"TWO/a.txt": b"one", "TWO/b.gif": GIF})

    def test_depths(self) -> None:
        """The pixels are scaled, and are the same again by the bits that sBIT says."""
        draws, drawn = random.Random(1), []
        for bits in range(1, 17):
            values = [draws.randrange(2**bits) for _ in range(23 * 5)]
            drawn.append((bits, values, image(bits, 23, 5, packed_bits(values, bits))))
        write("depths.shelf", shelf_of([added(number, it) for number, (_, _, it) in enumerate(drawn)]))
        self.call("contents", "depths.shelf", "depths")
        for (bits, values, _), (_, data) in zip(drawn, sorted(taken("depths").items())):
            columns, lines, depth, significant, pixels = pixels_of_png(data)
            most, top = 2**bits - 1, 2**depth - 1
            self.assertEqual((columns, lines, depth), (23, 5, 8 if bits <= 8 else 16))
            self.assertEqual(significant, None if bits == depth else bytes([bits]))
            self.assertEqual(pixels, [it * top // most for it in values], f"the pixels of {bits} bits")
            self.assertEqual([it >> depth - bits for it in pixels], values)


def drawn_images() -> Iterator[Any]:
    draws = random.Random(2)
    for bits, columns, lines in [(8, 40, 30), (10, 64, 20), (12, 34, 7), (16, 20, 20), (5, 32, 9), (7, 24, 5)]:
        places = ((x, y) for y in range(lines) for x in range(columns))
        values = [min(2**bits - 1, (x * 3 + y * 5) * 2**bits // 400 + draws.randrange(3)) for x, y in places]
        names = [record(4, b"IMAGE_%d" % bits), record(3, b"$HALFTONE")]
        yield image(bits, columns, lines, packed_bits(values, bits), 0, names)


@needs_program
class Coded(Case):
    """Images that are coded without loss, by the program's repack."""

    def setUp(self) -> None:
        super().setUp()
        self.plain = list(drawn_images())
        write("coded.shelf", shelf_of([added(number, it) for number, it in enumerate(self.plain)]))
        for number in range(len(self.plain)):
            station("coded.shelf", "repack", str(number), "16")
        self.without = {**os.environ, "LRITSTATION": "/nowhere/lritstation"}

    def test_plain_files_are_the_same(self) -> None:
        for number, it in enumerate(self.plain):
            self.call("plain", "coded.shelf", str(number + len(self.plain)), "plain")
            self.assertEqual(read("plain"), it)
        self.call("plain", "coded.shelf", str(len(self.plain)), "never", status=1, env=self.without)
        self.call("plain", "coded.shelf", "99", "never", status=1)
        self.assertFalse(os.path.exists("never"), "nothing stands after a refusal")

    @needs_pillow
    def test_pictures_are_the_same(self) -> None:
        self.call("contents", "coded.shelf", "coded")
        found = {int(path.split("-")[3]): data for path, data in taken("coded").items()}
        for number in range(len(self.plain)):
            self.assertEqual(found[number], found[number + len(self.plain)])
            self.assertTrue(found[number].startswith(b"\x89PNG"))

    @needs_pillow
    def test_without_the_program(self) -> None:
        _, said = self.call("contents", "coded.shelf", "bare", env=self.without)
        count = len(self.plain)
        self.assertEqual(said.count("/nowhere/lritstation exports no image of it"), count)
        endings = sorted(os.path.splitext(path)[1] for path in taken("bare"))
        self.assertEqual(endings, count * [".lrit"] + count * [".png"])
