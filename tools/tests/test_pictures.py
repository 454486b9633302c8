"""Images of a shelf as pictures: names, segments of each form, holes, damage, colours, and the latest of each kind."""

import io
import os
import re
from typing import Any

from gomtasil import fill, shelf, xrit

from .support import (
    Case,
    Writer,
    added,
    big,
    children_seconds,
    content,
    image,
    needs_pillow,
    needs_program,
    noaa,
    numbered,
    packed_bits,
    pixels_of_png,
    planned,
    proper,
    read,
    reference,
    record,
    shelf_of,
    stamp,
    station,
    taken,
    write,
)
from .test_names import NAMES

STAMP, STAMPED = stamp(21915, 32420995), "20180101T090020Z"  # 1 January 2018, 09:00:20.995


def title(name: Any, number: Any, stamped: Any = True) -> Any:
    name = re.sub(r"\.lrit$", "", re.sub(rb"[^A-Za-z0-9._-]", b"_", name or b"")[:150].decode())
    return (f"{STAMPED}-" if stamped else "") + (re.sub(r"^[.-]", "_", name) or "image") + f"@pictures.{number}"


class Files:
    """Files in their order, and the pictures that are to come of them: size, bits, and the values of pixels."""

    def __init__(self) -> None:
        self.items: list[bytes] = []
        self.first: dict[str, Any] = {}
        self.both: dict[str, Any] = {}

    def add(
        self,
        name: Any,
        bits: Any,
        columns: Any,
        lines: Any,
        data: Any,
        *more: Any,
        stamped: Any = True,
        compression: Any = 0,
        application: Any = 100,
    ) -> Any:
        records = [] if name is None else [record(4, name)]
        records += ([STAMP] if stamped else []) + list(more)
        number = len(self.items)
        self.items.append(added(number, image(bits, columns, lines, data, compression, records), 1, application))
        return number

    def wanted(self, name: Any, columns: Any, lines: Any, bits: Any, values: Any, is_late: Any = False) -> None:
        if not is_late:
            self.first[name] = (columns, lines, bits, list(values))
        self.both[name] = (columns, lines, bits, list(values))

    def odd_names(self) -> None:
        more = [b"x@pictures.0", b"x\nrecord 4 length 9 text forged", b"* ? [a]", b"name.png"]
        for place, name in enumerate([*NAMES, *more]):
            stamped = place % 3 > 0
            values = bytes([place % 256, 2, 3, 4])
            self.wanted(title(name, self.add(name, 8, 2, 2, values, stamped=stamped), stamped), 2, 2, 8, values)

    def himawari(self) -> Any:
        """Two channels of three segments in turn, of 16 bits; of the latter the second one comes late."""
        rows = {(band, number): [256 * band + number] * 4 for band in (13, 14) for number in (1, 2, 3)}
        numbers = {}
        for number in (1, 2, 3):
            for band in (14, 13):
                if (band, number) != (13, 2):
                    numbers[band, number] = self.himawari_segment(rows, band, number)
        whole = {band: rows[band, 1] + rows[band, 2] + rows[band, 3] for band in (13, 14)}
        self.wanted(title(b"IMG_DK01B14_201801010900_001", numbers[14, 1]), 2, 6, 16, whole[14])
        lacking = title(b"IMG_DK01B13_201801010900_001", numbers[13, 1])
        self.first[f"{lacking}-lacks-1"] = (2, 6, 16, rows[13, 1] + 4 * [0] + rows[13, 3])
        self.both[lacking] = (2, 6, 16, whole[13])
        return rows

    def himawari_segment(self, rows: Any, band: Any, number: Any) -> Any:
        name = b"IMG_DK01B%d_201801010900_%03d" % (band, number)
        data = b"".join(big(2, it) for it in rows[band, number])
        return self.add(name, 16, 2, 2, data, numbered(number, 3, 2 * number - 1))

    def elektro(self) -> None:
        """Three segments of 4 columns, 1 line and 10 bits, numbered from 5 on; the last one comes first."""
        values, told = {5: [1, 2, 3, 1023], 6: [512, 0, 7, 9], 7: [4, 4, 4, 4]}, ""
        for number in (7, 5, 6):
            name = b"L-000-GOMS2_-GOMS2_4_____-00_6_076E-%06d___-201801010000-__" % number
            made = self.add(name, 10, 4, 1, packed_bits(values[number], 10), planned(6, number, 5, 7))
            told = title(name, made) if number == 7 else told
        self.wanted(told, 4, 3, 10, values[5] + values[6] + values[7])

    def goes(self) -> None:
        """Four segments of NOAA's form, of which the third never comes; a place that no segment covers is black."""
        told = ""
        for number in (0, 1, 3):
            made = self.add(
                b"OR_ABI_%d.lrit" % number, 8, 3, 1, bytes([number + 1] * 3), noaa(5, number, number, 4, 3, 4)
            )
            told = title(b"OR_ABI_0.lrit", made) if number == 0 else told
        self.wanted(f"{told}-lacks-1", 3, 4, 8, [1, 1, 1, 2, 2, 2, 0, 0, 0, 4, 4, 4])

    def odd_segments(self) -> None:
        """A number past the count, a range that ends before it begins, a count that is too large, and a whole that is:
        each is a picture of its own."""
        odd = [(numbered(9, 3, 1), 2, 1), (planned(1, 3, 4, 2), 2, 1), (planned(1, 2, 0, 65535), 2, 1)]
        for place, (part, columns, lines) in enumerate([*odd, (numbered(1, 255, 1), 2000, 600)]):
            name, values = b"odd_%d" % place, bytes([place + 7]) * (columns * lines)
            self.wanted(title(name, self.add(name, 8, columns, lines, values, part)), columns, lines, 8, values)

    def two_of_one_name(self) -> None:
        """Two channels whose segments have one name but for the application, as some senders name them."""
        for number in (1, 2):
            for application in (301, 302):
                values = bytes([application % 256, number])
                made = self.add(
                    b"SAME_%03d" % number, 8, 2, 1, values, numbered(number, 2, number), application=application
                )
                if number == 1:
                    self.wanted(title(b"SAME_001", made), 2, 2, 8, [application % 256, 1, application % 256, 2])

    def others(self) -> None:
        """An image as JPEG that is none, one that ends early, one without a structure, and a text."""
        self.add(b"wavelets", 8, 2, 2, b"\xff\x4f\xff", compression=2)
        self.add(b"short", 8, 200, 200, b"short")
        self.items.append(added(len(self.items), proper(0, [record(4, b"bare")], b"data")))
        self.items.append(added(len(self.items), proper(2, [record(4, b"text")], b"text")))


def found_in(folder: Any) -> Any:
    """The pictures of a folder, by their names: size, bits and values as they were before they were scaled."""
    found = {}
    for path, data in taken(folder).items():
        columns, lines, depth, significant, values = pixels_of_png(data)
        bits = significant[0] if significant else depth
        found[path.removesuffix(".png")] = (columns, lines, bits, [it >> depth - bits for it in values])
    return found


@needs_pillow
class Pictures(Case):
    def test_names_segments_and_what_comes_late(self) -> None:
        files = Files()
        for part in (
            files.odd_names,
            files.elektro,
            files.goes,
            files.odd_segments,
            files.two_of_one_name,
            files.others,
        ):
            part()
        rows = files.himawari()
        write("pictures.shelf", shelf_of(files.items))
        out, said = self.call("pictures", "pictures.shelf", "drawn")
        self.assertEqual(found_in("drawn"), files.first)
        self.assertEqual(len(out.splitlines()), len(files.first))
        self.assertIn("lacks-1: segments missing: 3", said)
        self.assertIn("lacks-1: segments missing: 2", said)
        self.assertIn("wavelets: file", said)
        self.assertIn("short: file", said)
        self.assertEqual(self.call("pictures", "pictures.shelf", "drawn")[0], "", "nothing is drawn twice")
        files.himawari_segment(rows, 13, 2)
        write("pictures.shelf", shelf_of(files.items))
        out, _ = self.call("pictures", "pictures.shelf", "drawn")
        self.assertEqual(found_in("drawn"), files.both)
        self.assertEqual(len(out.splitlines()), 1)

    def test_one_bad_record_hides_nothing_else(self) -> None:
        items = [added(it, image(8, 2, 2, bytes([it] * 4), 0, [record(4, b"I%d" % it)])) for it in range(3)]
        bad = bytearray(items[1])
        bad[-5] ^= 1
        write("bad.shelf", shelf_of([items[0], bytes(bad), items[2]]))
        out, said = self.call("pictures", "bad.shelf", "drawn", status=1)
        self.assertEqual(out.splitlines(), ["I0@bad.0.png", "I2@bad.2.png"])
        self.assertIn("file 1 of bad.shelf has a bad checksum", said)
        write("broken.shelf", shelf_of(items)[:-1] + b"\1\x7f")
        out, _ = self.call("pictures", "broken.shelf", "drawn")
        self.assertEqual(len(out.splitlines()), 3, "what stands before a break is drawn")

    def test_shelves_of_a_folder_and_words(self) -> None:
        os.mkdir("many")
        _, said = self.call("pictures", "many", "drawn", status=1)
        self.assertIn("no shelf yet", said)
        for name in ("one", "two"):
            write(f"many/{name}.shelf", shelf_of([added(0, image(8, 1, 1, b"x"))]))
        out, _ = self.call("pictures", "many", "drawn")
        self.assertEqual(out.splitlines(), ["image@one.0.png", "image@two.0.png"])
        self.call("pictures", "nowhere.shelf", "drawn", status=1)
        self.call("pictures", "many", status=2)

    def test_many_missing_segments_are_few_words(self) -> None:
        item = added(0, image(8, 1, 1, b"x", 0, [noaa(1, 0, 0, 65535, 1, 65535)]))
        write("hole.shelf", shelf_of([item]))
        before = children_seconds()
        out, said = self.call("pictures", "hole.shelf", "drawn")
        self.assertLess(children_seconds() - before, 10)
        self.assertEqual(out, "image@hole.0-lacks-65534.png\n")
        self.assertLess(len(said), 200)
        self.assertIn("segments missing: 2 to 65535", said)

    def test_strips_of_jpeg_are_joined(self) -> None:
        from PIL import Image

        def strip(level: Any) -> Any:
            out = io.BytesIO()
            Image.new("L", (64, 16), level).save(out, "JPEG", quality=95)
            return out.getvalue()

        items = []
        for number in (1, 2, 3):
            name = record(4, b"IMG_FD_001_IR105_20190620_000006_%02d" % number)
            records = [name, numbered(number, 3, 16 * number - 15)]
            items.append(added(number - 1, image(8, 64, 16, strip(60 * number), 2, records)))
        write("strips.shelf", shelf_of(items))
        out, _ = self.call("pictures", "strips.shelf", "drawn")
        columns, lines, _, _, values = pixels_of_png(read(f"drawn/{out.strip()}"))
        self.assertEqual((columns, lines), (64, 48))
        for number in (1, 2, 3):
            rows = values[64 * 16 * (number - 1) : 64 * 16 * number]
            self.assertTrue(all(abs(it - 60 * number) <= 2 for it in rows))

    def test_where_it_cannot_be_written(self) -> None:
        write("full.shelf", shelf_of([added(0, image(8, 300, 300, os.urandom(90000)))]))
        import resource

        def small() -> None:
            resource.setrlimit(resource.RLIMIT_FSIZE, (50_000, 50_000))

        from .support import COMMAND
        import subprocess

        done = subprocess.run([*COMMAND, "pictures", "full.shelf", "drawn"], capture_output=True, preexec_fn=small)
        self.assertEqual(done.returncode, 1)
        self.assertEqual(taken("drawn"), {})
        self.assertEqual(len(self.call("pictures", "full.shelf", "drawn")[0].splitlines()), 1)


def mended(words: Any) -> Any:
    return record(6, b"gomtasil mended " + words)


@needs_pillow
class Mended(Case):
    """Files that lacked packets are named so, and a segment that is whole is taken before one that isn't."""

    def segment(self, number: Any, level: Any, *more: Any) -> Any:
        name = record(4, b"OR_%d.lrit" % number)
        return image(8, 2, 1, bytes([level] * 2), 0, [name, noaa(1, number, number, 2, 2, 2), *more])

    def test_marks(self) -> None:
        for words, wanted in (
            (b"2 8-9 of 13", (3, 13)),
            (b"0 of 1", (1, 1)),
            (b"8-9 2 of 13", None),
            (b"2 2 of 13", None),
            (b"9-8 of 13", None),
            (b"13 of 13", None),
            (b"0-1023 of 2000", None),
            (b"0-1022 of 2000", (1023, 2000)),
            (b" of 13", None),
            (b"2  8 of 13", None),
            (b"-1 of 13", None),
            (b"2 of 13 ", None),
        ):
            with self.subTest(words):
                self.assertEqual(xrit.mended_of(b"gomtasil mended " + words), wanted and xrit.Mended(*wanted))

    def test_names_and_notes(self) -> None:
        old = mended(b"1-9 of 99")
        alone = image(8, 2, 1, b"ab", 0, [record(4, b"ALONE"), old, mended(b"2 8-9 of 13")])
        part = self.segment(0, 1, mended(b"3 of 10"))
        other = image(8, 2, 1, b"cd", 0, [record(4, b"OTHER"), record(6, b"gomtasil mended x")])
        write(
            "m.shelf", shelf_of([added(it, file) for it, file in enumerate((alone, part, self.segment(1, 2), other))])
        )
        out, said = self.call("pictures", "m.shelf", "drawn")
        wanted = ["ALONE@m.0-mended-3.png", "OR_0@m.1-mended-1.png", "OTHER@m.3.png"]
        self.assertEqual(out.splitlines(), wanted)
        self.assertIn("ALONE@m.0-mended-3: mended 3 of 13 packets", said)

    def test_a_whole_segment_is_taken_before_a_mended_one(self) -> None:
        writer = Writer("m.shelf")
        for number, file in enumerate((self.segment(0, 1, mended(b"3 of 10")), self.segment(1, 2))):
            writer.append(added(number, file))
        self.call("pictures", "m.shelf", "drawn")
        writer.append(added(2, self.segment(0, 7)))
        writer.append(added(3, self.segment(1, 9, mended(b"3 of 10"))))
        out, _ = self.call("pictures", "m.shelf", "drawn")
        self.assertEqual(out, "OR_0@m.0.png\n")
        self.assertEqual(found_in("drawn"), {"OR_0@m.0": (2, 2, 8, [7, 7, 2, 2])})


@needs_pillow
class Colours(Case):
    def setUp(self) -> None:
        super().setUp()
        self.writer = Writer("c.shelf")
        for number, (channel, level) in enumerate(((2, 100), (13, 220), (13, 20))):
            when = stamp(21915, 60_000 * (number // 2))
            name = b"OR_ABI-L2-CMIPF-M6C%02d_G16_s2026%d.lrit" % (channel, number)
            file = image(8, 4, 4, bytes([level] * 15 + [0]), 0, [record(4, name), when])
            self.writer.append(added(number, file))

    def test_a_table_of_colours(self) -> None:
        from PIL import Image

        out, _ = self.call("pictures", "c.shelf", "drawn", "--enhance", "*C13*=ir", "--enhance", "*=heat")
        (path,) = [it for it in out.splitlines() if it.endswith(".1-ir.png")]
        picture = Image.open(f"drawn/{path}").convert("RGB")
        red, green, blue = picture.getpixel((0, 0))
        self.assertTrue(red > 200 and green < 100 and blue < 50, "a cold top is red")
        self.assertEqual(picture.getpixel((3, 3)), (0, 0, 0))
        self.assertEqual(len([it for it in out.splitlines() if it.endswith("-heat.png")]), 3)
        self.assertEqual(self.call("pictures", "c.shelf", "drawn", "--enhance", "*C13*=ir")[0], "")
        for word in ("ir", "=ir", "*=other"):
            self.call("pictures", "c.shelf", "drawn", "--enhance", word, status=2)

    def test_false_colours_of_two_channels(self) -> None:
        from PIL import Image

        out, _ = self.call("pictures", "c.shelf", "drawn", "--false-colour", "*C02*", "*C13*")
        (path,) = [it for it in out.splitlines() if it.endswith("-colours.png")]
        picture = Image.open(f"drawn/{path}")
        self.assertEqual((picture.getpixel((0, 0)), picture.getpixel((3, 3))), ((100, 100, 220), (0, 0, 0)))

    def test_only_some_and_the_latest(self) -> None:
        out, _ = self.call("pictures", "c.shelf", "drawn", "--only", "*C13*")
        self.assertEqual(len(out.splitlines()), 2)
        self.assertEqual(os.listdir("drawn/latest"), ["goes-16-full-disk-channel-13.png"])
        self.assertEqual(pixels_of_png(read("drawn/latest/goes-16-full-disk-channel-13.png"))[4][0], 20)
        file = image(
            8, 4, 4, bytes([55] * 16), 0, [record(4, b"OR_ABI-L2-CMIPF-M6C13_G16_s20269.lrit"), stamp(21916, 0)]
        )
        self.writer.append(added(3, file))
        self.call("pictures", "c.shelf", "drawn")
        self.assertEqual(pixels_of_png(read("drawn/latest/goes-16-full-disk-channel-13.png"))[4][0], 55)
        self.call("pictures", "c.shelf", "other", "--no-latest")
        self.assertFalse(os.path.exists("other/latest"))


@needs_pillow
@needs_program
class Coded(Case):
    """Images that are coded without loss come by one call for many, also where one of them can't be read."""

    def test_many_and_one_that_is_damaged_in_itself(self) -> None:
        plain = [image(8, 40, 30, os.urandom(1200), 0, [record(4, b"I%d" % it)]) for it in range(5)]
        write("coded.shelf", shelf_of([added(it, file) for it, file in enumerate(plain)]))
        for number in range(5):
            station("coded.shelf", "repack", str(number), "16")
        # (their items, which keep where each packet ends; one of them says that it has more lines)
        lengths = [int(line.split()[9]) for line in station("coded.shelf", "list").decode().splitlines()[5:10]]
        packets = [int(line.split()[11]) for line in station("coded.shelf", "list").decode().splitlines()[5:10]]
        data = read("coded.shelf")[:-1]
        coded: list[Any] = []
        for length, count in reversed(list(zip(lengths, packets))):
            size = 38 + 2 * count + length
            data, item = data[: -size - 1], data[-size:]
            coded.insert(0, item)
        damaged = reference.sealed(coded[2][:-2].replace(b"\x28\x00\x1e\x01", b"\x28\x00\xff\x01"))
        counts = os.path.join(os.getcwd(), "calls")
        write("counted", f'#!/bin/sh\necho >> {counts}\nexec "$PROGRAM" "$@"\n'.encode())
        os.chmod("counted", 0o755)
        environment = {**os.environ, "PROGRAM": os.environ["LRITSTATION"], "LRITSTATION": f"{os.getcwd()}/counted"}
        for name, items in (("whole", [*coded[:2], *coded[3:]]), ("damaged", [*coded[:2], damaged, *coded[3:]])):
            write(f"{name}.shelf", shelf_of(items))
            out, _ = self.call("pictures", f"{name}.shelf", name, env=environment)
            self.assertEqual(len(out.splitlines()), 4)
            self.assertLessEqual(read("calls").count(b"\n"), 1 if name == "whole" else 8)
        for path, data in taken("damaged").items():
            number = int(path.split("@")[0][1:])
            self.assertEqual(bytes(pixels_of_png(data)[4]), plain[number][-1200:])


def lined(levels: Any, columns: Any) -> bytes:
    return b"".join(bytes([it] * columns) for it in levels)


@needs_pillow
class Filled(Case):
    """Lost lines are drawn from the lines around them, in a picture of its own that says so."""

    def drawn(self, *items: Any) -> Any:
        write("f.shelf", shelf_of(items))
        out, said = self.call("pictures", "f.shelf", "drawn", "--fill")
        return out.splitlines(), said, {name: list(pixels_of_png(data)[4]) for name, data in taken("drawn").items()}

    def test_lines_of_packets_that_stand_in(self) -> None:
        data = lined([10, 10, 20, 20, 0, 0, 0, 0, 60, 60, 9, 0], 7)
        whole = content(0, image(8, 7, 12, data, 0, [record(4, b"EARTH"), mended(b"5-8 12 of 13")]))
        bodies = [whole[: -len(data)], *(data[at : at + 7] for at in range(0, len(data), 7))]
        names, said, found = self.drawn(reference.add((1, 100, bodies), (0, 0, 0)))
        self.assertEqual(names, ["EARTH@f.0-mended-5.png", "EARTH@f.0-mended-5-filled.png"])
        self.assertEqual(found[names[0]], list(data))
        wanted = [10, 10, 20, 20, 28, 36, 44, 52, 60, 60, 9, 9]
        self.assertEqual(found[names[1]], list(lined(wanted, 7)))
        self.assertIn("5 lines of 12 were lost, and are drawn from the lines around them", said)
        self.assertIn(b"Comment\0005 lines of 12 were lost", read(f"drawn/{names[1]}"))

    def test_segments_and_tiles_that_are_missing(self) -> None:
        # (of a picture of four by five, the middle line is missing, and the right half of the last two)
        places = [(0, 0, 0, [8, 8] * 4), (3, 3, 0, [40] * 4)]
        items = []
        for number, top, left, values in places:
            more = [record(4, b"T"), noaa(1, number, top, 4, 4, 5, left)]
            items.append(added(number, image(8, len(values) // 2, 2, bytes(values), 0, more)))
        names, _, found = self.drawn(*items)
        self.assertEqual(names, ["T@f.0-lacks-2.png", "T@f.0-lacks-2-filled.png"])
        self.assertEqual(found[names[0]], [8] * 8 + [0] * 4 + [40, 40, 0, 0] * 2)
        self.assertEqual(found[names[1]], [8] * 8 + [24, 24, 8, 8] + [40, 40, 8, 8] * 2)

    def test_two_bytes_a_pixel_and_pictures_that_lack_nothing(self) -> None:
        levels = {0: 300, 2: 900}
        parts = [image(10, 2, 1, packed_bits([it] * 2, 10), 0, [noaa(1, n, n, 3, 2, 3)]) for n, it in levels.items()]
        whole = image(8, 2, 1, b"ab", 0, [record(4, b"WHOLE")])
        names, _, found = self.drawn(*(added(it, file) for it, file in enumerate([*parts, whole])))
        self.assertEqual(names, ["image@f.0-lacks-1.png", "WHOLE@f.2.png", "image@f.0-lacks-1-filled.png"])
        self.assertEqual(found[names[2]][2:4], [600 * 65535 // 1023] * 2)

    def test_lines_that_are_coded(self) -> None:
        code = record(131, b"\0\x20\x10\x04")  # four lines in a packet
        for words, ends, wanted in (
            (b"2 4 of 6", [0] * 6, [range(4, 8), range(12, 16)]),  # the first packet has the header alone
            (b"2 4 of 6", [9] * 6, [range(8, 12), range(16, 18)]),
            (b"7 of 9", [0] * 6, []),
        ):
            whole = content(0, image(8, 7, 18, b"", 1, [code, mended(words)]))
            item = reference.add((1, 100, [whole + bytes(ends[0]), *map(bytes, ends[1:])]), (0, 0, 0))
            file = shelf.file_of(shelf.Head(19, len(item), 0, False), item)
            self.assertEqual(fill.lost_lines(file), wanted, words)
