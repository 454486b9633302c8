"""Where pixels lie: GeoTIFFs by their own tags and as GDAL reads them, and coasts over an image."""

import math
import os
import shutil
import struct
import subprocess
import zlib
from typing import Any

from gomtasil import geo

from .support import (
    Case,
    added,
    image,
    navigation,
    needs_pillow,
    noaa,
    packed_bits,
    planned,
    read,
    record,
    shelf_of,
    stamp,
    write,
)

FACTOR = 2_000_000
METRES = 35785831.0 * math.pi / 180 * 65536 / FACTOR


def tags_of(path: Any) -> Any:
    """The tags of a TIFF with the least significant byte first, and what its one strip has."""
    data = read(path)
    head, at = struct.unpack("<4sI", data[:8])
    assert head == b"II*\0"
    (count,) = struct.unpack("<H", data[at : at + 2])
    tags = {}
    for place in range(at + 2, at + 2 + 12 * count, 12):
        tag, kind, number = struct.unpack("<HHI", data[place : place + 8])
        letter, size = {2: ("s", 1), 3: ("H", 2), 4: ("I", 4), 12: ("d", 8)}[kind]
        start = place + 8 if size * number <= 4 else int.from_bytes(data[place + 8 : place + 12], "little")
        tags[tag] = struct.unpack_from(f"<{number}{letter}", data, start)
    assert (tags[259], tags[262], len(tags[273])) == ((8,), (1,), 1), "deflated, 0 is black, one strip"
    return tags, zlib.decompress(data[tags[273][0] : tags[273][0] + tags[279][0]])


@needs_pillow
class Placed(Case):
    def setUp(self) -> None:
        super().setUp()
        self.values = bytes(range(40))
        longitude = navigation(-75.2, FACTOR, 4, 3)
        segment = noaa(1, 1, 5, 2, 8, 10)
        files = [
            image(8, 8, 5, self.values, 0, [longitude]),
            image(10, 8, 5, packed_bits([it * 25 for it in self.values], 10), 0, [longitude, segment]),
            image(8, 8, 5, self.values),
            image(8, 8, 5, self.values, 0, [record(2, b"polar".ljust(32) + bytes(16))]),
            image(8, 8, 5, self.values, 0, [record(2, b"geos(0)".ljust(32) + struct.pack(">iiii", 0, 5, 0, 0))]),
            image(8, 8, 5, b"short", 0, [longitude]),
        ]
        write("places.shelf", shelf_of([added(number, it) for number, it in enumerate(files)]))

    def near(self, tags: Any, left: Any, top: Any) -> None:
        found = [tags[33550][0], tags[33922][3], tags[33922][4]]
        self.assertTrue(all(abs(a - b) < 1e-6 for a, b in zip(found, (METRES, left * METRES, top * METRES))), found)

    def test_files_alone(self) -> None:
        for number in (0, 1):
            self.call("geo", "places.shelf", str(number), f"{number}.tif", "--alone")
            tags, data = tags_of(f"{number}.tif")
            pixels = [int.from_bytes(data[at : at + 1 + number], "little") for at in range(0, len(data), 1 + number)]
            self.assertEqual(pixels, [it * (25 if number else 1) for it in self.values])
            self.near(tags, -3.5, 2.5 - 5 * number)
        for number in (2, 3, 4, 5, 6):
            for words in ((), ("--alone",)):
                self.call("geo", "places.shelf", str(number), "none.tif", *words, status=1)
        self.assertFalse(os.path.exists("none.tif"), "nothing stands after a refusal")
        self.call("geo", "places.shelf", "x", "none.tif", status=2)
        if not shutil.which("gdalinfo"):
            self.skipTest("gdalinfo is missing")
        for number in (0, 1):
            told = subprocess.run(["gdalinfo", "-proj4", f"{number}.tif"], capture_output=True, text=True).stdout
            self.assertIn("+proj=geos +lon_0=-75.2 +h=35785831", told)
            self.assertIn("+rf=295.488065897", told)
            self.assertIn("Size is 8, 5", told)
            call = ["gdal_translate", "-q", "-of", "ENVI", f"{number}.tif", f"{number}.raw"]
            subprocess.run(call, check=True, capture_output=True)
            pixels = [it for (it,) in struct.iter_unpack("<H" if number else "B", read(f"{number}.raw"))]
            self.assertEqual(pixels, [it * (25 if number else 1) for it in self.values])

    def test_the_joined_image(self) -> None:
        """Of any of its segments, whether the line offset counts in the whole image or in the segment."""
        parts = [bytes(range(40)), bytes(range(40, 80))]
        whole = [
            image(8, 8, 5, part, 0, [navigation(-75.2, FACTOR, 4, 3), noaa(1, it, 5 * it, 2, 8, 10)])
            for it, part in enumerate(parts)
        ]
        within = [
            image(
                8,
                8,
                5,
                part,
                0,
                [record(4, b"E_%d" % (5 + it)), navigation(76, FACTOR, 4, 3 - 5 * it), planned(1, 5 + it, 5, 6)],
            )
            for it, part in enumerate(parts)
        ]
        for name, files in (("whole", whole), ("within", within)):
            write(f"{name}.shelf", shelf_of([added(number, it) for number, it in enumerate(files)]))
            for number in (0, 1):
                self.call("geo", f"{name}.shelf", str(number), "joined.tif")
                tags, data = tags_of("joined.tif")
                self.assertEqual((tags[256][0], tags[257][0], data), (8, 10, b"".join(parts)))
                self.near(tags, -3.5, 2.5)

    def test_what_was_not_sent_is_no_data(self) -> None:
        more = [navigation(-75.2, FACTOR, 4, 3), noaa(1, 1, 5, 2, 8, 10), stamp(23376, 45_296_000)]
        write("half.shelf", shelf_of([added(0, image(8, 8, 5, self.values, 0, more))]))
        self.call("geo", "half.shelf", "0", "half.tif")
        tags, data = tags_of("half.tif")
        pixels = struct.unpack("<80H", data)
        self.assertEqual(pixels, (65535,) * 40 + tuple(self.values))
        self.assertEqual((tags[42113], tags[306]), ((b"65535\0",), (b"2022:01:01 12:34:56\0",)))


CITIES = {
    "Miami": (-80.19, 25.76),
    "Brasilia": (-47.88, -15.79),
    "Kansas City": (-94.58, 39.1),
    "Dakar": (-17.45, 14.69),
    "Seattle": (-122.33, 47.61),
}
KILOMETRE = 1000.0


class Grids(Case):
    """Cities lie where PROJ puts them, in both grids."""

    def test_cities_lie_where_proj_puts_them(self) -> None:
        try:
            from pyproj import Proj
        except ImportError:
            self.skipTest("pyproj is missing")
        for grid, words in (
            (geo.ABI, "+ellps=GRS80 +h=35786023 +sweep=x"),
            (geo.CGMS, "+a=6378169 +b=6356583.8 +h=35785831 +sweep=y"),
        ):
            project = Proj(f"+proj=geos +lon_0=-75.2 {words}")
            placement = geo.Placement(-75.2, FACTOR, FACTOR, 0, 0, 0, grid)
            metres = grid.height * math.pi / 180 * 65536 / FACTOR
            for city, place in CITIES.items():
                found = placement.pixel_of(*place)
                assert found
                east, north = project(*place)
                off = math.dist((east, -north), [(it + 1) * metres for it in found])
                self.assertLess(off, 0.3 * KILOMETRE, city)
        self.assertIsNone(geo.Placement(-75.2, FACTOR, FACTOR, 0, 0, 0, geo.ABI).pixel_of(104.8, 0))

    @needs_pillow
    def test_images_of_abi_sweep_about_x(self) -> None:
        name = b"OR_ABI-L2-CMIPF-M6C13_G16_s20260011200_e20260011209_c20260011209.lrit"
        place = navigation(-75.2, FACTOR, 4, 3)
        files = [image(8, 8, 5, bytes(40), 0, [record(4, it), place]) for it in (name, b"E_1")]
        write("two.shelf", shelf_of([added(number, it) for number, it in enumerate(files)]))
        sweeps = {(0, ()): b"x", (1, ()): b"y", (0, ("--sweep", "y")): b"y", (1, ("--sweep", "x")): b"x"}
        for (number, words), sweep in sweeps.items():
            self.call("geo", "two.shelf", str(number), "it.tif", *words)
            citation = read("it.tif").count(b'PARAMETER["Option",1.0]'), read("it.tif").count(b"GRS80")
            self.assertEqual(all(citation), sweep == b"x")
            if shutil.which("gdalinfo"):
                told = subprocess.run(["gdalinfo", "-proj4", "it.tif"], capture_output=True).stdout
                self.assertEqual(b"+sweep=x" in told, sweep == b"x", told)


@needs_pillow
class Overlay(Case):
    """Lines over an image lie where its GeoTIFF says, by GDAL's own projection."""

    def setUp(self) -> None:
        super().setUp()
        side, self.factor = 400, round(400 / 17.8 * 65536)
        pixels = bytes(side * side)
        half = side // 2
        parts = [pixels[: len(pixels) // 2], pixels[len(pixels) // 2 :]]
        files = [
            image(
                8,
                side,
                half,
                part,
                0,
                [navigation(-75.2, self.factor, half, half), noaa(1, it, half * it, 2, side, side)],
            )
            for it, part in enumerate(parts)
        ]
        write("globe.shelf", shelf_of([added(it, file) for it, file in enumerate(files)]))

    def test_a_line_lies_where_gdal_puts_it(self) -> None:
        from PIL import Image

        places = [(-75.2, 0), (-75.2, 40), (-40, 10), (-110, -30), (-20, 5), (-60, -55)]
        marks = "".join(f"> mark\n{x} {y}\n{x} {y + 0.01}\n" for x, y in places)
        write("lines.txt", (marks + "> behind\n104 0\n105 1\n> none\nx y\n").encode())
        self.call("overlay", "globe.shelf", "1", "globe.png", "--lines", "lines.txt")
        picture = Image.open("globe.png")
        self.assertEqual((picture.size, picture.mode), ((400, 400), "RGB"))
        drawn = [(x, y) for x in range(400) for y in range(400) if picture.getpixel((x, y)) != (0, 0, 0)]
        if not shutil.which("gdaltransform"):
            self.skipTest("gdaltransform is missing")
        self.call("geo", "globe.shelf", "0", "globe.tif")
        done = subprocess.run(
            ["gdaltransform", "-t_srs", "+proj=longlat +a=6378169 +b=6356583.8 +no_defs", "-i", "globe.tif"],
            input="\n".join(f"{x} {y}" for x, y in places),
            capture_output=True,
            text=True,
        )
        self.assertEqual(done.returncode, 0, done.stderr)
        wanted = [tuple(map(float, line.split()[:2])) for line in done.stdout.splitlines()]
        self.assertEqual(len(wanted), len(places))
        for x, y in wanted:
            # (a pixel's middle is at a half, for GDAL)
            near = [it for it in drawn if abs(it[0] + 0.5 - x) <= 1.5 and abs(it[1] + 0.5 - y) <= 1.5]
            self.assertTrue(near, f"something is drawn at {x} {y}")
        self.assertLessEqual(len(drawn), 4 * len(places), "nothing is drawn behind the limb")

    def test_coasts_of_gmt(self) -> None:
        from PIL import Image

        if not shutil.which("gmt"):
            self.skipTest("gmt is missing")
        self.call("overlay", "globe.shelf", "0", "coasts.png")
        picture = Image.open("coasts.png")
        drawn = {(x, y) for x in range(400) for y in range(400) if picture.getpixel((x, y)) != (0, 0, 0)}
        self.assertGreater(len(drawn), 2000)
        self.assertTrue(
            all((x - 199) ** 2 + (y - 199) ** 2 < 198**2 for x, y in drawn), "nothing lies beside the earth"
        )

    def test_without_gmt(self) -> None:
        _, said = self.call("overlay", "globe.shelf", "0", "x.png", status=1, env={**os.environ, "PATH": "/nowhere"})
        self.assertIn("apt-get install gmt", said)
        self.assertFalse(os.path.exists("x.png"))
