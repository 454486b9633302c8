"""What `satpy.sh` draws and compares. Usage: satellites.py draw FOLDER > FRAMES, which keeps the pixels in the
folder; satellites.py compare FOLDER FILES, of the files that came; satellites.py placed FILES TIFF; satellites.py
readers FILES TIFF, a GeoTIFF of GOES's image. Files and frames are made by the maker of `gomtasil sample`, and
ELEKTRO's prologue by satpy's own types."""

import datetime
import glob
import itertools
import os
import struct
import sys
import warnings
from collections.abc import Iterator
from typing import Any

import numpy
from numpy.typing import NDArray

warnings.filterwarnings("ignore")
from gomtasil import sample, segments, xrit

Pixels = NDArray[numpy.uint16]
Array = NDArray[Any]
Sent = tuple[int, int, bytes]  # channel, application, mission file

SINCE = datetime.datetime(1958, 1, 1)
MODIFIED_JULIAN = datetime.datetime(1858, 11, 17)
HIMAWARI_WHEN = datetime.datetime(2018, 1, 11, 9, 0, 20, 995000)
ELEKTRO_WHEN = datetime.datetime(2018, 11, 1, 0, 0, 5, 250000)
GOES_WHEN = datetime.datetime(2020, 10, 27, 13, 40, 17, 300000)
HIMAWARI_COLUMNS, HIMAWARI_LINES, HIMAWARI_SEGMENTS = 550, 55, 10
HIMAWARI_FACTOR = 20466275 * HIMAWARI_COLUMNS // 2750
ELEKTRO_COLUMNS, ELEKTRO_LINES, ELEKTRO_SEGMENTS = 696, 116, 6
ELEKTRO_FACTOR = 13642337 * ELEKTRO_COLUMNS // 2784
GOES_COLUMNS, GOES_LINES, GOES_SEGMENTS = 904, 226, 4
ELEKTRO_NAME = "L-000-GOMS2_-GOMS2_4_____-{}-{}-201811010000-__"
DEGREES = 77.8  # the longitude of ELEKTRO-L N2
GOES_LONGITUDE = -75.2


# ---- drawing


def pixels_of(columns: int, lines: int, first_line: int, most: int) -> Pixels:
    """Waves and noise, from 0 to most."""
    noise = numpy.random.default_rng(first_line).integers(0, 8, (lines, columns))
    y, x = numpy.arange(first_line, first_line + lines)[:, None], numpy.arange(columns)[None, :]
    waves = (numpy.sin(x / 40.0) + numpy.cos(y / 30.0) + 2) / 4
    pixels: Pixels = numpy.minimum(waves * (most - 8) + noise, most).astype(numpy.uint16)
    return pixels


def packed(pixels: Pixels, bits: int) -> bytes:
    """The pixels, in this many bits each."""
    words = pixels.astype(">u2").reshape(-1, 1).view(numpy.uint8)
    return numpy.packbits(numpy.unpackbits(words, axis=1)[:, 16 - bits :].reshape(-1)).tobytes()


def himawari(folder: str) -> Iterator[Sent]:
    """Ten segments of band 14, 16 bits, with the records of JMA: segment, times of lines."""
    for number in range(1, HIMAWARI_SEGMENTS + 1):
        first = (number - 1) * HIMAWARI_LINES
        pixels = pixels_of(HIMAWARI_COLUMNS, HIMAWARI_LINES, first, 1023)
        name = f"IMG_DK01B14_201801110900_{number:03d}"
        times = "".join(f"LINE:={it}\rTIME:={himawari_time(first + it):.6f}\r" for it in (1, HIMAWARI_LINES))
        records = [
            sample.structure(16, HIMAWARI_COLUMNS, HIMAWARI_LINES),
            sample.navigation(
                "GEOS(140.70)", HIMAWARI_FACTOR, HIMAWARI_FACTOR, HIMAWARI_COLUMNS // 2, HIMAWARI_COLUMNS // 2
            ),
            xrit.record(3, b"$HALFTONE:=16\r_NAME:=INFRARED\r_UNIT:=KELVIN\r0:=329.93\r1023:=130.02\r65535:=130.02\r"),
            sample.annotation(name),
            sample.stamp(HIMAWARI_WHEN),
            xrit.record(7, bytes(4)),
            xrit.record(128, segments.NUMBERED.pack(number, HIMAWARI_SEGMENTS, first + 1)),
            xrit.record(130, b"COFF:=275.5\rLOFF:=275.5\r"),
            xrit.record(131, times.encode()),
            xrit.record(132, b"NO ERROR\r"),
        ]
        keep(folder, name, pixels)
        yield 1, 110, xrit.mission_file(0, b"".join(records), packed(pixels, 16))


def himawari_time(line: int) -> float:
    """The modified Julian day of a line of the whole image: ten minutes for all lines."""
    since = HIMAWARI_WHEN - MODIFIED_JULIAN
    return since.total_seconds() / 86400 + line * 600 / 86400 / (HIMAWARI_LINES * HIMAWARI_SEGMENTS)


def elektro(folder: str) -> Iterator[Sent]:
    """A prologue, six segments of channel 6, 10 bits, with a quality record, and an epilogue."""
    from satpy.readers import electrol_hrit

    prologue = numpy.zeros(1, electrol_hrit.prologue)
    prologue["SatelliteStatus"]["SatelliteID"] = 19002
    prologue["SatelliteStatus"]["SatelliteName"] = b"ELECTRO"
    prologue["SatelliteStatus"]["NominalLongitude"] = numpy.deg2rad(DEGREES)
    prologue["ImageCalibration"] = numpy.arange(1024) * 100
    epilogue = numpy.zeros(1, electrol_hrit.epilogue)
    epilogue["GeometricProcessing"]["TGeomNormInfo"]["SubLon"] = numpy.deg2rad(DEGREES)
    yield 2, 210, elektro_part(128, "PRO______", prologue)
    for number in range(1, ELEKTRO_SEGMENTS + 1):
        yield 2, 210, elektro_segment(folder, number)
    yield 2, 210, elektro_part(129, "EPI______", epilogue)


def elektro_part(file_type: int, part: str, contents: Array) -> bytes:
    records = [sample.annotation(ELEKTRO_NAME.format("_________", part)), sample.stamp(ELEKTRO_WHEN)]
    return xrit.mission_file(file_type, b"".join(records), contents.tobytes())


def elektro_segment(folder: str, number: int) -> bytes:
    first = (number - 1) * ELEKTRO_LINES
    pixels = pixels_of(ELEKTRO_COLUMNS, ELEKTRO_LINES, first, 1023)
    since = ELEKTRO_WHEN - SINCE
    milliseconds = since.seconds * 1000 + since.microseconds // 1000
    lines = [
        struct.pack(">iHIBBB", first + it + 1, since.days, milliseconds + it, 3, 4, 4) for it in range(ELEKTRO_LINES)
    ]
    name = ELEKTRO_NAME.format("00_6_076E", f"{number:06d}___")
    middle = ELEKTRO_COLUMNS // 2
    records = [
        sample.structure(10, ELEKTRO_COLUMNS, ELEKTRO_LINES),
        sample.navigation("GEOS(+076.0)", ELEKTRO_FACTOR, ELEKTRO_FACTOR, middle, middle - first),
        sample.annotation(name),
        sample.stamp(ELEKTRO_WHEN),
        xrit.record(128, segments.PLANNED.pack(19002, 0, number, 1, ELEKTRO_SEGMENTS, 3)),
        xrit.record(129, b"".join(lines)),
    ]
    keep(folder, name, pixels)
    return xrit.mission_file(0, b"".join(records), packed(pixels, 10), 10 * pixels.size)


def goes(folder: str) -> Iterator[Sent]:
    """Four segments of channel 13, 8 bits, with the records of NOAA."""
    for number in range(GOES_SEGMENTS):
        first = number * GOES_LINES
        pixels = pixels_of(GOES_COLUMNS, GOES_LINES, first, 255)
        name = f"OR_ABI-L2-CMIPF-M6C13_G16_s20203011340173_e20203011349493_c20203011349577_{number}.lrit"
        records = [
            sample.structure(8, GOES_COLUMNS, GOES_LINES),
            sample.navigation(f"geos({GOES_LONGITUDE})", 3283000, 3283000, GOES_COLUMNS // 2, GOES_COLUMNS // 2),
            xrit.record(
                3, b"$HALFTONE:=8\r\n_NAME:=toa_brightness_temperature\r\n_UNIT:=K\r\n255:=173.15\r\n0:=330.0\r\n"
            ),
            sample.annotation(name),
            sample.stamp(GOES_WHEN),
            xrit.record(6, b"Time of frame start = 2020-10-27T13:40:17.3Z;Satellite = G16;Channel = 13;"),
            sample.segment(1, number, first, GOES_SEGMENTS, GOES_COLUMNS, GOES_SEGMENTS * GOES_LINES),
            xrit.record(129, b"NOAA" + struct.pack(">HHHB", 16, 13, 3, 0)),
        ]
        keep(folder, name, pixels)
        yield 13, 313, xrit.mission_file(0, b"".join(records), packed(pixels, 8))


def keep(folder: str, name: str, pixels: Pixels) -> None:
    numpy.save(os.path.join(folder, name + ".npy"), pixels)


def draw(folder: str) -> None:
    sender = sample.Sender()
    files = itertools.chain.from_iterable(make(folder) for make in (himawari, elektro, goes))
    for number, (channel, application, file) in enumerate(files):
        for frame in sender.frames(channel, application, sample.bodies_of(number, file)):
            sys.stdout.buffer.write(frame)


# ---- comparing

failed = False


def same(what: str, got: Any, wanted: Any) -> None:
    """Says whether two values are the same, and remembers where they aren't."""
    global failed
    is_same = bool(numpy.all(got == wanted)) and numpy.shape(got) == numpy.shape(wanted)
    failed = failed or not is_same
    print(f"{what}: {'the same' if is_same else f'{got}, not {wanted}'}")


def kept(folder: str, shape: str) -> Array:
    """The pixels that were drawn, of all segments from north to south."""
    return numpy.vstack([numpy.load(it) for it in sorted(glob.glob(os.path.join(folder, shape)))])


def compare_himawari(folder: str, files: str) -> None:
    from satpy import Scene

    names = sorted(glob.glob(os.path.join(files, "IMG_DK01B14*")))
    scene = Scene(filenames=names, reader="ahi_hrit")
    scene.load(["B14"], calibration="counts")
    band, wanted = scene["B14"], kept(folder, "IMG_DK01B14*")
    seen = ~numpy.isnan(band.values)
    same(f"Himawari, {seen.sum()} pixels that see the earth of {seen.size}", band.values[seen], wanted[seen])
    handlers = scene._readers["ahi_hrit"].file_handlers["hrit_b14_seg"]
    handlers = sorted(handlers, key=lambda it: int(it.mda["image_segm_seq_no"]))
    raw = numpy.vstack([it.read_band(None, None).compute() for it in handlers])
    same(f"Himawari, all {raw.size} pixels of the files", raw, wanted)
    same("Himawari, platform", band.attrs["platform_name"], "Himawari-8")
    same("Himawari, start", band.attrs["start_time"], datetime.datetime(2018, 1, 11, 9, 0))
    times = band.coords["acq_time"].values
    early = abs(times[0] - numpy.datetime64(HIMAWARI_WHEN) - numpy.timedelta64(600_000_000 // 550, "us"))
    late = abs(times[-1] - numpy.datetime64(HIMAWARI_WHEN) - numpy.timedelta64(600, "s"))
    # (the text of a time has six digits of a day, so 0.1 seconds)
    same("Himawari, times of the first and the last line", max(early, late) < numpy.timedelta64(100, "ms"), True)
    same("Himawari, longitude", band.attrs["orbital_parameters"]["projection_longitude"], 140.7)


def compare_elektro(folder: str, files: str) -> None:
    from satpy import Scene

    scene = Scene(filenames=sorted(glob.glob(os.path.join(files, "L-000-GOMS2*"))), reader="electrol_hrit")
    scene.load(["00_6"], calibration="counts")
    band, wanted = scene["00_6"], kept(folder, "L-000-GOMS2*-00_6_*")
    same(f"ELEKTRO, all {band.size} pixels", band.values, wanted)
    same("ELEKTRO, platform", band.attrs["platform_name"], "Electro-L N2")
    same("ELEKTRO, start", band.attrs["start_time"], datetime.datetime(2018, 11, 1))
    near = abs(band.attrs["orbital_parameters"]["projection_longitude"] - DEGREES) < 1e-6
    same("ELEKTRO, longitude", near, True)
    handlers = scene._readers["electrol_hrit"].file_handlers.values()
    same("ELEKTRO, stamps", {stamp_of(it) for part in handlers for it in part}, {ELEKTRO_WHEN})


def stamp_of(handler: Any) -> datetime.datetime:
    """The time stamp of a file as satpy's base reader gives it."""
    stamp = handler.mda["timestamp"]
    return SINCE + datetime.timedelta(days=int(stamp["Days"]), milliseconds=int(stamp["Milliseconds"]))


def compare_goes(folder: str, files: str) -> None:
    """By the reader on which all of satpy's readers of such files stand, with NOAA's records told to it."""
    from satpy.readers import hrit_base

    parts = [(it, ">u2") for it in ("image", "number", "start_column", "start_line", "segments", "columns", "lines")]
    noaa = [("agency", "S4"), ("product", ">u2"), ("part", ">u2"), ("parameter", ">u2"), ("compression", "u1")]
    kinds = {**hrit_base.base_hdr_map, 128: numpy.dtype(parts), 129: numpy.dtype(noaa)}
    names = sorted(glob.glob(os.path.join(files, "OR_ABI*")))
    rows, fields = [], []
    for name in names:
        maps: tuple[Any, ...] = (kinds, {}, hrit_base.base_text_headers)
        handler = hrit_base.HRITFileHandler(name, {"start_time": GOES_WHEN}, {"file_type": "goes"}, maps)
        rows.append(handler.read_band(None, None).compute())
        mda = handler.mda
        numbers = (mda["number"], mda["start_line"], mda["segments"], mda["lines"])
        fields.append((stamp_of(handler), mda["agency"], *numbers, mda["annotation_header"].decode()))
    raw = numpy.vstack(rows)
    same(f"GOES, all {raw.size} pixels", raw, kept(folder, "OR_ABI*"))
    whole = GOES_SEGMENTS * GOES_LINES
    wanted = [
        (GOES_WHEN, b"NOAA", it, it * GOES_LINES, GOES_SEGMENTS, whole, os.path.basename(name))
        for it, name in enumerate(names)
    ]
    same("GOES, stamps, agency, segments and names", fields == wanted, True)


def placed(files: str, tiff: str) -> None:
    """Whether a GeoTIFF of Himawari's first segment lies where satpy places the image: its left edge, and its
    pixels' size."""
    from satpy import Scene

    scene = Scene(filenames=sorted(glob.glob(os.path.join(files, "IMG_DK01B14*"))), reader="ahi_hrit")
    scene.load(["B14"], calibration="counts")
    left, _, right, top = scene["B14"].attrs["area"].area_extent
    scale, tie = tags_of(tiff, 33550), tags_of(tiff, 33922)
    same("geo, the left edge in metres", abs(tie[3] - left) < 0.01, True)
    same("geo, the size of a pixel", abs(scale[0] - (right - left) / HIMAWARI_COLUMNS) < 1e-3, True)
    # (satpy counts lines from the south here, so its edge may be off by a pixel)
    same("geo, the upper edge within a pixel", abs(tie[4] - top) <= scale[1] * 1.001, True)


def readers(files: str, tiff: str) -> None:
    """Which files satpy finds by their names, and that it reads an image of GOES from its GeoTIFF."""
    from satpy import Scene, find_files_and_readers

    found = find_files_and_readers(base_dir=files, missing_ok=True)
    for kind, names, wanted in (
        ("Himawari", "IMG_DK01B14*", ["ahi_hrit"]),
        ("ELEKTRO", "L-000-GOMS2*", ["electrol_hrit"]),
        ("GOES", "OR_ABI*", []),
    ):
        paths = set(glob.glob(os.path.join(files, names)))
        readers_of = sorted(reader for reader, taken in found.items() if paths & set(taken))
        same(f"{kind}, the readers that satpy finds", len(paths) > 0 and readers_of == wanted, True)
    scene = Scene(filenames=[tiff], reader="generic_image")
    scene.load(["image"])
    area = scene["image"].attrs["area"]
    placed_so = area.crs.to_dict()["proj"] == "geos" and area.width == GOES_COLUMNS
    same("GOES by its GeoTIFF, the projection", placed_so, True)
    longitude, latitude = area.get_lonlat(area.height // 2, area.width // 2)
    near = abs(longitude - GOES_LONGITUDE) < 0.2 and abs(latitude) < 0.2
    same("GOES by its GeoTIFF, the middle lies below the satellite", near, True)


def tags_of(path: str, wanted: int) -> tuple[float, ...]:
    """The numbers of a tag of a TIFF."""
    from PIL import Image, TiffImagePlugin

    with Image.open(path) as it:
        assert isinstance(it, TiffImagePlugin.TiffImageFile)
        numbers: tuple[float, ...] = it.tag_v2[wanted]
        return numbers


def main() -> None:
    if sys.argv[1] == "draw":
        draw(sys.argv[2])
    elif sys.argv[1] == "placed":
        placed(*sys.argv[2:])
    elif sys.argv[1] == "readers":
        readers(*sys.argv[2:])
    else:
        for part in (compare_himawari, compare_elektro, compare_goes):
            part(*sys.argv[2:])
    sys.exit(failed)


main()
