"""Draws some minutes of a downlink like that of GOES, as frames of 892 bytes on standard output: an earth in four
segments, a bulletin, another one in a zip, and fill between. Nothing of it comes from a satellite.
"""

# Coasts are a few hundred corners, and the clouds are sums of waves.

import collections
import datetime
import io
import itertools
import math
import struct
import zipfile
from collections.abc import Iterator

from . import segments, xrit
from .quality import COUNTER_MODULUS
from .quality import FRAME_SYMBOLS as SYMBOLS_A_FRAME
from .shelf import checksum

# ---- the downlink
SYMBOLS_A_SECOND = 927_000
SPACECRAFT = 7
IMAGE_CHANNEL, TEXT_CHANNEL, FILL_CHANNEL = 13, 20, 63
IMAGE_APPLICATION, TEXT_APPLICATION = 313, 614
MOST_MINUTES = 60

# ---- frames and packets, by their documents: CCSDS 732.0-B (frames) and 133.0-B (packets)
ZONE_BYTES = 884
PACKET_HEAD = struct.Struct(">HHH")  # application, sequence flags and count, bytes of the data field less one
IDLE_APPLICATION = 2047
FIRST, GOING_ON, LAST, ONLY = 1, 0, 2, 3  # sequence flags
NO_START, IDLE_ONLY = 2047, 2046  # pointers
COUNT_MODULUS = 1 << 14
BODY_BYTES = 8000

# ---- the image
SIZE = 640  # columns and lines
SEGMENTS = 4
LONGITUDE = -75.2  # degrees, below the satellite
FIELD_DEGREES = 17.8  # across the image
FACTOR = round(SIZE / FIELD_DEGREES * 65536)  # pixels a degree, times 2^16
OFFSET = SIZE // 2  # the column and the line, counted from 1, of the place below the satellite
DISTANCE = 42164 / 6371  # of the satellite from the centre, in radii of the earth
WHEN = datetime.datetime(2026, 11, 29, 17, 0, 20)
SUN = (-21.0, -70.0)  # latitude and longitude below the sun, in degrees
WATER, LAND, ICE, CLOUD = 36, 112, 200, 240  # grey levels in full light
TWILIGHT = 6  # grey levels at night

# Corners of coasts: latitudes and longitudes in degrees, roughly.
COASTS = """
71 -156 70 -141 69 -130 70 -120 68 -110 68 -97 72 -94 69 -86 64 -88 60 -94 57 -92 55 -84 52 -80 55 -78 59 -78 62 -77
  62 -72 59 -69 60 -64 56 -61 52 -56 50 -60 49 -66 46 -64 45 -61 44 -66 43 -70 41 -71 40 -74 37 -76 35 -76 32 -80 30
  -81 27 -80 25 -81 28 -83 30 -84 30 -88 29 -91 29 -95 26 -97 22 -98 19 -96 18 -94 19 -91 21 -90 21 -87 18 -88 16
  -88 15 -84 11 -84 9 -82 9 -79 8 -77 7 -80 8 -83 10 -86 13 -88 14 -92 16 -95 17 -101 20 -106 23 -106 28 -111 31
  -114 28 -112 24 -110 23 -110 25 -112 28 -115 32 -117 34 -119 36 -122 40 -124 46 -124 49 -125 54 -131 59 -138 60
  -146 59 -152 56 -158 55 -164 59 -162 62 -166 66 -167 68 -166
12 -72 11 -74 9 -76 8 -77 4 -77 1 -79 -1 -80 -4 -81 -6 -81 -12 -77 -16 -74 -18 -70 -24 -70 -30 -71 -37 -73 -42 -74
  -47 -75 -52 -74 -55 -70 -55 -66 -52 -69 -48 -66 -45 -67 -42 -64 -41 -63 -39 -62 -38 -58 -35 -57 -34 -58 -35 -55
  -33 -53 -29 -49 -26 -48 -23 -44 -22 -41 -18 -39 -13 -38 -8 -35 -5 -35 -3 -40 -1 -47 0 -50 2 -50 5 -53 6 -57 9 -61
  11 -63 11 -68 12 -70
36 -6 37 10 33 12 31 20 31 32 12 44 -5 40 -34 20 -20 13 -5 12 4 9 6 1 4 -8 8 -13 13 -17 21 -17 28 -13 33 -8
43 -9 37 -9 36 -6 37 -1 43 4 52 5 48 -5 46 -1 43 -2
66 -23 66 -15 64 -14 63 -19 65 -24
22 -85 23 -82 22 -78 20 -74 20 -77 21 -79
20 -73 19 -70 18 -68 18 -71 18 -74
51 -56 47 -53 47 -59
73 -117 72 -105 69 -103 69 -115
"""
ICE_COASTS = """
83 -35 82 -22 76 -20 70 -23 65 -40 60 -44 61 -48 66 -54 70 -55 76 -68 78 -73 81 -62
73 -80 70 -68 66 -62 62 -66 64 -72 66 -73 69 -77 70 -88 73 -88
-63 -57 -65 -62 -72 -62 -74 -20 -89 -20 -89 -170 -74 -170 -73 -110 -72 -75 -66 -66
"""
# The waves of the clouds: how many along a radian of latitude and of longitude, where they begin, and their heights.
WAVES = (
    (3, 2, 0.3, 1.0),
    (7, -4, 1.7, 0.8),
    (5, 9, 4.0, 0.7),
    (13, 6, 2.2, 0.45),
    (-11, 17, 0.9, 0.4),
    (23, -19, 5.1, 0.25),
    (31, 37, 3.3, 0.16),
)
CLOUDS_FROM = 0.72  # the height of the waves at which clouds begin

BULLETIN = """\
TTAA00 KWBC 291700\r\r
SAMPLE BULLETIN, DRAWN BY A SCRIPT\r\r
\r\r
NORTH ATLANTIC: WEST 5 TO 6, SEA 2.5 METERS, RAIN AT TIMES.\r\r
CARIBBEAN: EAST 4, SEA 1.2 METERS, FAIR.\r\r
"""


# ---- the earth

Corner = tuple[float, float]  # latitude and longitude


def polygons_of(text: str) -> Iterator[list[Corner]]:
    """Lists of corners; a line that begins with spaces goes on with the one before."""
    for line in text.strip().replace("\n ", " ").splitlines():
        numbers = list(map(float, line.split()))
        yield list(zip(numbers[0::2], numbers[1::2]))


def crossings(corners: list[Corner], latitude: float) -> list[float]:
    """The longitudes at which a parallel crosses the sides, from west to east."""
    found = []
    for (one, west), (other, east) in zip(corners, corners[1:] + corners[:1]):
        if (one > latitude) != (other > latitude):
            found.append(west + (latitude - one) * (east - west) / (other - one))
    return sorted(found)


class Ground:
    """How much land and ice there is at a place, on a grid of half degrees."""

    STEPS = 2  # a degree

    def __init__(self, text: str):
        self.rows = [bytearray(360 * self.STEPS + 1) for _ in range(180 * self.STEPS + 1)]
        for corners in polygons_of(text):
            for place, row in enumerate(self.rows):
                found = crossings(corners, place / self.STEPS - 90 + 1e-6)
                for west, east in zip(found[0::2], found[1::2]):
                    first, last = (round((it + 180) * self.STEPS) for it in (west, east))
                    row[first:last] = b"\1" * (last - first)

    def at(self, latitude: float, longitude: float) -> float:
        """From 0, none, to 1, in between by the four corners around."""
        y, x = (latitude + 90) * self.STEPS, (longitude + 180) * self.STEPS
        line, column = int(y), int(x)
        y, x = y - line, x - column
        next_line, next_column = min(line + 1, len(self.rows) - 1), min(column + 1, len(self.rows[line]) - 1)
        low, high = (row[column] * (1 - x) + row[next_column] * x for row in (self.rows[line], self.rows[next_line]))
        return low * (1 - y) + high * y


def clouds_at(latitude: float, longitude: float) -> float:
    """How much cloud there is, from 0 to 1: waves that other waves bend, most near the equator and in the middle
    latitudes."""
    bent_latitude = latitude + 0.12 * math.sin(4 * longitude + 6 * latitude)
    bent_longitude = longitude + 0.25 * math.sin(5 * latitude) + 0.08 * math.sin(9 * longitude - 4 * latitude)
    height = sum(it[3] * math.sin(it[0] * bent_latitude + it[1] * bent_longitude + it[2]) for it in WAVES)
    height += 0.7 * math.cos(6 * latitude) - 0.2
    return min(1.0, max(0.0, (height - CLOUDS_FROM) * 0.9))


def place_of(column: int, line: int) -> Corner | None:
    """The latitude and longitude, in radians, that a pixel of the whole image sees, or None beside the earth (a
    sphere here)."""
    x = math.radians((column + 1 - OFFSET) * 65536 / FACTOR)
    y = math.radians((OFFSET - line - 1) * 65536 / FACTOR)
    sight = (-math.cos(x) * math.cos(y), math.sin(x) * math.cos(y), math.sin(y))
    half = DISTANCE * sight[0]
    rest = half * half - DISTANCE * DISTANCE + 1
    if rest < 0:
        return None
    way = -half - math.sqrt(rest)
    point = (DISTANCE + way * sight[0], way * sight[1], way * sight[2])
    return math.asin(point[2]), math.radians(LONGITUDE) + math.atan2(point[1], point[0])


def light_at(latitude: float, longitude: float) -> float:
    """The cosine of the sun's height above a place; 0 at night."""
    sun_latitude, sun_longitude = map(math.radians, SUN)
    along = math.cos(latitude) * math.cos(sun_latitude) * math.cos(longitude - sun_longitude)
    return max(0.0, math.sin(latitude) * math.sin(sun_latitude) + along)


def grey_at(place: Corner | None, land: Ground, ice: Ground) -> int:
    """The grey level, 0 to 255, of a place as `place_of` gives it."""
    if place is None:
        return 0
    latitude, longitude = place
    degrees = math.degrees(latitude), (math.degrees(longitude) + 180) % 360 - 180
    level = WATER + (LAND - WATER) * land.at(*degrees)
    level += (ICE - level) * ice.at(*degrees)
    level += (CLOUD - level) * clouds_at(latitude, longitude)
    return round(TWILIGHT + (level - TWILIGHT) * math.pow(light_at(latitude, longitude), 0.6))


def earth() -> bytes:
    """The pixels of the whole image, line by line."""
    land, ice = Ground(COASTS), Ground(ICE_COASTS)
    return bytes(grey_at(place_of(column, line), land, ice) for line in range(SIZE) for column in range(SIZE))


# ---- mission files


def structure(bits: int, columns: int, lines: int) -> bytes:
    return xrit.record(xrit.STRUCTURE_KIND, xrit.STRUCTURE.pack(bits, columns, lines, xrit.NOT_COMPRESSED))


def navigation(name: str, *numbers: int) -> bytes:
    """Column and line factor, column and line offset."""
    return xrit.record(xrit.NAVIGATION_KIND, xrit.NAVIGATION.pack(name.ljust(32).encode(), *numbers))


def annotation(name: str) -> bytes:
    return xrit.record(xrit.ANNOTATION_KIND, name.encode())


def stamp(when: datetime.datetime) -> bytes:
    since = when - xrit.STAMP_BEGIN
    milliseconds = since.seconds * 1000 + since.microseconds // 1000
    return xrit.record(xrit.STAMP_KIND, xrit.STAMP.pack(xrit.STAMP_FORM, since.days, milliseconds))


def segment(image: int, number: int, first_line: int, count: int, columns: int, lines: int) -> bytes:
    return xrit.record(xrit.SEGMENT_KIND, segments.NOAA.pack(image, number, 0, first_line, count, columns, lines))


def segments_of_earth() -> Iterator[bytes]:
    pixels, lines = earth(), SIZE // SEGMENTS
    for number in range(SEGMENTS):
        records = [
            structure(8, SIZE, lines),
            navigation(f"geos({LONGITUDE})", FACTOR, FACTOR, OFFSET, OFFSET),
            annotation(f"SAMPLE_EARTH_{WHEN:%Y%m%d%H%M%S}_{number}.lrit"),
            stamp(WHEN),
            segment(1, number, number * lines, SEGMENTS, SIZE, SIZE),
        ]
        strip = pixels[number * lines * SIZE : (number + 1) * lines * SIZE]
        yield xrit.mission_file(xrit.IMAGE_TYPE, b"".join(records), strip)


def bulletin(text: str, number: int) -> bytes:
    """A text as it is sent between start and end of text, in a file of its own."""
    records = [annotation(f"A_TTAA00KWBC291700_C_KWIN_{WHEN:%Y%m%d%H%M%S}_{number:06d}-2-SAMPLE.TXT.lrit"), stamp(WHEN)]
    return xrit.mission_file(xrit.TEXT_TYPE, b"".join(records), framed(text))


def framed(text: str) -> bytes:
    return b"\x01\r\r\n" + text.encode("ascii") + b"\x03"


def zip_of(name: str, data: bytes) -> bytes:
    out = io.BytesIO()
    with zipfile.ZipFile(out, "w", zipfile.ZIP_DEFLATED) as archive:
        archive.writestr(zipfile.ZipInfo(name, WHEN.timetuple()[:6]), data)
    return out.getvalue()


def zipped_bulletin(text: str) -> bytes:
    records = [annotation(f"Z_EMWIN_{WHEN:%Y%m%d%H%M%S}.ZIS.lrit"), stamp(WHEN)]
    return xrit.mission_file(xrit.TEXT_TYPE, b"".join(records), zip_of("SEASTATE.TXT", framed(text)))


# ---- packets and frames


def bodies_of(counter: int, proper: bytes) -> list[bytes]:
    """What the packets carry in which a file is sent."""
    content = xrit.TRANSPORT.pack(counter % 65536, 8 * len(proper)) + proper
    return [content[at : at + BODY_BYTES] for at in range(0, len(content), BODY_BYTES)]


class Sender:
    """Frames of files. Each file begins a new frame of its channel; counters go on from file to file."""

    def __init__(self) -> None:
        self.counts: dict[tuple[int, int], Iterator[int]] = collections.defaultdict(itertools.count)
        self.counters: dict[int, Iterator[int]] = collections.defaultdict(itertools.count)

    def packets(self, channel: int, application: int, bodies: list[bytes]) -> Iterator[bytes]:
        for place, body in enumerate(bodies):
            flags = (FIRST if place == 0 else GOING_ON) + (LAST if place == len(bodies) - 1 else GOING_ON)
            count = next(self.counts[channel, application]) % COUNT_MODULUS
            data = body + checksum(body).to_bytes(2, "big")
            yield PACKET_HEAD.pack(application, flags << 14 | count, len(data) - 1) + data

    def frame(self, channel: int, pointer: int, zone: bytes) -> bytes:
        counter = next(self.counters[channel]) % COUNTER_MODULUS
        head = (1 << 14 | SPACECRAFT << 6 | channel).to_bytes(2, "big") + counter.to_bytes(3, "big") + b"\0"
        return head + pointer.to_bytes(2, "big") + zone

    def frames(self, channel: int, application: int, bodies: list[bytes]) -> Iterator[bytes]:
        """The frames of a file in these bodies; an idle packet fills the last one."""
        stream, starts = b"", []
        for packet in self.packets(channel, application, bodies):
            starts.append(len(stream))
            stream += packet
        left = -len(stream) % ZONE_BYTES
        if left:
            left += ZONE_BYTES if left <= PACKET_HEAD.size else 0
            starts.append(len(stream))
            idle = left - PACKET_HEAD.size
            stream += PACKET_HEAD.pack(IDLE_APPLICATION, ONLY << 14, idle - 1) + bytes(idle)
        for first in range(0, len(stream), ZONE_BYTES):
            pointer = next((start - first for start in starts if first <= start < first + ZONE_BYTES), NO_START)
            yield self.frame(channel, pointer, stream[first : first + ZONE_BYTES])

    def fill(self) -> bytes:
        return self.frame(FILL_CHANNEL, IDLE_ONLY, bytes(ZONE_BYTES))


def downlink(minutes: int) -> Iterator[bytes]:
    """The frames of this many minutes: the files at equal distances, and fill between them."""
    sender = Sender()
    files = [(IMAGE_CHANNEL, IMAGE_APPLICATION, it) for it in segments_of_earth()]
    files.insert(0, (TEXT_CHANNEL, TEXT_APPLICATION, bulletin(BULLETIN, 1)))
    files.insert(3, (TEXT_CHANNEL, TEXT_APPLICATION, zipped_bulletin(BULLETIN)))
    total = minutes * 60 * SYMBOLS_A_SECOND // SYMBOLS_A_FRAME
    sent = 0
    for place, (channel, application, proper) in enumerate(files):
        while sent < total * place // len(files):
            yield sender.fill()
            sent += 1
        for frame in sender.frames(channel, application, bodies_of(place, proper)):
            yield frame
            sent += 1
    for _ in range(sent, total):
        yield sender.fill()
