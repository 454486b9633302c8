"""The month of a station, as `gomtasil` meets it: shelves of days with GOES's names, and how long a page, the pictures
and the search take over them. Seven channels of four segments each half hour, bulletins, zips with a text or a GIF, and
DCS. By default it draws the shelves that aren't there yet: 30 days of 20,700 files, 4.5 GB. With --measure it runs
page, find, state and pictures over them, twice each; the pictures of a month take an hour.
"""

import argparse
import datetime
import io
import os
import random
import subprocess
import sys
import time
import zipfile
from collections.abc import Sequence

TOP = os.path.dirname(os.path.dirname(os.path.abspath(__file__)))
sys.path.insert(0, os.path.join(TOP, "tools"))

from gomtasil import segments, shelf, xrit  # noqa: E402

CHANNELS = ("C02", "C03", "C07", "C08", "C09", "C13", "C15")
SIDE, SEGMENTS = 640, 4
IMAGES_A_DAY = 48 * len(CHANNELS) * SEGMENTS
HALF_HOUR = 1800  # seconds
BODY_BYTES = 60_000
IMAGE_CHANNEL, TEXT_CHANNEL, DCS_CHANNEL = 13, 20, 30
GIF = (
    b"GIF89a\x01\x00\x01\x00\x80\x00\x00\x00\x00\x00\xff\xff\xff!\xf9\x04\x01\x00\x00\x00\x00,\x00\x00\x00\x00"
    b"\x01\x00\x01\x00\x00\x02\x02D\x01\x00;"
)
CENTRES = ("KWBC", "KNHC", "EGRR", "RJTD", "SBBR")
LINE = "NORTH ATLANTIC: WEST 5 TO 6, SEA 2.5 METERS, RAIN AT TIMES.\r\r\n"
DAYS, FILES = 30, 20_700  # of a month, and of a day
Sent = tuple[int, int, bytes]  # channel, application, mission file


def annotation(name: str) -> bytes:
    return xrit.record(xrit.ANNOTATION_KIND, name.encode())


def stamp(when: datetime.datetime) -> bytes:
    since = when - xrit.STAMP_BEGIN
    packed = xrit.STAMP.pack(xrit.STAMP_FORM, since.days, 1000 * since.seconds)
    return xrit.record(xrit.STAMP_KIND, packed)


def item_of(number: int, channel: int, application: int, proper: bytes) -> bytes:
    content = xrit.TRANSPORT.pack(number % 65536, 8 * len(proper)) + proper
    bodies = [content[at : at + BODY_BYTES] for at in range(0, len(content), BODY_BYTES)]
    return shelf.item_of(channel, application, bodies, number)


def pixels(drawn: random.Random) -> list[bytes]:
    """Some fields of a segment, which compress as clouds do."""
    fields = []
    for _ in range(8):
        rows = b""
        for _ in range(SIDE // SEGMENTS):
            level = drawn.randrange(40, 200)
            rows += bytes(max(0, min(255, level + drawn.randrange(-9, 10))) for _ in range(SIDE))
        fields.append(rows)
    return fields


def image(place: int, part: int, when: datetime.datetime, data: bytes) -> Sent:
    channel = CHANNELS[place % len(CHANNELS)]
    name = f"OR_ABI-L2-CMIPF-M6{channel}_G16_s{when:%Y%j%H%M}000_e{when:%Y%j%H%M}590_c{when:%Y%j%H%M}599_{part}.lrit"
    lines = SIDE // SEGMENTS
    records = xrit.record(xrit.STRUCTURE_KIND, xrit.STRUCTURE.pack(8, SIDE, lines, 0)) + annotation(name) + stamp(when)
    segment = segments.NOAA.pack(place % 65536, part, 0, part * lines, SEGMENTS, SIDE, SIDE)
    records += xrit.record(xrit.SEGMENT_KIND, segment)
    return IMAGE_CHANNEL, 313 + place % len(CHANNELS), xrit.mission_file(xrit.IMAGE_TYPE, records, data)


def headings(drawn: random.Random) -> list[tuple[str, str]]:
    letters = "ABCDEFGHIJKLMNOPQRSTUVWXYZ"

    def one() -> str:
        return f"{drawn.choice('FSUWNACT')}{''.join(drawn.choices(letters, k=3))}{drawn.randrange(100):02}"

    found = [one() for _ in range(1500)]
    return [(it, drawn.choice(CENTRES)) for it in found] + [("FZNT01", "KWBC")]


def text(drawn: random.Random, when: datetime.datetime, number: int, all_headings: Sequence[tuple[str, str]]) -> Sent:
    heading, centre = drawn.choice(all_headings)
    name = f"A_{heading}{centre}{when:%d%H%M}_C_KWIN_{when:%Y%m%d%H%M%S}_{number:06d}-2-TEXT.TXT"
    begin = f"\x01\r\r\n{number % 1000:03d}\r\r\n{heading} {centre} {when:%d%H%M}\r\r\n"
    body = f"{begin}{LINE * drawn.randrange(2, 12)}\x03".encode()
    kind = drawn.random()
    if kind < 0.25:
        out = io.BytesIO()
        with zipfile.ZipFile(out, "w", zipfile.ZIP_DEFLATED) as archive:
            is_gif = kind < 0.05
            archive.writestr(zipfile.ZipInfo(f"{heading}.{'GIF' if is_gif else 'TXT'}"), GIF if is_gif else body)
        name, body = name.replace("A_", "Z_").replace(".TXT", ".ZIP"), out.getvalue()
    records = annotation(name + ".lrit") + stamp(when)
    return TEXT_CHANNEL, 614, xrit.mission_file(xrit.GTS_TYPE, records, body)


def dcs(drawn: random.Random, when: datetime.datetime, number: int) -> Sent:
    records = annotation(f"pM-{when:%y%j%H%M%S}-{number}-A.dcs.lrit") + stamp(when)
    return DCS_CHANNEL, 400, xrit.mission_file(130, records, drawn.randbytes(drawn.randrange(200, 3000)))


def draw_day(path: str, begin: datetime.datetime, count: int) -> int:
    """Draws the shelf of a day."""
    drawn = random.Random(begin.toordinal())
    fields, all_headings = pixels(drawn), headings(random.Random(1))
    others = max(1, (count - IMAGES_A_DAY) // 48)
    number = 0
    with open(path + ".part", "wb") as it:
        it.write(shelf.header_of(40_000_000_000))
        for half_hour in range(48):
            when = begin + datetime.timedelta(seconds=HALF_HOUR * half_hour)
            files = []
            for channel in range(len(CHANNELS)):
                place = half_hour * len(CHANNELS) + channel
                files += [image(place, part, when, drawn.choice(fields)) for part in range(SEGMENTS)]
            for other in range(others):
                then = when + datetime.timedelta(seconds=HALF_HOUR * other // others)
                files.append(dcs(drawn, then, other) if other % 14 == 0 else text(drawn, then, other, all_headings))
            for channel, application, proper in files:
                it.write(shelf.OPEN_GATE + item_of(number, channel, application, proper))
                number += 1
        it.write(b"\0")
    os.rename(path + ".part", path)
    end = min(time.time(), begin.replace(tzinfo=datetime.timezone.utc).timestamp() + 86_399)
    os.utime(path, (end, end))
    return number


def measured(words: list[str]) -> str:
    """What a call of `gomtasil` took."""
    then = time.monotonic()
    command = [sys.executable, os.path.join(TOP, "tools", "bin", "gomtasil"), *words]
    with subprocess.Popen(command, stdout=subprocess.DEVNULL) as process:
        _, status, used = os.wait4(process.pid, 0)
        process.returncode = os.waitstatus_to_exitcode(status)
    seconds = used.ru_utime + used.ru_stime
    wall = time.monotonic() - then
    about = f"{seconds:.1f} s of a processor, {wall:.1f} s, {used.ru_maxrss // 1024} MiB"
    return f"status {process.returncode}, {about}"


def measure(folder: str, names: Sequence[str]) -> None:
    """Runs what a station runs over its shelves, and prints what each call took."""
    copies = folder.rstrip("/") + "-copies"
    calls = {
        "page": ["page", folder, copies + "/page", "--rate", "927000"],
        "find": ["find", "FZNT01", folder],
        "state": ["state", "--full", "100", folder],
        "pictures": ["pictures", folder, copies + "/pictures", "--days", "--quiet"],
    }
    for name in names or calls:
        for turn in ("first", "again"):
            print(f"{name}, {turn}: {measured(calls[name])}", flush=True)


def draw(folder: str, days: int, files: int) -> None:
    os.makedirs(folder, exist_ok=True)
    today = datetime.datetime.combine(datetime.datetime.now(datetime.timezone.utc).date(), datetime.time())
    for back in range(days - 1, -1, -1):
        begin = today - datetime.timedelta(days=back)
        path = os.path.join(folder, f"{begin:%Y-%m-%d}.shelf")
        if not os.path.exists(path):
            print(path, draw_day(path, begin, files), "files", flush=True)


def main() -> None:
    words = argparse.ArgumentParser(description=__doc__)
    words.add_argument("folder", help="the folder of the shelves")
    words.add_argument("days", nargs="?", type=int, default=DAYS, help="shelves (default %(default)s)")
    words.add_argument("files", nargs="?", type=int, default=FILES, help="files of a day (default %(default)s)")
    about = "measure these calls over the shelves of the folder: page, find, state, pictures (default all)"
    words.add_argument("--measure", nargs="*", metavar="CALL", help=about)
    given = words.parse_args()
    if given.measure is not None:
        measure(given.folder, given.measure)
    else:
        draw(given.folder, given.days, given.files)


main()
