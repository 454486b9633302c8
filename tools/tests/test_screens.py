"""The page of a station as people see it: wide, dark and on a phone, in headless Chromium. With SCREENSHOTS=FOLDER the
screenshots come there; three of them stand in docs/."""

import datetime
import os
import random
import shutil
import subprocess
import time
from collections.abc import Iterator
from typing import Any

from .support import SECONDS, TOP, Case, added, image, named, needs_page, noaa, read, record, shelf_of, stamp, write

SIDE = 640
BEGIN = datetime.datetime(1958, 1, 1)
CHANNELS = (("C02", 1.0, 0), ("C07", 0.8, 30), ("C09", -0.5, 200), ("C13", -0.85, 235))
TEXTS = (
    ("WWUS82 KWBC", "SPECIAL MARINE WARNING\nGALE WARNING FOR THE OFFSHORE WATERS UNTIL 18 UTC"),
    ("FZNT01 KWBC", "HIGH SEAS FORECAST\nNORTH ATLANTIC: WEST 5 TO 6, SEA 2.5 METERS, RAIN AT TIMES."),
    ("SMCA01 TNCC", "AAXX 30121\n78988 32470 80610 10295 20245 30107 40115 57013 82501"),
    ("FTUS80 KWBC", "TAF KJFK 301130Z 3012/0118 24012KT P6SM SCT040"),
    ("NOUS42 KWNO", "ADMINISTRATIVE MESSAGE\nALL SYSTEMS NOMINAL"),
)
VIEWS = (("wide", 1, 1280, 2150), ("dark", 0, 1280, 2150), ("phone", 1, 500, 1500))


def segments(pixels: Any, channel: Any, when: Any, number: Any) -> Iterator[Any]:
    for part in range(4):
        name = b"OR_ABI-L2-CMIPF-M6%s_G16_s%s_%d.lrit" % (channel.encode(), when.strftime("%Y%j%H%M").encode(), part)
        since = when - BEGIN
        records = [
            record(4, name),
            stamp(since.days, 1000 * since.seconds),
            noaa(number, part, 160 * part, 4, SIDE, SIDE),
        ]
        yield image(8, SIDE, 160, pixels[SIDE * 160 * part : SIDE * 160 * (part + 1)], 0, records)


def day(now: Any) -> Any:
    """The files of some hours: a full disk in four channels each half hour, and bulletins."""
    from PIL import Image, ImageFilter

    earth = Image.open(os.path.join(TOP, "docs", "earth.png")).convert("L")
    draws, files = random.Random(3), []
    for place in range(6):
        when = now - datetime.timedelta(minutes=30 * (6 - place))
        for number, (channel, slope, offset) in enumerate(CHANNELS):
            drawn = earth.filter(ImageFilter.GaussianBlur(number)).point(
                lambda it: max(0, min(255, it * slope + offset))
            )
            mask = earth.point(lambda it: 255 if it else 0)
            pixels = Image.composite(drawn, Image.new("L", earth.size), mask).tobytes()
            parts = list(segments(pixels, channel, when, 10 * place + number))
            files += [
                (13, 313 + number, it) for it in (parts[:2] + parts[3:] if (place, channel) == (2, "C07") else parts)
            ]
        for _ in range(25):
            heading, text = draws.choice(TEXTS)
            body = f"\x01\r\r\n{heading} {when:%d%H%M}\r\r\n{text}\r\r\n\x03".encode()
            number = len(files)
            name = f"A_{heading.replace(' ', '')}{when:%d%H%M}_C_KWIN_{when:%Y%m%d%H%M%S}_{number:06d}-2-TEXT.TXT.lrit"
            files.append((20, 614, named(name.encode(), 2, body)))
    return files


@needs_page
class Screens(Case):
    def setUp(self) -> None:
        super().setUp()
        self.browser = shutil.which("chromium") or shutil.which("chromium-browser") or ""
        if not self.browser:
            self.skipTest("chromium is missing")
        now = datetime.datetime.now(datetime.timezone.utc).replace(tzinfo=None)
        files, rate = day(now), 927_000
        os.mkdir("station")
        frames = int(3 * 3600 * rate / 16384)
        items = []
        for number, (channel, application, file) in enumerate(files):
            last = frames * (number + 1) // len(files)
            items.append(added(number, file, channel, application, (last, last, 3 + number % 9)))
        write(f"station/{now:%Y-%m-%d}.shelf", shelf_of(items))
        write("station/2026-11-29.shelf", shelf_of(items[:3]))
        os.utime("station/2026-11-29.shelf", (time.time() - 90_000, time.time() - 90_000))
        draws = random.Random(5)
        rows = []
        for minute in range(720):
            noise = 6 + 5 * abs((minute % 240) - 120) / 120 + draws.random() * 3
            lost = draws.randint(40, 300) if 300 < minute < 318 else int(draws.random() > 0.97)
            rows.append(f"{int(time.time()) - 60 * (720 - minute)} 3395 {lost} {int(noise * 3395)}\n")
        write("station/minutes", "".join(rows).encode())
        write("station/quality", b"minute 719 frames 3395 lost 0 corrected 8.10\n")
        self.call("page", "station", "page", "--rate", str(rate))

    def test_wide_dark_and_phone(self) -> None:
        for what, scheme, width, height in VIEWS:
            words = [self.browser, "--headless", "--no-sandbox", "--disable-gpu", "--hide-scrollbars"]
            words += [f"--blink-settings=preferredColorScheme={scheme}", f"--user-data-dir={os.getcwd()}/profile"]
            words += [
                f"--window-size={width},{height}",
                "--virtual-time-budget=3000",
                f"--screenshot={os.getcwd()}/{what}.png",
            ]
            subprocess.run(
                [*words, f"file://{os.getcwd()}/page/index.html"], capture_output=True, timeout=SECONDS, check=True
            )
            self.assertGreater(os.path.getsize(f"{what}.png"), 30_000)
            if os.environ.get("SCREENSHOTS"):
                shutil.copy(f"{what}.png", os.environ["SCREENSHOTS"])
        self.assertNotEqual(read("wide.png"), read("dark.png"))
