"""The page of a shelf and of a station's folder: hostile names and texts, what is kept, how it goes, and a browser."""

import http.client
import io
import os
import re
import shutil
import signal
import subprocess
import time
from collections.abc import Iterator
from typing import Any

from .support import (
    SECONDS,
    TOP,
    Case,
    Writer,
    added,
    discard,
    ended,
    image,
    match,
    named,
    needs_page,
    noaa,
    numbered,
    read,
    record,
    shelf_of,
    stamp,
    start,
    text_file,
    tree,
    wait_for,
    write,
    zip_of,
)

MARKS = [
    b"<script>document.body.dataset.run=1</script>",
    b'"><img src=x onerror="document.body.dataset.run=1">',
    b'<svg onload="document.body.dataset.run=1">',
    b"</pre></details><script>document.body.dataset.run=1</script>",
    b"'onmouseover='document.body.dataset.run=1",
    b"javascript:document.body.dataset.run=1",
    b'<iframe src="javascript:parent.document.body.dataset.run=1">',
    b"</title><script>document.body.dataset.run=1</script>",
    b"<!--",
    b"&lt;script&gt;",
    b"\x1b[2J",
    b"\xe2\x80\xae reversed",
    b"<style>body{display:none}</style>",
    b"<meta http-equiv=refresh content='0;url=http://127.0.0.1/'>",
    b"{{ 7*7 }}{% raw %}{{ self }}",
]
LOOK = """<script>
addEventListener("load", () => setTimeout(() => {
  document.querySelectorAll("details").forEach(it => it.open = true);
  document.querySelectorAll("img").forEach(it => it.loading = "eager");
  setTimeout(() => {
    const images = [...document.images];
    const loaded = images.filter(it => it.complete && it.naturalWidth).length;
    const wide = document.documentElement.scrollWidth > innerWidth;
    const found = { images: images.length, loaded, run: document.body.dataset.run || "", wide, width: innerWidth };
    document.title = JSON.stringify(found);
    parent.postMessage(document.title, "*");
  }, 500);
}, 300));
</script>"""
FRAME = """<!DOCTYPE html><title></title><script>onmessage = it => document.title = it.data;</script>
<iframe src="PAGE" width="PIXELS" height="1500" style="border: 0"></iframe>"""
PHONE_PIXELS = 360
RECEIVED = b"""symbols 1 frames 100 restored 90 lost 10 packets 5 files 1 left 0 stop end
shelved 0 vc 1 apid 1 counter 0 bytes 1 packets 1
symbols 1 frames 1 restored 1 lost 0 packets 1 files 1 left 0 stop end
"""
STATION = b"Nov 30 12:00:00 ship station.sh[1]: minute 0 frames 3662 lost 200 corrected 0.42\n"


def files_of_page() -> Iterator[Any]:
    """Hostile texts, three of four segments by NOAA's record, two of three by JMA's, and a hostile name."""
    yield from (named(it, 2, it + b"\r\r\n" + it) for it in MARKS)
    for number in (0, 1, 3):
        yield image(
            8, 16, 4, os.urandom(64), 0, [record(4, b"SEG_%d" % number), noaa(7, number, 4 * number, 4, 16, 16)]
        )
    for number in (1, 2):
        more = [record(4, b"IMG_DK01_%03d" % number), numbered(number, 3, 4 * number - 3)]
        yield image(16, 16, 4, os.urandom(128), 0, more)
    yield image(10, 16, 4, os.urandom(80), 0, [record(4, MARKS[1])])


def earth(number: Any, when: Any = 0, side: Any = 64, count: Any = 4) -> Iterator[Any]:
    """The segments of a full disk."""
    for part in range(count):
        name = b"OR_ABI-L2-CMIPF-M6C13_G16_s%011d_%d.lrit" % (number, part)
        place = noaa(number, part, part * side // count, count, side, side)
        yield image(
            8,
            side,
            side // count,
            os.urandom(side * side // count),
            0,
            [record(4, name), stamp(25000, 1000 * when), place],
        )


def bulletin(number: Any) -> Any:
    text = b"\x01\r\r\n%03d\r\r\nWWUS%02d KWBC 301200\r\r\nGALE WARNING %d\r\r\n\x03" % (
        number % 1000,
        number % 100,
        number,
    )
    return named(b"A_WWUS%02dKWBC301200_C_KWIN_20261130120000_%06d-2-GALE.TXT.lrit" % (number % 100, number), 2, text)


def aged(path: Any, seconds: Any) -> None:
    then = time.time() - seconds
    os.utime(path, (then, then))


def text_of(folder: Any) -> Any:
    return read(f"{folder}/index.html").decode()


@needs_page
class Page(Case):
    def setUp(self) -> None:
        super().setUp()
        places = enumerate(files_of_page())
        self.items = [added(number, it, 5, 300, (10 * number, 10 * number + 9, 30 * number)) for number, it in places]
        write("page.shelf", shelf_of([*self.items, discard(8)]))
        aged("page.shelf", 3600)
        write("received.log", RECEIVED)
        self.call("page", "page.shelf", "page", "--log", "received.log")
        self.text = text_of("page")

    def test_what_is_shown(self) -> None:
        count = len(self.items) - 1
        self.assertIsNone(re.search(r"<(script|iframe|style>body)|49\{%", self.text), "no element of a hostile name")
        self.assertEqual((self.text.count("<svg"), self.text.count("<circle")), (1, count))
        self.assertEqual(self.text.count("segments missing: 3"), 4, "two figures and two lines")
        self.assertIn("Frames: 101, of which 10 were lost.", self.text)
        self.assertIn("Files discarded: 1. With a bad checksum among the newest: 0.", self.text)
        self.assertNotIn(MARKS[8].decode(), self.text)
        row = "".join(f'<td class="number">{it}</td>' for it in (5, 300, count))
        self.assertIn(row, self.text)
        self.assertIn("{{ 7*7 }}", self.text, "a text is no template")

    def test_a_second_page_is_the_same_and_shows_less_where_it_is_asked_to(self) -> None:
        before = {path: data for path, data in tree("page").items() if "pictures" in path}
        self.call("page", "page.shelf", "page", "--log", "received.log")
        self.assertEqual({path: data for path, data in tree("page").items() if "pictures" in path}, before)
        self.call("page", "page.shelf", "few", "--newest", "3")
        self.assertEqual(text_of("few").count('<figure><a href="pictures/'), 3)
        write("empty.shelf", shelf_of([]))
        self.call("page", "empty.shelf", "empty")
        self.assertIn("no file yet", text_of("empty"))
        for words in ((), ("page.shelf",), ("page.shelf", "x", "--newest", "0"), ("page.shelf", "x", "--other", "1")):
            self.call("page", *words, status=2)
        self.call("page", "nowhere.shelf", "none", status=1)

    def test_in_a_browser(self) -> None:
        browser = shutil.which("chromium") or shutil.which("chromium-browser")
        if not browser:
            self.skipTest("chromium is missing")
        policy = match(r'<meta http-equiv="Content-Security-Policy"[^>]*>', self.text)[0]
        # (a copy without the policy, so that what could run would run, and with a script that looks)
        write("page/looked.html", self.text.replace(policy, "").replace("</body>", LOOK + "</body>").encode())
        for name in ("index", "looked"):
            framed = FRAME.replace("PAGE", f"{name}.html").replace("PIXELS", str(PHONE_PIXELS))
            write(f"page/{name}-phone.html", framed.encode())
        for what, scheme, end, width in (
            ("light", 1, "", 1200),
            ("dark", 0, "", 1200),
            ("phone", 1, "-phone", PHONE_PIXELS),
        ):
            words = [f"--blink-settings=preferredColorScheme={scheme}", f"--screenshot={os.getcwd()}/{what}.png"]
            self.browse(browser, f"index{end}.html", *words)
            shown = self.browse(browser, f"looked{end}.html", words[0], "--dump-dom")
            told = match(r"<title>(.*?)</title>", shown)[1]
            self.assertEqual(told, f'{{"images":4,"loaded":4,"run":"","wide":false,"width":{width}}}', what)
            self.assertGreater(os.path.getsize(f"{what}.png"), 10_000)
        self.assertNotEqual(read("light.png"), read("dark.png"))

    def browse(self, browser: Any, name: Any, *words: Any) -> Any:
        """What the browser writes of a page. It says nothing in the console."""
        command = [
            browser,
            "--headless",
            "--no-sandbox",
            "--disable-gpu",
            "--enable-logging=stderr",
            "--hide-scrollbars",
        ]
        command += ["--window-size=1200,1600", "--virtual-time-budget=4000", f"--user-data-dir={os.getcwd()}/profile"]
        done = subprocess.run(
            [*command, *words, f"file://{os.getcwd()}/page/{name}"], capture_output=True, text=True, timeout=SECONDS
        )
        self.assertEqual([line for line in done.stderr.splitlines() if "CONSOLE" in line], [])
        return done.stdout


@needs_page
class Kept(Case):
    """The newest pictures of each kind stay, whatever else comes, and old ones go."""

    def test_an_earth_stays_over_bulletins(self) -> None:
        items = [added(it, file, 13, 313) for it, file in enumerate(earth(1))]
        items += [added(4 + it, bulletin(it), 20, 614) for it in range(600)]
        write("day.shelf", shelf_of(items))
        self.call("page", "day.shelf", "page")
        text = text_of("page")
        self.assertIn("GOES-16 full disk, channel 13", text)
        self.assertIn("Newest full disk", text)
        self.assertEqual(text.count("<pre>"), 100, "the newest of each heading")
        self.assertIn("<summary>Warnings (100)</summary>", text)
        self.assertEqual(len(re.findall(r"GALE WARNING [5][0-9][0-9]\n", text)), 100)

    def test_a_rare_image_stays_over_many_others(self) -> None:
        items = [added(it, file, 13, 313) for it, file in enumerate(earth(1))]
        items += [added(4 + it, image(8, 2, 2, b"abcd", 0, [record(4, b"MESO")]), 14, 400) for it in range(300)]
        write("day.shelf", shelf_of(items))
        self.call("page", "day.shelf", "page", "--newest", "50")
        text = text_of("page")
        self.assertIn("GOES-16 full disk, channel 13", text)
        self.assertIn("49 older", text)

    def test_images_are_counted_and_not_files(self) -> None:
        """28 whole images of 16 segments: more files than are shown, and nothing is missing."""
        files = [file for number in range(28) for file in earth(number, number, 64, 16)]
        write("day.shelf", shelf_of([added(it, file, 13, 313) for it, file in enumerate(files)]))
        aged("day.shelf", 3600)
        for newest in ("200", "5", "1"):
            self.call("page", "day.shelf", f"page{newest}", "--newest", newest)
            text = text_of(f"page{newest}")
            self.assertNotIn("segments missing", text)
            self.assertEqual(text.count("<figure><a"), min(28, int(newest)))

    def test_an_image_that_is_coming_is_not_the_first_one(self) -> None:
        files = [file for number in range(2) for file in earth(number, number, 64, 16)][:21]
        items = [added(it, file, 13, 313, (it, it, 0)) for it, file in enumerate(files)]
        write("day.shelf", shelf_of(items))
        self.call("page", "day.shelf", "page")
        text = text_of("page")
        self.assertEqual(text.count("still coming: 5 of 16"), 1)
        self.assertNotIn("segments missing", text)
        for first in re.findall(r'id="(?:newest|pictures)".*?</figcaption>', text, re.DOTALL):
            self.assertIn("files 0-15", first)
        aged("day.shelf", 3600)
        self.call("page", "day.shelf", "page")
        self.assertEqual(text_of("page").count("segments missing: 6 to 16"), 2)

    def test_an_image_that_is_coming_is_not_drawn_each_time(self) -> None:
        files = list(earth(1, 0, 64, 4))
        for count in (2, 3):
            write("day.shelf", shelf_of([added(it, file, 13, 313) for it, file in enumerate(files[:count])]))
            self.call("page", "day.shelf", "page")
            names = sorted(os.listdir("page/pictures"))
            if count == 2:
                before = names
        self.assertEqual(names, before)
        notes = read("page/.page/pictures.json").decode()
        write("page/.page/pictures.json", re.sub(r'"at": [0-9.]+', f'"at": {time.time() - 301}', notes).encode())
        self.call("page", "day.shelf", "page")
        self.assertNotEqual(sorted(os.listdir("page/pictures")), before)
        write("day.shelf", shelf_of([added(it, file, 13, 313) for it, file in enumerate(files)]))
        self.call("page", "day.shelf", "page")
        self.assertNotIn("still coming", text_of("page"), "a whole one is drawn at once")

    def test_two_runs_into_one_folder(self) -> None:
        for name in ("one", "two"):
            files = [file for number in range(4) for file in earth(number, number, 256)]
            write(f"{name}.shelf", shelf_of([added(it, file, 13, 313) for it, file in enumerate(files)]))
        for _ in range(3):
            both = [start("page", f"{name}.shelf", "page") for name in ("one", "two")]
            for it in both:
                _, said = it.communicate(timeout=SECONDS)
                self.assertEqual((it.returncode, said), (0, b""))
            for name in re.findall(r'(?:src|href)="(pictures/[^"]*)"', text_of("page")):
                self.assertTrue(os.path.exists(f"page/{name}"))
            shutil.rmtree("page")

    def test_the_newest_of_each_heading(self) -> None:
        """A bulletin that is sent every six hours is on the page while others come, with its text."""
        os.mkdir("station")
        rare = named(
            b"A_FZNT01KWBC301200_C_KWIN_20261130120000_000001-2-HSF.TXT", 2, b"FZNT01 KWBC 301200\r\nHIGH SEAS"
        )
        zip_ = named(b"HSF.ZIP", 2, zip_of(("HSFEP1.TXT", b"FZPN01 KWBC 301200\r\nPACIFIC")))
        files = [rare, zip_, *map(bulletin, range(600))]
        write("station/2026-11-30.shelf", shelf_of([added(it, file, 20, 614) for it, file in enumerate(files)]))
        write("station/2026-12-01.shelf", shelf_of([added(it, bulletin(it), 20, 614) for it in range(3)]))
        self.call("page", "station", "page")
        text = text_of("page")
        for words in ("FZNT01 KWBC</span>", "HIGH SEAS", "FZPN01 KWBC</span>", "PACIFIC", "GALE WARNING 2\n"):
            self.assertEqual(text.count(words), 1, words)
        self.assertNotIn("GALE WARNING 502\n", text, "an older one of the same heading")
        self.assertRegex(text, r'<details class="group" open><summary>Warnings')
        self.assertEqual(sorted(os.listdir("station/.state/names"))[0], "2026-11-30.json")

    def test_old_pictures_go(self) -> None:
        writer = Writer("day.shelf")
        for round_ in range(3):
            for part, file in enumerate(earth(round_)):
                writer.append(added(4 * round_ + part, file))
                self.call("page", "day.shelf", "page", "--newest", "1")
        for name in ("mine.png", "000001-0123456789abcdef01234567-small.png", ".x.png.77.part"):
            write(f"page/pictures/{name}", b"x")
        self.call("page", "day.shelf", "page", "--newest", "1")
        names = sorted(os.listdir("page/pictures"))
        self.assertEqual(len(names), 4, names)
        self.assertIn("mine.png", names)
        write("next.shelf", shelf_of([]))
        self.call("page", "next.shelf", "page")
        self.assertEqual(os.listdir("page/pictures"), ["mine.png"])

    def test_unbounded_lists_are_few_words(self) -> None:
        write("hole.shelf", shelf_of([added(0, image(8, 1, 1, b"x", 0, [noaa(1, 0, 0, 65535, 1, 65535)]))]))
        aged("hole.shelf", 3600)
        self.call("page", "hole.shelf", "page")
        self.assertLess(os.path.getsize("page/index.html"), 30_000)
        self.assertIn("segments missing: 2 to 65535", text_of("page"))

    def test_frames_in_disorder_hide_nothing(self) -> None:
        """The frames of a damaged item: the last one before the first one, and further off than any clock."""
        most = 2**64 - 1
        origins = [(5, 4, 0), (most, 0, most), (0, most, most), (most, most, 0), (0, 3, 7)]
        write("my.shelf", shelf_of([added(it, bulletin(it), 1, 100, row) for it, row in enumerate(origins)]))
        for words in ((), ("--rate", "1")):
            self.call("page", "my.shelf", "page", *words)
            self.assertEqual(text_of("page").count("GALE WARNING"), 5)

    def test_a_huge_picture_is_not_drawn(self) -> None:
        write("huge.shelf", shelf_of([added(0, image(8, 1, 1, b"x", 0, [noaa(1, 0, 0, 2, 16000, 16000)]))]))
        self.call("page", "huge.shelf", "page")
        self.assertIn("cannot be decoded as an image", text_of("page"))

    def test_400_pictures_are_light(self) -> None:
        from PIL import Image

        drawn = Image.open(os.path.join(TOP, "docs", "earth.png")).convert("L").resize((256, 256))
        items = []
        for number in range(400):
            pixels = drawn.rotate(number).tobytes()
            name = record(4, b"OR_ABI-L2-CMIPF-M6C13_G16_s%011d.lrit" % number)
            items.append(added(number, image(8, 256, 256, pixels, 0, [name, stamp(25000, 1000 * number)]), 13, 313))
        write("day.shelf", shelf_of(items))
        self.call("page", "day.shelf", "page", "--newest", "400")
        text = text_of("page")
        shown = set(re.findall(r'src="(pictures/[^"]*)"', text))
        size = sum(os.path.getsize(f"page/{it}") for it in shown) + len(text)
        self.assertEqual(len(shown), 401)
        self.assertLess(size, 4_000_000)
        print(f"a page of 400 pictures loads {size:,} bytes")

    def test_pictures_in_zips_and_as_they_were_sent(self) -> None:
        from PIL import Image

        out = io.BytesIO()
        Image.new("P", (300, 200), 3).save(out, "GIF")
        files = [named(b"Z", 2, zip_of(("radar.gif", out.getvalue()))), named(b"G.gif", 2, out.getvalue())]
        files.append(named(b"BAD", 2, b"GIF89a\1\0"))
        write("gif.shelf", shelf_of([added(it, file) for it, file in enumerate(files)]))
        self.call("page", "gif.shelf", "page")
        text = text_of("page")
        self.assertEqual(len(set(re.findall(r'href="(pictures/[^"]*\.gif)"', text))), 2)
        self.assertIn("<summary>1 files</summary>", text)


@needs_page
class Station(Case):
    """The page of a station's folder."""

    def setUp(self) -> None:
        super().setUp()
        os.mkdir("station")
        self.items = [added(it, file, 13, 313, (it, it, 0)) for it, file in enumerate(earth(1))]
        write("station/2026-11-29.shelf", shelf_of(self.items))
        os.utime("station/2026-11-29.shelf", (time.time() - 3600, time.time() - 3600))
        write("station/2026-11-30.shelf", shelf_of([added(0, bulletin(7), 20, 614, (0, 5, 0))]))

    def keep(self, lost: Any) -> None:
        now = int(time.time())
        rows = [f"{now - 60 * (120 - it)} 3400 {lost} {3400 * (1 + it % 7)}\n" for it in range(120)]
        write("station/minutes", "".join(rows).encode())
        write("station/quality", b"minute 119 frames 3400 lost %d corrected 3.00\n" % lost)

    def test_all_shelves_and_a_line_of_state(self) -> None:
        self.keep(0)
        self.call("page", "station", "page", "--rate", "927000")
        text = text_of("page")
        self.assertIn("GOES-16 full disk, channel 13", text)
        self.assertIn("WWUS07 KWBC</span>", text)
        self.assertIn("2026-11-29.shelf", text)
        self.assertIn('class="state well"', text)
        self.assertIn("last file 0 minutes ago", text)
        self.assertIn(
            "0 of 200600 frames lost in the last hour", text.replace("204000", "200600").replace("203", "200")
        )
        self.assertIn("Frames of the last day: 408,000, of which 0 were lost.", text)
        self.assertRegex(text, r"received \d{4}-\d\d-\d\d \d\d:\d\d")
        self.assertRegex(text, r"Written \d{4}-\d\d-\d\d \d\d:\d\d UTC")
        self.assertIn('http-equiv="refresh" content="300"', text)

    def test_losses_and_troubles_have_their_colours(self) -> None:
        self.keep(34)
        self.call("page", "station", "page")
        self.assertIn('class="state warn"', text_of("page"))
        self.assertIn("<rect", text_of("page"))
        self.keep(900)
        self.call("page", "station", "page")
        self.assertIn('class="state bad"', text_of("page"))
        self.assertIn("900 of 3400 frames lost, 26 %", text_of("page"))

    def test_an_empty_folder(self) -> None:
        os.mkdir("empty")
        self.call("page", "empty", "page")
        self.assertIn("No shelf yet.", text_of("page"))
        self.assertIn("no shelf", text_of("page"))

    def test_lines_of_a_running_station(self) -> None:
        write("log", STATION + RECEIVED)
        self.call("page", "station/2026-11-30.shelf", "page", "--log", "log")
        self.assertIn("Frames: 3662, of which 200 were lost.", text_of("page"))

    def test_a_damaged_shelf_and_a_state_that_is_none(self) -> None:
        write("station/2026-11-30.shelf", b"x" * 100)
        bad = bytearray(shelf_of(self.items))
        bad[-9] ^= 1
        write("station/2026-11-29.shelf", bytes(bad))
        self.call("page", "station", "page")
        self.assertIn("With a bad checksum among the newest: 1.", text_of("page"))
        names = os.listdir("page/.page")
        self.assertEqual(sorted(names), ["2026-11-29.json", "lock", "pictures.json"])
        for name in names:
            for data in (b"", b"[]", b'{"identity": 1}', read(f"page/.page/{name}")[:-20]):
                write(f"page/.page/{name}", data)
                self.call("page", "station", "page")

    def test_served(self) -> None:
        process = start("page", "station", "page", "--serve", "127.0.0.1:0", "--every", "1")
        address = process.stdout.readline().decode().strip()
        host = address.split("/")[2]
        os.symlink("/etc/passwd", "page/pictures/link.png")
        write("page/secret.html", b"x")

        def answer(path: Any, method: Any = "GET") -> Any:
            connection = http.client.HTTPConnection(host, timeout=10)
            connection.request(method, path)
            found = connection.getresponse()
            return found.status, found.read()

        self.assertEqual(answer("/")[1], answer("/index.html")[1])
        self.assertTrue(answer("/")[1].startswith(b"<!DOCTYPE html>"))
        picture = match(r'src="(pictures/[^"]*)"', answer("/")[1].decode())[1]
        self.assertEqual(answer(f"/{picture}")[1], read(f"page/{picture}"))
        hidden = ["/pictures/", "/pictures", "/secret.html", "/.page/", "/pictures/link.png", "/../station/quality"]
        hidden += [
            "/%2e%2e/station/2026-11-30.shelf",
            "//etc/passwd",
            "/pictures/..%2f..%2fstation%2f2026-11-30.shelf",
            "/x?y",
        ]
        for path in hidden:
            self.assertEqual(answer(path)[0], 404, path)
        self.assertEqual(answer("/", "POST")[0], 501)
        before = answer("/")[1]
        write("station/2026-12-01.shelf", shelf_of([added(0, text_file(b"new", b"A NEW TEXT"))]))
        wait_for(lambda: b"A NEW TEXT" in answer("/")[1])
        self.assertNotIn(b"A NEW TEXT", before)
        self.assertEqual(ended(process, signal.SIGTERM), 0)
        for word in ("x:y", "127.0.0.1:70000", "a b:1"):
            self.call("page", "station", "page", "--serve", word, status=2)


@needs_page
class Names(Case):
    def test_words_for_products(self) -> None:
        names = {
            b"OR_ABI-L2-CMIPF-M6C02_G18_s20263341200.lrit": "GOES-18 full disk, channel 02",
            b"OR_ABI-L2-CMIPM1-M6C07_G16_s20263341200_0.lrit": "GOES-16 mesoscale 1, channel 07",
            b"OR_ABI-L2-RRQPEF-M6_G16_s2026_e2026_c2026.lrit": "GOES-16 full disk, RRQPE",
            b"IMG_DK01B13_202611301200_003": "Himawari full disk, B13",
            b"L-000-GOMS2_-GOMS2_4_____-10_7_076E-000005___-202611301200-__": "ELEKTRO-L at 076E, 10.7 \xb5m",
            b"IMG_FD_001_IR105_20261130_120006_01.jpg": "GK-2A full disk, IR105",
            b"SAMPLE_EARTH_20261129170020_0.lrit": "SAMPLE_EARTH",
            b"12345678": "12345678",
        }
        items = [added(it, image(8, 1, 1, b"x", 0, [record(4, name)])) for it, name in enumerate(names)]
        write("names.shelf", shelf_of(items))
        self.call("page", "names.shelf", "page")
        for words in names.values():
            self.assertIn(f'alt="{words}"', text_of("page"))
