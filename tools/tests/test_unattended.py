"""What the units of a station do with files by themselves: pictures in folders of days, finished as they are wished,
loops, the newest bulletins, the search, choice by heading, and a page that is served."""

import io
import os
import re
import subprocess
import time
from typing import Any

from .support import (
    COMMAND,
    Case,
    Writer,
    added,
    discard,
    ended,
    image,
    named,
    navigation,
    needs_page,
    needs_pillow,
    noaa,
    read,
    record,
    shelf_of,
    stamp,
    start,
    tree,
    wait_for,
    write,
    zip_of,
)

DAY = 25_170  # 30 November 2026, as stamps count
BULLETIN = b"\1\r\r\n001\r\r\n%s %s 301200\r\r\nTEXT %d\r\r\n\3"


def picture(number: Any, channel: Any = b"C13", part: Any = 0, count: Any = 1, days: Any = DAY, side: Any = 64) -> Any:
    """An image, or a segment of one, with a stamp half an hour after the one before."""
    more = [
        record(4, b"OR_ABI-L2-CMIPF-M6%s_G16_s%011d_%d.lrit" % (channel, number, part)),
        stamp(days, 1_800_000 * (number % 48)),
        navigation("-75.2", 12_000_000, 32, 32),
    ]
    if count > 1:
        more.append(noaa(number, part, part * side // count, count, side, side))
    return image(8, side, side // count, bytes(range(number, number + 64)) * (side * side // count // 64), 0, more)


def bulletin(number: Any, heading: Any = b"FZNT01", centre: Any = b"KWBC", is_named: Any = True) -> Any:
    name = (
        b"A_%s%s301200_C_KWIN_20261130120000_%06d-2-X.TXT" % (heading, centre, number) if is_named else b"T%d" % number
    )
    return named(name + b".lrit", 2, BULLETIN % (heading, centre, number), stamp(DAY, 1000 * number))


def files_in(folder: Any) -> Any:
    return sorted(os.path.relpath(it, folder) for it, data in tree(folder).items() if data is not None)


def opened(path: Any) -> Any:
    from PIL import Image

    return Image.open(io.BytesIO(read(path)))


@needs_pillow
class Pictures(Case):
    def shelf(self, day: Any, files: Any) -> None:
        os.makedirs("station", exist_ok=True)
        write(f"station/{day}.shelf", shelf_of([added(it, file, 13, 313) for it, file in enumerate(files)]))

    def test_whole_pictures_in_folders_of_days(self) -> None:
        for place in range(4):
            parts = [picture(place, b"C02", part, 4, DAY + place) for part in range(4 if place != 3 else 2)]
            self.shelf(f"2026-11-{30 + place}" if place == 0 else f"2026-12-0{place}", parts)
        words = ("pictures", "station", "pictures", "--whole", "--quiet", "--no-latest")
        out, _ = self.call(*words, "--days")
        self.assertEqual(out, "3 pictures\n")
        days = ["2026-11-30", "2026-12-01", "2026-12-02"]
        self.assertEqual([it.split("/")[0] for it in files_in("pictures") if it[0] != "."], days)
        self.shelf("2026-12-03", [picture(3, b"C02", part, 4, DAY + 3) for part in range(4)])
        out, said = self.call(*words, "--keep-days", "2")
        self.assertEqual(out, "1 pictures\n")
        self.assertIn("removed pictures/2026-11-30", said)
        for _ in range(2):
            self.assertEqual(self.call(*words, "--keep-days", "2"), ("", ""), "what has gone isn't drawn again")
        self.shelf("2026-11-30", [picture(0, b"C02", part, 4, DAY) for part in range(4)])
        self.assertEqual(self.call(*words, "--keep-days", "2"), ("", ""))
        os.unlink("station/2026-11-30.shelf")
        self.call(*words, "--keep-days", "2")
        self.assertNotIn("2026-11-30.json", os.listdir("pictures/.pictures"), "a note goes with its shelf")

    def test_crop_scale_overlay_and_jpeg(self) -> None:
        self.shelf("2026-11-30", [picture(1), picture(2, b"C02")])
        write("lines", b"".join(b"%.2f %.2f\n" % (-75.2 + it / 20, it / 20) for it in range(-10, 11)))
        self.call("pictures", "station", "a", "--crop", "30x20+10+5", "--jpeg", "--no-latest")
        (name,) = [it for it in files_in("a") if "C13" in it]
        found = opened(f"a/{name}")
        self.assertEqual((found.format, found.size), ("JPEG", (30, 20)))
        self.call(
            "pictures", "station", "b", "--lines", "lines", "--scale", "16", "--enhance", "*C13*=ir", "--no-latest"
        )
        sizes = {it: opened(f"b/{it}").size for it in files_in("b") if it.endswith(".png")}
        self.assertEqual((len(sizes), set(sizes.values())), (3, {(16, 16)}))
        self.call("pictures", "station", "c", "--lines", "lines", "--false-colour", "*C02*", "*C13*", "--no-latest")
        drawn = opened([f"c/{it}" for it in files_in("c") if "C13" in it][0]).convert("RGB")
        colours = {it for _, it in drawn.getcolors(5000)}
        self.assertIn((255, 220, 0), colours, "the lines are drawn")
        for words in (("--crop", "0x1+2+3"), ("--crop", "x"), ("--jpeg", "0"), ("--scale", "0")):
            self.call("pictures", "station", "d", *words, status=2)

    def test_a_loop(self) -> None:
        self.shelf("2026-11-30", [picture(it) for it in range(60)] + [picture(3, b"C02")])
        words = ("pictures", "station", "a", "--loop", "*C13*=c13.gif", "--loop", "*C13*=c13.png", "--days", "--quiet")
        self.assertEqual(self.call(*words)[0], "63 pictures\n")
        self.assertEqual((opened("a/c13.gif").n_frames, opened("a/c13.png").n_frames), (48, 48))
        self.assertEqual(opened("a/c13.gif").info["loop"], 0)
        self.assertEqual(self.call(*words)[0], "")
        for word in ("x", "*=../x.gif", "*=x.mp4"):
            self.call("pictures", "station", "a", "--loop", word, status=2)


@needs_pillow
class Bulletins(Case):
    def setUp(self) -> None:
        super().setUp()
        os.mkdir("station")
        zipped = named(
            b"HSF.ZIP", 2, zip_of(("HSFEP1.TXT", BULLETIN % (b"FZPN01", b"KWBC", 5)), ("MAP.GIF", b"GIF89a"))
        )
        self.files = [bulletin(0), bulletin(1, b"WTNT31", b"KNHC"), bulletin(2), zipped]
        self.files += [bulletin(4, b"FZNT01", b"EGRR"), named(b"NOTE", 2, b"no heading"), picture(6)]
        self.files += [bulletin(7, b"SXUS01", is_named=False)]
        items = [added(it, file, 20, 614) for it, file in enumerate(self.files)]
        write("station/2026-11-30.shelf", shelf_of(items))

    def test_the_newest_of_each_heading(self) -> None:
        words = ("contents", "station", "contents", "--latest", "--quiet")
        self.assertEqual(self.call(*words)[0], "8 files\n")
        names = ["FZNT01-EGRR.txt", "FZNT01-KWBC.txt", "FZPN01-KWBC.txt", "SXUS01-KWBC.txt", "WTNT31-KNHC.txt"]
        self.assertEqual(sorted(os.listdir("contents/latest")), names)
        self.assertIn(b"TEXT 2\n", read("contents/latest/FZNT01-KWBC.txt"))
        write("station/2026-12-01.shelf", shelf_of([added(0, bulletin(9, b"WTNT31", b"KNHC"), 20, 614)]))
        write("station/2026-11-01.shelf", shelf_of([added(0, bulletin(8), 20, 614)]))
        self.call(*words)
        self.assertIn(b"TEXT 9\n", read("contents/latest/WTNT31-KNHC.txt"))
        self.assertIn(b"TEXT 2\n", read("contents/latest/FZNT01-KWBC.txt"), "a shelf of before isn't newer")
        logs = {"2026-11-01.log", "2026-11-30.log", "2026-12-01.log"}
        self.assertLessEqual(logs, set(os.listdir("contents/.contents")))
        os.unlink("station/2026-11-01.shelf")
        self.call(*words)
        self.assertNotIn("2026-11-01.log", os.listdir("contents/.contents"), "a log goes with its shelf")
        self.assertNotIn("2026-11-01.names", os.listdir("station/.state/names"))

    def test_a_kill_loses_no_newest_one(self) -> None:
        """Whatever is killed when: what has its name is among the newest."""
        for place in range(12):
            process = start("contents", "station", f"out{place}", "--latest")
            time.sleep(0.03 * place)
            process.kill()
            process.communicate()
            self.call("contents", "station", f"out{place}", "--latest")
            self.assertEqual(len(os.listdir(f"out{place}/latest")), 5)

    def test_choice_by_heading(self) -> None:
        for pattern, numbers in (("FZ??*", [0, 2, 3, 4]), ("*-KNHC", [1]), ("??NT*-KWBC", [0, 2]), ("SXUS01*", [7])):
            for command in ("follow", "contents"):
                folder = f"{command}-{numbers[0]}{numbers[-1]}"
                out, _ = self.call(command, "station", folder, "--heading", pattern)
                self.assertEqual([int(it.split()[0]) for it in out.splitlines()], numbers, pattern)
        out, _ = self.call("contents", "station", "named", "--heading", "FZ*", "--name", "{day}/{heading}-{number}")
        self.assertIn("0 2026-11-30/FZNT01-KWBC-000000.txt\n", out)
        self.assertIn("4 2026-11-30/FZNT01-EGRR-000004.txt\n", out)

    def test_find(self) -> None:
        wanted = {
            "FZNT01": [0, 2, 4],
            "fznt01 kwbc": [0, 2],
            "FZNT01 KWBC*": [0, 2],
            "hsfep1": [3],
            "*.GIF": [3],
            "FZPN*": [3],
            "NOTE": [5],
            "OR_ABI*C13*": [6],
            "SXUS01 KWBC": [7],
            "[": [],
            "a.b(c": [],
        }
        for _ in range(2):
            for pattern, numbers in wanted.items():
                out, _ = self.call("find", pattern, "station", status=int(not numbers))
                self.assertEqual([int(it.split()[1]) for it in out.splitlines()], numbers, pattern)
        writer = Writer("station/2026-12-01.shelf")
        writer.append(added(0, bulletin(9), 20, 614))
        self.call("find", "FZNT01", "station")
        writer.append(added(1, bulletin(10), 20, 614))
        writer.append(discard(0))
        out, _ = self.call("find", "FZNT01", "station")
        self.assertEqual(len(out.splitlines()), 4)
        self.assertIn("station/2026-12-01.shelf 1 A_FZNT01KWBC301200", out)
        for data in (b"", b"x", b"[]"):
            write("station/.state/names/2026-12-01.json", data)
            self.assertEqual(self.call("find", "FZNT01", "station")[0], out)
        os.unlink("station/.state/names/2026-12-01.names")
        self.assertEqual(self.call("find", "FZNT01", "station")[0], out)
        write("station/2026-12-01.shelf", shelf_of([added(0, bulletin(3, b"ABCD01"), 20, 614)]))
        self.assertEqual(len(self.call("find", "FZNT01", "station")[0].splitlines()), 3, "another shelf in its place")
        self.call("find", "FZNT01", "nowhere", status=1)
        self.call("find", "FZNT01", status=2)
        self.call("find", "FZNT01", "station/2026-11-30.shelf")

    def test_hostile_names_are_lines(self) -> None:
        names = [b"a\nb\tc", b"\xe2\x80\xa8", b"x" * 4000, b"\x1b[2J", b", , "]
        items = [added(it, named(name, 2, b"text"), 1, 1) for it, name in enumerate(names)]
        write("station/2026-11-30.shelf", shelf_of(items))
        out, _ = self.call("find", "*", "station")
        self.assertEqual(len(out.split("\n")), len(names) + 1)
        self.assertNotIn("\x1b", out)


@needs_page
class Web(Case):
    def test_a_page_that_others_write(self) -> None:
        write("my.shelf", shelf_of([added(0, picture(0))]))
        process = start("web", "page", "0.0.0.0:0")
        addresses = [process.stdout.readline().decode().strip()]
        while not addresses[-1].startswith("http://127.0.0.1:"):
            addresses.append(process.stdout.readline().decode().strip())
        self.call("page", "my.shelf", "page")
        for address in addresses:
            self.assertNotIn("0.0.0.0", address)
            code = "import sys, urllib.request; print(urllib.request.urlopen(sys.argv[1]).read().decode())"
            done = subprocess.run([COMMAND[0], "-c", code, address], capture_output=True, text=True)
            self.assertIn("<h1>my.shelf</h1>", done.stdout)
        self.assertEqual(ended(process), 0)


class Quality(Case):
    def test_json(self) -> None:
        lines = b"window 0 at 0 polarity + restored 1 2 3 4\nwindow 1 at 2000 polarity + lost 2\n"
        lines += b"".join(b"window %d at %d polarity + restored 0 0 0 0\n" % (it, 1000 * it) for it in range(2, 70))
        process = start("quality", "--rate", "1000", "--json", stdin=subprocess.PIPE)
        out, _ = process.communicate(lines)
        rows = out.decode().splitlines()
        self.assertEqual(len(rows), 70)
        first = '{"second": 0, "frames": 1, "lost": 0, "corrected": 10, "redecoded": 0}'
        self.assertEqual(rows[:2], [first, '{"second": 1, "frames": 0, "lost": 0, "corrected": 0, "redecoded": 0}'])
        self.assertEqual(process.returncode, 0)

    def test_a_reception_that_begins(self) -> None:
        """Says so where the last line is old, and leaves what a reception said that ends again and again."""
        os.mkdir("kept")
        for line, age, wanted in ((None, 0, b"started\n"), (b"x\n", 600, b"started\n"), (b"x\n", 10, b"x\n")):
            if line:
                write("kept/quality", line)
                os.utime("kept/quality", (time.time() - age,) * 2)
            process = start("quality", "--rate", "1000", "--keep", "kept", stdin=subprocess.PIPE)
            wait_for(lambda: os.path.exists("kept/quality") and read("kept/quality") == wanted)
            process.kill()
            process.communicate()

    def test_align(self) -> None:
        done = subprocess.run([*COMMAND, "sample", "1"], capture_output=True)
        frames = done.stdout[: 892 * 40]
        for start_ in (0, 1, 500, 892 * 3 + 891):
            process = start("align", "frames", stdin=subprocess.PIPE)
            out, _ = process.communicate(frames[start_:])
            self.assertTrue(frames.endswith(out) and len(out) % 892 == 0)
            self.assertGreaterEqual(len(out), 892 * 20)
        process = start("align", "symbols", stdin=subprocess.PIPE)
        self.assertEqual(process.communicate(b"any")[0], b"any")
        process = start("align", "frames", stdin=subprocess.PIPE)
        self.assertEqual(process.communicate(bytes(892 * 30))[0], b"")
        self.assertIsNone(re.search("Traceback", str(process.returncode)))
