"""Whether a station is well, what is told of a trouble and when, which shelves go, and the text for Prometheus."""

import fcntl
import os
import re
import shutil
import subprocess
import sys
import time
from typing import Any

from .support import (
    TOP,
    Case,
    Writer,
    added,
    clocked,
    ended,
    needs_pillow,
    read,
    reference,
    shelf_of,
    start,
    text_file,
    tree,
    wait_for,
    write,
)

DAY = 86_400


def day(seconds: Any = 0) -> Any:
    return time.strftime("%Y-%m-%d", time.gmtime(time.time() + seconds))


def aged(path: Any, seconds: Any) -> None:
    then = time.time() - seconds
    os.utime(path, (then, then))


class Watched(Case):
    def setUp(self) -> None:
        super().setUp()
        self.anew()

    def anew(self) -> None:
        shutil.rmtree("watched", ignore_errors=True)
        os.mkdir("watched")
        self.shelf = f"watched/{day()}.shelf"
        self.writer = Writer(self.shelf)
        for number in range(3):
            self.writer.append(added(number, text_file(b"name"), 5, 200 + number % 2))
        self.quality("minute 3 frames 3662 lost 2 corrected 0.42")

    def quality(self, line: Any) -> None:
        write("watched/quality", (line + "\n").encode() if line else b"")

    def looks(self, status: Any, words: Any, *options: Any) -> Any:
        out, _ = self.call("state", *options, "watched", status=status)
        self.assertEqual(len(out.splitlines()), 1)
        self.assertIn(words, out)
        return out


class Troubles(Watched):
    def test_no_file_for_long(self) -> None:
        self.looks(0, "2 of 3662 frames lost", "--full", "100")
        aged(self.shelf, 7200)
        self.looks(0, "last file 120 minutes ago", "--full", "100", "--minutes", "121")
        self.looks(1, "no file for 120 minutes")

    def test_lost_frames(self) -> None:
        self.quality("minute 4 frames 3662 lost 400 corrected 12.00")
        self.looks(1, "400 of 3662 frames lost, 10 %")
        self.looks(0, "400 of 3662 frames lost", "--full", "100", "--lost", "11")

    def test_few_frames_are_no_alarm(self) -> None:
        """A source that ends after 12 frames leaves a minute that isn't one."""
        self.quality("minute 0 frames 12 lost 1 corrected 0.00")
        self.looks(0, "1 of 12 frames lost", "--full", "100")
        self.quality("minute 0 frames 100 lost 8 corrected 0.00")
        self.looks(1, "8 of 100 frames lost, 8 %")

    def test_the_quality_of_frames(self) -> None:
        self.quality("minute 4 frames 3662 lost 2")
        self.looks(0, "2 of 3662 frames lost", "--full", "100")

    def test_nothing_locks(self) -> None:
        lines = ["minute 5 frames 3 lost 3 corrected 0.00", "no frame for 4 minutes"]
        for line in [*lines, "no frame lock", "", "minute x"]:
            self.quality(line)
            self.looks(1, "no frame lock")

    def test_no_word_of_the_quality(self) -> None:
        aged("watched/quality", 600)
        self.looks(1, "no quality report for 10 minutes")
        os.unlink("watched/quality")
        self.looks(0, "OK", "--full", "100")

    def test_a_shelf_that_has_no_file_yet(self) -> None:
        write(f"watched/{day()}-2.shelf", shelf_of([]))
        self.looks(0, "last file 0 minutes ago", "--full", "100")
        aged(self.shelf, 7200)
        self.looks(1, "no file for 120 minutes")
        os.unlink(self.shelf)
        self.looks(0, "no file yet", "--full", "100")
        aged(f"watched/{day()}-2.shelf", 7200)
        self.looks(1, "no file for 120 minutes (no file yet")

    def test_a_full_shelf_and_no_shelf(self) -> None:
        data = bytearray(read(self.shelf))
        data[9:17] = (2 * len(data)).to_bytes(8, "big")
        data[17:19] = reference.crc(bytes(data[1:17])).to_bytes(2, "big")
        write(self.shelf, bytes(data))
        self.looks(1, ".shelf is 50 % full", "--full", "49")
        os.unlink(self.shelf)
        write("watched/notes.shelf", b"notes")
        self.looks(1, "no shelf")
        out, _ = self.call("state", ".//nowhere", status=1)
        self.assertEqual(out, "./nowhere: ALERT: no such folder\n", "one slash between two names")

    def test_a_full_disk(self) -> None:
        self.small_disk()
        write("small/filled", bytes(990_000))
        out, _ = self.call("state", "small", status=1)
        self.assertIn("the disk is 9", out)

    def test_wrong_words(self) -> None:
        wrong = [
            (),
            ("--minutes",),
            ("--minutes", "x", "watched"),
            ("--remove", "0", "watched"),
            ("--lost", "101", "watched"),
        ]
        for words in wrong:
            self.call("state", *words, status=2)


class Told(Watched):
    """With --once a trouble is told when it is new, and once a day."""

    def test_at_a_change_and_once_a_day(self) -> None:
        once = ("--once", "--full", "100")
        self.looks(0, "watched: OK: ", *once)
        aged(self.shelf, 7200)
        self.looks(1, "no file for 120 minutes", *once)
        aged(self.shelf, 7300)
        self.looks(0, "no file for 121 minutes", *once)
        self.quality("no frame for 4 minutes")
        self.looks(1, "no frame lock", *once)
        self.looks(0, "no frame lock", *once)
        state = read("watched/.state/state.json").decode()
        then = re.sub(r'"told_at": [0-9.]+', f'"told_at": {time.time() - DAY - 1}', state)
        write("watched/.state/state.json", then.encode())
        self.looks(1, "no frame lock", *once)
        self.anew_but_state()
        self.looks(0, "watched: recovered: ", *once)
        self.looks(0, "watched: OK: ", *once)

    def anew_but_state(self) -> None:
        shutil.copytree("watched/.state", "kept")
        self.anew()
        shutil.move("kept", "watched/.state")

    def test_a_state_that_is_none(self) -> None:
        os.mkdir("watched/.state")
        for data in (b"", b"[]", b"{", b'{"totals": 7}', b'{"told": 7}', b'{"told_at": "x"}', b"\xff"):
            write("watched/.state/state.json", data)
            self.looks(0, "OK", "--once", "--full", "100")


class Removed(Watched):
    def setUp(self) -> None:
        super().setUp()
        # (days, a second shelf of one of them, weeks, and another name)
        self.names = ["2020-01-01", "2020-01-05", "2020-01-05-2", "2020-03", "2020-01-25", "2020-01-26"]
        for place, name in enumerate(self.names):
            shutil.copy(self.shelf, f"watched/{name}.shelf")
            aged(f"watched/{name}.shelf", (100 - place) * DAY)
        shutil.copy(self.shelf, "elsewhere")
        os.symlink("../elsewhere", "watched/linked.shelf")
        aged("elsewhere", 100 * DAY)
        self.shelves = set(os.listdir("watched"))

    def gone(self) -> Any:
        return sorted(self.shelves - set(os.listdir("watched")))

    def test_by_the_days_that_came_after(self) -> None:
        self.looks(0, "OK", "--full", "100")
        self.looks(0, "OK", "--full", "100", "--remove", "12")
        self.assertEqual(self.gone(), [])
        with open("watched/2020-01-05.shelf", "rb") as held:
            fcntl.flock(held, fcntl.LOCK_EX)
            self.looks(0, "old shelves removed: 1", "--full", "100", "--remove", "11")
            self.assertEqual(self.gone(), ["2020-01-01.shelf"])
            # (a week counts for seven days)
            self.looks(0, "old shelves removed: 1", "--full", "100", "--remove", "10")
            self.assertEqual(self.gone(), ["2020-01-01.shelf", "2020-01-05-2.shelf"])
        self.looks(0, "old shelves removed: 3", "--full", "100", "--remove", "1")
        self.assertEqual(self.gone()[2:], ["2020-01-05.shelf", "2020-01-25.shelf", "2020-03.shelf"])
        self.assertEqual(len(os.listdir("watched")), 5, "the newest two stay, and what is no shelf")

    def test_by_the_room_that_is_left(self) -> None:
        """Of a disk that is full the oldest shelf goes first, never the newest two, nor one that is in use."""
        self.small_disk()
        names = ["2020-01-01", "2020-01-02", "2020-01-03", "2020-01-04", "2020-01-05"]
        for place, name in enumerate(names):
            write(f"small/{name}.shelf", read(self.shelf) + bytes(150_000))
            aged(f"small/{name}.shelf", 600 - place)
        with open("small/2020-01-02.shelf", "rb") as held:
            fcntl.flock(held, fcntl.LOCK_EX)
            out, said = self.call("state", "--keep-free", "50", "--full", "100", "small")
        self.assertEqual(sorted(os.listdir("small")), [".state"] + [f"{it}.shelf" for it in names[1:2] + names[3:]])
        self.assertIn("old shelves removed: 2", out)
        self.assertIn("removed small/2020-01-01.shelf", said)
        out, _ = self.call("state", "--keep-free", "99", "--full", "100", "small", status=1)
        self.assertEqual(sorted(os.listdir("small")), [".state"] + [f"{it}.shelf" for it in names[3:]])
        self.assertRegex(out, r"ALERT: only [0-9]+ % of the disk is free, not 99 %, and nothing more may be removed")

    def test_copies_go_before_shelves(self) -> None:
        self.small_disk()
        for name in ("2020-01-01", "2020-01-02", "2020-01-03"):
            write(f"small/{name}.shelf", read(self.shelf) + bytes(50_000))
        for folder in ("contents", "pictures", "mine"):
            for day_ in ("2020-01-01", "2020-01-02", "2020-01-03", "2020-01-04"):
                os.makedirs(f"small/{folder}/{day_}")
                write(f"small/{folder}/{day_}/x", bytes(40_000))
            if folder != "mine":
                os.mkdir(f"small/{folder}/.{folder}")
        out, _ = self.call("state", "--keep-free", "40", "--full", "100", "small")
        self.assertIn("old days of copies removed: ", out)
        self.assertNotIn("shelves removed", out)
        self.assertEqual(len([it for it in os.listdir("small") if it.endswith(".shelf")]), 3)
        self.call("state", "--keep-free", "99", "--full", "100", "small", status=1)
        for folder in ("contents", "pictures"):
            days = [it for it in sorted(os.listdir(f"small/{folder}")) if it[0] != "."]
            self.assertEqual(days, ["2020-01-03", "2020-01-04"])
        self.assertEqual(len(os.listdir("small/mine")), 4, "no folder that isn't one of copies")
        self.assertEqual(len([it for it in os.listdir("small") if it.endswith(".shelf")]), 2)


class Clock(Watched):
    """A clock that is wrong once deletes nothing, and hides nothing."""

    YEARS = 10 * 365 * DAY

    def setUp(self) -> None:
        super().setUp()
        for back in range(1, 8):
            shutil.copy(self.shelf, f"watched/{day(-back * DAY)}.shelf")
            aged(f"watched/{day(-back * DAY)}.shelf", back * DAY)
            os.makedirs(f"contents/{day(-back * DAY)}")
            write(f"contents/{day(-back * DAY)}/x", b"x")
        self.shelves = set(os.listdir("watched"))
        self.days = set(os.listdir("contents"))

    @needs_pillow
    def test_at_other_times_nothing_goes(self) -> None:
        for seconds in (self.YEARS, -2 * self.YEARS, -7 * DAY, 30 * DAY):
            for options in (("--remove", "8"), ("--keep-free", "0"), ("--once", "--prometheus", "x.prom")):
                words = ("state", "--full", "100", *options, "watched")
                out, _ = self.call(*words, status=1, command=clocked(seconds))
                self.assertEqual(set(os.listdir("watched")) - {".state"}, self.shelves, (seconds, options))
            if seconds < 0:
                self.assertIn("ahead of the clock", out)
            self.call("contents", "watched", "contents", "--keep-days", "8", command=clocked(seconds))
            self.assertLessEqual(self.days, set(os.listdir("contents")), seconds)

    def test_a_day_that_a_wrong_clock_made_costs_one(self) -> None:
        ahead = day(self.YEARS)
        shutil.copy(self.shelf, f"watched/{ahead}.shelf")
        then = time.time() + self.YEARS
        os.utime(f"watched/{ahead}.shelf", (then, then))
        out = self.looks(1, f"{ahead}.shelf is ahead of the clock", "--full", "100", "--remove", "8")
        self.assertEqual(self.shelves - set(os.listdir("watched")), {f"{day(-7 * DAY)}.shelf"})
        self.assertIn(f"last file 0 minutes ago, {day()}.shelf", out)
        aged(self.shelf, 7200)
        self.looks(1, "no file for 120 minutes", "--full", "100")
        self.small_disk()
        for back, name in enumerate((ahead, day(), day(-DAY), day(-2 * DAY))):
            write(f"small/{name}.shelf", read(self.shelf) + bytes(100_000))
            aged(f"small/{name}.shelf", back * DAY)
        os.utime(f"small/{ahead}.shelf", (then, then))
        self.call("state", "--keep-free", "99", "--full", "100", "small", status=1)
        self.assertEqual(
            sorted(os.listdir("small")), [".state", f"{day(-DAY)}.shelf", f"{day()}.shelf", f"{ahead}.shelf"]
        )

    @needs_pillow
    def test_a_reception_that_runs_and_rolls_meanwhile(self) -> None:
        """Each shelf that is new at a wrong clock costs one old day, under --watch too, and the files come."""
        process = start("contents", "watched", "taken", "--watch", "--keep-days", "8", command=clocked(self.YEARS))
        wait_for(lambda: len(tree_of("taken")) == 24)
        days = {os.path.dirname(it) for it in tree_of("taken")}
        self.assertEqual(days, {f"taken/{day(-back * DAY)}" for back in range(8)})
        for years in (10, -20):
            writer = Writer(f"watched/{day(years * 365 * DAY)}.shelf")
            writer.append(added(0, text_file(b"new"), 5, 200))
            writer.close()
        wait_for(lambda: len(tree_of("taken")) == 26)
        self.assertEqual(ended(process), 0)
        self.call("contents", "watched", "taken", "--keep-days", "8", command=clocked(self.YEARS))
        left = {os.path.dirname(it)[6:] for it in tree_of("taken")}
        self.assertEqual(left, {day(-back * DAY) for back in range(7)} | {day(self.YEARS)})

    def test_totals_and_the_daily_word_begin_again(self) -> None:
        def frames() -> Any:
            self.call("state", "--full", "100", "--once", "--prometheus", "x.prom", "watched", status=None)
            (line,) = [it for it in read("x.prom").decode().splitlines() if it.startswith("gomtasil_frames_total")]
            return int(line.split()[-1])

        now = int(time.time())
        write("watched/minutes", b"%d 3400 0 0\n" % (now + self.YEARS))
        self.assertEqual(frames(), 3400)
        with open("watched/minutes", "ab") as it:
            it.write(b"%d 3400 0 0\n%d 3400 0 0\n" % (now, now - 7 * DAY))
        self.assertEqual(frames(), 3 * 3400)
        write("watched/minutes", b"%d 3400 0 0\n" % now)
        self.assertEqual(frames(), 4 * 3400, "of a file that was made again")
        state = read("watched/.state/state.json").decode()
        state = re.sub(r'"told_at": [0-9.]+', f'"told_at": {now + self.YEARS}', state).replace(
            '"told": []', '"told": ["quiet"]'
        )
        write("watched/.state/state.json", state.encode())
        for name in os.listdir("watched"):
            if name.endswith(".shelf"):
                aged(f"watched/{name}", 7200)
        self.looks(1, "no file for 120 minutes", "--once", "--full", "100")
        self.looks(0, "no file for 120 minutes", "--once", "--full", "100")


class Broken(Watched):
    """A shelf that is corrupt is told, until it is gone or whole."""

    def test_a_corrupt_shelf(self) -> None:
        other = f"watched/{day(-DAY)}.shelf"
        data = bytearray(read(self.shelf))
        data[19 + 9 : 19 + 13] = b"\xff" * 4
        write(other, bytes(data))
        self.looks(1, f"{day(-DAY)}.shelf is corrupt at byte 19", "--full", "100")
        self.looks(1, "is corrupt at byte 19", "--full", "100", "--once")
        self.looks(0, "is corrupt at byte 19", "--full", "100", "--once")
        write(other, b"notes")
        self.looks(1, f"{day(-DAY)}.shelf has no header of a shelf", "--full", "100")
        shutil.copy(self.shelf, other)
        self.looks(0, "recovered", "--full", "100", "--once")
        self.assertTrue(os.path.exists(f"watched/.state/shelves/{day(-DAY)}.json"))
        os.unlink(other)
        write(f"watched/{day()}-2.shelf", b"")
        self.looks(0, "OK", "--full", "100")
        self.assertFalse(os.path.exists(f"watched/.state/shelves/{day(-DAY)}.json"), "a note goes with its shelf")


class Units(Watched):
    """Units of systemd that have failed, as systemctl says it."""

    def systemctl(self, lines: Any, status: Any = 0) -> None:
        os.makedirs("bin", exist_ok=True)
        write("bin/systemctl", f"#!/bin/sh\nprintf '{lines}'\nexit {status}\n".encode())
        os.chmod("bin/systemctl", 0o755)
        os.environ["PATH"] = f"{os.getcwd()}/bin:{self.path}"

    def setUp(self) -> None:
        super().setUp()
        self.path = os.environ["PATH"]

    def tearDown(self) -> None:
        os.environ["PATH"] = self.path
        super().tearDown()

    def test_a_unit_that_has_failed(self) -> None:
        words = ("--units", "gomtasil-*", "--full", "100", "--once")
        line = "gomtasil-receive.service loaded %s x Reception\\n"
        self.systemctl(line % "active")
        self.looks(0, "OK", *words)
        self.systemctl(line % "failed" + "gomtasil-watch.service loaded failed failed x\\n")
        self.looks(1, "ALERT: gomtasil-receive.service has failed (", *words)
        self.looks(0, "gomtasil-receive.service has failed", *words)
        self.systemctl(line % "activating")
        out = self.looks(0, "OK", *words)
        self.assertNotIn("recovered", out, "it may fail again")
        self.systemctl(line % "active")
        self.looks(0, "recovered", *words)
        self.systemctl("", 1)
        self.looks(1, "systemctl says", *words)


class Alarms(Watched):
    """A trouble and its end wait in a queue until they are delivered, each once."""

    def test_once_for_a_trouble_and_once_for_its_end(self) -> None:
        words = ("--once", "--full", "100", "--alarm", "alarms")
        self.looks(0, "OK", *words)
        self.assertFalse(os.path.exists("alarms"))
        aged(self.shelf, 7200)
        for _ in range(2):
            self.looks(0, "ALERT: no file for 120 minutes", *words)
        self.writer.append(added(3, text_file(b"name"), 5, 200))
        for words_ in ("recovered", "OK"):
            self.looks(0, words_, *words)
        self.assertEqual(len(os.listdir("alarms")), 2)
        out, _ = self.call("alarm", "alarms", "--send", 'cat >> got; echo "$1" >> words')
        got = read("got").decode().splitlines()
        self.assertEqual([it.split(": ")[1] for it in got], ["ALERT", "recovered"])
        self.assertEqual(read("words"), read("got"))
        self.assertEqual((os.listdir("alarms"), out), ([], read("got").decode()))

    def test_what_is_not_delivered_waits(self) -> None:
        self.call("alarm", "alarms", "first", "line\n\x1b")
        self.call("alarm", "alarms", "second")
        _, said = self.call("alarm", "alarms", "--send", "exit 7", status=1)
        self.assertIn("exited with 7", said)
        self.assertEqual(len(os.listdir("alarms")), 2)
        out, _ = self.call("alarm", "alarms", "--send", "")
        self.assertEqual(out, "first line \x1b\nsecond\n".replace(" \x1b", " \x1b"))
        self.call("alarm", "alarms", status=2)
        self.call("alarm", "alarms", "--send", "")
        for number in range(105):
            alarm_of(number)
        self.assertEqual(len(os.listdir("alarms")), 100, "the oldest go")

    def test_a_command_that_hangs(self) -> None:
        sys.path.insert(0, os.path.join(TOP, "tools"))
        from gomtasil import alarm

        alarm_of(1)
        then = time.monotonic()
        self.assertEqual(alarm.send("alarms", "sleep 1000 & sleep 1000", 0.5), 1)
        self.assertLess(time.monotonic() - then, 30)
        self.assertEqual(len(os.listdir("alarms")), 1)


def alarm_of(number: Any) -> None:
    """A line in the queue, without a call of its own."""
    sys.path.insert(0, os.path.join(TOP, "tools"))
    from gomtasil import alarm

    alarm.put("alarms", f"line {number}")


def tree_of(folder: Any) -> Any:
    found = tree(folder, [f"{folder}/.contents"]) if os.path.isdir(folder) else {}
    return [it for it, data in found.items() if data is not None and ".part" not in it]


class Prometheus(Watched):
    def lines(self, *folders: Any) -> Any:
        self.call(
            "state",
            "--full",
            "100",
            "--prometheus",
            "report.prom",
            *folders or ("watched",),
            status=1 if folders else 0,
        )
        return read("report.prom").decode().splitlines()

    def value(self, name: Any) -> Any:
        (line,) = [it for it in self.lines() if it.startswith(f"gomtasil_{name}")]
        return float(line.rsplit(" ", 1)[1])

    def test_forms(self) -> None:
        lines = self.lines()
        self.assertIn('gomtasil_frames_lost{folder="watched"} 2', lines)
        self.assertIn('gomtasil_frames_redecoded{folder="watched"} 0', lines)
        told = r"# HELP gomtasil_[a-z_]+ [A-Z0-9].*|# TYPE gomtasil_[a-z_]+ (gauge|counter)"
        measured = r'gomtasil_[a-z_]+\{folder="[^"]*"(,[a-z]+="[^"]*")*\} [0-9.]+'
        self.assertEqual([it for it in lines if not re.fullmatch(f"{told}|{measured}", it)], [])
        os.mkdir('a "b\\\n')
        lines = self.lines("watched", 'a "b\\\n')
        self.assertEqual(sum("TYPE gomtasil_trouble" in it for it in lines), 1)
        if not shutil.which("promtool"):
            self.skipTest("promtool is missing")
        done = subprocess.run(["promtool", "check", "metrics"], input=read("report.prom"), capture_output=True)
        self.assertEqual((done.returncode, done.stdout + done.stderr), (0, b""))

    def test_counters_grow_and_a_shelf_that_goes_takes_nothing_away(self) -> None:
        key = 'files_total{folder="watched",channel="5",application="200"}'
        self.assertEqual(self.value(key), 2)
        self.assertEqual(self.value(key), 2, "nothing is counted twice")
        self.writer.append(added(3, text_file(b"name"), 5, 200))
        self.assertEqual(self.value(key), 3)
        self.assertEqual(
            self.value(key.replace("files_total", "file_bytes_total")), 3 * len(added(0, text_file(b"name")))
        )
        os.unlink(self.shelf)
        write(self.shelf, shelf_of([added(9, text_file(b"other"), 5, 200)]))
        self.assertEqual(self.value(key), 4, "a shelf that was made anew in its place")
        write("watched/minutes", b"100 3662 2 1538\n160 3662 0 10\n220 36")
        self.assertEqual((self.value("frames_total"), self.value("frames_lost_total")), (7324, 2))
        with open("watched/minutes", "ab") as it:
            it.write(b"62 1 5\n")
        self.assertEqual((self.value("frames_total"), self.value("corrected_bytes_total")), (10986, 1553))
        shutil.rmtree("watched/.state")
        self.assertEqual(self.value("frames_total"), 10986)

    def test_where_it_cannot_be_written(self) -> None:
        _, said = self.call("state", "--full", "100", "--prometheus", "nowhere/x.prom", "watched", status=1)
        self.assertIn("nowhere/x.prom can't be written", said)
