"""Commands that are stopped at any moment: then each file is there once, and nothing half."""

import os
import random
import re
import shutil
import signal
import subprocess
import sys
import time
from typing import Any

from .support import (
    match,
    COMMAND,
    HAS_JINJA,
    HAS_PILLOW,
    PROGRAM,
    SECONDS,
    Case,
    Writer,
    added,
    discard,
    has_no_rest,
    image,
    named,
    needs_pillow,
    needs_program,
    number_in,
    proper,
    read,
    record,
    shelf_of,
    start,
    station,
    taken,
    text_file,
    wait_for,
    write,
    zip_of,
)

KILLS = int(os.environ.get("KILLS", "40"))
WATCHED = """
import os, runpy, sys
script, place, folder, *words = sys.argv[1:]
count = 0
def hook(event, arguments):
    global count
    if event in ("open", "os.link", "os.rename", "os.remove", "os.mkdir", "os.rmdir", "os.truncate", "shutil.rmtree"):
        paths = [os.fsdecode(it) for it in arguments[:2] if isinstance(it, (str, bytes))]
        if event == "os.truncate" or any(folder in path for path in paths):
            count += 1
            if place in (str(count), event):
                os._exit(137)
sys.argv = [script, *words]
sys.addaudithook(hook)
runpy.run_path(script, run_name="__main__")
"""


def watched(place: Any, folder: Any, *words: Any) -> Any:
    """The status of the command, stopped before a call on the folder: that of this place, or the first of this name."""
    script = [sys.executable, "-c", WATCHED, COMMAND[-1], str(place), folder, *words]
    return subprocess.run(script, capture_output=True).returncode


class AtEachCall(Case):
    """Stopped before each of its calls on the folder, and again."""

    def test_follow(self) -> None:
        self.stop_at_each("follow", lambda number: 1)

    @needs_pillow
    def test_contents(self) -> None:
        self.stop_at_each("contents", lambda number: 2 if number == 3 else 1)

    def stop_at_each(self, command: Any, count_of: Any) -> None:
        files = [text_file(b"name-%d" % it, b"%d" % it) for it in range(3)]
        files.append(proper(2, [record(4, b"zip")], zip_of(("a.txt", b"0"), ("b.txt", b"1"))))
        wanted = sorted(it for it in (0, 2, 3, 4) for _ in range(count_of(it)))
        place = 0
        codes: list[int] = []
        while codes != [0, 0]:
            place += 1
            folder = f"point-{command}-{place}"
            writer = Writer("point.shelf")
            for number, it in enumerate(files):
                writer.append(added(number, it))
            codes = [watched(place, folder, command, "point.shelf", folder)]
            writer.append(discard(1))
            writer.append(added(4, text_file(b"last")))
            codes.append(watched(place, folder, command, "point.shelf", folder))
            writer.close()
            self.assertLessEqual(set(codes), {0, 137})
            self.call(command, "point.shelf", folder)
            found = taken(folder)
            numbers = sorted(int(match(r"point-(\d+)-", it)[1]) for it in found if not it.startswith("discarded"))
            self.assertEqual(numbers, wanted, f"stopped before call {place}")
            aside = [path for path in found if path.startswith("discarded/")]
            self.assertLessEqual(len(aside), 1)
            self.assertTrue(has_no_rest(folder), "no part is left")
        print(f"{command}: {place} calls at which it was stopped")

    def test_a_file_that_is_taken_away_after_a_stop_comes_no_more(self) -> None:
        files = [text_file(b"name-%d" % it, b"%d" % it) for it in range(3)]
        write("away.shelf", shelf_of([added(number, it) for number, it in enumerate(files)]))
        place, code = 0, None
        while code != 0:
            place += 1
            folder = f"away-{place}"
            code = watched(place, folder, "follow", "away.shelf", folder)
            numbers = []
            for path in taken(folder) if os.path.isdir(folder) else ():
                numbers.append(number_in(path))
                os.unlink(os.path.join(folder, path))
            self.call("follow", "away.shelf", folder)
            numbers += map(number_in, taken(folder))
            self.assertEqual(sorted(numbers), [0, 1, 2], f"stopped before call {place}")

    @needs_pillow
    def test_pictures(self) -> None:
        files = [image(8, 4, 4, bytes([it] * 16), 0, [record(4, b"IMAGE_%d" % it)]) for it in range(3)]
        write("drawn.shelf", shelf_of([added(it, file) for it, file in enumerate(files)]))
        self.call("pictures", "drawn.shelf", "whole")
        place, code = 0, None
        while code != 0:
            place += 1
            code = watched(place, f"drawn-{place}", "pictures", "drawn.shelf", f"drawn-{place}")
            self.call("pictures", "drawn.shelf", f"drawn-{place}")
            found = {path: data for path, data in taken(f"drawn-{place}").items() if ".part" not in path}
            self.assertEqual(found, taken("whole"), f"stopped before call {place}")
        print(f"pictures: {place} calls at which it was stopped")


class TornLog(Case):
    def test_a_stop_in_the_write_of_the_log_after_any_of_its_bytes(self) -> None:
        write("torn.shelf", shelf_of([added(it, text_file(b"name-%d" % it, b"%d" % it)) for it in range(4)]))
        self.assertEqual(watched("os.rename", "torn", "follow", "torn.shelf", "torn"), 137)
        log = read("torn/.follow/torn.log")
        self.assertEqual(len(os.listdir("torn/.follow/torn.parts")), 4)
        for size in sorted({*range(0, len(log), 17), len(log) - 1, len(log)}):
            folder = f"torn-{size}"
            shutil.copytree("torn", folder)
            write(f"{folder}/.follow/torn.log", log[:size])
            self.call("follow", "torn.shelf", folder)
            names = sorted(re.sub(".*/torn-", "", path) for path in taken(folder))
            self.assertEqual(names, [f"{it:06d}-name-{it}" for it in range(4)], f"a log of {size} bytes")
            self.assertTrue(has_no_rest(folder))

    def test_a_stop_before_any_of_many_names_is_given(self) -> None:
        count = 3000
        write("torn.shelf", shelf_of([added(it, text_file(b"name")) for it in range(count)]))
        self.assertEqual(watched("os.rename", "torn", "follow", "torn.shelf", "torn", "--name", "{number}"), 137)
        self.assertEqual(len(os.listdir("torn/.follow/torn.parts")), count)
        begun = time.monotonic()
        self.call("follow", "torn.shelf", "torn", "--name", "{number}")
        self.assertLess(time.monotonic() - begun, 30)
        self.assertEqual(sorted(taken("torn")), [f"{it:06d}" for it in range(count)])

    def test_a_log_that_is_none(self) -> None:
        write("torn.shelf", shelf_of([added(0, text_file(b"name"))]))
        os.makedirs("torn/.follow")
        for data in (b"x\n", b'"/a"\nfile x\n', b"\xff\xff\n", b'"/a"\n' + b"x" * 100 + b"\n", b"7\n"):
            write("torn/.follow/torn.log", data)
            _, said = self.call("follow", "torn.shelf", "torn", status=1 if data != b"7\n" else 0)
            self.assertIn("can't be read" if data != b"7\n" else "", said)


class AtDrawnMoments(Case):
    """follow --watch beside a receiver at work, killed at drawn moments, by SIGKILL and by other signals."""

    def setUp(self) -> None:
        super().setUp()
        self.draws = random.Random(56)
        self.writer = Writer("drawn.shelf")
        self.sent: list[Any] = []
        self.seen: dict[Any, Any] = {}

    def work(self, until: Any) -> None:
        while time.monotonic() < until:
            body = self.draws.randbytes(self.draws.choice((10, 500, 20_000)))
            self.sent.append(text_file(b"drawn %d" % len(self.sent), body))
            self.writer.append(added(len(self.sent) - 1, self.sent[-1]), self.draws.choice((1, 2, 5)))
            time.sleep(self.draws.random() * 0.004)

    def look(self) -> None:
        """Each file is whole and has come once; some are taken away."""
        for path, data in taken("drawn").items():
            number = number_in(path)
            self.assertEqual(data, self.sent[number], f"file {number} is whole")
            self.assertEqual(self.seen.setdefault(number, path), path, f"file {number} comes once")
            if self.draws.random() < 0.5:
                os.unlink(os.path.join("drawn", path))
                self.seen[number] = None

    def end(self, process: Any, what: Any) -> None:
        """Ends it by a signal. (Python loses an interrupt that comes while it starts, so that one may come again.)"""
        process.send_signal(what)
        try:
            process.communicate(timeout=SECONDS / 4 if what == signal.SIGINT else SECONDS)
        except subprocess.TimeoutExpired:
            self.assertEqual(what, signal.SIGINT)
            process.send_signal(what)
            process.communicate(timeout=SECONDS)

    def test_each_file_comes_once(self) -> None:
        kinds = (signal.SIGKILL, signal.SIGKILL, signal.SIGKILL, signal.SIGTERM, signal.SIGINT)
        for _ in range(KILLS):
            process = start("follow", "drawn.shelf", "drawn", "--watch")
            self.work(time.monotonic() + 0.1 + self.draws.random() * 0.3)
            what = self.draws.choice(kinds)
            self.end(process, what)
            # (a signal that comes before the command is at work ends it, and nothing stands then)
            if what != signal.SIGKILL and process.returncode == 0:
                self.assertTrue(has_no_rest("drawn"), "a signal leaves no part")
            self.look()
        self.call("follow", "drawn.shelf", "drawn")
        self.look()
        self.assertEqual(sorted(self.seen), list(range(len(self.sent))), "each file came")
        self.assertTrue(has_no_rest("drawn"))
        print(f"{KILLS} kills at drawn moments over {len(self.sent)} files")


class BySignals(Case):
    """A signal in the middle leaves nothing half, and no scratch; and then the rest comes, each file once."""

    def test_each_command(self) -> None:
        zips = [named(b"zip", 2, zip_of((f"{it}.txt", os.urandom(40_000)), ("b.txt", b"x"))) for it in range(60)]
        images = [image(8, 600, 400, os.urandom(240_000), 0, [record(4, b"image")]) for _ in range(12)]
        write("signals.shelf", shelf_of([added(number, it) for number, it in enumerate(zips + images)]))
        counts: dict[str, int | None] = {"follow": len(zips) + len(images)}
        if HAS_PILLOW:
            counts |= {"contents": 2 * len(zips) + len(images), "pictures": len(images)}
        if HAS_PILLOW and HAS_JINJA:
            counts["page"] = None
        os.mkdir("scratch")
        draws = random.Random(7)
        for place, what in enumerate(2 * (signal.SIGTERM, signal.SIGINT, signal.SIGHUP)):
            for command, count in counts.items():
                folder = f"signals-{command}-{place}"
                self.interrupt(command, folder, what, 0.1 + draws.random() * 0.5)
                self.call(command, "signals.shelf", folder)
                if count:
                    self.assertEqual(len(taken(folder)), count, f"{folder}: each came once")
        self.assertEqual(os.listdir("scratch"), [])

    def interrupt(self, command: Any, folder: Any, what: Any, seconds: Any) -> None:
        """A command that a signal ends after so many seconds. No part is left."""
        process = start(command, "signals.shelf", folder, env={**os.environ, "TMPDIR": os.path.abspath("scratch")})
        time.sleep(seconds)
        process.send_signal(what)
        _, said = process.communicate(timeout=SECONDS)
        # (Python itself may still be starting, and is interrupted in that)
        is_early = process.returncode == 1 and b"KeyboardInterrupt" in said
        is_told = process.returncode in (0, 128 + what, -what)
        self.assertTrue(is_told or is_early, f"{command} ended with {process.returncode}: {said.decode()}")
        self.assertTrue(not os.path.isdir(folder) or has_no_rest(folder), "no part is left")


@needs_program
class BesideTheReceiver(Case):
    def test_each_file_comes_as_it_is_received(self) -> None:
        frames = station("-", "make", "1", "1024", "0", "--output", "frames")
        station("live.shelf", "init", "10000000")
        follower = start("follow", "live.shelf", "live", "--watch")
        words = [PROGRAM, "live.shelf", "receive", "--input", "frames"]
        receiver = subprocess.Popen(words, stdin=subprocess.PIPE, stdout=subprocess.PIPE)
        for at in range(0, len(frames), 16 * 892):
            assert receiver.stdin
            receiver.stdin.write(frames[at : at + 16 * 892])
            receiver.stdin.flush()
            time.sleep(0.03)
        out, _ = receiver.communicate()
        count = out.count(b"shelved ")
        wait_for(lambda: len(taken("live")) == count)
        follower.send_signal(signal.SIGTERM)
        told, said = follower.communicate()
        self.assertEqual((follower.returncode, said), (0, b""))
        self.assertEqual([int(it.split()[0]) for it in told.splitlines()], list(range(count)))
        for path, data in taken("live").items():
            if number_in(path) % 16 == 0:
                self.assertEqual(data, station("live.shelf", "extract", str(number_in(path))))
