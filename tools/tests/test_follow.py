"""What is taken off a shelf, and when: versions, damage, discards, names that others have, watching, and full disks."""

import os
import resource
import signal
import subprocess
import time
from typing import Any

from .support import (
    COMMAND,
    Case,
    Writer,
    added,
    discard,
    ended,
    has_no_rest,
    header,
    named,
    number_in,
    old,
    read,
    shelf_of,
    stamp,
    start,
    taken,
    text_file,
    wait_for,
    write,
)

MANY_FILES = 19_940


def folder_of_shelves(folder: Any) -> None:
    os.mkdir(folder)
    for name in ("one", "two"):
        write(f"{folder}/{name}.shelf", shelf_of([added(0, text_file(name.encode()))]))


def logs_of(folder: str) -> list[str]:
    return sorted(it for it in os.listdir(f"{folder}/.follow") if it.endswith(".log"))


class Shelves(Case):
    def test_a_shelf_of_version_1(self) -> None:
        first, second = text_file(b"first"), text_file(b"second")
        write("old.shelf", shelf_of([old(0, first), added(1, second)], 1))
        self.call("follow", "old.shelf", "old", "--flat")
        self.assertEqual(taken("old"), {"first": first, "second": second})

    def test_what_is_discarded_or_damaged_is_left_out(self) -> None:
        first, second = text_file(b"first"), text_file(b"second")
        damaged = bytearray(added(1, second))
        damaged[60] ^= 1
        items = [added(0, first), bytes(damaged), added(2, second), added(3, first), discard(3), discard(0)]
        write("some.shelf", shelf_of(items))
        out, said = self.call("follow", "some.shelf", "some", "--flat", status=1)
        self.assertEqual((out, taken("some")), ("2 second\n", {"second": second}))
        self.assertIn("file 1 of some.shelf has a bad checksum", said)

    def test_shelves_that_are_broken_or_none(self) -> None:
        write("broken.shelf", shelf_of([added(0, text_file(b"first"))])[:-1] + b"\1\x7f")
        out, said = self.call("follow", "broken.shelf", "broken", "--flat", status=1)
        self.assertEqual(out, "0 first\n")
        self.assertIn("not a shelf at", said)
        for bad in (b"", b"x" * 100, header()[:10], b"\0" + header()[1:] + b"\0", header(3) + b"\0"):
            write("bad.shelf", bad)
            _, said = self.call("follow", "bad.shelf", "bad", status=1)
            self.assertIn("not a shelf at 0", said)

    def test_shelves_of_one_name_and_shelves_that_were_made_anew(self) -> None:
        for place in ("a", "b"):
            os.mkdir(place)
            write(f"{place}/week.shelf", shelf_of([added(0, text_file(b"name", place.encode()))]))
            self.call("follow", f"{place}/week.shelf", "both")
        names = sorted(path.split("/")[1] for path in taken("both"))
        self.assertEqual(names, ["week-000000-name", "week-2-000000-name"])
        self.assertEqual(self.call("follow", "a/week.shelf", "both")[0], "", "a shelf that is known")
        write("a/week.shelf", shelf_of([added(0, text_file(b"new"))]))
        out, _ = self.call("follow", "a/week.shelf", "both")
        self.assertTrue(out.endswith("/week-3-000000-new\n"), out)

    def test_a_folder_of_shelves(self) -> None:
        folder_of_shelves("many")
        self.call("follow", "many", "many-files", "--flat")
        self.assertEqual(sorted(taken("many-files")), ["one", "two"])

    def test_many_files_in_time(self) -> None:
        def body(number: Any) -> Any:
            return text_file(b"NAME_%d.TXT" % number, bytes([number % 251]) * 200)

        write("many.shelf", shelf_of([added(it, body(it), it % 64) for it in range(MANY_FILES)]))
        begun = time.monotonic()
        self.call("follow", "many.shelf", "thousands")
        seconds = time.monotonic() - begun
        found = taken("thousands")
        self.assertEqual(len(found), MANY_FILES)
        self.assertTrue(all(data == body(number_in(path)) for path, data in found.items()))
        print(f"{MANY_FILES} files in {seconds:.1f} s")


class Later(Case):
    """Files that are discarded after they were taken, that someone took away, and names that others took."""

    def test_what_is_discarded_moves_aside(self) -> None:
        writer = Writer("later.shelf")
        for number in range(3):
            writer.append(added(number, text_file(b"same", b"%d" % number)))
        self.call("follow", "later.shelf", "later", "--flat")
        os.unlink("later/1-same")  # (someone took it away)
        for item in (discard(2), discard(1), added(3, text_file(b"same", b"3"))):
            writer.append(item)
        out, _ = self.call("follow", "later.shelf", "later", "--flat")
        self.assertEqual(out, "2 discarded/2-same\n3 3-same\n")
        wanted = {"same": b"0", "discarded/2-same": b"2", "3-same": b"3"}
        self.assertEqual({it: data[-1:] for it, data in taken("later").items()}, wanted)

        writer.append(added(4, text_file(b"same", b"4")))
        for name in ("later/4-same", "later/later-000004-same"):
            write(name, b"mine")
        out, _ = self.call("follow", "later.shelf", "later", "--flat")
        found = (out, read("later/4-same"), read("later/later-000004-same"))
        self.assertEqual(found, ("4 later-000004-same~2\n", b"mine", b"mine"))

    def test_the_name_of_any_file_is_found_in_a_long_log(self) -> None:
        writer = Writer("long.shelf")
        count = 9000
        for number in range(count):
            writer.append(added(number, text_file(b"name")))
        self.call("follow", "long.shelf", "long", "--name", "{number}")
        numbers = [0, 1, 4094, 4095, 4096, 4097, 8191, 8192, 8998, 8999]
        for number in numbers:
            writer.append(discard(number))
        writer.append(added(count, text_file(b"name")))
        out, _ = self.call("follow", "long.shelf", "long", "--name", "{number}")
        wanted = [f"{it} discarded/{it:06d}" for it in numbers] + [f"{count} {count:06d}"]
        self.assertEqual(out.splitlines(), wanted)

    def test_a_log_of_an_earlier_version_goes_on(self) -> None:
        """Its lines have no sum of the file."""
        writer = Writer("log.shelf")
        for number in range(3):
            writer.append(added(number, text_file(b"name", b"%d" % number)))
        self.call("follow", "log.shelf", "log", "--flat")
        first, *lines = read("log/.follow/log.log").decode().splitlines()
        self.assertTrue(all(len(line.split(" ")) == 8 for line in lines))
        write(
            "log/.follow/log.log",
            "".join(f"{it}\n" for it in [first, *(it.rsplit(" ", 1)[0] for it in lines)]).encode(),
        )
        writer.append(discard(1))
        writer.append(added(3, text_file(b"name", b"3")))
        out, _ = self.call("follow", "log.shelf", "log", "--flat")
        self.assertEqual(out, "1 discarded/1-name\n3 3-name\n")


class Watching(Case):
    def test_new_shelves_a_second_process_and_the_status(self) -> None:
        folder_of_shelves("watched")
        process = start("follow", "watched", "all", "--flat", "--watch")
        wait_for(lambda: len(taken("all")) == 2)
        write("watched/three.shelf", shelf_of([added(0, text_file(b"three"))]))
        wait_for(lambda: "three" in taken("all"))
        _, said = self.call("follow", "watched/one.shelf", "all", "--flat", status=1)
        self.assertIn("another process", said)
        self.assertEqual(ended(process), 0)
        self.assertEqual(sorted(taken("all")), ["one", "three", "two"])

    def test_three_shelves_in_one_place_one_after_another(self) -> None:
        process = start("follow", "anew.shelf", "anew", "--watch")
        for text in (b"one", b"two", b"three"):
            if os.path.exists("anew.shelf"):
                os.unlink("anew.shelf")
            Writer("anew.shelf").append(added(0, text_file(text, text * 3)))
            wait_for(lambda: text_file(text, text * 3) in taken("anew").values())
        self.assertEqual(ended(process, signal.SIGINT), 0)
        names = sorted(it.split("/")[1] for it in taken("anew"))
        self.assertEqual(names, ["anew-000000-one", "anew-2-000000-two", "anew-3-000000-three"])


class Outside(Case):
    def test_a_reader_that_goes_away_takes_no_file_away(self) -> None:
        write("pipe.shelf", shelf_of([added(it, text_file(b"%d" % it)) for it in range(5000)]))
        process = start("follow", "pipe.shelf", "pipe", "--flat")
        process.stdout.close()
        said = process.stderr.read()
        process.stderr.close()
        self.assertEqual((process.wait(), said), (1, b""))
        self.call("follow", "pipe.shelf", "pipe", "--flat")
        self.assertEqual(len(taken("pipe")), 5000)

    def test_where_a_file_cannot_be_written_nothing_of_it_stands(self) -> None:
        write("full.shelf", shelf_of([added(0, text_file(b"small")), added(1, text_file(b"large", bytes(500_000)))]))

        def small() -> None:
            resource.setrlimit(resource.RLIMIT_FSIZE, (100_000, 100_000))

        command = [*COMMAND, "follow", "full.shelf", "full", "--flat"]
        done = subprocess.run(command, capture_output=True, preexec_fn=small)
        self.assertEqual(done.returncode, 1)
        self.assertIn(b"large", done.stderr)
        self.assertTrue(has_no_rest("full"))
        self.assertEqual(taken("full"), {"small": text_file(b"small")})
        self.call("follow", "full.shelf", "full", "--flat")
        self.assertEqual(sorted(taken("full")), ["large", "small"])


def days_of(folder: Any) -> Any:
    return sorted(it.split("/")[0] for it in taken(folder))


class Wishes(Case):
    """What is taken, under which names, and what is done then."""

    def setUp(self) -> None:
        super().setUp()
        names = (b"OR_ABI-C13_0.lrit", b"OR_ABI-C02_0.lrit", b"A_BULLETIN.TXT.lrit")
        items = [added(it, text_file(name, name), 1, 300 + it) for it, name in enumerate(names)]
        write("one.shelf", shelf_of(items))

    def test_only_some(self) -> None:
        self.call("follow", "one.shelf", "a", "--flat", "--only", "OR_ABI*", "--only", "nothing")
        self.assertEqual(sorted(taken("a")), ["OR_ABI-C02_0.lrit", "OR_ABI-C13_0.lrit"])
        self.call("follow", "one.shelf", "b", "--flat", "--application", "302", "--application", "300")
        self.assertEqual(sorted(taken("b")), ["A_BULLETIN.TXT.lrit", "OR_ABI-C13_0.lrit"])
        self.call("follow", "one.shelf", "c", "--flat", "--application", "302", "--only", "OR*")
        self.assertEqual(taken("c"), {})
        self.assertIn(" unwanted -\n", read("c/.follow/one.log").decode())
        self.call("follow", "one.shelf", "a", "--application", "x", status=2)

    def test_names_by_a_template(self) -> None:
        self.call("follow", "one.shelf", "a", "--name", "{channel}/{application}/{label}-{number}-{stamp}-{annotation}")
        self.assertIn("1/300/one-000000-unstamped-OR_ABI-C13_0.lrit", taken("a"))
        self.call("follow", "one.shelf", "b", "--name", "x")
        self.assertEqual(sorted(taken("b")), ["x", "x~2", "x~3"])

    def test_two_receivers_by_a_label(self) -> None:
        os.mkdir("first")
        os.mkdir("second")
        for place, origin in (("first", (0, 0, 0)), ("second", (7, 9, 3))):
            write(f"{place}/2026-11-30.shelf", shelf_of([added(0, text_file(b"same"), 1, 100, origin)]))
            self.call("follow", place, "both", "--label", place)
        names = sorted(path.split("/")[1] for path in taken("both"))
        self.assertEqual(names, ["first-2026-11-30-000000-same", "second-2026-11-30-000000-same"])
        rows = [read(f"both/.follow/{it}-2026-11-30.log").decode().split() for it in ("first", "second")]
        self.assertEqual(rows[0][-1], rows[1][-1], "the sum of the file is the same")
        self.assertNotEqual(rows[0][-3], rows[1][-3], "that of the item isn't")

    def test_a_command_for_each_file_that_stands(self) -> None:
        write("tool.sh", b'#!/bin/sh\n[ -f "$1" ] && echo "$#: $1" >> ran\n[ "$1" != a/3-x ]\n')
        os.chmod("tool.sh", 0o755)
        out, _ = self.call("follow", "one.shelf", "a", "--flat", "--run", "./tool.sh")
        self.assertEqual(len(out.splitlines()), 3)
        self.assertEqual(read("ran").decode().splitlines()[0], "1: a/OR_ABI-C13_0.lrit")
        self.call(
            "follow", "one.shelf", "b", "--flat", "--run", "sh", "-c", 'echo "$0" "$1" >> second', "{}", "x; touch y"
        )
        self.assertEqual(read("second").decode().splitlines()[2], "b/A_BULLETIN.TXT.lrit x; touch y")
        _, said = self.call("follow", "one.shelf", "c", "--run", "false", status=1)
        self.assertEqual(said.count("false for "), 3)
        _, said = self.call("follow", "one.shelf", "d", "--run", "/nowhere/tool", status=1)
        self.assertIn("No such file", said)
        self.assertEqual(len(taken("d")), 3)

    def test_old_days_go(self) -> None:
        self.call("follow", "one.shelf", "a")
        for name in ("2020-01-01", "2020-01-02-mine", "2020"):
            os.mkdir(f"a/{name}")
            write(f"a/{name}/x", b"x")
        os.symlink("../../in", "a/2020-01-03")
        _, said = self.call("follow", "one.shelf", "a", "--keep-days", "2")
        self.assertEqual(said, "")
        _, said = self.call("follow", "one.shelf", "a", "--keep-days", "1")
        self.assertIn("removed a/2020-01-01", said)
        left = sorted(it for it in os.listdir("a") if not it.startswith("."))
        self.assertEqual(left[:3], ["2020", "2020-01-02-mine", "2020-01-03"])
        self.assertEqual(len(left), 4)
        for words in (("--flat",), ("--name", "{label}/{day}")):
            _, said = self.call("follow", "one.shelf", "b", "--keep-days", "1", *words, status=2)
            self.assertIn("--keep-days", said)

    def test_a_log_goes_with_its_shelf(self) -> None:
        folder_of_shelves("shelves")
        out, _ = self.call("follow", "shelves", "a", "--quiet")
        self.assertEqual((out, logs_of("a")), ("2 files\n", ["one.log", "two.log"]))
        os.unlink("shelves/one.shelf")
        out, _ = self.call("follow", "shelves", "a", "--quiet")
        self.assertEqual((out, logs_of("a"), len(taken("a"))), ("", ["two.log"], 2))

    def test_the_day_of_a_file(self) -> None:
        """That of its stamp where that may be right, or else that of the shelf: as its name says, or its last
        change."""
        near, far, hostile = (stamp(days, 0) for days in (25_169, 25_140, 65_000))
        files = [named(b"F%d" % it, 2, b"x", *more) for it, more in enumerate([(), (near,), (far,), (hostile,)])]
        data = shelf_of([added(it, file) for it, file in enumerate(files)])
        write("2026-11-30.shelf", data)
        self.call("follow", "2026-11-30.shelf", "a")
        self.assertEqual(days_of("a"), ["2026-11-29", "2026-11-30", "2026-11-30", "2026-11-30"])
        write("mine.shelf", data)
        then = 1_796_040_000  # (2026-11-30)
        os.utime("mine.shelf", (then, then))
        self.call("follow", "mine.shelf", "b", "--name", "{day}/{stamp}")
        self.assertEqual(days_of("b"), ["2026-10-31", "2026-11-29", "2026-11-30", "2026-11-30"])

    def test_memory_does_not_grow_with_the_files_seen(self) -> None:
        """100,000 files that were taken, and the peak of a second call."""
        count = 100_000
        item = added(0, text_file(b"name"))
        write("large.shelf", shelf_of([item] * count))
        os.makedirs("large/.follow")
        import hashlib
        import json

        sum_ = hashlib.sha256(item).hexdigest()[:32]
        with open("large/.follow/large.log", "w") as it:
            it.write(json.dumps(os.path.realpath("large.shelf")) + "\n")
            for number in range(count):
                gate = 19 + number * (1 + len(item))
                it.write(f"file {number} {number + 1} {gate} {len(item)} {sum_} day/large-{number:06d}-name -\n")
        command = [*COMMAND, "follow", "large.shelf", "large"]
        peak = int(subprocess.run(["/bin/sh", "-c", PEAK, "sh", *command], capture_output=True, check=True).stdout)
        self.assertLess(peak, 40_000, "KiB")
        print(f"a second call over {count} files: {peak} KiB at most")


PEAK = """python3 -c 'import resource, subprocess, sys
subprocess.run(sys.argv[1:], check=True, stdout=subprocess.DEVNULL)
print(resource.getrusage(resource.RUSAGE_CHILDREN).ru_maxrss)' "$@" """
