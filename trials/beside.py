#!/usr/bin/env python3
"""Readers of a shelf beside those who write it; see beside.sh.

Usage: beside.py PROGRAM FOLDER CALLS [plain]: no reader is slowed then, and strace isn't needed"""
import os
import random
import subprocess
import sys
import threading
import time
from collections.abc import Iterable, Sequence
from typing import IO

from downlink import frame_of_file, primary, record
from drawn import big

Done = subprocess.CompletedProcess[bytes]

PROGRAM, FOLDER, CALLS = sys.argv[1], sys.argv[2], int(sys.argv[3])
SHELF = os.path.join(FOLDER, "shelf")
FILES_A_SECOND = 400
READERS = 6
WIDTH = 8
# the commands by what they read: one file, two that stand side by side, all
ONE, PAIR, ALL = ("show", "extract", "export"), ("assemble", "transmit"), ("list", "verify", "render")
# each read of the shelf waits for 2 milliseconds first
SLOWED = ["strace", "-f", "-o", "/dev/null", "-e", "trace=pread64", "-e", "inject=pread64:delay_enter=2000"]
IS_PLAIN = sys.argv[4:] == ["plain"]


def lines_of(number: int) -> int:
    return 1 + number * 37 % 40


def pixels(number: int) -> bytes:
    return bytes((number + place) & 255 for place in range(WIDTH * lines_of(number)))


def pgm(lines: int, content: bytes) -> bytes:
    return b"P5\n%d %d\n255\n" % (WIDTH, lines) + content


def proper(number: int) -> bytes:
    """The file of this number after its transport header: an image of 8 columns, one of two segments of an image."""
    structure = record(1, bytes([8]) + big(2, WIDTH) + big(2, lines_of(number)) + bytes([0]))
    first = number - number % 2
    start = lines_of(first) if number % 2 else 0
    fields = (number // 2 & 0xFFFF, number % 2, 0, start, 2, WIDTH, lines_of(first) + lines_of(first + 1))
    records = structure + record(128, b"".join(big(2, field) for field in fields))
    return primary(0, 16 + len(records), 8 * len(pixels(number))) + records + pixels(number)


def run(*words: str, before: Sequence[str] = ()) -> Done:
    return subprocess.run([*before, PROGRAM, SHELF, *words], stdout=subprocess.PIPE, stderr=subprocess.PIPE)


def must(*words: str) -> bytes:
    done = run(*words)
    if done.returncode != 0:
        sys.exit(f"beside: {' '.join(words)} ended with {done.returncode}: {done.stderr.decode()}")
    return done.stdout


def images_in(text: bytes) -> list[bytes]:
    """The images of `render`, one after another."""
    images = []
    while text:
        head = text.split(b"\n", 3)
        lines = int(head[1].split()[1])
        size = len(pgm(lines, bytes(WIDTH * lines)))
        images.append(text[:size])
        text = text[size:]
    return images


class Readers:
    """Threads that call the program again and again, and what was wrong with the calls."""

    def __init__(self, gone: Iterable[int] = ()) -> None:
        self.lock = threading.Lock()
        self.calls, self.slowed, self.wrong = 0, 0, list[str]()
        self.statuses: dict[tuple[str, int], int] = {}
        # how many files there are at least, and the lists, checks and sent pairs to hold against the last ones
        self.known = 0
        self.lists: list[list[bytes]] = []
        self.checks: list[list[bytes]] = []
        self.pairs: list[tuple[int, bytes]] = []
        # the files that may be discarded, and those of which a coded copy stands at the end, in order
        self.gone, self.copied = set(gone), list[int]()
        self.going = True
        self.threads = [threading.Thread(target=self.work, args=(seed,)) for seed in range(READERS)]
        for thread in self.threads:
            thread.start()

    def work(self, seed: int) -> None:
        draw = random.Random(seed)
        while self.going:
            # the last reader is slowed, and the one before it now and then
            slowed = not IS_PLAIN and (seed == READERS - 1 or seed == READERS - 2 and draw.random() < 0.2)
            kind = draw.choice(ONE + ONE + PAIR + ALL)
            if kind in ALL and self.known > 4000 and draw.random() < 0.8:
                kind = "show"
            self.call(kind, draw, slowed)

    def call(self, kind: str, draw: random.Random, slowed: bool) -> None:
        with self.lock:
            known = self.known
        if kind in ONE:
            if known == 0:
                return
            # as often as not one of the newest
            number = draw.randrange(known) if draw.random() < 0.5 else max(0, known - 1 - draw.randrange(3))
            done = run(kind, str(number), before=SLOWED if slowed else ())
            self.held(kind, number, done)
        elif kind in PAIR:
            if min(known, sent()) < 2:
                return
            first = 2 * draw.randrange(min(known, sent()) // 2)
            words = ("100", str(first // 2 & 0xFFFF)) if kind == "assemble" else ("0",)
            done = run(kind, str(first), str(first + 2), *words, before=SLOWED if slowed else ())
            self.held_pair(kind, first, done)
        else:
            done = run(kind, before=SLOWED if slowed else ())
            self.held_all(kind, known, done)
        with self.lock:
            self.calls += 1
            self.slowed += slowed
            key = (kind, done.returncode)
            self.statuses[key] = self.statuses.get(key, 0) + 1

    def bad(self, text: str) -> None:
        with self.lock:
            self.wrong.append(text)

    def held(self, kind: str, number: int, done: Done) -> None:
        """One file: its bytes or its image as it was sent, or 13 where it is discarded meanwhile."""
        if done.returncode == 13 and number in self.gone and not done.stdout:
            return
        if done.returncode != 0:
            self.bad(f"{kind} {number} ended with {done.returncode}: {done.stderr.decode().strip()}")
        elif kind == "extract" and number < sent() and done.stdout != proper(number):
            self.bad(f"extract {number} wrote other bytes")
        elif kind == "export" and number < sent() and done.stdout != pgm(lines_of(number), pixels(number)):
            self.bad(f"export {number} wrote another image")
        elif kind == "show" and not done.stdout.startswith(b"file %d " % number):
            self.bad(f"show {number} printed {done.stdout[:60]!r}")

    def held_pair(self, kind: str, first: int, done: Done) -> None:
        """Two files, sent or put together: with a file that may be discarded meanwhile only the status is looked at."""
        if first in self.gone or first + 1 in self.gone:
            if done.returncode not in (0, 8):
                self.bad(f"{kind} {first} ended with {done.returncode}: {done.stderr.decode().strip()}")
        elif done.returncode != 0:
            self.bad(f"{kind} {first} ended with {done.returncode}: {done.stderr.decode().strip()}")
        elif kind == "transmit":
            with self.lock:
                self.pairs.append((first, done.stdout))
        else:
            whole = pgm(lines_of(first) + lines_of(first + 1), pixels(first) + pixels(first + 1))
            if done.stdout != whole or done.stderr != b"assembled 2 skipped 0 uncovered 0\n":
                self.bad(f"assemble {first} wrote another image, or told {done.stderr.decode().strip()}")

    def held_all(self, kind: str, known: int, done: Done) -> None:
        """All files: at least as many as were known before the call."""
        if done.returncode != 0:
            self.bad(f"{kind} ended with {done.returncode}: {done.stderr.decode().strip()}")
            return
        if kind == "render":
            self.held_images(known, done)
            return
        lines = done.stdout.splitlines()
        count = len(lines) - 1 if kind == "list" else len(lines)
        if count < known:
            self.bad(f"{kind} printed {count} entries, and {known} were there before")
        with self.lock:
            if kind == "list":
                self.lists.append(lines[:-1])
                self.known = max(self.known, count)
            else:
                self.checks.append(lines)

    def held_images(self, known: int, done: Done) -> None:
        """Each image in its place, but for files that may be discarded meanwhile, then those of the coded copies."""
        images = images_in(done.stdout)
        if done.stderr != b"rendered %d skipped 0\n" % len(images):
            self.bad(f"render wrote {len(images)} images, and told {done.stderr.decode().strip()}")
        with self.lock:
            numbers = list(range(sent())) + self.copied
        place = entries = 0
        for number in numbers:
            if place < len(images) and images[place] == pgm(lines_of(number), pixels(number)):
                place += 1
            elif number not in self.gone:
                break
            entries += 1
        if place < len(images):
            self.bad(f"render wrote another image as its {place}th")
        elif entries < known:
            self.bad(f"render wrote the images of {entries} entries, and {known} were there before")

    def end(self) -> None:
        self.going = False
        for thread in self.threads:
            thread.join()

    def compare(self) -> None:
        """Each list and each check is a front of the last one, but for files that were discarded meanwhile, and what
        was sent is what is sent now."""
        listed, verified = must("list").splitlines()[:-1], must("verify").splitlines()
        for kind, texts, last in (("list", self.lists, listed), ("verify", self.checks, verified)):
            for lines in texts:
                for number, (line, now) in enumerate(zip(lines, last)):
                    if line != now and number not in self.gone:
                        self.bad(f"{kind} printed {line!r} for {now!r}")
                if len(lines) > len(last):
                    self.bad(f"{kind} printed {len(lines)} lines, and {len(last)} stand")
        firsts = {first for first, _ in self.pairs}
        sends = {first: must("transmit", str(first), str(first + 2), "0") for first in firsts}
        for first, text in self.pairs:
            if text != sends[first]:
                self.bad(f"transmit {first} wrote other symbols")

    def told(self, beside: str) -> int:
        self.compare()
        counts = ", ".join(f"{kind} {status}: {count}" for (kind, status), count in sorted(self.statuses.items()))
        calls = f"{self.calls} calls beside {beside}, {self.slowed} of them slowed"
        print(f"beside: {calls}, {len(self.wrong)} wrong ({counts})")
        for text in self.wrong[:5]:
            print(f"beside:   {text}")
        return len(self.wrong)


SENT = [0]


def sent() -> int:
    return SENT[0]


def feed(pipe: IO[bytes], ends: threading.Event) -> None:
    """Frames at a steady rate until the event comes."""
    begun = time.monotonic()
    while not ends.is_set():
        due = int((time.monotonic() - begun) * FILES_A_SECOND) - SENT[0]
        if due > 0:
            SENT[0] += due
            pipe.write(b"".join(frame_of_file(100, number, proper(number)) for number in range(SENT[0] - due, SENT[0])))
            pipe.flush()
        time.sleep(0.005)
    pipe.close()


def beside_receive(calls: int) -> int:
    receiver = subprocess.Popen(
        [PROGRAM, SHELF, "receive", "--input", "frames"],
        stdin=subprocess.PIPE, stdout=subprocess.PIPE, stderr=subprocess.PIPE)
    assert receiver.stdin and receiver.stdout and receiver.stderr
    ends = threading.Event()
    feeder = threading.Thread(target=feed, args=(receiver.stdin, ends))
    drain = threading.Thread(target=receiver.stdout.read)
    for thread in (feeder, drain):
        thread.start()
    readers = Readers()
    while readers.calls < calls and receiver.poll() is None:
        time.sleep(0.05)
    readers.end()
    ends.set()
    feeder.join()
    drain.join()
    if receiver.wait() != 0:
        sys.exit(f"beside: receive ended with {receiver.returncode}: {receiver.stderr.read().decode()}")
    return readers.told(f"receive of {sent()} files, {FILES_A_SECOND} a second")


def beside_changes(calls: int) -> int:
    """Entries are discarded and images coded anew while readers are there."""
    count = sent()
    gone = random.Random(1).sample(range(count), count // 4)
    readers = Readers(gone)
    readers.known = count
    discards = repacks = 0
    for number in gone:
        if readers.calls >= calls:
            break
        must("discard", str(number))
        discards += 1
        if discards % 3 == 0:
            kept = random.randrange(count)
            with readers.lock:
                readers.copied.append(kept)
            done = run("repack", str(kept), "8")
            repacks += done.returncode == 0
            if done.returncode != 0:
                with readers.lock:
                    readers.copied.pop()
            if done.returncode not in (0, 13):
                readers.bad(f"repack {kept} ended with {done.returncode}: {done.stderr.decode().strip()}")
    readers.end()
    return readers.told(f"{discards} calls of discard and {repacks} of repack")


def main() -> None:
    must("init", "4000000000")
    wrong = beside_receive(CALLS)
    wrong += beside_changes(CALLS // 3)
    sys.exit(1 if wrong else 0)


main()
