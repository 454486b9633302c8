#!/usr/bin/env python3
"""Draws recordings and lists of commands, and has several programs do them: each has to end with the same status, with
the same bytes printed and said, and with the same bytes on its shelf; see arm64.sh.

Usage: arm64.py FOLDER SEED RECORDINGS SESSIONS PROGRAM PROGRAM..: the first program draws the streams. There is a
bundle of several recordings for ten of RECORDINGS."""
import os
import random
import subprocess
import sys
from collections.abc import Callable

Call = tuple[list[str], bytes]  # the words of a command, and its input
Answer = tuple[int, bytes, bytes, bytes | None]  # status, output, error line, and what is on the shelf then

LINES = ("nrz-l", "nrz-m")
G2 = ("inverted", "plain")
SECONDS = 300


def run(program: str, words: list[str], given: bytes = b"", shelf: str = "-") -> tuple[int, bytes, bytes]:
    """Status, output and error line."""
    done = subprocess.run([program, shelf, *words], input=given, capture_output=True, timeout=SECONDS)
    return done.returncode, done.stdout, done.stderr


def made(words: list[str]) -> bytes:
    """What the first program prints."""
    status, out, said = run(PROGRAMS[0], words)
    assert status == 0, (words, status, said)
    return out


def shelf_bytes(path: str) -> bytes | None:
    if not os.path.exists(path):
        return None
    with open(path, "rb") as file:
        return file.read()


class Draw(random.Random):
    """Streams, and what becomes of them on their way."""

    def options(self) -> list[str]:
        return ["--line", self.choice(LINES), "--g2", self.choice(G2)]

    def stream(self, form: str, most: int) -> bytes:
        """Up to this many frames of the test stream."""
        wrong = self.choice((0, 0, 1, 8, 15, 16))
        return made(["make", str(self.randrange(1, 10**6)), str(self.randint(1, most)), str(wrong), "--output", form])

    def sent(self, options: list[str], most: int) -> bytes:
        """Files of the test stream, sent under these options."""
        shelf = os.path.join(FOLDER, "sent")
        if os.path.exists(shelf):
            os.remove(shelf)
        frames = made(["make", str(self.randrange(1, 10**6)), str(self.randint(2, most)), "0", "--output", "frames"])
        assert run(PROGRAMS[0], ["init", "1000000"], shelf=shelf)[0] == 0
        assert run(PROGRAMS[0], ["receive", "--input", "frames"], frames, shelf)[0] == 0
        count = len(run(PROGRAMS[0], ["list"], shelf=shelf)[1].splitlines()) - 1
        words = ["transmit", "0", str(max(count, 0)), str(self.choice((0, 3, 16))), *options]
        return run(PROGRAMS[0], words, shelf=shelf)[1]

    def noise(self, symbols: bytes) -> bytes:
        """Each symbol, one signed byte, with noise of a drawn strength, and clipped."""
        strength = self.choice((0, 8, 30, 60, 90))
        if not strength:
            return symbols
        tables = []
        for _ in range(64):
            drawn = (int(self.gauss(value, strength)) for value in range(-128, 128))
            tables.append([max(-128, min(127, value)) & 255 for value in drawn])
        # (a table for each symbol, in an order that doesn't come again soon)
        start = self.randrange(64)
        taken = (tables[(start + place * 37 + place // 64) & 63] for place in range(len(symbols)))
        return bytes(table[(byte + 128) & 255] for table, byte in zip(taken, symbols))

    def wrong_bytes(self, data: bytes) -> bytes:
        """Some bytes as any others."""
        changed = bytearray(data)
        for _ in range(self.choice((0, 1, 30, 1000)) if data else 0):
            changed[self.randrange(len(data))] = self.randrange(256)
        return bytes(changed)

    def cut(self, data: bytes) -> bytes:
        """Pieces are missing, come twice, are silent, turned round, or are of noise."""
        for _ in range(self.choice((0, 0, 1, 2, 5))):
            start = self.randrange(len(data) + 1)
            end = min(len(data), start + self.choice((1, 2, 7, 100, 5000, 40000)))
            piece = data[start:end]
            kind = self.randrange(5)
            if kind == 0:
                piece = b""
            elif kind == 1:
                piece += piece
            elif kind == 2:
                piece = bytes(len(piece))
            elif kind == 3:
                piece = bytes(-byte & 255 for byte in piece)
            else:
                piece = self.randbytes(len(piece))
            data = data[:start] + piece + data[end:]
        return data

    def recording(self, most: int) -> Call:
        """Words of a command that reads a stream, and the stream."""
        form = self.choice(("symbols", "symbols", "symbols", "blocks", "frames"))
        command = self.choice(("receive", "receive", "decode" if form != "frames" else "packets"))
        words = [command] + (["--input", form] if command != "packets" else [])
        if command != "packets" and self.random() < 0.5:
            words += ["--workers", str(self.choice((1, 2, 3, 4, 8)))]
        if command != "packets" and self.random() < 0.5:
            words += ["--passes", str(self.choice((1, 2, 3, 4)))]
        if self.random() < 0.2:
            words += ["--symbols", str(self.randrange(400000))]
        options = self.options()
        if form != "symbols":
            data = self.cut(self.stream(form, most))
        else:
            data = self.sent(options, most) if self.random() < 0.6 else self.stream(form, most)
            data = self.randbytes(self.choice((0, 1, 5000))) + self.noise(self.cut(data))
            if self.random() < 0.8:
                words += options
        return words, self.wrong_bytes(data)

    def bundle(self, options: list[str], count: int) -> bytes:
        """This number of recordings as one input of `downlinks`."""
        many = [self.cut(self.sent(options, 6)) for _ in range(count)]
        return bytes([len(many)]) + b"".join(len(one).to_bytes(8, "big") + one for one in many)

    def command(self, files: int) -> Call:
        """A command of a session on a shelf with about this many files, and its input."""
        number = str(self.choice((0, self.randrange(files + 2), self.randrange(files + 2), 10**6)))
        first = self.randrange(files + 2)
        span = [str(first), str(first + self.randrange(12))]
        frames = self.choice(("frames", "packets"))
        options = self.options()
        kinds: list[tuple[int, Callable[[], Call]]] = [
            (12, lambda: (["receive", "--input", "frames"], self.wrong_bytes(self.stream("frames", 40)))),
            (4, lambda: self.recording(6)),
            (2, lambda: (["downlinks", *options], self.bundle(options, 1))),
            (3, lambda: (["list"], b"")),
            (3, lambda: (["verify"], b"")),
            (6, lambda: (["show", number], b"")),
            (6, lambda: (["extract", number], b"")),
            (6, lambda: (["export", number], b"")),
            (3, lambda: (["render", "--workers", str(self.choice((1, 2, 5)))], b"")),
            (3, lambda: (["assemble", *span, str(self.choice((100, 101, 200, 300))), str(self.randrange(3))], b"")),
            (4, lambda: (["discard", number], b"")),
            (8, lambda: (["repack", number, str(self.choice((8, 16, 32, 64, 5)))], b"")),
            (3, lambda: (["transmit", *span, str(self.choice((0, 16, 17))), *options], b"")),
            (2, lambda: ([frames], self.wrong_bytes(self.stream("frames", 20)))),
            (1, lambda: (["make", number, str(self.randrange(5)), "16", "--output", "blocks"], b"")),
            (1, lambda: (["trial", number, str(self.randrange(5)), "3", "--workers", "2"], b"")),
            (1, lambda: (["init", "65536"], b"")),
            (1, lambda: (["init", "x"], b"")),
        ]
        return self.choices([kind for _, kind in kinds], [weight for weight, _ in kinds])[0]()


def same(what: str, answers: list[Answer]) -> bool:
    """Whether all programs answered the same; what differs is told."""
    if all(answer == answers[0] for answer in answers[1:]):
        return True
    print(f"{what} FAILED")
    for program, (status, out, said, shelf) in zip(PROGRAMS, answers):
        shelved = "-" if shelf is None else len(shelf)
        print(f"  {program}: status {status}, {len(out)} bytes {out[-60:]!r}, {said[-80:]!r}, shelf {shelved}")
    return False


def everywhere(words: list[str], data: bytes, shelves: list[str]) -> list[Answer]:
    """What each program answers, with what is on its shelf then."""
    return [(*run(program, words, data, shelf), shelf_bytes(shelf)) for program, shelf in zip(PROGRAMS, shelves)]


def new_shelves() -> list[str]:
    shelves = [os.path.join(FOLDER, f"shelf-{place}") for place in range(len(PROGRAMS))]
    for shelf in shelves:
        if os.path.exists(shelf):
            os.remove(shelf)
    return shelves


def damage(draw: Draw, shelves: list[str]) -> None:
    """Another byte in the same place of each shelf."""
    place, byte = draw.randrange(os.path.getsize(shelves[0])), draw.randrange(256)
    for shelf in shelves:
        with open(shelf, "r+b") as file:
            file.seek(place)
            file.write(bytes([byte]))


def recordings(count: int) -> int:
    """How many recordings differ, and what came of them."""
    failed, restored, files = 0, 0, 0
    for number in range(count):
        draw = Draw(f"{SEED} recording {number}")
        words, data = draw.recording(12)
        shelves = new_shelves()
        capacity = draw.choice((20, 3000, 10**6, 10**6, 10**6))
        answers = everywhere(["init", str(capacity)], b"", shelves)
        good = same(f"recording {number}: init", answers)
        answers = everywhere(words, data, shelves)
        good = same(f"recording {number}: {' '.join(words)}, {len(data)} bytes", answers) and good
        failed += not good
        files += answers[0][1].count(b"shelved ")
        restored += answers[0][1].count(b" restored ")
    print(f"{count} recordings: {failed} differ; {files} files were shelved")
    return failed


def merged(program: str, options: list[str], data: bytes, shelf: str) -> Answer:
    """What `downlinks` leaves: status, last line, and the receipts and files, in whichever order they came."""
    status, out, said = run(program, ["downlinks", *options], data, shelf)
    lines = out.splitlines()
    receipts = sorted(line.split(b" number ")[0] for line in lines if line.startswith(b"receipt "))
    files = sorted(run(program, ["extract", str(number)], shelf=shelf)[1] for number in range(files_of(shelf)))
    return status, b"\n".join([*receipts, *files, *lines[-1:]]), said, None


def bundles(count: int) -> int:
    """How many bundles of several recordings differ. In which order their threads come is no matter of the bytes."""
    failed, files = 0, 0
    for number in range(count):
        draw = Draw(f"{SEED} bundle {number}")
        options = draw.options()
        data = draw.bundle(options, draw.randint(2, 5))
        shelves = new_shelves()
        everywhere(["init", "1000000"], b"", shelves)
        answers = [merged(program, options, data, shelf) for program, shelf in zip(PROGRAMS, shelves)]
        failed += not same(f"bundle {number}", answers)
        files += files_of(shelves[0])
    print(f"{count} bundles: {failed} differ; {files} files were shelved")
    return failed


def sessions(count: int) -> int:
    failed, calls, statuses = 0, 0, set[int]()
    for number in range(count):
        draw = Draw(f"{SEED} session {number}")
        shelves = new_shelves()
        capacity = str(draw.choice((20, 5000, 200000, 10**6)))
        good = same(f"session {number}: init", everywhere(["init", capacity], b"", shelves))
        for step in range(draw.randint(5, 15)):
            words, data = draw.command(files_of(shelves[0]))
            if draw.random() < 0.04:
                damage(draw, shelves)
            answers = everywhere(words, data, shelves)
            good = same(f"session {number}, call {step}: {' '.join(words)}", answers) and good
            calls += 1
            statuses.add(answers[0][0])
        failed += not good
    print(f"{count} sessions of {calls} calls: {failed} differ; statuses {' '.join(map(str, sorted(statuses)))}")
    return failed


def files_of(shelf: str) -> int:
    """How many files the shelf has, by its list."""
    return max(0, len(run(PROGRAMS[0], ["list"], shelf=shelf)[1].splitlines()) - 1)


if len(sys.argv) < 7:
    sys.exit(__doc__)
FOLDER, SEED = sys.argv[1:3]
PROGRAMS = sys.argv[5:]
COUNTS = [int(word) for word in sys.argv[3:5]]
sys.exit(1 if recordings(COUNTS[0]) + bundles(COUNTS[0] // 10) + sessions(COUNTS[1]) else 0)
