"""What `kill.sh` runs: its head says what it does. Usage: kill.py FOLDER ROUNDS FRAMES."""

import os
import random
import subprocess
import sys
import time
from pathlib import Path

from downlink import frame_of_file
from drawn import big

rounds, frames = int(sys.argv[2]), int(sys.argv[3])
os.chdir(sys.argv[1])
shelf, stream, out, bundle = Path("shelf"), Path("stream"), Path("out"), Path("bundle")
KILLED = -9


def proper(number: int) -> bytes:
    """The file of this number after its transport header: 1 to 300 bytes."""
    return (big(4, number) * 75)[:1 + number * 37 % 300]


def run(*words: str, given: bytes = b"") -> subprocess.CompletedProcess[bytes]:
    return subprocess.run(["./lritstation", "shelf", *words], input=given, capture_output=True)


def make_shelf() -> None:
    shelf.unlink(missing_ok=True)
    made = run("init", "1000000000")
    assert made.returncode == 0 and made.stdout == b"shelf capacity 1000000000\n", made


def acknowledged() -> list[int]:
    """The numbers of the files whose whole line was printed."""
    lines = out.read_bytes().split(b"\n")[:-1]
    return [int(line.split()[1]) for line in lines if line.startswith(b"shelved ")]


def verified() -> int:
    """How many files the shelf has, where `verify` finds each of them good, or else -1."""
    checked = run("verify")
    lines = checked.stdout.decode().splitlines()
    good = checked.returncode == 0 and lines == [f"file {k} ok" for k in range(len(lines))]
    return len(lines) if good else -1


def extracts(count: int, first: int = 0) -> bool:
    """Whether some drawn ones of these files, and the last two, are extracted as they were sent; the first one has this
    number."""
    drawn = random.sample(range(count), min(20, count)) + list(range(count))[-2:]
    return all(run("extract", str(first + k)).stdout == proper(k) for k in drawn)


def receive(source: Path, *words: str, after: float | None = None) -> tuple[int, float]:
    """Receives all of this, or is killed after so many seconds: the status, and how long it took."""
    begin = time.monotonic()
    with source.open("rb") as given, out.open("wb") as lines:
        running = subprocess.Popen(["./lritstation", "shelf", *words], stdin=given, stdout=lines)
        try:
            running.wait(after)
        except subprocess.TimeoutExpired:
            running.kill()
            running.wait()
    return running.returncode, time.monotonic() - begin


class Frames:
    """Calls of `receive` over the frames: how long the shortest one took that came to its end."""

    def __init__(self) -> None:
        self.shortest = float("inf")

    def whole(self, after: float | None = None) -> int:
        status, took = receive(stream, "receive", "--input", "frames", after=after)
        self.shortest = min(self.shortest, took) if status == 0 else self.shortest
        return status

    def some(self) -> int:
        """The status of a call that is killed at a drawn moment."""
        return self.whole(random.uniform(0, self.shortest))

    def keeps_all(self, numbers: list[int]) -> bool:
        """A shelf on which a `receive` was killed has the acknowledged files and at most one more, and takes the next
        ones after them."""
        count = verified()
        if numbers != list(range(len(numbers))) or count - len(numbers) not in (0, 1) or not extracts(count):
            return False
        goes_on = self.whole() == 0 and acknowledged() == list(range(count, count + frames))
        return goes_on and verified() == count + frames


def said(good: bool) -> str:
    return "passed" if good else "FAILED"


def whole_run(calls: Frames) -> bool:
    make_shelf()
    status = calls.whole()
    last = out.read_bytes().split(b"\n")[-2].decode()
    wanted = f"symbols {892 * frames} frames {frames} restored {frames} lost 0 packets {frames} files {frames} " \
        "left 0 stop end"
    good = status == 0 and last == wanted and acknowledged() == list(range(frames)) and verified() == frames
    good = good and extracts(frames)
    print(f"whole run: {said(good)}, {frames} files in {calls.shortest:.2f} s")
    return good


def new_shelves(calls: Frames) -> tuple[bool, int]:
    """Rounds over a new shelf each: whether all are good, and how many were killed."""
    good = killed = 0
    for number in range(rounds):
        make_shelf()
        status = calls.some()
        numbers = acknowledged()
        killed += status == KILLED
        kept = calls.keeps_all(numbers)
        good += kept
        print(f"round {number}: {said(kept)}, status {status}, {len(numbers)} files acknowledged")
    print(f"{good} of {rounds} rounds passed, in {killed} of them the program was killed")
    return good == rounds, killed


def one_shelf(calls: Frames) -> tuple[bool, int]:
    """One shelf, on which every `receive` is killed: each adds the acknowledged files and at most one more, and the next
    one goes on after them. The bases are the numbers at which the rounds began."""
    make_shelf()
    bases, killed = [0], 0
    for _ in range(rounds):
        killed += calls.some() == KILLED
        numbers, count = acknowledged(), verified()
        added = count - bases[-1]
        if numbers != list(range(bases[-1], bases[-1] + len(numbers))) or added - len(numbers) not in (0, 1):
            break
        if not extracts(added, bases[-1]):
            break
        bases.append(count)
    on = len(bases) - 1
    kept = on == rounds and all(extracts(end - begin, begin) for begin, end in zip(bases, bases[1:]))
    print(f"one shelf: {said(kept)}, {on} of {rounds} rounds, killed in {killed}, {bases[-1]} files")
    return kept, killed


# ---- several recordings


def extracted() -> list[bytes]:
    """All files of the shelf."""
    return [run("extract", str(number)).stdout for number in range(verified())]


def files_of(recording: bytes) -> list[bytes]:
    """The files of a recording alone."""
    make_shelf()
    assert run("receive", given=recording).returncode == 0
    return extracted()


def is_merge(files: list[bytes], first: list[bytes], second: list[bytes]) -> bool:
    """Whether these are the first ones of the files of both recordings, one among the other."""
    at, other = 0, 0
    for file in files:
        if at < len(first) and file == first[at]:
            at += 1
        elif other < len(second) and file == second[other]:
            other += 1
        else:
            return False
    return True


def downlinks() -> bool:
    made = [["./lritstation", "-", "make", start, "64", "0"] for start in ("1", "2")]
    recordings = [subprocess.run(words, capture_output=True, check=True).stdout for words in made]
    bundle.write_bytes(bytes([2]) + b"".join(big(8, len(one)) + one for one in recordings))
    first, second = map(files_of, recordings)
    make_shelf()
    status, longest = receive(bundle, "downlinks")
    merged = status == 0 and len(extracted()) == 126 and is_merge(extracted(), first, second)
    stopped = 0
    for _ in range(rounds):
        make_shelf()
        stopped += receive(bundle, "downlinks", after=random.uniform(0, longest))[0] == KILLED
        merged = merged and is_merge(extracted(), first, second)
    print(f"downlinks: {said(merged)}, {rounds} rounds, killed in {stopped}")
    return merged


def main() -> int:
    with stream.open("wb") as target:
        target.writelines(frame_of_file(100, number, proper(number)) for number in range(frames))
    calls = Frames()
    passed = whole_run(calls)
    good, killed = new_shelves(calls)
    kept, ended = one_shelf(calls)
    merged = downlinks()
    if killed + ended == 0:
        print("no run was killed: nothing was tried")
    return 0 if passed and good and kept and merged and killed + ended > 0 else 1


sys.exit(main())
