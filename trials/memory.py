"""What `memory.sh` runs: its head says what it does."""

import os
import re
import subprocess
import sys
from pathlib import Path

NO_MEMORY = b"station: no memory\n"
LOADED_AS = os.environ.get("LOADED_AS", "LD_PRELOAD")
SHELF = Path("shelf")


def run(words: str, stdin: bytes = b"", refuse: int = 0) -> tuple[int, bytes, bytes, bool]:
    """Status, output, error line, and whether a request was refused."""
    environment = dict(os.environ)
    if os.path.exists("refused"):
        os.remove("refused")
    if refuse:
        environment.update({LOADED_AS: "./refuse.so", "REFUSE": str(refuse), "REFUSED": "refused"})
    done = subprocess.run(["./lritstation", "shelf"] + words.split(), input=stdin, capture_output=True, env=environment)
    return done.returncode, done.stdout, done.stderr, os.path.exists("refused")


def made(words: str) -> bytes:
    return subprocess.run(["./lritstation", "-"] + words.split(), capture_output=True, check=True).stdout


frames = made("make 1 10 3 --output frames")
symbols = made("make 1 10 3")
SHELF.write_bytes(b"")
assert run("init 100000")[0] == 0
empty = SHELF.read_bytes()
assert run("receive --input frames", frames)[0] == 0
full = SHELF.read_bytes()


def files() -> int:
    """How many files the shelf has, each of them sound."""
    status, text, _, _ = run("verify")
    lines = text.splitlines()
    assert status == 0 and all(line.endswith((b" ok", b" discarded")) for line in lines), (status, text)
    return len(lines)


# For each command: its words, its input, and the shelf that it finds.
JOBS = [
    ("init 100000", b"", b""),
    ("receive --input frames", frames, empty),
    ("receive", symbols, empty),
    ("receive --workers 3", symbols, empty),
    ("trial 1 10 3", b"", b""),
    ("trial 1 10 3 --workers 3", b"", b""),
    *((words, b"", full) for words in ("list", "verify", "assemble 0 8 100 1", "repack 7 16", "render",
                                       "render --workers 3", "transmit 0 8 16 --line nrz-m")),
    ("downlinks", bytes([1]) + len(symbols).to_bytes(8, "big") + symbols, empty),
    ("frames", frames, full), ("packets", frames, full), ("decode", symbols, full), ("decode --workers 3", symbols, full),
]

# And each command that the help shows with a file's number alone.
NAMES = re.findall(r"^  (\w+) N  ", os.environ["HELP"], re.MULTILINE)
assert len(NAMES) >= 4, NAMES
JOBS += [(name + " 7", b"", full) for name in NAMES]


def is_sound(words: str, before: bytes, status: int, out: bytes, whole_out: bytes, whole_shelf: bytes) -> bool:
    now = SHELF.read_bytes()
    if status != 9:
        return now == (whole_shelf if status != 1 else before)
    name = words.split()[0]
    if name == "init":
        return now == before
    if name == "trial":
        return now == before or 1 <= files() <= 9
    if name == "downlinks":
        return files() == out.count(b"receipt ") and whole_out.startswith(out)
    if name == "receive":
        return files() == out.count(b"shelved ") and whole_out.startswith(out)
    if name in ("discard", "repack"):
        return now in (before, whole_shelf)
    return now == before


failed = runs = 0
for words, stdin, before in JOBS:
    SHELF.write_bytes(before)
    usual = run(words, stdin)
    whole_shelf = SHELF.read_bytes()
    counts: dict[int, int] = {}
    number = 0
    while True:
        number += 1
        SHELF.write_bytes(before)
        status, out, error, refused = run(words, stdin, refuse=number)
        if not refused:
            break
        runs += 1
        counts[status] = counts.get(status, 0) + 1
        good = (status, out, error) == usual[:3] \
            or (status == 9 and error == NO_MEMORY and usual[1].startswith(out)) \
            or (status == 1 and not out and not error)
        if not good or not is_sound(words, before, status, out, usual[1], whole_shelf):
            failed += 1
            print(f"{words}: request {number} FAILED: status {status}, {out[-80:]!r}, {error!r}")
    told = ", ".join(f"{count} ended with {status}" for status, count in sorted(counts.items()))
    print(f"{words}: {number - 1} requests; {told}")
print(f"trials/memory.sh: {runs} runs, failed {failed}")
sys.exit(failed != 0 or runs == 0)
