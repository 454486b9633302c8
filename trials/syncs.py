"""What `syncs.sh` runs: its head says what it does."""

import os
import re
import subprocess
import sys
from collections.abc import Sequence
from typing import NamedTuple, NoReturn

os.chdir(sys.argv[1])
program = os.path.abspath("lritstation")
TRACED = "openat,read,write,pread64,pwrite64,fdatasync,fsync,sync_file_range,ftruncate,lseek"
CALL = re.compile(r"(?:\d+ +)?(\w+)\((.*)\) += (-?\d+)")
Refused = tuple[str, int] | None
RECEIVE = ("receive", "--input", "frames")
STATUSES = {"input": 3, "shelf": 4, "output": 5}


def fail(text: str) -> NoReturn:
    print("trials/syncs.sh: " + text)
    sys.exit(1)


class Call(NamedTuple):
    """A call of the system: its name, its number among those of that name, its arguments, its answer, and what it is
    made on."""

    name: str
    number: int
    words: str
    answer: int
    place: str

    def letter(self) -> str:
        if self.place == "shelf" and self.name == "pwrite64":
            return "g" if ', "\\1", 1, ' in self.words else "w"
        if self.place == "shelf" and self.name in ("fdatasync", "fsync"):
            return "s"
        return "l" if self.place == "output" and '"shelved ' in self.words else ""


def run(words: Sequence[str], refused: Refused = None) -> tuple[list[Call], int, str]:
    """The calls of a run, its status and what it printed; the call of this name and number is refused."""
    inject = ["-e", "inject=%s:error=EIO:when=%d" % refused] if refused else []
    with open("stream", "rb") as source:
        command = ["strace", "-f", "-s", "32", "-o", "log", "-e", "trace=" + TRACED, *inject, program, *words]
        ended = subprocess.run(command, stdin=source, capture_output=True)
    calls: list[Call] = []
    numbers: dict[str, int] = {}
    places = {"0": "input", "1": "output"}
    with open("log", encoding="latin-1") as lines:
        for name, given, answer in (found.groups() for found in map(CALL.match, lines) if found):
            numbers[name] = numbers.get(name, 0) + 1
            calls.append(Call(name, numbers[name], given, int(answer), places.get(given.split(", ")[0], "")))
            if name == "openat" and '"shelf"' in given:
                places[answer] = "shelf"
    return calls, ended.returncode, ended.stdout.decode()


def prepare(words: Sequence[str]) -> None:
    """As before each run: an empty shelf, or what a stopped `init` leaves."""
    with open("shelf", "wb") as file:
        file.write(bytes(20) if words[0] == "init" else b"")
    if words[0] != "init":
        subprocess.run([program, "shelf", "init", "1000000"], check=True, capture_output=True)


def received(refused: Refused = None, words: Sequence[str] = RECEIVE) -> tuple[list[Call], int, str]:
    prepare(words)
    return run(["shelf", *words], refused)


def refuse_each(words: Sequence[str]) -> int:
    """Each refused call of a run of these words is the last one on its place, and the line of no item came before its
    last sync."""
    calls = received(None, words)[0]
    tried = [call for call in calls if call.place]
    for call in tried:
        seen, status, _ = received((call.name, call.number), words)
        what = "%s, %s %d refused" % (words[0], call.name, call.number)
        at = next((k for k, other in enumerate(seen) if (other.name, other.number) == (call.name, call.number)), None)
        if at is None or seen[at].answer != -1 or seen[at].place != call.place:
            fail(what + ": another call was refused")
        after = [other for other in seen[at + 1:] if other.place == call.place]
        if after:
            fail("%s: then %s was asked for" % (what, after[0].name))
        if status != STATUSES[call.place]:
            fail("%s: ended with %d" % (what, status))
        letters = "".join(other.letter() for other in seen if other.answer >= 0)
        if words[0] == "receive" and not re.fullmatch("(s(w+sgsl)*(w*|w+s|w+sg|w+sgs))?", letters):
            fail("%s: %s" % (what, letters))
    return len(tried)


with open("stream", "wb") as target:
    made = subprocess.run([program, "-", "make", "1", "6", "0", "--output", "frames"], check=True, capture_output=True)
    target.write(made.stdout)
calls, status, text = received()
files = text.count("shelved ")
letters = "".join(call.letter() for call in calls)
if status != 0 or files == 0:
    fail("receive ended with %d, %d files" % (status, files))
if letters != "s" + "".join(re.findall("w+sgsl", letters)) or letters.count("l") != files:
    fail("of %d items: %s" % (files, letters))
print("trials/syncs.sh: %d items, each synced before its gate was written, and again before its line" % files)
tried = refuse_each(RECEIVE) + refuse_each(("init", "1000000"))
print("trials/syncs.sh: %d refused calls, of which none was asked for again" % tried)
