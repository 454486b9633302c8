"""Extracts each file of a shelf once, as it was sent, and prints its number and name. With --watch it runs until a
signal ends it.

A file is named DAY/LABEL-NUMBER-ANNOTATION: its day (UTC), the shelf's name (with -2, -3 and so on if several shelves
have had that name), its number, and the name in its annotation record, in which every character except letters, digits,
dots, hyphens and underscores becomes an underscore. Discarded files are left out, and so are files with a bad checksum,
with a message. A file that is discarded after it was extracted moves to FOLDER/discarded. What was extracted is
recorded in FOLDER/.follow; remove that to extract everything again. The record of a shelf is removed when the shelf is
removed from its folder.
"""

import os
import subprocess
import time
from collections.abc import Callable, Iterable, Iterator, Sequence
from dataclasses import dataclass
from typing import Protocol

from . import bulletins
from . import folder as folders
from . import index, journal, program
from . import shelf as shelves
from .shelf import Head, Shelf, StoredFile

POLL_SECONDS = 1
KEEP_SECONDS = 3600  # between two looks for days and logs that go
TELL_SECONDS = 60
MOST_BATCH_BYTES = 128 * 1024 * 1024


class Latest(Protocol):
    """Keeps the newest file of each kind."""

    def take(self, path: str, file: StoredFile, contents: bytes | dict[str, bytes]) -> None:
        """Takes what came of a file."""

    def put(self, folder: folders.Folder) -> None:
        """Writes what was taken since."""


ProductOf = Callable[[str, StoredFile], folders.Product]


def whole_file(_path: str, file: StoredFile) -> folders.Product:
    """Returns the LRIT/HRIT file as it was sent, without its transport header."""
    return folders.Product("", file.proper, False)


@dataclass(frozen=True)
class Wishes:
    """Which files are extracted, and what is done with them."""

    product_of: ProductOf = whole_file
    patterns: Sequence[str] = ()  # of annotations; where there is none, all files
    applications: Sequence[int] = ()
    headings: Sequence[str] = ()  # patterns of FZNT01-KWBC; where there is none, all files
    prefix: str = ""  # of the label
    command: Sequence[str] = ()  # that is run for each file; {} stands for its path
    keep_days: int | None = None  # after which the folder of a day goes
    is_quiet: bool = False  # a line a minute, and none for each file
    latest: Latest | None = None  # takes the newest bulletin of each heading

    def wants(self, file: StoredFile) -> bool:
        is_named = not self.patterns or folders.fits(file, self.patterns)
        is_headed = not self.headings or bulletins.fits(file, self.headings)
        return is_named and is_headed and (not self.applications or file.fields.application in self.applications)


def batches(heads: Iterable[Head]) -> Iterator[list[Head]]:
    """Yields the heads in runs of files of bounded size, and each discard by itself."""
    run: list[Head] = []
    size = 0
    for head in shelves.sound(heads):
        is_full = len(run) == journal.MOST_BATCH_FILES or size + head.extent > MOST_BATCH_BYTES
        if run and (head.is_discard or is_full):
            yield run
            run, size = [], 0
        if head.is_discard:
            yield [head]
        else:
            run.append(head)
            size += head.extent
    if run:
        yield run


class Follower:
    """Takes the files of one shelf into a folder.

    A file is written as a part; the log then says that it was taken and which name it gets; then it gets the name.
    After a kill a part of which the log has a line gets its name, and any other part is removed. So each file is taken
    once.
    """

    def __init__(self, shelf: Shelf, folder: folders.Folder, wishes: Wishes):
        self.folder = folder
        self.wishes = wishes
        self.path = shelf.path
        self.label, self.log = journal.log_of(folder.state, shelf, wishes.prefix)
        self.source = folders.Source(self.label, shelves.label_of(shelf.path), 0.0)
        self.parts = folders.Parts(os.path.join(folder.state, self.label + ".parts"))
        self.faults = self.count = 0
        self.mark = self.log.mark_on(shelf)

    def close(self) -> None:
        self.parts.keep(self.log.noted)
        self.log.close()

    def mend(self) -> None:
        """Completes what a kill or a full disk interrupted."""
        self.parts.keep(self.log.noted)
        names = self.log.noted(self.parts.numbers())
        for number in names:
            self.place(number, names)

    def heads(self, shelf: Shelf) -> Iterator[Head]:
        last = self.log.last
        return shelf.heads(last.gate + 1 + last.extent, last.files) if last else shelf.heads()

    def take_all(self, shelf: Shelf) -> None:
        """Takes what stands on the shelf and wasn't taken. It ends early where a signal is pending."""
        self.mend()
        self.source = self.source._replace(changed=os.fstat(shelf.descriptor).st_mtime)
        gone = {head.number for head in shelves.sound(self.heads(shelf)) if head.is_discard}
        for batch in batches(self.heads(shelf)):
            if program.pending_signal():
                break
            if batch[0].is_discard:
                self.discard(shelf, batch[0])
            else:
                self.take(shelf, batch, gone)
        mark, self.mark = self.mark, self.log.mark_on(shelf)
        if self.wishes.latest and mark != self.mark:
            index.Index(shelf, index.state_of(os.path.dirname(shelf.path) or ".")).update(gives_all=False)
        # (where the items break off, this raises the fault)
        next(self.heads(shelf), None)

    def take(self, shelf: Shelf, heads: list[Head], gone: set[int]) -> None:
        """Takes a run of files, up to where a signal is pending."""
        lines: list[journal.Line] = []
        fault = None
        try:
            for head in heads:
                if program.pending_signal():
                    break
                lines.append(self.prepare(head, shelf.item(head), gone))
        except OSError as it:
            # (the disk may be full; what was written before gets its names)
            self.parts.remove(head.number)
            fault = it
        try:
            if lines:
                self.finish(lines)
            if fault:
                raise fault
        finally:
            self.folder.taken.clear()
            self.parts.keep(self.log.noted)

    def prepare(self, head: Head, item: bytes, gone: set[int]) -> journal.Line:
        """Writes the part of a file. Returns its line of the log."""
        what, name, file_sum = "left", "discarded", journal.NO_SUM
        if head.number not in gone:
            if not shelves.has_its_checksum(item):
                name = "damaged"
                self.faults += 1
                program.tell(f"file {head.number} of {self.path} has a bad checksum and is left out")
            elif not self.wishes.wants(file := shelves.file_of(head, item)):
                name = "unwanted"
            else:
                what, name, file_sum = "file", self.write(file), journal.sum_of(file.proper)
        sum_ = journal.sum_of(item)
        return journal.Line(what, head.number, head.number + 1, head.gate, head.extent, sum_, name, file_sum)

    def write(self, file: StoredFile) -> str:
        """Writes a part. Returns the name of the file."""
        product = self.wishes.product_of(self.path, file)
        if self.wishes.latest:
            self.wishes.latest.take(self.path, file, product.contents)
        self.parts.write(file.number, product.contents)
        return self.folder.name_for(self.source, file, product)

    def finish(self, lines: list[journal.Line]) -> None:
        """Syncs the parts, notes them in the log, and gives them their names."""
        names = {line.number: line.name for line in lines if line.what == "file"}
        if names:
            os.sync()
        if self.wishes.latest:
            self.wishes.latest.put(self.folder)
        self.log.note(lines)
        for number in list(names):
            self.place(number, names)
        self.count += len(names)
        if not self.wishes.is_quiet:
            print("".join(f"{number} {name}\n" for number, name in names.items()), end="", flush=True)
        for name in names.values() if self.wishes.command else ():
            self.run(name)

    def place(self, number: int, names: dict[int, str]) -> None:
        """Gives a part its name in the log, or another one if that was taken meanwhile."""
        while not self.folder.place(self.parts.of(number), names[number]):
            names[number] = self.folder.free([names[number]])
            self.log.rename(number, names[number])

    def run(self, name: str) -> None:
        """Runs the command for a file that stands whole."""
        path = self.folder.full(name)
        words = [path if word == "{}" else word for word in self.wishes.command]
        if "{}" not in self.wishes.command:
            words.append(path)
        try:
            done = subprocess.run(
                words, stdin=subprocess.DEVNULL, stdout=2, preexec_fn=program.let_signals, check=False
            )
            said = f"exited with {done.returncode}" if done.returncode else ""
        except OSError as fault:
            said = program.reason(fault)
        if said:
            self.faults += 1
            program.tell(f"{words[0]} for {name}: {said}")

    def discard(self, shelf: Shelf, head: Head) -> None:
        """Moves a file that was discarded after it was extracted."""
        name = self.log.name_of(head.number)
        aside = self.folder.set_aside(name) if name else None
        if aside:
            print(head.number, aside, flush=True)
        files = self.log.last.files if self.log.last else 0
        sum_ = journal.sum_of(shelf.item(head))
        self.log.note([journal.Line("discard", head.number, files, head.gate, head.extent, sum_, "-")])


class Station:
    """All the shelves that are followed into one folder."""

    def __init__(self, path: str, folder: folders.Folder, wishes: Wishes):
        self.path = path
        self.folder = folder
        self.wishes = wishes
        self.followers: dict[str, Follower] = {}
        self.told: dict[str, str] = {}  # what was said last of each shelf
        self.failed = False
        self.next_clearing = 0.0
        self.next_telling = time.monotonic() + TELL_SECONDS
        self.count = 0  # files since the last line, where there is one a minute

    def take_all(self) -> None:
        """One look at every shelf."""
        paths = shelves.paths_of(self.path)
        for path in set(self.followers) - set(paths):
            self.followers.pop(path).close()
        if not paths:
            self.tell_once(self.path, shelves.ShelfError("no shelf yet"))
        for path in paths:
            try:
                with Shelf(path) as shelf:
                    follower = self.follower_of(shelf)
                    try:
                        follower.take_all(shelf)
                    finally:
                        self.failed = self.failed or follower.faults > 0
                        self.count, follower.count = self.count + follower.count, 0
                self.told.pop(path, None)
            except BrokenPipeError:
                raise
            except (OSError, shelves.ShelfError, journal.Refusal) as fault:
                self.failed = True
                self.tell_once(path, fault)
        self.clear_away(paths)
        self.tell_count()

    def clear_away(self, paths: list[str]) -> None:
        """Removes old days, and the logs of shelves that are gone, once an hour."""
        if time.monotonic() < self.next_clearing:
            return
        self.next_clearing = time.monotonic() + KEEP_SECONDS
        for name in self.folder.remove_days(self.wishes.keep_days) if self.wishes.keep_days else []:
            program.tell(f"removed {self.folder.full(name)}")
        if os.path.isdir(self.path) and paths:
            journal.forget(self.folder.state, self.path)
            index.forget(self.path)

    def tell_count(self, is_last: bool = False) -> None:
        """Prints the number of files once a minute, instead of a line for each."""
        if self.wishes.is_quiet and self.count and (is_last or time.monotonic() >= self.next_telling):
            print(f"{self.count} files", flush=True)
            self.count, self.next_telling = 0, time.monotonic() + TELL_SECONDS

    def follower_of(self, shelf: Shelf) -> Follower:
        """Returns the follower of a shelf; a new one if another shelf is at its path."""
        follower = self.followers.get(shelf.path)
        if follower and follower.mark != follower.log.mark_on(shelf):
            self.followers.pop(shelf.path).close()
            follower = None
        if not follower:
            follower = self.followers[shelf.path] = Follower(shelf, self.folder, self.wishes)
        return follower

    def tell_once(self, path: str, fault: BaseException) -> None:
        words = f"{path}: {program.reason(fault)}"
        if self.told.get(path) != words:
            program.tell(words)
        self.told[path] = words

    def close(self) -> None:
        for follower in self.followers.values():
            follower.close()


def run(path: str, folder: folders.Folder, wishes: Wishes, does_watch: bool) -> int:
    """Takes what stands there, or with `does_watch` goes on until a signal comes. The status."""
    station = Station(path, folder, wishes)
    try:
        station.take_all()
        while does_watch and not program.wait(POLL_SECONDS):
            station.take_all()
    finally:
        station.close()
        station.tell_count(True)
    ended_by = program.pending_signal()
    return 128 + ended_by if ended_by and not does_watch else 1 if station.failed and not does_watch else 0
