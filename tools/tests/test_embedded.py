"""The library from within Python: what it answers is what the program answers, on several threads at once, in rooms
that are too small, over shelves that others write, and with devices that raise."""

import contextlib
import fcntl
import io
import os
import shutil
import socket
import subprocess
import threading
import unittest
import unittest.mock
from collections.abc import Callable
from pathlib import Path
from typing import Any

from gomtasil import embedded, library

from .support import COMMAND, Case, needs_program, read, station, write

CODE = ["--line", "nrz-m", "--g2", "plain"]
HAS_LIBRARY = any((it if it.is_file() else it / library.NAME).is_file() for it in library.folders())
needs_library = unittest.skipUnless(HAS_LIBRARY, f"{library.VARIABLE} names no built library")
FRAMES = 40
THREADS = 6
CAPACITY = 1_000_000


def run(*words: str, data: Any = b"", shelf: Any = b"") -> embedded.Answer:
    return embedded.run(words, data, shelf)


def made(start: int = 1) -> bytes:
    """A test stream of some frames."""
    return run("make", str(start), str(FRAMES), "3").out


def empty() -> bytes:
    return run("init", str(CAPACITY)).shelf


class Slow:
    """A source that gives a few bytes at a time."""

    def __init__(self, data: bytes) -> None:
        self.file = io.BytesIO(data)

    def read(self, most: int, /) -> bytes:
        return self.file.read(min(most, 5000))


class Raising(Slow):
    """A source that raises after so many bytes."""

    def __init__(self, data: bytes, after: int) -> None:
        super().__init__(data)
        self.after = after

    def read(self, most: int, /) -> bytes:
        if self.file.tell() >= self.after:
            raise ConnectionResetError("the line is dead")
        return super().read(most)


@needs_library
class Run(Case):
    def test_words_that_no_command_has_are_refused(self) -> None:
        refused: list[Any] = [["show", "1\n2"], [], ["list\n"], "list", ["receive", "--workers", "4"]]
        for words in refused:
            with self.assertRaises(embedded.EmbeddedError):
                embedded.run(words)
        with self.assertRaises(embedded.EmbeddedError):
            embedded.receive(Slow(b""), bytearray(empty()), "--line nrz-m")

    def test_a_shelf_is_made_and_read(self) -> None:
        shelf = empty()
        self.assertEqual(shelf[:8], b"\x5aLRSHELF")
        done = run("receive", data=made(), shelf=shelf)
        self.assertEqual((done.status, done.err), (0, ""))
        self.assertIn(f"frames {FRAMES} restored {FRAMES}".encode(), done.out)
        listed = run("list", shelf=done.shelf)
        self.assertEqual(listed.out.count(b"file "), done.out.count(b"shelved "))
        self.assertEqual(listed.shelf, done.shelf, "what only reads leaves the shelf as it is")

    def test_any_buffer_is_taken(self) -> None:
        shelf = empty()
        for kind in (bytearray, memoryview):
            self.assertEqual(run("list", data=kind(b""), shelf=kind(shelf)), run("list", shelf=shelf))

    def test_refusals_are_statuses_or_errors(self) -> None:
        self.assertEqual(run("nonsense")[:3], (2, b"", "station: usage: SHELF COMMAND [WORDS]"))
        self.assertEqual(run("list", shelf=b"garbage").err, "station: not a shelf at 0")
        self.assertEqual(run("show", "9", shelf=empty()).err, "station: no such file, count 0")
        kinds: list[tuple[type[embedded.CommandError], list[str], bytes]] = [
            (embedded.WordsRefused, ["nonsense"], b""),
            (embedded.NotAShelf, ["list"], b"garbage"),
            (embedded.NoSuchFile, ["show", "9"], empty()),
        ]
        for kind, words, shelf in kinds:
            with self.assertRaises(kind):
                embedded.run(words, shelf=shelf, check=True)

    def test_rooms_that_are_too_small(self) -> None:
        loaded, shelf = library.library(), run("receive", data=made(), shelf=empty()).shelf
        self.assertEqual(loaded.run_once(b"list", b"", shelf, 10, len(shelf)).status, library.OUTPUT_FAILED)
        self.assertEqual(loaded.run_once(b"list", b"", shelf, 10, len(shelf) - 1).status, library.NO_ROOM)
        self.assertEqual(loaded.run_once(b"list\xff", b"", shelf, 10, 0).status, library.NO_TEXT)
        self.assertEqual(loaded.run_once(b"receive", made(), empty(), 1 << 20, 500).status, library.DISK_FAILED)
        self.assertEqual(embedded.run(["list"], shelf=shelf, room=1), run("list", shelf=shelf), "it is run again")

    def test_a_shelf_that_is_full_is_no_room_that_is(self) -> None:
        full = run("receive", data=made(), shelf=run("init", "300").shelf)
        self.assertEqual(full.status, 10)

    def test_several_threads_at_once(self) -> None:
        streams = [made(100 * it) for it in range(THREADS)]
        wanted = [run("receive", data=it, shelf=empty()) for it in streams]
        self.assertEqual(len({it.shelf for it in wanted}), THREADS)
        found = {}

        def work(place: int) -> None:
            shelf = bytearray(empty())
            ended = embedded.receive(Slow(streams[place]), shelf)
            found[place] = (run("receive", data=streams[place], shelf=empty()), bytes(shelf), ended)

        threads = [threading.Thread(target=work, args=(it,)) for it in range(THREADS)]
        for it in threads:
            it.start()
        for it in threads:
            it.join()
        for place, answer in enumerate(wanted):
            again, shelf, ended = found[place]
            self.assertEqual((again, shelf, ended.status), (answer, answer.shelf, 0))
            lines = answer.out.decode().splitlines()
            self.assertEqual((len(ended.receipts), ended.last), (len(lines) - 1, lines[-1]))


@needs_library
class Receive(Case):
    def test_a_file_is_reported_once_it_stands(self) -> None:
        shelf, counts = bytearray(empty()), []

        def on_file(receipt: embedded.Receipt) -> None:
            listed = run("list", shelf=bytes(shelf)).out
            counts.append((receipt.number + 1, listed.count(b"file ")))

        done = embedded.receive(Slow(made()), shelf, on_file=on_file)
        self.assertEqual((done.status, done.err, done.receipts), (0, "", ()))
        self.assertTrue(done.last.startswith("symbols "))
        self.assertEqual(counts, [(it, it) for it in range(1, len(counts) + 1)])
        self.assertEqual(bytes(shelf), run("receive", data=made(), shelf=empty()).shelf)

    def test_a_source_that_stalls_keeps_no_file_back(self) -> None:
        """A socket's buffered file gives what came, and doesn't wait for all that it is asked for."""
        theirs, ours = socket.socketpair()
        seen = threading.Event()
        with theirs, ours, ours.makefile("rb") as source:
            caller = threading.Thread(
                target=embedded.receive,
                args=(source, bytearray(empty())),
                kwargs={"on_file": lambda receipt: seen.set()},
            )
            caller.start()
            theirs.sendall(made())
            self.assertTrue(seen.wait(20), "the file came while the source stalls")
            theirs.shutdown(socket.SHUT_WR)
            caller.join()

    def test_an_interrupt_ends_the_source(self) -> None:
        event, shelf = threading.Event(), bytearray(empty())
        done = embedded.receive(Slow(made()), shelf, on_file=lambda receipt: event.set(), interrupt=event)
        self.assertEqual(done.status, 0)
        files = run("list", shelf=bytes(shelf)).out.count(b"file ")
        whole = run("receive", data=made(), shelf=empty()).out.count(b"shelved ")
        self.assertTrue(0 < files < whole)

    def test_a_source_that_raises(self) -> None:
        data = made()
        shelf = bytearray(empty())
        with self.assertRaises(ConnectionResetError):
            embedded.receive(Raising(data, len(data) // 2), shelf)
        part = run("receive", data=data[: len(data) // 2 // 5000 * 5000 + 5000], shelf=empty())
        self.assertEqual(bytes(shelf), part.shelf, "what was read before is worked through")
        self.assertGreater(run("verify", shelf=bytes(shelf)).out.count(b" ok"), 3)

    def test_what_takes_the_files_may_raise(self) -> None:
        def on_file(receipt: embedded.Receipt) -> None:
            raise KeyError(receipt)

        shelf = bytearray(empty())
        with self.assertRaises(KeyError):
            embedded.receive(Slow(made()), shelf, on_file=on_file)
        self.assertEqual(run("list", shelf=bytes(shelf)).out.count(b"file "), 1)

    def test_sources_that_break_the_rule(self) -> None:
        answers: list[tuple[Callable[[int], Any], type[Exception]]] = [
            (lambda most: bytes(most + 1), embedded.EmbeddedError),
            (lambda most: "text", TypeError),
            (lambda most: None, embedded.EmbeddedError),
        ]
        for answer, kind in answers:
            source = unittest.mock.Mock(spec=["read"])
            source.read.side_effect = answer
            with self.assertRaises(kind):
                embedded.receive(source, bytearray(empty()))

    def test_shelves_that_fail(self) -> None:
        class Full(embedded.MemoryShelf):
            def write(self, place: int, piece: bytes) -> None:
                raise OSError("no space left")

        with unittest.mock.patch.object(embedded, "MemoryShelf", Full), self.assertRaises(OSError):
            embedded.receive(Slow(made()), bytearray(empty()))
        self.assertEqual(embedded.receive(Slow(made()), bytearray(b"none")).err, "station: not a shelf at 0")
        with self.assertRaises(embedded.NotAShelf):
            embedded.receive(Slow(made()), bytearray(b"none"), check=True)

    def test_a_call_within_a_call(self) -> None:
        inner: list[str] = []

        def on_file(receipt: embedded.Receipt) -> None:
            if not inner:
                inner.append(embedded.receive(Slow(made(7)), bytearray(empty())).last)

        shelf = bytearray(empty())
        done = embedded.receive(Slow(made()), shelf, on_file=on_file)
        self.assertEqual((done.status, len(inner)), (0, 1))
        self.assertEqual(bytes(shelf), run("receive", data=made(), shelf=empty()).shelf)


@needs_library
class OverAFile(Case):
    def test_a_shelf_is_opened_and_received_onto(self) -> None:
        with embedded.open("my.shelf", create=CAPACITY) as shelf:
            done = shelf.receive(Slow(made()))
            files = shelf.files()
        self.assertEqual(read("my.shelf"), run("receive", data=made(), shelf=empty()).shelf)
        self.assertEqual([it.number for it in done.receipts], list(range(len(files))))
        self.assertEqual([it[1:6] for it in done.receipts], [it[1:6] for it in files])
        with embedded.open("my.shelf", create=CAPACITY + 1) as shelf:
            self.assertEqual(shelf.files(), files, "one that is there is opened as it is")

    def test_a_file_that_may_not_be_written_is_read(self) -> None:
        write("my.shelf", empty())
        with embedded.open("my.shelf", readonly=True) as shelf:
            self.assertEqual(shelf.files(), [])
            with self.assertRaises(OSError):
                shelf.receive(Slow(made()))

    def test_a_shelf_that_another_process_writes_is_busy(self) -> None:
        write("my.shelf", empty())
        other = os.open("my.shelf", os.O_RDWR)
        fcntl.flock(other, fcntl.LOCK_EX)
        with embedded.open("my.shelf") as shelf, open("my.shelf", "r+b") as file:
            with self.assertRaises(embedded.ShelfBusy):
                shelf.receive(Slow(made()))
            with self.assertRaises(embedded.ShelfBusy):
                embedded.receive(Slow(made()), file)
            with self.assertRaises(embedded.ShelfBusy):
                shelf.run(["discard", "0"])
            self.assertEqual(shelf.files(), [], "one that only reads goes on")
            self.assertEqual(read("my.shelf"), empty())
            os.close(other)
            self.assertEqual(shelf.receive(Slow(made())).status, 0)

    def test_a_shelf_that_another_call_writes_is_busy(self) -> None:
        write("my.shelf", empty())
        data = bytearray(empty())
        with embedded.open("my.shelf") as shelf:
            given: list[Any] = [shelf.descriptor, data]
            for it in given:
                busy: list[BaseException] = []

                def on_file(receipt: embedded.Receipt, it: Any = it, busy: list[BaseException] = busy) -> None:
                    try:
                        embedded.receive(Slow(made()), it)
                    except embedded.ShelfBusy as fault:
                        busy.append(fault)

                embedded.receive(Slow(made()), it, on_file=on_file)
                self.assertGreater(len(busy), 0)
        self.assertEqual((read("my.shelf"), bytes(data)), (run("receive", data=made(), shelf=empty()).shelf,) * 2)

    def test_bytes_that_a_file_object_holds_are_flushed_first(self) -> None:
        write("my.shelf", b"")
        with open("my.shelf", "r+b", buffering=1 << 20) as file:
            file.write(empty())
            self.assertEqual(embedded.receive(Slow(made()), file).status, 0)
        self.assertEqual(read("my.shelf"), run("receive", data=made(), shelf=empty()).shelf)

    def test_reading_takes_no_shelf_into_memory(self) -> None:
        whole = empty()
        for _ in range(8):
            whole = run("receive", data=made(), shelf=whole).shelf
        write("my.shelf", whole)
        asked: list[int] = []

        class Noted(embedded.FileShelf):
            def read(self, place: int, most: int) -> bytes:
                asked.append(most)
                return super().read(place, most)

        with unittest.mock.patch.object(embedded, "FileShelf", Noted), embedded.open("my.shelf") as shelf:
            shelf.run(["show", "0"])
        self.assertLess(max(asked), len(whole) / 2)

    def test_a_disk_that_takes_nothing_fails(self) -> None:
        write("my.shelf", empty())
        with embedded.open("my.shelf") as shelf, unittest.mock.patch("os.pwrite", return_value=0):
            with self.assertRaises(OSError):
                shelf.receive(Slow(made()))

    def test_a_disk_that_reads_short_goes_on(self) -> None:
        write("my.shelf", run("receive", data=made(), shelf=empty()).shelf)
        pread = os.pread
        with embedded.open("my.shelf") as shelf:
            files = shelf.files()

            def three(it: int, most: int, place: int) -> bytes:
                return pread(it, min(most, 3), place)

            with unittest.mock.patch("os.pread", three):
                self.assertEqual(shelf.files(), files)


@needs_library
@needs_program
class Same(Case):
    def test_the_same_as_the_program(self) -> None:
        frames = self.bytes_of("sample")
        write("sent.shelf", empty())
        station("sent.shelf", "receive", "--input", "frames", given=frames)
        shelf = run("receive", "--input", "frames", data=frames, shelf=empty()).shelf
        self.assertEqual(shelf, read("sent.shelf"))
        recording = run("transmit", "0", "6", "8", *CODE, shelf=shelf).out
        self.assertEqual(recording, station("sent.shelf", "transmit", "0", "6", "8", *CODE))
        with embedded.open("sent.shelf") as file:
            for words in (["list"], ["verify"], ["export", "1"], ["assemble", "0", "6", "313", "1"]):
                found = station("sent.shelf", *words)
                self.assertEqual((file.run(words), run(*words, shelf=shelf).out), (found, found), words)
            image = file.image(1)
            self.assertEqual(len(image.data), image.rows * image.columns)
            with contextlib.suppress(ImportError):
                self.assertEqual(image.array().shape, (image.rows, image.columns))
        decoded = station("sent.shelf", "decode", *CODE, given=recording)
        self.assertEqual(run("decode", *CODE, data=recording).out, decoded)

    def test_the_program_and_a_call_hold_each_other_off(self) -> None:
        write("my.shelf", empty())
        refused: list[int] = []

        def on_file(receipt: embedded.Receipt) -> None:
            program = os.environ["LRITSTATION"]
            refused.append(subprocess.run([program, "my.shelf", "discard", "0"], capture_output=True).returncode)

        with embedded.open("my.shelf") as shelf:
            shelf.receive(Slow(made()), on_file=on_file)
        self.assertEqual(set(refused), {1})
        self.assertEqual(read("my.shelf"), run("receive", data=made(), shelf=empty()).shelf)

    def bytes_of(self, command: str) -> bytes:
        return subprocess.run([*COMMAND, command], stdout=subprocess.PIPE, check=True).stdout


TOP = Path(__file__).resolve().parents[2]
COMPILER: str = next(filter(None, map(shutil.which, ("cc", "gcc", "clang"))), "")


@needs_library
@unittest.skipUnless(COMPILER, "there is no C compiler")
class InC(Case):
    """examples/receive.c: it keeps the lock, syncs each file, and leaves a shelf at a kill."""

    def setUp(self) -> None:
        super().setUp()
        folder = Path(library.path()).parent
        words: list[str] = [COMPILER, "-std=c11", "-O1", "-Wall", "-Wextra", "-Werror"]
        words += [str(TOP / "examples" / "receive.c")]
        words += ["-I", str(TOP / "packaging"), f"-L{folder}", f"-Wl,-rpath,{folder}", "-llritstation", "-o", "receive"]
        subprocess.run(words, check=True)
        self.server = socket.create_server(("127.0.0.1", 0))
        self.addCleanup(self.server.close)
        write("my.shelf", empty())

    def started(self) -> subprocess.Popen[bytes]:
        port = str(self.server.getsockname()[1])
        words = ["./receive", "my.shelf", "127.0.0.1", port]
        return subprocess.Popen(words, stdout=subprocess.PIPE, stderr=subprocess.PIPE)

    def test_it_receives_from_a_socket(self) -> None:
        program = self.started()
        with self.server.accept()[0] as sender:
            sender.sendall(made())
        out, err = program.communicate()
        wanted = run("receive", data=made(), shelf=empty())
        self.assertEqual((program.returncode, out, err, read("my.shelf")), (0, wanted.out, b"", wanted.shelf))

    def test_a_shelf_that_is_held_is_refused(self) -> None:
        with open("my.shelf", "rb") as file:
            fcntl.flock(file, fcntl.LOCK_EX)
            program = self.started()
            _, err = program.communicate()
        self.assertEqual((program.returncode, read("my.shelf")), (1, empty()))
        self.assertIn(b"another process writes it", err)

    def test_a_kill_leaves_each_file_that_was_acknowledged(self) -> None:
        whole = run("receive", data=made(), shelf=empty())
        for count in range(1, len(whole.out.splitlines()) - 1, 4):
            write("my.shelf", empty())
            program = self.started()
            assert program.stdout
            with self.server.accept()[0] as sender:
                sender.sendall(made())
                lines = [program.stdout.readline() for _ in range(count)]
                program.kill()
                lines += program.stdout.read().splitlines(keepends=True)
                program.wait()
                program.stdout.close()
            told = sum(it.startswith(b"shelved ") and it.endswith(b"\n") for it in lines)
            shelf = read("my.shelf")
            self.assertEqual(run("verify", shelf=shelf).status, 0)
            files = run("list", shelf=shelf).out.splitlines()
            self.assertGreaterEqual(len(files) - 1, told)
            self.assertEqual(files[:-1], run("list", shelf=whole.shelf).out.splitlines()[: len(files) - 1])


class Missing(unittest.TestCase):
    def test_a_library_that_is_missing_is_said(self) -> None:
        with unittest.mock.patch.dict(os.environ, {library.VARIABLE: "/nowhere"}):
            with self.assertRaisesRegex(embedded.EmbeddedError, "packaging/library.sh makes it"):
                library.Library()
        with self.assertRaises(embedded.EmbeddedError):
            library.Library("/nowhere/liblritstation.so.1")
