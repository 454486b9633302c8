"""What the tests share: shelves that are made by the slow programs under reference/, and calls of the command. No code
of the package has a part in what is wanted."""

import binascii
import importlib
import io
import os
import re
import resource
import shutil
import signal
import struct
import subprocess
import sys
import tempfile
import time
import unittest
import zipfile
import zlib
from typing import Any

TOP = os.path.dirname(os.path.dirname(os.path.dirname(os.path.abspath(__file__))))
sys.path.insert(0, os.path.join(TOP, "reference"))

reference: Any = importlib.import_module("shelf")

COMMAND = [sys.executable, os.path.join(TOP, "tools", "bin", "gomtasil")]
PROGRAM = os.environ.get("LRITSTATION", "")
SECONDS = 120  # of a call; what takes longer counts as hanging
MEMORY = 2 * 1024**3  # bytes of a call's address space
reference.crc = lambda data: binascii.crc_hqx(data, 0xFFFF)  # (the same, in less time)
big, discard = reference.big, reference.discard


def is_there(module: Any) -> Any:
    return subprocess.run([sys.executable, "-c", f"import {module}"], capture_output=True).returncode == 0


HAS_PILLOW = is_there("PIL.Image")
HAS_JINJA = is_there("jinja2")
needs_pillow = unittest.skipUnless(HAS_PILLOW, "Pillow is missing (python3-pil)")
needs_page = unittest.skipUnless(HAS_PILLOW and HAS_JINJA, "Pillow or Jinja2 is missing (python3-pil, python3-jinja2)")
needs_program = unittest.skipUnless(PROGRAM, "LRITSTATION names no built program")


# ---- shelves


def record(kind: Any, contents: Any) -> Any:
    return bytes([kind]) + big(2, len(contents) + 3) + contents


def proper(file_type: Any, records: Any, data: Any, bits: Any = None) -> Any:
    size = 16 + sum(map(len, records))
    bits = 8 * len(data) if bits is None else bits
    return record(0, bytes([file_type]) + big(4, size) + big(8, bits)) + b"".join(records) + data


def content(number: Any, inside: Any) -> Any:
    return big(2, number % 65536) + big(8, 8 * len(inside)) + inside


def added(number: Any, inside: Any, channel: Any = 1, application: Any = 100, origin: Any = (0, 0, 0)) -> Any:
    data = content(number, inside)
    return reference.add((channel, application, [data[at : at + 60000] for at in range(0, len(data), 60000)]), origin)


def old(number: Any, inside: Any, channel: Any = 1, application: Any = 100) -> Any:
    return reference.old((channel, application, [content(number, inside)]))


def header(version: Any = 2, capacity: Any = 10**9) -> Any:
    return reference.header(version, capacity)


def shelf_of(items: Any, version: Any = 2) -> Any:
    return reference.shelf(version, 10**9, items)


def named(name: Any, file_type: Any, data: Any, *more: Any) -> Any:
    return proper(file_type, [record(4, name), *more], data)


def text_file(name: Any, text: Any = b"text") -> Any:
    return proper(2, [] if name is None else [record(4, name)], text)


def image(bits: Any, columns: Any, lines: Any, data: Any, compression: Any = 0, more: Any = ()) -> Any:
    return proper(0, [record(1, bytes([bits]) + big(2, columns) + big(2, lines) + bytes([compression])), *more], data)


def noaa(image_number: Any, number: Any, line: Any, count: Any, columns: Any, lines: Any, left: Any = 0) -> Any:
    return record(128, struct.pack(">7H", image_number, number, left, line, count, columns, lines))


def numbered(number: Any, count: Any, line: Any) -> Any:
    return record(128, struct.pack(">BBH", number, count, line))


def planned(channel: Any, number: Any, first: Any, last: Any, craft: Any = 19002, form: Any = 3) -> Any:
    return record(128, struct.pack(">hBHHHb", craft, channel, number, first, last, form))


def navigation(longitude: Any, factor: Any, column: Any, line: Any) -> Any:
    return record(2, f"geos({longitude})".encode().ljust(32) + struct.pack(">iiii", factor, factor, column, line))


def stamp(days: Any, milliseconds: Any) -> Any:
    return record(5, b"\x40" + big(2, days) + big(4, milliseconds))


class Writer:
    """A receiver at work: it writes each item with a closed gate after it, and then opens the item's own gate."""

    def __init__(self, path: Any) -> None:
        write(path, header() + b"\0")
        self.descriptor = os.open(path, os.O_RDWR)
        self.gate = 19

    def append(self, item: Any, in_pieces: Any = 1) -> None:
        whole = item + b"\0"
        for place in range(in_pieces):
            part = whole[len(whole) * place // in_pieces : len(whole) * (place + 1) // in_pieces]
            os.pwrite(self.descriptor, part, self.gate + 1 + len(whole) * place // in_pieces)
        os.pwrite(self.descriptor, b"\1", self.gate)
        self.gate += 1 + len(item)

    def close(self) -> None:
        os.close(self.descriptor)


def zip_of(*members: Any, compression: Any = zipfile.ZIP_DEFLATED) -> Any:
    out = io.BytesIO()
    with zipfile.ZipFile(out, "w", compression) as archive:
        for name, data in members:
            archive.writestr(name if isinstance(name, zipfile.ZipInfo) else zipfile.ZipInfo(name), data, compression)
    return out.getvalue()


def packed_bits(values: Any, bits: Any) -> Any:
    text = "".join(f"{it:0{bits}b}" for it in values)
    return int(text.ljust(-(-len(text) // 8) * 8, "0"), 2).to_bytes(-(-len(text) // 8), "big")


# ---- files


def write(path: Any, data: Any) -> None:
    with open(path, "wb") as it:
        it.write(data)


def read(path: Any) -> Any:
    with open(path, "rb") as it:
        return it.read()


def tree(path: Any, without: Any = ()) -> Any:
    """The paths of all files and folders below a folder with their bytes, but not below these."""
    found = {}
    for root, folders, names in os.walk(path):
        folders[:] = [it for it in folders if os.path.join(root, it) not in without]
        for name in folders + names:
            whole = os.path.join(root, name)
            found[whole] = None if os.path.isdir(whole) else read(whole)
    return found


def taken(folder: Any) -> Any:
    """The names of what was taken, without what is kept about it."""
    states = (".follow", ".contents", ".pictures", ".page", "latest")
    found = tree(folder, [os.path.join(folder, it) for it in states])
    return {
        os.path.relpath(path, folder): data
        for path, data in found.items()
        if data is not None and os.path.basename(path) not in states
    }


def has_no_rest(folder: Any) -> Any:
    """Whether no part is left in a folder."""
    return not [path for path in tree(folder) if ".part" in path]


def match(pattern: str, text: str) -> re.Match[str]:
    """What a pattern finds in a text, in which it is."""
    found = re.search(pattern, text)
    assert found, f"{pattern} is in the text"
    return found


# ---- calls


def limit() -> None:
    resource.setrlimit(resource.RLIMIT_AS, (MEMORY, MEMORY))


def start(*words: Any, command: Any = COMMAND, **options: Any) -> Any:
    """The command with these words, which are texts or bytes."""
    return subprocess.Popen(
        [*command, *words], stdout=subprocess.PIPE, stderr=subprocess.PIPE, preexec_fn=limit, **options
    )


CLOCK = """import runpy, sys, time
real, real_gmtime, offset = time.time, time.gmtime, float(sys.argv[1])
time.time = lambda: real() + offset
time.gmtime = lambda seconds=None: real_gmtime(time.time() if seconds is None else seconds)
sys.argv = sys.argv[2:]
runpy.run_path(sys.argv[0], run_name="__main__")
"""


def clocked(seconds: Any) -> Any:
    """The command with a clock that is so many seconds ahead."""
    return [sys.executable, "-c", CLOCK, str(seconds), COMMAND[1]]


def station(*words: Any, given: Any = b"") -> Any:
    done = subprocess.run([PROGRAM, *words], input=given, capture_output=True)
    assert done.returncode == 0, (words, done.stderr)
    return done.stdout


def children_seconds() -> Any:
    """The processor's seconds of the calls that have ended. (Walls grow with what else the machine does.)"""
    used = resource.getrusage(resource.RUSAGE_CHILDREN)
    return used.ru_utime + used.ru_stime


def wait_for(holds: Any) -> None:
    until = time.monotonic() + SECONDS
    while not holds():
        assert time.monotonic() < until, "it comes in time"
        time.sleep(0.05)


def ended(process: Any, what: Any = signal.SIGTERM) -> Any:
    """The status of a process after a signal."""
    process.send_signal(what)
    process.communicate(timeout=SECONDS)
    return process.returncode


class Case(unittest.TestCase):
    """A test in an empty folder, which has an empty one above it."""

    maxDiff = 2000

    def setUp(self) -> None:
        self.before = os.getcwd()
        self.scratch = tempfile.mkdtemp()
        os.makedirs(os.path.join(self.scratch, "up", "in"))
        os.chdir(os.path.join(self.scratch, "up", "in"))

    def tearDown(self) -> None:
        os.chdir(self.before)
        if os.path.ismount(small := os.path.join(self.scratch, "up", "in", "small")):
            subprocess.run(["umount", small], check=True)
        shutil.rmtree(self.scratch)

    def small_disk(self, size: Any = "1000k") -> None:
        """A small disk in the folder `small`, which goes with the test."""
        os.mkdir("small")
        words = ["mount", "-t", "tmpfs", "-o", f"size={size}", "tmpfs", "small"]
        if subprocess.run(words, capture_output=True).returncode:
            self.skipTest("no small disk can be had here")

    def call(self, *words: Any, status: Any = 0, **options: Any) -> Any:
        """What the command prints and says. It ends with this status, or with any where that is None."""
        process = start(*words, **options)
        out, said = process.communicate(timeout=SECONDS)
        wanted = process.returncode if status is None else status
        told = f"{out.decode(errors='replace')[-500:]}{said.decode(errors='replace')[-2000:]}"
        self.assertEqual(process.returncode, wanted, f"{words}: {told}")
        return out.decode(), said.decode(errors="replace")


# ---- pictures


def pixels_of_png(data: Any) -> Any:
    """The size, the bits, the significant bits and the pixels of a grey PNG, by its own chunks."""
    at, packed, found = 8, b"", {}
    while at < len(data):
        size, kind = struct.unpack(">I4s", data[at : at + 8])
        inside = data[at + 8 : at + 8 + size]
        assert zlib.crc32(kind + inside) == int.from_bytes(data[at + 8 + size : at + 12 + size], "big")
        packed += inside if kind == b"IDAT" else b""
        found[kind] = inside
        at += 12 + size
    columns, lines, bits, colour, *_ = struct.unpack(">IIBBBBB", found[b"IHDR"])
    assert colour == 0 and b"IEND" in found, "it is grey"
    data, width = unfiltered(zlib.decompress(packed), columns, lines, bits // 8), bits // 8
    pixels = [int.from_bytes(data[at : at + width], "big") for at in range(0, len(data), width)]
    return columns, lines, bits, found.get(b"sBIT"), pixels


def unfiltered(data: Any, columns: Any, lines: Any, width: Any) -> Any:
    """The bytes of rows with filters of any of the five kinds."""
    size, out, before = columns * width, b"", bytes(columns * width)
    for line in range(lines):
        kind, row = data[line * (size + 1)], bytearray(data[line * (size + 1) + 1 : (line + 1) * (size + 1)])
        for at in range(size):
            left = row[at - width] if at >= width else 0
            corner = before[at - width] if at >= width else 0
            up = before[at]
            guess = left + up - corner
            paeth = min((left, up, corner), key=lambda it: int(abs(guess - it)))
            row[at] = row[at] + (0, left, up, (left + up) // 2, paeth)[kind] & 255
        out, before = out + row, row
    return out


def number_in(path: Any) -> Any:
    """The number in a file's name, after the label."""
    return int(match(r"-([0-9]{6,})-", path)[1])
