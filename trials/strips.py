"""What `strips.sh` runs: its head says what it does."""

import hashlib
import subprocess
import sys
import threading
import time

import lines
from downlink import frames_of_files, primary, record, transport
from drawn import big
from pictures import shape_of

BITS, BLOCK, COLUMNS, LINES, PIECES, IMAGES = 10, 16, 5500, 10, 32, 24
RUNS = 5  # of which the one counts in which the first thread took the least time
MOST = 0.85  # of the time that it takes alone


def frames() -> bytes:
    """The frames of an image in which the same ten lines stand again and again."""
    rows = [list(row) for row in lines.drawn_lines(BITS, COLUMNS, LINES, 1)]
    piece = lines.packed("".join(lines.code_line(row, BITS, BLOCK) for row in rows))
    records = shape_of(BITS, COLUMNS, LINES * PIECES, 1) + record(131, big(2, 49) + bytes([BLOCK, LINES]))
    header = primary(0, 16 + len(records), 8 * PIECES * len(piece)) + records
    first = transport(0, 8 * (len(header) + PIECES * len(piece))) + header
    return b"".join(frames_of_files(1, 300, [[first] + [piece] * PIECES]))


def first_thread(number: int) -> int | None:
    """The processor time of the first thread of a process, in ticks, or None where it has ended."""
    try:
        with open(f"/proc/{number}/task/{number}/stat") as stat:
            fields = stat.read().rpartition(")")[2].split()
    except OSError:
        return None
    return None if fields[0] in "ZX" else int(fields[11]) + int(fields[12])


def rendered(workers: int) -> tuple[int, str]:
    """The time of the first thread, and a checksum of the pictures."""
    running = subprocess.Popen(["./lritstation", "shelf", "render", "--workers", str(workers)],
                               stdout=subprocess.PIPE, stderr=subprocess.PIPE)
    assert running.stdout and running.stderr
    digest, pictures = hashlib.sha256(), running.stdout

    def drain() -> None:
        while part := pictures.read(1 << 16):
            digest.update(part)

    reader = threading.Thread(target=drain)
    reader.start()
    last = 0
    while running.poll() is None:
        last = first_thread(running.pid) or last
        time.sleep(0.005)
    reader.join()
    assert running.returncode == 0 and running.stderr.read() == b"rendered %d skipped 0\n" % IMAGES
    return last, digest.hexdigest()


def station(words: str, given: bytes = b"") -> None:
    subprocess.run(["./lritstation", "shelf"] + words.split(), input=given, capture_output=True, check=True)


station("init 1000000000")
image = frames()
for _ in range(IMAGES):
    station("receive --input frames", image)
alone, pictures = min(rendered(1) for _ in range(RUNS))
shared, same = min(rendered(4) for _ in range(RUNS))
good = pictures == same and shared < MOST * alone
took = f"the first thread took {alone} ticks alone and {shared} of four"
print(f"trials/strips.sh: {took}: {'passed' if good else 'FAILED'}")
sys.exit(not good)
