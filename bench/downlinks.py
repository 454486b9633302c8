"""What `downlinks.sh` runs: its head says what it does."""

import os
import sys

from downlink import ZONE, block, checked, frame, idle, packet, symbols_of
from measuring import Took, new_shelf, timed

RECORDINGS = (1, 2, 3, 4)


def run(words: str, path: str) -> Took:
    return timed(['./lritstation', 'shelf', *words.split()], path)


def seconds(words: str, paths: list[str]) -> tuple[float, int]:
    """The time of these calls onto an empty shelf, and how many files stand there then."""
    new_shelf()
    took = sum(run(words, path).real for path in paths)
    return took, int(run('list', os.devnull).printed.splitlines()[-1].split()[1])


JOBS = {
    'receive': ('receive', ['symbols.%d' % k for k in RECORDINGS]),
    'frames': ('receive --input frames', ['frames.%d' % k for k in RECORDINGS]),
    'downlinks': ('downlinks', ['bundle']),
}
best: dict[str, float] = {}
for _ in range(int(sys.argv[1])):
    for name, (words, paths) in JOBS.items():
        took, files = seconds(words, paths)
        best[name] = min(best.get(name, 1e9), took)
        print(f'{name:10} {files:6} files {took:7.3f} s')
print(f'downlinks takes {best["downlinks"]:.3f} s, four calls of receive {best["receive"]:.3f}: '
      f'{best["receive"] / best["downlinks"]:.2f} times as fast, the best of {sys.argv[1]} runs')
print(f'what stands under the lock takes at most {best["frames"]:.3f} s in one thread')


def small_files(frames: int) -> bytes:
    """A bundle of one recording, of frames with 48 files of ten bytes each."""
    one = packet(100, 3, 0, checked(bytes(10)))
    sent = block(frame(0, 0, 0, 48 * one + idle(ZONE - 48 * len(one))), 0)
    symbols = symbols_of([sent, sent])[16384:]
    return bytes([1]) + (frames * len(symbols)).to_bytes(8, 'big') + frames * symbols


with open('small', 'wb') as target:
    target.write(small_files(16383))
took, files = seconds('downlinks', ['small'])
print(f'{files} small files {took:7.3f} s')
