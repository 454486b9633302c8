"""What `workers.sh` runs: its head says what it does."""

import hashlib
import os
import sys
from pathlib import Path

from measuring import Took, new_shelf, timed

runs, frames = int(sys.argv[1]), int(sys.argv[2])
numbers = [1, 2, 4, 8, 64]



def received(workers: int) -> tuple[Took, str]:
    """What `receive` took, and a checksum of what it printed and of the shelf."""
    new_shelf()
    took = timed(['./lritstation', 'shelf', 'receive', '--workers', str(workers)], 'stream')
    return took, hashlib.sha256(took.printed + Path('shelf').read_bytes()).hexdigest()


best: dict[int, Took] = {}
results = set()
outcome = float('inf')
for _ in range(runs):
    for workers in numbers:
        took, result = received(workers)
        results.add(result)
        best[workers] = min(took, best.get(workers, took))
    outcome = min(outcome, timed(['./parts', 'frame', str(frames)]).real)
print(best[1].printed.decode().splitlines()[-1])
print('outputs and shelves:', 'all the same' if len(results) == 1 else 'NOT THE SAME')
print(f'{os.cpu_count()} processors; {frames} frames, the best of {runs} runs')
print(' W    real    user  system  us a frame  Msym/s  times')
for workers in numbers:
    real, user, system = best[workers][:3]
    print(f'{workers:2} {real:7.2f} {user:7.2f} {system:7.2f} {real / frames * 1e6:11.1f} '
          f'{frames * 16384 / real / 1e6:7.1f} {best[1].real / real:6.2f}')
rest = f'{(best[1].real - outcome) / frames * 1e6:.1f}'
print(f'from windows to outcomes {outcome / frames * 1e6:.1f} us a frame; the rest, by the caller alone, {rest}')
sys.exit(len(results) != 1)
