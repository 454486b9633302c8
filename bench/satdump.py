"""What `satdump.sh` runs: its head says what it does."""

import os
import shutil
import subprocess
import sys
from collections.abc import Callable
from pathlib import Path

from measuring import timed

root, folder, runs, frames = sys.argv[1], sys.argv[2], int(sys.argv[3]), int(sys.argv[4])
FRAME, CADU = 892, 1024

symbols = bytearray(Path('symbols').read_bytes())
symbols[1::2] = symbols[1::2].translate(bytes((256 - value) % 256 for value in range(256)))
Path('plain').write_bytes(symbols)
sent = Path('frames').read_bytes()


def ours(program: str) -> tuple[float, int]:
    took = timed([program, '-', 'decode', '--g2', 'plain'], 'plain')
    return took.processor, sum(b' restored 0 0 0 0' in line for line in took.printed.splitlines())


def theirs() -> tuple[float, int]:
    shutil.rmtree('out', ignore_errors=True)
    words = f'cd {folder} && satdump goes_lrit soft plain out --tle_override orbits'
    took = timed(['chroot', root, 'sh', '-c', words], None, subprocess.STDOUT)
    cadus = Path('out/goes_lrit.cadu').read_bytes()
    same = sum(cadus[CADU * i + 4 : CADU * i + 4 + FRAME] == sent[FRAME * i : FRAME * (i + 1)] for i in range(frames))
    return took.processor, same


Side = tuple[str, Callable[[], tuple[float, int]]]
sides: list[Side] = [('decode', lambda: ours('./lritstation')), ('SatDump', theirs)]
if os.path.exists('lritstation-v3'):
    sides.insert(1, ('decode for x86-64-v3', lambda: ours('./lritstation-v3')))
best: dict[str, tuple[float, int]] = {}
right = True
for _ in range(runs):
    for name, run in sides:
        took, good = run()
        right = right and good == frames
        best[name] = min(took, best.get(name, (took, 0))[0]), good
print(f'{frames} frames, {os.cpu_count()} processors, the best of {runs} runs')
for name, (took, good) in best.items():
    words = 'as they were sent' if name == 'SatDump' else 'restored with no byte changed'
    print(f'{name:20} {took:7.3f} s of processor time {took / frames * 1e6:9.1f} us a frame   {good} frames {words}')
for name in best:
    if name != 'SatDump':
        print(f'{name} takes {best[name][0] / best["SatDump"][0]:.2f} of the processor time of SatDump')
sys.exit(not right)
