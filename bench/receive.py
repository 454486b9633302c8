"""What `receive.sh` runs: its head says what it does."""

import os
import sys
from typing import NamedTuple

from measuring import Took, new_shelf, timed

runs, frames = int(sys.argv[1]), int(sys.argv[2])



class Step(NamedTuple):
    """What is timed: how many frames' work a round is, the rounds, the word of lr_bench, and a program in C."""

    title: str
    frames: float
    rounds: int
    ours: str
    theirs: str = ''
    word: str = ''


STEPS = [
    Step('from window to outcome', 1, 1000, 'frame'),
    Step('lock, over noise', 2, 500, 'noise', 'lock', 'noise'),
    Step('lock, held, with its window', 2, 20000, 'locked', 'lock', 'locked'),
    Step('path, plain kernel', 1, 200, 'path', 'trellis', 'path'),
    Step('path, lanes of 32 bits', 1, 1000, 'lanes', 'trellis', 'path'),
    Step('path, lanes of sixteen bits', 1, 1000, 'narrow', 'trellis', 'path'),
    Step('four words, no wrong byte', 1 / 4, 40000, 'rs0', 'words', 'rs0'),
    Step('four words, 1 wrong byte each', 1 / 4, 10000, 'rs1', 'words', 'rs1'),
    Step('four words, 8 wrong bytes each', 1 / 4, 10000, 'rs8', 'words', 'rs8'),
    Step('four words, 16 wrong bytes each', 1 / 4, 10000, 'rs16', 'words', 'rs16'),
    Step('layers, from frames to files', 64, 200, 'layers'),
    Step('shelf in memory, its files', 64, 200, 'shelf-stream'),
    Step('shelf in a file, a small file', 1, 300, 'shelf-file', 'shelf-loop'),
]


def received() -> Took:
    new_shelf()
    return timed(['./lritstation', 'shelf', 'receive'], 'stream')


def told(step: Step) -> str:
    """The line of a step."""
    ours, theirs = list[Took](), list[Took]()
    for _ in range(runs):
        ours.append(timed(['./parts', step.ours, str(step.rounds)]))
        if step.theirs and os.path.exists(step.theirs):
            theirs.append(timed([f'./{step.theirs}', *([step.word] if step.word else []), str(step.rounds)]))
    each, each_c = (min((it.processor for it in them), default=0) / step.rounds / step.frames * 1e6
                    for them in (ours, theirs))
    if not theirs:
        return f'{step.title:34} {each:10.2f} {"-":>10} {"-":>8}   -'
    equal = ours[-1].printed.split()[-1] == theirs[-1].printed.split()[-1] if step.word else None
    same = {None: '-', True: 'yes', False: 'no'}[equal]
    return f'{step.title:34} {each:10.2f} {each_c:10.2f} {each_c / each:8.2f}   {same}'


best = min(received() for _ in range(runs))
print(best.printed.decode().splitlines()[-1])
print(f'{os.cpu_count()} processors; the best of {runs} runs')
print(f'receive: {best.real / frames * 1e6:.1f} us a frame, {best.processor / frames * 1e6:.1f} of processor time, '
      f'{frames * 16384 / best.real / 1e6:.1f} million symbols/s')
print(f'{"us a frame":34} {"lr_bench":>10} {"C":>10} {"C/ours":>8}   same checksum')
for step in STEPS:
    print(told(step), flush=True)
