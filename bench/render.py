"""What `render.sh` runs: its head says what it does."""

import sys
from typing import NamedTuple

from measuring import Took, timed

PIECES = 32  # how many times the lines stand in a coded image
WHO = {0: 'export', 1: 'render, 1', 2: 'render, 2', 4: 'render, 4'}


class Job(NamedTuple):
    """What the images are, the words before the rounds, the input, rounds, images, and the pixels of an image."""

    name: str
    words: str
    given: str | None
    rounds: int
    images: int
    pixels: int

    def run(self, workers: int, rounds: int) -> Took:
        return timed(['./lr_bench', *self.words.split(), str(rounds), str(self.images), str(workers)], self.given)


JOBS = [
    Job('8 bits, not compressed', 'render', None, 8, 16, 1024 * 1024),
    Job('10 bits, coded, 5,500 columns', 'render-lossless 10 16 5500 10', 'wide', 4, 16, PIECES * 10 * 5500),
    Job('10 bits, coded, 64 columns', 'render-lossless 10 16 64 2', 'small', 48, 64, PIECES * 2 * 64),
]


print(f'{"Mpixel/s":32}' + ''.join(f'{name:>12}' for name in WHO.values()) + '   same text')
for job in JOBS:
    best: dict[int, float] = {}
    lines = set()
    for _ in range(int(sys.argv[1])):
        for workers in WHO:
            # (what making the shelf takes is taken off)
            empty, took = job.run(workers, 0), job.run(workers, job.rounds)
            best[workers] = min(best.get(workers, 1e9), max(took.real - empty.real, 1e-9))
            lines.add(took.printed)
    pixels = job.rounds * job.images * job.pixels
    told = ''.join(f'{pixels / best[workers] / 1e6:12.1f}' for workers in WHO)
    print(f'{job.name:32}{told}   {"yes" if len(lines) == 1 else "NO"}')
