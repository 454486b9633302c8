"""What `transmit.sh` runs: its head says what it does."""

import sys

from measuring import timed

SYMBOLS = 16384
COMMANDS = {
    'make': ['./lritstation', '-', 'make', '1', '1024', '0'],
    'transmit': ['./lritstation', 'shelf', 'transmit', '0', '1020', '0'],
}


best: dict[str, float] = {}
for _ in range(int(sys.argv[1])):
    for name, command in COMMANDS.items():
        took = timed(command)
        frames = len(took.printed) // SYMBOLS
        best[name] = min(best.get(name, 1e9), took.processor / frames)
        print(f'{name:9} {frames:5} frames {took.processor:7.3f} s')
each = f'make {best["make"] * 1e6:.1f} us a frame, transmit {best["transmit"] * 1e6:.1f}'
print(f'{each}, the best of {sys.argv[1]} runs')
