"""What `processors.sh` runs: its head says what it does."""

import os
import sys

from measuring import new_shelf, timed

runs, frames = int(sys.argv[1]), int(sys.argv[2])
PROGRAMS = ('v2', 'v3')
WORK = [('decode', 'symbols'), ('receive', 'symbols'), (f'transmit 0 {frames // 2} 0', None)]


print(f'{frames} frames, {os.cpu_count()} processors, the best of {runs} runs')
print(f'{"us for each of these frames":30} {"v2":>9} {"v3":>9} {"v3/v2":>6}   same output')
alike = True
for words, given in WORK:
    best: dict[str, float] = {}
    printed: dict[str, bytes] = {}
    for _ in range(runs):
        for program in PROGRAMS:
            if words == 'receive':
                new_shelf(f'./{program}')
            took = timed([f'./{program}', 'shelf', *words.split()], given)
            printed[program], best[program] = took.printed, min(took.processor, best.get(program, took.processor))
    same = printed['v2'] == printed['v3']
    alike = alike and same
    each = [best[program] / frames * 1e6 for program in PROGRAMS]
    print(f'{words:30} {each[0]:9.1f} {each[1]:9.1f} {each[1] / each[0]:6.2f}   {"yes" if same else "no"}', flush=True)
sys.exit(not alike)
