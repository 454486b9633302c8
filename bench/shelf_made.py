"""What `shelf.sh` runs: its head says what it does."""

import sys
from shelf import header, old
with open('shelf.bench', 'wb') as f:
    f.write(header(1, 1 << 40) + (b'\x01' + old((0, 100, [b'\xA5' * 26]))) * int(sys.argv[1]) + b'\x00')
