"""What `shelf.sh` runs: its head says what it does."""

import resource, subprocess, sys
subprocess.run([sys.argv[1], 'shelf-load', '1'], stdout=subprocess.DEVNULL, check=True)
print(resource.getrusage(resource.RUSAGE_CHILDREN).ru_maxrss)
