"""`python3 -m gomtasil` in a checkout."""

import signal
import sys

# (so that an interrupt ends it while its modules are read, as any other signal does)
signal.signal(signal.SIGINT, signal.SIG_DFL)

from .cli import main  # noqa: E402

sys.exit(main())
