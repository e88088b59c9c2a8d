"""Runs a command in a session of its own, with its signals as at a login, whatever is ignored around it.

    python3 tests/fresh.py WORDS...
"""

import os
import signal
import sys

for number in (signal.SIGHUP, signal.SIGINT, signal.SIGTERM, signal.SIGPIPE, signal.SIGXFSZ):
    signal.signal(number, signal.SIG_DFL)
os.setsid()
os.execvp(sys.argv[1], sys.argv[1:])
