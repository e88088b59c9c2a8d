"""Runs a command whose standard error is a terminal, and passes on what it says there.

    python3 tests/on_terminal.py WORDS...
"""

import os
import pty
import subprocess
import sys

ours, its = pty.openpty()
child = subprocess.Popen(sys.argv[1:], stderr=its)
os.close(its)
while True:
    try:
        said = os.read(ours, 4096)
    except OSError:
        break
    if not said:
        break
    sys.stderr.buffer.write(said)
sys.exit(child.wait())
