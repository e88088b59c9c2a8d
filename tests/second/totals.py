"""The totals of a recording: the figures that the table keeps after its last block.

Document 02, R-7.       python3 tests/second/totals.py < recording.fib
"""

import os
import sys

if __name__ == "__main__":
    sys.dont_write_bytecode = True
    sys.path.insert(0, os.path.dirname(os.path.dirname(os.path.abspath(__file__))))

from second.listing import table_of
from second.stored import store


def totals_text(recording):
    """One line; what is left after the whole blocks is not spoken of."""
    table = store(table_of(recording))
    return "shown %d, on %d, identifiers %d\n" % (table.shown, table.on, table.identifiers)


def main():
    sys.stdout.buffer.write(totals_text(sys.stdin.buffer.read()).encode("ascii"))


if __name__ == "__main__":
    main()
