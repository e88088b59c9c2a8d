"""The report on a recording: the refused blocks with their outcomes and places, and what found no room.

Document 02, R-1.       python3 tests/second/check.py < recording.fib
"""

import os
import sys

if __name__ == "__main__":
    sys.dont_write_bytecode = True
    sys.path.insert(0, os.path.dirname(os.path.dirname(os.path.abspath(__file__))))

from second.block import BLOCK_SIZE, whole_blocks
from second.table import SKIPPED_FULL, Table, read_block

MEANS = {2: "check fails", 3: "wrong FIG", 4: "wrong field", 5: "wrong value", 6: "empty start"}


def refused_line(number, outcome, place):
    """What is said of a refused block; a failing check has no place."""
    where = "" if outcome == 2 else " at byte %d" % place
    return "block %d: %d%s, %s" % (number, outcome, where, MEANS[outcome])


def report(recording):
    """A line for each refused block, numbered from 1; the count of blocks; then what is not 0."""
    table, lines, without_room = Table(), [], 0
    blocks = whole_blocks(recording)
    for number, block in enumerate(blocks, 1):
        outcome, place, notes = read_block(table, block)
        if outcome:
            lines.append(refused_line(number, outcome, place))
        without_room += notes.count(SKIPPED_FULL)
    lines.append("blocks %d, refused %d" % (len(blocks), len(lines)))
    counts = (("starts without room", without_room), ("rest", len(recording) % BLOCK_SIZE))
    return lines + ["%s %d" % (what, count) for what, count in counts if count]


def report_text(recording):
    return "".join(line + "\n" for line in report(recording))


def main():
    sys.stdout.buffer.write(report_text(sys.stdin.buffer.read()).encode("ascii"))


if __name__ == "__main__":
    main()
