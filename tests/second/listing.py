"""The listing program: blocks on standard input, the shown sets on standard output.

Document 01, Examples, 16.      python3 tests/second/listing.py < recording.fib

With --confirmed it prints the count of blocks and each set's number as well
(document 02, R-9).
"""

import os
import sys

if __name__ == "__main__":
    sys.dont_write_bytecode = True
    sys.path.insert(0, os.path.dirname(os.path.dirname(os.path.abspath(__file__))))

from second import field as linking
from second.block import BLOCK_SIZE, whole_blocks
from second.table import Table, read_block, shown_sets

LETTER = {linking.DAB: "D", linking.RDS: "R", linking.DRM: "M"}


def key_text(key):
    """Four capital hex digits, more where the key needs them."""
    return "%04X" % key


def on_text(on):
    return "on" if on else "off"


def id_texts(key, pairs):
    """Letter and number of each identifier, in 4, 6 or 8 digits by the key's width."""
    digits = linking.width(key) // 4
    return ["%s%0*X" % (LETTER[kind], digits, number) for kind, number in pairs]


def dead_link_texts(ids):
    """`R-` and `M-` for the named kinds without identifiers."""
    return [LETTER[kind] + "-" for kind in (linking.RDS, linking.DRM)
            if ids.named & linking.NAME[kind] and not ids.has_kind(kind)]


def number_text(number):
    """The number of a block, wherever one is printed among other words."""
    return "#%d" % number


def set_line(key, entry, confirmed=False):
    ids = entry.shown
    words = [key_text(key), on_text(entry.on)] + ([number_text(entry.confirmed)] if confirmed else [])
    words += ["ids", str(len(ids.pairs))] + id_texts(key, ids.pairs) + dead_link_texts(ids)
    return " ".join(words)


def table_of(recording):
    """The table that the whole blocks of a recording leave."""
    table = Table()
    for block in whole_blocks(recording):
        read_block(table, block)
    return table


def listing(recording, confirmed=False):
    """The lines for a recording; what is left after the whole blocks is only counted."""
    table = table_of(recording)
    shown = shown_sets(table)
    lines = ["sets %d" % len(shown) + (" blocks %d" % table.blocks if confirmed else "")]
    lines += [set_line(key, entry, confirmed) for key, entry in shown]
    rest = len(recording) % BLOCK_SIZE
    return lines + ["tail %d" % rest] if rest else lines


def listing_text(recording, confirmed=False):
    return "".join(line + "\n" for line in listing(recording, confirmed))


def main():
    text = listing_text(sys.stdin.buffer.read(), sys.argv[1:] == ["--confirmed"])
    sys.stdout.buffer.write(text.encode("ascii"))


if __name__ == "__main__":
    main()
