"""Executes a replay script: one command a line, one answer a command.

    python3 tests/second/replay.py < script

The grammar is in tests/README.md.  The table is kept in its stored form and
fetched anew by each command that takes it; that is where outcome 9 is tested,
before everything else (document 01, Numbered outcomes).
"""

import os
import re
import sys
from dataclasses import replace

if __name__ == "__main__":
    sys.dont_write_bytecode = True
    sys.path.insert(0, os.path.dirname(os.path.dirname(os.path.abspath(__file__))))

from second import air, sheet, spoil, stored
from second import table as tables
from second.listing import id_texts, key_text, number_text, on_text
from second.table import LAST_BLOCK, Table, shown_sets

LONGEST_LINE = 65536        # without its LF
MOST_BLOCK_BYTES = 64
MOST_COPIED = 256
MOST_AIR_BYTES = 140000
MOST_SHEET_BYTES = 32768
FILLING = 0xAA              # what lent buffers hold before a call

DECIMAL = "([0-9]{1,10})"
BYTES = "(?: ((?:[0-9A-Fa-f]{2})+))?"
KEY = "([0-9A-Fa-f]{1,8})"


def list_words(key, ids):
    """V IDS.., or `-` where there is no list."""
    return ["-"] if ids is None else [str(ids.named)] + id_texts(key, ids.pairs)


def block_words(outcome, place=0, notes=()):
    """O, then after 0 the notes' numbers, after any other outcome the place."""
    return [str(outcome)] + (["@%d" % place] if outcome else [str(note) for note in notes])


def kept_word(rest, filling):
    """Whether every place that must stay unchanged still holds the filling."""
    return "kept" if all(place == filling for place in rest) else "changed"


def write_words(writer, table, size):
    """Lends a buffer of this size to a writer: O, then after 0 the bytes or `-`, then kept or changed."""
    buffer = bytearray([FILLING]) * size
    outcome, length = writer(shown_sets(table), buffer)
    words = [str(outcome)]
    if outcome == 0:
        words.append(bytes(buffer[:length]).hex().upper() or "-")
    return words + [kept_word(buffer[length:], FILLING)]


class Replay:
    """The state of a script: the present table, and the one from before the last spoiling."""

    def __init__(self):
        self.stored = stored.store(Table())
        self.remembered = None

    # Each command answers its lines, or None where a number is over its limit.

    def empty(self):
        self.stored = stored.store(Table())
        return ["e"]

    def block(self, digits):
        data = bytes.fromhex(digits or "")
        if len(data) > MOST_BLOCK_BYTES:
            return None
        table = stored.fetch(self.stored)
        if table is None:
            return [" ".join(["b"] + block_words(9))]
        outcome, place, notes = tables.read_block(table, data)
        self.stored = stored.store(table)
        return [" ".join(["b"] + block_words(outcome, place, notes))]

    def forget(self, key):
        table = stored.fetch(self.stored)
        if table is None:
            return ["f 9"]
        outcome = tables.forget(table, int(key, 16))
        self.stored = stored.store(table)
        return ["f %d" % outcome]

    def copy_out(self, key, numbers_size, kinds_size):
        if int(numbers_size) > MOST_COPIED or int(kinds_size) > MOST_COPIED:
            return None
        key = int(key, 16)
        number_filling = FILLING * 0x01010101
        numbers = [number_filling] * int(numbers_size)
        kinds = bytearray([FILLING]) * int(kinds_size)
        table = stored.fetch(self.stored)
        outcome = 9 if table is None else tables.copy_out(table, key, numbers, kinds)
        words, length = ["c", str(outcome)], 0
        if outcome == 0:
            entry = table[key]
            length = len(entry.shown.pairs)
            words += [key_text(key), on_text(entry.on), str(entry.shown.named), number_text(entry.confirmed)]
            words += id_texts(key, zip(kinds[:length], numbers[:length]))
        both_kept = {kept_word(numbers[length:], number_filling), kept_word(kinds[length:], FILLING)} == {"kept"}
        return [" ".join(words + ["kept" if both_kept else "changed"])]

    def write(self, letter, writer, size, most):
        if size > most:
            return None
        table = stored.fetch(self.stored)
        words = ["9", "kept"] if table is None else write_words(writer, table, size)
        return [" ".join([letter] + words)]

    def write_air(self, size):
        return self.write("a", air.write, int(size), MOST_AIR_BYTES)

    def write_sheet(self, size):
        return self.write("s", sheet.write, int(size), MOST_SHEET_BYTES)

    def load(self, digits):
        outcome, table = sheet.load(bytes.fromhex(digits or ""))
        self.stored = stored.store(table)
        return ["l %d" % outcome]

    def print_table(self):
        table = stored.fetch(self.stored)
        if table is None:
            return ["t 9"]
        lines = ["t %d %s" % (len(table), number_text(table.blocks))]
        for key in sorted(table):
            entry = table[key]
            words = [key_text(key), on_text(entry.on), number_text(entry.confirmed), "shown"]
            words += list_words(key, entry.shown) + ["open"] + list_words(key, entry.open)
            lines.append(" ".join(words))
        return lines

    def print_totals(self):
        if stored.fetch(self.stored) is None:
            return ["totals 9"]
        return ["totals %d %d %d" % (self.stored.shown, self.stored.on, self.stored.identifiers)]

    def set_count(self, number):
        if int(number) > LAST_BLOCK:
            return None
        self.stored = replace(self.stored, blocks=int(number))      # what is remembered stays
        return ["count"]

    def spoil(self, way):
        if int(way) not in spoil.WAYS:
            return None
        broken = spoil.spoiled(self.stored, int(way))
        if broken is None:
            return ["x ?"]
        self.remembered, self.stored = self.stored, broken
        return ["x"]

    def unspoil(self):
        if self.remembered is not None:
            self.stored = self.remembered
        return ["u"]

    COMMANDS = [(re.compile(form), command) for form, command in (
        ("e", empty),
        ("b" + BYTES, block),
        ("f " + KEY, forget),
        ("c %s %s %s" % (KEY, DECIMAL, DECIMAL), copy_out),
        ("a " + DECIMAL, write_air),
        ("s " + DECIMAL, write_sheet),
        ("l" + BYTES, load),
        ("t", print_table),
        ("x " + DECIMAL, spoil),
        ("u", unspoil),
        ("totals", print_totals),
        ("count " + DECIMAL, set_count),
    )]

    def answer(self, line):
        """The answer lines to one line of the script, given as bytes without its LF."""
        if not line:
            return []
        if len(line) <= LONGEST_LINE:
            text = line.decode("latin-1")
            for form, command in self.COMMANDS:
                found = form.fullmatch(text)
                if found:
                    return command(self, *found.groups()) or ["?"]
        return ["?"]


def run(script):
    """All answer lines to a script; a last line may lack its LF."""
    replay = Replay()
    return [answer for line in script.split(b"\n") for answer in replay.answer(line)]


def main():
    answers = run(sys.stdin.buffer.read())
    sys.stdout.buffer.write("".join(answer + "\n" for answer in answers).encode("ascii"))


if __name__ == "__main__":
    main()
