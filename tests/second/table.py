"""The table of linkage sets: collecting, forgetting, copying out, and its rules.

Document 01, Collecting.  A table is a dictionary from held keys to entries,
with a count of the blocks read into it (document 02, R-9).
"""

from second import field as linking

MOST_KEYS = 32
LONGEST = 128
LAST_BLOCK = (1 << 32) - 1      # where the count of blocks stops

OPENED, SHOWN_AND_OPENED, ADDED, SKIPPED_NO_LIST = 1, 2, 3, 4
SKIPPED_FULL, DROPPED, STATE_ONLY, UNKNOWN_KEY = 5, 6, 7, 8


class IdList:
    """A shown set or an open list: (kind, number) pairs in order, and the named kinds (1 RDS + 2 DRM)."""

    def __init__(self, pairs=(), named=0):
        self.pairs = list(pairs)
        self.named = named

    def __eq__(self, other):
        return isinstance(other, IdList) and (self.pairs, self.named) == (other.pairs, other.named)

    def extended(self, field):
        """This list with the field's identifiers at its end, each pair once, and its qualifier's kind named."""
        pairs = list(self.pairs)
        for pair in linking.pairs_of(field):
            if pair not in pairs:
                pairs.append(pair)
        return IdList(pairs, self.named | linking.NAME[linking.qualifier(field)])

    def has_kind(self, kind):
        return any(k == kind for k, _ in self.pairs)


class Entry:
    """What is kept of one held key: on or off, the shown set, the open list (None where there is none).

    `confirmed` is the number of the block at which the set was last shown: 0
    where none is shown, and where none was since the table was loaded.
    """

    def __init__(self, on=False, shown=None, open=None, confirmed=0):
        self.on = on
        self.shown = shown
        self.open = open
        self.confirmed = confirmed

    def parts(self):
        return self.on, self.shown, self.open, self.confirmed

    def __eq__(self, other):
        return isinstance(other, Entry) and self.parts() == other.parts()


class Table(dict):
    """Held keys with their entries, and how many blocks were counted; the empty table has counted none."""

    def __init__(self, entries=(), blocks=0):
        super().__init__(entries)
        self.blocks = blocks

    def __eq__(self, other):
        return isinstance(other, Table) and dict.__eq__(self, other) and self.blocks == other.blocks

    def __ne__(self, other):
        return not self == other


def shown_sets(table):
    """(key, entry) of the shown sets in ascending key order."""
    return [(key, table[key]) for key in sorted(table) if table[key].shown is not None]


def totals(table):
    """How many sets are shown, how many of these are on, how many identifiers they have; added up anew.

    Document 02, R-7.  An open list is no shown set, and a key that is held
    without a shown set counts nowhere, on or off.
    """
    shown = on = identifiers = 0
    for _, entry in shown_sets(table):
        shown += 1
        on += 1 if entry.on else 0
        identifiers += len(entry.shown.pairs)
    return shown, on, identifiers


# Collecting


def start(table, field):
    """A start: what was open becomes the shown set, and a new list opens."""
    if field.key not in table:
        if len(table) == MOST_KEYS:
            return SKIPPED_FULL
        table[field.key] = Entry()
    entry = table[field.key]
    note = OPENED
    if entry.open is not None:
        entry.shown, entry.confirmed = entry.open, table.blocks
        note = SHOWN_AND_OPENED
    entry.open = IdList().extended(field)
    return note


def continuation(entry, field):
    """A continuation of a held key: adds to the open list; a list that would pass 128 goes whole."""
    if entry.open is None:
        return SKIPPED_NO_LIST
    longer = entry.open.extended(field)
    if len(longer.pairs) > LONGEST:
        entry.open = None
        return DROPPED
    entry.open = longer
    return ADDED


def collect(table, field):
    """Lets one field of a taken block work on the table; answers its note."""
    if linking.is_start(field):
        note = start(table, field)
    elif field.key not in table:
        note = UNKNOWN_KEY
    elif linking.has_list(field):
        note = continuation(table[field.key], field)
    else:
        note = STATE_ONLY
    if field.key in table:          # held after the field's own work
        table[field.key].on = field.on
    return note


def drop_open_lists(table):
    for entry in table.values():
        entry.open = None


def count_block(table):
    """The present block gets its number: one more than the last, until the numbers end."""
    table.blocks = min(table.blocks + 1, LAST_BLOCK)


def read_block(table, block):
    """Reads one block into the table; answers (outcome, place, notes).  A refused one is counted too, but for 1."""
    outcome, place, fields = linking.examine(block)
    if outcome != 1:
        count_block(table)
    if outcome >= 2:
        drop_open_lists(table)
    return outcome, place, [collect(table, field) for field in fields]


def forget(table, key):
    """Forgets a key: 0, or 7 if it is not held.  Blocks stay counted."""
    if key not in table:
        return 7
    del table[key]
    return 0


def copy_out(table, key, numbers, kinds):
    """Copies the shown set of a key into the two lent buffers: outcome 0, 7, 11 or 8.

    On, named kinds, length and number of the set stay with the entry.
    """
    if key not in table:
        return 7
    shown = table[key].shown
    if shown is None:
        return 11
    length = len(shown.pairs)
    if len(numbers) < length or len(kinds) < length:
        return 8
    for place, (kind, number) in enumerate(shown.pairs):
        numbers[place] = number
        kinds[place] = kind
    return 0


# Table rules


def list_meets_rules(key, ids):
    """1 to 128 different pairs, the first DAB if it has to be, numbers within the width, named kinds right."""
    pairs = ids.pairs
    if not 1 <= len(pairs) <= LONGEST or len(set(pairs)) < len(pairs):
        return False
    if linking.first_is_service(key) and pairs[0][0] != linking.DAB:
        return False
    present = 0
    for kind, number in pairs:
        if kind not in linking.KINDS or number >> linking.width(key):
            return False
        present |= linking.NAME[kind]
    if ids.named > 3 or present & ~ids.named:
        return False
    return not (key & linking.PD and ids.named)


def number_meets_rules(table, entry):
    """No number above the table's own count, and none without a shown set."""
    return entry.confirmed <= (0 if entry.shown is None else table.blocks)


def meets_rules(table):
    """The table rules of document 01, with R-9's (that keys differ is in the nature of a dictionary)."""
    if len(table) > MOST_KEYS:
        return False
    for key, entry in table.items():
        if key >= 65536 or key & linking.LSN == 0 or not number_meets_rules(table, entry):
            return False
        for ids in (entry.shown, entry.open):
            if ids is not None and not list_meets_rules(key, ids):
                return False
    return True
