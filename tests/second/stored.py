"""The one stored form of a table, and the test for outcome 9.

Document 01, Collecting ("Table rules").  The form: 32 entries and a count of
held entries; an entry has its key, on or off, a shown and an open list; a
list has 128 numbers, 128 kinds, a length (0 where there is no list) and the
named kinds.  Keys ascend from entry 0 without gaps; an unused entry, a place
past a list's length and everything in an absent list is zero.

Document 02, R-7: three figures beside them, which are the totals of the sets
that the table shows; any other figure makes the form a wrong one.  R-9: the
count of blocks beside them, and in each entry the number of a block.
"""

from dataclasses import dataclass, field

from second.table import Entry, IdList, LONGEST, MOST_KEYS, Table, meets_rules, totals


def zeros():
    return [0] * LONGEST


@dataclass
class StoredList:
    numbers: list = field(default_factory=zeros)
    kinds: list = field(default_factory=zeros)
    length: int = 0
    named: int = 0


@dataclass
class StoredEntry:
    key: int = 0
    on: bool = False
    shown: StoredList = field(default_factory=StoredList)
    open: StoredList = field(default_factory=StoredList)
    confirmed: int = 0          # the block at which the set was last shown


@dataclass
class StoredTable:
    entries: list = field(default_factory=lambda: [StoredEntry() for _ in range(MOST_KEYS)])
    count: int = 0
    shown: int = 0              # sets
    on: int = 0                 # sets that are shown and on
    identifiers: int = 0        # in the sets that are shown
    blocks: int = 0             # counted so far


def store_list(ids):
    stored = StoredList()
    if ids is not None:
        stored.length = len(ids.pairs)
        stored.named = ids.named
        for place, (kind, number) in enumerate(ids.pairs):
            stored.numbers[place] = number
            stored.kinds[place] = kind
    return stored


def store(table):
    """The stored form of a table that meets the rules."""
    shown, on, identifiers = totals(table)
    stored = StoredTable(count=len(table), shown=shown, on=on, identifiers=identifiers, blocks=table.blocks)
    for place, key in enumerate(sorted(table)):
        entry = table[key]
        stored.entries[place] = StoredEntry(key, entry.on, store_list(entry.shown), store_list(entry.open),
                                            entry.confirmed)
    return stored


def fetch_list(stored):
    """The list in its places, None if it is absent; LONGEST + 1 and more are the caller's to refuse."""
    if stored.length == 0:
        return None
    pairs = zip(stored.kinds[:stored.length], stored.numbers[:stored.length])
    return IdList(pairs, stored.named)


def fetch(stored):
    """The table of a stored form, or None (outcome 9).

    Good is exactly what `store` makes of a table that meets the rules; so
    the content is read out and stored again for comparison.
    """
    if stored.count > MOST_KEYS:
        return None
    table = Table(blocks=stored.blocks)
    for entry in stored.entries[:stored.count]:
        if max(entry.shown.length, entry.open.length) > LONGEST:
            return None
        table[entry.key] = Entry(entry.on, fetch_list(entry.shown), fetch_list(entry.open), entry.confirmed)
    if not meets_rules(table) or store(table) != stored:
        return None
    return table
