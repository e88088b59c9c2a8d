"""The ways to break a stored table, for testing outcome 9.

"First entry" is the lowest of the 32 places that has what the way needs.  A
shown set or open list is there when its length is 1 to 128.  Each way is the
assignment given here on the stored form of stored.py, and nothing else:

     way  needs                                    becomes
      1   count at least 2                         entries 0 and 1 change places
      2   nothing                                  count = 33
      3   count at least 2                         key of entry 1 = key of entry 0
      4   count 1 to 32                            key of entry count - 1 = 65536
      5   count at least 1                         key of entry 0 loses its low 12 bits
      6   count below 32                           on of entry `count` = true
      7   first entry with a shown set             shown length = 129
      8   first with a shown set of 1 to 127       shown number at its length = 1
      9   first with a shown set of 2 or more      shown pair 1 = shown pair 0
     10   first with a shown set and OE 0          shown kind 0 = 1, named gets bit 1
     11   first with a shown set and P/D 0         shown number 0 = 2^16, with ILS 1 2^24
     12   first with a shown set                   last shown kind = 2
     13   first whose shown set has kind 1 or 3    shown named = 0
     14   first with a shown set                   shown named gets bit 4
     15   first with a shown set and P/D 1         shown named = 1
     16   first with an open list of 2 or more     open pair 1 = open pair 0
     22   nothing                                  the figure of shown sets is one higher
     23   nothing                                  the figure of those that are on is one higher
     24   nothing                                  the figure of their identifiers is one higher
     25   blocks below 2^32 - 1,
          first entry with a shown set             its number = blocks + 1
     26   first of the held without a shown set    its number = 1

Held are the entries below the count, all of them where that is above 32.
Where the need is not met nothing is spoiled.  No other number is a way.
"""

import copy

from second.field import PD, first_is_service, width
from second.table import LAST_BLOCK, LONGEST, MOST_KEYS

WAYS = (*range(1, 17), *range(22, 27))


def is_there(ids):
    return 1 <= ids.length <= LONGEST


def first(table, needed):
    """The lowest entry that has what is needed, or None."""
    return next((entry for entry in table.entries if needed(entry)), None)


def first_shown(table, needed=lambda entry: True):
    """The shown list of the lowest entry that shows a set and has what is needed, or None."""
    entry = first(table, lambda e: is_there(e.shown) and needed(e))
    return entry and entry.shown


def repeat_pair(ids):
    ids.numbers[1], ids.kinds[1] = ids.numbers[0], ids.kinds[0]


# Each way answers whether it applied.


def swap_entries(table):
    if table.count < 2:
        return False
    entries = table.entries
    entries[0], entries[1] = entries[1], entries[0]
    return True


def too_many_entries(table):
    table.count = MOST_KEYS + 1
    return True


def key_twice(table):
    if table.count < 2:
        return False
    table.entries[1].key = table.entries[0].key
    return True


def key_too_large(table):
    if not 1 <= table.count <= MOST_KEYS:
        return False
    table.entries[table.count - 1].key = 65536
    return True


def key_without_lsn(table):
    if table.count < 1:
        return False
    table.entries[0].key -= table.entries[0].key % 4096
    return True


def unused_entry_on(table):
    if table.count >= MOST_KEYS:
        return False
    table.entries[table.count].on = True
    return True


def list_too_long(table):
    ids = first_shown(table)
    if ids is None:
        return False
    ids.length = LONGEST + 1
    return True


def past_the_end(table):
    ids = first_shown(table, lambda e: e.shown.length < LONGEST)
    if ids is None:
        return False
    ids.numbers[ids.length] = 1
    return True


def shown_pair_twice(table):
    ids = first_shown(table, lambda e: e.shown.length >= 2)
    if ids is None:
        return False
    repeat_pair(ids)
    return True


def first_is_rds(table):
    ids = first_shown(table, lambda e: first_is_service(e.key))
    if ids is None:
        return False
    ids.kinds[0] = 1
    ids.named |= 1
    return True


def number_too_large(table):
    entry = first(table, lambda e: is_there(e.shown) and not e.key & PD)
    if entry is None:
        return False
    entry.shown.numbers[0] = 1 << width(entry.key)
    return True


def kind_two(table):
    ids = first_shown(table)
    if ids is None:
        return False
    ids.kinds[ids.length - 1] = 2
    return True


def present_not_named(table):
    ids = first_shown(table, lambda e: any(k in (1, 3) for k in e.shown.kinds[:e.shown.length]))
    if ids is None:
        return False
    ids.named = 0
    return True


def named_four(table):
    ids = first_shown(table)
    if ids is None:
        return False
    ids.named |= 4
    return True


def data_with_name(table):
    ids = first_shown(table, lambda e: e.key & PD)
    if ids is None:
        return False
    ids.named = 1
    return True


def open_pair_twice(table):
    entry = first(table, lambda e: is_there(e.open) and e.open.length >= 2)
    if entry is None:
        return False
    repeat_pair(entry.open)
    return True


def one_shown_more(table):
    table.shown += 1
    return True


def one_on_more(table):
    table.on += 1
    return True


def one_identifier_more(table):
    table.identifiers += 1
    return True


def number_above_count(table):
    entry = first(table, lambda e: is_there(e.shown))
    if entry is None or table.blocks == LAST_BLOCK:
        return False
    entry.confirmed = table.blocks + 1
    return True


def number_without_set(table):
    held = table.entries[:table.count]
    entry = next((entry for entry in held if not is_there(entry.shown)), None)
    if entry is None:
        return False
    entry.confirmed = 1
    return True


SPOIL = dict(zip(WAYS, (
    swap_entries, too_many_entries, key_twice, key_too_large, key_without_lsn, unused_entry_on,
    list_too_long, past_the_end, shown_pair_twice, first_is_rds, number_too_large, kind_two,
    present_not_named, named_four, data_with_name, open_pair_twice,
    one_shown_more, one_on_more, one_identifier_more, number_above_count, number_without_set)))


def spoiled(table, way):
    """A spoiled copy of the stored table, or None where there is nothing to spoil in this way."""
    other = copy.deepcopy(table)
    return other if SPOIL[way](other) else None
