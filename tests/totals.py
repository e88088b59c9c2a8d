"""Totals: the scenes of totals.in.

Document 02, R-7.  The three figures are the shown sets, those of them that are
on, and the identifiers in shown sets.  What they are after a step is foretold
here from what the step does; in the random part they are counted from the
lines that `t` prints.
"""

from itertools import product

import cases
import other
import scenes
from making import (block, block_of, damaged, fig_for, id_size, linking_fig, long, more, short, start, state,
                    whole_list)
from material import (BAD_SHEETS, DAB, DRM, FLAGS, GOOD_SHEETS, ONE, RDS, faulty_block, long_sheet, many_sets,
                      random_figs, random_keys, sheet_bytes)
from scenes import EXAMPLE

FIGURES = (22, 23, 24)          # the ways that make a figure wrong
WAYS = (*range(1, 17), *FIGURES)

# A good field that would switch 2004 off, and then what refuses the block.
REFUSED = {2: damaged(state(0x2004, 0)), 3: block_of("03 06 20 04 00"), 4: block_of("03 06 20 04 02 06 20"),
           5: block_of("03 06 20 04 03 06 20 00"), 6: block_of("03 06 20 04 04 06 E0 04 00")}

# Lengths of the lists that come one after another under a key, shorter and longer ones.
REPLACED = {0x2004: (2, 13, 1, 1, 128, 127, 5), 0x3004: (2, 3, 1, 8, 9, 9, 1), 0x4004: (3, 1, 2, 2, 6, 7, 1),
            0x8004: (1, 4, 2, 3), 0x9004: (4, 2, 4, 4), 0xD004: (1, 20, 6, 12)}

# Sets of three, two and two identifiers, the second one off; with an open list of two it can be spoiled in every way.
MIXED = [3, 0x2004, 1, 3, 3, 0, 5, 1, 5, 3, 6, 0x3004, 0, 0, 2, 0, 5, 0, 6, 0x4004, 1, 0, 2, 0, 5, 0, 6]


def numbers(key, count):
    """So many numbers of the key's full width, from the largest down."""
    top = (1 << 8 * id_size(key)) - 1
    return [top - place for place in range(count)]


def list_of(key, on, count):
    """The blocks of a list of so many identifiers."""
    return whole_list(key, on, [(DAB, number) for number in numbers(key, count)])


def shown(script, key, on, count):
    """Shows a set of so many identifiers; what fits a start is then open as well."""
    blocks = list_of(key, on, count)
    script.blocks(blocks + blocks[:1])


def pairs(count):
    """So many DAB identifiers, as numbers of a sheet."""
    return [item for number in range(count) for item in (DAB, number)]


def is_now(script, *figures):
    """Asks for the totals, which are foretold."""
    answer = script.do("totals")
    assert answer == "totals %d %d %d" % figures, (answer, figures)


def is_wrong(script):
    """Asks for the totals of a table that breaks the rules."""
    answer = script.do("totals")
    assert answer == "totals 9", answer


# Scenes of reading


def by_hand(script):
    """Document 01's first example and an ensemble of document 003: the figures after every block."""
    is_now(script, 0, 0, 0)                 # before any other command
    script.empty()
    is_now(script, 0, 0, 0)
    for data, note, figures in (
            (EXAMPLE, 1, (0, 0, 0)), (EXAMPLE, 2, (1, 1, 2)), (state(0x2004, 0), 7, (1, 0, 2)),
            (state(0x2005, 1), 8, (1, 0, 2)), (state(0x2004, 1), 7, (1, 1, 2)), (EXAMPLE, 2, (1, 1, 2)),
            (more(0x2004, 1, DRM, [1, 2, 3]), 3, (1, 1, 2)), (EXAMPLE, 2, (1, 1, 5)), (EXAMPLE, 2, (1, 1, 2))):
        script.block(data, 0, [note])
        is_now(script, *figures)
    assert script.raw(b"t") == ["t 1 #9", "2004 on #9 shown 1 D44B1 R44B1 open 1 D44B1 R44B1"]
    script.expect("f 2004", 0)
    is_now(script, 0, 0, 0)
    script.empty()                          # LSN 001 with eight codes, seven regional sets with two: open, then shown
    cycle = cases.swiss_cycle(0x4001, 0)
    for data, figures in zip(cycle * 2, [(0, 0, 0)] * 4 + [(1, 1, 8), (1, 1, 8), (5, 1, 16), (8, 1, 22)]):
        script.block(data, 0)
        is_now(script, *figures)
    script.block(cases.swiss_states(0x4001, 1), 0, [7] * 8)
    is_now(script, 8, 7, 22)
    script.block(cases.swiss_states(0x4001, 0), 0, [7] * 8)
    is_now(script, 8, 1, 22)


def replaced(script):
    """A set in the place of a longer, a shorter and an equally long one, in every width, beside two others."""
    for key, lengths in REPLACED.items():
        script.empty()
        shown(script, 0x0001, 1, 3)
        shown(script, 0xFFF1, 0, 5)
        is_now(script, 2, 1, 8)
        before = 0
        for place, length in enumerate(lengths):
            on = place % 3 > 0
            first, *rest = list_of(key, on, length)
            figures = (3, 1 + on, 8 + before) if place else (2, 1, 8)
            script.block(first, 0, [2 if place else 1])
            is_now(script, *figures)
            for data in rest:
                script.block(data, 0, [3])
            if rest:
                is_now(script, *figures)
            before = length


def pairs_once(script):
    """Pairs that come again and kinds that are named alone are no identifiers; the same list again changes nothing."""
    pieces = [(RDS, [5, 5, 6, 5]), (DAB, [5, 6, 6]), (DRM, [5, 5]), (RDS, []), (DRM, [6, 5])]
    for key, lengths in ((0x2004, {1: 3, 2: 4, 4: 5, 5: 6}), (0x9004, {1: 2, 2: 4, 4: 5, 5: 6})):
        for count, length in lengths.items():
            blocks = other.sent(key, 1, pieces[:count])
            script.empty()
            script.blocks(blocks)
            is_now(script, 0, 0, 0)
            script.blocks(blocks[:1])
            is_now(script, 1, 1, length)
        script.blocks(blocks[1:])
        is_now(script, 1, 1, 6)
        script.block(blocks[0], 0, [2])
        is_now(script, 1, 1, 6)
    script.empty()                          # dead links
    for key, pieces in ((0x2001, [(RDS, [1])]), (0x2002, [(DAB, [1]), (RDS, []), (DRM, [])]),
                        (0x8003, [(DRM, [1, 2]), (RDS, [])])):
        blocks = other.sent(key, 0, pieces)
        script.blocks(blocks + blocks[:1])
    is_now(script, 3, 0, 4)


def prepared(script, key, on):
    """A set of three of this key, on or off, without an open list; before it one of two, on."""
    script.load(sheet_bytes([2, 0x0011, 1, 0, 2, *pairs(2), key, on, 0, 3, *pairs(3)]), 0)
    is_now(script, 2, 1 + on, 5)


def turned(script, key, states):
    """On and off by each kind of field of a shown set, first without an open list and then with one of three."""
    prepared(script, key, 1)
    for note, field in ((7, lambda on: state(key, on, 1)), (7, lambda on: state(key, on, 0)),
                        (4, lambda on: more(key, on, DAB, [])), (4, lambda on: more(key, on, DAB, [4, 5])),
                        (1, lambda on: start(key, on, DAB, [0, 1, 2])), (2, lambda on: start(key, on, DAB, [0, 1, 2])),
                        (7, lambda on: state(key, on, 1)), (7, lambda on: state(key, on, 0)),
                        (3, lambda on: more(key, on, DAB, [])), (3, lambda on: more(key, on, DAB, [4, 5]))):
        for on in states:
            if note == 1:
                script.block(damaged(EXAMPLE), 2)
            script.block(field(on), 0, [note])
            is_now(script, 2, 1 + on, 5)


def turned_too_long(script, key):
    """On and off by the field that makes an open list too long; the shown set stays."""
    for was, on in ((1, 0), (0, 1)):
        prepared(script, key, was)
        script.blocks(list_of(key, was, 128))
        is_now(script, 2, 1 + was, 5)
        script.block(more(key, on, DAB, [1, 2, 3]), 0, [6])
        is_now(script, 2, 1 + on, 5)
        script.block(start(key, was, DAB, [4]), 0, [1])
        is_now(script, 2, 1 + was, 5)
        script.block(start(key, on, DAB, [4]), 0, [2])
        is_now(script, 2, 1 + on, 3)


def turned_in_one_block(script):
    """Many states in one block: the last counts. Keys that differ in a bit leave each other alone."""
    prepared(script, 0x2004, 1)
    for count in (14, 13):
        fields = [short(0x2004, place % 2) for place in range(count)]
        script.block(block(linking_fig(1, 0, 0, *fields)), 0, [7] * count)
        is_now(script, 2, count - 12, 5)
    for key in (0x0004, 0x2005, 0x2014, 0x3004, 0x6004, 0xA004):
        script.block(state(key, 1), 0, [8])
        is_now(script, 2, 1, 5)
        script.block(more(key, 1, DAB, [1]), 0, [8])
        script.block(start(key, 1, DAB, [1]), 0, [1])
        is_now(script, 2, 1, 5)
    script.block(state(0x2004, 1), 0, [7])
    is_now(script, 2, 2, 5)


def opened(script):
    """Open lists count nowhere, on or off, however long; a key that is held without a set is none."""
    keys = (0x2001, 0x4003, 0x8004)
    prepared(script, 0x2004, 0)
    for key in keys:
        script.blocks(list_of(key, 1, 20))
        is_now(script, 2, 1, 5)
        for on in (0, 1):
            script.block(state(key, on), 0, [7])
            is_now(script, 2, 1, 5)
    script.block(damaged(EXAMPLE), 2)
    is_now(script, 2, 1, 5)
    for key in keys:
        script.block(state(key, 0), 0, [7])
        is_now(script, 2, 1, 5)
        script.block(more(key, 1, DAB, [1]), 0, [4])
        is_now(script, 2, 1, 5)
    script.show()
    for place, key in enumerate(keys, 1):
        script.block(start(key, 1, DAB, [1]), 0, [1])
        is_now(script, 1 + place, place, 4 + place)
        script.block(start(key, 1, DAB, [1, 2]), 0, [2])
        is_now(script, 2 + place, 1 + place, 5 + place)


def refused(script):
    """A refused block of every outcome: the figures stay, and lists that were open never come to be shown."""
    for outcome, data in REFUSED.items():
        script.load(sheet_bytes([2, *ONE[1:], 0x3005, 0, 0, 1, 0, 1]), 0)
        script.blocks([start(key, on, DAB, [6, 7, 8, 9]) for key, on in ((0x2004, 1), (0x3005, 0), (0x4006, 1))])
        is_now(script, 2, 1, 3)
        script.block(data, outcome)
        is_now(script, 2, 1, 3)
        for key, note, figures in ((0x2004, 1, (2, 1, 3)), (0x3005, 1, (2, 2, 3)), (0x4006, 1, (2, 2, 3)),
                                   (0x2004, 2, (2, 2, 4)), (0x4006, 2, (3, 3, 7)), (0x3005, 2, (3, 3, 9))):
            script.block(start(key, 1, DAB, [1, 2, 3]), 0, [note])
            is_now(script, *figures)
    script.blocks([EXAMPLE, EXAMPLE, more(0x2004, 1, DAB, [6, 7, 8])])
    is_now(script, 3, 3, 8)
    for data in (b"", EXAMPLE[:31], EXAMPLE + b"\0", EXAMPLE * 2):
        script.block(data, 1)
        is_now(script, 3, 3, 8)
    script.block(EXAMPLE, 0, [2])           # the open list stayed
    is_now(script, 3, 3, 11)


def dropped(script, key):
    """A list of 129 is dropped and never counts; one of 128 does."""
    script.empty()
    shown(script, 0x0011, 1, 2)
    script.blocks(list_of(key, 1, 128))
    is_now(script, 1, 1, 2)
    script.block(more(key, 1, DAB, [1]), 0, [6])
    is_now(script, 1, 1, 2)
    script.block(more(key, 1, DAB, [1]), 0, [4])
    is_now(script, 1, 1, 2)
    script.block(start(key, 1, DAB, [1]), 0, [1])
    is_now(script, 1, 1, 2)
    script.blocks(list_of(key, 0, 128))
    is_now(script, 2, 1, 3)
    script.block(start(key, 0, DAB, [1]), 0, [2])
    is_now(script, 2, 1, 130)
    script.block(start(key, 1, DAB, [1]), 0, [2])
    is_now(script, 2, 2, 3)


def every_change(script):
    """One block that raises or keeps the sets, raises, keeps or lowers those that are on, and so the identifiers.

    No block lowers the first figure: a shown set goes by forgetting alone.
    """
    fresh, switched, renewed = 0x2001, 0x2002, 0x2003
    for sets, on, identifiers in product((0, 1), (-1, 0, 1), (-1, 0, 1)):
        was_on = 0 if on == 1 else 1
        length = 3 + identifiers - sets                 # of what comes in the place of three
        script.load(sheet_bytes([2, switched, was_on, 0, 2, *pairs(2), renewed, 1, 0, 3, *pairs(3)]), 0)
        lists = [long(fresh, 0, DAB, [1]), long(renewed, 1, DAB, numbers(renewed, length))]
        script.block(block(linking_fig(0, 0, 0, *lists)), 0, [1, 1])
        is_now(script, 2, 1 + was_on, 5)
        fields = [short(switched, was_on + on), long(renewed, 1, DAB, [1])] + [long(fresh, 0, DAB, [1])] * sets
        script.block(block(linking_fig(0, 0, 0, *fields)), 0, [7, 2] + [2] * sets)
        is_now(script, 2 + sets, 1 + was_on + on, 5 + identifiers)


def in_one_block(script):
    """Several sets shown in one block, several starts of one key, and what a later field of the block turns."""
    script.empty()
    four = [long(0x2001 + place, place % 2, RDS, [1, 2 + place]) for place in range(4)]
    script.block(block(linking_fig(0, 0, 0, *four)), 0, [1] * 4)
    is_now(script, 0, 0, 0)
    script.block(block(linking_fig(0, 0, 0, *four)), 0, [2] * 4)
    is_now(script, 4, 2, 8)
    script.empty()
    lists = [long(0x2001, place % 2, DAB, numbers(0x2001, length)) for place, length in enumerate((1, 4, 2))]
    script.block(block(linking_fig(0, 0, 0, *lists)), 0, [1, 2, 2])
    is_now(script, 1, 0, 4)
    script.block(block(linking_fig(1, 0, 0, long(0x2001, 1, DAB, [1])), linking_fig(0, 0, 0, lists[1]),
                       linking_fig(1, 0, 0, short(0x2001, 0))), 0, [3, 2, 7])
    is_now(script, 1, 0, 3)
    fields = [long(key, on, DAB, [1]) for key, on in ((0x2001, 1), (0x2002, 1), (0x2002, 0), (0x2001, 1))]
    script.block(block(linking_fig(0, 0, 0, *fields)), 0, [2, 1, 2, 2])
    is_now(script, 2, 1, 2)
    script.block(block(fig_for(0x2001, 0, fields[1]), fig_for(0xA002, 0, fields[1]), fig_for(0xA002, 0, fields[1])),
                 0, [2, 1, 2])
    is_now(script, 3, 3, 3)


def every_width(script):
    """A set of each flag, OE, P/D, hard or soft, ILS, with numbers of its full width; each is turned on in the end."""
    script.empty()
    keys = [flags | 0x0F1 + place for place, flags in enumerate(FLAGS)]
    on = identifiers = 0
    for place, key in enumerate(keys):
        state_now, length = place // 3 % 2, 1 + place % 5
        shown(script, key, state_now, length)
        on, identifiers = on + state_now, identifiers + length
        is_now(script, 1 + place, on, identifiers)
    script.show()
    is_now(script, 16, 7, 46)
    for place, key in enumerate(keys):
        script.block(state(key, 1, place % 2), 0, [7])
        on += 1 - place // 3 % 2
        if place % 3 == 0:
            is_now(script, 16, on, 46)
    assert on == 16


# Scenes of forgetting, loading and writing


def forgotten(script):
    """Keys shown on, shown off, held and not shown, not held; twice; all."""
    script.empty()
    for key, on, length in ((0x2001, 1, 2), (0x2002, 0, 3), (0x3003, 1, 4), (0x4004, 0, 5), (0x8005, 1, 6)):
        shown(script, key, on, length)
    script.blocks([start(0x2006, 1, DAB, [1, 2]), start(0x0001, 1, DAB, [3])])
    is_now(script, 5, 3, 20)
    for text, outcome, figures in (
            ("2006", 0, (5, 3, 20)), ("2006", 7, (5, 3, 20)), ("2007", 7, (5, 3, 20)), ("12001", 7, (5, 3, 20)),
            ("2001", 0, (4, 2, 18)), ("2001", 7, (4, 2, 18)), ("4004", 0, (3, 2, 13)), ("0", 7, (3, 2, 13)),
            ("FFFFFFFF", 7, (3, 2, 13)), ("2002", 0, (2, 2, 10)), ("8005", 0, (1, 1, 4)), ("1", 0, (1, 1, 4)),
            ("3003", 0, (0, 0, 0)), ("3003", 7, (0, 0, 0))):
        script.expect("f " + text, outcome)
        is_now(script, *figures)
    assert script.raw(b"t") == ["t 0 #12"]
    shown(script, 0x2001, 1, 2)             # forgotten while its list is open: nothing is left of it
    script.expect("f 2001", 0)
    is_now(script, 0, 0, 0)
    script.block(start(0x2001, 1, DAB, [1]), 0, [1])
    is_now(script, 0, 0, 0)
    script.block(damaged(EXAMPLE), 2)       # held with neither a set nor a list
    script.expect("f 2001", 0)
    is_now(script, 0, 0, 0)


def full_table(script):
    """32 keys: a 33rd finds no room, and counts once it does."""
    script.empty()
    fields = [long(0x2001 + place, place % 2, DAB, [1, 2]) for place in range(32)]
    starts = [block(linking_fig(0, 0, 0, *fields[first:first + 2])) for first in range(0, 32, 2)]
    script.blocks(starts)
    is_now(script, 0, 0, 0)
    for place, data in enumerate(starts, 1):
        script.block(data, 0, [2, 2])
        is_now(script, 2 * place, place, 4 * place)
    for data, note in ((start(0x2021, 1, DAB, [1]), 5), (start(0x2021, 1, DAB, [1]), 5),
                       (more(0x2021, 1, DAB, [1]), 8), (state(0x2021, 1), 8)):
        script.block(data, 0, [note])
        is_now(script, 32, 16, 64)
    both = block(linking_fig(0, 0, 0, long(0x2021, 1, DAB, [1]), long(0x2001, 1, DAB, [1])))
    script.block(both, 0, [5, 2])
    is_now(script, 32, 17, 64)
    script.expect("f 2002", 0)
    is_now(script, 31, 16, 62)
    script.block(both, 0, [1, 2])
    is_now(script, 31, 16, 61)
    script.block(both, 0, [2, 2])
    is_now(script, 32, 17, 62)
    script.show()


def figures_in(items):
    """The figures that the numbers of a sheet say."""
    place, on, identifiers = 1, 0, 0
    for _ in range(items[0]):
        on, identifiers = on + items[place + 1], identifiers + items[place + 3]
        place += 4 + 2 * items[place + 3]
    return items[0], on, identifiers


def loads(script):
    """After a load the figures are those of the loaded table; after a refused one they are 0."""
    assert figures_in(ONE) == (1, 1, 2) and figures_in(MIXED) == (3, 2, 7) and figures_in(many_sets(32)) == (32, 16, 32)
    prepared(script, 0x2004, 1)
    for items in GOOD_SHEETS + other.GOOD_SHEETS[6:] + other.OLD_SHEETS[5:] + [many_sets(31), many_sets(32)]:
        script.load(sheet_bytes(items), 0)
        is_now(script, *figures_in(items))
    for items in BAD_SHEETS[::7] + other.BAD_SHEETS[::7] + [many_sets(33), long_sheet(0), long_sheet(129)]:
        script.load(sheet_bytes(MIXED), 0)
        is_now(script, 3, 2, 7)
        script.load(sheet_bytes(items), 10)
        is_now(script, 0, 0, 0)
    data = sheet_bytes(MIXED)
    for cut in (data[:-1], data[:-2], data[:1], data + b"\0"):
        script.load(data, 0)
        script.load(cut, 10)
        is_now(script, 0, 0, 0)
    script.load(data, 0)                    # and reading goes on from there
    for key, note, figures in ((0x2004, 1, (3, 2, 7)), (0x3004, 1, (3, 3, 7)), (0x2004, 2, (3, 3, 8)),
                               (0x3004, 2, (3, 3, 10)), (0x2005, 1, (3, 3, 10)), (0x2005, 2, (4, 4, 14))):
        script.block(start(key, 1, DAB, [1, 2, 3, 4]), 0, [note])
        is_now(script, *figures)
    script.expect("f 4004", 0)
    is_now(script, 3, 3, 12)


def largest(script):
    """32 sets of 128 identifiers, all on, the last one by reading; and down again."""
    items = [31]
    for key in sorted(flags | lsn for lsn in (0x100, 0x101) for flags in FLAGS)[:31]:
        items += [key, 1, 0, 128, *pairs(128)]
    script.load(sheet_bytes(items), 0)
    is_now(script, 31, 31, 3968)
    shown(script, 0xFFFF, 1, 128)
    is_now(script, 32, 32, 4096)
    script.block(start(0x0001, 1, DAB, [1]), 0, [5])
    is_now(script, 32, 32, 4096)
    for way in FIGURES:
        assert script.do("x %d" % way) == "x"
        is_wrong(script)
        script.expect("c 100 128 128", 9)
        script.do("u")
        is_now(script, 32, 32, 4096)
    script.block(state(0x0100, 0), 0, [7])
    is_now(script, 32, 31, 4096)
    script.block(start(0xFFFF, 1, DAB, [1]), 0, [2])        # of the six of a start
    is_now(script, 32, 31, 3974)
    script.expect("f 100", 0)
    is_now(script, 31, 31, 3846)
    script.expect("f 101", 0)
    is_now(script, 30, 30, 3718)


def written(script):
    """What takes a table and leaves it leaves the figures: copying, writing, printing, refused or not."""
    script.empty()
    for key, on, length in ((0x2001, 1, 13), (0x3002, 0, 9), (0x4003, 1, 7), (0x8004, 0, 3)):
        shown(script, key, on, length)
    script.block(start(0x2005, 1, DAB, [1]), 0, [1])
    is_now(script, 4, 2, 32)
    sheet, length = script.sheet(), script.air_length()
    for text, outcome in (("c 2001 13 13", 0), ("c 2001 12 13", 8), ("c 2005 9 9", 11), ("c 2006 9 9", 7),
                          ("a %d" % length, 0), ("a %d" % (length - 1), 8),
                          ("s %d" % len(sheet), 0), ("s %d" % (len(sheet) - 1), 8)):
        script.expect(text, outcome)
        is_now(script, 4, 2, 32)
    script.show()
    is_now(script, 4, 2, 32)
    blocks = other.for_air(script)
    script.empty()                          # what is written for air, read twice
    is_now(script, 0, 0, 0)
    script.blocks(blocks)
    is_now(script, 0, 0, 0)
    script.blocks(blocks)
    is_now(script, 4, 2, 32)
    script.empty()
    is_now(script, 0, 0, 0)
    script.load(sheet, 0)
    is_now(script, 4, 2, 32)


# Scenes of spoiling


def mixed_table(script):
    """A table that can be spoiled in every way."""
    script.load(sheet_bytes(MIXED), 0)
    script.block(start(0x3004, 0, DAB, [7, 8]), 0, [1])


def spoil(script, *ways):
    """Spoils a table in ways that apply, one after another."""
    for way in ways:
        assert script.do("x %d" % way) == "x", ways


def each_figure(script):
    """A figure one higher is 9 to every command that takes a table, also of the empty table; `u` takes it back."""
    for way in FIGURES:
        mixed_table(script)
        is_now(script, 3, 2, 7)
        spoil(script, way)
        is_wrong(script)
        scenes.table_commands(script)
        is_wrong(script)                    # none of them put it right
        script.do("u")
        is_now(script, 3, 2, 7)
        for data, figures in ((sheet_bytes([0]), (0, 0, 0)), (sheet_bytes(many_sets(32)), (32, 16, 32))):
            script.load(data, 0)
            spoil(script, way)
            script.block(EXAMPLE, 9, place=0)
            script.block(b"", 9, place=0)
            is_wrong(script)
            script.do("u")
            is_now(script, *figures)


def repaired(script):
    """`e` and `l` take no table: after them the figures are right, and `u` goes back to those before the spoiling."""
    for way in FIGURES:
        mixed_table(script)
        for repair, figures in ((lambda: script.load(sheet_bytes(ONE), 0), (1, 1, 2)), (script.empty, (0, 0, 0)),
                                (lambda: script.load(b"", 10), (0, 0, 0))):
            spoil(script, way)
            repair()
            is_now(script, *figures)
            script.block(EXAMPLE, 0, [1])
            script.do("u")
            is_now(script, 3, 2, 7)
        script.block(start(0x3004, 1, DAB, [7]), 0, [2])
        is_now(script, 3, 3, 7)
        script.do("u")                      # once more
        is_now(script, 3, 2, 7)


def each_way(script):
    """Every way is 9 to `totals` as well, and `u` brings the figures back."""
    mixed_table(script)
    for way in WAYS:
        spoil(script, way)
        is_wrong(script)
        script.do("u")
        is_now(script, 3, 2, 7)


def spoiled_twice(script):
    """Ways on a table that is spoiled already; `u` takes the last one back, once. Two swaps alone give a good table."""
    for ways in ((22, 22), (22, 23), (23, 24), (24, 22), (24, 24), (1, 22), (22, 1), (2, 23), (24, 2), (7, 24), (23, 7),
                 (24, 16), (1, 22, 1), (22, 23, 24)):
        mixed_table(script)
        spoil(script, *ways)
        is_wrong(script)
        script.do("u")
        is_wrong(script)
    script.do("u")
    is_wrong(script)
    mixed_table(script)
    spoil(script, 1, 1)
    is_now(script, 3, 2, 7)
    spoil(script, 22)
    is_wrong(script)
    script.do("u")
    is_now(script, 3, 2, 7)


# Lines that are no command

NOT_COMMANDS = [
    "totals 3", "totals ", " totals", "totals totals", "totals\t", "totals\r", "totals\0", "totals 0 0 0", "totals?",
    "totalss", "total", "tot", "to", "tt", "t totals", "Totals", "TOTALS", "totalS", "totals\x85", "t0tals", "totals  ",
    "e totals", "b totals", "xtotals", "x totals", "totals" * 11,
    "x 17", "x 18", "x 19", "x 20", "x 21", "x 27", "x 28", "x 00000000022", "x 22 ", "x  22", "x 22 1", "x +22",
    "x 22x", "x 16h", "x 220", "x 4294967318"]


def grammar(script):
    """Lines answered `?`, on a good table and on a spoiled one; ways with zeros before them."""
    script.empty()
    script.blocks([EXAMPLE, EXAMPLE])
    for text in NOT_COMMANDS:
        assert script.raw(text.encode("utf-8")) == ["?"], text
        script.seen["?"] += 1
    assert script.raw(b"") == []
    is_now(script, 1, 1, 2)
    assert script.do("x 0000000024") == "x"
    for text in NOT_COMMANDS[:3] + ["x 17", "x 21", "x 27"]:
        assert script.raw(text.encode("utf-8")) == ["?"], text
    is_wrong(script)
    script.do("u")
    is_now(script, 1, 1, 2)


# Random ones


def counted(lines):
    """The figures of a printed table: the lines with a set, those of them that say on, the words of identifiers."""
    rows = [line.split(" ") for line in lines[1:] if " shown - " not in line]
    return len(rows), sum(row[1] == "on" for row in rows), sum(row.index("open") - 5 for row in rows)


def ask(script):
    """Asks for the totals, which are counted from what `t` would print."""
    lines = script.replay.answer(b"t")
    if lines == ["t 9"]:
        is_wrong(script)
    else:
        is_now(script, *counted(lines))


def random_step(script, dice, keys):
    """Anything that may happen to a table; what is spoiled is put right again."""
    what = dice.below(100)
    if what < 68:
        script.block(block(*random_figs(dice, keys)), 0)
    elif what < 73:
        outcome = dice.between(2, 6)
        script.block(faulty_block(dice, keys, [outcome]), outcome)
    elif what < 75:
        script.block(block(*random_figs(dice, keys))[:dice.below(32)], 1)
    elif what < 84:
        script.do("f %X" % dice.pick(keys))
    elif what < 88:
        if script.do("x %d" % dice.pick(WAYS)) == "x":
            ask(script)
            script.do(dice.pick(["u", "u", "u", "e"]))
    elif what < 90:
        script.load(script.sheet(), 0)
    elif what < 92:
        script.load(sheet_bytes(dice.pick(GOOD_SHEETS + other.GOOD_SHEETS)), 0)
    elif what < 93:
        script.load(sheet_bytes(dice.pick(BAD_SHEETS)), 10)
    elif what < 97:
        script.do(dice.pick(["c %X 9 9" % dice.pick(keys), "a 999", "s 999"]))
    else:
        script.show()


def random_scenes(script, dice, steps):
    """Tables of few keys and of many, the totals after every step."""
    for count in (1, 2, 4, 8, 20, 40):
        keys = random_keys(dice, count)
        script.load(sheet_bytes(many_sets(28 if count == 40 else 0)), 0)
        for _ in range(steps // 6):
            random_step(script, dice, keys)
            ask(script)
