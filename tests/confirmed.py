"""Confirmed: the scenes of confirmed.in.

Document 02, R-9.  The table counts its blocks, and each set has the number of
the block at which it was last shown.  What they are after a step is foretold
here from what the step does; counting.py holds them to the notes besides.
"""

import cases
import other
import scenes
from counting import STOP
from making import block, block_of, damaged, fig_for, linking_fig, long, more, short, start, state, with_check
from material import (BAD_SHEETS, DAB, DRM, GOOD_SHEETS, ONE, RDS, faulty_block, many_sets, random_figs, random_keys,
                      sheet_bytes)
from scenes import EXAMPLE
from totals import REFUSED, WAYS as OLD_WAYS, list_of

ABOVE, WITHOUT = 25, 26         # the ways that make a number wrong
WAYS = (*OLD_WAYS, ABOVE, WITHOUT)
IGNORED = [b"", EXAMPLE[:1], EXAMPLE[:31], EXAMPLE + b"\0", EXAMPLE * 2]        # answered 1

# The table of scenes.mixed_table, which can be spoiled in every way: eight blocks, the last three show a set each.
MIXED = {0x2001: 0, 0x2004: 6, 0x3004: 7, 0x4004: 8}


def is_now(script, blocks, numbers):
    """Prints the table: its count is foretold, and the number of every key that it holds, 0 for none."""
    head, *lines = script.done("t")
    assert head == "t %d #%d" % (len(numbers), blocks), (head, blocks)
    said = [(int(words[0], 16), words[2]) for words in (line.split(" ") for line in lines)]
    assert said == [(key, "#%d" % numbers[key]) for key in sorted(numbers)], (lines, numbers)


def is_wrong(script):
    """Prints a table that breaks the rules."""
    assert script.done("t") == ["t 9"]


def copied(script, key, number):
    """Copies a set out; its number is foretold."""
    words = script.do("c %X 128 128" % key).split(" ")
    assert words[1] == "0" and words[5] == "#%d" % number, (words, number)


def count(script, number):
    """Sets the table's own count."""
    assert script.do("count %d" % number) == "count"


def spoil(script, *ways):
    """Spoils a table in ways that apply, one after another."""
    for way in ways:
        assert script.do("x %d" % way) == "x", ways


def steps(script, blocks, numbers, rows):
    """Blocks one after another, each (bytes, notes or outcome, the numbers that are new then); the table after each."""
    numbers = dict(numbers)
    for data, answer, new in rows:
        outcome, notes = (0, answer) if isinstance(answer, list) else (answer, None)
        script.block(data, outcome, notes)
        blocks += outcome != 1
        numbers.update(new)
        is_now(script, blocks, numbers)
    return blocks, numbers


# Scenes of reading


def by_hand(script):
    """Document 01's first example and an ensemble of document 003, with every answer."""
    shown, opened = "shown 1 D44B1 R44B1", "open 1 D44B1 R44B1"
    assert script.done("t") == ["t 0 #0"]       # before any other command
    script.empty()
    for data, answer, lines in (
            (EXAMPLE, "b 0 1", ["t 1 #1", "2004 on #0 shown - " + opened]),
            (EXAMPLE, "b 0 2", ["t 1 #2", "2004 on #2 %s %s" % (shown, opened)]),
            (state(0x2004, 0), "b 0 7", ["t 1 #3", "2004 off #2 %s %s" % (shown, opened)]),
            (EXAMPLE, "b 0 2", ["t 1 #4", "2004 on #4 %s %s" % (shown, opened)]),
            (damaged(EXAMPLE), "b 2 @0", ["t 1 #5", "2004 on #4 %s open -" % shown]),
            (EXAMPLE[:31], "b 1 @0", ["t 1 #5", "2004 on #4 %s open -" % shown]),
            (EXAMPLE, "b 0 1", ["t 1 #6", "2004 on #4 %s %s" % (shown, opened)]),
            (EXAMPLE, "b 0 2", ["t 1 #7", "2004 on #7 %s %s" % (shown, opened)])):
        assert script.done("b " + data.hex().upper()) == [answer]
        assert script.done("t") == lines
    assert script.done("c 2004 2 2") == ["c 0 2004 on 1 #7 D44B1 R44B1 kept"]
    assert script.done("count 120") == ["count"]
    assert script.done("t") == ["t 1 #120", "2004 on #7 %s %s" % (shown, opened)]
    assert script.done("c 2004 2 2") == ["c 0 2004 on 1 #7 D44B1 R44B1 kept"]
    assert script.done("f 2004") == ["f 0"]
    assert script.done("t") == ["t 0 #120"]
    script.empty()                              # four blocks a round: one set, its rest, four sets, three
    assert script.done("t") == ["t 0 #0"]
    script.blocks(cases.swiss_cycle(0x4001, 0) * 2)
    numbers = {0x2001: 5, 0x2004: 7, 0x2005: 7, 0x2006: 7, 0x2007: 7, 0x2008: 8, 0x2009: 8, 0x200A: 8}
    is_now(script, 8, numbers)
    script.block(cases.swiss_states(0x4001, 1), 0, [7] * 8)
    is_now(script, 9, numbers)
    for key in sorted(numbers):
        copied(script, key, numbers[key])


def each_outcome(script):
    """Every outcome, several ways each: counted but for 1; the number of the shown set stays, whatever else goes."""
    script.empty()
    after = steps(script, 0, {}, [(EXAMPLE, [1], {0x2004: 0}), (EXAMPLE, [2], {0x2004: 2}),
                                  (start(0x3005, 1, DAB, [1]), [1], {0x3005: 0})])
    fourteen = block(linking_fig(1, 0, 0, *[short(0x2004, place % 2) for place in range(14)]))
    taken = [(block_of(""), []), (with_check(b"\x1d\x01".ljust(30, b"\x55")), []), (block(linking_fig(0, 0, 0)), []),
             (block_of("21 05 01 86 E1 06"), []), (fourteen, [7] * 14), (state(0x2004, 1), [7]),
             (state(0x2005, 1), [8]), (more(0x2005, 1, DAB, [1]), [8]), (more(0x2004, 1, RDS, [7]), [3]),
             (more(0x2004, 1, DRM, []), [3])]
    refused = [(damaged(EXAMPLE), 2), (damaged(EXAMPLE, 255), 2), (block_of("00"), 3), (block_of("1E"), 3),
               (block_of("02 06 20"), 4), (block_of("04 26 36 E0 04"), 4), (block_of("03 06 20 00"), 5),
               (cases.A25, 5), (block_of("04 06 E0 04 00"), 6), (block_of("04 46 C1 00 20"), 6),
               (block_of("04 06 E0 04 00 03 06 20 00 02 06 20 1F"), 3), (block_of("06 06 E0 04 00 20 00"), 5)]
    refused += [(data, outcome) for outcome, data in REFUSED.items()]
    ignored = [(data, 1) for data in IGNORED]
    after = steps(script, *after, [(data, answer, {}) for data, answer in ignored + taken + ignored[1:3] + refused])
    assert after[0] == 3 + len(taken) + len(refused)
    steps(script, *after, [(data, answer, {}) for data, answer in ignored])
    copied(script, 0x2004, 2)


def start_and_showing(script):
    """The number is that of the next start, not of the start whose list is shown, nor of a continuation."""
    first, *rest = list_of(0x2004, 1, 40)           # four blocks
    there, gone = start(0x2005, 1, DAB, [5]), start(0x2006, 0, DAB, [6])
    script.empty()
    after = steps(script, 0, {}, [(first, [1], {0x2004: 0})] + [(data, [3], {}) for data in rest])
    after = steps(script, *after, [(there, [1], {0x2005: 0}), (first, [2], {0x2004: 6}), (gone, [1], {0x2006: 0})])
    after = steps(script, *after, [(data, [3], {}) for data in rest])
    after = steps(script, *after, [(there, [2], {0x2005: 11}), (first, [2], {0x2004: 12}), (gone, [2], {0x2006: 13})])
    assert after == (13, {0x2004: 12, 0x2005: 11, 0x2006: 13})
    for key, number in after[1].items():
        copied(script, key, number)


def again(script):
    """A set that comes to be shown again with the same identifiers has the new number, as has one with others."""
    for key in (0x2004, 0x3004, 0x4004, 0x8004):
        one, two = start(key, 1, DAB, [5, 6]), start(key, 0, DAB, [6, 5])
        script.empty()
        rows = [(one, [1], {key: 0})] + [(one, [2], {key: number}) for number in (2, 3, 4, 5)]
        rows += [(two, [2], {key: 6}), (one, [2], {key: 7}), (two, [2], {key: 8}), (two, [2], {key: 9})]
        after = steps(script, 0, {}, rows)
        words = script.do("c %X 2 2" % key).split(" ")
        script.block(two, 0, [2])                   # nothing else is new
        assert script.do("c %X 2 2" % key).split(" ") == words[:5] + ["#10"] + words[6:]
        is_now(script, 10, {key: 10})


def in_one_block(script):
    """Two showings of one key in one block, several keys in one block, and what stands around them in it."""
    one, two = long(0x2001, 1, DAB, [1]), long(0x2001, 0, RDS, [1, 2])
    four = [long(0x2001 + place, 1, DAB, [place]) for place in range(4)]
    script.empty()
    rows = [(block(linking_fig(0, 0, 0, one, two, one)), [1, 2, 2], {0x2001: 1}),
            (block(linking_fig(0, 0, 0, two, one, two)), [2, 2, 2], {0x2001: 2}),
            (block(linking_fig(0, 0, 0, two, two)), [2, 2], {0x2001: 3}),
            (block(linking_fig(0, 0, 0, *four)), [2, 1, 1, 1], {0x2001: 4, 0x2002: 0, 0x2003: 0, 0x2004: 0}),
            (block(linking_fig(0, 0, 0, *four[1:3])), [2, 2], {0x2002: 5, 0x2003: 5}),
            (block(linking_fig(0, 0, 0, *four)), [2] * 4, {0x2001: 6, 0x2002: 6, 0x2003: 6, 0x2004: 6}),
            (block(linking_fig(1, 0, 0, one, short(0x2002, 0)), linking_fig(0, 0, 0, four[2])), [3, 7, 2], {0x2003: 7}),
            (block(linking_fig(0, 0, 0, four[3]), linking_fig(1, 0, 0, four[3], short(0x2004, 0))), [2, 3, 7],
             {0x2004: 8}),
            (block(fig_for(0x2001, 0, one), fig_for(0xA001, 0, one), fig_for(0xA001, 0, one)), [2, 1, 2],
             {0x2001: 9, 0xA001: 9})]
    blocks, numbers = steps(script, 0, {}, rows)
    assert (blocks, numbers) == (9, {0x2001: 9, 0x2002: 6, 0x2003: 7, 0x2004: 8, 0xA001: 9})


def between(script):
    """A refused block between two starts drops the list and is counted; one of another length is as if it were none."""
    for outcome, data in REFUSED.items():
        script.empty()
        steps(script, 0, {}, [(EXAMPLE, [1], {0x2004: 0}), (data, outcome, {}), (EXAMPLE, [1], {}), (data, outcome, {}),
                              (data, outcome, {}), (EXAMPLE, [1], {}), (EXAMPLE, [2], {0x2004: 7}), (data, outcome, {}),
                              (EXAMPLE, [1], {}), (EXAMPLE, [2], {0x2004: 10})])
    for data in IGNORED:
        script.empty()
        steps(script, 0, {}, [(data, 1, {}), (EXAMPLE, [1], {0x2004: 0}), (data, 1, {}), (EXAMPLE, [2], {0x2004: 2}),
                              (data, 1, {}), (data, 1, {}), (EXAMPLE, [2], {0x2004: 3})])


def leaving(script):
    """What leaves the number: states, continuations with an open list or without, lists that are opened or dropped."""
    for key in (0x2004, 0xB004):
        one = start(key, 1, DAB, [1])
        script.empty()
        rows = [(one, [1], {key: 0}), (one, [2], {key: 2})]
        rows += [(state(key, on, continued), [7], {}) for on in (0, 1) for continued in (0, 1)]
        rows += [(more(key, 0, DAB, [2]), [3], {}), (more(key, 1, RDS, []), [3], {}), (damaged(one), 2, {}),
                 (more(key, 0, DAB, [2]), [4], {}), (more(key, 1, DAB, []), [4], {}), (state(key, 1), [7], {}),
                 (one, [1], {}), (state(key, 0), [7], {}), (one, [2], {key: 15})]
        assert steps(script, 0, {}, rows) == (15, {key: 15})
        blocks = list_of(key, 1, 128)               # one too many: the list goes, and with it its showing
        script.blocks(blocks)
        last = 15 + len(blocks)
        is_now(script, last, {key: 16})
        steps(script, last, {key: 16}, [(more(key, 0, DAB, [1]), [6], {}), (more(key, 0, DAB, [1]), [4], {}),
                                        (one, [1], {}), (one, [2], {key: last + 4})])


def places(script):
    """Keys that are opened and forgotten before, between and after others: each number goes with its key."""
    script.empty()
    blocks, numbers = 0, {}
    for key in (0x2005, 0xA001, 0x0003, 0x4004, 0x2001, 0x8FFF, 0x2006):
        rows = [(start(key, 1, DAB, [1]), [1], {key: 0}), (start(key, 0, DAB, [2]), [2], {key: blocks + 2})]
        blocks, numbers = steps(script, blocks, numbers, rows)
    assert numbers == {0x2005: 2, 0xA001: 4, 0x0003: 6, 0x4004: 8, 0x2001: 10, 0x8FFF: 12, 0x2006: 14}
    for key, number in numbers.items():
        copied(script, key, number)
    for key in (0x2005, 0x0003, 0xA001, 0x8FFF):    # forgetting is no block
        script.expect("f %X" % key, 0)
        script.expect("f %X" % key, 7)
        numbers = {held: numbers[held] for held in numbers if held != key}
        is_now(script, 14, numbers)
    for key, number in numbers.items():
        copied(script, key, number)
    steps(script, 14, numbers, [(start(0x2005, 1, DAB, [1]), [1], {0x2005: 0}), (state(0x2005, 0), [7], {}),
                                (start(0x2005, 1, DAB, [1]), [2], {0x2005: 17}),
                                (start(0x2001, 1, DAB, [1]), [2], {0x2001: 18})])


def forgotten(script):
    """Forgotten and shown anew; all forgotten: the count stays, and the table is not the empty one."""
    script.empty()
    steps(script, 0, {}, [(EXAMPLE, [1], {0x2004: 0}), (EXAMPLE, [2], {0x2004: 2})])
    script.expect("f 2004", 0)
    is_now(script, 2, {})
    script.expect("f 2004", 7)
    script.expect("f 12004", 7)
    is_now(script, 2, {})
    steps(script, 2, {}, [(state(0x2004, 1), [8], {}), (EXAMPLE, [1], {0x2004: 0}), (EXAMPLE, [2], {0x2004: 5})])
    script.expect("f 2004", 0)                      # forgotten while its list is open
    steps(script, 5, {}, [(EXAMPLE, [1], {0x2004: 0})])
    script.expect("f 2004", 0)                      # held without a set
    is_now(script, 6, {})
    assert script.do("s 1") == "s 0 00 kept" and script.do("totals") == "totals 0 0 0"
    script.empty()
    is_now(script, 0, {})


def full_table(script):
    """32 sets that were shown at as many blocks; a 33rd key is counted with its block and has no number."""
    script.empty()
    late = start(0x2021, 1, DAB, [1])
    starts = [start(0x2001 + place, 1, DAB, [1]) for place in range(32)]
    script.blocks(starts)
    numbers = {0x2001 + place: 0 for place in range(32)}
    is_now(script, 32, numbers)
    for place in reversed(range(32)):
        script.block(starts[place], 0, [2])
        numbers[0x2001 + place] = 64 - place
    is_now(script, 64, numbers)
    blocks, numbers = steps(script, 64, numbers, [(late, [5], {}), (late, [5], {}),
                                                  (more(0x2021, 1, DAB, [1]), [8], {}),
                                                  (starts[9], [2], {0x200A: 68})])
    both = block(linking_fig(0, 0, 0, long(0x2021, 1, DAB, [1]), long(0x2011, 1, DAB, [1])))
    blocks, numbers = steps(script, blocks, numbers, [(both, [5, 2], {0x2011: 69})])
    script.expect("f 2007", 0)
    del numbers[0x2007]
    blocks, numbers = steps(script, blocks, numbers, [(both, [1, 2], {0x2021: 0, 0x2011: 70}),
                                                      (both, [2, 2], {0x2021: 71, 0x2011: 71}),
                                                      (start(0x2007, 1, DAB, [1]), [5], {}), (damaged(late), 2, {})])
    for key in (0x2001, 0x2008, 0x2020, 0x2021):
        copied(script, key, numbers[key])
    assert blocks == 73 and numbers[0x2008] == 57


# Scenes of loading, writing and counting


def loads(script):
    """After a load the count and all numbers are 0, and blocks count from 1 again; a refused one leaves no set."""
    script.empty()
    script.blocks([EXAMPLE] * 5)
    is_now(script, 5, {0x2004: 5})
    sheet = script.sheet()
    script.load(sheet, 0)
    is_now(script, 0, {0x2004: 0})
    copied(script, 0x2004, 0)                       # a shown set without a number
    assert script.sheet() == sheet
    steps(script, 0, {0x2004: 0}, [(state(0x2004, 0), [7], {}), (damaged(EXAMPLE), 2, {}), (EXAMPLE[:31], 1, {}),
                                   (EXAMPLE, [1], {}), (EXAMPLE, [2], {0x2004: 4})])
    for items in GOOD_SHEETS[:4] + [many_sets(3)]:
        script.load(sheet_bytes(items), 0)
        is_now(script, 0, {key: 0 for key in script.table()})
        script.block(EXAMPLE, 0, [1])
        script.block(EXAMPLE, 0, [2])
        is_now(script, 2, {**{key: 0 for key in script.table()}, 0x2004: 2})
    for items in BAD_SHEETS[::9] + [many_sets(33)]:
        script.blocks([EXAMPLE] * 2)
        script.load(sheet_bytes(items), 10)
        is_now(script, 0, {})
        steps(script, 0, {}, [(EXAMPLE, [1], {0x2004: 0}), (EXAMPLE, [2], {0x2004: 2})])
    script.load(sheet_bytes(many_sets(32)), 0)      # a full table without a number
    numbers = {0x2001 + place: 0 for place in range(32)}
    is_now(script, 0, numbers)
    blocks, numbers = steps(script, 0, numbers, [(start(0x2009, 1, DAB, [1]), [1], {}),
                                                 (start(0x2009, 1, DAB, [1]), [2], {0x2009: 2}),
                                                 (start(0x2021, 1, DAB, [1]), [5], {})])
    script.expect("f 2009", 0)
    del numbers[0x2009]
    is_now(script, 3, numbers)
    count(script, STOP)
    script.load(sheet_bytes(ONE), 0)
    is_now(script, 0, {0x2004: 0})
    count(script, STOP)
    script.load(b"", 10)
    is_now(script, 0, {})


def written(script):
    """Neither sheet nor blocks for air nor totals know of the numbers; what comes back has its own."""
    scenes.mixed_table(script)
    is_now(script, 8, MIXED)
    asked = ["s 100", "a 200", "totals"]
    answers = [script.do(text) for text in asked]
    for number in (8, 9, 4294967294, STOP):
        count(script, number)
        is_now(script, number, MIXED)
        assert [script.do(text) for text in asked] == answers
    count(script, 8)
    script.blocks([start(0x2004, 1, RDS, [5, 5]), more(0x2004, 1, DRM, [6]), start(0x2004, 1, RDS, [7])])
    is_now(script, 11, {**MIXED, 0x2004: 11})       # the same set, at another block
    assert [script.do(text) for text in asked] == answers
    sheet, blocks = script.sheet(), other.just_enough(script)
    is_now(script, 11, {**MIXED, 0x2004: 11})
    script.empty()                                  # two blocks of 2004, one of 3004, one of 4004
    script.blocks(blocks + blocks)
    is_now(script, 8, {0x2004: 5, 0x3004: 7, 0x4004: 8})
    assert script.sheet() == sheet
    script.load(sheet, 0)
    is_now(script, 0, {0x2004: 0, 0x3004: 0, 0x4004: 0})
    script.blocks(blocks + blocks)
    is_now(script, 8, {0x2004: 5, 0x3004: 7, 0x4004: 8})


def counts(script):
    """`count` sets the count whatever the numbers are; below one of them the table is a bad one until it is raised."""
    script.empty()
    for number in (5, 0, 4294967295, 7):
        count(script, number)
        is_now(script, number, {})
    steps(script, 7, {}, [(EXAMPLE, [1], {0x2004: 0}), (EXAMPLE, [2], {0x2004: 9}),
                          (start(0x3005, 1, DAB, [1]), [1], {0x3005: 0}),
                          (start(0x3005, 1, DAB, [1]), [2], {0x3005: 11})])
    for number in (12, 11, 100, 4294967294):
        count(script, number)
        is_now(script, number, {0x2004: 9, 0x3005: 11})
    for number in (10, 9, 8, 1, 0):
        count(script, number)
        is_wrong(script)
        if number in (10, 0):
            scenes.table_commands(script)
            script.expect("totals", 9)
        for data in [EXAMPLE, damaged(EXAMPLE)] * 2:        # not counted, else 10 would come to be 11
            script.block(data, 9, place=0)
        is_wrong(script)
        count(script, 11)
        is_now(script, 11, {0x2004: 9, 0x3005: 11})
    count(script, 10)
    script.expect("f 3005", 9)                      # the key with the number above cannot be forgotten
    count(script, 20)
    script.expect("f 3005", 0)
    count(script, 10)
    is_now(script, 10, {0x2004: 9})
    count(script, 8)
    is_wrong(script)
    script.empty()                                  # `e` and `l` take no table
    is_now(script, 0, {})
    script.blocks([EXAMPLE] * 2)
    count(script, 1)
    is_wrong(script)
    script.load(sheet_bytes(ONE), 0)
    is_now(script, 0, {0x2004: 0})
    count(script, 3)
    count(script, 0)                                # numbers that are 0 are above nothing
    steps(script, 0, {0x2004: 0}, [(EXAMPLE, [1], {}), (EXAMPLE, [2], {0x2004: 2})])


def counts_spoiled(script):
    """`count` on a spoiled table sets it too, and `u` takes it back with the rest."""
    for way in (1, 2, 7, 16, 22, ABOVE, WITHOUT):
        scenes.mixed_table(script)
        spoil(script, way)
        for number in (0, 8, 1000, STOP):
            count(script, number)
            if way == ABOVE and number > 8:
                is_now(script, number, {**MIXED, 0x2004: 9})
            else:
                is_wrong(script)
        script.do("u")
        is_now(script, 8, MIXED)
    count(script, 50)                               # what is remembered is not counted on
    script.do("u")
    is_now(script, 8, MIXED)
    spoil(script, 1)
    count(script, 70)
    script.block(EXAMPLE, 9)
    spoil(script, 1)                                # two swaps give a good table
    is_now(script, 70, MIXED)
    script.block(block_of(""), 0, [])
    is_now(script, 71, MIXED)
    script.do("u")                                  # the first swap is still made
    is_wrong(script)


def stops(script):
    """The count stops at 4,294,967,295: sets that are shown there have that number, and nothing runs over."""
    first = start(0x2001, 1, DAB, [1])
    for from_, below in ((4294967293, 2), (4294967294, 1), (STOP, 0)):
        script.empty()
        script.blocks([EXAMPLE] * 2)
        count(script, from_)
        numbers = {0x2004: 2}
        is_now(script, from_, numbers)
        for place in range(1, 6):
            script.block(EXAMPLE, 0, [2])
            numbers = {0x2004: min(from_ + place, STOP)}
            is_now(script, min(from_ + place, STOP), numbers)
        assert (from_ + below, numbers) == (STOP, {0x2004: STOP})
    rows = [(first, [1], {0x2001: 0}), (first, [2], {0x2001: STOP}), (state(0x2001, 0), [7], {})]
    rows += [(data, outcome, {}) for outcome, data in REFUSED.items()] + [(data, 1, {}) for data in IGNORED]
    rows += [(first, [1], {}), (EXAMPLE, [1], {}), (block_of(""), [], {}), (EXAMPLE, [2], {})]
    for data, answer, new in rows:                  # all of them at the stop
        outcome, notes = (0, answer) if isinstance(answer, list) else (answer, None)
        script.block(data, outcome, notes)
        numbers.update(new)
        is_now(script, STOP, numbers)
    copied(script, 0x2001, STOP)
    copied(script, 0x2004, STOP)
    assert script.do("x %d" % ABOVE) == "x ?"       # no number is above
    script.expect("f 2001", 0)
    is_now(script, STOP, {0x2004: STOP})
    count(script, 4294967294)
    is_wrong(script)
    script.block(EXAMPLE, 9)
    is_wrong(script)
    count(script, STOP)
    is_now(script, STOP, {0x2004: STOP})
    script.empty()
    count(script, 4294967292)
    for data, outcome, number in ((damaged(EXAMPLE), 2, 4294967293), (EXAMPLE[:31], 1, 4294967293),
                                  (EXAMPLE, 0, 4294967294), (block_of("00"), 3, STOP), (block_of("00"), 3, STOP)):
        script.block(data, outcome)
        is_now(script, number, {0x2004: 0} if number > 4294967293 else {})


# Demand 3


def receptions(script):
    """A recording, and again with blocks that fail their check: what is shown at a block has its number in both."""
    keys = (0x2004, 0x3005, 0x4006)
    recording = [start(keys[place % 3], 1, DAB, [1 + place // 12]) for place in range(36)]
    seen = []
    for lost in ((), (4, 10, 11, 25), tuple(range(0, 36, 5)), (1, 2, 3, 30)):
        script.empty()
        numbers, shown = dict.fromkeys(keys, 0), {}
        for place, data in enumerate(recording):
            answer = script.do("b " + (damaged(data) if place in lost else data).hex().upper())
            if answer == "b 0 2":
                numbers[keys[place % 3]] = shown[place] = place + 1
        is_now(script, 36, numbers)
        for key in keys:
            copied(script, key, numbers[key])
        seen.append(shown)
    better, *worse = seen
    assert len(better) == 33 and all(shown.items() <= better.items() and len(shown) > 5 for shown in worse)


# Scenes of spoiling


def each_number(script):
    """A number above the count and one without a set are 9 to every command that takes a table; `u` takes it back."""
    for way in (ABOVE, WITHOUT):
        scenes.mixed_table(script)
        is_now(script, 8, MIXED)
        spoil(script, way)
        is_wrong(script)
        scenes.table_commands(script)
        script.expect("totals", 9)
        is_wrong(script)                            # none of them put it right
        script.do("u")
        is_now(script, 8, MIXED)
        for repair, blocks, numbers in ((lambda: script.load(sheet_bytes(ONE), 0), 0, {0x2004: 0}),
                                        (script.empty, 0, {}), (lambda: script.load(b"", 10), 0, {})):
            spoil(script, way)
            repair()
            is_now(script, blocks, numbers)
            script.block(EXAMPLE, 0, [1])
            script.do("u")
            is_now(script, 8, MIXED)
        script.block(start(0x2004, 1, RDS, [7]), 0, [2])
        is_now(script, 9, {**MIXED, 0x2004: 9})
        script.do("u")                              # once more
        is_now(script, 8, MIXED)


def where_spoiled(script):
    """Which set gets the number above: the first that is shown. With a count that is raised it is a good one."""
    scenes.mixed_table(script)
    spoil(script, ABOVE)
    for number, good in ((8, False), (9, True), (7, False), (100, True), (9, True)):
        count(script, number)
        if good:
            is_now(script, number, {**MIXED, 0x2004: 9})
        else:
            is_wrong(script)
    spoil(script, ABOVE)
    count(script, 10)
    is_now(script, 10, {**MIXED, 0x2004: 10})
    script.expect("f 2004", 0)
    spoil(script, ABOVE)
    count(script, 11)
    is_now(script, 11, {0x2001: 0, 0x3004: 11, 0x4004: 8})
    spoil(script, WITHOUT)                          # no count makes that one good
    for number in (11, 12, STOP, 0):
        count(script, number)
        is_wrong(script)
    script.do("u")
    is_now(script, 11, {0x2001: 0, 0x3004: 11, 0x4004: 8})
    script.load(sheet_bytes(many_sets(3)), 0)
    spoil(script, 1, ABOVE, 1)                      # the second key stood first
    count(script, 1)
    is_now(script, 1, {0x2001: 0, 0x2002: 1, 0x2003: 0})
    spoil(script, 1, 1)                             # entries change places with their numbers
    is_now(script, 1, {0x2001: 0, 0x2002: 1, 0x2003: 0})
    count(script, 4294967294)
    spoil(script, ABOVE)
    is_wrong(script)
    count(script, STOP)
    is_now(script, STOP, {0x2001: STOP, 0x2002: 1, 0x2003: 0})
    assert script.do("x %d" % ABOVE) == "x ?"
    is_now(script, STOP, {0x2001: STOP, 0x2002: 1, 0x2003: 0})


# Blocks of a table, ways one after another, the answers to 25 and to 26 then.
NEEDED = [
    ([], [], "x ?", "x ?"), ([EXAMPLE], [], "x ?", "x"), ([EXAMPLE, damaged(EXAMPLE)], [], "x ?", "x"),
    ([EXAMPLE] * 2, [], "x", "x ?"), ([EXAMPLE] * 2 + [start(0x2001, 1, DAB, [1])], [], "x", "x"),
    ([EXAMPLE] * 2 + [start(0x9001, 1, DAB, [1])], [], "x", "x"),
    # on a table that is spoiled already
    ([], [2], "x ?", "x"),                                  # as if 32 keys were held
    ([], [6], "x ?", "x ?"), ([EXAMPLE] * 2, [6], "x", "x ?"),      # an unused entry is none
    ([EXAMPLE] * 2, [7], "x ?", "x"),                       # a set of 129 is none
    ([EXAMPLE] * 2, [2], "x", "x"), ([EXAMPLE] * 2, [ABOVE], "x", "x ?"), ([EXAMPLE], [WITHOUT], "x ?", "x"),
    ([EXAMPLE] * 2, [4], "x", "x ?"), ([EXAMPLE], [5], "x ?", "x"), ([EXAMPLE] * 2, [22], "x", "x ?")]


def needed(script):
    """What the two ways need, and what they leave where they find nothing to spoil."""
    for blocks, ways, above, without in NEEDED:
        for way, answer in ((ABOVE, above), (WITHOUT, without)):
            script.empty()
            for data in blocks:
                script.block(data)
            before = script.done("t")
            spoil(script, *ways)
            assert script.do("x %d" % way) == answer, (blocks, ways, way)
            if ways or answer == "x":
                is_wrong(script)
            if len(ways) + (answer == "x") == 1:
                script.do("u")
            if len(ways) + (answer == "x") < 2:
                assert script.done("t") == before
    script.load(sheet_bytes(many_sets(32)), 0)
    assert script.do("x %d" % WITHOUT) == "x ?"
    spoil(script, 2)
    assert script.do("x %d" % WITHOUT) == "x ?"
    script.do("u")
    count(script, STOP)
    assert script.do("x %d" % ABOVE) == "x ?"
    is_now(script, STOP, {0x2001 + place: 0 for place in range(32)})


def each_way(script):
    """Every way on a table with numbers: 9, the block not counted, and `u` brings count and numbers back."""
    scenes.mixed_table(script)
    for way in WAYS:
        spoil(script, way)
        script.block(EXAMPLE, 9, place=0)
        script.expect("c 2004 9 9", 9)
        is_wrong(script)
        script.do("u")
        is_now(script, 8, MIXED)


def spoiled_twice(script):
    """Ways on a table that is spoiled already; `u` takes the last one back, once."""
    for ways in ((ABOVE, ABOVE), (ABOVE, WITHOUT), (WITHOUT, ABOVE), (WITHOUT, WITHOUT), (1, ABOVE), (ABOVE, 1),
                 (2, WITHOUT), (WITHOUT, 2), (22, ABOVE), (WITHOUT, 24), (7, ABOVE), (7, WITHOUT), (ABOVE, 8, WITHOUT)):
        scenes.mixed_table(script)
        spoil(script, *ways)
        is_wrong(script)
        script.do("u")
        is_wrong(script)
        script.do("u")
        is_wrong(script)


# Lines that are no command

NOT_COMMANDS = [
    "count", "count ", " count 1", "count  1", "count 1 ", "count 1 1", "count -1", "count +1", "count #1", "count 1.0",
    "count A", "count 1F", "count 0x1", "count 1_0", "count 4294967296", "count 4294967300", "count 9999999999",
    "count 00000000001", "count 04294967295", "count \xb9", "count \u0661", "count\t1", "count 1\t", "count 1\r",
    "count\0", "count 1\0", "count1", "coun 1", "coun", "counts 1", "counts", "Count 1", "COUNT 1", "counT 1",
    "count count", "c count 1", "t count", "t #1", "t 1 #1", "totals #1", "totals count", "xcount 1", "count" * 13,
    "x 17", "x 21", "x 27", "x 30", "x 00000000025", "x 25 ", "x  25", "x 25 1", "x +25", "x 25h", "x 250",
    "x 4294967321", "c 2004 2 2 #2", "c 2004 #2 2"]

ODD_COMMANDS = ["count 0000000003", "count 4294967295", "count 0000000000", "count 2", "x 0000000025", "u", "t"]


def grammar(script):
    """Lines answered `?`, on a good table and on a spoiled one; numbers with zeros before them."""
    script.empty()
    script.blocks([EXAMPLE, EXAMPLE])
    count(script, 4294967290)
    for text in NOT_COMMANDS:
        assert script.raw(text.encode("utf-8")) == ["?"], text
        script.seen["?"] += 1
    assert script.raw(b"") == []
    is_now(script, 4294967290, {0x2004: 2})
    for text in ODD_COMMANDS:
        assert script.do(text) in ("count", "x", "u", "t 1 #2"), text
    spoil(script, ABOVE)
    for text in NOT_COMMANDS[:5] + ["count 4294967296", "x 27"]:
        assert script.raw(text.encode("utf-8")) == ["?"], text
    is_wrong(script)
    count(script, 3)
    is_now(script, 3, {0x2004: 3})


# Random ones


def random_step(script, dice, keys):
    """Anything that may happen to a table; what is spoiled is put right again."""
    what = dice.below(100)
    if what < 66:
        script.block(block(*random_figs(dice, keys)), 0)
    elif what < 74:
        outcome = dice.between(2, 6)
        script.block(faulty_block(dice, keys, [outcome]), outcome)
    elif what < 77:
        script.block(block(*random_figs(dice, keys))[:dice.below(32)], 1)
    elif what < 84:
        script.do("f %X" % dice.pick(keys))
    elif what < 89:
        if script.do("x %d" % dice.pick(WAYS)) == "x":
            script.do(dice.pick(["t", "count %d" % dice.below(99), "b " + EXAMPLE.hex(), "totals"]))
            script.do(dice.pick(["u", "u", "u", "e"]))
    elif what < 92:
        latest = max((entry.confirmed for entry in script.table().values()), default=0)
        count(script, dice.pick([latest, latest + 1, latest + dice.below(99), latest - 1 if latest else 0, 4294967290]))
        script.show()
        count(script, max(latest, dice.below(99)))
    elif what < 93:
        script.load(script.sheet(), 0)
    elif what < 94:
        script.load(sheet_bytes(dice.pick(BAD_SHEETS)), 10)
    else:
        script.do(dice.pick(["c %X 128 128" % dice.pick(keys), "c %X 9 9" % dice.pick(keys), "a 999", "s 999"]))


def random_scenes(script, dice, number):
    """Tables of few keys and of many, printed after every step or every fifth."""
    for keys, every in ((1, 1), (2, 1), (4, 1), (8, 2), (20, 5), (40, 5)):
        keys = random_keys(dice, keys)
        script.empty()
        for step in range(number // 6):
            random_step(script, dice, keys)
            if step % every == 0:
                script.show()
        scenes.copies(script, dice)
        script.show()
