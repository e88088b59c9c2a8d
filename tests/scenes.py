"""Scenes of replay scripts: what may happen to a table, each kind in a function of its own.

A scene takes the script it adds to and, where it varies, a dice.  What a
scene can foretell from document 01 is foretold, so that making the vectors
is itself a test.
"""

from making import (block, block_of, damaged, id_size, linking_fig, long, more, room, short, start, state,
                    whole_list, with_check)
from material import (BAD_SHEETS, DAB, DRM, FAULTS, FLAGS, GOOD_SHEETS, ONE, RDS, fault_byte, faulty_block, long_sheet,
                      many_sets, most_pieces, random_figs, random_keys, random_pairs, sheet_bytes)

EXAMPLE = block_of("08 06 E0 04 22 44 B1 44 B1")      # document 01, example 1


# Scenes of reading


def traffic(script, dice, keys, count):
    """Good and refused blocks, forgettings and copies of some keys, as they come."""
    for _ in range(count):
        what = dice.below(100)
        if what < 80:
            script.block(block(*random_figs(dice, keys)), 0, small=dice.chance(10))
        elif what < 84:
            outcome = dice.between(2, 6)
            script.block(faulty_block(dice, keys, [outcome]), outcome)
        elif what < 86:
            script.block(block(*random_figs(dice, keys))[:dice.below(32)], 1)
        elif what < 90:
            script.do("f %X" % dice.pick(keys))
        elif what < 97:
            script.do("c %X %d %d" % (dice.pick(keys), dice.below(20), dice.below(20)))
        else:
            script.show()
    script.show()


def block_lengths(script, dice):
    """Every length from 0 to 64: only 32 is looked at, any other leaves the open lists."""
    script.empty()
    script.block(EXAMPLE, 0, [1])
    for length in range(65):
        data = (EXAMPLE + EXAMPLE)[:length] if dice.chance(50) else bytes(dice.below(256) for _ in range(length))
        if length != 32:
            script.block(data, 1, place=0)
    script.show()
    script.block(EXAMPLE, 0, [2])
    script.show()


def refilled(script):
    """A table with a shown set and open lists, to see what a refusal drops."""
    script.empty()
    script.blocks([EXAMPLE, EXAMPLE, start(0x5007, 1, DAB, [1, 2])])


def each_fault(script):
    """Every fault that material.py has, by itself and after a good FIG."""
    good = linking_fig(0, 0, 0, long(0x2099, 1, DAB, [7]))
    for outcome, figs in sorted(FAULTS.items()):
        for one in figs:
            refilled(script)
            script.block(block(one), outcome, place=fault_byte(one))
            script.show()
            script.block(block(good, one), outcome, place=len(good) + fault_byte(one))
            script.show()               # the good FIG before the fault must not have worked


def wrong_lengths(script):
    """Lengths of FIGs at the edges: outcome 3 or just right."""
    for place, texts in ((0, ("00", "20", "C0", "E0", "1E", "1F", "3E", "FE")),
                         (4, ("03 06 20 04 00", "03 06 20 04 1A 06", "03 06 20 04 FE")),
                         (29, ("1C 01" + " 00" * 27 + " 01", "1C 01" + " 00" * 27 + " 00"))):
        for text in texts:
            refilled(script)
            script.block(with_check(bytes.fromhex(text).ljust(30, b"\0")), 3, place=place)
            script.show()
    for text in ("FF", "FF 00", "FF 06 20 00", "1D 01", "FD", "3D 06", "1C 01" + " 00" * 27 + " FF",
                 "03 06 20 04 FF 00 00", "03 06 20 04 E1 06 FF", "01 06 FF", "01 86 01 46 01 26 FF"):
        refilled(script)
        script.block(with_check(bytes.fromhex(text).ljust(30, b"\0")), 0)
        script.show()
    refilled(script)
    script.block(with_check(bytes.fromhex("1A 01").ljust(27, b"\0") + bytes.fromhex("02 06 20")), 4, place=29)
    script.block(with_check(bytes.fromhex("1B 01").ljust(28, b"\0") + bytes.fromhex("01 06")), 0, [])
    script.block(with_check(bytes.fromhex("19 01").ljust(26, b"\0") + bytes.fromhex("03 06 20 04")), 0, [7])


def fault_order(script, dice, rounds):
    """Several faults in one block: the lowest outcome is the answer, wherever its fault stands."""
    keys = random_keys(dice, 5)
    script.empty()
    for _ in range(rounds):
        outcomes = [outcome for outcome in (2, 3, 4, 5, 6) if dice.chance(45)]
        if outcomes:
            script.block(start(keys[0], dice.below(2), DAB, [dice.below(9)]), 0)
            script.block(faulty_block(dice, keys, outcomes), outcomes[0])
            if dice.chance(20):
                script.show()


def one_fig_two_faults(script):
    """Two faults within one FIG or field."""
    for text, outcome, place in (
            ("04 06 20 00 04", 4, 4), ("07 06 E0 04 00 20 00 36", 4, 7), ("05 06 20 00 36 00", 5, 2),
            ("04 06 E0 04 40", 5, 2), ("04 06 E0 04 80", 5, 2), ("04 06 E0 00 00", 5, 2), ("04 26 E0 04 20", 5, 2),
            ("06 06 E0 04 00 20 00", 5, 5), ("06 06 20 00 E0 04 00", 5, 2),
            ("04 06 E0 04 4F", 4, 2), ("07 06 E0 04 00 E0 05 00", 6, 2)):
        refilled(script)
        script.block(block_of(text), outcome, place=place)
        script.show()


def many_fields(script):
    """Fourteen fields in one FIG; several FIGs and starts of one key in one block."""
    refilled(script)
    fields = [short(0x2004, place % 2) for place in range(14)]
    script.block(block(linking_fig(1, 0, 0, *fields)), 0, [7] * 14)
    script.block(block(linking_fig(0, 0, 0, *[short(0x2005 + place, 1) for place in range(14)])), 0, [8] * 14)
    script.show()
    one, two = long(0x2004, 1, RDS, [1]), long(0x2004, 0, DAB, [2])
    script.block(block(linking_fig(0, 0, 0, one, two, one)), 0, [2, 2, 2])
    script.show()
    script.block(block(linking_fig(0, 0, 0, one), linking_fig(1, 0, 0, two), linking_fig(0, 0, 0, one)), 0, [2, 3, 2])
    script.show()
    script.block(block(linking_fig(1, 0, 0, one), linking_fig(1, 0, 0, two, short(0x2004, 1))), 0, [3, 3, 7])
    script.show()
    script.block(block(linking_fig(0, 0, 0)), 0, [])
    script.block(block(*[linking_fig(0, 1, 1)] * 15), 0, [])


def on_and_off(script, key=0x2004, kind=DAB):
    """LA of every field of a held key counts, also where no list changes."""
    script.empty()
    script.block(start(key, 1, kind, [1]), 0, [1])
    script.block(more(key, 0, DAB, [2]), 0, [3])
    script.show()
    script.block(damaged(EXAMPLE), 2)
    for continued in (0, 1):
        for on in (0, 1):
            script.block(state(key, on, continued), 0, [7])
            script.show()
    script.block(more(key, 0, DAB, [2]), 0, [4])
    script.show()
    script.block(start(key, 1, kind, [1]), 0, [1])
    script.show()


def dead_links(script):
    """Kinds named without identifiers, in starts and continuations, for each width that may have them."""
    for key in (0x2004, 0x3004, 0x8004, 0x9004):
        script.empty()
        script.block(start(key, 1, RDS, [5]), 0, [1])
        script.block(start(key, 1, DRM, [5]), 0, [2])
        script.block(more(key, 1, RDS, []), 0, [3])
        script.show()
        script.block(start(key, 1, DAB, [5]), 0, [2])
        script.block(more(key, 1, DAB, []), 0, [3])
        script.block(more(key, 1, DRM, []), 0, [3])
        script.block(more(key, 1, DRM, []), 0, [3])
        script.block(start(key, 0, DAB, [5, 5, 6]), 0, [2])
        script.show()
        script.block(start(key, 0, RDS, [5, 5, 5, 5]), 0, [2])
        script.block(more(key, 0, DRM, [5, 5]), 0, [3])
        script.block(more(key, 0, DAB, [5, 6, 5]), 0, [3])
        script.block(start(key, 1, DAB, [5]), 0, [2])
        script.show()
        script.do("c %X 5 5" % key)
    script.empty()
    script.block(start(0x6004, 1, DAB, [5]), 0, [1])
    script.block(more(0x6004, 1, DAB, []), 0, [3])
    script.block(more(0x6004, 1, RDS, []), 5)
    script.show()


def same_digits_other_key(script):
    """Keys that differ in one flag alone are different sets."""
    script.empty()
    for flags in FLAGS:
        script.block(start(flags | 4, 1, DAB, [0x44B1]), 0, [1])
    for flags in FLAGS[::2]:
        script.block(start(flags | 4, 0, DAB, [0x44B2]), 0, [2])
    script.show()
    for flags in FLAGS:
        script.do("c %X 1 1" % (flags | 4))
        script.expect("f %X" % (flags | 4), 0)


def full_table(script, dice):
    """32 keys held: a 33rd start is skipped until one is forgotten; what it says of on and off is lost."""
    script.empty()
    keys = dice.shuffled(random_keys(dice, 36))
    held, late = keys[:32], keys[32:]
    for key in held:
        script.block(start(key, dice.below(2), DAB, [dice.below(99)]), 0, [1])
    script.show()
    for key in late:
        script.block(start(key, 1, DAB, [1]), 0, [5])
        script.block(more(key, 1, DAB, [1]), 0, [8])
        script.block(state(key, 1), 0, [8])
        script.expect("f %X" % key, 7)
    script.block(start(held[3], 1, DAB, [7]), 0, [2])
    script.block(damaged(EXAMPLE), 2)
    script.show()
    script.block(start(late[0], 1, DAB, [1]), 0, [5])
    script.expect("c %X 256 256" % held[5], 11)
    script.expect("c %X 256 256" % late[0], 7)
    script.expect("f %X" % held[7], 0)
    script.expect("f %X" % held[7], 7)
    script.block(start(late[0], 1, DAB, [1]), 0, [1])
    script.block(start(late[1], 1, DAB, [1]), 0, [5])
    script.show()
    for key in dice.shuffled(held)[:20]:
        script.do("f %X" % key)
    for key in late:
        script.do("b %s" % start(key, 0, DAB, [3]).hex().upper())
    script.show()


def full_table_one_block(script):
    """The last free place taken by a field of a block whose later fields then find none."""
    script.empty()
    for lsn in range(1, 32):
        script.block(start(0x2000 + lsn, 1, DAB, [lsn]), 0, [1])
    fields = [long(0x2000 + lsn, 1, DAB, [lsn]) for lsn in (40, 41, 3, 42, 40)]
    script.block(block(linking_fig(0, 0, 0, *fields)), 0, [1, 5, 2, 5, 2])
    script.show()
    script.block(block(linking_fig(1, 0, 0, long(0x2029, 0, DAB, [1]), long(0x2028, 0, DAB, [1]), short(0x202A, 0),
                                   long(0x2005, 0, RDS, []))), 0, [8, 3, 8, 3])
    script.show()


def long_list(script, key, kinds=(DAB,)):
    """A list of 128: known pairs again are nothing, a 129th drops it whole."""
    top = (1 << 8 * id_size(key)) - 1
    pairs = [(kinds[place % len(kinds)], top - place) for place in range(128)]
    if not key & 0x8000:
        pairs[0] = (DAB, top)
    script.empty()
    script.blocks(whole_list(key, 1, pairs[:127]))
    known = [number for kind, number in pairs[-40:-1] if kind == pairs[127][0]][:room(key) - 1]
    script.block(more(key, 1, pairs[127][0], known + [pairs[127][1]]), 0, [3])
    script.block(more(key, 1, pairs[127][0], known), 0, [3])
    script.block(more(key, 1, pairs[127][0], []), 0, [3])
    script.show()
    script.block(start(key, 0, DAB, [top]), 0, [2])
    for size in (127, 128, 129, 256):
        script.do("c %X %d %d" % (key, size, 256))
        script.do("c %X %d %d" % (key, 256, size))
    script.blocks(whole_list(key, 1, pairs))
    script.block(more(key, 0, pairs[127][0], known[:2] + [3]), 0, [6])
    script.show()
    script.block(more(key, 1, DAB, [top]), 0, [4])
    script.block(start(key, 1, DAB, [1, 2]), 0, [1])
    script.block(start(key, 1, DAB, [1, 2]), 0, [2])
    script.show()


def edge_of_128(script):
    """Fields that reach or pass 128 with repeated pairs in them."""
    key = 0x2010
    numbers = list(range(1000, 1127))
    for field, note in (([1000, 1], 3), ([1, 1, 1, 1], 3), ([1, 1000, 2], 6), ([1, 2], 6), ([1126] * 12, 3)):
        script.empty()
        script.blocks(whole_list(key, 1, [(DAB, number) for number in numbers]))
        script.block(more(key, 1, DAB, field), 0, [note])
        script.block(start(key, 1, DAB, [1]), 0, [2 if note == 3 else 1])
        script.do("c %X 128 128" % key)
    script.empty()                  # the same number under another kind is another pair
    script.blocks(whole_list(key, 1, [(DAB, number) for number in numbers]))
    script.block(more(key, 1, RDS, [1000]), 0, [3])
    script.block(more(key, 1, DRM, [1000]), 0, [6])
    script.block(more(key, 1, DRM, [1000]), 0, [4])


def copies(script, dice):
    """Copying out what the table shows, with buffers long enough, exact and short, and keys it does not hold."""
    for key, entry in list(script.table().items()):
        text = ("%X" if dice.chance(70) else "%x") % key
        if entry.shown is None:
            script.expect("c %s %d %d" % (text, dice.below(257), dice.below(257)), 11)
            continue
        length = len(entry.shown.pairs)
        script.expect("c %s %d %d" % (text, length, length), 0)
        script.expect("c %s %d %d" % (text, length - 1, length), 8)
        script.expect("c %s %d %d" % (text, length, length - 1), 8)
        script.expect("c %s %d %d" % (text, min(256, length + dice.below(9)), min(256, length + dice.below(9))), 0)
        script.expect("c %s 0 0" % text, 8)
        script.expect("c 1%04X 256 256" % key, 7)
    for key in ("0", "FFFFFFFF", "10000", "ffff0000", "1000", "00000000"):
        script.expect("c %s 256 256" % key, 7)
        script.expect("f %s" % key, 7)


def forgettings(script, dice):
    """Forgetting in the midst of collecting; other keys stay as they are."""
    script.empty()
    keys = random_keys(dice, 8)
    for _ in range(3):
        for key in keys:
            for data in whole_list(key, dice.below(2), random_pairs(dice, key, dice.between(1, 9))):
                script.block(data, 0)
        gone = dice.pick(keys)
        script.expect("f %X" % (gone | 0x10000), 7)
        script.expect("f %X" % gone, 0)
        script.show()
        script.block(more(gone, 1, DAB, [1]), 0, [8])
        script.block(start(gone, 1, DAB, [1]), 0, [1])
    copies(script, dice)
    for key in dice.shuffled(keys):
        script.expect("f %X" % key, 0)
    script.show()


# Scenes of writing


def written(script):
    """Both writers with the exact length, one byte less, and more."""
    for letter, length, most in (("a", script.air_length(), 140000), ("s", len(script.sheet()), 32768)):
        script.expect("%s %d" % (letter, length), 0)
        if length:
            script.expect("%s %d" % (letter, length - 1), 8)
            script.expect("%s 0" % letter, 8)
        script.do("%s %d" % (letter, min(most, length + 33)))


def read_back(script):
    """What is written for air, read twice into an empty table; the sheet, loaded."""
    output = bytes.fromhex(script.do("a 140000").split(" ")[2].replace("-", ""))
    sheet = script.sheet()
    script.show()
    script.empty()
    for _ in range(2):
        for place in range(0, len(output), 32):
            script.block(output[place:place + 32], 0)
    assert script.sheet() == sheet
    script.expect("s %d" % len(sheet), 0)
    script.load(sheet, 0)
    script.expect("s %d" % len(sheet), 0)
    script.show()


def random_sets(script, dice, count, longest):
    """Some sets shown in a fresh table."""
    shown_anyhow(script, dice, random_keys(dice, count), longest)


def shown_anyhow(script, dice, keys, longest):
    """Sets of these keys shown in a fresh table, with any identifiers and dead links."""
    script.empty()
    for key in keys:
        pairs = random_pairs(dice, key, dice.pick([1, 1, 2, 3, dice.between(1, longest)]))
        dead = [] if key & 0x4000 else [kind for kind in (RDS, DRM) if dice.chance(30)]
        blocks = whole_list(key, dice.below(2), pairs, dead)
        script.blocks(blocks + blocks[:1])


def sheets(script):
    """Sheets good and bad in every way."""
    for items in GOOD_SHEETS + [many_sets(31), many_sets(32), long_sheet(127), long_sheet(128)]:
        data = sheet_bytes(items)
        script.load(data, 0)
        assert script.sheet() == data
        script.expect("s %d" % len(data), 0)
        script.do("a 140000")
        script.show()
    for items in BAD_SHEETS + [many_sets(33), long_sheet(0), long_sheet(129)]:
        script.blocks([EXAMPLE, EXAMPLE])
        script.load(sheet_bytes(items), 10)
        script.show()
    for items in GOOD_SHEETS:
        data = sheet_bytes(items)
        for length in range(len(data)):
            script.load(data[:length], 10)
        script.load(data + b"\0", 10)


def longest_sets(script):
    """Sets that need 128 pieces, with OE 1 129: so many bytes and not one less."""
    for flags, length in ((0x2000, 4096), (0x9000, 4128)):
        script.load(most_pieces(flags, 1), 0)
        assert script.air_length() == length
        script.expect("a %d" % (length - 1), 8)
        script.expect("a %d" % length, 0)


def changed_sheets(script, dice, rounds):
    """Good sheets with a byte changed, gone or put in."""
    for _ in range(rounds):
        data = bytearray(sheet_bytes(dice.pick(GOOD_SHEETS)))
        place = dice.below(len(data))
        what = dice.below(4)
        if what == 0:
            data[place] = dice.below(256)
        elif what == 1:
            data[place] ^= 1 << dice.below(8)
        elif what == 2:
            del data[place]
        else:
            data.insert(place, dice.pick([0, 1, 128, dice.below(256)]))
        if script.do(("l " + data.hex().upper()).strip()) == "l 0":
            assert script.sheet() == data
            script.do("s 100")


# Scenes of spoiling


def mixed_table(script):
    """A table that can be spoiled in every way."""
    script.empty()
    for data in ([start(0x2001, 1, DAB, [9])] + whole_list(0x2004, 1, [(DAB, 5), (RDS, 5), (DRM, 6)])
                 + whole_list(0x3004, 0, [(DAB, 5), (DAB, 6)]) + whole_list(0x4004, 1, [(DAB, 5), (DAB, 6)])):
        script.block(data, 0)
    script.blocks([start(0x2004, 1, RDS, [7]), start(0x3004, 0, DAB, [7, 8]), start(0x4004, 1, DAB, [7])])


def table_commands(script):
    """Every command that takes a table, to meet outcome 9 on a spoiled one."""
    for data in (EXAMPLE, damaged(EXAMPLE), EXAMPLE[:31], b"", block_of("00")):
        script.block(data, 9, place=0)
    for command in ("f 2004", "f 0", "f FFFFFFFF", "c 2004 256 256", "c 2004 0 0", "c 2001 0 9", "c 9999 0 0",
                    "a 140000", "a 0", "s 32768", "s 0", "t"):
        script.expect(command, 9)


def each_spoiling(script):
    """Each way on a table where it applies, with every command after it."""
    for way in range(1, 17):
        mixed_table(script)
        assert script.do("x %d" % way) == "x", way
        table_commands(script)
        script.do("u")
        script.show()
        script.do("x %d" % way)
        script.load(sheet_bytes(ONE), 0)
        script.show()
        script.do("u")
        script.show()
        script.do("x %d" % way)
        script.load(b"", 10)
        script.show()
        script.do("u")
        script.do("x %d" % way)
        script.empty()
        script.show()
        script.do("u")
        script.do("u")
        script.block(start(0x2004, 1, RDS, [7]), 0, [2])
        script.show()
        script.do("u")
        script.show()


def not_to_be_spoiled(script):
    """Tables that have nothing to spoil in some ways, and which ways those are."""
    no_shown = [7, 8, 9, 10, 11, 12, 13, 14, 15]
    for prepare, refused in (
            (script.empty, [1, 3, 4, 5, 16] + no_shown),
            (lambda: script.block(EXAMPLE, 0), [1, 3] + no_shown),
            (lambda: script.block(start(0x2001, 1, DAB, [1]), 0), [1, 3, 16] + no_shown),
            (lambda: script.load(sheet_bytes(many_sets(32)), 0), [6, 9, 13, 15, 16]),
            (lambda: script.load(sheet_bytes(long_sheet(128)), 0), [1, 3, 8, 13, 15, 16]),
            (lambda: script.load(sheet_bytes(long_sheet(128, 0x4004)), 0), [1, 3, 8, 11, 13, 16]),
            (lambda: script.load(sheet_bytes([1, 0x4004, 1, 0, 1, 0, 5]), 0), [1, 3, 9, 11, 13, 16]),
            (lambda: script.load(sheet_bytes([1, 0x2004, 1, 3, 1, 0, 5]), 0), [1, 3, 9, 13, 15, 16])):
        script.empty()
        prepare()
        for way in range(1, 17):
            answer = script.do("x %d" % way)
            assert answer == ("x ?" if way in refused else "x"), (way, answer)
            script.do("a 0")
            if answer == "x":
                script.do("u")
        script.show()


def spoiled_twice(script):
    """A second way on a table that is spoiled already; two swaps give a good table again."""
    for first, second in ((1, 1), (2, 1), (2, 2), (2, 4), (2, 6), (2, 9), (4, 4), (4, 11), (5, 5), (6, 6), (7, 7),
                          (7, 8), (7, 9), (7, 12), (7, 13), (7, 14), (8, 8), (9, 13), (10, 13), (12, 13), (13, 13),
                          (13, 14), (14, 14), (15, 13), (15, 15), (16, 16)):
        mixed_table(script)
        script.do("x %d" % first)
        script.do("x %d" % second)
        script.do("t")
        script.do("u")
        script.do("t")


def nothing_remembered(script):
    """The table before any command, and `u` with no spoiling before it."""
    script.do("t")
    script.do("u")
    script.block(EXAMPLE, 0, [1])
    assert script.do("x 7") == "x ?"
    script.do("u")
    script.show()


def spoiled_again(script, dice, rounds):
    """Spoiling in the midst of other things, also a table that is spoiled already."""
    keys = random_keys(dice, 4)
    script.empty()
    for _ in range(rounds):
        what = dice.below(10)
        if what < 3:
            script.do("x %d" % dice.between(1, 16))
        elif what < 5:
            script.do("u")
        elif what < 8:
            script.block(block(*random_figs(dice, keys)))
        elif what < 9:
            script.show()
        else:
            script.do(dice.pick(["a 4096", "s 999", "f 2004", "c 2004 9 9", "e"]))


# Lines that are no command

NOT_COMMANDS = [
    # keys: 1 to 8 hexadecimal digits
    "f", "f ", "f 2004x", "f 000002004", "f -1", "f +1", "f 0x4", "f 2004 ", " f 2004", "f  2004", "f 2004 1", "F 2004",
    "c g 2 2", "f \xb2", "f \u0662",
    # decimal numbers: 1 to 10 digits, within their limits
    "c 2004", "c 2004 2", "c 2004 2 2 2", "c 2004 257 2", "c 2004 2 257", "c 2004 +2 2", "c 2004 2  2", "c 2004 a 2",
    "c 2004 00000000002 2", "c 2004 2 4294967297", "a", "a ", "a 140001", "a 00000000064", "a 9999999999", "a 1F",
    "a 64 1", "a -", "s", "s 32769", "s 1_0", "s 1.0", "s 1 ", "x", "x ", "x 0", "x 17", "x 00000000001", "x -1",
    "x 1 ", "x ?", "x A", "x \xb9", "x 4294967297",
    # bytes: an even number of hexadecimal digits, 64 bytes at most in a block
    "b 0", "b 000", "b 0G", "b 00 00", "b  00", "b ", "b00", "b " + "00" * 65, "b" + EXAMPLE.hex(), "l 0", "l 00 00",
    "l ", "l 0Z", "l00", "L 00",
    # commands without words, other letters, other blanks and ends
    "e ", " e", "E", "e e", "ee", "t 1", "T", "t ", "u 1", "U", "?", "#", "# e", "q", " ", "\t", "e\tt", "e\r", "b\r",
    "\r", "t\0", "\0", "e\x0b", "e\x0c", "e\x1c", "e\x85", "\xe9", "\ufeffe",
]

ODD_COMMANDS = [
    "c 2004 0000000002 002", "c 2004 2 0000000256", "c 00002004 256 2", "a 0000000032", "a 140000", "s 32768", "s 014",
    "f 12004", "f 00000000", "f fFfFfFfF", "b", "b " + "00" * 64, "b " + EXAMPLE.hex(),
    "l 01844001010200b1890101B18901", "s 14", "l", "t", "x 0000000002", "t", "u", "t",
]


def grammar(script):
    """Lines answered `?`, empty lines answered by nothing, and lines just within the grammar."""
    script.empty()
    script.blocks([EXAMPLE, EXAMPLE])
    for text in NOT_COMMANDS:
        assert script.raw(text.encode("utf-8")) == ["?"], text
        script.seen["?"] += 1
    for _ in range(2):
        assert script.raw(b"") == []
    for text in ODD_COMMANDS:
        script.do(text)
