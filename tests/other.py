"""Another ensemble: the scenes of other.in, of sets whose OE is 1.

Document 02, R-3.  With OE 0 the first identifier of a start is a DAB service,
with OE 1 it has the qualifier's kind.  What becomes of a list is foretold here
from that rule alone.
"""

from itertools import permutations

import cases
import scenes
from making import block, block_of, damaged, fig_for, long, more, room, start, state
from material import DAB, DRM, RDS, long_sheet, many_sets, most_pieces, random_keys, sheet_bytes
from second.table import IdList

OE, PD, ILS = 0x8000, 0x4000, 0x1000
KINDS = (DAB, RDS, DRM)
KIND = {"D": DAB, "R": RDS, "M": DRM}
LETTER = {kind: letter for letter, kind in KIND.items()}
NAME = {DAB: 0, RDS: 1, DRM: 2}

# FIG bytes with OE 1, outcome and place, counted by hand.
REFUSED = [
    ("00", 3, 0), ("03 46 21 00 00", 3, 4), ("08 46 C1 00 22 65 11 6B 11 1F", 3, 9),
    ("02 46 21", 4, 2), ("03 46 A1 00", 4, 2), ("05 46 C1 00 21 65", 4, 2), ("06 46 D1 00 21 65 11", 4, 2),
    ("07 66 C1 00 01 65 11 6B", 4, 2), ("04 46 21 00 21", 4, 4), ("05 C6 C1 00 61 65", 4, 2),
    ("03 46 20 00", 5, 2), ("05 46 21 00 20 00", 5, 4), ("06 46 C1 00 A1 65 11", 5, 2), ("06 46 C1 00 31 65 11", 5, 2),
    ("06 46 C1 00 41 65 11", 5, 2), ("06 C6 C1 00 41 65 11", 5, 2), ("08 66 C1 00 21 00 00 65 11", 5, 2),
    ("08 66 C1 00 61 00 00 65 11", 5, 2), ("04 E6 C1 00 20", 5, 2), ("04 46 C0 00 20", 5, 2),
    # an empty start: each qualifier and width, after a field, after a start of the tuned ensemble
    ("04 46 C1 00 00", 6, 2), ("04 46 C1 00 20", 6, 2), ("04 46 81 00 60", 6, 2), ("04 46 D1 00 20", 6, 2),
    ("04 66 C1 00 00", 6, 2), ("06 46 21 00 C1 00 20", 6, 4), ("08 06 C1 00 22 65 11 6B 11 04 46 C1 00 20", 6, 11),
    ("08 46 C1 00 22 65 11 6B 11 04 06 C1 00 20", 6, 11),
    ("04 C6 C1 00 20", 0, None), ("04 C6 C1 00 60", 0, None)]       # no start

# What may name a kind without its identifiers: the start and its continuations, each (qualifier, numbers).
NAMINGS = [
    [(RDS, [5])], [(DRM, [5])], [(DRM, [5]), (RDS, [])], [(DAB, [5]), (DRM, [])], [(DAB, [5]), (DRM, []), (RDS, [])],
    [(RDS, [5, 6]), (DRM, []), (DAB, [])], [(RDS, [5]), (RDS, []), (DRM, []), (DRM, [])],
    [(RDS, [5]), (DAB, [7]), (DRM, [])], [(DRM, [5]), (DAB, [5]), (RDS, [])], [(RDS, [5]), (DRM, [5]), (DAB, [5])]]

# Runs of a set and its dead links; the pieces it is cut into with OE 1, + before continuations; those with OE 0, where
# it may begin so.
CUTS = {
    0: [("D1", "D1", "D1"), ("R1", "R1"), ("M1", "M1"), ("D2", "D2", "D2"), ("R2", "R2"),
        ("R12", "R12"), ("R13", "R12 +R1"), ("M24", "M12 +M12"), ("M25", "M12 +M12 +M1"), ("D13", "D12 +D1", "D12 +D1"),
        ("D1 R1", "D1 +R1", "R2"), ("D1 R11", "D1 +R11", "R12"), ("D1 R12", "D1 +R12", "R12 +R1"),
        ("D1 M13", "D1 +M12 +M1", "M12 +M2"), ("D2 R2", "D2 +R2", "D2 +R2"), ("D1 M1 D1", "D1 +M1 +D1", "M2 +D1"),
        ("R1 D1", "R1 +D1"), ("R12 M1", "R12 +M1"), ("M13 D12 R13", "M12 +M1 +D12 +R12 +R1"),
        ("R1 M1 R1 M1", "R1 +M1 +R1 +M1"), ("D1 R- M-", "D1 +R0 +M0", "D1 +R0 +M0"),
        ("D1 M1 R-", "D1 +M1 +R0", "M2 +R0"), ("R1 M-", "R1 +M0"), ("M3 R-", "M3 +R0"), ("R1 D1 M-", "R1 +D1 +M0"),
        ("R12 M-", "R12 +M0")],
    ILS: [("R8", "R8"), ("R9", "R8 +R1"), ("M17", "M8 +M8 +M1"), ("D1 R7", "D1 +R7", "R8"),
          ("D1 R8", "D1 +R8", "R8 +R1"), ("R8 D8 M9", "R8 +D8 +M8 +M1"), ("M1 R-", "M1 +R0"), ("R8 M-", "R8 +M0"),
          ("D1 R- M-", "D1 +R0 +M0", "D1 +R0 +M0")],
    PD: [("D1", "D1", "D1"), ("D6", "D6", "D6"), ("D7", "D6 +D1", "D6 +D1"), ("D13", "D6 +D6 +D1", "D6 +D6 +D1")]}

GOOD_SHEETS = [
    [1, 0x8001, 1, 1, 1, 1, 0xFFFF], [1, 0x8FFF, 0, 2, 1, 3, 0], [1, 0x9001, 1, 1, 1, 1, (1 << 24) - 1],
    [1, 0xB001, 0, 2, 1, 3, 1 << 23], [1, 0xA004, 1, 3, 1, 1, 5], [1, 0xA004, 0, 3, 1, 3, 5],
    [1, 0xA004, 1, 3, 3, 1, 5, 0, 5, 3, 5], [1, 0xA004, 1, 3, 3, 3, 5, 1, 5, 0, 5], [1, 0xA004, 1, 3, 2, 1, 5, 3, 5],
    [2, 0x0100, 1, 1, 2, 0, 0x6511, 1, 0x6B11, 0x8100, 1, 1, 2, 1, 0x6511, 1, 0x6B11],
    [3, 0x8100, 1, 1, 1, 1, 5, 0x9100, 0, 2, 1, 3, 5, 0xC100, 1, 0, 1, 0, 5]]

# With OE 1 and a DAB service first: these were sheets before R-3 too.
OLD_SHEETS = [
    [1, 0x8001, 1, 0, 1, 0, 5], [1, 0x8001, 0, 3, 1, 0, 0xFFFF], [1, 0xA004, 0, 1, 3, 0, 5, 1, 5, 1, 6],
    [1, 0xA004, 1, 3, 4, 0, 5, 0, 6, 3, 5, 1, 5], [1, 0x9004, 1, 2, 2, 0, (1 << 24) - 1, 3, 0],
    [1, 0xA004, 1, 3, 5, 0, 5, 1, 5, 0, 6, 1, 6, 0, 7], [1, 0xC004, 1, 0, 2, 0, 5, 0, 1 << 31],
    [1, 0xFFFF, 0, 0, 1, 0, 0], [2, 0x2004, 1, 1, 2, 0, 5, 1, 5, 0xA004, 1, 1, 2, 0, 5, 1, 5], long_sheet(128, 0x8004)]

BAD_SHEETS = [
    # OE 0, RDS or DRM first: every width, several sets, keys of 65,536 and more
    [1, 0x0100, 1, 1, 1, 1, 5], [1, 0x0100, 1, 2, 1, 3, 5], [1, 0x1100, 0, 1, 1, 1, 5],
    [1, 0x2100, 1, 3, 2, 3, 5, 0, 5], [1, 0x3100, 1, 1, 2, 1, 5, 0, 5], [1, 0x4100, 1, 1, 1, 1, 5],
    [1, 0x5100, 1, 0, 1, 3, 5], [1, 0x7FFF, 1, 1, 1, 1, 5],
    [2, 0x0100, 1, 1, 1, 1, 5, 0x8100, 1, 1, 1, 1, 5], [2, 0x0100, 1, 0, 1, 0, 5, 0x7100, 1, 1, 1, 1, 5],
    [1, 0x10100, 1, 1, 1, 1, 5], [1, 0x18100, 1, 1, 1, 1, 5],
    # OE 1, first of a kind that is not named, or is none
    [1, 0x8100, 1, 0, 1, 1, 5], [1, 0x8100, 1, 2, 1, 1, 5], [1, 0x9100, 1, 0, 1, 3, 5], [1, 0x9100, 1, 1, 1, 3, 5],
    [1, 0x8100, 1, 1, 2, 1, 5, 3, 5], [1, 0x8100, 1, 2, 2, 1, 5, 3, 5], [1, 0x8100, 1, 3, 1, 2, 5],
    [1, 0x8100, 1, 3, 1, 4, 5], [1, 0x8100, 1, 5, 1, 1, 5],
    # OE 1 with P/D 1: a kind that is named or present
    [1, 0xC100, 1, 1, 1, 1, 5], [1, 0xC100, 1, 0, 1, 1, 5], [1, 0xD100, 1, 2, 1, 3, 5], [1, 0xC100, 1, 1, 1, 0, 5],
    # OE 1, what no set may have
    [1, 0x8100, 1, 1, 1, 1, 65536], [1, 0x9100, 1, 2, 1, 3, 1 << 24], [1, 0x8100, 1, 1, 2, 1, 5, 1, 5],
    [1, 0x8100, 1, 1, 0], [1, 0x8000, 1, 1, 1, 1, 5], [1, 0x8100, 2, 1, 1, 1, 5],
    [2, 0x8100, 1, 1, 1, 1, 5, 0x0100, 1, 0, 1, 0, 5], long_sheet(129, 0x8004)]


def kinds_of(key):
    """The kinds that may stand under this key."""
    return (DAB,) if key & PD else KINDS


def numbers_of(key, count):
    """So many numbers of the key's full width."""
    first = {12: 0xC0F1, 8: 0xE1C0F1, 6: 0xE1E0C0F1}[room(key)]
    return [first + 0x100 * place for place in range(count)]


def once(pairs):
    """Each pair once, where it comes first."""
    return list(dict.fromkeys(pairs))


def read_as(key, pieces):
    """The list that a start and its continuations give, each piece (qualifier, numbers)."""
    pairs = [(kind, number) for kind, numbers in pieces for number in numbers]
    if not key & OE:
        pairs[0] = (DAB, pairs[0][1])
    named = 0
    for kind, _ in pieces:
        named |= NAME[kind]
    return IdList(once(pairs), named)


def sent(key, on, pieces):
    """The blocks of a start and its continuations."""
    return [(more if place else start)(key, on, kind, numbers) for place, (kind, numbers) in enumerate(pieces)]


def shows(script, key, ids):
    """Fails where the table shows anything else under this key."""
    shown = script.table()[key].shown
    assert shown == ids, ("%04X" % key, shown.pairs, shown.named, ids.pairs, ids.named)


# Writing


def for_air(script):
    """The blocks for air, written with the exact length; one byte less is too short."""
    length = script.air_length()
    script.expect("a %d" % (length - 1), 8)
    data = bytes.fromhex(script.do("a %d" % length).split(" ")[2])
    return [data[place:place + 32] for place in range(0, length, 32)]


def just_enough(script):
    """Both writers with the exact length and one byte less; answers the blocks for air."""
    script.expect("s %d" % (len(script.sheet()) - 1), 8)
    script.expect("s %d" % len(script.sheet()), 0)
    return for_air(script)


def comes_back(script, blocks):
    """These blocks, written of the present table, read twice into an empty one."""
    written = script.sheet()
    script.empty()
    script.blocks(blocks + blocks)
    assert script.sheet() == written
    script.show()


# Scenes of reading


def by_hand(script):
    """One list of two FM codes, of the tuned ensemble and of another, with every answer."""
    script.empty()
    script.block(cases.TUNED, 0, [1])
    script.block(cases.OTHER, 0, [1])
    assert script.raw(b"t") == ["t 2 #2", "0100 on #0 shown - open 1 D6511 R6B11",
                                "8100 on #0 shown - open 1 R6511 R6B11"]
    script.block(cases.TUNED, 0, [2])
    script.block(cases.OTHER, 0, [2])
    assert script.do("c 100 2 2") == "c 0 0100 on 1 #3 D6511 R6B11 kept"
    assert script.do("c 8100 2 2") == "c 0 8100 on 1 #4 R6511 R6B11 kept"
    assert script.do("a 64") == "a 0 %s kept" % (cases.TUNED + cases.OTHER).hex().upper()
    assert script.do("s 28") == "s 0 02800201010200" + "91CA010191D601" + "808202010102" + "0191CA010191D601 kept"
    scenes.read_back(script)


def starts(script):
    """A start of each kind and width, with one, two and as many identifiers as fit, for both values of OE."""
    for flags in (0, ILS, PD):
        keys = (0x0100 | flags, 0x8100 | flags)
        for kind in kinds_of(flags):
            for count in (1, 2, room(flags)):
                pieces = [(kind, numbers_of(flags, count))]
                script.empty()
                for on, note in ((1, 1), (0, 2)):
                    for key in keys:
                        script.block(sent(key, on, pieces)[0], 0, [note])
                for key in keys:
                    shows(script, key, read_as(key, pieces))
                script.expect("c %X %d %d" % (keys[1], count - 1, count), 8)
                script.expect("c %X %d %d" % (keys[1], count, count), 0)
                script.show()
                just_enough(script)


def continuations(script):
    """Continuations of every kind after a start of every kind; one number under each of them."""
    for key in (0xA100, 0x9100):
        for first, second, third in permutations(KINDS):
            pieces = [(first, [5, 6, 5]), (second, [5, 7]), (third, [6, 5, 6]), (first, [6, 5, 9])]
            script.empty()
            for place, data in enumerate(sent(key, 1, pieces)):
                script.block(data, 0, [3 if place else 1])
            script.block(start(key, 0, third, [5]), 0, [2])
            shows(script, key, IdList([(first, 5), (first, 6), (second, 5), (second, 7), (third, 6), (third, 5),
                                       (first, 9)], 3))
            script.show()
            blocks = just_enough(script)
            if not key & ILS:
                comes_back(script, blocks)


def dead_links(script):
    """Kinds named without identifiers; a start of one FM code is a dead link with OE 0 alone."""
    for pieces in NAMINGS:
        script.empty()
        for key in (0x0100, 0x8100):
            script.blocks(sent(key, 1, pieces) + sent(key, 1, pieces[:1]))
            shows(script, key, read_as(key, pieces))
        script.show()
        comes_back(script, just_enough(script))


def side_by_side(script):
    """One LSN with OE 0 and OE 1 in one block: two sets that leave each other alone."""
    for flags in (0, ILS, 0x2000, PD):
        tuned, other = 0x0100 | flags, 0x8100 | flags
        kind = DAB if flags & PD else RDS
        field = long(tuned, 1, kind, numbers_of(flags, 2))
        both = block(fig_for(tuned, 0, field), fig_for(other, 0, field))
        turned = block(fig_for(other, 0, field), fig_for(tuned, 0, field))
        script.empty()
        script.block(both, 0, [1, 1])
        script.block(turned, 0, [2, 2])
        for key in (tuned, other):
            shows(script, key, read_as(key, [(kind, numbers_of(flags, 2))]))
        script.block(state(other, 0), 0, [7])
        script.block(more(other, 0, kind, [7]), 0, [3])
        script.show()
        script.block(start(tuned, 1, DAB, [7]), 0, [2])
        script.block(damaged(both), 2)
        just_enough(script)
        script.expect("f %X" % tuned, 0)
        script.expect("c %X 2 2" % tuned, 7)
        script.expect("c %X 2 2" % other, 0)
        script.block(both, 0, [1, 1])
        script.block(turned, 0, [2, 2])
        script.expect("f %X" % other, 0)
        script.show()


def repeats(script):
    """Pairs that come again, in starts and in continuations, for both values of OE."""
    pieces = [(RDS, [5, 5, 6, 5]), (DAB, [5, 5, 6]), (RDS, [6, 5, 7]), (DRM, [5, 5, 5]), (DAB, [6, 5, 8])]
    for key, pairs in ((0x0100, "D5 R5 R6 D6 R7 M5 D8"), (0x8100, "R5 R6 D5 D6 R7 M5 D8"),
                       (0x9100, "R5 R6 D5 D6 R7 M5 D8")):
        script.empty()
        script.blocks(sent(key, 1, pieces))
        script.show()
        script.block(start(key, 1, DRM, [6, 6]), 0, [2])
        shows(script, key, IdList([(KIND[pair[0]], int(pair[1:])) for pair in pairs.split(" ")], 3))
        script.block(start(key, 1, DAB, [6, 6]), 0, [2])
        shows(script, key, IdList([(DRM, 6)] if key & OE else [(DAB, 6), (DRM, 6)], 2))
        script.show()


def refused(script):
    """Refused blocks with OE 1 in them, between two starts: lists of both ensembles drop, shown sets stay."""
    for text, outcome, place in REFUSED:
        script.empty()
        script.blocks([cases.OTHER, cases.TUNED, cases.OTHER])
        script.block(block_of(text), outcome, place=place)
        script.show()
    for data, outcome in ((damaged(cases.OTHER), 2), (cases.OTHER[:31], 1), (cases.OTHER + b"\0", 1)):
        script.block(data, outcome, place=0)
        script.show()
        script.block(cases.OTHER, 0, [1 if outcome == 2 else 2])


def full_table(script):
    """32 keys held: a key that differs from a held one in OE alone finds no room."""
    script.load(sheet_bytes(many_sets(31)), 0)
    script.block(start(0xA001, 1, RDS, [5, 6]), 0, [1])
    script.block(start(0xA002, 1, RDS, [5, 6]), 0, [5])
    script.block(more(0xA002, 1, RDS, [5, 6]), 0, [8])
    script.block(start(0xA001, 1, DRM, [5, 6]), 0, [2])
    script.expect("f 2002", 0)
    script.block(start(0xA002, 0, DRM, [5, 6]), 0, [1])
    script.block(start(0xA002, 0, RDS, [5, 6]), 0, [2])
    script.show()


def lengths(script):
    """128 identifiers and a 129th, in every width."""
    for key, kind in ((0x8100, RDS), (0x9100, DRM), (0xC100, DAB)):
        scenes.long_list(script, key, [kind])


# Scenes of writing


def pairs_in(text):
    """The list that runs and dead links give: `R2 D1 M-`."""
    words = text.split(" ")
    kinds = [KIND[word[0]] for word in words if word[1:] != "-" for _ in range(int(word[1:]))]
    named = {NAME[KIND[word[0]]] for word in words}
    return IdList([(kind, 0x40F1 + place) for place, kind in enumerate(kinds)], sum(named))


def cut(blocks):
    """The pieces that these blocks carry: `R2 +D1 +M0`."""
    return " ".join("+" * (data[1] >> 7) + LETTER[data[4] >> 5 & 3] + str(data[4] & 15) for data in blocks)


def sheet_with(key, on, ids):
    """The sheet of this set alone."""
    return sheet_bytes([1, key, on, ids.named, len(ids.pairs)] + [item for pair in ids.pairs for item in pair])


def cuts(script):
    """How sets are cut, at every edge of a piece, and that they come back."""
    for flags, rows in CUTS.items():
        for text, *cut_as in rows:
            for oe, pieces in zip((OE, 0), cut_as):
                script.load(sheet_with(oe | flags | 0x0100, oe == 0, pairs_in(text)), 0)
                blocks = for_air(script)
                assert cut(blocks) == pieces, (flags, oe, text, cut(blocks))
                if oe and len(blocks) > 1:
                    comes_back(script, blocks)


def most_of_a_set(script):
    """Sets of 129 pieces, 4,128 bytes; without a dead link or with OE 0 it is one less."""
    for flags, kinds, pieces in ((0x8000, (DAB, RDS), 129), (0x9000, (DRM, DAB), 129), (0xB000, (DAB, DRM), 129),
                                 (0x8000, (RDS, DRM), 128), (0x1000, (DAB, DRM), 128), (0x8000, (RDS, DAB), 129)):
        script.load(most_pieces(flags, 1, kinds), 0)
        assert script.air_length() == 32 * pieces
        blocks = just_enough(script)
    comes_back(script, blocks)


def most_of_all(script):
    """32 sets of 129 pieces: 132,096 bytes."""
    script.load(most_pieces(0x8000, 32, (RDS, DAB)), 0)
    assert script.air_length() == 132096
    script.expect("a 132095", 8)
    script.expect("a 132096", 0)


def sheets(script):
    """Sheets that begin with any kind, those that did so before, and those that are none."""
    for items in GOOD_SHEETS + OLD_SHEETS:
        data = sheet_bytes(items)
        script.load(data, 0)
        assert script.sheet() == data
        just_enough(script)
        script.show()
    for items in (GOOD_SHEETS[6], OLD_SHEETS[2]):
        data = sheet_bytes(items)
        for length in range(len(data)):
            script.load(data[:length], 10)
        script.load(data + b"\0", 10)
    for items in BAD_SHEETS:
        script.load(sheet_bytes(GOOD_SHEETS[9]), 0)
        script.load(sheet_bytes(items), 10)
    script.show()


# Scenes of spoiling

DATA_HERE, DATA_THERE, FM = start(0x4100, 1, DAB, [5, 6]), start(0xC100, 1, DAB, [5, 6]), start(0x2004, 1, RDS, [5, 6])

# Blocks of a table, ways one after another, the answer to the last.  Way 10 needs a shown set with OE 0.
FIRST_SPOILED = [
    ([], [10], "x ?"), ([cases.TUNED], [10], "x ?"), ([cases.OTHER], [10], "x ?"),
    ([cases.TUNED] * 2, [10], "x"), ([cases.OTHER] * 2, [10], "x ?"),
    ([cases.TUNED, cases.OTHER] * 2, [10], "x"), ([cases.OTHER, cases.TUNED] * 2, [10], "x"),
    ([cases.TUNED] + [cases.OTHER] * 2, [10], "x ?"), ([cases.OTHER] + [cases.TUNED] * 2, [10], "x"),
    ([cases.TUNED, FM, FM, cases.OTHER, cases.OTHER], [10], "x"),
    ([DATA_HERE] * 2, [10], "x"), ([DATA_THERE] * 2, [10], "x ?"), ([DATA_HERE, DATA_THERE] * 2, [10], "x"),
    # on a table that is spoiled already
    ([cases.TUNED] * 2, [10, 10], "x"), ([cases.TUNED, cases.OTHER] * 2, [1, 10], "x"),
    ([cases.TUNED] + [cases.OTHER] * 2, [1, 10], "x ?"),
    ([cases.OTHER] * 2, [2, 10], "x ?"),
    ([cases.TUNED] + [cases.OTHER] * 2, [3, 10], "x"),      # the second key is as the first, OE 0
    ([cases.OTHER] * 2, [4, 10], "x"),                      # 65536 has OE 0
    ([cases.OTHER] * 2, [5, 10], "x ?"),                    # 32768 has OE 1
    ([cases.TUNED, cases.OTHER] * 2, [7, 10], "x ?"),       # a set of 129 is none
    ([cases.TUNED, FM, cases.OTHER] * 2, [7, 10], "x"),
    ([cases.OTHER] * 2, [9, 10], "x ?")]


def first_spoiled(script):
    """Way 10, a set that begins with an RDS code, wherever it applies and wherever not."""
    for blocks, ways, answer in FIRST_SPOILED:
        script.empty()
        script.blocks(blocks)
        for way in ways[:-1]:
            assert script.do("x %d" % way) == "x", (ways, way)
        assert script.do("x %d" % ways[-1]) == answer, ways
        script.do("t")
        if answer == "x":
            script.do("u")
            script.do("t")
    script.empty()                          # the spoiled set is that of the tuned ensemble, in whatever place it is
    script.blocks([cases.TUNED, cases.OTHER] * 2)
    for way in (1, 10, 1):
        assert script.do("x %d" % way) == "x"
    script.expect("t", 9)


def each_spoiling(script):
    """Every way on sets of another ensemble alone: all but way 10 apply."""
    script.load(sheet_bytes([3, 0xA004, 1, 3, 3, 1, 5, 0, 5, 3, 6, 0xB004, 0, 2, 2, 3, 5, 3, 6,
                             0xC004, 1, 0, 2, 0, 5, 0, 6]), 0)
    script.blocks([start(0x8001, 1, RDS, [9]), start(0xA004, 1, DRM, [7, 8])])
    for way in range(1, 17):
        assert script.do("x %d" % way) == ("x ?" if way == 10 else "x"), way
        if way != 10:
            script.block(cases.OTHER, 9, place=0)
            script.expect("c A004 9 9", 9)
            script.expect("a 9999", 9)
            script.expect("t", 9)
            script.do("u")
    script.show()


# Random ones


def random_scenes(script, dice):
    """Traffic of keys that come with OE 0 and OE 1; sets with OE 1, written, copied out and read back."""
    for count in (1, 3, 12):
        keys = random_keys(dice, count)
        script.empty()
        scenes.traffic(script, dice, sorted({key & 0x7FFF for key in keys} | {key | OE for key in keys}), 20)
        just_enough(script)
    scenes.copies(script, dice)
    for longest in (5, 20, 30):
        scenes.shown_anyhow(script, dice, sorted({key | OE for key in random_keys(dice, 3)}), longest)
        script.show()
        comes_back(script, just_enough(script))
