"""Writes tests/vectors: replay scripts with their answers, recordings with their listings.

    python3 tests/make_vectors.py [folder]

Everything comes from fixed seeds and is the same on every run.  The maker
fails where a script does not reach what it is there to reach.
"""

import os
import re
import sys
from collections import Counter
from itertools import product

sys.dont_write_bytecode = True

import cases
import confirmed
import other
import places
import scenes
import totals
from folder import write_files
from making import Dice, block, block_of, damaged, linking_fig, long, more, start, state, whole_list, with_check
from material import (DAB, DRM, FLAGS, RDS, faulty_block, largest_sheet, long_sheet, most_pieces, random_figs,
                      random_keys, random_pairs, sheet_bytes)
from scenes import EXAMPLE
from script import LETTERS, Script
from second.check import report_text
from second.columns import OF_A_RECORDING, csv_text, table_text
from second.figs import figs_text
from second.listing import listing_text, table_of
from second.totals import totals_text

HERE = os.path.dirname(os.path.abspath(__file__))

READ_REACH = (["b %d" % outcome for outcome in range(7)] + ["f 0", "f 7", "c 0", "c 7", "c 8", "c 11", "e", "t"]
              + ["note %d" % note for note in range(1, 9)])
ALL_REACH = (READ_REACH + ["b 9", "f 9", "c 9", "a 0", "a 8", "a 9", "s 0", "s 8", "s 9", "l 0", "l 10", "t 9", "u"]
             + ["?"] + ["x %d done" % way for way in range(1, 17)]
             + ["x %d ?" % way for way in range(1, 17) if way != 2])
# Every outcome at every place, in the first, second and third FIG, before and after every other that it can meet.
PLACE_REACH = (["b 0"] + ["b %d @0" % outcome for outcome in (1, 2, 9)]
               + ["b %d @%d" % (outcome, place) for outcome in places.PLACES for place in places.PLACES[outcome]]
               + ["%d in FIG %d" % (outcome, number) for outcome in (3, 4, 5, 6) for number in (1, 2, 3)]
               + ["%d then %d" % (early, late) for early in (4, 5, 6) for late in (3, 4, 5, 6)]
               + ["%d then %d in one FIG" % (early, late) for early in (5, 6) for late in (4, 5, 6)]
               + ["5 and 6 in one FIG"])
OTHER_REACH = (READ_REACH + ["b 9", "c 9", "a 0", "a 8", "a 9", "s 0", "s 8", "l 0", "l 10", "t 9", "u", "x 10 ?"]
               + ["x %d done" % way for way in range(1, 17)])
# Every way in which a block can change the figures; what leaves them.
STAYS = ["b 1", "b 2", "b 3", "b 4", "b 5", "b 6", "f 7", "c 0", "c 7", "c 8", "c 11", "a 0", "a 8", "s 0", "s 8", "t"]
TOTALS_REACH = (ALL_REACH[:ALL_REACH.index("?") + 1] + ["totals", "totals 9"]
                + ["x %d done" % way for way in totals.WAYS]
                + ["b 0 makes %s %s %s" % signs for signs in product("+=", "+=-", "+=-")]
                + ["f 0 makes - - -", "f 0 makes - = -", "f 0 makes = = =", "l 0 makes + + +", "l 0 makes - - -",
                   "l 10 makes - - -", "e makes - - -"] + [what + " makes = = =" for what in STAYS])
# Which blocks are counted, and up to where; showings; every way of spoiling, and where the two of numbers find nothing.
CONFIRMED_REACH = (ALL_REACH[:ALL_REACH.index("?") + 1] + ["totals 9", "count"]
                   + ["x %d done" % way for way in confirmed.WAYS] + ["x 25 ?", "x 26 ?"]
                   + ["b %d is counted" % outcome for outcome in (0, 2, 3, 4, 5, 6)]
                   + ["b %d at the stop" % outcome for outcome in (0, 2, 3, 4, 5, 6)]
                   + ["b %d is not counted" % outcome for outcome in (1, 9)]
                   + ["shown", "shown again", "shown twice in a block", "shown at the stop"]
                   + ["count gives a good table", "count gives a bad table"])
# A shown set that begins with each kind: with OE 1 any, of 16 and 24 bits.
FIRST_SHOWN = ["[%s]... (on|off) #[0-9]+ shown %s D" % where for where in (("0-3", "."), ("4-7", "0"), ("C-F", "0"))]
FIRST_SHOWN += ["[%s]... (on|off) #[0-9]+ shown . %s" % (key, letter) for key in ("8A", "9B") for letter in "DRM"]


# examples.in: document 01, Examples


def examples():
    """Examples 1 to 16, each from the empty table."""
    script = Script()

    def begin(*blocks):
        script.empty()
        script.blocks(blocks)

    begin()                                                     # 1
    script.block(EXAMPLE, 0, [1])
    script.show()
    begin(EXAMPLE)                                              # 2
    script.block(EXAMPLE, 0, [2])
    script.show()
    begin(EXAMPLE, EXAMPLE)                                     # 3
    script.block(block_of("03 06 20 04"), 0, [7])
    script.show()
    begin(EXAMPLE)                                              # 4
    script.block(damaged(EXAMPLE), 2, place=0)
    script.show()
    script.block(EXAMPLE, 0, [1])
    script.show()
    begin(EXAMPLE)                                              # 5
    script.block(block_of(""), 0, [])
    script.show()
    for text, outcome, place in (("00", 3, 0),                  # 6
                                 ("02 06 20", 4, 2),            # 7
                                 ("03 06 20 00", 5, 2),         # 8
                                 ("04 06 E0 04 00", 6, 2),      # 9
                                 ("04 26 36 E0 04", 4, 4),      # 10, first half
                                 ("04 26 36 E0 04 00", 3, 5)):  # 10, second half
        begin(EXAMPLE)
        script.block(block_of(text), outcome, place=place)
        script.show()
    begin(EXAMPLE)                                              # 11
    script.block(EXAMPLE[:31], 1, place=0)
    script.show()
    script.block(EXAMPLE, 0, [2])
    script.show()
    begin(EXAMPLE)                                              # 12
    script.block(with_check(bytes.fromhex("1D 01").ljust(30, b"\x55")), 0, [])
    script.show()
    begin(EXAMPLE)                                              # 13
    script.block(with_check(bytes.fromhex("1E 01").ljust(30, b"\x55")), 3, place=0)
    script.show()
    ids = [(DAB, 0x44B1 + number) for number in range(127)]
    begin(*whole_list(0x2004, 1, ids))
    script.block(more(0x2004, 1, DAB, [0x5001]), 0, [3])
    script.show()
    script.block(more(0x2004, 1, DAB, [0x5002]), 0, [6])
    script.show()
    begin(*[start(0x2001 + place, 1, DAB, [0x44B1]) for place in range(32)])      # 14
    script.block(start(0x2021, 1, DAB, [0x44B1]), 0, [5])
    script.show()
    script.expect("f 2005", 0)
    script.block(start(0x2021, 1, DAB, [0x44B1]), 0, [1])
    script.show()
    begin(EXAMPLE, EXAMPLE)                                     # 15
    assert script.do("s 14") == "s 0 01844001010200B1890101B18901 kept"
    script.expect("s 13", 8)
    script.expect("l 01844001010200B1890101B18901", 0)
    script.show()
    script.expect("l 8100844001010200B1890101B18901", 10)
    script.show()
    begin(EXAMPLE, EXAMPLE)                                     # 16 (its listing: vectors/listing)
    script.show()
    script.expect("c 2004 2 2", 0)
    script.do("a 32")
    return script


# annex.in: documents 000 and 003


def round_of(script, blocks):
    """These blocks read twice, the table and what is written of it."""
    for _ in range(2):
        for data in blocks:
            script.block(data, 0)
    script.show()
    script.do("a 4096")
    script.do("s 24801")


def annex():
    """Annex A of document 000, then sections 3.2 and 3.3 of document 003."""
    script = Script()
    for groups in (
            [[cases.A4], [cases.A5], [cases.A6], [cases.A7], [cases.A8]],   # tables A.4 to A.8
            [[cases.A5]], [[cases.A8]],                                     # states of keys not held
            [[cases.A11]],                                                  # A.11
            [[cases.A15, cases.A16], [cases.A15], [cases.A16]],             # A.15, A.16
            [[cases.A4], [cases.A15, cases.A16]],                           # LSN 100 hard and soft
            [[cases.A17]],                                                  # A.17
            [[cases.A19, cases.A20], [cases.A21]],                          # A.19, A.20, A.21
            [[cases.A20]], [[cases.A21]], [[cases.A19]],
            [[cases.a22(1)], [cases.a22(0)]],                               # A.22 on and off
            [[cases.A23, cases.A24]], [[cases.A24]], [[cases.A23]],         # A.23, A.24
            [[cases.A27, cases.A28]], [[cases.A29, cases.A30]]):            # A.27 to A.30
        script.empty()
        for blocks in groups:
            round_of(script, blocks)
    script.empty()                                                          # A.25 is refused and drops open lists
    script.block(cases.A25, 5, place=2)
    script.blocks([cases.A17, cases.A17])
    script.block(cases.A25, 5, place=2)
    script.show()
    script.block(cases.A17, 0, [1])
    script.show()
    for eid in sorted(cases.ENSEMBLES):
        script.empty()
        for regional in (0, 1):                                             # 3.2 and 3.3 of document 003
            round_of(script, cases.swiss_cycle(eid, regional))
        script.block(cases.swiss_states(eid, 0), 0)
        script.show()
    return script


# read.in and random.in


def reading_scenes(script, dice):
    """All scenes that need e, b, f, c and t alone."""
    scenes.block_lengths(script, dice)
    scenes.each_fault(script)
    scenes.wrong_lengths(script)
    scenes.one_fig_two_faults(script)
    scenes.fault_order(script, dice, 150)
    scenes.many_fields(script)
    scenes.on_and_off(script)
    scenes.dead_links(script)
    scenes.same_digits_other_key(script)
    scenes.full_table(script, dice)
    scenes.full_table_one_block(script)
    for key, kinds in ((0x2004, [DAB]), (0x1004, [DAB, RDS]), (0xE004, [DAB])):
        scenes.long_list(script, key, kinds)
    scenes.edge_of_128(script)
    scenes.forgettings(script, dice)


def some_traffic(script, dice, after):
    """Traffic of few keys, of many, and of one; `after` looks at each table that comes of it."""
    for count, length in ((1, 40), (2, 60), (4, 80), (8, 100), (20, 120), (40, 160)):
        script.empty()
        keys = random_keys(dice, count)
        scenes.traffic(script, dice, keys, length)
        after(keys)


def read_only():
    script = Script("ebfct")
    dice = Dice(20240401)
    reading_scenes(script, dice)
    for _ in range(2):
        some_traffic(script, dice, lambda keys: scenes.copies(script, dice))
    return script


def random_script():
    script = Script()
    dice = Dice(20240402)
    scenes.nothing_remembered(script)
    reading_scenes(script, dice)
    some_traffic(script, dice, lambda keys: (scenes.written(script), scenes.copies(script, dice)))
    for _ in range(4):
        scenes.random_sets(script, dice, 3, 30)
        scenes.written(script)
        scenes.read_back(script)
    scenes.random_sets(script, dice, 12, 16)
    scenes.written(script)
    scenes.copies(script, dice)
    scenes.read_back(script)
    scenes.sheets(script)
    scenes.longest_sets(script)
    scenes.changed_sheets(script, dice, 300)
    scenes.each_spoiling(script)
    scenes.not_to_be_spoiled(script)
    scenes.spoiled_twice(script)
    scenes.spoiled_again(script, dice, 250)
    scenes.grammar(script)
    return script


# places.in


def places_script():
    """Document 02, R-1: where a refused block broke."""
    script = Script("ebtxu")
    places.counted_by_hand(script)
    places.every_place(script)
    places.every_order(script)
    places.nothing_left_over(script)
    places.random_places(script, Dice(20240404), 1000)
    return script


# other.in


def other_script():
    """Document 02, R-3: sets of another ensemble."""
    script = Script()
    dice = Dice(20240405)
    other.by_hand(script)
    other.starts(script)
    other.continuations(script)
    other.dead_links(script)
    other.side_by_side(script)
    other.repeats(script)
    for key, kind in ((0x8100, RDS), (0xB100, DRM)):
        scenes.on_and_off(script, key, kind)
    other.refused(script)
    other.full_table(script)
    other.lengths(script)
    other.cuts(script)
    other.most_of_a_set(script)
    other.sheets(script)
    other.first_spoiled(script)
    other.each_spoiling(script)
    other.random_scenes(script, dice)
    other.most_of_all(script)
    return script


# totals.in


def totals_script():
    """Document 02, R-7: the stored totals."""
    script = Script((*LETTERS, "totals"))
    totals.by_hand(script)
    totals.replaced(script)
    totals.pairs_once(script)
    totals.turned(script, 0x2004, (0, 0, 1, 1))
    totals.turned(script, 0xD004, (0, 1))
    totals.turned_too_long(script, 0x2004)
    totals.turned_in_one_block(script)
    totals.opened(script)
    totals.refused(script)
    totals.dropped(script, 0x9004)
    totals.every_change(script)
    totals.in_one_block(script)
    totals.every_width(script)
    totals.forgotten(script)
    totals.full_table(script)
    totals.loads(script)
    totals.largest(script)
    totals.written(script)
    totals.each_figure(script)
    totals.repaired(script)
    totals.each_way(script)
    totals.spoiled_twice(script)
    totals.grammar(script)
    totals.random_scenes(script, Dice(20240406), 540)
    return script


# confirmed.in


def confirmed_script():
    """Document 02, R-9: the count of blocks, and at which of them each set was last shown."""
    script = Script((*LETTERS, "totals", "count"))
    confirmed.by_hand(script)
    confirmed.each_outcome(script)
    confirmed.start_and_showing(script)
    confirmed.again(script)
    confirmed.in_one_block(script)
    confirmed.between(script)
    confirmed.leaving(script)
    confirmed.places(script)
    confirmed.forgotten(script)
    confirmed.full_table(script)
    confirmed.loads(script)
    confirmed.written(script)
    confirmed.counts(script)
    confirmed.counts_spoiled(script)
    confirmed.stops(script)
    confirmed.receptions(script)
    confirmed.each_number(script)
    confirmed.where_spoiled(script)
    confirmed.needed(script)
    confirmed.each_way(script)
    confirmed.spoiled_twice(script)
    confirmed.grammar(script)
    confirmed.random_scenes(script, Dice(20240407), 480)
    return script


# large.in


def large():
    """The bounds with OE 0: the largest sheet, the most blocks for air; and the longest line."""
    script = Script()
    sheet = largest_sheet()
    assert len(sheet) == 24801
    script.load(sheet, 0)
    script.expect("s 24801", 0)
    script.expect("s 24800", 8)
    script.expect("a %d" % script.air_length(), 0)
    script.expect("a %d" % (script.air_length() - 1), 8)
    script.show()
    script.do("c 4100 128 128")
    script.do("c 4100 127 128")
    script.load(sheet[:-1], 10)
    script.load(sheet + b"\0", 10)
    for flags in (0x2000, 0x1000):
        sheet = most_pieces(flags)
        script.load(sheet, 0)
        assert script.air_length() == 131072
        script.expect("a 131071", 8)
        script.do("s 24801")
    script.expect("a 131072", 0)
    script.expect("f 1003", 0)
    script.expect("a %d" % script.air_length(), 0)
    script.load(most_pieces(0x2000, 1), 0)
    scenes.read_back(script)
    for key in (0x2004, 0x3004, 0x4004):
        script.load(sheet_bytes(long_sheet(128, key)), 0)
        scenes.read_back(script)
    for line, answer in ((b"l " + b"0" * 65534, "l 10"),            # 65,536 bytes, the longest line
                         (b"l " + b"0" * 65535, "?"), (b"l " + b"0" * 65536, "?"), (b"e" * 65537, "?"),
                         (b"e" * 131073, "?"), (b"b " + b"0" * 65534, "?"), (b"a " + b"0" * 65534, "?")):
        assert script.raw(line) == [answer]
    script.show()
    return script


# listing/


def one_of_each_width():
    """National, international and data sets, on and off: a list of blocks for each."""
    sets = []
    for flags in FLAGS:
        pairs = [(DAB, 0xAB), (DAB, 5)] if flags & 0x4000 else [(DAB, 0xAB), (RDS, 5), (DRM, 0xC0DE)]
        sets.append(whole_list(flags | 0x00F, flags >> 13 & 1, pairs))
    return sets


def all_dead_links():
    """Kinds named without identifiers, every way there is: a list of blocks for each set."""
    return [[start(0x2001, 1, RDS, [1])],
            [start(0x2002, 0, DRM, [2])],
            [start(0x2003, 1, DAB, [3]), more(0x2003, 1, DRM, []), more(0x2003, 1, RDS, [])],
            [start(0x3004, 1, RDS, [4, 5]), more(0x3004, 1, DRM, [])],
            [start(0x3005, 1, DRM, [4, 5]), more(0x3005, 1, RDS, [])],
            [start(0x2006, 0, DAB, [6])]]


def first_of_another():
    """Sets of another ensemble that begin with each kind, and what the same lists are with OE 0: blocks for each."""
    return [other.sent(flags | 0x010 + place, place % 2, pieces)
            for place, pieces in enumerate(other.NAMINGS) for flags in (0x0000, 0x8000, 0xB000)]


def twice(sets):
    """All blocks of these sets, and once more."""
    return b"".join(data for blocks in sets * 2 for data in blocks)


def full_recording(dice):
    """32 sets of 128 identifiers each, every start repeated, and a 33rd key that finds no place."""
    blocks = []
    keys = random_keys(dice, 33)
    for key in dice.shuffled(keys[:32]):
        pieces = whole_list(key, dice.below(2), random_pairs(dice, key, 128))
        blocks += pieces + pieces[:1]
    return b"".join(blocks + [start(keys[32], 1, DAB, [1])] * 2)


def with_refused(dice, sets):
    """Each set twice in a row, refused blocks between; some sets come to be shown, some do not."""
    recording = b""
    for blocks in sets:
        for data in blocks + blocks:
            if dice.chance(15):
                recording += faulty_block(dice, [0x2004], [dice.between(2, 6)])
            recording += data
    return recording


def every_refusal():
    """Starts of 36 keys, four to a block, sent twice; refused blocks of each outcome among them; a rest of five bytes.

    Four keys find no room, so eight starts do not.  A start in a refused block is none.
    """
    starts = [long(0x2001 + place, 1, RDS, [0x44B1, 0xC000 + place]) for place in range(36)]
    sent = [block(linking_fig(0, 0, 0, *starts[first:first + 4])) for first in range(0, 36, 4)]
    texts = ("21 05 03 06 20 04 00", "05 06 E0 04 00 36", "04 06 E0 04 00 05 06 20 04 20 00", "21 05 04 06 E0 04 00")
    refused = [block_of(text) for text in texts]
    without_room = block(linking_fig(0, 0, 0, starts[35]), bytes.fromhex("05 06 20 04 20 00"))
    once = sent[:2] + refused[:2] + sent[2:5] + refused[2:] + sent[5:]
    return b"".join([damaged(EXAMPLE)] + once + sent + [without_room, damaged(sent[8])]) + EXAMPLE[:5]


def last_shown():
    """Sets that are last shown at different blocks, refused ones among them; a rest of seven bytes.

    One is shown once and turned off later, one after a refused block alone,
    one twice in a block, one again with the same identifiers; one was open
    when a block was refused, and is not shown.
    """
    data, twice, dead = start(0x4004, 1, DAB, [5, 6]), long(0x8003, 1, RDS, [5, 6]), start(0x2006, 1, RDS, [7])
    common, late = start(0x3002, 1, DAB, [5]), start(0x2005, 1, DAB, [5])
    return b"".join([start(0x2001, 1, DAB, [1, 2])] * 2 + [common, damaged(common), common, common]
                    + [state(0x2001, 0), block(linking_fig(0, 1, 0, twice, twice, twice)), block_of("00"), data, late]
                    + [data, data, cases.A25, late, block_of("")] + [dead] * 2) + EXAMPLE[:7]


LAST_SHOWN = """sets 5 blocks 18
2001 off #2 ids 2 D0001 D0002
2006 on #18 ids 1 D0007 R-
3002 on #6 ids 1 D000005
4004 on #13 ids 2 D00000005 D00000006
8003 on #8 ids 2 R0005 R0006
tail 7
"""


def random_recording(dice, count):
    """Blocks of forty keys, one in twenty refused."""
    keys = random_keys(dice, 40)
    return [faulty_block(dice, keys, [dice.between(2, 6)]) if dice.chance(5) else block(*random_figs(dice, keys))
            for _ in range(count)]


def recordings():
    """Name and bytes of each recording to be listed."""
    dice = Dice(20240403)
    widths, dead = one_of_each_width(), all_dead_links()
    other_ensembles = [blocks for blocks in widths if blocks[0][1] & 0x40]
    return {
        "example16": EXAMPLE * 2,
        "example4": EXAMPLE + damaged(EXAMPLE) + EXAMPLE,
        "once": EXAMPLE,
        "empty": b"",
        "tail-1": EXAMPLE * 2 + b"\x08",
        "tail-31": EXAMPLE * 2 + EXAMPLE[:31],
        "tail-only": EXAMPLE[:31],
        "tail-after-open": EXAMPLE + EXAMPLE[:16],
        "off": EXAMPLE * 2 + block_of("03 06 20 04"),
        "refused": with_refused(dice, widths + dead),
        "refused-all": damaged(EXAMPLE) + block_of("00") + cases.A25,
        "refused-each": every_refusal(),
        "widths": twice(widths),
        "dead-links": twice(dead),
        "oe": twice(other_ensembles),
        "oe-first": twice(first_of_another()),
        "other-ensemble": (cases.TUNED + cases.OTHER) * 2,
        "confirmed": last_shown(),
        "full": full_recording(dice),
        "random": b"".join(random_recording(dice, 1000)),
    }


# The folder


def reached(name, script, needed):
    """Fails where the script has not met all it is there to meet."""
    missing = [what for what in needed if not script.seen[what]]
    assert not missing, (name, missing)


def answered(name, script, forms):
    """Fails where no line of the answers begins in one of these ways."""
    missing = [form for form in forms if not any(re.match(form, line) for line in script.answers)]
    assert not missing, (name, missing)


def where_it_can(name, script):
    """Fails where a place is answered at which that fault cannot stand."""
    possible = {"b %d @%d" % (outcome, place) for outcome in places.PLACES for place in places.PLACES[outcome]}
    other = {what for what in script.seen if "@" in what} - possible - {"b 1 @0", "b 2 @0", "b 9 @0"}
    assert not other, (name, other)


def figures_stay(name, script):
    """Fails where a command changed the figures that has to leave them."""
    changes = [what for what in script.seen if " makes " in what and " makes = = =" not in what]
    wrong = [what for what in changes if what.split(" makes ")[0] not in ("b 0", "f 0", "l 0", "l 10", "e", "u")]
    assert not wrong, (name, wrong)


def all_files():
    """Path under the folder and bytes of every vector file, and what each script met."""
    scripts = {"examples": examples(), "annex": annex(), "read": read_only(), "random": random_script(),
               "places": places_script(), "other": other_script(), "totals": totals_script(),
               "confirmed": confirmed_script(), "large": large()}
    reached("read", scripts["read"], READ_REACH)
    reached("random", scripts["random"], ALL_REACH)
    reached("places", scripts["places"], PLACE_REACH)
    reached("other", scripts["other"], OTHER_REACH)
    reached("totals", scripts["totals"], TOTALS_REACH)
    answered("totals", scripts["totals"], ["totals 9$", "totals 0 0 0$", "totals 32 32 4096$"])
    figures_stay("totals", scripts["totals"])
    reached("confirmed", scripts["confirmed"], CONFIRMED_REACH)
    answered("confirmed", scripts["confirmed"], ["t 0 #0$", "t 32 #4294967295$", "2004 on #4294967295 shown",
                                                 "c 0 2004 on 1 #7 D44B1", "c 0 2004 (on|off) . #4294967295 "])
    for name in ("read", "random", "other"):
        answered(name, scripts[name], FIRST_SHOWN)
    assert scripts["read"].seen["commands"] >= 1500 and scripts["random"].seen["commands"] >= 3000
    files = {}
    for name, script in scripts.items():
        where_it_can(name, script)
        files[name + ".in"] = script.input_bytes()
        files[name + ".out"] = script.output_bytes()
    files["random.in"] = files["random.in"][:-1]        # a last line without its LF
    for name, recording in recordings().items():
        files["listing/" + name + ".fib"] = recording
        files["listing/" + name + ".txt"] = listing_text(recording).encode("ascii")
        files["listing/" + name + ".confirmed"] = listing_text(recording, True).encode("ascii")
        files["listing/" + name + ".table"] = table_text(table_of(recording), OF_A_RECORDING).encode("ascii")
        files["listing/" + name + ".figs"] = figs_text(recording).encode("ascii")
        files["listing/" + name + ".check"] = report_text(recording).encode("ascii")
        files["listing/" + name + ".totals"] = totals_text(recording).encode("ascii")
        files["listing/" + name + ".csv"] = csv_text(table_of(recording), OF_A_RECORDING).encode("ascii")
    assert files["listing/confirmed.confirmed"].decode() == LAST_SHOWN
    return files, {name: script.seen for name, script in scripts.items()}


def main():
    folder = sys.argv[1] if len(sys.argv) > 1 else os.path.join(HERE, "vectors")
    files, seen = all_files()
    write_files(folder, files)
    total = Counter()
    for name, counts in seen.items():
        print("%s: %d commands" % (name, counts["commands"]))
        total.update(counts)
    print(", ".join("%s: %d" % (what, total[what]) for what in sorted(total) if not re.search("@| makes ", what)))
    print("%d outcomes with their places" % sum("@" in what for what in total))
    print("%d ways in which a command changes the figures or leaves them" % sum(" makes " in what for what in total))
    print("%d files, %d bytes" % (len(files), sum(map(len, files.values()))))


if __name__ == "__main__":
    main()
