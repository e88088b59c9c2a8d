"""Where it broke: blocks whose faults and places are known from their making, and the scenes of places.in.

Document 02, R-1.  A place is counted from 0, the block's first byte.
"""

from itertools import product

from making import block, block_of, damaged, fig, id_size, linking_fig, long, short
from material import DAB, DRM, RDS, other_fig, random_field, random_number, wrong_length
from scenes import EXAMPLE, refilled

# Where a fault can stand.  A FIG begins at 0 or after other FIGs, of two bytes or more each; a field begins two bytes
# after its FIG or after other fields, of two bytes or more each.  So no FIG begins at 1, and no field at 0, 1 or 3.
# The last data byte is 29: a FIG, or a field that does not fit, can begin there; a wrong value takes two bytes, an
# empty start three.
PLACES = {3: [0] + list(range(2, 30)), 4: [2] + list(range(4, 30)), 5: [2] + list(range(4, 29)),
          6: [2] + list(range(4, 28))}

# FIG bytes, outcome and place, counted by hand.
COUNTED = [
    # document 01, examples 6 to 10
    ("00", 3, 0), ("02 06 20", 4, 2), ("03 06 20 00", 5, 2), ("04 06 E0 04 00", 6, 2), ("04 26 36 E0 04", 4, 4),
    ("04 26 36 E0 04 00", 3, 5),
    # a field that does not fit: a lone byte, no count, too few identifiers; after a good field
    ("03 06 A0 04", 4, 2), ("05 06 E0 04 01 44", 4, 2), ("04 06 20 04 20", 4, 4), ("05 06 20 04 A0 04", 4, 4),
    ("07 06 20 04 E0 04 01 44", 4, 4), ("08 06 20 04 F0 04 01 44 B1", 4, 4), ("07 06 E0 04 01 44 B1 20", 4, 7),
    # a wrong value: LSN 0, Rfu, shorthand, qualifier 2, P/D 1 with a qualifier not 0; after a good field
    ("04 86 E0 04 80", 5, 2), ("05 06 20 04 20 00", 5, 4), ("06 86 20 04 A0 04 90", 5, 4),
    ("06 86 20 04 A0 04 10", 5, 4), ("06 86 20 04 A0 04 40", 5, 4), ("06 A6 20 04 A0 04 20", 5, 4),
    ("08 06 E0 04 01 44 B1 20 00", 5, 7),
    # an empty start, after good fields
    ("06 06 20 04 E0 04 00", 6, 4), ("08 06 20 04 20 05 E0 04 00", 6, 6), ("09 06 E0 04 01 44 B1 E0 05 20", 6, 7),
    # in the second FIG, after a linking one and after another
    ("03 06 20 04 00", 3, 4), ("21 05 00", 3, 2), ("03 06 20 04 02 06 20", 4, 6), ("21 05 02 06 20", 4, 4),
    ("03 06 20 04 03 06 20 00", 5, 6), ("22 06 00 03 06 20 00", 5, 5), ("03 06 20 04 04 06 E0 04 00", 6, 6),
    ("02 01 00 04 06 E0 04 00", 6, 5),
    # in the third FIG
    ("21 05 03 06 20 04 00", 3, 6), ("21 05 03 06 20 04 02 06 20", 4, 8), ("21 05 03 06 20 04 04 06 20 04 36", 4, 10),
    ("03 06 20 04 21 05 03 06 20 00", 5, 8), ("21 05 01 06 05 06 20 04 20 00", 5, 8),
    ("21 05 03 06 20 04 04 06 E0 04 00", 6, 8), ("01 06 01 86 06 06 20 04 E0 04 00", 6, 8),
    # a wrong value and an empty start, both orders; one field that is both
    ("06 06 20 00 E0 04 00", 5, 2), ("06 06 E0 04 00 20 00", 5, 5), ("03 06 20 00 04 06 E0 04 00", 5, 2),
    ("04 06 E0 04 00 03 06 20 00", 5, 7), ("04 06 E0 00 00", 5, 2), ("07 06 E0 04 00 E0 00 00", 5, 5),
    # a field that does not fit before and after the others
    ("02 06 20 03 06 20 00", 4, 2), ("03 06 20 00 02 06 20", 4, 6), ("04 06 20 00 04", 4, 4),
    ("02 06 20 04 06 E0 04 00", 4, 2), ("04 06 E0 04 00 02 06 20", 4, 7), ("05 06 E0 04 00 36", 4, 5),
    # a wrong FIG after each, and after all
    ("02 06 20 00", 3, 3), ("03 06 20 00 00", 3, 4), ("04 06 E0 04 00 00", 3, 5), ("07 06 E0 04 00 20 00 36 00", 3, 8),
    ("04 06 E0 04 00 03 06 20 00 02 06 20 1F", 3, 12),
    # several of one class: the first
    ("00 03 06 20 00 00", 3, 0), ("02 06 20 02 06 20", 4, 2), ("03 06 A0 04 02 06 20 04 06 20 04 20", 4, 2),
    ("03 06 20 04 02 06 20 02 06 20", 4, 6), ("05 06 20 00 20 00", 5, 2), ("07 06 20 04 20 00 20 00", 5, 4),
    ("03 06 20 04 03 06 20 00 03 06 20 00", 5, 6), ("07 06 E0 04 00 E0 05 00", 6, 2),
    ("03 06 20 04 04 06 E0 04 00 04 06 E0 05 00", 6, 6),
    # as late as can be, after one FIG and after fields
    ("1C 01" + " 00" * 27 + " 00", 3, 29), ("1C 01" + " 00" * 27 + " 21", 3, 29),
    ("1C 06" + " 20 04" * 12 + " A0 04 00 01", 3, 29),
    ("1A 01" + " 00" * 25 + " 02 06 20", 4, 29), ("1D 86" + " 20 04" * 12 + " A0 04 00 04", 4, 29),
    ("19 01" + " 00" * 24 + " 03 06 20 00", 5, 28), ("1D 06" + " 20 04" * 13 + " 20 00", 5, 28),
    ("18 01" + " 00" * 23 + " 04 06 E0 04 00", 6, 27), ("1D 06 E0 04 01 44 B1" + " 20 04" * 10 + " E0 04 00", 6, 27),
    # what looks like a fault and is none: after FF, in a FIG of another type or extension
    ("03 06 20 00 FF 02 06 20", 5, 2), ("02 06 20 FF 00", 4, 2), ("04 06 E0 04 00 FF 03 06 20 00", 6, 2),
    ("22 06 20 03 07 20 00 03 06 20 00", 5, 9), ("FD", 0, 0), ("FF 00", 0, 0),
    ("22 06 20 23 06 20 00 04 05 E0 04 00", 0, 0),
]


# Blocks that know their faults


class Planned:
    """A block in the making and the faults put into it, in block order, as (outcome, place, number of its FIG)."""

    def __init__(self):
        self.data, self.figs, self.faults = b"", 0, []

    def left(self):
        return 30 - len(self.data)

    def add(self, data, *faults):
        """A FIG with these faults, given as (outcome, byte of the FIG)."""
        self.figs += 1
        self.faults += [(outcome, len(self.data) + byte, self.figs) for outcome, byte in faults]
        self.data += data

    def add_other(self, size):
        """A FIG of so many bytes that is stepped over, none for 0."""
        if size:
            self.add(fig(1, b"\x06" * (size - 1)))

    def add_linking(self, parts, continued=0, oe=0, pd=0):
        """A linking FIG of parts: (a field or the beginning of one, outcomes of its faults)."""
        fields, faults = b"", []
        for data, outcomes in parts:
            faults += [(outcome, 2 + len(fields)) for outcome in outcomes]
            fields += data
        self.add(linking_fig(continued, oe, pd, fields), *faults)

    def add_wrong(self, data=b"\0"):
        """A wrong FIG; the walk ends here."""
        self.add(data, (3, 0))

    def answer(self):
        """The fault that is answered: the first of the lowest outcome; (0, 0, 0) where there is none."""
        for wanted in (3, 4, 5, 6):
            for fault in self.faults:
                if fault[0] == wanted:
                    return fault
        return 0, 0, 0

    def block(self):
        return block(self.data)


def good(data):
    return data, []


def good_fields(size):
    """Good parts of so many bytes together, not 1 or 3: short forms, and one identifier for an odd number."""
    odd = [long(0x2004, 1, DAB, [0x44B1])] * (size % 2)
    return [good(field) for field in odd + [short(0x2004, 1)] * (size // 2 - 2 * len(odd))]


PART = {4: (b"\x36", [4]), 5: (short(0x2000, 1), [5]), 6: (long(0x2004, 1, DAB, []), [6])}      # the shortest


# Random ones


def wrong_value(dice, key, continued, left):
    """A field of at most `left` bytes that has a wrong value: often LSN 0 in short form, else any way there is."""
    on, lsn_0 = dice.below(2), key & 0xF000
    if left < 3 or dice.chance(60):
        return short(lsn_0, on), [5]
    numbers = [random_number(dice, key) for _ in range(dice.below(min(2, (left - 3) // id_size(key)) + 1))]
    field = dice.pick([long(lsn_0, on, DAB, numbers), long(key, on, 2, numbers), long(key, on, DAB, numbers, rfu=1),
                       long(key, on, DAB, numbers, shorthand=1),
                       long(key, on, dice.pick([RDS, DRM]) if key & 0x4000 else 2, numbers)])
    return field, [5] if continued or numbers else [5, 6]


def misfit(dice, key, left):
    """At most `left` bytes of the beginning of a field with a list, whatever its values are."""
    numbers = [random_number(dice, key) for _ in range(dice.below(4))]
    field = long(dice.pick([key, key & 0xF000]), dice.below(2), dice.below(4), numbers)
    return field[:dice.between(1, min(left, len(field) - 1))], [4]


def random_part(dice, key, continued, left, percent):
    """A field of at most `left` bytes (two or more), mostly in short form, good or not."""
    if left >= 3 and not continued and dice.chance(percent[6]):
        return long(key, dice.below(2), DAB if key & 0x4000 else dice.pick([DAB, RDS, DRM]), []), [6]
    if dice.chance(percent[5]):
        return wrong_value(dice, key, continued, left)
    return good(random_field(dice, key, continued, left) if dice.chance(15) else short(key, dice.below(2)))


def random_parts(dice, continued, pd, left, percent):
    """The parts of a linking FIG of at most `left` bytes together; the last may not fit."""
    parts = []

    def key():
        return pd << 14 | dice.below(4) << 12 | dice.between(1, 12)

    while left >= 2 and not dice.chance(10):
        parts.append(random_part(dice, key(), continued, left, percent))
        left -= len(parts[-1][0])
    if left and dice.chance(percent[4]):
        parts.append(misfit(dice, key(), left))
    return parts


def random_planned(dice):
    """A block of many short fields in a few FIGs, with faults of some classes in any order."""
    percent = {outcome: dice.pick([0, 0, 10, 40]) for outcome in (3, 4, 5, 6)}
    planned = Planned()
    while planned.left() >= 2 and not dice.chance(8):
        if dice.chance(15):
            planned.add(other_fig(dice, dice.between(2, min(9, planned.left()))))
            continue
        continued, pd = dice.below(2), dice.below(2)
        space = dice.between(0, planned.left() - 2) if dice.chance(60) else planned.left() - 2
        planned.add_linking(random_parts(dice, continued, pd, space, percent), continued, dice.below(2), pd)
    if planned.left() and dice.chance(percent[3]):
        planned.add_wrong(wrong_length(dice, planned.left()))
    return planned


# Scenes


def read(script, planned):
    """Reads a planned block, its answer foretold, and counts the orders of faults that it has."""
    outcome, place, number = planned.answer()
    script.block(planned.block(), outcome, place=place if outcome else None)
    if outcome:
        script.seen["%d in FIG %d" % (outcome, min(number, 3))] += 1        # the third or a later one
    for late_one, (late, late_place, late_fig) in enumerate(planned.faults):
        for early, early_place, early_fig in planned.faults[:late_one]:
            order = "and" if early_place == late_place else "then"
            script.seen["%d %s %d" % (early, order, late)] += 1
            if early_fig == late_fig:
                script.seen["%d %s %d in one FIG" % (early, order, late)] += 1


def counted_by_hand(script):
    """Blocks counted by hand, each read where lists are open."""
    for text, outcome, place in COUNTED:
        refilled(script)
        script.block(block_of(text), outcome, place=place if outcome else None)
    script.show()


def every_place(script):
    """A fault at each place where it can stand, after a FIG that is stepped over and after good fields."""
    script.empty()
    for place in PLACES[3]:
        for wrong in (0, 30 - place):                       # length 0, and one byte past the data
            planned = Planned()
            planned.add_other(place)
            planned.add_wrong(bytes([wrong]))
            read(script, planned)
        if place >= 2 and place not in (3, 5):
            planned = Planned()
            planned.add_linking(good_fields(place - 2))
            planned.add_wrong(b"\xe0")
            read(script, planned)
    for outcome in (4, 5, 6):
        for place in PLACES[outcome]:
            planned = Planned()
            planned.add_other(place - 2)
            planned.add_linking([PART[outcome]])
            if planned.left() >= 5:                         # one more, which is not the first
                planned.add_linking([PART[outcome]])
            read(script, planned)
            if place != 5:
                planned = Planned()
                planned.add_linking(good_fields(place - 2) + [PART[outcome]])
                read(script, planned)


def every_order(script):
    """One to three faults in every order: in FIGs of their own, and in one FIG with good fields between."""
    script.empty()
    for count, front, wrong in product((1, 2, 3), (0, 5), (False, True)):
        for outcomes in product((4, 5, 6), repeat=count):
            planned = Planned()
            planned.add_other(front)
            for outcome in outcomes:
                planned.add_linking([PART[outcome]])
            if wrong:
                planned.add_wrong()
            read(script, planned)
        for outcomes in product((5, 6), repeat=count):
            for last in ([], [PART[4]]):
                planned = Planned()
                planned.add_other(front)
                fields = [[good(short(0x2004, 1)), PART[outcome]] for outcome in outcomes]
                planned.add_linking(sum(fields, []) + last)
                if wrong:
                    planned.add_wrong()
                read(script, planned)


def nothing_left_over(script):
    """The place is each block's own: after a late one comes none, or 0, or an earlier one."""
    refilled(script)
    late = block_of("1A 01" + " 00" * 25 + " 02 06 20")
    value, empty_start = block_of("03 06 20 04 03 06 20 00"), block_of("04 06 E0 04 00")
    for data, outcome, place in ((EXAMPLE, 0, None), (block_of("FF"), 0, None), (EXAMPLE[:31], 1, 0), (late[:31], 1, 0),
                                 (late + b"\0", 1, 0), (b"", 1, 0), (damaged(EXAMPLE), 2, 0), (damaged(late), 2, 0),
                                 (damaged(value), 2, 0), (block_of("00"), 3, 0), (value, 5, 6), (empty_start, 6, 2)):
        script.block(late, 4, place=29)
        script.block(data, outcome, place=place)
        script.block(EXAMPLE, 0)
    assert script.do("x 2") == "x"
    for data in (late, EXAMPLE, late[:31], damaged(late), value, empty_start, block_of("03 06 20 04 00")):
        script.block(data, 9, place=0)
    script.do("u")
    script.block(late, 4, place=29)
    script.show()


def random_places(script, dice, rounds):
    """Random blocks with random faults, taken ones among them."""
    script.empty()
    for _ in range(rounds):
        read(script, random_planned(dice))
        if dice.chance(2):
            script.show()
