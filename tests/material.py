"""Material for scripts and checks: keys, pairs, FIGs, faulty blocks and sheets, good and bad.

Random where a dice is given, fixed where not.
"""

from making import block, damaged, fig, fig_for, id_size, long, short
from second.sheet import number_bytes

DAB, RDS, DRM = 0, 1, 3
FLAGS = [oe | pd | hard | ils for oe in (0, 0x8000) for pd in (0, 0x4000) for hard in (0, 0x2000)
         for ils in (0, 0x1000)]


# Random material


def random_keys(dice, count):
    keys = set()
    while len(keys) < count:
        keys.add(dice.pick(FLAGS) | dice.between(1, 4095))
    return sorted(keys)


def random_number(dice, key):
    """Of the key's width: often small, so that numbers repeat, sometimes the largest."""
    top = (1 << 8 * id_size(key)) - 1
    if dice.chance(5):
        return dice.pick([0, top, top - 1])
    if dice.chance(40):
        return dice.below(16)
    return dice.word() & top


def random_pairs(dice, key, length):
    """Different pairs, the first DAB unless OE is 1, kinds in runs, alternating or anyhow."""
    kinds = [DAB] if key & 0x4000 else dice.pick([[DAB], [DAB, RDS], [DAB, DRM], [RDS], [DRM], [DAB, RDS, DRM]])
    style = dice.below(3)
    kind, pairs, seen = dice.pick(kinds) if key & 0x8000 else DAB, [], set()
    while len(pairs) < length:
        if pairs and (style == 0 or dice.chance(20)):
            kind = dice.pick(kinds)
        elif pairs and style == 1:
            kind = kinds[len(pairs) % len(kinds)]
        pair = (kind, random_number(dice, key))
        if pair not in seen:
            seen.add(pair)
            pairs.append(pair)
    return pairs


def random_field(dice, key, continued, space):
    """A good field of this key within the space, or None."""
    size = id_size(key)
    fewest = 0 if continued else 1
    most = min(15, (space - 3) // size)
    if most < fewest or dice.chance(25):
        return short(key, dice.below(2)) if space >= 2 else None
    qualifier = DAB if key & 0x4000 else dice.pick([DAB, DAB, RDS, DRM])
    count = most if dice.chance(20) else dice.between(fewest, min(most, 4) if dice.chance(60) else most)
    return long(key, dice.below(2), qualifier, [random_number(dice, key) for _ in range(count)])


def random_linking_fig(dice, keys, space):
    """A good linking FIG of at most `space` bytes for some of these keys."""
    first = dice.pick(keys)
    alike = [key for key in keys if key >> 14 == first >> 14]
    continued = dice.below(2)
    fields, left = [], space - 2
    while left >= 2 and not (fields and dice.chance(45)):
        field = random_field(dice, dice.pick(alike), continued, left)
        fields.append(field)
        left -= len(field)
    if dice.chance(3):
        fields = []
    return fig_for(first, continued, *fields)


def other_fig(dice, space):
    """A FIG of at most `space` bytes that is to be stepped over."""
    length = dice.between(1, space - 1)
    body = bytearray(dice.below(256) for _ in range(length))
    kind = dice.below(8)
    if kind == 0 and body[0] & 31 == 6:
        body[0] ^= 1
    return fig(kind, bytes(body))


def random_figs(dice, keys, space=30):
    """Good FIGs of at most `space` bytes together."""
    figs, left = [], space
    while left >= 4 and not (figs and dice.chance(35)):
        one = other_fig(dice, left) if dice.chance(12) else random_linking_fig(dice, keys, left)
        figs.append(one)
        left -= len(one)
    return figs


# Faults: small FIGs, each wrong in one way

WRONG_FIELDS = [bytes.fromhex(text) for text in (       # outcome 4
    "02 06 20", "02 86 E0", "02 26 00", "04 06 20 04 20", "03 06 A0 04", "03 86 F0 04", "04 26 B0 04 01",
    "04 06 E0 04 01", "05 06 E0 04 01 44", "06 06 F0 04 01 44 B1", "07 26 E0 04 01 44 B1 00",
    "07 06 E0 04 02 44 B1 00", "07 06 E0 04 01 44 B1 20", "06 86 A0 00 02 44 B1", "04 06 20 00 04",
    "05 06 E0 04 00 36")]

FORBIDDEN = [bytes.fromhex(text) for text in (          # outcome 5
    # LSN 0: short form, start, continuation, beside a good field, with count 0
    "03 06 20 00", "03 86 70 00", "03 46 00 00", "03 26 10 00", "06 06 A0 00 01 44 B1", "06 86 A0 00 01 44 B1",
    "05 06 20 04 20 00", "04 06 E0 00 00",
    # Rfu, shorthand
    "06 06 E0 04 81 44 B1", "06 86 E0 04 A1 44 B1", "06 06 E0 04 11 44 B1", "06 86 E0 04 31 44 B1",
    "04 06 E0 04 90", "04 86 E0 04 80", "04 86 E0 04 10",
    # qualifier 2
    "06 06 E0 04 41 44 B1", "06 86 E0 04 41 44 B1", "07 06 F0 04 41 E1 44 B1", "04 86 E0 04 40", "04 06 E0 04 40",
    # P/D 1 with a qualifier not 0
    "08 26 E0 04 21 00 00 44 B1", "08 26 E0 04 61 00 00 44 B1", "08 A6 E0 04 61 00 00 44 B1",
    "08 66 F0 04 41 E0 12 43 B9", "04 A6 E0 04 20", "04 26 E0 04 60")]

EMPTY_STARTS = [bytes.fromhex(text) for text in (       # outcome 6
    "04 06 E0 04 00", "04 06 A0 04 20", "04 06 F0 04 60", "04 26 E0 04 00", "04 46 80 07 00",
    "06 06 20 04 A0 05 00")]

FAULTS = {4: WRONG_FIELDS, 5: FORBIDDEN, 6: EMPTY_STARTS}

LATER_FIELDS = {bytes.fromhex(text): byte for text, byte in (       # where it is not the FIG's first field
    ("04 06 20 04 20", 4), ("07 06 E0 04 01 44 B1 20", 7), ("04 06 20 00 04", 4), ("05 06 E0 04 00 36", 5),
    ("05 06 20 04 20 00", 4), ("06 06 20 04 A0 05 00", 4))}


def fault_byte(one):
    """The byte of one of these FIGs at which the field at fault begins."""
    return LATER_FIELDS.get(one, 2)


def wrong_length(dice, left):
    """The beginning of a FIG that is wrong with `left` bytes left: length 0, or past the data."""
    if dice.chance(50):
        return bytes([dice.below(8) << 5])
    length = dice.between(left, 31)
    kind = dice.below(7)
    body = dice.pick([b"\x06", b"\x01", b"\xff", b"\0"]) * (left - 1)
    return bytes([kind << 5 | length]) + body


def faulty_block(dice, keys, outcomes):
    """A block with these outcomes' faults (2 to 6) in it, in any order, among good FIGs."""
    figs = [dice.pick(FAULTS[outcome]) for outcome in outcomes if outcome in FAULTS]
    left = 29 - sum(len(one) for one in figs)
    if left >= 6 and dice.chance(60):
        figs.append(random_linking_fig(dice, keys, left))
    figs = dice.shuffled(figs)
    if 3 in outcomes:
        left = 30 - sum(len(one) for one in figs)
        figs.append(wrong_length(dice, left))
    whole = block(*figs)
    return damaged(whole, dice.below(256)) if 2 in outcomes else whole


# Sheets


def sheet_bytes(items):
    """A sheet from numbers; bytes among them stand as they are."""
    return b"".join(item if isinstance(item, bytes) else number_bytes(item) for item in items)


ONE = [1, 0x2004, 1, 1, 2, 0, 0x44B1, 1, 0x44B1]     # document 01, example 15

GOOD_SHEETS = [
    [0], ONE, [1, 1, 0, 0, 1, 0, 0], [1, 0x8001, 1, 3, 1, 0, 0xFFFF],
    [1, 0x2004, 0, 2, 1, 0, 127], [1, 0x2004, 0, 2, 2, 0, 128, 3, 128], [1, 0x2004, 0, 3, 2, 0, 16383, 1, 16384],
    [1, 0x3004, 1, 3, 4, 0, (1 << 21) - 1, 0, 1 << 21, 1, (1 << 24) - 1, 3, 0],
    [1, 0x4001, 1, 0, 3, 0, (1 << 28) - 1, 0, 1 << 28, 0, (1 << 32) - 1],
    [1, 0x5001, 1, 0, 1, 0, (1 << 32) - 1], [1, 0xFFFF, 1, 0, 1, 0, 0],
    [2, 0x2004, 1, 0, 1, 0, 5, 0x2005, 0, 3, 3, 0, 5, 1, 5, 3, 5],
    [1, 0xA004, 1, 1, 1, 1, 5], [2, 0x2004, 1, 1, 2, 0, 5, 1, 6, 0xB004, 0, 3, 2, 3, 5, 0, 5],      # OE 1
]

BAD_SHEETS = [
    [], [b"\x80"], [b"\xff" * 9], [1], [2] + ONE[1:], ONE + [0], ONE + [b"\x80"], ONE + ONE,          # lengths
    [b"\x81\x00"] + ONE[1:], ONE[:2] + [b"\x81\x00"] + ONE[3:], ONE[:6] + [b"\xb1\x89\x81\x00"] + ONE[7:],
    [b"\x80\x00"], [b"\x80\x80\x80\x80\x00"],                                                  # not the fewest bytes
    [1, 0x4001, 1, 0, 1, 0, b"\xff\xff\xff\xff\x1f"], [1, 0x4001, 1, 0, 1, 0, b"\x80\x80\x80\x80\x10"],
    [1, 0x4001, 1, 0, 1, 0, b"\x81\x80\x80\x80\x80\x00"], [1, 0x4001, 1, 0, 1, 0, b"\x81\x80\x80\x80\x80\x01"],
    [b"\x81\x80\x80\x80\x10"] + ONE[1:], [1, b"\x84\xc0\x80\x80\x10"] + ONE[2:],                # 2^32 and above
    [2, 0x2005, 1, 0, 1, 0, 5, 0x2004, 1, 0, 1, 0, 5], [2, 0x2004, 1, 0, 1, 0, 5, 0x2004, 1, 0, 1, 0, 5],
    [2, 0x2004, 1, 0, 1, 0, 5, 0x2004, 0, 0, 1, 0, 6],                                              # order of keys
    [1, 0, 1, 0, 1, 0, 5], [1, 0x2000, 1, 0, 1, 0, 5], [1, 0xF000, 1, 0, 1, 0, 5],                  # LSN 0
    [1, 65536, 1, 0, 1, 0, 5], [1, 65537, 1, 0, 1, 0, 5], [1, 0x12004] + ONE[2:], [1, 0xFFFFFFFF] + ONE[2:],
    ONE[:2] + [2] + ONE[3:], ONE[:2] + [128] + ONE[3:],                                             # on
    ONE[:3] + [4] + ONE[4:], ONE[:3] + [5] + ONE[4:], ONE[:3] + [0] + ONE[4:], ONE[:3] + [2] + ONE[4:],
    [1, 0x2004, 1, 1, 2, 0, 5, 3, 5], [1, 0x2004, 1, 3 + 128, 2, 0, 5, 3, 5],                       # named kinds
    [1, 0x2004, 1, 0, 0], [1, 0x2004, 1, 1, 0], [1, 0x4004, 1, 0, 0],                               # no identifier
    [1, 0x2004, 1, 0, 2, 0, 5, 2, 6], [1, 0x2004, 1, 3, 2, 0, 5, 2, 6], [1, 0x2004, 1, 3, 2, 0, 5, 4, 6],
    [1, 0x2004, 1, 0, 1, 0, 65536], [1, 0x3004, 1, 0, 1, 0, 1 << 24], [1, 0xB004, 1, 3, 2, 0, 5, 3, 1 << 24],
    [1, 0x2004, 1, 0, 2, 0, 5, 0, 5], [1, 0x2004, 1, 1, 3, 0, 5, 1, 5, 1, 5],                       # a pair twice
    [1, 0x2004, 1, 1, 1, 1, 5], [1, 0x2004, 1, 3, 2, 3, 5, 0, 5], [1, 0x3004, 1, 2, 1, 3, 5],       # first not DAB
    [1, 0xA004, 1, 0, 1, 1, 5], [1, 0xB004, 1, 1, 1, 3, 5], [1, 0xC004, 1, 1, 1, 1, 5],             # with OE 1
    [1, 0x4004, 1, 1, 1, 0, 5], [1, 0x4004, 1, 2, 1, 0, 5], [1, 0x4004, 1, 1, 2, 0, 5, 1, 6],
    [1, 0x4004, 1, 0, 2, 0, 5, 1, 6], [1, 0xC004, 1, 3, 2, 0, 5, 3, 6],                             # P/D 1
    [1, 0x2004, 1, 1, 2, 0, 5], [1, 0x2004, 1, 1], [33], [200, 1, 0, 0, 1, 0, 5],
]


def many_sets(count):
    """A sheet of this many small sets."""
    return [count] + [item for lsn in range(1, count + 1) for item in (0x2000 + lsn, lsn % 2, 0, 1, 0, lsn)]


def long_sheet(length, key=0x2004):
    """A sheet of one set with this many identifiers."""
    return [1, key, 1, 0, length] + [item for number in range(length) for item in (0, number)]


def largest_sheet():
    """24,801 bytes: 32 keys with P/D 1, 128 identifiers of 2^28 or more each."""
    items = [32]
    for place in range(32):
        items += [0x4100 + 0x123 * place, place % 2, 0, 128]
        for number in range(128):
            items += [0, (1 << 28) + (place << 20) + 0x1FFF * number]
    return sheet_bytes(items)


def most_pieces(flags, count=32, kinds=(DAB, RDS)):
    """A sheet of sets with the most pieces: two kinds by turns, all kinds named; 128 each, with OE 1 129."""
    items = [count]
    for place in range(count):
        items += [flags + 1 + place, place % 2, 3, 128]
        for number in range(128):
            items += [kinds[number % 2], 0x40B1 + 0x101 * (number // 2)]
    return sheet_bytes(items)
