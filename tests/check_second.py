"""Checks the second program against itself and against document 01.

    python3 tests/check_second.py

Prints a line for each check; exit status 1 if one fails.
"""

import copy
import re
import sys
import traceback
from collections import Counter
from itertools import groupby, product

sys.dont_write_bytecode = True

import cases
from counting import Counting
from making import (Dice, block, block_of, damaged, linking_fig, long, more, short, start, state, whole_list,
                    with_check)
from material import (BAD_SHEETS, DAB, DRM, GOOD_SHEETS, RDS, faulty_block, largest_sheet, long_sheet, many_sets,
                      most_pieces, random_figs, random_keys, random_pairs, sheet_bytes)
from places import COUNTED, PLACES, random_planned
from second import air, columns, sheet, spoil, stored
from second.block import check_of, check_passes
from second.check import report, report_text
from second.field import NAME, examine
from second.listing import listing, table_of
from second.replay import Replay, run
from second.table import (LAST_BLOCK, SHOWN_AND_OPENED, Entry, IdList, Table, collect, copy_out, count_block,
                          drop_open_lists, forget, meets_rules, read_block, shown_sets)
from second.totals import totals_text

EXAMPLE = block_of("08 06 E0 04 22 44 B1 44 B1")
LENGTHS = [1, 1, 2, 2, 3, 6, 7, 8, 9, 12, 13, 14, 24, 25, 36, 127, 128]
FIRST_KINDS = {(0, DAB), (1, DAB), (1, RDS), (1, DRM)}      # OE and the kinds that may begin a set


# Random tables


def random_ids(dice, key):
    """A list that meets the rules: any length, kinds anyhow, sometimes a dead link."""
    pairs = random_pairs(dice, key, dice.pick(LENGTHS))
    named = 0
    for kind, _ in pairs:
        named |= NAME[kind]
    if not key & 0x4000 and dice.chance(40):
        named |= dice.between(1, 3)
    return IdList(pairs, named)


def random_table(dice, most=32):
    """A table that meets the rules, with entries of every sort, and any count."""
    table = Table(blocks=dice.pick([0, 1, 7, dice.below(1000), dice.word(), LAST_BLOCK - 1, LAST_BLOCK]))
    for key in random_keys(dice, dice.between(0, most)):
        shown = random_ids(dice, key) if dice.chance(70) else None
        opened = random_ids(dice, key) if dice.chance(50) else None
        number = dice.pick([0, table.blocks, dice.below(table.blocks + 1)]) if shown else 0
        table[key] = Entry(dice.chance(50), shown, opened, number)
    return table


def corner_tables():
    """Tables at the limits of the writers."""
    sheets = [largest_sheet(), most_pieces(0x2000), most_pieces(0x9000), most_pieces(0x8000, 32, (RDS, DAB)), b"\0"]
    sheets += [sheet_bytes(items) for items in GOOD_SHEETS + [many_sets(32), long_sheet(128), long_sheet(128, 0x4004)]]
    return [loaded(data) for data in sheets]


def loaded(data):
    outcome, table = sheet.load(data)
    assert outcome == 0
    return table


def shows(table):
    """What a table shows, for comparison."""
    return [(key, entry.on, entry.shown.named, entry.shown.pairs) for key, entry in shown_sets(table)]


def first_kinds(table):
    """OE and kind of the first identifier, of each shown set."""
    return {(key >> 15, entry.shown.pairs[0][0]) for key, entry in shown_sets(table)}


def read_all(table, blocks):
    for data in blocks:
        assert read_block(table, data)[0] == 0


# The checks; each answers a few words on what it did


def block_check():
    """The check against two known values; one turned bit is always noticed."""
    assert check_of(b"\xff" + bytes(29)) == 0xA8A8
    assert check_of(b"123456789") == 0xD64E
    dice = Dice(1)
    for _ in range(20):
        good = with_check(bytes(dice.below(256) for _ in range(30)))
        assert check_passes(good)
        assert not any(check_passes(damaged(good, bit)) for bit in range(256))
    return "A8A8 for the empty FIB"


def examples():
    """Document 01, Examples: what it says of each, typed in by hand."""
    once, both = "2004 on #0 shown - open 1 D44B1 R44B1", "2004 on #2 shown 1 D44B1 R44B1 open 1 D44B1 R44B1"
    none = "2004 on #0 shown - open -"
    off = "2004 off #2 shown 1 D44B1 R44B1 open 1 D44B1 R44B1"
    for number, blocks, answers in (
            (1, [EXAMPLE], ["b 0 1", "t 1 #1", once]),
            (2, [EXAMPLE] * 2, ["b 0 1", "b 0 2", "t 1 #2", both]),
            (3, [EXAMPLE] * 2 + [block_of("03 06 20 04")], ["b 0 1", "b 0 2", "b 0 7", "t 1 #3", off]),
            (4, [EXAMPLE, damaged(EXAMPLE), EXAMPLE], ["b 0 1", "b 2 @0", "b 0 1", "t 1 #3", once]),
            (5, [block_of("FF")], ["b 0", "t 0 #1"]),
            (6, [EXAMPLE, block_of("00")], ["b 0 1", "b 3 @0", "t 1 #2", none]),
            (7, [EXAMPLE, block_of("02 06 20")], ["b 0 1", "b 4 @2", "t 1 #2", none]),
            (8, [EXAMPLE, block_of("03 06 20 00")], ["b 0 1", "b 5 @2", "t 1 #2", none]),
            (9, [EXAMPLE, block_of("04 06 E0 04 00")], ["b 0 1", "b 6 @2", "t 1 #2", none]),
            (10, [block_of("04 26 36 E0 04"), block_of("04 26 36 E0 04 00")], ["b 4 @4", "b 3 @5", "t 0 #2"]),
            (11, [EXAMPLE, EXAMPLE[:31]], ["b 0 1", "b 1 @0", "t 1 #1", once]),
            (12, [with_check(b"\x1d\x01".ljust(30, b"\x11"))], ["b 0", "t 0 #1"]),
            (13, [with_check(b"\x1e\x01".ljust(30, b"\x11"))], ["b 3 @0", "t 0 #1"])):
        script = "".join("b %s\n" % data.hex() for data in blocks) + "t\n"
        assert run(script.encode()) == answers, number
    table = Table()                                                                 # 13
    read_all(table, whole_list(0x2004, 1, [(DAB, number) for number in range(127)]))
    assert read_block(table, more(0x2004, 1, DAB, [500])) == (0, 0, [3]) and len(table[0x2004].open.pairs) == 128
    assert read_block(table, more(0x2004, 1, DAB, [501])) == (0, 0, [6]) and table[0x2004].open is None
    table = Table()                                                                 # 14
    read_all(table, [start(0x2001 + place, 1, DAB, [1]) for place in range(32)])
    assert read_block(table, start(0x2021, 1, DAB, [1])) == (0, 0, [5]) and 0x2021 not in table
    assert forget(table, 0x2001) == 0
    assert read_block(table, start(0x2021, 1, DAB, [1])) == (0, 0, [1]) and 0x2021 in table
    table = Table()                                                                 # 15
    read_all(table, [EXAMPLE] * 2)
    written = bytes.fromhex("01 84 40 01 01 02 00 B1 89 01 01 B1 89 01")
    assert sheet.sheet_of(shown_sets(table)) == written
    assert sheet.load(b"\x81\0" + written[1:]) == (10, Table())
    assert listing(EXAMPLE * 2) == ["sets 1", "2004 on ids 2 D44B1 R44B1"]          # 16
    assert listing(b"") == ["sets 0"]
    return "1 to 16"


def decided_points():
    """Points of document 01 that can be misread, each as it is to be read."""
    key, full = 0x2004, [(DAB, number) for number in range(128)]
    table = Table()                         # repeated pairs do not count towards 128
    read_all(table, whole_list(key, 1, full))
    assert read_block(table, more(key, 0, DAB, list(range(12)))) == (0, 0, [3]) and table[key].open.pairs == full
    assert not table[key].on
    assert read_block(table, more(key, 1, RDS, [0])) == (0, 0, [6])    # the same number of another kind does
    assert table[key].on and table[key].open is None and table[key].shown is None
    assert read_block(table, more(key, 0, RDS, [0])) == (0, 0, [4]) and not table[key].on
    assert copy_out(table, key, [0] * 256, bytearray(256)) == 11    # held, not shown
    assert copy_out(table, key | 0x10000, [0] * 256, bytearray(256)) == 7
    assert stored.fetch(stored.store(table)) == table               # held without lists is a good table
    one = IdList([(DAB, 5)], 3)             # one identifier: qualifier 0, names by count 0, RDS first
    assert air.pieces_of(key, one) == [(False, DAB, [5]), (True, RDS, []), (True, DRM, [])]
    run_of = IdList([(DAB, 99)] + [(RDS, number) for number in range(13)], 1)
    assert [len(numbers) for _, _, numbers in air.pieces_of(key, run_of)] == [12, 2]
    table = Table()                         # a start names its own qualifier's kind alone
    read_all(table, [start(key, 1, RDS, [5]), more(key, 1, DRM, []), start(key, 1, DRM, [5])])
    assert table[key].shown.named == 3 and table[key].open.named == 2
    assert sheet.load(b"") == (10, Table()) and sheet.load(b"\0") == (0, Table())
    return "repeated pairs, names, held without lists, one identifier"


def other_ensemble():
    """Document 02, R-3, by hand: one list of FM codes with OE 0 and with OE 1, and what may begin a set."""
    tuned, other = block_of("08 06 C1 00 22 65 11 6B 11"), block_of("08 46 C1 00 22 65 11 6B 11")
    both = listing((tuned + other) * 2)
    assert both == ["sets 2", "0100 on ids 2 D6511 R6B11", "8100 on ids 2 R6511 R6B11"]
    table = Table()
    read_all(table, [tuned, other] * 2)
    assert air.blocks_of(shown_sets(table)) == [tuned, other]
    written = bytes.fromhex("02 8002 01 01 02 00 91CA01 01 91D601 808202 01 01 02 01 91CA01 01 91D601")
    assert sheet.sheet_of(shown_sets(table)) == written and shows(loaded(written)) == shows(table)
    for key, named, pairs, outcome in (
            (0x0100, 1, [(RDS, 5)], 10), (0x0100, 2, [(DRM, 5)], 10), (0x1100, 1, [(RDS, 5)], 10),   # OE 0
            (0x8100, 1, [(RDS, 5)], 0), (0x9100, 2, [(DRM, 5)], 0), (0x9100, 3, [(DRM, 5), (RDS, 5)], 0),
            (0x8100, 0, [(RDS, 5)], 10), (0x8100, 2, [(RDS, 5)], 10), (0x9100, 1, [(DRM, 5)], 10),  # not named
            (0x8100, 0, [(DAB, 5)], 0), (0x8100, 1, [(DAB, 5), (RDS, 5)], 0), (0xC100, 0, [(DAB, 5)], 0),   # old ones
            (0xC100, 1, [(RDS, 5)], 10), (0xC100, 0, [(RDS, 5)], 10)):                              # P/D 1
        ids = IdList(pairs, named)
        for table in (Table({key: Entry(True, ids)}), Table({key: Entry(True, None, ids)})):
            assert meets_rules(table) == (outcome == 0), (key, pairs)
            assert stored.fetch(stored.store(table)) == (None if outcome else table), (key, pairs)
        assert sheet.load(sheet.sheet_of([(key, Entry(True, ids))]))[0] == outcome, (key, pairs)
    for kind in (DAB, RDS, DRM):            # one identifier: with OE 1 its own kind, not 0
        assert air.pieces_of(0x8100, IdList([(kind, 5)], NAME[kind])) == [(False, kind, [5])]
    long_run = IdList([(RDS, number) for number in range(13)] + [(DAB, 0)], 3)
    cut = [(kind, len(numbers)) for _, kind, numbers in air.pieces_of(0x8100, long_run)]
    assert cut == [(RDS, 12), (RDS, 1), (DAB, 1), (DRM, 0)]
    assert examine(block_of("04 46 C1 00 20"))[:2] == (6, 2)        # an empty start is one with OE 1 too
    table = Table()                         # a continuation is of its own kind, with OE 1 as with OE 0
    read_all(table, [start(0x8100, 1, DRM, [5, 5, 6]), more(0x8100, 1, RDS, [5]), more(0x8100, 1, DRM, [6, 5, 7])])
    assert table[0x8100].open == IdList([(DRM, 5), (DRM, 6), (RDS, 5), (DRM, 7)], 3)
    return "reading, writing, sheet, rules"


def bits_examine(data):
    """Outcome, place and fields of a block once more, over its bits as a text of 0 and 1, class after class."""
    if len(data) != 32 or not check_passes(data):
        return (1 if len(data) != 32 else 2), 0, []
    bits, figs = "".join("{:08b}".format(byte) for byte in data[:30]), []
    while bits and not bits.startswith("11111111"):
        length = int(bits[3:8], 2) * 8
        if length == 0 or length > len(bits) - 8:
            return 3, 30 - len(bits) // 8, []
        figs.append((bits[:3], bits[8:8 + length], len(bits) - 8 - length))
        bits = bits[8 + length:]
    fields = []
    for kind, body, after in figs:              # after: how many bits of the data come after this FIG
        if kind != "000" or body[3:8] != "00110":
            continue
        flags, rest = body[:3], body[8:]
        while rest:
            place = 30 - (len(rest) + after) // 8
            listed, la, key, rest = rest[:1], rest[1:2], flags[1:] + rest[2:16], rest[16:]
            if len(key) < 16:
                return 4, place, []
            mark, numbers = None, []
            if listed == "1":
                mark, rest = rest[:8], rest[8:]
                size = 32 if key[1] == "1" else 24 if key[3] == "1" else 16
                if len(mark) < 8 or int(mark[4:], 2) * size > len(rest):
                    return 4, place, []
                for _ in range(int(mark[4:], 2)):
                    numbers.append(int(rest[:size], 2))
                    rest = rest[size:]
            fields.append((place, int(key, 2), flags[0] == "1", la == "1", mark, numbers))
    for place, key, _, _, mark, _ in fields:
        if key % 4096 == 0:
            return 5, place, []
        if mark and (mark[0] == "1" or mark[3] == "1" or mark[1:3] == "10" or key & 0x4000 and mark[1:3] != "00"):
            return 5, place, []
    for place, _, continued, _, mark, numbers in fields:
        if mark and not continued and not numbers:
            return 6, place, []
    return 0, 0, [(place, key, cn, on, mark and int(mark, 2), numbers) for place, key, cn, on, mark, numbers in fields]


def reading_over_bits():
    """The field reader against one that works on a text of bits, on good, faulty and arbitrary blocks."""
    dice = Dice(2)
    keys = random_keys(dice, 10)
    met = set()
    for _ in range(5000):
        what = dice.below(5)
        if what == 0:
            data = block(*random_figs(dice, keys))
        elif what == 1:
            data = faulty_block(dice, keys, [outcome for outcome in (3, 4, 5, 6) if dice.chance(40)])
        elif what == 2:
            spoiled = bytearray(block(*random_figs(dice, keys))[:30])
            spoiled[dice.below(12)] ^= 1 << dice.below(8)
            data = with_check(bytes(spoiled))
        elif what == 3:
            data = random_planned(dice).block()
        else:
            data = bytes(dice.below(256) for _ in range(30))
            data = with_check(dice.pick([b"\x06\x06", b"\x1d\x06", b"\x05\x86", b"\x1d\x26", b""]) + data)[:30]
            data = with_check(data)
        outcome, place, fields = examine(data)
        assert (outcome, place, [tuple(field) for field in fields]) == bits_examine(data), data.hex()
        met.add((outcome, place))
    every = {(outcome, place) for outcome in PLACES for place in PLACES[outcome]} | {(0, 0)}
    assert met <= every and len(met) >= 100, (met - every, len(met))
    return "5000 blocks, %d outcomes with their places" % len(met)


def counted_places():
    """The place of a refusal: blocks counted by hand, through the reader and through a script."""
    met = set()
    for text, outcome, place in COUNTED:
        data = block_of(text)
        assert examine(data)[:2] == bits_examine(data)[:2] == (outcome, place), text
        assert read_block(Table(), data)[:2] == (outcome, place), text
        answer = run(b"b " + data.hex().encode())
        assert answer == ["b 0" if outcome == 0 else "b %d @%d" % (outcome, place)], text
        met.add(outcome)
        if outcome:
            assert examine(damaged(data)) == (2, 0, []) and examine(data[:31]) == (1, 0, []), text
    assert met == {0, 3, 4, 5, 6}
    late, value = (block_of(text).hex() for text in ("1A 01" + " 00" * 25 + " 02 06 20", "03 06 20 04 03 06 20 00"))
    script = "b %s\nb %s\nb %s\nb\nb %s\nx 2\nb %s\nu\nb %s\n" % (late, EXAMPLE.hex(), damaged(EXAMPLE).hex(),
                                                                 value, late, late)
    assert run(script.encode()) == ["b 4 @29", "b 0 1", "b 2 @0", "b 1 @0", "b 5 @6", "x", "b 9 @0", "u", "b 4 @29"]
    return "%d blocks" % len(COUNTED)


def made_places():
    """The place of a refusal: blocks whose faults are known from their making."""
    dice = Dice(14)
    met = set()
    for _ in range(4000):
        planned = random_planned(dice)
        outcome, place, _ = planned.answer()
        assert examine(planned.block())[:2] == (outcome, place), planned.data.hex()
        met.add((outcome, place))
    assert len(met) >= 100, len(met)
    return "4000 blocks, %d outcomes with their places" % len(met)


def reports():
    """The report on a recording, written by hand."""
    assert report_text(b"") == "blocks 0, refused 0\n" and report_text(EXAMPLE[:31]) == "blocks 0, refused 0\nrest 31\n"
    assert report_text(EXAMPLE * 2) == "blocks 2, refused 0\n"
    texts = ("03 06 20 04 00", "02 06 20", "06 06 E0 04 00 20 00", "04 06 E0 04 00", "FF")
    recording = EXAMPLE + damaged(EXAMPLE) + b"".join(map(block_of, texts)) + b"12345"
    assert report_text(recording) == ("block 2: 2, check fails\nblock 3: 3 at byte 4, wrong FIG\n"
                                      "block 4: 4 at byte 2, wrong field\nblock 5: 5 at byte 5, wrong value\n"
                                      "block 6: 6 at byte 2, empty start\nblocks 7, refused 5\nrest 5\n")
    starts = [start(0x2001 + place, 1, DAB, [1]) for place in range(34)]
    recording = starts[:32] + [damaged(starts[32])] + starts[32:] + starts
    assert report(b"".join(recording)) == ["block 33: 2, check fails", "blocks 69, refused 1", "starts without room 4"]
    return "every outcome, rest, starts without room"


def plain_room(recording):
    """How many starts find no room: those of all but the first 32 keys that are started."""
    fields = [field for data in recording for field in examine(data)[2]]
    keys = [field.key for field in fields if field.mark is not None and not field.continued]
    first = list(dict.fromkeys(keys))[:32]
    return sum(key not in first for key in keys)


def random_reports():
    """The report on random recordings against the answers block by block and the keys in their order."""
    dice = Dice(15)
    most = 0
    for keys in (random_keys(dice, count) for count in (1, 5, 32, 33, 45, 90)):
        recording = [random_block(dice, keys, 15) for _ in range(200)]
        lines, rest = [], len(keys) % 32
        for line in report(b"".join(recording) + bytes(rest)):
            lines.append(re.fullmatch("block ([0-9]+): ([2-6])(?: at byte ([0-9]+))?, [a-zFIG ]+|(.*)", line).groups())
        refused = [(number, *examine(data)[:2]) for number, data in enumerate(recording, 1) if examine(data)[0]]
        said = [(int(number), int(outcome), int(place or 0)) for number, outcome, place, other in lines if not other]
        assert said == refused and len(said) > 10
        room = plain_room(recording)
        ends = [("blocks 200, refused %d", len(said)), ("starts without room %d", room), ("rest %d", rest)]
        assert [line[3] for line in lines[len(said):]] == [form % count for form, count in ends if count]
        most = max(most, room)
    assert most > 50, most
    return "up to %d starts without room" % most


def plain_entry(recording, key):
    """What is held of a key after a recording of whole blocks, from its fields alone and without a table.

    Held: the key is among the first 32 that are started.  Open: the list of
    the latest start, if nothing ended it.  Shown: the list of the latest
    start whose list still stood at the next start; its number is that of the
    block with that next one.
    """
    started = []
    history, where = [], []                 # fields of the key, None for a refused block; and their blocks
    for number, data in enumerate(recording, 1):
        outcome, _, fields = examine(data)
        if outcome >= 2:
            history.append(None)
            where.append(number)
        for field in fields:
            is_start = field.mark is not None and not field.continued
            if is_start and field.key not in started:
                started.append(field.key)
            if field.key == key and key in started[:32]:
                history.append(field)
                where.append(number)
    if key not in started[:32]:
        return None
    states = [field.on for field in history if field]
    starts = [place for place, field in enumerate(history) if field and field.mark is not None and not field.continued]
    lists = [plain_list(history[begin:end]) for begin, end in zip(starts, starts[1:] + [len(history)])]
    whole = [(ids, where[end]) for ids, end in zip(lists, starts[1:]) if ids] or [(None, 0)]
    return Entry(states[-1], whole[-1][0], lists[-1], whole[-1][1])


def plain_list(history):
    """The list of a start and what follows it up to the next start; None if it was dropped."""
    pairs, named = [], 0
    for field in history:
        if field is None:
            return None
        if field.mark is None:
            continue
        kind = field.mark >> 5 & 3
        named |= {0: 0, 1: 1, 3: 2}[kind]
        for place, number in enumerate(field.numbers):
            service = place == 0 and not field.continued and field.key < 0x8000
            pairs.append((DAB if service else kind, number))
        pairs = list(dict.fromkeys(pairs))
        if len(pairs) > 128:
            return None
    return IdList(pairs, named)


def plain_reader():
    """The table against a reader that keeps none, on recordings of few keys and of more than 32."""
    dice = Dice(3)
    shown, firsts = 0, set()
    for count in (1, 2, 3, 5, 8, 45):
        for _ in range(4):
            keys = random_keys(dice, count)
            recording = [random_block(dice, keys, 4) for _ in range(150)]
            if count < 3:                   # long lists, past 128 too
                recording += [more(keys[0], 1, DAB, [dice.below(200) for _ in range(6)]) for _ in range(60)]
                recording.insert(150, start(keys[0], 1, DAB, [1]))
                recording += [start(keys[0], 1, DAB, [1])]
            table = Table()
            for data in recording:
                read_block(table, data)
            assert table.blocks == len(recording)
            for key in keys:
                assert table.get(key) == plain_entry(recording, key), "%X" % key
            shown += len(shown_sets(table))
            firsts |= first_kinds(table)
    assert shown > 50 and firsts == FIRST_KINDS
    return "%d shown sets" % shown


def random_block(dice, keys, percent_refused):
    """A good block of these keys, or a refused one."""
    if dice.chance(percent_refused):
        return faulty_block(dice, keys, [dice.between(2, 6)])
    return block(*random_figs(dice, keys))


def air_read_back():
    """Written for air and read twice into an empty table: the same sets; read once: none."""
    dice = Dice(4)
    tables = [random_table(dice, dice.pick([1, 3, 32])) for _ in range(60)]
    assert set.union(*map(first_kinds, tables)) == FIRST_KINDS
    tables += corner_tables()
    for table in tables:
        assert meets_rules(table)
        blocks = air.blocks_of(shown_sets(table))
        again = Table()
        read_all(again, blocks)
        assert not shows(again)
        read_all(again, blocks)
        assert shows(again) == shows(table)
        for data in blocks:
            assert data[data[0] + 1] == 0xFF and not any(data[data[0] + 2:30])
    return "%d tables" % len(tables)


def sheets_back():
    """A sheet loads to what the table shows, without numbers, and is written again equal; equal sheets, equal sets."""
    dice = Dice(5)
    tables = corner_tables() + [random_table(dice, dice.pick([1, 3, 32])) for _ in range(150)]
    seen = {}
    for table in tables:
        data = sheet.sheet_of(shown_sets(table))
        again = loaded(data)
        assert meets_rules(again) and shows(again) == shows(table)
        assert all(entry.open is None and entry.confirmed == 0 for entry in again.values()) and again.blocks == 0
        assert sheet.sheet_of(shown_sets(again)) == data
        assert seen.setdefault(data, shows(table)) == shows(table)
    return "%d tables" % len(tables)


def strict_sheet(data):
    """Whether these bytes are a sheet, tested number by number as document 01 says it."""
    place = 0

    def number():
        nonlocal place
        value = 0
        for group in range(5):
            byte = data[place]              # IndexError where the sheet ends too soon
            place += 1
            value |= (byte & 127) << 7 * group
            if byte < 128:
                assert value < 1 << 32 and (group == 0 or byte)
                return value
        raise AssertionError

    try:
        last, sets = 0, number()
        assert sets <= 32
        for _ in range(sets):
            key, on, named, count = number(), number(), number(), number()
            assert last < key < 65536 and key % 4096 and on <= 1 and named <= 3 and 1 <= count <= 128
            size = 32 if key & 0x4000 else 24 if key & 0x1000 else 16
            pairs = [(number(), number()) for _ in range(count)]
            kinds = {kind for kind, _ in pairs}
            assert kinds <= {0, 1, 3} and (pairs[0][0] == 0 or key >= 0x8000) and len(set(pairs)) == count
            assert all(value < 1 << size for _, value in pairs)
            assert (1 not in kinds or named & 1) and (3 not in kinds or named & 2)
            assert not key & 0x4000 or (named == 0 and kinds == {0})
            last = key
        return place == len(data)
    except (AssertionError, IndexError):
        return False


def sheets_accepted():
    """The loader against a strict reader, on good sheets, bad ones and changed ones."""
    dice = Dice(6)
    accepted = refused = 0
    samples = [sheet_bytes(items) for items in GOOD_SHEETS + BAD_SHEETS + [many_sets(32), many_sets(33)]]
    samples += [sheet_bytes(long_sheet(length)) for length in (0, 127, 128, 129)]
    for _ in range(6000):
        data = bytearray(sheet_bytes(dice.pick(GOOD_SHEETS)))
        for _ in range(dice.between(1, 2)):
            place = dice.below(len(data))
            data[place:place + dice.below(2)] = bytes(dice.pick([0, 1, 2, 3, 4, 5, 128, 129, dice.below(256)])
                                                      for _ in range(dice.below(3)))
            data = data or bytearray(1)
        samples.append(bytes(data))
    for data in samples:
        outcome, table = sheet.load(data)
        assert outcome == (0 if strict_sheet(data) else 10), data.hex()
        assert outcome == 0 or table == Table()
        accepted += outcome == 0
        refused += outcome == 10
    assert accepted > 300 and refused > 300
    return "%d accepted, %d refused" % (accepted, refused)


def rules_kept():
    """Every table that blocks, forgettings and loads make meets the rules and has its stored form."""
    dice = Dice(7)
    steps = 0
    for count in (1, 3, 10, 33, 50):
        table = random_table(dice, 5)
        keys = random_keys(dice, count) + sorted(table)
        for _ in range(150):
            if dice.chance(6):
                forget(table, dice.pick(keys))
            elif dice.chance(2):
                table = loaded(sheet.sheet_of(shown_sets(random_table(dice, 10))))
            else:
                read_block(table, random_block(dice, keys, 4))
            assert meets_rules(table) and stored.fetch(stored.store(table)) == table
            steps += 1
    return "%d steps" % steps


def refusals():
    """A block refused with 2 to 6 drops open lists, is counted, and nothing else; other refusals change nothing."""
    dice = Dice(8)
    met = set()
    for _ in range(400):
        table = random_table(dice, 6)
        keys = random_keys(dice, 3) + sorted(table)
        before = copy.deepcopy(table)
        data = faulty_block(dice, keys, [outcome for outcome in (2, 3, 4, 5, 6) if dice.chance(40)] or [2])
        if dice.chance(20):
            data = data[:dice.below(32)]
        outcome, place, notes = read_block(table, data)
        met.add(outcome)
        assert outcome and not notes and (place == 0 if outcome <= 2 else place in PLACES[outcome])
        if outcome >= 2:
            drop_open_lists(before)
            before.blocks += before.blocks < 4294967295
        assert table == before
        key = dice.pick(keys)
        numbers, kinds = [7] * dice.below(5), bytearray([7]) * dice.below(5)
        outcome = copy_out(table, key, numbers, kinds)
        met.add(("c", outcome))
        written = len(table[key].shown.pairs) if outcome == 0 else 0
        assert set(numbers[written:]) <= {7} and set(kinds[written:]) <= {7} and table == before
        for writer, whole in ((air.write, 32 * len(air.blocks_of(shown_sets(table)))),
                              (sheet.write, len(sheet.sheet_of(shown_sets(table))))):
            for size in {max(0, whole - 1), whole, whole + 3}:
                buffer = bytearray([0xAA]) * size
                outcome, length = writer(shown_sets(table), buffer)
                assert outcome == (8 if size < whole else 0) and length == (0 if outcome else whole)
                assert set(buffer[length:]) <= {0xAA}
    assert met >= {1, 2, 3, 4, 5, 6, ("c", 0), ("c", 7), ("c", 8), ("c", 11)}
    return "400 tables"


def bounds():
    """Reached, never passed: 128 pieces a set, 129 with OE 1; 131,072 and 132,096 bytes for air; 24,801 for a sheet."""
    dice = Dice(9)
    most, air_most, sheet_most = {0: 0, 1: 0}, {0: 0, 1: 0}, 0
    for table in corner_tables() + [random_table(dice) for _ in range(100)]:
        shown = shown_sets(table)
        counts = [(key >> 15, len(air.pieces_of(key, entry.shown))) for key, entry in shown]
        for oe, count in counts:
            most[oe] = max(most[oe], count)
        other = max([oe for oe, _ in counts], default=0)
        air_most[other] = max(air_most[other], 32 * sum(count for _, count in counts))
        sheet_most = max(sheet_most, len(sheet.sheet_of(shown)))
    assert (most, air_most, sheet_most) == ({0: 128, 1: 129}, {0: 131072, 1: 132096}, 24801)
    assert len(examine(block(linking_fig(1, 0, 0, *[short(0x2004, 1)] * 14)))[2]) == 14
    return "128 and 129, 131072 and 132096, 24801, 14 notes"


def small_sets():
    """Key, kinds and named kinds of every small set: one to five identifiers of 16 bits, OE 0 and 1."""
    for key in (0x2004, 0xA004):
        for length in range(1, 6):
            for kinds in product((DAB, RDS, DRM), repeat=length):
                present = (RDS in kinds) + 2 * (DRM in kinds)
                if key == 0xA004 or kinds[0] == DAB:
                    yield from ((key, kinds, named) for named in range(4) if named & present == present)


def every_small_set():
    """Every small set is cut as the runs of its kinds say and comes back; how many pieces so many identifiers need."""
    sets, most = 0, Counter()
    for key, kinds, named in small_sets():
        ids = IdList([(kind, 7 + place) for place, kind in enumerate(kinds)], named)
        runs = [(kind, len(list(run))) for kind, run in groupby(kinds)]
        if key == 0x2004:           # the service counts with the run after it
            after = [(kind, len(list(run))) for kind, run in groupby(kinds[1:])] or [(DAB, 0)]
            runs = [(after[0][0], after[0][1] + 1)] + after[1:]
        dead = [(kind, 0) for kind in (RDS, DRM) if named & NAME[kind] and kind not in kinds]
        pieces = air.pieces_of(key, ids)
        assert [(kind, len(numbers)) for _, kind, numbers in pieces] == runs + dead, (key, kinds, named)
        most[key >> 15, len(kinds)] = max(most[key >> 15, len(kinds)], len(pieces))
        table, again = Table({key: Entry(True, ids)}), Table()
        assert meets_rules(table) and loaded(sheet.sheet_of(shown_sets(table))) == table
        read_all(again, air.blocks_of(shown_sets(table)) * 2)
        assert shows(again) == shows(table)
        sets += 1
    assert most == {(oe, length): max(3, length + oe) for oe in (0, 1) for length in range(1, 6)}
    return "%d sets" % sets


# Totals


def figures_of(form):
    """The three stored figures."""
    return form.shown, form.on, form.identifiers


def totals_by_hand():
    """Document 02, R-7: the figures of the examples, typed in by hand, and what does not count."""
    for count, figures in ((0, "0 0 0"), (1, "0 0 0"), (2, "1 1 2")):
        script = "".join("b %s\n" % EXAMPLE.hex() for _ in range(count)) + "totals\n"
        assert run(script.encode())[count:] == ["totals " + figures]
    script = ["b " + data.hex() for data in (EXAMPLE, EXAMPLE, block_of("03 06 20 04"), damaged(EXAMPLE))]
    script += ["totals", "x 22", "totals", "u", "totals", "f 2004", "totals", "l 01844001010200B1890101B18901"]
    script += ["totals", "totals 1", "totals ", "x 21", "x 27", "totals", "l", "totals", "x 24", "totals", "t", "e"]
    assert run("\n".join(script + ["totals"]).encode()) == [
        "b 0 1", "b 0 2", "b 0 7", "b 2 @0", "totals 1 0 2", "x", "totals 9", "u", "totals 1 0 2", "f 0",
        "totals 0 0 0", "l 0", "totals 1 1 2", "?", "?", "?", "?", "totals 1 1 2", "l 10", "totals 0 0 0", "x",
        "totals 9", "t 9", "e", "totals 0 0 0"]
    # eight codes under LSN 001; seven regional sets of a service and an FM code each
    for regional, line in ((0, "shown 8, on 1, identifiers 22\n"), (1, "shown 8, on 7, identifiers 22\n")):
        recording = b"".join(cases.swiss_cycle(0x4001, regional))
        assert totals_text(recording * 2) == line and totals_text(recording) == "shown 0, on 0, identifiers 0\n"
        assert totals_text(recording * 2 + b"12345") == line
    table = Table({0x2001: Entry(True), 0x2002: Entry(True, None, IdList([(DAB, 1), (DAB, 2)])),
                   0x2003: Entry(True, IdList([(DAB, 1)], 3), IdList([(DAB, 1), (DAB, 2)])),
                   0x2004: Entry(False, IdList([(DAB, 1), (RDS, 1), (DRM, 1)], 3))})
    assert figures_of(stored.store(table)) == (2, 1, 4)
    assert figures_of(stored.store(loaded(largest_sheet()))) == (32, 16, 4096)
    return "examples, a rest, held keys, open lists, dead links"


def counted(lines):
    """The figures of a printed table, by the form of its lines."""
    rows = [re.fullmatch("[0-9A-F]{4} (on|off) #[0-9]+ shown (?:-|[0-3]((?: [DRM][0-9A-F]+)+)) open .*", line).groups()
            for line in lines[1:]]
    rows = [(on, ids.split()) for on, ids in rows if ids]
    return len(rows), len([on for on, _ in rows if on == "on"]), len([number for _, ids in rows for number in ids])


def totals_kept():
    """After any command the stored figures are those that are counted from the printed table."""
    dice = Dice(16)
    met, largest = Counter(), 0
    for count in (1, 2, 5, 12, 33, 60):
        replay, keys = Replay(), random_keys(dice, count)
        for _ in range(200):
            what = dice.below(20)
            if what < 15:
                line = "b " + random_block(dice, keys, 5).hex()
            elif what < 18:
                line = "f %X" % dice.pick(keys)
            else:
                data = sheet.sheet_of(shown_sets(random_table(dice, 6)))
                line = "l " + (data if what == 18 else data[:-1] or b"\1").hex()
            answer = replay.answer(line.encode())[0]
            figures = counted(replay.answer(b"t"))
            assert replay.answer(b"totals") == ["totals %d %d %d" % figures], line
            assert figures_of(replay.stored) == figures, line
            met[answer[:4].strip()] += 1
            largest = max(largest, figures[2])
    assert met.keys() >= {"b 0", "b 2", "b 3", "b 4", "b 5", "b 6", "f 0", "f 7", "l 0", "l 10"}, met
    return "1200 commands, up to %d identifiers" % largest


def totals_of_recordings():
    """The line on a recording against sums over the reader that keeps no table."""
    dice = Dice(17)
    lines = set()
    for count in (1, 2, 4, 10, 40):
        for _ in range(4):
            keys = random_keys(dice, count)
            recording = [random_block(dice, keys, 4) for _ in range(120)]
            entries = [plain_entry(recording, key) for key in keys]
            lists = [(entry.on, entry.shown.pairs) for entry in entries if entry and entry.shown]
            line = "shown %d, on %d, identifiers %d\n" % (
                len(lists), len([1 for on, _ in lists if on]), sum(len(pairs) for _, pairs in lists))
            assert totals_text(b"".join(recording)) == line
            lines.add(line)
    return "%d different lines" % len(lines)


TAKES_TABLE = ["b", "b " + EXAMPLE.hex(), "b " + damaged(EXAMPLE).hex(), "f 2004", "f 0", "c 2004 9 9", "c 0 0 0",
               "a 0", "a 140000", "s 0", "s 32768", "t", "totals"]


def refused_by_all(form):
    """Every command that takes a table answers 9 and leaves this form as it is; `e` takes none."""
    replay, before = Replay(), copy.deepcopy(form)
    replay.stored = form
    for line in TAKES_TABLE:
        assert replay.answer(line.encode())[0].split(" ")[:2] == [line.split(" ")[0], "9"], line
        assert replay.stored == before, line
    assert replay.answer(b"e") == ["e"] and replay.answer(b"totals") == ["totals 0 0 0"]


def wrong_figures():
    """A figure that is not the sum is 9, for every command that takes a table."""
    dice = Dice(18)
    forms = 0
    for _ in range(40):
        good = stored.store(random_table(dice, dice.pick([0, 1, 3, 32])))
        for name in ("shown", "on", "identifiers"):
            right = getattr(good, name)
            values = {right + 1, right - 1, 0, 1, 32, 33, 4096, 4097, right + (1 << 32), (1 << 64) - 1}
            for value in values - {right, -1}:
                bad = copy.copy(good)
                setattr(bad, name, value)
                assert stored.fetch(bad) is None, (name, value)
                forms += 1
            refused_by_all(bad)
    one = IdList([(DAB, 1)])                # the figures say how many, not which
    table = Table({0x2001: Entry(True, one), 0x2002: Entry(False, one)})
    other = Table({0x2001: Entry(False, one), 0x2002: Entry(True, one)})
    assert figures_of(stored.store(table)) == figures_of(stored.store(other)) == (2, 1, 2)
    return "%d forms" % forms


# Numbers


def numbers_by_hand():
    """Document 02, R-9: the count and the numbers of an example, typed in by hand, and where the count stops."""
    shown, both = "shown 1 D44B1 R44B1 open -", "shown 1 D44B1 R44B1 open 1 D44B1 R44B1"
    good, bad, short_one = ("b " + data.hex() for data in (EXAMPLE, damaged(EXAMPLE), EXAMPLE[:31]))
    lines = []
    for line, *answers in (
            ("t", "t 0 #0"), (good, "b 0 1"), (bad, "b 2 @0"), (short_one, "b 1 @0"), (good, "b 0 1"), (good, "b 0 2"),
            ("t", "t 1 #4", "2004 on #4 " + both), ("c 2004 2 2", "c 0 2004 on 1 #4 D44B1 R44B1 kept"),
            ("f 2004", "f 0"), ("t", "t 0 #4"), (good, "b 0 1"), (good, "b 0 2"), (bad, "b 2 @0"),
            ("t", "t 1 #7", "2004 on #6 " + shown), ("s 14", "s 0 01844001010200B1890101B18901 kept"),
            ("l 01844001010200B1890101B18901", "l 0"), ("t", "t 1 #0", "2004 on #0 " + shown),
            ("c 2004 2 2", "c 0 2004 on 1 #0 D44B1 R44B1 kept"), (good, "b 0 1"), (good, "b 0 2"), (good, "b 0 2"),
            ("t", "t 1 #3", "2004 on #3 " + both), ("x 26", "x ?"), ("x 25", "x"), ("t", "t 9"), (good, "b 9 @0"),
            ("count 3", "count"), ("t", "t 9"), ("count 4", "count"), ("t", "t 1 #4", "2004 on #4 " + both),
            ("u", "u"), ("t", "t 1 #3", "2004 on #3 " + both), ("count 2", "count"), ("t", "t 9"), ("f 2004", "f 9"),
            ("c 2004 2 2", "c 9 kept"), ("s 14", "s 9 kept"), ("a 32", "a 9 kept"), (bad, "b 9 @0"),
            ("totals", "totals 9"), ("count 4294967294", "count"), ("t", "t 1 #4294967294", "2004 on #3 " + both),
            (good, "b 0 2"), ("t", "t 1 #4294967295", "2004 on #4294967295 " + both), ("x 25", "x ?"),
            (bad, "b 2 @0"), (good, "b 0 1"), (good, "b 0 2"),
            ("t", "t 1 #4294967295", "2004 on #4294967295 " + both), ("count 4294967296", "?"),
            ("count", "?"), ("count 00000000001", "?"), ("x 27", "?"), ("l", "l 10"), ("t", "t 0 #0"), (good, "b 0 1"),
            ("x 25", "x ?"), ("x 26", "x"), ("t", "t 9"), ("count 9", "count"), ("t", "t 9"), ("u", "u"),
            ("t", "t 1 #1", "2004 on #0 shown - open 1 D44B1 R44B1"), ("e", "e"), ("t", "t 0 #0")):
        lines.append(line)
        assert run("\n".join(lines).encode())[-len(answers):] == answers, (line, answers)
    recording = EXAMPLE + damaged(EXAMPLE) + EXAMPLE * 3 + block_of("00") + b"12345"
    assert listing(recording, True) == ["sets 1 blocks 6", "2004 on #5 ids 2 D44B1 R44B1", "tail 5"]
    assert listing(b"", True) == ["sets 0 blocks 0"] and listing(b"1", True) == ["sets 0 blocks 0", "tail 1"]
    assert listing(EXAMPLE + damaged(EXAMPLE), True) == ["sets 0 blocks 2"]
    rows = ["2004 | on    | 44B1      |           |           | 5         ",
            "2004 | on    |           | 44B1      |           | 5         "]
    head = "set  | state | DAB       | FM (RDS)  | DRM/AMSS  | block     "
    text = columns.table_text(table_of(recording), columns.OF_A_RECORDING)
    assert text.split("\n") == [head, "-" * 61, *rows, "-" * 61, ""]
    text = columns.csv_text(table_of(recording), columns.OF_A_RECORDING)
    assert text == "set,state,DAB,FM (RDS),DRM/AMSS,block\n0x2004,on,0x44B1,,,5\n0x2004,on,,0x44B1,,5\n"
    return "examples, loads, the stop, a bad count, listing, columns"


def showings_by_hand():
    """The number is that of the showing; several in a block; what leaves it; it goes with its key."""
    table = Table()
    one, two = start(0x2004, 1, DAB, [1]), start(0x2004, 0, DAB, [1])
    for data, number in ((one, 0), (more(0x2004, 1, DAB, [2]), 0), (two, 3), (state(0x2004, 1), 3), (two, 5), (two, 6),
                         (damaged(two), 6), (two[:31], 6), (more(0x2004, 1, DAB, [2]), 6), (one, 6), (one, 10)):
        read_block(table, data)
        assert table[0x2004].confirmed == number, (data.hex(), number)
    field = long(0x2003, 1, DAB, [1])
    read_all(table, [block(linking_fig(0, 0, 0, field, field, field))])
    assert (table[0x2003].confirmed, table[0x2004].confirmed, table.blocks) == (11, 10, 11)
    assert forget(table, 0x2003) == 0 and (table[0x2004].confirmed, table.blocks) == (10, 11)
    read_all(table, [start(0x2003, 1, DAB, [1])])
    assert (table[0x2003].confirmed, table[0x2004].confirmed, table.blocks) == (0, 10, 12)
    read_all(table, whole_list(0x2003, 1, [(DAB, number) for number in range(128)]))
    assert table[0x2003].confirmed == 13 and table.blocks == 23         # eleven blocks; the first of them shows
    assert read_block(table, more(0x2003, 1, DAB, [500])) == (0, 0, [6])
    assert read_block(table, start(0x2003, 1, DAB, [1])) == (0, 0, [1]) and table[0x2003].confirmed == 13
    assert read_block(table, start(0x2003, 1, DAB, [1])) == (0, 0, [2]) and table[0x2003].confirmed == 26
    for place in range(31):
        read_all(table, [start(0x3001 + place, 1, DAB, [1])])
    assert len(table) == 32 and table.blocks == 57 and 0x301F not in table
    return "starts, continuations, states, refused blocks, too long, full"


def numbers_kept():
    """After any command the count and the numbers are those that the answers to the blocks give."""
    dice = Dice(19)
    met = Counter()
    for count in (1, 2, 5, 12, 33, 60):
        replay, counting, keys = Replay(), Counting(), random_keys(dice, count)
        for _ in range(200):
            what = dice.below(24)
            if what < 16:
                line = "b " + random_block(dice, keys, 12)[:32 if what else 20].hex()
            elif what < 19:
                line = "f %X" % dice.pick(keys)
            elif what < 20:
                line = "l " + sheet.sheet_of(shown_sets(random_table(dice, 3))).hex()
            elif what < 22:
                line = "count %d" % dice.pick([dice.below(50), dice.below(500), 4294967290, 4294967295, 4294967295])
            else:
                line = "c %X 128 128" % dice.pick(keys)
            for text in (line, "t"):
                met.update(counting.saw(text, replay.answer(text.encode())))
    assert met.keys() >= {"b %d is counted" % outcome for outcome in (0, 2, 3, 4, 5, 6)}, met
    assert min(met[what] for what in ("b 1 is not counted", "b 9 is not counted", "b 0 at the stop", "shown",
                                      "shown again", "shown twice in a block", "shown at the stop")) > 5, met
    return "1200 commands, %d showings again" % met["shown again"]


def numbers_of_recordings():
    """What is printed of a recording with numbers, against the reader that keeps no table; and without them."""
    dice = Dice(20)
    sets = 0
    for count in (1, 2, 4, 10, 40):
        for _ in range(4):
            keys = random_keys(dice, count)
            recording = [random_block(dice, keys, 4) for _ in range(120)]
            numbers = {key: entry.confirmed for key, entry in ((key, plain_entry(recording, key)) for key in keys)
                       if entry and entry.shown}
            data = b"".join(recording) + bytes(dice.below(3))
            first, *lines = listing(data, True)
            rows = [re.fullmatch("([0-9A-F]{4} (?:on|off)) #([1-9][0-9]*) (ids .*)", line).groups()
                    for line in lines[:len(numbers)]]
            assert first == "sets %d blocks 120" % len(numbers)
            assert {int(head[:4], 16): int(number) for head, number, _ in rows} == numbers
            assert listing(data) == (["sets %d" % len(numbers)] + ["%s %s" % (head, ids) for head, _, ids in rows]
                                     + lines[len(numbers):])
            table = table_of(data)
            again = loaded(sheet.sheet_of(shown_sets(table)))
            rows = columns.csv_text(table, columns.OF_A_RECORDING).splitlines()
            assert all(int(row.split(",")[5]) == numbers[int(row[:6], 16)] for row in rows[1:])
            assert columns.csv_text(again, columns.OF_A_SHEET).splitlines() == [row.rsplit(",", 1)[0] for row in rows]
            rows = columns.table_text(table, columns.OF_A_RECORDING).splitlines()
            assert columns.table_text(again, columns.OF_A_SHEET).splitlines() == [row[:48] for row in rows]
            assert all(row == "-" * 61 or int(row[51:]) == numbers[int(row[:4], 16)] for row in rows[1:])
            assert all(row == "-" * 61 or len(row) == 61 and row[48:51] == " | " for row in rows)
            sets += len(numbers)
    assert sets > 100
    return "%d sets" % sets


def wrong_numbers():
    """A number above the count, or without a shown set, is 9 for every command; any other is a good one."""
    dice = Dice(21)
    good = bad = 0
    for _ in range(30):
        table = random_table(dice, dice.pick([0, 1, 3, 32]))
        form = stored.store(table)
        for place in (0, 1, 2, 31, max(0, len(table) - 1), min(31, len(table))):
            right = form.entries[place].confirmed
            for value in {0, 1, right + 1, table.blocks, table.blocks + 1, LAST_BLOCK} - {LAST_BLOCK + 1}:
                form.entries[place].confirmed = value
                is_good = value <= (table.blocks if form.entries[place].shown.length else 0)
                assert (stored.fetch(form) is not None) == is_good, (place, value)
                good, bad = good + is_good, bad + (not is_good)
                if not is_good and dice.chance(5):
                    refused_by_all(form)
            form.entries[place].confirmed = right
        largest = max((entry.confirmed for entry in table.values()), default=0)
        for value in {0, largest - 1, largest, largest + 1, LAST_BLOCK} - {-1, LAST_BLOCK + 1}:
            form.blocks = value
            assert (stored.fetch(form) is not None) == (value >= largest), value
        form.blocks = table.blocks
        assert stored.fetch(form) == table
    assert good > 100 and bad > 300
    return "%d good, %d answered 9" % (good, bad)


def numbers_not_shown():
    """Tables that differ in count and numbers alone show the same: equal sheets, blocks for air and totals."""
    dice = Dice(22)
    for _ in range(60):
        table = random_table(dice, dice.pick([1, 3, 32]))
        other = copy.deepcopy(table)
        other.blocks = dice.word()
        for entry in other.values():
            entry.confirmed = dice.below(other.blocks + 1) if entry.shown else 0
        assert meets_rules(other) and stored.fetch(stored.store(other)) == other
        assert shows(other) == shows(table) and air.blocks_of(shown_sets(other)) == air.blocks_of(shown_sets(table))
        assert sheet.sheet_of(shown_sets(other)) == sheet.sheet_of(shown_sets(table))
        assert figures_of(stored.store(other)) == figures_of(stored.store(table))
    return "60 tables"


# Demand 3


def showings(table, recording):
    """(item, field) where a set comes to be shown, with what is shown, its number last; items are blocks or keys."""
    table = copy.deepcopy(table)
    found = {}
    for item, what in enumerate(recording):
        if isinstance(what, int):
            forget(table, what)
            continue
        outcome, _, fields = examine(what)
        if outcome != 1:
            count_block(table)
        if outcome >= 2:
            drop_open_lists(table)
        for place, field in enumerate(fields):
            if collect(table, field) == SHOWN_AND_OPENED:
                entry = table[field.key]
                found[item, place] = (field.key, entry.on, entry.shown.named, tuple(entry.shown.pairs), entry.confirmed)
    return found


def started(recording):
    """Distinct keys of the starts in blocks that are taken, skipped ones too."""
    fields = [field for data in recording if not isinstance(data, int) for field in examine(data)[2]]
    return {field.key for field in fields if field.mark is not None and not field.continued}


def random_recording(dice, keys, length):
    items = []
    for _ in range(length):
        what = dice.below(100)
        if what < 4:
            items.append(dice.pick(keys))
        elif what < 6:
            items.append(bytes(dice.below(32)))
        else:
            items.append(random_block(dice, keys, 3))
    return items


def arrives_well(what):
    """Whether an item is a block of 32 bytes with a right check."""
    return not isinstance(what, int) and len(what) == 32 and check_passes(what)


def better_and_worse():
    """What the worse reception comes to show at a field, the better one shows there too, with the same number."""
    dice = Dice(10)
    compared = most = stopped = 0
    for _ in range(120):
        table = random_table(dice, dice.pick([0, 2, 8]))
        keys = random_keys(dice, dice.pick([1, 2, 4, 32 - len(table)])) + sorted(table)
        better = random_recording(dice, keys, dice.pick([20, 60, 120, 200]))
        count = len(set(table) | started(better))
        if count > 32:
            continue
        most = max(most, count)
        worse = [damaged(what, dice.below(256)) if arrives_well(what) and dice.chance(12) else what for what in better]
        shown = showings(table, better)
        for place, what in showings(table, worse).items():
            assert shown.get(place) == what
            compared += 1
            stopped += what[-1] == 4294967295
    assert compared > 1000 and most == 32 and stopped > 100
    return "%d showings compared, %d where the count had stopped, up to %d keys" % (compared, stopped, most)


def where_it_fails():
    """Under the three other readings demand 3 does not hold: a counterexample for each."""
    starts = [start(0x2001 + place, 1, DAB, [1]) for place in range(33)]
    better = starts + starts[32:]           # counting only starts that open a list
    worse = [damaged(better[0])] + better[1:]
    assert len(started(better)) == 33
    assert (33, 0) in showings(Table(), worse) and (33, 0) not in showings(Table(), better)
    first, second = start(0x2004, 1, DAB, [1]), start(0x2004, 1, DAB, [2])
    good, bad = Table(), Table()            # the state after a field instead of what happens at it
    for data in (first, first, second, second):
        read_block(good, data)
    for data in (first, first, damaged(second), second):
        read_block(bad, data)
    assert shows(bad) and shows(bad) != shows(good)
    added = more(0x2004, 1, DAB, [2])       # a block that is missing instead of failing
    last = showings(Table(), [first, first, first, added, first])[4, 0]
    assert showings(Table(), [first, first, first, first])[3, 0][:-1] != last[:-1]
    assert (4, 0) not in showings(Table(), [first, first, first, damaged(added), first])
    return "three counterexamples"


def spoilings():
    """Each way breaks every table it applies to; the original stays good."""
    dice = Dice(11)
    done = {way: 0 for way in spoil.WAYS}
    for _ in range(40):
        good = stored.store(random_table(dice, dice.pick([1, 3, 8, 32])))
        assert stored.fetch(good) is not None
        tuned = [entry for entry in good.entries if entry.shown.length and entry.key < 0x8000]
        assert (spoil.spoiled(good, 10) is not None) == bool(tuned)
        for way in spoil.WAYS:
            bad = spoil.spoiled(good, way)
            if bad is not None:
                assert stored.fetch(bad) is None and bad != good
                done[way] += 1
    assert all(done.values()), done
    return ", ".join("%d: %d" % item for item in sorted(done.items()))


def figured_anew(form):
    """The figures that the entries of a stored form say, whatever they are."""
    held = [entry for entry in form.entries[:form.count] if entry.shown.length]
    form.shown, form.on = len(held), len([entry for entry in held if entry.on])
    form.identifiers = sum(entry.shown.length for entry in held)


def any_stored_form():
    """A stored form changed at any place, with its old figures or new ones, is 9 or the form of another good table."""
    dice = Dice(13)
    good = bad = 0
    for _ in range(800):
        form = stored.store(random_table(dice, 4))
        for _ in range(dice.between(1, 2)):
            entry = dice.pick(form.entries[:5])
            ids = dice.pick([entry.shown, entry.open])
            place = dice.pick([0, 1, 2, 127, dice.below(128)])
            value = dice.pick([0, 1, 2, 3, 4, 129, 255, dice.below(65536)])
            what = dice.below(10)
            if what == 0:
                entry.key = value
            elif what == 1:
                entry.on = not entry.on
            elif what == 2:
                ids.numbers[place] = value
            elif what == 3:
                ids.kinds[place] = value & 255
            elif what == 4:
                ids.length = value
            elif what == 5:
                ids.named = value & 255
            elif what == 6:
                setattr(form, dice.pick(["shown", "on", "identifiers"]), value)
            elif what == 7:
                entry.confirmed = dice.pick([value, form.blocks, min(form.blocks + 1, LAST_BLOCK)])
            elif what == 8:
                form.blocks = dice.pick([value, entry.confirmed, LAST_BLOCK])
            else:
                form.count = value
        if dice.chance(50):
            figured_anew(form)
        table = stored.fetch(form)
        assert table is None or (meets_rules(table) and stored.store(table) == form)
        good += table is not None
        bad += table is None
    assert good > 20 and bad > 200
    return "%d good, %d answered 9" % (good, bad)


def any_line():
    """Any bytes at all as a script: always one answer a line that is not empty, `t` apart."""
    dice = Dice(12)
    replay = Replay()
    for _ in range(3000):
        words = [dice.pick(["b", "f", "c", "a", "s", "l", "x", "u", "e", "", "t ", "\r", "totals", "count"])]
        words += [dice.pick(["0", "9", "2004", "1F", "16", "22", "25", "4294967295", "-", "?", "\xff", "", "00"])
                  for _ in range(dice.below(4))]
        line = " ".join(words).encode("latin-1")
        assert len(replay.answer(line)) == (1 if line else 0), line
    return "3000 lines"


CHECKS = [block_check, examples, decided_points, other_ensemble, reading_over_bits, counted_places, made_places,
          reports, random_reports, plain_reader, air_read_back, sheets_back, sheets_accepted, rules_kept, refusals,
          bounds, every_small_set, totals_by_hand, totals_kept, totals_of_recordings, wrong_figures, numbers_by_hand,
          showings_by_hand, numbers_kept, numbers_of_recordings, wrong_numbers, numbers_not_shown, better_and_worse,
          where_it_fails, spoilings, any_stored_form, any_line]


def main():
    failed = 0
    for check in CHECKS:
        try:
            print("ok      %s: %s" % (check.__name__, check()), flush=True)
        except Exception:
            failed += 1
            print("FAILED  %s" % check.__name__, flush=True)
            traceback.print_exc()
    print("%d checks, %d failed" % (len(CHECKS), failed))
    sys.exit(1 if failed else 0)


if __name__ == "__main__":
    main()
