"""The stored sheet: writing and loading.

Document 01, The stored sheet.  Neither the count of blocks nor a set's number
is in it: a loaded table has counted no block (document 02, R-9).
"""

from second.table import Entry, IdList, Table, meets_rules, shown_sets


def number_bytes(number):
    """Groups of seven bits, lowest first, top bit on all but the last, in the fewest bytes."""
    out = bytearray()
    while number >= 128:
        out.append(number & 127 | 128)
        number >>= 7
    out.append(number)
    return bytes(out)


def sheet_of(shown):
    """The sheet of these shown sets, given as (key, entry) in ascending key order."""
    out = bytearray(number_bytes(len(shown)))
    for key, entry in shown:
        ids = entry.shown
        for number in (key, int(entry.on), ids.named, len(ids.pairs)):
            out += number_bytes(number)
        for kind, number in ids.pairs:
            out += number_bytes(kind) + number_bytes(number)
    return bytes(out)


def write(shown, buffer):
    """Writes into the lent buffer; answers (0, bytes written) or (8, 0), the rest of the buffer untouched."""
    output = sheet_of(shown)
    if len(buffer) < len(output):
        return 8, 0
    buffer[:len(output)] = output
    return 0, len(output)


def numbers_in(sheet):
    """Yields the numbers one after another; ends early where the last one is cut off."""
    number = shift = 0
    for byte in sheet:
        number |= (byte & 127) << shift
        shift += 7
        if byte < 128:
            yield number
            number = shift = 0


def table_in(sheet):
    """What the sheet says, as a table, with no rule tested; StopIteration where it ends too soon."""
    numbers = numbers_in(sheet)
    table = Table()
    for _ in range(next(numbers)):
        key, on, named, length = (next(numbers), next(numbers), next(numbers), next(numbers))
        pairs = [(next(numbers), next(numbers)) for _ in range(length)]
        table[key] = Entry(on == 1, IdList(pairs, named))
    return table


def load(sheet):
    """(0, table), or (10, empty table) where no table writes exactly these bytes."""
    try:
        table = table_in(sheet)
    except StopIteration:
        return 10, Table()
    if not meets_rules(table) or sheet_of(shown_sets(table)) != bytes(sheet):
        return 10, Table()
    return 0, table
