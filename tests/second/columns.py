"""The sets of a recording or a sheet in columns: a table for eyes, and comma-separated values for a spreadsheet.

A row has one code, in the column of its kind: DAB services, FM (RDS) codes, DRM or AMSS.  Those of a recording
have one more, the block at which the set was last shown (document 02, R-9); a sheet knows no such number.
"""

from second import field as linking
from second.listing import key_text, on_text
from second.table import shown_sets

HEADING = ["set", "state", "DAB", "FM (RDS)", "DRM/AMSS", "block"]
WIDTHS = [4, 5, 9, 9, 9, 10]
OF_A_SHEET, OF_A_RECORDING = 5, 6       # how many of them are printed
COLUMN = {linking.DAB: 2, linking.RDS: 3, linking.DRM: 4}


def rows(key, entry, prefix):
    """The rows of a set: its codes in order, then its dead links, RDS first; all columns."""
    ids = entry.shown
    digits = linking.width(key) // 4
    cells = [(kind, "%s%0*X" % (prefix, digits, number)) for kind, number in ids.pairs]
    cells += [(kind, "dead link") for kind in (linking.RDS, linking.DRM)
              if ids.named & linking.NAME[kind] and not ids.has_kind(kind)]
    for kind, text in cells:
        row = [prefix + key_text(key), on_text(entry.on), "", "", "", str(entry.confirmed)]
        row[COLUMN[kind]] = text
        yield row


def csv_text(table, columns):
    lines = [HEADING] + [row for key, entry in shown_sets(table) for row in rows(key, entry, "0x")]
    return "".join(",".join(line[:columns]) + "\n" for line in lines)


def table_text(table, columns):
    def line(cells):
        return " | ".join(cell.ljust(width) for cell, width in zip(cells[:columns], WIDTHS)) + "\n"

    rule = "-" * (sum(WIDTHS[:columns]) + 3 * (columns - 1)) + "\n"
    parts = [line(HEADING), rule]
    for key, entry in shown_sets(table):
        parts += [line(row) for row in rows(key, entry, "")] + [rule]
    return "".join(parts)
