"""The second program: the rules of document 01 once more, in plain Python.

It was written from document 01 and not from the proved program, so that the
two can be held against each other.  Read the modules in this order, each
beside its section of document 01:

    block.py    The block              field.py    The linking field
    table.py    Collecting             stored.py   Table rules, stored form
    air.py      Writing for air        sheet.py    The stored sheet
    listing.py  Examples, 16           replay.py, spoil.py   the test scripts

columns.py, figs.py, check.py and totals.py print what `linkage list --table`,
`list --csv`, `figs`, `check` and `totals` print.  Places are those of document
02, R-1; what begins a set whose OE is 1 is R-3's (field.py, first_is_service);
the totals are R-7's (table.py, totals); the count of blocks and the numbers of
sets are R-9's (table.py, count_block, start).
"""
