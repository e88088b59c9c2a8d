"""Writes examples/: recordings (.fib, whole blocks one after another) and their README.md.

    python3 tests/make_examples.py [folder]

Sets and values are those of documents 000 and 003, but for the set of another
ensemble; the order and repetition of the blocks is ours, so that each set
comes to be shown.
"""

import os
import sys

sys.dont_write_bytecode = True

import cases
from folder import write_files
from making import block_of, damaged
from second.listing import listing

HERE = os.path.dirname(os.path.abspath(__file__))

HEAD = """# Example recordings

Each file is a row of whole blocks of 32 bytes. To list one:

    bin/linkage list examples/swiss-4001-common.fib

They are made by `python3 tests/make_examples.py`, and `python3 tests/check_vectors.py` makes them again and compares.
Documents 000 and 003 are ETSI TS 103 176 and the SRG SSR paper on service linking.

| file | holds | source | sets shown |
|---|---|---|---|
"""


def swiss(eid, regional, rounds=3):
    """Rounds of an ensemble's sets, each followed by their states in short form."""
    return (cases.swiss_cycle(eid, regional) + [cases.swiss_states(eid, regional)]) * rounds


def with_damage(blocks, every):
    """Every so many blocks one arrives with a turned bit."""
    return [damaged(data, 37 * place % 256) if place % every == every - 1 else data
            for place, data in enumerate(blocks)]


# A FIG of length 0 after one of other information; a field that does not fit, behind one that does; LSN 0 behind an empty start;
# an empty start in a second FIG.
FAULTY = [block_of(text) for text in (
    "21 05 03 06 20 04 00", "07 06 20 04 E0 05 22 44", "06 06 E0 04 00 20 00", "21 05 06 06 20 05 E0 04 00")]


def recordings():
    """(name, blocks, what it holds, source, sets shown)."""
    rows = []
    for eid in sorted(cases.ENSEMBLES):
        count = 1 + len(cases.ENSEMBLES[eid][1])
        rows.append(("swiss-%04X-common" % eid, swiss(eid, 0),
                     "ensemble %04X, common programme: LSN 001 on, regional sets off" % eid, "003, 3.2", count))
        rows.append(("swiss-%04X-regional" % eid, swiss(eid, 1),
                     "ensemble %04X, regional programmes: LSN 001 off, regional sets on" % eid, "003, 3.3", count))
    rows += [
        ("swiss-4001-change", swiss(0x4001, 0) + [cases.swiss_states(0x4001, 1)] * 5,
         "ensemble 4001 at the change from common to regional: states in short form only", "003, 2.2, 3.2, 3.3", 8),
        ("swiss-4001-damaged", with_damage(swiss(0x4001, 0, 12), 7),
         "swiss-4001-common for longer, every seventh block damaged", "003, 3.2", 8),
        ("annex-a03", [cases.A4, cases.A7] * 2 + [cases.A8] * 3,
         "regional variations: all, west, north; the change at 19:00", "000, A.3, tables A.4, A.7, A.8", 3),
        ("annex-a04", [cases.A11] * 2, "the same programme as DAB and DAB+", "000, A.4, table A.11", 1),
        ("annex-a05", [cases.A15, cases.A16] * 2, "a soft set with FM codes", "000, A.5, tables A.15, A.16", 1),
        ("annex-a06", [cases.A17] * 2, "a DAB service and an FM code in one start", "000, A.6, table A.17", 1),
        ("annex-a07", [cases.A19, cases.A20, cases.A21] * 2,
         "seven regional services and one FM code", "000, A.7, tables A.19 to A.21", 1),
        ("annex-a08", [cases.a22(1)] * 2 + [cases.a22(0)] * 2, "a dead link, on and then off",
         "000, A.8, table A.22", 1),
        ("annex-a09", [cases.A23, cases.A24] * 2, "three DAB services and no FM", "000, A.9, tables A.23, A.24", 1),
        ("annex-a10", [cases.A17, cases.A25, cases.A17, cases.A25, cases.A17, cases.A17],
         "a data set with a DRM list, refused with 5, among starts of A.17 that only show when nothing lies between",
         "000, A.10, table A.25; A.6, table A.17", 1),
        ("annex-a11-uk", [cases.A27, cases.A28] * 2, "an international set as sent in the UK",
         "000, A.11, tables A.27, A.28", 1),
        ("annex-a11-b-nl", [cases.A29, cases.A30] * 2, "the same set as sent in B and NL",
         "000, A.11, tables A.29, A.30", 1),
        ("annex-a03-damaged", with_damage([cases.A4, cases.A5, cases.A4, cases.A6, cases.A4, cases.A7] * 4, 5),
         "annex-a03's sets through a day, every fifth block damaged", "000, A.3, tables A.4 to A.7", 3),
        ("annex-a07-damaged", with_damage([cases.A19, cases.A20, cases.A21] * 8, 5),
         "annex-a07 for longer, every fifth block damaged", "000, A.7, tables A.19 to A.21", 1),
        ("annex-a07-faulty", [cases.A19, cases.A20, cases.A21] * 2 + FAULTY + [cases.A21],
         "annex-a07, and then blocks that an encoder made wrong, with good checks: refused with 3, 4, 5 and 6",
         "000, A.7, tables A.19 to A.21; the faults are ours", 1),
        ("other-ensemble", [cases.TUNED, cases.OTHER] * 2,
         "one list of two FM codes, of the tuned ensemble (OE 0: its first is a DAB service) and of another (OE 1: an FM code)",
         "ours, with codes of 000, A.5, table A.16", 2),
    ]
    return rows


def all_files():
    """The recordings and their README.md."""
    files, lines = {}, []
    for name, blocks, holds, source, count in recordings():
        recording = b"".join(blocks)
        assert listing(recording)[0] == "sets %d" % count, (name, listing(recording))
        files[name + ".fib"] = recording
        lines.append("| %s.fib | %s | %s | %d |\n" % (name, holds, source, count))
    files["README.md"] = (HEAD + "".join(lines)).encode("ascii")
    return files


def main():
    folder = sys.argv[1] if len(sys.argv) > 1 else os.path.join(os.path.dirname(HERE), "examples")
    files = all_files()
    write_files(folder, files)
    print("%d files, %d bytes" % (len(files), sum(map(len, files.values()))))


if __name__ == "__main__":
    main()
