"""Linkage sets from the sources, as blocks.

Document 000 (TS 103 176) Annex A by table number, document 003 (SRG SSR)
sections 3.2 and 3.3 by ensemble.  Values only; the rules are document 01's.
Neither source sends a list of another ensemble; the one here is ours.
"""

from making import block, block_of, fig, linking_fig, long, short

DAB, RDS, DRM = 0, 1, 3

# Document 000, clause A.3: four regional services; hard, national; 100 all, 200 west, 400 north.
ALL, WEST, NORTH = 0x2100, 0x2200, 0x2400


def regional_states(*states):
    """Short forms with C/N 1 for (key, on)."""
    return block(linking_fig(1, 0, 0, *(short(key, on) for key, on in states)))


A4 = block(linking_fig(0, 0, 0,
                       long(ALL, 0, DAB, [0x6511, 0x6711, 0x6911, 0x6C11]),
                       long(WEST, 1, DAB, [0x6511, 0x6C11]),
                       long(NORTH, 0, DAB, [0x6511, 0x6711])))
A5 = regional_states((ALL, 1), (WEST, 0), (NORTH, 0))
A6 = regional_states((ALL, 0), (WEST, 0), (NORTH, 0))
A7 = regional_states((ALL, 0), (WEST, 1), (NORTH, 0))
A8 = regional_states((WEST, 0), (ALL, 1))

# Clause A.4: the same audio as DAB and as DAB+.
A11 = block(linking_fig(0, 0, 0, long(0x23B1, 1, DAB, [0x43B1, 0x43B9])))

# Clause A.5: a soft set with FM codes.
A15 = block(linking_fig(0, 0, 0, long(0x0100, 1, DAB, [0x6511, 0x6711, 0x6911, 0x6C11])))
A16 = block(linking_fig(1, 0, 0, long(0x0100, 1, RDS, [0x6511, 0x6711, 0x6B11, 0x6C11])))

# Ours, for document 02, R-3: two FM codes of A.16 in a start of their own, of the tuned ensemble and of another.
TWO_CODES = long(0x0100, 1, RDS, [0x6511, 0x6B11])
TUNED = block(linking_fig(0, 0, 0, TWO_CODES))
OTHER = block(linking_fig(0, 1, 0, TWO_CODES))

# Clause A.6: one DAB service and one FM code in one start.
A17 = block(linking_fig(0, 0, 0, long(0x2123, 1, RDS, [0x43B9, 0x43B1])))

# Clause A.7: seven regional services and the common FM code.
SEVEN = [0x4AB1, 0x44B1, 0x45B1, 0x46B1, 0x47B1, 0x48B1, 0x49B1]
A19 = block(linking_fig(0, 0, 0, long(0x2001, 1, DAB, SEVEN)))
A20 = block(linking_fig(1, 0, 0, long(0x2001, 1, RDS, [0x43B1])))
A21 = block(linking_fig(1, 0, 0, short(0x2001, 1)))


def a22(on):
    """Clause A.8: a dead link, one DAB service in an RDS list."""
    return block(linking_fig(0, 0, 0, long(0x219F, on, RDS, [0xC19F])))


# Clause A.9: three DAB services and no FM, by a continuation with count 0.
A23 = block(linking_fig(0, 0, 0, long(0x219F, 1, DAB, [0xC19F, 0xC19E, 0xC19D])))
A24 = block(linking_fig(1, 0, 0, long(0x219F, 1, RDS, [])))

# Clause A.10: a data service with a DRM qualifier, which document 01 refuses with 5.
A25 = block_of("0C 26 F1 23 62 E0 12 43 B9 00 E0 D5 67")

# Clause A.11: an international set, as sent in the UK and in B and NL.
A27 = block(linking_fig(0, 0, 0, long(0x3345, 1, DAB, [0xE1C238, 0xE06335])))
A28 = block(linking_fig(1, 0, 0, long(0x3345, 1, RDS, [0xE1C218]), long(0x3345, 1, DRM, [0xE1C238])))
A29 = block(linking_fig(0, 0, 0, long(0x3345, 1, DAB, [0xE06335, 0xE1C238])))
A30 = A28

# Document 003: the set LSN 001 over all services, and one set a region.
COMMON_FM = 0x43B1
REGIONS = {4: 0x44B1, 5: 0x45B1, 6: 0x46B1, 7: 0x47B1, 8: 0x48B1, 9: 0x49B1, 10: 0x4AB1}   # LSN: service
ENSEMBLES = {   # EId: the services of LSN 001 in order, the LSNs of its regional sets
    0x4001: (SEVEN, [4, 5, 6, 7, 8, 9, 10]),
    0x4041: ([0x44B1, 0x45B1, 0x46B1, 0x47B1, 0x48B1, 0x49B1, 0x4AB1], [4]),
    0x4081: (SEVEN, [10]),
    0x40C1: (SEVEN, [10]),
}


def ensemble_information(eid):
    """FIG 0/0, which the reader steps over."""
    return fig(0, b"\0" + eid.to_bytes(2, "big") + b"\0\0")


def swiss_cycle(eid, regional):
    """One round of an ensemble's linkage sets: 3.2 (regional 0) or 3.3 (regional 1) of document 003."""
    services, lsns = ENSEMBLES[eid]
    on = 1 - regional
    blocks = [block(ensemble_information(eid), linking_fig(0, 0, 0, long(0x2001, on, DAB, services))),
              block(linking_fig(1, 0, 0, long(0x2001, on, RDS, [COMMON_FM])))]
    fields = [long(0x2000 + lsn, regional, RDS, [REGIONS[lsn], REGIONS[lsn]]) for lsn in lsns]
    for first in range(0, len(fields), 4):          # four such starts fill a FIG
        blocks.append(block(linking_fig(0, 0, 0, *fields[first:first + 4])))
    return blocks


def swiss_states(eid, regional):
    """The short forms of an ensemble's sets."""
    keys = [(0x2001, 1 - regional)] + [(0x2000 + lsn, regional) for lsn in ENSEMBLES[eid][1]]
    return regional_states(*keys)
