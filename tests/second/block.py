"""The block (FIB): its check and the walk over its FIGs.

Document 01, The block.  Places are counted from 0, the block's first byte.
"""

from collections import namedtuple

BLOCK_SIZE = 32     # 30 bytes of data and the check
DATA_SIZE = 30
END_OF_FIGS = 0xFF  # where a FIG would begin

Fig = namedtuple("Fig", "place kind body")      # the place is that of its first byte, the one with type and length


def whole_blocks(recording):
    """The whole blocks of a recording, in order."""
    return [recording[end - BLOCK_SIZE:end] for end in range(BLOCK_SIZE, len(recording) + 1, BLOCK_SIZE)]


def check_of(data):
    """The check of EN 300 401 over these bytes: x^16 + x^12 + x^5 + 1, all ones first, complemented."""
    register = 0xFFFF
    for byte in data:
        register ^= byte << 8
        for _ in range(8):
            register <<= 1
            if register & 0x10000:
                register ^= 0x11021
    return register ^ 0xFFFF


def check_passes(block):
    """True if the last two bytes are the check of the first thirty, high byte first."""
    return int.from_bytes(block[DATA_SIZE:], "big") == check_of(block[:DATA_SIZE])


def figs_of(data):
    """The FIGs of the thirty data bytes, and the place of the wrong one that ends them, None where none is wrong.

    Wrong is length 0 and a FIG that runs past the data.  The list ends at
    byte FF or exactly at the end of the data.
    """
    figs = []
    place = 0
    while place < DATA_SIZE and data[place] != END_OF_FIGS:
        kind, length = data[place] >> 5, data[place] & 31
        body = data[place + 1:place + 1 + length]
        if length == 0 or len(body) < length:
            return figs, place
        figs.append(Fig(place, kind, body))
        place += 1 + length
    return figs, None
