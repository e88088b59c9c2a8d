"""Writing the shown sets for air: one piece, one FIG, one block.

Document 01, Writing for air; document 02, R-3, for what a start takes.
"""

from second import block as fib
from second import field as linking

ROOM = {16: 12, 24: 8, 32: 6}   # identifiers in one piece, by width


def run_length(pairs):
    """How many pairs at the beginning are of one kind."""
    length = 0
    while length < len(pairs) and pairs[length][0] == pairs[0][0]:
        length += 1
    return length


def pieces_of(key, ids):
    """The pieces of one set as (continued, qualifier, numbers), in order.

    The start takes a run of one kind, with the service before it where the
    first identifier is one.
    """
    room = ROOM[linking.width(key)]
    numbers = [number for _, number in ids.pairs]
    before = 1 if linking.first_is_service(key) else 0
    rest = ids.pairs[before:]
    taken = min(before + run_length(rest), room)
    pieces = [(False, rest[0][0] if rest else linking.DAB, numbers[:taken])]
    while taken < len(numbers):
        rest = ids.pairs[taken:]
        end = taken + min(run_length(rest), room)
        pieces.append((True, rest[0][0], numbers[taken:end]))
        taken = end
    for kind in (linking.RDS, linking.DRM):
        if ids.named & linking.NAME[kind] and not ids.has_kind(kind):
            pieces.append((True, kind, []))
    return pieces


def block_of(key, on, piece):
    """The block that carries one piece: its FIG, FF, zeros, check."""
    continued, qualifier, numbers = piece
    flags = (0x80 if continued else 0) | (key & (linking.OE | linking.PD)) >> 9 | linking.LINKING
    head = 0x8000 | (0x4000 if on else 0) | key & (linking.HARD | linking.ILS | linking.LSN)
    body = bytes([flags]) + head.to_bytes(2, "big") + bytes([qualifier << 5 | len(numbers)])
    for number in numbers:
        body += number.to_bytes(linking.width(key) // 8, "big")
    data = bytes([len(body)]) + body
    if len(data) < fib.DATA_SIZE:
        data += bytes([fib.END_OF_FIGS])
    data = data.ljust(fib.DATA_SIZE, b"\0")
    return data + fib.check_of(data).to_bytes(2, "big")


def blocks_of(shown):
    """The blocks of these shown sets, given as (key, entry) in ascending key order."""
    return [block_of(key, entry.on, piece) for key, entry in shown for piece in pieces_of(key, entry.shown)]


def write(shown, buffer):
    """Writes into the lent buffer; answers (0, bytes written) or (8, 0), the rest of the buffer untouched."""
    output = b"".join(blocks_of(shown))
    if len(buffer) < len(output):
        return 8, 0
    buffer[:len(output)] = output
    return 0, len(output)
