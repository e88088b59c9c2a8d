"""Making blocks, good and bad, piece by piece, and a dice of our own.

Used by the makers of vectors and examples and by the self-checks.  Nothing
here knows the writer of second/air.py; only the check is shared.
"""

from second.block import check_of

MASK = (1 << 64) - 1


class Dice:
    """A small xorshift generator, the same on every Python."""

    def __init__(self, seed):
        self.state = seed

    def word(self):
        x = self.state
        x ^= x >> 12
        x ^= x << 25 & MASK
        x ^= x >> 27
        self.state = x
        return (x * 2685821657736338717 & MASK) >> 32

    def below(self, n):
        return self.word() % n

    def between(self, low, high):
        return low + self.below(high - low + 1)

    def chance(self, percent):
        return self.below(100) < percent

    def pick(self, things):
        return things[self.below(len(things))]

    def shuffled(self, things):
        things = list(things)
        for last in range(len(things) - 1, 0, -1):
            other = self.below(last + 1)
            things[last], things[other] = things[other], things[last]
        return things

    def some(self, things, count):
        return self.shuffled(things)[:count]


def with_check(data):
    """Thirty bytes of data and their check."""
    return data + check_of(data).to_bytes(2, "big")


def block(*figs):
    """A block of these FIGs (bytes with their headers), FF and zeros after them where there is room."""
    data = b"".join(figs)
    if len(data) < 30:
        data += b"\xff"
    return with_check(data.ljust(30, b"\0"))


def block_of(text):
    """A block from hexadecimal FIG bytes, as the examples of document 01 give them."""
    return block(bytes.fromhex(text))


def damaged(good, bit=100):
    """The block with one bit turned, so that its check fails."""
    bad = bytearray(good)
    bad[bit // 8] ^= 0x80 >> bit % 8
    return bytes(bad)


def fig(kind, body):
    """Any FIG."""
    return bytes([kind << 5 | len(body)]) + body


def linking_fig(continued, oe, pd, *fields):
    """A FIG 0/6 with these fields."""
    return fig(0, bytes([continued << 7 | oe << 6 | pd << 5 | 6]) + b"".join(fields))


def id_size(key):
    """Bytes of an identifier under this key."""
    return 4 if key & 0x4000 else 3 if key & 0x1000 else 2


def short(key, on):
    """A field without a list."""
    return (on << 14 | key & 0x3FFF).to_bytes(2, "big")


def long(key, on, qualifier, numbers, count=None, rfu=0, shorthand=0):
    """A field with a list; `count` may lie about the numbers."""
    head = 0x8000 | on << 14 | key & 0x3FFF
    mark = rfu << 7 | qualifier << 5 | shorthand << 4 | (len(numbers) if count is None else count)
    return head.to_bytes(2, "big") + bytes([mark]) + b"".join(n.to_bytes(id_size(key), "big") for n in numbers)


def fig_for(key, continued, *fields):
    """A FIG 0/6 whose OE and P/D are those of the key."""
    return linking_fig(continued, key >> 15 & 1, key >> 14 & 1, *fields)


def start(key, on, qualifier, numbers):
    """A block with one start."""
    return block(fig_for(key, 0, long(key, on, qualifier, numbers)))


def more(key, on, qualifier, numbers):
    """A block with one continuation."""
    return block(fig_for(key, 1, long(key, on, qualifier, numbers)))


def state(key, on, continued=1):
    """A block with one field without a list."""
    return block(fig_for(key, continued, short(key, on)))


def room(key):
    """Identifiers that fit a piece."""
    return {2: 12, 3: 8, 4: 6}[id_size(key)]


def whole_list(key, on, pairs, dead=()):
    """Blocks of a start and its continuations for (kind, number) pairs, and of dead links.

    The first pair goes with the run after it; with OE 1 it is the first of a run itself.
    """
    blocks = []
    kind, run = pairs[0 if key & 0x8000 or len(pairs) == 1 else 1][0], [pairs[0][1]]
    for next_kind, number in pairs[1:]:
        if next_kind != kind or len(run) == room(key):
            blocks.append((more if blocks else start)(key, on, kind, run))
            kind, run = next_kind, []
        run.append(number)
    blocks.append((more if blocks else start)(key, on, kind, run))
    return blocks + [more(key, on, kind, []) for kind in dead]
