"""The linking field: service linking is FIG type 0, extension 6.

Document 01, The linking field, and outcomes 1 to 6 of Numbered outcomes;
document 02, R-1, for the place of a refusal, R-3 for the first identifier.
"""

from collections import namedtuple

from second import block as fib

DAB, RDS, DRM = 0, 1, 3       # kinds; 3 is DRM or AMSS; 2 is reserved
KINDS = (DAB, RDS, DRM)
NAME = {DAB: 0, RDS: 1, DRM: 2}   # what a qualifier adds to the named kinds

LINKING = 6                   # the extension

# Parts of a key.
OE, PD, HARD, ILS, LSN = 32768, 16384, 8192, 4096, 4095

# place is that of its first byte in the block; continued is C/N; on is LA;
# mark is the byte with Rfu, qualifier, shorthand and count, None where the
# list flag is 0; numbers are the identifiers.
Field = namedtuple("Field", "place key continued on mark numbers")


def width(key):
    """Bits of an identifier under this key: 32 with P/D 1, else 24 with ILS 1, else 16."""
    if key & PD:
        return 32
    return 24 if key & ILS else 16


def has_list(field):
    return field.mark is not None


def qualifier(field):
    return field.mark >> 5 & 3


def is_start(field):
    return has_list(field) and not field.continued


def first_is_service(key):
    """Whether the first identifier under this key is a DAB service, whatever the qualifier of its start.

    With OE 0 it is: the service in the tuned ensemble.  With OE 1 another
    ensemble is spoken of, and the first has the qualifier's kind as the rest.
    """
    return not key & OE


def pairs_of(field):
    """Its identifiers as (kind, number): of the qualifier's kind, but for a service at the head of a start."""
    pairs = [(qualifier(field), number) for number in field.numbers]
    if is_start(field) and first_is_service(field.key):
        pairs[0] = (DAB, field.numbers[0])
    return pairs


def is_linking(fig):
    return fig.kind == 0 and fig.body[0] & 31 == LINKING


def field_at(fig, begin):
    """The field that begins at this byte of a linking FIG's body, and where it ends; None where it does not fit."""
    body, flags = fig.body, fig.body[0]
    end = begin + 2
    if end > len(body):
        return None
    head = body[begin] << 8 | body[begin + 1]
    key = (flags & 0x60) << 9 | head & (HARD | ILS | LSN)       # OE and P/D are the FIG's
    mark, numbers = None, []
    if head & 0x8000:                                           # list flag
        first = end + 1
        if first > len(body):
            return None
        mark, size = body[end], width(key) // 8
        end = first + (mark & 15) * size
        if end > len(body):
            return None
        numbers = [int.from_bytes(body[p:p + size], "big") for p in range(first, end, size)]
    return Field(fig.place + 1 + begin, key, bool(flags & 0x80), bool(head & 0x4000), mark, numbers), end


def fields_of_fig(fig):
    """The fields of a linking FIG, and the place of the one that does not fit, None where they fill it exactly."""
    fields = []
    begin = 1
    while begin < len(fig.body):
        found = field_at(fig, begin)
        if found is None:
            return fields, fig.place + 1 + begin
        field, begin = found
        fields.append(field)
    return fields, None


def is_forbidden(field):
    """Outcome 5: LSN 0; with a list also Rfu or shorthand 1, qualifier 2, P/D 1 with a qualifier not 0."""
    if field.key & LSN == 0:
        return True
    if not has_list(field):
        return False
    return bool(field.mark & 0x90 or qualifier(field) == 2 or (field.key & PD and qualifier(field) != DAB))


def is_empty_start(field):
    """Outcome 6: a start with count 0."""
    return is_start(field) and not field.numbers


def walk(data):
    """All fields of the thirty data bytes, and all faults as (outcome 3 to 6, place), in any order."""
    figs, wrong = fib.figs_of(data)
    faults = [] if wrong is None else [(3, wrong)]
    fields = []
    for fig in filter(is_linking, figs):
        more, misfit = fields_of_fig(fig)
        fields += more
        faults += [] if misfit is None else [(4, misfit)]
    faults += [(5, field.place) for field in fields if is_forbidden(field)]
    faults += [(6, field.place) for field in fields if is_empty_start(field)]
    return fields, faults


def examine(block):
    """(0, 0, fields in order) for a block that may be taken, else (outcome 1 to 6, place, []).

    Each outcome is looked for over the whole block before the next, and the
    first fault of that outcome gives the place: the least fault of all.
    """
    if len(block) != fib.BLOCK_SIZE:
        return 1, 0, []
    if not fib.check_passes(block):
        return 2, 0, []
    fields, faults = walk(block[:fib.DATA_SIZE])
    if faults:
        outcome, place = min(faults)
        return outcome, place, []
    return 0, 0, fields
