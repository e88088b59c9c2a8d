"""The FIGs of blocks: type and length of each, for any bytes, and whether a block's check fails.

Document 01, The block.
"""

from second.block import BLOCK_SIZE, DATA_SIZE, END_OF_FIGS, check_passes, whole_blocks


def fig_lines(data):
    """A line for each FIG of the thirty data bytes, up to the end or the first wrong one."""
    place = 0
    while place < DATA_SIZE and data[place] != END_OF_FIGS:
        length = data[place] % 32
        if length == 0 or place + 1 + length > DATA_SIZE:
            yield "wrong FIG"
            return
        yield "type %d length %d" % (data[place] // 32, length)
        place += 1 + length


def figs_text(recording):
    lines = []
    for number, block in enumerate(whole_blocks(recording)):
        lines.append("block %d" % number + ("" if check_passes(block) else " check fails"))
        lines += fig_lines(block[:DATA_SIZE])
    rest = len(recording) % BLOCK_SIZE
    return "".join(line + "\n" for line in lines + (["rest %d" % rest] if rest else []))
