"""A replay script in the making: each command is executed at once and what it met is counted."""

from collections import Counter

from counting import Counting
from second import stored
from second.air import blocks_of
from second.replay import Replay
from second.sheet import sheet_of
from second.table import shown_sets

LETTERS = tuple("ebfcaslxtu")       # the commands of a letter


class Script:
    """Command lines with their answers; `commands` are the first words that may appear."""

    def __init__(self, commands=LETTERS):
        self.commands = tuple(commands)
        self.replay = Replay()
        self.lines = []
        self.answers = []
        self.seen = Counter()
        self.counting = Counting()  # holds the numbers that are printed to the notes
        self.figures = None         # the totals when they were last asked for, None after 9
        self.since = []             # what was done since

    # Commands

    def raw(self, line):
        """One line of bytes as it stands; answers the answer lines."""
        answers = self.replay.answer(line)
        self.lines.append(line)
        self.answers += answers
        self.seen["commands"] += 1
        if answers and answers != ["?"]:
            self.seen.update(self.counting.saw(line.decode("ascii"), answers))
        return answers

    def do(self, text):
        """A well-formed command; answers its first answer line."""
        return self.done(text)[0]

    def done(self, text):
        """A well-formed command; answers its answer lines."""
        assert text.split(" ")[0] in self.commands, text
        answers = self.raw(text.encode("ascii"))
        self.count(text, answers)
        return answers

    def count(self, text, answers):
        answer = answers[0]
        words = answer.split(" ")
        letter, outcome = words[0], words[1] if len(words) > 1 else ""
        if letter == "x":
            what = "x %d %s" % (int(text.split(" ")[1]), outcome or "done")
        elif letter in ("t", "totals"):
            what = answer if answers == [letter + " 9"] else letter
        else:
            what = (letter + " " + outcome).strip()
        self.seen[what] += 1
        if letter == "totals":
            self.count_change(None if what == "totals 9" else [int(word) for word in words[1:]])
        else:
            self.since.append(what)
        if letter == "b" and outcome == "0":
            self.seen.update("note " + note for note in words[2:])
        elif letter == "b":
            self.seen[answer] += 1              # with its place

    def count_change(self, figures):
        """How each figure went where one command stands between two `totals`: `b 0 makes + = -`."""
        if self.figures and figures and len(self.since) == 1:
            signs = ["-=+"[(new > old) - (new < old) + 1] for old, new in zip(self.figures, figures)]
            self.seen["%s makes %s" % (self.since[0], " ".join(signs))] += 1
        self.figures, self.since = figures, []

    def empty(self):
        self.do("e")

    def show(self):
        self.do("t")

    def block(self, data, expected=None, notes=None, small=False, place=None):
        """Reads a block; the outcome and the notes, or the place of a refusal, may be foretold."""
        digits = data.hex() if small else data.hex().upper()
        answer = self.do(("b " + digits).strip())
        words = answer.split(" ")
        assert expected is None or words[1] == str(expected), (answer, expected, digits)
        assert notes is None or words[2:] == [str(note) for note in notes], (answer, notes, digits)
        assert place is None or words[2:] == ["@%d" % place], (answer, place, digits)

    def blocks(self, many):
        for data in many:
            self.block(data, 0)

    def expect(self, text, outcome):
        """A command whose outcome is foretold."""
        answer = self.do(text)
        assert answer.split(" ")[1] == str(outcome), (text, answer, outcome)

    def load(self, data, outcome):
        self.expect(("l " + data.hex().upper()).strip(), outcome)

    # The present table

    def table(self):
        return stored.fetch(self.replay.stored)

    def shown(self):
        return shown_sets(self.table())

    def air_length(self):
        return 32 * len(blocks_of(self.shown()))

    def sheet(self):
        return sheet_of(self.shown())

    # Writing the files

    def input_bytes(self):
        return b"".join(line + b"\n" for line in self.lines)

    def output_bytes(self):
        return "".join(line + "\n" for line in self.answers).encode("ascii")
