"""The count of blocks and the numbers of sets, worked out from the lines of a script and their answers alone.

Document 02, R-9.  Every `b` is counted that is not answered 1 or 9.  A set has
the number of the last block whose answer has note 2 at a field of its key, 0
where none has since the table was taken, loaded, or the key forgotten.  What
`t` and `c` print is held to that, in every script.
"""

from second.field import examine

STOP = 4294967295


class Counting:
    """The count and the numbers by key (those that are not 0); None after a spoiling, which may change them."""

    def __init__(self):
        self.now = 0, {}
        self.remembered = ()        # what the last spoiling remembered, alone in it

    def saw(self, line, answers):
        """One more line that is a command, and its answer lines; answers what it met, as words to be counted."""
        command, *words = line.split(" ")
        step = {"e": self.taken, "l": self.taken, "b": self.block, "f": self.forgotten, "count": self.counted,
                "x": self.spoiled, "u": self.unspoiled, "t": self.printed, "c": self.copied}.get(command)
        return step(words, answers) or [] if step else []

    def are_good(self):
        """Whether the rule on numbers is met; None where that is not known."""
        return self.now and max(self.now[1].values(), default=0) <= self.now[0]

    def taken(self, words, answers):
        self.now = 0, {}

    def block(self, words, answers):
        _, outcome, *notes = answers[0].split(" ")
        if self.now is None:
            return ["b 9 is not counted"] if outcome == "9" else []
        assert (outcome == "9") == (not self.are_good()), answers
        if outcome in ("1", "9"):
            return ["b %s is not counted" % outcome]
        count, numbers = self.now[0], dict(self.now[1])
        met = ["b %s at the stop" % outcome if count == STOP else "b %s is counted" % outcome]
        count = min(count + 1, STOP)
        if outcome == "0":
            fields = examine(bytes.fromhex(words[0]))[2]
            assert len(fields) == len(notes), answers
            for field, note in zip(fields, notes):
                if note == "2":
                    met.append(self.showing(numbers.get(field.key, 0), count))
                    numbers[field.key] = count
        self.now = count, numbers
        return met

    def showing(self, number, count):
        """What a showing is at this count, of a key whose set has this number so far."""
        if count == STOP:
            return "shown at the stop"
        if number == count:
            return "shown twice in a block"
        return "shown again" if number else "shown"

    def forgotten(self, words, answers):
        if self.now and answers == ["f 0"]:
            key = int(words[0], 16)
            self.now = self.now[0], {held: number for held, number in self.now[1].items() if held != key}

    def counted(self, words, answers):
        if self.now:
            self.now = int(words[0]), self.now[1]
            return ["count gives %s table" % ("a good" if self.are_good() else "a bad")]

    def spoiled(self, words, answers):
        if answers == ["x"]:
            self.remembered, self.now = (self.now,), None

    def unspoiled(self, words, answers):
        if self.remembered:
            self.now, = self.remembered

    def printed(self, words, answers):
        if self.now is None:
            return
        if not self.are_good():
            assert answers == ["t 9"], answers
            return
        count, numbers = self.now
        assert answers[0] == "t %d #%d" % (len(answers) - 1, count), (answers[0], count)
        for line in answers[1:]:
            key, _, number, _ = line.split(" ", 3)
            assert number == "#%d" % numbers.get(int(key, 16), 0), (line, numbers)

    def copied(self, words, answers):
        _, outcome, *said = answers[0].split(" ")
        if self.now and outcome == "0":
            assert said[3] == "#%d" % self.now[1].get(int(words[0], 16), 0), answers
