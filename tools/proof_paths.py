#!/usr/bin/env python3
"""Paths of `.before` in a proof, by name and back, so that a change of code does not break a proof by counting.

It reads the older form alone, proofs and generated files of rattle-kit-5b, and is kept for the history: a proof of today names the steps as
Rattle does (`c.loop.inv`, `c.put.ensures`), so that nothing in it is counted.

    tools/proof_paths.py names LTS PROOF     before a change: `c .before .before .loop .inv` becomes `@loop .inv`
    tools/proof_paths.py paths LTS PROOF     after it, under the new skeleton: `@loop .inv` becomes the path again
    tools/proof_paths.py show LTS            what can be named at each need

LTS is the file Lts.antt that was generated for the function, PROOF the function's Proof.antt. `@loop` is the nearest thing called `loop` before the need,
`@loop#2` the one before that; `@@At-loop` is the context of that place itself. Only paths that begin at `c`, the context of a need, are turned;
what a `let` binds stays as it is. Where a name is not known it is left, and said.
"""
import re
import sys
from pathlib import Path

WORD = r"[\w·₀-₉'-]+"


class Places:
    """The places of a function's code, as the generated file Lts.antt has them: of each the one before it and what is known there
    first; and at which place each need stands."""

    def __init__(self, text):
        self.before, self.things, self.needs = {}, {}, {}
        place = need = None
        for line in text.split("\n"):
            record = re.match(r"\s+pub record (\S+) ", line)
            field = re.match(r"\s+pub (\S+) : (\S+)", line)
            begins = re.match(r"\s+Need-(\S+) =(.*)", line)
            if record:
                place = record.group(1)
                self.things[place] = []
            elif field and place:
                if field.group(1) == "before":
                    self.before[place] = field.group(2).strip("()")
                else:
                    self.things[place].append(field.group(1))
            elif begins:
                need, line = begins.group(1), begins.group(2)
            at = re.match(r"\s*\(c : ([^\s)]+)\)", line)
            if need and at:
                self.needs[need] = at.group(1)
                need = None

    def way(self, place):
        """From a place back to the start: (place, what is known there first)."""
        found = []
        while place in self.things:
            found.append((place, self.things[place]))
            place = self.before.get(place)
        return found


def to_name(steps, thing, way):
    """What stands so many steps back, by name; none where nothing of that name stands there."""
    if steps >= len(way):
        return None
    if thing is None:
        return "@@" + way[steps][0] if steps else None
    if thing not in way[steps][1]:
        return None
    nearer = sum(thing in things for _, things in way[:steps])
    return "@" + thing + ("#%d" % (nearer + 1) if nearer else "")


def to_path(name, way):
    """The path of a name, or none."""
    whole = re.fullmatch("@@(%s)" % WORD, name)
    part = re.fullmatch(r"@(%s)(?:#(\d+))?" % WORD, name)
    left = int(part.group(2) or 1) if part else 1
    for steps, (place, things) in enumerate(way):
        if whole and place == whole.group(1):
            return "c" + " .before" * steps
        if part and part.group(1) in things:
            left -= 1
            if left == 0:
                return "c" + " .before" * steps + " ." + part.group(1)
    return None


def with_names(text, way):
    def turn(match):
        return to_name(match.group(1).count(".before"), match.group(2), way) or match.group(0)

    return re.sub(r"(?<![\w·'-])c((?: \.before)*)(?: \.(?!before\b)(%s))?(?![\w·'-])(?! \.before\b)" % WORD, turn, text)


def with_paths(text, way, unknown):
    def turn(match):
        path = to_path(match.group(0), way)
        if path is None:
            unknown.append(match.group(0))
        return path or match.group(0)

    return re.sub(r"@@?%s(?:#\d+)?" % WORD, turn, text)


def turned(proof, places, how):
    """A proof with the paths of every need turned, and the names that are not known."""
    unknown, out = [], []
    for clause in re.split(r"(?m)^(?=\S+ : )", proof):
        head = clause.split(" ", 1)[0]
        lemma = re.match(r"\S+ :(?:[^\n]|\n(?=\s))*?\(c : tie\.(%s)" % WORD, clause)
        place = lemma.group(1) if lemma else places.needs.get(head)
        way = places.way(place)
        if way:
            missed = []
            clause = with_names(clause, way) if how == "names" else with_paths(clause, way, missed)
            unknown += ["%s: %s" % (head, name) for name in missed]
        out.append(clause)
    return "".join(out), unknown


def main():
    if (sys.argv[1:2], len(sys.argv)) not in ((["names"], 4), (["paths"], 4), (["show"], 3)):
        sys.exit(__doc__)
    how = sys.argv[1]
    places = Places(Path(sys.argv[2]).read_text(encoding="utf-8"))
    if how == "show":
        for need, place in places.needs.items():
            print("%s: %s" % (need, " ".join("@" + thing for _, things in places.way(place) for thing in things)))
        return
    path = Path(sys.argv[3])
    text, unknown = turned(path.read_text(encoding="utf-8"), places, how)
    path.write_text(text, encoding="utf-8")
    for line in unknown:
        print("proof_paths: not known: " + line, file=sys.stderr)
    sys.exit(1 if unknown else 0)


if __name__ == "__main__":
    main()
