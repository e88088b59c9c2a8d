"""Checks docs/STATEMENTS.md against the source.

    python3 tests/check_statements.py

Its table of public functions has a row for every `pub fn` of the libraries; each names at least two wrong programs whose edits change code
and one whose edit changes a definition, or says why there is none, and at least one of each stands in the gate; and every edit that there is stands in that table, in
the one of document 01's wrong programs or in that of the command. Every old text of an edit stands exactly once where it says, and every statement that is copied
stands so in the source. Every name of a definition, a theorem or a function that STATEMENTS.md or RULES.md sets apart is declared in
some crate, one that stands in a column of definitions or theorems by its specs/ or proofs/, and crates.txt names no crate before it is
listed. Exit status 1 otherwise.
"""

import re
import sys
from pathlib import Path

sys.dont_write_bytecode = True

ROOT = Path(__file__).resolve().parent.parent


def libraries():
    return sorted(path.parent.parent for path in ROOT.glob("crates/*/src/lib.rt"))


def public_functions():
    """(crate, function) of every `pub fn`, with its type in front."""
    for crate in libraries():
        owner = ""
        for line in "\n".join(path.read_text() for path in sorted(crate.glob("src/**/*.rt"))).splitlines():
            block = re.match(r"impl(?:<'a>)? (\w+)", line)
            if block or line == "}":
                owner = block.group(1) + "::" if block else ""
            function = re.match(r"\s*pub fn (\w+)", line)
            if function:
                yield crate.name, owner + function.group(1)


def edits():
    """(crate, name): the kinds of files that the edit changes, and whether its old texts stand once each."""
    found = {}
    for path in sorted(ROOT.glob("crates/*/must-fail/*.edit")) + sorted(ROOT.glob("tests/wrong/*/*.edit")):
        crate = path.parent.parent.name if path.parent.name == "must-fail" else path.parent.name
        kinds, texts, once, at, old = set(), {}, True, None, None
        for line in path.read_text().splitlines():
            if line.startswith("file: "):
                at = line[6:].strip()
                kinds.add(at.split("/")[0])
                there = ROOT / "crates" / crate / at
                texts.setdefault(at, there.read_text() if there.is_file() else "")
            elif line.startswith("old: "):
                old = line[5:]
                once = once and texts[at].count(old) == 1
            elif line.startswith("new:"):
                texts[at] = texts[at].replace(old, line[5:])
        found[crate, path.stem] = kinds, once
    return found


def named(cell, crate):
    """The edits that a cell names: `name`, or `crate: name` for one of another crate."""
    for owner, name in [] if cell.startswith("none: ") else re.findall(r"(?:(\w+): )?`(\w+)`", cell):
        yield owner or crate, name


def rows(text, heading):
    part = text.split("\n## " + heading + "\n")[1].split("\n## ")[0]
    return [[cell.strip() for cell in line.strip("|").split("|")] for line in part.splitlines() if line.startswith("| ")][1:]


def quotes(text):
    """(file, lines) of each part of the source that is copied into the text: a path alone, and indented lines after it."""
    for path, part in re.findall(r"^`(crates/[^`]+)`:\n\n((?:    .*\n|\n(?=    ))+)", text, re.M):
        yield path, re.sub(r"^    ", "", part.strip("\n"), flags=re.M)


def misplaced():
    """The crates that crates.txt names before they are listed."""
    lines = [line.split(":") for line in (ROOT / "crates.txt").read_text().splitlines() if not line.startswith("#")]
    ours, seen = {name for name, _ in lines}, set()
    for name, uses in lines:
        yield from ("%s uses %s, which comes later" % (name, use) for use in uses.split() if use in ours - seen)
        seen.add(name)


def stated():
    """Every name that some specs/ or proofs/ declares: definitions, laws, constructors and fields."""
    names = set()
    for part in ("specs", "proofs"):
        for path in sorted(ROOT.glob("crates/*/%s/**/*.antt" % part)):
            names.update(re.findall(r"^ *(?:(?:unfoldable|abbrev|opaque|pub|data|record) )*([^\s:(){}]+)(?: [^:\n]*)? :(?: |$)", path.read_text(), re.M))
    return names


def coded():
    """Every name that some src/ declares: functions and types."""
    names = set()
    for path in sorted(ROOT.glob("crates/*/src/**/*.rt")):
        names.update(re.findall(r"(?:fn|struct|enum) (\w+)", path.read_text()))
    return names


# The columns of STATEMENTS.md that hold definitions or theorems, by heading; a function may have the same name.
COLUMNS = {"The rules (document 01)": 1, "The demands (document 00)": 1, "Bounds": 1, "Single answers": 1, "Public functions": 1}


# Words set apart that are no names of ours: commands, programs, files, the kit's, and words of the product.
OTHERS = set("""linkage listing replay rules promises input min take Counts ensures pub done no find sort cksum sed readlink rt""".split())


def cited(text):
    """The names that a page sets apart: single words in backquotes, of two letters or more, without those of paths and of the copied source."""
    for word in re.findall(r"`([^`\n ]+)`", re.sub(r"^    .*$", "", text, flags=re.M)):
        word = word.rsplit("::", 1)[-1]
        if re.fullmatch(r"[A-Za-z][\w?'-]+", word) and word not in OTHERS:
            yield word


def main():
    text = (ROOT / "docs/STATEMENTS.md").read_text()
    known, wrong, used = edits(), [], set()
    wrong += ["%s: %s: an old text does not stand once" % key for key, (_, once) in known.items() if not once]
    listed = {}
    for function, cites, code, definition in rows(text, "Public functions"):
        crate, name = re.match(r"(\w+): `([\w:]+)`", function).groups()
        listed[crate, name] = True
        for cell, kind, least in ((code, "src", 2), (definition, "specs", 1)):
            names = list(named(cell, crate))
            used.update(names)
            wrong += ["%s: %s: no edit %s: %s" % (crate, name, *key) for key in names if key not in known]
            good = [key for key in names if key in known and kind in known[key][0]]
            if good and not any((ROOT / "crates" / owner / "must-fail" / (edit + ".edit")).exists() for owner, edit in good):
                wrong.append("%s: %s has no edit of %s in the gate" % (crate, name, kind))
            if len(good) < least and not cell.startswith("none: "):
                wrong.append("%s: %s names %d edits of %s" % (crate, name, len(good), kind))
    for _, where in rows(text, "Wrong programs that document 01 lists") + rows(text, "The command"):
        used.update(named(where, ""))
    wrong += ["%s: %s: not listed" % key for key in public_functions() if key not in listed]
    wrong += ["%s: %s: listed, and not there" % key for key in listed if key not in set(public_functions())]
    wrong += ["%s: %s: an edit that STATEMENTS.md does not name" % key for key in known if key not in used]
    copied = list(quotes(text))
    wrong += ["%s: not there as copied: %s" % (path, part.splitlines()[0]) for path, part in copied if not (ROOT / path).is_file() or part not in (ROOT / path).read_text()]
    wrong += ["crates.txt: " + line for line in misplaced()]
    laws = stated()
    for heading, column in COLUMNS.items():
        cells = " ".join(row[column].split(", the same file: ")[0] for row in rows(text, heading))
        wrong += ["docs/STATEMENTS.md: %s: no definition or theorem is called %s" % (heading, word) for word in sorted(set(cited(cells))) if word not in laws]
    names = laws | coded() | {name for _, name in known} | {path.name for path in ROOT.glob("crates/*")}
    for page in ("docs/STATEMENTS.md", "docs/RULES.md"):
        wrong += ["%s: nothing is called %s" % (page, word) for word in sorted(set(cited((ROOT / page).read_text()))) if word not in names]
    for line in wrong:
        print("FAILED  " + line)
    if not wrong:
        print("ok      docs/STATEMENTS.md: %d public functions, %d wrong programs, %d statements copied" % (len(listed), len(known), len(copied)))
    sys.exit(1 if wrong else 0)


if __name__ == "__main__":
    main()
