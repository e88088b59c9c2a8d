#!/usr/bin/env python3
"""Lists each wrong program whose text no longer stands in the tree.

usage: python3 tools/check_edits.py [CRATE..]       at the top of the repository; without words all crates

It reads crates/*/must-fail/*.edit and tests/wrong/*/*.edit, applies the pairs of each in memory, in their order, and lists each pair
whose `old:` does not stand exactly once in the text that the pairs before it made, or that changes nothing. It proves nothing.
"""
import glob
import os
import sys


def pairs_of(path):
    """The file, the old and the new text of each pair of an edit."""
    pairs, file, old = [], None, None
    with open(path, encoding="utf-8") as f:
        for line in f.read().split("\n"):
            key, _, text = line.partition(":")
            text = text[1:] if text.startswith(" ") else text
            if key == "file":
                file = text
            elif key == "old":
                old = text
            elif key == "new":
                pairs.append((file, old, text))
    return pairs


def faults(path, crate):
    texts = {}
    pairs = pairs_of(path)
    if not pairs:
        yield "no pair"
    for file, old, new in pairs:
        where = os.path.join("crates", crate, file)
        if where not in texts:
            if not os.path.isfile(where):
                yield f"no file {file}"
                continue
            with open(where, encoding="utf-8") as f:
                texts[where] = f.read()
        times = texts[where].count(old)
        if times != 1:
            yield f"{file}: stands {times} times: {old}"
        elif old == new:
            yield f"{file}: changes nothing: {old}"
        texts[where] = texts[where].replace(old, new)


def main(crates):
    edits = sorted(glob.glob("crates/*/must-fail/*.edit") + glob.glob("tests/wrong/*/*.edit"))
    tried = wrong = 0
    for path in edits:
        crate = path.split("/")[1 if path.startswith("crates/") else 2]
        if crates and crate not in crates:
            continue
        tried += 1
        found = list(faults(path, crate))
        wrong += bool(found)
        for fault in found:
            print(f"FAILED  {path}: {fault}")
    print(f"{tried} edits, {wrong} that do not stand")
    return 1 if wrong else 0


if __name__ == "__main__":
    raise SystemExit(main(sys.argv[1:]))
