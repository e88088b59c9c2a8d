#!/usr/bin/env python3
"""Spells the repository's own definitions and lemmas in snake case: run once, after the toolchain's port script.

usage: python3 tools/snake_names.py       at the top of the repository

A name that a file of specs/ or proofs/ declares (a definition, a lemma, a field, a constructor, a local helper) with a dash or in mixed
case becomes words with underscores; types and modules, which begin with a capital, stay, and so does a name that a file has from a
library. Where a definition and a lemma would fall together, the definition takes the plain name and the lemma ends with `_law`; both are
printed. Code, strings, generated labels (what follows `c.` in a walk) and the exported names are not touched.
"""
import glob
import os
import re

DECL = re.compile(r"^(\s*)((?:pub |abbrev |unfoldable |opaque |ruleset |instance )*)([^\s():{}]+(?: [^\s():{}]+)*) :(?: |$)")
WORD = re.compile(r"[A-Za-z_][A-Za-z0-9_'\u2032\u2080-\u2089-]*")
IMPORT = re.compile(r"use (\S+?)\.\{([^}]*)\}")
LABELS = re.compile(r"(?<![\w.'-])(?:c|at|w|g|tie|goal)(?:\.[\w'-]+)+")
CRATES = set(os.listdir("crates"))


def snake(name):
    name = name.replace("-", "_")
    name = re.sub(r"(?<=[a-z0-9])([A-Z])", lambda m: "_" + m.group(1).lower(), name)
    return re.sub(r"_([A-Z])(?=[a-z0-9_]|$)", lambda m: "_" + m.group(1).lower(), name)


def files(*patterns):
    return sorted(p for pattern in patterns for p in glob.glob(pattern, recursive=True))


def read(path):
    with open(path, encoding="utf-8") as f:
        return f.read()


def joined(text):
    return re.sub(r"\{[^{}]*\}", lambda m: m.group(0).replace("\n", " "), text)


def imports(text):
    for module, items in IMPORT.findall(joined(text)):
        yield module, {i.strip().split(" as ")[-1] for i in items.split(",")}


def declared(text):
    for line in text.split("\n"):
        if not line.lstrip().startswith(("--", "use ", "mod ", "pub mod ", "open ")):
            m = DECL.match(line)
            if m:
                for name in m.group(3).split(" "):
                    yield name, not m.group(1) or "pub " in m.group(2)


def table_of(sources):
    """Old name to new name; and the pairs (file, name) of lemmas already in snake case that have to make room."""
    libraries, own, where = set(), {}, {}
    for path, text in sources.items():
        for module, items in imports(text):
            if not (module.startswith("Rattle.") and module.split(".")[1] in CRATES):
                libraries |= items
        if path.endswith(".antt"):
            for name, _ in declared(text):
                own.setdefault(name, set()).add(path)
    wanted = {n for n in own if n[:1].islower() and WORD.fullmatch(n) and snake(n) != n and n not in libraries}
    table, groups, room = {}, {}, set()
    for n in sorted(wanted):
        groups.setdefault(snake(n), []).append(n)
    for new, olds in groups.items():
        defs = [n for n in olds if "-" not in n]
        for n in olds:
            table[n] = new if n in defs or not (defs or new in own or new in libraries) else new + "_law"
        if defs and new in own:
            room.add(new)
        if len(olds) > 1 or new in own or new in libraries:
            print("fall together:", ", ".join(f"{n} -> {table[n]}" for n in olds) + (f", {new} -> {new}_law where it is a lemma" if new in room else ""))
    return table, room, own


def in_text(text, table, labels_too):
    """The words of a text that are in the table, but not those of generated labels."""
    held = [m.span() for m in LABELS.finditer(text)] if not labels_too else []
    spans = iter(held + [(len(text) + 1, len(text) + 1)])
    low, high = next(spans)
    out, at = [], 0
    for m in WORD.finditer(text):
        while m.start() >= high:
            low, high = next(spans)
        word = m.group(0)
        label = low <= m.start() < high and "-" in word
        out += [text[at:m.start()], word if label else table.get(word, word)]
        at = m.end()
    return "".join(out) + text[at:]


def in_code(text, table):
    """As in_text, and not in string literals."""
    parts = re.split(r'("(?:[^"\\\n]|\\.)*")', text)
    return "".join(p if i % 2 else in_text(p, table, True) for i, p in enumerate(parts))


def main():
    antt = files("crates/*/specs/**/*.antt", "crates/*/proofs/**/*.antt")
    code = files("crates/*/src/**/*.rt")
    sources = {p: read(p) for p in antt + code}
    table, room, own = table_of(sources)
    modules = {"Rattle." + p[len("crates/"):-len(".antt")].replace("/", "."): p for p in antt}
    for path, text in sources.items():
        new = in_code(text, table) if path.endswith(".rt") else in_text(text, table, "/Proof.antt" not in path)
        mine = {n for n in room if path in own[n] and "/proofs/" in path and any(m == n and top for m, top in declared(text))}
        for module, items in imports(text):
            from_ = modules.get(module, "")
            mine |= {n for n in items & room if from_ in own[n] and "/proofs/" in from_}
        if mine and path.endswith(".antt"):
            # by the old text, in which the definition still has another name
            new = in_text(text, table | {n: n + "_law" for n in mine}, "/Proof.antt" not in path)
        if new != text:
            with open(path, "w", encoding="utf-8") as f:
                f.write(new)
    print(f"{len(table)} names")


if __name__ == "__main__":
    main()
