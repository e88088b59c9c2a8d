#!/usr/bin/env python3
"""Turns walks of an older Rattle (proofs/F/Proof.antt that ends in `tie.close`) into Invariants.antt and Answers.antt.

usage: python3 tools/turn_proofs.py CRATE NAMES [FN..]

CRATE is a crate's folder, in the spelling that the toolchain's port script left, and NAMES the names.json that `rt names DIR` wrote for it: each
step, goal and place by its older name and by today's. A first form of it turned the proofs that the crates have today, about half of which were then changed
by hand or made shorter; this one waits for the unfinished R-4, and goes when that has been taken up. It prints what it cannot turn, and proves nothing: the
check says what is left, as

- a helper over a place at which no goal stands: places are different types now, so it is written into its answers or takes plain arguments;
- joins: `⊎_elim (λ w. A) (λ w. B) c.if-X.branch` becomes an `elim` with named arms, whose positions w.1, w.2 .. are named by hand;
- what the port script took for a word of the library's, as `width_of_lem` or `Block-of`, is put back where the step is known.
"""
import json
import os
import re
import sys

ID = r"(?:«\w+»|[A-Za-z_][\w'₀-₉′·]*)"
SEG = r"(?:«\w+»|[\w'₀-₉′·-]+)"
CHAIN = re.compile(rf"(?<![\w.'-])({ID})((?:\.{SEG})+)")
SIGNATURE = re.compile(r"^(abbrev )?(pub )?(\S+) : \(?tie\.(Need-|invariant-|decreases-)(\S+)")
# What Rattle finds alone.
TRIVIAL = {"search rules", "tt", "omega arith", "refl"}


def plain(name):
    return name.replace("-", "_")


def one_line_uses(text):
    return re.sub(r"\{[^{}]*\}", lambda m: re.sub(r"\s*\n\s*", " ", m.group(0)), text)


def blocks(text):
    return [b for b in re.split(r"\n\s*\n", text.strip("\n")) if b.strip()]


class Names:
    """Today's names of one function's steps, goals and places."""

    def __init__(self, listed):
        self.needs, self.steps, self.places, self.arms, self.typed, self.loops = listed["needs"], {}, {}, {}, {}, {}
        self.arguments = [(old.split()[-1], new.split()[-1]) for old, new in listed["args"] if old.startswith(".args")]
        for (place, _, (old, new), *_), name in zip(listed["places"], listed["places_by_name"]):
            self.places[plain(place)] = name
            if old:
                self.steps.setdefault(plain(old), new)
        for arm in filter(None, listed["arms"]):
            for field, step, path in arm[2]:
                if not field.endswith("-own"):
                    self.arms.setdefault(plain(step), {}).setdefault(tuple(path), (arm[0], field))
        for known in listed["typed"]:
            for variable, step in known:
                self.typed.setdefault(plain(step), variable)
        for ((old, new), variables), changed in zip(listed["loops"], listed["changed"]):
            self.steps[plain(old)] = new
            self.steps[plain(old) + "_test"] = new + "-test"
            self.loops[plain(old)] = (new, variables, changed)

    def path(self, m):
        """A path from a place: its way up goes, and its steps have today's names."""
        head, rest = m.group(1), m.group(2)[1:].split(".")
        up = len(rest)
        while rest and rest[0] == "before":
            rest.pop(0)
        up -= len(rest)
        if not rest:
            return head
        first, tail = rest[0], rest[1:]
        lemma = re.fullmatch(r"(.*?)_lem(\d*)", first)
        step = plain(lemma.group(1) + lemma.group(2)) if lemma else plain(first[:1].lower() + first[1:])
        if step == "pre":
            return ".".join([head, "requires", *tail])
        for n in range(len(tail), 0, -1):
            if tuple(tail[:n]) in self.arms.get(step, {}):
                arm, field = self.arms[step][tuple(tail[:n])]
                return ".".join([head, arm, field, *tail[n:]])
        if step in self.typed and tail[:1] == ["given"]:
            return ".".join([head, "type_inv", self.typed[step], *tail[1:]])
        if step in self.steps and (up or head == "c"):
            return ".".join([head, self.steps[step], *tail])
        return ".".join([head, *rest]) if up else m.group(0)


def without_navigation(text):
    """Takes out the abbrevs that only lead from a place to an earlier one."""
    led = {}
    for m in re.finditer(r"(?m)^abbrev (\w+) : \((\w+) : tie\.[^)]*\) → tie\.[^\n]*\n\1 \2 = ([^\n]*)\n", text):
        if re.fullmatch(r"[\w .()]+", m.group(3)):
            led[m.group(1)] = m.group(0)
    for whole in led.values():
        text = re.sub(r"(?:--[^\n]*\n)*" + re.escape(whole) + r"\n?", "", text)
    while True:
        old = text
        for name in led:
            text = re.sub(rf"(?<![\w.'-]){name} (?=[\w(])", "", text)
        text = re.sub(r"(?<=[ (])\(([clbswh])((?:\.[\w-]+)*)\)", r"\1\2", text)
        if text == old:
            return text


def used(uses, text):
    """The imports that a text names."""
    kept = []
    for use in uses:
        m = re.match(r"use (\S+)\.\{(.*)\}$", use.strip())
        if not m:
            alias = use.split()[-1].split(".")[-1]
            kept += [use] if re.search(rf"(?<![\w'.-]){re.escape(alias)}\.", text) else []
            continue
        items = [i.strip() for i in m.group(2).split(",")]
        named = lambda n: all(p in text for p in n.split("◌") if p) if "◌" in n else re.search(rf"(?<![\w'-]){re.escape(n)}(?![\w'-])", text)
        items = [i for i in items if named(i.split(" as ")[-1])]
        kept += [f"use {m.group(1)}.{{{', '.join(items)}}}"] if items else []
    return kept


def invariant(block, name, kind, label, comment, names, say):
    """An invariant or a measure over a record of the loop's variables."""
    if plain(label) not in names.loops:
        return say(f"no loop {label}")
    new, variables, changed = names.loops[plain(label)]
    m = re.match(rf"[^\n]*\n((?:\s*unfolding[^\n]*\n)?){re.escape(name)}((?: {SEG})*) =", block)
    if not m:
        return say(f"{name} not read")
    given = m.group(2).split()
    now = [v for v, c in zip(variables, changed) if c]
    if len(given) != len(variables) + len(now):
        say(f"{name}: {len(given)} names for {len(variables)} + {len(now)} variables")
    fields = {p: f"l.initial.{v}" if c else f"l.{v}" for p, v, c in zip(given, variables, changed)}
    fields |= {p: f"l.{v}" for p, v in zip(given[len(variables):], now)}
    body = re.sub(rf"(?<![\w.'-])({ID})(?![\w'-])", lambda k: fields.get(k.group(1), k.group(1)), block[m.end():])
    return "\n".join([*comment, f"abbrev pub {kind}{new} : goal.{kind}{new}"]) + f"\n{m.group(1)}{kind}{new} l ={body}"


def goals_of(order, answers, names, say):
    """Each answer's goal: by their order, or by their labels where some are gone."""
    if len(order) == len(names.needs):
        return {a: new for a, (_, new) in zip(order, names.needs)}
    by_label = {plain(old): new for old, new in names.needs}
    goals = {}
    for a in order:
        label = plain(answers[a][0]) if a in answers else ""
        goals[a] = by_label.get(label) or by_label.get(label.removeprefix("overflow_"))
    say(f"{len(order)} answers for {len(names.needs)} goals; none for {[a for a in order if not goals[a]]}")
    return goals


def turn(folder, names, say):
    path = os.path.join(folder, "Proof.antt")
    with open(path, encoding="utf-8") as f:
        lines = without_navigation(one_line_uses(f.read())).split("\n")
    if not any("tie.close" in line for line in lines):
        return say("no tie.close: by hand")
    head = []
    while lines[0].startswith("--"):
        head.append(lines.pop(0))
    uses = [line for line in lines if line.startswith("use ")]
    module = next(u for u in uses if u.endswith(".Tie as tie")).split()[1].removesuffix(".Tie")
    uses = [u for u in uses if not re.search(r"\.(Statement\.\{statement\}|Tie as tie)$", u)]
    parts = blocks("\n".join(line for line in lines if not line.startswith("use ")))
    close = next(p for p in parts if "tie.close" in p)
    order = re.search(r"tie\.spec\b(.*?)\)", close, re.S)
    parsed = []
    for p in parts:
        if p is not close:
            rows = p.split("\n")
            n = next((i for i, r in enumerate(rows) if not r.lstrip().startswith("--")), len(rows))
            parsed.append((rows[:n], "\n".join(rows[n:])))
    signs = [(comment, block, SIGNATURE.match(block)) for comment, block in parsed]
    loops = [m.group(3) for _, _, m in signs if m and m.group(4) != "Need-"]
    answers = {m.group(3): (m.group(5), block) for _, block, m in signs if m and m.group(4) == "Need-"}
    goals = goals_of([a for a in (order.group(1).split() if order else []) if a not in loops], answers, names, say)
    over = "".join(rf"(?: {re.escape(n)})?" for n in loops)

    def places(text):
        return re.sub(rf"\btie\.({SEG}){over}", lambda m: "goal." + names.places.get(plain(m.group(1)), m.group(1)), text)

    invariants, items = [], []
    for comment, block, m in signs:
        if m and m.group(4) != "Need-":
            invariants.append(invariant(block, m.group(3), m.group(4), m.group(5), comment, names, say))
        elif not m:
            items.append("\n".join([*comment, CHAIN.sub(names.path, places(block))]))
        elif goals.get(m.group(3)):
            goal, rest = goals[m.group(3)], block[block.index("\n") + 1:]
            n = re.match(rf"((?:\s*unfolding[^\n]*\n)?){re.escape(m.group(3))} c(?: κs)? =", rest)
            if not n:
                say(f"{m.group(3)} not read")
            elif n.group(1) or " ".join(rest[n.end():].split()) not in TRIVIAL:
                items.append("\n".join([*comment, f"pub {goal} : goal.{goal}"]) + f"\n{n.group(1)}{goal} c ={CHAIN.sub(names.path, rest[n.end():])}")
    text = "\n\n".join(items)
    for old, new in names.arguments:
        text = re.sub(rf"\.args{re.escape(old)}(?![\w'-])", f".args{new}", text)
    # the fact of a test on a call says what the call answered
    text = re.sub(r"\(?not-(true|false) _ (c\.if-not-[\w-]+\.\1)\)?", r"\2", text)
    invariants = [i for i in invariants if i]
    for file, module_of, texts in (("Invariants", "Given", invariants), ("Answers", "Goals", [text] if text else [])):
        if texts:
            whole = "\n\n".join(texts)
            with open(os.path.join(folder, file + ".antt"), "w", encoding="utf-8") as f:
                f.write("\n".join([*head, *used(uses, whole), f"use {module}.{module_of} as goal"]) + "\n\n" + whole + "\n")
            head = []
    os.remove(path)


def main(crate, listed, *only):
    with open(listed, encoding="utf-8") as f:
        names = json.load(f)
    for key, value in names.items():
        m = re.match(r"Rattle-\w+-proofs\.(.*)\.Lts$", key)
        if m and (not only or m.group(1) in only):
            folder = os.path.join(crate, "proofs", *m.group(1).split("."))
            if os.path.exists(os.path.join(folder, "Proof.antt")):
                turn(folder, Names(value), lambda said, f=folder: print(f"{f}: {said}"))


if __name__ == "__main__":
    if len(sys.argv) < 3:
        raise SystemExit(__doc__)
    main(*sys.argv[1:])
