#!/usr/bin/env python3
"""Respells the names of specs/ and proofs/ as today's Rattle spells names, in every crate of the folder it runs in.

A definition, a lemma, a field or a constructor is in snake case; a theorem that is a fact is spelled as a type.
A dash stays where it joins the names of two definitions, as in `nth-take`. A name of the toolchain (an import from
Rattle.std and the logic, a goal, a step of a function's proof) stays as it is. With --list it only tells the names.
Run once, straight after port.py; then `docs/` and the edits are brought over by hand.
"""
import re
import sys
from pathlib import Path

# names that would fall together with another: a lemma that would have its definition's name ends in _lem
CHOSEN = {
    "First-fault": "TellsFirstFault",
    "date-by": "date_by_lem",
    "front_of": "front_of_lem",
    "in-range": "in_range_lem",
    "log-of": "log_of_lem",
    "on-zone": "on_zone_lem",
    "on_step": "on_step_lem",
    "written-signed": "written_signed_lem",
    "zone-of": "zone_of_lem",
    "zones-from": "zones_from_lem",
}

NAME = r"[A-Za-z_][A-Za-z0-9_'\-]*"
TOKEN = re.compile(NAME)
HEAD = re.compile(rf"^((?:abbrev |unfoldable |pub |data |record |ruleset )*)({NAME})(?= [^=\n]*:| *$)", re.M)
FIELD = re.compile(rf"^  (?:pub )?({NAME}) : ", re.M)
GOAL = re.compile(rf"^(?:abbrev )?(?:pub )?({NAME}) : (?:\([^)]*\) → )?goal\.", re.M)


def snake(name):
    """`isKnown` is `is_known`; capitals of a fact within a name stay, as in `All-append`."""
    return re.sub(r"(?<=[a-z0-9])([A-Z])", lambda m: "_" + m.group(1).lower(), name)


def respelled(name, defined):
    """A name's new spelling."""
    if name in CHOSEN:
        return CHOSEN[name]
    if name[0].isupper():
        return "".join(p[:1].upper() + p[1:] for p in name.split("-"))
    parts = name.split("-")
    joined = len(parts) == 2 and all(p in defined for p in parts)
    return ("-" if joined else "_").join(snake(p) for p in parts)


def files():
    """The crates' files of the logic, and their sources."""
    antt = sorted(p for d in ("specs", "proofs") for p in Path("crates").glob(f"*/{d}/**/*.antt"))
    return antt, sorted(Path("crates").glob("*/src/**/*.rt"))


def declared(antt):
    """What specs/ and proofs/ declare: all names, and those of definitions."""
    names, defined = set(), {"append", "length", "take", "drop", "map"}
    for path in antt:
        text = re.sub(r"--.*", "", path.read_text())
        goals = set(GOAL.findall(text))
        for head, name in HEAD.findall(text):
            if name in goals or name in ("use", "open", "pub", "unfolding", "where"):
                continue
            names.add(name)
            if "abbrev" in head or "unfoldable" in head:
                defined.add(name)
        names |= set(FIELD.findall(text))
    return names, defined


def camels(antt, sources):
    """Names in camel case that begin with a small letter are this repository's, wherever they stand in the logic."""
    texts = [re.sub(r"--.*", "", path.read_text()) for path in antt]
    for path in sources:
        clauses(path.read_text(), lambda clause: texts.append(clause) or clause)
    tokens = {name for text in texts for name in TOKEN.findall(text)}
    camel = re.compile(r"[a-z][a-z0-9]*(?:[A-Z][a-z0-9]*)+")
    return {n for n in tokens if camel.fullmatch(n) and not re.fullmatch(r"x[A-F0-9]{2}", n)}


def clauses(text, change):
    """Changes a source's ghost lines and clauses, and nothing else."""
    out, at = [], 0
    start = re.compile(r"^\s*(?:pub )?ghost use [^;]*;|^\s*(?:pub )?(?:ghost|requires|ensures)\b[^{;\n]*\{", re.M)
    while m := start.search(text, at):
        end, depth = m.end(), 1 if text[m.end() - 1] == "{" else 0
        while depth:
            depth += {"{": 1, "}": -1}.get(text[end], 0)
            end += 1
        out += [text[at:m.start()], change(text[m.start():end])]
        at = end
    return "".join(out) + text[at:]


def main():
    antt, sources = files()
    names, defined = declared(antt)
    names |= camels(antt, sources)
    new = {n: respelled(n, defined) for n in names | set(CHOSEN)}
    new = {n: r for n, r in new.items() if n != r}
    taken = names | {t for p in antt for t in TOKEN.findall(p.read_text())}
    met = {}
    for old, to in sorted(new.items()):
        met.setdefault(to, []).append(old)
    for to, olds in met.items():
        if len(olds) > 1 or to in taken:
            print(f"falls together: {', '.join(olds)} -> {to}{' (taken)' if to in taken else ''}")
    if "--list" in sys.argv:
        for old, to in sorted(new.items()):
            print(f"{old} -> {to}")
        return
    change = lambda text: TOKEN.sub(lambda m: new.get(m.group(0), m.group(0)), text)
    for path in antt:
        path.write_text(change(path.read_text()))
    for path in sources:
        path.write_text(clauses(path.read_text(), change))


main()
