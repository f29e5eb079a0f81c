#!/usr/bin/env python3
"""Lists the pairs of functions in crates/*/src that have the same shape: the same tokens where
names, numbers and texts count as equal. Usage: python3 tools/alike.py [FOLDER]"""
import difflib, glob, re, sys

KEYWORDS = set("as break const continue else enum fn for if impl in let loop match mut pub ref return self Self static struct trait type use where while".split())


def functions(path):
    text = open(path).read()
    for m in re.finditer(r"^( *)(?:pub(?:\(crate\))? )?fn (\w+)", text, re.M):
        indent = m.group(1)
        end = text.find("\n" + indent + "}", m.end())
        # a function of a trait may have no body: a `;` ends it before any line that is not a clause
        head = re.search(r"[;{]$", re.sub(r"^\s*(requires|ensures)\b.*[^;]$", "", text[m.start():end], flags=re.M), re.M)
        if end < 0 or head is None or head.group() == ";":
            continue
        body = text[m.start():end + len(indent) + 2]
        # clauses are lines of their own, and comments tell nothing
        body = re.sub(r"^\s*(requires|ensures)\b.*$", "", body, flags=re.M)
        body = re.sub(r"//.*$", "", body, flags=re.M)
        yield path, text.count("\n", 0, m.start()) + 1, m.group(2), shape(body)


def shape(body):
    out = []
    for t in re.findall(r'b?"(?:[^"\\]|\\.)*"|\w+|\S', body):
        if t in KEYWORDS or not re.match(r'[\w"]', t):
            out.append(t)
        else:
            out.append("x")
    return out


def main():
    folder = sys.argv[1] if len(sys.argv) > 1 else "."
    found = [f for p in sorted(glob.glob(folder + "/crates/*/src/*.rt")) for f in functions(p)]
    for i, a in enumerate(found):
        for b in found[i + 1:]:
            if min(len(a[3]), len(b[3])) < 25:
                continue
            if difflib.SequenceMatcher(None, a[3], b[3], autojunk=False).ratio() >= 0.9:
                print(f"{a[0]}:{a[1]} {a[2]} ~ {b[0]}:{b[1]} {b[2]}")


main()
