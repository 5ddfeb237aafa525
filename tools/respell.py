#!/usr/bin/env python3
"""Brings the repository's own definitions and lemmas to snake case, after port.py and before anything by hand.

usage: tools/respell.py [ROOT]

A name is turned where a part of it between dashes begins small and has a capital inside: slotCount is slot_count, wakeOf-tidy is wake_of-tidy. A part that
begins with a capital is a fact or a type, and keeps its spelling. Texts in quotes keep theirs. It says which names fall together, and then turns nothing.
"""
import glob
import os
import re
import sys

TOKEN = re.compile(r"[A-Za-z_](?:[\w'-]*[\w'])?")
QUOTED = re.compile(r'"(?:\\.|[^"\\\n])*"|b?\'(?:\\.|[^\'\\\n])\'')


def part(p):
    if re.match(r"[a-z]", p) and re.search(r"[a-z0-9][A-Z]", p):
        return re.sub(r"(?<=[a-z0-9])([A-Z])", lambda m: "_" + m[1].lower(), p)
    return p


def snake(name):
    return "-".join(part(p) for p in name.split("-"))


def outside_quotes(text, turn):
    """turn over the text, but for what stands in quotes"""
    out, at = [], 0
    for m in QUOTED.finditer(text):
        out += [turn(text[at:m.start()]), m[0]]
        at = m.end()
    return "".join(out + [turn(text[at:])])


def main():
    root = sys.argv[1] if len(sys.argv) > 1 else "."
    code = [p for pattern in ("specs/**/*.antt", "proofs/**/*.antt", "src/**/*.rt")
            for p in sorted(glob.glob(os.path.join(root, "crates/*/" + pattern), recursive=True))]
    pages = sorted(glob.glob(os.path.join(root, "docs/*.md"))) + [os.path.join(root, "README.md")]
    texts = {p: open(p, encoding="utf-8").read() for p in code + pages}
    names = {}
    for p in code:
        for t in TOKEN.findall(QUOTED.sub('""', texts[p])):
            if snake(t) != t:
                names[t] = snake(t)
    turned = list(names.values())
    together = [n for n in names if turned.count(names[n]) > 1]
    if together:
        sys.exit("respell: these fall together: " + ", ".join(sorted(together)))

    def turn(text):
        return TOKEN.sub(lambda m: names.get(m[0], m[0]), text)

    for p in code + pages:
        new = turn(texts[p]) if p in pages else outside_quotes(texts[p], turn)
        if new != texts[p]:
            with open(p, "w", encoding="utf-8") as f:
                f.write(new)
    print(f"respell: {len(names)} names")


main()
