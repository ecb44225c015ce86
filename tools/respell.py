#!/usr/bin/env python3
"""Respells the repository's own definitions and lemmas: a word of antt is in snake case (`blockFields-renamed` is `block_fields-renamed`).

usage: python3 tools/respell.py        at the top of the repository, once, after the kit's own script
It reads which lower-case names the files of specs/ and proofs/ declare or bind, and rewrites them as whole names in .rt and .antt files.
"""
import collections
import glob
import re
import sys

BREAK = r"\s(){}\[\];,.\"@"
NAME = re.compile(rf"[^{BREAK}]+")
HUMP = re.compile(r"(?<=[a-z0-9?'])([A-Z])(?=[a-z0-9]|$|[-?'])|(?<=[a-z0-9?'])([A-Z])(?=[A-Z])")


# lemmas whose name is the new one of the definition that they are about
LEMMA = re.compile(rf"(?<![^{BREAK}])(?<!\.)(?:same_kind|position_from|no_room|list_right|number_by|at_least_one|one_less|in_use)(?![^{BREAK}])")


def respelled(name):
    return HUMP.sub(lambda m: "_" + m[0].lower(), name)


def files(kind):
    return sorted(f for f in glob.glob(f"crates/*/**/*.{kind}", recursive=True) if "/out/" not in f)


def names_of(text):
    return set(NAME.findall(text))


def main():
    texts = {f: open(f, encoding="utf-8").read() for f in files("antt") + files("rt")}
    found = collections.Counter(n for f, t in texts.items() if f.endswith(".antt") for n in names_of(re.sub(r"--.*", "", t)))
    humped = {n for n in found if re.match(r"[a-z]", n) and respelled(n) != n}
    turned = {n: respelled(n) for n in humped}
    clash = [(f, n) for f, t in texts.items() for n in names_of(t) & humped if turned[n] in names_of(t)]
    twice = [k for k, c in collections.Counter(turned.values()).items() if c > 1]
    print(f"{len(turned)} names; {len(clash)} files where the new name stands already; {len(twice)} new names of two old ones")
    for f, n in clash:
        print(f"look: {f}: {n} is {turned[n]}")
    for k in twice:
        print(f"look: {k}: {[n for n in turned if turned[n] == k]}")
    if "--try" in sys.argv:
        return
    for f, t in texts.items():
        if f.endswith(".antt"):
            t = LEMMA.sub(lambda m: m[0] + "_lem", t)
        new = NAME.sub(lambda m: turned.get(m[0], m[0]), t)
        if new != texts[f]:
            open(f, "w", encoding="utf-8").write(new)


main()
