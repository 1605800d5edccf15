#!/usr/bin/env python3
"""Spells this repository's own definitions, lemmas and fields as today's Rattle does.

usage: python3 tools/spelling.py        at the top of the repository, once, after the toolchain's own port script

Words are in snake case and types in camel case; a dash stays only where it joins the names of two functions, as in
`times-append`. Names of the library and names that the checker makes in proof folders keep their spelling, as do
strings, functions of src/, inputs and outputs.
"""

import glob
import re

TOKEN = re.compile(r"(?<![\w'·-])[^\W\d_][\w']*(?:-[\w']+)+(?![\w'-])")
USE = re.compile(r"^\s*(?:ghost )?use ([\w.]+)\.\{([^}]*)\}", re.M)
OWN = re.compile(r"Rattle\.(streets|wire|town|reach|desk|cases)\.")
STRING = re.compile(r'"(?:[^"\\]|\\.)*"')
# the names of two functions, joined; and a type that had a word's name
SPECIAL = {
    "at-most-twice": "AtMostTwice",
    "times-append": "times-append",
    "goes-append": "goes-append",
    "length-streets-at": "length-streets_at",
    "length-legs-in": "length-legs_in",
    "length-legs-row": "length-legs_row",
    "length-answer-row": "length-answer_row",
}
# names that the toolchain's script has spelled in the sources already
SPELLED = """all-right as-call as-read at-here at-last back-is before-more both-ways closed-at count-at count-fits count-word
counted-back counted-is cut-later each-left either-way ends-at ends-more first-else found-here front-kept go-on goes-on
here-found in-pairs is-odd left-by length-part list-read no-more none-before none-below none-found none-from nothing-left
one-found one-more other-fits own-is own-read pairs-below part-of placed-same put-all put-back put-first put-same put-then
read-as same-read same-word so-far starts-from stops-end sum-below sum-fits sum-ones sum-same two-ends word-at
written-count written-over"""


def read(path):
    with open(path, encoding="utf-8") as f:
        return f.read()


def spelled(name):
    if name in SPECIAL:
        return SPECIAL[name]
    parts = name.split("-")
    if name[0].isupper():
        return "".join(p[0].upper() + p[1:] for p in parts)
    return "_".join(parts)


def code(path, line):
    return line.split("//" if path.endswith(".rt") else "--")[0]


def own_names(sources):
    library, found = set(), set()
    for path in sources:
        text = read(path)
        for m in USE.finditer(text):
            if not OWN.match(m.group(1)):
                library |= {n.split(" as ")[0].strip() for n in m.group(2).split(",")}
        if not re.search(r"/proofs/.*/(Answers|Invariants|Proof)\.antt$", path):
            for line in text.split("\n"):
                found |= set(TOKEN.findall(STRING.sub('""', code(path, line))))
    return found - library


def main():
    sources = sorted(glob.glob("crates/*/**/*.antt", recursive=True) + glob.glob("crates/*/src/**/*.rt", recursive=True))
    sources = [p for p in sources if "/out/" not in p]
    names = own_names(sources) | set(SPELLED.split())

    def turn(text):
        return TOKEN.sub(lambda m: spelled(m.group(0)) if m.group(0) in names else m.group(0), text)

    for path in sources:
        old = read(path)
        kept = [m.span() for m in STRING.finditer(old)] if path.endswith(".rt") else []
        new, at = "", 0
        for a, b in kept:
            new += turn(old[at:a]) + old[a:b]
            at = b
        new += turn(old[at:])
        if new != old:
            with open(path, "w", encoding="utf-8") as f:
                f.write(new)
    for path in ["README.md"] + sorted(glob.glob("docs/*.md")):
        old = read(path)
        new = re.sub(r"`[^`\n]+`", lambda m: turn(m.group(0)), old)
        if new != old:
            with open(path, "w", encoding="utf-8") as f:
                f.write(new)
    print(f"{len(names)} names")


main()
