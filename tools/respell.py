#!/usr/bin/env python3
"""Brings the names that this repository declares in specs/ and proofs/ to one spelling.

usage: python3 tools/respell.py [--list]     at the top of the repository

Words are in snake case, and types, facts and modules in upper camel case: `type-of` becomes `type_of`, `Is-substitution`
becomes `IsSubstitution`. Only names with a dash that the repository's own .antt files declare are turned, in .antt files and in
.rt files outside strings. Names that the check makes (goals, steps, invariants) keep theirs. With --list nothing is written:
each name is listed with what it becomes. Two names that would fall together, and a new name that stands already, are reported.
"""

import os
import re
import sys

TOKEN = re.compile(r"[^\s(){}\[\],;.:\"«»λ]+")
TOP = re.compile(r"^(?:abbrev |unfoldable |pub |mutual )*(?:(data|record|ruleset) )?(?:pub )?([^\s(){}:]+)(?: \{[^}]*\})* *(?:\(.*|:.*|=.*|where.*|\{.*)?$")
FIELD = re.compile(r"^ +(?:pub )?([^\s(){}:]+(?: [^\s(){}:]+)*) :")
LOCAL = re.compile(r"^ +(?:let )?(?:abbrev |unfoldable |pub )*([^\s(){}:]+)(?: \{[^}]*\})* : ")
GOAL = re.compile(r": *(?:goal|need|choice)s?\.")
RT_SKIP = re.compile(r'b?"(?:[^"\\]|\\.)*"|//[^\n]*')
ANTT_SKIP = re.compile(r"(?<!\S)--[^\n]*")
# facts in small letters, a function in capitals, and facts that would fall together with the variants of an enum
WORDS = {"type-layer": "TypeLayer", "substituted-layer": "SubstitutedLayer", "replaced": "IsReplaced", "Goals": "goals"}
WORDS |= {"A-type": "NamesType", "A-variable": "NamesVariable", "A-set-name": "NamesSetName", "A-formula": "NamesFormula"}
# a module of goals keeps its name
MODULE = re.compile(r"\.Goals(?=\.| as )")


def files():
    for folder, dirs, names in os.walk("crates"):
        dirs[:] = sorted(d for d in dirs if d != "out")
        for n in sorted(names):
            if n.endswith((".antt", ".rt")):
                yield os.path.join(folder, n)


def declared(text):
    """The names that a file declares, but for those that the check asks for."""
    block = None
    for line in text.split("\n"):
        if line.startswith("--") or not line.strip() or line.startswith(("use ", "pub mod ", "mod ", "unfolding", "infix")):
            continue
        if not line[0].isspace():
            block = None
            m = TOP.match(line)
            if not m:
                continue
            if m[1] in ("data", "record"):
                block = m[1]
                yield m[2]
            elif m[1] == "ruleset":
                yield m[2]
            elif re.match(r"^(?:abbrev |unfoldable |pub )*[^\s(){}:]+(?: \{[^}]*\})* *:", line) and not GOAL.search(line):
                yield m[2]
        elif block and (m := FIELD.match(line)):
            yield from m[1].split(" ")
        elif (m := LOCAL.match(line)) and not GOAL.search(line):
            yield m[1]


def respelled(name):
    if name[0].isupper():
        return "".join(p[:1].upper() + p[1:] for p in name.split("-"))
    return name.replace("-", "_")


def main():
    texts = {}
    for p in files():
        with open(p, encoding="utf-8") as f:
            texts[p] = f.read()
    turn, tokens = dict(WORDS), {}
    for p, t in texts.items():
        if p.endswith(".antt"):
            for n in declared(t):
                if "-" in n and n not in turn and re.match(r"^[A-Za-z][\w'-]*$", n):
                    turn[n] = respelled(n)
        for w in TOKEN.findall((ANTT_SKIP if p.endswith(".antt") else RT_SKIP).sub(" ", t)):
            tokens.setdefault(w, set()).add(p)
    back = {}
    for old, new in sorted(turn.items()):
        back.setdefault(new, []).append(old)
    for new, olds in sorted(back.items()):
        if len(olds) > 1:
            print(f"fall together: {' '.join(olds)} -> {new}")
        if new in tokens:
            at = sorted(tokens[new])
            print(f"stands already: {olds[0]} -> {new}: {' '.join(at[:6])}{' ..' if len(at) > 6 else ''}")
    if "--list" in sys.argv:
        for old, new in sorted(turn.items()):
            print(old, new)
        return
    changed = 0
    for p, t in texts.items():
        skip = re.compile(f"{(ANTT_SKIP if p.endswith('.antt') else RT_SKIP).pattern}|{MODULE.pattern}")
        parts, at = [], 0
        for m in skip.finditer(t):
            parts += [TOKEN.sub(lambda w: turn.get(w[0], w[0]), t[at : m.start()]), m[0]]
            at = m.end()
        out = "".join(parts) + TOKEN.sub(lambda w: turn.get(w[0], w[0]), t[at:])
        if out != t:
            changed += 1
            with open(p, "w", encoding="utf-8") as f:
                f.write(out)
    print(f"{len(turn)} names, {changed} files")


if __name__ == "__main__":
    main()
