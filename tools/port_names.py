#!/usr/bin/env python3
"""Respells the definitions and lemmas of specs/ and proofs/: snake case, no dash, run once after port.py."""
import glob
import re
import sys

ID = r"[^\s(){}\[\].,;:→λ∷≡≤<>×\"]+"
DECLARED = re.compile(r"^\s*(?:pub |abbrev |unfoldable )*(" + ID + r") : ")
TYPE = re.compile(r"^\s*(?:pub )?(?:data|record) (" + ID + r")")
TOKEN = re.compile(r"(?<![^\s(){}\[\].,;→λ∷])(" + ID + r")(?![^\s(){}\[\].,;:→λ∷])")

# Lemmas and fields that would fall together with a definition.
APART = {name: name.replace("-", "_") + "_lem" for name in """
    block-fits by-kind channel-fits end-from first-in in-blocks in-table in-voices named-from one-off passed-by put-back
    read-by read-from record-fits refused-at setting-of settle-by settle-on shows-end sized-in step-at timbre-fits
    up-to-end with-window word-by""".split()}
# Constructors of one type, of which two would.
APART |= {f"is-{name}": f"at_{name}".replace("-", "_") for name in ("end", "end-loop", "begin", "length", "note")}
# A fact, and a type that a tool wrote.
APART |= {"rightFrom": "RightFrom"}
# Of two types in crates that do not meet.
TOGETHER = {"of_data"}
# Lemmas that port.py has respelled already, into what a definition is to be called.
APART |= {name: name + "_lem" for name in ("step_by", "turn_by", "in_blocks")}


def snake(name):
    name = name.replace("-", "_")
    name = re.sub(r"(?<=[a-z0-9])([A-Z])", lambda m: "_" + m.group(1).lower(), name)
    return name


def respelled(name):
    if name in APART:
        return APART[name]
    if name[0].isupper():
        return "".join(part[0].upper() + part[1:] for part in name.split("-"))
    return snake(name)


def declared(path):
    names = set()
    for line in open(path, encoding="utf-8").read().split("\n"):
        for form in (DECLARED, TYPE):
            m = form.match(line)
            if m:
                names.add(m.group(1))
    return names


def old_spelling(name):
    return "-" in name or (name[0].islower() and re.search(r"[a-z0-9][A-Z]", name) is not None)


def main():
    files = sorted(f for d in ("specs", "proofs") for f in glob.glob(f"crates/*/{d}/**/*.antt", recursive=True))
    own = set()
    for f in files:
        if f.rsplit("/", 1)[1] not in ("Answers.antt", "Invariants.antt"):
            own |= declared(f)
    table = {n: respelled(n) for n in own if old_spelling(n) or n in APART}
    taken = {}
    bad = False
    for n in sorted(own):
        m = table.get(n, n)
        if m in taken and taken[m] != n and m not in TOGETHER:
            print(f"fall together: {taken[m]} and {n} as {m}")
            bad = True
        taken[m] = n
    if bad:
        return 1
    for f in files + sorted(glob.glob("crates/*/src/**/*.rt", recursive=True)):
        text = open(f, encoding="utf-8").read()
        theirs = set()
        for m in re.finditer(r"^\s*(?:ghost )?use (?!Rattle\.(?:engine_base|metroid_|mother_|hemgosling|cuecheck|mothercheck|samples|trace))[^{\n]*\{([^}]*)\}", text, re.M):
            theirs |= {x.strip().split(" as ")[-1] for x in m.group(1).split(",")}
        for n in sorted(theirs & set(table)):
            print(f"{f}: {n} is a library's there, and stays")
        walk = f.endswith("/Proof.antt")

        def one(m):
            name = m.group(1)
            # a step of a walk is named by the function that it calls
            step = walk and name in APART and m.start() > 0 and text[m.start() - 1] == "."
            return name if step or name in theirs or name not in table else table[name]

        text = TOKEN.sub(one, text)
        open(f, "w", encoding="utf-8").write(text)
    for old in sorted(table):
        print(old, table[old])
    return 0


if __name__ == "__main__":
    sys.exit(main())
