#!/usr/bin/env python3
"""Spells the names that this repository defines as today's Rattle does.

usage: python3 tools/snake_names.py [FOLDER]     in the repository, or in FOLDER: rewrites crates/*/{src,specs,proofs,must-fail} in place

Words are in snake case, types and modules in camel case: `crc32Of` becomes `crc32_of`, also where a function of src/ has that name, which
the definition mirrors. A dash joins the names of two definitions, as in `feed-bits`; a plain word is added with `_`, as in `crc_check`.
Names of src/, strings and what a program reads or writes have neither and stay. It stops, and writes nothing, where two names fall together.
"""

import os
import re
import sys

FOLDERS = ("src", "specs", "proofs", "must-fail")
WORD = re.compile(r"(?<![\w'-])[a-z][\w'₀-₉]*(?:-[\w'₀-₉→≤<≡*+/%∷]+)*")
ALONE = re.compile(r"(?<!\.)" + WORD.pattern + r"(?!\.\w)")
SIGNATURE = re.compile(r"^ *(?:(?:unfoldable|abbrev|pub) )*([a-z][^\s:(){}=]*)(?: \{[^}]*\})* : ", re.M)
# lemmas that would fall together with a definition: they take the name of what they are about
LEMMAS = {
    "by_state": "state_says",
    "count_most": "new_count_most",
    "one_more": "join_longer",
    "raw_of": "raw_read",
    "record_of": "record_read",
    "same_key": "has_key_same",
    "seen_of": "seen_by_same",
    "taken_at": "taken_before",
    "too_many": "looked_of_many",
}
# names of std's that a lemma's name is joined of
STD = set("length append take drop map set replicate sum xor and or not mod div mul add sub pow reverse ltb leb eqb get_or bit_xor bit_and".split())


def texts(root):
    for crate in sorted(os.listdir(os.path.join(root, "crates"))):
        for part in FOLDERS:
            for folder, dirs, files in os.walk(os.path.join(root, "crates", crate, part)):
                for name in sorted(files):
                    if name.endswith((".rt", ".antt", ".edit")):
                        yield os.path.join(folder, name)


def snake(name):
    return re.sub(r"(?<=[a-z0-9])([A-Z])", lambda m: "_" + m.group(1).lower(), name)


def spelled(name, names):
    parts = [snake(p) for p in name.split("-")]
    out = parts[0]
    for before, after in zip(parts, parts[1:]):
        joins = (before in names and after in names) or not re.fullmatch(r"[\w']+", after)
        out += ("-" if joins else "_") + after
    return out


def main(argv):
    root = argv[0] if argv else "."
    read = {}
    for path in texts(root):
        with open(path, encoding="utf-8") as f:
            read[path] = f.read()
    # what a proof by hand names in itself goes with that proof
    defined = {n for path, text in read.items() if path.endswith(".antt") and not path.endswith("/Proof.antt") for n in SIGNATURE.findall(text)}
    names = STD | {snake(n) for n in defined if "-" not in n}
    turn = {n: spelled(n, names) for n in defined}
    turn = {n: to for n, to in turn.items() if n != to}
    taken = {w for path, text in read.items() if path.endswith(".antt") for w in ALONE.findall(re.sub(r"--.*", "", text))} - set(LEMMAS) - set(turn)
    made = {}
    for n, to in sorted(turn.items()):
        made.setdefault(to, []).append(n)
    clash = sorted(n for n in turn if turn[n] in taken or len(made[turn[n]]) > 1)
    # the dash stays where only it tells a lemma from a definition
    for n in list(clash):
        if "-" in n:
            turn[n] = "-".join(snake(p) for p in n.split("-"))
            made[spelled(n, names)].remove(n)
    clash = [n for n in clash if "-" not in n and (turn[n] in taken or len(made[turn[n]]) > 1)]
    if clash:
        print("these fall together with a name that is there: " + ", ".join(f"{n} ({turn[n]})" for n in clash))
        return 1
    for path, text in read.items():
        to = turn | LEMMAS if path.endswith(".antt") else turn
        new = WORD.sub(lambda m: to.get(m.group(0), m.group(0)), text)
        if new != text:
            with open(path, "w", encoding="utf-8") as f:
                f.write(new)
    print(f"{len(turn)} names turned")
    for n in sorted(turn):
        if "-" in turn[n]:
            print(f"keeps a dash: {n}  {turn[n]}")
    return 0


if __name__ == "__main__":
    raise SystemExit(main(sys.argv[1:]))
