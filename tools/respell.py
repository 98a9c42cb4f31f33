#!/usr/bin/env python3
"""Brings this repository's definitions, fields and lemmas to one spelling: words in snake case, types in camel case.

usage: python3 tools/respell.py        at the top of the repository, once, after the toolchain's own script for older repositories

It goes by what specs/ and proofs/ declare at the top of a line or in a record: each such name with a hyphen loses it, as
player-code, which becomes player_code, and Worked-images, which becomes WorkedImages. Names that only Rattle makes (goals,
steps) and names of the library stay. Comments and strings stay; the files are laid out
again by rt fmt. A name that would fall together with another has a row in APART.
"""

import glob
import os
import re
import subprocess

IDENTIFIER = r"[^\W\d][\w'\u2032]*(?:-[\w'\u2032]+)*"
# Read-off says that the record ReadOff holds of every protocol and bench.
APART = {"Read-off": "AlwaysReadOff"}
# Files whose names Rattle gives.
GIVEN = ("Answers.antt", "Invariants.antt", "Proof.antt")


def files():
    for pattern in ("crates/*/specs/**/*.antt", "crates/*/proofs/**/*.antt", "crates/*/src/**/*.rt", "crates/*/must-fail/*.edit"):
        yield from sorted(glob.glob(pattern, recursive=True))


def comment(path):
    return r"//[^\n]*" if path.endswith(".rt") else r"--[^\n]*" if path.endswith(".antt") else r"\A(?!)"


def declared():
    names = set()
    for path in files():
        if not path.endswith(".antt") or os.path.basename(path) in GIVEN:
            continue
        with open(path, encoding="utf-8") as f:
            text = re.sub(comment(path), "", f.read())
        words = r"(?:(?:pub|abbrev|unfoldable|data|record)[ ]+)*"
        parameters = r"(?:[({][^:(){}]*:[^(){}]*[)}]\s*)*"
        names |= set(re.findall(r"(?m)^[ ]*" + words + "(" + IDENTIFIER + r")\s*" + parameters + r":(?!:)", text))
    return {n for n in names if "-" in n}


def respelled(name):
    if name in APART:
        return APART[name]
    if name[0].isupper():
        return "".join(part[0].upper() + part[1:] for part in name.split("-"))
    return name.replace("-", "_")


def main():
    names = {n: respelled(n) for n in declared()}
    for new in set(names.values()):
        olds = [o for o in names if names[o] == new]
        if len(olds) > 1:
            raise SystemExit(f"respell: {olds} fall together in {new}")
    changed = 0
    for path in files():
        with open(path, encoding="utf-8") as f:
            text = f.read()
        token = re.compile("(" + comment(path) + r'|"(?:\\.|[^"\\])*")|(?<![\w\u2032\'-])(' + IDENTIFIER + ")")
        new = token.sub(lambda m: m.group(1) or names.get(m.group(2), m.group(2)), text)
        if new != text:
            changed += 1
            with open(path, "w", encoding="utf-8") as f:
                f.write(new)
    for crate in sorted(glob.glob("crates/*/")):
        subprocess.run(["rt", "fmt"], cwd=crate, stdout=subprocess.DEVNULL, stderr=subprocess.DEVNULL)
    print(f"respell: {len(names)} names, {changed} files")


if __name__ == "__main__":
    main()
