#!/usr/bin/env python3
"""Counts the places in crates/*/src that a newer form of Rattle may serve, point by point.

Usage: tools/places.py [--list]     at the repository's top; --list prints each place.

What it counts is what can be seen in the text. Twins are counted by a command of its own,
`duplicates`, over copies of the files; a reader counts what no pattern shows.
"""
import collections
import glob
import itertools
import re
import sys

FILES = sorted(f for f in glob.glob("crates/*/src/*.rt"))
LINES = [(f, n + 1, l) for f in FILES for n, l in enumerate(open(f).read().split("\n"))]
CODE = [(f, n, re.sub(r"//.*", "", l)) for f, n, l in LINES]


def grep(pattern, but=None):
    return [(f, n, l.strip()) for f, n, l in CODE if re.search(pattern, l) and not (but and re.search(but, l))]


def functions():
    for f in FILES:
        text = open(f).read()
        for m in re.finditer(r"fn ([a-z_0-9]+)(<[^(]*>)?\(([^)]*)\)", text, re.S):
            names = [p.split(":")[0].replace("mut ", "").strip() for p in m.group(3).split(",") if ":" in p]
            yield f, text[: m.start()].count("\n") + 1, m.group(1), frozenset(names)


def travelling():
    """Functions that share three parameters by name with at least two others of the crate."""
    found = {}
    by_crate = collections.defaultdict(list)
    for f, n, name, names in functions():
        by_crate[f.split("/")[1]].append((f, n, name, names))
    for fs in by_crate.values():
        groups = collections.defaultdict(list)
        for one in fs:
            for c in itertools.combinations(sorted(one[3]), 3):
                groups[c].append(one)
        for c, l in groups.items():
            if len(l) >= 3:
                for f, n, name, _ in l:
                    found[(f, n)] = (f, n, name)
    return sorted(found.values())


POINTS = [
    ("1a numbers for kinds", grep(r"0x(01|02|10|11|13|20|30|31)\b", r"^\s*[A-Z][A-Za-z]+ = 0x|u8; |^\s*(0x|\d+, 0x)|^\s*\d")),
    ("1b a flag as a parameter", grep(r"[a-z]: bool[,)]")),
    ("1c an enum with a case for a refusal", grep(r"^\s*(Refused|Failed|Error|Nothing)\b.*[{,(]")),
    ("3 loops over numbers or by a condition on one", grep(r"for _?[a-z]+ in \(?[^{]*\.\.|while [a-z_.]+(\(\))? [<>]", r"\[\.\.|\.\.\]")),
    ("4a words made as strings", grep(r"-> (io::Result<String|Result<String|anyhow::Result<String)|-> &'static str")),
    ("4b matches that read one field of each case", grep(r"\{ (line|lines|node)(, \.\.)? \} => \*")),
    ("4c conversions by a name of their own", grep(r"fn (of_byte|read_bit|is_open|kind_of|result_kind|part_of|call_of|number_of)\b")),
    ("4d From written by hand", grep(r"^impl.* From<")),
    ("5 functions that share three parameters with two others", travelling()),
    ("6 a buffer with a length beside it", grep(r"\b(len|shown|count): usize[,)]")),
    ("7 matches on the kind of a step", grep(r"match (call|frame|action|asked|part|word|base)\b")),
]

for name, places in POINTS:
    print(f"{len(places):4}  {name}")
    if "--list" in sys.argv:
        for place in places:
            print("        %s:%s  %s" % place)
