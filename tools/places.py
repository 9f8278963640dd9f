#!/usr/bin/env python3
"""Counts the places that docs/DESIGN-PASS.md speaks of, point by point: usage: tools/places.py [--list] [FOLDER OF CRATES]"""

import collections
import pathlib
import re
import sys

NONE = r"\b(Bad|Missing|Absent|Nothing|End|LeftOut|Loose|Other|Accepted|Passes)\b *(,|=>|\()"
SENTINEL = r"\b512usize\b|[!=]= 512\b|at: 512|Track\(0\)|Row\(0\)|[!=]= 0 \{|number_of\("
RANGED = r"^\s*(requires|ensures)[^{]*\{.*\b(AcceptedStored|BoardInRange|NetInRange|JudgedInRange|LineInRange)\b"

# a count for each point of the page: its name, and what a line of src/ holds that is counted
LINES = [
    ("1a enums of our own", r"^\s*(pub )?enum "),
    ("1b cases that say none or passed", NONE),
    ("1c numbers for kinds", r"^\s*(pub )?const [A-Z_]+: usize"),
    ("1d numbers for none", SENTINEL),
    ("3a while", r"^\s*while "),
    ("3b counters by hand", r"\+= 1;|-= 1;"),
    ("3c ranges of numbers", r"for [a-z_]+ in [^{]*\.\."),
    ("4a compared, converted by hand", r"^\s*(pub )?fn (same_|lesser|greater|minus|byte_of|one_if)"),
    ("5 range facts in clauses", RANGED),
    ("6 counts and lengths beside arrays", r"^\s*(pub )?(count|len|nnets|nblocks): usize,"),
    ("7 steps told by an enum or a number", r"\bstop: Stop\b|\bstage: (usize|Stage)\b"),
]


def sources(crates):
    return sorted(p for p in crates.glob("*/src/**/*.rt") if "out" not in p.parts)


def shapes(paths):
    """The functions of one shape: bodies of three lines or more that differ in names and numbers alone."""
    found = collections.defaultdict(list)
    for path in paths:
        text = re.sub(r"//[^\n]*", "", path.read_text())
        for m in re.finditer(r"^( *)(?:pub )?fn (\w+).*?^\1\{\n(.*?)^\1\}", text, re.S | re.M):
            if m[3].count("\n") >= 3:
                found[re.sub(r"\w+", "w", re.sub(r"\s+", " ", m[3]))].append("%s %s" % (path, m[2]))
    return [names for names in found.values() if len(names) > 1]


def main(argv):
    listed = "--list" in argv
    rest = [a for a in argv if a != "--list"]
    crates = pathlib.Path(rest[0] if rest else "crates")
    paths = sources(crates)
    for name, pattern in LINES:
        hits = ["%s:%d: %s" % (p, n, line.strip()) for p in paths for n, line in enumerate(p.read_text().split("\n"), 1) if re.search(pattern, line)]
        print(len(hits), name)
        for hit in hits if listed else []:
            print("   ", hit)
    twins = shapes(paths)
    print(sum(len(names) - 1 for names in twins), "2 functions of the same shape as another")
    for names in twins if listed else []:
        print("   ", "; ".join(names))
    proofs = [p for p in crates.glob("*/proofs/**/*.antt")]
    print(sum(p.read_text().count("\n") for p in proofs), "8 lines of proofs")


main(sys.argv[1:])
