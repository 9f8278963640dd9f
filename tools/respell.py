#!/usr/bin/env python3
"""Gives the project's own definitions and lemmas the spelling of the present Rattle: words in snake case, types and modules in camel case.

usage: tools/respell.py [FOLDER]     FOLDER is the top of a checkout, the present folder if left out

Run once, behind the toolchain's own script (port.py), which respells what its library has and only some names of a project. names.tsv beside this
file has a row for each name: old, a tab, new. A row of local_names.tsv is for one file. What turns is whole words alone:
  .antt  the code; in a comment what stands between backticks, and a word with a capital inside
  .rt    the same, in clauses and everywhere but in strings: no name of the code is in the table
  .edit  the texts of its lines 'old:' and 'new:', and its comment as above
  .md    what stands between backticks
A name that Rattle makes (a goal, a loop) stays: in a file Answers or Invariants the first name behind 'c.' and 'w.x-is', and no other is in the table.
Functions, exported names, strings, inputs and outputs stay.
"""

import os
import re
import sys

HERE = os.path.dirname(os.path.realpath(__file__))
# a word of antt, and the same with the signs of prose or of Rust around it
WORD = re.compile(r'[^\s(){}.;,@"«»]+')
# the same behind no dot, so no name of another module and no field
FREE = re.compile(r'(?<![^\s(){};,@"«»])' + WORD.pattern)
BARE = re.compile(r"[A-Za-z_][\w']*(?:-[\w']+)*")
STRING = r'"(?:[^"\\\n]|\\.)*"'
ANTT = re.compile(STRING + r'|(?<![^\s(){}.;,@"«»])--[^\n]*')
RUST = re.compile(STRING + r"|//[^\n]*")
SPAN = re.compile(r"`[^`\n]+`")
# words that stood in the spelling of today, and make room for a definition: turned in proofs alone
MADE = re.compile(r'(?<![^\s(){};,@"«»])(?:c\.' + WORD.pattern + r"|w\.\w+-is\b)")
ROOM = ("by_row", "covers_of", "step_lines")


def table():
    with open(os.path.join(HERE, "names.tsv"), encoding="utf-8") as f:
        return dict(l.rstrip("\n").split("\t") for l in f if l.strip() and not l.startswith("# "))


def local_names():
    found = {}
    with open(os.path.join(HERE, "local_names.tsv"), encoding="utf-8") as f:
        for l in f:
            if not l.startswith("# "):
                path, old, new = l.rstrip("\n").split("\t")
                found.setdefault(os.path.join("crates", path), {})[old] = new
    return found


def words(text, names, how):
    return how.sub(lambda m: names.get(m[0], m[0]), text)


def beside(text, made, turn):
    """The text with everything turned but what 'made' finds."""
    at, out = 0, []
    for m in made.finditer(text):
        out += [turn(text[at : m.start()]), m[0]]
        at = m.end()
    return "".join(out) + turn(text[at:])


def prose(text, names):
    """A comment: what stands between backticks, and elsewhere words with a capital inside."""
    plain = {o: n for o, n in names.items() if re.search(r"[a-z0-9][A-Z]", o)}
    at, out = 0, []
    for m in SPAN.finditer(text):
        out += [words(text[at : m.start()], plain, BARE), words(m[0], names, BARE)]
        at = m.end()
    return "".join(out) + words(text[at:], plain, BARE)


def code(text, names, quiet, how):
    at, out = 0, []
    for m in quiet.finditer(text):
        out.append(words(text[at : m.start()], names, how))
        out.append(m[0] if m[0].startswith('"') else prose(m[0], names))
        at = m.end()
    return "".join(out) + words(text[at:], names, how)


def edit(text, names, outside, crate, local):
    """The lines of a wrong version: each pair of texts by the file that stands above it."""
    out, to, own = [], outside, {}
    for line in text.split("\n"):
        if line.startswith("file:"):
            path = line.split()[1]
            to = names if path.startswith("proofs/") else outside
            own = local.get(os.path.normpath(os.path.join("crates", crate, path)), {})
        elif line.startswith(("old:", "new:")):
            line = line[:4] + code(code(line[4:], to, ANTT, BARE), own, ANTT, FREE)
        else:
            line = prose(line, names)
        out.append(line)
    return "\n".join(out)


def main(root):
    names, local = table(), local_names()
    outside = {o: n for o, n in names.items() if o not in ROOM}
    count = 0
    for folder, dirs, files in os.walk(root):
        dirs[:] = sorted(d for d in dirs if d not in ("out", ".git", "tools"))
        for f in sorted(files):
            path = os.path.join(folder, f)
            kind = os.path.splitext(f)[1]
            if kind not in (".antt", ".rt", ".edit", ".md") or os.path.islink(path):
                continue
            with open(path, encoding="utf-8") as it:
                old = it.read()
            if kind == ".antt":
                here = names if "/proofs/" in path else outside
                turn = lambda t: code(t, here, ANTT, WORD)  # noqa: E731
                new = beside(old, MADE, turn) if f in ("Answers.antt", "Invariants.antt") else turn(old)
                own = local.get(os.path.relpath(path, root), {})
                new = code(new, own, ANTT, FREE) if own else new
            elif kind == ".rt":
                new = code(old, outside, RUST, BARE)
            elif kind == ".edit":
                new = edit(old, names, outside, os.path.relpath(path, root).split(os.sep)[1], local)
            else:
                new = SPAN.sub(lambda m: words(m[0], outside, BARE), old)
            if new != old:
                with open(path, "w", encoding="utf-8") as it:
                    it.write(new)
                count += 1
    print(f"respell: {count} files changed")


if __name__ == "__main__":
    main(sys.argv[1] if len(sys.argv) > 1 else ".")
