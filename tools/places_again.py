#!/usr/bin/env python3
"""Counts the places of docs/DESIGN-PASS.md a second time, by what the code does and not by names that it has: usage: tools/places_again.py [--list] [FOLDER OF CRATES]

tools/places.py looks for lines that hold certain names. This script takes each crate's src/ apart into types and functions, and counts shapes."""

import collections
import difflib
import pathlib
import re
import sys

TOKEN = re.compile(r"\d[\d_]*(?:usize|u8)?|\w+|[^\w\s]")
KEPT = {"if", "else", "match", "while", "for", "in", "let", "return", "mut", "loop", "true", "false", "Some", "None", "Ok", "Err", "self", "Self"}


def stripped(text):
    return re.sub(r'b?"[^"\n]*"', '""', re.sub(r"//[^\n]*", "", text))


def closed(text, at):
    """The place behind the bracket that closes the one at a place."""
    deep = 0
    for k in range(at, len(text)):
        deep += (text[k] in "{[(") - (text[k] in "}])")
        if deep == 0:
            return k + 1
    return len(text)


class Function:
    def __init__(self, crate, path, name, head, body):
        self.crate, self.path, self.name, self.body = crate, path, name, body
        cut = re.split(r"\n\s*(?:requires|ensures)\b", head, maxsplit=1)[0]
        self.signature = cut
        inner = cut[cut.index("(") + 1 : closed(cut, cut.index("(")) - 1]
        self.params = [re.sub(r"\s+", " ", p.strip()) for p in re.split(r",(?![^\[<(]*[\]>)])", inner) if p.strip()]
        self.result = cut.split("->", 1)[1].strip() if "->" in cut else ""
        self.requires = []
        for m in re.finditer(r"\brequires\s*\w*\s*\{", head):
            self.requires.append(head[m.end() : closed(head, m.end() - 1) - 1].strip())

    def __str__(self):
        return "%s %s" % (self.crate, self.name)


def parsed(crates):
    functions, types = [], []
    for path in sorted(p for p in crates.glob("*/src/**/*.rt") if "out" not in p.parts):
        crate = path.relative_to(crates).parts[0]
        text = stripped(path.read_text())
        for m in re.finditer(r"\b(struct|enum)\s+(\w+)[^{;(]*\{", text):
            types.append((crate, m[1], m[2], text[m.end() : closed(text, m.end() - 1) - 1]))
        for m in re.finditer(r"^( *)(?:pub )?(?:extern \"\"\s*)?fn\s+(\w+)", text, re.M):
            start = re.compile(r"^" + m[1] + r"\{\n|\) \{\n|[\w>] \{\n", re.M).search(text, m.end())
            if start is None:
                continue
            brace = text.index("{", start.start() if text[start.start()] != "{" else start.start())
            functions.append(Function(crate, path, m[2], text[m.start() : brace], text[brace : closed(text, brace)]))
    return functions, types


def variants(body):
    """The variants of an enum: name, and how many values each has."""
    found, k = [], 0
    while m := re.compile(r"\s*(\w+)\s*").match(body, k):
        k = m.end()
        held = 0
        if k < len(body) and body[k] in "({":
            end = closed(body, k)
            held = len([x for x in body[k + 1 : end - 1].split(",") if x.strip()])
            k = end
        found.append((m[1], held))
        c = re.compile(r"[^,]*,?").match(body, k)
        k = c.end()
    return found


def normal(body):
    return [t if t in KEPT or not re.match(r"\w", t) else ("0" if t[0].isdigit() else "w") for t in TOKEN.findall(body)]


def similar(functions):
    """Pairs of functions whose bodies are alike but for names and numbers, nine tokens in ten, where there are 30 tokens or more."""
    shapes = [(f, normal(f.body)) for f in functions]
    shapes = [(f, s) for f, s in shapes if len(s) >= 30]
    pairs = []
    for i, (f, a) in enumerate(shapes):
        for g, b in shapes[i + 1 :]:
            if 0.85 <= len(a) / len(b) <= 1.18 and difflib.SequenceMatcher(None, a, b, False).quick_ratio() >= 0.9:
                if difflib.SequenceMatcher(None, a, b, False).ratio() >= 0.9:
                    pairs.append("%s = %s" % (f, g))
    return pairs


def counted(functions, types):
    out = collections.OrderedDict()

    def add(name, places):
        out[name] = list(places)

    two = [(c, n, variants(b)) for c, kind, n, b in types if kind == "enum"]
    add("1 enums of two cases with one value or none each", ("%s %s" % (c, n) for c, n, v in two if len(v) == 2 and all(h <= 1 for _, h in v) and any(h for _, h in v)))
    add("1 structs with a bool", ("%s %s" % (c, n) for c, kind, n, b in types if kind == "struct" and re.search(r":\s*bool\b", b)))
    add("1 results with a bool and a value", (str(f) for f in functions if re.search(r"\(.*\bbool\b.*,|,.*\bbool\b.*\)", f.result)))
    add("1 numbers given for cases", (str(f) for f in functions if f.result in ("usize", "u8", "u64") and len(re.findall(r"=>\s*\d+\b", f.body)) >= 2))
    add("1 tests against a number", ("%s: %s" % (f, m[0]) for f in functions for m in re.finditer(r"[\w.\]\[)(]+ (?:==|!=) \d+\b", f.body)))
    add("1 defaults that are numbers", ("%s: %s" % (f, m[0]) for f in functions for m in re.finditer(r"unwrap_or\(\d+\)", f.body)))
    add("2 functions that are alike", similar(functions))
    add("3 while over a condition", (str(f) for f in functions for _ in re.findall(r"\bwhile (?!let)", f.body)))
    add("3 while let", (str(f) for f in functions for _ in re.findall(r"\bwhile let\b", f.body)))
    add("3 one more or less by hand", ("%s: %s" % (f, m[0]) for f in functions for m in re.finditer(r"\b([\w.]+) (?:[+-]= 1;|= \1 [+-] 1;)", f.body)))
    add("3 ranges whose number is an index", ("%s: %s" % (f, m[1]) for f in functions for m in re.finditer(r"for (\w+) in [^{]*\.\.[^{]*\{", f.body) if re.search(r"\[[^\]]*\b%s\b" % m[1], f.body)))
    add("3 ranges whose number is none", ("%s: %s" % (f, m[1]) for f in functions for m in re.finditer(r"for (\w+) in [^{]*\.\.[^{]*\{", f.body) if not re.search(r"\[[^\]]*\b%s\b" % m[1], f.body)))
    pair = lambda f: [p.split(":", 1)[1].strip() for p in f.params if ":" in p]
    add("4 two of one type compared", (str(f) for f in functions if f.result == "bool" and len(pair(f)) == 2 and len(set(pair(f))) == 1 and pair(f)[0] not in ("usize", "&[u8]")))
    add("4 bytes of a value written", (str(f) for f in functions if any("&mut [u8]" in p for p in f.params) and len(f.params) == 2 and f.result == "usize" and re.search(r"refus|verdict|error", " ".join(f.params).lower())))
    heads = collections.defaultdict(list)
    for f in functions:
        for r in f.requires:
            head = re.match(r"\W*([A-Z]\w*)", r)
            if head and " " in r:
                heads[head[1]].append(str(f))
    add("5 facts that three functions or more ask", ("%s: %s" % (h, ", ".join(fs)) for h, fs in sorted(heads.items()) if len(set(fs)) >= 3))
    groups = collections.defaultdict(list)
    for f in functions:
        ps = [p for p in f.params if ":" in p]
        for i in range(len(ps)):
            for j in range(i + 1, len(ps)):
                for k in range(j + 1, len(ps)):
                    groups[(ps[i], ps[j], ps[k])].append(str(f))
    add("5 three parameters that go together in three functions", ("%s: %s" % ("; ".join(g), ", ".join(fs)) for g, fs in sorted(groups.items()) if len(fs) >= 3))
    add("6 an array with a number beside it", ("%s %s" % (c, n) for c, kind, n, b in types if kind == "struct" and re.search(r":\s*\[", b) and re.search(r":\s*usize\b", b)))
    add("6 a slice cut at another parameter", (str(f) for f in functions if any(re.search(r"\b%s\[\.\.%s\]" % (a.split(":")[0].replace("mut ", "").strip(), b.split(":")[0].strip()), f.body) for a in f.params for b in f.params if ":" in a and ":" in b)))
    add("7 a case that chooses the test", ("%s: %s" % (f, m[0]) for f in functions for m in re.finditer(r"matches!\([^)]*\)", f.body)))
    add("7 parameters that are functions", ("%s: %s" % (f, p) for f in functions for p in f.params if re.search(r"\bfn\(", p)))
    return out


def main(argv):
    listed = "--list" in argv
    rest = [a for a in argv if a != "--list"]
    functions, types = parsed(pathlib.Path(rest[0] if rest else "crates"))
    print(len(functions), "functions,", len(types), "types")
    for name, places in counted(functions, types).items():
        print(len(places), name)
        for place in places if listed else []:
            print("   ", place)


main(sys.argv[1:])
