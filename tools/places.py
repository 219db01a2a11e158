#!/usr/bin/env python3
"""Places in crates/*/src that may read like older Rattle, by point of docs/DESIGN-PASS.md: file:line and the text.

    python3 tools/places.py [POINT..]      all points, or those named (1 to 8); -c prints the counts alone

A line is a place to look at. docs/DESIGN-PASS.md says which of them are places, and what became of each.
"""
import collections
import glob
import re
import sys

LINES = {
    "1 enums": r"^(pub )?enum \w+",
    "1 flags in structs": r"^    (pub )?\w+: bool,",
    "1 numbers for kinds": r"fn (number|rank|code|numbered|kind|\w*_number)\(|^pub const \w+: u16 = \d+;|right: u8|\bAbort\(u8\)",
    "1 numbers or none": r"// .*\bor 0\b|\bOK: u8 = 0",
    "3 loops by an index": r"for i in |while .*\.len\(\)|\bloop \{",
    "3 loops over a range": r"for (?!i )\w+ in [\w.+ ]+\.\.",
    "4 by hand": r"fn (eq|cmp|partial_cmp|number|rank|code|numbered|kind|greater|line_text|digit|done|paired|permits|clash)\(|matches!\(|^pub struct Hex",
    "6 buffers and tables": r"^    (pub )?\w+: (Vec<|&'a \[|\[)",
    "7 steps by a flag or a table": r"\bfn\(|dyn |impl Fn|if self\.started|stops",
}
WORD = re.compile(r"[A-Za-z_]\w*|\d\w*|\S")
KEEP = {"if", "else", "for", "in", "match", "return", "let", "mut", "self", "Ok", "Err", "Some", "None", "while", "loop"}


def sources():
    for path in sorted(glob.glob("crates/*/src/**/*.rt", recursive=True)):
        with open(path) as f:
            yield path, f.read().split("\n")


def functions(lines):
    """Each function as its first line, its name, its parameters, its contract's text and its body."""
    i = 0
    while i < len(lines):
        m = re.match(r"(\s*)(pub(\(super\))? )?fn (\w+)", lines[i])
        if not m or lines[i].rstrip().endswith(";"):
            i += 1
            continue
        first, indent = i, m.group(1)
        while i < len(lines) and lines[i].rstrip() not in (indent + "}", indent + "{}") and not lines[i].rstrip().endswith("{}"):
            i += 1
        text = "\n".join(lines[first:i + 1])
        cut = re.search(r"\n" + indent + r"\{|\{\n", text)
        head, body = (text[:cut.start()], text[cut.start():]) if cut else (text, "")
        yield first + 1, m.group(4), head, body
        i += 1


def shape(body):
    return " ".join(w if w in KEEP or not re.match(r"\w", w) else ("0" if w[0].isdigit() else "x") for w in WORD.findall(body))


def twins():
    groups = collections.defaultdict(list)
    for path, lines in sources():
        for line, name, head, body in functions(lines):
            if "#[test]" in lines[max(0, line - 2)]:
                continue
            if len(WORD.findall(body)) >= 12:
                groups[shape(body)].append(f"{path}:{line}: {name}")
    return [" = ".join(g) for g in groups.values() if len(g) > 1]


def views():
    """A function of specs/ that contracts apply to one value of the code, in three functions or more."""
    seen = collections.defaultdict(set)
    for path, lines in sources():
        for line, name, head, _ in functions(lines):
            for f, x in re.findall(r"\((\w+(?:\.\w+)?) (\w+)\.(?:old|new|now)\)|\{ (?:\w+) \w+\.(?:old|new)", head):
                if f:
                    seen[f"{path.split('/')[1]}: {f} of {x}"].add(f"{path}:{line}")
    return [f"{k}: {len(v)} functions" for k, v in sorted(seen.items()) if len(v) >= 3]


def together():
    """Two parameters or fields that stand side by side in three places or more."""
    seen = collections.defaultdict(set)
    for path, lines in sources():
        if "/trials/" in path:
            continue
        text = "\n".join(lines)
        for a, b in re.findall(r"(\w+: \w+),\s*(?=(\w+: \w+)[,)\s}])", text):
            if a[0].islower() and b[0].islower():
                seen[a + ", " + b].add(path)
        for m in re.finditer(r"(\w+: \w+),\s*(?=(\w+: \w+)[,)\s}])", text):
            seen[m.group(1) + ", " + m.group(2)].add(f"{path}@{m.start()}")
    out = []
    for k, v in sorted(seen.items()):
        n = len([x for x in v if "@" in x])
        if n >= 3:
            out.append(f"{k}: {n} times")
    return out


def proofs():
    out = []
    for crate in sorted(glob.glob("crates/*")):
        files = glob.glob(crate + "/proofs/**/*.antt", recursive=True)
        own = [f for f in files if f.count("/") == 3]
        lines = sum(len(open(f).read().split("\n")) - 1 for f in files)
        out.append(f"{crate.split('/')[1]}: {len(files) - len(own)} files of functions, {len(own)} of lemmas, {lines} lines")
    return out


def main():
    words = [w for w in sys.argv[1:] if w != "-c"]
    found = collections.OrderedDict()
    for key, pattern in LINES.items():
        found[key] = [f"{p}:{i + 1}: {l.strip()}" for p, ls in sources() for i, l in enumerate(ls) if re.search(pattern, l)]
    found["2 functions of one shape"] = twins()
    found["5 one view in many contracts"] = views()
    found["5 side by side"] = together()
    found["8 proofs"] = proofs()
    for key in sorted(found):
        if words and key[0] not in words:
            continue
        print(f"{key}: {len(found[key])}")
        if "-c" not in sys.argv:
            for row in found[key]:
                print("    " + row)


main()
