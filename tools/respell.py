#!/usr/bin/env python3
"""Turns the dashed names that this repository defines to snake case.

usage: tools/respell.py          at the top of the repository: rewrites crates/, README.md and docs/ in place
       tools/respell.py --list   prints each name with its new spelling, and changes nothing

A name is ours where a file of specs/ or proofs/ defines it, names a field by it or binds it.
The goals that the checker names, and the names that a file takes from the library, keep their spelling.
Comments keep their words, but for names in backticks.
"""
import re
import subprocess
import sys
from pathlib import Path

NAME = re.compile(r"(?<![\w'·-])[A-Za-z_][\w']*(?:-[\w']+)+(?![\w'-])")
DEFINED = re.compile(r"^(?:(?:abbrev|unfoldable|pub|data|record|ruleset) )*(\S+) (?::|=)", re.M)
FIELD = re.compile(r"^ +(?:pub )?(\S+) :", re.M)
BOUND = [
    re.compile(r"\blet (\S+) [:=]"),
    re.compile(r"λ ([^.]*)\."),
    re.compile(r"[({]([^(){}:;=]*) :"),
    re.compile(r"[;{] *([^\s(){}]+) ="),
]
TAKEN = re.compile(r"^(?:pub )?use (Rattle\.(?:std|core|std_\w+)\.[\w.'+-]*|Prim\S*|mathlib\S*|lib\S*|native\S*)\.\{([^}]*)\}", re.M)
ANSWER = re.compile(r"\b(?:goal|need)\.([\w'-]+)")


def files(kinds):
    listed = subprocess.run(["git", "ls-files", "-z", "crates"], capture_output=True, text=True, check=True).stdout
    return [Path(p) for p in listed.split("\0") if p.endswith(kinds)]


def parts(path, text):
    """The text in pieces: (is it code, piece)."""
    mark = "--" if path.suffix == ".antt" else "//"
    for line in text.splitlines(keepends=True):
        at = comment_at(line, mark)
        yield True, line[:at]
        yield False, line[at:]


def comment_at(line, mark):
    """Where the comment of a line begins, or the line's length."""
    at = line.find(mark)
    while at > 0 and mark == "--" and not line[at - 1].isspace():
        at = line.find(mark, at + 1)
    return len(line) if at < 0 else at


def code(path):
    return "".join(piece for is_code, piece in parts(path, path.read_text()) if is_code)


def taken(text):
    """The names that a file takes from the library."""
    return {n.strip().split(" as ")[-1].strip() for m in TAKEN.finditer(text) for n in m.group(2).split(",")}


def defined():
    """Every dashed name that is ours."""
    ours = set()
    for path in files((".antt",)):
        text = code(path)
        goals = set(ANSWER.findall(text)) if "proofs" in path.parts else set()
        found = set(DEFINED.findall(text)) - goals | set(FIELD.findall(text)) - goals
        for pattern in BOUND:
            for group in pattern.findall(text):
                found |= set(group.split()) - goals
        ours |= {n for n in found if NAME.fullmatch(n)} - taken(text)
    return ours


def respelled(name):
    return name.replace("-", "_")


def turn_code(text, ours, kept):
    return NAME.sub(lambda m: respelled(m[0]) if m[0] in ours and m[0] not in kept else m[0], text)


def turn_ticks(text, ours):
    return re.sub(r"`[^`\n]*`", lambda m: turn_code(m[0], ours, set()), text)


def turn(path, ours):
    text = path.read_text()
    kept = taken(text)
    out = "".join(turn_code(p, ours, kept) if is_code else turn_ticks(p, ours) for is_code, p in parts(path, text))
    if out != text:
        path.write_text(out)


def turn_edit(path, ours):
    """An edit of a definition names ours; one of the source has none of them."""
    text = path.read_text()
    if "file: specs/" in text:
        path.write_text(turn_code(text, ours, set()))


def main():
    ours = defined()
    if "--list" in sys.argv:
        for name in sorted(ours):
            print(name, respelled(name))
        return
    for path in files((".antt", ".rt")):
        turn(path, ours)
    for path in files((".edit",)):
        turn_edit(path, ours)
    for path in [Path("README.md"), *sorted(Path("docs").glob("*.md"))]:
        path.write_text(turn_ticks(path.read_text(), ours))


main()
