#!/usr/bin/env python3
"""Respells names of definitions and lemmas by the table beside it, respell.tsv: words in snake case, types in camel case.

usage: tools/respell.py        at the top of the repository

A row of the table is an old name, a tab, and the new one. What turns is a whole name: in specs/ and proofs/ outside comments and
texts, in src/ inside clauses, ghost items and `ghost use`, and in the edits of definitions. A second run changes nothing.
"""
import pathlib
import re

TOP = pathlib.Path(__file__).resolve().parents[1]
NAME = re.compile(r"[^\s(){}.;,@\"«»\[\]|]+")
SKIPPED = re.compile(r'"(?:[^"\\\n]|\\.)*"|(?:(?<=\s)|^)--[^\n]*', re.M)
GHOST_USE = re.compile(r"ghost\s+use\b[^;]*;")
GHOST = re.compile(r"\b(?:requires|ensures)\b[^{;\n]*\{|\bghost\s+\w+\s*[:=]\s*\{")
CODE_COMMENT = re.compile(r"//[^\n]*|\"(?:[^\"\\\n]|\\.)*\"")


def table():
    lines = (TOP / "tools" / "respell.tsv").read_text().splitlines()
    return dict(line.split("\t") for line in lines)


def respell(text, names):
    return NAME.sub(lambda m: names.get(m.group(), m.group()), text)


def outside(text, skipped, turn):
    """Turns what lies outside the matches of a pattern."""
    parts, end = [], 0
    for m in skipped.finditer(text):
        parts += [turn(text[end : m.start()]), m.group()]
        end = m.end()
    return "".join(parts) + turn(text[end:])


def closing(text, start):
    """Where the brace that opens at `start` is closed."""
    depth = 0
    for i in range(start, len(text)):
        depth += {"{": 1, "}": -1}.get(text[i], 0)
        if depth == 0:
            return i
    return len(text)


def ghost_spans(text):
    """The parts of a source file that belong to the proof, in order."""
    spans = [m.span() for m in GHOST_USE.finditer(text)]
    spans += [(m.start(), closing(text, m.end() - 1)) for m in GHOST.finditer(text)]
    comments = [m.span() for m in CODE_COMMENT.finditer(text)]
    return sorted(s for s in spans if not any(a <= s[0] < b for a, b in comments))


def turn_source(text, names):
    parts, end = [], 0
    for a, b in ghost_spans(text):
        if a < end:
            continue
        parts += [text[end:a], outside(text[a:b], CODE_COMMENT, lambda t: respell(t, names))]
        end = b
    return "".join(parts) + text[end:]


def turn_proof(text, names):
    return outside(text, SKIPPED, lambda t: respell(t, names))


def turn_edit(text, names):
    return respell(text, names) if text.startswith("file: specs/") else text


def main():
    names = table()
    turns = {".rt": turn_source, ".antt": turn_proof, ".edit": turn_edit}
    changed = 0
    for path in sorted((TOP / "crates").rglob("*")):
        if path.suffix not in turns or "out" in path.relative_to(TOP).parts:
            continue
        text = path.read_text()
        new = turns[path.suffix](text, names)
        if new != text:
            path.write_text(new)
            changed += 1
    print(f"{changed} files changed")


if __name__ == "__main__":
    main()
