#!/usr/bin/env python3
"""Counts, over the sources of a commit, the places that the page on the design pass speaks of.

    tools/count_places.py [COMMIT] [--lines]

With no commit it reads the files as they lie. With --lines it prints each place, and not only how many there are.
A place is a line that fits; whether it is one in truth is for a reader to say.
"""
import collections
import pathlib
import re
import subprocess
import sys

ROOT = pathlib.Path(__file__).resolve().parent.parent


def sources(commit):
    """Path and text of each source file."""
    if commit is None:
        for path in sorted(ROOT.glob("crates/*/src/*.rt")):
            yield str(path.relative_to(ROOT)), path.read_text()
        return
    names = subprocess.run(
        ["git", "ls-tree", "-r", "--name-only", commit, "crates"],
        cwd=ROOT, capture_output=True, text=True, check=True,
    ).stdout.split()
    for name in names:
        if re.fullmatch(r"crates/[^/]+/src/[^/]+\.rt", name):
            yield name, subprocess.run(
                ["git", "show", f"{commit}:{name}"], cwd=ROOT, capture_output=True, text=True, check=True,
            ).stdout


LINES = {
    "1 letters of kinds compared or matched": r"b'[DPGR]'",
    "1 a number as an error": r"Result<[^<>]*(<[^<>]*>)?[^<>]*, u(8|16|32|64|size)>",
    "1 a truth value in a struct": r"^\s+(pub(\([a-z]+\))? )?\w+: bool,",
    "1 a function that answers whether it was done": r"-> (anyhow|io)::Result<bool>",
    "3 a range counted by a variable": r"^\s*for \w+ in .*[^.]\.\.",
    "3 loop or while": r"^\s*(loop|while)\b",
    "3 a counter moved by hand": r"^\s*\w+ \+= (1|self\.stride|T::width\(\));",
    "4 words for cases": r"-> &'static str",
    "4 a conversion by as": r" as (u|i)(8|16|32|64|128|size)\b",
    "4 Some turned into Some, or None into None": r"^\s*None => None,",
    "6 a length or count beside a buffer": r"^\s+(pub )?(count|len|length): usize,|count: usize[,)]|-> usize$",
    "7 a function as a value": r"\bfn\(|dyn |impl Fn|: Fn(Mut|Once)?\(",
}


def bodies(text):
    """Name and body of each function, the body with types, numbers and names of callees taken out."""
    for found in re.finditer(r"^( *)(?:pub(?:\([a-z]+\))? )?fn (\w+)", text, re.M):
        indent = found.group(1)
        rest = text[found.end():]
        end = re.search(rf"^{indent}\}}$", rest, re.M)
        begin = re.search(rf"^{indent}\{{$|\{{$", rest, re.M)
        if not end or not begin or begin.start() > end.start():
            continue
        body = re.sub(r"//.*", "", rest[begin.end():end.start()])
        yield found.group(2), " ".join(body.split())


def shape(body):
    """What is left of a body without types, numbers, strings and names."""
    body = re.sub(r'"[^"]*"', '""', body)
    body = re.sub(r"b?'[^']'", "0", body)
    body = re.sub(r"\b[0-9][0-9_]*\b", "0", body)
    return re.sub(r"\b(?!for|in|if|else|match|let|mut|return|self|Some|None|Ok|Err)[A-Za-z_]\w*(?:::\w+)*", "x", body)


def facts(text):
    """The conjuncts of all requires, each with the names of variables and fields taken off its front."""
    for found in re.finditer(r"requires(?: \w+)? \{ (.*) \}$", text, re.M):
        clause = found.group(1)
        for part in clause.split(" × "):
            part = part.strip("() ")
            yield re.sub(r"\b\w+\.(now|old)\b", "_", part)


def main():
    arguments = [a for a in sys.argv[1:] if a != "--lines"]
    show = "--lines" in sys.argv
    files = list(sources(arguments[0] if arguments else None))
    for name, pattern in LINES.items():
        places = [
            (path, number, line.strip())
            for path, text in files
            for number, line in enumerate(text.split("\n"), 1)
            if re.search(pattern, line) and not line.strip().startswith("//")
        ]
        print(f"{len(places):4}  {name}")
        if show:
            for path, number, line in places:
                print(f"          {path}:{number}: {line}")
    shapes = collections.defaultdict(list)
    for path, text in files:
        for name, body in bodies(text):
            if len(body) > 40:
                shapes[shape(body)].append((path, name))
    groups = {s: fs for s, fs in shapes.items() if len(fs) > 1}
    print(f"{sum(len(fs) for fs in groups.values()):4}  2 functions with bodies of one shape, in {len(groups)} groups")
    if show:
        for fs in groups.values():
            print("          " + ", ".join(f"{path.split('/')[1]}/{path.split('/')[-1]}:{name}" for path, name in fs))
    said = collections.Counter()
    for path, text in files:
        crate = path.split("/")[1]
        for fact in facts(text):
            said[(crate, fact)] += 1
    often = {key: n for key, n in said.items() if n >= 3}
    print(f"{len(often):4}  5 facts that three or more clauses of a crate ask for, {sum(often.values())} times in all")
    if show:
        for (crate, fact), n in sorted(often.items(), key=lambda item: -item[1]):
            print(f"          {n:3}  {crate}: {fact}")


main()
