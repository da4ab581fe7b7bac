#!/usr/bin/env python3
"""Gives the repository's own choice by a test the name `when◌then◌else◌`, since `if◌then◌else◌` is the library's.

usage: python3 tools/respell_choice.py        at the top of the repository

Run once, after tools/respell.py. It turns the operator in specs/ and proofs/, in the clauses of src/ and in must-fail edits of these; comments, and the
`if` of the language, stay.
"""
import glob
import re

IF = re.compile(r"(?<![\w'◌-])if(?![\w'-])")


def turned(code):
    return IF.sub("when", code)


def antt(text):
    out = []
    for line in text.splitlines(keepends=True):
        at = re.search(r"(^|\s)--(\s|$)", line)
        cut = at.start() if at else len(line)
        out.append(turned(line[:cut]) + line[cut:])
    return "".join(out)


def source(text):
    out = []
    for line in text.splitlines(keepends=True):
        clause = re.match(r"\s*(ghost use|ghost|requires|ensures)\b", line) or " then " in line
        out.append(turned(line) if clause and not line.lstrip().startswith("//") else line)
    return "".join(out)


def edit(text):
    out, specs = [], False
    for line in text.splitlines(keepends=True):
        if line.startswith("file:"):
            specs = "specs/" in line or "proofs/" in line
        is_text = line.startswith(("old:", "new:"))
        out.append(turned(line) if is_text and (specs or " then " in line) else line)
    return "".join(out)


def main():
    count = 0
    for pattern, turn in (("crates/*/specs/*.antt", antt), ("crates/*/proofs/**/*.antt", antt), ("crates/*/src/*.rt", source), ("crates/*/must-fail/*.edit", edit)):
        for path in sorted(glob.glob(pattern, recursive=True)):
            with open(path, encoding="utf-8") as f:
                old = f.read()
            new = turn(old).replace("if◌then◌else◌", "when◌then◌else◌")
            if new != old:
                count += 1
                with open(path, "w", encoding="utf-8") as f:
                    f.write(new)
    print(f"{count} files")


main()
