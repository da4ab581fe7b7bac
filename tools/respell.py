#!/usr/bin/env python3
"""Brings the repository's own definitions and lemmas to snake case: words and fields as `layout_for`, types and modules as `MpeLayout`.

usage: python3 tools/respell.py        at the top of the repository

Run once, after the toolchain's own script. It turns the names that the repository declares in specs/ and proofs/, wherever they stand: in these
files, in the clauses of src/, in must-fail edits and in the documents. Functions of src/, strings, inputs and outputs keep their names. A name with a
hump (`layoutFor`) becomes `layout_for`. A field or definition of specs/ with a dash (`its-bend`) becomes `its_bend`; a dash between the two names of a
lemma stays. It prints the names that would fall together with another, and turns nothing then.
"""
import collections
import glob
import re
import sys

TOKEN = re.compile(r"[^\s(){}\[\],;.\"⌜⌝`:?|&<>=!*/%]+")
FREE = re.compile(r"(?<![^\s(){}\[\],;\"⌜⌝`:?|&<>=!*/%])[^\s(){}\[\],;.\"⌜⌝`:?|&<>=!*/%]+(?![^\s(){}\[\],;\"⌜⌝`:?|&<>=!*/%])")
DECLARED = re.compile(r"^\s*(?:abbrev |unfoldable |pub )*([^\s:(){}]+) : ")
HUMP = re.compile(r"^[a-z][^\s]*?[a-z0-9'][A-Z]")
# a name that would fall together with another, and what it is called instead
INSTEAD = {
    "as-value": "value_as",
    "label-allowed": "allowed_label",
    "members-in": "members_fit",
    "one-data": "one_data_byte",
    "first-data": "first_data_byte",
    "second-data": "second_data_byte",
    "pitch-bend": "pitch_bend_message",
    "pitch-bend-value": "call_pitch_bend_value",
    "program-change": "program_change_message",
    "with-mcm": "call_with_mcm",
    "zones-set": "set_zones",
    "getD-here": "get_or-here",
    "getD-machines": "get_or-machines",
}

# lemmas that have the name that a definition gets, by the folder in which they stand
LEMMAS = {"crates/zone_sender/proofs/": "group_at", "crates/setup_writer/proofs/": "too_small"}
# names that fall together with a field, a local lemma or a lemma of another crate, and with nothing that stands in scope with them
APART = {
    "at_rest", "bank_lsb", "bank_msb", "by_mode", "entry_read", "group_at", "offset_read", "one_fewer", "one_more", "pitch_bend", "read_taken",
    "reader_at", "same_note", "same_bytes", "too_small",
}


def snake(name):
    return re.sub(r"(?<=[a-z0-9'])([A-Z])", lambda m: "_" + m.group(1).lower(), name)


def antt():
    return sorted(glob.glob("crates/*/specs/*.antt") + glob.glob("crates/*/proofs/**/*.antt", recursive=True))


def read(path):
    with open(path, encoding="utf-8") as f:
        return f.read()


def names():
    """The names to turn, each with what it becomes."""
    turned = {}
    declared, used = set(), collections.Counter()
    for path in antt():
        for line in read(path).splitlines():
            if line.lstrip().startswith("--"):
                continue
            if not line.startswith("use "):
                used.update(FREE.findall(line))
            m = DECLARED.match(line)
            if m:
                declared.add((m.group(1), "/specs/" in path))
    humps = {n for path in antt() for n in TOKEN.findall(read(path)) if HUMP.match(n)}
    for name in humps:
        turned[name] = INSTEAD.get(name, snake(name))
    for name, in_specs in declared:
        if in_specs and "-" in name:
            turned[name] = INSTEAD.get(name, snake(name).replace("-", "_"))
    return turned, used


def clashes(turned, used):
    out = []
    after = collections.Counter(turned.values())
    for old, new in sorted(turned.items()):
        if after[new] > 1:
            out.append(f"{old} and another become {new}")
        if new in used and new not in turned and new not in APART:
            out.append(f"{old} becomes {new}, which stands already")
    return out


def turned_in(path, turned):
    """In a file the lemmas of its folder get the ending of a lemma that has a definition's name."""
    return turned | {n: n + "_lem" for folder, n in LEMMAS.items() if path.startswith(folder)}


def turn(text, turned):
    return TOKEN.sub(lambda m: turned.get(m.group(0), m.group(0)), text)


def turn_source(text, turned):
    """In src/ only ghost use lines, clauses and ghost items hold these names; code has no name with a hump or a dash that is declared in antt."""
    humps = {a: b for a, b in turned.items() if "-" not in a}
    out = []
    for line in text.splitlines(keepends=True):
        code = line.split("//")[0] if "\"" not in line else line
        out.append(turn(code, humps) + line[len(code):] if "\"" not in line else line)
    return "".join(out)


def main():
    turned, used = names()
    bad = clashes(turned, used)
    if "--list" in sys.argv:
        for a, b in sorted(turned.items()):
            print(a, b)
    if bad:
        print("\n".join(bad))
        raise SystemExit(1)
    if "--list" in sys.argv:
        return
    for path in antt():
        old = read(path)
        new = turn(old, turned_in(path, turned))
        if new != old:
            open(path, "w", encoding="utf-8").write(new)
    for path in sorted(glob.glob("crates/*/src/*.rt")):
        old = read(path)
        new = turn_source(old, turned)
        if new != old:
            open(path, "w", encoding="utf-8").write(new)
    for path in sorted(glob.glob("crates/*/must-fail/*.edit")):
        old = read(path)
        new = turn(old, turned)
        if new != old:
            open(path, "w", encoding="utf-8").write(new)
    humps = {a: b for a, b in turned.items() if "-" not in a}
    for path in sorted(glob.glob("docs/*.md") + ["README.md"]):
        old = read(path)
        new = turn(old, humps)
        if new != old:
            open(path, "w", encoding="utf-8").write(new)
    print(f"{len(turned)} names")


main()
