#!/usr/bin/env python3
"""Tells which must-fail edits docs/planted.md doesn't name, and which it names that aren't there. It says nothing where it names them all.

Usage: tools/edits.py [--check]      with the word or without, the status is 1 where it says something"""
import os
import re
import sys

TOP = os.path.dirname(os.path.dirname(os.path.abspath(__file__)))
# an edit with its crate; or a crate's row, in which each edit stands before a colon
WHOLE = re.compile(r"`(\w+/\w+)`")
ROW = re.compile(r"^\| `(\w+)`[^|]*\| (`\w+`: .*) \|$", re.M)
EDIT = re.compile(r"(?:^|; )`(\w+)`: ")


def edits():
    crates = [crate for crate in os.listdir(f"{TOP}/crates") if os.path.isdir(f"{TOP}/crates/{crate}/must-fail")]
    return {f"{crate}/{name[:-5]}" for crate in crates for name in os.listdir(f"{TOP}/crates/{crate}/must-fail") if name.endswith(".edit")}


def named():
    with open(f"{TOP}/docs/planted.md", encoding="utf-8") as file:
        page = file.read()
    # a crate's folder is no edit
    whole = {name for name in WHOLE.findall(page) if not os.path.isdir(f"{TOP}/crates/{name}")}
    return whole | {f"{crate}/{edit}" for crate, row in ROW.findall(page) for edit in EDIT.findall(row)}


def main():
    if sys.argv[1:] not in ([], ["--check"]):
        sys.exit(__doc__)
    said = [f"docs/planted.md doesn't name {name}" for name in sorted(edits() - named())]
    said += [f"docs/planted.md names {name}, which is no edit" for name in sorted(named() - edits())]
    for line in said:
        print(line)
    return 1 if said else 0


if __name__ == "__main__":
    sys.exit(main())
