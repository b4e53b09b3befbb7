#!/usr/bin/env python3
"""Counts how often a gate from nothing reads the crates' files for their sums.

    tools/reads.py            the count, and the crates that cost most of it
    tools/reads.py --check    fails where the count is above what docs/gate.md allows

Before and after it builds a library, `rt` sums up the library's files and those of each library below it, once for each way to it through the lines of
crates.txt, and keeps no sum. So the ways count, and not the crates: a line that names what another of its libraries passes on already may double them.
"""
import os
import re
import sys

TOP = os.path.dirname(os.path.dirname(os.path.abspath(__file__)))
MOST = 20_900_000


def lines():
    """Each crate, and the crates that its line in crates.txt names."""
    with open(f"{TOP}/crates.txt", encoding="utf-8") as file:
        found = re.findall(r"^([a-z0-9_]+)\b[^#\n:]*:([^#\n]*)", file.read(), re.M)
    crates = {name for name, _ in found}
    return {name: [it for it in line.split() if it in crates] for name, line in found}


def own_files(name):
    folders = (f"{TOP}/crates/{name}/{part}" for part in ("src", "specs", "proofs"))
    return sum(len(files) for folder in folders for _, _, files in os.walk(folder))


def main():
    below, counts = lines(), {}

    def count(name):
        if name not in counts:
            counts[name] = own_files(name) + sum(count(it) for it in below[name])
        return counts[name]

    libraries = [it for it in below if os.path.isfile(f"{TOP}/crates/{it}/src/lib.rt")]
    whole = 2 * sum(count(it) for it in libraries)
    if "--check" in sys.argv:
        if whole > MOST:
            sys.exit(f"crates.txt: a gate would read {whole:,} files for their sums, more than {MOST:,}: tools/reads.py names the crates")
        return
    print(f"{whole:,} files are read, {MOST:,} at most")
    for name in sorted(libraries, key=count, reverse=True)[:12]:
        print(f"{2 * count(name):>12,}  {name}")


if __name__ == "__main__":
    main()
