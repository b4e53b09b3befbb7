#!/usr/bin/env python3
"""Tells what in a crate's proof takes how long: checks the crate once from nothing, at one job, and tells each module's seconds by when the prover
kept it.

    tools/proof_times.py NAME [COUNT]    the COUNT longest, 30 where none is given

`Lts` is what a function lets go of and lends, on every way through it; `Proof` is what is searched for its contract. A function whose `Lts` takes long
has many `?` or `return`s with values alive that have to be let go of: make what costs most last, or give the way a function of its own. What
earlier checks kept of the crate is made anew; the libraries below are built first, where they aren't. Measure on a quiet machine.
"""
import os
import re
import shutil
import subprocess
import sys
import time

TOP = os.path.dirname(os.path.dirname(os.path.abspath(__file__)))


def modules(folder, began):
    """Each module with the seconds from the one before it, in the order in which they were kept."""
    found, last = [], began
    for at, _, names in os.walk(folder):
        found += [(os.stat(f"{at}/{name}").st_mtime, name) for name in names if name.endswith(".oantt")]
    for when, name in sorted(found):
        if when >= began:
            yield when - last, re.sub(r"(\.decls)?\.oantt$", "", name)
            last = when


def main():
    if len(sys.argv) not in (2, 3) or not os.path.isdir(f"{TOP}/crates/{sys.argv[1]}"):
        sys.exit(__doc__.strip())
    crate = f"{TOP}/crates/{sys.argv[1]}"
    # (the first check builds what is below, and is not measured)
    subprocess.run(["rt", "check", "--only", ""], cwd=crate, stdout=subprocess.DEVNULL, stderr=subprocess.DEVNULL)
    kept = f"{crate}/out/incremental"
    shutil.rmtree(kept, ignore_errors=True)
    began = time.time()
    ended = subprocess.run(["rt", "check", "--jobs", "1"], cwd=crate, stdout=subprocess.PIPE, stderr=subprocess.STDOUT, text=True)
    total, told = time.time() - began, {}
    for seconds, name in modules(kept, began):
        told[name] = told.get(name, 0) + seconds
    for name, seconds in sorted(told.items(), key=lambda it: -it[1])[: int(sys.argv[2]) if len(sys.argv) == 3 else 30]:
        print(f"{seconds:8.1f}  {name}")
    print(f"{total:8.1f}  the whole check, of {len(told)} modules: {ended.stdout.strip().splitlines()[-1]}")
    return ended.returncode


if __name__ == "__main__":
    sys.exit(main())
