#!/usr/bin/env python3
"""Lists the public types of the code that share a name in two crates, and fails where there are any.

Usage: tools/same_names.py"""
import os
import re
import sys

HEAD = re.compile(r"^pub (?:struct|enum|trait|type) (\w+)", re.M)
USE = re.compile(r"^pub use (\w+)::(?:\{([^}]*)\}|(\w+));", re.M)


def read(path):
    with open(path, encoding="utf-8") as file:
        return file.read()


def public_types(root):
    """Gives each name with the crates that declare a type of that name which other crates see."""
    found = {}
    for crate in sorted(os.listdir(f"{root}/crates")):
        source = f"{root}/crates/{crate}/src"
        if not os.path.isfile(f"{source}/lib.rt"):
            continue
        top = read(f"{source}/lib.rt")
        seen = [(f"{source}/lib.rt", HEAD.findall(top))]
        for module, several, one in USE.findall(top):
            names = [name.strip() for name in (several or one).split(",")]
            seen.append((f"{source}/{module}.rt", names))
        for path, names in seen:
            if os.path.isfile(path):
                for name in set(HEAD.findall(read(path))) & set(names):
                    found.setdefault(name, set()).add(crate)
    return found


def main():
    root = os.path.dirname(os.path.dirname(os.path.abspath(__file__)))
    shared = {name: crates for name, crates in public_types(root).items() if len(crates) > 1}
    for name, crates in sorted(shared.items()):
        print(f"{name}: {', '.join(sorted(crates))}")
    sys.exit(1 if shared else 0)


if __name__ == "__main__":
    main()
