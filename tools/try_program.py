#!/usr/bin/env python3
"""Tries what no proof says, on the program that the gate just proved: tools/try_program.py FOLDER [LINE]. In the folder stand the program raysim as LLVM
built it, and beside it, where the toolchain's own compiler built it too, raysim.by-rattle. Each of them is tried by tools/try_files.py, tools/try_hostile.py,
tools/try_memory.py and tools/try_growth.py. LINE is the last line of `rt ci`, `N passed, M failed`; the last line here is the same with what was tried added:
what could not be tried for want of a program that the toolchain doesn't bring is told, and is in neither number. The status is 1 where something failed."""
import os
import re
import subprocess
import sys

TOOLS = os.path.dirname(os.path.abspath(__file__))
TRIES = [("try_files.py", []), ("try_hostile.py", ["--gate"]), ("try_memory.py", ["--gate"]), ("try_growth.py", [])]
BUILDS = ["raysim", "raysim.by-rattle"]
# each takes less than a minute on a quiet machine
SECONDS = 1200
# a tool's status where it found nothing wrong, and where it tried nothing
PASSED, NOT_TRIED = 0, 77


def status_of(tool, program, words):
    """A tool's status on a program; what it says goes where this one's goes."""
    print(f"== tools/{tool} {program} {' '.join(words)}".rstrip(), flush=True)
    try:
        return subprocess.run([sys.executable, f"{TOOLS}/{tool}", program, *words], stdin=subprocess.DEVNULL, timeout=SECONDS, check=False).returncode
    except subprocess.TimeoutExpired:
        print(f"try_program: tools/{tool} had not ended after {SECONDS} seconds", flush=True)
        return None


def main(words):
    if len(words) not in (1, 2):
        sys.exit(__doc__)
    before = re.fullmatch(r"([0-9]+) passed, ([0-9]+) failed", words[1] if words[1:] else "0 passed, 0 failed")
    if not before:
        sys.exit(f"try_program: nothing was tried. The last line of rt ci is no count of what passed: {words[1]}")
    passed, failed = int(before[1]), int(before[2])
    for build in BUILDS:
        program = f"{words[0]}/{build}"
        if not os.path.isfile(program):
            if build == BUILDS[0]:
                failed += 1
                print(f"try_program: there is no program {program}, so nothing was tried. rt ci leaves the program that it proved there", flush=True)
                break
            print(f"try_program: note: there is no {program}, since only LLVM built the program", flush=True)
            continue
        for tool, more in TRIES:
            status = status_of(tool, program, more)
            if status == PASSED:
                passed += 1
            elif status != NOT_TRIED:
                failed += 1
                print(f"try_program: tools/{tool} FAILED on {program}", flush=True)
    print(f"{passed} passed, {failed} failed")
    return 1 if failed else 0


if __name__ == "__main__":
    sys.exit(main(sys.argv[1:]))
