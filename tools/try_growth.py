#!/usr/bin/env python3
"""Tries that what a run costs grows with its events and no faster: tools/try_growth.py PROGRAM [SHAPE..]. For each shape it simulates a script, and the same
one ten times as large, and compares how many instructions the two processes executed. No time is measured: valgrind counts them, and they come out the same
on any machine, however busy. Each shape is for indexes or shared lists that a method's contract can't hold to their cost: where one is lost, the large run
takes more than so many times the small one's instructions. The status is 1 where a shape fails, and 77 where there is no valgrind, so that nothing was tried.
--list prints the shapes, --scripts FOLDER writes their scripts."""
import os
import re
import shutil
import subprocess
import sys
import tempfile
from concurrent.futures import ThreadPoolExecutor

TIMES = 10
NOT_TRIED = 77
# the large run of a shape takes ten seconds under valgrind
SECONDS = 1200


def rounds(count):
    return f"""fn one(x: int) -> int {{ return x; }}
fn main() -> int {{
    let sum = 0;
    for b in 0 .. {count} {{
        let last = put 0;
        for i in 0 .. 100 {{ let new = remote one(i + 1); set last = new; }}
        set sum = sum + get last;
    }}
    return sum;
}}
""", 100 * count


def chains(count):
    return f"""fn next(x: int) -> int {{ return x + 1; }}
fn main() -> int {{
    let sum = 0;
    for b in 0 .. {count} {{
        let last = put 0;
        for i in 0 .. 100 {{ let new = remote next(last); set last = new; }}
        set sum = sum + get last;
    }}
    return sum;
}}
""", 100 * count


def gets(count, more=""):
    return f"""fn one(x: int) -> int {{ return 1; }}
fn main() -> int {{
    let sum = 0;
    for i in 0 .. {count} {{ {more}set sum = sum + get remote one(i); }}
    return sum;
}}
""", count


def printing(count):
    return gets(count, "print i; print i; ")


def copies(count):
    return f"""fn main() -> int {{
    let kept = empty ref [int];
    for i in 0 .. {count} {{ let new = put [i, 1, 2, 3, 4, 5, 6, 7, 8]; set kept = push(kept, new); }}
    let sum = 0;
    for turn in 0 .. 5 {{ for i in 0 .. {count} {{ let content = get kept[i]; set sum = sum + content[1]; }} }}
    return sum;
}}
""", 5 * count


# a shape's name, its script with main's value, the small run's size, how many times its instructions the large one may take, and what may be lost
# where it takes more
SHAPES = [
    ("rounds", rounds, 9, 12, ["where the search for the next message begins", "the marks of a node's asks"]),
    ("chains", chains, 7, 12, ["which objects may have come to be releasable"]),
    ("copies", copies, 400, 12, ["the shelves of the primary copies at a node"]),
    ("gets", gets, 900, 11, ["that a job shares its attempt's births, and the list of the full chunks of these", "that it shares its answers", "the bounds of the attempts that a worker began"]),
    ("prints", printing, 900, 11, ["that a job shares its attempt's prints"]),
]


def instructions(program, folder, name, size, script, value):
    """How many instructions one simulation executes, where main ends with that value; else it ends the program."""
    path = f"{folder}/{name}{size}"
    with open(f"{path}.ray", "w", encoding="ascii") as file:
        file.write(script)
    counter = ["valgrind", "--tool=callgrind", "--callgrind-out-file=/dev/null", f"--log-file={path}.log"]
    words = [program, "sim", f"{path}.ray", f"{folder}/settle.ev", "--slots", "4"]
    ran = subprocess.run(counter + words, stdin=subprocess.DEVNULL, capture_output=True, timeout=SECONDS, check=False)
    with open(f"{path}.log", encoding="utf-8", errors="replace") as file:
        log = file.read()
    counted = re.search(r"Collected : ([0-9]+)", log)
    if ran.returncode or f"main value {value}\n".encode() not in ran.stdout or not counted:
        sys.exit(f"try_growth: {name}, {size}: the status is {ran.returncode}, main has not the value {value}, or nothing was counted: {log[-600:]}")
    return int(counted[1])


def grows(program, folder, shape):
    """Whether a shape stays below its bound, and what is told of it."""
    name, script, small, most, lost = shape
    counts = [instructions(program, folder, name, size, *script(size)) for size in (small, TIMES * small)]
    ratio = counts[1] / counts[0]
    told = "" if ratio <= most else f" FAILED: is this lost: {'; '.join(lost)}?"
    millions = [f"{count / 1e6:.1f}" for count in counts]
    return ratio <= most, f"{name}: {millions[0]} million instructions, {TIMES} times as large {millions[1]}: {ratio:.1f} times, at most {most}{told}"


def main(words):
    if words[:1] == ["--list"]:
        for name, _, small, most, lost in SHAPES:
            print(f"{name}: sizes {small} and {TIMES * small}, at most {most} times: {'; '.join(lost)}")
        return 0
    if words[:1] == ["--scripts"] and len(words) == 2:
        for name, script, small, *_ in SHAPES:
            for size in (small, TIMES * small):
                with open(f"{words[1]}/{name}{size}.ray", "w", encoding="ascii") as file:
                    file.write(script(size)[0])
        return 0
    wanted = [shape for shape in SHAPES if not words[1:] or shape[0] in words[1:]]
    if not words or words[0].startswith("-") or len(wanted) < len(words[1:]):
        sys.exit(__doc__)
    if not shutil.which("valgrind"):
        print("try_growth: nothing was tried. Instructions are counted by valgrind, a package of most systems, and there is none on this machine")
        return NOT_TRIED
    with tempfile.TemporaryDirectory() as folder:
        with open(f"{folder}/settle.ev", "w", encoding="ascii") as file:
            file.write("settle\n")
        held = []
        with ThreadPoolExecutor(len(os.sched_getaffinity(0))) as pool:
            for is_right, told in pool.map(lambda shape: grows(os.path.abspath(words[0]), folder, shape), wanted):
                held.append(is_right)
                print(told, flush=True)
    print(f"{sum(held)} of {len(held)} shapes grow as they should")
    return 0 if all(held) else 1


if __name__ == "__main__":
    sys.exit(main(sys.argv[1:]))
