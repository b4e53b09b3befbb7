#!/usr/bin/env python3
"""Measures what the gate costs: runs it once in a fresh copy of what is committed, and tells each crate's processor seconds.

    tools/gate_times.py            the whole gate, hours on a small machine; writes docs/gate_times.tsv and the table in docs/gate.md
    tools/gate_times.py --cores N  the same on N processors
    tools/gate_times.py --table    measures nothing, and writes the table from docs/gate_times.tsv

Each prover process is looked at twice a second for its processor time (user and system), which is put to its crate: to its proof, its proof
with tests, or its edits. What a process does after its last look isn't told, nor what the gate does itself: the sum at the end has both.
Measure on a quiet machine: a busy one makes the figures larger. Linux only.
"""
import os
import re
import resource
import subprocess
import sys
import tempfile
import threading
import time

TOP = os.path.dirname(os.path.dirname(os.path.abspath(__file__)))
TIMES, PAGE = f"{TOP}/docs/gate_times.tsv", f"{TOP}/docs/gate.md"
TICKS = os.sysconf("SC_CLK_TCK")
PARTS = ("proof", "tests", "edits")


def names_of_crates():
    """The names of all crates, lowest first."""
    with open(f"{TOP}/crates.txt", encoding="utf-8") as file:
        return re.findall(r"^([a-z0-9_]+)\b[^#\n]*:", file.read(), re.M)


def edits_of(name):
    folder = f"{TOP}/crates/{name}/must-fail"
    return len([it for it in os.listdir(folder) if it.endswith(".edit")]) if os.path.isdir(folder) else 0


def processes(room):
    """The prover's processes in that folder now: for each, what tells it from others, its crate, its part of the gate, and its processor seconds."""
    for number in filter(str.isdigit, os.listdir("/proc")):
        try:
            with open(f"/proc/{number}/cmdline", encoding="utf-8", errors="replace") as file:
                words = file.read().split("\0")
            if os.path.basename(words[0]) != "rattle" or "--crate-name" not in words:
                continue
            with open(f"/proc/{number}/stat", encoding="utf-8", errors="replace") as file:
                fields = file.read().rpartition(")")[2].split()
            folder = os.readlink(f"/proc/{number}/cwd")
        except OSError:
            continue
        if not folder.startswith(f"{room}/"):
            continue
        crate = words[words.index("--crate-name") + 1]
        part = "edits" if "rt-edit" in folder else "tests" if "--test" in words else "proof"
        yield (number, fields[19]), crate, part, (int(fields[11]) + int(fields[12])) / TICKS


def measure(cores):
    """Runs the gate, and returns its status, its minutes, its processor minutes and what was seen of each process."""
    seen, ended = {}, threading.Event()

    def look():
        while not ended.wait(0.5):
            for key, crate, part, seconds in processes(room):
                seen[key] = crate, part, seconds

    with tempfile.TemporaryDirectory(prefix="gate-times-") as room:
        # the gate runs programs and tests as nobody, who has to get there
        os.chmod(room, 0o711)
        os.mkdir(f"{room}/edits")
        subprocess.run(["git", "clone", "--quiet", TOP, f"{room}/repository"], check=True)
        looking = threading.Thread(target=look)
        looking.start()
        begun = time.monotonic()
        try:
            limit = (lambda: os.sched_setaffinity(0, sorted(os.sched_getaffinity(0))[:cores])) if cores else None
            there = {"cwd": f"{room}/repository", "env": os.environ | {"TMPDIR": f"{room}/edits"}}
            ran = subprocess.run([".ci/run"], preexec_fn=limit, check=False, **there)
        finally:
            ended.set()
            looking.join()
    used = resource.getrusage(resource.RUSAGE_CHILDREN)
    return ran.returncode, (time.monotonic() - begun) / 60, (used.ru_utime + used.ru_stime) / 60, seen


def write_times(minutes, processor_minutes, cores, seen, is_whole):
    spent = {}
    for crate, part, seconds in seen.values():
        spent[crate, part] = spent.get((crate, part), 0) + seconds
    with open(TIMES, "w", encoding="utf-8") as file:
        whole = "whole" if is_whole else "a part of the"
        print(f"# {time.strftime('%Y-%m-%d', time.gmtime())}\t{cores}\t{minutes:.0f}\t{processor_minutes:.0f}\t{whole}", file=file)
        for name in names_of_crates():
            parts = "\t".join(f"{spent.get((name, part), 0):.0f}" for part in PARTS)
            print(f"{name}\t{parts}\t{edits_of(name)}", file=file)


def table():
    with open(TIMES, encoding="utf-8") as file:
        head, *lines = file.read().splitlines()
    date, cores, minutes, processor_minutes, whole = head[2:].split("\t")
    rows = [line.split("\t") for line in lines]
    sums = [sum(int(row[i]) for row in rows) for i in range(1, 5)]
    if whole == "in parts":
        # (put together by hand, from runs of `rt ci NAME..` side by side)
        said = f"The gate on {date}, on {cores} processors, part by part beside other work: {processor_minutes} processor minutes, {minutes}."
    else:
        said = f"{'The whole' if whole == 'whole' else 'A part of the'} gate on {date}, on {cores} processors: {minutes} minutes, {processor_minutes} processor minutes."
    out = [said, "", "| Crate | Proof | With its tests | Edits | All of its edits |", "|---|---|---|---|---|"]
    out += [f"| `{name}` | {proof} | {tests if tests != '0' else '-'} | {count} | {edits if edits != '0' else '-'} |"
            for name, proof, tests, edits, count in rows]
    out.append(f"| all of these | {sums[0]} | {sums[1]} | {sums[3]} | {sums[2]} |")
    return out


def write_table():
    with open(PAGE, encoding="utf-8") as file:
        page = file.read()
    begin, end = re.search(r"^<!-- table: begin.*\n", page, re.M).end(), page.index("<!-- table: end")
    with open(PAGE, "w", encoding="utf-8") as file:
        file.write(page[:begin] + "\n" + "\n".join(table()) + "\n\n" + page[end:])


def main(words):
    if words != ["--table"]:
        if words and (words[0] != "--cores" or len(words) != 2 or not words[1].isdigit()):
            sys.exit(__doc__)
        cores = int(words[1]) if words else None
        status, minutes, processor_minutes, seen = measure(cores)
        write_times(minutes, processor_minutes, cores or len(os.sched_getaffinity(0)), seen, status == 0)
        if status:
            sys.exit(f"the gate failed with status {status}: docs/gate_times.tsv holds what was seen")
    write_table()


if __name__ == "__main__":
    main(sys.argv[1:])
