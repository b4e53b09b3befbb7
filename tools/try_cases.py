#!/usr/bin/env python3
"""Runs cases (docs/worked-runs.md has their form) on the program raysim, and compares what each writes, its refusal and its status, byte by byte.

    tools/try_cases.py PROGRAM            the cases of all files of crates/worked_runs/data that end in .cases
    tools/try_cases.py PROGRAM FILE..     those of these files

Each case that differs is named, with what was expected and what came. The last line counts the cases, those that differ, and those that the program has no
command for, which are passed over; the status is 1 where one differs, where a line of a file is none of a case, or where a file has no case. The gate tries
all cases by the program `worked_runs`; this needs no proof, and tries any build of `raysim`.
"""
import argparse
import os
import re
import subprocess
import sys
import tempfile
from concurrent.futures import ThreadPoolExecutor

TOP = os.path.dirname(os.path.dirname(os.path.abspath(__file__)))
DATA = f"{TOP}/crates/worked_runs/data"
# a run takes a hundredth of this
SECONDS = 300
SCRIPT, EVENTS, VIEW, HISTORY = "case.ray", "case.ev", "case.view", "case.history"
# what the program has no command for: how a script is printed, and what is told of a limit without its refusal
WITHOUT_COMMAND = ("print", "limit", "limit of a run")
# which commands take events, and which take no cluster
OVER_EVENTS = ("sim", "migrate", "state", "log", "why", "faults")
OVER_SCRIPT = ("check", "serial", "export")
# what is told behind one of these is a view in a file of its own
VIEWS = ("--timeline", "--lineage")
SCRIPTS_OWN = b"# The script.\n"
NUMBER = r"(?:0|[1-9][0-9]*)"


class Case:
    """A command with its script, its cluster and its events, and what has to come of it."""

    def __init__(self, file, line, command, point, functions):
        self.file, self.line, self.command, self.point = file, line, command, point
        self.script, self.events, self.nodes, self.slots = functions, "", 1, 4
        self.wanted = Outcome()

    def add(self, line):
        """Adds a line of a case, and says whether it is one."""
        mark, blank, text = line.partition(" ")
        if not blank:
            return False
        if mark == ">":
            self.script += f"{text}\n"
        elif mark == "@":
            self.events += f"{text}\n"
        elif mark == "=":
            self.wanted.written += f"{text}\n".encode()
        elif mark == "!":
            self.wanted.refusal += text.encode()
        else:
            return self.add_counted(line)
        return True

    def add_counted(self, line):
        """The same of the lines that have a number or quotation marks."""
        if found := re.fullmatch(rf'\+ (?:({NUMBER}) )?"(.*)"', line):
            self.script += found[2] * int(found[1] or 1)
        elif found := re.fullmatch(rf"@\* ({NUMBER}) (.*)", line):
            self.events += f"{found[2]}\n" * int(found[1])
        elif found := re.fullmatch(r'@\+ "(.*)"', line):
            self.events += found[1]
        elif found := re.fullmatch(rf"\* ({NUMBER}) (.*)", line):
            self.wanted.written += f"{found[2]}\n".encode() * int(found[1])
        elif found := re.fullmatch(rf"cluster ({NUMBER}) ({NUMBER})", line):
            self.nodes, self.slots = int(found[1]), int(found[2])
        elif found := re.fullmatch(rf"status ({NUMBER})", line):
            self.wanted.status = int(found[1])
        else:
            return False
        return True


class Outcome:
    """What comes of a command: what it writes, its refusal as one line, empty where there is none, and its status."""

    def __init__(self, written=b"", refusal=b"", status=0):
        self.written, self.refusal, self.status = written, refusal, status


def cases_of(path):
    """The cases of a file, and each line that is none of a case."""
    with open(path, encoding="utf-8", newline="") as file:
        lines = file.read().split("\n")
    cases, bad, functions, case, in_functions = [], [], "", None, False
    for number, line in enumerate(lines, 1):
        if not line or line.startswith("#"):
            continue
        if line == "functions":
            functions, case, in_functions = "", None, True
        elif case and case.add(line):
            continue
        elif in_functions and line.startswith("> "):
            functions += f"{line[2:]}\n"
        elif found := re.fullmatch(r"([a-z][^:]*): (.*)", line):
            case, in_functions = Case(path, number, found[1], found[2], functions), False
            cases.append(case)
        else:
            bad.append(f"{path}: no line of a case: {line}")
    if not cases:
        bad.append(f"{path}: has no case")
    return cases, bad


class Trial:
    """A program that is tried on cases, each in a folder of its own."""

    def __init__(self, program):
        self.program = program

    def run(self, room, words):
        """What comes of these words. Notes are told beside a report, and are no refusal."""
        ran = subprocess.run([self.program, *words], cwd=room, stdin=subprocess.DEVNULL, capture_output=True, timeout=SECONDS, check=False)
        told = [it for it in ran.stderr.splitlines() if not it.startswith(b"note: ")]
        return Outcome(ran.stdout, told[0] if told else b"", ran.returncode), told[1:]

    def outcome_of(self, case):
        """What comes of a case, or nothing where there is no such command."""
        with tempfile.TemporaryDirectory() as room:
            for name, text in ((SCRIPT, case.script), (EVENTS, case.events)):
                with open(f"{room}/{name}", "wb") as file:
                    file.write(text.encode())
            cluster = ["--nodes", str(case.nodes), "--slots", str(case.slots)]
            if found := re.fullmatch(rf"run --threads ({NUMBER})(?: (--history|--books))?", case.command):
                return self.of_threads(room, found[1], found[2], cluster)
            command, is_driven = re.subn(r" of a run$", "", case.command)
            command, is_own = re.subn(r"^script of (?=export )", "", command)
            name, *options = command.split(" ")
            if name != "run" and name not in OVER_EVENTS and name not in OVER_SCRIPT:
                return None
            if name == "faults" and options:
                options = ["--of", *options]
            view = [VIEW] if options[:1] and options[0] in VIEWS else []
            events = [EVENTS] if name in OVER_EVENTS and not is_driven else []
            words = [name, SCRIPT, *events, *options[: len(view)], *view, *options[len(view) :]]
            got, _ = self.run(room, words if name in OVER_SCRIPT else words + cluster)
            if view:
                got.written = read(f"{room}/{VIEW}")
            if is_own:
                got.written = got.written.partition(SCRIPTS_OWN)[2] or got.written
            return got

    def of_threads(self, room, threads, shown, cluster):
        """What comes of a run on threads, whose history has to replay to the same report."""
        got, _ = self.run(room, ["run", SCRIPT, "--threads", threads, "--plan", EVENTS, "--history", HISTORY, *cluster])
        if got.refusal:
            return got
        again, _ = self.run(room, ["sim", SCRIPT, HISTORY, "--books", *cluster])
        report = b"".join(it for it in again.written.splitlines(True) if not it.startswith(b"book "))
        is_same = (report, again.refusal, again.status) == (got.written, b"", got.status)
        if shown == "--history":
            got.written = shown_history(read(f"{room}/{HISTORY}"), int(threads)) + got.written
        elif shown == "--books":
            got.written = again.written
        if not is_same:
            got.written += b"the history replays to another report\n"
        return got


def read(path):
    """The bytes of a file, none where there is no file."""
    if not os.path.exists(path):
        return b""
    with open(path, "rb") as file:
        return file.read()


def shown_history(history, threads):
    """A history without the lines that say of which run it is. Of several threads it is left open which takes which turn, so an S stands for each seat."""
    lines = [it for it in history.splitlines(True) if not it.startswith(b"#")]
    return b"".join(re.sub(rb"^\d+ ", b"S ", it) if threads > 1 else it for it in lines)


def difference(wanted, got):
    """Where two outcomes differ, in lines: the first line, the refusal, the status."""
    told = []
    if wanted.written != got.written:
        first, second = wanted.written.split(b"\n"), got.written.split(b"\n")
        at = next((it for it, (a, b) in enumerate(zip(first, second)) if a != b), min(len(first), len(second)))
        told += [f"  line {at + 1}", f"    expected: {line_at(first, at)}", f"    got:      {line_at(second, at)}"]
    if wanted.refusal != got.refusal:
        told += ["  refusal", f"    expected: {shown(wanted.refusal)}", f"    got:      {shown(got.refusal)}"]
    if wanted.status != got.status:
        told.append(f"  status: expected {wanted.status}, got {got.status}")
    return told


def line_at(lines, at):
    return shown(lines[at]) if at < len(lines) else "nothing more"


def shown(line):
    return line.decode(errors="replace")


def tried(trial, case):
    """What is told of a case: nothing where what comes of it is what it wants."""
    try:
        got = trial.outcome_of(case)
        told = difference(case.wanted, got) if got else ["  there is no such command"]
    except subprocess.TimeoutExpired:
        told = [f"  it had not ended after {SECONDS} seconds"]
    name = f"{case.file} line {case.line}, {case.command}: {case.point}"
    return [name, *told] if told else []


def main():
    words = argparse.ArgumentParser(description="Runs cases on the program raysim, and compares what comes of them.")
    words.add_argument("program", metavar="PROGRAM")
    words.add_argument("files", metavar="FILE", nargs="*", help="files of cases; without one all of crates/worked_runs/data")
    asked = words.parse_args()
    if not os.access(asked.program, os.X_OK):
        sys.exit(f"try_cases: nothing was tried. There is no program {asked.program}")
    trial = Trial(os.path.abspath(asked.program))
    files = asked.files or sorted(f"{DATA}/{it}" for it in os.listdir(DATA) if it.endswith(".cases"))
    count = differ = passed_over = 0
    with ThreadPoolExecutor(len(os.sched_getaffinity(0))) as workers:
        for path in files:
            found, bad = cases_of(os.path.relpath(path))
            cases = [it for it in found if it.command not in WITHOUT_COMMAND]
            told = [[it] for it in bad] + [it for it in workers.map(lambda it: tried(trial, it), cases) if it]
            count, differ, passed_over = count + len(cases), differ + len(told), passed_over + len(found) - len(cases)
            for lines in told:
                print("\n".join(lines), flush=True)
    print(f"{count} cases, {differ} differ, {passed_over} are passed over")
    return 1 if differ or not count else 0


if __name__ == "__main__":
    sys.exit(main())
