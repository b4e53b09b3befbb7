#!/usr/bin/env python3
"""Keeps what the pages show true: every command line on them, with what stands below it.

    tools/pages.py --check      fails where crates/worked_runs/data/pages.cases isn't what the pages say; the gate runs those cases
    tools/pages.py              writes that file
    tools/pages.py PROGRAM      runs every command line of the pages with that program, and compares what it prints

In a page's block of code, a line `$ COMMAND` is run in a folder that has examples/ and benchmarks/, and the lines below it, up to the next such
line or the block's end, are all that it prints, standard error included; where the last of them is `..`, they are its first lines. A command
below which nothing stands isn't compared. A fenced block whose first line says `ray NAME`, `events NAME` or `plan NAME` is a file of that name for
the commands of its page.

A case is made of each command that prints the same every time and writes no file: `check`, `serial`, `run`, `sim`, `migrate`, `log`,
`why` and `state`. Where `run` is refused at a limit, another is made of what stands below the refusal; and where a page shows by `cat` a timeline or a
graph that `sim` wrote, one of that.
Other programs than ./raysim that a page calls, such as printf and sed, make files for these.
"""
import os
import re
import shlex
import shutil
import subprocess
import sys
import tempfile

TOP = os.path.dirname(os.path.dirname(os.path.abspath(__file__)))
# what a page shows of the toolchain, and of the program on files of a reader's own, isn't run here
ELSEWHERE = ("raysim ", "rt ", ".ci/", "tools/", "cd ", "(cd ")
CASES = f"{TOP}/crates/worked_runs/data/pages.cases"
HEAD = """# What the pages of this repository show: each command line with what stands below it there. Made from the pages by tools/pages.py, which the
# gate asks whether it is what they say.
"""
FILE = re.compile(r"(?:ray|events|plan) (\S+)$")
# what a case may say, by the words of the command line
FLAGS = {
    "sim": ("--json", "--books", "--summary"), "run": ("--json", "--summary"), "log": ("--messages", "--full"), "why": ("--full",), "check": (), "serial": (),
    "migrate": (), "state": ("--at",),
}
# what `why` may be asked about
NAMED = re.compile(r"(o\d+\.\d+|w\d+|n\d+)$")


class Block:
    """A block of code: the file that it is, or the command lines that it shows."""

    def __init__(self, name, lines):
        self.name, self.lines = name, lines

    def commands(self):
        """Each command line with the lines below it."""
        found = []
        for line in self.lines:
            if line.startswith("$ "):
                found.append((line[2:], []))
            elif found:
                found[-1][1].append(line)
        for _, shown in found:
            while shown and not shown[-1].strip():
                shown.pop()
        return found


def blocks_of(text):
    """The blocks of code of a page, fenced or set in by four blanks."""
    lines, at = text.split("\n"), 0
    while at < len(lines):
        line = lines[at]
        if line.startswith("```"):
            end = next(it for it in range(at + 1, len(lines)) if lines[it].startswith("```"))
            of_file = FILE.match(line[3:].strip())
            yield Block(of_file and of_file[1], lines[at + 1 : end])
            at = end + 1
        elif line.startswith("    ") and (at == 0 or not lines[at - 1].strip()):
            end = at
            while end < len(lines) and (lines[end].startswith("    ") or not lines[end].strip()):
                end += 1
            yield Block(None, [it[4:] for it in lines[at:end]])
            at = end
        else:
            at += 1


def pages():
    """The pages, by their names from the top."""
    found = sorted(f"docs/{it}" for it in os.listdir(f"{TOP}/docs") if it.endswith(".md"))
    return ["README.md", *found]


class Room:
    """A folder in which a page's commands are run."""

    def __init__(self, program):
        self.program = program

    def __enter__(self):
        self.at = tempfile.mkdtemp(prefix="pages-")
        for name in ("examples", "benchmarks"):
            shutil.copytree(f"{TOP}/{name}", f"{self.at}/{name}")
        return self

    def __exit__(self, *_):
        shutil.rmtree(self.at, ignore_errors=True)

    def path(self, name):
        return os.path.join(self.at, name)

    def read(self, name):
        with open(self.path(name), encoding="ascii") as file:
            return file.read()

    def write(self, name, lines):
        with open(self.path(name), "w", encoding="ascii") as file:
            file.write("".join(f"{it}\n" for it in lines))

    def run(self, command):
        """What the command prints."""
        if self.program:
            command = re.sub(r"\./raysim\b", lambda _: shlex.quote(self.program), command)
        ran = subprocess.run(["bash", "-c", command], cwd=self.at, stdin=subprocess.DEVNULL, stdout=subprocess.PIPE, stderr=subprocess.STDOUT, check=False)
        return ran.stdout.decode(errors="replace").splitlines()


class Words:
    """A command line of the program, read."""

    def __init__(self, words):
        self.files, self.options = [], {}
        words = iter(words)
        self.command = next(words, "")
        for word in words:
            if word in ("--nodes", "--slots", "--threads", "--plan", "--history", "--timeline", "--lineage", "--page", "--at"):
                self.options[word] = next(words, "")
            elif word.startswith("--"):
                self.options[word] = None
            else:
                self.files.append(word)


def status_of(shown):
    """The status, by what is said of main's end."""
    if re.match(r"refused \d", shown[0]):
        return 1
    if re.match(r"refused \d", shown[-1]) and not any(it.startswith("main ") for it in shown):
        return 1
    said = "\n".join(shown)
    if re.search(r'^main (fault|open)|"end":"(fault|open)"|^Main (is open|ended with a fault)', said, re.M):
        return 2
    return 1 if re.search(r'^main trap|"end":"trap"|^Main ended in .*: trap', said, re.M) else 0


def case_of(place, line, shown, room, statuses):
    """The case of a command line, or nothing where no case can say it. `statuses` has those of the page's runs so far: a log, and why an object is
    as it is, end with the status of the run that they tell, which the page shows before them where it isn't 0."""
    words = shlex.split(line)
    if words[:1] != ["./raysim"] or not shown or shown[-1] == ".." or any(it in line for it in "|<>;&"):
        return None
    asked = Words(words[1:])
    plain = {it for it in asked.options if it not in ("--nodes", "--slots")}
    if asked.command not in FLAGS or not plain <= set(FLAGS[asked.command]):
        return None
    files = list(asked.files)
    full = " --full" if "--full" in plain else ""
    name = " ".join([asked.command, *sorted(plain - {"--full"})])
    script, events = room.read(files.pop(0)), ""
    is_driven = asked.command in ("log", "why") and (not files or len(files) == 1 and NAMED.match(files[0]))
    if asked.command in ("sim", "migrate", "why", "state", "log") and not is_driven:
        events = room.read(files.pop(0))
    if "--at" in asked.options:
        name += f" {asked.options['--at']}"
    is_of_object = asked.command == "why" and bool(files)
    if is_of_object:
        name += f" {files.pop(0)}"
    name += f"{full} of a run" if is_driven else full
    nodes, slots = asked.options.get("--nodes", "1"), asked.options.get("--slots", "4")
    run = script, events, nodes, slots
    if asked.command == "state" and "w1: a1.0#0 (main) ended" not in shown:
        status = 2
    elif asked.command in ("log", "state") or is_of_object:
        status = statuses.get(run, 0)
    else:
        status = statuses[run] = status_of(shown)
    if status == 1 and shown[0].startswith("refused 37") and len(shown) > 1:
        told = case_lines(f"limit of a run: {place}", run, shown[1:], [], 2)
        return [*case_lines(f"{name}: {place}", run, [], shown[:1], 1), "", *told]
    refused = shown[-1:] if status == 1 and shown[-1].startswith("refused ") else []
    return case_lines(f"{name}: {place}", run, shown[: len(shown) - len(refused)], refused, status)


def case_lines(head, run, written, refused, status):
    """The lines of a case: its head, its script, events and cluster, what is written and refused, and the status."""
    script, events, nodes, slots = run
    lines = [head]
    lines += [f"> {it}" for it in script.splitlines()]
    lines += [] if (nodes, slots) == ("1", "4") else [f"cluster {nodes} {slots}"]
    lines += [f"@ {it}" for it in events.splitlines()]
    lines += [f"= {it}" for it in written]
    lines += [f"! {it}" for it in refused]
    return lines + ([f"status {status}"] if status else [])


def views_of(line, room):
    """The files to which a command line of `sim` writes other views of its run, each with the name of its case and with the run."""
    words = shlex.split(line.split(">")[0])
    asked = Words(words[1:]) if words[:1] == ["./raysim"] else None
    if not asked or asked.command != "sim":
        return {}
    run = room.read(asked.files[0]), room.read(asked.files[1]), asked.options.get("--nodes", "1"), asked.options.get("--slots", "4")
    return {asked.options[it]: (f"sim {it}", run) for it in ("--timeline", "--lineage") if it in asked.options}


def case_of_view(place, line, shown, views):
    """The case of a `cat` of such a file, and nothing of another command. The end of main is that of a value."""
    words = line.split()
    if not shown or words[:1] != ["cat"] or words[1:] == [] or words[1] not in views:
        return None
    name, run = views[words[1]]
    return case_lines(f"{name}: {place}", run, shown, [], 0)


def steps(page, room):
    """Goes through a page's blocks: makes its files, and gives each command line with what stands below it."""
    with open(f"{TOP}/{page}", encoding="utf-8") as file:
        text = file.read()
    number = 0
    for block in blocks_of(text):
        if block.name:
            room.write(block.name, block.lines)
            continue
        for line, shown in block.commands():
            number += 1
            yield f"{page}, command {number}", line, shown


def cases():
    """The text of the file of cases."""
    out = [HEAD]
    for page in pages():
        statuses, views = {}, {}
        with Room(None) as room:
            for place, line, shown in steps(page, room):
                if line.startswith(ELSEWHERE):
                    continue
                if not line.startswith("./raysim"):
                    case = case_of_view(place, line, shown, views)
                    if case:
                        out.append("\n".join(case) + "\n")
                    else:
                        room.run(line)
                    continue
                try:
                    views.update(views_of(line, room))
                    case = case_of(place, line, shown, room, statuses)
                except FileNotFoundError:
                    # (a file that the program writes, and no case has)
                    continue
                if case:
                    out.append("\n".join(case) + "\n")
    return "\n".join(out)


def compare(program):
    """Runs the pages' commands, and says how many printed something else."""
    count = differ = 0
    for page in pages():
        with Room(os.path.abspath(program)) as room:
            for place, line, shown in steps(page, room):
                if line.startswith(ELSEWHERE):
                    continue
                printed = room.run(line)
                if not shown:
                    continue
                count += 1
                wanted = shown
                if shown[-1] == "..":
                    wanted, printed = shown[:-1], printed[: len(shown) - 1]
                if [it.rstrip() for it in wanted] != [it.rstrip() for it in printed]:
                    differ += 1
                    at = next((i for i, (a, b) in enumerate(zip(wanted, printed)) if a != b), min(len(wanted), len(printed)))
                    print(f"{place}: $ {line}\n  line {at + 1} is to be   {wanted[at] if at < len(wanted) else '(no more)'}")
                    print(f"  and was          {printed[at] if at < len(printed) else '(no more)'}")
    print(f"{count} command lines, {differ} differ")
    return 1 if differ else 0


def main(words):
    if words == ["--check"]:
        with open(CASES, encoding="utf-8") as file:
            if file.read() != cases():
                sys.exit("crates/worked_runs/data/pages.cases isn't what the pages say: run tools/pages.py, and look at what it changes")
        return 0
    if not words:
        text = cases()
        with open(CASES, "w", encoding="utf-8") as file:
            file.write(text)
        print(f"{text.count(chr(10) + chr(10))} cases")
        return 0
    if len(words) > 1 or words[0].startswith("-"):
        sys.exit(__doc__)
    return compare(words[0])


if __name__ == "__main__":
    sys.exit(main(sys.argv[1:]))
