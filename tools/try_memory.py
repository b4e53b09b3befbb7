#!/usr/bin/env python3
"""Tries the program raysim where memory is refused: tools/try_memory.py PROGRAM [--gate].

Runs are made again and again: the first time with the first growth refused that the program asks for, then with the second, until a run is refused none; and
so once more with that growth and all behind it refused. Each run must end as the run does that is refused nothing, byte by byte and with its status, or with
`refused 39`, status 1 and nothing written. An older file is whole, as it was or as it is to be. The last line counts the runs and those that differ; the
status is 1 where one does.

Tried are the rows of crates/worked_runs/data/rows.faults by `sim`, and three of them by `run`, `why`, `log`, with pictures and with a history. With --gate
it is six cases of crates/worked_runs/data, whose reports were worked out by hand: where nothing is refused, the run writes that report.

Memory is refused by a library that is loaded before the C library and counts the calls that ask it for memory. It is compiled by the toolchain's own
compiler, which stands beside the command rt, or where there is none by cc. Linux only.
"""
import os
import shutil
import subprocess
import sys
import tempfile
from concurrent.futures import ThreadPoolExecutor

TOP = os.path.dirname(os.path.dirname(os.path.abspath(__file__)))
CASES = f"{TOP}/crates/worked_runs/data"
ROWS = f"{CASES}/rows.faults"
REFUSED = b"refused 39\n"
# behind so many refusals a run would have asked for memory without end
MOST = 20_000
# a case in which fewer runs meet a refusal than so many was not tried: the program asks another than this library
LEAST = 200
# a run takes a hundredth of this
SECONDS = 60
# what the gate tries: the file and the name of each case, and the words behind the script and the events
GATE = [
    ("row 1", "sim.cases", "sim: each event of a task told by itself", []),
    ("row 8", "sim.cases", "sim: the only attempt dies with its worker", []),
    ("row 10", "sim.cases", "sim: a node dies, and a chain of three tasks is made again", []),
    ("row 13", "sim.cases", "sim: the Hold comes late, and more than once", []),
    ("row 1", "runs.cases", "run: a square is got and printed", []),
    ("row 16", "threads.cases", "run --threads 2: two squares", ["--threads", "2"]),
]
LIBRARY = r"""
typedef unsigned long size_t;

extern void *__libc_malloc(size_t), *__libc_calloc(size_t, size_t), *__libc_realloc(void *, size_t), *__libc_memalign(size_t, size_t);
extern char *getenv(const char *);
extern unsigned long strtoul(const char *, char **, int);
extern long write(int, const void *, size_t);
extern void _exit(int);
extern int *__errno_location(void);

enum { NO_MEMORY = 12 };
static unsigned long first, last, asked;
static int told = -1;

__attribute__((constructor)) static void begin(void) {
    const char *from = getenv("REFUSED_FROM"), *to = getenv("REFUSED_TO"), *tell = getenv("REFUSED_TOLD");
    if (!from || !to || !tell) return;
    last = strtoul(to, 0, 10), told = (int)strtoul(tell, 0, 10), asked = 0, first = strtoul(from, 0, 10);
}

/* Whether this call is refused; the first that is, is told. */
static int refuses(void) {
    unsigned long number;
    if (!first) return 0;
    number = __atomic_add_fetch(&asked, 1, __ATOMIC_SEQ_CST);
    if (number < first || last < number) return 0;
    if (number == first && write(told, "x", 1) != 1) _exit(99);
    *__errno_location() = NO_MEMORY;
    return 1;
}

void *malloc(size_t size) { return refuses() ? 0 : __libc_malloc(size); }
void *calloc(size_t count, size_t size) { return refuses() ? 0 : __libc_calloc(count, size); }
void *realloc(void *block, size_t size) { return refuses() ? 0 : __libc_realloc(block, size); }
void *aligned_alloc(size_t to, size_t size) { return refuses() ? 0 : __libc_memalign(to, size); }
void *memalign(size_t to, size_t size) { return refuses() ? 0 : __libc_memalign(to, size); }
int posix_memalign(void **block, size_t to, size_t size) {
    if (refuses()) return NO_MEMORY;
    *block = __libc_memalign(to, size);
    return *block ? 0 : NO_MEMORY;
}
"""


def build(room):
    """Compiles the library that refuses memory; gives its path. It takes nothing from a header, and is linked to nothing."""
    source, made, library = f"{room}/refusing.c", f"{room}/refusing.o", f"{room}/refusing.so"
    with open(source, "w", encoding="utf-8") as file:
        file.write(LIBRARY)
    flags = ["-O1", "-fPIC", "-ffreestanding", "-fno-builtin"]
    tool = shutil.which("rt")
    kit = f"{os.path.dirname(os.path.dirname(os.path.realpath(tool)))}/toolchain/bin" if tool else ""
    if os.access(f"{kit}/clang", os.X_OK) and os.access(f"{kit}/ld.lld", os.X_OK):
        steps = [[f"{kit}/clang", "--target=x86_64-unknown-linux-gnu", "--no-default-config", *flags, "-c", source, "-o", made],
                 [f"{kit}/ld.lld", "-shared", made, "-o", library]]
    elif shutil.which("cc"):
        steps = [["cc", *flags, "-fno-stack-protector", "-nostdlib", "-shared", source, "-o", library]]
    else:
        sys.exit("try_memory: nothing was tried. A library is compiled that refuses memory, and there is no compiler of C: neither that of the toolchain, in "
                 "toolchain/bin beside the folder of the command rt, nor the command cc")
    for step in steps:
        ran = subprocess.run(step, capture_output=True, text=True, errors="replace", check=False)
        if ran.returncode:
            sys.exit(f"try_memory: nothing was tried. {step[0]} did not make the library that refuses memory: {(ran.stderr or ran.stdout)[-600:]}")
    return library


def rows():
    """The rows by their names: the script, the events, and the words that say the cluster."""
    found, head, row = {}, [], None
    with open(ROWS, encoding="utf-8") as file:
        for line in file.read().splitlines():
            if line.startswith("row "):
                row = found[line[4:]] = ([], [], [])
            elif line.startswith("> "):
                (row[0] if row else head).append(line[2:])
            elif line.startswith("@ "):
                row[1].append(line[2:])
            elif line.startswith("cluster "):
                nodes, slots = line.split()[1:]
                row[2].extend(["--nodes", nodes, "--slots", slots])
    return {name: ("\n".join(head + script) + "\n", "\n".join(events) + "\n", cluster) for name, (script, events, cluster) in found.items()}


def worked(name, wanted):
    """A worked run of this name: the script, the events, the words that say the cluster, and the status and the report that it ends with."""
    head, script, events, cluster, report, status, here, is_head = [], [], [], [], [], 0, False, False
    with open(f"{CASES}/{name}", encoding="utf-8") as file:
        for line in file.read().splitlines():
            if line and line[0] not in "#>@=!+*" and not line.startswith(("status ", "cluster ")):
                if here:
                    break
                here, is_head = line == wanted, line == "functions"
                head = [] if is_head else head
            elif is_head and line.startswith("> "):
                head.append(line[2:])
            elif here and line.startswith("> "):
                script.append(line[2:])
            elif here and line.startswith("@ "):
                events.append(line[2:])
            elif here and line.startswith("= "):
                report.append(line[2:])
            elif here and line.startswith("status "):
                status = int(line.split()[1])
            elif here and line.startswith("cluster "):
                cluster = [it for pair in zip(("--nodes", "--slots"), line.split()[1:]) for it in pair]
            elif here and line and not line.startswith("#"):
                sys.exit(f"try_memory: nothing was tried. The case {wanted!r} of {name} has a line that is not read here: {line}")
    if not report:
        sys.exit(f"try_memory: nothing was tried. {name} has no case {wanted!r} with a report")
    text = lambda lines: "".join(f"{it}\n" for it in lines)
    return text(head + script), text(events), cluster, (status, text(report).encode(), b"")


def cases():
    """Each command: its name, the words, the script, the events, which files it writes, and how it ends where that was worked out."""
    for name, (script, events, cluster) in rows().items():
        yield f"row {name}, sim", ["sim", "script", "events", *cluster], script, events, [], None
    for name in ("1", "10", "16"):
        script, events, cluster = rows()[name]
        yield f"row {name}, run", ["run", "script", *cluster], script, events, [], None
        yield f"row {name}, why", ["why", "script", "events", *cluster], script, events, [], None
        yield f"row {name}, log", ["log", "script", "events", "--messages", *cluster], script, events, [], None
    script, events, cluster = rows()["1"]
    yield "row 1, json", ["sim", "script", "events", "--json"], script, events, [], None
    yield "row 1, faults", ["faults", "script", "events", "--most", "2"], script, events, [], None
    yield "row 1, pictures", ["run", "script", "--timeline", "old", "--lineage", "new"], script, events, ["old", "new"], None
    yield "row 1, page", ["sim", "script", "events", "--page", "new"], script, events, ["new"], None
    yield "a script that is refused", ["check", "script", "--explain"], "fn main() -> int { return y; }\n", "", [], None
    yield "help", ["run", "--help"], "", "", [], None


def gate_cases():
    """What the gate tries, as `cases` gives it."""
    for row, file, name, more in GATE:
        script, events, cluster, wanted = worked(file, name)
        command = file[:3] if file == "sim.cases" else "run"
        words = [command, "script", *(["events"] if command == "sim" else []), *cluster, *more]
        yield f"{row}, {' '.join([command, *more])}", words, script, events, [], wanted


class Case:
    """A command that is run again and again, in a folder of its own."""

    def __init__(self, program, library, room, name, words, script, events, writes, wanted):
        self.program, self.library, self.room, self.name, self.words = program, library, room, name, words
        self.script, self.events, self.writes, self.wanted = script, events, writes, wanted
        self.lines, self.runs, self.differ = [], 0, 0

    def run(self, first, last):
        """Runs the program; gives the status, both outputs, the files, and whether a growth was refused."""
        for name, text in (("script", self.script), ("events", self.events), ("old", "old\n")):
            with open(f"{self.room}/{name}", "w", encoding="utf-8") as file:
                file.write(text)
        if os.path.exists(f"{self.room}/new"):
            os.remove(f"{self.room}/new")
        told, tell = os.pipe()
        limits = {"LD_PRELOAD": self.library, "REFUSED_FROM": str(first), "REFUSED_TO": str(last), "REFUSED_TOLD": str(tell)}
        try:
            ran = subprocess.run([self.program, *self.words], cwd=self.room, stdin=subprocess.DEVNULL, capture_output=True, check=False,
                                 timeout=SECONDS, env=os.environ | limits, pass_fds=[tell])
            ended = ran.returncode, ran.stdout, ran.stderr
        except subprocess.TimeoutExpired:
            ended = None, b"", f"it had not ended after {SECONDS} seconds".encode()
        os.close(tell)
        was_refused = os.read(told, 1) == b"x"
        os.close(told)
        files = {}
        for name in ("old", "new"):
            if os.path.exists(f"{self.room}/{name}"):
                with open(f"{self.room}/{name}", "rb") as file:
                    files[name] = file.read()
        return ended, files, was_refused

    def is_fit(self, ended, files, whole, whole_files):
        """Whether a run that was refused memory ended as it may."""
        status, out, said = ended
        if any(files.get(it) not in ({"old": b"old\n"}.get(it), whole_files.get(it)) for it in ("old", "new")):
            return False
        if ended == whole:
            return files == whole_files
        if not self.writes:
            return (status, out, said) == (1, b"", REFUSED)
        # the report is out before its pictures are written, and the program tells which of them aren't
        return status == 1 and out in (b"", whole[1]) and REFUSED in said

    def differs(self, why):
        self.differ += 1
        self.lines.append(f"differs: {self.name}: {why}")

    def tried(self):
        """Refuses each growth in turn; gives the case."""
        whole, whole_files, _ = self.run(0, 0)
        if whole != (self.wanted or whole):
            self.differs(f"with nothing refused it ends with {whole!r:.600}, not with {self.wanted!r:.600}")
        for to_end in (False, True):
            for number in range(1, MOST):
                ended, files, was_refused = self.run(number, 2**63 if to_end else number)
                if not was_refused:
                    if number <= (LEAST if self.wanted else 1):
                        self.differs(f"only {number - 1} growths were refused")
                    break
                self.runs += 1
                if not self.is_fit(ended, files, whole, whole_files):
                    self.differs(f"growth {number} {'and all behind it' if to_end else ''} refused: {ended!r:.400} {files!r:.200}")
                    if ended[0] is None:
                        break
            else:
                self.differs(f"more than {MOST} growths")
        self.lines.append(f"{self.name}: {self.runs} runs with a growth refused, {self.differ} differ")
        return self


def main(words):
    if len(words) not in (1, 2) or words[1:] not in ([], ["--gate"]):
        sys.exit(__doc__)
    if not os.access(words[0], os.X_OK):
        sys.exit(f"try_memory: nothing was tried. There is no program {words[0]}")
    with open(words[0], "rb") as file:
        if b"__asan_init" in file.read():
            sys.exit("this program watches each access to memory, and has an allocator of its own: build one that doesn't (./raysim does, where it can)")
    with tempfile.TemporaryDirectory(prefix="try-memory-") as room:
        library, program = build(room), os.path.realpath(words[0])
        probe = subprocess.run([program, "explain", "39"], capture_output=True, check=False, env=os.environ | {"LD_PRELOAD": library})
        if probe.returncode or probe.stderr:
            sys.exit(f"try_memory: nothing was tried. The program doesn't run with the library that refuses memory: {probe.stderr[:600]!r}")
        with ThreadPoolExecutor(len(os.sched_getaffinity(0))) as pool:
            cast = []
            for number, case in enumerate(gate_cases() if words[1:] else cases()):
                os.mkdir(f"{room}/{number}")
                cast.append(pool.submit(Case(program, library, f"{room}/{number}", *case).tried))
            runs = differ = 0
            for it in cast:
                case = it.result()
                print("\n".join(case.lines), flush=True)
                runs, differ = runs + case.runs, differ + case.differ
    print(f"{runs} runs with a growth refused, {differ} differ")
    sys.exit(1 if differ else 0)


if __name__ == "__main__":
    main(sys.argv[1:])
