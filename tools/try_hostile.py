#!/usr/bin/env python3
"""Tries hostile texts on the program raysim: tools/try_hostile.py PROGRAM [--gate]. Each run has 64 MB of address space at most: the program itself, its
libraries, its stacks and all else that it maps are counted. Inputs without end are refused, or read for as long as they are good; random bytes, and good texts
with one byte turned, are answered by a report or by a refusal. The last line counts the runs and the bytes; the status is 1 where one was answered otherwise.
With --gate it is the inputs without end of check, sim and run, and four thousand texts; without it those of each command, and eight thousand."""
import os
import random
import re
import shutil
import signal
import subprocess
import sys
import tempfile
import threading
from concurrent.futures import ThreadPoolExecutor

MEMORY = 64 << 20
# so much is read of an input that is good without end: kept, it would not have room
ENOUGH = 96 << 20
# a run takes some seconds at most on a quiet machine
SECONDS = 120
# through each parser go so many texts of random bytes, of so many bytes each, and as many good ones with a byte turned; and where the gate asks
TEXTS, GATE_TEXTS = (1000, 10_000), (500, 20_000)
# stacks of threads are as large as these words say, and count
LIMITED = ["sh", "-c", f'ulimit -S -s 8192 2> /dev/null; ulimit -v {MEMORY >> 10} || exit 99; exec "$@"', ""]
SCRIPT = b"fn sq(x: int) -> int { return x * x; }\nfn main() -> int { let r = remote sq(7); print get r; return 0; }\n"
REPORT = b"print 49\nmain value 0\nattempt a1.1#0 w2 accepted\nreleased o1.1\n"
PLAIN = (b"claim 1\ncommit 1\ndeliver 1\ndeliver 2\nsettle but 2 3\ntick 2\n# none\n\nnotice 1 2\nnotice-node 1 1\nevict 1 o1.1\n"
         b"lose 2 o1.1\nkill 2\nkill-node 2\njoin\nsettle\n")
RECORDED = b"raysim 2\n0 claim 1 1\n0 commit 1\n0 deliver 1\n8 deliver 2\n# none\n\n0 deliver 3\n3 claim 2 2\n0 tick 1\n0 notice 1 2\n0 lose 1 o1.1\n0 join\n"
PLAN = b"0 tick 1\n1 notice 1 2\n# none\n\n2 lose 1 o1.1\n2 kill 2\n3 kill-node 2\n3 join\n"
LIMIT = b"refused 41\nlimit: 100,000 events, those of settle lines counted\n"
REMEDY = b"what to do: leave out lines of which nothing comes, or give each task more to do: each takes some ten events\n"
TOO_LONG = LIMIT + REMEDY
# and where the file itself is longer than is kept
SETTLES_TOO_LONG = (b"refused 41\nlimit: 1,048,576 bytes of settle lines in all, their line feeds not counted\n"
                    b"what to do: leave out settle lines that stand for nothing, and name each worker once\n")
PLAN_TOO_LONG = b"refused 41\nlimit: 262,144 lines of a plan that say something\nwhat to do: leave out lines of which nothing comes\n"
REFUSED = {b"refused 39\n", TOO_LONG, SETTLES_TOO_LONG, PLAN_TOO_LONG, b"refused 50\n"}
STOPPED = re.compile(re.escape(LIMIT) + rb"the last step was in event 100000 \(.*\)\n" + re.escape(REMEDY))


def too_long(line):
    """What is told where a tick in this line was the last of 100,000 events, and more came."""
    return LIMIT + b"the last step was in event 100000 (tick 1, line %d)\n" % line + REMEDY


AT_LINE = re.compile(rb"refused 4[02] line \d+\n")
AT_BYTES = re.compile(rb"refused ([1-4]|1[0-8]) at \d+\.\.\d+\n")

# Inputs without end: the words, what is read again and again behind what, and what is told; nothing where it is read for as long as it comes.
SETTLES = b"settle but" + b" 7" * 2048
ENDLESS = [
    ("check /dev/zero", None, None, b"refused 4 at 0..0\n"),
    ("run /dev/zero", None, None, b"refused 4 at 0..0\n"),
    ("sim /dev/zero sq.ray", None, None, b"refused 4 at 0..0\n"),
    ("sim sq.ray /dev/zero", None, None, b"refused 40 line 1\n"),
    ("run sq.ray --plan /dev/zero", None, None, b"refused 40 line 1\n"),
    ("check F", b"", None, b"refused 4 at 0..0\n"),
    ("check F", b"", b"# none\n", b"refused 4 at 0..0\n"),
    ("check F", b"", b"fn f() -> int { return 1; }\n", b"refused 4 at 0..0\n"),
    ("serial F", b"", b"# none\n", b"refused 4 at 0..0\n"),
    ("run F", b"", b" ", b"refused 4 at 0..0\n"),
    ("run F --threads 2", b"", None, b"refused 4 at 0..0\n"),
    ("sim F sq.ray", b"", b"f", b"refused 4 at 0..0\n"),
    ("log F", b"", b"f", b"refused 4 at 0..0\n"),
    ("export F --to dask", b"", b"f", b"refused 4 at 0..0\n"),
]
for words in ("sim sq.ray F", "log sq.ray F", "why sq.ray F", "why sq.ray F o1.1", "state sq.ray F", "migrate sq.ray F", "faults sq.ray F"):
    ENDLESS += [
        (words, b"", None, b"refused 40 line 1\n"),
        (words, b"", b"a", b"refused 40 line 1\n"),
        (words, b"tick 1\n# none\n", b"tick 1", b"refused 40 line 3\n"),
        (words, b"settle but 1", b" x", SETTLES_TOO_LONG),
        (words, b"settle but 1", b" 7", SETTLES_TOO_LONG),
        (words, b"", b"settle\n", SETTLES_TOO_LONG),
        (words, b"", SETTLES + b"\n", SETTLES_TOO_LONG),
        (words, b"", b"tick 1\n", None),
        (words, b"", b"\n", None),
        (words, b"", b"# none\n", None),
        (words, b"#", b"none", None),
    ]
for words in ("sim sq.ray F", "log sq.ray F", "why sq.ray F", "state sq.ray F", "faults sq.ray F"):
    ENDLESS += [
        (words, b"raysim 2\n", None, b"refused 40 line 2\n"),
        (words, b"raysim 2\n0 tick 1\n", b"0 tick 1", b"refused 40 line 3\n"),
        (words, b"raysim 2\n", b"0 tick 1\n", None),
        (words, b"raysim 2\n", b"0 claim 1 7\n", None),
    ]
ENDLESS += [
    ("run sq.ray --plan F", b"", None, b"refused 40 line 1\n"),
    ("run sq.ray --plan F", b"1 tick 1\n", b"1", b"refused 40 line 2\n"),
    ("run sq.ray --plan F", b"", b"1 tick 1\n", PLAN_TOO_LONG),
    ("run sq.ray --plan F", b"", b"# none\n", None),
]

# Files with an end: what is told of them. The second and the third have as many bytes of settle lines as are kept, the last as many lines of a plan.
GOOD = b"tick 1\n" * 100001
SETTLED = b"settle\n" * 174760 + b"settle but 1 2 3\n"
ONE_SETTLE = b"settle but" + b" 7" * 524283 + b"\n"
PLANNED = b"0 tick 1\n" * 262144
LONG = [
    ("sim sq.ray F", GOOD, too_long(100000)),
    ("sim sq.ray F", GOOD + b"kill 1\n" * 1000, too_long(100000)),
    ("sim sq.ray F", GOOD + b"kill w2\n", b"refused 40 line 100002\n"),
    ("sim sq.ray F", GOOD + b"# none\n\nkill 2", b"refused 40 line 100004\n"),
    ("migrate sq.ray F", GOOD + b"\n", too_long(100000)),
    ("sim sq.ray F", b"raysim 2\n" + b"0 tick 1\n" * 100001, too_long(100001)),
    ("sim sq.ray F", b"raysim 2\n" + b"0 tick 1\n" * 100001 + b"settle\n", b"refused 40 line 100003\n"),
    ("sim sq.ray F", b"raysim 2\n# none\n0 claim 1 7\n" + b"0 tick 1\n" * 100001, b"refused 42 line 3\n"),
    ("sim sq.ray F", b"raysim 2\n0 claim 1 7\n" + b"0 tick 1\n" * 100001 + b"1", b"refused 40 line 100004\n"),
    ("sim sq.ray F", SETTLED + b"kill w2\n", b"refused 40 line 174762\n"),
    ("sim sq.ray F", SETTLED + b"tick 1\nsettle\nkill w2\n", SETTLES_TOO_LONG),
    ("sim sq.ray F", ONE_SETTLE + b"kill w2\n", b"refused 40 line 2\n"),
    ("sim sq.ray F", ONE_SETTLE[:-1] + b" 7\n", SETTLES_TOO_LONG),
    ("migrate sq.ray F", ONE_SETTLE + b"settle\n", SETTLES_TOO_LONG),
    ("run sq.ray --plan F", PLANNED + b"# none\n\nkill 2\n", b"refused 40 line 262147\n"),
    ("run sq.ray --plan F", PLANNED + b"# none\n\n2 kill 2\nkill 2\n", PLAN_TOO_LONG),
]


def flow(pipe, front, part):
    """Writes what stands in front and then the part again and again, zero bytes where there is none, until enough was read or nobody reads; says which."""
    part = (part or b"\0") * max(1, 65536 // len(part or b"\0"))
    try:
        pipe.write(front)
        for _ in range(ENOUGH // len(part) + 1):
            pipe.write(part)
        pipe.flush()
        return True
    except BrokenPipeError:
        return False


def end(run):
    """Ends a run, and whatever it began, if it hasn't ended."""
    if run.returncode is None:
        try:
            os.killpg(run.pid, signal.SIGKILL)
        except ProcessLookupError:
            pass


def endless(program, words, front, part, told):
    """What is wrong with a run on such an input, if anything."""
    args = [*LIMITED, program] + [{"F": "/dev/stdin"}.get(word, word) for word in words.split()]
    run = subprocess.Popen(args, stdin=subprocess.PIPE, stdout=subprocess.PIPE, stderr=subprocess.PIPE, bufsize=0, start_new_session=True)
    # a run that neither reads nor ends is ended, so that nobody waits for it
    watch = threading.Timer(SECONDS, end, [run])
    watch.start()
    try:
        reads_on = front is not None and flow(run.stdin, front, part)
        if reads_on and told is None:
            return None if run.poll() is None else f"ended with status {run.returncode}"
        if reads_on:
            return "is read on"
        status, said, wrote = run.wait(), run.stderr.read(), run.stdout.read()
        if status < 0:
            return f"it had not ended after {SECONDS} seconds, or was ended by signal {-status}"
        return None if (status, said, wrote) == (1, told, b"") else f"status {status}, {said[:200]!r}, {wrote[:80]!r}"
    finally:
        watch.cancel()
        end(run)
        run.wait()
        for it in (run.stdin, run.stdout, run.stderr):
            it.close()


def answered(program, words, text):
    """What is wrong with a run on this text, if anything, and the run."""
    with tempfile.NamedTemporaryFile(dir=".", prefix="text-") as file:
        file.write(text)
        file.flush()
        args = [{"F": file.name}.get(word, word) for word in words.split()]
        try:
            done = subprocess.run([*LIMITED, program, *args], stdin=subprocess.DEVNULL, capture_output=True, timeout=SECONDS, check=False)
        except subprocess.TimeoutExpired:
            return f"it had not ended after {SECONDS} seconds", None
    if done.returncode in (0, 1, 2) and not done.stderr and done.stdout:
        return None, done
    refused = done.stderr in REFUSED or STOPPED.fullmatch(done.stderr) or AT_LINE.fullmatch(done.stderr) or AT_BYTES.fullmatch(done.stderr)
    if done.returncode == 1 and refused and not done.stdout:
        return None, done
    return f"status {done.returncode}, {done.stderr[:200]!r}, {done.stdout[:80]!r}", done


def refused(program, words, text, told):
    """What is wrong with a run on this text that has to be refused so, if anything."""
    what, done = answered(program, words, text)
    return what or (None if done.stderr == told else repr(done.stderr))


def turned(dice, text):
    """The text with one byte turned into another, left out, or put in."""
    at = dice.randrange(len(text))
    byte = bytes([dice.choice([dice.randrange(256), *text[:256]])])
    return dice.choice([text[:at] + byte + text[at + 1:], text[:at] + text[at + 1:], text[:at] + byte + text[at:]])


def texts_of(dice, scripts, count, size):
    """Each text with the words of its run, and whether it is a good one with a byte turned."""
    kinds = [("check F", scripts), ("sim sq.ray F", [PLAIN]), ("sim sq.ray F", [RECORDED]), ("run sq.ray --plan F --threads 1", [PLAN])]
    for words, good in kinds:
        front = b"raysim 2\n" if good == [RECORDED] else b""
        for _ in range(count):
            yield words, front + dice.randbytes(size), False
        for _ in range(count):
            yield words, turned(dice, dice.choice(good)), True


def unable():
    """Why nothing can be tried here, if so: the limit has to refuse a block of twice its size to whoever asks for one."""
    lacking = [it for it in ("/dev/zero", "/proc/self/fd") if not os.path.exists(it)] + [it for it in ("sh", "dd") if not shutil.which(it)]
    if lacking:
        return f"There is no {lacking[0]}"
    large = ["dd", "if=/dev/zero", "of=/dev/null", f"bs={2 * MEMORY}", "count=1"]
    free, held = (subprocess.run(it, stdin=subprocess.DEVNULL, capture_output=True, check=False) for it in (large, [*LIMITED, *large]))
    if free.returncode or held.returncode in (0, 99):
        return f"A process can't be held to {MEMORY >> 20} MB here: {(free.stderr if free.returncode else held.stderr)[:300]!r}"
    return None


class Trial:
    """The program, and what came of its runs."""

    def __init__(self, program, pool):
        self.program, self.pool = program, pool
        self.runs = self.wrong = self.count = self.reports = 0

    def tell(self, what, words, text):
        self.runs += 1
        if what:
            self.wrong += 1
            print(f"{words} on {text[:60]!r}: {what}", flush=True)

    def inputs(self, is_gate):
        """Inputs without end, and long ones."""
        cases = [it for it in ENDLESS if not is_gate or it[0].split()[0] in ("check", "sim", "run")]
        long = [it for it in LONG if not is_gate or it[0].split()[0] in ("check", "sim", "run")]
        found = [self.pool.submit(endless, self.program, *it) for it in cases]
        told = [self.pool.submit(refused, self.program, *it) for it in long]
        for (words, front, part, _), it in zip(cases, found):
            self.tell(it.result(), words, (front or b"") + (part or b"\0"))
        for (words, text, _), it in zip(long, told):
            self.tell(it.result(), words, text[-60:])

    def texts(self, texts):
        """Texts, some at a time."""
        texts = iter(texts)
        while some := [it for _, it in zip(range(200), texts)]:
            found = [self.pool.submit(answered, self.program, words, text) for words, text, _ in some]
            for (words, text, is_turned), it in zip(some, found):
                what, done = it.result()
                self.count += len(text)
                self.reports += is_turned and done is not None and done.returncode in (0, 1, 2) and not done.stderr
                self.tell(what, words, text)


def main(words):
    if len(words) not in (1, 2) or words[1:] not in ([], ["--gate"]):
        sys.exit(__doc__)
    program, is_gate = os.path.realpath(words[0]), words[1:] == ["--gate"]
    if not os.access(program, os.X_OK):
        sys.exit(f"try_hostile: nothing was tried. There is no program {words[0]}")
    with open(program, "rb") as file:
        if b"__asan_init" in file.read():
            sys.exit("this program watches each access to memory, and maps more than any limit: build one that doesn't (./raysim does, where it can)")
    why = unable()
    if why:
        sys.exit(f"try_hostile: nothing was tried. {why}")
    examples = os.path.join(os.path.dirname(os.path.realpath(__file__)), "..", "examples")
    scripts = [open(os.path.join(examples, name), "rb").read() for name in sorted(os.listdir(examples)) if name.endswith(".ray")]
    with tempfile.TemporaryDirectory(prefix="try-hostile-") as folder, ThreadPoolExecutor(len(os.sched_getaffinity(0))) as pool:
        os.chdir(folder)
        with open("sq.ray", "wb") as it:
            it.write(SCRIPT)
        trial = Trial(program, pool)
        what, done = answered(program, "run sq.ray", b"")
        if what or done.stdout != REPORT:
            sys.exit(f"try_hostile: nothing was tried. A good script has no report, with {MEMORY >> 20} MB of address space: {what or done.stdout!r}")
        trial.inputs(is_gate)
        trial.texts(texts_of(random.Random(2), scripts, *(GATE_TEXTS if is_gate else TEXTS)))
        os.chdir("/")
    print(f"{trial.runs} runs, on {trial.count} bytes and on inputs without end, {trial.reports} reports of texts with a byte turned; "
          f"{trial.wrong} answered otherwise")
    return 1 if trial.wrong else 0


if __name__ == "__main__":
    sys.exit(main(sys.argv[1:]))
