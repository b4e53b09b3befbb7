#!/usr/bin/env python3
"""Tries exported programs on a real engine, and compares them with the serial run: tools/try_engines.py RAYSIM [OPTIONS].

    --scripts N      so many random scripts, from --seed S on (300, 1); or all of --folder DIR
    --kills K        the first K are run once more, one by one, while a worker is killed by its process id (0)
    --at-once N      so many are run side by side where none is killed (3)
    --ray            on the stand-in for Ray that lies beside this file, in one process and with no kills
    --measure        no comparison: tasks that only wait, on clusters of 1, 2 and 4 processes

Dask's `distributed` has to be there for the Python that runs this (Debian: python3-distributed). Scripts and programs are kept in --keep DIR
if that is given. The last lines count what came, with the versions; the status is 1 where a program differs from its serial run: where no worker was
killed it has to print the same and end with the same status; with a kill it may end with status 2 and the engine's words instead, after
a beginning of the same prints.
"""

import argparse
import multiprocessing
import os
import random
import runpy
import signal
import subprocess
import sys
import tempfile
import threading
import time
from collections import Counter
from concurrent.futures import ThreadPoolExecutor

HERE = os.path.dirname(os.path.abspath(__file__))
INT, LIST, REF = "int", "[int]", "ref int"
KINDS = [INT, INT, INT, LIST, REF, REF, "ref [int]", "[ref int]", "ref ref int"]
SLOW = "fn slow(n: int) -> int { let s = n; for i in 0 .. 10000 { set s = (s * 31 + i) % 1009; } return s - s + n; }"
DEEP = "fn deep(n: int) -> int { if n <= 0 { return 7; } if n % 2 == 0 { return 1 + deep(n - 1); } return 1 + get remote deep(n - 1); }"


class Script:
    """A random script that the rules allow. Its functions call only those before them, so that it ends."""

    def __init__(self, seed):
        self.random = random.Random(seed)
        self.functions = [("slow", [INT], INT)]
        self.texts = [SLOW]
        self.names = 0
        if self.chance(0.1):
            self.texts.append(DEEP)
            self.functions.append(("deep", [INT], INT))
        for number in range(self.random.randint(2, 5)):
            parameters = [self.random.choice(KINDS) for _ in range(self.random.randint(0, 3))]
            self.function(f"f{number}", parameters, self.random.choice(KINDS), self.random.randint(1, 4))
        self.function("main", [], INT, self.random.randint(5, 9))

    def text(self):
        return "\n".join(self.texts) + "\n"

    def chance(self, share):
        return self.random.random() < share

    def fresh(self):
        self.names += 1
        return f"v{self.names}"

    def function(self, name, parameters, result, count):
        scope = [(f"p{place}", kind) for place, kind in enumerate(parameters)]
        self.in_main = name == "main"
        self.calls = 12 if self.in_main else 3
        head = ", ".join(f"{name}: {kind}" for name, kind in scope)
        body = " ".join(self.statement(scope, 2) for _ in range(count))
        if self.in_main:
            body += self.looks(scope)
        self.texts.append(f"fn {name}({head}) -> {result} {{ {body} return {self.expr(result, scope, 2)}; }}")
        self.functions.append((name, parameters, result))

    def looks(self, scope):
        """Gets and prints of what main has, but not of each."""
        text = ""
        for name, kind in scope:
            while kind.startswith("ref ") and self.chance(0.8):
                name, kind = f"get {name}", kind[4:]
            if "ref" not in kind and self.chance(0.6):
                text += f" print {name};"
        return text

    def block(self, scope, depth):
        inner = list(scope)
        return "{ " + " ".join(self.statement(inner, depth) for _ in range(self.random.randint(0, 2))) + " }"

    def statement(self, scope, depth):
        pick = self.random.random()
        if depth and pick < 0.1:
            other = f" else {self.block(scope, depth - 1)}" if self.chance(0.6) else ""
            return f"if {self.expr(INT, scope, 1)} {self.block(scope, depth - 1)}{other}"
        if depth and pick < 0.2:
            name = self.fresh()
            end = "20000" if self.chance(0.03) else str(self.random.randint(0, 3))
            return f"for {name} in 0 .. {end} {self.block([*scope, (name, INT)], depth - 1)}"
        if scope and pick < 0.3:
            name, kind = self.random.choice(scope)
            return f"set {name} = {self.expr(kind, scope, 2)};"
        if self.in_main and pick < 0.4:
            return f"print {self.expr(self.random.choice([INT, LIST]), scope, 2)};"
        name, kind = self.fresh(), self.random.choice(KINDS)
        text = f"let {name} = {self.expr(kind, scope, 3)};"
        scope.append((name, kind))
        return text

    def call(self, wanted, scope, depth, remote):
        """A call with such a result, if one is allowed."""
        fitting = [it for it in self.functions if it[2] == wanted]
        if not fitting or self.calls <= 0:
            return None
        self.calls -= 1
        name, parameters, _ = self.random.choice(fitting)
        given = []
        for kind in parameters:
            marked = remote and self.chance(0.5)
            given.append(self.expr(f"ref {kind}" if marked else kind, scope, depth - 1))
        return f"{name}({', '.join(given)})"

    def expr(self, kind, scope, depth):
        known = [name for name, it in scope if it == kind]
        if known and self.chance(0.4):
            return self.random.choice(known)
        if depth > 0 and self.chance(0.25):
            call = self.call(kind, scope, depth, False)
            if call:
                return call
        if depth > 0 and self.chance(0.2) and len(kind) < 8:
            return f"get ({self.expr('ref ' + kind, scope, depth - 1)})"
        if kind == INT:
            return self.number(scope, depth)
        if kind.startswith("["):
            return self.items(kind, scope, depth)
        call = self.call(kind[4:], scope, depth, True) if self.chance(0.8) else None
        if call:
            retries = self.random.choice(["", "", "(0)", "(10)"])
            return f"remote{retries} {call}"
        return f"put ({self.expr(kind[4:], scope, depth - 1)})"

    def number(self, scope, depth):
        if depth <= 0 or self.chance(0.25):
            return self.random.choice(["0", "1", "2", "3", "7", "40", "1000", "9223372036854775807"] if self.chance(0.1) else ["1", "2", "3"])
        if self.chance(0.15):
            return f"len({self.expr(LIST, scope, depth - 1)})"
        if self.chance(0.15):
            if self.chance(0.1):
                return f"({self.expr(LIST, scope, depth - 1)})[{self.random.choice(['0', '1', '-1'])}]"
            return f"[{self.expr(INT, scope, depth - 1)}, {self.expr(INT, scope, depth - 1)}][{self.random.choice(['0', '1'])}]"
        if self.chance(0.1):
            return f"-({self.expr(INT, scope, depth - 1)})"
        operator = self.random.choice(["+", "+", "-", "-", "*", "/", "%", "==", "!=", "<", "<="])
        return f"(({self.expr(INT, scope, depth - 1)}) {operator} ({self.expr(INT, scope, depth - 1)}))"

    def items(self, kind, scope, depth):
        item = kind[1:-1]
        if depth <= 0 or self.chance(0.2):
            return f"empty {item}"
        if self.chance(0.3):
            return f"push({self.expr(kind, scope, depth - 1)}, {self.expr(item, scope, depth - 1)})"
        return "[" + ", ".join(self.expr(item, scope, depth - 1) for _ in range(self.random.randint(1, 3))) + "]"


def scripts(options):
    """Names and texts of the scripts that are tried."""
    if options.folder:
        for name in sorted(os.listdir(options.folder)):
            if name.endswith(".ray"):
                with open(f"{options.folder}/{name}", encoding="ascii") as it:
                    yield name[:-4], it.read()
        return
    for seed in range(options.seed, options.seed + options.scripts):
        yield f"s{seed}", Script(seed).text()


def said(words, seconds=None, environment=None):
    """Status, output and error of a program."""
    try:
        done = subprocess.run(words, capture_output=True, text=True, timeout=seconds, env=environment)
    except subprocess.TimeoutExpired:
        return None, "", ""
    return done.returncode, done.stdout, done.stderr


def run_here(program, words, output):
    """Runs a program in this process, as if Python had been started with it."""
    for number, end in [(1, "out"), (2, "err")]:
        os.dup2(os.open(f"{output}.{end}", os.O_WRONLY | os.O_CREAT | os.O_TRUNC), number)
    sys.argv = [program, *words]
    runpy.run_path(program, run_name="__main__")


def said_of_program(context, program, words, seconds):
    """The same of a Python program, in a process of its own that has `distributed` from the one that it is forked from, which saves a second."""
    process = context.Process(target=run_here, args=(program, words, program))
    process.start()
    process.join(seconds)
    if process.exitcode is None:
        process.kill()
        process.join()
        return None, "", ""
    with open(f"{program}.out", encoding="ascii") as out, open(f"{program}.err", encoding="utf-8") as err:
        return process.exitcode, out.read(), err.read()


def exported(raysim, name, text, engine, folder):
    """The serial run of a script, and the file of its program."""
    with open(f"{folder}/{name}.ray", "w", encoding="ascii") as it:
        it.write(text)
    serial = said([raysim, "serial", f"{folder}/{name}.ray"])
    status, program, error = said([raysim, "export", f"{folder}/{name}.ray", "--to", engine])
    if status != 0 or not serial[1]:
        sys.exit(f"{name}: {error}{serial[2]}")
    with open(f"{folder}/{name}.py", "w", encoding="ascii") as it:
        it.write(program)
    return serial, f"{folder}/{name}.py"


def compared(serial, done):
    """How a program went, beside the serial run."""
    status, output, error = done
    if status is None:
        return "went on too long"
    if (status, output) == serial[:2]:
        return "as the serial run"
    if status == 2 and error and serial[1].startswith(output) and "main " not in output:
        return "the engine's error"
    return "differs"


def kill_soon(cluster, chance):
    """Kills one worker while tasks are there."""
    for _ in range(2000):
        if cluster.scheduler.tasks:
            break
        time.sleep(0.005)
    time.sleep(chance.random() * 0.4)
    workers = [it for it in cluster.workers.values() if it.pid]
    if workers:
        os.kill(chance.choice(workers).pid, signal.SIGKILL)


def told(name, serial, done, how):
    """Says what is to be looked at."""
    if how == "differs":
        print(f"{name}: {how}\nserial: {serial}\nengine: {done}", flush=True)
    elif how != "as the serial run":
        print(f"{name}: {how}: {(done[2].strip().splitlines() or ['nothing was said'])[-1]}", flush=True)


def count_all(options, run_one):
    """Tries each script, and counts how they went."""
    with tempfile.TemporaryDirectory() as fresh:
        folder = options.keep or fresh
        os.makedirs(folder, exist_ok=True)

        def tried(it):
            serial, program = exported(options.raysim, *it, "ray" if options.ray else "dask", folder)
            done = run_one(program, False)
            how = compared(serial, done)
            told(it[0], serial, done, how)
            return (it[0], serial, program), how

        with ThreadPoolExecutor(options.at_once) as pool:
            all_tried = list(pool.map(tried, scripts(options)))
        counts = Counter(how for _, how in all_tried)
        for (name, serial, program), _ in all_tried[: options.kills]:
            done = run_one(program, True)
            how = compared(serial, done)
            told(name, serial, done, how)
            counts[f"with a worker killed: {how}"] += 1
        return counts


def try_ray(options):
    environment = {**os.environ, "PYTHONPATH": f"{HERE}/ray_stand_in"}
    return count_all(options, lambda program, killed: said([sys.executable, program], 60, environment))


def try_dask(options):
    from distributed import LocalCluster

    chance = random.Random(options.seed)
    context = multiprocessing.get_context("forkserver")
    context.set_forkserver_preload(["distributed"])
    with LocalCluster(n_workers=3, threads_per_worker=1, dashboard_address=None, silence_logs=60) as cluster:

        def run_one(program, killed):
            words = ["--scheduler", cluster.scheduler_address]
            if not killed:
                return said_of_program(context, program, words, 300)
            killer = threading.Thread(target=kill_soon, args=(cluster, chance))
            killer.start()
            done = said_of_program(context, program, [*words, "--timeout", "5"], 120)
            killer.join()
            wait_for_three(cluster)
            return done

        return count_all(options, run_one)


def wait_for_three(cluster):
    """A killed worker comes again, as another process."""
    for _ in range(600):
        if len(cluster.scheduler.workers) == 3 and not cluster.scheduler.tasks:
            return
        time.sleep(0.05)


WAITING = """fn wait(n: int) -> int { return n; }
fn main() -> int {
    let all = empty ref int;
    for i in 0 .. COUNT { set all = push(all, remote wait(i)); }
    let sum = 0;
    for i in 0 .. COUNT { set sum = sum + get all[i]; }
    return sum;
}
"""


def measure(options):
    """Tasks that only wait, which Python is told behind the export."""
    with tempfile.TemporaryDirectory() as folder:
        _, program = exported(options.raysim, "wait", WAITING.replace("COUNT", str(options.tasks)), "dask", folder)
        with open(program, encoding="ascii") as it:
            text = it.read()
        with open(program, "w", encoding="ascii") as it:
            it.write(text.replace("def fn_wait(depth, v_n):\n", f"def fn_wait(depth, v_n):\n    time.sleep({options.seconds})\n").replace("import sys\n", "import sys\nimport time\n", 1))
        for workers in [1, 2, 4]:
            begun = time.monotonic()
            status, output, error = said([sys.executable, program, "--workers", str(workers)])
            took = time.monotonic() - begun
            print(f"{options.tasks} tasks of {options.seconds} s, {workers} processes: {took:.1f} s, {output.strip()}{error.strip()}", flush=True)


def main():
    words = argparse.ArgumentParser()
    words.add_argument("raysim")
    words.add_argument("--scripts", type=int, default=300)
    words.add_argument("--seed", type=int, default=1)
    words.add_argument("--folder")
    words.add_argument("--keep")
    words.add_argument("--kills", type=int, default=0)
    words.add_argument("--at-once", type=int, default=3)
    words.add_argument("--ray", action="store_true")
    words.add_argument("--measure", action="store_true")
    words.add_argument("--tasks", type=int, default=200)
    words.add_argument("--seconds", type=float, default=0.2)
    options = words.parse_args()
    if options.measure:
        measure(options)
        return 0
    counts = try_ray(options) if options.ray else try_dask(options)
    engine = "a stand-in for Ray"
    if not options.ray:
        import distributed

        engine = f"distributed {distributed.__version__}, three worker processes"
    print(f"Python {sys.version.split()[0]}, {engine}")
    for how in sorted(counts):
        print(f"{counts[how]} {how}")
    good = {"as the serial run", "with a worker killed: as the serial run", "with a worker killed: the engine's error"}
    return 0 if set(counts) <= good else 1


if __name__ == "__main__":
    sys.exit(main())
