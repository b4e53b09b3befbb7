#!/usr/bin/env python3
"""Tries the pages of runs in a browser, and measures one of 100,000 events.

    tools/try_page.py PROGRAM               tries: PROGRAM is raysim, and Chromium (Debian's package) has to be there
    tools/try_page.py PROGRAM --pictures    takes the pictures in docs/pictures anew

Each of ten runs is written as a page and opened from the disk. The page is stepped through all events; behind each tenth what it shows of nodes and
workers is compared with what `raysim state --at N` says of them, of the chosen object too, and at the end what it says of main and of all attempts
with the report. A page shows no more than the log tells: which node was asked for a copy, whether an end is acknowledged, which Holds wait, and that
an object is lost, is left out. Of 100,000 events it is measured how long a page takes to open, and how many steps a second it shows."""

import html
import http.server
import json
import os
import re
import subprocess
import sys
import tempfile
import threading

TOP = os.path.dirname(os.path.dirname(os.path.abspath(__file__)))
EXAMPLES = os.path.join(TOP, "examples")
DEATH = "settle but 2\nkill 2\nnotice 1 2\nsettle\n"
UNTOLD = "settle but 2\nkill 2\nsettle\n"
NODE = "claim 1\ncommit 1\nsettle but 1\nkill-node 2\nnotice-node 1 2\nsettle\n"
LOST = "claim 1\ncommit 1\nsettle but 1\nlose 1 o1.1\nsettle\n"
JOIN = "join\nsettle but 2 3\nkill 3\njoin\nnotice 1 3\nkill 99\nsettle\n"
# script, events, nodes, slots, the object that is chosen
RUNS = [
    ("node_dies", None, 2, 1, "o1.3"),
    ("squares", "settle\n", 1, 4, "o1.2"),
    ("merge_sort", "settle\n", 3, 2, "o1.1"),
    ("merge_sort", DEATH, 2, 2, "o1.2"),
    ("chain", NODE, 2, 1, "o1.1"),
    ("borrow", UNTOLD, 1, 2, "o1.1"),
    ("sum", DEATH, 2, 1, "o1.2"),
    ("histogram", LOST, 2, 2, "o1.1"),
    ("trap", "settle\n", 1, 1, "o1.1"),
    ("primes", JOIN, 1, 2, "o1.1"),
]
LARGE = """fn work(n: int) -> int { return n * n; }
fn main() -> int {
    let total = 0;
    for i in 0 .. 362 {
        let l = empty ref int;
        for k in 0 .. 20 { set l = push(l, remote work(k)); }
        for k in 0 .. 20 { set total = total + get l[k]; }
    }
    return total;
}
"""
# Steps through all events, and says what the page shows behind each tenth and at the end.
STEPS = """<script>
const shown = [];
view.pick('OBJECT', true);
for (let at = 0; at <= view.run.last; at++) {
  view.go(at);
  if (at % 10 === 0 || at === view.run.last) shown.push([at, [...document.querySelectorAll('[data-says]')].map((it) => it.dataset.says)]);
}
const end = document.getElementById('prints').innerText;
fetch('http://127.0.0.1:PORT/', { method: 'POST', mode: 'no-cors', body: JSON.stringify({ shown, end, report: reportLines(view.run) }) });
</script></body>"""
# Measures how soon a page is shown, and how many of its steps a second.
TIMES = """<script>
requestAnimationFrame(() => requestAnimationFrame(() => {
  const opened = performance.now(), begun = performance.now();
  let steps = 0, spent = 0;
  const step = () => {
    const from = performance.now();
    view.go(view.at === view.run.last ? 40000 : view.at + 1);
    spent += performance.now() - from;
    if (++steps < 600) return void requestAnimationFrame(step);
    const seconds = (performance.now() - begun) / 1000;
    let back = performance.now();
    for (let k = 0; k < 100; k++) view.go(view.at - 1);
    back = (performance.now() - back) / 100;
    let lanes = performance.now();
    for (let k = 0; k < 100; k++) view.lanes.zoom(k % 2 ? 1.3 : 1 / 1.3);
    lanes = (performance.now() - lanes) / 100;
    const body = { events: view.run.last, opened, rate: steps / seconds, step: spent / steps, back, lanes };
    fetch('http://127.0.0.1:PORT/', { method: 'POST', mode: 'no-cors', body: JSON.stringify(body) });
  };
  step();
}));
</script></body>"""
PICTURES = [
    ("page_death.png", "node_dies", None, 2, 1, "event=68&object=o1.3"),
    ("page_end.png", "node_dies", None, 2, 1, "event=93&object=o1.2"),
    ("page_sort.png", "merge_sort", DEATH, 2, 2, "event=120&object=o1.1"),
]


class Browser:
    """Opens pages, and hears what they post."""

    def __init__(self, folder):
        self.folder, self.said, self.has_said = folder, None, threading.Event()
        browser = self

        class Listener(http.server.BaseHTTPRequestHandler):
            def do_POST(self):
                browser.said = json.loads(self.rfile.read(int(self.headers["Content-Length"])))
                self.send_response(204)
                self.end_headers()
                browser.has_said.set()

            def log_message(self, *_):
                pass

        self.server = http.server.HTTPServer(("127.0.0.1", 0), Listener)
        threading.Thread(target=self.server.serve_forever, daemon=True).start()

    def command(self, *words):
        return ["chromium", "--headless=new", "--no-sandbox", "--disable-gpu", "--hide-scrollbars", "--window-size=1440,900",
                f"--user-data-dir={self.folder}/profile", *words]

    def ask(self, page, script, seconds=240):
        """What a page posts that has one more script."""
        script = script.replace("PORT", str(self.server.server_port))
        asking = os.path.join(self.folder, "asking.html")
        with open(page, encoding="utf-8") as file:
            text = file.read()
        with open(asking, "w", encoding="utf-8") as file:
            file.write(text.replace("</body>", script))
        self.has_said.clear()
        words = self.command("--remote-debugging-port=0", "file://" + asking)
        with subprocess.Popen(words, stdout=subprocess.DEVNULL, stderr=subprocess.DEVNULL) as process:
            heard = self.has_said.wait(seconds)
            process.terminate()
        if not heard:
            sys.exit(f"{page}: the browser said nothing in {seconds} seconds")
        return self.said

    def picture(self, page, fragment, file):
        words = self.command("--window-size=1280,800", f"--screenshot={file}", f"file://{page}#{fragment}")
        subprocess.run(words, check=True, stdout=subprocess.DEVNULL, stderr=subprocess.DEVNULL, timeout=120)


class Trial:
    """A run with its page."""

    def __init__(self, program, folder, name, events, nodes, slots):
        self.program, self.name = program, name
        self.script = os.path.join(EXAMPLES, name + ".ray")
        self.events = os.path.join(EXAMPLES, name + ".ev")
        if events is not None:
            self.events = os.path.join(folder, "events.ev")
            with open(self.events, "w", encoding="ascii") as file:
                file.write(events)
        self.cluster = ["--nodes", str(nodes), "--slots", str(slots)]
        self.page = os.path.join(folder, "page.html")
        self.report = self.out("sim", "--full", "--page", self.page)

    def out(self, command, *words):
        words = [self.program, command, self.script, self.events, *self.cluster, *words]
        return subprocess.run(words, capture_output=True, text=True, check=False).stdout

    def state(self, at):
        """The lines of the run's state behind an event that a page shows."""
        lines = [re.sub(r", asked n\d+ for a copy$|, not acknowledged$", "", it) for it in self.out("state", "--at", str(at)).split("\n")[1:-1]]
        return [it for it in lines if re.match(r"[nw]\d", it) and ": waits until " not in it]

    def object_line(self, at, wanted):
        found = [it for it in self.out("state", "--at", str(at)).split("\n") if it.startswith(wanted + ": ")]
        return [it for it in found[:1] if not it.endswith((", lost", ", at rest"))]

    def compare(self, said, wanted):
        """What differs."""
        faults = []
        for at, shown in said["shown"]:
            of_parts = {it for it in shown if it[0] in "nw"}
            state = set(self.state(at)) if at > 0 else of_parts
            faults += [f"event {at}: {it} isn't shown" for it in sorted(state - of_parts)]
            faults += [f"event {at}: {it} is shown" for it in sorted(of_parts - state)]
            if at > 0 and wanted:
                faults += [f"event {at}: {it} isn't shown" for it in self.object_line(at, wanted) if it not in shown]
        report = self.report.strip().split("\n")
        faults += [f"report: {one} / {other}" for one, other in zip(report, said["report"]) if one != other]
        if len(report) != len(said["report"]):
            faults.append("report: other lines")
        prints = [it for it in report if it.startswith("print ")]
        end = [it for it in html.unescape(said["end"]).split("\n") if it]
        if prints and end[: len(prints)] != prints:
            faults.append(f"prints: {end}")
        return faults


def large(program, folder):
    """The page of a run of nearly 100,000 events."""
    script, page = os.path.join(folder, "large.ray"), os.path.join(folder, "large.html")
    with open(script, "w", encoding="ascii") as file:
        file.write(LARGE)
    subprocess.run([program, "run", script, "--nodes", "4", "--slots", "4", "--page", page], check=True, stdout=subprocess.DEVNULL)
    return page


def main():
    if len(sys.argv) < 2:
        sys.exit(__doc__)
    program = os.path.abspath(sys.argv[1])
    with tempfile.TemporaryDirectory() as folder:
        browser = Browser(folder)
        if sys.argv[2:] == ["--pictures"]:
            for file, name, events, nodes, slots, fragment in PICTURES:
                trial = Trial(program, folder, name, events, nodes, slots)
                browser.picture(trial.page, fragment, os.path.join(TOP, "docs", "pictures", file))
            return
        bad = 0
        for name, events, nodes, slots, wanted in RUNS:
            trial = Trial(program, folder, name, events, nodes, slots)
            said = browser.ask(trial.page, STEPS.replace("OBJECT", wanted))
            faults = trial.compare(said, wanted)
            bad += bool(faults)
            print(f"{name}: {said['shown'][-1][0]} events, {os.path.getsize(trial.page)} bytes, {len(faults)} faults")
            for fault in faults[:10]:
                print("    " + fault)
        page = large(program, folder)
        times = browser.ask(page, TIMES)
        print(f"{times['events']} events, {os.path.getsize(page)} bytes: shown after {times['opened']:.0f} ms, {times['rate']:.1f} steps a second, "
              f"{times['step']:.1f} ms a step, {times['back']:.1f} ms a step back, {times['lanes']:.1f} ms a zoom")
        print(f"{len(RUNS) - bad} passed, {bad} failed")
        sys.exit(1 if bad else 0)


if __name__ == "__main__":
    main()
