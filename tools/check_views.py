#!/usr/bin/env python3
"""Checks that a timeline and a lineage are what their readers take.

    raysim sim S E --timeline T --lineage L && tools/check_views.py T L

Of the timeline: it is JSON in Chrome's trace event format; every span has its beginning and its end, in the row of a named worker of a
named node or in the node's own; the spans of a row lie in one another or apart, and a get lies in its attempt; what is run in a row ends where
its worker dies; each flow that begins ends, once and later, by the same name, and at both ends an event's span of the row begins in that moment.
Of the lineage: each line is a statement of the language DOT, and every end of an edge is a node with a label; where Graphviz is installed, it
draws the graph.
"""
import shutil
import subprocess
import sys

import views
from views import want


def row_of(event):
    return event["pid"], event["tid"]


def check_rows(events):
    """Each row has its names, and what is in it nests."""
    nodes, names = views.names_of(events)
    rows = {}
    for event in events:
        if event["ph"] == "M":
            continue
        want(event["pid"] in nodes, f"process {event['pid']} has no name")
        want(row_of(event) in names, f"thread {row_of(event)} has no name")
        if event["ph"] == "X":
            rows.setdefault(row_of(event), []).append(event)
    for row, spans in rows.items():
        check_nested(row, spans)
    return len(nodes), sum(1 for row in names if row[1]), sum(len(spans) for spans in rows.values())


def check_nested(row, spans):
    for one in spans:
        begin, end = one["ts"], one["ts"] + one["dur"]
        for other in spans:
            first, last = other["ts"], other["ts"] + other["dur"]
            apart = last <= begin or end <= first
            inside = (begin <= first and last <= end) or (first <= begin and end <= last)
            want(apart or inside, f"thread {row}: {one['name']} and {other['name']} overlap")
        if one["cat"] == "get":
            want(any(it["cat"] == "attempt" and it["args"]["attempt"] == one["args"]["attempt"]
                     and it["ts"] <= begin and end <= it["ts"] + it["dur"] for it in spans),
                 f"thread {row}: {one['name']} is in no attempt")


def check_deaths(events):
    """What is run in a row ends with its death. One that dies may still be given an attempt by an owner that doesn't know, and sent messages."""
    for mark in events:
        if mark["ph"] == "i" and mark["name"] == "dies" and mark["s"] == "t":
            for event in events:
                is_run = event["ph"] == "X" and event["cat"] != "event" and row_of(event) == row_of(mark) and event["ts"] < mark["ts"]
                want(not is_run or event["ts"] + event["dur"] <= mark["ts"], f"thread {row_of(mark)}: {event['name']} goes on after the death")


def check_flows(events):
    """Each flow begins once and ends once, later, by the same name, at both ends where a span of an event begins in the row."""
    spans = {(row_of(it), it["ts"]) for it in events if it["ph"] == "X" and it["cat"] == "event"}
    begins, ends = {}, {}
    for event in events:
        if event["ph"] in ("s", "f"):
            side = begins if event["ph"] == "s" else ends
            key = (event["cat"], event["name"], event["id"])
            want(key not in side, f"flow {key} is there twice")
            want((row_of(event), event["ts"]) in spans, f"flow {key} is in no span of an event")
            side[key] = event["ts"]
    want(begins.keys() == ends.keys(), f"flows without the other end: {sorted(begins.keys() ^ ends.keys())}")
    for key, begin in begins.items():
        want(begin < ends[key], f"flow {key} ends before it begins")
    return len(begins)


def check_timeline(path):
    with open(path, encoding="ascii") as file:
        text = file.read()
    want(text.endswith("}\n") and text.count("\n") == 1, "the timeline is not one line")
    events = views.read_timeline(text)
    nodes, workers, spans = check_rows(events)
    check_deaths(events)
    flows = check_flows(events)
    print(f"{path}: {nodes} nodes, {workers} workers, {spans} spans, {flows} flows")


def check_lineage(path):
    with open(path, encoding="ascii") as file:
        nodes, edges = views.read_lineage(file.read())
    for node, attributes in nodes.items():
        want("label" in attributes, f"{node} has no label")
    for begin, end in edges:
        want(begin in nodes and end in nodes, f"the edge from {begin} to {end} has an end that is no node")
    drawn = "Graphviz is not installed"
    if shutil.which("dot"):
        made = subprocess.run(["dot", "-Tsvg", path], capture_output=True, text=True)
        want(made.returncode == 0 and "</svg>" in made.stdout, f"Graphviz refuses it: {made.stderr}")
        drawn = "Graphviz draws it"
    print(f"{path}: {len(nodes)} nodes, {len(edges)} edges; {drawn}")


def main():
    if len(sys.argv) != 3:
        sys.exit(__doc__)
    try:
        check_timeline(sys.argv[1])
        check_lineage(sys.argv[2])
    except (views.Fault, ValueError, KeyError) as fault:
        sys.exit(f"refused: {fault}")


if __name__ == "__main__":
    main()
