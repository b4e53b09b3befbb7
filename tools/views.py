"""Reads what `raysim sim --timeline T --lineage L` writes: Chrome's trace events and a graph in the language DOT."""
import json
import re


class Fault(Exception):
    """What is not as its readers want it."""


def want(holds, what):
    if not holds:
        raise Fault(what)


def is_count(x):
    return isinstance(x, int) and not isinstance(x, bool) and x >= 0


def read_timeline(text):
    """The trace events of a timeline, each with the members that its kind asks for."""
    whole = json.loads(text)
    want(isinstance(whole, dict) and isinstance(whole.get("traceEvents"), list), "there is no list traceEvents")
    want(whole.get("displayTimeUnit") in ("ms", "ns"), "displayTimeUnit is neither ms nor ns")
    for number, event in enumerate(whole["traceEvents"]):
        where = f"trace event {number}"
        want(isinstance(event, dict), f"{where} is no object")
        kind = event.get("ph")
        want(kind in ("M", "X", "i", "s", "f"), f"{where}: no kind {kind!r}")
        want(isinstance(event.get("name"), str) and event["name"], f"{where} has no name")
        want(is_count(event.get("pid")) and is_count(event.get("tid")), f"{where} has no row")
        if kind != "M":
            want(is_count(event.get("ts")), f"{where} has no time")
        if kind == "X":
            want(is_count(event.get("dur")), f"{where}: the span has no end")
        if kind == "i":
            want(event.get("s") in ("g", "p", "t"), f"{where}: the mark has no scope")
        if kind in ("s", "f"):
            want(is_count(event.get("id")), f"{where}: the flow has no id")
            want(isinstance(event.get("cat"), str), f"{where}: the flow has no category")
            want(kind == "s" or event.get("bp") == "e", f"{where}: the flow does not end in the span around it")
    return whole["traceEvents"]


def names_of(events):
    """The names of the nodes by pid, and of the rows by pid and tid: 0 is the node's own, the others are those of its workers."""
    nodes, rows = {}, {}
    for event in events:
        if event["ph"] == "M":
            name = event["args"]["name"]
            if event["name"] == "process_name":
                want(event["pid"] not in nodes, f"process {event['pid']} is named twice")
                nodes[event["pid"]] = name
            elif event["name"] == "thread_name":
                row = (event["pid"], event["tid"])
                want(row not in rows, f"thread {row} is named twice")
                rows[row] = name
    return nodes, rows


def read_lineage(text):
    """The nodes of a graph by their names, with their attributes, and the edges, each with its attributes; later statements add."""
    lines = text.split("\n")
    want(lines[0] == "strict digraph lineage {", "the first line opens no strict digraph")
    want(lines[-2:] == ["}", ""], "the last line is not }")
    nodes, edges = {}, {}
    for number, line in enumerate(lines[1:-2], 2):
        found = re.fullmatch(r'    (node|"[^"\\]+")(?: -> ("[^"\\]+"))?(?: \[(.*)\])?;', line)
        want(found, f"line {number} is no statement: {line}")
        attributes = attributes_of(found[3] or "", number)
        if found[2]:
            edges.setdefault((found[1].strip('"'), found[2].strip('"')), {}).update(attributes)
        elif found[1] != "node":
            nodes.setdefault(found[1].strip('"'), {}).update(attributes)
    return nodes, edges


def attributes_of(text, number):
    """Attributes such as `label="a1.1#0 on w2: open", shape=plaintext`."""
    attributes = {}
    while text:
        found = re.match(r'(\w+)=(?:"([^"\\]*)"|(\w+))(?:, |$)', text)
        want(found, f"line {number}: no attribute: {text}")
        attributes[found[1]] = found[2] if found[2] is not None else found[3]
        text = text[found.end():]
    return attributes
