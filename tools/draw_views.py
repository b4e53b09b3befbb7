#!/usr/bin/env python3
"""Draws a timeline and a lineage as SVG pictures, with nothing but Python.

    raysim sim S E --timeline T --lineage L && tools/draw_views.py T L OUT

writes OUT/timeline.svg and OUT/lineage.svg, and makes the folder OUT where there is none. In the timeline each node is a band with a line for
the node itself and one for each of its workers; a bar is an attempt, from the event in which its owner learned that it runs to its end, the pale
part of it a get that waits, its red end that it broke or ended with a fault; a dot below is an event, an arrow a message, and a red cross a
death. In the lineage a box is a task and a rounded one a put; an arrow goes from an argument to what was computed from it, a dashed one to an
object that a value names; below each object stand the attempts of its task, each with its worker and node (from the timeline) and what came of it.
"""
import os
import sys
from html import escape

import views

INK, FAINT, PAPER, PALE, RED = "#222222", "#777777", "#ffffff", "#f7f3d7", "#c0392b"
FONT = 'font-family="DejaVu Sans, Helvetica, Arial, sans-serif"'
ASKS, RUNS, PLACES, HOLDERS = "#8a6d3b", "#1f5fa8", "#2e7d32", "#8e44ad"
KINDS = {**dict.fromkeys(("Ask", "Give", "Elsewhere", "Wait", "Back"), ASKS),
         **dict.fromkeys(("Push", "Finished", "FinishedAck", "Failed"), RUNS),
         **dict.fromkeys(("Where", "At", "Gone", "Fetch", "Copy", "Missing"), PLACES),
         **dict.fromkeys(("Hold", "HoldAck", "Unhold"), HOLDERS)}
COLORS = ["#4e79a7", "#59a14f", "#b07aa1", "#f28e2b", "#76b7b2", "#9c755f", "#edc948", "#7f8fa9"]


class Picture:
    """Shapes, one after the other, on white paper."""

    def __init__(self):
        self.shapes, self.width, self.height = [], 0, 0

    def reach(self, x, y):
        self.width, self.height = max(self.width, x), max(self.height, y)

    def box(self, x, y, width, height, fill, stroke=None, rounded=0, title=None, dash=None):
        line = f' stroke="{stroke}"' if stroke else ""
        line += f' stroke-dasharray="{dash}"' if dash else ""
        told = f"<title>{escape(title)}</title>" if title else ""
        self.shapes.append(f'<rect x="{x:g}" y="{y:g}" width="{width:g}" height="{height:g}" rx="{rounded}" fill="{fill}"{line}>{told}</rect>')
        self.reach(x + width, y + height)

    def text(self, x, y, words, size=12, fill=INK, anchor="start", weight="normal", behind=""):
        """Words, and others behind them in red."""
        more = f'<tspan fill="{RED}">{escape(behind)}</tspan>' if behind else ""
        self.shapes.append(f'<text x="{x:g}" y="{y:g}" {FONT} font-size="{size}" font-weight="{weight}" text-anchor="{anchor}" '
                           f'fill="{fill}">{escape(words)}{more}</text>')
        self.reach(x + (wide(words + behind, size) if anchor == "start" else 0), y + 4)

    def line(self, x, y, to_x, to_y, stroke=FAINT, width=1, dash=None, arrow=False):
        more = (f' stroke-dasharray="{dash}"' if dash else "") + (' marker-end="url(#arrow)"' if arrow else "")
        self.shapes.append(f'<line x1="{x:g}" y1="{y:g}" x2="{to_x:g}" y2="{to_y:g}" stroke="{stroke}" stroke-width="{width}"{more}/>')
        self.reach(max(x, to_x), max(y, to_y))

    def arrow(self, x, y, to_x, to_y, stroke, title):
        """An arrow whose head has its own color, with room left at both ends."""
        long = ((to_x - x) ** 2 + (to_y - y) ** 2) ** 0.5
        right, down = (to_x - x) / long, (to_y - y) / long
        x, y, to_x, to_y = x + right * DOT, y + down * DOT, to_x - right * DOT, to_y - down * DOT
        back_x, back_y = to_x - right * 7, to_y - down * 7
        points = f"{to_x:.1f},{to_y:.1f} {back_x - down * 2.5:.1f},{back_y + right * 2.5:.1f} {back_x + down * 2.5:.1f},{back_y - right * 2.5:.1f}"
        self.shapes.append(f'<g stroke="{stroke}" fill="{stroke}"><title>{escape(title)}</title><line x1="{x:.1f}" y1="{y:.1f}" '
                           f'x2="{back_x:.1f}" y2="{back_y:.1f}" stroke-width="1"/><polygon points="{points}" stroke="none"/></g>')

    def dot(self, x, y, title):
        self.shapes.append(f'<circle cx="{x:g}" cy="{y:g}" r="{DOT}" fill="{INK}"><title>{escape(title)}</title></circle>')
        self.reach(x + DOT, y + DOT)

    def cross(self, x, y, size):
        self.line(x - size, y - size, x + size, y + size, RED, 2.5)
        self.line(x - size, y + size, x + size, y - size, RED, 2.5)

    def svg(self, title):
        width, height = self.width + 12, self.height + 12
        marks = ('<defs><marker id="arrow" viewBox="0 0 8 8" refX="8" refY="4" markerWidth="8" markerHeight="8" orient="auto">'
                 f'<path d="M0,0 L8,4 L0,8 z" fill="{INK}"/></marker></defs>')
        return (f'<svg xmlns="http://www.w3.org/2000/svg" width="{width:g}" height="{height:g}" viewBox="0 0 {width:g} {height:g}">\n'
                f"<title>{escape(title)}</title>\n{marks}\n" + f'<rect width="100%" height="100%" fill="{PAPER}"/>\n'
                + "\n".join(self.shapes) + "\n</svg>\n")


def wide(words, size):
    """About how wide words of this size are."""
    return 0.62 * size * len(words)


def short(words, room, size):
    """The words, cut where there is no room for them."""
    most = int(room / (0.62 * size))
    if len(words) <= most:
        return words
    return words[:most - 2] + ".." if most > 4 else ""


def fitting(all_words, room, size):
    """The first of these for which there is room, or the last of them, cut."""
    for words in all_words:
        if wide(words, size) <= room:
            return words
    return short(all_words[-1], room, size)


# ---- the timeline

LEFT, TOP, LINE, BAR, OWN, GAP, DOT = 72, 58, 52, 31, 30, 20, 2.5


def draw_timeline(events):
    nodes, rows = views.names_of(events)
    last = max([it["ts"] + it.get("dur", 0) for it in events if it["ph"] != "M"], default=1)
    step = max(9, min(24, 1100 / max(last, 1)))
    picture = Picture()
    picture.text(10, 22, "What each worker runs, and who sends what to whom, event by event", 15, weight="bold")
    places, y = {}, TOP
    for pid in sorted(nodes):
        own = sorted(row for row in rows if row[0] == pid)
        tall = OWN + (len(own) - 1) * LINE
        picture.box(LEFT - 62, y, 62 + last * step + 24, tall, "#f4f4f2")
        picture.text(LEFT - 56, y + 20, nodes[pid], 13, weight="bold")
        for place, row in enumerate(own):
            places[row] = y if place == 0 else y + OWN + (place - 1) * LINE
            if place:
                picture.text(LEFT - 42, places[row] + 20, rows[row], 12)
            picture.line(LEFT, dots_at(places, row), LEFT + last * step, dots_at(places, row), "#dcdcd8")
        y += tall + GAP
    draw_axis(picture, last, step, y - GAP + 18)
    draw_events(picture, events, places, step)
    draw_key(picture, y + 36)
    return picture.svg("A run's timeline")


def draw_events(picture, events, places, step):
    """Attempts, gets in them, messages, events and deaths, each above the ones before."""
    colors = colors_of(events)
    spans = [it for it in events if it["ph"] == "X"]
    for kind in ("attempt", "get"):
        for event in spans:
            if event["cat"] == kind:
                draw_span(picture, event, places[(event["pid"], event["tid"])], step, colors)
    draw_messages(picture, events, places, step)
    for event in spans:
        if event["cat"] == "event":
            row = (event["pid"], event["tid"])
            picture.dot(LEFT + event["ts"] * step, dots_at(places, row), f"{event['ts']}. {event['name']}")
    for event in events:
        if event["ph"] == "i":
            draw_mark(picture, event, places[(event["pid"], event["tid"])], step)


def dots_at(places, row):
    """Where the events of a row stand: below the bars of a worker."""
    return places[row] + (BAR + 8 if row[1] else 16)


def draw_messages(picture, events, places, step):
    ends = {it["id"]: it for it in events if it["ph"] == "f"}
    for begin in events:
        if begin["ph"] == "s":
            end = ends[begin["id"]]
            x, y = LEFT + begin["ts"] * step, dots_at(places, (begin["pid"], begin["tid"]))
            to_x, to_y = LEFT + end["ts"] * step, dots_at(places, (end["pid"], end["tid"]))
            picture.arrow(x, y, to_x, to_y, KINDS[begin["name"]], f"message {begin['id']}: {begin['name']}")


def colors_of(events):
    """A color for each task: the attempts of one task have the same."""
    tasks = []
    for event in events:
        if event["ph"] == "X" and event["cat"] == "attempt":
            task = event["args"]["attempt"].split("#")[0]
            if task not in tasks:
                tasks.append(task)
    return {task: COLORS[place % len(COLORS)] for place, task in enumerate(sorted(tasks))}


def draw_axis(picture, last, step, y):
    for clock in range(0, last + 1, 10):
        x = LEFT + clock * step
        picture.line(x, TOP - 12, x, y - 12, "#d8d8d4")
        picture.text(x, y, str(clock), 10, FAINT, "middle")
    picture.text(LEFT + last * step + 8, y, "event", 10, FAINT)


def draw_span(picture, event, y, step, colors):
    x, width = LEFT + event["ts"] * step, max(event["dur"] * step, 3)
    attempt, end = event["args"]["attempt"], event["args"]["end"]
    if event["cat"] == "get":
        picture.box(x, y + BAR - 15, width, 13, PALE, rounded=2, title=f"{event['name']}: {attempt}, {end}")
        picture.text(x + 3, y + BAR - 5, fitting([event["name"], event["name"][4:]], width - 4, 9), 9)
        return
    ill = end.split(" ")[0] in ("killed", "OwnerDied", "PutLost", "RetriesUsed")
    picture.box(x, y, width, BAR, colors[attempt.split("#")[0]], rounded=3, title=f"{event['name']}: {attempt}, {end}")
    if ill:
        picture.box(x + width - 4, y, 4, BAR, RED)
    again = " again" if not attempt.endswith("#0") else ""
    name = fitting([event["name"] + again, event["name"], attempt], width - 6, 10)
    picture.text(x + 4, y + 11, name, 10, PAPER, weight="bold")


def draw_mark(picture, event, y, step):
    x = LEFT + event["ts"] * step
    if event["tid"]:
        picture.cross(x, y + BAR / 2, 6)
        return
    picture.line(x, y - 6, x, y + 24, RED, 2)
    picture.text(x + 5, y + 5, event["name"], 11, RED, weight="bold")


def draw_key(picture, y):
    x = 10
    for draw, words in ((key_attempt, "an attempt; those of a task have its color"), (key_get, "it waits in a get"),
                        (key_break, "it breaks, or ends with a fault"), (key_death, "its worker or its node dies"),
                        (key_event, "an event with a message")):
        draw(picture, x, y)
        picture.text(x + 28, y, words)
        x += 46 + wide(words, 9.8)
    x = 10
    for color, words in ((ASKS, "asks for workers: Ask, Give, Elsewhere, Wait, Back"), (RUNS, "attempts: Push, Finished, FinishedAck, Failed"),
                         (PLACES, "copies: Where, At, Gone, Fetch, Copy, Missing"), (HOLDERS, "holders: Hold, HoldAck, Unhold")):
        picture.arrow(x - 3, y + 18, x + 25, y + 18, color, words)
        picture.text(x + 28, y + 22, words)
        x += 46 + wide(words, 9.8)


def key_attempt(picture, x, y):
    picture.box(x, y - 11, 22, 14, COLORS[0], rounded=3)


def key_get(picture, x, y):
    picture.box(x, y - 11, 22, 14, COLORS[0], rounded=3)
    picture.box(x + 3, y - 4, 16, 5, PALE)


def key_break(picture, x, y):
    picture.box(x + 9, y - 11, 4, 14, RED)


def key_death(picture, x, y):
    picture.cross(x + 11, y - 4, 6)


def key_event(picture, x, y):
    picture.dot(x + 11, y - 4, "an event")


# ---- the lineage

BOX, TALL, ROW, APART = 232, 34, 19, 64


def draw_lineage(nodes, edges, events):
    objects = [name for name in nodes if name.startswith("o")]
    joined = {it for pair in edges for it in pair if pair[0] in objects and pair[1] in objects}
    objects.sort(key=lambda name: name not in joined)
    ends = ends_of_workers(events)
    attempts = {name: [it for it in nodes if it.startswith("a") and (name, it) in edges] for name in objects}
    columns = columns_of(objects, edges)
    picture = Picture()
    picture.text(10, 22, "What was made of what, and the attempts of each task", 15, weight="bold")
    places, tops = {}, {}
    for name in objects:
        column = columns[name]
        x, y = 16 + column * (BOX + APART), tops.get(column, 48)
        places[name] = (x, y)
        tops[column] = y + TALL + ROW * 2 * len(attempts[name]) + 34
    for (begin, end), attributes in edges.items():
        if begin in places and end in places:
            draw_edge(picture, places[begin], places[end], attributes)
    for name in objects:
        draw_object(picture, places[name], nodes[name])
        for number, attempt in enumerate(attempts[name]):
            draw_attempt(picture, places[name], number, nodes[attempt], edges[(name, attempt)], ends)
    draw_lineage_key(picture, max(tops.values()) + 14)
    return picture.svg("A run's lineage")


def ends_of_workers(events):
    """Of each worker its node, and what died with it: nothing, the worker, or the node."""
    nodes, rows = views.names_of(events)
    dead = {(it["pid"], it["tid"]) for it in events if it["ph"] == "i" and it["name"] == "dies"}
    ends = {}
    for row, worker in rows.items():
        node = nodes[row[0]]
        lost = f", and {node} died" if (row[0], 0) in dead else f", and {worker} died" if row in dead else ""
        ends[worker] = f"on {worker} of {node}", lost
    return ends


def columns_of(objects, edges):
    """Each object stands in the column behind those that it was computed from."""
    columns = {name: 0 for name in objects}
    for _ in objects:
        for begin, end in edges:
            if begin in columns and end in columns and edges[(begin, end)].get("style") != "dashed":
                columns[end] = max(columns[end], columns[begin] + 1)
    return columns


def draw_edge(picture, begin, end, attributes):
    dash = "5 4" if attributes.get("style") == "dashed" else None
    picture.line(begin[0] + BOX, begin[1] + TALL / 2, end[0], end[1] + TALL / 2, INK, 1.4, dash, True)


def draw_object(picture, place, attributes):
    x, y = place
    lost = attributes.get("color") == "red"
    gone = attributes.get("fontcolor") == "gray"
    rounded = 16 if attributes.get("shape") == "ellipse" else 2
    picture.box(x, y, BOX, TALL, "#fbeae8" if lost else "#eef3f8", RED if lost else INK, rounded)
    picture.text(x + BOX / 2, y + 21, short(attributes["label"], BOX - 12, 13), 13, FAINT if gone else INK, "middle", "bold")
    if "xlabel" in attributes:
        picture.text(x + 4, y - 5, attributes["xlabel"], 11, RED)


def draw_attempt(picture, place, number, attributes, edge, ends):
    x, y = place[0] + 14, place[1] + TALL + 17 + number * ROW * 2
    told, state = attributes["label"].rsplit(": ", 1)
    attempt, worker = told.split(" on ")
    where, lost = ends[worker]
    fill = {"accepted": "#2e7d32", "open": RED, "faulted": RED}.get(state, INK)
    picture.line(x - 6, place[1] + TALL, x - 6, y - 4, FAINT, 1, "2 2")
    picture.line(x - 6, y - 4, x, y - 4, FAINT, 1, "2 2")
    words = f"{attempt} {where}: {state}"
    picture.text(x + 3, y, words, 11, fill, behind=lost)
    if "label" in edge:
        picture.text(x + 14, y + 15, short(edge["label"], BOX - 20, 10), 10, RED if edge.get("color") == "red" else FAINT)


def draw_lineage_key(picture, y):
    picture.box(16, y - 11, 22, 14, "#eef3f8", INK, 2)
    picture.text(44, y, "a task")
    picture.box(110, y - 11, 22, 14, "#eef3f8", INK, 7)
    picture.text(138, y, "a put")
    picture.text(200, y, "gray: released", 12, FAINT)
    picture.text(310, y, "red: given up, broken, ended with a fault, or died later", 12, RED)


def main():
    if len(sys.argv) != 4:
        sys.exit(__doc__)
    with open(sys.argv[1], encoding="ascii") as file:
        events = views.read_timeline(file.read())
    with open(sys.argv[2], encoding="ascii") as file:
        nodes, edges = views.read_lineage(file.read())
    timeline, lineage = draw_timeline(events), draw_lineage(nodes, edges, events)
    os.makedirs(sys.argv[3], exist_ok=True)
    for name, text in (("timeline.svg", timeline), ("lineage.svg", lineage)):
        with open(os.path.join(sys.argv[3], name), "w", encoding="ascii") as file:
            file.write(text)


if __name__ == "__main__":
    main()
