#!/usr/bin/env python3
"""Tells where code makes an error of want of memory itself, and asks whether each such place stands in the list below, with why it may.

Usage: tools/made_errors.py [--check]      lists the places with their reasons; with the word it says only what is wrong, and then the status is 1

The library makes `AllocError` where a growth was refused, and `?` hands it on. But whoever has the type can write the value, and no contract tells the
two apart. So each place is listed where code in crates/*/src, tests apart, has the value `AllocError` or an `AllocFailed` as an expression, calls
`refused_growth`, or asks for the room of `usize::MAX` items, which no memory has, or of another number that is written with a shift or with seven digits.
Beside them stand the places where an error `NoMemory` is made with no error at hand: in no arm of an `Err` or of a want of memory, in no `else` of a
`let Ok`, in no `From` of the library's errors. Where an error is at hand, it isn't asked which. What is read wrongly here is a place too many, and fails."""
import os
import re
import sys
from collections import Counter

TOP = os.path.dirname(os.path.dirname(os.path.abspath(__file__)))
VALUE, REFUSED, ROOM, UNIT = "AllocError", "refused_growth", "usize::MAX", "NoMemory"
# a file, a function in it, what it makes, and why it may
LIST = [
    ("frames/src/ending.rt", "End::of", VALUE,
     "passes on a halt's `NoMemory`, which a refused growth became: a clause says that no other halt comes to it"),
    ("frames/src/trapping.rt", "Course::watch", VALUE, "passes on a halt's `NoMemory`, which a refused growth became"),
    ("frames/src/trapping.rt", "refused", VALUE,
     "stands for what `meet` gave back of a birth, of a print or of a get whose answer has a value: where these fail, a growth was refused"),
    ("owner_steps/src/recovery.rt", "give_up_by", VALUE, "passes on a plan's `NoMemory`, which `lineage` makes of a refused growth"),
    ("protocol_data/src/copies.rt", "make_room", VALUE,
     "the list of shelves couldn't grow: its error has the shelf with it, which is put back before the error is told"),
    ("fault_lists/src/first_lists.rt", "next_count", REFUSED, "there is no number of lists past 2^64 - 1: the clause `refused`"),
    ("frame_code/src/names.rt", "slot", REFUSED, "an instruction has no number for a register past 2^32 - 1: the clause `refused`"),
    ("frame_code/src/names.rt", "further", REFUSED, "an instruction has no number for more than 255 further results: the clause `refused`"),
    ("frame_code/src/names.rt", "following", REFUSED, "there is no register, and no weight, behind 2^32 - 1: the clause `refused`"),
    ("frame_code/src/names.rt", "refused_growth", ROOM, "is the growth that is refused, for the three above"),
    ("frames/src/course.rt", "id_after", REFUSED, "there is no serial behind 2^64 - 1: the clause `refused`"),
    ("frames/src/jumping.rt", "State::base_from", REFUSED, "a call's first register has no number past 2^32 - 1: the clause `refused`"),
    ("frames/src/jumping.rt", "State::skip", REFUSED, "code has no place past 2^64 - 1: the clause `refused`"),
    ("frames/src/halt.rt", "refused_growth", ROOM, "is the growth that is refused, for the three above"),
    ("lease/src/said.rt", "next_number", REFUSED, "there is no worker behind 2^32 - 1: the clause `refused`"),
    ("made_objects/src/made.rt", "object_behind", REFUSED, "there is no serial past 2^64 - 1: the clause `refused`"),
    ("owner_steps/src/again.rt", "next_ask", REFUSED, "there is no ask behind 2^32 - 1: the clause `refused`"),
    ("owner_steps/src/results.rt", "id_behind", REFUSED, "there is no serial past 2^64 - 1: the clause `refused`"),
    ("sequence/src/lib.rt", "refused_growth", ROOM, "is the growth that is refused, for the crates above"),
    ("trail/src/lib.rt", "Trail::with", ROOM, "a list's length has no number past 2^64 - 1"),
    ("event_reading/src/history.rt", "events_left", REFUSED, "there is no line behind 2^64 - 2, and no file is as long"),
    ("event_reading/src/lines.rt", "lines_left", REFUSED, "there is no line behind 2^64 - 2, and no file is as long"),
    ("event_reading/src/plan.rt", "plan_left", REFUSED, "there is no line behind 2^64 - 2, and no file is as long"),
    ("event_reading/src/row.rt", "passed_row", REFUSED, "a line that is passed over has no byte past 2^64 - 1: no file is as long"),
    ("protocol_board/src/given.rt", "keep", UNIT, "passes on an event's refusal 39"),
    ("protocol_core/src/steps.rt", "run_out", UNIT, "is called where the step of an event met a refused growth, and nowhere else"),
    ("raysim/src/told.rt", "no_memory", UNIT, "is called with an error of memory at hand: of the words, of a path, of the command line"),
    ("raysim/src/views.rt", "in_memory", UNIT, "what is written in memory fails for want of it alone"),
    ("raysim_explain/src/reason.rt", "RefusalCause::of", UNIT, "names what the number 39 stands for, and ends nothing by it"),
    ("run_commands/src/run_stops.rt", "run_refusal", UNIT, "passes on a run's refusal 39"),
    ("run_commands/src/so_far_command.rt", "but_for_memory", UNIT, "passes on a run's refusal 39"),
    ("script_commands/src/script.rt", "check_refusal", UNIT, "of the checker's errors want of memory alone has no place in the text"),
    ("script_commands/src/script.rt", "syntax_refusal", UNIT, "of the parser's errors want of memory alone has no place in the text"),
    ("seats/src/outs.rt", "keep_or_give_up", UNIT, "there was no memory to keep that a job is out"),
    ("seats/src/turning.rt", "Turning::give_up", UNIT, "is called where a turn found no memory for its choice, or a job none to run in"),
    ("seats/src/turning.rt", "Turning::into_end", UNIT, "a run is given up for 37, or for 38 or 39, which come of want of memory"),
    ("worked_runs/src/checks/readers.rt", "a_failed_read_is_no_script", UNIT, "is a refusal whose text is compared, and ends nothing by it"),
]

# what says nothing: comments, strings, characters
SILENT = re.compile(r"""//[^\n]*|/\*.*?\*/|\br(#*)".*?"\1|"(?:[^"\\]|\\.)*"|'(?:[^'\\\n]|\\[^\n]*?)'""", re.S)
STATEMENT = re.compile(r"\bghost\b|\buse\b|\btype\b|\bmod\s+\w+\s*;")
DATA = re.compile(r"\b(?:struct|enum|union)\s+\w+")
FUNCTION = re.compile(r"\bfn\s+(\w+)")
CLAUSE = re.compile(r"\b(?:requires|ensures)\b[^{}]*$")
# what a line has where it says nothing but types
PASSED = re.compile(r"^\s*(?:ghost |pub )?use [^;]*;|[<,]\s*AllocError\s*>|^\s*//.*", re.M)
IMPLEMENTS = re.compile(r"\bimpl\b")
MADE = re.compile(r"\b(?:(AllocError|AllocFailed(?=\s*\{))|(refused_growth)(?=\s*\()|reserve\w*\s*\(\s*(\w+::MAX|[^();]*<<[^();]*|\d[\d_]{6,}\w*)|(NoMemory))\b")
AT_HAND = re.compile(r"\s*Err\s*\(|.*\b(?:NoMemory|OutOfMemory)\b", re.S)


def blank(text, start, end):
    """The text with spaces between these places, so that all others stay where they are."""
    return text[:start] + re.sub(r"[^\n]", " ", text[start:end]) + text[end:]


def close(text, start):
    """The place behind the bracket that closes the one at that place."""
    depth = 0
    for at in range(start, len(text)):
        depth += (text[at] in "([{") - (text[at] in ")]}")
        if not depth:
            return at + 1
    return len(text)


def behind(text, start, ends):
    """The first place from that one on of one of the characters, outside of brackets."""
    while start < len(text) and text[start] not in ends:
        start = close(text, start) if text[start] in "([{" else start + 1
    return start


def body(text, start):
    """The place where the body of the function begins whose name ends there, behind its clauses; None where it has none."""
    last = at = start
    while True:
        at = behind(text, at, "{;")
        if at == len(text) or text[at] == ";":
            return None
        if not CLAUSE.search(text[last:at]):
            return at
        last = at = close(text, at)


def read(path):
    """What the code of a file does, in its places; its functions, and its `impl`s, each as a name, a head, a beginning and an end."""
    with open(path, encoding="utf-8") as file:
        text = file.read()
    if not MADE.search(PASSED.sub("", text)):
        return "", [], []
    text = SILENT.sub(lambda found: re.sub(r"[^\n]", " ", found[0]), text)
    for found in re.finditer(r"#!?(?=\[)", text):
        text = blank(text, found.start(), close(text, found.end()))
    for found in STATEMENT.finditer(text):
        text = blank(text, found.start(), behind(text, found.start(), ";"))
    functions, types = [], []
    for found in FUNCTION.finditer(text):
        at = body(text, found.end())
        if at is not None:
            functions.append((found[1], "", at, close(text, at)))
        text = blank(text, found.start(), at if at is not None else behind(text, found.end(), ";"))
    for found in DATA.finditer(text):
        at = behind(text, found.end(), "{(;")
        text = blank(text, found.start(), close(text, at) if text[at:at + 1] in ("{", "(") else at)
    for found in IMPLEMENTS.finditer(text):
        at = behind(text, found.end(), "{")
        head = text[found.start():at]
        name = re.sub(r".*\bfor\b", "", head, flags=re.S)
        while "<" in name and name != (name := re.sub(r"<[^<>]*>", "", name)):
            pass
        types.append((name.split()[-1], head, at, close(text, at)))
        text = blank(text, found.start(), at)
    return text, functions, types


def innermost(ranges, at):
    """The name and the head of the smallest of the ranges that the place is in."""
    around = [it for it in ranges if it[2] <= at < it[3]]
    return min(around, key=lambda it: it[3] - it[2])[:2] if around else ("", "")


def opened(text, at):
    """The place of the last bracket before that one that is open there, or of the last `=>` outside of brackets behind it."""
    depth = 0
    for place in range(at - 1, -1, -1):
        depth += (text[place] in ")]}") - (text[place] in "([{")
        if depth < 0 or (depth == 0 and text[place:place + 2] == "=>"):
            return place
    return -1


def head(text, at, ends):
    """What stands before the place, from the last of these characters on that is outside of brackets."""
    depth = 0
    for place in range(at - 1, -1, -1):
        if depth == 0 and text[place] in ends:
            return text[place + 1:at]
        depth += (text[place] in ")]") - (text[place] in "([")
    return text[:at]


def is_read(text, start, end):
    """Whether the word is a pattern or a type, or what something is compared with."""
    before = re.sub(r"(?:\w+\s*::\s*)*$", "", text[:start]).rstrip()
    after = text[end:].lstrip()
    if before.endswith(("<", "==", "!=")) or (before.endswith(",") and after.startswith(">")):
        return True
    return bool(re.match(r"[)\s]*(?:=>|=[^=]|\||if\b)", after)) or bool(re.search(r"\bmatches!\s*\([^;{}]*$", before))


def has_error(text, at):
    """Whether an error is at hand there: the place is in an arm of one, or in the `else` of a `let Ok`."""
    while (at := opened(text, at)) >= 0:
        if text[at] == "=" or text[:at].rstrip().endswith("=>"):
            return bool(AT_HAND.match(head(text, text.rindex("=>", 0, at + 2), ",{}")))
        if text[at] == "{":
            return bool(re.match(r"\s*let\s+Ok\b.*\belse\s*$", head(text, at, ";{}"), re.S))
    return False


def places(top):
    """Each place: a file, a function, what it makes, and the line."""
    found = []
    for crate in sorted(os.listdir(f"{top}/crates")):
        if crate.endswith("_tests"):
            continue
        for folder, _, names in sorted(os.walk(f"{top}/crates/{crate}/src")):
            for name in sorted(it for it in names if it.endswith(".rt")):
                text, functions, types = read(f"{folder}/{name}")
                for made in MADE.finditer(text):
                    what = UNIT if made[4] else ROOM if made[3] else REFUSED if made[2] else VALUE
                    implements, implemented = innermost(types, made.start())
                    if what in (VALUE, UNIT) and is_read(text, made.start(), made.end()):
                        continue
                    if what == UNIT and (re.search(r"\bFrom\s*<\s*Alloc", implemented) or has_error(text, made.start())):
                        continue
                    function = innermost(functions, made.start())[0]
                    path = os.path.relpath(f"{folder}/{name}", f"{top}/crates")
                    found.append((path, f"{implements}::{function}" if implements else function, what, text.count("\n", 0, made.start()) + 1))
    return found


def main(words):
    if words not in ([], ["--check"]):
        sys.exit(__doc__)
    found, said = places(TOP), []
    listed = Counter(row[:3] for row in LIST)
    reasons = {row[:3]: row[3] for row in LIST}
    for path, function, what, line in found:
        if not words:
            print(f"crates/{path}:{line}: {function} makes {what}: {reasons.get((path, function, what), '?')}")
        if not listed[path, function, what]:
            said.append(f"crates/{path}:{line}: {function} makes an error of want of memory itself ({what}), and tools/made_errors.py doesn't say why it may. "
                        "Let it come of a growth that was refused; or add the place to the list there, with a reason")
        listed[path, function, what] -= 1
    said += [f"tools/made_errors.py lists {function} in crates/{path}, which makes no {what} any more"
             for (path, function, what), count in listed.items() if count > 0]
    for line in said:
        print(line)
    return 1 if said else 0


if __name__ == "__main__":
    sys.exit(main(sys.argv[1:]))
