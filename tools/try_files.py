#!/usr/bin/env python3
"""Tries what the program raysim does with files, how it takes the words of its command line, and what it tells below a refusal: tools/try_files.py PROGRAM.
Each case runs it in a fresh folder, and compares what it writes, its status and the files that are there afterwards. The last line counts them; the status is
1 where one differs."""
import hashlib
import json
import os
import re
import resource
import shutil
import signal
import stat
import subprocess
import sys
import tempfile

SCRIPT = b"fn sq(x: int) -> int { return x * x; }\nfn main() -> int { let r = remote sq(7); print get r; return 0; }\n"
REPORT = b"print 49\nmain value 0\nattempt a1.1#0 w2 accepted\nreleased o1.1\n"
# The events of its run on one thread, as its history has them.
EVENTS_OF_RUN = "claim 1 1,commit 1,deliver 1,deliver 2,deliver 3,claim 2 2,commit 2,deliver 4,deliver 5,deliver 6,claim 1 3,commit 3".split(",")
HISTORY = "".join(f"1 {it}\n" for it in EVENTS_OF_RUN).encode()
NOTHING = "nothing was run or written\n"
NOBODY = 65534
# a run takes a hundredth of this
SECONDS = 60

# What each folder holds at first: files with their bytes, folders, and links with where they lead.
FILES = {
    "sq.ray": SCRIPT,
    "bad.ray": b"fn main() -> int { return y; }\n",
    "no.plan": b"1 tick 1\n",
    "bad.plan": b"soon tick 1\n",
    "settle.ev": b"settle\n",
    "old": b"old\n",
    "secret": b"old\n",
}
FOLDERS = ["in", "locked", "linked"]
LINKS = {"to_script": "sq.ray", "to_old": "old", "to_in": "in", "nowhere": "not/there", "linked/open.ev": "not/there"}
LOCKED = {"secret": 0o000, "locked": 0o555}

# An output that is an input, or another output: the words, and the line that is told.
CLASHES = [
    ("run sq.ray --history sq.ray", "--history sq.ray: is the script itself"),
    ("run sq.ray --history ./sq.ray", "--history ./sq.ray: is the script itself"),
    ("run sq.ray --timeline in/../sq.ray", "--timeline in/../sq.ray: is the script itself"),
    ("run sq.ray --lineage to_script", "--lineage to_script: is the script itself"),
    ("run to_script --lineage sq.ray", "--lineage sq.ray: is the script itself"),
    ("run sq.ray --lineage twin", "--lineage twin: is the script itself"),
    ("run sq.ray --plan no.plan --history no.plan", "--history no.plan: is the plan itself"),
    ("sim sq.ray settle.ev --timeline settle.ev", "--timeline settle.ev: is the event file itself"),
    ("run sq.ray --timeline new --lineage new", "--lineage new: is the file of --timeline, too"),
    ("run sq.ray --timeline new --lineage ./new", "--lineage ./new: is the file of --timeline, too"),
    ("run sq.ray --timeline in/new --lineage to_in/new", "--lineage to_in/new: is the file of --timeline, too"),
    ("run sq.ray --history old --timeline to_old", "--timeline to_old: is the file of --history, too"),
    ("log sq.ray --page sq.ray", "--page sq.ray: is the script itself"),
    ("log sq.ray settle.ev --page settle.ev", "--page settle.ev: is the event file itself"),
    ("run sq.ray --lineage new --page ./new", "--page ./new: is the file of --lineage, too"),
    ("run bad.ray --history old --lineage old", "--lineage old: is the file of --history, too"),
]

# Outputs that can't be written, which is found before anything is run, and the reason.
UNFIT = [
    ("run sq.ray --history not/there", "not/there", "No such file or directory (os error 2)"),
    ("run bad.ray --history not/there", "not/there", "No such file or directory (os error 2)"),
    ("run sq.ray --timeline in", "in", "Is a directory (os error 21)"),
    ("run sq.ray --timeline new/", "new/", "No such file or directory (os error 2)"),
    ("run sq.ray --lineage sq.ray/new", "sq.ray/new", "Not a directory (os error 20)"),
    ("run sq.ray --history locked/new", "locked/new", "Permission denied (os error 13)"),
    ("run sq.ray --history secret", "secret", "Permission denied (os error 13)"),
    ("run sq.ray --history nowhere", "nowhere", "it is a link to a file that is not there"),
    ("sim sq.ray settle.ev --page in", "in", "Is a directory (os error 21)"),
    ("sim sq.ray settle.ev --lineage in", "in", "Is a directory (os error 21)"),
    ("faults sq.ray --out sq.ray", "sq.ray", "it is there and is no folder, and a folder is wanted"),
    ("faults sq.ray --out nowhere", "nowhere", "it is a link to what is not there, and a folder is wanted"),
    ("faults sq.ray --out sq.ray/new", "sq.ray/new", "Not a directory (os error 20)"),
    ("faults sq.ray --out linked", "linked/open.ev", "it is a link to a file that is not there"),
    ("faults sq.ray --out locked", "locked/owner_died.ev", "Permission denied (os error 13)"),
    ("faults sq.ray --out locked/new", "locked/new", "Permission denied (os error 13)"),
    ("faults sq.ray --out in/../locked/new/new/", "in/../locked/new/new/", "Permission denied (os error 13)"),
]

# Inputs that can't be read, and the reason.
UNREAD = [
    ("check none.ray", "none.ray", "No such file or directory (os error 2)"),
    ("serial in", "in", "Is a directory (os error 21)"),
    ("run secret", "secret", "Permission denied (os error 13)"),
    ("run none.ray --history old", "none.ray", "No such file or directory (os error 2)"),
    ("sim sq.ray none.ev", "none.ev", "No such file or directory (os error 2)"),
    ("sim none.ray none.ev", "none.ray", "No such file or directory (os error 2)"),
    ("run sq.ray --plan none.plan --history old", "none.plan", "No such file or directory (os error 2)"),
    ("why sq.ray in", "in", "Is a directory (os error 21)"),
    ("migrate sq.ray secret", "secret", "Permission denied (os error 13)"),
]

# Commands that are refused behind that: older files stay.
REFUSED = [
    ("run bad.ray --history old", "refused 10 at 26..27\n"),
    ("run bad.ray --plan none.plan --history old", "refused 10 at 26..27\n"),
    ("run sq.ray --plan bad.plan --history old", "refused 40 line 1\n"),
    ("run bad.ray --timeline old --lineage new", "refused 10 at 26..27\n"),
    ("sim sq.ray bad.plan --timeline old", "refused 40 line 1\n"),
    ("faults bad.ray --out new", "refused 10 at 26..27\n"),
    ("faults sq.ray bad.plan --out new/new", "refused 40 line 1\n"),
    ("faults none.ray --out in/new", "refused 50\nreading none.ray failed: No such file or directory (os error 2)\n"),
]

# The name of a refusal and its cause, as docs/refusals.md has them.
WORDS = {
    1: "NotAscii: A byte of the script is above 127. The place is that byte.",
    2: "BadToken: A byte begins no token, or a run of letters, digits and _ is none. The place is the byte or the run.",
    3: "Expected: The grammar does not allow this token here, or the text ends too early. The place is the token or the end.",
    4: "TooLarge: A limit is passed: bytes (the place is 0..0), functions, parameters, tokens of an expression, or nesting.",
    10: "UnknownName: No variable or function of this name is in scope, or main is called. The place is the name.",
    11: "WrongType: An expression has another type than its place asks for. The place is the expression.",
    12: "WrongCount: A call has too many or too few arguments. The place is the function's name in the call.",
    13: "NoMain: There is no main, or it has parameters, or its result is not int, or it has several results. The place is 0..0.",
    14: "PrintOutsideMain: A function other than main prints. The place is the word print.",
    15: "MissingReturn: A function's body may end without a return. The place is the function's name.",
    16: "BadRetries: A remote call asks for more than 10 retries. The place is the number.",
    17: "Duplicate: A name is given again while it is in scope. The place is the second name.",
    18: "WrongReturns: A call or a return has another number of results than is asked for. The place is the function's name, or the word return.",
    40: "BadLine: A line of an event file or a plan is none of its format, or the last line has no line feed. Lines are counted from 1.",
    42: "WrongJob: A claim gave another job than the line of a recorded history says. The file was recorded of another run. "
    "Replay it with the script and the cluster that it was recorded of: where it has # lines, they say which.",
}

# What is said of those texts that look like something that another language has.
HINTS = {
    "fn main() -> int { return 1 }\n": "a statement ends with ;, the block of an if or a for stands in { }, and an if is no value",
    "fn main() -> int {\n    let x = 3\n    return x;\n}\n": "a statement ends with ;, the block of an if or a for stands in { }, and an if is no value",
    "fn main() -> int { if 1 return 1; return 2; }\n": "a statement ends with ;, the block of an if or a for stands in { }, and an if is no value",
    "fn main() -> int {\n    let x = 1;\n    if x == 1:\n        return 2;\n    return x;\n}\n": "a block stands in { } and not behind a :",
    "fn main() -> int { let l = [1]; l.push(3); return 1; }\n": "there are no methods: push(l, 3), len(l), remote f(1), get r",
    "fn main() -> int { let l = &1; return 1; }\n": "there is no &: put 1 makes a reference, of the type ref int, and nothing works on bits",
    "fn main() { return 1; }\n": "a function says of which type its result is: fn f() -> int { }",
    "fn main() -> int { let aB = 1; return 1; }\n": "names have small letters, digits and _ alone",
    "fn main() -> int {\n    let size = 1;\n    print size\n    if 1 { return 2; }\n    return 3;\n}\n":
        "a statement ends with ;, the block of an if or a for stands in { }, and an if is no value",
    "fn main() -> int { if 0 { return 1; } else if 1 { return 2; } return 3; }\n":
        "there is no else if and no elif: else { if a { } }",
    "fn print(x: int) -> int { return x; }\n": "this is a word of the language, and can't be a name",
    "fn main() -> int { let set = 3; return 1; }\n": "this is a word of the language, and can't be a name",
    "fn main() -> int { let len = 3; return 1; }\n": "this is a word of the language, and can't be a name",
    "fn a() -> int { return 1; }\nmain() -> int { return a(); }\n": "a function begins with fn, and every statement stands in one",
    "fn main() -> int { f(); return 1; }\n": "a call alone is no statement: let unused = f();",
    "fn f(l: [int]) -> int { return l[]; }\n": "an index stands between the brackets: l[0]",
    "fn main() -> int { let l = []; return 1; }\n": "an empty list says of which type its items are: empty int",
    "fn f() -> [int] { return []; }\n": "an empty list says of which type its items are: empty int",
    "fn f(a: []) -> int { return 1; }\n": "a list's type names that of its items: [int]",
    "fn main() -> int { let l = [1, 2 }; return 1; }\n": "a ( or a [ before it is not closed",
    "fn main() -> int { return f(x: 1); }\n": "an argument has no name: f(1)",
    "fn main() -> int { return 1 | 2; }\n": "there is no ||, no | and no word or: 0 < a + b, where both are 0 or 1",
    "fn main() -> int { let a = 1; if a and a { return 1; } return 2; }\n":
        "there is no && and no word and: one if stands inside another, or a * b where both are 0 or 1",
    "fn main() -> int { let a = 1; if a or a { return 1; } return 2; }\n": "there is no ||, no | and no word or: 0 < a + b, where both are 0 or 1",
    "fn main() -> int { let a = 1; if not a { return 1; } return 2; }\n": "there is no !, no word not and no macro: not a is a == 0",
    "fn main() -> int { let a = 1; return not (a); }\n": "there is no !, no word not and no macro: not a is a == 0",
    "fn main() -> int { for i in 0 .. 3 { break; } return 1; }\n":
        "there is no break and no continue: a return ends a loop and its function, and an if leaves out a part of a turn",
    "fn main() -> int { for i in 0 .. 3 { continue; } return 1; }\n":
        "there is no break and no continue: a return ends a loop and its function, and an if leaves out a part of a turn",
    "fn main() -> int { let l = [1]; for x in l { print x; } return 1; }\n": "a loop counts from one bound to another: for i in 0 .. len(l) { let x = l[i]; }",
    "fn main() -> int { for i in range(3) { } return 1; }\n": "a loop counts from one bound to another: for i in 0 .. len(l) { let x = l[i]; }",
    "fn main() -> int { for (let i = 0; i < 3; i++) { } return 1; }\n": "a loop counts from one bound to another: for i in 0 .. len(l) { let x = l[i]; }",
    "fn main() -> int { let l = [1]; l[0] = 3; return 1; }\n": "no item of a list can be set: set m = push(m, x); in a loop makes a new list",
    "fn main() -> int { let l = [1]; set l[0] = 3; return 1; }\n": "no item of a list can be set: set m = push(m, x); in a loop makes a new list",
    "fn main() -> int { let a = 1; set a += 1; return 1; }\n": "a variable's new value is written whole: set x = x + 1;",
    "fn main() -> int { let a = 1; set a++; return 1; }\n": "a variable's new value is written whole: set x = x + 1;",
    "fn main() -> int { let mut x = 1; return 1; }\n": "there is no mut, since every variable can be set: let x = 1; set x = 2;",
    "fn main() -> int { let t = (1, 2); return 1; }\n":
        "there are no tuples: [1, 2] is a list, return 1, 2; gives two results, and let a, b = f(); takes them",
    "fn main() -> int { let (a, b) = f(); return 1; }\n":
        "there are no tuples: [1, 2] is a list, return 1, 2; gives two results, and let a, b = f(); takes them",
    "fn f(a: int): int { return a; }\n": "a function says of which type its result is: fn f() -> int { }",
    "fn main() : int { return 1; }\n": "a function says of which type its result is: fn f() -> int { }",
    "fn f(a: &int) -> int { return 1; }\n": "there is no &: put 1 makes a reference, of the type ref int, and nothing works on bits",
    "fn main() -> int { let l = [x for x in l]; return 1; }\n":
        "a [ before it is not closed, and no for stands in a list: set l = push(l, x); in a loop makes one",
    "fn main() -> int { for i in 0 .. f(1 { } return 1; }\n": "a ( or a [ before it is not closed",
    "fn main() -> int { return -9223372036854775808; }\n": "the least number is written -9223372036854775807 - 1",
    "fn main() -> int { remote f(1); return 1; }\n": "a value alone is no statement: let r = remote f(); let x = get r;",
    "fn main() -> int { let l = [1]; push(l, 3); return 1; }\n": "push gives a new list: set l = push(l, 3);",
    # (comments are passed over)
    "fn main() -> int {\n    let x = 1;\n    # its square (of the ref:\n    x = x * x;\n    return x;\n}\n":
        "let x = 2; makes a variable, and set x = 2; gives it another value",
    "# prints 1 (or 2\nfn main() { return 1; }\n": "a function says of which type its result is: fn f() -> int { }",
    "fn main() -> int { let x: int = 1; return x; }\n": "a variable's type isn't written: let x = 1;",
    "fn main() -> int { let a = 1; set (a, b) = f(); return 1; }\n": "set gives one variable a value: let a, b = f(); set x = a; set y = b;",
    "fn main() -> int { let a = 1; set a, b = f(); return 1; }\n": "set gives one variable a value: let a, b = f(); set x = a; set y = b;",
    "fn main() -> int { if 0 { return 1; } elif 1 { return 2; } return 3; }\n": "there is no else if and no elif: else { if a { } }",
    "fn f(a: i64) -> int { return a; }\n": "the types are int, [int] for a list, and ref int for a reference",
    "fn f() -> [float] { return 1; }\n": "the types are int, [int] for a list, and ref int for a reference",
    "fn main() -> int { let l = empty str; return 1; }\n": "the types are int, [int] for a list, and ref int for a reference",
    "fn main() -> int { for i in 1 ..= 5 { print i; } return 1; }\n":
        "there is no ..=, and a loop leaves out its second bound: for i in 1 .. n + 1 { }",
    "/* a note */\nfn main() -> int { return 1; }\n": "a comment begins with # and ends with its line, and a quotient is written a / b",
    "fn main() -> int { let x = 1 /* a note */; return x; }\n":
        "a comment begins with # and ends with its line, and a quotient is written a / b",
    "fn main() -> int { return 7 // 2; }\n": "a comment begins with # and ends with its line, and a quotient is written a / b",
    "fn main() -> int { return get remote(1, 2) f(); }\n":
        "one number alone stands in the brackets behind remote, how many retries there may be: remote(2) f(1)",
    "fn main() -> int { return get remote(f, 2); }\n":
        "one number alone stands in the brackets behind remote, how many retries there may be: remote(2) f(1)",
}

OPERATORS = "[ * / % + - == != < <="
VALUES = "- get put INT NAME remote [ ( empty len push"
EVENTS = "claim, commit, deliver, tick, notice, notice-node, evict, lose, kill, kill-node, join and settle"
RECORDED = "claim, commit, deliver, tick, notice, notice-node, evict, lose, kill, kill-node and join"
PLANNED = "tick, notice, notice-node, evict, lose, kill, kill-node and join"

# Scripts that are refused: the number, the text, what stands at the place (none: the text's end), and what is told below the carets.
SCRIPTS = [
    (12, "fn one() -> int { return 1; }\nfn main() -> int { return one(2); }\n", "one(2", 3, ["expected: 0 arguments", "found: 1 argument"]),
    (12, "fn two(a: int, b: int) -> int { return a; }\nfn main() -> int { return get remote two(1); }\n", "two(1", 3,
     ["expected: 2 arguments", "found: 1 argument"]),
    (17, "fn main() -> int {\n    let x = 1;\n    let x = 2;\n    return x;\n}\n", "x = 2", 1, ["first: 2:9"]),
    (17, "fn f() -> int { return 1; }\nfn main() -> int { return 1; }\nfn f() -> int { return 2; }\n", "f() -> int { return 2", 1, ["first: 1:4"]),
    (17, "fn f(a: int, a: int) -> int { return a; }\nfn main() -> int { return 1; }\n", "a: int)", 1, ["first: 1:6"]),
    (11, "fn main() -> int { return put 1; }\n", "put 1", 5, ["expected: int, as the function's result", "found: ref int"]),
    (11, "fn main() -> int { let l = [1, [2]]; return 1; }\n", "[2]", 3, ["expected: int, as the first item", "found: [int]"]),
    (11, "fn main() -> int { let r = put [1]; print r; return 1; }\n", "r; return", 1,
     ["expected: a type with no ref in it, since it is printed", "found: ref [int]"]),
    (11, "fn f(l: [int]) -> int { return 1; }\nfn main() -> int { return get remote f(7); }\n", "7", 1,
     ["expected: [int] or ref [int], as an argument of a remote call", "found: int"]),
    (11, "fn main() -> int { let a = 1; return len(a); }\n", "a); }", 1, ["expected: a list, for len", "found: int"]),
    (11, "fn main() -> int { return get 4; }\n", "4", 1, ["expected: a reference, for get", "found: int"]),
    (11, "fn main() -> int { let l = empty ref int; set l = 3; return 1; }\n", "3; return", 1, ["expected: [ref int], as the variable", "found: int"]),
    (11, "fn main() -> int { if [1] { return 1; } return 2; }\n", "[1]", 3, ["expected: int, as a condition", "found: [int]"]),
    (3, "fn main() -> int { return 1 }\n", "}", 1, [f"expected one of: {OPERATORS} ; ,", "found: }"]),
    (3, "fn main() -> int {\n    let x = 3\n    return x;\n}\n", "return", 6, [f"expected one of: {OPERATORS} ;", "found: return"]),
    (3, "fn main() -> int { return", None, 1, [f"expected one of: {VALUES}", "found: the end of the text"]),
    (3, "fn main() { return 1; }\n", "{", 1, ["expected: ->", "found: {"]),
    (3, "fn f(a) -> int { return 1; }\n", ") ->", 1, ["expected: :", "found: )"]),
    (3, "fn main() -> int { let 3 = 4; }\n", "3", 1, ["expected: NAME", "found: 3"]),
    (3, "main", "main", 4, ["expected: fn", "found: main"]),
    (3, "fn main() -> int {\n    let size = 1;\n    print size\n    if 1 { return 2; }\n    return 3;\n}\n", "if 1", 2,
     [f"expected one of: ( {OPERATORS} ;", "found: if"]),
    (3, "fn main() -> int { if 0 { return 1; } else if 1 { return 2; } return 3; }\n", "if 1", 2, ["expected: {", "found: if"]),
    (3, "fn print(x: int) -> int { return x; }\n", "print", 5, ["expected: NAME", "found: print"]),
    (3, "fn main() -> int { let set = 3; return 1; }\n", "set", 3, ["expected: NAME", "found: set"]),
    (3, "fn main() -> int { let len = 3; return 1; }\n", "len", 3, ["expected: NAME", "found: len"]),
    (3, "fn a() -> int { return 1; }\nmain() -> int { return a(); }\n", "main", 4, ["expected one of: fn or the end of the text", "found: main"]),
    (3, "fn main() -> int { f(); return 1; }\n", "f();", 1, ["expected one of: let set if for print return }", "found: f"]),
    (3, "fn f(l: [int]) -> int { return l[]; }\n", "]; }", 1, [f"expected one of: {VALUES}", "found: ]"]),
    (3, "fn main() -> int { let l = []; return 1; }\n", "]; r", 1, [f"expected one of: {VALUES}", "found: ]"]),
    (3, "fn f() -> [int] { return []; }\n", "]; }", 1, [f"expected one of: {VALUES}", "found: ]"]),
    (3, "fn f(a: []) -> int { return 1; }\n", "]) ->", 1, ["expected one of: int [ ref", "found: ]"]),
    (3, "fn main() -> int { let l = [1, 2 }; return 1; }\n", "}; r", 1, [f"expected one of: {OPERATORS} , ]", "found: }"]),
    (3, "fn main() -> int { return f(x: 1); }\n", ": 1", 1, [f"expected one of: ( {OPERATORS} , )", "found: :"]),
    (2, "fn main() -> int { return 1 | 2; }\n", "|", 1, ["found: |, the byte 124, which begins no token here"]),
    (3, "fn main() -> int { let a = 1; if a and a { return 1; } return 2; }\n", "and", 3, [f"expected one of: ( {OPERATORS} {{", "found: and"]),
    (3, "fn main() -> int { let a = 1; if a or a { return 1; } return 2; }\n", "or", 2, [f"expected one of: ( {OPERATORS} {{", "found: or"]),
    (3, "fn main() -> int { let a = 1; if not a { return 1; } return 2; }\n", "a {", 1, [f"expected one of: ( {OPERATORS} {{", "found: a"]),
    (10, "fn main() -> int { let a = 1; return not (a); }\n", "not", 3, []),
    (3, "fn main() -> int { for i in 0 .. 3 { break; } return 1; }\n", "break", 5, ["expected one of: let set if for print return }", "found: break"]),
    (3, "fn main() -> int { for i in 0 .. 3 { continue; } return 1; }\n", "continue", 8,
     ["expected one of: let set if for print return }", "found: continue"]),
    (3, "fn main() -> int { let l = [1]; for x in l { print x; } return 1; }\n", "{ print", 1, [f"expected one of: ( {OPERATORS} ..", "found: {"]),
    (3, "fn main() -> int { for i in range(3) { } return 1; }\n", "{ }", 1, [f"expected one of: {OPERATORS} ..", "found: {"]),
    (3, "fn main() -> int { for (let i = 0; i < 3; i++) { } return 1; }\n", "(let", 1, ["expected: NAME", "found: ("]),
    (3, "fn main() -> int { let l = [1]; l[0] = 3; return 1; }\n", "l[0]", 1, ["expected one of: let set if for print return }", "found: l"]),
    (3, "fn main() -> int { let l = [1]; set l[0] = 3; return 1; }\n", "[0]", 1, ["expected: =", "found: ["]),
    (3, "fn main() -> int { let a = 1; set a += 1; return 1; }\n", "+", 1, ["expected: =", "found: +"]),
    (3, "fn main() -> int { let a = 1; set a++; return 1; }\n", "++", 1, ["expected: =", "found: +"]),
    (3, "fn main() -> int { let mut x = 1; return 1; }\n", "x =", 1, ["expected one of: = ,", "found: x"]),
    (3, "fn main() -> int { let t = (1, 2); return 1; }\n", ", 2", 1, [f"expected one of: {OPERATORS} )", "found: ,"]),
    (3, "fn main() -> int { let (a, b) = f(); return 1; }\n", "(a", 1, ["expected: NAME", "found: ("]),
    (3, "fn main() -> int { let x = len(1, 2); return 1; }\n", ", 2", 1, [f"expected one of: {OPERATORS} )", "found: ,"]),
    (3, "fn f(a: int): int { return a; }\n", ": int {", 1, ["expected: ->", "found: :"]),
    (3, "fn main() : int { return 1; }\n", ": int", 1, ["expected: ->", "found: :"]),
    (2, "fn f(a: &int) -> int { return 1; }\n", "&", 1, ["found: &, the byte 38, which begins no token here"]),
    (3, "fn main() -> int { let l = [x for x in l]; return 1; }\n", "for", 3, [f"expected one of: ( {OPERATORS} , ]", "found: for"]),
    (3, "fn main() -> int { for i in 0 .. f(1 { } return 1; }\n", "{ }", 1, [f"expected one of: {OPERATORS} , )", "found: {"]),
    (2, "fn main() -> int { return -9223372036854775808; }\n", "9223372036854775808", 19,
     ["expected: a number is at most 9223372036854775807, and no letter and no _ follows it directly", "found: 9223372036854775808"]),
    (3, "fn main() -> int { remote f(1); return 1; }\n", "remote", 6, ["expected one of: let set if for print return }", "found: remote"]),
    (3, "fn main() -> int { let l = [1]; push(l, 3); return 1; }\n", "push", 4, ["expected one of: let set if for print return }", "found: push"]),
    (3, "fn main() -> int {\n    let x = 1;\n    # its square (of the ref:\n    x = x * x;\n    return x;\n}\n", "x = x *", 1,
     ["expected one of: let set if for print return }", "found: x"]),
    (3, "# prints 1 (or 2\nfn main() { return 1; }\n", "{", 1, ["expected: ->", "found: {"]),
    (3, "fn main() -> int { let x: int = 1; return x; }\n", ": int =", 1, ["expected one of: = ,", "found: :"]),
    (3, "fn main() -> int { let x = 1: 3; return x; }\n", ": 3", 1, [f"expected one of: {OPERATORS} ;", "found: :"]),
    (3, "fn main() -> int { let a = 1; set (a, b) = f(); return 1; }\n", "(a, b", 1, ["expected: NAME", "found: ("]),
    (3, "fn main() -> int { let a = 1; set a, b = f(); return 1; }\n", ", b", 1, ["expected: =", "found: ,"]),
    (3, "fn main() -> int { if 0 { return 1; } elif 1 { return 2; } return 3; }\n", "elif", 4,
     ["expected one of: else let set if for print return }", "found: elif"]),
    (3, "fn f(a: i64) -> int { return a; }\n", "i64", 3, ["expected one of: int [ ref", "found: i64"]),
    (3, "fn f() -> [float] { return 1; }\n", "float", 5, ["expected one of: int [ ref", "found: float"]),
    (3, "fn main() -> int { let l = empty str; return 1; }\n", "str", 3, ["expected one of: int [ ref", "found: str"]),
    (3, "fn main() -> int { for i in 1 ..= 5 { print i; } return 1; }\n", "= 5", 1, [f"expected one of: {VALUES}", "found: ="]),
    (3, "/* a note */\nfn main() -> int { return 1; }\n", "/*", 1, ["expected: fn", "found: /"]),
    (3, "fn main() -> int { let x = 1 /* a note */; return x; }\n", "* a", 1, [f"expected one of: {VALUES}", "found: *"]),
    (3, "fn main() -> int { return 7 // 2; }\n", "/ 2", 1, [f"expected one of: {VALUES}", "found: /"]),
    (3, "fn main() -> int { return get remote(1, 2) f(); }\n", ", 2", 1, ["expected: )", "found: ,"]),
    (3, "fn main() -> int { return get remote(f, 2); }\n", "f, 2", 1, ["expected: INT", "found: f"]),
    (4, "fn main() -> int { return " + "(" * 40 + "1" + ")" * 40 + "; }\n", "(" * 9 + "1", 1,
     ["expected: 32 brackets and prefixes open at one place at most", "found: one more"]),
    (4, "fn f(" + ", ".join(f"p{it}: int" for it in range(17)) + ") -> int { return 1; }\n", "p16", 3,
     ["expected: 16 parameters at most", "found: parameter 17"]),
    (4, "".join(f"fn f{it}() -> int {{ return 1; }}\n" for it in range(65)), "fn f64", 2, ["expected: 64 functions at most", "found: function 65"]),
    (4, "fn main() -> int { return " + "1+" * 256 + "7; }\n", "7", 1, ["expected: 512 tokens in one expression at most", "found: token 513"]),
    (10, "fn main() -> int { let total = 1; return totl; }\n", "totl", 4, ["near: total"]),
    (10, "fn square(x: int) -> int { return x * x; }\nfn main() -> int { return sqare(3); }\n", "sqare", 5, ["near: square"]),
    (10, "fn f() -> int { return main(); }\nfn main() -> int { return 1; }\n", "main(); }", 4, ["found: a call of main, which is called by nothing"]),
    (2, "fn main() -> int { let aB = 1; return 1; }\n", "B", 1, ["expected: names have small letters, digits and _", "found: B"]),
    (2, "fn main() -> int { return 07; }\n", "07", 2, ["expected: a number has no leading zero", "found: 07"]),
    (2, "fn main() -> int { return 1 @ 2; }\n", "@", 1, ["found: @, the byte 64, which begins no token here"]),
    (16, "fn f() -> int { return 1; }\nfn main() -> int { return get remote(11) f(); }\n", "11", 2, ["expected: 10 at most", "found: 11"]),
    (18, "fn f() -> (int, int) { return 1; }\nfn main() -> int { return 1; }\n", "return 1; }", 6, ["expected: 2 values", "found: 1 value"]),
    (18, "fn f() -> (int, int) { return 1, 2; }\nfn main() -> int { return f(); }\n", "f(); }", 1, ["expected: 1 result", "found: 2 results"]),
    (18, "fn f() -> (int, int) { return 1, 2; }\nfn main() -> int { let a, b, c = f(); return a; }\n", "f(); return a", 1,
     ["expected: 3 results", "found: 2 results"]),
    (18, "fn f() -> (int, int) { return 1, 2; }\nfn main() -> int { let a, b, c = remote f(); return 1; }\n", "f(); return 1", 1,
     ["expected: 3 results", "found: 2 results"]),
    (17, "fn f() -> (int, int) { return 1, 2; }\nfn main() -> int { let a, a = f(); return 1; }\n", "a = f", 1, ["first: 2:24"]),
    (14, "fn f() -> int { print 1; return 1; }\nfn main() -> int { return 1; }\n", "print", 5, ["found: a print in f"]),
    (13, "fn main(a: int) -> int { return a; }\n", "", 0, ["expected: fn main() -> int", "found: main has parameters"]),
    (15, "fn main() -> int { if 1 { return 1; } }\n", "main", 4, []),
]

# Lists of events, and plans, with the line that is refused and why.
LISTS = [
    ("sim", "settle\nclaim w2\n", 2, "w2 is no number: a worker is written by its number alone"),
    ("sim", "claim 1", 1, "no line feed stands at its end"),
    ("sim", "claim 1\r\n", 1, "a carriage return stands in it: lines end with a line feed alone"),
    ("log", "kill  2\n", 1, "two spaces stand beside one another: one stands between two words"),
    ("sim", "kill 2 \n", 1, "a space stands at its end"),
    ("sim", "claim 1 # first\n", 1, "# stands in it: a comment is a line of its own, which begins with #"),
    ("sim", "raysim 2\n # first\n", 2, "# stands in it: a comment is a line of its own, which begins with #"),
    ("run", "1 kill 2# dies\n", 1, "# stands in it: a comment is a line of its own, which begins with #"),
    ("sim", "# first\n \n", 2, "it has spaces alone: an empty line is passed over, or one that begins with #"),
    ("why", "klaim 1\n", 1, f"there is no event klaim, but claim; there are {EVENTS}"),
    ("sim", "deliver 07\n", 1, "07 is no number: it has a leading zero"),
    ("sim", "kill 4294967296\n", 1, "4294967296 is too large: the number of a worker is at most 4294967295"),
    ("sim", "lose 1 1.2\n", 1, "1.2 is no object: one is written as o1.2"),
    ("sim", "notice 1\n", 1, "it is written notice W V"),
    ("faults", "settle but w2\n", 1, "w2 is no number: a worker is written by its number alone"),
    ("sim", "1 kill 2\n", 1, "1 stands in front of the event: so it does in a plan, and in a file whose first line is raysim 2"),
    ("sim", "raysim 2\nclaim 1 1\n", 2, "claim is no seat: a line of a file of format 2 begins with one, from 0 to 8"),
    ("migrate", "raysim 2\n0 claim 1 1\n", 1, "the file is of format 2 already"),
    ("run", "0 claim 1\n", 1, f"claim stands in no plan: the run does that by itself; there are {PLANNED}"),
    ("run", "soon kill 1\n", 1, "soon is no number of commits, with which a line of a plan begins"),
    ("sim", "setle\n", 1, f"there is no event setle, but settle; there are {EVENTS}"),
    ("sim", "raysim 2\n0 setle\n", 2, f"there is no event setle; there are {RECORDED}"),
    ("log", "raysim 2\n0 klaim 1 1\n", 2, f"there is no event klaim, but claim; there are {RECORDED}"),
    ("sim", "raysim 2\n0 settle\n", 2, "a file of format 2 has no settle lines: all of its events are written out"),
    ("run", "1 kil 2\n", 1, f"there is no event kil, but kill; there are {PLANNED}"),
    ("run", "1 clam 2\n", 1, f"there is no event clam; there are {PLANNED}"),
    ("run", "01 kill 2\n", 1, "01 is no number: it has a leading zero"),
    ("run", "18446744073709551616 kill 2\n", 1, "18446744073709551616 is too large: the number of commits is at most 18446744073709551615"),
    ("sim", "raysim 2\n01 join\n", 2, "01 is no number: it has a leading zero"),
    ("sim", "lose 1 o4294967296.1\n", 1, "4294967296 is too large: an object's owner is at most 4294967295"),
    ("run", "1 evict 1 o1.18446744073709551616\n", 1, "18446744073709551616 is too large: an object's serial is at most 18446744073709551615"),
    ("sim", "lose 1 o01.2\n", 1, "01 is no number: it has a leading zero"),
    ("sim", "evict 1 o1.02\n", 1, "02 is no number: it has a leading zero"),
    ("sim", "evict 1 o1.x\n", 1, "o1.x is no object: one is written as o1.2"),
    ("sim", "commit 18446744073709551616\n", 1, "18446744073709551616 is too large: the number of a job is at most 18446744073709551615"),
    ("run", "1 kill w4294967296\n", 1, "w4294967296 is no number: a worker is written by its number alone"),
]


def make(folder):
    """Fills a folder."""
    for name, bytes_ in FILES.items():
        with open(f"{folder}/{name}", "wb") as it:
            it.write(bytes_)
    for name in FOLDERS:
        os.mkdir(f"{folder}/{name}")
    for name, to in LINKS.items():
        os.symlink(to, f"{folder}/{name}")
    os.link(f"{folder}/sq.ray", f"{folder}/twin")
    os.chmod(f"{folder}/old", 0o640)
    for it in [folder, *(os.path.join(folder, it) for it in os.listdir(folder))]:
        if os.geteuid() == 0:
            os.chown(it, NOBODY, NOBODY, follow_symlinks=False)
    for name, mode in LOCKED.items():
        os.chmod(f"{folder}/{name}", mode)


def found(folder):
    """What stands in a folder: each name with its kind and what it holds."""
    held = {}
    for name in sorted(os.listdir(folder)):
        path = f"{folder}/{name}"
        if os.path.islink(path):
            held[name] = ("link", os.readlink(path))
        elif os.path.isdir(path):
            held[name] = ("folder", tuple(os.listdir(path)))
        elif name in LOCKED and os.geteuid() != 0:
            held[name] = ("file", FILES[name])
        else:
            with open(path, "rb") as it:
                held[name] = ("file", it.read())
    return held


def limits(most):
    """Of a child process: it is nobody, where this one is root, and no file of it grows beyond so many bytes."""

    def set_up():
        if os.geteuid() == 0:
            os.setgroups([])
            os.setgid(NOBODY)
            os.setuid(NOBODY)
        if most is not None:
            signal.signal(signal.SIGXFSZ, signal.SIG_IGN)
            resource.setrlimit(resource.RLIMIT_FSIZE, (most, most))

    return set_up


class Trial:
    """The program, and how many cases went well."""

    def __init__(self, program, room):
        self.program, self.room = program, room
        self.passed = self.failed = 0

    def run(self, words, status, told="", report=b"", changed=None, most=None, output=subprocess.PIPE):
        """Runs a case. `changed` names the files that are there afterwards as they weren't, each with a test of its bytes, or None where it is gone."""
        folder = tempfile.mkdtemp(dir=self.room)
        make(folder)
        before = found(folder)
        words = words.split() if isinstance(words, str) else words
        output = output(folder) if callable(output) else output
        ran = subprocess.run(
            [self.program, *words],
            cwd=folder,
            stdin=subprocess.DEVNULL,
            stdout=output,
            stderr=subprocess.PIPE,
            preexec_fn=limits(most),
            restore_signals=most is None,
            timeout=SECONDS,
        )
        if isinstance(output, int) and output >= 0:
            os.close(output)
        after = found(folder)
        why = []
        if ran.returncode != status:
            why.append(f"status {ran.returncode}, not {status}")
        said = ran.stderr.decode()
        if said != told and not (isinstance(told, re.Pattern) and told.fullmatch(said)):
            why.append(f"told {said!r}, not {told!r}")
        wrote = ran.stdout
        if wrote is not None and wrote != report and not (isinstance(report, re.Pattern) and report.fullmatch(wrote)):
            why.append(f"wrote {wrote!r}, not {report!r}")
        for name in sorted({*before, *after}):
            if name in (changed or {}):
                if name not in after or not changed[name](after[name][1]):
                    why.append(f"{name} is {after.get(name)}")
            elif before.get(name) != after.get(name):
                why.append(f"{name} was {before.get(name)}, is {after.get(name)}")
        mode = stat.S_IMODE(os.stat(f"{folder}/old").st_mode)
        if mode != 0o640:
            why.append(f"the bits of old are {mode:o}")
        self.count(" ".join(map(str, words)), why)

    def written(self, words):
        """What words write on the standard output, in a fresh folder."""
        folder = tempfile.mkdtemp(dir=self.room)
        make(folder)
        return subprocess.run([self.program, *words.split()], cwd=folder, stdin=subprocess.DEVNULL, capture_output=True, check=False).stdout

    def same(self, words, plain, told, status=0):
        """Words that write what others do, and tell more."""
        self.run(words, status, told, self.written(plain))

    def count(self, name, why):
        if why:
            self.failed += 1
            print(f"differs: raysim {name}: {'; '.join(why)}")
        else:
            self.passed += 1


def is_history(bytes_):
    return bytes_.startswith(b"raysim 2\n") and bytes_.endswith(b"\n") and b"claim" in bytes_


def is_json(bytes_):
    return bytes_[:1] in b"[{" and bytes_.rstrip()[-1:] in b"]}" and len(bytes_) > 10


def is_graph(bytes_):
    return bytes_.startswith(b"strict digraph") and bytes_.rstrip().endswith(b"}")


def is_page(bytes_, nodes=1):
    """A page whose JSON has the script, and the log, the report and the state at the end of its run by the settle rule, on so many nodes."""
    head, run, tail = re.fullmatch(rb"(.*<script id=\"run\" type=\"application/json\">)([^<]*)(</script>.*)", bytes_, re.S).groups()
    run = json.loads(run)
    return (
        head.startswith(b"<!DOCTYPE html>")
        and tail.endswith(b"</html>\n")
        and sorted(run) == ["cluster", "log", "report", "script", "state"]
        and run["cluster"] == {"nodes": nodes, "slots": 4}
        and run["script"].encode() == SCRIPT
        and run["report"].encode() == REPORT
        and "    w1 sends message 1 to n1: Ask(a1.1#0, 0)\n" in run["log"]
        and run["log"].endswith("    w1 releases o1.1\n")
        and run["state"].startswith("behind event 12 of 12\n")
    )


def unwritten(name, why):
    return f"refused 50\nwriting {name} failed: {why}\n"


def try_refusals(trial):
    for words, line in CLASHES:
        trial.run(words, 1, f"{line}; {NOTHING}")
    for words, name, why in UNFIT:
        trial.run(words, 1, unwritten(name, why) + NOTHING)
    for words, name, why in UNREAD:
        trial.run(words, 1, f"refused 50\nreading {name} failed: {why}\n")
    for words, told in REFUSED:
        trial.run(words, 1, told)
    trial.run(["run", b"\xff.ray"], 1, "a word of the command line is not UTF-8\n")
    missing = "No such file or directory (os error 2)"
    trial.run(["faults", "sq.ray", "--out", ""], 1, unwritten("''", missing) + NOTHING)
    trial.run(["run", "sq.ray", "--page", ""], 1, unwritten("''", missing) + NOTHING)
    for words in [["check", ""], ["sim", "sq.ray", ""], ["run", "sq.ray", "--plan", ""]]:
        trial.run(words, 1, f"refused 50\nreading '' failed: {missing}\n")
    trial.run(["explain", ""], 1, "'' is the name of no refusal, fault or trap\n")
    kinds = "is no kind of fault: kill, notice, kill-node, lose and evict are, with commas between them\n"
    trial.run("faults sq.ray --of kill,foo", 1, f"foo {kinds}")
    trial.run(["faults", "sq.ray", "--of", ""], 1, f"an empty word {kinds}")


def try_writes(trial):
    trial.run("run sq.ray", 0, report=REPORT)
    trial.run("run sq.ray --history old", 0, report=REPORT, changed={"old": is_history})
    trial.run("run sq.ray --history to_old", 0, report=REPORT, changed={"old": is_history})
    trial.run("run sq.ray --history in/../new", 0, report=REPORT, changed={"new": is_history})
    three = {"old": is_history, "t": is_json, "l": is_graph}
    trial.run("run sq.ray --history old --timeline t --lineage l", 0, report=REPORT, changed=three)
    two = {"old": is_json, "l": is_graph}
    trial.run("run sq.ray --timeline old --lineage l", 0, report=REPORT, changed=two)
    trial.run("sim sq.ray settle.ev --timeline old --lineage l", 0, report=REPORT, changed=two)
    trial.run("run sq.ray --history /dev/null --timeline /dev/null", 0, report=REPORT)
    trial.run("run sq.ray --page old", 0, report=REPORT, changed={"old": is_page})
    trial.run("sim sq.ray settle.ev --page p --timeline old", 0, report=REPORT, changed={"p": is_page, "old": is_json})


def try_failures(trial):
    """Writes that fail on the way: older files stay, what could be written is, and each failure is told."""
    large, full = "File too large (os error 27)", "No space left on device (os error 28)"
    old, new = (unwritten(it, large) + f"{it} is not written; the standard output is\n" for it in ["old", "t"])
    trial.run("run sq.ray --history old", 1, old, REPORT, most=100)
    trial.run("run sq.ray --timeline old", 1, old, REPORT, most=100)
    trial.run("sim sq.ray settle.ev --lineage old", 1, old, REPORT, most=100)
    trial.run("run sq.ray --history old --timeline t", 1, old + new, REPORT, most=100)
    trial.run("run sq.ray --history old --timeline t", 1, new, REPORT, {"old": is_history}, most=400)
    special = unwritten("/dev/full", full) + "/dev/full is not written; the standard output is\n"
    trial.run("run sq.ray --history /dev/full --lineage old", 1, special, REPORT, {"old": is_graph})

    def to_full(_):
        return os.open("/dev/full", os.O_WRONLY)

    told = unwritten("the standard output", full)
    for words in ["check sq.ray", "serial sq.ray", "run sq.ray", "sim sq.ray settle.ev", "explain 3", "migrate sq.ray settle.ev"]:
        trial.run(words, 1, told, output=to_full)
    trial.run("run sq.ray --history old --timeline t", 1, told, changed={"old": is_history, "t": is_json}, output=to_full)
    trial.run("run sq.ray --lineage old", 1, told, changed={"old": is_graph}, output=to_full)
    lost = told + unwritten("/dev/full", full) + "/dev/full is not written, and neither is the standard output\n"
    trial.run("run sq.ray --lineage /dev/full", 1, lost, output=to_full)

    def to_closed_pipe(_):
        reader, writer = os.pipe()
        os.close(reader)
        return writer

    for words in ["check sq.ray", "run sq.ray", "sim sq.ray settle.ev", "explain 3"]:
        trial.run(words, 1, output=to_closed_pipe)
    trial.run("run sq.ray --timeline old", 1, changed={"old": is_json}, output=to_closed_pipe)


def try_standard_output(trial):
    """The standard output as an output."""

    def to_old(folder):
        return os.open(f"{folder}/old", os.O_WRONLY | os.O_APPEND)

    told = f"is where the standard output goes; {NOTHING}"
    trial.run("run sq.ray --history old", 1, f"--history old: {told}", output=to_old)
    trial.run("run sq.ray --history /dev/stdout", 1, f"--history /dev/stdout: {told}", output=to_old)
    folder = tempfile.mkdtemp(dir=trial.room)
    make(folder)
    ran = subprocess.run([trial.program, "run", "sq.ray", "--history", "/dev/stdout"], cwd=folder, stdout=subprocess.PIPE)
    is_both = ran.returncode == 0 and ran.stdout.endswith(REPORT) and is_history(ran.stdout[: -len(REPORT)])
    trial.count("run sq.ray --history /dev/stdout", [] if is_both else [f"status {ran.returncode}, wrote {ran.stdout!r}"])


def explained(code, text, mark, width):
    """What stands below a script's refusal down to the words of its number: the place is where the mark begins, and the text's end where there is none."""
    start = len(text) if mark is None else text.index(mark)
    end = start if mark is None else start + width
    line = text.count("\n", 0, start) + 1
    begun = text.rfind("\n", 0, start) + 1
    shown = text[begun:].split("\n")[0]
    carets = " " * (start - begun) + "^" * max(width, 1)
    told = f"refused {code} at {start}..{end}\nbad.ray:{line}:{start - begun + 1}\n    {shown}\n    {carets}\n"
    if code in (10, 12, 15, 17):
        told += f"    name: {text[start:end]}\n"
    return told


def try_explanations(trial):
    """What is told with --explain."""
    for code, text, mark, width, lines in SCRIPTS:
        told = explained(code, text, mark, width)
        FILES["bad.ray"] = text.encode()
        hint = HINTS.get(text)
        if hint:
            told += f"    hint: {hint}\n"
        told += "".join(f"    {it}\n" for it in [WORDS[code], *lines])
        trial.run("check bad.ray --explain", 1, told)
        trial.run("sim bad.ray settle.ev --explain", 1, told)
    marked = "refused 1 at 0..1\nbad.ray:1:1\n    ???fn main() -> int { return 1; }\n    ^\n"
    marked += "    hint: a byte order mark stands before the script: save the file without one\n"
    marked += f"    {WORDS[1]}\n    expected: bytes up to 127\n    found: the byte 239\n"
    FILES["bad.ray"] = b"\xef\xbb\xbffn main() -> int { return 1; }\n"
    trial.run("check bad.ray --explain", 1, marked)
    # (a tab is shown as a space, so that the caret stands below its place)
    FILES["bad.ray"] = b"fn main() -> int {\n\treturn y;\n}\n"
    tabbed = "refused 10 at 27..28\nbad.ray:2:9\n     return y;\n            ^\n    name: y\n" + f"    {WORDS[10]}\n"
    trial.run("check bad.ray --explain", 1, tabbed)
    for command, text, number, why in LISTS:
        kind = "the plan" if command == "run" else "the event file"
        FILES["bad.plan"] = text.encode()
        words = "run sq.ray --plan bad.plan" if command == "run" else f"{command} sq.ray bad.plan"
        shown = text.split("\n")[number - 1].replace("\r", "?")
        told = f"refused 40 line {number}\n{kind} bad.plan, line {number}:\n    {shown}\n    {WORDS[40]}\n    why: {why}\n"
        trial.run(f"{words} --explain", 1, told)
        trial.run(words, 1, f"refused 40 line {number}\n")
    try_unseen_lines(trial)


def try_unseen_lines(trial):
    """Bad lines of what isn't read a second time: of a device, and behind the first 1,000,000 bytes of a file."""
    for words, kind in [("sim sq.ray {}", "the event file"), ("run sq.ray --plan {}", "the plan")]:
        told = f"refused 40 line 1\n{kind} /dev/zero, line 1:\n    it is not shown, since the file can't be read a second time\n    {WORDS[40]}\n"
        trial.run(words.format("/dev/zero --explain"), 1, told)
    bad = "kill w2"
    shown = f"    {bad}\n    {WORDS[40]}\n    why: w2 is no number: a worker is written by its number alone\n"
    unseen = f"    it is not shown, since it does not end in the file's first 1,000,000 bytes\n    {WORDS[40]}\n"
    # (so many bytes stand before the line; the last one that is shown ends with the millionth)
    for before, told in [(999_992, shown), (999_993, unseen), (1_000_000, unseen), (1_000_001, unseen)]:
        FILES["bad.plan"] = f"#{' ' * (before - 2)}\n{bad}\n".encode()
        trial.run("sim sq.ray bad.plan --explain", 1, f"refused 40 line 2\nthe event file bad.plan, line 2:\n{told}")
    FILES["bad.plan"] = b"soon tick 1\n"


def try_limits(trial):
    """What is told of limits, also without --explain."""
    # (crates/worked_runs/data/endpoints.cases tells how the event is found)
    many = b"fn f() -> int { return 1; }\nfn main() -> int {\n    let l = empty ref int;\n    for i in 0 .. 1100 { set l = push(l, remote f()); }\n"
    many += b"    for i in 0 .. 1100 { let unused = get l[i]; }\n    return 0;\n}\n"
    FILES["bad.ray"] = many
    limit = "limit: 1,024 workers in all, dead ones too: one more would have been opened in event 20586 (deliver 20584)\n"
    remedy = "what to do: get some results before the next tasks are begun, or give each task more to do\n"
    on = "--nodes 64 --slots 64"
    trial.run(f"run bad.ray {on}", 1, f"refused 37\n{limit}{remedy}")
    trial.run(f"why bad.ray {on}", 1, f"refused 37\n{limit}{remedy}")
    possible = "limit: 1,024 workers in all, 1,000,000 objects, or 64 nodes: the next event would have passed one of them\n"
    each = "what to do: for workers get some results before the next tasks are begun, or give each more to do; for objects put fewer values; for nodes let fewer join\n"
    trial.run(f"run bad.ray {on} --threads 2", 1, f"refused 37\n{possible}{each}")
    FILES["bad.plan"] = b"0 join\n" * 64
    trial.run("run sq.ray --plan bad.plan", 1, f"refused 37\n{possible}{each}")
    stopped = "".join(f"{it} is not written, since the run was stopped\n" for it in ["t", "l", "p"])
    three = "--timeline t --lineage l --page p"
    trial.run(f"run bad.ray {on} --so-far {three}", 1, f"refused 37\n{limit}{remedy}{stopped}", report=re.compile(rb"main open\n.*", re.S))
    met = limit.replace("20586 (deliver 20584)", "100000 (deliver 20584)").replace("limit: ", "the last event met another limit, ") + remedy
    limit = "limit: 100,000 events, those of settle lines counted\n"
    alone = "what to do: give each task more to do: each takes some ten events\n"
    remedy = "what to do: leave out lines of which nothing comes, or give each task more to do: each takes some ten events\n"
    # (with a fault at each place the run is settled first, which goes on behind what is refused 37)
    trial.run(f"faults bad.ray {on} --most 1 --out new", 1, f"refused 41\n{limit}{met}")
    trial.run(f"faults bad.ray settle.ev {on} --most 1", 1, f"refused 41\n{limit}{met.replace('84)', '84, line 1)')}")
    # (a run of 100,002 events has a report, and nothing that is made from its replay)
    FILES["long.ray"] = b"fn f() -> int { return 1; }\nfn main() -> int { for i in 0 .. 10000 { let unused = get remote f(); } return 0; }\n"
    long = re.escape(f"refused 41\n{limit}") + r"the last step was in event 100000 \([a-z]+ \d+\)\n" + re.escape(alone)
    beside, report = r"{} is not written; the standard output is\n", re.compile(rb"main value 0\n.*", re.S)
    trial.run("faults long.ray", 1, re.compile(long))
    trial.run("run long.ray --page p", 1, re.compile(long + beside.format("p")), report)
    trial.run("run long.ray --threads 1 --lineage l", 1, re.compile(long + beside.format("l")), report)
    trial.run("run long.ray --lineage l", 0, report=report, changed={"l": is_graph})
    FILES["bad.plan"] = b"tick 1\n" * 100001
    place = "the last step was in event 100000 (tick 1, line 100000)\n"
    trial.run("sim sq.ray bad.plan", 1, f"refused 41\n{limit}{place}{remedy}")
    FILES["bad.plan"] = b"join\n" * 100001
    place = "the last event met another limit, 64 nodes in all, dead ones too: one more would have joined in event 100000 (join, line 100000)\n"
    place += "what to do: let fewer nodes join\n"
    trial.run("sim sq.ray bad.plan", 1, f"refused 41\n{limit}{place}")
    trial.run("sim sq.ray bad.plan --so-far --nodes 64", 1, f"refused 41\n{limit}{place}", report=b"main open\n" + b"refused 37 join\n" * 100000)
    trial.run(f"sim sq.ray bad.plan --so-far --json {three}", 1, f"refused 41\n{limit}{place}{stopped}", report=re.compile(rb"{.*}\n"))
    for more in ["--threads 2", "--plan no.plan", "--history new"]:
        trial.run(f"run sq.ray --so-far {more}", 1, "--so-far can't be given with --threads, --plan or --history\n")


def try_endpoints(trial):
    """Why workers and nodes are as they are, in a run that is driven, and what is no name of anything."""
    told = b"w2 was opened on n1 in event 3 (deliver 1), for a1.1#0 (sq).\na1.1#0 (sq) began on w2 in event 5 (deliver 3).\n"
    FILES["two.ray"] = b"fn sq(x: int) -> int { return x * x; }\nfn main() -> int { let a = remote sq(3); let b = remote sq(4); return get a + get b; }\n"
    told += b"a1.1#0 (sq) ended in event 10 (commit 2): 9.\n"
    told += b"w1 accepted a1.1#0 (sq) in event 11 (deliver 7), and keeps the result itself: no node can lose it.\nw2 has nothing to do now.\n"
    trial.run("why two.ray w2", 0, report=told)
    # (w2 is opened and dies before it runs anything, so nothing made what it would own)
    FILES["unborn.ev"] = b"claim 1\ncommit 1\ndeliver 1\nkill 2\nnotice 1 2\n"
    told = b"There is no o2.1: w2, which would own it, never made it.\nw2, the owner of o2.1, died in event 4 (kill 2, line 4).\n"
    trial.run("why two.ray unborn.ev o2.1", 2, report=told + b"w1 learned in event 5 (notice 1 2, line 5) that w2 was dead.\n")
    trial.run("why two.ray n2", 0, report=b"There is no n2.\n")
    trial.run("why two.ray o7.7", 0, report=b"There is no o7.7: w7, which would own it, never made it.\n")
    # (a word that is no name is the event file's)
    names = "is no object, worker or node: they are written as o1.2, w3 and n1\n"
    for word in ["O1.1", "o1", "a1.1#0"]:
        missing = f"refused 50\nreading {word} failed: No such file or directory (os error 2)\n"
        trial.run(f"why two.ray {word}", 1, f"{missing}{word} {names}")
        trial.run(f"log two.ray {word}", 1, missing)
    trial.run("why two.ray settle.ev w7", 0, report=b"There is no w7.\n")
    trial.run("why two.ray settle.ev x7", 1, f"x7 {names}")


def sum_of(script):
    return f"sha256 {hashlib.sha256(script).hexdigest()}"


def head_of(cluster, threads, script):
    """The lines behind a history's first that say of which run it is."""
    return f"# cluster: {cluster}\n# threads: {threads}\n# script: {sum_of(script)}\n"


def try_heads(trial):
    """Of which run a history is, and what is told where that isn't the one that it is replayed on."""
    usual, other = "--nodes 1 --slots 4", "--nodes 2 --slots 3"
    whole = ("raysim 2\n" + head_of(usual, 1, SCRIPT)).encode() + HISTORY
    trial.run("run sq.ray --threads 1 --history new", 0, report=REPORT, changed={"new": lambda it: it == whole})
    wide = ("raysim 2\n" + head_of(other, 8, SCRIPT)).encode()
    trial.run(f"run sq.ray --threads 8 {other} --history new", 0, report=REPORT, changed={"new": lambda it: it.startswith(wide)})
    FILES["whole.ev"] = whole
    FILES["wide.ev"] = whole.replace(usual.encode(), other.encode())
    FILES["bare.ev"] = whole.replace(b"# cluster: ", b"# of: ").replace(b"# script: ", b"# by: ")
    FILES["late.ev"] = FILES["bare.ev"] + b"# cluster: --nodes 9 --slots 9\n"
    FILES["odd.ev"] = whole.replace(usual.encode(), b"--nodes \x1b[2J")
    FILES["same.ray"] = SCRIPT + b"# the same\n"
    FILES["blank.ev"] = whole.replace(usual.encode(), b"")
    cluster = "note: {} was recorded with {}, not with {}\n"
    script = f"note: whole.ev was recorded of another script than same.ray: its sum is {sum_of(SCRIPT)}, not {sum_of(FILES['same.ray'])}\n"
    for name in ["whole.ev", "bare.ev", "late.ev", "settle.ev"]:
        trial.run(f"sim sq.ray {name}", 0, report=REPORT)
    trial.run("sim sq.ray wide.ev", 0, cluster.format("wide.ev", other, usual), REPORT)
    trial.run("sim sq.ray whole.ev --slots 5", 0, cluster.format("whole.ev", usual, "--nodes 1 --slots 5"), REPORT)
    for name in ["odd.ev", "blank.ev"]:
        trial.run(f"sim sq.ray {name}", 0, cluster.format(name, "something else", usual), REPORT)
    trial.run("sim same.ray whole.ev", 0, script, REPORT)
    trial.run("sim same.ray whole.ev --slots 5", 0, cluster.format("whole.ev", usual, "--nodes 1 --slots 5") + script, REPORT)
    FILES["wrong.ev"] = FILES["wide.ev"].replace(b"claim 1 1", b"claim 1 2")
    trial.run("sim sq.ray wrong.ev", 1, "refused 42 line 5\n" + cluster.format("wrong.ev", other, usual))
    for words in ["log sq.ray {}", "why sq.ray {}", "why sq.ray {} o1.1", "state sq.ray {}", "state sq.ray {} --at 3"]:
        status = 2 if "--at" in words else 0
        trial.same(words.format("wide.ev"), words.format("bare.ev"), cluster.format("wide.ev", other, usual), status)
    trial.same("faults sq.ray wide.ev --most 2", "faults sq.ray bare.ev --most 2", cluster.format("wide.ev", other, usual))


# The run of that script by the settle rule, in the forms that docs/reading-a-log.md, docs/state.md and docs/commands.md have.
JSON = b'{"attempts":[{"attempt":"a1.1#0","state":"accepted","worker":2}],"main":{"end":"value","value":0},"prints":[49],"refused":[],'
JSON += b'"released":["o1.1"],"resolved":[]}\n'
LOG = b"""n1 opens w1
w1 begins a1.0#0: main()
1. claim 1: w1 takes job 1
2. commit 1: w1 has done job 1
    a1.0#0 (main) makes o1.1: remote(3) sq(7)
3. deliver 1: message 1 arrives
    n1 opens w2
4. deliver 2: message 2 arrives
    w2 begins a1.1#0: sq(7)
5. deliver 3: message 3 arrives
6. claim 2: w2 takes job 2
7. commit 2: w2 has done job 2
    a1.1#0 (sq) ends with 49
8. deliver 4: message 4 arrives
    w1 accepts a1.1#0 (sq)
    a1.0#0 (main) gets o1.1: 49
9. deliver 5: message 5 arrives
10. deliver 6: message 6 arrives
11. claim 1: w1 takes job 3
12. commit 3: w1 has done job 3
    main prints 49
    a1.0#0 (main) ends with 0
    w1 releases o1.1
"""
WHY = b"""a1.0#0 (main) made o1.1 in event 2 (commit 1, line 1): remote(3) sq(7).
a1.1#0 (sq) began on w2 in event 4 (deliver 2, line 1).
a1.1#0 (sq) ended in event 7 (commit 2, line 1): 49.
w1 accepted a1.1#0 (sq) in event 8 (deliver 4, line 1), and keeps the result itself: no node can lose it.
a1.0#0 (main) got o1.1 in event 8 (deliver 4, line 1): 49.
w1 released o1.1 in event 12 (commit 3, line 1): nothing needed it any more.
"""
STATE = b"""behind event 12 of 12
n1: alive, 0 of 4 slots taken
n1: workers w1 w2
n2: alive, 0 of 4 slots taken
n2: workers
w1: alive, on n1, driver
w1: a1.0#0 (main) ended
w2: alive, on n1, idle
w2: a1.1#0 (sq) ended
o1.1: made by sq, owner w1, released
o1.1: 0 of 3 retries used
"""
SUMMARY = b"""summary
function main: 1 task, 1 attempt, 0 for deaths, 0 for losses, 1 result, 0 faults, 0 given up
function sq: 1 task, 1 attempt, 0 for deaths, 0 for losses, 1 result, 0 faults, 0 given up
message Ask: 1 sent, 1 delivered
message Give: 1 sent, 1 delivered
message Back: 1 sent, 1 delivered
message Push: 1 sent, 1 delivered
message Finished: 1 sent, 1 delivered
message FinishedAck: 1 sent, 1 delivered
event claim: 3 came, 0 refused
event commit: 3 came, 0 refused
event deliver: 6 came, 0 refused
opened: 2 workers on 1 node
"""

# A put of a list that is cut where it isn't asked for whole, and of whose release its node is told.
LONG = b"fn main() -> int { let l = put [1, 2, 3, 4, 5, 6, 7, 8, 9]; return 0; }\n"
LONG_LOG = b"n1 opens w1\nw1 begins a1.0#0: main()\n1. claim 1: w1 takes job 1\n2. commit 1: w1 has done job 1\n    a1.0#0 (main) makes o1.1: put "
LONG_LOG += b"%s\n    a1.0#0 (main) ends with 0\n    w1 releases o1.1\n3. deliver 1: message 1 arrives\n"
LONG_WHY = b"a1.0#0 (main) made o1.1 in event 2 (commit 1, line 1): put %s.\n"
LONG_WHY += b"w1 released o1.1 in event 2 (commit 1, line 1): nothing needed it any more.\n"
CUT, WHOLE = b"[1, 2, 3, .. 6 items]", b"[1, 2, 3, 4, 5, 6, 7, 8, 9]"

# Words that are at fault, and the first lines that are told of them.
WORDS_AT_FAULT = [
    ("run sq.ray --threads 0", "invalid value '0' for '--threads <N>': 0 is not in 1..=8"),
    ("run sq.ray --threads 9", "invalid value '9' for '--threads <N>': 9 is not in 1..=8"),
    ("sim sq.ray settle.ev --nodes 0", "invalid value '0' for '--nodes <N>': 0 is not in 1..=64"),
    ("sim sq.ray settle.ev --nodes 65", "invalid value '65' for '--nodes <N>': 65 is not in 1..=64"),
    ("sim sq.ray settle.ev --slots 65", "invalid value '65' for '--slots <N>': 65 is not in 1..=64"),
    ("sim sq.ray settle.ev --books --json", "the argument '--books' cannot be used with '--json'"),
    ("run sq.ray --summary --json", "the argument '--summary' cannot be used with '--json'"),
    ("sim sq.ray settle.ev --summary --books", "the argument '--summary' cannot be used with '--books'"),
    ("migrate sq.ray", "the following required arguments were not provided:\n  <events>"),
    ("state sq.ray", "the following required arguments were not provided:\n  <events>"),
    ("explain", "the following required arguments were not provided:\n  <what>"),
    ("fly sq.ray", "unrecognized subcommand 'fly'"),
    ("", "'raysim' requires a subcommand but one was not provided"),
]


def table(lists, ends, *more):
    """The table of `faults`: how many lists there are, in how many main ended in which way, and the lines behind that."""
    names = ["as serial", "fault OwnerDied", "fault PutLost", "fault RetriesUsed", "open", "main killed", "stopped"]
    return "".join(f"{it}\n" for it in [f"lists {lists}", *(f"{name} {ends.get(name, 0)}" for name in names), *more]).encode()


def try_words(trial):
    """How the words of the command line are taken: what each asks for, what is left out, and words at fault."""
    for words, line in WORDS_AT_FAULT:
        trial.run(words, 1, re.compile(re.escape(f"error: {line}\n") + ".*", re.S))
    usual = "--nodes 1 --slots 4"
    FILES["of_1_4.ev"] = ("raysim 2\n" + head_of(usual, 1, SCRIPT)).encode() + HISTORY
    FILES["tick.plan"] = b"0 tick 7\n"
    FILES["long.ray"] = LONG
    # (on one node with four slots, which the head of its history says; a worker that isn't there is refused 30)
    ticked = REPORT + b"refused 30 tick 7\n"
    head = ("raysim 2\n" + head_of(usual, 8, SCRIPT)).encode()
    trial.run("run sq.ray --threads 8 --plan=tick.plan", 0, report=ticked)
    on_threads = {"new": lambda it: it.startswith(head) and b" tick 7\n" in it}
    trial.run("run sq.ray --threads 8 --plan=tick.plan --history new", 0, report=ticked, changed=on_threads)
    noted = "note: of_1_4.ev was recorded with --nodes 1 --slots 4, not with {}\n"
    trial.run("sim sq.ray of_1_4.ev --nodes 64 --slots=1 --json", 0, noted.format("--nodes 64 --slots 1"), JSON)
    trial.run("sim sq.ray of_1_4.ev", 0, report=REPORT)
    trial.run("sim sq.ray settle.ev --books", 0, report=REPORT + b"book 0 3 6\n")
    trial.run("run sq.ray --json", 0, report=JSON)
    trial.run("run sq.ray --summary", 0, report=REPORT + SUMMARY)
    trial.run("log sq.ray", 0, report=LOG)
    trial.run("log long.ray", 0, report=LONG_LOG % CUT)
    trial.run("log long.ray --full", 0, report=LONG_LOG % WHOLE)
    trial.run("why long.ray settle.ev o1.1", 0, report=LONG_WHY % CUT)
    trial.run("why long.ray settle.ev o1.1 --full", 0, report=LONG_WHY % WHOLE)
    trial.run("log sq.ray --nodes 2 --page=p", 0, report=LOG, changed={"p": lambda it: is_page(it, 2)})
    seated = re.sub(rb"(?m)^(\d.*)$", rb"\1 (seat 1)", LOG)
    trial.run("log sq.ray of_1_4.ev --nodes 2", 0, noted.format("--nodes 2 --slots 4"), seated)
    trial.run("why sq.ray", 0, report=b"Main ended in event 12 (commit 3): 0.\n")
    trial.run("why --help", 1, re.compile(r".*\nUsage: raysim why \[OPTIONS\] <script> \[events\] \[what\]\n.*\n  \[what\]  .*", re.S))
    trial.run("why sq.ray settle.ev", 0, report=b"Main ended in event 12 (commit 3, line 1): 0.\n")
    trial.run("why sq.ray settle.ev o1.1", 0, report=WHY)
    trial.same("why sq.ray of_1_4.ev o1.1 --nodes 3", "why sq.ray of_1_4.ev o1.1", noted.format("--nodes 3 --slots 4"))
    trial.run("state sq.ray settle.ev --at 12 --nodes 2", 0, report=STATE)
    three = {"t": is_json, "l": is_graph, "p": is_page}
    trial.run("sim sq.ray settle.ev --timeline t --lineage=l --page p", 0, report=REPORT, changed=three)
    try_faults_words(trial, noted)
    try_migrations(trial)
    told = explained(10, FILES["bad.ray"].decode(), "y", 1) + f"    {WORDS[10]}\n"
    for command in ["check", "serial", "sim", "log", "why", "migrate", "faults"]:
        words = [command, "bad.ray", *(["settle.ev"] if command in ("sim", "why", "migrate") else [])]
        trial.run(words, 1, "refused 10 at 26..27\n")
        trial.run([*words, "--explain"], 1, told)
        trial.run([command, "--explain", *words[1:]], 1, told)


def try_faults_words(trial, noted):
    """Which faults are tried. The run has 12 events, so 13 places; o1.1 is born in the second and w2 opened in the third."""
    # a loss and an eviction at each of 3 nodes, at the 11 places behind its birth: its owner keeps the result itself, so none can be lost
    told = table(66, {"as serial": 66}, "attempts 1 without a fault, 1 at most, 66 in all")
    trial.run("faults sq.ray --of lose,evict --nodes 3", 0, report=told)
    trial.run("faults sq.ray of_1_4.ev --of lose,evict --nodes 3", 0, noted.format("--nodes 3 --slots 4"), told)
    # deaths of w1 at 13 places and of w2 at 10, each with a notice too, of n1 at 13, and losses at 11: 70 lists, of which the first 9 are
    # a death of w1, the same with a notice, and one of n1, before the first event, behind it and behind the second
    behind = ["attempts 1 without a fault, 0 at most, 0 in all", "kill 1 before event 1: main killed"]
    told = table("9 of 70", {"main killed": 9}, *behind)
    trial.run("faults sq.ray settle.ev --most 9 --out found", 0, report=told, changed={"found": lambda it: it == ("main_killed.ev",)})
    # (a folder is made with those above it, where it has something)
    trial.run("faults sq.ray settle.ev --most 9 --out new/found/", 0, report=told, changed={"new": lambda it: it == ("found",)})
    trial.run("faults sq.ray settle.ev --most 9 --out in", 0, report=told, changed={"in": lambda it: it == ("main_killed.ev",)})
    trial.run("faults sq.ray --of lose --out new/found", 0, report=trial.written("faults sq.ray --of lose"))


def try_migrations(trial):
    """Which slots a migration has: of three tasks all are begun on four slots, and two of them on two, while the third waits in the queue."""
    FILES["three.ray"] = b"fn f() -> int { return 1; }\n"
    FILES["three.ray"] += b"fn main() -> int { let a = remote f(); let b = remote f(); let c = remote f(); return get a + get b + get c; }\n"
    FILES["idle.ev"] = b"settle but 2 3 4\n"
    # (an Ask, a Give and a Push for each that is begun, an Ask and a Wait for the one that isn't)
    for words, messages in [("migrate three.ray idle.ev", 9), ("migrate three.ray idle.ev --slots 2", 8)]:
        events = ["claim 1 1", "commit 1", *(f"deliver {it + 1}" for it in range(messages))]
        trial.run(words, 0, report=("raysim 2\n" + "".join(f"0 {it}\n" for it in events)).encode())


def try_life(trial):
    """What is told while a run goes on: the last line of those that are rewritten, and what main prints."""
    line = r"(\r\d+ events, [01] of [01] tasks done, \d+ s)*"
    last = r"\r12 events, 1 of 1 tasks done, \d+ s\n"
    trial.run("run sq.ray --progress", 0, re.compile(line + last), REPORT)
    trial.run("run sq.ray --progress --threads 2", 0, re.compile(line + last), REPORT)
    trial.run("run sq.ray --stream", 0, "print 49\n", REPORT)
    trial.run("run sq.ray --stream --threads 1", 0, "print 49\n", REPORT)
    trial.run("run sq.ray --stream --json", 0, "print 49\n", trial.written("run sq.ray --json"))
    both = re.compile(line + r"\n?print 49\n" + line + last)
    trial.run("run sq.ray --progress --stream", 0, both, REPORT)
    # (neither asks for threads, on which nothing is told so far)
    trial.run("run sq.ray --progress --stream --so-far", 0, both, REPORT)
    trial.run("run bad.ray --progress --stream", 1, "refused 10 at 26..27\n")
    tried = re.compile(r"(\r\d of 3 lists tried, \d+ s)*\r3 of 3 lists tried, \d+ s\n")
    trial.run("faults sq.ray --most 3 --progress", 0, tried, trial.written("faults sq.ray --most 3"))
    alone = re.compile(r"(\r\d of 1 list tried, \d+ s)*\r1 of 1 list tried, \d+ s\n")
    trial.run("faults sq.ray --most 1 --progress", 0, alone, trial.written("faults sq.ray --most 1"))


def try_names(trial):
    """What numbers and names mean."""
    reason = b"30 NoWorker\nThe first worker that an event names does not live: it was never opened, or it is dead.\n"
    reason += b"Example: claim 7 in a run with two workers\n"
    for word in ["30", "NoWorker", "noworker"]:
        trial.run(f"explain {word}", 0, report=reason)
    no_main = b"13 NoMain\nThere is no main, or it has parameters, or its result is not int, or it has several results. The place is 0..0.\n"
    trial.run("explain 13", 0, report=no_main + b"Example: an empty script\n")
    memory = b"39 NoMemory\nThere was no memory. A command then gives no report; the log of a run stays legal. "
    memory += b"Take a smaller script, fewer events, or a machine with more memory.\nExample: a very large list on a small machine\n"
    trial.run("explain 39", 0, report=memory)
    another = f"42 {WORDS[42].replace(': ', chr(10), 1)}\n".encode()
    trial.run("explain 42", 0, report=another + b"Example: 0 claim 1 2 as the first claim of a file of format 2, since it gives job 1\n")
    limits = b"41 TooLong\nMore than 100,000 events would be applied. A replay that meets it ends with no report. "
    limits += b"Take fewer events, or ask for the report up to there by --so-far.\nExample: a file of 100,001 lines join\n"
    limits += b"Limits: 100,000 events, those of settle lines counted; 262,144 lines of a plan that say something; "
    limits += b"1,048,576 bytes of settle lines in all, their line feeds not counted\n"
    trial.run("explain 41", 0, report=limits)
    trap = b"DivZero, a trap\nA number was divided by 0.\nComes of: / or % by 0\nExample: 1 / 0\nWhat to do: test the divisor before\n"
    trial.run("explain divzero", 0, report=trap)
    trial.run("explain OwnerDie", 1, "OwnerDie is the name of no refusal, fault or trap; near are: OwnerDied\n")
    trial.run("explain NoWorkers", 1, "NoWorkers is the name of no refusal, fault or trap; near are: NoWorker\n")
    trial.run("explain Owner", 1, "Owner is the name of no refusal, fault or trap\n")
    trial.run("explain x", 1, "x is the name of no refusal, fault or trap\n")
    for word in ["OwnerDied", "ownerDied"]:
        trial.run(f"explain {word}", 0, report=re.compile(rb"OwnerDied, a fault\n.+", re.S))
    retries = b"16 BadRetries\nA remote call asks for more than 10 retries. The place is the number.\nExample: let r = remote(11) f();\n"
    trial.run("explain 16", 0, report=retries)
    limit = b"37 Limit\nThe event would make object 1,000,001, worker 1,025 or node 65. A run that meets it ends with no report, "
    trial.run("explain 37", 0, report=limit + b"unless --so-far asks for the one up to there; a replay goes on behind it.\nExample: 1,100 remote calls that are all open\n")
    trial.run("explain nothing_like_it", 1, "nothing_like_it is the name of no refusal, fault or trap\n")
    trial.run("explain 5", 1, "nothing is refused 5\n")
    trial.run("explain 256", 1, "nothing is refused 256\n")


def unable(trial):
    """Why nothing can be tried here, if so."""
    lacking = [it for it in ["/dev/full", "/dev/null", "/dev/stdout", "/dev/zero"] if not os.path.exists(it)]
    if lacking:
        return f"There is no {lacking[0]}"
    who = ", as the user nobody, since this is root" if os.geteuid() == 0 else ""
    try:
        ran = subprocess.run([trial.program, "explain", "30"], cwd=trial.room, capture_output=True, preexec_fn=limits(None), timeout=SECONDS)
    except (OSError, subprocess.SubprocessError) as error:
        return f"The program doesn't run in the folder {trial.room}{who}: {error}"
    return f"The program doesn't run in the folder {trial.room}{who}: status {ran.returncode}, {ran.stderr[:300]!r}" if ran.returncode else None


def main():
    if len(sys.argv) != 2:
        sys.exit("usage: tools/try_files.py PROGRAM")
    if not os.access(sys.argv[1], os.X_OK):
        sys.exit(f"try_files: nothing was tried. There is no program {sys.argv[1]}")
    room = tempfile.mkdtemp()
    try:
        os.chmod(room, 0o755)
        program = shutil.copy(sys.argv[1], f"{room}/raysim")
        os.chmod(program, 0o755)
        trial = Trial(program, room)
        why = unable(trial)
        if why:
            sys.exit(f"try_files: nothing was tried. {why}")
        parts = [try_refusals, try_writes, try_failures, try_standard_output, try_heads, try_words, try_life]
        parts += [try_explanations, try_limits, try_endpoints, try_names]
        for part in parts:
            part(trial)
        print(f"{trial.passed} passed, {trial.failed} failed")
        return 1 if trial.failed else 0
    finally:
        subprocess.run(["chmod", "-R", "u+rwX", room], check=False)
        shutil.rmtree(room)


if __name__ == "__main__":
    sys.exit(main())
