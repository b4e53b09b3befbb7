#!/usr/bin/env python3
"""Lists the definitions that public contracts reach, and writes docs/trusted.md.

    tools/trusted.py            writes docs/trusted.md
    tools/trusted.py --check    fails where docs/trusted.md is not what it would write, or README.md names other crates of the kit than crates.txt

A contract names definitions of specs/, and those name others; what only proofs use isn't reached. Names are read where they stand: one
that is bound there (an argument, a pattern's variable, a field of the record) is no definition's, nor is a field behind a dot, whose
record is reached by its type. Each time, the reading is first tried on a small sample.
"""
import os
import re
import sys

TOP = os.path.dirname(os.path.dirname(os.path.abspath(__file__)))
PAGE = os.path.join(TOP, "docs", "trusted.md")
TOKEN = re.compile(r'"(?:\\.|[^"\\])*"|[()\[\]{},;λ]|[^\s()\[\]{},;λ"]+')
OPENS, CLOSES = "([{", ")]}"
KINDS = ("abbrev", "unfoldable", "pub", "record", "data")

# the law of the bytes: what its contracts name
LAW = [
    ("run_commands", "Reports", "IsAsSerialIn"),
    ("script_commands", "SerialReports", "IsReported"),
    ("script_commands", "Scripts", "IsScript"),
    ("event_log", "Legal", "Legal"),
]

# the chapters in which its files are read, and a sentence of each file
CHAPTERS = [
    ("The law", {
        "report_laws/Serial": "What `serial` says of a script: a line for each print, and the line of its end.",
        "report_laws/Begins": "The law: a text begins with the whole of that, or with the lines of first prints and then `main open` or a fault with its cause.",
        "run_commands/Reports": "The law is of reports, as text, with or without the books or a summary, and as JSON; of the other forms it says nothing.",
        "script_commands/Scripts": "A text is a script where it reads as a program that the rules allow, and that becomes the script.",
        "script_commands/SerialReports": "`serial` writes exactly what it says of the script.",
    }),
    ("Which script a text is", {
        "script_tokens/Tokens": "A token is a number, a name or a mark.",
        "script_tokens/Bytes": "Which bytes are letters, digits and blanks.",
        "script_tokens/Spelling": "How each token is written.",
        "script_tokens/Texts": "A text is pieces, each the longest that could stand there, and tokens are the pieces that aren't blank.",
        "script_syntax/Trees": "Programs as trees, without places in the text.",
        "script_syntax/Operators": "The marks of operators.",
        "script_syntax/Expressions": "The grammar of types and expressions, and the tree of each, a type for each word of the grammar.",
        "script_syntax/Grammar": "The grammar of statements, functions and programs, with its limits.",
        "script_check/Trees": "The kind that a written type names.",
        "script_check/Rules": "Which programs are allowed, and which script each becomes: a rule for each form.",
    }),
    ("What a script means", {
        "meaning/Values": "Integers, lists and references; births of objects, and outcomes.",
        "meaning/Syntax": "Scripts: functions, statements and expressions.",
        "meaning/Runs": "What a run does, as a tree that goes on with whatever a birth and a get give; and the serial run, in which each birth is run at once.",
        "meaning/Births": "Births with the ids of the objects that they make.",
        "meaning/Meaning": "What each part of a script does; the serial run of main, and the replay of a task on answers.",
        "meaning/Lists": "A list begins another.",
        "meaning/Law": "What is printed in a run.",
        "meaning/Kinds": "The kinds of values: whether a reference stands in one, and what an id's object and an argument have.",
    }),
    ("How prints and ends are written", {
        "report/ValueTexts": "The texts of integers, lists and references.",
        "report/MainLines": "The lines of prints and of main's end.",
        "report_lines/Texts": "The texts of faults.",
        "report_lines/Main": "The lines `main open` and `main fault`, and the status of an end.",
    }),
    ("What a log says, where a fault has its cause", {
        "values/Listed": "The ids that stand in a value.",
        "task_spec/Dereferenced": "Which objects a task gets before its body.",
        "ids/Attempts": "An attempt: an object, and a number.",
        "values/Faults": "A fault: why an object has no content, and the object in which that began.",
        "event_log/Entries": "The entries of a run's log; what an event is, and the kind of a fault, is read in the code: `log_entries/src/event.rt`, `values/src/fault.rt`.",
        "event_log/Words": "What a log says of births, attempts and objects: each word joins what the entries say one by one.",
        "event_log/Events": "Which events were accepted, and what they say of workers, nodes and jobs.",
        "event_log/Breaks": "What breaks an attempt, and what causes a fault.",
        "event_log/Serial": "The cause of a fault that an attempt got stands before it in the log.",
        "event_log/Settings": "A log is read beside a script, a number of nodes, and who receives each message.",
        "event_log/Causes": "Why an event is refused.",
        "event_log/Holding": "Which objects are held, and so aren't released.",
        "event_log/Rules": "What each entry needs of those before it.",
        "event_log/Legal": "A log is legal where each event and each entry has what it needs before it.",
    }),
    ("What it says of reports as JSON", {
        "report_laws/Json": "The law of a report as JSON, in its members `prints` and `main`.",
        "report_json/Values": "Values as JSON.",
        "report_json/Main": "Main's end as JSON.",
    }),
]

# whose public contracts a user of the program relies on, and what they are for
ROOTS = [
    ("What the commands promise in addition", ["script_commands", "run_commands", "raysim_commands", "raysim_streams", "raysim_options", "raysim_calls", "kept_lists", "raysim_files"]),
    ("What a run and its parts promise in addition",
     ["protocol_board", "protocol_core", "seats", "report_lines", "report_text", "segment", "evaluation", "script_check", "script_syntax", "script_tokens",
      "event_files", "report_json", "log_text", "message_text", "why_text", "waits", "main_text", "lineage_text", "timeline", "page_text", "engine_text", "lineage",
      "lease", "object_store", "borrow"]),
    ("What the laws say in addition", ["meaning", "script_laws", "event_log", "meaning_laws", "kind_laws", "report_laws", "protocol_laws", "owed_laws"]),
]


def read(path):
    with open(path, encoding="utf-8") as file:
        return file.read()


def uses(text):
    """The names that a text brings in: local name to (crate, module, name), and local prefix to (crate, module).
    What a crate passes on of another's specs stands under `of_` and the other's name."""
    names, prefixes = {}, {}
    for found in re.finditer(r"\buse Rattle\.(\w+)\.specs\.(?:of_(\w+)\.)?([\w.'-]+?)(?:\.\{([^}]*)\}| as (\w+)|)\s*;?\s*(?:\n|$)", text):
        by, home, module, listed, alias = found.groups()
        crate = home or by
        if listed is None:
            prefixes[alias or module.split(".")[-1]] = (crate, module)
            continue
        for item in filter(None, (it.strip() for it in listed.split(","))):
            name, _, local = (word.strip() for word in item.partition(" as "))
            names[(local or name).strip("◌")] = (crate, module, name.strip("◌"))
    return names, prefixes


def top_level(tokens, wanted):
    """The place of the first of these tokens that no bracket holds, or None."""
    depth = 0
    for place, token in enumerate(tokens):
        if depth == 0 and token in wanted:
            return place
        depth += (token in OPENS) - (token in CLOSES)
    return None


def free(tokens, bound):
    """The words of a term or a type that are bound neither around it nor in it, and the names that it binds for what follows."""
    scopes, found = [set(bound)], []
    for at, token in enumerate(tokens):
        before, behind = tokens[at - 1] if at else "", tokens[at + 1] if at + 1 < len(tokens) else ""
        if token in OPENS:
            names = tokens[at + 1:at + 1 + next((k for k, it in enumerate(tokens[at + 1:]) if it in ":=,;" + OPENS + CLOSES), 0)]
            if names and tokens[at + 1 + len(names)] == ":":
                scopes[-1].update(names)
            scopes.append(set(scopes[-1]))
        elif token in CLOSES:
            scopes.pop()
        elif "λ" in (token, before) or before == "let":
            scopes[-1].add(token.rstrip("."))
        elif token[0] not in '".' and not (behind == "=" and before in ("{", ";")):
            if token.split(".")[0] not in scopes[-1]:
                found.append(token)
    return found, scopes[0]


class Unit:
    """A definition, or those of one mutual block: what it is called, its constructors, its lines, and its statements as (bound, tokens)."""

    def __init__(self):
        self.names, self.constructors, self.lines, self.statements = [], [], 0, []


class Module:
    """A file of specs/: its first comment, and its definitions."""

    def __init__(self, crate, path, name, text):
        self.crate, self.path, self.name = crate, path, name
        first = text.split("\n", 1)[0]
        self.title = first[2:].strip() if first.startswith("--") else ""
        self.names, self.prefixes = uses(text)
        self.units, self.of_name, self.constructors = [], {}, set()
        body = re.sub(r"^(?:unfoldable )?(?:pub )?use [^{\n]*(?:\{[^}]*\})?.*$|^pub mod .*$|^infix.*$", "", text, flags=re.M)
        self.read_block(body.split("\n")[1:], set(), [], None)
        for unit in self.units:
            self.constructors.update(unit.constructors)
            for known in unit.names + unit.constructors:
                self.of_name.setdefault(known.strip("◌"), unit)

    def read_block(self, lines, bound, around, unit):
        """Reads statements of one indentation: `bound` and `around` are what the modules around bind and name, `unit` a mutual block."""
        indent = min((len(it) - len(it.lstrip()) for it in lines if it.strip() and not it.lstrip().startswith("--")), default=0)
        comments, statements = 0, []
        for line in lines:
            if not line.strip():
                comments = 0
            elif line.lstrip().startswith("--"):
                comments += 1
            elif len(line) - len(line.lstrip()) == indent:
                statements.append((comments, [line]))
                comments = 0
            else:
                statements[-1][1].extend([""] * comments + [line])
                comments = 0
        current = unit
        for comments, its in statements:
            current = self.read_statement(comments, its, bound, around, unit, current)

    def read_statement(self, comments, lines, bound, around, unit, current):
        tokens = TOKEN.findall("\n".join(re.sub(r"--.*", "", it) for it in lines))
        count = comments + len(lines)
        if tokens[0] == "module":
            names, inner = free(tokens[2:tokens.index("where")], bound)
            self.read_block(lines[1:], inner, around + names, None)
            return None
        if tokens[-1] == "mutual" or "mutual" in tokens[:2]:
            block = Unit()
            block.lines = 1 + comments
            self.units.append(block)
            self.read_block(lines[1:], bound, around, block)
            return block
        colon, equal = top_level(tokens, [":"]), top_level(tokens, ["="])
        if colon is not None and (equal is None or colon < equal):
            self.read_head(tokens, lines, bound, around, count, unit)
            return unit or self.units[-1]
        current.lines += count
        current.statements.append((bound, tokens))
        return current

    def read_head(self, tokens, lines, bound, around, count, unit):
        if unit is None:
            unit = Unit()
            self.units.append(unit)
        unit.lines += count
        start = next(k for k, it in enumerate(tokens) if it not in KINDS)
        unit.names.append(tokens[start])
        kind = tokens[:start]
        end = top_level(tokens, ["where"]) if "record" in kind or "data" in kind else None
        words, inner = free(tokens[start + 1:end], bound)
        unit.statements.append((set(), [":"] + around + words))
        for field in self.members(lines) if end is not None else []:
            name = 1 if field[0] == "pub" else 0
            words, _ = free(field[name + 1:], inner)
            unit.statements.append((set(), [":"] + words))
            if "record" in kind:
                inner = inner | {field[name]}
            else:
                unit.constructors.append(field[name])

    @staticmethod
    def members(lines):
        """The tokens of each field of a record, or of each constructor."""
        lines = [re.sub(r"--.*", "", it).rstrip() for it in lines]
        ends = next(k for k, it in enumerate(lines) if it.endswith(" where"))
        lines = [it for it in lines[ends + 1:] if it]
        indent = min((len(it) - len(it.lstrip()) for it in lines), default=0)
        found = []
        for line in lines:
            if len(line) - len(line.lstrip()) == indent:
                found.append([])
            found[-1].extend(TOKEN.findall(line))
        return found


class Reach:
    """What is reached so far, of all modules: the units of each."""

    def __init__(self, modules):
        self.modules, self.reached, self.todo = modules, set(), []

    def find(self, crate, module, name):
        """The module and the unit that has that name, where it is one of this repository's definitions."""
        here = self.modules.get((crate, module))
        if here is None:
            return None
        if name in here.of_name:
            return here, here.of_name[name]
        return self.find(*here.names[name]) if name in here.names else None

    def look_up(self, word, names, prefixes, here):
        """What a word stands for: the module, the unit and the plain name, or None."""
        first, _, rest = word.rstrip(".").partition(".")
        for crate, module, name in filter(None, (
                names.get(word.rstrip(".")), names.get(first),
                (*prefixes[first], rest.split(".")[0]) if rest and first in prefixes else None,
                (here.crate, here.name, first) if here else None)):
            found = self.find(crate, module, name)
            if found:
                return (*found, name)
        return None

    def add(self, found):
        if found and (found[0], found[1]) not in self.reached:
            self.reached.add((found[0], found[1]))
            self.todo.append((found[0], found[1]))

    def words_of(self, here, bound, tokens):
        """The words that a statement names. In an equation's head what isn't a constructor is bound."""
        equal = top_level(tokens, ["="])
        if tokens[0] == ":" or equal is None:
            return tokens
        words, bound = [], set(bound)
        for token in tokens[:equal]:
            found = self.look_up(token, here.names, here.prefixes, here)
            if found and found[2] in found[0].constructors:
                words.append(token)
            else:
                bound.add(token)
        return words + free(tokens[equal + 1:], bound - set(OPENS + CLOSES))[0]

    def follow(self):
        while self.todo:
            here, unit = self.todo.pop()
            for bound, tokens in unit.statements:
                for word in self.words_of(here, bound, tokens):
                    self.add(self.look_up(word, here.names, here.prefixes, here))

    def clause(self, text, names, prefixes):
        for word in free(TOKEN.findall(re.sub(r"//.*", "", text)), set())[0]:
            self.add(self.look_up(word, names, prefixes, None))


def owner_of(header):
    """The type, the trait or the function that an item's header is about."""
    header = re.sub(r"^(?:pub(?:\([a-z]+\))? )?(?:unsafe )?", "", header)
    if not header.startswith("impl"):
        return header.split("(")[0].split("<")[0].split()[-1]
    rest, depth = header[len("impl"):], 0
    for place, sign in enumerate(rest):
        depth += {"<": 1, ">": -1}.get(sign, 0)
        if depth == 0 and sign in "> ":
            rest = rest[place + 1:]
            break
    return re.match(r"\s*(?:\w+::)*(\w+)", rest.split(" for ")[-1]).group(1)


def clauses(text, is_exported):
    """The clauses of a file's public functions, and what its public types and traits say that their values are."""
    found, item, function, start = [], "", "", 0
    for line in text.splitlines(keepends=True):
        if re.match(r"(?:pub\S* |unsafe )*(?:fn|impl|trait)\b", line):
            item = function = re.split(r"[{;]", text[start:], maxsplit=1)[0]
        elif re.match(r"\s+(?:pub\S* |unsafe )*fn ", line):
            function = line.strip()
        head = re.match(r"\s+(?:ensures|requires)\b[^{]*\{|\s+ghost \w+\s*[=:]\s*\{", line)
        is_open = " for " in item or item.startswith("pub trait") or (head and "ghost" in head.group(0)) or function.startswith("pub fn")
        if head and is_open and is_exported(owner_of(item)):
            depth, end = 1, start + head.end()
            while depth:
                depth += {"{": 1, "}": -1}.get(text[end], 0)
                end += 1
            found.append(text[start + head.end():end - 1])
        start += len(line)
    return found


def files_below(*folders):
    for path, _, files in os.walk(os.path.join(TOP, *folders)):
        yield from (os.path.join(path, it) for it in sorted(files))


def modules_of(crate):
    folder = os.path.join(TOP, "crates", crate, "specs")
    for path in files_below(folder):
        if path.endswith(".antt") and os.path.basename(path) != "Lib.antt":
            name = os.path.relpath(path, folder)[:-5].replace(os.sep, ".")
            yield name, Module(crate, path, name, read(path))


def add_contracts(reach, crate):
    """Reaches what the public contracts of a crate name."""
    root = re.sub(r"//.*", "", read(os.path.join(TOP, "crates", crate, "src", "lib.rt")))
    open_files = ["lib", *re.findall(r"\bpub mod (\w+);", root)]
    listed = {it for found in re.findall(r"\bpub use ([^;]*);", root) for it in re.findall(r"\w+", found)}
    for path in files_below("crates", crate, "src"):
        if not path.endswith(".rt"):
            continue
        text = read(path)
        is_open = os.path.basename(path)[:-3] in open_files
        for clause in clauses(text, lambda name: is_open or name in listed):
            reach.clause(clause, *uses(text))


def rows_of(units, before):
    """For each module that has units behind those before: the module, and their lines."""
    lines = {}
    for here, unit in units - before:
        lines[here] = lines.get(here, 0) + unit.lines
    return lines


def in_order(known, lines):
    """Those of the known modules that have lines, each behind those that it names."""
    found, seen = [], set()

    def visit(here):
        if here in seen or here not in lines:
            return
        seen.add(here)
        for brought in [*here.names.values(), *here.prefixes.values()]:
            for other in known:
                if (other.crate, other.name) == brought[:2]:
                    visit(other)
        found.append(here)

    for here in known:
        visit(here)
    return found


def part_reached(here, reached):
    """Which part of a file's definitions is reached, where that isn't all of them."""
    inside, outside = ([f"`{it.names[0]}`" for it in here.units if ((here, it) in reached) == wanted] for wanted in (True, False))
    if not outside:
        return ""
    return "all but " + ", ".join(outside) if len(outside) < len(inside) else ", ".join(inside)


def table(rows):
    return [*(" | ".join(["", *(str(it) for it in row), ""]).strip() for row in rows), ""]


def path_of(here):
    return f"`{os.path.relpath(here.path, TOP)}`"


INTRODUCTION = """\
# What to believe

The program's promises are contracts, and contracts speak of definitions. Whoever believes these definitions, and the toolchain, need
read no code and no proof. This page lists each file of definitions that public contracts reach, with the lines of those of its
definitions that are reached, comments above them included. What only proofs use isn't here. `tools/trusted.py` makes the page;
`tools/trusted.py --check`, which is part of the gate, says whether it is true.
"""

LAW_TEXT = """\
What `raysim run` and `raysim sim` write begins as what `raysim serial` writes of the script ([theorems.md](theorems.md) has it in words).
Whoever believes that alone reads these files, in this order: {lines} lines in {files} files. Where a file has more than is needed here,
the last column names what is. `run`, `sim` and `run_threaded` carry the law in the fields `is_script`, `as_serial` and `written` (`report_out`)
of `IsRunReported`, `IsSimReported` and `AreWritten`. That the log in which a fault has its cause is the run's own, and legal, their fields `reported`
and `run` say. Types that the definitions share with the code are read there,
and aren't counted: `log_entries/src/{{entry,event,refusal}}.rt`, `values/src/fault.rt`, `script_tokens/src/token.rt`, `script_syntax/src/tree.rt`,
`run_commands/src/form.rt`.
"""


def law_section(modules, reach):
    """The page's first section: what the law of the bytes rests on."""
    for crate, module, name in LAW:
        reach.add(reach.find(crate, module, name))
    reach.follow()
    lines = rows_of(reach.reached, set())
    known = [(*key.split("/"), sentence) for _, group in CHAPTERS for key, sentence in group.items()]
    wanted = {(it.crate, it.name) for it in lines}
    if wanted != {it[:2] for it in known}:
        sys.exit(f"tools/trusted.py: the chapters are not the files that the law of the bytes reaches: {wanted ^ {it[:2] for it in known}}")
    sentences = {it[:2]: it[2] for it in known}
    said = {"lines": f"{sum(lines.values()):,}", "files": len(lines)}
    out = ["## What the law of the bytes rests on alone", "", LAW_TEXT.format(**said)]
    for title, group in CHAPTERS:
        order = in_order([modules[tuple(key.split("/"))] for key in group], lines)
        rows = [(path_of(it), lines[it], sentences[(it.crate, it.name)], part_reached(it, reach.reached)) for it in order]
        out += [f"### {title}", "", "| File | Lines | What it says | Of it |", "|---|---|---|---|", *table(rows)]
    return out


def page(modules):
    reach = Reach(modules)
    out = [INTRODUCTION, *law_section(modules, reach)]
    for title, group in ROOTS:
        before = set(reach.reached)
        for crate in group:
            add_contracts(reach, crate)
        reach.follow()
        lines = rows_of(reach.reached, before)
        named = ", ".join(f"`{it}`" for it in group)
        out += [f"## {title}", "", f"Contracts of {named}: {sum(lines.values()):,} lines in {len(lines)} files.", ""]
        rows = [(path_of(it), lines[it], it.title) for it in sorted(lines, key=lambda it: it.path)]
        out += ["| File | Lines | What it says |", "|---|---|---|", *table(rows)]
    return "\n".join(out).rstrip("\n") + "\n"


# a small sample of definitions and of a contract, and what is to be read in them
BELOW = """\
-- What stands below.

-- a record: its fields are no definitions, and may be called as such
pub record Told : Type 0 where
  pub number : ℕ
  -- of the field, not of the definition
  pub kept : Kept number

abbrev pub number : ℕ
number = 1

abbrev pub Kept : ℕ → Type 0
Kept n = n ≡ 0

pub data Row : Type 0 where
  Passed : Row

module _ (told : Told) where
  abbrev mutual
    pub even : ℕ → Row
    even n = odd n

    pub odd : ℕ → Row
    odd n = even n
"""
ABOVE = """\
-- What stands above.
use Rattle.low.specs.Below.{Told, Row, Passed, number as one}
use Rattle.low.specs.Below as below

abbrev pub IsFile : {A : Type 0} → (A → List (List ℕ)) → (told : Told) → Type 0
IsFile {A} text told = ((one : ℕ) → one ≡ told.number) × IsRow Passed

abbrev pub IsRow : Row → Type 0
IsRow one = one ≡ record { one = one; place = (λ one. one) Passed }

abbrev pub IsEven : Type 0
IsEven = below.even 2 ≡ Passed
"""
CODE = """\
ghost use Rattle.high.specs.Above.{IsFile, IsEven};

fn hidden()
    ensures { IsEven }
{}

pub fn shown<'a>(told: &'a Told)
    ensures told { IsFile result told.now }
{}
"""


def try_sample():
    """Stops where the sample is not read as it is written."""
    sample = {("low", "Below"): Module("low", "", "Below", BELOW), ("high", "Above"): Module("high", "", "Above", ABOVE)}

    def lines_from(*names):
        reach = Reach(sample)
        for name in names:
            reach.add(reach.find("high", "Above", name))
        reach.follow()
        return {unit.names[0]: unit.lines for _, unit in reach.reached}

    wanted = {"IsFile": 2, "IsRow": 2, "Told": 5, "Kept": 2, "Row": 2}
    assert lines_from("IsFile") == wanted, lines_from("IsFile")
    wanted = {"IsEven": 2, "even": 5, "Told": 5, "Kept": 2, "Row": 2}
    assert lines_from("IsEven") == wanted, lines_from("IsEven")
    assert clauses(CODE, lambda name: name == "shown") == [" IsFile result told.now "]


def libraries(text):
    """By crates.txt: of each crate the libraries that it stands on."""
    lines = (line.partition("#")[0].partition(":") for line in text.splitlines())
    return {name.split()[0]: below.split() for name, _, below in lines if name.strip()}


def trusted_crates(text):
    """The crates of the kit that README.md says are trusted."""
    found = re.search(r"the crates of the kit that the\s+program stands on:(.*?), with those", text, flags=re.S)
    return set(re.findall(r"`(\w+)`", found[1])) if found else set()


def main():
    try_sample()
    crates = re.findall(r"^([a-z_0-9]+)[^:\n]*:", read(os.path.join(TOP, "crates.txt")), flags=re.M)
    modules = {(crate, name): module for crate in crates for name, module in modules_of(crate)}
    text = page(modules)
    if "--check" in sys.argv:
        if not os.path.exists(PAGE) or read(PAGE) != text:
            sys.exit("docs/trusted.md is not what tools/trusted.py would write")
        below = libraries(read(os.path.join(TOP, "crates.txt")))
        kit = {it for libraries_below in below.values() for it in libraries_below} - set(below)
        told = trusted_crates(read(os.path.join(TOP, "README.md")))
        if kit != told:
            sys.exit(f"README.md names other crates of the kit than crates.txt: {' '.join(sorted(kit ^ told))}")
        return
    with open(PAGE, "w", encoding="utf-8") as file:
        file.write(text)


if __name__ == "__main__":
    main()
