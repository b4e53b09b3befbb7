#!/usr/bin/env python3
"""Writes the manual page and the completions of the shells from what the program says of itself.

    tools/manual.py PROGRAM             writes docs/raysim.1, docs/completions/raysim.bash and docs/completions/_raysim
    tools/manual.py PROGRAM --check     writes nothing, and fails where one of them isn't what it would write

All commands, words and options, with what they do, come from `PROGRAM --help` and `PROGRAM COMMAND --help`: from the table in which the program looks for them.
"""
import os
import re
import subprocess
import sys

TOP = os.path.dirname(os.path.dirname(os.path.abspath(__file__)))
MANUAL, BASH, ZSH = "docs/raysim.1", "docs/completions/raysim.bash", "docs/completions/_raysim"
# what an option's value is completed to, by the name that help gives it
FILES, FOLDERS = ("FILE",), ("DIR",)
# the words of a command that are files
FILE_WORDS = ("script", "events")
# the values that there are of some options, each of which its help names, and those of which several may stand, with commas between them
VALUES = {"--to": ("dask", "ray"), "--of": ("kill", "notice", "kill-node", "lose", "evict")}
LISTED = ("--of",)
STATUS = [
    ("0", "A script is in order; main ended with a value; no fault was found that main doesn't survive; what was asked for is written, by explain, export and migrate."),
    ("1", "Main ended with a trap; or something was refused, with --so-far too; or a file beside the report could not be written; or a word of the command line is at fault; or help or the version was asked for."),
    ("2", "Main ended with a fault, or is open; a fault was found that main doesn't survive."),
]
EXAMPLES = [
    ("raysim run sq.ray", "Runs a script."),
    ("raysim run sq.ray --nodes 2 --plan deaths.plan --history deaths.ev", "Runs it on threads and two nodes, while what the plan says happens, and keeps the run."),
    ("raysim sim sq.ray deaths.ev --nodes 2", "Replays the run that was kept."),
    ("raysim why sq.ray deaths.ev --nodes 2", "Tells why it ended so."),
]


class Command:
    """A command: its name, what it does, how it is called, its words and its options, each with what help says."""

    def __init__(self, name, said):
        self.name = name
        self.about = said.split("\n", 1)[0]
        self.usage = re.search(r"^Usage: (.*)$", said, re.M)[1]
        self.words = rows(said, "Arguments")
        self.files = [number for number, (form, _) in enumerate(self.words, 1) if form.strip("<>[]") in FILE_WORDS]
        self.options = [Option(*row) for row in rows(said, "Options")]


class Option:
    def __init__(self, form, does):
        self.form, self.does = form, does
        self.long = re.search(r"--[a-z-]+", form)[0]
        self.short = (re.match(r"-[A-Za-z]\b", form) or [None])[0]
        self.value = (re.search(r"<(\w+)>", form) or [None, None])[1]
        unnamed = [it for it in VALUES.get(self.long, ()) if not re.search(rf"(?<![a-z-]){it}(?![a-z-])", does)]
        if unnamed:
            sys.exit(f"help names no {', '.join(unnamed)} of {self.long}")


def rows(said, head):
    """The rows below a heading of help: what stands left, and what it does."""
    found = re.search(rf"^{head}:\n((?:  .*\n?)*)", said, re.M)
    return [re.split(r"\s{2,}", row.strip(), maxsplit=1) for row in found[1].splitlines()] if found else []


def help_of(program, *words):
    """What the program says of itself, under its own name."""
    ran = subprocess.run(["raysim", *words, "--help"], executable=program, capture_output=True, text=True, check=False)
    said = ran.stdout + ran.stderr
    if "Usage: " not in said:
        sys.exit(f"{program} {' '.join(words)} --help tells no usage")
    return said


def commands_of(program):
    whole = help_of(program)
    names = [name for name, _ in rows(whole, "Commands") if name != "help"]
    return Command("raysim", whole), [Command(name, help_of(program, name)) for name in names]


# ---- the manual page


def roff(text):
    """A text as the manual page's language writes it."""
    text = text.replace("\\", "\\e").replace("-", "\\-")
    return f"\\&{text}" if text[:1] in (".", "'") else text


def form_in_roff(form):
    """An option's form, its name in bold and its value in italics."""
    names, value = form.split(" <")[0], (re.search(r"<(.+?)>", form) or [None, None])[1]
    return f"\\fB{roff(names)}\\fR" + (f" \\fI{roff(value)}\\fR" if value else "")


def manual(whole, commands):
    out = ['.TH RAYSIM 1 "" "Rowandeck" "User commands"', ".SH NAME", f"raysim \\- {roff(whole.about[0].lower() + whole.about[1:])}", ".SH SYNOPSIS"]
    for command in commands:
        out += [".B raysim", roff(command.usage.removeprefix("raysim ")), ".br"]
    out += [".SH DESCRIPTION", "A script's functions call each other plainly or remotely. The report of a run begins as that of the run in which every remote call is a plain",
            "call, whatever messages come late or twice, and whatever workers and nodes die: where main ended, with all that it prints and its end; else with",
            "the first of its prints, and main has a fault or is open.", ".SH COMMANDS"]
    for command in commands:
        out += [f".SS raysim {roff(command.usage.removeprefix('raysim '))}", roff(command.about) + "."]
        for form, does in command.words:
            out += [".TP", f"\\fI{roff(re.sub('[<>]', '', form))}\\fR", roff(does)]
        for option in command.options:
            if option.long != "--help":
                out += [".TP", form_in_roff(option.form), roff(option.does)]
    out += [".SH OPTIONS"]
    for option in whole.options:
        of = "of raysim or of a command; raysim help COMMAND does so too" if option.long == "--help" else "without a command"
        out += [".TP", form_in_roff(option.form), f"{roff(option.does)}, {of}."]
    out += [".SH EXIT STATUS"]
    for status, meant in STATUS:
        out += [".TP", f".B {status}", roff(meant)]
    out += [".SH EXAMPLES"]
    for words, does in EXAMPLES:
        out += [".TP", f".B {roff(words)}", roff(does)]
    return "\n".join(out) + "\n"


# ---- completions


def bash(whole, commands):
    def cases(of):
        return "\n".join(f"        {command.name}) words='{' '.join(of(command))}'{'' if command.files else ' files='} ;;" for command in commands)

    values = sorted({it.long for command in commands for it in command.options if it.value})
    files = sorted({it.long for command in commands for it in command.options if it.value in FILES})
    folders = sorted({it.long for command in commands for it in command.options if it.value in FOLDERS})
    others = [it for it in values if it not in files and it not in folders and it not in VALUES]
    asked = []
    if files:
        asked.append(f"        {'|'.join(files)}) mapfile -t COMPREPLY < <(compgen -f -- \"$word\"); return ;;")
    if folders:
        asked.append(f"        {'|'.join(folders)}) mapfile -t COMPREPLY < <(compgen -d -- \"$word\"); return ;;")
    for it in values:
        if it in LISTED:
            asked.append(f"        {it})\n            compopt -o nospace\n            before=${{word%\"${{word##*,}}\"}}")
            asked.append(f"            COMPREPLY=($(compgen -P \"$before\" -W '{' '.join(VALUES[it])}' -- \"${{word##*,}}\"))\n            return\n            ;;")
        elif it in VALUES:
            asked.append(f"        {it}) COMPREPLY=($(compgen -W '{' '.join(VALUES[it])}' -- \"$word\")); return ;;")
    if others:
        asked.append(f"        {'|'.join(others)}) return ;;")
    of_commands = " ".join(it.name for it in commands)
    names = " ".join([of_commands, "help", *(it.long for it in whole.options)])
    return f"""# Completions of raysim for bash: source this file. Made by tools/manual.py from the program's help.
_raysim() {{
    local word=${{COMP_WORDS[COMP_CWORD]}} before=${{COMP_WORDS[COMP_CWORD - 1]}} words files=1
    if [ "$COMP_CWORD" -eq 1 ]; then
        COMPREPLY=($(compgen -W '{names}' -- "$word"))
        return
    fi
    case $before in
{chr(10).join(asked)}
    esac
    case ${{COMP_WORDS[1]}} in
{cases(lambda command: [it.long for it in command.options])}
        help) words='{of_commands}' files= ;;
        *) return ;;
    esac
    case $word in
        -*) COMPREPLY=($(compgen -W "$words" -- "$word")) ;;
        *)
            if [ -n "$files" ]; then
                mapfile -t COMPREPLY < <(compgen -f -- "$word")
            elif [ "${{COMP_WORDS[1]}}" = help ]; then
                COMPREPLY=($(compgen -W "$words" -- "$word"))
            fi
            ;;
    esac
}}
complete -o filenames -F _raysim raysim
"""


def quoted(text):
    """A text between the quotes of zsh, in a place where brackets and colons mean something."""
    return re.sub(r"([\[\]:\\])", r"\\\1", text).replace("'", "'\\''")


def zsh(whole, commands):
    def option(it):
        kind = {"FILE": ":file:_files", "DIR": ":folder:_files -/"}.get(it.value, f":{it.value}:" if it.value else "")
        if it.long in VALUES:
            named = " ".join(VALUES[it.long])
            kind += f"_values -s , {it.value} {named}" if it.long in LISTED else f"({named})"
        return f"'{it.long}[{quoted(it.does)}]{kind}'"

    lines = ["#compdef raysim", "# Completions of raysim for zsh: put this file into a folder of fpath. Made by tools/manual.py from the program's help.", "_raysim() {",
             "    local -a commands", "    commands=("]
    lines += [f"        '{command.name}:{quoted(command.about)}'" for command in commands]
    alone = " ".join(it.long for it in whole.options)
    lines += ["        'help:Print help of a command'", "    )", "    if (( CURRENT == 2 )); then", "        _describe command commands",
              f"        [[ $PREFIX = -* ]] && compadd -- {alone}", "        return", "    fi", "    local command=$words[2]", "    shift words", "    (( CURRENT-- ))",
              "    case $command in", "    help)", "        (( CURRENT == 2 )) && _describe command commands", "        ;;"]
    for command in commands:
        places = [f"'{number}:{form.strip('<>[]')}:{'_files' if number in command.files else ' '}'" for number, (form, _) in enumerate(command.words, 1)]
        said = " \\\n            ".join(["_arguments", *[option(it) for it in command.options], *places])
        lines.append(f"    {command.name})\n        {said}\n        ;;")
    return "\n".join([*lines, "    esac", "}", '_raysim "$@"']) + "\n"


def main(words):
    if not words or words[1:] not in ([], ["--check"]):
        sys.exit(__doc__)
    whole, commands = commands_of(os.path.realpath(words[0]))
    differ = 0
    for path, text in ((MANUAL, manual(whole, commands)), (BASH, bash(whole, commands)), (ZSH, zsh(whole, commands))):
        stands = None
        if os.path.exists(f"{TOP}/{path}"):
            with open(f"{TOP}/{path}", encoding="utf-8") as file:
                stands = file.read()
        if words[1:] and stands != text:
            differ += 1
            print(f"{path} isn't what the program's help says: tools/manual.py PROGRAM writes it anew")
        elif not words[1:]:
            os.makedirs(os.path.dirname(f"{TOP}/{path}"), exist_ok=True)
            with open(f"{TOP}/{path}", "w", encoding="utf-8") as file:
                file.write(text)
    sys.exit(1 if differ else 0)


if __name__ == "__main__":
    main(sys.argv[1:])
