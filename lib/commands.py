#!/usr/bin/env python3
"""The program's table of commands, lib/commands.txt: it is made from the sources of crates/shell_run, and everything outside the program reads it.

usage: lib/commands.py --check   (ends with `N passed, M failed`: whether the file is what the sources say)
       lib/commands.py --write   (makes it anew)
"""
import os
import sys

LIB = os.path.dirname(os.path.abspath(__file__))
TABLE = os.path.join(LIB, "commands.txt")
HEAD = """\
# The program's commands, made from crates/shell_run by lib/commands.py --write. `-` stands for none; places are in their order. With `?` behind
# its places a command may stand without them: it takes the whole set then. It writes one only with its option without a value.
# command, places, options that must be given, options that may be, those without a value, whether it writes an image set, for which it copies
# the contents of modules, and whether it reads a script
"""


class Command:
    """A row of the table."""

    def __init__(self, fields):
        self.name, places, needed, others, flags, writes, script = fields
        self.places, self.needed, self.others, self.flags = ([] if it == "-" else it.split(",") for it in (places, needed, others, flags))
        self.may_take_whole = places.endswith("?")
        self.places = [it.rstrip("?") for it in self.places]
        self.writes, self.script = writes == "yes", script == "yes"


ROWS = {}


def commands():
    """The commands by their names, read once."""
    if not ROWS:
        with open(TABLE, encoding="utf-8") as file:
            ROWS.update((it.name, it) for it in (Command(line.split()) for line in file if not line.startswith("#")))
    return ROWS


def is_whole(row, rest):
    """Whether the words behind a command's name make it one that takes the whole set, though it has places: there are none, or its options without a value."""
    return row.may_take_whole and rest in ([], [f"--{it}" for it in row.flags])


def takes_whole(words):
    """Whether a command line's command takes the whole set, though it has places."""
    row = commands().get(words[2]) if len(words) > 2 else None
    return bool(row and is_whole(row, words[3:]))


def writes(words):
    """Whether a command line is one of a command that writes an image set."""
    row = commands().get(words[2]) if len(words) > 2 else None
    return bool(row and row.writes) and not (is_whole(row, words[3:]) and len(words) == 3)


def source(*path):
    with open(os.path.join(LIB, "..", "crates", *path), encoding="utf-8") as file:
        return file.read()


def cases(text, name):
    """What a definition by cases says of each constructor; a case for all others stands under `_`."""
    import re

    found = {}
    for case, value in re.findall(rf"(?m)^{name} \(?(?:command\.)?(\w+)[^=\n]*= (.*)$", text):
        found.setdefault(case if case[0].isupper() else "_", value)
    return lambda case: found[case] if case in found else found["_"]


def arguments_in(text):
    """The places, the options that must be given and the others, by the command's kind."""
    import re

    forms = {name: (word, form) for name, word, form in re.findall(r'const (\w+): Argument = Argument \{\s*name: "([\w-]+)",\s*form: Form::(\w+),', text)}
    for kind, names in re.findall(r"CommandKind::(\w+) => &\[([^\]]*)\]", text):
        said = [forms[it] for it in re.findall(r"\w+", names)]
        yield kind, ["".join(f",{word}" for word, form in said if form == it)[1:] or "-" for it in ("Place", "Required", "Optional", "Flag")]


def made():
    """The table as the sources have it."""
    import re

    table, run = source("shell_run", "src", "commands.rt"), source("shell_run", "specs", "Run.antt")
    arguments = dict(arguments_in(table))
    variants = re.findall(r"(?m)^    (\w+)(?:\(.*\))?,$", re.search(r"pub enum CommandLine \{(.*?)\n\}", source("shell_run", "src", "words.rt"), re.S)[1])
    words = cases(source("shell_run", "specs", "Words.antt").replace(" kind.", " "), "command_in")
    script, copies = (cases(run, it) for it in ("reads_script", "copies"))
    alone = re.findall(r'\[\] if name == "(\w+)" =>', table)
    yield HEAD
    for name, kind in re.findall(r'if name == "(\w+)" \{\s*return Some\(CommandKind::(\w+)\);', table):
        # the variant of the command: it has the kind's name, or the values of its arguments make it
        variant = kind if kind in variants else next(it for it in variants if re.search(rf"(?<![\w.]){it}\b", words(kind)))
        places, *options = arguments[kind]
        yield " ".join([name, places.replace(",", "?,") + "?" if name in alone else places, *options, *("yes" if it(variant) == "true" else "no" for it in (copies, script))]) + "\n"


def main():
    due = "".join(made())
    if sys.argv[1:] == ["--write"]:
        with open(TABLE, "w", encoding="utf-8") as file:
            file.write(due)
    elif sys.argv[1:] == ["--check"]:
        with open(TABLE, encoding="utf-8") as file:
            same = file.read() == due
        if not same:
            print("differs: lib/commands.txt isn't what crates/shell_run says; lib/commands.py --write makes it anew")
        print(f"{int(same)} passed, {int(not same)} failed")
        return int(not same)
    else:
        print(__doc__, file=sys.stderr)
        return 2
    return 0


if __name__ == "__main__":
    sys.exit(main())
