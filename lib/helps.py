"""What `nvd help` prints, and the words of each command."""
import os

from commands import commands
from places import PAGES, TOP, Ended, say, text_of

WORDS = {
    "labels": "IN - labels MODULE [--json]",
    "nfit": "IN - nfit [--json]",
    "list": "IN - list [--json]",
    "free": "IN - free [--json]",
    "init": "IN OUT init MODULE [--cut N] [--evict S] [--json]",
    "create": "IN OUT create --name T --size B [--uuid U] [--region R] [--mode raw|sector] [--sector L] [--lanes W] [--cut N] [--evict S] [--json]",
    "delete": "IN OUT delete UUID|NAME [--cut N] [--evict S] [--json]",
    "rename": "IN OUT rename UUID|NAME NEW-NAME [--cut N] [--evict S] [--json]",
    "info": "IN - info UUID|NAME [--json]",
    "read": "IN - read UUID|NAME SECTOR [--json]",
    "check": "IN OUT check UUID|NAME [--repair] [--json]",
    "write": "IN OUT write UUID|NAME SECTOR VALUE [--json]",
    "export": "IN - export UUID|NAME [--bad-as-zeros] [--json] >FILE",
    "rescue": "IN - rescue UUID|NAME --lost [--json]",
    "import": "IN OUT import UUID|NAME <FILE",
    "replay": "IN OUT replay UUID|NAME [--evict S] <SCHEDULE",
    "serve": "IN OUT serve [--workers N] [--evict S] <SCRIPT",
    "load": "IN OUT load SEED --uuid UUID|NAME [--sessions N] [--calls N] [--workers N]",
    "map": "map IN >FILE",
    "diff": "diff A B",
    "make": "make OUT [--modules N] [--size B] [--labels B] [--qemu] [NAME:SIZE[:raw|sector[:L]][@REGION] ..]",
    "sweep": "sweep [--every K] [--keep DIR] [--run CMD] IN COMMAND ..",
}
# a command's other forms, if it has some
OTHER_WORDS = {"check": ["IN - check [--json]", "IN OUT check --repair [--json]"], "rescue": ["IN - rescue UUID|NAME [--json] >FILE"]}
OTHER_PAGES = "FAULTS, OUTPUT, JSON, FROM_NDCTL, INTEROP and nvd"


def forms(command):
    """The forms of a command's words, as parts of a sentence."""
    return " or ".join(f"nvd {it}" for it in (*OTHER_WORDS.get(command, []), WORDS[command]))


def names():
    """The names of all commands, nvd's own behind those of the program."""
    own = [*commands(), "free", "map", "diff", "make", "sweep"]
    return own + [it for it in WORDS if it not in own]


def near(word, words):
    """The one of these words that was probably meant, as a piece of a sentence; nothing if none is near."""
    import difflib

    found = difflib.get_close_matches(word, list(words), 1, 0.7)
    return f": did you mean '{found[0]}'?" if found else ""


def no_command(word):
    meant = near(word, names())
    return f"there is no command '{word}'{meant}" + (" The commands are " if meant else ": they are ") + " ".join(names())


def overview():
    lines = ["IN is the directory of an image set. OUT is a new directory for the set that a command writes."]
    lines += [f"  nvd {form}" for it in names() for form in (*OTHER_WORDS.get(it, []), WORDS[it])]
    lines += ["  nvd demo             makes a set in a temporary directory, cuts power, recovers, and shows each command",
              f"  nvd help COMMAND     the page of a command; also {OTHER_PAGES}",
              "  nvd --version        the commit, the kit and the build",
              "  nvd --program        the path of the program, for scripts that run it without nvd",
              "  nvd --commands       the table of the commands and their options, for scripts"]
    return "\n".join(lines) + "\n"


def page_of(word):
    """The text of a page; None if there is no such page."""
    for name in (word, word.upper().replace("-", "_")):
        for folder in (PAGES, os.path.join(TOP, "docs")):
            text = None if "/" in name else text_of(os.path.join(folder, f"{name}.md"))
            if text is not None:
                return text
    return None


def help_for(words):
    """The text of `nvd help`, or of one page."""
    if not words:
        return overview()
    text = page_of(words[0])
    if text is None:
        say(f"{no_command(words[0])}; other pages are {OTHER_PAGES}")
        raise Ended(2)
    return text


def asks_for_help(words):
    """The page that `--help` anywhere in a command line asks for, as the words of `nvd help`; None if it asks for none."""
    before = words[: words.index("--")] if "--" in words else words
    if "--help" not in before:
        return None
    known = names()
    return [it for it in before if it in known][:1]
