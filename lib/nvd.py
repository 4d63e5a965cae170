"""nvd: runs nvdimm_shell with the words of its command line, on a fresh checkout too. `nvd help` shows all commands.

nvd chooses the program (build.py), completes the words (words.py), runs it with nvd's own streams (runs.py), and after a fault says what to do
(explain.py, from the tables of docs/commands/FAULTS.md). Standard input, standard output and the exit status are the program's own. What nvd
does itself has a module each: pages (helps.py), JSON (answers.py), free space (space.py), the
picture (picture.py), differences (differences.py), new sets (making.py), the sweep (sweep.py) and what the lines of `check` and `rescue` mean (findings.py).
"""
import os
import sys

HERE = os.path.dirname(os.path.realpath(__file__))
sys.path.insert(0, HERE)
if not os.access(HERE, os.W_OK) and not os.path.isdir(os.path.join(HERE, "__pycache__")):
    # where nothing can be written, Python keeps what it compiles in the user's folder
    sys.pycache_prefix = os.path.join(os.environ.get("XDG_CACHE_HOME") or os.path.expanduser("~/.cache"), "nvd", "python")
import build  # noqa: E402
import helps  # noqa: E402
import runs  # noqa: E402
from places import TOP, Ended, say, tell  # noqa: E402

JSON = "--json"
# the words that stand first and begin a command of nvd's own, and the module that does it
OWN = {"sweep": "sweep", "map": "picture", "diff": "differences", "make": "making"}


class Asked(Ended):
    """What a command that was asked for something says in its stead: its text and its status, and what that means."""

    def __init__(self, run, text):
        super().__init__(run.status)
        self.run, self.text = run, text


class Program:
    """The program that was chosen, and what it says when it is asked."""

    def __init__(self, path):
        self.path = path

    def run(self, words):
        """The status and the text of a run that only asks; without a program rt try runs it."""
        return runs.asked(self.path, words) if self.path else by_rt(words, True)

    def ran(self, words):
        """The status of a run with nvd's own streams, of which nothing is said."""
        return runs.run(self.path, words) if self.path else by_rt(words)[0]

    def records(self, folder, *words):
        """The records of a command that only prints. If it ends with a fault, that is the end of the outer command too."""
        from texts import records_of

        status, text = self.run([folder, "-", *words])
        if status:
            import explain

            raise Asked(explain.Run(self.path, [folder, "-", *words], status, True), text)
        return records_of(text)

    def finished(self, words):
        """The status of a run with nvd's own streams, once nvd has said what a fault means."""
        return finished(self, words, False)

    def records_or_none(self, folder, *words):
        try:
            return self.records(folder, *words)
        except Asked:
            return []


def by_rt(words, is_asked=False):
    """Runs the program by rt try, which can't keep it: the status, and the text if it is asked for."""
    import subprocess

    absolute = [it if it in ("", "-") or at > 1 else os.path.abspath(it) for at, it in enumerate(words)]
    out = subprocess.PIPE if is_asked else None
    done = subprocess.run(["rt", "try", "--", *absolute], cwd=build.CRATE, stdout=out, stderr=subprocess.PIPE, stdin=subprocess.DEVNULL if is_asked else None, check=False)
    sys.stderr.buffer.write(done.stderr)
    if b"\nrun=ended " not in b"\n" + done.stderr:
        say("the unproved run came to no end: what rt try says of it stands above; NVD_BUILD=proved makes a proved build")
        raise Ended(done.returncode)
    return done.returncode, (done.stdout or b"").decode(errors="surrogateescape")


def is_plain(words):
    """Whether the program can take the words as they stand."""
    if JSON in words:
        return False
    if len(words) < 3:
        return True
    if words[2] == "free":
        return False
    from commands import commands

    row = commands().get(words[2])
    if not row or row.name != "create" and "uuid" not in row.places + row.needed:
        return True
    from words import is_uuid, kind_of, taken
    from units import bytes_of

    got, fault = taken(words[2], words[3:])
    given = [it[0] for it in got]
    if words[2] == "create":
        return not fault and all(it in given for it in ("--uuid", "--region", "--mode")) and not any(it[0] == "--size" and bytes_of(it[1]) is not None for it in got)
    return all(kind_of(words[2], name) != "UUID" or is_uuid(value) for name, value, _, _ in got)


def begins_own(words):
    """Whether words are a command of nvd's own, and no set of that name with one of the program's commands."""
    return words[:1] and words[0] in OWN and not (os.path.isdir(words[0]) and words[2:3] and words[2] in helps.WORDS)


def perform(words):
    """Runs the program with these words, and says what a fault means: the status."""
    was_there = len(words) > 1 and os.path.lexists(words[1])
    path, what = build.chosen()
    tell(f"runs {what}")
    program = Program(path)
    if begins_own(words):
        from importlib import import_module

        return import_module(OWN[words[0]]).main(program, words[1:])
    if JSON in words or words[2:3] == ["free"]:
        from answers import answer

        return answer(program, words)
    plain = words
    if not is_plain(words):
        import uuid
        from words import completed

        plain = [*words[:3], *completed(words[2], words[3:], lambda it: program.records(words[0], it), lambda: str(uuid.uuid4()), say)]
    return finished(program, plain, was_there)


def finished(program, words, was_there):
    """The status of a run of the program with plain words, once nvd has said what a fault means."""
    from commands import commands, takes_whole, writes

    row = commands().get(words[2]) if len(words) > 2 else None
    script = None
    if row and row.script and (words[2] != "import" or program.path is None):
        script = runs.kept_script()
    found = None
    lists_lost = bool(row) and row.name == "rescue" and "--lost" in words
    if row and (row.name == "check" or lists_lost) and program.path:
        from findings import Findings

        found = Findings()
    if program.path:
        status = runs.run(program.path, words, script[0] if script and script[0] else None, found and found.hear)
    else:
        status, _ = by_rt(words)
    # with status 3 the text of a whole set's check has its faults, and that of a rescue what is lost
    if status and not (status == 3 and found and found.first and (takes_whole(words) or lists_lost)):
        import explain

        run = explain.Run(program.path, words, status, was_there, script, lambda it: program.records_or_none(words[0], it))
        explain.after(run)
    elif found and found.first:
        import explain

        explain.after_findings(explain.Run(program.path, words, status, was_there), found.lines())
    elif not status and row and row.name == "rescue" and not lists_lost:
        tell("a lost sector is zeros there: 'nvd IN - rescue UUID --lost' says which are lost, and what the others stand on")
    if row and words[1] != "-" and status != 2 and not writes(words):
        import explain

        explain.ignored(words)
    return status


def own(words):
    """What nvd does without the program: the text of a page or a table; None if the words aren't for that."""
    first = words[0] if words else ""
    if first in ("help", "-h") and len(words) <= 2:
        return helps.help_for(words[1:])
    asked = helps.asks_for_help(words)
    if asked is not None:
        return helps.help_for(asked)
    if len(words) != 1:
        return None
    if first == "--version":
        return build.version()
    if first == "--commands":
        from commands import TABLE
        from places import text_of

        return text_of(TABLE)
    if first == "--program":
        path, what = build.chosen()
        if path is None:
            say("this kit leaves no program to keep, so there is no path")
            raise Ended(127)
        tell(f"the program is {what}")
        return f"{path}\n"
    if first == "--mark":
        build.mark()
        return ""
    return None


def main(words):
    if words == ["demo"]:
        os.execv(os.path.join(TOP, "samples", "demo.sh"), ["demo.sh"])
    text = own(words)
    if text is None:
        return perform(words)
    if sys.stdout is None:
        raise OSError("standard output is closed")
    sys.stdout.write(text)
    return 0


def ended(words):
    """The exit status of a command line."""
    for stream in (sys.stdout, sys.stderr):
        if stream:
            stream.reconfigure(encoding="utf-8", errors="surrogateescape")
    try:
        status = main(words)
        if sys.stdout:
            sys.stdout.flush()
        return status
    except Asked as it:
        sys.stdout.write(it.text)
        sys.stdout.flush()
        import explain

        explain.after(it.run)
        return it.status
    except Ended as it:
        return it.status
    except KeyboardInterrupt:
        return 130
    except OSError as fault:
        if fault.filename:
            say(f"'{fault.filename}': {fault.strerror}")
        elif not isinstance(fault, BrokenPipeError):
            say("the text couldn't be written: see where standard output goes, and that there is room")
        # what is left in the buffer has nowhere to go
        os.dup2(os.open(os.devnull, os.O_WRONLY), 1)
        return 6


if __name__ == "__main__":
    sys.exit(ended(sys.argv[1:]))
