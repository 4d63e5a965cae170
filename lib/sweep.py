"""nvd sweep: cuts power after each number of a command's steps, and shows which states come out."""
import argparse
import contextlib
import hashlib
import os
import shutil
import signal
import subprocess
import sys
import tempfile

from commands import commands
from formats import PAGE
from holes import copied_set, pieces_of
from places import Ended, say
from progress import Progress
from runs import kept_script
from swept import ByOption, ByReplay, ByScript, ByWrite, NoCut

# Each draws its first 32 answers alike, which is every word that can be pending while a label or an index block of 256 bytes is written.
LOST, KEPT = 1627648074, 2189287554
USAGE = "nvd sweep [--every K] [--keep DIR] [--run CMD] IN COMMAND .."
# at most about so many cuts if --every isn't given
CUTS = 1000


class Refused(Exception):
    """The command itself doesn't run: its status and its text."""


def key_of(folder):
    """A checksum of a set's bytes: names, lengths, and each page that isn't zero, so that holes aren't read."""
    total = hashlib.sha256()
    for name in sorted(os.listdir(folder)):
        with open(os.path.join(folder, name), "rb") as file:
            size = os.fstat(file.fileno()).st_size
            total.update(f"{name} {size}\0".encode())
            for place, piece in pieces_of(file, 0, size):
                for at in range(0, len(piece), PAGE):
                    if page := piece[at : at + PAGE].rstrip(b"\0"):
                        total.update(f"{place + at} {len(page)}\0".encode() + page)
    return total.digest()


class Sweep:
    """The runs of one command; `swept` makes a run with a cut, and shows the set that it leaves."""

    def __init__(self, swept, keep=None, command=None):
        self.swept, self.keep, self.command = swept, keep, command
        self.work = tempfile.mkdtemp(prefix="nvd-sweep-")
        self.states, self.statuses, self.failed = {}, {}, 0

    def after(self, cut, seed, what=None):
        """Whether power was cut, and the state that this leaves: its letter, and behind it the status of CMD if there is one."""
        out = os.path.join(self.work, "out")
        shutil.rmtree(out, ignore_errors=True)
        status, said, was_cut = self.swept.run(out, cut, seed)
        if status not in (0, 8):
            raise Refused(status, said)
        if what is None:
            return was_cut, None
        letter = self.letter(self.swept.shown(out), out)
        return was_cut, letter + (self.tried(out, cut, what) if self.command else "")

    def letter(self, text, out):
        if text not in self.states:
            number = len(self.states)
            self.states[text] = chr(ord("A") + number) if number < 26 else f"S{number}"
            if self.keep:
                copied_set(out, os.path.join(self.keep, self.states[text]))
        return self.states[text]

    def tried(self, out, cut, what):
        """The status of CMD on a set. It is run once on sets with the same bytes."""
        key = key_of(out)
        if key not in self.statuses:
            place = os.path.join(self.work, "tried")
            shutil.rmtree(place, ignore_errors=True)
            copied_set(out, place)
            status = subprocess.run(["sh", "-c", f'{self.command} "$1"', "sh", place], stdin=subprocess.DEVNULL, stdout=sys.stderr, check=False).returncode
            self.statuses[key] = status if status >= 0 else 128 - status
            if status:
                self.failed += 1
                if self.keep:
                    copied_set(out, os.path.join(self.keep, f"cut-{cut}-{what}"))
        return f":{self.statuses[key]}"

    def steps(self):
        """How many steps the command takes, with those of recovery: the least cut that cuts nothing."""
        low, high = -1, 0
        while self.after(high, LOST)[0]:
            low, high = high, high * 2 + 64
        while high - low > 1:
            middle = (low + high) // 2
            low, high = (middle, high) if self.after(middle, LOST)[0] else (low, middle)
        return high

    def rows(self, cuts, shown=lambda cut: None):
        """Ranges of cuts with the two states that they leave: unflushed words lost, and kept. The last one comes even if this is stopped."""
        found = None
        try:
            for cut in cuts:
                shown(cut)
                pair = tuple(self.after(cut, seed, what)[1] for seed, what in ((LOST, "lost"), (KEPT, "kept")))
                if found and found[2] == pair:
                    found = found[0], cut, pair
                else:
                    if found:
                        yield found
                    found = cut, cut, pair
        except KeyboardInterrupt:
            if found:
                yield found
            raise
        if found:
            yield found

    def close(self):
        shutil.rmtree(self.work, ignore_errors=True)


def cuts_of(steps, every):
    return sorted({*range(0, steps, every), *range(max(steps - 2, 0), steps + 1)})


def table(sweep, every=None, progress=None):
    """The lines of the whole sweep, each as soon as it is known."""
    steps = sweep.steps()
    every = every or max(steps // CUTS, 1)
    yield f"{steps} steps" + (f", every {every}th cut" if every > 1 else "")
    yield "cut               lost  kept"
    cuts = cuts_of(steps, every)

    def shown(cut):
        if progress:
            progress.show(f", cut {cut} of {steps}")

    for first, last, (lost, kept) in sweep.rows(cuts, shown):
        cut = f"{first}" if first == last else f"{first} to {last}"
        yield f"{cut:<17} {lost:<5} {kept}" + ("  (the whole command)" if last == steps else "")
    for text, letter in sweep.states.items():
        yield f"state {letter}:"
        yield from (f"  {line}" for line in text.splitlines() or ["nothing"])
    if sweep.command:
        yield f"{sweep.command}: run on {len(sweep.statuses)} sets, failed on {sweep.failed}"


class Words(argparse.ArgumentParser):
    """Says what is wrong in nvd's way."""

    def error(self, message):
        say(f"{message}: {USAGE}")
        raise Ended(2)


def number(text):
    if not text.isdigit() or int(text) == 0:
        raise argparse.ArgumentTypeError(f"'{text}' is no number of steps from 1 on")
    return int(text)


def arguments(words):
    parser = Words(prog="nvd sweep", add_help=False, allow_abbrev=False)
    parser.add_argument("--every", type=number)
    parser.add_argument("--keep")
    parser.add_argument("--run")
    parser.add_argument("IN")
    parser.add_argument("COMMAND")
    parser.add_argument("words", nargs=argparse.REMAINDER)
    return parser.parse_args(words)


def swept_of(program, source, command, words):
    """How a command's power is cut."""
    import uuid
    from words import completed, fault_of

    if command not in commands():
        raise NoCut(f"there is no command '{command}'")
    rest = completed(command, words, lambda it: program.records(source, it), lambda: str(uuid.uuid4()), say)
    fault = fault_of(command, rest, lambda it: program.records_or_none(source, it))
    if not fault and any(it.startswith(("--cut", "--evict")) for it in rest):
        fault = "sweep gives --cut and --evict itself"
    if fault:
        raise NoCut(fault)
    if "cut" in commands()[command].others:
        return ByOption(program, source, command, rest)
    if command == "write":
        return ByWrite(program, source, rest)
    script = kept_script() if command in ("replay", "serve") else None
    if script is None:
        raise NoCut(f"'{command}' has no cut: COMMAND is one of {', '.join(it.name for it in commands().values() if 'cut' in it.others)}, write, replay and serve")
    with os.fdopen(os.dup(script[0]), "rb") as file:
        file.seek(script[1])
        lines = file.read().decode(errors="surrogateescape").splitlines()
    return (ByReplay if command == "replay" else ByScript)(program, source, rest, lines)


def main(program, words):
    """The exit status of a sweep."""
    given = arguments(words)
    stopped = []

    def stop(signal_number, _):
        stopped.append(signal_number)
        raise KeyboardInterrupt

    for it in (signal.SIGINT, signal.SIGTERM, signal.SIGHUP):
        signal.signal(it, stop)
    sweep = None
    try:
        swept = swept_of(program, os.path.abspath(given.IN), given.COMMAND, given.words)
        if given.keep:
            os.mkdir(given.keep)
        sweep = Sweep(swept, given.keep, given.run)
        with Progress("sweeping") as progress:
            for line in table(sweep, given.every, progress):
                progress.clear()
                print(line, flush=True)
        return 1 if sweep.failed else 0
    except NoCut as fault:
        say(f"{fault} ({USAGE})")
        return 2
    except Refused as fault:
        print(fault.args[1], end="")
        return fault.args[0]
    except FileExistsError:
        say(f"--keep '{given.keep}' is there already: name a directory that isn't")
        return 2
    except KeyboardInterrupt:
        say("stopped before the end: the rows above are what was tried")
        return 128 + (stopped or [signal.SIGINT])[0]
    finally:
        if sweep:
            with contextlib.suppress(KeyboardInterrupt):
                sweep.close()
