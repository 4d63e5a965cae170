"""nvd make: an image set with namespaces, from one line."""
import argparse
import os
import re
import shutil
import tempfile

from formats import LIMIT, PAGE, blank_table, qemu_table
from places import Ended, say
from units import plain_or_bytes, shown

USAGE = "nvd make OUT [--modules N] [--size B] [--labels B] [--qemu] [NAME:SIZE[:raw|sector[:L]][@REGION] ..]"


class Words(argparse.ArgumentParser):
    def error(self, message):
        say(f"{message}: {USAGE}")
        raise Ended(2)


def size(text):
    found = plain_or_bytes(text)
    if not found:
        raise argparse.ArgumentTypeError(f"'{text}' is no size: give bytes, or a number with K, M, G or T")
    return found


def namespace(text):
    """The words of a create for NAME:SIZE[:MODE[:L]][@REGION]."""
    found = re.fullmatch(r"(.*?):([^:@]+)(?::(raw|sector)(?::(\d+))?)?(?:@(\d+))?", text)
    count = found and plain_or_bytes(found.group(2))
    if not count:
        raise argparse.ArgumentTypeError(f"'{text}' is no namespace: give NAME:SIZE, as data:16M, or NAME:SIZE:sector:4096@0")
    words = [f"--name={found.group(1)}", "--size", str(count), "--mode", found.group(3) or "raw", "--region", found.group(5) or "0"]
    return words + (["--sector", found.group(4)] if found.group(4) else [])


def blank(folder, given, size, areas=None):
    """Writes a set of modules of this size that nothing was written to yet, but perhaps the label areas of another set."""
    os.mkdir(folder)
    table = qemu_table if given.qemu else blank_table
    with open(os.path.join(folder, "nfit.bin"), "wb") as file:
        file.write(table([size] * given.modules))
    for module in range(given.modules):
        for name, count in ((f"labels-{module}.bin", given.labels), (f"contents-{module}.bin", size)):
            with open(os.path.join(folder, name), "wb") as file:
                file.truncate(count)
        if areas:
            shutil.copyfile(os.path.join(areas, f"labels-{module}.bin"), os.path.join(folder, f"labels-{module}.bin"))
    open(os.path.join(folder, "complete"), "wb").close()


class Stopped(Exception):
    """A command ended with this status."""


def after(program, folder, commands, last=None):
    """The set after commands, each on the set that the one before left. That of the last one is `last`, if it is given."""
    for number, command in enumerate(commands, 1):
        out = last if last and number == len(commands) else f"{folder}-{number}"
        status = program.finished([folder, out, *command])
        if status:
            raise Stopped(status)
        shutil.rmtree(folder)
        folder = out
    return folder


def make(program, work, given):
    """Makes OUT. `init` doesn't look at contents, so it has a set with a page for each module. Only the last command makes OUT, with all contents."""
    import uuid

    inits = [["init", str(it)] for it in range(given.modules)]
    creates = [["create", "--uuid", str(uuid.uuid4()), *it] for it in given.namespaces]
    early, late = (inits, creates) if creates else (inits[:-1], inits[-1:])
    small, whole = os.path.join(work, "small"), os.path.join(work, "whole")
    blank(small, given, PAGE)
    areas = after(program, small, early)
    try:
        blank(whole, given, given.size, areas)
    except OSError as fault:
        say(f"a set with modules of {shown(given.size)} bytes couldn't be made beside OUT, '{given.OUT}' ({fault.strerror}): see that its file system takes such files")
        raise Stopped(6) from None
    after(program, whole, late, given.OUT)


def main(program, words):
    parser = Words(prog="nvd make", add_help=False, allow_abbrev=False)
    parser.add_argument("OUT")
    parser.add_argument("--modules", type=int, default=1)
    parser.add_argument("--size", type=size, default=64 << 20)
    parser.add_argument("--labels", type=size, default=128 << 10)
    parser.add_argument("--qemu", action="store_true")
    parser.add_argument("namespaces", nargs="*", type=namespace)
    given = parser.parse_intermixed_args(words)
    if not 1 <= given.modules <= 64:
        parser.error(f"--modules {given.modules}: a set has 1 to 64 modules")
    if given.size % PAGE or given.size * given.modules > LIMIT:
        parser.error(f"--size {given.size}: the contents of a module are a multiple of {PAGE} bytes, and of all together at most {shown(LIMIT)}")
    if given.labels % 256 or not 1024 <= given.labels <= 1 << 20:
        parser.error(f"--labels {given.labels}: a label area is a multiple of 256 bytes from 1024 to {shown(1 << 20)}")
    if os.path.lexists(given.OUT):
        say(f"OUT, '{given.OUT}', is there already: name a directory that isn't, or remove it first")
        return 6
    try:
        work = tempfile.mkdtemp(prefix="nvd-make-", dir=os.path.dirname(os.path.abspath(given.OUT)))
    except OSError as fault:
        say(f"nothing can be made beside OUT, '{given.OUT}' ({fault.strerror}): see that the directory above it is there, and that you may write to it")
        return 6
    try:
        make(program, work, given)
    except Stopped as it:
        return it.args[0]
    finally:
        shutil.rmtree(work, ignore_errors=True)
    return 0
