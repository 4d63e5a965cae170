"""What both sides say of a fault: the program, and a guest's lines."""
import base64
import gzip
import hashlib
import os
import re
import shutil
import struct
import subprocess
import sys

sys.dont_write_bytecode = True
sys.path.insert(1, os.path.dirname(os.path.realpath(__file__)))
from faults import (  # noqa: E402
    AREAS, BACKUP_AT, LANES, LOG_AT, MAP_AT, PAGE, SECTORS, SIZE, areas_of)

UUID, MODULE = "30000000-0000-4000-8000-000000000003", 1
AS_BEFORE = "as before the damage"
# of ndctl's lines those that come of the undamaged namespace, too, or that say only what to type
USUAL = re.compile(r"checking namespace|found 1 BTT arena|log_index_[01] = [0-9]+$"
                   r"|checking arena 0|^checked |^enabled |Run with --repair")
TRACE = "a warning with a trace"


def digest(data):
    return hashlib.md5(data).hexdigest()


def differing(before, after, at, count, step):
    """The numbers of the pieces, of so many bytes each, in which both differ."""
    starts = range(at, at + step * count, step)
    return [n for n, it in enumerate(starts) if before[it : it + step] != after[it : it + step]]


def entries_of(changed, after):
    words = [f"{n} to {struct.unpack_from('<I', after, MAP_AT + 4 * n)[0]:08x}" for n in changed]
    return ", ".join(words) if len(words) < 4 else f"{len(words)} entries, of them {words[0]}"


def places(before, after):
    """Where two states of a namespace differ, in words."""
    found = []
    for name, at in (("the first info block", 0), ("the backup", BACKUP_AT)):
        if before[at : at + PAGE] != after[at : at + PAGE]:
            found.append(name)
    changed = differing(before, after, MAP_AT, SECTORS, 4)
    if changed:
        found.append(f"the map: {entries_of(changed, after)}")
    lanes = differing(before, after, LOG_AT, LANES, 64)
    if lanes:
        more = " .." if len(lanes) > 3 else ""
        found.append(f"the log: lanes {', '.join(map(str, lanes[:3]))}{more}")
    behind = MAP_AT + 4 * SECTORS
    if before[PAGE:MAP_AT] != after[PAGE:MAP_AT]:
        found.append("blocks")
    if before[behind:LOG_AT] != after[behind:LOG_AT]:
        found.append("bytes behind the map")
    return found


def short(lines):
    """The first lines, and how many more there are."""
    return lines if len(lines) <= 4 else [*lines[:3], f"{len(lines) - 3} more"]


def compared(data, sectors):
    """Whether these bytes are those of the sectors, as far as both go, and as many."""
    most, whole = min(len(data), len(sectors)), len(data) == len(sectors)
    wrong = differing(data[:most], sectors[:most], 0, -(-most // PAGE), PAGE)
    listed = " ".join(map(str, wrong)) if len(wrong) <= 20 else f"{len(wrong)} sectors"
    text = f"wrong: {listed}" if wrong else "right"
    return text if whole else f"{text} of {len(data)} bytes"


class Ours:
    """The program, on a set that is damaged again and again."""

    def __init__(self, program, made, work):
        self.program = program
        self.set, self.out = os.path.join(work, "damaged"), os.path.join(work, "out")
        shutil.copytree(made, self.set)
        self.contents = os.path.join(self.set, f"contents-{MODULE}.bin")
        with open(self.contents, "rb") as file:
            self.base = file.read(SIZE)
        status, self.sectors = self.run(self.set, "-", "export", UUID)
        if status:
            raise SystemExit(f"tests/guest/run: no sectors of the undamaged set: {self.sectors!r}")

    def run(self, source, out, *words):
        done = subprocess.run([self.program, source, out, *words], stdout=subprocess.PIPE,
                              stderr=subprocess.DEVNULL, check=False)
        return done.returncode, done.stdout

    def lines(self, source, out, *words):
        text = self.run(source, out, *words)[1].decode("utf-8", "replace")
        text = text.replace(f"image arena {UUID} 0 ", "image arena ")
        return [line.replace("arena 0 ", "", 1) for line in text.splitlines()]

    def checked(self, *words):
        """The lines of `check`, and the bytes of the namespace that it writes."""
        lines = self.lines(self.set, self.out, "check", UUID, *words)
        with open(os.path.join(self.out, f"contents-{MODULE}.bin"), "rb") as file:
            return short(lines[:-1]) + lines[-1:], file.read(SIZE)

    def refusal(self, data):
        text = data.decode("utf-8", "replace").strip()
        return text.replace(f"image arena {UUID} 0 ", "image arena ")

    def read(self, source):
        """`right`, `wrong` with the sectors (of 4,096 bytes), or the refusal."""
        status, data = self.run(source, "-", "export", UUID)
        return self.refusal(data) if status else compared(data, self.sectors)

    def rescued(self):
        """What `rescue --lost` says, and what comes of the sectors: `right`, `lost` with those
        that it lists, `wrong` with others whose bytes aren't right, or the refusal.

        A sector of the list must come as zeros, else it is wrong, too.
        """
        lines = self.lines(self.set, "-", "rescue", UUID, "--lost")
        found = {"said": short(lines[:-1]) + lines[-1:]}
        status, data = self.run(self.set, "-", "rescue", UUID)
        if status:
            return {**found, "read": self.refusal(data)}
        lost = [int(it.split(" ")[1]) for it in lines[:-1] if it.startswith("lost ")]
        due = bytearray(self.sectors)
        for sector in lost:
            due[sector * PAGE : (sector + 1) * PAGE] = bytes(PAGE)
        text = compared(data, bytes(due))
        if lost:
            listed = f"lost: {' '.join(map(str, lost))}"
            text = listed if text == "right" else f"{listed}; {text}"
        return {**found, "read": text}

    def of(self, damaged):
        with open(self.contents, "r+b") as file:
            file.write(damaged)
        found = {"info": self.lines(self.set, "-", "info", UUID), "read": self.read(self.set)}
        found["rescue"] = self.rescued()
        found["check"], after = self.checked()
        found["changed by check"] = places(damaged, after)
        shutil.rmtree(self.out)
        found["repair"], after = self.checked("--repair")
        restored = after == self.base and after != damaged
        found["changed by repair"] = AS_BEFORE if restored else places(damaged, after)
        found["read after repair"] = self.read(self.out)
        shutil.rmtree(self.out)
        return found


def said(lines):
    """ndctl's lines without the usual ones, and without the names of its functions."""
    words = [re.sub(r"^namespace[0-9.]+: \w+: ", "", line).strip() for line in lines]
    return short([line for line in words if not USUAL.search(line)])


def reasons(lines):
    """Why Linux refuses an arena, by its log, and whether there is a warning with a trace."""
    own = [it for it in lines if it.startswith("nd_pmem")]
    found = [re.sub(r"^nd_pmem( btt[0-9.]+)?: ", "", it) for it in own]
    found = [it for it in found if not re.match("io error|probe of|init: error", it)]
    traced = any("TASK>" in it or "WARNING" in it for it in lines)
    return found + [TRACE] if traced else found


class Step:
    """The lines of one step in the guest, by their word."""

    def __init__(self, lines):
        self.lines = lines

    def all(self, word):
        return [line[len(word) + 1 :] for line in self.lines if line.startswith(f"{word} ")]

    def one(self, word, missing=""):
        return (self.all(word) or [missing])[0]

    def status(self):
        return int(self.one("status", "-1"))

    def changed(self, damaged, base):
        """What the step changed. The areas come as they are, and an MD5 of the whole namespace."""
        areas = {"damaged": areas_of(damaged), "base": areas_of(base)}.get(self.one("areas"))
        areas = areas or gzip.decompress(base64.b64decode(self.one("packed")))
        after, at = bytearray(damaged), 0
        for start, count in AREAS:
            after[start : start + count] = areas[at : at + count]
            at += count
        if self.one("bytes", digest(after)) != digest(after):
            return [*places(damaged, bytes(after)), "bytes elsewhere"]
        return AS_BEFORE if after == base and after != damaged else places(damaged, bytes(after))


class Linux:
    """What guests printed of all faults, beside the namespace's bytes and sectors."""

    def __init__(self, lines, base, sectors):
        self.found, self.data, self.ended, self.version = {}, {digest(sectors): sectors}, {}, ""
        self.base, now = base, None
        begun = {line for line in lines if line.startswith(("base bytes ", "base read "))}
        if begun != {f"base bytes {digest(base)}", f"base read {digest(sectors)}"}:
            raise SystemExit(f"tests/guest/run: a guest began with other bytes: {begun}")
        for line in lines:
            word, _, rest = line.partition(" ")
            if word == "linux":
                self.version = line
            elif word == "fault":
                now = int(rest)
                self.found[now] = {}
            elif word == "ended":
                self.ended[int(rest)] = list(self.found[int(rest)])
            elif word == "unclean":
                del self.found[int(rest)]
            elif word not in ("base", "done", "end"):
                self.keep(now, word, rest)

    def keep(self, now, word, rest):
        """Keeps a line of a step; the bytes of sectors come once for each MD5."""
        if rest.startswith("data "):
            _, sum_of, packed = rest.split(" ")
            self.data[sum_of] = gzip.decompress(base64.b64decode(packed))
        else:
            self.found[now].setdefault(word, []).append(rest)

    def read(self, step, sectors):
        """What comes of the sectors when Linux attaches the namespace."""
        device = step.one("device")
        if not device.startswith("sectors"):
            return {"raw": "raw device", "none": "no device"}.get(device, "unknown")
        # a sector that is refused stands as zeros in what is compared
        text, errors = compared(self.data[step.one("read")], sectors), int(step.one("errors", "0"))
        return text + (f", {errors} read error{'s' if errors > 1 else ''}" if errors else "")

    def of(self, number, damaged, sectors):
        if number in self.ended:
            return {"ended": f"the guest ended after {' '.join(self.ended[number]) or 'nothing'}"}
        steps = {word: Step(lines) for word, lines in self.found[number].items()}
        found = {}
        for word in ("check", "repair"):
            step = steps[word]
            found[word] = {"status": step.status(), "said": said(step.all("said")),
                           "changed": step.changed(damaged, self.base)}
        step = steps["attach"]
        found["attach"] = {"status": step.status(), "read": self.read(step, sectors),
                           "log": reasons(step.all("kernel")),
                           "changed": step.changed(damaged, self.base)}
        if "repaired" in steps:
            found["read after repair"] = self.read(steps["repaired"], sectors)
        elif found["repair"]["changed"] == AS_BEFORE:
            found["read after repair"] = "right"
        else:
            found["read after repair"] = found["attach"]["read"]
        return found
