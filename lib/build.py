"""Which program nvd runs, and how it gets one.

The proved build is what `rt ci` or NVD_BUILD=proved left; the release is a proved build that the repository carries. Both count only if their
checksums are those of these sources and of the program. Else the program is compiled unproved, and kept.
"""
import os
import sys

from places import CRATE, NVD, PROVED, RELEASE, SMALL, TOP, UNPROVED, Ended, cache, say, tell, text_of
from sums import ALL, SOURCES, Sums

SLOW = "which checks each access to memory (AddressSanitizer) and is some 100 times slower"
IS_PROVED, IS_RELEASED = "the proved build", "the proved build of release/"
IS_UNPROVED = f"the unproved build of these sources, {SLOW}; NVD_BUILD=proved makes a proved one"


class Builds:
    """The builds that are here."""

    def __init__(self):
        self.sums = Sums()
        self.has_sources = os.path.isdir(os.path.join(TOP, "crates"))

    def is_of(self, path, parts):
        """Whether a program is there whose checksums, and those of its sources, stand beside it."""
        due = text_of(f"{path}.sums")
        if due is None or not self.has_sources or not os.path.exists(path):
            return False
        return due == f"sources {self.sums.of_sources(parts)}\nprogram {self.sums.of_program(path)}\n"

    def mark(self, path, parts):
        """Leaves the checksums of a program and of its sources beside it."""
        with open(f"{path}.sums", "w", encoding="ascii") as file:
            file.write(f"sources {self.sums.of_sources(parts)}\nprogram {self.sums.of_program(path)}\n")

    def is_proved(self):
        return self.is_of(PROVED, ALL)

    def is_unproved(self):
        return self.is_of(UNPROVED, SOURCES)

    def release(self):
        """What release/RELEASE says; None if there is no release of these sources."""
        said = release()
        if not said or self.has_sources and said.get("sources") != self.sums.of_sources(ALL):
            return None
        return said

    def released(self):
        """The path of the release's program, unpacked; None if there is no release of these sources, or nowhere to unpack it."""
        said = self.release()
        if not said:
            return None
        folders = [RELEASE, os.path.join(CRATE, "out", "release"), os.path.join(cache(), "release")]
        for folder in folders:
            path = os.path.join(folder, "nvdimm_shell")
            if self.sums.of_program(path) == said["program"]:
                return path
        for folder in folders[1 if self.has_sources else 2 :]:
            path = unpacked(folder, said["program"])
            if path:
                return path
        say(f"the release can't be unpacked: neither below {TOP} nor in {cache()} anything may be written; set XDG_CACHE_HOME")
        raise Ended(127)


def release():
    """The lines of release/RELEASE by their first word; None if there is no such file."""
    text = text_of(os.path.join(RELEASE, "RELEASE"))
    return dict(line.split(" ", 1) for line in text.splitlines() if " " in line) if text else None


def unpacked(folder, due):
    """Unpacks the release's program into a folder, if that may be written; None if not. Its checksum must be the one that is due."""
    import gzip
    import zlib
    from hashlib import sha256

    try:
        with gzip.open(os.path.join(RELEASE, "nvdimm_shell.gz")) as file:
            data = file.read()
    except (OSError, EOFError, zlib.error) as fault:
        say(f"release/nvdimm_shell.gz can't be unpacked ({fault}): restore it (git checkout release)")
        raise Ended(127) from None
    if sha256(data).hexdigest() != due:
        say("release/nvdimm_shell.gz isn't the program that release/RELEASE names: restore both (git checkout release)")
        raise Ended(127)
    path = os.path.join(folder, "nvdimm_shell")
    try:
        os.makedirs(folder, exist_ok=True)
        with open(f"{path}.{os.getpid()}", "wb") as file:
            file.write(data)
        os.chmod(file.name, 0o755)
        os.replace(file.name, path)
    except OSError:
        return None
    return path


def has_rt():
    import shutil

    return shutil.which("rt") is not None


def mark():
    """Leaves the checksums beside the proved program; the gate calls this once `rt ci` has passed."""
    if not os.access(PROVED, os.X_OK):
        say(f"there is no program {PROVED}: rt ci leaves it there when it passes")
        raise Ended(1)
    Builds().mark(PROVED, ALL)


def prove(builds):
    """Proves and builds."""
    import subprocess
    import tempfile

    from progress import Progress

    tell("proves and builds these sources: an hour or more the first time")
    before = builds.sums.of_sources(ALL)
    try:
        os.remove(f"{PROVED}.sums")
    except FileNotFoundError:
        pass
    with tempfile.NamedTemporaryFile("w", prefix="nvd-proof-", delete=False) as log, Progress("proving") as shown:
        run = subprocess.Popen(["rt", "run", "--", SMALL, "-", "nfit"], cwd=CRATE, stdin=subprocess.DEVNULL, stdout=log, stderr=log)
        waited(run, shown)
    if run.returncode == 0 and os.access(PROVED, os.X_OK) and before == builds.sums.of_sources(ALL):
        builds.mark(PROVED, ALL)
        os.remove(log.name)
        return
    say(f"the proof or the build failed: its log, {log.name}, says where; without NVD_BUILD the program runs unproved")
    raise Ended(1)


def waited(run, shown, look=lambda: None, pause=0.2):
    """Waits for a process and shows how long it has been at it; `look` is called again and again. It doesn't outlive nvd."""
    import time

    try:
        while run.poll() is None:
            look()
            shown.show()
            time.sleep(pause)
    except BaseException:
        run.terminate()
        run.wait()
        raise


class Held:
    """A file that nobody else can open until it is let go, if the file system has leases: whoever opens it waits, and we are told."""

    def __init__(self, path):
        import fcntl
        import signal

        self.fcntl, self.is_reached, self.has_lease = fcntl, False, False
        signal.signal(signal.SIGIO, self.reach)
        self.file = os.open(path, os.O_RDONLY)
        self.hold()

    def reach(self, *_):
        self.is_reached = True

    def hold(self):
        try:
            self.fcntl.fcntl(self.file, self.fcntl.F_SETLEASE, self.fcntl.F_WRLCK)
            self.has_lease, self.is_reached = True, False
        except OSError:
            self.has_lease = False

    def let_go(self):
        if self.has_lease:
            self.fcntl.fcntl(self.file, self.fcntl.F_SETLEASE, self.fcntl.F_UNLCK)
        self.has_lease = False


def kept_of(work, path):
    """Keeps the program that rt try has built below a folder under this path; whether there is one."""
    for at, _, files in os.walk(work):
        found = os.path.join(at, "program")
        if "program" in files and os.access(found, os.X_OK):
            try:
                os.link(found, path)
                return True
            except OSError:
                continue
    return False


def compile_in(work):
    """Runs rt try in a folder, and keeps the program there: the program waits at a file of the set that it reads until it is kept."""
    import shutil
    import subprocess

    from progress import Progress

    given, path = os.path.join(work, "set"), os.path.join(work, "program")
    shutil.copytree(SMALL, given)
    held, is_kept = Held(os.path.join(given, "nfit.bin")), False

    def look():
        nonlocal is_kept
        is_kept = is_kept or kept_of(os.path.join(work, "try"), path)
        if held.is_reached or is_kept:
            held.let_go()
        elif not held.has_lease:
            held.hold()

    os.mkdir(os.path.join(work, "try"))
    with open(os.path.join(work, "said"), "wb") as said, open(os.path.join(work, "log"), "wb") as log, Progress("compiling") as shown:
        env = {**os.environ, "TMPDIR": os.path.join(work, "try")}
        run = subprocess.Popen(["rt", "try", "--", given, "-", "nfit"], cwd=CRATE, env=env, stdin=subprocess.DEVNULL, stdout=said, stderr=log)
        waited(run, shown, look, 0.05)
    os.close(held.file)
    log = text_of(os.path.join(work, "log"))
    if "\nrun=ended " not in f"\n{log}":
        sys.stderr.write(log)
        say("rt try came to no end: what it says stands above; NVD_BUILD=proved makes a proved build")
        raise Ended(run.returncode or 1)
    # only a program that runs as rt try ran it is kept
    if not is_kept:
        return None
    again = subprocess.run([path, given, "-", "nfit"], stdin=subprocess.DEVNULL, stdout=subprocess.PIPE, stderr=subprocess.DEVNULL, check=False)
    with open(os.path.join(work, "said"), "rb") as file:
        return path if again.stdout == file.read() else None


def compile_unproved(builds):
    """Compiles the program unproved, and keeps it if this kit leaves one."""
    import shutil
    import signal
    import tempfile

    folder = os.path.dirname(UNPROVED)
    try:
        os.makedirs(folder, exist_ok=True)
        work = tempfile.mkdtemp(prefix="try.", dir=folder)
    except OSError as fault:
        say(f"there is no build of these sources, and none can be made here, since {folder} can't be written ({fault.strerror}): "
            "copy the checkout to a folder of yours (cp -r), and run nvd there")
        raise Ended(127) from None
    tell(f"compiles these sources unproved, once: a minute or more, on a busy machine several. What comes is a checked build, {SLOW}; "
         "NVD_BUILD=proved makes a proved one")
    signal.signal(signal.SIGTERM, lambda *_: sys.exit(143))
    try:
        due = builds.sums.of_sources(SOURCES)
        path = compile_in(work)
        if path and due == builds.sums.of_sources(SOURCES):
            os.replace(path, UNPROVED)
            builds.mark(UNPROVED, SOURCES)
    finally:
        signal.signal(signal.SIGTERM, signal.SIG_DFL)
        shutil.rmtree(work, ignore_errors=True)


def chosen():
    """The path of the program that runs, and what it is; without a path the kit leaves no program, and rt try runs it."""
    wanted, builds = os.environ.get("NVD_BUILD", ""), Builds()
    if wanted not in ("", "proved", "kept"):
        say(f"NVD_BUILD is '{wanted}': leave it unset, or set it to proved or kept")
        raise Ended(1)
    if builds.is_proved():
        return PROVED, IS_PROVED
    path = builds.released() if wanted != "proved" else None
    if path:
        return path, IS_RELEASED
    if not wanted and builds.is_unproved():
        return UNPROVED, IS_UNPROVED
    if not builds.has_sources:
        say(f"there are neither sources here nor a release of them: {NVD} needs one of both")
        raise Ended(127)
    if wanted == "kept":
        say(f"there is no proved build of these sources at {PROVED}: NVD_BUILD=proved makes one")
        raise Ended(127)
    if not has_rt():
        say("there is no proved build of these sources, and no command rt to make one: put the Rattle kit on PATH")
        raise Ended(127)
    if wanted:
        prove(builds)
        return PROVED, IS_PROVED
    compile_unproved(builds)
    if Builds().is_unproved():
        return UNPROVED, IS_UNPROVED
    return None, f"these sources unproved by rt try, since this kit leaves no program to keep: a minute or more each time, in a build {SLOW}"


def version():
    import subprocess

    def said(*words):
        try:
            return subprocess.run(words, stdout=subprocess.PIPE, stderr=subprocess.DEVNULL, text=True, check=True).stdout.split("\n")[0]
        except (OSError, subprocess.CalledProcessError):
            return ""

    builds, what = Builds(), "no build yet"
    if builds.is_proved():
        what = "proved build"
    elif builds.release():
        what = "proved build of release/"
    elif builds.is_unproved():
        what = "unproved build"
    commit = said("git", "-C", TOP, "describe", "--always", "--dirty", "--abbrev=12") or "unknown"
    lines = [f"nvd of commit {commit}, kit {said('rt', 'version') or 'none'}, {what}"]
    has = release()
    if has:
        which = "these sources" if builds.release() else "other sources than those here"
        lines.append(f"release of {which}: sources {has.get('sources')}, program {has.get('program')}, proved by {has.get('kit')}")
    return "\n".join(lines) + "\n"
