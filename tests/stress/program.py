"""The proved program, and the sets that it makes for tests/stress/run."""
import os
import shutil
import subprocess
import sys

sys.dont_write_bytecode = True
TOP = os.path.dirname(os.path.dirname(os.path.dirname(os.path.abspath(__file__))))
sys.path[1:1] = [os.path.join(TOP, "lib"), os.path.join(TOP, "samples")]
from account import Shape  # noqa: E402
from scripts import value_text  # noqa: E402
from texts import document_of, records_of  # noqa: E402

PROGRAM = os.path.join(TOP, "crates", "nvdimm_shell", "out", "nvdimm_shell")
LIMIT = 1200


class Hang(Exception):
    """A run that came to no end."""


def run(words, script=None):
    """Returns the status and the text of the program; the script is a file."""
    with open(script or os.devnull, "rb") as given:
        try:
            done = subprocess.run([PROGRAM, *map(str, words)], stdin=given, stdout=subprocess.PIPE, stderr=subprocess.DEVNULL, timeout=LIMIT, check=False)
        except subprocess.TimeoutExpired:
            raise Hang(f"no end within {LIMIT} s, so it hangs, or the machine is too slow for this test: {' '.join(map(str, words))}") from None
    return done.returncode, done.stdout


def must(*words):
    """Returns the text of a command that has to end with status 0."""
    status, text = run(words)
    if status:
        raise RuntimeError(f"status {status} of {' '.join(map(str, words))}: {text[:200]!r}")
    return text


def is_proved():
    """Whether nvd finds a proved build of these sources; it says why not."""
    env = {**os.environ, "NVD_BUILD": "kept", "NVD_QUIET": "1"}
    return subprocess.run([os.path.join(TOP, "nvd"), os.path.join(TOP, "samples", "small"), "-", "nfit"], env=env, stdout=subprocess.DEVNULL, check=False).returncode == 0


def made_set(work, name, size, modules, *spaces):
    """Returns the directory of a set with these namespaces, each the UUID and further words of its create."""
    folder = os.path.join(work, f"{name}-blank")
    subprocess.run([os.path.join(TOP, "samples", "make_blank.py"), folder, "--modules", str(modules), "--size", str(size)], check=True)
    for number, words in enumerate([*(("init", m) for m in range(modules)), *(("create", "--region", 0, "--uuid", *it) for it in spaces)]):
        out = os.path.join(work, f"{name}-{number}")
        must(folder, out, *words)
        shutil.rmtree(folder)
        folder = out
    return folder


def listing(folder):
    """Returns the namespaces of a set by UUID."""
    return {it["uuid"]: it for it in document_of("list", must(folder, "-", "list").decode())["namespaces"]}


def shape_of(folder, uuid):
    arenas = [fields for _, fields in records_of(must(folder, "-", "info", uuid).decode())]
    return Shape(uuid, sum(it["sectors"] for it in arenas), arenas[0]["sector"], arenas[0]["lanes"])


class Sectors:
    """The bytes of a sector namespace, as `export` prints them."""

    def __init__(self, folder, shape):
        self.bytes, self.size = must(folder, "-", "export", shape.uuid), shape.bytes

    def value(self, sector):
        at = sector * self.size
        return value_text(f"hex:{self.bytes[at : at + self.size].hex()}", self.size)

    def differing(self, after, but):
        """Yields which sectors have other bytes after a run, but for some of them."""
        left, right, size = bytearray(self.bytes), bytearray(after.bytes), self.size
        for sector in but:
            left[sector * size : (sector + 1) * size] = right[sector * size : (sector + 1) * size] = bytes(size)
        if left != right:
            found = [it for it in range(len(left) // size) if left[it * size : (it + 1) * size] != right[it * size : (it + 1) * size]]
            yield f"the sectors {found[:5]} differ, and nobody wrote them"
