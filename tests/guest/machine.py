"""The guest of tests/guest/run: its first file system, each start of QEMU, and what it prints."""
import glob
import os
import re
import shutil
import subprocess
import sys
import threading

sys.dont_write_bytecode = True
HERE = os.path.dirname(os.path.realpath(__file__))
MODULES = ("libnvdimm", "nd_btt", "nd_pmem", "nfit")
# bytes of a sector of the raw namespace, and of each module's label area and contents
UNIT, LABELS, CONTENTS = 512, 128 << 10, 48 << 20
# seconds without a line after which the guest is ended
SILENCE = 240


class Missing(Exception):
    """Something that the guest needs isn't here."""


def one_of(pattern, what):
    found = sorted(glob.glob(pattern, recursive=True))
    if not found:
        raise Missing(f"wants {what}, and there is no {pattern}")
    return found[-1]


def program(name):
    path = shutil.which(name)
    if not path:
        raise Missing(f"wants {name}, and it isn't here: install it")
    return path


def copied(path, root, place=None):
    target = os.path.join(root, (place or path).lstrip("/"))
    os.makedirs(os.path.dirname(target), exist_ok=True)
    shutil.copy(path, target)


def runs_of(base, other):
    """The runs of 512 bytes in which both differ: the first one's number, and how many."""
    found = []
    for at in range(0, len(base), UNIT):
        if base[at : at + UNIT] != other[at : at + UNIT]:
            if found and sum(found[-1]) == at // UNIT:
                found[-1][1] += 1
            else:
                found.append([at // UNIT, 1])
    return found


def write(path, data):
    os.makedirs(os.path.dirname(path), exist_ok=True)
    with open(path, "wb") as file:
        file.write(data if isinstance(data, bytes) else data.encode("ascii"))


class Guest:
    """A guest with the Linux below a folder, and the modules of an image set."""

    def __init__(self, linux, work):
        kernels = os.path.join(linux, "boot", "vmlinuz-*")
        self.kernel = one_of(kernels, "a kernel (linux-image-amd64, installed or unpacked)")
        version = os.path.basename(self.kernel).split("-", 1)[1]
        self.qemu, self.work = program("qemu-system-x86_64"), work
        program("cpio")
        self.root = os.path.join(work, "root")
        for name in ("busybox", "ndctl"):
            copied(program(name), self.root, f"bin/{name}")
        needs = subprocess.run(["ldd", program("ndctl")], stdout=subprocess.PIPE, check=True)
        for path in re.findall(r"(/lib\S+)", needs.stdout.decode("ascii")):
            copied(path, self.root)
        for name in MODULES:
            where = os.path.join(linux, "lib", "modules", version, "**", f"{name}.ko")
            copied(one_of(where, f"the module {name}"), self.root, f"lib/modules/{name}.ko")
        copied(os.path.join(HERE, "init"), self.root, "init")
        os.chmod(os.path.join(self.root, "init"), 0o755)

    def plan(self, uuid, restored):
        """Names the namespace, and the runs that are written back before each fault."""
        text = ";".join(f"{at} {count}" for at, count in restored)
        write(os.path.join(self.root, "plan"), f"uuid={uuid}\nrestored='{text}'\n")

    def add(self, number, base, damaged, digest):
        folder = os.path.join(self.root, "faults", str(number))
        runs = runs_of(base, damaged)
        pieces = b"".join(damaged[UNIT * at : UNIT * (at + count)] for at, count in runs)
        write(os.path.join(folder, "runs"), "".join(f"{at} {count}\n" for at, count in runs))
        write(os.path.join(folder, "bytes"), pieces)
        write(os.path.join(folder, "areas"), digest + "\n")

    def all(self, numbers, files):
        """Starts it until each of these faults was tried, and yields its lines.

        If it ends amid a fault, `ended` comes, and it goes on with the next one.
        """
        left = list(numbers)
        while left:
            now, before = None, len(left)
            for line in self.start(left, files):
                word, _, rest = line.partition(" ")
                if word in ("fault", "done", "unclean"):
                    now = int(rest) if word == "fault" else None
                if word == "done":
                    left.remove(int(rest))
                yield line
            if now is not None:
                left.remove(now)
                yield f"ended {now}"
            if len(left) == before:
                raise Missing("wants a guest that tries the faults, and this one tried none")

    def start(self, numbers, files):
        """Starts it once for these faults, and yields what it prints behind @, line by line."""
        write(os.path.join(self.root, "todo"), " ".join(map(str, numbers)) + "\n")
        packed = os.path.join(self.work, "initrd.gz")
        pack = f"find . | cpio -o -H newc --quiet | gzip -1 >'{packed}'"
        subprocess.run(pack, shell=True, cwd=self.root, check=True)
        words = ["nice", "-n", "19", self.qemu, "-machine", "q35,nvdimm=on", "-cpu", "max"]
        words += ["-m", "1G,slots=2,maxmem=4G", "-nographic", "-net", "none", "-no-reboot"]
        words += ["-kernel", self.kernel, "-initrd", packed]
        words += ["-append", "console=ttyS0 loglevel=1 panic=1 oops=panic"]
        for slot, file in enumerate(files):
            # the modules have the undamaged bytes at each start
            own = shutil.copy(file, os.path.join(self.work, f"module{slot}.img"))
            memory = f"memory-backend-file,id=mem{slot},share=on,mem-path={own}"
            words += ["-object", f"{memory},size={CONTENTS + LABELS}"]
            words += ["-device", f"nvdimm,memdev=mem{slot},id=nv{slot},label-size=128K"]
        with subprocess.Popen(words, stdin=subprocess.DEVNULL, stdout=subprocess.PIPE,
                              stderr=subprocess.STDOUT) as running:
            try:
                yield from self.lines(running)
            finally:
                running.kill()

    def lines(self, running):
        """The lines of a guest, which is ended if it is silent; `console` keeps all of them."""
        with open(os.path.join(self.work, "console"), "ab") as console:
            while True:
                clock = threading.Timer(SILENCE, running.kill)
                clock.start()
                line = running.stdout.readline()
                clock.cancel()
                if not line:
                    return
                console.write(line)
                text = line.decode("utf-8", "replace").rstrip("\r\n")
                if text.startswith("@ "):
                    yield text[2:]
