#!/usr/bin/env python3
"""Compares what ndctl reads of the info blocks of new sector namespaces with what the program prints of them.

usage: blocks.py PROGRAM BLANK WORK   (BLANK is samples/make_blank.py; the sets are made in the folder WORK)

A set has one module of 17 MiB. Its first MiB is a raw namespace, and the sector namespace follows, so its bytes are those of the
contents from the first byte of its extent on. ndctl reads 8,192 bytes of a file. It must find exactly one info block in the namespace's
first bytes, the same one in its last 4,096 bytes, and none if a byte is changed.

`list` prints the size; `info` prints the numbers of sectors, blocks and lanes. The offsets of the areas follow from them by Linux's
layout: the data after the first block; map, log and the other block, in whole pages, at the end.
"""
import json
import os
import re
import shutil
import subprocess
import sys

sys.dont_write_bytecode = True
sys.path.insert(1, os.path.dirname(os.path.dirname(os.path.abspath(__file__))))
from harness import lines_of  # noqa: E402

BEFORE = "11111111-1111-4111-8111-111111111111"
MADE = "22222222-2222-4222-8222-222222222222"
MIB = 1 << 20
SECTORS = (512, 520, 528, 4096, 4104, 4160, 4224)
LANES = (1, 2, 256)


def pages(count):
    return (count + 4095) // 4096 * 4096


def block_of(size, sector, sectors, blocks, lanes):
    """What ndctl must print of the info block of an arena that is its own parent."""
    other = size - 4096
    log = other - pages(64 * lanes)
    return {
        "signature": "BTT_ARENA_INFO",
        "uuid": MADE,
        "parent_uuid": MADE,
        "flags": 0,
        "version": "2.0",
        "external_lbasize": sector,
        "external_nlba": sectors,
        "internal_lbasize": (sector + 63) // 64 * 64,
        "internal_nlba": blocks,
        "nfree": lanes,
        "infosize": 4096,
        "nextoff": 0,
        "dataoff": 4096,
        "mapoff": log - pages(4 * sectors),
        "logoff": log,
        "info2off": other,
    }


def main():
    program, blank, work = sys.argv[1:]

    report = lines_of("")

    def place(name):
        return name if name == "-" else os.path.join(work, name)

    def run(source, out, *words):
        done = subprocess.run([program, place(source), place(out), *words], capture_output=True, text=True, check=False)
        return done.returncode, done.stdout

    def taken(data):
        """Returns the blocks that ndctl accepts in a file's first bytes, or what it says instead."""
        with open(place("bytes"), "wb") as file:
            file.write(data)
        done = subprocess.run(["ndctl", "read-infoblock", "-j", "-V", "-i", place("bytes")], capture_output=True, text=True, check=False)
        try:
            return [{name: value for name, value in block.items() if name != "file"} for block in json.loads(done.stdout)]
        except ValueError:
            return f"status {done.returncode}: {done.stdout}{done.stderr}"

    def namespace_in(source):
        """Returns the bytes of the sector namespace, and its size."""
        lines = run(source, "-", "list")[1].splitlines()
        at = next((n for n, line in enumerate(lines) if line.startswith(f"ns {MADE} ")), None)
        if at is None:
            return b"", 0
        module, first, count = map(int, lines[at + 1].split()[1:])
        with open(place(os.path.join(source, f"contents-{module}.bin")), "rb") as file:
            file.seek(first)
            return file.read(count), int(lines[at].rsplit(" size ", 1)[1].split()[0])

    def compare(sector, lanes):
        what = f"sectors of {sector} bytes with {lanes} lanes"
        words = ("create", "--uuid", MADE, "--name", "sectors", "--region", "0", "--size", str(16 * MIB))
        words += ("--mode", "sector", "--sector", str(sector), "--lanes", str(lanes))
        report(f"create of {what}", run("base", "made", *words), (0, "ok\n"))
        data, size = namespace_in("made")
        report(f"bytes of {what}", (len(data), size), (16 * MIB, 16 * MIB))
        status, text = run("made", "-", "info", MADE)
        line = re.fullmatch(r"arena 0 sector (\d+) sectors (\d+) blocks (\d+) lanes (\d+) moves 0\n", text)
        if status or not line:
            report(f"info of {what}", (status, text), (0, "a line for one arena"))
            return
        said = [int(number) for number in line.groups()]
        report(f"info of {what}", (said[0], said[3]), (sector, lanes))
        found = taken(data)
        report(f"how many blocks ndctl takes of {what}", len(found) if isinstance(found, list) else found, 1)
        if len(found) != 1:
            return
        for name, value in block_of(size, *said).items():
            report(f"{name} of {what}", found[0].get(name, "not printed"), value)
        report(f"the other block of {what}", taken(data[-4096:] + bytes(4096)), found)
        report(f"a changed byte in {what}", taken(data[:100] + bytes([data[100] ^ 1]) + data[101:]), [])

    subprocess.run([blank, place("blank"), "--modules", "1", "--size", str(17 * MIB)], check=True)
    report("init", run("blank", "ready", "init", "0"), (0, "ok\n"))
    words = ("create", "--uuid", BEFORE, "--name", "before", "--region", "0", "--size", str(MIB), "--mode", "raw")
    report("create of the namespace before", run("ready", "base", *words), (0, "ok\n"))
    for sector in SECTORS:
        for lanes in LANES:
            compare(sector, lanes)
            shutil.rmtree(place("made"), ignore_errors=True)


if __name__ == "__main__":
    main()
