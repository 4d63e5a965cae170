"""How power is cut in each command that nvd sweep takes: by its option --cut, by a shorter schedule, or by a line of a script."""
import os
import re

import runs


class NoCut(Exception):
    """Power can't be cut in this command."""


def lines_of(program, out, *commands):
    """What some commands print of a set, all together."""
    return "".join(program.run([out, "-", *words])[1] for words in commands)


class ByOption:
    """By --cut, which init, create, delete and rename have."""

    def __init__(self, program, source, command, words):
        self.program, self.source, self.command, self.words = program, source, command, words

    def run(self, out, cut, seed):
        status, said = self.program.run([self.source, out, self.command, *self.words, "--cut", str(cut), "--evict", str(seed)])
        return status, said, status == 8

    def shown(self, out):
        show = ["labels", next(it for it in self.words if not it.startswith("-"))] if self.command == "init" else ["list"]
        return lines_of(self.program, out, show)


class Scripted:
    """By the script of a command that reads one."""

    def __init__(self, program, source, words, shows):
        self.program, self.source, self.words, self.shows = program, source, words, shows

    def with_script(self, out, command, words, seed, text):
        script = os.memfd_create("script")
        try:
            os.write(script, text.encode(errors="surrogateescape"))
            os.lseek(script, 0, os.SEEK_SET)
            return runs.asked(self.program.path, [self.source, out, command, *words, "--evict", str(seed)], script)
        finally:
            os.close(script)

    def shown(self, out):
        return lines_of(self.program, out, *self.shows)


class ByWrite(Scripted):
    """A write of one sector, as the only call of a session of serve, which has a cut."""

    def __init__(self, program, source, words):
        namespace, sector, value = [it for it in words if it != "--"]
        self.lines = f"open {namespace}\nwrite {sector} {value}\n"
        super().__init__(program, source, words, [["info", namespace], ["read", namespace, sector]])

    def run(self, out, cut, seed):
        status, said = self.with_script(out, "serve", ["--workers", "1"], seed, f"session 0\ncut {cut}\n{self.lines}")
        if status == 0 and "refused " in said:
            return 4, next(line for line in said.splitlines() if line.startswith("refused ")) + "\n", False
        return status, said, "cut" in said.splitlines()


class ByReplay(Scripted):
    """By a schedule that ends earlier: its steps are cut after so many."""

    def __init__(self, program, source, words, lines):
        namespace = next(it for it in words if not it.startswith("-"))
        sectors = sorted({int(it) for it in re.findall(r"(?m)^call \d+ write (\d+) ", "\n".join(lines))})
        super().__init__(program, source, words, [["info", namespace], *(["read", namespace, str(it)] for it in sectors)])
        self.lines = lines
        self.total = sum(int(it) for it in re.findall(r"(?m)^step \d+ (\d+)$", "\n".join(lines)))
        if not self.total:
            raise NoCut("the schedule has no line 'step LANE COUNT'")

    def run(self, out, cut, seed):
        left, kept = cut, []
        for line in self.lines:
            found = re.fullmatch(r"(step \d+ )(\d+)", line)
            if found:
                kept.append(f"{found.group(1)}{min(left, int(found.group(2)))}")
                left -= min(left, int(found.group(2)))
            if left <= 0 and found:
                break
            if not found:
                kept.append(line)
        status, said = self.with_script(out, "replay", self.words, seed, "".join(f"{it}\n" for it in kept))
        return status, said, cut < self.total


class ByScript(Scripted):
    """By the first line `labelcut N` or `cut N` of a script of sessions: N is what is swept."""

    def __init__(self, program, source, words, lines):
        opened = dict.fromkeys(re.findall(r"(?m)^open (\S+)$", "\n".join(lines)))
        sectors = sorted({int(it) for it in re.findall(r"(?m)^write (\d+) ", "\n".join(lines))})
        super().__init__(program, source, words, [["list"], *(["read", it, str(sector)] for it in opened for sector in sectors)])
        self.lines = lines
        self.at = next((at for at, line in enumerate(lines) if re.match(r"(label)?cut \d", line)), None)
        if self.at is None:
            raise NoCut("the script has no line 'labelcut STEPS' or 'cut STEPS': put one where power is to be cut, with any number")
        if not any(it.startswith("--workers") for it in words):
            # with one worker each run is the same
            self.words = [*words, "--workers", "1"]

    def run(self, out, cut, seed):
        word = self.lines[self.at].split(" ")[0]
        lines = [*self.lines[: self.at], f"{word} {cut}", *self.lines[self.at + 1 :]]
        status, said = self.with_script(out, "serve", self.words, seed, "".join(f"{it}\n" for it in lines))
        return status, said, "cut" in said.splitlines()
