"""Says what to do after a run that ended with a fault."""
import os

from commands import commands, takes_whole, writes
from faults import RESCUE, explained
from helps import WORDS, forms, names, near, no_command
from places import FAULTS, say, text_of
from runs import asked, fault_of_input

OBJECTS = ("nfit.bin", "labels-", "contents-", "badranges-", "complete")
# what takes the memory of a command; the others take little
HELD = {"import": "it has FILE in memory", "replay": "it has its arena in memory, about three times over",
        **dict.fromkeys(("serve", "load"), "it has the arenas that it opens in memory, about five times over")}


def is_text(words):
    """Whether all words are UTF-8."""
    return not any(0xDC80 <= ord(letter) <= 0xDCFF for word in words for letter in word)


class Run:
    """A run that ended: its words, its status, whether OUT was there before, and a script that can be read again."""

    def __init__(self, program, words, status, was_there, script=None, ask=None):
        self.program, self.words, self.status, self.was_there, self.script, self.ask = program, words, status, was_there, script, ask
        self.source, self.sink = (*words, "", "")[:2]
        self.command = words[2] if len(words) > 2 else ""
        self.row = commands().get(self.command)
        self.writes, self.reads_script = writes(words), bool(self.row and self.row.script)

    def text(self):
        """What the program said: it is run once more, with an OUT that can't be made, and with the script if that can be read again."""
        if not self.program:
            return ""
        sink = "-" if self.sink == "-" else "/dev/null/none"
        if self.script:
            os.lseek(self.script[0], self.script[1], os.SEEK_SET)
        return asked(self.program, [self.source, sink, *self.words[2:]], self.script and self.script[0])[1].rstrip("\n")


def after(run):
    """Says what a run's status means, and what to do."""
    if run.status in (2, 3) and misplaced(run):
        return
    if run.status == 2:
        after_words(run)
    elif run.status == 3:
        after_images(run)
    elif run.status == 4:
        after_text(run)
    elif run.status == 5:
        after_reading(run)
        if run.writes and os.path.isdir(run.sink) and not run.was_there:
            say(f"OUT, '{run.sink}', was begun and isn't finished: remove what is there of it")
    elif run.status == 6:
        after_writing(run)
    elif run.status == 7:
        say("out of memory: run it where more is free" + (f"; {HELD[run.command]}" if run.command in HELD else ""))
    elif run.status not in (0, 8):
        say(f"the program ended with status {run.status}, which is none of its own: if it was stopped from outside, run it again; else please report the words and the set")


def ignored(words):
    """Says that OUT is ignored, if a command that only reads has one."""
    row = commands().get(words[2]) if len(words) > 2 else None
    if words[1:2] != ["-"] and (row and not writes(words) or words[2:3] == ["free"]):
        say(f"OUT, '{words[1]}', is ignored, since '{words[2]}'{' alone' if takes_whole(words) else ''} writes no set: give - there")


def misplaced(run):
    """Whether a command stands where IN or OUT belongs; then it is said."""
    if run.command in WORDS:
        return False
    if run.source in WORDS and not os.path.exists(run.source):
        say(f"'{run.source}' stands behind IN and OUT: {forms(run.source)}")
    elif run.sink in WORDS and not os.path.exists(run.sink):
        say(f"OUT is missing before '{run.sink}': {forms(run.sink)}")
    else:
        return False
    return True


def after_words(run):
    from words import fault_of, fault_without

    if not is_text(run.words):
        say("a word isn't UTF-8: rename what it names, or give that another name by a link (ln -s)")
    elif len(run.words) >= 2 and not (run.source and run.sink):
        say("IN or OUT is the empty word: name a directory, or - for OUT if the command writes nothing")
    elif len(run.words) < 3:
        word = run.words[-1] if run.words else ""
        meant = near(word, ["help", "demo", *names()]) if word and not os.path.exists(word) else ""
        say(f"too few words{meant or ':'} nvd IN OUT COMMAND .., with - for OUT if the command writes nothing; 'nvd help' shows the commands")
    elif run.command not in WORDS:
        say(no_command(run.command))
    else:
        fault = None
        if run.command == "create":
            # what nvd completes isn't missing
            fault = fault_without(run.command, run.words[3:], [])
        elif run.row:
            fault = fault_of(run.command, run.words[3:], run.ask)
        if fault:
            say(fault)
        elif run.reads_script:
            after_script(run)
            return
        say(f"the words of '{run.command}' are: {forms(run.command)}; 'nvd help {run.command}' says what each may be")


def after_script(run):
    """The words are right, so the script isn't."""
    if run.command == "import":
        say("FILE on standard input has more than 536870912 bytes, which is the most that 'import' takes: it fills no namespace of more than 512 MiB")
    elif not say_rows(run.text()):
        say("the text begins with 'script': a line of the script is wrong")
    say("'nvd help FAULTS' has every such text, and 'nvd help " + run.command + "' the grammar")


def say_rows(text, front=""):
    """Says what the rows of FAULTS say of a text, of which a rescue's lines have a front; whether there are any."""
    rows = explained(front + text, text_of(FAULTS) or "")
    for at, (meaning, remedy) in enumerate(rows):
        # to a rescue the reason of a refused block or group is no fault of its own
        say(f"{text}: {meaning}" + (f". To do: {remedy}" if remedy and not (front and at) else ""))
    return bool(rows)


def after_findings(run, lines):
    """Says what the findings of `check` mean, or the lines of `rescue`."""
    from hints import hint_of_line

    if run.command == "rescue":
        for line in lines:
            say_rows(line, RESCUE)
        say("'nvd help rescue' says what is printed of lost sectors, and what can't be seen, and 'nvd help FAULTS' has every line")
        return
    for line in lines:
        say_rows(line)
        for it in hint_of_line(run, line):
            say(it)
    say("'nvd help check' says what to do, what --repair mends and what check can't see, and 'nvd help FAULTS' has every finding")


def after_images(run):
    if not os.path.exists(run.source):
        say(f"IN, '{run.source}', isn't there: name the directory of an image set")
    elif not os.path.exists(os.path.join(run.source, "complete")):
        say(f"IN, '{run.source}', has no file 'complete': it is no image set, or writing it stopped before the end; take another, or make it again from the set before")
    else:
        after_text(run)


def after_text(run):
    """Says what the text of a command means that wrote nothing."""
    from hints import hint

    text = run.text()
    if run.command == "import" and text.startswith("refused Length ") and not run.script:
        # FILE was read, so its length isn't known any more
        say(f"FILE hasn't as many bytes as the namespace, which has {text.split()[-1]}; 'nvd IN - export' prints as many")
    elif text:
        say_rows(text)
    elif run.command == "serve" and run.status == 4:
        say("the arenas of the namespaces that the script opens have more than 1 GiB together: open fewer or smaller ones in one run")
    elif run.command == "serve":
        say("a namespace that the script opens has an arena that breaks the format: 'nvd IN - info UUID' says which, and what to do")
    for line in hint(run, text):
        say(line)
    say("'nvd help FAULTS' has every text, what it means and what to do")


def after_reading(run):
    fault = fault_of_input() if run.reads_script else None
    if fault:
        say(f"standard input {fault}, and '{run.command}' reads it: {forms(run.command)}")
        return
    if not os.path.isdir(run.source):
        say(f"IN, '{run.source}', is no directory: name the directory of an image set")
        return
    try:
        names_there = sorted(os.listdir(run.source))
    except OSError as fault:
        say(f"IN, '{run.source}', can't be read ({fault.strerror}): change its permission, or run as its owner")
        return
    for name in names_there:
        file = os.path.join(run.source, name)
        if not name.startswith(OBJECTS):
            continue
        if os.path.islink(file) and not os.path.exists(file):
            say(f"'{file}' is a link to nothing: mend the link, or remove it")
        elif not os.path.isfile(file):
            say(f"'{file}' is no regular file: put the object's bytes into a file of that name")
        elif not os.access(file, os.R_OK):
            say(f"you may not read '{file}': change its permission, or run as its owner")
        else:
            continue
        return
    say(f"a file of '{run.source}' can't be read, or was changed meanwhile: see that you may read all of them, and that nothing writes there")


def is_inside(source, sink):
    """Whether what is made at the second path would stand inside the directory of the first one."""
    if not os.path.isdir(source):
        return False
    outer, above = os.path.realpath(source), os.path.realpath(above_of(sink))
    return os.path.isdir(above) and (above.rstrip("/") + "/").startswith(outer.rstrip("/") + "/")


def above_of(path):
    return os.path.dirname(path.rstrip("/")) or ("/" if path.startswith("/") else ".")


def after_writing(run):
    if not run.writes:
        say("the text couldn't be written: see where standard output goes, and that there is room")
    elif run.sink == "-":
        say(f"'{run.command}' writes an image set, and OUT is -: name a directory that isn't there yet")
    elif run.was_there:
        say(f"OUT, '{run.sink}', is there already: name a directory that isn't, or remove it first")
    elif not os.path.isdir(above_of(run.sink)):
        say(f"the directory above OUT, '{above_of(run.sink)}', isn't there: make it first (mkdir -p)")
    elif is_inside(run.source, run.sink):
        say(f"OUT, '{run.sink}', is inside IN, which is never written: name a directory elsewhere")
    elif os.path.exists(os.path.join(run.sink, "complete")):
        say(f"OUT, '{run.sink}', has the image set, but the text couldn't be written, or the disk failed at the last step: see where standard output goes, "
            "and that there is room; where the disk may be at fault, remove OUT and run it again")
    elif os.path.exists(run.sink):
        say(f"OUT, '{run.sink}', couldn't be written to its end: see that its disk has room and no limit of file sizes (ulimit -f) stops it, and remove what is "
            f"there of it; '{run.source}' is as it was")
    else:
        say(f"OUT, '{run.sink}', couldn't be made: see that you may write to the directory above it, and read it; '{run.source}' is as it was")
