"""The commands with --json, and `free`. The page JSON says what each document has."""
import json
import os
import sys
import uuid

import explain
from commands import takes_whole, writes
from faults import Rows, explained
from places import FAULTS, Ended, say, text_of
from space import free_of
from texts import NoLine, checked_of, document_of, done_of, rescued_of, value_of_sector, whole_of
from words import completed, taken

# what only prints lines; what says that it is done; and what prints bytes, so that its document goes to standard error; `rescue` does either
PRINTING, DOING, EXPORT, RESCUE = ("labels", "nfit", "list", "info", "read", "check"), ("init", "create", "delete", "rename", "write"), "export", "rescue"
LOST = "--lost"
WITH_JSON = (*PRINTING, *DOING, EXPORT, RESCUE)
# what a document of a fault explains; of the others nvd says on standard error what to do
WITH_MEANING = (3, 4)


def answer(program, words):
    plain = [it for it in words if it != "--json"]
    if plain[2:3] != ["free"]:
        status = as_json(program, plain)
        if status != 2:
            explain.ignored(plain)
        return status
    if len(plain) == 3:
        explain.ignored(plain)
        return free(program, plain[0]) if "--json" not in words else free_as_json(program, plain[0])
    say("nvd IN - free [--json] has no other words")
    return 2


def shown(document, file=None):
    print(json.dumps(document, indent=2, ensure_ascii=False), file=file or sys.stdout)


def fault_as_json(status, text, file=None):
    text = text.rstrip("\n")
    rows = explained(text, text_of(FAULTS) or "")
    shown({"status": status, "text": text, "meanings": [{"means": means, "to_do": remedy} for means, remedy in rows]}, file)
    return status


def faulty(ended, file=None):
    """The document of a fault of a command that another one needs."""
    if not hasattr(ended, "text"):
        raise ended
    return fault_as_json(ended.status, ended.text, file)


def as_json(program, words):
    command = words[2] if len(words) > 2 else ""
    with_bytes = command == EXPORT or command == RESCUE and LOST not in words
    if command not in WITH_JSON:
        say(f"--json is for {', '.join(WITH_JSON[:-1])}, {WITH_JSON[-1]} and free, and not for '{command}'")
        return 2
    try:
        rest = completed(command, words[3:], lambda it: program.records(words[0], it), lambda: str(uuid.uuid4()), say)
        if with_bytes:
            return streamed(program, [*words[:3], *rest])
        plain = [words[0], words[1] if writes(words) else "-", command, *rest]
        was_there = os.path.lexists(plain[1])
        status, text = program.run(plain)
    except Ended as it:
        return faulty(it, sys.stderr if with_bytes else None)
    except NoLine as line:
        return no_line(line)
    if not is_answer(plain, status, text):
        fault_as_json(status, text)
        if status not in WITH_MEANING:
            explain.after(explain.Run(program.path, plain, status, was_there))
        return status
    try:
        shown(document(program, plain, text))
    except NoLine as line:
        return no_line(line)
    return status


def no_line(line):
    """Says that the program printed a line that can't be read."""
    say(f"a line isn't in the grammar of 'nvd help OUTPUT': {line}")
    return 1


def is_answer(words, status, text):
    """Whether a text is no fault of the command: with status 3 that of a whole set's check, or of a rescue, may be what was asked for."""
    of_whole = takes_whole(words) and text.startswith(("fault ", "notice "))
    of_rescue = words[2] == RESCUE and text.startswith(("arena ", "labels "))
    return status in (0, 8) or status == 3 and (of_whole or of_rescue)


def document(program, words, text):
    """What a command that is done or was cut says."""
    _, sink, command, *rest = words
    if command == "read":
        return {"sector": int(of_word(command, rest, "SECTOR")), **value_of_sector(text)}
    if command == "check":
        return with_meanings(whole_of(text), text) if takes_whole(words) else checked_of(text)
    if command == RESCUE:
        return rescued_of(text)
    if command not in DOING:
        return document_of(command, text)
    done = done_of(text)
    if command == "create" and done["result"] == "ok":
        found = namespace(program, sink, of_word(command, rest, "--uuid"))
        return {**done, "namespace": found}
    return done


def with_meanings(whole, text):
    """A whole set's check with what FAULTS says of each finding."""
    rows = Rows(text_of(FAULTS) or "")
    for it, line in zip(whole["findings"], text.splitlines()):
        said = rows.explained(line)
        it["means"], it["to_do"] = "; ".join(means for means, _ in said), "; ".join(dict.fromkeys(remedy for _, remedy in said if remedy))
    return whole


def of_word(command, words, name):
    """The value of a place or an option, which is there."""
    return next(value for found, value, _, _ in taken(command, words)[0] if found == name)


def namespace(program, folder, text):
    """A namespace as `list` has it, and its arenas if it has sectors."""
    status, listed = program.run([folder, "-", "list"])
    wanted = str(uuid.UUID(text))
    found = next((it for it in document_of("list", listed if not status else "")["namespaces"] if it["uuid"] == wanted), None)
    if not found or found["mode"] != "sector":
        return found and {**found, "arenas": []}
    status, said = program.run([folder, "-", "info", wanted])
    return {**found, **document_of("info", said if not status else "")}


def streamed(program, words):
    """Prints the bytes as ever, and the document on standard error."""
    status = program.ran(words)
    if status:
        run = explain.Run(program.path, words, status, True)
        fault_as_json(status, run.text() if status in WITH_MEANING else {2: "usage", 5: "read fault"}.get(status, ""), sys.stderr)
        if status not in WITH_MEANING:
            explain.after(run)
        return status
    return (rescued if words[2] == RESCUE else exported)(program, words)


def rescued(program, words):
    """Says what isn't among the bytes that were printed."""
    words = [*words[:3], LOST, *words[3:]]
    status, text = program.run(words)
    if not is_answer(words, status, text):
        fault_as_json(status, text, sys.stderr)
        if status not in WITH_MEANING:
            explain.after(explain.Run(program.path, words, status, True))
        return status
    shown(rescued_of(text), sys.stderr)
    return 0


def exported(program, words):
    """Says what was exported."""
    found = namespace(program, words[0], of_word(EXPORT, words[3:], "UUID"))
    arenas = found["arenas"]
    sectors = sum(it["sectors"] for it in arenas)
    sector = arenas[0]["sector"] if arenas else None
    shown({"namespace": found, "sector": sector, "sectors": sectors if arenas else None, "bytes": sectors * sector if arenas else found["size"]}, sys.stderr)
    return 0


def regions(program, folder):
    return list(free_of(folder, program.records(folder, "nfit"), program.records(folder, "list")))


def free(program, folder):
    for it in regions(program, folder):
        print(f"free {it['region']} available {it['available']} largest {it['largest']} pieces {it['pieces']}")
    return 0


def free_as_json(program, folder):
    try:
        shown({"regions": regions(program, folder)})
    except Ended as it:
        return faulty(it)
    return 0
