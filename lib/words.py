"""The words of a command line: which of them is wrong, and those that nvd adds or puts in another form."""
import re

from commands import commands, is_whole
from helps import near
from units import bytes_of

UUID = re.compile(r"(?:urn:uuid:)?[0-9a-fA-F]{8}(?:-[0-9a-fA-F]{4}){3}-[0-9a-fA-F]{12}|\{[0-9a-fA-F]{8}(?:-[0-9a-fA-F]{4}){3}-[0-9a-fA-F]{12}\}|[0-9a-fA-F]{32}")
MOST = (1 << 64) - 1
SOME_UUID = "00000000-0000-4000-8000-000000000000"
# All calls of a load are so many at most; each session opens and closes the namespace, too.
MOST_CALLS = 65536
# A place is shown by its name in capitals, but for these.
SHOWN = {"number": "SEED"}
# What the value of a place (as it is shown) or an option is: "UUID", "text", "value", or a number with its least and greatest value. A "flag" has none.
KINDS = {
    "MODULE": ("a number", 0, 63), "SECTOR": ("a number", 0, MOST), "UUID": "UUID", "VALUE": "value", "SEED": ("a number", 0, MOST),
    "--uuid": "UUID", "--region": ("a number", 0, (1 << 32) - 1), "--size": ("a size", 0, MOST), "--mode": "mode",
    "--sector": ("a number", 0, (1 << 32) - 1), "--lanes": ("a number", 1, 256), "--cut": ("a number", 0, MOST), "--evict": ("a number", 0, MOST),
    "--workers": ("a number", 1, 64), "--sessions": ("a number", 1, 1024), "--calls": ("a number", 1, MOST_CALLS - 2),
}
TABLE = commands()
# each command: its places by name, and its options, with what their values are
COMMANDS = {
    it.name: ([(name, KINDS.get(name, "text")) for name in (SHOWN.get(word, word.upper()) for word in it.places)],
              {f"--{word}": KINDS.get(f"--{word}", "text") for word in it.needed + it.others} | {f"--{word}": "flag" for word in it.flags})
    for it in TABLE.values()
}


def is_uuid(text):
    return bool(UUID.fullmatch(text))


def taken(command, words):
    """The places and options that words give: (at, name, value, index of the value); a fault is what stops it, or None."""
    places, options = COMMANDS[command]
    got, at, count, only_places = [], 0, 0, False
    while at < len(words):
        word = words[at]
        if only_places or not word.startswith("-"):
            if count == len(places):
                return got, f"'{word}' is one word too many"
            got.append((places[count][0], word, at, False))
            count += 1
        elif word == "--":
            only_places = True
        else:
            name, has_value, value = word.partition("=")
            if name not in options:
                known, meant = " ".join(options) or "none", near(name, options)
                return got, f"'{command}' has no option '{name}'{meant}" + (f" Its options are {known}" if meant else f": its options are {known}")
            if any(it[0] == name for it in got):
                return got, f"'{name}' is given twice"
            if options[name] == "flag" and has_value:
                return got, f"'{name}' takes no value"
            if options[name] == "flag":
                got.append((name, None, at, False))
            elif has_value:
                got.append((name, value, at, True))
            elif at + 1 == len(words) or words[at + 1].startswith("-"):
                return got, f"'{name}' has no value behind it (a value that begins with - stands as {name}=-1)"
            else:
                at += 1
                got.append((name, words[at], at, False))
        at += 1
    return got, None


def kind_of(command, name):
    places, options = COMMANDS[command]
    return dict(places).get(name) or options[name]


def fault_of_value(command, name, value, ask=None):
    """What is wrong with a value, and the remedy; None if nothing is. ask(COMMAND) gives the records of a command."""
    kind = kind_of(command, name)
    if kind in ("text", "flag"):
        return None
    if kind == "UUID":
        return None if is_uuid(value) else fault_of_name(value, names_in(ask("list")) if ask and command != "create" else {})
    if kind == "value":
        if re.fullmatch(r"fill:[0-9a-fA-F]{2}|hex:(?:[0-9a-fA-F]{2})*", value):
            return None
        return f"'{value}' is no value: it is fill: and two hexadecimal digits, or hex: and two digits for each byte"
    if kind == "mode":
        if value in ("raw", "sector"):
            return None
        hint = "; set it up inside the machine, with ndctl" if value in ("fsdax", "devdax", "memory", "dax") else ""
        return f"'--mode {value}' isn't made here: give raw or sector{hint}"
    what, low, high = kind
    if re.fullmatch(r"0|[1-9][0-9]*", value):
        return None if low <= int(value) <= high else f"'{name}' takes a number from {low} to {high}, and {value} isn't one"
    size = bytes_of(value)
    if size is not None:
        return None if what == "a size" and size <= high else f"'{name} {value}': give it as a plain number: {size}"
    if re.fullmatch(r"0[xX][0-9a-fA-F]+", value):
        return f"'{name} {value}': give it in decimal digits: {int(value, 16)}"
    if re.fullmatch(r"[+]?0*[0-9]+", value):
        return f"'{name} {value}': give it without sign and leading zeros: {int(value)}"
    units = ", or with K, M, G or T behind it" if what == "a size" else ""
    return f"'{name} {value}': {value or 'nothing'} is no number; give decimal digits{units}"


def fault_of_name(value, known):
    """What is wrong with a word that is no UUID, None if it is one namespace's name; `known` has the UUIDs of each name."""
    if len(known.get(value, [])) == 1:
        return None
    if len(known.get(value, [])) > 1:
        return f"{len(known[value])} namespaces have the name '{value}': give one of the UUIDs {' '.join(known[value])}"
    meant = near(value, known) or ("" if "-" not in value else near(value, [it for uuids in known.values() for it in uuids]))
    return f"'{value}' is no UUID, and no namespace alone has this name{meant}" + (" 'nvd IN - list' shows both" if meant else ": 'nvd IN - list' shows both")


def fault_of(command, words, ask=None):
    """What is wrong with the words behind a command's name, the first thing; None if nothing is. ask(COMMAND) gives the records of a command.
    A word that is neither a UUID nor a name comes last, since only a set can tell that."""
    got, fault = taken(command, words)
    wrong = [(kind_of(command, name) == "UUID", fault_of_value(command, name, value, ask)) for name, value, _, _ in got]
    plain = [it for is_name, it in wrong if it and not is_name]
    if plain or fault:
        return plain[0] if plain else fault
    names = [it[0] for it in got]
    places, _ = COMMANDS[command]
    for name in [] if is_whole(TABLE[command], words) else [*(it[0] for it in places), *(f"--{it}" for it in TABLE[command].needed)]:
        if name not in names:
            return f"{name} is missing"
    together = fault_of_load({name: value for name, value, _, _ in got}) if command == "load" else None
    return together or next((it for _, it in wrong if it), None)


def fault_of_load(given):
    """Returns what is wrong with the numbers of a load together; None if nothing is."""
    sessions, calls = int(given.get("--sessions", 4)), int(given.get("--calls", 100))
    most = MOST_CALLS // sessions - 2
    return f"'--calls' takes at most {most} with {sessions} sessions, and {calls} is more" if calls > most else None


def names_in(records):
    """The UUIDs of each name in the records of a list."""
    found = {}
    for kind, fields in records:
        if kind == "ns" and "name" in fields:
            found.setdefault(fields["name"], []).append(fields["uuid"])
    return found


def completed(command, words, ask, draw, note):
    """The words with names as UUIDs, sizes in bytes and, for create, what wasn't given. ask(COMMAND) gives the records of a command.
    If another word is wrong, nothing is asked: the program says of the words as they stand that they aren't a command line."""
    got, fault = taken(command, words)
    out = list(words)
    for name, value, at, joined in got:
        size = bytes_of(value) if name == "--size" else None
        if size is not None:
            out[at] = f"{name}={size}" if joined else str(size)
    is_create = command == "create"
    by_name = [it for it in got if not is_create and kind_of(command, it[0]) == "UUID" and not is_uuid(it[1])]
    if not by_name and not is_create or fault or fault_without(command, out, by_name):
        return out
    for name, value, at, joined in by_name:
        uuids = names_in(ask("list")).get(value, [])
        if len(uuids) == 1:
            out[at] = f"{name}={uuids[0]}" if joined else uuids[0]
    if not is_create:
        return out
    names = [it[0] for it in got]
    if "--mode" not in names:
        out += ["--mode", "raw"]
    if "--region" not in names:
        regions = [fields["region"] for kind, fields in ask("nfit") if kind == "region"]
        if len(regions) == 1:
            out += ["--region", str(regions[0])]
        elif regions:
            note(f"the set has {len(regions)} regions: choose one with --region, from {', '.join(map(str, regions))}")
    if "--uuid" not in names:
        uuid = draw()
        out += ["--uuid", uuid]
        if not fault_of(command, out):
            note(f"--uuid isn't given: the new namespace's UUID is {uuid}")
    return out


def fault_without(command, words, by_name):
    """What is wrong with the words but for those that are names; for create, but for what isn't given."""
    plain = list(words)
    for name, _, at, joined in by_name:
        plain[at] = f"{name}={SOME_UUID}" if joined else SOME_UUID
    if command == "create":
        given = [it[0] for it in taken(command, words)[0]]
        plain += [it for name, value in (("--uuid", SOME_UUID), ("--mode", "raw"), ("--region", "0")) if name not in given for it in (name, value)]
    return fault_of(command, plain)
