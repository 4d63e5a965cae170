"""Reads the lines that nvdimm_shell prints, by the grammar of docs/commands/OUTPUT.md."""
import itertools
import re
from collections import Counter

NUMBER, UUID, HEX = r"(\d+)", r"([0-9a-f]{8}(?:-[0-9a-f]{4}){3}-[0-9a-f]{12})", r"([0-9a-f]{16})"
NAME = r'("(?:[^"\\]|\\.)*"|hex:(?:[0-9a-f]{2})*)'
MODE = r"(raw|sector1?|other:\S+)"
VALUE = r"(?:fill:[0-9a-f]{2}|hex:(?:[0-9a-f]{2})*)"
INFO_FAULT = r"(Signature|Checksum|Version \d+ \d+|Parent|ErrorState|Layout (?:Sector|Inner|Free|Blocks|Areas|Size|Next))"
FLOG_FAULT = r"(Padding|Sequences \d+ \d+|Range \d+)"
LABEL_FAULT = r"Checksum|Slot \d+|OddSize (?:Dpa|RawSize)"
TABLE_FAULT = r"Signature|Length \d+ \d+|Checksum \d+|Structure \d+|(?:TwiceIndex|MissingIndex) \d+ \d+|TooLarge \d+|Alias \d+ \d+ \d+"
INDEX_FAULT = r"Signature|Version \d+ \d+|Offsets|Slots|Checksum"
SET_FAULT = r"(?:Ways|Offsets|Size) \d+ \d+|(?:Twice|Line|Share|Cover) \d+"
WHY = r"(?:Twice|Outside|Unaligned|Missing) \d+|(?:Cookie|Position) \d+ \d+|Differs (?:Count|Dpa|RawSize|LbaSize|Guids|Names)"
# findings of some kinds are repaired
REPAIRED = "( repaired)?"

# Each kind of line: its keys, and its form with a group for each key.
LINES = {
    "index": (["side", "seq", "slots", "free"], f"index {NUMBER} seq {NUMBER} slots {NUMBER} free {NUMBER}"),
    "label": (
        ["slot", "uuid", "name", "pos", "of", "dpa", "size", "flags", "lba", "mode", "cookie"],
        f"label {NUMBER} {UUID} {NAME} pos {NUMBER} of {NUMBER} dpa {NUMBER} size {NUMBER} flags {NUMBER} lba {NUMBER} mode {MODE} cookie {HEX}"),
    "bad": (["slot", "fault"], rf"bad {NUMBER} ({LABEL_FAULT})"),
    "module": (["module", "handle"], f"module {NUMBER} handle {NUMBER}"),
    "region": (
        ["region", "index", "base", "length", "modules", "cookie", "unit"],
        rf"region {NUMBER} index {NUMBER} base {NUMBER} length {NUMBER} modules((?: \d+)*) cookie {HEX} unit {NUMBER}"),
    "region fault": (["region", "index", "fault"], rf"region {NUMBER} index {NUMBER} fault ({SET_FAULT})"),
    "ns": (
        ["uuid", "name", "region", "mode", "lba", "size", "status"],
        rf"ns {UUID} {NAME} region (\d+|-) mode {MODE} lba {NUMBER} size {NUMBER} (complete(?: pending)?|unfinished|local|incomplete (?:{WHY}))"),
    "extent": (["module", "start", "length"], f"extent {NUMBER} {NUMBER} {NUMBER}"),
    "arena": (
        ["arena", "sector", "sectors", "blocks", "lanes", "moves"],
        f"arena {NUMBER} sector {NUMBER} sectors {NUMBER} blocks {NUMBER} lanes {NUMBER} moves {NUMBER}"),
    "finding of an info block": (["arena", "repaired", "kind", "fault"], f"arena {NUMBER}{REPAIRED} (Info|Backup) {INFO_FAULT}"),
    "finding of both info blocks": (["arena", "repaired", "kind"], f"arena {NUMBER}{REPAIRED} (Unequal)"),
    "finding of a lane": (["arena", "kind", "lane", "fault"], f"arena {NUMBER} (Flog) {NUMBER} {FLOG_FAULT}"),
    "finding of a block": (["arena", "kind", "block"], f"arena {NUMBER} (Range|Twice|Missing) {NUMBER}"),
    "finding of a sector": (["arena", "repaired", "kind", "sector"], f"arena {NUMBER}{REPAIRED} (BadData) {NUMBER}"),
    "finding of a word": (["arena", "kind", "word"], f"arena {NUMBER} (BadMeta) {NUMBER}"),
    "move": (["arena", "sector", "old", "new"], f"arena {NUMBER} moved {NUMBER} {NUMBER} {NUMBER}"),
    "missing label": (["module"], f"labels {NUMBER} Missing"),
    "loss of a sector": (["arena", "sector", "why"], f"arena {NUMBER} lost {NUMBER} (BadMap|Marked|BadData)"),
    "loss by its block": (["arena", "sector", "why", "block"], f"arena {NUMBER} lost {NUMBER} (Range|Twice) {NUMBER}"),
    "whole": ([], "whole"),
    "lost": (["lost"], f"lost {NUMBER}"),
    "sound": ([], "sound"),
    "broken": (["broken"], f"broken {NUMBER}"),
    "session": (["session"], f"session {NUMBER}"),
    "reply": (["reply"], rf"(ok|ok {VALUE}|bad|cut|refused \w+(?: \d+)*)"),
    "sessions": (["sessions", "calls", "reads", "writes"], f"sessions {NUMBER} calls {NUMBER} reads {NUMBER} writes {NUMBER}"),
    "replies": (["replies"], f"replies {HEX}"),
}
# The lines of a check of a whole set but those of arenas: the keys behind the object, and the form of the line behind its first word.
WHOLE = [
    (["fault"], "(mark) (Missing)"),
    (["fault"], rf"(nfit) (Missing|Size \d+|{TABLE_FAULT})"),
    (["module", "fault"], rf"(labels|badranges) {NUMBER} (Size \d+)"),
    (["module", "fault"], rf"(contents) {NUMBER} (Missing|Size \d+)"),
    (["region", "fault"], rf"(region) {NUMBER} ({SET_FAULT})"),
    (["module", "notice"], rf"(labels) {NUMBER} (NoIndex)"),
    (["module", "side", "notice"], rf"(labels) {NUMBER} index {NUMBER} (Sequence)"),
    (["module", "side", "fault"], rf"(labels) {NUMBER} index {NUMBER} ({INDEX_FAULT})"),
    (["module", "slot", "fault"], rf"(labels) {NUMBER} slot {NUMBER} ({LABEL_FAULT})"),
    (["fault", "uuids"], rf"(labels) (Overlap) ({UUID[1:-1]} {UUID[1:-1]})"),
    (["notice"], "(namespaces|arenas) (Unchecked)"),
    (["uuid", "notice"], rf"(namespace) {UUID} (pending|unfinished|local)"),
    (["uuid", "fault"], rf"(namespace) {UUID} ({WHY})"),
    (["module", "records"], rf"(badranges) {NUMBER} {NUMBER}"),
]
TEXTS = {"uuid", "mode", "status", "kind", "fault", "notice", "cookie", "reply", "replies", "why"}


class NoLine(Exception):
    """A line that the grammar doesn't have."""


def name_of(text):
    """The key and value of a name: text, or hexadecimal digits if its bytes are no text."""
    if text.startswith("hex:"):
        return "name_hex", text[4:]
    return "name", re.sub(r"\\(.)", r"\1", text[1:-1])


def value_of(key, text):
    if key in TEXTS:
        return text
    if key == "repaired":
        return text is not None
    if key == "modules":
        return [int(it) for it in text.split()]
    if key == "uuids":
        return text.split()
    return None if text == "-" else int(text)


def record_of(line):
    """The kind of a line, and what it says."""
    for kind, (keys, form) in LINES.items():
        found = re.fullmatch(form, line)
        if found:
            fields = {}
            for key, text in zip(keys, found.groups()):
                if key == "name":
                    key, text = name_of(text)
                    fields[key] = text
                else:
                    fields[key] = value_of(key, text)
            return kind.split()[0], with_both_bases(fields)
    raise NoLine(line)


def with_both_bases(fields):
    """Adds the hexadecimal form of the one cookie that a text has in decimal."""
    found = re.fullmatch(r"(?:incomplete )?Cookie \d+ (\d+)", fields.get("status", fields.get("fault", "")))
    return {**fields, "found_cookie": f"{int(found.group(1)):016x}"} if found else fields


def records_of(text):
    return [record_of(line) for line in text.splitlines()]


def document_of(command, text):
    """What a command's whole text says, as one value for JSON."""
    out = {"labels": {"index": None, "labels": [], "bad": []}, "nfit": {"modules": [], "regions": []},
           "list": {"namespaces": []}, "info": {"arenas": []}}[command]
    places = {"label": "labels", "bad": "bad", "module": "modules", "region": "regions", "ns": "namespaces", "arena": "arenas"}
    for kind, fields in records_of(text):
        if kind == "index":
            out["index"] = fields
        elif kind == "extent":
            out["namespaces"][-1]["extents"].append(fields)
        else:
            out[places[kind]].append({**fields, "extents": []} if kind == "ns" else fields)
    return out


def checked_of(text):
    """What the lines of a check say: whether nothing is open, how many findings are and how many were repaired, and those of each arena that has some."""
    *found, (last, fields) = records_of(text) or [(None, {})]
    if last not in ("sound", "broken") or any(kind != "finding" for kind, _ in found):
        raise NoLine(text.rstrip("\n").rsplit("\n", 1)[-1])
    arenas = {}
    for _, it in found:
        is_repaired = it.pop("repaired", False)
        arenas.setdefault(it.pop("arena"), []).append({**it, "repaired": is_repaired})
    repaired = sum(it["repaired"] for its in arenas.values() for it in its)
    return {"sound": last == "sound", "broken": fields.get("broken", 0), "repaired": repaired,
            "arenas": [{"arena": number, "findings": its} for number, its in arenas.items()]}


def rescued_of(text):
    """What the lines of a rescue say: whether no sector is lost, how many are, which modules lack a label, and of each arena that has lines what it stands on, its moves and its losses."""
    *found, (last, fields) = records_of(text) or [(None, {})]
    missing = [it["module"] for _, it in itertools.takewhile(lambda it: it[0] == "missing", found)]
    arenas = {}
    for kind, it in found[len(missing) :]:
        if kind not in ("finding", "move", "loss") or kind == "finding" and (it["kind"] not in ("Info", "Flog", "BadMeta") or it.get("repaired")):
            last = None
            break
        arena = arenas.setdefault(it.pop("arena"), {"findings": [], "moves": [], "losses": []})
        arena["losses" if kind == "loss" else f"{kind}s"].append({**it, "repaired": False} if kind == "finding" else it)
    if last not in ("whole", "lost"):
        raise NoLine(text.rstrip("\n").rsplit("\n", 1)[-1])
    return {"whole": last == "whole", "lost": fields.get("lost", 0), "missing_labels": missing, "arenas": [{"arena": number, **it} for number, it in arenas.items()]}


def noted_of(line):
    """What a line of a whole set's check says, but for the last one."""
    severity, _, text = line.partition(" ")
    found = re.fullmatch(rf"labels {NUMBER} index {NUMBER} ({INDEX_FAULT})", text)
    if found and severity == "repaired":
        module, side, fault = found.groups()
        return {"severity": severity, "object": "labels", "module": int(module), "side": int(side), "fault": fault}
    found = re.fullmatch(rf"arena {UUID} (.*)", text)
    if found and severity == "fault":
        kind, fields = record_of(f"arena {found.group(2)}")
        if kind == "finding" and not fields.pop("repaired", False):
            return {"severity": severity, "object": "arena", "uuid": found.group(1), **fields}
    for keys, form in WHOLE:
        found = re.fullmatch(form, text)
        if found and severity == ("fault" if "fault" in keys else "notice"):
            fields = {key: value_of(key, it) for key, it in zip(keys, found.groups()[1:])}
            return {"severity": severity, "object": found.group(1), **with_both_bases(fields)}
    raise NoLine(line)


def whole_of(text):
    """What the lines of a whole set's check say: whether there is no fault, how many faults and notices there are, how many index blocks were repaired, and each of them."""
    *lines, last = text.splitlines() or [""]
    if record_of(last)[0] not in ("sound", "broken"):
        raise NoLine(last)
    found = [noted_of(it) for it in lines]
    count = Counter(it["severity"] for it in found)
    return {"sound": last == "sound", "faults": count["fault"], "notices": count["notice"], "repaired": count["repaired"], "findings": found}


def value_of_sector(text):
    """What the one line of a read says: that the sector is bad, the byte that fills it, or all its bytes, as hexadecimal digits."""
    (kind, fields), = records_of(text) or [(None, {})]
    found = re.fullmatch(r"bad|ok (fill|hex):(.*)", fields.get("reply", ""))
    if kind != "reply" or not found:
        raise NoLine(text.rstrip("\n"))
    return {"bad": False, found.group(1): found.group(2)} if found.group(1) else {"bad": True}


def done_of(text):
    """What the one line of a command that writes says: that it is done, or after how many steps power was cut."""
    found = re.fullmatch(r"ok\n|cut (\d+)\n", text)
    if not found:
        raise NoLine(text.rstrip("\n"))
    return {"result": "cut", "steps": int(found.group(1))} if found.group(1) else {"result": "ok"}
