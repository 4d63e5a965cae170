"""What replies and saved sets may be: each function returns what is wrong, as texts.

A session's own lines say which of its calls are refused, and how. Sectors are looked at one by one: their writes have one order, in which each
session's calls stand in theirs, and each read and the set that is left show the last write before them. Values differ, so a read names its write.
"""
import re

from scripts import value_text

BUSY = re.compile(r"refused Busy [1-9]\d*")
SLOT = re.compile(r"refused NoSlot \d+")


class Shape:
    """A sector namespace: how many sectors of how many bytes it has, and how many lanes."""

    def __init__(self, uuid, sectors, size, lanes):
        self.uuid, self.sectors, self.bytes, self.lanes = uuid, sectors, size, lanes

    def write_steps(self):
        """Returns the fewest steps of a write."""
        return self.lanes - 1 + 2 * (self.bytes // 8) + 9


class Region:
    """Where scripts create namespaces: how many modules it has, and the unit of sizes."""

    def __init__(self, modules, unit):
        self.modules, self.unit = modules, unit


class Events:
    """What sessions did to each sector, by its namespace's UUID and its number: writes, reads, and writes that were cut."""

    def __init__(self):
        self.sectors = {}

    def add(self, session, uuid, sector, kind, value):
        self.sectors.setdefault((uuid, sector), {}).setdefault(session, []).append((kind, value))


class Known:
    """What a script and the set before it say of namespaces. If sessions come one after another, it follows them."""

    def __init__(self, script, shapes, region, names, in_order=False):
        self.shapes, self.region, self.names = {it.uuid: it for it in shapes}, region, names
        lines = [line for session in script.sessions for line in session.lines]
        self.created = {line[1] for line in lines if line[0] == "create"}
        self.deleted = {line[1] for line in lines if line[0] == "delete"}
        self.now = set(names) if in_order else None

    def may_lack(self, uuid):
        return uuid not in self.names or uuid in self.deleted if self.now is None else uuid not in self.now

    def may_have(self, uuid):
        return uuid in self.names or uuid in self.created if self.now is None else uuid in self.now

    def may_be_raw(self, uuid):
        return self.may_have(uuid) and (uuid in self.created or uuid not in self.shapes)

    def note(self, line, reply):
        """Follows an order that was answered."""
        if self.now is not None and reply == "ok":
            self.now |= {line[1]} if line[0] == "create" else set()
            self.now -= {line[1]} if line[0] == "delete" else set()


def replies_of(text, count):
    """Returns the replies of each session in the text of `serve`, or None if it hasn't this form."""
    out = []
    for line in text.splitlines():
        if line == f"session {len(out)}":
            out.append([])
        elif out and re.fullmatch(r"ok|ok (fill|hex):[0-9a-f]*|bad|cut|refused [A-Z]\w*( \d+)*", line):
            out[-1].append(line)
        else:
            return None
    return out if len(out) == count and text.endswith("\n" * bool(text)) else None


# ---- one call

def said_of_sector(line, held):
    """Returns the refusal that a call on a sector gets, or None if it gets none."""
    if held is None:
        return "refused NotOpen"
    if line[1] >= held.sectors:
        return f"refused Range {held.sectors}"
    if line[0] == "write" and line[2].startswith("hex:") and len(line[2]) - 4 != 2 * held.bytes:
        return f"refused Length {(len(line[2]) - 4) // 2} {held.bytes}"
    return None


def allowed_of_create(line, held, known):
    _, uuid, region, size, name = line
    if len(name.encode()) > 63:
        return {f"refused BadName {len(name.encode())}"}
    if region:
        return {f"refused NoRegion {region}"}
    out = {"refused Exists"} if known.may_have(uuid) else set()
    if held and held.uuid == uuid or not known.may_lack(uuid):
        return out
    if size == 0 or size % (known.region.modules * known.region.unit):
        return out | {f"refused BadSize {size}"}
    return out | {"ok", f"refused NoSpace {size // known.region.modules}", SLOT}


def allowed_of_change(line, held, known):
    """Returns what a `delete` or a `rename` may be answered."""
    uuid, is_held = line[1], held is not None and held.uuid == line[1]
    if line[0] == "rename" and len(line[2].encode()) > 63:
        return {f"refused BadName {len(line[2].encode())}"}
    if line[0] == "delete" and is_held:
        return {BUSY if known.now is None else "refused Busy 1"}
    out = {"refused NoSuch"} if known.may_lack(uuid) and not is_held else set()
    if known.may_have(uuid):
        out |= {"ok", SLOT} | ({BUSY} if line[0] == "delete" and uuid in known.shapes and known.now is None else set())
    return out


def allowed_of_order(line, held, known):
    """Returns the replies that a call of another kind may have: texts and patterns."""
    if line[0] == "close":
        return {"ok" if held else "refused NotOpen"}
    if line[0] == "create":
        return allowed_of_create(line, held, known)
    if line[0] != "open":
        return allowed_of_change(line, held, known)
    if held:
        return {"refused IsOpen"}
    out = {"ok"} if line[1] in known.shapes and known.may_have(line[1]) else set()
    out |= {"refused NoSuch"} if known.may_lack(line[1]) else set()
    return out | ({"refused NotSector"} if known.may_be_raw(line[1]) else set())


def is_allowed(reply, allowed):
    return any(reply == it if isinstance(it, str) else it.fullmatch(reply) for it in allowed)


# ---- one session

def said_of_session(q, session, replies, known, events):
    """Says what is wrong with a session's replies, and notes what it did to sectors."""
    held, steps = None, 0
    if len(replies) > len(session.lines) or "cut" in replies[:-1] or len(replies) < len(session.lines) and "cut" not in replies:
        yield f"session {q} has {len(replies)} replies to {len(session.lines)} calls, and they end with {replies[-1:]}"
        return
    for at, (line, reply) in enumerate(zip(session.lines, replies)):
        is_call, wrong = line[0] in ("read", "write"), None
        refusal = said_of_sector(line, held) if is_call else None
        if reply == "cut":
            if is_call and not refusal and line[0] == "write":
                events.add(q, held.uuid, line[1], "cut", value_text(line[2], held.bytes))
        elif is_call and refusal:
            wrong = reply != refusal and refusal
        elif line[0] == "write":
            wrong = reply != "ok" and "ok"
            events.add(q, held.uuid, line[1], "write", value_text(line[2], held.bytes))
            steps += held.write_steps()
        elif line[0] == "read":
            wrong = not reply.startswith("ok ") and "ok and a value"
            events.add(q, held.uuid, line[1], "read", reply[3:])
            steps += 1
        elif not is_allowed(reply, allowed_of_order(line, held, known)):
            wrong = allowed_of_order(line, held, known)
        if wrong:
            yield f"session {q}, call {at}, {line}: the reply is {reply!r}, and it has to be {wrong!r}"
        known.note(line, reply)
        if reply == "ok" and line[0] in ("open", "close"):
            held = known.shapes.get(line[1]) if line[0] == "open" else None
    if session.cut is not None and steps > session.cut:
        yield f"session {q} has made {steps} steps at least, and it cuts power after {session.cut}"


def said_of_cuts(script, replies):
    """Says whether a cut has a cause: a session with a `cut` line was cut itself, or a command on labels was, by `labelcut`."""
    cut = [(session, own) for session, own in zip(script.sessions, replies) if own[-1:] == ["cut"]]
    orders = any(session.lines[len(own) - 1][0] not in ("read", "write") for session, own in cut)
    if cut and not any(session.cut is not None for session, _ in cut) and not (script.labelcut is not None and orders):
        yield "a reply is cut, and nothing cut power"


# ---- one sector

def is_acyclic(edges):
    """Whether edges between values form no cycle."""
    below, waits = {}, {}
    for a, b in edges:
        below.setdefault(a, []).append(b)
        waits[b] = waits.get(b, 0) + 1
        waits.setdefault(a, 0)
    ready, seen = [it for it, count in waits.items() if not count], 0
    while ready:
        seen += 1
        for it in below.get(ready.pop(), ()):
            waits[it] -= 1
            if not waits[it]:
                ready.append(it)
    return seen == len(waits)


def said_of_sector_end(sessions, first, last):
    """Says whether a sector's calls have no common order that begins with one value and ends with another."""
    done = {value for own in sessions.values() for kind, value in own if kind == "write"}
    cut = {value for own in sessions.values() for kind, value in own if kind == "cut"}
    seen = {value for own in sessions.values() for kind, value in own if kind == "read"} | {last}
    if not seen <= done | cut | {first}:
        return f"shows {sorted(seen - done - cut - {first})}, which nobody wrote"
    stood = done | cut & seen
    edges = {(first, it) for it in stood} | {(it, last) for it in stood | {first} if it != last}
    for own in sessions.values():
        values = [value for kind, value in own if kind != "cut" or value in stood]
        edges |= {(a, b) for a, b in zip(values, values[1:]) if a != b}
    return None if is_acyclic(edges) else f"has no order of its calls from {first} to {last}: {sessions}"


def said_of_sectors(events, before, after):
    """Says what is wrong with the sectors that were called; `before` and `after` return a sector's value, or None if it isn't known."""
    for (uuid, sector), sessions in events.sectors.items():
        last = after(uuid, sector)
        wrong = last and said_of_sector_end(sessions, before(uuid, sector), last)
        if wrong:
            yield f"sector {sector} of {uuid} {wrong}"


# ---- namespaces

def orders_in(script, replies):
    """Yields each order with its reply."""
    for session, own in zip(script.sessions, replies):
        for line, reply in zip(session.lines, own):
            if line[0] not in ("read", "write"):
                yield line, reply


def said_of_overlaps(listed):
    """Says which extents overlap on a module."""
    extents = sorted((it["module"], it["start"], it["length"], uuid) for uuid, found in listed.items() for it in found["extents"])
    for (m, start, length, uuid), (n, other, _, second) in zip(extents, extents[1:]):
        if m == n and other < start + length:
            yield f"extents of {uuid} and {second} overlap on module {m} at {other}"


def said_of_list(script, replies, known, before, after):
    """Says what is wrong with the namespaces that are listed after recovery; `before` are those that were listed at first."""
    orders = list(orders_in(script, replies))
    done = {(line[0], line[1]) for line, reply in orders if reply == "ok" and len(line) > 1}
    cut = {line[1] for line, reply in orders if reply == "cut" and len(line) > 1}
    for uuid, found in after.items():
        names = {line[-1] for line, reply in orders if line[0] in ("create", "rename") and line[1] == uuid and reply in ("ok", "cut")}
        names |= {before[uuid]["name"]} if uuid in before else set()
        if not names or found["name"] not in names:
            yield f"{uuid} has the name {found['name']!r}, and nobody gave it that"
        if found["status"] != "complete" and uuid not in cut:
            yield f"{uuid} is {found['status']} after recovery"
        if uuid in before and ("delete", uuid) not in done and found["extents"] != before[uuid]["extents"] and uuid not in cut:
            yield f"{uuid} lies elsewhere"
    for uuid in {*before, *(it[1] for it in done if it[0] == "create")} - set(after):
        if ("delete", uuid) not in done and uuid not in cut:
            yield f"{uuid} is lost"
    for kind, uuid in done:
        if kind == "delete" and uuid in after and uuid not in known.created and uuid not in cut:
            yield f"{uuid} was deleted and is there"
