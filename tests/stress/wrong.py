"""Accounts of sessions that can't be, which the checks of account.py must refuse: so they are checks that can fail."""
from account import Events, Known, Region, Shape, said_of_cuts, said_of_list, said_of_overlaps, said_of_sectors, said_of_session
from scripts import Script, Session

HELD = Shape("u", 8, 512, 4)
OPEN, WRITE, READ = ("open", "u"), ("write", 1, "fill:11"), ("read", 1)


def said(*sessions, first="fill:00", last="fill:11", labelcut=None, in_order=False):
    """Returns what the checks say of sessions, each its lines, its replies and its `cut` line, on a sector with these values."""
    script, replies = Script([Session(lines, *cut) for lines, _, *cut in sessions], labelcut), [own for _, own, *_ in sessions]
    events, known, out = Events(), Known(script, [HELD], Region(1, 4096), {"u"}, in_order), []
    for q, session in enumerate(script.sessions):
        out += said_of_session(q, session, replies[q], known, events)
    return out + list(said_of_cuts(script, replies)) + list(said_of_sectors(events, lambda *_: first, lambda *_: last))


def listed(lines, replies, after):
    """Returns what the checks say of a list after one session."""
    script = Script([Session(lines)])
    space = {"uuid": "u", "name": "a", "status": "complete", "extents": [{"module": 0, "start": 0, "length": 4096}]}
    after = {uuid: {**space, **fields} for uuid, fields in after.items()}
    return list(said_of_list(script, [replies], Known(script, [HELD], None, {"u"}), {"u": space}, after)) + list(said_of_overlaps(after))


def right():
    """Yields accounts that may be."""
    yield "one session", said(([OPEN, WRITE, READ, ("close",)], ["ok", "ok", "ok fill:11", "ok"]))
    yield "a race", said(([OPEN, WRITE, READ], ["ok", "ok", "ok fill:22"]), ([OPEN, ("write", 1, "fill:22"), READ], ["ok", "ok", "ok fill:22"]), last="fill:22")
    for last in ("fill:00", "fill:11"):
        yield f"a write that was cut, {last}", said(([OPEN, WRITE, READ], ["ok", "cut"], 7), last=last)
    yield "a list", listed([("rename", "u", "b")], ["ok"], {"u": {"name": "b"}})


def wrong():
    """Yields accounts that can't be."""
    both = ([OPEN, WRITE, READ, READ], ["ok", "ok", "ok fill:22", "ok fill:11"])
    for what, found in (
            ("a value that nobody wrote", said(([OPEN, READ], ["ok", "ok fill:33"]), last="fill:00")),
            ("a value that was there before an own write", said(([OPEN, WRITE, READ], ["ok", "ok", "ok fill:00"]))),
            ("an answered write that doesn't stand", said(([OPEN, WRITE], ["ok", "ok"]), last="fill:00")),
            ("two orders of writes", said(both, ([OPEN, ("write", 1, "fill:22"), READ, READ], ["ok", "ok", "ok fill:11", "ok fill:22"]))),
            ("a sector that ends with what was overwritten", said(([OPEN, WRITE, ("write", 1, "fill:22")], ["ok", "ok", "ok"]))),
            ("a reply that is missing", said(([OPEN, WRITE], ["ok"]))),
            ("a reply behind a cut", said(([OPEN, WRITE, READ], ["ok", "cut", "cut"], 7))),
            ("a cut without a cause", said(([OPEN, WRITE], ["ok", "cut"]))),
            ("a `labelcut` that cuts no command", said(([OPEN, WRITE], ["ok", "cut"]), labelcut=5)),
            ("a `cut` line that is passed over", said(([OPEN, WRITE], ["ok", "ok"], 7))),
            ("a write that is refused", said(([OPEN, WRITE], ["ok", "refused Range 8"]))),
            ("a read past the end", said(([OPEN, ("read", 8)], ["ok", "ok fill:00"]))),
            ("a read of nothing that is open", said(([READ], ["ok fill:11"]))),
            ("a second open", said(([OPEN, OPEN], ["ok", "ok"]))),
            ("a delete of what is open", said(([OPEN, ("delete", "u")], ["ok", "ok"]))),
            ("a close that isn't answered so", said(([("close",)], ["ok"]))),
            ("a namespace that is there and isn't found", said(([OPEN], ["refused NoSuch"]))),
            ("one that was deleted and is found", said(([("delete", "u"), OPEN], ["ok", "ok"]), in_order=True)),
            ("a size that isn't refused", said(([("create", "v", 0, 5, "b")], ["ok"]))),
            ("a name that nobody gave", listed([("rename", "u", "b")], ["ok"], {"u": {"name": "c"}})),
            ("a namespace that is lost", listed([], [], {})),
            ("one that was deleted and is there", listed([("delete", "u")], ["ok"], {"u": {}})),
            ("one that is incomplete", listed([], [], {"u": {"status": "incomplete Missing 0"}})),
            ("extents that overlap", listed([("create", "v", 0, 4096, "a")], ["ok"], {"u": {}, "v": {}}))):
        yield what, found


def faults():
    """Yields an account and what is wrong with the checks on it."""
    for what, found in right():
        yield what, [f"the checks say {it}" for it in found]
    for what, found in wrong():
        yield what, [] if found else ["the checks say nothing"]
