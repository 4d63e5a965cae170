"""Scripts for the rows of `serve`, with what each prints."""

OK, ZEROS = "ok\n", "ok fill:00\n"


def session(number, *lines):
    """A session of a script, or its part of the text: the line of its number, and these."""
    return "".join(f"{it}\n" for it in (f"session {number}", *lines))


def own_sectors(uuid):
    """Two sessions, each of which writes a hundred sectors of its own and reads each back."""
    script, text = "", ""
    for q in range(2):
        calls = [line for k in range(100) for line in (f"write {100 * q + k} fill:{k:02x}", f"read {100 * q + k}")]
        said = [line for k in range(100) for line in ("ok", f"ok fill:{k:02x}")]
        script += session(q, f"open {uuid}", *calls, "close")
        text += session(q, "ok", *said, "ok")
    return script, text


def refusals(uuid, count):
    """One session whose calls are refused, on a namespace with so many sectors of 512 bytes."""
    lines = (("read 0", "refused NotOpen"), (f"open {uuid}", "ok"), (f"read {count}", f"refused Range {count}"), ("write 0 hex:00", "refused Length 1 512"),
             (f"open {uuid}", "refused IsOpen"), (f"write {count} hex:", f"refused Range {count}"), ("read 5", "ok fill:00"), ("close", "ok"),
             ("close", "refused NotOpen"), ("write 0 fill:00", "refused NotOpen"))
    return session(0, *(it[0] for it in lines)), session(0, *(it[1] for it in lines))


def deletes(uuid):
    """A namespace that is open is deleted, and again when it isn't."""
    lines = ((f"open {uuid}", "ok"), (f"delete {uuid}", "refused Busy 1"), ("close", "ok"), (f"delete {uuid}", "ok"), (f"open {uuid}", "refused NoSuch"))
    return session(0, *(it[0] for it in lines)), session(0, *(it[1] for it in lines))


def cut_first(uuid):
    """By one worker: power fails in the second session before its first step, so nothing of the third is done."""
    script = session(0, f"open {uuid}", "write 0 fill:01") + session(1, "cut 0", f"open {uuid}", "write 1 fill:02") + session(2, f"open {uuid}")
    return script, session(0, "ok", "ok") + session(1, "ok", "cut") + session(2, "cut")


def cut_after(uuid, steps):
    """A write that loses power after so many steps."""
    return session(0, f"cut {steps}", f"open {uuid}", "write 0 fill:5a")


def renamed(uuid):
    """Power for labels fails before the first step of a rename."""
    return "labelcut 0\n" + session(0, f"rename {uuid} b", "read 0"), session(0, "cut")


# texts outside the grammar
WRONG = (("session 0\nclose\nread x\n", "Line 3 Number"), ("open\n", "Line 1 Order"), ("session 0\nopen\n", "Line 2 Word"), ("session 0\nnope\n", "Line 2 Word"), ("session 0\nread 01\n", "Line 2 Number"))
