"""Scripts of sessions for tests/stress/run, drawn from a number: those that `load` makes, and those with every kind of line."""
MASK = (1 << 64) - 1


def after(x):
    """Returns the number behind x: the generator of `load`."""
    return (x * 6364136223846793005 + 1442695040888963407) & MASK


def value_text(word, size):
    """Returns a value as it is printed, for a sector of so many bytes."""
    kind, digits = word.lower().split(":")
    data = bytes.fromhex(digits) * (size if kind == "fill" else 1)
    return f"fill:{data[0]:02x}" if data and data == data[:1] * len(data) else f"hex:{data.hex()}"


class Session:
    """A session: its lines as tuples of words, and after how many steps it cuts power, if it does."""

    def __init__(self, lines, cut=None):
        self.lines, self.cut = lines, cut


class Script:
    """Sessions, and after how many steps on labels power is cut, if it is."""

    def __init__(self, sessions, labelcut=None):
        self.sessions, self.labelcut = sessions, labelcut

    def text(self):
        out = [] if self.labelcut is None else [f"labelcut {self.labelcut}"]
        for q, session in enumerate(self.sessions):
            out.append(f"session {q}")
            out += [] if session.cut is None else [f"cut {session.cut}"]
            out += (" ".join(map(str, line)) for line in session.lines)
        return "".join(f"{it}\n" for it in out)


def load_script(number, uuid, sectors, sessions, calls):
    """Returns the script that `load` makes of a number: each session has sectors of its own."""
    out, x = [], number
    for q in range(sessions):
        lines = [("open", uuid)]
        for _ in range(calls):
            x = after(x)
            sector = (x >> 33) % (sectors // sessions) * sessions + q
            lines.append(("write", sector, f"fill:{x >> 56:02x}") if not x >> 32 & 1 else ("read", sector))
        out.append(Session([*lines, ("close",)]))
    return Script(out)


class Values:
    """Draws values of sectors, each but once for a sector's number, so that a read tells which write it saw. Which namespace a session
    has open isn't known before the run, for an `open` may be refused: so no namespace has a value twice at the same number."""

    def __init__(self, draw, before, shapes):
        self.draw, self.used, self.before, self.shapes = draw, {}, before, shapes

    def next(self, shape, sector, wide):
        """Returns a value that no sector of this number has had, or None if there is none."""
        if sector not in self.used:
            self.used[sector] = {self.before(it, sector) for it in self.shapes}
        used = self.used[sector]
        for _ in range(8):
            number = self.draw.randrange(1 << 16)
            word = f"hex:{number.to_bytes(2, 'big').hex() * (shape.bytes // 2)}" if wide else f"fill:{number & 255:02x}"
            if value_text(word, shape.bytes) not in used:
                used.add(value_text(word, shape.bytes))
                return word
        return None


def race_script(draw, shape, before, sessions, calls, sectors):
    """Returns a script whose sessions write and read the same few sectors."""
    values, out = Values(draw, before, [shape]), []
    for _ in range(sessions):
        lines = [("open", shape.uuid)]
        for _ in range(calls):
            sector = draw.randrange(sectors)
            word = values.next(shape, sector, False) if draw.random() < 0.5 else None
            lines.append(("write", sector, word) if word else ("read", sector))
        out.append(Session([*lines, ("close",)]))
    return Script(out)


def with_cuts(draw, script, steps):
    """Cuts power in one session or in a few, after at most so many steps."""
    for session in draw.sample(script.sessions, min(draw.choice((1, 1, 2, 5)), len(script.sessions))):
        session.cut = draw.randrange(draw.choice((2, steps // 50 + 2, steps)))
    return script


class Generator:
    """Draws scripts with every kind of line, over namespaces that are there and some that aren't."""

    NAMES = ("", "a", "two words", 'with "quotes" and \\', "Größe", "n" * 63, "n" * 64)

    def __init__(self, draw, shapes, before, others, raw, region):
        self.draw, self.shapes, self.others, self.raw, self.region = draw, shapes, others, raw, region
        self.values = Values(draw, before, shapes)

    def sector(self, q, sessions, shape):
        """Returns the number of a sector: mostly one that the session alone writes, or one that all write, or one that isn't there."""
        chance = self.draw.random()
        if chance < 0.5:
            return 16 + self.draw.randrange(4) * sessions + q
        return self.draw.randrange(6) if chance < 0.97 else shape.sectors + self.draw.choice((0, 1, 1 << 40))

    def write(self, q, sessions, shape):
        sector = self.sector(q, sessions, shape)
        if self.draw.random() < 0.03:
            return "write", sector, self.draw.choice(("hex:", "hex:5a", "hex:" + "5a" * (shape.bytes + 1)))
        word = self.values.next(shape, sector, self.draw.random() < 0.2)
        return ("write", sector, word) if word else ("read", sector)

    def uuid(self):
        return self.draw.choice((*(it.uuid for it in self.shapes), self.raw, *self.others, *self.others))

    def order(self):
        kind = self.draw.randrange(3)
        if kind == 0:
            size = self.draw.choice((self.region.unit, 4 * self.region.unit, 64 * self.region.unit, 0, self.region.unit // 2, 1 << 40))
            return "create", self.draw.choice(self.others), self.draw.choice((0,) * 9 + (7,)), size, self.draw.choice(self.NAMES)
        return ("delete", self.uuid()) if kind == 1 and self.draw.random() < 0.6 else ("rename", self.uuid(), self.draw.choice(self.NAMES))

    def lines(self, q, sessions):
        """Returns a session's lines; most calls on sectors come while a namespace is open."""
        draw, out, shape = self.draw, [], None
        for _ in range(draw.choice((0, 1, 4, 12, 40))):
            chance = draw.random()
            if shape is None and chance < 0.6 or chance < 0.03:
                uuid = draw.choice(self.shapes).uuid if draw.random() < 0.9 else self.uuid()
                out.append(("open", uuid))
                shape = shape or next((it for it in self.shapes if it.uuid == uuid), None)
            elif chance < 0.1:
                out.append(("close",))
                shape = None
            elif chance < 0.22:
                out.append(self.order())
            elif chance < 0.6:
                out.append(("read", self.sector(q, sessions, shape or self.shapes[0])))
            else:
                out.append(self.write(q, sessions, shape or self.shapes[0]))
        return out

    def script(self):
        sessions = self.draw.choice((0, 1, 2, 3, 5, 8, 16))
        script = Script([Session(self.lines(q, sessions)) for q in range(sessions)])
        if script.sessions and self.draw.random() < 0.35:
            with_cuts(self.draw, script, 8000)
        if self.draw.random() < 0.3:
            script.labelcut = self.draw.randrange(self.draw.choice((2, 300, 3000)))
        return script


# lines outside the grammar, wherever they stand behind the first line of a session, and what is said of them
WRONG = (("nope", "Word"), ("", "Word"), ("read", "Word"), ("read 1 2", "Word"), ("close ", "Word"), ("read 01", "Number"), ("read -1", "Number"), ("read 18446744073709551616", "Number"),
         ("write 1 fill:1", "Value"), ("write 1 hex:123", "Value"), ("open 11111111", "Uuid"), ("labelcut 1", "Order"), ("session 4294967295", "Order"),
         ("rename 11111111-1111-4111-8111-111111111111", "Name"), ("read\t1", "Encoding"))


def with_wrong_line(draw, script):
    """Returns the text of a script with one wrong line, and what is said of it."""
    lines = script.text().splitlines()
    first = next((at for at, line in enumerate(lines) if line.startswith("session")), None)
    if first is None:
        return "\n".join([*lines, "read 1"]), f"script Line {len(lines) + 1} Order"
    at = draw.randrange(first + 1, len(lines) + 1)
    line, kind = draw.choice(WRONG)
    return "\n".join([*lines[:at], line, *lines[at:]]) + "\n", f"script Line {at + 1} {kind}"
