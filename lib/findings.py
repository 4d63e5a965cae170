"""The text of `check` and of `rescue --lost`: it goes on to standard output while it comes, and nvd keeps what it explains afterwards."""
from faults import kind_of


class Findings:
    """The first line of each kind of finding."""

    def __init__(self):
        self.first, self.rest = {}, b""

    def hear(self, piece):
        """Takes the next piece of the text."""
        *lines, self.rest = (self.rest + piece).split(b"\n")
        for line in lines:
            if line.startswith((b"arena ", b"fault ", b"labels ", b"notice ", b"repaired ")):
                text = line.decode()
                self.first.setdefault(kind_of(text), text)

    def lines(self):
        return list(self.first.values())
