"""What a text on a fault means and what to do, from the tables of docs/commands/FAULTS.md."""
import re

# A table with one of these heads has the ends of the texts that begin so; the others have whole texts.
FAMILIES = {"FAULT of a region": r"image region (?P<REGION>\S+) ", "FAULT of an index block": r"(?:fault|repaired) labels (?P<M>\S+) index (?P<S>\S+) ",
            "FINDING": r"arena (?P<ARENA>\S+) ", "repaired FINDING": r"arena (?P<ARENA>\S+) repaired ", "line of a rescue": r"rescue arena (?P<ARENA>\S+) ", "first line of a rescue": "rescue ",
            "FAULT": r"(?:image arena (?P<ARENA>\S+) (?P<K>\S+)|(?:rescue )?arena \S+(?= Info | Flog )) "}
# what stands before a line of `rescue`, since it means something else there than as a line of `check`
RESCUE = "rescue "

# What `check` says of a whole set, and the text of another command or line that says the same.
SAME = [(r"fault labels \S+ slot (.*)", r"bad \1"), (r"fault namespace \S+ (.*)", r"incomplete \1"), (r"fault arena \S+ (.*)", r"arena \1"), (r"fault (.*)", r"image \1")]


def kind_of(text):
    """A text without its numbers and UUIDs: two of one kind have the same rows."""
    return re.sub(r"\b[0-9a-f]{8}(?:-[0-9a-f]{4}){3}-[0-9a-f]{12}\b|\d+", "", text)


def rows_of(page):
    """The rows of all tables that have a column of meanings: the texts, the meaning, what to do, and the head of the table."""
    head = []
    for line in page.splitlines():
        if not line.startswith("|"):
            head = []
            continue
        cells = [cell.strip().replace("`", "") if at else cell.strip() for at, cell in enumerate(re.split(r"(?<!\\)\|", line.strip().strip("|")))]
        if not head:
            head = cells
        elif not set("".join(cells)) <= set("-"):
            row = dict(zip(head, cells))
            meaning = row.get("means") or row.get("the first rule that the labels break")
            if meaning:
                yield re.findall(r"`([^`]+)`", cells[0]), meaning, row.get("what to do", ""), head[0]


def pattern_of(text):
    """The form of a row's text. Words in capitals are any word; FAULT and REASON at the end are any words."""
    words = []
    for word in text.split():
        plain = word if not re.fullmatch(r"[A-Z]+", word) else None
        words.append(re.escape(plain) if plain else rf"(?P<{word}_{len(words)}>\S+)")
    if text.endswith((" FAULT", " REASON")):
        words[-1] = f"(?P<{text.split()[-1]}>.+)"
    return " ".join(words)


def filled(sentence, found):
    """A sentence of a row with the text's own words in place of those in capitals."""
    for name, word in found.groupdict("").items():
        sentence = re.sub(rf"\b{name.rsplit('_', 1)[0]}\b", lambda _, word=word: word, sentence)
    return sentence


class Rows:
    """The rows of a page, read once."""

    def __init__(self, page):
        self.all = [(FAMILIES.get(head, "") + pattern_of(form), meaning, remedy) for texts, meaning, remedy, head in rows_of(page) for form in texts]
        self.kinds = {}

    def of(self, text):
        """The rows of a text, each with what it found in it."""
        kind = kind_of(text)
        found = [(re.fullmatch(row[0], text), *row) for row in self.kinds.get(kind, self.all)]
        found = [it for it in found if it[0]]
        self.kinds[kind] = [row for _, *row in found]
        return found

    def explained(self, text):
        """What the rows say of a text: of the whole of it, or of its end if that is a fault of a region or an arena, or a finding of `check`."""
        texts = [text, *(re.sub(form, same, text) for form, same in SAME if re.fullmatch(form, text))]
        found = next((rows for it in texts if (rows := self.of(it))), [])
        return [(filled(meaning, it), filled(remedy, it)) for it, _, meaning, remedy in found]


def explained(text, page):
    """What the rows of a page say of a text."""
    return Rows(page).explained(text)
