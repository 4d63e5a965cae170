#!/usr/bin/env python3
"""Keeps the table of docs/SPEED.md: puts rows that bench/run measured into it, or says how the two differ.

usage: bench/page.py [--write] [--page FILE] <ROWS      ROWS: lines `| figure | asked | measured | machine | date |`

With --write each row replaces the page's row of that figure, or comes last if the page has none; its machine is left out. Without it
the page stays, and a line says which figures it lacks and of which it states another limit; then the exit status is 1.
"""
import os
import sys

PAGE = os.path.join(os.path.dirname(os.path.dirname(os.path.abspath(__file__))), "docs", "SPEED.md")
FIRST, LAST = "<!-- figures -->\n", "<!-- end of figures -->\n"


def cells(line):
    return [cell.strip() for cell in line.strip().strip("|").split("|")]


def merged(old, new):
    """The page's rows with the new ones: by figure, in the page's order and then in theirs."""
    rows = {row[0]: row for row in old}
    rows.update({row[0]: row for row in new})
    return list(rows.values())


def main():
    words = sys.argv[1:]
    page = words[words.index("--page") + 1] if "--page" in words else PAGE
    with open(page, encoding="utf-8") as file:
        text = file.read()
    before, _, rest = text.partition(FIRST)
    table, mark, after = rest.partition(LAST)
    if not mark:
        print(f"bench/page.py: {page} has no table between its two marks", file=sys.stderr)
        return 2
    lines = table.splitlines()
    old = [cells(line) for line in lines[2:]]
    taken = [cells(line) for line in sys.stdin if line.startswith("| ") and not line.startswith("| figure |")]
    new = [[*row[:3], row[-1]] for row in taken]
    if "--write" in words:
        rows = [f"| {' | '.join(row)} |" for row in merged(old, new)]
        with open(page, "w", encoding="utf-8") as file:
            file.write(before + FIRST + "\n".join([*lines[:2], *rows]) + "\n" + LAST + after)
        print(f"{len(new)} rows written into {os.path.relpath(page)}")
        return 0
    asked = {row[0]: row[1] for row in old}
    wrong = [f"{row[0]}: the page has no such row" for row in new if row[0] not in asked]
    wrong += [f"{row[0]}: the page says '{asked[row[0]]}' and the script '{row[1]}'" for row in new if asked.get(row[0], row[1]) != row[1]]
    for line in wrong:
        print(f"docs/SPEED.md: {line}")
    return 1 if wrong else 0


if __name__ == "__main__":
    sys.exit(main())
