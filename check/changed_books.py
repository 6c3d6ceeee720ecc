#!/usr/bin/env python3
"""Changed books for the comparison of two checkers.

Usage: changed_books.py FOLDER BOOK..

Writes into the folder each book, its text in version 1 where its shape has one, and each of these with each of its
lines changed in each of the ways below.
"""
import re
import sys
from pathlib import Path

NUMBER = re.compile(r"\d+")


def table_in_first_version(lines):
    """The same book of a table in version 1, which is for tables without a base."""
    if lines[0] != "factex-table 2" or lines[2] != "order FF":
        return None
    q, m, h, _, n = lines[1].split()[1:]
    if h != "0":
        return None
    key = lines[3].removeprefix("key ")
    pattern = key if key == "none" else f"0 0 {key}"
    head = ["factex-table 1", f"size {q} {m} {n} 0", "resolution 3", f"pattern {pattern}"]
    return "\n".join(head + lines[4:]) + "\n"


def in_first_version(text):
    """The same book in version 1: words by their numbers."""
    lines = text.splitlines()
    if lines[0].startswith("factex-table"):
        return table_in_first_version(lines)
    q, _, s, _ = map(int, lines[1].split()[1:])
    if s > 40:
        return None
    for i, line in enumerate(lines):
        letter, *parts = line.split()
        if letter == "W" and ":" in line:
            word = sum(int(code) * q ** (int(place) - 1) for place, code in (p.split(":") for p in parts[1:]))
            lines[i] = f"W {parts[0]} {word}"
        elif letter == "W":
            lines[i] = line.replace("#", "")
    lines[0] = "factex-book 1"
    return "\n".join(lines) + "\n"


def put(line, which, change):
    """The line with one of its numbers changed: 0 for the first of them, -1 for the last."""
    found = list(NUMBER.finditer(line))
    if not -len(found) <= which < len(found):
        return line + "?"
    at = found[which]
    return line[: at.start()] + change(at.group()) + line[at.end() :]


def more(n):
    return lambda digits: str(int(digits) + n)


WAYS = [
    lambda line: "",
    lambda line: line + "\n" + line,
    lambda line: line + " ",
    lambda line: " " + line,
    lambda line: line.replace(" ", "  ", 1),
    lambda line: line.replace(" ", "\t", 1),
    lambda line: line.lower(),
    lambda line: {"O": "W", "W": "P", "P": "O"}.get(line[:1], "X") + line[1:],
    lambda line: {"O": "P", "W": "O", "P": "W"}.get(line[:1], "") + line[1:],
    lambda line: "R " + line[2:],
    lambda line: "F " + line[2:],
    lambda line: put(line, 1, more(1)),
    lambda line: put(line, -1, more(1)),
    lambda line: put(line, -1, more(-1)),
    lambda line: put(line, 0, more(1)),
    lambda line: put(line, 0, more(-1)),
    lambda line: put(line, -1, lambda digits: "0" + digits),
    lambda line: put(line, -1, lambda digits: "+" + digits),
    lambda line: put(line, -1, lambda digits: "#" + digits),
    lambda line: put(line, -1, lambda digits: str(2**127)),
    lambda line: put(line, -1, lambda digits: "9" * 200),
    lambda line: line + " 1",
    lambda line: line + " 2:1",
    lambda line: line.rpartition(" ")[0],
    lambda line: line.replace(":", " ", 1),
    lambda line: line + "\r",
]


def changed(text):
    """The text with each of its lines changed, left out, exchanged with the next, or joined to it."""
    lines = text.split("\n")
    for i, line in enumerate(lines):
        for way in WAYS:
            yield "\n".join(lines[:i] + [way(line)] + lines[i + 1 :])
        yield "\n".join(lines[:i] + lines[i + 1 :])
        yield "\n".join(lines[:i] + lines[i : i + 2][::-1] + lines[i + 2 :])
        yield "\n".join(lines[:i]) + "".join(lines[i : i + 2]) + "\n".join([""] + lines[i + 2 :])
        yield "\n".join(lines[:i])


def main():
    folder = Path(sys.argv[1])
    count = 0
    for name in sys.argv[2:]:
        second = Path(name).read_text()
        for text in filter(None, (second, in_first_version(second))):
            for book in dict.fromkeys([text, *changed(text)]):
                (folder / f"{count:06}.book").write_text(book, newline="")
                count += 1


if __name__ == "__main__":
    main()
