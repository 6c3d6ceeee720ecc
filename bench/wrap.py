#!/usr/bin/env python3
"""Breaks lines of more than 120 columns in .antt files, at the loosest operator outside brackets.

Usage: bench/wrap.py FILE..   rewrites the files; their words stay the same.
"""
import re
import sys

WIDTH = 120
WORD = re.compile(r'(?:"(?:[^"\\]|\\.)*"|\S)+')
OPERATORS = "→ then else ↔ ⊎ × ∣ || && ≡ ≤ < == ∷ ++ >>= ▸ + - *".split()


def words(line, depth):
    """The words of a line with their places, and how deep in brackets each begins."""
    for word in WORD.finditer(line):
        yield word.start(), word.group(), depth
        bare = re.sub(r'"(?:[^"\\]|\\.)*"', "", word.group())
        depth += sum(c in "([{" for c in bare) - sum(c in ")]}" for c in bare)


def rank(before, word, depth):
    """How badly a line is broken between two words: least at a part of a form, then before the loosest operator."""
    if before in ("in", "↦") or before.endswith(";") or word == "|" or (before == "=" and depth == 0):
        return 0
    if word in OPERATORS:
        return 1 + OPERATORS.index(word)
    if before == "Type" or word in (":", "=", "where"):
        return 90
    if before in OPERATORS or before in (":", "=", "if", "let") or before.startswith("λ"):
        return 60
    return 50


def break_of(line, depth):
    """The place of the word before which a line is broken, and its depth."""
    least = len(line) - len(line.lstrip()) + 10
    best = None
    before = ""
    for place, word, inside in words(line, depth):
        if least < place <= WIDTH + 1:
            key = (inside, rank(before, word, inside), -place)
            if best is None or key < best[0]:
                best = (key, place, inside)
        before = word
    return best


def broken(line):
    """A line of definitions or proofs, on several lines."""
    indent = len(line) - len(line.lstrip())
    is_head = any(depth == 0 and word in ("=", ":") for _, word, depth in words(line, 0))
    base = indent + 4 if is_head else indent
    lines = []
    depth = 0
    while len(line) > WIDTH:
        best = break_of(line, depth)
        if best is None:
            break
        (_, badness, _), place, depth = best
        is_head = is_head and badness > 0
        further = 2 if 50 <= badness and not is_head else 0
        lines.append(line[:place].rstrip())
        line = " " * (base + 2 * depth + further) + line[place:]
    return lines + [line]


def filled(head, items, tail):
    """Items between head and tail, on as few lines as they fit in."""
    lines = []
    row = []
    for item in items:
        if row and len(head + tail) + len((tail and ", " or " ").join(row + [item])) > WIDTH:
            lines.append(row)
            row = []
        row.append(item)
    return [head + (tail and ", " or " ").join(row) + tail for row in lines + [row]]


def laid_out(lines):
    """The lines of a file, each within the width where it can be broken."""
    i = 0
    while i < len(lines):
        line = lines[i]
        imports = re.match(r"(\s*(?:pub )?use [^{]*\{)(.*)\}$", line)
        block = i
        while line.lstrip().startswith("--") and block < len(lines) and lines[block].startswith(line[: line.index("--") + 3]):
            block += 1
        if block > i and any(len(text) > WIDTH for text in lines[i:block]):
            yield from filled(line[: line.index("--") + 3], " ".join(text.strip()[3:] for text in lines[i:block]).split(), "")
            i = block
            continue
        if len(line) > WIDTH and imports:
            yield from filled(imports.group(1), imports.group(2).split(", "), "}")
        elif len(line) > WIDTH and not line.lstrip().startswith("--"):
            yield from broken(line)
        else:
            yield line
        i += 1


for path in sys.argv[1:]:
    with open(path) as file:
        old = file.read()
    new = "\n".join(laid_out(old.split("\n")))
    if new != old:
        with open(path, "w") as file:
            file.write(new)
