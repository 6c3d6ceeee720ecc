#!/usr/bin/env python3
"""Recomputes the figures of tables from their rules.

Usage: rules.py FILE ..    files with what `./factex tables` prints, other lines among it, as those in tables/

The runs of a design are listed by its rules. How many factors are not at level 0, counted over the runs, determines the
word-length pattern (MacWilliams and Sloane, The Theory of Error-Correcting Codes), and counted over the runs of one block or
whole plot also the words that are confounded. In the order CLEAR the clear words of two factors are counted by comparing
columns. Prints each line whose figures or resolution are others, and ends with status 1 if there is one.
"""
import itertools
import math
import re
import sys

# The prime of a field that has none of its own order, and the power of x that is reduced, lowest term first.
REDUCED = {4: (2, (1, 1)), 8: (2, (1, 1, 0)), 9: (3, (1, 2))}


def digits(n, p, count):
    return [n // p**i % p for i in range(count)]


def add(q, a, b):
    p, power = REDUCED.get(q, (q, (0,)))
    return sum((x + y) % p * p**i for i, (x, y) in enumerate(zip(digits(a, p, len(power)), digits(b, p, len(power)))))


def times(q, a, b):
    if q not in REDUCED:
        return a * b % q
    p, power = REDUCED[q]
    found = [0] * (2 * len(power))
    for i, x in enumerate(digits(a, p, len(power))):
        for j, y in enumerate(digits(b, p, len(power))):
            found[i + j] += x * y
    for i in reversed(range(len(power), len(found))):
        for j, x in enumerate(power):
            found[i - len(power) + j] += found[i] * x
    return sum(x % p * p**i for i, x in enumerate(found[: len(power)]))


def code(q, run, row):
    """The sum of the codes of a run, each times that of a row."""
    found = 0
    for x, y in zip(run, row):
        found = add(q, found, times(q, x, y))
    return found


def pattern_of(q, runs, rows):
    """The word-length pattern of rows over these runs, which are closed under addition: how many words of each number of
    them are constant. A word and its multiples count once."""
    s, weights = len(rows), {}
    for run in runs:
        weight = sum(code(q, run, row) != 0 for row in rows)
        weights[weight] = weights.get(weight, 0) + 1
    term = lambda k, j: sum(
        (-1) ** i * (q - 1) ** (k - i) * math.comb(j, i) * math.comb(s - j, k - i) for i in range(k + 1)
    )
    return [sum(n * term(k, j) for j, n in weights.items()) // len(runs) // (q - 1) for k in range(1, s + 1)]


def rows_of(q, m, names, given):
    """The row of each name: those without a product introduce the run indexes in turn."""
    free = [name for name in names if name not in given]
    units = {name: [int(i == j) for i in range(m)] for j, name in enumerate(free)}
    rows = []
    for name in names:
        if name in given:
            row = [0] * m
            for other, power in re.findall(r"(X\d+|\[\d+\])(?:\^(\d+))?", given[name]):
                row = [add(q, x, times(q, int(power or 1), y)) for x, y in zip(row, units[other])]
            rows.append(row)
        else:
            rows.append(units[name])
    return rows


def clear_of(q, runs, group, rows):
    """How many words of two factors are clear: they are not constant over a group, and no other word of one factor or two
    has a multiple of their column."""
    times_all = {(c, x): times(q, c, x) for c in range(q) for x in range(q)}
    word = lambda u, v, c: [add(q, x, times_all[c, y]) for x, y in zip(u, v)]
    pairs = [word(u, v, c) for u, v in itertools.combinations(rows, 2) for c in range(1, q)]
    normal = lambda u: max(tuple(times_all[c, x] for x in u) for c in range(1, q))
    counts = {}
    for u in rows + pairs:
        counts[normal(u)] = counts.get(normal(u), 0) + 1
    return sum(counts[normal(u)] == 1 and any(code(q, run, u) for run in group) for u in pairs)


def figures_of(q, m, h, inside, outside, given, is_clear):
    """The figures of a design: its words of each kind and number of factors, and how many of two factors are clear."""
    names = [f"X{i + 1}" for i in range(inside + outside)] + [f"[{k + 1}]" for k in range(0 if inside else h)]
    rows = rows_of(q, m, names, given)
    factors, base = rows[: inside + outside], rows[:inside] if inside else rows[outside:]
    runs = list(itertools.product(range(q), repeat=m))
    group = [run for run in runs if not any(code(q, run, row) for row in base)]
    if len(group) * q**h != len(runs):
        return {"groups": len(runs) // len(group)}
    words, both, own = pattern_of(q, runs, factors), pattern_of(q, group, factors), pattern_of(q, runs, factors[:inside])
    found = {f"A{k + 1}": n for k, n in enumerate(words)}
    for k, n in enumerate(both, 1):
        of_inside = math.comb(inside, k) * (q - 1) ** (k - 1) - own[k - 1] if k <= inside else 0
        found[f"B{k}"] = n - words[k - 1] - of_inside
    found = {name: n for name, n in found.items() if n}
    return found | {"clear": clear_of(q, runs, group, factors)} if is_clear else found


def patterns_in(lines):
    """Each line of a table that has a design, with its figures there and by its rules."""
    line = None
    for text in lines:
        if head := re.match(r"table levels (\d+) runs (\d+)(?: (?:blocks|whole plots) (\d+))?", text):
            q, groups = int(head[1]), int(head[3] or 1)
            m, h = round(math.log(int(head[2]), q)), round(math.log(groups, q))
            is_clear = text.rstrip().endswith(" order CLEAR")
        elif text.startswith("factors "):
            line = text.rstrip()
        elif text.startswith("rules"):
            *inside, outside = [int(n) for n in re.match(r"factors ([\d ]+) entries ", line)[1].split()]
            given = dict(rule.split("=") for rule in text.split()[1:] if rule != "none")
            listed = {name: int(n) for name, n in re.findall(r" ([AB]\d+|clear) (\d+)", line)}
            yield line, listed, figures_of(q, m, h, sum(inside), outside, given, is_clear)


def has_resolution(line, listed):
    """Whether a line has the resolution of its pattern."""
    weights = [int(name[1:]) for name in listed if name[0] == "A"]
    return (f" resolution {min(weights)} " if weights else " no defining words") in line


def main(names):
    wrong = count = 0
    for name in names:
        for line, listed, found in patterns_in(open(name, encoding="utf-8")):
            count += 1
            if found != listed or not has_resolution(line, listed):
                print(f"{name}: the rules have other figures: {line}")
                wrong = 1
    if not count:
        print("there is no table")
    return wrong or not count


if __name__ == "__main__":
    sys.exit(main(sys.argv[1:]))
