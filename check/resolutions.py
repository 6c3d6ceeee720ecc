#!/usr/bin/env python3
"""Makes the tables of highest resolutions in docs/GUIDE.md again, and compares.

Usage: resolutions.py PROGRAM    as resolutions.py bin/factex

Prints each entry that differs, and ends with status 1 if there is one.
"""
import itertools
import pathlib
import re
import subprocess
import sys
import tempfile

PAGE = pathlib.Path(__file__).resolve().parent.parent / "docs/GUIDE.md"
TEXT = "proc factex nodes=5000000; factors X1-X{} / nlev={}; size design={}; model resolution=maximum; run;"
ENTRIES = {0: r"^resolution (\d+) highest$|^no defining words$", 1: r"^no design in"}


def entry(program, levels, factors, runs, folder):
    """The table's entry for designs of this size."""
    text = TEXT.format(factors, levels, runs)
    ran = subprocess.run([program, "run"], input=text, capture_output=True, text=True, cwd=folder)
    found = re.search(ENTRIES.get(ran.returncode, "$^"), ran.stdout, re.M)
    if not found:
        return f"status {ran.returncode}"
    return "none" if ran.returncode else found[1] or "full"


def cells(line):
    return [cell.strip() for cell in line.strip("|").split("|")]


def main(program):
    program, wrong = str(pathlib.Path(program).resolve()), 0
    tables = re.findall(r"^\| factors \|.*runs \|\n\|[-|]*\n((?:\|.*\n)+)", PAGE.read_text(encoding="utf-8"), re.M)
    with tempfile.TemporaryDirectory() as folder:
        for levels, least, table in zip((2, 3), (3, 2), tables, strict=True):
            for line in table.splitlines():
                rows, *entries = cells(line)
                numbers = [int(it) for it in rows.split(" to ")]
                for factors, (m, expected) in itertools.product(range(numbers[0], numbers[-1] + 1), enumerate(entries, least)):
                    runs = levels**m
                    if expected != (made := entry(program, levels, factors, runs, folder)):
                        print(f"{factors} factors with {levels} levels in {runs} runs: {made}, not {expected}")
                        wrong = 1
    return wrong


sys.exit(main(sys.argv[1]))
