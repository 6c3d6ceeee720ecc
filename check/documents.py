#!/usr/bin/env python3
"""Runs the programs and the commands of the documents, and compares what follows them with what they print.

Usage: documents.py ./factex

A block of code that is a program text is run, under `plan` where it begins with rules, and so is a block that begins with a `judge`, `large`, `catalogue` or
`tables` command; what follows the command in its block has to be printed. So are the tables of bench/catalogue.txt and of tables/.
Catalogues of more than 27 runs take long, and are left to bench/catalogue.sh. A block of EXAMINE and OUTPUT statements is
added to the program before it. A block that begins like a listing, a plan or a table of runs has to be a part of what the
last program or command of its page printed or wrote. Prints each block that is not, and ends with status 1 if there is one.
"""
import pathlib
import re
import subprocess
import sys
import tempfile

TOP = pathlib.Path(__file__).resolve().parent.parent
TABLES = [TOP / "bench" / "catalogue.txt", *sorted((TOP / "tables").glob("*.txt"))]
PAGES = [
    TOP / "README.md",
    *(TOP / "docs" / f"{it}.md" for it in ("GUIDE", "LANGUAGE", "PLANS", "RULES", "JUDGE", "COMMANDS", "TABLES")),
    *TABLES,
    TOP / "tables" / "README.md",
]
LISTING = re.compile(
    r"(steps?|factors|resolution|budget|nodes|book|output|foldover|plan|catalogue|table|rules) \S"
    r"|(no )?design |rules$|points |blocked|aliasing|aberration|  \S"
)
COMMAND = re.compile(r"\./factex (judge \d|large \d+|(?:catalogue|tables) (\d) (\d+) \d+((?: --[a-z-]+=\w+)*))( < (\S+))?")
MOST_RUNS = 27


def blocks_of(page):
    """The blocks of code and the tables of a page, each as a list of lines."""
    text = page.read_text(encoding="utf-8")
    if page in TABLES:
        yield from (table.splitlines() for table in text.split("\n\n"))
    for block in re.findall(r"(?:^    .*\n(?:\n(?=    ))*)+|(?:^\|.*\n)+", text, re.M):
        yield [line[4:] if line.startswith("    ") else line for line in block.splitlines()]


def printed(command, text):
    """The lines of the output of a command, and then those of each file that it writes."""
    with tempfile.TemporaryDirectory() as folder:
        ran = subprocess.run(command, input=text.encode(), stdout=subprocess.PIPE, stderr=subprocess.DEVNULL, cwd=folder)
        lines = ran.stdout.decode().splitlines()
        for file in sorted(pathlib.Path(folder).glob("*.csv")):
            lines += ["", *file.read_text(encoding="utf-8").splitlines()]
    return lines


def is_part(block, lines):
    return any(lines[at : at + len(block)] == block for at in range(len(lines)))


def rows_of(table):
    """The rows of a table as lines of comma-separated text."""
    return [",".join(cell.strip() for cell in line.strip("|").split("|")) for line in table if not line.startswith("|--")]


def is_wrong(block, lines):
    """Whether a block looks like a part of these lines, and is none."""
    if block[0].startswith("|"):
        return rows_of(block)[0] in lines and not is_part(rows_of(block), lines)
    is_plan = re.fullmatch(r"\w+(,\w+)+", block[0])
    return (is_plan or LISTING.match(block[0])) and not is_part(block, lines)


def main(script):
    program = [str(pathlib.Path(script).resolve())]
    wrong = 0
    for page in PAGES:
        text, lines = None, None
        for block in blocks_of(page):
            first = block[0].strip().lower()
            statements = text and re.match(r"(examine |output (?!\S+\.csv ))[^\[]*$", first)
            if re.match("rules( |$)", first) and any(it.lower().startswith("proc factex") for it in block):
                lines = printed([*program, "plan"], "\n".join(block) + "\n")
            elif first.startswith("proc factex") and block[-1].strip().lower().endswith("run;") or statements:
                text = text[: text.rindex("run;")] + "\n".join(block) + "\nrun;" if statements else "\n".join(block)
                lines = printed([*program, "run"], text)
            elif found := COMMAND.fullmatch(block[0]):
                words, levels, indexes, _, _, file = found.groups()
                takes_long = levels and int(levels) ** int(indexes) > MOST_RUNS
                read = (TOP / file).read_text(encoding="utf-8") if file else ""
                lines = None if takes_long else printed([*program, *words.split()], read)
                expected = [line for line in block[1:] if line]
                if lines is not None and expected and not is_part(expected, lines):
                    print(f"{page.name}: not printed: {expected[0]}, after {block[0]}")
                    wrong = 1
            elif lines is not None and not first.startswith("proc ") and is_wrong(block, lines):
                print(f"{page.name}: not printed: {block[0]}")
                wrong = 1
    return wrong


sys.exit(main(sys.argv[1]))
