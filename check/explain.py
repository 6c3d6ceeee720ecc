#!/usr/bin/env python3
"""Explains why `factex` ended with a status from 3 to 6, or what its verdict on a book means; warns of a missing semicolon.

Usage: explain.py STATUS MESSAGE FILE NAME WORD ..

MESSAGE is the first line that the program printed, FILE what it read, NAME what the user calls that, and the WORDs are those of
the command line. Why something is refused, and what to write, has one table, causes.py; what rejects a book, and what refuses
rules, mostly the tables of docs/.
"""
import csv
import io
import itertools
import os
import re
import sys

import claims
import grammar
from causes import CAUSES

DOCS = os.path.join(os.path.dirname(os.path.realpath(__file__)), "..", "docs")
# The widest part of a line, and the longest word, that are shown.
WIDTH, LONGEST = 120, 40
# How many words before the place are tried for a missing semicolon.
MOST_TOKENS = 500
COMMANDS = ["run", "plan", "check", "upgrade", "judge", "catalogue", "tables", "make", "large", "prove", "sources", "help"]
OPTIONS = ["--seed=", "--threads=", "--nodes=", "--blocks=", "--whole-plots=", "--inside=", "--order=", "--into="]
ROMAN = {"III": "3", "IV": "4", "V": "5", "VI": "6", "VII": "7", "VIII": "8", "IX": "9", "X": "10"}
LEVELS = {"2": ["-1", "1"], "3": ["-1", "0", "1"]}


def plain(cell):
    """A cell of a table without its marks."""
    return re.sub(r"\[([^]]*)\]\([^)]*\)|`", r"\1", cell.replace("\\|", "|")).strip()


def tables_of(page, heading=""):
    """The rows of the tables of a page, from a heading on."""
    text = open(f"{DOCS}/{page}", encoding="utf-8").read()
    for line in text[text.index(heading) :].splitlines():
        if line.startswith("|"):
            yield [plain(cell) for cell in re.split(r"(?<!\\)\|", line.strip())[1:-1]]


def names(cell, code):
    """Whether a first cell names a code: `E8, E15`, or `B2 to B5`."""
    ends = re.fullmatch(r"([A-Z])(\d+) to [A-Z](\d+)", cell)
    return code in (f"{ends[1]}{n}" for n in range(int(ends[2]), int(ends[3]) + 1)) if ends else code in cell.split(", ")


def row_of(page, code, heading=""):
    """The row of a page that names a code in its first cell, the first from a heading on if any is, or a row of empty cells."""
    rows = itertools.chain(tables_of(page, heading), tables_of(page))
    return next((row for row in rows if names(row[0], code)), [""] * 4)


def coming_from_sas(habit):
    """What a habit of SAS is here: the row that has it in its first cell."""
    row = next(row for row in tables_of("LANGUAGE.md") if len(row) == 3 and habit in row[0])
    return f"{row[2]} (docs/LANGUAGE.md, Coming from SAS)"


def cause_of(code, around, values):
    """What the first row of the table of causes says of a code with these surroundings."""
    for codes, pattern, says in CAUSES:
        found = re.search(pattern, around, re.I) if code in codes.split() else None
        if not found:
            continue
        known = {**values, **found.groupdict()}
        fields = [it for it in re.findall(r"\{([^}]*)\}", says) if not it.startswith("SAS ")]
        if all(known.get(it) is not None for it in fields):
            value = lambda it: coming_from_sas(it[1][4:]) if it[1].startswith("SAS ") else known[it[1]]
            return re.sub(r"\{([^}]*)\}", value, says)
    return ""


def clear(text):
    """A text with a mark for each character that cannot be shown."""
    return "".join(it if it.isprintable() or it == "\t" else "?" for it in text)


def quoted(text):
    """A word in quotes, cut where it is long."""
    return f'"{clear(text if len(text) <= LONGEST else text[:LONGEST] + "..")}"'


def show(line, column=None):
    """Prints a line, and a caret below one of its columns, which are bytes counted from 1."""
    text = line.decode("utf-8", "replace").rstrip("\r")
    before = line[: column - 1].decode("utf-8", "replace") if column else ""
    start = max(0, len(before) - WIDTH // 2)
    print("   ", clear(text[start : start + WIDTH]).rstrip())
    if column:
        print("   ", "".join("\t" if it == "\t" else " " for it in before[start:]) + "^")


def either(words):
    """Words as a choice."""
    return " or ".join(filter(None, [", ".join(words[:-1]), words[-1]])) if words else None


def plain_text(read, has_rules):
    """A program text, its bytes as Latin-1, with blanks for its rules."""
    text = read.decode("latin-1")
    if has_rules:
        text = re.sub(r"(?ims)^[ \t]*rules\b.*?(?=^[ \t]*proc\b(?!\s*=)|\Z)", lambda it: re.sub(r"[^\n]", " ", it[0]), text)
    return text


def begins_line(text, at):
    """Whether nothing but blanks is before this place in its line."""
    return not text[text.rfind("\n", 0, at) + 1 : at].strip()


class Text:
    """A program text, and the place in it that is refused. Bytes are read as Latin-1, so that they are counted."""

    def __init__(self, read, line, column, has_rules):
        lines = read.split(b"\n")
        self.at = sum(len(it) + 1 for it in lines[: line - 1]) + column - 1
        # The end of a text that ends with a line feed is shown at the end of its last line.
        if line > 1 and line == len(lines) and not lines[-1]:
            line, column = line - 1, len(lines[line - 2]) + 1
        self.line, self.column = lines[line - 1] if line <= len(lines) else b"", column
        self.rest = read[self.at :].decode("utf-8", "replace")
        self.text = plain_text(read, has_rules)
        self.tokens = grammar.tokens_of(self.text[: self.at])
        self.expected = grammar.expected_after(self.tokens)

    def found(self):
        """The word, number, text or sign at the place; nothing at the end."""
        token = None if self.rest.startswith("/*") else grammar.TOKEN.match(self.rest)
        return token.group() if token else re.match(r"(/\*|.)?", self.rest, re.S)[0]

    def around(self):
        """The step around the place: the tokens before it without needless blanks, and what follows."""
        start = max((i for i, it in enumerate(self.tokens) if it.symbol == "PROC"), default=0)
        before = " ".join(it.text.encode("latin-1").decode("utf-8", "replace") for it in self.tokens[start:])
        before = re.sub(r" ?([;=()\[\]/*|@-]) ?", r"\1", before)
        blank = " " if re.search(r"[\w'\"]$", before) and re.match(r"[\w'\"]", self.rest) else ""
        behind = re.sub(r"[ \t\r\n]+", " ", self.rest[:4096])
        return f"{before}{blank}‸{behind}"

    def statement(self):
        """The tokens of the statement that was begun, up to the place."""
        last = max((i for i, it in enumerate(self.tokens) if it.text == ";"), default=-1)
        return self.tokens[last + 1 :]

    def late(self):
        """The word of a statement before which a semicolon may be missing: that at the place, or one that begins a line."""
        if ";" in self.expected and self.found().upper() in grammar.STATEMENTS:
            return quoted(self.found())
        for token in self.statement()[1:][-MOST_TOKENS:]:
            if begins_line(self.text, token.at) and len(token.text) > 2 and grammar.nearest(token.text, grammar.STATEMENTS):
                line = self.text.count("\n", 0, token.at) + 1
                return f"{quoted(token.text)} in line {line}"
        return None

    def factors(self):
        """The names in FACTORS of this step, those of ranges too."""
        start = max((it.at for it in self.tokens if it.symbol == "PROC"), default=0)
        step = " ".join(it.text for it in grammar.tokens_of(self.text[start:]))
        words = re.findall(r"factors\b([^;/]*)", step, re.I)
        found = []
        for name, last in re.findall(r"(\w+)(?: - (\w+))?", words[0] if words else ""):
            stem, first, end = *re.fullmatch(r"(\w*?)(\d*)", name).groups(), re.search(r"\d*$", last)[0]
            found += [f"{stem}{n}" for n in range(int(first), int(end) + 1)] if first and end and int(end) < 99 else [name]
        return found

    def near(self, code):
        """The words that the one at the place may be."""
        word = self.found()
        if code == "E4":
            options = grammar.OPTIONS if self.statement()[0].symbol == "OUTPUT" else []
            return grammar.nearest(word, self.factors() + options)
        return grammar.keywords_near(word, self.expected) if code in ("E1", "E2", "E3") and re.match(r"\w", word) else []

    def misread(self):
        """In OUTPUT, the word before the place where it was read as a factor and is none, and the options that it may be."""
        is_name = [it.symbol for it in self.statement()[:1]] == ["OUTPUT"] and self.tokens[-1].symbol == "name"
        if not is_name or "factor" not in grammar.expected_after(self.tokens[:-1]):
            return None, []
        last = self.tokens[-1].text
        is_factor = last.upper() in [it.upper() for it in self.factors()]
        return quoted(last), [] if is_factor else grammar.nearest(last, grammar.OPTIONS)

    def cause(self, code):
        """Why it is refused, and what to write."""
        near, (misread, options) = self.near(code), self.misread()
        values = {"late": self.late(), "near": either(near), "misread": misread, "options": either(options)}
        values["roman"] = ROMAN.get(self.found().upper())
        cause = cause_of(code, self.around(), values)
        if cause.startswith("did you mean") and near[0] in grammar.LEFT_OUT:
            before = self.around().partition("‸")[0]
            cause += " " + cause_of("E24", f"{before}‸{near[0]}", {})
        return cause


def explain_text(code, message, read, name, words):
    """Explains the refusal of a program text."""
    line, column, says = re.match(r"factex: \w+ (\d+):(\d+) ?(.*)", message).groups()
    text = Text(read, int(line), int(column), words[0] == "plan")
    found = text.found()
    says = says if code != "E2" else "unexpected"
    what = f"{says}{'' if code == 'E2' else ':'} {quoted(found)}" if found else f"{says}{' end' if code == 'E2' else ''}"
    if code[0] == "P":
        before = read[max(0, text.at - 4096) : text.at].decode("utf-8", "replace")
        cause = cause_of(code, f"{before}‸{text.rest[:4096]}", {}) or row_of("RULES.md", code)[3]
    else:
        cause = text.cause(code)
    print(f"{name}:{line}:{column}: error: {'; '.join(filter(None, [what, cause]))} [{code}]")
    show(text.line, text.column)
    if code in ("E1", "E2", "E3") and text.expected:
        called = [grammar.CALLED.get(it, it) for it in text.expected]
        print(f"expected: {either([it for it in called if it])}")


def warn(read, name, has_rules):
    """Warns of a word that begins statements and is read as a factor, where it begins a line."""
    text = plain_text(read, has_rules)
    begun, count = None, 0
    for token in grammar.tokens_of(text):
        begun, count = (None, 0) if token.text == ";" else (begun or token.symbol, count + 1)
        if begun == "FACTORS" and count > 2 and token.text.upper() in grammar.STATEMENTS and begins_line(text, token.at):
            line, column = text.count("\n", 0, token.at) + 1, token.at - text.rfind("\n", 0, token.at)
            print(f"{name}:{line}:{column}: warning: {token.text} is read as a factor; is a semicolon missing before it?")
            begun = "warned"


def is_allowed(word):
    """Whether a word names a file, or an option: what the program refuses for another word's sake."""
    return os.path.isfile(word) or word.partition("=")[0] + "=" in OPTIONS


def explain_words(code, message, words):
    """Explains the refusal of a word of the command line."""
    place = re.match(r"factex: \w+ word (\d+)", message)
    at = int(place[1]) - 1 if place else len(words)
    if code == "C3" and is_allowed(words[at]):
        at = next((i for i in range(at, len(words)) if not is_allowed(words[i])), at)
    found = words[at] if at < len(words) else ""
    candidates = COMMANDS if code == "C2" else OPTIONS if code == "C3" and found.startswith("--") else []
    word = found.partition("=")[0] + "=" if code == "C3" else found
    values = {"found": quoted(found), "near": either(grammar.nearest(word, [it for it in candidates if it != word]))}
    if re.search(r"[./]", found) and not os.access(found, os.R_OK):
        values["unread"] = clear(found)
    before = " ".join(["factex", *words[:at], ""])
    print(f"factex: error: {cause_of(code, f'{before}‸{found}', values)} [{code}]")
    show((before + " ".join(words[at:])).encode("utf-8", "surrogateescape"), len(before.encode("utf-8", "surrogateescape")) + 1)


def records_of(read):
    """The records of a plan that are not blank, each with the number of its first line."""
    csv.field_size_limit(1 << 30)
    reader = csv.reader(io.StringIO(read.decode("utf-8", "replace").replace("\0", "?").lstrip("\ufeff"), newline=None))
    for record in reader:
        if record:
            yield reader.line_num - sum(it.count("\n") for it in record), record


def fault_in(code, record, heads, levels):
    """The number of the field of a record that is at fault, and a name for its fault."""
    seen = [it.upper() for it in record]
    for i, field in enumerate(record):
        if code == "J3" and not re.fullmatch(r"[A-Za-z_]\w{0,31}", field, re.A):
            return i, "odd"
        if code == "J3" and seen[i] in seen[:i]:
            return i, "repeated"
        if code == "J5" and field not in levels and i < len(heads) and (i or heads[0].upper() != "BLOCK"):
            return i, "field"
    return None, None


def explain_record(code, message, read, name, words):
    """Explains the refusal of a plan to be judged."""
    number = int(re.match(r"factex: \w+ record (\d+)", message)[1])
    records = list(itertools.islice(records_of(read), number))
    line, record = records[number - 1] if len(records) == number else (number, [])
    heads = records[0][1] if records else []
    levels = LEVELS.get(words[1], [str(level) for level in range(int(words[1]))])
    at, kind = fault_in(code, record, heads, levels + ["+1"] * (words[1] in LEVELS))
    values = {"fields": str(len(record)), "names": str(len(heads)), "levels": either(levels)}
    if kind:
        values |= {kind: quoted(record[at]), "column": quoted(heads[at])}
    print(f"{name}:{line}: error: {cause_of(code, ','.join(record), values)} [{code}]")
    if record:
        show(",".join(record).encode())


def explain_book(message, file, name):
    """Says what an accepted book proves, or why a book is rejected."""
    with open(file, "rb") as book:
        head = [book.readline(1 << 22).rstrip(b"\n") for _ in range(4)]
        if message == "accepted":
            print("\n".join(claims.claim_of([it.decode("ascii", "replace") for it in head])))
            return
        number, code = re.fullmatch(r"rejected line (\d+) (\w+)", message).groups()
        if not head[0].startswith((b"factex-book ", b"factex-table ")):
            print(f"{name}:1: not a book: the first line of a book is factex-book or factex-table, and 2 or 1 [{code}]")
            return
        book.seek(0)
        line = next(itertools.islice(book, int(number) - 1, None), b"")
    kind, shown = head[0].split()[0].decode(), line.rstrip(b"\n").decode("latin-1")
    heading = "## Books of tables" if kind == "factex-table" else ""
    reason = cause_of(code, f"{kind} ‸{shown}", {}) or row_of("BOOKS.md", code, heading)[1]
    proves = "so it proves nothing, and its claim may be true or false" if code[0] == "K" else "so this is no book"
    print(f"{name}:{number}: rejected: {reason}, {proves} [{code}]")
    if line.strip():
        show(line.rstrip(b"\n"))


def main(status, message, file, name, *words):
    sys.stdout.reconfigure(errors="replace")
    read = lambda: open(file, "rb").read()
    if message == "accepted" or message.startswith("rejected "):
        explain_book(message, file, name)
        return
    if status in ("0", "1", "2"):
        warn(read(), name, words[0] == "plan")
        return
    code = (message.split() + ["", ""])[1] if status == "3" else status
    if re.match(r"factex: \w+ \d", message):
        explain_text(code, message, read(), name, words)
    elif re.match(r"factex: \w+ record", message):
        explain_record(code, message, read(), name, words)
    elif code.startswith("C"):
        explain_words(code, message, words)
    else:
        print(f"factex: error: {cause_of(code, '', {})}")


main(*sys.argv[1:])
