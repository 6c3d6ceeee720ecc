#!/usr/bin/env python3
"""Finds the texts and the numbers of the program's sources that nothing pins.

literals.py [FOLDER]

A text between quotes in `crates/fx_*/src` has to stand in a closed example (an `Examples.antt` or a like file of
proofs), in a test, in what a program of the gate must print, or in a message that `check/script.py` awaits. It has to
stand there as a word: `est` is not pinned by `estimate`.

A number of ten or more outside contracts either bounds what is read, and then LIMITS names the cases on its two sides,
which must be there, or it bounds nothing that a user gives, and ELSE says what it is. Smaller bounds are in LIMITS too.

Prints what is pinned by nothing, and ends with status 1 where there is such.
"""
import os
import re
import sys

TOKEN = re.compile(
    r'//[^\n]*|b?"(?:\\.|[^"\\])*"|b?\'(?:\\.[^\']*|[^\'\\])\'|\'[a-z_]\w*|[^\W\d]\w*|\d[\d_]*(?:[ui]\d+|[ui]size)?|\s+|.',
    re.S,
)
ESCAPES = {"n": "\n", "t": "\t", "r": "\r", "0": "\0", "\\": "\\", '"': '"', "'": "'"}

# Texts that nothing prints, each with what it is.
TEXTS = {
    ";=()[]/*|@-": "the signs of the language, each of which stands in the texts of language_tests",
    "more than 100,000 effects": "the name of an error, of which the program prints E23",
    "not a book": "the name of an error, of which the program prints the code",
    "writing failed": "the name of an error, after which the program ends with status 4",
}

# Each bound of what is read: the file, its line, and the cases at the bound and past it, each in one of FILES.
FILES = {
    "alias": "fx_alias/proofs/Examples.antt",
    "book": "search_tests/src/book.rt",
    "books": "fx_book/proofs/Examples.antt",
    "catalogues": "program_tests/src/program/catalogues.rt",
    "effects": "language_tests/src/statements/effects.rt",
    "factors": "language_tests/src/statements/factors.rt",
    "judge": "program_tests/src/judge.rt",
    "lexer": "language_tests/src/lexer.rt",
    "limits": "program_tests/src/program/limits.rt",
    "outputs": "language_tests/src/statements/outputs.rt",
    "program": "program_tests/src/program.rt",
    "reading": "fx_program/proofs/Examples.antt",
    "settings": "language_tests/src/statements/settings.rt",
    "table": "fx_table_book/proofs/Examples.antt",
    "words": "fx_program_laws/proofs/Examples.antt",
    "tables": "program_tests/src/program/tables/words.rt",
}
LIMITS = [
    ("fx_vectors/src/shape.rt", "MOST_FACTORS: usize = 63", ("limits", "factors F1-F63;"), ("limits", "factors F1-F64;")),
    (
        "fx_vectors/src/shape.rt",
        "MOST_FACTORS_OF_MANY_LEVELS: usize = 40",
        ("limits", "factors F1-F40 / nlev=9;"),
        ("limits", "factors F1-F41 / nlev=9;"),
    ),
    (
        "fx_vectors/src/shape.rt",
        "MOST_FACTORS_IN_BLOCKS: usize = 30",
        ("factors", "factors X1-X30;model r=3;size design=8;blocks nblkfacs=1;"),
        ("factors", "blocks nblkfacs=1;factors X1-X31;"),
    ),
    (
        "fx_lexer/src/item.rt",
        "MOST_WORD_BYTES: usize = 32",
        ("lexer", " _bcdefghijklmnopqrstuvwxyzABCD12\""),
        ("lexer", " _bcdefghijklmnopqrstuvwxyzABCD123\""),
    ),
    (
        "fx_lexer/src/item.rt",
        "MOST_NUMBER_BYTES: usize = 38",
        ("lexer", " 12345678901234567890123456789012345678\""),
        ("lexer", " 123456789012345678901234567890123456789\""),
    ),
    ("fx_language/src/repeated.rt", "MOST_STEPS: usize = 100", ("limits", "for _step in 0..100 "), ("program", "for _step in 0..101 ")),
    ("fx_settings/src/model.rt", "3 <= r", ("settings", "model r=3;"), ("settings", "model resolution=2;")),
    ("fx_settings/src/model.rt", "r <= 99", ("settings", "model r=99;"), ("settings", "model r=100;")),
    ("fx_settings/src/power.rt", "MOST_RUNS: u128 = 1_024", ("limits", "(2, 1024),"), ("program", "size design=2048;")),
    ("fx_settings/src/settings.rt", "MOST_NODES: u128 = 5_000_000", ("limits", '"5000000"'), ("limits", '"5000001"')),
    ("fx_settings/src/settings.rt", "number_or(1_000_000, said.nodes)", ("limits", "budget ended after 1000000 nodes"), None),
    ("fx_outputs/src/derived.rt", "(2..=4)", ("program", "[A B C D]=Q"), ("outputs", "out=a[A B C D E]=F;")),
    ("fx_outputs/src/derived.rt", "levels <= 64", ("program", "derived Q 64 levels"), ("outputs", "out=a[A B C]=D;")),
    ("fx_outputs/src/replication.rt", "MOST_ROWS: u128 = 200_000", ("limits", "pointrep=100000;"), ("limits", "pointrep=100001;")),
    ("fx_statements/src/components.rt", "MOST_COMPONENTS: u64 = 100_000", ("effects", "factors X1-X34/nlev=5;"), ("effects", "factors X1-X22/nlev=9;")),
    ("fx_demands/src/pairs.rt", "MOST_PAIRS: u64 = 2_000_000", ("effects", "n=(X2*X3*X4 X2*X3"), ("effects", "n=(X1 X2*X3*X4 X2*X3")),
    ("fx_demands/src/unions.rt", "MOST_EFFECTS: usize = 100_000", ("effects", "FRONT, &[\");\"]"), ("effects", "X2*X17);\", 23")),
    ("fx_book/src/demands.rt", "3 <= r", ("book", "resolution 3\\n"), ("book", '"resolution 2"')),
    ("fx_book/src/demands.rt", "r <= 99", ("book", "resolution 99\\n"), ("book", '"resolution 100"')),
    ("fx_book/src/head.rt", "m <= 10", ("alias", "size 2 10 "), ("book", "size 2 11 5 0")),
    ("fx_book/src/head.rt", "<= 1024", ("book", "size 3 6 63 0"), ("book", "size 3 7 5 0")),
    ("fx_book/src/head.rt", "t <= 10", ("book", "size 2 10 1 10"), ("book", "size 2 3 5 11")),
    ("fx_book/src/beat.rt", "1 << 127", ("book", "170141183460469231731687303715884105727"), ("book", "170141183460469231731687303715884105728")),
    ("fx_book/src/book.rt", "MOST_BYTES: usize = 268_435_456", ("reading", "268435456"), ("books", "268435457")),
    ("fx_program/src/checking.rt", "BOOK_LIMIT: usize = 268435456", ("reading", "268435456"), ("reading", "268435457")),
    ("fx_table_book/src/front.rt", "m <= 10", ("table", "(limit 2 10 0 0 10) ≡ true"), ("table", "(limit 2 11 0 0 11) ≡ false")),
    ("fx_table_book/src/front.rt", "<= 1024", ("table", "(limit 3 6 0 0 6) ≡ true"), ("table", "(limit 3 7 0 0 7) ≡ false")),
    ("fx_table_book/src/front.rt", "MOST_WORDS: u128 = 1 << 120", ("table", "(limit 9 3 0 0 37) ≡ true"), ("table", "(limit 9 3 0 0 38) ≡ false")),
    (
        "fx_table_book/src/front.rt",
        "1 << 127",
        ("table", "key 0 0 0 0 170141183460469231731687303715884105727"),
        ("table", "key 0 0 0 0 170141183460469231731687303715884105728"),
    ),
    ("fx_table_book/src/reading.rt", "MOST_TABLE_BYTES: usize = 33_554_432", ("reading", "length text ≡ 33554432 "), ("table", "33554433")),
    ("fx_judge/src/name.rt", "> 32", ("judge", "A2345678901234567890123456789012\\n"), ("judge", "A23456789012345678901234567890123\\n")),
    ("fx_judge/src/reading.rt", "first > 40", ("judge", "alloc, 40)"), ("judge", "alloc, 41)")),
    ("fx_judge/src/reading.rt", "> 300", ("judge", "alloc, 24)"), ("judge", "alloc, 25)")),
    ("fx_judge/src/reading.rt", "number == 4098", ("judge", "for _i in 0..4096 "), ("judge", "7, 4098")),
    ("fx_program/src/text.rt", "TEXT_LIMIT: usize = 1048576", ("program", "1_048_576 - HALF.len()"), ("program", "1_048_577 - HALF.len()")),
    ("fx_program/src/judging.rt", "PLAN_LIMIT: usize = 1048576", ("program", "1..131072 "), ("program", "J1 record 1")),
    ("fx_program/src/catalogue_words.rt", "USUAL_NODES: u64 = 1000000", ("catalogues", '"catalogue 2 10 63", (2, 10, 63, 1, 1_000_000)'), None),
    ("fx_program/src/words.rt", "MOST_NODES: u64 = 5000000", ("catalogues", "--nodes=5000000 "), ("catalogues", "--nodes=5000001")),
    ("fx_program/src/words.rt", "few_within(1, 64, digits)", ("words", "--threads=64"), ("words", "--threads=65")),
    ("fx_program/src/words.rt", "number_at(place, 1, 100, word)", ("words", "00000000000000000100"), ("words", '"large" ∷ codes "101"')),
    ("fx_program/src/words.rt", "digits.len() <= 20", ("words", "00000000000000000100"), ("words", "--seed=000000000000000000000")),
    ("fx_program/src/table_options.rt", "MOST_ENTRIES: u64 = 5000000", ("tables", "--nodes=5000000"), ("tables", "--nodes=5000001")),
    ("fx_program/src/table_words.rt", "USUAL_ENTRIES: u64 = 1000000", ("reading", "order = FactorsFirst; entries = 1000000"), None),
    ("fx_program/src/table_words.rt", "MOST_WORDS: u128 = 1 << 120", ("tables", "tables 9 2 37"), ("tables", "tables 9 2 38")),
]

# What other numbers of ten or more are: the start of a file's path, the numbers, and their meaning.
ELSE = [
    ("fx_base/src/file_buffer.rt", {64}, "what a begun file takes of the room of a shelf in memory"),
    ("fx_base/src/reading.rt", {4096}, "the bytes of a read"),
    ("fx_galois/", None, "the tables of the fields"),
    ("fx_vectors/src/mark", {1024, 4096, 65536, 4294967296}, "how marks are packed"),
    ("fx_derived/src/packing.rt", {255}, "how lengths are packed"),
    ("fx_language/src/code.rt", None, "the codes of refusals, each of which a message of the tests has"),
    ("fx_language/src/keyword.rt", {48}, "how many spellings there are"),
    ("fx_text/src/range.rt", {38}, "more digits than a word with a letter in front may have"),
    ("fx_settings/src/power.rt", {10, 127}, "more powers than numbers of so many digits, or of 1,024 runs, have"),
    ("fx_effects/src/expression.rt", {64}, "more factors than there are"),
    ("fx_demands/src/forbidden_list.rt", {64}, "the base of a class, above the weight of each vector"),
    ("fx_points/", {16, 63, 64, 1024}, "a set of 1,024 bits in words of 64"),
    ("fx_book/src/part.rt", {10, 19}, "decimal digits, and how many of them a word surely holds"),
    ("fx_book/src/pieces.rt", {16384}, "the entries of a piece"),
    ("fx_book/src/streaming.rt", {16384}, "the entries that are held as text at a time"),
    ("fx_book/src/tail.rt", {10, 3072}, "decimal digits, and room for the text of some entries"),
    ("fx_book/src/word.rt", {10}, "decimal digits"),
    ("fx_book/src/writing.rt", {60}, "the entries whose text surely has room"),
    ("fx_barred/src/next_vectors.rt", {16, 64, 512, 1024, 4096}, "from how many vectors on lists are used, and how places are kept"),
    ("fx_tree/src/candidates.rt", {11}, "the powers of q up to the tenth"),
    ("fx_checker/src/known_words.rt", {64, 16381, 500000000}, "places of a table, and from how many looks on it is made"),
    ("fx_table_book/src/book.rt", {10}, "the run indexes of a base"),
    ("fx_table_check/src/effects.rt", {1024}, "the most runs"),
    ("fx_table_check/src/units.rt", {10}, "the run indexes of a base"),
    ("fx_search/src/piece_walk.rt", {1099511627776}, "more nodes than a search has"),
    (
        "fx_board/src/pace.rt",
        {16, 64, 128, 4096, 131072},
        "how many nodes are walked alone, how many jobs are shared at a time, and how many threads walk",
    ),
    ("fx_rules/src/building.rt", {10}, "the run indexes"),
    ("fx_table_lines/", {64, 512, 1024, 16384, 1000000}, "how far a search that nobody has to trust goes"),
    ("fx_plan/src/assembled.rt", {20, 64}, "how many rows are held as text at a time"),
    ("fx_plan/src/draws.rt", {64}, "the bits of a draw"),
    ("fx_judge/src/combinations.rt", {40, 4096}, "the most factors and the most runs, as in reading.rt"),
    ("fx_judge/src/name.rt", {40}, "the most factors, as in reading.rt"),
    ("fx_judge/", {81}, "pairs of nine levels"),
    ("fx_judge/src/records.rt", {4098}, "the most records that have to be read, as in reading.rt"),
    ("fx_program/src/making.rt", {16, 27, 32}, "runs of a text that is made, which `made_steps` and the tests of `make` have"),
    ("fx_program/src/refusal.rt", {10, 36}, "the code P10, and how many messages with the letter E there are"),
    ("fx_program/src/table_checking.rt", {10, 11}, "the codes K10 and K11, which the tests of forged books have"),
    ("fx_program/src/table_options.rt", {1024}, "more groups than there can be: at most half of the runs"),
    ("fx_program/src/tabulating.rt", {5000000}, "the most entries, which the words have tested"),
    ("fx_program/src/", {36, 64, 128, 256}, "room for a name or a line, whose parts bound it"),
    ("fx_edge/src/folder_shelf.rt", {64}, "room for a name"),
]

def decoded(literal):
    """The text of a literal with its quotes."""
    inside = literal[literal.index('"') + 1 : -1]

    def escaped(found):
        word = found[1]
        if word[0] == "x":
            return chr(int(word[1:], 16))
        if word[0] == "\n":
            return ""
        return ESCAPES.get(word, word)

    return re.sub(r"\\(x[0-9a-fA-F]{2}|\n\s*|.)", escaped, inside, flags=re.S)


def past_clause(tokens, i):
    """The place after the clause or ghost item that begins at i."""
    while tokens[i][0] not in "{;":
        i += 1
    depth = 0
    while True:
        depth += (tokens[i][0] == "{") - (tokens[i][0] == "}")
        if depth == 0:
            return i + 1
        i += 1


def code(text):
    """The tokens of a source outside contracts, ghost items and comments, each with its line."""
    tokens = [(found[0], text.count("\n", 0, found.start()) + 1) for found in TOKEN.finditer(text)]
    i = 0
    while i < len(tokens):
        word, line = tokens[i]
        if word in ("ensures", "requires", "ghost"):
            i = past_clause(tokens, i)
            continue
        if not word.startswith("//") and not word.isspace():
            yield word, line
        i += 1


def files(root, start, end):
    """The files below a folder of crates with this beginning whose names end so."""
    for crate in sorted(os.listdir(f"{root}/crates")):
        if not crate.startswith(start):
            continue
        for folder, _, names in sorted(os.walk(f"{root}/crates/{crate}")):
            if "/out" not in folder:
                yield from (f"{folder}/{name}" for name in sorted(names) if name.endswith(end))


def read(path):
    with open(path, encoding="utf-8") as file:
        return file.read()


def pinned_texts(root):
    """All that examples, tests and outputs have, as one text."""
    texts = [read(f"{root}/check/messages.txt")]
    for path in files(root, "fx_", ".antt"):
        if re.search(r"/proofs/\w*(Examples|Limits)\.antt$", path):
            texts += [decoded(found) for found in re.findall(r'"(?:\\.|[^"\\])*"', read(path))]
    for path in files(root, "", ".rt"):
        if "_tests/src" in path:
            texts += [decoded(word) for word, _ in code(read(path)) if re.match('b?"', word)]
    texts += [read(path) for path in files(root, "", "stdout")]
    return "\0".join(texts)


def is_pinned(text, pinned):
    """Whether a text stands there as a word; behind it there may be a number."""
    front = "(?<![A-Za-z0-9])" if text[:1].isalnum() else ""
    back = "(?![A-Za-z])" if text[-1:].isalpha() else ""
    return re.search(front + re.escape(text) + back, pinned) is not None


def is_bound(line, place):
    return any(file == place and bound in line for file, bound, *_ in LIMITS)


def is_else(number, place):
    return any(place.startswith(front) and (numbers is None or number in numbers) for front, numbers, _ in ELSE)


def unpinned(root):
    """What nothing pins, a line each."""
    pinned = pinned_texts(root)
    for path in files(root, "fx_", ".rt"):
        place = path[len(f"{root}/crates/") :]
        source = read(path)
        lines = source.split("\n")
        for word, line in code(source):
            if re.match('b?"', word):
                text = decoded(word)
                if text not in TEXTS and not is_pinned(text, pinned):
                    yield f"{place}:{line}: no example and no test has the text {text!r}"
            elif word[0].isdigit():
                number = int(re.match(r"[\d_]+", word)[0].replace("_", ""))
                if number >= 10 and not is_bound(lines[line - 1], place) and not is_else(number, place):
                    yield f"{place}:{line}: {number} is neither in LIMITS nor in ELSE"


def lost(root):
    """What the tables above name and is no more there, a line each."""
    for file, bound, *sides in LIMITS:
        source = read(f"{root}/crates/{file}")
        if bound not in source:
            yield f"{file}: {bound} is no more there"
        for side in sides:
            if side and side[1] not in read(f"{root}/crates/{FILES[side[0]]}"):
                yield f"{FILES[side[0]]}: {side[1]} is no more there, a case of {bound}"


def main():
    root = os.path.abspath(sys.argv[1]) if len(sys.argv) > 1 else os.path.dirname(os.path.dirname(os.path.abspath(__file__)))
    found = [*unpinned(root), *lost(root)]
    for line in found:
        print(line)
    if not found:
        print(f"literals: each text is pinned, and both sides of {len(LIMITS)} bounds")
    return 1 if found else 0


if __name__ == "__main__":
    sys.exit(main())
