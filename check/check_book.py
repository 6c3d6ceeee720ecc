#!/usr/bin/env python3
"""A second checker of books, written from docs/BOOKS.md alone, and of books of tables.

Usage: check_book.py [BOOK ..]

Prints `accepted` and the lines 2 to 4 of the book, with status 0, or `rejected line <n> <code>`, with status 1. Of
books of tables in version 1 it prints these lines as version 2 has them. Without a file the book is read from
standard input; several are checked in turn, each below its name, with the greatest status.
"""
import bisect
import functools
import math
import sys

MOST_BYTES = 268_435_456
MOST_TABLE_BYTES = 33_554_432
MOST_EFFECTS = 100_000
MOST_PAIRS = 2_000_000
MOST_PARTS = 8
# The levels, each with its prime and the last coefficients of its polynomial: x^2 = x + 1 is (1, 1).
FIELDS = {2: (2, ()), 3: (3, ()), 4: (2, (1, 1)), 5: (5, ()), 7: (7, ()), 8: (2, (1, 1, 0)), 9: (3, (1, 2))}


class Rejected(Exception):
    """The first line of a text that is at fault, and the code of the fault."""

    def __init__(self, line, code):
        super().__init__(f"rejected line {line} {code}")


class Form(Exception):
    """A part of a line is not of its form."""


class Range(Exception):
    """A number is out of its range."""


# ---- fields


def digits(q, n, number):
    """The n digits of a number to the base q, the lowest first."""
    codes = []
    for _ in range(n):
        number, code = divmod(number, q)
        codes.append(code)
    return codes


def number_of(q, codes):
    """The number with these digits."""
    number = 0
    for code in reversed(codes):
        number = number * q + code
    return number


class Field:
    """Sums and products of codes, by tables."""

    def __init__(self, q):
        p, tail = FIELDS[q]
        degree = max(1, len(tail))
        self.q = q
        self.plus = [[self._sum(p, degree, a, b) for b in range(q)] for a in range(q)]
        self.times = [[self._product(p, degree, tail, a, b) for b in range(q)] for a in range(q)]

    @staticmethod
    def _sum(p, degree, a, b):
        return number_of(p, [(x + y) % p for x, y in zip(digits(p, degree, a), digits(p, degree, b))])

    @staticmethod
    def _product(p, degree, tail, a, b):
        product = [0] * (2 * degree - 1)
        for i, x in enumerate(digits(p, degree, a)):
            for j, y in enumerate(digits(p, degree, b)):
                product[i + j] = (product[i + j] + x * y) % p
        for k in range(len(product) - 1, degree - 1, -1):
            for i, coefficient in enumerate(tail):
                product[k - degree + i] = (product[k - degree + i] + product[k] * coefficient) % p
        return number_of(p, product[:degree])

    def dot(self, first, second):
        """The sum of the products of the codes of two vectors."""
        total = 0
        for a, b in zip(first, second):
            total = self.plus[total][self.times[a][b]]
        return total


@functools.cache
def field_of(q):
    """The field of q codes, made once."""
    return Field(q)


@functools.lru_cache(4096)
def sums_with(q, m, code, row):
    """The sum of each vector of m codes, by its number, and a multiple of the row."""
    field = field_of(q)
    sums = [0]
    for other in digits(q, m, row):
        step = field.times[code][other]
        sums = [low + len(sums) * field.plus[a][step] for a in range(q) for low in sums]
    return sums


def last_code(codes):
    """The last code that is not zero."""
    return next((code for code in reversed(codes) if code), 0)


# ---- the text


# every number of a book is below this, whatever its place
ABOVE_ALL = 10**100


def number(part):
    if part.isascii() and part.isdigit() and (part == "0" or part[0] != "0"):
        # Python converts no text of more than 4,300 digits, and a book has none of more than 100.
        return int(part) if len(part) <= 100 else ABOVE_ALL
    raise Form


def few_runs(q, m):
    return 1 <= m <= 10 and q**m <= 1024


def book_of(text):
    """The book that a text is, or its first fault."""
    if len(text) > MOST_BYTES:
        raise Rejected(1, "B1")
    lines = text.decode("latin-1").split("\n")
    kinds = {
        "factex-book 1": (Book, 1),
        "factex-book 2": (Book, 2),
        "factex-table 1": (TableBook, 1),
        "factex-table 2": (TableBook, 2),
    }
    if len(lines) == 1 or lines[0] not in kinds:
        raise Rejected(1, "B2")
    kind, version = kinds[lines[0]]
    if kind is TableBook and len(text) > MOST_TABLE_BYTES:
        raise Rejected(1, "B1")
    return kind(lines, version)


class Text:
    """A text whose lines from the fifth on are entries, up to the line END."""

    def __init__(self, lines, version):
        self.lines = lines
        self.version = version

    def all_entries(self):
        """The entries, each with its letter, its row and what else it has."""
        entries = []
        for i in range(4, len(self.lines)):
            if i == len(self.lines) - 1:
                raise Rejected(i + 1, "B8")
            line = self.lines[i]
            if line == "END":
                if i + 2 < len(self.lines) or self.lines[i + 1]:
                    raise Rejected(i + 2, "B9")
                return entries
            try:
                entries.append(self.entry(line))
            except Form:
                raise Rejected(i + 1, "B6") from None
            except Range:
                raise Rejected(i + 1, "B7") from None
        raise Rejected(len(self.lines), "B8")


class Book(Text):
    """A text that is a book of marks, or its first fault."""

    def __init__(self, lines, version):
        super().__init__(lines, version)
        self.q, self.m, self.s, self.t = self.in_head(2, self.size)
        self.resolution, self.estimate, self.others = self.in_head(3, self.demands)
        self.pattern = self.in_head(4, self.least)
        self.head = lines[1:4]
        self.runs = self.q**self.m
        self.entries = self.all_entries()

    def in_head(self, line, read):
        """What line 2, 3 or 4 says."""
        try:
            if line >= len(self.lines):
                raise Form
            return read(self.lines[line - 1])
        except (Form, Range):
            raise Rejected(line, f"B{line + 1}") from None

    def size(self, line):
        parts = line.split(" ")
        if len(parts) != 5 or parts[0] != "size":
            raise Form
        q, m, s, t = [number(part) for part in parts[1:]]
        most = 63 if self.version == 2 and q <= 3 else 40
        if t:
            most = 30
        if q not in FIELDS or not few_runs(q, m) or not 1 <= s <= most or t > 10:
            raise Range
        return q, m, s, t

    def demands(self, line):
        parts = line.split(" ")
        if parts[0] == "resolution" and len(parts) == 2:
            r = number(parts[1])
            if not 3 <= r <= 99:
                raise Range
            return r, None, None
        if parts[0] != "effects" or parts.count("/") != 1:
            raise Form
        stroke = parts.index("/")
        estimate = [number(part) for part in parts[1:stroke]]
        others = [number(part) for part in parts[stroke + 1 :]]
        if not self.may_be_asked(estimate, others):
            raise Range
        return None, estimate, others

    def may_be_asked(self, estimate, others):
        """Whether the two lists of effects are in order and apart, and not too long."""
        for effects in (estimate, others):
            if len(effects) > MOST_EFFECTS or any(not 1 <= e < 2**self.s for e in effects):
                return False
            places = [place_of(e) for e in effects]
            if any(a >= b for a, b in zip(places, places[1:])):
                return False
        if not estimate or set(estimate) & set(others):
            return False
        first = sum((self.q - 1) ** e.bit_count() for e in estimate)
        both = first + sum((self.q - 1) ** e.bit_count() for e in others)
        return first * both <= MOST_PAIRS

    def least(self, line):
        if line == "pattern none":
            return None
        parts = line.split(" ")
        if parts[0] != "pattern":
            raise Form
        pattern = [number(part) for part in parts[1:]]
        if len(pattern) != self.s or any(a >= 2**127 for a in pattern) or self.t or self.resolution is None:
            raise Range
        return pattern

    def entry(self, line):
        parts = line.split(" ")
        if parts[0] == "W" and len(parts) > 2:
            row = number(parts[1])
            word = self.word_by_number(parts[2:]) if self.version == 1 else self.word(parts[2:])
            if row >= self.runs or word is None:
                raise Range
            return "W", row, word
        if len(parts) != 2 or parts[0] not in ("O", "P") or (parts[0] == "P" and self.pattern is None):
            raise Form
        row = number(parts[1])
        if row >= self.runs:
            raise Range
        return parts[0], row, None

    def word_by_number(self, parts):
        """The codes of a word that is written by its number; none where it is out of its range."""
        if len(parts) != 1:
            raise Form
        word = number(parts[0])
        rows = self.s + self.t
        return digits(self.q, rows, word) if 0 < word < self.q**rows else None

    def word(self, parts):
        """The codes of a word that is written by its places, or by its number where it has many."""
        if len(parts) == 1 and parts[0].startswith("#"):
            codes = self.word_by_number([parts[0][1:]])
            return codes if codes and sum(map(bool, codes)) > MOST_PARTS else None
        places = []
        for part in parts:
            place, colon, code = part.partition(":")
            if not colon:
                raise Form
            places.append((number(place), number(code)))
        if len(places) > MOST_PARTS:
            return None
        codes = [0] * (self.s + self.t)
        last = 0
        for place, code in places:
            if not last < place <= len(codes) or not 0 < code < self.q:
                return None
            codes[place - 1] = code
            last = place
        return codes


# The kinds of words that designs are compared by: constant ones, confounded ones, and ones of two factors not clear.
CONSTANT, CONFOUNDED, UNCLEAR = "A", "B", "unclear"


def order_of(name, s, has_base):
    """The entries of an order over s factors, each a kind of words and their weight."""
    constant = [(CONSTANT, k) for k in range(2 * s + 2)]
    confounded = [(CONFOUNDED, k) for k in range(s + 1)]
    weights = range(1, s + 1)
    orders = {
        "FF": constant + confounded,
        "W1": [part for k in weights for part in (*constant[2 * k - 1 : 2 * k + 1], confounded[k])],
        "W2": [part for k in weights for part in (*constant[2 * k - 2 : 2 * k], confounded[k])],
        "SCF": [part for k in weights for part in (constant[k + 1], confounded[k])],
        "CLEAR": [constant[3], (UNCLEAR, 2), *constant[4:], *confounded],
    }
    if name not in orders:
        raise Range
    least = {CONSTANT: 3, CONFOUNDED: 2 if has_base else s + 1, UNCLEAR: 2}
    return [(kind, k) for kind, k in orders[name] if kind == UNCLEAR or least[kind] <= k <= s]


def parts_after(word, line):
    """The parts of a line after its first, which is this word."""
    first, *parts = line.split(" ")
    if first != word:
        raise Form
    return parts


def numbers(parts, count):
    """The numbers that just so many parts write."""
    if len(parts) != count:
        raise Form
    return [number(part) for part in parts]


class TableBook(Text):
    """A text that is a book of a table, or its first fault."""

    def __init__(self, lines, version):
        super().__init__(lines, version)
        first = version == 1
        self.q, self.m, self.h, self.w, self.n = self.in_head(2, self.size if first else self.base)
        self.s = self.w + self.n
        self.runs = self.q**self.m
        name = self.in_head(3, self.resolution if first else self.name)
        self.order = order_of(name, self.s, self.h > 0)
        self.key = self.in_head(4, self.pattern if first else self.key_to_beat)
        self.head = self.lines_of_head(name)
        self.entries = self.all_entries()

    def in_head(self, line, read):
        """What line 2, 3 or 4 says."""
        if line >= len(self.lines):
            raise Rejected(line, "B8")
        try:
            return read(self.lines[line - 1])
        except Form:
            raise Rejected(line, "B6") from None
        except Range:
            raise Rejected(line, "B7") from None

    def lines_of_head(self, name):
        """Lines 2 to 4 as version 2 has them."""
        key = ["none"] if self.key is None else self.key
        base = self.q, self.m, self.h, self.w, self.n
        return [" ".join(map(str, parts)) for parts in (["base", *base], ["order", name], ["key", *key])]

    def base(self, line):
        return self.base_of(*numbers(parts_after("base", line), 5))

    def size(self, line):
        q, m, n, t = numbers(parts_after("size", line), 4)
        if t:
            raise Range
        return self.base_of(q, m, 0, 0, n)

    @staticmethod
    def base_of(q, m, h, w, n):
        """The numbers of a base, if they are within the limits and some design may have them."""
        if q not in FIELDS or not few_runs(q, m) or not 1 <= w + n <= (63 if q <= 3 else 40) or q ** (w + n) > 2**120:
            raise Range
        if not h <= m <= h + n or (w and not 0 < h <= w):
            raise Range
        return q, m, h, w, n

    def name(self, line):
        parts = parts_after("order", line)
        if len(parts) != 1:
            raise Form
        order_of(parts[0], self.s, self.h > 0)
        return parts[0]

    @staticmethod
    def resolution(line):
        if line != "resolution 3":
            raise Range
        return "FF"

    def key_to_beat(self, line):
        return None if line == "key none" else self.within(numbers(parts_after("key", line), len(self.order)))

    def pattern(self, line):
        if line == "pattern none":
            return None
        first, second, *key = numbers(parts_after("pattern", line), len(self.order) + 2)
        if first or second:
            raise Range
        return self.within(key)

    def within(self, key):
        """A key whose numbers are in their range."""
        if any((self.q - 1) * a >= 2**127 for a in key):
            raise Range
        return key

    def entry(self, line):
        letter, *parts = line.split(" ")
        # books of marks have such entries
        if letter == "W":
            raise Range
        if letter not in ("O", "P", "I", "R", "F"):
            raise Form
        row, *change = numbers(parts, self.m + 1 if letter == "I" else 1)
        if row >= self.runs or any(a >= self.runs for a in change):
            raise Range
        return letter, row, change


def place_of(effect):
    """By what effects are ordered: their numbers of factors, and then their factors."""
    factors = [i for i in range(effect.bit_length()) if effect >> i & 1]
    return len(factors), factors


# ---- the walks


class Tally:
    """How many combinations of each weight of the rows of a prefix have each sum."""

    def __init__(self, q, m):
        self.q = q
        self.m = m
        self.rows = []
        self.tallies = [[[1] + [0] * (q**m - 1)]]

    def of(self, rows):
        """The tally of these rows, and before it those of all rows that come first."""
        same = next((i for i, (a, b) in enumerate(zip(rows, self.rows)) if a != b), min(len(rows), len(self.rows)))
        del self.rows[same:], self.tallies[same + 1 :]
        for row in rows[same:]:
            self.tallies.append(self.with_row(self.tallies[-1], row))
            self.rows.append(row)
        return self.tallies

    def with_row(self, tally, row):
        """The tally with one row more."""
        moved = [sums_with(self.q, self.m, c, row) for c in range(1, self.q)]
        more = [list(counts) for counts in tally] + [[0] * self.q**self.m]
        for weight, old in enumerate(tally):
            new = more[weight + 1]
            for x, count in enumerate(old):
                if count:
                    for places in moved:
                        new[places[x]] += count
        return more


class Turns:
    """A walk over the canonical prefixes, each of which takes an entry of a book in its turn."""

    def __init__(self, book, most_rows):
        self.book = book
        self.most_rows = most_rows
        self.field = field_of(book.q)
        self.rows = []
        self.waiting = []

    def check(self):
        for line, (letter, row, other) in enumerate(self.book.entries, 5):
            if not self.waiting:
                raise Rejected(line, "K2")
            self.take_turn()
            if row != self.rows[-1]:
                raise Rejected(line, "K1")
            if letter != "O":
                self.close(line, letter, other)
            elif len(self.rows) == self.most_rows:
                raise Rejected(line, "K7")
            else:
                self.branch()
        if self.waiting:
            raise Rejected(len(self.book.entries) + 5, "K6")

    def take_turn(self):
        """Goes to the prefix whose turn it is."""
        length, row = self.waiting.pop()
        del self.rows[length:]
        self.rows.append(row)


class Walk(Turns):
    """A walk by the entries of a book of marks."""

    def __init__(self, book):
        super().__init__(book, book.s + book.t)
        self.ranks = [0]
        self.tally = Tally(book.q, book.m)
        self.differences = {}
        self.normal = [x == 0 or last_code(digits(book.q, book.m, x)) == 1 for x in range(book.runs)]
        self.unit = {book.q**i for i in range(book.m)}
        self.branch()

    def close(self, line, letter, word):
        """Whether the entry closes the prefix."""
        if letter == "W":
            if not self.is_zero_sum(word):
                raise Rejected(line, "K3")
            if not self.is_forbidden(word):
                raise Rejected(line, "K4")
        elif self.pattern() < self.book.pattern:
            raise Rejected(line, "K5")

    def take_turn(self):
        super().take_turn()
        del self.ranks[len(self.rows) :]
        rank = self.ranks[-1]
        self.ranks.append(rank + 1 if self.rows[-1] == self.book.q**rank else rank)

    def branch(self):
        """The children wait, the one with the greatest last row first."""
        book = self.book
        length, rank = len(self.rows), self.ranks[-1]
        unit = book.q**rank
        for row in range(min(unit + 1, book.runs)):
            if (row == unit or self.normal[row]) and self.may_follow(row, length, rank + (row == unit)):
                self.waiting.append((length, row))

    def may_follow(self, row, length, rank):
        book = self.book
        whole = min(book.s, book.m)
        if length >= book.s:
            return True
        if rank + book.s - length - 1 < whole:
            return False
        if book.resolution is None:
            return True
        if length < whole:
            return rank > self.ranks[-1]
        return row != 0 and row not in self.unit and (length == whole or row < self.rows[-1])

    def is_zero_sum(self, word):
        if any(word[len(self.rows) :]):
            return False
        total = 0
        for code, row in zip(word, self.rows):
            if code:
                total = sums_with(self.book.q, self.book.m, code, row)[total]
        return total == 0

    def is_forbidden(self, word):
        s = self.book.s
        support = sum(1 << i for i in range(s) if word[i])
        blocked = any(word[s:])
        if self.book.resolution is not None:
            most = (self.book.resolution - 1) // 2 if blocked else self.book.resolution - 1
            return (blocked or support > 0) and support.bit_count() <= most
        if blocked:
            return support == 0 or support in self.book.estimate
        return support > 0 and self.is_difference(support)

    def is_difference(self, support):
        """Whether a vector that is not zero at just these factors is such a difference."""
        if support not in self.differences:
            both = self.book.estimate + self.book.others + [0]
            self.differences[support] = any(
                support == a ^ b if self.book.q == 2 else (a ^ b) & ~support == 0 and support & ~(a | b) == 0
                for a in self.book.estimate
                for b in both
            )
        return self.differences[support]

    def pattern(self):
        """The pattern of the prefix."""
        book = self.book
        counts = [weights[0] for weights in self.tally.of(self.rows)[-1]] + [0] * book.s
        return [count // (book.q - 1) for count in counts[1 : book.s + 1]]


class TableWalk(Turns):
    """A walk by the entries of a book of a table, base first."""

    def __init__(self, book):
        super().__init__(book, book.s)
        self.codes = [digits(book.q, book.m, x) for x in range(book.runs)]
        self.units = [book.q**i for i in range(book.m)]
        # The vectors of the base have the numbers below this.
        self.base = book.q**book.h
        # The rows that can come behind unit vectors: normal ones, and no unit vectors.
        self.others = [x for x in range(book.runs) if last_code(self.codes[x]) == 1 and x not in self.units]
        self.sums = Tally(book.q, book.m)
        self.sums_in_groups = Tally(book.q, book.m - book.h)
        self.branch()

    def close(self, line, letter, change):
        """Whether the entry closes the prefix."""
        if letter == "P" and not self.does_not_beat():
            raise Rejected(line, "K5")
        if letter == "I" and not self.has_earlier_image(change):
            raise Rejected(line, "K8")
        if letter == "R" and not self.has_no_room():
            raise Rejected(line, "K10")
        if letter == "F" and not self.cannot_beat():
            raise Rejected(line, "K11")

    # ---- stages

    def stage(self):
        """The first unit vector of the next row's stage and how many it has, and where its rows begin and end."""
        book = self.book
        if len(self.rows) < book.w:
            return 0, book.h, 0, book.w
        return book.h, book.m - book.h, book.w, book.s

    def missing_units(self):
        """How many unit vectors of the stage are still to come."""
        _, units, begin, _ = self.stage()
        return begin + units - len(self.rows)

    def missing(self):
        """How many rows of the stage are still to come."""
        return self.stage()[3] - len(self.rows)

    def later_rows(self):
        """The rows that can still come behind the unit vectors of the stage, rising."""
        first, units, _, _ = self.stage()
        bound = self.rows[-1] if self.missing_units() else self.book.q ** (first + units)
        rows = self.others
        return rows[bisect.bisect_left(rows, self.book.q**first) : bisect.bisect_left(rows, bound)]

    def branch(self):
        """The children wait, the one with the greatest last row first."""
        first, units, _, _ = self.stage()
        to_come = self.missing_units()
        rows = [self.units[first + units - to_come]] if to_come > 0 else self.later_rows()
        self.waiting += [(len(self.rows), row) for row in rows]

    def has_no_room(self):
        return self.missing_units() <= 0 and len(self.later_rows()) < self.missing()

    # ---- images

    def has_earlier_image(self, change):
        """Whether a change keeps the base, and takes the rows to each unit vector, and to rows that are before them."""
        book = self.book
        inside, outside = self.rows[: book.w], self.rows[book.w :]
        low, high = self.units[: book.h], self.units[book.h :]
        forms = [self.codes[a] for a in change]
        in_base = self.moved(forms, low + inside if book.w else range(self.base))
        if not (set(low) <= set(in_base) and set(high) <= set(self.moved(forms, high + outside))):
            return False
        image = self.in_order(low, self.moved(forms, inside)) if book.w else []
        if outside:
            image += self.in_order(high, self.moved(forms, outside))
        return next((a < b for a, b in zip(self.rows, image) if a != b), False)

    def moved(self, forms, rows):
        """What a change makes of rows, as normal rows."""
        book, field = self.book, self.field
        images = []
        for row in rows:
            codes = [field.dot(form, self.codes[row]) for form in forms]
            last = last_code(codes)
            scale = field.times[last].index(1) if last else 1
            images.append(number_of(book.q, [field.times[scale][code] for code in codes]))
        return images

    def in_order(self, units, rows):
        """The unit vectors of a stage, and then in falling order the rows that are none."""
        return units + sorted((row for row in rows if row not in self.units), reverse=True)

    # ---- keys and floors, in which a word and its multiples count each

    def does_not_beat(self):
        return self.book.key is not None and not self.is_less(self.words)

    def cannot_beat(self):
        return self.book.key is not None and self.missing_units() <= 0 and not self.is_less(self.floor)

    def is_less(self, count):
        """Whether what is counted for the entries of the order is less than the key to beat."""
        self.sums.of(self.rows)
        # Only confounded words need these sums, and without a base there are none.
        if self.book.h:
            self.sums_in_groups.of([row // self.base for row in self.rows])
        for part, entry in zip(self.book.order, self.book.key):
            found, most = count(*part), (self.book.q - 1) * entry
            if found != most:
                return found < most
        return False

    @staticmethod
    def counts(tally, weight, total):
        """How many words of a weight have a sum, by the tally of the last row."""
        return tally.tallies[-1][weight][total] if weight < len(tally.tallies) else 0

    def words(self, kind, k):
        """The words of the prefix."""
        if kind == UNCLEAR:
            return self.unclear()
        constant = self.counts(self.sums, k, 0)
        if kind == CONSTANT:
            return constant
        # Words of inside factors alone are not counted.
        inside = min(self.book.w, len(self.rows))
        alone = math.comb(inside, k) * (self.book.q - 1) ** k
        constant_alone = self.sums.tallies[inside][k][0] if k <= inside else 0
        return self.counts(self.sums_in_groups, k, 0) - constant - (alone - constant_alone)

    def new_words(self, kind, k, row):
        """The words that a further row makes with the rows of the prefix."""
        constant = self.counts(self.sums, k - 1, row)
        if kind == CONSTANT:
            return (self.book.q - 1) * constant
        if len(self.rows) < self.book.w:
            return 0
        return (self.book.q - 1) * (self.counts(self.sums_in_groups, k - 1, row // self.base) - constant)

    def floor(self, kind, k):
        """At least so many words each design below the prefix has."""
        if kind == UNCLEAR:
            return self.unclear_floor()
        new = sorted(self.new_words(kind, k, row) for row in self.later_rows())
        return self.words(kind, k) + sum(new[: self.missing()])

    # ---- words of two factors that are not clear

    def ones_and_twos(self):
        """For each sum, how many words of one factor have it, and how many of two."""
        empty = [0] * self.book.runs
        return (self.sums.tallies[-1] + [empty, empty])[1:3]

    def unclear(self):
        ones, twos = self.ones_and_twos()
        return sum(two for x, (one, two) in enumerate(zip(ones, twos)) if x < self.base or one + two > 1)

    def unclear_floor(self):
        """The words that are not clear now; and all that there will be, but for one to each live sum that is left."""
        book = self.book
        ones, twos = self.ones_and_twos()
        live = [x >= self.base and ones[x] == 0 and twos[x] < 2 for x in range(book.runs)]
        words = math.comb(book.s, 2) * (book.q - 1) ** 2
        return max(self.unclear(), words + (book.q - 1) * self.taking(live) - sum(live))

    def taking(self, live):
        """So many of the missing rows, at least, take away their own live sums."""
        if len(self.rows) < self.book.w:
            return self.book.n
        # A design with a less key has no constant words of three factors, where the key begins with none.
        none = self.book.order[0] == (CONSTANT, 3) and self.book.key[0] == 0
        later = self.later_rows()
        spare = sum(not live[row] and not (none and self.new_words(CONSTANT, 3, row)) for row in later)
        return max(0, self.missing() - spare)


def judged(text):
    """The lines of the verdict on a text, and its status."""
    try:
        book = book_of(text)
        walk = TableWalk if isinstance(book, TableBook) else Walk
        walk(book).check()
    except Rejected as rejected:
        return [str(rejected)], 1
    return ["accepted", *book.head], 0


def verdict(stream):
    """Prints the verdict on one book, and returns its status."""
    lines, status = judged(stream.read(MOST_BYTES + 1))
    print(*lines, sep="\n")
    return status


def main(files):
    if not files:
        return verdict(sys.stdin.buffer)
    worst = 0
    for file in files:
        if len(files) > 1:
            print(file)
        with open(file, "rb") as stream:
            worst = max(worst, verdict(stream))
    return worst


if __name__ == "__main__":
    sys.exit(main(sys.argv[1:]))
