"""What the language allows after the beginning of a program text, and which allowed word a misspelt one may be.

For messages alone: the program has its own grammar, which is proved. Texts are read as Latin-1, so that a place is a byte.
"""
import collections
import functools
import re

# A word in capitals is a keyword, `name` any word, `factor` any but an option of OUTPUT; { } is any number, [ ] at most one.
RULES = """
program   = between { PROC FACTEX { NODES '=' n } ';' { statement } [ QUIT ';' between ] } end
between   = { ';' | RUN ';' | QUIT ';' }
statement = ';' | RUN ';' | FACTORS item { item } [ '/' NLEV '=' n ] ';' | SIZE size ';' | MODEL model ';' | BLOCKS blocks ';'
          | EXAMINE { DESIGN | ALIASING | BLOCKED | ABERRATION | CONFOUNDING } ';' | OUTPUT OUT '=' name { option } ';'
          | FOLDOVER { item } ';'
item      = name [ '-' name ]
size      = DESIGN '=' ( n | MINIMUM ) | FRACTION '=' ( n | MAXIMUM ) | NRUNFACS '=' ( n | MINIMUM )
blocks    = NBLKFACS '=' ( n | MAXIMUM ) | NBLOCKS '=' ( n | MAXIMUM ) | SIZE '=' ( n | MINIMUM )
model     = ( ESTIMATE '=' list [ NONNEGLIGIBLE '=' list ] | RESOLUTION '=' ( n | MAXIMUM ) ) [ '/' MINABS ]
list      = '(' effect { effect } ')'
effect    = name '-' name | product { '|' product } [ '@' n ]
product   = name { '*' name }
option    = POINTREP '=' ( n | name ) | DESIGNREP '=' ( n | name ) | RANDOMIZE [ '(' n ')' ] | NOVALRAN
          | BLOCKNAME '=' name [ values ] | factor values | '[' name { name } ']' '=' name [ values ]
values    = NVALS '=' '(' value { value } ')' | CVALS '=' '(' text { text } ')'
value     = [ '-' ] ( n | decimal )
"""
SHORT = {"EST": "ESTIMATE", "E": "ESTIMATE", "NONNEG": "NONNEGLIGIBLE", "N": "NONNEGLIGIBLE", "RES": "RESOLUTION"}
SHORT |= {"R": "RESOLUTION", "MAX": "MAXIMUM", "MIN": "MINIMUM"}
OPTIONS = ["POINTREP", "DESIGNREP", "RANDOMIZE", "NOVALRAN", "BLOCKNAME"]
STATEMENTS = ["PROC", "RUN", "QUIT", "FACTORS", "SIZE", "MODEL", "BLOCKS", "EXAMINE", "OUTPUT", "FOLDOVER"]
# Words of PROC FACTEX that are refused, each beside a word that is allowed in its place.
LEFT_OUT = {"TIME": "NODES", "NOCHECK": "NODES", "NAMELEN": "NODES", "UNITEFFECT": "FACTORS"}
# How messages call what is no keyword and no sign.
CALLED = {"name": "a name", "factor": "a factor", "n": "a number", "decimal": None, "text": "a text in quotes", "end": "the end"}
SPACE = re.compile(r"(?:[ \t\r\n]|/\*.*?\*/)+", re.S)
TOKEN = re.compile(r"(?P<word>[A-Za-z_]\w*)|(?P<number>\d*\.\d+|\d+)|(?P<text>'(?:[^']|'')*'|\"(?:[^\"]|\"\")*\")|(?P<sign>[;=()\[\]/*|@-])", re.A)
Token = collections.namedtuple("Token", "text symbol at")


def alternatives(words, end=None):
    """The alternatives up to a closing bracket, each a tuple of words and of bracketed alternatives."""
    found, now = [], []
    for word in words:
        if word == end:
            break
        if word == "|":
            found.append(tuple(now))
            now = []
        elif word in "{[(":
            now.append((word, alternatives(words, "}])"["{[(".index(word)])))
        else:
            now.append(word.strip("'"))
    return (*found, tuple(now))


def parts():
    """The rules by name."""
    for rule in re.split(r"\n(?=\w)", RULES.strip()):
        name, _, form = rule.partition("=")
        yield name.strip(), alternatives(iter(form.split()))


PARTS = dict(parts())


KEYWORDS = set(re.findall(r"\b[A-Z]+\b", RULES))


def symbol_of(found):
    """The symbol of a token: a keyword, `name`, a sign, or the kind of a number or text."""
    text = found.group()
    if found.lastgroup == "word":
        word = SHORT.get(text.upper(), text.upper())
        return word if word in KEYWORDS else "name"
    if found.lastgroup == "number":
        return "n" if text.isdigit() else "decimal"
    return text if found.lastgroup == "sign" else "text"


def tokens_of(text):
    """The tokens of a text, up to what is none."""
    tokens, at = [], 0
    while at < len(text):
        starts = not tokens or tokens[-1].text == ";"
        if space := SPACE.match(text, at):
            at = space.end()
        elif starts and text[at] == "*":
            at = text.find(";", at) + 1 or len(text)
        elif found := TOKEN.match(text, at):
            tokens.append(Token(found.group(), symbol_of(found), at))
            at = found.end()
        else:
            break
    return tokens


def heads(rest):
    """What may come first of the rest of a form, each with the rest after it."""
    if not rest:
        return
    first, others = rest[0], rest[1:]
    if first in PARTS:
        first = ("(", PARTS[first])
    if isinstance(first, str):
        yield first, others
        return
    kind, forms = first
    for form in forms:
        yield from heads((*form, first, *others) if kind == "{" else (*form, *others))
    if kind != "(":
        yield from heads(others)


def fits(head, symbol):
    """Whether a symbol may stand where the grammar has this."""
    if head in ("name", "factor"):
        return symbol == "name" or symbol.isupper() and (head == "name" or symbol not in OPTIONS)
    return head == symbol


# Places in the grammar, each a set of rests of forms, named by their numbers: the first is the beginning.
PLACES = [frozenset({("program",)})]


@functools.lru_cache(None)
def after(place, symbol):
    """The place after a symbol."""
    rests = frozenset(others for rest in PLACES[place] for head, others in heads(rest) if fits(head, symbol))
    if rests not in PLACES:
        PLACES.append(rests)
    return PLACES.index(rests)


def expected_after(tokens):
    """What is allowed after these tokens, in the order of the rules; nothing where they are not allowed themselves."""
    place = 0
    for token in tokens:
        place = after(place, token.symbol)
    found = {head for rest in PLACES[place] for head, _ in heads(rest)}
    order = re.findall(r"[A-Za-z]+|(?<=')[^' ]+(?=')", RULES)
    return sorted(found, key=lambda it: (it in CALLED or not it.isalpha(), order.index(it)))


def distance(a, b):
    """How many letters have to be added, removed, replaced or exchanged with the next to make b of a."""
    rows = [list(range(len(b) + 1))]
    for i, x in enumerate(a, 1):
        row = [i]
        for j, y in enumerate(b, 1):
            best = min(rows[-1][j] + 1, row[-1] + 1, rows[-1][j - 1] + (x != y))
            if i > 1 and j > 1 and (x, a[i - 2]) == (b[j - 2], y):
                best = min(best, rows[-2][j - 2] + 1)
            row.append(best)
        rows.append(row)
    return rows[-1][-1]


def nearest(word, candidates):
    """The candidates that a misspelt word may be: those that it begins, or else those with fewest changes, if they are few."""
    word = word.upper()
    begun = [it for it in candidates if it.upper().startswith(word)]
    if begun:
        return begun
    changes = {it: distance(word, it.upper()) for it in candidates if len(it) > 1 or word.startswith(it.upper())}
    least = min(changes.values(), default=0)
    return [it for it, count in changes.items() if count == least <= max(1, (len(it) + 1) // 3)]


def keywords_near(word, expected):
    """The keywords that a word may be where these are expected, also in a short form: those that are left out too."""
    full = [it for it in expected if it.isupper() and it.isalpha()]
    full += [it for it, beside in LEFT_OUT.items() if beside in expected]
    short = [it for it, meant in SHORT.items() if meant in expected]
    return list(dict.fromkeys(SHORT.get(it, it) for it in nearest(word, full) or nearest(word, short)))
