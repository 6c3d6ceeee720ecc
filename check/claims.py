"""The claim of an accepted book, in words, from its first four lines (docs/BOOKS.md)."""

MOST_EFFECTS = 12


def some(count, what):
    """So many of something."""
    return f"{count} {what}" + ("" if count == 1 else "s")


def words_of(counts):
    """Those numbers of words that are not 0, after their names."""
    return " ".join(f"{name} {count}" for name, count in counts if count != "0") or "0 throughout"


def effect(number):
    """The effect with this number: X1*X3 is 5."""
    return "*".join(f"X{i + 1}" for i in range(number.bit_length()) if number >> i & 1)


def effects(numbers):
    """A few effects by their factors, or how many there are."""
    return ", ".join(effect(int(it)) for it in numbers) if len(numbers) <= MOST_EFFECTS else some(len(numbers), "effect")


def demand(requirement, blocks):
    """What line 3 of a book asks of a design."""
    if requirement[0] == "resolution":
        most = (int(requirement[1]) - 1) // 2
        clear = "each main effect" if most == 1 else f"each effect of at most {most} factors"
        return f"has resolution {requirement[1]}" + (f" and keeps {clear} clear of blocks" if blocks else "")
    slash = requirement.index("/")
    clear = "estimates together" + (", clear of blocks," if blocks else "") + f" {effects(requirement[1:slash])}"
    others = requirement[slash + 1 :]
    return clear + (f" in the presence of {effects(others)}" if others else "")


def design(levels, factors, runs):
    return f"no regular design with {some(factors, 'factor')} of {levels} levels in {runs} runs"


def claim_of_book(head):
    """The claim of a book of versions 1 and 2."""
    levels, indexes, factors, blocks = map(int, head[1].split()[1:])
    within = f" in {levels**blocks} blocks" if blocks else ""
    subject, asked = design(levels, factors, levels**indexes) + within, demand(head[2].split(), blocks)
    pattern = head[3].split()[1:]
    if pattern == ["none"]:
        return f"{subject} {asked}"
    return f"{subject} that {asked} or more has less aberration than {words_of((f'A{k}', it) for k, it in enumerate(pattern, 1))}"


def names_of_key(order, has_groups, factors):
    """The names of the entries of a key."""
    weights = range(1, factors + 1)
    parts = {
        "FF": [("A", k) for k in weights] + [("B", k) for k in weights],
        "W1": [it for k in weights for it in (("A", 2 * k - 1), ("A", 2 * k), ("B", k))],
        "W2": [it for k in weights for it in (("A", 2 * k - 2), ("A", 2 * k - 1), ("B", k))],
        "SCF": [it for k in weights for it in (("A", k + 1), ("B", k))],
        "CLEAR": [("A", 3), ("not clear", "")] + [("A", k + 3) for k in weights] + [("B", k) for k in weights],
    }[order]
    least = {"A": 3, "B": 2 if has_groups else factors + 1}
    return [f"{kind}{k}" for kind, k in parts if kind not in least or least[kind] <= k <= factors]


def lines_of_table(head):
    """Lines 2 to 4 of a book of a table, those of version 1 as version 2 has them."""
    if head[0] != "factex-table 1":
        return head[1:4]
    _, levels, indexes, factors, _ = head[1].split()
    key = head[3].split()[1:]
    return [f"base {levels} {indexes} 0 0 {factors}", "order FF", " ".join(["key", *(key if key == ["none"] else key[2:])])]


def claim_of_table(head):
    """The claim of a book of a table."""
    base, order, key = (it.split()[1:] for it in lines_of_table(head))
    levels, indexes, dimension, inside, outside = map(int, base)
    subject, groups = design(levels, inside + outside, levels**indexes), levels**dimension
    if inside:
        subject += f" in {groups} whole plots, just {some(inside, 'factor')} constant in each,"
    elif dimension:
        subject += f" in {groups} blocks, each main effect clear of blocks,"
    if key == ["none"]:
        return f"{subject} has resolution 3"
    counts = words_of(zip(names_of_key(order[0], dimension > 0, inside + outside), key))
    if order[0] == "CLEAR" or dimension:
        return f"{subject} has resolution 3 or more and, in the order {order[0]}, a lesser key than {counts}"
    return f"{subject} that has resolution 3 or more has less aberration than {counts}"


def claim_of(head):
    """The lines that say what an accepted book proves."""
    claim = claim_of_table(head) if head[0].startswith("factex-table") else claim_of_book(head)
    return [f"proved: {claim}", "It is the claim of your step only if these are its numbers: a book has no names."]
