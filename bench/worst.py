#!/usr/bin/env python3
"""bench/worst.py PROGRAM [--minutes M] [--first SEED] [--only SEED]: a hunt for the slowest input.

First the worst inputs that are known. Then it draws random inputs of every command at the limits, one a seed: questions, books
and their upgrades, plans to be judged, catalogues, tables, programs of many steps. Each is a whole run of the program, with one
thread, four or 64. Prints what it counts (nodes, entries or bytes), its seconds of processor time, its peak memory and the
bytes of its input; at the end the worst five of each command, and each run above the bounds of docs/PERFORMANCE.md, of which
there have to be none. --only SEED prints the input of one seed and runs it alone. The gate does not run it."""
import argparse, collections, itertools, math, os, random, re, subprocess, sys, tempfile, time

# The greatest m with q^m <= 1,024, and the most factors, for each number of levels q.
GREATEST_M = {2: 10, 3: 6, 4: 5, 5: 4, 7: 3, 8: 3, 9: 3}
MOST_FACTORS = {2: 63, 3: 63, 4: 40, 5: 40, 7: 40, 8: 40, 9: 40}
DEFAULT_NODES = 1_000_000
# What a run may cost: seconds, microseconds for each node, entry or byte that it counts, and megabytes besides 100 bytes a
# node. Each byte of a file that it writes may cost five nanoseconds more.
Bound = collections.namedtuple("Bound", "unit seconds each megabytes")
BOUNDS = {
    "run": Bound("nodes", 2, 20, 250),
    "plan": Bound("steps", 2, 3_000_000, 250),
    "check": Bound("entries", 3, 15, 550),
    "upgrade": Bound("bytes", 2, 1, 550),
    "judge": Bound("bytes", 2, 2, 50),
    "catalogue": Bound("nodes", 2, 20, 150),
    "large": Bound("nodes", 2, 20, 150),
    "tables": Bound("entries", 4, 80_000, 150),
    "check of tables": Bound("entries", 2, 400, 450),
}
# Microseconds for each node of chains: prefixes with one way on, on which no two forbidden vectors have the same codes.
CHAINS = 500
# What a run with several threads may take more than with one.
MORE = 1.5


def product(rng, factors, most):
    """A product of one to `most` random factors."""
    size = min(len(factors), rng.randint(1, most))
    return "*".join(rng.sample(factors, size))


def item(rng, factors, most):
    """A product, a range of main effects, or bars of random factors with a bound on their products."""
    kind = rng.randrange(4)
    if kind == 0 and len(factors) > 1:
        first = rng.randint(1, len(factors) - 1)
        return f"X{first}-X{rng.randint(first + 1, len(factors))}"
    if kind == 1 and len(factors) > 1:
        terms = rng.sample(factors, rng.randint(2, len(factors)))
        return "|".join(terms) + f"@{rng.randint(1, min(most, 3))}"
    if kind == 2:
        terms = [product(rng, factors, 3) for _ in range(rng.randint(2, 5))]
        return "|".join(terms)
    return product(rng, factors, most)


def effects(rng, factors, most):
    return " ".join(item(rng, factors, most) for _ in range(rng.randint(1, 4)))


def model(rng, factors, fixed_size):
    """A MODEL statement, or nothing. The highest resolution and MINABS need a fixed size."""
    kind = rng.choice(["resolution", "maximum", "minabs", "none", "effects", "effects", "effects"])
    if kind == "effects":
        most = rng.choice([2, 3, 4, 6, 10, 20, 63])
        text = f"model estimate=({effects(rng, factors, most)})"
        if rng.random() < 0.5:
            text += f" nonnegligible=({effects(rng, factors, rng.choice([2, 4, 63]))})"
        return text + ";"
    if kind == "resolution" or not fixed_size:
        return f"model resolution={rng.randint(3, rng.choice([4, 6, 12, 99]))};"
    if kind == "maximum":
        return "model resolution=maximum;"
    if kind == "minabs":
        return f"model resolution={rng.choice(['maximum', rng.randint(3, 12)])} / minabs;"
    return ""


def question(rng):
    """The text of a program with one step, and its budget in nodes."""
    levels = rng.choice([2, 2, 2, 3, 3, 4, 5, 7, 8, 9])
    most_factors = rng.choice([5, 10, 20, 40, MOST_FACTORS[levels]])
    count = rng.choice([most_factors, rng.randint(1, most_factors)])
    factors = [f"X{i}" for i in range(1, count + 1)]
    greatest = GREATEST_M[levels]
    m = rng.choice([greatest, rng.randint(1, greatest)])
    fixed_size = rng.random() < 0.9
    size = str(levels**m) if fixed_size else "minimum"
    nodes = rng.choice([None, None, 10_000, 5_000_000])
    head = f"proc factex nodes={nodes};" if nodes else "proc factex;"
    names = "X1" if count == 1 else f"X1-X{count}"
    wanted = model(rng, factors, fixed_size) or ("" if fixed_size else "model resolution=3;")
    return f"{head} factors {names} / nlev={levels}; size design={size}; {wanted} run;", nodes or DEFAULT_NODES


def plan(rng):
    """A plan to be judged, random or with runs of a few values, and its number of levels."""
    levels = rng.choice(list(GREATEST_M))
    names = [f"X{i}" for i in range(1, rng.choice([2, 5, 12, 24, 40]) + 1)]
    rows = rng.choice([levels ** rng.randint(1, GREATEST_M[levels]), rng.randint(1, 4096)])
    values = ["-1", "1"] if levels == 2 else ["-1", "0", "1"] if levels == 3 else [str(x) for x in range(levels)]
    text = ",".join(names) + "\n" + "".join(",".join(rng.choice(values) for _ in names) + "\n" for _ in range(rows))
    return levels, text[: 1 << 20]


def shape(rng, most_runs):
    """Levels, run indexes and factors of a catalogue or table."""
    levels = rng.choice(list(GREATEST_M))
    m = rng.randint(1, max(i for i in range(1, GREATEST_M[levels] + 1) if levels**i <= most_runs))
    return levels, m, rng.randint(m + 1, MOST_FACTORS[levels])


def groups(rng, levels, m, s):
    """Options of a table, its most factors outside the base, and how many lines it has."""
    most = min(MOST_FACTORS[levels], int(120 / math.log2(levels)))
    kind = rng.choice(["none", "blocks", "whole plots"]) if m > 1 else "none"
    h = rng.randint(1, m - 1) if kind != "none" else 0
    inside, more = 0, [f"--order={rng.choice(['FF', 'W1', 'W2', 'SCF', 'CLEAR'])}"]
    if kind == "blocks":
        more.append(f"--blocks={levels**h}")
    elif kind == "whole plots":
        inside = rng.randint(h, min((levels**h - 1) // (levels - 1), most - m + h))
        more += [f"--whole-plots={levels**h}", f"--inside={inside}"]
    first = m - h if h else m + 1
    s = max(first, min(s, most - inside))
    return more, s, s - first + 1


class Run:
    """One run of a program: what it read, how it ended, what it counted, its seconds of processor time and peak memory."""

    def __init__(self, seed, program, words, text, count, threads=1, each=None):
        self.seed, self.words, self.text = seed, words, text
        self.kind = "check of tables" if text.startswith(b"factex-table") else words[0]
        self.threads, self.bound = threads, BOUNDS[self.kind]
        if each:
            self.bound = self.bound._replace(each=each)
        own = words + ([f"--threads={threads}"] if threads > 1 else [])
        self.folder = tempfile.TemporaryDirectory()
        # In a folder of its own, since the program writes books to the current one.
        with tempfile.TemporaryFile() as source, tempfile.TemporaryFile() as listing:
            source.write(text)
            source.seek(0)
            start = time.perf_counter()
            child = subprocess.Popen([program, *own], stdin=source, stdout=listing, stderr=subprocess.DEVNULL, cwd=self.folder.name)
            self.ended, status, peak, self.seconds = wait(child, start + max(120, 20 * self.most_seconds(count)))
            listing.seek(0)
            self.listing = listing.read()
        self.status = os.waitstatus_to_exitcode(status)
        self.written = sum(it.stat().st_size for it in os.scandir(self.folder.name))
        self.megabytes = peak / 1024
        found = [int(it) for it in re.findall(rb"(?:nodes|entries|after) (\d+)", self.listing)]
        self.count = sum(found) if found and self.bound.unit != "bytes" else count

    def most_seconds(self, count):
        return (self.bound.seconds + self.bound.each * 1e-6 * count) * (MORE if self.threads > 1 else 1)

    def is_over(self):
        most_seconds = self.most_seconds(self.count) + 5e-9 * self.written
        most_megabytes = self.bound.megabytes + (100e-6 * self.count if self.bound.unit == "nodes" else 0)
        return not self.ended or self.seconds > most_seconds or self.megabytes > most_megabytes

    def share(self):
        """The part of the bound that it took."""
        return self.seconds / self.most_seconds(self.count)

    def line(self):
        end = f"status {self.status}" if self.ended else "cut off"
        return (f"seed {self.seed:8} {' '.join(self.words):30} {self.threads:2} threads {end:9} {self.count:9} {self.bound.unit:7} "
                f"{self.seconds:8.3f} s {self.megabytes:7.1f} MB {len(self.text):8} bytes  {self.text[:300].decode('latin-1') if self.kind == 'run' else ''}")

    def books(self):
        """The books that it wrote."""
        names = sorted(it for it in os.listdir(self.folder.name) if it.endswith(".book"))
        return [open(os.path.join(self.folder.name, name), "rb").read() for name in names]


def product_of(first, last, sign="*"):
    return sign.join(f"X{i}" for i in range(first, last + 1))


def book_by_effects(most_bytes):
    """A good front of a book with effects: 60 words in turn, each with another row, so that none is known from before."""
    by_size = lambda number: (number.bit_count(), [i for i in range(63) if number >> i & 1])
    pairs = itertools.combinations(range(10, 61), 2)
    estimate = sorted((1 << 62 | 1 << i | 1 << j for i, j in pairs), key=by_size)[:980]
    others = sorted(range(1, 1024), key=by_size)
    lines = ["factex-book 2", "size 2 10 63 0", f"effects {' '.join(map(str, estimate))} / {' '.join(map(str, others))}", "pattern none"]
    lines += [f"O {1 << i}" for i in range(10)] + ["O 1023"] * 51
    turns = itertools.cycle(estimate[-60:])
    for second in range(1023, -1, -1):
        lines.append(f"O {second}")
        for row in range(1023, -1, -1):
            word = next(turns) ^ row
            parts = [f"{i + 1}:1" for i in range(63) if word >> i & 1]
            lines.append(f"W {row} " + (f"#{word}" if len(parts) > 8 else " ".join(parts)))
        if sum(map(len, lines)) > most_bytes:
            return "\n".join([*lines, "END", ""])


def table_of_floors(most_bytes):
    """A book of a table with a floor at each pair of later rows, whose pattern decides nothing before its last weight."""
    units = [1 << i for i in range(10)]
    rows = [row for row in range(1023, 0, -1) if row not in units]
    lines = ["factex-table 1", "size 2 10 63 0", "resolution 3", "pattern " + " ".join(["0"] * 63)] + [f"O {row}" for row in units]
    for first, row in enumerate(rows):
        lines += [f"O {row}"] + [f"F {later}" for later in rows[first + 1 :]]
        if sum(map(len, lines)) > most_bytes:
            return "\n".join([*lines, "END", ""])


def known_runs(factex):
    """The worst inputs that are known, of which each is a seed below 0."""
    pushes = (f"proc factex nodes=100000; factors X1-X21/nlev=3; size design=9; model e=(X1 X19 X20 X21) "
              f"n=({product_of(2, 17, '|')}@2 {product_of(2, 17)} {product_of(2, 18)}); run;")
    free = "".join(f" {product_of(3, 20)}*X{i}" for i in range(21, 37))
    chains = [f"proc factex nodes=20000; factors X1-X37; size design={2 ** m}; model e=({product_of(1, m, '|')}) "
              f"n=({product_of(21, 36, '|')} X37 X37*X1{more}); run;" for m, more in ((2, ""), (2, free), (3, ""), (4, ""))]
    chains.append(f"proc factex nodes=20000; factors X1-X28; size design=4; model e=(X1|X2) n=({product_of(11, 18, '|')}|"
                  f"{product_of(20, 27, '|')} X28 X28*X1); run;")
    pairs = f"proc factex; factors X1-X40; size design=1024; model e=({product_of(1, 40, '|')}@2); run;"
    drawn = ("proc factex nodes=200000; factors X1-X63/nlev=3; size design=729; model e=(X1-X19 X49*X17*X7*X29*X21*X59) n=(X57|X5|X40|"
             "X35|X22|X29|X21|X54|X31|X1|X46|X60|X63|X28|X13|X44|X25|X14|X24|X33|X4|X23|X18@2 X38 X53*X21*X47*X63*X1*X49*X57*X52*X37*"
             "X51*X9*X26*X3); run;")
    lots = "proc factex nodes=5000000; factors X1-X14; size design=1024; model resolution=maximum / minabs; run;"
    value = "'" + product_of(1, 10, "|") + "x" * 1_048_000 + "'"
    long = f"proc factex; factors X1-X10 A; size design=1024; model e=({product_of(1, 10, '|')}) n=(A); output out=a A cvals=({value} 'y'); run;"
    yield Run(-1, factex, ["run"], pushes.encode(), 100_000)
    for text in chains:
        yield Run(-2, factex, ["run"], text.encode(), 20_000, each=CHAINS)
    for threads in (1, 64):
        yield Run(-3, factex, ["run"], drawn.encode(), 200_000, threads)
    for text, nodes in ((lots, 5_000_000), (pairs, 1_000_000)):
        yield Run(-4, factex, ["run"], text.encode(), nodes, 64)
    yield Run(-5, factex, ["run"], long.encode()[: 1 << 20], 0)
    for seed, book in ((-6, book_by_effects(1_000_000)), (-7, table_of_floors(335_000))):
        yield Run(seed, factex, ["check"], book.encode(), book.count("\n"))


def rules(rng):
    """A text with steps and rules before them, and their number."""
    steps = rng.choice([1, 1, 1, 3, 100])
    text = ""
    for _ in range(steps):
        levels = rng.choice(list(GREATEST_M))
        m = rng.choice([GREATEST_M[levels], rng.randint(1, GREATEST_M[levels])])
        blocks = rng.choice([0, 0, 1, m])
        s = rng.randint(m, 30 if blocks else MOST_FACTORS[levels])
        powers = lambda: "*".join(f"X{i}{rng.choice(['', f'^{levels - 1}'])}" for i in range(1, m + 1) if rng.random() < 0.7) or "0"
        given = [f"X{i}={powers()}" for i in range(m + 1, s + 1)] + [f"[{k}]={powers()}" for k in range(1, blocks + 1)]
        factors = [f"X{i}" for i in range(1, s + 1)]
        wanted = rng.choice(["", model(rng, factors, False), model(rng, factors, False)])
        parting = rng.choice([" ", " ", " ", "\n" * rng.choice([1, 20])])
        text += f"rules {parting.join(given) or 'none'}\nproc factex; factors X1-X{s} / nlev={levels}; size design={levels**m}; "
        text += f"blocks nblocks={levels**blocks}; " if blocks else ""
        text += f"{wanted} {rng.choice(['', 'examine aliasing;', 'examine blocked aliasing aberration;'])}\n"
    return text, steps


def runs_of(seed, factex):
    """The runs of one seed."""
    rng = random.Random(seed)
    threads = rng.choice([1, 1, 1, 4, 64])
    kind = rng.choice(["run"] * 6 + ["plan", "judge", "catalogue", "large", "tables", "tables"])
    if kind == "run":
        text, nodes = question(rng)
        first = Run(seed, factex, ["run"], text.encode(), nodes, threads)
        books = first.books()
        yield first
        for book in books[:1]:
            if len(book) < 30_000_000:
                yield Run(seed, factex, ["check"], book, book.count(b"\n"))
                yield Run(seed, factex, ["upgrade"], book, len(book))
    elif kind == "plan":
        text, steps = rules(rng)
        yield Run(seed, factex, ["plan"], text.encode(), steps)
    elif kind == "judge":
        levels, text = plan(rng)
        yield Run(seed, factex, ["judge", str(levels)], text.encode(), len(text))
    elif kind == "large":
        yield Run(seed, factex, ["large", str(rng.randint(1, 100))], b"", 100 * DEFAULT_NODES, threads)
    else:
        levels, m, s = shape(rng, 1024)
        nodes = rng.choice([1, 20, 1000, 100_000]) if kind == "catalogue" else rng.choice([1, 5, 20, 100])
        words = [kind, str(levels), str(m), str(s), f"--nodes={nodes}"]
        lines = s - m
        if kind == "tables":
            threads = 1
            more, s, lines = groups(rng, levels, m, s)
            words = [kind, str(levels), str(m), str(s), *more, f"--nodes={nodes}"]
        first = Run(seed, factex, words, b"", nodes * lines, threads)
        books = first.books()
        yield first
        for book in books[-1:]:
            yield Run(seed, factex, ["check"], book, book.count(b"\n"))


def wait(child, deadline):
    """Waits for the child, and kills it at the deadline. Returns whether it ended, its status, its peak memory in KB and its
    processor time. The memory is read while it runs: what the system keeps at its end counts the memory of this script, from
    which it was started."""
    peak = 0
    while time.perf_counter() < deadline:
        peak = peak_memory(child.pid) or peak
        pid, status, usage = os.wait4(child.pid, os.WNOHANG)
        if pid:
            child.returncode = 0
            return True, status, peak, usage.ru_utime + usage.ru_stime
        time.sleep(0.0005)
    child.kill()
    _, status, usage = os.wait4(child.pid, 0)
    child.returncode = 0
    return False, status, peak, usage.ru_utime + usage.ru_stime


def peak_memory(pid):
    """The most memory that a running process has had, in KB, or None."""
    try:
        with open(f"/proc/{pid}/status") as status:
            found = re.search(r"VmHWM:\s+(\d+)", status.read())
    except OSError:
        return None
    return int(found.group(1)) if found else None


def report(runs):
    over = [run for run in runs if run.is_over()]
    print(f"\n{len(runs)} runs, load {os.getloadavg()[0]:.1f}")
    for kind in BOUNDS:
        own = [run for run in runs if run.kind == kind]
        print(f"{kind}: {len(own)} runs; the nearest to the bound in seconds, and the greatest:")
        for run in sorted(own, key=Run.share, reverse=True)[:5] + sorted(own, key=lambda it: it.megabytes, reverse=True)[:1]:
            print(run.line())
    print(f"above the bounds: {len(over)}")
    for run in over:
        print(run.line())
    return 1 if over else 0


def main():
    parser = argparse.ArgumentParser(description=__doc__.split("\n\n")[0])
    parser.add_argument("program")
    parser.add_argument("--minutes", type=float, default=10)
    parser.add_argument("--first", type=int, default=1, help="the first seed")
    parser.add_argument("--only", type=int, help="run the input of this seed alone")
    arguments = parser.parse_args()
    program = os.path.abspath(arguments.program)
    if arguments.only is not None:
        for run in runs_of(arguments.only, program):
            print(run.line(), run.text.decode("latin-1"), sep="\n")
        return 0
    runs, end = [], time.perf_counter() + 60 * arguments.minutes
    seeds = itertools.takewhile(lambda _: time.perf_counter() < end, itertools.count(arguments.first))
    for run in itertools.chain(known_runs(program), itertools.chain.from_iterable(runs_of(it, program) for it in seeds)):
        # Kept for the report without its files.
        run.folder.cleanup()
        runs.append(run)
        print(run.line(), flush=True)
    return report(runs)


sys.exit(main())
