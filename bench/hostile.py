#!/usr/bin/env python3
"""Random inputs of every command: bench/hostile.py PROGRAM [--seconds N] [--seed N] [--keep FOLDER]

Each input is a command line, a program text, rules before its steps, a book, an upgrade, a plan to judge or a catalogue,
right or with small faults.
For each the program has to end in time (processor time below 2 s and two microseconds a node of its budgets), with status
0 to 3, as nothing refuses it memory or files, and with nothing on standard error. One thread and four have to give the same
bytes, files and status; the files have to be those of the listing, and as long; books have to be accepted by `check` and by
check/check_book.py, which have to agree on every changed book, too; plans have to be judged regular; what `judge` counts has
to be what is counted here, and so has the head of a design that rules give; the rules of a listing have to give its design; a table has to have the patterns of the catalogue, and of its own rules. An input that fails is
kept in the folder, by default hostile-failures, with its words. The same seed gives the same inputs, until the time ends.
Prints the counts by kind; ends with status 1 if anything failed. The gate does not run it."""
import argparse, collections, csv, io, itertools, math, os, random, re, signal, subprocess, sys, tempfile

sys.path.insert(0, os.path.join(os.path.dirname(os.path.dirname(os.path.abspath(__file__))), "check"))
import changed_books, check_book, rules

# The greatest m with q^m <= 1,024, for each number of levels q.
GREATEST_M = {2: 10, 3: 6, 4: 5, 5: 4, 7: 3, 8: 3, 9: 3}
# The most work that the checker in Python is given, some seconds of it.
MOST_WORK = 500_000
Done = collections.namedtuple("Done", "status listing files seconds errors")


class Failure(Exception):
    """What the program did wrong."""


# ---- the program


class Program:
    """Runs of the program: their number, and the most processor time for each command."""

    def __init__(self, path):
        self.path, self.count, self.slowest = os.path.abspath(path), 0, collections.Counter()
        # Each run has the same folder and streams, emptied: making new ones takes longer than most runs.
        self.folder = tempfile.TemporaryDirectory()
        self.streams = [tempfile.TemporaryFile(buffering=0) for _ in range(3)]

    def run(self, words, text=b"", nodes=0, statuses=(0, 1, 2, 3)):
        limit = 2 + 2e-6 * nodes
        for stream in self.streams:
            stream.seek(0)
            stream.truncate()
        source, listing, errors = self.streams
        source.write(text)
        source.seek(0)
        child = subprocess.Popen([self.path] + words, stdin=source, stdout=listing, stderr=errors, cwd=self.folder.name)
        # The machine may be busy: what is judged is processor time, and a run is cut off late.
        signal.signal(signal.SIGALRM, lambda *_: os.kill(child.pid, signal.SIGKILL))
        signal.setitimer(signal.ITIMER_REAL, 100 * limit)
        _, status, usage = os.wait4(child.pid, 0)
        signal.setitimer(signal.ITIMER_REAL, 0)
        child.returncode = os.waitstatus_to_exitcode(status)
        listing.seek(0)
        errors.seek(0)
        done = Done(child.returncode, listing.read(), self.take_files(), usage.ru_utime + usage.ru_stime, errors.read())
        self.count += 1
        kind = words[0] if words and isinstance(words[0], str) and words[0] in COMMANDS else "words"
        self.slowest[kind] = max(self.slowest[kind], done.seconds)
        # Four threads may walk a quarter more than one.
        need(done.seconds < (1.3 if "--threads=4" in words else 1) * limit, f"{words}: {done.seconds:.2f} s for {nodes} nodes")
        need(done.status in statuses, f"{words}: status {done.status}")
        need(not done.errors, f"{words}: on standard error {done.errors[:200]}")
        return done

    def take_files(self):
        """The files of the folder, which are then gone."""
        files = {}
        for name in os.listdir(self.folder.name):
            path = os.path.join(self.folder.name, name)
            with open(path, "rb") as file:
                files[name] = file.read()
            os.remove(path)
        return files


def need(holds, what):
    if not holds:
        raise Failure(what)


def need_refusal(done, form):
    """One line of this form, and no file, exactly with status 3."""
    line = re.fullmatch(rb"factex: " + form + rb"\n", done.listing)
    need((done.status == 3) == bool(line) and not (line and done.files), f"status {done.status}: {done.listing[:100]}")
    return bool(line)


# ---- words

COMMANDS = ["run", "plan", "check", "upgrade", "judge", "catalogue", "make", "large"]


def random_word(rng):
    number = rng.choice(["", "0", "00", "1", "2", "3", "8", "9", "64", "65", "100", "101", "1024", "5000001", "1" * 20,
                         "1" * 21,
                         "18446744073709551615", "18446744073709551616", "-1", "+1", "1 ", "0x1", "1e3", "\u0661"])
    return rng.choice([rng.choice(COMMANDS), number,
                       f"--{rng.choice(['threads', 'seed', 'nodes', 'Seed', 'node', ''])}={number}",
                       "--threads", "--", "-", "", "RUN", "run ", "--help",
                       "x" * rng.choice([40, 5000]), "\u00e4", "a\nb", "--seed=1=2"])


def try_words(program, rng, _):
    words = [rng.choice(COMMANDS)] if rng.random() < 0.8 else []
    words += [random_word(rng) for _ in range(rng.choice([0, 1, 1, 2, 3, 4, 30]))]
    if words and rng.random() < 0.1:
        words[rng.randrange(len(words))] = bytes([rng.choice(b"r-1"), rng.randrange(128, 256)])
    text = rng.choice([b"", b"proc factex; factors A B C; size design=4; output out=a; run;", b"A,B\n1,1\n-1,1\n", b"\xff\n"])
    yield words, text
    if any(isinstance(word, bytes) for word in words):
        done = program.run(words, text, statuses=(6,))
        need(not done.listing and not done.files, "status 6 with output")
        return
    # A catalogue has a line for each number of factors, at most 63, of 1,000,000 nodes or of those that are asked for.
    done = program.run(words, text, nodes=63 * 5_000_000)
    if done.listing.startswith(b"factex: C"):
        need(done.status == 3 and not done.files, f"status {done.status}: {done.listing[:100]}")
        place = re.fullmatch(rb"factex: C[1-6] word (\d+)\n", done.listing)
        need(place and 1 <= int(place.group(1)) <= len(words) + 1, f"{done.listing[:100]}")


def try_make(program, rng, _):
    count = str(rng.choice([1, 2, 3, 5, 9, rng.randint(1, 30)]))
    yield ["make", count], b""
    text = program.run(["make", count], statuses=(0,)).listing
    listing = run_both(program, ["run"], text, int(count) * 1_000_000).listing
    nodes = sum(int(n) for n in re.findall(rb"^(?:nodes|budget ended after) (\d+)", listing, re.M))
    wanted = [int(count), len(re.findall(rb"^design", listing, re.M)), len(re.findall(rb"^no design", listing, re.M)),
              len(re.findall(rb"^budget", listing, re.M)), nodes]
    large = run_both(program, ["large", count], b"", int(count) * 1_000_000).listing
    if b"not proved best" not in listing:
        need([int(n) for n in re.findall(rb"\d+", large)] == wanted, f"large: {large}, run: {wanted}")


# ---- program texts


class Plan:
    """What is known of an OUTPUT statement: its OUT name, levels, columns, rows, and whether `judge` can read it."""

    def __init__(self, name, q, columns, rows, is_plain):
        self.name, self.q, self.columns, self.rows, self.is_plain = name, q, columns, rows, is_plain


def effect(rng, names, q):
    return "*".join(rng.sample(names, min(len(names), rng.choice([1, 1, 2, 2, 3, 5] if q < 5 else [1, 1, 1, 2, 2, 3]))))


def effects(rng, names, is_range, q):
    items = []
    for _ in range(rng.randint(1, 4)):
        kind = rng.randrange(5)
        if kind == 0 and is_range:
            items.append(f"{names[0]}-{names[-1]}")
        elif kind == 1:
            items.append("|".join(rng.sample(names, min(len(names), rng.randint(1, 5 if q < 5 else 3))))
                         + rng.choice(["", "@1", "@2", "@3"]))
        elif kind == 2:
            items.append("|".join(effect(rng, names, q) for _ in range(rng.randint(1, 3))))
        else:
            items.append(effect(rng, names, q))
    return " ".join(items)


def values(rng, count):
    if rng.random() < 0.5:
        numbers = ["1", "0", ".5", "07", "12.25", "-1", "-0", "-3.50", "1" * 38]
        return "nvals=(" + " ".join(rng.choice(numbers) for _ in range(count)) + ")"
    texts = ["'a'", "'b, c'", '"it\'s"', "'x''y'", "'\"'", "''", "'\n'", "'\r'", "'\xe4'"]
    return "cvals=(" + " ".join(rng.choice(texts) for _ in range(count)) + ")"


def output(rng, q, m, names, blocks, plans, number):
    """An OUTPUT statement, and what is known of it. In one of ten it may be refused. With blocks these are their number."""
    is_wild = rng.random() < 0.1
    rows, columns, plain, words = q**m, list(names) + ["BLOCK"] * bool(blocks), not blocks, []
    for option in ("pointrep", "designrep"):
        kind = rng.random()
        taken = {name.lower() for name in columns}
        free = [plan for plan in plans if is_wild or not taken.intersection(name.lower() for name in plan.columns)]
        if free and kind < 0.5:
            named = rng.choice(free)
            words.append(f"{option}={rng.choice([named.name, named.name.upper()])}")
            rows, plain = rows * named.rows, plain and named.is_plain and named.q == q
            columns = columns + named.columns
        elif kind > 0.8:
            n = rng.choice([1, 2, 3, 7])
            words.append(f"{option}={n}")
            rows *= n
    if rng.random() < 0.3:
        words += [rng.choice(["randomize", f"randomize({rng.choice([0, 7, 2**64 - 1])})"])] + ["novalran"] * rng.randint(0, 1)
        plain = False
    if blocks and (blocks < 100 or is_wild) and rng.random() < 0.4:
        words.append("blockname=Day" + str(number) + rng.choice(["", " " + values(rng, 2 if is_wild else blocks)]))
    inside = set()
    if len(names) > 1 and rng.random() < 0.25:
        for k in range(rng.randint(1, 2)):
            free = [name for name in names if name not in inside]
            if len(free) > 1 and (q < 9 or is_wild):
                most = 4 if is_wild else max(k for k in (1, 2, 3, 4) if q**k <= 64)
                taken = rng.sample(free, min(len(free), most, rng.choice([2, 2, 3, 4])))
                inside.update(taken)
                words.append(f"[{' '.join(taken)}]=D{number}{k}" + rng.choice(["", " " + values(rng, q ** len(taken))]))
                plain = False
    for name in names:
        if name not in inside and rng.random() < 0.1:
            words.append(f"{name} {values(rng, q)}")
            plain = False
    rng.shuffle(words)
    name = f"P{number}"
    if rows > 200_000 and not is_wild:
        return f"output out={name}", Plan(name, q, list(names) + ["BLOCK"] * bool(blocks), q**m, not blocks)
    return f"output out={name} {' '.join(words)}", Plan(name, q, columns, rows, plain)


def step(rng, number, plans):
    """The statements of a step, its budget, and the plans that it asks for."""
    q = rng.choice([2, 2, 2, 2, 3, 3, 4, 5, 7, 8, 9])
    m = rng.randint(1, rng.choice([3, 4, GREATEST_M[q]]))
    m = min(m, GREATEST_M[q])
    count = rng.randint(1, rng.choice([4, 6, 10, 16, 30, 63 if q < 4 else 40]))
    nodes = rng.choice([1, 2, 5, 20, 100, 500, 2000, 2000, 5000, 20000, None if rng.random() < 0.1 else 1000])
    stem = rng.choice(["X", f"S{number}_", f"S{number}_", "Abc", "x"])
    is_range = rng.random() < 0.7
    names = [f"{stem}{i}" for i in range(1, count + 1)] if is_range or count > 8 else rng.sample("ABCDFGHIJKLM", count)
    listed = f"{names[0]}-{names[-1]}" if is_range or count > 8 else " ".join(names)
    statements = [f"factors {listed}" + (f" / nlev={q}" if q > 2 or rng.random() < 0.1 else "")]
    fixed = rng.random() < 0.85
    statements.append(rng.choice([f"size design={q**m}", f"size nrunfacs={m}"]) if fixed
                      else rng.choice(["size design=minimum", "size fraction=max", "size nrunfacs=min"]))
    kind = rng.choice(["resolution", "maximum", "minabs", "none", "effects", "effects"])
    blocks = rng.random() < 0.25 and count <= 30 and kind != "minabs"
    if not fixed and kind in ("maximum", "minabs", "none"):
        kind = "resolution"
    if kind == "effects":
        statements.append(f"model {rng.choice(['estimate', 'e', 'est'])}=({effects(rng, names, is_range, q)})"
                          + (f" nonneg=({effects(rng, names, is_range, q)})" if rng.random() < 0.4 else ""))
    elif kind != "none":
        r = rng.randint(3, rng.choice([4, 5, 7, 12, 99]))
        asked = "maximum" if kind == "maximum" else rng.choice([r, "max"]) if kind == "minabs" else r
        statements.append(f"model resolution={asked}" + (" / minabs" if kind == "minabs" else ""))
    if blocks:
        t = rng.randint(1, m) if m > 1 else 1
        most = ["blocks nblocks=maximum", "blocks size=min"] if kind in ("resolution", "effects") and fixed else []
        statements.append(rng.choice([f"blocks nblkfacs={t}", f"blocks nblocks={q**t}", f"blocks size={q**(m - t)}"] + most))
        # The number of blocks, where it is given: a BLOCKNAME may have values.
        blocks = q**t if fixed and "max" not in statements[-1] and "min" not in statements[-1] else 1000
    if rng.random() < 0.5:
        sections = ["design", "aliasing", "blocked", "aberration", "confounding"]
        statements.append("examine " + " ".join(rng.sample(sections, rng.randint(1, 4))))
    if q == 2 and not blocks and rng.random() < 0.25:
        statements.append("foldover " + rng.choice(["", " ".join(rng.sample(names, rng.randint(1, min(count, 4)))), listed]))
    rest = statements[1:]
    rng.shuffle(rest)
    for _ in range(rng.choice([0, 0, 1, 1, 2, 3])):
        text, plan = output(rng, q, GREATEST_M[q] if not fixed else m, names, blocks, plans, len(plans) + 1)
        plans.append(plan)
        rest.append(text)
    head = "proc factex" + (f" nodes={nodes}" if nodes else "")
    return [head, statements[0]] + rest + ["run"], nodes or 1_000_000


def program_text(rng):
    """A text, the sum of its budgets and its plans."""
    plans, budget, statements = [], 0, []
    for number in range(1, rng.choice([1, 1, 1, 2, 3, 5, 12]) + 1):
        more, nodes = step(rng, number, plans)
        statements += more
        budget += nodes
    gap = rng.choice(["\n", " ", "\r\n", "\t", " /* note; */ ", "\n* note 'x;\n"])
    text = ";".join(statement + rng.choice(["", "", " "]) for statement in statements)
    text = re.sub(r";", lambda found: ";" + (gap if rng.random() < 0.7 else "\n"), text) + ";\n"
    if rng.random() < 0.2:
        text = "".join(c.upper() if rng.random() < 0.5 else c for c in text)
    return text.encode("latin-1"), budget, plans


TOKEN = re.compile(rb"[A-Za-z_]\w*|[0-9.]+|'[^']*'|\"[^\"]*\"|\s+|.", re.S)
WORDS = [b"factex", b"proc", b"run", b"quit", b"size", b"model", b"blocks", b"factors", b"output", b"examine", b"foldover",
         b"max",
         b"min", b"minabs", b"=", b"(", b")", b"[", b"]", b"@", b"|", b"*", b"/", b"-", b";", b"0", b"1", b"2", b"99", b"1024",
         b"X1",
         b"nvals", b"randomize", b"pointrep", b"out", b"P1", b"9" * 39, b"a" * 33, b"'", b"/*", b"uniteffect"]


def with_faults(rng, text, split=TOKEN.findall, others=WORDS):
    """The text with one to three small faults."""
    for _ in range(rng.choice([1, 1, 1, 2, 3])):
        parts = split(text)
        if not parts:
            return text + b"?"
        i, j = rng.randrange(len(parts)), rng.randrange(len(parts))
        kind = rng.randrange(9)
        if kind == 0:
            del parts[i]
        elif kind == 1:
            parts.insert(i, parts[i])
        elif kind == 2:
            parts[i], parts[j] = parts[j], parts[i]
        elif kind == 3:
            parts[i : i + 2] = reversed(parts[i : i + 2])
        elif kind == 4:
            parts[i] = rng.choice(others)
        elif kind == 5:
            parts.insert(i, rng.choice(others))
        elif kind == 6:
            change = rng.choice([-1, 1, 7, 1000, 10**20])
            parts[i] = re.sub(rb"\d+", lambda found: b"%d" % max(0, int(found.group()[:50]) + change), parts[i])
        elif kind == 7 and rng.random() < 0.3:
            del parts[i:]
        text = b"".join(parts)
        if kind == 8 and text:
            at = rng.randrange(len(text))
            byte = rng.choice([0, 9, 10, 13, 32, 34, 39, 59, 127, 128, 255, rng.randrange(256)])
            text = text[:at] + bytes([byte]) + text[at + rng.randint(0, 1) :]
    return text


def run_both(program, words, text, nodes):
    """The run with one thread, which has to be that with four."""
    one = program.run(words, text, nodes)
    four = program.run(words + ["--threads=4"], text, nodes)
    need(one[:3] == four[:3], f"{words}: four threads differ: {one.status} {four.status}")
    return one


def rows_of(plan):
    if b'"' not in plan:
        return plan.count(b"\n") - 1
    return sum(1 for row in csv.reader(io.StringIO(plan.decode("latin-1"), newline="")) if row) - 1


def check_run(program, rng, words, text, nodes, plans, pool):
    done = run_both(program, words, text, nodes)
    if need_refusal(done, rb"[LE]\d+ \d+:\d+ [^\n]+"):
        return "refused"
    listing = done.listing
    ended = re.search(rb"^budget ended|not proved best$", listing, re.M)
    none = re.search(rb"^no design", listing, re.M)
    need(done.status == (2 if ended else 1 if none else 0), f"status {done.status} for its listing")
    books = re.findall(rb"^book (\S+)$", listing, re.M)
    outputs = re.findall(rb"^output (\S+) (\d+) rows", listing, re.M)
    listed = sorted(books + [name for name, _ in outputs])
    need(sorted(name.encode() for name in done.files) == listed, "files differ from the listing")
    for name, rows in outputs:
        plan = done.files[name.decode()]
        need(rows_of(plan) == int(rows), f"{name.decode()} has not {rows.decode()} rows")
    for name in books:
        check_written(program, rng, done.files[name.decode()], pool)
    for plan in plans:
        check_plan(program, plan, done.files.get(plan.name.lower() + ".csv"), pool)
    return f"status {done.status}"


def check_plan(program, plan, text, pool):
    """A plan of default values without blocks and derived factors has to be judged regular."""
    s, q = len(plan.columns), plan.q
    if not plan.is_plain or text is None or s > 40 or s + s * (s - 1) // 2 * (q - 1) > 300:
        return
    if len(text) > 2**20 or rows_of(text) > 4096:
        return
    done = program.run(["judge", str(q)], text)
    need(done.status == 0 and b"\nregular\n" in done.listing, f"{plan.name} is not regular: {done.status} {done.listing[:100]}")
    pool.counts["plans judged regular"] += 1
    if len(text) < 20_000:
        pool.plans[rng_place(pool, pool.plans)] = (q, text)


# ---- rules before steps


def steps_of(listing):
    """The lines of each step of a listing from `rules` on, without those that name books, and without marks."""
    for step in re.split(rb"^(?=step \d+$)", listing, flags=re.M)[1:]:
        lines = step.split(b"\n")
        if b"rules" not in lines:
            yield None
            continue
        yield [line.removesuffix(b" = blocks") for line in lines[lines.index(b"rules") :] if not line.startswith(b"book ")]


def try_way_back(program, rng, pool):
    """The rules that `run` prints, before its steps, give the same rules, sections and files under `plan`."""
    text, budget, _ = program_text(rng)
    yield ["run"], text
    searched = program.run(["run"], text, budget)
    steps = list(steps_of(searched.listing))
    pieces = re.split(rb"(?i)(?=\bproc\s+factex\b)", text)
    if not steps or None in steps or len(pieces) != len(steps) + 1:
        return
    rules = [b"\n".join(itertools.takewhile(lambda line: line == step[0] or line.startswith(b"  "), step)) for step in steps]
    both = pieces[0] + b"".join(b"\n" + rule + b"\n" + piece for rule, piece in zip(rules, pieces[1:]))
    given = program.run(["plan"], both)
    if re.match(rb"factex: (P10|E25) ", given.listing):
        return
    need(given.status < 2, f"plan ends with {given.status}: {given.listing[:100]}")
    need(list(steps_of(given.listing)) == steps, "plan lists another design than run")
    files = {name: content for name, content in searched.files.items() if not name.endswith(".book")}
    need(given.files == files, "plan writes other files than run")
    pool.counts["listings read back by plan"] += 1


def random_rules(rng):
    """Levels, run indexes, factors and block factors of a small design, with the product of each that has a rule."""
    q = rng.choice([2, 2, 2, 3, 3, 4, 5, 7, 8, 9])
    m = rng.randint(1, 2 if q > 5 else 3 if q > 2 else 5)
    s, t = rng.randint(1, 7 if q < 4 else 5), rng.choice([0, 0, 1, 1, 2])
    rows, firsts = [], []
    for place in range(s + min(t, m)):
        if len(firsts) < m and rng.random() < (0.7 if len(firsts) < place + 1 else 0.3):
            firsts.append(place)
            rows.append(None)
        else:
            rows.append([(index + 1, rng.randrange(1, q)) for index in range(len(firsts)) if rng.random() < 0.6])
    return q, m, s, rows, firsts


def words_here(q, runs, s):
    """How many vectors of each weight over s factors are constant over runs of a group, by the weights of its runs."""
    weights = collections.Counter(sum(level != 0 for level in run[:s]) for run in runs)
    term = lambda k, j: sum((-1) ** i * (q - 1) ** (k - i) * math.comb(j, i) * math.comb(s - j, k - i) for i in range(k + 1))
    return [sum(n * term(k, j) for j, n in weights.items()) // len(runs) // (q - 1) for k in range(1, s + 1)]


def level(q, run, rule):
    """The level of a factor at a run, by its rule: run indexes, counted from 1, with their codes."""
    found = 0
    for index, code in rule:
        found = rules.add(q, found, rules.times(q, run[index - 1], code))
    return found


def clear_here(q, runs, s):
    """How many factors, and how many components of two factors of how many, are clear over these runs."""
    negative = [next(b for b in range(q) if rules.add(q, a, b) == 0) for a in range(q)]
    vectors = [{i: 1} for i in range(s)] + [{i: c, j: 1} for j in range(s) for i in range(j) for c in range(1, q)]
    value = lambda vector, run: level(q, run, [(i + 1, c) for i, c in vector.items()])
    columns = [tuple(value(vector, run) for run in runs) for vector in vectors]
    # Two are aliased where a multiple of the one is the other up to a constant; all are 0 in the first run.
    alike = lambda a, b: any(all(rules.times(q, c, x) == y for x, y in zip(a, b)) for c in range(1, q))
    blocks = collections.defaultdict(list)
    for run in runs:
        blocks[run[s:]].append(run)
    clear = [0, 0]
    for u, (vector, column) in enumerate(zip(vectors, columns)):
        lost = all(len({value(vector, run) for run in block}) == 1 for block in blocks.values())
        if not lost and not any(alike(column, other) for v, other in enumerate(columns) if v != u):
            clear[len(vector) - 1] += 1
    return clear[0], clear[1], len(vectors) - s


def try_rules(program, rng, pool):
    """Random rules: the head of their listing has to be what is counted here over the runs."""
    q, m, s, rows, firsts = random_rules(rng)
    name = lambda place: f"X{place + 1}" if place < s else f"[{place - s + 1}]"
    power = lambda index, code: name(firsts[index - 1]) + (f"^{code}" if code > 1 else "")
    product = lambda row: "*".join(power(*it) for it in row) or "0"
    parts = [f"{name(place)} = {product(row)}" for place, row in enumerate(rows) if row is not None]
    parts += [f"{name(place)} = run factor {number + 1}" for number, place in enumerate(firsts) if place >= s and rng.random() < 0.5]
    parts.sort(key=lambda part: [name(place) for place in range(len(rows))].index(part.split(" ")[0]))
    blocks = f"blocks nblocks={q ** (len(rows) - s)};" if len(rows) > s else ""
    model = rng.choice(["", "model resolution=max;", "model resolution=3;", f"model resolution={rng.randint(3, 9)};",
                        "model estimate=(X1);", f"model estimate=(X1{'|X2' if s > 1 else ''});"])
    text = f"rules {' '.join(parts) or 'none'}\nproc factex; factors X1-X{s} / nlev={q}; size design={q**m}; {blocks} {model} run;\n"
    yield ["plan"], text.encode()
    listing = program.run(["plan"], text.encode(), statuses=(0, 1)).listing.decode()
    numbers = iter(range(1, m + 1))
    rows = [[(next(numbers), 1)] if row is None else row for row in rows]
    runs = [tuple(level(q, run, row) for row in rows) for run in itertools.product(range(q), repeat=m)]
    factors, pairs, all_pairs = clear_here(q, runs, s)
    kind = "interactions" if q == 2 else "components"
    need(f"\nclear {factors} of {s} factors, {pairs} of {all_pairs} two-factor {kind}\n" in listing, "other counts of what is clear")
    words = words_here(q, runs, s)
    first = next((k + 1 for k, n in enumerate(words) if n), None)
    need(f"\nresolution {first}\n" in listing if first else "\nno defining words\n" in listing, f"the resolution is {first}")
    if len(rows) > s:
        inside = words_here(q, [run for run in runs if not any(run[s:])], s)
        lost = "".join(f" B{k + 1} {n - words[k]}" for k, n in enumerate(inside) if n > words[k]) or " none"
        need(f"\nconfounded with blocks{lost}\n" in listing, f"confounded with blocks are{lost}")
    if r := re.search(r"resolution=(\d)", model):
        meets = not any(words[: int(r[1]) - 1]) and len(rows) == s
        if len(rows) > s:
            return
        need(("\nmeets the model\n" if meets else "\ndoes not meet the model\n") in listing, f"{model} is met: {meets}")
    pool.counts["heads of given designs counted"] += 1


def try_faulty_rules(program, rng, pool):
    """Rules and steps with small faults end with a refusal or a listing."""
    trial = try_rules(program, rng, pool)
    _, text = next(trial)
    others = [b"rules", b"none", b"0", b"=", b"*", b"^2", b"X1", b"x2", b"X99", b"[1]", b"[3]", b"run factor 2", b"proc factex;", b"\n"]
    text = with_faults(rng, text, re.compile(rb"[\w\[\]]+|\s+|[^\w\s]").findall, others)
    yield ["plan"], text
    done = program.run(["plan"], text)
    refused = need_refusal(done, rb"[LEP]\d+ \d+:\d+ [^\n]+")
    pool.counts["rules with faults, " + ("refused" if refused else f"status {done.status}")] += 1


# ---- books


class Pool:
    """Good books and plans that the program wrote, for the changed ones, and counts."""

    def __init__(self, rng):
        self.rng, self.books, self.plans, self.counts = rng, {}, {}, collections.Counter()


def rng_place(pool, kept):
    return len(kept) if len(kept) < 200 else pool.rng.randrange(200)


def python_verdict(text):
    """What check/check_book.py prints, and its status."""
    lines, status = check_book.judged(text)
    return "\n".join([*lines, ""]).encode("latin-1"), status


def work_of(text):
    """About the work of a check in Python: a pattern is counted over all runs, for each level."""
    size = re.search(rb"\nsize ([2-9]) (\d{1,2}) .*\n.*\npattern \d", text)
    each = min(int(size.group(1)) ** int(size.group(2)), 1024) * int(size.group(1)) if size else 20
    return len(text) + text.count(b"\n") * each


def check_both(program, text, pool):
    """The verdict of the program, which has to be that of Python."""
    done = program.run(["check"], text, statuses=(0, 1))
    need(not done.files, "check wrote files")
    is_short = work_of(text) <= MOST_WORK
    if is_short:
        theirs = python_verdict(text)
        need((done.listing, done.status) == theirs, f"check: {done.listing[:80]} {done.status}, Python: {theirs}")
    pool.counts["books checked by both" if is_short else "books checked by the program alone"] += 1
    return done


def check_written(program, rng, text, pool):
    done = check_both(program, text, pool)
    need(done.status == 0, f"a written book: {done.listing[:80]}")
    if len(text) <= 4000:
        pool.books[rng_place(pool, pool.books)] = text


BOOK_PARTS = re.compile(rb"[^\n]*\n|[^\n]+$")
BOOK_FIELDS = re.compile(rb"\d+|[A-Za-z]+|.", re.S)


def changed_book(rng, text):
    others = [b"END\n", b"O 1\n", b"W 3 1:1 2:1\n", b"P 7\n", b"", b"\n", b"W 0 #7\n", b"size 2 3 5 0\n",
              b"pattern none\n", b"resolution 4\n",
              b"effects 1 2 4 / 3\n", b"size 9 1 1 0\n", b"9" * 5000, b"pattern 0 0 1\n"]
    if rng.random() < 0.3:
        first = changed_books.in_first_version(text.decode())
        text = first.encode() if first else text
    kind = rng.random()
    if kind < 0.05:
        return text
    if kind < 0.5:
        return with_faults(rng, text, BOOK_PARTS.findall, others)
    if kind < 0.6:
        lines = text.split(b"\n")
        i = rng.randrange(len(lines))
        lines[i] = rng.choice(changed_books.WAYS)(lines[i].decode()).encode()
        return b"\n".join(lines)
    parts = [b"0", b"1", b"2", b"3", b"9", b"63", b"64", b":", b"#", b" ", b"\n", b"/", b"O", b"W", b"P", b"\r"]
    return with_faults(rng, text, BOOK_FIELDS.findall, parts)


def try_book(program, rng, pool):
    text = changed_book(rng, rng.choice(list(pool.books.values())))
    yield ["check"], text
    check_both(program, text, pool)


def try_upgrade(program, rng, pool):
    text = rng.choice(list(pool.books.values()))
    if rng.random() < 0.3:
        first = changed_books.in_first_version(text.decode())
        yield ["upgrade"], (first or text).encode() if first else text
        if first:
            need(program.run(["upgrade"], first.encode()).listing == text, "the upgrade of version 1 is another book")
        need(program.run(["upgrade"], text).listing == text, "the upgrade of version 2 changes it")
        return
    text = changed_book(rng, text)
    yield ["upgrade"], text
    checked = check_both(program, text, pool)
    done = program.run(["upgrade"], text, statuses=(0, 1))
    if done.status == 1:
        need(done[:2] == checked[:2], f"upgrade {done.listing[:80]}, check {checked.listing[:80]}")
        need(b" B" in done.listing, f"upgrade {done.listing[:80]}")
    else:
        again = check_both(program, done.listing, pool)
        need(again[:2] == checked[:2], f"upgraded: {again.listing[:80]}, before: {checked.listing[:80]}")
        need(program.run(["upgrade"], done.listing).listing == done.listing, "a second upgrade changes it")


# ---- plans to be judged


def level_values(q):
    return {2: ["-1", "1"], 3: ["-1", "0", "1"]}.get(q, [str(code) for code in range(q)])


def counted(q, codes):
    """The number of pairs of components, and of those aliased, orthogonal and partial, as JUDGE.md says."""
    field, s, n = check_book.field_of(q), len(codes[0]), len(codes)
    minus = [next(b for b in range(q) if field.plus[a][b] == 0) for a in range(q)]
    columns = [[row[i] for row in codes] for i in range(s)]
    for i, j in itertools.combinations(range(s), 2):
        for c in range(1, q):
            columns.append([field.plus[field.times[c][row[i]]][row[j]] for row in codes])
    counts = [0, 0, 0]
    for a, b in itertools.combinations(columns, 2):
        if any(len({field.plus[x][minus[field.times[k][y]]] for x, y in zip(a, b)}) == 1 for k in range(1, q)):
            counts[0] += 1
        else:
            first, second, both = collections.Counter(a), collections.Counter(b), collections.Counter(zip(a, b))
            counts[1 if all(both[x, y] * n == first[x] * second[y] for x in first for y in second) else 2] += 1
    return [len(columns) * (len(columns) - 1) // 2, *counts]


def random_plan(rng):
    q = rng.choice([2, 2, 2, 3, 3, 4, 5, 7, 8, 9])
    s, rows = rng.randint(1, {2: 7, 3: 5}.get(q, 3)), rng.choice([1, 2, 3, 8, 9, 12, 16, rng.randint(1, 80)])
    table = [[rng.choice(level_values(q)) for _ in range(s)] for _ in range(rows)]
    if rng.random() < 0.3:
        table *= rng.randint(1, 3)
    return q, "\n".join(",".join(row) for row in [[f"F{i}" for i in range(s)]] + table).encode() + b"\n"


def try_judge(program, rng, pool):
    q, text = rng.choice(list(pool.plans.values())) if pool.plans and rng.random() < 0.5 else random_plan(rng)
    rows = [line.split(b",") for line in text.splitlines()]
    if rng.random() < 0.4:
        # Right ones: other ends of lines, quotes, blank lines, a block column, fewer runs, another order.
        body = rows[1:]
        rng.shuffle(body)
        body = body[: rng.randint(1, len(body))] if rng.random() < 0.3 else body
        codes = [[level_values(q).index(x.decode()) for x in row] for row in body]
        table = [rows[0]] + body
        if rng.random() < 0.3 and rows[0][0].lower() != b"block":
            table = [[rng.choice([b"BLOCK", b"Block"])] + rows[0]] + [[rng.choice([b"1", b"x y", b""])] + row for row in body]
        end = rng.choice([b"\n", b"\r\n", b"\r"])
        mark = rng.choice([b"", b'"'])
        if q < 4:
            table[1:] = [[b"+1" if x == b"1" and rng.random() < 0.2 else x for x in row] for row in table[1:]]
        lines = [b",".join(mark + x + mark for x in row) for row in table]
        text = rng.choice([b"", b"\xef\xbb\xbf"]) + (end + rng.choice([b"", end])).join(lines) + rng.choice([b"", end])
        yield ["judge", str(q)], text
        done = program.run(["judge", str(q)], text)
        need(done.status == 0, f"a right plan: {done.listing[:80]}")
        numbers = [int(n) for n in re.findall(rb"^(?:pairs|aliased|orthogonal|partial) (\d+)$", done.listing, re.M)]
        head = b"plan %d rows\nfactors %d levels %d\n" % (len(codes), len(codes[0]), q)
        need(done.listing.startswith(head), f"{done.listing[:80]}")
        if len(codes) * len(codes[0]) ** 4 * q**3 < 400_000:
            need(numbers == counted(q, codes), f"judge counts {numbers}, here {counted(q, codes)}")
            pool.counts["plans counted again"] += 1
        need(sum(numbers[1:]) == numbers[0], f"{numbers}")
        return
    others = [b"-1", b"1", b"2", b"+1", b"", b'"', b'""', b",", b"\n", b"\r", b" ", b"A", b"BLOCK", b"\xef\xbb\xbf", b"\x00",
              b"9" * 50, b"x" * 33]
    text = with_faults(rng, text, re.compile(rb"[^,\n\r]+|.", re.S).findall, others)
    q = rng.choice([q, q, q, rng.choice([2, 3, 4, 5, 7, 8, 9])])
    yield ["judge", str(q)], text
    done = program.run(["judge", str(q)], text, statuses=(0, 3))
    need_refusal(done, rb"J[1-7] record \d+")


# ---- catalogues


def try_catalogue(program, rng, pool):
    q = rng.choice([2, 2, 2, 3, 4, 5, 7, 8, 9])
    m = rng.randint(1, min(GREATEST_M[q], 7 if q == 2 else 3))
    s = min(m + rng.randint(1, 6), 63 if q < 4 else 40)
    nodes = rng.choice([1, 5, 30, 200, 3000, 20000])
    words = ["catalogue", str(q), str(m), str(s), f"--nodes={nodes}"]
    yield words, b""
    done = run_both(program, words, b"", nodes * (s - m))
    lines = done.listing.decode().splitlines()
    need(lines[0] == f"catalogue levels {q} runs {q**m}", lines[0])
    none, ended = lines[-1].endswith("none"), any("budget ended" in line for line in lines)
    need(done.status == (2 if ended else 1 if none else 0), f"status {done.status}")
    finished = [re.match(r"factors (\d+) nodes", line).group(1) for line in lines[1:] if "budget" not in line]
    need(sorted(done.files) == sorted(f"catalogue-{count}.book" for count in finished), f"{sorted(done.files)}")
    for book in done.files.values():
        check_written(program, rng, book, pool)
    if finished:
        count = rng.choice(finished)
        text = f"proc factex nodes={nodes}; factors X1-X{count} / nlev={q}; size design={q**m}; "
        text += "model resolution=3 / minabs; run;"
        step_run = program.run(["run"], text.encode(), nodes)
        book = done.files[f"catalogue-{count}.book"]
        need(step_run.files.get("step1-1.book") == book, f"the step of {count} factors has another book")


# ---- tables


def patterns_of(listing):
    """The patterns of a catalogue or a table, by the number of factors, and None where there is no design."""
    found = {}
    for factors, ending in re.findall(r"^factors (?:\d+ )?(\d+) (?:nodes|entries) \d+ (.*)$", listing.decode(), re.M):
        found[factors] = ending
    return found


ORDERS = ["FF", "W1", "W2", "SCF", "CLEAR"]


def random_groups(rng, q, m):
    """The dimension of a base, how many factors are inside, and the words that ask for them."""
    kind = rng.choice(["none", "blocks", "whole plots"]) if m > 1 else "none"
    if kind == "none":
        return 0, 0, []
    h = rng.randint(1, m - 1)
    if kind == "blocks":
        return h, 0, [f"--blocks={q**h}"]
    inside = rng.randint(h, min((q**h - 1) // (q - 1), h + 4))
    return h, inside, [f"--whole-plots={q**h}", f"--inside={inside}"]


def faulty_table_words(rng, words):
    """The words with an option that is unknown, wrong, repeated, or without another that it needs."""
    options = ["--threads=2", "--Blocks=2", "--blocks", "--blocks=0", "--blocks=1", "--blocks=2", "--blocks=3", "--blocks=4",
               "--blocks=1024", "--blocks=-2", "--whole-plots=2", "--whole-plots=4", "--inside=0", "--inside=1", "--inside=2",
               "--inside=63", "--inside=64", "--order=FF", "--order=W2", "--order=ff", "--order=W3", "--order=", "--nodes=0",
               "--nodes=9", "--nodes=5000001", "--nodes=" + "1" * 21, "64", "check", ""]
    words = list(words)
    for _ in range(rng.choice([1, 1, 2, 3])):
        kind = rng.random()
        if kind < 0.3 and words:
            del words[rng.randrange(len(words))]
        elif kind < 0.5 and words:
            words[rng.randrange(len(words))] = rng.choice(["0", "1", "2", "6", "10", "40", "63", "64", *options])
        else:
            words.insert(rng.randint(min(3, len(words)), len(words)), rng.choice(options))
    return words


def try_table_words(program, rng, pool):
    q, m = rng.choice([(2, 3), (2, 4), (3, 3), (4, 2), (9, 2)])
    _, _, groups = random_groups(rng, q, m)
    words = [str(q), str(m), str(m + rng.randint(0, 3)), *groups, f"--order={rng.choice(ORDERS)}", "--nodes=9"]
    words = faulty_table_words(rng, words)
    if not any(re.fullmatch("--nodes=[1-9]", word) for word in words):
        words.append("--nodes=5")
    yield ["tables", *words], b""
    done = program.run(["tables", *words], nodes=63 * 1_500_000)
    if done.listing.startswith(b"factex: C"):
        place = re.fullmatch(rb"factex: C[1-6] word (\d+)\n", done.listing)
        need(done.status == 3 and not done.files and place, f"status {done.status}: {done.listing[:100]}")
        need(2 <= int(place[1]) <= len(words) + 2, f"{done.listing[:100]}")
        pool.counts["words of tables refused"] += 1
    else:
        need(done.status < 3, f"status {done.status}: {done.listing[:100]}")


def try_tables(program, rng, pool):
    q = rng.choice([2, 2, 2, 3, 4, 5, 7, 8, 9])
    m = rng.randint(1, min(GREATEST_M[q], 7 if q == 2 else 3))
    h, inside, groups = random_groups(rng, q, m)
    most, first = 63 if q < 4 else 40, m - h if h else m + 1
    s = min(first + rng.randint(0, 6), most - inside, int(120 / math.log2(q)) - inside)
    order, entries = rng.choice(ORDERS), rng.choice([1, 5, 30, 200, 1000])
    words = [str(q), str(m), str(s), *groups, *([f"--order={order}"] if order != "FF" else []), f"--nodes={entries}"]
    yield ["tables", *words], b""
    done = program.run(["tables", *words], nodes=(s - first + 1) * (1_000_000 + 40_000 * entries))
    lines = [line for line in done.listing.decode().splitlines() if not line.startswith("rules")]
    title = f" whole plots {q**h} inside {inside}" if inside else f" blocks {q**h}" if h else ""
    title += f" order {order}" if order != "FF" else ""
    need(lines[0] == f"table levels {q} runs {q**m}{title}", lines[0])
    none, is_open = lines[-1].endswith("none"), any("open after" in line for line in lines)
    need(done.status == (2 if is_open else 1 if none else 0), f"status {done.status}")
    ours = patterns_of(done.listing)
    name = f"table-{q}-{m}-%s" + (f"-whole-{q**h}-{inside}" if inside else f"-blocks-{q**h}" if h else "")
    name += (f"-{order}" if order != "FF" else "") + ".book"
    need(sorted(done.files) == sorted(name % factors for factors in ours), f"{sorted(done.files)}")
    for line, listed, found in rules.patterns_in(done.listing.decode().splitlines()) if q**m <= 128 else ():
        need(found == listed, f"{line}: its rules have other figures")
    if not h and order != "CLEAR":
        theirs = patterns_of(program.run(["catalogue", *words[:3], "--nodes=20000"], nodes=20000 * (s - m)).listing)
        need(all(ours[factors] == theirs[factors] for factors in ours if factors in theirs), f"{ours}, catalogue: {theirs}")
    for book in done.files.values():
        need(check_both(program, book, pool).status == 0, "a written book of a table")
        if len(book) <= 4000:
            pool.table_books[rng_place(pool, pool.table_books)] = book


def try_table_book(program, rng, pool):
    others = [b"END\n", b"O 1\n", b"R 3\n", b"F 7\n", b"P 7\n", b"I 5 2 1 4\n", b"", b"\n", b"size 2 3 5 0\n", b"pattern none\n",
              b"resolution 4\n", b"base 2 3 0 0 5\n", b"base 2 3 1 1 3\n", b"order FF\n", b"order CLEAR\n", b"key none\n", b"key 0 1\n", b"size 9 1 1 0\n", b"9" * 5000, b"pattern 0 0 1\n"]
    parts = [b"0", b"1", b"2", b"3", b"9", b"63", b"64", b" ", b"\n", b"/", b"O", b"R", b"F", b"I", b"P", b"\r"]
    text = rng.choice(list(pool.table_books.values()))
    kind = rng.random()
    if kind < 0.4:
        text = with_faults(rng, text, BOOK_PARTS.findall, others)
    elif kind < 0.6:
        lines = text.split(b"\n")
        i = rng.randrange(len(lines))
        lines[i] = rng.choice(changed_books.WAYS)(lines[i].decode()).encode()
        text = b"\n".join(lines)
    else:
        text = with_faults(rng, text, BOOK_FIELDS.findall, parts)
    yield ["check"], text
    check_both(program, text, pool)


# ---- the kinds


def try_text(program, rng, pool):
    text, budget, plans = program_text(rng)
    words = ["run"] + ([f"--seed={rng.choice([0, 5, 2**64 - 1])}"] if rng.random() < 0.2 else [])
    yield words, text
    pool.counts["texts, " + check_run(program, rng, words, text, budget, plans, pool)] += 1


def try_faulty_text(program, rng, pool):
    text, budget, _ = program_text(rng)
    text = with_faults(rng, text)
    # A fault may take away a budget, or add a step.
    budget += 1_000_000 * (1 + len(re.findall(rb"proc", text, re.I)))
    yield ["run"], text
    pool.counts["texts with faults, " + check_run(program, rng, ["run"], text, budget, [], pool)] += 1


KINDS = [("words", 10, try_words), ("make and large", 1, try_make), ("texts", 25, try_text),
         ("texts with faults", 20, try_faulty_text), ("books", 25, try_book), ("upgrades", 10, try_upgrade),
         ("rules of listings", 10, try_way_back), ("rules", 10, try_rules), ("rules with faults", 15, try_faulty_rules),
         ("plans", 25, try_judge), ("catalogues", 3, try_catalogue), ("tables", 5, try_tables), ("words of tables", 5, try_table_words),
         ("books of tables", 30, try_table_book)]

FIRST = b"""proc factex; factors A B C D E; size design=8; model resolution=4; output out=a; run;
proc factex; factors A B C D; size design=8; model resolution=3 / minabs; run;
proc factex; factors A B C D / nlev=3; size design=9; model estimate=(A B C D A*B); run;
proc factex; factors A B C D; size design=8; model resolution=4; blocks nblocks=4; run;
proc factex; factors F1-F12; size design=16; model resolution=10; run;
"""
# Its forbidden vectors take 0.7 s to list. When they were listed for each size and each thread, it took 7 s.
LONG_LIST = b"""proc factex nodes=5000; factors A1-A63 / nlev=3; size design=minimum;
model estimate=(A1|A2|A3|A4|A5|A6|A7|A8|A9|A10|A11|A12|A13|A14|A15|A16|A17|A18|A19|A20|A21|A22|A23|A24|A25|A26@2); run;
"""


def keep(folder, name, words, text, what):
    os.makedirs(folder, exist_ok=True)
    with open(os.path.join(folder, name + ".input"), "wb") as file:
        file.write(text)
    with open(os.path.join(folder, name + ".txt"), "w") as file:
        file.write(f"{what}\n{words!r}\n")


def main():
    parser = argparse.ArgumentParser(description=__doc__.split("\n\n")[0])
    parser.add_argument("program")
    parser.add_argument("--seconds", type=float, default=600)
    parser.add_argument("--seed", type=int, default=1)
    parser.add_argument("--keep", default="hostile-failures")
    arguments = parser.parse_args()
    program, pool = Program(arguments.program), Pool(random.Random(arguments.seed))
    check_run(program, pool.rng, ["run"], FIRST, 5_000_000, [], pool)
    check_run(program, pool.rng, ["run"], LONG_LIST, 5_000, [], pool)
    pool.table_books = {}
    for words in (["2", "3", "8"], ["3", "2", "5"], ["4", "2", "6"], ["2", "3", "6", "--blocks=4"],
                  ["2", "3", "5", "--whole-plots=2", "--inside=1"], ["2", "4", "7", "--order=CLEAR"]):
        pool.table_books.update(enumerate(program.run(["tables", *words]).files.values(), len(pool.table_books)))
    made, failed = collections.Counter(), collections.Counter()
    end = os.times().elapsed + arguments.seconds
    while os.times().elapsed < end:
        number = sum(made.values()) + 1
        rng = random.Random(f"{arguments.seed} {number}")
        kind, _, trial = rng.choices(KINDS, [weight for _, weight, _ in KINDS])[0]
        made[kind] += 1
        words, text = [], b""
        try:
            # A trial first yields its input, so that it can be kept.
            trials = trial(program, rng, pool)
            words, text = next(trials)
            next(trials, None)
        except Failure as failure:
            failed[kind] += 1
            name = f"{arguments.seed}-{number}"
            keep(arguments.keep, name, words, text, f"{kind}: {failure}")
            print(f"{name} {kind}: {failure}", flush=True)
    for kind, count in sorted(made.items()):
        print(f"{kind}: {count} inputs, {failed[kind]} failed")
    for what, count in sorted(pool.counts.items()):
        print(f"{what}: {count}")
    slowest = ", ".join(f"{kind} {seconds:.2f} s" for kind, seconds in sorted(program.slowest.items()))
    print(f"runs of the program: {program.count}; most processor time: {slowest}")
    sys.exit(1 if failed else 0)


main()
