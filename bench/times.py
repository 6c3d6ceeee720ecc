#!/usr/bin/env python3
"""bench/times.py PROGRAM [PART]: times the questions below, best of three, each as a whole run of the program, and prints the
nodes, the milliseconds and the nanoseconds a node. With PART only those whose name has it. The gate does not run it."""
import os, re, subprocess, sys, tempfile, time

def text(factors, runs, model, levels=2, nodes=None):
    head = f"proc factex nodes={nodes};" if nodes else "proc factex;"
    nlev = f" / nlev={levels}" if levels != 2 else ""
    return f"{head}factors {factors}{nlev};size design={runs};model {model};run;"

def joined(mark, first, last):
    return mark.join(f"X{i}" for i in range(first, last + 1))

QUESTIONS = [
    ("16 factors, 1,024 runs, resolution 10", 10, text("X1-X16", 1024, "resolution=10")),
    ("32 factors, 32 runs, resolution 3", 80, text("X1-X32", 32, "resolution=3")),
    ("20 factors, 128 runs, resolution 5", 250, text("X1-X20", 128, "resolution=5", nodes=5000000)),
    ("40 factors of four levels, 1,024 runs, resolution 4", 400, text("X1-X40", 1024, "resolution=4", 4)),
    ("9 factors of eight levels, 64 runs, effects", 400, text("X1-X9", 64, "e=(X4|X7*X9|X9@2 X4*X9|X7 X1 X4*X8*X4)", 8)),
    ("8 factors of nine levels, 81 runs, effects", 700, text("A B C D F G H I", 81, "e=(C I*B*D A)", 9)),
    ("40 factors, 1,024 runs, all two-factor interactions", 500, text("X1-X40", 1024, f"e=({joined('|', 1, 40)}@2)")),
    ("40 factors, 1,024 runs, one effect of 39 factors", 200, text("X1-X40", 1024, f"e=(X1) n=({joined('*', 2, 40)})", nodes=40)),
    ("24 factors of three levels, 729 runs, one effect of 8", 200, text("X1-X24", 729, f"e=(X1) n=({joined('*', 2, 9)})", 3)),
    ("40 factors of nine levels, 729 runs, one effect of 5", 1000, text("X1-X40", 729, f"e=(X1) n=({joined('*', 2, 6)})", 9)),
]

def run(program, source):
    # In a folder of its own, since the program writes books to the current one.
    with tempfile.TemporaryDirectory() as folder:
        start = time.perf_counter()
        done = subprocess.run([program, "run"], input=source.encode(), stdout=subprocess.PIPE, stderr=subprocess.PIPE, cwd=folder)
        taken = time.perf_counter() - start
    found = re.search(rb"^nodes (\d+)", done.stdout, re.M)
    return taken, int(found.group(1)) if found else None, done

def main():
    program, part = os.path.abspath(sys.argv[1]), sys.argv[2] if len(sys.argv) > 2 else ""
    print("load", " ".join(f"{x:.1f}" for x in os.getloadavg()))
    for name, limit, source in QUESTIONS:
        if part not in name:
            continue
        runs = [run(program, source) for _ in range(3)]
        taken, nodes, done = min(runs, key=lambda r: r[0])
        budget = int(re.search(r"nodes=(\d+)", source).group(1)) if "nodes=" in source else 1000000
        count, mark = (nodes, "") if nodes is not None else (budget, " (budget)")
        over = "  OVER" if taken * 1000 > limit else ""
        print(f"{taken * 1000:9.1f} ms  of {limit:5} ms {count:9} nodes{mark} {taken * 1e9 / max(count, 1):9.0f} ns a node  {name}{over}")

main()
