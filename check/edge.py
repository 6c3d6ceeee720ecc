#!/usr/bin/env python3
"""Tries what only the program itself shows: the statuses 4 and 5, long names of files, and threads.

edge.py PROGRAM

Prints what is not as documented, and ends with status 1 where something is not.
"""
import os
import resource
import subprocess
import sys
import tempfile

NAME = "a23456789012345678901234567890zz"
PLANNED = f"proc factex;factors A;model r=3;output out={NAME};"
ABSENT = "proc factex;factors A B C;size design=2;model r=3;"
PLAN = b"A\n-1\n1\n"
LISTING = b"step 1\nfactors 1 levels 2\ndesign 2 runs\nno defining words\nnodes 1\nrules\n  none\n"

# Words and texts of long searches: two and three levels, without a least pattern and with one. No step of `large` has as
# many nodes as one thread walks alone, so what it starts is not seen.
SEARCHES = [
    ("run", "proc factex nodes=5000000;factors X1-X32;size design=32;model r=3;"),
    ("run", "proc factex nodes=5000000;factors X1-X14;size design=64;model r=3/minabs;"),
    ("run", "proc factex nodes=5000000;factors X1-X41/nlev=3;size design=81;model r=3;"),
    ("run", "proc factex nodes=5000000;factors X1-X12/nlev=3;size design=81;model r=3/minabs;"),
    ("catalogue 2 6 12", ""),
    ("catalogue 3 4 12", ""),
]

# How often a search is begun before it is said to start no thread.
TRIES = 50


def run(program, folder, words, text=b"", memory=None):
    """The status and the listing of a run in a folder, with at most so many bytes of memory."""

    def limit():
        if memory:
            resource.setrlimit(resource.RLIMIT_AS, (memory, memory))

    done = subprocess.run(
        [program, *words.split()], input=text, cwd=folder, stdout=subprocess.PIPE, preexec_fn=limit, timeout=120
    )
    return done.returncode, done.stdout


def threads_of(program, folder, words, text):
    """How many threads a run is seen to have at once, or 2 as soon as it has more than one."""
    command = [program, *words.split()]
    with subprocess.Popen(command, cwd=folder, stdin=subprocess.PIPE, stdout=subprocess.DEVNULL) as process:
        process.stdin.write(text.encode())
        process.stdin.close()
        while process.poll() is None:
            try:
                count = len(os.listdir(f"/proc/{process.pid}/task"))
            except OSError:
                break
            if count > 1:
                process.kill()
                return 2
    return 1


def faults(program, folder):
    """What is not as documented, a line each."""
    status, listing = run(program, folder, "run", PLANNED.encode())
    path = f"{folder}/{NAME}.csv"
    if (status, listing) != (0, LISTING + f"output {NAME}.csv 2 rows\n".encode()):
        yield f"a name of 36 bytes: status {status}, {listing}"
    if not os.path.isfile(path) or open(path, "rb").read() != PLAN:
        yield "a name of 36 bytes: the file is not there, or not the plan"
    for name, text in ((f"{NAME}.csv", PLANNED), ("step1-1.book", ABSENT)):
        if os.path.isfile(f"{folder}/{name}"):
            os.remove(f"{folder}/{name}")
        os.mkdir(f"{folder}/{name}")
        if run(program, folder, "run", text.encode()) != (4, b""):
            yield f"a folder in the place of {name}: not status 4 without a listing"
        os.rmdir(f"{folder}/{name}")
    if run(program, folder, "check", b" " * 60_000_000, 32_000_000) != (5, b""):
        yield "a book of 60 MB in 32 MB of memory: not status 5 without a listing"
    if run(program, folder, "check", b" " * 60_000_000) != (1, b"rejected line 1 B2\n"):
        yield "the same book with memory enough: it is not rejected"
    for words, text in SEARCHES:
        if all(threads_of(program, folder, f"{words} --threads=4", text) == 1 for _ in range(TRIES)):
            yield f"{words} --threads=4 starts no thread: {text}"
        if threads_of(program, folder, f"{words} --threads=1", text) != 1:
            yield f"{words} --threads=1 starts threads: {text}"


def main():
    if len(sys.argv) != 2:
        sys.exit(__doc__)
    with tempfile.TemporaryDirectory() as folder:
        found = list(faults(os.path.abspath(sys.argv[1]), folder))
    for line in found:
        print(line)
    if not found:
        print("edge: statuses 4 and 5, long names and threads are as documented")
    return 1 if found else 0


if __name__ == "__main__":
    sys.exit(main())
