#!/usr/bin/env python3
"""Fails each call of the built program in turn: python3 bench/failing.py PROGRAM [OPTION..] [FILE..]

Runs each command below, with one thread and with four, or each FILE by its ending, .sas, .book or .csv (judged at two levels),
with the options. Counts reads, writes and openings of files (io), growths of
memory, and new threads, and repeats the run for each of these calls:

- the read, write or opening fails, or the write moves nothing: wanted is status 4, and no such call after it;
- the growth is refused, alone or with all later ones: status 5;
- the read or write moves one byte, alone or with all later ones, or the new thread is refused so: all of the whole run.

What is written, begun and filled has to be a prefix, in order, of what the whole run does. With several threads a growth may
not be made again; then the run has to be whole. Prints a line for each command, and ends with status 1 where a run came out
otherwise. Needs cc. The gate does not run it."""
import os, subprocess, sys, tempfile

sys.path.insert(0, os.path.join(os.path.dirname(os.path.dirname(os.path.abspath(__file__))), "check"))
from changed_books import in_first_version

HEADERS = ["dlfcn", "errno", "fcntl", "pthread", "stdatomic", "stdlib", "string", "sys/mman", "sys/syscall", "unistd"]
SHIM = "#define _GNU_SOURCE\n" + "".join(f"#include <{name}.h>\n" for name in HEADERS) + r"""
// The numbers of calls, io, growths and threads, in a file, since a program with threads can end without running destructors.
static atomic_ulong *calls;
static int acts, way;
static unsigned long first, last;

__attribute__((constructor)) static void begin_count(void) {
    int file = syscall(SYS_openat, AT_FDCWD, getenv("CALLS_TO"), O_RDWR | O_CREAT, 0600);
    acts = syscall(SYS_openat, AT_FDCWD, getenv("ACTS_TO"), O_WRONLY | O_CREAT | O_APPEND, 0600);
    if (file < 0 || acts < 0 || ftruncate(file, 24)) _exit(99);
    way = *getenv("CALL_WAY"), first = strtoul(getenv("CALL_FIRST"), 0, 10), last = strtoul(getenv("CALL_LAST"), 0, 10);
    calls = mmap(0, 24, PROT_READ | PROT_WRITE, MAP_SHARED, file, 0);
}

static unsigned long counted(int kind) { return calls ? ++calls[kind] : 0; }
static int is_hit(char wanted, unsigned long n) { return way == wanted && n >= first && n <= last; }
static int failed(int why) { errno = why; return -1; }

// Each byte is noted after the letter of its act: a file begun, one filled, the listing.
static void note(char act, const char *bytes, size_t size) {
    char both[2 * size];
    for (size_t i = 0; i < size; i++) both[2 * i] = act, both[2 * i + 1] = bytes[i];
    if (syscall(SYS_write, acts, both, 2 * size) != 2 * size) _exit(99);
}

int open(const char *name, int flags, ...) {
    if (is_hit('f', counted(0))) return failed(EACCES);
    int file = syscall(SYS_openat, AT_FDCWD, name, flags, 0666);
    if (file >= 0) note('O', name, strlen(name) + 1);
    return file;
}

ssize_t read(int file, void *to, size_t size) {
    unsigned long n = counted(0);
    return is_hit('f', n) ? failed(EIO) : syscall(SYS_read, file, to, is_hit('s', n) && size ? 1 : size);
}

ssize_t write(int file, const void *from, size_t size) {
    unsigned long n = counted(0);
    if (is_hit('f', n) || is_hit('z', n)) return is_hit('f', n) ? failed(EIO) : 0;
    ssize_t count = syscall(SYS_write, file, from, is_hit('s', n) && size ? 1 : size);
    if (count > 0) note(file == 1 ? 'L' : 'F', from, count);
    return count;
}

#define NEXT(name) ((__typeof__(&name))dlsym(RTLD_NEXT, #name))
void *malloc(size_t size) { return is_hit('g', counted(1)) ? 0 : NEXT(malloc)(size); }
void *realloc(void *old, size_t size) { return is_hit('g', counted(1)) ? 0 : NEXT(realloc)(old, size); }
int pthread_create(pthread_t *id, const pthread_attr_t *how, void *(*f)(void *), void *x) {
    return is_hit('t', counted(2)) ? EAGAIN : NEXT(pthread_create)(id, how, f, x);
}
"""
TEXTS = {
    "plans, crossed": "factors A B C;size design=4;model resolution=3;output out=P randomize(7) A nvals=(2 3);run;"
                      "proc factex;factors D;size design=2;output out=Q pointrep=P designrep=2 D cvals=('lo' 'it''s');",
    "derived factors": "factors A B C D;size design=8;model resolution=4;output out=P [A B]=E cvals=('p' 'q' 'r' 's') [C D]=F;",
    "no design": "factors A B C D E;size design=8;model resolution=4;",
    "budget ended": "factors X1-X11 / nlev=3;size design=81;model resolution=4;",
    "MINABS": "factors A B C D E F;size design=16;model resolution=max / minabs;examine aberration;",
    "MINABS, ended": "factors X1-X8 / nlev=3;size design=81;model resolution=max / minabs;",
    "blocks": "factors A B C D;size design=16;model resolution=5;blocks nblocks=maximum;output out=P blockname=Day;",
    "fold-over": "factors A B C D E;size design=8;model resolution=3;foldover A;examine aliasing;",
    "effects": "factors A B C / nlev=3;size design=9;model estimate=(A B) nonnegligible=(C);examine design;",
    "least size": "factors A B C D E;model resolution=4;size design=minimum;",
    "text refused": "factors A B;size design=3;",
}
SHARED = [("catalogue", ["catalogue", "2", "3", "7"], b""), ("large", ["large", "2"], b"")]
RULES = (b"rules D=A*B [1]=A*C\nproc factex;factors A B C D;size design=8;blocks nblocks=2;model resolution=3;examine aliasing blocked;"
         b"output out=P randomize(3);\nrules none\nproc factex;factors A B;size design=4;foldover;")
OTHERS = [("rules", ["plan"], RULES), ("rules refused", ["plan"], b"rules C=A*A\nproc factex;factors A B C;size design=4;"),
          ("judge", ["judge", "2"], b"A,B,C\n1,1,1\n1,-1,-1\n-1,1,-1\n-1,-1,1\n"), ("plan refused", ["judge", "2"], b"A\n2\n"),
          ("make", ["make", "2"], b""), ("word refused", ["make", "x"], b"")]
TABLES = [("lines", ["tables", "2", "3", "8"], b""), ("lines, open", ["tables", "2", "3", "6", "--nodes=5"], b""),
          ("lines in blocks", ["tables", "2", "3", "5", "--blocks=4", "--order=W1"], b""),
          ("split plots", ["tables", "2", "3", "4", "--whole-plots=2", "--inside=1", "--order=CLEAR"], b"")]
TABLES += [(title, ["check"], f"factex-table 1\nsize 2 1 2 0\nresolution 3\npattern none\n{entry}\nEND\n".encode())
           for title, entry in (("check", "R 1"), ("book rejected", "O 1"), ("no book", "F 1"))]
TABLES += [("check, base", ["check"], b"factex-table 2\nbase 2 1 0 0 2\norder FF\nkey none\nR 1\nEND\n"),
           ("word refused", ["tables", "2"], b""), ("option refused", ["tables", "2", "3", "5", "--inside=1"], b"")]


def run(program, shim, words, text, way="-", first=0, last=0):
    """Status, acts, and the numbers of calls of one run, in a folder of its own."""
    with tempfile.TemporaryDirectory() as top, tempfile.TemporaryFile() as source:
        source.write(text)
        source.seek(0)
        counts, acts, folder = (os.path.join(top, name) for name in ("counts", "acts", "run"))
        os.mkdir(folder)
        names = ["LD_PRELOAD", "CALLS_TO", "ACTS_TO", "CALL_WAY", "CALL_FIRST", "CALL_LAST"]
        settings = os.environ | dict(zip(names, [shim, counts, acts, way, str(first), str(last)]))
        done = subprocess.run([program] + words, stdin=source, stdout=subprocess.DEVNULL, cwd=folder, env=settings, timeout=120)
        with open(counts, "rb") as file, open(acts, "rb") as did:
            return done.returncode, did.read(), memoryview(file.read()).cast("Q").tolist()


def tried(program, shim, title, words, text):
    """Prints the line of a command, and returns how many of its runs came out otherwise."""
    whole = run(program, shim, words, text)
    threads = max([word[10:] for word in words if word.startswith("--threads=")], default="1")
    runs, wrong = 0, []
    for way, kind, wanted in (("f", 0, 4), ("z", 0, 4), ("s", 0, None), ("g", 1, 5), ("t", 2, None)):
        for first in range(1, whole[2][kind] + 1):
            for last in (first,) if wanted == 4 else (first, 10**9):
                status, acts, numbers = part = run(program, shim, words, text, way, first, last)
                is_prefix = status == wanted and whole[1].startswith(acts) and (wanted != 4 or numbers[0] == first)
                # A read and an opening cannot move nothing.
                may_be_whole = wanted is None or way == "z" or kind and threads != "1"
                runs += 1
                if not is_prefix and not (may_be_whole and part[:2] == whole[:2]):
                    wrong.append(f"{way} {first} to {last}: status {status}, {len(acts) // 2} of {len(whole[1]) // 2} acts")
    line = f"{title:16} {threads:>7} {whole[2][0]:4} {whole[2][1]:7} {whole[2][2]:11} {runs:6} {len(wrong):6}"
    print(line, *wrong, sep="\n", flush=True)
    return len(wrong)


def main():
    program = os.path.abspath(sys.argv[1])
    options = [word for word in sys.argv[2:] if word.startswith("--")]
    jobs, paths = [], [word for word in sys.argv[2:] if not word.startswith("--")]
    for path in paths:
        words = {".book": ["check"], ".csv": ["judge", "2"]}.get(os.path.splitext(path)[1], ["run"]) + options
        with open(path, "rb") as file:
            jobs.append((os.path.basename(path), words, file.read()))
    with tempfile.TemporaryDirectory() as top:
        shim = os.path.join(top, "fail.so")
        subprocess.run(["cc", "-O1", "-shared", "-fPIC", "-x", "c", "-o", shim, "-", "-ldl"], input=SHIM.encode(), check=True)
        if not jobs:
            texts = [(title, ["run"], f"proc factex nodes=4500;{text}run;".encode()) for title, text in TEXTS.items()]
            acts = run(program, shim, *next(job[1:] for job in texts if job[0] == "no design"))[1]
            book = bytes(byte for act, byte in zip(acts[::2], acts[1::2]) if act == ord("F"))
            jobs = [(title, words + more, text) for title, words, text in texts + SHARED for more in ([], ["--threads=4"])]
            jobs += [("check", ["check"], book), ("book rejected", ["check"], book.replace(b"W 3", b"W 4")),
                     ("upgrade", ["upgrade"], in_first_version(book.decode()).encode()), *OTHERS, *TABLES]
        print("command          threads   io growths new threads   runs failed")
        sys.exit(1 if sum([tried(program, shim, *job) for job in jobs]) else 0)


main()
