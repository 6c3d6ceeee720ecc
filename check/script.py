#!/usr/bin/env python3
"""Tries the script ./factex as users do: from a clone in a folder with a blank in its name, with no kit on the path.

Prints what is not as documented, and ends with status 1 if anything is."""
import os
import pathlib
import pty
import re
import signal
import subprocess
import sys
import tempfile
import time

sys.dont_write_bytecode = True
import claims

TOP = pathlib.Path(__file__).resolve().parent.parent
# The most seconds of the first command.
MOST_SECONDS = 1.0
REFUSED = b"proc factex;\nfactors A B C D;\nsize design=8;\nmodle resolution=4;\nrun;\n"
ONE_STEP = b"proc factex; factors A B C D; size design=8; model resolution=4; output out=Plan; run;\n"
BOOK = ["factex-book 2", "size 2 3 5 0", "resolution 4", "pattern none", "O 1", "O 2", "O 4", "O 7", "W 6 1:1 4:1 5:1", "W 5 2:1 4:1 5:1"]
BOOK += ["W 3 3:1 4:1 5:1", "W 6 2:1 3:1 4:1", "W 5 1:1 3:1 4:1", "W 3 1:1 2:1 4:1", "END", ""]
TABLE = "factex-table 1\nsize 2 1 2 0\nresolution 3\npattern none\nR 1\nEND\n"
MESSAGES = pathlib.Path(__file__).with_name("messages.txt")
PROVED = "proved: no regular design with "
# The first lines of books, and their claims.
CLAIMS = {
    "factex-book 2\nsize 2 3 5 0\nresolution 4\npattern none": "5 factors of 2 levels in 8 runs has resolution 4",
    "factex-book 1\nsize 2 4 6 3\nresolution 5\npattern none": "6 factors of 2 levels in 16 runs in 8 blocks has resolution 5 and keeps each effect of at most 2 factors clear of blocks",
    "factex-book 2\nsize 2 3 3 1\neffects 1 5 / 2 4\npattern none": "3 factors of 2 levels in 8 runs in 2 blocks estimates together, clear of blocks, X1, X1*X3 in the presence of X2, X3",
    "factex-book 2\nsize 3 2 4 0\nresolution 3\npattern 0 0 4 0": "4 factors of 3 levels in 9 runs that has resolution 3 or more has less aberration than A3 4",
    "factex-table 1\nsize 2 4 6 0\nresolution 3\npattern 0 0 0 3 0 0": "6 factors of 2 levels in 16 runs that has resolution 3 or more has less aberration than A4 3",
    "factex-table 1\nsize 2 3 8 0\nresolution 3\npattern none": "8 factors of 2 levels in 8 runs has resolution 3",
    "factex-table 2\nbase 2 3 1 0 4\norder FF\nkey 0 1 2 0 0": "4 factors of 2 levels in 8 runs in 2 blocks, each main effect clear of blocks, has resolution 3 or more and, in the order FF, a lesser key than A4 1 B2 2",
    "factex-table 2\nbase 2 4 2 2 4\norder W1\nkey 0 3 1 0 0 4 2 2 0": "6 factors of 2 levels in 16 runs in 4 whole plots, just 2 factors constant in each, has resolution 3 or more and, in the order W1, a lesser key than A4 3 B2 1 B3 4 B4 2 B5 2",
    "factex-table 2\nbase 2 5 0 0 9\norder CLEAR\nkey 0 21 7 7 0 0 0 1": "9 factors of 2 levels in 32 runs has resolution 3 or more and, in the order CLEAR, a lesser key than not clear 21 A4 7 A5 7 A9 1",
}
wrong = []


class Clone:
    """A clone of the repository without the kit, and a folder to work in."""

    def __init__(self, room):
        self.top = room / "a clone"
        subprocess.run(["git", "clone", "-q", str(TOP), str(self.top)], check=True)
        self.here = room / "a folder"
        self.here.mkdir()

    def run(self, words, text=b"", script=None, **how):
        """A run of the script, with its files as a dictionary. The files are removed."""
        how = {"input": text, "stdout": subprocess.PIPE, **how}
        if "stdin" in how:
            del how["input"]
        command = [script or self.top / "factex", *words]
        ran = subprocess.run(command, cwd=self.here, env={"PATH": "/usr/bin:/bin"}, stderr=subprocess.PIPE, timeout=60, **how)
        ran.files = {it.name: it.read_bytes() for it in self.here.iterdir() if it.suffix in (".csv", ".book")}
        for name in ran.files:
            (self.here / name).unlink()
        return ran

    def said(self, words, text=b""):
        """What the script says on standard error, where its output and status are those of the program alone."""
        ran = self.run(words, text)
        alone = self.run(words, text, script=self.top / "bin" / "factex")
        same = (ran.returncode, ran.stdout, ran.files) == (alone.returncode, alone.stdout, alone.files)
        expect(f"output and status of {words} on {text[-60:]} as of the program alone", same)
        return ran.stderr.decode()


def expect(what, holds):
    if not holds:
        print(f"check/script.py: not as documented: {what}")
        wrong.append(what)


def blocks_of_readme():
    """The listing and the run sheet of README, as text."""
    readme = (TOP / "README.md").read_text(encoding="utf-8")
    listing = re.search(r"(?:^    .*\n)+", readme[readme.index("    step 1") :], re.M)[0]
    rows = re.findall(r"^\|(.*)\|$", readme[: readme.index("First commands")], re.M)
    cells = [",".join(cell.strip() for cell in row.split("|")) for row in rows if not row.startswith("--")]
    return "".join(line[4:] + "\n" for line in listing.splitlines()), "\n".join(cells) + "\n"


def try_first_command(clone):
    """The first command of README: listing, run sheet, status, and time, the best of three."""
    example = clone.top / "crates/examples/data/sheet.sas"
    times = []
    for _ in range(3):
        began = time.monotonic()
        ran = clone.run(["run", example])
        times.append(time.monotonic() - began)
    listing, sheet = blocks_of_readme()
    expect("the listing of the first command", ran.stdout.decode() == listing and ran.returncode == 0 and not ran.stderr)
    expect("its run sheet", {name: text.decode() for name, text in ran.files.items()} == {"sheet.csv": sheet})
    expect(f"its time: {min(times):.2f} s", min(times) <= MOST_SECONDS)


def try_words(clone):
    """The words that every user tries."""
    for word in ("help", "-h", "--help"):
        ran = clone.run([word])
        expect(word, ran.returncode == 0 and ran.stdout.startswith(b"usage: factex run") and not ran.stderr)
    ran = clone.run(["--version"])
    expect("--version", ran.returncode == 0 and re.fullmatch(rb"factex \d+\.\d+, program [0-9a-f]{12}, rattle-kit-.*\n", ran.stdout))
    ran = clone.run([])
    expect("no word", ran.returncode == 3 and ran.stdout.startswith(b"factex: C1") and b"usage: factex run" in ran.stderr)
    ran = clone.run(["run", "--seed=5"], ONE_STEP)
    (clone.here / "--seed=5").write_bytes(REFUSED)
    expect("an option with the name of a file", clone.run(["run", "--seed=5"], ONE_STEP).stdout == ran.stdout != b"")
    (clone.here / "--seed=5").unlink()


def try_texts(clone):
    """A text from a named file, a pipe, a file read in part, a terminal, and by `-`."""
    whole = clone.run(["run"], ONE_STEP)
    expect("a text from a pipe", whole.returncode == 0 and list(whole.files) == ["plan.csv"])
    refused = clone.run(["run"], REFUSED)
    shown = b'<stdin>:4:1: error: statement is not known: "modle"; did you mean MODEL? [E1]\n    modle resolution=4;\n    ^\nexpected: '
    expect("a refusal", refused.returncode == 3 and refused.stdout.startswith(b"factex: E1 4:1 ") and shown in refused.stderr)
    file = clone.here / "a text.sas"
    for text, same in ((ONE_STEP, whole), (REFUSED, refused)):
        file.write_bytes(text)
        (clone.here / "link.sas").symlink_to(file)
        for words in (["run", "a text.sas"], ["run", "link.sas"], ["run", "/dev/stdin"], ["run", "-"]):
            ran = clone.run(words, text)
            says = same.stderr.replace(b"<stdin>", words[1].replace("-", "<stdin>").encode())
            expect(" ".join(words), (ran.returncode, ran.stdout, ran.stderr, ran.files) == (same.returncode, same.stdout, says, same.files))
        (clone.here / "link.sas").unlink()
        # What stands before the part that is read would write a plan if it were read again.
        file.write_bytes(ONE_STEP.replace(b"Plan", b"Other") + text)
        with open(file, "rb") as part:
            part.seek(len(ONE_STEP) + 1)
            ran = clone.run(["run"], stdin=part)
        expect("a file read in part", (ran.returncode, ran.stdout, ran.stderr, ran.files) == (same.returncode, same.stdout, same.stderr, same.files))
    main, end = pty.openpty()
    os.write(main, REFUSED + b"\x04" + ONE_STEP + b"\x04")
    ran = clone.run(["run"], stdin=end)
    expect("a text from a terminal", (ran.returncode, ran.stdout, ran.files) == (3, refused.stdout, {}) and shown in ran.stderr)
    os.close(main)
    os.close(end)
    for words in (["run", "typo.sas"], ["run", "--help"], ["judge"], ["judge", "plan.csv"], ["check", "--bogus"]):
        main, end = pty.openpty()
        expect(f"{words} are refused before anything is read", clone.run(words, stdin=end).returncode == 3)
        os.close(main)
        os.close(end)
    rules = b"rules C=A*B\nproc factex; factors A B C; size design=4; output out=given;\n"
    file.write_bytes(rules)
    for words in (["plan", "a text.sas"], ["plan", "-"], ["plan", "--seed=1"]):
        ran = clone.run(words, rules)
        expect(" ".join(words), ran.returncode == 0 and b"\ndesign 4 runs given\n" in ran.stdout and list(ran.files) == ["given.csv"])
    ran = clone.run(["plan"], rules.replace(b"A*B", b"A*A"))
    expect("rules are explained", ran.returncode == 3 and ran.stderr.endswith(b" [P5]\n    rules C=A*A\n              ^\n"))
    expect("a plan to be judged", clone.run(["judge", "2", "-"], b"A,B\n1,2\n").stderr.endswith(b" [J5]\n    1,2\n"))
    file.unlink()


def try_checks(clone):
    """Books of both kinds by one command, and texts that are none."""
    texts = {"a book": "\n".join(BOOK), "a table": TABLE, "wrong": "\n".join(BOOK[:8] + ["W 6 4:1 5:1"] + BOOK[9:]), "no book": "A,B\n1,2\n"}
    texts["returns"] = "\r\n".join(BOOK)
    ends = {"a book": (0, "accepted"), "a table": (0, "accepted"), "wrong": (1, "rejected line 9 K3"), "no book": (1, "rejected line 1 B2")}
    ends["returns"] = ends["no book"]
    nothing = "so it proves nothing, and its claim may be true or false"
    said = {"wrong": f":9: rejected: the word is not a zero sum of the prefix, {nothing} [K3]\n    W 6 4:1 5:1\n"}
    said["no book"] = ":1: not a book: the first line of a book is factex-book or factex-table, and 2 or 1 [B2]\n"
    said["returns"] = ":1: rejected: lines end in CR LF: write line feeds only, so this is no book [B2]\n    factex-book 2\n"
    for name, text in texts.items():
        (clone.here / name).write_text(text)
        for words in (["check", name], ["check"]):
            ran = clone.run(words, text.encode())
            first = ran.stdout.decode().split("\n")[0]
            says = name in said and (name if name in words else "<stdin>") + said[name]
            expect(f"{words} of {name}", (ran.returncode, first) == ends[name] and (not says or ran.stderr.decode() == says))
    ran = clone.run(["check", *texts])
    lines = ran.stdout.decode().split("\n")
    expect("several books", ran.returncode == 1 and [it for it in lines if it in texts] == list(texts) and lines.count("accepted") == 2)
    expect("a missing book", b"factex check missing\n                 ^\n" in clone.run(["check", "a book", "missing", "a table"]).stderr)
    (clone.here / "-t").write_text(TABLE)
    expect("a book with a name that begins with -", clone.run(["check", "-t"]).returncode == 0)
    (clone.here / "-t").unlink()
    other = clone.top / "check/check_book.py"
    ran = clone.run(list(texts), script=other)
    expect("the checker in Python", ran.returncode == 1 and ran.stdout.decode().split("\n") == lines)
    for name in texts:
        (clone.here / name).unlink()


def rows_of_messages():
    """The words, the text and the messages, if any, of each row of messages.txt; of those marked ? only the first counts."""
    for row in re.split(r"^\$ ", MESSAGES.read_text(encoding="utf-8"), flags=re.M)[1:]:
        head, *lines = row.rstrip("\n").split("\n")
        text = [it for it in lines if it[:2] not in ("! ", "? ")]
        yield head.split(), "".join(it + "\n" for it in text).encode(), [it for it in lines if it[:2] in ("! ", "? ")]


def try_messages(clone):
    """Each message of messages.txt; all 48 keywords misspelt; and each example of LANGUAGE's refusals."""
    for words, text, messages in rows_of_messages():
        into = any(it.startswith("--into") for it in words)
        said = (clone.run(words, text).stderr.decode() if into else clone.said(words, text)).splitlines()
        marks = messages[0][:2] if messages else "! "
        expect(f"the message of {words} on {text}: {said}", [marks + it for it in said][: 1 if marks == "? " else None] == messages)
    language = (TOP / "docs/LANGUAGE.md").read_text(encoding="utf-8")
    examples = re.findall(r"^\| (\w*) \|.*\| `(.*)` \|$", language[language.index("## Refusals") :], re.M)
    for number, (code, example) in enumerate(examples):
        code = code or next(it for it, _ in reversed(examples[:number]) if it)
        text = example.replace("\\|", "|") if example.startswith("proc") else f"proc factex; factors A B C; {example}".replace("\\|", "|")
        said = clone.said(["run"], text.encode()).splitlines()
        expect(f"a message for {text}: {said}", re.fullmatch(rf"<stdin>:1:\d+: error: .*\w.*; .*\w.* \[{code}\]", said[0] if said else ""))
    (clone.here / "a text.sas").write_bytes(REFUSED)
    expect("the file's name in a message", clone.run(["run", "a text.sas"]).stderr.startswith(b"a text.sas:4:1: error: "))
    (clone.here / "a text.sas").unlink()
    expect("a text without steps", clone.said(["run"], b"* nothing;\n") == "factex: <stdin> has no step\n")
    for number, code in enumerate(re.findall(r'^    \("([^"]*)"', (TOP / "check/causes.py").read_text(encoding="utf-8"), re.M)):
        expect(f"the codes of cause {number}: {code}", re.fullmatch(r"([LECJPB]\d+|[456])( [LECJPB]\d+)*", code))


def try_claims(clone):
    """What books prove, in words, by their heads."""
    for head, claim in CLAIMS.items():
        said = claims.claim_of(head.split("\n"))[0]
        expect(f"the claim of {head}: {said}", said == PROVED + claim)
    for text, claim in (("\n".join(BOOK), "5 factors of 2 levels in 8 runs has resolution 4"), (TABLE, "2 factors of 2 levels in 2 runs has resolution 3")):
        said = clone.run(["check"], text.encode()).stderr.decode()
        expect("an accepted book", said == f"{PROVED}{claim}\nIt is the claim of your step only if these are its numbers: a book has no names.\n")
    books = (TOP / "docs/BOOKS.md").read_text(encoding="utf-8")
    step = b"proc factex; factors A B C D E F G H; size design=32; model resolution=5; run;"
    book = clone.run(["run"], step).files["step1-1.book"]
    said = clone.run(["check"], book).stderr.decode().splitlines()[0]
    expect("the claim and the entry of BOOKS", f"    {said}\n" in books and b"\nW 30 1:1 6:1 7:1\n" in book and "`W 30 1:1 6:1 7:1`" in books)
    for other in (b"size 2 5 9 0", b"size 2 5 7 0"):
        expect(f"{other} is accepted", clone.run(["check"], book.replace(b"size 2 5 8 0", other)).returncode == 0)


def try_into(clone):
    """Plans and books in a folder of their own, and what is said of those that are replaced."""
    text = clone.here / "text.sas"
    text.write_bytes(ONE_STEP)
    whole = clone.run(["run"], ONE_STEP)
    for folder in ("new", "new/deep er", "-x", "new", str(clone.here / "whole")):
        ran = clone.run(["run", f"--into={folder}", "text.sas"])
        found = {it.name: it.read_bytes() for it in (clone.here / folder).iterdir() if it.is_file()}
        expect(f"plans in {folder}", (ran.returncode, ran.stdout, ran.stderr, ran.files, found) == (0, whole.stdout, b"", {}, whole.files))
    (clone.here / "plan.csv").write_text("mine\n")
    ran = clone.run(["run"], ONE_STEP)
    expect("a plan that is replaced in the current folder", (ran.returncode, ran.stderr, ran.files) == (0, b"factex: replaced plan.csv\n", whole.files))
    ran = clone.run(["run", "--into=new"], ONE_STEP.replace(b"out=Plan", b"out =\n Plan /**/ randomize(1)"))
    expect("a plan that is replaced", (ran.returncode, ran.stderr) == (0, b"factex: replaced plan.csv\n"))
    tables = (["catalogue", "2", "3", "5"], b""), (["catalogue", "2", "3", "5"], b""), (["catalogue", "2", "4", "6"], b"factex: replaced catalogue-5.book\n")
    tables += (["tables", "2", "3", "5"], b""), (["tables", "2", "3", "5"], b"")
    for words, says in tables:
        ran = clone.run([*words, "--into=new"])
        expect(f"{words} --into: {ran.stderr}", (ran.returncode, ran.stderr, ran.files) == (0, says, {}))
    expect("books in a folder", {"catalogue-4.book", "table-2-3-4.book"} < {it.name for it in (clone.here / "new").iterdir()})
    ran = clone.run(["-c", f"'{clone.top / 'factex'}' run --into=new text.sas >&-"], script="/bin/bash", stdin=subprocess.DEVNULL)
    expect("a folder, and standard output closed", ran.returncode == 4 and not ran.files)
    for folder in ("text.sas", "text.sas/x"):
        ran = clone.run(["run", f"--into={folder}", "text.sas"])
        expect(f"no folder {folder}", ran.returncode == 4 and ran.stdout == b"" and b"text.sas" in ran.stderr and not ran.files)
    ran = clone.run(["run", "--into=new", "missing.sas"])
    expect("a missing text", ran.returncode == 3 and b"cannot read file missing.sas" in ran.stderr)
    text.unlink()
    subprocess.run(["rm", "-r", "--", "new", "-x", "whole"], cwd=clone.here, check=True)


def try_make(clone):
    """The Makefile of COMMANDS: a design, no design, and a text that is refused."""
    commands = (TOP / "docs/COMMANDS.md").read_text(encoding="utf-8")
    rule = re.search(r"^    \.DELETE_ON_ERROR:\n(?:    .*\n)+", commands, re.M)[0]
    folder = clone.top / "studies"
    folder.mkdir()
    (folder / "Makefile").write_text("".join(it[4:] + "\n" for it in rule.splitlines()).replace("./factex", "../factex"))
    texts = {"good": ONE_STEP, "none": ONE_STEP.replace(b"resolution=4", b"resolution=5"), "refused": REFUSED}
    for name, text in texts.items():
        (folder / f"{name}.sas").write_bytes(text)
        ran = subprocess.run(["make", f"{name}.lst"], cwd=folder, env={"PATH": "/usr/bin:/bin"}, capture_output=True)
        made = name != "refused"
        expect(f"make {name}.lst", (ran.returncode == 0) == made and (folder / f"{name}.lst").exists() == made)
    expect("the plan of make", (folder / "good" / "plan.csv").exists())


def try_streams(clone):
    """Streams that are closed, or full, have the status of the program alone; a pipe that is closed early has 4."""
    text = clone.here / "text"
    text.write_bytes(ONE_STEP)
    program = clone.top / "bin/factex"
    for streams in ("<&-", ">&-", "2>&-", "<&- >&- 2>&-", ">/dev/full", "< .", "<text >&-", "<text >/dev/full", "<text 2>&-", "<text"):
        lines = [f"'{command}' run {streams}" for command in (program, clone.top / "factex")]
        statuses = {clone.run(["-c", line], script="/bin/bash", stdin=subprocess.DEVNULL).returncode for line in lines}
        expect(f"the status with {streams}", len(statuses) == 1)
    line = f"'{clone.top / 'factex'}' run < text | true; exit ${{PIPESTATUS[0]}}"
    expect("a pipe that is closed early", clone.run(["-c", line], script="/bin/bash", stdin=subprocess.DEVNULL).returncode == 4)
    text.unlink()


def try_folders(clone):
    """A link to the script, a checkout that nobody can write to, several runs at once, and a changed source."""
    link = clone.here / "a link"
    link.symlink_to(clone.top / "factex")
    expect("a link to the script", clone.run(["run"], ONE_STEP, script=link).returncode == 0)
    link.unlink()
    nobody = ["setpriv", "--reuid=65534", "--regid=65534", "--clear-groups"] if os.geteuid() == 0 else []
    subprocess.run(["chmod", "-R", "a-w,a+rX", clone.top], check=True)
    for folder in (clone.here.parent, clone.here):
        folder.chmod(0o777)
    ran = clone.run([*nobody[1:], clone.top / "factex", "run"], ONE_STEP, script=nobody[0] if nobody else clone.top / "factex")
    expect("a checkout without permission to write", ran.returncode == 0 and list(ran.files) == ["plan.csv"])
    subprocess.run(["chmod", "-R", "u+w", clone.top], check=True)
    many = [subprocess.Popen([clone.top / "factex", "make", "3"], stdout=subprocess.PIPE, env={"PATH": "/usr/bin:/bin"}) for _ in range(8)]
    expect("several runs at once", len({it.communicate()[0] for it in many}) == 1 and not any(it.returncode for it in many))
    with open(clone.top / "crates/fx_base/src/lib.rt", "a") as source:
        source.write("\n")
    ran = clone.run(["make", "1"])
    expect("a changed source", ran.returncode == 7 and b"not built from these sources" in ran.stderr and b"rt is not on the path" in ran.stderr)


def try_signals(clone):
    """A signal to the script alone ends the program too, and leaves nothing in the temporary folder."""
    slow = b"proc factex nodes=5000000; factors X1-X12 / nlev=3; size design=81; model resolution=3 / minabs; run;" * 20
    kept = clone.here / "kept"
    kept.mkdir()
    for number in (signal.SIGINT, signal.SIGTERM, signal.SIGHUP):
        child = subprocess.Popen([clone.top / "factex", "run"], cwd=clone.here, env={"PATH": "/usr/bin:/bin", "TMPDIR": str(kept)},
                                 stdin=subprocess.PIPE, stdout=subprocess.PIPE, stderr=subprocess.DEVNULL)
        child.stdin.write(slow)
        child.stdin.close()
        time.sleep(0.5)
        child.send_signal(number)
        began = time.monotonic()
        # The program holds the other end of the pipe as long as it runs.
        child.stdout.read()
        child.wait()
        expect(f"{number!r} to the script", time.monotonic() - began < 2 and not list(kept.iterdir()))
    kept.rmdir()


def try_systems(clone):
    """Another system, and an older C library, by programs of their names in front of the path."""
    for name, says, needs in (("uname", "Darwin arm64", b"needs Linux on x86-64"), ("getconf", "glibc 2.31", b"needs the GNU C library 2.34")):
        fake = clone.here / name
        fake.write_text(f"#!/bin/sh\necho {says}\n")
        fake.chmod(0o755)
        ran = subprocess.run([clone.top / "factex", "make", "1"], env={"PATH": f"{clone.here}:/usr/bin:/bin"}, capture_output=True)
        expect(f"a system with {says}", ran.returncode == 7 and needs in ran.stderr and not ran.stdout)
        fake.unlink()


def main():
    with tempfile.TemporaryDirectory() as room:
        clone = Clone(pathlib.Path(room))
        for attempt in (try_first_command, try_words, try_texts, try_messages, try_checks, try_claims, try_into, try_make, try_streams, try_signals, try_systems, try_folders):
            attempt(clone)
    return 1 if wrong else 0


if __name__ == "__main__":
    sys.exit(main())
