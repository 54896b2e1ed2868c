"""Holds what `rows --progress` tells, in a pipe and on a terminal, against its form, and its script against the other."""
import contextlib
import json
import os
import pathlib
import re
import subprocess
import tempfile

ROWS = 10_000
# More rows than are bound at once.
BAD = 9_000
LINE = r"mysql_bind: (\d+) rows, \d+\.\d of \d+\.\d [kMG]B, \d+ rows/s, \d+ s left"
LAST = r"mysql_bind: (\d+) rows, \d+\.\d [kMG]B, \d+ rows/s, \d+\.\d s"
FORMS = [["--csv", "t.csv"], ["--csv", "t.csv", "--stream"], ["--ndjson", "t.json"], ["--ndjson", "t.json", "--stream"],
         ["--csv", "t.csv", "--transaction"]]  # fmt: skip


def write_tables(folder, number):
    """The tables with this number in one row."""
    numbers = [number if i == BAD else i for i in range(ROWS)]
    pathlib.Path(folder, "q.sql").write_text("INSERT INTO t VALUES (:a, :b)")
    pathlib.Path(folder, "t.csv").write_text("a,b\n" + "".join(f"{n},it's {i}\n" for i, n in enumerate(numbers)))
    lines = [json.dumps({"a": n, "b": f"it's {i}"}) for i, n in enumerate(numbers)]
    pathlib.Path(folder, "t.json").write_text("\n".join(lines))


def in_pipe(program, folder, words):
    """Script, messages and status."""
    typed = ["--column=a:int"] if "--csv" in words else []
    ran = subprocess.run([program, "rows", *words, *typed, "q.sql"], cwd=folder, capture_output=True, text=True)
    return ran.stdout, ran.stderr, ran.returncode


def on_terminal(program, folder, words):
    """The same, with standard error on a terminal."""
    ours, theirs = os.openpty()
    ran = subprocess.run([program, "rows", *words, "--column=a:int", "q.sql"], cwd=folder, stdout=subprocess.PIPE,
                         stderr=theirs, text=True)
    os.close(theirs)
    told = b""
    # A terminal that nobody writes to is an error here.
    with contextlib.suppress(OSError):
        while more := os.read(ours, 1 << 16):
            told += more
    os.close(ours)
    return ran.stdout, told.decode().replace("\r\n", "\n"), ran.returncode


def is_told(lines):
    """Whether the lines tell of more and more rows, and the last of all."""
    counts = [re.fullmatch(LINE, line) for line in lines[:-1]] + [re.fullmatch(LAST, line) for line in lines[-1:]]
    if not all(counts) or len(counts) < 2:
        return False
    rows = [int(count[1]) for count in counts]
    return rows == sorted(set(rows)) and rows[-1] == ROWS


def faults_of_progress(program):
    """What is wrong with what is told of progress."""
    with tempfile.TemporaryDirectory() as folder:
        write_tables(folder, BAD)
        for words in FORMS:
            script, told, status = in_pipe(program, folder, words)
            silent = in_pipe(program, folder, [*words, "--no-progress"])
            if told or status or script.count("INSERT") != ROWS or silent != (script, "", 0):
                yield f"rows {words}: told of progress without --progress: {told!r}"
            same, told, status = in_pipe(program, folder, [*words, "--progress"])
            if (same, status) != (script, 0) or not is_told(told.splitlines()):
                yield f"rows {words} --progress: another script, or {told!r}"
        script = in_pipe(program, folder, FORMS[0])[0]
        # The line is written over, and wiped: the cursor is in front of it.
        found = on_terminal(program, folder, [*FORMS[0], "--progress"])
        if (found[0], found[2]) != (script, 0) or not re.fullmatch(rf"(?:{LINE} *\r)+ +\r", found[1]):
            yield f"--progress on a terminal: {found[1]!r}"
        # Nothing is told before a second has passed.
        for more, wanted in ([], rf"((?:{LINE} *\r)+ +\r)?"), (["--no-progress"], ""):
            found = on_terminal(program, folder, [*FORMS[0], *more])
            if (found[0], found[2]) != (script, 0) or not re.fullmatch(wanted, found[1]):
                yield f"rows {more} on a terminal: {found[1]!r}"
        write_tables(folder, "x")
        message = f"mysql_bind: t.csv:{BAD + 2}: `a` is no whole number from -2^63 to 2^63-1\n"
        found = in_pipe(program, folder, [*FORMS[0], "--progress"])
        if found[0] or found[2] != 1 or not re.fullmatch(rf"(?:{LINE}\n)+{re.escape(message)}", found[1]):
            yield f"--progress of a refused row: {found}"
        found = on_terminal(program, folder, [*FORMS[0], "--progress"])
        if found[0] or found[2] != 1 or not re.fullmatch(rf"(?:{LINE} *\r)+ +\r{re.escape(message)}", found[1]):
            yield f"--progress of a refused row on a terminal: {found}"
