"""Holds the scripts of `rows --rows-per-statement` and `--max-bytes` against statements that are put together here.

A statement takes rows one by one, as long as it has fewer than are asked for and with the next one isn't longer than asked
for. Literals are written here too: of numbers, NULL, and texts in steady form.
"""
import pathlib
import random
import subprocess
import tempfile
import time

QUERY = "INSERT INTO t (id, note) VALUES :row /* '; */ -- rows"
END = "\n;\n"
# Texts that would end a literal, a row or a statement if a byte of them did.
TEXTS = ["", "x", "it's", "''", "'), ('", ":row", "?", "a;b", "-- ", "/*", "\\", "\\'", "a\nb", "\n;\n", "\r\n", "\0", "é", "日本",
         "`", '"', "%s", "NULL", "x" * 40]  # fmt: skip
# A table of so many rows takes about a second at most; it was 0.1 seconds.
MANY, BOUND = 20_000, 10


def literal(text):
    """The literal of a text in steady form."""
    if all(" " <= letter <= "~" and letter != "\\" for letter in text):
        return "_utf8mb4'" + text.replace("'", "''") + "'"
    return "_utf8mb4 0x" + text.encode().hex().upper()


def row_text(row):
    number, text = row
    return f"({number}, {'NULL' if text is None else literal(text)})"


def field(text):
    return "-" if text is None else '"' + text.replace('"', '""') + '"'


def table(rows):
    return "id,note\n" + "".join(f"{number},{field(text)}\n" for number, text in rows)


def line_of(rows, number):
    """The line at which the row of this number begins."""
    return 2 + table(rows[:number]).count("\n") - 1


def statement(texts):
    return QUERY.replace(":row", ", ".join(texts), 1) + END


def size(texts):
    return len(statement(texts).encode())


def statements(rows, most_rows, most_bytes):
    """The statements of the rows, up to the first that is too long by itself, and its number."""
    whole, texts = [], []
    for number, row in enumerate(rows):
        text = row_text(row)
        if texts and (len(texts) == most_rows or size([*texts, text]) > most_bytes):
            whole.append(statement(texts))
            texts = []
        if size([text]) > most_bytes:
            return whole, number
        texts.append(text)
    return whole + ([statement(texts)] if texts else []), None


def written(program, rows, words):
    """What is written for the rows, the messages, and the status."""
    with tempfile.TemporaryDirectory() as folder:
        pathlib.Path(folder, "q.sql").write_bytes(QUERY.encode())
        pathlib.Path(folder, "t.csv").write_bytes(table(rows).encode())
        ran = subprocess.run([program, "rows", "--csv", "t.csv", "--column=id:int", "--null-of=note=-", *words, "q.sql"],
                             cwd=folder, capture_output=True)
    return ran.stdout.decode(), ran.stderr.decode(), ran.returncode


def wanted(rows, most_rows, most_bytes, stream, transaction):
    found, refused = statements(rows, most_rows, most_bytes)
    script = "".join(found)
    begin, end = ("START TRANSACTION" + END, "COMMIT" + END) if transaction else ("", "")
    if refused is None:
        return begin + script + end, "", 0
    place, least = f"t.csv:{line_of(rows, refused)}", size([row_text(rows[refused])])
    message = f"mysql_bind: {place}: a statement with only this row has {least} bytes, and --max-bytes is {most_bytes}\n"
    return begin + script if stream and (found or transaction) else "", message, 1


def fault(program, rows, most_rows, most_bytes, stream=False, transaction=False):
    """What is wrong with the script of these rows, if something is."""
    words = [f"--rows-per-statement={most_rows}"] * (most_rows is not None)
    words += [f"--max-bytes={most_bytes}"] * (most_bytes is not None) + ["--stream"] * stream + ["--transaction"] * transaction
    found = written(program, rows, words)
    right = wanted(rows, most_rows or len(rows) + 1, most_bytes or 1 << 40, stream, transaction)
    if found != right:
        yield f"{words} of {rows[:9]}: {found}, and not {right}"


def rows_of(some, count):
    return [(some.randint(-(10 ** some.randint(0, 17)), 99), some.choice([*TEXTS, None])) for _ in range(count)]


def faults_of_groups(program):
    """The scripts that are other than these statements."""
    some = random.Random(72)
    # At each byte around all sizes of a table.
    rows = [(1, "x"), (22, "it's"), (333, None), (4, "\\"), (55555, "y" * 9)]
    for most in range(size([row_text(rows[0])]) - 1, size([row_text(row) for row in rows]) + 2):
        yield from fault(program, rows, None, most, stream=most % 2 == 0, transaction=most % 3 == 0)
    for most in range(1, len(rows) + 2):
        yield from fault(program, rows, most, None, stream=most % 2 == 0)
    for _ in range(150):
        rows = rows_of(some, some.randint(0, 40))
        limit = some.choice([None, some.randint(60, 200), some.randint(100, 2000)])
        yield from fault(program, rows, some.randint(1, 9) if limit is None or some.random() < 0.5 else None, limit,
                         some.random() < 0.5, some.random() < 0.5)
    # Progress is told of all rows, and the script is the same.
    rows = rows_of(some, 40)
    found = written(program, rows, ["--rows-per-statement=3", "--progress"])
    lines = found[1].splitlines()
    right = wanted(rows, 3, 1 << 40, False, False)
    if (found[0], found[2]) != (right[0], 0) or not lines or not lines[-1].startswith(f"mysql_bind: {len(rows)} rows, "):
        yield f"--progress of groups: {found}"
    rows = rows_of(some, MANY)
    begun = time.monotonic()
    yield from fault(program, rows, None, 1 << 16, stream=True)
    yield from fault(program, rows, 1000, None)
    if (took := time.monotonic() - begun) > BOUND:
        yield f"{MANY} rows in groups: {took:.1f} seconds"
