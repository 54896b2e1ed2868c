"""Inputs of any length for the program mysql_bind: of each kind that may take it more time than another of that length."""
import os
import pathlib
import subprocess
import tempfile
import time
from dataclasses import dataclass, field

PLAIN = ["--literals=plain", "--mode=backslash"]


@dataclass
class Input:
    """A call: its words, standard input, which is the query or the table of `rows`, and the texts of its files by name."""

    words: list
    stdin: bytes
    files: dict = field(default_factory=dict)


def repeated(unit, size):
    """The unit again and again, to about this length: `%d` in it is a number that is another each time."""
    if b"%d" not in unit:
        return unit * (size // len(unit))
    units, length = [], 0
    while length < size:
        units.append(unit.replace(b"%d", b"%d" % len(units)))
        length += len(units[-1])
    return b"".join(units)


def checked(unit, *words, front=b"SELECT 1 "):
    return lambda size: Input(["check", *words], front + repeated(unit, size) + b"\n")


def listed(size, unit=b":a%d, "):
    return b"SELECT " + repeated(unit, size) + b"1\n"


def numbers(size, unit=b":a%d, "):
    """One number for each different name of `listed`."""
    return range(repeated(unit, size).count(b":"))


def bound(*words, value=lambda n: b"a%d=x\0" % n, unit=b":a%d, "):
    """A query of different names, with a pair for each."""
    return lambda size: Input(["bind", *words, "--pairs", "pairs"], listed(size, unit),
                              {"pairs": b"".join(map(value, numbers(size, unit)))})


def json_object(each, size):
    return b"{" + b",".join(b'"a%d":%s' % (n, each) for n in numbers(size)) + b"}\n"


def changed_name(size):
    """Different names, the value of one of which a client would change."""
    pairs = [b"a%d:identifier=x\0" % n for n in numbers(size)]
    return Input(["bind", *PLAIN, "--pairs", "pairs"], listed(size),
                 {"pairs": b"".join(pairs)[:-1] + b"\ndelimiter\0"})


def of_json(*words, query=listed, value=b"1"):
    return lambda size: Input(["bind", *words, "--json", "json"], query(size), {"json": json_object(value, size)})


def written(*words, query=b"INSERT INTO t VALUES (:a, :b)", front=b"a,b\n", unit=b"%d,some text\n"):
    """A short query for each of many rows."""
    return lambda size: Input(["rows", *words, "-", "query"], front + repeated(unit, size), {"query": query})


def wide(form, rows, *words, query=listed, files=lambda size: {}):
    """A query of many names, and a table with a column for each."""
    return lambda size: Input(["rows", *words, f"--{form}", "-", "query"], rows(size), {"query": query(size), **files(size)})


def wide_csv(size, unit=b":a%d, "):
    """The names of `listed`, and a row."""
    names, fields = (b",".join(text % n for n in numbers(size, unit)) for text in (b"a%d", b"%d"))
    return names + b"\n" + fields + b"\n"


# By command and kind. Each makes an input of about the length that it is given.
INPUTS = {
    "check": {
        "statements without names": checked(b"; INSERT INTO t VALUES (%d, 'some text')"),
        "names": checked(b", :a%d"),
        "joined names": checked(b"x:a%d, "),
        "one joined name": checked(b"x:a, "),
        "names joined to names": checked(b":a%d"),
        "names joined on lines": checked(b"x:a%d,\n"),
        "`; use`": checked(b"; use a"),
        "lines of `delimiter`": checked(b"\ndelimiter a"),
        "`*/` before a byte from 128 on": checked(b" */\xc3\xa9", *PLAIN),
        "`--` that may be a comment": checked(b" --\x01"),
        "`--` before comments": checked(b" --# c\n"),
        "`-` before names": checked(b";-:a%d "),
        "`$a`": checked(b"$a"),
        "`[`": checked(b"["),
        "`[` on lines": checked(b"\n["),
        "`\\\"` in texts": checked(b' "\\"",', *PLAIN),
        "`\\`": checked(b"\\g", *PLAIN),
        "executable comments": checked(b" /*!'*/"),
        "hints": checked(b" /*+'*/"),
        "openers in comments": checked(b" /* /*! */"),
        "numbers before names": checked(b" 1e+:a%d"),
        "`.e--`": checked(b" .1e--\n"),
        "carriage returns in comments": checked(b"#\rx\n"),
        "bytes 0": checked(b"\0"),
        "newlines escaped": checked(b"'\\\n',", *PLAIN),
        "unsteady bytes": checked(b"\xc3\xa9 "),
        "marks": checked(b"?, "),
        "names, as JSON": checked(b"x:a%d, ", "--errors=json"),
        "names, for GitHub": checked(b"x:a%d, ", "--errors=github"),
        "constructs, all servers' queries": checked(b"x:a%d [", "--allow-unportable"),
    },
    "bind": {
        "one name again and again": lambda size: Input(["bind", "--set", "a=x"], listed(size, b":a, ")),
        "names": bound(),
        "names, plain literals": bound(*PLAIN),
        "names without a mode's check": bound("--allow-unportable"),
        "names of exact numbers": bound(value=lambda n: b"a%d:decimal=1\0" % n),
        "names of doubles": bound(value=lambda n: b"a%d:double=0.1\0" % n),
        "names of identifiers": bound(value=lambda n: b"a%d:identifier=x\0" % n),
        "names of lists": bound(value=lambda n: b"a%d:list=[1]\0" % n),
        "names from JSON": of_json(),
        "unused values": of_json(query=lambda size: b"SELECT 1\n"),
        "unused values that are left out": of_json("--allow-unused", query=lambda size: b"SELECT 1\n"),
        "names without a value": lambda size: Input(["bind"], listed(size)),
        "names without a value, as JSON": lambda size: Input(["bind", "--errors=json"], listed(size)),
        "wrong values": bound(value=lambda n: b"a%d:int=x\0" % n),
        "values that stand twice": bound(value=lambda n: b"a%d=x\0a%d=y\0" % (n, n)),
        "joined names": bound(unit=b"x:a%d, "),
        "a name that a client would change": changed_name,
        "one long text": lambda size: Input(["bind", "--file", "a=text"], b"SELECT :a\n", {"text": repeated(b"it's ", size)}),
        # The first digits are of the number halfway between 2^53 and the next double.
        "one long double": lambda size: Input(["bind", "--file", "a:double=text"], b"SELECT :a\n",
                                              {"text": b"9007199254740993." + repeated(b"0", size) + b"1"}),
    },
    "names": {
        "one name": lambda size: Input(["names"], listed(size, b":a, ")),
        "names": lambda size: Input(["names"], listed(size)),
        "names, each twice": lambda size: Input(["names"], listed(size // 2)[:-2] + listed(size // 2)[6:]),
        "names with a byte 0": lambda size: Input(["names", "--zero"], listed(size)),
    },
    "rows": {
        "CSV": written("--csv"),
        "TSV": written("--tsv", front=b"a\tb\n", unit=b"%d\tsome text\n"),
        "NDJSON": written("--ndjson", front=b"", unit=b'{"a":%d,"b":"some text"}\n'),
        "CSV with `--stream`": written("--stream", "--csv"),
        "CSV with quotes": written("--csv", unit=b'%d,"it\'s ""b"""\n'),
        "empty lines": written("--csv", unit=b"\n"),
        "columns of CSV": wide("csv", wide_csv),
        "columns of TSV": wide("tsv", lambda size: wide_csv(size).replace(b",", b"\t")),
        "members of JSON": wide("ndjson", lambda size: json_object(b"1", size)),
        "columns that aren't used": wide("csv", wide_csv, "--allow-unused", query=lambda size: b"SELECT 1"),
        "columns without a name": wide("csv", wide_csv, query=lambda size: b"SELECT 1"),
        "members without a name": wide("ndjson", lambda size: json_object(b"1", size), query=lambda size: b"SELECT 1"),
        "names without a column": wide("csv", lambda size: b"b\n1\n"),
        "names without a member": wide("ndjson", lambda size: b"{}\n"),
        "values by an option": wide("csv", lambda size: b"b\n1\n", "--allow-unused", "--json", "json",
                                    files=lambda size: {"json": json_object(b"1", size)}),
        "members and values by an option": wide("ndjson", lambda size: b"{}\n", "--json", "json",
                                                files=lambda size: {"json": json_object(b"1", size)}),
        "wrong fields": written("--column", "a:int", "--csv", unit=b"x%d,y\n"),
        "joined names": wide("csv", lambda size: wide_csv(size, b"x:a%d, "), query=lambda size: listed(size, b"x:a%d, ")),
    },
}


def processor_time(program, made, bound):
    """The seconds of the processor that a call takes: those of `bound`, if it doesn't end within them."""
    with tempfile.TemporaryDirectory() as folder:
        for name, text in made.files.items():
            pathlib.Path(folder, name).write_bytes(text)
        with tempfile.TemporaryFile() as stdin, tempfile.TemporaryFile() as written, tempfile.TemporaryFile() as told:
            stdin.write(made.stdin)
            stdin.seek(0)
            ran = subprocess.Popen([program, *made.words], stdin=stdin, stdout=written, stderr=told, cwd=folder)
            end = time.monotonic() + bound
            while True:
                pid, status, usage = os.wait4(ran.pid, os.WNOHANG)
                if pid:
                    ran.returncode = os.waitstatus_to_exitcode(status)
                    return usage.ru_utime + usage.ru_stime
                if time.monotonic() > end:
                    ran.kill()
                    ran.wait()
                    return bound
                time.sleep(0.001)
