"""Puts a secret into each source of mysql_bind, provokes each refusal, and looks for it in the messages.

A message in each form is to hold no secret and no control byte, and to be lines of that form. The same is tried with
control characters in each option, name and path, which messages show.
"""
import itertools
import json
import os
import pathlib
import re
import subprocess
import tempfile
from dataclasses import dataclass, field

SECRET = "s3cret"
NUMBER = "8765432187654321"
# What a terminal, a line or a form takes for more than a letter.
ODD = "x\x1b[31m\r\n\x7f\u009b\u2028\u202ex"
HOSTILE = f"{SECRET}{ODD}{SECRET}"
# No type except `bytes` takes them.
BYTES = SECRET.encode() + b"\xff`\\"
TYPES = ["int", "uint", "bool", "hex", "base64", "decimal", "double", "list", "identifier"]
FORMS = ["text", "json", "github"]
CONTROL = re.compile("[\0-\x1f\x7f-\x9f\u061c\u200e\u200f\u2028-\u202e\u2066-\u2069]")


@dataclass
class Refusal:
    """Words that are refused, and what stands in the files that they name, in variables, and on standard input."""

    words: list
    files: dict = field(default_factory=dict)
    variables: dict = field(default_factory=dict)
    stdin: bytes = b""


def sources(kind, value):
    """The words that give `a` this value as this type, from each source that can have its bytes."""
    name = f"a:{kind}"
    yield Refusal(["--file", f"{name}=given"], {"given": value})
    yield Refusal(["--file", f"{name}=-"], stdin=value)
    yield Refusal(["--pairs", "given"], {"given": name.encode() + b"=" + value + b"\0"})
    yield Refusal(["--pairs", "-"], stdin=name.encode() + b"=" + value + b"\0")
    yield Refusal(["--env", f"{name}=GIVEN"], variables={"GIVEN": value})
    yield Refusal([f"--env={name}"], variables={"a": value})
    try:
        yield Refusal(["--set", f"{name}={value.decode()}"])
        yield Refusal([f"--set={name}={value.decode()}"])
    except UnicodeDecodeError:
        pass


def with_query(words, given, query=b"SELECT :a"):
    """The same after these words, for this query."""
    return Refusal([*words, *given.words, "q.sql"], {"q.sql": query, **given.files}, given.variables, given.stdin)


def values():
    """A secret as a value that isn't taken, in each source."""
    several = HOSTILE.encode(), BYTES, SECRET.encode() * 99, f"{NUMBER}e{NUMBER}".encode()
    tried = [*itertools.product(TYPES, several), ("text", BYTES), ("line", BYTES), ("line", f"{SECRET}\n{SECRET}".encode())]
    # A client would change the text.
    tried.append(("identifier", f"\ndelimiter {SECRET}".encode()))
    for kind, value in tried:
        for given in sources(kind, value):
            # The number is a name too.
            if (kind, value) != ("identifier", several[3]):
                yield with_query(["bind"], given)
    for given in sources("text", f"\ndelimiter {SECRET}".encode()):
        yield with_query(["bind", "--literals=plain", "--mode=no-backslash"], given)


def queries():
    """A secret as a value that is taken, and a query that is refused, or has another name."""
    texts = [
        b"SELECT 1", b"SELECT :b", b"SELECT x:a", b"SELECT :a ?", b"SELECT :a, '", b"SELECT :a [x]", b"SELECT :a, \xff",
        b"source :a",
    ]  # fmt: skip
    member, quoted = json.dumps({"a": HOSTILE}).encode(), f'a\n"{HOSTILE}"\n'.encode()
    several = [*sources("text", HOSTILE.encode()), Refusal(["--json", "given"], {"given": member})]
    for text, given in itertools.product(texts, several):
        yield with_query(["bind"], given, text)
    tables = [quoted, f"a\n{SECRET}\n".encode(), member]
    for text, option, table in itertools.product(texts, ["--csv", "--tsv", "--ndjson"], tables):
        yield Refusal(["rows", option, "given", "q.sql"], {"q.sql": text, "given": table})
    for given, other in itertools.product(several, [["--null", "a"], ["--set", f"a={SECRET}"]]):
        yield with_query(["bind", *other], given)


def shapes():
    """A secret in JSON, in a table and in pairs that can't be read, or that have another form."""
    texts = [
        SECRET, f'"{SECRET}', f'"{SECRET}\x01"', f'"\\ud800{SECRET}"', f"1e{NUMBER}", f"0{NUMBER}", f"{NUMBER}{NUMBER}",
        f"tru{SECRET}", f'{{"b": "{SECRET}"}}', f'[["{SECRET}"]]', f'"{SECRET}", "a": "{SECRET}"',
    ]  # fmt: skip
    whole = [f'["{SECRET}"]', f'"{SECRET}"', f'{{"a": 1}} {SECRET}', f'{{"a": "{SECRET}", "{SECRET}"}}']
    for text in [*(f'{{"a": {text}}}' for text in texts), *(f'{{"a": [1, {text}]}}' for text in texts), *whole]:
        yield with_query(["bind"], Refusal(["--json", "given"], {"given": text.encode()}))
        yield with_query(["bind"], Refusal(["--json", "-"], stdin=text.encode()))
        yield with_query(["rows"], Refusal(["--ndjson", "given"], {"given": f"\n{text}\n".encode()}))
        yield with_query(["rows"], Refusal(["--ndjson", "-", "--stream"], stdin=text.encode()))
    rows = [
        f"a\n5{SECRET}\r{SECRET}\n", f"{SECRET}\n{SECRET}\n", f"a\n{SECRET},{SECRET}\t{SECRET}\n", f"a,{SECRET}\n1,{SECRET}\n",
        f"{SECRET},{SECRET},a\n1,2,3\n", f"a,a\n{SECRET},2\n", f'a\n"{SECRET}\n', f'a\n"{SECRET}"{SECRET}\n',
        f'a\n{SECRET}"{SECRET}\n', f'"{HOSTILE}"\n1\n', f"a\n{SECRET}\n",
    ]  # fmt: skip
    for text, option in itertools.product(rows, ["--csv", "--tsv"]):
        for kind in "int", "hex":
            yield with_query(["rows", f"--column=a:{kind}"], Refusal([option, "given"], {"given": text.encode()}))
            yield with_query(["rows", f"--column=a:{kind}", "--stream"], Refusal([option, "-"], stdin=text.encode()))
    # The first line of a table without names is a row of values.
    changed = ["--literals=plain", "--mode=no-backslash"]
    nameless = [
        (f"{SECRET}\n".encode() + BYTES + b"\n", []), (f"{SECRET},b\n1\n".encode(), []),
        (f'{SECRET}\n"\ndelimiter"\n'.encode(), changed), (f"{SECRET}\n{SECRET}\n".encode(), ["--max-bytes=9"]),
    ]  # fmt: skip
    for (text, more), option in itertools.product(nameless, ["--csv", "--mysql-csv"]):
        yield with_query(["rows", "--rows-per-statement=2", *more], Refusal([option, "-"], stdin=text), b"SELECT :row")
    pairs = [
        SECRET, f"a={SECRET}", f"{SECRET}\0", f"a:{SECRET}=x\0", f":{SECRET}=x\0", f"a=x\0{SECRET}=x\0", f"a=x\0a=x{SECRET}\0",
    ]  # fmt: skip
    for text in [*(text.encode() for text in pairs), BYTES + b"=x\0"]:
        yield with_query(["bind"], Refusal(["--pairs", "given"], {"given": text}))


def words():
    """A secret in a word that is no value, or stands where none is taken."""
    files = {"q.sql": b"SELECT :a", "given": b"a\nx\n"}
    yield from (Refusal(words, files) for words in [
        [SECRET], [SECRET, "--set", f"a={SECRET}"], [f"--bogus={SECRET}"], ["bind", SECRET, SECRET], ["names", "q.sql", SECRET],
        ["bind", "--set", SECRET, "q.sql"], ["bind", "--set", f"a:{SECRET}"], ["bind", "--set", f"a:{SECRET}=x"],
        ["bind", "--set", f":{SECRET}=x"], ["bind", "--set", f"--{SECRET}"], ["bind", "--set", f"-{SECRET}"],
        ["bind", "--file", SECRET], ["bind", "--file", f"a:{SECRET}=x"], ["bind", "--env", f"a={SECRET}", "q.sql"],
        ["bind", "--env", f"a:{SECRET}"], ["bind", "--null", f"a={SECRET}"], ["bind", "--null", f"a:{SECRET}"],
        ["bind", f"--literals={SECRET}"], ["bind", "--literals", SECRET], ["bind", "--literals=plain", f"--mode={SECRET}"],
        ["bind", "--literals=plain", f"--sql-mode={SECRET}"], ["bind", f"--mode={SECRET}"], ["bind", f"--sql-mode={SECRET}"],
        ["bind", f"--decimals={SECRET}"], ["bind", f"--allow-unused={SECRET}"], ["bind", f"--bogus={SECRET}"],
        ["bind", f"-x{SECRET}"], ["bind", "-o", f"--{SECRET}"], ["rows", "--csv", "given", "--column", SECRET, "q.sql"],
        ["rows", "--csv", "given", "--column", f"a:{SECRET}", "q.sql"], ["rows", "--null-text", f"--{SECRET}"],
        ["rows", "--csv", "given", "--null-of", SECRET, "q.sql"], ["rows", "--csv", "given", "--null-of", f"b={SECRET}", "q.sql"],
        ["rows", "--csv", "given", "--null-of", f"a={SECRET}", "--null-of", f"a={SECRET}", "q.sql"],
        ["rows", f"--null-text={SECRET}"], ["rows", f"--null-text={SECRET}", "--ndjson", "given", "q.sql"],
        ["rows", f"--stream={SECRET}"], ["names", f"--set=a={SECRET}"], ["check", f"--set=a={SECRET}"],
        ["rows", "--csv", "given", f"--set=a={SECRET}", f"--set=b={SECRET}", "q.sql"],
    ])  # fmt: skip


def shown():
    """Control characters in what messages show: options, names, members, paths."""
    member, number = json.dumps({ODD: 1}).encode(), json.dumps({"a": 1.5}).encode()
    beside, inner = json.dumps({"a": 1, ODD: 1}).encode(), json.dumps({ODD: {}}).encode()
    yield from (Refusal(words, {"q.sql": b"SELECT :a", **files}) for words, files in [
        (["bind", f"--{ODD}"], {}), (["bind", f"--{ODD}=x"], {}), (["bind", "--set", f"{ODD}=x", "q.sql"], {}),
        (["bind", "--file", f"{ODD}=q.sql", "q.sql"], {}), (["bind", "--env", f"{ODD}=NONE", "q.sql"], {}),
        (["bind", "--null", ODD, "q.sql"], {}), (["bind", "--file", f"a={ODD}", "q.sql"], {}), (["bind", ODD], {}),
        (["bind", ODD], {ODD: b"SELECT :a"}), (["check", ODD, "none"], {ODD: b"SELECT ?, [x]"}),
        (["check", ODD], {ODD: b"\xff[\xff"}),
        (["bind", "--set=b=x", ODD], {ODD: b"SELECT 1"}), (["bind", "--json", ODD, "q.sql"], {ODD: b"["}),
        (["bind", "--json", "given", "q.sql"], {"given": member}), (["bind", "--json", ODD, "q.sql"], {ODD: beside}),
        (["bind", "--json", ODD, "q.sql"], {ODD: number}), (["bind", "--json", "given", "q.sql"], {"given": inner}),
        (["bind", "--pairs", ODD, "q.sql"], {ODD: f"{ODD}=x\0".encode()}), (["bind", "--pairs", ODD, "q.sql"], {ODD: b"x"}),
        (["bind", "-o", f"none/{ODD}", "--set=a=x", "q.sql"], {}), (["names", "-o", f"none/{ODD}", "q.sql"], {}),
        (["rows", "--csv", ODD, "q.sql"], {ODD: f'"{ODD}"\nx\n'.encode()}), (["rows", "--csv", ODD, "q.sql"], {ODD: b"a\n1,2\n"}),
        (["rows", "--csv", ODD, "q.sql"], {ODD: b""}), (["rows", "--csv", ODD, "q.sql"], {ODD: b'a\n"x\n'}),
        (["rows", "--csv", "q.sql", "--column", f"{ODD}:int", "q.sql"], {}),
        (["rows", "--csv", "q.sql", "--column", f"{ODD}:int", "--column", f"{ODD}:int", "q.sql"], {}),
        (["rows", "--csv", "q.sql", "--column", f"a={ODD}", "--null-of", f"{ODD}=x", "q.sql"], {}),
        (["rows", "--csv", "q.sql", "--column", f"{ODD}=x", "--column", "b=x", "q.sql"], {}),
        (["rows", "--csv", "q.sql", "--null-of", f"{ODD}=x", "--null-of", f"{ODD}=x", "q.sql"], {}),
        (["rows", "--tsv", ODD, "--column=a:int", "q.sql"], {ODD: b"a\nx\n"}), (["rows", "--tsv", ODD, ODD], {ODD: b"SELECT 1"}),
        (["rows", "--ndjson", ODD, "q.sql"], {ODD: member}), (["rows", "--ndjson", ODD, "q.sql"], {ODD: b"x"}),
        (["rows", "--ndjson", "given", "q.sql"], {"given": beside}), (["rows", "--ndjson", "given", "q.sql"], {"given": inner}),
        (["rows", "--ndjson", ODD, "--set", f"{ODD}=x", "q.sql"], {ODD: b""}),
    ])  # fmt: skip


def form_fault(form, message):
    """What is wrong with a message in this form, or None."""
    if not message.endswith("\n"):
        return "no whole line"
    for line in message[:-1].split("\n"):
        if CONTROL.search(line):
            return "a control byte"
        try:
            told = json.loads(line) if form == "json" else {"message": line}
        except ValueError:
            return "no JSON"
        if not {"message"} <= told.keys() <= {"file", "line", "column", "message"}:
            return "another object"
        if form != "json" and not line.startswith({"text": "mysql_bind: ", "github": "::error"}[form]):
            return "another line"
    return None


def message_fault(program, refusal, form):
    """What is wrong with what is told of a refusal, or None."""
    with tempfile.TemporaryDirectory() as folder:
        for name, text in refusal.files.items():
            pathlib.Path(folder, name).write_bytes(text)
        command, *others = refusal.words
        told = [command, f"--errors={form}", *others] if form != "text" else refusal.words
        variables = {os.fsencode(name): text for name, text in refusal.variables.items()}
        ran = subprocess.run([program, *told], input=refusal.stdin, capture_output=True, cwd=folder, env=variables, timeout=60)
    if ran.returncode not in (1, 2):
        return f"the status {ran.returncode}"
    if any(secret.encode() in ran.stderr for secret in (SECRET, NUMBER)):
        return "the secret"
    return form_fault(form, ran.stderr.decode())


def faults_of_messages(program):
    """How many messages there are, and the refusals of which one is wrong."""
    found, count = [], 0
    for refusal in itertools.chain(values(), queries(), shapes(), words(), shown()):
        for form in FORMS:
            count += 1
            fault = message_fault(program, refusal, form)
            if fault:
                found.append(f"messages: {fault}: {form}: {refusal}")
    return count, found
