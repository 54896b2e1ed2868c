"""Texts of the program `mysql_bind`, piped through a command-line client: each is refused, or sent as it is meant.

A client drops the newline after a line that begins with `delimiter`, also if a name or a string ends on it. A server then
reads another text, in which a value may run. `mysql_bind` refuses to write such a text. The tests show the leak by the
text that the program writes with `--allow-unportable`.

Then they try names and values one by one, in each kind of literals, and random queries with random ones. What the client
sends is a statement for each `;` outside of quotes and comments: byte for byte, or with the same tokens if there is a
comment. Only CR before a newline is lost, as docs/LIMITS.md says. The program refuses exactly those random texts in which
`condition.py` finds something, which was written apart from it. Of 52,000 texts a client on 2026-11-27 none was sent
otherwise.
"""

import json
import os
import random
import re
import subprocess
from typing import NamedTuple, Optional

from client import OPTIONS
from condition import WORDS, found_in_client
from harness import Tests, same
from recorder import MARIADB, MYSQL, Client, Recorder
from tokens import WHITE_SPACE, Token, tokens_of

_TEXTS = 2000
_SEED = 20261127
_ROWS = 20
_AT_ONCE = 100
_SOME_REFUSED = 50
_BLANK = WHITE_SPACE + b"\v"
_REFUSED = 1
_RAN = b"root@localhost"
# The names of random queries, and the type of each.
_TYPES = {"n": "identifier", "m": "identifier", "v": "text", "w": "hex", "l": "list", "d": "decimal"}
_ROW = {"n": "n", "m": "m\nn", "v": "v", "w": "", "l": "[1]", "d": "0"}
# The construct that condition.py finds in most refused texts.
_LINE = "a line `delimiter` in quotes"


class Literals(NamedTuple):
    """How values are written: the words of `mysql_bind`, and the mode in which its text is read."""

    name: str
    words: tuple
    no_backslash_escape: bool


_STEADY = Literals("steady", (), False)
_BACKSLASH = Literals("plain", ("--literals=plain", "--mode=backslash"), False)
_NO_BACKSLASH = Literals("plain, without escapes", ("--literals=plain", "--mode=no-backslash"), True)
_LITERALS = (_STEADY, _BACKSLASH, _NO_BACKSLASH)


class Case(NamedTuple):
    """A query and words with values. The program refuses; its text with `--allow-unportable` is sent as this."""

    name: str
    literals: Literals
    query: bytes
    words: tuple
    sent: list
    mysql: Optional[list] = None


_TRAP = b", 5 -\n- '\n', :b"
_COLUMN = ", CURRENT_USER() -- "
_LEAKS = [
    Case("a line `delimiter` in a name", _STEADY, b"SELECT 5 AS :n" + _TRAP,
         ("--set", "n:identifier=\ndelimiter", "--set", f"b={_COLUMN}"),
         [b"SELECT 5 AS `\ndelimiter`, 5 -- '\n', _utf8mb4', CURRENT_USER() -- '"]),
    Case("a line `delimiter` in a value, without escapes", _NO_BACKSLASH, b"SELECT :v AS n" + _TRAP,
         ("--set", "v=\ndelimiter", "--set", f"b={_COLUMN}"),
         [b"SELECT '\ndelimiter' AS n, 5 -- '\n', ', CURRENT_USER() -- '"]),
]  # fmt: skip
_CHANGES = [
    Case("a byte 0 in a value, without escapes", _NO_BACKSLASH, b"SELECT :v", ("--set", "v:hex=610062"), []),
    Case("a backslash before a newline in a value, without escapes", _NO_BACKSLASH, b"SELECT :v",
         ("--set", "v=a\\\nb"), [b"SELECT 'a\\\nb'"]),
    Case("a backslash before a newline in a name", _BACKSLASH, b"SELECT :n", ("--set", "n:identifier=a\\\nb"),
         [b"SELECT `a\\\nb`"], [b"SELECT `a\nb`"]),
    Case("a backslash before a newline in a name, without escapes", _NO_BACKSLASH, b"SELECT :n",
         ("--set", "n:identifier=a\\\nb"), [b"SELECT `a\\\nb`"]),
]  # fmt: skip

# A name stands where the end of its last line matters: before a sign, a comment, a string, and the end of a statement.
_AROUND_NAMES = b"SELECT 5 AS :n, 5 -\n- '\n', :m . :n # x\n, 7 AS :n\n;SELECT :n -- y\n, :m/\n* 2, :n;\nSELECT 1 AS :n"
_AROUND_VALUES = b"SELECT 5, :v, 5 -\n- '\n', :v # x\n, :v\n;SELECT (:v) -- y\n, 3 /\n* 2, :v;\nSELECT 1, :v"
_CONTROL = [chr(byte) for byte in (*range(1, 32), 127)]
_TAKEN = [
    *[f"{byte}a{byte}b\n{byte}c{byte}\nd{byte}" for byte in _CONTROL],
    *[f"x\n{word.decode()}\n{word.decode()} y\nz" for word in sorted(WORDS - {b"delimiter"})],
    "delimiter", "delimiter\nx", "\n delimiter", "\n\tdelimiter", "\n\rdelimiter", "\rdelimiter", "\vdelimiter", "\ndelimite",
    "\nxdelimiter", "\n`delimiter", "\n'delimiter", "a b", "it's", '"', "a`b", "`", "``", ";", "a;b", "--", "-- ' x", "#",
    "/*", "*/", "/*! x", "a.b", ":n", "?", "\n;\nx", "\n-- x\ny", "\n#x\ny", "\n/*\ny", "$$", "[", "a\r\nb", "\r\n",
]  # fmt: skip
_TAKEN_IF_PLAIN = [
    "é", "中", "😀", "\ndélimiter", "\nd\u0301elimiter", "a\u2028delimiter", "a\u0085delimiter",
    "\ufeff\n\ufeffdelimiter", "\\a", "\\!x", "\\C gbk\nx", "a\\\tb", "\\g;",
]  # fmt: skip
_REFUSED_LINES = [
    "\ndelimiter", "x\ndelimiter ;", "\nDELIMITER //", "\nDelimiter\nx", "a\nb\ndeLIMiter c\nd", "\ndelimiters",
    "\r\ndelimiter", "\n\ndelimiter", ";\ndelimiter", "`\ndelimiter`", "'\ndelimiter;'x",
]  # fmt: skip
_REFUSED_IF_PLAIN = ["a\\\nb", "a\\\r\nb", "\\\n", "\\\\\nb", "é\ndelimiter"]
# Those of a value alone: none is a name.
_REFUSED_VALUES = ["\0", "a\0\nb", "\\\ndelimiter"]

# What random queries are made of. No piece joins the one beside it.
_PIECES = [
    b"SELECT", b"5", b"x", b"=", b"+", b"*", b"(", b")", b"FROM t", b"AS", b",", b"5 -", b"5 /", b"\n-", b"\n*", b"-\n-",
    b"-\n- '\n',", b'-\n- "\n",', b"/\n* '\n',", b"-\n- 'a\n', ';", b"*\n/ 2", b"\n5 -\n- ';\n'",
]  # fmt: skip
_STRINGS = [
    b"'a'", b"'m\nn'", b"`o\np`", b"'it''s'", b'"q\n"', b"';'", b"`;`", b'"\n;"', b"'/*'", b"'--'", b"'\n-- '", b"`#`",
]  # fmt: skip
_COMMENTS = [
    b"/* x */", b"/* ' */", b"/*\n;*/", b"/*`\n*/", b"# z\n", b"# ' ;\n", b"-- y\n", b"-- ` ;\n", b"--\n", b"/*#*/",
    b"/*\ndelimiter\n*/",
]  # fmt: skip
_ENDS = [b";", b";\n", b"\n;\n", b"; ;"]
_RARE = [b"'\ndelimiter'", b"\ndelimiter", b"/*//*/", b"go", b"'\\\n'", b"\\g", b"'\0'", b"use x", b"'\\''", b"--x"]
_PLACES = [
    b":n", b":n", b":m", b":n . :m", b":v", b":w", b"(:v)", b":l", b":d", b":n,\n:v", b":n\n-\n- :v", b":n -\n- :m", b"(:n)",
    b"5 -:d", b"5 /:n", b"*:m", b"=:v", b";:n", b":n;", b"5 -:n -\n-:m",
]  # fmt: skip
_GAPS = [b" ", b" ", b"\n", b"\t", b" \n", b"\r\n", b" , ", b",\n"]
_TEXT_PIECES = [
    *_CONTROL, "\ndelimiter", "\ndelimiter", "\nDELIMITER ;", "\nDelimiter x\n", "delimiter", "\n delimiter",
    "\r\ndelimiter", "\n", "\n", "\r\n", "`", "'", '"', ";", "-- ", "--", "#", "/*", "*/", "/*! ", _COLUMN, "\nsystem x\n",
    "\ngo", "\nuse x", "\nsource x", "a", "b", "x y", "1", ".", "$$", ":v", "?", " ", " ",
]  # fmt: skip
_UNSTEADY_PIECES = [
    "\\", "\\", "\n\\! x", "\\\n", "\\\r\n", "\\'", "\\g", "\\C gbk", "é", "中", "😀", "\u2028", "\ufeff", "\ndélimiter",
]  # fmt: skip


def run(tests: Tests, path: str, program: str, folder: str, is_mysql: bool) -> None:
    """Run every test with the client of this server."""
    client = MYSQL if is_mysql else MARIADB
    words = [client.command, "--no-defaults", "--user=root", f"--socket={path}", *OPTIONS]
    for case in _LEAKS:
        tests.run(f"shell tool: {client.command}: {case.name}", _leak, program, folder, words, case)
    for case in _LEAKS + _CHANGES:
        tests.run(f"shell tool: {client.command}: {case.name}: sent", _sent, program, folder, client, case)
    for literals in _LITERALS:
        for kind, function in (("names", _names), ("values", _values), ("random texts", _search)):
            name = f"shell tool: {client.command}: {kind}, {literals.name}"
            tests.run(name, function, program, folder, client, literals)


def _ran(program: str, words: list, query: bytes) -> subprocess.CompletedProcess:
    return subprocess.run([program, *words], input=query, capture_output=True, timeout=60)


def _bound(program: str, literals: Literals, words: tuple, query: bytes) -> Optional[bytes]:
    """Return what the program writes, or None if it refuses: then it writes nothing."""
    ran = _ran(program, ["bind", *literals.words, *words], query)
    if ran.returncode:
        same((ran.returncode, ran.stdout, ran.stderr != b""), (_REFUSED, b"", True), (query, words))
        return None
    same(ran.stderr, b"", (query, words))
    return ran.stdout


def _any_bound(program: str, literals: Literals, words: tuple, query: bytes) -> bytes:
    text = _bound(program, literals, ("--allow-unportable", *words), query)
    same(text is None, False, (query, words))
    return text


def _leak(program: str, folder: str, client: list, case: Case) -> str:
    """The program leaves no file. What it writes if it is told to runs a part of the value in the client."""
    file, output = (os.path.join(folder, name) for name in ("query.sql", "bound.sql"))
    with open(file, "wb") as query:
        query.write(case.query)
    ran = _ran(program, ["bind", *case.literals.words, *case.words, "-o", output, file], b"")
    same((ran.returncode, ran.stdout, os.path.exists(output)), (_REFUSED, b"", False), ran)
    text = _any_bound(program, case.literals, case.words, case.query)
    mode = ["--init-command=SET sql_mode='NO_BACKSLASH_ESCAPES'"] if case.literals.no_backslash_escape else []
    given = subprocess.run([*client, *mode], input=text, capture_output=True, timeout=20)
    same((_RAN in given.stdout, given.returncode), (True, 0), given)
    return "refused; with --allow-unportable a part of the value runs"


def _sent(program: str, folder: str, client: Client, case: Case) -> str:
    same(_bound(program, case.literals, case.words, case.query), None, case.query)
    text = _any_bound(program, case.literals, case.words, case.query)
    wanted = case.mysql if client is MYSQL and case.mysql else case.sent
    recorder = Recorder(folder, client)
    try:
        same(recorder.sent(text, OPTIONS, case.literals.no_backslash_escape), wanted, text)
    finally:
        recorder.close()
    return "as it is meant, by this client" if wanted == [text] else "another text"


def _names(program: str, folder: str, client: Client, literals: Literals) -> str:
    """A steady name is ASCII without a backslash."""
    plain = literals is not _STEADY
    taken = _TAKEN + (_TAKEN_IF_PLAIN if plain else [])
    refused = _REFUSED_LINES + _REFUSED_IF_PLAIN + ([] if plain else _TAKEN_IF_PLAIN)
    for name in refused:
        for n, m in ((name, "m"), ("n", name)):
            words = ("--set", f"n:identifier={n}", "--set", f"m:identifier={m}")
            same(_bound(program, literals, words, _AROUND_NAMES), None, (n, m))
    texts = _texts_of_rows(program, folder, literals, _AROUND_NAMES, [{**_ROW, "n": name} for name in taken])
    for name, text in zip(taken, texts):
        same(text, _AROUND_NAMES.replace(b":n", _quoted(name)).replace(b":m", _quoted(_ROW["m"])), name)
    _all_as_meant(folder, client, texts, literals.no_backslash_escape)
    return f"{len(taken)} are sent, {len(refused)} are refused"


def _quoted(name: str) -> bytes:
    return b"`%s`" % name.encode().replace(b"`", b"``")


def _values(program: str, folder: str, client: Client, literals: Literals) -> str:
    """With escapes, and in steady literals, no newline of a value is one of the text."""
    lines = _REFUSED_LINES + _REFUSED_IF_PLAIN + _REFUSED_VALUES
    refused = lines if literals.no_backslash_escape else []
    taken = _TAKEN + _TAKEN_IF_PLAIN + ([] if refused else lines)
    for value in refused:
        same(_bound(program, literals, ("--set", f"v:hex={value.encode().hex()}"), _AROUND_VALUES), None, value)
    rows = [{**_ROW, "w": value.encode().hex()} for value in taken]
    texts = _texts_of_rows(program, folder, literals, _AROUND_VALUES.replace(b":v", b":w"), rows)
    _all_as_meant(folder, client, texts, literals.no_backslash_escape)
    return f"{len(taken)} are sent, {len(refused)} are refused"


class _Searched:
    """What came of random queries: texts that were written, refused ones by what is found in them, refused queries."""

    def __init__(self) -> None:
        self.written, self.refused = [], {}
        self.queries = 0


def _search(program: str, folder: str, client: Client, literals: Literals) -> str:
    searched = _searched(program, folder, literals)
    _all_as_meant(folder, client, searched.written, literals.no_backslash_escape)
    recorder = Recorder(folder, client)
    try:
        lines = searched.refused[_LINE]
        some = lines[:: len(lines) // _SOME_REFUSED + 1]
        differ = sum(not _is_meant(recorder, [text], literals.no_backslash_escape) for text in some)
    finally:
        recorder.close()
    if differ < len(some) // 8:
        raise AssertionError(f"too little was seen: {differ} of {len(some)} refused texts are sent otherwise")
    refused = ", ".join(f"{len(texts)} for {kind}" for kind, texts in sorted(searched.refused.items()))
    return (
        f"{len(searched.written)} texts are sent, {refused} are refused, and {searched.queries} queries; "
        f"of {len(some)} of {_LINE} {differ} would be sent otherwise"
    )


def _searched(program: str, folder: str, literals: Literals) -> _Searched:
    source, searched = random.Random(f"{_SEED} {literals.name}"), _Searched()
    for _ in range(_TEXTS // len(_LITERALS) // _ROWS):
        query = _query(source)
        while _ran(program, ["check", *literals.words], query).returncode:
            searched.queries += 1
            query = _query(source)
        _try_query(program, folder, literals, query, [_row(source, literals) for _ in range(_ROWS)], searched)
    return searched


def _try_query(program: str, folder: str, literals: Literals, query: bytes, rows: list, searched: _Searched) -> None:
    """Bind rows by `bind` and by `rows`, which refuse exactly the texts in which a construct is found."""
    tool = _Rows(program, folder, literals, query)
    texts = _texts_of_rows(program, folder, literals, query, rows, "--allow-unportable")
    found = [found_in_client(text, literals.no_backslash_escape, True) for text in texts]
    words = [word for name, kind in _TYPES.items() for word in ("--set", f"{name}:{kind}={rows[0][name]}")]
    bound = _bound(program, literals, ("--allow-unused", *words), query)
    same(bound, None if found[0] else texts[0], (query, rows[0]))
    begin = 0
    while begin < len(rows):
        end = next((i for i in range(begin, len(rows)) if found[i]), len(rows))
        ran = tool.run(rows[begin:], "--stream")
        status = _REFUSED if end < len(rows) else 0
        same((ran.returncode, ran.stdout), (status, _script(texts[begin:end])), (query, rows[begin:]))
        begin = end + 1
    for row, text, kind in zip(rows, texts, found):
        _identifiers_as_given(literals, query, text, row)
        (searched.refused.setdefault(kind, []) if kind else searched.written).append(text)


class _Rows:
    """The command `rows` with a query in a file."""

    def __init__(self, program: str, folder: str, literals: Literals, query: bytes) -> None:
        columns = [word for name, kind in _TYPES.items() for word in ("--column", f"{name}:{kind}")]
        self._file = os.path.join(folder, "query.sql")
        self._words = ["rows", *literals.words, "--allow-unused", "--csv", "-", *columns]
        self._program = program
        with open(self._file, "wb") as file:
            file.write(query)

    def run(self, rows: list, *words: str) -> subprocess.CompletedProcess:
        """Run it for these rows."""
        lines = [list(_TYPES), *[[row[name] for name in _TYPES] for row in rows]]
        fields = [",".join('"%s"' % field.replace('"', '""') for field in line) + "\n" for line in lines]
        return _ran(self._program, [*self._words, *words, self._file], "".join(fields).encode())


def _script(texts: list) -> bytes:
    return b"".join(text + b"\n;\n" for text in texts)


def _texts_of_rows(program: str, folder: str, literals: Literals, query: bytes, rows: list, *words: str) -> list:
    """Return the texts of a script of rows. Each has as many `;` outside of quotes and comments as the others."""
    ran = _Rows(program, folder, literals, query).run(rows, *words)
    same((ran.returncode, ran.stderr), (0, b""), (query, rows))
    script, mode = ran.stdout, literals.no_backslash_escape
    ends = [token.begin for token in tokens_of(script, mode) if token.kind == "plain" and token.text == b";"]
    last = ends[len(ends) // len(rows) - 1 :: len(ends) // len(rows)]
    texts = [script[begin : end - 1] for begin, end in zip([0, *[end + 2 for end in last]], last)]
    same((len(texts), _script(texts)), (len(rows), script), query)
    return texts


def _query(source: random.Random) -> bytes:
    kinds = (_PIECES, _STRINGS, _COMMENTS, _ENDS, _PLACES, _RARE)
    pieces = [source.choice(kind) for kind in source.choices(kinds, (60, 15, 15, 8, 60, 1), k=source.randrange(2, 12))]
    pieces.insert(source.randrange(len(pieces) + 1), source.choice(_PLACES))
    return b"SELECT " + b"".join(piece + source.choice(_GAPS) for piece in pieces)


def _text(source: random.Random, steady: bool) -> str:
    pieces = _TEXT_PIECES if steady else _TEXT_PIECES + _UNSTEADY_PIECES
    return "".join(source.choice(pieces) for _ in range(source.randrange(1, 6)))


def _row(source: random.Random, literals: Literals) -> dict:
    """Return for each name of a query its value, as its type has it."""
    v, w, item = (_text(source, False) for _ in range(3))
    if source.randrange(20) == 0:
        w += "\0"
    return {
        "n": _name(_text(source, literals is _STEADY)),
        "m": _name(_text(source, literals is _STEADY)),
        "v": v,
        "w": w.encode().hex(),
        "l": json.dumps([1, None, item], ensure_ascii=source.randrange(2) == 0),
        "d": source.choice(("-5", "0.50", "-1.10")),
    }


def _name(text: str) -> str:
    """Return a text as a name: such as `mysql_bind` takes one."""
    name = re.sub(r"\\+`", "`", text)[:64].rstrip(" \\")
    return name or "x"


def _identifiers_as_given(literals: Literals, query: bytes, text: bytes, row: dict) -> None:
    """The quoted identifiers of a text are those of its query, and the names in the places of theirs.

    The reader of tokens takes a name with a doubled backquote for two.
    """
    wanted = []
    for token in tokens_of(query, literals.no_backslash_escape):
        if token.kind == "identifier":
            wanted.append(token.text)
        elif token.kind == "name" and token.text in (b":n", b":m"):
            wanted.append(_quoted(row[token.text[1:].decode()]))
    found = [token.text for token in tokens_of(text, literals.no_backslash_escape) if token.kind == "identifier"]
    same(b"".join(found), b"".join(wanted), (query, text))


def _all_as_meant(folder: str, client: Client, texts: list, mode: bool) -> None:
    """Pipe texts, many in one run with a `;` behind each. If not all are sent as they are meant, name the shortest."""
    recorder = Recorder(folder, client)
    try:
        for begin in range(0, len(texts), _AT_ONCE):
            batch = texts[begin : begin + _AT_ONCE]
            if not _is_meant(recorder, batch, mode):
                bad = [text for text in batch if not _is_meant(recorder, [text], mode)]
                shortest = min(bad or [b"\n;\n".join(batch)], key=len)
                raise AssertionError(f"{len(bad)} of {len(batch)} texts are sent otherwise: {shortest!r}")
    finally:
        recorder.close()


def _is_meant(recorder: Recorder, texts: list, mode: bool) -> bool:
    sent = recorder.sent(b"".join(text + b"\n;\n" for text in texts), OPTIONS, mode)
    lines = [text.replace(b"\r\n", b"\n") for text in texts]
    meant = [statement for text in lines for statement in _statements(text, mode) if _words(statement)]
    read = [_statements(text, mode) for text in sent]
    read = [statements for statements in read if len(statements) != 1 or _words(statements[0])]
    return len(read) == len(meant) and all(
        len(one) == 1 and _are_same(one[0], other) for one, other in zip(read, meant)
    )


def _statements(text: bytes, mode: bool) -> list:
    """Return the tokens of a text, cut at each `;` outside of quotes and comments."""
    statements = [[]]
    for token in tokens_of(text, mode):
        if token.kind == "plain" and token.text == b";":
            statements.append([])
        else:
            statements[-1].append(token)
    return statements


def _are_same(one: list, other: list) -> bool:
    if _has_comment(one) or _has_comment(other):
        return _words(one) == _words(other)
    return _joined(one).strip(_BLANK) == _joined(other).strip(_BLANK)


def _joined(statement: list) -> bytes:
    return b"".join(token.text for token in statement)


def _has_comment(statement: list) -> bool:
    return any(_is_comment(token) for token in statement) or b"--\n" in _joined(statement) + b"\n"


def _is_comment(token: Token) -> bool:
    return token.kind in ("line", "block")


def _words(statement: list) -> list:
    """Return the tokens of a statement without comments and white space. `--` before a newline is a comment to all."""
    words = []
    for token in statement:
        if _is_comment(token) or token.text in _BLANK:
            continue
        words.append(token.text)
    return words
