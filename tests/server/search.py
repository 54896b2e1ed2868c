"""A search for portable queries that leak: a million short queries of pieces that mean something to some lexer.

A query is bound to four values, each in all of its places: texts, or whole numbers that are not negative (a negative
one after an operand is subtracted) and bytes that aren't UTF-8 (their hexadecimal literal is an operand as a number is,
where a text may be an alias). Where the server answers with other columns, or refuses one of the texts alone, a value
has left its literal. The same search over queries that are not portable has to find some: else it would see nothing.
"""

import random
from typing import NamedTuple, Optional

import mysql_params
from harness import Tests
from protocol import Connection

_SQL_MODES = ("", "ANSI_QUOTES", "NO_BACKSLASH_ESCAPES", "NO_BACKSLASH_ESCAPES,ANSI_QUOTES")
_MARIADB_MODES = ("MSSQL", "ORACLE")
_MYSQL_MODES = ("PIPES_AS_CONCAT,IGNORE_SPACE", "HIGH_NOT_PRECEDENCE")
_QUERIES = 1000000
_ROUND = 500

# Pieces that open or close something, that keep a query valid, and others.
_OPENERS = [
    b"'", b'"', b"`", b"#", b"-- ", b"--\n", b"\n", b"/*", b"*/", b"/*!", b"/*+", b"/*M!", b"\\", b"\\'", b'\\"',
    b"--\x01", b"--\x0b",
    b"--\x7f", b"--\xa0", b"--", b"[", b"]", b"/*!80000", b"/*!999999", b"/*!50000", b"/*M!100000", b"/", b"*",
    b"/*/", b"'\n'", b"$$",
]  # fmt: skip
_FILLERS = [
    b" ", b",2", b", 'x' ", b" as z", b",`z`.x", b" + 1", b"-1", b"--1", b" from (select 1 x) z", b"\n", b"/* c */",
    b"# c\n", b"-- c\n", b"'y'", b'"z"',
]  # fmt: skip
_OTHERS = [
    b"-", b",", b"1", b"x", b"\x0b", b"\x01", b"\x7f", b"\xa0", b"\0", b"$", b"$a$", b"\\N", b"N'", b"_utf8'", b"!",
    b"M", b"+", b"80000",
    b"@@", b"{", b"}", b"x'", b"b'", b"0x", b".", b"1.5e", b".e", b"1.e-- ", b"e", b"1e", b"_", b"0b", b"q'", b"->",
    b"->>", b":=", b"&&", b"||",
    b"<=>", b"!=", b"select", b" union select ", b"@'", b"@`", b'@"', b"\x1a", b"\xe9", b"\x80", b"\r", b"\t", b";",
    b"%", b"=", b"(", b")",
    b"\x0c", b"--\t", b"--\r", b"*/*", b"/**/", b"''", b'""', b"``", b"]]", b"/*m!", b"/* !", b"/*!M", b"'\\", b'"\\',
]  # fmt: skip
# Where a place stands, as `@`: within a query, and at its end.
_PLACES = [b" @ ", b",@", b"(@)", b"-@", b"/@", b" @,", b"=@", b"--@", b"e-@"]
_ENDS = [
    b" , @ ", b", @", b"\n, @ ", b"' , @ ", b"*/ , @", b" @ '", b' @ "', b" @ */", b" @ `", b" @ ] ", b" @ $$ ",
    b"-@", b"/@",
]  # fmt: skip

_VALUES = [
    b"a", b"*/ ,7 -- ", b"' ,7 -- ", b'" ,7 # ', b"` ,7 -- ", b"\n,7 -- ", b"\n,7 # ", b"*/, '", b"] ,7 -- ",
    b"$$ ,7 -- ", b", 7 -- ",
    b"\\' ,7 -- ", b"'' ,7 -- ", b"\\", b"'",
]  # fmt: skip


_NUMBERS = [5, 0, 77, 50000, 80000, 99999, 100700, 999999]

# To the server the literal is an unsigned number: `1-0xFF` is out of range, and `1-5` isn't.
NOT_UTF8, _HEXADECIMAL, _OUT_OF_RANGE = b"\xff", b"0xFF", 1690


class Bound(NamedTuple):
    """A query, the flat forms of its values, the texts that it is bound to, and where it isn't portable."""

    query: bytes
    forms: list
    texts: list
    at: Optional[int]


class Found:
    """What the search has seen."""

    def __init__(self) -> None:
        self.bound = self.portable = self.sent = self.answered = self.leaks_of_others = 0
        self.leaks = []


def run(tests: Tests, path: str) -> None:
    """Run the search."""
    tests.run(f"search: {_QUERIES} short queries, and no portable one leaks", _search, path)


def sql_modes(connection: Connection) -> tuple:
    """Return the modes to search in: those that every server has, and two of its own."""
    return _SQL_MODES + (_MYSQL_MODES if connection.is_mysql else _MARIADB_MODES)


def _search(path: str) -> str:
    source = random.Random(20261123)
    connection = Connection(path, "latin1")
    found, modes = Found(), sql_modes(connection)
    for number in range(0, _QUERIES, _ROUND):
        sql_mode = modes[number // _ROUND % len(modes)]
        connection.set("latin1", sql_mode)
        mode = sql_mode.startswith("NO_BACKSLASH_ESCAPES")
        queries = [bound_query(source, random_query(source), mode) for _ in range(_ROUND)]
        _send(connection, [bound for bound in queries if bound is not None], found, sql_mode)
    connection.close()
    return _judged(found)


def _judged(found: Found) -> str:
    if found.leaks:
        shortest = min(found.leaks, key=lambda leak: len(leak[1]))
        raise AssertionError(f"{len(found.leaks)} portable queries leak: {shortest!r}")
    told = f"{found.bound} can be bound, {found.portable} of them are portable; "
    told += f"{found.sent} texts sent, {found.answered} answered"
    if min(found.leaks_of_others, found.answered) < 100:
        raise AssertionError(f"too little was seen: {told}, {found.leaks_of_others} leaks of others")
    return f"{told}; {found.leaks_of_others} leaks, of queries that aren't portable"


def random_query(source: random.Random) -> bytes:
    """Return a query with names or with marks, and not with both, since none such can be bound."""
    kinds = source.choices((_OPENERS, _FILLERS, _OTHERS), (5, 4, 2), k=source.randrange(1, 6))
    pieces = [source.choice(kind) for kind in kinds]
    place = b":a" if source.random() < 0.5 else b"?"
    if source.random() < 0.25:
        pieces.insert(source.randrange(len(pieces) + 1), source.choice(_PLACES).replace(b"@", place))
    if source.random() < 0.9:
        pieces.append(source.choice(_ENDS).replace(b"@", place))
    return b"select 1 " + b"".join(pieces)


def _text(value: bytes, name: bytes) -> bytes:
    """Return the flat form of a text of this name, or by position."""
    return bytes([len(name)]) + name + bytes([253, 0, len(value)]) + value


def _number(value: int, name: bytes) -> bytes:
    """Return the flat form of a whole number of this name, or by position."""
    return bytes([len(name)]) + name + bytes([3, 128]) + value.to_bytes(4, "little")


# The forms of all texts, and of all numbers and the bytes that aren't UTF-8: of the name `a`, and by position.
_FORMS = {
    name: (
        [_text(value, name) for value in _VALUES],
        [*(_number(value, name) for value in _NUMBERS), _text(NOT_UTF8, name)],
    )
    for name in (b"a", b"")
}


def _forms(source: random.Random, query: bytes, mode: bool) -> Optional[list]:
    """Return the forms of four values by which the query can be bound, or None if it can't."""
    kind = 0 if source.random() < 0.85 else 1
    name, marks = b"a", 1
    try:
        mysql_params.bind_form(query, _FORMS[name][kind][0], mode)
    except mysql_params.NamedForPositionalError:
        name = b""
        try:
            mysql_params.bind_form(query, b"", mode)
            return None
        except mysql_params.MarkCountError as error:
            marks = error.marks
    except mysql_params.Error:
        return None
    first, *others = _FORMS[name][kind]
    return [form * marks for form in [first, *source.sample(others, 3)]]


def bound_query(source: random.Random, query: bytes, mode: bool) -> Optional[Bound]:
    """Return a query with its texts. One in eight of those that are not portable has some."""
    forms = _forms(source, query, mode)
    if forms is None:
        return None
    try:
        texts = [mysql_params.bind_form(query, forms[0], mode)]
    except mysql_params.NotAloneError:
        return None
    found = mysql_params.first_unportable(query, mode)
    if found is not None and source.random() > 0.125:
        return Bound(query, [], [], found.position)
    texts += [mysql_params.bind_form(query, form, mode) for form in forms[1:]]
    return Bound(query, forms, texts, None if found is None else found.position)


def _send(connection: Connection, queries: list, found: Found, sql_mode: str) -> None:
    """Send all texts, and note where a text's answer isn't that of its query's first."""
    texts = [text for bound in queries for text in bound.texts]
    shapes = []
    for begin in range(0, len(texts), 128):
        shapes += connection.shapes(texts[begin : begin + 128])
    found.sent += len(texts)
    at = 0
    for bound in queries:
        found.bound += 1
        found.portable += bound.at is None
        answers = shapes[at : at + len(bound.texts)]
        at += len(bound.texts)
        found.answered += sum(answer > 0 for answer in answers)
        for text, answer in zip(bound.texts[1:], answers[1:]):
            if answer == answers[0] or (answer == -_OUT_OF_RANGE and _HEXADECIMAL in text):
                continue
            if bound.at is None:
                found.leaks.append((sql_mode, bound.query, bound.texts[0], answers[0], text, answer))
            else:
                found.leaks_of_others += 1
