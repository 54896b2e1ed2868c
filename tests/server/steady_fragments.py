"""Fragments in steady texts: over every character set that the server has, and in each mode of backslashes and quotes.

Each text is bound by `bind_anywhere` of the archive, once, and sent as it is, whatever the connection has been set to.
"""

import decimal
import random
from typing import Optional

import mysql_params
from harness import Tests, same
from mysql_params import Assignments, Identifier, In, Keyword
from protocol import Connection
from search import random_query, sql_modes
from steady import character_sets
from strings import random_strings

_MODES = ("", "ANSI_QUOTES", "NO_BACKSLASH_ESCAPES", "NO_BACKSLASH_ESCAPES,ANSI_QUOTES")
_SEARCHED_SETS = ("latin1", "gbk", "sjis", "utf8mb4")
# There `@`, `[` to `` ` `` and `{` to `~` are letters: docs/LIMITS.md.
_OTHER_SIGNS = "swe7"

# Names of ASCII without a backslash: such that end something in some lexer, places, comments, and words of the grammar.
_NAMES = [
    "`", "``", "a`b", "`; DROP TABLE strings.named; -- ", "x` , 7 -- x", "'", '"', "' , 7 -- x", "?", ":a", "--", "#", "/*",
    "*/", "/*! */", "/*+", "a.b", "1", "1e5", "0x41", "a b", " a", "\n a", "\x01", "\x1a", "\x7f", "$$", "[a]", "@a", ";",
    "()", ",", "_utf8mb4", "select", "DESC", "x" * 64, "~{|}^",
]  # fmt: skip
_STRINGS = [
    b"", b"it's", b"\\", b"'", b'"', b"a\\", "é".encode(), "あ\\".encode(), "表'".encode(), b"\0", b"\n", b"~{|}[]^`@",
    b"' , 7 -- ", b"\\' , 7 -- ", b"\xbf' , 7 -- ", "😀' , 7 -- ".encode(), b") , (7 -- ", b"\xff",
]  # fmt: skip
_NUMBERS = ["0", "-0.50", "1.10", "9" * 65, "-" + "9" * 35 + "." + "9" * 30]
_DOUBLES = [0.0, 0.1, -1.5, 1e16, 5e-324, -1.7976931348623157e308]
_HOSTILE = [
    b"a", b"' , 7 -- ", b"\\' , 7 -- ", "é' , 7 -- ".encode(), b"*/ , 7 -- ", b"\n, 7 # ", b'" , 7 # ', b"` , 7 # ",
    b") , 7 -- ",
]  # fmt: skip


def run(tests: Tests, path: str) -> None:
    """Run every test of steady fragments."""
    connection = Connection(path)
    for name, function in (
        ("names", _names),
        ("items of lists", _items),
        ("exact numbers", _exact_numbers),
        ("rows", _rows),
        ("refused names", _refused),
        ("random portable queries, and none leaves its place", _search),
    ):
        tests.run(f"steady fragments: {name}", function, connection)
        connection.set("utf8mb4", "")
    connection.close()


def _settings(connection: Connection, sets: list):
    """Set the connection to each character set, in each mode."""
    for name in sets:
        for mode in _MODES:
            connection.set(name, mode)
            yield name, mode


def _names(connection: Connection) -> str:
    """Columns of such names are found and set by them, in the order of another."""
    # A number makes the names differ, which are the same in either case of letters.
    names = [f"{name[:62]}{i}" if i % 2 else f"{i}{name}"[:64] for i, name in enumerate(_NAMES)]
    identifiers = [Identifier(name) for name in names]
    numbers = tuple(range(len(names)))
    marks = ", ".join(["?"] * len(names))
    connection.query(b"DROP TABLE IF EXISTS strings.named")
    columns = ", ".join(["? INT"] * len(names))
    create = f"CREATE TABLE strings.named ({columns}) CHARACTER SET utf8mb4"
    connection.query(mysql_params.bind_anywhere(create, identifiers))
    account = b"SELECT column_name FROM information_schema.columns WHERE table_schema = 'strings' AND table_name = 'named'"
    found = [row[0].decode() for row in connection.query(account + b" ORDER BY ordinal_position").rows()]
    same(found, names, "columns of the table")
    insert = "INSERT INTO strings.named (?) VALUES ?"
    connection.query(mysql_params.bind_anywhere(insert, [identifiers, [numbers]]))
    table = Identifier("strings", "named")
    given = [*identifiers[::-1], table, identifiers[3], Keyword("DESC", among=("ASC", "DESC"))]
    text = mysql_params.bind_anywhere(f"SELECT {marks} FROM ? ORDER BY ? ?", given)
    listed = mysql_params.bind_anywhere("SELECT ? FROM ?", [identifiers[::-1], table])
    updates = []
    for more in (0, 1000):
        assigned = Assignments([(name, str(i + more).encode()) for i, name in enumerate(identifiers)])
        updates.append((mysql_params.bind_anywhere("UPDATE ? SET ?", [table, assigned]), more))
    sets = [name for name in character_sets(connection) if name != _OTHER_SIGNS]
    for setting in _settings(connection, sets):
        for update, more in updates:
            connection.query(update)
            wanted = [[str(number + more).encode() for number in numbers[::-1]]]
            same(connection.query(text).rows(), wanted, setting)
            same(connection.query(listed).rows(), wanted, setting)
    return f"{len(names)} names, {len(sets)} character sets, {len(_MODES)} modes"


def _bytes(value) -> bytes:
    return value if isinstance(value, bytes) else str(value).encode()


def _hexadecimal(value) -> Optional[bytes]:
    return None if value is None else _bytes(value).hex().upper().encode()


def _items(connection: Connection) -> str:
    """Each item of a list is what was handed in, by its number (ELT), and there are no more than were handed in."""
    source = random.Random(20261201)
    pool = [*_STRINGS, *random_strings(200, 20261201), None, 7, -3, decimal.Decimal("-0.50"), 2**70]
    lists = [_STRINGS, *([source.choice(pool) for _ in range(source.randrange(1, 10))] for _ in range(40))]
    texts, wanted = [], []
    for values in lists:
        numbers = range(1, len(values) + 2)
        query = "SELECT " + ", ".join(["HEX(ELT(?, ?))"] * len(numbers))
        texts.append(mysql_params.bind_anywhere(query, [each for number in numbers for each in (number, In(values))]))
        wanted.append([[*map(_hexadecimal, values), None]])
    sets = character_sets(connection)
    for setting in _settings(connection, sets):
        for values, expected, answer in zip(lists, wanted, connection.answers(texts)):
            same(answer, expected, (setting, values))
    return f"{len(lists)} lists, {len(sets)} character sets, {len(_MODES)} modes"


def _exact_numbers(connection: Connection) -> str:
    """A number is read to its last digit, and a double as itself."""
    given = [decimal.Decimal(number) for number in _NUMBERS]
    query = "SELECT " + ", ".join(["?"] * len(given)) + ", ? IN (?)"
    text = mysql_params.bind_anywhere(query, [*given, given[-1], given])
    doubles = mysql_params.bind_anywhere("SELECT ?", [In(_DOUBLES)])
    sets = character_sets(connection)
    for setting in _settings(connection, sets):
        (row,) = connection.query(text).rows()
        same([decimal.Decimal(cell.decode()) for cell in row[:-1]], given, setting)
        same(row[-1], b"1", setting)
        same(list(map(float, connection.query(doubles).rows()[0])), _DOUBLES, setting)
    return f"{len(given)} numbers, {len(sets)} character sets, {len(_MODES)} modes"


def _rows(connection: Connection) -> str:
    """Rows are stored as they were handed in, and a pair is found among rows."""
    strings = [*_STRINGS, *random_strings(60, 20261202)]
    rows = [(i, string, None if i % 5 == 0 else strings[i - 1]) for i, string in enumerate(strings)]
    wanted = [[None if cell is None else _bytes(cell) for cell in row] for row in rows]
    connection.make_anew(b"TABLE", b"strings.rowed", b"(i INT PRIMARY KEY, a VARBINARY(500), b VARBINARY(500))")
    insert = mysql_params.bind_anywhere("INSERT INTO ? VALUES ?", [Identifier("strings", "rowed"), rows])
    pairs = [row[:2] for row in rows] + [(0, b"never"), (1, None)]
    find = mysql_params.bind_anywhere("SELECT COUNT(*) FROM strings.rowed WHERE (i, a) IN (?)", [pairs])
    look = b"SELECT i, HEX(a), HEX(b) FROM strings.rowed ORDER BY i"
    hexadecimal = [[row[0], *map(_hexadecimal, row[1:])] for row in wanted]
    sets = character_sets(connection)
    for setting in _settings(connection, sets):
        connection.query(b"DELETE FROM strings.rowed")
        connection.query(insert)
        same(connection.query(look).rows(), hexadecimal, setting)
        same(connection.query(find).rows(), [[str(len(rows)).encode()]], setting)
    return f"{len(rows)} rows, {len(sets)} character sets, {len(_MODES)} modes"


def _refused(connection: Connection) -> str:
    """A name that isn't ASCII without a backslash is refused, in the place that it is given for."""
    names = ("\\a", "a\\b", "é", "表", "\u00a0", "\\\\a`")
    for name in names:
        for given in (Identifier(name), Identifier("t", name)):
            try:
                mysql_params.bind_anywhere("SELECT :a, :b", {"a": "é", "b": given})
            except mysql_params.UnsteadyFragmentError as error:
                same((error.place, error.name), (1, "b"), name)
                continue
            raise AssertionError(f"{name!r} is bound")
    return f"{len(names)} names"


def _kinds() -> dict:
    """Fragments of each kind, which differ in what a text in them says: the answer has one shape for all of a kind."""
    pairs = list(zip(_HOSTILE, _HOSTILE[1:]))
    names = ["never", *(one.decode() + "never" for one in _HOSTILE if one.isascii() and b"\\" not in one)]
    return {
        "a text": [In([one]) for one in _HOSTILE],
        "two texts": [In(pair) for pair in pairs],
        "two rows": [In([pair, pair[::-1]]) for pair in pairs],
        "a name": [Identifier(name) for name in names],
        "a list of names": [[Identifier("never"), Identifier(name)] for name in names],
        "an assignment": [Assignments({"never": one}) for one in _HOSTILE],
        "assignments": [Assignments([(name, one), ("never", name)]) for name, one in zip(names, _HOSTILE)],
        "a number": [decimal.Decimal(text) for text in ("2.5", "9.75", "123456789.5", "1" * 30 + ".5")],
        "a double": [2.5, 1e16, 0.1, 1e-7],
    }


# No such column, table or database, and a wrong name of one: which it is depends on the name alone.
_ERRORS_ALIKE = {-code: -1054 for code in (1146, 1049, 1109, 1103, 1102)}


def _search(connection: Connection) -> str:
    """A random portable query answers in one shape, whatever the texts in fragments of one kind say."""
    source = random.Random(20261203)
    kinds = _kinds()
    groups = []
    for query in (random_query(source).replace(b":a", b"?") for _ in range(6000)):
        for kind in source.sample(sorted(kinds), 2):
            try:
                texts = [mysql_params.bind_anywhere(query, [one] * query.count(b"?")) for one in kinds[kind]]
            except mysql_params.Error:
                break
            if b"?" in query:
                groups.append((kind, query, texts))
    answered = 0
    for name in _SEARCHED_SETS:
        for mode in sql_modes(connection):
            connection.set(name, mode)
            for kind, query, texts in groups:
                shapes = [_ERRORS_ALIKE.get(shape, shape) for shape in connection.shapes(texts)]
                answered += shapes[0] > 0
                same(len(set(shapes)), 1, (name, mode, kind, query, list(zip(texts, shapes))))
    same(min(len(groups), answered) > 100, True, (len(groups), answered))
    return f"{len(groups)} queries with fragments of one kind, in each of {len(_SEARCHED_SETS)} sets"
