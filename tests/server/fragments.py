"""Fragments: identifiers, exact numbers, lists, rows, assignments and keywords through the archive, as the server reads them.

Names come back by the server's own account of a table's columns, numbers as texts, stored and in arithmetic, items of lists by
their number, rows and assignments as stored. A leak is another shape of the answer for another text in a fragment of one kind.
"""

import decimal
import random

import mysql_params
from harness import Tests, same
from mysql_params import Assignments, Identifier, In, Keyword
from protocol import Connection, code_of
from search import random_query, sql_modes
from strings import is_utf8, random_strings

_MODES = ("", "NO_BACKSLASH_ESCAPES", "ANSI_QUOTES")
_EXACT = decimal.Context(prec=200, rounding=decimal.ROUND_HALF_UP)
_NEWDECIMAL = 246

# Names that end something in some lexer, places, comments, and words of the grammar.
_NAMES = [
    "`", "``", "a`b", "`a`", "`; DROP TABLE strings.t; -- ", "x` , 7 -- ", "\\a", "`\\\\b", "a\\'", "'", '"', "a'b", 'a"b', "?", ":a",
    "%s", "--", "-- ", "#", "/*", "*/", "/*! */", "a.b", ".", "1", "1e5", "0x41", "a b", " a", "\n", "\r\na", "\t", "\x1a", "\x7f",
    "é", "表`", "ｘ", "\u00a0", "$$", "[a]", "@a", "@@a", ";", "()", ",", "\\N", "N'a", "_utf8",
    "select", "SELECT", "DESC", "null", "values", "rows", "lateral", "true", "default",
]  # fmt: skip
# What servers refuse at the end of a name; the archive refuses the space, and a backslash.
_SPACES = "\t\n\v\f\r "
_NO_ENDS = _SPACES + "\\"
_WRONG_COLUMN = 1166
_HOSTILE = ["a", "' , 7 -- ", "\\' , 7 -- ", "*/ , 7 -- ", "\n, 7 # ", '" , 7 # ', "` , 7 # ", ") , 7 -- ", "?", ":a"]


def run(tests: Tests, path: str) -> None:
    """Run every test of fragments, in each mode."""
    for sql_mode in _MODES:
        connection = Connection(path, "utf8mb4", sql_mode)
        mode = sql_mode == "NO_BACKSLASH_ESCAPES"
        label = f"fragments{', ' + sql_mode if sql_mode else ''}"
        for name, function in (
            ("names with every byte of ASCII", _ascii_names),
            ("hostile names, and of 64 characters", _hostile_names),
            ("databases, tables and columns by name", _qualified),
            ("numbers of up to 65 digits", _numbers),
            ("whole numbers of more than 64 bits", _whole_numbers),
            ("lists as single marks", _lists),
            ("items of lists", _items),
            ("rows of values", _rows),
            ("assignments", _assignments),
            ("keywords", _keywords),
        ):
            tests.run(f"{label}: {name}", function, connection, mode)
        connection.close()
    tests.run("fragments: random queries, and none leaves its place", _search, path)


def _bound(query: bytes, fragments, mode: bool) -> bytes:
    return mysql_params.bind(query, fragments, mode)


def _cells(connection: Connection, query: bytes, fragments, mode: bool) -> list:
    """Return the one row of a query."""
    rows = connection.query(_bound(query, fragments, mode)).rows()
    same(len(rows), 1, query)
    return rows[0]


def _columns(connection: Connection, names: list, mode: bool) -> None:
    """A table with columns of these names has these, by the server's account. Each is found and set by its name, alone or among
    all."""
    places = b", ".join([b"? INT"] * len(names))
    connection.query(b"DROP TABLE IF EXISTS strings.named")
    identifiers = [Identifier(name) for name in names]
    connection.query(_bound(b"CREATE TABLE strings.named (" + places + b") CHARACTER SET utf8mb4", identifiers, mode))
    account = b"SELECT column_name FROM information_schema.columns WHERE table_schema = 'strings' AND table_name = 'named'"
    found = [row[0].decode() for row in connection.query(account + b" ORDER BY ordinal_position").rows()]
    same(found, names, "columns of the table")
    numbers = list(range(len(names)))
    fragments = [*identifiers, [tuple(numbers)]]
    marks = b", ".join([b"?"] * len(names))
    connection.query(_bound(b"INSERT INTO strings.named (" + marks + b") VALUES ?", fragments, mode))
    backwards = identifiers[::-1]
    result = connection.query(_bound(b"SELECT " + marks + b" FROM strings.named", backwards, mode))
    same([column.name.decode() for column in result.columns], names[::-1], "names of the answer")
    same(result.rows(), [[str(number).encode() for number in numbers[::-1]]], "values by name")
    connection.query(_bound(b"INSERT INTO strings.named (?) VALUES (?)", [backwards, numbers], mode))
    found = connection.query(_bound(b"SELECT ? FROM strings.named", [identifiers], mode)).rows()
    same(found, [[b"%d" % number for number in row] for row in (numbers, numbers[::-1])], "values by a list of names")
    assigned = Assignments([(Identifier("named", *name.parts) if i % 2 else name, -i) for i, name in enumerate(identifiers)])
    connection.query(_bound(b"UPDATE strings.named SET ? WHERE ? = ?", [assigned, identifiers[0], numbers[0]], mode))
    found = connection.query(_bound(b"SELECT ? FROM strings.named", [identifiers], mode)).rows()
    same(found, [[b"%d" % number for number in row] for row in ([-i for i in numbers], numbers[::-1])], "values that are set")


def _ascii_names(connection: Connection, mode: bool) -> str:
    """Each pair of bytes of ASCII except 0 begins a name or ends one; it ends none if its last byte is a space or `\\`."""
    pairs = [chr(one) + chr(other) for one in range(1, 128) for other in range(1, 128)]
    pairs.remove("\\`")
    # A number makes the names of one table differ, which are the same in either case of letters.
    names = [f"{pair}{i}" if i % 2 == 0 or pair[-1] in _NO_ENDS else f"{i}{pair}" for i, pair in enumerate(pairs)]
    for begin in range(0, len(names), 1000):
        _columns(connection, names[begin : begin + 1000], mode)
    for byte in range(1, 128):
        name = f"a{chr(byte)}"
        if chr(byte) in _SPACES[:-1]:
            refused = code_of(connection, _bound(b"CREATE TABLE strings.never (? INT)", [Identifier(name)], mode))
            same(refused, _WRONG_COLUMN, name)
    return f"{len(names)} names"


def _hostile_names(connection: Connection, mode: bool) -> str:
    """So do hostile names, and those of 64 characters; longer ones, empty ones and those that servers refuse are refused."""
    long = [byte * 63 + str(i) for i, byte in enumerate("`\\'\"a.?;é表€\n")] + ["".join(map(chr, range(64, 128)))]
    long += ["".join(map(chr, range(1, 64))) + "x"]
    long = [name[-64:] for name in long]
    same({len(name) for name in long}, {64}, "lengths")
    names = [f"{name}{i}" if name[-1] in _SPACES else f"{i}{name}" for i, name in enumerate(_NAMES)]
    _columns(connection, names + long, mode)
    for name in ("", "\0", "a\0b", "a ", "x" * 65, "é" * 65, "`" * 65, "\\", "a\\", "\\`", "a\\\\`b"):
        for query in (b"SELECT ?", b"SELECT :a"):
            try:
                _bound(query, [Identifier(name)] if b"?" in query else {"a": Identifier("t", name)}, mode)
            except mysql_params.FragmentError:
                continue
            raise AssertionError(f"{name!r} is bound")
    return f"{len(names) + len(long)} names"


def _qualified(connection: Connection, mode: bool) -> str:
    """A database, a table and a column of hostile names are found by them, also in places that one name takes."""
    count = 0
    for i, name in enumerate(_NAMES):
        if name[-1] in _SPACES:
            continue
        database, table = f"{i}{name}", f"{name}{i}"
        whole = Identifier(database, table)
        given = {"d": Identifier(database), "t": whole, "c": Identifier(name), "q": Identifier(database, table, name)}
        for text in (b"DROP DATABASE IF EXISTS :d", b"CREATE DATABASE :d", b"CREATE TABLE :t (:c INT)"):
            connection.query(_bound(text, given, mode))
        connection.query(_bound(b"INSERT INTO :t (:c) VALUES :rows", {**given, "rows": [(7,), (8,)]}, mode))
        asked = b"SELECT :q FROM :t WHERE :c IN (:ids) ORDER BY :q :way"
        words = {**given, "ids": [8, 7, None], "way": Keyword("DESC", among=("ASC", "DESC"))}
        same(connection.query(_bound(asked, words, mode)).rows(), [[b"8"], [b"7"]], name)
        connection.query(_bound(b"DROP DATABASE :d", given, mode))
        count += 1
    return f"{count} of each"


def _decimals() -> list:
    """Numbers of 1 to 65 digits, with the point in each place that a column has, and at both ends."""
    source = random.Random(20261127)
    found = ["0", "-0", "0.0", "-0.00", "1", "-1", "0.1", "9" * 65, "-" + "9" * 65, "1" + "0" * 64, "0." + "9" * 30]
    for after in range(31):
        for digits in (65, 64, source.randrange(after + 1, 64)):
            text = str(source.randrange(1, 10)) + "".join(source.choice("0123456789") for _ in range(digits - 1))
            before = text[: digits - after] or "0"
            sign = source.choice(("", "-"))
            found.append(sign + before + ("." + text[digits - after :] if after else ""))
    return [text for text in found if sum(map(str.isdigit, text)) <= 65]


def _numbers(connection: Connection, mode: bool) -> str:
    """A number is read to its last digit, with its type: by itself, compared, in a sum, and in a column of its scale."""
    numbers = _decimals()
    for text in numbers:
        number = decimal.Decimal(text)
        after = -number.as_tuple().exponent
        result = connection.query(_bound(b"SELECT ?", [number], mode))
        read = decimal.Decimal(result.rows()[0][0].decode())
        same((read, -read.as_tuple().exponent), (number, after), text)
        wide = len(text.lstrip("-")) > 19 or after > 0
        same(result.columns[0].kind == _NEWDECIMAL, wide, text)
        unit = decimal.Decimal(1).scaleb(-after)
        near = _EXACT.subtract(number, unit) if number > 0 else _EXACT.add(number, unit)
        query = b"SELECT ? = CAST(:t AS DECIMAL(65,%d)), ? = :n, ? > :n, :p = ?" % after
        names = {"a": number, "t": str(format(number, "f")), "n": near, "p": In([number])}
        cells = _cells(connection, query.replace(b"?", b":a"), names, mode)
        same(cells, [b"1", b"0", str(int(number > near)).encode(), b"1"], text)
        connection.make_anew(b"TABLE", b"strings.exact", b"(d DECIMAL(65,%d))" % after)
        connection.query(_bound(b"INSERT INTO strings.exact VALUES ?", [[(number,), (near,)]], mode))
        same(_cells(connection, b"SELECT COUNT(*), SUM(d = ?) FROM strings.exact", [number], mode), [b"2", b"1"], text)
        rows = connection.query(_bound(b"SELECT d FROM strings.exact WHERE d IN (?)", [[number]], mode)).rows()
        same([decimal.Decimal(row[0].decode()) for row in rows], [number], text)
    for left, right in (("0.1", "0.2"), ("9007199254740993", "0.01"), ("-" + "9" * 30 + ".01", "0.02")):
        pair = decimal.Decimal(left), decimal.Decimal(right)
        read = _cells(connection, b"SELECT ? + ?, ? - ?", [*pair, *pair], mode)
        wanted = [_EXACT.add(*pair), _EXACT.subtract(*pair)]
        same([decimal.Decimal(cell.decode()) for cell in read], wanted, pair)
    return f"{len(numbers)} numbers"


def _whole_numbers(connection: Connection, mode: bool) -> str:
    """An int of more than 64 bits is read to its last digit, and one of 64 bits too."""
    numbers = [sign * (2**bits + more) for bits in range(1, 216) for more in (-1, 0, 1) for sign in (1, -1)]
    numbers = [number for number in numbers + [10**65 - 1, 1 - 10**65] if abs(number) < 10**65]
    for begin in range(0, len(numbers), 100):
        batch = numbers[begin : begin + 100]
        wanted = [str(number).encode() for number in batch]
        same(_cells(connection, b"SELECT " + b", ".join([b"?"] * len(batch)), batch, mode), wanted, begin)
        query = b"SELECT " + b", ".join([b"? IN (?)"] * len(batch))
        given = [each for number in batch for each in (number, [number - 1 if number > 0 else number + 1, number])]
        same(_cells(connection, query, given, mode), [b"1"] * len(batch), begin)
    return f"{len(numbers)} numbers"


def _lists(connection: Connection, mode: bool) -> str:
    """A list in `IN` finds what the same values find as single marks, with NULL, quotes and bytes among them."""
    source = random.Random(20261128)
    stored = [*random_strings(300, 20261128), b"", b"NULL", b"'", b"\\", b"\\'", b",", b"', '", b")", b"a'b"]
    stored = list(dict.fromkeys(stored))
    connection.make_anew(b"TABLE", b"strings.listed", b"(i INT, v VARBINARY(500))")
    connection.query(_bound(b"INSERT INTO strings.listed VALUES ?", [list(enumerate(stored))], mode))
    found = 0
    for _ in range(300):
        values = source.sample(stored, source.randrange(1, 12)) + source.choice(([], [None], [b"never"]))
        source.shuffle(values)
        query = b"SELECT i FROM strings.listed WHERE v %s (?) ORDER BY i"
        marks = b", ".join([b"?"] * len(values))
        for operator in (b"IN", b"NOT IN"):
            text = _bound(query % operator, [values], mode)
            same(text, _bound((query % operator).replace(b"?", marks), values, mode), values)
            rows = [int(row[0]) for row in connection.query(text).rows()]
            inside = [i for i, value in enumerate(stored) if (value in values) == (operator == b"IN")]
            same(rows, [] if operator == b"NOT IN" and None in values else inside, values)
            found += len(rows)
    return f"300 lists, {found} rows found"


def _items(connection: Connection, mode: bool) -> str:
    """Each item of a list is what was handed in, by its number (ELT), and there are no more than were handed in."""
    source = random.Random(20261129)
    pool = random_strings(2000, 20261129)
    for _ in range(200):
        values = [source.choice(pool) for _ in range(source.randrange(1, 10))]
        for _ in range(source.randrange(4)):
            other = source.choice((None, 7, -3, decimal.Decimal("-0.50"), 2**70, "é'", "\\"))
            values.insert(source.randrange(len(values) + 1), other)
        numbers = range(1, len(values) + 2)
        query = b"SELECT " + b", ".join([b"HEX(ELT(?, ?))"] * len(numbers))
        row = _cells(connection, query, [each for number in numbers for each in (number, In(values))], mode)
        wanted = [None if value is None else _bytes(value).hex().upper().encode() for value in values]
        same(row, [*wanted, None], values)
    return "200 lists"


def _bytes(value) -> bytes:
    if isinstance(value, bytes):
        return value
    return (value if isinstance(value, str) else str(value)).encode()


def _rows(connection: Connection, mode: bool) -> str:
    """Rows are stored as they were handed in, of 1 to 8 columns, and a pair is found among rows."""
    strings = random_strings(4000, 20261130)
    texts = [string.decode() for string in strings if is_utf8(string)]
    total = 0
    for width in range(1, 9):
        columns = ", ".join(f"b{i} VARBINARY(500)" if i % 2 else f"b{i} VARCHAR(500)" for i in range(width))
        definition = f"(i INT PRIMARY KEY, {columns}) CHARACTER SET utf8mb4"
        connection.make_anew(b"TABLE", b"strings.rowed", definition.encode())
        pools = [strings if i % 2 else texts for i in range(width)]
        rows = [[pool[(n * width + i) % len(pool)] for i, pool in enumerate(pools)] for n in range(300)]
        rows = [[None if (n + i) % 11 == 0 else cell for i, cell in enumerate(row)] for n, row in enumerate(rows)]
        given = [(n, *row) for n, row in enumerate(rows)]
        connection.query(_bound(b"INSERT INTO strings.rowed VALUES ?", [given], mode))
        found = connection.query(b"SELECT * FROM strings.rowed ORDER BY i").rows()
        wanted = [[str(n).encode(), *(None if cell is None else _bytes(cell) for cell in row)] for n, row in enumerate(rows)]
        same(found, wanted, width)
        total += len(rows)
    query = b"SELECT i FROM strings.rowed WHERE (i, b1) IN (?) ORDER BY i"
    pairs = [(n, rows[n][1]) for n in range(40)] + [(50, b"never"), (60, None)]
    found = [int(row[0]) for row in connection.query(_bound(query, [pairs], mode)).rows()]
    same(found, [n for n in range(40) if rows[n][1] is not None], "pairs")
    return f"{total} rows"


def _assignments(connection: Connection, mode: bool) -> str:
    """Columns are set to what was handed in, each of its own, by `UPDATE`, `INSERT .. SET` and `ON DUPLICATE KEY UPDATE`."""
    source = random.Random(20261204)
    pool = [*random_strings(2000, 20261204), None, 7, -3, decimal.Decimal("-0.50"), 2**70, b"", b"'", b"\\", b"`", b" = ", b", `b1`"]
    columns = ["a", "b`", "c'", "d = 1, `e", "f\\g", "é"]
    definition = b"(i INT PRIMARY KEY, " + b", ".join([b"? VARBINARY(500)"] * len(columns)) + b")"
    connection.query(b"DROP TABLE IF EXISTS strings.assigned")
    connection.query(_bound(b"CREATE TABLE strings.assigned " + definition, list(map(Identifier, columns)), mode))
    wanted = {}
    for i in range(300):
        row = {column: source.choice(pool) for column in source.sample(columns, source.randrange(1, len(columns) + 1))}
        given = {"first": Assignments({"i": i, **row}), "i": i, "later": Assignments([("i", i), *row.items()])}
        connection.query(_bound(b"INSERT INTO strings.assigned SET :first", given, mode))
        changed = {Identifier("assigned", column): source.choice(pool) for column in source.sample(columns, 3)}
        if i % 2:
            text = b"UPDATE strings.assigned SET :set WHERE i = :i"
        else:
            text = b"INSERT INTO strings.assigned SET :later ON DUPLICATE KEY UPDATE :set"
        connection.query(_bound(text, {**given, "set": Assignments(changed)}, mode))
        stored = {**row, **{name.parts[1]: value for name, value in changed.items()}}
        values = [stored.get(column) for column in columns]
        wanted[i] = [b"%d" % i, *(None if value is None else _bytes(value) for value in values)]
    found = connection.query(b"SELECT * FROM strings.assigned ORDER BY i").rows()
    same(found, list(wanted.values()), "what is stored")
    return f"{len(wanted)} rows of up to {len(columns)} assignments"


_KEYWORDS = [
    (("ASC",), b"SELECT 1 FROM (SELECT 1 a UNION SELECT 2) t ORDER BY a ?, 1", 2),
    (("DESC",), b"SELECT a FROM (SELECT 1 a UNION SELECT 2) t ORDER BY a ? LIMIT 1", [[b"2"]]),
    (("ALL",), b"SELECT ? a FROM (SELECT 1 a UNION ALL SELECT 1) t", 2),
    (("DISTINCT",), b"SELECT ? a FROM (SELECT 1 a UNION ALL SELECT 1) t", 1),
    (("AND",), b"SELECT 1 ? 0", [[b"0"]]),
    (("OR", "XOR"), b"SELECT 1 ? 0", [[b"1"]]),
    (("NOT",), b"SELECT ? 1", [[b"0"]]),
    (("NULL",), b"SELECT ?", [[None]]),
    (("TRUE",), b"SELECT ?", [[b"1"]]),
    (("FALSE",), b"SELECT ?", [[b"0"]]),
    (("IS NULL",), b"SELECT 1 ?", [[b"0"]]),
    (("IS NOT NULL",), b"SELECT 1 ?", [[b"1"]]),
    (("LIKE",), b"SELECT 'ab' ? 'a%'", [[b"1"]]),
    (("NOT LIKE",), b"SELECT 'ab' ? 'a%'", [[b"0"]]),
    (("MICROSECOND",), b"SELECT TIMESTAMPDIFF(?, '2019-01-01', '2019-01-01 00:00:01')", [[b"1000000"]]),
    (("SECOND",), b"SELECT TIMESTAMPDIFF(?, '2019-01-01', '2020-01-01')", [[b"31536000"]]),
    (("MINUTE",), b"SELECT TIMESTAMPDIFF(?, '2019-01-01', '2020-01-01')", [[b"525600"]]),
    (("HOUR",), b"SELECT TIMESTAMPDIFF(?, '2019-01-01', '2020-01-01')", [[b"8760"]]),
    (("DAY",), b"SELECT TIMESTAMPDIFF(?, '2019-01-01', '2020-01-01')", [[b"365"]]),
    (("WEEK",), b"SELECT TIMESTAMPDIFF(?, '2019-01-01', '2020-01-01')", [[b"52"]]),
    (("MONTH",), b"SELECT TIMESTAMPDIFF(?, '2019-01-01', '2020-01-01')", [[b"12"]]),
    (("QUARTER",), b"SELECT TIMESTAMPDIFF(?, '2019-01-01', '2020-01-01')", [[b"4"]]),
    (("YEAR",), b"SELECT TIMESTAMPDIFF(?, '2019-01-01', '2020-01-01')", [[b"1"]]),
    (("LEFT", "RIGHT", "INNER"), b"SELECT 1 FROM (SELECT 1 a) x ? JOIN (SELECT 1 b) y ON a = b", 1),
    (("CROSS",), b"SELECT 1 FROM (SELECT 1 a) x ? JOIN (SELECT 1 b UNION SELECT 2) y", 2),
    (("UNION",), b"SELECT 1 ? SELECT 1", 1),
    (("UNION ALL",), b"SELECT 1 ? SELECT 1", 2),
    (("FOR UPDATE", "LOCK IN SHARE MODE"), b"SELECT i FROM strings.words ?", 2),
]


def _keywords(connection: Connection, mode: bool) -> str:
    """Each keyword does in a statement what its name says."""
    connection.make_anew(b"TABLE", b"strings.words", b"(i INT DEFAULT 9)")
    connection.query(b"INSERT INTO strings.words VALUES (3)")
    connection.query(_bound(b"INSERT INTO strings.words VALUES (?)", [Keyword("DEFAULT", among=["DEFAULT"])], mode))
    same(connection.query(b"SELECT i FROM strings.words ORDER BY i").rows(), [[b"3"], [b"9"]], "DEFAULT")
    tried = ["DEFAULT"]
    for words, query, wanted in _KEYWORDS:
        for word in words:
            rows = connection.query(_bound(query, [Keyword(word, among=mysql_params.KEYWORDS)], mode)).rows()
            same(len(rows) if isinstance(wanted, int) else rows, wanted, word)
            tried.append(word)
    same(sorted(tried), sorted(mysql_params.KEYWORDS), "all that are written")
    return f"{len(tried)} keywords"


def _kinds() -> dict:
    """Fragments of each kind, which differ in what a text in them says: the answer has one shape for all of a kind."""
    texts = [(one, other) for one, other in zip(_HOSTILE, _HOSTILE[1:])]
    kinds: dict = {
        "a text": [In([one]) for one in _HOSTILE],
        "two texts": [In(pair) for pair in texts],
        "a row": [In([pair]) for pair in texts],
        "two rows": [In([pair, pair[::-1]]) for pair in texts],
        "a name": [Identifier(name) for name in ("never", *(name + "never" for name in _HOSTILE))],
        "names": [Identifier(one + "x", other + "never") for one, other in (("never", "x"), *texts)],
        "a list of names": [[Identifier("never"), Identifier(name + "never")] for name in ("never", *_HOSTILE)],
        "an assignment": [Assignments({"never": one}) for one in _HOSTILE],
        "assignments": [Assignments([(one + "never", other), ("never", one)]) for one, other in texts],
        "a number": [decimal.Decimal(text) for text in ("2.5", "9.75", "123456789.5", "1" * 30 + ".5")],
        "a negative number": [decimal.Decimal(text) for text in ("-2.5", "-9.75", "-123456789.5", "-" + "1" * 30 + ".5")],
        "numbers": [In([decimal.Decimal(text), 2**70 + i]) for i, text in enumerate(("2.5", "9.75", "1" * 30 + ".5"))],
        "a double": [2.5, 1e16, 0.1, 123456.75, 1e-7],
        "a negative double": [-2.5, -1e16, -0.1, -1e-7],
        "doubles": [In([2.5, 1e16]), In([1e16, 0.1]), In([1e-7, 2.5])],
    }
    return kinds


_ERRORS_ALIKE = {-code: -1054 for code in (1146, 1049, 1109, 1103, 1102)}
"""No such column, table or database, and a wrong name of one: which it is depends on the name alone."""


def _search(path: str) -> str:
    """A random portable query answers in one shape, whatever the texts in fragments of one kind say; others don't all."""
    source = random.Random(20261131)
    connection = Connection(path, "utf8mb4")
    kinds = _kinds()
    sent = answered = groups = leaks = 0
    for sql_mode in sql_modes(connection):
        connection.set("utf8mb4", sql_mode)
        mode = sql_mode.startswith("NO_BACKSLASH_ESCAPES")
        for query in (random_query(source) for _ in range(6000)):
            portable = mysql_params.first_unportable(query, mode) is None
            for kind in source.sample(sorted(kinds), 3):
                texts = _texts(query, source.sample(kinds[kind], min(4, len(kinds[kind]))), mode)
                if not texts:
                    break
                shapes = [_ERRORS_ALIKE.get(shape, shape) for shape in connection.shapes(texts)]
                sent += len(texts)
                if portable:
                    same(len(set(shapes)), 1, (sql_mode, kind, query, list(zip(texts, shapes))))
                    answered += shapes[0] > 0
                    groups += 1
                else:
                    leaks += len(set(shapes)) > 1
    connection.close()
    same(min(groups, answered, 20 * leaks) > 1000, True, (groups, answered, leaks))
    told = f"{groups} queries with fragments of one kind, {answered} of them answered; {sent} texts sent"
    return f"{told}; {leaks} leaks, of queries that aren't portable"


def _texts(query: bytes, fragments: list, mode: bool) -> list:
    """Return the query's texts, each with one of the fragments in all places; none if it has no places, or can't be bound."""
    try:
        names = mysql_params.names(query, mode).names
        if names:
            return [_bound(query, {names[0]: fragment}, mode) for fragment in fragments]
        try:
            _bound(query, None, mode)
            return []
        except mysql_params.MarkCountError as error:
            return [_bound(query, [fragment] * error.marks, mode) for fragment in fragments]
    except (mysql_params.MixedError, mysql_params.NotAloneError, mysql_params.MissingError):
        return []
