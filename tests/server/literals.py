"""Values through the archive to the server and back: what it read is what was handed in."""

import datetime
import itertools

import mysql_params
import strings
from harness import Tests, same
from protocol import Connection

CHARSETS = ("latin1", "binary", "utf8mb4")
SQL_MODES = ("", "NO_BACKSLASH_ESCAPES")
_BATCH = 100


def run(tests: Tests, path: str) -> None:
    """Run every test in each character set and mode."""
    random_strings = strings.random_strings(10000, 20261123)
    mixed_strings = strings.letters_and_escapes(2000, 20261126)
    for charset, sql_mode in itertools.product(CHARSETS, SQL_MODES):
        connection = Connection(path, charset, sql_mode)
        mode = sql_mode == "NO_BACKSLASH_ESCAPES"
        label = f"literals: {charset}{', no backslash escapes' if mode else ''}"
        tests.run(f"{label}: mode of the connection", _mode, connection, mode)
        tests.run(f"{label}: every one-byte string", _read_as_bytes, connection, mode, strings.one_byte())
        tests.run(f"{label}: 10000 random strings", _read_as_bytes, connection, mode, random_strings)
        tests.run(f"{label}: 2000 strings of letters and escapes", _read_as_bytes, connection, mode, mixed_strings)
        tests.run(f"{label}: strings stored in a table", _stored, connection, mode, random_strings[:2000])
        tests.run(f"{label}: long strings", _long, connection, mode)
        tests.run(f"{label}: whole numbers", _numbers, connection, mode)
        tests.run(f"{label}: dates", _dates, connection, mode)
        tests.run(f"{label}: times", _times, connection, mode)
        tests.run(f"{label}: NULL", _null, connection, mode)
        tests.run(f"{label}: names, with repeats", _names, connection, mode)
        connection.close()


def _mode(connection: Connection, mode: bool) -> None:
    row = connection.query(b"SELECT @@sql_mode").rows()[0]
    same("NO_BACKSLASH_ESCAPES" in row[0].decode(), mode, "@@sql_mode")


def _row(connection: Connection, query: bytes, params, mode: bool) -> list:
    """Return the one row of a query, bound by the archive."""
    rows = connection.query(mysql_params.bind(query, params, mode)).rows()
    same(len(rows), 1, query)
    return rows[0]


def _read_as_bytes(connection: Connection, mode: bool, values: list) -> str:
    """Each string has the bytes on the server that were handed in, and is alone in its column."""
    for begin in range(0, len(values), _BATCH):
        batch = values[begin : begin + _BATCH]
        query = b"SELECT " + b",".join([b"HEX(?)"] * len(batch))
        row = _row(connection, query, batch, mode)
        same(len(row), len(batch), query)
        for value, cell in zip(batch, row):
            same(cell, value.hex().upper().encode(), value)
    quoted = sum(strings.is_utf8(value) for value in values)
    return f"{quoted} UTF-8, {len(values) - quoted} not"


def _stored(connection: Connection, mode: bool, values: list) -> None:
    """A column of bytes holds what was handed in, and finds it again."""
    connection.make_anew(b"TABLE", b"strings.s", b"(i INT PRIMARY KEY, v BLOB)")
    for begin in range(0, len(values), _BATCH):
        batch = values[begin : begin + _BATCH]
        query = b"INSERT INTO strings.s VALUES " + b",".join([b"(?,?)"] * len(batch))
        pairs = [each for i, value in enumerate(batch, begin) for each in (i, value)]
        connection.query(mysql_params.bind(query, pairs, mode))
    rows = connection.query(b"SELECT v FROM strings.s ORDER BY i").rows()
    same(len(rows), len(values), "rows stored")
    for value, row in zip(values, rows):
        same(row[0], value, value)
    for i, value in enumerate(values[:200]):
        row = _row(connection, b"SELECT COUNT(*) FROM strings.s WHERE i=:i AND v=:v", {"i": i, "v": value}, mode)
        same(row, [b"1"], value)


def _long(connection: Connection, mode: bool) -> None:
    """Strings of lengths about the steps of length-encoded forms, and a megabyte of quotes and backslashes."""
    for length in (0, 250, 251, 65535, 65536, 1 << 20):
        for unit in (b"'", b"\\", b"\n", b"\xff", b"\0'"):
            value = (unit * length)[:length]
            row = _row(connection, b"SELECT SHA2(?, 256), LENGTH(?)", [value, value], mode)
            copy = b"'%s'" % value.hex().encode()
            own = connection.query(b"SELECT SHA2(UNHEX(" + copy + b"), 256)").rows()[0]
            same(row, [own[0], str(length).encode()], (unit, length))


def _numbers(connection: Connection, mode: bool) -> None:
    """Whole numbers at the ends of every width, as text, as a number, and stored."""
    edges = sorted({sign * (1 << bit) + step for bit in range(64) for sign in (1, -1) for step in (-1, 0, 1)})
    numbers = [n for n in edges if -(1 << 63) <= n < 1 << 64] + [0, (1 << 64) - 1]
    connection.make_anew(b"TABLE", b"strings.n", b"(s BIGINT, u BIGINT UNSIGNED)")
    for number in numbers:
        text = str(number).encode()
        row = _row(connection, b"SELECT ?, CAST(? AS CHAR), HEX(?), ?+0=?", [number] * 5, mode)
        digits = b"%X" % (number % (1 << 64))
        same(row, [text, text, digits, b"1"], number)
        signed, unsigned = number < 1 << 63, number >= 0
        params = [number if signed else None, number if unsigned else None]
        connection.query(b"DELETE FROM strings.n")
        connection.query(mysql_params.bind(b"INSERT INTO strings.n VALUES (?, ?)", params, mode))
        stored = connection.query(b"SELECT s, u FROM strings.n").rows()[0]
        same(stored, [text if signed else None, text if unsigned else None], number)


def _datetimes() -> list:
    noon = datetime.datetime(2019, 11, 27, 12, 30, 1)
    return [
        datetime.datetime(1, 1, 1), datetime.datetime(1, 1, 1, 0, 0, 0, 1), datetime.datetime(999, 12, 31, 23, 59, 59),
        datetime.datetime(1970, 1, 1), datetime.datetime(2000, 2, 29, 0, 0, 1), noon, noon.replace(microsecond=1),
        noon.replace(microsecond=100000), noon.replace(hour=0, minute=0, second=0), datetime.date(2024, 2, 29),
        datetime.date(1, 1, 1), datetime.date(9999, 12, 31), datetime.datetime(9999, 12, 31, 23, 59, 59, 999999),
    ]


def _dates(connection: Connection, mode: bool) -> None:
    """Dates, with and without a time of day, by their fields."""
    fields = ("year", "month", "day", "hour", "minute", "second", "microsecond")
    query = b"SELECT %s FROM (SELECT CAST(:v AS DATETIME(6)) AS d) AS x"
    query %= b",".join(b"%s(d)" % field.upper().encode() for field in fields)
    for date in _datetimes():
        wanted = [str(getattr(date, field, 0)).encode() for field in fields]
        same(_row(connection, query, {"v": date}, mode), wanted, date)


def _timedeltas() -> list:
    longest = datetime.timedelta(hours=838, minutes=59, seconds=59)
    sizes = [
        datetime.timedelta(0), datetime.timedelta(microseconds=1), datetime.timedelta(milliseconds=500),
        datetime.timedelta(seconds=59), datetime.timedelta(hours=1), datetime.timedelta(days=1),
        datetime.timedelta(hours=99, minutes=59, seconds=59),
        datetime.timedelta(days=34, hours=22, microseconds=999999),
        datetime.timedelta(hours=32, minutes=9, seconds=10), longest,
    ]
    return sizes + [-size for size in sizes]


def _times(connection: Connection, mode: bool) -> None:
    """Times of either sign up to the server's longest, by their microseconds and their text."""
    micro = datetime.timedelta(microseconds=1)
    read = b"(SELECT CAST(:v AS TIME(6)) AS t) AS x"
    query = b"SELECT (HOUR(t) * 3600 + MINUTE(t) * 60 + SECOND(t)) * 1000000 + MICROSECOND(t), "
    query += b"t < CAST('00:00:00' AS TIME) FROM " + read
    for time in _timedeltas():
        wanted = [str(abs(time) // micro).encode(), b"1" if time < 0 * micro else b"0"]
        same(_row(connection, query, {"v": time}, mode), wanted, time)


def _null(connection: Connection, mode: bool) -> None:
    row = _row(connection, b"SELECT :v, :v IS NULL, COALESCE(:v, 7)", {"v": None}, mode)
    same(row, [None, b"1", b"7"], None)


def _names(connection: Connection, mode: bool) -> None:
    """A name has its value at each place, and what stands in strings and comments is none."""
    query = b"SELECT HEX(:b), :a, ':a', \":a\", :a /* :a */ AS `:a`, HEX(:b) -- :a\n# :b ?\n, :_"
    params = {"a": -5, "b": b"'\\\n", "_": 1 << 63, "unused": None}
    result = connection.query(mysql_params.bind(query, params, mode))
    same(result.rows(), [[b"275C0A", b"-5", b":a", b":a", b"-5", b"275C0A", b"9223372036854775808"]], query)
    same(result.columns[4].name, b":a", "the name of the fifth column")
