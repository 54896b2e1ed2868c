"""What a value means by the connection's mode, though it stays in its literal: by steady texts, which no mode reads otherwise.

docs/LIMITS.md names each. A test that fails shows that the server has changed.
"""

import mysql_params
from harness import Tests, same
from protocol import Connection, ServerError


def run(tests: Tests, path: str) -> None:
    """Run every test."""
    connection = Connection(path)
    connection.query(b"USE strings")
    for name, function in (
        ("limits: LIKE without ESCAPE", _pattern),
        ("limits: 0 in an AUTO_INCREMENT column", _zero_for_the_next),
        ("limits: fractions of a second that a column doesn't keep", _fractions),
        ("limits: an unsigned number less a greater one", _subtraction),
    ):
        tests.run(name, function, connection)
    connection.close()


def _rows(connection: Connection, query: bytes, params: dict) -> list:
    return connection.query(mysql_params.bind_anywhere(query, params)).rows()


def _pattern(connection: Connection) -> None:
    """A backslash of the pattern escapes, except to MySQL without escapes; with ESCAPE the modes agree."""
    without = [b"0", b"1"] if connection.is_mysql else [b"1", b"0"]
    for sql_mode, wanted in (("", [b"1", b"0"]), ("NO_BACKSLASH_ESCAPES", without)):
        connection.set("utf8mb4", sql_mode)
        row = _rows(connection, b"SELECT :percent LIKE :a, :backslash LIKE :a", _texts("50\\%"))
        same(row, [wanted], sql_mode)
        row = _rows(connection, b"SELECT :percent LIKE :a ESCAPE '|', :backslash LIKE :a ESCAPE '|'", _texts("50|%"))
        same(row, [[b"1", b"0"]], sql_mode)
    connection.set("utf8mb4", "")


def _texts(pattern: str) -> dict:
    return {"percent": "50%", "backslash": "50\\x", "a": pattern}


def _zero_for_the_next(connection: Connection) -> None:
    for sql_mode, wanted in (("", b"1"), ("NO_AUTO_VALUE_ON_ZERO", b"0")):
        connection.set("utf8mb4", sql_mode)
        connection.make_anew(b"TABLE", b"strings.numbered", b"(n INT AUTO_INCREMENT PRIMARY KEY)")
        connection.query(mysql_params.bind_anywhere(b"INSERT INTO strings.numbered VALUES (:a)", {"a": 0}))
        same(connection.query(b"SELECT n FROM strings.numbered").rows(), [[wanted]], sql_mode)
    connection.set("utf8mb4", "")


def _fractions(connection: Connection) -> None:
    """MySQL rounds them, MariaDB cuts them, each unless its mode says otherwise."""
    if connection.is_mysql:
        rounds, cuts = "", "TIME_TRUNCATE_FRACTIONAL"
    else:
        rounds, cuts = "TIME_ROUND_FRACTIONAL", ""
    for sql_mode, wanted in ((rounds, b"01:02:04"), (cuts, b"01:02:03")):
        connection.set("utf8mb4", sql_mode)
        connection.make_anew(b"TABLE", b"strings.timed", b"(t TIME)")
        connection.query(mysql_params.bind_anywhere(b"INSERT INTO strings.timed VALUES (:a)", {"a": "01:02:03.9"}))
        same(connection.query(b"SELECT t FROM strings.timed").rows(), [[wanted]], sql_mode)
    connection.set("utf8mb4", "")


def _subtraction(connection: Connection) -> None:
    query, params = b"SELECT CAST(:a AS UNSIGNED) - :b", {"a": 1, "b": 2}
    connection.set("utf8mb4", "NO_UNSIGNED_SUBTRACTION")
    same(_rows(connection, query, params), [[b"-1"]], "NO_UNSIGNED_SUBTRACTION")
    connection.set("utf8mb4", "")
    try:
        rows = _rows(connection, query, params)
    except ServerError as error:
        same(error.code, 1690, query)
        return
    raise AssertionError(f"it is {rows!r}")
