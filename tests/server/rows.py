"""Rows as the server sent them, in text and binary form, read by the libraries.

The folder `rows` has a small Rattle program over `read_text_cells` and `deserialize`, which `run` builds unproved by
`rt try`. It is handed the packets, and what it prints is held against the server's own account of each value (`HEX`,
`CAST`, `YEAR`..). Values in binary form also go through the archive, whose flat form takes them as they are: each is
bound, and the server says whether the literal is the column's value.
"""

import os
import struct
import subprocess
from typing import NamedTuple

import mysql_params
from harness import Skip, Tests, same
from protocol import Connection, lenenc

# Columns: SQL type, how the server accounts for a value, and values in SQL. NULL is added to each.
_INTEGERS = [("TINYINT", 1 << 7), ("SMALLINT", 1 << 15), ("MEDIUMINT", 1 << 23), ("INT", 1 << 31), ("BIGINT", 1 << 63)]
_STRING = ["''", "'a'", "'it''s'", "REPEAT('x', 250)", "REPEAT('x', 251)"]
_LONG = [*_STRING, "REPEAT('x', 65535)", "REPEAT('x', 65536)"]
_TIMES = [
    "'00:00:00'", "'00:00:01'", "'-00:00:01'", "'23:59:59'", "'24:00:00'", "'838:59:59'", "'-838:59:59'",
    "'-32:09:10'",
]  # fmt: skip
_DATETIMES = [
    "'0000-00-00 00:00:00'", "'0001-01-01 00:00:00'", "'2019-11-27 00:00:00'", "'2019-11-27 12:30:01'",
    "'9999-12-31 23:59:59'",
]  # fmt: skip
_MICROS = ["'2019-11-27 12:30:01.000001'", "'2019-11-27 00:00:00.5'", "'2019-11-27 12:30:01.999999'"]
_COLUMNS = [
    *[(name, "whole", [0, 1, -1, half - 1, -half, 1 - half]) for name, half in _INTEGERS],
    *[(name + " UNSIGNED", "whole", [0, 1, half - 1, half, 2 * half - 1]) for name, half in _INTEGERS],
    ("YEAR", "whole", [0, 1901, 2155]),
    ("FLOAT", "float", ["0", "0.5", "-1.25", "16777216", "-3.4028234663852886e38", "1.1754943508222875e-38"]),
    ("DOUBLE", "double", ["0", "0.1", "-1.25", "9007199254740993", "1.7976931348623157e308", "2.225073858507202e-308"]),
    ("DECIMAL(65,30)", "text", ["0", "0.1", "-12345678901234567890.000000000000000000000000000001"]),
    ("BIT(1)", "bits", ["b'0'", "b'1'"]),
    ("BIT(17)", "bits", ["0", "65793", "131071"]),
    ("BIT(64)", "bits", ["0", "39", "18446744073709551615"]),
    ("DATE", "date", ["'0000-00-00'", "'0001-01-01'", "'2019-11-27'", "'2019-00-00'", "'9999-12-31'"]),
    ("DATETIME", "date", _DATETIMES),
    ("DATETIME(6)", "date", _DATETIMES + _MICROS),
    ("TIMESTAMP", "date", ["'0000-00-00 00:00:00'", "'1971-01-01 00:00:00'", "'2019-11-27 12:30:01'"]),
    ("TIMESTAMP(6)", "date", ["'2019-11-27 00:00:00'", *_MICROS]),
    ("TIME", "time", _TIMES),
    ("TIME(6)", "time", [*_TIMES, "'00:00:00.000001'", "'-00:00:00.5'", "'838:59:59.999999'", "'-838:59:59.999999'"]),
    ("CHAR(255)", "bytes", _STRING),
    ("VARCHAR(300)", "bytes", _STRING),
    ("BINARY(3)", "bytes", ["''", "x'FF0027'", "x'5C5C5C'"]),
    ("VARBINARY(300)", "bytes", [*_STRING, "x'FBFF00'"]),
    ("TINYBLOB", "bytes", _STRING),
    *[(name, "bytes", _STRING) for name in ("BLOB", "MEDIUMBLOB", "TINYTEXT", "TEXT", "MEDIUMTEXT", "LONGTEXT")],
    ("LONGBLOB", "bytes", _LONG),
    ("ENUM('a', 'it''s', '')", "text", ["'a'", "'it''s'", "''"]),
    ("SET('a', 'b', 'c')", "text", ["''", "'a'", "'a,c'", "'a,b,c'"]),
    ("JSON", "bytes", ["'{}'", "'[1, \"a\"]'"]),
    ("POINT", "bytes", ["POINT(1, 2)"]),
]
_MARIADB_COLUMNS = [
    ("INET6", "text", ["'::1'", "'2001:db8::ff00:42:8329'"]),
    ("UUID", "text", ["'123e4567-e89b-12d3-a456-426655440000'"]),
]

# Expressions, whose types no column has.
_EXPRESSIONS = [
    ("NULL", "whole", b"NULL"),
    ("a small number", "whole", b"7"),
    ("a medium text", "bytes", b"ELT(1, 'it''s', REPEAT('y', 70000))"),
    ("a long text", "bytes", b"ELT(1, 'it''s', REPEAT('y', 20000000))"),
    ("a date of a string", "date", b"CAST('2019-11-27' AS DATE)"),
    ("a date and time", "date", b"CAST('2019-11-27 12:30:01.5' AS DATETIME(1))"),
    ("a time", "time", b"CAST('-838:59:59' AS TIME)"),
]

# The number of each type that the server is to have sent, by its name in the protocol.
_WANTED_TYPES = {
    1: "TINY", 2: "SHORT", 3: "LONG", 4: "FLOAT", 5: "DOUBLE", 6: "NULL", 7: "TIMESTAMP", 8: "LONGLONG", 9: "INT24",
    10: "DATE",
    11: "TIME", 12: "DATETIME", 13: "YEAR", 16: "BIT", 246: "NEWDECIMAL", 250: "MEDIUM_BLOB", 251: "LONG_BLOB",
    252: "BLOB",
    253: "VAR_STRING", 254: "STRING", 255: "GEOMETRY",
}
_MYSQL_TYPES = {245: "JSON"}

# What the server says of a value `c`: of each kind, in columns of text.
_ACCOUNTS = {
    "whole": b"CAST(c AS CHAR)",
    "float": b"c",
    "double": b"CAST(c AS CHAR)",
    "text": b"HEX(CAST(c AS CHAR))",
    "bytes": b"HEX(c)",
    "bits": b"HEX(CAST(c AS BINARY))",
    "date": b"YEAR(c), MONTH(c), DAY(c), HOUR(c), MINUTE(c), SECOND(c), MICROSECOND(c)",
    "time": b"IF(c < CAST('00:00:00' AS TIME), 'true', 'false'), HOUR(c) DIV 24, HOUR(c) MOD 24, MINUTE(c), SECOND(c),"
    b" MICROSECOND(c)",
}

# How the server compares a value with a literal, if not by the bytes of both.
_COMPARED = {"whole": b"c <=> ?", "date": b"c <=> ?", "time": b"c <=> ?", "text": b"HEX(CAST(c AS CHAR)) <=> HEX(?)",
             "bits": b"HEX(CAST(c AS BINARY)) <=> HEX(?)", "float": b"c <=> ?", "double": b"c <=> ?"}


class Case(NamedTuple):
    """A column to read: its name, the kind of its values, a query of it, and the server's account of each value."""

    name: str
    kind: str
    query: bytes
    accounts: list
    sources: list


def run(tests: Tests, path: str, folder: str) -> None:
    """Run every test of rows."""
    connection = Connection(path)
    cases = _cases(connection)
    sent = set()
    tests.run("rows: text cells and binary values", _by_program, connection, cases, folder, sent)
    tests.run("rows: every type that the server sends was read", _types, sent, connection.is_mysql)
    tests.run("rows: binary values through the archive", _by_archive, connection, cases)
    connection.close()


def _cases(connection: Connection) -> list:
    cases = []
    columns = _COLUMNS + ([] if connection.is_mysql else _MARIADB_COLUMNS)
    for number, (kind_of_column, kind, values) in enumerate(columns):
        table = b"strings.r%d" % number
        definition = b"(i INT PRIMARY KEY, c %s NULL)" % kind_of_column.encode()
        connection.make_anew(b"TABLE", table, definition)
        sources = [*[str(value) for value in values], "NULL"]
        for i, value in enumerate(sources):
            connection.query(b"INSERT INTO %s VALUES (%d, %s)" % (table, i, value.encode()))
        cases.append(_case(connection, kind_of_column, kind, b"(SELECT i, c FROM %s)" % table, sources))
    for name, kind, expression in _EXPRESSIONS:
        case = _case(connection, name, kind, b"(SELECT 0 AS i, %s AS c)" % expression, [expression.decode()])
        cases.append(case._replace(query=b"SELECT %s AS c" % expression))
    return cases


def _case(connection: Connection, name: str, kind: str, source: bytes, sources: list) -> Case:
    query = b"SELECT c FROM %s AS x ORDER BY i" % source
    accounts = connection.query(b"SELECT %s, c IS NULL FROM %s AS x ORDER BY i" % (_ACCOUNTS[kind], source)).rows()
    return Case(name, kind, query, accounts, sources)


def _value(kind: str, account: list, source: str) -> str:
    """Return how the reader of rows prints a value in binary form, by the server's account of it."""
    if account[-1] == b"1":
        return "NULL"
    cells = [cell.decode() for cell in account[:-1]]
    if kind == "whole":
        return f"{'Int' if int(cells[0]) < 1 << 63 else 'UInt'} {int(cells[0])}"
    if kind == "float":
        return f"Float {struct.unpack('<I', struct.pack('<f', float(source)))[0]}"
    if kind == "double":
        same(float(cells[0]), float(source), source)
        return f"Double {struct.unpack('<Q', struct.pack('<d', float(source)))[0]}"
    if kind in ("text", "bytes", "bits"):
        return f"Bytes {cells[0].lower()}"
    return f"{'Date' if kind == 'date' else 'Time'} {' '.join(cells)}"


def _request(form: bytes, columns: list, packet: bytes) -> bytes:
    """Return a request of the reader of rows."""
    described = b"".join(struct.pack("<BH", column.kind, column.flags) for column in columns)
    return form + struct.pack("<H", len(columns)) + described + struct.pack("<I", len(packet)) + packet


def _read(folder: str, requests: list) -> list:
    """Return what the reader of rows prints for each request: the lines of its values."""
    place = os.path.join(folder, "rows", "crates", "mysql_rows")
    if not os.path.isdir(place):
        raise Skip("the toolchain's `rt` is missing, which builds the reader of rows")
    packets = os.path.join(folder, "packets")
    with open(packets, "wb") as file:
        file.write(b"".join(requests))
    ran = subprocess.run(["rt", "try", "--data", f"packets={packets}"], cwd=place, capture_output=True)
    same(ran.returncode, 0, ran.stderr.decode(errors="replace")[-3000:])
    answers, values = [], []
    for line in ran.stdout.decode().splitlines():
        if line.startswith(("end ", "refused: ")):
            same(line, "end 0", values)
            answers.append(values)
            values = []
        else:
            values.append(line.strip())
    same(len(answers), len(requests), "rows answered")
    return answers


def _by_program(connection: Connection, cases: list, folder: str, sent: set) -> str:
    """What the reader of rows prints of all rows is what the server says of them."""
    kinds = set()
    rows = [row for case in cases for row in _single_values(connection, case, kinds)] + _whole_rows(connection)
    answers = _read(folder, [request for _, request, _ in rows])
    for (of, _, wanted), answer in zip(rows, answers):
        same(answer, wanted, of)
    # Only now is each of these types known to be read.
    sent.update(kinds)
    return f"{len(rows)} rows, {sum(len(wanted) for _, _, wanted in rows)} values"


def _single_values(connection: Connection, case: Case, kinds: set) -> list:
    """Each value alone in its row, in both forms: what it is, the request, the lines wanted. Add the columns' kinds."""
    text, binary = connection.query(case.query), connection.binary(case.query)
    kinds.update(column.kind for column in text.columns + binary.columns)
    shown = _ACCOUNTS[case.kind] if case.kind in ("bytes", "bits") else b"HEX(CAST(c AS CHAR))"
    texts = connection.query(b"SELECT %s FROM (%s) AS z" % (shown, case.query)).rows()
    rows = []
    for i, account in enumerate(case.accounts):
        of, digits = (case.name, case.sources[i]), texts[i][0]
        wanted = "NULL" if digits is None else f"Bytes {digits.decode().lower()}".strip()
        rows.append(((of, "text"), _request(b"T", text.columns, text.packets[i]), [wanted]))
        wanted = _value(case.kind, account, case.sources[i]).strip()
        rows.append(((of, "binary"), _request(b"B", binary.columns, binary.packets[i]), [wanted]))
    return rows


def _whole_rows(connection: Connection) -> list:
    """Rows of 40 columns, of which every one is NULL once, alone and with all others but it: as _single_values."""
    count = 40
    values = [b"%d" % i if i % 3 else b"'s%d'" % i for i in range(count)]
    binary = [f"Int {i}" if i % 3 else f"Bytes {f's{i}'.encode().hex()}" for i in range(count)]
    text = ["Bytes " + value.strip(b"'").hex() for value in values]
    rows = []
    for null in range(count):
        for only in (True, False):
            nulls = [(i == null) == only for i in range(count)]
            query = b"SELECT " + b",".join(b"NULL" if nulls[i] else values[i] for i in range(count))
            forms = ((b"B", connection.binary(query), binary), (b"T", connection.query(query), text))
            for form, result, shown in forms:
                wanted = ["NULL" if nulls[i] else shown[i] for i in range(count)]
                rows.append(((query, form), _request(form, result.columns, result.packets[0]), wanted))
    return rows


def _types(sent: set, is_mysql: bool) -> str:
    if not sent:
        raise Skip("no row was read")
    wanted = {**_WANTED_TYPES, **(_MYSQL_TYPES if is_mysql else {})}
    missing = [name for number, name in wanted.items() if number not in sent]
    same((missing, sorted(sent - set(wanted))), ([], []), "types missing, and types not known here")
    return f"{len(sent)} types"


def _form(kind: int, unsigned: bool, value: bytes) -> bytes:
    """Return the flat form of one parameter by position, of a value in binary form."""
    return bytes([0, kind, 128 if unsigned else 0]) + value


def _by_archive(connection: Connection, cases: list) -> str:
    """Each value in binary form is bound as it stands, and is the column's to the server; a float only as a fragment."""
    count = 0
    for case in cases:
        result = connection.binary(case.query)
        column = result.columns[0]
        for i, packet in enumerate(result.packets):
            count += 1
            is_null = packet[1] & 4
            form = _form(6, False, b"") if is_null else _form(column.kind, bool(column.flags & 32), packet[2:])
            compared = _COMPARED.get(case.kind, b"HEX(c) <=> HEX(?)")
            query = b"SELECT %s FROM (%s LIMIT %d, 1) AS z" % (compared, case.query, i)
            if case.kind in ("float", "double") and not is_null:
                _refused_as_float(query, form, case.name)
                text = mysql_params.bind(query, struct.unpack("<f" if case.kind == "float" else "<d", packet[2:]))
            else:
                text = mysql_params.bind_form(query, form)
            same(connection.query(text).rows(), [[b"1"]], (case.name, case.sources[i]))
    return f"{count} values"


def _refused_as_float(query: bytes, form: bytes, of) -> None:
    try:
        mysql_params.bind_form(query, form)
    except mysql_params.FloatError:
        return
    raise AssertionError(f"{of!r}: a float is bound")
