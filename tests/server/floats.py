"""Doubles and floats through the archive to the server and back: their bits are those that were handed in.

Each is bound as a number with an exponent, and read back by the binary protocol of prepared statements: as the 8 bytes of a
DOUBLE, or the 4 of a FLOAT, whose number is that of the double of the same value. One comes back otherwise: MariaDB reads -0
as 0. A tenth of 400,000 doubles and 200,000 floats is tried, and all of them if the environment has FLOATS=all: so they were
on 2026-11-28, on MariaDB 10.11.19 and 11.8.9 and on MySQL 9.7.4.
"""

import os
import random
import struct
from typing import NamedTuple

import mysql_params
from harness import Tests, same
from protocol import Connection

_INSERT = b"INSERT INTO strings.numbers VALUES ?"
_ROWS, _ITEMS, _SAMPLE = 1000, 500, 3000


class Kind(NamedTuple):
    """Floating-point numbers of one width: the column, its type in the protocol, two formats, the bits of the infinity."""

    column: bytes
    type: int
    as_bits: str
    as_number: str
    infinity: int
    count: int

    @property
    def unit(self) -> int:
        """The bits of the exponent 1: a fraction is below it."""
        return self.infinity & -self.infinity

    @property
    def minus(self) -> int:
        """The bit of the sign."""
        return self.infinity + self.unit

    def number(self, bits: int) -> float:
        """Return the number of bits, as a double of the same value."""
        return struct.unpack(self.as_number, struct.pack(self.as_bits, bits))[0]

    def bits(self, number: float) -> int:
        """Return the bits of the number nearest to a double."""
        return struct.unpack(self.as_bits, struct.pack(self.as_number, number))[0]

    def is_finite(self, bits: int) -> bool:
        """Return whether the bits are of a number."""
        return bits & (self.minus - 1) < self.infinity


_DOUBLES = Kind(b"DOUBLE", 5, "<Q", "<d", 0x7FF0_0000_0000_0000, 400_000)
_FLOATS = Kind(b"FLOAT", 4, "<I", "<f", 0x7F80_0000, 200_000)


def run(tests: Tests, path: str) -> None:
    """Run every test."""
    for sql_mode in ("", "ANSI_QUOTES,NO_BACKSLASH_ESCAPES"):
        connection = Connection(path, "utf8mb4", sql_mode)
        for kind in (_DOUBLES, _FLOATS):
            label = f"floats: {kind.column.decode()}{', ' + sql_mode if sql_mode else ''}"
            # All are stored once: the modes say nothing of numbers.
            stored = _numbers(kind, kind.count if os.environ.get("FLOATS") == "all" else kind.count // 10)
            numbers = stored if not sql_mode else random.Random(20261205).sample(stored, _SAMPLE)
            tests.run(f"{label}: stored and read back", _stored, connection, kind, numbers)
            tests.run(f"{label}: found by their numbers", _found, connection, kind, numbers)
            tests.run(f"{label}: as columns of an answer", _as_columns, connection, kind, numbers)
        tests.run(f"floats: the sign of 0{', ' + sql_mode if sql_mode else ''}", _minus_zero, connection)
        connection.close()


def _numbers(kind: Kind, count: int) -> list:
    """Return the bits of so many numbers: of each exponent, subnormal, halves, tenths, powers of ten and of any bits."""
    source = random.Random(20261204)
    found = set()
    for exponent in range(0, kind.infinity, kind.unit):
        found |= {exponent, exponent + 1, exponent + kind.unit - 1, exponent | kind.minus}
    for bit in range(kind.unit.bit_length() - 1):
        found |= {1 << bit, (1 << bit) - 1, kind.minus | 1 << bit}
    for number in range(2000):
        found |= {kind.bits(sign * number / by) for by in (1, 2, 10, 100) for sign in (1, -1)}
    greatest = kind.number(kind.infinity - 1)
    for power in range(-324, 309):
        if float(f"1e{power}") <= greatest:
            near = kind.bits(float(f"1e{power}"))
            found |= {near, near + 1, abs(near - 1)}
    while len(found) < count:
        bits = source.getrandbits(kind.minus.bit_length())
        bits = bits if source.randrange(5) else bits & (kind.minus | kind.unit - 1)
        if kind.is_finite(bits):
            found.add(bits)
    return sorted(found)


def _read(connection: Connection, kind: Kind, text: bytes) -> list:
    """Return the bits of the only column of each row, by the binary protocol."""
    result = connection.binary(text)
    same([column.kind for column in result.columns], [kind.type], text)
    # A row begins with 0, and a byte that says which columns are NULL.
    same({packet[:2] for packet in result.packets}, {b"\0\0"}, text)
    return [struct.unpack(kind.as_bits, packet[2:])[0] for packet in result.packets]


def _as_read(connection: Connection, kind: Kind, bits: int) -> int:
    """Return the bits that the server reads of a number."""
    return 0 if bits == kind.minus and not connection.is_mysql else bits


def _stored(connection: Connection, kind: Kind, numbers: list) -> str:
    """Rows are stored as they were handed in, by each call that binds them, and the server warns of none."""
    connection.make_anew(b"TABLE", b"strings.numbers", b"(i INT PRIMARY KEY, x %s)" % kind.column)
    for turn, begin in enumerate(range(0, len(numbers), _ROWS)):
        rows = [(i, kind.number(bits)) for i, bits in enumerate(numbers[begin : begin + _ROWS], begin)]
        if turn % 5 == 4:
            texts = mysql_params.bind_rows(b"INSERT INTO strings.numbers VALUES (?, ?)", rows)
            same(connection.answers(texts), [None] * len(rows), begin)
            continue
        bind = mysql_params.bind if turn % 2 else mysql_params.bind_anywhere
        connection.query(bind(_INSERT, [rows]))
        same(connection.query(b"SELECT @@warning_count").rows(), [[b"0"]], begin)
    found = _read(connection, kind, b"SELECT x FROM strings.numbers ORDER BY i")
    same(len(found), len(numbers), "rows")
    for wanted, got in zip(numbers, found):
        same(got, _as_read(connection, kind, wanted), hex(wanted))
    return f"{len(numbers)} numbers, {sum(0 < bits & (kind.minus - 1) < kind.unit for bits in numbers)} of them subnormal"


def _found(connection: Connection, kind: Kind, numbers: list) -> str:
    """A number finds the row that holds it, also in a list, and the numbers beside it don't."""
    source = random.Random(20261206)
    indices = sorted({0, len(numbers) - 1, *source.sample(range(len(numbers)), _SAMPLE - 2)})
    queries, texts, wanted = (b"x = :x", b"x IN (:x, :beside)", b"x IN (:both)", b"x IN (:beside)"), [], []
    for i in indices:
        beside = [kind.number(bits) for bits in (numbers[i] ^ 1, numbers[i] ^ 2) if kind.is_finite(bits)]
        given = {"i": i, "x": kind.number(numbers[i]), "beside": mysql_params.In(beside), "both": [*beside, kind.number(numbers[i])]}
        query = b"SELECT " + b", ".join(queries) + b" FROM strings.numbers WHERE i = :i"
        texts.append(mysql_params.bind(query, given))
        # -0 and 0 are equal.
        wanted.append([[b"1", b"1", b"1", b"0"]])
    for begin in range(0, len(texts), 100):
        batch = slice(begin, begin + 100)
        same(connection.answers(texts[batch]), wanted[batch], indices[batch])
    return f"{len(indices)} numbers"


def _as_columns(connection: Connection, kind: Kind, numbers: list) -> str:
    """Items of a list are columns of an answer, each a DOUBLE of this value."""
    for begin in range(0, len(numbers), _ITEMS):
        batch = [kind.number(bits) for bits in numbers[begin : begin + _ITEMS]]
        result = connection.binary(mysql_params.bind(b"SELECT ?", [mysql_params.In(batch)]))
        same({column.kind for column in result.columns}, {_DOUBLES.type}, begin)
        (packet,) = result.packets
        cells = packet[1 + (len(batch) + 9) // 8 :]
        wanted = [_as_read(connection, _DOUBLES, _DOUBLES.bits(number)) for number in batch]
        same(list(struct.unpack(f"<{len(batch)}Q", cells)), wanted, begin)
    return f"{len(numbers)} numbers"


def _minus_zero(connection: Connection) -> str:
    """MySQL keeps the sign of -0, and MariaDB doesn't; the text has it for both."""
    text = mysql_params.bind(b"SELECT ?", [-0.0])
    same(text, b"SELECT -0.0e0", "the text")
    wanted = _DOUBLES.minus if connection.is_mysql else 0
    same(_read(connection, _DOUBLES, text), [wanted], "-0")
    return "-0" if wanted else "0"
