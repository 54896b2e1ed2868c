"""Callers as they are written every day, for `mypy --strict`, and some that it has to refuse. This isn't run."""

from __future__ import annotations

import datetime
import decimal
import enum
import uuid
from collections import OrderedDict
from typing import Any, Optional, Union

import mysql_params
from mysql_params import Assignments, Identifier, In, Keyword, Params, Template, Value
from mysql_params import bind, bind_anywhere, bind_form, bind_in_both_modes, bind_rows, first_unportable, names

QUERY = "SELECT * FROM t WHERE id = :id AND name = :name"


def by_name(ident: int, name: str, born: Optional[datetime.date], anything: Any) -> bytes:
    """Give mappings of all kinds."""
    bind(QUERY, {"id": ident, "name": name})
    mixed = {"id": ident, "name": name}
    bind(QUERY, mixed)
    numbers: dict[str, int] = {"id": ident}
    bind(QUERY, numbers)
    texts: dict[str, str] = {"name": name}
    bind(QUERY, texts)
    all_kinds: dict[str, Any] = {"id": ident, "name": name, "born": born}
    bind(QUERY, all_kinds)
    own: dict[str, Value] = {"id": ident, "born": born, "name": name}
    bind(QUERY, own)
    of_bytes: dict[bytes, int] = {b"id": ident}
    bind(QUERY, of_bytes)
    of_both: dict[Union[str, bytes], Value] = {"id": ident, b"name": name}
    bind(QUERY, of_both)
    bind(QUERY, OrderedDict(id=ident))
    bind("SELECT 1", {})
    bind_anywhere("SELECT 1", {})
    bind_in_both_modes("SELECT 1", {})
    bind_rows("SELECT 1", [{}, {}])
    bind(QUERY, anything)
    return bind(QUERY, dict(id=ident), no_backslash_escape=True)


def rows(idents: list[int], name: str) -> list[bytes]:
    """Give rows of all kinds."""
    bind_rows("?, ?", [(ident, name) for ident in idents])
    bind_rows("?, ?", ((ident, name) for ident in idents))
    bind_rows(QUERY, [{"id": ident, "name": name} for ident in idents])
    return bind_rows("SELECT 1", [None, None], no_backslash_escape=True)


def template(ident: int, name: str) -> tuple[bytes, bool, bytes]:
    """Bind a template."""
    made = Template(QUERY, no_backslash_escape=True)
    made.bind_form(b"")
    made.bind()
    made.bind_rows([{"id": ident, "name": name}])
    made.bind_rows(row for row in ((ident, name), [ident]))
    return made.query, made.no_backslash_escape, made.bind({"id": ident, "name": name}, zone=datetime.timezone.utc)


def by_position(ident: int, name: str, given: Params) -> bytes:
    """Give sequences of all kinds."""
    bind("?, ?", [ident, name])
    mixed = [ident, name]
    bind("?, ?", mixed)
    numbers: list[int] = [ident]
    bind("?", numbers)
    bind("?, ?", (ident, name))
    bind("?", range(1))
    bind(b"?", given)
    bind_anywhere("?", given)
    bind_in_both_modes("?", given)
    return bind_form("?", b"\x00\x06\x00")


def fragments(idents: list[int], prices: list[tuple[int, decimal.Decimal]], column: str) -> bytes:
    """Give lists, rows, exact numbers, names and keywords."""
    bind("id IN (?)", [idents])
    bind("id IN (:ids)", {"ids": idents})
    bind("id IN (?) ORDER BY FIELD(id, ?)", [idents, In(idents)])
    bind("(id, price) IN (:prices)", {"prices": In(prices)})
    print(In((1, "a", None)).items)
    bind("id IN (?) AND price < ?", [(1, 2), decimal.Decimal("9.99")])
    measures: list[tuple[int, float]] = [(1, 0.5)]
    bind("x IN (?) OR (i, x) IN (?)", [[0.5, 1], measures])
    bind_rows("(?, ?)", measures)
    bind("VALUES ?", [prices])
    bind_anywhere("VALUES ?", [prices])
    bind("VALUES ?", [[[1, "a"], [2, None]]])
    direction = Keyword("DESC", among=("ASC", "DESC"))
    words: tuple[str, ...] = mysql_params.KEYWORDS
    direction = Keyword("DESC", among=words)
    bind("ORDER BY :column :direction", {"column": Identifier("t", column), "direction": direction})
    bind("SELECT ? FROM t", [[Identifier(column), Identifier("t", "a")]])
    bind("SELECT :columns FROM t", {"columns": (Identifier(column),)})
    exact: dict[str, decimal.Decimal] = {"price": decimal.Decimal("9.99")}
    bind("SET ? WHERE id = ?", [Assignments(exact), 1])
    bind("SET ?", [Assignments({"name": column, "price": 9, "sold": None})])
    bind("SET ?", [Assignments({Identifier("t", "a"): 1, Identifier("b"): "x"})])
    bind("SET :set", {"set": Assignments({"a": 1, Identifier("t", "b"): "x"})})
    pairs: list[tuple[str, object]] = [("a", 1), ("b", "x")]
    bind("SET ?", [Assignments(pairs)])
    bind("SET ?", [Assignments([("a", 1), (Identifier("t", "b"), "x")])])
    assigned = Assignments((name, 0) for name in (column, "b"))
    print([column.parts for column, _ in assigned.pairs])
    return bind("SELECT a FROM ? ORDER BY ? ?", [Identifier("t"), Identifier(column), direction])


class Color(enum.Enum):
    """A type of values, and one that is registered."""

    RED = 1


def sent(cursor: Any, connection: Any, day: datetime.datetime) -> None:
    """Send by drivers, and register types."""
    mysql_params.register(decimal.Decimal, mysql_params.decimal_text)
    mysql_params.register(Color, lambda color: color.name)
    values: dict[str, Value] = {"c": Color.RED, "u": uuid.uuid4(), "t": datetime.time(12), "x": 0.5}
    bind("?, ?", (number for number in (1, 2)))
    bind("?, ?", {"a": 1, "b": 2}.values())
    bind("?", [day], zone=datetime.timezone.utc)
    mysql_params.execute(cursor, QUERY, values, zone=datetime.timezone.utc, always_ask=True)
    mysql_params.execute(cursor, QUERY, values, steady=True)
    total: int = mysql_params.executemany(cursor, "?", ([number] for number in range(3)), steady=True)
    total += mysql_params.execute_rows(cursor, "VALUES ?", [(1, "a"), (2, None)])
    total += mysql_params.execute_rows(cursor, "VALUES ?", [{"id": 1, "name": "a"}], {})
    total += mysql_params.execute_rows(cursor, "INTO :t VALUES :rows", [[1]], {"t": Identifier("t"), "x": 1}, steady=True)
    total += mysql_params.execute_rows(cursor, b"VALUES ?", ([n, 2**70] for n in range(3)), zone=None, always_ask=True)
    mysql_params.exec_driver_sql(connection, QUERY, {"id": total}, steady=False).all()
    mysql_params.ask_again(connection)
    try:
        mysql_params.execute(cursor, QUERY)
    except mysql_params.UnportableError as error:
        print(error.construct.message, error.position + 1)
    except mysql_params.SessionError as error:
        print(error.variable + error.value)
    except mysql_params.PacketError as error:
        print(error.length - error.most)
    except mysql_params.DelimiterError as error:
        print(error.position + 1)
    except mysql_params.ProgrammingError as error:
        print(error.number, error.row)
    try:
        mysql_params.exec_driver_sql(connection, QUERY)
    except mysql_params.EncodingError as error:
        print(error.variable + error.value)
    except mysql_params.DataError as error:
        kind: mysql_params.DatabaseError = error
        anything: mysql_params.Error = kind
        print(anything)


def answers() -> None:
    """Take what comes back."""
    version: str = mysql_params.__version__
    found: list[str] = names(QUERY).names
    query: bytes = names(b"SELECT :a", True).query
    unportable = first_unportable(QUERY)
    if unportable is not None:
        message: str = unportable.construct.message
        position: int = unportable.position
        print(version, found, query, message, position)
    try:
        bind(QUERY)
    except mysql_params.MissingError as error:
        name: bytes = error.name
        word: Optional[bytes] = error.word
        print(name, word, error.place + error.position + error.number)
    except mysql_params.FloatError as error:
        of: Optional[str] = error.name
        print(of)


def refused(ident: int) -> None:
    """Write what isn't right: were it no error of types, mypy would say that the comment beside it isn't used."""
    bind(5)  # type: ignore[arg-type]
    bind(None)  # type: ignore[arg-type]
    bind("?", ident)  # type: ignore[arg-type]
    bind("?", {ident})  # type: ignore[arg-type]
    bind(":a", {ident: ident})  # type: ignore[arg-type]
    bind("?", [ident], "ANSI_QUOTES")  # type: ignore[arg-type]
    bind("?", [1], zone="UTC")  # type: ignore[arg-type]
    bind("?", [1], False, datetime.timezone.utc)  # type: ignore[misc]
    mysql_params.register("Color", str)  # type: ignore[arg-type]
    mysql_params.decimal_text(0.01)  # type: ignore[arg-type]
    mysql_params.execute_rows(None, "VALUES ?", ident)  # type: ignore[arg-type]
    mysql_params.execute_rows(None, "VALUES ?", [[1]], [1])  # type: ignore[arg-type]
    Keyword("DESC")  # type: ignore[call-arg]
    Assignments(ident)  # type: ignore[call-overload]
    Assignments()  # type: ignore[call-overload]
    In(ident)  # type: ignore[arg-type]
    In({ident})  # type: ignore[arg-type]
    bind_form("?", "x")  # type: ignore[arg-type]
    names(5)  # type: ignore[arg-type]
    text: str = bind("?", [ident])  # type: ignore[assignment]
    position: int = first_unportable("?").position  # type: ignore[union-attr]
    own: dict[str, Value] = {"id": 1j}  # type: ignore[dict-item]
    print(text, position, own)
