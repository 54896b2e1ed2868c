"""Many rows sent by a driver: a text for each of them, or few texts, each of the rows of an INSERT that fit into it."""

from __future__ import annotations

import datetime
import re
from collections.abc import Iterable, Mapping
from typing import Any, NoReturn, Optional, Union

from . import _archive, _form, _native
from ._fragments import rows_form
from ._sending import Told, connection_of, expect_as_told, forget_after, leaves_session, told_for
from ._values import zone_of
from .errors import ArgumentTypeError, ArgumentValueError, Error, FloatError, FragmentError, MarkCountError, QueryPlacesError


def _texts(
    query: bytes, told: Told, rows: Iterable[object], zone: Optional[datetime.tzinfo], steady: bool
) -> list[bytes]:
    """Return the text of each row. What a row is refused for tells its number."""
    texts: list[bytes] = []
    try:
        _native.bind_rows(query, rows, told.no_backslash_escape, zone, True, steady, texts)
    except Error as fault:
        fault.row = len(texts)
        raise
    for number, text in enumerate(texts):
        refusal = told.refusal(text)
        if refusal is not None:
            refusal.row = number
            raise refusal
    return texts


_NAME = rb"(?:`[^`]+`|[A-Za-z0-9_$\x80-\xff]+)"
_PLACE = rb"(?:\?|:[A-Za-z_][A-Za-z0-9_]*)"
_INSERT = re.compile(
    rb"(?P<head>\s*(?:INSERT|REPLACE)(?:\s+(?:LOW_PRIORITY|HIGH_PRIORITY|DELAYED|IGNORE))*(?:\s+INTO)?\s+~N(?:\s*\.\s*~N)?"
    rb"\s*(?:\(\s*~N(?:\s*,\s*~N)*\s*\)\s*)?\bVALUES?\s*)\(\s*~P(?:\s*,\s*~P)*\s*\)"
    rb"(?P<tail>\s*(?:ON\s+DUPLICATE\s[^?:;]*)?(?:;\s*)?)\Z".replace(b"~N", _NAME).replace(b"~P", _PLACE),
    re.IGNORECASE,
)
"""An INSERT of one row of places, after which no place stands. Its head has no string, no comment, no SELECT and no other statement,
so that the row is one, and nothing except it is done for each."""

_BETWEEN_ROWS = b", "


def _joined(texts: list[bytes], insert: re.Match[bytes], most: int) -> list[bytes]:
    """Return few texts of the rows of all, none longer than it may be, unless it is of one row."""
    head, tail = insert["head"], insert["tail"]
    begin, end = len(head), len(tail)
    room = most - begin - end
    joined, rows, size = [], list[bytes](), 0
    for text in texts:
        row = text[begin : len(text) - end]
        size += len(row) + len(_BETWEEN_ROWS)
        if rows and size - len(_BETWEEN_ROWS) > room:
            joined.append(head + _BETWEEN_ROWS.join(rows) + tail)
            rows, size = [], len(row) + len(_BETWEEN_ROWS)
        rows.append(row)
    if rows:
        joined.append(head + _BETWEEN_ROWS.join(rows) + tail)
    return joined


def _sent(cursor: Any, connection: Any, query: bytes, texts: Iterable[bytes], told: Told) -> int:
    """Send texts of a query one after another, and return the sum of their rows.

    Raise SessionError if one changed the session for which those after it are bound.
    """
    total, may_change = 0, not leaves_session(query)
    try:
        for number, text in enumerate(texts):
            if may_change and number > 0:
                expect_as_told(connection_of(cursor), told)
            cursor.execute(text)
            total += max(cursor.rowcount, 0)
    finally:
        forget_after(connection, query)
    return total


def executemany(
    cursor: Any,
    query: Union[str, bytes],
    rows: Iterable[object],
    *,
    zone: Optional[datetime.tzinfo] = None,
    always_ask: bool = False,
    steady: bool = False,
) -> int:
    """Bind a query to the parameters of each row, then send the texts. Return the sum of the rows they changed.

        mysql_params.executemany(cursor, "INSERT INTO t (id, name) VALUES (:id, :name)", rows)

    Of an INSERT or a REPLACE whose VALUES are one row of places, the rows go out in few texts, as by execute_rows: as many rows
    in each as max_allowed_packet takes, up to 16 MiB. Before VALUES stand only names, and behind the row only ON DUPLICATE KEY
    UPDATE without places. Of another query each row's text is sent by itself. The cursor's rowcount is the last text's; for
    each row's lastrowid take execute.

    A query that is ASCII without a backslash is parsed once for many rows, and the connection is asked before the first. All are
    bound before the first text is sent: if one is refused, nothing was sent, and the refusal's attribute `row` is its number from
    0. Each row has the literals that execute gives it, and is refused as there. A query that isn't portable is refused before.

    A query that is no SELECT, INSERT, UPDATE, DELETE or REPLACE may change the session. Then the connection is asked before
    each text: if one before it changed the mode or a character set, raise SessionError.
    """
    connection, query = connection_of(cursor), _form.bytes_of(query)
    told = told_for(connection, query, always_ask)
    texts, insert = _texts(query, told, rows, zone_of(zone), steady), _INSERT.match(query)
    if insert is not None:
        texts = _joined(texts, insert, min(told.most, _LONGEST_TEXT))
    return _sent(cursor, connection, query, texts, told)


_LONGEST_TEXT = 1 << 24
"""How long a text of many rows may get, if the server would take a longer one."""


def _another_query(places: str) -> QueryPlacesError:
    """Return what to raise for a query that hasn't one place for the rows."""
    to_do = "for a place for each value take executemany"
    return QueryPlacesError(f"a query with one place is wanted, which takes the rows, and it has {places}: {to_do}")


_ONE_NULL = b"\x01\0\0\0\x06\0"
"""A row of a NULL, whose literal is ``(NULL)``."""


class _Beside:
    """The further parameters of a query that takes rows."""

    def __init__(self, params: object, zone: Optional[datetime.tzinfo]) -> None:
        if params is not None and not isinstance(params, Mapping):
            raise ArgumentTypeError(f"parameters beside rows are by name, in a mapping, and not {type(params).__name__}")
        held = {} if params is None else dict(params)
        self.names = {_form.name_of(name, number) for number, name in enumerate(held)}
        self.form = _native.written(held, zone, True)[0]

    def place_of_rows(self, query: bytes, mode: bool) -> bytes:
        """Return the one name of a query that has no parameter here; an empty one for a mark."""
        names = _archive.names_of(query, mode)[1]
        if not self.names:
            if len(names) > 1:
                raise _another_query(f"{len(names)} names")
            return names[0].encode() if names else b""
        others = [name.encode() for name in names if name.encode() not in self.names]
        if len(others) != 1:
            have = f"{len(others)} places without a parameter" if names else "no name"
            wanted = "with parameters beside the rows one name is wanted, which takes the rows"
            raise QueryPlacesError(f"{wanted}, and the query has {have}")
        return others[0]


class _Gatherer:
    """Rows gathered to texts for the place of a query that takes them."""

    def __init__(
        self, query: bytes, told: Told, zone: Optional[datetime.tzinfo], beside: _Beside, steady: bool
    ) -> None:
        self.query, self.mode, self.zone, self.beside = query, told.no_backslash_escape, zone, beside.form
        self.steady = steady
        self.name = beside.place_of_rows(query, self.mode)
        self.which: Union[bytes, int] = self.name or 0
        around = len(self.bound([_ONE_NULL])) if beside.names else len(query)
        self.room = min(told.most, _LONGEST_TEXT) - around
        self.texts: list[bytes] = []
        self.forms: list[bytes] = []
        self.size = self.count = 0
        self.columns: Optional[list[object]] = None
        self.first: Optional[bytes] = None
        self.width = b""

    def bound(self, forms: list[bytes]) -> bytes:
        """Return the text of rows. Where one value stands they are refused, so no name beside them moves them there."""
        form = self.beside + _form.string_form(self.name) + rows_form(forms, is_implicit=True)
        return _native.bind_written(self.query, form, self.mode, True, self.steady)

    def refuse(self, fault: Error, forms: list[bytes], number: int) -> NoReturn:
        """Raise what refuses these rows, of which the first has this number, with the number of the row that it is about."""
        if isinstance(fault, MarkCountError):
            raise _another_query(f"{fault.marks} marks") from None
        if isinstance(fault, FragmentError):
            told = FragmentError(fault.place, fault.fault, number + fault.in_row, fault.item)
            told.name = fault.name
            raise told from None
        if isinstance(fault, FloatError):
            for at, form in enumerate(forms, number):
                try:
                    self.bound([form])
                except FloatError:
                    fault.row = at
                    break
        raise fault

    def values_of(self, row: object) -> object:
        """Return the values of a row: of a mapping in the order of the first row's names."""
        if self.count == 0 and isinstance(row, Mapping):
            self.columns = list(row)
        if self.columns is None:
            return row
        if not isinstance(row, Mapping):
            raise ArgumentTypeError(f"it is a {type(row).__name__}, and the first row has names")
        for name in self.columns:
            if name not in row:
                raise ArgumentValueError(f"it lacks the name {name!r} of the first row")
        if len(row) != len(self.columns):
            other = next(name for name in row if name not in self.columns)
            raise ArgumentValueError(f"it has the name {other!r}, which the first row lacks")
        return [row[name] for name in self.columns]

    def bind_gathered(self) -> None:
        """Append the text of the rows that wait for it."""
        if not self.forms:
            return
        forms, self.forms, self.size = self.forms, [], 0
        try:
            self.texts.append(self.bound(forms))
        except Error as fault:
            self.refuse(fault, forms, self.count - len(forms))

    def add(self, row: object) -> None:
        """Have a row stand in a text."""
        try:
            if self.columns is not None or self.count == 0:
                row = self.values_of(row)
            form, size = _row(row, self.which, self.zone)
        except (TypeError, ValueError, OverflowError) as fault:
            self.bind_gathered()  # It may refuse an earlier row.
            setattr(fault, "row", self.count)
            raise
        if self.first is None:
            self.first, self.width = form, form[:4]
        if form[:4] != self.width:
            self.bind_gathered()
            try:
                self.bound([self.first, form])
            except Error as fault:
                self.refuse(fault, [self.first, form], self.count - 1)
        if self.size + size > self.room:
            self.bind_gathered()
        self.forms.append(form)
        self.size += size
        self.count += 1


def _row(row: object, which: Union[bytes, int], zone: Optional[datetime.tzinfo]) -> tuple[bytes, int]:
    """Return the count of a row's items, and these, and how long what is written of it is at most."""
    if type(row) is tuple or type(row) is list:
        return _native.row_items(row, which, zone)
    if isinstance(row, (str, bytes, bytearray, memoryview, set, frozenset, Mapping)) or not isinstance(row, Iterable):
        raise ArgumentTypeError(f"a row is a list or a tuple of values, and not {type(row).__name__}")
    return _native.row_items(row, which, zone)


def execute_rows(
    cursor: Any,
    query: Union[str, bytes],
    rows: Iterable[object],
    params: Optional[Mapping[Any, object]] = None,
    *,
    zone: Optional[datetime.tzinfo] = None,
    always_ask: bool = False,
    steady: bool = False,
) -> int:
    """Put many rows into the one place of a query, and send few texts, each of many rows. Return the sum of their rows.

        mysql_params.execute_rows(cursor, "INSERT INTO t (id, name) VALUES ?", rows)
        mysql_params.execute_rows(cursor, "INSERT INTO :table (id, name) VALUES :rows", rows, {"table": Identifier(table)})

    Parameters beside the rows are by name, and stand in each text. The one name without a parameter takes the rows: it stands
    directly after VALUES, or alone in brackets as in IN (:rows).

    A row is a list, a tuple or a mapping, of values and exact numbers. Of mappings the values go in the order of the first row's
    names: write the query's columns in this order. A mapping with other names is a ValueError, which tells the row.

    As many rows go into a text as are sure to fit into the server's max_allowed_packet, up to 16 MiB. Each text is a statement of
    its own: for all or none begin a transaction. All are bound before the first is sent: if one is refused, nothing was sent. No
    rows send nothing. The cursor's rowcount is the last text's.

    Literals are as of execute. Raise as it does, and QueryPlacesError for a query without just one place for the rows. A
    FragmentError's `in_row`, and the `row` of another refusal of a row, is the row's number from 0 among all.
    """
    connection, query = connection_of(cursor), _form.bytes_of(query)
    beside = _Beside(params, zone_of(zone))
    told = told_for(connection, query, always_ask)
    gatherer = _Gatherer(query, told, zone_of(zone), beside, bool(steady))
    for row in rows:
        gatherer.add(row)
    gatherer.bind_gathered()
    for text in gatherer.texts:
        refusal = told.refusal(text)
        if refusal is not None:
            raise refusal
    return _sent(cursor, connection, query, gatherer.texts, told)
