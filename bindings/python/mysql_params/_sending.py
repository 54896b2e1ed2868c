"""Bound texts sent by a driver: PyMySQL, mysqlclient, one like them, or SQLAlchemy over one."""

from __future__ import annotations

import datetime
import functools
import re
from collections.abc import Mapping
from typing import Any, NamedTuple, Optional, Union

from . import _archive, _form, _native
from ._drivers import Signs, encoding_of, makers, may_rewrite, signs_of
from .errors import ArgumentTypeError, DataError, Error, ProgrammingError, QueryDecodeError, UnportableError

_QUESTION = (
    "SELECT @@sql_mode AS m, @@character_set_client AS c, @@character_set_connection AS n, @@max_allowed_packet AS p"
)
"""What is asked of a connection."""

_KEPT = "_mysql_params_told"
"""The attribute of a connection that keeps what it answered, with the driver's own signs of that moment."""

class SessionError(ProgrammingError):
    """The connection isn't one that a bound text is for: its `variable` has the value `value`.

    Of executemany and execute_rows it is ``sql_mode`` if a text that was sent changed that.
    """

    variable: str
    value: str

    def __init__(self, variable: str, value: str) -> None:
        """Take the variable of the session, and what it is."""
        Exception.__init__(self, variable, value)
        self.variable, self.value = variable, value

    def __str__(self) -> str:
        to_do = "and has to be utf8mb4: connect with charset='utf8mb4'"
        if self.variable == "sql_mode":
            to_do = "after a text that was sent: send each row by execute"
        return f"The connection's {self.variable} is {self.value}, {to_do}"


class EncodingError(SessionError):
    """The driver may send other bytes than the text's: its own encoding, `value`, isn't UTF-8, or isn't known (``None``).

    ``SET NAMES`` tells the server, and not the driver. `variable` is ``encoding``.
    """

    def __str__(self) -> str:
        if self.value == str(None):
            return "The driver's encoding isn't known: give execute a cursor of the driver, which gets bytes"
        return f"The driver's {self.variable} is {self.value}, and has to be UTF-8: connect with charset='utf8mb4'"


class PacketError(DataError):
    """The text has `length` bytes, and the server takes `most`: it would end the connection."""

    length: int
    most: int
    _fields: tuple[str, ...] = ("length", "most")
    _text = "The text has {length} bytes, and the connection's max_allowed_packet lets {most} through"


_DELIMITER = re.compile(rb"delimiter\s", re.IGNORECASE)
"""Without it in a text MySQL Connector sends the text as it is; it looks for it in literals too."""


class DelimiterError(DataError):
    """The text has `delimiter` and white space at byte `position`, where MySQL Connector would cut it, in a value too."""

    position: int
    _fields: tuple[str, ...] = ("position",)
    _text = (
        "The text has `delimiter` and white space at byte {position}, where MySQL Connector would cut it, in a value too: "
        "take another driver"
    )


class Told(NamedTuple):
    """What a connection answered: its mode, and the length of the longest text; and what its driver does to a text."""

    no_backslash_escape: bool
    most: int
    is_cut: bool
    """Whether the driver cuts texts, as MySQL Connector does. It may take bytes for a str as well."""
    encoding: Optional[str]
    """The encoding by which the driver makes bytes of a str, if it is known."""

    def refusal(self, text: bytes) -> Optional[Error]:
        """Return why a text can't be sent over the connection, or None."""
        if len(text) > self.most:
            return PacketError(len(text), self.most)
        if not self.is_cut:
            return None
        found = _DELIMITER.search(text)
        return _rewritten(self.encoding, text) if found is None else DelimiterError(found.start())


def _rewritten(encoding: Optional[str], text: bytes) -> Optional[EncodingError]:
    """Return why a text can't be given to a driver of an encoding as a str, or None."""
    return EncodingError("encoding", str(encoding)) if may_rewrite(encoding, text) else None


class _Kept(NamedTuple):
    """What is kept of a connection: the signs of the driver with which the answer holds; None if it never does."""

    signs: Optional[Signs]
    told: Told


def _text_of(cell: object) -> str:
    """Return a cell of the answer as a text."""
    return cell.decode() if isinstance(cell, (bytes, bytearray)) else str(cell)


_BESIDE_TEXT = 4
"""How much shorter a text has to be than max_allowed_packet says.

The packet is shorter than that. It has a byte before the text, and two more if the driver has query attributes, as MySQL
Connector and mysqlclient over MySQL's own library.
"""


def _ask(connection: Any) -> Told:
    """Ask a connection, and return its answer. Raise SessionError for one that no bound text is for."""
    cursor = connection.cursor()
    try:
        cursor.execute(_QUESTION)
        row = cursor.fetchone()
        while cursor.fetchone() is not None:
            pass  # An unbuffered cursor has to be read to its end.
    finally:
        cursor.close()
    sql_mode, client, own, most = map(_text_of, row.values() if isinstance(row, Mapping) else row)
    for variable, value in (("character_set_client", client), ("character_set_connection", own)):
        if value != "utf8mb4":
            raise SessionError(variable, value)
    mode = "NO_BACKSLASH_ESCAPES" in sql_mode.upper().split(",")
    return Told(mode, int(most) - _BESIDE_TEXT, "mysql" in makers(connection), encoding_of(connection))


def _told(connection: Any, always_ask: bool) -> Told:
    """Return what a connection answered, now or before.

    An answer is kept until a sign of the driver changes, or something is sent here that may change it. A connection whose
    driver once had another idea of the mode than the server, as after a statement with a mode of its own, is asked each
    time from then on.
    """
    signs = signs_of(connection)
    kept: Optional[_Kept] = getattr(connection, _KEPT, None)
    if not always_ask and signs is not None and kept is not None and kept.signs == signs:
        return kept.told
    told = _ask(connection)
    signs = signs_of(connection)
    if signs is not None:
        agrees = signs[0] == told.no_backslash_escape and (kept is None or kept.signs is not None)
        setattr(connection, _KEPT, _Kept(signs if agrees else None, told))
    return told


def ask_again(connection: Any) -> None:
    """Have the connection of a driver asked anew before its next text.

    Call it after a ``SET`` of sql_mode or of a character set that you sent by the driver. One that is sent by this
    package is seen, and what a driver does itself: connecting anew, and its own calls for a character set, a mode or a
    user.
    """
    kept: Optional[_Kept] = getattr(connection, _KEPT, None)
    if kept is not None and kept.signs is not None:
        setattr(connection, _KEPT, None)


_LEAVES_SESSION = re.compile(rb"\s*(?:SELECT|INSERT|UPDATE|DELETE|REPLACE)\b", re.IGNORECASE)
"""The front of a statement that leaves the mode and the character sets as they are: a server has them as before once a
routine or a trigger ends."""


def leaves_session(query: bytes) -> bool:
    """Return whether a query is one statement that leaves the mode and the character sets as they are.

    False may be said of one that does: a ``;`` in a string counts.
    """
    if _LEAVES_SESSION.match(query) is None:
        return False
    end = query.find(b";")
    return end < 0 or not query[end + 1 :].strip()


def expect_as_told(connection: Any, told: Told) -> None:
    """Ask a connection, between texts that are bound for one session. Raise SessionError if it isn't that any more."""
    if _ask(connection).no_backslash_escape != told.no_backslash_escape:
        raise SessionError("sql_mode", "another")


def forget_after(connection: Any, query: bytes) -> None:
    """Have a connection asked anew after a query, unless that leaves the session as it is."""
    if not leaves_session(query):
        ask_again(connection)


def told_for(connection: Any, query: bytes, always_ask: bool) -> Told:
    """Return what a connection answered, to send rows of a query. Raise UnportableError for one that isn't portable in its mode.

    So no row is told for that, and none is wanted. Each text is refused for it too.
    """
    told = _told(connection, always_ask)
    found = _archive.unportable(*_native.first_unportable(query, told.no_backslash_escape))
    if found is not None:
        raise UnportableError(found.position, found.construct)
    return told


def _bound(
    connection: Any, query: bytes, params: object, zone: Optional[datetime.tzinfo], always_ask: bool, steady: bool
) -> bytes:
    """Return the text to send over a connection of a driver."""
    form, is_fragments = _native.written(params, zone, True)
    told = _told(connection, always_ask)
    text = _native.bind_written(query, form, told.no_backslash_escape, is_fragments, steady)
    refusal = told.refusal(text)
    if refusal is not None:
        raise refusal
    return text


_UNBUFFERED = "CursorUseResultMixIn"
"""The type of mysqlclient's cursors that have to read all rows before another text is sent, as their execute does."""


@functools.lru_cache(maxsize=64)
def _kinds(kind: type) -> str:
    """Return the names of a type and of those above it."""
    return " ".join(above.__name__ for above in kind.__mro__)


def connection_of(cursor: Any) -> Any:
    """Return the connection of a driver's cursor, which has read what is left of its rows.

    Raise TypeError for a cursor that would prepare the text.
    """
    kind: type = type(cursor)
    kinds = _kinds(kind)
    if "Prepared" in kinds:
        raise ArgumentTypeError("a cursor that prepares looks for places itself: take connection.cursor()")
    for name in ("connection", "_connection", "_cnx"):
        connection = getattr(cursor, name, None)
        if connection is not None:
            if _UNBUFFERED in kinds and cursor._executed:
                cursor.fetchall()
            return connection
    raise ArgumentTypeError(f"a cursor with an open connection is wanted, and not {type(cursor).__name__}")


def execute(
    cursor: Any,
    query: Union[str, bytes],
    params: object = None,
    *,
    zone: Optional[datetime.tzinfo] = None,
    always_ask: bool = False,
    steady: bool = False,
) -> Any:
    """Bind a query, and have a driver's cursor send the text. Return what its execute returns.

        import pymysql, mysql_params
        connection = pymysql.connect(charset="utf8mb4", ..)
        with connection.cursor() as cursor:
            mysql_params.execute(cursor, "SELECT * FROM t WHERE id = :id", {"id": 42})
            rows = cursor.fetchall()

    If the query and its identifiers are ASCII without a backslash, the text has guarded literals, such as 'it''s': a session of
    another mode or character set than was told, except swe7, may read another value, and no value as SQL. Else it is the text of
    bind in the mode that was told. With steady it is that of bind_anywhere.

    The mode, the character sets and the longest text are asked of the connection before its first text. They are asked
    anew once it was made anew, its driver tells of another mode or has answers to read, or this package sent what is
    not one SELECT, INSERT, UPDATE, DELETE or REPLACE. With MySQL Connector and other drivers they are asked before each
    text; so they are with always_ask, as over a proxy. The text goes out without parameters, so a ``%`` in it stays one.

    Raise as bind, or with steady as bind_anywhere; UnportableError; SessionError for a connection that isn't utf8mb4;
    PacketError for a text that is too long; DelimiterError for one that MySQL Connector would cut, EncodingError for one
    that it may rewrite; and what the driver raises, whose message may show the text. After a ``SET`` of the mode or a
    character set that you sent by the driver call ask_again.
    """
    connection, query = connection_of(cursor), _form.bytes_of(query)
    text = _bound(connection, query, params, zone, always_ask, steady)
    try:
        return cursor.execute(text)
    finally:
        forget_after(connection, query)


def exec_driver_sql(
    connection: Any,
    query: Union[str, bytes],
    params: object = None,
    *,
    zone: Optional[datetime.tzinfo] = None,
    always_ask: bool = False,
    steady: bool = False,
) -> Any:
    """Bind a query, and have SQLAlchemy's connection send the text. Return its result.

        engine = sqlalchemy.create_engine("mysql+pymysql://..?charset=utf8mb4")
        with engine.connect() as connection:
            rows = mysql_params.exec_driver_sql(connection, "SELECT :a", {"a": "100%"}).all()

    It is `exec_driver_sql` of SQLAlchemy without parameters and with `no_parameters`: else a ``%`` in a value would be
    read as a format. A query of bytes is UTF-8, else it is a UnicodeDecodeError. Everything else is as of execute.

    SQLAlchemy gives the driver a str, which that makes bytes of in its own encoding. Raise EncodingError if these would
    be others than the text's, as after ``SET NAMES utf8mb4`` over ``?charset=gbk``. Of a driver whose encoding isn't
    known only a text of ASCII without a backslash is sent.
    """
    pooled = getattr(connection, "connection", None)
    if pooled is None or callable(pooled):
        to_do = "take engine.connect() or session.connection()"
        raise ArgumentTypeError(f"SQLAlchemy's Connection is wanted, and not {type(connection).__name__}: {to_do}")
    own = getattr(pooled, "dbapi_connection", None)
    own, query = pooled.connection if own is None else own, _form.bytes_of(query)
    try:
        query.decode()
    except UnicodeDecodeError as fault:
        raise QueryDecodeError(*fault.args) from None
    text = _bound(own, query, params, zone, always_ask, steady)
    refusal = _rewritten(encoding_of(own), text)
    if refusal is not None:
        raise refusal
    try:
        return connection.exec_driver_sql(text.decode(), execution_options={"no_parameters": True})
    finally:
        forget_after(own, query)
