"""Values bound into SQL queries for MySQL, over the archive libmysql_params_c.a.

    >>> first_unportable("SELECT * FROM t WHERE id = :id AND name = :name") is None
    True
    >>> bind("SELECT * FROM t WHERE id = :id AND name = :name", {"id": 42, "name": "x' OR '1'='1"})
    b"SELECT * FROM t WHERE id = 42 AND name = 'x\\\\' OR \\\\'1\\\\'=\\\\'1'"

What a call gives and when it refuses is stated in the repository's docs/RULES.md and proved of the archive for every
input; this module, which hands values in and answers out, is tested. Before you send a bound text read "Limits that
matter for security" in the repository's README.md.

A name in a query is a colon, a letter or `_`, and all letters, digits and `_` that follow, as `:userId`. Letters are
those of ASCII, and names are told apart by case. Each colon before a letter or `_` begins a name, except in strings,
quoted identifiers and comments. So `x:LOOP` is refused, and `x: LOOP` is sent as it is.

The archive is within the package's extension module, which the wheel has; `bindings/build FOLDER` makes the package with it
in FOLDER/python. If the processor lacks a feature of x86-64-v2, the import is an ImportError.

Threads may call at once. Other threads run while a call binds more than 64 KiB. The forked child of a process with threads
may not call: have multiprocessing spawn.
"""

from __future__ import annotations

import datetime
import enum
import uuid
from collections.abc import Iterable, Iterator, Mapping, Sequence, ValuesView
from typing import NamedTuple, NoReturn, Optional, Union

from . import _archive, _form, _native
from ._fragments import KEYWORDS, Assignments, Identifier, In, Keyword
from ._many import execute_rows, executemany
from ._sending import DelimiterError, EncodingError, PacketError, SessionError, ask_again, exec_driver_sql, execute
from ._template import Template
from ._values import decimal_text, register
from .errors import (
    ArgumentEncodeError,
    ArgumentOverflowError,
    ArgumentTypeError,
    ArgumentValueError,
    BackslashError,
    DatabaseError,
    DataError,
    Error,
    Fault,
    FloatError,
    FormEndError,
    FormError,
    FormLengthLeadError,
    FormMixedError,
    FormTypeError,
    FragmentError,
    MarkCountError,
    MissingError,
    MixedError,
    NamedForPositionalError,
    NotAloneError,
    OperationalError,
    OutOfMemoryError,
    PositionalForNamedError,
    ProgrammingError,
    QueryDecodeError,
    QueryPlacesError,
    RepeatedNameError,
    UnbracketedError,
    UnportableError,
    UnsteadyError,
    UnsteadyFragmentError,
)
from .portable import Construct, Unportable

__version__ = "0.1.0"

__all__ = [
    "ArgumentEncodeError",
    "ArgumentOverflowError",
    "ArgumentTypeError",
    "ArgumentValueError",
    "Assignments",
    "BackslashError",
    "Construct",
    "DataError",
    "DatabaseError",
    "DelimiterError",
    "EncodingError",
    "Error",
    "Fault",
    "FloatError",
    "FormEndError",
    "FormError",
    "FormLengthLeadError",
    "FormMixedError",
    "FormTypeError",
    "FragmentError",
    "Identifier",
    "In",
    "KEYWORDS",
    "Keyword",
    "MarkCountError",
    "MissingError",
    "MixedError",
    "NamedForPositionalError",
    "Names",
    "NotAloneError",
    "OperationalError",
    "OutOfMemoryError",
    "PacketError",
    "Params",
    "PositionalForNamedError",
    "ProgrammingError",
    "QueryDecodeError",
    "QueryPlacesError",
    "RepeatedNameError",
    "SessionError",
    "Template",
    "UnbracketedError",
    "Unportable",
    "UnportableError",
    "UnsteadyError",
    "UnsteadyFragmentError",
    "Value",
    "__version__",
    "ask_again",
    "bind",
    "bind_anywhere",
    "bind_form",
    "bind_form_anywhere",
    "bind_form_in_both_modes",
    "bind_in_both_modes",
    "bind_rows",
    "decimal_text",
    "exec_driver_sql",
    "execute",
    "execute_rows",
    "executemany",
    "first_unportable",
    "first_unportable_in_client",
    "names",
    "register",
]

Value = Union[
    None,
    bool,
    int,
    float,
    bytes,
    bytearray,
    memoryview,
    str,
    datetime.date,
    datetime.datetime,
    datetime.time,
    datetime.timedelta,
    enum.Enum,
    uuid.UUID,
]
"""What a value may be, beside those of types that are registered, and the whole numbers and truth values of numpy.

A NaN and an infinity are refused if the query has a place for them, by bind_in_both_modes each float. A float16 and a
float32 of numpy are as the float of the same value, so that a FLOAT column finds the 0.1 that it holds by a float32. An Enum
is bound as its value, a UUID as its text, a time of day as the span since midnight. For a date of zeros give a text.
"""

Params = Union[
    None,
    Sequence[object],
    Iterator[object],
    ValuesView[object],
    Mapping[str, object],
    Mapping[bytes, object],
    Mapping[Union[str, bytes], object],
    Mapping[NoReturn, NoReturn],
]
"""Nothing, values in order, or values by name. No values are as nothing.

A value is a Value, or of a type that is registered, or what bind takes beside them; anything else is an ArgumentTypeError
of the call. The annotation says less, since to mypy ``{"id": 42, "name": "x"}`` is a ``dict[str, object]``. Its last
mapping is for ``{}``, of which mypy finds no types. Annotate your own by Value:
``params: dict[str, Value] = {}``.
"""


class Names(NamedTuple):
    """The names of a query."""

    query: bytes
    """The query with ``?`` in the place of each name."""
    names: list[str]
    """The names without their colons, in order, with repeats."""


def names(query: Union[str, bytes], no_backslash_escape: bool = False) -> Names:
    """Return the names of a query, and the query with ``?`` in their places.

    A query without names comes back as it is. Raise MixedError for one with names and marks, OutOfMemoryError. The flag
    is that of bind.
    """
    return Names(*_archive.names_of(query, no_backslash_escape))


def first_unportable(query: Union[str, bytes], no_backslash_escape: bool = False) -> Optional[Unportable]:
    """Return the first construct of a query that servers read in different ways, and where it begins.

    A place after an exponent, since a value's digits would join the number, is one too. None says that the query is
    portable. Ask it of each query, once, before you bind to it. What stands within strings, quoted identifiers and
    comments is none, except a quote after a backslash in a string in double quotes, a backslash before the end of an
    identifier, and a carriage return in a comment of one line, not at its end. A str is taken as its UTF-8, and
    positions count its bytes. The flag is that of bind.

    >>> found = first_unportable("SELECT /*! :a */ 1")
    >>> found.construct.name, found.position
    ('EXECUTABLE_COMMENT', 7)
    """
    return _archive.unportable(*_native.first_unportable(query, no_backslash_escape))


def first_unportable_in_client(query: Union[str, bytes], no_backslash_escape: bool = False) -> Optional[Unportable]:
    """Return the first construct of a query for servers, or for the client ``mysql`` or ``mariadb``.

    It is for a query whose bound text goes through such a client with ``--comments``, and finds also what that reads or
    sends otherwise than a server.

    It judges the bytes that it is given. A bound text with an ``Identifier``, ``Assignments`` or a ``Keyword``, or with
    strings without backslash escapes, may hold a construct that its query doesn't have: ask it of that text too.

    >>> first_unportable_in_client("SELECT 1 /*//*/, :a").construct.name
    'OPENER_IN_COMMENT'
    """
    return _archive.unportable(*_native.first_unportable_in_client(query, no_backslash_escape))


def bind(
    query: Union[str, bytes],
    params: Params = None,
    no_backslash_escape: bool = False,
    *,
    zone: Optional[datetime.tzinfo] = None,
) -> bytes:
    """Return the query with the SQL literals of the values in its places: the text to send.

    Ask first_unportable of the query before. A str is taken as its UTF-8. A bool is 1 or 0. A datetime at midnight has
    the literal of its date.

    The text is for a connection with backslash escapes, that is without NO_BACKSLASH_ESCAPES in its sql_mode; with the
    flag it is for one that has it. Ask on the connection that the text goes to: SELECT @@sql_mode. If the two differ,
    a value can leave its literal. The flag is True or False: anything else, also the sql_mode itself, is a TypeError.

    A float is written with an exponent (``1.5e0``), by which a server reads it as this DOUBLE and computes in doubles. A
    NaN or an infinity is a FloatError: give None for NULL.

    A place takes more than one value: a list or a tuple of values for IN (``a IN (?)``), a list of lists or tuples of
    values as rows (``VALUES ?``), a Decimal, which is written bare so that it is compared and computed exactly, as is an int
    of more than 64 bits, an Identifier, a list or a tuple of these, Assignments (``SET ?``), and a Keyword. Items may be such
    numbers. A str, bytes or a set is no list. A list of values stands alone in brackets, and rows so or behind VALUES: for another
    place, as in ``FIELD(id, ?)``, give an In.

    A datetime with a time zone is refused, unless zone is given, which is that of the connection (@@time_zone): then it
    is bound as the clocks there show it; ArgumentValueError for one that they show twice, or never. One without a zone is
    bound as it is.

    Of the parameters: raise ArgumentTypeError, which is a TypeError, for what has no literal; ArgumentOverflowError, an
    OverflowError, for a whole number of more than 65 digits; ArgumentValueError, a ValueError, for a Decimal of more, for
    one that is no number, and for an empty name; ArgumentEncodeError, a UnicodeEncodeError, for a str with a lone
    surrogate (also for a query that is one); RepeatedNameError for a name given as str and as bytes. Then, of the query,
    the first that holds: MixedError; MissingError, NamedForPositionalError or PositionalForNamedError; MarkCountError;
    NotAloneError; UnbracketedError; FloatError; FragmentError, as for an empty list or rows of two lengths. In place of any of
    them, and of a text, OutOfMemoryError.
    """
    return _native.bind(query, params, no_backslash_escape, zone)


def bind_form(query: Union[str, bytes], form: bytes, no_backslash_escape: bool = False) -> bytes:
    """Bind parameters that stand in their flat form already, as mysql_params.h describes it.

    Raise a FormError for the first parameter that can't be taken; then as bind.
    """
    return _native.bind_form(query, form, no_backslash_escape)


def bind_anywhere(
    query: Union[str, bytes], params: Params = None, *, zone: Optional[datetime.tzinfo] = None
) -> bytes:
    """Return the query with literals that depend on no connection: no sql_mode and no character set moves their ends.

    It is a text for MySQL and MariaDB. The query has to be ASCII without a backslash, also in its comments, and portable.

    A text of printable ASCII without a backslash is written as ``_utf8mb4'it''s'``, other UTF-8 as ``_utf8mb4 0xC3A9``,
    and bytes that aren't UTF-8 as ``0xFF``; all else as by bind, also what isn't one value. "Steady binding" in
    docs/RULES.md says where a server takes no such literal. The zone is as for bind.

    Of the parameters it raises what bind raises. Then, of the query, the first that holds: UnsteadyError; UnportableError;
    those of bind from MixedError on; UnsteadyFragmentError, for a name that isn't ASCII without a backslash. In
    place of any of them, and of a text, OutOfMemoryError.

    >>> bind_anywhere("SELECT ?, ?", ["it's", "\u00e9"])
    b"SELECT _utf8mb4'it''s', _utf8mb4 0xC3A9"
    """
    return _native.bind_anywhere(query, params, zone)


def bind_form_anywhere(query: Union[str, bytes], form: bytes) -> bytes:
    """Bind parameters that stand in their flat form already, as for bind_form, to a text as of bind_anywhere."""
    return _native.bind_form_anywhere(query, form)


def bind_in_both_modes(
    query: Union[str, bytes], params: Params = None, *, zone: Optional[datetime.tzinfo] = None
) -> bytes:
    """Return the text of bind_anywhere for a query that may have bytes from 128 on: no sql_mode moves a literal's end.

    It is a text for MySQL and MariaDB. The connection's character set has to be that of the query's bytes, utf8mb4 for a
    str. No string of the query may hold a backslash, nor a text in ``"``; and the query has to be portable.

    Each place takes one value, which is no float. It raises what bind_anywhere raises of a value, with BackslashError in
    place of UnsteadyError, FloatError for each float, and OverflowError for a whole number of more than 64 bits.

    >>> bind_in_both_modes("SELECT * FROM b\u00fccher WHERE t = ?", ["\u00e9"]).decode()
    'SELECT * FROM b\xfccher WHERE t = _utf8mb4 0xC3A9'
    """
    return _native.bind_in_both_modes(query, params, zone)


def bind_form_in_both_modes(query: Union[str, bytes], form: bytes) -> bytes:
    """Bind parameters that stand in their flat form already, as for bind_form, to a text as of bind_in_both_modes."""
    return _native.bind_form_in_both_modes(query, form)


def bind_rows(query: Union[str, bytes], rows: Iterable[Params], no_backslash_escape: bool = False) -> list[bytes]:
    """Return the text of each row: what bind returns for the query and the row's parameters.

    The query is parsed once for many rows, which are taken in batches; a row with a float is bound by itself. Ask
    first_unportable of it before. Each place takes one value.

    >>> bind_rows("INSERT INTO t VALUES (?, ?)", [(1, "it's"), (2, None), (3, 0.25)])
    [b"INSERT INTO t VALUES (1, 'it\\\\'s')", b'INSERT INTO t VALUES (2, NULL)', b'INSERT INTO t VALUES (3, 0.25e0)']

    For the first row that is refused raise what bind raises for it, with two attributes more: `row`, the number of the
    row from 0, and `texts`, the texts of the rows before it. An Error's message begins with the row.
    """
    return _archive.bind_rows(_form.bytes_of(query), rows, no_backslash_escape)
