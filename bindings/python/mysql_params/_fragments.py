"""What stands in a place beside one value: lists, rows, exact numbers, identifiers, assignments and keywords.

A list or rows are implicit if a value is one, and the caller gave no In: they stand only alone in brackets.

A finite float is a value here, which the same calls write.
"""

from __future__ import annotations

import datetime
import decimal
from collections.abc import Iterable, Mapping
from typing import Any, Optional, Union, overload

from . import _form
from ._values import decimal_text, plain
from .errors import ArgumentEncodeError, ArgumentOverflowError, ArgumentTypeError, ArgumentValueError, _show

# The types of the flat form that are no column types: see mysql_params_bind_fragments in mysql_params.h.
_NUMBER, _LIST, _ROWS, _IDENTIFIER, _QUALIFIED, _KEYWORD, _IDENTIFIERS, _ASSIGNMENTS = range(128, 136)
_IMPLICIT_LIST, _IMPLICIT_ROWS = 136, 137


class Identifier:
    """The name of a table or a column, and before it that of what it is in: ``Identifier("db", "t")``.

    It is written in backquotes, each of which in a name is doubled: ``Identifier("a`b")`` is the column of this name.
    A point in a name is a part of it. A list or tuple of them is written with commas in between.

    >>> import mysql_params
    >>> mysql_params.bind("SELECT ? FROM ?", [Identifier("name"), Identifier("shop", "customer")])
    b'SELECT `name` FROM `shop`.`customer`'
    >>> mysql_params.bind("SELECT ? FROM t", [[Identifier("id"), Identifier("t", "name")]])
    b'SELECT `id`, `t`.`name` FROM t'
    """

    __slots__ = ("parts",)
    parts: tuple[str, ...]
    """The names."""

    def __init__(self, *parts: str) -> None:
        """Take the names, of which there is at least one."""
        if not parts or not all(isinstance(part, str) for part in parts):
            raise ArgumentTypeError("an Identifier is made of one or more names, which are str")
        self.parts = parts

    def __repr__(self) -> str:
        return f"Identifier({', '.join(map(repr, self.parts))})"


class In:
    """Several values for one place, or rows: ``In([1, 2])``. A list that isn't said to be one stands only alone in brackets.

    So a list in the JSON of a request doesn't become several arguments of a function. Don't make an In of a value from outside
    without a look at it. It takes a list or a tuple, of what that has elsewhere, and goes into any place.

    >>> import mysql_params
    >>> mysql_params.bind("SELECT id FROM t WHERE id IN (?) ORDER BY FIELD(id, ?)", [[3, 1], mysql_params.In([3, 1])])
    b'SELECT id FROM t WHERE id IN (3, 1) ORDER BY FIELD(id, 3, 1)'
    """

    __slots__ = ("items",)
    items: tuple[object, ...]
    """The values, or the rows."""

    def __init__(self, items: Union[list[Any], tuple[Any, ...]]) -> None:
        """Take the values, or the rows."""
        if not issubclass(type(items), (list, tuple)):
            raise ArgumentTypeError(f"an In is made of a list or a tuple, and not {type(items).__name__}")
        self.items = tuple(items)

    def __repr__(self) -> str:
        return f"In({list(self.items)!r})"


_Column = Union[str, Identifier]


class Assignments:
    """Columns and what they are set to, for ``SET ?``: ``Assignments({"price": 7, "sold": None})``, or pairs of these.

    A column is a str, which is one name, or an Identifier. What it is set to is a value or an exact number, as an item of a
    list. At least one is wanted: none are a FragmentError.

    >>> import mysql_params
    >>> changed = Assignments({"price": 7, Identifier("item", "sold"): None})
    >>> mysql_params.bind("UPDATE item SET ? WHERE id = ?", [changed, 42])
    b'UPDATE item SET `price` = 7, `item`.`sold` = NULL WHERE id = 42'
    """

    __slots__ = ("pairs",)
    pairs: tuple[tuple[Identifier, object], ...]
    """The columns, and what they are set to."""

    @overload
    def __init__(self, assigned: Mapping[str, object]) -> None: ...
    @overload
    def __init__(self, assigned: Mapping[Identifier, object]) -> None: ...
    @overload
    def __init__(self, assigned: Mapping[_Column, object]) -> None: ...
    @overload
    def __init__(self, assigned: Iterable[tuple[_Column, object]]) -> None: ...
    def __init__(self, assigned: Union[Mapping[Any, object], Iterable[tuple[_Column, object]]]) -> None:
        """Take what columns are set to."""
        self.pairs = tuple(map(_pair, assigned.items() if isinstance(assigned, Mapping) else assigned))

    def __repr__(self) -> str:
        return f"Assignments({self.pairs!r})"


def _pair(pair: object) -> tuple[Identifier, object]:
    """Return a column and what it is set to."""
    if not isinstance(pair, (tuple, list)) or len(pair) != 2:
        raise ArgumentTypeError("Assignments are made of a mapping, or of pairs of a column and a value")
    column, value = pair
    if isinstance(column, str):
        column = Identifier(column)
    if not issubclass(type(column), Identifier):
        raise ArgumentTypeError(f"a column is a str or an Identifier, and not {type(column).__name__}")
    return column, value


KEYWORDS = (
    *("ASC", "DESC", "ALL", "DISTINCT", "AND", "OR", "XOR", "NOT", "NULL", "IS NULL", "IS NOT NULL", "DEFAULT", "TRUE"),
    *("FALSE", "LIKE", "NOT LIKE", "MICROSECOND", "SECOND", "MINUTE", "HOUR", "DAY", "WEEK", "MONTH", "QUARTER", "YEAR"),
    *("LEFT", "RIGHT", "INNER", "CROSS", "UNION", "UNION ALL", "FOR UPDATE", "LOCK IN SHARE MODE"),
)
"""The keywords that the archive writes."""


class Keyword:
    """One of the keywords that stand in your program, chosen at run time: ``Keyword(order, among=("ASC", "DESC"))``.

    A word that isn't among them is a ValueError, so that no text from outside gets into a query. What the archive
    writes is fixed too: KEYWORDS, and others are a FragmentError. Where they don't do, choose a whole query, or a piece of one,
    from a dictionary of your program's: ``QUERIES[choice]``. What a query says is the program's own.

    >>> import mysql_params
    >>> mysql_params.bind("SELECT a FROM t ORDER BY a ?", [Keyword("DESC", among=("ASC", "DESC"))])
    b'SELECT a FROM t ORDER BY a DESC'
    """

    __slots__ = ("word",)
    word: str
    """The keyword."""

    def __init__(self, word: str, among: Iterable[str]) -> None:
        """Take the keyword, and those that it has to be among."""
        if not isinstance(word, str) or isinstance(among, str):
            raise ArgumentTypeError("a Keyword is a str, and among are several")
        choice = tuple(among)
        if word not in choice:
            raise ArgumentValueError(f"the word is none of the keywords {', '.join(map(repr, choice))}")
        self.word = word

    def __repr__(self) -> str:
        return f"Keyword({self.word!r}, among=({self.word!r},))"


_NO_LISTS = (*_form._BOUND, Mapping)
"""The types of which each is more than what it consists of, as a text, or a flag of an enum."""

_FRAGMENTS = (decimal.Decimal, list, tuple, In, Identifier, Assignments, Keyword)
"""The types of what isn't one value."""


def _text(text: str, which: Union[bytes, int]) -> bytes:
    """Return a text as a length-encoded string."""
    try:
        return _form.string_form(str.encode(text))
    except UnicodeEncodeError as fault:
        reason = f"{fault.reason}, in {_form.place(which)}"
        raise ArgumentEncodeError(fault.encoding, fault.object, fault.start, fault.end, reason) from None


def _count(number: int) -> bytes:
    """Return the count of what follows it."""
    return number.to_bytes(4, "little")


_MOST_DIGITS = 65
"""The digits of an exact number, of which servers keep no more."""

_LEAST, _MOST, _BEYOND = -(1 << 63), (1 << 64) - 1, 10**_MOST_DIGITS


def _number(value: decimal.Decimal, which: Union[bytes, int]) -> bytes:
    """Return type, flags and text of an exact number."""
    try:
        text = decimal_text(value)
    except ValueError as fault:
        raise ArgumentValueError(f"{_form.place(which)}: {fault}") from None
    digits = len(text) - text.count("-") - text.count(".")
    if digits > _MOST_DIGITS:
        to_do = f"servers keep {_MOST_DIGITS}, so round it, as by quantize"
        raise ArgumentValueError(f"{_form.place(which)}: a Decimal of {digits} digits: {to_do}")
    return bytes([_NUMBER, 0]) + _text(text, which)


def _wide_number(value: object, which: Union[bytes, int]) -> Optional[bytes]:
    """Return type, flags and text of a whole number of more than 64 bits, which is an exact number; None of all else."""
    if not issubclass(type(value), int):
        return None  # Its `__class__` may say otherwise.
    number = int.__index__(value)  # type: ignore[arg-type]
    if _LEAST <= number <= _MOST:
        return None
    if not -_BEYOND < number < _BEYOND:
        digits = f"more than {_MOST_DIGITS} digits: servers keep no more"
        raise ArgumentOverflowError(f"{_form.place(which)} is a whole number of {digits}")
    return bytes([_NUMBER, 0]) + _text(str(number), which)


def item_form(value: object, which: Union[bytes, int], zone: Optional[datetime.tzinfo]) -> bytes:
    """Return type, flags and value of an item of a list or a row, or of what a column is set to."""
    value = plain(value)
    if isinstance(value, decimal.Decimal):
        return _number(value, which)
    if isinstance(value, (list, tuple)):
        raise ArgumentTypeError(f"{_form.place(which)} has a {type(value).__name__} in a row: rows are of values")
    if isinstance(value, (In, Identifier, Assignments, Keyword)):
        to_do = "lists and rows are of values, or a list of Identifiers alone, so write a place for each"
        raise ArgumentTypeError(f"{_form.place(which)} has an item that is of type {type(value).__name__}: {to_do}")
    wide = _wide_number(value, which)
    return _form.value_form(value, which, zone) if wide is None else wide


def _items(values: Iterable[object], which: Union[bytes, int], zone: Optional[datetime.tzinfo]) -> bytes:
    """Return the count of items, and these."""
    items = [item_form(value, which, zone) for value in values]
    return _count(len(items)) + b"".join(items)


def rows_form(rows: list[bytes], is_implicit: bool = False) -> bytes:
    """Return type, flags and the rest of rows, of each of which is handed in what `row_items` returns."""
    return bytes([_IMPLICIT_ROWS if is_implicit else _ROWS, 0]) + _count(len(rows)) + b"".join(rows)


def _names(parts: tuple[str, ...], which: Union[bytes, int]) -> bytes:
    """Return the count of names, and these."""
    return _count(len(parts)) + b"".join([_text(part, which) for part in parts])


def _identifiers(values: tuple[object, ...], which: Union[bytes, int]) -> Optional[bytes]:
    """Return type, flags and the rest of identifiers; None of what aren't identifiers alone."""
    if not values or not issubclass(type(values[0]), Identifier):
        return None
    made = [plain(value) for value in values]
    found = [value for value in made if isinstance(value, Identifier) and issubclass(type(value), Identifier)]
    if len(found) < len(made):
        return None
    return bytes([_IDENTIFIERS, 0]) + _count(len(found)) + b"".join([_names(one.parts, which) for one in found])


def _list(
    given: Union[list[object], tuple[object, ...]],
    which: Union[bytes, int],
    zone: Optional[datetime.tzinfo],
    is_implicit: bool,
) -> bytes:
    """Return type, flags and items of a list, or rows of lists and tuples, or identifiers."""
    values = tuple(given)  # A registered function may change what is given.
    rows = [value for value in values if isinstance(value, (list, tuple))]
    if rows:
        if len(rows) < len(values):
            raise ArgumentTypeError(f"{_form.place(which)} has rows and values: give a list of values, or one of rows alone")
        return rows_form([_items(row, which, zone) for row in rows], is_implicit)
    values = (*map(plain, values[:1]), *values[1:])
    identifiers = _identifiers(values, which)
    if identifiers is not None:
        return identifiers
    return bytes([_IMPLICIT_LIST if is_implicit else _LIST, 0]) + _items(values, which, zone)


def _assignments(
    pairs: tuple[tuple[Identifier, object], ...], which: Union[bytes, int], zone: Optional[datetime.tzinfo]
) -> bytes:
    """Return type, flags and the rest of assignments."""
    made = []
    for column, given in pairs:
        value = plain(given)
        if issubclass(type(value), (list, tuple, In, Identifier, Assignments, Keyword)):
            names = ".".join(f"`{_show(part.encode(errors='backslashreplace'))}`" for part in column.parts)
            kind = type(value).__name__
            raise ArgumentTypeError(f"{_form.place(which)} sets {names} to a value of type {kind}: a column takes one value")
        made.append(_names(column.parts, which) + item_form(value, which, zone))
    return bytes([_ASSIGNMENTS, 0]) + _count(len(made)) + b"".join(made)


def fragment_form(value: object, which: Union[bytes, int], zone: Optional[datetime.tzinfo]) -> Optional[bytes]:
    """Return type, flags and the rest of what isn't one value; None of one value, and of what is none of these.

    A whole number of more than 64 bits is none, since it has no literal of a value.
    """
    if not issubclass(type(value), _FRAGMENTS):
        return _wide_number(value, which)  # The `__class__` of a value may say otherwise than its type.
    if isinstance(value, decimal.Decimal):
        return _number(value, which)
    if isinstance(value, (list, tuple)):
        return _list(value, which, zone, True)
    if isinstance(value, In):
        return _list(value.items, which, zone, False)
    if isinstance(value, Identifier):
        if len(value.parts) == 1:
            return bytes([_IDENTIFIER, 0]) + _text(value.parts[0], which)
        return bytes([_QUALIFIED, 0]) + _names(value.parts, which)
    if isinstance(value, Assignments):
        return _assignments(value.pairs, which, zone)
    if isinstance(value, Keyword):
        return bytes([_KEYWORD, 0]) + _text(value.word, which)
    return None


def place_form(value: object, which: Union[bytes, int], zone: Optional[datetime.tzinfo]) -> bytes:
    """Return type, flags and the rest of what stands in a place."""
    value = plain(value)
    made = fragment_form(value, which, zone)
    if made is not None:
        return made
    if issubclass(type(value), dict):
        to_do = "for SET give Assignments(..) of it, else json.dumps(..) of it, or register(dict, json.dumps)"
        raise ArgumentTypeError(f"{_form.place(which)} is of type {type(value).__name__}, which has no literal: {to_do}")
    if issubclass(type(value), Iterable) and not issubclass(type(value), _NO_LISTS):
        kind = type(value).__name__
        raise ArgumentTypeError(f"{_form.place(which)} is a {kind}, which is no list: give list(..) of it")
    return _form.value_form(value, which, zone)
