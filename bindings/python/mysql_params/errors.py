"""Refusals, and their messages."""

from __future__ import annotations

import enum
import re
from typing import Optional, Union

from .portable import Construct


def _show(name: bytes) -> str:
    """Return a name as messages show it: other than printable ASCII, ``"`` and ``\\`` as ``\\x`` and two digits."""
    return "".join(chr(byte) if 32 <= byte <= 126 and byte not in b'"\\' else f"\\x{byte:02x}" for byte in name)


_PLACE_OF_MANY = re.compile(rb"\bIN\s*\(\s*\?\s*\)|\bVALUES\s*\?", re.I)

_ALPHABET = "names are of ASCII letters, digits and _"

_PLACE_AT = re.compile(rb":[A-Za-z0-9_]*|\?")
_WORD_BEFORE = re.compile(rb"(?:[\w$\x80-\xff]+|[^\w$\x80-\xff])\Z")
_WORD_AFTER = re.compile(rb"[\w$\x80-\xff]{1,64}|[^\w$\x80-\xff]")
_MAY_STAND_BEFORE = b" \t\n\v\f\r(,=<>+-*/%&|^~"
"""The bytes directly before which a place stands alone, if one does so behind it too."""
_NO_NAME = re.compile(rb"[\x80-\xff]")
_WORD = re.compile(rb"[A-Za-z0-9_]*[\x80-\xff][A-Za-z0-9_\x80-\xff]*")
_WORD_WITHOUT_NAME = re.compile(rb":([\x80-\xff][A-Za-z0-9_\x80-\xff]*)")


def _which(place: int, name: Optional[str]) -> str:
    """Return what messages call a place: its name, or its number from 0."""
    return f"place {place}" if name is None else f"`:{name}`"


def _beside(query: bytes, begin: int, end: int) -> bytes:
    """Return the word or the byte that a place touches, which is from one byte of a query to another."""
    before = query[max(0, begin - 64) : begin]
    if before and before[-1] not in _MAY_STAND_BEFORE:
        found = _WORD_BEFORE.search(before)
    else:
        found = _WORD_AFTER.match(query, end)
    return b"" if found is None else found.group()


class Error(Exception):
    """A refusal. `number` is that of mysql_params.h, -1 of what the package refuses. Other numbers begin at 0."""

    number: int = -1
    _fields: tuple[str, ...] = ()
    _text: str = ""
    row: Optional[int] = None
    """Of the calls for many rows: the number of the row that is refused, from 0. Else None."""
    texts: Optional[list[bytes]] = None
    """Of bind_rows: the texts of the rows before it. Else None."""

    def __init__(self, *values: Union[int, bytes, str]) -> None:
        """Take the values of the fields, in order."""
        super().__init__(*values)
        if len(values) != len(self._fields):
            raise TypeError(f"{type(self).__name__} has the fields {self._fields}")
        for field, value in zip(self._fields, values):
            setattr(self, field, value)

    def __str__(self) -> str:
        fields = {field: getattr(self, field) for field in self._fields}
        shown = {field: _show(value) if isinstance(value, bytes) else value for field, value in fields.items()}
        return self._of_row() + self._text.format(**shown) + self._more()

    def _of_row(self) -> str:
        """Return what the message says first: which row it is about."""
        return "" if self.row is None else f"row {self.row}: "

    def _more(self) -> str:
        """Return what the message says after what the archive's documentation says."""
        return ""

    def _look_at(self, query: bytes) -> None:
        """Take from the query what the message tells beside the fields."""


class DatabaseError(Error):
    """A refusal, after the hierarchy of PEP 249: each is one of the three below."""


class ProgrammingError(DatabaseError):
    """The query, the call or the connection has to be another."""


class DataError(DatabaseError):
    """A value can't be bound, or the text can't be sent."""


class OperationalError(DatabaseError):
    """There is no memory."""


class _ArgumentError(DatabaseError):
    """A refusal that is one of Python's own exceptions too, with a message of its own."""

    _fields: tuple[str, ...] = ("message",)
    _text = "{message}"


class ArgumentTypeError(_ArgumentError, ProgrammingError, TypeError):
    """An argument, or a value among the parameters, is of a type that isn't taken."""


class ArgumentValueError(_ArgumentError, DataError, ValueError):
    """A value can't be written, as a Decimal that is no number, or an argument isn't one of those that are taken."""


class ArgumentOverflowError(_ArgumentError, DataError, OverflowError):
    """A whole number has more digits than a server keeps, or than the call takes."""


class QueryPlacesError(_ArgumentError, ProgrammingError, ValueError):
    """The query of execute_rows hasn't just one place for the rows."""


class ArgumentEncodeError(DataError, UnicodeEncodeError):
    """A str has a lone surrogate, which has no UTF-8. Its field `object` is the str."""

    def __init__(self, encoding: str, text: str, start: int, end: int, reason: str) -> None:
        """Take what a UnicodeEncodeError takes."""
        UnicodeEncodeError.__init__(self, encoding, text, start, end, reason)

    def __str__(self) -> str:
        return self._of_row() + UnicodeEncodeError.__str__(self)


class QueryDecodeError(ProgrammingError, UnicodeDecodeError):
    """A query of bytes isn't UTF-8, which has to become a str. Its field `object` is the query."""

    def __init__(self, encoding: str, query: bytes, start: int, end: int, reason: str) -> None:
        """Take what a UnicodeDecodeError takes."""
        UnicodeDecodeError.__init__(self, encoding, query, start, end, reason)

    def __str__(self) -> str:
        return UnicodeDecodeError.__str__(self)


class _WordError(ProgrammingError):
    """A refusal that a letter which no name has may be the cause of."""

    word: Optional[bytes] = None
    """The word of the query that is told, without its colon, if a letter that no name has stands directly after the
    name or in place of it, as in ``:gr\u00f6\u00dfe``. Else None."""

    def _more(self) -> str:
        if self.word is None:
            return ""
        name = _NO_NAME.split(self.word, 1)[0]
        where = f"ends after `{_show(name)}`" if name else "is none"
        return f": {_ALPHABET}, so `:{_show(self.word)}` {where}"

    def _take(self, found: Optional[re.Match[bytes]]) -> None:
        """Take the word that was found, which is the last group."""
        if found is not None:
            self.word = found[found.re.groups]


class OutOfMemoryError(OperationalError, MemoryError):
    """There was no memory for the call or for the room of its answer. It may come in place of any other result.

    Where Python itself has none for an object, as the form of the parameters, it raises a MemoryError, of which this is
    one.
    """

    number = 1
    _text = "out of memory"


class FormError(DataError):
    """A parameter of a flat form can't be taken: `parameter` is its number, `position` its first byte in the form."""

    parameter: int
    position: int
    _fields: tuple[str, ...] = ("parameter", "position")


class FormEndError(FormError):
    """The form ends within a parameter."""

    number = 3
    _text = "Parameter {parameter} at byte {position} of the form: Unexpected end of buffer"


class FormLengthLeadError(FormError):
    """A length in the form begins with `byte`, which is 251 or 255."""

    number = 4
    byte: int
    _fields: tuple[str, ...] = ("parameter", "position", "byte")
    _text = "Parameter {parameter} at byte {position} of the form: Bad length lead {byte}"


class FormTypeError(FormError):
    """A parameter of the form has a column type without a binary form, whose number is `column_type`."""

    number = 5
    column_type: int
    _fields: tuple[str, ...] = ("parameter", "position", "column_type")
    _text = "Parameter {parameter} at byte {position} of the form: Unsupported column type {column_type}"


class FormMixedError(FormError):
    """The form has parameters with a name and without one; told is the first that differs from the first one."""

    number = 6
    _text = "Parameter {parameter} at byte {position} of the form: Named and positional params in one form"


class RepeatedNameError(FormError):
    """The name `name` is given twice: `parameter` is the later one, `position` its name's first byte in the form."""

    number = 7
    name: bytes
    _fields: tuple[str, ...] = ("parameter", "position", "name")
    _text = "`:{name}` is given twice"


class MixedError(ProgrammingError):
    """The query has names and marks."""

    number = 8
    _text = "The query has both `:name` and `?`: write one of them everywhere"


class MissingError(_WordError):
    """The name `name` of the query has no value.

    `place` is the number of its first place, `position` the byte of the query at which it begins there, after its
    colon.
    """

    number = 9
    place: int
    position: int
    name: bytes
    _fields: tuple[str, ...] = ("place", "position", "name")
    _text = "`:{name}` has no value"

    def _look_at(self, query: bytes) -> None:
        """Take the word that begins with the name."""
        self._take(_WORD.match(query, self.position))


class NamedForPositionalError(_WordError):
    """The parameters have names, and the query has none."""

    number = 10
    _text = "The values have names, and the query has none"
    _hint: str = ""

    def _look_at(self, query: bytes) -> None:
        """Take the first word after a colon that begins no name."""
        self._take(_WORD_WITHOUT_NAME.search(query))
        if self.word is None:
            other = ": a place is `:name`, and not `%(name)s`"
            self._hint = other if b"%(" in query else ": no `:name` stands outside of strings and comments"

    def _more(self) -> str:
        return super()._more() + self._hint


class PositionalForNamedError(ProgrammingError):
    """The parameters have no names, and the query has some."""

    number = 11
    _text = "The values are in order, and the query has names: give a dict"


class MarkCountError(ProgrammingError):
    """The query has `marks` marks, and `values` values are given."""

    number = 12
    marks: int
    values: int
    _fields: tuple[str, ...] = ("marks", "values")
    _text = "The query has {marks} `?`, and {values} values are given"
    _hint: str = ""

    def _look_at(self, query: bytes) -> None:
        """See whether the query has what other libraries take for a mark, or one mark for many values."""
        if self.marks == 0 and b"%s" in query:
            self._hint = ": a place is `?`, and not `%s`"
        elif self.marks == 1 and self.values > 1 and _PLACE_OF_MANY.search(query):
            self._hint = ": for one `?` hand in a list of one, as `[ids]` or `[rows]`"

    def _more(self) -> str:
        return self._hint


class NotAloneError(_WordError):
    """The place `place`, at the byte `position` of the query, could run into a neighbour, as in ``1?`` or ``x:a``."""

    number = 13
    place: int
    position: int
    _fields: tuple[str, ...] = ("place", "position")
    _touches: str = ""
    _to_do: str = ": put a space between"

    def _look_at(self, query: bytes) -> None:
        """Take the place as it is written, what it touches, and the word that begins with its name, if it has one."""
        found = _PLACE_AT.match(query, self.position)
        if found is None:
            return
        beside = _beside(query, *found.span())
        self._touches = f"`{_show(found.group())}` at byte {self.position} touches `{_show(beside)}`"
        if found.group() != b"?":
            self._take(_WORD.match(query, self.position + 1))
            self._to_do += ", or behind the colon of a label"
        if beside == b".":
            self._to_do = ': for a name with a point write one place, and give an Identifier of two names, as Identifier("b", "c")'

    def _more(self) -> str:
        touches = self._touches or f"Place {self.place} at byte {self.position} touches what stands beside it"
        return touches + (super()._more() or self._to_do)


class UnbracketedError(ProgrammingError):
    """The place `place`, at the byte `position` of the query, takes one value, and was given a list or rows.

    A list stands alone in brackets, as in ``IN (:ids)``: behind IN, VALUES, a comma, another bracket, or the comparison of a row
    as in ``(a, b) = (:pair)``. It stands so behind VALUE after the columns, and behind ROW where a row may begin. Rows stand so
    too, or behind VALUES. Elsewhere a list would become several arguments: an In of it says so.
    """

    number = 21
    place: int
    position: int
    _fields: tuple[str, ...] = ("place", "position")
    name: Optional[str] = None
    """The name that stands in that place. None for a ``?``."""

    def _more(self) -> str:
        sign, where = ("?", f" at byte {self.position}") if self.name is None else (f":{self.name}", "")
        to_do = f"write it alone in brackets, as `IN ({sign})`, or give In([..])"
        return f"`{sign}`{where} is one value here, and was given a list: {to_do}"


class FloatError(DataError):
    """The value for the place `place` is a NaN or an infinity, which no number says: give None for NULL.

    bind_in_both_modes and the calls of a flat form write no float, also no finite one: give ``repr(value)``, a text with
    which a server computes as the same double.
    """

    number = 14
    place: int
    _fields: tuple[str, ...] = ("place",)
    name: Optional[str] = None
    """The name that stands in that place. None for a ``?``."""

    def _more(self) -> str:
        return f"The value for {_which(self.place, self.name)} is a float: give None for NaN and infinities, else a text"


class UnsteadyError(ProgrammingError):
    """The query has a backslash or a byte from 128 on: `position` is the first. It is of bind_anywhere, and of steady."""

    number = 15
    position: int
    _fields: tuple[str, ...] = ("position",)
    _text = (
        "Byte {position} of the query is a backslash or is not ASCII: "
        "over utf8mb4 bind_in_both_modes takes it, except a backslash in a string"
    )


class BackslashError(ProgrammingError):
    """A string of the query holds a backslash: `position` is the first. It is of bind_in_both_modes alone."""

    number = 18
    position: int
    _fields: tuple[str, ...] = ("position",)
    _text = "A string of the query has a backslash at byte {position}"


class UnportableError(ProgrammingError):
    """The query isn't portable: `construct` is the first, and begins at `position`. The message says what to write.

    Servers read some constructs in different ways, like ``/*! :a */`` and ``/*!STRAIGHT_JOIN */``. A quiet comment, in which
    nothing begins, is taken: ``/*!40001 SQL_NO_CACHE */``. It is of bind_anywhere and bind_in_both_modes, and of the calls
    that send by a driver.
    """

    number = 16
    position: int
    construct: Construct
    _fields: tuple[str, ...] = ("position", "construct")
    _text = "Not portable at byte {position} of the query"

    def _more(self) -> str:
        return f": {self.construct.message}"


class Fault(enum.IntEnum):
    """What is wrong with a list, rows, an exact number, identifiers, assignments or a keyword."""

    EMPTY = 1
    """A list without items, no rows, or no assignments."""
    EMPTY_ROW = 2
    """A row without items."""
    ROW_LENGTH = 3
    """A row that is not as long as the first."""
    NUMBER = 4
    """A text that is no exact number."""
    EMPTY_NAME = 5
    """A name without characters."""
    ZERO_BYTE = 6
    """A name with a byte 0."""
    LONG_NAME = 7
    """A name of more than 64 characters."""
    TRAILING_SPACE = 8
    """A name that ends in a space."""
    KEYWORD = 9
    """A word that is none of the keywords that are written."""
    BACKSLASH = 10
    """A name with a backslash before a backquote or at its end."""


_FAULTS = {
    Fault.EMPTY: "The list for {which} is empty",
    Fault.EMPTY_ROW: "Row {in_row} for {which} is empty",
    Fault.ROW_LENGTH: "Row {in_row} for {which} is not as long as the first",
    Fault.NUMBER: "Item {item} of row {in_row} for {which} is no exact number",
    Fault.EMPTY_NAME: "Name {item} for {which} is empty",
    Fault.ZERO_BYTE: "Name {item} for {which} has a byte 0",
    Fault.LONG_NAME: "Name {item} for {which} has more than 64 characters",
    Fault.TRAILING_SPACE: "Name {item} for {which} ends in a space",
    Fault.KEYWORD: "The word for {which} is none of the keywords in capitals that KEYWORDS lists",
    Fault.BACKSLASH: "Name {item} for {which} has a backslash before a backquote or at its end",
}


class FragmentError(DataError):
    """What isn't one value, as a list or an Identifier, for the place `place` can't be written.

    `fault` says why, `in_row` in which row, and `item` in which item, assignment or name, of all names; if there is none they
    are 0.
    """

    number = 17
    place: int
    fault: Fault
    in_row: int
    item: int
    _fields: tuple[str, ...] = ("place", "fault", "in_row", "item")
    name: Optional[str] = None
    """The name that stands in that place. None for a ``?``."""

    def _more(self) -> str:
        return _FAULTS[self.fault].format(which=_which(self.place, self.name), in_row=self.in_row, item=self.item)


class UnsteadyFragmentError(DataError):
    """A name for the place `place` has a backslash or a character that isn't ASCII. It is of bind_anywhere, and of steady."""

    number = 19
    place: int
    _fields: tuple[str, ...] = ("place",)
    name: Optional[str] = None
    """The name that stands in that place. None for a ``?``."""

    def _more(self) -> str:
        return f"A name for {_which(self.place, self.name)} has a backslash or a character that is not ASCII"


_ERRORS: dict[int, type[Error]] = {
    error.number: error
    for error in (
        OutOfMemoryError,
        FormEndError,
        FormLengthLeadError,
        FormTypeError,
        FormMixedError,
        RepeatedNameError,
        MixedError,
        MissingError,
        NamedForPositionalError,
        PositionalForNamedError,
        MarkCountError,
        NotAloneError,
        FloatError,
        UnsteadyError,
        UnportableError,
        FragmentError,
        BackslashError,
        UnsteadyFragmentError,
        UnbracketedError,
    )
}
