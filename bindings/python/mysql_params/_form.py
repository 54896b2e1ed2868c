"""The flat form of a value: of what the extension module leaves to Python, and what it is compared with."""

from __future__ import annotations

import datetime
import decimal
import struct
from collections.abc import Iterable, Iterator, Mapping
from typing import Optional, Union

from ._values import in_zone, is_ambiguous, plain
from .errors import ArgumentEncodeError, ArgumentOverflowError, ArgumentTypeError, ArgumentValueError, _show

# Numbers of column types in the protocol, and the flag that says unsigned.
_DOUBLE, _NULL, _LONGLONG, _TIME, _DATETIME, _VAR_STRING = 5, 6, 8, 11, 12, 253
_UNSIGNED = 128

_BOUND = (int, float, str, bytes, bytearray, memoryview, datetime.date, datetime.timedelta)
"""The types of values that are bound, beside None."""


def place(which: Union[bytes, int]) -> str:
    """Return what messages call the value for a place, which is told by its name or by its number from 0."""
    return f"the value for place {which}" if isinstance(which, int) else f"the value of `:{_show(which)}`"


def _cast(which: Union[bytes, int], digits: str) -> str:
    """Return what to do with a decimal number."""
    mark = "?" if isinstance(which, int) else f":{_show(which)}"
    return f"give str(..) of it, and write CAST({mark} AS DECIMAL({digits})): a text in arithmetic is a double"


def bytes_of(text: object) -> bytes:
    """Return the bytes of a text: those of its UTF-8 if it is a str."""
    if isinstance(text, str):
        try:
            return str.encode(text)
        except UnicodeEncodeError as fault:
            raise ArgumentEncodeError(*fault.args) from None
    if isinstance(text, (bytes, bytearray, memoryview)):
        return copy(text)
    raise ArgumentTypeError(f"a str or bytes are wanted, and not {type(text).__name__}")


def copy(source: object) -> bytes:
    """Return the bytes of something like bytes, as they stand in memory: a subclass may say otherwise of itself."""
    if isinstance(source, bytes):
        return bytes.__getitem__(source, slice(None))
    if isinstance(source, bytearray):
        return bytes(bytearray.__getitem__(source, slice(None)))
    if isinstance(source, memoryview):
        return memoryview.tobytes(source)
    raise ArgumentTypeError(f"bytes are wanted, and not {type(source).__name__}")


def string_form(string: bytes) -> bytes:
    """Return a length-encoded string."""
    length = len(string)
    if length < 251:
        return bytes([length]) + string
    count, lead = (2, 0xFC) if length < 1 << 16 else (3, 0xFD) if length < 1 << 24 else (8, 0xFE)
    return bytes([lead]) + length.to_bytes(count, "little") + string


def _int_form(number: int, which: Union[bytes, int]) -> bytes:
    """Return type, flags and value of a whole number of up to 64 bits."""
    if -(1 << 63) <= number < 1 << 63:
        return struct.pack("<BBq", _LONGLONG, 0, number)
    if 0 <= number < 1 << 64:
        return struct.pack("<BBQ", _LONGLONG, _UNSIGNED, number)
    bare = "which bind, bind_anywhere and the calls that send write bare, where a place takes more than a value"
    raise ArgumentOverflowError(f"{place(which)} is a whole number of more than 64 bits, {bare}: {_cast(which, '65,0')}")


def _shown(
    moment: datetime.datetime, which: Union[bytes, int], zone: Optional[datetime.tzinfo]
) -> datetime.datetime:
    """Return a datetime as the clocks of the zone show it, without a zone."""
    try:
        shown = in_zone(moment, zone)
    except OverflowError:
        raise ArgumentValueError(f"{place(which)} is a datetime that is outside of the years 1 to 9999 in the zone") from None
    if shown is None:
        to_do = "convert it to a naive one, or hand in zone=.., the session's"
        raise ArgumentTypeError(f"{place(which)} is a datetime with a time zone: {to_do}")
    if is_ambiguous(shown, zone):
        to_do = "bind it in a session whose zone is UTC"
        raise ArgumentValueError(f"{place(which)} is a datetime that the clocks of the zone show twice, or never: {to_do}")
    return shown.replace(tzinfo=None)


def _date_form(date: datetime.date, which: Union[bytes, int], zone: Optional[datetime.tzinfo]) -> bytes:
    """Return type, flags and value of a date, or of a date with its time of day."""
    clock = (0, 0, 0, 0)
    if isinstance(date, datetime.datetime):
        if date.tzinfo is not None:
            date = _shown(date, which, zone)
        clock = (date.hour, date.minute, date.second, date.microsecond)
    return struct.pack("<BBBHBBBBBI", _DATETIME, 0, 11, date.year, date.month, date.day, *clock)


def _time_form(time: datetime.timedelta) -> bytes:
    """Return type, flags and value of a span of time: sign and magnitude, and not Python's negative days."""
    negative = time < datetime.timedelta(0)
    size = -time if negative else time
    minutes, seconds = divmod(size.seconds, 60)
    hours, minutes = divmod(minutes, 60)
    fields = (negative, size.days, hours, minutes, seconds, size.microseconds)
    return struct.pack("<BBBBIBBBI", _TIME, 0, 12, *fields)


def _text_form(text: str, which: Union[bytes, int]) -> bytes:
    """Return type, flags and value of a text."""
    try:
        return bytes([_VAR_STRING, 0]) + string_form(str.encode(text))
    except UnicodeEncodeError as fault:
        reason = f"{fault.reason}, in {place(which)}"
        raise ArgumentEncodeError(fault.encoding, fault.object, fault.start, fault.end, reason) from None


def _known_form(value: object, which: Union[bytes, int], zone: Optional[datetime.tzinfo]) -> Union[bytes, None]:
    """Return type, flags and value; or None of what has no literal."""
    if value is None:
        return bytes([_NULL, 0])
    if not issubclass(type(value), _BOUND):
        return None  # Its `__class__` may say otherwise.
    if isinstance(value, int):
        return _int_form(int.__index__(value), which)
    if isinstance(value, float):
        return struct.pack("<BBd", _DOUBLE, 0, float.__float__(value))
    if isinstance(value, str):
        return _text_form(value, which)
    if isinstance(value, (bytes, bytearray, memoryview)):
        return bytes([_VAR_STRING, 0]) + string_form(copy(value))
    if isinstance(value, datetime.date):
        return _date_form(value, which, zone)
    if isinstance(value, datetime.timedelta):
        return _time_form(value)
    return None


def value_form(value: object, which: Union[bytes, int], zone: Optional[datetime.tzinfo] = None) -> bytes:
    """Return type, flags and value. A datetime with a time zone is as the clocks of the zone handed in show it."""
    value = plain(value)
    try:
        form = _known_form(value, which, zone)
    except (struct.error, AttributeError):
        form = None  # A subclass has fields that no date and no span has.
    if form is not None:
        return form
    kind = type(value).__name__
    if isinstance(value, decimal.Decimal):
        raise ArgumentTypeError(f"{place(which)} is a {kind}, which has no literal: {_cast(which, '20,2')}")
    if isinstance(value, (list, tuple, set, frozenset)):
        raise ArgumentTypeError(f"{place(which)} is a {kind}, which has no literal: write a place for each of its values")
    if isinstance(value, datetime.time):
        raise ArgumentTypeError(f"{place(which)} is a {kind} with a time zone, which has no literal")
    to_do = ": give json.dumps(..) of it, or register(dict, json.dumps)" if isinstance(value, dict) else ""
    raise ArgumentTypeError(f"{place(which)} is of type {kind}, which has no literal{to_do}")


def name_of(name: object, number: int) -> bytes:
    """Return the bytes of a name, of the parameter of a number."""
    if not isinstance(name, (str, bytes)):
        raise ArgumentTypeError(f"a name is str or bytes, and that of parameter {number} is of type {type(name).__name__}")
    own = bytes_of(name)
    if not own:
        raise ArgumentValueError(f"Parameter {number} has an empty name")
    return own


def parameters(params: object) -> tuple[bool, Iterator[object]]:
    """Return whether parameters have names, and an iterator over them: of pairs if they have."""
    if isinstance(params, Mapping):
        return True, ((name, value) for name, value in params.items())
    if isinstance(params, Iterable) and not isinstance(params, (str, bytes, bytearray, memoryview, set, frozenset)):
        return False, iter(params)
    raise ArgumentTypeError(f"parameters are None, values in order or a mapping, and not {type(params).__name__}")
