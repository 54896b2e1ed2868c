"""Values of further types, each made a value that has a literal; and the registered functions that make one."""

from __future__ import annotations

import datetime
import decimal
import enum
import numbers
import operator
import uuid
from collections.abc import Callable
from typing import Any, Optional, TypeVar

from .errors import ArgumentTypeError, ArgumentValueError

_Kind = TypeVar("_Kind")

_BOUND = frozenset(
    (
        type(None),
        bool,
        int,
        float,
        str,
        bytes,
        bytearray,
        memoryview,
        datetime.date,
        datetime.datetime,
        datetime.timedelta,
    )
)
"""The types that have a literal themselves. Those of a subclass of one have it too, unless it is registered."""

_LONGEST_CHAIN = 8
"""How many registered functions may follow each other for one value."""

_REGISTERED: dict[type, Callable[[Any], object]] = {}


def register(kind: type[_Kind], function: Callable[[_Kind], object]) -> None:
    """Have values of a type, and of its subclasses, bound as what a function makes of each.

    The function returns a value that is bound, also one of another registered type. The nearest type of a value counts;
    a later function for a type takes the place of an earlier one. It holds for all calls of the process. Raise
    ValueError for a type that has a literal itself, as int, float and str.

    >>> import fractions, mysql_params
    >>> mysql_params.register(fractions.Fraction, lambda value: f"{value.numerator}/{value.denominator}")
    >>> mysql_params.bind("SELECT ?", [fractions.Fraction(1, 3)])
    b"SELECT '1/3'"
    """
    if not isinstance(kind, type):
        raise ArgumentTypeError(f"a type is wanted, and not {type(kind).__name__}")
    if kind in _BOUND or kind is object:
        to_do = ", and bind_in_both_modes takes repr(value)" if kind is float else ""
        raise ArgumentValueError(f"{kind.__name__} can't be registered: values of it are bound by themselves{to_do}")
    if not callable(function):
        raise ArgumentTypeError(f"a function is wanted, and not {type(function).__name__}")
    _REGISTERED[kind] = function


_DIGITS, _AFTER_POINT = 65, 30
"""The most digits of a DECIMAL, and the most of them after the point."""


def decimal_text(value: decimal.Decimal) -> str:
    """Return the digits of a Decimal, without an exponent. Raise ValueError for what is no number, or infinite.

    So it does for a number so great or so small that no DECIMAL has a place for its first digit: a short text as
    ``1E+999999999`` has a great many digits.

    ``register(decimal.Decimal, decimal_text)`` has each Decimal bound as this text. A server computes with a text as a
    double, and loses hundredths of great sums without a word: write ``CAST(:p AS DECIMAL(20,2))`` wherever a query
    computes with it. To store it in a DECIMAL column, or to compare it with one, needs no CAST.

    >>> decimal_text(decimal.Decimal("1E+3")), decimal_text(decimal.Decimal("-0.10"))
    ('1000', '-0.10')
    """
    if not value.is_finite():
        raise ArgumentValueError(f"a Decimal that is {'NaN' if value.is_nan() else 'infinite'} has no digits")
    first = value.adjusted()
    if -_AFTER_POINT <= first < _DIGITS:
        return format(value, "f")
    if not value:
        return "0"
    held = f"holds {_DIGITS} digits, and {_AFTER_POINT} after the point"
    raise ArgumentValueError(f"a Decimal whose first digit stands for 1E{first:+} is beyond a DECIMAL, which {held}")


def _registered(kind: type) -> Optional[Callable[[Any], object]]:
    """Return the function that is registered for the nearest type of a value's type, if one is."""
    for nearest in kind.__mro__:
        if nearest in _BOUND:
            return None
        if nearest in _REGISTERED:
            return _REGISTERED[nearest]
    return None


def _time(value: datetime.time) -> Optional[datetime.timedelta]:
    """Return the span from midnight to a time of day; None for one with a time zone."""
    if value.tzinfo is not None:
        return None
    return datetime.timedelta(
        hours=value.hour, minutes=value.minute, seconds=value.second, microseconds=value.microsecond
    )


def _other(value: object) -> object:
    """Return what a value is bound as by its type; itself if it is that, or if there is nothing."""
    kind = type(value)
    if issubclass(kind, enum.Enum):
        return value.value  # type: ignore[attr-defined]
    if issubclass(kind, tuple(_BOUND)):
        return value
    if issubclass(kind, uuid.UUID):
        return str(value)
    if issubclass(kind, datetime.time):
        made = _time(value)  # type: ignore[arg-type]
        return value if made is None else made
    if issubclass(kind, numbers.Integral):
        return operator.index(value)  # type: ignore[arg-type]
    if kind.__module__ == "numpy" and kind.__name__ in ("bool_", "bool"):
        return bool(value)
    if kind.__module__ == "numpy" and kind.__name__ in ("float16", "float32"):
        return float(value)  # type: ignore[arg-type]  # It has the same value. A float64 is a float.
    return value


def in_zone(value: datetime.datetime, zone: Optional[datetime.tzinfo]) -> Optional[datetime.datetime]:
    """Return a datetime that has a zone as the clocks of another show it, in that; None if that isn't known.

    Raise OverflowError if it is outside of the years that a datetime has.
    """
    if zone is None or value.utcoffset() is None:
        return None
    return value.astimezone(zone)


def is_ambiguous(value: datetime.datetime, zone: Optional[datetime.tzinfo]) -> bool:
    """Return whether the clocks of a zone show a datetime twice, or never: then it has two offsets from UTC.

    Zones other than Python's own may say one offset for both, as those of pytz do. There the clocks are looked at a day
    before and after, and at the moments to which the offsets of these lead.
    """
    if value.replace(fold=0).utcoffset() != value.replace(fold=1).utcoffset():
        return True
    if type(zone).__module__ in ("datetime", "zoneinfo"):
        return False
    moment = value.astimezone(datetime.timezone.utc).replace(tzinfo=None)
    shown = value.replace(tzinfo=None)
    return _clocks(moment, zone) != shown or any(_is_shown_later(moment, shown, zone, days) for days in (-1, 1))


def _is_shown_later(moment: datetime.datetime, shown: datetime.datetime, zone: Optional[datetime.tzinfo], days: int) -> bool:
    """Return whether clocks show at another moment what they show at one, by the offset that they have some days later."""
    try:
        near = moment + datetime.timedelta(days)
        other = shown - (_clocks(near, zone) - near)
        return other != moment and _clocks(other, zone) == shown
    except OverflowError:
        return False  # It is outside of the years that a datetime has.


def _clocks(moment: datetime.datetime, zone: Optional[datetime.tzinfo]) -> datetime.datetime:
    """Return what the clocks of a zone show at a moment, which is of UTC."""
    return moment.replace(tzinfo=datetime.timezone.utc).astimezone(zone).replace(tzinfo=None)


def zone_of(zone: object) -> Optional[datetime.tzinfo]:
    """Return a zone that was handed in, or None. Raise TypeError for anything else."""
    if zone is None or isinstance(zone, datetime.tzinfo):
        return zone
    raise ArgumentTypeError(f"zone is a datetime.tzinfo, as zoneinfo.ZoneInfo('UTC'), and not {type(zone).__name__}")


def plain(value: object) -> object:
    """Return what a value is bound as, by the registered functions and by its type; itself if nothing else."""
    if type(value) in _BOUND:
        return value
    for _ in range(_LONGEST_CHAIN):
        function = _registered(type(value))
        if function is not None:
            value = function(value)
            continue
        made = _other(value)
        if made is value:
            return value
        value = made
    raise ArgumentTypeError(f"the functions that are registered for a {type(value).__name__} make no end")
