"""The calls of the archive, which the extension module makes, and their answers."""

from __future__ import annotations

import datetime
import decimal
import os
import threading
from collections import OrderedDict
from collections.abc import Iterable
from typing import NamedTuple, Optional, Union

try:
    from ._native import Table
except ModuleNotFoundError as fault:
    raise ImportError(
        "mysql_params has no extension module here: install its wheel, or import it from FOLDER/python, which"
        " `bindings/build FOLDER` makes"
    ) from fault

from . import _form, _fragments, _native, _values
from .errors import _ERRORS, ArgumentTypeError, Error, Fault, FloatError, FragmentError, RepeatedNameError
from .errors import UnbracketedError, UnsteadyFragmentError
from .portable import Construct, Unportable

PORTABLE = 0


class Report(NamedTuple):
    """What a call says beside its number: mysql_params_report of mysql_params.h."""

    len: int = 0
    place: int = 0
    position: int = 0
    marks: int = 0
    values: int = 0
    byte: int = 0


def flag(mode: object) -> bool:
    """Return the mode of a call. The truth of another object may be the wrong mode."""
    if mode is True or mode is False:
        return mode
    raise ArgumentTypeError(f"no_backslash_escape is True or False, and not of type {type(mode).__name__}")


class Tables:
    """Tables of the last queries that were long, each by the query as it was given."""

    def __init__(self, most: int, size: int, least: int) -> None:
        """Keep so many tables at most, of so many bytes in all with their queries, of queries of at least so many bytes."""
        self.most, self.room, self.least = most, size, least
        self.forget()

    def forget(self) -> None:
        """Keep none. A process that was forked calls it, since another thread may have held the lock."""
        self.size = 0
        self.kept: OrderedDict[tuple[bool, bool, Union[str, bytes]], Table] = OrderedDict()
        self.lock = threading.Lock()

    def of(self, query: object, mode: object) -> Optional[Table]:
        """Return the table of a query in a mode; None if none is kept of such a query, or if the lock is taken.

        It never waits for the lock: a call in a handler of a signal may have interrupted the one that has it.
        """
        if type(query) is not str and type(query) is not bytes or type(mode) is not bool:
            return None
        if len(query) < self.least or len(query) > self.room:
            return None
        key = (type(query) is str, mode, query)
        if not self.lock.acquire(blocking=False):
            return None
        try:
            found = self.kept.get(key)
            if found is not None:
                self.kept.move_to_end(key)
                return found
        finally:
            self.lock.release()
        made = _native.table(query, mode)
        if made.size <= self.room:
            self._keep(key, made)
        return made

    def _keep(self, key: tuple[bool, bool, Union[str, bytes]], made: Table) -> None:
        """Keep a table, and as many of the last ones as there is room for, unless the lock is taken.

        The size is summed anew, since an exception of a signal's handler may have come between any two steps before.
        """
        if not self.lock.acquire(blocking=False):
            return
        try:
            self.kept.pop(key, None)
            self.kept[key] = made
            self.size = sum(table.size for table in self.kept.values())
            while len(self.kept) > self.most or self.size > self.room:
                self.size -= self.kept.popitem(last=False)[1].size
        finally:
            self.lock.release()


TABLES = Tables(128, 1 << 23, 1 << 12)
"""The tables by which bind and bind_form bind. A short query is walked in less time than its table is found."""
os.register_at_fork(after_in_child=TABLES.forget)


def table_of(query: object, mode: object) -> Optional[Table]:
    """Return the table that is kept of a query in a mode, if one is."""
    return TABLES.of(query, mode)


def construct_of(number: int) -> Construct:
    """Return the construct of a number."""
    try:
        return Construct(number)
    except ValueError:
        raise RuntimeError(f"Unknown answer {number} of the archive") from None


# The fields of a report that errors have by other names.
_FIELDS_OF_REPORT = {"parameter": "place", "column_type": "byte", "in_row": "position", "item": "values"}


def fault_of(number: int) -> Fault:
    """Return the fault of a number."""
    try:
        return Fault(number)
    except ValueError:
        raise RuntimeError(f"Unknown fault {number} of the archive") from None


def _field(report: Report, source: bytes, field: str) -> Union[int, bytes]:
    """Return the value of a field of an error; a name stands in the source."""
    if field == "name":
        return source[report.position : report.position + report.len]
    if field == "construct":
        return construct_of(report.byte)
    if field == "fault":
        return fault_of(report.byte)
    return int(getattr(report, _FIELDS_OF_REPORT.get(field, field)))


def error(number: int, report: Report, query: bytes, form: bytes) -> Exception:
    """Return what to raise for a number other than done."""
    kind = _ERRORS.get(number)
    if kind is None:
        return RuntimeError(f"Unknown answer {number} of the archive")
    source = form if number == RepeatedNameError.number else query
    made = kind(*[_field(report, source, field) for field in kind._fields])
    made._look_at(query)
    return made


def refusal(number: int, report: tuple[int, ...], query: bytes, form: bytes, mode: bool) -> Exception:
    """Return what to raise for a number other than done, with the name of the place of a float, a list or a fragment."""
    found = error(number, Report(*report), query, form)
    if isinstance(found, (FloatError, FragmentError, UnbracketedError, UnsteadyFragmentError)):
        names = names_of(query, mode)[1]
        found.name = names[found.place] if names else None
    return found


def bind_rows(query: bytes, rows: Iterable[object], mode: bool) -> list[bytes]:
    """Return the text of each row. What a row is refused for tells its number and the texts of the rows before it."""
    texts: list[bytes] = []
    try:
        _native.bind_rows(query, rows, mode, None, False, False, texts)
    except Error as fault:
        fault.row, fault.texts = len(texts), texts
        raise
    return texts


def unportable(number: int, position: int) -> Optional[Unportable]:
    """Return what the number of a construct and its position say."""
    return None if number == PORTABLE else Unportable(construct_of(number), position)


def next_string(answer: bytes, begin: int) -> tuple[bytes, int]:
    """Return the length-encoded string that begins at a byte of an answer, and the byte after it."""
    lead = answer[begin]
    count = {0xFC: 2, 0xFD: 3, 0xFE: 8}.get(lead, 0)
    first = begin + 1 + count
    end = first + (int.from_bytes(answer[begin + 1 : first], "little") if count else lead)
    if lead in (0xFB, 0xFF) or end > len(answer):
        raise RuntimeError("the answer of the archive is no row of strings")
    return answer[first:end], end


def names_of(query: Union[str, bytes], mode: bool) -> tuple[bytes, list[str]]:
    """Return the query with ``?`` in the places of its names, and the names."""
    answer = _native.names(query, mode)
    renamed, at = next_string(answer, 0)
    found = []
    while at < len(answer):
        name, at = next_string(answer, at)
        found.append(name.decode("ascii"))
    return renamed, found


_native.set_up(
    {
        "value_form": _form.value_form,
        "place_form": _fragments.place_form,
        "item_form": _fragments.item_form,
        "parameters": _form.parameters,
        "name": _form.name_of,
        "bytes_of": _form.bytes_of,
        "copy": _form.copy,
        "refusal": refusal,
        "table_of": table_of,
        "zone_of": _values.zone_of,
        "flag": flag,
        "registered": _values._REGISTERED,
        "date": datetime.date,
        "datetime": datetime.datetime,
        "time": datetime.time,
        "timedelta": datetime.timedelta,
        "decimal": decimal.Decimal,
        "in": _fragments.In,
        "lists": (list, tuple),
    }
)
_native.keep_from(TABLES.least)
