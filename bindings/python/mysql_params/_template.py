"""A query whose places are found once."""

from __future__ import annotations

import datetime
from collections.abc import Iterable
from typing import Optional, Union

from . import _archive, _native


class Template:
    """A query whose names and marks are found once, to bind it many times: it gives what bind gives.

    It keeps a copy of the query, and nothing changes it, so that threads may bind it at once. bind and bind_form keep the places
    of the last 128 queries of 4 KiB or more, up to 8 MiB in all, by themselves: for these a template spares only the look
    for what is kept.

        >>> template = Template("SELECT * FROM t WHERE id = ?")
        >>> [template.bind([number]) for number in (1, 2)]
        [b'SELECT * FROM t WHERE id = 1', b'SELECT * FROM t WHERE id = 2']
    """

    __slots__ = ("_table",)

    def __init__(self, query: Union[str, bytes], no_backslash_escape: bool = False) -> None:
        """Find the places of a query. The flag is that of bind. Raise OutOfMemoryError.

        A query that can't be bound is refused when it is bound.
        """
        self._table = _native.table(query, no_backslash_escape)

    @property
    def query(self) -> bytes:
        """The query."""
        return self._table.query

    @property
    def no_backslash_escape(self) -> bool:
        """The mode for which the query is read and its values are written."""
        return self._table.mode

    def bind(self, params: object = None, *, zone: Optional[datetime.tzinfo] = None) -> bytes:
        """Return what bind returns for the query in its mode, and raise what it raises."""
        return _native.bind_table(self._table, params, zone)

    def bind_form(self, form: bytes) -> bytes:
        """Return what bind_form returns for the query in its mode, and raise what it raises."""
        return _native.bind_form_table(self._table, form)

    def bind_rows(self, rows: Iterable[object]) -> list[bytes]:
        """Return what bind_rows returns for the query in its mode, and raise what it raises.

        That finds the places of the query once for many rows by itself, and not by the template's table.
        """
        return _archive.bind_rows(self._table.query, rows, self._table.mode)
