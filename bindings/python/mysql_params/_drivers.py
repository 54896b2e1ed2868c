"""What a driver shows of its connection. Nothing is sent here."""

from __future__ import annotations

import functools
from typing import Any, Optional

_ENCODINGS = {"pymysql": "encoding", "MySQLdb": "encoding", "mysql": "python_charset"}
"""The attribute of a connection that names the encoding by which its driver makes bytes of a str."""


def makers(connection: Any) -> frozenset[str]:
    """Return the packages that a driver's connection is of.

    The connection of MySQL Connector's cursor is a weak reference, whose `__class__` alone is the connection's.
    """
    return _packages(connection.__class__)


@functools.lru_cache(maxsize=64)
def _packages(kind: type) -> frozenset[str]:
    """Return the packages that a type and those above it are of."""
    return frozenset(above.__module__.partition(".")[0] for above in kind.__mro__)


_NO_BACKSLASH_ESCAPES = 512
"""The bit of the server's status that says that its mode has no backslash escapes, in the protocol."""

Signs = tuple[bool, tuple[object, ...]]
"""A driver's own idea of the mode, and what changes if it connects anew."""


def signs_of(connection: Any) -> Optional[Signs]:
    """Return a driver's own idea of the mode, and what changes if the driver connects anew.

    The mode is what the server said beside its last answer. None of another driver, of one that shows less, and if the
    driver hadn't read all answers to its last text: an unread one may tell of another mode.
    """
    found = makers(connection)
    try:
        if "pymysql" in found:
            return _signs_of_pymysql(connection)
        if "MySQLdb" in found:
            return _signs_of_mysqlclient(connection)
    except AttributeError:
        pass
    return None


def _signs_of_pymysql(connection: Any) -> Optional[Signs]:
    last = connection._result
    if last is not None and (last.unbuffered_active or last.has_next):
        return None
    mode = bool(connection.server_status & _NO_BACKSLASH_ESCAPES)
    return mode, (connection._sock, connection.thread_id(), connection.charset)


def _signs_of_mysqlclient(connection: Any) -> Optional[Signs]:
    """Have the driver read all answers to its last text, as it does before it sends another, since it shows none of them."""
    is_read = True
    while connection.next_result() == 0:
        connection.store_result()
        is_read = False
    # Over another set `change_user` sets the server's back to it, after a SET NAMES, and need not change what is shown.
    charset = connection.character_set_name()
    if not is_read or charset != "utf8mb4":
        return None
    mode = len(connection.escape_string(b"\\")) == 1
    return mode, (connection.thread_id(), charset)


def encoding_of(connection: Any) -> Optional[str]:
    """Return the encoding by which a driver makes bytes of a str; None of another driver, and if it shows none."""
    encoding = getattr(connection, _attribute_of_encoding(connection.__class__), None)
    return encoding if isinstance(encoding, str) else None


@functools.lru_cache(maxsize=64)
def _attribute_of_encoding(kind: type) -> str:
    """Return the attribute of a driver's connections that names the encoding; an empty one of another driver."""
    found = _packages(kind)
    return next((attribute for maker, attribute in _ENCODINGS.items() if maker in found), "")


def may_rewrite(encoding: Optional[str], text: bytes) -> bool:
    """Return whether a driver of an encoding may send other bytes than these, if it is given them as a str.

    If the encoding isn't known, it may be one that writes a backslash in another way, as UTF-7 does.
    """
    if encoding is None:
        return not text.isascii() or b"\\" in text
    try:
        return text.decode().encode(encoding) != text
    except (ValueError, LookupError):
        return True
