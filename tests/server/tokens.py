"""A plain reader of the tokens of a query, as docs/RULES.md has them, for tests of what else reads a text."""

import re
from typing import NamedTuple

WHITE_SPACE = b"\t\n\f\r "


class Token(NamedTuple):
    """A token: its kind, its text, where it begins, and whether its end was found before the query's."""

    kind: str
    text: bytes
    begin: int
    is_closed: bool


def _pattern(string: bytes) -> re.Pattern:
    """Return the pattern of a token, with its end, given that of a string after its opening quote."""
    strings = b"|".join(quote + string % {b"quote": quote} for quote in (b"'", b'"'))
    return re.compile(
        rb"(?P<string>" + strings + rb")|(?P<identifier>`[^`]*(?:`|\Z))"
        rb"|(?P<line>(?:#|--[\t\f\r ])[^\n]*(?:\n|\Z))|(?P<block>/\*(?![!+])(?:.*?\*/|.*\Z))"
        rb"|(?P<name>:[A-Za-z_][A-Za-z0-9_]*)|(?P<mark>\?)|(?P<plain>.)",
        re.DOTALL,
    )


_PATTERNS = (
    _pattern(rb"(?:[^%(quote)s\\]|\\.)*(?:%(quote)s|\\?\Z)"),
    _pattern(rb"[^%(quote)s]*(?:%(quote)s|\Z)"),
)
_ENDS = {"block": b"*/", "line": b"\n"}


def tokens_of(query: bytes, no_backslash_escape: bool) -> list:
    """Return the tokens of a query."""
    found = []
    for match in _PATTERNS[no_backslash_escape].finditer(query):
        kind, text = match.lastgroup, match.group()
        found.append(Token(kind, text, match.start(), _is_closed(kind, text, no_backslash_escape)))
    return found


def _is_closed(kind: str, text: bytes, no_backslash_escape: bool) -> bool:
    if kind in _ENDS:
        return text.endswith(_ENDS[kind]) and (kind == "line" or len(text) >= 4)
    if kind == "identifier":
        return len(text) >= 2 and text.endswith(b"`")
    if kind != "string":
        return True
    if len(text) < 2 or text[-1] != text[0]:
        return False
    escapes = len(text) - 1 - len(text[:-1].rstrip(b"\\")) if not no_backslash_escape else 0
    return escapes % 2 == 0
