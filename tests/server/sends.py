"""What a command-line client sends of a text: the definition of crates/mysql_client/specs, line by line.

The names are those of Outgoing.antt, ClientState.antt and Sends.antt, and so is the order. `COMMAND` at the end says that the
definition stops there: the client runs a command of its own, or reads a text of its own.
"""

from typing import NamedTuple, Union

# The clients.
MYSQL, MARIADB = "mysql", "mariadb"
COMMAND = "command"

_ZERO, _NEWLINE, _RETURN, _SPACE = 0, 10, 13, 32
_STAR, _SLASH, _DASH, _HASH, _BACKSLASH = b"*/-#\\"
_SEMICOLON, _BACKQUOTE, _DOLLAR, _MARK = b";`$?"
_QUOTES = b"'\""

_WORDS_OF_MARIADB = (
    b"charset clear connect costs edit ego exit go help nopager notee nowarning pager print prompt quit rehash sandbox "
    b"source status system tee use warnings"
).split()


# ---- FoundInClient.antt


def _without_accent(b: int) -> int:
    for below, letter in ((196, "a"), (199, b), (200, "c"), (204, "e"), (208, "i"), (209, "d"), (210, "n"), (214, "o"),
                          (217, b), (220, "u"), (222, "y")):  # fmt: skip
        if b < below:
            return letter if isinstance(letter, int) else ord(letter)
    return b


def _letter_of(b: int) -> int:
    if b < 192:
        return b + 32 if 65 <= b <= 90 else b
    return _without_accent(b) if b < 224 else _without_accent(b - 32)


def _begins_word(word: bytes, text: bytes) -> bool:
    return len(text) >= len(word) and all(_letter_of(b) == w for w, b in zip(word, text))


def _ends_word(text: bytes) -> bool:
    return text == b"" or text[0] <= 32 or text[0] == _SEMICOLON


def _begins_whole_word(word: bytes, text: bytes) -> bool:
    return _begins_word(word, text) and _ends_word(text[len(word) :])


# ---- Outgoing.antt


class Outgoing(NamedTuple):
    """What is sent, what is gathered, whether a space is owed, and how many of the next bytes go before it."""

    sent: tuple = ()
    gathered: bytes = b""
    owed: bool = False
    left: int = 0


def _is_space(b: int) -> bool:
    return 9 <= b <= 13 or b == _SPACE


def _is_trimmed(b: int) -> bool:
    return b <= 32 or b == 127 or b >= 255


def _trimmed(text: bytes) -> bytes:
    while text and _is_trimmed(text[-1]):
        text = text[:-1]
    return text


def _keep(b: int, o: Outgoing) -> Outgoing:
    return o._replace(gathered=o.gathered + bytes([b]))


def _begins(low: int, high: int, text: bytes, more: int) -> bool:
    return len(text) > more and low <= text[0] <= high and all(128 <= b <= 191 for b in text[1 : 1 + more])


def _more_of_character(b: int, rest: bytes) -> int:
    if 194 <= b <= 223:
        return 1 if _begins(128, 191, rest, 0) else 0
    if 224 <= b <= 239:
        return 2 if _begins(160 if b == 224 else 128, 191, rest, 1) else 0
    if 240 <= b <= 244:
        return 3 if _begins(144 if b == 240 else 128, 143 if b == 244 else 191, rest, 2) else 0
    return 0


def _settle(b: int, rest: bytes, o: Outgoing) -> Outgoing:
    if _is_space(b):
        return _keep(b, o)._replace(owed=False)
    if _more_of_character(b, rest) > 0:
        return _keep(b, o)._replace(left=_more_of_character(b, rest))
    return _keep(b, _keep(_SPACE, o))._replace(owed=False)


def _pass_on(b: int, rest: bytes, o: Outgoing) -> Outgoing:
    if o.left > 0:
        return _keep(b, o)._replace(left=o.left - 1)
    return _settle(b, rest, o) if o.owed else _keep(b, o)


def _pass_as_is(b: int, o: Outgoing) -> Outgoing:
    return _keep(b, o)


def _pass_with_next(b: int, o: Outgoing) -> Outgoing:
    return _keep(b, o)._replace(left=1)


def _owe(o: Outgoing) -> Outgoing:
    return o._replace(owed=True, left=0)


def _with_statement(sent: tuple, text: bytes) -> tuple:
    return (*sent, text) if text else sent


def _send(o: Outgoing) -> Outgoing:
    return o._replace(sent=_with_statement(o.sent, _trimmed(o.gathered)), gathered=b"")


def _send_if(ends: bool, o: Outgoing) -> Outgoing:
    return _send(o) if ends else o


def _end_line(drops: bool, o: Outgoing) -> Outgoing:
    gathered = o.gathered if o.gathered == b"" or drops else o.gathered + b"\n"
    return o._replace(gathered=gathered, owed=False, left=0)


# ---- ClientState.antt


class Reading(NamedTuple):
    """What the client is reading, with a quote, or with whether a statement ends with the comment of one line."""

    kind: str
    of: Union[int, bool, None] = None


OUTSIDE, AFTER_END = Reading("outside"), Reading("after_end")
OPENS_COMMENT, IN_COMMENT, CLOSES_COMMENT = Reading("opens_comment"), Reading("in_comment"), Reading("closes_comment")
STOPPED, AT_COMMAND = Reading("stopped"), Reading("at_command")


class State(NamedTuple):
    """The state of a client."""

    reading: Reading
    special: str
    fresh: bool
    drops: bool
    out: Outgoing


def _ends_here(text: bytes) -> bool:
    return text == b"" or text[0] == _NEWLINE or text[:2] == b"\r\n"


def _is_gap(text: bytes) -> bool:
    return text != b"" and _is_space(text[0]) and not _ends_here(text)


def _begins_in_ascii(text: bytes) -> bool:
    return all(b < 128 for b in text[:9])


def _begins_delimiter(client: str, text: bytes) -> bool:
    return _begins_word(b"delimiter", text) and (client == MARIADB or _begins_in_ascii(text))


def _is_mariadb_word(b: int, rest: bytes) -> bool:
    if b == _MARK:
        return _ends_word(rest)
    text = bytes([b]) + rest[:24]
    return any(_begins_whole_word(word, text) for word in _WORDS_OF_MARIADB)


def _is_own_word(client: str, b: int, rest: bytes) -> bool:
    return _begins_delimiter(client, bytes([b]) + rest[:8]) or (client == MARIADB and _is_mariadb_word(b, rest))


def _is_tag_byte(b: int) -> bool:
    return b == 95 or 48 <= b <= 57 or 65 <= b <= 90 or 97 <= b <= 122 or b >= 128


def _ends_tag(rest: bytes) -> bool:
    return rest.lstrip(bytes(filter(_is_tag_byte, range(256))))[:1] == b"$"


def _special_at(client: str, text: bytes) -> str:
    if text[:1] == b"!":
        return "executed"
    if text[:1] == b"+":
        return "none" if client == MARIADB else "hint"
    return "only_read" if text[:2] == b"M!" and client == MARIADB else "none"


def _begins_block(client: str, b: int, rest: bytes) -> bool:
    return b == _SLASH and rest[:1] == b"*" and _special_at(client, rest[1:3]) == "none"


def _begins_close(b: int, rest: bytes) -> bool:
    return b == _STAR and rest[:1] == b"/"


def _ends_dashes(client: str, nothing: bool, rest: bytes) -> bool:
    after = rest[1:3]
    return rest[:1] == b"-" and (_is_gap(after) or (nothing and (_ends_here(after) or client == MARIADB)))


def _begins_line_comment(client: str, nothing: bool, b: int, rest: bytes) -> bool:
    return b == _HASH or (b == _DASH and _ends_dashes(client, nothing, rest))


def _begins_empty_comment(b: int, rest: bytes) -> bool:
    return b == _DASH and rest[:1] == b"-" and _ends_here(rest[1:3])


def _escapes(client: str, mode: bool, quote: int) -> bool:
    return not mode and not (quote == _BACKQUOTE and client == MARIADB)


def _after_slash(rest: bytes) -> str:
    return "null" if rest[:1] == b"N" else "dropped" if _ends_here(rest[:2]) else "command"


def _begins_line_word(client: str, text: bytes) -> bool:
    return _begins_delimiter(client, text.lstrip(b" \t\n\v\f\r")[:9])


def _look_in(client: str, rest: bytes) -> str:
    return "at_star" if _special_at(client, rest[1:3]) == "none" else "in_special"


def _finds_word(client: str, look: str, text: bytes) -> bool:
    for at, b in enumerate(text):
        rest = text[at + 1 :]
        if look == "past":
            if _begins_delimiter(client, text[at : at + 9]):
                return True
            if not _is_space(b) and not (b == _BACKSLASH and _ends_here(rest[:2])):
                if b != _SLASH or rest[:1] != b"*":
                    return False
                look = _look_in(client, rest)
        elif look == "at_star":
            look = "in_plain"
        elif look == "at_slash":
            look = "past"
        elif look == "in_special" and b == _NEWLINE and _begins_line_word(client, rest):
            return True
        elif _begins_close(b, rest):
            look = "at_slash"
    return False


def _hides_command(client: str, b: int, rest: bytes) -> bool:
    return b == _SLASH and rest[:1] == b"*" and client == MYSQL and _finds_word(client, _look_in(client, rest), rest)


def _beginning(client: str, s: State, b: int, rest: bytes) -> str:
    if s.fresh and (_is_own_word(client, b, rest) or _hides_command(client, b, rest)):
        return "command"
    if b == _BACKSLASH:
        return _after_slash(rest)
    if s.special == "hint":
        return "other"
    if b == _SEMICOLON:
        return "end"
    if _begins_line_comment(client, s.out.gathered == b"" and s.fresh, b, rest):
        return "line_comment"
    if _begins_empty_comment(b, rest):
        return "empty_comment"
    if _begins_block(client, b, rest):
        return "block_comment"
    if b == _DOLLAR and client == MYSQL and _ends_tag(rest):
        return "command"
    return "quotes" if b in b"'\"`" else "other"


def _special_after(client: str, special: str, b: int, rest: bytes) -> str:
    if b == _SLASH and rest[:1] == b"*":
        found = _special_at(client, rest[1:3])
        return found if found in ("executed", "hint") else special
    return "none" if _begins_close(b, rest) else special


# ---- Sends.antt


def _begun(client: str, s: State, b: int, rest: bytes, what: str) -> State:
    if what == "command":
        return s._replace(reading=AT_COMMAND)
    if what == "null":
        return s._replace(fresh=False, out=_pass_with_next(b, s.out))
    if what == "dropped":
        return s
    if what == "end":
        return s._replace(reading=AFTER_END, fresh=True, drops=False)
    if what == "line_comment":
        ends = s.out.gathered == b""
        return s._replace(reading=Reading("in_line", ends), fresh=s.fresh and ends, drops=False, out=_pass_as_is(b, s.out))
    if what == "empty_comment":
        return s._replace(fresh=False, drops=False, out=_pass_with_next(b, s.out))
    if what == "block_comment":
        return s._replace(reading=OPENS_COMMENT, fresh=False, drops=False, out=_pass_with_next(b, s.out))
    if what == "quotes":
        return s._replace(reading=Reading("in_quotes", b), fresh=False, out=_pass_on(b, rest, s.out))
    special, fresh = _special_after(client, s.special, b, rest), s.fresh and _is_space(b)
    return s._replace(special=special, fresh=fresh, out=_pass_on(b, rest, s.out))


def _read_outside(client: str, s: State, b: int, rest: bytes) -> State:
    return _begun(client, s, b, rest, _beginning(client, s, b, rest))


def _follows_end(client: str, b: int, rest: bytes) -> bool:
    return b == _HASH or (b == _DASH and _ends_dashes(client, False, rest))


def _read_after_end(client: str, s: State, b: int, rest: bytes) -> State:
    if _is_space(b):
        return s._replace(out=_pass_as_is(b, s.out))
    if _follows_end(client, b, rest):
        return s._replace(reading=Reading("in_line", True), out=_pass_as_is(b, s.out))
    return _read_outside(client, s._replace(reading=OUTSIDE, out=_send(s.out)), b, rest)


def _read_backslash(quote: int, s: State, b: int, rest: bytes) -> State:
    if _ends_here(rest[:2]):
        return s
    if quote == _BACKQUOTE and rest[:1] == b"`":
        return s._replace(out=_pass_as_is(b, s.out))
    return s._replace(reading=Reading("after_backslash", quote), out=_pass_as_is(b, s.out))


def _read_in_quotes(client: str, mode: bool, quote: int, s: State, b: int, rest: bytes) -> State:
    if b == _BACKSLASH and _escapes(client, mode, quote):
        return _read_backslash(quote, s, b, rest)
    return s._replace(reading=OUTSIDE if b == quote else Reading("in_quotes", quote), out=_pass_as_is(b, s.out))


def _read_in_comment(client: str, s: State, b: int, rest: bytes) -> State:
    if _begins_block(client, b, rest) and s.special != "hint":
        return s._replace(reading=OPENS_COMMENT, out=_pass_with_next(b, s.out))
    if _begins_close(b, rest) and s.special == "none":
        return s._replace(reading=CLOSES_COMMENT, out=_pass_with_next(b, s.out))
    return s._replace(special=_special_after(client, s.special, b, rest), out=_pass_on(b, rest, s.out))


def _read_close(s: State, b: int, rest: bytes) -> State:
    return s._replace(reading=OUTSIDE, drops=False, out=_owe(_pass_on(b, rest, s.out)))


def _read(client: str, mode: bool, s: State, b: int, rest: bytes) -> State:
    kind, of = s.reading
    if kind == "outside":
        return _read_outside(client, s, b, rest)
    if kind == "after_end":
        return _read_after_end(client, s, b, rest)
    if kind == "in_quotes":
        return _read_in_quotes(client, mode, of, s, b, rest)
    if kind == "after_backslash":
        return s._replace(reading=Reading("in_quotes", of), out=_pass_as_is(b, s.out))
    if kind == "opens_comment":
        return s._replace(reading=IN_COMMENT, out=_pass_on(b, rest, s.out))
    if kind == "in_comment":
        return _read_in_comment(client, s, b, rest)
    if kind == "closes_comment":
        return _read_close(s, b, rest)
    if kind == "in_line":
        return s._replace(out=_pass_as_is(b, s.out))
    return s


def _holds_zero(text: bytes) -> bool:
    return _ZERO in text.partition(b"\n")[0]


def _goes_on(reading: Reading) -> bool:
    return reading not in (STOPPED, AT_COMMAND)


def _at_line(client: str, rest: bytes, s: State) -> State:
    if _holds_zero(rest):
        return s._replace(reading=STOPPED)
    return s._replace(special="none", drops=_begins_delimiter(client, rest[:9]))


def _line_ended(s: State) -> State:
    kind, of = s.reading
    if kind == "outside":
        return s._replace(out=_end_line(s.drops, s.out))
    if kind == "after_end":
        return s._replace(reading=OUTSIDE, out=_end_line(False, _send(s.out)))
    if kind == "in_line":
        return s._replace(reading=OUTSIDE, out=_end_line(False, _send_if(of, s.out)))
    return s._replace(out=_end_line(False, s.out))


def _next_line(client: str, rest: bytes, s: State) -> State:
    return _at_line(client, rest, _line_ended(s)) if _goes_on(s.reading) else s


def _is_return(b: int, rest: bytes) -> bool:
    return b == _RETURN and rest[:1] == b"\n"


def step(client: str, mode: bool, s: State, b: int, rest: bytes) -> State:
    """Return the state after a byte before this rest."""
    if _is_return(b, rest):
        return s
    return _next_line(client, rest, s) if b == _NEWLINE else _read(client, mode, s, b, rest)


def begin(client: str, text: bytes) -> State:
    """Return the state at the front of a text."""
    return _at_line(client, text, State(OUTSIDE, "none", True, False, Outgoing()))


def _sent_at_end(reading: Reading, o: Outgoing) -> list:
    if reading == STOPPED:
        return list(o.sent)
    return [*o.sent, COMMAND] if reading == AT_COMMAND else list(_send(o).sent)


def _without_mark(text: bytes) -> bytes:
    return text[3:] if text.startswith(b"\xef\xbb\xbf") else text


def sends(client: str, mode: bool, text: bytes) -> list:
    """Return the statements that the client sends of a text, with `COMMAND` at the end if it comes to one."""
    text = _without_mark(text)
    s = begin(client, text)
    for at, b in enumerate(text):
        s = step(client, mode, s, b, text[at + 1 :])
    return _sent_at_end(s.reading, s.out)
