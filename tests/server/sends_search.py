"""Whether the definition of what a client sends is the client: random texts of tricky pieces, through the client.

`sends.py` is the definition. Many texts go through one process: each is closed so that the next begins like a text of its
own. A text at which the definition stops, as at a command of the client, is the last; there the client sends more or less.

By itself, with the client on the path and no server: sends_search.py mysql|mariadb TEXTS SEED
"""

import os
import random
import shutil
import sys
import tempfile
import time

import sends
from harness import Tests, same
from recorder import MARIADB, MYSQL, OPTIONS, Client, Recorder

_TEXTS, _SEED = 100_000, 95
_AT_ONCE = 40
# One in so many of the texts at which the definition stops, or that a byte 0 cuts, is tried: each needs a process.
_OF_STOPPED = 60
_PIECES = [
    b"'", b'"', b"`", b"\\", b"\\N", b"\\\n", b"\\\r\n", b"''", b"\\'", b"\\`", b"/*", b"*/", b"/*!", b"/*+", b"/*M!", b"/**/", b"/*/",
    b"/*a*/", b"/*!99999 ", b"/*! 1 */", b"/*!50000 a\n*/", b"/*+ a(1) */", b"/*M! 1 */", b"/*M!100000 a\n*/",
    b"--", b"-- ", b"--\n", b"---", b"--\t", b"#", b"# a\n", b";", b";", b";\n", b"; ", b"\n", b"\n", b"\r\n", b"\r",
    b" ", b"\t", b"\v", b"\f", b"a", b"5", b"N", b"d", b"g", b"-", b"/", b"*", b"!", b"+", b"?", b":a", b"@", b".e", b"[",
    b"delimiter", b"\ndelimiter", b"\ndelimiter x\n", b"DELIMITER", b"d\xe9limiter", b"use x", b"use\n", b"quit\n", b"go", b"\ngo\n",
    b"system x\n", b"help", b"syst\xeam", b"\\g", b"\\C gbk", b"\\-", b"$$", b"$a$", b"$",
    "é".encode(), "€".encode(), "😀".encode(), b"\xff", b"\xe9", b"\x80", b"\xc3", b"\x00", b"\x01", b"\x7f", b"\xef\xbb\xbf",
    b"SELECT 1", b"SELECT 'a'", b"SELECT \"a\"", b"FROM `a`", b", ", b"(", b")", b"=",
]  # fmt: skip


def run(tests: Tests, folder: str, is_mysql: bool) -> None:
    """Try random texts with the client of this server, in both modes."""
    client = MYSQL if is_mysql else MARIADB
    tests.run(f"sends: {client.command}: random texts", _search, folder, client, _TEXTS, _SEED)


def _search(folder: str, client: Client, texts: int, seed: int) -> str:
    place = os.path.join(folder, "sends")
    os.mkdir(place)
    environment = {"PATH": "/nonexistent", "HOME": place}
    by_path = client._replace(command=shutil.which(client.command))
    name = sends.MYSQL if client is MYSQL else sends.MARIADB
    recorder = Recorder(place, by_path)
    maker, left, runs, statements, stops = random.Random(seed), texts, 0, 0, 0
    try:
        while left > 0:
            mode = maker.random() < 0.3
            text, count = _texts(name, mode, maker, min(left, _AT_ONCE))
            wanted = sends.sends(name, mode, text)
            got = recorder.sent(text, OPTIONS, mode, environment)
            if wanted[-1:] == [sends.COMMAND]:
                wanted, stops = wanted[:-1], stops + 1
                got = got[: len(wanted)]
            same(got, wanted, _shortest(name, mode, text, recorder, environment) if got != wanted else "")
            left, runs, statements = left - count, runs + 1, statements + len(wanted)
    finally:
        recorder.close()
        shutil.rmtree(place, ignore_errors=True)
    return f"{texts} texts, {statements} statements, {runs} processes, {stops} commands"


def _texts(name: str, mode: bool, maker: random.Random, most: int) -> tuple:
    """Return texts one after another, and how many they are."""
    made = b""
    for count in range(1, most + 1):
        while True:
            text = b"".join(maker.choice(_PIECES) for _ in range(maker.randint(1, 14)))
            closed = _closed(name, mode, text)
            if closed is not None or maker.randrange(_OF_STOPPED) == 0:
                break
        if closed is None:
            return made + text, count
        made += closed
    return made, most


def _closed(name: str, mode: bool, text: bytes):
    """Return the text with bytes behind it after which the definition reads as at the front of a text."""
    for _ in range(4):
        state = _state(name, mode, text)
        kind, of = state.reading
        if kind in ("stopped", "at_command"):
            return None
        if kind == "outside" and state.fresh and state.out.gathered == b"" and text.endswith(b"\n"):
            # At a special comment that stays open the definition looks for the word `delimiter` behind.
            after = _state(name, mode, text + b"*/\ndelimiter")
            return None if after.reading == sends.AT_COMMAND else text
        text += {"in_quotes": bytes([of or 0]), "after_backslash": bytes([of or 0]), "in_comment": b"*/"}.get(kind, b"\n;\n")
    return None


def _state(name: str, mode: bool, text: bytes) -> sends.State:
    s = sends.begin(name, text)
    for at, b in enumerate(text):
        s = sends.step(name, mode, s, b, text[at + 1 :])
    return s


def _shortest(name: str, mode: bool, text: bytes, recorder: Recorder, environment: dict) -> tuple:
    """Return a short text in which client and definition differ, and what each sends."""

    def differs(text: bytes) -> tuple:
        wanted = sends.sends(name, mode, text)
        got = recorder.sent(text, OPTIONS, mode, environment)
        if wanted[-1:] == [sends.COMMAND]:
            wanted = wanted[:-1]
            got = got[: len(wanted)]
        return (text, mode, got, wanted) if got != wanted else ()

    size = len(text) // 2
    while size:
        at = 0
        while at < len(text):
            if differs(text[:at] + text[at + size :]):
                text = text[:at] + text[at + size :]
            else:
                at += size
        size //= 2
    return differs(text)


if __name__ == "__main__":
    _tests = Tests()
    with tempfile.TemporaryDirectory() as _folder:
        _client = MYSQL if sys.argv[1] == "mysql" else MARIADB
        begin = time.monotonic()
        print(_search(_folder, _client, int(sys.argv[2]), int(sys.argv[3])), f"{time.monotonic() - begin:.0f} s")
