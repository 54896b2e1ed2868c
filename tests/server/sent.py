"""Where a command-line client sends another text than it is given, whatever the values: what it sends.

Each case is a query, with the statements that reach a server of these tests: with README's options, which keep comments,
and with comments dropped. docs/RULES.md lists the kinds that `first_unportable_in_client` finds, and docs/LIMITS.md those
that it doesn't.
"""

from typing import NamedTuple, Optional

import mysql_params
from client import OPTIONS
from harness import Tests, same
from recorder import MARIADB, MYSQL, Client, Recorder

_DROPS = ("--skip-comments", *OPTIONS[1:])
_DELIMITER = b"SELECT '\ndelimiter' -- '\n', ', CURRENT_USER() -- '"


class Case(NamedTuple):
    """A query, the values of its names, and the statements sent if comments are kept and if they are dropped.

    `mysql` has those of MySQL's client, where they are others than MariaDB's. `found`: the call finds a construct.
    """

    name: str
    query: bytes
    values: Optional[dict]
    kept: list
    dropped: list
    mysql: Optional[tuple] = None
    mode: bool = False
    found: bool = True


_CASES = [
    *[
        Case(f"the byte {byte} at the end of a statement", b"SELECT 1 AS `c`%c; SELECT 2" % byte, None,
             [b"SELECT 1 AS `c`", b"SELECT 2"], [b"SELECT 1 AS `c`", b"SELECT 2"], found=False)
        for byte in (1, 8, 11, 127, 255)
    ],
    *[
        Case(f"the byte {byte} before a comment at the end", b"SELECT 1 AS `c`%c/* x */" % byte, None,
             [b"SELECT 1 AS `c`%c/* x */" % byte], [b"SELECT 1 AS `c`"], found=False)
        for byte in (1, 255)
    ],
    Case("the byte 255 before a comment that isn't at the end", b"SELECT 1 AS `c`\xff/* x */, 2", None,
         [b"SELECT 1 AS `c`\xff/* x */ , 2"], [b"SELECT 1 AS `c`\xff , 2"], found=False),
    Case("the byte 128 at the end of a statement", b"SELECT 1 AS `c`\x80", None,
         [b"SELECT 1 AS `c`\x80"], [b"SELECT 1 AS `c`\x80"], found=False),
    Case("a byte 0 in a later line", b"SELECT :a;\nSELECT HEX('a\0b')", {"a": 1}, [b"SELECT 1"], [b"SELECT 1"]),
    Case("a byte 0 in a later statement of the line", b"SELECT :a; SELECT HEX('a\0b')", {"a": 1}, [], []),
    Case("a UTF-8 mark", b"\xef\xbb\xbfSELECT :a", {"a": 1}, [b"SELECT 1"], [b"SELECT 1"], found=False),
    Case("a comment after 1.e;", b"SELECT 1.e;-- 2\n", None, [b"SELECT 1.e-- 2"], [b"SELECT 1.e"], found=False),
    *[
        Case(f"-- at the end, and a comment {comment!r} behind it", b"SELECT 5 --;" + comment + b"\n", None,
             [(b"SELECT 5 --" + comment).rstrip()], [b"SELECT 5 --"], found=False)
        for comment in (b"-- ", b"-- x", b"#x")
    ],
    Case("a dash and a negative number", b"SELECT 1;\n-:a\n; SELECT 2", {"a": -5},
         [b"SELECT 1", b"--5", b"SELECT 2"], [b"SELECT 1", b"SELECT 2"], ([b"SELECT 1", b"--5", b"SELECT 2"],) * 2),
    Case("a hint after a comment", "SELECT 1 AS/**/é/*+ x */, :a".encode(), {"a": 2},
         ["SELECT 1 AS/**/é/* + x */ , 2".encode()], ["SELECT 1 ASé , 2".encode()],
         (["SELECT 1 AS/**/é /*+ x */, 2".encode()], ["SELECT 1 ASé /*+ x */, 2".encode()])),
    Case("a hint directly after a comment", b"SELECT /**//*+ x */ :a", {"a": 2},
         [b"SELECT /**//* + x */ 2"], [b"SELECT  2"],
         ([b"SELECT /**/ /*+ x */ 2"], [b"SELECT  /*+ x */ 2"]), found=False),
    Case("a comment of MariaDB's after a comment", "SELECT 1 AS/**/é/*M! , 2 */, :a".encode(), {"a": 3},
         ["SELECT 1 AS/**/é /*M! , 2 */, 3".encode()], ["SELECT 1 ASé /*M! , 2 */, 3".encode()],
         (["SELECT 1 AS/**/é/* M! , 2 */ , 3".encode()], ["SELECT 1 ASé , 3".encode()])),
    Case("a line `delimiter` in a value, without escapes", b"SELECT :a -\n- '\n', :b",
         {"a": "\ndelimiter", "b": ", CURRENT_USER() -- "}, [_DELIMITER], [_DELIMITER], mode=True, found=False),
]  # fmt: skip


def run(tests: Tests, folder: str, is_mysql: bool) -> None:
    """Pipe every case through the client of this server."""
    client = MYSQL if is_mysql else MARIADB
    for case in _CASES:
        tests.run(f"sent: {client.command}: {case.name}", _sent, folder, client, case)


def _sent(folder: str, client: Client, case: Case) -> None:
    found = mysql_params.first_unportable_in_client(case.query, case.mode)
    same(found is not None, case.found, case.query)
    text = mysql_params.bind(case.query, case.values, case.mode)
    lists = case.mysql if client is MYSQL and case.mysql else (case.kept, case.dropped)
    recorder = Recorder(folder, client)
    try:
        for options, wanted in zip((OPTIONS, _DROPS), lists):
            same(recorder.sent(text, options, case.mode), wanted, (text, options[0]))
    finally:
        recorder.close()
