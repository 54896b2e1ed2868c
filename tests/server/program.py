"""Values through the program `mysql_query`: its output sent to the server, and piped to the client as README shows."""

import os
import shutil
import subprocess

import mysql_params
import strings
from client import OPTIONS
from harness import Tests, same
from literals import CHARSETS
from protocol import Connection

# The line of README, in a folder that has query.sql. The client's account and socket stand in ~/.my.cnf.
_PIPE = f"""
set -o pipefail
mysql_query bind id=i:42 name=s:"$NAME" < query.sql | mysql {" ".join(OPTIONS)} shop
"""

_NAMES = [
    "x' OR '1'='1", "", "'", "''", '"', "`", "\\", "\\'", "\\\\'", "'; DROP TABLE t; -- ", "\\' OR 1=1 -- ",
    "' OR 1=1 #",
    "*/", "/*", "/*! 1 */", "/*+ x */", "-- ", "--", "#", ";", "\\g", "\\G", "\\! touch pwned", "\\q", "DELIMITER //",
    "\ndelimiter //\n",
    "a\nb", "a\n-- b\nc", "\n", "\r\n", "\t", "\x01\x08\x0b\x1a\x7f", "$(touch pwned)", "`touch pwned`", "$HOME",
    "%s", "%d\\n", ":id", ":name",
    "?", "name=s:x", "=", "null", "i:1", "NULL", "0x41", "é", "\u00a0", "中文", "あ", "€' OR 1=1 -- ", "😀", "\u2028",
    "\ufeff", "\u202e",
    "é'\\😀\n", "'" * 5000, "\\" * 5001,
]


def run(tests: Tests, path: str, program: str, folder: str) -> None:
    """Run every test of the program."""
    values = [value for value in strings.one_byte() + strings.random_strings(10000, 20261123) if _is_word(value)]
    for charset in CHARSETS:
        connection = Connection(path, charset)
        tests.run(f"program: {charset}: strings", _strings, connection, program, values)
        tests.run(f"program: {charset}: whole numbers and NULL", _numbers, connection, program)
        connection.close()
    tests.run("program: words that it refuses", _refused, program)
    connection = Connection(path)
    shell = _shell(path, program, folder, "mysql" if connection.is_mysql else "mariadb")
    for locale in ("C", "C.UTF-8"):
        tests.run(f"pipe: hostile names are stored, LC_ALL={locale}", _stored, connection, shell, locale)
        tests.run(f"pipe: hostile names are found, LC_ALL={locale}", _found, connection, shell, locale)
    tests.run("pipe: with pipefail a refusal is a failure and nothing is run", _failure, connection, shell)
    tests.run("pipe: without pipefail a refusal is the status 0", _without_pipefail, shell)
    if not connection.is_mysql:
        tests.run("pipe: without the character set LC_ALL=C stores other letters", _without_charset, connection, shell)
    tests.run("pipe: a comment in which the client finds another end is a refusal, and no value is run", _closed, shell)
    connection.close()


def _is_word(value: bytes) -> bool:
    return b"\0" not in value and strings.is_utf8(value)


def _bound(program: str, words: list, query: bytes) -> bytes:
    """Return what the program writes for words and a query."""
    ran = subprocess.run([program, "bind", *words], input=query, capture_output=True)
    same((ran.returncode, ran.stderr), (0, b""), (words, query))
    return ran.stdout


def _strings(connection: Connection, program: str, values: list) -> str:
    for begin in range(0, len(values), 100):
        batch = values[begin : begin + 100]
        query = b"SELECT " + b",".join([b"HEX(?)"] * len(batch))
        row = connection.query(_bound(program, [b"=s:" + value for value in batch], query)).rows()[0]
        same(len(row), len(batch), query)
        for value, cell in zip(batch, row):
            same(cell, value.hex().upper().encode(), value)
    return f"{len(values)} strings"


def _numbers(connection: Connection, program: str) -> None:
    signed = [-(1 << 63), -(1 << 63) + 1, -(1 << 31), -1, 0, 1, (1 << 63) - 1]
    unsigned = [0, 1, (1 << 63) - 1, 1 << 63, (1 << 64) - 1]
    words = [f"=i:{number}" for number in signed] + [f"=u:{number}" for number in unsigned] + ["=null"]
    query = b"SELECT " + b",".join([b"?"] * len(words))
    row = connection.query(_bound(program, words, query)).rows()[0]
    same(row, [str(number).encode() for number in signed + unsigned] + [None], words)


def _refused(program: str) -> None:
    """A word that isn't UTF-8, and numbers beyond 64 bits, are refused with the status 2 and no output."""
    beyond = (b"=i:9223372036854775808", b"=i:-9223372036854775809", b"=u:18446744073709551616", b"=u:-1")
    for word in (b"=s:\xff", *beyond, b"x"):
        ran = subprocess.run([program, "bind", word], input=b"SELECT ?", capture_output=True)
        same((ran.returncode, ran.stdout), (2, b""), word)


def _shell(path: str, program: str, folder: str, client: str):
    """Return a function that runs a script of bash with a query, a name and a locale, in a folder of its own."""
    place = os.path.join(folder, "shell")
    os.makedirs(os.path.join(place, "bin"))
    os.symlink(os.path.abspath(program), os.path.join(place, "bin", "mysql_query"))
    os.symlink(shutil.which(client), os.path.join(place, "bin", "mysql"))
    with open(os.path.join(place, ".my.cnf"), "w", encoding="utf-8") as file:
        file.write(f"[client]\nuser=root\nsocket={path}\n")
    path_of_programs = f"{place}/bin:{os.environ['PATH']}"

    def run_script(script: str, query: str, name: str, locale: str):
        with open(os.path.join(place, "query.sql"), "w", encoding="utf-8") as file:
            file.write(query)
        environment = {"PATH": path_of_programs, "HOME": place, "NAME": name, "LC_ALL": locale}
        ran = subprocess.run(["bash", "-c", script], cwd=place, env=environment, capture_output=True)
        if os.path.exists(os.path.join(place, "pwned")):
            raise AssertionError(f"the name {name!r} ran a command")
        return ran

    return run_script


def _table(connection: Connection) -> None:
    connection.query(b"CREATE DATABASE IF NOT EXISTS shop")
    name = b"name VARCHAR(9000) CHARACTER SET utf8mb4 COLLATE utf8mb4_bin"
    connection.make_anew(b"TABLE", b"shop.t", b"(id INT, %s)" % name)


def _stored(connection: Connection, shell, locale: str) -> str:
    """The pipe inserts one row with exactly the name."""
    for name in _NAMES:
        _table(connection)
        ran = shell(_PIPE, "INSERT INTO t VALUES (:id, :name)", name, locale)
        same((ran.returncode, ran.stderr), (0, b""), name)
        rows = connection.query(b"SELECT id, HEX(name) FROM shop.t").rows()
        same(rows, [[b"42", name.encode().hex().upper().encode()]], name)
    return f"{len(_NAMES)} names"


def _found(connection: Connection, shell, locale: str) -> str:
    """README's query finds the row of the name, and no other."""
    _table(connection)
    for number, name in enumerate(_NAMES):
        row = b"INSERT INTO shop.t VALUES (42, UNHEX('%s'))" % name.encode().hex().encode()
        connection.query(row)
    for name in _NAMES:
        query = "SELECT HEX(name) FROM t WHERE id = :id AND name = :name AND LENGTH(name) = LENGTH(:name)"
        ran = shell(_PIPE, query, name, locale)
        same((ran.returncode, ran.stderr), (0, b""), name)
        same(ran.stdout.split(b"\n")[1:], [name.encode().hex().upper().encode(), b""], name)
    return f"{len(_NAMES)} names"


def _failure(connection: Connection, shell) -> None:
    for values in (":id, :nam", ":id, ?", "1:id, :name"):
        query = f"INSERT INTO t VALUES ({values})"
        _table(connection)
        ran = shell(_PIPE, query, "x", "C.UTF-8")
        same((ran.returncode, ran.stdout), (1, b""), query)
        same(len(ran.stderr.splitlines()), 1, ran.stderr)
        same(connection.query(b"SELECT * FROM shop.t").rows(), [], query)


def _without_pipefail(shell) -> None:
    ran = shell(_PIPE.replace("set -o pipefail", ""), "SELECT :id, :nam", "x", "C.UTF-8")
    same((ran.returncode, ran.stdout), (0, b""), ran.stderr)


def _without_charset(connection: Connection, shell) -> None:
    """The limit that README names: MariaDB's client has latin1 there, so each byte of a letter is a letter."""
    _table(connection)
    ran = shell(_PIPE.replace(" --default-character-set=utf8mb4", ""), "INSERT INTO t VALUES (:id, :name)", "é", "C")
    same((ran.returncode, ran.stderr), (0, b""), "é")
    rows = connection.query(b"SELECT HEX(name) FROM shop.t").rows()
    same(rows, [["Ã©".encode().hex().upper().encode()]], "é")


def _closed(shell) -> None:
    """The limit that README names: the client ends the statement within the value, and stops at the refusal."""
    query = "SELECT 1 /*//*/, :name"
    same(mysql_params.first_unportable(query), None, query)
    name = "*/ ; SELECT CURRENT_USER(); -- "
    ran = shell(_PIPE, query, name, "C.UTF-8")
    same((ran.returncode, ran.stdout, b"1064" in ran.stderr), (1, b"", True), query)
    for pipe in (_PIPE.replace("--comments", "--skip-comments"), _PIPE.replace("--skip-force", "--force")):
        ran = shell(pipe, query, name, "C.UTF-8")
        same(b"root@localhost" in ran.stdout, True, pipe)
