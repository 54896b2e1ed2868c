"""Runs all tests: check.py SOCKET MYSQL_QUERY MYSQL_BIND FOLDER, for `run`, which starts the server and builds the rest.

FOLDER is a temporary one of the caller's, with the folder `rows` where the reader of rows can be built, and the folder
`second` of a second server, which has a binary log and ignores the client's character set.
"""

import os
import sys

import again
import anew
import beside
import client
import drivers
import exported
import floats
import fragments
import guarded
import handed_over
import leaks
import limits
import literals
import meanings
import names
import others
import pipes
import program
import rewritten
import rows
import search
import sends_search
import sent
import shell_tool
import signs
import steady
import steady_fragments
from harness import Tests
from protocol import Connection


def main(path: str, mysql_query: str, mysql_bind: str, folder: str) -> int:
    """Run them, and print how many passed."""
    tests = Tests()
    connection = Connection(path)
    version = ("MySQL " if connection.is_mysql else "") + connection.query(b"SELECT VERSION()").rows()[0][0].decode()
    print("server:", version, flush=True)
    connection.query(b"CREATE DATABASE strings")
    is_mysql = connection.is_mysql
    connection.close()
    literals.run(tests, path)
    beside.run(tests, path)
    program.run(tests, path, mysql_query, folder)
    rows.run(tests, path, folder)
    drivers.run(tests, path)
    handed_over.run(tests, path, folder)
    fragments.run(tests, path)
    floats.run(tests, path)
    client.run(tests, path, folder)
    sent.run(tests, folder, is_mysql)
    sends_search.run(tests, folder, is_mysql)
    pipes.run(tests, folder, is_mysql)
    shell_tool.run(tests, path, os.path.abspath(mysql_bind), folder, is_mysql)
    exported.run(tests, path, os.path.abspath(mysql_bind), folder, is_mysql)
    leaks.run(tests, path)
    limits.run(tests, path, folder)
    meanings.run(tests, path)
    search.run(tests, path)
    signs.run(tests, path)
    steady.run(tests, path, folder)
    steady_fragments.run(tests, path)
    guarded.run(tests, path)
    again.run(tests, path, folder)
    rewritten.run(tests, path, folder)
    anew.run(tests, path, folder)
    names.run(tests, path, folder)
    # It ends the second server.
    others.run(tests, path, mysql_query, folder)
    print(f"{version}: {tests.passed} passed, {tests.failed} failed", flush=True)
    with open(os.path.join(folder, "counts"), "w", encoding="utf-8") as counts:
        counts.write(f"{tests.passed} {tests.failed}\n")
    return 1 if tests.failed else 0


if __name__ == "__main__":
    sys.exit(main(*sys.argv[1:5]))
