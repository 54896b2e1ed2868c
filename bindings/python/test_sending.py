"""Tests of texts sent by drivers, over a server and a driver that are played here. tests/server has real ones."""

import datetime
import pickle
import re
import sys
import unittest
import unittest.mock
import weakref

import mysql_params
from mysql_params import Construct, ask_again, exec_driver_sql, execute
from test_mysql_params import Result

STRICT = "STRICT_TRANS_TABLES"
NONE = "STRICT_TRANS_TABLES,NO_BACKSLASH_ESCAPES"
HOSTILE = "\\' , 7 -- %s %"
WITH_BACKSLASHES = b"SELECT '\\\\'' , 7 -- %s %'"
WITHOUT = b"SELECT _utf8mb4 0x5C27202C2037202D2D2025732025"


class Connection:
    """A connection of no driver that is known, to a session that is played."""

    def __init__(self, sql_mode=STRICT, client="utf8mb4", own="utf8mb4", packet=1 << 20, as_row=tuple):
        self.session = {"sql_mode": sql_mode, "client": client, "own": own, "packet": packet}
        self.as_row = as_row
        self.asked = 0
        self.sent = []
        self.changes = []
        self.server_status = 512 if "NO_BACKSLASH_ESCAPES" in sql_mode else 2
        self.charset = client
        self.encoding = "utf8"
        self.thread = 1
        self._sock = object()

    def cursor(self):
        return Cursor(self)

    def thread_id(self):
        return self.thread

    def set_mode(self, sql_mode, told=True):
        """Change the mode of the session, with a word of the server to the driver or without."""
        self.session["sql_mode"] = sql_mode
        if told:
            self.server_status = 512 if "NO_BACKSLASH_ESCAPES" in sql_mode else 2


class PyMySQL(Connection):
    """A connection as of PyMySQL, whose types say where they are from."""

    _result = None


PyMySQL.__module__ = "pymysql.connections"


class MySQLdb(Connection):
    """A connection as of mysqlclient."""

    unread = ()

    def next_result(self):
        """Have the session change as each further answer tells: what it does to the connection."""
        if not self.unread:
            return -1
        self.unread, (change, *_) = self.unread[1:], self.unread
        change(self)
        return 0

    def store_result(self):
        return None

    def escape_string(self, text):
        return text if self.server_status & 512 else text * 2

    def character_set_name(self):
        return self.charset


MySQLdb.__module__ = "MySQLdb.connections"


class Connector(Connection):
    """A connection as of MySQL Connector, whose cursors have a weak reference to it."""

    python_charset = "utf8"

    def cursor(self):
        return Cursor(weakref.proxy(self))


Connector.__module__ = "mysql.connector.connection"


class Cursor:
    """A cursor: it takes bytes alone, and no parameters."""

    def __init__(self, connection):
        self.connection = connection
        self.rows = []
        self.rowcount = -1

    def execute(self, text, *parameters):
        assert parameters == ()
        connection = self.connection
        if "@@sql_mode" in str(text):
            connection.asked += 1
            session = connection.session
            self.rows = [connection.as_row(session.values())]
            return 1
        connection.sent.append(text)
        if connection.changes:
            connection.changes.pop(0)(connection)
        self.rowcount = 3
        return 3

    def fetchone(self):
        return self.rows.pop(0) if self.rows else None

    def close(self):
        self.connection = None


class MySQLCursorPrepared(Cursor):
    """A cursor that prepares."""


class Own(MySQLCursorPrepared):
    """A cursor of the caller's, which prepares too."""


class CursorUseResultMixIn:
    """What mysqlclient's unbuffered cursors are of."""


class Unbuffered(CursorUseResultMixIn, Cursor):
    """An unbuffered cursor of mysqlclient."""

    _executed = None
    fetched = 0

    def execute(self, text):
        self._executed = text
        return super().execute(text)

    def fetchall(self):
        self.fetched += 1
        return ()


class Unread:
    """An answer of PyMySQL's, and whether more of it, or after it, is to be read."""

    def __init__(self, has_next=False, unbuffered_active=False):
        self.has_next, self.unbuffered_active = has_next, unbuffered_active


class Pooled:
    """SQLAlchemy's connection of its pool, and its own."""

    def __init__(self, own):
        self.dbapi_connection = own
        self.connection = self
        self.calls = []

    def exec_driver_sql(self, *arguments, **options):
        self.calls.append((arguments, options))
        return "result"


def outside(text, escapes, gbk=False):
    """Return what a server in a mode reads outside of a text's strings, of which each is a quote; None if one has no end.

    To gbk a byte from 0x81 on is one letter with the byte after it, if that is from 0x40 on.
    """
    kept, at, is_open = bytearray(), 0, False
    while at < len(text):
        is_wide = gbk and text[at] >= 0x81 and text[at + 1 : at + 2] >= b"\x40"
        letter = text[at : at + 1 + is_wide]
        at += len(letter)
        if is_open and (letter == b"\\" and escapes or letter == b"'" == text[at : at + 1]):
            at += 1
        elif letter == b"'":
            is_open = not is_open
            kept += b"'" * is_open
        elif not is_open:
            kept += letter
    return None if is_open else bytes(kept)


def dictionary(values):
    return dict(zip("mcnp", values))


def texts(values):
    return tuple(str(value).encode() for value in values)


class Test(unittest.TestCase):
    """All tests."""

    def send(self, connection, query="SELECT :a", params=None, **options):
        """Send, and return the text that the driver got."""
        returned = execute(connection.cursor(), query, {"a": HOSTILE} if params is None else params, **options)
        self.assertEqual(returned, 3)
        return connection.sent[-1]

    def test_asked_once(self):
        for kind in (PyMySQL, MySQLdb):
            connection = kind()
            for _ in range(3):
                self.assertEqual(self.send(connection), WITH_BACKSLASHES)
            self.assertEqual(connection.asked, 1)
            self.send(connection, always_ask=True)
            self.assertEqual(connection.asked, 2)
            ask_again(connection)
            self.send(connection)
            self.assertEqual(connection.asked, 3)

    def test_other_drivers_are_asked_each_time(self):
        connection = Connection()
        self.send(connection)
        connection.set_mode(NONE, told=False)
        self.assertEqual(self.send(connection), WITHOUT)
        self.assertEqual(connection.asked, 2)

    def test_another_mode_is_seen(self):
        for kind in (PyMySQL, MySQLdb):
            connection = kind()
            modes = ((STRICT, WITH_BACKSLASHES), (NONE, WITHOUT), ("", WITH_BACKSLASHES), (NONE.lower(), WITHOUT))
            for sql_mode, wanted in modes:
                connection.set_mode(sql_mode)
                connection.server_status = 512 if wanted is WITHOUT else 2
                for _ in range(2):
                    self.assertEqual(self.send(connection), wanted)
            self.assertEqual(connection.asked, 4)

    def test_a_driver_with_another_idea_of_the_mode(self):
        # As after MariaDB's SET STATEMENT: the driver was told of a mode that held for one statement.
        for kind in (PyMySQL, MySQLdb):
            connection = kind(NONE)
            connection.server_status = 2
            self.assertEqual(self.send(connection), WITHOUT)
            connection.set_mode(STRICT, told=False)
            self.assertEqual(self.send(connection), WITH_BACKSLASHES)
            connection.set_mode(NONE, told=False)
            self.assertEqual(self.send(connection), WITHOUT)
            self.assertEqual(connection.asked, 3)

    def test_a_connection_that_is_made_anew(self):
        for kind, change in (
            (PyMySQL, lambda connection: setattr(connection, "_sock", object())),
            (PyMySQL, lambda connection: setattr(connection, "thread", 2)),
            (PyMySQL, lambda connection: setattr(connection, "charset", "latin1")),
            (MySQLdb, lambda connection: setattr(connection, "thread", 2)),
            (MySQLdb, lambda connection: setattr(connection, "charset", "latin1")),
        ):
            connection = kind()
            self.send(connection)
            change(connection)
            self.send(connection)
            self.assertEqual(connection.asked, 2)

    def test_answers_that_the_driver_has_not_read(self):
        for unread in (Unread(has_next=True), Unread(unbuffered_active=True)):
            connection = PyMySQL()
            self.send(connection)
            connection._result = unread
            connection.set_mode(NONE, told=False)
            self.assertEqual(self.send(connection), WITHOUT)
            connection._result, connection.server_status = Unread(), 512
            for _ in range(2):
                self.assertEqual(self.send(connection), WITHOUT)
            self.assertEqual(connection.asked, 3)
        connection = MySQLdb()
        self.send(connection)
        connection.unread = [lambda own: None, lambda own: own.set_mode(NONE)]
        for _ in range(2):
            self.assertEqual(self.send(connection), WITHOUT)
        self.assertEqual((connection.unread, connection.asked), ([], 2))
        # No mode is told, and still something was sent of which nothing is known.
        connection.unread = [lambda own: own.session.update(client="gbk")]
        with self.assertRaises(mysql_params.SessionError):
            self.send(connection)

    def test_a_driver_that_shows_less(self):
        for kind, lacks in ((PyMySQL, "_sock"), (PyMySQL, "server_status"), (PyMySQL, "charset"), (MySQLdb, "thread")):
            connection = kind()
            delattr(connection, lacks)
            for sql_mode, wanted in ((STRICT, WITH_BACKSLASHES), (NONE, WITHOUT)):
                connection.session["sql_mode"] = sql_mode
                self.assertEqual(self.send(connection), wanted)
            self.assertEqual(connection.asked, 2)

    def test_queries_that_leave_the_session(self):
        for query in (
            "SELECT ?",
            " \n\t select ?",
            "INSERT INTO t VALUES (?)",
            "UPDATE t SET a = ?",
            "delete FROM t WHERE a = ?",
            "REPLACE INTO t VALUES (?) ; \n",
        ):
            for kind in (PyMySQL, MySQLdb):
                connection = kind()
                for _ in range(3):
                    self.send(connection, query, [1])
                self.assertEqual(connection.asked, 1, query)

    def test_queries_that_may_change_the_session(self):
        for query in (
            "SET sql_mode = ?",
            "SET NAMES utf8mb4 COLLATE ?",
            "SET STATEMENT max_statement_time = 1 FOR SELECT ?",
            "CALL p(?)",
            "EXECUTE IMMEDIATE ?",
            "SELECT ?; SET NAMES gbk",
            "SELECT ';', ?",
            "-- SELECT\nSET @a = ?",
            "SELECTS ?",
            "WITH a AS (SELECT ?) SELECT * FROM a",
        ):
            for kind in (PyMySQL, MySQLdb):
                connection = kind()
                with self.subTest(query=query, kind=kind.__name__):
                    for number in range(3):
                        self.send(connection, query, [1])
                        self.assertEqual(connection.asked, number + 1)
                    exec_driver_sql(Pooled(connection), query, [1])
                    self.send(connection)
                    self.assertEqual(connection.asked, 5)
                    self.send(connection)
                    self.assertEqual(connection.asked, 5)

    def test_a_query_that_fails_may_have_changed_the_session(self):
        connection = PyMySQL()
        cursor = connection.cursor()
        self.send(connection)
        for call, rows in ((execute, [1]), (mysql_params.executemany, [[1], [2]]), (mysql_params.execute_rows, [[1]])):
            query = "VALUES (?); SET NAMES gbk; SELECT none"
            with unittest.mock.patch.object(Cursor, "execute", side_effect=OSError), self.assertRaises(OSError):
                call(cursor, query, rows)
            asked = connection.asked
            self.send(connection)
            self.assertEqual(connection.asked, asked + 1)

    def test_a_text_that_changes_the_session_for_those_after_it(self):
        for call, query in ((mysql_params.executemany, "SET @a = ?"), (mysql_params.execute_rows, "CREATE TABLE t VALUES ?")):
            for change, variable in (
                (lambda own: own.set_mode(NONE), "sql_mode"),
                (lambda own: own.session.update(client="gbk"), "character_set_client"),
            ):
                connection = PyMySQL(packet=60)
                connection.changes = [change]
                with self.subTest(call=call.__name__, variable=variable):
                    with self.assertRaises(mysql_params.SessionError) as raised:
                        call(connection.cursor(), query, [["a" * 20], ["' , 7 -- "]])
                    self.assertEqual(raised.exception.variable, variable)
                    self.assertEqual(len(connection.sent), 1)
        connection = PyMySQL()
        self.assertEqual(mysql_params.executemany(connection.cursor(), "SET @a = ?", [[1], [2], [3]]), 9)
        self.assertEqual((len(connection.sent), connection.asked), (3, 3))
        connection = PyMySQL()
        mysql_params.executemany(connection.cursor(), "UPDATE t SET a = ?", [[1], [2], [3]])
        self.assertEqual((len(connection.sent), connection.asked), (3, 1))

    def test_rows_that_an_unbuffered_cursor_has_not_read(self):
        cursor = Unbuffered(MySQLdb())
        self.assertEqual(execute(cursor, "SELECT 1"), 3)
        self.assertEqual(cursor.fetched, 0)
        self.assertEqual(execute(cursor, "SELECT 1"), 3)
        self.assertEqual(cursor.fetched, 1)

    def test_character_sets(self):
        for own in ({"client": "latin1"}, {"own": "latin1"}, {"client": "gbk"}, {"client": "utf8mb3"}):
            connection = PyMySQL(**own)
            with self.subTest(own=own), self.assertRaises(mysql_params.SessionError) as raised:
                self.send(connection)
            variable = "character_set_client" if "client" in own else "character_set_connection"
            self.assertEqual((raised.exception.variable, raised.exception.value), (variable, *own.values()))
            self.assertIn("has to be utf8mb4", str(raised.exception))
            self.assertEqual(connection.sent, [])
            with self.assertRaises(mysql_params.SessionError):
                self.send(connection)

    def test_rows_of_each_kind(self):
        for as_row in (tuple, list, dictionary, texts):
            self.assertEqual(self.send(PyMySQL(NONE, as_row=as_row)), WITHOUT)

    def test_unportable_queries(self):
        for kind in (Connection, PyMySQL):
            connection = kind()
            with self.assertRaises(mysql_params.UnportableError) as raised:
                self.send(connection, "SELECT /*! :a */ 1")
            self.assertEqual(raised.exception.args, (7, Construct.EXECUTABLE_COMMENT))
            self.assertTrue(str(raised.exception).startswith("Not portable at byte 7 of the query: `/*!` is executed"))
            self.assertEqual(connection.sent, [])
        # A query that is ASCII without a backslash, and others, sent more often than one without a template is walked.
        for front in ("SELECT ", "SELECT '\u00e9', ", "SELECT '\\\\', ", "SELECT " + "x, " * 2000):
            for behind in ("[:a", ":A, [1]"):
                query = front + behind
                position = query.encode().index(b"[")
                for call in (
                    lambda own: execute(own.cursor(), query, {"a": HOSTILE, "A": [1]}),
                    lambda own: exec_driver_sql(Pooled(own), query, {"a": 1, "A": HOSTILE}),
                    lambda own: execute(own.cursor(), query, {"b": 1}),
                    lambda own: mysql_params.executemany(own.cursor(), query, [{"a": 1, "A": 2}, {}]),
                    lambda own: mysql_params.executemany(own.cursor(), query, [{"a": {1}}]),
                    lambda own: mysql_params.executemany(own.cursor(), query, []),
                    lambda own: mysql_params.execute_rows(own.cursor(), query, [(1, 2)]),
                    lambda own: mysql_params.execute_rows(own.cursor(), query, []),
                ) * 2:
                    for sql_mode in (STRICT, NONE):
                        connection = PyMySQL(sql_mode)
                        with self.subTest(query=query[-40:], sql_mode=sql_mode):
                            with self.assertRaises(mysql_params.UnportableError) as raised:
                                call(connection)
                            self.assertEqual(raised.exception.args, (position, Construct.BRACKET))
                            self.assertIsNone(raised.exception.row)
                            self.assertEqual(connection.sent, [])
        for _ in range(4):
            with self.assertRaises(mysql_params.UnportableError) as raised:
                self.send(PyMySQL(), "SELECT [:a", steady=True)
            self.assertEqual(raised.exception.args, (7, Construct.BRACKET))
        # Which it is depends on the mode.
        query = "SELECT 'a\\', [1], '"
        self.assertEqual(self.send(PyMySQL(), query, []), query.encode())
        with self.assertRaises(mysql_params.UnportableError):
            self.send(PyMySQL(NONE), query, [])

    def test_long_texts(self):
        for length, most in ((20, 20), (20, 19)):
            connection = PyMySQL(packet=most + 4)
            text = "SELECT '" + "x" * (length - 9) + "'"
            if length <= most:
                self.assertEqual(len(self.send(connection, text, [])), length)
                continue
            with self.assertRaises(mysql_params.PacketError) as raised:
                self.send(connection, text, [])
            message = "The text has 20 bytes, and the connection's max_allowed_packet lets 19 through"
            self.assertEqual(str(raised.exception), message)
            self.assertEqual(connection.sent, [])

    def test_texts_that_a_driver_would_cut(self):
        for value, position in (("a DELIMiter\t", 10), ("'delimiter x", 10), ("delimiter\n", 8), ("delimiter", None), ("limiter ;", None)):
            for kind in (Connector, PyMySQL, MySQLdb, Connection):
                connection = kind()
                if kind is not Connector or position is None:
                    self.send(connection, "SELECT :a", {"a": value})
                    continue
                with self.assertRaises(mysql_params.DelimiterError) as raised:
                    self.send(connection, "SELECT :a", {"a": value})
                self.assertEqual((raised.exception.position, connection.sent), (position, []))
        # In a plain text with backslash escapes a newline is one. A query is refused for its own text too.
        sent = self.send(Connector(), "SELECT :a, '\u00e9'", {"a": "delimiter\n"})
        self.assertEqual(sent, "SELECT 'delimiter\\n', '\u00e9'".encode())
        for query, params in (("SELECT :a, '\u00e9'", {"a": "delimiter\n"}), ("SELECT delimiter\r", {})):
            with self.assertRaises(mysql_params.DelimiterError):
                self.send(Connector(NONE), query, params)
        message = "The text has `delimiter` and white space at byte 7, where MySQL Connector would cut it, in a value too: "
        self.assertEqual(str(mysql_params.DelimiterError(7)), message + "take another driver")

    def test_what_is_refused_before_the_connection_is_asked(self):
        connection = PyMySQL()
        with self.assertRaises(TypeError):
            self.send(connection, params={"a": {1}})
        self.assertEqual(connection.asked, 0)
        with self.assertRaises(mysql_params.MissingError):
            self.send(connection, params={"b": 1})
        self.assertEqual(connection.sent, [])

    def test_call_of_readme(self):
        connection = PyMySQL()
        cursor = connection.cursor()
        mysql_params.execute(cursor, "SELECT :id", {"id": 42})
        self.assertEqual(connection.sent[-1], b"SELECT 42")

    def test_fragments(self):
        sent = self.send(PyMySQL(), "SELECT ? IN (?)", [mysql_params.Identifier("a"), [1, 2]])
        self.assertEqual(sent, b"SELECT `a` IN (1, 2)")
        given = {"set": mysql_params.Assignments({"a": HOSTILE}), "columns": [mysql_params.Identifier("b")]}
        sent = self.send(PyMySQL(), "UPDATE t SET :set ORDER BY :columns", given)
        self.assertEqual(sent, WITH_BACKSLASHES.replace(b"SELECT", b"UPDATE t SET `a` =") + b" ORDER BY `b`")
        self.assertEqual(self.send(PyMySQL(), "SELECT :a", {"a": 0.1}), b"SELECT 0.1e0")
        with self.assertRaises(mysql_params.FloatError):
            self.send(PyMySQL(), "SELECT :a", {"a": float("inf")})

    def test_guarded_literals(self):
        # Each value with its literal in a mode with backslash escapes, and in one without if that is another.
        for value, escaped, bare in (
            ("it's", "'it''s'", None),
            ("", "''", None),
            ("\u00e9", "'\u00e9'", None),
            ("\0\n\r\x1a\"`", "'\0\n\r\x1a\"`'", None),
            ("\\", "'\\\\'", "_utf8mb4 0x5C"),
            ("\\'", "'\\\\'''", "_utf8mb4 0x5C27"),
            ("\u00e9\\", "'\u00e9' '\\\\'", "_utf8mb4 0xC3A95C"),
            ("\u00e9\\'\\\\", "'\u00e9' '\\\\''\\\\\\\\'", "_utf8mb4 0xC3A95C275C5C"),
            (b"\xff\\'", "0xFF5C27", None),
            (b"a\\", "'a\\\\'", "_utf8mb4 0x615C"),
            (None, "NULL", None),
            (-7, "-7", None),
            (0.5, "0.5e0", None),
            (datetime.date(2019, 11, 27), "'2019-11-27'", None),
            (mysql_params.In(["it's", "\\"]), "'it''s', '\\\\'", "'it''s', _utf8mb4 0x5C"),
            (mysql_params.Assignments({"a": "\\'"}), "`a` = '\\\\'''", "`a` = _utf8mb4 0x5C27"),
        ):
            for sql_mode, literal in ((STRICT, escaped), (NONE, escaped if bare is None else bare)):
                with self.subTest(value=value, sql_mode=sql_mode):
                    self.assertEqual(self.send(PyMySQL(sql_mode), params={"a": value}), f"SELECT {literal}".encode())
                    self.assertEqual(self.send(PyMySQL(sql_mode), "SELECT ?", [value]), f"SELECT {literal}".encode())
        self.assertEqual(self.send(PyMySQL(), "SELECT 1 IN (:a)", {"a": ["it's", 2]}), b"SELECT 1 IN ('it''s', 2)")
        # Of a query that is so long no template is kept.
        columns = "a, " * 2000
        self.assertEqual(self.send(PyMySQL(), f"SELECT {columns}:a", {"a": "it's"}), f"SELECT {columns}'it''s'".encode())

    def test_a_mode_and_a_set_that_were_not_told(self):
        # The session that reads the text has another mode or set than the connection told.
        values = (HOSTILE, "' , 7 -- ", "\\", "\u00e9\\' , 7 -- ", "\u8aa0' , 7 -- ", "\u8aa0\\", b"\xbf' , 7", "\\\\' '\\\\\\' , 7 -- ")
        for sql_mode in (STRICT, NONE):
            for value in values:
                sent = self.send(PyMySQL(sql_mode), "SELECT :a, 'kept', :b", {"a": value, "b": value})
                for escapes in (True, False):
                    for gbk in (True, False):
                        with self.subTest(sql_mode=sql_mode, value=value, escapes=escapes, gbk=gbk):
                            read = outside(sent, escapes, gbk)
                            # Strings with white space between them are one, and digits stand for one too.
                            read = re.sub(rb"' '|(?:_utf8mb4 )?0x[0-9A-F]+", b"'", read)
                            self.assertEqual(read, b"SELECT ', ', '")
        # Of a plain text a value leaves its literal.
        plain = self.send(PyMySQL(), "SELECT :a, '\u00e9'", {"a": "' , 7 -- "})
        self.assertEqual([outside(plain, escapes) for escapes in (True, False)], [b"SELECT ', '", None])
        plain = self.send(PyMySQL(), "SELECT :a, '\u00e9'", {"a": "\u8aa0' , 7 -- '"})
        self.assertIn(b" , 7 -- ", outside(plain, True, gbk=True))

    def test_queries_and_names_that_are_not_steady(self):
        name = mysql_params.Identifier("\u00e9")
        for query, params, wanted in (
            ("SELECT :a /* \u00e9 */", {}, "SELECT {} /* \u00e9 */"),
            ("SELECT :a, '\\\\'", {}, "SELECT {}, '\\\\'"),
            ("SELECT :n = :a", {"n": name}, "SELECT `\u00e9` = {}"),
            ("SELECT :n = :a", {"n": mysql_params.Identifier("a\\b", "c")}, "SELECT `a\\b`.`c` = {}"),
            ("SET :n, b = :a", {"n": mysql_params.Assignments({name: "x"})}, "SET `\u00e9` = 'x', b = {}"),
            ("SELECT " + "a, " * 2000 + ":a, :n", {"n": name}, "SELECT " + "a, " * 2000 + "{}, `\u00e9`"),
            ("SELECT " + "\u00e9, " * 2000 + ":a", {}, "SELECT " + "\u00e9, " * 2000 + "{}"),
        ):
            for sql_mode, literal in ((STRICT, "'it\\'s\\\\'"), (NONE, "'it''s\\'")):
                with self.subTest(query=query[:20], sql_mode=sql_mode):
                    sent = self.send(PyMySQL(sql_mode), query, {"a": "it's\\", **params})
                    self.assertEqual(sent, wanted.format(literal).encode())
        # Texts that are longer than the room that is kept.
        for sql_mode, length in ((STRICT, 160_000), (NONE, 160_000)):
            given = {"n": name, "a": "it's" * (length // 5)}
            sent = self.send(PyMySQL(sql_mode), "SELECT :n, :a", given)
            quote = "''" if sql_mode == NONE else "\\'"
            self.assertTrue(sent == f"SELECT `\u00e9`, '{f'it{quote}s' * (length // 5)}'".encode())

    def test_steady_texts(self):
        steady = b"SELECT _utf8mb4'it''s', _utf8mb4 0x5C, _utf8mb4 0xC3A9, 0xFF, 1"
        values = ["it's", "\\", "\u00e9", b"\xff", 1]
        for sql_mode in (STRICT, NONE):
            connection = PyMySQL(sql_mode)
            self.assertEqual(self.send(connection, "SELECT ?, ?, ?, ?, ?", values, steady=True), steady)
            self.assertEqual(self.send(connection, "SELECT ?", [mysql_params.In(values)], steady=True), steady)
            pooled = Pooled(PyMySQL(sql_mode))
            exec_driver_sql(pooled, "SELECT ?", [mysql_params.In(values)], steady=True)
            self.assertEqual(pooled.calls[0][0], (steady.decode(),))
        for query, params, kind in (
            ("SELECT '\u00e9', :a", {"a": 1}, mysql_params.UnsteadyError),
            ("SELECT '\\\\', :a", {"a": 1}, mysql_params.UnsteadyError),
            ("SELECT :n", {"n": mysql_params.Identifier("\u00e9")}, mysql_params.UnsteadyFragmentError),
            ("SELECT :n", {}, mysql_params.MissingError),
        ):
            connection = PyMySQL()
            for call in (lambda: self.send(connection, query, params, steady=True), lambda: mysql_params.bind_anywhere(query, params)):
                with self.subTest(query=query), self.assertRaises(kind):
                    call()
            self.assertEqual(connection.sent, [])
        # The connection is asked all the same.
        with self.assertRaises(mysql_params.SessionError):
            self.send(PyMySQL(client="gbk"), steady=True)
        with self.assertRaises(mysql_params.PacketError):
            self.send(PyMySQL(packet=20), steady=True)

    def test_zones(self):
        moment = datetime.datetime(2019, 11, 27, 23, 30, tzinfo=datetime.timezone.utc)
        sent = self.send(PyMySQL(), params={"a": moment}, zone=datetime.timezone.utc)
        self.assertEqual(sent, b"SELECT '2019-11-27 23:30:00'")
        with self.assertRaises(TypeError):
            self.send(PyMySQL(), params={"a": moment})

    def test_cursors_that_cannot_be_used(self):
        closed = PyMySQL().cursor()
        closed.close()
        for cursor in (closed, MySQLCursorPrepared(PyMySQL()), Own(PyMySQL()), None, object()):
            with self.subTest(type=type(cursor).__name__), self.assertRaises(TypeError):
                execute(cursor, "SELECT 1")

    def test_places_of_other_libraries(self):
        named = "The values have names, and the query has none"
        for query, params, message in (
            ("SELECT %s", [1], "The query has 0 `?`, and 1 values are given: a place is `?`, and not `%s`"),
            ("SELECT ?, '%s'", [1, 2], "The query has 1 `?`, and 2 values are given"),
            ("SELECT 1 in ( ? )", [1, 2], "The query has 1 `?`, and 2 values are given: for one `?` hand in a list of one, as `[ids]` or `[rows]`"),
            ("VALUES ?", [1, 2], "The query has 1 `?`, and 2 values are given: for one `?` hand in a list of one, as `[ids]` or `[rows]`"),
            ("SELECT ?", [1, 2], "The query has 1 `?`, and 2 values are given"),
            ("VALUES ?", [], "The query has 1 `?`, and 0 values are given"),
            ("SELECT %(a)s", {"a": 1}, named + ": a place is `:name`, and not `%(name)s`"),
            ("SELECT ?, ':a'", {"a": 1}, named + ": no `:name` stands outside of strings and comments"),
        ):
            with self.subTest(query=query), self.assertRaises(mysql_params.Error) as raised:
                self.send(PyMySQL(), query, params)
            self.assertEqual(str(raised.exception), message)
            self.assertEqual(str(pickle.loads(pickle.dumps(raised.exception))), message)

    def test_sqlalchemy(self):
        pooled = Pooled(PyMySQL(NONE))
        self.assertEqual(exec_driver_sql(pooled, "SELECT :a", {"a": HOSTILE}), "result")
        self.assertEqual(pooled.calls, [((WITHOUT.decode(),), {"execution_options": {"no_parameters": True}})])
        for wrong in (object(), unittest.mock.Mock(connection=lambda: pooled)):
            with self.assertRaisesRegex(TypeError, "^SQLAlchemy's Connection is wanted, and not (object|Mock): take"):
                exec_driver_sql(wrong, "SELECT 1")
        query = b"SELECT '\xff', ?"
        with self.assertRaises(UnicodeDecodeError) as raised:
            exec_driver_sql(pooled, query, ["secret"])
        self.assertEqual(raised.exception.object, query)

    def test_drivers_that_make_other_bytes(self):
        # Each encoding with values that its bytes hold a backslash of, or that it writes in another way than UTF-8.
        for encoding, values in (
            ("gbk", ("\u8aa0' OR 1=1 -- ", "\u00e9")),
            ("big5", ("\u529f' OR 1=1 -- ",)),
            ("cp932", ("\u8868' OR 1=1 -- ",)),
            ("sjis", ("\u8868' OR 1=1 -- ", "\u00a5' OR 1=1 -- ")),
            ("gb18030", ("\u8aa0' OR 1=1 -- ", "\U0001f600")),
            ("cp1252", ("\u00e9",)),
            ("shift_jis_2004", ("\\' OR 1=1 -- ",)),
            ("utf7", ("\\' OR 1=1 -- ",)),
            ("utf16", ("a",)),
            ("utf-8-sig", ("a",)),
            ("no codec", ("a",)),
            ("no\0codec", ("a",)),
            ("hex", ("a",)),
            (None, ("\u00e9", "a\\b")),
            (7, ("\u00e9", "a\\b")),
        ):
            for kind in (PyMySQL, MySQLdb, Connector):
                own = kind()
                own.encoding = own.python_charset = encoding
                for value in values:
                    with self.subTest(encoding=encoding, kind=kind.__name__, value=value):
                        pooled = Pooled(own)
                        with self.assertRaises(mysql_params.EncodingError) as raised:
                            exec_driver_sql(pooled, "SELECT :a", {"a": value})
                        self.assertIsInstance(raised.exception, mysql_params.SessionError)
                        self.assertEqual(pooled.calls, [])
                        if type(encoding) is str:
                            to_do = "and has to be UTF-8: connect with charset='utf8mb4'"
                            self.assertEqual(str(raised.exception), f"The driver's encoding is {encoding}, {to_do}")

    def test_drivers_that_make_the_same_bytes(self):
        for encoding, value, literal in (
            ("utf8", "\u8aa0' OR 1=1 -- ", "'\u8aa0'' OR 1=1 -- '"),
            ("UTF-8", "\U0001f600", "'\U0001f600'"),
            ("gbk", "it's \\ ~", "'it''s \\\\ ~'"),
            ("sjis", "it's \\ ~", "'it''s \\\\ ~'"),
            ("ascii", "it's", "'it''s'"),
            (None, "it's ~", "'it''s ~'"),
        ):
            for kind in (PyMySQL, MySQLdb, Connector):
                own = kind()
                own.encoding = own.python_charset = encoding
                pooled = Pooled(own)
                exec_driver_sql(pooled, "SELECT :a", {"a": value})
                ((text,), _), = pooled.calls
                self.assertEqual(text, "SELECT " + literal)

    def test_drivers_whose_encoding_is_unknown(self):
        pooled = Pooled(Connection())
        for value in ("\u00e9", "a\\b"):
            with self.assertRaises(mysql_params.EncodingError) as raised:
                exec_driver_sql(pooled, "SELECT :a", {"a": value})
            to_do = "give execute a cursor of the driver, which gets bytes"
            self.assertEqual(str(raised.exception), f"The driver's encoding isn't known: {to_do}")
            self.send(Connection(), params={"a": value})
        self.assertEqual(exec_driver_sql(pooled, "SELECT :a", {"a": "its"}), "result")
        # MySQL Connector may take bytes for a str too. The others send them as they are.
        for kind in (PyMySQL, MySQLdb, Connector):
            connection = kind()
            connection.encoding = connection.python_charset = "gbk"
            if kind is not Connector:
                self.assertEqual(self.send(connection, params={"a": "\u00e9"}), "SELECT '\u00e9'".encode())
                continue
            with self.assertRaises(mysql_params.EncodingError):
                self.send(connection, params={"a": "\u00e9"})
            self.assertEqual(connection.sent, [])

    def test_errors_are_pickled(self):
        for error in (
            mysql_params.UnportableError(3, Construct.BRACKET),
            mysql_params.SessionError("character_set_client", "gbk"),
            mysql_params.EncodingError("encoding", "gbk"),
            mysql_params.PacketError(5, 4),
            mysql_params.DelimiterError(7),
        ):
            copy = pickle.loads(pickle.dumps(error))
            self.assertIsInstance(copy, mysql_params.Error)
            self.assertEqual((type(copy), copy.args, str(copy)), (type(error), error.args, str(error)))


if __name__ == "__main__":
    result = Result()
    unittest.defaultTestLoader.loadTestsFromTestCase(Test).run(result)
    sys.exit(0 if result.wasSuccessful() and result.testsRun else 1)
