"""Sends hostile values by a driver of Python, and reads them back: driver_session.py DRIVER SOCKET

DRIVER is pymysql, MySQLdb (mysqlclient), mysql.connector, or one of the first two over SQLAlchemy, as sqlalchemy+pymysql. Its
last line is how many questions were asked. It stops at the first fault.
"""

import datetime
import decimal
import enum
import importlib
import sys
import unittest.mock
import uuid

import mysql_params

NONE = "NO_BACKSLASH_ESCAPES"
HOSTILE = ["' , 7 -- ", "\\' , 7 -- ", "100%", "%s %(a)s %%", "", "\0\n\r\x1a\"`", "\U0001f600 é", "?:a", "/* # */ ;"]
COLOR = enum.Enum("COLOR", {"RED": "r'ed", "TWO": 2})
MOMENT = datetime.datetime(2019, 11, 27, 23, 30, 0, 5, tzinfo=datetime.timezone.utc)


class Session:
    """A connection of a driver, by itself or over SQLAlchemy."""

    def __init__(self, driver, path, **options):
        alchemy, _, name = driver.rpartition("+")
        self.path, self.module = path, importlib.import_module(name)
        self.alchemy = None
        if alchemy:
            import sqlalchemy

            url = f"mysql+{name.lower()}://root@/?unix_socket={path}&charset={options.get('charset', 'utf8mb4')}"
            self.alchemy = sqlalchemy.create_engine(url).connect()
            pooled = self.alchemy.connection
            self.own = getattr(pooled, "dbapi_connection", None) or pooled.connection
        else:
            words = {"user": "root", "unix_socket": path, "charset": "utf8mb4", **options}
            self.own = self.module.connect(**words)

    def run(self, sql):
        """Send a statement of the driver's own, and return its rows."""
        cursor = self.own.cursor()
        cursor.execute(sql)
        rows = [tuple(row) for row in cursor.fetchall()] if cursor.description else []
        cursor.close()
        return rows

    def rows(self, query, params=None, **options):
        """Send a bound text, and return its rows."""
        if self.alchemy is not None:
            return [tuple(row) for row in mysql_params.exec_driver_sql(self.alchemy, query, params, **options)]
        cursor = self.own.cursor()
        mysql_params.execute(cursor, query, params, **options)
        rows = [tuple(row.values()) if isinstance(row, dict) else tuple(row) for row in cursor.fetchall()]
        cursor.close()
        return rows

    def asked(self):
        """Return how many SELECTs the session has sent."""
        return int(self.run("SHOW SESSION STATUS LIKE 'Com_select'")[0][1])

    def inserts(self):
        """Return how many INSERTs the session has sent."""
        return int(self.run("SHOW SESSION STATUS LIKE 'Com_insert'")[0][1])


def same(got, wanted):
    if got != wanted:
        raise AssertionError(f"got {got!r}, wanted {wanted!r}")


def refused(kind, call, *arguments, **options):
    try:
        call(*arguments, **options)
    except kind as error:
        return error
    raise AssertionError(f"{kind.__name__} is wanted")


def come_back(session):
    """The hostile values come back as they are, each alone and all at once."""
    for value in HOSTILE:
        same(session.rows("SELECT :a, ':a'", {"a": value}), [(value, ":a")])
    same(session.rows("SELECT " + ", ".join("?" * len(HOSTILE)), iter(HOSTILE)), [tuple(HOSTILE)])


def types(session):
    """Values of further types reach the server as what they say."""
    mysql_params.register(decimal.Decimal, mysql_params.decimal_text)
    price = decimal.Decimal("9007199254740993.01")
    names = uuid.UUID("12345678123456781234567812345678")
    query = "SELECT :color, :two, :id, CAST(:p AS DECIMAL(20,2)), TIME_TO_SEC(:t), CAST(:m AS DATETIME(6)), :none, :yes, :x"
    params = {"color": COLOR.RED, "two": COLOR.TWO, "id": names, "p": price, "t": datetime.time(1, 2, 3)}
    params.update(m=MOMENT, none=None, yes=True, x=0.1)
    (row,) = session.rows(query, params, zone=datetime.timezone(datetime.timedelta(hours=1)))
    moment = datetime.datetime(2019, 11, 28, 0, 30, 0, 5)
    same(tuple(row[:4]) + (int(row[4]),) + tuple(row[5:]), ("r'ed", 2, str(names), price, 3723, moment, None, 1, 0.1))


def modes(session):
    """A mode that the session is set to is seen without a word, in each direction."""
    for sql_mode in (NONE, "", f"ANSI_QUOTES,{NONE}", "ANSI_QUOTES"):
        session.run(f"SET sql_mode = '{sql_mode}'")
        come_back(session)
    session.run("SET sql_mode = DEFAULT")


def statements(session):
    """After a statement with a mode of its own, which the driver is told without the end, values come back too."""
    if "MariaDB" not in session.run("SELECT VERSION()")[0][0]:
        return
    for sql_mode, other in (("", NONE), (NONE, "")):
        session.run(f"SET sql_mode = '{sql_mode}'")
        come_back(session)
        session.run(f"SET STATEMENT sql_mode = '{other}' FOR DO 1")
        come_back(session)
        for again in (NONE, "", NONE):
            session.run(f"SET sql_mode = '{again}'")
            come_back(session)
    session.run("SET sql_mode = ''")


def another_mode(session):
    """In another mode than the session told no value leaves its literal: a backslash in it may be two."""
    ask = mysql_params._sending._ask
    for sql_mode, told in (("", True), (NONE, False)):
        session.run(f"SET sql_mode = '{sql_mode}'")
        with unittest.mock.patch.object(
            mysql_params._sending, "_ask", lambda connection: ask(connection)._replace(no_backslash_escape=told)
        ):
            for value in [*HOSTILE, "\\", "é\\' , 7 -- "]:
                (row,) = session.rows("SELECT :a, ':a', :b", {"a": value, "b": 7}, always_ask=True)
                same(row[0] in (value, value.replace("\\", "\\\\")) and row[1:], (":a", 7))
        come_back(session)
    session.run("SET sql_mode = DEFAULT")


def steady(session):
    """Steady texts come back as they are in each mode."""
    for sql_mode in ("", NONE):
        session.run(f"SET sql_mode = '{sql_mode}'")
        same(session.rows("SELECT " + ", ".join("?" * len(HOSTILE)), iter(HOSTILE), steady=True), [tuple(HOSTILE)])
    session.run("SET sql_mode = DEFAULT")


def made_anew(session, driver):
    """A session that was made anew has another mode."""
    session.run(f"SET sql_mode = '{NONE}'")
    come_back(session)
    if driver == "pymysql":
        (number,) = session.run("SELECT CONNECTION_ID()")[0]
        Session(driver, session.path).run(f"KILL {number}")
        session.own.ping(reconnect=True)
        come_back(session)
        session.run(f"SET sql_mode = '{NONE}'")
        come_back(session)
        session.own.close()
        session.own.connect()
    elif driver == "MySQLdb":
        session.own.change_user(user="root", passwd="", db="mysql")
    come_back(session)


def character_sets(session, driver):
    """Another character set is refused: that of the connection, one of the driver's call, and one that is told."""
    other = Session(driver, session.path, charset="latin1")
    same(refused(mysql_params.SessionError, other.rows, "SELECT 1").args, ("character_set_client", "latin1"))
    come_back(session)
    set_charset = getattr(session.own, "set_charset", None) or session.own.set_character_set
    set_charset("latin1")
    refused(mysql_params.SessionError, session.rows, "SELECT 1")
    set_charset("utf8mb4")
    come_back(session)
    session.run("SET NAMES gbk")
    mysql_params.ask_again(session.own)
    refused(mysql_params.SessionError, session.rows, "SELECT 1")
    session.run("SET NAMES utf8mb4")
    come_back(session)


def long_texts(session):
    """A text as long as the server takes is answered; one byte more is refused, and the connection stands."""
    most = int(session.run("SELECT @@max_allowed_packet")[0][0]) - 4
    text = "SELECT LENGTH(?)"
    for more in (0, 1):
        value = "x" * (most - len("SELECT LENGTH('')") + more)
        if more:
            refused(mysql_params.PacketError, session.rows, text, [value])
        else:
            same(session.rows(text, [value]), [(len(value),)])
    come_back(session)


def unportable(session):
    refused(mysql_params.UnportableError, session.rows, "SELECT /*! :a */ 1", {"a": 1})


def asked_once(session):
    """The connection is asked once, not before each text; and before each if that is wanted."""
    come_back(session)
    before = session.asked()
    come_back(session)
    # MySQL Connector tells nothing by which another mode would be seen, so it is asked before each text.
    times = 2 if session.module.__name__ == "mysql.connector" else 1
    same(session.asked() - before, (len(HOSTILE) + 1) * times)
    before = session.asked()
    session.rows("SELECT 1", always_ask=True)
    same(session.asked() - before, 2)


def many(session):
    """Rows are stored as they were handed in, by a text for each and by one; of what is refused nothing is."""
    columns = "(i INT, v VARCHAR(20), p DECIMAL(65, 0))"
    session.run(f"CREATE TEMPORARY TABLE strings.many {columns} CHARACTER SET utf8mb4")
    rows = [(i, value, decimal.Decimal(10**64 + i) if i % 2 else 10**64 + i) for i, value in enumerate(HOSTILE)]
    wanted = [(i, value, decimal.Decimal(10**64 + i)) for i, value, _ in rows]
    last = len(rows)
    sends = ((mysql_params.executemany, "(?, ?, ?)", 1), (mysql_params.executemany, "(?, ?, ?) /* each */", last))
    sends = (*sends, (mysql_params.execute_rows, "?", 1))
    for call, place, texts in sends:
        for sql_mode in ("", NONE):
            session.run(f"SET sql_mode = '{sql_mode}'")
            cursor = session.own.cursor()
            inserts = session.inserts()
            same(call(cursor, f"INSERT INTO strings.many VALUES {place}", iter(rows)), last)
            same(session.inserts() - inserts, texts)
            for wrong, kind in (({1}, TypeError), (float("nan"), mysql_params.FloatError), ([], (TypeError, mysql_params.Error))):
                refused(kind, call, cursor, f"INSERT INTO strings.many VALUES {place}", [*rows, (0, "", wrong)])
            cursor.close()
            same(session.run("SELECT i, v, p FROM strings.many ORDER BY i"), wanted)
            session.run("DELETE FROM strings.many")
    session.run("SET sql_mode = DEFAULT")


def long_rows(session):
    """Rows of more than max_allowed_packet go out in several texts; one that is longer by itself is refused."""
    most = int(session.run("SELECT @@max_allowed_packet")[0][0])
    session.run("CREATE TEMPORARY TABLE strings.long (i INT PRIMARY KEY, v LONGTEXT) CHARACTER SET utf8mb4")
    value = "x'" * (1 << 18)
    rows = [(i, value) for i in range(3 * most // len(value) // 2 + 2)]
    cursor = session.own.cursor()
    inserts = session.inserts()
    same(mysql_params.execute_rows(cursor, "INSERT INTO strings.long VALUES ?", iter(rows)), len(rows))
    same(session.inserts() - inserts > 1, True)
    row = session.run(f"SELECT COUNT(*), SUM(LENGTH(v)), SUM(v = REPEAT('x\\'', {1 << 18})) FROM strings.long")[0]
    same(tuple(map(int, row)), (len(rows), len(rows) * len(value), len(rows)))
    wide = [(-1, "x"), (-2, "x" * most)]
    refused(mysql_params.PacketError, mysql_params.execute_rows, cursor, "INSERT INTO strings.long VALUES ?", wide)
    cursor.close()
    same(session.run("SELECT COUNT(*) FROM strings.long WHERE i < 0")[0][0], 0)
    session.run("DROP TEMPORARY TABLE strings.long")
    come_back(session)


def other_cursors(session):
    """MySQL Connector's other cursors, sets and modes that are set by its own calls, and a session that is made anew."""
    for options in ({"dictionary": True}, {"buffered": True}, {"raw": True}, {"dictionary": True, "buffered": True}):
        cursor = session.own.cursor(**options)
        mysql_params.execute(cursor, "SELECT :a AS a", {"a": HOSTILE[1]})
        (row,) = cursor.fetchall()
        value = row["a"] if options.get("dictionary") else row[0]
        same(bytes(value).decode() if options.get("raw") else value, HOSTILE[1])
        cursor.close()
    for options in ({"prepared": True}, {"prepared": True, "dictionary": True}):
        refused(TypeError, mysql_params.execute, session.own.cursor(**options), "SELECT ?", [1])
    session.own.set_charset_collation("latin1")
    refused(mysql_params.SessionError, session.rows, "SELECT 1")
    session.own.set_charset_collation("utf8mb4")
    session.own.sql_mode = NONE
    come_back(session)
    for again in (session.own.cmd_reset_connection, session.own.reconnect, session.own.cmd_change_user):
        session.run(f"SET sql_mode = '{NONE}'")
        come_back(session)
        again("root") if again == session.own.cmd_change_user else again()
        come_back(session)
    other = Session("mysql.connector", session.path, charset="latin1")
    same(refused(mysql_params.SessionError, other.rows, "SELECT 1").args, ("character_set_client", "latin1"))


def cut_texts(session):
    """MySQL Connector looks for a delimiter in values too. A text with one runs a value, and is refused by each call."""
    query, values = "SELECT :a AS a, :b AS b", {"a": "delimiter x", "b": ", CURRENT_USER() -- '"}
    same(mysql_params.first_unportable_in_client(query), None)
    for given, ran in ((values, "root@localhost"), ({**values, "a": "delimiterx"}, values["b"])):
        same(session.run(mysql_params.bind(query, given))[0][1], ran)
    # Where the quotes of the query are those of its texts, steady ones stay whole.
    same(session.run(mysql_params.bind_anywhere(query, values)), [tuple(values.values())])
    others = mysql_params.bind_anywhere("SELECT 1 AS `it's`, :a AS a # it's\n", {"a": "delimiter ; "})
    same(session.run(others), [(1, ";\n")])
    cursor = session.own.cursor()
    insert, rows = "INSERT INTO strings.none VALUES ", [(1, 2), tuple(values.values())]
    same(refused(mysql_params.DelimiterError, mysql_params.execute, cursor, query, values).position, 8)
    same(refused(mysql_params.DelimiterError, mysql_params.executemany, cursor, insert + "(?, ?)", rows).row, 1)
    refused(mysql_params.DelimiterError, mysql_params.execute_rows, cursor, insert + "?", rows)
    cursor.close()


def main(driver, path):
    session = Session(driver, path)
    asked_once(session)
    come_back(session)
    types(session)
    modes(session)
    steady(session)
    unportable(session)
    many(session)
    long_rows(session)
    long_texts(session)
    if driver == "mysql.connector":
        cut_texts(session)
        other_cursors(session)
    elif session.alchemy is None:
        cursors = session.module.cursors if driver == "pymysql" else importlib.import_module("MySQLdb.cursors")
        for kind in (cursors.DictCursor, cursors.SSCursor):
            other = Session(driver, path, cursorclass=kind)
            same(other.rows("SELECT :a AS a, 1", {"a": HOSTILE[1]}), [(HOSTILE[1], 1)])
        character_sets(session, driver)
        made_anew(session, driver)
    statements(session)
    another_mode(session)
    print(f"{driver} {getattr(session.module, '__version__', '')}: {session.asked()} statements read")


main(*sys.argv[1:])
