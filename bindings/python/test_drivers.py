"""Tests of attacks on a MariaDB that is started here, by PyMySQL, mysqlclient, and SQLAlchemy over each."""

import contextlib
import os
import shutil
import subprocess
import sys
import tempfile
import time
import unittest
import warnings

import MySQLdb
import MySQLdb.cursors
import pymysql
import sqlalchemy

import mysql_params
from mysql_params import In, exec_driver_sql, execute, execute_rows, executemany
from test_mysql_params import Result

DRIVERS = (pymysql, MySQLdb)

# Character sets in whose bytes a backslash ends a character, and such a character.
SETS = {"gbk": "\u8aa0", "big5": "\u529f", "cp932": "\u8868", "sjis": "\u8868", "gb18030": "\u8aa0"}

NONE = "NO_BACKSLASH_ESCAPES"
HOSTILE = "\\' , 7 -- "

SOCKET = ""


@contextlib.contextmanager
def server(folder):
    """Run a MariaDB in a folder, and give the path of its socket. As root it runs as nobody."""
    paths = os.environ["PATH"] + ":/usr/sbin:/sbin"
    user = ["--user=nobody"] if os.geteuid() == 0 else []
    if user:
        shutil.chown(folder, "nobody")
        os.chmod(folder, 0o755)
    data, socket = os.path.join(folder, "data"), os.path.join(folder, "socket")
    install = [shutil.which("mariadb-install-db", path=paths), "--no-defaults", *user, f"--datadir={data}", "--skip-test-db"]
    install.append("--auth-root-authentication-method=normal")
    subprocess.run(install, check=True, stdout=subprocess.DEVNULL, stderr=subprocess.DEVNULL)
    run = [shutil.which("mariadbd", path=paths), "--no-defaults", *user, f"--datadir={data}", f"--socket={socket}"]
    run += [f"--pid-file={folder}/pid", "--skip-networking", "--character-set-server=utf8mb4"]
    started = subprocess.Popen(run, stdout=subprocess.DEVNULL, stderr=subprocess.DEVNULL)
    try:
        for _ in range(1200):
            if os.path.exists(socket):
                break
            time.sleep(0.05)
        yield socket
    finally:
        started.terminate()
        started.wait()


def connect(driver, **options):
    """Connect by a driver."""
    return driver.connect(**{"user": "root", "unix_socket": SOCKET, "charset": "utf8mb4", **options})


def several(driver):
    """Connect by a driver, to close it, so that a text may have several statements."""
    return contextlib.closing(connect(driver, client_flag=pymysql.constants.CLIENT.MULTI_STATEMENTS))


def engine(driver, charset):
    """Return SQLAlchemy's engine over a driver."""
    return sqlalchemy.create_engine(f"mysql+{driver.__name__.lower()}://root@/?unix_socket={SOCKET}&charset={charset}")


def write_in(connection, charset):
    """Have a driver write a str in a set of which MariaDB knows nothing, as MySQL does."""
    if charset == "gb18030":
        connection.encoding = charset


def set_of_server(charset):
    """Return the set, or if MariaDB knows nothing of it another one, by which the driver connects."""
    return "utf8mb4" if charset == "gb18030" else charset


EACH_SET = [(driver, charset, f"{SETS[charset]}' OR 1=1 -- ") for driver in DRIVERS for charset in SETS]
"""Each driver with each set, and a value that leaves its literal in it."""


class Test(unittest.TestCase):
    """All tests."""

    @classmethod
    def setUpClass(cls):
        with contextlib.closing(connect(pymysql)) as connection:
            connection.cursor().execute("CREATE DATABASE tried")

    def test_a_driver_that_makes_other_bytes_than_the_server_reads(self):
        query = "SELECT 'secret' AS s FROM DUAL WHERE 'x' = :a"
        for driver, charset, value in EACH_SET:
            alchemy = engine(driver, set_of_server(charset))
            with self.subTest(driver=driver.__name__, charset=charset), alchemy.connect() as connection:
                connection.exec_driver_sql("SET NAMES utf8mb4")
                write_in(connection.connection.dbapi_connection, charset)
                # What SQLAlchemy and the driver do by themselves lets the value out, except in a column that it reads wrongly.
                text = f"SELECT 'secret' AS s FROM DUAL WHERE 'x' = {mysql_params.bind('?', [value]).decode()}"
                self.assertEqual(len(connection.exec_driver_sql(text, execution_options={"no_parameters": True}).all()), 1)
                with self.assertRaises(mysql_params.EncodingError) as raised:
                    self.assertEqual(exec_driver_sql(connection, query, {"a": value}).all(), [])
                self.assertEqual((raised.exception.variable, raised.exception.value), ("encoding", charset))
                # What is ASCII is the same in both, also with a backslash.
                for same in ("it's \\ ~", "' OR 1=1 -- ", "\\' OR 1=1 -- "):
                    rows = exec_driver_sql(connection, "SELECT :a AS a", {"a": same}).all()
                    self.assertEqual([tuple(row) for row in rows], [(same,)])

    def test_texts_as_bytes_go_out_as_they_are(self):
        for driver, charset, value in EACH_SET:
            connection = connect(driver, charset=set_of_server(charset), init_command="SET NAMES utf8mb4")
            write_in(connection, charset)
            with self.subTest(driver=driver.__name__, charset=charset), contextlib.closing(connection):
                cursor = connection.cursor()
                cursor.execute("SET NAMES utf8mb4")
                execute(cursor, "SELECT 'secret' AS s FROM DUAL WHERE 'x' = :a", {"a": value})
                self.assertEqual(cursor.fetchall(), ())
                cursor.execute("CREATE TEMPORARY TABLE tried.sent (a VARCHAR(99) CHARACTER SET utf8mb4)")
                self.assertEqual(executemany(cursor, "INSERT INTO tried.sent VALUES (?)", [[value], [value]]), 2)
                self.assertEqual(executemany(cursor, "INSERT INTO tried.sent VALUES (?) -- each", [[value]]), 1)
                self.assertEqual(execute_rows(cursor, "INSERT INTO tried.sent VALUES ?", [[value]]), 1)
                cursor.execute("SELECT DISTINCT HEX(a) AS a, COUNT(*) AS c FROM tried.sent")
                self.assertEqual(cursor.fetchall(), ((value.encode().hex().upper(), 4),))

    def test_a_driver_that_makes_the_bytes_of_the_text(self):
        for driver in DRIVERS:
            with engine(driver, "utf8mb4").connect() as connection:
                for letter in SETS.values():
                    value = f"{letter}' OR 1=1 -- "
                    rows = exec_driver_sql(connection, "SELECT :a AS a", {"a": value}).all()
                    self.assertEqual([tuple(row) for row in rows], [(value,)])

    def test_a_list_that_was_not_said_to_be_one(self):
        query, role = "SELECT JSON_VALUE(JSON_SET('{\"role\": \"user\"}', '$.name', :name), '$.role') AS role", ["x", "$.role", "admin"]
        for driver in DRIVERS:
            with contextlib.closing(connect(driver)) as connection, connection.cursor() as cursor:
                self.assertEqual(execute(cursor, query, {"name": "x"}), 1)
                self.assertEqual(cursor.fetchall(), (("user",),))
                # What is said to be several arguments is: so a list from outside must not be.
                execute(cursor, query, {"name": In(role)})
                self.assertEqual(cursor.fetchall(), (("admin",),))
                cursor.execute("SHOW SESSION STATUS LIKE 'Questions'")
                before = int(cursor.fetchall()[0][1])
                for call, given in ((execute, {"name": role}), (executemany, [{"name": "x"}, {"name": role}])):
                    with self.assertRaises(mysql_params.UnbracketedError):
                        call(cursor, query, given)
                cursor.execute("SHOW SESSION STATUS LIKE 'Questions'")
                self.assertEqual(int(cursor.fetchall()[0][1]), before + 1)
            with engine(driver, "utf8mb4").connect() as connection:
                with self.assertRaises(mysql_params.UnbracketedError):
                    exec_driver_sql(connection, query, {"name": role})
                rows = exec_driver_sql(connection, "SELECT 2 IN (:ids) AS a, FIELD(2, :order) AS b", {"ids": [1, 2], "order": In([1, 2])})
                self.assertEqual([tuple(row) for row in rows], [(1, 2)])

    def comes_back(self, cursor):
        """The hostile value comes back as it is."""
        execute(cursor, "SELECT :a AS a", {"a": HOSTILE})
        self.assertEqual(list(cursor.fetchall()), [(HOSTILE,)])

    def test_answers_that_the_driver_has_not_read(self):
        for driver in DRIVERS:
            for kind in (driver.cursors.Cursor, driver.cursors.SSCursor):
                with self.subTest(kind=str(kind)), several(driver) as connection, contextlib.closing(connection.cursor(kind)) as cursor:
                    for mode in (NONE, "", NONE):
                        self.comes_back(cursor)
                        cursor.execute(f"SELECT 1; SET sql_mode = '{mode}'")
                        self.comes_back(cursor)
                        self.comes_back(cursor)
                    cursor.execute("SELECT 1; SET NAMES gbk")
                    with self.assertRaises(mysql_params.SessionError):
                        execute(cursor, "SELECT 1")

    def test_answers_of_another_cursor(self):
        for driver in DRIVERS:
            with self.subTest(driver=driver.__name__), several(driver) as connection:
                for mode in (NONE, "", NONE):
                    cursor = connection.cursor()
                    self.comes_back(cursor)
                    connection.cursor().execute(f"SELECT 1; SET sql_mode = '{mode}'")
                    self.comes_back(cursor)

    def test_rows_that_an_unbuffered_cursor_has_not_read(self):
        for driver in DRIVERS:
            with self.subTest(driver=driver.__name__), contextlib.closing(connect(driver)) as connection:
                cursor = connection.cursor(driver.cursors.SSCursor)
                with contextlib.closing(cursor), warnings.catch_warnings():
                    warnings.simplefilter("ignore")  # PyMySQL warns of rows that it reads to their end.
                    for _ in range(3):
                        execute(cursor, "SELECT :a AS a UNION ALL SELECT 2", {"a": HOSTILE})
                        self.assertEqual(cursor.fetchone(), (HOSTILE,))

    def test_statements_that_change_the_session(self):
        for driver in DRIVERS:
            for sent in ("SET NAMES gbk", "SELECT 1; SET NAMES gbk", "EXECUTE IMMEDIATE 'SET NAMES gbk'"):
                with self.subTest(driver=driver.__name__, sent=sent), several(driver) as connection:
                    cursor = connection.cursor()
                    self.comes_back(cursor)
                    execute(cursor, sent)
                    with self.assertRaises(mysql_params.SessionError) as raised:
                        execute(cursor, "SELECT 1")
                    self.assertEqual(raised.exception.value, "gbk")
            with several(driver) as connection:
                rows = [{"m": NONE, "a": "a"}, {"m": "", "a": HOSTILE}]
                with self.assertRaises(mysql_params.SessionError) as raised:
                    executemany(connection.cursor(), "SET sql_mode = :m, @a = :a", rows)
                self.assertEqual(raised.exception.variable, "sql_mode")

    def test_a_change_of_the_user_sets_the_character_set_of_the_driver_again(self):
        with contextlib.closing(connect(MySQLdb, charset="gbk", use_unicode=False)) as connection:
            cursor = connection.cursor()
            cursor.execute("SET SESSION session_track_system_variables = ''")
            cursor.execute("SET NAMES utf8mb4")
            execute(cursor, "SELECT 1")
            cursor.fetchall()
            connection.change_user("root", "", "mysql")
            with self.assertRaises(mysql_params.SessionError):
                execute(cursor, "SELECT :a", {"a": "\u20ac' , 7 -- "})

    def test_routines_leave_the_session(self):
        for driver in DRIVERS:
            for body in (f"SET sql_mode = '{NONE}'", "SET NAMES gbk", "SET character_set_client = gbk"):
                with self.subTest(driver=driver.__name__, body=body), several(driver) as connection:
                    cursor = connection.cursor()
                    cursor.execute(f"CREATE FUNCTION tried.changes() RETURNS INT BEGIN {body}; RETURN 1; END")
                    cursor.execute("CREATE TABLE tried.watched (a INT)")
                    cursor.execute(f"CREATE TRIGGER tried.seen BEFORE INSERT ON tried.watched FOR EACH ROW BEGIN {body}; END")
                    for sent in ("SELECT tried.changes()", "INSERT INTO tried.watched VALUES (1)"):
                        execute(cursor, sent)
                        self.comes_back(cursor)
                        cursor.execute("SELECT @@character_set_client, @@character_set_connection")
                        self.assertEqual(cursor.fetchall(), (("utf8mb4", "utf8mb4"),))
                    cursor.execute("DROP FUNCTION tried.changes")
                    cursor.execute("DROP TABLE tried.watched")


if __name__ == "__main__":
    result = Result()
    with tempfile.TemporaryDirectory() as place, server(place) as SOCKET:
        unittest.defaultTestLoader.loadTestsFromTestCase(Test).run(result)
    sys.exit(0 if result.wasSuccessful() and result.testsRun else 1)
