"""Tests of the kinds of refusals: PEP 249's, and Python's own, which each is caught by."""

import datetime
import decimal
import pickle
import sys
import unittest

import mysql_params
from mysql_params import Assignments, DataError, Identifier, Keyword, ProgrammingError
from mysql_params import bind, bind_in_both_modes, bind_rows, exec_driver_sql, execute, execute_rows, executemany
from test_mysql_params import Result
from test_sending import MySQLCursorPrepared, Pooled, PyMySQL

UTC = datetime.timezone.utc
EAST = datetime.timezone(datetime.timedelta(hours=1))


def sent(call, *given):
    """Call with a cursor."""
    return call(PyMySQL().cursor(), *given)


OF_PYTHON = (
    (TypeError, ProgrammingError, lambda: bind("?", [{1}])),
    (TypeError, ProgrammingError, lambda: bind("?", [1j])),
    (TypeError, ProgrammingError, lambda: bind("?", [(n for n in ())])),
    (TypeError, ProgrammingError, lambda: bind(5)),
    (TypeError, ProgrammingError, lambda: bind("?", 5)),
    (TypeError, ProgrammingError, lambda: bind("?", [1], "ANSI_QUOTES")),
    (TypeError, ProgrammingError, lambda: bind("?", [1], zone="UTC")),
    (TypeError, ProgrammingError, lambda: bind("?", [datetime.datetime.now(UTC)])),
    (TypeError, ProgrammingError, lambda: bind(":a", {5: 1})),
    (TypeError, ProgrammingError, lambda: bind_rows("?", [[{1}]])),
    (TypeError, ProgrammingError, lambda: mysql_params.bind_form("?", "x")),
    (TypeError, ProgrammingError, lambda: Identifier(5)),
    (TypeError, ProgrammingError, lambda: Assignments(["a"])),
    (TypeError, ProgrammingError, lambda: Keyword("DESC", among="DESC")),
    (TypeError, ProgrammingError, lambda: mysql_params.register("Color", str)),
    (TypeError, ProgrammingError, lambda: execute(object(), "SELECT 1")),
    (TypeError, ProgrammingError, lambda: execute(MySQLCursorPrepared(PyMySQL()), "SELECT 1")),
    (TypeError, ProgrammingError, lambda: exec_driver_sql(object(), "SELECT 1")),
    (TypeError, ProgrammingError, lambda: sent(executemany, "SELECT ?", [[{1}]])),
    (TypeError, ProgrammingError, lambda: sent(execute_rows, "VALUES ?", [5])),
    (ValueError, DataError, lambda: bind("?", [decimal.Decimal("NaN")])),
    (ValueError, DataError, lambda: bind("?", [decimal.Decimal("1." + "1" * 65)])),
    (ValueError, DataError, lambda: bind(":a", {"": 1})),
    (ValueError, DataError, lambda: bind("?", [datetime.datetime.max.replace(tzinfo=UTC)], zone=EAST)),
    (ValueError, DataError, lambda: Keyword("DESC", among=("ASC",))),
    (ValueError, DataError, lambda: mysql_params.register(int, str)),
    (ValueError, DataError, lambda: mysql_params.decimal_text(decimal.Decimal("inf"))),
    (ValueError, DataError, lambda: sent(execute_rows, "VALUES ?", [{"a": 1}, {"b": 1}])),
    (ValueError, ProgrammingError, lambda: sent(execute_rows, "VALUES (?, ?)", [[1]])),
    (ValueError, ProgrammingError, lambda: sent(execute_rows, "VALUES :r, :s, :a", [[1]], {"a": 1})),
    (OverflowError, DataError, lambda: bind("?", [10**65])),
    (OverflowError, DataError, lambda: bind_in_both_modes("?", [2**64])),
    (UnicodeEncodeError, DataError, lambda: bind("?", ["\ud800"])),
    (UnicodeEncodeError, DataError, lambda: bind("?", [Identifier("\ud800")])),
    (UnicodeEncodeError, DataError, lambda: bind("\ud800")),
    (UnicodeEncodeError, DataError, lambda: bind(":a", {"\ud800": 1})),
    (UnicodeEncodeError, DataError, lambda: bind_rows("?", [["\ud800"]])),
    (UnicodeDecodeError, ProgrammingError, lambda: exec_driver_sql(Pooled(PyMySQL()), b"SELECT '\xff'")),
    (MemoryError, mysql_params.OperationalError, lambda: (_ for _ in ()).throw(mysql_params.OutOfMemoryError())),
)
"""Python's exception, PEP 249's, and a call that raises both in one."""


class Test(unittest.TestCase):
    """All tests."""

    def test_hierarchy(self):
        # "Exceptions" of PEP 249.
        for kind, above in (
            (mysql_params.Error, Exception),
            (mysql_params.DatabaseError, mysql_params.Error),
            (DataError, mysql_params.DatabaseError),
            (ProgrammingError, mysql_params.DatabaseError),
            (mysql_params.OperationalError, mysql_params.DatabaseError),
        ):
            self.assertEqual(kind.__bases__, (above,))
        below = (DataError, ProgrammingError, mysql_params.OperationalError)
        public = [getattr(mysql_params, name) for name in mysql_params.__all__]
        kinds = [one for one in public if isinstance(one, type) and issubclass(one, mysql_params.Error)]
        kinds = [kind for kind in kinds if kind not in (mysql_params.Error, mysql_params.DatabaseError)]
        self.assertGreater(len(kinds), 30)
        for kind in kinds:
            self.assertEqual(len([one for one in below if issubclass(kind, one)]), 1, kind)
        for kind in (mysql_params.MissingError, mysql_params.MarkCountError, mysql_params.SessionError):
            self.assertTrue(issubclass(kind, ProgrammingError))
        for kind in (mysql_params.FloatError, mysql_params.FragmentError, mysql_params.FormError, mysql_params.PacketError):
            self.assertTrue(issubclass(kind, DataError))

    def test_refusals_that_are_of_python_too(self):
        for kind, of_pep, call in OF_PYTHON:
            with self.assertRaises(mysql_params.Error) as raised:
                call()
            with self.subTest(error=repr(raised.exception)):
                self.assertIsInstance(raised.exception, kind)
                self.assertIsInstance(raised.exception, of_pep)
                self.assertIn(type(raised.exception), [getattr(mysql_params, name) for name in mysql_params.__all__])
                told = raised.exception
                copy = pickle.loads(pickle.dumps(told))
                self.assertEqual((type(copy), copy.args, str(copy)), (type(told), told.args, str(told)))
                self.assertNotIn("mysql_params.h", str(told))

    def test_rows_are_told_first(self):
        for call in (
            lambda rows: bind_rows("?", rows),
            lambda rows: sent(executemany, "INSERT INTO t VALUES (?)", rows),
            lambda rows: sent(execute_rows, "VALUES ?", rows),
        ):
            for value, message in (({1}, "row 2: the value for place 0 is a set"), ("\ud800", "row 2: 'utf-8' codec can't encode")):
                with self.assertRaises(mysql_params.Error) as raised:
                    call([[1], [2], [value]])
                self.assertEqual(raised.exception.row, 2)
                self.assertTrue(str(raised.exception).startswith(message), str(raised.exception))

    def test_what_a_unicode_error_holds(self):
        with self.assertRaises(UnicodeEncodeError) as raised:
            bind("?", ["a\ud800b"])
        error = raised.exception
        self.assertEqual((error.encoding, error.object, error.start, error.end), ("utf-8", "a\ud800b", 1, 2))
        self.assertTrue(error.reason.endswith(", in the value for place 0"))


if __name__ == "__main__":
    result = Result()
    unittest.defaultTestLoader.loadTestsFromTestCase(Test).run(result)
    sys.exit(0 if result.wasSuccessful() and result.testsRun else 1)
