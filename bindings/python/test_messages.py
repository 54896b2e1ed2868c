"""Tests of messages that say what to write instead."""

import pickle
import re
import sys
import unittest

import mysql_params
from mysql_params import Identifier, In, Template, bind, bind_anywhere
from test_mysql_params import Result
from test_sending import Connector, PyMySQL


class Test(unittest.TestCase):
    """All tests."""

    def test_places_beside_a_point(self):
        to_do = ': for a name with a point write one place, and give an Identifier of two names, as Identifier("b", "c")'
        between, label = ": put a space between", ", or behind the colon of a label"
        for query, place, position, beside, more in (
            ("SELECT b.:c", ":c", 9, ".", to_do),
            ("SELECT :b.:c", ":b", 7, ".", to_do),
            ("SELECT ?.c", "?", 7, ".", to_do),
            ("SELECT b.?", "?", 9, ".", to_do),
            ("1?", "?", 1, "1", between),
            ("SELECT a, 10.5e1?", "?", 16, "5e1", between),
            ("SELECT ? x, ?abc, 1", "?", 12, "abc", between),
            ("SELECT 'a'?", "?", 10, "'", between),
            ("SELECT ?'a'", "?", 7, "'", between),
            ("SELECT ??", "?", 7, "?", between),
            ("SELECT ?{0}", "?", 7, "{", between),
            ("SELECT ?\0", "?", 7, "\\x00", between),
            ("1:c", ":c", 1, "1", between + label),
            ("lbl:b", ":b", 3, "lbl", between + label),
            ("::b", ":b", 1, ":", between + label),
            ("SELECT " + "x" * 100 + ":b", ":b", 107, "x" * 64, between + label),
            ("SELECT ?" + "x" * 100, "?", 7, "x" * 64, between),
        ):
            values = {"b": 1, "c": 2} if ":" in query else [1] * query.count("?")
            with self.subTest(query=query), self.assertRaises(mysql_params.NotAloneError) as raised:
                bind(query, values)
            message = f"`{place}` at byte {position} touches `{beside}`{more}"
            self.assertEqual((raised.exception.position, str(raised.exception)), (position, message))
            self.assertEqual(str(pickle.loads(pickle.dumps(raised.exception))), message)
        self.assertEqual(bind("SELECT :c", {"c": mysql_params.Identifier("b", "c")}), b"SELECT `b`.`c`")
        with self.assertRaises(mysql_params.NotAloneError) as raised:
            bind("b.:c\u00f6", {"c": 1})
        alphabet = "names are of ASCII letters, digits and _"
        message = f"`:c` at byte 2 touches `.`: {alphabet}, so `:c\\xc3\\xb6` ends after `c`"
        self.assertEqual(str(raised.exception), message)
        message = "Place 1 at byte 2 touches what stands beside it: put a space between"
        self.assertEqual(str(mysql_params.NotAloneError(1, 2)), message)

    def test_lists_that_were_not_said_to_be_lists(self):
        for query, position in (
            ("UPDATE t SET doc = JSON_SET(doc, '$.name', {})", 43),
            ("SELECT COALESCE({}, owner)", 16),
            ("SELECT * FROM t LIMIT {}", 22),
            ("ORDER BY FIELD(id, {})", 19),
            ("SELECT ROUND({})", 13),
            ("SELECT JSON_ARRAY({})", 18),
            ("id IN (0, {})", 10),
            ("UPDATE t SET a = {}", 17),
            ("SELECT {}", 7),
            ("in_( {} )", 5),
            ("xvalues({})", 8),
            ("'IN' ({})", 6),
        ):
            for value in (["x", "$.role", "admin"], ("x",), [], [[1, 2], [3, 4]], ((1,),), [float("nan")]):
                self.refuses(query, position, value)
        for query, position in (("SELECT {}", 7), ("SET a = VALUES(a) + {}", 20)):
            self.refuses(query, position, [(1, 2)])
        self.refuses("VALUES {}", 7, [1, 2])
        for _ in range(2):  # Of a long query a table is kept.
            self.refuses("SELECT COALESCE({}, owner) /*" + "x" * 5000 + "*/", 16, [1, 2])
        message = "`?` at byte 0 is one value here, and was given a list: write it alone in brackets, as `IN (?)`, or give In([..])"
        self.assertEqual(str(mysql_params.UnbracketedError(0, 0)), message)

    def refuses(self, query, position, value):
        """Each call refuses a list or rows in the place of a query."""
        for place, given, name in (("?", [value], None), (":name", {"name": value}, "name")):
            for call in (bind, bind_anywhere, lambda text, params: Template(text).bind(params)):
                with self.subTest(query=query, value=value), self.assertRaises(mysql_params.UnbracketedError) as raised:
                    call(query.format(place), given)
                found = raised.exception
                self.assertEqual((found.number, found.place, found.position, found.name), (21, 0, position, name))
                where = f" at byte {position}" if name is None else ""
                to_do = f"write it alone in brackets, as `IN ({place})`, or give In([..])"
                self.assertEqual(str(found), f"`{place}`{where} is one value here, and was given a list: {to_do}")
                self.assertIsInstance(found, mysql_params.ProgrammingError)
                self.assertEqual(str(pickle.loads(pickle.dumps(found))), str(found))

    def test_lists_in_brackets(self):
        for query, wanted in (
            ("id IN (?)", "id IN (1, 'a')"),
            ("id not in\n(?)", "id not in\n(1, 'a')"),
            ("id IN ( /* c */ ? -- d\n )", "id IN ( /* c */ 1, 'a' -- d\n )"),
            ("INSERT INTO t VALUES (?)", "INSERT INTO t VALUES (1, 'a')"),
            ("INSERT INTO t VALUE (9, 9), (?)", "INSERT INTO t VALUE (9, 9), (1, 'a')"),
            ("VALUES ROW(?)", "VALUES ROW(1, 'a')"),
            ("(a, b) = (?)", "(a, b) = (1, 'a')"),
            ("((?))", "((1, 'a'))"),
        ):
            self.assertEqual(bind(query, [[1, "a"]]).decode(), wanted)
            self.assertEqual(bind(query.replace("?", ":ids"), {"ids": (1, "a")}).decode(), wanted)
        for query, wanted in (
            ("INSERT INTO t VALUES ?", "INSERT INTO t VALUES (1, 'a'), (2, NULL)"),
            ("INSERT INTO t (a, b) VALUE/**/ ?", "INSERT INTO t (a, b) VALUE/**/ (1, 'a'), (2, NULL)"),
            ("(a, b) IN (?)", "(a, b) IN ((1, 'a'), (2, NULL))"),
        ):
            self.assertEqual(bind(query, [[(1, "a"), [2, None]]]).decode(), wanted)
            self.assertEqual(bind(query.replace("?", ":rows"), {"rows": [(1, "a"), [2, None]]}).decode(), wanted)
        # Identifiers are no values.
        self.assertEqual(bind("SELECT ? FROM t", [[Identifier("a"), Identifier("b")]]), b"SELECT `a`, `b` FROM t")

    def test_lists_that_are_said_to_be_lists(self):
        for value, wanted in (
            ([3, "it's"], b"FIELD(id, 3, 'it\\'s')"),
            ((None,), b"FIELD(id, NULL)"),
            ([(1, 2), [3, 4]], b"FIELD(id, (1, 2), (3, 4))"),
            ([Identifier("a"), Identifier("b")], b"FIELD(id, `a`, `b`)"),
        ):
            self.assertEqual(bind("FIELD(id, ?)", [In(value)]), wanted)
            self.assertEqual(Template("FIELD(id, :a)").bind({"a": In(value)}), wanted)
        self.assertEqual(bind("COALESCE(:a, owner) IN (:a)", {"a": In([1, 2])}), b"COALESCE(1, 2, owner) IN (1, 2)")
        self.assertEqual(repr(In((1, "a"))), "In([1, 'a'])")
        given = [1]
        made = In(given)
        given.append(2)
        self.assertEqual(bind("?", [made]), b"1")
        for value in (5, "ab", b"ab", {1}, {1: 2}, range(2), iter([1]), None, In([1]), Identifier("a")):
            with self.subTest(value=value), self.assertRaises(mysql_params.ArgumentTypeError) as raised:
                In(value)
            self.assertEqual(str(raised.exception), f"an In is made of a list or a tuple, and not {type(value).__name__}")
        for value in ([In([1])], [1, In([2])], [(1, In([2]))], In([In([1])]), In([1, In([2])]), In([[In([1])]])):
            with self.subTest(value=value), self.assertRaises(mysql_params.ArgumentTypeError) as raised:
                bind("(:a)", {"a": value})
            self.assertIn("the value of `:a` has an item that is of type In: lists and rows are of values", str(raised.exception))
        with self.assertRaisesRegex(TypeError, "^the value for place 0 sets `a` to a value of type In: a column takes one value$"):
            bind("SET ?", [mysql_params.Assignments({"a": In([1])})])
        for call in (mysql_params.bind_in_both_modes, lambda query, given: mysql_params.bind_rows(query, [given])):
            self.assertRaisesRegex(TypeError, "is of type In, which has no literal$", call, "?", [In([1])])
        with self.assertRaises(mysql_params.FragmentError) as raised:
            bind("?", [In([])])
        self.assertEqual(str(raised.exception), "The list for place 0 is empty")

    def test_nothing_is_sent_of_a_list_that_was_not_said_to_be_one(self):
        query, admin = "UPDATE t SET doc = JSON_SET(doc, '$.name', :name)", {"name": ["x", "$.role", "admin"]}
        for kind in (PyMySQL, Connector):
            connection = kind()
            with self.assertRaises(mysql_params.UnbracketedError):
                mysql_params.execute(connection.cursor(), query, admin)
            with self.assertRaises(mysql_params.UnbracketedError) as raised:
                mysql_params.executemany(connection.cursor(), query, [{"name": "x"}, admin])
            self.assertEqual(raised.exception.row, 1)
            with self.assertRaises(mysql_params.UnbracketedError):
                rows = "INSERT INTO t VALUES :rows ON DUPLICATE KEY UPDATE doc = JSON_SET(doc, '$.name', :name)"
                mysql_params.execute_rows(connection.cursor(), rows, [(1, 2)], admin)
            self.assertEqual(connection.sent, [])

    def test_queries_that_are_no_text(self):
        for query in (5, None, ["SELECT 1"]):
            with self.subTest(query=query), self.assertRaises(TypeError) as raised:
                bind(query)
            self.assertEqual(str(raised.exception), f"a str or bytes are wanted, and not {type(query).__name__}")
        for query in ("SELECT 1", b"SELECT 1", bytearray(b"SELECT 1")):
            self.assertEqual(bind(query), b"SELECT 1")

    def test_comments_of_the_documentation(self):
        told = str(mysql_params.UnportableError.__doc__).split("A quiet comment")
        refused, taken = (re.findall(r"``(/\*.*?\*/)``", part) for part in told)
        self.assertEqual((len(refused), len(taken)), (2, 1))
        for comment in refused:
            found = mysql_params.first_unportable(f"SELECT {comment} 1")
            self.assertEqual((found.construct, found.position), (mysql_params.Construct.EXECUTABLE_COMMENT, 7))
        for comment in taken:
            self.assertIsNone(mysql_params.first_unportable(f"SELECT {comment} 1"))


if __name__ == "__main__":
    result = Result()
    unittest.defaultTestLoader.loadTestsFromTestCase(Test).run(result)
    sys.exit(0 if result.wasSuccessful() and result.testsRun else 1)
