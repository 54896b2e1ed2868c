"""Tests of names with capitals by each call. The texts are restated from "Names with capitals" in docs/RULES.md."""

import sys
import unittest

import mysql_params
from mysql_params import Construct, Identifier, Keyword, Template, bind, bind_anywhere, bind_rows, names
from test_mysql_params import Result
from test_sending import PyMySQL

QUERY = "id = :userId AND name = :Name"
GIVEN = {"userId": 42, "Name": "it's"}
HINT = "SELECT /*+ SET_VAR(x=:A) */ 1"


class Test(unittest.TestCase):
    """All tests."""

    def test_values(self):
        self.assertEqual(bind(QUERY, GIVEN), b"id = 42 AND name = 'it\\'s'")
        self.assertEqual(bind(QUERY, GIVEN, True), b"id = 42 AND name = 'it''s'")
        self.assertEqual(bind_anywhere(QUERY, GIVEN), b"id = 42 AND name = _utf8mb4'it''s'")
        text = mysql_params.bind_in_both_modes("\u00fc = :Name", GIVEN)
        self.assertEqual(text.decode(), "\u00fc = _utf8mb4'it''s'")
        form = b"\x06userId\x06\x00"
        self.assertEqual(mysql_params.bind_form(":userId", form), b"NULL")

    def test_names_that_differ_by_case(self):
        given = {"ID": 1, b"Id": 2, "id": 3}
        self.assertEqual(bind(":id, :Id, :ID, ':ID', :id", given), b"3, 2, 1, ':ID', 3")
        with self.assertRaises(mysql_params.MissingError) as raised:
            bind("SELECT :iD", given)
        self.assertEqual((raised.exception.name, raised.exception.position), (b"iD", 8))
        self.assertEqual(str(raised.exception), "`:iD` has no value")

    def test_colons_that_begin_no_name(self):
        self.assertEqual(bind("x: LOOP :1 :Id", {"Id": 2, "LOOP": 3}), b"x: LOOP :1 2")

    def test_fragments(self):
        query = "SELECT * FROM :Table WHERE id IN (:userIds) ORDER BY id :Direction"
        given = {"Table": Identifier("shop", "users"), "userIds": [7, 8], "Direction": Keyword("DESC", among=("DESC",))}
        wanted = b"SELECT * FROM `shop`.`users` WHERE id IN (7, 8) ORDER BY id DESC"
        self.assertEqual(bind(query, given), wanted)
        self.assertEqual(bind_anywhere(query, given), wanted)
        with self.assertRaises(mysql_params.FragmentError) as raised:
            bind("IN (:userIds)", {"userIds": []})
        self.assertEqual(raised.exception.name, "userIds")

    def test_rows_and_templates(self):
        rows = [{"userId": 1, "Name": "a"}, {"Name": "b", "userId": 2}]
        template, wanted = Template("(:userId, :Name)"), [b"(1, 'a')", b"(2, 'b')"]
        self.assertEqual(bind_rows("(:userId, :Name)", rows), wanted)
        self.assertEqual(template.bind_rows(rows), wanted)
        self.assertEqual([template.bind(row) for row in rows], wanted)
        with self.assertRaises(mysql_params.MissingError) as raised:
            bind_rows("(:userId, :Name)", [rows[0], {"userID": 3, "Name": "c"}])
        self.assertEqual((raised.exception.row, raised.exception.texts), (1, wanted[:1]))
        # Of a long query a table is kept.
        for number in (1, 2):
            self.assertEqual(bind(":userId /*" + "x" * 5000 + "*/", {"userId": number})[:4], b"%d /*" % number)

    def test_queries(self):
        found = names("SELECT :userId, ':A', :ID, :userId")
        self.assertEqual(found, (b"SELECT ?, ':A', ?, ?", ["userId", "ID", "userId"]))
        self.assertIsNone(mysql_params.first_unportable("SELECT :userId"))
        self.assertEqual(mysql_params.first_unportable(HINT), (Construct.HINT, 7))
        self.assertEqual(mysql_params.first_unportable_in_client(HINT), (Construct.HINT, 7))
        with self.assertRaises(mysql_params.UnportableError) as raised:
            bind_anywhere(HINT, {"A": 1})
        self.assertEqual((raised.exception.position, raised.exception.construct), (7, Construct.HINT))

    def test_refusals(self):
        for query, position, touches in (
            ("SELECT x:A", 8, "`:A` at byte 8 touches `x`"),
            ("SELECT x::A", 9, "`:A` at byte 9 touches `:`"),
            ("lbl:BEGIN", 3, "`:BEGIN` at byte 3 touches `lbl`"),
            ("SELECT :A:A", 7, "`:A` at byte 7 touches `:`"),
        ):
            with self.subTest(query=query), self.assertRaises(mysql_params.NotAloneError) as raised:
                bind(query, {"A": 1, "BEGIN": 1})
            self.assertEqual((raised.exception.place, raised.exception.position), (0, position))
            self.assertEqual(str(raised.exception), touches + ": put a space between, or behind the colon of a label")
        self.assertRaises(mysql_params.MixedError, bind, ":A, ?", {"A": 1})
        self.assertRaises(mysql_params.MixedError, names, ":A, ?")
        self.assertRaises(mysql_params.PositionalForNamedError, bind, ":A", [1])

    def test_texts_that_are_sent(self):
        connection = PyMySQL()
        mysql_params.execute(connection.cursor(), QUERY, GIVEN)
        mysql_params.executemany(connection.cursor(), ":ID", [{"ID": 1}, {"ID": 2}])
        mysql_params.execute_rows(connection.cursor(), "VALUES :Rows", [(1, "a"), (2, "b")])
        texts = [b"id = 42 AND name = 'it''s'", b"1", b"2", b"VALUES (1, 'a'), (2, 'b')"]
        self.assertEqual(connection.sent, texts)
        with self.assertRaises(mysql_params.UnportableError):
            mysql_params.execute(connection.cursor(), HINT, {"A": 1})
        self.assertEqual(connection.sent, texts)


if __name__ == "__main__":
    result = Result()
    unittest.defaultTestLoader.loadTestsFromTestCase(Test).run(result)
    sys.exit(0 if result.wasSuccessful() and result.testsRun else 1)
