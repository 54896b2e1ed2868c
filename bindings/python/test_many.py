"""Tests of many rows sent by a driver, over the server and the drivers that test_sending.py plays."""

import collections
import datetime
import decimal
import itertools
import sys
import types
import unittest

import mysql_params
from mysql_params import Assignments, Fault, Identifier, In, execute_rows, executemany
from test_mysql_params import Result
from test_sending import NONE, Connection, Connector, MySQLCursorPrepared, PyMySQL

INSERT, ROWS, UPDATE = "INSERT INTO t VALUES (?, ?)", "INSERT INTO t VALUES ?", "UPDATE t SET a = ? WHERE b = ?"
NAN = float("nan")
MOMENT = datetime.datetime(2019, 11, 27, 23, 30, tzinfo=datetime.timezone.utc)


def guarded(query, rows):
    """Return the text of rows without a backslash, whose guarded literals differ from plain ones in their quotes alone."""
    return mysql_params.bind(query, [rows]).replace(b"\\'", b"''")


class Short(list):
    """A list that says another length than it has items."""

    def __len__(self):
        return 1


class Test(unittest.TestCase):
    """All tests."""

    def refused(self, kind, call, query, rows, connection=None, **options):
        """Nothing is sent, and what is raised is returned."""
        connection = connection or PyMySQL()
        with self.assertRaises(kind) as raised:
            call(connection.cursor(), query, rows, **options)
        self.assertEqual(connection.sent, [])
        return raised.exception

    def test_a_text_for_each_row(self):
        connection = PyMySQL()
        self.assertEqual(executemany(connection.cursor(), UPDATE, [(1, "a"), [2, "%"]]), 6)
        self.assertEqual(connection.sent, [b"UPDATE t SET a = 1 WHERE b = 'a'", b"UPDATE t SET a = 2 WHERE b = '%'"])
        self.assertEqual(connection.asked, 1)
        for query in (UPDATE, INSERT):
            self.assertEqual(executemany(connection.cursor(), query, iter(())), 0)
        self.assertEqual(len(connection.sent), 2)

    def test_rows_of_all_kinds_in_order(self):
        connection = PyMySQL()
        rows = [
            (1, "a"),
            (decimal.Decimal("0.10"), 2**70),
            (b"\xff", None),
            (n for n in (3, 4)),
            [Identifier("a`"), In([1, 2])],
            (MOMENT, datetime.date(2019, 1, 2)),
            (0.25, "a"),
            [In([1, -0.5]), 1e16],
            ([Identifier("a"), Identifier("b")], Assignments({"a": 1})),
        ]
        executemany(connection.cursor(), "SELECT ?, ?", rows, zone=datetime.timezone.utc)
        texts = [b"1, 'a'", b"0.10, 1180591620717411303424", b"0xFF, NULL", b"3, 4", b"`a```, 1, 2"]
        texts += [b"'2019-11-27 23:30:00', '2019-01-02'", b"0.25e0, 'a'", b"1, -0.5e0, 1e16"]
        texts += [b"`a`, `b`, `a` = 1"]
        self.assertEqual(connection.sent, [b"SELECT " + text for text in texts])
        connection = PyMySQL(NONE)
        executemany(connection.cursor(), ":a", [{"a": "\\'"}, {b"a": "x", "b": 2}])
        self.assertEqual(connection.sent, [b"_utf8mb4 0x5C27", b"'x'"])

    def test_very_many_rows(self):
        connection = Connection()
        rows = [(i, "x" * (i % 400)) for i in range(20_000)]
        self.assertEqual(executemany(connection.cursor(), UPDATE, iter(rows)), 60_000)
        self.assertEqual(connection.sent, [b"UPDATE t SET a = %d WHERE b = '%s'" % (i, text.encode()) for i, text in rows])
        self.assertEqual(connection.asked, 1)
        executemany(connection.cursor(), UPDATE, rows[:2], always_ask=True)
        self.assertEqual(connection.asked, 2)

    def test_rows_of_an_insert(self):
        for query, rows, wanted in (
            (INSERT, [(1, "a"), [2, "%"], (n for n in (3, None))], b"INSERT INTO t VALUES (1, 'a'), (2, '%'), (3, NULL)"),
            (b"insert t value(?)", [[0.5], [decimal.Decimal("1.50")]], b"insert t value(0.5e0), (1.50)"),
            (
                "REPLACE INTO `a ?`.b (`x)`, y) VALUES ( :Y , :x ) ;",
                [{"x": 1, "Y": "),("}, {"Y": b"\xff", "x": In([7]), "z": 0}],
                b"REPLACE INTO `a ?`.b (`x)`, y) VALUES ( '),(' , 1 ), ( 0xFF , 7 ) ;",
            ),
            (
                "INSERT IGNORE INTO t(a)VALUES(?) ON DUPLICATE KEY UPDATE a = VALUES(a) + 1",
                [[1], [Identifier("b")]],
                b"INSERT IGNORE INTO t(a)VALUES(1), (`b`) ON DUPLICATE KEY UPDATE a = VALUES(a) + 1",
            ),
        ):
            connection = PyMySQL()
            self.assertEqual(executemany(connection.cursor(), query, iter(rows)), 3)
            self.assertEqual(connection.sent, [wanted])
            executemany(connection.cursor(), query, [next(iter(rows))])
            self.assertEqual(len(connection.sent), 2)

    def test_rows_of_an_insert_in_few_texts(self):
        rows = [(i, "it's " * (i % 9)) for i in range(5_000)]
        head = b"INSERT INTO t VALUES "
        for packet in (1 << 20, 1 << 14, 1 << 10, 90, 83):
            connection = PyMySQL(packet=packet)
            self.assertEqual(executemany(connection.cursor(), INSERT, iter(rows)), 3 * len(connection.sent))
            self.assertTrue(all(len(text) <= packet - 4 for text in connection.sent))
            texts = [text[len(head) :] for text in connection.sent]
            self.assertTrue(head + b", ".join(texts) == guarded(ROWS, rows))
            # The next row wouldn't have fitted into a text.
            after = [text.partition(b"), (")[0] for text in texts[1:]]
            self.assertTrue(all(len(head + a + b) + 3 > packet - 4 for a, b in zip(texts, after)))
        self.assertGreater(len(connection.sent), 3_000)

    def test_inserts_of_another_kind(self):
        rows = [(1, 2), (3, 4)]
        for query in (
            "INSERT INTO t VALUES (?, ? + 1)",
            "INSERT INTO t VALUES (0, 0), (?, ?)",
            "INSERT INTO t SELECT 0, 0 UNION VALUES (?, ?)",
            "INSERT INTO t (a, b) SELECT ?, ?",
            "INSERT INTO t VALUES (?, ?) RETURNING a",
            "INSERT INTO t VALUES (?, 1) ON DUPLICATE KEY UPDATE a = ?",
            "INSERT INTO u VALUES (1); INSERT INTO t VALUES (?, ?)",
            "INSERT INTO t VALUES (?, ?); DELETE FROM u",
            "INSERT INTO t VALUES (?, ?) ON DUPLICATE KEY UPDATE a = 1; DELETE FROM u",
            "/* one */ INSERT INTO t VALUES (?, ?)",
            "INSERT INTO t /* one */ VALUES (?, ?)",
            "INSERT INTO t VALUES (?, ?) /* one */",
            "SELECT 'INSERT INTO t VALUES (?)' IN (?, ?)",
        ):
            connection = PyMySQL()
            with self.subTest(query=query):
                self.assertEqual(executemany(connection.cursor(), query, rows), 6)
                self.assertEqual(connection.sent, [mysql_params.bind(query, row) for row in rows])

    def test_the_row_that_is_refused(self):
        good = [(i, "a") for i in range(20_000)]
        for kind, row in (
            (mysql_params.MarkCountError, (1,)),
            (mysql_params.FloatError, (1, NAN)),
            (mysql_params.FloatError, (0.5, NAN)),
            (mysql_params.FragmentError, (1, In([]))),
            (mysql_params.UnbracketedError, (1, [2, 3])),
            (TypeError, (1, {2})),
            (OverflowError, (1, 10**65)),
            (UnicodeEncodeError, (1, "\ud800")),
            (TypeError, 7),
        ):
            for at in (0, 3, 19_999):
                with self.subTest(kind=kind.__name__, at=at):
                    # A later row is worse, and the first that is refused is told.
                    found = self.refused(kind, executemany, INSERT, [*good[:at], row, *good[:3], 7])
                    self.assertEqual(found.row, at)
        to_do = "give None for NaN and infinities, else a text"
        for row in ((1, NAN), (0.5, -NAN), (In([0.5]), In([1, NAN]))):
            found = self.refused(mysql_params.FloatError, executemany, INSERT, [(0.5, 2), row, (1, {2})])
            self.assertEqual((found.row, str(found)), (1, f"row 1: The value for place 1 is a float: {to_do}"))

    def test_a_row_that_is_too_long(self):
        for packet, row in ((34, None), (33, 1), (32, 0)):
            connection = PyMySQL(packet=packet)
            rows = [(1, "a"), (2, "b" * 2)]
            if row is None:
                self.assertEqual(executemany(connection.cursor(), INSERT, rows), 6)
                continue
            found = self.refused(mysql_params.PacketError, executemany, INSERT, rows, connection)
            self.assertEqual((found.row, found.most), (row, packet - 4))

    def test_a_text_that_a_driver_would_cut(self):
        rows = [(1, "a"), (2, "delimiter ;")]
        found = self.refused(mysql_params.DelimiterError, executemany, INSERT, rows, Connector())
        self.assertEqual((found.row, found.position), (1, 26))
        found = self.refused(mysql_params.DelimiterError, execute_rows, ROWS, rows, Connector())
        self.assertEqual((found.row, found.position), (None, 36))

    def test_what_is_asked_first(self):
        for call, query in ((executemany, INSERT), (execute_rows, ROWS)):
            with self.subTest(call=call.__name__):
                self.refused(mysql_params.SessionError, call, query, [(1, 2)], PyMySQL(client="gbk"))
                self.refused(mysql_params.UnportableError, call, "/*! */" + query + "/*! ? */", [(1, 2)])
                self.refused(TypeError, call, query, [(1, 2)], zone="UTC")
                with self.assertRaises(TypeError):
                    call(MySQLCursorPrepared(PyMySQL()), query, [(1, 2)])

    def test_rows_in_one_text(self):
        for rows, wanted in (
            ([(1, "a"), [2, "it's"]], b"(1, 'a'), (2, 'it''s')"),
            ([{3: 0, 4: None}.keys(), {3: 0, 4: None}.values()], b"(3, 4), (0, NULL)"),
            ([(decimal.Decimal("0.10"), 2**70)], b"(0.10, 1180591620717411303424)"),
            ([(MOMENT,), (b"\xff",)], b"('2019-11-27 23:30:00'), (0xFF)"),
            ([Short([1, 2])], b"(1, 2)"),
            ([(1, 0.1), [-0.0, None], (1e16, "a")], b"(1, 0.1e0), (-0.0e0, NULL), (1e16, 'a')"),
            ([(decimal.Decimal("0.5"), 0.5), (2**70, 5e-324)], b"(0.5, 0.5e0), (1180591620717411303424, 5e-324)"),
        ):
            for query in (ROWS, "INSERT INTO t VALUES :rows", b"INSERT INTO t VALUES ?"):
                connection = PyMySQL()
                self.assertEqual(execute_rows(connection.cursor(), query, iter(rows), zone=datetime.timezone.utc), 3)
                self.assertEqual(connection.sent, [b"INSERT INTO t VALUES " + wanted])
        generated = PyMySQL()
        execute_rows(generated.cursor(), ROWS, ((m for m in (n, 7)) for n in range(2)))
        self.assertEqual(generated.sent, [b"INSERT INTO t VALUES (0, 7), (1, 7)"])
        connection = PyMySQL(NONE)
        execute_rows(connection.cursor(), "VALUES ? ON DUPLICATE KEY UPDATE a = 1", [("\\",)])
        self.assertEqual(connection.sent, [b"VALUES (_utf8mb4 0x5C) ON DUPLICATE KEY UPDATE a = 1"])
        self.assertEqual(execute_rows(connection.cursor(), ROWS, iter(())), 0)
        self.assertEqual(len(connection.sent), 1)

    def test_rows_by_name(self):
        rows = [{"id": 1, "name": "it's"}, collections.OrderedDict(name=None, id=0.5), types.MappingProxyType({"name": 2, "id": 3})]
        wanted = b"INSERT INTO t VALUES (1, 'it''s'), (0.5e0, NULL), (3, 2)"
        for query in (ROWS, "INSERT INTO t VALUES :rows"):
            connection = PyMySQL()
            execute_rows(connection.cursor(), query, iter(rows))
            self.assertEqual(connection.sent, [wanted])

    def test_rows_with_other_names(self):
        first = {"id": 1, "name": "a"}
        for row, kind, message in (
            ({"id": 1}, ValueError, "row {}: it lacks the name 'name' of the first row"),
            ({"id": 1, "Name": 2}, ValueError, "row {}: it lacks the name 'name' of the first row"),
            ({"id": 1, "name": 2, "b": 3}, ValueError, "row {}: it has the name 'b', which the first row lacks"),
            ((1, 2), TypeError, "row {}: it is a tuple, and the first row has names"),
        ):
            for at in (1, 2_000):
                with self.subTest(row=row, at=at):
                    rows = [*[first] * at, row, first, {}]
                    found = self.refused(kind, execute_rows, ROWS, rows, PyMySQL(packet=1 << 12))
                    self.assertEqual((found.row, str(found)), (at, message.format(at)))
        found = self.refused(mysql_params.FragmentError, execute_rows, ROWS, [{}])
        self.assertEqual((found.fault, found.in_row), (Fault.EMPTY_ROW, 0))
        # An earlier row is told.
        found = self.refused(mysql_params.FloatError, execute_rows, ROWS, [first, {"name": NAN, "id": 0}, {"id": 1}])
        self.assertEqual(found.row, 1)

    def test_parameters_beside_rows(self):
        query = "INSERT INTO :table VALUES :rows ON DUPLICATE KEY UPDATE a = :a, b = :a"
        beside = {"table": Identifier("s", "t"), b"a": In([decimal.Decimal("1.50")]), "other": 0}
        for rows in ([(1, "x"), (2, None)], [{"i": 1, "n": "x"}, {"n": None, "i": 2}]):
            connection = PyMySQL()
            execute_rows(connection.cursor(), query, rows, beside)
            wanted = b"INSERT INTO `s`.`t` VALUES (1, 'x'), (2, NULL) ON DUPLICATE KEY UPDATE a = 1.50, b = 1.50"
            self.assertEqual(connection.sent, [wanted])
        rows = [{"i": 1, "n`": "x"}, {"n`": None, "i": 2}]
        beside = {"columns": list(map(Identifier, rows[0])), "set": Assignments({"n`": 0.5})}
        execute_rows(connection.cursor(), "INSERT INTO t (:columns) VALUES :rows ON DUPLICATE KEY UPDATE :set", rows, beside)
        wanted = b"INSERT INTO t (`i`, `n```) VALUES (1, 'x'), (2, NULL) ON DUPLICATE KEY UPDATE `n``` = 0.5e0"
        self.assertEqual(connection.sent[-1], wanted)
        for nothing in (None, {}):
            execute_rows(connection.cursor(), ROWS, [(1,)], nothing)
            self.assertEqual(connection.sent[-1], b"INSERT INTO t VALUES (1)")
        # Each text has room for the parameters.
        connection, long = PyMySQL(packet=1 << 10), "'" * 200
        execute_rows(connection.cursor(), "VALUES :r, :a", ((n, n) for n in range(500)), {"a": long})
        self.assertTrue(all(len(text) <= 1020 for text in connection.sent))
        self.assertTrue(all(text.count(b"), (") > 3 for text in connection.sent[:-1]))
        between = b", '" + b"''" * 200 + b"'"
        self.assertTrue(all(text.endswith(between) for text in connection.sent))
        whole = b", ".join(text[7 : -len(between)] for text in connection.sent)
        self.assertEqual(whole, b", ".join(b"(%d, %d)" % (n, n) for n in range(500)))

    def test_parameters_beside_rows_that_are_refused(self):
        for query, params, kind in (
            ("VALUES ?", {"a": 1}, ValueError),
            ("VALUES :a", {"a": 1}, ValueError),
            ("VALUES :r, :r, :a", {"a": 1}, ValueError),
            ("VALUES :r, :b, :a", {"a": 1}, ValueError),
            ("VALUES :r, :a", [1], TypeError),
            ("VALUES :r, :a", {"a": {1}}, TypeError),
            ("VALUES :r, :a", {"a": 1, "": 1}, ValueError),
            ("VALUES :r, :a", {"a": NAN}, mysql_params.FloatError),
            ("VALUES :r, :a", {"a": In([])}, mysql_params.FragmentError),
            ("VALUES :r, :a", {"a": [(1, 2)]}, mysql_params.UnbracketedError),
            ("VALUES :r, :a", {"a": 1, b"a": 1}, mysql_params.RepeatedNameError),
            ("VALUES :r, 1:a", {"a": 1}, mysql_params.NotAloneError),
            # A name more and one less, as a request may have them, move the rows to the other place.
            ("VALUES :r ON DUPLICATE KEY UPDATE a = :a", {"r": 1}, mysql_params.UnbracketedError),
            ("VALUES :r ON DUPLICATE KEY UPDATE a = COALESCE(:a, b)", {"r": [[1, 2]]}, mysql_params.UnbracketedError),
        ):
            with self.subTest(query=query, params=params):
                found = self.refused(kind, execute_rows, query, [(1, 2)], params=params)
                self.assertIsNone(getattr(found, "row", None))
        for row, kind in (((1, NAN), mysql_params.FloatError), ((1, {2}), TypeError)):
            found = self.refused(kind, execute_rows, "VALUES :r, :a", [(1, 2), row], params={"a": 1})
            self.assertEqual(found.row, 1)
        found = self.refused(mysql_params.FragmentError, execute_rows, ":a, (:r)", [(1, 2), (1,)], params={"a": 1})
        self.assertEqual((found.name, found.in_row, found.fault), ("r", 1, Fault.ROW_LENGTH))
        found = self.refused(ValueError, execute_rows, ":r, :b, :a", [(1, 2)], params={"a": 1})
        wanted = "with parameters beside the rows one name is wanted, which takes the rows, and the query has "
        self.assertEqual(str(found), wanted + "2 places without a parameter")

    def test_few_texts(self):
        rows = [(i, "it's " * (i % 9), None if i % 7 else b"\xff\0" * (i % 50)) for i in range(5_000)]
        for packet in (1 << 20, 1 << 14, 1 << 10):
            connection = PyMySQL(packet=packet)
            self.assertEqual(execute_rows(connection.cursor(), ROWS, iter(rows)), 3 * len(connection.sent))
            self.assertTrue(all(len(text) <= packet - 4 for text in connection.sent))
            head = b"INSERT INTO t VALUES "
            whole = b", ".join(text[len(head) :] for text in connection.sent)
            self.assertTrue(head + whole == guarded(ROWS, rows))
            # At least a quarter of each is used, except of the last.
            self.assertTrue(all(len(text) > packet // 4 for text in connection.sent[:-1]), packet)
        self.assertGreater(len(connection.sent), 100)

    def test_estimates_of_literals(self):
        # A text is never longer than it was estimated to be: then one with two rows is too long.
        for value in (
            *("'" * 50, "\\" * 50, "\0" * 50, b"\xff" * 50, "", None, -(1 << 63), (1 << 64) - 1, 10**65 - 1, 1 - 10**65),
            *("\u00e9\\" * 50, "\u8aa0\\" * 50, "\u00e9" + "\\" * 50, "\u00e9", "\\", "'", "\u00e9\\", "a"),
            *(datetime.datetime.max, datetime.timedelta.min, datetime.time.max, decimal.Decimal("-0." + "1" * 64)),
            *(-1.2345678901234567e-308, -0.00012345678901234567, -1234567890123456.7, 5.0),
        ):
            for sql_mode, steady, width in itertools.product(("", NONE), (False, True), (1, 12)):
                row, one = (value,) * width, PyMySQL(sql_mode)
                execute_rows(one.cursor(), "VALUES ?", [row], steady=steady)
                length = len(one.sent[0])
                for packet in range(length + 4, 4 * length + 200, 5 * width):
                    with self.subTest(value=value, sql_mode=sql_mode, steady=steady, packet=packet):
                        connection = PyMySQL(sql_mode, packet=packet)
                        execute_rows(connection.cursor(), "VALUES ?", [row] * 5, steady=steady)
                        self.assertTrue(all(len(text) <= packet - 4 for text in connection.sent))

    def test_guarded_rows(self):
        rows = [(1, "it's"), ("\u00e9\\", b"\xff\\"), (None, "\\'"), (decimal.Decimal("1.5"), "a\\"), ("\n", ""), (In(["'"]), "\\")]
        escaped = ["1, 'it''s'", "'\u00e9' '\\\\', 0xFF5C", "NULL, '\\\\'''", "1.5, 'a\\\\'", "'\n', ''", "'''', '\\\\'"]
        bare = ["1, 'it''s'", "_utf8mb4 0xC3A95C, 0xFF5C", "NULL, _utf8mb4 0x5C27", "1.5, _utf8mb4 0x615C", "'\n', ''"]
        bare += ["'''', _utf8mb4 0x5C"]
        of_any = ["1, _utf8mb4'it''s'", "_utf8mb4 0xC3A95C, 0xFF5C", "NULL, _utf8mb4 0x5C27", "1.5, _utf8mb4 0x615C"]
        of_any += ["_utf8mb4 0x0A, _utf8mb4''", "_utf8mb4'''', _utf8mb4 0x5C"]
        for sql_mode, steady, wanted in (("", False, escaped), (NONE, False, bare), ("", True, of_any), (NONE, True, of_any)):
            texts = [text.encode() for text in wanted]
            named = [{"B": second, "a": first, "other": 0} for first, second in rows]
            for times, front in itertools.product((1, 3_000), ("SELECT ", "SELECT " + "a, " * 700)):
                with self.subTest(sql_mode=sql_mode, steady=steady, times=times, length=len(front)):
                    for query, given in (("?, ?", rows), (":a, :B", named)):
                        connection = PyMySQL(sql_mode)
                        executemany(connection.cursor(), front + query, given * times, steady=steady)
                        self.assertTrue(connection.sent == [front.encode() + text for text in texts] * times)
            connection = PyMySQL(sql_mode)
            executemany(connection.cursor(), INSERT, rows, steady=steady)
            execute_rows(connection.cursor(), ROWS, rows[:-1], steady=steady)  # A row takes no list.
            values = [b"INSERT INTO t VALUES (%s)" % b"), (".join(some) for some in (texts, texts[:-1])]
            self.assertEqual(connection.sent, values)

    def test_names_of_rows(self):
        """Rows whose names are the same objects, equal ones, in another order, more, of other types, or refused."""
        names = ["a", "B", *(f"n{number}" for number in range(40))]
        query = "SELECT " + ", ".join(f":{name}" for name in names)
        equal = ["".join(list(name)) for name in names]
        for given in (names, equal, names[::-1], [name.encode() for name in names], names + ["other"], ["o", *names], names[20:] + equal[:20]):
            rows = [{name: number for number, name in enumerate(some)} for some in (given, names, given, given, equal)]
            connection = PyMySQL()
            executemany(connection.cursor(), query, rows)
            wanted = []
            for row in rows:
                found = {name if type(name) is str else name.decode(): number for name, number in row.items()}
                wanted.append(("SELECT " + ", ".join(str(found[name]) for name in names)).encode())
            self.assertEqual(connection.sent, wanted)
        for row, kind in (({"a": 1}, mysql_params.MissingError), ({"": 1}, ValueError), ({5: 1}, TypeError), ({"\ud800": 1}, UnicodeEncodeError)):
            found = self.refused(kind, executemany, "UPDATE t SET a = :a, b = :b", [{"a": 1, "b": 2}] * 3 + [row])
            self.assertEqual(found.row, 3)

    def test_rows_of_queries_and_names_that_are_not_steady(self):
        rows = [(1, "it's\\"), (2, "\n")]
        for sql_mode, texts in (("", "(1, 'it\\'s\\\\'), (2, '\\n')"), (NONE, "(1, 'it''s\\'), (2, '\n')")):
            connection = PyMySQL(sql_mode)
            for call, query, beside in (
                (executemany, "INSERT INTO `\u00e9` VALUES (?, ?)", {}),
                (execute_rows, "INSERT INTO `\u00e9` VALUES ?", {}),
                (execute_rows, "INSERT INTO :t VALUES :rows", {"params": {"t": Identifier("\u00e9")}}),
            ):
                call(connection.cursor(), query, rows, **beside)
                self.assertEqual(connection.sent.pop(), f"INSERT INTO `\u00e9` VALUES {texts}".encode())
                kind = mysql_params.UnsteadyFragmentError if beside else mysql_params.UnsteadyError
                self.refused(kind, call, query, rows, PyMySQL(sql_mode), steady=True, **beside)
            # Only the row with such a name has plain literals.
            executemany(connection.cursor(), "SELECT ? = ?", [(Identifier(name), "'") for name in ("a", "\u00e9", "b")])
            plain = b"''''" if sql_mode == NONE else b"'\\''"
            self.assertEqual(connection.sent, [b"SELECT `a` = ''''", b"SELECT `\xc3\xa9` = " + plain, b"SELECT `b` = ''''"])

    def test_rows_that_are_refused(self):
        good = [(i, "a") for i in range(3_000)]
        packet = PyMySQL(packet=1 << 12)
        for row, fault, item in (
            ((1,), Fault.ROW_LENGTH, 0),
            ((1, 2, 3), Fault.ROW_LENGTH, 0),
            ((), Fault.EMPTY_ROW, 0),
        ):
            for at in (1, 2, 150, 2_999):
                with self.subTest(row=row, at=at):
                    rows = [*good[:at], row, *good[:2], ()]
                    found = self.refused(mysql_params.FragmentError, execute_rows, ROWS, rows, packet)
                    self.assertEqual((found.fault, found.in_row, found.item, found.name), (fault, at, item, None))
                    found = self.refused(mysql_params.FragmentError, execute_rows, "VALUES :r", rows, packet)
                    self.assertEqual((found.fault, found.in_row, found.name), (fault, at, "r"))
        self.assertEqual(self.refused(mysql_params.FragmentError, execute_rows, ROWS, [()]).fault, Fault.EMPTY_ROW)
        for kind, row in ((TypeError, (1, {2})), (OverflowError, (1, 10**65)), (mysql_params.FloatError, (0.5, NAN))):
            for at in (0, 1, 2_999):
                with self.subTest(kind=kind.__name__, at=at):
                    found = self.refused(kind, execute_rows, ROWS, [*good[:at], row, (1, {2})], packet)
                    self.assertEqual(found.row, at)
        # The first that is refused is told.
        found = self.refused(mysql_params.FloatError, execute_rows, ROWS, [(0.5, 2), (1, NAN), (1,), (1, {2})])
        self.assertEqual(found.row, 1)
        # Of a row of another width, what its values are refused for.
        found = self.refused(mysql_params.FloatError, execute_rows, ROWS, [(1, 2), (3, 4), (NAN,)])
        self.assertEqual(found.row, 2)
        for row in ("ab", b"ab", {1: 2}, {1}, 7, None):
            found = self.refused(TypeError, execute_rows, ROWS, [(1, 2), row])
            self.assertEqual(found.row, 1)
            self.assertEqual(str(found), f"row 1: a row is a list or a tuple of values, and not {type(row).__name__}")
        self.assertIn("in a row: rows are of values", str(self.refused(TypeError, execute_rows, ROWS, [([1], 2)])))

    def test_queries_with_another_number_of_places(self):
        for query, kind in (
            ("INSERT INTO t VALUES (?, ?)", ValueError),
            ("INSERT INTO t VALUES (1)", ValueError),
            ("INSERT INTO :t VALUES :rows", ValueError),
            (":a, :a", ValueError),
            (":a, ?", mysql_params.MixedError),
            ("1?", mysql_params.NotAloneError),
        ):
            with self.subTest(query=query):
                self.refused(kind, execute_rows, query, [(1, 2)])
        for query, places in ((":a, :b", "2 names"), ("?, ?, ?", "3 marks"), ("1", "0 marks")):
            found = self.refused(ValueError, execute_rows, query, [(1, 2)])
            wanted = f"a query with one place is wanted, which takes the rows, and it has {places}"
            self.assertEqual(str(found), f"{wanted}: for a place for each value take executemany")

    def test_a_text_of_rows_that_is_too_long(self):
        found = self.refused(mysql_params.PacketError, execute_rows, ROWS, [(1,), ("x" * 500,)], PyMySQL(packet=400))
        self.assertEqual((found.length, found.most), (len(ROWS) - 1 + 504, 396))


if __name__ == "__main__":
    result = Result()
    unittest.defaultTestLoader.loadTestsFromTestCase(Test).run(result)
    sys.exit(0 if result.wasSuccessful() and result.testsRun else 1)
