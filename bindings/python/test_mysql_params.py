"""Tests of mysql_params: the cases of bindings/cases, every value of one byte, rows, templates, errors of use."""

import datetime
import decimal
import doctest
import enum
import itertools
import pickle
import sys
import threading
import unittest
from unittest import mock

import mysql_params
from mysql_params import Construct, Template, _archive, _native, _template
from mysql_params import bind, bind_anywhere, bind_form, bind_form_anywhere, bind_rows
from mysql_params import first_unportable, first_unportable_in_client, names
from shared_cases import CASES, CONSTRUCTS, FIELDS, NUMBERS, cases, text_of

NAN = float("nan")


def literal_without_backslashes(byte):
    """Return the literal of one byte without backslash escapes: there only a quote isn't itself."""
    if byte >= 128:
        return b"0x%02X" % byte
    return b"''''" if byte == 39 else b"'" + bytes([byte]) + b"'"


def literal(byte):
    """Return the literal of one byte, after "SQL literals" in docs/RULES.md."""
    escapes = {0: b"0", 10: b"n", 13: b"r", 26: b"Z", 92: b"\\", 39: b"'", 34: b'"'}
    if byte >= 128:
        return b"0x%02X" % byte
    return b"'\\" + escapes[byte] + b"'" if byte in escapes else b"'" + bytes([byte]) + b"'"


class Test(unittest.TestCase):
    """All tests."""

    def expect(self, case, call):
        """The call gives the text or the refusal that the case wants, with its fields and its message."""
        with self.subTest(case=case.lines):
            if case.refusal is None:
                self.assertEqual(call(), case.text)
                return
            wanted, arguments = case.error()
            with self.assertRaises(wanted) as raised:
                call()
            error = raised.exception
            self.assertIs(type(error), wanted)
            self.assertEqual(error.number, NUMBERS[case.refusal])
            self.assertEqual(error.args, arguments)
            for field, argument in zip(FIELDS.get(case.refusal, ()), arguments):
                self.assertEqual(getattr(error, field), argument)
            word = case.fields.get("word")
            self.assertEqual(getattr(error, "word", None), None if word is None else text_of(word))
            if case.refusal in ("FLOAT", "FAULT", "UNSTEADY_FRAGMENT", "UNBRACKETED"):
                self.assertEqual(error.name, case.fields.get("of"))
            if case.message is not None:
                self.assertEqual(str(error), case.message)

    def test_table_of_binding(self):
        for case in cases("bind.txt"):
            self.expect(case, lambda: bind(case.query, case.given(), case.no_backslash_escape))
            template = Template(case.query, case.no_backslash_escape)
            for _ in range(2):
                self.expect(case, lambda: template.bind(case.given()))
            if not case.no_backslash_escape:
                self.expect(case, lambda: bind(case.query, case.given()))
                self.expect(case, lambda: Template(case.query).bind(case.given()))

    def test_table_of_fragments(self):
        for case in cases("fragments.txt"):
            self.expect(case, lambda: bind(case.query, case.given(), case.no_backslash_escape))
            self.expect(case, lambda: Template(case.query, case.no_backslash_escape).bind(case.given()))

    def test_tables_that_are_kept(self):
        """Every case, with a table that is kept of each query, also of a short one."""
        tables = _archive.Tables(128, 1 << 23, 0)
        self.addCleanup(_native.keep_from, _native.keep_from(0))
        with mock.patch.object(_archive, "TABLES", tables):
            for _ in range(2):
                for case in cases("bind.txt"):
                    self.expect(case, lambda: bind(case.query, case.given(), case.no_backslash_escape))
                for case in cases("forms.txt"):
                    self.expect(case, lambda: bind_form(case.query, case.form, case.no_backslash_escape))
        self.assertTrue(0 < len(tables.kept) <= 128)

    def test_tables_that_are_let_go(self):
        tables = _archive.Tables(2, 100, 3)
        first = tables.of("? ?", False)
        self.assertEqual((first.query, first.mode, first.count, first.size), (b"? ?", False, 2, 35))
        self.assertIs(tables.of("? ?", False), first)
        # Another mode, and bytes in place of a str, are another table.
        self.assertIsNot(tables.of("? ?", True), first)
        self.assertIsNot(tables.of(b"? ?", True), tables.of("? ?", True))
        self.assertEqual(len(tables.kept), 2)
        self.assertIsNot(tables.of("? ?", False), first)
        # One that is asked for again stays.
        kept = tables.of("aaa", False)
        tables.of("bbb", False)
        self.assertIs(tables.of("aaa", False), kept)
        tables.of("ccc", False)
        self.assertIs(tables.of("aaa", False), kept)
        self.assertEqual({key[2] for key in tables.kept}, {"aaa", "ccc"})
        # A longer one takes the place of both, and one that is too long is none.
        self.assertEqual(tables.of("x" * 98, False).count, 0)
        self.assertEqual((len(tables.kept), tables.size), (1, 98))
        self.assertEqual(tables.of("?" * 90, False).count, 90)
        self.assertEqual((len(tables.kept), tables.size), (1, 98))
        self.assertIsNone(tables.of("x" * 101, False))
        self.assertIsNone(tables.of("\u00e9", False))

        class Text(str):
            pass

        for query, mode in (("??", False), (Text("? ?"), False), (bytearray(b"? ?"), False), ("? ?", 1), (None, False)):
            self.assertIsNone(tables.of(query, mode))

    def test_long_queries(self):
        query = "SELECT ? /*" + "x" * 5000 + "*/"
        for given in (query, query.encode()):
            for number in (1, 2):
                self.assertEqual(bind(given, [number]), query.replace("?", str(number)).encode())
        self.assertRaises(mysql_params.MarkCountError, bind, query, [])
        self.assertRaises(TypeError, bind, query, [1], 0)

    def test_templates(self):
        template = Template("'\\' :a '", True)
        self.assertEqual((template.query, template.no_backslash_escape), (b"'\\' :a '", True))
        self.assertEqual(template.bind({"a": 1}), b"'\\' 1 '")
        self.assertEqual(Template("'\\' :a '").bind(), b"'\\' :a '")
        for name in ("query", "no_backslash_escape", "other"):
            with self.assertRaises(AttributeError):
                setattr(template, name, b"")
        self.assertRaises(TypeError, Template, 1)
        self.assertRaises(TypeError, Template, "", 0)
        self.assertRaises(UnicodeEncodeError, Template, "\ud800")
        # It has a copy of the query.
        query = bytearray(b"?, ?")
        template = Template(query)
        query[:] = b"xxxx"
        self.assertEqual(template.bind([1, 2]), b"1, 2")

    def test_threads_of_a_template(self):
        template, wrong = Template("?, ?"), []
        tables = _archive.Tables(2, 100, 0)

        def work(number):
            for row in range(200):
                if template.bind([number, row]) != b"%d, %d" % (number, row):
                    wrong.append(number)
                query = f"? {row % 5}"
                if tables.of(query, False).query != query.encode():
                    wrong.append(query)

        threads = [threading.Thread(target=work, args=(number,)) for number in range(4)]
        for thread in threads:
            thread.start()
        for thread in threads:
            thread.join()
        self.assertEqual(wrong, [])
        self.assertEqual(tables.size, sum(table.size for table in tables.kept.values()))

    def test_table_of_steady_binding(self):
        for case in cases("anywhere.txt"):
            if case.form:
                self.expect(case, lambda: bind_form_anywhere(case.query, case.form))
            else:
                self.expect(case, lambda: bind_anywhere(case.query, case.given()))

    def test_table_of_steady_fragments(self):
        for case in cases("fragments_anywhere.txt"):
            self.expect(case, lambda: bind_anywhere(case.query, case.given()))

    def test_table_of_both_modes(self):
        for case in cases("both_modes.txt"):
            if case.form:
                self.expect(case, lambda: mysql_params.bind_form_in_both_modes(case.query, case.form))
            else:
                self.expect(case, lambda: mysql_params.bind_in_both_modes(case.query, case.given()))

    def test_flat_forms(self):
        for case in cases("forms.txt"):
            self.expect(case, lambda: bind_form(case.query, case.form, case.no_backslash_escape))
            self.expect(case, lambda: Template(case.query, case.no_backslash_escape).bind_form(case.form))

    def expect_rows(self, case, rows, call):
        """The rows have the texts that the case wants, each as by itself; or are refused after them."""
        with self.subTest(case=case.lines):
            if case.refusal is None:
                texts = call(iter(rows))
                self.assertEqual(texts, case.texts)
                self.assertEqual(texts, [bind(case.query, row, case.no_backslash_escape) for row in rows])
                return
            with self.assertRaises(mysql_params.Error) as raised:
                call(iter(rows))
            error, row = raised.exception, len(case.texts)
            self.assertEqual((error.row, error.texts), (row, case.texts))
            self.assertTrue(str(error).startswith(f"row {row}: "))
            error.row = None

            def again():
                raise error

            self.expect(case, again)

    def test_rows_of_queries(self):
        for case in cases("rows.txt"):
            rows = [case.given_of(params) for params in case.rows]
            mode = case.no_backslash_escape
            self.expect_rows(case, rows, lambda given: bind_rows(case.query, given, mode))
            self.expect_rows(case, rows, Template(case.query, mode).bind_rows)
            if not mode:
                self.expect_rows(case, rows, lambda given: bind_rows(case.query, given))
                self.expect_rows(case, rows, Template(case.query).bind_rows)

    def test_many_rows(self):
        for length, count in ((1, 100_000), (251, 2000), (70_000, 20)):
            wanted = [b"SELECT '%s'" % (b"%0*d" % (length, row)) for row in range(count)]
            texts = bind_rows("SELECT ?", ([f"{row:0{length}}"] for row in range(count)))
            self.assertTrue(texts == wanted, f"texts of {length} bytes")
        # A query that is longer than a batch.
        query = "SELECT ? /*" + "x" * 300_000 + "*/"
        self.assertTrue(bind_rows(query, [(1,), (2,)]) == [bind(query, [1]), bind(query, [2])])
        self.assertEqual(bind_rows(":a ?", []), [])

    def test_rows_of_all_columns(self):
        columns = (
            [0, -1, (1 << 63) - 1, -(1 << 63), True],
            ["", "it's", "\u20ac" * 30, "x" * 100],
            [b"", b"\xff\0", b"y" * 100],
            [None] * 3,
            [None, 7, False, "x", b"y"],
        )
        for width in range(4):
            query = "(" + ", ".join("?" * width) + ")"
            for chosen in itertools.product(columns, repeat=width):
                rows = [kind(column[at % len(column)] for column in chosen) for at, kind in enumerate([tuple, list] * 3)]
                self.assertEqual(bind_rows(query, rows), [bind(query, row) for row in rows])

    def test_rows_that_change(self):
        def changed():
            row, text = [0, bytearray(b"x")], bytearray(b"a")
            for number in range(1000):
                row[0], text[0] = number, 97 + number % 26
                yield row
                yield (number, text)

        texts = bind_rows("?, ?", changed())
        wanted = [(b"%d, 'x'" % number, b"%d, '%c'" % (number, 97 + number % 26)) for number in range(1000)]
        self.assertEqual(texts, list(itertools.chain.from_iterable(wanted)))

    def test_rows_of_use(self):
        for error, row in (
            (OverflowError, [1 << 64]),
            (TypeError, [object()]),
            (TypeError, "x"),
            (TypeError, 5),
            (ValueError, {"": 1}),
            (UnicodeEncodeError, ["\ud800"]),
        ):
            with self.subTest(row=row), self.assertRaises(error) as raised:
                bind_rows("?", [["x"], row, ["y"]])
            self.assertEqual((raised.exception.row, raised.exception.texts), (1, [b"'x'"]))
            rows = [("x",)] * 600 + [row] + [("y",)] * 600
            with self.subTest(row=row, rows=1201), self.assertRaises(error) as raised:
                bind_rows("?", rows)
            self.assertEqual((raised.exception.row, raised.exception.texts), (600, [b"'x'"] * 600))
            # An earlier row is refused first.
            with self.subTest(row=row), self.assertRaises(mysql_params.MarkCountError) as raised:
                bind_rows("?", [["x"], [], row])
            self.assertEqual(raised.exception.row, 1)
        with self.assertRaises(TypeError):
            bind_rows("?", 5)
        with self.assertRaises(TypeError):
            bind_rows("?", [], "ANSI_QUOTES")
        with self.assertRaises(mysql_params.MarkCountError) as raised:
            bind_rows("?", [(1,)] * 1000 + [()] + [(1,)] * 1000)
        self.assertEqual((raised.exception.row, raised.exception.texts), (1000, [b"1"] * 1000))
        with self.assertRaises(mysql_params.FloatError) as raised:
            bind_rows(":a", [{"a": 1}, {"a": NAN}])
        self.assertEqual((raised.exception.name, raised.exception.row), ("a", 1))

    def test_rows_with_floats(self):
        rows = [(row, row / 8 if row % 3 else None, "it's") for row in range(2000)]
        texts = [bind("(?, ?, ?)", row) for row in rows]
        self.assertEqual(texts[3:5], [b"(3, NULL, 'it\\'s')", b"(4, 0.5e0, 'it\\'s')"])
        for given in (rows, iter(rows)):
            self.assertTrue(bind_rows("(?, ?, ?)", given) == texts)
        self.assertTrue(bind_rows("(:a, :b, :c)", [dict(zip("abc", row)) for row in rows]) == texts)
        self.assertTrue(Template("(?, ?, ?)").bind_rows(rows) == texts)
        self.assertEqual(bind_rows("'\\', ?", [(0.5,), ("\\",)], True), [b"'\\', 0.5e0", b"'\\', '\\'"])

    def test_rows_beside_floats_that_are_refused(self):
        good, texts = [(1,), (0.5,), ("x",)] * 300, [b"1", b"0.5e0", b"'x'"] * 300
        for kind, row in (
            (mysql_params.FloatError, (NAN,)),
            (mysql_params.MarkCountError, ()),
            (mysql_params.MarkCountError, (0.5, 1)),
            (TypeError, (0.5, {1})),
            (TypeError, (decimal.Decimal(1),)),
            (TypeError, ([0.5],)),
        ):
            for at in (0, 1, 2, 899):
                # The first that is refused is told, whatever is wrong with later ones.
                rows = [*good[:at], row, (NAN,), (0.5, 0.5), {1}]
                for given in (rows, iter(rows)):
                    with self.subTest(row=row, at=at), self.assertRaises(kind) as raised:
                        bind_rows("?", given)
                    self.assertEqual((raised.exception.row, raised.exception.texts), (at, texts[:at]))

    def test_names_of_queries(self):
        for case in cases("names.txt"):
            if case.refusal is not None:
                self.expect(case, lambda: names(case.query, case.no_backslash_escape))
                continue
            with self.subTest(case=case.lines):
                self.assertEqual(names(case.query, case.no_backslash_escape), (case.renamed, case.names))
                if not case.no_backslash_escape:
                    self.assertEqual(names(case.query), (case.renamed, case.names))

    def expect_construct(self, case, found):
        """What is found is the construct that the case wants, with its position and its message; or None."""
        if case.portable:
            self.assertIs(found, None)
            return
        construct, position = found
        self.assertIs(type(construct), Construct)
        self.assertEqual((construct.name, position), (case.construct, int(case.fields["position"])))
        if case.message is not None:
            self.assertEqual(construct.message, case.message)

    def test_portable_queries(self):
        for case in cases("portable.txt"):
            with self.subTest(case=case.lines):
                self.assertEqual(case.portable, case.construct is None)
                self.expect_construct(case, first_unportable(case.query, case.no_backslash_escape))
                if not case.no_backslash_escape:
                    self.expect_construct(case, first_unportable(case.query))
                number, position = _native.first_unportable(case.query, case.no_backslash_escape)
                self.assertEqual(number, 0 if case.portable else 1 + CONSTRUCTS.index(case.construct))
                self.assertEqual(position, 0 if case.portable else int(case.fields["position"]))

    def test_queries_for_a_client(self):
        for case in cases("in_client.txt"):
            with self.subTest(case=case.lines):
                self.assertEqual(case.portable, case.construct is None)
                self.expect_construct(case, first_unportable_in_client(case.query, case.no_backslash_escape))
                if not case.no_backslash_escape:
                    self.expect_construct(case, first_unportable_in_client(case.query))

    def test_constructs(self):
        self.assertEqual([construct.name for construct in Construct], CONSTRUCTS)
        self.assertEqual([int(construct) for construct in Construct], list(range(1, 21)))
        found = first_unportable("\u00e4 [")
        self.assertEqual(found, (Construct.BRACKET, 3))
        self.assertEqual((found.construct, found.position), (6, 3))
        self.assertEqual(first_unportable(bytearray(b"'a\\' ["), no_backslash_escape=True), (Construct.BRACKET, 5))
        copy = pickle.loads(pickle.dumps(found))
        self.assertIs(copy.construct, Construct.BRACKET)
        for number in (-1, 21):
            with self.subTest(number=number), self.assertRaises(RuntimeError):
                _archive.unportable(number, 0)
        for query in (None, 5):
            with self.subTest(query=query), self.assertRaises(TypeError):
                first_unportable(query)

    def test_names_of_long_queries(self):
        for length in (250, 251, 252, 65535, 65536, 65537):
            string = b"'" + b"x" * (length - 4) + b"' "
            self.assertEqual(names(string + b":a"), (string + b"?", ["a"]))

    def test_answers_that_end_within_a_string(self):
        for broken in (b"\x02a", b"\xfb", b"\xffa", b"\xfc\x01", b"\xfc\x01\x00", b"\xfe" + b"\xff" * 8 + b"a"):
            with self.subTest(answer=broken), self.assertRaises(RuntimeError):
                _archive.next_string(broken, 0)
        self.assertEqual(_archive.next_string(b"\x01ab", 0), (b"a", 2))
        self.assertEqual(_archive.next_string(b"?\xfc\x01\x00ab", 1), (b"a", 5))

    def test_each_value_of_one_byte(self):
        for byte in range(256):
            self.assertEqual(bind(b"?", [bytes([byte])]), literal(byte), byte)
            text = bind(b"?", [bytes([byte])], no_backslash_escape=True)
            self.assertEqual(text, literal_without_backslashes(byte), byte)

    def test_values_of_each_length(self):
        for length in (1, 250, 251, 65535, 65536, (1 << 24) - 1, 1 << 24):
            text = bind(":" + "a" * length, {"a" * length: "x" * length})
            self.assertTrue(text == b"'" + b"x" * length + b"'", length)

    def test_answers_longer_than_the_first_room(self):
        text = bind(",".join([":a"] * 100), {"a": "'" * 300})
        self.assertEqual(text, b",".join([b"'" + b"\\'" * 300 + b"'"] * 100))
        self.assertEqual(names(",".join([":a"] * 1000)), (b",".join([b"?"] * 1000), ["a"] * 1000))

    def test_values_of_own_types(self):
        class Color(enum.IntEnum):
            RED = 3

        values = [True, False, Color.RED, -(1 << 63), (1 << 64) - 1, "\u00e9", bytearray(b"a"), memoryview(b"\xff")]
        wanted = "1,0,3,-9223372036854775808,18446744073709551615,'\u00e9','a',0xFF"
        self.assertEqual(bind(",".join("?" * len(values)), values), wanted.encode())
        midnight = datetime.datetime(2019, 11, 27)
        self.assertEqual(bind("?, ?", (midnight, midnight.date())), b"'2019-11-27', '2019-11-27'")

    def test_values_that_lie_of_themselves(self):
        class Bytes(bytes):
            def __len__(self):
                return self.told

            def __bool__(self):
                return True

            def __bytes__(self):
                return self

        class Text(str):
            def encode(self):
                return lying(b"x", 0)

        class Number(int):
            def __int__(self):
                return 7

            __index__ = __int__

        def lying(source, told):
            found = Bytes(source)
            found.told = told
            return found

        for told in (0, 1, 1 << 12, 1 << 33):
            with self.subTest(told=told):
                query = lying(b"SELECT :a", told)
                self.assertEqual(names(query), (b"SELECT ?", ["a"]))
                self.assertEqual(bind(query, {lying(b"a", told): lying(b"'", told)}), b"SELECT '\\''")
                self.assertIsNone(first_unportable(query))
                self.assertEqual(bind_form("SELECT ?", lying(b"\0\x06\0", told)), b"SELECT NULL")
        # The value's bytes would be a parameter `b` of the form.
        with self.assertRaises(mysql_params.MissingError):
            bind("SELECT :a, :b", {"a": lying(b"\x01b\x08\x00\x07" + bytes(7), 0)})
        with self.assertRaises(ValueError):
            bind("SELECT :a", {lying(b"", 1): 1})
        self.assertEqual(bind(Text("SELECT :a, :b"), {Text("a"): Text("y"), "b": Number(5)}), b"SELECT 'y', 5")

    def test_buffers_that_lie(self):
        # From Python 3.12 on a subclass can say what its buffer is.
        class Bytes(bytes):
            def __buffer__(self, flags):
                return memoryview(b"lie")

        class Array(bytearray):
            def __buffer__(self, flags):
                return memoryview(b"lie")

        for kind in (Bytes, Array):
            with self.subTest(kind=kind.__name__):
                self.assertEqual(bind("?", [kind(b"x'")]), b"'x\\''")
                self.assertEqual(bind(kind(b"SELECT :a"), {"a": 1}), b"SELECT 1")
                self.assertEqual(names(kind(b":a")), (b"?", ["a"]))
                self.assertEqual(bind_form("?", kind(b"\0\x06\0")), b"NULL")
                self.assertIsNone(first_unportable(kind(b"?")))
        self.assertEqual(bind(":a", {Bytes(b"a"): 1}), b"1")

    def test_classes_that_lie(self):
        for told in (int, float, str, bytes, bytearray, datetime.date, datetime.datetime, datetime.timedelta):
            class Liar:
                __class__ = told

            with self.subTest(told=told.__name__):
                with self.assertRaisesRegex(TypeError, "^the value of `:a` is of type Liar, which has no literal$"):
                    bind(":a", {"a": Liar()})
                for call in (names, first_unportable, bind, lambda liar: bind_form("?", liar)):
                    with self.assertRaises(TypeError):
                        call(Liar())

    def test_messages_of_values(self):
        aware = datetime.datetime(2019, 11, 27, tzinfo=datetime.timezone.utc)
        a_list = "a list, which has no literal: write a place for each of its values"
        bare = "which bind, bind_anywhere and the calls that send write bare, where a place takes more than a value"
        wide = f"a whole number of more than 64 bits, {bare}: give str(..) of it, and write CAST({{}} AS DECIMAL(65,0))"
        price = "a Decimal, which has no literal: give str(..) of it, and write CAST({} AS DECIMAL(20,2))"
        double = ": a text in arithmetic is a double"
        a_zone = "a datetime with a time zone: convert it to a naive one, or hand in zone=.., the session's"
        for value, kind, message in (
            ([1, 2], TypeError, a_list),
            (1j, TypeError, "of type complex, which has no literal"),
            (1 << 64, OverflowError, wide + double),
            (-(1 << 63) - 1, OverflowError, wide + double),
            (decimal.Decimal("0.01"), TypeError, price + double),
            (aware, TypeError, a_zone),
        ):
            for params, place in (({"a": None, "ids": value}, ":ids"), ([None, value], "?")):
                with self.subTest(value=value, place=place), self.assertRaises(kind) as raised:
                    # bind takes a list and exact numbers.
                    call = mysql_params.bind_in_both_modes if isinstance(value, (list, int, decimal.Decimal)) else bind
                    call("SELECT 1", params)
                which = "the value of `:ids` is " if place == ":ids" else "the value for place 1 is "
                self.assertEqual(str(raised.exception), which + message.format(place))
        for params, message in (
            ({"a": "\ud800"}, "surrogates not allowed, in the value of `:a`"),
            (["", "\ud800"], "surrogates not allowed, in the value for place 1"),
        ):
            with self.assertRaises(UnicodeEncodeError) as raised:
                bind("SELECT 1", params)
            self.assertEqual(raised.exception.reason, message)
        for params, kind, message in (
            ({"a": 1, "": 1}, ValueError, "Parameter 1 has an empty name"),
            ({7: 1}, TypeError, "a name is str or bytes, and that of parameter 0 is of type int"),
            ({"\n\u00e4": 1j}, TypeError, "the value of `:\\x0a\\xc3\\xa4` is of type complex, which has no literal"),
        ):
            with self.assertRaises(kind) as raised:
                bind("SELECT 1", params)
            self.assertEqual(str(raised.exception), message)

    def test_what_errors_tell_beside_their_fields(self):
        with self.assertRaises(mysql_params.FloatError) as raised:
            bind(":a, :b", {"a": 1, "b": NAN})
        self.assertEqual((raised.exception.place, raised.exception.name), (1, "b"))
        with self.assertRaises(mysql_params.FloatError) as raised:
            bind("?", [NAN])
        self.assertIsNone(raised.exception.name)
        with self.assertRaises(mysql_params.FloatError) as raised:
            bind("'a\\', :a, '", {"a": NAN}, no_backslash_escape=True)
        self.assertEqual(raised.exception.name, "a")
        for query, params, word in (
            (":gr\u00f6\u00dfe", {"gr\u00f6\u00dfe": 1}, "gr\u00f6\u00dfe".encode()),
            (":Gr\u00f6\u00dfe", {"Gr": 1}, "Gr\u00f6\u00dfe".encode()),
            (":\u00dcber", {"\u00dcber": 1}, "\u00dcber".encode()),
            (":user-:\u00dcber", {"User": 1}, None),
            (":userId", {"user": 1}, None),
            ("x:user", {"user": 1}, None),
            ("?", {"user": 1}, None),
        ):
            with self.subTest(query=query, params=params), self.assertRaises(mysql_params.Error) as raised:
                bind(query, params)
            self.assertEqual(raised.exception.word, word)

    def test_dates_and_spans_with_fields_of_no_date(self):
        class Undated(datetime.datetime):
            year = float("nan")

        class Early(datetime.date):
            year = -1

        class Span(datetime.timedelta):
            days = -1

        for value in (Undated(2019, 11, 27), Early(2019, 11, 27), Span(hours=1)):
            with self.subTest(type=type(value).__name__), self.assertRaises(TypeError):
                bind("?", [value])

    def test_spans_of_time(self):
        for span, wanted in (
            (datetime.timedelta(days=-1), b"'-024:00:00'"),
            (datetime.timedelta(microseconds=-1), b"'-000:00:00.000001'"),
            (datetime.timedelta(hours=-1, minutes=30), b"'-000:30:00'"),
            (datetime.timedelta(0), b"'000:00:00'"),
            (datetime.timedelta.max, b"'23999999999:59:59.999999'"),
            (datetime.timedelta.min, b"'-23999999976:00:00'"),
        ):
            self.assertEqual(bind("?", [span]), wanted)

    def test_errors_of_use(self):
        aware = datetime.datetime(2019, 11, 27, tzinfo=datetime.timezone.utc)
        for error, query, params in (
            (OverflowError, "?", [10**65]),
            (OverflowError, "?", [-(10**65)]),
            (TypeError, "?", [aware]),
            (TypeError, "?", [object()]),
            (TypeError, "?", [1j]),
            (TypeError, "?", "x"),
            (TypeError, "?", b"x"),
            (TypeError, "?", {1, 2}),
            (TypeError, "?", 5),
            (TypeError, 5, None),
            (TypeError, None, None),
            (TypeError, ":a", {1: 1}),
            (ValueError, ":a", {"": 1}),
            (ValueError, ":a", {b"": 1}),
            (UnicodeEncodeError, "?", ["\ud800"]),
        ):
            with self.subTest(query=query, params=params), self.assertRaises(error):
                bind(query, params)
        for form in (5, "x", None):
            with self.subTest(form=form), self.assertRaises(TypeError):
                bind_form("?", form)
        with self.assertRaises(TypeError):
            names(None)

    def test_flags_that_are_no_bool(self):
        calls = (
            lambda mode: bind("SELECT ?", ["\\' OR 1=1 -- "], mode),
            lambda mode: bind_form("SELECT 1", b"", mode),
            lambda mode: names("SELECT :a", mode),
            lambda mode: first_unportable("SELECT :a", mode),
        )
        for mode in ("ANSI_QUOTES", "", None, 1, 0):
            for call in calls:
                with self.subTest(mode=mode), self.assertRaises(TypeError) as raised:
                    call(mode)
                self.assertEqual(str(raised.exception), f"no_backslash_escape is True or False, and not of type {type(mode).__name__}")

    def test_version(self):
        cargo = (CASES.parent / "rust" / "Cargo.toml").read_text()
        self.assertIn(f'version = "{mysql_params.__version__}"', cargo)

    def test_nothing_given(self):
        for nothing in (None, [], (), {}):
            self.assertEqual(bind("SELECT 1", nothing), b"SELECT 1")
        self.assertEqual(bind("SELECT 1"), b"SELECT 1")

    def test_numbers_that_come_by_fault_alone(self):
        report = _archive.Report()
        error = _archive.error(1, report, b"", b"")
        self.assertIsInstance(error, mysql_params.OutOfMemoryError)
        self.assertIsInstance(error, MemoryError)
        self.assertEqual((str(error), error.args), ("out of memory", ()))
        for number in (-1, 0, 2, 20, 22):
            self.assertIs(type(_archive.error(number, report, b"", b"")), RuntimeError)
        for number in (16, 17):  # a construct of no number, and a fault of none
            with self.assertRaises(RuntimeError):
                _archive.error(number, report, b"", b"")

    def test_errors_are_pickled(self):
        word, place = mysql_params.MissingError(1, 5, b"b"), mysql_params.FloatError(1)
        word.word, place.name = b"b\xc3\xa9", "b"
        unportable = mysql_params.UnportableError(7, Construct.HINT)
        fault = mysql_params.FragmentError(0, mysql_params.Fault.ROW_LENGTH, 1, 0)
        unsteady = mysql_params.UnsteadyFragmentError(3)
        unsteady.name = "t"
        errors = (fault, mysql_params.MissingError(1, 5, b"b"), mysql_params.MixedError(), word, place, unportable, unsteady)
        for error in errors:
            copy = pickle.loads(pickle.dumps(error))
            self.assertEqual((type(copy), copy.args, str(copy)), (type(error), error.args, str(error)))

    def test_threads(self):
        wrong = []

        def work(number):
            text = f"'{number}'".encode() * 20
            for _ in range(200):
                if bind("?, ?", [number, text]) != b"%d, '%s'" % (number, text.replace(b"'", b"\\'")):
                    wrong.append(number)

        threads = [threading.Thread(target=work, args=(number,)) for number in range(4)]
        for thread in threads:
            thread.start()
        for thread in threads:
            thread.join()
        self.assertEqual(wrong, [])

    def test_examples_of_the_documentation(self):
        self.assertEqual(doctest.testmod(mysql_params), (0, 8))
        self.assertEqual(doctest.testmod(_template), (0, 2))


class Result(unittest.TestResult):
    """Prints a line for each test."""

    def stopTest(self, test):
        super().stopTest(test)
        faults = [text for failed, text in self.failures + self.errors if test.id() in failed.id()]
        print(*faults, sep="\n", end="", file=sys.stderr)
        name = test.id().rpartition(".test_")[2]
        print(f"test {name} ... {'FAILED' if faults else 'ok'}", flush=True)


if __name__ == "__main__":
    result = Result()
    unittest.defaultTestLoader.loadTestsFromTestCase(Test).run(result)
    sys.exit(0 if result.wasSuccessful() and result.testsRun else 1)
