"""Tests of the further types of values: how each is bound, what is registered, and parameters in order."""

import datetime
import decimal
import doctest
import enum
import fractions
import numbers
import sys
import unittest
import uuid
from unittest import mock

import mysql_params
from mysql_params import _native, _values, bind, decimal_text, register
from shared_cases import CASES
from test_mysql_params import Result

try:
    import numpy
except ImportError:
    numpy = None

UTC = datetime.timezone.utc


class Color(enum.Enum):
    """Values of several types."""

    RED = 7
    NAMED = "it's"
    NOTHING = None
    PRICE = decimal.Decimal("0.01")


class Labelled(str, enum.Enum):
    """A str whose value is another one."""

    def __new__(cls, label, value):
        made = str.__new__(cls, label)
        made._value_ = value
        return made

    A = "label", 7


class Rights(enum.IntFlag):
    """Numbers that are iterable, from Python 3.11 on."""

    READ = 4
    ALL = 7


class Digits(int):
    """A number that is iterable."""

    def __iter__(self):
        return iter(str(int(self)))


class Text(str, enum.Enum):
    """A str that is a member."""

    NAME = "it's"


class Named(mysql_params.Identifier):
    """A subclass."""

    __slots__ = ()


class Wide:
    """A whole number of another library."""

    def __init__(self, number):
        self.number = number

    def __index__(self):
        return self.number


numbers.Integral.register(Wide)


class Test(unittest.TestCase):
    """All tests."""

    def setUp(self):
        registered = mock.patch.dict(_values._REGISTERED, clear=True)
        registered.start()
        self.addCleanup(registered.stop)

    def test_further_types(self):
        for value, wanted in (
            (Color.RED, b"7"),
            (Color.NAMED, b"'it\\'s'"),
            (Color.NOTHING, b"NULL"),
            (enum.Enum("Day", {"FIRST": datetime.date(2019, 11, 27)}).FIRST, b"'2019-11-27'"),
            (uuid.UUID("12345678123456781234567812345678"), b"'12345678-1234-5678-1234-567812345678'"),
            (datetime.time(12, 30), b"'012:30:00'"),
            (datetime.time(23, 59, 59, 5), b"'023:59:59.000005'"),
            (datetime.time(0), b"'000:00:00'"),
            (Wide(-3), b"-3"),
            (Wide((1 << 64) - 1), b"18446744073709551615"),
        ):
            with self.subTest(value=value):
                self.assertEqual(bind("?", [value]), wanted)
                self.assertEqual(bind(":a", {"a": value}), wanted)

    def test_types_that_stay_refused(self):
        for value, kind, message in (
            (datetime.time(1, tzinfo=UTC), TypeError, "is a time with a time zone, which has no literal"),
            (Wide(10**65), OverflowError, "is a whole number of more than 65 digits: servers keep no more"),
            (fractions.Fraction(1, 3), TypeError, "is of type Fraction, which has no literal"),
            ({1, 2}, TypeError, "is a set, which is no list: give list(..) of it"),
            (range(2), TypeError, "is a range, which is no list: give list(..) of it"),
            ((number for number in (1, 2)), TypeError, "is a generator, which is no list: give list(..) of it"),
            ({1: 2}.values(), TypeError, "is a dict_values, which is no list: give list(..) of it"),
            (
                {1: 2},
                TypeError,
                "the value for place 0 is of type dict, which has no literal: for SET give Assignments(..) of it, else"
                " json.dumps(..) of it, or register(dict, json.dumps)",
            ),
        ):
            with self.subTest(value=value), self.assertRaises(kind) as raised:
                bind("?", [value])
            self.assertIn(message, str(raised.exception))

    def test_fragments_where_a_place_takes_one_value(self):
        for value, message in (
            (Color.PRICE, "the value for place 0 is a Decimal, which has no literal: give str"),
            ([1], "the value for place 0 is a list, which has no literal: write a place for each of its values"),
            (mysql_params.Identifier("t"), "the value for place 0 is of type Identifier, which has no literal"),
            (mysql_params.Assignments({"a": 1}), "the value for place 0 is of type Assignments, which has no literal"),
            ({1: 2}, "the value for place 0 is of type dict, which has no literal: give json.dumps(..) of it, or register(dict"),
        ):
            for call in (mysql_params.bind_in_both_modes, lambda query, given: mysql_params.bind_rows(query, [given])):
                with self.subTest(value=value), self.assertRaises(TypeError) as raised:
                    call("?", [value])
                self.assertIn(message, str(raised.exception))

    @unittest.skipIf(numpy is None, "numpy is missing")
    def test_numpy(self):
        for value, wanted in (
            (numpy.int64(-1), b"-1"),
            (numpy.uint64((1 << 64) - 1), b"18446744073709551615"),
            (numpy.int8(-128), b"-128"),
            (numpy.bool_(True), b"1"),
            (numpy.bool_(False), b"0"),
            (numpy.str_("a'"), b"'a\\''"),
            (numpy.float64(0.1), b"0.1e0"),
            (numpy.float32(0.1), b"0.10000000149011612e0"),
            (numpy.float16(1.5), b"1.5e0"),
        ):
            with self.subTest(value=repr(value)):
                self.assertEqual(bind("?", [value]), wanted)
                self.assertEqual(bind("IN (?)", [[value]]), b"IN (" + wanted + b")")
        self.assertEqual(bind("?, ?", numpy.array([1, 2])), b"1, 2")
        self.assertEqual(bind("?, ?", numpy.array([0.5, 2], numpy.float32)), b"0.5e0, 2.0e0")
        for value in (numpy.longdouble(1.5), numpy.datetime64("2019-11-27"), numpy.array([1])):
            with self.subTest(value=repr(value)), self.assertRaises(TypeError):
                bind("?", [value])
        for value in (numpy.float64("nan"), numpy.float32("inf"), numpy.float16("-inf")):
            with self.subTest(value=repr(value)), self.assertRaises(mysql_params.FloatError):
                bind("?", [value])

    def test_floats(self):
        class Number(float):
            def __float__(self):
                return 7.0

            def __repr__(self):
                return "7"

        # The digits are those of repr, and a number without an exponent gets the exponent 0.
        for value, wanted in (
            (1.5, b"1.5e0"),
            (-0.0, b"-0.0e0"),
            (0.1, b"0.1e0"),
            (0.1 + 0.2, b"0.30000000000000004e0"),
            (1e16, b"1e16"),
            (float(2**53), b"9007199254740992.0e0"),
            (5e-324, b"5e-324"),
            (sys.float_info.min, b"2.2250738585072014e-308"),
            (-sys.float_info.max, b"-1.7976931348623157e308"),
            (Number(2.5), b"2.5e0"),
            (enum.Enum("Half", {"ONE": 0.5}).ONE, b"0.5e0"),
        ):
            for call in (bind, mysql_params.bind_anywhere, lambda query, given: mysql_params.Template(query).bind(given)):
                with self.subTest(value=value, call=call):
                    self.assertEqual(call("?", [value]), wanted)
                    self.assertEqual(call(":a, :b", {"a": value, "b": 1}), wanted + b", 1")
                    self.assertEqual(call("? IN (?)", [value, [1, value]]), wanted + b" IN (1, " + wanted + b")")
                    self.assertEqual(call("VALUES ?", [[(1, value)]]), b"VALUES (1, " + wanted + b")")
            self.assertEqual(mysql_params.bind_rows("?", [[value]]), [wanted])
            # The call that takes values alone refuses it.
            with self.assertRaises(mysql_params.FloatError):
                mysql_params.bind_in_both_modes("?", [value])
        # A value for no place says nothing.
        self.assertEqual(bind(":a", {"a": "it's", "b": 0.5}), b"'it\\'s'")

    def test_floats_without_a_number(self):
        to_do = ": give None for NaN and infinities, else a text"
        for value in (float("nan"), float("inf"), float("-inf")):
            for call in (bind, mysql_params.bind_anywhere, lambda query, given: mysql_params.Template(query).bind(given)):
                lists = ([0.5, value], ["a", value], [(0.5, 1), (2, value)])
                for given in (value, *map(mysql_params.In, lists)):
                    with self.subTest(given=given), self.assertRaises(mysql_params.FloatError) as raised:
                        call(":a, :b", {"a": 0.5, "b": given})
                    self.assertEqual((raised.exception.place, raised.exception.name), (1, "b"))
                    self.assertEqual(str(raised.exception), "The value for `:b` is a float" + to_do)
                    with self.assertRaises(mysql_params.FloatError) as raised:
                        call("?", [given])
                    self.assertEqual((raised.exception.place, raised.exception.name), (0, None))
                    self.assertEqual(str(raised.exception), "The value for place 0 is a float" + to_do)
                # It is refused only if the query has a place for it.
                self.assertEqual(call(":a", {"a": 0.5, "b": value}), b"0.5e0")

    def test_decimals_are_exact_unless_told(self):
        exact = (("0.01", b"0.01"), ("1E+3", b"1000"), ("-1.50", b"-1.50"), ("-0", b"-0"))
        for value, wanted in exact:
            self.assertEqual(bind("?", [decimal.Decimal(value)]), wanted)
        self.assertEqual(bind("?", [Color.PRICE]), b"0.01")
        for value, fault in (
            ("NaN", "that is NaN has no digits"),
            ("NaN123", "that is NaN has no digits"),
            ("-sNaN7", "that is NaN has no digits"),
            ("Infinity", "that is infinite has no digits"),
            ("-Infinity", "that is infinite has no digits"),
            ("1E+65", "whose first digit stands for 1E+65 is beyond a DECIMAL, which holds 65 digits, and 30 after the point"),
            ("9" * 36 + "." + "9" * 30, "of 66 digits: servers keep 65, so round it, as by quantize"),
            ("0." + "1" * 65, "of 66 digits: servers keep 65, so round it, as by quantize"),
        ):
            number = decimal.Decimal(value)
            for given in (number, [1, number], [(1, 2), (3, number)]):
                with self.subTest(given=given), self.assertRaises(ValueError) as raised:
                    bind(":p", {"p": given})
                self.assertEqual(str(raised.exception), f"the value of `:p`: a Decimal {fault}")
        for value in ("9" * 35 + "." + "9" * 30, "-0." + "1" * 64, "1" * 65):
            self.assertEqual(bind("?", [decimal.Decimal(value)]), value.encode())
        register(decimal.Decimal, decimal_text)
        texts = (("0.01", b"'0.01'"), ("1E+3", b"'1000'"), ("-1.50", b"'-1.50'"), ("1E-7", b"'0.0000001'"))
        for value, wanted in texts:
            self.assertEqual(bind("?", [decimal.Decimal(value)]), wanted)
        for value in ("NaN", "sNaN", "Infinity", "-Infinity"):
            with self.subTest(value=value), self.assertRaises(ValueError):
                bind("?", [decimal.Decimal(value)])

    def test_whole_numbers_of_more_than_64_bits(self):
        class Number(int):
            def __str__(self):
                return "7"

            def __lt__(self, other):
                return True

        for value, wanted in (
            (2**70, b"1180591620717411303424"),
            (-(2**70), b"-1180591620717411303424"),
            (Number(2**70), b"1180591620717411303424"),
            (Wide(1 << 64), b"18446744073709551616"),
            (-(1 << 63) - 1, b"-9223372036854775809"),
            (10**65 - 1, b"9" * 65),
            (1 - 10**65, b"-" + b"9" * 65),
        ):
            with self.subTest(value=value):
                self.assertEqual(bind("?", [value]), wanted)
                self.assertEqual(bind(":a", {"a": value}), wanted)
                self.assertEqual(bind("IN (?)", [[1, value]]), b"IN (1, " + wanted + b")")
                self.assertEqual(bind("VALUES ?", [[(1, value)]]), b"VALUES (1, " + wanted + b")")
                self.assertEqual(mysql_params.bind_anywhere("?, (?)", [value, [value]]), wanted + b", (" + wanted + b")")
                message = "the value for place 0 is a whole number of more than 64 bits, which bind, bind_anywhere and"
                with self.assertRaisesRegex(OverflowError, "^" + message):
                    mysql_params.bind_in_both_modes("?", [value])
                with self.assertRaisesRegex(OverflowError, "^row 0: " + message):
                    mysql_params.bind_rows("?", [[value]])
        for value in (10**65, -(10**65), 10**5000, Number(10**65)):
            for given in (value, [value], [(value,)]):
                with self.assertRaises(OverflowError) as raised:
                    bind(":a", {"a": given})
                message = "the value of `:a` is a whole number of more than 65 digits: servers keep no more"
                self.assertEqual(str(raised.exception), message)
        for value in ((1 << 64) - 1, -(1 << 63)):
            self.assertEqual(mysql_params.bind_anywhere("?", [value]), str(value).encode())

    def test_decimals_beyond_those_of_servers(self):
        for value, wanted in (
            ("-1E+64", "-1" + "0" * 64),
            ("1E-30", "0." + "0" * 29 + "1"),
            ("1.5E-30", "0." + "0" * 29 + "15"),
            ("0E+999999999", "0"),
            ("-0E-999999999", "0"),
            ("0E-2", "0.00"),
        ):
            with self.subTest(value=value):
                self.assertEqual(decimal_text(decimal.Decimal(value)), wanted)
        for value in ("1E+65", "-1E+999999999", "9" * 66, "1E-31", "1E-999999999"):
            with self.subTest(value=value), self.assertRaises(ValueError) as raised:
                decimal_text(decimal.Decimal(value))
            self.assertIn("a DECIMAL, which holds 65 digits, and 30 after the point", str(raised.exception))

    def test_registered_types(self):
        class Point:
            def __init__(self, x):
                self.x = x

        class Near(Point):
            pass

        class Number(int):
            pass

        register(Point, lambda point: f"POINT({point.x})")
        self.assertEqual(bind("?, ?", [Point(1), Near(2)]), b"'POINT(1)', 'POINT(2)'")
        register(Near, lambda point: point.x)
        self.assertEqual(bind("?, ?", [Point(1), Near(2)]), b"'POINT(1)', 2")
        # A function may give what is registered itself; one for a subclass of int goes before int.
        register(Number, lambda number: Near(number + 1))
        self.assertEqual(bind("?", [Number(4)]), b"5")
        register(Color, lambda color: color.name)
        self.assertEqual(bind("?", [Color.RED]), b"'RED'")
        # Its result is judged as any value.
        register(Point, lambda point: float(point.x))
        self.assertEqual(bind("?", [Point(1.5)]), b"1.5e0")
        with self.assertRaises(mysql_params.FloatError):
            bind("?", [Point("nan")])
        register(Point, lambda point: [1])
        self.assertEqual(bind("IN (:a)", {"a": Point(1)}), b"IN (1)")
        self.assertRaises(mysql_params.UnbracketedError, bind, ":a", {"a": Point(1)})
        register(Point, lambda point: mysql_params.In([1]))
        self.assertEqual(bind(":a", {"a": Point(1)}), b"1")
        register(Point, lambda point: point)
        with self.assertRaisesRegex(TypeError, "the functions that are registered for a Point make no end"):
            bind("?", [Point(1)])

    def test_lists_and_rows(self):
        for value, wanted in (
            ([1, None, decimal.Decimal("0.10"), Color.NAMED], b"1, NULL, 0.10, 'it\\'s'"),
            ((1,), b"1"),
            ([(1, "a"), [2, b"b"]], b"(1, 'a'), (2, 'b')"),
            (((1,),), b"(1)"),
            (["ab"], b"'ab'"),
            ("ab", b"'ab'"),
            (b"ab", b"'ab'"),
        ):
            with self.subTest(value=value):
                self.assertEqual(bind("IN (?)", [value]), b"IN (" + wanted + b")")
                self.assertEqual(bind("IN (:a)", {"a": value}), b"IN (" + wanted + b")")
                said = mysql_params.In(value) if isinstance(value, (list, tuple)) else value
                self.assertEqual(bind("?", [said]), wanted)
                self.assertEqual(bind(":a", {"a": said}), wanted)

    def test_lists_that_are_refused(self):
        to_do = "lists and rows are of values, or a list of Identifiers alone, so write a place for each"
        for value, message in (
            ([(1,), 2], "the value of `:a` has rows and values: give a list of values, or one of rows alone"),
            ([[(1,)]], "the value of `:a` has a tuple in a row: rows are of values"),
            ([{1}], "the value of `:a` is a set, which has no literal"),
            ([1, mysql_params.Identifier("t")], "the value of `:a` has an item that is of type Identifier: " + to_do),
            ([mysql_params.Identifier("t"), 1], "the value of `:a` has an item that is of type Identifier: " + to_do),
            ([[mysql_params.Identifier("t")]], "the value of `:a` has an item that is of type Identifier: " + to_do),
            ([mysql_params.Assignments({"b": 1})], "the value of `:a` has an item that is of type Assignments: " + to_do),
            ([(mysql_params.Keyword("NULL", among=("NULL",)),)], "the value of `:a` has an item that is of type Keyword: " + to_do),
        ):
            with self.subTest(value=value), self.assertRaises(TypeError) as raised:
                bind(":a", {"a": value})
            self.assertIn(message, str(raised.exception))
        names = [mysql_params.Identifier("a"), mysql_params.Identifier("b`")]
        self.assertEqual(bind(f"SELECT {', '.join('?' * len(names))}", names), b"SELECT `a`, `b```")

    def test_lists_of_identifiers(self):
        a, b, others = mysql_params.Identifier("a"), mysql_params.Identifier("t", "b`"), [Named("a", "b`"), Named("c")]
        lists = (([a], b"`a`"), ((a, b), b"`a`, `t`.`b```"), ([a] * 3, b"`a`, `a`, `a`"), (others, b"`a`.`b```, `c`"))
        for value, wanted in lists:
            for call in (bind, mysql_params.bind_anywhere, lambda query, given: mysql_params.Template(query).bind(given)):
                with self.subTest(value=value):
                    self.assertEqual(call("?, ?", [value, 1]), wanted + b", 1")
                    self.assertEqual(call(":a", {"a": value}), wanted)

        class Column:
            pass

        class Other:
            __class__ = mysql_params.Identifier

        register(Column, lambda column: b)
        self.assertEqual(bind("?", [[Column(), a, Column()]]), b"`t`.`b```, `a`, `t`.`b```")
        for value in ([Other()], [a, Other()]):
            with self.subTest(value=value), self.assertRaises(TypeError):
                bind("?", [value])

    def test_assignments(self):
        identifier = mysql_params.Identifier
        for assigned, wanted in (
            ({"a": 1}, b"`a` = 1"),
            ({"a`": "it's", identifier("t", "b"): None}, b"`a``` = 'it\\'s', `t`.`b` = NULL"),
            ([("a", 0.5), [identifier("b"), decimal.Decimal("1.50")]], b"`a` = 0.5e0, `b` = 1.50"),
            ((pair for pair in [("a", 2**70)]), b"`a` = 1180591620717411303424"),
            ({"a": 1, "b": 2}.items(), b"`a` = 1, `b` = 2"),
            ({Text.NAME: Color.NAMED}, b"`it's` = 'it\\'s'"),
            ({"a, b": datetime.date(2019, 11, 27)}, b"`a, b` = '2019-11-27'"),
        ):
            value = mysql_params.Assignments(assigned)
            for call in (bind, lambda query, given: mysql_params.Template(query).bind(given)):
                with self.subTest(wanted=wanted):
                    self.assertEqual(call("SET ? WHERE ?", [value, 1]), b"SET " + wanted + b" WHERE 1")
                    self.assertEqual(call("SET :a, :a", {"a": value}), b"SET " + wanted + b", " + wanted)
        steady = mysql_params.bind_anywhere("SET ?", [mysql_params.Assignments({"a": "it's", "b": "\u00e9"})])
        self.assertEqual(steady, b"SET `a` = _utf8mb4'it''s', `b` = _utf8mb4 0xC3A9")
        self.assertEqual(repr(mysql_params.Assignments({"a": 1})), "Assignments(((Identifier('a'), 1),))")
        # What is changed later isn't seen.
        given = {"a": 1}
        value = mysql_params.Assignments(given)
        given["b"] = 2
        self.assertEqual(bind("?", [value]), b"`a` = 1")
        # What is registered counts.
        register(dict, lambda value: str(len(value)))
        self.assertEqual(bind("?", [mysql_params.Assignments({"a": {1: 2}})]), b"`a` = '1'")

    def test_assignments_that_are_refused(self):
        keyword = mysql_params.Keyword("NULL", among=("NULL",))
        for value, kind in (
            ([1], "list"),
            ((), "tuple"),
            (mysql_params.Identifier("t"), "Identifier"),
            (keyword, "Keyword"),
            (mysql_params.Assignments({"b": 1}), "Assignments"),
        ):
            for column, shown in (("a\u00e9", "`a\\xc3\\xa9`"), (mysql_params.Identifier("t", "b"), "`t`.`b`")):
                with self.subTest(kind=kind), self.assertRaises(TypeError) as raised:
                    bind(":set", {"set": mysql_params.Assignments({"x": 1, column: value})})
                message = f"the value of `:set` sets {shown} to a value of type {kind}: a column takes one value"
                self.assertEqual(str(raised.exception), message)
        for value, kind, message in (
            ({1, 2}, TypeError, "the value for place 0 is a set, which has no literal"),
            ({"b": 1}, TypeError, "the value for place 0 is of type dict, which has no literal: give json.dumps(..) of it"),
            (10**65, OverflowError, "the value for place 0 is a whole number of more than 65 digits"),
            (decimal.Decimal("NaN"), ValueError, "the value for place 0: a Decimal that is NaN has no digits"),
            ("\ud800", UnicodeEncodeError, "in the value for place 0"),
            (float("nan"), mysql_params.FloatError, "The value for place 0 is a float"),
        ):
            with self.subTest(value=value), self.assertRaises(kind) as raised:
                bind("?", [mysql_params.Assignments({"a": value})])
            self.assertIn(message, str(raised.exception))
        with self.assertRaises(UnicodeEncodeError):
            bind("?", [mysql_params.Assignments({"\ud800": 1})])
        for assigned in (5, "ab", ["ab"], [("a",)], [("a", 1, 2)], {5: 1}, {b"a": 1}, {None: 1}, [(keyword, 1)], None):
            with self.subTest(assigned=assigned), self.assertRaises(TypeError):
                mysql_params.Assignments(assigned)
        with self.assertRaises(mysql_params.FragmentError) as raised:
            bind(":set", {"set": mysql_params.Assignments({})})
        self.assertEqual(str(raised.exception), "The list for `:set` is empty")
        with self.assertRaises(mysql_params.FragmentError) as raised:
            bind("?", [mysql_params.Assignments([(mysql_params.Identifier("t", "a"), 1), ("b\0", 2)])])
        self.assertEqual((raised.exception.fault, raised.exception.item), (mysql_params.Fault.ZERO_BYTE, 2))
        with self.assertRaises(mysql_params.FragmentError) as raised:
            bind("?", [[mysql_params.Identifier("t", "a"), mysql_params.Identifier("b\0")]])
        self.assertEqual((raised.exception.fault, raised.exception.item), (mysql_params.Fault.ZERO_BYTE, 2))

    def test_forms_by_hand(self):
        """The form of identifiers, assignments, lists and rows, written by hand from mysql_params.h."""
        identifier = mysql_params.Identifier
        columns = [identifier("a"), identifier("t", "b")]
        assigned = mysql_params.Assignments([("a", 1), (identifier("t", "b"), "x"), ("c", decimal.Decimal("-1.50"))])
        one, two, three = (bytes([count, 0, 0, 0]) for count in (1, 2, 3))
        wanted = b"\x07columns\x86\0" + two + one + b"\x01a" + two + b"\x01t\x01b"
        wanted += b"\x03set\x87\0" + three + one + b"\x01a\x08\0\x01" + bytes(7)
        wanted += two + b"\x01t\x01b\xfd\0\x01x" + one + b"\x01c\x80\0\x05-1.50"
        self.assertEqual(_native.written({"columns": columns, "set": assigned}, None, True), (wanted, True))
        item, several = b"\x08\0\x01" + bytes(7), mysql_params.In
        lists = (([1], 136, item), ([(1,)], 137, one + item), (several([1]), 129, item), (several([[1]]), 130, one + item))
        for value, of_type, rest in lists:
            self.assertEqual(_native.written([value], None, True), (bytes([0, of_type, 0]) + one + rest, True))

    def test_many_items(self):
        numbers = list(range(-50_000, 50_000))
        self.assertTrue(bind("a IN (?)", [numbers]) == b"a IN (%s)" % ", ".join(map(str, numbers)).encode())

    def test_identifiers_and_keywords(self):
        self.assertEqual(repr(mysql_params.Identifier("a", "b")), "Identifier('a', 'b')")
        self.assertEqual(bind("?", [mysql_params.Identifier("\u00e9`")]), "`\u00e9```".encode())
        with self.assertRaises(mysql_params.FragmentError) as raised:
            bind("?", [mysql_params.Identifier("a", "b\\")])
        self.assertEqual((raised.exception.fault, raised.exception.item), (mysql_params.Fault.BACKSLASH, 1))
        for parts in ((), (b"t",), (None,), ("a", 1)):
            with self.subTest(parts=parts), self.assertRaises(TypeError):
                mysql_params.Identifier(*parts)
        for word, among, kind in (
            ("DESC", ("ASC",), ValueError),
            ("desc", ("ASC", "DESC"), ValueError),
            ("DESC", "DESC", TypeError),
            (b"DESC", (b"DESC",), TypeError),
        ):
            with self.subTest(word=word), self.assertRaises(kind) as raised:
                mysql_params.Keyword(word, among=among)
            if kind is ValueError:
                self.assertEqual(str(raised.exception), f"the word is none of the keywords {', '.join(map(repr, among))}")
        # The words of the archive alone are written, whatever the caller lets through.
        with self.assertRaises(mysql_params.FragmentError) as raised:
            bind("?", [mysql_params.Keyword("DESC, b", among=("DESC, b",))])
        self.assertIs(raised.exception.fault, mysql_params.Fault.KEYWORD)

    def test_all_keywords(self):
        words = mysql_params.KEYWORDS
        self.assertEqual((len(words), len(set(words))), (33, 33))
        listed = (CASES.parent / "c/mysql_params.h").read_text().partition("none of the keywords that are written:")[2]
        listed = " ".join(listed.partition(".")[0].replace("*", " ").split())
        self.assertEqual(listed.split(", "), list(words))
        for word in words:
            self.assertEqual(bind("?", [mysql_params.Keyword(word, among=words)]), word.encode())
        others = [word.lower() for word in words] + [f" {word}" for word in words] + [f"{word} " for word in words]
        others += [word[:-1] for word in words if word[:-1] not in words] + ["IS  NULL", "NULLS LAST", "SKIP LOCKED", "a"]
        for word in others:
            with self.subTest(word=word), self.assertRaises(mysql_params.FragmentError) as raised:
                bind(":a", {"a": mysql_params.Keyword(word, among=(word,))})
            message = "The word for `:a` is none of the keywords in capitals that KEYWORDS lists"
            self.assertEqual(str(raised.exception), message)

    def test_types_that_cannot_be_registered(self):
        for kind in (int, str, bool, type(None), bytes, datetime.datetime, object):
            with self.subTest(kind=kind), self.assertRaises(ValueError):
                register(kind, str)
        with self.assertRaises(ValueError) as raised:
            register(float, repr)
        message = "float can't be registered: values of it are bound by themselves, and bind_in_both_modes takes repr(value)"
        self.assertEqual(str(raised.exception), message)
        self.assertEqual(bind("?", [1.5]), b"1.5e0")
        self.assertEqual(mysql_params.bind_in_both_modes("?", [repr(1.5)]), b"_utf8mb4'1.5'")
        for kind, function in (("int", str), (Color, "text"), (None, str)):
            with self.subTest(kind=kind), self.assertRaises(TypeError):
                register(kind, function)

    def test_members_are_bound_as_their_values(self):
        for value, wanted in (
            (Labelled.A, b"7"),
            (Rights.READ, b"4"),
            (Rights.ALL, b"7"),
            (Rights.READ | 1, b"5"),
            (Digits(12), b"12"),
        ):
            with self.subTest(kind=type(value).__name__, wanted=wanted):
                self.assertEqual(bind("?", [value]), wanted)
                self.assertEqual(bind(":a", {"a": value}), wanted)
                self.assertEqual(mysql_params.bind_in_both_modes("?", [value]), wanted)
                self.assertEqual(bind("IN (?)", [[value, value]]), b"IN (" + wanted + b", " + wanted + b")")
                self.assertEqual(bind("VALUES ?", [[[value]]]), b"VALUES (" + wanted + b")")
                self.assertEqual(bind("?", [mysql_params.Assignments({"a": value})]), b"`a` = " + wanted)

    def test_parameters_in_order(self):
        ids = {"a": 1, "b": 2}
        for given in ((number for number in (1, 2)), ids.values(), map(int, "12"), iter([1, 2]), range(1, 3)):
            with self.subTest(type=type(given).__name__):
                self.assertEqual(bind("?, ?", given), b"1, 2")
        self.assertEqual(bind("SELECT 1", iter(())), b"SELECT 1")
        for given in ({1, 2}, frozenset((1, 2)), "12", b"12", 12, 1.5):
            with self.subTest(given=given), self.assertRaisesRegex(TypeError, "^parameters are None, values in order"):
                bind("?, ?", given)

    def test_examples_of_the_documentation(self):
        self.assertEqual(doctest.testmod(_values)[0], 0)


if __name__ == "__main__":
    if numpy is None:
        print("numpy: skipped: it is missing")
        del Test.test_numpy
    result = Result()
    unittest.defaultTestLoader.loadTestsFromTestCase(Test).run(result)
    sys.exit(0 if result.wasSuccessful() and result.testsRun else 1)
