"""Tests of the extension module: its flat forms beside those of the package's functions in Python, threads, and memory."""

import collections
import datetime
import decimal
import enum
import itertools
import os
import random
import re
import resource
import signal
import sys
import threading
import time
import unittest
import uuid
from unittest import mock

import mysql_params
from mysql_params import Assignments, Identifier, In, Keyword, _archive, _form, _fragments, _many, _native, _values, bind, bind_anywhere
from mysql_params import bind_rows
from test_mysql_params import Result

UTC = datetime.timezone.utc
DAY = datetime.timedelta(days=1)
KEPT = 1 << 16
"""The bytes of the room that the module keeps, over which a call lets the GIL go."""
LONGEST = 2048
"""The bytes of the longest query of which a template is kept."""


class Number(int):
    """A subclass, which is for Python."""


class Text(str):
    """Another."""


class Moment(datetime.datetime):
    """Another."""


class Color(enum.Enum):
    """A value of another type."""

    RED = 7


class Several(In):
    """A subclass, which is for Python."""


class Point:
    """A type that may be registered."""


Pair = collections.namedtuple("Pair", "a b")

STRINGS = ["", "it's", "\u20ac", "\0", "x" * 250, "x" * 251, "\u20ac" * 84, "x" * 65535, "x" * 65536, "x" * (1 << 24), "\ud800"]
NUMBERS = [0, 1, -1, 255, (1 << 63) - 1, 1 << 63, -(1 << 63), -(1 << 63) - 1, (1 << 64) - 1, 1 << 64, 10**65 - 1, 10**65, -(10**65)]
FLOATS = [0.0, -0.0, 0.1, 5e-324, 1.7976931348623157e308, float("nan"), float("inf"), float("-inf")]
DATES = [datetime.date.min, datetime.date.max, datetime.date(2019, 11, 27), datetime.datetime.min, datetime.datetime.max]
DATES += [datetime.datetime(2019, 11, 27, 1, 2, 3, 4), datetime.datetime(2019, 11, 27, tzinfo=UTC), Moment(2019, 11, 27)]
TIMES = [datetime.time.min, datetime.time.max, datetime.time(1, 2, 3, 4), datetime.time(1, tzinfo=UTC)]
SPANS = [datetime.timedelta.min, datetime.timedelta.max, datetime.timedelta(0), DAY, -DAY, datetime.timedelta(microseconds=-1)]
SPANS += [datetime.timedelta(-1, 86399), datetime.timedelta(-1, 0, 1), datetime.timedelta(seconds=-1), datetime.timedelta(hours=25)]
DECIMALS = ["0", "-0", "0.00", "0E-2", "0E+3", "-1.50", "1E+3", "1E-7", "0.000001", "1E+64", "1E+65", "1E-30", "1E-31", "NaN"]
DECIMALS += ["sNaN", "-Infinity", "9" * 65, "9" * 66, "0." + "1" * 64, "0." + "1" * 65, "-" + "9" * 35 + "." + "9" * 30]
OTHERS = [None, True, False, bytearray(b"a'"), memoryview(b"\xff"), Number(5), Text("a"), Color.RED, uuid.UUID(int=7), Point()]
OTHERS += [1j, {1}, frozenset(), {1: 2}, range(2), iter(()), Identifier("t"), Identifier("a", "b"), object, Ellipsis]
OTHERS += [Keyword("ASC", among=("ASC",)), Identifier("\ud800")]
VALUES = STRINGS + [string.encode("utf-8", "surrogatepass") for string in STRINGS] + NUMBERS + FLOATS + DATES + TIMES + SPANS
VALUES += [decimal.Decimal(digits) for digits in DECIMALS] + OTHERS
SETS = [{}, {"a": 1}, {"a": 1, Identifier("t", "b"): "x", "": None}, {"\ud800": 1}, {"x" * 300: 0.5}, {Text("a"): Number(5)}]
SETS += [{"a": value} for value in ([1], (), Identifier("t"), Keyword("ASC", among=("ASC",)), Assignments({"b": 1}), {1: 2}, {1})]
SETS += [{"a": value, Identifier("\ud800", "t"): [1]} for value in (decimal.Decimal("1.5"), 1 << 70, float("nan"), Color.RED, 7)]
OTHERS += [Assignments(columns) for columns in SETS]
VALUES += OTHERS[-len(SETS) :]
LISTS = [[], (), [1, "a", None], (0.5, b"x"), [decimal.Decimal("1.5"), 1 << 70], [(1, 2), [3, "a"]], ((),), [[1], 2], [1, [2]]]
LISTS += [[{1}], [(1, {1})], [[(1,)]], [Identifier("t")], [Pair(1, 2), (3, 4)], Pair(1, 2), Pair((1,), [2]), [Number(1), Text("a")]]
LISTS += [[Identifier("t"), Identifier("a", "b")], (Identifier("\u20ac"),), [Identifier("t"), 1], [1, Identifier("t")]]
LISTS += [[Identifier("t"), Point()], [Identifier("t"), Identifier("\ud800")], [[Identifier("t")]], [Identifier("t"), (1,)]]
LISTS += [[Keyword("ASC", among=("ASC",))], [Identifier("x" * 300)] * 300, [Color.RED, Identifier("t")], [Assignments({"a": 1})]]
LISTS += [collections.UserList([1]), collections.deque([1]), [DATES[5], TIMES[1], SPANS[4]], [float("nan")], [True, [1]]]
LISTS += [Several([1, 2]), *(In(value) for value in LISTS if isinstance(value, (list, tuple)))]


def outcome(call):
    """Return what a call returns, or the type and the message of what it raises."""
    try:
        return call()
    except Exception as fault:
        return type(fault), str(fault)


def is_of_fragments(form):
    """Return whether a parameter without a name is for the calls that bind fragments, by its type and value."""
    return 128 <= form[1] <= 137 or form[1] == 5 and form[2:] not in map(not_finite, FLOATS[-3:])


def not_finite(number):
    """Return the flags and the value of a double."""
    return _form.value_form(number, 0)[1:]


def guarded(value, mode):
    """Return the guarded literal of bytes in a mode."""
    try:
        value.decode()
    except UnicodeDecodeError:
        return b"0x" + value.hex().upper().encode()
    if mode and b"\\" in value:
        return b"_utf8mb4 0x" + value.hex().upper().encode()
    doubled = re.sub(rb"['\\]", lambda found: found[0] * 2, value)
    return b"'" + re.sub(rb"(?<=[\x80-\xff])(?=\\)", b"' '", doubled) + b"'"


def sent(query, params, mode, steady=False):
    """Return the text to send of a query."""
    form, is_fragments = _native.written(params, None, True)
    return _native.bind_written(query, form, mode, is_fragments, steady)


class Test(unittest.TestCase):
    """All tests."""

    def setUp(self):
        registered = mock.patch.dict(_values._REGISTERED, clear=True)
        registered.start()
        self.addCleanup(registered.stop)

    def test_a_taken_lock_of_tables(self):
        """A call that interrupts another waits for no lock, and a forked process has one of its own."""
        query = "SELECT ?, '" + "x" * 5_000 + "'"
        tables = _archive.TABLES
        with tables.lock:
            self.assertEqual(bind(query, [1]), query.replace("?", "1").encode())
            child = os.fork()
            if child == 0:
                os._exit(0 if tables.lock.acquire(blocking=False) and not tables.kept else 1)
        self.assertEqual(os.waitpid(child, 0)[1], 0)

    def test_the_size_of_tables_is_summed(self):
        """A size that an interrupted call left wrong is right again with the next table."""
        tables = _archive.TABLES
        tables.size = 1 << 40
        query = "SELECT ?, '" + "y" * 5_000 + "'"
        self.assertEqual(bind(query, [2]), query.replace("?", "2").encode())
        self.assertEqual(tables.size, sum(table.size for table in tables.kept.values()))

    def test_signals_within_rows(self):
        """The handler of a signal runs while rows with floats are bound, which are bound one by one."""

        def stop(*_):
            raise InterruptedError

        self.addCleanup(signal.signal, signal.SIGPROF, signal.signal(signal.SIGPROF, stop))
        rows = [(1.5, 2)] * 3_000_000
        begun = time.process_time()
        signal.setitimer(signal.ITIMER_PROF, 0.05)
        with self.assertRaises(InterruptedError):
            bind_rows("INSERT INTO t VALUES (?, ?)", rows)
        self.assertLess(time.process_time() - begun, 0.5)

    def test_an_error_of_the_rows_themselves(self):
        """What the rows' iterator raises comes after the texts of the rows before, and after the refusal of one of them."""

        def raising(rows):
            yield from rows
            bind("SELECT ?", [])

        with self.assertRaises(mysql_params.MarkCountError) as found:
            bind_rows("SELECT ?", raising([(1,), (2,)]))
        self.assertEqual((found.exception.row, found.exception.texts), (2, [b"SELECT 1", b"SELECT 2"]))
        with self.assertRaises(mysql_params.MarkCountError) as found:
            bind_rows("SELECT ?", raising([(1,), (2, 3), (4,)]))
        self.assertEqual((found.exception.row, found.exception.texts), (1, [b"SELECT 1"]))

    def test_an_error_of_a_function_that_is_registered(self):
        """The refusal of an earlier row comes first, whatever a function of a user's own raises."""

        class Key:
            pass

        mysql_params.register(Key, lambda key: {}[key])
        self.assertRaises(KeyError, bind_rows, "SELECT ?", [(1,), (Key(),)])
        with self.assertRaises(mysql_params.MarkCountError) as found:
            bind_rows("SELECT ?", [(1,), (2, 3), (Key(),)])
        self.assertEqual(found.exception.row, 1)

    def test_a_long_run_of_blanks_in_an_insert(self):
        """An INSERT is told from another query in time that grows as the query does."""
        begun = time.process_time()
        self.assertIsNone(_many._INSERT.match(b"INSERT INTO t VALUES (?) ON DUPLICATE " + b" " * 20_000 + b"?"))
        self.assertLess(time.process_time() - begun, 0.5)

    def compare(self, value, zone=None):
        """A value has the form, or the exception, that the functions in Python have for it."""
        for takes_more, function in ((True, _fragments.place_form), (False, _form.value_form)):
            with self.subTest(value=repr(value)[:80], takes_more=takes_more):
                wanted = outcome(lambda: b"\0" + function(value, 1, zone))
                found = outcome(lambda: _native.written([None, value], zone, takes_more))
                if isinstance(wanted, bytes):
                    self.assertTrue(found == (b"\0\6\0" + wanted, is_of_fragments(wanted)), found[0][:80])
                else:
                    self.assertEqual(found, wanted)
                wanted = outcome(lambda: b"\1n" + function(value, b"n", zone))
                for params in ({"n": value}, {b"n": value}, collections.UserDict(n=value), {Text("n"): value}):
                    found = outcome(lambda: _native.written(params, zone, takes_more))
                    self.assertTrue(found == wanted or found[0] == wanted, found)

    def test_forms_of_values(self):
        for value in VALUES:
            self.compare(value)
            self.compare(value, UTC)
        self.assertGreater(len(VALUES), 100)

    def test_forms_of_lists(self):
        for value in LISTS + [[value] for value in VALUES] + [[(value, 1)] for value in VALUES]:
            self.compare(value)
        for first, second in itertools.product(LISTS[:9], repeat=2):
            self.compare([first, second])

    def test_forms_of_registered_types(self):
        for kind, function in ((Point, lambda point: 5), (decimal.Decimal, str), (list, repr), (tuple, len), (Color, str)):
            mysql_params.register(kind, function)
        mysql_params.register(datetime.time, str)
        mysql_params.register(decimal.Context, lambda context: Identifier("t", "a"))
        for value in (Point(), decimal.Decimal("1.5"), [1, 2], (1, 2), Color.RED, datetime.time(1), [Point()], 5, "a"):
            self.compare(value)
        self.assertEqual(bind("?, ?, ?", [[1], (1,), datetime.time(1)]), b"'[1]', 1, '01:00:00'")
        del _values._REGISTERED[list]
        names, moment = [decimal.Context(), Identifier("b")], datetime.time(1)
        for value in (names, names[::-1], [names[0], 1], [1, names[0]], [moment, 1], Assignments({"a": Point(), "b": names[0]})):
            self.compare(value)
        self.assertEqual(bind("?", [names]), b"`t`.`a`, `b`")
        mysql_params.register(datetime.time, lambda time: Identifier("c"))
        mysql_params.register(list, repr)
        for value in (Assignments({"a": [1]}), (moment, names[0]), (Color.RED, moment)):
            self.compare(value)

    def test_forms_of_rows(self):
        for row in LISTS:
            for which in (0, b"n"):
                wanted = outcome(lambda: _fragments._items(row, which, None))
                self.assertEqual(outcome(lambda: _native.row_items(row, which, None)[0]), wanted)

    def test_random_values(self):
        chosen = random.Random(5)
        short = [value for value in VALUES + LISTS if not isinstance(value, (str, bytes)) or len(value) < 300]
        for _ in range(2000):
            params = [chosen.choice(short) for _ in range(chosen.randrange(5))]
            forms = [outcome(lambda: b"\0" + _fragments.place_form(value, at, UTC)) for at, value in enumerate(params)]
            faults = [form for form in forms if isinstance(form, tuple)]
            found = outcome(lambda: _native.written(params, UTC, True))
            self.assertEqual(found if faults else found[0], faults[0] if faults else b"".join(forms))

    def test_parameters_that_change(self):
        params, items = {"a": Point(), "b": 1}, [Point(), 1, 2]
        mysql_params.register(Point, lambda point: params.clear())
        with self.assertRaisesRegex(RuntimeError, "^dictionary changed size during iteration$"):
            bind(":a", params)
        mysql_params.register(Point, lambda point: items.clear())
        self.assertEqual(bind("?, ?, ?", items), b"NULL, 1, 2")
        self.assertEqual(items, [])
        items[:] = [[Point(), 1], 2]
        mysql_params.register(Point, lambda point: bind("?, ?", ["x" * 100, 3]))
        self.assertEqual(bind("IN (?); ?", [items[0], 4]), b"IN ('\\'" + b"x" * 100 + b"\\', 3', 1); 4")
        items[:] = [Point(), 1, 2]
        mysql_params.register(Point, lambda point: items.clear())
        self.assertEqual(bind("IN (?)", [items]), b"IN (NULL, 1, 2)")

    def test_iterators_that_raise(self):
        def rows():
            yield [1]
            raise ZeroDivisionError

        for call in (lambda: bind("?", rows()), lambda: bind_rows("?", rows())):
            with self.assertRaises(ZeroDivisionError):
                call()
        with self.assertRaises(TypeError) as raised:
            bind_rows("?", ([len(row)] for row in ("a", 2)))
        self.assertFalse(hasattr(raised.exception, "texts"))  # It is of no row.

    def test_texts_longer_than_the_room_that_is_kept(self):
        for length in (KEPT - 200, KEPT - 3, KEPT - 2, KEPT - 1, KEPT, 3 * KEPT):
            for sign in "x'":
                wanted = ("'" + sign.replace("'", "\\'") * length + "'").encode()
                self.assertTrue(bind("?", [sign * length]) == wanted)
                self.assertTrue(bind("/*" + sign * length + "*/?", ["'"]) == b"/*" + sign.encode() * length + b"*/'\\''")
        query = ",".join([":a"] * 100)
        self.assertTrue(bind(query, {"a": "x" * 2000}) == b",".join([b"'" + b"x" * 2000 + b"'"] * 100))

    def test_guarded_texts(self):
        """Texts to send, one by one and of many rows at once, have the literals that docs/RULES.md says."""
        choice, parts = random.Random(7), [text.encode() for text in ("'", "\\", "\u00e9", "\u8aa0", "x", "\0", "\n", '"')]
        values = [b"".join(choice.choices(parts, k=choice.randrange(7))) for _ in range(5_000)]
        values += [value + b"\xff" for value in values[:50]]
        values += [part * length for part in (*parts, b"\xc3\xa9\\", b"\xff\\") for length in (KEPT // 5, KEPT // 2, KEPT)]
        rows = [(value, number) for number, value in enumerate(values)]
        for mode in (False, True):
            wanted, texts = [b"%s, %d" % (guarded(value, mode), number) for value, number in rows], []
            _native.bind_rows(b"?, ?", rows, mode, None, True, False, texts)
            self.assertTrue(texts == wanted)
            self.assertTrue([sent(b"?, ?", row, mode) for row in rows] == wanted)
            several = b"".join(b", " + guarded(value, mode) for value in values[:5_050])
            self.assertTrue(sent(b"0, ?", [In(values[:5_050])], mode) == b"0" + several)

    def test_texts_of_queries_that_are_kept(self):
        """A query that is sent again and again has the same texts each time, in both modes, whatever its length."""
        values = [b"it's", b"\\", b"\xc3\xa9\\'", b"\xff\\"]
        for length in (20, LONGEST - 1, LONGEST, LONGEST + 1):
            for places in (b"?, ?", b":a, :Ab", b":Ab, :Ab"):
                query = b"SELECT " + b"9" * (length - len(places) - 9) + b", " + places
                self.assertEqual(len(query), length)
                marked = query.replace(b":Ab", b"%(Ab)b").replace(b":a", b"%(a)b").replace(b"?, ?", b"%(a)b, %(Ab)b")
                for value, mode in itertools.product(values * 3, (False, True, True)):
                    params = [value, 7] if b"?" in query else {b"a": value, "Ab": 7}
                    wanted = marked % {b"a": guarded(value, mode), b"Ab": b"7"}
                    self.assertEqual(sent(query, params, mode), wanted)
                    texts = []
                    _native.bind_rows(query, [params] * 4, mode, None, True, False, texts)
                    self.assertEqual(texts, [wanted] * 4)

    def test_refusals_of_queries_that_are_kept(self):
        """So is it refused each time: the fields are of docs/RULES.md, "Answers in the caller's room"."""
        for query, params, kind, fields in (
            (b"SELECT [:a", {"a": 1}, mysql_params.UnportableError, (7, mysql_params.Construct.BRACKET)),
            (b"SELECT :a ?", {"a": 1}, mysql_params.MixedError, ()),
            (b"SELECT :a, :bc", {"a": 1}, mysql_params.MissingError, None),
            (b"SELECT :c, :a, :B", {"d": 1}, mysql_params.MissingError, None),
            (b"SELECT :c, :a", {}, mysql_params.MissingError, None),
            (b"SELECT ?, ?", [1], mysql_params.MarkCountError, None),
            (b"SELECT 1?", [1], mysql_params.NotAloneError, None),
            (b"SELECT ?", [float("nan")], mysql_params.FloatError, None),
            (b"SELECT ?", {"a": 1}, mysql_params.NamedForPositionalError, None),
            (b"SELECT :a", [1], mysql_params.PositionalForNamedError, None),
            (b"SELECT :a", {"a": 1, b"a": 2}, mysql_params.RepeatedNameError, None),
        ):
            found = []
            for mode in (False, True, False, True, False, True):
                with self.subTest(query=query, mode=mode), self.assertRaises(kind) as raised:
                    sent(query, params, mode)
                found.append((raised.exception.args, str(raised.exception)))
            if fields is None:  # Of a query that is portable it is that of bind.
                with self.assertRaises(kind) as raised:
                    bind(query, params)
                fields = raised.exception.args
            self.assertEqual(found, found[:1] * 6)
            self.assertEqual(found[0][0], fields)

    def test_threads_and_queries_that_are_kept(self):
        """Threads that send more queries than are kept, of which some share a slot, get their own texts."""
        values = [b"it's", b"\\", b"\xc3\xa9\\'", b"it's" * KEPT]
        literals = {(value, mode): guarded(value, mode) for value in values for mode in (False, True)}
        self.addCleanup(sys.setswitchinterval, sys.getswitchinterval())
        sys.setswitchinterval(1e-5)
        faults = []

        def run(choice):
            for _ in range(3_000):
                number, mode = choice.randrange(600), choice.random() < 0.5
                value = choice.choice(values[:3]) if choice.random() < 0.98 else values[3]
                query, texts = b"SELECT %d, :a" % number, []
                for _ in range(choice.randrange(5)):
                    texts.append(sent(query, {"a": value}, mode))
                _native.bind_rows(query, [{"a": value}] * choice.randrange(5), mode, None, True, False, texts)
                if any(text != b"SELECT %d, " % number + literals[value, mode] for text in texts):
                    faults.append((query, mode, value[:9]))

        threads = [threading.Thread(target=run, args=(random.Random(seed),)) for seed in range(8)]
        for thread in threads:
            thread.start()
        for thread in threads:
            thread.join()
        self.assertEqual(faults, [])

    def test_steady_and_plain_texts_to_send(self):
        rows = [("it's\\",), ("\n",), (In(["'", 0.5]),)]
        steady = [b"_utf8mb4 0x697427735C", b"_utf8mb4 0x0A", b"_utf8mb4'''', 0.5e0"]
        for mode, plain in ((False, [b"'it\\'s\\\\'", b"'\\n'", b"'\\'', 0.5e0"]), (True, [b"'it''s\\'", b"'\n'", b"'''', 0.5e0"])):
            for query, wants_steady, wanted in ((b"?", True, steady), (b"? #\xc3\xa9", False, plain), (b"? #\\", False, plain)):
                texts = []
                _native.bind_rows(query, rows * 900, mode, None, True, wants_steady, texts)
                self.assertTrue(texts == [text + query[1:] for text in wanted] * 900)
                alone = [sent(query, row, mode, wants_steady) for row in rows]
                self.assertEqual(alone, texts[:3])
        for query, wants_steady, kind in (("?", False, TypeError), (b"?", Number, None), (b"?\xc3\xa9", 1, mysql_params.UnsteadyError)):
            found = outcome(lambda: sent(query, [1], False, wants_steady))
            self.assertEqual(found[0] if kind else found, kind or b"1")

    def test_a_row_to_send_that_is_refused(self):
        """The rows before it have their texts, also those with a backslash, which are bound by themselves."""
        for bad, kind in ((("\\",), mysql_params.MarkCountError), (("\\", {1}), TypeError), (("\\", In([])), mysql_params.FragmentError)):
            for count in (0, 1, 3_000):
                texts = []
                with self.subTest(kind=kind.__name__, count=count), self.assertRaises(kind):
                    _native.bind_rows(b"?, ?", [("\\", 1)] * count + [bad], False, None, True, False, texts)
                self.assertTrue(texts == [b"'\\\\', 1"] * count)

    def test_others_run_during_long_calls(self):
        moments, is_done = [], threading.Event()

        def note():
            while not is_done.is_set():
                moments.append(time.perf_counter())
                time.sleep(0.001)

        other = threading.Thread(target=note)
        other.start()
        self.addCleanup(other.join)
        self.addCleanup(is_done.set)
        text = "it's " * (5 << 20)
        query = "SELECT 1 /* " + "a 'b' " * (5 << 20) + "*/"
        template = mysql_params.Template("?")

        def rows_to_send(rows):
            _native.bind_rows(b"?", rows, False, None, True, False, [])

        for name, call in (
            ("bind", lambda: bind("?", [text])),
            ("bind_anywhere", lambda: bind_anywhere("?", [text])),
            ("template", lambda: template.bind([text])),
            ("names", lambda: mysql_params.names(query)),
            ("first_unportable", lambda: mysql_params.first_unportable(query)),
            ("bind_rows", lambda: bind_rows("?", [[text[: 1 << 20]]] * 25)),
            ("rows to send", lambda: [rows_to_send([[text[: 1 << 14]]] * 1_600) for _ in range(10)]),
            ("short rows to send", lambda: rows_to_send([["it's"]] * 300_000)),
        ):
            most = 0
            for _ in range(5):  # A processor that is shared may not come to the other thread in time.
                begin = time.perf_counter()
                call()
                end = time.perf_counter()
                most = max(most, sum(begin < moment < end for moment in moments))
                if most > 2:
                    break
            self.assertGreater(most, 2, f"{name}, {end - begin} s")

    def test_memory_that_is_refused(self):
        text = "x" * (1 << 26)
        before = resource.getrlimit(resource.RLIMIT_AS)
        pages = int(open("/proc/self/statm").read().split()[0]) * resource.getpagesize()
        for more in (1 << 20, 1 << 26, 5 << 25):
            resource.setrlimit(resource.RLIMIT_AS, (pages + more, before[1]))
            try:
                found = outcome(lambda: bind("?", [text]))
            finally:
                resource.setrlimit(resource.RLIMIT_AS, before)
            with self.subTest(more=more):
                self.assertTrue(isinstance(found, tuple) and issubclass(found[0], MemoryError))
        self.assertTrue(bind("?", [text]) == b"'" + text.encode() + b"'")

    def test_tables_are_made_by_queries_alone(self):
        with self.assertRaises(TypeError):
            _native.Table()
        with self.assertRaises(TypeError):
            _native.bind_table(b"?", [1], None)
        with self.assertRaises(TypeError):
            object.__new__(_native.Table)


if __name__ == "__main__":
    result = Result()
    unittest.defaultTestLoader.loadTestsFromTestCase(Test).run(result)
    sys.exit(0 if result.wasSuccessful() and result.testsRun else 1)
