"""Tests of the extension module over told_archive.c: answers that no archive of ours gives, and memory that is refused."""

import ctypes
import sys
import unittest
from unittest import mock

import mysql_params
from mysql_params import OutOfMemoryError, Template, UnbracketedError, _archive, _native, bind, bind_anywhere, bind_form
from mysql_params import bind_in_both_modes, bind_rows, first_unportable, names
from test_mysql_params import Result

LIBRARY = ctypes.CDLL(_native.__file__)
MOST = ctypes.c_size_t.in_dll(LIBRARY, "told_most")
TABLES_REFUSED = ctypes.c_bool.in_dll(LIBRARY, "told_tables_refused")
KEPT = 1 << 16
"""The bytes of the room that the module keeps."""
LONGEST = 2048
"""The bytes of the longest query of which a template is kept."""


def sent(query, params=(1,), mode=False, steady=False):
    """Return the text to send of a query."""
    form, is_fragments = _native.written(params, None, True)
    return _native.bind_written(query, form, mode, is_fragments, steady)


def sent_rows(query, rows, mode=False, steady=False):
    """Return the texts to send of rows."""
    texts = []
    _native.bind_rows(query, rows, mode, None, True, steady, texts)
    return texts


CALLS = (
    ("bind", lambda query, given: bind(query, given)),
    ("bind_anywhere", lambda query, given: bind_anywhere(query, given)),
    ("bind_in_both_modes", lambda query, given: bind_in_both_modes(query, given)),
    ("bind_form", lambda query, given: bind_form(query, b"")),
    ("text to send", lambda query, given: sent(query.encode(), given)),
    ("steady text to send", lambda query, given: sent(query.encode(), given, steady=True)),
    ("text of a row to send", lambda query, given: sent_rows(query.encode(), [given])[0]),
    ("bind of a list", lambda query, given: bind(query, [given])),
    ("bind_anywhere of a list", lambda query, given: bind_anywhere(query, [given])),
)


class Test(unittest.TestCase):
    """All tests."""

    def refusing(self, most):
        """Refuse memory of more bytes until the test ends."""
        self.addCleanup(setattr, MOST, "value", MOST.value)
        MOST.value = most

    def test_rooms_of_each_length(self):
        for length in (0, 1, KEPT - 1, KEPT, KEPT + 1, 1 << 20):
            for name, call in CALLS:
                with self.subTest(call=name, length=length):
                    self.assertEqual(call(f"2 {length}", [1]), b"x" * length)

    def test_answers_longer_than_the_room(self):
        # The second would be 5 as a C int.
        for length in (KEPT + 1, (1 << 32) + 5, (1 << 64) - 1):
            for name, call in CALLS:
                with self.subTest(call=name, length=length), self.assertRaises(RuntimeError) as raised:
                    call(f"0 {length}", [1])
                message = f"the archive says that it wrote {length} bytes, and had room for {KEPT}"
                self.assertEqual(str(raised.exception), message)

    def test_numbers_of_no_answer(self):
        for number in (-1, 20, 22):
            for name, call in CALLS:
                with self.subTest(call=name, number=number), self.assertRaises(RuntimeError) as raised:
                    call(f"{number}", [1])
                self.assertEqual(str(raised.exception), f"Unknown answer {number} of the archive")
            with self.assertRaises(RuntimeError):
                Template(f"{number}")
        with self.assertRaises(RuntimeError):
            first_unportable("21")
        for query in ("16 0 0 0 21", "17 0 0 0 11"):  # a construct of no number, and a fault of none
            with self.assertRaises(RuntimeError):
                bind(query)

    def test_lists_that_were_not_said_to_be_lists(self):
        for names_of_query, name, place in ((["a", "b"], "b", "`:b`"), ([], None, "`?` at byte 31")):
            with mock.patch.object(_archive, "names_of", lambda query, mode: (query, names_of_query)):
                for call_name, call in CALLS:
                    with self.subTest(call=call_name), self.assertRaises(UnbracketedError) as raised:
                        call("21 0 1 31", [1])
                    found = raised.exception
                    self.assertEqual((found.place, found.position, found.name), (1, 31, name))
                    self.assertTrue(str(found).startswith(place + " is one value here, and was given a list: "))

    def test_answers_that_are_no_rows(self):
        with self.assertRaisesRegex(RuntimeError, "wrote 1000000 bytes, and had room for "):
            bind_rows("0 0 0 1000000", [[1]])
        with self.assertRaisesRegex(RuntimeError, "and had room for "):
            bind_rows("0 0 1000 0", [[1]])
        for byte in (3, 251, 252, 253, 254, 255):  # each as the lead of a length, and of what follows it
            with self.subTest(byte=byte), self.assertRaisesRegex(RuntimeError, "no row of strings"):
                bind_rows(f"0 0 0 2 {byte}", [[1]])
        self.assertEqual(bind_rows("0 0 0 4 1", [[1]]), [b"\x01", b"\x01"])
        with self.assertRaisesRegex(RuntimeError, "it read more than the forms"):
            bind_rows("8 0 12 0", [[1]])  # A refusal of the row after the last.

    def letters(self, query, times, **options):
        """Return the letters of the texts that are sent of a query, one time after another."""
        return "".join(sent(query, **options).decode() for _ in range(times))

    def test_templates_that_are_kept(self):
        """A query is walked two times, and has a template from the third on, in each mode and for steady texts too."""
        for steady in (False, True):
            query = b" 2 1 %d" % steady
            self.assertEqual(self.letters(query, 4, steady=steady), "xxyy")
            self.assertEqual(self.letters(query, 2, mode=True, steady=steady), "yy")
            self.assertEqual(self.letters(query, 2, steady=not steady), "yy")
            self.assertEqual(bind_anywhere(query, [1]), b"y")
            # Not for more than values, nor of an answer that is longer than the room that is kept.
            self.assertEqual(self.letters(query, 4, params=[[1]], steady=steady), "xxxx")
            self.assertEqual(sent(query, ["a" * KEPT], steady=steady), b"x")
            self.assertEqual(sent_rows(query, [(1,), (0.5,), (2,)], steady=steady), [b"y", b"x", b"y"])
        # A query that isn't one for any mode and server is walked each time.
        self.assertEqual(self.letters(b"2 1 2", 6), "xxxxxx")

    def test_templates_of_many_queries(self):
        """Each has its own answer, whichever queries share its slot, and a template after it was given often enough in a row."""
        queries = [b" 2 %d 3 %d" % (number % 7 + 1, number) for number in range(2_000)]
        for _ in range(4):
            for number, query in enumerate(queries):
                self.assertIn(sent(query), (b"x" * (number % 7 + 1), b"y" * (number % 7 + 1)))
        for number, query in enumerate(queries):
            self.assertEqual([sent(query) for _ in range(4)][2:], [b"y" * (number % 7 + 1)] * 2)

    def test_templates_of_queries_of_each_length(self):
        for length, wanted in ((LONGEST - 1, "xxyy"), (LONGEST, "xxyy"), (LONGEST + 1, "xxxx"), (2 * LONGEST, "xxxx")):
            for steady in (False, True):
                query = (b" 2 1 5 %d" % steady).ljust(length)
                with self.subTest(length=length, steady=steady):
                    self.assertEqual(self.letters(query, 4, steady=steady), wanted)
                    # Of a longer one rows have a template of their own, from the second on.
                    rows = b"yyyy" if length <= LONGEST else b"xyyy"
                    for value in (1, "a" * KEPT):
                        self.assertEqual(b"".join(sent_rows(query, [(value,)] * 4, steady=steady)), rows)

    def test_a_template_that_another_query_takes_the_place_of(self):
        """Rows hold the template of their query, whatever is sent between two of them."""
        query = b" 2 3 8"

        def rows():
            yield (1,)
            for other in range(4_000):
                self.letters(b" 2 1 8 %d" % other, 3)
            yield (2,)
            yield ("a" * KEPT,)

        self.letters(query, 3)
        self.assertEqual(sent_rows(query, rows()), [b"yyy"] * 3)
        self.assertEqual(self.letters(query, 1), "xxx")

    def test_templates_without_memory(self):
        self.addCleanup(setattr, TABLES_REFUSED, "value", False)
        for query in (b" 2 1 6", b" 2 1 6".ljust(LONGEST + 1)):
            TABLES_REFUSED.value = True
            self.assertEqual(self.letters(query, 5), "xxxxx")
            self.assertEqual(sent_rows(query, [(1,)] * 5), [b"x"] * 5)
            TABLES_REFUSED.value = False
            self.assertEqual(sent_rows(query, [(1,)] * 5)[3:], [b"y"] * 2)
        self.refusing(0)
        self.assertEqual(self.letters(b" 2 1 6", 2), "yy")
        with self.assertRaises(OutOfMemoryError):
            sent(b" 2 70000 6")

    def test_refusals_by_a_template(self):
        for number, kind in ((1, OutOfMemoryError), (8, mysql_params.MixedError), (12, mysql_params.MarkCountError), (20, RuntimeError)):
            query = b" %d 7" % number
            for call in (lambda: sent(query), lambda: sent(query, mode=True), lambda: sent_rows(query, [(1,)])):
                for _ in range(4):
                    with self.subTest(number=number), self.assertRaises(kind):
                        call()
            with self.assertRaises(kind):
                sent_rows(query.ljust(LONGEST + 1), [(1,)] * 3)

    def test_refusals_by_the_archive(self):
        for call in (lambda: bind("1"), lambda: names("1"), lambda: bind_rows("1", [[1]]), lambda: Template("1")):
            with self.assertRaises(OutOfMemoryError) as raised:
                call()
            self.assertIsInstance(raised.exception, MemoryError)
        with self.assertRaises(RuntimeError):
            first_unportable("-1")

    def test_rooms_without_memory(self):
        self.refusing(1 << 18)
        # The first room is longer than the answer, for which there is memory.
        text = "x" * (1 << 16)
        self.assertEqual(bind("2 100000", ["x" * (1 << 16)]), b"x" * 100_000)
        for length in (1 << 18, 1 << 40, (1 << 63) - 1, 1 << 63, (1 << 64) - 1):
            for name, call in CALLS:
                for given in ([1], [text]):
                    with self.subTest(call=name, length=length), self.assertRaises(OutOfMemoryError) as raised:
                        call(f"2 {length}", given)
                    self.assertEqual((str(raised.exception), raised.exception.args), ("out of memory", ()))
        with self.assertRaises(OutOfMemoryError) as raised:
            bind_rows("2 300000", [[1]])
        self.assertEqual((raised.exception.row, raised.exception.texts), (0, []))
        self.assertEqual(bind("2 5", [1]), b"xxxxx")

    def test_forms_without_memory(self):
        self.refusing(5000)
        for given in (["x" * 5000], [b"x" * 5000], {"a": "x" * 5000}, {"n" * 5000: 1}, [list(range(1000))], [[(1, 2)] * 500]):
            for call in (bind, bind_anywhere, lambda query, given: mysql_params._native.written(given, None, True)):
                with self.assertRaises(MemoryError):
                    call("2 5", given)
        with self.assertRaises(MemoryError):
            bind_rows("2 5", [["x" * 5000]])
        self.assertEqual(bind("2 5", ["x" * 50]), b"xxxxx")

    def test_tables_without_memory(self):
        self.assertEqual(Template("2 1000")._table.count, 1000)
        self.refusing(5000)
        for count in (1000, 1 << 60, (1 << 64) - 1):
            with self.subTest(count=count), self.assertRaises(OutOfMemoryError):
                Template(f"2 {count}")
        MOST.value = 0
        with self.assertRaises(OutOfMemoryError):
            Template("2 0")


if __name__ == "__main__":
    result = Result()
    unittest.defaultTestLoader.loadTestsFromTestCase(Test).run(result)
    sys.exit(0 if result.wasSuccessful() and result.testsRun else 1)
