"""Tests that no call keeps memory or a reference: each kind of answer and of refusal, 4000 times or as often as LEAKS says.

Under valgrind the extension's own memory is judged too:

    PYTHONMALLOC=malloc LEAKS=100 valgrind --leak-check=full --show-leak-kinds=definite python3 -m test_leaks
"""

import datetime
import decimal
import gc
import itertools
import os
import resource
import sys
import tracemalloc
import unittest

from mysql_params import Assignments, Identifier, In, Template, bind, bind_anywhere, bind_form, bind_in_both_modes, bind_rows
from mysql_params import _native, first_unportable, names
from test_mysql_params import Result

COUNT = int(os.environ.get("LEAKS", "4000"))
MOST = 3000
"""How many bytes more may be held after all calls: what Python itself keeps."""

MOMENT = datetime.datetime(2019, 11, 27, 1, 2, 3, 4)
VALUES = [None, True, 7, 1 << 63, 0.5, "it's", b"\xff", MOMENT, MOMENT.date(), MOMENT.time(), datetime.timedelta(-1)]
MORE = [*VALUES, decimal.Decimal("1.5"), 1 << 70, In([1, "a"]), In([(1, 2), [3, 4]]), Identifier("a", "b"), bytearray(b"a")]
MORE += [[Identifier("a"), Identifier("b")], Assignments({"a": 1, Identifier("t", "b"): "x"})]
LONG = "x" * (1 << 17)
NUMBERS = itertools.count()
TEMPLATE = Template("IN (:a)")


def send(query, *rows, steady=False):
    """Make the texts to send of rows, one by one and all at once."""
    for row in rows:
        form, is_fragments = _native.written(row, None, True)
        _native.bind_written(query, form, False, is_fragments, steady)
    _native.bind_rows(query, rows, False, None, True, steady, [])


class Odd:
    """A value of no literal."""


HELD = (*MORE, Odd, LONG)
"""Values whose references are counted."""


def rows_that_end():
    """Give a row, and raise."""
    yield [1]
    raise ZeroDivisionError


ANSWERS = {
    "values": lambda: bind(", ".join("?" * len(MORE)), MORE),
    "names": lambda: bind(":a, :b", {"a": 1, b"b": "x"}),
    "anywhere": lambda: bind_anywhere(", ".join("?" * len(MORE)), tuple(MORE)),
    "both modes": lambda: bind_in_both_modes("?, ?", iter([1, "a"])),
    "form": lambda: bind_form("?", b"\0\6\0"),
    "template": lambda: TEMPLATE.bind({"a": [1, 2]}),
    "new template": lambda: Template("?, ?").bind_form(b"\0\6\0\0\6\0"),
    "rows": lambda: bind_rows("?, ?", [(1, "a"), [0.5, None], (n for n in (1, 2))]),
    "to send": lambda: send(b"?, ?", MORE[5:7], ("\\", 1), ["'", In([1, "\\"])], [Identifier("\u00e4"), "\\"]),
    "to send, another query each time": lambda: send(b"?, %d" % (next(NUMBERS) % 1_000), [1], [2], [3]),
    "to send, long query": lambda: send(b"?" + b" " * 3_000, [1], ["'"], [3]),
    "to send, steady": lambda: send(b"?", ["\\"], [In([1, 0.5])], steady=True),
    "to send, plain": lambda: send(b"? #\\", ["\\"], [In([1, 0.5])]),
    "lists": lambda: bind("IN (:a), VALUES :b", {"a": [1, "a"], "b": [(1, 2), [3, 4]]}),
    "names of a query": lambda: names(":a"),
    "portable": lambda: first_unportable("?"),
    "zone": lambda: bind("?", [MOMENT.replace(tzinfo=datetime.timezone.utc)], zone=datetime.timezone.utc),
}

REFUSALS = {
    "mixed": lambda: bind(":a ?"),
    "missing": lambda: bind(":a, :b", {"a": 1}),
    "word": lambda: bind(":gr\u00f6\u00dfe", {"gr": 1}),
    "named for positional": lambda: bind("?", {"a": 1}),
    "positional for named": lambda: bind(":a", [1]),
    "mark count": lambda: bind("?", MORE),
    "not alone": lambda: bind("1?", [1]),
    "float": lambda: bind(":a", {"a": float("nan")}),
    "unsteady": lambda: bind_anywhere("\u00e4?", [1]),
    "unportable": lambda: bind_anywhere("[?", [1]),
    "fault": lambda: bind(":a", {"a": In([])}),
    "unbracketed": lambda: bind("F(:a)", {"a": [1, "a"]}),
    "in of a list": lambda: bind("?", [In([1, In([2])])]),
    "unsteady fragment": lambda: bind_anywhere("?", [Identifier("\u00e4")]),
    "backslash": lambda: bind_in_both_modes("'\\\\' ?", [1]),
    "form end": lambda: bind_form("?", b"\0\x08\0"),
    "form length": lambda: bind_form("?", b"\xfb"),
    "form type": lambda: bind_form("?", b"\0\x11\0\0"),
    "form mixed": lambda: bind_form("?", b"\0\6\0\1a\6\0"),
    "repeated": lambda: bind(":a", {"a": 1, b"a": 2}),
    "template": lambda: TEMPLATE.bind({"b": 1}),
    "row": lambda: bind_rows("?", [[1], [1, 2]]),
    "value of a row": lambda: bind_rows("?", [[1], [Odd()]]),
    "rows to send": lambda: _native.bind_rows(b"?", [["\\"], [1, 2]], False, None, True, False, []),
    "row to send": lambda: send(b"?", ["\\", 1]),
    "unsteady row": lambda: send(b"?\\", [1], steady=True),
    "query of no bytes": lambda: _native.bind_written("?", b"", False, False, False),
    "rows that end": lambda: bind_rows("?", rows_that_end()),
    "value": lambda: bind("?", [*MORE, Odd()]),
    "item": lambda: bind("?", [[1, Odd()]]),
    "identifiers and a value": lambda: bind("?", [[Identifier("a"), 1]]),
    "assignment": lambda: bind("?", [Assignments({"a": 1, "b": [1]})]),
    "assignments": lambda: bind("?", [Assignments({})]),
    "no assignments": lambda: Assignments([1]),
    "lone surrogate": lambda: bind("?", ["\ud800"]),
    "name": lambda: bind(":a", {"a": 1, 5: 2}),
    "empty name": lambda: bind(":a", {"": 1}),
    "wide number": lambda: bind("?", [10**65]),
    "mode": lambda: bind("?", [1], 1),
    "zone": lambda: bind("?", [1], zone=1),
    "query": lambda: bind(5),
    "params": lambda: bind("?", {1}),
    "form of no bytes": lambda: bind_form("?", 5),
    "template of no query": lambda: Template(5),
}

LONG_CALLS = {
    "long text": lambda: bind("?", [LONG]),
    "long rows": lambda: bind_rows("?", [[LONG]] * 3),
    "long rows to send": lambda: send(b"?", *[["\\" + LONG]] * 3),
    "long query": lambda: names("/*" + LONG + "*/:a"),
    "long refusal": lambda: bind("?, ?", [LONG]),
    "long row that is refused": lambda: bind_rows("?", [[LONG], []]),
}


def repeat(call, count):
    """Call so often; what is raised says nothing here."""
    for _ in range(count):
        try:
            call()
        except Exception:
            pass


class Test(unittest.TestCase):
    """All tests."""

    def grown(self, call, count):
        """Return by how many bytes Python's memory and the process grow by so many calls, and by how many references a value."""
        held = [sys.getrefcount(value) for value in HELD]
        before, pages = tracemalloc.get_traced_memory()[0], resource.getrusage(resource.RUSAGE_SELF).ru_maxrss
        repeat(call, count)
        gc.collect()
        references = max(sys.getrefcount(value) - was for value, was in zip(HELD, held))
        pages = resource.getrusage(resource.RUSAGE_SELF).ru_maxrss - pages
        return tracemalloc.get_traced_memory()[0] - before, references, pages

    def judge(self, name, call, count):
        """Python's memory, the references of values and the process stay as they were."""
        repeat(call, 50)
        gc.collect()
        for _ in range(5):  # Python may keep something now and then; a leak comes each time.
            more, references, pages = self.grown(call, count)
            if more < MOST:
                break
        with self.subTest(call=name):
            self.assertLess(more, MOST)
            self.assertLess(references, count // 2)  # None, True and small numbers are held by others too.
            self.assertLess(pages, 4096)

    def run_all(self, calls, count):
        """Judge calls, each of which raises or returns as it should."""
        if os.environ.get("PYTHONMALLOC") != "malloc":  # Else valgrind takes tracemalloc's own memory for lost.
            tracemalloc.start()
            self.addCleanup(tracemalloc.stop)
        for name, call in calls.items():
            self.judge(name, call, count)

    def test_answers(self):
        for name, call in ANSWERS.items():
            call()
        self.run_all(ANSWERS, COUNT)

    def test_refusals(self):
        for name, call in REFUSALS.items():
            with self.subTest(call=name), self.assertRaises(Exception):
                call()
        self.run_all(REFUSALS, COUNT)

    def test_long_calls(self):
        self.run_all(LONG_CALLS, max(COUNT // 100, 20))

    def test_each_refusal_is_here(self):
        found = set()
        for call in REFUSALS.values():
            try:
                call()
            except Exception as fault:
                found.add(getattr(fault, "number", None))
        # All numbers except those of memory, of a room, and of another table; and the package's own.
        self.assertEqual(found - {None}, {-1, *range(3, 20), 21})


if __name__ == "__main__":
    result = Result()
    unittest.defaultTestLoader.loadTestsFromTestCase(Test).run(result)
    sys.exit(0 if result.wasSuccessful() and result.testsRun else 1)
