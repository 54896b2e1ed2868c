"""Tests of datetimes with a time zone: by which clocks they are bound, and what these show twice or never."""

import datetime
import sys
import unittest

import mysql_params
from mysql_params import bind
from test_mysql_params import Result

UTC = datetime.timezone.utc
MADRID = datetime.timezone(datetime.timedelta(hours=1))
MOMENT = datetime.datetime(2019, 11, 27, 23, 30, tzinfo=UTC)


class Berlin(datetime.tzinfo):
    """The clocks of Berlin in 2026: an hour before UTC, and two from March 29 to October 25, each at 01:00 UTC."""

    def fromutc(self, moment):
        now, end = moment.replace(tzinfo=None), datetime.datetime(2026, 10, 25, 1)
        hours = 2 if datetime.datetime(2026, 3, 29, 1) <= now < end else 1
        fold = end <= now < end + datetime.timedelta(hours=1)
        return (moment + datetime.timedelta(hours=hours)).replace(fold=fold)

    def utcoffset(self, moment):
        # In a gap the offset of fold 0 is the one before it.
        shift = datetime.timedelta(hours=0 if moment.fold else 1)
        begin, end = datetime.datetime(2026, 3, 29, 2), datetime.datetime(2026, 10, 25, 2)
        return datetime.timedelta(hours=2 if begin + shift <= moment.replace(tzinfo=None) < end + shift else 1)


BERLIN = Berlin()


class Fixed(datetime.tzinfo):
    """A zone as pytz has them: an instance for each offset, which ignores `fold`; each knows what the clocks show at a moment."""

    def __init__(self, hours):
        self.hours = hours

    def utcoffset(self, moment):
        return datetime.timedelta(hours=self.hours)

    def fromutc(self, moment):
        hours = BERLIN.fromutc(moment.replace(tzinfo=BERLIN)).utcoffset().seconds // 3600
        return (moment + datetime.timedelta(hours=hours)).replace(tzinfo=WINTER if hours == 1 else SUMMER)


WINTER, SUMMER = Fixed(1), Fixed(2)


class Test(unittest.TestCase):
    """All tests."""

    def test_zones_that_ignore_the_fold(self):
        for hour, minute in ((0, 0), (0, 30), (1, 30)):
            moment = datetime.datetime(2026, 10, 25, hour, minute, tzinfo=UTC)
            for zone in (WINTER, SUMMER):
                for given in (moment, moment.astimezone(zone)):
                    with self.subTest(given=given, zone=zone.hours), self.assertRaises(ValueError) as raised:
                        bind(":a", {"a": given}, zone=zone)
                    message = "the value of `:a` is a datetime that the clocks of the zone show twice, or never: "
                    self.assertEqual(str(raised.exception), message + "bind it in a session whose zone is UTC")
        # A clock of the other offset than that of its day shows it never.
        with self.assertRaises(ValueError):
            bind("?", [datetime.datetime(2026, 7, 1, tzinfo=WINTER)], zone=WINTER)
        for moment, wanted in (
            (datetime.datetime(2026, 10, 24, 23, 59), b"'2026-10-25 01:59:00'"),
            (datetime.datetime(2026, 10, 25, 2), b"'2026-10-25 03:00:00'"),
            (datetime.datetime(2026, 3, 29, 0, 59), b"'2026-03-29 01:59:00'"),
            (datetime.datetime(2026, 3, 29, 1), b"'2026-03-29 03:00:00'"),
            (datetime.datetime(2026, 7, 1), b"'2026-07-01 02:00:00'"),
            (datetime.datetime(9999, 12, 31, 22), b"'9999-12-31 23:00:00'"),
            (datetime.datetime(1, 1, 1), b"'0001-01-01 01:00:00'"),
        ):
            for zone in (WINTER, SUMMER):
                self.assertEqual(bind("?", [moment.replace(tzinfo=UTC)], zone=zone), wanted)

    def test_zones(self):
        with self.assertRaisesRegex(TypeError, "a datetime with a time zone: .* hand in zone"):
            bind("?", [MOMENT])
        self.assertEqual(bind("?", [MOMENT], zone=UTC), b"'2019-11-27 23:30:00'")
        assigned = mysql_params.Assignments({"a": MOMENT})
        self.assertEqual(bind("?", [assigned], zone=MADRID), b"`a` = '2019-11-28 00:30:00'")
        self.assertEqual(bind(":a", {"a": MOMENT}, zone=MADRID), b"'2019-11-28 00:30:00'")
        self.assertEqual(mysql_params.bind_anywhere("?", [MOMENT], zone=UTC), b"'2019-11-27 23:30:00'")
        with self.assertRaises(TypeError):
            mysql_params.bind_anywhere("?", [MOMENT])
        naive = datetime.datetime(2019, 11, 27, 12)
        text = bind("?, ?", [naive, datetime.date(2019, 1, 2)], zone=MADRID)
        self.assertEqual(text, b"'2019-11-27 12:00:00', '2019-01-02'")

        class Unknown(datetime.tzinfo):
            def utcoffset(self, moment):
                return None

        with self.assertRaises(TypeError):
            bind("?", [datetime.datetime(2019, 11, 27, tzinfo=Unknown())], zone=UTC)
        for zone in ("UTC", 0, True):
            with self.subTest(zone=zone), self.assertRaisesRegex(TypeError, "^zone is a datetime.tzinfo"):
                bind("SELECT 1", zone=zone)

    def test_clock_changes(self):
        for month, day, hour, minute, wanted in (
            (3, 29, 0, 59, b"'2026-03-29 01:59:00'"),
            (3, 29, 1, 0, b"'2026-03-29 03:00:00'"),
            (10, 24, 23, 59, b"'2026-10-25 01:59:00'"),
            (10, 25, 2, 0, b"'2026-10-25 03:00:00'"),
        ):
            moment = datetime.datetime(2026, month, day, hour, minute, tzinfo=UTC)
            self.assertEqual(bind("?", [moment], zone=BERLIN), wanted)
            self.assertEqual(bind("?", [moment.astimezone(BERLIN)], zone=BERLIN), wanted)
        twice = [datetime.datetime(2026, 10, 25, hour, 30, tzinfo=UTC) for hour in (0, 1)]
        twice += [moment.astimezone(BERLIN) for moment in twice]
        self.assertEqual({str(moment.replace(tzinfo=None)) for moment in twice[2:]}, {"2026-10-25 02:30:00"})
        never = datetime.datetime(2026, 3, 29, 2, 30, tzinfo=BERLIN)
        for moment in (*twice, never):
            with self.subTest(moment=str(moment)), self.assertRaises(ValueError) as raised:
                bind(":a", {"a": moment}, zone=BERLIN)
            message = "the value of `:a` is a datetime that the clocks of the zone show twice, or never: "
            self.assertTrue(str(raised.exception).startswith(message))
        self.assertEqual(bind("?, ?", twice[:2], zone=UTC), b"'2026-10-25 00:30:00', '2026-10-25 01:30:00'")
        self.assertEqual(bind("?, ?", twice[2:], zone=UTC), b"'2026-10-25 00:30:00', '2026-10-25 01:30:00'")
        self.assertEqual(bind("?", [datetime.datetime(2026, 10, 25, 2, 30)], zone=BERLIN), b"'2026-10-25 02:30:00'")

    def test_moments_outside_of_the_years(self):
        west = datetime.timezone(datetime.timedelta(hours=-1))
        for moment, zone in ((datetime.datetime.max, MADRID), (datetime.datetime.min, west)):
            with self.subTest(zone=zone), self.assertRaises(ValueError) as raised:
                bind("?", [moment.replace(tzinfo=UTC)], zone=zone)
            message = "the value for place 0 is a datetime that is outside of the years 1 to 9999 in the zone"
            self.assertEqual(str(raised.exception), message)
        last = datetime.datetime.max.replace(tzinfo=UTC)
        self.assertEqual(bind("?", [last], zone=west), b"'9999-12-31 22:59:59.999999'")


if __name__ == "__main__":
    result = Result()
    unittest.defaultTestLoader.loadTestsFromTestCase(Test).run(result)
    sys.exit(0 if result.wasSuccessful() and result.testsRun else 1)
