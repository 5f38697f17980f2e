#!/usr/bin/env python3
"""Tests of zone_states.py and slim_zone.py against Python's own reader of zone files.

Needs Python 3.9 or later for its `zoneinfo`, and its standard library only. The zones of this
system are read where it has them, and those that `zic -b slim` makes of them where it is installed.
"""

import io
import shutil
import subprocess
import sys
import tempfile
import unittest
from datetime import datetime, timezone
from pathlib import Path

sys.dont_write_bytecode = True

try:
    from zoneinfo import ZoneInfo
except ImportError:
    sys.exit(print("test_zone_states: passed over, since this Python has no zoneinfo"))

from slim_zone import slim_form
from test_pack_zoneinfo import EASTERN, NEW_YORK, RULE, SYSTEM, moment_of, ruled_file
from zone_file import read_zone_file
from zone_states import HALF_YEARS, States, first_difference, year_with

UTC = timezone.utc

# Forms of a TZ string: dates of each form, hours of each sign, daylight saving time of the south,
# all year and behind standard time. Also names in brackets, and offsets with seconds.
FOOTERS = (
    b"EST5EDT,M3.2.0,M11.1.0",
    b"<+1030>-10:30<+11>-11,M10.1.0,M4.1.0",
    b"IST-1GMT0,M10.5.0,M3.5.0/1",
    b"<-02>2<-01>,M3.5.0/-1,M10.5.0/0",
    b"EET-2EEST,M3.4.4/50,M10.4.4/50",
    b"AAA-1:02:03BBB-2:02:03,J60/3,J300",
    b"AAA8BBB,J61/2:30,J304/2:30:30",
    b"XXX3EDT4,0/0,J365/23",
    b"CST6",
    b"<+0545>-5:45",
)


def reference(data):
    """The state at a moment by Python's reader."""
    zone = ZoneInfo.from_file(io.BytesIO(data))

    def at(moment):
        local = datetime.fromtimestamp(moment, UTC).astimezone(zone)
        return int(local.utcoffset().total_seconds()), bool(local.dst()), local.tzname()

    return at


def moments_of(states, years=range(1900, 2100)):
    near = {moment + add for moment in states.times for add in (-1, 0, 1)}
    return [moment for moment in sorted(near.union(HALF_YEARS)) if year_with(moment) in years]


def slim_of(data):
    return slim_form(data, read_zone_file(data, "a file"))


def system_zones():
    """Name and bytes of each zone of this system."""
    source = SYSTEM / "tzdata.zi"
    lines = source.read_text().splitlines() if source.is_file() else []
    for words in (line.split() for line in lines):
        if words[:1] == ["Z"]:
            yield words[1], (SYSTEM / words[1]).read_bytes()


class Agreeing(unittest.TestCase):
    def test_footers(self):
        """Each week, and each hour of the days at which a footer may change."""
        for footer in FOOTERS:
            with self.subTest(footer):
                data = ruled_file([("1999-01-01 00:00", 0)], footer)
                ours, theirs = States(data), reference(data)
                weeks = range(946_684_800, 2_000_000_000, 604_800)
                hours = range(1_700_000_000, 1_700_000_000 + 366 * 86_400, 1_800)
                for moment in (*weeks, *hours):
                    self.assertEqual(ours.at(moment), theirs(moment), moment)

    def test_days_of_a_year(self):
        """Python's reader is a day off for these dates, so the moments are from the calendar."""
        cases = [
            (b"59/2:30,304/2:30:30", "2023-03-01", "2024-02-29", "2023-11-01"),
            (b"J59/2:30,J305/2:30:30", "2023-02-28", "2024-02-28", "2024-11-01"),
        ]
        for dates, *days in cases:
            states = States(ruled_file([("1999-01-01 00:00", 0)], b"AAA8BBB," + dates))
            clocks = (("10:30", "BBB"), ("10:30", "BBB"), ("09:31", "AAA"))
            for day, (clock, name) in zip(days, clocks):
                moment = moment_of(f"{day} {clock}")
                self.assertEqual(states.at(moment)[2], name)
                self.assertNotEqual(states.at(moment - 60)[2], name)

    def test_zones_of_this_system(self):
        """Python reads from each file, and from its slim form, the same as the tested code."""
        for name, data in system_zones():
            ours, theirs, slim = States(data), reference(data), reference(slim_of(data))
            for moment in moments_of(ours):
                # The flag is not compared, since Python guesses it from offsets.
                wanted = theirs(moment)[::2]
                self.assertEqual(ours.at(moment)[::2], wanted, (name, moment))
                self.assertEqual(slim(moment)[::2], wanted, (name, moment))
            self.assertIsNone(first_difference(data, slim_of(data)), name)

    def test_slim_files_of_zic(self):
        if not (shutil.which("zic") and (SYSTEM / "tzdata.zi").is_file()):
            self.skipTest("no zic")
        with tempfile.TemporaryDirectory() as room:
            subprocess.run(["zic", "-b", "slim", "-d", room, str(SYSTEM / "tzdata.zi")], check=True)
            for name, _ in system_zones():
                data = Path(room, name).read_bytes()
                self.assertEqual(slim_of(data), data, name)


class Differing(unittest.TestCase):
    def test_first_difference(self):
        file = ruled_file(NEW_YORK, RULE)
        others = [
            # A change a minute late, another name, another flag, another rule: the moment of each.
            (ruled_file([*NEW_YORK[:5], ("2008-11-02 06:01", 0)], RULE), 1_225_605_600),
            (ruled_file(NEW_YORK, RULE, types=(EASTERN[0], (-14_400, 1, b"EXT"))), 1_143_961_200),
            (ruled_file(NEW_YORK, RULE, types=(EASTERN[0], (-14_400, 0, b"EDT"))), 1_143_961_200),
            (ruled_file(NEW_YORK, b"EST5EDT,M3.2.0,M5.1.0"), 1_246_492_800),
            (ruled_file(NEW_YORK, b""), 1_246_492_800),
            (ruled_file(NEW_YORK[:3], RULE), None),
            (ruled_file(NEW_YORK[:2], RULE), 1_162_101_600),
        ]
        for number, (other, moment) in enumerate(others):
            with self.subTest(number):
                self.assertEqual(first_difference(file, other), moment)
                self.assertEqual(first_difference(other, file), moment)

    def test_whether_a_footer_agrees(self):
        self.assertTrue(States(ruled_file(NEW_YORK, RULE)).footer_agrees())
        self.assertFalse(States(ruled_file(NEW_YORK[:5], b"EST5")).footer_agrees())
        self.assertFalse(States(ruled_file(NEW_YORK, b"EXT5EDT,M3.2.0,M11.1.0")).footer_agrees())
        self.assertTrue(States(ruled_file([], RULE)).footer_agrees())
        early = ruled_file([("1799-12-31 00:00", 1)], RULE, slim_first=True)
        self.assertTrue(States(early).footer_agrees())


if __name__ == "__main__":
    unittest.main()
