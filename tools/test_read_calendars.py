#!/usr/bin/env python3
"""Tests of read_calendars.py and calendar_reader.py with zone files that are made here, whose
calendars are those of calendar_model.py, and with wrong texts. Needs Python's standard library
only."""

import struct
import tempfile
import unittest
from pathlib import Path

from calendar_model import LO, calendar_of, json_calendar_of, zone_in
from calendar_reader import Unreadable, from_json, from_lines
from read_calendars import File, compare_texts, moment_of
from served import Failure

EST, EDT = (-18000, 0, b"EST"), (-14400, 1, b"EDT")
SPRINGS_AND_AUTUMNS = [
    (1112511600, 1),
    (1130652000, 0),
    (1143961200, 1),
    (1162101600, 0),
    (1173596400, 1),
    (1194156000, 0),
]
RANGES = ((None, None), ("2005-01-01T00:00:00Z", "2027-01-01T00:00:00Z"), ("2006-04-02T07:00:01Z", None))


def zone_file(types, transitions, footer):
    """A TZif file whose first block is empty (RFC 9636)."""

    def header(times, kinds, letters):
        return b"TZif2" + bytes(15) + struct.pack(">6L", 0, 0, 0, times, kinds, letters)

    names = b"".join(name + b"\0" for _, _, name in types)
    places = [sum(len(name) + 1 for _, _, name in types[:n]) for n in range(len(types))]
    block = b"".join(struct.pack(">q", moment) for moment, _ in transitions)
    block += bytes(kind for _, kind in transitions)
    block += b"".join(struct.pack(">lBB", offset, flag, place) for (offset, flag, _), place in zip(types, places))
    front = header(0, 1, 1) + bytes(7)
    return front + header(len(transitions), len(types), len(names)) + block + names + b"\n" + footer + b"\n"


NEW_YORK = zone_file([EST, EDT], SPRINGS_AND_AUTUMNS, b"EST5EDT,M3.2.0,M11.1.0")
DUBLIN = zone_file(
    [(0, 1, b"GMT"), (3600, 0, b"IST")],
    [(752029200, 0), (764730000, 1), (783046800, 0)],
    b"IST-1GMT0,M10.5.0,M3.5.0/1",
)
CAIRO = zone_file(
    [(7200, 0, b"EET"), (10800, 1, b"EEST")], [(1682632800, 1), (1698354000, 0)], b"EET-2EEST,M4.5.5/0,M10.5.4/24"
)
JERUSALEM = zone_file(
    [(7200, 0, b"IST"), (10800, 1, b"IDT")], [(1364515200, 1), (1382828400, 0)], b"IST-2IDT,M3.4.4/26,M10.5.0"
)
TEHRAN = zone_file(
    [(12600, 0, b"+0330"), (16200, 1, b"+0430")], [(1553200200, 1), (1569097800, 0)], b"<+0330>-3:30<+0430>,J79/24,J263/24"
)
SHORT = zone_file([(-3723, 0, b"AAA")], [], b"AAA1:02:03")


class Reading(unittest.TestCase):
    def compared(self, data, start=None, end=None, change=lambda text: text, change_json=lambda text: text):
        """Changes the texts of a zone between two bounds, and compares them with its file."""
        with tempfile.TemporaryDirectory() as folder:
            path = Path(folder, "zone")
            path.write_bytes(data)
            file = File(path)
        bounds = int(moment_of(start).timestamp()) if start else LO, int(moment_of(end).timestamp()) if end else None
        zone = zone_in(data)
        lines = calendar_of(zone, *bounds, "X", None)
        as_json = json_calendar_of(zone, *bounds, "X", None)
        changed = change(lines), change_json(as_json)
        self.assertTrue(change("") == "" or changed != (lines, as_json), "nothing was changed")
        return compare_texts(*changed, "X", "X", start, end, file)

    def test_calendars_of_the_model_mean_their_files(self):
        for data in (NEW_YORK, DUBLIN, CAIRO, JERUSALEM, TEHRAN, SHORT):
            for bounds in RANGES:
                self.assertGreater(self.compared(data, *bounds), 1000)

    def differs(self, old, new, old_json, new_json, data=NEW_YORK, start=None, end=None):
        """The same change in both texts is found by the file, or makes them unreadable."""
        with self.assertRaises((Failure, Unreadable)):
            self.compared(data, start, end, replaced(old, new), replaced(old_json, new_json))

    def test_dates_are_seen(self):
        self.differs(",20070311T020000", "", ',"2007-03-11T02:00:00"', "")
        self.differs("20061029T020000", "20061028T020000", "2006-10-29T02", "2006-10-28T02")

    def test_offsets_flags_and_names_are_seen(self):
        self.differs("TZOFFSETTO:-0400", "TZOFFSETTO:-0300", 'tzoffsetto",{},"utc-offset","-04', 'tzoffsetto",{},"utc-offset","-03')
        self.differs("DAYLIGHT", "STANDARD", '"daylight"', '"standard"')
        self.differs("TZNAME:EDT", "TZNAME:EST", '"EDT"', '"EST"')

    def test_rules_are_seen(self):
        self.differs("BYDAY=2SU", "BYDAY=3SU", '"2SU"', '"3SU"')
        bounds = "2025-01-01T00:00:00Z", "2027-01-01T00:00:00Z"
        self.differs("20260308T070000Z", "20260308T020000Z", "2026-03-08T07:00:00Z", "2026-03-08T02:00:00Z", NEW_YORK, *bounds)
        self.differs("BYYEARDAY=-67", "BYYEARDAY=-68", "[-67,", "[-68,", CAIRO)

    def test_the_json_is_compared_with_the_lines(self):
        for old, new in (('"-05:00"', '"05:00"'), ('"bymonth":3', '"bymonth":"3"'), ('"-05:00"', '"+05:00"'), ('"2SU"', '"1SU"')):
            with self.assertRaises((Failure, Unreadable)):
                self.compared(NEW_YORK, change_json=replaced(old, new))
        bounds = "2025-01-01T00:00:00Z", "2027-01-01T00:00:00Z"
        with self.assertRaises(Unreadable):
            self.compared(NEW_YORK, *bounds, change_json=replaced("2026-03-08T07:00:00Z", "2026-03-08T02:00:00"))

    def test_what_is_no_calendar_is_refused(self):
        zone = zone_in(NEW_YORK)
        lines, as_json = calendar_of(zone, LO, None, "X", None), json_calendar_of(zone, LO, None, "X", None)
        for text in (lines[:-2], lines.replace("\r\n", "\n"), lines.replace("TZNAME:EDT\r\n", ""), lines + "X:y\r\n"):
            with self.assertRaises((Unreadable, ValueError)):
                from_lines(text)
        for text in (as_json.replace(",", ", "), as_json.replace('"rrule",{}', '"rrule",{"x":1}'), as_json.replace("prodid", "x")):
            with self.assertRaises(Unreadable):
                from_json(text)


def replaced(old, new):
    return lambda text: text.replace(old, new, 1) if new != "STANDARD" and new != '"standard"' else text.replace(old, new)


if __name__ == "__main__":
    unittest.main()
