#!/usr/bin/env python3
"""Times the reading and the expansion of calendars that are made to take long.

    time_hostile_calendars.py [--program PATH] [--rounds N] [--bytes N] [--only WORD]

PATH is the program of `crates/zone_cases`, as `rt run` builds it there. Each text is a row of a
table of its own. It has about 1,048,576 bytes, which is the most that is read, or as many as are
requested. The script prints the seconds of processor time, of user and system, of a run with that
row. Those of a run of the same table whose row is of no kind are subtracted. Both read the table
and the row, and only one the calendar. The least of N rounds counts (3). The last two columns are
the peak of memory of both runs, in MiB.

A text that is read whole ends just before its last line. So the answer is one fault, `2 Frame
LINES`, and no time is spent on printing a megabyte of parts. Where the text is refused earlier,
that is printed. Each answer is compared with that of `reader_model.py`. Expansions are of calendars
that are read, over a range. Where the state never changes the answer must be one observance, so
that what is timed is the pass over the onsets. Python's standard library only.
"""

import argparse
import sys

from asked_cases import PROGRAM, answers, run, table_of, written
from reader_model import MOST_BYTES, expected

FRONT = "BEGIN:VCALENDAR\r\nBEGIN:VTIMEZONE\r\nTZID:Zone\r\n"
BACK = "END:VTIMEZONE\r\nEND:VCALENDAR\r\n"
OFFSETS = "TZOFFSETFROM:+0000\r\nTZOFFSETTO:+0000\r\n"
PART = "BEGIN:STANDARD\r\nDTSTART:18000101T000000\r\n" + OFFSETS
LAST = "END:STANDARD\r\n"
LONG_AGO, IN_2020 = -5364662400, 1577836800


class Texts:
    """Calendars of so many bytes at the most."""

    def __init__(self, most):
        self.most = most

    def filled(self, front, piece, back):
        """Front and back, and between them as many of a piece as there is room for. The piece may
        depend on its number."""
        made, room = [], self.most - len(front) - len(back)
        while True:
            one = piece(len(made)) if callable(piece) else piece
            room -= len(one)
            if room < 0:
                return front + "".join(made) + back
            made.append(one)

    def in_zone(self, piece, front=PART + LAST):
        return self.filled(FRONT + front, piece, BACK)

    def in_part(self, front, piece, back="\r\n"):
        return self.filled(FRONT + PART + front, piece, back + LAST + BACK)

    def read_whole(self):
        """Calendars that are read, but for their last line."""
        yield "the shortest properties", self.in_zone("A:\r\n")
        yield "one long line", self.in_part("X:", "x")
        yield "a line folded at each byte", self.in_part("X:", "\r\n x")
        yield "a line folded without a byte", self.in_part("X:", "\r\n ")
        yield "quoted parameters", self.in_part("X", ';A="x:y"', ":\r\n")
        yield "names that do not count", self.in_part("", "TZNAME:" + "x" * 33 + "\r\n", "")
        yield "parts, all at one moment", self.in_zone(PART + LAST)
        yield "parts with a rule", self.in_zone(ruled)
        yield "lines with a date", self.in_part("", "RDATE:20200101T000000\r\n", "")
        yield "a line with all dates", self.in_part("RDATE:20200101T000000", ",20200101T000000")

    def refused(self):
        """Calendars that are refused at the line that is long, or before any."""
        yield "empty lines", self.filled("", "\r\n", "")
        yield "no end of a line", self.filled("", "A", "")
        yield "a property's name, and no colon", self.filled(FRONT, "A", "\r\n")
        yield "parameters, and no colon", self.filled(FRONT + "X", ';A="x:y"', "\r\n")
        yield "quotes, the last left open", self.filled(FRONT + "X;A=", '""', '"\r\n')
        yield "dates without a digit", self.in_part("RDATE:", ",")
        yield "a long identifier", self.filled("BEGIN:VCALENDAR\r\nBEGIN:VTIMEZONE\r\nTZID:", "x/", "\r\n")
        yield "a rule of one word, again", self.in_part("RRULE:FREQ=YEARLY", ";BYMONTH=1")
        yield "a rule of many words", self.in_part("RRULE:FREQ=YEARLY", lambda n: f";X{n}=1")
        yield "a rule of empty words", self.in_part("RRULE:", ";")
        yield "a rule of one day, again", self.in_part("RRULE:FREQ=YEARLY;BYMONTH=1;BYMONTHDAY=1", ",1")
        yield "a rule with a long number", self.in_part("RRULE:FREQ=YEARLY;BYMONTH=1;BYMONTHDAY=", "0")

    def expanded(self):
        """Calendars that are expanded, and from when to when."""
        year = 31556952
        parts, ruled_parts, turns = self.in_zone(PART + LAST), self.in_zone(ruled), self.in_zone(turning)
        dates = self.in_part("RDATE:20200101T000000", ",20200101T000000")
        yield "parts, all at one moment; a year", parts, LONG_AGO, LONG_AGO + year
        yield "dates, all at one moment; a year", dates, IN_2020 - year // 2, IN_2020 + year // 2
        for years in (1, 100, 1000):
            yield f"parts with a rule; years: {years}", ruled_parts, IN_2020, IN_2020 + years * year
        for years in (1, 100):
            yield f"rules that change the time; years: {years}", turns, IN_2020, IN_2020 + years * year

    def rows(self):
        """Each row: what it is, its text, its kind and its words."""
        for what, text in self.read_whole():
            yield what, text.removesuffix("END:VCALENDAR\r\n"), "read", []
        for what, text in self.refused():
            yield what, text, "read", []
        for what, text, first, last in self.expanded():
            yield what, text, "expand", [str(first), str(last)]


def ruled(number):
    return PART + f"RRULE:FREQ=YEARLY;BYMONTH={number % 12 + 1};BYMONTHDAY={number % 28 + 1}\r\n" + LAST


def turning(number):
    """A part with a rule on one of 84 days: those of a day come one after the other, in turn at two
    offsets."""
    turn = number // 84
    time = f"T{turn // 3600 % 24:02}{turn // 60 % 60:02}{turn % 60:02}"
    return ruled(number).replace("T000000", time).replace("TZOFFSETTO:+00", f"TZOFFSETTO:+{turn % 2:02}")


def row_of(program, rounds, what, text, kind, words):
    """Prints what a row takes, and returns whether its answer is that of the model."""
    row, none = (" ".join([word, "$(t0)", *words]) for word in (kind, "none"))
    (_, seconds, most), (_, less, before) = (
        min((run(program, table_of([text], [it])) for _ in range(rounds)), key=lambda ran: ran[1]) for it in (row, none)
    )
    answer = answers(program, [text], [row])[0]
    told = f"{answer.count('|') + 1} observances" if kind == "expand" else f"`{answer}`"
    never = kind == "expand" and "TZOFFSETTO:+0100" not in text
    well = answer == (f"{words[0]} 0 0 std -" if never else written(expected(kind, [text, *words])))
    told += "" if well else ", OTHER THAN THE MODEL"
    print(f"| {what} | {len(text)} | {told} | {seconds - less:.3f} | {most / 1024:.0f} | {before / 1024:.0f} |", flush=True)
    return well


def main():
    parser = argparse.ArgumentParser(description=__doc__, formatter_class=argparse.RawDescriptionHelpFormatter)
    parser.add_argument("--program", default=PROGRAM)
    parser.add_argument("--rounds", type=int, default=3)
    parser.add_argument("--bytes", type=int, default=MOST_BYTES)
    parser.add_argument("--only", default="")
    words = parser.parse_args()
    print("| Calendar | Bytes | Answer | Seconds | MiB with it | without |\n|---|---|---|---|---|---|")
    rows = [row for row in Texts(words.bytes).rows() if words.only in row[0]]
    done = [row_of(words.program, words.rounds, *row) for row in rows]
    return 0 if all(done) else 1


if __name__ == "__main__":
    sys.exit(main())
