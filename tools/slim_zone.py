"""Writes a compiled zone file in its slim form (TZif, RFC 9636, section 3.3).

Its second block ends where the TZ string of the footer takes over, and has no transition that
changes nothing. The first block stays as it was, for readers that know only version 1.

Python's standard library only.
"""

import re
from bisect import bisect_left, bisect_right
from datetime import date, timedelta

from zone_file import with_transitions

NAME = r"(?:<([A-Za-z0-9+-]{3,})>|([A-Za-z]{3,}))"
CLOCK = r"([+-]?)(\d{1,3})(?::(\d\d))?(?::(\d\d))?"
DATE = r"(?:(M)(\d{1,2})\.([1-5])\.([0-6])|(J?)(\d{1,3}))"
STANDARD = re.compile(NAME + CLOCK)
DAYLIGHT = re.compile(NAME + f"(?:{CLOCK})?")
RULE = re.compile("," + DATE + f"(?:/{CLOCK})?")

# Years for which dates can be counted here, and in which transitions are left out.
FIRST_YEAR, LAST_YEAR = 1700, 2600
EPOCH = date(1970, 1, 1)


class Unknown(Exception):
    """A TZ string of a form that is not read here."""


def seconds_of(sign, hours, minutes, seconds):
    whole = int(hours) * 3600 + int(minutes or 0) * 60 + int(seconds or 0)
    return -whole if sign == "-" else whole


class YearlyRule:
    """A date of each year and a time of the clock (POSIX.1-2017, section 8.3)."""

    def __init__(self, words):
        _, month, self.week, self.weekday, leapless, day, *clock = words
        self.month = month and int(month)
        self.day, self.skips_leap_day = int(day or 0), leapless == "J"
        self.seconds = seconds_of(*clock) if clock[1] else 7200
        if self.month is not None and not 1 <= self.month <= 12 or self.day > 365:
            raise Unknown
        if self.month is None and self.skips_leap_day and self.day == 0:
            raise Unknown

    def day_in(self, year):
        if self.month is None:
            day = date(year, 1, 1) + timedelta(self.day - self.skips_leap_day)
            moves = self.skips_leap_day and is_leap(year) and day >= date(year, 2, 29)
            return day + timedelta(moves)
        first = date(year, self.month, 1)
        # `date` counts weekdays from Monday, and a TZ string from Sunday.
        days = (int(self.weekday) - first.isoweekday()) % 7 + 7 * (int(self.week) - 1)
        day = first + timedelta(days)
        while day.month != self.month:
            day -= timedelta(7)
        return day

    def moment_in(self, year, offset):
        """When the clocks at an offset show the rule's time in a year."""
        return (self.day_in(year) - EPOCH).days * 86_400 + self.seconds - offset


def is_leap(year):
    return year % 4 == 0 and (year % 100 != 0 or year % 400 == 0)


class Footer:
    """What a TZ string says: one state for ever, or two and a yearly rule for the start of each."""

    def __init__(self, text):
        text = text.decode("ascii", "replace")
        standard = STANDARD.match(text)
        if not standard:
            raise Unknown
        self.standard = -seconds_of(*standard.groups()[2:]), 0, name_of(standard)
        self.rules = None
        if standard.end() < len(text):
            self._read_daylight(text, standard.end())

    def _read_daylight(self, text, at):
        daylight = DAYLIGHT.match(text, at)
        begin = daylight and RULE.match(text, daylight.end())
        end = begin and RULE.match(text, begin.end())
        if not end or end.end() != len(text):
            raise Unknown
        offset = daylight.groups()[2:]
        ahead = -seconds_of(*offset) if offset[1] else self.standard[0] + 3600
        self.daylight = ahead, 1, name_of(daylight)
        self.rules = YearlyRule(begin.groups()), YearlyRule(end.groups())

    def changes(self, first_year, last_year):
        """The moments of change in these years, each with the state from then on."""
        begin, end = self.rules
        rows = {}
        for year in range(first_year, last_year + 1):
            rows[end.moment_in(year, self.daylight[0])] = self.standard
            # Where daylight saving time ends at the moment at which it begins again, it goes on.
            rows[begin.moment_in(year, self.standard[0])] = self.daylight
        rows = sorted(rows.items())
        return [row for before, row in zip([(None, None), *rows], rows) if row[1] != before[1]]


def name_of(found):
    return (found[1] or found[2]).encode()


def is_tz_string(text):
    """Whether a footer can be read here."""
    try:
        Footer(text)
    except Unknown:
        return False
    return True


class Ahead:
    """What a footer says of the years of some moments: the changes, and the state at a moment."""

    def __init__(self, footer, first_year, last_year):
        rows = footer.changes(first_year - 1, last_year + 1) if footer.rules else []
        self.moments = [moment for moment, _ in rows]
        self.states = [state for _, state in rows]
        self.constant = None if footer.rules else footer.standard

    def state_at(self, moment):
        if self.constant:
            return self.constant
        place = bisect_right(self.moments, moment)
        return self.states[place - 1] if place else None

    def changes_between(self, after, before):
        """Whether the state changes after one moment and before another."""
        return bisect_right(self.moments, after) < bisect_left(self.moments, before)


def begin_of(year):
    return (date(year, 1, 1) - EPOCH).days * 86_400


def year_of(moment):
    return (EPOCH + timedelta(moment // 86_400)).year


def takeover(times, states, ahead, earliest):
    """The first transition from which on the footer says what the file says, or None."""
    place = len(times) - 1
    if ahead.state_at(times[place]) != states[place]:
        return None
    while place > 0 and times[place - 1] >= earliest:
        before, at = times[place - 1], times[place]
        if ahead.state_at(before) != states[place - 1] or ahead.changes_between(before, at):
            break
        place -= 1
    return place


def hides_its_length(states, place):
    """Whether the state before does not show by how much a daylight saving time is ahead.

    Python's zoneinfo takes that from the transitions before and after. It reads the one after
    without a check that there is one, and such a file then ends the process.
    """
    offset, flag, _ = states[place]
    return place > 0 and flag and (states[place - 1][1] or states[place - 1][0] == offset)


def kept_places(states, last, initial, constant):
    """The places of the transitions that stay.

    These are the one at which the footer takes over, each before it that changes something, and
    perhaps the one after it.
    """
    before = [initial, *states]
    kept = [place for place in range(last) if states[place] != before[place]]
    # A footer takes over at a transition, unless it says for ever what applies from the beginning.
    if kept or states[last] != initial or constant != initial:
        kept.append(last)
    if hides_its_length(states, last) and last + 1 < len(states):
        kept.append(last + 1)
    return kept


def slim_form(data, zone):
    """The slim form of a zone file, or its own bytes where nothing can be left out."""
    earliest, latest = (begin_of(year) for year in (FIRST_YEAR, LAST_YEAR))
    if zone.is_slim or not zone.times or not earliest <= zone.times[-1] < latest:
        return data
    try:
        footer = Footer(zone.footer)
        first = max(zone.times[0], earliest)
        ahead = Ahead(footer, year_of(first), year_of(zone.times[-1]))
    except Unknown:
        return data
    states = [zone.types[number] for number in zone.numbers]
    last = takeover(zone.times, states, ahead, earliest)
    if last is None:
        return data
    kept = kept_places(states, last, zone.types[0], ahead.constant)
    if len(kept) == len(zone.times):
        return data
    times, numbers = ([row[place] for place in kept] for row in (zone.times, zone.numbers))
    return with_transitions(zone, times, numbers)
