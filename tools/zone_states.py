"""What a compiled zone file says of a moment, and whether two files say the same.

The format is TZif (RFC 9636). This judges what `slim_zone.py` writes, so it shares no code with it.
Python's standard library only.
"""

from bisect import bisect_right
from functools import lru_cache

FIRST_YEAR, LAST_YEAR = 1800, 2500
DAY = 86_400
DAYS_OF_400_YEARS = 146_097


def number_at(data, at, size, signed=False):
    return int.from_bytes(data[at : at + size], "big", signed=signed)


def days_before(year):
    """Days from 1970-01-01 to the first day of a year."""
    past = year - 1
    return 365 * (year - 1970) + past // 4 - past // 100 + past // 400 - 477


def is_leap_year(year):
    return days_before(year + 1) - days_before(year) == 366


def year_with(moment):
    """The year of a moment in UTC."""
    cycles, day = divmod(moment // DAY - days_before(2000), DAYS_OF_400_YEARS)
    year = 2000 + 400 * cycles + day // 366
    while days_before(year + 1) <= moment // DAY:
        year += 1
    return year


HALF_YEARS = tuple(
    (days_before(year) + day) * DAY for year in range(FIRST_YEAR, LAST_YEAR) for day in (0, 182)
)


class Scanner:
    """Reads a TZ string from the left."""

    def __init__(self, text):
        self.text, self.at = text, 0

    def next(self):
        return self.text[self.at : self.at + 1]

    def take(self, letters):
        """The characters from here that are among these."""
        begin = self.at
        while self.next() and self.next() in letters:
            self.at += 1
        return self.text[begin : self.at]

    def skip(self, letter):
        """Whether this character was here; it is skipped."""
        found = self.next() == letter
        self.at += found
        return found

    def number(self):
        return int(self.take("0123456789"))

    def name(self):
        if self.skip("<"):
            end = self.text.index(">", self.at)
            name, self.at = self.text[self.at : end], end + 1
            return name
        begin = self.at
        while self.next().isalpha():
            self.at += 1
        return self.text[begin : self.at]

    def clock(self):
        """Seconds of hours, minutes and seconds, with a sign before them."""
        negative = self.next() == "-"
        self.take("+-")
        seconds, unit = self.number() * 3600, 60
        while self.skip(":"):
            seconds, unit = seconds + self.number() * unit, 1
        return -seconds if negative else seconds

    def date(self):
        """A date of a year, and the seconds of its clock."""
        self.skip(",")
        if self.skip("M"):
            words = ["M", self.number()]
            while self.skip("."):
                words.append(self.number())
        else:
            words = ["J" if self.skip("J") else "N", self.number()]
        return tuple(words), self.clock() if self.skip("/") else 7200


def day_of(words, year):
    """The day of a date in a year, counted from the year's first as 0."""
    leap = is_leap_year(year)
    if words[0] == "N":
        return words[1]
    if words[0] == "J":
        return words[1] - 1 + (leap and words[1] > 59)
    _, month, week, weekday = words
    lengths = [31, 28 + leap, 31, 30, 31, 30, 31, 31, 30, 31, 30, 31]
    first = sum(lengths[: month - 1])
    # 1970-01-01 was a Thursday, the weekday 4.
    days = range(first, first + lengths[month - 1])
    found = [day for day in days if (days_before(year) + day + 4) % 7 == weekday]
    return found[-1] if week == 5 else found[week - 1]


@lru_cache(maxsize=None)
def footer_of(text):
    """The two states of a TZ string and their dates; where there is one state, only that."""
    scanner = Scanner(text.decode("ascii"))
    name = scanner.name()
    standard = (-scanner.clock(), False, name)
    if not scanner.next():
        return standard, None, None, None
    name = scanner.name()
    offset = standard[0] + 3600 if scanner.next() == "," else -scanner.clock()
    return standard, (offset, True, name), scanner.date(), scanner.date()


@lru_cache(maxsize=None)
def daylight_of_year(text, year):
    """The moments at which daylight saving time begins and ends in a year."""
    standard, daylight, begin, end = footer_of(text)
    first, last = (
        (days_before(year) + day_of(words, year)) * DAY + seconds for words, seconds in (begin, end)
    )
    return first - standard[0], last - daylight[0]


def footer_state(text, moment):
    standard, daylight, _, _ = footer_of(text)
    if daylight is None:
        return standard
    first, last = daylight_of_year(text, year_with(moment + standard[0]))
    if first < last:
        return daylight if first <= moment < last else standard
    return standard if last <= moment < first else daylight


class States:
    """A zone's states: seconds east of UTC, whether it is daylight saving time, and the name."""

    def __init__(self, data):
        sizes = [number_at(data, place, 4) for place in range(20, 44, 4)]
        second = 44 + sum(size * count for size, count in zip((1, 1, 8, 5, 6, 1), sizes))
        sizes = [number_at(data, second + place, 4) for place in range(20, 44, 4)]
        _, _, leaps, count, types, letters = sizes
        at = second + 44
        self.times = [number_at(data, at + 8 * place, 8, True) for place in range(count)]
        self.numbers = data[at + 8 * count : at + 9 * count]
        at += 9 * count
        names = data[at + 6 * types : at + 6 * types + letters]
        self.types = [self._type(data[at + 6 * place :], names) for place in range(types)]
        at += 6 * types + letters + 12 * leaps + sizes[0] + sizes[1]
        self.footer = data[at:].strip(b"\n")

    @staticmethod
    def _type(line, names):
        name = names[line[5] :].split(b"\0")[0].decode("ascii")
        return number_at(line, 0, 4, True), line[4] != 0, name

    def at(self, moment):
        place = bisect_right(self.times, moment)
        if place == len(self.times) and self.footer:
            return footer_state(self.footer, moment)
        return self.types[self.numbers[place - 1] if place else 0]

    def footer_agrees(self):
        """Whether the footer gives the state that the last transition begins.

        The server refuses other files, unless that transition is before the years that it serves.
        """
        if not self.times or not self.footer or self.times[-1] < HALF_YEARS[0]:
            return True
        return footer_state(self.footer, self.times[-1]) == self.types[self.numbers[-1]]


def first_difference(one, other):
    """The first moment that was tried at which two files say something else, or None.

    It tries each transition of both, a second before and after it, and each half year from 1800 to
    2500.
    """
    one, other = States(one), States(other)
    near = {moment + add for moment in (*one.times, *other.times) for add in (-1, 0, 1)}
    for moment in sorted(near.union(HALF_YEARS)):
        if one.at(moment) != other.at(moment):
            return moment
    return None
