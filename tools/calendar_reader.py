"""Reads calendars with one time zone, as lines (RFC 5545) and as JSON (RFC 7265), by going over the
days.

It knows no form of the server: a rule falls on a day where all of its words are true of that day.
Python's standard library only.
"""

import calendar
import datetime
import functools
import json
import re
import typing

DAY = datetime.timedelta(days=1)
SECOND = datetime.timedelta(seconds=1)
UTC = datetime.timezone.utc
WEEKDAYS = ["MO", "TU", "WE", "TH", "FR", "SA", "SU"]
LAST_YEAR = 2047


class Unreadable(Exception):
    """A text that is no calendar with one time zone, or that has what no server's calendar has."""


class Rule(typing.NamedTuple):
    """The words of a yearly rule and its last moment: months, days of a month and of a year, and
    weekdays with their numbers. A word is None where the rule does not have it."""

    months: tuple | None = None
    month_days: tuple | None = None
    year_days: tuple | None = None
    weekdays: tuple | None = None
    until: datetime.datetime | None = None


class Part(typing.NamedTuple):
    """An observance: whether it is daylight saving time, its first onset by the clocks before it,
    and the offsets before and after it. Then its name, its further onsets, and its rule."""

    daylight: bool
    start: datetime.datetime
    before: int
    after: int
    name: str
    dates: tuple
    rule: Rule | None


class Zone(typing.NamedTuple):
    """The time zone of a calendar: its identifier, the zone of which that is an alias, its end, and
    its parts."""

    tzid: str
    alias_of: str | None
    until: datetime.datetime | None
    parts: tuple


def needs(fact, what):
    if not fact:
        raise Unreadable(what)


# ---- what a calendar says


def weekday_holds(day, word):
    """Whether a day is this weekday, of this number in its month where there is one."""
    number, name = word
    if WEEKDAYS[day.weekday()] != name:
        return False
    back = calendar.monthrange(day.year, day.month)[1] - day.day
    return number in (0, (day.day - 1) // 7 + 1, -(back // 7 + 1))


def day_holds(day, rule):
    """Whether all words of a rule are true of a day."""
    length = calendar.monthrange(day.year, day.month)[1]
    place = day.timetuple().tm_yday
    whole = 366 if calendar.isleap(day.year) else 365
    return (
        (rule.months is None or day.month in rule.months)
        and (rule.month_days is None or day.day in rule.month_days or day.day - length - 1 in rule.month_days)
        and (rule.year_days is None or place in rule.year_days or place - whole - 1 in rule.year_days)
        and (rule.weekdays is None or any(weekday_holds(day, word) for word in rule.weekdays))
    )


@functools.lru_cache(maxsize=None)
def days_of(rule, first_year):
    """The days of a rule without an end, from a year on, to a year after all that is compared."""
    day, found = datetime.date(first_year, 1, 1), []
    while day.year <= max(first_year, LAST_YEAR):
        if day_holds(day, rule):
            found.append(day)
        day += DAY
    return found


def onsets_of(part):
    """The onsets of a part, in UTC. Where it has a rule, that must fall on its start."""
    back = datetime.timedelta(seconds=part.before)
    starts = [part.start, *part.dates]
    if part.rule:
        days = days_of(part.rule._replace(until=None), part.start.year)
        falls = [datetime.datetime.combine(day, part.start.time()) for day in days if day >= part.start.date()]
        needs(falls[:1] == [part.start], f"a rule that does not fall on its start {part.start}")
        starts = falls
    moments = [(start - back).replace(tzinfo=UTC) for start in starts]
    if part.rule and part.rule.until:
        needs(part.rule.until in moments, f"an end of a rule on which it does not fall: {part.rule.until}")
        moments = [moment for moment in moments if moment <= part.rule.until]
    return moments


def turns_of(zone):
    """The onsets of all parts in rising order, each with the offset, flag and name after it."""
    turns = sorted(
        ((moment, (part.after, part.daylight, part.name), part.before) for part in zone.parts for moment in onsets_of(part)),
        key=lambda turn: turn[0],
    )
    for (one, state, _), (other, _, before) in zip(turns, turns[1:]):
        needs(one < other, f"two onsets at {one}")
        needs(state[0] == before, f"another offset before {other} than after {one}")
    return [(moment, state) for moment, state, _ in turns]


# ---- lines


def unfolded(text):
    needs(text.endswith("\r\n"), "a last line without an end")
    lines = []
    for row in text[:-2].split("\r\n"):
        needs(len(row.encode()) <= 75 and "\r" not in row and "\n" not in row, f"the line {row!r}")
        if row[:1] in (" ", "\t"):
            lines[-1] += row[1:]
        else:
            lines.append(row)
    return lines


def line_time(text):
    needs(re.fullmatch(r"\d{8}T\d{6}", text), f"the time {text!r}")
    return datetime.datetime.strptime(text, "%Y%m%dT%H%M%S")


def line_utc(text):
    needs(text.endswith("Z"), f"the time {text!r} of UTC")
    return line_time(text[:-1]).replace(tzinfo=UTC)


def line_offset(text):
    found = re.fullmatch(r"([+-])(\d\d)(\d\d)(\d\d)?", text)
    needs(found, f"the offset {text!r}")
    return seconds_of(*found.groups())


def seconds_of(sign, hours, minutes, seconds):
    size = 3600 * int(hours) + 60 * int(minutes) + int(seconds or 0)
    needs(sign == "+" or size, "an offset -0")
    return -size if sign == "-" else size


def weekday_word(text):
    found = re.fullmatch(r"([+-]?\d)?(MO|TU|WE|TH|FR|SA|SU)", text)
    needs(found, f"the weekday {text!r}")
    return int(found[1] or 0), found[2]


def rule_of(words, time, number, numbers):
    """A rule from its words by name; the forms of its values differ."""
    needs(words.pop("freq", None) == "YEARLY", "a rule that is not yearly")
    one = lambda name, read: (lambda value: None if value is None else read(value))(words.pop(name, None))
    rule = Rule(
        one("bymonth", number),
        one("bymonthday", numbers),
        one("byyearday", numbers),
        one("byday", lambda text: tuple(map(weekday_word, text.split(",")))),
        one("until", time),
    )
    needs(not words, f"words of a rule that are not known: {words}")
    return rule


def line_numbers(text):
    needs(re.fullmatch(r"-?\d+(,-?\d+)*", text), f"the numbers {text!r}")
    return tuple(int(word) for word in text.split(","))


def line_rule(text):
    words = dict(word.split("=", 1) for word in text.split(";"))
    needs(len(words) == text.count(";") + 1, f"a word twice in the rule {text!r}")
    return rule_of({name.lower(): value for name, value in words.items()}, line_utc, line_numbers, line_numbers)


def line_properties(lines):
    """The properties of a component by name, each of which comes once."""
    found = {}
    for line in lines:
        name, value = line.split(":", 1)
        needs(name not in found, f"{name} twice")
        found[name] = value
    return found


def taken(properties, name, read, kind="property"):
    needs(name in properties, f"no {kind} {name}")
    return read(properties.pop(name))


def line_part(kind, lines):
    rows = line_properties(lines)
    part = Part(
        kind == "DAYLIGHT",
        taken(rows, "DTSTART", line_time),
        taken(rows, "TZOFFSETFROM", line_offset),
        taken(rows, "TZOFFSETTO", line_offset),
        taken(rows, "TZNAME", str),
        tuple(map(line_time, rows.pop("RDATE").split(","))) if "RDATE" in rows else (),
        line_rule(rows.pop("RRULE")) if "RRULE" in rows else None,
    )
    needs(not rows, f"properties of a part that are not known: {rows}")
    return part


def from_lines(text):
    """The time zone of a calendar in lines."""
    lines = unfolded(text)
    needs(lines[0] == "BEGIN:VCALENDAR" and lines[-1] == "END:VCALENDAR", "no calendar")
    at = lines.index("BEGIN:VTIMEZONE")
    needs(lines[-2] == "END:VTIMEZONE", "no end of the zone")
    front = line_properties(lines[1:at])
    needs(front.pop("VERSION", None) == "2.0" and front.pop("PRODID", None) and not front, f"a calendar with {front}")
    rows, parts, begin = [], [], None
    for place, line in enumerate(lines[at + 1 : -2], at + 1):
        name, value = line.split(":", 1)
        if begin is None and name == "BEGIN":
            needs(value in ("STANDARD", "DAYLIGHT"), f"a component {value}")
            begin = place
        elif begin is not None and name == "END":
            needs(lines[begin] == "BEGIN:" + value, f"an end of {value}")
            parts.append(line_part(value, lines[begin + 1 : place]))
            begin = None
        elif begin is None:
            needs(not parts, f"{line!r} after a part")
            rows.append(line)
    needs(begin is None and parts, "no part, or one without an end")
    return zone_of(line_properties(rows), parts, line_utc, lambda name: name.upper())


def zone_of(rows, parts, time, named):
    zone = Zone(
        taken(rows, named("tzid"), str),
        rows.pop(named("tzid-alias-of"), None),
        time(rows.pop(named("tzuntil"))) if named("tzuntil") in rows else None,
        tuple(parts),
    )
    needs(not rows, f"properties of a zone that are not known: {rows}")
    return zone


# ---- JSON


def json_time(text):
    needs(isinstance(text, str) and re.fullmatch(r"\d{4}-\d\d-\d\dT\d\d:\d\d:\d\d", text), f"the time {text!r}")
    return datetime.datetime.fromisoformat(text)


def json_utc(text):
    needs(isinstance(text, str) and text.endswith("Z"), f"the time {text!r} of UTC")
    return json_time(text[:-1]).replace(tzinfo=UTC)


def json_offset(text):
    found = isinstance(text, str) and re.fullmatch(r"([+-])(\d\d):(\d\d)(?::(\d\d))?", text)
    needs(found, f"the offset {text!r}")
    return seconds_of(*found.groups())


def json_number(value):
    needs(type(value) is int, f"the number {value!r}")
    return (value,)


def json_numbers(value):
    values = value if isinstance(value, list) else [value]
    return tuple(number for value in values for number in json_number(value))


def json_text(value):
    needs(isinstance(value, str), f"the text {value!r}")
    return value


def json_rule(value):
    needs(isinstance(value, dict), f"the rule {value!r}")
    needs(list(value) == sorted(value), f"members that do not rise: {list(value)}")
    return rule_of(dict(value), json_utc, json_number, json_numbers)


def json_properties(rows, kinds):
    """The values of properties by name. Each comes once and with the type that is its own."""
    found = {}
    for name, parameters, kind, *values in rows:
        needs(name not in found, f"{name} twice")
        needs(parameters == {} and values, f"parameters or no value in {name}")
        needs(kinds.get(name) == kind, f"{name} of type {kind}")
        found[name] = values
    return found


def single(read):
    def one(values):
        needs(len(values) == 1, f"more than one value: {values}")
        return read(values[0])

    return one


PART_KINDS = {
    "dtstart": "date-time",
    "tzoffsetfrom": "utc-offset",
    "tzoffsetto": "utc-offset",
    "tzname": "text",
    "rdate": "date-time",
    "rrule": "recur",
}


def json_part(value):
    kind, properties, inner = value
    needs(kind in ("standard", "daylight") and inner == [], f"a component {kind!r} with {inner!r}")
    rows = json_properties(properties, PART_KINDS)
    return Part(
        kind == "daylight",
        taken(rows, "dtstart", single(json_time)),
        taken(rows, "tzoffsetfrom", single(json_offset)),
        taken(rows, "tzoffsetto", single(json_offset)),
        taken(rows, "tzname", single(json_text)),
        tuple(map(json_time, rows.get("rdate", ()))),
        single(json_rule)(rows["rrule"]) if "rrule" in rows else None,
    )


def from_json(text):
    """The time zone of a calendar as JSON, whose text has no blank between its marks."""
    value = json.loads(text)
    needs(json.dumps(value, separators=(",", ":"), ensure_ascii=False) == text, "a text that is not compact")
    name, properties, components = value
    needs(name == "vcalendar" and len(components) == 1, "no calendar of one zone")
    front = json_properties(properties, {"version": "text", "prodid": "text"})
    needs(front["version"] == ["2.0"] and "prodid" in front, f"a calendar with {front}")
    name, properties, components = components[0]
    needs(name == "vtimezone" and components, f"no zone, or one without a part: {name}")
    rows = json_properties(properties, {"tzid": "text", "tzid-alias-of": "text", "tzuntil": "date-time"})
    rows = {name: single(json_text)(values) for name, values in rows.items()}
    return zone_of(rows, [json_part(part) for part in components], json_utc, str)
