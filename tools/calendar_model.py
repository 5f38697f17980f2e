#!/usr/bin/env python3
"""Computes, by itself, what the cases of calendars must answer.

It is written only from the standards, with the profile of docs/FORMATS.md. The standards cover zone
files (RFC 9636), TZ strings (POSIX, section 8.3), yearly rules and VTIMEZONE (RFC 5545), and the
same as JSON (RFC 7265). It goes over days and years one by one and shares nothing with the crates.

    calendar_model.py < crates/zone_cases/stdin     compares the rows that it knows
    calendar_model.py TZ-STRING                     prints what yearly rules say of it
"""
import calendar
import datetime
import json
import re
import struct
import sys
import typing

LO, HI = -5364662400, 253370764800
DAY = 86400
WEEKDAYS = ["SU", "MO", "TU", "WE", "TH", "FR", "SA"]
EPOCH = datetime.date(1970, 1, 1).toordinal()


def day_number(year, month, day):
    return datetime.date(year, month, day).toordinal() - EPOCH


def civil(day):
    return datetime.date.fromordinal(day + EPOCH)


def weekday(day):
    """0 is Sunday."""
    return civil(day).isoweekday() % 7


# ---- TZ strings

NAME = r"(<[A-Za-z0-9+-]{3,}>|[A-Za-z]{3,})"
OFFSET = r"([+-]?\d{1,3}(?::\d\d){0,2})"
DATE = r"(J\d+|\d+|M\d+\.\d+\.\d+)(?:/" + OFFSET + ")?"


def seconds_of(text):
    sign = -1 if text.startswith("-") else 1
    parts = [int(p) for p in text.lstrip("+-").split(":")] + [0, 0]
    return sign * (3600 * parts[0] + 60 * parts[1] + parts[2])


def tz_parts(text):
    """The standard state, and the daylight one with its dates, or None."""
    found = re.fullmatch(NAME + OFFSET + "(?:" + NAME + OFFSET + "?," + DATE + "," + DATE + ")?", text)
    std = (-seconds_of(found[2]), False, found[1].strip("<>"))
    if not found[3]:
        return std, None, None, None
    offset = -seconds_of(found[4]) if found[4] else std[0] + 3600
    dates = [(found[i], seconds_of(found[i + 1]) if found[i + 1] else 7200) for i in (5, 7)]
    return std, (offset, True, found[3].strip("<>")), dates[0], dates[1]


def possible_days(form, year):
    """The day numbers that a date can name in a year, and the weekday that picks one of them."""
    first = day_number(year, 1, 1)
    if form[0] == "J":
        place = int(form[1:])
        return [first + place - (0 if place >= 60 and calendar.isleap(year) else 1)], None
    if form[0] != "M":
        return [first + int(form)], None
    month, week, wanted = (int(n) for n in form[1:].split("."))
    length = calendar.monthrange(year, month)[1]
    end = min(7 * week, length)
    return [day_number(year, month, d) for d in range(end - 6, end + 1)], wanted


def day_in(form, year):
    days, wanted = possible_days(form, year)
    return days[0] if wanted is None else [d for d in days if weekday(d) == wanted][0]


def change_in(date, offset, year):
    """The moment at which a date comes by clocks of that offset."""
    return day_in(date[0], year) * DAY + date[1] - offset


def onsets(tz, year):
    std, dst, start, end = tz
    return change_in(start, std[0], year), change_in(end, dst[0], year)


def state_by(tz, t):
    """The last change not after t decides; a start that falls on an end counts."""
    std, dst, start, end = tz
    if dst is None:
        return std
    near = civil(t // DAY).year
    last = None
    for year in range(near - 2, near + 2):
        for moment, later in zip(onsets(tz, year), (1, 0)):
            if moment <= t and (last is None or (moment, later) > last):
                last = (moment, later)
    return dst if last[1] else std


# ---- yearly rules

YEARS = range(1801, 2210)


def is_all_year(tz):
    std, dst, start, end = tz
    return start in (("J1", 0), ("0", 0)) and end == ("J365", DAY + dst[0] - std[0])


def steady_days(date):
    """The month and day of each day that a date can name, moved by its time; None where they are
    not the same in every year, or lie before 3 January or after 29 December."""
    form, time = date
    if form[0] not in "JM":
        return None
    moved = time // DAY
    for shift in (0, moved):
        rows = set()
        for year in YEARS:
            days = [civil(d + shift) for d in possible_days(form, year)[0]]
            rows.add(tuple((d.month, d.day, d.year - year) for d in days))
        if len(rows) != 1:
            return None
        row = rows.pop()
        if shift == moved and any(y != 0 or (1, 3) > (m, d) or (m, d) > (12, 29) for m, d, y in row):
            return None
    return [(m, d) for m, d, _ in row]


def rule_of(date):
    """The form and the second of a steady date."""
    form, time = date
    days = steady_days(date)
    moved, second = divmod(time, DAY)
    (month, first), (last_month, _) = days[0], days[-1]
    if form[0] == "J":
        return ("FixedDate", month, first), second
    _, week, wanted = (int(n) for n in form[1:].split("."))
    wanted = (wanted + moved) % 7
    if moved == 0:
        return ("NthDay", int(form[1:].split(".")[0]), -1 if week == 5 else week, wanted), second
    if month == last_month:
        return ("MonthDays", month, first, wanted), second
    place = day_number(2001, month, first) - day_number(2001, 1, 1)
    return ("YearDays", place + 1 if month <= 2 else place - 365, wanted), second


def are_apart(tz):
    """Whether the later row of days always begins three days after the earlier one's end."""
    order = set()
    for year in YEARS:
        rows = [[d + time // DAY for d in possible_days(form, year)[0]] for form, time in tz[2:]]
        if rows[0][-1] + 3 <= rows[1][0]:
            order.add(0)
        elif rows[1][-1] + 3 <= rows[0][0]:
            order.add(1)
        else:
            return False
    return len(order) == 1


def carried(tz):
    """A state that always applies, or the two rules of each year, or None."""
    std, dst, start, end = tz
    if dst is None:
        return std
    if is_all_year(tz):
        return dst
    if steady_days(start) is None or steady_days(end) is None or not are_apart(tz):
        return None
    return rule_of(start), rule_of(end)


def is_on(form, day):
    """Whether a rule falls on a day (RFC 5545, section 3.3.10)."""
    date = civil(day)
    length = calendar.monthrange(date.year, date.month)[1]
    if form[0] == "NthDay":
        nth = (date.day - 1) // 7 + 1 if form[2] > 0 else -((length - date.day) // 7 + 1)
        return (date.month, nth, weekday(day)) == form[1:]
    if form[0] == "MonthDays":
        return date.month == form[1] and form[2] <= date.day <= form[2] + 6 and weekday(day) == form[3]
    if form[0] == "FixedDate":
        return (date.month, date.day) == form[1:]
    place = day - day_number(date.year, 1, 1) + 1
    back = place - (366 if calendar.isleap(date.year) else 365) - 1
    there = place if form[1] > 0 else back
    return form[1] <= there <= form[1] + 6 and weekday(day) == form[2]


def falls_in(form, year):
    days = [d for d in range(day_number(year, 1, 1), day_number(year, 12, 31) + 1) if is_on(form, d)]
    return days[0] if len(days) == 1 else None


def rule_text(form):
    week = lambda first: ",".join(str(first + i) for i in range(7))
    kind, rest = form[0], form[1:]
    if kind == "NthDay":
        return f"BYMONTH={rest[0]};BYDAY={rest[1]}{WEEKDAYS[rest[2]]}"
    if kind == "MonthDays":
        return f"BYMONTH={rest[0]};BYMONTHDAY={week(rest[1])};BYDAY={WEEKDAYS[rest[2]]}"
    if kind == "YearDays":
        return f"BYYEARDAY={week(rest[0])};BYDAY={WEEKDAYS[rest[1]]}"
    return f"BYMONTH={rest[0]};BYMONTHDAY={rest[1]}"


# ---- zone files

def block_len(counts, width):
    utcnt, stdcnt, leapcnt, timecnt, typecnt, charcnt = counts
    return timecnt * (width + 1) + 6 * typecnt + charcnt + leapcnt * (width + 4) + stdcnt + utcnt


def zone_in(data):
    """The transitions, the type of each, the types, and the TZ string of a whole zone file."""
    first = struct.unpack(">6I", data[20:44])
    at = 44 + block_len(first, 4)
    counts = struct.unpack(">6I", data[at + 20 : at + 44])
    utcnt, stdcnt, leapcnt, timecnt, typecnt, charcnt = counts
    at += 44
    times = struct.unpack(f">{timecnt}q", data[at : at + 8 * timecnt])
    numbers = data[at + 8 * timecnt : at + 9 * timecnt]
    types = at + 9 * timecnt
    names = data[types + 6 * typecnt : types + 6 * typecnt + charcnt]
    kinds = []
    for i in range(typecnt):
        offset, flag, place = struct.unpack(">iBB", data[types + 6 * i : types + 6 * i + 6])
        kinds.append((offset, flag == 1, names[place:].split(b"\0")[0].decode()))
    return times, numbers, kinds, data[at + block_len(counts, 8) :].strip(b"\n").decode()


def state_at(zone, t):
    times, numbers, kinds, footer = zone
    come = sum(1 for m in times if m <= t)
    if come == len(times) and footer:
        return state_by(tz_parts(footer), t)
    return kinds[numbers[come - 1]] if come else kinds[0]


def changes(zone, a, b):
    """The state at a, and each change of it before b: moment, offset before, state after."""
    times, _, _, footer = zone
    turns = {t for t in times if a < t < b}
    tz = tz_parts(footer) if footer else None
    if tz and tz[1]:
        for year in range(max(civil(a // DAY).year - 1, 2), min(civil((b - 1) // DAY).year + 1, 9998) + 1):
            turns.update(t for t in onsets(tz, year) if a < t < b)
    rows = [(a, state_at(zone, a)[0], state_at(zone, a))]
    for t in sorted(turns):
        if state_at(zone, t) != state_at(zone, t - 1):
            rows.append((t, state_at(zone, t - 1)[0], state_at(zone, t)))
    return rows


def first_difference(one, two):
    """The first moment at which two zones differ: the state stays from one change to the next."""
    turns = sorted({row[0] for zone in (one, two) for row in changes(zone, LO, HI)})
    return next((t for t in turns if state_at(one, t) != state_at(two, t)), None)


# ---- calendars

def local_text(t):
    date = civil(t // DAY)
    left = t % DAY
    return f"{date.year:04}{date.month:02}{date.day:02}T{left // 3600:02}{left // 60 % 60:02}{left % 60:02}"


def offset_text(offset):
    size = abs(offset)
    text = f"{'-' if offset < 0 else '+'}{size // 3600:02}{size // 60 % 60:02}"
    return text + (f"{size % 60:02}" if size % 60 else "")


class Part(typing.NamedTuple):
    """An onset, the offset before it, the state after it, and the further onsets or the rule."""

    onset: int
    before: int
    state: tuple
    dates: tuple = ()
    form: tuple | None = None
    until: int | None = None


def part_lines(part):
    kind = "DAYLIGHT" if part.state[1] else "STANDARD"
    lines = ["BEGIN:" + kind, "DTSTART:" + local_text(part.onset + part.before)]
    lines += ["TZOFFSETFROM:" + offset_text(part.before), "TZOFFSETTO:" + offset_text(part.state[0])]
    lines.append("TZNAME:" + part.state[2])
    if part.dates:
        lines.append("RDATE:" + ",".join(local_text(t + part.before) for t in part.dates))
    if part.form:
        end = "" if part.until is None else f";UNTIL={local_text(part.until)}Z"
        lines.append("RRULE:FREQ=YEARLY;" + rule_text(part.form) + end)
    return lines + ["END:" + kind]


def rule_parts(zone, year, b):
    """The parts of both rules from a year on, by their first onsets."""
    if not zone[3] or year > 9998:
        return []
    tz = tz_parts(zone[3])
    said = carried(tz)
    if tz[1] is None or is_all_year(tz):
        return []
    parts = []
    for side, (before, state) in enumerate(((tz[0][0], tz[1]), (tz[1][0], tz[0]))):
        last = None
        if b is not None:
            stop = min(civil(b // DAY).year, 9998)
            come = [onsets(tz, y)[side] for y in range(max(year, stop - 1), stop + 1)]
            if not [t for t in come if t < b]:
                continue
            last = max(t for t in come if t < b)
        first = onsets(tz, year)[side]
        parts.append(Part(first, before, state, form=said[side][0], until=last))
    return sorted(parts)


def change_parts(rows):
    """The parts of changes: alike ones in one, by the first of them."""
    groups = {}
    for onset, before, state in rows:
        groups.setdefault((before, state), []).append(onset)
    return [Part(come[0], *kind, dates=tuple(come[1:])) for kind, come in groups.items()]


def fold(line):
    rows = [line[:75]] + [line[75 + i : 149 + i] for i in range(0, len(line) - 75, 74)]
    return "\r\n ".join(rows) + "\r\n"


def parts_of(zone, a, b):
    latest = max([a] + [zone[0][-1]] if zone[0] else [a])
    year = civil(latest // DAY).year + 1
    turn = day_number(year, 1, 1) * DAY
    return change_parts(changes(zone, a, turn if b is None else min(b, turn))) + rule_parts(zone, year, b)


def calendar_of(zone, a, b, tzid, alias_of):
    lines = ["BEGIN:VCALENDAR", "VERSION:2.0", "PRODID:-//tzdistd//RFC 7808//EN", "BEGIN:VTIMEZONE"]
    lines.append("TZID:" + tzid)
    if alias_of is not None:
        lines.append("TZID-ALIAS-OF:" + alias_of)
    if b is not None:
        lines.append(f"TZUNTIL:{local_text(b)}Z")
    for part in parts_of(zone, a, b):
        lines += part_lines(part)
    return "".join(fold(line) for line in lines + ["END:VTIMEZONE", "END:VCALENDAR"])


# ---- the same as JSON (RFC 7265)

def json_local_text(t):
    moment = datetime.datetime.fromtimestamp(0, datetime.timezone.utc) + datetime.timedelta(seconds=t)
    return moment.strftime("%Y-%m-%dT%H:%M:%S").rjust(19, "0")


def json_offset_text(offset):
    text = offset_text(offset)
    return ":".join([text[:3], text[3:5]] + ([text[5:]] if text[5:] else []))


def recur_value(form, until):
    """The members that a rule has, whatever their order."""
    week = lambda first: [first + i for i in range(7)]
    kind, rest = form[0], form[1:]
    value = {"freq": "YEARLY"}
    if kind == "NthDay":
        value |= {"bymonth": rest[0], "byday": f"{rest[1]}{WEEKDAYS[rest[2]]}"}
    elif kind == "MonthDays":
        value |= {"bymonth": rest[0], "bymonthday": week(rest[1]), "byday": WEEKDAYS[rest[2]]}
    elif kind == "YearDays":
        value |= {"byyearday": week(rest[0]), "byday": WEEKDAYS[rest[1]]}
    else:
        value |= {"bymonth": rest[0], "bymonthday": rest[1]}
    return value if until is None else value | {"until": json_local_text(until) + "Z"}


def part_value(part):
    rows = [
        ["dtstart", {}, "date-time", json_local_text(part.onset + part.before)],
        ["tzoffsetfrom", {}, "utc-offset", json_offset_text(part.before)],
        ["tzoffsetto", {}, "utc-offset", json_offset_text(part.state[0])],
        ["tzname", {}, "text", part.state[2]],
    ]
    if part.dates:
        rows.append(["rdate", {}, "date-time", *(json_local_text(t + part.before) for t in part.dates)])
    if part.form:
        rows.append(["rrule", {}, "recur", recur_value(part.form, part.until)])
    return ["daylight" if part.state[1] else "standard", rows, []]


def json_calendar_of(zone, a, b, tzid, alias_of):
    rows = [["tzid", {}, "text", tzid]]
    if alias_of is not None:
        rows.append(["tzid-alias-of", {}, "text", alias_of])
    if b is not None:
        rows.append(["tzuntil", {}, "date-time", json_local_text(b) + "Z"])
    front = [["version", {}, "text", "2.0"], ["prodid", {}, "text", "-//tzdistd//RFC 7808//EN"]]
    zones = [["vtimezone", rows, [part_value(part) for part in parts_of(zone, a, b)]]]
    return json.dumps(["vcalendar", front, zones], separators=(",", ":"), sort_keys=True)


# ---- the rows of the table

FIELDS = {
    "NthDay": ("month", "nth", "weekday"),
    "MonthDays": ("month", "first", "weekday"),
    "YearDays": ("first", "weekday"),
    "FixedDate": ("month", "day"),
}


def state_text(state):
    return f"{state[0]} {str(state[1]).lower()} {state[2]}"


def rule_shown(rule):
    form, second = rule
    fields = ", ".join(f"{name}: {value}" for name, value in zip(FIELDS[form[0]], form[1:]))
    return f"Rule {{ form: {form[0]} {{ {fields} }}, second: {second} }}"


def carried_text(text):
    said = carried(tz_parts(text))
    if said is None:
        return "beyond"
    return " ".join(map(rule_shown, said)) if isinstance(said[0], tuple) else state_text(said)


def is_valid(second, form):
    """Whether the rule falls on one day of each year, as twenty-eight years show."""
    weekday_at = {"NthDay": 3, "MonthDays": 3, "YearDays": 2}.get(form[0])
    row = {"MonthDays": (2, 31), "YearDays": (1, 366)}.get(form[0])
    if second >= DAY or weekday_at and form[weekday_at] > 6:
        return False
    if form[0] == "NthDay" and form[2] not in (1, 2, 3, 4, -1):
        return False
    if row and not 1 <= abs(form[row[0]]) <= row[1]:
        return False
    named = 1 if form[0] == "FixedDate" else 7
    return all(len(days_named(form, year)) == named for year in range(1996, 2024))


def days_named(form, year):
    """The days of a year that a form names, whatever their weekday."""
    all_days = range(day_number(year, 1, 1), day_number(year, 12, 31) + 1)
    if form[0] == "FixedDate":
        return [d for d in all_days if is_on(form, d)]
    return [d for d in all_days if is_on(form[:-1] + (weekday(d),), d)]


def numbers(words):
    return (words[0],) + tuple(int(w) for w in words[1:])


def seconds_or_none(word):
    return None if word == "-" else int(word)


def observances_text(zone, a, b):
    return "".join(f"{t} {before} {state_text(s)}|" for t, before, s in changes(zone, a, b))


def unfolded_text(text):
    lines, at = [], 0
    for line in cut(text):
        if not line.endswith("\r\n"):
            return f"1 BadLine {at}"
        at += len(line)
        if lines and line[0] in " \t":
            lines[-1].append(line[1:-2])
        else:
            lines.append([line[:-2]])
    return "".join("".join(pieces) + "|" for pieces in lines)


def cut(text):
    """The text, cut after each line feed."""
    return [line for line in re.split(r"(?<=\n)", text) if line]


def expected(kind, words):
    """What a row must answer, or None where this program does not know its kind."""
    if kind == "line":
        return "A:b\r\n" + fold(f"{words[0]}:{words[1]}")
    if kind == "unfold":
        return unfolded_text(words[0])
    if kind == "carry":
        return carried_text(words[0])
    if kind == "valid":
        return str(is_valid(int(words[0]), numbers(words[1:]))).lower()
    if kind == "day":
        return f"({falls_in(numbers(words[2:]), int(words[0]))}, {words[1]})"
    if kind == "state":
        return state_text(state_at(zone_in(bytes.fromhex(words[0])), int(words[1])))
    if kind == "observances":
        return observances_text(zone_in(bytes.fromhex(words[0])), int(words[1]), int(words[2]))
    if kind == "same-observances":
        one, two = (changes(zone_in(bytes.fromhex(w)), int(words[2]), int(words[3])) for w in words[:2])
        return str(len(one)) if one == two else "other"
    if kind == "differ":
        first = first_difference(*(zone_in(bytes.fromhex(word)) for word in words))
        return "none" if first is None else str(first)
    if kind in ("calendar", "json-calendar"):
        ends = int(words[1]), seconds_or_none(words[2])
        alias_of = None if words[4] == "-" else words[4]
        written = calendar_of if kind == "calendar" else json_calendar_of
        return written(zone_in(bytes.fromhex(words[0])), *ends, words[3], alias_of)
    return None


SIGNS = {"r": "\r", "n": "\n", "t": "\t", "0": "\0", "e": "", "\\": "\\", "$": "$"}


def meaning(text, named):
    """What a text of the table means: crates/case_lines/src/lib.rt describes its form."""

    def one(found):
        if found[1]:
            name, _, times = found[1].partition("*")
            return named[name] * int(times or 1)
        return chr(int(found[2], 16)) if found[2] else SIGNS[found[3]]

    return re.sub(r"\$\(([^)]*)\)|\\x(..)|\\(.)", one, text)


def compare(expected):
    """Compares the table on standard input with what a function says of a kind and its words."""
    named, rows, differ, unknown = {}, 0, 0, 0
    for line in sys.stdin.read().split("\n"):
        if not line or line.startswith("#"):
            continue
        if line.startswith("let "):
            _, name, text = line.split(" ", 2)
            named[name] = meaning(text, named)
            continue
        front, answer = line.split(" = ", 1)
        kind, *words = front.split(" ")
        told = expected(kind, [meaning(word, named) for word in words])
        rows += 1
        if told is None:
            unknown += 1
        elif told != meaning(answer, named):
            differ += 1
            print(f"{front}: this program says {told!r}")
    print(f"{rows} rows, {differ} differ, {unknown} of kinds that are not told here")


if __name__ == "__main__":
    if len(sys.argv) > 1:
        print(carried_text(sys.argv[1]))
    else:
        compare(expected)
