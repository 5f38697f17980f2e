#!/usr/bin/env python3
"""Computes, by itself, what the cases of calendars that are read must answer.

It is written from RFC 5545 and the forms of docs/FORMATS.md, by regular expressions and by lists of
all onsets. It shares nothing with the crates. What it shares with calendar_model.py is days of a
year and the form of the tables.

    reader_model.py < crates/zone_cases/stdin     compares the rows that it knows
"""
import re

from calendar_model import DAY, HI, LO, WEEKDAYS, civil, compare, day_number, falls_in, is_valid, rule_shown, unfolded_text

MOST_BYTES = 1_048_576


class Fault(Exception):
    pass


# ---- lines and values


def named_value(line):
    """The name of a line, in capitals, and its value: what follows the first colon outside of
    double quotes."""
    name = re.match(r"[A-Za-z0-9-]+(?=[:;])", line)
    rest = name and re.match(r'(?:[^":]|"[^"]*")*:', line[name.end() :])
    return (name[0].upper(), line[name.end() + rest.end() :]) if rest else None


def moment_in(text, ending=""):
    found = re.fullmatch(r"(\d{4})(\d\d)(\d\d)T(\d\d)(\d\d)(\d\d)" + ending, text, re.ASCII)
    if not found:
        return None
    year, month, day, hour, minute, second = map(int, found.groups())
    try:
        return day_number(year, month, day) * DAY + 3600 * hour + 60 * minute + second if max(minute, second) < 60 and hour < 24 else None
    except ValueError:
        return None


def meant(moment):
    return moment if moment is not None and LO <= moment < HI else None


def offset_in(text):
    found = re.fullmatch(r"([+-])(\d\d)(\d\d)(\d\d)?", text, re.ASCII)
    if not found:
        return None
    hours, minutes, seconds = int(found[2]), int(found[3]), int(found[4] or 0)
    size = 3600 * hours + 60 * minutes + seconds
    if hours > 23 or max(minutes, seconds) > 59 or found[1] == "-" and size == 0:
        return None
    return -size if found[1] == "-" else size


def identifier_in(text):
    return text if len(text) <= 64 and re.fullmatch(r"[A-Za-z0-9_+.-]+(/[A-Za-z0-9_+.-]+)*", text, re.ASCII) else None


# ---- rules


def week_or_one(text, places):
    """One number, or the first of seven that follow one another, with how many there are."""
    words = text.split(",")
    if not all(re.fullmatch(r"[+-]?\d{1,%d}" % places, word, re.ASCII) for word in words):
        return None
    days = [int(word) for word in words]
    return (days[0], len(days)) if len(days) in (1, 7) and days == list(range(days[0], days[0] + len(days))) else None


def rule_in(text):
    """The form of a rule and its UNTIL."""
    words = {}
    for word in text.split(";"):
        name, sign, value = word.partition("=")
        if not sign or name.upper() in words:
            return None
        words[name.upper()] = value
    until = meant(moment_in(words.pop("UNTIL"), "Z")) if "UNTIL" in words else False
    if until is None or words.pop("FREQ", "").upper() != "YEARLY" or words.pop("INTERVAL", "1") != "1":
        return None
    if words.pop("WKST", "MO").upper() not in WEEKDAYS or set(words) - {"BYMONTH", "BYMONTHDAY", "BYYEARDAY", "BYDAY"}:
        return None
    form = form_in(words)
    return (form, until) if form and is_valid(0, form) else None


def form_in(words):
    month = words.get("BYMONTH")
    if month is not None and not re.fullmatch(r"\d{1,2}", month, re.ASCII):
        return None
    day = re.fullmatch(r"([+-]?\d{1,2})?([A-Za-z]{2})", words.get("BYDAY", "SU"), re.ASCII)
    if not day or day[2].upper() not in WEEKDAYS:
        return None
    nth, weekday = day[1], WEEKDAYS.index(day[2].upper())
    days = week_or_one(words["BYMONTHDAY"], 2) if "BYMONTHDAY" in words else None
    year_days = week_or_one(words["BYYEARDAY"], 3) if "BYYEARDAY" in words else None
    names = set(words)
    if names == {"BYMONTH", "BYDAY"} and nth:
        return ("NthDay", int(month), int(nth), weekday)
    if names == {"BYMONTH", "BYMONTHDAY", "BYDAY"} and not nth and days and days[1] == 7 and days[0] >= 0:
        return ("MonthDays", int(month), days[0], weekday)
    if names == {"BYYEARDAY", "BYDAY"} and not nth and year_days and year_days[1] == 7:
        return ("YearDays", year_days[0], weekday)
    if names == {"BYMONTH", "BYMONTHDAY"} and days and days[1] == 1 and days[0] >= 0:
        return ("FixedDate", int(month), days[0])
    return None


# ---- a calendar


def once(there, name, fault, value, at):
    if name in there:
        raise Fault(f"6 Count {at}")
    if value is None:
        raise Fault(f"{fault} {at}")
    there[name] = value


def part_at_end(dst, lines, at):
    """The part that its lines gave."""
    if not {"DTSTART", "TZOFFSETFROM", "TZOFFSETTO"} <= set(lines):
        raise Fault(f"6 Count {at}")
    before = lines["TZOFFSETFROM"]
    local = [moment_in(text) for text in [lines["DTSTART"], *lines["RDATE"]]]
    moments = [meant(shown if shown is None else shown - before) for shown in local]
    if None in moments:
        raise Fault(f"4 Value {at}")
    rule, until = None, None
    if "RRULE" in lines:
        form, until = lines["RRULE"]
        rule, until = (form, local[0] % DAY), until if until is not False else None
    return {"dst": dst, "start": moments[0], "from": before, "to": lines["TZOFFSETTO"], "name": lines.get("TZNAME", ""), "dates": moments[1:], "rule": rule, "until": until}


def calendar_in(text):
    if len(text) > MOST_BYTES:
        raise Fault("7 TooLarge")
    unfolded = unfolded_text(text)
    if unfolded.startswith("1 BadLine "):
        raise Fault("1 Line " + unfolded.split()[2])
    lines = unfolded.split("|")[:-1]
    place, zone, parts, part, dst = "outside", {}, [], None, None
    for at, line in enumerate(lines):
        said = named_value(line)
        if not said:
            raise Fault(f"3 Property {at}")
        name, value = said
        mark = name + ":" + value.upper() if name in ("BEGIN", "END") else None
        after = {
            ("outside", "BEGIN:VCALENDAR"): "calendar",
            ("calendar", "BEGIN:VTIMEZONE"): "zone",
            ("zone", "BEGIN:STANDARD"): "part",
            ("zone", "BEGIN:DAYLIGHT"): "part",
            ("part", "END:DAYLIGHT" if dst else "END:STANDARD"): "zone",
            ("zone", "END:VTIMEZONE"): "after",
            ("after", "END:VCALENDAR"): "end",
        }.get((place, mark))
        if place in ("outside", "end") and not after or mark and not after or mark == "END:VTIMEZONE" and not parts:
            raise Fault(f"2 Frame {at}")
        if mark == "END:VTIMEZONE" and "TZID" not in zone:
            raise Fault(f"6 Count {at}")
        if place == "zone" and after == "part":
            part, dst = {"RDATE": []}, mark == "BEGIN:DAYLIGHT"
        elif place == "part" and after == "zone":
            parts.append(part_at_end(dst, part, at))
            dst = None
        elif place == "zone" and not mark and name in ("TZID", "TZID-ALIAS-OF", "TZUNTIL"):
            once(zone, name, "4 Value", moment_in(value, "Z") if name == "TZUNTIL" else identifier_in(value), at)
        elif place == "part" and not mark:
            if name in ("TZOFFSETFROM", "TZOFFSETTO"):
                once(part, name, "4 Value", offset_in(value), at)
            elif name == "DTSTART":
                once(part, name, "4 Value", value, at)
            elif name == "RRULE":
                once(part, name, "5 Rule", rule_in(value), at)
            elif name == "RDATE":
                part["RDATE"] += value.split(",")
            elif name == "TZNAME" and "TZNAME" not in part and re.fullmatch(r"[!-~]{0,32}", value):
                part["TZNAME"] = value
        place = after or place
    if place != "end":
        raise Fault(f"2 Frame {len(lines)}")
    return zone, parts


# ---- answers


def told(moment):
    return "-" if moment is None else str(moment)


def part_text(part):
    rule = "-" if part["rule"] is None else rule_shown(part["rule"])
    dates = ",".join(map(str, part["dates"])) or "-"
    return f"{'dst' if part['dst'] else 'std'} {part['start']} {part['from']} {part['to']} {part['name'] or '-'} {dates} {rule} {told(part['until'])}"


def calendar_text(zone, parts):
    front = f"{zone['TZID']} {zone.get('TZID-ALIAS-OF', '-')} {told(zone.get('TZUNTIL'))}"
    return "|".join([front, *map(part_text, parts)])


def onsets(part, end):
    """All onsets of a part before an end, in any order."""
    found = [part["start"], *part["dates"]]
    if part["rule"]:
        form, second = part["rule"]
        last = end if part["until"] is None else min(end, part["until"] + 1)
        for year in range(civil(part["start"] // DAY).year - 1, civil(min(last, HI - 1) // DAY).year + 2):
            if 1 <= year <= 9999:
                onset = falls_in(form, year) * DAY + second - part["from"]
                if part["start"] <= onset < last:
                    found.append(onset)
    return [it for it in found if it < end]


def observances_text(parts, a, b):
    turns = sorted((onset, place) for place, part in enumerate(parts) for onset in onsets(part, b))
    states = {}
    for onset, place in turns:
        states[onset] = (parts[place]["to"], parts[place]["dst"], parts[place]["name"])
    before = [states[onset] for onset in sorted(states) if onset <= a][-1]
    rows = [(a, before[0], before)]
    for onset in sorted(states):
        if a < onset and states[onset] != rows[-1][2]:
            rows.append((onset, rows[-1][2][0], states[onset]))
    return "|".join(f"{t} {old} {s[0]} {'dst' if s[1] else 'std'} {s[2] or '-'}" for t, old, s in rows)


def expected(kind, words):
    """What a row must answer, or None where this program does not know its kind."""
    try:
        if kind == "read":
            return calendar_text(*calendar_in(words[0]))
        if kind == "expand":
            return observances_text(calendar_in(words[0])[1], int(words[1]), int(words[2]))
    except Fault as fault:
        return str(fault)
    return None


if __name__ == "__main__":
    compare(expected)
