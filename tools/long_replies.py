#!/usr/bin/env python3
"""Prints the cases of run_cases whose replies are long, with what is expected of them.

    long_replies.py

The lengths are of texts that are made here only from the rules of docs/FORMATS.md, over two zone
files that are made here too. Python's zoneinfo is used to check that the files mean so. So a server
that runs out of memory at such a size, or answers less, differs from the table.
"""

import datetime
import hashlib
import io
import json
import struct
import zoneinfo

UTC = datetime.timezone.utc
EST, EDT = (-18000, "EST"), (-14400, "EDT")
FOOTER = "EST5EDT,M3.2.0,M11.1.0"


def sunday(year, month, number):
    """The day of the month of the Sunday of this number."""
    first = datetime.date(year, month, 1)
    return 1 + (6 - first.weekday()) % 7 + 7 * (number - 1)


def onsets(first, last):
    """The changes of the rules, from one year to another: moment and what applies from then on."""
    for year in range(first, last + 1):
        yield datetime.datetime(year, 3, sunday(year, 3, 2), 7, tzinfo=UTC), EDT
        yield datetime.datetime(year, 11, sunday(year, 11, 1), 6, tzinfo=UTC), EST


def zone_file(changes):
    """A zone file with these changes, whose first block is empty."""
    def header(times, types, names):
        return b"TZif2" + bytes(15) + struct.pack(">6L", 0, 0, 0, times, types, names)
    times = [int(moment.timestamp()) for moment, _ in changes]
    block = struct.pack(">%dq" % len(times), *times)
    block += bytes([EDT, EST].index(kind) ^ 1 for _, kind in changes)
    block += struct.pack(">lBB", EST[0], 0, 0) + struct.pack(">lBB", EDT[0], 1, 4) + b"EST\0EDT\0"
    return header(0, 1, 1) + bytes(7) + header(len(times), 2, 8) + block + b"\n" + FOOTER.encode() + b"\n"


def try_file(data, first, changes):
    """Asserts that zoneinfo reads these changes, each at its second."""
    zone = zoneinfo.ZoneInfo.from_file(io.BytesIO(data))
    before = first
    for moment, kind in changes:
        for at, wanted in ((moment - datetime.timedelta(seconds=1), before), (moment, kind)):
            local = at.astimezone(zone)
            assert (local.utcoffset().total_seconds(), local.tzname()) == wanted, (at, wanted)
        before = kind


def stamp(moment):
    return moment.strftime("%Y-%m-%dT%H:%M:%SZ")


def expansion(tzid, changes, start, end):
    """The document of the observances from start to end, where standard time applies at first."""
    rows = [(start, EST[0], EST)]
    for moment, kind in changes:
        if start < moment < end:
            rows.append((moment, rows[-1][2][0], kind))
    observances = [
        {"name": name, "onset": stamp(moment), "utc-offset-from": before, "utc-offset-to": offset}
        for moment, before, (offset, name) in rows
    ]
    return json.dumps({"end": stamp(end), "observances": observances, "start": stamp(start), "tzid": tzid},
                      separators=(",", ":"))


def local_text(moment, before):
    return (moment + datetime.timedelta(seconds=before)).strftime("%Y%m%dT%H%M%S")


def part(moments, before, kind, rule=None):
    """The lines of a part of a calendar: the moments after the first are its dates."""
    word = "DAYLIGHT" if kind == EDT else "STANDARD"
    def offset(seconds):
        return "-%02d%02d" % divmod(-seconds // 60, 60)
    first, *dates = [local_text(moment, before) for moment in moments]
    lines = ["BEGIN:" + word, "DTSTART:" + first, "TZOFFSETFROM:" + offset(before),
             "TZOFFSETTO:" + offset(kind[0]), "TZNAME:" + kind[1]]
    lines += ["RDATE:" + ",".join(dates)] if dates else []
    return lines + (["RRULE:FREQ=YEARLY;" + rule] if rule else []) + ["END:" + word]


def folded(line):
    """A line, and its end, cut so that no row has more than 75 octets."""
    rows = [line[:75]] + [" " + line[at : at + 74] for at in range(75, len(line), 74)]
    return "".join(row + "\r\n" for row in rows)


def alike(changes):
    """The moments of all alike changes, by the first of them; the first moment of all is one."""
    sets = {(EST[0], EST): [datetime.datetime(1800, 1, 1, tzinfo=UTC)]}
    before = EST
    for moment, kind in changes:
        sets.setdefault((before[0], kind), []).append(moment)
        before = kind
    return sets


def calendar(tzid, changes, first_rule_year):
    """The calendar of all time: a part for each set of alike changes, and the two rules."""
    lines = ["BEGIN:VCALENDAR", "VERSION:2.0", "PRODID:-//tzdistd//RFC 7808//EN", "BEGIN:VTIMEZONE", "TZID:" + tzid]
    for (offset, kind), moments in alike(changes).items():
        lines += part(moments, offset, kind)
    (spring, _), (autumn, _) = onsets(first_rule_year, first_rule_year)
    lines += part([spring], EST[0], EDT, "BYMONTH=3;BYDAY=2SU")
    lines += part([autumn], EDT[0], EST, "BYMONTH=11;BYDAY=1SU")
    lines += ["END:VTIMEZONE", "END:VCALENDAR"]
    return "".join(folded(line) for line in lines)


def json_calendar(tzid, changes, first_rule_year):
    """The same as JSON."""
    parts = [json_part(moments, offset, kind) for (offset, kind), moments in alike(changes).items()]
    (spring, _), (autumn, _) = onsets(first_rule_year, first_rule_year)
    parts.append(json_part([spring], EST[0], EDT, {"byday": "2SU", "bymonth": 3, "freq": "YEARLY"}))
    parts.append(json_part([autumn], EDT[0], EST, {"byday": "1SU", "bymonth": 11, "freq": "YEARLY"}))
    front = [["version", {}, "text", "2.0"], ["prodid", {}, "text", "-//tzdistd//RFC 7808//EN"]]
    zone = ["vtimezone", [["tzid", {}, "text", tzid]], parts]
    return json.dumps(["vcalendar", front, [zone]], separators=(",", ":"))


def tag(tzid, data):
    """The tag of a zone without aliases."""
    def sized(text):
        return struct.pack(">L", len(text)) + text
    return hashlib.sha256(sized(tzid.encode()) + bytes(4) + sized(data)).hexdigest()[:32]


def json_text(moment, before):
    return (moment + datetime.timedelta(seconds=before)).isoformat(timespec="seconds")[:19]


def json_part(moments, before, kind, rule=None):
    """A part of a calendar as JSON."""
    def offset(seconds):
        return "-%02d:%02d" % divmod(-seconds // 60, 60)
    first, *dates = [json_text(moment, before) for moment in moments]
    rows = [["dtstart", {}, "date-time", first], ["tzoffsetfrom", {}, "utc-offset", offset(before)],
            ["tzoffsetto", {}, "utc-offset", offset(kind[0])], ["tzname", {}, "text", kind[1]]]
    rows += [["rdate", {}, "date-time", *dates]] if dates else []
    rows += [["rrule", {}, "recur", rule]] if rule else []
    return ["daylight" if kind == EDT else "standard", rows, []]


def case(title, target, head, field=""):
    print("case " + title)
    print("words answer a")
    print("input HEAD %s HTTP/1.1\\r\\nHost: x\\r\\n%s\\r\\n" % (target, field))
    print("output HTTP/1.1 200 OK\\r\\n%s\\r\\n\\r\\n" % head)
    print("run")


def main():
    one = list(onsets(2007, 2007))[:1]
    many = list(onsets(1889, 2006))
    assert len(many) == 236
    try_file(zone_file(one), EST, onsets(2007, 9998))
    try_file(zone_file(many), EST, onsets(1889, 9998))
    print("remove")
    print('file a/manifest.json {"publisher":"Test","version":"2025a","stamp":"2025-01-20T00:00:00Z","zones":['
          '{"tzid":"America/New_York","file":"ny"},{"tzid":"Test/Changes","file":"changes"}]}')
    print("hex a/ny " + zone_file(one).hex())
    print("hex a/changes " + zone_file(many).hex())
    start, end = datetime.datetime(1800, 1, 1, tzinfo=UTC), datetime.datetime(9999, 1, 1, tzinfo=UTC)
    text = expansion("America/New_York", onsets(2007, 9998), start, end)
    case("the observances of New York from 1800 to 9999",
         "/tzdist/zones/America%%2FNew_York/observances?start=%s&end=%s" % (stamp(start), stamp(end)),
         "Content-Type: application/json\\r\\nContent-Length: %d" % len(text))
    text = calendar("Test/Changes", many, 2007)
    case("the calendar of 236 changes", "/tzdist/zones/Test%2FChanges",
         "Content-Type: text/calendar; charset=utf-8\\r\\nETag: \"%s.c2\"\\r\\nVary: Accept\\r\\nContent-Length: %d"
         % (tag("Test/Changes", zone_file(many)), len(text)))
    text = json_calendar("Test/Changes", many, 2007)
    case("the same as JSON", "/tzdist/zones/Test%2FChanges",
         "Content-Type: application/calendar+json\\r\\nETag: \"%s.j\"\\r\\nVary: Accept\\r\\nContent-Length: %d"
         % (tag("Test/Changes", zone_file(many)), len(text)), "Accept: application/calendar+json\\r\\n")
    text = json.dumps({"synctoken": "1-" + 16 * "0", "timezones": []}, separators=(",", ":"))
    path = "/tzdist/zones?pattern="
    print("let LETTER a")
    case("a target of 8000 bytes", path + "$(LETTER*%d)" % (8000 - len(path)),
         "Content-Type: application/json\\r\\nContent-Length: %d" % len(text))


if __name__ == "__main__":
    main()
