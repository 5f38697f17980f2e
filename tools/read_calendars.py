#!/usr/bin/env python3
"""Reads the calendars of each zone of a release from a server, and compares them with the zone's
file.

    read_calendars.py RELEASE [PROGRAM]     RELEASE as tools/pack_zoneinfo.py makes it; PROGRAM is
                                            tzdistd

Each zone is requested whole and for ranges, as lines and as JSON. `calendar_reader.py` reads what a
calendar says from 1995 to 2045. That is compared in offset, flag and name with what Python's
`zoneinfo` says of the file. It is compared at noon of each day, at each change of either to the
second, and a second before it. The JSON is compared with the lines part by part. Prints how much
was compared, and the size of the texts. Python's standard library only.
"""

import datetime
import json
import sys
import zoneinfo
from bisect import bisect_right
from pathlib import Path
from urllib.parse import quote

from calendar_reader import DAY, SECOND, UTC, Unreadable, from_json, from_lines, turns_of
from served import PROGRAM, Client, Failure, Served

LINES, JSON = "text/calendar", "application/calendar+json"
FIRST, LAST = (datetime.datetime(year, 1, 1, tzinfo=UTC) for year in (1995, 2046))

# Ranges that are requested: both bounds, one of them, and bounds at which most zones of a rule
# change.
RANGES = (
    (None, None),
    ("1995-01-01T00:00:00Z", "2046-01-01T00:00:00Z"),
    ("2007-07-01T12:34:56Z", None),
    (None, "2011-01-01T00:00:00Z"),
    ("2025-03-30T01:00:00Z", "2026-03-29T01:00:00Z"),
    ("2025-03-09T07:00:01Z", "2025-11-02T06:00:01Z"),
)


def moment_of(text):
    return datetime.datetime.fromisoformat(text.replace("Z", "+00:00"))


class File:
    """What a zone file says: the state at a moment, and each moment of change from 1995 to 2045."""

    def __init__(self, path):
        with open(path, "rb") as file:
            self.zone = zoneinfo.ZoneInfo.from_file(file)
        self.noons = [FIRST + n * DAY + DAY / 2 for n in range((LAST - FIRST).days)]
        self.states = [self.state(noon) for noon in self.noons]
        days = zip(self.noons, self.states, self.noons[1:], self.states[1:])
        self.changes = [self.change(one, other) for one, state, other, later in days if state != later]

    def state(self, moment):
        local = moment.astimezone(self.zone)
        return int(local.utcoffset().total_seconds()), bool(local.dst()), local.tzname()

    def change(self, low, high):
        """The first moment after one at which the state of the other applies."""
        before = self.state(low)
        while high - low > SECOND:
            middle = low + (high - low) // 2
            middle -= datetime.timedelta(microseconds=middle.microsecond)
            low, high = (middle, high) if self.state(middle) == before else (low, middle)
        return high


def compare_states(turns, file, first, last):
    """Compares a calendar with the file between two moments, and returns how many moments were
    compared."""
    onsets = [moment for moment, _ in turns]
    near = {moment for turn in [*onsets, *file.changes, first, last] for moment in (turn - SECOND, turn)}
    noons = zip(file.noons, file.states)
    rows = [(noon, state) for noon, state in noons if first <= noon < last]
    rows += [(moment, file.state(moment)) for moment in near if first <= moment < last]
    for moment, wanted in rows:
        place = bisect_right(onsets, moment)
        seen = turns[place - 1][1] if place else None
        if seen != wanted:
            raise Failure(f"at {moment}: {seen} and not {wanted}")
    return len(rows)


def compare_texts(lines, as_json, name, tzid, start, end, file):
    """Compares the two texts of a zone between two bounds, and the first of them with the file."""
    zone = from_lines(lines)
    if from_json(as_json) != zone:
        raise Failure("the JSON says other than the lines")
    wanted = name, None if name == tzid else tzid, moment_of(end) if end else None
    if zone[:3] != wanted:
        raise Failure(f"the zone is {zone[:3]} and not {wanted}")
    first = max([FIRST] + ([moment_of(start)] if start else []))
    last = min([LAST] + ([moment_of(end)] if end else []))
    return compare_states(turns_of(zone), file, first, last)


def target_of(name, start, end):
    bounds = [f"{word}={bound}" for word, bound in (("start", start), ("end", end)) if bound]
    return "/tzdist/zones/" + quote(name, safe="") + ("?" + "&".join(bounds) if bounds else "")


def text_of(client, name, start, end, form):
    reply = client.ask(target_of(name, start, end), "Accept: " + form, timeout=60)
    kind = reply.fields.get("Content-Type", "").split(";")[0]
    if reply.status != 200 or kind != form:
        raise Failure(f"status {reply.status} and type {kind!r}")
    return reply.body.decode()


def main():
    release = Path(sys.argv[1]).resolve()
    program = sys.argv[2] if len(sys.argv) > 2 else PROGRAM
    zones = json.loads((release / "manifest.json").read_text())["zones"]
    texts = moments = wrong = 0
    whole = {LINES: 0, JSON: 0}
    with Served([str(release)], program=program) as server, Client(server.port) as client:
        for zone in zones:
            file = File(release / zone["file"])
            names = [zone["tzid"], *zone.get("aliases", [])[:1]]
            for name, bounds in [(name, bounds) for name in names for bounds in RANGES]:
                try:
                    lines, as_json = (text_of(client, name, *bounds, form) for form in (LINES, JSON))
                    moments += compare_texts(lines, as_json, name, zone["tzid"], *bounds, file)
                except (Failure, Unreadable) as fault:
                    wrong += 1
                    print(f"{name} {bounds}: {fault}")
                    continue
                texts += 2
                if name == zone["tzid"] and bounds == (None, None):
                    whole[LINES] += len(lines.encode())
                    whole[JSON] += len(as_json.encode())
        server.quit()
    print(f"{len(zones)} zones, {texts} calendars, {moments} moments compared, {wrong} calendars differ")
    print(f"whole calendars of all zones: {whole[LINES]} bytes as lines, {whole[JSON]} as JSON")
    return 1 if wrong else 0


if __name__ == "__main__":
    sys.exit(main())
