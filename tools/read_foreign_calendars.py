#!/usr/bin/env python3
"""Reads the time zones of calendars that other programs wrote, and prints how many are read and why
the others are not.

    read_foreign_calendars.py [--program PATH] [--faults] TREE..

Each TREE is searched for files with a VTIMEZONE (RFC 5545, section 3.6.5), such as what `dpkg -x`
makes of a package. PATH is the program of `crates/zone_cases`, as `rt run` builds it there. Three
things are read of each tree:

    as they stand   each file whose name ends in .ics, with its own line ends and whatever else it
                    contains
    alone           each VTIMEZONE that is unlike those before, in a calendar of its own, with CRLF
                    after each line
    named anew      the same, with the identifier Zone in the place of its TZID and TZID-ALIAS-OF

It prints how many are read, and of the others each fault with the property at whose line it was
found. All answers are compared with those of `reader_model.py`, which shares nothing with the
program; any other answer makes the status 1. Then those that are read, and have the name of a zone
of this system, are expanded from 2020 to 2030. They are compared with Python's `zoneinfo`, in
offset and in offset and name. The name of such a zone is `X-LIC-LOCATION`, or the end of the TZID.
With --faults the file of each calendar that is refused or differs is printed. Python's standard
library only.
"""

import argparse
import collections
import datetime
import os
import re
import sys
import zoneinfo
from pathlib import Path

from asked_cases import PROGRAM, answers, written
from reader_model import Fault, calendar_in, expected, onsets

UTC, DAY = datetime.timezone.utc, datetime.timedelta(days=1)
FIRST, LAST = (datetime.datetime(year, 1, 1, tzinfo=UTC) for year in (2020, 2030))
START, END = int(FIRST.timestamp()), int(LAST.timestamp())

ZONE = re.compile(r"^BEGIN:VTIMEZONE[ \t]*$.*?^END:VTIMEZONE[ \t]*$", re.IGNORECASE | re.MULTILINE | re.DOTALL)
NAMES = re.compile(r"^(TZID|TZID-ALIAS-OF)\b([;:].*)", re.IGNORECASE | re.MULTILINE)
PLACE = re.compile(r"^X-LIC-LOCATION:(\S+)", re.IGNORECASE | re.MULTILINE)


def files_in(tree):
    """The files of a tree with a time zone, in order, and what they contain, a character a byte."""
    for path in sorted(Path(tree).rglob("*")):
        if path.is_file() and not path.is_symlink():
            text = path.read_bytes().decode("latin-1")
            if "BEGIN:VTIMEZONE" in text.upper():
                yield path, text


def zones_in(text):
    """The time zones of a file, with a line feed after each line."""
    return ZONE.findall(text.replace("\r\n", "\n").replace("\r", "\n"))


def unfolded(zone):
    return re.sub(r"\n[ \t]", "", zone)


def alone(zone):
    return "BEGIN:VCALENDAR\r\nVERSION:2.0\r\n" + zone.replace("\n", "\r\n") + "\r\nEND:VCALENDAR\r\n"


def named_anew(zone):
    return NAMES.sub(r"\1:Zone", unfolded(zone))


def is_fault(answer):
    return answer is None or re.fullmatch(r"[1-7] [A-Z]\w+( \d+)?", answer) is not None


def read_all(program, texts):
    """What is answered to each text, and how many answers are not those of the model."""
    given = answers(program, texts, [f"read $(t{place})" for place in range(len(texts))])
    wanted = [written(expected("read", [text])) for text in texts]
    return given, sum(one != other for one, other in zip(given, wanted))


def fault_of(text, answer):
    """The name of a fault, and the property of its line."""
    if answer is None:
        return "no answer"
    words = answer.split()
    if words[1] in ("Line", "TooLarge"):
        return words[1]
    lines = re.sub(r"\r\n[ \t]", "", text).split("\r\n")
    line = lines[int(words[2])] if int(words[2]) < len(lines) else ""
    return f"{words[1]} at {re.split('[:;]', line)[0].upper() or 'the end'}"


def tell(what, texts, given, differ):
    faults = collections.Counter(fault_of(text, answer) for text, answer in zip(texts, given) if is_fault(answer))
    told = "; ".join(f"{count} {fault}" for fault, count in faults.most_common())
    other = f"; {differ} OTHER THAN THE MODEL" if differ else ""
    print(f"  {what}: {len(texts) - faults.total()} of {len(texts)} are read" + (f"; {told}" if told else "") + other)


# ---- beside the zones of this system


def zone_of(zone, known):
    """The zone of this system whose name the calendar has, or None."""
    zone = unfolded(zone)
    place, tzid = PLACE.search(zone), NAMES.search(zone)
    pieces = tzid[2].lstrip(";:").split("/") if tzid else []
    names = [place[1]] if place else []
    names += ["/".join(pieces[at:]) for at in range(len(pieces))]
    return next((name for name in names if name in known), None)


def state(zone, moment):
    local = datetime.datetime.fromtimestamp(moment, zone)
    return int(local.utcoffset().total_seconds()), local.tzname()


def states_of(name):
    """The state at the beginning of 2020, and each change before 2030: moment, offset and name."""
    zone = zoneinfo.ZoneInfo(name)
    rows = [(START, *state(zone, START))]
    for day in range(START, END, 86400):
        while state(zone, min(day + 86400, END - 1)) != rows[-1][1:]:
            low, high = max(day, rows[-1][0]), min(day + 86400, END - 1)
            while high - low > 1:
                middle = (low + high) // 2
                low, high = (middle, high) if state(zone, middle) == rows[-1][1:] else (low, middle)
            rows.append((high, *state(zone, high)))
    return rows


def observances_in(answer):
    """The observances that an answer has: moment, offset and name."""
    rows = [row.split(" ") for row in answer.split("|")]
    return [(int(row[0]), int(row[2]), row[4]) for row in rows]


def offsets_of(rows):
    """Moment and offset of each row whose offset is not that of the row before."""
    return [row[:2] for at, row in enumerate(rows) if at == 0 or row[1] != rows[at - 1][1]]


def has_begun(text):
    """Whether a calendar says what applies from 2020 to 2030."""
    try:
        zone, parts = calendar_in(text)
    except Fault:
        return False
    until = zone.get("TZUNTIL")
    return any(onset <= START for part in parts for onset in onsets(part, START + 1)) and (until is None or END <= until)


def compare(program, zones, tell_faults):
    """Compares what calendars say from 2020 to 2030 with the zones of this system."""
    known = zoneinfo.available_timezones()
    named = [(alone(named_anew(zone)), zone_of(zone, known), path) for path, zone in zones]
    named = [row for row in named if row[1] and has_begun(row[0])]
    rows = [f"expand $(t{place}) {START} {END}" for place in range(len(named))]
    texts = [text for text, _, _ in named]
    given = answers(program, texts, rows)
    differ = sum(one != written(expected("expand", [text, START, END])) for one, text in zip(given, texts))
    offsets = names = 0
    for answer, (_, name, path) in zip(given, named):
        said, wanted = observances_in(answer), states_of(name)
        agree = offsets_of(said) == offsets_of(wanted)
        offsets += agree
        names += said == wanted
        if tell_faults and not agree:
            print(f"    {path}: {name} has other offsets")
    other = f"; {differ} OTHER THAN THE MODEL" if differ else ""
    print(f"  2020 to 2030: {offsets} of {len(named)} agree in offset, {names} in offset and name{other}")
    return differ


def read_tree(program, tree, tell_faults):
    """Reports on a tree, and returns how many answers are not those of the model."""
    files = list(files_in(tree))
    print(f"{os.path.basename(os.path.normpath(tree))}: {len(files)} files with a time zone")
    zones = {zone: path for path, text in reversed(files) for zone in reversed(zones_in(text))}
    zones = [(path, zone) for zone, path in reversed(zones.items())]
    whole = [(path, text) for path, text in files if path.suffix.lower() == ".ics"]
    ways = {
        "as they stand": whole,
        "alone": [(path, alone(zone)) for path, zone in zones],
        "named anew": [(path, alone(named_anew(zone))) for path, zone in zones],
    }
    wrong = 0
    for what, texts in ways.items():
        given, differ = read_all(program, [text for _, text in texts])
        tell(what, [text for _, text in texts], given, differ)
        wrong += differ
        for (path, text), answer in zip(texts, given):
            if tell_faults and is_fault(answer):
                print(f"    {path}: {answer} ({fault_of(text, answer)})")
    return wrong + compare(program, zones, tell_faults)


def main():
    parser = argparse.ArgumentParser(description=__doc__, formatter_class=argparse.RawDescriptionHelpFormatter)
    parser.add_argument("trees", metavar="TREE", nargs="+")
    parser.add_argument("--program", default=PROGRAM)
    parser.add_argument("--faults", action="store_true")
    words = parser.parse_args()
    wrong = sum(read_tree(words.program, tree, words.faults) for tree in words.trees)
    return 1 if wrong else 0


if __name__ == "__main__":
    sys.exit(main())
