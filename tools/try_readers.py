#!/usr/bin/env python3
"""Has calendar libraries of other projects read a server's calendars, and compares the results.

    tools/try_readers.py --ical-js /usr/share/thunderbird/omni.ja

A tree of zone files is packed, and PROGRAM serves it. Each zone is requested whole, from the
beginning of this year on without an end, and for a range. Each library reads each calendar, from
1970 to 2037 at and around each change. Its offsets, and its names where it has them, are compared
with what Python's zoneinfo says of the zone's file. A CalDAV server, Radicale, is given events with
such calendars and must find them at their time.

A calendar that is read wrong is tried again in two other forms, which show the cause. One has each
date on an RDATE line of its own, and the other has the start of a part among these dates, too.
Zones that still have RDATE lines from this year on are requested for each half of a year as well. A
library that is not installed is skipped, with a line that says so. It is run by hand and takes some
minutes; the status is 1 only where nothing could be compared.
"""

import argparse
import datetime
import io
import json
import os
import subprocess
import sys
import tempfile
import textwrap
import zipfile
from collections import namedtuple
from pathlib import Path
from urllib.parse import quote
from zoneinfo import ZoneInfo

sys.dont_write_bytecode = True

import radicale_trial
from checks import ZONES
from served import PROGRAM, Client, Failure, Served
from zone_states import DAY, States, daylight_of_year, footer_of

HERE = Path(__file__).resolve().parent
READERS = HERE / "readers"
DEBIAN_PYTHON = "/usr/bin/python3"
UTC = datetime.timezone.utc
YEAR = datetime.datetime.now(UTC).year
BEFORE, AFTER, END = YEAR - 5, YEAR + 5, 2038

# What is counted apart: a zone counts in each period in which it is wrong. Years before 1970 are
# not compared.
PERIODS = (
    (f"{YEAR} to 2037", YEAR, 2038),
    ("2020 to 2037", 2020, 2038),
    ("1972 to 2019", 1972, 2020),
    ("1970 and 1971", 1970, 1972),
)
HOUR = 3600


def text_of(year, month=1):
    """The beginning of a month as the text of a moment."""
    return f"{year}-{month:02}-01T00:00:00Z"


def begin_of(year, month=1):
    return int(datetime.datetime(year, month, 1, tzinfo=UTC).timestamp())


# How a zone is requested, and the time for which the calendar must be right, in seconds.
Form = namedtuple("Form", "name query first last")
TEN_YEARS = f"?start={text_of(BEFORE)}&end={text_of(AFTER)}"
FORMS = (
    Form("whole", "", begin_of(1970), begin_of(END)),
    Form("from this year on", f"?start={text_of(YEAR)}", begin_of(YEAR), begin_of(END)),
    Form("ten years", TEN_YEARS, begin_of(BEFORE), begin_of(AFTER)),
)
MIDDLES = [(year, month) for year in range(YEAR, END + 1) for month in (1, 7)][:-1]
HALVES = [
    Form("half a year", f"?start={text_of(*a)}&end={text_of(*b)}", begin_of(*a), begin_of(*b))
    for a, b in zip(MIDDLES, MIDDLES[1:])
]
ALL_HALVES = Form("each half of a year", "", begin_of(YEAR), begin_of(END))

# What a library says that is wrong in a period at first, and the last moment that is wrong.
Fault = namedtuple("Fault", "text last")

# A library: its name, and the package whose version is printed. Then whether its moments are by the
# clocks of the zone instead of UTC, and the words that read a file of work.
Reader = namedtuple("Reader", "name package by_clocks command")

# The causes that another form of a calendar shows.
FIRST_DATE = "reads only the first date of an RDATE line"
NOT_READ = "not read"
NO_START = "the same, and does not read the start of a part that has such a line"
OTHER = "another cause"


class Missing(Exception):
    """Why a library cannot be tried."""


class Zone:
    """A zone's file, the moments that a reader of its calendar gets, and what is right there."""

    def __init__(self, name, path):
        self.name = name
        with open(path, "rb") as file:
            data = file.read()
        self.zone = ZoneInfo.from_file(io.BytesIO(data))
        self.moments = sorted(set(self._moments(States(data))))
        self.states = {moment: self._state(moment) for moment in self.moments}

    @staticmethod
    def _changes(states):
        yield from states.times
        last = states.times[-1] if states.times else begin_of(1969)
        if states.footer and footer_of(states.footer)[1]:
            years = range(1969, END + 1)
            moments = {moment for year in years for moment in daylight_of_year(states.footer, year)}
            yield from (moment for moment in moments if moment > last)

    def _moments(self, states):
        """Moments before, at and after each change, and the beginning and middle of each year."""
        first, last = begin_of(1970), begin_of(END)
        for change in self._changes(states):
            for add in (-4 * HOUR, -1, 0, 4 * HOUR):
                if first <= change + add < last:
                    yield change + add
        for year in range(1970, END):
            yield from (begin_of(year), begin_of(year) + 182 * DAY)

    def _state(self, moment):
        """Offset and name at a moment, and the seconds that the clocks show then.

        Seconds that they show twice are None.
        """
        local = datetime.datetime.fromtimestamp(moment, UTC).astimezone(self.zone)
        offset = int(local.utcoffset().total_seconds())
        twice = local.replace(fold=0).utcoffset() != local.replace(fold=1).utcoffset()
        return offset, local.tzname(), None if twice else moment + offset

    def rows(self, form, by_clocks):
        """Each moment within a form, with what a reader is given for it and what is right."""
        for moment in self.moments:
            offset, name, clocks = self.states[moment]
            given = clocks if by_clocks else moment
            if form.first <= moment < form.last and given is not None:
                yield moment, given, (offset, name)


# ---- the libraries


def needs(found, what):
    if not found:
        raise Missing(f"{what} is not installed")


def ended(*words, **more):
    """A program that has ended, with what it printed."""
    return subprocess.run(words, capture_output=True, text=True, check=False, **more)


def version_of(package):
    done = ended("dpkg-query", "-W", "-f", "${Version}", package)
    return done.stdout if done.returncode == 0 else "(not of a package)"


def libical(room, _):
    needs(Path("/usr/include/libical/ical.h").exists(), "libical-dev")
    program = os.path.join(room, "libical")
    built = ended("cc", "-O1", "-o", program, str(READERS / "libical.c"), "-lical")
    needs(built.returncode == 0, "a C compiler that builds readers/libical.c")
    return Reader("libical", "libical3", False, [program])


def of_python(module, package, by_clocks):
    """The way to a library of Debian's Python."""

    def found(_room, _options):
        needs(os.path.exists(DEBIAN_PYTHON), DEBIAN_PYTHON)
        needs(ended(DEBIAN_PYTHON, "-c", f"import {module}").returncode == 0, package)
        command = [DEBIAN_PYTHON, str(READERS / "python_library.py"), module]
        return Reader(module, package, by_clocks, command)

    return found


def sabre(_room, _options):
    needs(Path("/usr/share/php/Sabre/VObject/autoload.php").exists(), "php-sabre-vobject")
    return Reader("sabre/vobject", "php-sabre-vobject", False, ["php", str(READERS / "sabre.php")])


def ical_js(room, options):
    """The library as a module of its own, or as Thunderbird has it within an archive."""
    path = Path(options.ical_js)
    needs(path.exists(), f"ical.js ({path}; --ical-js FILE names another)")
    module = Path(room, "ical.mjs")
    if zipfile.is_zipfile(path):
        with zipfile.ZipFile(path) as archive:
            module.write_bytes(archive.read("modules/calendar/Ical.sys.mjs"))
    else:
        module.write_bytes(path.read_bytes())
    command = ["node", str(READERS / "ical_js.mjs"), str(module)]
    return Reader("ical.js", "thunderbird", True, command)


WAYS = {
    "libical": libical,
    "icalendar": of_python("icalendar", "python3-icalendar", False),
    "vobject": of_python("vobject", "python3-vobject", True),
    "dateutil": of_python("dateutil", "python3-dateutil", True),
    "sabre/vobject": sabre,
    "ical.js": ical_js,
}


# ---- reading and comparing


def read_all(reader, room, asked):
    """What a reader says of calendars, each with the moments that it is given."""
    work = Path(room, "work")
    lines = [" ".join([str(path), *map(str, moments)]) for path, moments in asked]
    work.write_text("".join(line + "\n" for line in lines))
    done = ended(*reader.command, str(work), timeout=3600)
    answers = done.stdout.splitlines()
    if len(answers) != len(asked):
        counts = f"{len(answers)} answers to {len(asked)} calendars"
        raise Failure(f"{reader.name}: {counts}; {done.stderr[-400:]}")
    return answers


def agrees(said, wanted):
    """Whether a state that was said, an offset and perhaps a name, is the right one."""
    offset, _, name = said.partition("/")
    return int(offset) == wanted[0] and name in ("", wanted[1])


def periods_of(moment):
    year = datetime.datetime.fromtimestamp(moment, UTC).year
    return [name for name, first, last in PERIODS if first <= year < last]


def first_faults(answer, rows):
    """Of each period with a wrong state, the first: what is said, what is right, and when."""
    if answer.startswith("!"):
        return {NOT_READ: Fault(answer[2:], None)}
    faults = {}
    for said, (moment, _, wanted) in zip(answer.split(), rows):
        if not agrees(said, wanted):
            when = datetime.datetime.fromtimestamp(moment, UTC).strftime("%Y-%m-%d %H:%M")
            first = Fault(f"{said} and not {wanted[0]}/{wanted[1]} at {when}", moment)
            for period in periods_of(moment):
                faults[period] = faults.get(period, first)._replace(last=moment)
    return faults


def faults_of(reader, room, form, zones, texts):
    """The zones whose calendars a reader does not read right, each with its faults."""
    rows = [list(zone.rows(form, reader.by_clocks)) for zone in zones]
    paths = []
    for number, zone in enumerate(zones):
        paths.append(Path(room, f"{number}.ics"))
        paths[-1].write_bytes(texts[zone.name].encode())
    asked = [(path, [given for _, given, _ in row]) for path, row in zip(paths, rows)]
    answers = read_all(reader, room, asked)
    found = [(zone.name, first_faults(*pair)) for zone, *pair in zip(zones, answers, rows)]
    return {name: faults for name, faults in found if faults}


def a_date_a_line(text, with_start):
    """A calendar with each date of an RDATE line on its own line, perhaps with the part's start."""
    lines, start = [], None
    for line in text.replace("\r\n ", "").split("\r\n"):
        if line.startswith("DTSTART:"):
            start = line[8:]
        if line.startswith("RDATE:"):
            dates = [start] * with_start + line[6:].split(",")
            lines += [f"RDATE:{date}" for date in dates]
        else:
            lines.append(line)
    return "\r\n".join(lines)


def tried(reader, room, form, zones, texts):
    """Of each period the zones that are read wrong, each with the first fault and its cause."""
    faults = faults_of(reader, room, form, zones, texts)
    causes = {(name, period): OTHER for name, found in faults.items() for period in found}
    for cause, with_start in ((NO_START, True), (FIRST_DATE, False)):
        again = [zone for zone in zones if zone.name in faults]
        split = {zone.name: a_date_a_line(texts[zone.name], with_start) for zone in again}
        still = faults_of(reader, room, form, again, split) if again else {}
        for name, period in causes:
            if period != NOT_READ and not {period, NOT_READ} & set(still.get(name, {})):
                causes[name, period] = cause
    found = {}
    for (name, period), cause in causes.items():
        found.setdefault(period, {})[name] = cause, faults[name][period]
    return found


def has_dates(text):
    """Whether a calendar has an RDATE line."""
    return "\nRDATE" in text


def tried_by_halves(reader, room, zones, halves):
    """The same as `tried`, where each half of a year ahead is requested by itself."""
    found = {}
    for form, texts in halves:
        for period, faults in tried(reader, room, form, zones, texts).items():
            for name, fault in faults.items():
                found.setdefault(period, {}).setdefault(name, fault)
    return found


def cells(form, found):
    """The numbers of a row: of zones wrong in each period that the form covers, and of those that
    are not read.
    """
    for name, first, last in PERIODS:
        covered = form.first < begin_of(last) and begin_of(first) < form.last
        yield str(len(found.get(name, {}))) if covered else ""
    yield str(len(found.get(NOT_READ, {})))


def until(last):
    """Until when a zone is wrong, of one that is right before the last years that are compared."""
    day = datetime.datetime.fromtimestamp(last, UTC)
    return f" until {day:%Y-%m-%d}" if last < begin_of(END - 2) else ""


def print_causes(reader, form, found):
    """How many zones are wrong by each cause, and which. Of the years before 2020 only the number
    is printed.
    """
    for period in (NOT_READ, *(name for name, _, _ in PERIODS)):
        kinds = {}
        for name, (cause, fault) in found.get(period, {}).items():
            kinds.setdefault(cause, {})[name] = fault
        for cause, faults in sorted(kinds.items()):
            print(f"\n{reader.name}, {form.name}, {period}, {len(faults)} zones: {cause}")
            if cause == OTHER:
                for name, fault in list(faults.items())[:12]:
                    print(f"    {name}: {fault.text}")
            elif period in (PERIODS[0][0], PERIODS[1][0]):
                rows = [name + until(fault.last) for name, fault in faults.items()]
                print(textwrap.indent(textwrap.fill(", ".join(rows), 96), "    "))


def texts_of(client, names, form):
    texts = {}
    for name in names:
        reply = client.ask(f"{ZONES}/{quote(name, safe='')}{form.query}", timeout=60)
        if reply.status != 200:
            raise Failure(f"{name}: status {reply.status}")
        texts[name] = reply.body.decode()
    return texts


def readers_in(room, options):
    """The libraries that are installed, of those that were requested."""
    for name in options.only or WAYS:
        try:
            yield WAYS[name](room, options)
        except Missing as fault:
            print(f"{name}: passed over: {fault}")


def asked_of(server, options):
    """The zones of a server, and the calendars of each form. Then those zones of which a calendar
    from this year on has an RDATE line, and the calendars of each half of a year."""
    with Client(server.port) as client:
        names = sorted(zone["tzid"] for zone in json.loads(client.ask(ZONES).body)["timezones"])
        forms = [(form, texts_of(client, names, form)) for form in FORMS]
        dated = [name for name in names if has_dates(forms[1][1][name])]
        halves = [(form, texts_of(client, dated, form)) for form in HALVES]
    zones = [Zone(name, Path(options.tree, name)) for name in names]
    return zones, forms, [zone for zone in zones if zone.name in dated], halves


def row_of(reader, form, found):
    version = f"{reader.name} {version_of(reader.package)}"
    return "| " + " | ".join([version, form.name, *cells(form, found)]) + " |"


def try_all(room, options, zones, forms, dated, halves):
    """Tries each reader with each form, and prints a row of each."""
    for form, texts in forms:
        print(f"{form.name}: {len(texts)} calendars, {sum(map(len, texts.values()))} bytes")
    lines = sum(has_dates(text) for _, texts in halves for text in texts.values())
    count = sum(len(texts) for _, texts in halves)
    names = ", ".join(zone.name for zone in dated)
    print(f"with RDATE lines from this year on: {names}; of {count} half years {lines} have them")
    print("| Library | Requested | " + " | ".join(name for name, _, _ in PERIODS) + " | not read |")
    print("|---|---|" + "---|" * (len(PERIODS) + 1), flush=True)
    rows = []
    for reader in readers_in(room, options):
        for form, texts in forms:
            rows.append((reader, form, tried(reader, room, form, zones, texts)))
            print(row_of(*rows[-1]), flush=True)
        rows.append((reader, ALL_HALVES, tried_by_halves(reader, room, dated, halves)))
        print(row_of(*rows[-1]), flush=True)
    for row in rows:
        print_causes(*row)
    return len(rows)


def packed(room, options):
    """A release of the tree."""
    release = os.path.join(room, "release")
    flags = ["--as-they-are"] if options.as_they_are else []
    done = ended(sys.executable, str(HERE / "pack_zoneinfo.py"), options.tree, release, *flags)
    if done.returncode != 0:
        raise Failure(done.stderr.strip())
    print(done.stdout, end="")
    return release


def options_of():
    parser = argparse.ArgumentParser(
        description="Has other projects' libraries read a server's calendars.",
        epilog="example: tools/try_readers.py --only vobject libical",
    )
    add = parser.add_argument
    add("--program", default=PROGRAM, help="the built tzdistd")
    add("--tree", default="/usr/share/zoneinfo", help="the zone files")
    add("--as-they-are", action="store_true", help="packs them as they came")
    add("--only", nargs="*", choices=list(WAYS), help="the libraries (default: all)")
    add(
        "--ical-js",
        metavar="FILE",
        default="/usr/share/thunderbird/omni.ja",
        help="ical.js as a module, or Thunderbird's archive omni.ja",
    )
    return parser.parse_args()


def main():
    options = options_of()
    with tempfile.TemporaryDirectory() as room:
        try:
            release = packed(room, options)
            program = os.path.abspath(options.program)
            with Served([release], program=program, within=300) as server:
                compared = try_all(room, options, *asked_of(server, options))
                radicale_trial.report(room, server.port)
        except Failure as fault:
            sys.exit(f"try_readers.py: {fault}")
    return 0 if compared else 1


if __name__ == "__main__":
    sys.exit(main())
