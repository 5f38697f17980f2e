#!/usr/bin/env python3
"""Reads calendars with a library of Python, for tools/try_readers.py.

    python_library.py icalendar|vobject|dateutil WORK

Each line of WORK is the path of a calendar with one time zone, and after it moments in seconds from
1970, with one space before each: of UTC for icalendar, and for the others of the clocks of the
zone, as if these were UTC. For each line one is printed: offset in seconds and name at each moment,
with `/` between, or `!` and what failed.
"""

import datetime
import sys

EPOCH = datetime.datetime(1970, 1, 1)


def by_icalendar(path):
    """States of moments in UTC."""
    import icalendar
    import pytz

    with open(path, "rb") as file:
        calendar = icalendar.Calendar.from_ical(file.read())
    zone = calendar.walk("VTIMEZONE")[0].to_tz()

    def state(moment):
        utc = (EPOCH + datetime.timedelta(seconds=moment)).replace(tzinfo=pytz.utc)
        local = utc.astimezone(zone)
        return local.utcoffset(), local.tzname()

    return state


def state_of_clocks(zone):
    """States of moments that the clocks show."""

    def state(moment):
        local = (EPOCH + datetime.timedelta(seconds=moment)).replace(tzinfo=zone)
        return local.utcoffset(), local.tzname()

    return state


def by_vobject(path):
    import vobject

    with open(path, encoding="utf-8", newline="") as file:
        calendar = vobject.readOne(file.read())
    return state_of_clocks(calendar.vtimezone.tzinfo)


def by_dateutil(path):
    from dateutil import tz

    with open(path, encoding="utf-8") as file:
        return state_of_clocks(tz.tzical(file).get())


READERS = {"icalendar": by_icalendar, "vobject": by_vobject, "dateutil": by_dateutil}


def answer(read, path, moments):
    """What is printed of a calendar."""
    try:
        state = read(path)
        rows = [state(int(moment)) for moment in moments]
    except Exception as fault:
        return f"! {type(fault).__name__}: {fault}".replace("\n", " ")
    return " ".join(f"{int(offset.total_seconds())}/{name}" for offset, name in rows)


def main():
    read = READERS[sys.argv[1]]
    with open(sys.argv[2], encoding="utf-8") as work:
        for line in work:
            path, *moments = line.split()
            print(answer(read, path, moments), flush=True)


if __name__ == "__main__":
    main()
