"""The table of leap seconds of a tree of zone files, as a TZif file with its expiry date.

Python's standard library only.
"""

import re
import struct
import sys
import time
from calendar import timegm

from zone_file import Refused, read_bytes

NTP_TO_UNIX = 2_208_988_800

# An expiry that is nearer than this is worth a warning: releases of tz come some times a year.
DAYS_OF_WARNING = 31

LEAP = re.compile(
    r"^Leap\s+(\d{4}\s+[A-Z][a-z][a-z]\s+\d+)\s+23:59:(?:60\s+(\+)|59\s+-)", re.MULTILINE
)


def date_of(seconds):
    return time.strftime("%Y-%m-%d", time.gmtime(seconds))


def read_list(text):
    """Leap lines and expiry of a `leap-seconds.list`.

    A line is a moment of UTC and the correction from then on.
    """
    lines, expires = [], None
    for line in text.splitlines():
        words = line.split()
        if line.startswith("#@") and len(words) > 1:
            expires = int(words[1]) - NTP_TO_UNIX
        elif len(words) > 1 and words[0].isdigit() and int(words[1]) > 10:
            lines.append((int(words[0]) - NTP_TO_UNIX, int(words[1]) - 10))
    return lines, expires


def read_table(text):
    """Leap lines and expiry of a `leapseconds` table."""
    lines, correction = [], 0
    for found in LEAP.finditer(text):
        correction += 1 if found[2] else -1
        day = time.strptime(" ".join(found[1].split()), "%Y %b %d")
        lines.append((timegm(day) + 86_400, correction))
    found = re.search(r"^#expires (\d+)", text, re.MULTILINE)
    return lines, int(found[1]) if found else None


def encoded(lines):
    """A TZif file of UTC with these leap lines."""
    block = struct.pack(">iBB", 0, 0, 0) + b"UTC\0"
    before = 0
    for moment, correction in lines:
        block += struct.pack(">qi", moment + before, correction)
        before = correction

    def header(leaps, letters):
        return b"TZif2" + bytes(15) + struct.pack(">6I", 0, 0, leaps, 0, 1, letters)

    return header(0, 1) + bytes(7) + header(len(lines), 4) + block + b"\nUTC0\n"


def tables_of(tree):
    """Leap lines and expiry of each of the two tables that a tree has."""
    for name, read in (("leap-seconds.list", read_list), ("leapseconds", read_table)):
        path = tree / name
        if path.is_file():
            try:
                yield read(read_bytes(path).decode())
            except ValueError as error:
                raise Refused(f"{path}: no table of leap seconds: {error}") from error


def leap_table(tree):
    """The file of the leap table and when it expires, or None where the tree has no table."""
    tables = list(tables_of(tree))
    expires = next((expiry for _, expiry in tables if expiry is not None), None)
    if expires is None:
        return None
    for name in ("right/Etc/UTC", "right/UTC"):
        if (tree / name).is_file():
            return read_bytes(tree / name), expires
    lines = next((lines for lines, _ in tables if lines), None)
    if lines is None:
        raise Refused(f"{tree}: its leap second tables have no line: try --no-leap-seconds")
    return encoded(lines), expires


def warn_of_expiry(tree, expires):
    """Says on standard error that a table has expired, or will soon."""
    days = (expires - time.time()) / 86_400
    if days <= DAYS_OF_WARNING:
        fact = f"{'expired' if days <= 0 else 'expires'} on {date_of(expires)}"
        advice = "a newer tzdata has a later one"
        print(f"warning: {tree}: the leap second table {fact}: {advice}", file=sys.stderr)
