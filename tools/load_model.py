#!/usr/bin/env python3
"""Computes, by itself, what the made load is: its releases, its requests and its counts.

It is written only from docs/FORMATS.md and the standards (RFC 9636, RFC 9112) and shares nothing
with the crates.

    load_model.py < crates/release_cases/stdin     compares the rows that it knows
    load_model.py NUMBER                           prints the line of a load of so many releases
"""
import hashlib
import re
import struct
import sys
import urllib.parse

ZONES = 50
BEGIN = 1577836800
DAY = 86400
KEPT_TOKENS = 512
YEAR = "?start=2020-01-01T00:00:00Z&end=2021-01-01T00:00:00Z"


def tzid(zone):
    return "Load/Z%02d" % zone


def hour(release, zone):
    moved = sum(1 for r in range(2, release + 1) if r % ZONES == zone)
    return (zone + moved) % 24


def header(types, designations):
    return b"TZif2" + bytes(15) + struct.pack(">6L", 0, 0, 0, 0, types, designations)


def tzif(hours):
    name = b"+%02d" % hours
    block = struct.pack(">lBB", 3600 * hours, 0, 0) + name + b"\0"
    footer = b"\n<" + name + b">-%d\n" % hours
    return header(1, 1) + bytes(7) + header(1, 4) + block + footer


def sized(text):
    return struct.pack(">L", len(text)) + text


def stamp(release):
    days = release - 1
    year_days = [31, 29, 31, 30, 31, 30, 31, 31, 30, 31, 30, 31]
    year, month, day = 2020, 0, days + 1
    while day >= sum(year_days):
        day -= sum(year_days)
        year += 1
        year_days[1] = 29 if year % 4 == 0 else 28
    while day >= year_days[month]:
        day -= year_days[month]
        month += 1
    return "%04d-%02d-%02dT00:00:00Z" % (year, month + 1, day + 1)


def digest(release, zone):
    content = sized(tzid(zone).encode()) + struct.pack(">L", 0) + sized(tzif(hour(release, zone)))
    return hashlib.sha256(content).digest()


def tokens(number):
    value = bytes(32)
    for r in range(1, number + 1):
        text = value + sized(stamp(r).encode()) + sized(b"Load") + sized(b"%d" % r) + sized(b"") + sized(b"")
        text += struct.pack(">L", ZONES) + b"".join(digest(r, z) for z in range(ZONES))
        value = hashlib.sha256(text).digest()
        yield "%d-%s" % (r, value.hex()[:16])


def token(place):
    return list(tokens(place))[-1]


def places_of(number, texts):
    """Only the tokens of the last places are known."""
    known = {text: place for place, text in enumerate(tokens(number), 1) if number - place < KEPT_TOKENS}
    return "[%s]" % ", ".join("Some(%d)" % known[text] if text in known else "None" for text in texts)


def request(target, *lines):
    return "".join(line + "\r\n" for line in ["GET %s HTTP/1.1" % target, "Host: x", *lines, ""])


def requests(release):
    zone = release % ZONES
    since = urllib.parse.quote(token(max(1, release - 1)), safe="")
    path = "/tzdist/zones/" + urllib.parse.quote(tzid(zone), safe="")
    accept = "Accept: application/tzif"
    tag = 'If-None-Match: "%s.t"' % digest(release, zone).hex()[:32]
    return (request("/tzdist/zones") + request("/tzdist/zones?changedsince=" + since) + request(path, accept)
            + request(path + "/observances" + YEAR) + request(path, accept, tag))


def counts(number):
    """By what changes from release to release: the hour of one zone."""
    entries = 0
    for release in range(1, number + 1):
        before = max(1, release - 1)
        changed = sum(1 for z in range(ZONES) if hour(release, z) != hour(before, z))
        entries += ZONES + changed
    return number, 5 * number, 4 * number, number, entries


def summary(releases, asked, fine, unchanged, entries):
    return "load %d: %d releases, %d requests, %d ok, %d unchanged, %d entries\n" % (
        releases, releases, asked, fine, unchanged, entries)


def manifest(release):
    zones = "".join("|%s:%s" % (tzid(z), tzid(z)) for z in range(ZONES))
    return "Load %d %d%s" % (release, BEGIN + DAY * release, zones)


def file_of(release, path):
    named = re.fullmatch(r"Load/Z(\d\d)", path)
    return tzif(hour(release, int(named[1]))).hex() if named and int(named[1]) < ZONES else "absent"


def quoted(text):
    return text.replace("\\", "\\\\").replace("\r", "\\r").replace("\n", "\\n").replace("$", "\\$").replace(" ", "\\x20")


def answer(kind, words):
    if kind == "load-manifest":
        return manifest(int(words[1]))
    if kind == "load-file":
        return file_of(int(words[1]), words[2])
    if kind == "load-requests":
        return requests(int(words[0]))
    if kind == "load-place-of":
        return places_of(int(words[0]), words[1:])
    if kind == "load-summary":
        return summary(*map(int, words))
    return None


def main():
    if len(sys.argv) == 2:
        sys.stdout.write(summary(*counts(int(sys.argv[1]))))
        return 0
    known = wrong = 0
    for line in sys.stdin:
        row, _, expected = line.rstrip("\n").partition(" = ")
        kind, *words = row.split(" ")
        told = answer(kind, words) if kind.startswith("load-") else None
        if told is None:
            continue
        known += 1
        if quoted(told) != expected.replace(" ", "\\x20"):
            wrong += 1
            print("%s: %s" % (row, quoted(told)))
    print("%d rows, %d as the model says" % (known, known - wrong))
    return 1 if wrong else 0


if __name__ == "__main__":
    sys.exit(main())
