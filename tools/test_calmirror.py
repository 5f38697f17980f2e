#!/usr/bin/env python3
"""Tests the built `tzdistd calmirror` over the loopback, with servers of real zones.

    tools/test_calmirror.py [PROGRAM]

What it prints for each zone is compared with what the server itself answers for the same range. It
needs Python's standard library only, and does not test the zones of a system that has no text of
them. The status is 0 where all is well, and 1 where a check failed. What follows from bad calendars
is tested by test_mirror.py.
"""

import json
import os
import sys
import tempfile
from urllib.parse import quote

sys.dont_write_bytecode = True

from checks import LONG, ZONES, holds, ran, run_checks, same
from served import Client, Served, address_of
from test_mirror import zones_at

HERE = os.path.dirname(os.path.abspath(__file__))
TREE = "/usr/share/zoneinfo"
# Seconds after which the whole run is given up.
WHOLE = 900
# Seconds that a run over all zones may take on a busy machine.
ALL_ZONES = 300

NEW_YORK = """zone America/New_York
2025-01-01T00:00:00Z -18000 -18000 std EST
2025-03-09T07:00:00Z -18000 -14400 dst EDT
2025-11-02T06:00:00Z -14400 -18000 std EST
zone Etc/UTC
2025-01-01T00:00:00Z 0 0 std UTC
"""

def printed(program, port, start, end):
    """What a successful run prints, and its rows of each zone, by the zone's name, in order."""
    status, output, errors = ran(program, "calmirror", address_of(port), start, end, timeout=ALL_ZONES)
    same("status and standard error", (status, errors), (0, b""))
    zones = {}
    for line in output.decode().splitlines():
        first, rest = line.split(" ", 1)
        if first == "zone":
            zones[rest] = rows = []
        else:
            rows.append((first, *rest.split(" ", 3)))
    return output, zones


def expanded(client, tzid, start, end):
    """The same rows, without the kind of time, as the server itself returns them."""
    target = f"{ZONES}/{quote(tzid, safe='')}/observances?start={start}&end={end}"
    told = json.loads(client.ask(target, timeout=LONG).body)["observances"]
    return [(o["onset"], str(o["utc-offset-from"]), str(o["utc-offset-to"]), o["name"] or "-") for o in told]


def compare(program, server, start, end):
    """Fails where a run does not print what the server answers for each of its zones."""
    zones = printed(program, server.port, start, end)[1]
    same("the zones", list(zones), sorted(zones_at(server.port)))
    rows = 0
    with Client(server.port) as client:
        for tzid, seen in zones.items():
            wanted = expanded(client, tzid, start, end)
            same(f"{tzid} from {start} to {end}", [(a, b, c, name) for a, b, c, _, name in seen], wanted)
            rows += len(wanted)
    return rows


# ---- checks


def small_releases(program):
    """The zones of a small release, before and after an install, in ranges at both ends of time."""
    with Served(["data/a"], program=program) as server:
        compare(program, server, "2025-01-01T00:00:00Z", "2026-01-01T00:00:00Z")
        server.say("install data/b")
        output, _ = printed(program, server.port, "2025-01-01T00:00:00Z", "2026-01-01T00:00:00Z")
        same("the lines", output.decode(), NEW_YORK)
        for start, end in (("1800-01-01T00:00:00Z", "1800-01-01T00:00:01Z"), ("9998-01-01T00:00:00Z", "9999-01-01T00:00:00Z")):
            compare(program, server, start, end)


def all_zones(program):
    """The zones of this system, where it has them as text, in ranges before, about and after their
    transitions."""
    if not os.path.exists(f"{TREE}/tzdata.zi"):
        return
    with tempfile.TemporaryDirectory() as room:
        folder = os.path.join(room, "release")
        packer = os.path.join(HERE, "pack_zoneinfo.py")
        status, _, errors = ran(sys.executable, packer, TREE, folder, timeout=ALL_ZONES)
        same(f"the packer: {errors.decode()}", status, 0)
        with Served([folder], program=program) as server:
            rows = compare(program, server, "1800-01-01T00:00:00Z", "2060-01-01T00:00:00Z")
            rows += compare(program, server, "2399-01-01T00:00:00Z", "2402-01-01T00:00:00Z")
            holds(f"only {rows} observances", rows > 20_000)


def main():
    return run_checks("calmirror", [all_zones, small_releases], WHOLE, 2)


if __name__ == "__main__":
    sys.exit(main())
