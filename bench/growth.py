#!/usr/bin/env python3
"""Measures how the costs of tzdistd grow with the work.

    bench/growth.py RELEASE_DIR [--program PATH] [--only AXIS,..] [--seconds N] [--json FILE]

    example: bench/growth.py release --only zones,workers --seconds 1

Each axis changes one thing and leaves the others as they are:

    zones        100, 447, 1,000 and 4,096 zones, whose files are those of the release in turn
    names        447 zones with 447 to 16,384 names
    bytes        447 zones with made files of 512 to 65,536 bytes
    releases     1 to 512 releases in the history, each of which changes one zone
    connections  1 to 10,000 connections that send requests without a pause
    workers      1 to 4 workers, over 64 connections

Each point has the processor microseconds of a full list, of a change list of one zone, and of a
TZif file. It has the milliseconds of an install and of a mirror's sync, each of one changed zone.
It also has the resident memory of the server at its end. Requests come from wrk where it is
installed, and otherwise from processes of this script. The release needs two zones at least. Every
loop is bounded, and what is started ends with the script. It is run by hand on an idle machine, and
is no part of the gate.
"""

import argparse
import json
import math
import os
import resource
import shutil
import sys
import tempfile
import time

sys.dont_write_bytecode = True
ROOT = os.path.dirname(os.path.dirname(os.path.abspath(__file__)))
sys.path.insert(0, os.path.join(ROOT, "tools"))

from measured import PROCESSORS, SERVING, Repeated, change_list, driven, manifest_of, say, started, token_of
from serve import Asked, largest_zone, put_file, status_of
from served import PROGRAM, Failure, Mirror, Served, slim_zone

AXES = {
    "zones": (100, 447, 1000, 4096),
    "names": (447, 1000, 4000, 16384),
    "bytes": (512, 4096, 16384, 65536),
    "releases": (1, 8, 64, 512),
    "connections": (1, 10, 100, 1000, 10000),
    "workers": (1, 2, 3, 4),
}
COSTS = {
    "list": "full list, us", "changes": "change list, us", "get": "TZif file, us", "install": "install, ms",
    "sync": "sync, ms", "memory": "memory, MiB",
}
USUAL = {"zones": 447, "connections": 16, "workers": 2, "releases": 1}


def sized_zone(size):
    """A TZif file of so many bytes, about half of which are transitions."""
    return largest_zone(size, min(4096, max(2, size // 32 * 2)))


def release_of(folder, zones, names, files):
    """A release of so many zones and names, whose files are these in turn."""
    os.makedirs(folder)
    listed = []
    for zone in range(zones):
        aliases = [f"Alias/{name}" for name in range(zone, names - zones, zones)]
        listed.append({"tzid": f"Made/{zone}", "file": f"zone-{zone}", "aliases": aliases})
        put_file(os.path.join(folder, f"zone-{zone}"), files[zone % len(files)])
    manifest = {"publisher": "Made", "version": "1", "stamp": "2025-01-01T00:00:00Z", "zones": listed}
    put_file(os.path.join(folder, "manifest.json"), json.dumps(manifest).encode())
    return folder


def with_one_changed(folder):
    """A copy of a release in which the last zone has another file."""
    later = f"{folder}-later"
    shutil.copytree(folder, later)
    put_file(os.path.join(later, manifest_of(folder)["zones"][-1]["file"]), slim_zone(7))
    return later


def exponent(first, last):
    """The power of the work with which a cost grows between two points (work, cost)."""
    if min(*first, *last) <= 0 or first[0] == last[0]:
        return None
    return math.log(last[1] / first[1]) / math.log(last[0] / first[0])


def bends(rows, cost, more=1.15):
    """Whether a cost grows faster than the work at the last step of an axis, beyond the error of a
    measurement."""
    points = [(row["value"], row[cost]) for row in rows if row.get(cost)]
    if len(points) < 2:
        return False
    power = exponent(points[-2], points[-1])
    return power is not None and power > more


class Growth:
    """The measurements of one run, in a folder for what is made."""

    def __init__(self, folder, program, wrk, seconds, room, most=20, usual=None):
        self.program, self.wrk, self.seconds, self.room, self.most = program, wrk, seconds, room, most
        self.usual = usual or USUAL
        self.files = []
        for zone in manifest_of(folder)["zones"]:
            with open(os.path.join(folder, zone["file"]), "rb") as file:
                self.files.append(file.read())

    def made(self, axis, value):
        """The folder of a release for a point of an axis, and one in which a zone differs."""
        zones = value if axis == "zones" else self.usual["zones"]
        names = value if axis == "names" else zones
        files = [sized_zone(value)] if axis == "bytes" else self.files
        folder = os.path.join(self.room, f"{axis}-{value}")
        release_of(folder, zones, max(zones, names), files)
        return folder, with_one_changed(folder)

    def point(self, axis, value):
        """The costs at one point of an axis."""
        folders = self.made(axis, value)
        set_to = {**self.usual, **({"connections": 64} if axis == "workers" else {}), axis: value}
        try:
            # only on the axis of workers the server, too, may use all processors
            with started(lambda: Served([folders[0]], set_to["workers"], program=self.program, within=300),
                         PROCESSORS if axis == "workers" else SERVING) as server:
                row = self.costs(server, folders, set_to)
                server.quit(60)
            return {"axis": axis, "value": value, **row}
        finally:
            for folder in folders:
                shutil.rmtree(folder)

    def costs(self, server, folders, set_to):
        token, turn = token_of(server), 0

        def install(_):
            nonlocal turn
            turn += 1
            say(server, f"install {folders[turn % 2]}", "installed ")

        for _ in range(max(1, set_to["releases"] - 1)):
            install(0)
        zone = Asked("get", "/tzdist/zones/Made%2F1", ["Accept: application/tzif"])
        asked = {"list": Asked("list", "/tzdist/zones"), "changes": change_list(token), "get": zone}
        row = {}
        # so many connections need a while to open
        seconds = max(self.seconds, 3) if set_to["connections"] >= 1000 else self.seconds
        for name, one in asked.items():
            seen = driven(self.wrk, server.port, [server.pid], one, set_to["connections"], seconds)
            row[name] = seen["micros"]
            row[f"{name}_rate"], row[f"{name}_p99"] = seen["rate"], seen["p99"]
            row[f"{name}_faults"] = seen["faults"]
        installed = Repeated(install, [server.pid], self.most, self.seconds)
        row["install"], row["install_cost"] = round(installed.middle, 3), round(installed.costs[0], 3)
        row["sync"], row["sync_cost"] = self.sync(server, install)
        row["memory"] = round(status_of(server.pid, "VmRSS") / 1024, 2)
        return row

    def mirror(self, server):
        """A mirror. At its first sync the server may still be busy with earlier requests."""
        for wait in (1, 5, None):
            try:
                return started(lambda: Mirror(server.address, workers=1, program=self.program, within=300))
            except Failure:
                if wait is None:
                    raise
                time.sleep(wait)

    def sync(self, server, install):
        """Milliseconds of a mirror's sync of one changed zone, and of its processor time."""
        walls, costs = [], []
        with self.mirror(server) as mirror:
            for _ in range(max(2, self.most // 4)):
                install(0)
                done = Repeated(lambda _: say(mirror, "sync", "installed "), [mirror.pid], 1, 0)
                walls.append(done.middle)
                costs.append(done.costs[0])
                if sum(walls) > 1e3 * self.seconds:
                    break
            mirror.quit(60)
        return round(sorted(walls)[len(walls) // 2], 3), round(sum(costs) / len(costs), 3)

    def run(self, axes, done=lambda row: None, is_late=lambda: False):
        """The rows of all points, or of those that were measured while there was time. The row of a
        point that failed says why."""
        rows = []
        for axis, values in axes.items():
            for value in values:
                if is_late():
                    return rows
                try:
                    rows.append(self.point(axis, value))
                except Failure as fault:
                    rows.append({"axis": axis, "value": value, "failed": str(fault)})
                done(rows[-1])
        return rows


def table(rows):
    """The table of growth, as lines of Markdown."""
    lines = ["| Axis | | " + " | ".join(COSTS.values()) + " |", "|---|" + "---:|" * (len(COSTS) + 1)]
    for row in rows:
        cells = [f"{row[cost]:,.1f}" if row.get(cost) is not None else "-" for cost in COSTS]
        lines.append(f"| {row['axis']} | {row['value']:,} | {' | '.join(cells)} |")
    return lines


def parser():
    flags = argparse.ArgumentParser(
        description=__doc__.split("\n")[0], epilog="example: bench/growth.py release --only zones,workers --seconds 1"
    )
    flags.add_argument("folder", metavar="RELEASE_DIR", help="as tools/pack_zoneinfo.py makes it")
    flags.add_argument("--program", default=PROGRAM, help=f"the tzdistd to measure (default: {PROGRAM})")
    flags.add_argument("--only", default=",".join(AXES), help=f"axes of {','.join(AXES)}")
    flags.add_argument("--seconds", type=int, default=2, help="of each drive")
    flags.add_argument("--json", metavar="FILE", help="where to write the figures, too")
    return flags


def checked(flags, given=None):
    """The arguments, after a check that they can be used."""
    words = flags.parse_args(given)
    unknown = [it for it in words.only.split(",") if it not in AXES]
    if unknown:
        flags.error(f"no axis {', '.join(unknown)}: choose of {', '.join(AXES)}")
    if not os.path.isfile(os.path.join(words.folder, "manifest.json")):
        flags.error(f"{words.folder} is no release: make one by tools/pack_zoneinfo.py /usr/share/zoneinfo {words.folder}")
    if not os.access(words.program, os.X_OK):
        flags.error(f"{words.program} is not built: README.md says how, or name another by --program")
    return words


def main():
    words = checked(parser())
    hard = resource.getrlimit(resource.RLIMIT_NOFILE)[1]
    resource.setrlimit(resource.RLIMIT_NOFILE, (hard, hard))
    try:
        with tempfile.TemporaryDirectory() as room:
            growth = Growth(words.folder, os.path.abspath(words.program), shutil.which("wrk"), words.seconds, room)
            head = table([])
            print("\n".join(head), flush=True)
            axes = {it: AXES[it] for it in words.only.split(",")}
            rows = growth.run(axes, lambda row: print(table([row])[-1], flush=True))
    except Failure as fault:
        sys.exit(f"bench/growth.py: {fault}")
    if words.json:
        with open(words.json, "w") as out:
            json.dump(rows, out, indent=1)


if __name__ == "__main__":
    main()
