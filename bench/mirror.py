#!/usr/bin/env python3
"""Measures `tzdistd mirror` as it is built, with a primary on the loopback that serves a release.

    bench/mirror.py RELEASE_DIR [--program PATH] [--only PART,..] [--rounds N] [--syncs N]

The parts:

    first    a first sync, from the start of the process until it serves; one process in each round
    nothing  syncs that find nothing new
    one      syncs after an install at the primary that changes one zone
    all      the same, where the content of each zone changes

Each has a row of a table. It has the time of one sync by the clock, the processor time of the
mirror, and that of the primary. Last is the most memory that the mirror used until then. The time
by the clock is a median. The system reports the processor time of a process in hundredths of a
second, so it is that of all syncs, divided by their number. Only in the part first is it that of a
process from its start.

Every loop is bounded, and what is started ends with the script. It is run by hand on an idle
machine, and is no part of the gate.
"""

import json
import os
import shutil
import statistics
import sys
import tempfile
import time

sys.dont_write_bytecode = True
sys.path.insert(0, os.path.join(os.path.dirname(os.path.dirname(os.path.abspath(__file__))), "tools"))

from serve import parser_of, parts_of, processor, processor_seconds, status_of
from served import Failure, Mirror, Served, slim_zone

PARTS = ["first", "nothing", "one", "all"]


def changed(folder, at, how):
    """A copy of a release in a new folder, whose manifest is changed."""
    shutil.copytree(folder, at)
    path = os.path.join(at, "manifest.json")
    with open(path) as file:
        manifest = json.load(file)
    how(manifest["zones"], at)
    with open(path, "w") as file:
        json.dump(manifest, file)
    return at


def one_zone(zones, at):
    """Another file of the first zone."""
    zones[0]["file"] = "changed"
    with open(os.path.join(at, "changed"), "wb") as file:
        file.write(slim_zone(5))


def all_zones(zones, _):
    """One more alias of each zone."""
    for number, zone in enumerate(zones):
        zone["aliases"] = [*zone.get("aliases", []), f"Bench/Z{number}"]


def without_drops(zones, _):
    """The same aliases, each for the next zone: each content changes, and no name is dropped."""
    for number, zone in enumerate(zones):
        zone["aliases"] = [*zone.get("aliases", []), f"Bench/Z{(number + 1) % len(zones)}"]


class Bench:
    def __init__(self, words, room):
        self.folder, self.program, self.rounds, self.syncs = words.folder, words.program, words.rounds, words.syncs
        self.notes = []
        self.folders = {
            "one": [self.folder, changed(self.folder, f"{room}/one", one_zone)],
            "all": [changed(self.folder, f"{room}/all", all_zones), changed(self.folder, f"{room}/next", without_drops)],
        }
        with open(os.path.join(self.folder, "manifest.json")) as file:
            self.zones = len(json.load(file)["zones"])

    def primary(self, *folders):
        return Served(list(map(os.path.abspath, folders)), program=self.program)

    def row(self, what, walls, mirror, before, primary):
        count, now = len(walls), processor_seconds([mirror.pid])
        spent = [(now - before[0]) / count, (processor_seconds([primary.pid]) - before[1]) / count]
        print(f"| {what} | {statistics.median(walls) * 1e3:.1f} | {spent[0] * 1e3:.1f} | {spent[1] * 1e3:.1f} | "
              f"{status_of(mirror.pid, 'VmHWM')} |", flush=True)

    def first(self):
        walls, spent, peaks, resting = [], 0, [], []
        with self.primary(self.folder) as primary:
            before = processor_seconds([primary.pid])
            for _ in range(self.rounds):
                begin = time.monotonic()
                with Mirror(primary.address, program=self.program) as mirror:
                    walls.append(time.monotonic() - begin)
                    spent += processor_seconds([mirror.pid])
                    peaks.append(status_of(mirror.pid, "VmHWM"))
                    resting.append(status_of(mirror.pid, "VmRSS"))
                    mirror.quit()
            other = (processor_seconds([primary.pid]) - before) / self.rounds
        print(f"| first sync of {self.zones} zones | {statistics.median(walls) * 1e3:.1f} | {spent / self.rounds * 1e3:.1f} | "
              f"{other * 1e3:.1f} | {statistics.median(peaks):.0f} |", flush=True)
        self.notes.append(f"After its first sync a mirror rests with {statistics.median(resting):.0f} KiB.")

    def synced(self, what, folders, said, count):
        """So many syncs, each after an install of the next of the folders, if there are any."""
        begins = folders[:1] or [self.folder]
        with self.primary(*begins) as primary, Mirror(primary.address, program=self.program) as mirror:
            walls, before = [], (processor_seconds([mirror.pid]), processor_seconds([primary.pid]))
            for number in range(count):
                if folders:
                    primary.say(f"install {os.path.abspath(folders[(number + 1) % len(folders)])}")
                begin = time.monotonic()
                reply = mirror.say("sync", timeout=120)
                walls.append(time.monotonic() - begin)
                if not reply.startswith(said):
                    raise Failure(f"a sync was answered {reply!r}")
            self.row(what, walls, mirror, before, primary)
            mirror.quit()

    def nothing(self):
        self.synced("sync that finds nothing new", [], "unchanged", self.syncs)

    def one(self):
        self.synced("sync of one zone", self.folders["one"], "installed", self.syncs // 5)

    def all(self):
        self.synced(f"sync of {self.zones} zones", self.folders["all"], "installed", self.rounds)


def main():
    parser = parser_of(__doc__, PARTS)
    parser.add_argument("--rounds", type=int, default=9, help="of the parts first and all")
    parser.add_argument("--syncs", type=int, default=500, help="of the part nothing; of the part one a fifth")
    words = parser.parse_args()
    parts = parts_of(words, PARTS)
    words.program = os.path.abspath(words.program)
    try:
        with tempfile.TemporaryDirectory() as room:
            bench = Bench(words, room)
            print(f"{processor()}, {os.cpu_count()} processors, load {os.getloadavg()[0]:.1f}; {bench.zones} zones; "
                  f"{bench.rounds} rounds, {bench.syncs} syncs\n")
            print("| What | Milliseconds | Processor, mirror | Processor, primary | Peak memory, KiB |\n|---|---|---|---|---|")
            for part in parts:
                getattr(bench, part)()
            for note in bench.notes:
                print(f"\n{note}")
    except Failure as fault:
        sys.exit(f"bench/mirror.py: {fault}")


if __name__ == "__main__":
    main()
