#!/usr/bin/env python3
"""Prints what processor time `rt ci` takes, crate by crate: its library or program, its tests, its
edits and its runs.

    tools/gate_times.py rt ci           runs it, and prints the table when it has ended
    tools/gate_times.py --of PID        the same of one that runs already: of what is left of it
    tools/gate_times.py --to FILE ..    writes the table to FILE besides, every ten seconds, for a
                                        look before the end

`rt ci` says nothing of times, and what it keeps has none. So it is watched: once a second the
processes below it are read from /proc. The arguments of the prover show its crate and whether it
proves tests. The folder in which it runs, or that of what it begins with, shows whether it tries an
edit. A run is a program or the tests of a crate that `rt ci` starts. The last second of each
process may be lost. Beside the sums is how long each library took by the clock. At the end is the
longest chain of libraries by `crates.txt`, which no number of processors makes shorter.

Needs Linux and Python's standard library only.
"""

import argparse
import os
import subprocess
import sys
import time
from pathlib import Path

KINDS = ("library", "tests", "edits", "runs")
TICKS = os.sysconf("SC_CLK_TCK")


class Process:
    """A process: its parent, its words, its folder, and its seconds with its ended children's."""

    def __init__(self, folder):
        stat = (folder / "stat").read_text(errors="replace")
        fields = stat[stat.rindex(")") + 2 :].split()
        self.pid, self.parent, self.began = int(folder.name), int(fields[1]), int(fields[19])
        self.seconds = sum(int(it) for it in fields[11:15]) / TICKS
        self.words = (folder / "cmdline").read_text(errors="replace").split("\0")[:-1]
        self.folder = os.readlink(folder / "cwd")

    def name(self):
        return os.path.basename(self.words[0]) if self.words else ""


def processes(proc):
    """The processes of a folder like /proc, by their number."""
    found = {}
    for folder in proc.iterdir():
        if folder.name.isdigit():
            try:
                found[int(folder.name)] = Process(folder)
            except (OSError, ValueError, IndexError):
                pass
    return found


def work_of(process):
    """The crate that a process works on and the kind of its work, or None."""
    words = process.words
    if process.name() == "rattle" and "--crate-name" in words[:-1]:
        crate = words[words.index("--crate-name") + 1]
        if "/rt-edit" in process.folder or any("/rt-edits-" in it for it in words):
            return crate, "edits"
        return crate, "tests" if "--test" in words else "library"
    if words and "/rt-run-" in words[0]:
        return process.name().removesuffix("_tests"), "runs"
    return None


def is_below(found, pid, top):
    while pid in found and pid != top:
        pid = found[pid].parent
    return pid == top


def works(found, top):
    """The works below a process: each with its crate, its kind, and its seconds with those of all
    below it."""
    told, seconds = {}, {}
    for pid, process in found.items():
        at = pid
        while at in found:
            seconds[at] = seconds.get(at, 0) + process.seconds
            at = found[at].parent
    for pid, process in found.items():
        work, above = work_of(process), found.get(process.parent)
        if work and is_below(found, pid, top) and not (above and work_of(above)):
            told[pid, process.began] = (*work, seconds[pid])
    return told


class Watch:
    """What was seen of the works: the most seconds of each, and when it was seen first and last."""

    def __init__(self):
        self.seen = {}

    def take(self, told, now):
        for key, (crate, kind, seconds) in told.items():
            first, most = self.seen[key][2:4] if key in self.seen else (now, 0)
            self.seen[key] = (crate, kind, first, max(most, seconds), now)

    def sums(self):
        """The seconds of each crate by kind, and how long its library took by the clock."""
        sums, clock = {}, {}
        for crate, kind, first, seconds, last in self.seen.values():
            row = sums.setdefault(crate, dict.fromkeys(KINDS, 0))
            row[kind] += seconds
            if kind == "library":
                begun, ended = clock.get(crate, (first, last))
                clock[crate] = (min(begun, first), max(ended, last))
        return sums, {crate: last - first for crate, (first, last) in clock.items()}


def crates_in(text):
    """The crates of a crates.txt, each with those that it uses."""
    lines = [line.split("#")[0].partition(":") for line in text.splitlines()]
    crates = {name.split()[0]: used.split() for name, _, used in lines if name.strip()}
    return {name: [it for it in used if it in crates] for name, used in crates.items()}


def longest(crates, clock):
    """The longest chain of libraries by the clock, lowest first."""
    chains = {}

    def chain(name):
        if name not in chains:
            below = max((chain(it) for it in crates[name]), default=(0, []))
            chains[name] = (below[0] + clock.get(name, 0), [*below[1], name])
        return chains[name]

    return max((chain(name) for name in crates), default=(0, []))


def table(watch, crates):
    sums, clock = watch.sums()
    lines = [f"{'crate':20}{'library':>9}{'tests':>9}{'edits':>9}{'runs':>9}{'all':>9}{'by the clock':>14}"]
    for crate, row in sorted(sums.items(), key=lambda it: -sum(it[1].values())):
        numbers = [*(row[kind] for kind in KINDS), sum(row.values())]
        lines.append(f"{crate:20}" + "".join(f"{it:9.0f}" for it in numbers) + f"{clock.get(crate, 0):14.0f}")
    whole = [sum(row[kind] for row in sums.values()) for kind in KINDS]
    lines.append(f"{'minutes':20}" + "".join(f"{it / 60:9.1f}" for it in [*whole, sum(whole)]))
    seconds, names = longest(crates, clock)
    if names:
        lines.append(f"longest chain of libraries: {seconds / 60:.1f} minutes: {' '.join(names)}")
    return "\n".join(lines) + "\n"


def watched(top, is_over, crates, to):
    """Watches what is below a process until it is over, and returns the table."""
    watch, written = Watch(), 0
    while not is_over():
        now = time.monotonic()
        watch.take(works(processes(Path("/proc")), top), now)
        if to and now - written >= 10:
            Path(to).write_text(table(watch, crates))
            written = now
        time.sleep(1)
    text = table(watch, crates)
    if to:
        Path(to).write_text(text)
    return text


def main():
    flags = argparse.ArgumentParser(
        description="What processor time rt ci takes, crate by crate.",
        epilog="example: tools/gate_times.py --to times.txt rt ci",
    )
    flags.add_argument("--of", type=int, metavar="PID", help="the number of an rt ci that runs")
    flags.add_argument("--to", metavar="FILE", help="writes the table to this file as it goes")
    flags.add_argument("command", nargs=argparse.REMAINDER, help="what is run, as rt ci")
    given = flags.parse_args()
    if (given.of is None) == (not given.command):
        flags.error("give a command, or --of and a number")
    listed = Path("crates.txt")
    crates = crates_in(listed.read_text()) if listed.is_file() else {}
    if given.of is not None:
        print(watched(given.of, lambda: not Path(f"/proc/{given.of}").exists(), crates, given.to), end="")
        return 0
    run = subprocess.Popen(given.command)
    print(watched(run.pid, lambda: run.poll() is not None, crates, given.to), end="")
    return run.returncode


if __name__ == "__main__":
    sys.exit(main())
