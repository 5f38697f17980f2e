#!/usr/bin/env python3
"""Measures tzdistd in all parts, and makes docs/PERFORMANCE.md with its plots from the figures.

    bench/report.py RELEASE_DIR [--quick | --smoke] [--program PATH] [--earlier PATH]
                    [--only PART,..] [--minutes N] [--note TEXT] [--out DIR]
    bench/report.py --from JSON [--out DIR]

    example: bench/report.py --quick release

The figures are one file, performance.json, with a description of the machine and the commit. The
page and its plots are made only from it, so `--from docs/performance.json` makes them again without
measuring. Without a flag all parts take an hour at most, and with --quick a quarter of an hour.
With --smoke they take a minute or two, over a release of few zones, and the figures mean nothing.
With --only the other parts keep the figures of the file that is there. --earlier names a program of
an earlier commit: changes and expansion are measured of that program too, right after this one.
Times of two machines cannot be compared, but the two ratios can. The parts:

    requests   each request with 1, 2, 16 and 64 connections, with nginx and the program of limit.c
    changes    installs and syncs that change nothing, one zone and all zones
    largest    a release of 4,096 zones of 65,536 bytes, installed again with one changed
    expansion  the longest expansions, by HEAD and by GET
    calls      the system calls of an exchange, with those of the limit, where there is strace
    attacks    what good clients see during floods and costly requests
    fleet      what devices cost, and some thousands of them over the loopback: bench/fleet.py
    waits      waiting times while releases are installed in a loop
    growth     costs as the work grows: bench/growth.py

It needs Linux, and uses wrk, nginx, openssl and a C compiler: on Debian
`apt-get install wrk nginx openssl gcc strace`. The servers run on one half of the processors, and
the clients on the other. It is run by hand on an idle machine, and is no part of the gate. BBR
paces what it sends, and now and then sends little for 200 ms, also over the loopback. So measure
with TCP's other congestion control, by `sysctl net.ipv4.tcp_congestion_control=cubic`.
"""

import argparse
import datetime
import hashlib
import json
import os
import platform
import resource
import shutil
import subprocess
import sys
import tempfile
import time

sys.dont_write_bytecode = True
TOP = os.path.dirname(os.path.dirname(os.path.abspath(__file__)))
sys.path[:0] = [os.path.join(TOP, "tools"), os.path.join(TOP, "deploy")]

import page
from served import PROGRAM, Failure

# Growth comes last, since it can end between two of its points if time is short.
PARTS = ["requests", "changes", "largest", "expansion", "calls", "attacks", "fleet", "waits", "growth"]
# Those that are measured of an earlier program, too.
COMPARED = ["changes", "expansion"]
FULL = {"seconds": 3, "rounds": 5, "connections": [1, 2, 16, 64], "attack_seconds": 10, "largest": [4096, 65536],
        "growth": None, "growth_seconds": 2, "growth_most": 40, "devices": 5000, "period": 60, "changed": 5,
        "costly_until": "9999", "costly_floods": True}
QUICK = {**FULL, "seconds": 1, "rounds": 3, "attack_seconds": 5, "growth_seconds": 1, "growth_most": 20, "devices": 1500,
         "period": 16}
SMOKE = {**QUICK, "rounds": 1, "connections": [2, 16], "attack_seconds": 1, "largest": [16, 4096], "growth_most": 2, "devices": 100,
         "period": 8, "growth": {"zones": [4, 8], "bytes": [512, 4096], "releases": [1, 4], "connections": [1, 20], "workers": [1, 2]},
         "costly_until": "1905", "costly_floods": False}
MINUTES = {"full": 55, "quick": 13.5, "smoke": 10}
NEEDED = {"wrk": "wrk", "nginx": "nginx", "openssl": "openssl", "cc": "gcc"}


def said(*words):
    """What a command prints, on one line, or an empty text if there is no such command."""
    try:
        done = subprocess.run(words, capture_output=True, text=True, timeout=20, cwd=TOP)
    except OSError:
        return ""
    return (done.stdout + done.stderr).strip().split("\n")[0]


def commit_of(program):
    """The commit of the clone in which a program was built."""
    return said("git", "-C", os.path.dirname(program), "rev-parse", "--short=12", "HEAD")


def congestion_control():
    """The system's congestion control of TCP, or an empty text."""
    try:
        with open("/proc/sys/net/ipv4/tcp_congestion_control") as file:
            return file.read().strip()
    except OSError:
        return ""


def described(program):
    """The machine, the tools, the commit and the program."""
    from measured import ASKING, SERVING
    from serve import processor

    with open(program, "rb") as file:
        digest = hashlib.sha256(file.read()).hexdigest()
    memory = os.sysconf("SC_PAGE_SIZE") * os.sysconf("SC_PHYS_PAGES")
    return {
        "processor": processor(), "processors": os.cpu_count(), "serving": len(SERVING), "asking": len(ASKING),
        "apart": SERVING != ASKING, "memory_mib": memory >> 20, "system": f"{platform.system()} {platform.release()}",
        "congestion": congestion_control(),
        "python": platform.python_version(), "nginx": said("nginx", "-v"), "wrk": said("wrk", "-v")[:40], "compiler": said("cc", "--version"),
        "load_before": round(os.getloadavg()[0], 2), "date": datetime.datetime.now(datetime.timezone.utc).strftime("%Y-%m-%d"),
        "commit": said("git", "rev-parse", "--short=12", "HEAD"), "is_changed": bool(said("git", "status", "--porcelain", "-uno")),
        "program_sha256": digest,
    }


class Run:
    """The parts of one run, each of which begins only while there is time."""

    def __init__(self, words, settings, minutes, room):
        import parts

        self.words, self.settings, self.room = words, settings, room
        self.begin, self.end = time.monotonic(), time.monotonic() + 60 * minutes
        self.measured = parts.Measured(words.folder, words.program, room, settings)
        self.earlier = parts.Measured(words.folder, words.earlier, room, settings) if words.earlier else None

    def is_late(self):
        return time.monotonic() > self.end

    def part(self, name):
        """The figures of a part, by their names in the file."""
        if name == "growth":
            return {"growth": self.growth()}
        if name == "fleet":
            return {"fleet": self.fleet()}
        if name == "waits":
            return {"waits": self.measured.installs_with_requests()}
        return {name: getattr(self.measured, name)()}

    def compare(self, name, figures):
        """Measures a part of the earlier program, too. The figures of it from another run are
        dropped, and so are those of another commit."""
        if name not in COMPARED:
            return
        known = figures.pop("earlier", {})
        known.pop(name, None)
        if self.earlier:
            self.tell(f"{name}, of the earlier program")
            commit = commit_of(self.words.earlier)
            known = known if known.get("commit") == commit else {"commit": commit}
            known[name] = getattr(self.earlier, name)()
        if len(known) > 1:
            figures["earlier"] = known

    def growth(self):
        import growth

        usual = {**growth.USUAL, "zones": 6} if self.words.smoke else growth.USUAL
        measured = growth.Growth(self.words.folder, self.words.program, shutil.which("wrk"), self.settings["growth_seconds"],
                                 self.room, self.settings["growth_most"], usual)
        axes = self.settings["growth"] or growth.AXES
        rows = measured.run(axes, lambda row: self.tell(f"growth: {row['axis']} {row['value']:,}"), self.is_late)
        for row in rows:
            if "failed" in row:
                self.tell(f"growth: {row['axis']} {row['value']:,} failed: {row['failed']}")
        if len(rows) < sum(map(len, axes.values())):
            self.tell("growth: there was no time for the other points")
        return rows

    def fleet(self):
        import fleet
        import fleet_trial

        flags = ["--trial", self.words.folder, "--program", self.words.program, "--period", str(self.settings["period"]),
                 "--clients", str(self.settings["devices"]), "--changed", str(self.settings["changed"])]
        return fleet_trial.measured(fleet.checked(fleet.parser(), flags), self.settings["seconds"])

    def tell(self, text):
        print(f"{time.monotonic() - self.begin:6.0f} s  {text}", flush=True)


def measure(words, kind, figures, keep):
    """Measures the parts one after another, and keeps the figures after each."""
    from measured import ASKING

    settings = {"full": FULL, "quick": QUICK, "smoke": SMOKE}[kind]
    hard = resource.getrlimit(resource.RLIMIT_NOFILE)[1]
    resource.setrlimit(resource.RLIMIT_NOFILE, (hard, hard))
    if hard != resource.RLIM_INFINITY and hard < 10_700:
        sys.exit(f"bench/report.py: the system allows {hard} open files, and 10,700 are needed: raise `ulimit -Hn`")
    machine, is_again = described(words.program), "run" in figures
    os.sched_setaffinity(0, ASKING)
    skipped, failed = [], []
    with tempfile.TemporaryDirectory() as room:
        os.chmod(room, 0o755)
        run = Run(words, settings, words.minutes or MINUTES[kind], room)
        if is_again:
            again = {"parts": words.only.split(","), "kind": kind, **{it: machine[it] for it in ("date", "commit", "load_before")}}
            figures.setdefault("again", []).append(again)
        else:
            figures["machine"], figures["run"] = machine, {"kind": kind, "note": words.note, **settings}
            figures["release"] = {"zones": run.measured.zones, "zone": run.measured.zone, "bytes": file_bytes(words.folder)}
        for name in words.only.split(","):
            if run.is_late():
                skipped.append(name)
                continue
            run.tell(name)
            try:
                figures.update(run.part(name))
                run.compare(name, figures)
            except (Failure, OSError, subprocess.SubprocessError) as fault:
                run.tell(f"{name} failed: {fault}")
                failed.append(name)
            keep(figures)
        run.tell("done")
    for what, names in (("skipped", skipped), ("failed", failed)):
        before = [it for it in figures["run"].get(what, []) if it not in words.only.split(",")]
        figures["run"][what] = before + names
    keep(figures)
    if skipped:
        print(f"There was no time for {', '.join(skipped)}: measure them by --only {','.join(skipped)}, or give more --minutes.")
    if failed:
        print(f"{', '.join(failed)} failed, as said above: mend that, and measure again by --only {','.join(failed)}.")
    return 1 if failed else 0


def file_bytes(folder):
    import parts

    return parts.file_bytes(folder)


def write_pages(figures, out):
    """The page and its plots, in a folder."""
    for name, text in page.files(figures).items():
        with open(os.path.join(out, name), "w", encoding="utf-8") as file:
            file.write(text)


def parser():
    flags = argparse.ArgumentParser(
        description=__doc__.split("\n")[0],
        epilog="Measure with TCP's congestion control cubic, since bbr delays long replies: "
        "sysctl net.ipv4.tcp_congestion_control=cubic. example: bench/report.py --quick release",
    )
    flags.add_argument("folder", metavar="RELEASE_DIR", nargs="?", help="as tools/pack_zoneinfo.py makes it")
    flags.add_argument("--quick", action="store_true", help="a quarter of an hour")
    flags.add_argument("--smoke", action="store_true", help="a minute or two, over few zones: only whether the parts run")
    flags.add_argument("--program", default=PROGRAM, help="the tzdistd to measure (default: the one that is built here)")
    flags.add_argument("--earlier", metavar="PATH", help="a tzdistd in a clone of an earlier commit, to compare installs, syncs and expansions")
    flags.add_argument("--only", default=",".join(PARTS), help=f"parts of {','.join(PARTS)}")
    flags.add_argument("--minutes", type=float, help="after which no part begins (default: 55, 13.5 with --quick)")
    flags.add_argument("--note", default="", help="a sentence about the program or the machine, for the page")
    flags.add_argument("--from", dest="figures", metavar="JSON", help="makes the page of these figures, and measures nothing")
    flags.add_argument("--out", default=os.path.join(TOP, "docs"), help="the folder of the page (default: docs)")
    return flags


def read_figures(flags, path):
    try:
        with open(path, encoding="utf-8") as file:
            return json.load(file)
    except (OSError, ValueError) as fault:
        flags.error(f"{path}: {fault}; measure first: bench/report.py --quick RELEASE_DIR")


def checked(flags, given=None):
    """The arguments, after a check that they can be used."""
    words = flags.parse_args(given)
    if not os.path.isdir(words.out):
        flags.error(f"--out: there is no folder {words.out}")
    if words.figures:
        return words
    if not words.folder:
        flags.error("name a release, as tools/pack_zoneinfo.py /usr/share/zoneinfo release makes it, or figures by --from")
    if not os.path.isfile(os.path.join(words.folder, "manifest.json")):
        flags.error(f"{words.folder} is no release: make one by tools/pack_zoneinfo.py /usr/share/zoneinfo {words.folder}")
    if not os.access(words.program, os.X_OK):
        flags.error(f"{words.program} is not built: README.md says how, or name another by --program")
    if words.earlier and not os.access(words.earlier, os.X_OK):
        flags.error(f"--earlier: {words.earlier} is no program: build one in a clone of the earlier commit")
    if unknown := [it for it in words.only.split(",") if it not in PARTS]:
        flags.error(f"no part {', '.join(unknown)}: choose of {', '.join(PARTS)}")
    if missing := [package for tool, package in NEEDED.items() if not shutil.which(tool)]:
        flags.error(f"some tools are missing: on Debian, apt-get install {' '.join(missing)}")
    words.folder, words.program = os.path.abspath(words.folder), os.path.abspath(words.program)
    words.earlier = words.earlier and os.path.abspath(words.earlier)
    return words


def main():
    flags = parser()
    words = checked(flags)
    if words.figures:
        write_pages(read_figures(flags, words.figures), words.out)
        return 0
    path = os.path.join(words.out, "performance.json")
    only_some = words.only.split(",") != PARTS
    figures = read_figures(flags, path) if only_some and os.path.exists(path) else {}

    def keep(figures):
        with open(f"{path}.new", "w", encoding="utf-8") as out:
            json.dump(figures, out, indent=1)
            out.write("\n")
        os.replace(f"{path}.new", path)

    if congestion_control() == "bbr":
        print("TCP uses bbr, which delays long replies: see what --help says", file=sys.stderr)
    try:
        status = measure(words, "quick" if words.quick else "smoke" if words.smoke else "full", figures, keep)
    except Failure as fault:
        sys.exit(f"bench/report.py: {words.program} does not serve {words.folder}: {fault}")
    write_pages(figures, words.out)
    print(f"The figures are in {path}, and the page is made.")
    return status


if __name__ == "__main__":
    sys.exit(main())
