#!/usr/bin/env python3
"""Tests of start.py: what it packs, builds and serves, and what it says where that fails.

    tools/test_start.py [PROGRAM]

PROGRAM is a built tzdistd; without it, that of the gate. The server is the real one. Only `rt` is a
small script, which prints what the real one prints and puts the built program where that puts it.
"""

import os
import re
import shutil
import signal
import subprocess
import sys
import tempfile
import time
from pathlib import Path

from build_plan import Estimate, Group, stages_of
from builds import crates_at_once, environment_for
from checks import LONG, holds, run_checks, same
from served import DATA, Client, Failure, address_of, free_port

TOOLS = Path(__file__).resolve().parent
CRATES = (
    "td_base: arrayvec\ncatalogue: td_base\ntarget: td_base\ntd_top: td_base catalogue target\n"
    "tzdistd: td_base td_top\nother: td_base\n"
)
PROVED = "td_base catalogue target td_top tzdistd"
RELEASE = os.path.join(DATA, "data", "a")

# A loader with which the toolchain may start what it compiled.
LOADER = "/lib64/ld-linux-x86-64.so.2"

# What it compiled waits for its input, so that start.py sees it on a fast machine, too.
FAKE_RT = """#!/bin/sh
echo "$@ $RT_JOBS" >>"$RT_CALLS"
find . -type f | sort >"$RT_CALLS.files"
case "$*" in
  *"$RT_FAILS"*) echo "error: a goal is left"; echo "rt: target NOT PROVED"; seq 40; exit 1 ;;
esac
case "$1" in
  ci) for it in $RT_PROVES; do echo "== $it"; echo "rt: $it proved"; sleep 0.2; done
    [ -z "$RT_STAYS" ] || { sleep 60 & wait $!; }
    mkdir -p crates/tzdistd/out; cp "$RT_PROGRAM" crates/tzdistd/out/tzdistd ;;
  try) cp "$RT_PROGRAM" "$TMPDIR/program"; sleep 60 | $RT_LOADER "$TMPDIR/program" answer "$RT_RELEASE" >/dev/null ;;
esac
"""


class Top:
    """A folder like the repository's top, with the scripts and a small list of crates."""

    def __init__(self, room, program):
        self.room, self.program = Path(room), program
        self.calls = self.room / "calls"
        self.port = free_port()
        self.address = address_of(self.port)
        (self.room / "tools").mkdir()
        for path in TOOLS.iterdir():
            if path.is_file() and not path.name.startswith("test_"):
                shutil.copy(path, self.room / "tools" / path.name)
        (self.room / "crates.txt").write_text(CRATES)
        (self.room / "HANDLES").write_text("Handles allowed: none.\n")
        for line in CRATES.splitlines():
            source = self.room / "crates" / line.split(":")[0] / "src"
            source.mkdir(parents=True)
            (source / "lib.rt").write_text("//! A crate for a test. More of it.\n")
        (self.room / "bin").mkdir()
        rt = self.room / "bin" / "rt"
        rt.write_text(FAKE_RT)
        rt.chmod(0o755)

    def start(self, *words, fails="no words", release=RELEASE, loader="", proves=PROVED, stays=""):
        environment = {
            **os.environ, "PATH": f"{self.room}/bin:{os.environ['PATH']}", "RT_CALLS": str(self.calls),
            "RT_PROGRAM": str(self.program), "RT_RELEASE": RELEASE, "RT_FAILS": fails, "RT_LOADER": loader,
            "RT_PROVES": proves, "RT_STAYS": stays,
        }
        words = [sys.executable, "tools/start.py", "--address", self.address, *words]
        words += ["--release", str(release)] if release else []
        return Started(words, self.room, environment)

    def called(self):
        return self.calls.read_text().splitlines() if self.calls.exists() else []


class Started:
    """A start.py that was started, with what it printed so far. Its input stays open."""

    def __init__(self, words, at, environment):
        pipe = subprocess.PIPE
        self.child = subprocess.Popen(words, cwd=at, env=environment, stdin=pipe, stdout=pipe, stderr=pipe, text=True)
        self.printed = []

    def until(self, pattern):
        """Reads lines up to the first with a pattern. What is read is in `printed`."""
        for line in self.child.stdout:
            self.printed.append(line.rstrip("\n"))
            if re.search(pattern, line):
                return line.rstrip("\n")
        raise Failure(f"the output ended without {pattern!r}: {self.printed} {self.child.stderr.read()}")

    def say(self, line):
        self.child.stdin.write(line + "\n")
        self.child.stdin.flush()

    def ended(self):
        """The status, all of the standard output, and the standard error."""
        try:
            output, errors = self.child.communicate(timeout=LONG)
        except subprocess.TimeoutExpired:
            raise Failure("start.py had not ended in time") from None
        return self.child.returncode, "\n".join([*self.printed, output]), errors

    def __enter__(self):
        return self

    def __exit__(self, *_):
        if self.child.poll() is None:
            self.child.terminate()
            try:
                self.child.communicate(timeout=LONG)
            except subprocess.TimeoutExpired:
                self.child.kill()
        for stream in (self.child.stdin, self.child.stdout, self.child.stderr):
            stream.close()


def in_top(check):
    """A check that is given a new top folder."""

    def with_room(program):
        with tempfile.TemporaryDirectory() as room:
            check(Top(room, program))

    with_room.__name__ = check.__name__
    return with_room


def serves(top, tzid="Etc/UTC"):
    with Client(top.port) as client:
        reply = client.ask("/tzdist/zones")
    same("the status of the list", reply.status, 200)
    holds("the list has a zone", f'"{tzid}"'.encode() in reply.body)


@in_top
def serves_with_a_given_program_and_forwards_the_console(top):
    with top.start("--program", str(top.program)) as started:
        started.until("^ready 1-")
        started.until("Ctrl-C ends")
        serves(top)
        started.say("status")
        holds("the status is printed", started.until("^serving 1-").endswith(" 1"))
        started.say("install nowhere")
        started.until("^refused 8 Absent")
        started.say("quit")
        status, output, _ = started.ended()
    same("the status of quit", status, 0)
    holds("the server said bye", "bye" in output.splitlines())
    same("no build was begun", top.called(), [])


@in_top
def ends_in_order_by_signals(top):
    for number, is_open in ((signal.SIGINT, True), (signal.SIGTERM, True), (signal.SIGTERM, False)):
        with top.start("--program", str(top.program)) as started:
            started.until("Ctrl-C ends")
            if not is_open:
                started.child.stdin.close()  # the end of an input that is no terminal ends nothing
            serves(top)
            started.child.send_signal(number)
            started.until("^bye$")
            same(f"the status after signal {number}", started.child.wait(LONG), 0)
            same("what is complained about", started.child.stderr.read(), "")


@in_top
def proves_where_there_is_no_program(top):
    edits = top.room / "crates" / "target" / "must-fail"
    edits.mkdir()
    (edits / "wrong.edit").write_text("an edit\n")
    (top.room / "crates" / "tzdistd" / "stdin").write_text("quit\n")
    with top.start("--jobs", "3") as started:
        started.until("^1 of 5 crates: td_base .A crate for a test.; 0 minutes so far, about")
        started.until("^2 of 5 crates: catalogue ")
        started.until("^5 of 5 crates are proved, and the program is built")
        started.until("^ready 1-")
        serves(top)
        started.say("quit")
        same("the status", started.ended()[0], 0)
    same("rt is called once, for so many crates at a time", top.called(), ["ci 3"])
    copied = Path(f"{top.calls}.files").read_text().split()
    sources = [f"./crates/{it}/src/lib.rt" for it in PROVED.split()]
    same("what it proves", copied, sorted(["./HANDLES", "./crates.txt", "./crates/tzdistd/stdin", *sources]))
    with top.start() as started:
        started.until("^ready 1-")
    same("what is built is not built again", len(top.called()), 1)


@in_top
def builds_again_where_a_source_is_newer(top):
    with top.start() as started:
        started.until("^ready 1-")
    calls = len(top.called())
    later = time.time() + 60
    os.utime(top.room / "crates" / "catalogue" / "src" / "lib.rt", (later, later))
    with top.start() as started:
        started.until("^1 of 5 crates")
        started.until("^ready 1-")
    same("all was proved again", len(top.called()), 2 * calls)


@in_top
def says_what_failed_in_a_proof(top):
    with top.start(fails="ci") as started:
        status, _, errors = started.ended()
    same("the status", status, 1)
    holds(f"what to do is said: {errors}", "was not proved and built: mend" in errors)
    holds(f"the end is that of the crate that failed: {errors}", errors.endswith("a goal is left\n    rt: target NOT PROVED\n"))


@in_top
def looks_with_what_is_compiled(top):
    with top.start("--look") as started:
        started.until("^Compiling the program, without proofs")
        started.until("^ready 1-")
        started.until("is compiled with checks at run time, and is NOT proved")
        serves(top)
        copy = top.room / "crates" / "tzdistd" / "out" / "tzdistd-unproved"
        same("the copy is whole", copy.read_bytes(), Path(top.program).read_bytes())
        started.say("quit")
        same("the status", started.ended()[0], 0)
    same("only rt try ran", [it.split()[0] for it in top.called()], ["try"])
    with top.start("--look") as started:
        started.until("^ready 1-")
    same("what is compiled is not compiled again", len(top.called()), 1)


@in_top
def finds_what_a_loader_runs(top):
    if os.access(LOADER, os.X_OK):
        with top.start("--look", loader=LOADER) as started:
            started.until("^ready 1-")


@in_top
def ends_a_build_by_signals(top):
    for number in (signal.SIGINT, signal.SIGTERM):
        # a proof that does not end before the signal comes
        with top.start(proves="td_base", stays="yes") as started:
            started.until("^1 of 5 crates")
            started.child.send_signal(number)
            status, _, errors = started.ended()
        same("the status", (status, "what is proved so far is kept" in errors), (130, True))
        end = time.monotonic() + LONG  # a process that is killed ends when it next has a processor
        while (left := running_in(top.room)) and time.monotonic() < end:
            time.sleep(0.05)
        same("what still runs", left, [])


def reckons_by_a_plan(_program):
    """One crate that all wait for, a long one, and others beside that on three processors."""
    sides = [f"side{number}" for number in range(8)]
    crates = {"base": [], "top": ["base"], **{it: ["base"] for it in sides}}
    times = {"base": 400, "top": 3600, **{it: 600 for it in sides}}
    for pace in (0.5, 1, 2):
        estimate = Estimate(crates, [[Group(list(crates), False)]], times, 4)
        same("the minutes before anything is done", estimate.left(), 67)
        for name, seconds, minutes in (("base", 400, 60), ("side0", 1000, 50), ("side1", 1000, 50),
                                       ("side2", 1000, 50), ("side3", 1600, 40)):
            estimate.begin = time.monotonic() - seconds * pace
            estimate.count(name, False)
            same(f"the minutes after {name} at pace {pace}", estimate.left(), round(minutes * pace))


def reckons_without_what_is_kept(_program):
    crates = {"base": [], "top": ["base"]}
    stages = [[Group(list(crates), False)]]
    estimate = Estimate(crates, stages, {"base": 600, "top": 1200}, 2)
    estimate.count("base", True)
    same("the minutes that are left", estimate.left(), 20)
    estimate.count("top", True)
    same("the minutes where all is kept", estimate.left(), 1)


def parts_its_proofs_into_stages(_program):
    """A crate that all others use, four beside one another, two that use all of these, and two that
    only the program uses."""
    sides = [f"side{number}" for number in range(4)]
    crates = {
        "leaf": [], "base": [], **{it: ["base"] for it in sides}, "wire": ["base"],
        "socket": ["wire"], "runs": [*sides, "leaf"], "top": ["base", "runs"],
        "program": ["top", "socket"],
    }
    times = {"leaf": 50, "base": 400, "wire": 100, "socket": 200, "runs": 300, "top": 600,
             "program": 300, **{it: 600 for it in sides}}
    stages = stages_of(list(crates), crates, times)
    same("the stages", stages, [
        [Group(["base"], True)], [Group(["leaf", *sides], False)],
        [Group(["runs", "top"], True), Group(["wire", "socket"], True)], [Group(["program"], True)],
    ])
    # 0.7 of the time of `base` and of each of the last three crates. Between these, one side after
    # two others, or beside all of them.
    for width, minutes in ((4, 29), (2, 39)):
        same(f"the minutes on {width}", Estimate(crates, stages, times, width).left(), minutes)


def parts_small_programs_into_stages(_program):
    """Programs with only some of the stages, or with only one crate."""
    for crates, stages in (
        ({"program": []}, [[Group(["program"], True)]]),
        ({"base": [], "program": ["base"]}, [[Group(["base"], True)], [Group(["program"], True)]]),
        ({"one": [], "two": [], "program": ["one", "two"]},
         [[Group(["two"], True), Group(["one"], True)], [Group(["program"], True)]]),
    ):
        same(f"the stages of {list(crates)}", stages_of(list(crates), crates, {}), stages)


@in_top
def proves_by_stages(top):
    """Two calls are made side by side. Where one of them fails, no later call is made."""
    processors = len(os.sched_getaffinity(0))
    if crates_at_once() < processors or processors < 2:
        return
    source = top.room / "crates" / "wire" / "src"
    source.mkdir(parents=True)
    (source / "lib.rt").write_text("//! A crate that only the program uses.\n")
    crates = CRATES.replace("td_base td_top\n", "td_base td_top wire\n") + "wire: td_base\n"
    (top.room / "crates.txt").write_text("\n".join(sorted(crates.splitlines(), key=places_of)))
    first = ["ci td_base ", f"ci catalogue target {processors}", "ci td_top ", "ci wire "]
    with top.start(fails="wire") as started:
        status, _, errors = started.ended()
    same("the status", (status, "a goal is left" in errors), (1, True))
    same("the calls up to a failed one", in_order(top.called()), first)
    with top.start() as started:
        started.until("^6 of 6 crates are proved, and the program is built")
        started.until("^ready 1-")
    same("the calls", in_order(top.called()[len(first):]), [*first, "ci "])


def places_of(line):
    """A key that puts the program last, and what only it uses before it."""
    return line.startswith("tzdistd"), line.startswith("wire")


def in_order(calls):
    """Calls of which the third and the fourth may have come in any order."""
    return calls[:2] + sorted(calls[2:4]) + calls[4:]


def lets_rt_choose_for_chains(_program):
    os.environ["RT_JOBS"] = "7"
    same("many", environment_for(3, False)["RT_JOBS"], "3")
    same("one", environment_for(3, True).get("RT_JOBS"), None)
    del os.environ["RT_JOBS"]


def running_in(room):
    return [it for it in Path("/proc").iterdir() if it.name.isdigit() and runs_in(it, room)]


def runs_in(process, room):
    try:
        return str(room) in os.readlink(process / "cwd")
    except OSError:
        return False


@in_top
def says_what_failed_in_a_compilation(top):
    with top.start("--look", fails="try") as started:
        status, _, errors = started.ended()
    same("the status", status, 1)
    holds(f"what to do is said: {errors}", "was not compiled: mend what rt reports" in errors)


@in_top
def packs_where_there_is_no_release(top):
    tree, release = top.room / "zoneinfo", top.room / "release"
    (tree / "Europe").mkdir(parents=True)
    shutil.copy(os.path.join(DATA, "data", "ny"), tree / "Europe" / "Lisbon")
    (tree / "tzdata.zi").write_text("# version 2025b\nZ Europe/Lisbon -5 - EST\n")
    words = ("--program", str(top.program), "--zoneinfo", str(tree))
    with top.start(*words, release=None) as started:
        started.until("^Packing the zone files of ")
        started.until("^ready 1-")
        holds("the release is at its place", (release / "manifest.json").is_file())
        serves(top, "Europe/Lisbon")
    with top.start(*words, release=None) as started:
        started.until("is there already")
        started.until("^ready 1-")
    with top.start("--zoneinfo", str(top.room / "absent"), release=top.room / "none") as started:
        status, _, errors = started.ended()
    same("the status without zone files", (status, "install tzdata" in errors), (1, True))


@in_top
def says_why_it_did_not_start(top):
    with top.start("--program", str(top.room / "absent")) as started:
        status, _, errors = started.ended()
    same("the status without a program", (status, "give the built tzdistd" in errors), (1, True))
    with top.start("--program", str(top.program)) as first:
        first.until("^ready 1-")
        with top.start("--program", str(top.program)) as second:
            status, _, errors = second.ended()
        holds(f"a taken address is named: {errors}", status == 1 and "status 6" in errors)
    bad = top.room / "bad"
    bad.mkdir()
    (bad / "manifest.json").write_text("{}")
    with top.start("--program", str(top.program), release=bad) as started:
        status, _, errors = started.ended()
    holds(f"a refusal is printed: {errors}", status == 1 and "status 2: refused" in errors)


@in_top
def refuses_wrong_words(top):
    for words in (("--workers", "0"), ("--workers", "65"), ("--jobs", "0"), ("--nothing",)):
        with top.start(*words) as started:
            same(f"the status of {words}", started.ended()[0], 2)
    with top.start("--help") as started:
        status, output, _ = started.ended()
    holds("the help has an example", status == 0 and "example: tools/start.py --look" in output)


CHECKS = (
    serves_with_a_given_program_and_forwards_the_console,
    ends_in_order_by_signals,
    proves_where_there_is_no_program,
    builds_again_where_a_source_is_newer,
    says_what_failed_in_a_proof,
    looks_with_what_is_compiled,
    finds_what_a_loader_runs,
    ends_a_build_by_signals,
    reckons_by_a_plan, reckons_without_what_is_kept, parts_its_proofs_into_stages,
    parts_small_programs_into_stages, proves_by_stages, lets_rt_choose_for_chains,
    says_what_failed_in_a_compilation,
    packs_where_there_is_no_release,
    says_why_it_did_not_start,
    refuses_wrong_words,
)

if __name__ == "__main__":
    sys.exit(run_checks("start", CHECKS, whole=1800, beside=2))
