"""Builds the program for `start.py`: proved, with a line of progress per crate, or only compiled.

Python's standard library only. Needs Linux, as the toolchain does.
"""

import contextlib
import os
import re
import shutil
import signal
import subprocess
import tempfile
import threading
import time
from pathlib import Path

from build_plan import Estimate, Group, stages_of, used_by
from gate_times import crates_in

TOP = Path(__file__).resolve().parent.parent
CRATE = TOP / "crates" / "tzdistd"
PROVED = CRATE / "out" / "tzdistd"
COMPILED = CRATE / "out" / "tzdistd-unproved"
TIMES = TOP / "tools" / "crate_times.txt"

# What the proof of one crate may take of memory, in GB.
CRATE_MEMORY = 4
# What a proof reads of a crate, and what the gate's run of the program reads.
PARTS_OF_PROOF = ("src", "specs", "proofs")
PARTS_OF_RUN = ("stdin", "stdout", "args", "status", "data")
# How long a compilation takes on a processor of 2.5 GHz, and when it is given up, in seconds.
USUAL_COMPILATION, LONGEST_COMPILATION = 120, 1800
HEARTBEAT = 60
# What `rt ci` prints of a crate: that this run or an earlier one proved it, or that none did.
PROVED_LINE = re.compile(r"(?:rt: )?(\w+) (proved$|is kept: )")
NOT_PROVED = "NOT PROVED"


class BuildFailed(Exception):
    """The program could not be built: what was seen, and what to do about it."""


def say(text):
    print(text, flush=True)


def newest_source(parts):
    """When one of these folders of a crate changed last, of the crates that the program uses."""
    newest = 0
    for name in used_by(["tzdistd"], crates_in((TOP / "crates.txt").read_text())):
        for part in parts:
            for at, _, files in os.walk(TOP / "crates" / name / part):
                newest = max([newest, *(os.stat(os.path.join(at, it)).st_mtime for it in files)])
    return newest


def is_current(program, parts):
    """Whether a program is there and no file that it was made of is newer."""
    return program.is_file() and program.stat().st_mtime >= newest_source(parts)


def purpose_of(name):
    """What a crate is for: the first sentence of its front page."""
    lines = []
    for file in ("lib.rt", "main.rt"):
        path = TOP / "crates" / name / "src" / file
        if path.is_file():
            lines = [it[3:].strip() for it in path.read_text().splitlines() if it.startswith("//!")]
            break
    text = re.sub(r"[\[\]`]", "", " ".join(lines))
    return re.split(r"(?<=[.:])\s", text)[0].rstrip(".:")[:90]


def measured_times():
    """The seconds of one processor that the proof of each crate took, from crate_times.txt."""
    lines = [it.split("#")[0].split() for it in TIMES.read_text().splitlines()]
    return {it[0]: float(it[1]) for it in lines if it}


def memory_available():
    """The memory that is free for programs, in GB."""
    found = re.search(r"MemAvailable:\s+(\d+)", Path("/proc/meminfo").read_text())
    return int(found[1]) / 1e6 if found else CRATE_MEMORY


def processors():
    return len(os.sched_getaffinity(0))


def crates_at_once():
    """How many crates to prove at once: one per processor, as many as memory holds."""
    return max(1, min(processors(), int(memory_available() / CRATE_MEMORY)))


class Running:
    """An `rt` that was started in a folder, with the lines that it prints."""

    def __init__(self, words, environment, folder):
        try:
            self.child = subprocess.Popen(
                ["rt", *words], cwd=folder, stdin=subprocess.DEVNULL, stdout=subprocess.PIPE,
                stderr=subprocess.STDOUT, env=environment, text=True, errors="replace",
                start_new_session=True,
            )
        except OSError as error:
            raise BuildFailed(
                f"rt does not start ({error.strerror}): install the toolchain, and put its rt on "
                "PATH"
            ) from None
        self.printed = []
        self.reader = threading.Thread(target=self._read, daemon=True)
        self.reader.start()

    def _read(self):
        for line in self.child.stdout:
            self.printed.append(line.rstrip("\n"))

    def is_over(self):
        return self.child.poll() is not None

    def stop(self):
        """Ends rt, and what is left of what it started, also where a signal ends this."""
        try:
            if not self.is_over():
                self.child.send_signal(signal.SIGTERM)
                with contextlib.suppress(subprocess.TimeoutExpired):
                    self.child.wait(20)
        finally:
            with contextlib.suppress(ProcessLookupError):
                os.killpg(self.child.pid, signal.SIGKILL)
            self.child.wait()

    def last_lines(self, most=15):
        """The last lines, or those before the first that says what was not proved."""
        self.reader.join(5)
        ends = [at for at, it in enumerate(self.printed, 1) if it.endswith(NOT_PROVED)]
        lines = self.printed[: ends[0]] if ends else self.printed
        return "\n".join(f"    {it}" for it in lines[-most:])

    def __enter__(self):
        return self

    def __exit__(self, *_):
        self.stop()


def copy_for_proof(names, room):
    """Copies what the proofs of these crates read, and the program's run, into a folder: all that
    `rt ci` needs, without edits and other crates."""
    shutil.copyfile(TOP / "HANDLES", room / "HANDLES")
    lines = (TOP / "crates.txt").read_text().splitlines(keepends=True)
    kept = [it for it in lines if set(crates_in(it)) & set(names)]
    (room / "crates.txt").write_text("".join(kept))
    for name in names:
        for part in PARTS_OF_PROOF + (PARTS_OF_RUN if name == "tzdistd" else ()):
            source, target = TOP / "crates" / name / part, room / "crates" / name / part
            target.parent.mkdir(parents=True, exist_ok=True)
            if source.is_dir():
                shutil.copytree(source, target, symlinks=True)
            elif source.is_file():
                shutil.copyfile(source, target)


def proved_in(line):
    """The crate that a line of `rt ci` reports as proved, and whether an earlier run did that."""
    found = PROVED_LINE.match(line)
    return (found[1], found[2] != "proved") if found else (None, False)


def report_proofs(runs, names, left, estimate):
    """Prints a line for each crate that is proved, and one each minute, until each `rt` has ended
    or one has failed. It takes what is proved from those that are left, and returns an `rt` that
    failed."""
    seen, last_report = [0] * len(runs), time.monotonic()
    while True:
        ended = [it for it in runs if it.is_over()]
        for at, running in enumerate(runs):
            if running in ended:
                running.reader.join(5)
            for line in running.printed[seen[at] :]:
                seen[at], (name, is_kept) = seen[at] + 1, proved_in(line)
                if name in left:
                    left.remove(name)
                    estimate.count(name, is_kept)
                    last_report = time.monotonic()
                    say(
                        f"{len(names) - len(left)} of {len(names)} crates: {name} "
                        f"({purpose_of(name)}); {estimate.so_far()} minutes so far, "
                        f"about {estimate.left()} left"
                    )
        failed = [it for it in ended if it.child.returncode]
        if failed or len(ended) == len(runs):
            return failed[0] if failed else None
        if time.monotonic() - last_report > HEARTBEAT:
            last_report = time.monotonic()
            say(
                f"  still proving; {estimate.so_far()} minutes so far, about {estimate.left()} left"
            )
        time.sleep(0.5)


def environment_for(at_once, is_chain):
    """What `rt ci` is started with. It proves so many crates at once, each with one processor. For
    a chain it chooses, and gives more processors to a crate while no other can be proved."""
    others = {name: it for name, it in os.environ.items() if name != "RT_JOBS"}
    return others if is_chain else {**others, "RT_JOBS": str(at_once)}


def not_proved(running):
    return BuildFailed(
        "the program was not proved and built: mend what rt reports, and start again\n"
        + running.last_lines()
    )


def prove_in_copies(crates, stages, estimate, at_once):
    """Proves the crates of each stage and builds the program. The groups of a stage are proved side
    by side, each in a copy, by `rt ci`. It keeps each crate for later runs of the gate."""
    names = [it for stage in stages for group in stage for it in group.names]
    left = list(names)
    for stage in stages:
        is_last = stage is stages[-1]
        with contextlib.ExitStack() as ends:
            runs = []
            for group in stage:
                folder = tempfile.TemporaryDirectory(prefix="tzdistd-proof-")
                room = Path(ends.enter_context(folder))
                copy_for_proof(used_by(group.names, crates), room)
                environment = environment_for(at_once, group.is_chain)
                # the last copy has all crates, and a plain `rt ci` leaves the program in it
                words = ["ci", *([] if is_last else group.names)]
                running = Running(words, environment, room)
                runs.append(ends.enter_context(running))
            failed = report_proofs(runs, names, left, estimate)
            built = room / "crates" / "tzdistd" / "out" / "tzdistd"
            if failed or is_last and not built.is_file():
                raise not_proved(failed or running)
            if is_last:
                put_program(built, PROVED)


def put_program(built, place):
    """Copies a program to its place, where it appears whole."""
    place.parent.mkdir(parents=True, exist_ok=True)
    part = place.with_suffix(".part")
    shutil.copyfile(built, part)
    part.chmod(0o755)
    os.replace(part, place)


def proved_program(at_once=None):
    """The proved program; it is proved and built first where it is not there, or is older than its
    sources."""
    if is_current(PROVED, PARTS_OF_PROOF):
        return PROVED
    crates = crates_in((TOP / "crates.txt").read_text())
    names, at_once = used_by(["tzdistd"], crates), at_once or crates_at_once()
    # who limits the crates at once may want to keep processors for other work
    is_whole = at_once >= processors() > 1
    stages = stages_of(names, crates, measured_times()) if is_whole else [[Group(names, False)]]
    estimate = Estimate(crates, stages, measured_times(), min(at_once, processors()))
    say(
        f"Proving {len(names)} crates, then building the program: about {estimate.left()} minutes "
        f"from nothing on {processors()} processors. What an earlier run proved is kept."
    )
    prove_in_copies(crates, stages, estimate, at_once)
    say(f"{len(names)} of {len(names)} crates are proved, and the program is built: {PROVED}")
    return PROVED


def running_below(folder):
    """A program below a folder that runs, by itself or by a loader of the toolchain, or None."""
    for entry in Path("/proc").iterdir():
        try:
            words = (entry / "cmdline").read_bytes().decode(errors="replace").split("\0")
            by_loader = os.path.basename(os.readlink(entry / "exe")).startswith("ld-")
        except OSError:
            continue
        for word in words if by_loader else words[:1]:
            if word.startswith(f"{folder}/") and is_program(word):
                return word
    return None


def is_program(path):
    try:
        with open(path, "rb") as file:
            return os.access(path, os.X_OK) and file.read(4) == b"\x7fELF"
    except OSError:
        return False


def compiled_program():
    """The program compiled with checks at run time, not proved: what `rt try` builds, copied while
    it runs."""
    if is_current(COMPILED, ("src",)):
        return COMPILED
    say("Compiling the program, without proofs: about two minutes.")
    with tempfile.TemporaryDirectory(prefix="tzdistd-look-") as room:
        environment = {**os.environ, "TMPDIR": room}
        # a load runs for long enough to be seen
        words = ["try", "--seconds", "600", "--", "load", "1000"]
        with Running(words, environment, CRATE) as running:
            found = wait_for_program(running, os.path.realpath(room))
            put_program(found, COMPILED)
    return COMPILED


def wait_for_program(running, room):
    """Waits until the program that was compiled runs."""
    begin = told = time.monotonic()
    while True:
        found = running_below(room)
        if found:
            return found
        if running.is_over():
            raise BuildFailed(
                f"the program was not compiled: mend what rt reports\n{running.last_lines()}"
            )
        now = time.monotonic()
        if now - begin > LONGEST_COMPILATION:
            raise BuildFailed(
                "the compilation did not end in 30 minutes: look at the load of this machine"
            )
        if now - told > 15:
            told = now
            say(
                f"  compiling: {round(now - begin)} seconds so far, usually {USUAL_COMPILATION} in all"
            )
        time.sleep(0.2)
