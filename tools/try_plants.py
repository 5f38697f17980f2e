#!/usr/bin/env python3
"""Tries plants: mistakes that are made in a definition and in its code together.

    tools/try_plants.py [NAME ..]          each plant in a clone of its own (default: all)
    tools/try_plants.py --together NAME .. all of them in one clone
    tools/try_plants.py --check [NAME ..]  only that each can be tried, in seconds

    example: tools/try_plants.py --together any_interval last_name

A crate proves with a plant, since its definition and its code agree. A law of another crate, said
in other words, must then be refused. A plant is a file `tools/plants/NAME.patch`. It begins with:

    # what the mistake is, in as many lines as that takes
    # proves: CRATE ..                 the crates that still prove with it, lowest first
    # refuses: CRATE FUNCTION [LABEL]  the law that must fall, and its clause if rt names that

and goes on with a patch as `git diff -U2` prints it. What is committed is cloned, and the edits of
must-fail/ are left out. Then `rt ci` proves the crates that are named and those below them. What
was proved before is kept, so it takes the time of the changed crates alone.

A line is printed for each plant: its name, the seconds, and the law that refused it. The status is
1 if one was not refused, does not apply, or broke a crate that should prove. Of several plants that
are tried together, more than one may have made a law fall.

Needs git, rt and Python's standard library.
"""

import argparse
import re
import shutil
import subprocess
import sys
import tempfile
import time
from pathlib import Path

from builds import proved_in
from declared_names import Declared

TOP = Path(__file__).resolve().parent.parent
PLANTS = TOP / "tools" / "plants"
HEAD = re.compile(r"# (proves|refuses):(.*)")
# What rt prints of a function that is not proved, with the reason, and of such a crate.
FUNCTION = re.compile(r"fn (\w+)::(?:\S+::)?(\w+): (?!proved$)(.*)")
CRATE = re.compile(r"(?:rt: )?(\w+) NOT PROVED\b")


class Plant:
    """A plant: what its patch says of itself, and where that stands."""

    def __init__(self, path):
        self.path, self.name = path, path.stem
        heads = {}
        for line in path.read_text(encoding="utf-8").splitlines():
            if not line.startswith("#"):
                break
            found = HEAD.match(line)
            if found:
                heads[found[1]] = found[2].split()
        self.proves = heads.get("proves")
        law = heads.get("refuses") or []
        self.crate, self.function, self.label, *self.more = [*law, *[""] * (3 - len(law))]

    def law(self):
        return f"{self.crate}::{self.function}"


def plants_of(names, folder):
    """The plants of these names, or all."""
    paths = sorted(folder.glob("*.patch"))
    known = {it.stem: it for it in paths}
    unknown = [it for it in names if it not in known]
    if unknown:
        raise SystemExit(f"try_plants.py: no plant {' '.join(unknown)} in {folder}")
    return [Plant(known[it]) for it in names] if names else [Plant(it) for it in paths]


def head_faults(plant, declared):
    """What is wrong with the first lines of a plant."""
    if plant.proves is None or not plant.function or plant.more:
        yield "it begins with no lines `# proves: CRATE ..` and `# refuses: CRATE FUNCTION`"
        return
    for crate in [*plant.proves, plant.crate]:
        if crate not in declared.crates:
            yield f"crates.txt has no crate {crate}"
    functions = declared.found(plant.function, plant.crate)
    if not functions:
        yield f"{plant.crate} has no function {plant.function}"
    elif plant.label and not any(plant.label in it.labels for it in functions):
        yield f"{plant.function} has no clause {plant.label}"


def applied(plants, top, *flags):
    """Applies the patches to the files of a folder. What git says of the first that fails."""
    for plant in plants:
        words = ["git", "apply", *flags, str(plant.path)]
        done = subprocess.run(
            words, cwd=top, stdout=subprocess.PIPE, stderr=subprocess.STDOUT, encoding="utf-8"
        )
        if done.returncode:
            return f"{plant.name} does not apply: {done.stdout.strip()}"
    return ""


def check(plants, top):
    """Whether each plant can be tried. Each fault is printed."""
    declared, failed = Declared(top), 0
    for plant in plants:
        faults = [*head_faults(plant, declared), applied([plant], top, "--check")]
        for fault in filter(None, faults):
            print(f"{plant.name}: {fault}")
        failed += any(faults)
    print(f"{len(plants)} plants, {failed} of which cannot be tried")
    return not failed


class Verdict:
    """What a run of `rt ci` says: the crates that are proved and those that are not, and the
    functions that are not, each with the reason."""

    def __init__(self, text):
        self.proved, self.refused, self.functions = set(), set(), {}
        for line in text.splitlines():
            crate = proved_in(line)[0]
            if crate:
                self.proved.add(crate)
            found = CRATE.match(line)
            if found:
                self.refused.add(found[1])
            found = FUNCTION.match(line)
            if found:
                self.functions[found[1], found[2]] = found[3]

    def of(self, plant):
        """Whether the plant was refused as it should be, and the end of its line."""
        for crate in plant.proves:
            if crate not in self.proved:
                names = " ".join(sorted(name for it, name in self.functions if it == crate))
                return False, f"{crate} is not proved: {names or 'see what rt printed'}"
        reason = self.functions.get((plant.crate, plant.function))
        if plant.crate not in self.refused or reason is None:
            return False, f"{plant.law()} does not refuse it"
        if plant.label and not re.search(rf"[`-]{plant.label}`", reason):
            return False, f"{plant.law()} is refused, but not for its clause {plant.label}"
        return True, f"refused by {plant.law()}"


def clone_with(plants, room):
    """A clone of what is committed, with the plants and without edits. What is wrong with it."""
    words = ["git", "clone", "--quiet", "--shared", str(TOP), str(room)]
    if subprocess.run(words).returncode:
        return "git did not clone the repository"
    for folder in (room / "crates").glob("*/must-fail"):
        shutil.rmtree(folder)
    return applied(plants, room)


def ci_over(plants, room):
    """What `rt ci` prints of the crates that the plants name."""
    names = [it for plant in plants for it in (*plant.proves, plant.crate)]
    words = ["rt", "ci", *dict.fromkeys(names)]
    done = subprocess.run(
        words, cwd=room, stdin=subprocess.DEVNULL, stdout=subprocess.PIPE,
        stderr=subprocess.STDOUT, encoding="utf-8", errors="replace",
    )
    return done.stdout


def trial(plants, logs):
    """Tries plants in one clone, and prints a line for each. Whether all were refused."""
    begin = time.monotonic()
    with tempfile.TemporaryDirectory(prefix="tzdistd-plant-") as folder:
        room = Path(folder).resolve() / "clone"
        fault = clone_with(plants, room)
        text = "" if fault else ci_over(plants, room)
    if logs:
        logs.mkdir(parents=True, exist_ok=True)
        (logs / f"{plants[0].name}.log").write_text(text, encoding="utf-8")
    seconds, verdict = time.monotonic() - begin, Verdict(text)
    results = [(False, fault) if fault else verdict.of(it) for it in plants]
    for plant, (_, said) in zip(plants, results):
        print(f"{plant.name:32} {seconds:5.0f} s  {said}", flush=True)
    return all(well for well, _ in results)


def main():
    flags = argparse.ArgumentParser(
        description="Tries mistakes that are made in a definition and its code together.",
        epilog="example: tools/try_plants.py --together any_interval last_name",
    )
    flags.add_argument("names", nargs="*", metavar="NAME", help="plants (default: all)")
    flags.add_argument("--together", action="store_true", help="try all of them in one clone")
    flags.add_argument("--check", action="store_true", help="only whether each can be tried")
    flags.add_argument("--logs", type=Path, metavar="FOLDER", help="keep what rt printed")
    given = flags.parse_args()
    plants = plants_of(given.names, PLANTS)
    if given.check:
        return 0 if check(plants, TOP) else 1
    faulty = [it.name for it in plants if it.proves is None or not it.function]
    if faulty:
        flags.error(f"{' '.join(faulty)} cannot be tried: see --check")
    groups = [plants] if given.together else [[it] for it in plants]
    return 0 if all([trial(it, given.logs) for it in groups]) else 1


if __name__ == "__main__":
    sys.exit(main())
