#!/usr/bin/env python3
"""Prints in which functions the time of a check went, the longest first.

    (cd crates/NAME && rm -rf out/incremental && rt check --jobs 1)
    tools/function_times.py crates/NAME/out/incremental [--most N]

A check keeps a file for each module that it has checked, and a function has some twenty of them.
With one job they are written one after another. So the time from one file to the next is that of
the next one's module, and a function's is the sum of its modules'. The last column has its longest
parts: `Lts` is what is owned and borrowed along its paths, `Proof` and `Answers` are goals. Work
that writes no file, such as the reading of libraries, is not seen.

Needs Python's standard library only.
"""

import argparse
import re
from pathlib import Path

# A kept module: its crate, on which side it is, and its path.
NAME = re.compile(r"Rattle-(\w+?)[.-](specs|proofs)\.(.+)\.oantt$")
# The modules that are made of a function have these names below the function's own.
PARTS = frozenset(
    "Answers Code Goals Invariants Key Kinds Layout Lts Met Named Proof Reads Statement Symbol TheImpl Tie decls".split()
)


def function_in(name):
    """The function or page of a kept file, and which part the file is; None for another file."""
    found = NAME.match(name)
    if not found:
        return None
    words = found[3].removeprefix("contracts.").split(".")
    at = next((at for at, word in enumerate(words) if word in PARTS), len(words))
    return ".".join(words[:at]), words[at] if at < len(words) else ""


def times_of(files):
    """The seconds of each function or page, in all and by its parts, of files as pairs of a moment
    and a name."""
    sums, before = {}, None
    for moment, name in sorted(files):
        what = function_in(name)
        if what and before is not None:
            parts = sums.setdefault(what[0], {})
            parts[what[1]] = parts.get(what[1], 0) + moment - before
        before = moment
    return sums


def lines_of(sums, most):
    """A line for each of the longest."""
    for name, parts in sorted(sums.items(), key=lambda it: -sum(it[1].values()))[:most]:
        dearest = sorted(parts.items(), key=lambda it: -it[1])[:3]
        told = " ".join(f"{part}={seconds:.1f}" for part, seconds in dearest if part)
        yield f"{sum(parts.values()):8.1f}  {name}  {told}".rstrip()


def main():
    flags = argparse.ArgumentParser(
        description="In which functions the time of a check went.",
        epilog="example: tools/function_times.py crates/catalogue/out/incremental --most 20",
    )
    flags.add_argument("folder", help="what the check kept, as crates/NAME/out/incremental")
    flags.add_argument("--most", type=int, default=30, help="how many lines, 30 if left out")
    given = flags.parse_args()
    files = [(it.stat().st_mtime, it.name) for it in Path(given.folder).rglob("*.oantt")]
    sums = times_of(files)
    print(f"{sum(sum(parts.values()) for parts in sums.values()):8.1f}  in all")
    for line in lines_of(sums, given.most):
        print(line)


if __name__ == "__main__":
    main()
