#!/usr/bin/env python3
"""Runs loads by the built program, compares their output with tools/load_model.py, and prints their
times.

    bench/load.py [NUMBER ..]     1, 3, 100 and 1000 where none is given

Python's standard library only.
"""
import os
import subprocess
import sys
import time

HERE = os.path.dirname(os.path.abspath(__file__))
sys.path.insert(0, os.path.join(HERE, "..", "tools"))

from load_model import counts, summary  # noqa: E402

PROGRAM = os.path.join(HERE, "..", "crates", "tzdistd", "out", "tzdistd")


def main():
    wrong = 0
    for number in [int(word) for word in sys.argv[1:]] or [1, 3, 100, 1000]:
        begun = time.perf_counter()
        done = subprocess.run([PROGRAM, "load", str(number)], stdin=subprocess.DEVNULL, capture_output=True)
        seconds = time.perf_counter() - begun
        right = done.returncode == 0 and done.stdout.decode() == summary(*counts(number))
        wrong += not right
        print(f"load {number}: {seconds:.2f} seconds, {'as the model says' if right else done}")
    return 1 if wrong else 0


if __name__ == "__main__":
    sys.exit(main())
