#!/usr/bin/env python3
"""Runs a program of cases once for each of its allocations, and makes that one fail.

    grep -E '^(#|let|file|joins)' crates/release_cases/stdin |
        bench/each_allocation.py release_cases [--most N]

The table is read from standard input. A run must print what a run in which nothing fails prints. Or
it must end because it is out of memory, with status 1, and print the beginning of that output. The
program is the one that `rt run` built last in the crate. A small library, preloaded into it,
refuses its Nth request for memory. The script needs a C compiler as `cc`, is run by hand, and is no
part of the gate.
"""

import argparse
import os
import subprocess
import sys
import tempfile

ROOT = os.path.dirname(os.path.dirname(os.path.abspath(__file__)))

# The Nth call of malloc, calloc or realloc, of all threads, returns no memory, and creates the file
# that FAILING_TOLD names.
FAILING = r"""
#include <errno.h>
#include <fcntl.h>
#include <stddef.h>
#include <stdlib.h>
#include <unistd.h>

extern void *__libc_malloc(size_t);
extern void *__libc_calloc(size_t, size_t);
extern void *__libc_realloc(void *, size_t);

static long calls, failing;

__attribute__((constructor)) static void begin(void) {
    failing = atol(getenv("FAILING_CALL"));
}

static int fails(void) {
    if (!failing || __atomic_add_fetch(&calls, 1, __ATOMIC_RELAXED) != failing) return 0;
    close(open(getenv("FAILING_TOLD"), O_CREAT | O_WRONLY, 0600));
    errno = ENOMEM;
    return 1;
}

void *malloc(size_t size) { return fails() ? NULL : __libc_malloc(size); }
void *calloc(size_t count, size_t size) { return fails() ? NULL : __libc_calloc(count, size); }
void *realloc(void *old, size_t size) { return fails() ? NULL : __libc_realloc(old, size); }
"""


def failing_at(library, call, told):
    """The environment variables of a process in which this call fails. If the process reaches that
    call, it creates the file `told`."""
    return {"LD_PRELOAD": library, "FAILING_CALL": str(call), "FAILING_TOLD": told}


def build(folder):
    """The library, compiled in a folder."""
    source, library = os.path.join(folder, "failing.c"), os.path.join(folder, "failing.so")
    with open(source, "w") as text:
        text.write(FAILING)
    subprocess.run(["cc", "-O1", "-shared", "-fPIC", "-o", library, source], check=True)
    return library


def run(program, table, library, call):
    """The status and output of a run in which this call fails, and whether it reached that call."""
    with tempfile.TemporaryDirectory() as folder:
        told = os.path.join(folder, "told")
        child = subprocess.run(
            [program],
            env=failing_at(library, call, told),
            input=table,
            stdout=subprocess.PIPE,
            stderr=subprocess.DEVNULL,
            timeout=60,
        )
        return child.returncode, child.stdout, os.path.exists(told)


def is_right(status, output, whole):
    """Whether a run printed the whole output, or ended out of memory before that."""
    if status == 0:
        return output == whole
    return status == 1 and whole.startswith(output)


def main():
    parser = argparse.ArgumentParser(description=__doc__.splitlines()[0])
    parser.add_argument("crate")
    parser.add_argument("--most", type=int, default=100_000, help="so many runs at most")
    words = parser.parse_args()
    program = os.path.join(ROOT, "crates", words.crate, "out", words.crate)
    if not os.path.exists(program):
        sys.exit(f"{program} is not there: run rt run in the crate")
    table = sys.stdin.buffer.read()
    wrong = ended = 0
    with tempfile.TemporaryDirectory() as folder:
        library = build(folder)
        _, whole, _ = run(program, table, library, 0)
        print(whole.decode(errors="replace"), end="")
        for call in range(1, words.most + 1):
            status, output, came = run(program, table, library, call)
            if not came:
                print(f"{call - 1} allocations failed in turn, {ended} runs ended early, {wrong} were wrong")
                break
            ended += status != 0
            if not is_right(status, output, whole):
                wrong += 1
                print(f"allocation {call}: status {status}: {output.decode(errors='replace').strip()}")
        else:
            print(f"stopped after {words.most} runs, {wrong} of them wrong")
    sys.exit(1 if wrong else 0)


if __name__ == "__main__":
    main()
