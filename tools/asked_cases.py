"""Gets the answers of the program of `crates/zone_cases` to table rows without expected answers.

A row without an answer is no case. The program prints its own answer wherever that is not the empty
text. Python's standard library only.
"""

import os
import re
import subprocess
import sys

ROOT = os.path.dirname(os.path.dirname(os.path.abspath(__file__)))
PROGRAM = os.path.join(ROOT, "crates/zone_cases/out/zone_cases")

TOLD = re.compile(r"(.*?):  is expected, and (.*) is given")
SIGNS = {"\r": "\\r", "\n": "\\n", "\t": "\\t", "\\": "\\\\", "$": "\\$"}


class Unasked(Exception):
    """The program did not answer the rows."""


def written(text):
    """A text as it is written in a table; it has no character above 255, and each is a byte."""
    return re.sub(r"[^ -#%-\[\]-~]", lambda found: SIGNS.get(found[0], f"\\x{ord(found[0]):02x}"), text)


def table_of(texts, rows):
    """A table that names the texts `t0`, `t1` and so on, and has the rows."""
    return "\n".join([f"let t{place} {written(text)}" for place, text in enumerate(texts)] + rows) + "\n"


# The peak memory of a process is at least what its parent had when the process began. So a small
# process starts it.
BEGIN = """
import os, sys
child = os.posix_spawn(sys.argv[1], sys.argv[1:], {})
_, status, took = os.wait4(child, 0)
print(os.waitstatus_to_exitcode(status), took.ru_utime + took.ru_stime, took.ru_maxrss, file=sys.stderr)
"""


def run(program, table):
    """What the program says of a table, and what it took: seconds of processor time, and the peak
    of memory in KiB."""
    words = [sys.executable, "-c", BEGIN, os.path.abspath(program)]
    done = subprocess.run(words, input=table.encode(), capture_output=True, check=True)
    status, seconds, most = done.stderr.split()[-3:]
    if status != b"0":
        raise Unasked(f"status {status.decode()}")
    return done.stdout.decode(), float(seconds), int(most)


def answers(program, texts, rows):
    """The answer to each row, with the signs of a table; a row that is not understood has None."""
    said, _, _ = run(program, table_of(texts, rows))
    given = dict.fromkeys(rows, "")
    for line in said.splitlines():
        told = TOLD.fullmatch(line)
        if told:
            given[told[1]] = told[2]
        elif line.startswith("strange line: "):
            given[line.removeprefix("strange line: ")] = None
    return [given[row] for row in rows]
