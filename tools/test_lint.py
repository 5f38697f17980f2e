#!/usr/bin/env python3
"""Tests of lint.py: each linter of this machine reports a fault that is put in, and none before.

    tools/test_lint.py
"""

import shutil
import sys
import tempfile
from pathlib import Path

import lint

# The fault for each linter: the file, a text in it, and what replaces that text.
PLANTS = {
    "shellcheck": ("deploy/tzdistd-console", "\n", '\ncd $1 && rm -r "$NOTHING"/* $*\n'),
    "pyflakes": ("tools/formats.py", "import re\n", "import re\nimport socket\n"),
    "mandoc": ("deploy/tzdistd.8", ".SH NAME\n", ".SH NAME\n.XQ\n"),
    "systemd-analyze": ("deploy/tzdistd.service", "[Service]\n", "[Service]\nTyp=exec\n"),
    "nginx": ("deploy/nginx-tzdistd.conf", "gzip on;", "gzip onn;"),
}


def copy_of(room):
    """A copy of the scripts, units, sites and pages, which lint.py then checks."""
    top = Path(room).resolve() / "top"
    for folder in ("deploy", "tools"):
        shutil.copytree(lint.TOP / folder, top / folder, symlinks=True)
    return top


def main():
    failed, tried = [], 0
    with tempfile.TemporaryDirectory() as room:
        lint.TOP = copy_of(room)
        for name, (file, old, new) in PLANTS.items():
            path, files = lint.TOP / file, lint.listed_files(lint.TOP)
            before = lint.LINTERS[name](files)
            if before is None:
                print(f"lint: {name} is not installed, and is not tried")
                continue
            tried += 1
            text = path.read_text()
            if before != (0, ""):
                failed.append(f"{name} complains before anything is planted: {before}")
            if old not in text:
                failed.append(f"{file} has no {old!r}")
            path.write_text(text.replace(old, new, 1))
            status, said = lint.LINTERS[name](files)
            if not status and not said.strip():
                failed.append(f"{name} does not see {new!r} in {file}")
            path.write_text(text)
    for fault in failed:
        print(f"lint: {fault}")
    print(f"lint: {tried} linters were tried, {f'{len(failed)} failed' if failed else 'all well'}")
    return 1 if failed else 0


if __name__ == "__main__":
    sys.exit(main())
