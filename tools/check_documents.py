#!/usr/bin/env python3
"""Checks that what the pages name exists where they say, and that the pages can be read.

    tools/check_documents.py [TOP] [--program FILE]

    example: tools/check_documents.py --program crates/tzdistd/out/tzdistd

Each fault is a line `PAGE:LINE: what is wrong`; the status is 1 if there is one. Of every page it
checks links and their anchors, and names in backticks. These are files, `Type::function`,
`Record.field`, constants with the value behind them, identifiers, and `name` (`file`). Of tables it
reads the columns:

    Crate, Function, Clause  the function has a clause of this label (`result`: one without a label)
    Definition, Where        the name is declared in this file
    Edit                     the crate has this edit; `row x`: a table of cases has this word;
                             `plant x`: the file tools/plants/x.patch exists
    Clause that falls        the first line of the row's edit names this function and this clause

Of fenced blocks marked `sh` it checks that scripts have the flags. Of those marked `sh run` it
checks that each command ends with status 0. It also checks that a block marked `text output` behind
such a block is what that prints. `tools/foreign_names.txt` lists names that belong to other
programs.

Python's standard library only.
"""

import argparse
import os
import re
import subprocess
import sys
import tempfile
from pathlib import Path

from declared_names import Declared

# The most KB of each page, of all crates' READMEs, and of all other pages together.
SIZES = {
    "README.md": 8, "CONTRIBUTING.md": 10, "docs/HEADLINE.md": 8, "docs/GLOSSARY.md": 6,
    "docs/ARCHITECTURE.md": 12, "docs/PROVING.md": 20, "docs/DECISIONS.md": 20, "docs/FORMATS.md": 28,
    "docs/SECURITY.md": 10,
}
LARGE_CRATES = {"run_ends", "connection", "installer", "mirror"}
CRATE_SIZE, LARGE_CRATE_SIZE, WHOLE_SIZE = 4, 6, 190
WIDTH, TABLE_WIDTH, CELL_WORDS = 100, 160, 40

EXTENSIONS = "rt|antt|py|md|edit|sh|svg|png|service|timer|path|conf|txt|html|js|css|8"
PATH = re.compile(rf"[\w./-]+\.(?:{EXTENSIONS})(?::\d+)?|(?:crates|docs|tools|deploy|bench)/[\w./-]*")
SPAN = re.compile(r"`([^`]+)`")
NAME = r"[A-Za-z_]\w*"
PLACED = re.compile(rf"`((?:{NAME}::)*{NAME})` \(`([\w./-]+\.(?:rt|antt|py))`\)")
VALUED = re.compile(r"`([A-Z][A-Z0-9_]+)` (?:is |\(|= )([\d,_]+)(?![\d.,:]*\d)")
LINK = re.compile(r"\[[^\]]*\]\(([^)\s]+)\)")


class Page:
    """A page, with its lines outside fenced blocks, and its blocks."""

    def __init__(self, top, file):
        self.top, self.file = top, file
        self.text = (top / file).read_text(encoding="utf-8")
        self.lines, self.blocks, block = [], [], None
        for number, line in enumerate(self.text.split("\n"), 1):
            if line.lstrip().startswith("```"):
                block = None if block else (number, line.strip()[3:].strip(), [])
                self.blocks += [block] if block else []
            elif block:
                block[2].append(line)
            else:
                self.lines.append((number, line))
        parts = file.split("/")
        self.crate = parts[1] if parts[0] == "crates" and len(parts) == 3 else None

    def tables(self):
        """The tables: each a list of rows, and each row its line and its cells."""
        table = []
        for number, line in [*self.lines, (0, "")]:
            if line.lstrip().startswith("|"):
                text = re.sub(r"\\\|", "\0", line.strip())
                cells = [it.strip().replace("\0", "|") for it in re.sub(r"^\||\|$", "", text).split("|")]
                table.append((number, cells))
            elif table:
                yield table
                table = []

    def anchors(self):
        """The anchors of the headings, as GitHub makes them."""
        found = []
        for _, line in self.lines:
            if (it := re.match(r"#+ (.*)", line)):
                anchor = re.sub(r"[^\w\- ]", "", it[1].lower()).strip().replace(" ", "-")
                found.append(f"{anchor}-{found.count(anchor)}" if anchor in found else anchor)
        return found


def slim(cell):
    """The names in backticks of a cell."""
    return SPAN.findall(cell)


def words_after(mark, cell):
    """The names in backticks that follow a mark, with commas or `and` between them."""
    return [it for row in re.findall(rf"{mark} ((?:`[^`]+`(?:, | and )?)+)", cell) for it in slim(row)]


class Checks:
    """The checks of all pages of a repository, and the faults that they found."""

    def __init__(self, top, declared, program=None):
        self.top, self.declared, self.program = top, declared, program
        self.faults = []
        foreign = top / "tools" / "foreign_names.txt"
        lines = foreign.read_text().splitlines() if foreign.is_file() else []
        self.foreign = {it.split("#")[0].strip() for it in lines}
        self.pages = [Page(top, it) for it in sorted(declared.files) if it.endswith(".md")]

    def fault(self, page, line, text):
        self.faults.append(f"{page.file}:{line}: {text}")

    def run(self):
        for page in self.pages:
            self.check_form(page)
            self.check_links(page)
            for number, line in page.lines:
                self.check_names(page, number, line)
            for table in page.tables():
                self.check_table(page, table)
            for block in page.blocks:
                self.check_flags(page, *block)
            if self.program:
                self.check_runs(page)
        self.check_sizes()
        self.check_edit_files()
        return self.faults

    # how a page can be read

    def check_form(self, page):
        for number, line in page.lines:
            width = TABLE_WIDTH if line.lstrip().startswith("|") else WIDTH
            if len(line) > width and "://" not in line:
                self.fault(page, number, f"{len(line)} columns: at most {width}")
        for table in page.tables():
            for number, cells in table:
                words = max(len(it.split()) for it in cells)
                if words > CELL_WORDS:
                    self.fault(page, number, f"a cell of {words} words: at most {CELL_WORDS}")

    def check_sizes(self):
        whole = 0
        for page in self.pages:
            size = len(page.text.encode())
            limit = SIZES.get(page.file)
            if page.crate:
                limit = LARGE_CRATE_SIZE if page.crate in LARGE_CRATES else CRATE_SIZE
            else:
                whole += size
            if limit and size > limit * 1024:
                self.fault(page, 1, f"{size} bytes: at most {limit * 1024}")
        if whole > WHOLE_SIZE * 1024:
            self.faults.append(f"all pages but those of crates: {whole} bytes: at most {WHOLE_SIZE * 1024}")
        for crate in self.declared.crates:
            if f"crates/{crate}/README.md" not in self.declared.files:
                self.faults.append(f"crates/{crate}: no README.md")

    # what a page names

    def check_links(self, page):
        for number, line in page.lines:
            for target in LINK.findall(re.sub(r"`[^`]*`", "", line)):
                path, _, anchor = target.partition("#")
                if "://" in target or target.startswith("mailto:"):
                    continue
                file = os.path.normpath(os.path.join(os.path.dirname(page.file), path)) if path else page.file
                if file not in self.declared.files and not (self.top / file).is_dir():
                    self.fault(page, number, f"the link leads to {file}, which does not exist")
                elif anchor and anchor not in Page(self.top, file).anchors():
                    self.fault(page, number, f"{file} has no heading #{anchor}")

    def files_of(self, page, name):
        """The files that a page means by a path: below the top, below crates/, in its own crate, or
        by a name without a folder."""
        path = name.split(":")[0].rstrip("/")
        if re.search(r"(^|/)[A-Z]{3,}(/|$)", path):
            return self.files_like(path)
        own = f"crates/{page.crate}/{path}" if page.crate else path
        places = [path, f"crates/{path}", own, f"{os.path.dirname(page.file)}/{path}"]
        exact = [it for it in places if it in self.declared.files]
        if exact:
            return exact
        if any(it.startswith(f"{place}/") for place in places for it in self.declared.files):
            return [path]
        return [it for it in self.declared.files if it.endswith(f"/{path}")]

    def files_like(self, path):
        """The files that a path with words as NAME for some of its folders may mean."""
        parts = [r"[^/]+" if re.fullmatch(r"[A-Z]{3,}", it) else re.escape(it) for it in path.split("/")]
        pattern = re.compile(rf"(?:.*/)?{'/'.join(parts)}(?:/.*)?")
        return [it for it in self.declared.files if pattern.fullmatch(it)]

    def check_path(self, page, number, span):
        found = self.files_of(page, span)
        if not found and span not in self.foreign and "/out/" not in f"/{span}/":
            self.fault(page, number, f"no file {span}")
        line = span.partition(":")[2]
        if found and line and int(line) > len((self.top / found[0]).read_text().splitlines()):
            self.fault(page, number, f"{span}: the file has fewer lines")

    def check_names(self, page, number, line):
        for span in SPAN.findall(line):
            if PATH.fullmatch(span) and not span.startswith(("/", "..")):
                self.check_path(page, number, span)
            elif re.fullmatch(rf"{NAME}(?:::{NAME})+(?:\(\))?", span):
                self.check_qualified(page, number, span.rstrip("()"))
            elif re.fullmatch(rf"[A-Z]\w*\.{NAME}", span):
                owner, _, field = span.partition(".")
                if field not in self.declared.fields.get(owner, ()) and span not in self.foreign:
                    self.fault(page, number, f"no record {owner} with a field {field}")
            elif re.fullmatch(r"[a-z]+(?:_[a-z0-9]+)+(?:\(\))?|[A-Z]+[a-z]+[A-Z]\w*|[A-Z]+(?:_[A-Z0-9]+)+", span):
                if span.rstrip("()") not in self.declared.names and span not in self.foreign:
                    self.fault(page, number, f"nothing declares {span}")
        for name, file in PLACED.findall(line):
            self.check_placed(page, number, name, file)
        for name, value in VALUED.findall(line):
            if name in self.declared.values and not self.declared.has_value(name, value.rstrip(",")):
                found = " or ".join(sorted(self.declared.values[name]))
                self.fault(page, number, f"{name} is {found} and not {value}")

    def check_qualified(self, page, number, span):
        """Of a `crate::name` or `Type::name`: the crate or the type declares the name."""
        first, *rest = span.split("::")
        last = rest[-1]
        if span in self.foreign or first in self.foreign:
            return
        if first in self.declared.crates:
            files = self.declared.names.get(last, ())
            known = any(it.startswith(f"crates/{first}/") for it in files)
        else:
            known = last in self.declared.fields.get(span.split("::")[-2], ())
        if not known:
            self.fault(page, number, f"nothing declares {span}")

    def check_placed(self, page, number, name, file):
        """A name is declared in the file that is named with it."""
        files = self.files_of(page, file)
        declares = self.declared.names.get(name.split("::")[-1], set())
        if files and not declares & set(files):
            self.fault(page, number, f"{file} does not declare {name}")

    # tables whose columns say what their cells name

    def check_table(self, page, table):
        heads = [it.lower() for it in table[0][1]]
        columns = {it: heads.index(it) for it in ("crate", "function", "clause", "definition", "where") if it in heads}
        edits = [at for at, it in enumerate(heads) if it.startswith("edit")]
        last = {}
        for number, cells in table[2:]:
            row = {it: cells[at] for it, at in columns.items() if at < len(cells)}
            for it in ("crate", "function"):
                if it in row:
                    row[it] = last[it] = row[it] or last.get(it, "")
            crate = (slim(row.get("crate", "")) or [page.crate])[0]
            if "clause" in row and "function" in row:
                self.check_clauses(page, number, crate, row)
            elif "function" in row and crate:
                self.check_functions(page, number, crate, row)
            if "definition" in row and "where" in row:
                for name in slim(row["definition"]):
                    for file in slim(row["where"])[:1]:
                        self.check_placed(page, number, name, file)
            for at in edits:
                self.check_edits(page, number, crate, cells[at] if at < len(cells) else "")
                if "clause that falls" in heads:
                    self.check_falls(page, number, crate, cells[at], cells[heads.index("clause that falls")])

    def check_functions(self, page, number, crate, row):
        for name in slim(row["function"]):
            if not self.declared.found(name, crate) and not self.is_type_of(name, crate):
                self.fault(page, number, f"{crate} has no function {name}")

    def is_type_of(self, name, crate):
        return any(it.startswith(f"crates/{crate}/src/") for it in self.declared.names.get(name, ()))

    def check_clauses(self, page, number, crate, row):
        for name in slim(row["function"]):
            functions = self.declared.found(name, crate)
            if not functions:
                self.fault(page, number, f"{crate} has no function {name}")
                continue
            for label in slim(row["clause"]):
                has_label = any(label in it.labels for it in functions)
                if not has_label and not (label == "result" and any(it.has_result for it in functions)):
                    self.fault(page, number, f"{name} has no clause {label}")

    def check_edits(self, page, number, crate, cell):
        rows, plants = words_after("rows?", cell), words_after("plants?", cell)
        for word in rows:
            if not any(re.search(rf"\b{re.escape(word)}\b", it) for it in self.declared.rows.values()):
                self.fault(page, number, f"no table of cases has a row {word}")
        for name in plants:
            if f"tools/plants/{name}.patch" not in self.declared.files:
                self.fault(page, number, f"no plant {name}")
        for name in slim(cell):
            owner, _, edit = name.rpartition("/")
            owner = owner or crate
            if name not in rows + plants and edit not in self.declared.edits.get(owner, ()):
                self.fault(page, number, f"{owner} has no edit {edit}")

    def check_falls(self, page, number, crate, edit, cell):
        """What a row says of its edit is what the edit says of itself."""
        for name in slim(edit):
            said = self.declared.falls.get((crate, name), ("", ""))
            named = tuple((slim(cell) + ["result"])[:2])
            if said != named:
                self.fault(page, number, f"by its first line {name} breaks {said[0]}: {said[1]}")

    def check_edit_files(self):
        """Each edit names a function of its crate and a clause of that."""
        for (crate, name), (function, label) in sorted(self.declared.falls.items()):
            functions, place = self.declared.found(function, crate), f"crates/{crate}/must-fail/{name}.edit:1"
            if not functions:
                self.faults.append(f"{place}: {crate} has no function {function or 'in `# Falls: FUNCTION, `label`: ..`'}")
            elif label != "result" and not any(label in it.labels for it in functions):
                self.faults.append(f"{place}: {function} has no clause {label}")

    # fenced blocks

    def check_flags(self, page, number, mark, lines):
        if mark.split()[:1] != ["sh"]:
            return
        for at, line in enumerate(lines, number + 1):
            found = re.search(r"(?:^|\s)((?:tools|deploy|bench)/[\w.-]+)((?:\s.*)?)$", line)
            if not found:
                continue
            if found[1] not in self.declared.files:
                self.fault(page, at, f"no script {found[1]}")
                continue
            text = (self.top / found[1]).read_text(errors="replace")
            for flag in re.findall(r"(?<=\s)--[a-z][a-z-]*", found[2].split("#")[0]):
                if flag not in text and flag != "--help":
                    self.fault(page, at, f"{found[1]} has no flag {flag}")

    def check_runs(self, page):
        for at, (number, mark, lines) in enumerate(page.blocks):
            if mark != "sh run":
                continue
            wanted = None
            if at + 1 < len(page.blocks) and page.blocks[at + 1][1] == "text output":
                wanted = "\n".join(page.blocks[at + 1][2]) + "\n"
            seen = run_block(self.top, self.program, lines)
            if seen.returncode:
                self.fault(page, number, f"status {seen.returncode}: {seen.stderr.strip()[-200:]}")
            elif wanted is not None and seen.stdout != wanted:
                self.fault(page, number, f"it prints {seen.stdout[:200]!r} and not {wanted[:200]!r}")


def run_block(top, program, lines):
    """Runs a block by `sh` at the top, with the program as `tzdistd` and a folder for its files."""
    with tempfile.TemporaryDirectory() as room:
        os.symlink(os.path.abspath(program), os.path.join(room, "tzdistd"))
        environment = {**os.environ, "PATH": f"{room}:{os.environ['PATH']}", "ROOM": room}
        return subprocess.run(
            ["sh", "-eu", "-c", "\n".join(lines)], cwd=top, env=environment, stdin=subprocess.DEVNULL,
            capture_output=True, text=True, errors="replace", timeout=600,
        )


def main():
    flags = argparse.ArgumentParser(
        description="Checks that what the pages name exists, and that they can be read.",
        epilog="example: tools/check_documents.py --program crates/tzdistd/out/tzdistd",
    )
    flags.add_argument("top", nargs="?", type=Path, default=Path(__file__).resolve().parent.parent,
                       help="the repository (default: this one)")
    flags.add_argument("--program", type=Path, metavar="FILE", help="run the blocks marked `sh run` by this tzdistd")
    given = flags.parse_args()
    if given.program and not os.access(given.program, os.X_OK):
        flags.error(f"{given.program} is no program: build it first, as README.md says")
    checks = Checks(given.top.resolve(), Declared(given.top.resolve()), given.program)
    for fault in checks.run():
        print(fault)
    print(f"documents: {len(checks.pages)} pages, {len(checks.faults) or 'no'} faults")
    return 1 if checks.faults else 0


if __name__ == "__main__":
    sys.exit(main())
