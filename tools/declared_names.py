"""What the files of this repository declare, for pages that name it. These are files, crates,
functions with the labels of their clauses, types, definitions with their fields, constants with
their values, and edits.

It reads by the layout that `rt fmt` keeps, so it needs no parser. Python's standard library only.
"""

import os
import re
import subprocess
from pathlib import Path

from gate_times import crates_in

# Declarations of Rattle source, of definitions, and of Python.
FUNCTION = re.compile(r"^\s*(?:pub(?:\([a-z]+\))? )?(?:const |unsafe |ghost |final )*fn (\w+)")
TYPE = re.compile(r"^\s*(?:pub(?:\([a-z]+\))? )?(?:struct|enum|trait|union|type) (\w+)")
ALIAS = re.compile(r"^(?:pub )?type (\w+)(?:<[^=]*>)? = (\w+)")
CONSTANT = re.compile(r"^\s*(?:pub(?:\([a-z]+\))? )?(?:const|static) (\w+)\s*(?::[^=]+)?=\s*([^;]*)")
IMPL = re.compile(r"^\s*impl(?:<.*?>)? (?:[\w:]+(?:<.*>)? for )?&?(?:'\w+ )?(?:mut )?(\w+)")
CLAUSE = re.compile(r"^\s*(ensures|requires)(?: ([\w]+))? \{")
MEMBER = re.compile(r"^\s*(?:pub(?:\([a-z]+\))? )?(?:ghost )?([a-z_]\w*)\s*:")
VARIANT = re.compile(r"^    ([A-Z]\w*)\s*(?:[,({=]|$)")
KEYWORD = "abbrev|unfoldable|record|data|ruleset|inductive|pattern"
DEFINITION = re.compile(
    # also in a `module _`
    rf"^(?:  )?((?:pub )?(?:(?:{KEYWORD}) (?:pub )?)+)([^\s:(){{}}]+)(?:\s|$)"
    r"|^(pub )?([^\s:(){}]+)\s+:"
)
FIELD = re.compile(r"^\s+(?:pub )?([^\s:(){}=]+)\s+:")
FALLS = re.compile(r"# Falls: ([\w:]+)(?:, `(\w+)`)?: ")
PYTHON = re.compile(r"^\s*(?:def|class) (\w+)|^([A-Z][A-Z_0-9]*)(?:, [A-Z_0-9]+)* = (.*)")


def listed_files(top):
    """The files of the repository, as git lists them, or all where there is no git."""
    done = subprocess.run(
        ["git", "ls-files", "-co", "--exclude-standard"], cwd=top, capture_output=True, text=True
    )
    if done.returncode == 0:
        return sorted(it for it in done.stdout.split("\n") if it and (top / it).is_file())
    return sorted(
        os.path.relpath(os.path.join(at, it), top)
        for at, _, files in os.walk(top) for it in files if "/out/" not in f"{at}/"
    )


class Function:
    """A function: its crate, its type if it has one, its file, and the labels of its clauses, of
    which some are conditions."""

    def __init__(self, crate, owner, name, file):
        self.crate, self.owner, self.name, self.file = crate, owner, name, file
        self.labels, self.required, self.has_result = set(), set(), False

    def full_name(self):
        return f"{self.owner}::{self.name}" if self.owner else self.name


class Declared:
    """What is declared where."""

    def __init__(self, top):
        self.top = Path(top)
        self.files = set(listed_files(self.top))
        listed = self.top / "crates.txt"
        self.crates = crates_in(listed.read_text()) if listed.is_file() else {}
        self.functions = []
        self.names = {}      # a name, and the files that declare it
        self.fields = {}     # a type or definition, and the names of its fields, variants, methods
        self.values = {}     # a constant, and its values
        self.aliases = {}    # a type, and the type that it is another name of
        self.edits = {}      # a crate, and the names of its edits
        self.falls = {}      # a crate and an edit, and the function and the clause that it breaks
        self.rows = {}       # a crate of cases, and the text of its table
        for file in sorted(self.files):
            self._read(file)
        words = "".join(listed.read_text() if listed.is_file() else "")
        for name in re.findall(r"\w+", words):
            self.names.setdefault(name, set()).add("crates.txt")
        for name, other in self.aliases.items():
            self.fields.setdefault(name, set()).update(self.fields.get(other, ()))

    def _read(self, file):
        for part in re.split(r"[/.-]", file):
            self._add(part, file)
        self._add(Path(file).stem, file)
        parts = file.split("/")
        if file.endswith(".rt"):
            self._read_source(file, parts[1] if parts[0] == "crates" else "")
        elif file.endswith(".antt"):
            self._read_definitions(file)
        elif file.endswith(".py"):
            self._read_python(file)
        elif file.endswith(".edit"):
            self.edits.setdefault(parts[1], set()).add(Path(file).stem)
            found = FALLS.match(self._text(file))
            self.falls[parts[1], Path(file).stem] = (found[1], found[2] or "result") if found else ("", "")
        elif parts[0] == "crates" and parts[-1] == "stdin":
            self.rows[parts[1]] = self._text(file)

    def _text(self, file):
        return (self.top / file).read_text(errors="replace")

    def _add(self, name, file, owner=None):
        self.names.setdefault(name, set()).add(file)
        if owner:
            self.fields.setdefault(owner, set()).add(name)

    def _read_source(self, file, crate):
        owner, function = None, None
        for line in self._text(file).splitlines():
            if line[:1] not in (" ", "", "}", "/", "#", ")", "w", "-", ">"):
                found = IMPL.match(line) or TYPE.match(line)
                owner = found[1] if found else None
            if (found := FUNCTION.match(line)):
                function = Function(crate, owner if line[:1] == " " else None, found[1], file)
                self.functions.append(function)
                self._add(found[1], file, function.owner)
            elif (found := CLAUSE.match(line)) and function:
                if found[2]:
                    function.labels.add(found[2])
                    function.required |= {found[2]} if found[1] == "requires" else set()
                    self._add(found[2], file)
                function.has_result |= found[1] == "ensures" and not found[2]
            elif (found := TYPE.match(line)):
                self._add(found[1], file)
                if (found := ALIAS.match(line)):
                    self.aliases[found[1]] = found[2]
            elif (found := CONSTANT.match(line)):
                self._add(found[1], file, owner if line[:1] == " " else None)
                self.values.setdefault(found[1], set()).add(found[2].strip())
            elif (found := VARIANT.match(line) or MEMBER.match(line)):
                self._add(found[1], file, owner)

    def _read_definitions(self, file):
        owner = None
        for line in self._text(file).splitlines():
            found = DEFINITION.match(line)
            name = found and (found[2] or found[4])
            if name and name not in ("use", "mod", "module", "--"):
                owner = name
                self._add(owner, file)
            elif owner and (found := FIELD.match(line)):
                self._add(found[1], file, owner)

    def _read_python(self, file):
        for line in self._text(file).splitlines():
            if (found := PYTHON.match(line)):
                self._add(found[1] or found[2], file)
                if found[2]:
                    self.values.setdefault(found[2], set()).add(found[3].strip())

    def found(self, name, crate=None):
        """The functions of a name, which may have the name of a crate or of a type before it."""
        parts = name.split("::")
        if len(parts) > 1 and parts[0] in self.crates:
            crate, parts = parts[0], parts[1:]
        owner = parts[-2] if len(parts) > 1 else None
        owner = self.aliases.get(owner, owner)
        return [
            it for it in self.functions
            if it.name == parts[-1] and (crate is None or it.crate == crate) and (owner is None or it.owner == owner)
        ]

    def has_value(self, name, text):
        """Whether a constant has a value, as a page writes it: digits with or without commas."""
        plain = re.sub(r"[,_\s]", "", text)
        return any(plain == re.sub(r"[,_\s]|(?:usize|u\d+|i\d+)$", "", it) for it in self.values.get(name, ()))
