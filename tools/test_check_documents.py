#!/usr/bin/env python3
"""Tests of check_documents.py: it finds each kind of fault in a small repository, and nothing else.

    tools/test_check_documents.py
"""

import subprocess
import sys
import tempfile
from pathlib import Path

import check_documents
from check_documents import Checks
from declared_names import Declared

FILES = {
    "crates.txt": "base: arrayvec\nupper: base\n",
    "crates/base/README.md": "# base\n",
    "crates/upper/README.md": "# upper\n",
    "crates/base/src/lib.rt": """
pub const MOST_PLACES: usize = 4_096;
pub struct Names<V> {
    kept_names: Vec<V>,
}
impl<V: Value> Names<V> {
    pub fn find_one(&self) -> bool
        requires sorted { IsSorted self.now }
        ensures found { Finds result }
    {
        true
    }
}
pub enum EndOf {
    WasClosed,
}
pub type OtherNames = Names<u8>;
pub trait Reading {
    final fn read_all(&self) -> bool
        ensures { IsRead result };
}
""",
    "crates/upper/src/lib.rt": "/// Calls it.\npub fn call_it() -> bool\n    ensures calls { true }\n{\n}\n",
    "crates/base/specs/Sorted.antt": """-- what is sorted
abbrev pub IsSorted : List -> Type
pub record FitsAfter (a : List) : Type where
  pub no_name_dropped : a
module _ {V : Type} where
  pub data LeadsTo (v : V)
    : Type where
    BySteps : LeadsTo v
""",
    "crates/base/must-fail/found_nothing.edit": "# Falls: Names::find_one, `found`: it is found.\nfile: src/lib.rt\n",
    "crates/upper/stdin": "worker 1 2 = 3\n",
    "tools/plants/wrong.patch": "# It is wrong.\n",
    "tools/make_it.py": "ROOM = 12\nflags.add_argument('--made-at')\n",
    "docs/OTHER.md": "# Other things\n\n## What is here (now)\n",
}

GOOD = """# A page

Names: `base::Names`, `Names::find_one`, `OtherNames::find_one`, `Reading::read_all`,
`EndOf::WasClosed`,
`kept_names`, `FitsAfter.no_name_dropped`, `LeadsTo`, `MOST_PLACES` (4,096), `ROOM` is 12.
Files: `base/src/lib.rt`, `crates/base/src/lib.rt:5`, `Sorted.antt`, `tools/`,
`crates/base/out/base`, `crates/NAME/src/lib.rt`.
`IsSorted` (`base/specs/Sorted.antt`) and [others](docs/OTHER.md#what-is-here-now).

| Crate | Function | Clause | Edit or row |
|---|---|---|---|
| `base` | `Names::find_one` | `found`, `sorted` | `found_nothing`, row `worker`, plant `wrong` |
| | `read_all` | `result` | |
| `upper` | `call_it` | `calls` | `base/found_nothing` |

| Definition | Where |
|---|---|
| `LeadsTo` | `base/specs/Sorted.antt` |

| Crate | Edit | Clause that falls |
|---|---|---|
| `base` | `found_nothing` | `Names::find_one`: `found` |

```sh
python3 tools/make_it.py --made-at 3
```

```sh run
tzdistd one
```

```text output
said one
```
"""

# A text, what replaces it, and what the fault then says.
FAULTS = (
    ("`base::Names`", "`base::Nothing`", "nothing declares base::Nothing"),
    ("`Names::find_one`, `Other", "`Names::find_two`, `Other", "nothing declares Names::find_two"),
    ("`OtherNames::find_one`", "`OtherNames::find_two`", "nothing declares OtherNames::find_two"),
    ("`kept_names`", "`lost_names`", "nothing declares lost_names"),
    ("`LeadsTo`, ", "`LeadsFrom`, ", "nothing declares LeadsFrom"),
    ("`FitsAfter.no_name_dropped`", "`FitsAfter.kept`", "no record FitsAfter with a field kept"),
    ("`MOST_PLACES` (4,096)", "`MOST_PLACES` (4,095)", "MOST_PLACES is 4_096 and not 4,095"),
    ("`ROOM` is 12", "`ROOM` is 13", "ROOM is 12 and not 13"),
    ("`MOST_PLACES` (", "`MOST_THINGS` (", "nothing declares MOST_THINGS"),
    ("`Sorted.antt`, `tools", "`Unsorted.antt`, `tools", "no file Unsorted.antt"),
    ("lib.rt:5`", "lib.rt:500`", "the file has fewer lines"),
    ("`tools/`", "`tolls/x.py`", "no file tolls/x.py"),
    ("`crates/NAME/src/lib.rt`", "`crates/NAME/src/lab.rt`", "no file crates/NAME/src/lab.rt"),
    ("`IsSorted` (`base/specs/Sorted.antt`)", "`call_it` (`base/specs/Sorted.antt`)", "does not declare call_it"),
    ("OTHER.md#", "ANOTHER.md#", "docs/ANOTHER.md, which does not exist"),
    ("#what-is-here-now", "#what-is-there", "docs/OTHER.md has no heading #what-is-there"),
    ("| `found`, `sorted` |", "| `found`, `lost` |", "Names::find_one has no clause lost"),
    ("| `calls` |", "| `result` |", "call_it has no clause result"),
    ("| | `read_all` |", "| | `read_none` |", "base has no function read_none"),
    ("| `found_nothing`, row", "| `found_all`, row", "base has no edit found_all"),
    ("| `Names::find_one`: `found` |", "| `Names::find_one`: `sorted` |", "by its first line found_nothing breaks"),
    ("row `worker`", "row `walker`", "no table of cases has a row walker"),
    ("plant `wrong`", "plant `strong`", "no plant strong"),
    ("| `LeadsTo` | `base/specs/Sorted.antt`", "| `Names` | `base/specs/Sorted.antt`", "does not declare Names"),
    ("--made-at 3", "--made-by 3", "tools/make_it.py has no flag --made-by"),
    ("tools/make_it.py --", "tools/take_it.py --", "no script tools/take_it.py"),
    ("tzdistd one", "tzdistd two", "it prints 'said two"),
    ("tzdistd one", "exit 3", "status 3"),
    ("Names: ", "Names: " + "word " * 20, "columns: at most 100"),
    ("| `call_it` |", "| `call_it` " + "word " * 40 + "|", "a cell of 41 words: at most 40"),
    ("# A page\n", "# A page\n" + "A line of words that are true.\n" * 300, "bytes: at most 8192"),
)


def faults_of(page, files=FILES, program=None):
    """The faults of a repository with this README."""
    with tempfile.TemporaryDirectory() as room:
        top = Path(room).resolve()
        for name, text in {**files, "README.md": page}.items():
            path = top / name
            path.parent.mkdir(parents=True, exist_ok=True)
            path.write_text(text)
        tzdistd = top / "said"
        tzdistd.write_text('#!/bin/sh\necho "said $*"\n')
        tzdistd.chmod(0o755)
        return Checks(top, Declared(top), tzdistd).run()


def check(what, fact):
    if not fact:
        sys.exit(f"documents: {what}")


def main():
    found = faults_of(GOOD)
    check(f"a good page has faults: {found}", found == [])
    for old, new, wanted in FAULTS:
        check(f"{old!r} stands on the page once", GOOD.count(old) == 1)
        found = faults_of(GOOD.replace(old, new))
        check(f"{new[:60]!r} gives {wanted!r}: {found}", len(found) >= 1 and any(wanted in it for it in found))
        check(f"{new[:60]!r} gives faults of one line only: {found}", len(found) <= 2)
    lacking = {name: text for name, text in FILES.items() if name != "crates/upper/README.md"}
    check("a crate without a page is found", faults_of(GOOD, lacking) == ["crates/upper: no README.md"])
    edit = "crates/base/must-fail/found_nothing.edit"
    for text, wanted in (
        ("file: src/lib.rt\n", "base has no function in `# Falls"), ("# Falls: lost: it is.\n", "base has no function lost"),
        ("# Falls: Names::find_one, `lost`: it is.\n", "Names::find_one has no clause lost"),
    ):
        found = faults_of(GOOD, {**FILES, edit: text})
        check(f"an edit that names no clause is found: {found}", any(wanted in it for it in found))
    large = {**FILES, "crates/upper/README.md": "A line of words.\n" * 300}
    check("a crate's page that is too large is found", "at most 4096" in faults_of(GOOD, large)[0])
    whole = {**FILES, **{f"docs/MORE{it}.md": "A line of words.\n" * 600 for it in range(20)}}
    check("pages that are too large together are found", "all pages but those of crates" in faults_of(GOOD, whole)[-1])
    script = [sys.executable, check_documents.__file__, "--program", "/nothing"]
    done = subprocess.run(script, capture_output=True, text=True)
    check("an absent program is refused", done.returncode == 2 and "build it first" in done.stderr)
    print(f"documents: {len(FAULTS) + 7} faults are found, all well")


if __name__ == "__main__":
    main()
