#!/usr/bin/env python3
"""Tests of try_plants.py in a made repository, with a made rt. Needs git and Python's standard
library."""

import contextlib
import io
import os
import subprocess
import sys
import tempfile
import unittest
from pathlib import Path

sys.dont_write_bytecode = True
import try_plants

PATCH = """\
# The sum is one too many.
# proves: low
# refuses: laws sums_are_these
diff --git a/crates/low/src/lib.rt b/crates/low/src/lib.rt
--- a/crates/low/src/lib.rt
+++ b/crates/low/src/lib.rt
@@ -1,3 +1,3 @@
 fn sum() -> u8 {
-    2
+    3
 }
"""
FILES = {
    "crates.txt": "low: thiserror\nlaws: low\n",
    "crates/low/src/lib.rt": "fn sum() -> u8 {\n    2\n}\n",
    "crates/low/must-fail/sum.edit": "file: src/lib.rt\n",
    "crates/laws/src/lib.rt": "pub fn sums_are_these()\n    ensures two { sum ≡ 2 }\n{}\n",
    "tools/plants/sum.patch": PATCH,
}
REFUSED = """\
low is kept: an earlier run on this machine proved the same files over the same libraries
== laws
fn laws::others::hold: proved
fn laws::sums::sums_are_these: no proof: `search` did not prove `returns-clause-two`
rt: laws NOT PROVED
FAILED: laws
"""
# A made rt, which says this if the plant was made and no edit was left.
RT = """\
#!/bin/sh
grep -q 3 crates/low/src/lib.rt && [ ! -e crates/low/must-fail ] && [ "$*" = "ci low laws" ] &&
    cat "$SAID"
exit 1
"""


def plant(room, text=PATCH, name="sum"):
    path = Path(room) / f"{name}.patch"
    path.write_text(text)
    return try_plants.Plant(path)


class Plants(unittest.TestCase):
    def setUp(self):
        folder = tempfile.TemporaryDirectory()
        self.addCleanup(folder.cleanup)
        self.room = Path(folder.name).resolve()
        self.top = self.room / "top"
        for file, text in FILES.items():
            (self.top / file).parent.mkdir(parents=True, exist_ok=True)
            (self.top / file).write_text(text)
        who = ("-c", "user.name=x", "-c", "user.email=x@x")
        for words in (("init", "-q"), ("add", "."), (*who, "commit", "-q", "-m", "made")):
            subprocess.run(["git", *words], cwd=self.top, check=True)

    def said(self, call, *given):
        """What a call returns and prints."""
        out = io.StringIO()
        with contextlib.redirect_stdout(out):
            result = call(*given)
        return result, out.getvalue()

    def test_head(self):
        found = plant(self.room)
        self.assertEqual((found.name, found.proves, found.label), ("sum", ["low"], ""))
        self.assertEqual(found.law(), "laws::sums_are_these")
        found = plant(self.room, PATCH.replace(" low\n", "\n").replace("these\n", "these two\n"))
        self.assertEqual((found.proves, found.label), ([], "two"))

    def test_check(self):
        result, text = self.said(try_plants.check, [plant(self.room)], self.top)
        self.assertEqual((result, text), (True, "1 plants, 0 of which cannot be tried\n"))
        for old, new, wanted in (
            ("# proves", "# prove", "begins with no lines"),
            ("laws sums", "law sums", "crates.txt has no crate law"),
            ("sums_are", "sums_were", "laws has no function sums_were_these"),
            ("these\n", "these one\n", "sums_are_these has no clause one"),
            ("-    2", "-    4", "sum does not apply: error"),
        ):
            with self.subTest(new):
                other = plant(self.room, PATCH.replace(old, new))
                result, text = self.said(try_plants.check, [other], self.top)
                self.assertFalse(result)
                self.assertIn(wanted, text)

    def test_verdicts(self):
        labelled, law = PATCH.replace("these\n", "these two\n"), "laws::sums_are_these"
        for text, patch, wanted in (
            (REFUSED, PATCH, (True, f"refused by {law}")),
            (REFUSED, labelled, (True, f"refused by {law}")),
            (REFUSED.replace("-two", "-one"), labelled,
             (False, f"{law} is refused, but not for its clause two")),
            (REFUSED.replace("_are", "_were"), PATCH, (False, f"{law} does not refuse it")),
            ("low proved\nlaws proved\n", PATCH, (False, f"{law} does not refuse it")),
            ("fn low::sum: no proof: x\nlow NOT PROVED\n", PATCH,
             (False, "low is not proved: sum")),
            ("", PATCH, (False, "low is not proved: see what rt printed")),
        ):
            with self.subTest(text):
                self.assertEqual(try_plants.Verdict(text).of(plant(self.room, patch)), wanted)

    def tried(self, said):
        """Tries the plant of the made repository with an rt that says this."""
        program, file = self.room / "bin" / "rt", self.room / "said"
        program.parent.mkdir(exist_ok=True)
        program.write_text(RT)
        program.chmod(0o755)
        file.write_text(said)
        before = try_plants.TOP, dict(os.environ)
        os.environ.update(PATH=f"{program.parent}:{os.environ['PATH']}", SAID=str(file))
        try_plants.TOP = self.top
        try:
            plants = try_plants.plants_of([], self.top / "tools" / "plants")
            return self.said(try_plants.trial, plants, self.room / "logs")
        finally:
            try_plants.TOP = before[0]
            os.environ.clear()
            os.environ.update(before[1])

    def test_trial(self):
        result, text = self.tried(REFUSED)
        self.assertTrue(result)
        self.assertRegex(text, r"^sum +\d+ s  refused by laws::sums_are_these\n$")
        self.assertEqual((self.room / "logs" / "sum.log").read_text(), REFUSED)
        self.assertFalse(self.tried("low proved\nlaws proved\n")[0])

    def test_all_plants_can_be_tried(self):
        plants = try_plants.plants_of([], try_plants.PLANTS)
        result, text = self.said(try_plants.check, plants, try_plants.TOP)
        self.assertTrue(result, text)


if __name__ == "__main__":
    unittest.main()
