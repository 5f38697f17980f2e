#!/usr/bin/env python3
"""Tests of gate_times.py with made folders like /proc. Needs Python's standard library only."""

import subprocess
import sys
import tempfile
import unittest
from pathlib import Path

sys.dont_write_bytecode = True
import gate_times

SCRIPT = Path(__file__).with_name("gate_times.py")
CHECK = ("/kit/bin/rattle", "check", "--crate-name", "low", "src/lib.rt")
TESTS = ("/kit/bin/rattle", "build", "--crate-name", "low", "src/lib.rt", "--test")
SEED = (*CHECK, "--incremental", "/tmp/rt-edits-1-x/seed")


class Watching(unittest.TestCase):
    def setUp(self):
        folder = tempfile.TemporaryDirectory()
        self.addCleanup(folder.cleanup)
        self.proc = Path(folder.name)

    def begin(self, pid, parent, words, cwd="/work/crates/low", seconds=0.0, name="rattle", began=7):
        """A process. Half of its seconds is its own time in user mode, half that of children that
        have ended."""
        folder = self.proc / str(pid)
        folder.mkdir(exist_ok=True)
        ticks = int(seconds * gate_times.TICKS / 2)
        fields = ["S", str(parent), *"0 0 0 0 0 0 0 0 0".split(), str(ticks), "0", str(ticks), "0"]
        fields += [*"20 0 1 0".split(), str(began), *"0 0 0".split()]
        (folder / "stat").write_text(f"{pid} ({name}) {' '.join(fields)}\n")
        (folder / "cmdline").write_text("".join(f"{it}\0" for it in words))
        (folder / "cwd").unlink(missing_ok=True)
        (folder / "cwd").symlink_to(cwd)

    def works(self, top=1):
        return sorted(gate_times.works(gate_times.processes(self.proc), top).values())

    def test_kinds(self):
        self.begin(1, 0, ("python3", "/bin/rt", "ci"), name="rt) (ci")
        self.begin(2, 1, CHECK, seconds=3)
        self.begin(3, 1, TESTS, seconds=4)
        self.begin(4, 1, SEED, seconds=5)
        self.begin(5, 1, CHECK, cwd="/tmp/rt-edit-1-y", seconds=6)
        self.begin(6, 1, ("/tmp/rt-run-1-z/bin/app",), seconds=1)
        self.begin(7, 1, ("runner", "x"), seconds=9)
        self.begin(8, 7, ("/tmp/rt-run-1-z/bin/low_tests",), seconds=2)
        wanted = [("app", "runs", 1), ("low", "edits", 5), ("low", "edits", 6), ("low", "library", 3)]
        self.assertEqual(self.works(), [*wanted, ("low", "runs", 2), ("low", "tests", 4)])

    def test_jobs_count_once(self):
        self.begin(1, 0, ("rt",))
        self.begin(2, 1, CHECK, seconds=3)
        self.begin(3, 2, CHECK, seconds=4)
        self.begin(4, 3, CHECK, seconds=5)
        self.assertEqual(self.works(), [("low", "library", 12)])

    def test_others_are_left_out(self):
        self.begin(1, 0, ("rt",))
        self.begin(2, 9, CHECK, seconds=3)
        self.begin(3, 1, ("/kit/bin/rattle", "fmt"), seconds=3)
        self.begin(4, 1, (), seconds=3)
        (self.proc / "self").mkdir()
        (self.proc / "5").mkdir()
        self.assertEqual(self.works(), [])

    def test_sums(self):
        watch = gate_times.Watch()
        watch.take({(2, 7): ("low", "library", 1.0), (3, 7): ("low", "tests", 2.0)}, 10)
        watch.take({(2, 7): ("low", "library", 5.0)}, 14)
        watch.take({(2, 8): ("low", "library", 3.0), (4, 9): ("high", "edits", 1.0)}, 17)
        sums, clock = watch.sums()
        self.assertEqual(sums["low"], {"library": 8.0, "tests": 2.0, "edits": 0, "runs": 0})
        self.assertEqual((sums["high"]["edits"], clock), (1.0, {"low": 7}))
        text = gate_times.table(watch, {"low": [], "high": ["low"]})
        self.assertIn("\nlow                         8        2        0        0       10", text)
        self.assertTrue(text.endswith("longest chain of libraries: 0.1 minutes: low high\n"), text)

    def test_chains(self):
        text = "# a comment\nlow: std\nmid may_wait=1: low hex # more\nside: low\ntop: mid side\n"
        crates = gate_times.crates_in(text)
        self.assertEqual(crates, {"low": [], "mid": ["low"], "side": ["low"], "top": ["mid", "side"]})
        clock = {"low": 60, "mid": 30, "side": 90, "top": 1}
        self.assertEqual(gate_times.longest(crates, clock), (151, ["low", "side", "top"]))
        self.assertEqual(gate_times.longest({}, {}), (0, []))

    def test_a_command(self):
        words = [sys.executable, str(SCRIPT), sys.executable, "-c", "import sys; sys.exit(3)"]
        done = subprocess.run(words, capture_output=True, text=True, check=False)
        self.assertEqual((done.returncode, done.stdout.split()[0]), (3, "crate"))
        self.assertEqual(subprocess.run(words[:2], capture_output=True, check=False).returncode, 2)


if __name__ == "__main__":
    unittest.main()
