#!/usr/bin/env python3
"""Tests of function_times.py with given names and times. Needs Python's standard library only."""

import os
import subprocess
import sys
import tempfile
import unittest
from pathlib import Path

sys.dont_write_bytecode = True
import function_times

SCRIPT = Path(__file__).with_name("function_times.py")
FILES = (
    (10.0, "Rattle-low-proofs.reading.read.Code.Mir.oantt"),
    (14.0, "Rattle-low-proofs.reading.read.Lts.View.decls.oantt"),
    (15.5, "Rattle-low.specs.contracts.reading.read.Key.oantt"),
    (15.5, "judged"),
    (17.0, "Rattle-low-proofs.Lemmas.oantt"),
    (17.5, "Rattle-low-proofs.line.LineDebug.fmt.Proof.oantt"),
)


class Times(unittest.TestCase):
    def test_names(self):
        for name, wanted in (
            ("Rattle-low-proofs.reading.read.Lts.oantt", ("reading.read", "Lts")),
            ("Rattle-low-specs.contracts.reading.read.oantt", ("reading.read", "")),
            ("Rattle-low-proofs.line.LineDebug.fmt.Tie.decls.oantt", ("line.LineDebug.fmt", "Tie")),
            ("Rattle-low-proofs.Lemmas.oantt", ("Lemmas", "")),
            ("judged", None),
        ):
            with self.subTest(name):
                self.assertEqual(function_times.function_in(name), wanted)

    def test_time_is_that_of_the_next_file(self):
        sums = function_times.times_of(FILES)
        self.assertEqual(sums["reading.read"], {"Lts": 4.0, "Key": 1.5})
        self.assertEqual(sums["Lemmas"], {"": 1.5})
        self.assertEqual(sums["line.LineDebug.fmt"], {"Proof": 0.5})

    def test_table_of_a_folder(self):
        with tempfile.TemporaryDirectory() as folder:
            below = Path(folder) / "checked"
            below.mkdir()
            for moment, name in FILES:
                (below / name).touch()
                os.utime(below / name, (moment, moment))
            ran = subprocess.run([sys.executable, SCRIPT, folder, "--most", "2"], capture_output=True, text=True)
        self.assertEqual(ran.returncode, 0, ran.stderr)
        self.assertEqual(
            ran.stdout.splitlines(),
            ["     7.5  in all", "     5.5  reading.read  Lts=4.0 Key=1.5", "     1.5  Lemmas"],
        )


if __name__ == "__main__":
    unittest.main()
