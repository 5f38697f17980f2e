#!/usr/bin/env python3
"""Tests of read_foreign_calendars.py with made files. Needs Python's standard library only.

The program is replaced by one that answers as `reader_model.py` does, or wrongly on purpose.
"""

import contextlib
import io
import sys
import tempfile
import unittest
from pathlib import Path

sys.dont_write_bytecode = True
import read_foreign_calendars
from asked_cases import table_of, written
from calendar_model import meaning

HERE = Path(__file__).parent
ANSWERING = f"""#!{sys.executable}
import sys
sys.dont_write_bytecode = True
sys.path.insert(0, {str(HERE)!r})
from asked_cases import written
from calendar_model import meaning
from reader_model import expected
named = {{}}
for line in sys.stdin.read().splitlines():
    if line.startswith("let "):
        _, name, text = line.split(" ", 2)
        named[name] = meaning(text, named)
    else:
        kind, *words = line.split(" ")
        answer = expected(kind, [meaning(word, named) for word in words])
        print(f"{{line}}:  is expected, and {{written(answer)}} is given".replace("CHANGE", "CHANGED"))
"""

PART = "BEGIN:{0}\nDTSTART:19{1}\nTZOFFSETFROM:+0{2}00\nTZOFFSETTO:+0{3}00\nTZNAME:{4}\nRRULE:FREQ=YEARLY;BYMONTH={5};BYDAY=-1SU\nEND:{0}\n"
BERLIN = PART.format("DAYLIGHT", "810329T020000", 1, 2, "CEST", 3) + PART.format("STANDARD", "961027T030000", 2, 1, "CET", 10)


def calendar(tzid, parts=BERLIN, more=""):
    return f"BEGIN:VCALENDAR\nVERSION:2.0\n{more}BEGIN:VTIMEZONE\nTZID:{tzid}\n{parts}END:VTIMEZONE\nEND:VCALENDAR\n"


class Telling(unittest.TestCase):
    def setUp(self):
        folder = tempfile.TemporaryDirectory()
        self.addCleanup(folder.cleanup)
        self.folder = Path(folder.name)
        self.tree = self.folder / "tree"
        self.tree.mkdir()

    def write(self, name, text, ends="\r\n"):
        (self.tree / name).write_bytes(text.replace("\n", ends).encode())

    def told(self, wrong="", faults=False):
        program = self.folder / "program"
        program.write_text(ANSWERING.replace('"CHANGE", "CHANGED"', wrong or '"", ""'))
        program.chmod(0o755)
        with contextlib.redirect_stdout(io.StringIO()) as out:
            differ = read_foreign_calendars.read_tree(str(program), self.tree, faults)
        return differ, [line.strip() for line in out.getvalue().splitlines()]

    def test_each_way_of_reading(self):
        self.write("a.ics", calendar("Europe/Berlin"))
        self.write("b.ics", calendar("Europe/Berlin"), "\n")
        self.write("c.ics", calendar("/maker/1/Europe/Berlin"))
        self.write("d.ics", calendar("Europe/Berlin", BERLIN.replace("-1SU", "5SU"), "BEGIN:VEVENT\nEND:VEVENT\n"))
        self.write("e.txt", calendar("W. Europe Standard Time"))
        self.write("f.txt", "BEGIN:VCALENDAR\nEND:VCALENDAR\n")
        differ, said = self.told()
        self.assertEqual(differ, 0)
        self.assertEqual(
            said,
            [
                "tree: 5 files with a time zone",
                "as they stand: 1 of 4 are read; 1 Line; 1 Value at TZID; 1 Frame at BEGIN",
                "alone: 1 of 4 are read; 2 Value at TZID; 1 Rule at RRULE",
                "named anew: 3 of 4 are read; 1 Rule at RRULE",
                "2020 to 2030: 2 of 2 agree in offset, 2 in offset and name",
            ],
        )

    def test_other_offsets_and_names(self):
        self.write("a.ics", calendar("Europe/Berlin", BERLIN.replace("CEST", "MESZ")))
        self.write("b.ics", calendar("Europe/Berlin", BERLIN.replace("T020000", "T010000")))
        self.assertEqual(self.told()[1][-1], "2020 to 2030: 1 of 2 agree in offset, 0 in offset and name")
        self.assertIn(f"{self.tree / 'b.ics'}: Europe/Berlin has other offsets", self.told(faults=True)[1])

    def test_an_answer_other_than_the_models_is_told(self):
        self.write("a.ics", calendar("Europe/Berlin"))
        differ, said = self.told('"CEST", "CST"')
        self.assertEqual(differ, 4)
        self.assertTrue(all("OTHER THAN THE MODEL" in line for line in said[1:]))

    def test_texts_in_a_table(self):
        text = "".join(map(chr, range(256))) + "\\x41 $(a)"
        self.assertEqual(meaning(written(text), {}), text)
        self.assertEqual(table_of(["a b"], ["read $(t0)"]), "let t0 a b\nread $(t0)\n")


if __name__ == "__main__":
    unittest.main()
