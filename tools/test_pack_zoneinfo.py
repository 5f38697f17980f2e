#!/usr/bin/env python3
"""Tests of pack_zoneinfo.py with small trees made here. Needs Python's standard library only."""

import contextlib
import gzip
import io
import json
import os
import shutil
import stat
import struct
import subprocess
import sys
import tempfile
import time
import unittest
from calendar import timegm
from pathlib import Path
from unittest import mock

sys.dont_write_bytecode = True

import pack_zoneinfo

SCRIPT = Path(__file__).with_name("pack_zoneinfo.py")
MODULES = ("leap_table.py", "slim_zone.py", "tz_release.py", "zone_file.py", "zone_states.py")
SYSTEM = Path("/usr/share/zoneinfo")


def zone_file(name, leaps=0, version=b"2", transitions=0):
    """A TZif file of one type, with this many leap seconds and transitions."""
    block = b"".join(struct.pack(">q", at) for at in range(transitions)) + bytes(transitions)
    block += struct.pack(">iBB", 0, 0, 0) + name + b"\0"
    block += b"".join(struct.pack(">qi", 78_796_800 + at, 1 + at) for at in range(leaps))

    def header(*counts):
        return b"TZif" + version + bytes(15) + struct.pack(">6I", *counts)

    second = header(0, 0, leaps, transitions, 1, len(name) + 1)
    return header(0, 0, 0, 0, 1, 1) + bytes(7) + second + block + b"\n" + name + b"0\n"


def moment_of(text):
    return timegm(time.strptime(text, "%Y-%m-%d %H:%M"))


EASTERN = (-18_000, 0, b"EST"), (-14_400, 1, b"EDT")


def ruled_file(rows, footer, types=EASTERN, slim_first=False):
    """A TZif file whose two blocks have these rows, each a time and the number of a type."""
    times = [moment_of(text) for text, _ in rows]
    numbers = bytes(number for _, number in rows)
    names = b"".join(name + b"\0" for _, _, name in types)
    ends = [names.index(name + b"\0") for _, _, name in types]
    described = b"".join(
        struct.pack(">iBB", offset, flag, end) for (offset, flag, _), end in zip(types, ends)
    )

    def block(form, times, numbers):
        counts = struct.pack(">6I", 0, 0, 0, len(times), len(types), len(names))
        moments = struct.pack(f">{len(times)}{form}", *times)
        return b"TZif2" + bytes(15) + counts + moments + numbers + described + names

    first = block("i", [], b"") if slim_first else block("i", times, numbers)
    return first + block("q", times, numbers) + b"\n" + footer + b"\n"


def second_block(data):
    """The place of the second header of a file."""
    return data.index(b"TZif", 4)


# The changes of New York by its files: the rule of 2006, and that of later years twice.
NEW_YORK = [
    ("2006-04-02 07:00", 1),
    ("2006-10-29 06:00", 0),
    ("2007-03-11 07:00", 1),
    ("2007-11-04 06:00", 0),
    ("2008-03-09 07:00", 1),
    ("2008-11-02 06:00", 0),
]
RULE = b"EST5EDT,M3.2.0,M11.1.0"

UTC, ALPHA, BETA = zone_file(b"UTC"), zone_file(b"AAA"), zone_file(b"BBB")
SOURCE = "# version 2025b\nZ A/Alpha 0 - AAA\nL A/Alpha A/Old\nZ Etc/UTC 0 - UTC\nL A/Old Older\n"
TREE = {"A/Alpha": ALPHA, "A/Old": ALPHA, "Older": ALPHA, "Etc/UTC": UTC}


def in_days(days):
    """The seconds from 1900 to this many days from now, as a leap-seconds.list has them."""
    return int(time.time()) + 86_400 * days + 2_208_988_800


def leap_list(expires):
    """A leap-seconds.list of 1972-07-01 and 1973-01-01."""
    return f"#@\t{expires}\n2272060800\t10\t# 1 Jan 1972\n2287785600\t11\n2303683200\t12\n"


class Packing(unittest.TestCase):
    def setUp(self):
        folder = tempfile.TemporaryDirectory()
        self.addCleanup(folder.cleanup)
        self.root = Path(folder.name)
        self.tree, self.release = self.root / "zoneinfo", self.root / "release"

    def grow(self, files, source=SOURCE):
        for name, data in files.items():
            path = self.tree / name
            path.parent.mkdir(parents=True, exist_ok=True)
            path.write_bytes(data if isinstance(data, bytes) else data.encode())
        if source is not None:
            (self.tree / "tzdata.zi").write_text(source)

    def pack(self, *flags, script=SCRIPT, **more):
        words = [sys.executable, str(script), str(self.tree), str(self.release), *flags]
        return subprocess.run(words, capture_output=True, text=True, check=False, **more)

    def packed(self, *flags, warning=""):
        """The manifest of a release that was packed with this warning, or none."""
        done = self.pack(*flags)
        self.assertEqual(done.returncode, 0, done.stderr)
        self.assertIn(warning, done.stderr)
        self.assertEqual(done.stderr.count("\n"), 1 if warning else 0, done.stderr)
        self.printed = done.stdout
        return json.loads((self.release / "manifest.json").read_text())

    def packed_zone(self, data, *flags):
        """What the file of a zone is in a release."""
        shutil.rmtree(self.release, ignore_errors=True)
        self.grow({**TREE, "Etc/UTC": data})
        self.packed(*flags)
        return (self.release / "Etc/UTC").read_bytes()

    def refused(self, part, *flags):
        done = self.pack(*flags)
        self.assertEqual(done.returncode, 1)
        self.assertIn(part, done.stderr)
        self.assertFalse(self.release.exists())
        self.assertEqual([path.name for path in self.root.iterdir()], ["zoneinfo"])

    def test_names_of_the_source(self):
        others = {"posix/A/Alpha": ALPHA, "right/A/Alpha": zone_file(b"AAA", 2), "zone.tab": "#\n"}
        self.grow({**TREE, **others})
        manifest = self.packed("--stamp", "2025-03-22T00:00:00Z")
        self.assertEqual(
            manifest,
            {
                "publisher": "IANA",
                "version": "2025b",
                "stamp": "2025-03-22T00:00:00Z",
                "zones": [
                    {"tzid": "A/Alpha", "file": "A/Alpha", "aliases": ["A/Old", "Older"]},
                    {"tzid": "Etc/UTC", "file": "Etc/UTC"},
                ],
            },
        )
        files = [path for path in self.release.rglob("*") if path.is_file()]
        names = sorted(path.relative_to(self.release).as_posix() for path in files)
        self.assertEqual(names, ["A/Alpha", "Etc/UTC", "manifest.json"])
        self.assertEqual((self.release / "A/Alpha").read_bytes(), ALPHA)

    def test_names_of_the_files(self):
        tables = {
            "zone1970.tab": "#c\nXX\t+0+0\tZ/Named\tnote\n",
            "zone.tab": "XX\t+0+0\tB/Second\n",
            "iso3166.tab": "XX\tNowhere\n",
        }
        files = {"A/First": ALPHA, "Z/Named": ALPHA, "A/Other": BETA, "B/Second": BETA}
        self.grow({**files, **tables, "Etc/UTC": UTC, "UTC": UTC, "localtime": UTC}, source=None)
        manifest = self.packed("--version", "2025b")
        zones = [(zone["tzid"], zone.get("aliases", [])) for zone in manifest["zones"]]
        wanted = [("B/Second", ["A/Other"]), ("Etc/UTC", ["UTC"]), ("Z/Named", ["A/First"])]
        self.assertEqual(zones, wanted)

    def test_a_source_elsewhere(self):
        self.grow(TREE, source=None)
        other = self.root / "zoneinfo" / "names.zi"
        other.write_text("# version 2024a\nZ Etc/UTC 0 - UTC\n")
        manifest = self.packed("--tzdata-zi", str(other), "--publisher", "Test")
        self.assertEqual((manifest["version"], manifest["publisher"]), ("2024a", "Test"))
        self.assertEqual(manifest["zones"], [{"tzid": "Etc/UTC", "file": "Etc/UTC"}])

    def test_leap_seconds_of_the_list(self):
        # An expiry on 2025-12-28.
        self.grow({**TREE, "leap-seconds.list": leap_list(3_975_868_800)})
        manifest = self.packed(warning="zoneinfo: the leap second table expired on 2025-12-28")
        wanted = {"file": "leap-seconds.tzif", "expires": "2025-12-28"}
        self.assertEqual(manifest["leapseconds"], wanted)
        data = (self.release / "leap-seconds.tzif").read_bytes()
        self.assertEqual(struct.unpack(">qiqi", data[-30:-6]), (78_796_800, 1, 94_694_401, 2))

    def test_leap_seconds_of_the_table(self):
        lines = "Leap\t1972\tJun\t30\t23:59:60\t+\tS\nLeap\t1972\tDec\t31\t23:59:60\t+\tS\n"
        self.grow({**TREE, "leapseconds": f"#c\n{lines}#expires 1766880000 (2025-12-28)\n"})
        manifest = self.packed("--leap-seconds", warning="expired on 2025-12-28")
        self.assertEqual(manifest["leapseconds"]["expires"], "2025-12-28")
        data = (self.release / "leap-seconds.tzif").read_bytes()
        self.assertEqual(struct.unpack(">qiqi", data[-30:-6]), (78_796_800, 1, 94_694_401, 2))

    def test_leap_seconds_of_right(self):
        right = zone_file(b"UTC", 2)
        table = "#expires 1766880000 (2025-12-28)\n"
        self.grow({**TREE, "right/Etc/UTC": right, "leapseconds": table})
        manifest = self.packed(warning="expired on 2025-12-28")
        self.assertEqual(manifest["leapseconds"]["expires"], "2025-12-28")
        self.assertEqual((self.release / "leap-seconds.tzif").read_bytes(), right)

    def test_warnings_of_an_expiry(self):
        for days, warning in ((33, ""), (30, "table expires on"), (-1, "table expired on")):
            with self.subTest(days):
                shutil.rmtree(self.release, ignore_errors=True)
                self.grow({**TREE, "leap-seconds.list": leap_list(in_days(days))})
                self.assertIn("leapseconds", self.packed(warning=warning))

    def test_leap_seconds_are_left_out(self):
        self.grow({**TREE, "leap-seconds.list": leap_list(in_days(-1))})
        self.assertNotIn("leapseconds", self.packed("--no-leap-seconds"))
        self.assertIn("no leap seconds", self.printed)
        self.assertFalse((self.release / "leap-seconds.tzif").exists())

    def test_faulty_leap_tables(self):
        cases = [
            ("leap-seconds.list", "#@\tsoon\n", "leap-seconds.list: no table of leap seconds"),
            ("leap-seconds.list", f"#@\t{in_days(90)}\n", "try --no-leap-seconds"),
        ]
        for name, text, part in cases:
            with self.subTest(part):
                self.grow({**TREE, name: text})
                self.refused(part)

    def test_the_stamp_is_that_of_the_release_of_tz(self):
        news = (
            b"News for the tz database\n\nRelease 2025b - 2025-03-22 13:40:46 -0700\n\n"
            b"Release 2025a - 2025-01-15 10:47:24 -0800\n"
        )
        folder = self.root / "doc" / "tzdata"
        folder.mkdir(parents=True)
        (folder / "changelog.gz").write_bytes(gzip.compress(news))
        later, earlier = "2025-03-22T20:40:46Z", "2025-01-15T18:47:24Z"
        for version, stamp in (("2025b", later), ("2025a", earlier), ("2025b-1", later)):
            with self.subTest(version):
                shutil.rmtree(self.release, ignore_errors=True)
                self.grow(TREE, SOURCE.replace("2025b", version))
                self.assertEqual(self.packed()["stamp"], stamp)
                self.assertIn(f"version {version} of {stamp}, 2 zones, 4 names", self.printed)

    def test_the_stamp_without_news(self):
        self.grow(TREE, SOURCE.replace("2025b", "1899z"))
        for name in TREE:
            os.utime(self.tree / name, (1_000_000_000, 1_000_000_000))
        os.utime(self.tree / "Etc/UTC", (1_600_000_000, 1_600_000_000))
        self.assertEqual(self.packed()["stamp"], "2020-09-13T12:26:40Z")

    def test_modes_whatever_the_umask(self):
        self.grow({**TREE, "leap-seconds.list": leap_list(in_days(90))})
        self.release = self.root / "made" / "release"
        done = self.pack(preexec_fn=lambda: os.umask(0o077))
        self.assertEqual(done.returncode, 0, done.stderr)
        made = [self.release.parent, self.release, *self.release.rglob("*")]
        modes = {(path.is_dir(), stat.S_IMODE(path.stat().st_mode)) for path in made}
        self.assertEqual(modes, {(True, 0o755), (False, 0o644)})

    def test_installed_in_one_folder(self):
        """As in a package: the modules are beside the script, and it is run from anywhere."""
        self.grow(TREE)
        folder = self.root / "installed"
        folder.mkdir()
        for name in (SCRIPT.name, *MODULES):
            shutil.copy(SCRIPT.with_name(name), folder)
        done = self.pack(script=folder / SCRIPT.name, cwd="/", env={"PATH": os.environ["PATH"]})
        self.assertEqual((done.returncode, done.stderr), (0, ""))
        self.assertEqual(sorted(os.listdir(folder)), sorted([SCRIPT.name, *MODULES]))

    def test_transitions_that_the_footer_gives_are_left_out(self):
        fat, shorter = ruled_file(NEW_YORK, RULE), ruled_file(NEW_YORK[:3], RULE)
        slim = self.packed_zone(fat)
        self.assertEqual(slim, fat[: second_block(fat)] + shorter[second_block(shorter) :])
        self.assertIn("1 zone files in slim form, 1 as they came", self.printed)

    def test_forms_of_files(self):
        """What is left of the transitions of a file, by their places."""
        never = ("1990-01-01 00:00", 0)
        ended = [NEW_YORK[0], NEW_YORK[1], ("2006-12-01 00:00", 0), ("2007-02-01 00:00", 0)]
        cases = [
            ("one that changes nothing", [never, *NEW_YORK], RULE, [1, 2, 3]),
            ("the rule that goes on from one that changes nothing", ended, RULE, [0, 1, 2]),
            ("a state for ever", [*NEW_YORK[:2], ended[2]], b"EST5", [0, 1]),
            ("nothing but the first state", [never], b"EST5", []),
            ("nothing, and a rule from then on", [never], RULE, [0]),
            ("a footer with another name", NEW_YORK, b"EST5EXT,M3.2.0,M11.1.0", range(6)),
            ("no footer", [never, *NEW_YORK], b"", range(7)),
            ("a footer that is no TZ string", NEW_YORK, b"EST5EDT,M3.2.0", range(6)),
        ]
        for what, rows, footer, places in cases:
            with self.subTest(what):
                fat = ruled_file(rows, footer)
                zone = pack_zoneinfo.read_zone_file(self.packed_zone(fat), what)
                times = [moment_of(rows[place][0]) for place in places]
                self.assertEqual(list(zone.times), times)
                self.assertEqual(zone.footer, footer)

    def test_daylight_saving_time_whose_length_is_not_shown(self):
        """A zone that moves its standard time as daylight saving time begins keeps the next
        transition.
        """
        types = (-3_600, 0, b"-01"), (-3_600, 1, b"-01"), (-7_200, 0, b"-02")
        rule = b"<-02>2<-01>,M3.5.0/-1,M10.5.0/0"
        before = [("2020-01-01 00:00", 2), ("2021-01-01 00:00", 0)]
        after = ["2024-03-31 01:00", "2024-10-27 01:00", "2025-03-30 01:00", "2025-10-26 01:00"]
        fat = ruled_file(before + list(zip(after, (1, 2, 1, 2))), rule, types)
        zone = pack_zoneinfo.read_zone_file(self.packed_zone(fat), "a file")
        self.assertEqual(zone.times[2:], tuple(map(moment_of, after[:2])))

    def test_files_that_stay_as_they_are(self):
        fat = ruled_file(NEW_YORK, RULE)
        self.assertEqual(self.packed_zone(fat, "--as-they-are"), fat)
        self.assertIn("0 zone files in slim form, 2 as they came", self.printed)
        slim = ruled_file(NEW_YORK, RULE, slim_first=True)
        self.assertEqual(self.packed_zone(slim), slim)

    def test_a_slim_form_that_says_something_else_is_not_written(self):
        fat = ruled_file(NEW_YORK, RULE)
        wrongs = [
            ruled_file(NEW_YORK[:1] + NEW_YORK[3:], RULE),
            ruled_file(NEW_YORK[:3], RULE.replace(b"EDT", b"EXT")),
            ruled_file(NEW_YORK[:3], RULE, types=(EASTERN[0], (-14_400, 0, b"EDT"))),
            ruled_file([*NEW_YORK[:2], ("2007-03-11 07:01", 1)], RULE),
            # This says the same, but its footer disagrees with its last transition.
            ruled_file([*NEW_YORK[:2], ("2007-03-11 07:00", 0)], RULE),
        ]
        for number, wrong in enumerate(wrongs):
            with self.subTest(number):
                shutil.rmtree(self.release, ignore_errors=True)
                self.grow({**TREE, "Etc/UTC": fat})
                output = io.StringIO()
                options = pack_zoneinfo.options_of([str(self.tree), str(self.release)])
                with mock.patch.object(pack_zoneinfo, "slim_form", lambda data, zone: wrong):
                    with contextlib.redirect_stdout(output):
                        pack_zoneinfo.pack(options)
                self.assertEqual((self.release / "Etc/UTC").read_bytes(), fat)
                unlike = "as they came, since the slim form would differ: A/Alpha, Etc/UTC\n"
                self.assertIn(unlike, output.getvalue())

    def test_a_file_whose_footer_disagrees(self):
        """The zone is left out, or stays as an older release has it. Both are printed."""
        faulty = [
            ruled_file(NEW_YORK, b"EST4EDT,M3.2.0,M11.1.0"),
            ruled_file(NEW_YORK, b"EXT5EDT,M3.2.0,M11.1.0"),
            ruled_file(NEW_YORK[:3], b"EST5", slim_first=True),
        ]
        cause = "since its TZ string disagrees with its last transition: `zic -b fat`"
        self.grow(TREE)
        self.packed()
        older = self.root / "older"
        self.release.rename(older)
        for data, flags in zip(faulty, ([], ["--as-they-are"], [])):
            with self.subTest(data=data[-30:], flags=flags):
                self.grow({"Etc/UTC": data})
                shutil.rmtree(self.release, ignore_errors=True)
                manifest = self.packed(*flags, warning=f"Etc/UTC: left out, {cause}")
                self.assertEqual([zone["tzid"] for zone in manifest["zones"]], ["A/Alpha"])
                self.assertIn("1 zones, 3 names", self.printed)
                self.assertIn("left out, since their files are faulty: Etc/UTC\n", self.printed)
                self.assertFalse((self.release / "Etc").exists())
                shutil.rmtree(self.release)
                flags = [*flags, "--keep-from", str(older)]
                manifest = self.packed(*flags, warning=f"Etc/UTC: kept as it was, {cause}")
                self.assertEqual(len(manifest["zones"]), 2)
                self.assertEqual((self.release / "Etc/UTC").read_bytes(), UTC)
                self.assertIn("as they were, since their files are faulty: Etc/UTC", self.printed)

    def test_an_older_release_to_keep_from(self):
        """A zone may be an alias there. Its file must be accepted, and nothing else is taken."""
        faulty = ruled_file(NEW_YORK, b"EST4EDT,M3.2.0,M11.1.0")
        older = self.root / "zoneinfo" / "older"
        for zones, kept in (
            ([{"tzid": "UTC", "file": "z", "aliases": ["Etc/UTC"]}], UTC),
            ([{"tzid": "Etc/UTC", "file": "bad"}, {"tzid": "Gone", "file": "z"}], None),
            ([], None),
        ):
            with self.subTest(kept):
                shutil.rmtree(self.release, ignore_errors=True)
                manifest = json.dumps({"zones": zones})
                self.grow({**TREE, "Etc/UTC": faulty, "older/bad": faulty, "older/z": UTC})
                (older / "manifest.json").write_text(manifest)
                found = self.packed("--keep-from", str(older), warning="warning: Etc/UTC: ")
                names = [zone["tzid"] for zone in found["zones"]]
                self.assertEqual(names, ["A/Alpha", "Etc/UTC"] if kept else ["A/Alpha"])
                if kept:
                    self.assertEqual((self.release / "Etc/UTC").read_bytes(), kept)
        shutil.rmtree(self.release)
        for text in ("", "[]", '{"zones":[{"tzid":"A"}]}'):
            (older / "manifest.json").write_text(text)
            self.refused("no manifest of a release", "--keep-from", str(older))

    def test_a_tree_of_which_no_zone_is_left(self):
        faulty = ruled_file(NEW_YORK, b"EST4EDT,M3.2.0,M11.1.0")
        self.grow({"Etc/UTC": faulty}, "# version 2025b\nZ Etc/UTC 0 - UTC\n")
        self.refused("zoneinfo: no zone is left")

    def test_refusals(self):
        many = "".join(f"L A/Alpha B/{number}\n" for number in range(16_384))
        no_footer = "Etc/UTC: no TZ string between line feeds"
        backwards = ruled_file(NEW_YORK[::-1], RULE)
        beyond = ruled_file([("2006-04-02 07:00", 2)], RULE)
        cases = [
            ({"Etc/UTC": b"TZif"}, SOURCE, "Etc/UTC: no TZif file"),
            ({"Etc/UTC": zone_file(b"UTC", version=b"1")}, SOURCE, "TZif file of a version other"),
            ({"Etc/UTC": zone_file(b"UTC", 1)}, SOURCE, "Etc/UTC: a zone file with leap seconds"),
            ({"Etc/UTC": zone_file(b"UTC", transitions=4_097)}, SOURCE, "UTC: 4097 transitions"),
            ({"Etc/UTC": UTC + bytes(65_536)}, SOURCE, "Etc/UTC: 65647 bytes"),
            ({"Etc/UTC": UTC[:-6]}, SOURCE, no_footer),
            ({"Etc/UTC": UTC + b"x"}, SOURCE, no_footer),
            ({"Etc/UTC": UTC[:-6] + b"x\nUTC0\n"}, SOURCE, no_footer),
            ({"Etc/UTC": backwards}, SOURCE, "Etc/UTC: a transition that is not after"),
            ({"Etc/UTC": beyond}, SOURCE, "Etc/UTC: a transition to a type"),
            ({"A/Old": BETA}, SOURCE, "A/Old: other bytes than its target"),
            ({}, SOURCE + "Z Not/There 0 - X\n", "Not/There: No such file"),
            ({}, SOURCE + "L Nobody A/New\n", "leads to no zone"),
            ({}, SOURCE + "L A/New A/Newer\nL A/Newer A/New\n", "leads to no zone"),
            ({}, SOURCE + "L A/Alpha Etc/UTC\n", "the name 'Etc/UTC' stands twice"),
            ({}, SOURCE + f"L A/Alpha {'a' * 65}\n", "is no identifier"),
            ({}, SOURCE + "L A/Alpha A//B\n", "is no identifier"),
            ({}, SOURCE + "L A/Alpha ../B\n", "has a segment that names a folder"),
            ({}, SOURCE + many, "16388 names, more than 16384"),
            ({}, SOURCE.replace("2025b", "2025 b"), "the tree tells no version"),
        ]
        for files, source, part in cases:
            with self.subTest(part):
                self.grow({**TREE, **files}, source)
                self.refused(part)

    def test_refused_flags(self):
        self.grow(TREE)
        flags = [
            ("--stamp", "2025-03-22"),
            ("--stamp", "2025-02-30T00:00:00Z"),
            ("--stamp", "9999-01-01T00:00:00Z"),
            ("--version", ""),
            ("--publisher", "a" * 65),
        ]
        for flag, value in flags:
            with self.subTest(value):
                self.refused(flag, flag, value)
        self.refused("leap table expires", "--leap-seconds")

    def test_a_folder_that_is_there_stays(self):
        self.grow(TREE)
        self.release.mkdir()
        done = self.pack()
        self.assertEqual((done.returncode, list(self.release.iterdir())), (1, []))


if __name__ == "__main__":
    unittest.main()
