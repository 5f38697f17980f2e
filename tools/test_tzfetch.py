#!/usr/bin/env python3
"""Tests of tzfetch.sh over the cases of test_fetch_zoneinfo.py, once with the system's shell and
curl, and once with busybox. Then its shell, applets and wget are all that is on the PATH.

    tools/test_tzfetch.py [PROGRAM] [unittest's words]

Where a PROGRAM is given, a release of it is fetched from end to end as well. What is missing is
skipped, and the output says so. Without further arguments the tests run beside one another. Needs
Python's standard library only.
"""

import faulthandler
import os
import shutil
import subprocess
import sys
import tempfile
import time
import unittest
from pathlib import Path

sys.dont_write_bytecode = True

import test_fetch_zoneinfo as cases
from checks import run_tests_beside
from fetch_zoneinfo import Failed
from test_fetch_zoneinfo import FIRST, SECOND, ZONES, tree_of, tree_wanted

SCRIPT = Path(__file__).resolve().with_name("tzfetch.sh")
WHOLE = 1800

# The seconds that one run may take on a busy machine.
LONG = 600

# The tests that take longest, which start first.
SLOW = "for_a_list", "for_a_zone", "of_zones", "of_aliases", "a_later_run", "the_first_run"
SLOW += "bad_files", "no_json", "bad_lists"
SLOW += "killed_at_any_time", "from_end_to_end", "comes_meanwhile", "comes_and_goes"


def write_program(path, text):
    path.write_text(text)
    path.chmod(0o755)


class Curl:
    """The system's shell with its tools and curl."""

    @staticmethod
    def tools(room):
        missing = [name for name in ("curl", "flock", "sha256sum") if shutil.which(name) is None]
        if missing:
            raise unittest.SkipTest(f"{', '.join(missing)}: not installed")
        return os.environ["PATH"], ["sh"]


class Busybox:
    """The shell of busybox with its applets and nothing else."""

    @staticmethod
    def tools(room):
        program = shutil.which("busybox")
        if program is None:
            raise unittest.SkipTest("busybox: not installed")
        folder = room / "applets"
        folder.mkdir()
        listed = subprocess.run([program, "--list"], check=True, capture_output=True, text=True)
        for name in listed.stdout.split():
            (folder / name).symlink_to(program)
        return str(folder), [str(folder / "sh")]


class Shell(cases.Room):
    """The script, with the tools of one kind."""

    STATE = "state"
    kind = Curl

    def setUp(self):
        self.box = Path(tempfile.mkdtemp())
        self.addCleanup(shutil.rmtree, self.box)
        self.path, self.shell = self.kind.tools(self.box)
        super().setUp()

    def words(self, *words):
        """The command that starts the script, and its environment. Programs of the folder `first`
        come before all others."""
        path = f"{self.box / 'first'}{os.pathsep}{self.path}"
        return [*self.shell, str(SCRIPT), *words], {"PATH": path, "HOME": str(self.box)}

    def command(self, url):
        return self.words(url, str(self.dir))

    def ran(self, *words):
        words, environment = self.words(*words)
        return subprocess.run(
            words, env=environment, capture_output=True, text=True, timeout=LONG, cwd=self.root
        )

    def bring(self, url, seconds=None, **wishes):
        options = ["--timeout", str(seconds)] if seconds else []
        for name, value in wishes.items():
            options += [f"--{name}", value]
        done = self.ran(*options, url, str(self.dir))
        if done.returncode:
            self.assertEqual((done.returncode, done.stdout), (1, ""))
            self.assertRegex(done.stderr, "^failed: [^\n]*\n$")
            raise Failed(done.stderr[8:-1])
        self.assertEqual(done.stderr, "")
        return done.stdout[:-1]


class Fetching(Shell, cases.Fetching):
    """The cases of the other client: each false reply beside a tree, and with curl also without
    one."""

    def state(self):
        """The state in the form of the other client."""
        if not self.state_path().is_file():
            return None
        state = {"zones": {}}
        for line in self.state_path().read_text().splitlines():
            word, *values = line.split("\t")
            if word == "Z":
                tzid, etag, tag, digest = values
                state["zones"][tzid] = {"etag": etag, "aliases": [], "tag": tag, "sha256": digest}
            elif word == "A":
                state["zones"][values[1]]["aliases"].append(values[0])
            elif values:
                state[word] = values[0]
        return state

    def lied(self, lies, target, part="", first=True):
        if self.kind is Busybox:
            # its wget hides the body of a refusal, so each is taken for the refusal of a token
            hidden = "a refusal that is no problem"
            lies = {what: lie for what, lie in lies.items() if what != hidden}
        self.begin_anew()
        self.fake.releases = [FIRST]
        for what, lie in lies.items() if first and self.kind is Curl else ():
            with self.subTest(what):
                self.refused_with({target.rstrip("?"): lie}, part)
        self.fetch()
        self.fake.releases = [FIRST, SECOND]
        for what, lie in lies.items():
            with self.subTest(what):
                self.refused_with({target: lie}, part)
        self.holds(FIRST)
        self.fetch()
        self.holds(SECOND)

    def test_one_run_at_a_time(self):
        faults = []

        def run_beside(tzid):
            """Another run while this one gets a zone."""
            if tzid not in FIRST:
                return
            try:
                faults.append(self.bring(self.fake.url))
            except Failed as fault:
                faults.append(str(fault))

        self.fake.before_get = run_beside
        self.fetch()
        self.assertEqual(faults, [f"{self.dir}: another run is at work"] * 3)
        self.holds(FIRST)

    def test_a_full_disk(self):
        """A program that fails leaves DIR as it was. A file that cannot be linked is copied."""
        self.fetch()
        self.fake.releases.append(SECOND)
        first = self.box / "first"
        first.mkdir()
        client = "wget" if self.kind is Busybox else "curl"
        for name in ("ln", "mv", "mkdir", "cp", "sync", "sha256sum", "awk", client):
            with self.subTest(name):
                write_program(first / name, "#!/bin/sh\necho No space left >&2\nexit 1\n")
                with self.assertRaises((Failed, AssertionError)):
                    self.fetch()
                (first / name).unlink()
                self.assertEqual(tree_of(self.dir), tree_wanted(FIRST))
        real = shutil.which("ln", path=self.path)
        write_program(first / "ln", f'#!/bin/sh\ncase $1 in -s) exec {real} "$@" ;; esac\nexit 1\n')
        self.fetch()
        self.holds(SECOND)

    def test_a_stale_lock(self):
        """A run that was killed leaves a lock behind, which the next run removes."""
        boot = Path("/proc/sys/kernel/random/boot_id").read_text().strip()
        for holder in (f"pid-999999999-{boot}", "pid-1-another", f"pid-1-{boot}", "nonsense"):
            self.fetch()
            Path(f"{self.dir}.trees/running").symlink_to(holder)
            self.fetch()
            Path(f"{self.dir}.trees/running").unlink(missing_ok=True)
            self.holds(FIRST)

    def test_words(self):
        wrong = [[], ["x"], ["x", "y", "z"], ["--what", "x", "y"], ["--dns"]]
        wrong += [["--timeout", "0", "x", "y"], ["--domain", "x", "y", "z"]]
        for words in wrong:
            done = self.ran(*words)
            self.assertEqual((done.returncode, done.stdout), (2, ""), words)
            self.assertIn("try --help", done.stderr)
        done = self.ran("--help")
        self.assertEqual((done.returncode, done.stderr), (0, ""))
        self.assertIn("Example", done.stdout)

    def test_json_forms(self):
        """Lists that are the same in another form of JSON."""
        plain = '{"synctoken":"t \\"1\\\\","timezones":[{"tzid":"A/B","etag":"e","aliases":["C"]}]}'
        forms = [
            plain,
            plain.replace("/", "\\/").replace("e", "e"),
            plain.replace("A/B", "\\u0041\\u002fB"),
            plain.replace(",", " ,\r\n\t").replace(":", " : "),
            plain[:-1] + ',"more":[1,-2.5e+3,true,false,null,"\\u00e9\\n",{"synctoken":"no"}]}',
            plain[:-1] + ',"more":{"timezones":[{"x":"y"}],"synctoken":[]}}',
            plain.replace('{"tzid"', '{"publisher":"\u00e9 \\ud83d\\ude00","x":{"tzid":1},"tzid"'),
        ]
        for form in forms:
            with self.subTest(form):
                self.begin_anew()
                self.fake.lies, self.fake.any_name = {ZONES: cases.said(200, form.encode())}, True
                line, _ = self.fetch()
                self.assertIn('t "1\\, 1 zones, 2 names', line)
                self.assertEqual(set(tree_of(self.dir)), {"A/B", "C"})
        self.fake.lies = {}

    def test_no_json(self):
        plain = '{"synctoken":"t","timezones":[{"tzid":"A","etag":"e","aliases":["C"]}]}'
        edits = [("A", text) for text in ("\\x", "\\u00", "\x01", "A\0")]
        edits += [("]}]", ",]}]"), ("}]", "},1]")]
        edits += [('"t"', text) for text in ("tru", "01", '["t"]', '""', "null", "5")]
        edits += [('["C"]', text) for text in ('[["C"]]', "[null]", '"C"', "{}")]
        edits += [('"e"', "{}"), ('"tzid":"A",', "")]
        edits += [('"timezones":', '"timezones"'), ('"t",', '"t",,')]
        self.assertTrue(all(plain.count(old) == 1 for old, _ in edits))
        texts = [plain.replace(old, new) for old, new in edits]
        texts += [plain + "}", plain + " x", plain[:-1], '"' + plain, "", '"', "{}", "5"]
        for text in texts:
            with self.subTest(text):
                self.fake.lies = {ZONES: cases.said(200, text.encode())}
                self.refused("a list that is none")


class FetchingByBusybox(Fetching):
    kind = Busybox


class Connections(Shell, cases.Faked):
    """With curl all files of a run come over one connection."""

    def test_files_of_a_run(self):
        self.fetch()
        files = [peer for target, peer in self.fake.peers if target.startswith(ZONES + "/")]
        self.assertEqual((len(files), len(set(files))), (len(FIRST), 1))


class Secure(Shell, cases.Secure):
    pass


class SecureByBusybox(Shell, cases.Secure):
    """Its wget leaves certificates to openssl(1)."""

    kind = Busybox

    def setUp(self):
        super().setUp()
        (self.box / "first").mkdir()
        (self.box / "first/openssl").symlink_to(shutil.which("openssl"))

    def test_without_openssl(self):
        (self.box / "first/openssl").unlink()
        with self.assertRaisesRegex(Failed, "this wget does not check certificates"):
            self.bring(self.fake.url)
        with self.assertRaisesRegex(Failed, "--cacert needs"):
            self.bring(self.fake.url, cacert=self.authority)


def group_runs(group):
    """Whether a process of the group has not ended."""
    for name in os.listdir("/proc"):
        try:
            state, _, its, *_ = Path("/proc", name, "stat").read_text().rpartition(")")[2].split()
        except (OSError, ValueError):
            continue
        if its == str(group) and state not in "ZX":
            return True
    return False


class Killed(Shell, cases.Killed):
    """A run that is killed before a program that changes the disk leaves an old or a new tree.

    Three classes have a third of the steps each, so that these run beside one another.
    """

    STRIDE, FEW = 3, (3, 0)

    def kill(self, step):
        """A run that is killed before its program of this number, from 1. Returns whether it
        was."""
        first, counter = self.box / "first", self.box / "count"
        shutil.rmtree(first, ignore_errors=True)
        first.mkdir()
        counter.write_text("")
        for name in ("mkdir", "ln", "mv", "cp", "rm", "sync"):
            real = shutil.which(name, path=self.path)
            text = f"""#!/bin/sh
echo >> {counter}
count=0
while read -r _; do count=$((count + 1)); done < {counter}
if [ $count -eq {step} ]; then
    read -r _ _ _ _ group _ < /proc/self/stat
    kill -9 -$group
fi
exec {real} "$@"
"""
            write_program(first / name, text)
        words, environment = self.command(self.fake.url)
        quiet = {"stdout": subprocess.DEVNULL, "stderr": subprocess.DEVNULL}
        with subprocess.Popen(words, env=environment, start_new_session=True, **quiet) as child:
            status = child.wait(LONG)
        # the others of its group hold its lock until they have ended, too
        end = time.monotonic() + LONG
        while group_runs(child.pid):
            self.assertLess(time.monotonic(), end)
            time.sleep(0.01)
        shutil.rmtree(first)
        return status == -9


class KilledBeforeTheSecond(Killed):
    BEGIN = 2


class KilledBeforeTheThird(Killed):
    BEGIN = 3


class ServedAndFetched(Shell, cases.ServedAndFetched):
    """From the built program to a tree of a device, which has some zones with their aliases. The
    tests of the other client have all zones of the system."""

    SOME = "Etc/UTC", "America/New_York", "Asia/Kolkata", "Europe/Dublin", "Pacific/Apia"


class ServedAndFetchedByBusybox(ServedAndFetched):
    kind = Busybox


def main():
    words = sys.argv[:]
    if len(words) > 1 and os.sep in words[1]:
        cases.PROGRAM = os.path.abspath(words.pop(1))
        if not os.path.exists(cases.PROGRAM):
            sys.exit(f"{cases.PROGRAM} is not built: README says how")
    if len(words) == 1:
        sys.exit(run_tests_beside(WHOLE, SLOW))
    # tests that wait for ever are ended
    faulthandler.dump_traceback_later(WHOLE, exit=True)
    unittest.main(argv=words)


if __name__ == "__main__":
    main()
