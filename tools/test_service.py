#!/usr/bin/env python3
"""Tests of the service's scripts with the built program: each branch of a start, an install and a
follow. They need no root, no systemd, and only Python's standard library.

    tools/test_service.py [PROGRAM]

A small script replaces the program or the console where either is to fail.
"""

import contextlib
import fcntl
import json
import os
import shutil
import signal
import socket
import stat
import struct
import subprocess
import sys
import tempfile
import time
import unittest

sys.dont_write_bytecode = True
HERE = os.path.dirname(os.path.abspath(__file__))
DEPLOY = os.path.join(os.path.dirname(HERE), "deploy")
sys.path[:0] = [HERE, DEPLOY]

import tzdistd_service
from checks import release
from served import PROGRAM, address_of, free_port, slim_zone
from tzdistd_priority import can_return

FIRST, SECOND = "2025-06-01T00:00:00Z", "2025-07-01T00:00:00Z"


# How long anything may take on a busy machine, in seconds. No test measures speed.
LONG = 120


def text_of(path):
    with open(path, encoding="utf-8") as file:
        return file.read()


def write(path, data, mode=None):
    os.makedirs(os.path.dirname(path), exist_ok=True)
    with open(path, "wb") as file:
        file.write(data if isinstance(data, bytes) else data.encode())
    if mode is not None:
        os.chmod(path, mode)


def edit(folder, **members):
    """Changes members of a manifest, and removes those that are None."""
    path = os.path.join(folder, "manifest.json")
    manifest = json.loads(text_of(path))
    manifest.update(members)
    write(path, json.dumps({name: value for name, value in manifest.items() if value is not None}))


def faulty_zone():
    """A zone file whose TZ string gives another offset than its last transition."""
    data = slim_zone(1)
    second = data.index(b"TZif", 4)
    header, rest = data[second : second + 44], data[second + 44 :]
    header = header[:32] + struct.pack(">I", 1) + header[36:]
    return data[:second] + header + struct.pack(">qB", 0, 0) + rest.replace(b">-1\n", b">-5\n")


class Running:
    """A server that tzdistd-serve started."""

    def __init__(self, room, environment):
        self.room = room
        self.output = open(os.path.join(room.at, "journal"), "ab+")
        self.child = subprocess.Popen(
            [os.path.join(DEPLOY, "tzdistd-serve")], env=environment, stdin=subprocess.DEVNULL, stdout=self.output,
            stderr=subprocess.STDOUT,
        )

    def wait(self, seconds=LONG):
        status = self.child.wait(seconds)
        self.output.close()
        return status

    def stop(self):
        self.child.send_signal(signal.SIGTERM)
        return self.wait()


class Trial(unittest.TestCase):
    """A folder with the state of a service."""

    def setUp(self):
        self.at = os.path.realpath(tempfile.mkdtemp())
        self.addCleanup(shutil.rmtree, self.at, ignore_errors=True)
        self.releases, self.refused = os.path.join(self.at, "state/releases"), os.path.join(self.at, "state/refused")
        self.run_folder = os.path.join(self.at, "run")
        os.makedirs(self.releases)
        os.makedirs(self.run_folder)
        self.program = PROGRAM
        self.values = {}

    def environment(self, **more):
        names = {
            "RUNTIME_DIRECTORY": self.run_folder, "RELEASES": self.releases, "WORKERS": "2", "TZDISTD": self.program,
            "ADDRESS": address_of(free_port()), "TZDISTD_SETTINGS": os.path.join(self.at, "settings"),
            "TREE": os.path.join(self.at, "tree"), "TZDISTD_QUIET": "0", "PATH": os.environ["PATH"],
        }
        return {**names, **self.values, **more}

    def add(self, name, version="2025a", stamp=FIRST, **zones):
        """A release in the folder of releases, with these offsets in hours for the zones."""
        return release(os.path.join(self.releases, name), version, self.zones(zones), stamp)

    def source(self, name, version="2025a", stamp=FIRST, **zones):
        """A release elsewhere."""
        return release(os.path.join(self.at, name), version, self.zones(zones), stamp)

    @staticmethod
    def zones(given):
        return {f"Test/{name}": hours for name, hours in (given or {"Alpha": 1, "Beta": 2}).items()}

    def tree(self, version="2025a", leaps=None, **zones):
        """A tree of zone files, as a system has them."""
        tree, zones = os.path.join(self.at, "tree"), self.zones(zones)
        shutil.rmtree(tree, ignore_errors=True)
        for name, hours in zones.items():
            write(os.path.join(tree, name), slim_zone(hours))
        write(os.path.join(tree, "tzdata.zi"), f"# version {version}\n" + "".join(f"Z {name} 0 - X\n" for name in zones))
        return tree

    def start(self, **more):
        """A server that is ready."""
        running = Running(self, self.environment(**more))
        self.addCleanup(self.end, running)
        console, replies = (os.path.join(self.run_folder, name) for name in ("console", "replies"))

        def is_ready():
            self.assertIsNone(running.child.poll(), self.journal())
            return os.path.exists(console) and os.path.getsize(replies)

        self.until("ready", is_ready)
        return running

    def until(self, what, holds):
        """Waits until something is true."""
        end = time.monotonic() + LONG
        while not holds():
            self.assertLess(time.monotonic(), end, f"it was not {what} in time")
            time.sleep(0.05)

    @staticmethod
    def end(running):
        with contextlib.suppress(ProcessLookupError):
            running.stop()

    def journal(self):
        return text_of(os.path.join(self.at, "journal"))

    def script(self, name, *words, **more):
        done = subprocess.run(
            [os.path.join(DEPLOY, name), *words], env=self.environment(**more), stdin=subprocess.DEVNULL, cwd=self.at,
            stdout=subprocess.PIPE, stderr=subprocess.STDOUT, text=True, timeout=LONG,
        )
        return done.returncode, done.stdout

    def console(self, *line):
        return self.script("tzdistd-console", *line)

    def install(self, *words, **more):
        return self.script("tzdistd-install", *words, **more)

    def follow(self, **more):
        return self.script("tzdistd-follow", **more)

    def last(self, where="state"):
        lines = text_of(os.path.join(self.at, where, "last")).splitlines()
        return dict(line.split("=", 1) for line in lines)

    def names(self):
        return sorted(name for name in os.listdir(self.releases) if not name.endswith(".accepted"))

    def marks(self):
        return sorted(name[: -len(".accepted")] for name in os.listdir(self.releases) if name.endswith(".accepted"))

    def refusals(self):
        """What the reasons of refused releases say, without their times."""
        paths = [os.path.join(self.refused, name, "reason") for name in sorted(os.listdir(self.refused))]
        return [text_of(path).split(" ", 1)[1].rstrip("\n") for path in paths]


class Start(Trial):
    def test_nothing_to_serve(self):
        status, said = self.script("tzdistd-serve", "--has-release")
        self.assertEqual(status, 1)
        self.assertIn("has no release", said)
        self.assertEqual(self.script("tzdistd-serve")[0], 2)
        self.assertEqual((self.last()["what"], self.last()["result"]), ("start", "failed"))
        write(os.path.join(self.releases, ".hidden"), "")
        self.assertEqual(self.script("tzdistd-serve", "--has-release")[0], 1)
        write(os.path.join(self.releases, "note"), "")
        self.assertEqual(self.script("tzdistd-serve", "--has-release"), (0, ""))
        status, said = self.script("tzdistd-serve")
        self.assertEqual(status, 2)
        self.assertIn("passed over note: it is no folder with a manifest", said)

    def test_what_makes_no_history_is_left_out(self):
        self.add("1")
        self.add("2", stamp=SECOND)
        self.add("3-older")
        shutil.copytree(os.path.join(self.releases, "2"), os.path.join(self.releases, "4-torn"))
        write(os.path.join(self.releases, "4-torn/z1"), "TZif")
        os.mkfifo(os.path.join(self.add("5-odd", stamp=SECOND), "fifo"))
        write(os.path.join(self.releases, "6.txt"), "")
        write(os.path.join(self.releases, "7-gone.accepted"), "")
        running = self.start()
        self.assertEqual(self.console("status")[1].split()[::2], ["serving", "2"])
        journal = self.journal()
        for line in (
            f"left out 3-older: 3 StampBack {SECOND} {FIRST}",
            "left out 4-torn: 10 Tzif 1 3 Short 0 (Test/Beta)",
            "passed over 5-odd: " + os.path.join(self.releases, "5-odd/fifo") + " is no regular file",
            "passed over 6.txt: it is no folder with a manifest",
            "passed over 7-gone.accepted: it marks a release that is gone",
        ):
            self.assertIn(line + "\n", journal)
        self.assertEqual(self.marks(), ["1", "2"])
        self.assertEqual((self.last()["result"], self.last()["token"][:2]), ("ready", "2-"))
        self.assertEqual(self.last(), self.last("run"))
        self.assertIn("3-older", self.last()["reason"])
        self.assertEqual(running.stop(), 0)

    def test_odd_folders(self):
        """What cannot be read is left out and named, and what comes after it is served."""
        self.add("1")
        for name in ("2-torn", "3-loop", "4-folder"):
            self.add(name, stamp=SECOND)
        os.unlink(os.path.join(self.releases, "2-torn/z1"))
        os.mkdir(os.path.join(self.releases, "2-torn/z1"))
        for name in ("3-loop", "4-folder"):
            os.unlink(os.path.join(self.releases, name, "manifest.json"))
        os.symlink("manifest.json", os.path.join(self.releases, "3-loop/manifest.json"))
        os.mkdir(os.path.join(self.releases, "4-folder/manifest.json"))
        os.mkdir(os.fsencode(self.releases) + b"/5-\xff")
        self.add("6", stamp=SECOND)
        # a mark that cannot be written, and the file of a watch in the run before
        os.mkdir(os.path.join(self.releases, "6.accepted"))
        write(os.path.join(self.run_folder, "watch-mine.number"), "1")
        self.start()
        self.assertEqual(self.console("status")[1][:10], "serving 2-")
        self.assertFalse(os.path.exists(os.path.join(self.run_folder, "watch-mine.number")))
        journal = self.journal()
        for line in (
            "left out 2-torn: 9 ReadFault (z1: Is a directory)",
            "passed over 3-loop: its manifest: Too many levels of symbolic links",
            "passed over 4-folder: its manifest is no regular file",
            "passed over 5-?: its name is not UTF-8",
            "6 cannot be marked as accepted: Is a directory; the rules apply to it at a start",
        ):
            self.assertIn(line + "\n", journal)
        self.assertEqual(self.marks(), ["1", "6"])

    def test_folders_that_are_none(self):
        """Each script reports the faults of the folders of the service."""
        file = os.path.join(self.at, "file")
        write(file, "")
        self.add("1")
        status, said = self.script("tzdistd-serve", TZDISTD_SETTINGS=self.at)
        self.assertEqual((status, said), (1, f"{self.at}: Is a directory\n"))
        self.assertEqual(self.script("tzdistd-serve", "--has-release", RELEASES=os.path.join(self.at, "none"))[0], 1)
        status, said = self.script("tzdistd-serve", "--has-release", RELEASES=file)
        self.assertEqual((status, said), (0, f"{file}: Not a directory\n"))
        status, said = self.script("tzdistd-serve", RELEASES=file, STATE_DIRECTORY=self.at)
        self.assertEqual(status, 2)
        self.assertIn(f"{file}: Not a directory: make the folder, or set RELEASES", said)
        status, said = self.script("tzdistd-serve", RUNTIME_DIRECTORY=os.path.join(self.at, "none"))
        self.assertEqual(status, 3)
        self.assertIn("none: No such file or directory", said)
        self.tree()
        for name, words, status in (("tzdistd-install", ["tree"], 2), ("tzdistd-follow", [], 1)):
            seen, said = self.script(name, *words, RELEASES=os.path.join(file, "releases"))
            self.assertEqual(seen, status)
            self.assertIn("Not a directory", said)

    def test_a_record_that_cannot_be_written(self):
        self.add("1")
        os.mkdir(os.path.join(self.at, "state/last"))
        self.start()
        self.assertIn("the record of an event is not written: ", self.journal())

    def test_no_folder_is_good(self):
        edit(self.add("1"), stamp=None)
        status, said = self.script("tzdistd-serve")
        self.assertEqual(status, 2)
        self.assertIn("failed: no release in", said)
        self.assertIn("1: 1 Manifest 2 Field stamp", said)
        self.assertEqual(self.last()["result"], "failed")

    def test_an_accepted_release_is_not_asked_for_again(self):
        self.add("1")
        self.add("3", stamp=SECOND, Alpha=3, Beta=4)
        self.start(RULES="--max-changed 0").stop()
        self.assertEqual(self.marks(), ["1", "3"])
        self.add("2")
        self.add("4", stamp=SECOND, Alpha=5, Beta=4)
        self.add("5", version="2025b", stamp=SECOND, Alpha=3, Beta=4)
        self.start(RULES="--max-changed 0")
        self.assertIn("left out 2: its name sorts before 3, which was served", self.journal())
        self.assertIn("left out 4: 17 Policy 1 (--max-changed 0)", self.journal())
        self.assertEqual(self.marks(), ["1", "3", "5"])

    def test_an_accepted_release_that_is_damaged(self):
        for name in ("1", "2"):
            self.add(name)
        self.start().stop()
        os.unlink(os.path.join(self.releases, "2/z0"))
        self.start()
        self.assertIn(f"left out 2: 8 Absent {self.releases}/2/z0", self.journal())
        self.assertEqual(self.console("status")[1].split()[1][:2], "1-")

    def test_of_many_folders_the_last_are_served(self):
        for number in range(70):
            self.add(f"{number:02}")
        running = self.start()
        self.assertEqual(self.console("status")[1].split()[1][:3], "64-")
        self.assertEqual(self.marks()[0], "06")
        running.stop()
        self.start()
        self.assertEqual(self.console("status")[1].split()[1][:3], "64-")

    def test_rules_that_are_none(self):
        self.add("1")
        status, said = self.script("tzdistd-serve", RULES="--most 3")
        self.assertEqual(status, 2)
        self.assertIn("RULES=--most 3 is not understood", said)

    def test_an_address_that_is_taken(self):
        self.add("1")
        with socket.create_server(("127.0.0.1", 0)) as taken:
            status, _ = self.script("tzdistd-serve", ADDRESS=address_of(taken.getsockname()[1]))
        self.assertEqual((status, self.last()["reason"]), (6, "the program ended with the status 6"))
        self.assertFalse(os.path.exists(os.path.join(self.run_folder, "console")))

    def test_a_program_that_is_not_there(self):
        self.add("1")
        self.program = "/nonexistent/tzdistd"
        self.assertEqual(self.script("tzdistd-serve")[0], 127)

    def test_words(self):
        self.assertEqual(self.script("tzdistd-serve", "hello")[0], 1)
        for name in ("tzdistd-serve", "tzdistd-follow", "tzdistd-install"):
            self.assertIn("example", self.script(name, "--help")[1])
            self.assertEqual(self.script(name, "--version"), (0, "tzdistd, without a package\n"))


class Console(Trial):
    def test_readiness_and_signals(self):
        self.add("1")
        with socket.socket(socket.AF_UNIX, socket.SOCK_DGRAM) as notices:
            notices.bind(os.path.join(self.at, "notify"))
            notices.settimeout(LONG)
            running = self.start(NOTIFY_SOCKET=os.path.join(self.at, "notify"))
            seen = [notices.recv(4096).decode() for _ in range(2)]
            self.assertEqual((seen[0][:17], seen[1]), ("STATUS=serving 1-", "READY=1"))
            running.child.send_signal(signal.SIGHUP)
            self.assertEqual(self.console("status")[0], 0)
            self.assertEqual(running.stop(), 0)
            self.assertEqual(notices.recv(4096), b"STOPPING=1")
        self.assertEqual(self.console("status"), (1, "tzdistd-console: no server runs: systemctl status says why\n"))
        self.start()
        self.assertIn("serving 1-", text_of(os.path.join(self.run_folder, "replies.last")))

    def test_lines(self):
        self.add("1")
        running = self.start()
        with open(os.path.join(self.run_folder, "console"), "wb", buffering=0) as fifo:
            fifo.write(b"status\nhello\n" + b"x" * 3000 + b"\nwatch any\n")
        path = os.path.join(self.run_folder, "replies")
        self.until("answered", lambda: text_of(path).count("\n") == 5)
        replies = text_of(path).splitlines()
        self.assertEqual([line.split()[0] for line in replies], ["ready", "serving", "unknown", "unknown", "watching"])
        self.add("2", stamp=SECOND, Alpha=3, Beta=4)
        self.assertEqual(self.console("install", "state/releases/2")[0], 0)
        self.assertEqual(self.console("news", "1"), (0, "news 2 Test/Alpha Test/Beta\nend\n"))
        self.assertEqual(self.console()[0], 1)
        status, reply = self.console("install", "/no/a\x1b[31mb\x7f")
        self.assertEqual((status, reply), (1, "refused 8 Absent /no/a?[31mb?/manifest.json\n"))
        self.assertEqual(self.console("quit"), (0, "bye\n"))
        self.assertEqual(running.wait(), 0)

    def test_requests_go_before_a_line(self):
        self.program, go = os.path.join(self.at, "program"), os.path.join(self.at, "go")
        write(self.program, f'''#!/bin/sh
echo ready 1-0
while read line && [ "$line" != quit ]; do
    while [ ! -e "{go}" ]; do sleep 0.1; done
    echo serving 1-0 1 1
done
echo bye
''', 0o755)
        self.add("1")
        running = self.start()
        pid = int(text_of(os.path.join(self.run_folder, "pid")))

        def yields():
            """Whether the program is seen to yield within two seconds, of which it yields for
            one."""
            end = time.monotonic() + 2
            while time.monotonic() < end:
                if os.sched_getscheduler(pid) == os.SCHED_IDLE:
                    return True
                time.sleep(0.005)
            return False

        # on a busy machine this test may look too late
        for _ in range(5):
            asked = subprocess.Popen([os.path.join(DEPLOY, "tzdistd-console"), "status"], env=self.environment(),
                                     stdout=subprocess.PIPE, text=True)
            seen = yields()
            # a line that takes long gets its share of the processor
            self.until("beside requests", lambda: os.sched_getscheduler(pid) == os.SCHED_OTHER)
            self.assertIsNone(asked.poll())
            write(go, "")
            self.assertEqual(asked.communicate(timeout=LONG)[0], "serving 1-0 1 1\n")
            os.unlink(go)
            if seen or not can_return():
                break
        self.assertEqual(seen, can_return())
        self.assertEqual(self.console("quit"), (0, "bye\n"))
        self.assertEqual(running.wait(), 0)

    def test_a_program_that_dies(self):
        self.add("1")
        running = self.start()
        os.kill(int(text_of(os.path.join(self.run_folder, "pid"))), signal.SIGKILL)
        self.assertEqual(running.wait(), 137)
        self.assertIn("ended by the signal 9", self.journal())
        self.assertFalse(os.path.exists(os.path.join(self.run_folder, "console")))

    def test_a_server_that_ends_before_its_reply(self):
        self.program = os.path.join(self.at, "program")
        write(self.program, "#!/bin/sh\necho ready 1-0\nread line\nsleep 1\nexit 4\n", 0o755)
        self.add("1")
        running = self.start()
        self.assertEqual(self.console("status"), (1, "tzdistd-console: the server ended before its reply\n"))
        self.assertEqual(running.wait(), 4)

    def test_a_line_while_a_server_starts(self):
        """A start with a refused folder begins another process, and a line waits for that one."""
        self.program = os.path.join(self.at, "program")
        write(self.program, f"""#!/bin/sh
case $1 in check) exec "{PROGRAM}" "$@" ;; esac
[ -e "{self.at}/second" ] || {{ touch "{self.at}/second"; sleep 2; echo refused 1 Manifest 2; exit 2; }}
sleep 1
exec "{PROGRAM}" "$@"
""", 0o755)
        self.add("1")
        running = Running(self, self.environment())
        self.addCleanup(self.end, running)
        self.until("begun", lambda: os.path.exists(os.path.join(self.run_folder, "pid")))
        self.assertEqual(self.console("status")[1][:10], "serving 1-")

    def test_a_program_without_memory(self):
        self.program = os.path.join(self.at, "program")
        write(self.program, "#!/bin/sh\necho ready 1-0\nread line\necho no memory\nread line\necho bye\n", 0o755)
        self.add("1")
        running = self.start()
        self.assertEqual(self.console("install", "state/releases/1"), (1, "no memory\n"))
        self.assertIn("not installed, no memory: ", self.journal())
        self.assertEqual((self.last()["result"], self.last()["reason"]), ("failed", "no memory"))
        self.assertEqual(self.console("quit"), (0, "bye\n"))
        self.assertEqual(running.wait(), 0)

    def test_a_program_that_does_not_end(self):
        self.program = os.path.join(self.at, "program")
        write(self.program, f"#!/bin/sh\necho ready 1-0\nexec sleep {2 * LONG}\n", 0o755)
        self.add("1")
        running = self.start()
        self.assertEqual(running.stop(), 0)
        self.assertIn("did not end in time", self.journal())

    def test_rules(self):
        self.add("1")
        self.start(RULES="--max-changed 1 --no-past-change 2020-01-01T00:00:00Z")
        path = self.add("2", stamp=SECOND, Alpha=3, Beta=2)
        self.assertEqual(self.console("install", path), (1, "refused 17 Policy 2\n"))
        self.assertEqual(self.last()["reason"], "17 Policy 2 (--no-past-change 2020-01-01T00:00:00Z)")
        self.assertEqual(self.console("install", path + "\r")[1], "refused 17 Policy 2\n")
        write(path + ".accepted", "")
        self.assertEqual(self.console("install", path)[0], 0)
        shutil.rmtree(path)
        torn = self.add("4", stamp=SECOND)
        self.assertEqual(self.console("install", torn), (1, "refused since the rules could not be applied\n"))
        shutil.move(torn, path)
        self.assertEqual(self.console("install", "/\udcff\x1b[1m")[0], 1)
        self.assertIn("/??[1m", self.last()["reason"] + self.journal())
        outside = self.source("3", stamp=SECOND, Alpha=1, Beta=2)
        self.assertEqual(self.console("install", outside)[0], 0)
        self.assertIn(f"{outside} is not in {self.releases}: the next start does not serve it", self.journal())

    def test_watching(self):
        self.add("1")
        self.start()
        heard = os.path.join(self.at, "heard")
        command = ["sh", "-c", 'cat >>"$1"', "sh", heard]
        self.assertEqual(self.script("tzdistd-watch", "mine")[0], 1)
        self.assertEqual(self.script("tzdistd-watch", "mine", "any", *command), (0, ""))
        self.assertEqual(self.install(self.source("2", stamp=SECOND, Alpha=3, Beta=2))[0], 0)
        self.assertEqual(self.script("tzdistd-watch", "mine", "any", "false")[0], 1)
        self.assertEqual(self.script("tzdistd-watch", "mine", "any", *command), (0, ""))
        self.assertEqual(text_of(heard), "news 2 Test/Alpha\n")
        self.assertEqual(os.stat(os.path.join(self.run_folder, "watch-mine.number")).st_mode & 0o777, 0o660)


class Install(Trial):
    def test_a_tree_and_a_folder(self):
        self.add("1")
        self.start()
        self.tree("2025b", Alpha=3, Beta=2)
        status, said = self.install("tree", "--", "--stamp", SECOND)
        self.assertEqual((status, said[:12]), (0, "installed 2-"))
        name = self.names()[0]
        self.assertRegex(name, r"1\+\d{8}T\d{6}Z-2025b" if name > "2" else r"\d{8}T\d{6}Z-2025b|1")
        source = self.source("new", "2025/c", SECOND, Alpha=4, Beta=2)
        os.chmod(os.path.join(source, "z0"), 0o600)
        self.assertEqual(self.install(os.path.relpath(source, self.at))[0], 0)
        self.assertTrue(os.path.isdir(source))
        names = self.names()
        self.assertRegex(names[-1], r"Z-2025_c$")
        self.assertEqual(self.marks(), names)
        modes = {stat.S_IMODE(os.stat(os.path.join(at, name)).st_mode)
                 for at, _, files in os.walk(os.path.join(self.releases, names[-1])) for name in files}
        self.assertEqual(modes, {0o644})
        self.assertEqual(self.last()["result"], "installed")
        token = self.console("status")[1].split()[1]
        self.assertEqual(self.install("new"), (0, f"unchanged {token}: {os.path.join(self.releases, names[-1])} says the same\n"))
        self.assertEqual(self.last()["result"], "unchanged")
        self.assertEqual((self.names(), os.listdir(self.refused)), (names, []))

    def test_the_same_version_of_another_package(self):
        # versions without known dates, so that a release has the date of its files
        self.add("1", "2000xb", "2025-06-01T00:00:00Z")
        self.start()
        for version, stamp, status in (
            ("2000xb", "2025-03-01T00:00:00Z", 0),
            ("2000xc", "2025-03-01T00:00:00Z", 0),
            ("2000xa", "2025-01-01T00:00:00Z", 1),
        ):
            tree = self.tree(version, Alpha=len(self.names()) + 3, Beta=2)
            moment = time.mktime(time.strptime(stamp, "%Y-%m-%dT%H:%M:%SZ")) - time.timezone
            for name in ("Test/Alpha", "Test/Beta"):
                os.utime(os.path.join(tree, name), (moment, moment))
            found = self.install("tree")
            self.assertEqual(found[0], status, found)
        manifest = json.loads(text_of(os.path.join(self.releases, self.names()[-1], "manifest.json")))
        self.assertEqual((manifest["version"], manifest["stamp"]), ("2000xc", "2025-06-01T00:00:00Z"))
        self.assertEqual(self.refusals(), ["3 StampBack 2025-06-01T00:00:00Z 2025-01-01T00:00:00Z"])

    def test_in_its_place(self):
        self.add("1")
        self.start()
        self.assertEqual(self.install(self.add("2", stamp=SECOND, Alpha=3, Beta=2))[0], 0)
        self.assertEqual(self.names(), ["1", "2"])
        # one that sorts before the last gets another name
        self.assertEqual(self.install(self.add("15", stamp=SECOND, Alpha=4, Beta=2))[0], 0)
        self.assertEqual((self.names()[:2], len(self.names())), (["1", "2"], 3))
        # one that has the content of what is served is removed
        self.assertEqual(self.install(self.add("9", stamp=SECOND, Alpha=4, Beta=2))[0], 0)
        self.assertEqual(len(self.names()), 3)
        # and one that is refused is moved
        self.assertEqual(self.install(self.add("9", Alpha=5, Beta=2, stamp="2020-01-01T00:00:00Z"))[0], 1)
        self.assertEqual((len(self.names()), self.refusals()), (3, [f"3 StampBack {SECOND} 2020-01-01T00:00:00Z"]))
        os.mkfifo(os.path.join(self.add("9", stamp=SECOND, Alpha=5, Beta=2), "fifo"))
        self.assertEqual(self.install("state/releases/9")[0], 1)
        self.assertEqual(len(self.names()), 3)
        self.assertIn("fifo is no regular file", "".join(self.refusals()))

    def test_a_refusal(self):
        self.add("1")
        self.start()
        source = self.source("torn", stamp=SECOND)
        write(os.path.join(source, "z1"), "TZif")
        status, said = self.install("torn")
        self.assertEqual(status, 1)
        self.assertIn("refused 10 Tzif 1 3 Short 0 (Test/Beta): it is in ", said)
        self.assertEqual(self.refusals(), ["10 Tzif 1 3 Short 0 (Test/Beta)"])
        self.assertEqual((self.names(), self.last()["result"]), (["1"], "refused"))
        self.assertEqual(self.last()["token"][:2], "1-")
        # the server continues, and a restart has the token
        token = self.console("status")[1]
        self.assertEqual(self.console("status")[1], token)
        # one copy is kept of what is refused again
        self.assertEqual(self.install("--force", "torn")[0], 1)
        self.assertEqual((len(self.refusals()), self.marks()), (1, ["1"]))

    def test_few_refused_releases_are_kept(self):
        self.add("1")
        for number in range(20):
            write(os.path.join(self.refused, f"0-{number:02}", "reason"), "then x\n")
            os.utime(os.path.join(self.refused, f"0-{number:02}"), (number, number))
        self.assertEqual(self.install(self.source("old", stamp="2020-01-01T00:00:00Z"))[0], 0)
        self.start().stop()
        self.assertEqual(self.install(self.source("older", "2019a", "2019-01-01T00:00:00Z"))[0], 1)
        self.assertEqual(len(self.refusals()), 16)
        self.assertIn("0-19", os.listdir(self.refused))

    def test_rules_and_force(self):
        self.add("1")
        self.start(RULES="--max-changed 0")
        self.source("2", stamp=SECOND, Alpha=3, Beta=2)
        status, said = self.install("2")
        self.assertEqual((status, self.refusals()), (1, ["17 Policy 1 (--max-changed 0)"]))
        self.assertIn("--force installs a release that only a rule refuses", said)
        self.assertEqual(self.install("--force", "2")[0], 0)
        self.assertIn("forced by an operator", text_of(os.path.join(self.releases, self.marks()[-1] + ".accepted")))
        self.assertEqual(self.console("status")[1].split()[1][:2], "2-")

    def test_leap_seconds_are_not_lost(self):
        folder = self.add("1")
        write(os.path.join(folder, "leaps"), leap_file())
        edit(folder, leapseconds={"file": "leaps", "expires": "2030-01-01"})
        self.start()
        self.source("2", stamp=SECOND)
        status, said = self.install("2")
        self.assertEqual(status, 1)
        self.assertIn("it has no leap seconds, and what is served has them", said)
        self.assertEqual((self.last()["result"], len(self.refusals())), ("refused", 1))
        self.assertEqual(self.install("--force", "2")[0], 0)

    def test_leap_seconds_stay_at_a_rollback(self):
        self.add("1", "2025a")
        self.start()
        source = self.source("2", "2025b", SECOND, Alpha=3, Beta=2)
        write(os.path.join(source, "leaps"), leap_file())
        edit(source, leapseconds={"file": "leaps", "expires": "2030-01-01"})
        self.assertEqual(self.install("2")[0], 0)
        self.assertEqual(self.install("--rollback")[0], 0)
        folder = os.path.join(self.releases, self.names()[-1])
        leaps = json.loads(text_of(os.path.join(folder, "manifest.json")))["leapseconds"]
        with open(os.path.join(folder, leaps["file"]), "rb") as file:
            self.assertEqual((file.read(), leaps["expires"]), (leap_file(), "2030-01-01"))

    def test_an_install_beside_another(self):
        """It waits for the other one, and removes what a killed one left."""
        os.makedirs(os.path.join(self.releases, ".incoming-killed"))
        with open(os.path.join(self.at, "state/install.lock"), "w") as lock:
            fcntl.flock(lock, fcntl.LOCK_EX)
            words = [os.path.join(DEPLOY, "tzdistd-install"), self.source("a")]
            quiet = {"stdin": subprocess.DEVNULL, "stdout": subprocess.DEVNULL, "stderr": subprocess.DEVNULL}
            with subprocess.Popen(words, env=self.environment(), **quiet) as child:
                time.sleep(2)
                self.assertEqual((child.poll(), self.names()), (None, [".incoming-killed"]))
                fcntl.flock(lock, fcntl.LOCK_UN)
                self.assertEqual(child.wait(LONG), 0)
        self.assertEqual(len(self.names()), 1)
        self.assertNotIn(".incoming-killed", self.names())

    def test_a_program_that_judges_nothing(self):
        self.add("1")
        self.source("2", stamp=SECOND, Alpha=3, Beta=2)
        self.program = "/nonexistent/tzdistd"
        status, said = self.install("2")
        self.assertEqual((status, said), (2, "tzdistd-install: /nonexistent/tzdistd: the program is not installed\n"))
        self.program = os.path.join(self.at, "program")
        write(self.program, "#!/bin/sh\necho no thread >&2\nexit 5\n", 0o755)
        status, said = self.install("2")
        self.assertEqual((status, said), (5, "tzdistd-install: the judgement of folders ended with the status 5: no thread\n"))
        self.assertEqual((self.names(), self.marks()), (["1"], []))

    def test_without_a_server(self):
        self.assertEqual(self.install(self.source("a"))[0], 0)
        self.assertEqual((len(self.names()), self.marks()), (1, []))
        edit(self.source("bad", stamp=SECOND), zones=None)
        self.assertEqual(self.install("bad")[0], 1)
        self.start().stop()
        self.source("2", stamp=SECOND, Alpha=3, Beta=2)
        self.assertEqual(self.install("2", RULES="--max-changed 0")[0], 1)
        self.assertEqual(self.refusals()[-1], "17 Policy 1 (--max-changed 0)")
        status, said = self.install("--force", "2", RULES="--max-changed 0")
        self.assertEqual(status, 0)
        self.assertIn("installed for the next start, since no server runs", said)
        self.start(RULES="--max-changed 0")
        self.assertEqual(self.console("status")[1].split()[1][:2], "2-")

    def test_replies_of_a_console(self):
        self.add("1")
        self.start().stop()
        os.mkfifo(os.path.join(self.run_folder, "console"))
        self.values["TZDISTD_CONSOLE"] = os.path.join(self.at, "console")
        for number, (reply, status, kept) in enumerate([
            ("echo no memory; exit 1", 1, False),
            ("echo tzdistd-console: no reply came >&2; exit 1", 1, True),
            ("echo refused 9 ReadFault; exit 1", 1, False),
            ("echo installed 2-0", 0, True),
        ]):
            with self.subTest(reply):
                write(self.values["TZDISTD_CONSOLE"], f"#!/bin/sh\n{reply}\n", 0o755)
                before = self.names()
                source = self.source(f"r{number}", f"2025-{number}", SECOND, Alpha=3 + number, Beta=2)
                self.assertEqual(self.install(source)[0], status)
                self.assertEqual(len(self.names()) - len(before), int(kept))
        self.assertEqual(self.refusals(), ["no memory", "9 ReadFault"])

    def test_what_is_no_release(self):
        os.makedirs(os.path.join(self.at, "empty"))
        os.mkfifo(os.path.join(self.source("odd"), "fifo"))
        os.unlink(os.path.join(self.source("linked"), "z0"))
        os.symlink("/etc/hostname", os.path.join(self.at, "linked/z0"))
        for words, part in (
            (["nowhere"], "no such folder"),
            (["empty"], "neither a release, which has manifest.json, nor a tree"),
            (["odd"], "no regular file, so nothing was copied"),
            (["linked"], "linked/z0: no regular file, so nothing was copied"),
            ([], "name a release or a tree"),
            (["--rollback", "x"], "so there is no older one"),
        ):
            with self.subTest(part):
                status, said = self.install(*words)
                self.assertEqual(status, 2)
                self.assertIn(part, said)
        self.tree(Alpha=1)
        write(os.path.join(self.at, "tree/Test/Alpha"), "no zone")
        status, said = self.install("tree")
        self.assertEqual(status, 1)
        self.assertIn("no TZif file", said)
        self.assertEqual(self.names(), [])

    def test_rollback(self):
        self.add("1", "2025a")
        self.start()
        self.assertEqual(self.install("--rollback")[0], 2)
        source = self.source("b", "2025b", SECOND, Alpha=3, Beta=2, Gamma=4)
        manifest = json.loads(text_of(os.path.join(source, "manifest.json")))
        manifest["zones"][1]["aliases"] = ["Test/Second"]
        edit(source, zones=manifest["zones"])
        self.assertEqual(self.install("b")[0], 0)
        status, said = self.install("--rollback")
        self.assertEqual((status, said[:12]), (0, "installed 3-"))
        name = self.names()[-1]
        manifest = json.loads(text_of(os.path.join(self.releases, name, "manifest.json")))
        zones = {zone["tzid"]: zone for zone in manifest["zones"]}
        self.assertEqual((manifest["version"], manifest["stamp"]), ("2025a", SECOND))
        self.assertEqual(sorted(zones), ["Test/Alpha", "Test/Beta", "Test/Gamma"])
        self.assertEqual(zones["Test/Beta"]["aliases"], ["Test/Second"])
        with open(os.path.join(self.releases, name, zones["Test/Alpha"]["file"]), "rb") as file:
            self.assertEqual(file.read(), slim_zone(1))
        with open(os.path.join(self.releases, name, zones["Test/Gamma"]["file"]), "rb") as file:
            self.assertEqual(file.read(), slim_zone(4))
        self.assertEqual(self.install("--rollback", self.names()[1])[0], 0)
        self.assertIn("not among the releases that were accepted", self.install("--rollback", "x")[1])


def leap_file():
    """A TZif file with the first leap second."""
    header = b"TZif2" + bytes(15)
    counts = [(0, 0, 0, 0, 1, 1), (0, 0, 1, 0, 1, 4)]
    first, second = (header + b"".join(number.to_bytes(4, "big") for number in row) for row in counts)
    leap = (78_796_800).to_bytes(8, "big") + (1).to_bytes(4, "big")
    return first + bytes(7) + second + bytes(6) + b"UTC\0" + leap + b"\nUTC0\n"


class Follow(Trial):
    def test_a_tree_is_followed(self):
        self.assertEqual(self.follow()[0], 0)
        self.assertEqual(self.names(), [])
        self.tree("2025a")
        self.assertEqual(self.follow(FOLLOW="no")[0], 0)
        self.assertEqual(self.names(), [])
        self.assertEqual(self.follow()[0], 0)
        self.assertEqual(len(self.names()), 1)
        self.start()
        status, said = self.follow()
        self.assertEqual((status, len(self.names())), (0, 1))
        self.assertIn("nothing to do", said)
        self.tree("2025b", Alpha=3, Beta=2)
        status, said = self.follow()
        self.assertEqual((status, said[:12], len(self.names())), (0, "installed 2-", 2))
        # a rollback stays until the tree changes
        self.assertEqual(self.install("--rollback")[0], 0)
        self.assertIn("nothing to do", self.follow()[1])
        self.tree("2025c", Alpha=4, Beta=2)
        self.assertEqual(self.follow()[1][:12], "installed 4-")

    def test_a_refusal_is_tried_again(self):
        self.tree("2025a")
        self.follow()
        self.start()
        self.tree("2025b", Alpha=3)
        for _ in range(2):
            status, said = self.follow()
            self.assertEqual(status, 1)
            self.assertIn("refused 6 Drops Test/Beta: it is in ", said)
        self.assertEqual((len(self.names()), self.refusals()), (1, ["6 Drops Test/Beta"]))
        self.tree("2025c", Alpha=3, Beta=2)
        self.assertEqual(self.follow()[0], 0)

    def test_a_tree_that_cannot_be_packed(self):
        self.tree("2025a")
        os.unlink(os.path.join(self.at, "tree/Test/Beta"))
        status, said = self.follow()
        self.assertEqual((status, self.names()), (1, []))
        self.assertIn("failed: pack_zoneinfo.py makes no release of", said)

    def test_a_zone_whose_file_is_faulty(self):
        """The zone is left out, or stays as it is served. The others follow the tree."""
        faulty = faulty_zone()
        tree = self.tree("2025a")
        write(os.path.join(tree, "Test/Beta"), faulty)
        cause = "since its TZ string disagrees with its last transition"
        status, said = self.follow()
        self.assertEqual((status, len(self.names())), (0, 1), said)
        self.assertIn(f"pack_zoneinfo.py: warning: Test/Beta: left out, {cause}", said)
        self.start()
        self.assertRegex(self.console("status")[1], "^serving 1-[0-9a-f]{16} 1\n")
        self.tree("2025b", Alpha=1, Beta=2)
        self.assertEqual(self.follow()[0], 0)
        write(os.path.join(self.tree("2025c", Alpha=3, Beta=4), "Test/Beta"), faulty)
        status, said = self.follow()
        self.assertEqual(status, 0, said)
        self.assertIn(f"pack_zoneinfo.py: warning: Test/Beta: kept as it was, {cause}", said)
        newest = os.path.join(self.releases, self.names()[-1])
        files = [(hours, os.path.join(newest, f"Test/{name}")) for name, hours in (("Alpha", 3), ("Beta", 2))]
        for hours, path in files:
            with open(path, "rb") as file:
                self.assertEqual(file.read(), slim_zone(hours))
        self.assertRegex(self.console("status")[1], "^serving 3-[0-9a-f]{16} 2\n")

    def test_a_tree_that_changes_during_an_install(self):
        tree = self.tree("2025a")
        self.follow()
        self.start()
        newer = self.tree("2025c", Alpha=4, Beta=2)
        os.rename(newer, os.path.join(self.at, "newer"))
        self.tree("2025b", Alpha=3, Beta=2)
        console = os.path.join(self.at, "console")
        write(console, f"""#!/bin/sh
[ ! -d "{self.at}/newer" ] || {{ rm -r "{tree}"; mv "{self.at}/newer" "{tree}"; }}
exec "{DEPLOY}/tzdistd-console" "$@"
""", 0o755)
        status, said = self.follow(TZDISTD_CONSOLE=console)
        self.assertEqual((status, said.count("installed ")), (0, 2))
        self.assertEqual(self.names()[-1][-5:], "2025c")
        self.assertEqual(self.console("status")[1][:10], "serving 3-")
        self.assertIn("nothing to do", self.follow()[1])

    def test_a_tree_that_changes(self):
        begin = time.monotonic()
        tree = self.tree("2025a")
        self.assertEqual(self.follow(TZDISTD_QUIET="2")[0], 0)
        self.assertGreater(time.monotonic() - begin, 1)
        self.assertEqual(len(self.names()), 1)
        # a packer during which the tree changes
        tools = os.path.join(self.at, "tools")
        for name in ("tzdistd-follow", "tzdistd_installer.py", "tzdistd_service.py", "tzdistd-console"):
            os.makedirs(tools, exist_ok=True)
            shutil.copy(os.path.join(DEPLOY, name), tools)
        write(os.path.join(tools, "pack_zoneinfo.py"),
              f"import shutil, sys\nshutil.copytree({self.source('x')!r}, sys.argv[2])\nopen({tree!r} + '/new', 'w')\n")
        write(os.path.join(tree, "changed"), "")
        done = subprocess.run([os.path.join(tools, "tzdistd-follow")], env=self.environment(), stdout=subprocess.PIPE,
                              text=True, timeout=LONG)
        self.assertEqual(done.returncode, 1)
        self.assertIn("changed while a release was made of it", done.stdout)
        self.assertEqual(len(self.names()), 1)


class Parts(Trial):
    def test_settings(self):
        write(os.path.join(self.at, "settings"), "# x\nADDRESS='[::1]:1'\nRULES=--max-changed 3\nWORKERS=\n;X=1\nno line\n")
        found = tzdistd_service.Settings({"TZDISTD_SETTINGS": os.path.join(self.at, "settings"), "WORKERS": "9"})
        self.assertEqual((found.address, found.rules, found.workers), ("[::1]:1", ["--max-changed", "3"], "9"))
        self.assertEqual((found.releases, found.state), ("/var/lib/tzdistd/releases", "/var/lib/tzdistd"))
        self.assertEqual((found.follow, found.tree), ("yes", "/usr/share/zoneinfo"))

    def test_meanings_of_faults(self):
        folder = self.source("a")
        for fault, meaning in {
            "13 FooterDisagrees 1": "13 FooterDisagrees 1 (Test/Beta)",
            "12 FooterText 0 3 NoRule": "12 FooterText 0 3 NoRule (Test/Alpha)",
            "13 FooterDisagrees 9": "13 FooterDisagrees 9",
            "1 Manifest 2 Field zones[1].file": "1 Manifest 2 Field zones[1].file (Test/Beta)",
            "17 Policy 2": "17 Policy 2 (--b 2)",
            "6 Drops Test/X": "6 Drops Test/X",
        }.items():
            self.assertEqual(tzdistd_service.explained(fault, folder, ["--a", "1", "--b", "2"]), meaning)
        os.unlink(os.path.join(folder, "z1"))
        os.mkdir(os.path.join(folder, "z1"))
        self.assertEqual(tzdistd_service.explained("9 ReadFault", folder), "9 ReadFault (z1: Is a directory)")

    def test_the_log_is_bounded(self):
        settings = tzdistd_service.Settings(self.environment())
        write(os.path.join(settings.state, "events.log"), "x\n" * 1500)
        tzdistd_service.Records(settings).record("sync", "synced", "3-0", "two\nlines\udcff", "name")
        lines = text_of(os.path.join(settings.state, "events.log")).splitlines()
        self.assertEqual((len(lines), lines[0]), (1000, "x"))
        self.assertRegex(lines[-1], r"^\S+Z what=sync result=synced token=3-0 folder=name reason=two\?lines\?$")

    def test_names_rise(self):
        releases = tzdistd_service.Releases(self.releases)
        for name in ("2025c", "zebra", None, None):
            before = releases.survey()[0]
            shutil.copytree(self.source(f"s{len(before)}"), releases.path(name or releases.next_name("2026a")))
            self.assertEqual(releases.survey()[0][:-1], before)


def main():
    global PROGRAM
    PROGRAM = os.path.abspath(sys.argv.pop(1)) if len(sys.argv) > 1 and os.path.exists(sys.argv[1]) else PROGRAM
    if not os.path.exists(PROGRAM):
        sys.exit(f"{PROGRAM} is not built: README says how")
    if len(sys.argv) > 1:
        unittest.main()
    # the scripts wait more than they work, so the groups of tests run next to one another
    groups = [subprocess.Popen([sys.executable, __file__, PROGRAM, group.__name__], stderr=subprocess.PIPE, text=True)
              for group in (Start, Console, Install, Follow, Parts)]
    said = [group.communicate()[1] for group in groups]
    failed = [text for group, text in zip(groups, said) if group.returncode != 0]
    print("\n".join(failed) or "test_service: all well")
    sys.exit(len(failed) > 0)


if __name__ == "__main__":
    main()
