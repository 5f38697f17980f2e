#!/usr/bin/env python3
"""Tests deploy/tzdistd-mirror: a mirror as a service, which keeps a copy of what it serves, and
starts from that copy where its upstream is unreachable.

    tools/test_mirror_service.py [PROGRAM]

Each check starts its own servers at free ports, and ends them. It needs the built program,
flock of util-linux and Python's standard library. The status is 0 where all is well, and 1 where a
check failed.
"""

import contextlib
import json
import os
import shutil
import signal
import subprocess
import sys
import tempfile
import time

sys.dont_write_bytecode = True
DEPLOY = os.path.join(os.path.dirname(os.path.dirname(os.path.abspath(__file__))), "deploy")
sys.path.append(DEPLOY)

from checks import LONG, SLACK, TZIF, ZONES, Answering, holds, ran, release, run_checks, same
from served import HOST, Client, Failure, Served, free_port
from tzdistd_copy import Copies, manifest_of, tag_of
from tzdistd_service import Failed

# Seconds after which the whole run is given up.
WHOLE = 1800
ONE, TWO = {"Test/One": 1}, {"Test/One": 2, "Test/Two": 3}
GONE = "refused 1 UpstreamFault\n"


def awaited(what, found, seconds=LONG):
    """Waits until a function returns something, and returns that."""
    end = time.monotonic() + seconds
    while not (value := found()):
        if time.monotonic() > end:
            raise Failure(f"{what}: not within {seconds} seconds")
        time.sleep(0.05)
    return value


class Service:
    """A mirror as its unit starts it, with its folders in `room`."""

    def __init__(self, room, program, upstream, **values):
        self.at, self.state = os.path.join(room, "run"), os.path.join(room, "state")
        for folder in (self.at, self.state):
            os.makedirs(folder, exist_ok=True)
        self.port = free_port()
        self.environment = {
            **os.environ, "RUNTIME_DIRECTORY": self.at, "STATE_DIRECTORY": self.state, "TZDISTD": program, "WORKERS": "1",
            "ADDRESS": f"{HOST}:{self.port}", "UPSTREAM": upstream, "RETRY_SECONDS": "0.2", "TZDISTD_SETTINGS": "/dev/null", **values,
        }
        self.start()

    def start(self):
        with contextlib.suppress(FileNotFoundError):
            os.unlink(os.path.join(self.at, "replies"))
        words = [sys.executable, os.path.join(DEPLOY, "tzdistd-mirror")]
        self.log = open(os.path.join(self.at, "journal"), "a+b")
        self.child = subprocess.Popen(words, env=self.environment, stdin=subprocess.DEVNULL, stdout=self.log, stderr=self.log)

    def journal(self):
        with open(os.path.join(self.at, "journal"), encoding="utf-8") as file:
            return file.read()

    def ready(self):
        """The token of the first line at its console."""

        def line():
            if self.child.poll() is not None:
                raise Failure(f"the mirror ended with {self.child.returncode}: {self.journal()}")
            with contextlib.suppress(FileNotFoundError), open(os.path.join(self.at, "replies"), encoding="ascii") as file:
                return file.readline()

        return awaited("the mirror is ready", line).split()[1]

    def say(self, *line):
        """Status and output of a line at the console."""
        words = [os.path.join(DEPLOY, "tzdistd-console"), *line]
        done = subprocess.run(words, env=self.environment, capture_output=True, text=True, timeout=LONG)
        return done.returncode, done.stdout

    def last(self):
        """The last event."""
        with open(os.path.join(self.state, "last"), encoding="utf-8") as file:
            values = dict(line.partition("=")[::2] for line in file.read().splitlines())
        return values["what"], values["result"], values["token"], values["reason"]

    def source(self):
        with open(os.path.join(self.at, "source"), encoding="ascii") as file:
            return file.read().strip()

    def copies(self):
        with contextlib.suppress(FileNotFoundError):
            return sorted(os.listdir(os.path.join(self.state, "copy")))
        return []

    def zones(self):
        with Client(self.port) as client:
            return json.loads(client.ask(ZONES).body)["timezones"]

    def stop(self):
        """The status after SIGTERM."""
        self.child.send_signal(signal.SIGTERM)
        return self.child.wait(LONG)

    def __enter__(self):
        return self

    def __exit__(self, *_):
        if self.child.poll() is None:
            self.child.kill()
        self.child.wait()
        self.log.close()


@contextlib.contextmanager
def rooms(program, **values):
    """A folder with two releases, a primary of the first one, and a mirror of it that is ready."""
    with tempfile.TemporaryDirectory() as room:
        one = release(os.path.join(room, "one"), "2025a", ONE)
        release(os.path.join(room, "two"), "2025b", TWO, "2025-07-01T00:00:00Z")
        with Served([one], program=program) as primary, Service(room, program, primary.address, **values) as mirror:
            mirror.ready()
            awaited("the first copy", lambda: mirror.copies() == ["1"])
            yield room, primary, mirror


def keeps_a_copy(program):
    with rooms(program) as (room, primary, mirror):
        token = mirror.ready()
        same("the start", (mirror.last(), mirror.source()), (("start", "ready", token, ""), "upstream"))
        folder = os.path.join(mirror.state, "copy/1")
        status, output, _ = ran(program, "check", folder)
        same("the copy is a release of one zone", (status, output.split()[0], output.split()[-1]), (0, b"ok", b"1"))
        same("a sync without news", mirror.say("sync"), (0, f"unchanged {token}\n"))
        same("its record", mirror.last(), ("sync", "unchanged", token, ""))
        same("an install at the primary", primary.say(f"install {room}/two")[:12], "installed 2-")
        status, line = mirror.say("sync")
        same("a sync", (status, line[:12]), (0, "installed 2-"))
        same("its record", mirror.last(), ("sync", "synced", line.split()[1], ""))
        awaited("the copy of it, which replaces the first", lambda: mirror.copies() == ["2"])
        same("its zones", [entry["tzid"] for entry in mirror.zones()], ["Test/One", "Test/Two"])
        same("its files", ran(program, "check", os.path.join(mirror.state, "copy/2"))[0], 0)
        same("SIGTERM", mirror.stop(), 0)
        holds("no console is left", not os.path.exists(os.path.join(mirror.at, "console")))


def starts_from_its_copy(program):
    """Without the upstream the last copy is served. Then the upstream is followed, and no
    connection ends."""
    with rooms(program) as (room, primary, mirror):
        port, before, token = primary.port, mirror.zones(), mirror.ready()
        same("SIGTERM", mirror.stop(), 0)
        primary.close()
        mirror.start()
        same("the token of a start from the copy", mirror.ready(), token)
        same("what it serves", mirror.zones(), before)
        reason = "last copy, since 1 UpstreamFault"
        same("the record", (mirror.last(), mirror.source()), (("start", "ready", token, reason), "copy"))
        holds("the journal says so", "serves its last copy until" in mirror.journal())
        same("a sync meanwhile", mirror.say("sync"), (1, GONE))
        with Client(mirror.port) as client:
            same("a client meanwhile", client.ask("/tzdist/zones/Test%2FOne", TZIF).status, 200)
            with again(program, [f"{room}/one"], port) as primary:
                awaited("the upstream is followed", lambda: mirror.source() == "upstream")
                same("the record", mirror.last(), ("sync", "unchanged", token, ""))
                same("the same connection", json.loads(client.ask(ZONES).body)["synctoken"], token)
                primary.say(f"install {room}/two")
                same("a sync", mirror.say("sync")[1][:12], "installed 2-")
                same("the same connection then", len(json.loads(client.ask(ZONES).body)["timezones"]), 2)
        awaited("the next copy", lambda: mirror.copies() == ["2"])
        same("SIGTERM", mirror.stop(), 0)


@contextlib.contextmanager
def again(program, folders, port):
    """A server at a port that another one had."""
    child = subprocess.Popen([program, "serve", f"{HOST}:{port}", "1", *folders], stdin=subprocess.PIPE, stdout=subprocess.PIPE)
    try:
        same("the primary again", child.stdout.readline()[:6], b"ready ")
        yield Written(child)
    finally:
        child.kill()
        child.wait()
        child.stdin.close()
        child.stdout.close()


class Written:
    def __init__(self, child):
        self.child = child

    def say(self, line):
        self.child.stdin.write(line.encode() + b"\n")
        self.child.stdin.flush()
        return self.child.stdout.readline().decode()


def has_no_copy(program):
    """Without the upstream and without a copy the start fails, with the program's status."""
    with tempfile.TemporaryDirectory() as room, Service(room, program, f"{HOST}:1") as mirror:
        same("the status", mirror.child.wait(LONG), 7)
        same("the record", mirror.last(), ("start", "failed", "", "1 UpstreamFault"))
        holds("the journal says so", "has no last copy: 1 UpstreamFault (the upstream cannot be reached" in mirror.journal())


def words_are_wrong(program):
    """The status is 1 where no later start can succeed."""
    cases = [
        ("", {}, "UPSTREAM is not set"),
        ("https://tz.example.org", {}, "is no HOST:PORT"),
        ("tz.example.org:8008", {"RETRY_SECONDS": "soon"}, "RETRY_SECONDS: a number of seconds is wanted"),
    ]
    for upstream, values, said in cases:
        with tempfile.TemporaryDirectory() as room, Service(room, program, upstream, **values) as mirror:
            same("the status", mirror.child.wait(LONG), 1)
            holds(f"the journal says {said}", said in mirror.journal())


def upstream_is_silent(program):
    """An upstream that sends nothing for longer than FIRST_SYNC_SECONDS counts as unreachable."""
    with rooms(program, FIRST_SYNC_SECONDS="1") as (_, primary, mirror):
        token = mirror.ready()
        mirror.stop()
        os.kill(primary.pid, signal.SIGSTOP)
        mirror.start()
        same("the token", mirror.ready(), token)
        same("the record", mirror.last(), ("start", "ready", token, "last copy, since no first sync in time"))
        os.kill(primary.pid, signal.SIGCONT)
        awaited("the upstream is followed", lambda: mirror.source() == "upstream")
        same("SIGTERM", mirror.stop(), 0)


def copy_is_damaged(program):
    """A copy in which a file is not the one that was kept is not used."""
    with rooms(program) as (_, primary, mirror):
        mirror.stop()
        primary.close()
        with open(os.path.join(mirror.state, "copy/1/z0"), "r+b") as file:
            # still a zone file, with another offset
            data = file.read().replace(b"\n<+01>-1\n", b"\n<+01>-2\n")
            file.seek(0)
            file.write(data)
        mirror.start()
        same("the status", mirror.child.wait(LONG), 7)
        holds("the journal says so", "the file of Test/One is not what was kept" in mirror.journal())


def upstream_is_refused(program):
    """Where the program refuses a first release, the last copy is served."""
    zones = [{"tzid": "Test/One", "etag": "0" * 32, "last-modified": "2025-06-01T00:00:00Z", "publisher": "T", "version": "1"}]
    with rooms(program) as (_, primary, mirror), Fake(zones, lambda: b"no zone file") as fake:
        token = mirror.ready()
        mirror.stop()
        mirror.environment["UPSTREAM"] = fake.address
        mirror.start()
        same("the token", mirror.ready(), token)
        same("the record", mirror.last()[3], "last copy, since 10 Tzif 0 3 Short 0")
        awaited("it is tried again", lambda: "sync refused: 10 Tzif 0" in mirror.journal())
        same("what it serves", mirror.source(), "copy")
        same("the Host fields that it sent", fake.hosts, {fake.address})
        same("SIGTERM", mirror.stop(), 0)


class Fake(Answering):
    """A server with one list, in which nothing changes, and for each zone what `body` returns."""

    token = "1-0123456789abcdef"

    def __init__(self, zones, body):
        self.zones, self.body, self.hosts = zones, body, set()
        super().__init__(self.answer)

    def answer(self, target, fields):
        """Status and body for a request. Its Host field is kept."""
        self.hosts.add(fields["Host"])
        if target.startswith("/tzdist/zones/"):
            return 200, self.body()
        token = target.partition("?changedsince=")[2]
        if token not in ("", self.token):
            return 400, b'{"status":400,"type":"urn:ietf:params:tzdist:error:invalid-changedsince"}'
        return 200, json.dumps({"synctoken": self.token, "timezones": [] if token else self.zones}).encode()


def copy_is_of_one_release(program):
    """While the mirror changes, nothing is kept. A file that is known is not requested again."""
    with rooms(program) as (room, primary, mirror):
        entry, folder = mirror.zones()[0], os.path.join(mirror.state, "copy")
        with open(os.path.join(folder, "1/z0"), "rb") as file:
            good = file.read()
        same("the tag of a file", tag_of(entry, good), entry["etag"])
        copies, bodies = Copies(os.path.join(room, "other"), program), [b"another"] * 5
        with Fake([entry], lambda: bodies.pop() if bodies else good) as fake:
            with contextlib.suppress(Failed):
                raise Failure(f"a copy of two releases: {copies.keep(fake.address)}")
            same("what is kept", (copies.numbers(), os.path.exists(copies.folder)), ([], False))
            same("once it is still", (copies.keep(fake.address), copies.numbers()), (1, [1]))
            same("once more", copies.keep(fake.address), None)
        changed = {**entry, "version": "2025b"}
        with Fake([changed], lambda: b"nobody requests it") as fake:
            same("the same file under another version", (copies.keep(fake.address), copies.numbers()), (1, [2]))
        same("the copy can be used", copies.good(), (2, []))


def manifest_has_newest_labels(program):
    """The labels are those of the first entry with the latest stamp, as a mirror states them."""
    rows = [("A", "2025-01-01T00:00:00Z", "2025a"), ("B", "2025-03-01T00:00:00Z", "2025b"), ("C", "2025-03-01T00:00:00Z", "other")]
    zones = [{"tzid": tzid, "last-modified": stamp, "version": version, "publisher": "P"} for tzid, stamp, version in rows]
    made = manifest_of(zones)
    same("the labels", (made["version"], made["stamp"], made["publisher"]), ("2025b", "2025-03-01T00:00:00Z", "P"))
    same("the files", [entry["file"] for entry in made["zones"]], ["z0", "z1", "z2"])


def program_ends_with_the_script(program):
    """Where the script is killed, the program ends, too."""
    with rooms(program) as (_, _, mirror):
        with open(os.path.join(mirror.at, "pid"), encoding="ascii") as file:
            pid = int(file.read())
        mirror.child.kill()
        mirror.child.wait()
        awaited("the end of the program", lambda: has_ended(pid), SLACK)


def has_ended(pid):
    """Whether a process has ended, even if no process has read its status yet."""
    try:
        with open(f"/proc/{pid}/stat", encoding="ascii", errors="replace") as file:
            return file.read().rpartition(")")[2].split()[0] == "Z"
    except OSError:
        return True


CHECKS = [
    keeps_a_copy, starts_from_its_copy, has_no_copy, words_are_wrong, upstream_is_silent, copy_is_damaged,
    upstream_is_refused, copy_is_of_one_release, manifest_has_newest_labels, program_ends_with_the_script,
]

if __name__ == "__main__":
    if shutil.which("flock") is None:
        sys.exit("flock is not installed: it is in the package util-linux")
    sys.exit(run_checks("test_mirror_service", CHECKS, WHOLE, 3))
