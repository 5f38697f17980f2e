#!/usr/bin/env python3
"""Tests of discovery.py, of dns_records.py, and of the option --domain of both clients, with a real
dnsmasq.

    tools/test_discovery.py

What needs dnsmasq, dnspython, dig or curl is skipped where they are missing, and the output says
so. The interpreter with dnspython is this one or /usr/bin/python3. Otherwise Python's standard
library is needed.
"""

import contextlib
import os
import re
import shutil
import socket
import subprocess
import sys
import tempfile
import time
import unittest
from collections import Counter
from pathlib import Path

sys.dont_write_bytecode = True

import test_fetch_zoneinfo as cases
from checks import run_tests_beside
from discovery import Candidate, Record, Undiscovered, address_of, candidates, in_order, path_in
from served import free_port
from test_fetch_zoneinfo import FIRST, SECOND, Fake

TOOLS = Path(__file__).resolve().parent
DOMAIN = "zones.test"
LONG = 120
# Seconds after which the whole run is given up.
WHOLE = 600
# The tests that take longest, which start first.
SLOW = "another_server_of_the_domain", "no_dns", "test_weights", "next_server"


def interpreter():
    """An interpreter that has dnspython, or None."""
    for program in (sys.executable, "/usr/bin/python3"):
        done = subprocess.run([program, "-c", "import dns.resolver"], capture_output=True)
        if done.returncode == 0:
            return program
    return None


class Answers:
    """DNS answers that a test made up."""

    def __init__(self, servers, texts=()):
        self.found, self.said = servers, texts

    def servers(self, name):
        return self.found.get(name.split(".")[0], [])

    def texts(self, name):
        return list(self.said)


A, B, C = Record(0, 1, 443, "a"), Record(0, 3, 8443, "b"), Record(0, 0, 443, "c")
LATER = Record(7, 9, 443, "later")


class Order(unittest.TestCase):
    def test_priorities(self):
        self.assertEqual(in_order([LATER, A]), [A, LATER])
        self.assertEqual(in_order([LATER, A], lambda record: record is LATER), [A, LATER])
        self.assertEqual(in_order([A, B, LATER], lambda record: record is B), [B, A, LATER])

    def test_weights(self):
        """Running sums, weights of 0 first; the first sum that is not below the number is taken."""
        for number, wanted in ((0, C), (1, A), (2, B), (4, B)):
            numbers = iter([number, 0, 0])
            self.assertEqual(in_order([A, B, C], choose=lambda low, high: next(numbers))[0], wanted)
        seen = Counter(in_order([A, B])[0].target for _ in range(2000))
        # numbers 0 and 1 of 0 to 4 give the first
        self.assertAlmostEqual(seen["a"] / 2000, 0.4, delta=0.1)

    def test_candidates(self):
        both = {"_timezones": [A, LATER], "_timezone": [B]}
        found = candidates("x.test", Answers(both, ["v=1", "PATH=/at/tzdist"]))
        wanted = [Candidate("https://a", "/at/tzdist"), Candidate("https://later", "/at/tzdist")]
        self.assertEqual(found, wanted)
        plain = Answers({"_timezone": [B._replace(port=80), B]})
        found = candidates("x.test", plain, "http://b:8443")
        self.assertEqual(found, [Candidate("http://b:8443", None), Candidate("http://b", None)])
        self.assertEqual(candidates("x.test", Answers({})), [Candidate("https://x.test", None)])
        none = A._replace(target="")
        with self.assertRaisesRegex(Undiscovered, "has no server"):
            candidates("x.test", Answers({"_timezones": [none]}))
        found = candidates("x.test", Answers({"_timezones": [none], "_timezone": [B]}))
        self.assertEqual(found[0].url, "http://b:8443")
        for domain in ("", "-x", "a b", "x/y", ".x"):
            with self.assertRaises(Undiscovered):
                candidates(domain, Answers({}))

    def test_texts(self):
        self.assertEqual(path_in(["a=b", "path=/x=y", "path=/z"]), "/x=y")
        self.assertIsNone(path_in(["a=b", "xpath=/x"]))

    def test_addresses(self):
        wanted = {"h": ("h", 53), "127.0.0.1:5": ("127.0.0.1", 5)}
        wanted.update({"[::1]:5": ("::1", 5), "::1": ("::1", 53)})
        for text, address in wanted.items():
            self.assertEqual(address_of(text), address)
        for text in ("", "x:y", "[x]:1", "a b:1:2"):
            with self.assertRaises(Undiscovered):
                address_of(text)


def records(*words):
    """What dns_records.py prints."""
    words = [sys.executable, str(TOOLS / "dns_records.py"), *words]
    return subprocess.run(words, check=True, capture_output=True, text=True).stdout


class Records(unittest.TestCase):
    SERVERS = [DOMAIN, "https://a.test,0,3", "https://b.test:8443,1", "http://c.test"]

    def test_forms(self):
        self.assertEqual(
            records(*self.SERVERS).splitlines(),
            [
                "_timezones._tcp.zones.test. 3600 IN SRV 0 3 443 a.test.",
                "_timezones._tcp.zones.test. 3600 IN SRV 1 1 8443 b.test.",
                "_timezone._tcp.zones.test. 3600 IN SRV 0 1 80 c.test.",
                '_timezones._tcp.zones.test. 3600 IN TXT "path=/tzdist"',
                '_timezone._tcp.zones.test. 3600 IN TXT "path=/tzdist"',
            ],
        )
        lines = records("--form", "knot", "--path", "", "--ttl", "60", DOMAIN, "https://a.test")
        one = "zone-set zones.test _timezones._tcp 60 SRV 0 1 443 a.test."
        self.assertEqual(lines, f"zone-begin zones.test\n{one}\nzone-commit zones.test\n")
        self.assertEqual(
            records("--form", "dnsmasq", DOMAIN, "https://a.test,2,5").splitlines(),
            [
                "srv-host=_timezones._tcp.zones.test,a.test,443,2,5",
                'txt-record=_timezones._tcp.zones.test,"path=/tzdist"',
            ],
        )

    def test_refusals(self):
        wrong = ["a.test", "ftp://a.test", "https://a.test/x", "https://", "https://127.0.0.1"]
        for word in [*wrong, "https://a.test,-1", "https://a.test,1,65536", "https://a.test,x"]:
            with self.assertRaises(subprocess.CalledProcessError) as seen:
                records(DOMAIN, word)
            self.assertIn("is no server", seen.exception.stderr)


class Dnsmasq:
    """A dnsmasq at a free port of the loopback, with these lines of configuration."""

    def __init__(self, room, lines):
        program = shutil.which("dnsmasq", path=os.environ["PATH"] + ":/usr/sbin:/sbin")
        if program is None:
            raise unittest.SkipTest("dnsmasq: not installed")
        (room / "dnsmasq.conf").write_text("\n".join([f"local=/{DOMAIN}/", *lines, ""]))
        for _ in range(3):
            self.port = free_port()
            words = [program, "--keep-in-foreground", "--no-resolv", "--no-hosts", "--pid-file"]
            words += ["--listen-address=127.0.0.1", "--bind-interfaces", f"--port={self.port}"]
            words += [f"--conf-file={room}/dnsmasq.conf"]
            words += ["--user="] if os.getuid() == 0 else []
            quiet = {"stdout": subprocess.DEVNULL, "stderr": subprocess.DEVNULL}
            self.child = subprocess.Popen(words, **quiet)
            if self.listens():
                break
        self.address = f"127.0.0.1:{self.port}"

    def listens(self):
        """Whether it listens at its port in time."""
        for _ in range(500):
            time.sleep(0.02)
            if self.child.poll() is not None:
                return False
            with contextlib.suppress(OSError):
                socket.create_connection(("127.0.0.1", self.port), 5).close()
                return True
        return False

    def close(self):
        self.child.kill()
        self.child.wait()


class Found(cases.Room):
    """Two servers of a domain: one that is down, and one that is up."""

    def setUp(self):
        super().setUp()
        self.box = Path(tempfile.mkdtemp())
        self.addCleanup(shutil.rmtree, self.box)
        self.fake = Fake(FIRST)
        self.addCleanup(self.fake.close)
        self.up, self.down = self.fake.server.server_port, free_port()

    def dns(self, *servers, path="/at/tzdist", scheme="http", lines=()):
        """A DNS server with these servers, each a port with its priority and weight."""
        words = [f"{scheme}://localhost:{port},{more}" for port, more in servers]
        made = records("--form", "dnsmasq", "--path", path, DOMAIN, *words) if words else ""
        served = Dnsmasq(self.box, [*made.splitlines(), *lines])
        self.addCleanup(served.close)
        return served

    def clients(self):
        """The command of each client that can run here."""
        python = interpreter()
        if python:
            yield "Python", [python, str(TOOLS / "fetch_zoneinfo.py")]
        if shutil.which("curl") and (shutil.which("dig") or shutil.which("drill")):
            yield "shell", ["sh", str(TOOLS / "tzfetch.sh")]
        if not python:
            print("dnspython: not installed; fetch_zoneinfo.py --domain: skipped", file=sys.stderr)

    def each(self, *served):
        """Each client, without a tree, and a function that runs it."""
        for name, words in self.clients():
            shutil.rmtree(self.home)
            self.home.mkdir()
            self.fake.asked = []

            def run(address, domain=DOMAIN):
                command = [*words, "--domain", domain, "--dns", address, str(self.dir)]
                return subprocess.run(command, capture_output=True, text=True, timeout=LONG)

            with self.subTest(name):
                yield run

    def test_the_next_server(self):
        """The server that is down is tried first, and the other one is used."""
        served = self.dns((self.up, "5,1"), (self.down, "2,1"))
        for run in self.each():
            done = run(served.address)
            line = f"{self.dir}: at 1, 3 zones, 6 names, 3 asked for\n"
            self.assertEqual((done.returncode, done.stdout), (0, line))
            self.assertIn(f"failed: http://localhost:{self.down}/at/tzdist/zones", done.stderr)
            self.assertEqual(self.fake.asked[0], "/at/tzdist/zones")
            self.holds(FIRST)
            self.assertIn("nothing changed", run(served.address).stdout)

    def test_all_are_down(self):
        served = self.dns((self.down, "0,1"))
        for run in self.each():
            done = run(served.address)
            self.assertEqual((done.returncode, done.stdout), (1, ""))
            self.assertIn(f"failed: http://localhost:{self.down}/at/tzdist/zones", done.stderr)
            self.assertFalse(self.dir.exists())

    def test_the_well_known_address(self):
        """Without a path in the DNS, the server's well-known address gives it."""
        text = f"txt-record=_timezone._tcp.{DOMAIN},v=1"
        served = self.dns((self.up, "0,1"), path="", lines=[text])
        for run in self.each():
            self.assertIn("3 asked for", run(served.address).stdout)
            self.assertEqual(self.fake.asked[:2], ["/.well-known/timezone", "/at/tzdist/zones"])

    def test_another_server_of_the_domain(self):
        """A change of servers costs the list, and no file whose tag is the same. The server in use
        comes first."""
        other = Fake(FIRST, SECOND)
        self.addCleanup(other.close)
        both = self.dns((self.up, "0,1"), (other.server.server_port, "0,9"))
        one = self.dns((other.server.server_port, "0,9"))
        for run in self.each():
            run(one.address)
            for _ in range(4):
                self.assertIn("at 2, nothing changed", run(both.address).stdout)
            run(self.dns((self.up, "0,1")).address)
            changed = ["/at/tzdist/zones", "/at/tzdist/zones/Test/Deep/Zone"]
            self.assertEqual(self.fake.asked, changed)
            self.holds(FIRST)

    def test_no_records(self):
        """A domain without records is a server itself, by HTTPS."""
        served = self.dns()
        for run in self.each():
            done = run(served.address)
            self.assertEqual(done.returncode, 1)
            self.assertRegex(done.stderr, f"^failed: https://{DOMAIN}/.well-known/timezone: ")

    def test_https_first(self):
        """Servers of HTTP are not used where there are some of HTTPS."""
        http = records("--form", "dnsmasq", DOMAIN, f"http://localhost:{self.up}").splitlines()
        served = self.dns((self.down, "0,1"), scheme="https", lines=http)
        for run in self.each():
            done = run(served.address)
            self.assertEqual(done.returncode, 1)
            self.assertIn(f"failed: https://localhost:{self.down}/", done.stderr)
            self.assertEqual(self.fake.asked, [])

    def test_no_service(self):
        services = ("_timezones._tcp", "_timezone._tcp")
        served = self.dns(lines=[f"srv-host={service}.{DOMAIN}" for service in services])
        for run in self.each():
            done = run(served.address)
            self.assertEqual((done.returncode, done.stdout), (1, ""))
            self.assertIn(f"{DOMAIN}: its DNS records say that it has no server", done.stderr)

    def test_no_dns(self):
        for run in self.each():
            done = run(f"127.0.0.1:{self.down}")
            self.assertEqual((done.returncode, done.stdout), (1, ""))
            self.assertIn("DNS gives no answer", done.stderr)
            self.assertEqual(run("127.0.0.1:x:y").returncode != 0, True)

    def test_weights(self):
        """Of servers that are down the one of the greatest weight is tried first."""
        other = free_port()
        served = self.dns((self.down, "0,0"), (other, "0,65535"))
        for run in self.each():
            for _ in range(4):
                tried = re.findall(r"localhost:([0-9]+)/", run(served.address).stderr)
                self.assertEqual(list(dict.fromkeys(tried)), [str(other), str(self.down)])

    def tools(self, *more):
        """A folder with what the script needs, and with these programs."""
        folder = Path(tempfile.mkdtemp(dir=self.box))
        needed = "curl sh awk cat cmp cp cut find flock grep ln ls mkdir mv od readlink rm sed"
        needed += " sha256sum sort sync tail touch tr wc xargs"
        for name in [*needed.split(), *more]:
            if shutil.which(name):
                (folder / name).symlink_to(shutil.which(name))
        return str(folder)

    def test_drill(self):
        """The shell script reads answers of drill as it reads those of dig."""
        if not (shutil.which("drill") and shutil.which("curl")):
            self.skipTest("drill or curl: not installed")
        served = self.dns((self.up, "5,1"), (self.down, "2,1"))
        words = ["/bin/sh", str(TOOLS / "tzfetch.sh"), "--domain", DOMAIN, "--dns", served.address]
        path = {"PATH": self.tools("drill")}
        words += [str(self.dir)]
        done = subprocess.run(words, env=path, capture_output=True, text=True, timeout=LONG)
        self.assertIn("3 asked for", done.stdout, done.stderr)
        self.assertEqual(self.fake.asked[0], "/at/tzdist/zones")

    def test_without_helpers(self):
        """Without dnspython or dig each client says what to install."""
        words = ["--domain", DOMAIN, "--dns", "127.0.0.1:1", str(self.dir)]
        program = f"import sys; sys.path.insert(0, {str(TOOLS)!r}); import fetch_zoneinfo"
        program += "; sys.exit(fetch_zoneinfo.main())"
        python = [sys.executable, "-B", "-I", "-S", "-c", program]
        done = subprocess.run([*python, *words], capture_output=True, text=True, timeout=LONG)
        self.assertEqual(done.returncode, 1)
        self.assertIn("install python3-dnspython", done.stderr)
        if not shutil.which("curl"):
            self.skipTest("curl: not installed")
        words = ["/bin/sh", str(TOOLS / "tzfetch.sh"), *words]
        path = {"PATH": self.tools()}
        done = subprocess.run(words, env=path, capture_output=True, text=True, timeout=LONG)
        self.assertEqual(done.returncode, 1)
        self.assertIn("--domain needs dig (package bind9-dnsutils) or drill", done.stderr)


if __name__ == "__main__":
    if len(sys.argv) == 1:
        sys.exit(run_tests_beside(WHOLE, SLOW))
    unittest.main()
