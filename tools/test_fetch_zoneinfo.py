#!/usr/bin/env python3
"""Tests of fetch_zoneinfo.py with a server made here, which gives false replies of each kind, and
with the built program.

    tools/test_fetch_zoneinfo.py [PROGRAM] [unittest's words]

Where a PROGRAM is given, a release of it is fetched from end to end as well. Needs Python's
standard library only.
"""

import contextlib
import faulthandler
import hashlib
import http.server
import json
import os
import shutil
import signal
import ssl
import struct
import subprocess
import sys
import tempfile
import threading
import time
import unittest
from pathlib import Path
from unittest import mock
from urllib.parse import unquote, urlsplit

sys.dont_write_bytecode = True

import fetch_zoneinfo
from fetch_zoneinfo import Failed, Wishes, fetch
from served import Served

PROGRAM = None
WHOLE = 1800
SYSTEM = Path("/usr/share/zoneinfo")


def zone_file(footer, types=((3600, 0, b"AAA"),), times=(), **odd):
    """A TZif file with these types, transitions to them and footer, and with what `odd` changes."""
    names = b"".join(name + b"\0" for _, _, name in types)
    block = b"".join(struct.pack(">q", at) for at, _ in times) + bytes(number for _, number in times)
    begin = 0
    for offset, daylight, name in types:
        block += struct.pack(">iBB", offset, daylight, begin)
        begin += len(name) + 1
    leaps = odd.get("leaps", 0)
    block += names + b"".join(struct.pack(">qi", 78_796_800 + at, 1 + at) for at in range(leaps))
    version = odd.get("version", b"2")

    def header(version, *counts):
        return odd.get("magic", b"TZif") + version + bytes(15) + struct.pack(">6I", *counts)

    first = header(version, 0, 0, 0, 0, 1, 1) + bytes(7)
    counts = odd.get("counts", (0, 0, leaps, len(times), len(types), len(names)))
    second = header(odd.get("second", version), *counts)
    return first + second + block + odd.get("end", b"\n" + footer + b"\n")


# Changes in March and October 2007. The footer has those after them.
CHANGES = ((1_174_784_400, 1), (1_193_533_200, 0))
TYPES = ((3600, 0, b"AAA"), (7200, 1, b"BBB"))
STEADY = zone_file(b"AAA-1", TYPES, CHANGES)
RULED = zone_file(b"AAA-1BBB,M3.5.0,M10.5.0/3", TYPES, CHANGES)
UTC = zone_file(b"UTC0", ((0, 0, b"UTC"),))
OTHER = zone_file(b"<+03>-3", ((10_800, 0, b"+03"),))

FIRST = {"Etc/UTC": (["UTC", "Etc/UCT"], UTC), "Test/Deep/Zone": (["Test/Old"], STEADY), "Plain": ([], OTHER)}
SECOND = {**FIRST, "Test/Deep/Zone": (["Test/Old"], RULED)}


def tree_wanted(zones):
    """What a tree of zones contains: the bytes of files, and the targets of links."""
    files = {}
    for tzid, (aliases, data) in zones.items():
        files[tzid] = data
        for name in aliases:
            files[name] = os.path.relpath(tzid, os.path.dirname(name) or ".")
    return files


def tree_of(folder):
    """What a tree contains, in the same form."""
    files = {}
    for at, folders, names in os.walk(folder):
        for name in names + [name for name in folders if os.path.islink(os.path.join(at, name))]:
            path = os.path.join(at, name)
            inside = os.path.relpath(path, folder)
            files[inside] = os.readlink(path) if os.path.islink(path) else Path(path).read_bytes()
    return files


def quiet(*_):
    """Replaces lines and tracebacks of the server on standard error."""


def etag_of(zones, tzid):
    """The tag that the list has for a zone."""
    aliases, data = zones[tzid]
    return hashlib.sha256(repr(sorted(aliases)).encode() + data).hexdigest()[:8]


class Handler(http.server.BaseHTTPRequestHandler):
    protocol_version = "HTTP/1.1"
    log_message = quiet

    def do_GET(self):
        self.server.fake.answer(self)


class Fake:
    """A server of zones with a list of releases. It answers as it should, unless `lies` has a false
    reply for the target."""

    def __init__(self, *releases, certificate=None):
        self.releases, self.lies, self.asked, self.stale = list(releases), {}, [], {}
        self.form, self.before_get, self.known, self.between = '"{}.t"', quiet, 1, True
        self.any_name, self.peers = False, []
        self.server = http.server.ThreadingHTTPServer(("127.0.0.1", 0), Handler)
        self.server.fake, self.server.daemon_threads, self.server.handle_error = self, True, quiet
        self.url = f"http://127.0.0.1:{self.server.server_port}"
        if certificate is not None:
            context = ssl.SSLContext(ssl.PROTOCOL_TLS_SERVER)
            context.load_cert_chain(certificate)
            lazy = {"server_side": True, "do_handshake_on_connect": False}
            self.server.socket = context.wrap_socket(self.server.socket, **lazy)
            self.url = f"https://localhost:{self.server.server_port}"
        threading.Thread(target=self.server.serve_forever, args=(0.01,), daemon=True).start()

    def close(self):
        self.server.shutdown()
        self.server.server_close()

    @property
    def token(self):
        return f"at {len(self.releases)}"

    def list(self, since):
        """The document of all zones, of those that changed since a release, or of those that differ
        from it."""
        zones = self.releases[-1]
        entries = []
        for tzid, (aliases, _) in zones.items():
            held = [release.get(tzid) for release in self.releases[(since or 1) - 1 :]]
            held = held if self.between else [held[0], held[-1]]
            if since is None or any(after != before for before, after in zip(held, held[1:])):
                entry = {"tzid": tzid, "etag": etag_of(zones, tzid), "publisher": "x", "tag": 5}
                entries.append({**entry, "aliases": aliases} if aliases else entry)
        return {"synctoken": self.token, "timezones": entries}

    def answer(self, handler):
        parts = urlsplit(handler.path)
        path, query = unquote(parts.path), unquote(parts.query)
        fresh = handler.headers.get("Cache-Control") == "no-cache"
        self.asked.append(path + ("?" + query if query else ""))
        self.peers.append((path, handler.client_address))
        for target in (path + "?", path):
            lie = self.lies.get(target if query or target == path else None)
            if lie is not None:
                return lie(handler)
        if path == "/.well-known/timezone":
            return send(handler, 301, b"", Location="/at/tzdist")
        if path in self.stale and not fresh:
            return send(handler, 200, *self.stale[path])
        if path == "/at/tzdist/zones":
            since = int(query.partition("=at ")[2]) if query else None
            if since is not None and not self.known <= since <= len(self.releases):
                problem = {"type": fetch_zoneinfo.REFUSED_TOKEN, "status": 400}
                return send(handler, 400, json.dumps(problem).encode())
            return send(handler, 200, json.dumps(self.list(since)).encode())
        tzid = path.removeprefix("/at/tzdist/zones/")
        self.before_get(tzid)
        zones = self.releases[-1]
        if self.any_name:
            return send(handler, 200, STEADY, ETag='"e.t"')
        if tzid not in zones:
            return send(handler, 404, b"{}")
        tag = self.form.format(etag_of(zones, tzid))
        if tag and handler.headers.get("If-None-Match") == tag:
            return send(handler, 304, None, ETag=tag)
        return send(handler, 200, zones[tzid][1], **({"ETag": tag} if tag else {}))


def send(handler, status, body, length=None, **fields):
    """A reply. With a length, which may be wrong for the body, the connection ends after it."""
    lines = [f"HTTP/1.1 {status} x", *(f"{name.replace('_', '-')}: {value}" for name, value in fields.items())]
    told = length or [] if body is None else length or [len(body)]
    lines += [f"Content-Length: {value}" for value in told]
    handler.wfile.write("\r\n".join([*lines, "", ""]).encode() + (body or b""))
    handler.close_connection = length is not None


def said(status, body, *length, **fields):
    """A false reply with this content."""
    return lambda handler: send(handler, status, body, length or None, **fields)


def cut(text):
    """A false reply that sends this text, and then ends the connection."""

    def lie(handler):
        handler.wfile.write(text)
        handler.close_connection = True

    return lie


def in_pieces(body):
    """A false reply with a chunked body, which is complete."""
    head = b"HTTP/1.1 200 x\r\nTransfer-Encoding: chunked\r\n\r\n"
    return cut(head + f"{len(body):x}\r\n".encode() + body + b"\r\n0\r\n\r\n")


def dripping(handler):
    """A false reply that never ends."""
    with contextlib.suppress(OSError):
        handler.wfile.write(b"HTTP/1.1 200 x\r\nContent-Length: 100000\r\n\r\n")
        for _ in range(200):
            handler.wfile.write(b"x")
            time.sleep(0.05)
    handler.close_connection = True


def listed(*entries, token="t"):
    """A false reply with a list of these names, each with its aliases."""
    zones = [{"tzid": tzid, "etag": "e", "aliases": list(aliases)} for tzid, *aliases in entries]
    return said(200, json.dumps({"synctoken": token, "timezones": zones}).encode())


ZONES, DEEP = "/at/tzdist/zones", "/at/tzdist/zones/Test/Deep/Zone"
HEAD = b"HTTP/1.1 200 x\r\nContent-Length: 50\r\n\r\n"

TAGGED = {"ETag": f'"{etag_of(SECOND, "Test/Deep/Zone")}.t"'}

BAD_REPLIES = {
    "half a body": said(200, RULED[:-20], len(RULED), **TAGGED),
    "a length that is too short": said(200, RULED, len(RULED) - 20, **TAGGED),
    "a length that is too long": said(200, RULED, len(RULED) + 1, **TAGGED),
    "two lengths": said(200, RULED, len(RULED), 3, **TAGGED),
    "no length": cut(f"HTTP/1.1 200 x\r\nETag: {TAGGED['ETag']}\r\n\r\n".encode() + RULED),
    "a length that is none": said(200, RULED, "many", **TAGGED),
    "half of the pieces": cut(b"HTTP/1.1 200 x\r\nTransfer-Encoding: chunked\r\n\r\n5\r\nTZif2\r\n"),
    "too long a body": said(200, RULED + bytes(fetch_zoneinfo.MOST_ZONE_BYTES)),
    "too long a body in pieces": in_pieces(RULED + bytes(fetch_zoneinfo.MOST_LIST_BYTES)),
    "500": said(500, b"{}"),
    "404": said(404, b"{}"),
    "a refusal that is no problem": said(400, b"no"),
    "304 of nothing": said(304, None),
    "a redirect": said(302, b"", Location="http://127.0.0.1:1/"),
    "no reply": cut(b""),
    "half a head": cut(HEAD[:30]),
    "a head alone": cut(HEAD),
    "no HTTP": cut(b"TZif2\x1b[2J\r\n\r\n"),
    "no end": dripping,
    "nothing": said(200, b""),
}

BAD_FILES = {
    "another kind": b"BEGIN:VCALENDAR\r\nEND:VCALENDAR\r\n",
    "the magic": zone_file(b"AAA-1", magic=b"TZiF"),
    "version 1": zone_file(b"AAA-1", version=b"\0"),
    "version 9": zone_file(b"AAA-1", version=b"9"),
    "two versions": zone_file(b"AAA-1", version=b"2", second=b"3"),
    "no types": zone_file(b"AAA-1", counts=(0, 0, 0, 0, 0, 4)),
    "no letters": zone_file(b"AAA-1", counts=(0, 0, 0, 0, 1, 0)),
    "indicators of some types": zone_file(b"AAA-1", TYPES, counts=(1, 0, 0, 0, 2, 8)),
    "counts beyond the file": zone_file(b"AAA-1", counts=(0, 0, 0, 1 << 31, 1, 4)),
    "leap seconds": zone_file(b"AAA-1", leaps=2),
    "transitions that fall": zone_file(b"AAA-1", TYPES, CHANGES[::-1]),
    "a transition to no type": zone_file(b"AAA-1", TYPES, ((5, 2),)),
    "an offset of two days": zone_file(b"AAA-1", ((172_800, 0, b"AAA"),)),
    "neither day nor night": zone_file(b"AAA-1", ((3600, 2, b"AAA"),)),
    "no footer": zone_file(b"", end=b""),
    "half a footer": zone_file(b"", end=b"\nAAA-1BBB,M3.5"),
    "a footer that is none": zone_file(b"AAA-1BBB"),
    "a footer of words": zone_file(b"not a rule"),
    "bytes after the footer": RULED + b"x",
    "one byte less": RULED[:-1],
    "one byte less inside": RULED[:60] + RULED[61:],
}

# Replies that are no list, and bad lists by what is said of them.
NO_LISTS = {
    "no JSON": said(200, b"hello"),
    "half of it": said(200, b'{"synctoken":"t","timezones":[{"tzid":"A"'),
    "no UTF-8": said(200, b'{"synctoken":"\xff","timezones":[]}'),
    "a deep one": said(200, b"[" * 100_000),
    "an array": said(200, b"[]"),
    "no token": said(200, b'{"timezones":[{"tzid":"A","etag":"e"}]}'),
    "a token that is no text": listed(["A"], token=5),
    "zones that are no array": said(200, b'{"synctoken":"t","timezones":{"A":1}}'),
    "no tag": said(200, b'{"synctoken":"t","timezones":[{"tzid":"A"}]}'),
    "aliases that are a text": said(200, b'{"synctoken":"t","timezones":[{"tzid":"A","etag":"e","aliases":"BC"}]}'),
    "a name of a number": said(200, b'{"synctoken":"t","timezones":[{"tzid":5,"etag":"e"}]}'),
}
BAD_LISTS = {
    "stands twice": {
        "one zone twice": listed(["A"], ["A"]),
        "one alias twice": listed(["A", "B"], ["C", "B"]),
        "an alias of itself": listed(["A", "A"]),
    },
    "lies below another zone": {
        "a zone below a zone": listed(["A"], ["A/B"]),
        "a zone below an alias": listed(["A", "B"], ["B/C"]),
        "an alias below a zone": listed(["A/B", "A"]),
    },
    "names, more than": {"too many": listed(["A", *(f"B{number}" for number in range(fetch_zoneinfo.MOST_NAMES))])},
}

BAD_NAMES = ["", ".", "..", "../out", "A/../../out", "A/..", "./A", "/out", "//out", "A//B", "A/", "A" * 65]
BAD_NAMES += ["A B", "A\\..\\B", "A\0B", "A\nB", "Ä", "~root", "A:B", "%2e%2e/out"]

# The calls that change what is on the disk, or wait for the disk.
CALLS = ["mkdir", "symlink", "replace", "rename", "link", "unlink", "rmdir", "fsync"]


class Room(unittest.TestCase):
    """A folder for trees, and the client that fetches them into it."""

    # The name of the state file beside a tree.
    STATE = "state.json"

    def bring(self, url, seconds=None, **wishes):
        """A run of the client, in which each exchange takes at most this many seconds."""
        with mock.patch.object(fetch_zoneinfo, "EXCHANGE", seconds or fetch_zoneinfo.EXCHANGE):
            return fetch(url, str(self.dir), Wishes(**wishes))

    def setUp(self):
        folder = tempfile.TemporaryDirectory()
        self.addCleanup(folder.cleanup)
        self.root = Path(folder.name)
        self.home = self.root / "home"
        self.home.mkdir()
        self.dir = self.home / "zi"

    def holds(self, zones, where=None):
        """DIR contains these zones, and no other files are left."""
        self.assertEqual(tree_of(where or self.dir), tree_wanted(zones))
        self.assert_tidy()

    def assert_tidy(self):
        """DIR, its tree, the tree before it and their lock are in the folder, and nothing else."""
        self.assertLessEqual({path.name for path in self.root.iterdir()}, {"home", "base"})
        names = {path.name for path in self.home.iterdir()}
        self.assertLessEqual(names, {"zi", "zi.trees"})
        number = int(os.readlink(self.dir).split("/")[1]) if self.dir.is_symlink() else 0
        trees = set(os.listdir(f"{self.dir}.trees")) - {"lock"}
        wanted = {str(number)} if number else set()
        self.assertLessEqual(wanted, trees)
        self.assertTrue(all(int(name) <= number for name in trees) and len(trees) <= 2, trees)


class Faked(Room):
    """Such a folder, and a server that may give false replies."""

    def setUp(self):
        super().setUp()
        self.fake = Fake(FIRST)
        self.addCleanup(self.fake.close)

    def fetch(self, seconds=None):
        """The line that a run prints, and what it requested."""
        self.fake.asked = []
        line = self.bring(self.fake.url, seconds)
        # a client that follows redirects by itself requests the context path, too
        asked = [target for target in self.fake.asked[1:] if target != "/at/tzdist"]
        return line, [target.removeprefix("/at/tzdist") for target in asked]

    def refused(self, part=""):
        """A run fails, and DIR stays as it was."""
        link = os.readlink(self.dir) if self.dir.is_symlink() else None
        held, state = tree_of(self.dir), self.state()
        with self.assertRaises(Failed) as seen:
            self.fetch(1 if dripping in self.fake.lies.values() else None)
        self.assertIn(part, str(seen.exception))
        self.assertTrue(str(seen.exception).isprintable())
        self.assertEqual(os.readlink(self.dir) if self.dir.is_symlink() else None, link)
        self.assertEqual((tree_of(self.dir), self.state()), (held, state))
        self.assert_tidy()

    def begin_anew(self):
        """Removes everything, so that it is as before the first run."""
        shutil.rmtree(self.home)
        self.home.mkdir()

    def settles(self, token, zones, first=None):
        """A run ends at this token with these zones. Where it got the first release, that takes one
        more run. Then everything is removed."""
        self.fetch()
        if self.state()["token"] == "at 1":
            if first is not None:
                self.holds(first)
            self.fetch()
        self.assertEqual(self.state()["token"], token)
        self.holds(zones)
        self.begin_anew()

    def state_path(self):
        return Path(os.path.realpath(self.dir)).parent / self.STATE

    def state(self):
        return json.loads(self.state_path().read_text()) if self.state_path().is_file() else None

    def lied(self, lies, target, part="", first=True):
        """Each false reply is refused, without a tree and beside one, and then a run succeeds."""
        for what, lie in lies.items():
            with self.subTest(what):
                self.begin_anew()
                self.fake.releases = [FIRST]
                if first:
                    self.refused_with({target.rstrip("?"): lie}, part)
                self.fetch()
                self.fake.releases = [FIRST, SECOND]
                self.refused_with({target: lie}, part)
                self.holds(FIRST)
                self.fetch()
                self.holds(SECOND)

    def refused_with(self, lies, part):
        """A run fails because of false replies. If they are lists, there is a file for any name."""
        self.fake.lies, self.fake.any_name = lies, part != ""
        self.refused(part)
        self.fake.lies, self.fake.any_name = {}, False


class Fetching(Faked):
    def test_all_and_then_what_changed(self):
        line, asked = self.fetch()
        self.assertEqual(line, f"{self.dir}: at 1, 3 zones, 6 names, 3 asked for")
        self.assertEqual(asked, ["/zones", *(f"/zones/{tzid}" for tzid in FIRST)])
        self.holds(FIRST)
        self.assertEqual(self.fetch(), (f"{self.dir}: at 1, nothing changed", ["/zones?changedsince=at 1"]))
        self.fake.releases.append(SECOND)
        line, asked = self.fetch()
        self.assertEqual(line, f"{self.dir}: at 2, 3 zones, 6 names, 1 asked for")
        self.assertEqual(asked, ["/zones?changedsince=at 1", "/zones/Test/Deep/Zone"])
        self.holds(SECOND)
        self.assertEqual(tree_of(f"{self.dir}.trees/1/zoneinfo"), tree_wanted(FIRST))
        same = [os.stat(f"{self.dir}.trees/{number}/zoneinfo/Plain").st_ino for number in (1, 2)]
        self.assertEqual(same[0], same[1])
        self.fake.releases.append(FIRST)
        self.fetch()
        self.holds(FIRST)
        self.assertEqual(sorted(os.listdir(f"{self.dir}.trees")), ["2", "3", "lock"])

    def test_a_context_path(self):
        self.bring(self.fake.url + "/at/tzdist/")
        self.assertEqual(self.fake.asked[0], "/at/tzdist/zones")
        self.holds(FIRST)

    def test_a_release_without_a_changed_zone(self):
        self.fetch()
        self.fake.releases.append(FIRST)
        self.assertEqual(self.fetch(), (f"{self.dir}: at 2, no zone changed", ["/zones?changedsince=at 1"]))
        self.assertEqual(self.fetch(), (f"{self.dir}: at 2, nothing changed", ["/zones?changedsince=at 2"]))
        self.holds(FIRST)

    def test_tables(self):
        """The tables of a folder are copied, and a change of them makes a new tree."""
        source = self.root / "base"
        source.mkdir()
        for name in ("iso3166.tab", "zone1970.tab", "leapseconds"):
            (source / name).write_text(f"{name}\n")
        tables = {name: f"{name}\n".encode() for name in ("iso3166.tab", "zone1970.tab")}
        wanted = {**tree_wanted(FIRST), **tables}
        for expected in ("3 asked for", "nothing changed"):
            self.assertIn(expected, self.bring(self.fake.url, tables=str(source)))
            self.assertEqual(tree_of(self.dir), wanted)
        (source / "iso3166.tab").write_text("newer\n")
        (source / "zone1970.tab").unlink()
        self.assertIn("0 asked for", self.bring(self.fake.url, tables=str(source)))
        self.assertEqual(tree_of(self.dir), {**tree_wanted(FIRST), "iso3166.tab": b"newer\n"})
        # a zone of such a name is no table
        (source / "tzdata.zi").write_text("a table\n")
        self.fake.releases.append({**FIRST, "tzdata.zi": ([], UTC)})
        self.bring(self.fake.url, tables=str(source))
        self.assertEqual((self.dir / "tzdata.zi").read_bytes(), UTC)

    def test_names_that_move(self):
        steps = [
            {"A": (["B", "C/D"], UTC), "E": ([], OTHER)},
            {"A": (["C/D"], UTC), "E": (["B"], OTHER)},
            {"B": (["A", "E"], STEADY), "C/D": ([], UTC)},
            {"B": ([], STEADY), "C/D": ([], UTC), "E/F": ([], UTC)},
        ]
        for count, zones in enumerate(steps, 1):
            self.fake.releases.append(zones)
            if count == 1:
                self.fake.known = 2
            elif count == 4:
                # this list leaves names out, which no list of changes shows
                self.fake.known = 5
            self.fetch()
            self.holds(zones)

    def test_a_refused_token(self):
        self.fetch()
        self.fake.releases.append(SECOND)
        self.fake.known = 2
        line, asked = self.fetch()
        self.assertEqual(asked, ["/zones?changedsince=at 1", "/zones", "/zones/Test/Deep/Zone"])
        self.holds(SECOND)
        self.fake.releases.append(SECOND)
        self.fake.known = 3
        self.assertEqual(self.fetch()[1], ["/zones?changedsince=at 2", "/zones"])
        self.assertEqual(self.state()["token"], "at 3")

    def test_another_server(self):
        self.fetch()
        other = Fake(FIRST, SECOND)
        self.addCleanup(other.close)
        self.bring(other.url)
        asked = [target for target in other.asked if target != "/at/tzdist"]
        self.assertEqual(asked[1:3], ["/at/tzdist/zones", "/at/tzdist/zones/Etc/UTC"])
        self.holds(SECOND)

    def test_what_was_damaged_is_mended(self):
        state = f"../{self.STATE}"
        damages = [
            ("Plain", lambda path: path.unlink(), ["/zones", "/zones/Plain"]),
            ("Plain", lambda path: path.write_bytes(OTHER[:-1]), ["/zones", "/zones/Plain"]),
            ("Test/Old", lambda path: path.unlink(), ["/zones", "/zones/Test/Deep/Zone"]),
            (state, lambda path: path.write_text(path.read_text()[:-9]), ["/zones", *(f"/zones/{z}" for z in FIRST)]),
            (state, lambda path: path.write_text("[]"), ["/zones", *(f"/zones/{z}" for z in FIRST)]),
            (state, lambda path: path.unlink(), ["/zones", *(f"/zones/{z}" for z in FIRST)]),
        ]
        self.fetch()
        for name, damage, wanted in damages:
            with self.subTest(name):
                damage(Path(os.path.realpath(self.dir)) / name)
                self.assertEqual(self.fetch()[1], wanted)
                self.holds(FIRST)

    def test_a_tag_is_asked_with(self):
        """Where a list has another tag for the same file, the file is not sent."""
        self.fetch()
        text = self.state_path().read_text()
        changed = text.replace(etag_of(FIRST, "Plain"), "older", 1).replace("at 1", "at 9")
        self.state_path().write_text(changed)
        self.assertIn("1 asked for", self.fetch()[0])
        self.assertEqual(self.state()["zones"]["Plain"]["etag"], etag_of(FIRST, "Plain"))
        self.holds(FIRST)

    def test_an_old_answer_on_the_way(self):
        """A file that a cache on the way has kept is not taken for the listed one."""
        self.fetch()
        self.fake.releases.append(SECOND)
        old = '"{}.t"'.format(etag_of(FIRST, "Test/Deep/Zone"))
        for body, fields in ((STEADY, {"ETag": old}), (STEADY, {})):
            self.fake.stale = {DEEP: (body,)}
            with mock.patch.dict(globals(), {"send": with_fields(send, body, fields)}):
                self.assertEqual(self.fetch()[1][1:], ["/zones/Test/Deep/Zone"] * 2)
            self.holds(SECOND)
            self.fake.stale = {}
            self.begin_anew()
            self.fake.releases.pop()
            self.fetch()
            self.fake.releases.append(SECOND)

    def test_tags_that_tell_nothing(self):
        """If a server has such tags or none, a list without changes confirms what was fetched."""
        for form in ('"{}-x"', ""):
            self.fake.form = form
            self.fake.releases = [FIRST]
            self.fetch()
            self.holds(FIRST)
            self.fake.releases.append(SECOND)
            asked = self.fetch()[1]
            wanted = ["/zones?changedsince=at 1", *["/zones/Test/Deep/Zone"] * 2, "/zones?changedsince=at 2"]
            self.assertEqual(asked, wanted)
            self.holds(SECOND)
            self.begin_anew()

    def test_a_release_that_comes_meanwhile(self):
        for form in ('"{}.t"', '"{}-x"', ""):
            for later in ("Etc/UTC", "Test/Deep/Zone", "Plain"):
                with self.subTest(form=form, later=later):
                    self.fake.form, self.fake.releases = form, [FIRST]

                    def install(tzid):
                        if tzid == later and len(self.fake.releases) == 1:
                            self.fake.releases.append(SECOND)

                    self.fake.before_get = install
                    self.settles("at 2", SECOND, first=FIRST)

    def test_a_release_that_comes_and_goes(self):
        """The file of a release that was taken back is not kept for the release before and after
        it."""
        for form, between in ((form, between) for form in ('"{}.t"', '"{}-x"', "") for between in (True, False)):
            with self.subTest(form=form, between=between):
                self.fake.form, self.fake.releases, self.fake.between = form, [FIRST], between
                self.begin_anew()

                def install(tzid):
                    if tzid == "Test/Deep/Zone" and len(self.fake.releases) == 1:
                        self.fake.releases.append(SECOND)
                    elif tzid == "Plain" and len(self.fake.releases) == 2:
                        self.fake.releases.append(FIRST)

                self.fake.before_get = install
                self.settles("at 3", FIRST)

    def test_a_server_that_never_rests(self):
        count = iter(range(1000))

        def install(tzid):
            data = zone_file(b"AAA-1", times=((next(count), 0),))
            self.fake.releases.append({**FIRST, "Plain": ([], data), "Test/Deep/Zone": (["Test/Old"], data)})

        self.fake.before_get = install
        self.refused("it changed in each of")

    def test_a_connection_that_ended_is_opened_again(self):
        def close(handler):
            send(handler, 200, OTHER, [len(OTHER)], ETag=f'"{etag_of(FIRST, "Plain")}.t"')

        self.fake.lies["/at/tzdist/zones/Plain"] = close
        self.fake.releases = [{"Plain": FIRST["Plain"], **FIRST}]
        self.fetch()
        self.holds(FIRST)

    def test_bad_replies_for_a_zone(self):
        self.lied(BAD_REPLIES, DEEP)

    def test_bad_replies_for_a_list(self):
        self.lied(BAD_REPLIES, ZONES + "?")

    def test_bad_files(self):
        self.lied({what: said(200, data, **TAGGED) for what, data in BAD_FILES.items()}, DEEP)

    def test_bad_lists(self):
        self.lied(NO_LISTS, ZONES + "?", "a list that is none")
        for part, lies in BAD_LISTS.items():
            self.lied(lies, ZONES + "?", part)
        lies = {"a zone below one that is held": listed(["Plain/A"])}
        self.lied(lies, ZONES + "?", "lies below another zone", first=False)
        self.begin_anew()
        self.refused_with({ZONES: listed()}, "a list without zones")

    def test_bad_names_of_zones(self):
        part = "is no name of a zone"
        self.lied({f"zone {name!r}": listed(["A"], [name]) for name in BAD_NAMES}, ZONES + "?", part)

    def test_bad_names_of_aliases(self):
        part = "is no name of a zone"
        self.lied({f"alias {name!r}": listed(["A", name]) for name in BAD_NAMES}, ZONES + "?", part)

    def test_bad_well_known_addresses(self):
        lies = {
            "404": said(404, b""),
            "200": said(200, b""),
            "a loop": said(301, b"", Location="/.well-known/timezone"),
            "another kind of address": said(301, b"", Location="file:///etc"),
            "nowhere": said(301, b""),
            "no host": said(301, b"", Location="http://[::1"),
        }
        self.lied(lies, "/.well-known/timezone")

    def test_no_server(self):
        for url in ("http://127.0.0.1:1", "ftp://127.0.0.1", "nonsense", "http://", "http://[::1", "http://x:port"):
            with self.subTest(url), self.assertRaises(Failed):
                self.bring(url)

    def test_a_directory_that_is_there_stays(self):
        for make in (self.dir.mkdir, self.dir.touch, lambda: self.dir.symlink_to("/etc")):
            make()
            with self.assertRaisesRegex(Failed, "is no link to a tree"):
                self.fetch()
            self.assertEqual([path.name for path in self.home.iterdir()], ["zi"])
            self.dir.rmdir() if self.dir.is_dir() and not self.dir.is_symlink() else self.dir.unlink()

    def test_one_run_at_a_time(self):
        with fetch_zoneinfo.Trees(str(self.dir)):
            with self.assertRaisesRegex(Failed, "another run is at work"):
                self.fetch()

    def test_a_full_disk(self):
        self.fetch()
        self.fake.releases.append(SECOND)
        for call in ("link", "symlink", "replace", "fsync"):
            with self.subTest(call), mock.patch.object(os, call, side_effect=OSError(28, "No space left")):
                if call == "link":
                    # where a file cannot be linked, it is written anew
                    self.fetch()
                    self.holds(SECOND)
                    self.fake.releases.append(FIRST)
                else:
                    with self.assertRaises(OSError):
                        self.fetch()
                    self.holds(SECOND)


def certified(folder):
    """The certificate of an authority, and a file with a certificate for localhost, which that
    authority signed, and its key."""
    if shutil.which("openssl") is None:
        raise unittest.SkipTest("openssl: not installed")
    authority, key, request, extension, server = (
        str(folder / name) for name in ("ca.pem", "key.pem", "request.pem", "names", "server.pem")
    )
    new = ["openssl", "req", "-newkey", "ec", "-pkeyopt", "ec_paramgen_curve:prime256v1", "-nodes"]
    made = {"check": True, "capture_output": True}
    own = [*new, "-x509", "-days", "2", "-subj", "/CN=Test", "-keyout", f"{authority}.key"]
    subprocess.run([*own, "-out", authority], **made)
    subprocess.run([*new, "-subj", "/CN=localhost", "-keyout", key, "-out", request], **made)
    Path(extension).write_text("subjectAltName=DNS:localhost\n")
    by = ["-CA", authority, "-CAkey", f"{authority}.key", "-CAcreateserial", "-extfile", extension]
    subprocess.run(["openssl", "x509", "-req", "-days", "2", "-in", request, *by, "-out", server], **made)
    with open(server, "a") as file:
        file.write(Path(key).read_text())
    return authority, server


class Secure(Room):
    """An HTTPS server whose certificate is from an authority that no system trusts."""

    @classmethod
    def setUpClass(cls):
        cls.keys = tempfile.TemporaryDirectory()
        cls.addClassCleanup(cls.keys.cleanup)
        cls.authority, cls.certificate = certified(Path(cls.keys.name))

    def setUp(self):
        super().setUp()
        self.fake = Fake(FIRST, certificate=self.certificate)
        self.addCleanup(self.fake.close)

    def test_certificates(self):
        with self.assertRaises(Failed):
            self.bring(self.fake.url)
        self.assertEqual(self.fake.asked, [])
        self.bring(self.fake.url, cacert=self.authority)
        self.holds(FIRST)
        self.fake.releases.append(SECOND)
        self.assertIn("1 asked for", self.bring(self.fake.url, cacert=self.authority))
        self.fake.asked = []
        with self.assertRaises(Failed):
            self.bring(self.fake.url.replace("localhost", "127.0.0.1"), cacert=self.authority)
        self.assertEqual(self.fake.asked, [])
        self.holds(SECOND)

    def test_no_certificates(self):
        for name in ("none.pem", "names"):
            with self.assertRaises(Failed):
                self.bring(self.fake.url, cacert=str(Path(self.keys.name, name)))
        self.assertEqual(self.fake.asked, [])

    def test_no_way_down_to_http(self):
        plain = Fake(FIRST)
        self.addCleanup(plain.close)
        self.fake.lies["/.well-known/timezone"] = said(301, b"", Location=f"{plain.url}/at/tzdist")
        with self.assertRaisesRegex(Failed, "which is not https"):
            self.bring(self.fake.url, cacert=self.authority)


def with_fields(send, body, fields):
    """`send`, but the replies with this body have these fields."""
    return lambda handler, status, data, *rest, **more: send(
        handler, status, data, *rest, **(fields if data == body else more)
    )


class Killed(Faked):
    """A run that is killed before any of its calls leaves the old tree or the new one, whole."""

    # the first step, and how many steps from one to the next
    BEGIN, STRIDE = 1, 1
    # a run has more steps than these before it changes to the new tree, and after that
    FEW = 20, 5

    def kill(self, step):
        """A run that is killed before its call of this number, from 1. Returns whether it was."""
        child = os.fork()
        if child == 0:
            try:
                self.until(step)
                fetch(self.fake.url, str(self.dir))
            finally:
                os._exit(0)
        _, status = os.waitpid(child, 0)
        return os.WIFSIGNALED(status)

    def until(self, step):
        left = [step]

        def counted(call):
            def first(*words, **more):
                left[0] -= 1
                if left[0] == 0:
                    os.kill(os.getpid(), signal.SIGKILL)
                return call(*words, **more)

            return first

        for name in CALLS:
            setattr(os, name, counted(getattr(os, name)))
        fetch_zoneinfo.open = counted(open)

    def state_of_home(self):
        """All that is there: what a reader sees of it, and each folder."""
        folders = frozenset(at for at, _, _ in os.walk(self.home))
        return folders, frozenset(tree_of(self.home).items())

    def each_step(self, begin, wanted):
        """Tries each step from a state of the folder. Returns at how many steps DIR was the old
        tree, and at how many the new one.

        A whole run repairs what a step left, once for all steps that left the same.
        """
        old = new = 0
        mended = set()
        for step in range(self.BEGIN, 1000, self.STRIDE):
            shutil.rmtree(self.home)
            begin()
            before = tree_of(self.dir)
            if not self.kill(step):
                self.holds(wanted)
                return old, new
            seen, state = tree_of(self.dir), self.state_of_home()
            if seen == before:
                old += 1
            else:
                self.assertEqual(seen, tree_wanted(wanted), f"step {step}")
                new += 1
            if state not in mended:
                mended.add(state)
                self.fetch()
                self.holds(wanted)
        raise AssertionError("it never ended")

    def test_the_first_run(self):
        old, new = self.each_step(self.home.mkdir, FIRST)
        self.assertGreater(old, self.FEW[0])
        self.assertGreaterEqual(new, min(self.FEW[1], 1))

    def test_a_later_run(self):
        third = {**SECOND, "Plain": (["Plainer"], OTHER)}
        self.fetch()
        self.fake.releases.append(SECOND)
        self.fetch()
        shutil.copytree(self.home, self.root / "base", symlinks=True)
        self.fake.releases.append(third)
        old, new = self.each_step(lambda: shutil.copytree(self.root / "base", self.home, symlinks=True), third)
        self.assertGreater(old, self.FEW[0])
        self.assertGreater(new, self.FEW[1])


class Words(Faked):
    def run_script(self, *words, **more):
        script = Path(__file__).with_name("fetch_zoneinfo.py")
        return subprocess.Popen(
            [sys.executable, str(script), *words], stdout=subprocess.PIPE, stderr=subprocess.PIPE, text=True, **more
        )

    def test_status_and_lines(self):
        with self.run_script(self.fake.url, str(self.dir)) as done:
            output, errors = done.communicate(timeout=30)
        self.assertEqual((done.returncode, errors), (0, ""))
        self.assertEqual(output, f"{self.dir}: at 1, 3 zones, 6 names, 3 asked for\n")
        self.fake.lies[ZONES + "?"] = said(500, b"")
        with self.run_script(self.fake.url, str(self.dir)) as done:
            output, errors = done.communicate(timeout=30)
        url = f"{self.fake.url}/at/tzdist/zones?changedsince=at%201"
        self.assertEqual((done.returncode, output, errors), (1, "", f"failed: {url}: status 500\n"))
        with self.run_script(self.fake.url, str(self.dir), "--every", "0") as done:
            done.communicate(timeout=30)
        self.assertEqual(done.returncode, 2)

    def test_every(self):
        """It continues after a failure, and fetches what comes later."""
        with self.run_script(self.fake.url, str(self.dir), "--every", "1") as child:
            try:
                self.assertIn("at 1, 3 zones", child.stdout.readline())
                self.fake.lies[ZONES + "?"] = said(500, b"")
                self.assertIn("status 500", child.stderr.readline())
                self.fake.releases.append(SECOND)
                del self.fake.lies[ZONES + "?"]
                while "at 2, 3 zones" not in (line := child.stdout.readline()):
                    self.assertIn("nothing changed", line)
            finally:
                child.kill()
        self.holds(SECOND)


def some_of(source, zones):
    """The lines of a `tzdata.zi` with these zones and the links to them; all if none are given."""
    words = [line.split() for line in source.splitlines() if line[:1] in ("Z", "L")]
    if not zones:
        return source
    rows = [row for row in words if row[1] in zones and len(row) > 2]
    return "\n".join(["# version 2025b", *(" ".join(row) for row in rows), ""])


class ServedAndFetched(Room):
    """From a tree of zone files, by a release and the built program, to a tree of a device."""

    # the zones of the system that are served, or all if there are none
    SOME = ()

    def command(self, url):
        """The command that starts the client, and its environment."""
        script = str(Path(__file__).with_name("fetch_zoneinfo.py"))
        return [sys.executable, script, url, str(self.dir)], None

    def setUp(self):
        if PROGRAM is None:
            self.skipTest("no program was given")
        super().setUp()
        self.tree = self.home / "source"
        if (SYSTEM / "tzdata.zi").is_file():
            shutil.copytree(SYSTEM, self.tree, ignore=lambda at, names: {"posix", "right"} & set(names))
            names = some_of((SYSTEM / "tzdata.zi").read_text(), self.SOME)
        else:
            names = "# version 2025b\nZ Etc/UTC 0 - UTC\nL Etc/UTC UTC\n"
            (self.tree / "Etc").mkdir(parents=True)
            for name in ("Etc/UTC", "UTC"):
                (self.tree / name).write_bytes(UTC)
        (self.tree / "tzdata.zi").write_text(names + "Z Test/Ruled 1 - AAA\nL Test/Ruled Test/Alias\n")
        (self.tree / "Test").mkdir()

    def release(self, ruled, stamp):
        (self.tree / "Test/Ruled").write_bytes(ruled)
        folder = self.home / stamp
        script = Path(__file__).with_name("pack_zoneinfo.py")
        words = [sys.executable, str(script), str(self.tree), str(folder), "--as-they-are"]
        words += ["--stamp", f"{stamp}T00:00:00Z"]
        subprocess.run(words, check=True, capture_output=True)
        return str(folder)

    def assert_tidy(self):
        """The folder contains more here."""

    def as_released(self, folder):
        """DIR has the file of each name of the release, and no other file."""
        wanted = {}
        for zone in json.loads(Path(folder, "manifest.json").read_text())["zones"]:
            wanted[zone["tzid"]] = (zone.get("aliases", []), Path(folder, zone["file"]).read_bytes())
        self.holds(wanted)
        for name in tree_wanted(wanted):
            found = self.tree / name
            if found.is_file():
                self.assertEqual((self.dir / name).read_bytes(), found.read_bytes(), name)

    def test_killed_at_any_time(self):
        """The script is killed a little later each time, until that is too late. DIR is the old
        tree or the new one."""
        first, second = self.release(STEADY, "2025-06-01"), self.release(RULED, "2025-06-02")
        device, base = self.home / "device", self.root / "base"
        device.mkdir()
        self.dir = device / "zi"
        with Served([first], program=PROGRAM) as server:
            words, environment = self.command(f"http://127.0.0.1:{server.port}")
            begin = time.monotonic()
            subprocess.run(words, env=environment, check=True, capture_output=True)
            step = (time.monotonic() - begin) / 8
            # without its state a run requests all zones, as the first one did
            (Path(os.path.realpath(self.dir)).parent / self.STATE).unlink()
            shutil.copytree(device, base, symlinks=True)
            server.say(f"install {second}")
            old = tree_of(self.dir)
            for count in range(100):
                quiet = {"stdout": subprocess.DEVNULL, "stderr": subprocess.DEVNULL}
                with subprocess.Popen(words, env=environment, start_new_session=True, **quiet) as child:
                    time.sleep(count * step)
                    os.killpg(child.pid, signal.SIGKILL)
                if tree_of(self.dir) != old:
                    break
                shutil.rmtree(device)
                shutil.copytree(base, device, symlinks=True)
            self.as_released(second)
            self.assertGreater(count, 1)
            self.assertEqual(server.quit(), 0)

    def date(self, name):
        """Local time at the beginning of July 2025, as the system's own program prints it."""
        environment = {**os.environ, "TZDIR": str(self.dir), "TZ": name, "LC_ALL": "C"}
        words = ["date", "-d", "@1751371200", "+%F %T %Z %z"]
        return subprocess.run(words, env=environment, check=True, capture_output=True, text=True).stdout.strip()

    def test_from_end_to_end(self):
        first = self.release(STEADY, "2025-06-01")
        with Served([first], program=PROGRAM) as server:
            url = f"http://127.0.0.1:{server.port}"
            line = self.bring(url)
            self.assertIn(server.token, line)
            self.as_released(first)
            self.assertEqual(self.date("Test/Alias"), "2025-07-01 13:00:00 AAA +0100")
            self.assertIn("nothing changed", self.bring(url))
            second = self.release(RULED, "2025-06-02")
            installed = server.say(f"install {second}").removeprefix("installed ")
            line = self.bring(url)
            self.assertTrue(line.endswith(", 1 asked for") and installed in line, line)
            self.as_released(second)
            self.assertEqual(self.date("Test/Alias"), "2025-07-01 14:00:00 BBB +0200")
            self.assertEqual(server.quit(), 0)
        # a server that was started anew has another history
        with Served([second], program=PROGRAM) as server:
            line = self.bring(f"http://127.0.0.1:{server.port}")
            self.assertIn(server.token, line)
            self.as_released(second)
            self.assertEqual(server.quit(), 0)


def main():
    global PROGRAM
    words = sys.argv[:]
    if len(words) > 1 and os.sep in words[1]:
        PROGRAM = os.path.abspath(words.pop(1))
        if not os.path.exists(PROGRAM):
            sys.exit(f"{PROGRAM} is not built: README says how")
    # tests that wait for ever are ended
    faulthandler.dump_traceback_later(WHOLE, exit=True)
    unittest.main(argv=words)


if __name__ == "__main__":
    main()
