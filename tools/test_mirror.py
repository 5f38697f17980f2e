#!/usr/bin/env python3
"""Tests the built `tzdistd mirror` over the loopback: with a primary, behind another mirror, and
with servers made here that misbehave.

    tools/test_mirror.py [PROGRAM]

Each check starts its own servers at free ports, and ends them. It needs Python's standard library
only. The status is 0 where all is well, and 1 where a check failed.
"""

import json
import socket
import struct
import sys
import tempfile
import threading
import time
from urllib.parse import quote

sys.dont_write_bytecode = True

from checks import LONG, SLACK, TZIF, USAGE, ZONES, holds, ran, release, run_checks, same
from served import HOST, Client, Failure, Mirror, Served, address_of, free_port, slim_zone

FIRST, SECOND = "1-e2b2cb478d218163", "2-d7dd2fc2e202fff3"
GONE = "refused 1 UpstreamFault"
COMPLAINT = b"tzdistd: cannot ask the other server: "
BACK = "refused 3 StampBack 2025-03-22T00:00:00Z 2025-01-20T00:00:00Z"
# The seconds that an exchange may go without progress, and that it may take in all; how many bytes
# of it are too many.
PROGRESS, EXCHANGE = 10, 60
MOST = 8_388_608
# Seconds after which the whole run is given up.
WHOLE = 1800


# ---- other servers


class Fake:
    """Another server, with threads. Each of its connections is handled by `treat`, which gets the
    connection and the target of its request. It keeps the requests."""

    def __init__(self, treat, host=HOST):
        self.treat, self.requests = treat, []
        self.done = threading.Event()
        family = socket.AF_INET6 if ":" in host else socket.AF_INET
        self.listener = socket.create_server((host, 0), family=family, backlog=64)
        self.port = self.listener.getsockname()[1]
        self.address = address_of(self.port, host)
        threading.Thread(target=self._accept, daemon=True).start()

    def _accept(self):
        while True:
            try:
                peer = self.listener.accept()[0]
            except OSError:
                return
            threading.Thread(target=self._serve, args=(peer,), daemon=True).start()

    def _serve(self, peer):
        with peer:
            peer.settimeout(LONG)
            try:
                head = whole_head(peer)
                self.requests.append(head)
                self.treat(self, peer, head.split(b" ")[1].decode())
            except OSError:
                pass

    def targets(self):
        """The targets of the requests since the last call."""
        found = [head.split(b" ")[1].decode() for head in self.requests]
        self.requests.clear()
        return found

    def close(self):
        """Nothing listens here any more."""
        self.done.set()
        try:
            # a thread that waits for a connection is woken
            self.listener.shutdown(socket.SHUT_RDWR)
        except OSError:
            pass
        self.listener.close()

    def __enter__(self):
        return self

    def __exit__(self, *_):
        self.close()


def whole_head(peer):
    """The bytes of a request, which has no body."""
    held = b""
    while not held.endswith(b"\r\n\r\n"):
        piece = peer.recv(4096)
        if not piece:
            raise ConnectionError("the request ended")
        held += piece
    return held


class Way:
    """Passes requests on to a server whose port may change, as after a restart. Where nothing
    listens there, a connection is reset."""

    def __init__(self, port):
        self.port = port

    def __call__(self, fake, peer, target):
        try:
            far = socket.create_connection((HOST, self.port), LONG)
        except OSError:
            resets(fake, peer)
            return
        with far:
            far.sendall(fake.requests[-1])
            while piece := far.recv(1 << 16):
                peer.sendall(piece)


def reply(body, *lines, status="200 OK"):
    """A reply of HTTP/1.0."""
    front = [f"HTTP/1.0 {status}", *(lines or [f"Content-Length: {len(body)}"]), "", ""]
    return "\r\n".join(front).encode() + body


def listing(token, *zones):
    """A reply with a list of zones, each a name and its aliases, if it has some."""
    found = [
        {
            "tzid": tzid,
            "etag": "x",
            "last-modified": "2025-01-20T00:00:00Z",
            "publisher": "Test",
            "version": "2025a",
            **({"aliases": aliases} if aliases else {}),
        }
        for tzid, *aliases in zones
    ]
    return reply(json.dumps({"synctoken": token, "timezones": found}).encode())


class Answers:
    """Answers by the target: bytes to send, or a function to call."""

    def __init__(self, **by_target):
        self.by_target = by_target

    def __call__(self, fake, peer, target):
        answer = self.by_target.get(target)
        if answer is None:
            answer = reply(b"", status="404 Not Found")
        if callable(answer):
            answer(fake, peer)
        else:
            peer.sendall(answer)


def one_zone(token="t", hours=1, name="Test/One", **others):
    """A server that has one zone, and then no changes."""
    return Answers(
        **{
            ZONES: listing(token, (name,)),
            f"{ZONES}/{quote(name, safe='')}": reply(slim_zone(hours)),
            f"{ZONES}?changedsince={token}": listing(token),
            **others,
        }
    )


def resets(fake, peer):
    """Ends the connection by a reset."""
    peer.setsockopt(socket.SOL_SOCKET, socket.SO_LINGER, struct.pack("ii", 1, 0))


def resets_inside(fake, peer):
    """Ends the connection by a reset after a part of the answer was read."""
    peer.sendall(listing("t", ("Test/One",))[:100])
    # the other side has read it if nothing is unsent, or sees the reset anyhow
    time.sleep(0.5)
    resets(fake, peer)


def ends(fake, peer):
    """Ends the connection without a byte."""


def hangs(fake, peer):
    """Sends nothing."""
    fake.done.wait(EXCHANGE + SLACK)


def stops(fake, peer):
    """Sends nothing more, after a part of the answer."""
    peer.sendall(listing("t", ("Test/One",))[:100])
    fake.done.wait(EXCHANGE + SLACK)


def drips(fake, peer):
    """Answers without end, a byte a second."""
    for byte in reply(bytes(1000)):
        peer.sendall(bytes([byte]))
        if fake.done.wait(1):
            return


def floods(fake, peer):
    """Answers with far too many bytes."""
    peer.sendall(b"HTTP/1.0 200 OK\r\n\r\n")
    piece = b"x" * 65_536
    while not fake.done.is_set():
        peer.sendall(piece)


def just(answer):
    """A function that answers each request with these bytes."""
    return lambda fake, peer, *_: peer.sendall(answer)


# ---- a mirror beside its primary


def zones_at(port):
    """The list of a server without its token: zones by name."""
    with Client(port) as client:
        return {zone["tzid"]: zone for zone in json.loads(client.ask(ZONES, timeout=LONG).body)["timezones"]}


def files_at(port, names):
    """What a server answers to GET requests for these names, as TZif file and as calendar: status,
    tag and body."""
    found = {}
    with Client(port) as client:
        for name in names:
            target = f"{ZONES}/{quote(name, safe='')}"
            for form in (TZIF, "Accept: text/calendar"):
                got = client.ask(target, form, timeout=LONG)
                found[name, form] = got.status, got.fields.get("ETag"), got.body
    return found


def compare(what, primary, mirror, all_members=True):
    """Fails where a mirror does not have exactly the zones of its primary. A mirror knows from its
    own releases when a zone changed. So it agrees with the primary in that if it took each
    release."""
    zones = [zones_at(server.port) for server in (primary, mirror)]
    if not all_members:
        zones = [{name: (zone["etag"], zone.get("aliases")) for name, zone in one.items()} for one in zones]
    same(f"{what}: the list", zones[1], zones[0])
    names = [*zones[0], *(alias for zone in zones_at(primary.port).values() for alias in zone.get("aliases", []))]
    wanted = files_at(primary.port, names)
    same(f"{what}: statuses of the primary", {status for status, *_ in wanted.values()}, {200})
    seen = files_at(mirror.port, names)
    for key in wanted:
        same(f"{what}: {key}", seen[key], wanted[key])


def follows(program):
    """A mirror has what its primary has, after installs and syncs, and so has a mirror of it."""
    with Served(["data/a"], program=program) as primary, Fake(Way(primary.port)) as way:
        with Mirror(way.address, program=program) as mirror:
            same("ready", mirror.token, FIRST)
            same("what was asked", way.targets(), [ZONES, f"{ZONES}/Etc%2FUTC", f"{ZONES}?changedsince={FIRST}"])
            compare("first", primary, mirror)
            same("a sync", mirror.say("sync"), f"unchanged {FIRST}")
            same("what was asked", way.targets(), [f"{ZONES}?changedsince={FIRST}"])
            same("status", mirror.say("status"), f"serving {FIRST} 1")
            with Mirror(mirror.address, program=program) as behind:
                same("ready behind", behind.token, FIRST)
                compare("behind", primary, behind)
                same("install", primary.say("install data/b"), f"installed {SECOND}")
                same("a sync too early", behind.say("sync"), f"unchanged {FIRST}")
                same("a sync", mirror.say("sync"), f"installed {SECOND}")
                asked = [f"{ZONES}?changedsince={FIRST}", f"{ZONES}/America%2FNew_York", f"{ZONES}?changedsince={SECOND}"]
                same("what was asked", way.targets(), asked)
                same("a sync behind", behind.say("sync"), f"installed {SECOND}")
                same("status behind", behind.say("status"), f"serving {SECOND} 2")
                for one in (mirror, behind):
                    compare("second", primary, one)
                    with Client(one.port) as client:
                        changed = json.loads(client.ask(f"{ZONES}?changedsince={FIRST}").body)
                        names = [zone["tzid"] for zone in changed["timezones"]]
                        same("what changed at a mirror", (changed["synctoken"], names), (SECOND, ["America/New_York"]))
                same("the status behind", behind.quit(), 0)
            same("standard error", mirror.errors, b"")
            same("the status", mirror.quit(), 0)
        same("the primary's status", primary.quit(), 0)


def calendar(name, *lines):
    """A calendar of a zone that is at UTC from 1800 on, with these lines in its one part."""
    part = ["BEGIN:STANDARD", "DTSTART:18000101T000000", "TZOFFSETFROM:+0000", "TZOFFSETTO:+0000", "TZNAME:UTC", *lines, "END:STANDARD"]
    whole = ["BEGIN:VCALENDAR", "BEGIN:VTIMEZONE", f"TZID:{name}", *part, "END:VTIMEZONE", "END:VCALENDAR", ""]
    return "\r\n".join(whole).encode()


def prints(program, address, status, *lines):
    """Fails where the calendars of a server do not give these lines for the year 2025."""
    words = ["calmirror", address, "2025-01-01T00:00:00Z", "2026-01-01T00:00:00Z"]
    *seen, errors = ran(program, *words)
    same("the calendars", seen, [status, b"".join(line.encode() + b"\n" for line in lines)])
    holds(f"standard error: {errors!r}", errors.startswith(COMPLAINT) if GONE in lines else not errors)


def calendars(program):
    """The calendars of a server, and of servers that give other calendars."""
    with Served(["data/a", "data/b"], program=program) as primary, Fake(Way(primary.port)) as way:
        east = ["2025-01-01T00:00:00Z -18000 -18000 std EST", "2025-03-09T07:00:00Z -18000 -14400 dst EDT", "2025-11-02T06:00:00Z -14400 -18000 std EST"]
        prints(program, way.address, 0, "zone America/New_York", *east, "zone Etc/UTC", "2025-01-01T00:00:00Z 0 0 std UTC")
        wanted = [
            f"GET {target} HTTP/1.0\r\nHost: {way.address}\r\nAccept: {form}\r\nConnection: close\r\n\r\n".encode()
            for target, form in [
                (ZONES, "application/json"),
                (f"{ZONES}/America%2FNew_York", "text/calendar"),
                (f"{ZONES}/Etc%2FUTC", "text/calendar"),
                (f"{ZONES}?changedsince={SECOND}", "application/json"),
            ]
        ]
        same("the requests", way.requests, wanted)
        same("the status", primary.quit(), 0)
    for text, status, lines in (
        (calendar("Test/One"), 0, ["zone Test/One", "2025-01-01T00:00:00Z 0 0 std UTC"]),
        (calendar("Test/one"), 7, ["refused 6 WrongName 2"]),
        (calendar("Test/One", "RRULE:FREQ=MONTHLY"), 7, ["refused 5 BadCalendar 2 5 Rule 8"]),
        (slim_zone(1), 7, ["refused 5 BadCalendar 2 1 Line 0"]),
        (calendar("Test/One", "X-MORE:" + "x" * 1_048_576), 7, ["refused 5 BadCalendar 2 7 TooLarge"]),
    ):
        with Fake(one_zone(**{f"{ZONES}/Test%2FOne": reply(text)})) as upstream:
            prints(program, upstream.address, status, *lines)
    prints(program, address_of(free_port()), 7, GONE)


def console(program):
    """The lines of a mirror's console, and what it says of itself."""
    with Fake(one_zone()) as upstream:
        with Mirror(upstream.address, program=program) as mirror:
            wanted = [
                f"GET {target} HTTP/1.0\r\nHost: {upstream.address}\r\nAccept: application/{form}\r\nConnection: close\r\n\r\n".encode()
                for target, form in [(ZONES, "json"), (f"{ZONES}/Test%2FOne", "tzif"), (f"{ZONES}?changedsince=t", "json")]
            ]
            same("the requests", upstream.requests, wanted)
            for line, said in [
                ("install data/b", "unknown"),
                ("status", f"serving {mirror.token} 1"),
                ("sync", f"unchanged {mirror.token}"),
                ("sync\r", f"unchanged {mirror.token}"),
                ("sync ", "unknown"),
                ("", "unknown"),
                ("status", f"serving {mirror.token} 1"),
            ]:
                same(f"{line!r}", mirror.say(line), said)
            with Client(mirror.port) as client:
                info = json.loads(client.ask("/tzdist/capabilities").body)["info"]
                same("what it follows", info["secondary-source"], f"http://{upstream.address}/tzdist")
                holds("a mirror is no primary", "primary-source" not in info)
            mirror.write(b"sync\nstatus\nquit\nsync\n")
            said = f"unchanged {mirror.token}\nserving {mirror.token} 1\nbye\n".encode()
            same("lines at once", mirror.ended(), (0, said))
            same("standard error", mirror.errors, b"")
        with Mirror(upstream.address, program=program) as mirror:
            mirror.write(b"sync\nsync")
            mirror.end_input()
            same("the end of the input", mirror.ended(), (0, f"unchanged {mirror.token}\n".encode()))


def while_asked(program):
    """While a primary installs and a mirror syncs, each reply of both is of one release. None is
    of an older release than the one before."""
    count = 12
    with tempfile.TemporaryDirectory() as room:
        names = [f"Test/Z{number:02}" for number in range(20)]
        folders = [release(f"{room}/{version}", version, dict.fromkeys(names, hours)) for version, hours in (("odd", 1), ("even", 2))]
        with Served([folders[0]], workers=2, program=program) as primary:
            with Mirror(primary.address, program=program) as mirror:
                done, seen, faults = threading.Event(), {}, []

                def keep_asking(port):
                    places = seen[port] = []
                    try:
                        with Client(port) as client:
                            while not done.is_set():
                                found = json.loads(client.ask(ZONES, timeout=LONG).body)
                                place = int(found["synctoken"].partition("-")[0])
                                versions = {zone["version"] for zone in found["timezones"]}
                                same("a reply's versions", versions, {"odd" if place % 2 else "even"})
                                holds(f"place {place} came after {places[-1:]}", places[-1:] <= [place])
                                places.append(place)
                    except (Failure, OSError) as fault:
                        faults.append(fault)

                asking = [threading.Thread(target=keep_asking, args=(server.port,)) for server in (primary, mirror)]
                for thread in asking:
                    thread.start()
                try:
                    for place in range(2, count + 1):
                        said = primary.say(f"install {folders[1 - place % 2]}")
                        same("install", said.split("-")[0], f"installed {place}")
                        # each release of the mirror has all that the primary's has, so their
                        # tokens are the same
                        same("sync", mirror.say("sync", timeout=LONG), said)
                        compare(f"release {place}", primary, mirror)
                finally:
                    done.set()
                    for thread in asking:
                        thread.join(LONG)
                if faults:
                    raise faults[0]
                holds("replies were few", all(len(set(places)) > 2 for places in seen.values()))
                same("the status", mirror.quit(), 0)


def aliases(program):
    """A zone that becomes an alias of another does so at the mirror."""
    with tempfile.TemporaryDirectory() as room:
        first = release(f"{room}/1", "1", {"Test/Old": 1, "Test/Other": 2}, "2025-01-01T00:00:00Z")
        second = release(f"{room}/2", "2", {"Test/New": 1, "Test/Other": 2}, "2025-02-01T00:00:00Z")
        with open(f"{second}/manifest.json") as file:
            manifest = json.load(file)
        manifest["zones"][0]["aliases"] = ["Test/Old"]
        with open(f"{second}/manifest.json", "w") as file:
            json.dump(manifest, file)
        with Served([first], program=program) as primary, Mirror(primary.address, program=program) as mirror:
            holds("an install", primary.say(f"install {second}").startswith("installed 2-"))
            holds("a sync", mirror.say("sync").startswith("installed 2-"))
            compare("an alias", primary, mirror)
            same("the names", {name: zone.get("aliases") for name, zone in zones_at(mirror.port).items()},
                 {"Test/New": ["Test/Old"], "Test/Other": None})


def recovers(program):
    """A primary that is started anew, with another history or without a zone, is followed or
    refused. While it is not there, what is served stays."""
    with tempfile.TemporaryDirectory() as room:
        later = release(f"{room}/later", "2", {"Etc/UTC": 1, "America/New_York": 2, "US/Eastern": 3}, "2025-12-01T00:00:00Z")
        with Served(["data/a", "data/b"], program=program) as primary, Fake(Way(primary.port)) as way:
            with Mirror(way.address, program=program) as mirror:
                serving = mirror.say("status")
                same("status", serving, f"serving {mirror.token} 2")
                compare("two releases as one", primary, mirror, all_members=False)
                same("the primary's status", primary.quit(), 0)
                way.targets()
                same("a sync without a primary", mirror.say("sync"), GONE)
                same("status without it", mirror.say("status"), serving)
                with Served(["data/b"], program=program) as other:
                    way.treat.port = other.port
                    same("a sync with the same release", mirror.say("sync"), f"unchanged {mirror.token}")
                    asked = [
                        f"{ZONES}?changedsince={SECOND}",
                        f"{ZONES}?changedsince={SECOND}",
                        ZONES,
                        f"{ZONES}/America%2FNew_York",
                        f"{ZONES}/Etc%2FUTC",
                        f"{ZONES}?changedsince={other.token}",
                    ]
                    same("what was asked", way.targets(), asked)
                    compare("another history", other, mirror, all_members=False)
                with Served(["data/a"], program=program) as other:
                    way.treat.port = other.port
                    same("a sync with an older release", mirror.say("sync"), BACK)
                    same("status after it", mirror.say("status"), serving)
                with Served([later], program=program) as other:
                    way.treat.port = other.port
                    said = mirror.say("sync")
                    holds(f"a sync with a later release: {said}", said.startswith("installed 2-"))
                    compare("a later release", other, mirror)
                    with Client(mirror.port) as client:
                        changed = json.loads(client.ask(f"{ZONES}?changedsince={mirror.token}").body)
                        names = [zone["tzid"] for zone in changed["timezones"]]
                        same("what changed", names, ["America/New_York", "Etc/UTC", "US/Eastern"])
                    serving = mirror.say("status")
                way.close()
                same("a sync where nothing listens", mirror.say("sync"), GONE)
                same("status at the end", mirror.say("status"), serving)
                same("how many it serves", len(zones_at(mirror.port)), 3)
                same("the status", mirror.quit(), 0)
                same("standard error", mirror.errors, b"")


def retires(program):
    """A primary knows the tokens of its last 512 releases. A mirror that has not synced for longer
    gets everything anew."""
    with Served(["data/a"], program=program) as primary, Fake(Way(primary.port)) as way:
        with Mirror(way.address, program=program) as mirror:
            same("ready", mirror.token, FIRST)
            way.targets()
            for _ in range(511):
                token = installed(primary, "data/a")
            same("512 releases", token[:4], "512-")
            same("a sync", mirror.say("sync"), f"unchanged {FIRST}")
            same("what was asked", way.targets(), [f"{ZONES}?changedsince={FIRST}"])
            for _ in range(513):
                token = installed(primary, "data/b")
            said = mirror.say("sync")
            holds(f"a sync after 513 more: {said}", said.startswith("installed 2-"))
            asked = [ZONES, f"{ZONES}/America%2FNew_York", f"{ZONES}/Etc%2FUTC", f"{ZONES}?changedsince={token}"]
            same("what was asked", way.targets()[-4:], asked)
            compare("all anew", primary, mirror, all_members=False)


def installed(server, folder):
    """Installs a release, and returns its token."""
    said = server.say(f"install {folder}")
    holds(f"an install: {said}", said.startswith("installed "))
    return said.split(" ")[1]


def names(program):
    """The upstream may be a host's name, of which several addresses are tried, or an IPv6
    address."""
    with Fake(one_zone()) as upstream:
        word = f"localhost:{upstream.port}"
        with Mirror(word, program=program) as mirror:
            holds("the Host field", all(f"\r\nHost: {word}\r\n".encode() in head for head in upstream.requests))
            same("the status", mirror.quit(), 0)
    try:
        upstream = Fake(one_zone(), host="::1")
    except OSError:
        return
    with upstream, Mirror(upstream.address, program=program) as mirror:
        same("the status", mirror.quit(), 0)


# ---- a first sync that fails


def first_sync(program, address, line, status=7, timeout=LONG):
    """Fails where a mirror does not end at once with this line, and with a line on standard error
    where the system refused."""
    words = ["mirror", address_of(free_port()), "1", address]
    *seen, errors = ran(program, *words, timeout=timeout)
    same(line, seen, [status, line.encode() + b"\n"])
    if line == GONE:
        holds(f"standard error: {errors!r}", errors.startswith(COMPLAINT) and errors.count(b"\n") == 1)
    else:
        same("standard error", errors, b"")


def refused_starts(program):
    """Wrong arguments, an upstream that is no server, a release that the check refuses, and an
    address that is in use."""
    address, other = address_of(free_port()), address_of(free_port())
    for words in (
        ["mirror"],
        ["mirror", address],
        ["mirror", address, "1"],
        ["mirror", address, "1", other, other],
        ["mirror", address, "0", other],
        ["mirror", address, "65", other],
        ["mirror", "-x", "1", other],
        ["mirror", address, "1", "-x"],
        ["mirror", address, "1", ""],
        ["mirror", address, "1", "x/y"],
        ["mirror", address, "1", "http://x"],
        ["mirror", address, "1", "x" * 256],
    ):
        same(f"{' '.join(words)[:60]}", ran(program, *words), (1, USAGE, b""))
    first_sync(program, address_of(free_port()), GONE)
    first_sync(program, "nonsense", GONE)
    first_sync(program, "localhost:nonsense", GONE)
    with Fake(one_zone(**{f"{ZONES}/Test%2FOne": reply(b"no TZif file at all" + bytes(100))})) as upstream:
        first_sync(program, upstream.address, "refused 10 Tzif 0 1 Magic", status=2)
    with Fake(one_zone()) as upstream, socket.create_server((HOST, 0)) as taken:
        words = ["mirror", address_of(taken.getsockname()[1]), "1", upstream.address]
        status, output, errors = ran(program, *words)
        same("an address in use", (status, output, errors.count(b"\n")), (6, b"", 1))


def bad_answers(program):
    """Answers of another form, and answers that refuse or never settle, end the first sync. Each
    fault is named."""
    whole = listing("t", ("Test/One",))
    head = whole[: whole.index(b"\r\n\r\n") + 4]
    body = whole[len(head):]
    nameless = json.loads(body)
    nameless["timezones"].append({"tzid": "Test/Two"})
    for name, answer, line in [
        ("no reply", b"hello\r\n\r\n", "refused 2 BadAnswer 1 0"),
        ("no byte", b"", "refused 2 BadAnswer 1 0"),
        ("a head without an end", head[:-2], "refused 2 BadAnswer 1 0"),
        ("another version", whole.replace(b"HTTP/1.0", b"HTTP/2.0"), "refused 2 BadAnswer 1 0"),
        ("a coding", reply(body, "Transfer-Encoding: identity"), "refused 2 BadAnswer 1 0"),
        ("a byte less", whole[:-1], f"refused 2 BadAnswer 1 {len(head)}"),
        ("a byte more", whole + b"\n", f"refused 2 BadAnswer 1 {len(head)}"),
        ("an empty body", reply(b""), "refused 2 BadAnswer 1 0"),
        ("another document", reply(b"{}"), "refused 2 BadAnswer 1 0"),
        ("another entry", reply(json.dumps(nameless).encode()), "refused 2 BadAnswer 1 2"),
        ("a long token", listing("t" * 65, ("Test/One",)), "refused 2 BadAnswer 1 0"),
        ("moved", reply(b"", "Location: /x", status="301 Moved Permanently"), "refused 3 Refused 1 301"),
        ("unknown", reply(b"", status="404 Not Found"), "refused 3 Refused 1 404"),
        ("busy", reply(b"", status="503 Service Unavailable"), "refused 3 Refused 1 503"),
    ]:
        with Fake(just(answer)) as upstream:
            words = ["mirror", address_of(free_port()), "1", upstream.address]
            same(name, ran(program, *words), (7, line.encode() + b"\n", b""))


def bad_peers(program):
    """Servers that are not there, that reset, that end too early or that answer too much end the
    first sync."""
    with Fake(just(b"")) as upstream:
        upstream.treat = lambda fake, peer, target: resets(fake, peer)
        first_sync(program, upstream.address, GONE)
        upstream.treat = lambda fake, peer, target: resets_inside(fake, peer)
        first_sync(program, upstream.address, GONE)
        upstream.treat = lambda fake, peer, target: ends(fake, peer)
        first_sync(program, upstream.address, "refused 2 BadAnswer 1 0")
        upstream.treat = lambda fake, peer, target: floods(fake, peer)
        first_sync(program, upstream.address, f"refused 2 BadAnswer 1 {MOST}", timeout=LONG)


def lies(program):
    """The bytes of another zone are accepted as they are. Lists that never settle are given up."""
    with Fake(one_zone(hours=5)) as upstream, Mirror(upstream.address, program=program) as mirror:
        with Client(mirror.port) as client:
            same("the file", client.ask(f"{ZONES}/Test%2FOne", TZIF).body, slim_zone(5))
    with Fake(None) as upstream:
        # each list has another token and a zone
        def never(fake, peer, target):
            count = sum(b"/zones/" not in head for head in fake.requests)
            peer.sendall(reply(slim_zone(1)) if "/zones/" in target else listing(f"t{count}", ("Test/One",)))

        upstream.treat = never
        first_sync(program, upstream.address, "refused 4 NotSettled 16", timeout=LONG)
        asked = [target.partition("?")[0] for target in upstream.targets()]
        same("what was asked", asked, [ZONES, f"{ZONES}/Test%2FOne"] * 15 + [ZONES])

        # each token is refused at once
        def forgets(fake, peer, target):
            body = b'{"status":400,"title":"x","type":"urn:ietf:params:tzdist:error:invalid-changedsince"}'
            peer.sendall(reply(body, status="400 Bad Request") if "?" in target else listing("t"))

        upstream.treat = forgets
        first_sync(program, upstream.address, "refused 4 NotSettled 16", timeout=LONG)
        same("how much was asked", len(upstream.targets()), 16)


# ---- a later sync that fails


def keeps_serving(program):
    """Whatever an upstream does at a later sync, its fault is named, and what is served stays. Then
    the mirror continues where it was."""
    good = one_zone("1")
    # what a list since the first token contains, and the file
    more = {
        f"{ZONES}?changedsince=1": listing("2", ("Test/Two",)),
        f"{ZONES}/Test%2FTwo": reply(slim_zone(2)),
        f"{ZONES}?changedsince=2": listing("2"),
    }
    with Fake(good) as upstream, Mirror(upstream.address, program=program) as mirror:
        serving = mirror.say("status")
        for name, answers, said in [
            ("a reset", {f"{ZONES}?changedsince=1": resets}, GONE),
            ("a reset inside", {f"{ZONES}?changedsince=1": resets_inside}, GONE),
            ("an end", {f"{ZONES}?changedsince=1": ends}, "refused 2 BadAnswer 1 0"),
            ("a flood", {f"{ZONES}?changedsince=1": floods}, f"refused 2 BadAnswer 1 {MOST}"),
            ("no list", {f"{ZONES}?changedsince=1": reply(b"{}")}, "refused 2 BadAnswer 1 0"),
            ("unknown", {f"{ZONES}?changedsince=1": reply(b"", status="404 Not Found")}, "refused 3 Refused 1 404"),
            ("a flood of a file", {**more, f"{ZONES}/Test%2FTwo": floods}, f"refused 2 BadAnswer 2 {MOST}"),
            ("a file's reset", {**more, f"{ZONES}/Test%2FTwo": resets}, GONE),
            ("an unknown file", {**more, f"{ZONES}/Test%2FTwo": reply(b"", status="404 Not Found")}, "refused 3 Refused 1 404"),
        ]:
            upstream.treat = Answers(**answers)
            same(name, mirror.say("sync", timeout=LONG), said)
            same(f"status after {name}", mirror.say("status"), serving)
            same(f"the zones after {name}", list(zones_at(mirror.port)), ["Test/One"])
        upstream.targets()
        upstream.treat = Answers(**more)
        said = mirror.say("sync")
        holds(f"a sync at last: {said}", said.startswith("installed 2-"))
        same("what was asked", upstream.targets(), [f"{ZONES}/Test%2FTwo", f"{ZONES}?changedsince=2"])
        same("the zones at last", list(zones_at(mirror.port)), ["Test/One", "Test/Two"])
        same("the status", mirror.quit(), 0)
        same("standard error", mirror.errors, b"")


def took_at_least(what, begin, seconds, most):
    """Fails where something came sooner than after `seconds`, or much later than `most`."""
    took = time.monotonic() - begin
    holds(f"{what} came after {took:.1f} seconds", seconds - 1 <= took < most + SLACK)


def hanging(program):
    """Where an upstream sends nothing, a sync ends after ten seconds. Clients are served
    meanwhile."""
    with Fake(one_zone("1")) as upstream, Mirror(upstream.address, workers=1, program=program) as mirror:
        upstream.treat = lambda fake, peer, target: hangs(fake, peer)
        upstream.targets()
        begin = time.monotonic()
        mirror.write(b"sync\nstatus\n")
        while not upstream.requests:
            holds("nothing was asked", time.monotonic() < begin + LONG)
            time.sleep(0.01)
        same("the zones beside it", list(zones_at(mirror.port)), ["Test/One"])
        beside = time.monotonic() - begin
        same("the sync", mirror.line(PROGRESS + SLACK), GONE)
        took_at_least("the fault", begin, PROGRESS, PROGRESS)
        # a machine that was stalled until then is not judged
        holds("a client waited for the sync", beside < PROGRESS - 1 or time.monotonic() - begin > PROGRESS + 2)
        same("status after it", mirror.line(), f"serving {mirror.token} 1")
        upstream.treat = one_zone("1")
        same("the next sync", mirror.say("sync"), f"unchanged {mirror.token}")
        same("the status", mirror.quit(), 0)


def first_hanging(program):
    """The same for a first sync, before the first byte and inside an answer."""
    for treat in (hangs, stops):
        with Fake(lambda fake, peer, target: treat(fake, peer)) as upstream:
            begin = time.monotonic()
            first_sync(program, upstream.address, GONE, timeout=PROGRESS + SLACK)
            took_at_least("the fault", begin, PROGRESS, PROGRESS)


def dripping(program):
    """An exchange with one byte each second ends after sixty seconds in all."""
    with Fake(lambda fake, peer, target: drips(fake, peer)) as upstream:
        begin = time.monotonic()
        first_sync(program, upstream.address, GONE, timeout=EXCHANGE + SLACK)
        took = time.monotonic() - begin
        # where nothing came for ten seconds, on a machine that was stalled, it ends sooner
        holds(f"the fault came after {took:.1f} seconds", PROGRESS - 1 < took < EXCHANGE + SLACK)


def later_dripping(program):
    """The same for a sync at the console, while clients are served."""
    with Fake(one_zone("1")) as upstream, Mirror(upstream.address, workers=1, program=program) as mirror:
        upstream.treat = lambda fake, peer, target: drips(fake, peer)
        mirror.write(b"sync\n")
        until = time.monotonic() + EXCHANGE - 5
        while time.monotonic() < until:
            same("the zones beside it", list(zones_at(mirror.port)), ["Test/One"])
            time.sleep(1)
        same("the sync", mirror.line(5 + SLACK), GONE)
        same("status after it", mirror.say("status"), f"serving {mirror.token} 1")
        same("the status", mirror.quit(), 0)


CHECKS = [
    dripping,
    later_dripping,
    hanging,
    first_hanging,
    while_asked,
    follows,
    recovers,
    retires,
    aliases,
    calendars,
    console,
    names,
    keeps_serving,
    lies,
    bad_answers,
    bad_peers,
    refused_starts,
]


def main():
    # the slow ones only wait, so the others run beside them
    return run_checks("mirror", CHECKS, WHOLE, 6)


if __name__ == "__main__":
    sys.exit(main())
