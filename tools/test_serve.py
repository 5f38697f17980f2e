#!/usr/bin/env python3
"""Tests the built `tzdistd serve` over the loopback, with real clients and a real console.

    tools/test_serve.py [PROGRAM]

Each check starts its own servers at free ports, and ends them. It needs Python's standard library
only. The status is 0 where all is well, and 1 where a check failed.
"""

import calendar
import json
import os
import shutil
import signal
import socket
import sys
import tempfile
import threading
import time
from collections import Counter
from concurrent.futures import ThreadPoolExecutor
from datetime import datetime
from urllib.parse import quote
from zoneinfo import ZoneInfo

sys.dont_write_bytecode = True

from checks import LONG, SLACK, TZIF, USAGE, ZONES, holds, ran, release, run_checks, same, token_of
from served import DATA, HOST, Client, Failure, Reply, Served, address_of, free_port, request

FIRST, SECOND = "1-e2b2cb478d218163", "2-d7dd2fc2e202fff3"
TAG = "b9b07a4d02b54496f4440279edbde39c"
UTC_ENTRY = (
    f'{{"etag":"{TAG}","last-modified":"2025-01-20T00:00:00Z",'
    '"publisher":"Test","tzid":"Etc/UTC","version":"2025a"}'
)
LIST = f'{{"synctoken":"{FIRST}","timezones":[{UTC_ENTRY}]}}'.encode()
UTC = "/tzdist/zones/Etc%2FUTC"
NOWHERE = "refused 8 Absent nowhere/manifest.json"
BACK = "refused 3 StampBack 2025-03-22T00:00:00Z 2025-01-20T00:00:00Z"

# The seconds that a connection may be idle between requests, and without progress inside one. The
# seconds after which a request must be whole. The seconds for which pending replies are still sent
# at the end.
IDLE, PROGRESS, HEAD, OWED = 60, 10, 30, 2
# Seconds after which the whole run is given up.
WHOLE = 1800

# Zones with rules of several kinds, and one without: half an hour, a negative daylight saving time,
# and a change on the day before.
FAR_ZONES = ("America/New_York", "Europe/Dublin", "Australia/Lord_Howe", "America/Nuuk", "Asia/Tokyo")
ZONEINFO = "/usr/share/zoneinfo"


def far_years(program):
    """An expansion over 8,000 years has each change of a zone, as Python's zoneinfo has it."""
    with tempfile.TemporaryDirectory() as room:
        zones = [{"tzid": it, "file": str(number)} for number, it in enumerate(FAR_ZONES)]
        for number, name in enumerate(FAR_ZONES):
            shutil.copyfile(os.path.join(ZONEINFO, name), os.path.join(room, str(number)))
        manifest = {"publisher": "Test", "version": "1", "stamp": "2025-06-01T00:00:00Z", "zones": zones}
        with open(os.path.join(room, "manifest.json"), "w") as file:
            json.dump(manifest, file)
        with Served([room], program=program) as server, Client(server.port) as client:
            for number, name in enumerate(FAR_ZONES):
                target = f"{ZONES}/{quote(name, safe='')}/observances"
                reply = client.ask(f"{target}?start=1970-01-01T00:00:00Z&end=9998-01-01T00:00:00Z")
                with open(os.path.join(room, str(number)), "rb") as file:
                    zone = ZoneInfo.from_file(file)
                has_each_change(name, zone, json.loads(reply.body)["observances"])


def has_each_change(name, zone, observances):
    """Fails unless the offsets follow one another as those of a zone. Each year must have as many
    changes as the year 400 years before."""

    def offset(moment):
        return int(datetime.fromtimestamp(moment, zone).utcoffset().total_seconds())

    onsets = [calendar.timegm(time.strptime(it["onset"], "%Y-%m-%dT%H:%M:%SZ")) for it in observances]
    for place, (onset, it) in enumerate(zip(onsets, observances)):
        known = (offset(onset - 1) if place else offset(onset), offset(onset))
        same(f"{name}: the offsets at {it['onset']}", (it["utc-offset-from"], it["utc-offset-to"]), known)
        if place:
            holds(f"{name}: {it['onset']} comes after the one before", onsets[place - 1] < onset)
            middle = (onsets[place - 1] + onset) // 2
            same(f"{name}: the offset before {it['onset']}", offset(middle), it["utc-offset-from"])
    counts = Counter(int(it["onset"][:4]) for it in observances)
    for year in range(2500, 9998):
        same(f"{name}: the changes of {year}", counts[year], counts[2100 + (year - 2100) % 400])


def replies(program):
    """Single requests get the documented replies."""
    with Served(["data/a"], program=program) as server:
        same("the token of ready", server.token, FIRST)
        # workers wait for long where no client connects
        time.sleep(2)
        with Client(server.port) as client:
            reply = client.ask(ZONES)
            same("the list", reply.body, LIST)
            front = ["HTTP/1.1 200 OK", "Content-Type: application/json", f"Content-Length: {len(LIST)}"]
            same("the list's head", reply.head.decode().split("\r\n"), front)
            same("HEAD of the list", client.ask(ZONES, method="HEAD").head, reply.head)
            reply = client.ask(UTC, TZIF)
            with open(os.path.join(DATA, "data/a/utc"), "rb") as file:
                same("the TZif file", reply.body, file.read())
            same("its tag", reply.fields["ETag"], f'"{TAG}.t"')
            same("the tag again", client.ask(UTC, TZIF, f'If-None-Match: "{TAG}.t"').status, 304)
            same("an unknown target", client.ask("/nothing").status, 400)
            same("an unknown zone", client.ask(ZONES + "/No%2FZone").status, 404)
            reply = client.ask(ZONES, "Connection: close")
            same("a last reply", (reply.status, reply.body, reply.closes), (200, LIST, True))
            client.seconds_to_end(SLACK)
        same("the status", server.quit(), 0)
        same("standard error", server.errors, b"")


def pipelined(program):
    """Requests in any pieces are answered one by one. The server closes only at the 1,000th."""
    asked = [request(ZONES), request(UTC, TZIF, method="HEAD"), request(UTC, TZIF, f'If-None-Match: "{TAG}.t"')]
    with Served(["data/a"], program=program) as server:
        for size in (1, 7, 4096):
            with Client(server.port) as client:
                stream = b"".join(asked)
                for at in range(0, len(stream), size):
                    client.send(stream[at : at + size])
                    time.sleep(0.001)
                same("the first of three", client.reply().body, LIST)
                same("the second", client.reply(head_only=True).fields["Content-Length"], "111")
                same("the third", client.reply().status, 304)
        with Client(server.port) as client:
            # all heads are there before the server reads for the second time
            same("the list", client.ask(ZONES).body, LIST)
            os.kill(server.pid, signal.SIGSTOP)
            client.send(request(ZONES) * 1001)
            os.kill(server.pid, signal.SIGCONT)
            # the 1,000th reply of one turn closes; a turn may end earlier by the clock
            for number in range(1, 1002):
                reply = client.reply(timeout=LONG)
                same(f"reply {number}", reply.body, LIST)
                if reply.closes:
                    same("the reply that closes", number, 1000)
                    break
        with Client(server.port) as client:
            # with pauses between the requests the server never closes
            for number in range(1, 1202):
                reply = client.ask(ZONES, timeout=LONG)
                same(f"reply {number} of one after another", (reply.body, reply.closes), (LIST, False))
        same("the status", server.quit(), 0)


def bad_requests(program):
    """What is no request gets its closing reply, and the worker continues with the next."""
    cases = [
        (b"GET /tzdist/zones HTTP/1.1\r\n\r\n", 400),
        (b"\x16\x03\x01\x02\x00\x01\x00\r\n\r\n", 400),
        (request(ZONES, method="POST"), 405),
        (request(ZONES, "Content-Length: 1"), 400),
        (request(ZONES, "Transfer-Encoding: chunked"), 400),
        (request(ZONES, "Long: " + "x" * 16_384), 431),
        (request("zones"), 400),
    ]
    with Served(["data/a"], workers=1, program=program) as server:
        for stream, status in cases:
            with Client(server.port) as client:
                client.send(stream)
                reply = client.reply()
                same(f"{stream[:40]!r}", (reply.status, reply.closes, reply.body), (status, True, b""))
                try:
                    client.seconds_to_end(SLACK)
                except ConnectionError:
                    pass
        with Client(server.port) as client:
            same("the list after them", client.ask(ZONES).body, LIST)
        same("the status", server.quit(), 0)


def installs(program):
    """The console installs while a connection stays open. A refusal leaves what is served."""
    with Served(["data/a"], program=program) as server, Client(server.port) as client:
        same("the token before", token_of(client.ask(ZONES)), FIRST)
        same("status", server.say("status"), f"serving {FIRST} 1")
        same("install", server.say("install data/b"), f"installed {SECOND}")
        reply = client.ask(ZONES)
        names = [zone["tzid"] for zone in json.loads(reply.body)["timezones"]]
        same("the release after", (token_of(reply), names), (SECOND, ["America/New_York", "Etc/UTC"]))
        reply = client.ask(f"{ZONES}?changedsince={FIRST}")
        names = [zone["tzid"] for zone in json.loads(reply.body)["timezones"]]
        same("what changed", names, ["America/New_York"])
        same("the alias", client.ask(ZONES + "/US%2FEastern", TZIF).status, 200)
        for line, said in [
            ("install nowhere", NOWHERE),
            ("install data/a", BACK),
            ("status", f"serving {SECOND} 2"),
            ("hello", "unknown"),
            ("sync", "unknown"),
            ("install", "unknown"),
            ("install -x", "unknown"),
            ("", "unknown"),
            ("x" * 5000, "unknown"),
            ("install " + "x" * 1025, "unknown"),
            ("status\r", f"serving {SECOND} 2"),
        ]:
            same(f"{line[:20]!r}", server.say(line), said)
        server.write(b"stat")
        server.write(b"us\nstatus\n")
        same("a line in pieces", [server.line(), server.line()], [f"serving {SECOND} 2"] * 2)
        same("the release at the end", token_of(client.ask(ZONES)), SECOND)
        client.close()
        same("the status", server.quit(), 0)


def whole_releases(program):
    """While releases are installed, each reply is of one release. None is of an older release than
    the one before."""
    count = 40
    with tempfile.TemporaryDirectory() as room:
        names = [f"Test/Z{number:02}" for number in range(30)]
        odd = release(f"{room}/odd", "odd", dict.fromkeys(names, 1))
        even = release(f"{room}/even", "even", dict.fromkeys(names, 2))
        with Served([odd], workers=3, program=program) as server:
            done, seen, faults = threading.Event(), [], []

            def ask():
                places = []
                with Client(server.port) as client:
                    while not done.is_set():
                        reply = client.ask(ZONES)
                        found = json.loads(reply.body)
                        place = int(found["synctoken"].partition("-")[0])
                        versions = {zone["version"] for zone in found["timezones"]}
                        same("a reply's versions", versions, {"odd" if place % 2 else "even"})
                        holds(f"place {place} came after {places[-1:]}", places[-1:] <= [place])
                        places.append(place)
                        if reply.closes:
                            return places
                return places

            def keep_asking():
                try:
                    while not done.is_set():
                        seen.append(ask())
                except (Failure, OSError) as fault:
                    faults.append(fault)

            asking = [threading.Thread(target=keep_asking) for _ in range(3)]
            for thread in asking:
                thread.start()
            try:
                for place in range(2, count + 1):
                    said = server.say(f"install {even if place % 2 == 0 else odd}")
                    same("install", said.split("-")[0], f"installed {place}")
                    token = said.partition(" ")[2]
                    time.sleep(0.01)
            finally:
                done.set()
                for thread in asking:
                    thread.join(SLACK + 10)
            if faults:
                raise faults[0]
            holds("replies were few", sum(map(len, seen)) >= 20 and max(map(max, seen)) > 2)
            with Client(server.port) as client:
                same("the last token", token_of(client.ask(ZONES)), token)
            same("the status", server.quit(), 0)


def ends(program):
    """`quit` and the end of the input end the server and the connections that wait for a
    request."""
    with Served(["data/a"], program=program) as server, Client(server.port) as client:
        client.ask(ZONES)
        same("quit", server.say("quit"), "bye")
        client.seconds_to_end(LONG)
        same("the end after quit", server.ended(), (0, b""))
        try:
            socket.create_connection(("127.0.0.1", server.port), 2).close()
        except OSError:
            pass
        else:
            raise Failure("something listens after the end")
    with Served(["data/a"], workers=64, program=program) as server:
        server.end_input()
        same("the end of the input", server.ended(), (0, b""))
        same("standard error", server.errors, b"")
    with Served(["data/a"], program=program) as server:
        server.write(b"status\nstatus")
        server.end_input()
        same("bytes that are no line", server.ended(), (0, f"serving {FIRST} 1\n".encode()))
    with Served(["data/a", "data/b"], program=program) as server:
        same("the token of two folders", server.token, SECOND)
        server.write(b"quit\nstatus\n")
        same("lines after quit", server.ended(), (0, b"bye\n"))


def refused_starts(program):
    """Status 6 for an address that is not available, 2 for a folder, 1 for the arguments."""
    with socket.socket() as listener:
        listener.bind(("127.0.0.1", 0))
        listener.listen()
        taken = address_of(listener.getsockname()[1])
        for address in (taken, "203.0.113.1:80", "nonsense"):
            status, output, errors = ran(program, "serve", address, "1", "data/a")
            same(f"serve {address}", (status, output), (6, b""))
            holds(f"standard error of {address}: {errors!r}", errors.count(b"\n") == 1 and errors.endswith(b"\n"))
    address = address_of(free_port())
    for folders, line in [(["nowhere"], NOWHERE), (["data/b", "data/a"], BACK)]:
        same(f"serve {folders}", ran(program, "serve", address, "1", *folders), (2, line.encode() + b"\n", b""))
    for words in (
        ["serve"],
        ["serve", address],
        ["serve", address, "1"],
        ["serve", address, "0", "data/a"],
        ["serve", address, "65", "data/a"],
        ["serve", address, "01", "data/a"],
        ["serve", address, "+1", "data/a"],
        ["serve", address, "", "data/a"],
        ["serve", "", "1", "data/a"],
        ["serve", "-x", "1", "data/a"],
        ["serve", "x/y", "1", "data/a"],
        ["serve", "x" * 256, "1", "data/a"],
        ["serve", address, "1", "-x"],
        ["serve", address, "1", ""],
        ["serve", address, "1", "x" * 1025],
        ["serve", address, "1", *["data/a"] * 65],
    ):
        same(f"{' '.join(words)[:60]}", ran(program, *words), (1, USAGE, b""))


def sixth_version(program):
    """An IPv6 address in brackets is served, where the machine has one."""
    try:
        free_port("::1")
    except OSError:
        return
    with Served(["data/a"], program=program, host="::1") as server:
        with Client(server.port, host="::1") as client:
            same("the list", client.ask(ZONES).body, LIST)
        same("the status", server.quit(), 0)


def quick_answer(server, arrange):
    """Beside these peers a new client gets its answer, long before they are given up."""
    peers = arrange(server.port)
    time.sleep(0.3)
    begin = time.monotonic()
    with Client(server.port) as client:
        same(f"the list beside {arrange.__name__}", client.ask(ZONES, "Connection: close", timeout=LONG).body, LIST)
    took = time.monotonic() - begin
    for peer in peers:
        peer.close()
    holds(f"beside {arrange.__name__} an answer came after {took} seconds", took < PROGRESS - 1)


def silent(port):
    """A peer that sends nothing."""
    return [Client(port)]


def idle(port):
    """A peer that sent one request and stays."""
    peer = Client(port)
    peer.ask(ZONES)
    return [peer]


def resetting(port):
    """Peers that send many requests, and then reset the connection."""
    for _ in range(20):
        peer = Client(port)
        peer.send(request(ZONES) * 30)
        peer.reset()
    return []


def garbage(port):
    """Peers that send what is no request."""
    peers = [Client(port) for _ in range(20)]
    for peer in peers:
        peer.send(b"\0\xff garbage\r\n\r\n" * 30)
    return peers


def drip(port, done):
    """A slow peer, which sends its head byte by byte and never ends it."""
    try:
        with Client(port) as client:
            for byte in request(ZONES, "Slow: " + "x" * 1000):
                client.send(bytes([byte]))
                if done.wait(0.2):
                    return
    except OSError:
        pass


def bad_peers(program):
    """While peers misbehave, the only worker serves others."""
    with Served(["data/a"], workers=1, program=program) as server:
        done = threading.Event()
        slow = threading.Thread(target=drip, args=(server.port, done))
        slow.start()
        time.sleep(0.3)
        try:
            for arrange in (silent, idle, resetting, garbage):
                quick_answer(server, arrange)
        finally:
            done.set()
            slow.join(SLACK)
        same("the status", server.quit(), 0)
        same("standard error", server.errors, b"")


def half_closed(program):
    """A peer that ends its side gets its replies, and then the end. Without a whole head it gets
    only the end, and is not waited for."""
    whole, part = request(ZONES), request(ZONES)[:-2]
    cases = [
        ("nothing", [b""], 0),
        ("a part", [part], 0),
        ("a part in pieces", [part[:5], part[5:]], 0),
        ("a head", [whole], 1),
        ("a head in pieces", [whole[:5], whole[5:]], 1),
        ("a head and a part", [whole + part], 1),
        ("forty heads", [whole * 40], 40),
        ("heads that fill a piece", [request(ZONES, "Long: " + "x" * 4040) + whole], 2),
    ]
    with Served(["data/a"], workers=1, program=program) as server:
        # the end comes with the last bytes, or after them
        for pause in (0, 0.05):
            for name, pieces, count in cases:
                with Client(server.port) as peer:
                    for piece in pieces:
                        peer.send(piece)
                        time.sleep(pause)
                    peer.end_sending()
                    begin = time.monotonic()
                    for _ in range(count):
                        same(f"a reply to {name}", peer.reply(timeout=LONG).body, LIST)
                    peer.seconds_to_end(LONG)
                    took = time.monotonic() - begin
                    holds(f"{name}: the end came after {took} seconds", took < PROGRESS - 1)
        same("the status", server.quit(), 0)


def resets(program):
    """Peers reset at each point of a request and of its replies, and the server continues."""
    whole = request(ZONES)
    with Served(["data/a"], workers=1, program=program) as server:
        before = descriptors(server)
        for cut in range(len(whole) + 1):
            with Client(server.port) as peer:
                peer.send(whole[:cut])
                peer.reset()
        for replies_read in range(5):
            with Client(server.port) as peer:
                peer.send(whole * 8)
                for _ in range(replies_read):
                    same("a reply before a reset", peer.reply(timeout=LONG).body, LIST)
                peer.reset()
        with Client(server.port) as client:
            same("the list after resets", client.ask(ZONES, timeout=LONG).body, LIST)
        until = time.monotonic() + LONG
        while descriptors(server) > before:
            holds("connections that were reset stay", time.monotonic() < until)
            time.sleep(0.1)
        same("the status", server.quit(), 0)
        same("standard error", server.errors, b"")


def byte_by_byte(program):
    """A head of 16,384 bytes is accepted byte by byte, and one with a byte more is refused."""
    front, back = request(ZONES, "Long: ")[:-4], b"\r\n\r\n"
    with Served(["data/a"], workers=1, program=program) as server:
        for size, status in ((16_384, 200), (16_385, 431)):
            head = front + b"x" * (size - len(front) - len(back)) + back
            begin = time.monotonic()
            try:
                with Client(server.port) as client:
                    for at in range(len(head)):
                        client.send(head[at : at + 1])
                    reply = client.reply(timeout=LONG)
                same(f"a head of {size} bytes", (reply.status, reply.closes), (status, status == 431))
            except (Failure, OSError):
                # a machine that was slower than a head may be is not judged
                if time.monotonic() - begin < HEAD - 1:
                    raise
        same("the status", server.quit(), 0)


def few_descriptors(program):
    """Where no descriptor is left for connections, workers wait for one, and none of them ends."""
    with Served(["data/a"], workers=4, program=program) as server:
        # as many descriptors as a server has, and two connections
        most = len(os.listdir(f"/proc/{server.pid}/fd")) + 2
        same("the status", server.quit(), 0)
    with Served(["data/a"], workers=4, program=program, by=limited(most)) as server:
        peers = [Client(server.port) for _ in range(20)]
        for peer in peers:
            peer.send(request(ZONES)[:-2])
        # meanwhile each of the others fails to accept many times
        time.sleep(2)
        for peer in peers:
            peer.reset()
        for _ in range(16):
            with Client(server.port) as client:
                same("the list", client.ask(ZONES, "Connection: close", timeout=LONG).body, LIST)
        same("status", server.say("status"), f"serving {FIRST} 1")
        same("the status", server.quit(), 0)


def limited(most):
    """The command that starts a program which may open this many descriptors."""
    return ["sh", "-c", f'ulimit -n {most}; exec "$@"', "sh"]


def many_idle(program):
    """Where no descriptor is left for more, the least recently active connections are ended."""
    kept, reserved = 30, 64
    with Served(["data/a"], workers=1, program=program, by=limited(reserved + 1 + kept)) as server:
        clients = []
        for _ in range(50):
            clients.append(Client(server.port))
            same("the list", clients[-1].ask(ZONES, timeout=LONG).body, LIST)
            # the first sends requests again and again, and so stays
            same("the list of the first", clients[0].ask(ZONES, timeout=LONG).body, LIST)
        for client in clients[1:21]:
            client.seconds_to_end(LONG)
        for client in [clients[0], *clients[21:]]:
            same("the list of who stayed", client.ask(ZONES, timeout=LONG).body, LIST)
        for client in clients:
            client.close()
        same("the status", server.quit(), 0)


def is_ended(client):
    """Whether the peer has ended a connection. No byte may come before that."""
    client.socket.setblocking(False)
    try:
        piece = client.socket.recv(1)
    except BlockingIOError:
        return False
    except ConnectionError:
        return True
    holds("a byte came where the connection should end", not piece)
    return True


def silence(program):
    """A connection that sends nothing occupies no worker, and is ended in time. Between requests
    that is after sixty seconds, inside one after ten. Where a byte comes now and then it is after
    thirty."""
    least = {"silent": IDLE, "idle": IDLE, "inside": PROGRESS, "slow": HEAD}
    with Served(["data/a"], workers=1, program=program) as server:
        begin = last = time.monotonic()
        left = {name: Client(server.port) for name in least}
        same("the list", left["idle"].ask(ZONES, timeout=LONG).body, LIST)
        left["inside"].send(request(ZONES)[:-2])
        took, gap = {}, 0
        while left and time.monotonic() < begin + IDLE + SLACK:
            for name in [name for name in left if is_ended(left[name])]:
                left.pop(name).close()
                took[name] = time.monotonic() - begin
            if "slow" in left:
                gap, last = max(gap, time.monotonic() - last), time.monotonic()
                try:
                    left["slow"].send(b"G" if gap == 0 else b"x")
                except ConnectionError:
                    pass
            with Client(server.port) as other:
                same("the list beside them", other.ask(ZONES, timeout=LONG).body, LIST)
            time.sleep(1)
        holds(f"{list(left)} had not ended", not left)
        for name, seconds in least.items():
            # a machine that was stalled sent nothing, too
            early = name == "slow" and gap > PROGRESS - 1
            holds(f"{name} ended after {took[name]} seconds", early or seconds <= took[name] < seconds + SLACK)
        same("the status", server.quit(), 0)


def descriptors(server):
    """How many descriptors the server has."""
    return len(os.listdir(f"/proc/{server.pid}/fd"))


def large_release(room):
    """A release whose list is large."""
    return release(f"{room}/large", "1", {f"Test/{'Z' * 50}{number}": 1 for number in range(900)})


def small_window(port):
    """A connection with a small receive buffer, for a peer that does not read."""
    peer = socket.socket()
    peer.settimeout(LONG)
    peer.setsockopt(socket.SOL_SOCKET, socket.SO_RCVBUF, 4096)
    peer.connect((HOST, port))
    return peer


def all_that_comes(peer, pause=0):
    """The bytes that come until the end, read a piece at a time."""
    pieces = []
    while piece := peer.recv(1 << 18):
        pieces.append(piece)
        time.sleep(pause)
    return b"".join(pieces)


def whole_replies(stream):
    """How many replies a stream has, none of them cut."""
    count = 0
    while stream:
        head, _, rest = stream.partition(b"\r\n\r\n")
        size = int(Reply(head, b"").fields["Content-Length"])
        holds(f"a reply was cut {size - len(rest)} bytes before its end", len(rest) >= size)
        stream = rest[size:]
        count += 1
    return count


def deaf_peers(program):
    """A peer that reads nothing occupies no worker, and is given up after ten seconds."""
    with tempfile.TemporaryDirectory() as room:
        with Served([large_release(room)], workers=1, program=program) as server:
            before = descriptors(server)
            with small_window(server.port) as peer:
                begin = time.monotonic()
                peer.sendall(request(ZONES) * 400)
                while descriptors(server) == before:
                    time.sleep(0.01)
                while descriptors(server) > before:
                    took = time.monotonic() - begin
                    holds("the peer was not given up", took < PROGRESS + SLACK)
                    with Client(server.port) as client:
                        same("the token beside it", token_of(client.ask(ZONES, timeout=LONG)), server.token)
                    time.sleep(0.5)
                holds(f"the peer was given up after {took} seconds", took > PROGRESS - 1)
            same("the status", server.quit(), 0)


def slow_readers(program):
    """Peers that read slowly get all their replies, in order, beyond the end of a batch. Others are
    served beside them by the only worker."""
    count = 24
    with tempfile.TemporaryDirectory() as room:
        with Served([large_release(room)], workers=1, program=program) as server:
            with Client(server.port) as client:
                listing = client.ask(ZONES, timeout=LONG).body
            faults = []

            def read(pause):
                try:
                    with small_window(server.port) as peer:
                        peer.sendall((request(ZONES) + request(ZONES, method="HEAD")) * count + request("/nothing", "Connection: close"))
                        stream = all_that_comes(peer, pause)
                        fronts = stream.split(listing)
                        same("the lists", len(fronts), count + 1)
                        same("the heads between them", {front.count(b"HTTP/1.1 200 OK") for front in fronts[1:-1]}, {2})
                        same("the end", (fronts[0].count(b"200 OK"), fronts[-1].count(b"200 OK"), fronts[-1].count(b"400 Bad")), (1, 1, 1))
                except (Failure, OSError) as fault:
                    faults.append(f"with pauses of {pause}: {fault}")

            reading = [threading.Thread(target=read, args=(pause,)) for pause in (0, 0.002, 0.005)]
            for thread in reading:
                thread.start()
            while any(thread.is_alive() for thread in reading):
                with Client(server.port) as client:
                    same("the list beside them", client.ask(ZONES, timeout=LONG).body, listing)
                time.sleep(0.2)
            for thread in reading:
                thread.join()
            same("faults of slow readers", faults, [])
            same("the status", server.quit(), 0)


def at_the_end(program, folder, deaf):
    """Ends a server that still has to send lists to four readers, and as many to `deaf` peers that
    read nothing. Returns after how many seconds the readers had the end, and how many of them had a
    reply that was cut."""
    with Served([folder], workers=2, program=program) as server:
        peers = [small_window(server.port) for _ in range(deaf + 4)]
        for peer in peers:
            peer.sendall(request(ZONES) * 60)
        # each has received something, and more waits behind it
        first = [peer.recv(1) for peer in peers]
        time.sleep(0.5)
        same("quit", server.say("quit"), "bye")
        begin = time.monotonic()
        for peer in peers[deaf:]:
            peer.setsockopt(socket.SOL_SOCKET, socket.SO_RCVBUF, 1 << 18)
        with ThreadPoolExecutor(4) as pool:
            rest = list(pool.map(until_the_end, peers[deaf:]))
        took = time.monotonic() - begin
        for peer in peers:
            peer.close()
        same("the end", server.ended(timeout=LONG), (0, b""))
        return took, sum(is_cut(one + more) for one, more in zip(first[deaf:], rest))


def until_the_end(peer):
    """The bytes that come until the end, which may be a reset."""
    pieces = []
    try:
        while piece := peer.recv(1 << 18):
            pieces.append(piece)
    except ConnectionError:
        pass
    return b"".join(pieces)


def is_cut(stream):
    """Whether the last reply of a stream is cut."""
    try:
        return whole_replies(stream) == 0
    except Failure:
        return True


def owed_at_the_end(program):
    """Replies that are pending at the end are sent whole, for two seconds at most. Nobody waits for
    the peers of another worker."""
    with tempfile.TemporaryDirectory() as room:
        folder = large_release(room)
        for _ in range(3):
            took, cut = at_the_end(program, folder, 4)
            if cut == 0:
                return
            # where readers without such peers need as long, the machine is slow, and is not judged
            if at_the_end(program, folder, 0)[0] > OWED / 4:
                return
        raise Failure(f"{cut} of 4 readers had a part of a reply, after {took} seconds")


def expansions(zone, count):
    """HEAD requests for expansions over 8,000 years, with different ranges, so none is cached."""
    heads = []
    for number in range(count):
        first = f"{1810 + number % 89}-{1 + number // 89:02}-01T00:00:00Z"
        dates = f"start={first}&end=9999-01-01T00:00:00Z"
        heads.append(request(f"{ZONES}/{zone}/observances?{dates}", method="HEAD"))
    return heads


def turns(program):
    """A client with many costly requests has short turns, and others are served between them."""
    count = 400
    with Served(["data/b"], workers=1, program=program) as server:
        with Client(server.port) as good, Client(server.port) as busy:
            good.ask(ZONES)
            busy.send(b"".join(expansions("America%2FNew_York", count)))
            busy.reply(head_only=True, timeout=LONG)
            good.ask(ZONES, timeout=LONG)
            os.kill(server.pid, signal.SIGSTOP)
            held = replies_held(busy)
            os.kill(server.pid, signal.SIGCONT)
            holds(f"{held} of {count} costly requests were answered first", held < count // 2)
        server.child.kill()


def replies_held(client):
    """How many replies without a body have come so far. The first of them was read before."""
    client.socket.setblocking(False)
    try:
        while piece := client.socket.recv(1 << 18):
            client.held += piece
    except BlockingIOError:
        pass
    return 1 + client.held.count(b"\r\n\r\n")


def kept_beside_new(program):
    """On a persistent connection a client is answered before many new ones that came first."""
    count = 200
    with Served(["data/b"], workers=1, program=program) as server:
        with Client(server.port) as good:
            good.ask(ZONES)
            os.kill(server.pid, signal.SIGSTOP)
            others = new_clients(server, expansions("America%2FNew_York", count))
            good.send(request(ZONES))
            answered = answered_before(server, good, others)
            holds(f"{answered} of {count} new connections were answered first", answered < count // 2)
        server.child.kill()


def new_clients(server, heads):
    """A new client for each of these heads, which it has sent."""
    clients = []
    for head in heads:
        clients.append(Client(server.port, timeout=LONG))
        clients[-1].send(head)
    return clients


def answered_before(server, good, others):
    """How many of the others had an answer when the good client had its own. The server, which is
    stopped before the call, continues, and the others are closed."""
    os.kill(server.pid, signal.SIGCONT)
    good.reply(timeout=LONG)
    os.kill(server.pid, signal.SIGSTOP)
    answered = sum(has_bytes(other) for other in others)
    os.kill(server.pid, signal.SIGCONT)
    for other in others:
        other.close()
    return answered


def quick_before_costly(program):
    """A new client's quick request is answered before costly ones of new clients that came first.
    This is also so where each of these sends a quick one in front."""
    count = 200
    for front in (b"", request(ZONES)):
        with Served(["data/b"], workers=1, program=program) as server:
            os.kill(server.pid, signal.SIGSTOP)
            others = new_clients(server, (front + head for head in expansions("America%2FNew_York", count)))
            with Client(server.port, timeout=LONG) as good:
                good.send(request(ZONES))
                answered = answered_before(server, good, others)
            holds(f"{answered} of {count} costly requests were answered first", answered < count // 10)
            server.child.kill()


def one_beside_many(program):
    """A new client's request is answered before most of those of new clients that came first, and
    that send many at once."""
    count, each = 100, 12
    with tempfile.TemporaryDirectory() as room:
        with Served([large_release(room)], workers=1, program=program) as server:
            os.kill(server.pid, signal.SIGSTOP)
            others = []
            for _ in range(count):
                others.append(Client(server.port, timeout=LONG))
                others[-1].send(request(ZONES) * each)
            with Client(server.port, timeout=LONG) as good:
                good.send(request(ZONES))
                os.kill(server.pid, signal.SIGCONT)
                good.reply(timeout=LONG)
                os.kill(server.pid, signal.SIGSTOP)
            answered = sum(replies_held(other) - 1 for other in others)
            os.kill(server.pid, signal.SIGCONT)
            said = f"{answered} of {count * each} requests were answered first"
            holds(said, answered < count * each * 3 // 4)
            for other in others:
                other.close()
            server.child.kill()


def has_bytes(client):
    """Whether something has come that was not read."""
    client.socket.setblocking(False)
    try:
        return bool(client.socket.recv(1, socket.MSG_PEEK))
    except BlockingIOError:
        return False


def backlog(program):
    """Many connections may wait to be accepted, and none is refused or has to try again."""
    count = 1_000
    with open("/proc/sys/net/core/somaxconn", encoding="ascii") as file:
        count = min(count, int(file.read()) // 2)
    with Served(["data/a"], workers=1, program=program) as server:
        os.kill(server.pid, signal.SIGSTOP)
        peers = [Client(server.port, timeout=LONG) for _ in range(3)]
        for _ in range(count):
            begin = time.monotonic()
            try:
                peers.append(Client(server.port, timeout=0.9))
            except socket.timeout:
                took = time.monotonic() - begin
                raise Failure(f"connection {len(peers)} waited for {took} seconds") from None
        os.kill(server.pid, signal.SIGCONT)
        for peer in peers:
            same("the list", peer.ask(ZONES, timeout=LONG).body, LIST)
            peer.close()
        same("the status", server.quit(), 0)


def downloads_stay(program):
    """Where no descriptor is left, a download with progress is not ended for silent connections."""
    with tempfile.TemporaryDirectory() as room:
        folder = large_release(room)
        by = ["sh", "-c", 'ulimit -n 100; exec "$@"', "sh"]
        with Served([folder], workers=1, program=program, by=by) as server:
            with Client(server.port) as client:
                listing = client.ask(ZONES, timeout=LONG).body
            silent_peers = []
            with small_window(server.port) as peer:
                peer.sendall(request(ZONES) * 40 + request("/nothing", "Connection: close"))
                stream = b""
                for _ in range(300):
                    stream += peer.recv(16_384)
                    silent_peers.append(Client(server.port))
                    if len(silent_peers) > 100:
                        silent_peers.pop(0).close()
                stream += all_that_comes(peer)
            for one in silent_peers:
                one.close()
            same("the replies", whole_replies(stream), 41)
            holds("a reply was cut", stream.count(listing) == 40)
            same("the status", server.quit(), 0)


def odd_files(program):
    """What is no regular file in a release is refused at once, by `check` and by the console."""
    with tempfile.TemporaryDirectory() as room:
        piped = release(f"{room}/piped", "1", {"Etc/UTC": 1})
        os.remove(f"{piped}/z0")
        os.mkfifo(f"{piped}/z0")
        device = release(f"{room}/device", "1", {"Etc/UTC": 1})
        os.remove(f"{device}/manifest.json")
        os.symlink("/dev/zero", f"{device}/manifest.json")
        for folder, name in ((piped, "z0"), (device, "manifest.json")):
            status, output, errors = ran(program, "check", folder)
            same(f"check {name}", (status, output), (3, b""))
            said = f"tzdistd: cannot read {folder}/{name}: unsupported\n"
            same("standard error", errors, said.encode())
        with Served(["data/a"], program=program) as server:
            said = server.say(f"install {piped}")
            holds(f"install was answered {said!r}", said.startswith("refused 9 ReadFault"))
            same("status", server.say("status"), f"serving {FIRST} 1")
            same("the status", server.quit(), 0)


NOT_BLOCKING = """
import os, sys
os.set_blocking(0, False)
os.set_blocking(1, False)
os.execv(sys.argv[1], sys.argv[1:])
"""


def streams_that_do_not_block(program):
    """The server waits for standard streams that another process has set to non-blocking."""
    with Served(["data/a"], program=program, by=[sys.executable, "-c", NOT_BLOCKING]) as server:
        time.sleep(0.5)
        # more than fits into a pipe, in both directions
        count = 20_000
        writer = threading.Thread(target=server.write, args=(b"status\n" * count,))
        writer.start()
        for number in range(count):
            same(f"status {number}", server.line(timeout=LONG), f"serving {FIRST} 1")
        writer.join(LONG)
        same("the status", server.quit(), 0)


CHECKS = [
    silence,
    deaf_peers,
    slow_readers,
    owed_at_the_end,
    bad_peers,
    half_closed,
    resets,
    byte_by_byte,
    few_descriptors,
    many_idle,
    whole_releases,
    replies,
    far_years,
    pipelined,
    bad_requests,
    installs,
    ends,
    refused_starts,
    sixth_version,
    turns,
    kept_beside_new,
    quick_before_costly,
    one_beside_many,
    backlog,
    downloads_stay,
    odd_files,
    streams_that_do_not_block,
]


def main():
    return run_checks("serve", CHECKS, WHOLE, 3)


if __name__ == "__main__":
    sys.exit(main())
