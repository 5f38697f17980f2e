"""Trials of nginx's site, which try.py runs: attacks on its cache, its limits, its log, HTTP/2, and
a server that is out of memory. Each starts another nginx in front of the server of the trial."""

import contextlib
import http.client
import os
import socket
import ssl
import subprocess
import threading
import time
from collections import Counter
from typing import NamedTuple

from proxied import HERE, NAME, Proxy, ask, edited, one_server, same, text_of
from served import HOST, Failure

LIST, ZONE = "/tzdist/zones", "/tzdist/zones/Etc%2FUTC"
YEAR = "start=2025-01-01T00:00:00Z"
KEEPS_REFUSALS = [("proxy_cache_valid 200 301 404 1s;", "proxy_cache_valid 200 301 400 404 406 1s;")]


class Attack(NamedTuple):
    """A request that the server refuses, for a target that it answers to others."""

    name: str
    fields: tuple = ()
    target: str = LIST
    host: str = NAME
    method: str = "GET"
    body: bytes = b""
    good: tuple = ()


ATTACKS = [
    Attack("a control byte in a field", ("X-A: a\x01b",)),
    Attack("a delete byte in a field", ("X-A: a\x7fb",)),
    Attack("a quote in Host", host='tz.exa"mple.org'),
    Attack("an angle bracket in Host", host="a<b"),
    Attack("a high byte in Host", host="\xe9.example.org"),
    Attack("an at sign in Host", host="u@tz.example.org"),
    Attack("an empty Host", host=""),
    Attack("a bracket in a field's name", ("a(b: c",)),
    Attack("a control byte in a tag", ('If-None-Match: "\x01"',)),
    Attack("a body", ("Content-Length: 5",), body=b"hello"),
    Attack("a body in chunks", ("Transfer-Encoding: chunked",), body=b"0\r\n\r\n"),
    Attack("an expectation", ("Expect: 100-continue",)),
    Attack("too many fields", tuple(f"X{number}: y" for number in range(70))),
    Attack("a long head", ("X: " + "a" * 7000, "Y: " + "b" * 7000, "Z: " + "c" * 7000)),
    Attack("another method", ("Content-Length: 0",), method="POST"),
    Attack("a range of bytes", ("Range: bytes=0-1",)),
    Attack("a format that a zone has not", ("Accept: application/json",), ZONE, good=("Accept: application/tzif",)),
    Attack("a range of years as TZif", ("Accept: application/tzif",), f"{ZONE}?{YEAR}", good=("Accept: text/calendar",)),
]
# Attacks that must succeed where refusals are cached. Otherwise this trial shows nothing.
SUCCEEDED = {"a control byte in a field", "a high byte in Host", "a quote in Host", "a format that a zone has not",
             "a range of years as TZif"}


def exchanged(proxy, target, fields, host=NAME, method="GET", body=b""):
    """Status and body of the reply to a request that is sent as it is."""
    head = "\r\n".join([f"{method} {target} HTTP/1.1", f"Host: {host}", *fields, "Connection: close", "", ""])
    with proxy.connect() as client:
        client.sock.sendall(head.encode("latin-1") + body)
        reply = http.client.HTTPResponse(client.sock, method=method)
        reply.begin()
        return reply.status, reply.read()


def succeeds(proxy, attack):
    """Whether a good client gets another answer after the attack than before it."""
    good = exchanged(proxy, attack.target, [*attack.good, "Cache-Control: no-cache"])
    if good[0] != 200:
        raise Failure(f"{attack.name}: a good request was answered {good[0]}")
    fields = [*attack.fields, "Cache-Control: no-cache"]
    exchanged(proxy, attack.target, fields, attack.host, attack.method, attack.body)
    return exchanged(proxy, attack.target, attack.good) != good


@contextlib.contextmanager
def site(deployed, name, port=None, edits=()):
    """A new nginx with the site, in front of the server or of another port."""
    text = edited(text_of("nginx-tzdistd.conf"), one_server(port or deployed.server.port) + list(edits))
    proxy = Proxy(os.path.join(deployed.room, name), text)
    try:
        yield proxy
    finally:
        proxy.close()


def poisoning(deployed):
    """No request changes what the cache has for others, as some did while refusals were cached."""
    with site(deployed, "cache-of-refusals", edits=KEEPS_REFUSALS) as proxy:
        found = {attack.name for attack in ATTACKS if succeeds(proxy, attack)}
        print(f"  with refusals in the cache {len(found)} of {len(ATTACKS)} attacks succeed")
        same("attacks that must be among them", SUCCEEDED - found, set())
        seen = next_to_attacker(proxy, 3)
        print(f"  what others get next to an attacker: {dict(seen)}")
        same("others are refused", set(seen) - {200} != set(), True)
    with site(deployed, "cache") as proxy:
        same("attacks that succeed", [attack.name for attack in ATTACKS if succeeds(proxy, attack)], [])
        same("what others get next to an attacker", set(next_to_attacker(proxy, 3)), {200})


def next_to_attacker(proxy, seconds):
    """How often a good client got each status while another one attacked twice a second."""
    ended, attack = threading.Event(), ATTACKS[0]

    def attacker():
        while not ended.wait(0.5):
            exchanged(proxy, attack.target, [*attack.fields, "Cache-Control: no-cache"])

    thread = threading.Thread(target=attacker)
    thread.start()
    seen, end = Counter(), time.monotonic() + seconds
    try:
        while time.monotonic() < end:
            seen[exchanged(proxy, LIST, [])[0]] += 1
            time.sleep(0.02)
    finally:
        ended.set()
        thread.join()
    return seen


def expansions(client, numbers):
    """The statuses of expansions that are all different."""
    return {ask(client, f"{ZONE}/observances?{YEAR}&end={2100 + number}-01-01T00:00:00Z")[0].status for number in numbers}


# The limits of the site with numbers that a few connections reach.
FEW_WAIT = [("burst=2000 delay=1000;", "burst=40 delay=20;")]
FEW_AT_ONCE = [("limit_conn tzdistd_open 256;", "limit_conn tzdistd_open 4;")]


def limits(deployed):
    """A client may send many costly requests at once. More are refused, and other clients are not
    affected."""
    with site(deployed, "limits") as proxy, proxy.connect("127.0.0.2") as client:
        same("1,000 expansions of one address", expansions(client, range(1000)), {200})
    with site(deployed, "few-wait", edits=FEW_WAIT) as proxy:
        seen = at_once(proxy, "127.0.0.2", 300)
        print(f"  300 expansions at the same time: {dict(seen)}")
        same("some are answered, and some refused", set(seen), {200, 429})
        same("those that may wait are answered", seen[200] >= 40, True)
        with proxy.connect("127.0.0.2") as client:
            same("the list, to the same address", ask(client, LIST)[0].status, 200)
            status = ask(client, ZONE, Accept="application/tzif")[0].status
            same("a file, to the same address", status, 200)
        with proxy.connect("127.0.0.3") as other:
            same("expansions, to another address", expansions(other, range(20)), {200})
    slow = Fickle(1)
    with site(deployed, "few-at-once", slow.port, FEW_AT_ONCE) as proxy:
        seen = at_once(proxy, "127.0.0.2", 10)
        same("more than may be in progress", set(seen), {200, 429})
        with proxy.connect("127.0.0.3") as other:
            same("one more, of another address", expansions(other, [0]), {200})


def at_once(proxy, address, count):
    """How often each status comes where an address sends this many costly requests at once."""
    with contextlib.ExitStack() as stack:
        clients = [stack.enter_context(proxy.connect(address)) for _ in range(count)]
        for number, one in enumerate(clients):
            one.request("GET", f"{ZONE}/observances?{YEAR}&end={4000 + number}-01-01T00:00:00Z")
        return Counter(one.getresponse().status for one in clients)


# Targets with the action that the log names, and the Accept field.
LOGGED = [
    ("/", "page", None),
    ("/.well-known/timezone", "redirect", None),
    ("/tzdist/capabilities", "capabilities", None),
    (LIST, "list", None),
    (f"{LIST}?changedsince=x", "changes", None),
    (f"{LIST}?pattern=*utc", "find", None),
    (ZONE, "get-calendar", None),
    (ZONE, "get-calendar", "application/calendar+json"),
    (ZONE, "get-tzif", "application/tzif"),
    (f"{ZONE}/observances?{YEAR}&end=2026-01-01T00:00:00Z", "expand", None),
    ("/tzdist/zones/Etc%2FUTC/%6fbservances", "expand", None),
    ("/tzdist/leapseconds", "leapseconds", None),
    ("/tzdist/else", "other", None),
]


def log(deployed):
    """The log names the action of each request. The command in the site's comment counts them."""
    with site(deployed, "logged") as proxy:
        with proxy.connect() as client:
            for target, _, accept in LOGGED:
                ask(client, target, Accept=accept or "*/*")
            same("the same again from the cache", ask(client, LIST)[0].status, 200)
        command = text_of("nginx-tzdistd.conf").split("counts actions:\n#", 1)[1].split("\n")[0]
        command = command.replace("/var/log/nginx/tzdistd.log", f"{proxy.at}/log")
        counted = subprocess.run(["sh", "-c", command], capture_output=True, text=True, timeout=20, check=True).stdout
        counts = {action: int(count) for count, action in map(str.split, counted.splitlines())}
        same("the counts of actions", counts, dict(Counter([action for _, action, _ in LOGGED] + ["list"])))
        with open(f"{proxy.at}/log") as file:
            words = file.read().splitlines()[-1].split(" ")
        same("the last line's action, status and cache", words[2:5], ["list", "200", "HIT"])


def second_version(deployed):
    """HTTP/2 is offered, and answers as HTTP/1.1 does."""
    with site(deployed, "second") as proxy:
        context = ssl.create_default_context(cafile=proxy.certificate)
        context.set_alpn_protocols(["h2", "http/1.1"])
        with socket.create_connection((HOST, proxy.port), 20) as plain:
            with context.wrap_socket(plain, server_hostname=NAME) as secure:
                same("what nginx chooses", secure.selected_alpn_protocol(), "h2")
        words = ["curl", "-sS", "--http2", "--cacert", proxy.certificate, "-o", "/dev/null", "-m", "20",
                 "-w", "%{http_version} %{http_code}", f"{proxy.url}{ZONE}"]
        done = subprocess.run(words, capture_output=True, text=True, timeout=30)
        same("a zone by HTTP/2", done.stdout, "2 200")


class Fickle:
    """A server that answers each request with the same list, after `seconds`, or with 503."""

    def __init__(self, seconds=0):
        self.seconds, self.full = seconds, False
        self.listener = socket.create_server((HOST, 0), backlog=64)
        self.port = self.listener.getsockname()[1]
        threading.Thread(target=self._serve, daemon=True).start()

    def _serve(self):
        while True:
            client = self.listener.accept()[0]
            with client:
                client.recv(1 << 16)
                time.sleep(self.seconds)
                status, body = ("503 Service Unavailable", "") if self.full else ("200 OK", '{"timezones":[]}')
                head = f"HTTP/1.1 {status}\r\nContent-Length: {len(body)}\r\nConnection: close\r\n\r\n"
                client.sendall((head + body).encode())


def out_of_memory(deployed):
    """While the server is out of memory, clients get what the cache has."""
    server = Fickle()
    with site(deployed, "stale", server.port) as proxy, proxy.connect() as client:
        same("the list", ask(client, LIST)[0].status, 200)
        server.full = True
        time.sleep(2.2)
        for again in ("", " again"):
            same(f"the list from a server without memory{again}", ask(client, LIST)[0].status, 200)
        same("past the cache", ask(client, LIST, Cache_Control="no-cache")[0].status, 503)


def figures(deployed):
    """The file of metrics is for this machine only."""
    with site(deployed, "figures") as proxy:
        with proxy.connect() as client:
            same("no figures yet", ask(client, "/metrics")[0].status, 404)
            server = deployed.server
            words = [os.path.join(HERE, "tzdistd-metrics"), "tzdistd", "--address", server.address, "--runtime", server.at,
                     "--state", server.state, "--to", f"{proxy.at}/tzdistd.prom"]
            done = subprocess.run(words, capture_output=True, text=True, timeout=60)
            same("tzdistd-metrics", (done.returncode, done.stderr), (0, ""))
            reply, body = ask(client, "/metrics")
            same("the figures", (reply.status, reply.headers["Content-Type"]), (200, "text/plain; version=0.0.4"))
            same("the server is up", b'tzdistd_up{service="tzdistd"} 1\n' in body, True)
        with proxy.connect("127.0.0.2") as client:
            same("the figures for another machine", ask(client, "/metrics")[0].status, 403)


TRIALS = (poisoning, limits, log, second_version, out_of_memory, figures)
