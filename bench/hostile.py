#!/usr/bin/env python3
"""Attacks `tzdistd` as it is built, over the loopback, and prints what was seen.

    bench/hostile.py RELEASE_DIR [--program PATH] [--only PART,..] [--page FILE] [--count N]
                     [--seconds N]

For example, this measures what a good client sees during floods, with nginx in the same run. It
also writes the tables of the page on hostile use with these figures:

    bench/hostile.py /srv/tzdist/2025b --only floods,costly,memory,backlog --page docs/SECURITY.md

With --page, the table of each part replaces the text between `<!-- PART -->` and `<!-- end -->` in
that file. The marks, and whether they are met, are printed last.

The parts, each of them rows of a table:

    clients      so many connections of each kind of client that misbehaves. The kinds are garbage,
                 half a head, a reset, a half-closed stream, a slow writer, a slow reader, and one
                 that takes nothing. The 50th and 99th percentile of a good client beside them are
                 printed.
    floods       a good client on a kept connection, and one that connects anew for each request,
                 beside floods of cheap requests and crowds. The same of nginx, which serves files
                 with the same bodies.
    costly       the same beside requests that take milliseconds each, which nginx does not have
    memory       600 readers of large replies who take little: memory, and a good client
    backlog      2,000 connections at once: how long each waited until it was open
    descriptors  a server that may open 64, while each of 300 connections needs one, and the same
                 once they are gone
    space        a server whose address space is limited, from too little to start with to ample
    upstreams    a mirror whose other server is slow or silent, answers without end, resets, ends,
                 cuts its answer or sends a wrong one. It does so in a first sync, and in one from
                 a console.

After each attack on a server a new client must get the whole list, and the console must know the
release that is served. A quit must end the server with status 0. Where memory is limited it may
also end with status 70, and a request may get 503. Anything else makes the status 1. The
descriptors and the memory that are held by then are printed.

Every loop is bounded in count and time, and what is started ends with the script. It is run by
hand, and is no part of the gate. It needs only Linux and Python's standard library.
"""

import collections
import contextlib
import itertools
import math
import multiprocessing
import os
import random
import resource
import select
import shutil
import socket
import statistics
import subprocess
import sys
import threading
import time

sys.dont_write_bytecode = True
sys.path.insert(0, os.path.join(os.path.dirname(os.path.dirname(os.path.abspath(__file__))), "tools"))

import serve
import test_mirror
from checks import ZONES, ran, same
from serve import Asked, Nginx, deaf, descriptors, drip, garbage, half_closed, parser_of, parts_of
from serve import resetting, sip, small_window, status_of
from served import DATA, HOST, Client, Failure, Mirror, Served, request

PARTS = ["clients", "floods", "costly", "memory", "backlog", "descriptors", "space", "upstreams"]
# The processors of the machine. A server has as many workers, and nginx as many processes.
WORKERS = os.cpu_count() or 1
SEARCH = f"{ZONES}?pattern=*york"
# nginx gets enough connections for the crowd, too.
serve.SITE = serve.SITE.replace("worker_connections 512", "worker_connections 16384")
# For how long good clients are timed beside each flood.
BESIDE_SECONDS = 8
GONE = "refused 1 UpstreamFault"


# ---- clients that misbehave


def half_head(peer, rng):
    """a part of a head, and the end"""
    whole = request(ZONES, "Accept: application/tzif")
    peer.send(whole[: rng.randrange(1, len(whole))])


def many_heads(peer, rng):
    """heads of 16 KB that never end"""
    peer.send(b"GET / HTTP/1.1\r\nHost: x\r\n" + b"x: y\r\n" * rng.randrange(60, 2700))


def too_much(peer, rng):
    """a body that no request has, of up to a megabyte"""
    peer.send(request(ZONES, method="POST"))
    try:
        for _ in range(rng.randrange(1, 16)):
            peer.send(bytes(65_536))
    except OSError:
        pass


SHORT = {
    "garbage": garbage,
    "half a head": half_head,
    "heads without end": many_heads,
    "a body": too_much,
    "requests and a reset": resetting,
    "half-closed": half_closed,
}
LONG_LIVED = {"slow writers": drip, "slow readers": sip, "takers of nothing": deaf}


class Good:
    """A client that requests the list, a thousand times a second at most, and keeps its times."""

    def __init__(self, port):
        self.port, self.times, self.faults, self.done = port, [], [], threading.Event()
        self.thread = threading.Thread(target=self.ask, daemon=True)
        self.thread.start()

    def ask(self):
        while not self.done.is_set():
            try:
                with Client(self.port, timeout=60) as client:
                    for _ in range(500):
                        begin = time.monotonic()
                        reply = client.ask(f"{ZONES}?pattern=*york", timeout=60)
                        self.times.append(time.monotonic() - begin)
                        if reply.status != 200:
                            self.faults.append(f"status {reply.status}")
                        if self.done.wait(0.001):
                            return
            except (Failure, OSError) as fault:
                self.faults.append(str(fault))

    def end(self):
        self.done.set()
        self.thread.join(70)
        times = sorted(self.times)
        return len(times), statistics.median(times), times[len(times) * 99 // 100], self.faults


def misbehave(port, kind, count, seconds):
    """So many connections of a kind, by eight threads. It returns how many were made."""
    turns, lock, made, refused = iter(range(count)), threading.Lock(), [], []
    end = time.monotonic() + seconds

    def work():
        while time.monotonic() < end:
            with lock:
                turn = next(turns, None)
            if turn is None:
                return
            try:
                with Client(port, timeout=20) as peer:
                    made.append(turn)
                    kind(peer, random.Random(turn))
            except (OSError, Failure):
                refused.append(turn)

    threads = [threading.Thread(target=work) for _ in range(8)]
    for thread in threads:
        thread.start()
    for thread in threads:
        thread.join(seconds + 60)
    return len(made)


def keep(port, kind, count, seconds):
    """So many connections of a kind that lasts, for so long. Each has its turn once a second."""
    peers = []
    for _ in range(count):
        try:
            peers.append(kind(port))
        except OSError:
            break
    end, ended = time.monotonic() + seconds, set()
    while time.monotonic() < end:
        for number, (_, turn) in enumerate(peers):
            try:
                turn()
            except OSError:
                ended.add(number)
        time.sleep(1)
    for peer, _ in peers:
        peer.close()
    return len(peers)


# ---- floods, beside which clients are timed


class Times:
    """What a good client saw: requests, milliseconds to their replies, and failures."""

    def __init__(self, times, faults):
        self.times, self.faults = sorted(time * 1e3 for time in times), faults

    @property
    def late(self):
        """The 99th percentile."""
        return self.times[len(self.times) * 99 // 100] if self.times else math.inf

    @property
    def longest(self):
        return self.times[-1] if self.times else math.inf

    def row(self):
        """Median, 99th percentile and longest wait, and failures."""
        if not self.times:
            return f"no reply | {len(self.faults)}"
        waits = f"{statistics.median(self.times):.2f}, {self.late:.1f}, {self.longest:.1f}"
        return f"{waits} | {len(self.faults)}"


def ask_on(port, target, is_fresh, done, pipe):
    """The process of a good client, which makes at most 200 requests a second, until it is done."""
    times, faults, client = [], [], None
    while not done.wait(0.005):
        begin = time.monotonic()
        try:
            client = client or Client(port, timeout=60)
            reply = client.ask(target, timeout=60)
            times.append(time.monotonic() - begin)
            if reply.status != 200:
                faults.append(f"status {reply.status}")
            if is_fresh or reply.closes:
                client.close()
                client = None
        except (Failure, OSError) as fault:
            faults.append(f"{fault} after {time.monotonic() - begin:.1f} s")
            client = None
    pipe.send((times, faults))


class Watched:
    """Two good clients, each in a process of its own: on a kept connection, and on new ones."""

    def __init__(self, port, target):
        self.done, self.pipes, self.processes = multiprocessing.Event(), [], []
        for is_fresh in (False, True):
            here, there = multiprocessing.Pipe()
            self.pipes.append(here)
            words = (port, target, is_fresh, self.done, there)
            self.processes.append(multiprocessing.Process(target=ask_on, args=words, daemon=True))
            self.processes[-1].start()

    def end(self):
        self.done.set()
        seen = []
        for pipe, process in zip(self.pipes, self.processes):
            if not pipe.poll(90):
                raise Failure("a good client did not end in 90 seconds")
            seen.append(Times(*pipe.recv()))
            process.join(10)
        return seen


def costly_heads(count, seed):
    """HEAD requests for expansions over 8,000 years, of ranges that differ, so none is cached."""
    rng = random.Random(seed)
    zones = ["America%2FNew_York", "Europe%2FLondon", "Europe%2FBerlin", "Australia%2FSydney"]
    for _ in range(count):
        year, month, day = rng.randrange(1810, 1899), rng.randrange(1, 13), rng.randrange(1, 29)
        dates = f"start={year}-{month:02}-{day:02}T00:00:00Z&end=9999-01-01T00:00:00Z"
        yield request(f"{ZONES}/{rng.choice(zones)}/observances?{dates}", method="HEAD")


class Sender:
    """A connection that sends bytes as its peer takes them, and throws away what comes."""

    def __init__(self, port, data):
        self.socket = socket.create_connection((HOST, port), 20)
        self.socket.setblocking(False)
        self.left = memoryview(data)

    def turn(self, events):
        """Does what can be done now. It raises an error if the peer ended the connection."""
        if events & select.POLLIN and not self.socket.recv(1 << 18):
            raise ConnectionResetError
        if events & select.POLLOUT and self.left:
            self.left = self.left[self.socket.send(self.left[: 1 << 16]) :]

    def wants(self):
        return select.POLLIN | (select.POLLOUT if self.left else 0)


def send_all(port, done, begun, streams, again=False):
    """The process of a flood over as many connections as there are streams of bytes. With `again`,
    one that the server ended is opened again."""
    poll, senders = select.poll(), {}

    def begin(data):
        sender = Sender(port, data)
        senders[sender.socket.fileno()] = (sender, data)
        poll.register(sender.socket, sender.wants())

    for data in streams:
        begin(data)
    begun.set()
    while not done.is_set():
        for descriptor, events in poll.poll(100):
            sender, data = senders[descriptor]
            try:
                sender.turn(events)
                poll.modify(descriptor, sender.wants())
            except BlockingIOError:
                pass
            except OSError:
                poll.unregister(descriptor)
                sender.socket.close()
                del senders[descriptor]
                if again:
                    with contextlib.suppress(OSError):
                        begin(data)


def open_and_ask(port, done, begun, heads, count):
    """The process of a flood of new connections, of which so many are open. Each sends one request,
    and is closed once something arrives."""
    poll, peers, turns = select.epoll(), {}, itertools.cycle(heads)
    begun.set()
    while not done.is_set():
        while len(peers) < count:
            peer = socket.socket()
            peer.setblocking(False)
            peer.connect_ex((HOST, port))
            peers[peer.fileno()] = peer
            poll.register(peer, select.EPOLLOUT)
        for descriptor, events in poll.poll(0.1):
            peer = peers[descriptor]
            if events == select.EPOLLOUT:
                with contextlib.suppress(OSError):
                    peer.send(next(turns))
                    poll.modify(descriptor, select.EPOLLIN)
                    continue
            poll.unregister(descriptor)
            peers.pop(descriptor).close()


def stay(port, done, begun, target, idle, slow):
    """The process of a crowd: so many idle connections, every second one after a request, and so
    many slow ones."""
    resting = [socket.create_connection((HOST, port), 20) for _ in range(idle)]
    for peer in resting[::2]:
        peer.sendall(request(target))
    kinds = itertools.cycle((drip, deaf, sip))
    peers = [next(kinds)(port) for _ in range(slow)]
    begun.set()
    while not done.wait(1):
        for _, turn in peers:
            with contextlib.suppress(OSError):
                turn()


@contextlib.contextmanager
def running(act, port, *words):
    """A flood or a crowd in a process of its own, which has begun."""
    done, begun = multiprocessing.Event(), multiprocessing.Event()
    process = multiprocessing.Process(target=act, args=(port, done, begun, *words), daemon=True)
    process.start()
    try:
        if not begun.wait(120):
            raise Failure("a flood did not begin in 120 seconds")
        yield
    finally:
        done.set()
        process.join(20)
        if process.is_alive():
            process.kill()
            process.join()


@contextlib.contextmanager
def closing_flood(port, target, count):
    """So many connections that open, send a request and close without a pause. They are made by wrk
    where it is installed, and otherwise by a process of this script."""
    wrk = shutil.which("wrk")
    if not wrk:
        with running(open_and_ask, port, [request(target, "Connection: close")], count):
            yield
        return
    words = [wrk, "-t2", f"-c{count}", "-d120s", "--timeout", "60s", "-H", "Connection: close"]
    nowhere = {name: subprocess.DEVNULL for name in ("stdin", "stdout", "stderr")}
    child = subprocess.Popen([*words, f"http://{HOST}:{port}{target}"], **nowhere)
    try:
        yield
    finally:
        child.kill()
        child.wait()


def costly_streams(count):
    """1,000 costly requests for each of so many connections, in one piece."""
    return [b"".join(costly_heads(1_000, seed)) for seed in range(count)]


FLOODS = {
    "none": lambda port, target: contextlib.nullcontext(),
    "256 that open, ask and close": lambda port, target: closing_flood(port, target, 256),
    "64 that send 1,000 requests at once": lambda port, target: running(
        send_all, port, [request(target) * 1_000] * 64, True
    ),
    "10,000 idle and 500 slow": lambda port, target: running(stay, port, target, 10_000, 500),
}
COSTLY = {
    "256 that open, send a costly one and close": lambda port, _: running(
        open_and_ask, port, list(costly_heads(20_000, 1)), 256
    ),
    "64 that send 1,000 costly ones at once": lambda port, _: running(
        send_all, port, costly_streams(64), True
    ),
    "20 that send 1,000 costly ones once": lambda port, _: running(send_all, port, costly_streams(20)),
}
# The columns of the tables of floods: what two good clients saw, in milliseconds.
OF_FLOODS = (
    "Flood", "Server", "Kept: median, 99th, longest", "Failed",
    "New: median, 99th, longest", "Failed", "MiB",
)
OF_READERS = (
    "Readers", "Taken first", "Workers", "Still open", "Most MiB",
    "New: median, 99th, longest", "Failed",
)
OF_BACKLOG = ("Connections at once", "Server", "Opened", "Longest, ms", "Over half a second")
OF_MARKS = ("Mark", "Seen", "Met")

# The marks, in milliseconds, KiB and as a multiple of nginx.
LONGEST, LATE_BESIDE_COSTLY, TIMES_NGINX = 100, 50, 2
MOST_OF_ONE_WORKER, MOST_OF_ANOTHER = 100_000, 70_000


class Bench:
    def __init__(self, words):
        self.folder, self.program = os.path.abspath(words.folder), os.path.abspath(words.program)
        self.count, self.seconds, self.faults = words.count, words.seconds, 0
        self.page, self.lines, self.marks = words.page, [], []

    # -- tables

    def row(self, *columns):
        """Prints a row of the current table, and keeps it for the page."""
        self.lines.append(f"| {' | '.join(map(str, columns))} |")
        print(self.lines[-1], flush=True)

    def table(self, columns):
        self.lines = []
        self.row(*columns)
        self.lines.append("|---" * len(columns) + "|")
        print(self.lines[-1], flush=True)

    def fill_page(self, part):
        """Writes the table that was printed last into the page, between the part's marks."""
        if not self.page or not self.lines:
            return
        with open(self.page, encoding="utf-8") as file:
            text = file.read()
        begin = f"<!-- {part} -->\n"
        front, found, rest = text.partition(begin)
        _, ended, after = rest.partition("<!-- end -->")
        if not found or not ended:
            self.fault(f"{self.page} has no place for the part {part}")
            return
        table = "\n".join(self.lines)
        with open(self.page, "w", encoding="utf-8") as file:
            file.write(f"{front}{begin}\n{table}\n\n{ended}{after}")

    def mark(self, name, seen, is_met):
        self.marks.append((name, seen, "yes" if is_met else "NO"))

    def print_marks(self):
        if self.marks:
            print()
            self.table(OF_MARKS)
            for mark in self.marks:
                self.row(*mark)

    def served(self, folders=None, workers=2, by=()):
        return Served(folders or [self.folder], workers=workers, program=self.program, by=by)

    def fault(self, what):
        self.faults += 1
        print(f"\nWRONG: {what}\n", flush=True)

    def is_well(self, server, whole, what):
        """A new client gets the whole list, the console knows its token, and there was no error."""
        try:
            with Client(server.port, timeout=60) as client:
                same("the list", client.ask(ZONES, timeout=60).body, whole)
            same("status", server.say("status").split(" ")[1], server.token)
            same("the end", server.quit(), 0)
            same("standard error", server.errors, b"")
        except (Failure, OSError) as fault:
            self.fault(f"{what}: {fault}")

    # -- clients

    def clients(self):
        print("| Clients | Connections | Seconds | Requests of a good client | 50th, ms | 99th, ms | Resident, KiB | Descriptors | after |")
        print("|---|---|---|---|---|---|---|---|---|")
        self.attack("none", lambda port: time.sleep(5) or 0)
        for name, kind in SHORT.items():
            self.attack(name, lambda port: misbehave(port, kind, self.count, self.seconds))
        for name, kind in LONG_LIVED.items():
            self.attack(name, lambda port: keep(port, kind, 500, 20))

    def attack(self, name, act):
        with self.served() as server:
            with Client(server.port) as client:
                whole = client.ask(ZONES).body
            before = descriptors(server.pid)
            good, begin = Good(server.port), time.monotonic()
            made = act(server.port)
            took = time.monotonic() - begin
            asked, middle, late, faults = good.end()
            memory, most = status_of(server.pid, "VmRSS"), descriptors(server.pid)
            until = time.monotonic() + 90
            while descriptors(server.pid) > before and time.monotonic() < until:
                time.sleep(0.2)
            after = descriptors(server.pid)
            if faults:
                self.fault(f"{name}: the good client had {len(faults)} failures: {faults[0]}")
            if after > before:
                self.fault(f"{name}: {after} descriptors are open, and {before} were")
            self.is_well(server, whole, name)
            print(f"| {name} | {made} | {took:.1f} | {asked} | {middle * 1000:.2f} | {late * 1000:.2f} | {memory} | {most} | {after} |", flush=True)

    # -- floods

    def beside(self, name, server, port, pid, target, flood):
        """A row of what the two good clients saw beside a flood."""
        with flood:
            good = Watched(port, target)
            time.sleep(BESIDE_SECONDS)
            seen = good.end()
        memory = f"{status_of(pid, 'VmRSS') // 1024}" if pid else "-"
        self.row(name, server, seen[0].row(), seen[1].row(), memory)
        return seen

    def seen_beside(self, name, flood, asked=()):
        """What the good clients saw of a new server. The bodies that the requests in `asked` get
        are kept."""
        with self.served(workers=WORKERS) as server:
            act = flood(server.port, SEARCH)
            seen = self.beside(name, "tzdistd", server.port, server.pid, SEARCH, act)
            self.judge(name, seen)
            for one in asked:
                with Client(server.port, timeout=60) as client:
                    one.body = client.ask(one.target, timeout=60).body
            server.quit(60)
        return seen

    def floods(self):
        self.table(OF_FLOODS)
        times, resets, longest = 0.0, 0, 0.0
        for name, flood in FLOODS.items():
            asked = [Asked("search", SEARCH), Asked("list", ZONES)]
            seen = self.seen_beside(name, flood, asked)
            resets += sum(len(one.faults) for one in seen)
            longest = max([longest, *(one.longest for one in seen)])
            if shutil.which("nginx"):
                theirs = self.beside_nginx(name, flood, asked)
                times = max([times, *(own.late / of.late for own, of in zip(seen, theirs))])
        self.mark("floods: failures of a good client", resets, resets == 0)
        self.mark(f"floods: longest wait, at most {LONGEST} ms", f"{longest:.1f}", longest <= LONGEST)
        if times:
            name = f"floods: 99th percentile, at most {TIMES_NGINX} times nginx's"
            self.mark(name, f"{times:.2f}", times <= TIMES_NGINX)

    def beside_nginx(self, name, flood, asked):
        """The same of nginx, with files of the same bodies. Slow clients request the list by its
        path."""
        search, listing = asked
        with Nginx("nginx", [search], WORKERS) as site:
            site.put(listing.target, listing.body)
            target = site.asked(0, search).target
            return self.beside(name, "nginx", site.port, None, target, flood(site.port, target))

    def judge(self, name, seen):
        for times, kind in zip(seen, ("kept", "new")):
            if times.faults:
                count, first = len(times.faults), times.faults[0]
                self.fault(f"{name}: the good client ({kind}) had {count} failures: {first}")

    def costly(self):
        self.table(OF_FLOODS)
        resets, late, longest = 0, 0.0, 0.0
        for name, flood in COSTLY.items():
            seen = self.seen_beside(name, flood)
            resets += sum(len(one.faults) for one in seen)
            late = max([late, *(one.late for one in seen)])
            longest = max([longest, *(one.longest for one in seen)])
        self.mark("costly requests: failures of a good client", resets, resets == 0)
        name = f"costly requests: 99th percentile, at most {LATE_BESIDE_COSTLY} ms"
        self.mark(name, f"{late:.1f}", late <= LATE_BESIDE_COSTLY)
        name = f"costly requests: longest wait, at most {LONGEST} ms"
        self.mark(name, f"{longest:.1f}", longest <= LONGEST)

    # -- memory

    def memory(self):
        self.table(OF_READERS)
        for workers, part in ((1, 0.0), (WORKERS, 0.0), (1, 0.9)):
            with self.served(workers=workers) as server:
                self.sipped(server, workers, part)
                server.quit(60)

    def sipped(self, server, workers, part):
        """600 readers of 1.5 MB each take this part of it, and then 500 bytes a second."""
        heads = [head.replace(b"HEAD", b"GET", 1) for head in costly_heads(600, 2)]
        peers, most, before = [], 0, descriptors(server.pid)
        good = Watched(server.port, SEARCH)
        for head in heads:
            peers.append(small_window(server.port))
            peers[-1].sendall(head)
            self.take(peers[-1], int(part * 1_500_000))
            most = max(most, status_of(server.pid, "VmRSS"))
        for _ in range(5):
            for peer in peers:
                self.take(peer, 500)
            most = max(most, status_of(server.pid, "VmRSS"))
            time.sleep(1)
        left = descriptors(server.pid) - before
        seen = good.end()
        for peer in peers:
            peer.close()
        self.judge(f"600 readers, {workers} workers", seen)
        self.row(600, f"{part:.0%}", workers, left, f"{most / 1024:.0f}", seen[1].row())
        limit = MOST_OF_ONE_WORKER + (workers - 1) * MOST_OF_ANOTHER
        name = f"600 readers, {workers} workers, {part:.0%} taken: resident, at most {limit // 1024} MiB"
        self.mark(name, f"{most / 1024:.0f}", most <= limit)
        if most > limit:
            self.fault(f"600 readers of {workers} workers: {most} KiB were resident")

    @staticmethod
    def take(peer, count):
        """Takes so many bytes of a reply, or those that arrive. The server may have ended it."""
        peer.settimeout(2)
        with contextlib.suppress(OSError):
            while count > 0 and (piece := peer.recv(min(count, 1 << 16))):
                count -= len(piece)

    # -- backlog

    def backlog(self):
        self.table(OF_BACKLOG)
        with self.served(workers=WORKERS) as server:
            late = self.opened_at_once(server.port, "tzdistd", 2_000)
            self.mark("2,000 connections at once: over half a second", late, late == 0)
            if late:
                self.fault(f"{late} of 2,000 connections waited for half a second")
            server.quit(60)
        if shutil.which("nginx"):
            with Nginx("nginx", [Asked("nothing", "/")], WORKERS) as site:
                self.opened_at_once(site.port, "nginx", 2_000)

    def opened_at_once(self, port, name, count):
        """Opens so many connections at once, and returns how many waited for half a second."""
        poll, peers, waits = select.epoll(), {}, []

        def gather(seconds):
            for descriptor, _ in poll.poll(seconds):
                waits.append(time.monotonic() - peers[descriptor][1])

        begin = time.monotonic()
        for _ in range(count):
            peer = socket.socket()
            peer.setblocking(False)
            peers[peer.fileno()] = (peer, time.monotonic())
            peer.connect_ex((HOST, port))
            poll.register(peer, select.EPOLLOUT | select.EPOLLONESHOT)
            gather(0)
        while len(waits) < count and time.monotonic() < begin + 20:
            gather(0.1)
        for peer, _ in peers.values():
            peer.close()
        late = sum(wait >= 0.5 for wait in waits) + count - len(waits)
        longest = f"{max(waits, default=0) * 1e3:.1f}"
        self.row(count, name, len(waits), longest, late)
        return late

    # -- descriptors

    def descriptors(self):
        print("| Descriptors | Workers | Connections tried | Answered while they were there | Answered when they were gone |")
        print("|---|---|---|---|---|")
        for workers in (1, 4):
            with self.served(["data/a"], workers, ["sh", "-c", 'ulimit -n 64; exec "$@"', "sh"]) as server:
                peers, answered = [], 0
                for _ in range(300):
                    try:
                        peers.append(Client(server.port, timeout=1))
                        peers[-1].send(request(ZONES))
                        answered += peers[-1].reply(timeout=1).status == 200
                    except (OSError, Failure):
                        pass
                for peer in peers:
                    peer.close()
                later = 0
                for _ in range(100):
                    with Client(server.port, timeout=60) as client:
                        later += client.ask(ZONES, timeout=60).status == 200
                if later < 100:
                    self.fault(f"{later} of 100 were answered once descriptors were free")
                self.is_well_again(server)
                print(f"| 64 | {workers} | 300 | {answered} | {later} of 100 |", flush=True)

    def is_well_again(self, server):
        try:
            same("status", server.say("status").split(" ")[1], server.token)
            same("the end", server.quit(), 0)
        except Failure as fault:
            self.fault(f"descriptors: {fault}")

    # -- address space

    def space(self):
        """The smallest address space with which a server starts, in steps of 1,024 KiB. From there
        on, steps of 256 KiB until nothing is refused."""
        print("| Address space, KiB | Began | Requests | Answered | 503 | Ended | Installs | Status |")
        print("|---|---|---|---|---|---|---|---|")
        kib = 2_048
        while not self.tell_space(kib, self.in_space(kib))["began"]:
            kib += 1_024
            if kib > 400_000:
                self.fault("no address space was enough")
                return
        kib -= 1_024
        while not self.tell_space(kib, self.in_space(kib))["well"]:
            kib += 256

    @staticmethod
    def tell_space(kib, seen):
        began = "yes" if seen["began"] else "no"
        told = [seen[name] for name in ("asked", "answered", "503", "ended", "installs", "status")]
        print("| " + " | ".join(map(str, [f"{kib:,}", began, *told])) + " |", flush=True)
        return seen

    def in_space(self, kib):
        seen = collections.defaultdict(int, began=False, installs="", status="", well=False)
        by = ["sh", "-c", f'ulimit -v {kib}; exec "$@"', "sh"]
        try:
            server = self.served(by=by)
        except Failure:
            status, output, errors = self.alone(by)
            seen["status"] = status
            # the system reports 126 or 127 for a program that it has no memory to load
            if status not in (5, 6, 70, 126, 127) or output:
                self.fault(f"{kib} KiB: status {status}, {output!r}, {errors!r} at the start")
            return seen
        with server:
            seen["began"] = True
            targets = [ZONES, f"{ZONES}/America%2FNew_York", f"{ZONES}?pattern=*a*", "/tzdist/capabilities"]
            said = []
            for turn in range(40):
                self.ask_in_space(server, targets[turn % 4], seen)
                if turn % 10 == 9 and server.child.poll() is None:
                    said.append(server.say(f"install {self.folder}").split(" ")[0:2])
            seen["installs"] = ", ".join(" ".join(word).split("-")[0] for word in said)
            for word in said:
                if word[0] != "installed" and word != ["no", "memory"]:
                    self.fault(f"{kib} KiB: install said {' '.join(word)}")
            try:
                seen["status"] = server.quit() if server.child.poll() is None else server.ended()[0]
            except Failure as fault:
                self.fault(f"{kib} KiB: {fault}")
            if seen["status"] not in (0, 70):
                self.fault(f"{kib} KiB: status {seen['status']}, {server.errors!r}")
            seen["well"] = seen["answered"] == 40 and seen["status"] == 0 and all(word[0] == "installed" for word in said)
        return seen

    def alone(self, by):
        child = subprocess.run(
            [*by, self.program, "serve", "127.0.0.1:0", "2", self.folder], cwd=DATA, stdin=subprocess.DEVNULL, capture_output=True, timeout=60
        )
        return child.returncode, child.stdout, child.stderr

    def ask_in_space(self, server, target, seen):
        seen["asked"] += 1
        try:
            with Client(server.port, timeout=20) as client:
                status = client.ask(target, timeout=20).status
        except (Failure, OSError):
            seen["ended"] += 1
            return
        if status == 200:
            seen["answered"] += 1
        elif status == 503:
            seen["503"] += 1
        else:
            self.fault(f"{target} was answered {status}")

    # -- upstreams

    def upstreams(self):
        print("| The other server | A first sync | Seconds | A sync of a console | Seconds | Served after it |")
        print("|---|---|---|---|---|---|")
        t = test_mirror
        whole = t.listing("t", ("Test/One",))
        kinds = {
            "resets": lambda fake, peer, *_: t.resets(fake, peer),
            "resets inside its answer": lambda fake, peer, *_: t.resets_inside(fake, peer),
            "ends without a byte": lambda fake, peer, *_: t.ends(fake, peer),
            "says nothing": lambda fake, peer, *_: t.hangs(fake, peer),
            "stops inside its answer": lambda fake, peer, *_: t.stops(fake, peer),
            "a byte a second": lambda fake, peer, *_: t.drips(fake, peer),
            "answers without end": lambda fake, peer, *_: t.floods(fake, peer),
            "is cut in its head": t.just(whole[:30]),
            "is cut in its body": t.just(whole[:-3]),
            "no HTTP": t.just(b"\x16\x03\x01 hello\r\n\r\n"),
            "another document": t.just(t.reply(b'{"synctoken":1,"timezones":{}}')),
            "status 500": t.just(t.reply(b"", status="500 Oops")),
            "a zone that changes for ever": self.restless,
            "a file that is none": self.one_zone(t.reply(b"TZif, almost")),
            "a zone without its file": self.one_zone(t.reply(b"", status="404 Not Found")),
        }
        for name, kind in kinds.items():
            self.follow(name, kind)

    @staticmethod
    def one_zone(answer):
        """A server of one zone, whose file gets this answer. To a client that has the zone, it
        reports that the zone changed."""
        listed = test_mirror.listing("u", ("Test/One",))
        settled = test_mirror.listing("u")
        return test_mirror.Answers(
            **{
                ZONES: listed,
                f"{ZONES}?changedsince=t": listed,
                f"{ZONES}?changedsince=u": settled,
                f"{ZONES}/Test%2FOne": answer,
            }
        )

    @staticmethod
    def behaves(fake, peer, target):
        """Answers as a server of one zone whose token is t. For any other token it reports that the
        zone changed."""
        if target.startswith(f"{ZONES}/"):
            peer.sendall(test_mirror.reply(test_mirror.slim_zone(1)))
        elif target.endswith("changedsince=t"):
            peer.sendall(test_mirror.listing("t"))
        else:
            peer.sendall(test_mirror.listing("t", ("Test/One",)))

    @staticmethod
    def restless(fake, peer, target):
        if target.startswith(f"{ZONES}/"):
            peer.sendall(test_mirror.reply(test_mirror.slim_zone(1)))
        else:
            peer.sendall(test_mirror.listing(f"t{len(fake.requests)}", ("Test/One",)))

    def follow(self, name, kind):
        """A first sync with such a server ends with status 2 or 7 and a line that says why. A sync
        of a mirror that already serves says why, and does not change what is served."""
        with test_mirror.Fake(kind) as fake:
            begin = time.monotonic()
            status, output, errors = ran(self.program, "mirror", "127.0.0.1:0", "1", fake.address, timeout=200)
            first = time.monotonic() - begin
        if status not in (2, 7) or not output.startswith(b"refused ") or output.count(b"\n") != 1:
            self.fault(f"{name}: a first sync ended with {status}, {output!r}, {errors!r}")
        says = output.decode().strip()
        with test_mirror.Fake(self.behaves) as fake, Mirror(fake.address, workers=1, program=self.program) as mirror:
            with Client(mirror.port) as client:
                whole = client.ask(ZONES).body
            fake.treat = kind
            begin = time.monotonic()
            said = mirror.say("sync", timeout=200)
            second = time.monotonic() - begin
            if not said.startswith("refused "):
                self.fault(f"{name}: a sync was answered {said!r}")
            with Client(mirror.port, timeout=60) as client:
                kept = client.ask(ZONES, timeout=60).body == whole
            if not kept:
                self.fault(f"{name}: what is served changed")
            fake.treat = self.behaves
            again = mirror.say("sync", timeout=60)
            if mirror.quit() != 0:
                self.fault(f"{name}: the mirror did not end well")
        print(f"| {name} | `{says}`, status {status} | {first:.1f} | `{said}` | {second:.1f} | {'the same' if kept else 'CHANGED'}; then `{again.split('-')[0]}` |", flush=True)


def main():
    parser = parser_of(__doc__, PARTS)
    parser.add_argument("--count", type=int, default=10_000, help="connections of each kind that ends")
    parser.add_argument("--seconds", type=int, default=120, help="for each kind at most")
    parser.add_argument("--page", help="a page whose tables get these figures")
    words = parser.parse_args()
    parts = parts_of(words, PARTS)
    hard = resource.getrlimit(resource.RLIMIT_NOFILE)[1]
    resource.setrlimit(resource.RLIMIT_NOFILE, (hard, hard))
    bench = Bench(words)
    for number, part in enumerate(parts):
        if number:
            print()
        bench.lines = []
        getattr(bench, part)()
        if bench.lines:
            bench.fill_page(part)
    bench.print_marks()
    print(f"\n{bench.faults} wrong" if bench.faults else "\nnothing was wrong")
    return 1 if bench.faults else 0


if __name__ == "__main__":
    sys.exit(main())
