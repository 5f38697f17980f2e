#!/usr/bin/env python3
"""Measures `tzdistd serve` as it is built, over a release folder.

    bench/serve.py RELEASE_DIR [--program PATH] [--beside PATH] [--only PART,..] [--seconds N]
                   [--rounds N] [--installs N] [--idle N] [--slow N] [--zone TZID] [--no-nginx]
                   [--no-limit] [--no-wrk]

    example: bench/serve.py release --only rates --seconds 1 --rounds 3

The parts:

    rates    requests a second and processor microseconds a request over kept connections. There are
             1, 2 and 4 workers with as many connections, and 4 workers with 64 connections. The
             program at --beside takes turns with this, over as many connections as it has workers.
             nginx serves files of the same bodies by as many processes, at the better of as many
             and eight times as many connections. bench/limit.c, a C program, only receives a head
             and sends the bytes of the reply, by as many processes and over as many connections.
    opened   connections that are opened for one request each and closed, in turn with the program
             at --beside, and then those of nginx, each with 4 workers
    crowd    --idle connections that are idle, half after one request, and --slow ones that send or
             read a byte a second or read nothing. It prints how soon a good client of 4 workers has
             its replies with and without them. It also prints the memory of an idle one, and the
             processor time that they cost.
    installs the 99th percentile of the time to a reply, with releases installed in a loop and
             without
    memory   resident memory over many installs of two releases that take turns
    kept     resident memory of 64 workers before they have answered, and once each keeps the full
             list and the whole calendars of 64 zones
    changes  lists of changes after 0, 1, 50 and 447 zones changed, over the release and over one of
             4,096 zones
    limits   a release at all limits, 256 MiB of zone files: the time until it is served, and the
             most memory
    rules    installs with both rules and without: where nothing changed, where only the bytes of
             all zones changed, and where their local times changed, too. For the second, zic makes
             another form of the same files.
    idle     200 connections that send one request and stay, and the time of a new client
    delay    replies on one connection that come later than 5 ms
    peers    memory and descriptors before and after 10,000 connections of peers that misbehave

The program at --beside is one that was built before and kept, to be measured in the same run. The
part crowd needs some more descriptors than connections, and takes what the system allows.

Requests come from `wrk` where it is installed, and otherwise from processes of this script. nginx
is used where it is installed, and bench/limit.c where there is a C compiler as `cc`. Everything is
on the loopback, every loop is bounded in count and time, and what is started ends with the script.
It is run by hand on an idle machine, and is no part of the gate.
"""

import argparse
import json
import multiprocessing
import os
import random
import re
import resource
import select
import shutil
import signal
import socket
import statistics
import struct
import subprocess
import sys
import tempfile
import threading
import time
from urllib.parse import quote

sys.dont_write_bytecode = True
sys.path.insert(0, os.path.join(os.path.dirname(os.path.dirname(os.path.abspath(__file__))), "tools"))

from served import HOST, PROGRAM, Client, Failure, Served, free_port, request, slim_zone

YEAR = "start=2025-01-01T00:00:00Z&end=2026-01-01T00:00:00Z"
TICKS = os.sysconf("SC_CLK_TCK")
LIMIT = os.path.join(os.path.dirname(os.path.abspath(__file__)), "limit.c")


# --- what is requested -------------------------------------------------------------------------


class Asked:
    """A request that is measured, with the body that it gets."""

    def __init__(self, name, target, fields=(), status=200):
        self.name, self.target, self.fields, self.status = name, target, list(fields), status
        self.body = self.reply = b""

    @property
    def bytes(self):
        return request(self.target, *self.fields)


def requests_of(port, zone):
    """The zone and the requests that are measured, over the release that is served."""
    with Client(port) as client:
        listing = json.loads(client.ask("/tzdist/zones").body)
        names = [item["tzid"] for item in listing["timezones"]]
        if zone is None:
            zone = "America/New_York" if "America/New_York" in names else names[0]
        path = "/tzdist/zones/" + quote(zone, safe="")
        tag = client.ask(path, "Accept: application/tzif").fields["ETag"]
        token = quote(listing["synctoken"], safe="")
        asked = [
            Asked("full list", "/tzdist/zones"),
            Asked("get as calendar, a year", f"{path}?{YEAR}"),
            Asked("get as TZif", path, ["Accept: application/tzif"]),
            Asked("get with its tag", path, ["Accept: application/tzif", f"If-None-Match: {tag}"], 304),
            Asked("expand, a year", f"{path}/observances?{YEAR}"),
            Asked("find `*york`", "/tzdist/zones?pattern=*york"),
            Asked("change list", f"/tzdist/zones?changedsince={token}"),
            Asked("get as JSON, a year", f"{path}?{YEAR}", ["Accept: application/calendar+json"]),
            Asked("capabilities", "/tzdist/capabilities"),
        ]
        for one in asked:
            reply = client.ask(one.target, *one.fields)
            if reply.status != one.status:
                raise Failure(f"{one.name} was answered {reply.status}")
            one.body = reply.body
            one.reply = reply.head + b"\r\n\r\n" + reply.body
            one.size = len(one.reply)
    return zone, len(names), asked


# --- driving -----------------------------------------------------------------------------------


class Driven:
    """The result of requests for a while: their count, seconds, and percentiles in milliseconds."""

    def __init__(self, count, seconds, middle, late, faults):
        self.count, self.seconds, self.middle, self.late = count, seconds, middle, late
        self.rate = count / seconds
        self.faults = faults


UNITS = {"us": 1e-3, "ms": 1, "s": 1e3, "m": 6e4}


def by_wrk(wrk, port, asked, connections, seconds, scheme="http"):
    # no more threads than processors: one that waits for a processor would count as one that waits
    # for a reply
    threads = min(connections, 2, len(os.sched_getaffinity(0)))
    words = [wrk, f"-t{threads}", f"-c{connections}", f"-d{seconds}s", "--latency"]
    for field in asked.fields:
        words += ["-H", field]
    words.append(f"{scheme}://{HOST}:{port}{asked.target}")
    text = subprocess.run(words, capture_output=True, text=True, timeout=seconds + 60, check=True).stdout

    def percentile(part):
        found = re.search(rf"^\s+{part}%\s+([0-9.]+)(us|ms|s|m)$", text, re.M)
        # if no request got its reply there is none
        return float(found[1]) * UNITS[found[2]] if found else 0.0

    count, took, unit = re.search(r"(\d+) requests in ([0-9.]+)(us|ms|s|m),", text).groups()
    faults = sum(map(int, re.findall(r"(?:connect|read|write|timeout) (\d+)", text)))
    faults += sum(map(int, re.findall(r"Non-2xx or 3xx responses: (\d+)", text)))
    return Driven(int(count), float(took) * UNITS[unit] / 1e3, percentile(50), percentile(99), faults)


def keep_asking(words):
    """One process of the script's own client: the times to its replies, and its faults."""
    port, stream, seconds = words
    times, faults = [], 0
    end = time.monotonic() + seconds
    client = None
    while (begin := time.monotonic()) < end:
        try:
            client = client or Client(port)
            client.send(stream)
            reply = client.reply()
        except (OSError, Failure):
            faults, client = faults + 1, None
            continue
        times.append(time.monotonic() - begin)
        faults += reply.status >= 400
        if reply.closes:
            client.close()
            client = None
    return times, faults


def by_processes(_, port, asked, connections, seconds):
    begin = time.monotonic()
    with multiprocessing.get_context("fork").Pool(connections) as pool:
        each = pool.map_async(keep_asking, [(port, asked.bytes, seconds)] * connections)
        each = each.get(timeout=seconds + 60)
    took = time.monotonic() - begin
    times = sorted(it for one, _ in each for it in one) or [0.0]
    late = times[min(len(times) - 1, len(times) * 99 // 100)]
    faults = sum(it for _, it in each)
    return Driven(len(times), took, statistics.median(times) * 1e3, late * 1e3, faults)


def processor_seconds(pids):
    """The processor time of processes, of user and system."""
    ticks = 0
    for pid in pids:
        with open(f"/proc/{pid}/stat") as line:
            fields = line.read().rpartition(")")[2].split()
        ticks += int(fields[11]) + int(fields[12])
    return ticks / TICKS


def children_of(pid):
    """The processes that a process started."""
    words = ["ps", "-o", "pid=", "--ppid", str(pid)]
    return [int(it) for it in subprocess.run(words, capture_output=True, text=True, check=True).stdout.split()]


def status_of(pid, name):
    """A number of a process's status, such as its memory in KiB."""
    with open(f"/proc/{pid}/status") as lines:
        return next(int(line.split()[1]) for line in lines if line.startswith(name + ":"))


def descriptors(pid):
    return len(os.listdir(f"/proc/{pid}/fd"))


# --- nginx -------------------------------------------------------------------------------------

SITE = """
daemon off;
worker_processes {workers};
pid {at}/pid;
error_log {at}/errors;
events {{ worker_connections 512; }}
http {{
    access_log off;
    keepalive_requests 1000;
    sendfile on;
    client_body_temp_path {at}/t1;
    proxy_temp_path {at}/t2;
    fastcgi_temp_path {at}/t3;
    uwsgi_temp_path {at}/t4;
    scgi_temp_path {at}/t5;
    server {{ listen {host}:{port}; root {at}/files; }}
}}
"""


# --- releases that are made --------------------------------------------------------------------


def put_file(path, data):
    """Writes a file again, also one that was copied without permission to write."""
    if os.path.exists(path):
        os.chmod(path, 0o644)
    with open(path, "wb") as out:
        out.write(data)


def made_release(folder, zones, names, data):
    """A release of so many zones and names in all, each zone with a file of its own."""
    os.makedirs(folder)
    listed = []
    for zone in range(zones):
        aliases = [f"Alias/{name}" for name in range(zone, names - zones, zones)]
        listed.append({"tzid": f"Made/{zone}", "file": f"zone-{zone}", "aliases": aliases})
        put_file(os.path.join(folder, f"zone-{zone}"), data)
    manifest = {"publisher": "Made", "version": "1", "stamp": "2025-01-01T00:00:00Z", "zones": listed}
    put_file(os.path.join(folder, "manifest.json"), json.dumps(manifest).encode())
    return folder


def largest_zone(size=65_536, count=4096):
    """A TZif file of so many bytes and transitions. The last leads to what its footer says."""
    letters = b"+01\0+02\0"
    moments = struct.pack(f">{count}q", *(86_400 * (number - count) for number in range(count)))
    numbers = bytes((number + 1) % 2 for number in range(count))
    kinds = struct.pack(">iBBiBB", 3600, 0, 0, 7200, 0, 4)
    second, footer = moments + numbers + kinds + letters, b"\n<+01>-1\n"

    def header(times, types, size):
        return b"TZif2" + bytes(15) + struct.pack(">6I", 0, 0, 0, times, types, size)

    # the first block is not read, so it gives the file its size
    filled = size - 2 * len(header(0, 0, 0)) - 6 - len(second) - len(footer)
    return header(0, 1, filled) + bytes(6 + filled) + header(count, 2, len(letters)) + second + footer


class Nginx:
    """nginx over files with the bodies of requests, by so many worker processes."""

    def __init__(self, nginx, asked, workers):
        self.room = tempfile.TemporaryDirectory()
        at = self.room.name
        os.mkdir(f"{at}/files")
        for number, one in enumerate(asked):
            with open(f"{at}/files/{number}", "wb") as file:
                file.write(one.body or b"x" * 1000)
        for folder in (at, f"{at}/files"):
            os.chmod(folder, 0o755)
        self.port = free_port()
        with open(f"{at}/conf", "w") as file:
            file.write(SITE.format(workers=workers, at=at, host=HOST, port=self.port))
        self.child = subprocess.Popen(
            [nginx, "-p", at, "-c", f"{at}/conf", "-e", f"{at}/errors"],
            stdin=subprocess.DEVNULL, stdout=subprocess.DEVNULL, stderr=subprocess.DEVNULL,
        )
        for _ in range(100):
            try:
                Client(self.port).close()
                break
            except OSError:
                time.sleep(0.1)
        else:
            self.close()
            raise Failure("nginx does not listen")

    def put(self, path, body):
        """Serves a body at a path of tzdistd, so that clients request the same of both servers."""
        at = f"{self.room.name}/files{path}"
        os.makedirs(os.path.dirname(at), mode=0o755, exist_ok=True)
        with open(at, "wb") as file:
            file.write(body)

    def asked(self, number, one):
        """The request for a file, with its tag if none of its bytes are wanted."""
        same = Asked(one.name, f"/{number}", [], one.status)
        if one.status == 304:
            with Client(self.port) as client:
                same.fields = [f"If-None-Match: {client.ask(same.target).fields['ETag']}"]
        return same

    def processes(self):
        return children_of(self.child.pid)

    def close(self):
        self.child.send_signal(signal.SIGTERM)
        try:
            self.child.wait(10)
        except subprocess.TimeoutExpired:
            self.child.kill()
            self.child.wait()
        self.room.cleanup()

    def __enter__(self):
        return self

    def __exit__(self, *_):
        self.close()


class Limit:
    """bench/limit.c, built for this run. It sends the replies of requests by so many processes."""

    def __init__(self, asked, workers):
        self.room = tempfile.TemporaryDirectory()
        at = self.room.name
        built = subprocess.run(["cc", "-O2", "-o", f"{at}/limit", LIMIT], capture_output=True, text=True)
        if built.returncode != 0:
            self.room.cleanup()
            raise Failure(f"cc does not build {LIMIT}: {built.stderr.strip()[-500:]}")
        for number, one in enumerate(asked):
            put_file(f"{at}/{number}", one.reply)
        self.port = free_port()
        words = [f"{at}/limit", str(self.port), str(workers), *(f"{at}/{number}" for number in range(len(asked)))]
        nowhere = {name: subprocess.DEVNULL for name in ("stdin", "stdout")}
        self.child = subprocess.Popen(words, stderr=subprocess.PIPE, **nowhere)
        for _ in range(100):
            try:
                Client(self.port).close()
                return
            except OSError:
                time.sleep(0.05)
        self.close()
        raise Failure("the program of bench/limit.c does not listen")

    def asked(self, number, one):
        """The same request by the number of its reply, as long as the one to tzdistd."""
        return Asked(one.name, f"/{number}{one.target}", list(one.fields), one.status)

    def processes(self):
        return children_of(self.child.pid)

    def close(self):
        for pid in self.processes():
            os.kill(pid, signal.SIGKILL)
        self.child.kill()
        self.child.communicate()
        self.room.cleanup()

    def __enter__(self):
        return self

    def __exit__(self, *_):
        self.close()


# --- the parts ---------------------------------------------------------------------------------


class Bench:
    def __init__(self, words):
        self.words = words
        self.folder = os.path.abspath(words.folder)
        self.program = os.path.abspath(words.program)
        self.programs = {"this": self.program}
        if words.beside:
            self.programs["beside"] = os.path.abspath(words.beside)
        self.wrk = None if words.no_wrk else shutil.which("wrk")
        self.nginx = None if words.no_nginx else shutil.which("nginx")
        self.compiler = None if words.no_limit else shutil.which("cc")
        self.drive = by_wrk if self.wrk else by_processes
        with self.served([self.folder], 1) as server:
            self.zone, self.zones, self.asked = requests_of(server.port, words.zone)

    def served(self, folders, workers, program=None, **more):
        return Served(folders, workers, program=program or self.program, **more)

    def driven(self, port, asked, connections, seconds=None):
        return self.drive(self.wrk, port, asked, connections, seconds or self.words.seconds)

    def by_turns(self, workers, connections, asked, names):
        """For each request and program the median of rounds that take turns: requests a second,
        processor microseconds of each, and the `Driven`."""
        found = {}
        for turn in range(self.words.rounds):
            for name in names if turn % 2 == 0 else reversed(names):
                with self.served([self.folder], workers, self.programs[name]) as server:
                    for one in asked:
                        found.setdefault((one.name, name), []).append(self.once(server.port, [server.pid], one, connections))
                    server.quit()
        return {key: sorted(rows, key=lambda it: it[0])[len(rows) // 2] for key, rows in found.items()}

    def rates(self):
        print("| Request | Bytes | Workers | Connections | Requests a second | Processor microseconds | p99, ms "
              "| beside | its microseconds | of beside | nginx | its microseconds | of nginx "
              "| limit | its microseconds | of limit |")
        print("|---" * 16 + "|")
        names, others = list(self.programs), {}
        for workers, connections in ((1, 1), (2, 2), (4, 4), (4, 64)):
            # others get requests over as many connections as there are workers, and nginx also over
            # more
            alone = connections > workers
            rows = self.by_turns(workers, connections, self.asked, names[:1] if alone else names)
            if not alone:
                others = {key: row for key, row in rows.items() if key[1] != "this"}
                others.update(self.of_nginx(workers, (workers, 8 * workers), self.asked))
            others.update(self.of_limit(workers, connections))
            for one in self.asked:
                print(self.row(one, rows[one.name, "this"], others, workers, connections), flush=True)

    def row(self, one, this, others, workers, connections):
        rate, cost, driven = this
        cells = [one.name, one.size, workers, connections, f"{rate:.0f}", f"{cost:.1f}", f"{driven.late:.2f}"]
        if driven.faults:
            cells[4] += f" ({driven.faults} faults)"
        for name in ("beside", "nginx", "limit"):
            other = others.get((one.name, name))
            cells += [f"{other[0]:.0f}", f"{other[1]:.1f}", f"{rate / max(other[0], 1):.2f}"] if other else ["-"] * 3
        return f"| {' | '.join(map(str, cells))} |"

    def of_nginx(self, workers, counts, asked, closing=()):
        """For each request the median of rounds of nginx, at the better of these counts of
        connections."""
        found = {}
        if self.nginx:
            with Nginx(self.nginx, asked, workers) as site:
                for number, one in enumerate(asked):
                    same = site.asked(number, one)
                    same.fields += closing
                    found[one.name, "nginx"] = max(
                        (self.median(site.port, site.processes(), same, count) for count in counts), key=lambda it: it[0])
        return found

    def of_limit(self, workers, connections):
        """For each request the median of rounds of the C program that sends the same bytes."""
        if not self.compiler:
            return {}
        with Limit(self.asked, workers) as limit:
            pids = limit.processes()
            asked = [(one.name, limit.asked(number, one)) for number, one in enumerate(self.asked)]
            return {(name, "limit"): self.median(limit.port, pids, one, connections) for name, one in asked}

    def median(self, port, pids, asked, connections):
        """The median of rounds, by the rate."""
        rows = [self.once(port, pids, asked, connections) for _ in range(self.words.rounds)]
        return sorted(rows, key=lambda it: it[0])[len(rows) // 2]

    def once(self, port, pids, asked, connections):
        """Requests a second, processor microseconds of each, and the `Driven`."""
        before = processor_seconds(pids)
        driven = self.driven(port, asked, connections)
        return driven.rate, (processor_seconds(pids) - before) / max(driven.count, 1) * 1e6, driven

    def opened(self):
        workers, connections = 4, 8
        print("| Request | Bytes | Workers | Clients | Connections a second | Processor microseconds | p99, ms "
              "| beside | its microseconds | of beside | nginx | its microseconds | of nginx "
              "| limit | its microseconds | of limit |")
        print("|---" * 16 + "|")
        closing = ["Connection: close"]
        asked = [Asked(one.name, one.target, one.fields + closing, one.status) for one in self.asked]
        for one, kept in zip(asked, self.asked):
            one.body, one.size = kept.body, kept.size
        rows = self.by_turns(workers, connections, asked, list(self.programs))
        rows.update(self.of_nginx(workers, (connections,), asked, closing))
        for one in asked:
            print(self.row(one, rows[one.name, "this"], rows, workers, connections), flush=True)

    def crowd(self):
        idle, slow, workers = self.words.idle, self.words.slow, 4
        most = resource.getrlimit(resource.RLIMIT_NOFILE)[1]
        if most != resource.RLIM_INFINITY and most < idle + slow + 200:
            raise Failure(f"the system allows {most} descriptors: ask for fewer by --idle and --slow")
        resource.setrlimit(resource.RLIMIT_NOFILE, (most, most))
        with self.served([self.folder], workers) as server:
            path = f"/tzdist/zones?changedsince={server.token}"
            rows = [("alone", *self.good(server.port, path))]
            before = status_of(server.pid, "VmRSS")
            mine, theirs = multiprocessing.Pipe()
            child = multiprocessing.get_context("fork").Process(
                target=crowd, args=(server.port, path, idle, slow, theirs), daemon=True)
            child.start()
            came, answered = heard(mine)
            resting = status_of(server.pid, "VmRSS")
            quiet = self.share(server)
            mine.send("slow ones")
            slow = heard(mine)
            with_slow = status_of(server.pid, "VmRSS")
            # once all are connected, and before the server closes those that take nothing
            busy = self.share(server)
            mine.send("again and again")
            rows.append(("beside them", *self.good(server.port, path)))
            mine.send("end")
            stayed, replaced = heard(mine)
            child.join(30)
            print(f"{came} idle connections came, {answered} of {idle // 2} that asked were answered, and {stayed} stayed; "
                  f"{slow} slow ones came, and {replaced} times one that was given up came again.")
            print(f"Memory: {before} KiB before, {resting} with the idle ones, {(resting - before) / came:.2f} KiB each (at most 3); "
                  f"{with_slow} with the slow ones, too.")
            print(f"Processors: {quiet:.4f} with the idle ones alone (at most 0.01), {busy:.4f} with the slow ones, too.")
            print()
            print("| A good client | Kept: requests | p50, ms | p99, ms | Anew each: requests | p50, ms | p99, ms |")
            print("|---|---|---|---|---|---|---|")
            points = [[(len(it), it[len(it) // 2], it[len(it) * 99 // 100]) for it in times] for _, *times in rows]
            for (name, *_), both in zip(rows, points):
                print(f"| {name} | {' | '.join(f'{count} | {middle:.3f} | {late:.3f}' for count, middle, late in both)} |")
            ratios = [(with_[1] / alone[1], with_[2] / alone[2]) for alone, with_ in zip(*points)]
            print(f"| of alone (at most 2) | {' | '.join(f'- | {middle:.2f} | {late:.2f}' for middle, late in ratios)} |")
            server.quit(timeout=30)

    def share(self, server, seconds=5):
        """How many processors a server uses during so many seconds."""
        time.sleep(1)
        before, begin = processor_seconds([server.pid]), time.monotonic()
        time.sleep(seconds)
        return (processor_seconds([server.pid]) - before) / (time.monotonic() - begin)

    def good(self, port, path, seconds=10):
        """The times to the replies of a good client, sorted, in milliseconds: over one connection
        that is kept, and over one for each request."""
        kept, fresh = [], []
        end = time.monotonic() + seconds
        client = Client(port)
        while time.monotonic() < end:
            for _ in range(20):
                begin = time.perf_counter()
                reply = client.ask(path)
                kept.append((time.perf_counter() - begin) * 1e3)
                if reply.closes:
                    client = Client(port)
            begin = time.perf_counter()
            with Client(port) as other:
                other.ask(path, "Connection: close")
            fresh.append((time.perf_counter() - begin) * 1e3)
        client.close()
        return sorted(kept), sorted(fresh)

    def two_releases(self, room):
        """Two copies of the release that differ in a zone which is not requested."""
        with open(os.path.join(self.folder, "manifest.json"), encoding="utf-8") as file:
            zones = json.load(file)["zones"]
        file = next(zone["file"] for zone in reversed(zones) if zone["tzid"] != self.zone)
        folders = []
        for hours in (1, 2):
            folders.append(os.path.join(room, str(hours)))
            shutil.copytree(self.folder, folders[-1])
            put_file(os.path.join(folders[-1], file), slim_zone(hours))
        return folders

    def installs(self):
        print("| Request | p99 without installs, ms | p99 with installs, ms | Ratio | Installs a second | Requests a second without | with |")
        print("|---|---|---|---|---|---|---|")
        workers = 2
        with tempfile.TemporaryDirectory() as room:
            folders = self.two_releases(room)
            for one in self.asked:
                rows = []
                for _ in range(self.words.rounds):
                    with self.served(folders[:1], workers) as server:
                        alone = self.driven(server.port, one, workers)
                        count, beside = self.while_installing(server, folders, one, workers)
                        server.quit()
                    rows.append((alone.late, beside.late, count / beside.seconds, alone.rate, beside.rate))
                alone, beside, count, rate, busy = (statistics.median(column) for column in zip(*rows))
                print(f"| {one.name} | {alone:.2f} | {beside:.2f} | {beside / alone:.1f} | {count:.0f} | {rate:.0f} | {busy:.0f} |")

    def while_installing(self, server, folders, asked, workers):
        """How many releases were installed during requests, and the result of these."""
        done, said = threading.Event(), []

        def install():
            while not done.is_set():
                said.append(server.say(f"install {folders[(len(said) + 1) % 2]}"))

        installing = threading.Thread(target=install)
        installing.start()
        try:
            driven = self.driven(server.port, asked, workers)
        finally:
            done.set()
            installing.join(30)
        if not all(line.startswith("installed ") for line in said):
            raise Failure(f"an install was answered {said}")
        return len(said), driven

    def memory(self):
        wanted = self.words.installs
        marks = {0, 10, 100, 500, *range(1000, wanted, 1000), wanted}
        print("| Installs asked for | installed | Resident KiB | Descriptors | Seconds |")
        print("|---|---|---|---|---|")
        with tempfile.TemporaryDirectory() as room:
            folders = self.two_releases(room)
            with self.served(folders[:1], 2) as server:
                begin, installed = time.monotonic(), 0
                found = {}
                for number in range(wanted + 1):
                    if number:
                        said = server.say(f"install {folders[(installed + 1) % 2]}")
                        if not said.startswith("installed "):
                            raise Failure(f"an install was answered {said}")
                        installed += 1
                    if number % 10 == 0:
                        with Client(server.port) as client:
                            client.ask("/tzdist/zones", "Connection: close")
                    if number in marks:
                        found[number] = status_of(server.pid, "VmRSS")
                        print(f"| {number} | {installed} | {found[number]} | {descriptors(server.pid)} | {time.monotonic() - begin:.1f} |", flush=True)
                server.quit()
        if wanted > 100:
            print()
            print(f"From 100 installs to {wanted} memory grew by {found[wanted] - found[100]} KiB, {100 * found[wanted] / found[100] - 100:.0f} %.")

    def changes(self):
        print("| Zones | Changed | Bytes | Requests a second | Processor microseconds | p99, ms |")
        print("|---|---|---|---|---|---|")
        with tempfile.TemporaryDirectory() as room:
            made = made_release(os.path.join(room, "made"), 4096, 4096, slim_zone(1))
            for folder in (self.folder, made):
                with open(os.path.join(folder, "manifest.json"), encoding="utf-8") as file:
                    zones = json.load(file)["zones"]
                for count in (0, 1, 50, 447):
                    later = os.path.join(room, "later")
                    shutil.copytree(folder, later)
                    for number, zone in enumerate(zones[:count]):
                        put_file(os.path.join(later, zone["file"]), slim_zone(2 + number % 2))
                    with self.served([folder], 1) as server:
                        with Client(server.port) as client:
                            token = json.loads(client.ask("/tzdist/zones").body)["synctoken"]
                        said = server.say(f"install {later}")
                        if not said.startswith("installed "):
                            raise Failure(f"an install was answered {said}")
                        one = Asked("changes", f"/tzdist/zones?changedsince={token}")
                        with Client(server.port) as client:
                            told = json.loads(client.ask(one.target).body)["timezones"]
                        if len(told) != count:
                            raise Failure(f"{count} zones changed, and {len(told)} are told")
                        rate, cost, driven = self.median(server.port, [server.pid], one, 1)
                        with Client(server.port) as client:
                            size = len(client.ask(one.target).body)
                        server.quit()
                    print(f"| {len(zones)} | {count} | {size} | {rate:.0f} | {cost:.1f} | {driven.late:.2f} |", flush=True)
                    shutil.rmtree(later)

    def limits(self):
        with tempfile.TemporaryDirectory() as room:
            folder = made_release(os.path.join(room, "largest"), 4096, 16384, largest_zone())
            begin = time.monotonic()
            with self.served([folder], 1, within=300) as server:
                ready = time.monotonic() - begin
                before = status_of(server.pid, "VmHWM")
                begin = time.monotonic()
                said = server.say(f"install {folder}", timeout=300)
                took = time.monotonic() - begin
                after = status_of(server.pid, "VmHWM")
                server.quit()
            if not said.startswith("installed "):
                raise Failure(f"an install was answered {said}")
            print("A release of 4,096 zones, 16,384 names and files of 65,536 bytes: "
                  f"ready after {ready:.1f} s with at most {before} KiB; installed again in {took:.1f} s with at most {after} KiB.")

    def rules(self):
        print("| Install | Median, ms | with rules | Processor ms | with rules |")
        print("|---|---|---|---|---|")
        rules = ["--max-changed", "4096", "--no-past-change", "1800-01-01T00:00:00Z"]
        with tempfile.TemporaryDirectory() as room:
            for name, folders in self.changed_releases(room):
                # taking turns, so that other work of the machine affects both alike
                with self.served(folders[:1], 1) as plain, self.served([*rules, folders[0]], 1) as ruled:
                    took = {plain: [], ruled: []}
                    for number in range(50 * self.words.rounds):
                        for server, rows in took.items():
                            begin, before = time.monotonic(), processor_seconds([server.pid])
                            said = server.say(f"install {folders[(number + 1) % 2]}")
                            rows.append((time.monotonic() - begin, processor_seconds([server.pid]) - before))
                            if not said.startswith("installed "):
                                raise Failure(f"an install was answered {said}")
                    plain.quit()
                    ruled.quit()
                columns = [[1000 * it for it in column] for rows in took.values() for column in zip(*rows)]
                wall, cost, ruled_wall, ruled_cost = columns
                print(f"| {name} | {statistics.median(wall):.2f} | {statistics.median(ruled_wall):.2f} "
                      f"| {statistics.mean(cost):.2f} | {statistics.mean(ruled_cost):.2f} |", flush=True)

    def changed_releases(self, room):
        """For each kind of install its name and two releases that take turns."""
        yield "nothing changed", [self.folder, self.folder]
        with open(os.path.join(self.folder, "manifest.json"), encoding="utf-8") as file:
            zones = json.load(file)["zones"]
        source = "/usr/share/zoneinfo/tzdata.zi"
        if shutil.which("zic") and os.path.exists(source):
            other = os.path.join(room, "other")
            shutil.copytree(self.folder, other)
            tree = os.path.join(room, "tree")
            subprocess.run(["zic", "-b", "slim", "-d", tree, source], check=True)
            for zone in zones:
                shutil.copyfile(os.path.join(tree, zone["tzid"]), os.path.join(other, zone["file"]))
            kept = 0
            while found := re.match(rb"refused \d+ \w+ (\d+)\n", subprocess.run([self.program, "check", other], capture_output=True).stdout):
                # an old zic writes some files in a form that is refused
                file = zones[int(found[1])]["file"]
                shutil.copyfile(os.path.join(self.folder, file), os.path.join(other, file))
                kept += 1
                if kept > len(zones):
                    raise Failure(f"a release was answered {found[0]}")
            yield f"the bytes of {len(zones) - kept} zones changed", [self.folder, other]
        changed = os.path.join(room, "changed")
        shutil.copytree(self.folder, changed)
        for number, zone in enumerate(zones):
            put_file(os.path.join(changed, zone["file"]), slim_zone(1 + number % 9))
        yield "the local times of all zones changed", [self.folder, changed]

    def kept(self):
        workers, rounds = 64, 8
        print("| Workers | Resident KiB before | with full caches | of one worker |")
        print("|---|---|---|---|")
        with self.served([self.folder], workers) as server:
            before = status_of(server.pid, "VmRSS")
            with Client(server.port) as client:
                zones = json.loads(client.ask("/tzdist/zones").body)["timezones"][:64]
            targets = ["/tzdist/zones", *(f"/tzdist/zones/{quote(zone['tzid'], safe='')}" for zone in zones)]
            # the system gives connections to workers by chance: on average one to each in a round
            for _ in range(rounds):
                clients = [Client(server.port, timeout=60) for _ in range(64)]
                for target in targets:
                    for client in clients:
                        client.ask(target, "Accept: text/calendar", timeout=60)
                for client in clients:
                    client.close()
            full = status_of(server.pid, "VmRSS")
            print(f"| {workers} | {before:,} | {full:,} | {(full - before) // workers:,} |", flush=True)
            server.quit()

    def idle(self):
        count, workers = 200, 4
        with self.served([self.folder], workers) as server:
            begin = time.monotonic()
            clients = []
            for _ in range(count):
                clients.append(Client(server.port, timeout=90))
                clients[-1].send(request("/tzdist/zones?pattern=*york"))
            answered = 0
            for client in clients:
                answered += client.reply(timeout=90).status == 200
            took = time.monotonic() - begin
            print(f"{count} connections at once with {workers} workers, each of which asks once and stays: "
                  f"{answered} were answered, the last after {took:.1f} s.")
            times = []
            for _ in range(5):
                begin = time.monotonic()
                clients.append(Client(server.port))
                clients[-1].ask("/tzdist/zones?pattern=*york")
                times.append(time.monotonic() - begin)
            print("New clients one after another, which stay, too, had their answers after "
                  + ", ".join(f"{it:.3f}" for it in times) + " s (at most 2).")
            for client in clients:
                client.close()
            server.quit()

    def delay(self):
        print("| Request | Replies | Median, ms | p99.9, ms | Latest, ms | Later than 5 ms |")
        print("|---|---|---|---|---|---|")
        with self.served([self.folder], 1) as server:
            for one in self.asked:
                self.delays_of(server, one.name, one.bytes, 1)
            self.delays_of(server, "two on one stream: 304, list", self.asked[3].bytes + self.asked[0].bytes, 2)
            server.quit()

    def delays_of(self, server, name, stream, replies, count=900):
        times = []
        with Client(server.port) as client:
            for _ in range(count // replies):
                begin = time.monotonic()
                client.send(stream)
                for _ in range(replies):
                    client.reply()
                times.append((time.monotonic() - begin) * 1e3)
        times.sort()
        late = sum(it > 5 for it in times)
        print(f"| {name} | {len(times) * replies} | {statistics.median(times):.3f} | {times[len(times) * 999 // 1000]:.2f} | {times[-1]:.2f} | {late} |")

    def peers(self):
        count, workers = 10_000, 4
        kinds = [garbage, silent, half_closed, resetting]
        print(f"Peers by turns: {', '.join(kind.__doc__ for kind in kinds)}.")
        print()
        print("| Connections so far | Resident KiB | Descriptors | Threads | Seconds |")
        print("|---|---|---|---|---|")
        with self.served([self.folder], workers) as server:
            begin = time.monotonic()
            so_far = 0
            for until in (0, 1000, count // 2, count):
                turns = iter(range(so_far, until))
                lock = threading.Lock()

                def misbehave():
                    while True:
                        with lock:
                            turn = next(turns, None)
                        if turn is None or time.monotonic() - begin > 300:
                            return
                        try:
                            with Client(server.port, timeout=20) as peer:
                                kinds[turn % 4](peer, random.Random(turn))
                        except (OSError, Failure):
                            pass

                threads = [threading.Thread(target=misbehave) for _ in range(8)]
                for thread in threads:
                    thread.start()
                for thread in threads:
                    thread.join(330)
                so_far = until
                self.all_workers(server, workers)
                time.sleep(1.5)
                print(f"| {until} | {status_of(server.pid, 'VmRSS')} | {descriptors(server.pid)} | {status_of(server.pid, 'Threads')} | {time.monotonic() - begin:.1f} |", flush=True)
            print()
            print(f"Status after them: `{server.say('status')}`, at the end {server.quit()}.")

    def all_workers(self, server, workers):
        """Has each worker answer the list once, and end its connection."""
        clients = [Client(server.port, timeout=20) for _ in range(workers)]
        for client in clients:
            client.ask("/tzdist/zones", timeout=20)
        for client in clients:
            client.close()


def garbage(peer, rng):
    """bytes that are no request"""
    peer.send(rng.randbytes(rng.randrange(1, 2000)) + (b"\r\n\r\n" if rng.random() < 0.5 else b""))


def silent(peer, rng):
    """silence and an end"""
    time.sleep(rng.random() * 0.002)


def half_closed(peer, rng):
    """a request from a half-closed stream"""
    peer.send(request("/tzdist/zones")[: rng.choice([None, -1, -20])])
    peer.end_sending()
    peer.socket.settimeout(20)
    while peer.socket.recv(1 << 18):
        pass


def resetting(peer, rng):
    """up to fifty requests and a reset"""
    peer.send(request("/tzdist/zones") * rng.randrange(1, 50))
    peer.reset()


def drip(port):
    """a byte a second inside a head"""
    peer = socket.create_connection((HOST, port), 20)
    peer.sendall(b"GET /tzdist/zones HTTP/1.1\r\nHost: x\r\nSlow: ")
    return peer, lambda: peer.send(b"x")


def deaf(port):
    """nothing taken of many lists"""
    peer = small_window(port)
    peer.sendall(request("/tzdist/zones") * 100)
    return peer, lambda: None


def sip(port):
    """a byte of them a second"""
    peer = small_window(port)
    peer.sendall(request("/tzdist/zones") * 100)

    def turn():
        peer.setblocking(False)
        try:
            if not peer.recv(1):
                raise ConnectionResetError
        except BlockingIOError:
            pass

    return peer, turn


def small_window(port):
    peer = socket.socket()
    peer.settimeout(20)
    peer.setsockopt(socket.SOL_SOCKET, socket.SO_RCVBUF, 4096)
    peer.connect((HOST, port))
    return peer


def has_ended(peer):
    """Whether the other side has ended a connection."""
    poll = select.poll()
    poll.register(peer, select.POLLRDHUP)
    return bool(poll.poll(0))


def heard(pipe):
    """What the process of the crowd says next."""
    if not pipe.poll(180):
        raise Failure("the crowd said nothing for 180 seconds")
    return pipe.recv()


def crowd(port, path, idle, slow, pipe):
    """The process that has the connections of the part crowd: the idle ones, and from a first
    message on the slow ones. From the second on it opens again those that were closed. It ends at
    the third, or after ten minutes."""
    end = time.monotonic() + 600
    resting = []
    for number in range(idle):
        resting.append(socket.create_connection((HOST, port), 20))
        if number % 2:
            resting[-1].sendall(request(path))
    answered = sum(peer.recv(4096).startswith(b"HTTP/1.1 200") for peer in resting[1::2])
    pipe.send((len(resting), answered))
    if not pipe.poll(60):
        return
    pipe.recv()
    kinds = (drip, deaf, sip)
    slow = [(kinds[number % 3], *kinds[number % 3](port)) for number in range(slow)]
    pipe.send(len(slow))
    replaced, words = 0, 0
    while time.monotonic() < end and words < 2:
        if pipe.poll(1):
            words += bool(pipe.recv())
        for number, (kind, peer, turn) in enumerate(slow):
            try:
                turn()
                if kind is deaf and has_ended(peer):
                    raise ConnectionResetError
            except OSError:
                if words == 0:
                    continue
                peer.close()
                try:
                    slow[number] = (kind, *kind(port))
                    replaced += 1
                except OSError:
                    pass
    pipe.send((idle - sum(map(has_ended, resting)), replaced))


PARTS = ["rates", "opened", "crowd", "installs", "memory", "kept", "changes", "limits", "rules", "idle", "delay", "peers"]


def processor():
    """The name of the processor."""
    try:
        with open("/proc/cpuinfo") as lines:
            return next(line.split(":", 1)[1].strip() for line in lines if line.startswith("model name"))
    except (OSError, StopIteration):
        return "unknown processor"


def parser_of(page, parts):
    """A parser of what each such script takes: a release, a program and parts of it."""
    example = re.search(r"example: .+", page)
    parser = argparse.ArgumentParser(description=page.split("\n")[0], epilog=example and example[0])
    parser.add_argument("folder", metavar="RELEASE_DIR", help="as tools/pack_zoneinfo.py makes it")
    parser.add_argument("--program", default=PROGRAM, help=f"the tzdistd to measure (default: {PROGRAM})")
    parser.add_argument("--only", default=",".join(parts), help=f"parts of {','.join(parts)}")
    return parser


def parts_of(words, known):
    """The requested parts. The script ends if one does not exist, or the program is not built."""
    parts = words.only.split(",")
    if unknown := [part for part in parts if part not in known]:
        sys.exit(f"no such part: {', '.join(unknown)}")
    if not os.path.exists(words.program):
        sys.exit(f"{words.program} is not built: README says how")
    return parts


def main():
    parser = parser_of(__doc__, PARTS)
    parser.add_argument("--beside", help="another program, measured by turns with it")
    parser.add_argument("--seconds", type=int, default=3, help="of each drive")
    parser.add_argument("--rounds", type=int, default=3, help="of which the median is taken")
    parser.add_argument("--installs", type=int, default=10_000, help="of the part memory")
    parser.add_argument("--idle", type=int, default=10_000, help="of the part crowd")
    parser.add_argument("--slow", type=int, default=500, help="of the part crowd")
    parser.add_argument("--zone")
    parser.add_argument("--no-nginx", action="store_true")
    parser.add_argument("--no-limit", action="store_true", help="without the C program of bench/limit.c")
    parser.add_argument("--no-wrk", action="store_true")
    words = parser.parse_args()
    parts = parts_of(words, PARTS)
    try:
        bench = Bench(words)
        client = "wrk" if bench.wrk else "processes of this script"
        print(f"{processor()}, {os.cpu_count()} processors, load {os.getloadavg()[0]:.1f}; {bench.zones} zones; {bench.zone}; "
              f"requests by {client}, {words.seconds} seconds, {words.rounds} rounds")
        for part in parts:
            print(f"\n## {part}\n", flush=True)
            getattr(bench, part)()
    except Failure as fault:
        sys.exit(f"bench/serve.py: {fault}")


if __name__ == "__main__":
    main()
