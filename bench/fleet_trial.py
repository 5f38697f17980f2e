"""The real runs of bench/fleet.py: what a device and a mirror cost, and some thousands of devices
over the loopback. The devices use a cache, two mirrors and a primary. It needs nginx and openssl.
"""

import bisect
import collections
import contextlib
import json
import multiprocessing
import os
import random
import shutil
import socket
import ssl
import statistics
import tempfile
import time

import fleet
from measured import SERVING, WORKERS, Repeated, change_list, driven, manifest_of, on, say, spent, started, token_of
from proxied import NAME, UNLIMITED, Proxy, edited, needed, text_of, two_mirrors
from serve import Asked, children_of, put_file
from served import HOST, PROGRAM, Client, Failure, Mirror, Served, slim_zone

TZIF = "Accept: application/tzif"
# What a line of the proxy's log says if the answer came from a mirror.
REACHED = {"MISS", "EXPIRED", "REVALIDATED", "BYPASS"}


def address_of(device):
    """An address of the loopback for a device, so that it always uses the same mirror."""
    return f"127.{1 + device // 62500}.{device // 250 % 250}.{device % 250 + 1}"


class Device(Client):
    """A connection with TLS to the cache, from the address of a device."""

    def __init__(self, port, context, device):
        plain = socket.create_connection((HOST, port), 20, (address_of(device), 0))
        self.socket = context.wrap_socket(plain, server_hostname=NAME)
        self.held = b""


def visit(port, context, device, token):
    """What a device does: it requests the changes since its token, and each zone that changed. The
    result is the new token and how many zones it got."""
    with Device(port, context, device) as client:
        reply = client.ask(f"/tzdist/zones?changedsince={token}", timeout=30)
        if reply.status != 200:
            raise Failure(f"a change list was answered {reply.status}")
        said = json.loads(reply.body)
        for zone in said["timezones"]:
            name = zone["tzid"].replace("/", "%2F")
            if client.ask(f"/tzdist/zones/{name}", TZIF, timeout=30).status != 200:
                raise Failure(f"{name} was not answered")
        return said["synctoken"], len(said["timezones"])


def devices(port, certificate, begin, moments, token, pipe):
    """A process in which some of the devices connect at their moments, in seconds after `begin`."""
    context = ssl.create_default_context(cafile=certificate)
    tokens, seen, faults = collections.defaultdict(lambda: token), [], []
    for moment, device in moments:
        time.sleep(max(0.0, begin + moment - time.monotonic()))
        late = time.monotonic() - begin - moment
        try:
            tokens[device], zones = visit(port, context, device, tokens[device])
            seen.append((moment, late, zones, time.monotonic() - begin))
        except (OSError, Failure) as fault:
            faults.append(str(fault))
    pipe.send((seen, faults))


def tls_bytes(port, context):
    """The bytes that the cache sends on a new connection before the first reply."""
    came, going = ssl.MemoryBIO(), ssl.MemoryBIO()
    tls = context.wrap_bio(came, going, server_hostname=NAME)
    with socket.create_connection((HOST, port), 20) as peer:
        count = 0
        while True:
            try:
                tls.do_handshake()
                break
            except ssl.SSLWantReadError:
                peer.sendall(going.read())
                piece = peer.recv(1 << 16)
                if not piece:
                    raise Failure("the cache ended a connection inside its handshake") from None
                count += len(piece)
                came.write(piece)
        peer.sendall(going.read())
        return count


class Trial:
    """A primary, two mirrors and a cache on the processors for servers."""

    def __init__(self, folder, program, room, stack):
        self.room, self.stack = room, stack
        self.folder = os.path.abspath(folder)
        self.program = os.path.abspath(program or PROGRAM)
        self.zones = [zone["tzid"] for zone in manifest_of(self.folder)["zones"]]

        def serve_folder():
            return Served([self.folder], WORKERS, program=self.program, within=300)

        def follow():
            return Mirror(self.primary.address, workers=WORKERS, program=self.program, within=300)

        self.primary = stack.enter_context(started(serve_folder))
        self.mirrors = [stack.enter_context(started(follow)) for _ in range(2)]
        site = edited(two_mirrors(text_of("nginx-tzdistd.conf"), [it.port for it in self.mirrors]), UNLIMITED)
        with on(SERVING):
            self.proxy = Proxy(os.path.join(room, "proxy"), site, WORKERS)
        stack.callback(self.proxy.close)
        self.context = ssl.create_default_context(cafile=self.proxy.certificate)
        self.token = token_of(self.mirrors[0])
        if self.token != token_of(self.mirrors[1]):
            raise Failure("two mirrors of one release have different tokens")

    def changed(self, name, zones, hours):
        """A copy of the release in which so many zones have another file."""
        folder = os.path.join(self.room, name)
        shutil.copytree(self.folder, folder)
        for zone in manifest_of(folder)["zones"][:zones]:
            put_file(os.path.join(folder, zone["file"]), slim_zone(hours))
        return folder

    def costs(self, seconds):
        """What a device and a mirror cost, in the form of `Costs` of bench/fleet.py."""
        wrk, port, pids = shutil.which("wrk"), self.primary.port, [self.primary.pid]
        one = change_list(self.token)
        new = Asked(one.name, one.target, ["Connection: close"])
        zone = Asked("get", f"/tzdist/zones/{self.zones[-1].replace('/', '%2F')}", [TZIF])
        found = {
            "server_new": driven(wrk, port, pids, new, 16, seconds)["micros"],
            "server_more": driven(wrk, port, pids, zone, 16, seconds)["micros"],
        }
        with Client(port) as client:
            empty, whole = client.ask(one.target), client.ask(zone.target, TZIF)
        found["list_bytes"] = len(empty.head) + 4 + len(empty.body)
        found["zone_bytes"] = len(whole.head) + 4 + len(whole.body)
        found["listed_bytes"] = 160
        found["tls_bytes"] = tls_bytes(self.proxy.port, self.context)
        workers = children_of(self.proxy.child.pid)
        found["cache_new"] = self.visits(workers, seconds)
        found["cache_more"] = self.further(workers, zone, seconds)
        found.update(self.syncs(seconds))
        return {name: round(value, 2) for name, value in found.items()}

    def visits(self, workers, seconds):
        """Microseconds of the cache for a device that connects and finds nothing new."""
        done = Repeated(lambda turn: visit(self.proxy.port, self.context, turn % 1000, self.token), workers, 5000, seconds)
        return sum(done.costs) * 1e3

    def further(self, workers, zone, seconds):
        """Microseconds of the cache for a further request over an open connection."""
        with Device(self.proxy.port, self.context, 1) as client:
            done = Repeated(lambda _: client.ask(zone.target, TZIF), workers, 900, seconds)
        return sum(done.costs) * 1e3

    def syncs(self, seconds):
        """Microseconds of a sync of one changed zone, at the primary and at the mirror."""
        folders = [self.folder, self.changed("one", 1, 3)]
        costs, begin = [], time.monotonic()
        # an even number, so that at the end the release of the beginning is served
        while len(costs) < 2 or len(costs) % 2 or (len(costs) < 20 and time.monotonic() < begin + seconds):
            say(self.primary, f"install {folders[(len(costs) + 1) % 2]}", "installed ")
            pids = (self.primary.pid, self.mirrors[0].pid)
            costs.append(Repeated(lambda _: say(self.mirrors[0], "sync", "installed "), pids, 1, 0).costs)
            # both mirrors have the same history, and so the same tokens
            say(self.mirrors[1], "sync", "installed ")
        primary, mirror = (statistics.mean(column) * 1e3 for column in zip(*costs))
        return {"primary_sync": primary, "mirror_sync": mirror}

    def servers(self):
        """The processor seconds so far of the cache, the mirrors and the primary."""
        return [spent(*children_of(self.proxy.child.pid)), spent(*(it.pid for it in self.mirrors)), spent(self.primary.pid)]

    def run(self, count, period, changed, costs, processes=2):
        """Devices connect during three periods. In the second one the release changes."""
        plan = fleet.Plan(count, period, max(1, period // 2), changed)
        rng = random.Random(5)
        moments = [(number * period + rng.random() * plan.spread, device) for number in range(3) for device in range(count)]
        moments.sort()
        # the requests of one device are never at the same time in two processes
        each = [[it for it in moments if it[1] % processes == number] for number in range(processes)]
        folder, lines = self.changed("fleet", changed, 8), self.log_lines()
        tokens = [token_of(it) for it in self.mirrors]
        if len(set(tokens)) > 1:
            raise Failure("the mirrors have different tokens")
        before, begin = self.servers(), time.monotonic() + 1
        pipes, children = [], []
        for own in each:
            here, there = multiprocessing.Pipe()
            words = (self.proxy.port, self.proxy.certificate, begin, own, tokens[0], there)
            children.append(multiprocessing.get_context("fork").Process(target=devices, args=words, daemon=True))
            children[-1].start()
            pipes.append(here)
        install, visible = self.change(folder, begin, period, plan.spread)
        seen, faults = [], []
        for pipe in pipes:
            if not pipe.poll(3 * period + 120):
                raise Failure("the devices of the trial did not end")
            part, wrong = pipe.recv()
            seen += part
            faults += wrong
        for child in children:
            child.join(20)
        spent_by = [now - then for now, then in zip(self.servers(), before)]
        return self.compared(plan, seen, faults, install, visible, spent_by, lines, costs)

    def change(self, folder, begin, period, spread):
        """Installs the release in the second period. The mirrors sync a sixth and a third of the
        spread later."""
        install = period + spread * 0.2
        time.sleep(max(0.0, begin + install - time.monotonic()))
        say(self.primary, f"install {folder}", "installed ")
        install, visible = time.monotonic() - begin, []
        for number, mirror in enumerate(self.mirrors, 1):
            time.sleep(max(0.0, begin + install + spread * number / 6 - time.monotonic()))
            say(mirror, "sync", "installed ")
            visible.append(time.monotonic() - begin)
        return install, visible

    def log_lines(self):
        with open(f"{self.proxy.at}/log") as log:
            return sum(1 for _ in log)

    def compared(self, plan, seen, faults, install, visible, spent_by, lines, costs):
        """The rows of what was seen, with the prediction for the same moments of the mirrors."""
        with open(f"{self.proxy.at}/log") as log:
            statuses = [line.split(" ")[4] for number, line in enumerate(log) if number >= lines]
        rng, runs = random.Random(7), 5
        predicted = [predict(plan, install, visible, costs, rng) for _ in range(runs)]
        has = sorted(ended for _, _, zones, ended in seen if zones)
        by_second = collections.Counter(int(moment + late) for moment, late, _, _ in seen)
        wanted = {
            "connections": len(seen), "requests": len(statuses), "requests that reached a mirror": sum(it in REACHED for it in statuses),
            "connections in the busiest second": max(by_second.values()), "processor seconds of the cache": spent_by[0],
            "processor seconds of the mirrors": spent_by[1],
        }
        for part in fleet.PARTS:
            place = min(len(has) - 1, bisect.bisect_left(range(plan.devices), plan.devices * part))
            wanted[f"seconds until {part * 100:g} % had the change"] = (has[place] if has else 0) - install
        rows = [
            {"what": what, "seen": round(value, 3), "predicted": round(statistics.mean(it[what] for it in predicted), 3)}
            for what, value in wanted.items()
        ]
        late = sorted(it[1] for it in seen)
        return {"rows": rows, "devices": plan.devices, "period": plan.period, "spread": plan.spread, "changed": plan.changed,
                "have": len(has), "late_p99": round(late[len(late) * 99 // 100], 3) if late else 0, "faults": len(faults),
                "first_fault": faults[0] if faults else ""}


def predict(plan, install, visible, costs, rng):
    """What bench/fleet.py predicts for three periods, if the mirrors have a change at these
    seconds."""
    sim = fleet.simulate(plan, visible, 3 * plan.period, rng)
    asks, gets = sum(map(sum, sim.asks)), sum(map(sum, sim.gets))
    reached = mirrors = 0.0
    for pair in zip(sim.asks, sim.gets):
        for a, g in zip(*pair):
            load = fleet.upstream(a, g, plan.changed, 1, costs)
            reached, mirrors = reached + load.requests, mirrors + load.processors
    found = {
        "connections": asks, "requests": asks + gets * plan.changed, "requests that reached a mirror": reached,
        "connections in the busiest second": max(map(sum, sim.asks)),
        "processor seconds of the cache": fleet.cached(asks, gets, plan.changed, costs).processors,
        "processor seconds of the mirrors": mirrors + len(visible) * costs.mirror_sync / 1e6,
    }
    for part in fleet.PARTS:
        until = fleet.seconds_until(sim, install, part, plan.devices)
        found[f"seconds until {part * 100:g} % had the change"] = until or 2.0 * plan.period
    return found


def measured(words, seconds=2):
    """The costs and the trial, by the arguments of bench/fleet.py or of bench/report.py."""
    needed("nginx", "openssl")
    folder = words.trial
    if not os.path.isfile(os.path.join(folder, "manifest.json")):
        raise SystemExit(f"{folder} is no release: make one by tools/pack_zoneinfo.py /usr/share/zoneinfo {folder}")
    with tempfile.TemporaryDirectory() as room, contextlib.ExitStack() as stack:
        os.chmod(room, 0o755)
        trial = Trial(folder, words.program, room, stack)
        costs = trial.costs(seconds)
        done = trial.run(words.clients, words.period, words.changed, fleet.Costs.of({"fleet": {"costs": costs}}))
        for server in (*trial.mirrors, trial.primary):
            server.quit(60)
    return {"costs": costs, "trial": done}
