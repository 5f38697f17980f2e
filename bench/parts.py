"""The parts of bench/report.py but growth and the fleet: each returns rows of figures, and prints
nothing.

Python's standard library only.
"""

import contextlib
import os
import shutil
import signal
import subprocess
import threading
import time

import growth
import hostile
import serve
from measured import ASKING, INSTALLING, MEANWHILE, WORKERS, Repeated, driven, manifest_of, middle_row, on, say, started
from serve import Limit, Nginx, put_file, requests_of, status_of
from served import Client, Mirror, Served, slim_zone
from tzdistd_priority import FirstThread, can_return

# nginx gets enough connections for the attacks, too.
serve.SITE = serve.SITE.replace("worker_connections 512", "worker_connections 16384")


class Measured:
    """One run over a release: its program, and the folder for what is made."""

    def __init__(self, folder, program, room, settings):
        self.folder, self.program, self.room = os.path.abspath(folder), os.path.abspath(program), room
        self.settings, self.wrk = settings, shutil.which("wrk")
        with self.served([self.folder], 1) as server:
            self.zone, self.zones, self.asked = requests_of(server.port, None)
            server.quit(60)

    def served(self, folders, workers):
        return started(lambda: Served(folders, workers, program=self.program, within=300))

    def mirror(self, server):
        return started(lambda: Mirror(server.address, workers=WORKERS, program=self.program, within=300))

    def driven(self, port, pids, one, connections, processors=ASKING):
        return driven(self.wrk, port, pids, one, connections, self.settings["seconds"], processors)

    # -- requests with nginx and the limit

    def requests(self):
        """Each request over some numbers of connections; all servers take turns."""
        rows = []
        with contextlib.ExitStack() as stack:
            ours = stack.enter_context(self.served([self.folder], WORKERS))
            servers = {"tzdistd": (ours.port, [ours.pid], lambda _, one: one)}
            if shutil.which("nginx"):
                site = stack.enter_context(started(lambda: Nginx("nginx", self.asked, WORKERS)))
                servers["nginx"] = (site.port, site.processes(), site.asked)
            if shutil.which("cc"):
                limit = stack.enter_context(started(lambda: Limit(self.asked, WORKERS)))
                servers["limit"] = (limit.port, limit.processes(), limit.asked)
            for connections in self.settings["connections"]:
                for number, one in enumerate(self.asked):
                    rows += self.by_turns(servers, number, one, connections)
            ours.quit(60)
        return rows

    def by_turns(self, servers, number, one, connections):
        found = {name: [] for name in servers}
        for turn in range(self.settings["rounds"]):
            for name in servers if turn % 2 == 0 else reversed(list(servers)):
                port, pids, asked = servers[name]
                found[name].append(self.driven(port, pids, asked(number, one), connections))
        same = {"request": one.name, "bytes": one.size, "connections": connections}
        return [{**same, "server": name, **middle_row(rounds)} for name, rounds in found.items()]

    def calls(self):
        """The system calls of an exchange, of tzdistd and of the limit, as strace counts them."""
        one = next(it for it in self.asked if it.name == "get as TZif")
        rows = []
        if not (shutil.which("strace") and shutil.which("cc")):
            return rows
        with self.served([self.folder], WORKERS) as server, started(lambda: Limit([one], WORKERS)) as limit:
            for connections in self.settings["connections"]:
                for name, port, pids, asked in (
                    ("tzdistd", server.port, [server.pid], one), ("limit", limit.port, limit.processes(), limit.asked(0, one)),
                ):
                    rows.append({"server": name, "connections": connections, **self.traced(port, pids, asked, connections)})
            server.quit(60)
        return rows

    def traced(self, port, pids, one, connections):
        """How many calls of each kind a request takes."""
        path = os.path.join(self.room, "calls")
        words = [word for pid in pids for word in ("-p", str(pid))]
        tracer = subprocess.Popen(["strace", "-f", "-c", "-qq", "-o", path, *words], stdin=subprocess.DEVNULL, stderr=subprocess.DEVNULL)
        try:
            time.sleep(0.3)
            count = self.driven(port, pids, one, connections)["count"]
        finally:
            tracer.send_signal(signal.SIGINT)
            tracer.wait(30)
        with open(path) as text:
            return {kind: round(calls / max(count, 1), 3) for kind, calls in calls_of(text.read()).items()}

    def expansion(self):
        """What the longest expansions cost: only their heads, and the whole replies."""
        rows = []
        with self.served([self.folder], 1) as server, Client(server.port, timeout=60) as client:
            until = self.settings["costly_until"].encode()
            heads = [head.replace(b"end=9999", b"end=" + until) for head in hostile.costly_heads(400, 3)]
            for method in ("HEAD", "GET"):

                def ask(turn, method=method):
                    client.send(heads.pop().replace(b"HEAD", method.encode(), 1))
                    client.reply(method == "HEAD", 60)

                done = Repeated(ask, [server.pid], 100, self.settings["seconds"])
                rows.append({"method": method, "wall": round(done.middle, 3), "cost": round(done.costs[0], 3)})
            client.close()
            server.quit(60)
        return rows

    # -- installs and syncs

    def variants(self):
        """The release, and copies in which one zone and all zones have other files."""
        one, every = os.path.join(self.room, "one"), os.path.join(self.room, "every")
        if os.path.exists(one):
            return {"nothing": self.folder, "one zone": one, "all zones": every}
        shutil.copytree(self.folder, one)
        shutil.copytree(self.folder, every)
        zones = manifest_of(self.folder)["zones"]
        last = next(zone for zone in reversed(zones) if zone["tzid"] != self.zone)
        put_file(os.path.join(one, last["file"]), slim_zone(7))
        for number, zone in enumerate(zones):
            put_file(os.path.join(every, zone["file"]), slim_zone(1 + number % 9))
        return self.variants()

    def changes(self):
        """Installs and syncs that change nothing, one zone, and all zones; and memory of a mirror
        after them."""
        installs, syncs = [], []
        for what, folder in self.variants().items():
            folders = [self.folder, folder]
            with self.served([self.folder], WORKERS) as server, self.mirror(server) as mirror:
                first = status_of(mirror.pid, "VmHWM")

                def install(turn, server=server, folders=folders):
                    say(server, f"install {folders[(turn + 1) % 2]}", "installed ")

                if what != "nothing":
                    syncs.append({"what": what, **self.synced(server, mirror, install, first)})
                else:
                    done = Repeated(lambda _, mirror=mirror: say(mirror, "sync", "unchanged "), [mirror.pid], 100, self.settings["seconds"])
                    syncs.append({"what": what, "wall": round(done.middle, 3), "cost": round(done.costs[0], 3)})
                done = Repeated(install, [server.pid], 200, self.settings["seconds"] * 2)
                installs.append({"what": what, "wall": round(done.middle, 3), "cost": round(done.costs[0], 3), "count": len(done.walls)})
                mirror.quit(60)
                server.quit(60)
        return {"installs": installs, "syncs": syncs}

    def synced(self, server, mirror, install, first):
        """Syncs after installs, and the most memory of the mirror. It is counted beyond that of its
        primary, which installed the same releases, and beyond that of an idle server that
        installed none."""
        walls, costs, end, turn = [], [], time.monotonic() + 2 * self.settings["seconds"], 0
        while len(walls) < 2 or (len(walls) < 100 and time.monotonic() < end):
            install(turn)
            turn += 1
            done = Repeated(lambda _: say(mirror, "sync", "installed "), [mirror.pid], 1, 0)
            walls.append(done.middle)
            costs.append(done.costs[0])
        with self.served([self.folder], WORKERS) as alone:
            resting = status_of(alone.pid, "VmRSS")
            alone.quit(60)
        peak, primary = status_of(mirror.pid, "VmHWM"), status_of(server.pid, "VmHWM")
        return {"wall": round(sorted(walls)[len(walls) // 2], 3), "cost": round(sum(costs) / len(costs), 3), "count": len(walls),
                "first_peak_kib": first, "peak_kib": peak, "primary_peak_kib": primary, "beyond_primary_kib": peak - primary,
                "beyond_kib": peak - resting}

    def largest(self):
        """A release of 4,096 zones of 65,536 bytes, installed again with one changed zone."""
        zones, size = self.settings["largest"]
        folder = growth.release_of(os.path.join(self.room, "largest"), zones, 4 * zones, [growth.sized_zone(size)])
        later = growth.with_one_changed(folder)
        begin = time.monotonic()
        with self.served([folder], 1) as server:
            ready, before = time.monotonic() - begin, status_of(server.pid, "VmHWM")
            begin = time.monotonic()
            say(server, f"install {later}", "installed ")
            took, after = time.monotonic() - begin, status_of(server.pid, "VmHWM")
            server.quit(120)
        for made in (folder, later):
            shutil.rmtree(made)
        whole = zones * size
        return {"zones": zones, "file_bytes": size, "ready": round(ready, 3), "install": round(took, 3), "release_kib": whole // 1024,
                "peak_kib": before, "peak_after_kib": after}

    def installs_with_requests(self):
        """The 99th percentile of waiting times without installs and with installs in a loop. These
        are made by only the program, and as the service's scripts let requests go first."""
        rows, folders = [], [self.folder, self.variants()["one zone"]]
        ways = {"installing": False, **({"yielding": True} if can_return() else {})}
        for one in self.asked:
            found = {name: [] for name in ("alone", *ways)}
            with self.served(folders[:1], WORKERS) as server:
                for _ in range(self.settings["rounds"]):
                    found["alone"].append(self.late(server, one))
                    for name, yields in ways.items():
                        found[name].append(self.while_installing(server, folders, one, FirstThread(server.pid, yields)))
                server.quit(60)
            rows.append({"request": one.name, **{name: sorted(times)[len(times) // 2] for name, times in found.items()}})
        return rows

    def late(self, server, one):
        """The 99th percentile of waiting times, of requests from the processors that the console
        does not use."""
        return self.driven(server.port, [server.pid], one, WORKERS, MEANWHILE)["p99"]

    def while_installing(self, server, folders, one, first):
        done, said = threading.Event(), []

        def install():
            first.begin()
            try:
                said.append(say(server, f"install {folders[(len(said) + 1) % 2]}", "installed "))
            finally:
                first.end()

        def install_on():
            with on(INSTALLING):
                while not done.is_set():
                    install()

        thread = threading.Thread(target=install_on)
        thread.start()
        try:
            return self.late(server, one)
        finally:
            done.set()
            thread.join(300)
            if len(said) % 2:
                install()

    # -- attacks

    def attacks(self):
        """What good clients of tzdistd and nginx see during floods, and during costly requests."""
        hostile.WORKERS = WORKERS
        rows, seconds = [], self.settings["attack_seconds"]
        search = next(one for one in self.asked if one.target == hostile.SEARCH)
        for name, flood in hostile.FLOODS.items():
            with self.served([self.folder], WORKERS) as server:
                rows += self.attacked(name, "tzdistd", server.port, server.pid, hostile.SEARCH, flood(server.port, hostile.SEARCH), seconds)
                server.quit(120)
            if shutil.which("nginx"):
                with started(lambda: Nginx("nginx", [search], WORKERS)) as site:
                    target = site.asked(0, search).target
                    rows += self.attacked(name, "nginx", site.port, None, target, flood(site.port, target), seconds)
        for name, flood in hostile.COSTLY.items() if self.settings["costly_floods"] else ():
            with self.served([self.folder], WORKERS) as server:
                rows += self.attacked(name, "tzdistd", server.port, server.pid, hostile.SEARCH, flood(server.port, hostile.SEARCH), seconds)
                server.quit(120)
        return rows

    @staticmethod
    def attacked(name, server, port, pid, target, flood, seconds):
        with flood:
            good = hostile.Watched(port, target)
            time.sleep(seconds)
            seen = good.end()
            memory = status_of(pid, "VmRSS") if pid else None
        rows = []
        for client, times in zip(("kept", "new"), seen):
            own = times.times
            rows.append({"flood": name, "server": server, "client": client, "requests": len(own), "failures": len(times.faults),
                         "p50": round(own[len(own) // 2], 3) if own else None, "p99": round(own[len(own) * 99 // 100], 3) if own else None,
                         "longest": round(own[-1], 3) if own else None, "memory_kib": memory})
        return rows


KINDS = {
    "receive": ("recvfrom", "recvmsg", "read", "readv"), "send": ("sendto", "sendmsg", "write", "writev", "sendfile"),
    "wait": ("epoll_wait", "epoll_pwait", "epoll_pwait2", "poll"),
}


def calls_of(text):
    """How many calls of each kind a table of `strace -c` counts."""
    found = {kind: 0 for kind in (*KINDS, "other")}
    for line in text.splitlines():
        words = line.split()
        # the columns: part, seconds, microseconds of a call, calls, errors if there are any, name
        if len(words) in (5, 6) and words[3].isdigit() and words[-1] != "total":
            found[next((kind for kind, names in KINDS.items() if words[-1] in names), "other")] += int(words[3])
    return found


def file_bytes(folder):
    """The bytes of a release's zone files."""
    return sum(os.path.getsize(os.path.join(folder, zone["file"])) for zone in manifest_of(folder)["zones"])
