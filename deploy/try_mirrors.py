#!/usr/bin/env python3
"""Tries a setup for many machines on one: a primary, a mirror of it, a mirror of that mirror, and a
proxy over both mirrors.

    deploy/try_mirrors.py [PROGRAM] [--zones FOLDER] [--clients N]

Each is started by the script of its unit, the proxy with the site of this folder and the blocks of
nginx-mirrors.conf. A release of the system's zones is served. Another one is installed at the
primary, and seen at the proxy once the mirrors have had their syncs. A mirror is killed and started
again. A mirror follows the primary over TLS, by nginx and by stunnel. A mirror is restarted while
the primary is down, and the primary ends. Between the proxy and each mirror is a relay, which
counts what reaches the mirror.

It needs what try.py needs, and stunnel4, and is run by hand. Everything that it starts ends with
it.
"""

import argparse
import json
import os
import shutil
import subprocess
import sys
import tempfile
import time
from concurrent.futures import ThreadPoolExecutor

sys.dont_write_bytecode = True
HERE = os.path.dirname(os.path.abspath(__file__))
ROOT = os.path.dirname(HERE)
sys.path[:0] = [HERE, os.path.join(ROOT, "tools")]

import fetch_zoneinfo
from proxied import NAME, Proxy, Relay, Service, Stunnel, ask, edited, needed, one_server, same, text_of, tunnel, two_mirrors
from served import HOST, PROGRAM, Client, Failure, slim_zone

ZONES = "/tzdist/zones"
MOVED = "/tzdist/zones/Test%2FMoved"
# Seconds within which the proxy must give what a mirror has, on a busy machine, too.
PATIENCE = 20
# Seconds that anything else may take on a busy machine.
LONG = 300


class Machines:
    """What would be five machines, with their folders in one."""

    def __init__(self, room, clients):
        self.room, self.clients, self.all = room, clients, []
        self.releases, self.tree = os.path.join(room, "releases"), os.path.join(room, "zoneinfo")

    def start(self, program, zones):
        """Starts the primary, its mirrors and the proxy, one after another."""
        os.makedirs(self.releases)
        self.pack(zones, "2025a", "2025-06-01T00:00:00Z")
        self.primary = self.service("primary", "tzdistd-serve", program, RELEASES=self.releases)
        self.program = program
        self.near = self.service("near", "tzdistd-mirror", program, UPSTREAM=self.primary.address, RETRY_SECONDS="1")
        self.far = self.service("far", "tzdistd-mirror", program, UPSTREAM=self.near.address)
        self.mirrors = [self.near, self.far]
        self.relays = [Relay(one.port) for one in self.mirrors]
        site = two_mirrors(text_of("nginx-tzdistd.conf"), [one.port for one in self.relays])
        self.proxy = Proxy(os.path.join(self.room, "proxy"), site)
        self.all.append(self.proxy)
        os.environ["SSL_CERT_FILE"] = self.proxy.certificate

    def service(self, name, script, program, **values):
        """A service that has printed its first line."""
        made = Service(script, os.path.join(self.room, name), program, **values)
        self.all.append(made)
        same(f"the {name} is ready", made.first_reply()[:8], "ready 1-")
        return made

    def pack(self, zones, name, stamp):
        words = [sys.executable, os.path.join(ROOT, "tools/pack_zoneinfo.py"), zones, os.path.join(self.releases, name)]
        subprocess.run([*words, "--stamp", stamp], check=True, capture_output=True)

    def later(self, name, stamp, hours):
        """A release with one more zone, or with another file of that zone."""
        folder = os.path.join(self.releases, name)
        shutil.copytree(os.path.join(self.releases, "2025a"), folder)
        with open(os.path.join(folder, "moved"), "wb") as file:
            file.write(slim_zone(hours))
        path = os.path.join(folder, "manifest.json")
        with open(path) as file:
            manifest = json.load(file)
        manifest.update(stamp=stamp, version=name)
        manifest["zones"].append({"tzid": "Test/Moved", "file": "moved"})
        with open(path, "w") as file:
            json.dump(manifest, file)
        return folder

    def fetch(self):
        """The last words of a device's run, and what a zone's file contains then."""
        said = fetch_zoneinfo.fetch(self.proxy.url, self.tree).rpartition(", ")[2]
        with open(os.path.join(self.tree, "Test/Moved"), "rb") as file:
            return said, file.read()

    def close(self):
        for one in reversed(self.all):
            one.close()


def address(number):
    return f"127.0.{number // 250}.{number % 250 + 1}"


def counted(machines):
    """How many requests have reached each mirror."""
    return [len(relay.heads) for relay in machines.relays]


def clear(machines):
    for relay in machines.relays:
        relay.clear()


def clients(machines):
    """Clients by the mirror that answers them. The same mirror always answers a client."""
    found = [[], []]
    for number in range(20):
        clear(machines)
        for _ in range(3):
            with machines.proxy.connect(address(number)) as client:
                same_status(client, 200)
        seen = counted(machines)
        if sorted(seen) != [0, 3]:
            raise Failure(f"the requests of one client reached the mirrors so: {seen}")
        found[seen.index(3)].append(address(number))
    same("each mirror has clients", all(found), True)
    print(f"  of twenty clients {len(found[0])} keep to the near mirror, and {len(found[1])} to the far one")
    machines.addresses = [of[0] for of in found]


def same_status(client, status):
    """Fails unless an answer that bypasses the cache has this status."""
    if (seen := ask(client, ZONES, Cache_Control="no-cache")[0].status) != status:
        raise Failure(f"the list was answered {seen}")


def many(machines):
    """Many clients at many addresses cost each mirror one request a second."""
    open_ones = [machines.proxy.connect(address(number)) for number in range(machines.clients)]
    time.sleep(2.5)
    clear(machines)
    begin = time.monotonic()
    with ThreadPoolExecutor(20) as pool:
        statuses = set(pool.map(lambda client: ask(client, ZONES)[0].status, open_ones))
    took = time.monotonic() - begin
    for client in open_ones:
        client.close()
    same(f"{machines.clients} clients that ask for the list", statuses, {200})
    print(f"  of them reached the mirrors: {counted(machines)}, in {took:.1f} s")
    if max(counted(machines)) > 1 + took:
        raise Failure("more than a request a second reached a mirror")


def status_of(machines, side):
    """The status that a client of a mirror gets for the zone of the later releases."""
    with machines.proxy.connect(machines.addresses[side]) as client:
        return ask(client, MOVED)[0].status


def seen_after(machines, side):
    """The seconds until a client of a mirror gets the zone of the later releases."""
    begin = time.monotonic()
    while time.monotonic() < begin + PATIENCE:
        if status_of(machines, side) == 200:
            return time.monotonic() - begin
        time.sleep(0.02)
    raise Failure(f"the release is not seen at the proxy within {PATIENCE} seconds")


def install(machines):
    """A release is installed at the primary, and the near mirror passes it to the far one."""
    same("a zone before it is there", [status_of(machines, side) for side in (0, 1)], [404, 404])
    same("the far mirror before the near one", machines.far.say("sync")[1][:11], "unchanged 1")
    folder = machines.later("2025b", "2025-07-01T00:00:00Z", 1)
    same("an install at the primary", machines.primary.say("install", folder)[1][:12], "installed 2-")
    same("the far mirror before the near one", machines.far.say("sync")[1][:11], "unchanged 1")
    for side, name in enumerate(("near", "far")):
        begin = time.monotonic()
        same(f"a sync of the {name} mirror", machines.mirrors[side].say("sync")[1][:12], "installed 2-")
        synced = time.monotonic() - begin
        seen = seen_after(machines, side)
        print(f"  the sync took {synced * 1e3:.0f} ms, and the proxy's clients of this mirror saw the release {seen:.2f} s later")
        same("what clients of both have now", [status_of(machines, one) for one in (0, 1)], [200, 200 if side else 404])


def device(machines):
    """A device gets the release through the proxy, and requests only what changed."""
    same("a device's file", machines.fetch()[1], slim_zone(1))
    folder = machines.later("2025c", "2025-08-01T00:00:00Z", 2)
    same("another install at the primary", machines.primary.say("install", folder)[1][:12], "installed 3-")
    for one in machines.mirrors:
        same("a sync", one.say("sync")[1][:12], "installed 3-")
    time.sleep(2.5)
    same("its file after it", machines.fetch(), ("1 asked for", slim_zone(2)))
    same("then", machines.fetch(), ("nothing changed", slim_zone(2)))


def failure(machines):
    """A mirror is killed. Its clients get the other one, and the first again once it is there."""
    machines.near.close()
    begin = time.monotonic()
    for count in range(1, 51):
        with machines.proxy.connect(machines.addresses[0]) as client:
            same_status(client, 200)
    print(f"  {count} requests past the cache beside a mirror that is gone: {time.monotonic() - begin:.1f} s")
    same("the far mirror's sync meanwhile", machines.far.say("sync"), (1, "refused 1 UpstreamFault\n"))
    same("a device meanwhile", machines.fetch()[1], slim_zone(2))
    machines.near.start()
    same("the near mirror again, with a history of its own", machines.near.first_reply()[:8], "ready 1-")
    same("the far mirror's sync after it", machines.far.say("sync")[1][:10], "unchanged ")
    # nginx uses a server again ten seconds after it failed
    time.sleep(11)
    clear(machines)
    with machines.proxy.connect(machines.addresses[0]) as client:
        same_status(client, 200)
    same("its clients are with it again", counted(machines), [1, 0])
    same("a device whose token it may not know", machines.fetch()[1], slim_zone(2))


def zones_of(service):
    """The zones that a service lists, with their tags. The times and versions of a mirror are its
    own."""
    with Client(service.port) as client:
        return {entry["tzid"]: entry["etag"] for entry in json.loads(client.ask(ZONES).body)["timezones"]}


def same_zones(one, other):
    same("each zone that it serves", zones_of(one) == zones_of(other), True)


def by_nginx(machines):
    """A mirror follows the primary over TLS, and never gets what the primary's site has in its
    cache."""
    front = machines.front = Proxy(os.path.join(machines.room, "front"), edited(text_of("nginx-tzdistd.conf"), one_server(machines.primary.port)))
    through = tunnel(os.path.join(machines.room, "tunnel"), front)
    machines.all += [front, through]
    remote = machines.service("remote", "tzdistd-mirror", machines.program, UPSTREAM=through.address)
    same_zones(remote, machines.primary)
    with front.connect() as client:
        for _ in range(2):
            ask(client, ZONES)
        folder = machines.later("2025d", "2025-09-01T00:00:00Z", 3)
        same("an install at the primary", machines.primary.say("install", folder)[1][:12], "installed 4-")
        same("a sync right after it", remote.say("sync")[1][:12], "installed 2-")
    same_zones(remote, machines.primary)
    other = tunnel(os.path.join(machines.room, "other"), front, "other.example.org")
    machines.all.append(other)
    with Client(other.port) as client:
        same("an upstream with another name", client.ask(ZONES).status, 502)


def by_stunnel(machines):
    """The same without nginx."""
    front = machines.front
    far_end = Stunnel(os.path.join(machines.room, "far-end"), "tzdistd", lambda port: [
        ("accept = 8443", f"accept = {HOST}:{port}"), ("127.0.0.1:8008", machines.primary.address),
        ("/etc/ssl/tzdistd/", f"{front.at}/"),
    ])
    machines.all.append(far_end)
    near_end = Stunnel(os.path.join(machines.room, "near-end"), "tzdistd-upstream", lambda port: [
        ("accept = 127.0.0.1:8007", f"accept = {HOST}:{port}"), (f"{NAME}:8443", far_end.address),
        ("/etc/ssl/certs/ca-certificates.crt", front.certificate),
    ])
    machines.all.append(near_end)
    begin = time.monotonic()
    mirror = machines.service("stunnelled", "tzdistd-mirror", machines.program, UPSTREAM=near_end.address)
    print(f"  its first sync took {time.monotonic() - begin:.1f} s")
    same_zones(mirror, machines.primary)


def away(machines):
    """A mirror that is restarted while the primary is down serves its last copy, and then follows
    the primary again."""
    primary, near = machines.primary, machines.near
    same("the near mirror's sync", near.say("sync")[1][:10], "installed ")
    before = zones_of(near)
    awaited("the copy of it", lambda: "kept the last copy" in near.journal().rpartition("synced")[2])
    for one in (primary, near):
        one.child.terminate()
        same("SIGTERM", one.child.wait(20), 0)
    begin = time.monotonic()
    near.start()
    same("the near mirror without the primary", near.first_reply()[:8], "ready 1-")
    print(f"  it served {time.monotonic() - begin:.2f} s after its start")
    same("each zone that it serves", zones_of(near) == before, True)
    same("a sync", near.say("sync"), (1, "refused 1 UpstreamFault\n"))
    same("the far mirror's sync", machines.far.say("sync")[0], 0)
    same("a device meanwhile", machines.fetch()[1], slim_zone(3))
    with Client(near.port) as client:
        machines.later("2025e", "2025-10-01T00:00:00Z", 4)
        primary.start()
        begin = time.monotonic()
        same("the primary again", primary.first_reply()[:6], "ready ")
        while client.ask(MOVED, "Accept: application/tzif").body != slim_zone(4):
            if time.monotonic() > begin + LONG:
                raise Failure("the mirror does not follow the primary again")
            time.sleep(0.05)
        print(f"  {time.monotonic() - begin:.1f} s later a connection to the mirror from before had its next release")
    same("the far mirror's sync after it", machines.far.say("sync")[1][:10], "installed ")


def awaited(what, holds):
    begin = time.monotonic()
    while not holds():
        if time.monotonic() > begin + LONG:
            raise Failure(f"{what}: not within {LONG} seconds")
        time.sleep(0.05)


def end(machines):
    """Without the primary all is served as before."""
    for side, one in enumerate([machines.primary, *machines.mirrors]):
        same("quit", one.say("quit"), (0, "bye\n"))
        same("the status at the end", one.child.wait(20), 0)
        if side == 0:
            same("a sync without the primary", machines.near.say("sync"), (1, "refused 1 UpstreamFault\n"))
            same("what clients of both have", [status_of(machines, one) for one in (0, 1)], [200, 200])


def main():
    parser = argparse.ArgumentParser(description="Tries a primary, two mirrors and a proxy over both.")
    parser.add_argument("program", nargs="?", default=PROGRAM)
    parser.add_argument("--zones", metavar="FOLDER", default="/usr/share/zoneinfo", help="the zone files to serve")
    parser.add_argument("--clients", type=int, default=1000, help="how many ask for the list at once")
    options = parser.parse_args()
    needed("nginx", "openssl", "stunnel4")
    with tempfile.TemporaryDirectory() as room:
        os.chmod(room, 0o755)
        machines = Machines(room, options.clients)
        try:
            print("start", flush=True)
            machines.start(os.path.abspath(options.program), options.zones)
            for part in (clients, many, install, device, failure, by_nginx, by_stunnel, away, end):
                print(part.__name__, flush=True)
                part(machines)
        except Failure as fault:
            sys.exit(f"deploy/try_mirrors.py: {fault}")
        finally:
            machines.close()
    print("mirrors: all well")


if __name__ == "__main__":
    main()
