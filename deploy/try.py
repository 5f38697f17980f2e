#!/usr/bin/env python3
"""Tries the files of this folder with a real nginx, on high ports and in a temporary folder.

    deploy/try.py [PROGRAM] [--clients N]

Between nginx and the server is a relay, which counts what reaches the server. site_trials.py tries
the site by itself, with attacks on its cache among others. This script needs nginx, openssl, curl
and Python's standard library. It is run by hand, and everything that it starts ends with it.
systemd itself is not tried, and the page is only fetched: try_page.py tries it.
"""

import argparse
import contextlib
import gzip
import http.client
import json
import os
import resource
import shutil
import subprocess
import sys
import tempfile
import time
from concurrent.futures import ThreadPoolExecutor

sys.dont_write_bytecode = True
HERE = os.path.dirname(os.path.abspath(__file__))
sys.path.insert(0, os.path.join(os.path.dirname(HERE), "tools"))

import fetch_zoneinfo
from proxied import Proxy, Relay, Service, ask, edited, needed, one_server, same, started, text_of
from served import DATA, HOST, PROGRAM, Failure, slim_zone
from site_trials import TRIALS

FIRST, SECOND = "1-e2b2cb478d218163", "2-d7dd2fc2e202fff3"
UTC = "/tzdist/zones/Etc%2FUTC"


class Deployed:
    """The server, started by the script of its unit, with nginx in front of it."""

    def __init__(self, room, program, clients=1000):
        self.room, self.program, self.clients = room, program, clients
        self.releases = os.path.join(room, "releases")
        os.chmod(room, 0o755)
        self.add("a", "2025a")
        self.server = Service("tzdistd-serve", os.path.join(room, "run"), program, RELEASES=self.releases)
        self.nginx, self.mirror, self.relay = None, None, Relay(self.server.port)

    def add(self, data, name):
        """A folder of the data as a release."""
        shutil.copytree(os.path.join(DATA, "data", data), os.path.join(self.releases, name))
        return os.path.join(self.releases, name)

    def add_moved(self, name, hours):
        """A later release, with a zone this many hours east of UTC."""
        folder = self.add("b", name)
        with open(os.path.join(folder, "moved"), "wb") as file:
            file.write(slim_zone(hours))
        with open(os.path.join(folder, "manifest.json"), "r+") as file:
            manifest = json.load(file)
            manifest["zones"].append({"tzid": "Test/Moved", "file": "moved"})
            file.seek(0)
            json.dump(manifest, file)
            file.truncate()
        return folder

    def start_mirror(self):
        """A mirror of the server, started by the script of its unit."""
        at = os.path.join(self.room, "mirror")
        self.mirror = Service("tzdistd-mirror", at, self.program, UPSTREAM=self.server.address)

    def start_nginx(self):
        site = edited(text_of("nginx-tzdistd.conf"), one_server(self.relay.port))
        self.nginx = Proxy(os.path.join(self.room, "nginx"), site)

    def connect(self):
        return self.nginx.connect()

    def close(self):
        for one in (self.nginx, self.mirror, self.server):
            if one is not None:
                one.close()


def ready(deployed):
    same("the first reply", deployed.server.first_reply(), f"ready {FIRST}\n")


def console(deployed):
    same("status", deployed.server.say("status"), (0, f"serving {FIRST} 1\n"))
    same("an unknown line", deployed.server.say("hello"), (1, "unknown\n"))
    nowhere = os.path.join(deployed.releases, "nowhere")
    said = f"refused 8 Absent {nowhere}/manifest.json\n"
    same("a refused install", deployed.server.say("install", nowhere), (1, said))


def proxy(deployed):
    front = deployed.connect()
    reply, body = ask(front, "/tzdist/zones")
    same("the list", (reply.status, json.loads(body)["synctoken"]), (200, FIRST))
    reply, body = ask(front, UTC)
    same("a calendar of a zone with a slash", (reply.status, body[:15]), (200, b"BEGIN:VCALENDAR"))
    tag = reply.headers["ETag"]
    same("its tag again", ask(front, UTC, If_None_Match=tag)[0].status, 304)
    reply, body = ask(front, UTC, Accept="application/tzif")
    same("the file", (reply.headers["Content-Type"], body[:4]), ("application/tzif", b"TZif"))
    reply, body = ask(front, UTC, Accept_Encoding="gzip")
    if reply.headers["Content-Encoding"] == "gzip":
        body = gzip.decompress(body)
        tag = reply.headers["ETag"]
        same("a packed calendar's tag again", ask(front, UTC, If_None_Match=tag)[0].status, 304)
    same("a packed calendar", body[:15], b"BEGIN:VCALENDAR")
    same("HEAD", ask(front, UTC, "HEAD")[1], b"")
    same("POST", ask(front, UTC, "POST", Content_Length="0")[0].status, 405)
    reply, _ = ask(front, "/.well-known/timezone")
    same("the redirect", (reply.status, reply.headers["Location"]), (301, "/tzdist"))
    same("another path", ask(front, "/other")[0].status, 404)
    same("a problem", ask(front, "/tzdist/zones/No%2FZone")[0].status, 404)
    reply, body = ask(front, "/")
    same("the page's head", (reply.status, reply.headers["Content-Type"]), (200, "text/html; charset=utf-8"))
    with open(os.path.join(HERE, "page/index.html"), "rb") as file:
        same("the page is the file", body == file.read(), True)
    same("what the page may do", reply.headers["Content-Security-Policy"].split(";")[0], "default-src 'none'")
    front.close()


def cache(deployed):
    """Many clients cost one request, and a cached answer is requested again with its tag."""
    relay = deployed.relay
    clients = [deployed.connect() for _ in range(deployed.clients)]
    for target in ("/tzdist/zones", UTC):
        time.sleep(2.5)
        relay.clear()
        begin = time.monotonic()
        with ThreadPoolExecutor(20) as pool:
            statuses = set(pool.map(lambda client: ask(client, target)[0].status, clients))
        took = time.monotonic() - begin
        same(f"{len(clients)} clients that ask for {target}", statuses, {200})
        print(f"  of them reached the server: {len(relay.heads)}, in {took:.1f} s")
        if not 1 <= len(relay.heads) <= 1 + took:
            raise Failure("more than a request a second reached the server")
    for client in clients[1:]:
        client.close()
    front = clients[0]
    # the cached answer is no longer valid
    time.sleep(2.5)
    relay.clear()
    reply, body = ask(front, UTC)
    same("an answer that was kept", (reply.status, body[:15]), (200, b"BEGIN:VCALENDAR"))
    tag = reply.headers["ETag"]
    asked = [(head.split(" ")[1], f"If-None-Match: {tag}" in head) for head in relay.heads]
    same("it was asked for by its tag", (asked, relay.unmodified), ([(UTC, True)], 1))
    relay.clear()
    same("its tag of a client", ask(front, UTC, If_None_Match=tag)[0].status, 304)
    same("another tag of a client", ask(front, UTC, If_None_Match='"x"')[0].status, 200)
    same("HEAD of it", ask(front, UTC, "HEAD")[1], b"")
    same("what reached the server", len(relay.heads), 0)
    reply, body = ask(front, UTC, Accept="application/tzif")
    same("the file beside it", (body[:4], len(relay.heads)), (b"TZif", 1))
    same("the calendar again", (ask(front, UTC)[1][:15], len(relay.heads)), (b"BEGIN:VCALENDAR", 1))
    same("past the cache", (ask(front, UTC, Cache_Control="no-cache")[0].status, len(relay.heads)), (200, 2))
    front.close()


def load(deployed):
    front = deployed.connect()
    tokens = {ask(front, "/tzdist/zones")[0].status for _ in range(2500)}
    same("2,500 requests of one client", tokens, {200})
    idle = [deployed.connect() for _ in range(100)]
    same("100 clients", {ask(one, "/tzdist/zones")[0].status for one in idle}, {200})
    time.sleep(1.5)
    begin = time.monotonic()
    with deployed.connect() as one:
        ask(one, "/tzdist/zones")
    print(f"  a new client beside 100 idle ones: {(time.monotonic() - begin) * 1e3:.0f} ms")
    same("the idle ones again", {ask(one, "/tzdist/zones")[0].status for one in idle}, {200})
    added = deployed.add("b", "2025b")
    same("an install", deployed.server.say("install", added), (0, f"installed {SECOND}\n"))
    same("the release past the cache", token(front, Cache_Control="no-cache"), SECOND)
    time.sleep(2.5)
    same("the release", token(front), SECOND)
    for one in (front, *idle):
        one.close()


def token(front, **fields):
    return json.loads(ask(front, "/tzdist/zones", **fields)[1])["synctoken"]


def device(deployed):
    """A device has each release whole, also where the cache has older files than the list."""
    os.environ["SSL_CERT_FILE"] = deployed.nginx.certificate
    url, tree = deployed.nginx.url, os.path.join(deployed.room, "zoneinfo")

    def moved():
        with open(os.path.join(tree, "Test/Moved"), "rb") as file:
            return file.read()

    folders = [deployed.add_moved(f"2025{letter}", hours) for letter, hours in (("c", 1), ("d", 2))]
    held = deployed.server.say("install", folders[0])[1].split()[1]
    time.sleep(2.5)
    fetch_zoneinfo.fetch(url, tree)
    same("a device's file", moved(), slim_zone(1))
    relay, target = deployed.relay, "/tzdist/zones/Test%2FMoved"
    with deployed.connect() as front:
        ask(front, target, Accept="application/tzif", Cache_Control="no-cache")
        deployed.server.say("install", folders[1])
        ask(front, f"/tzdist/zones?changedsince={held}", Cache_Control="no-cache")
    relay.clear()
    line = fetch_zoneinfo.fetch(url, tree)
    same("its file after an install", moved(), slim_zone(2))
    print(f"  {line.rpartition(', ')[2]}, of which reached the server: {sum(target in head for head in relay.heads)}")
    same("then", fetch_zoneinfo.fetch(url, tree).rpartition(", ")[2], "nothing changed")


def watching(deployed):
    """What installs change is given to a command, also once more where it failed."""
    heard = os.path.join(deployed.room, "heard")
    tell, fail = ["sh", "-c", 'cat >>"$1"', "sh", heard], ["false"]

    def watch(command, wish="under Test/"):
        words = [os.path.join(HERE, "tzdistd-watch"), "tests", wish, *command]
        done = subprocess.run(words, env=deployed.server.environment, capture_output=True, text=True, timeout=90)
        return done.returncode, done.stdout + done.stderr

    def told():
        if not os.path.exists(heard):
            return []
        with open(heard) as file:
            return file.read().splitlines()

    same("a wish that is none", watch(tell, "under"), (1, "unknown\n"))
    same("the first run", (watch(tell), told()), ((0, ""), []))
    place = int(deployed.server.say("install", deployed.add_moved("2025e", 3))[1].split()[1].split("-")[0])
    same("a command that fails", watch(fail)[0], 1)
    first = f"news {place} Test/Moved"
    same("the next run", (watch(tell), told()), ((0, ""), [first]))
    same("one without news", (watch(fail), told()), ((0, ""), [first]))
    for name, hours in (("2025f", 4), ("2025g", 5)):
        deployed.server.say("install", deployed.add_moved(name, hours))
    same("two installs", (watch(tell), told()[1:]), ((0, ""), [f"news {place + k} Test/Moved" for k in (1, 2)]))
    same("the console", deployed.server.say("news", "2"), (1, "refused 20 NoWatch\n"))


def mirror(deployed):
    """A mirror is started, and gets the command to sync as from its timer. The status reports a
    refusal."""
    nothing = {name: value for name, value in deployed.server.environment.items() if name != "UPSTREAM"}
    same("a mirror of nothing", started("tzdistd-mirror", nothing).wait(20), 1)
    deployed.start_mirror()
    token = deployed.mirror.first_reply().partition(" ")[2]
    same("its first token", token[:2], "1-")
    same("a sync", deployed.mirror.say("sync"), (0, f"unchanged {token}"))
    same("an install at the server", deployed.server.say("install", deployed.add_moved("2025h", 3))[0], 0)
    status, line = deployed.mirror.say("sync")
    same("a sync after it", (status, line[:12]), (0, "installed 2-"))
    with contextlib.closing(http.client.HTTPConnection(HOST, deployed.mirror.port, timeout=20)) as near:
        same("the file at the mirror", ask(near, "/tzdist/zones/Test%2FMoved", Accept="application/tzif")[1], slim_zone(3))
    same("an install at the mirror", deployed.mirror.say("install", "x"), (1, "unknown\n"))


def end(deployed):
    same("quit", deployed.server.say("quit"), (0, "bye\n"))
    same("the status at the end", deployed.server.child.wait(20), 0)
    same("a sync without the server", deployed.mirror.say("sync"), (1, "refused 1 UpstreamFault\n"))
    same("quit at the mirror", deployed.mirror.say("quit"), (0, "bye\n"))
    same("its status at the end", deployed.mirror.child.wait(20), 0)
    with deployed.connect() as front:
        time.sleep(2.5)
        same("the list without the server", ask(front, "/tzdist/zones")[0].status, 200)


def main():
    parser = argparse.ArgumentParser(description="Tries the files of this folder with nginx.")
    parser.add_argument("program", nargs="?", default=PROGRAM)
    parser.add_argument("--clients", type=int, default=1000, help="how many use the cache at once")
    options = parser.parse_args()
    needed("nginx", "openssl", "curl")
    resource.setrlimit(resource.RLIMIT_NOFILE, (resource.getrlimit(resource.RLIMIT_NOFILE)[1],) * 2)
    with tempfile.TemporaryDirectory() as room:
        deployed = Deployed(room, os.path.abspath(options.program), options.clients)
        try:
            for part in (ready, console, Deployed.start_nginx, proxy, cache, *TRIALS, load, device, watching, mirror, end):
                print(part.__name__.replace("_", " "), flush=True)
                part(deployed)
        except Failure as fault:
            sys.exit(f"deploy/try.py: {fault}")
        finally:
            deployed.close()
    print("deploy: all well")


if __name__ == "__main__":
    main()
