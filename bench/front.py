#!/usr/bin/env python3
"""Measures what the proxy of deploy/ costs and saves, over the loopback.

    bench/front.py RELEASE_DIR [--program PATH] [--only PART,..] [--seconds N] [--rounds N]
                   [--connections N] [--clients N]

It measures `tzdistd serve` without a proxy, behind the site of nginx without its cache and with it,
and two mirrors behind that site.

The part rates has a row of a table for each request. It has requests a second, percentiles of the
time to a reply, and processor time of a request, of all tzdistd together and of nginx. The server
without a proxy gets its requests without TLS, since it has none. A row is the median of the rounds
by its rate. Each server has four workers, and nginx as many processes. In the part many, clients
whose connections are open request the list once. A relay between the proxy and the server counts
what reaches it, without the cache and with it.

It needs wrk, nginx and openssl. Every loop is bounded, and what is started ends with the script. It
is run by hand on an idle machine, and is no part of the gate.
"""

import contextlib
import functools
import os
import resource
import sys
import tempfile
import time
from concurrent.futures import ThreadPoolExecutor

sys.dont_write_bytecode = True
ROOT = os.path.dirname(os.path.dirname(os.path.abspath(__file__)))
sys.path[:0] = [os.path.join(ROOT, "tools"), os.path.join(ROOT, "deploy")]

from proxied import UNLIMITED, Proxy, Relay, ask, edited, needed, one_server, text_of, two_mirrors
from serve import by_wrk, children_of, parser_of, parts_of, processor, processor_seconds, requests_of
from served import Failure, Mirror, Served

PARTS = ["rates", "many"]
WORKERS = 4
MEASURED = ["full list", "get as calendar, a year", "get as TZif"]
WITHOUT = [("proxy_cache tzdistd;", "proxy_cache off;")]
# wrk has one address, so here each of its connections, not its address, selects a mirror
BY_CONNECTION = [("split_clients $remote_addr ", "split_clients $connection ")]


class Bench:
    def __init__(self, words, room):
        self.words, self.room, self.count = words, room, 0
        self.folder = os.path.abspath(words.folder)

    def once(self, port, asked, scheme, servers, nginx):
        before = [processor_seconds(pids) for pids in (servers, nginx)]
        driven = by_wrk("wrk", port, asked, self.words.connections, self.words.seconds, scheme)
        after = [processor_seconds(pids) for pids in (servers, nginx)]
        return driven, [(now - then) / max(driven.count, 1) * 1e6 for now, then in zip(after, before)]

    def rows(self, what, port, asked, scheme, servers, nginx=()):
        for one in asked:
            rounds = [self.once(port, one, scheme, servers, nginx) for _ in range(self.words.rounds)]
            driven, spent = sorted(rounds, key=lambda it: it[0].rate)[len(rounds) // 2]
            faults = f" ({driven.faults} faults)" if driven.faults else ""
            print(f"| {one.name} | {what} | {driven.rate:.0f}{faults} | {driven.middle:.2f} | {driven.late:.2f} | "
                  f"{spent[0]:.1f} | {spent[1]:.1f} |", flush=True)

    @contextlib.contextmanager
    def proxy(self, site):
        self.count += 1
        proxy = Proxy(os.path.join(self.room, str(self.count)), site, WORKERS)
        try:
            yield proxy
        finally:
            proxy.close()

    def proxied(self, what, site, asked, servers):
        with self.proxy(site) as proxy:
            self.rows(what, proxy.port, asked, "https", servers, children_of(proxy.child.pid))

    def asked_once(self, what, server, edits):
        """Clients that are connected send one request each, twenty at a time."""
        relay = Relay(server.port)
        site = edited(text_of("nginx-tzdistd.conf"), one_server(relay.port) + edits)
        with self.proxy(site) as proxy, contextlib.ExitStack() as stack:
            clients = [stack.enter_context(proxy.connect()) for _ in range(self.words.clients)]
            before, begin = processor_seconds([server.pid]), time.monotonic()
            with ThreadPoolExecutor(20) as pool:
                statuses = list(pool.map(lambda client: ask(client, "/tzdist/zones")[0].status, clients))
            took, spent = time.monotonic() - begin, processor_seconds([server.pid]) - before
            if set(statuses) != {200}:
                raise Failure(f"clients were answered {set(statuses)}")
            print(f"| {what} | {len(relay.heads)} | {took:.2f} | {spent * 1e3:.0f} |", flush=True)

    def rates(self, server):
        print("| Request | What | Requests a second | p50, ms | p99, ms | tzdistd, processor microseconds | nginx, the same |")
        print("|---|---|---|---|---|---|---|")
        site, asked = edited(text_of("nginx-tzdistd.conf"), UNLIMITED), requests_of(server.port, None)[2]
        asked = [one for one in asked if one.name in MEASURED]
        self.rows("server alone, no TLS", server.port, asked, "http", [server.pid])
        behind = edited(site, one_server(server.port))
        self.proxied("behind the proxy without its cache", edited(behind, WITHOUT), asked, [server.pid])
        self.proxied("behind the proxy", behind, asked, [server.pid])
        with contextlib.ExitStack() as stack:
            follow = functools.partial(Mirror, server.address, workers=WORKERS, program=self.words.program)
            mirrors = [stack.enter_context(follow()) for _ in range(2)]
            pids = [one.pid for one in mirrors]
            behind = edited(two_mirrors(site, [one.port for one in mirrors]), BY_CONNECTION)
            self.proxied("two mirrors without the cache", edited(behind, WITHOUT), asked, pids)
            self.proxied("two mirrors", behind, asked, pids)
            for one in mirrors:
                one.quit(30)

    def many(self, server):
        print(f"| {self.words.clients} clients ask once for the list | Requests that reached the server | Seconds | Its processor milliseconds |")
        print("|---|---|---|---|")
        self.asked_once("without the cache", server, WITHOUT)
        self.asked_once("with the cache", server, [])

    def run(self, parts):
        with Served([self.folder], WORKERS, program=self.words.program) as server:
            for part in parts:
                getattr(self, part)(server)
                print()
            server.quit(30)


def main():
    parser = parser_of(__doc__, PARTS)
    parser.add_argument("--seconds", type=int, default=3, help="of one measurement")
    parser.add_argument("--rounds", type=int, default=3, help="of which the median counts")
    parser.add_argument("--connections", type=int, default=64, help="over which wrk asks")
    parser.add_argument("--clients", type=int, default=1000, help="that ask once")
    words = parser.parse_args()
    parts = parts_of(words, PARTS)
    words.program = os.path.abspath(words.program)
    needed("wrk", "nginx", "openssl")
    resource.setrlimit(resource.RLIMIT_NOFILE, (resource.getrlimit(resource.RLIMIT_NOFILE)[1],) * 2)
    try:
        with tempfile.TemporaryDirectory() as room:
            os.chmod(room, 0o755)
            print(f"{processor()}, {os.cpu_count()} processors, load {os.getloadavg()[0]:.1f}; {words.rounds} rounds of {words.seconds} seconds\n")
            Bench(words, room).run(parts)
    except Failure as fault:
        sys.exit(f"bench/front.py: {fault}")


if __name__ == "__main__":
    main()
