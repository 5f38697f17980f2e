#!/usr/bin/env python3
"""Prints the DNS records by which clients find the time zone servers of a domain (RFC 7808,
section 4.2.1).

    dns_records.py [--form bind|knot|dnsmasq] [--path /tzdist] [--ttl SECONDS]
                   DOMAIN URL[,PRIORITY[,WEIGHT]]..

Each URL is a server: its scheme, its host and, where it is not 443 or 80, its port. A client
tries servers of a lower priority first, and of one priority at random by the weights (RFC 2782).
Both are from 0 to 65535; where they are left out they are 0 and 1. Servers of HTTPS are found
under `_timezones._tcp`, and those of HTTP under `_timezone._tcp`, which clients read only where
there is none of HTTPS.

`bind` prints lines for a zone file, as BIND and others read it. `knot` prints lines for `knotc`,
and `dnsmasq` lines for its configuration. With `--path ''` no TXT record is printed, and clients
request `/.well-known/timezone`.

It needs only Python's standard library. test_discovery.py tests it.
"""

import argparse
import re
import sys
from typing import NamedTuple
from urllib.parse import urlsplit

SERVICES = {"https": ("_timezones._tcp", 443), "http": ("_timezone._tcp", 80)}
LABEL = "[A-Za-z0-9_]([A-Za-z0-9_-]{0,61}[A-Za-z0-9_])?"
HOST_NAME = re.compile(rf"(?=.{{1,253}}$){LABEL}(\.{LABEL})*")


class Server(NamedTuple):
    """A server as its SRV record has it, under the label of its service."""

    service: str
    priority: int
    weight: int
    port: int
    host: str


def server_of(word):
    """The server of a word of the command line."""
    url, *numbers = word.split(",")
    parts = urlsplit(url)
    priority, weight = (int(number) for number in [*numbers, *["0", "1"][len(numbers) :]])
    if parts.scheme not in SERVICES or parts.path.strip("/"):
        raise ValueError
    if not HOST_NAME.fullmatch(parts.hostname or "") or re.fullmatch("[0-9.]+", parts.hostname):
        raise ValueError
    if not (0 <= priority <= 65535 and 0 <= weight <= 65535):
        raise ValueError
    service, port = SERVICES[parts.scheme]
    return Server(service, priority, weight, parts.port or port, parts.hostname)


def quoted(text):
    """A character string of a zone file."""
    return '"' + text.replace("\\", "\\\\").replace('"', '\\"') + '"'


def records(servers, path):
    """The records: label, kind and text of each."""
    for one in servers:
        yield one.service, "SRV", f"{one.priority} {one.weight} {one.port} {one.host}."
    if path:
        for service in dict.fromkeys(server.service for server in servers):
            yield service, "TXT", quoted(f"path={path}")


def in_zone_file(domain, servers, path, ttl):
    for service, kind, text in records(servers, path):
        yield f"{service}.{domain}. {ttl} IN {kind} {text}"


def for_knotc(domain, servers, path, ttl):
    yield f"zone-begin {domain}"
    for service, kind, text in records(servers, path):
        yield f"zone-set {domain} {service} {ttl} {kind} {text}"
    yield f"zone-commit {domain}"


def for_dnsmasq(domain, servers, path, ttl):
    """Lines for its configuration, which has one time to live for all records of its own."""
    for one in servers:
        yield f"srv-host={one.service}.{domain},{one.host},{one.port},{one.priority},{one.weight}"
    if path:
        for service in dict.fromkeys(server.service for server in servers):
            yield f"txt-record={service}.{domain},{quoted(f'path={path}')}"


FORMS = {"bind": in_zone_file, "knot": for_knotc, "dnsmasq": for_dnsmasq}


def main():
    parser = argparse.ArgumentParser(
        description="Prints the DNS records of the time zone servers of a domain.",
        epilog="Example: dns_records.py example.org https://a.example.org https://b.example.org",
    )
    parser.add_argument("domain", metavar="DOMAIN", help="the domain, as example.org")
    parser.add_argument("servers", metavar="URL[,PRIORITY[,WEIGHT]]", nargs="+", help="a server")
    form = parser.add_argument("--form", choices=sorted(FORMS), default="bind")
    form.help = "the DNS server (default: bind)"
    parser.add_argument("--path", default="/tzdist", help="the context path (default: /tzdist)")
    parser.add_argument("--ttl", type=int, default=3600, help="seconds (default: 3600)")
    options = parser.parse_args()
    if HOST_NAME.fullmatch(options.domain) is None:
        parser.error(f"{options.domain!r} is no name of a domain")
    if options.path and not re.fullmatch(r"/[!-~]*", options.path):
        parser.error("--path: a path that begins with / is needed")
    servers = []
    for word in options.servers:
        try:
            servers.append(server_of(word))
        except ValueError:
            parser.error(f"{word!r} is no server: as https://tz.example.org,0,1 is needed")
    print("\n".join(FORMS[options.form](options.domain, servers, options.path, options.ttl)))


if __name__ == "__main__":
    sys.exit(main())
