#!/usr/bin/env python3
"""Finds the time zone servers of a domain by its DNS records (RFC 7808, section 4.2.1).

    discovery.py DOMAIN [--dns HOST[:PORT]]

It reads the SRV records of `_timezones._tcp` (HTTPS) and, where there are none, of
`_timezone._tcp` (HTTP). The TXT record beside them may have the context path, as `path=/tzdist`.
It prints a line for each server, in the order in which a client tries them: its URL and its
context path. A path `-` means that the address `/.well-known/timezone` of the server says it. A
domain without such records has the server https://DOMAIN.

It needs the Python package dnspython, as in Debian's python3-dnspython. `fetch_zoneinfo.py
--domain` uses it.
"""

import argparse
import random
import re
import sys
from typing import NamedTuple, Optional

HOST_NAME = re.compile(r"[A-Za-z0-9_-][A-Za-z0-9._-]*")
DOMAIN = re.compile(r"[A-Za-z0-9][A-Za-z0-9.-]*")
ADDRESS = re.compile(
    r"\[([0-9A-Fa-f:.%]+)\](?::([0-9]{1,5}))?|([^:\[\]]+)(?::([0-9]{1,5}))?|([0-9A-Fa-f:.%]+)"
)
SERVICES = (("https", "_timezones._tcp."), ("http", "_timezone._tcp."))
PORTS = {"https": 443, "http": 80}

# Seconds for the answers to one question.
PATIENCE = 8


class Undiscovered(Exception):
    """Why the servers of a domain are not known, in one line."""


class Record(NamedTuple):
    """An SRV record (RFC 2782). The target has no dot at its end, and is empty for no service."""

    priority: int
    weight: int
    port: int
    target: str


class Candidate(NamedTuple):
    """A server, and its context path, where the TXT record has it."""

    url: str
    path: Optional[str]


def url_of(scheme, record):
    """The URL of the server of a record."""
    port = "" if record.port == PORTS[scheme] else f":{record.port}"
    return f"{scheme}://{record.target}{port}"


def chosen(records, choose):
    """One of these records of one priority, at random by their weights, as RFC 2782 says."""
    ordered = sorted(records, key=lambda record: record.weight != 0)
    number = choose(0, sum(record.weight for record in ordered))
    total = 0
    for record in ordered:
        total += record.weight
        if total >= number:
            return record
    raise ValueError("the random number is above the sum of the weights")


def in_order(records, first=lambda record: False, choose=random.randint):
    """The records in the order in which they are tried; of one priority first what `first` says."""
    left, ordered = list(records), []
    while left:
        lowest = min(record.priority for record in left)
        same = [record for record in left if record.priority == lowest]
        record = next(filter(first, same), None) or chosen(same, choose)
        left.remove(record)
        ordered.append(record)
    return ordered


def path_in(texts):
    """The value of the first string `path=` of TXT records (RFC 6763, section 6)."""
    for text in texts:
        if text[:5].lower() == "path=":
            return text[5:]
    return None


class Resolver:
    """Questions to a DNS server: the one of HOST or HOST:PORT, or that of the system."""

    def __init__(self, server=None):
        try:
            import dns.resolver
        except ImportError:
            raise Undiscovered(
                f"{sys.executable} has no dnspython, which --domain needs; "
                "install python3-dnspython, or give a URL"
            ) from None
        self.dns = dns
        try:
            self.resolver = dns.resolver.Resolver(configure=server is None)
            if server is not None:
                host, port = address_of(server)
                self.resolver.nameservers, self.resolver.port = [host], port
        except (dns.exception.DNSException, OSError, ValueError) as error:
            raise Undiscovered(f"no DNS server: {error}") from None
        self.resolver.lifetime = PATIENCE

    def records(self, name, kind):
        """The records of a kind at a name; none where it has none."""
        try:
            return list(self.resolver.resolve(name + ".", kind, search=False))
        except (self.dns.resolver.NXDOMAIN, self.dns.resolver.NoAnswer):
            return []
        except (self.dns.exception.DNSException, OSError) as error:
            raise Undiscovered(f"{name}: DNS gives no answer: {error}") from None

    def servers(self, name):
        """The SRV records at a name."""
        return [
            Record(one.priority, one.weight, one.port, one.target.to_text().rstrip("."))
            for one in self.records(name, "SRV")
        ]

    def texts(self, name):
        """The strings of the TXT records at a name."""
        found = self.records(name, "TXT")
        return [text.decode("ascii", "replace") for one in found for text in one.strings]


def address_of(server):
    """The host and the port of HOST, HOST:PORT, or [IPV6]:PORT."""
    found = ADDRESS.fullmatch(server)
    if found is None:
        raise Undiscovered(f"{server!r} is no HOST or HOST:PORT")
    return found[1] or found[3] or found[5], int(found[2] or found[4] or 53)


def candidates(domain, resolver, used=None, choose=random.randint):
    """The servers of a domain in the order in which they are tried. The one in use is the first of
    its priority."""
    if DOMAIN.fullmatch(domain) is None:
        raise Undiscovered(f"{domain[:80]!r} is no name of a domain")
    absent = False
    for scheme, service in SERVICES:
        records = resolver.servers(service + domain.rstrip("."))
        if any(record.target == "" for record in records):
            absent = True
            continue
        records = [one for one in records if HOST_NAME.fullmatch(one.target) and one.port > 0]
        if records:
            path = path_in(resolver.texts(service + domain.rstrip(".")))
            ordered = in_order(records, lambda record: url_of(scheme, record) == used, choose)
            return [Candidate(url_of(scheme, record), path) for record in ordered]
    if absent:
        raise Undiscovered(f"{domain}: its DNS records say that it has no server")
    return [Candidate(f"https://{domain.rstrip('.')}", None)]


def main():
    parser = argparse.ArgumentParser(
        description="Prints the time zone servers of a domain by its DNS records.",
        epilog="Example: discovery.py example.org",
    )
    parser.add_argument("domain", metavar="DOMAIN", help="the domain, as example.org")
    parser.add_argument("--dns", metavar="HOST[:PORT]", help="the DNS server to ask")
    options = parser.parse_args()
    try:
        for candidate in candidates(options.domain, Resolver(options.dns)):
            print(candidate.url, candidate.path or "-")
    except Undiscovered as fault:
        sys.exit(f"failed: {fault}")


if __name__ == "__main__":
    main()
