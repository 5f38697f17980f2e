#!/usr/bin/env python3
"""Keeps a zoneinfo tree as a time zone data distribution server (RFC 7808) has it.

    fetch_zoneinfo.py [OPTION..] URL DIR
    fetch_zoneinfo.py [OPTION..] --domain NAME DIR

URL is a server, as https://tz.example.org, or its context path, as http://127.0.0.1:8008/tzdist.
With --domain the servers are found by DNS records (discovery.py), and the next one is tried where
one fails. DIR becomes a symbolic link to a tree for TZDIR. In it each zone is a TZif file (RFC
9636), and each alias is a link to its zone. The trees lie beside it, in DIR.trees/N/zoneinfo.
Each has a state: the token of the server, and tag and digest of each zone.

A run requests only what changed since that token. Where the server refuses the token, it requests
all zones. The new tree is written completely and reaches the disk. Then DIR is renamed over to
it. The tree before it is kept, and older ones are removed. After any failure, half answer or bad
file DIR stays what it was.

The exit status is 0 where DIR is as the server has it, and 1 after a failure, for which standard
error gets one line. With --every the program stays, reports each failure, and tries again. It
needs only Python's standard library, and with --domain dnspython. It is tested by
test_fetch_zoneinfo.py. tzfetch.sh does the same without Python.
"""

import argparse
import contextlib
import fcntl
import hashlib
import http.client
import json
import os
import random
import re
import shutil
import signal
import ssl
import struct
import sys
import time
from typing import NamedTuple, Optional
from urllib.parse import quote, urljoin, urlsplit

IDENTIFIER = re.compile(r"[A-Za-z0-9_+.-]+(/[A-Za-z0-9_+.-]+)*")
ENTITY_TAG = re.compile(r'(?:W/)?"([\x21\x23-\x7e]*)"')
WELL_KNOWN = "/.well-known/timezone"
REFUSED_TOKEN = "urn:ietf:params:tzdist:error:invalid-changedsince"

MOST_NAMES = 16_384
MOST_NAME_BYTES = 64
MOST_LIST_BYTES = 16 << 20
MOST_ZONE_BYTES = 1 << 20
MOST_REDIRECTS = 5
MOST_ROUNDS = 8

# Seconds that a server may send nothing, and that one exchange may take.
SILENCE, EXCHANGE = 20, 120


# What tzselect(8), timedatectl(1) and others read beside the zones.
TABLES = ("iso3166.tab", "zone.tab", "zone1970.tab", "tzdata.zi")


class Failed(Exception):
    """Why DIR stays what it was, in one line."""


class Wishes(NamedTuple):
    """What a run gets beside a server: authorities to trust, a folder of tables, and a domain."""

    cacert: Optional[str] = None
    tables: Optional[str] = None
    domain: Optional[str] = None


PLAIN = Wishes()


# ---- TZif files


def check_block(data, begin, size):
    """The end of the block whose header begins there and whose times have so many bytes, and its
    counts."""
    header = data[begin : begin + 44]
    if len(header) < 44 or header[:4] != b"TZif":
        raise Failed("no TZif file")
    if header[4:5] not in (b"2", b"3", b"4"):
        raise Failed("a TZif file of a version other than 2, 3 or 4")
    ut, standard, leaps, times, types, chars = counts = struct.unpack(">6I", header[20:])
    end = begin + 44 + (size + 1) * times + 6 * types + chars + (size + 4) * leaps + standard + ut
    if end > len(data):
        raise Failed("a TZif file that is cut off")
    return end, counts


def check_types(data, begin, counts):
    """Checks counts, transitions and types of the second block."""
    ut, standard, leaps, times, types, chars = counts
    if types == 0 or chars == 0 or ut not in (0, types) or standard not in (0, types):
        raise Failed("a TZif file with impossible counts")
    if leaps > 0:
        raise Failed("a TZif file with leap seconds")
    moments = struct.unpack(f">{times}q", data[begin : begin + 8 * times])
    if any(after <= before for before, after in zip(moments, moments[1:])):
        raise Failed("a TZif file whose transitions do not rise")
    begin += 8 * times
    if any(number >= types for number in data[begin : begin + times]):
        raise Failed("a TZif file with a transition to no type")
    begin += times
    names = data[begin + 6 * types : begin + 6 * types + chars]
    for offset, daylight, name in struct.iter_unpack(">iBB", data[begin : begin + 6 * types]):
        if abs(offset) >= 26 * 3600 or daylight > 1 or b"\0" not in names[name:]:
            raise Failed("a TZif file with an impossible type")


NAME = r"(?:[A-Za-z]{3,}|<[A-Za-z0-9+-]{3,}>)"
HOURS = r"[+-]?[0-9]{1,3}(?::[0-9]{2}){0,2}"
DATE = rf",(?:J?[0-9]{{1,3}}|M[0-9]{{1,2}}\.[1-5]\.[0-6])(?:/{HOURS})?"
FOOTER = re.compile(rf"\n(?:{NAME}{HOURS}(?:{NAME}(?:{HOURS})?{DATE}{DATE})?)?\n".encode())


def check_tzif(data):
    """Checks a TZif file of a zone: both blocks, and the footer, after which nothing follows."""
    second, _ = check_block(data, 0, 4)
    end, counts = check_block(data, second, 8)
    if data[second + 4] != data[4]:
        raise Failed("a TZif file of two versions")
    check_types(data, second + 44, counts)
    if FOOTER.fullmatch(data, end) is None:
        raise Failed("a TZif file without a whole footer")


# ---- zones and their names


class Zone(NamedTuple):
    """A zone as the list has it, and what is kept of it: its get's tag, and its file's digest."""

    etag: str
    aliases: tuple
    tag: Optional[str] = None
    digest: Optional[str] = None


class State(NamedTuple):
    """What a tree contains: zones by name, and the token since which changes are requested."""

    token: Optional[str]
    zones: dict


NOTHING = State(None, {})


def check_names(zones):
    """Checks all names: none is outside the tree, none comes twice, none is a folder of another."""
    names = [name for tzid, zone in zones.items() for name in (tzid, *zone.aliases)]
    if not names:
        raise Failed("a list without zones")
    if len(names) > MOST_NAMES:
        raise Failed(f"{len(names)} names, more than {MOST_NAMES}")
    known = set(names)
    if len(known) < len(names):
        raise Failed("a name that stands twice")
    for name in names:
        segments = name.split("/")
        if len(name) > MOST_NAME_BYTES or IDENTIFIER.fullmatch(name) is None or {".", ".."} & set(segments):
            raise Failed(f"{name[:80]!r} is no name of a zone")
        if any("/".join(segments[:count]) in known for count in range(1, len(segments))):
            raise Failed(f"{name!r} lies below another zone")


# The errors of reading members of a JSON text that is not as it should be.
MISREAD = (ValueError, TypeError, KeyError, AttributeError, RecursionError)


def zone_of(entry):
    """A zone as an entry of a list, or of a state, has it."""
    aliases = entry.get("aliases", [])
    if not isinstance(aliases, list) or not all(isinstance(text, str) for text in (entry["etag"], *aliases)):
        raise ValueError
    return Zone(entry["etag"], tuple(aliases))


def held_zone_of(entry):
    """A zone as an entry of a state has it."""
    tag, digest = entry["tag"], entry["sha256"]
    if not isinstance(digest, str) or not (tag is None or ENTITY_TAG.fullmatch(tag)):
        raise ValueError
    return zone_of(entry)._replace(tag=tag, digest=digest)


def list_of(body):
    """The token and the zones of a list document (RFC 7808, section 6.2)."""
    try:
        document = json.loads(body)
        token, entries = document["synctoken"], document["timezones"]
        zones = {entry["tzid"]: zone_of(entry) for entry in entries}
        if not (isinstance(token, str) and token and all(isinstance(name, str) for name in zones)):
            raise ValueError
    except MISREAD:
        raise Failed("a list that is none") from None
    if len(zones) < len(entries):
        raise Failed("a name that stands twice")
    return State(token, zones)


def merged(held, changes):
    """The zones after a list of changes. A name that it gives a zone is then no other zone's."""
    taken = {name for zone in changes.values() for name in zone.aliases} | set(changes)
    zones = {}
    for tzid, zone in held.items():
        if tzid not in taken:
            zones[tzid] = zone._replace(aliases=tuple(name for name in zone.aliases if name not in taken))
    return {**zones, **changes}


# ---- the server


@contextlib.contextmanager
def bounded(seconds):
    """Ends what takes longer by a failure, wherever it waits."""

    def late(*_):
        raise Failed(f"no whole answer within {seconds} seconds")

    before = signal.signal(signal.SIGALRM, late)
    signal.setitimer(signal.ITIMER_REAL, seconds)
    try:
        yield
    finally:
        signal.setitimer(signal.ITIMER_REAL, 0)
        signal.signal(signal.SIGALRM, before)


def trusting(cacert):
    """What checks certificates: by the authorities of a file, or by those of the system."""
    try:
        return ssl.create_default_context(cafile=cacert)
    except OSError as error:
        raise Failed(f"--cacert: {cacert}: {error.strerror or error}") from None


class Server:
    """A server by a URL, and one connection to it, which is opened again where it ended."""

    def __init__(self, url, cacert=None):
        try:
            parts = urlsplit(url)
            kinds = {"http": http.client.HTTPConnection, "https": http.client.HTTPSConnection}
            if not parts.hostname:
                raise ValueError
            more = {"context": trusting(cacert)} if parts.scheme == "https" else {}
            kind = kinds[parts.scheme]
            self.connection = kind(parts.hostname, parts.port, timeout=SILENCE, **more)
        except (ValueError, KeyError, http.client.HTTPException):
            raise Failed(f"{url!r} is no URL of a server") from None
        self.url, self.path, self.used = url, parts.path, False

    def ask(self, target, most, **fields):
        """The reply to one request, its status, fields and whole body of so many bytes at most."""
        fields = {name.replace("_", "-"): value for name, value in fields.items() if value is not None}
        try:
            with bounded(EXCHANGE):
                return self._exchange(self.path + target, most, fields)
        except (OSError, http.client.HTTPException, ValueError) as error:
            why = getattr(error, "strerror", None) or str(error) or type(error).__name__
            fault = Failed(f"{self.url}{target}: {one_line(why)}")
        except Failed as error:
            fault = Failed(f"{self.url}{target}: {error}")
        self.close()
        raise fault

    def _exchange(self, target, most, fields):
        try:
            self.connection.request("GET", target, headers=fields)
            reply = self.connection.getresponse()
        except ConnectionError:
            # a connection that was kept may have ended meanwhile
            if not self.used:
                raise
            self.close()
            self.connection.request("GET", target, headers=fields)
            reply = self.connection.getresponse()
        self.used = True
        lengths = set(reply.headers.get_all("Content-Length", []))
        told = reply.length
        if len(lengths) > 1 or (told is None and not reply.chunked):
            raise Failed("an answer that does not tell its length")
        body = reply.read(most + 1)
        if len(body) > most:
            raise Failed(f"an answer of more than {most} bytes")
        if told is not None and len(body) != told:
            raise Failed(f"half an answer: {len(body)} of {told} bytes")
        return reply.status, reply.headers, body

    def close(self):
        self.connection.close()
        self.used = False

    def list(self, token, fresh):
        """The zones that changed since a token and true, or all of them and false."""
        control = "no-cache" if fresh else None
        if token is not None:
            target = "/zones?changedsince=" + quote(token, safe="")
            status, _, body = self.ask(target, MOST_LIST_BYTES, Cache_Control=control)
            if status == 200:
                return list_of(body), True
            if status != 400 or not is_refused_token(body):
                raise Failed(f"{self.url}{target}: status {status}")
        status, _, body = self.ask("/zones", MOST_LIST_BYTES, Cache_Control=control)
        if status != 200:
            raise Failed(f"{self.url}/zones: status {status}")
        return list_of(body), False

    def get(self, tzid, tag, fresh):
        """A zone's file and its tag; no file, where it is still the one of the tag."""
        target = "/zones/" + quote(tzid, safe="")
        control = "no-cache" if fresh else None
        status, fields, body = self.ask(
            target, MOST_ZONE_BYTES, Accept="application/tzif", If_None_Match=tag, Cache_Control=control
        )
        if status == 304 and tag is not None:
            return None, tag
        if status != 200:
            raise Failed(f"{self.url}{target}: status {status}")
        try:
            check_tzif(body)
        except Failed as fault:
            raise Failed(f"{self.url}{target}: {fault}") from None
        told = fields.get("ETag")
        return body, told if told and ENTITY_TAG.fullmatch(told) else None


def one_line(text):
    """A text, part of which may be a server's, as one line that can be shown."""
    return " ".join("".join(letter if letter.isprintable() else " " for letter in text).split())


def is_refused_token(body):
    try:
        return json.loads(body)["type"] == REFUSED_TOKEN
    except MISREAD:
        return False


def context_of(url, cacert):
    """The URL of a server's context path: the one given, or where the well-known address leads."""
    url = url.rstrip("/")
    at = url + WELL_KNOWN
    if Server(at).path != WELL_KNOWN:
        return url
    for _ in range(MOST_REDIRECTS):
        server = Server(at, cacert)
        status, fields, _ = server.ask("", MOST_LIST_BYTES)
        server.close()
        location = fields.get("Location")
        if status not in (301, 302, 303, 307, 308) or location is None:
            raise Failed(f"{at}: status {status}, which leads to no context path")
        try:
            to = urljoin(at, location)
        except ValueError:
            raise Failed(f"{at}: it leads to {location!r}") from None
        if at.startswith("https:") and not to.startswith("https:"):
            raise Failed(f"{at}: it leads to {to!r}, which is not https")
        if Server(to).path != WELL_KNOWN:
            return to.rstrip("/")
        at = to
    raise Failed(f"{url}: more than {MOST_REDIRECTS} redirects")


# ---- catching up


def tells(tag, etag):
    """A get's tag shows that the file is the one of a list's entry. Of tzdistd it is the entry's
    with `.t`."""
    found = ENTITY_TAG.fullmatch(tag or "")
    return found is not None and found.group(1) in (etag.strip('"'), etag.strip('"') + ".t")


class Catching:
    """Sends requests until what is kept is what one list of the server says.

    Caches between may keep answers, and the server may change meanwhile. So a file whose tag does
    not show that it is the listed one is requested again past all caches. Where that does not show
    it either, the file stays in doubt until a list past all caches has still the same token. Under
    another token it is requested again.
    """

    def __init__(self, server, state):
        self.server, self.state = server, state
        self.files, self.doubted, self.fresh, self.gets = {}, set(), False, 0

    def run(self):
        for _ in range(MOST_ROUNDS):
            self._round()
            if not self.doubted:
                return self.state
            self.fresh = True
        raise Failed(f"{self.server.url}: it changed in each of {MOST_ROUNDS} rounds")

    def _round(self):
        listed, changes = self.server.list(self.state.token, self.fresh)
        held = self.state.zones
        zones = merged(held, listed.zones) if changes else listed.zones
        check_names(zones)
        again = self.doubted if listed.token != self.state.token else set()
        self.doubted = set()
        for tzid in [*listed.zones, *(again & set(zones) - set(listed.zones))]:
            zone, old = zones[tzid], held.get(tzid)
            if old is not None and old.etag == zone.etag and tzid not in again:
                zones[tzid] = zone._replace(tag=old.tag, digest=old.digest)
            else:
                zones[tzid] = self._get(tzid, zone, old)
        self.state = State(listed.token, zones)
        self.files = {tzid: data for tzid, data in self.files.items() if tzid in zones}

    def _get(self, tzid, zone, old):
        data, tag = self._ask(tzid, old)
        if not self.fresh and not tells(tag, zone.etag):
            self.fresh = True
            data, tag = self._ask(tzid, old)
            self.fresh = not tells(tag, zone.etag)
        if not tells(tag, zone.etag):
            self.doubted.add(tzid)
        if data is None:
            return zone._replace(tag=tag, digest=old.digest)
        self.files[tzid] = data
        return zone._replace(tag=tag, digest=hashlib.sha256(data).hexdigest())

    def _ask(self, tzid, old):
        self.gets += 1
        # a tag that shows the old entry can't be that of a new one
        tag = old.tag if old and not tells(old.tag, old.etag) else None
        return self.server.get(tzid, tag, self.fresh)


# ---- trees


def synced(path):
    """Makes sure that a file or a folder is on the disk."""
    descriptor = os.open(path, os.O_RDONLY)
    try:
        os.fsync(descriptor)
    finally:
        os.close(descriptor)


def write(path, data):
    with open(path, "wb") as file:
        file.write(data)
        file.flush()
        os.fsync(file.fileno())


class Trees:
    """The link DIR, and the trees beside it, by rising numbers."""

    def __init__(self, link):
        self.link = os.path.abspath(link)
        self.folder = self.link + ".trees"
        self.targets = re.compile(re.escape(os.path.basename(self.folder)) + r"/([1-9][0-9]*)/zoneinfo")

    def __enter__(self):
        """One run at a time works here, and none where DIR is something else."""
        self.current()
        os.makedirs(self.folder, exist_ok=True)
        self.lock = open(os.path.join(self.folder, "lock"), "w")
        try:
            fcntl.flock(self.lock, fcntl.LOCK_EX | fcntl.LOCK_NB)
        except BlockingIOError:
            self.lock.close()
            raise Failed(f"{self.link}: another run is at work") from None
        return self

    def __exit__(self, *_):
        self.lock.close()

    def current(self):
        """The number of the tree to which DIR leads, 0 where there is no DIR."""
        if not os.path.lexists(self.link):
            return 0
        target = os.readlink(self.link) if os.path.islink(self.link) else ""
        found = self.targets.fullmatch(target)
        if found is None:
            raise Failed(f"{self.link}: is there, and is no link to a tree in {self.folder}")
        return int(found.group(1))

    def path(self, number, *names):
        return os.path.join(self.folder, str(number), *names)

    def document(self, number):
        """What the state of a tree says as JSON; nothing where there is none."""
        try:
            with open(self.path(number, "state.json"), "rb") as file:
                document = json.load(file)
            return document if isinstance(document, dict) else {}
        except (OSError, ValueError, RecursionError):
            return {}

    def held(self, number, url, domain=None):
        """The state of a tree that came from this server, of the zones whose files are what they
        were. Of another server of the same domain the zones count, and the token does not."""
        try:
            document = self.document(number)
            zones = {tzid: held_zone_of(entry) for tzid, entry in document["zones"].items()}
            check_names(zones)
            state = State(document["token"], zones)
            same = document["url"] == url
            related = same or domain is not None and document.get("domain") == domain
            if not related or not isinstance(state.token, str):
                return NOTHING
        except (OSError, Failed, *MISREAD):
            return NOTHING
        whole = {tzid: zone for tzid, zone in zones.items() if self.is_whole(number, tzid, zone)}
        # changes since the token do not name what was lost here, so then all zones are requested
        return state if same and len(whole) == len(zones) else State(None, whole)

    def is_whole(self, number, tzid, zone):
        """The zone's file has its digest, and its aliases lead to it."""
        try:
            with open(self.path(number, "zoneinfo", tzid), "rb") as file:
                if hashlib.sha256(file.read()).hexdigest() != zone.digest:
                    return False
            return all(
                os.readlink(self.path(number, "zoneinfo", name)) == link_text(name, tzid) for name in zone.aliases
            )
        except OSError:
            return False

    def tables(self, number, zones):
        """The tables in a tree, by name."""
        return tables_of(self.path(number, "zoneinfo"), zones)

    def make(self, number, old, state, files, origin, tables):
        """Writes a whole tree: new files as they came, others as links to those of the old tree."""
        root = self.path(number, "zoneinfo")
        folders = {self.path(number), root}
        os.makedirs(root)
        for tzid, zone in state.zones.items():
            for name in (tzid, *zone.aliases):
                folder = os.path.dirname(os.path.join(root, name))
                os.makedirs(folder, exist_ok=True)
                while folder not in folders:
                    folders.add(folder)
                    folder = os.path.dirname(folder)
                if name != tzid:
                    os.symlink(link_text(name, tzid), os.path.join(root, name))
            if tzid in files:
                write(os.path.join(root, tzid), files[tzid])
            else:
                keep(self.path(old, "zoneinfo", tzid), os.path.join(root, tzid))
        for name, data in tables.items():
            write(os.path.join(root, name), data)
        self.write_state(number, state, origin)
        for folder in folders:
            synced(folder)
        synced(self.folder)

    def write_state(self, number, state, origin):
        """Writes the state of a tree, which is there whole or as before."""
        zones = {
            tzid: {"etag": zone.etag, "aliases": list(zone.aliases), "tag": zone.tag, "sha256": zone.digest}
            for tzid, zone in state.zones.items()
        }
        text = json.dumps({**origin, "token": state.token, "zones": zones}, indent=1)
        path = self.path(number, "state.json")
        write(path + ".new", text.encode())
        os.replace(path + ".new", path)
        synced(self.path(number))

    def change_over(self, number):
        """Renames DIR over to a tree: DIR leads to the old one before it, to the new one after."""
        new = os.path.join(self.folder, "link")
        os.symlink(os.path.join(os.path.basename(self.folder), str(number), "zoneinfo"), new)
        os.replace(new, self.link)
        synced(os.path.dirname(self.link))

    def clean(self):
        """Removes what is neither the current tree nor the one before it, such as what a run that
        was ended leaves."""
        with contextlib.suppress(FileNotFoundError):
            os.unlink(os.path.join(self.folder, "link"))
        current = self.current()
        numbers = [int(name) for name in os.listdir(self.folder) if re.fullmatch("[1-9][0-9]*", name)]
        before = max((number for number in numbers if number < current), default=0)
        for number in numbers:
            if number not in (current, before):
                shutil.rmtree(self.path(number))


def link_text(alias, tzid):
    return os.path.relpath(tzid, os.path.dirname(alias) or ".")


def keep(old, new):
    """A file of the old tree in the new one: the same file where the disk can have it so."""
    try:
        os.link(old, new)
    except OSError:
        with open(old, "rb") as file:
            write(new, file.read())


# ---- the runs


def tables_of(folder, zones):
    """The tables in a folder, by name, but for those that have the name of a zone."""
    names = {name.split("/")[0] for tzid, zone in zones.items() for name in (tzid, *zone.aliases)}
    found = {}
    for table in TABLES:
        path = os.path.join(folder, table)
        if table not in names and os.path.isfile(path):
            with open(path, "rb") as file:
                found[table] = file.read()
    return found


def fetch(url, directory, wishes=PLAIN, path=None):
    """Brings DIR to what the server has, and returns the line that says so. The path is that of its
    context; without one the URL has it, or the well-known address says it."""
    with Trees(directory) as trees:
        current = trees.current()
        trees.clean()
        held = trees.held(current, url, wishes.domain)
        context = context_of(url, wishes.cacert) if path is None else url + "/" + path.strip("/")
        server = Server(context.rstrip("/"), wishes.cacert)
        catching = Catching(server, held)
        try:
            state = catching.run()
        finally:
            server.close()
        tables = tables_of(wishes.tables, state.zones) if wishes.tables else {}
        same = held.token is not None and state.zones == held.zones
        if same and (not wishes.tables or tables == trees.tables(current, state.zones)):
            if state.token == held.token:
                return f"{directory}: {state.token}, nothing changed"
            trees.write_state(current, state, {"url": url, "domain": wishes.domain})
            return f"{directory}: {state.token}, no zone changed"
        try:
            origin = {"url": url, "domain": wishes.domain}
            trees.make(current + 1, current, state, catching.files, origin, tables)
            trees.change_over(current + 1)
        finally:
            trees.clean()
    names = sum(1 + len(zone.aliases) for zone in state.zones.values())
    return f"{directory}: {state.token}, {len(state.zones)} zones, {names} names, {catching.gets} asked for"


def servers_of(options):
    """The servers to try, each by its URL and its context path."""
    if options.domain is None:
        return [(options.url, None)]
    # a package that is removed leaves nothing behind
    sys.dont_write_bytecode = True
    try:
        from discovery import Resolver, Undiscovered, candidates
    except ImportError:
        raise Failed("--domain needs discovery.py beside this script") from None
    trees = Trees(options.dir)
    try:
        used = trees.document(trees.current()).get("url")
        return candidates(options.domain, Resolver(options.dns), used)
    except Undiscovered as fault:
        raise Failed(str(fault)) from None


def run(options):
    """The status of one run, whose line it prints."""
    try:
        if options.tables and not os.path.isdir(options.tables):
            raise Failed(f"--tables: {options.tables} is no folder")
        servers = servers_of(options)
    except (Failed, OSError) as fault:
        print(f"failed: {fault}", file=sys.stderr, flush=True)
        return 1
    wishes = Wishes(options.cacert, options.tables, options.domain)
    for url, path in servers:
        try:
            print(fetch(url, options.dir, wishes, path), flush=True)
            return 0
        except (Failed, OSError) as fault:
            print(f"failed: {fault}", file=sys.stderr, flush=True)
    return 1


EXAMPLE = "Example: fetch_zoneinfo.py --every 3600 https://tz.example.org /var/lib/zoneinfo"


def arguments():
    """The arguments of the command line."""
    parser = argparse.ArgumentParser(
        description="Keeps a zoneinfo tree as a server of RFC 7808 has it.", epilog=EXAMPLE
    )
    parser.add_argument("url", metavar="URL", nargs="?", help="as https://tz.example.org")
    parser.add_argument("dir", metavar="DIR", help="the link to the tree, as /var/lib/tz/zoneinfo")
    parser.add_argument("--domain", metavar="NAME", help="find servers by this domain's DNS records")
    parser.add_argument("--dns", metavar="HOST[:PORT]", help="the DNS server for --domain")
    parser.add_argument("--cacert", metavar="FILE", help="the authorities that HTTPS trusts")
    tables = parser.add_argument("--tables", metavar="FROM")
    tables.help = f"copy {', '.join(TABLES)} from this folder into the tree"
    parser.add_argument("--every", metavar="SECONDS", type=float, help="stay, and ask again after so many seconds")
    options = parser.parse_args()
    if options.every is not None and not 1 <= options.every <= 1e8:
        parser.error("--every: a number of seconds from 1 on is needed")
    if (options.url is None) == (options.domain is None):
        parser.error("either a URL or --domain is needed")
    return options


def main():
    options = arguments()
    os.umask(0o022)
    try:
        status = run(options)
        while options.every is not None:
            # many devices that began at once must not send requests at once for ever
            time.sleep(options.every * random.uniform(0.9, 1.1))
            status = run(options)
    except KeyboardInterrupt:
        return 130
    return status


if __name__ == "__main__":
    sys.exit(main())
