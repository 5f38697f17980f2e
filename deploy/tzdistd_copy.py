"""The last copy of a mirror: what it serves, kept as a release folder for a start without the
upstream.

Each copy is a folder with a number for a name. It has the manifest, a file for each zone, and the
list of the zones with their tags. A copy appears whole, after the program has checked it, and then
replaces the one before.

Python's standard library only.
"""

import contextlib
import hashlib
import http.client
import json
import os
import re
import shutil
import struct
import subprocess
from urllib.parse import quote

from tzdistd_service import Failed

LIST_FILE = "list.json"
MOST_LIST_BYTES = 16 << 20
MOST_ZONE_BYTES = 65_536
# How often a copy is started again where the mirror installs a release meanwhile.
TRIES = 5
SILENCE = 20
# How long a slow machine may take to check a copy.
CHECK_SECONDS = 600


class Changed(Exception):
    """The mirror has another release now than the list that was read."""


def host_and_port(address):
    """The two parts of HOST:PORT, where HOST may be an IPv6 address in brackets."""
    found = re.fullmatch(r"(?:\[([^\]]+)\]|([^\[\]:]+)):(\d{1,5})", address)
    if not found:
        raise Failed(f"{address!r} is no HOST:PORT")
    return found.group(1) or found.group(2), int(found.group(3))


def near(address):
    """The address at which a client of this machine reaches a server that listens at an address."""
    host, port = host_and_port(address)
    return {"0.0.0.0": "127.0.0.1", "::": "::1"}.get(host, host), port


def tag_of(entry, data):
    """The tag of a zone: SHA-256 of its name, its aliases and its file, each after its length."""

    def sized(part):
        return struct.pack(">I", len(part)) + part

    aliases = sorted(name.encode() for name in entry.get("aliases", []))
    content = sized(entry["tzid"].encode()) + struct.pack(">I", len(aliases))
    content += b"".join(sized(name) for name in aliases) + sized(data)
    return hashlib.sha256(content).hexdigest()[:32]


def write(path, data):
    """Writes a file, and returns once it is on the disk."""
    with open(path, "wb") as file:
        file.write(data)
        file.flush()
        os.fsync(file.fileno())


def sync_folder(path):
    """Writes the names in a folder to the disk."""
    descriptor = os.open(path, os.O_RDONLY)
    try:
        os.fsync(descriptor)
    finally:
        os.close(descriptor)


def body_of(server, target, most, accept):
    """The body of a reply with status 200."""
    try:
        server.request("GET", target, headers={"Accept": accept})
        reply = server.getresponse()
        body = reply.read(most + 1)
    except (OSError, http.client.HTTPException) as error:
        raise Failed(f"{target}: {error or type(error).__name__}") from None
    if reply.status == 404 and accept == "application/tzif":
        raise Changed
    if reply.status != 200 or len(body) > most:
        raise Failed(f"{target}: status {reply.status}, {len(body)} bytes")
    return body


def manifest_of(zones):
    """The manifest of a release with the zones of a list. Its labels are those of the newest
    change."""
    newest = max(zones, key=lambda entry: entry["last-modified"])
    listed = []
    for number, entry in enumerate(zones):
        aliases = entry.get("aliases", [])
        listed.append({"tzid": entry["tzid"], "file": f"z{number}", "aliases": aliases})
    labels = {"publisher": newest["publisher"], "version": newest["version"]}
    return {**labels, "stamp": newest["last-modified"], "zones": listed}


class Copies:
    """The folder of the copies, and the program that checks them."""

    def __init__(self, folder, program):
        self.folder, self.program = folder, program

    def numbers(self):
        """The numbers of the copies, the newest first."""
        names = []
        with contextlib.suppress(FileNotFoundError):
            names = os.listdir(self.folder)
        numbers = (int(name) for name in names if re.fullmatch(r"[1-9]\d{0,8}", name))
        return sorted(numbers, reverse=True)

    def path(self, number):
        return os.path.join(self.folder, str(number))

    def zones(self, number):
        """The entries of a copy's list, or None where there is none."""
        try:
            with open(os.path.join(self.path(number), LIST_FILE), "rb") as file:
                return json.load(file)
        except (OSError, ValueError):
            return None

    def problem(self, number):
        """Why a copy cannot be used. It is None where its files are those that were kept, and the
        program accepts them."""
        zones = self.zones(number)
        if not zones:
            return "it has no list"
        try:
            for place, entry in enumerate(zones):
                if tag_of(entry, self._file(number, place)) != entry["etag"]:
                    return f"the file of {entry['tzid']} is not what was kept"
        except (OSError, KeyError, TypeError, AttributeError) as error:
            return str(error)
        return self._refusal(self.path(number))

    def good(self):
        """The number of the newest copy that can be used, or None, and what is wrong with newer
        ones."""
        problems = []
        for number in self.numbers():
            problem = self.problem(number)
            if problem is None:
                return number, problems
            problems.append(f"the copy {self.path(number)} is not used: {problem}")
        return None, problems

    def _file(self, number, place):
        with open(os.path.join(self.path(number), f"z{place}"), "rb") as file:
            return file.read(MOST_ZONE_BYTES + 1)

    def _refusal(self, folder):
        """The fault for which the program refuses a folder, or None."""
        try:
            done = subprocess.run(
                [self.program, "check", folder], stdin=subprocess.DEVNULL, stdout=subprocess.PIPE,
                stderr=subprocess.STDOUT, timeout=CHECK_SECONDS,
            )
        except (OSError, subprocess.TimeoutExpired) as error:
            return str(error)
        printed = done.stdout.decode("utf-8", "replace").strip()
        return None if done.returncode == 0 else printed or f"status {done.returncode}"

    def keep(self, address):
        """Keeps what the mirror at an address serves. Returns the number of zones of a new copy,
        or None where the newest copy has them already."""
        server = http.client.HTTPConnection(*near(address), timeout=SILENCE)
        with contextlib.closing(server):
            for _ in range(TRIES):
                try:
                    body = body_of(server, "/tzdist/zones", MOST_LIST_BYTES, "application/json")
                    zones, numbers = json.loads(body)["timezones"], self.numbers()
                    if not zones or (numbers and self.zones(numbers[0]) == zones):
                        return None
                    self._replace(zones, numbers, self._files(server, zones, numbers))
                    return len(zones)
                except Changed:
                    continue
        raise Failed(f"the mirror changed in each of {TRIES} tries")

    def _files(self, server, zones, numbers):
        """The file of each zone: that of the newest copy where it is the same, or else the
        mirror's."""
        old = {}
        if numbers:
            old = {entry["etag"]: place for place, entry in enumerate(self.zones(numbers[0]) or [])}
        files = []
        for entry in zones:
            data = None
            if entry["etag"] in old:
                with contextlib.suppress(OSError):
                    data = self._file(numbers[0], old[entry["etag"]])
            if data is None or tag_of(entry, data) != entry["etag"]:
                target = "/tzdist/zones/" + quote(entry["tzid"], safe="")
                data = body_of(server, target, MOST_ZONE_BYTES, "application/tzif")
            if tag_of(entry, data) != entry["etag"]:
                raise Changed
            files.append(data)
        return files

    def _replace(self, zones, numbers, files):
        """Writes a copy, lets the program check it, puts it into place and removes the others."""
        number = (numbers[0] if numbers else 0) + 1
        half = self.path(number) + ".new"
        shutil.rmtree(half, ignore_errors=True)
        os.makedirs(half)
        for place, data in enumerate(files):
            write(os.path.join(half, f"z{place}"), data)
        write(os.path.join(half, LIST_FILE), json.dumps(zones).encode())
        write(os.path.join(half, "manifest.json"), json.dumps(manifest_of(zones)).encode())
        refusal = self._refusal(half)
        if refusal:
            shutil.rmtree(half, ignore_errors=True)
            raise Failed(f"the program does not take it: {refusal}")
        sync_folder(half)
        os.rename(half, self.path(number))
        sync_folder(self.folder)
        for old in numbers:
            shutil.rmtree(self.path(old), ignore_errors=True)
