"""Gives a CalDAV server, Radicale, events with served calendars, and looks for them by time.

Part of try_readers.py. Python's standard library only.
"""

import datetime
import http.client
import os
import subprocess
import time
from urllib.parse import quote
from zoneinfo import ZoneInfo

from served import HOST, Client, Failure, free_port

UTC = datetime.timezone.utc
HOUR = datetime.timedelta(hours=1)
NEXT_YEAR = datetime.datetime.now(UTC).year + 1
PYTHON = "/usr/bin/python3"

# Zones with rules of the north and the south, without rules, of odd offsets, and with late changes.
ZONES = """
    Africa/Cairo America/Asuncion America/Havana America/Los_Angeles America/Mexico_City
    America/New_York America/Nuuk America/Santiago America/Sao_Paulo America/St_Johns
    Asia/Almaty Asia/Beirut Asia/Kathmandu Asia/Tokyo Australia/Lord_Howe Australia/Sydney
    Europe/Berlin Europe/London Europe/Moscow Pacific/Apia
""".split()
QUERIES = (("whole", ""), ("from this year on", f"?start={NEXT_YEAR - 1}-01-01T00:00:00Z"))
DAYS = ((1, 15), (7, 15))

# What a busy machine may need for the start of Radicale, or for a reply.
START_SECONDS = 120

CONFIG = """[server]
hosts = {address}
[auth]
type = none
[rights]
type = authenticated
[storage]
filesystem_folder = {folder}
[web]
type = none
"""
MAKE = """<?xml version="1.0"?>
<C:mkcalendar xmlns:D="DAV:" xmlns:C="urn:ietf:params:xml:ns:caldav"/>"""
QUERY = """<?xml version="1.0"?>
<C:calendar-query xmlns:D="DAV:" xmlns:C="urn:ietf:params:xml:ns:caldav">
<D:prop><D:getetag/></D:prop>
<C:filter><C:comp-filter name="VCALENDAR"><C:comp-filter name="VEVENT">
<C:time-range start="{start}" end="{end}"/>
</C:comp-filter></C:comp-filter></C:filter></C:calendar-query>"""
EVENT = (
    "BEGIN:VEVENT\r\nUID:{name}\r\nDTSTAMP:20250101T000000Z\r\nDTSTART;TZID={zone}:{start}\r\n"
    "DURATION:PT1H\r\nSUMMARY:Nine\r\nEND:VEVENT\r\nEND:VCALENDAR\r\n"
)


class Radicale:
    """A server with one calendar, at a free port."""

    def __init__(self, room):
        self.port = free_port()
        os.mkdir(room)
        folder = os.path.join(room, "collections")
        config = os.path.join(room, "config")
        with open(config, "w") as file:
            file.write(CONFIG.format(address=f"{HOST}:{self.port}", folder=folder))
        words = [PYTHON, "-m", "radicale", "--config", config]
        self.child = subprocess.Popen(words, stdout=subprocess.DEVNULL, stderr=subprocess.DEVNULL)
        self._await()

    def _await(self):
        until = time.monotonic() + START_SECONDS
        while time.monotonic() < until:
            try:
                if self.ask("MKCALENDAR", "/user/trial/", MAKE)[0] == 201:
                    return
            except OSError:
                time.sleep(0.1)
        self.close()
        raise Failure("Radicale did not make a calendar")

    def ask(self, method, path, body, **fields):
        """Status and body of a reply."""
        connection = http.client.HTTPConnection(HOST, self.port, timeout=START_SECONDS)
        headers = {"Authorization": "Basic dXNlcjp1c2Vy", "Content-Type": "text/xml", **fields}
        connection.request(method, path, body.encode(), headers)
        reply = connection.getresponse()
        text = reply.read().decode("utf-8", "replace")
        connection.close()
        return reply.status, text

    def put(self, name, text):
        fields = {"Content-Type": "text/calendar"}
        status, answer = self.ask("PUT", f"/user/trial/{name}.ics", text, **fields)
        if status != 201:
            raise Failure(f"Radicale answers {status} to the event {name}: {answer[:200]}")

    def finds(self, name, start):
        """Whether the event is found in the hour that begins at a moment."""
        bounds = {"start": f"{start:%Y%m%dT%H%M%SZ}", "end": f"{start + HOUR:%Y%m%dT%H%M%SZ}"}
        status, answer = self.ask("REPORT", "/user/trial/", QUERY.format(**bounds), Depth="1")
        if status != 207:
            raise Failure(f"Radicale answers {status} to a query: {answer[:200]}")
        return f"/{name}.ics" in answer

    def close(self):
        self.child.terminate()
        self.child.wait(20)


def events(client, query):
    """Each event with a calendar by this query: its name, its text, and when it begins."""
    for zone in ZONES:
        target = f"/tzdist/zones/{quote(zone, safe='')}{query}"
        calendar = client.ask(target, timeout=60).body.decode()
        for month, day in DAYS:
            start = datetime.datetime(NEXT_YEAR, month, day, 9, tzinfo=ZoneInfo(zone))
            name = f"{zone}-{month}".replace("/", "-")
            event = EVENT.format(name=name, zone=zone, start=f"{start:%Y%m%dT%H%M%S}")
            yield name, calendar.replace("END:VCALENDAR\r\n", event), start.astimezone(UTC)


def is_found(server, name, text, start):
    """Whether an event that is given to a server is found at its time, and not an hour before."""
    server.put(name, text)
    return server.finds(name, start) and not server.finds(name, start - HOUR)


def report(room, port):
    """Prints how many events Radicale finds at their time, and not an hour before.

    The calendars are those of the server at a port.
    """
    found = subprocess.run([PYTHON, "-c", "import radicale"], capture_output=True, check=False)
    if found.returncode != 0:
        print("radicale: passed over: radicale is not installed")
        return
    for form, query in QUERIES:
        with Client(port) as client:
            given = list(events(client, query))
        # A process keeps the first calendar of a zone that it reads, so each form has its own.
        server = Radicale(os.path.join(room, f"radicale-{len(query)}"))
        try:
            results = {event[0]: is_found(server, *event) for event in given}
        finally:
            server.close()
        wrong = [name for name, right in results.items() if not right]
        counts = f"{len(results)} events in {len(ZONES)} zones"
        print(f"\nradicale, {form}: {counts}, {len(wrong)} not found where they are")
        for name in wrong:
            print(f"    {name}")
