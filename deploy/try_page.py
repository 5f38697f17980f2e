#!/usr/bin/env python3
"""Tries the page of this folder in a real headless browser, behind the proxy of try.py.

    deploy/try_page.py [PROGRAM] [--pictures FOLDER]

    deploy/try_page.py                             tries the program that was built here
    deploy/try_page.py --pictures /var/tmp/page    draws the page, too

The server has releases of the system's zones. The page is loaded and used by mouse and by keys, at
the width of a phone and of a desktop screen, light and dark. What it shows is compared with the C
library, with the release and with what was installed. Every request must go to the proxy. It needs
chromium and what try.py needs, and is run by hand.
"""

import argparse
import contextlib
import importlib
import json
import os
import shutil
import subprocess
import sys
import tempfile
import time

sys.dont_write_bytecode = True
HERE = os.path.dirname(os.path.abspath(__file__))
ROOT = os.path.dirname(HERE)
sys.path[:0] = [HERE, os.path.join(ROOT, "tools")]

from browser import CONTRAST, FITS, PATIENCE, Browser, each, text_at
from proxied import needed, same
from served import PROGRAM, Failure

deploy = importlib.import_module("try")

ZONEINFO = "/usr/share/zoneinfo"
# A phone and a desktop: width, height, and whether it is a small touch screen.
PHONE, DESK = (390, 844, True), (1280, 1000, False)
CHANGED = ["America/Coyhaique", "Asia/Manila", "Asia/Tehran"]
HOSTILE = '<img src=x onerror="window.hurt=1">'
MOST_BYTES = 62_000


# ---- releases


def manifest_of(folder):
    with open(os.path.join(folder, "manifest.json")) as file:
        return json.load(file)


def copied(source, folder, edit):
    """A release like another one, except for an edit of its manifest."""
    shutil.copytree(source, folder)
    manifest = manifest_of(folder)
    edit(manifest)
    with open(os.path.join(folder, "manifest.json"), "w") as file:
        json.dump(manifest, file)
    return folder


def before(manifest):
    """Makes a release from the system's one: three zones differ, and there are no leap seconds."""
    zones = {zone["tzid"]: zone for zone in manifest["zones"]}
    zones["Asia/Manila"]["file"] = zones["Asia/Tokyo"]["file"]
    zones["Asia/Tehran"]["file"] = zones["Asia/Dubai"]["file"]
    del zones["America/Coyhaique"]
    manifest.update(zones=list(zones.values()), version="2025a", stamp="2025-01-21T00:00:00Z")
    del manifest["leapseconds"]


def after(manifest):
    """Makes a later release from the system's one: it has the same zones, and a table that expires
    later."""
    manifest.update(publisher=HOSTILE, stamp="2026-01-01T00:00:00Z")
    manifest["leapseconds"]["expires"] = "9000-01-01"


class Releases:
    """Three releases: the one before the system's, that of the system, and one after it."""

    def __init__(self, deployed):
        at, pack = deployed.releases, os.path.join(ROOT, "tools/pack_zoneinfo.py")
        self.deployed, self.system = deployed, os.path.join(at, "system")
        words = [sys.executable, pack]
        done = subprocess.run([*words, "--help"], check=True, capture_output=True, text=True)
        if "--leap-seconds" in done.stdout:
            words.append("--leap-seconds")
        words += ["--stamp", "2025-03-22T00:00:00Z", "--version", "2025b", ZONEINFO, self.system]
        subprocess.run(words, check=True)
        self.before = copied(self.system, os.path.join(at, "before"), before)
        self.after = copied(self.system, os.path.join(at, "zafter"), after)
        self.zones = {zone["tzid"]: zone for zone in manifest_of(self.system)["zones"]}
        self.expires = manifest_of(self.system)["leapseconds"]["expires"]

    def install(self, folder):
        status = self.deployed.server.say("install", folder)[0]
        same(f"an install of {os.path.basename(folder)}", status, 0)

    def file(self, tzid):
        with open(os.path.join(self.system, self.zones[tzid]["file"]), "rb") as file:
            return file.read()


# ---- what the page shows


def loaded(browser):
    browser.await_that("two lines", "document.querySelectorAll('#chart path').length == 2")
    names = each("#chart text", "one.textContent")
    wanted = {"CET", "CEST", "EST", "EDT", "+01:00", "+02:00", "\u221205:00", "\u221204:00", "2025"}
    same("names at the lines, of those wanted", wanted - set(browser.value(names)), set())
    # Italy's clocks go forward at 01:00 UTC on the last Sunday of March.
    row = "document.querySelector('#changes tbody').innerText.split('\\n')[0]"
    browser.value("document.querySelector('#changes').closest('details').open = true")
    same("a change", browser.value(row).split("\t"), [
        "Sun 2021-03-28 02:00:00 \u2192 03:00:00", "Sun 2021-03-28 06:30:00",
        "2021-03-28T01:00:00Z", "+01:00 \u2192 +02:00", "CEST",
    ])
    count = "one.rows.length"
    same("changes of ten years", browser.value(each("#changes tbody", count)), [20, 20])
    same("next changes", browser.value(each("#next tbody", count)), [4, 4])
    same("the alias", "Alias of" in browser.value(text_at("about1")), True)
    same("the countries", "Italy" in browser.value(text_at("about0")), True)
    legend = "Europe/Rome: CET (+01:00), CEST (+02:00)"
    same("the legend", legend in browser.value(text_at("legend")), True)


def release_meanwhile(browser, releases):
    """The page knows only the date of the release before. The next one comes while it is open."""
    all_same = "All zones have the date 2025-01-21."
    browser.await_that("no later change", f"{text_at('last')}.startsWith({all_same!r})")
    same("no leap seconds", "no table" in browser.value(text_at("leaps")), True)
    since = "Not since 2025-01-21, version 2025a. What this server knows begins there."
    same("when Rome changed", since in browser.value(text_at("about0")), True)
    releases.install(releases.system)
    browser.value("document.dispatchEvent(new Event('visibilitychange'))")
    exact = f"Release 3 changed 3 of {len(releases.zones)} zones."
    browser.await_that("the release meanwhile", f"{text_at('last')}.startsWith({exact!r})")
    last_changes(browser)
    search(browser, 0, "Asia/Manila")
    browser.await_that("Manila", "location.hash.startsWith('#Asia%2FManila&')")
    dated = f"/Last changed\\s+2025-03-22, version 2025b/.test({text_at('about0')})"
    browser.await_that("when Manila changed", dated)
    search(browser, 0, "Europe/Rome")
    browser.await_that("Rome again", f"{text_at('head0')} == 'First zone: Europe/Rome'")
    search(browser, 0, "")


def last_changes(browser):
    names = each("#last tbody tr", "one.cells[0].innerText")
    same("what the last release changed", browser.value(names), CHANGED)
    rings = each("#map .ring", "one.parentNode.dataset.zone")
    browser.await_that("the rings", f"{rings}.sort().join() == {','.join(CHANGED)!r}")


def leap_seconds(browser, releases):
    shown = browser.value(text_at("leaps"))
    same("the difference of TAI", "TAI is 37 seconds ahead of UTC since 2017-01-01." in shown, True)
    today = time.strftime("%Y-%m-%d", time.gmtime())
    word = "expired" if releases.expires < today else "expires"
    same("the expiry", f"This table {word} on {releases.expires}." in shown, True)


def clocks(browser):
    """The clocks of both zones run, and are right."""
    for side, zone in enumerate(("Europe/Rome", "US/Eastern")):
        text = browser.value(text_at(f"clock{side}"))
        now = int(time.time())
        offset, _, name = local(zone, now)
        # a browser on a busy machine may be late
        moments = [time.gmtime(now + offset - late) for late in range(-1, 30)]
        wanted = [f"{time.strftime('%a %Y-%m-%d %H:%M:%S', one)} {name}" for one in moments]
        same(f"the clock of {zone}", text.rsplit(" ", 1)[0] in wanted, True)
        browser.await_that("a clock that goes on", f"{text_at(f'clock{side}')} != {text!r}")


def local(zone, moment):
    """Offset, daylight flag and name that the C library gives in a zone at a moment."""
    mine = os.environ.get("TZ")
    os.environ["TZ"] = zone
    time.tzset()
    found = time.localtime(moment)
    if mine is None:
        del os.environ["TZ"]
    else:
        os.environ["TZ"] = mine
    time.tzset()
    return found.tm_gmtoff, found.tm_isdst == 1, found.tm_zone


# ---- searching

NO_FACTS = "document.getElementById('about0').hidden"


def search(browser, side, text):
    """Types into the search field of a side, or empties it."""
    field = f"document.getElementById('search{side}')"
    browser.value(f"{field}.focus()")
    browser.type(text)
    if not text:
        browser.value(f"{field}.value = ''; {field}.dispatchEvent(new Event('input'))")


def found(side=0):
    return f"[...document.getElementById('zones{side}').options].map((one) => one.text)"


def searches(browser):
    """Searches by name, country and abbreviation. Facts are those of a zone that was found."""
    search(browser, 0, "portugal")
    same("a country", browser.value(found()), [
        "Portugal", "Europe/Lisbon (Portugal)", "Atlantic/Madeira (Portugal)",
        "Atlantic/Azores (Portugal)",
    ])
    same("facts of none of them", browser.value(NO_FACTS), True)
    search(browser, 0, "curacao")
    islands = "America/Puerto_Rico (Cura\u00e7ao)"
    browser.await_that("without an accent", f"{found()}.includes('{islands}')")
    search(browser, 0, "jp")
    browser.await_that("a country's code", f"{found()}.includes('Asia/Tokyo (Japan)')")
    search(browser, 0, "chst")
    both = "Pacific/Guam (ChST),Pacific/Saipan (ChST)"
    browser.await_that("two zones of an abbreviation", f"{found()}.join() == '{both}'")
    search(browser, 0, "awst")
    browser.await_that("an abbreviation", f"{found()}.join() == 'Australia/Perth (AWST)'")
    browser.await_that("it is chosen", "location.hash.startsWith('#Australia%2FPerth&')")
    search(browser, 0, "+0545")
    browser.await_that("one of digits", "location.hash.startsWith('#Asia%2FKathmandu&')")
    browser.await_that("its facts", f"{text_at('about0')}.includes('+0545 (+05:45)')")
    search(browser, 0, "zzyzx")
    none = "No name, country or abbreviation of this year fits \u201czzyzx\u201d."
    browser.await_that("no match", f"{text_at('count0')} == {none!r}")
    same("no facts", browser.value(NO_FACTS), True)
    same("nothing near", browser.value(text_at("near0")), "")
    search(browser, 0, "Lisbnoa")
    near = each("#near0 button", "one") + ".find((one) => one.innerText == 'Europe/Lisbon')"
    browser.await_that("a name that is near", near)
    browser.click(near)
    browser.await_that("it is chosen", "location.hash.startsWith('#Europe%2FLisbon&')")
    facts = f"!{NO_FACTS} && {text_at('head0')} == 'First zone: Europe/Lisbon'"
    browser.await_that("its facts", facts)
    same("all names again", browser.value(text_at("count0")).endswith(" names."), True)


def by_keys(browser):
    """Only with keys, zones are searched and chosen, and years, a day and a part of the world are
    set."""
    browser.tab_to("search0")
    browser.type("new york")
    browser.await_that("one match is chosen", "location.hash.startsWith('#America%2FNew_York&')")
    chosen = "1 name. America/New_York is chosen."
    same("what is found", browser.value(text_at("count0")), chosen)
    browser.tab_to("search1")
    browser.type("howe")
    browser.key("ArrowDown")
    browser.key("ArrowDown")
    browser.await_that("a zone by arrows", "location.hash.includes('&Australia%2FL')")
    browser.tab_to("day")
    moved = browser.value("document.getElementById('day').valueAsNumber")
    browser.key("ArrowRight")
    same("the next day", browser.value("document.getElementById('day').valueAsNumber"), moved + 1)
    same("no longer now", browser.value("document.getElementById('now').ariaPressed"), "false")
    browser.tab_to("part")
    browser.key("ArrowDown")
    browser.await_that("a part of the world", "document.querySelectorAll('#map g').length < 100")
    browser.tab_to("from")
    browser.type("1800")
    browser.tab_to("to")
    browser.type("2600")
    browser.key("Enter")
    browser.await_that("many years", "location.hash.endsWith('&1800&2600')")
    many = "document.querySelector('#changes tbody').rows.length == 1000"
    browser.await_that("the first of their changes", many)
    years_and_token(browser)


def years_and_token(browser):
    browser.value("document.getElementById('from').focus()")
    browser.type("2026")
    browser.tab_to("to")
    browser.type("2025")
    browser.key("Enter")
    refused = "!document.getElementById('to').validity.valid"
    browser.await_that("years that fall are refused", refused)
    browser.type("2029")
    browser.key("Enter")
    browser.await_that("other years", "location.hash.endsWith('&2026&2029')")
    browser.value("document.getElementById('token').closest('details').open = true")
    browser.tab_to("token")
    browser.type(deploy.FIRST)
    browser.key("Enter")
    since = f"/^[0-9]+ of [0-9]+ zones changed since 1-/.test({text_at('changed')})"
    browser.await_that("what changed since a token", since)
    browser.type("9-0000000000000000")
    browser.key("Enter")
    unknown = f"{text_at('changed')}.startsWith('Unknown synchronization token')"
    browser.await_that("an unknown token", unknown)


# ---- the map


def set_day(browser, year, day):
    browser.value(f"""(() => {{
        const set = (id, value, event) => {{
            const element = document.getElementById(id);
            element.value = value;
            element.dispatchEvent(new Event(event, {{ bubbles: true }}));
        }};
        set("year", {year}, "change");
        set("day", {day}, "input");
    }})()""")


def offset_text(offset):
    size = abs(offset)
    rest = f":{size % 60:02}" if size % 60 else ""
    return f"{chr(0x2212) if offset < 0 else '+'}{size // 3600:02}:{size // 60 % 60:02}{rest}"


def all_offsets(browser, releases):
    """On some days of some years every zone has the offset and the flag of the C library."""
    browser.value("document.getElementById('list').open = true")
    caption = "document.querySelector('#by-offset caption')?.innerText"
    whole = f"{caption}?.startsWith('{len(releases.zones)} zones')"
    browser.await_that("all zones in the table", whole)
    days = ((1916, 183), (1985, 10), (2026, 32), (2026, 200), (2060, 91), (2300, 300))
    for year, day in days:
        set_day(browser, year, day)
        moment = start_of(year) + (day - 1) * 86400 + 43200
        text = time.strftime("%Y-%m-%d %H:%M:%S UTC", time.gmtime(moment))
        browser.await_that(f"the table of {text}", f"{caption}.endsWith({text!r})")
        shown = offsets_shown(browser)
        wanted = {}
        for tzid in releases.zones:
            offset, flag, _ = local(tzid, moment)
            wanted[tzid] = offset_text(offset), flag
        differing = {tzid for tzid in wanted if shown.get(tzid) != wanted[tzid]}
        same(f"zones that differ of {len(shown)}", differing, set())
    browser.value("document.getElementById('list').open = false")


def offsets_shown(browser):
    """Offset and flag of each zone of the table."""
    rows = each("#by-offset tbody tr", "[...one.cells].map((cell) => cell.innerText)")
    shown = {}
    for offset, standard, summer in browser.value(rows):
        for names, flag in ((standard, False), (summer, True)):
            shown.update((name, (offset, flag)) for name in names.split(", ") if name)
    return shown


def start_of(year):
    """Where a year of UTC begins."""
    days = (year - 1970) * 365 + (year - 1969) // 4 - (year - 1901) // 100 + (year - 1601) // 400
    return days * 86400


def place(name):
    return f"document.querySelector('#map g[data-zone=\"{name}\"]')"


def all_dots(rows):
    return f"document.querySelectorAll('#map .dot').length == {rows}"


def drawn(name):
    """The shape of a place and its colour."""
    dot = f"{place(name)}.querySelector('.dot')"
    return f"[{dot}.tagName, getComputedStyle({dot}).fill]"


def position(browser, name):
    """Where a place is drawn."""
    box = f"{place(name)}.querySelector('.dot').getBoundingClientRect()"
    return browser.value(f"[{box}.x, {box}.y]")


def the_map(browser, rows):
    """Colours and shapes follow the day, places are at the right position, and a click chooses."""
    browser.value("document.getElementById('world').scrollIntoView()")
    browser.await_that("all places", all_dots(rows))
    set_day(browser, 2026, 15)
    browser.await_that("winter", f"{drawn('Europe/Rome')}[0] == 'circle'")
    winter = browser.value(drawn("Europe/Rome"))
    same("the same offset and colour", browser.value(drawn("Africa/Lagos")), winter)
    set_day(browser, 2026, 200)
    browser.await_that("summer", f"{drawn('Europe/Rome')}[0] == 'path'")
    summer = browser.value(drawn("Europe/Rome"))
    same("another colour", summer[1] != winter[1], True)
    johannesburg = browser.value(drawn("Africa/Johannesburg"))
    same("the colour of its offset", johannesburg, ["circle", summer[1]])
    said = browser.value(f"{place('Europe/Rome')}.querySelector('title').textContent")
    same("what a place says", said, "Europe/Rome: +02:00 CEST, daylight saving time")
    names = ("America/Lima", "Europe/Rome", "Asia/Tokyo")
    lima, rome, tokyo = (position(browser, name) for name in names)
    same("places west to east", lima[0] < rome[0] < tokyo[0], True)
    same("places north to south", rome[1] < tokyo[1] < lima[1], True)
    clicks(browser)
    browser.click("document.getElementById('now')")
    today = time.strftime("%Y-%m-%d", time.gmtime())
    browser.await_that("now again", f"{text_at('when')}.includes({today!r})")


def clicks(browser):
    """A click on a place chooses its zone for the side that is set."""
    browser.click("document.querySelector('input[name=target][value=\"1\"]')")
    browser.click(place("Asia/Tokyo") + ".querySelector('.dot')")
    browser.await_that("a click for the second zone", "location.hash.includes('&Asia%2FTokyo&')")
    browser.click("document.querySelector('input[name=target][value=\"0\"]')")
    browser.click(place("Pacific/Honolulu") + ".querySelector('.dot')")
    honolulu = "location.hash.startsWith('#Pacific%2FHonolulu&')"
    browser.await_that("a click for the first zone", honolulu)
    browser.await_that("its facts", f"{text_at('about0')}.includes('HST')")


# ---- files


def downloads(browser, releases):
    """The links give the file, the calendar and the calendar as JSON."""
    search(browser, 0, "Europe/Rome")
    browser.await_that("Rome", f"{text_at('head0')} == 'First zone: Europe/Rome'")
    search(browser, 0, "")
    for text, ending in (("TZif", "tzif"), ("iCalendar", "ics"), ("calendar as JSON", "json")):
        browser.click(each("#about0 a", "one") + f".find((one) => one.innerText == {text!r})")
        data = downloaded(os.path.join(browser.downloads, f"Europe-Rome.{ending}"))
        if ending == "tzif":
            same("the TZif file", data == releases.file("Europe/Rome"), True)
        elif ending == "ics":
            same("the calendar", data.splitlines()[:5][-1], b"TZID:Europe/Rome")
        else:
            same("the calendar as JSON", json.loads(data)[0], "vcalendar")
    path = each("#about0 a", "one.href") + ".at(-1)"
    document = browser.value(f"fetch({path}).then((reply) => reply.json())")
    same("the changes as JSON", document["tzid"], "Europe/Rome")
    same("their years", document["start"], "2021-01-01T00:00:00Z")


def downloaded(path):
    """The bytes of a file, once the browser has written it."""
    end = time.monotonic() + PATIENCE
    while not (os.path.exists(path) and os.path.getsize(path)):
        if time.monotonic() > end:
            raise Failure(f"no {os.path.basename(path)} within {PATIENCE} seconds")
        time.sleep(0.1)
    with open(path, "rb") as file:
        return file.read()


# ---- how it looks

def looks(browser):
    """At the sizes of a phone and a desktop, light and dark, all fits and can be read."""
    for width, height, is_touch in (PHONE, DESK):
        for scheme in ("light", "dark"):
            browser.size(width, height, is_touch, scheme)
            fits = "one.getAttribute('width') == one.parentNode.clientWidth"
            sizes = each("#chart svg, #map svg, #scale svg", fits)
            drawn_anew = f"innerWidth == {width} && {sizes}.join() == 'true,true,true'"
            browser.await_that(f"drawings for {width} pixels", drawn_anew)
            same(f"what does not fit, {scheme}", browser.value(FITS), [])
            same("texts that are hard to read", browser.value(CONTRAST), [True, []])


def read_aloud(browser):
    """Each control has a name, and headings, tables and drawings are read."""
    browser.value(each("details", "one.open = true"))
    nodes = browser.call("Accessibility.getFullAXTree")["nodes"]
    browser.value(each("details", "one.open = false"))
    nodes = [node for node in nodes if not node.get("ignored")]
    read = [(node["role"]["value"], node.get("name", {}).get("value", "")) for node in nodes]
    controls = {
        "searchbox", "textbox", "spinbutton", "button", "listbox", "link", "slider", "radio",
        "combobox",
    }
    nameless = [role for role, name in read if role in controls and not name]
    same("controls without a name", nameless, [])
    roles = {role for role, _ in read}
    others = {"heading", "main", "table", "columnheader", "status", "region", "timer"}
    same("what is read", (controls | others) - roles, set())
    for beginning in ("Offsets.", "Map of "):
        drawings = [name for _, name in read if name.startswith(beginning)]
        same(f"drawings named {beginning}", len(drawings), 1)
    stops = browser.value("document.querySelectorAll('#map [tabindex], #map button').length")
    same("stops of the tabulator in the map", stops, 0)


# ---- what is requested

# Two zones and a range of years, as the address of the page has them.
CHOICE = "/#Europe%2FRome&US%2FEastern&2021&2030"


def opened(browser, url):
    browser.open(url)
    browser.await_that("the page", "document.querySelectorAll('#chart path').length == 2")


def files_from_network(browser):
    """How many TZif files came from the network, and not from the browser's cache."""
    replies = [one["response"] for one in browser.events_of("Network.responseReceived")]
    files = [one for one in replies if one["mimeType"] == "application/tzif"]
    return len([one for one in files if not one.get("fromDiskCache")])


def lazily(browser, url, rows):
    """On a phone the map's files are read once it is seen, and a second visit reads none again."""
    browser.size(*PHONE)
    opened(browser, url + CHOICE)
    browser.call("Network.clearBrowserCache")
    for visit, wanted in ((1, rows), (2, 0)):
        browser.events.clear()
        opened(browser, url + CHOICE)
        time.sleep(1)
        browser.value("0")
        same("files before the map is seen", files_from_network(browser), 0)
        browser.value("document.getElementById('map').scrollIntoView()")
        browser.await_that(f"the map of visit {visit}", all_dots(rows))
        seen = files_from_network(browser)
        same(f"files of visit {visit} that came from the server", seen, wanted)


def without_memory(browser, url, releases):
    """Without a token the dates say what changed. With an older token both say it."""
    count = len(releases.zones)
    browser.value("localStorage.clear()")
    browser.open(url + "/")
    dated = f"3 of {count} zones changed on 2025-03-22, in version 2025b."
    browser.await_that("the last release by dates", f"{text_at('last')}.startsWith({dated!r})")
    browser.value("document.getElementById('map').scrollIntoView()")
    last_changes(browser)
    unknown = "2-0000000000000000"
    tokens = [{"token": one, "day": "2024-12-31"} for one in (unknown, deploy.FIRST)]
    browser.value(f"localStorage.setItem('tzdistd-tokens', {json.dumps(tokens)!r})")
    browser.open(url + "/")
    since = "Since release 1, which this browser saw on 2024-12-31, "
    since += f"{count} of {count} zones changed."
    browser.await_that("since an older visit", f"{text_at('last')}.includes({since!r})")
    stored = browser.value("localStorage.getItem('tzdistd-tokens')")
    same("an unknown token is forgotten", unknown in stored, False)


def without_tables(browser, url):
    """Where the site has no tables there is no map, and all else works."""
    browser.call("Network.setBlockedURLs", urls=["*/tables/*"])
    browser.size(*DESK)
    opened(browser, url + CHOICE)
    same("no map", browser.value("document.getElementById('atlas').hidden"), True)
    same("why", "tables/zone1970.tab" in browser.value(text_at("no-map")), True)
    search(browser, 0, "awst")
    browser.await_that("an abbreviation", "location.hash.startsWith('#Australia%2FPerth&')")
    browser.value("document.getElementById('list').open = true")
    browser.await_that("the list", "document.querySelectorAll('#by-offset tr').length > 30")
    browser.call("Network.setBlockedURLs", urls=[])


def failures(browser, url, rows):
    """A file that cannot be read is named and tried again, and an unreachable server is shown."""
    browser.call("Network.clearBrowserCache")
    browser.call("Network.setBlockedURLs", urls=["*/zones/Asia%2FTokyo"])
    opened(browser, url + CHOICE)
    browser.value("document.getElementById('map').scrollIntoView()")
    missing = f"{text_at('unread')}.startsWith('1 zone file could not be read.')"
    browser.await_that("a file that is missing", missing)
    browser.await_that("all other places", all_dots(rows - 1))
    browser.call("Network.setBlockedURLs", urls=[])
    browser.click("document.getElementById('again')")
    whole = f"{all_dots(rows)} && document.getElementById('unread').hidden"
    browser.await_that("it is there", whole)
    looks_again = "document.dispatchEvent(new Event('visibilitychange'))"
    away = {"latency": 0, "downloadThroughput": -1, "uploadThroughput": -1}
    browser.call("Network.emulateNetworkConditions", offline=True, **away)
    browser.value(looks_again)
    browser.await_that("no answer", f"{text_at('fault')}.startsWith('No answer at ')")
    browser.call("Network.emulateNetworkConditions", offline=False, **away)
    browser.value(looks_again)
    browser.await_that("an answer again", f"{text_at('fault')} == ''")


def passing(browser, url):
    """The clock passes a change of local time, and the changes after it are shown."""
    stopped = browser.call("Page.addScriptToEvaluateOnNewDocument", source="""
        window.moment = Date.parse("2027-03-28T00:59:59Z");
        Date.now = () => window.moment;
    """)["identifier"]
    opened(browser, url + CHOICE)
    before, after = "Sun 2027-03-28 01:59:59 CET (+01:00)", "Sun 2027-03-28 03:00:00 CEST (+02:00)"
    browser.await_that("before it", f"{text_at('clock0')} == {before!r}")
    same("the change to come", browser.value(text_at("next")).split("\n")[2][:14], "Sun 2027-03-28")
    browser.value("window.moment += 1000")
    browser.await_that("after it", f"{text_at('clock0')} == {after!r}")
    first = "document.querySelector('#next tbody').innerText.startsWith('Sun 2027-10-31')"
    browser.await_that("the change after it", first)
    browser.call("Page.removeScriptToEvaluateOnNewDocument", identifier=stopped)


def hostile(browser, url, releases):
    """Markup of a release and of tables is text, and a release without a change is shown as one."""
    releases.install(releases.after)
    table = json.dumps(f"IT\t{HOSTILE}\n{HOSTILE}\t{HOSTILE}\n")
    replaced = browser.call("Page.addScriptToEvaluateOnNewDocument", source=f"""
        const real = window.fetch;
        window.fetch = (path, words) => path === "tables/iso3166.tab"
            ? Promise.resolve(new Response({table})) : real(path, words);
    """)["identifier"]
    opened(browser, url + CHOICE)
    browser.await_that("the hostile release", f"{text_at('release')}.startsWith('Release 4-')")
    browser.await_that("markup of a table", f"{text_at('about0')}.includes({HOSTILE!r})")
    none = f"Release 4 changed 0 of {len(releases.zones)} zones."
    browser.await_that("a release without a change", f"{text_at('last')}.startsWith({none!r})")
    goes_on = "This table expires on 9000-01-01."
    same("a table that goes on", goes_on in browser.value(text_at("leaps")), True)
    same("no element of markup", browser.value("document.querySelectorAll('img').length"), 0)
    same("nothing ran", browser.value("window.hurt === undefined"), True)
    browser.call("Page.removeScriptToEvaluateOnNewDocument", identifier=replaced)


def requests(browser, url):
    """Nothing was requested from another host, and nothing was refused or thrown in the page."""
    sent = [one["request"]["url"] for one in browser.events_of("Network.requestWillBeSent")]
    mine = (url + "/", "data:", "about:", f"blob:{url}/")
    others = [one for one in sent if not one.startswith(mine)]
    same(f"requests of another host, of {len(sent)}", others, [])
    same("what the page threw", browser.events_of("Runtime.exceptionThrown"), [])
    logs = [log["entry"]["text"] for log in browser.events_of("Log.entryAdded")]
    # an unknown token is answered with 400, and the trial blocks requests
    known = ("status of 400", "ERR_BLOCKED_BY_CLIENT", "ERR_INTERNET_DISCONNECTED")
    logs = [text for text in logs if not any(word in text for word in known)]
    same("what the browser complains of", logs, [])


def pictures(browser, url, folder, rows):
    os.makedirs(folder, exist_ok=True)
    sizes = [
        ("", 1080, 1430, False, "light", 0.75), ("-dark", 1280, 3300, False, "dark", 1),
        ("-phone", 390, 4800, True, "light", 1), ("-phone-dark", 390, 4800, True, "dark", 1),
    ]
    for name, width, height, is_touch, scheme, scale in sizes:
        browser.size(width, height, is_touch, scheme, scale)
        opened(browser, url + CHOICE)
        browser.await_that("its map", all_dots(rows))
        time.sleep(1)
        browser.picture(os.path.join(folder, f"page{name}.png"))


# ---- the trial


def rows_of_map(releases):
    """How many rows of the table of places are zones of the release."""
    zones = releases.zones
    known = {name for tzid, zone in zones.items() for name in (tzid, *zone.get("aliases", []))}
    with open(os.path.join(ZONEINFO, "zone1970.tab"), encoding="utf-8") as file:
        names = [line.split("\t")[2].strip() for line in file if not line.startswith("#")]
    return len([name for name in names if name in known])


def tried(deployed, releases, browser, folder):
    url, rows = deployed.nginx.url, rows_of_map(releases)
    weight = os.path.getsize(os.path.join(HERE, "page/index.html"))
    same(f"a page of at most {MOST_BYTES} bytes", weight <= MOST_BYTES, True)
    releases.install(releases.before)
    browser.size(*DESK)
    browser.open(url + CHOICE)
    loaded(browser)
    release_meanwhile(browser, releases)
    leap_seconds(browser, releases)
    clocks(browser)
    looks(browser)
    read_aloud(browser)
    the_map(browser, rows)
    downloads(browser, releases)
    searches(browser)
    all_offsets(browser, releases)
    by_keys(browser)
    requests(browser, url)
    lazily(browser, url, rows)
    without_memory(browser, url, releases)
    if folder:
        pictures(browser, url, folder, rows)
    without_tables(browser, url)
    failures(browser, url, rows)
    passing(browser, url)
    hostile(browser, url, releases)
    requests(browser, url)


def main():
    parser = argparse.ArgumentParser(
        description="Tries the page in a real browser.",
        epilog="example: deploy/try_page.py --pictures /var/tmp/page",
    )
    parser.add_argument("program", nargs="?", default=PROGRAM, help="the built program")
    parser.add_argument("--pictures", metavar="FOLDER", help="where to draw the page")
    options = parser.parse_args()
    needed("chromium", "nginx", "openssl")
    with tempfile.TemporaryDirectory() as room, contextlib.ExitStack() as ends:
        try:
            deployed = deploy.Deployed(room, os.path.abspath(options.program))
            ends.callback(deployed.close)
            deploy.ready(deployed)
            releases = Releases(deployed)
            deployed.start_nginx()
            browser = Browser(room, deployed.nginx.certificate)
            ends.callback(browser.close)
            tried(deployed, releases, browser, options.pictures)
        except Failure as fault:
            sys.exit(f"deploy/try_page.py: {fault}")
    print("page: all well")


if __name__ == "__main__":
    main()
