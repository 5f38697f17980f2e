#!/usr/bin/env python3
"""Packs a tree of compiled zone files, as systems ship them, into a release folder for tzdistd.

    pack_zoneinfo.py /usr/share/zoneinfo releases/2025b

The folder is made new, and it appears whole or not at all. Zones and their aliases are those of
`tzdata.zi` in the tree, or of the file that `--tzdata-zi` names. Without either, names whose files
have the same bytes are one zone. `docs/FORMATS.md` says what a release folder contains.

A zone file is written in its slim form: its second block ends where the TZ string of the footer
says the same. Before that its states are compared with those of the file that came. A file that
would say anything else stays as it came. A zone whose file the server would refuse in both forms
is left out with a warning. The TZ string of such a file disagrees with its last transition. With
`--keep-from` the zone stays as an older release has it.
"""

import argparse
import json
import os
import re
import shutil
import sys
import tempfile
import time
from pathlib import Path

# The modules beside this file leave nothing in the folder that a package owns.
sys.dont_write_bytecode = True

from leap_table import date_of, leap_table, warn_of_expiry
from slim_zone import is_tz_string, slim_form
from tz_release import MOMENT_FORM, release_moment, version_in
from zone_file import Refused, read_bytes, read_zone_file
from zone_states import States, first_difference

MOST_ZONES = 4_096
MOST_NAMES = 16_384
MOST_MANIFEST_BYTES = 4_194_304

IDENTIFIER = re.compile(r"[A-Za-z0-9_+.-]+(/[A-Za-z0-9_+.-]+)*")
LABEL = re.compile(r"[\x20-\x7e]{1,64}")
MOMENT = re.compile(r"\d{4}-\d\d-\d\dT\d\d:\d\d:\d\dZ")

# Folders and files of a tree that contain no zone of their own.
SKIPPED_FOLDERS = {"posix", "right"}
SKIPPED_NAMES = {"localtime", "posixrules"}

# The name of the leap table's file in a release. No zone can have it, since no zone is named so.
LEAP_FILE = "leap-seconds.tzif"

FOLDER_MODE, FILE_MODE = 0o755, 0o644


def is_identifier(name):
    return len(name) <= 64 and IDENTIFIER.fullmatch(name) is not None


def check_name(name, where):
    """Refuses a name that is no identifier, or that could not be a file of a release."""
    if not is_identifier(name):
        raise Refused(f"{where}: {name!r} is no identifier of at most 64 bytes")
    if any(part in (".", "..") for part in name.split("/")):
        raise Refused(f"{where}: {name!r} has a segment that names a folder")


# ---- names from tzdata.zi


def links_and_zones(text):
    """The zones of a `tzdata.zi`, and the target of each link."""
    zones, links = [], {}
    for line in text.splitlines():
        words = line.split()
        if words[:1] == ["Z"] and len(words) > 1:
            zones.append(words[1])
        elif words[:1] == ["L"] and len(words) > 2:
            links[words[2]] = words[1]
    return zones, links


def target_of(link, links, zones):
    """The zone at the end of a chain of links."""
    seen = set()
    name = link
    while name not in zones:
        if name in seen or name not in links:
            raise Refused(f"tzdata.zi: the link {link!r} leads to no zone")
        seen.add(name)
        name = links[name]
    return name


def zones_of_source(text, tree):
    """Each zone of a `tzdata.zi` with its aliases.

    A link whose file differs from its target's is refused.
    """
    names, links = links_and_zones(text)
    known = set(names)
    zones = {name: [] for name in names}
    for link in links:
        target = target_of(link, links, known)
        file = tree / link
        if file.is_file() and read_bytes(file) != read_bytes(tree / target):
            raise Refused(f"{file}: other bytes than its target {target!r}")
        zones[target].append(link)
    return zones


# ---- names from the files themselves


def named_by(table):
    """The zones that a table of countries names, if it is there."""
    if not table.is_file():
        return set()
    rows = (line.split("\t") for line in table.read_text().splitlines() if line and line[0] != "#")
    return {row[2] for row in rows if len(row) > 2}


def zone_files(tree):
    """The names of all files of a tree that are TZif files, in rising order."""
    found = []
    for folder, folders, files in os.walk(tree):
        inside = Path(folder).relative_to(tree)
        if inside == Path("."):
            folders[:] = [name for name in folders if name not in SKIPPED_FOLDERS]
        for file in files:
            name = (inside / file).as_posix()
            if name not in SKIPPED_NAMES and read_bytes(tree / name)[:4] == b"TZif":
                found.append(name)
    return sorted(found, key=str.encode)


def zones_of_files(tree):
    """Each zone of a tree with its aliases: names whose files have the same bytes are one zone."""
    groups = {}
    for name in zone_files(tree):
        groups.setdefault(read_bytes(tree / name), []).append(name)
    tables = [named_by(tree / "zone1970.tab"), named_by(tree / "zone.tab")]
    zones = {}
    for names in groups.values():
        zone = first_named(names, tables)
        zones[zone] = [name for name in names if name != zone]
    return zones


def first_named(names, tables):
    """The first of the names that a table has, of the first table with any of them.

    Without such a table it is the first of all.
    """
    for table in tables:
        for name in names:
            if name in table:
                return name
    return names[0]


# ---- the files


def disagrees(data, footer):
    """Whether the server would refuse a file for its TZ string."""
    return is_tz_string(footer) and not States(data).footer_agrees()


class OlderFiles:
    """The zone files of an older release, by each of their names."""

    def __init__(self, folder):
        self.paths = {}
        if folder is None:
            return
        try:
            manifest = json.loads(read_bytes(folder / "manifest.json"))
            for zone in manifest["zones"]:
                for name in (zone["tzid"], *zone.get("aliases", [])):
                    self.paths[name] = folder / zone["file"]
        except (ValueError, KeyError, TypeError) as error:
            raise Refused(f"{folder}/manifest.json: no manifest of a release") from error

    def of(self, zone):
        """The bytes of a zone's file that the server accepts, or None."""
        if zone not in self.paths:
            return None
        path = self.paths[zone]
        data = read_bytes(path)
        return None if disagrees(data, read_zone_file(data, path).footer) else data


class Files:
    """The bytes of each zone's file in a release, and what became of their form."""

    def __init__(self, as_they_are, older):
        self.as_they_are, self.older = as_they_are, older
        self.contents, self.slim, self.unlike = {}, 0, []
        self.left_out, self.kept = [], []

    def add(self, zone, path):
        data = read_bytes(path)
        parts = read_zone_file(data, path)
        if disagrees(data, parts.footer):
            self._keep_or_leave_out(zone)
            return
        if not self.as_they_are:
            data = self._slim(zone, data, slim_form(data, parts))
        self.contents[zone] = data

    def _keep_or_leave_out(self, zone):
        data = self.older.of(zone)
        if data is None:
            self.left_out.append(zone)
            return
        self.contents[zone] = data
        self.kept.append(zone)

    def _slim(self, zone, data, slim):
        """The slim form of a file, where it says what the file says."""
        if slim == data:
            return data
        if first_difference(data, slim) is not None or not States(slim).footer_agrees():
            self.unlike.append(zone)
            return data
        self.slim += 1
        return slim


# ---- the release


def check_limits(zones):
    names = [name for zone, aliases in zones.items() for name in (zone, *aliases)]
    if len(zones) > MOST_ZONES:
        raise Refused(f"{len(zones)} zones, more than {MOST_ZONES}")
    if len(names) > MOST_NAMES:
        raise Refused(f"{len(names)} names, more than {MOST_NAMES}")
    seen = set()
    for name in names:
        if name in seen:
            raise Refused(f"the name {name!r} stands twice")
        seen.add(name)


def newest_change(tree, zones):
    """When the newest of the zone files changed, as the text of a moment."""
    seconds = max((int((tree / name).stat().st_mtime) for name in zones), default=0)
    return time.strftime(MOMENT_FORM, time.gmtime(seconds))


def check_labels(version, stamp, publisher):
    for name, label in (("version", version), ("publisher", publisher)):
        if label is None:
            raise Refused(f"the tree tells no {name}: give one by --{name}")
        if LABEL.fullmatch(label) is None:
            raise Refused(f"--{name} {label!r}: 1 to 64 printable ASCII characters are wanted")
    if MOMENT.fullmatch(stamp) is None or not "1800" <= stamp[:4] <= "9998":
        form = "YYYY-MM-DDTHH:MM:SSZ of the years 1800 to 9998"
        raise Refused(f"--stamp {stamp!r}: {form} is wanted")
    try:
        time.strptime(stamp, MOMENT_FORM)
    except ValueError as error:
        raise Refused(f"--stamp {stamp!r}: there is no such moment") from error


def checked_files(tree, zones, options):
    """The files of the zones, in rising order of the names, all of which are checked too."""
    older = OlderFiles(Path(options.keep_from) if options.keep_from else None)
    files = Files(options.as_they_are, older)
    for zone in sorted(zones, key=str.encode):
        for name in (zone, *zones[zone]):
            check_name(name, tree / name)
        files.add(zone, tree / zone)
    if files.left_out and not files.contents:
        raise Refused(f"{tree}: no zone is left, since the TZ string of each disagrees with its file")
    return files


def warn_of_faulty_files(files):
    """Says on standard error which zones have a file that the server would refuse."""
    cause = "its TZ string disagrees with its last transition"
    advice = "`zic -b fat` makes one that agrees"
    for zone in files.left_out:
        print(f"warning: {zone}: left out, since {cause}: {advice}", file=sys.stderr)
    for zone in files.kept:
        print(f"warning: {zone}: kept as it was, since {cause}: {advice}", file=sys.stderr)


def make_folder(folder):
    """Makes a folder and those above it that are missing, which all may read whatever the umask."""
    if not folder.is_dir():
        make_folder(folder.parent)
        folder.mkdir()
        folder.chmod(FOLDER_MODE)


def write_file(path, data):
    make_folder(path.parent)
    path.write_bytes(data)
    path.chmod(FILE_MODE)


def write_release(folder, files, zones, labels, leaps):
    """Writes the files of a release, and its manifest last."""
    entries = []
    for zone, data in files.contents.items():
        write_file(folder / zone, data)
        entry = {"tzid": zone, "file": zone}
        if zones[zone]:
            entry["aliases"] = sorted(zones[zone], key=str.encode)
        entries.append(entry)
    manifest = {**labels, "zones": entries}
    if leaps:
        data, expires = leaps
        write_file(folder / LEAP_FILE, data)
        manifest["leapseconds"] = {"file": LEAP_FILE, "expires": date_of(expires)}
    text = json.dumps(manifest, separators=(",", ":")).encode()
    if len(text) > MOST_MANIFEST_BYTES:
        raise Refused(f"manifest.json: {len(text)} bytes, more than {MOST_MANIFEST_BYTES}")
    write_file(folder / "manifest.json", text)


def write_whole(target, *release):
    """Writes a release beside its place first, so that it appears whole or not at all."""
    make_folder(target.parent)
    half = Path(tempfile.mkdtemp(prefix=f".{target.name}.", dir=target.parent))
    try:
        write_release(half, *release)
        half.chmod(FOLDER_MODE)
        half.rename(target)
    except BaseException:
        shutil.rmtree(half, ignore_errors=True)
        raise


def labels_of(options, tree, source, zones):
    """Publisher, version and stamp of the release."""
    released = version_in(source)
    version = options.version if options.version is not None else released
    stamp = options.stamp or release_moment(tree, released or version) or newest_change(tree, zones)
    check_labels(version, stamp, options.publisher)
    return {"publisher": options.publisher, "version": version, "stamp": stamp}


def leaps_of(options, tree):
    """The file and the expiry of the leap table, or None where the release is to have none."""
    leaps = None if options.no_leap_seconds else leap_table(tree)
    if leaps:
        warn_of_expiry(tree, leaps[1])
    elif options.leap_seconds:
        tables = "neither leap-seconds.list nor leapseconds"
        raise Refused(f"{tree}: {tables} says when the leap table expires")
    return leaps


def summary(target, zones, files, labels, leaps, seconds):
    """What was packed, for the operator."""
    names = sum(1 + len(aliases) for aliases in zones.values())
    weight = sum(map(len, files.contents.values()))
    table = f"leap seconds until {date_of(leaps[1])}" if leaps else "no leap seconds"
    rest = len(zones) - files.slim
    version = f"version {labels['version']} of {labels['stamp']}"
    yield f"{version}, {len(zones)} zones, {names} names, {table}"
    forms = f"{files.slim} zone files in slim form, {rest} as they came"
    yield f"{forms}; {weight} bytes, {seconds:.1f} seconds"
    if files.unlike:
        yield f"as they came, since the slim form would differ: {', '.join(files.unlike)}"
    if files.left_out:
        yield f"left out, since their files are faulty: {', '.join(files.left_out)}"
    if files.kept:
        yield f"as they were, since their files are faulty: {', '.join(files.kept)}"


def pack(options):
    began = time.monotonic()
    tree, target = Path(options.zoneinfo), Path(options.dir)
    if not tree.is_dir():
        raise Refused(f"{tree}: no folder")
    if target.exists():
        raise Refused(f"{target}: is there already")
    source = Path(options.tzdata_zi) if options.tzdata_zi else tree / "tzdata.zi"
    text = read_bytes(source).decode() if options.tzdata_zi or source.is_file() else None
    zones = zones_of_files(tree) if text is None else zones_of_source(text, tree)
    check_limits(zones)
    files = checked_files(tree, zones, options)
    zones = {zone: aliases for zone, aliases in zones.items() if zone in files.contents}
    labels = labels_of(options, tree, text, zones)
    leaps = leaps_of(options, tree)
    write_whole(target, files, zones, labels, leaps)
    warn_of_faulty_files(files)
    for line in summary(target, zones, files, labels, leaps, time.monotonic() - began):
        print(f"{target}: {line}")


def options_of(words):
    parser = argparse.ArgumentParser(
        description="Packs a tree of compiled zone files into a release folder.",
        epilog="example: pack_zoneinfo.py /usr/share/zoneinfo releases/2025b",
    )
    add = parser.add_argument
    add("zoneinfo", metavar="ZONEINFO", help="the tree, as /usr/share/zoneinfo")
    add("dir", metavar="DIR", help="the folder to make, which must not exist")
    add("--tzdata-zi", metavar="FILE", help="the source of names (default: tzdata.zi of the tree)")
    add("--version", help="the release's version (default: that of tzdata.zi)")
    add(
        "--stamp",
        metavar="MOMENT",
        help="when it was published (default: the date of the tz release, by the news that the "
        "package tzdata installs; without those, the newest zone file's change)",
    )
    add("--publisher", default="IANA", help="who published it (default: IANA)")
    add("--as-they-are", action="store_true", help="copies the zone files as they came")
    add(
        "--keep-from",
        metavar="RELEASE",
        help="takes a zone whose file is faulty from this release, if it has the zone",
    )
    leaps = parser.add_mutually_exclusive_group()
    add = leaps.add_argument
    add("--leap-seconds", action="store_true", help="refuses a tree without a leap second table")
    add("--no-leap-seconds", action="store_true", help="leaves out the tree's leap second table")
    return parser.parse_args(words)


def main():
    try:
        pack(options_of(sys.argv[1:]))
    except Refused as fault:
        sys.exit(f"refused: {fault}")
    except OSError as error:
        sys.exit(f"failed: {error}")


if __name__ == "__main__":
    main()
