"""What the service's scripts share: its settings, its folder of releases with their marks, the
program's judgement of folders, and the records of events.

Python's standard library only.
"""

import contextlib
import datetime
import json
import os
import re
import shlex
import stat
import subprocess
import sys
import tempfile
import time

HERE = os.path.dirname(os.path.abspath(__file__))

# As many folders as the program accepts, and as many lines as the log of events keeps.
MOST_FOLDERS = 64
MOST_EVENTS = 1000
MOST_PATH_BYTES = 1024
MARK = ".accepted"

# Faults whose first value is the number of a zone in the manifest.
FAULTS_OF_ZONES = {"4", "10", "11", "12", "13", "14", "15"}

# How long a judgement of 64 folders may take on a slow machine, in seconds.
JUDGING_SECONDS = 600


class Failed(Exception):
    """What ends a script: one line that says what to do, and the status of the script."""

    def __init__(self, text, status=2):
        super().__init__(text)
        self.status = status


def now_text(seconds=None):
    """The text of a time, of now if none is given."""
    return time.strftime("%Y-%m-%dT%H:%M:%SZ", time.gmtime(seconds))


def plain(text):
    """A text as one line that any stream accepts, whatever the name of a file contains."""
    return "".join(letter if letter.isprintable() else "?" for letter in text)


def say(text, level=6):
    """Prints a line for the journal; 6 is information, 4 a warning and 3 an error, as in syslog."""
    prefix = f"<{level}>" if os.environ.get("JOURNAL_STREAM") else ""
    with contextlib.suppress(OSError):
        sys.stdout.buffer.write(f"{prefix}{plain(text)}\n".encode())
        sys.stdout.flush()


class Settings:
    """What /etc/default/tzdistd and the environment say; a value of the environment comes first."""

    def __init__(self, environment=None, file="/etc/default/tzdistd"):
        self.environment = dict(os.environ if environment is None else environment)
        self.values = values_of(self.environment.get("TZDISTD_SETTINGS", file))
        releases = self.value("RELEASES", "/var/lib/tzdistd/releases")
        self.releases = os.path.abspath(releases)
        state = self.environment.get("STATE_DIRECTORY", "").split(":")[0]
        self.state = state or os.path.dirname(self.releases)
        self.refused = os.path.join(self.state, "refused")
        self.runtime = self.value("RUNTIME_DIRECTORY", "/run/tzdistd").split(":")[0]
        self.address = self.value("ADDRESS", "127.0.0.1:8008")
        self.workers = self.value("WORKERS", "4")
        self.rules = self.value("RULES", "").split()
        self.program = self.value("TZDISTD", "tzdistd")
        self.console = self.value("TZDISTD_CONSOLE", os.path.join(HERE, "tzdistd-console"))
        self.follow = self.value("FOLLOW", "yes").lower()
        self.tree = self.value("TREE", "/usr/share/zoneinfo")

    def value(self, name, default):
        return self.environment.get(name) or self.values.get(name) or default


def values_of(path):
    """The values of a file of settings, in the form that systemd reads: NAME=VALUE, perhaps
    quoted."""
    found = {}
    try:
        with open(path, encoding="utf-8", errors="replace") as file:
            lines = file.read().splitlines()
    except FileNotFoundError:
        return found
    except OSError as error:
        raise Failed(f"{path}: {error.strerror}") from error
    for line in lines:
        name, equals, value = line.strip().partition("=")
        if equals and not name.startswith(("#", ";")):
            with contextlib.suppress(ValueError):
                value = " ".join(shlex.split(value)) if value[:1] in ("'", '"') else value
            found[name.strip()] = value.strip()
    return found


# ---- what is written


def write_whole(path, text, mode=0o664):
    """Writes a file that appears whole or not at all. A link in its place is replaced, and not
    followed."""
    handle, half = tempfile.mkstemp(prefix=".", dir=os.path.dirname(path))
    try:
        with os.fdopen(handle, "w", encoding="utf-8") as file:
            file.write(text)
            os.fchmod(file.fileno(), mode)
            give_to_owner(file.fileno(), os.path.dirname(path))
        os.rename(half, path)
    except BaseException:
        os.unlink(half)
        raise


def give_to_owner(descriptor, model):
    """What root made for the service belongs to the owner of the folder `model`."""
    if os.geteuid() == 0:
        owner = os.stat(model)
        os.fchown(descriptor, owner.st_uid, owner.st_gid)


def without_links(path, flags):
    """An opener for files in folders of the service, where root must not follow a link."""
    return os.open(path, flags | os.O_NOFOLLOW)


class Records:
    """The log of events, and the last event, in the state folder; the last also in the runtime
    folder."""

    def __init__(self, settings):
        self.state, self.runtime = settings.state, settings.runtime

    def record(self, what, result, token="", reason="", folder=""):
        """Keeps an event. A record that cannot be written is a warning, and nothing else fails
        because of it."""
        seconds = int(time.time())
        line = f"{now_text(seconds)} what={what} result={result} token={token}"
        line += f" folder={folder}" if folder else ""
        line += f" reason={reason}" if reason else ""
        last = f"time={seconds}\nwhat={what}\nresult={result}\ntoken={token}\n"
        last += f"reason={plain(reason)}\n"
        try:
            self._append(plain(line))
            write_whole(os.path.join(self.state, "last"), last, 0o644)
            if os.path.isdir(self.runtime):
                write_whole(os.path.join(self.runtime, "last"), last, 0o644)
        except OSError as error:
            say(f"the record of an event is not written: {error}", 4)

    def _append(self, line):
        path = os.path.join(self.state, "events.log")
        lines = []
        with contextlib.suppress(FileNotFoundError):
            with open(path, encoding="utf-8", errors="replace", opener=without_links) as file:
                lines = file.read().splitlines()
        write_whole(path, "\n".join([*lines[1 - MOST_EVENTS :], line]) + "\n")

    def last(self):
        """The last event as a map, which is empty before the first."""
        try:
            with open(os.path.join(self.state, "last"), encoding="utf-8", opener=without_links) as file:
                return dict(line.partition("=")[::2] for line in file.read().splitlines())
        except OSError:
            return {}


# ---- the folder of releases


def manifest_of(folder):
    """The manifest of a release folder, or an empty one where it cannot be read."""
    try:
        with open(os.path.join(folder, "manifest.json"), encoding="utf-8") as file:
            found = json.load(file)
    except (OSError, ValueError, RecursionError):
        return {}
    return found if isinstance(found, dict) else {}


def odd_file(folder):
    """The first path in a folder that is neither a folder nor a regular file, or None. A link that
    points outside the folder is such a path."""
    inside = os.path.realpath(folder) + os.sep
    for at, folders, names in os.walk(folder):
        folders.sort()
        for name in sorted([*folders, *names]):
            path = os.path.join(at, name)
            kind = os.lstat(path).st_mode
            if stat.S_ISLNK(kind) and os.path.realpath(path).startswith(inside) and os.path.isfile(path):
                continue
            if not (stat.S_ISREG(kind) or stat.S_ISDIR(kind)):
                return path
    return None


def name_problem(path):
    """Why the program or its console could not accept a path, or None."""
    raw = os.fsencode(path)
    if len(raw) > MOST_PATH_BYTES:
        return f"its path has more than {MOST_PATH_BYTES} bytes"
    try:
        text = raw.decode("utf-8")
    except UnicodeDecodeError:
        return "its name is not UTF-8"
    return None if text.isprintable() else "its name has control characters"


class Releases:
    """The folder of releases. A file NAME.accepted next to the folder NAME marks a release that was
    accepted or forced once. It is served again at each start, whatever the rules say."""

    def __init__(self, folder):
        self.folder = folder

    def path(self, name):
        return os.path.join(self.folder, name)

    def is_accepted(self, name):
        return os.path.isfile(self.path(name + MARK))

    def mark(self, name, how):
        """Marks a release, unless it is marked."""
        if not self.is_accepted(name):
            write_whole(self.path(name + MARK), f"{now_text()} {how}\n", 0o644)

    def unmark(self, name):
        with contextlib.suppress(FileNotFoundError):
            os.unlink(self.path(name + MARK))

    def survey(self):
        """The names of the release folders, in rising order of their bytes, and what else is there,
        each name with a reason. Hidden names are ignored."""
        try:
            names = sorted(os.listdir(self.folder), key=os.fsencode)
        except OSError as error:
            raise Failed(f"{self.folder}: {error.strerror}: make the folder, or set RELEASES") from error
        found, others = [], []
        for name in names:
            if name.startswith("."):
                continue
            reason = self._problem(name)
            if reason is None:
                found.append(name)
            elif not (name.endswith(MARK) and os.path.isdir(self.path(name[: -len(MARK)]))):
                others.append((name, reason))
        return found, others

    def _problem(self, name):
        path = self.path(name)
        problem = name_problem(path)
        if problem:
            return problem
        if name.endswith(MARK) and os.path.isfile(path):
            return "it marks a release that is gone"
        try:
            kind = os.stat(os.path.join(path, "manifest.json")).st_mode
        except (FileNotFoundError, NotADirectoryError):
            return "it is no folder with a manifest"
        except OSError as error:
            return f"its manifest: {error.strerror}"
        if not stat.S_ISREG(kind):
            return "its manifest is no regular file"
        odd = odd_file(path)
        return odd and f"{odd} is no regular file"

    def accepted(self):
        """The names of the releases that are marked, the newest last."""
        return [name for name in self.survey()[0] if self.is_accepted(name)]

    def current(self):
        """The path of the newest release that was accepted, or None."""
        found = self.accepted()
        return self.path(found[-1]) if found else None

    def next_name(self, version):
        """A name that sorts after all that are there, with the time and the version of the
        release."""
        label = re.sub(r"[^A-Za-z0-9._-]", "_", version) or "unnamed"
        made = datetime.datetime.now(datetime.timezone.utc)
        name = made.strftime("%Y%m%dT%H%M%SZ-") + label
        names = [one for one in os.listdir(self.folder) if not one.startswith(".")]
        last = max((one[: -len(MARK)] if one.endswith(MARK) else one for one in names), key=os.fsencode, default="")
        if os.fsencode(name) <= os.fsencode(last):
            # whatever begins with another name and is longer sorts after it
            name = f"{last.partition('+')[0]}+{name}"
            if os.fsencode(name) <= os.fsencode(last):
                name = f"{last}+{name.rpartition('+')[2]}"
        return name


# ---- the program's judgement


class Judge:
    """Lets the program judge folders, without a listener at a known address."""

    def __init__(self, program, rules):
        self.program, self.rules = program, rules

    def run(self, *words):
        """Status and output of a run of the program without input."""
        try:
            done = subprocess.run(
                [self.program, *words], stdin=subprocess.DEVNULL, stdout=subprocess.PIPE,
                stderr=subprocess.PIPE, timeout=JUDGING_SECONDS,
            )
        except FileNotFoundError:
            raise Failed(f"{self.program}: the program is not installed") from None
        except subprocess.TimeoutExpired:
            raise Failed(f"the program did not judge a folder in {JUDGING_SECONDS} seconds", 4) from None
        lines = done.stdout.decode("utf-8", "replace").splitlines()
        if done.returncode not in (0, 1, 2, 3):
            errors = done.stderr.decode("utf-8", "replace").strip()
            raise Failed(f"the judgement of folders ended with the status {done.returncode}: {errors}", done.returncode)
        return done.returncode, lines

    def check_rules(self):
        """Fails where the program does not accept the arguments in RULES."""
        if self.rules and self.run("serve", "127.0.0.1:0", "1", *self.rules, "/nonexistent")[0] == 1:
            raise Failed(f"RULES={' '.join(self.rules)} is not understood: see COMMANDS in tzdistd(8)")

    def first_refused(self, folders):
        """The index of the first folder that is refused as one of a history, and its fault, or
        None."""
        status, lines = self.run("check", *folders)
        if status == 0:
            return None
        good = sum(line.startswith("ok ") for line in lines)
        refused = [line[len("refused ") :] for line in lines if line.startswith("refused ")]
        if status == 3:
            # the lines before a failed read may not have been printed, so each folder is checked
            good = next((k for k, folder in enumerate(folders) if unreadable(folder)), good)
        return min(good, len(folders) - 1), refused[0] if refused else "9 ReadFault"

    def history(self, folders):
        """Those of the folders that make a history, and the others, each with its fault."""
        found = self.first_refused(folders) if folders else None
        if found is None:
            return list(folders), []
        first, fault = found
        good, refused = folders[:first], [(folders[first], fault)]
        for folder in folders[first + 1 :]:
            # a folder is judged after the last good one, so no folder is read more than three times
            found = self.first_refused([*good[-1:], folder])
            if found is None:
                good.append(folder)
            else:
                refused.append((folder, found[1]))
        return good, refused

    def fault_of_next(self, before, folder):
        """Why a folder is refused after the release `before`, by its files or by the rules, or
        None."""
        words = [before, folder] if before else [folder]
        status, lines = self.run("serve", "127.0.0.1:0", "1", *self.rules, *words)
        if status == 3:
            return "9 ReadFault"
        refused = [line[len("refused ") :] for line in lines if line.startswith("refused ")]
        return refused[0] if refused else None


def unreadable(folder):
    """The first file of a release that cannot be read, with the reason, or None."""
    manifest = manifest_of(folder)
    names = ["manifest.json"]
    zones, leaps = manifest.get("zones"), manifest.get("leapseconds")
    for entry in [*(zones if isinstance(zones, list) else []), leaps]:
        if isinstance(entry, dict) and isinstance(entry.get("file"), str):
            names.append(entry["file"])
    for name in names:
        try:
            descriptor = os.open(os.path.join(folder, name), os.O_RDONLY | os.O_NONBLOCK | os.O_CLOEXEC)
        except FileNotFoundError:
            continue
        except OSError as error:
            return f"{name}: {error.strerror}"
        try:
            os.read(descriptor, 1)
        except OSError as error:
            return f"{name}: {error.strerror}"
        finally:
            os.close(descriptor)
    return None


def zone_name(folder, number):
    """The identifier of a zone of a manifest by its number, or None."""
    zones = manifest_of(folder).get("zones")
    if isinstance(zones, list) and number < len(zones) and isinstance(zones[number], dict):
        name = zones[number].get("tzid")
        return name if isinstance(name, str) and name.isprintable() else None
    return None


def explained(fault, folder, rules=()):
    """A fault, followed in brackets by the zone, the file or the rule that it means."""
    words = fault.split()
    meaning = None
    found = re.search(r"zones\[(\d+)\]", fault)
    if words[:1] == ["17"] and words[-1].isdigit():
        place = 2 * (int(words[-1]) - 1)
        meaning = " ".join(rules[place : place + 2])
    elif words[:1] == ["9"]:
        meaning = unreadable(folder)
    elif words[:1] and words[0] in FAULTS_OF_ZONES and len(words) > 2 and words[2].isdigit():
        meaning = zone_name(folder, int(words[2]))
    elif found:
        meaning = zone_name(folder, int(found.group(1)))
    return f"{fault} ({meaning})" if meaning else fault


def version():
    """The version of the package, which is not known in the repository."""
    try:
        with open(os.path.join(HERE, "VERSION"), encoding="ascii") as file:
            return f"tzdistd {file.read().strip()}"
    except FileNotFoundError:
        return "tzdistd, without a package"


def usage(script, text):
    """Prints a text at --help, or the version at --version, and ends the script, which takes no
    other arguments."""
    if sys.argv[1:] in (["--help"], ["-h"]):
        print(text.strip())
        sys.exit(0)
    if sys.argv[1:] == ["--version"]:
        print(version())
        sys.exit(0)
    if len(sys.argv) > 1:
        print(f"{script}: it takes no words: see {script} --help", file=sys.stderr)
        sys.exit(1)
