"""Puts releases into the folder of releases, and installs them by the console of the server.

A refused release is moved to the folder `refused` with its reason, so that no start meets
it. Python's standard library only.
"""

import contextlib
import fcntl
import itertools
import json
import os
import re
import shutil
import stat
import subprocess
import sys
import syslog
import tempfile
import time

from tzdistd_service import (
    HERE,
    Failed,
    Judge,
    Records,
    Releases,
    explained,
    give_to_owner,
    manifest_of,
    name_problem,
    now_text,
    odd_file,
    say,
    write_whole,
)

MOST_REFUSED = 16
LOCK_SECONDS = 600
# How long the server may take for one install, in seconds.
CONSOLE_SECONDS = "600"
HINTS = {
    "3": "an older release is served again by: tzdistd-install --rollback",
    "6": "clients know the names of a release, so a later one cannot leave one out",
    "9": "the server runs as the user tzdistd, which must be able to read each file",
    "17": "tzdistd-install --force installs a release that only a rule refuses",
}


def packer():
    """The path of the tool that makes a release from a tree, in the package or the repository."""
    packaged = os.path.join(HERE, "pack_zoneinfo.py")
    return packaged if os.path.exists(packaged) else os.path.join(os.path.dirname(HERE), "tools/pack_zoneinfo.py")


def is_release(folder):
    return os.path.isfile(os.path.join(folder, "manifest.json"))


def is_tree(folder):
    """Whether a folder has zone files, as /usr/share/zoneinfo has."""
    if os.path.isfile(os.path.join(folder, "tzdata.zi")):
        return True
    for at, _, names in os.walk(folder):
        for name in names:
            path = os.path.join(at, name)
            with contextlib.suppress(OSError):
                if os.path.isfile(path):
                    with open(path, "rb") as file:
                        if file.read(4) == b"TZif":
                            return True
    return False


def content(folder):
    """What a release contains, except for its stamp: its labels, and the bytes and the aliases of
    each zone."""
    manifest = manifest_of(folder)

    def data(entry):
        with open(os.path.join(folder, entry["file"]), "rb") as file:
            return file.read()

    zones = {entry["tzid"]: (sorted(entry.get("aliases", [])), data(entry)) for entry in manifest["zones"]}
    leaps = manifest.get("leapseconds")
    return manifest["publisher"], manifest["version"], zones, leaps and (leaps["expires"], data(leaps))


def same_content(one, other):
    """Whether two releases have the same content. A release that cannot be read never does."""
    try:
        return not (odd_file(one) or odd_file(other)) and content(one) == content(other)
    except (OSError, KeyError, TypeError, AttributeError):
        return False


def open_to_all(folder):
    """Lets everybody read a release, whatever the umask of its maker. What root made is given to
    the service."""
    model = os.path.dirname(folder)
    for _, _, names, at in os.fwalk(folder):
        os.fchmod(at, 0o755)
        give_to_owner(at, model)
        for name in names:
            # no link is followed, also none that somebody puts there meanwhile
            with contextlib.suppress(OSError):
                descriptor = os.open(name, os.O_RDONLY | os.O_NOFOLLOW | os.O_NONBLOCK | os.O_CLOEXEC, dir_fd=at)
                try:
                    os.fchmod(descriptor, 0o644)
                    give_to_owner(descriptor, model)
                finally:
                    os.close(descriptor)


def names_of(zones):
    """Each name of the zones of a manifest, an identifier or an alias."""
    return {name for zone in zones for name in (zone["tzid"], *zone.get("aliases", []))}


def age(version):
    """A version of tz data as a value that rises, as for 2026b, or None for any other label."""
    found = re.fullmatch(r"(\d{4})([a-z]+)", version) if isinstance(version, str) else None
    return found and (int(found.group(1)), len(found.group(2)), found.group(2))


def lift_stamp(staged, served):
    """Gives a release that was made from a tree the stamp of what is served, where its own is
    earlier though its version is not. So the same tz data from another package is not older."""
    manifest = manifest_of(staged)
    new, old = age(manifest.get("version")), age(served.get("version"))
    if new and old and new >= old and manifest["stamp"] < served["stamp"]:
        manifest["stamp"] = served["stamp"]
        with open(os.path.join(staged, "manifest.json"), "w", encoding="utf-8") as file:
            json.dump(manifest, file, separators=(",", ":"))


class Installer:
    """Installs releases into the folder of the settings. Use it in a `with` block, which excludes
    other installs."""

    def __init__(self, settings, force=False, options=()):
        self.settings, self.force, self.options = settings, force, options
        self.releases = Releases(settings.releases)
        self.judge = Judge(settings.program, settings.rules)
        self.records = Records(settings)
        self.room = None

    def __enter__(self):
        try:
            for folder in (self.settings.releases, self.settings.refused):
                self._make(folder)
            self._lock()
            for name in os.listdir(self.settings.releases):
                if name.startswith(".incoming-"):
                    # what a killed install left
                    shutil.rmtree(self.releases.path(name), ignore_errors=True)
            self.room = tempfile.mkdtemp(prefix=".incoming-", dir=self.settings.releases)
            os.chmod(self.room, 0o755)
        except PermissionError as error:
            raise Failed(f"{error.filename}: run this as root or as a member of the group tzdistd") from error
        return self

    def __exit__(self, *_):
        shutil.rmtree(self.room, ignore_errors=True)
        os.close(self.lock)

    @staticmethod
    def _make(folder):
        if not os.path.isdir(folder):
            os.makedirs(folder, 0o775)
            descriptor = os.open(folder, os.O_RDONLY | os.O_CLOEXEC)
            give_to_owner(descriptor, os.path.dirname(folder))
            os.close(descriptor)

    def _lock(self):
        path = os.path.join(self.settings.state, "install.lock")
        self.lock = os.open(path, os.O_RDONLY | os.O_CREAT | os.O_CLOEXEC | os.O_NOFOLLOW, 0o664)
        give_to_owner(self.lock, self.settings.state)
        for _ in range(LOCK_SECONDS):
            with contextlib.suppress(BlockingIOError):
                fcntl.flock(self.lock, fcntl.LOCK_EX | fcntl.LOCK_NB)
                return
            time.sleep(1)
        os.close(self.lock)
        raise Failed("another install is still at work: try again later")

    # ---- from a source to a folder

    def stage(self, source):
        """The release folder for a source. It is a copy, what the packer makes from a tree, or the
        source itself where that is in the folder of releases already."""
        source = os.path.realpath(source)
        if not os.path.isdir(source):
            raise Failed(f"{source}: no such folder")
        staged = os.path.join(self.room, "release")
        if is_release(source):
            odd = odd_file(source)
            if os.path.dirname(source) == os.path.realpath(self.settings.releases):
                if odd:
                    raise Refused(source, f"{odd} is no regular file")
                if not self.releases.is_accepted(os.path.basename(source)):
                    return self.releases.path(os.path.basename(source))
            elif odd:
                raise Failed(f"{odd}: no regular file, so nothing was copied")
            shutil.copytree(source, staged)
        elif is_tree(source):
            self._pack(source, staged)
        else:
            raise Failed(f"{source}: neither a release, which has manifest.json, nor a tree of zone files")
        return staged

    def _pack(self, tree, staged):
        current = self.releases.current()
        # a zone whose new file is faulty stays as it is served
        kept = ["--keep-from", current] if current and "--keep-from" not in self.options else []
        words = [sys.executable, "-B", packer(), tree, staged, *kept, *self.options]
        done = subprocess.run(words, stdin=subprocess.DEVNULL, stdout=subprocess.PIPE, stderr=subprocess.PIPE, text=True)
        said = (done.stderr or done.stdout).strip()
        if done.returncode != 0:
            raise Failed(f"pack_zoneinfo.py makes no release of {tree}: {said}", 1)
        for line in done.stderr.splitlines():
            self.report(f"pack_zoneinfo.py: {line}", 4)
        if current and "--stamp" not in self.options:
            lift_stamp(staged, manifest_of(current))

    def stage_older(self, name):
        """A release folder with the zones of an older release, and the stamp of the one that is
        served. Names that were added since stay as they are, since clients know them."""
        accepted = self.releases.accepted()
        if not accepted:
            raise Failed(f"{self.settings.releases}: no release was accepted yet, so there is no older one")
        name = name or (accepted[-2] if len(accepted) > 1 else None)
        if name not in accepted:
            known = ", ".join(accepted)
            raise Failed(f"{name or 'an older release'}: not among the releases that were accepted: {known}")
        older, newest = self.releases.path(name), self.releases.path(accepted[-1])
        staged = os.path.join(self.room, "release")
        shutil.copytree(older, staged)
        manifest, served = manifest_of(older), manifest_of(newest)
        manifest["stamp"] = max(manifest["stamp"], served["stamp"])
        self._keep_names(manifest, served, newest, staged)
        with open(os.path.join(staged, "manifest.json"), "w", encoding="utf-8") as file:
            json.dump(manifest, file, separators=(",", ":"))
        return staged

    def _keep_names(self, manifest, served, newest, staged):
        """Adds the names of the release that is served which an older manifest does not have."""
        known = names_of(manifest["zones"])
        zones = {zone["tzid"]: zone for zone in manifest["zones"]}
        folder = next(f"kept{k}" for k in itertools.count() if not os.path.exists(os.path.join(staged, f"kept{k}")))
        kept = os.path.join(staged, folder)
        for number, zone in enumerate(served["zones"]):
            new = [alias for alias in zone.get("aliases", []) if alias not in known]
            if zone["tzid"] not in known:
                os.makedirs(kept, exist_ok=True)
                shutil.copyfile(os.path.join(newest, zone["file"]), os.path.join(kept, str(number)))
                manifest["zones"].append({"tzid": zone["tzid"], "file": f"{folder}/{number}", "aliases": new})
            elif new:
                target = next(one for one in zones.values() if zone["tzid"] in names_of([one]))
                target["aliases"] = target.get("aliases", []) + new
        if "leapseconds" in served and "leapseconds" not in manifest:
            os.makedirs(kept, exist_ok=True)
            shutil.copyfile(os.path.join(newest, served["leapseconds"]["file"]), os.path.join(kept, "leaps"))
            manifest["leapseconds"] = {**served["leapseconds"], "file": f"{folder}/leaps"}

    # ---- from a folder to the server

    def put(self, staged):
        """Installs a staged release, and returns the status for the caller: 0 where it is served
        or was served before."""
        current = self.releases.current()
        if current and not self.force and same_content(staged, current):
            return self._unchanged(staged, current)
        problem = self._loses_leaps(staged, current)
        if problem and not self.force:
            raise Refused(staged, problem)
        runs = self._server_runs()
        if not runs:
            self._judge(staged, current)
        path = self._place(staged)
        if self.force:
            self.releases.mark(os.path.basename(path), "forced by an operator")
        if runs:
            return self._install(path)
        self.records.record("install", "installed", reason="no server runs: the next start serves it", folder=path)
        self.report(f"installed for the next start, since no server runs: {path}")
        return 0

    def _unchanged(self, staged, current):
        if not staged.startswith(self.room):
            # a second copy would be one more release at the next start
            shutil.move(staged, self.room)
            self.report(f"removed {staged}")
        status, reply = self._ask("status") if self._server_runs() else (1, "")
        token = reply.split(" ")[1] if status == 0 else ""
        self.records.record("install", "unchanged", token, folder=current)
        self.report(f"unchanged {token}: {current} says the same".replace(" :", ":"))
        return 0

    def _loses_leaps(self, staged, current):
        had = current and "leapseconds" in manifest_of(current)
        if had and "leapseconds" not in manifest_of(staged):
            return "it has no leap seconds, and what is served has them: pack it with them, or use --force"
        return None

    def _place(self, staged):
        """Gives a release a name that sorts after all others, and returns its path."""
        name = os.path.basename(staged)
        inside = not staged.startswith(self.room)
        others = [one for one in self.releases.survey()[0] if one != name] if inside else []
        if inside and all(os.fsencode(one) < os.fsencode(name) for one in others) and not name_problem(staged):
            path = staged
        else:
            version = manifest_of(staged).get("version")
            path = self.releases.path(self.releases.next_name(version if isinstance(version, str) else ""))
            os.rename(staged, path)
        open_to_all(path)
        return path

    def _server_runs(self):
        try:
            return stat.S_ISFIFO(os.stat(os.path.join(self.settings.runtime, "console")).st_mode)
        except FileNotFoundError:
            return False
        except PermissionError as error:
            raise Failed(f"{error.filename}: run this as root or as a member of the group tzdistd") from error

    def _judge(self, staged, current):
        """Judges a release as a start will, where no server runs."""
        refused = self.judge.history([staged])[1]
        fault = refused[0][1] if refused else None
        if fault is None and current:
            judge = Judge(self.settings.program, [] if self.force else self.settings.rules)
            fault = judge.fault_of_next(current, staged)
        if fault is not None:
            raise Refused(staged, explained(fault, staged, self.settings.rules), HINTS.get(fault.split()[0]))

    def _ask(self, *line):
        """Status and reply of a line at the console."""
        environment = {**os.environ, "RUNTIME_DIRECTORY": self.settings.runtime, "WAIT": CONSOLE_SECONDS}
        done = subprocess.run(
            [self.settings.console, *line], env=environment, stdin=subprocess.DEVNULL,
            stdout=subprocess.PIPE, stderr=subprocess.PIPE, text=True,
        )
        return done.returncode, (done.stdout + done.stderr).strip()

    def _install(self, path):
        status, reply = self._ask("install", path)
        word, _, rest = reply.partition(" ")
        if status == 0 and word == "installed":
            self.releases.mark(os.path.basename(path), f"installed as {rest}")
            print(f"{reply}: {path}")
            return 0
        if word == "refused" or reply == "no memory":
            fault = rest if word == "refused" else reply
            last = self.records.last()
            known = last.get("reason", "") if last.get("result") in ("refused", "failed") else ""
            # the server's reason for a file that it cannot read is better than this user's
            reason = known if known.startswith(fault) else explained(fault, path, self.settings.rules)
            raise Refused(path, reason, HINTS.get(fault.split(" ")[0]), recorded=True)
        self.records.record("install", "failed", reason=reply, folder=path)
        self.report(f"failed, {reply or 'without a reply'}: {path} stays, and is judged at the next start", 3)
        return 1

    def refuse(self, refused):
        """Moves a refused release away, with its reason, and returns the status for the caller."""
        path = refused.path
        name = os.path.basename(path)
        if path.startswith(self.room):
            version = manifest_of(path).get("version")
            name = self.releases.next_name(version if isinstance(version, str) else "")
        self.releases.unmark(name)
        target = os.path.join(self.settings.refused, name)
        shutil.rmtree(target, ignore_errors=True)
        shutil.move(path, target)
        write_whole(os.path.join(target, "reason"), f"{now_text()} {refused.reason}\n", 0o644)
        self._forget(target)
        if not refused.recorded:
            self.records.record("install", "refused", reason=refused.reason, folder=target)
        self.report(f"refused {refused.reason}: it is in {target}", 4)
        if refused.hint:
            self.report(refused.hint)
        return 1

    def _forget(self, newest):
        """Removes the same release where it was refused before, and the oldest beyond the number
        that is kept."""
        folder = self.settings.refused
        others = sorted((os.path.join(folder, name) for name in os.listdir(folder)), key=os.path.getmtime)
        others = [path for path in others if path != newest and os.path.isdir(path)]
        for path in others:
            if same_content(path, newest) or path in others[: 1 - MOST_REFUSED]:
                shutil.rmtree(path, ignore_errors=True)

    def report(self, text, level=6):
        """Prints a line, which goes to the journal also where an operator runs this."""
        say(text, level)
        if not os.environ.get("JOURNAL_STREAM"):
            syslog.openlog("tzdistd-install")
            syslog.syslog(level, text)


class Refused(Exception):
    """A release in the folder of releases is not installed, for a reason."""

    def __init__(self, path, reason, hint=None, recorded=False):
        super().__init__(reason)
        self.path, self.reason, self.hint, self.recorded = path, reason, hint, recorded


def install(installer, stage):
    """Stages a release by the given function, installs it, and returns the status for the
    caller."""
    try:
        return installer.put(stage())
    except Refused as refused:
        return installer.refuse(refused)
    except PermissionError as error:
        raise Failed(f"{error.filename}: {error.strerror}: run this as root or as its owner") from error
