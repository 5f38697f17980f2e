#!/usr/bin/env python3
"""Tries the package in a fresh Debian with systemd as its first process, from its installation to
its purge.

    deploy/try_system.py [PROGRAM] [--base FOLDER] [--few] [--keep]

For example, as root, with a base that the next run uses again:

    deploy/try_system.py --base /var/tmp/bookworm

With --few the machine has the zones of a dozen places, for a busy computer. The machine is a copy
of BASE in its own namespaces, without a network except its loopback. debootstrap makes BASE where
it does not exist. A primary, a mirror of it and a device are on the machine. New versions of tzdata
are packages made here, and dpkg installs them. It needs root, debootstrap, unshare, nsenter and
what package.py needs, and is run by hand. Everything that it starts ends with it; --keep leaves the
machine's folder.
"""

import argparse
import gzip
import json
import os
import re
import shutil
import signal
import subprocess
import sys
import tempfile
import time

sys.dont_write_bytecode = True
HERE = os.path.dirname(os.path.abspath(__file__))
sys.path.insert(0, os.path.join(os.path.dirname(HERE), "tools"))

from checks import holds, same
from served import PROGRAM, Failure

PACKAGES = "systemd,systemd-sysv,dbus,init-system-helpers,adduser,python3,tzdata,curl"
PLAIN = {"PATH": "/usr/sbin:/usr/bin:/sbin:/bin", "LC_ALL": "C.UTF-8", "DEBIAN_FRONTEND": "noninteractive"}
PRIMARY, MIRROR = "127.0.0.1:8008", "127.0.0.1:8009"
TOKYO, SEOUL, AZORES = "Asia/Tokyo", "Asia/Seoul", "Atlantic/Azores"
DEVICE = "/var/lib/device"
# The services of the package, and the highest exposure that systemd may report for one.
UNITS = ["tzdistd", "tzdistd-follow", "tzdistd-mirror", "tzdistd-sync", "tzdistd-metrics"]
MOST_EXPOSURE = 2.0
# The zones of --few.
FEW = [TOKYO, SEOUL, AZORES, "Etc/UTC", "Europe/Berlin", "Europe/Lisbon", "America/New_York", "Africa/Abidjan",
       "Africa/Casablanca", "America/Sao_Paulo", "Australia/Sydney", "Pacific/Auckland"]

# What a container manager does before systemd starts: it mounts the folders of the kernel, and
# changes to another root.
BOOT = r"""
set -e
mount --make-rprivate /
mount --bind "$1" "$1"
cd "$1"
mount -t proc proc proc
mount -t sysfs -o ro sysfs sys
mount -t cgroup2 cgroup2 sys/fs/cgroup
mount -t tmpfs -o mode=755 tmpfs dev
for name in null zero full random urandom tty; do
    touch dev/$name
    mount --bind /dev/$name dev/$name
done
mkdir dev/pts dev/shm
mount -t devpts -o newinstance,ptmxmode=0666,mode=620 devpts dev/pts
ln -s pts/ptmx dev/ptmx
mount -t tmpfs tmpfs dev/shm
mount -t tmpfs -o mode=755 tmpfs run
mkdir -p oldroot
pivot_root . oldroot
umount -l oldroot
# Nothing that systemd starts may set the clock, which is that of the whole computer.
exec env -i container=other PATH=/usr/sbin:/usr/bin:/sbin:/bin \
    setpriv --bounding-set -sys_time --inh-caps -sys_time /lib/systemd/systemd --show-status=0
"""


def eventually(what, wanted, look, seconds=300):
    """Waits until `look` returns what is wanted."""
    until = time.monotonic() + seconds
    while (seen := look()) != wanted:
        if time.monotonic() > until:
            raise Failure(f"{what}: {seen!r} after {seconds} seconds, and not {wanted!r}")
        time.sleep(0.5)
    say(what)


def say(text):
    print(f"  {text}", flush=True)


class Group:
    """A control group, which is the root of all groups that the machine makes."""

    def __init__(self):
        with open("/proc/mounts") as file:
            at = [line.split()[1] for line in file if line.split()[2] == "cgroup2"]
        if not at:
            raise Failure("no cgroup2 is mounted here, and systemd needs one")
        self.path = os.path.join(at[0], f"tzdistd-try-{os.getpid()}")
        os.mkdir(self.path)

    def enter(self):
        with open(os.path.join(self.path, "cgroup.procs"), "w") as file:
            file.write("0")

    def remove(self):
        for at, _, _ in os.walk(self.path, topdown=False):
            os.rmdir(at)


class Machine:
    """A Debian root that is booted in namespaces."""

    def __init__(self, root):
        self.root, self.first, self.group = root, None, Group()

    def boot(self):
        """Boots, and returns the state of the machine that systemd reports then."""
        words = ["unshare", "--mount", "--pid", "--uts", "--ipc", "--net", "--cgroup", "--fork", "--kill-child"]
        self.child = subprocess.Popen([*words, "sh", "-c", BOOT, "sh", self.root], stdin=subprocess.DEVNULL,
                                      preexec_fn=self.group.enter)
        for _ in range(600):
            with open(f"/proc/{self.child.pid}/task/{self.child.pid}/children") as file:
                self.first = file.read().strip()
            if self.first and self.is_systemd():
                break
            time.sleep(0.1)
        state = ""
        for _ in range(300):
            state = self.run("systemctl", "is-system-running", "--wait", check=False)[1]
            if state in ("running", "degraded"):
                return state
            time.sleep(0.2)
        raise Failure(f"the machine does not boot: {state}")

    def is_systemd(self):
        try:
            return os.readlink(f"/proc/{self.first}/exe").endswith("systemd")
        except OSError:
            return False

    def reboot(self):
        self.power_off()
        return self.boot()

    def power_off(self):
        self.run("systemctl", "poweroff", "--no-block", check=False)
        try:
            self.child.wait(180)
        except subprocess.TimeoutExpired:
            raise Failure("the machine does not end") from None

    def kill(self):
        if self.child.poll() is None:
            os.kill(int(self.first), signal.SIGKILL)
            self.child.wait(20)
        time.sleep(0.5)
        self.group.remove()

    def run(self, *words, check=True, timeout=600):
        """Status and output of a command on the machine."""
        enter = ["nsenter", "-t", self.first, "-m", "-p", "-u", "-i", "-n", "-C", "-r", "-w"]
        done = subprocess.run(
            [*enter, *words], env=PLAIN, stdin=subprocess.DEVNULL, stdout=subprocess.PIPE,
            stderr=subprocess.STDOUT, text=True, timeout=timeout,
        )
        if check and done.returncode != 0:
            raise Failure(f"{' '.join(words)}: status {done.returncode}: {done.stdout}")
        return done.returncode, done.stdout.strip()

    def sh(self, text, check=True):
        return self.run("sh", "-c", text, check=check)[1]

    def path(self, name):
        return os.path.join(self.root, name.lstrip("/"))

    def write(self, name, text):
        os.makedirs(os.path.dirname(self.path(name)), exist_ok=True)
        with open(self.path(name), "w") as file:
            file.write(text)

    # ---- what it serves

    def token(self, address=PRIMARY):
        """The token of the list at an address, or None where there is no answer."""
        status, text = self.run("curl", "-fsS", "--max-time", "20", f"http://{address}/tzdist/zones", check=False)
        return json.loads(text)["synctoken"] if status == 0 else None

    def file_of(self, zone, address=PRIMARY):
        """The digest of a zone's file at an address."""
        name = zone.replace("/", "%2F")
        words = f"curl -fsS -H 'Accept: application/tzif' http://{address}/tzdist/zones/{name} | sha256sum"
        return self.sh(words).split()[0]

    def file_on_device(self, zone):
        return self.sh(f"sha256sum <{DEVICE}/{zone}", check=False).split()[0]

    def failed(self):
        """The names of the units that failed."""
        lines = self.run("systemctl", "--failed", "--no-legend", "--plain")[1].splitlines()
        return sorted(line.split()[0] for line in lines)

    def journal(self, unit):
        return self.run("journalctl", "--no-pager", "-o", "cat", "-u", unit)[1].splitlines()

    def journal_has(self, unit, part):
        lines = [line for line in self.journal(unit) if part in line]
        holds(f"the journal of {unit} has no {part!r}", lines)
        say(f"journal of {unit}: {lines[-1]}")

    def is_active(self, unit):
        return self.run("systemctl", "is-active", unit, check=False)[1]


# ---- packages of tzdata


def tzdata(machine, version, change):
    """Makes a package of tzdata from the machine's tree with a change, and returns its path on the
    machine."""
    stage = machine.path(f"/root/tzdata-{version}")
    tree = os.path.join(stage, "usr/share/zoneinfo")
    if not os.path.isdir(machine.path("/root/zoneinfo")):
        shutil.copytree(machine.path("/usr/share/zoneinfo"), machine.path("/root/zoneinfo"), symlinks=True)
    shutil.copytree(machine.path("/root/zoneinfo"), tree, symlinks=True)
    source = os.path.join(tree, "tzdata.zi")
    with open(source) as file:
        text = re.sub("^# version .*", f"# version {version}", file.read())
    text = change(tree, text)
    with open(source, "w") as file:
        file.write(text)
    # a release without a known date has the date of its newest file
    os.utime(os.path.join(tree, "Etc/UTC"))
    documents = os.path.join(stage, "usr/share/doc/tzdata")
    os.makedirs(documents)
    date = time.strftime("%a, %d %b %Y %H:%M:%S +0000", time.gmtime())
    entry = f"tzdata ({version}-0+test) bookworm; urgency=medium\n\n  * New upstream version {version}\n\n"
    with gzip.open(os.path.join(documents, "changelog.Debian.gz"), "wt") as file:
        file.write(f"{entry} -- Nobody <nobody@tz.example.org>  {date}\n")
    os.makedirs(os.path.join(stage, "DEBIAN"))
    with open(os.path.join(stage, "DEBIAN/control"), "w") as file:
        file.write(
            f"Package: tzdata\nVersion: {version}-0+test\nArchitecture: all\nMulti-Arch: foreign\n"
            "Maintainer: Nobody <nobody@tz.example.org>\nDescription: zones for a trial\n"
        )
    path = f"{stage}.deb"
    subprocess.run(["dpkg-deb", "-Znone", "--root-owner-group", "--build", stage, path], check=True, capture_output=True)
    shutil.rmtree(stage)
    return f"/root/tzdata-{version}.deb"


def keep_few(tree):
    """Leaves only the zones of FEW and the links to them in the list of a tree's names."""
    source = os.path.join(tree, "tzdata.zi")
    with open(source) as file:
        lines = file.read().splitlines()
    for number, line in enumerate(lines):
        words = line.split()
        if words[:1] in (["Z"], ["L"]) and words[1] not in FEW:
            lines[number] = f"# {line}"
    with open(source, "w") as file:
        file.write("\n".join(lines) + "\n")


def moved(*names, to=SEOUL):
    """A change by which zones get the file of another one. Links have the same bytes."""

    def change(tree, text):
        with open(os.path.join(tree, to), "rb") as file:
            data = file.read()
        for name in names:
            path = os.path.join(tree, name)
            os.unlink(path)
            with open(path, "wb") as file:
                file.write(data)
        return text

    return change


def without(name):
    """A change that leaves out a zone, to which no link points."""

    def change(tree, text):
        return re.sub(f"^Z {name} ", f"# {name} ", text, flags=re.M)

    return change


def leave_quiet(machine):
    """Waits until no follow runs, and none is about to run."""
    for _ in range(1200):
        shown = machine.run("systemctl", "show", "-p", "Job,ActiveState", "tzdistd-follow")[1].splitlines()
        found = dict(line.split("=", 1) for line in shown)
        if found["ActiveState"] in ("inactive", "failed") and found.get("Job", "0") in ("", "0"):
            return
        time.sleep(0.5)
    raise Failure("tzdistd-follow does not end")


def upgrade(machine, package):
    """Installs a package of tzdata, as `apt upgrade` does, and waits for what its trigger
    starts."""
    machine.run("dpkg", "-i", package)
    leave_quiet(machine)


# ---- the parts of the trial


def installed(machine):
    """`apt install` is all that a server of this machine's zones needs."""
    machine.run("apt-get", "install", "-y", "/root/tzdistd.deb")
    holds("nothing is served after apt-get install", machine.token())
    say(f"served after apt-get install: {machine.token()}")
    machine.journal_has("tzdistd", "ready ")
    same("failed units", machine.failed(), [])
    exposed = {unit: exposure(machine, unit) for unit in UNITS}
    holds(f"a unit is exposed by more than {MOST_EXPOSURE}: {exposed}", max(exposed.values()) <= MOST_EXPOSURE)
    say("systemd-analyze security: " + ", ".join(f"{unit} {number}" for unit, number in exposed.items()))
    holds("the filter of calls refuses the policy by which requests go before installs", may_yield(machine))


def may_yield(machine):
    """Whether a process with the unit's system call filter may yield to others, and end that."""
    with open(machine.path("/lib/systemd/system/tzdistd.service")) as unit:
        filters = [f"-p{line.strip()}" for line in unit if line.startswith(("SystemCall", "RestrictRealtime="))]
    look = "import sys; sys.path.insert(0, '/usr/lib/tzdistd'); import tzdistd_priority as it; print(it.can_return())"
    return machine.run("systemd-run", "--quiet", "--wait", "--pipe", *filters, "python3", "-B", "-c", look)[1] == "True"


def exposure(machine, unit):
    """The exposure that systemd reports for a unit, from 0 to 10."""
    lines = machine.run("systemd-analyze", "security", "--no-pager", f"{unit}.service")[1].splitlines()
    return float(re.search(r": (\d+\.\d) ", lines[-1])[1])


def without_release(machine):
    """A machine without a release boots without failed units. A start with a release serves."""
    machine.sh("systemctl stop tzdistd; mkdir /root/aside; mv /var/lib/tzdistd/* /root/aside; "
               "echo FOLLOW=no >>/etc/default/tzdistd")
    same("the state after a reboot without a release", machine.reboot(), "running")
    same("the server without a release", machine.is_active("tzdistd"), "inactive")
    machine.journal_has("tzdistd", "nothing is served")
    machine.sh("echo note >/var/lib/tzdistd/releases/notes.txt")
    status, _ = machine.run("systemctl", "start", "tzdistd", check=False)
    holds("a start without a good release succeeds", status != 0)
    shown = machine.run("systemctl", "status", "tzdistd", "--no-pager", check=False)[1].splitlines()
    say(next(line.strip() for line in shown if "Status:" in line))
    machine.sh("rm -r /var/lib/tzdistd/*; systemctl reset-failed tzdistd")
    machine.sh("mv /root/aside/* /var/lib/tzdistd; sed -i /FOLLOW=no/d /etc/default/tzdistd; systemctl start tzdistd")
    say(f"served after a start with a release: {machine.token()}")


def signals(machine):
    """SIGHUP ends nothing, and a stop is short."""
    token = machine.token()
    machine.run("systemctl", "kill", "-s", "HUP", "tzdistd")
    time.sleep(1)
    same("the server after SIGHUP", machine.token(), token)
    for _ in range(3):
        # where the computer was busy with something else, there is another try
        begin = time.monotonic()
        machine.run("systemctl", "stop", "tzdistd")
        took = time.monotonic() - begin
        machine.run("systemctl", "start", "tzdistd")
        same("the token after a start", machine.token(), token)
        if took < 3:
            break
    holds(f"a stop took {took:.1f} s", took < 3)
    say(f"a stop took {took:.1f} s")
    machine.sh("useradd -m -G tzdistd member")
    status = machine.sh("su member -c '/usr/lib/tzdistd/tzdistd-watch mine any cat; /usr/lib/tzdistd/tzdistd-console status'")
    same("what a member of the group may do", status, f"serving {token} {status.split(' ')[-1]}")


def others(machine):
    """A mirror and a device that follow on their own, the mirror more often than each hour."""
    machine.write("/etc/default/tzdistd-mirror", f"UPSTREAM={PRIMARY}\nADDRESS={MIRROR}\n")
    machine.write(
        "/etc/systemd/system/tzdistd-sync.timer.d/often.conf",
        "[Timer]\nOnCalendar=\nOnCalendar=*:*:0/10\nRandomizedDelaySec=0\nAccuracySec=1s\n",
    )
    machine.run("systemctl", "daemon-reload")
    machine.run("systemctl", "enable", "tzdistd-mirror", "tzdistd-sync.timer")
    machine.run("systemctl", "start", "tzdistd-mirror")
    eventually("a mirror serves", True, lambda: machine.token(MIRROR) is not None)
    machine.run("systemd-run", "--unit=device", "/usr/lib/tzdistd/fetch_zoneinfo.py", f"http://{MIRROR}", DEVICE,
                "--every", "5")
    eventually("a device has its zones", True, lambda: os.path.exists(machine.path(f"{DEVICE}/{TOKYO}")))


def followed(machine):
    """An upgrade of tzdata reaches the primary, the mirror and the device without a command."""
    before, package = machine.token(), tzdata(machine, "2026x", moved(TOKYO, "Japan"))
    upgrade(machine, package)
    wanted = machine.file_of(SEOUL)
    holds("the upgrade is not served", machine.token() != before)
    same("the file at the primary", machine.file_of(TOKYO), wanted)
    eventually("the upgrade at the mirror", wanted, lambda: machine.file_of(TOKYO, MIRROR))
    eventually("the upgrade on the device", wanted, lambda: machine.file_on_device(TOKYO))
    machine.journal_has("tzdistd", "installed ")
    token = machine.token()
    upgrade(machine, package)
    same("the token after the same package again", machine.token(), token)
    machine.journal_has("tzdistd-follow", "nothing to do")


def refused(machine):
    """A refusal leaves what is served, is in the journal, and fails the unit. A reboot serves
    after it."""
    token = machine.token()
    upgrade(machine, tzdata(machine, "2026y", without(AZORES)))
    same("the token after a refusal", machine.token(), token)
    same("failed units", machine.failed(), ["tzdistd-follow.service"])
    machine.journal_has("tzdistd", f"refused 6 Drops {AZORES}")
    reason = machine.sh("cat /var/lib/tzdistd/refused/*/reason").splitlines()[-1]
    say(f"reason of the refused release: {reason}")
    machine.reboot()
    same("the token after a reboot", machine.token(), token)
    upgrade(machine, tzdata(machine, "2026z", moved(TOKYO, "Japan")))
    same("failed units after a good upgrade", machine.failed(), [])
    holds("the good upgrade is not served", machine.token() != token)


def strays(machine):
    """Files and folders that no server could use do not end a start."""
    token, releases = machine.token(), "/var/lib/tzdistd/releases"
    machine.sh(f"echo note >{releases}/notes.txt; mkdir {releases}/zz-empty; cp -r {releases}/2*Z-2026x {releases}/zz-old; "
               f"cp -r {releases}/2*Z-2026z {releases}/zz-odd; mkfifo {releases}/zz-odd/fifo; "
               f"cp -r {releases}/2*Z-2026z {releases}/zz-torn; : >{releases}/zz-torn/Etc/UTC")
    machine.reboot()
    same("the token after a reboot with stray files", machine.token(), token)
    for part in ("passed over notes.txt", "passed over zz-odd", "left out zz-torn"):
        machine.journal_has("tzdistd", part)
    machine.sh(f"rm -r {releases}/notes.txt {releases}/zz-*")


def ruled(machine):
    """Rules apply to a new release, and to none that was accepted or forced."""
    token = machine.token()
    machine.sh("echo 'RULES=--max-changed 0' >>/etc/default/tzdistd")
    machine.reboot()
    same("the token under a rule that refuses what is served", machine.token(), token)
    upgrade(machine, tzdata(machine, "2027a", moved(TOKYO, "Japan", AZORES)))
    same("the token after a release that the rule refuses", machine.token(), token)
    machine.journal_has("tzdistd", "refused 17 Policy 1")
    forced = machine.run("tzdistd-install", "--force", "/usr/share/zoneinfo")[1]
    holds(f"a forced install: {forced}", machine.token() != token)
    token = machine.token()
    same("the file of the forced release", machine.file_of(AZORES), machine.file_of(SEOUL))
    machine.reboot()
    same("the token after a reboot", machine.token(), token)
    machine.sh("sed -i /RULES/d /etc/default/tzdistd; systemctl restart tzdistd")


# Prints whether the program may get the limit by which its first thread yields to requests. Then
# whether that thread yields while a command runs, whether it does not after it, and what the
# command printed.
POLICIES = r"""
import os, resource, subprocess, sys
pid = int(open("/run/tzdistd/pid").read())
print(resource.prlimit(pid, resource.RLIMIT_NICE)[0] >= 20)
child = subprocess.Popen(sys.argv[1:], stdout=subprocess.PIPE, stderr=subprocess.STDOUT, text=True)
seen = set()
while child.poll() is None:
    seen.add(os.sched_getscheduler(pid))
print(os.SCHED_IDLE in seen, os.sched_getscheduler(pid) == os.SCHED_OTHER, child.stdout.read(), sep="\n")
sys.exit(child.returncode)
"""


def rolled_back(machine):
    """The zones of the release before are served again, and stay after a reboot. Requests go before
    the install."""
    same("the zone before", machine.file_of(AZORES), machine.file_of(SEOUL))
    allowed, yields, returns, *said = machine.run("python3", "-c", POLICIES, "tzdistd-install", "--rollback")[1].splitlines()
    say("\n".join(said))
    # a computer that is a container itself may not raise the limit, and then nothing yields
    say(f"requests go before an install: {yields}")
    same("the policy of an install, and after it", (yields, returns), (allowed, "True"))
    holds("the rollback is not served", machine.file_of(AZORES) != machine.file_of(SEOUL))
    token = machine.token()
    machine.reboot()
    same("the token after a reboot", machine.token(), token)
    holds("the rollback is gone", machine.file_of(AZORES) != machine.file_of(SEOUL))


def alone(machine):
    """A mirror that boots while its primary is down serves what it had."""
    wanted = machine.file_of(TOKYO)
    eventually("the rollback at the mirror", wanted, lambda: machine.file_of(TOKYO, MIRROR))
    machine.sh("systemctl disable --now tzdistd")
    machine.reboot()
    eventually("the mirror after a reboot without its primary", True, lambda: machine.token(MIRROR) is not None)
    same("the zone at the mirror", machine.file_of(TOKYO, MIRROR), wanted)
    machine.journal_has("tzdistd-mirror", "serves its last copy")
    machine.sh("systemctl enable --now tzdistd")
    before = machine.file_of(AZORES)
    machine.run("tzdistd-install", "--rollback")
    wanted = machine.file_of(AZORES)
    holds("the second rollback changed nothing", wanted != before)
    eventually(
        "the mirror follows its primary again", wanted, lambda: machine.file_of(AZORES, MIRROR)
    )


def purged(machine):
    """What is left of the package, its user and its units once it is purged: the releases."""
    # what the trial made itself
    machine.sh("systemctl stop device || true; rm -r /etc/systemd/system/tzdistd-sync.timer.d")
    machine.run("apt-get", "purge", "-y", "tzdistd")
    listed = machine.sh("find / -xdev -iname '*tzdistd*' -not -path '/var/lib/tzdistd/*' -not -path '/root/*' "
                        "-not -path '/var/log/*' -not -path '/var/cache/*' | sort")
    same("what is left", listed, "/var/lib/tzdistd")
    kept = machine.sh("ls /var/lib/tzdistd")
    same("what is left there", kept, "releases")
    same("the user", machine.sh("getent passwd tzdistd || echo none"), "none")
    same("failed units", [unit for unit in machine.failed() if "tzdistd" in unit], [])


PARTS = [installed, without_release, signals, others, followed, refused, strays, ruled, rolled_back, alone, purged]


def base(folder):
    """Makes the Debian of which the machine is a copy, unless it exists."""
    if not os.path.isdir(os.path.join(folder, "usr")):
        print(f"debootstrap {folder}", flush=True)
        subprocess.run(["debootstrap", "--variant=minbase", f"--include={PACKAGES}", "bookworm", folder],
                       check=True, stdout=subprocess.DEVNULL)


def main():
    parser = argparse.ArgumentParser(description=__doc__, formatter_class=argparse.RawDescriptionHelpFormatter)
    parser.add_argument("program", nargs="?", default=PROGRAM, help="the built program")
    parser.add_argument("--base", metavar="FOLDER", help="a Debian of debootstrap, which is made if it is not there")
    parser.add_argument("--few", action="store_true", help="the zones of a dozen places instead of all")
    parser.add_argument("--keep", action="store_true", help="leave the folder of the machine")
    options = parser.parse_args()
    if os.geteuid() != 0:
        sys.exit("deploy/try_system.py: run it as root, since it mounts and boots")
    for tool in ("debootstrap", "unshare", "nsenter", "dpkg-deb"):
        if shutil.which(tool) is None:
            sys.exit(f"deploy/try_system.py: {tool} is not installed: apt-get install debootstrap util-linux dpkg")
    room = tempfile.mkdtemp(prefix="tzdistd-system-")
    try:
        tried(options, room)
    finally:
        if options.keep:
            print(f"the machine is in {room}")
        else:
            shutil.rmtree(room, ignore_errors=True)


def tried(options, room):
    folder = options.base or os.path.join(room, "base")
    base(folder)
    root = os.path.join(room, "root")
    subprocess.run(["cp", "-a", "--reflink=auto", folder, root], check=True)
    if options.few:
        keep_few(os.path.join(root, "usr/share/zoneinfo"))
    words = [os.path.join(HERE, "package.py"), options.program, "--to", os.path.join(room, "package")]
    package = subprocess.run(words, check=True, stdout=subprocess.PIPE, text=True).stdout.split()[-1]
    shutil.copyfile(package, os.path.join(root, "root/tzdistd.deb"))
    machine = Machine(root)
    try:
        same("the state after the first boot", machine.boot(), "running")
        for part in PARTS:
            begin = time.monotonic()
            print(part.__name__.replace("_", " "), flush=True)
            part(machine)
            print(f"  {time.monotonic() - begin:.0f} s", flush=True)
    except Failure as fault:
        for unit in UNITS:
            print(f"{unit}:", *machine.journal(unit)[-12:], sep="\n    ")
        sys.exit(f"deploy/try_system.py: {fault}")
    finally:
        machine.kill()
    print("system: all well")


if __name__ == "__main__":
    main()
