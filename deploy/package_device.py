#!/usr/bin/env python3
"""Makes the Debian package `tzdistd-device`: a device's time zone files, as a server has them.

    deploy/package_device.py [--to FOLDER] [--version V] [--maintainer "NAME <ADDRESS>"]
                             [--try ROOT] [PROGRAM]

It prints the path of the package. The package has tzfetch.sh as the command `tzfetch`, a unit with
its timer, and the command `tzdistd-device`, which points a system at the tree. With --try, as root,
the package is installed in a folder that debootstrap made with the packages systemd, curl, python3
and man-db. There it fetches the zones of a server that runs the built program, points the root at
them, and is used, removed and purged. Nothing may be left behind. It needs dpkg-dev. Where lintian
is installed, it must report no error in the package.
"""

import argparse
import os
import shutil
import subprocess
import sys
import tempfile

sys.dont_write_bytecode = True
HERE = os.path.dirname(os.path.abspath(__file__))
sys.path.insert(0, os.path.join(os.path.dirname(HERE), "tools"))

import deb
from served import PROGRAM, Served

# Each file, where it goes, and its mode.
FILES = [
    ("tools/tzfetch.sh", "usr/bin/tzfetch", 0o755),
    ("deploy/device/tzdistd-device", "usr/sbin/tzdistd-device", 0o755),
    ("deploy/device/tzdistd-device-fetch", "usr/lib/tzdistd-device/tzdistd-device-fetch", 0o755),
    ("deploy/device/tzdistd-device.service", "lib/systemd/system/tzdistd-device.service", 0o644),
    ("deploy/device/tzdistd-device.timer", "lib/systemd/system/tzdistd-device.timer", 0o644),
    ("deploy/device/default", "etc/default/tzdistd-device", 0o644),
    ("deploy/debian/copyright", "usr/share/doc/tzdistd-device/copyright", 0o644),
]
PACKED = [
    ("deploy/device/tzfetch.1", "usr/share/man/man1/tzfetch.1.gz"),
    ("deploy/device/tzdistd-device.8", "usr/share/man/man8/tzdistd-device.8.gz"),
]
SCRIPTS = ["postinst", "prerm", "postrm"]

CONTROL = """\
Package: tzdistd-device
Version: {version}
Architecture: all
Maintainer: {maintainer}
Installed-Size: {{size}}
Depends: adduser, curl | wget
Recommends: ca-certificates
Suggests: bind9-dnsutils | ldnsutils
Section: net
Priority: optional
Description: time zone files of a device, as a server has them (RFC 7808)
 It keeps a tree of time zone files as a time zone data distribution server
 has them. A timer asks the server once an hour for what changed, and the tree
 changes over at once. After any failure it stays what it was.
 .
 The command tzdistd-device points the services, the logins and the local time
 of the system at the tree, and back. A removal points them back, too.
"""


def package(options):
    """Builds the package, and returns its path."""
    words, when = deb.words_of("tzdistd-device", options)
    os.umask(0o022)
    with deb.room() as room:
        stage = os.path.join(room, "stage")
        for source, path, mode in FILES:
            deb.write(os.path.join(stage, path), deb.read(source), mode)
        for source, path in PACKED:
            deb.write(os.path.join(stage, path), deb.packed(deb.read(source)))
        deb.write_changes(stage, words)
        scripts = {script: deb.read("deploy/device/" + script) for script in SCRIPTS}
        deb.describe(stage, CONTROL.format(**words), ["/etc/default/tzdistd-device"], scripts)
        path = os.path.join(options.to, f"tzdistd-device_{words['version']}_all.deb")
        return deb.build(stage, path, when)


# ---- trying it


def release(folder):
    """A release of the zone files of this system."""
    script = os.path.join(os.path.dirname(HERE), "tools/pack_zoneinfo.py")
    words = [sys.executable, script, "/usr/share/zoneinfo", folder]
    subprocess.run(words, check=True, capture_output=True)
    return folder


def fetched(root):
    """The line that a run prints, started as the unit would start it."""
    with open(root + "/etc/default/tzdistd-device") as file:
        lines = [line.strip() for line in file if "=" in line and not line.startswith("#")]
    values = dict(line.split("=", 1) for line in lines)
    state = "/var/lib/tzdistd-device"
    os.makedirs(root + state, exist_ok=True)
    deb.in_root(root, "chown", "tzdistd-device:tzdistd-device", state)
    run = "/usr/lib/tzdistd-device/tzdistd-device-fetch"
    return deb.in_root(root, run, user="tzdistd-device", STATE_DIRECTORY=state, **values)


def used(root):
    """The root with its tree, as programs use it."""
    tree = "/var/lib/tzdistd-device/zoneinfo"
    print("pointed:", deb.in_root(root, "tzdistd-device", "point").replace("\n", "; "))
    print("local time:", deb.in_root(root, "date", "-d", "@1751371200"))
    login = ". /etc/profile.d/tzdistd-device.sh; TZ=Asia/Tokyo date -d @0"
    print("a login:", deb.in_root(root, "sh", "-c", login))
    script = "import zoneinfo; print(zoneinfo.TZPATH[0], len(zoneinfo.available_timezones()))"
    print("python3:", deb.in_root(root, "python3", "-c", script, PYTHONTZPATH=tree))
    answers = "printf '3\\n1\\n1\\n1\\n' | tzselect 2>/dev/null | tail -1"
    print("tzselect:", deb.in_root(root, "sh", "-c", answers, TZDIR=tree))
    for page in ("tzfetch", "tzdistd-device"):
        print("the manual page:", deb.in_root(root, "sh", "-c", f"man {page} | sed -n 4p").strip())


def tried(path, root, program):
    """What is left in a root of a package that was installed, used, removed and purged there."""
    deb.in_root(root, "ln", "-sfn", "/usr/share/zoneinfo/Europe/Lisbon", "/etc/localtime")
    before = deb.picture(root)
    shutil.copyfile(path, os.path.join(root, "tmp/device.deb"))
    deb.in_root(root, "dpkg", "-i", "/tmp/device.deb")
    print("installed:", len(set(deb.picture(root)) - set(before)), "files and folders more")
    with tempfile.TemporaryDirectory() as room:
        folder = release(os.path.join(room, "release"))
        with Served([folder], program=program, within=120) as server:
            with open(root + "/etc/default/tzdistd-device", "a") as file:
                file.write(f"SERVER=http://127.0.0.1:{server.port}\n")
            print("a run:", fetched(root))
            print("another run:", fetched(root))
            used(root)
            server.quit()
    deb.in_root(root, "dpkg", "-i", "/tmp/device.deb")
    print("after an upgrade:", deb.in_root(root, "tzdistd-device", "status").replace("\n", "; "))
    deb.in_root(root, "dpkg", "--remove", "tzdistd-device")
    deb.in_root(root, "dpkg", "--purge", "tzdistd-device")
    os.unlink(os.path.join(root, "tmp/device.deb"))
    after = deb.picture(root)
    return sorted(name for name in set(before) | set(after) if before.get(name) != after.get(name))


def main():
    parser = argparse.ArgumentParser(
        description="Makes the Debian package tzdistd-device.",
        epilog="Example: deploy/package_device.py --to packages",
    )
    parser.add_argument("program", nargs="?", default=PROGRAM, help="the built program, for --try")
    deb.add_words(parser)
    trial = parser.add_argument("--try", dest="root", metavar="ROOT")
    trial.help = "a folder of debootstrap, to try it in"
    options = parser.parse_args()
    deb.needed("dpkg-deb")
    if options.root and not os.path.exists(options.program):
        sys.exit(f"{options.program} is not built: README says how")
    path = package(options)
    faults = deb.lint(path)
    if options.root:
        left = tried(path, options.root, os.path.abspath(options.program))
        print("left behind:", ", ".join(left) or "nothing")
        faults += [f"left behind: {name}" for name in left]
    if faults:
        sys.exit("\n".join(faults))
    print(path)


if __name__ == "__main__":
    main()
