#!/usr/bin/env python3
"""Makes a Debian package of the built program, its units, scripts, site, page, tools and manual
pages.

    deploy/package.py [PROGRAM] [--to FOLDER] [--version V] [--maintainer "NAME <ADDRESS>"]
    deploy/package.py [PROGRAM] --into FOLDER

For example, of the program that README builds, into the current folder:

    deploy/package.py --to .

It prints the path of the package. It needs dpkg-dev and binutils. Where lintian is installed, it
must report no error in the package. try_system.py tries the package under systemd. With --into, the
files are put into a root, as `--into /` for a system without dpkg. Settings that exist there are
not replaced.
"""

import argparse
import ast
import os
import shutil
import sys

sys.dont_write_bytecode = True
HERE = os.path.dirname(os.path.abspath(__file__))
sys.path.insert(0, os.path.join(os.path.dirname(HERE), "tools"))

import deb
from served import PROGRAM, ROOT

# The units, each a file of this folder. Those of a mirror and of metrics may be enabled, and are
# not, since a machine need not have them. In the scripts of the package these names replace
# @UNITS@, @ENABLED@ and @OTHERS@.
ENABLED = ["tzdistd.service", "tzdistd-follow.timer"]
OTHERS = ["tzdistd-mirror.service", "tzdistd-sync.timer", "tzdistd-metrics.timer"]
UNITS = [*ENABLED, *OTHERS, "tzdistd-follow.service", "tzdistd-sync.service", "tzdistd-metrics.service"]

# The programs of the package. The modules that they import are added.
TOOLS = [
    "deploy/tzdistd-serve",
    "deploy/tzdistd-install",
    "deploy/tzdistd-follow",
    "deploy/tzdistd-mirror",
    "deploy/tzdistd-metrics",
    "deploy/tzdistd-console",
    "deploy/tzdistd-watch",
    "tools/pack_zoneinfo.py",
    "tools/fetch_zoneinfo.py",
]
LIBRARY = "usr/lib/tzdistd"

# Each other file, the folder that it goes to, and its name there, if that is another.
FILES = [
    *(("deploy/" + unit, "lib/systemd/system") for unit in UNITS),
    ("deploy/page/index.html", "usr/share/tzdistd/page"),
    ("deploy/nginx-tzdistd.conf", "usr/share/doc/tzdistd/examples"),
    ("deploy/nginx-mirrors.conf", "usr/share/doc/tzdistd/examples"),
    ("deploy/nginx-upstream.conf", "usr/share/doc/tzdistd/examples"),
    ("deploy/stunnel-upstream.conf", "usr/share/doc/tzdistd/examples"),
    ("deploy/README.md", "usr/share/doc/tzdistd"),
    ("docs/FORMATS.md", "usr/share/doc/tzdistd"),
    ("deploy/debian/copyright", "usr/share/doc/tzdistd"),
    ("deploy/debian/default", "etc/default", "tzdistd"),
    ("deploy/debian/mirror-default", "etc/default", "tzdistd-mirror"),
]
PACKED = [("deploy/tzdistd.8", "usr/share/man/man8"), ("deploy/tzdistd-install.8", "usr/share/man/man8")]
LINKS = [("usr/sbin/tzdistd-install", "../lib/tzdistd/tzdistd-install")]
SCRIPTS = ["postinst", "prerm", "postrm"]
SETTINGS = ["/etc/default/tzdistd", "/etc/default/tzdistd-mirror"]
# The zones of the machine are followed: dpkg calls `postinst triggered` after it changed something
# there.
TRIGGERS = "interest-noawait /usr/share/zoneinfo\n"

CONTROL = """\
Package: tzdistd
Version: {version}
Architecture: {architecture}
Maintainer: {maintainer}
Installed-Size: {{size}}
Depends: adduser, python3 (>= 3.8), {depends}
Recommends: tzdata
Suggests: nginx
Section: net
Priority: optional
Description: time zone data distribution server (RFC 7808)
 It takes releases of time zone data as folders of TZif files, checks them
 whole, and answers requests of HTTP with JSON documents, TZif files and
 iCalendar components. Releases are installed while it serves.
 .
 Once installed, it serves the time zone data of this machine, and follows
 each upgrade of tzdata. A mirror serves what another server has instead.
 .
 The package has units of systemd, commands for the operator, a page and a
 site of nginx, and a tool that keeps the zones of a device as a server has
 them.
"""


def depends(program, room):
    """The packages whose libraries the program uses."""
    deb.write(os.path.join(room, "debian/control"), b"Source: tzdistd\n\nPackage: tzdistd\nArchitecture: any\n")
    found = deb.output("dpkg-shlibdeps", "-O", "-e" + program, cwd=room)
    return found.partition("shlibs:Depends=")[2] or "libc6"


def modules_of(path):
    """The modules of this repository that a program imports, and those that these import."""
    if not deb.read(path).startswith(b"#!/usr/bin/env python3") and not path.endswith(".py"):
        return set()
    found = set()
    for node in ast.walk(ast.parse(deb.read(path))):
        names = [node.module] if isinstance(node, ast.ImportFrom) else []
        names += [one.name for one in node.names] if isinstance(node, ast.Import) else []
        for name in names:
            for folder in ("deploy", "tools"):
                module = f"{folder}/{name}.py"
                if os.path.exists(os.path.join(ROOT, module)) and module not in found:
                    found |= {module, *modules_of(module)}
    return found


def fill(stage, program, version):
    """Puts the files of the package into a folder."""
    for source in TOOLS:
        deb.write(os.path.join(stage, LIBRARY, os.path.basename(source)), deb.read(source), 0o755)
        for module in modules_of(source) - set(TOOLS):
            deb.write(os.path.join(stage, LIBRARY, os.path.basename(module)), deb.read(module))
    deb.write(os.path.join(stage, LIBRARY, "VERSION"), f"{version}\n".encode())
    for source, folder, *name in FILES:
        target = os.path.join(stage, folder, name[0] if name else os.path.basename(source))
        if not (folder == "etc/default" and os.path.exists(target)):
            deb.write(target, deb.read(source))
    for source, folder in PACKED:
        deb.write(os.path.join(stage, folder, os.path.basename(source) + ".gz"), deb.packed(deb.read(source)))
    for name, target in LINKS:
        os.makedirs(os.path.dirname(os.path.join(stage, name)), exist_ok=True)
        if not os.path.islink(os.path.join(stage, name)):
            os.symlink(target, os.path.join(stage, name))
    target = os.path.join(stage, "usr/bin/tzdistd")
    os.makedirs(os.path.dirname(target), exist_ok=True)
    if os.path.exists(target):
        # a program that runs cannot be overwritten
        os.unlink(target)
    shutil.copyfile(program, target)
    deb.output("strip", "--strip-unneeded", "--remove-section=.comment", "--remove-section=.note", target)
    os.chmod(target, 0o755)


def scripts():
    """The scripts of the package, with the names of the units in them."""
    found = {}
    for script in SCRIPTS:
        text = deb.read("deploy/debian/" + script).decode()
        for word, units in (("@UNITS@", UNITS), ("@ENABLED@", ENABLED), ("@OTHERS@", OTHERS)):
            text = text.replace(word, " ".join(units))
        found[script] = text.encode()
    return found


def package(options):
    """Builds the package, and returns its path."""
    words, when = deb.words_of("tzdistd", options)
    words["architecture"] = deb.output("dpkg", "--print-architecture")
    os.umask(0o022)
    with deb.room() as room:
        stage = os.path.join(room, "stage")
        fill(stage, options.program, words["version"])
        deb.write_changes(stage, words)
        words["depends"] = depends(os.path.join(stage, "usr/bin/tzdistd"), room)
        deb.describe(stage, CONTROL.format(**words), SETTINGS, scripts())
        deb.write(os.path.join(stage, "DEBIAN/triggers"), TRIGGERS.encode())
        path = os.path.join(options.to, f"tzdistd_{words['version']}_{words['architecture']}.deb")
        return deb.build(stage, path, when)


def main():
    parser = argparse.ArgumentParser(description="Makes a Debian package of the built program.")
    parser.add_argument("program", nargs="?", default=PROGRAM, help="the built program")
    deb.add_words(parser)
    parser.add_argument("--into", metavar="FOLDER", help="a root to put the files into, instead of a package")
    options = parser.parse_args()
    if not os.path.exists(options.program):
        sys.exit(f"{options.program} is not built: README says how")
    deb.needed("strip", *(() if options.into else ("dpkg-deb", "dpkg-shlibdeps")))
    if options.into:
        os.umask(0o022)
        fill(options.into, options.program, options.version or deb.version())
        return
    path = package(options)
    if faults := deb.lint(path):
        sys.exit("\n".join(faults))
    print(path)


if __name__ == "__main__":
    main()
