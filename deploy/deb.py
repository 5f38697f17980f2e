"""What scripts that make Debian packages share: the files of a package, its metadata, and a trial
in a root.

Python's standard library only. It needs dpkg-deb.
"""

import gzip
import hashlib
import os
import re
import shutil
import subprocess
import sys
import tempfile
import time

ROOT = os.path.dirname(os.path.dirname(os.path.abspath(__file__)))
MAINTAINER = "The authors of tzdistd <tzdistd@tz.example.org>"
CHANGES = """\
{name} ({version}) unstable; urgency=medium

  * Built from commit {commit}.

 -- {maintainer}  {date}
"""


def output(*words, **more):
    return subprocess.run(words, check=True, capture_output=True, text=True, **more).stdout.strip()


def commit():
    """The last commit of the repository, when it was made, and the number of commits up to it."""
    when, name = output("git", "-C", ROOT, "log", "-1", "--format=%ct %h").split()
    return name, int(when), output("git", "-C", ROOT, "rev-list", "--count", "HEAD")


def version():
    """A version that rises: the date of the last commit, and the number of commits."""
    _, when, count = commit()
    return time.strftime("0~%Y%m%d.", time.gmtime(when)) + count


def words_of(name, options):
    """The metadata of a package and of its commit, for its texts, and when that commit was made."""
    commit_name, when, _ = commit()
    words = {
        "name": name,
        "version": options.version or version(),
        "maintainer": options.maintainer,
        "commit": commit_name,
        "date": time.strftime("%a, %d %b %Y %H:%M:%S +0000", time.gmtime(when)),
    }
    return words, when


def write(path, data, mode=0o644):
    os.makedirs(os.path.dirname(path), exist_ok=True)
    with open(path, "wb") as file:
        file.write(data)
    os.chmod(path, mode)


def read(path):
    """The bytes of a file of the repository."""
    with open(os.path.join(ROOT, path), "rb") as file:
        return file.read()


def packed(data):
    return gzip.compress(data, 9, mtime=0)


def write_changes(stage, words):
    """Writes the list of changes, which names the commit."""
    path = os.path.join(stage, f"usr/share/doc/{words['name']}/changelog.gz")
    write(path, packed(CHANGES.format(**words).encode()))


def describe(stage, control, conffiles, scripts):
    """Writes the metadata of the package, the checksums of its files, and its scripts."""
    walk = os.walk(stage)
    files = sorted(os.path.join(folder, name) for folder, _, names in walk for name in names)
    files = [path for path in files if not os.path.islink(path)]
    sums = ""
    for path in files:
        with open(path, "rb") as file:
            sums += f"{hashlib.md5(file.read()).hexdigest()}  {os.path.relpath(path, stage)}\n"
    size = sum(os.path.getsize(path) for path in files) // 1024 + 1
    at = os.path.join(stage, "DEBIAN")
    write(os.path.join(at, "control"), control.format(size=size).encode())
    write(os.path.join(at, "md5sums"), sums.encode())
    write(os.path.join(at, "conffiles"), "".join(f"{path}\n" for path in conffiles).encode())
    for name, data in scripts.items():
        write(os.path.join(at, name), data, 0o755)


def build(stage, path, when):
    """Makes the package of a folder. The same commit and files give the same package."""
    environment = {**os.environ, "SOURCE_DATE_EPOCH": str(when)}
    os.makedirs(os.path.dirname(os.path.abspath(path)), exist_ok=True)
    output("dpkg-deb", "--root-owner-group", "--build", stage, path, env=environment)
    return path


def lint(path):
    """Prints all that lintian reports, if it is installed. Returns the errors that it finds."""
    if shutil.which("lintian") is None:
        return []
    done = subprocess.run(["lintian", "--allow-root", path], capture_output=True, text=True)
    print(done.stdout or "lintian: no error and no warning\n", end="", file=sys.stderr)
    return [line for line in done.stdout.splitlines() if line.startswith("E:")]


# Paths that dpkg and the tools for users keep for themselves, whatever the package.
KEPT = re.compile(
    r"(var/lib/dpkg|var/log|var/cache/(apt|debconf|ldconfig|man)|proc|sys|dev|tmp)/.*"
    r"|etc/[a-z]+-|run/adduser"
)


def picture(root):
    """Each file of a root with its digest, each folder and each link."""
    found = {}
    for folder, folders, names in os.walk(root):
        for name in folders + names:
            path = os.path.join(folder, name)
            inside = os.path.relpath(path, root)
            if KEPT.fullmatch(inside):
                continue
            if os.path.islink(path):
                found[inside] = os.readlink(path)
            elif os.path.isfile(path):
                with open(path, "rb") as file:
                    found[inside] = hashlib.sha256(file.read()).hexdigest()
            else:
                found[inside] = "folder"
    return found


PLAIN = {"PATH": "/usr/sbin:/usr/bin:/sbin:/bin", "LC_ALL": "C.UTF-8"}


def in_root(root, *words, user=None, **values):
    """What a command prints in a root. The command must succeed."""
    by = [f"--userspec={user}:{user}"] if user else []
    words = ["chroot", *by, root, *words]
    done = subprocess.run(words, capture_output=True, text=True, env={**PLAIN, **values})
    if done.returncode != 0:
        sys.exit(f"{' '.join(words)}: {done.stdout}{done.stderr}")
    return done.stdout.strip()


def room():
    """A folder in which a package is put together."""
    return tempfile.TemporaryDirectory()


def add_words(parser):
    """Adds the arguments that each script accepts."""
    parser.add_argument("--to", metavar="FOLDER", default=".", help="where the package goes (default: here)")
    parser.add_argument("--version", help="its version (default: the date of the last commit and the number of commits)")
    parser.add_argument("--maintainer", default=MAINTAINER, help="who keeps it")


def needed(*tools):
    """Ends the script where one of these is not installed."""
    for tool in tools:
        if shutil.which(tool) is None:
            sys.exit(f"{tool} is not installed: apt-get install dpkg-dev binutils")
