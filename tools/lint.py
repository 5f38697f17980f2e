#!/usr/bin/env python3
"""Runs the linters that this machine has over scripts, units, sites and manual pages.

    tools/lint.py [NAME..]

    example: tools/lint.py shellcheck pyflakes

Each linter that is not installed is skipped, with a line that says so. The status is 1 if one of
them complains.

    shellcheck       scripts of the shell
    pyflakes         Python: names that are not used or not defined
    mandoc           manual pages
    systemd-analyze  units, with their programs at places of this repository
    nginx            sites, with a certificate that is made for the test

Python's standard library only.
"""

import argparse
import os
import re
import shutil
import subprocess
import sys
import tempfile
from pathlib import Path

from declared_names import listed_files

TOP = Path(__file__).resolve().parent.parent
UNITS = (".service", ".timer", ".path", ".socket")


def ran(words, **more):
    """The status of a linter, and what it said."""
    done = subprocess.run(words, stdout=subprocess.PIPE, stderr=subprocess.STDOUT, text=True, timeout=300, **more)
    return done.returncode, done.stdout


def installed(*names):
    """The first of these programs that is installed."""
    return next((it for it in map(shutil.which, names) if it), None)


def first_line(file):
    with open(TOP / file, "rb") as source:
        return source.readline(200).decode(errors="replace")


def written_in(files, ending, interpreters):
    """The files of a language, by their ending or by their first line."""
    first = re.compile(rf"#!.*\b({interpreters})\b")
    return [it for it in files if it.endswith(ending) or first.match(first_line(it))]


def shellcheck(files):
    program = installed("shellcheck")
    return program and ran([program, "-S", "warning", *written_in(files, ".sh", "sh|bash|dash")], cwd=TOP)


def pyflakes(files):
    program = installed("pyflakes3", "pyflakes")
    return program and ran([program, *written_in(files, ".py", "python3")], cwd=TOP)


def mandoc(files):
    program = installed("mandoc")
    pages = [it for it in files if re.search(r"^deploy/.*\.[1-8]$", it)]
    return program and ran([program, "-Tlint", "-W", "warning", *pages], cwd=TOP)


def unit_to_verify(text, room, files):
    """A unit whose programs are those of this repository, in the place of the installed ones."""
    for path, name in re.findall(r"(/usr/lib/tzdistd[\w-]*/([\w.-]+))", text):
        for file in files:
            if file.startswith(("deploy/", "tools/")) and Path(file).name == name and not (room / name).exists():
                (room / name).symlink_to(TOP / file)
        text = text.replace(path, str(room / name))
    return text


def systemd(files):
    program = installed("systemd-analyze")
    units = [it for it in files if it.endswith(UNITS)]
    if not program or not units:
        return None
    with tempfile.TemporaryDirectory() as folder:
        room = Path(folder).resolve()
        for unit in units:
            (room / Path(unit).name).write_text(unit_to_verify((TOP / unit).read_text(), room, files))
        words = [program, "verify", "--man=no", *(str(room / Path(it).name) for it in units)]
        environment = {**os.environ, "SYSTEMD_UNIT_PATH": f"{room}:"}
        _, said = ran(words, env=environment)
        # it also checks the units of this machine that ours name
        ours = [it for it in said.splitlines() if str(room) in it or any(Path(unit).name in it for unit in units)]
        return 1 if ours else 0, "\n".join(ours)


def nginx(files):
    program, openssl = installed("nginx"), installed("openssl")
    if not program or not openssl:
        return None
    with tempfile.TemporaryDirectory() as room:
        words = [openssl, "req", "-x509", "-newkey", "rsa:2048", "-nodes", "-subj", "/CN=tz.example.org",
                 "-keyout", f"{room}/key.pem", "-out", f"{room}/fullchain.pem"]
        if ran(words)[0]:
            return 1, "openssl made no certificate for the test of the site"
        results = [nginx_over(program, room, site) for site in sites_in(files)]
    return max(status for status, _ in results), "".join(said for _, said in results)


def sites_in(files):
    """The sites of nginx. One without a server is the main one's first blocks, for other groups."""
    main = (TOP / "deploy/nginx-tzdistd.conf").read_text()
    for file in files:
        if re.search(r"^deploy/nginx-.*\.conf$", file):
            text = (TOP / file).read_text()
            if not re.search(r"^server \{", text, re.MULTILINE):
                group = r"^(?:(?:map|split_clients) .* \$tzdistd_group|upstream \w+) \{\n.*?^\}\n"
                text += re.sub(group, "", main, flags=re.MULTILINE | re.DOTALL)
            yield text


def nginx_over(program, room, site):
    """What nginx says of a site, with its files and its ports in a place for the test."""
    site = re.sub(r"(ssl_certificate_key )\S+;", rf"\1{room}/key.pem;", site)
    site = re.sub(r"(\w*(?:ssl_certificate|_trusted_certificate) )\S+;", rf"\1{room}/fullchain.pem;", site)
    site = re.sub(r"(proxy_cache_path )\S+", rf"\1{room}/cache", site)
    # no name is looked up
    site = re.sub(r"(^\s*server )[a-z][\w.-]*", r"\g<1>127.0.0.1", site, flags=re.MULTILINE)
    site = re.sub(r"((?:access|error)_log )[^;]+;", rf"\1{room}/log;", site)
    for at, line in enumerate(re.findall(r"listen [^;]+;", site)):
        words = [it for it in line[7:-1].split()[1:] if not it.startswith("ipv6only")]
        site = site.replace(line, " ".join([f"listen unix:{room}/socket{at}", *words]) + ";", 1)
    Path(room, "site").write_text(site)
    places = "".join(
        f"{name}_temp_path {room}/{name};\n" for name in ("client_body", "proxy", "fastcgi", "uwsgi", "scgi")
    )
    Path(room, "conf").write_text(
        f"pid {room}/pid;\nevents {{}}\nhttp {{\naccess_log off;\n{places}include {room}/site;\n}}\n"
    )
    status, said = ran([program, "-t", "-q", "-p", room, "-c", f"{room}/conf", "-e", f"{room}/errors"])
    return status, said.replace(f"{room}/", "")


LINTERS = {
    "shellcheck": shellcheck, "pyflakes": pyflakes, "mandoc": mandoc, "systemd-analyze": systemd, "nginx": nginx
}


def main():
    flags = argparse.ArgumentParser(
        description="Runs the linters that this machine has.", epilog="example: tools/lint.py shellcheck pyflakes"
    )
    flags.add_argument("names", nargs="*", metavar="NAME", help=f"of {', '.join(LINTERS)} (default: all)")
    given = flags.parse_args()
    unknown = set(given.names) - set(LINTERS)
    if unknown:
        flags.error(f"no linter {', '.join(sorted(unknown))}: choose of {', '.join(LINTERS)}")
    files, worst = listed_files(TOP), 0
    for name in given.names or LINTERS:
        result = LINTERS[name](files)
        if result is None:
            print(f"lint: {name} is not installed, and is skipped")
            continue
        status, said = result
        if status or said.strip():
            worst = 1
        print(f"lint: {name}: {'complains' if status or said.strip() else 'all well'}")
        if said.strip():
            print(said.rstrip())
    return worst


if __name__ == "__main__":
    sys.exit(main())
