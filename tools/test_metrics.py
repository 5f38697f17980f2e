#!/usr/bin/env python3
"""Tests deploy/tzdistd-metrics with a server that is made here, and with the built program.

    tools/test_metrics.py [PROGRAM]

Each check starts its own servers at free ports, and ends them. It needs Python's standard
library only. The status is 0 where all is well, and 1 where a check failed.
"""

import contextlib
import json
import os
import re
import socket
import subprocess
import sys
import tempfile
import time

sys.dont_write_bytecode = True
DEPLOY = os.path.join(os.path.dirname(os.path.dirname(os.path.abspath(__file__))), "deploy")

from checks import LONG, Answering, holds, release, run_checks, same
from served import HOST, Client, Served

SCRIPT = os.path.join(DEPLOY, "tzdistd-metrics")
# Seconds after which the whole run is given up.
WHOLE = 900

# The text format: a comment, or a name, labels and a number.
COMMENT = re.compile(r"# (HELP [a-z_]+ [^\n]+|TYPE [a-z_]+ (gauge|counter))")
SAMPLE = re.compile(r'([a-z_]+)\{((?:[a-z_]+="(?:[^"\\]|\\.)*",?)+)\} (-?\d+(?:\.\d+)?)')

ZONES = [
    {"tzid": "A/B", "etag": "1", "last-modified": "2025-01-01T00:00:00Z", "publisher": "IANA", "version": "2025a"},
    {"tzid": "C/D", "etag": "2", "last-modified": "2025-03-22T00:00:00Z", "publisher": 'a "b"\\c', "version": "2025b"},
]
STAMP, EXPIRY = 1742601600, 1782604800


def ran(*words):
    """Status, standard output and standard error of the script."""
    done = subprocess.run([sys.executable, SCRIPT, *words], capture_output=True, text=True, timeout=LONG)
    return done.returncode, done.stdout, done.stderr


def samples(text):
    """The samples of a text. Each line must be of the format, and each metric must be in one group
    with its type."""
    found, typed = {}, []
    for line in text.splitlines():
        if line.startswith("#"):
            holds(f"a comment: {line}", COMMENT.fullmatch(line))
            typed += [line.split()[2]] if line.startswith("# TYPE") else []
            continue
        sample = SAMPLE.fullmatch(line)
        holds(f"a sample: {line}", sample)
        holds(f"the group of {line}", typed and typed[-1] == sample.group(1))
        found[f"{sample.group(1)}{{{sample.group(2)}}}"] = float(sample.group(3))
    same("metrics with a type", len(typed), len(set(typed)))
    return found


def fake(**answers):
    """A server whose answers depend on the last part of a target."""

    def answer(target, _):
        status, document = answers.get(target.rpartition("/")[2], (400, {}))
        return status, document if isinstance(document, bytes) else json.dumps(document).encode()

    return Answering(answer)


@contextlib.contextmanager
def folders(address, service="tzdistd"):
    """The arguments for a service at an address, with a runtime and a state folder, and these
    folders."""
    with tempfile.TemporaryDirectory() as room:
        runtime, state = os.path.join(room, "run"), os.path.join(room, "state")
        os.mkdir(runtime)
        os.mkdir(state)
        yield [service, "--address", address, "--runtime", runtime, "--state", state], runtime, state


def write(folder, name, text):
    with open(os.path.join(folder, name), "w", encoding="utf-8") as file:
        file.write(text)


def figures(words):
    status, output, complaints = ran(*words)
    same("the run", (status, complaints), (0, ""))
    return samples(output)


def reports_the_release(program):
    leaps = {"expires": "2026-06-28", "leapseconds": [], "publisher": "IANA", "version": "2025b"}
    listed = {"synctoken": "17-0123456789abcdef", "timezones": ZONES}
    with fake(zones=(200, listed), leapseconds=(200, leaps)) as server, folders(server.address) as (words, _, _):
        found, one = figures(words), 'service="tzdistd"'
        wanted = {"up": 1, "zones": 2, "token_place": 17, "leap_table": 1, "release_timestamp_seconds": STAMP,
                  "leap_table_expiry_timestamp_seconds": EXPIRY}
        same("the figures", {name: found[f"tzdistd_{name}{{{one}}}"] for name in wanted}, wanted)
        same("the labels", found[f'tzdistd_release_info{{{one},version="2025b",publisher="a \\"b\\"\\\\c"}}'], 1)
        age = found[f"tzdistd_release_age_seconds{{{one}}}"]
        holds("the age of the release", abs(time.time() - STAMP - age) < LONG)
        holds("how long the list took", 0 <= found[f"tzdistd_response_seconds{{{one}}}"] < LONG)


def reports_a_missing_leap_table(program):
    listed = {"synctoken": "1-0123456789abcdef", "timezones": []}
    with fake(zones=(200, listed)) as server, folders(server.address) as (words, _, _):
        found, one = figures(words), '{service="tzdistd"}'
        same("a release without zones", (found[f"tzdistd_up{one}"], found[f"tzdistd_zones{one}"]), (1, 0))
        same("no table", found[f"tzdistd_leap_table{one}"], 0)
        same("no expiry, no stamp", [name for name in found if "expiry" in name or "release" in name], [])


def reports_a_server_that_is_down(program):
    """A server without an answer, or with another answer, is reported as down. The script
    succeeds."""
    with socket.socket() as silent:
        silent.bind((HOST, 0))
        cases = [f"{HOST}:{silent.getsockname()[1]}"]
        with fake(zones=(503, b"")) as full, fake(zones=(200, b"no list")) as other, fake(zones=(200, {"synctoken": 1})) as odd:
            cases += [full.address, other.address, odd.address]
            for address in cases:
                with folders(address) as (words, _, _):
                    found = figures(words)
                    same("up", found['tzdistd_up{service="tzdistd"}'], 0)
                    same("nothing is said of a release", [name for name in found if "zones" in name or "token" in name], [])


def reports_the_events(program):
    """The last event of each kind is reported, and whether a mirror serves its last copy."""
    log = (
        "2026-01-01T00:00:00Z what=install result=installed token=2-aa folder=x\n"
        "2026-01-02T00:00:00Z what=install result=refused token=2-aa reason=13 FooterDisagrees 1\n"
        "2026-01-03T00:00:00Z what=sync result=unchanged token=2-aa\n"
        "a line of another form\n"
        "2026-99-99T00:00:00Z what=sync result=refused token=\n"
    )
    with folders(f"{HOST}:1", "tzdistd-mirror") as (words, runtime, state):
        write(state, "events.log", log)
        write(state, "last", "time=1767571200\nwhat=start\nresult=ready\ntoken=1-bb\nreason=last copy\n")
        write(runtime, "source", "copy\n")
        found, one = figures(words), 'service="tzdistd-mirror"'
        wanted = {
            f'tzdistd_event_timestamp_seconds{{{one},what="install",result="refused"}}': 1767312000,
            f'tzdistd_event_timestamp_seconds{{{one},what="sync",result="unchanged"}}': 1767398400,
            f'tzdistd_event_timestamp_seconds{{{one},what="start",result="ready"}}': 1767571200,
            f'tzdistd_event_failed{{{one},what="install"}}': 1,
            f'tzdistd_event_failed{{{one},what="sync"}}': 0,
            f"tzdistd_mirror_last_copy{{{one}}}": 1,
        }
        same("the events", {name: found.get(name) for name in wanted}, wanted)
        write(runtime, "source", "upstream\n")
        same("a mirror that follows", figures(words)[f"tzdistd_mirror_last_copy{{{one}}}"], 0)


def reports_the_process(program):
    """Memory, processor time, descriptors and connections of the program itself."""
    with tempfile.TemporaryDirectory() as room, contextlib.ExitStack() as stack:
        server = stack.enter_context(Served([release(os.path.join(room, "one"), "1", {"A/B": 1})], program=program))
        words, runtime, _ = stack.enter_context(folders(server.address))
        write(runtime, "pid", f"{server.pid}\n")
        for _ in range(5):
            stack.enter_context(Client(server.port)).ask("/tzdist/zones")
        found, one = figures(words), '{service="tzdistd"}'
        # the script's own connections may still be there
        holds("five connections", 5 <= found[f"tzdistd_connections{one}"] <= 7)
        holds("descriptors", 8 <= found[f"tzdistd_process_open_fds{one}"] < found[f"tzdistd_process_max_fds{one}"])
        holds("memory", 1 << 20 < found[f"tzdistd_process_resident_memory_bytes{one}"] < 1 << 28)
        holds("processor time", 0 <= found[f"tzdistd_process_cpu_seconds_total{one}"] < LONG)
        holds("its start", abs(time.time() - found[f"tzdistd_process_start_time_seconds{one}"]) < LONG)
        same("the release", (found[f"tzdistd_up{one}"], found[f"tzdistd_zones{one}"]), (1, 1))
        write(runtime, "pid", "99999999\n")
        same("a process that is gone", [name for name in figures(words) if "process" in name], [])


def writes_a_file(program):
    """A file appears complete, and everybody may read it."""
    with folders(f"{HOST}:1") as (words, runtime, _):
        path = os.path.join(runtime, "tzdistd.prom")
        os.umask(0o077)
        same("a run", ran(*words, "--to", path), (0, "", ""))
        with open(path, encoding="utf-8") as file:
            same("its figures", samples(file.read())['tzdistd_up{service="tzdistd"}'], 0)
        same("its mode", os.stat(path).st_mode & 0o777, 0o644)
        same("nothing else is there", os.listdir(runtime), ["tzdistd.prom"])
        status, _, complaint = ran(*words, "--to", os.path.join(runtime, "none/x"))
        holds("a folder that is not there", status == 1 and complaint.startswith("tzdistd-metrics: "))


def understands_its_words(program):
    status, _, complaint = ran("nginx")
    holds("another service", status == 2 and "is no service: name tzdistd or tzdistd-mirror" in complaint)
    status, _, complaint = ran("tzdistd", "tzdistd-mirror", "--address", "x:1")
    holds("an address for two", status == 2 and "are for one service" in complaint)
    status, _, complaint = ran("tzdistd", "--address", "nonsense")
    same("no address", (status, complaint), (1, "tzdistd-metrics: 'nonsense' is no HOST:PORT\n"))
    holds("--help has an example", "tzdistd-metrics --to /var" in ran("--help")[1])


CHECKS = [
    reports_the_release, reports_a_missing_leap_table, reports_a_server_that_is_down, reports_the_events, reports_the_process,
    writes_a_file, understands_its_words,
]

if __name__ == "__main__":
    sys.exit(run_checks("test_metrics", CHECKS, WHOLE, 2))
