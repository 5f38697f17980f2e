#!/usr/bin/env python3
"""Measures the built program over a release folder: what each action costs.

    bench/requests.py RELEASE_DIR [--program PATH] [--rounds N] [--zone TZID]

Each action is requested once, and then 1,000 times, on one stream that `answer` serves. The
difference of the two, divided by 999, is what a further request costs: processor microseconds (user
and system) and bytes. Four rows request all zones in turn, so that no answer is still cached.
Another figure is the time that the program takes to read, check and publish the release. It is that
of the run without any request, less that of one that prints the usage line. The last is one head
that arrives a byte at a time, short and long: what a byte costs must not grow with the head.
Figures are medians over several rounds, in each of which all runs are made once. It needs only
Python's standard library, is run by hand on an idle machine, and is no part of the gate.
"""

import argparse
import array
import fcntl
import json
import os
import platform
import statistics
import subprocess
import sys
import tempfile
import termios
import threading
from urllib.parse import quote

ROOT = os.path.dirname(os.path.dirname(os.path.abspath(__file__)))
MANY = 1000
SHORT, LONG = 4_000, 16_000
YEAR = "start=2025-01-01T00:00:00Z&end=2026-01-01T00:00:00Z"
JSON = "Accept: application/calendar+json"


class Run:
    """One run of the program: its output and its processor seconds."""

    def __init__(self, program, words, stream):
        with tempfile.TemporaryFile() as given, tempfile.TemporaryFile() as taken:
            given.write(stream)
            given.seek(0)
            child = subprocess.Popen(
                [program, *words], stdin=given, stdout=taken, stderr=subprocess.DEVNULL
            )
            _, status, usage = os.wait4(child.pid, 0)
            child.returncode = os.waitstatus_to_exitcode(status)
            taken.seek(0)
            self.output = taken.read()
        self.status = child.returncode
        self.seconds = usage.ru_utime + usage.ru_stime


def peak_memory(program, words, stream, size):
    """The most memory in kilobytes that a run has had once it wrote so many bytes of output."""
    child = subprocess.Popen(
        [program, *words], stdin=subprocess.PIPE, stdout=subprocess.PIPE, stderr=subprocess.DEVNULL
    )
    writer = threading.Thread(target=lambda: (child.stdin.write(stream), child.stdin.flush()))
    writer.start()
    while size > 0:
        piece = child.stdout.read1(1 << 20)
        if not piece:
            sys.exit(f"{program} ended before it had written all")
        size -= len(piece)
    with open(f"/proc/{child.pid}/status") as lines:
        memory = next(int(line.split()[1]) for line in lines if line.startswith("VmHWM"))
    writer.join()
    child.stdin.close()
    child.wait()
    return memory


def empty_release(at):
    """A release without zones in a folder."""
    with open(os.path.join(at, "manifest.json"), "w") as manifest:
        json.dump({"publisher": "-", "version": "-", "stamp": "2000-01-01T00:00:00Z", "zones": []}, manifest)
    return at


def head(target, *lines):
    """A request head."""
    return "\r\n".join([f"GET {target} HTTP/1.1", "Host: x", *lines, "", ""]).encode()


def first_reply(output):
    """The status, the fields and the body of the first reply of an output."""
    front, _, rest = output.partition(b"\r\n\r\n")
    lines = front.decode("ascii").split("\r\n")
    fields = dict(line.split(": ", 1) for line in lines[1:])
    body = rest[: int(fields.get("Content-Length", "0"))]
    return int(lines[0].split(" ")[1]), fields, body


def ask(program, folder, request):
    """The first reply to one request, which must be 200."""
    run = Run(program, ["answer", folder], request)
    if run.status != 0 or not run.output:
        sys.exit(f"{program} answer {folder} ended with status {run.status}: {run.output[:200]!r}")
    status, fields, body = first_reply(run.output)
    if status != 200:
        sys.exit(f"{request!r} was answered {status}")
    return fields, body


def requests_of(program, folder, zone):
    """The requests that are measured, each with its name and the status that it must get."""
    listing = json.loads(ask(program, folder, head("/tzdist/zones"))[1])
    names = [item["tzid"] for item in listing["timezones"]]
    if zone is None:
        zone = "America/New_York" if "America/New_York" in names else names[0]
    path = "/tzdist/zones/" + quote(zone, safe="")
    tag = ask(program, folder, head(path))[0]["ETag"]
    token = quote(listing["synctoken"], safe="")
    paths = ["/tzdist/zones/" + quote(name, safe="") for name in names]
    asked = [
        ("full list", head("/tzdist/zones"), 200),
        ("list since the last token", head(f"/tzdist/zones?changedsince={token}"), 200),
        ("get as calendar, whole", head(path), 200),
        ("get as calendar, a year", head(f"{path}?{YEAR}"), 200),
        ("get as JSON, whole", head(path, JSON), 200),
        ("get as JSON, a year", head(f"{path}?{YEAR}", JSON), 200),
        ("get as TZif", head(path, "Accept: application/tzif"), 200),
        ("get with its tag", head(path, f"If-None-Match: {tag}"), 304),
        ("expand, a year", head(f"{path}/observances?{YEAR}"), 200),
        ("find `*york`", head("/tzdist/zones?pattern=*york"), 200),
        ("capabilities", head("/tzdist/capabilities"), 200),
        ("unknown target", head("/tzdist/nothing"), 400),
        ("get as TZif, zone by zone", [head(it, "Accept: application/tzif") for it in paths], 200),
        ("get as calendar, a year, zone by zone", [head(f"{it}?{YEAR}") for it in paths], 200),
        ("get as calendar, whole, zone by zone", [head(it) for it in paths], 200),
        ("get as JSON, whole, zone by zone", [head(it, JSON) for it in paths], 200),
    ]
    return zone, len(names), [(name, it if isinstance(it, list) else [it], status) for name, it, status in asked]


def stream_of(requests, count):
    """So many requests, in turn."""
    return b"".join(requests[number % len(requests)] for number in range(count))


def measure(program, folder, rounds, requests):
    """The runs of each request, once and many times, and of only the release."""
    once = {name: [] for name, _, _ in requests}
    many = {name: [] for name, _, _ in requests}
    empty, usage = [], []
    for _ in range(rounds):
        usage.append(Run(program, [], b""))
        empty.append(Run(program, ["answer", folder], b""))
        for name, request, status in requests:
            for runs, count in ((once, 1), (many, MANY)):
                run = Run(program, ["answer", folder], stream_of(request, count))
                if run.status != 0 or first_reply(run.output)[0] != status:
                    sys.exit(f"{name}: ended with {run.status}, {run.output[:200]!r}")
                runs[name].append(run)
    return once, many, empty, usage


def byte_by_byte(program, folder, size):
    """The processor seconds of a run whose only head has so many bytes and comes byte by byte."""
    front = head("/tzdist/nothing", "Long: ")
    stream = head("/tzdist/nothing", "Long: " + "x" * (size - len(front)))
    source, sink = os.pipe()
    child = subprocess.Popen(
        [program, "answer", folder], stdin=source, stdout=subprocess.DEVNULL, stderr=subprocess.DEVNULL
    )
    unread = array.array("i", [1])
    for at in range(size):
        os.write(sink, stream[at : at + 1])
        unread[0] = 1
        while unread[0]:
            fcntl.ioctl(source, termios.FIONREAD, unread)
    os.close(sink)
    os.close(source)
    _, status, usage = os.wait4(child.pid, 0)
    child.returncode = os.waitstatus_to_exitcode(status)
    if child.returncode != 0:
        sys.exit(f"a head byte by byte: ended with {child.returncode}")
    return usage.ru_utime + usage.ru_stime


def microseconds_a_byte(program, folder, size, rounds, empty):
    """What a byte of such a head costs."""
    seconds = statistics.median(byte_by_byte(program, folder, size) for _ in range(rounds))
    return (seconds - empty) / size * 1e6


def processor():
    """The name of the processor."""
    try:
        with open("/proc/cpuinfo") as lines:
            for line in lines:
                if line.startswith("model name"):
                    return line.split(":", 1)[1].strip()
    except OSError:
        pass
    return platform.processor() or "unknown"


def median(runs, value):
    return statistics.median(value(run) for run in runs)


def release_bytes(folder):
    return sum(
        os.path.getsize(os.path.join(at, name)) for at, _, names in os.walk(folder) for name in names
    )


def main():
    parser = argparse.ArgumentParser(description=__doc__.split("\n")[0])
    parser.add_argument("folder", metavar="RELEASE_DIR")
    parser.add_argument("--program", default=os.path.join(ROOT, "crates/tzdistd/out/tzdistd"))
    parser.add_argument("--rounds", type=int, default=7)
    parser.add_argument("--zone")
    words = parser.parse_args()
    if not os.path.exists(words.program):
        sys.exit(f"{words.program} is not built: README says how")
    zone, zones, requests = requests_of(words.program, words.folder, words.zone)
    once, many, empty, usage = measure(words.program, words.folder, words.rounds, requests)

    print(f"{processor()}, {os.cpu_count()} processors; {zones} zones; {zone}; {words.rounds} rounds")
    print()
    print("| Request | Processor microseconds | Bytes of the reply | Peak memory, KiB |")
    print("|---|---|---|---|")
    asked = {name: request for name, request, _ in requests}
    for name, _, _ in requests:
        seconds = median(many[name], lambda r: r.seconds) - median(once[name], lambda r: r.seconds)
        size, stream = len(once[name][0].output), stream_of(asked[name], MANY - 1)
        whole = len(Run(words.program, ["answer", words.folder], stream).output)
        memory = peak_memory(words.program, ["answer", words.folder], stream, whole)
        print(f"| {name} | {seconds / (MANY - 1) * 1e6:.1f} | {size} | {memory} |")
    reading = median(empty, lambda r: r.seconds) - median(usage, lambda r: r.seconds)
    request = head("/tzdist/nothing")
    size = len(Run(words.program, ["answer", words.folder], request).output)
    memory = peak_memory(words.program, ["answer", words.folder], request, size)
    with tempfile.TemporaryDirectory() as at:
        memory -= peak_memory(words.program, ["answer", empty_release(at)], request, size)
    print()
    print(f"Reading, checking and publishing the release: {reading * 1e3:.1f} ms of processor time, "
          f"{memory:.0f} KiB of memory for {release_bytes(words.folder) / 1024:.0f} KiB of files.")
    alone = median(empty, lambda r: r.seconds)
    short, long = (
        microseconds_a_byte(words.program, words.folder, size, words.rounds, alone) for size in (SHORT, LONG)
    )
    print(f"A head that comes byte by byte: {short:.2f} microseconds a byte of {SHORT}, {long:.2f} of {LONG}.")


if __name__ == "__main__":
    main()
