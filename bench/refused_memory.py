#!/usr/bin/env python3
"""Runs `tzdistd` as it is built once for each of its allocations, and makes that one fail.

    bench/refused_memory.py [--program PATH] [--only RUN,..] [--most N]

The runs are those of `RUNS` below. They are of programs that end by themselves, of a server with a
client and an operator, and of a mirror beside a primary. Each is made once as it is. It is then
made with its first allocation refused, its second, and so on, until a run ends before the call that
is to fail.

A run may look like one in which nothing fails. It may also end with status 70, after no output,
after whole replies and then one with 503, or after whole lines. Of a server, a connection may get
503 or end, and a line of the console may be answered `no memory`. Where the system could not start
a thread or open an address, a server's status may be 5 or 6, with text on standard error. A release
that was refused because the server is out of memory is not served, and one that was installed is.

Anything else is printed, and makes the status 1. It needs a C compiler as `cc`, is run by hand, and
is no part of the gate.
"""

import argparse
import collections
import os
import signal
import subprocess
import sys
import tempfile
import time

sys.dont_write_bytecode = True
sys.path.insert(0, os.path.join(os.path.dirname(os.path.dirname(os.path.abspath(__file__))), "tools"))

from checks import TZIF, ZONES, token_of
from each_allocation import build, failing_at
from served import DATA, PROGRAM, Client, Failure, Mirror, Served, request

NEW_YORK = f"{ZONES}/America%2FNew_York"
YEAR = "start=2025-01-01T00:00:00Z&end=2026-01-01T00:00:00Z"
REFUSAL = b"HTTP/1.1 503 Service Unavailable\r\nContent-Length: 0\r\nConnection: close\r\n\r\n"
# One request of each action, with a tag that is known, in one stream.
STREAM = b"".join(
    [
        request(ZONES),
        request(f"{ZONES}?changedsince=1-e2b2cb478d218163"),
        request(NEW_YORK, TZIF),
        request(NEW_YORK),
        request(f"{NEW_YORK}?{YEAR}"),
        request(f"{NEW_YORK}/observances?{YEAR}"),
        request(f"{ZONES}?pattern=*york"),
        request("/tzdist/capabilities"),
        request("/tzdist/leapseconds"),
        request(NEW_YORK, TZIF, method="HEAD"),
    ]
)


class Wrong(Exception):
    """What was seen must not be seen."""


# ---- programs that end by themselves


def replies_of(stream):
    """The positions at which the replies of a stream end, if all but the last are to GET."""
    ends, at = [0], 0
    while at < len(stream):
        head = stream.index(b"\r\n\r\n", at) + 4
        size = [line for line in stream[at:head].split(b"\r\n") if line.startswith(b"Content-Length: ")]
        at = head + (int(size[0][16:]) if size and len(ends) < 10 else 0)
        ends.append(at)
    return ends


def lines_of(text):
    """The positions at which the lines of a text end."""
    return [0] + [at + 1 for at, byte in enumerate(text) if byte == 10]


def says_replies(output, whole):
    """Whole replies and then the refusal, or nothing."""
    return output == b"" or any(output == whole[:end] + REFUSAL for end in replies_of(whole))


def says_lines(output, whole):
    """Whole lines."""
    return output in [whole[:end] for end in lines_of(whole)]


def says_nothing(output, _):
    return output == b""


class Program:
    """A run that ends by itself."""

    def __init__(self, words, stdin, may_say):
        self.words, self.stdin, self.may_say, self.whole = words, stdin, may_say, None

    def play(self, program, environment):
        child = subprocess.run(
            [program, *self.words], cwd=DATA, env=environment, input=self.stdin, capture_output=True, timeout=120
        )
        seen = (child.returncode, child.stdout)
        if self.whole is None:
            if child.returncode != 0:
                raise Wrong(f"status {child.returncode}, {child.stdout[:200]!r} where nothing fails")
            self.whole = child.stdout
        if seen == (0, self.whole):
            return "as if nothing had failed"
        if child.returncode == 70 and self.may_say(child.stdout, self.whole):
            return "status 70"
        raise Wrong(f"status {child.returncode}, output {child.stdout[:300]!r}, standard error {child.stderr[:300]!r}")


# ---- servers


def asked_list(server):
    """The place of the list that a new connection gets, `503`, `ended` where the connection ends
    without a reply, or `gone` where the server has ended."""
    try:
        with Client(server.port) as client:
            reply = client.ask(ZONES)
    except (Failure, OSError):
        if server.child.poll() is not None:
            return "gone"
        return "ended"
    if reply.status == 200:
        return int(token_of(reply).partition("-")[0])
    if reply.status == 503 and reply.closes:
        return "503"
    raise Wrong(f"a reply {reply.head!r}")


class Talk:
    """A server with an operator, who enters some lines, and a new client before each."""

    def __init__(self, lines):
        self.lines = lines

    def start(self, program, by):
        return Served(["data/a"], program=program, by=by)

    def play(self, program, environment):
        by = ["env", *(f"{name}={value}" for name, value in environment.items())]
        try:
            server = self.start(program, by)
        except Failure as fault:
            return self.unserved(program, by, fault)
        with server:
            try:
                seen = self.talk(server)
                if server.say("quit") != "bye":
                    raise Wrong("quit was not answered")
            except Failure as fault:
                if server.ended() == (70, b""):
                    return "status 70 while it served"
                raise Wrong(f"{fault}: status {server.child.returncode}") from None
            status, rest = server.ended()
        if rest:
            raise Wrong(f"{rest!r} after the end")
        if status == 70:
            return "status 70 at the end"
        if status != 0:
            raise Wrong(f"status {status}: {server.errors!r}")
        return "; ".join(sorted(seen)) or "as if nothing had failed"

    def unserved(self, program, by, fault):
        """What happened to a server that did not report that it is ready."""
        return self.judged([*by, program, "serve", "127.0.0.1:0", "2", "data/a"], fault)

    def judged(self, words, fault):
        """The result of another run of this command, without input, after one that never served."""
        child = subprocess.run(words, cwd=DATA, stdin=subprocess.DEVNULL, capture_output=True, timeout=60)
        if child.returncode == 0 and b"ready" in child.stdout:
            return "status 70 before it served, once"
        if child.stdout == b"" and child.returncode == 70:
            return "status 70 before it served"
        if child.stdout == b"" and child.returncode in (5, 6) and child.stderr:
            return f"status {child.returncode} before it served"
        if child.stdout == b"refused 1 UpstreamFault\n" and child.returncode == 7:
            return "status 7: the system had no memory to reach the other server"
        raise Wrong(f"{fault}; once more: {child.returncode}, {child.stdout!r}, {child.stderr!r}")

    def talk(self, server):
        seen, place = set(), 1
        for line, *good in self.lines:
            found = asked_list(server)
            if found not in ("503", "ended", place):
                raise Wrong(f"a list of place {found}, not {place}")
            if found != place:
                seen.add(f"a connection {'was answered 503' if found == '503' else 'ended'}")
            said = server.say(line)
            if said == "no memory":
                seen.add("no memory")
            elif not said.startswith(tuple(good)):
                raise Wrong(f"{line!r} was answered {said!r}")
            elif said.startswith("installed "):
                place = int(said.split(" ")[1].partition("-")[0])
        return seen


class MirrorTalk(Talk):
    """The same of a mirror, whose primary installs a release before it does."""

    def start(self, program, by):
        self.primary = Served(["data/a"], program=program)
        try:
            return Mirror(self.primary.address, program=program, by=by)
        except Failure:
            self.primary.close()
            raise

    def play(self, program, environment):
        try:
            return super().play(program, environment)
        finally:
            self.primary.close()

    def talk(self, server):
        said = self.primary.say("install data/b")
        if not said.startswith("installed "):
            raise Failure(f"the primary said {said!r}")
        return super().talk(server)

    def unserved(self, program, by, fault):
        with Served(["data/a"], program=program) as primary:
            return self.judged([*by, program, "mirror", "127.0.0.1:0", "2", primary.address], fault)


RUNS = {
    "answer": Program(["answer", "data/a"], request(ZONES), says_replies),
    "answer-all": Program(["answer", "data/a", "data/b"], STREAM, says_replies),
    "check": Program(["check", "data/a", "data/b"], b"", says_lines),
    "at": Program(["at", "data/b/ny", "2025-07-01T00:00:00Z"], b"", says_nothing),
    "load": Program(["load", "3"], b"", says_nothing),
    "serve": Talk([("status", "serving 1-"), ("install data/b", "installed 2-"), ("status", "serving ")]),
    "mirror": MirrorTalk([("sync", "installed 2-"), ("sync", "installed 2-", "unchanged 2-"), ("status", "serving ")]),
}


def play_all(name, run, program, library, most):
    """Refuses each allocation of a run in turn: how many there were, how often each result was
    seen, and how many runs were wrong."""
    seen, wrong = collections.Counter(), 0
    run.play(program, dict(os.environ))
    for call in range(1, most + 1):
        with tempfile.TemporaryDirectory() as folder:
            told = os.path.join(folder, "told")
            try:
                what = run.play(program, {**os.environ, **failing_at(library, call, told)})
            except (Wrong, Failure, subprocess.TimeoutExpired) as fault:
                wrong += 1
                print(f"{name}, allocation {call}: {fault}", flush=True)
                continue
            if not os.path.exists(told):
                return call - 1, seen, wrong
            seen[what] += 1
    return most, seen, wrong


def main():
    parser = argparse.ArgumentParser(description=__doc__.splitlines()[0])
    parser.add_argument("--program", default=PROGRAM)
    parser.add_argument("--only", default=",".join(RUNS))
    parser.add_argument("--most", type=int, default=20_000, help="so many allocations of a run at most")
    words = parser.parse_args()
    faults = 0
    print("| Run | Allocations refused in turn | What was seen | Wrong | Seconds |\n|---|---|---|---|---|")
    with tempfile.TemporaryDirectory() as folder:
        library = build(folder)
        for name in words.only.split(","):
            begin = time.monotonic()
            calls, seen, wrong = play_all(name, RUNS[name], os.path.abspath(words.program), library, words.most)
            told = "; ".join(f"{what}: {count}" for what, count in seen.most_common())
            print(f"| {name} | {calls} | {told} | {wrong} | {time.monotonic() - begin:.0f} |", flush=True)
            faults += wrong
    return 1 if faults else 0


if __name__ == "__main__":
    signal.signal(signal.SIGTERM, lambda *_: sys.exit(1))
    sys.exit(main())
