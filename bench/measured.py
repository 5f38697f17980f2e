"""What the parts of bench/report.py share: processors, costs of a process, and repeated actions.

Python's standard library only.
"""

import contextlib
import json
import os
import statistics
import time
from urllib.parse import quote

from serve import Asked, by_processes, by_wrk, processor_seconds
from served import Client, Failure

PROCESSORS = sorted(os.sched_getaffinity(0))
HALF = len(PROCESSORS) // 2
# With four processors or more the first half is for servers, and the other for clients.
SERVING, ASKING = (PROCESSORS[:HALF], PROCESSORS[HALF:]) if HALF >= 2 else (PROCESSORS, PROCESSORS)
WORKERS = max(1, len(SERVING))
# While releases are installed, the console has one of the clients' processors, and requests have
# the others: a client that waits for its processor would count as one that waits for a reply.
INSTALLING, MEANWHILE = (ASKING[:1], ASKING[1:]) if len(ASKING) > 1 else (ASKING, ASKING)


@contextlib.contextmanager
def on(processors):
    """What is started in this context runs on these processors."""
    before = os.sched_getaffinity(0)
    os.sched_setaffinity(0, processors)
    try:
        yield
    finally:
        os.sched_setaffinity(0, before)


def started(make, processors=None):
    """A server that is started on these processors, or on those for servers."""
    with on(processors or SERVING):
        return make()


def spent(*pids):
    """The processor seconds of processes, to the nanosecond where the kernel counts nanoseconds. A
    process that ended counts nothing."""
    if not os.path.exists("/proc/self/schedstat"):
        return processor_seconds(pids)
    total = 0
    for pid in pids:
        with contextlib.suppress(FileNotFoundError, ProcessLookupError):
            for task in os.listdir(f"/proc/{pid}/task"):
                with open(f"/proc/{pid}/task/{task}/schedstat") as line:
                    total += int(line.read().split()[0])
    return total / 1e9


class Repeated:
    """A repeated action: the seconds by the clock of each, and for each process the processor
    milliseconds of an action."""

    def __init__(self, action, pids, most, seconds):
        self.walls, before, end = [], [spent(pid) for pid in pids], time.monotonic() + seconds
        while len(self.walls) < most and (len(self.walls) < 2 or time.monotonic() < end):
            begin = time.perf_counter()
            action(len(self.walls))
            self.walls.append(time.perf_counter() - begin)
        self.costs = [(spent(pid) - was) / len(self.walls) * 1e3 for pid, was in zip(pids, before)]

    @property
    def middle(self):
        """The median in milliseconds."""
        return statistics.median(self.walls) * 1e3


def driven(wrk, port, pids, asked, connections, seconds, processors=ASKING):
    """The row of requests from these processors: rate, processor microseconds of a request, and
    waiting times."""
    before = spent(*pids)
    with on(processors):
        drive = by_wrk if wrk else by_processes
        done = drive(wrk, port, asked, connections, seconds)
    micros = (spent(*pids) - before) / max(done.count, 1) * 1e6
    return {"count": done.count, "rate": round(done.rate, 1), "micros": round(micros, 2), "p50": round(done.middle, 4),
            "p99": round(done.late, 4), "faults": done.faults}


def middle_row(rows):
    """The row with the median rate."""
    return sorted(rows, key=lambda row: row["rate"])[len(rows) // 2]


def say(server, line, word, timeout=300):
    """Sends a line to a console, and fails unless its reply begins with the word."""
    reply = server.say(line, timeout)
    if not reply.startswith(word):
        raise Failure(f"{line.split(' ')[0]} was answered {reply!r}")
    return reply


def token_of(server):
    """The token of the release that a server has."""
    with Client(server.port, timeout=60) as client:
        return json.loads(client.ask("/tzdist/zones", timeout=60).body)["synctoken"]


def change_list(token):
    return Asked("change list", f"/tzdist/zones?changedsince={quote(token, safe='')}")


def manifest_of(folder):
    with open(os.path.join(folder, "manifest.json"), encoding="utf-8") as file:
        return json.load(file)
