"""What the tests and trials share: what a check says, runs that end by themselves, and releases
that are made for them. Also a server of made answers, and many checks or tests side by side.

Python's standard library only.
"""

import json
import multiprocessing
import os
import signal
import subprocess
import sys
import threading
import traceback
import unittest
from concurrent.futures import ThreadPoolExecutor
from http.server import BaseHTTPRequestHandler, ThreadingHTTPServer

from formats import usage_line
from served import DATA, HOST, PROGRAM, Failure, address_of, slim_zone

# What a busy machine may add to a time, and how long all else may take. No check measures speed.
SLACK, LONG = 40, 60

USAGE = usage_line().encode()
ZONES = "/tzdist/zones"
TZIF = "Accept: application/tzif"


def same(what, seen, wanted):
    """Fails where what was seen is not what is wanted."""
    if seen != wanted:
        raise Failure(f"{what}: {seen!r} and not {wanted!r}")


def holds(what, fact):
    """Fails where something is not true."""
    if not fact:
        raise Failure(what)


def token_of(reply):
    return json.loads(reply.body)["synctoken"]


def ran(program, *words, timeout=LONG):
    """Status, output and standard error of a run without input, which is to end by itself."""
    try:
        done = subprocess.run(
            [program, *words], cwd=DATA, stdin=subprocess.DEVNULL, capture_output=True, timeout=timeout
        )
    except subprocess.TimeoutExpired:
        raise Failure(f"{' '.join(words)[:80]}: still running after {timeout} seconds") from None
    return done.returncode, done.stdout, done.stderr


def release(at, version, zones, stamp="2025-06-01T00:00:00Z"):
    """A release of slim zones, by name and hours, in a new folder."""
    os.mkdir(at)
    listed = []
    for number, (tzid, hours) in enumerate(zones.items()):
        with open(os.path.join(at, f"z{number}"), "wb") as file:
            file.write(slim_zone(hours))
        listed.append({"tzid": tzid, "file": f"z{number}"})
    manifest = {"publisher": "Test", "version": version, "stamp": stamp, "zones": listed}
    with open(os.path.join(at, "manifest.json"), "w") as file:
        json.dump(manifest, file)
    return at


class Answering:
    """A server of HTTP until the end of a `with` block, by threads. It answers with the status and
    body that `answer` returns, which gets the target and the fields of a request."""

    def __init__(self, answer):
        class Handler(BaseHTTPRequestHandler):
            def do_GET(self):
                status, data = answer(self.path, self.headers)
                self.send_response(status)
                self.send_header("Content-Length", str(len(data)))
                self.end_headers()
                self.wfile.write(data)

            def log_message(self, *_):
                pass

        self.server = ThreadingHTTPServer((HOST, 0), Handler)
        self.address = address_of(self.server.server_address[1])
        threading.Thread(target=self.server.serve_forever, args=(0.01,), daemon=True).start()

    def __enter__(self):
        return self

    def __exit__(self, *_):
        self.server.shutdown()
        self.server.server_close()


# ---- tests of unittest side by side


def tasks_of(module, slow):
    """The names of the tests of a module, the slow ones first. Those of a class that makes
    something for all of its tests stay together."""
    tasks = []
    for name, kind in vars(module).items():
        if isinstance(kind, type) and issubclass(kind, unittest.TestCase):
            tests = unittest.defaultTestLoader.getTestCaseNames(kind)
            shares = "setUpClass" in dir(kind) and kind.setUpClass.__func__ is not unittest.TestCase.setUpClass.__func__
            tasks += [name] if shares and tests else [f"{name}.{test}" for test in tests]
    return sorted(tasks, key=lambda task: not task.endswith(tuple(slow)))


def run_task(task):
    """Runs a test, or those of a class: how many ran, what failed, and why others were skipped."""
    result = unittest.TestResult()
    unittest.defaultTestLoader.loadTestsFromName(task, sys.modules["__main__"]).run(result)
    faults = [f"{test.id()}\n{text}" for test, text in result.failures + result.errors]
    return result.testsRun, faults, [reason for _, reason in result.skipped]


def ended_by_signal(number, _):
    raise SystemExit(f"ended by {signal.Signals(number).name}")


def begin_worker():
    """A worker ends with the run, and not by what the run does at a signal."""
    for number in (signal.SIGTERM, signal.SIGALRM):
        signal.signal(number, signal.SIG_DFL)


def run_tests_beside(whole, slow=(), beside=16):
    """Runs the tests of the script, so many side by side, and returns the status: 1 where one
    failed. They wait for programs and for requests more than they compute. After so many seconds in
    all it ends in any case."""
    for number in (signal.SIGTERM, signal.SIGALRM):
        signal.signal(number, ended_by_signal)
    signal.alarm(whole)
    tasks = tasks_of(sys.modules["__main__"], slow)
    count, failed, skipped = 0, 0, []
    with multiprocessing.get_context("fork").Pool(beside, begin_worker) as pool:
        for tests, faults, reasons in pool.imap_unordered(run_task, tasks):
            count, failed, skipped = count + tests, failed + len(faults), skipped + reasons
            for fault in faults:
                print(f"FAIL: {fault}", flush=True)
    for reason in sorted(set(skipped)):
        print(f"skipped {skipped.count(reason)}: {reason}")
    print(f"{count} tests, {f'{failed} failed' if failed else 'all well'}")
    return 1 if failed else 0


def fault_of(check, program):
    """None, or what failed."""
    try:
        check(program)
    except Failure as fault:
        return str(fault)
    except Exception:
        return traceback.format_exc().rstrip()
    return None


def help_text(script):
    """The help that a script of checks prints about its words."""
    return (
        f"usage: {script} [PROGRAM]\n\nTries a built tzdistd (default: {PROGRAM}).\n\n"
        f"example: tools/{script} crates/tzdistd/out/tzdistd"
    )


def run_checks(name, checks, whole, beside):
    """Runs the checks, so many side by side, and prints what failed. The status is 0 where all is
    well. After so many seconds in all it ends in any case."""
    if sys.argv[1:2] in (["-h"], ["--help"]):
        print(help_text(os.path.basename(sys.argv[0])))
        return 0
    program = os.path.abspath(sys.argv[1]) if len(sys.argv) > 1 else PROGRAM
    if not os.path.exists(program):
        sys.exit(f"{program} is not built: README says how")

    def stopped(*_):
        # what was started ends with its standard input
        print(f"{name}: stopped after {whole} seconds", flush=True)
        os._exit(1)

    # a job in the background ignores this signal, and so would what it starts
    signal.signal(signal.SIGINT, signal.default_int_handler)
    signal.signal(signal.SIGALRM, stopped)
    signal.alarm(whole)
    with ThreadPoolExecutor(beside) as pool:
        faults = list(pool.map(lambda check: fault_of(check, program), checks))
    # the checks are one another's load, so what failed beside others is tried once more by itself
    faults = [fault and fault_of(check, program) for check, fault in zip(checks, faults)]
    failed = 0
    for check, fault in zip(checks, faults):
        if fault is not None:
            failed += 1
            print(f"{name}: {check.__name__} failed: {fault}")
    print(f"{name}: {len(checks)} checks, {f'{failed} failed' if failed else 'all well'}")
    return 1 if failed else 0
