#!/usr/bin/env python3
"""Tests of the parts of bench/ that measure nothing. They are the model of a fleet, the made zone
files, the plots, the page and its marks, and the arguments of the scripts. The C program of the
limit is built if `cc` is installed.

    tools/test_bench.py

    example: tools/test_bench.py
"""

import contextlib
import io
import json
import math
import os
import random
import shutil
import statistics
import sys
import tempfile
import time
import xml.etree.ElementTree as xml
from pathlib import Path
from types import SimpleNamespace

sys.dont_write_bytecode = True
TOP = Path(__file__).resolve().parent.parent
sys.path[:0] = [str(TOP / "bench"), str(TOP / "deploy")]

import fleet
import growth
import page
import parts
import plots
import report
import serve
from checks import holds, same
from served import Client, Failure, request
from zone_file import read_zone_file

REQUESTS = ("full list", "get as TZif", "find `*york`")


def near(what, seen, wanted, part=0.05):
    holds(f"{what}: {seen} is not near {wanted}", abs(seen - wanted) <= part * abs(wanted))


# --- a fleet -------------------------------------------------------------------------------------


def draws_are_binomial():
    rng = random.Random(1)
    for count, chance in ((10, 0.3), (1000, 0.01), (10**6, 0.2), (10**9, 1e-5)):
        seen = [fleet.drawn(count, chance, rng) for _ in range(3000)]
        near(f"the mean of {count}", statistics.mean(seen), count * chance, 0.08)
        near(f"the variance of {count}", statistics.variance(seen), count * chance * (1 - chance), 0.15)
        holds("a draw is out of range", 0 <= min(seen) and max(seen) <= count)
    same("no devices", fleet.drawn(0, 0.5, rng), 0)
    same("a chance of 1", fleet.drawn(7, 1, rng), 7)


def each_device_asks_once_in_a_period():
    plan = fleet.Plan(10_001, 60, 30, 5)
    seen = fleet.simulate(plan, [70, 95], 180, random.Random(2))
    for period in range(3):
        asks = sum(map(sum, seen.asks[60 * period : 60 * (period + 1)]))
        same(f"devices that asked in period {period}", asks, plan.devices)
    same("devices that got the change", sum(map(sum, seen.gets)), plan.devices)
    same("devices without it before", seen.without[69], plan.devices)
    same("devices without it at the end", seen.without[-1], 0)
    same("asks after the spread", sum(map(sum, seen.asks[30:60])), 0)


def delays_are_those_of_the_simulation():
    # a change at each of many moments of a period, with a server that has it at once
    period, spread, devices = 120, 60, 20_000
    plan, lacking = fleet.Plan(devices, period, spread, 1), [0.0] * 300
    phases = range(0, period, 4)
    for phase in phases:
        seen = fleet.simulate(plan, [phase], phase + 301, random.Random(phase))
        lacking = [total + seen.without[phase + at] / devices for at, total in enumerate(lacking)]
    for part in fleet.PARTS[:2]:
        simulated = next(at for at, it in enumerate(lacking) if it / len(phases) <= 1 - part)
        wanted = fleet.delay(part, period, spread, 0)
        holds(f"{part}: {simulated} and {wanted:.1f} seconds", abs(simulated - wanted) <= 4)


def delays_have_their_closed_forms():
    # devices that send requests at any moment of the period get a change after a uniform time
    for part in (0.5, 0.99):
        near("a whole spread", fleet.delay(part, 3600, 3600, 0), 3600 * math.sqrt(1) * delay_of_uniform(part), 0.03)
    holds("a sync takes no time", fleet.delay(0.5, 3600, 1800, 3840) > fleet.delay(0.5, 3600, 1800, 0))
    order = [fleet.delay(part, 86_400, 43_200, 3840) for part in fleet.PARTS]
    same("the order of the parts", order, sorted(order))
    holds("a device waits for more than two periods and a sync", order[-1] <= 2 * 86_400 + 3840)


def delay_of_uniform(part):
    """The time after which this part of the devices has sent a request. Periods have the length 1,
    and each device draws its moment anew in each period."""
    # the change is at c: a device that requests later in this period waits a - c, the others
    # 1 - c + b
    def lacks(wait):
        steps, total = 2000, 0.0
        for at in range(steps):
            c = (at + 0.5) / steps
            total += max(0.0, 1 - c - wait) + c * min(1.0, max(0.0, 2 - c - wait))
        return total / steps

    low, high = 0.0, 2.0
    while high - low > 1e-4:
        middle = (low + high) / 2
        low, high = (middle, high) if lacks(middle) > 1 - part else (low, middle)
    return high


def loads_add_up():
    costs = fleet.Costs(server_new=100, server_more=10, cache_new=1000, cache_more=20)
    near("a server", fleet.direct(1000, 0, 5, costs).processors, 0.1, 1e-9)
    near("a server after a change", fleet.direct(1000, 1000, 5, costs).processors, 0.15, 1e-9)
    near("a cache after a change", fleet.cached(1000, 1000, 5, costs).processors, 1.1, 1e-9)
    same("requests", fleet.direct(1000, 100, 5, costs).requests, 1500)
    near("rare requests reach the mirror", fleet.refreshed(0.001), 0.001, 0.01)
    near("of many one a second does", fleet.refreshed(1e6), 1, 0.01)
    holds("a cache asks more than once a second for a key", fleet.upstream(1e6, 1e6, 5, 3, costs).requests <= 3 * 7)
    same("servers by processors", fleet.needed(fleet.Load(0, 10, 0), 4, 1000, 0.5), 5)
    same("servers by bandwidth", fleet.needed(fleet.Load(0, 0, 2600), 4, 1000, 0.5), 6)
    same("at least one", fleet.needed(fleet.Load(), 4, 1000, 0.5), 1)


def the_busiest_second_is_that_of_the_simulation():
    for devices, spread in ((500, 100), (20_000, 100)):
        plan = fleet.Plan(devices, spread, spread, 1)
        seen = [max(map(sum, fleet.simulate(plan, [0], spread, random.Random(at)).asks)) for at in range(40)]
        near(f"the busiest second of {devices}", fleet.most_in_a_second(devices, spread), statistics.median(seen), 0.04 + 1 / max(seen))


def answers_grow_with_the_fleet():
    words = fleet.checked(fleet.parser(), ["--devices", "100000,1000000000"])
    found = fleet.answers(fleet.Costs(), words)
    same("answers", len(found), 4)
    small, large = found[2:]
    holds("a larger fleet needs no more caches", large.caches > small.caches)
    # 10^9 devices within half an hour are 555,556 a second, and the busiest second has four
    # standard deviations more
    holds(f"{large.most_asks} in the busiest second", 555_556 < large.most_asks < 555_556 + 6 * 746)
    holds("a usual period costs more than one with a change", large.usual_server.processors < large.server.processors)
    same("costs of a report", fleet.Costs.of({"fleet": {"costs": {"server_new": 1, "other": 2}}}).server_new, 1)
    same("no report", fleet.Costs.of({}), fleet.Costs())


# --- growth --------------------------------------------------------------------------------------


def made_zones_have_their_sizes():
    for size in growth.AXES["bytes"]:
        data = growth.sized_zone(size)
        same("bytes of a made zone", len(data), size)
        zone = read_zone_file(data, "made")
        same(f"transitions of {size} bytes", len(zone.times), min(4096, size // 32 * 2))
        same("the type at the end", zone.types[zone.numbers[-1]][0], 3600)


def made_releases_have_their_names():
    with tempfile.TemporaryDirectory() as room:
        folder = growth.release_of(os.path.join(room, "made"), 7, 20, [b"a", b"b"])
        manifest = growth.manifest_of(folder)
        names = [it for zone in manifest["zones"] for it in (zone["tzid"], *zone["aliases"])]
        same("zones", len(manifest["zones"]), 7)
        same("names", (len(names), len(set(names))), (20, 20))
        later = growth.with_one_changed(folder)
        files = [it for it in os.listdir(folder) if Path(folder, it).read_bytes() != Path(later, it).read_bytes()]
        same("files that differ", len(files), 1)


def bends_are_found():
    def rows(power):
        return [{"value": value, "get": value**power} for value in (100, 447, 1000, 4096)]

    same("as the work", growth.bends(rows(1), "get"), False)
    same("more than the work", growth.bends(rows(1.5), "get"), True)
    same("a single point", growth.bends(rows(2)[:1], "get"), False)
    near("an exponent", growth.exponent((10, 100), (1000, 1_000_000)), 2)
    same("no cost", growth.exponent((10, 0), (1000, 1)), None)


# --- plots and page ------------------------------------------------------------------------------


def figures_of(worst=1.0):
    """Figures of all parts. A request of tzdistd costs `worst` times as much as the limit's."""
    rows = []
    for connections in (1, 2, 16, 64):
        for name in REQUESTS:
            for server, times in (("tzdistd", worst), ("nginx", 1.5), ("limit", 1.0)):
                rows.append({"request": name, "bytes": 1000, "connections": connections, "server": server, "rate": 1e5 / times,
                             "micros": 5.0 * times, "p50": 0.1, "p99": 0.2, "faults": 0})
    changed = {"what": "one zone", "wall": 1.0, "cost": 1.0, "count": 9}
    installs = [{**changed, "what": what} for what in ("nothing", "one zone", "all zones")]
    syncs = [{**row, "beyond_primary_kib": 150, "beyond_kib": 650} for row in installs]
    attack = {"server": "tzdistd", "requests": 100, "failures": 0, "p50": 0.1, "p99": 0.2, "longest": 3.0, "memory_kib": 4096}
    attacks = [{**attack, "flood": flood, "client": client} for flood in page.SHORT_FLOODS for client in ("kept", "new")]
    attacks.append({**attacks[0], "flood": "none", "server": "nginx", "memory_kib": None, "p50": None, "p99": None, "longest": None})
    points = [{"axis": axis, "value": value, **{cost: 1.0 + value for cost in growth.COSTS}} for axis, values in growth.AXES.items() for value in values]
    trial = {"rows": [{"what": "connections", "seen": 300, "predicted": 301.0}], "devices": 100, "period": 8, "spread": 4, "changed": 5,
             "have": 100, "late_p99": 0.1, "faults": 0, "first_fault": ""}
    return {
        "machine": {"processor": "A", "processors": 4, "serving": 2, "asking": 2, "apart": True, "memory_mib": 9, "system": "Linux", "python": "3",
                    "nginx": "nginx/1", "wrk": "wrk", "compiler": "cc", "load_before": 0.1, "date": "2026-11-30", "commit": "0123456789ab",
                    "is_changed": False, "program_sha256": "00"},
        "run": {"kind": "quick", "note": "", "skipped": [], "failed": []}, "release": {"zones": 447, "zone": "A", "bytes": 400_000},
        "requests": rows, "changes": {"installs": installs, "syncs": syncs},
        "calls": [{"server": "limit", "connections": 2, "receive": 1.0, "send": 1.0, "wait": 1.0, "other": 0.0}],
        "largest": {"zones": 4096, "file_bytes": 65536, "ready": 1.8, "install": 0.4, "release_kib": 262_144, "peak_kib": 300_000, "peak_after_kib": 330_000},
        "expansion": [{"method": "HEAD", "wall": 1.0, "cost": 1.0}], "waits": [{"request": "full list", "alone": 0.2, "installing": 0.3, "yielding": 0.25}],
        "attacks": attacks, "growth": points, "fleet": {"costs": {"server_new": 20.0}, "trial": trial},
        "earlier": {"commit": "ba9876543210", "expansion": [{"method": "HEAD", "wall": 4.0, "cost": 2.0}],
                    "changes": {"installs": [{"what": "one zone", "wall": 3.0, "cost": 4.0}], "syncs": [{"what": "one zone", "wall": 5.0, "cost": 2.5}]}},
    }


def pages_can_be_read():
    files = page.files(figures_of())
    same("files", sorted(files), ["PERFORMANCE.md", *(f"performance-{it}.svg" for it in ("attacks", "fleet", "growth", "requests"))])
    same("the same figures", page.files(figures_of()), files)
    text = files["PERFORMANCE.md"]
    for name in files:
        if name.endswith(".svg"):
            xml.fromstring(files[name])
            holds(f"the page does not show {name}", f"]({name})" in text)
    columns = None
    for line in text.split("\n"):
        is_row = line.startswith("|")
        holds(f"{len(line)} columns: {line}", len(line) <= (160 if is_row else 100))
        if is_row:
            holds(f"another number of cells: {line}", columns in (None, line.count("|")))
            columns = line.count("|")
        else:
            columns = None
    holds("a part that is missing has a section", "## Growth" not in page.markdown({k: v for k, v in figures_of().items() if k != "growth"}))


def marks_are_judged():
    same("all kept", [it for it in page.marks(figures_of()) if not it[3]], [])
    missed = [it[0] for it in page.marks(figures_of(1.4)) if not it[3]]
    same("1.4 times the limit", missed, ["limit, 16 connections"])
    missed = [it[0] for it in page.marks(figures_of(1.6)) if not it[3]]
    same("1.6 times", len(missed), 8)
    beside = {it[0]: it[2] for it in page.marks(figures_of(1.6))}["nginx, 16 connections"]
    holds(f"the limit's rate does not stand beside nginx's: {beside}", beside.startswith("0.94 (") and "; the limit: 1.50);" in beside)
    waits = [{"request": name, "alone": 0.1, "installing": 0.1 * times, "yielding": 0.15} for name, times in (("full list", 3), ("expand", 9))]
    said = {it[0]: it[2:] for it in page.marks({"waits": waits})}
    same("the worst wait", said, {"waits while installing": ("9.0 times (expand)", False), "waits while the service installs": ("1.5 times (full list)", True)})
    older = page.marks({"waits": [{"request": "full list", "alone": 0.1, "installing": 0.15}]})
    same("figures without the service's way", [it[0] for it in older], ["waits while installing"])
    holds("no reason stands for a missed mark", "**limit, 16 connections**:" in page.markdown(figures_of(1.4)))
    missed = [("nginx, 1 connection", "0.9 (full list; 8 of 9)"), ("longest expansion", "3 ms"), ("nginx, 2 connections", "0.8 (full list)"),
              ("nginx, 64 connections", "0.9 (change list)"), ("limit, 2 connections", "1.6 (change list)")]
    said = [" ".join(it.split(":")[0].split()) for it in page.reasons(missed)]
    same("a reason is said once", said, ["- **nginx, 1 connection**; **nginx, 2 connections**", "- **longest expansion**",
                                         "- **nginx, 64 connections**; **limit, 2 connections**"])


def costs_stand_beside_those_of_an_earlier_program():
    rows = [line for line in page.markdown(figures_of()).split("\n") if line.startswith(("| install that", "| sync that", "| expansion by"))]
    same("rows", rows, ["| install that changes one zone | 3.00 | 1.00 | 0.33 | 0.25 |", "| sync that changes one zone | 5.00 | 1.00 | 0.20 | 0.40 |",
                        "| expansion by HEAD | 4.00 | 1.00 | 0.25 | 0.50 |"])
    without = {name: it for name, it in figures_of().items() if name != "earlier"}
    holds("a program that was not measured is compared", "Earlier, ms" not in page.markdown(without))


def an_earlier_program_is_measured_in_the_same_run():
    run, figures = report.Run.__new__(report.Run), figures_of()
    run.tell, run.earlier, run.words = lambda text: None, SimpleNamespace(expansion=lambda: ["new"], changes=lambda: ["more"]), SimpleNamespace(earlier=__file__)
    run.compare("growth", figures)
    same("a part that is not compared", figures, figures_of())
    run.compare("expansion", figures)
    here = report.commit_of(__file__)
    same("figures of another commit", figures["earlier"], {"commit": here, "expansion": ["new"]})
    run.compare("changes", figures)
    same("both", figures["earlier"], {"commit": here, "expansion": ["new"], "changes": ["more"]})
    run.earlier = None
    run.compare("expansion", figures)
    same("a run without it", figures["earlier"], {"commit": here, "changes": ["more"]})
    run.compare("changes", figures)
    holds("figures of another run are compared", "earlier" not in figures)


def parts_that_were_measured_again_are_named_once():
    runs = [{"date": "1", "parts": ["changes", "calls"]}, {"date": "2", "parts": ["calls"]}, {"date": "3", "parts": ["changes"]}]
    same("the last run of each part", page.last_of_each(runs), runs[1:])
    same("one that is measured in part", page.last_of_each(runs[:2]), [{"date": "1", "parts": ["changes"]}, runs[1]])


def calls_are_counted_by_kind():
    text = """% time     seconds  usecs/call     calls    errors syscall
------ ----------- ----------- --------- --------- ----------------
 60.00    0.600000           3      2000           sendto
 30.00    0.300000           2      2500       500 recvfrom
 10.00    0.100000           1       900           epoll_pwait
  0.00    0.000000           0         3           futex
------ ----------- ----------- --------- --------- ----------------
100.00    1.000000           2      5403       500 total
"""
    same("calls", parts.calls_of(text), {"receive": 2500, "send": 2000, "wait": 900, "other": 3})


def axes_hold_their_values():
    for low, high, is_log in ((0, 7.3, False), (0, 1000, False), (3, 4096, True), (1, 1, True), (0, 0, False)):
        marks = plots.steps(low, high, is_log)
        holds(f"{marks} do not hold {low} to {high}", marks[0] <= low and marks[-1] >= high and len(marks) >= 2)
    same("labels", [plots.number_text(it) for it in (0.5, 20, 1500, 1e6, 1e9)], ["0.5", "20", "1,500", "1M", "1G"])
    picture = plots.bars("a < b", "ms", ["g"], ["one", "two"], [[1, None]])
    same("bars of a missing value", picture.count("<rect"), 1 + 1 + 2)


def the_page_is_made_of_its_figures():
    path = TOP / "docs" / "performance.json"
    if not path.exists():
        return
    for name, text in page.files(json.loads(path.read_text())).items():
        holds(f"docs/{name} is not what bench/report.py --from docs/performance.json makes", (TOP / "docs" / name).read_text() == text)


# --- scripts -------------------------------------------------------------------------------------


def refused(script, *words):
    """What a script prints on standard error when it refuses its arguments."""
    errors = io.StringIO()
    with contextlib.redirect_stderr(errors):
        try:
            script.checked(script.parser(), list(words))
        except SystemExit as end:
            same(f"the status of {' '.join(words)}", end.code, 2)
            return errors.getvalue()
    raise Failure(f"{script.__name__} does not refuse {words}")


def scripts_say_what_to_do():
    with tempfile.TemporaryDirectory() as room:
        release = os.path.join(room, "release")
        os.mkdir(release)
        Path(release, "manifest.json").write_text("{}")
        wanted = {
            (growth, room): "tools/pack_zoneinfo.py", (growth, room, "--only", "weight"): "choose of zones",
            (report, room): "tools/pack_zoneinfo.py", (report,): "name a release", (report, room, "--out", f"{room}/none"): "no folder",
            (report, release, "--program", sys.executable, "--earlier", f"{room}/none"): "is no program",
            (fleet, "--devices", "many"): "whole numbers", (fleet, "--from", f"{room}/none"): "bench/report.py",
            (fleet, "--spread", "2"): "at most 1",
        }
        for (script, *words), text in wanted.items():
            errors = refused(script, *words)
            holds(f"{script.__name__} {' '.join(words)} says {errors!r}", text in errors)


def help_has_an_example():
    for flags in (fleet.parser(), growth.parser(), report.parser(), serve.parser_of(serve.__doc__, serve.PARTS)):
        text = io.StringIO()
        with contextlib.redirect_stdout(text):
            flags.print_help()
        holds(f"no example: {text.getvalue()}", "example: bench/" in text.getvalue())


def a_page_is_made_without_measuring():
    with tempfile.TemporaryDirectory() as room:
        path = Path(room, "figures.json")
        path.write_text(json.dumps(figures_of()))
        report.write_pages(json.loads(path.read_text()), room)
        same("files", sorted(os.listdir(room)), sorted([*page.files(figures_of()), "figures.json"]))


def the_limit_sends_what_was_made():
    if not shutil.which("cc"):
        print("bench: cc is not installed, and the program of the limit is not tried")
        return
    asked = [serve.Asked("small", "/tzdist/zones"), serve.Asked("large", "/tzdist/zones/A")]
    for one, size in zip(asked, (10, 3_000_000)):
        one.reply = f"HTTP/1.1 200 OK\r\nContent-Length: {size}\r\n\r\n".encode() + bytes(size)
    with serve.Limit(asked, 2) as limit:
        same("processes", len(limit.processes()), 2)
        for number, one in enumerate(asked):
            same_request = limit.asked(number, one)
            head = request(same_request.target)
            with Client(limit.port) as client:
                client.send(head[:9])
                time.sleep(0.02)
                client.send(head[9:] + head + head)
                for _ in range(3):
                    reply = client.reply()
                    same(one.name, reply.head + b"\r\n\r\n" + reply.body == one.reply, True)


CHECKS = [
    draws_are_binomial, the_busiest_second_is_that_of_the_simulation, each_device_asks_once_in_a_period, delays_are_those_of_the_simulation, delays_have_their_closed_forms, loads_add_up, answers_grow_with_the_fleet, made_zones_have_their_sizes, made_releases_have_their_names,
    bends_are_found,
    pages_can_be_read, marks_are_judged, costs_stand_beside_those_of_an_earlier_program,
    an_earlier_program_is_measured_in_the_same_run, parts_that_were_measured_again_are_named_once, calls_are_counted_by_kind, axes_hold_their_values, the_page_is_made_of_its_figures, scripts_say_what_to_do,
    help_has_an_example, a_page_is_made_without_measuring, the_limit_sends_what_was_made,
]


def main():
    if sys.argv[1:] in (["-h"], ["--help"]):
        print(__doc__.strip())
        return 0
    failed = 0
    for check in CHECKS:
        try:
            check()
        except Failure as fault:
            failed += 1
            print(f"bench: {check.__name__} failed: {fault}")
    print(f"bench: {len(CHECKS)} checks, {f'{failed} failed' if failed else 'all well'}")
    return 1 if failed else 0


if __name__ == "__main__":
    sys.exit(main())
