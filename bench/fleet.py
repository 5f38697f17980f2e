#!/usr/bin/env python3
"""Computes how many servers a fleet of devices needs, and how long a change takes to reach it.

    bench/fleet.py [--from JSON] [--devices N,..] [--changed N] [--processors N] [--link MBIT]
                   [--busy PART] [--spread PART] [--sync SECONDS] [--svg FILE]
    bench/fleet.py --trial RELEASE_DIR [--program PATH] [--period SECONDS] [--clients N]

    example: bench/fleet.py --from docs/performance.json --devices 1000000,100000000 --changed 20

Each device connects once in each period of its timer. It draws the moment anew within the spread, a
part of the period. It requests the list of changes since its token. After a change it gets the
changed zones over the same connection, too. There are three arrangements:

    one server   all devices send requests to one tzdistd, without TLS
    mirrors      they send requests to mirrors of a primary, without TLS; each mirror syncs by a
                 timer
    caches       they send requests to nginx with TLS, which caches answers for a second, and sends
                 requests to two mirrors

The processor time and the bytes of a request are those that bench/report.py measured, or defaults
without --from. The devices are not simulated one by one. Their number and their timers determine
how many connect in the busiest second, and how many lack a change after a while. --trial measures
the costs, and has some thousands of devices send requests over the loopback. It prints what was
seen with what a simulation predicts. For each second the simulation draws how many of the devices
that did not connect yet do so. --trial needs nginx, openssl and wrk.
"""

import argparse
import dataclasses
import json
import math
import os
import statistics
import sys

sys.dont_write_bytecode = True
HERE = os.path.dirname(os.path.abspath(__file__))
sys.path[:0] = [os.path.join(os.path.dirname(HERE), "tools"), os.path.join(os.path.dirname(HERE), "deploy")]

import plots

DEVICES = (10**5, 10**6, 10**7, 10**8, 10**9)
HOUR, DAY = 3600, 86_400
# The cache's answers are valid for a second, as deploy/nginx-tzdistd.conf says.
VALID = 1.0
PARTS = (0.5, 0.99, 0.999)


@dataclasses.dataclass
class Costs:
    """Processor microseconds, and bytes sent by the server, for what a device or a mirror does."""

    server_new: float = 30.0  # a new connection that requests the change list
    server_more: float = 10.0  # a further request on a connection
    cache_new: float = 600.0  # a new TLS connection to the cache that requests the change list
    cache_more: float = 30.0  # a further request on it
    primary_sync: float = 500.0  # a sync of one changed zone, at the primary
    mirror_sync: float = 2000.0  # the same at the mirror
    list_bytes: float = 170.0  # a reply whose list of changes is empty
    listed_bytes: float = 160.0  # each changed zone in such a list
    zone_bytes: float = 1100.0  # a reply with a zone file
    tls_bytes: float = 1600.0  # what the cache sends before the first reply

    @classmethod
    def of(cls, figures):
        """The costs in the figures of a report; a cost that was not measured keeps its default."""
        known = {field.name for field in dataclasses.fields(cls)}
        measured = (figures.get("fleet") or {}).get("costs") or {}
        return cls(**{name: value for name, value in measured.items() if name in known})


@dataclasses.dataclass
class Plan:
    """So many devices that connect once in each period, within the first `spread` seconds of it."""

    devices: int
    period: int
    spread: int
    changed: int


# --- draws and seconds ---------------------------------------------------------------------------


def drawn(count, chance, rng):
    """How many of `count` do what each does with this chance: a binomial draw for any `count`."""
    if count <= 0 or chance <= 0:
        return 0
    if chance >= 1:
        return count
    if count < 50:
        return sum(rng.random() < chance for _ in range(count))
    mean = count * chance
    if mean < 30:
        return min(count, poisson(mean, rng))
    return min(count, max(0, round(rng.gauss(mean, math.sqrt(mean * (1 - chance))))))


def poisson(mean, rng):
    number, product, end = 0, rng.random(), math.exp(-mean)
    while product > end:
        number, product = number + 1, product * rng.random()
    return number


class Group:
    """The devices of one server. In each period some of them have not connected yet."""

    def __init__(self, devices, visible):
        self.devices, self.visible = devices, visible
        self.lacking = devices  # have not connected in this period, and lack the change
        self.having = 0  # have not connected in this period, and have it
        self.asked = 0  # have connected in this period, and lack it

    def period(self):
        self.lacking += self.asked
        self.having, self.asked = self.devices - self.lacking, 0

    def second(self, now, chance, rng):
        """How many connect in this second, and how many of them get the change."""
        lacking, having = drawn(self.lacking, chance, rng), drawn(self.having, chance, rng)
        self.lacking -= lacking
        self.having -= having
        if now < self.visible:
            self.asked += lacking
            return lacking + having, 0
        return lacking + having, lacking

    @property
    def without(self):
        return self.lacking + self.asked


@dataclasses.dataclass
class Seconds:
    """What happened in each second of a simulation: for each group how many devices connected, and
    how many got the change. Of all devices: how many lack it at the end of the second."""

    asks: list
    gets: list
    without: list


def simulate(plan, visible, seconds, rng):
    """So many seconds of a fleet. `visible` has for each server the second from which it has the
    change."""
    share = plan.devices // len(visible)
    rest = plan.devices - share * len(visible)
    groups = [Group(share + (rest if at == 0 else 0), it) for at, it in enumerate(visible)]
    seen = Seconds([], [], [])
    for now in range(seconds):
        place = now % plan.period
        if place == 0 and now:
            for group in groups:
                group.period()
        chance = 1 / (plan.spread - place) if place < plan.spread else 0
        done = [group.second(now, chance, rng) for group in groups]
        seen.asks.append([asks for asks, _ in done])
        seen.gets.append([gets for _, gets in done])
        seen.without.append(sum(group.without for group in groups))
    return seen


def seconds_until(seen, begin, part, devices):
    """The seconds from `begin` until this part of the devices has the change."""
    for now in range(int(begin), len(seen.without)):
        if seen.without[now] <= devices * (1 - part) + 1e-9:
            return now + 1 - begin
    return None


# --- loads ---------------------------------------------------------------------------------------


@dataclasses.dataclass
class Load:
    """The load of a tier in one second: requests, processor seconds, and megabits that it sends."""

    requests: float = 0.0
    processors: float = 0.0
    megabits: float = 0.0


def wire(payload):
    """Bytes on the wire for the bytes of replies, with packet headers and packets without data."""
    return payload + 66 * (math.ceil(payload / 1448) + 4)


def direct(asks, gets, changed, costs):
    """The load of servers to which devices send requests without TLS."""
    micros = asks * costs.server_new + gets * changed * costs.server_more
    payload = asks * wire(costs.list_bytes) + gets * changed * (costs.listed_bytes + costs.zone_bytes) * 1.05
    return Load(asks + gets * changed, micros / 1e6, payload * 8 / 1e6)


def cached(asks, gets, changed, costs):
    """The load of caches to which devices send requests with TLS."""
    micros = asks * costs.cache_new + gets * changed * costs.cache_more
    payload = asks * wire(costs.list_bytes + costs.tls_bytes)
    payload += gets * changed * (costs.listed_bytes + costs.zone_bytes) * 1.05
    return Load(asks + gets * changed, micros / 1e6, payload * 8 / 1e6)


def refreshed(rate):
    """How often a second a cache requests an answer that is requested at this rate. It keeps each
    answer for VALID seconds."""
    return rate / (1 + rate * VALID)


def upstream(asks, gets, changed, caches, costs):
    """The load of a mirror from which so many caches request again what they keep. Devices without
    the change name an older token."""
    each = [refreshed((asks - gets) / caches), refreshed(gets / caches)]
    each += [refreshed(gets / caches)] * changed
    requests = caches * sum(each)
    return Load(requests, requests * costs.server_more / 1e6, requests * wire(costs.list_bytes) * 8 / 1e6)


def needed(load, processors, link, busy):
    """How many servers with these processors and this link a load needs, each busy for a part."""
    return max(1, math.ceil(load.processors / (processors * busy)), math.ceil(load.megabits / (link * busy)))


@dataclasses.dataclass
class Answer:
    """How many servers a fleet needs, by tier, and the loads in the busiest second. These are of a
    usual period, and of one in which each device gets the change."""

    plan: Plan
    most_asks: int
    usual_server: Load
    server: Load
    mirrors: int
    primary: float
    usual_cache: Load
    cache: Load
    caches: int
    behind: Load


def most_in_a_second(devices, spread):
    """How many devices connect in the busiest of `spread` seconds: the median of the largest of as
    many Poisson draws."""
    mean, below = devices / spread, 0.5 ** (1 / spread)
    if mean < 100:
        count, term = 0, math.exp(-mean)
        total = term
        while total < below and count < devices:
            count += 1
            term *= mean / count
            total += term
        return count
    deviations = statistics.NormalDist().inv_cdf(below)
    return round(mean + math.sqrt(mean) * deviations + (deviations**2 - 1) / 6)


def answer(plan, costs, words):
    """The loads of the busiest second of a usual period, and of one in which each device that
    connects gets a change."""
    most, half = most_in_a_second(plan.devices, plan.spread), most_in_a_second(plan.devices // 2, plan.spread)
    server, cache = direct(most, most, plan.changed, costs), cached(most, most, plan.changed, costs)
    mirrors = needed(server, words.processors, words.link, words.busy)
    caches = needed(cache, words.processors, words.link, words.busy)
    behind = upstream(half, half, plan.changed, caches, costs)
    primary = max(2, mirrors) * costs.primary_sync / 1e6 / words.sync
    usual_server, usual_cache = direct(most, 0, plan.changed, costs), cached(most, 0, plan.changed, costs)
    return Answer(plan, most, usual_server, server, mirrors, primary, usual_cache, cache, caches, behind)


# --- how long a change takes ---------------------------------------------------------------------


def later_than(wait, period, spread, phases=96):
    """The chance that a device connects only after so long, if a change comes at any moment of a
    period."""
    total = 0.0
    for number in range(phases):
        phase = (number + 0.5) * period / phases
        this = max(0.0, spread - phase - wait) / spread if wait >= 0 else max(0.0, spread - phase) / spread
        missed = min(1.0, phase / spread)
        following = min(1.0, max(0.0, 1 - (wait - (period - phase)) / spread))
        total += this + missed * following
    return total / phases


def lacks(wait, period, spread, sync, steps=24):
    """The chance that a device lacks a change after so long, if its server syncs by this timer."""
    if sync <= 0:
        return later_than(wait, period, spread)
    waits = [(number + 0.5) * sync / steps for number in range(steps)]
    return sum(1.0 if wait < it else later_than(wait - it, period, spread) for it in waits) / steps


def delay(part, period, spread, sync):
    """After how many seconds this part of the devices has a change."""
    low, high = 0.0, 2.0 * period + sync
    while high - low > period / 5000:
        middle = (low + high) / 2
        low, high = (middle, high) if lacks(middle, period, spread, sync) > 1 - part else (low, middle)
    return high


# --- pages ---------------------------------------------------------------------------------------


def seconds_text(seconds):
    if seconds < 120:
        return f"{seconds:.0f} s"
    return f"{seconds / 60:.0f} min" if seconds < 2 * HOUR else f"{seconds / HOUR:.1f} h"


def short(number):
    return f"{number:,.0f}" if number >= 100 else f"{number:.2g}" if number < 10 else f"{number:.0f}"


def answers(costs, words):
    """An answer for each number of devices and each timer."""
    found = []
    for period in (DAY, HOUR):
        spread = max(1, round(period * words.spread))
        found += [answer(Plan(count, period, spread, words.changed), costs, words) for count in words.devices]
    return found


def fleet_table(found):
    """The table of how many servers are needed."""
    lines = [
        "| Devices | Timer | Connections | tzdistd: processors | Mbit/s | Servers "
        "| Caches: processors | Mbit/s | Caches | Requests behind them |",
        "|---:|---|---:|---:|---:|---:|---:|---:|---:|---:|",
    ]
    for it in found:
        pairs = [(it.usual_server, it.server), (it.usual_cache, it.cache)]
        loads = [[f"{short(a)} / {short(b)}" for a, b in ((x.processors, y.processors), (x.megabits, y.megabits))]
                 for x, y in pairs]
        cells = [
            f"{it.plan.devices:,}", "day" if it.plan.period == DAY else "hour", f"{it.most_asks:,}",
            *loads[0], f"{it.mirrors:,}", *loads[1], f"{it.caches:,}", short(it.behind.requests),
        ]
        lines.append(f"| {' | '.join(cells)} |")
    return lines


def delay_table(words):
    """How long a change takes to reach parts of the devices."""
    lines = ["| Timer | Arrangement | 50 % | 99 % | 99.9 % |", "|---|---|---:|---:|---:|"]
    for name, period in (("hour", HOUR), ("day", DAY)):
        for what, sync in (("one server", 0), ("mirrors, or caches before them", words.sync)):
            each = [seconds_text(delay(part, period, period * words.spread, sync)) for part in PARTS]
            lines.append(f"| {name} | {what} | {' | '.join(each)} |")
    return lines


def fleet_plot(found):
    """Processors of each arrangement in the busiest second, over the number of devices."""
    series, names = [], []
    for name, period in (("a day", DAY), ("an hour", HOUR)):
        for what, load in (("no TLS", "server"), ("caches with TLS", "cache")):
            names.append(f"{what}, {name}")
            rows = [it for it in found if it.plan.period == period]
            series.append([(it.plan.devices, max(getattr(it, load).processors, 1e-4)) for it in rows])
    return plots.lines("Processors in the busiest second after a change, by timer", "devices", names, series)


def trial_table(trial):
    """What was seen in a trial, and what was predicted."""
    lines = ["| Of the trial | Seen | Predicted |", "|---|---:|---:|"]
    return lines + [f"| {row['what']} | {row['seen']:,.4g} | {row['predicted']:,.4g} |" for row in trial["rows"]]


def parser():
    flags = argparse.ArgumentParser(
        description=__doc__.split("\n")[0],
        epilog="example: bench/fleet.py --from docs/performance.json --devices 1000000,100000000 --changed 20",
    )
    flags.add_argument("--from", dest="figures", metavar="JSON", help="the figures that bench/report.py wrote")
    flags.add_argument("--devices", default=",".join(map(str, DEVICES)), help="numbers of devices, by commas")
    flags.add_argument("--changed", type=int, default=5, help="zones that a release changes (default: 5)")
    flags.add_argument("--processors", type=int, default=4, help="of one server (default: 4)")
    flags.add_argument("--link", type=float, default=1000, help="megabits a second of one server (default: 1000)")
    flags.add_argument("--busy", type=float, default=0.5, help="the part of both that may be taken (default: 0.5)")
    flags.add_argument("--spread", type=float, default=0.5, help="the part of a period in which devices ask (default: 0.5)")
    flags.add_argument("--sync", type=float, default=HOUR + 240, help="seconds between a mirror's syncs (default: 3840)")
    flags.add_argument("--svg", metavar="FILE", help="where to write the plot")
    flags.add_argument("--trial", metavar="RELEASE_DIR", help="measures the costs and tries some devices")
    flags.add_argument("--program", help="of the trial (default: the one that is built here)")
    flags.add_argument("--period", type=int, default=30, help="seconds of a period of the trial (default: 30)")
    flags.add_argument("--clients", type=int, default=2000, help="devices of the trial (default: 2000)")
    return flags


def checked(flags, given=None):
    """The arguments, within bounds, with the file that they name read."""
    words = flags.parse_args(given)
    try:
        words.devices = [int(it) for it in words.devices.split(",")]
    except ValueError:
        flags.error("--devices takes whole numbers with commas between them, as 100000,1000000")
    if min(words.devices) < 1 or max(words.devices) > 10**10:
        flags.error("--devices: 1 to 10,000,000,000")
    if not 0 < words.spread <= 1 or not 0 < words.busy <= 1:
        flags.error("--spread and --busy are parts: above 0, and at most 1")
    if min(words.processors, words.link, words.changed, words.sync) <= 0:
        flags.error("--processors, --link, --changed and --sync are above 0")
    words.read = {}
    if words.figures:
        try:
            with open(words.figures, encoding="utf-8") as file:
                words.read = json.load(file)
        except (OSError, ValueError) as fault:
            flags.error(f"--from: {fault}; make the figures by bench/report.py, or leave the flag out")
    return words


def defaults():
    """The arguments as they are without flags, for the page."""
    return checked(parser(), [])


def main():
    words = checked(parser())
    costs = Costs.of(words.read)
    if words.trial:
        import fleet_trial

        done = fleet_trial.measured(words)
        costs = Costs.of({"fleet": done})
        print("\n".join(trial_table(done["trial"])) + "\n")
    found = answers(costs, words)
    print(f"{words.changed} zones change; {words.processors} processors and {words.link:g} Mbit/s a server, "
          f"of which {words.busy:g} is taken; devices ask within {words.spread:g} of a period\n")
    print("\n".join(fleet_table(found)) + "\n")
    print("\n".join(delay_table(words)))
    print("\nA pair of figures is that of a usual period, and that after a change. Each is of the busiest second.")
    print(f"A primary takes {max(it.primary for it in found):.1g} processors for the syncs of all these mirrors.")
    if words.svg:
        with open(words.svg, "w", encoding="utf-8") as out:
            out.write(fleet_plot(found))


if __name__ == "__main__":
    main()
