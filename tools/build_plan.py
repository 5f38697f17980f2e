"""The order in which the crates of the program are proved, and how long that takes.

Python's standard library only.
"""

import time
from typing import NamedTuple

# The seconds that are assumed for a crate that was not measured.
UNKNOWN_TIME = 120
# The part of its time that a proof takes with a second processor.
SECOND_PROCESSOR = 0.7


class Group(NamedTuple):
    """Crates that one call of `rt ci` proves. Of a chain, one is proved at a time."""

    names: list
    is_chain: bool


def used_by(names, crates):
    """Crates and all that they use, lowest first as crates.txt lists them."""
    wanted, waiting = set(), list(names)
    while waiting:
        crate = waiting.pop()
        if crate not in wanted:
            wanted.add(crate)
            waiting += crates[crate]
    return [it for it in crates if it in wanted]


def last_chain(names, crates, times):
    """The crates before the last one, each of which uses all that is proved before it."""
    below = [(time_below(it, crates, times), it) for it in crates[names[-1]]]
    chain, name = [], max(below)[1] if below else None
    while name:
        chain.insert(0, name)
        others = set(used_by([name], crates)) - {name}
        name = next((it for it in crates[name] if set(used_by([it], crates)) == others), None)
    return chain


def time_below(name, crates, times):
    """The seconds of the longest chain of crates that ends with a crate."""
    below = [time_below(it, crates, times) for it in crates[name]]
    return times.get(name, UNKNOWN_TIME) + max(below, default=0)


def stages_of(names, crates, times):
    """The crates of a program in stages, each of groups that are proved side by side.

    First those that all others use, one after the other. Then many at once, up to the chain that
    ends with the program. That chain has two processors for each of its crates. Beside it are
    proved those that only the program uses."""
    chain = last_chain(names, crates, times)
    before = used_by(chain[-1:], crates)
    users = [set(used_by([it], crates)) for it in names if crates[it]]
    base = [it for it in before if it not in chain and all(it in found for found in users)]
    many = [it for it in before if it not in base + chain]
    beside = [it for it in names[:-1] if it not in before]
    stages = (
        [Group(base, True)], [Group(many, False)], [Group(chain, True), Group(beside, True)],
        [Group(names[-1:], True)],
    )
    stages = [[group for group in stage if group.names] for stage in stages]
    return [stage for stage in stages if stage]


class Estimate:
    """How many minutes are left: by a plan from the measured times, at the pace of this machine."""

    def __init__(self, crates, stages, times, width):
        self.crates, self.stages, self.times, self.width = crates, stages, times, width
        self.names = {it for stage in stages for group in stage for it in group.names}
        self.work_done, self.pace = 0, 1
        self.begin = time.monotonic()

    def time_of(self, name):
        return self.times.get(name, UNKNOWN_TIME)

    def plan(self):
        """When each crate is proved, in seconds, in this order."""
        begin, ends = 0, []
        for stage in self.stages:
            ends += [it for group in stage for it in self.plan_of(group, begin)]
            begin = max((seconds for seconds, _ in ends), default=0)
        return sorted(ends)

    def plan_of(self, group, now):
        """When each crate of a group is proved. It begins once those that it uses are proved and a
        processor is free, first the one on which the longest chain waits."""
        waiting, running, ends = set(group.names) & self.names, {}, []
        width, part = (1, SECOND_PROCESSOR) if group.is_chain else (self.width, 1)
        chains = self.chains()
        while waiting or running:
            free = [it for it in waiting
                    if not any(used in waiting or used in running for used in self.crates[it])]
            for name in sorted(free, key=chains.get, reverse=True)[: width - len(running)]:
                waiting.remove(name)
                running[name] = now + self.time_of(name) * part
            name = min(running, key=running.get)
            now = running.pop(name)
            ends.append((now, name))
        return ends

    def chains(self):
        """Of each crate, the seconds of the longest chain of crates that begins with it, each of
        which waits for the one before."""
        chains = {}
        for name in reversed(list(self.crates)):
            if name in self.names:
                waits = [chains[it] for it in chains if name in self.crates[it]]
                chains[name] = self.time_of(name) + max(waits, default=0)
        return chains

    def count(self, name, is_kept):
        """Counts a crate as proved: by an earlier run, or by this one, which shows its pace."""
        if is_kept:
            self.names.remove(name)
            return
        self.work_done += self.time_of(name)
        elapsed, work, position = time.monotonic() - self.begin, 0, 0
        for position, name in self.plan():
            work += self.time_of(name)
            if self.work_done <= work:
                break
        if position > 240:
            self.pace = min(4, max(0.25, elapsed / position))

    def so_far(self):
        return round((time.monotonic() - self.begin) / 60)

    def left(self):
        """The minutes that are left."""
        end = max((seconds for seconds, _ in self.plan()), default=0)
        return max(1, round((end * self.pace + self.begin - time.monotonic()) / 60))
