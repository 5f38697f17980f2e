"""Makes docs/PERFORMANCE.md and its plots from the figures of bench/report.py.

Nothing is measured here, and a part that is missing has no section. Python's standard library only.
"""

import textwrap

import fleet
import growth
import plots

SINGLE_ROWS = "single rows vary by a tenth between runs; most keep it."
# What is known of a missed mark, by its name. To look for a new reason, use `perf` and `strace -c`.
REASONS = {
    "limit, 1 connection": "a request takes as many system calls as the limit's, and three quarters of its processor time are the "
    "system's. The rest is its own code: some 8,800 instructions for a short request.",
    "limit, 2 connections": SINGLE_ROWS,
    "limit, 16 connections": "of a short reply the program's own code is a larger part, and single rows vary by a tenth between runs.",
    "limit, 64 connections": SINGLE_ROWS,
    **{
        f"nginx, {count}": "nginx sends the 68 kB of a full list from the file, without a copy of its own. The limit copies them "
        "to the system, as this program does."
        for count in ("1 connection", "2 connections", "16 connections", "64 connections")
    },
    "sync of one zone": "most of it is the mirror's own install, of all zones. The section on changes has the earlier program's time.",
    "install of one zone": "of its processor time two fifths are calls of the system for 447 files, a quarter is the C library's, "
    "mostly for memory, and a third the program's own, none of it above four parts in a hundred.",
    "memory of later syncs": "only where all zones change: a mirror then holds the files that it received beside both releases.",
    "largest release installed again": "what was parsed of a zone is kept beside its file.",
    "longest expansion": "it has 16,190 changes. By HEAD it keeps the mark; a GET also sends 1.8 MB.",
    "waits while installing": "two workers and installs without a pause share two processors. Reading a release yields, but "
    "its last checks do not. The service's scripts mend that, as the next row shows.",
    "waits while the service installs": "the thread that installs yields only where the system allows it.",
}
SHORT_FLOODS = {
    "none": "none",
    "256 that open, ask and close": "256 that open and close",
    "64 that send 1,000 requests at once": "64 send 1,000 at once",
    "10,000 idle and 500 slow": "10,000 idle, 500 slow",
    "256 that open, send a costly one and close": "256 costly, new",
    "64 that send 1,000 costly ones at once": "64 send costly",
    "20 that send 1,000 costly ones once": "20 send costly, once",
}


def wrapped(text):
    """A paragraph, in lines of at most 100 columns."""
    return textwrap.fill(" ".join(text.split()), 100, break_long_words=False, break_on_hyphens=False)


def table(heads, rows, left=1):
    """A table whose first columns are aligned to the left, and the others to the right."""
    lines = [f"| {' | '.join(heads)} |", "|" + "---|" * left + "---:|" * (len(heads) - left)]
    return "\n".join(lines + [f"| {' | '.join(map(str, row))} |" for row in rows])


def picture(name, text):
    return f"![{text}](performance-{name}.svg)"


def by(rows, *names):
    """The rows by the values of these names."""
    return {tuple(row[name] for name in names): row for row in rows}


def ratio(one, other):
    return f"{one / other:.2f}" if other else "-"


# --- sections ------------------------------------------------------------------------------------


def last_of_each(runs):
    """Later runs of some parts, each with the parts that no run after it measured again."""
    found, later = [], set()
    for run in reversed(runs):
        parts = [it for it in run["parts"] if it not in later]
        later.update(parts)
        if parts:
            found.insert(0, {**run, "parts": parts})
    return found


def introduction(figures):
    machine, run, release = figures["machine"], figures["run"], figures["release"]
    kind = {"full": "", "quick": " --quick", "smoke": " --smoke"}[run["kind"]]
    apart = (
        f"Servers had {machine['serving']} of them, and clients the other {machine['asking']}." if machine["apart"]
        else "Servers and clients shared them."
    )
    changed = ", with changes that were not committed" if machine["is_changed"] else ""
    sentences = [
        f"All figures of this page are of one run of `bench/report.py{kind}`, on {machine['date']}.",
        f"It measured commit {machine['commit'][:12]}{changed}.", run["note"],
        f"The machine has {machine['processors']} processors ({machine['processor']}) and {machine['memory_mib']:,} MiB of memory.",
        apart, f"The system is {machine['system']}; nginx is {machine['nginx'].rpartition('/')[2]}.",
        f"TCP's congestion control is {machine['congestion']}." if machine.get("congestion") else "",
        f"The load before the run was {machine['load_before']}.",
        f"The release has {release['zones']} zones, whose files have {release['bytes']:,} bytes.",
    ]
    if run["kind"] == "smoke":
        sentences.append("**This was a smoke run: its figures say only that all parts run.**")
    for again in last_of_each(figures.get("again", [])):
        sentences.append(f"Measured again on {again['date']}, of commit {again['commit'][:12]}: {', '.join(again['parts'])}.")
    if run.get("skipped"):
        sentences.append(f"There was no time for these parts: {', '.join(run['skipped'])}.")
    if run.get("failed"):
        sentences.append(f"**These parts failed: {', '.join(run['failed'])}.**")
    again = "`performance.json` has the figures. This makes the page and its plots from them again:"
    command = "```sh\nbench/report.py --from docs/performance.json\n```"
    return ["# Performance", wrapped(" ".join(it for it in sentences if it)), again, command]


def requests(figures):
    rows = by(figures["requests"], "request", "connections", "server")
    names = list(dict.fromkeys(row["request"] for row in figures["requests"]))
    counts = sorted({row["connections"] for row in figures["requests"]})
    main = 16 if 16 in counts else counts[-1]
    cells = []
    for name in names:
        ours = rows[name, main, "tzdistd"]
        others = [rows.get((name, main, it)) for it in ("nginx", "limit")]
        cost = [ratio(ours["micros"], it and it["micros"]) for it in others]
        cells.append([name, f"{ours['bytes']:,}", f"{ours['rate']:,.0f}", ratio(ours["rate"], others[0] and others[0]["rate"]),
                      f"{ours['micros']:.1f}", *cost, f"{ours['p99']:.2f}"])
    text = """Each server answers by as many workers or processes as it has processors. nginx serves files with the
        same bodies. The limit is `bench/limit.c`: it receives until a blank line, and sends the same bytes. Processor
        time is that of the server, of user and system. A figure is the median of the rounds by its rate."""
    heads = ["Request", "Bytes", "Requests a second", "of nginx", "Processor time, us", "of nginx", "of the limit", "99th, ms"]
    sections = ["## Requests", wrapped(text), f"With {main} connections:", table(heads, cells),
                picture("requests", "Processor time of a request, of tzdistd, nginx and the limit")]
    rest = [count for count in counts if count != main]
    if rest:
        heads = ["Request", *(f"{count} {'connection' if count == 1 else 'connections'}" for count in rest)]
        cells = [[name, *(three_ratios(rows, name, count) for count in rest)] for name in names]
        said = """With other numbers of connections each cell has three ratios: requests a second of nginx's, processor
            time of nginx's, and processor time of the limit's."""
        sections += [wrapped(said), table(heads, cells)]
    return sections + (calls(figures) if figures.get("calls") else [])


def calls(figures):
    cells = [[row["server"], row["connections"], *(f"{row[kind]:.2f}" for kind in ("receive", "send", "wait", "other"))]
             for row in figures["calls"]]
    said = "System calls of an exchange that gets a TZif file, as `strace -c` counts them:"
    return [said, table(["Server", "Connections", "receive", "send", "wait", "other"], cells)]


def three_ratios(rows, name, count):
    ours, nginx, limit = (rows.get((name, count, it)) for it in ("tzdistd", "nginx", "limit"))
    pairs = [(ours["rate"], nginx and nginx["rate"]), (ours["micros"], nginx and nginx["micros"]), (ours["micros"], limit and limit["micros"])]
    return ", ".join(ratio(*pair) for pair in pairs)


def changes(figures):
    installs, syncs = (by(figures["changes"][it], "what") for it in ("installs", "syncs"))
    cells = []
    for (what,), row in installs.items():
        sync = syncs[what,]
        cells.append([what, f"{row['wall']:.2f}", f"{row['cost']:.2f}", f"{sync['wall']:.2f}", f"{sync['cost']:.2f}",
                      *(f"{sync[it]:,}" if it in sync else "-" for it in ("beyond_primary_kib", "beyond_kib"))])
    heads = ["What changes", "Install, ms", "processor, ms", "Sync, ms", "processor, ms", "Memory beyond the primary, KiB",
             "beyond a server at rest, KiB"]
    text = """An install is timed at the console, from the line to the reply. So is a mirror's sync; its processor time is
        that of the mirror. The clock's figures are medians, and processor time is a mean. The last two columns
        compare the most memory that a mirror ever held. Its primary installed the same releases, and so held two
        of them at once, too. The server at rest installed none."""
    sections = ["## Installs and syncs", wrapped(text), table(heads, cells)]
    if "largest" in figures:
        it = figures["largest"]
        grew = it["peak_after_kib"] / it["release_kib"]
        sections.append(wrapped(
            f"A release of {it['zones']:,} zones with files of {it['file_bytes']:,} bytes was served after {it['ready']:.1f} seconds. "
            f"It was then installed with one zone changed, in {it['install']:.2f} seconds. "
            f"The most memory was {it['peak_kib'] / 1024:,.0f} MiB before, and {it['peak_after_kib'] / 1024:,.0f} after: "
            f"{grew:.2f} times the files."
        ))
    if "waits" in figures:
        sections += waits(figures["waits"])
    if "expansion" in figures:
        cells = [[row["method"], f"{row['wall']:.2f}", f"{row['cost']:.2f}"] for row in figures["expansion"]]
        sections += ["An expansion over 8,000 years, as each request for another range computes it:",
                     table(["Method", "Milliseconds", "Processor, ms"], cells)]
    return sections + (beside_earlier(figures) if "earlier" in figures else [])


def costs_of(figures):
    """The times of installs, syncs and expansions, by name: by the clock, and of the processor."""
    found = {}
    for what in ("install", "sync"):
        for row in figures.get("changes", {}).get(f"{what}s", []):
            found[f"{what} that changes {row['what']}"] = row
    for row in figures.get("expansion", []):
        found[f"expansion by {row['method']}"] = row
    return {name: (row["wall"], row["cost"]) for name, row in found.items()}


def beside_earlier(figures):
    """The same costs of the program of an earlier commit, measured in the same run."""
    ours, theirs = costs_of(figures), costs_of(figures["earlier"])
    cells = [[name, f"{theirs[name][0]:.2f}", f"{ours[name][0]:.2f}", ratio(ours[name][0], theirs[name][0]), ratio(ours[name][1], theirs[name][1])]
             for name in ours if name in theirs]
    said = f"""Times of two machines do not compare. So the program of commit {figures['earlier']['commit']} was measured in the
        same run, each part right after this program's:"""
    return [wrapped(said), table(["What", "Earlier, ms", "Now, ms", "Ratio", "of processor time"], cells)]


def waits(rows):
    """Waiting times during installs: by only the program, and as the service's scripts install."""
    ways = [it for it in ("installing", "yielding") if it in rows[0]]
    cells = [[row["request"], f"{row['alone']:.2f}", *(text for it in ways for text in (f"{row[it]:.2f}", ratio(row[it], row["alone"])))]
             for row in rows]
    heads = ["Request", "99th without, ms", "99th with installs, ms", "Ratio", "as the service installs, ms", "Ratio"]
    said = "While releases that differ in one zone are installed in a loop, requests wait."
    if "yielding" in ways:
        said += """ The service's scripts let requests go first: while a line of the console is answered, the thread that
            installs has the policy SCHED_IDLE, for a second at most."""
    return [wrapped(said), table(heads[: 2 + 2 * len(ways)], cells)]


def attacks(figures):
    text = """Two good clients request a search 200 times a second at most, one on a kept connection and one on a new
        connection each time. Of nginx they request a file with the same body. It has no costly requests. Those are
        expansions over 8,000 years, each for another range."""
    cells = []
    for row in figures["attacks"]:
        waits = ["-" if row[it] is None else f"{row[it]:,.2f}" for it in ("p50", "p99", "longest")]
        memory = f"{row['memory_kib'] / 1024:,.0f}" if row["memory_kib"] else "-"
        cells.append([row["flood"], row["server"], row["client"], f"{row['requests']:,}", *waits, row["failures"], memory])
    heads = ["Flood", "Server", "Client", "Requests", "50th, ms", "99th, ms", "Longest, ms", "Failures", "Memory, MiB"]
    return ["## Waiting times under attack", wrapped(text), table(heads, cells, 3),
            picture("attacks", "The 99th percentile of waiting times of good clients under attack")]


def growing(figures):
    rows = figures["growth"]
    text = """Each axis changes one thing. The others stay: 447 zones with the files of the release by turns, 16
        connections, 2 workers and few releases. List, change list of one zone and TZif file are processor
        microseconds of a request. An install and a sync change one zone."""
    sections = ["## Growth", wrapped(text), "\n".join(growth.table(rows)), picture("growth", "How costs grow with the work")]
    upward = []
    for axis in dict.fromkeys(row["axis"] for row in rows):
        own = [row for row in rows if row["axis"] == axis]
        upward += [f"{cost} over {axis}" for cost in growth.COSTS if growth.bends(own, cost)]
    said = f"These grow faster than the work at the last step: {', '.join(upward)}." if upward else "No cost grows faster than the work at the last step."
    failed = [f"{row['axis']} {row['value']:,}" for row in rows if "failed" in row]
    if failed:
        said += f" These points failed: {', '.join(failed)}."
    return [*sections, wrapped(said)]


COSTS = [
    ("tzdistd without TLS", "server_new", "server_more"), ("nginx with TLS and its cache", "cache_new", "cache_more"),
    ("tzdistd", "primary_sync", "mirror_sync"), ("in a reply", "list_bytes", "zone_bytes", "tls_bytes"),
]


def fleets(figures):
    words = fleet.defaults()
    found = fleet.answers(fleet.Costs.of(figures), words)
    text = f"""How many servers does a fleet need? Each device asks once in a period, at a moment within its first half, over a
        new connection. It requests the list of changes, and after a change {words.changed} zones, too. A server has
        {words.processors} processors and {words.link:g} Mbit/s, of which half may be taken. Caches are nginx with TLS, and tzdistd
        has no TLS. A pair of figures is that of a usual period, and that after a change, in the busiest second."""
    costs = figures["fleet"]["costs"]
    measured = [[text, *(f"{costs[name]:,.1f}" if name in costs else "-" for name in names)] for text, *names in COSTS]
    late = "After a release is installed at the primary, so large a part of the devices has it after:"
    sections = ["## A fleet", wrapped(text), "\n".join(fleet.fleet_table(found)), picture("fleet", "Processors for a fleet"),
                wrapped("`bench/fleet.py` computes this for other numbers. " + late), "\n".join(fleet.delay_table(words))]
    trial = figures["fleet"]["trial"]
    said = f"""A trial over the loopback had a primary, two mirrors, a cache and {trial['devices']:,} devices. They asked within
        {trial['spread']} of each {trial['period']} seconds, and {trial['changed']} zones changed in the second of three periods.
        The simulation had the same moments of the syncs. Devices were late by {trial['late_p99']:.3f} seconds (99th percentile),
        and {trial['faults']} visits failed."""
    return [*sections, wrapped(said), "\n".join(fleet.trial_table(trial)),
            "The costs that this section computes with are those of this run:",
            table(["Processor time", "New connection with a change list, us", "A further request, us"], measured[:2]),
            table(["Processor time of a sync of one zone", "Primary, us", "Mirror, us"], measured[2:3]),
            table(["Bytes that are sent", "Empty change list", "Zone file", "TLS, before the first reply"], measured[3:])]


# --- marks ---------------------------------------------------------------------------------------


def marks(figures):
    """Each mark: its name, what it requires, what was measured, and whether it is kept."""
    found = []
    if "requests" in figures:
        found += request_marks(figures["requests"])
    if "changes" in figures:
        installs, syncs = (by(figures["changes"][it], "what") for it in ("installs", "syncs"))
        sync, install = syncs["one zone",], installs["one zone",]
        worst = max(sync["wall"], sync["cost"])
        found.append(("sync of one zone", "at most 1.5 ms by the clock and of the processor", f"{sync['wall']:.2f} and {sync['cost']:.2f} ms", worst <= 1.5))
        found.append(("install of one zone", "at most 2 ms", f"{install['wall']:.2f} ms", install["wall"] <= 2))
        beyond = max(row.get("beyond_primary_kib", row.get("beyond_kib", 0)) for row in syncs.values())
        found.append(("memory of later syncs", "at most 700 KiB beyond a server that installed the same", f"{beyond:,} KiB", beyond <= 700))
    if "largest" in figures:
        it = figures["largest"]
        times = it["peak_after_kib"] / it["release_kib"]
        found.append(("largest release installed again", "memory at most 1.3 times the files", f"{times:.2f} times", times <= 1.3))
    if "expansion" in figures:
        worst = max(row["cost"] for row in figures["expansion"])
        found.append(("longest expansion", "at most 2 ms", f"{worst:.2f} ms", worst <= 2))
    if "waits" in figures:
        for name, way in (("waits while installing", "installing"), ("waits while the service installs", "yielding")):
            ratios = {row["request"]: row[way] / max(row["alone"], 1e-9) for row in figures["waits"] if way in row}
            if ratios:
                worst = max(ratios, key=ratios.get)
                said = f"{ratios[worst]:.1f} times ({worst})"
                found.append((name, "99th percentile at most twice", said, ratios[worst] <= 2))
    if "attacks" in figures:
        failures = sum(row["failures"] for row in figures["attacks"] if row["server"] == "tzdistd")
        found.append(("good clients under attack", "no failure", f"{failures} failures", failures == 0))
    return found


def request_marks(rows):
    known, found = by(rows, "request", "connections", "server"), []
    for count in sorted({row["connections"] for row in rows}):
        names = [row["request"] for row in rows if row["connections"] == count and row["server"] == "tzdistd"]
        at_most = 1.3 if count == 16 else 1.5
        for server, wanted, what in (("limit", f"at most {at_most} times its processor time", "micros"), ("nginx", "at least its rate", "rate")):
            both = [(name, known[name, count, "tzdistd"], known.get((name, count, server))) for name in names]
            ratios = {name: ours[what] / max(other[what], 1e-9) for name, ours, other in both if other}
            if not ratios:
                continue
            worst = (max if server == "limit" else min)(ratios, key=ratios.get)
            missed = [it for it in ratios.values() if (it > at_most if server == "limit" else it < 1)]
            limit = known.get((worst, count, "limit"))
            beside = f"; the limit: {limit['rate'] / known[worst, count, server]['rate']:.2f}" if server == "nginx" and limit else ""
            said = f"{ratios[worst]:.2f} ({worst}{beside}); {len(ratios) - len(missed)} of {len(ratios)} keep it"
            title = f"{server}, {count} {'connection' if count == 1 else 'connections'}"
            found.append((title, wanted, said, not missed))
    return found


def reason_of(name, measured):
    """Why a mark is missed. That of nginx's rate is known of the full list only."""
    is_other_row = name.startswith("nginx") and not measured.partition("(")[2].startswith("full list")
    return SINGLE_ROWS if is_other_row else REASONS.get(name, "the cause is not known yet.")


def reasons(missed):
    """The items that say why marks are missed, of their names and measures: one for each reason."""
    named = {}
    for name, measured in missed:
        named.setdefault(reason_of(name, measured), []).append(f"**{name}**")
    items = (f"- {'; '.join(them)}: {why}" for why, them in named.items())
    return [textwrap.fill(it, 100, subsequent_indent="  ") for it in items]


def judged(figures):
    found = marks(figures)
    if not found:
        return []
    missed = [it for it in found if not it[3]]
    cells = [[name, wanted, said, "kept" if kept else "**missed**"] for name, wanted, said, kept in found]
    sections = ["## Marks", table(["Mark", "Wanted", "Measured (the worst)", ""], cells, 4)]
    if missed:
        sections += ["Why the missed ones are missed:", "\n".join(reasons([(it[0], it[2]) for it in missed]))]
    return sections


# --- files ---------------------------------------------------------------------------------------

SECTIONS = {"requests": requests, "changes": changes, "attacks": attacks, "growth": growing, "fleet": fleets}


def markdown(figures):
    """The page."""
    sections = introduction(figures) + judged(figures)
    for name, section in SECTIONS.items():
        if name in figures:
            sections += section(figures)
    return "\n\n".join(sections) + "\n"


def request_plot(figures):
    rows = by(figures["requests"], "request", "connections", "server")
    names = list(dict.fromkeys(row["request"] for row in figures["requests"]))
    counts = {row["connections"] for row in figures["requests"]}
    count = 16 if 16 in counts else max(counts)
    servers = [it for it in ("tzdistd", "nginx", "limit") if any(row["server"] == it for row in figures["requests"])]
    values = [[rows[name, count, it]["micros"] if (name, count, it) in rows else None for it in servers] for name in names]
    return plots.bars(f"Processor time of a request, {count} connections", "microseconds", names, servers, values)


def attack_plot(figures):
    rows = by(figures["attacks"], "flood", "server", "client")
    floods = list(dict.fromkeys(row["flood"] for row in figures["attacks"]))
    columns = [("tzdistd", "kept"), ("tzdistd", "new"), ("nginx", "kept"), ("nginx", "new")]
    values = [[(rows.get((flood, *column)) or {}).get("p99") for column in columns] for flood in floods]
    names = [f"{server}, {client} connection" for server, client in columns]
    return plots.bars("99th percentile of waiting times under attack", "ms", [SHORT_FLOODS.get(it, it) for it in floods], names, values, True)


def growth_plot(figures):
    each, rows = [], figures["growth"]
    for axis in dict.fromkeys(row["axis"] for row in rows):
        own = [row for row in rows if row["axis"] == axis]
        lines = [[(row["value"], row[cost]) for row in own if row.get(cost)] for cost in growth.COSTS]
        each.append((axis, "", lines))
    return plots.panels("How costs grow with the work", list(growth.COSTS.values()), each)


def fleet_plot(figures):
    return fleet.fleet_plot(fleet.answers(fleet.Costs.of(figures), fleet.defaults()))


PLOTS = {"requests": request_plot, "attacks": attack_plot, "growth": growth_plot, "fleet": fleet_plot}


def files(figures):
    """The texts of all files by name."""
    found = {f"performance-{name}.svg": plot(figures) for name, plot in PLOTS.items() if name in figures}
    return {"PERFORMANCE.md": markdown(figures), **found}
