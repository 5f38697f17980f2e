#!/usr/bin/env python3
"""Computes, by itself, how runs of `calmirror` end: the requests to the other server, what is
printed, and the status.

It is written from docs/FORMATS.md and the standards, over the calendars of reader_model.py, and
shares nothing with the crates.

    calmirror_model.py < crates/run_cases/stdin     compares the cases of this command
"""
import json
import re
import sys
import urllib.parse

from calendar_model import DAY, HI, LO, civil, meaning
from formats import usage_line
from reader_model import Fault, calendar_in, moment_in, observances_text

MOST_LISTS = 16
ONE_EACH = ("status", "fail-network", "reaches")
OF_A_RUN = ("answer", "output", "exchange", "word", "fail-exchange", "up", "upstream")


class Ended(Exception):
    """The end of a sync by a fault."""


def moment_text(moment):
    days, second = divmod(moment, DAY)
    return f"{civil(days).isoformat()}T{second // 3600:02}:{second // 60 % 60:02}:{second % 60:02}Z"


def moment_of(word):
    shown = re.fullmatch(r"(\d{4})-(\d\d)-(\d\d)T(\d\d):(\d\d):(\d\d)Z", word, re.ASCII)
    return shown and moment_in("%s%s%sT%s%s%s" % shown.groups())


def range_in(words):
    """The address and the range, if the words are of the grammar."""
    if len(words) != 4 or not re.fullmatch(r"[A-Za-z0-9.:\[\]][A-Za-z0-9.:\[\]-]{0,254}", words[1], re.ASCII):
        return None
    start, end = map(moment_of, words[2:])
    return (words[1], start, end) if None not in (start, end) and LO <= start < end <= HI else None


def reply_in(text, number, token):
    """The body of an answer with status 200; None where a token is refused."""
    head, _, body = text.partition("\r\n\r\n")
    status = int(head.split(" ")[1])
    if status == 400 and token is not None and json.loads(body)["type"].endswith(":invalid-changedsince"):
        return None
    if status != 200:
        raise Ended(f"3 Refused {number} {status}")
    return body


def sync(host, answers, failing, asked):
    """The entries and the texts of a mirror that was empty, after one sync."""
    token, entries, texts, pending, lists = None, set(), {}, [], 0
    while lists < MOST_LISTS:
        number = len(asked) + 1
        since = "" if token is None else "?changedsince=" + urllib.parse.quote(token, safe="")
        target, kind = ("/" + urllib.parse.quote(pending[0], safe=""), "text/calendar") if pending else (since, "application/json")
        if number in failing:
            raise Ended("1 UpstreamFault")
        asked.append(f"GET /tzdist/zones{target} HTTP/1.0\r\nHost: {host}\r\nAccept: {kind}\r\nConnection: close\r\n\r\n")
        body = reply_in(answers[number - 1], number, None if pending else token)
        if pending:
            try:
                zone, _ = calendar_in(body)
            except Fault as fault:
                raise Ended(f"5 BadCalendar {number} {fault}")
            if zone["TZID"] != pending[0]:
                raise Ended(f"6 WrongName {number}")
            texts[pending.pop(0)] = body
            continue
        lists += 1
        if body is None:
            token = None
            continue
        told = json.loads(body)
        listed = {zone["tzid"] for zone in told["timezones"]}
        aliases = {alias for zone in told["timezones"] for alias in zone.get("aliases", [])}
        if token is not None and not listed:
            return entries, texts
        entries = listed if token is None else listed | (entries - aliases)
        token, pending = told["synctoken"], sorted(listed)
    raise Ended(f"4 NotSettled {MOST_LISTS}")


def lines_of(tzid, text, start, end):
    zone, parts = calendar_in(text)
    onsets = [part["start"] for part in parts] + [date for part in parts for date in part["dates"]]
    first, last = max(start, min(onsets)), min(end, zone.get("TZUNTIL", end))
    printed = f"zone {tzid}\n"
    if first < last:
        for row in observances_text(parts, first, last).split("|"):
            onset, rest = row.split(" ", 1)
            printed += f"{moment_text(int(onset))} {rest}\n"
    return printed


def run(words, case):
    """The status, what is printed, and the exchanges."""
    asked, meant = [], range_in(words)
    if meant is None:
        return 1, usage_line(), asked
    if case.get("fail-network") == "1":
        return 6, "", asked
    host, start, end = meant
    try:
        entries, texts = sync(host, case["answer"], set(map(int, case["fail-exchange"])), asked)
    except Ended as fault:
        return 7, f"refused {fault}\n", asked
    return 0, "".join(lines_of(tzid, texts[tzid], start, end) for tzid in sorted(entries)), asked


def whole(text, named):
    """What a text of the table means, where the texts that it names may name others."""
    return meaning(text, {name: whole(named[name], named) for name in re.findall(r"\$\((\w+)\)", text)})


def main():
    named, case, cases, differ = {}, None, 0, 0
    for line in sys.stdin.read().split("\n"):
        word, _, text = line.partition(" ")
        if word == "let":
            name, _, text = text.partition(" ")
            named[name] = text
        elif word == "case":
            case = {"title": text, **{it: [] for it in OF_A_RUN}}
        elif word == "words":
            case["word"] = text.split(" ")
        elif word in OF_A_RUN:
            case[word].append(text)
        elif word in ONE_EACH:
            case[word] = text
        elif line == "run" and case["word"][:1] == ["calmirror"]:
            cases += 1
            of_run = {it: [whole(text, named) for text in case[it]] for it in OF_A_RUN}
            told = run(of_run["word"], {**case, **of_run})
            if told != (int(case.get("status", 0)), "".join(of_run["output"]), of_run["exchange"]):
                differ += 1
                print(f"{case['title']}: this program says {told!r}")
    print(f"{cases} cases, {differ} differ")


if __name__ == "__main__":
    main()
