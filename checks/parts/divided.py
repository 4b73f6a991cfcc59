#!/usr/bin/env python3
"""Explorations in parts and by several processes, beside one process that explores all: divided.py PROGRAM ..

Each program is a driver's test with checks/parts/parts.c. The counts and outcomes of 1, 3 and 4 parts have to add up to
those of all lists, each with the same sum of what is touched; a first failing list is that of all. The whole report of
2 and 4 processes has to be that of one, byte by byte, with its files."""
import collections
import os
import re
import subprocess
import sys
import tempfile

KINDS = [{}, {"GOES_ON": "1"}, {"GOES_ON": "1", "WHOLE": "1"}]
ADDED = ("lists", "runs", "left_out", "steps", "not_tried")
Explored = collections.namedtuple("Explored", "counts touched first lists")


def report_of(program, **variables):
    """What a program prints, and the files that it writes."""
    with tempfile.TemporaryDirectory(prefix="evlsim_divided-") as folder:
        names = {**os.environ, "EVLSIM_FOLDER": folder, **variables}
        done = subprocess.run([program], env=names, capture_output=True, text=True, check=False)
        files = []
        for name in sorted(os.listdir(folder)):
            with open(f"{folder}/{name}", "rb") as file:
                files.append((name, file.read()))
        return done.returncode, done.stdout, done.stderr.replace(folder, "FOLDER"), files


def explored(report):
    """What was counted; of each outcome its first list, and how many it has."""
    lines = [line.split("\t") for line in report[1].splitlines()]
    counts = dict(re.findall(r"(\w+) (\w+)", next(line[1] for line in lines if line[0] == "counted")))
    outcomes = [line[1:] for line in lines if line[0] == "outcome"]
    first = {text: choices for text, _, choices in outcomes}
    numbers = {name: int(counts[name]) for name in ADDED}
    return Explored(numbers, counts["touched"], first, {text: int(count) for text, count, _ in outcomes})


def added(parts):
    """What parts have together."""
    counts, lists = collections.Counter(), collections.Counter()
    for part in parts:
        counts.update(part.counts)
        lists.update(part.lists)
    return dict(counts), dict(lists)


def part_of(program, kind, part, parts):
    """One part, by the environment or by limits."""
    by_limits = parts == 3
    named = {"PART": str(part), "PARTS": str(parts)} if by_limits else {"EVLSIM_PART": f"{part}/{parts}"}
    return report_of(program, **kind, **named)


def events_of(choices):
    return choices.count("@")


def firsts_differ(whole, parts):
    """Whether an outcome's first list is in no part, or a part has a shorter one."""
    for text, choices in whole.first.items():
        found = [part.first[text] for part in parts if text in part.first]
        if choices not in found or min(map(events_of, found)) < events_of(choices):
            return True
    return False


def try_parts(program, kind):
    """What is wrong with its parts."""
    report, wrong = report_of(program, **kind), []
    if report[0] < 0:
        return wrong
    whole = explored(report)
    for count in (1, 3, 4):
        reports = [part_of(program, kind, part, count) for part in range(1, count + 1)]
        parts = [explored(it) for it in reports]
        is_all = report[0] == 0 or "GOES_ON" in kind
        if is_all and (whole.counts, whole.lists) != added(parts):
            wrong.append(f"{count} parts have {added(parts)}, and all is {whole}")
        if is_all and {part.touched for part in parts} != {whole.touched}:
            wrong.append(f"{count} parts touch something else")
        if not is_all:
            parts = [part._replace(first={it: to for it, to in part.first.items() if "FAILED" in it}) for part in parts]
            whole = whole._replace(first={it: to for it, to in whole.first.items() if "FAILED" in it})
        if firsts_differ(whole, parts) or max(it[0] for it in reports) != report[0]:
            wrong.append(f"{count} parts have other first lists: {parts}, and all is {whole}")
    return wrong


def try_jobs(program, kind):
    """What is wrong where several processes run the lists."""
    alone = report_of(program, **kind)
    return [f"{jobs} processes report something else" for jobs in ("2", "4", "-1")
            if report_of(program, **kind, JOBS=jobs) != alone]


def try_wrong_parts(program):
    """Words that name no part end the program."""
    said = "no part, as 3/16"
    reports = {text: report_of(program, EVLSIM_PART=text) for text in ("", "3", "0/3", "4/3", "1/3x", "1/65537")}
    return [f"EVLSIM_PART={text} is taken" for text, it in reports.items() if it[0] != 1 or said not in it[2] or it[1]]


def main():
    wrong = [(program, "", it) for program in sys.argv[1:2] for it in try_wrong_parts(program)]
    for program in sys.argv[1:]:
        for kind in KINDS:
            wrong += [(program, kind, it) for it in try_parts(program, kind) + try_jobs(program, kind)]
    for program, kind, it in wrong:
        print(f"{os.path.basename(program)} {' '.join(kind)}: {it}")
    sys.exit(1 if wrong or len(sys.argv) < 2 else 0)


main()
