#!/usr/bin/env python3
"""Prints what two builds of the library take of each case.

usage: against.py COUNTS TIMES...

COUNTS is what counts.py prints of the servers proved and before; each of TIMES is what `bench times` printed in one run. Of the ratio now /
before it prints the median of the runs' medians, the least and the greatest of them, and the ratio of the instructions.
"""
import sys
from statistics import median

LIMIT = 1.05


def read(path):
    """The fields of a file's rows by state, call and server."""
    with open(path, encoding="utf-8") as rows:
        parted = [row.rstrip("\n").split("\t") for row in rows]
    return {tuple(row[:3]): [float(field) for field in row[3:]] for row in parted}


def summary(what, ratios):
    over = sum(ratio > LIMIT for ratio in ratios)
    return f"{what}, {len(ratios)} cases: median {median(ratios):.2f}, {over} over {LIMIT}, at most {max(ratios):.2f}"


def main():
    if len(sys.argv) < 3:
        sys.exit(__doc__)
    counts = read(sys.argv[1])
    runs = [read(path) for path in sys.argv[2:]]
    cases = [case[:2] for case in runs[0] if case[2] == "before"]
    if not cases:
        sys.exit("against.py: no earlier build was measured")
    taken, counted = [], []
    print("state\tcall\tns before\tns now\ttime\tleast\tgreatest\tinstructions before\tnow\tinstructions")
    for state, call in cases:
        found = {server: [run[(state, call, server)] for run in runs] for server in ["before", "proved"]}
        nanoseconds = {server: median(row[0] for row in rows) for server, rows in found.items()}
        ratios = [row[1] for row in found["before"]]
        earlier, later = (counts[(state, call, server)][0] for server in ["before", "proved"])
        taken.append(median(ratios))
        counted.append(later / earlier)
        print(
            f"{state}\t{call}\t{nanoseconds['before']:.1f}\t{nanoseconds['proved']:.1f}\t{taken[-1]:.2f}\t{min(ratios):.2f}\t"
            f"{max(ratios):.2f}\t{earlier:,.0f}\t{later:,.0f}\t{counted[-1]:.2f}"
        )
    print(summary("time, now / before", taken))
    print(summary("instructions, now / before", counted))


main()
