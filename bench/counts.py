#!/usr/bin/env python3
"""Reads what callgrind counted.

usage: counts.py FOLDER [profiles]

FOLDER has cases.SERVER, the cases in order with how many calls were counted, and count.SERVER.N, callgrind's file of the Nth case.
Prints state, call, server and instructions a call, of the servers that were counted; or, of some cases of the proved server, case,
function and instructions a call.
"""
import os
import re
import sys

SERVERS = ["proved", "before", "plain", "incremental", "reference"]
PROFILED = [
    ("full, all match", "batch of 1: TTL"),
    ("full, all match", "batch of 32: TTLs"),
    ("full, all match", "batch of 32: delete, put back"),
    ("full, all match", "message: Keepalive"),
    ("full, all match", "message: UNSUBSCRIBE, SUBSCRIBE"),
    ("full, all match", "tick"),
]


def cases(folder, server):
    """State, call, calls counted and callgrind's file of each case."""
    with open(f"{folder}/cases.{server}", encoding="utf-8") as file:
        rows = [line.rstrip("\n").split("\t") for line in file]
    return [(row[0], row[1], int(row[3]), f"{folder}/count.{server}.{index + 1}") for index, row in enumerate(rows)]


def total(path):
    with open(path, encoding="utf-8") as file:
        for line in file:
            if line.startswith("totals:"):
                return int(line.split()[1])
    sys.exit(f"counts.py: {path} has no totals")


def by_function(path):
    """The instructions of each function itself, in callgrind's format of profiles."""
    names, costs, function, called = {}, {}, None, False
    with open(path, encoding="utf-8") as file:
        for line in file:
            named = re.match(r"(c?fn)=\((\d+)\)(?: (.*))?$", line.rstrip("\n"))
            if named:
                kind, number, name = named.groups()
                if name:
                    names[number] = name
                if kind == "fn":
                    function = names[number]
            elif line.startswith("calls="):
                called = True
            elif line[:1] in "0123456789+-*" and function:
                if called:
                    called = False
                else:
                    costs[function] = costs.get(function, 0) + int(line.split()[1])
    return costs


def label(function):
    if function.startswith("__mem"):
        return "memcpy (C library)"
    if "bench" in function:
        return "harness and shim"
    return re.sub(r"'\d+$", "", function)


def print_profiles(folder):
    found = {(state, call): (calls, path) for state, call, calls, path in cases(folder, "proved")}
    for state, call in PROFILED:
        calls, path = found[(state, call)]
        grouped = {}
        for function, cost in by_function(path).items():
            grouped[label(function)] = grouped.get(label(function), 0) + cost
        if sum(grouped.values()) != total(path):
            sys.exit(f"counts.py: the functions of {path} do not add up to its total")
        for function, cost in grouped.items():
            print(f"{call}, {state}\t{function}\t{cost / calls:.1f}")


def main():
    if len(sys.argv) == 2:
        for server in [server for server in SERVERS if os.path.exists(f"{sys.argv[1]}/cases.{server}")]:
            for state, call, calls, path in cases(sys.argv[1], server):
                print(f"{state}\t{call}\t{server}\t{total(path) / calls:.1f}")
    elif len(sys.argv) == 3 and sys.argv[2] == "profiles":
        print_profiles(sys.argv[1])
    else:
        sys.exit(__doc__)


main()
