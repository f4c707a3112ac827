"""Lets the program and its twin take turns at drills, and prints events a second, ratios and instructions."""
import os
import subprocess
import sys
import time

sys.path.insert(0, os.path.join(os.path.dirname(os.path.abspath(__file__)), "..", "common"))
from turns import instructions, row, take_turns

# The drills, and how often each is run in one measurement.
CASES = [(1, 20), (8, 10), (64, 3)]


def drill(command):
    """The text of the counts."""
    return subprocess.run(command, check=True, capture_output=True, text=True).stdout


def rate(command, events, times):
    """The events a second."""
    began = time.perf_counter()
    for _ in range(times):
        drill(command)
    return times * events / (time.perf_counter() - began)


def measure(commands, n, times):
    """Gives the rows, and returns the events and, by the commands' names, the instructions where they are counted."""
    texts = {drill(command) for command in commands.values()}
    if len(texts) != 1:
        sys.exit(f"the programs differ at {n}")
    events = int(texts.pop().split("events ")[1].split()[0])
    rates = take_turns(commands, lambda command: rate(command, events, times))
    costs = {name: instructions(*command) for name, command in commands.items()}
    each = {name: cost and cost / events for name, cost in costs.items()}
    for name in list(commands)[1:]:
        row(f"a drill of {n}", name, "events/s", (rates["ours"], rates[name]), (each["ours"], each[name]))
    return events, costs


def main(ours, twin):
    before = None
    for n, times in CASES:
        commands = {
            "ours": (ours, "drill", str(n)),
            "a plain Rust twin, 4 threads": (twin, str(n), "4"),
            "a plain Rust twin, 1 thread": (twin, str(n), "1"),
        }
        events, costs = measure(commands, n, times)
        if before and None not in costs.values():
            more = events - before[0]
            for name, cost in costs.items():
                extra = (cost - before[1][name]) // more
                print(f"a drill of {n}, {name}: {extra} instructions for each of the {more} events more", flush=True)
        before = events, costs


main(*sys.argv[1:])
