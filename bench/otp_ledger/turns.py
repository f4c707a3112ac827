"""Lets the crate's program and the plain one take turns, and prints the time of a call, ratios and instructions."""
import os
import statistics
import sys

sys.path.insert(0, os.path.join(os.path.dirname(os.path.abspath(__file__)), "..", "common"))
from turns import instructions, lines_of, row, take_turns

# What is called, the passwords that were accepted before, the rounds and the calls of each. Of 1,024 calls of `spend`
# one merges the two arrays of accepted passwords.
CASES = [
    ("reply", 1, 21, 512),
    ("reply", 1_000, 21, 512),
    ("reply", 90_000, 7, 512),
    ("spend", 1, 21, 1_024),
    ("spend", 1_000, 21, 1_024),
    ("spend", 90_000, 7, 1_024),
    ("hash", 1, 21, 512),
]
NAMES = {"reply": "a reply", "spend": "judging and spending a password", "hash": "the hash step alone"}


def run_once(program, case):
    """The nanoseconds of a call, in the median round, and the sum of all answers."""
    lines = lines_of(program, *case)
    return statistics.median(nanos / calls for calls, nanos, _ in lines), lines[-1][2]


def call_cost(program, what, accepted):
    """The instructions of a call; the fewer are subtracted, so that what comes before the calls doesn't count."""
    counts = (1_024, 3_072) if what == "spend" else (64, 192)
    few, more = (instructions(program, what, accepted, 1, calls) for calls in counts)
    return None if few is None else (more - few) // (counts[1] - counts[0])


def measure(programs, case):
    what, accepted = case[:2]
    runs = take_turns(programs, lambda program: run_once(program, case))
    if len({total for seen in runs.values() for _, total in seen}) != 1:
        sys.exit(f"the programs differ at {what} {accepted}")
    name = NAMES[what] if what == "hash" else f"{NAMES[what]}, {accepted:,} accepted before"
    times = ([nanos for nanos, _ in seen] for seen in runs.values())
    costs = [call_cost(program, what, accepted) for program in programs.values()]
    row(name, "a plain Rust ledger", "ns", times, costs)


def main(ours, plain):
    for case in CASES:
        measure({"ours": ours, "plain": plain}, case)


main(*sys.argv[1:])
