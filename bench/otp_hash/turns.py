"""Lets the crate's program and OpenSSL's digests take turns, and prints the steps a second, ratios and instructions."""
import os
import subprocess
import sys

sys.path.insert(0, os.path.join(os.path.dirname(os.path.abspath(__file__)), "..", "common"))
from turns import instructions, row, take_turns

STEPS, CHAINS = 9_999, 100


def run(program, algo):
    """The steps a second, and the sum of the passwords."""
    said = subprocess.run([program, algo, str(CHAINS)], check=True, capture_output=True, text=True).stdout.split()
    return int(said[1]) / int(said[2]) * 1e9, said[3]


def step_cost(program, algo):
    few, more = (instructions(program, algo, chains) for chains in (1, 2))
    return None if few is None else (more - few) / STEPS


def main(ours, plain):
    programs = {"ours": ours, "OpenSSL": plain}
    for algo in ("md5", "sha1"):
        runs = take_turns(programs, lambda program: run(program, algo))
        if len({total for seen in runs.values() for _, total in seen}) != 1:
            sys.exit(f"the programs differ at {algo}")
        costs = [step_cost(program, algo) for program in programs.values()]
        rates = ([rate for rate, _ in seen] for seen in runs.values())
        row(f"a hash step of {algo}", "OpenSSL's digests in C", "steps/s", rates, costs)


main(*sys.argv[1:])
