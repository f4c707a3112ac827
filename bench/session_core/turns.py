"""Lets the crate's program and the plain one take turns, and prints the rates, their ratios and the instructions."""
import os
import sys

sys.path.insert(0, os.path.join(os.path.dirname(os.path.abspath(__file__)), "..", "common"))
from turns import instructions, lines_of, row, take_turns

BLOCKS, STEPS, HASHES = 20, 50_000, 200_000
# The steps of a session, and how many hashes four sessions take: for five replies, and for two decoys.
LENGTHS = 16, 1_000
HASHED = 7
PLAIN = "a plain Rust core"


class Run:
    """The seconds of each block, and of a hash step."""

    def __init__(self, program, length):
        lines = lines_of(program, length, BLOCKS * STEPS, STEPS, BLOCKS)
        self.blocks = [nanos / 1e9 for _, nanos, _ in lines]
        self.answers = [answers for _, _, answers in lines]
        (_, nanos, _), = lines_of(program, "hash", HASHES)
        self.hashing = nanos / 1e9 / HASHES * BLOCKS * STEPS / (4 * length) * HASHED

    def whole(self):
        """The steps a second."""
        return BLOCKS * STEPS / sum(self.blocks)

    def bare(self):
        """The steps a second without the hash steps."""
        return BLOCKS * STEPS / (sum(self.blocks) - self.hashing)


def step_cost(program, length):
    """The instructions of a step in the second of two blocks."""
    few, more = (instructions(program, length, 2 * STEPS, STEPS, blocks) for blocks in (1, 2))
    return None if few is None else (more - few) / STEPS


def measure(programs, length):
    runs = take_turns(programs, lambda program: Run(program, length))
    if any(run.answers != runs["ours"][0].answers for seen in runs.values() for run in seen):
        sys.exit(f"the programs differ in sessions of {length} steps")
    name = f"a step in sessions of {length:,} steps"
    costs = [step_cost(program, length) for program in programs.values()]
    row(name, PLAIN, "steps/s", ([run.whole() for run in seen] for seen in runs.values()), costs)
    row(f"{name}, without hash steps", PLAIN, "steps/s", ([run.bare() for run in seen] for seen in runs.values()))
    for of, seen in runs.items():
        last, first = ([STEPS / run.blocks[place] for run in seen] for place in (-1, 0))
        owner = "" if of == "ours" else f"{of}: "
        row(f"{owner}{name}, the last of {BLOCKS} blocks", "its first block", "steps/s", (last, first))


def main(ours, plain):
    for length in LENGTHS:
        measure({"ours": ours, PLAIN: plain}, length)


main(*sys.argv[1:])
