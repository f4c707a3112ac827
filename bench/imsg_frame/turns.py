"""Lets the programs in a folder take turns, and prints rates, ratios and instruction counts."""
import os
import sys

sys.path.insert(0, os.path.join(os.path.dirname(os.path.abspath(__file__)), "..", "common"))
from turns import instructions, leave_out, lines_of, row, take_turns

ROUND_LEN = 196_608
FRAMES = {"narrow": (24, 4_096, 6_144, 16_384), "wide": (24, 4_096, 16_384, 49_152, 65_536)}
BESIDE = {"plain": "a plain Rust buffer", "openbsd": "OpenBSD's imsg.c"}
WORK = sys.argv[1]
# glibc copies 2,048 bytes and more by `rep movsb` on many processors, whose speed depends by a third on where both
# blocks lie in their pages. With COPY=vector all programs copy by vector instructions.
if os.environ.get("COPY") == "vector":
    os.environ["GLIBC_TUNABLES"] = "glibc.cpu.x86_rep_movsb_threshold=1073741824"


def frame_cost(program, words):
    """The instructions of a frame."""
    few = 1 if words[2] == 1 else 4
    counts = [instructions(program, *words, rounds) for rounds in (few, 2 * few)]
    return None if None in counts else (counts[1] - counts[0]) * words[1] / (few * ROUND_LEN)


def measure(programs, *words):
    """Frames of a width and length from pieces of a length."""
    rounds = 16 if words[2] == 1 else 256
    runs = take_turns(programs, lambda program: lines_of(program, *words, rounds)[0])
    if len({(frames, total) for seen in runs.values() for frames, _, total in seen}) != 1:
        sys.exit(f"the programs differ at {words}")
    rates = {name: [rounds * ROUND_LEN * 1e3 / nanos for _, nanos, _ in seen] for name, seen in runs.items()}
    costs = {name: frame_cost(program, words) for name, program in programs.items()}
    for name in list(programs)[1:]:
        row("{} frames of {:,} bytes, pieces of {:,}".format(*words), BESIDE[name], "MB/s",
            (rates["ours"], rates[name]), (costs["ours"], costs[name]))


def main():
    is_there = os.path.exists(f"{WORK}/openbsd")
    if not is_there:
        leave_out(BESIDE["openbsd"], "its source is not at hand, or does not compile here")
    for width, frames in FRAMES.items():
        names = ["ours", "plain"] + ["openbsd"] * (is_there and width == "narrow")
        for frame in frames:
            for piece in (1, 4_096, 65_536):
                measure({name: f"{WORK}/{name}" for name in names}, width, frame, piece)


main()
