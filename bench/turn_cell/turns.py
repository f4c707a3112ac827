"""Lets the programs take turns, and prints for 1, 4 and 16 threads: the calls a second, the processor time, the ratios,
and for one thread the instructions of a call. The processor time is what getrusage says of the whole child: user and
system."""
import os
import subprocess
import sys

sys.path.insert(0, os.path.join(os.path.dirname(os.path.abspath(__file__)), "..", "common"))
from turns import instructions, row, take_turns

CALLS = 4_000_000
COUNTED = 10_000, 30_000  # the calls of which valgrind counts the instructions


def run(program, threads):
    """One run: millions of calls a second, and seconds of processor time a million calls."""
    child = subprocess.Popen([program, str(threads), str(CALLS // threads)], stdout=subprocess.PIPE)
    line = child.stdout.read().decode()
    _, status, used = os.wait4(child.pid, 0)
    child.returncode = status
    calls, total, nanos = (int(word) for word in line.split())
    if status != 0 or calls != CALLS or total != 3 * CALLS:
        sys.exit(f"{program}: status {status}, {line}")
    return CALLS / nanos * 1e3, (used.ru_utime + used.ru_stime) / CALLS * 1e6


def cost(program):
    """The instructions of a call by one thread; none without valgrind."""
    few, more = (instructions(program, 1, calls) for calls in COUNTED)
    return few and more and round((more - few) / (COUNTED[1] - COUNTED[0]))


def main(*paths):
    programs = dict(zip(["ours", "Rust's Mutex", "a lock in C that spins and parks"], paths))
    costs = {name: cost(program) for name, program in programs.items()}
    for threads in (1, 4, 16):
        runs = take_turns(programs, lambda program: run(program, threads))
        name = f"a call by {threads} thread{'s' * (threads > 1)}"
        for other in list(programs)[1:]:
            rates, times = ([[one[part] for one in runs[which]] for which in ("ours", other)] for part in (0, 1))
            counted = (costs["ours"], costs[other]) if threads == 1 and all(costs.values()) else ()
            row(name, other, "million calls/s", rates, counted)
            row(f"{name}, processor time", other, "s a million calls", times)


main(*sys.argv[1:])
