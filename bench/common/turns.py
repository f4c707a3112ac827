"""Runs of programs that take turns, what valgrind counts of them, and the rows of figures that come of it.

A row is printed for people. Where ROWS names a file it is added to that too, as a line of JSON, for bench/run.
"""
import functools
import json
import os
import re
import shutil
import statistics
import subprocess

RUNS = int(os.environ.get("RUNS", "9"))  # the turns


def lines_of(program, *words):
    """The numbers of each line that a program prints."""
    out = subprocess.run([program, *map(str, words)], check=True, capture_output=True, text=True).stdout
    return [[int(word) for word in line.split()] for line in out.splitlines()]


def take_turns(programs, run, turns=RUNS):
    """What each turn's run of each program gives: a list for each name."""
    seen = {name: [] for name in programs}
    for _ in range(turns):
        for name, program in programs.items():
            seen[name].append(run(program))
    return seen


def instructions(program, *words):
    """How many instructions a program takes; none without valgrind, or where that can't run it."""
    if not shutil.which("valgrind"):
        return None
    command = ["valgrind", "--tool=callgrind", "--callgrind-out-file=/dev/null", program, *map(str, words)]
    ran = subprocess.run(command, capture_output=True, text=True)
    found = re.search(r"Collected : (\d+)", ran.stderr)
    return int(found[1]) if found and ran.returncode == 0 else leave_out_count(program)


@functools.lru_cache(maxsize=None)
def leave_out_count(program):
    """Says once of each program that it isn't counted."""
    leave_out(f"the instructions of {os.path.basename(program)}", "valgrind can't run it")


def ends(values):
    """The median, the least and the greatest."""
    return statistics.median(values), min(values), max(values)


def number(value, places=None):
    """A figure, by default with three digits or more."""
    if places is None:
        places = 0 if value >= 100 or float(value).is_integer() else 1 if value >= 10 else 2 if value >= 1 else 3
    return f"{value:,.{places}f}"


def shown(figures, places=None):
    """A median with its ends."""
    middle, least, most = (number(value, places) for value in figures)
    return f"{middle} ({least} to {most})"


def spread(values):
    return shown(ends(values))


def row(what, beside, unit, figures, costs=()):
    """Gives a row: what is measured, beside what, the figures of our runs and of theirs, and the instructions of both.
    The ratio is our speed as a multiple of theirs in the same turn. In a unit a second the greater figure is the faster
    one, else the smaller one. With nothing beside it there is no ratio."""
    ours, *theirs = figures
    made = {"what": what, "beside": beside if theirs else "", "unit": unit, "figure": ends(ours), "turns": len(ours),
            "costs": [] if None in costs else [round(cost) for cost in costs]}
    text = f"{what}: {spread(ours)} {unit}"
    for others in theirs:
        above, below = (ours, others) if unit.endswith("/s") else (others, ours)
        made["ratio"] = ends([one / other for one, other in zip(above, below, strict=True)])
        text += f"; {beside}: {spread(others)}; ratio {shown(made['ratio'], 2)}"
    counted = " to ".join(f"{cost:,}" for cost in made["costs"])
    give(made, text + (f"; {counted} instructions" if counted else ""))


def leave_out(what, why):
    """Says what isn't measured here."""
    give({"what": what, "why": why}, f"{what}: left out, {why}")


def give(made, text):
    print(text, flush=True)
    if path := os.environ.get("ROWS"):
        with open(path, "a") as rows:
            rows.write(json.dumps(made) + "\n")
