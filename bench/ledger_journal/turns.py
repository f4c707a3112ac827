"""Lets the durable log and the loop in C append in turns, and times the recovery of a full log."""
import os
import re
import statistics
import subprocess
import sys

sys.path.insert(0, os.path.join(os.path.dirname(os.path.abspath(__file__)), "..", "common"))
from policy import fold
from turns import RUNS, instructions, lines_of, row, take_turns

EVENTS = 1000  # appended in a run
COUNTED = 100, 300  # the appends of which valgrind counts the instructions
FULL = 1048576  # the events that a run makes at most
ACCOUNTS, PASSWORDS = 1024, 256


def opened_and_ended(count):
    """Sessions that are opened and end."""
    for number in range(1, count + 1):
        kind = "open" if number % 2 else "end child-ended"
        yield f"{number} w0 s{(number + 1) // 2} {kind} permit\n"


def logged_in(count):
    """Sessions of a challenge and an accepted reply each, by all accounts in turn."""
    chains = []
    for account in range(ACCOUNTS):
        chain = [(account + 1).to_bytes(8, "big")]
        while len(chain) < PASSWORDS:
            chain.append(fold("md5", chain[-1]))
        chains.append(chain)
    for number in range(1, count + 1):
        session = (number + 3) // 4
        account, spent = (session - 1) % ACCOUNTS, (session - 1) // ACCOUNTS
        yield f"{number} w0 s{session} " + (
            "end child-ended permit\n",
            "open permit\n",
            f"challenge user{account} {session} permit {9998 - spent}\n",
            f"reply permit {chains[account][PASSWORDS - 1 - spent].hex()}\n")[number % 4]


def image_of(lines):
    """The image of a log, by its format: each record's gate, its length and its bytes, and a closed gate."""
    records = [b"OTJ1"]
    for line in lines:
        records.append(b"\x01" + len(line).to_bytes(2, "little") + line.encode())
    return b"".join(records) + b"\x00"


def write(path, data):
    with open(path, "wb") as file:
        file.write(data)
        file.flush()
        os.fsync(file.fileno())


def begin(path, count):
    """A text of lines, and a fresh log."""
    write("lines", "".join(opened_and_ended(count)).encode())
    write(path, image_of([]))


def append(program, count):
    """The appends a second of one run, whose log has to be the image of the lines."""
    begin("log", count)
    (answered, nanos), = lines_of(*program, "lines", "log")
    with open("log", "rb") as file:
        if answered != count or file.read() != image_of(opened_and_ended(count)):
            sys.exit(f"{program[0]} appended {answered} of {count} lines, or others")
    return count / nanos * 1e9


def append_cost(program):
    """The instructions of an append, without what comes before them all."""
    costs = []
    for count in COUNTED:
        begin("log", count)
        costs.append(instructions(*program, "lines", "log"))
    return None if None in costs else (costs[1] - costs[0]) // (COUNTED[1] - COUNTED[0])


def compare(programs):
    rates = take_turns(programs, lambda program: append(program, EVENTS))
    costs = [append_cost(program) for program in programs.values()]
    row("an append to the durable log", "a loop in C", "events/s", rates.values(), costs)


def recovery(program, name, image, accepted):
    """Times the recovery of an image of a full log."""
    write("image", image)
    seconds, peaks = [], []
    for _ in range(RUNS):
        said = subprocess.run([program, "recover", "image"], check=True, capture_output=True, text=True).stdout
        answered = re.match(r"(\d+) (\d+) (\d+)\n", said)
        if answered is None or answered.groups()[:2] != (str(FULL), str(accepted)):
            sys.exit(f"{name}: {said[:200]!r}")
        seconds.append(int(answered[3]) / 1e9)
        peaks.append(int(re.search(r"VmHWM:\s+(\d+) kB", said)[1]) / 1024)
    row(f"the recovery of {FULL:,} lines, {name}", None, "s", [seconds])
    print(f"the recovery of lines {name}: {statistics.median(peaks):.0f} MB at most, of which the image has "
          f"{len(image) / 1048576:.0f}", flush=True)


def main(ours, plain):
    compare({"ours": (ours, "append"), "C": (plain,)})
    recovery(ours, "which accept nothing", image_of(opened_and_ended(FULL)), 0)
    recovery(ours, f"which accept {FULL // 4:,} replies", image_of(logged_in(FULL)), FULL // 4)


main(*sys.argv[1:])
