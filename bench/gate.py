#!/usr/bin/env python3
"""What the gate takes from nothing, in minutes of processor time: of each crate its own proof, its tests and its must-fail edits.

    python3 bench/gate.py [CRATE ..]

runs `rt ci --anew` in the repository, whose output goes to standard error, and ends with its status. With names these crates are
proved and those below them. The times are those of the checks that `rt` starts, looked at every fifth of a second. In the last
line is what they leave of the whole: linking, running the programs and the tests, and `rt` itself.
"""

import os
import resource
import subprocess
import sys
import time

ROOT = os.path.join(os.path.dirname(os.path.abspath(__file__)), "..")
TICKS = os.sysconf("SC_CLK_TCK")
PARTS = ["proof", "tests", "edits"]


def check_of(pid, session):
    """The crate and the part of a check that this process of the session makes, when it began, and the ticks that it has taken, or None."""
    try:
        with open(f"/proc/{pid}/stat") as file:
            fields = file.read().rpartition(")")[2].split()
        if int(fields[3]) != session:
            return None
        with open(f"/proc/{pid}/cmdline") as file:
            words = file.read().split("\0")
        folder = os.readlink(f"/proc/{pid}/cwd")
    except OSError:
        return None
    if "--crate-name" not in words:
        return None
    part = "edits" if "/rt-edit" in folder else "tests" if "--test" in words else "proof"
    return (words[words.index("--crate-name") + 1], part), fields[19], int(fields[11]) + int(fields[12])


def look(session, taken):
    """Notes for each check that runs what it has taken by now."""
    for name in os.listdir("/proc"):
        found = check_of(name, session) if name.isdigit() else None
        if found:
            check, begun, ticks = found
            taken[name, begun, check] = ticks


def main(names):
    taken = {}
    gate = subprocess.Popen(["rt", "ci", "--anew", *names], cwd=ROOT, stdout=sys.stderr, start_new_session=True)
    while gate.poll() is None:
        look(gate.pid, taken)
        time.sleep(0.2)
    used = resource.getrusage(resource.RUSAGE_CHILDREN)
    whole = (used.ru_utime + used.ru_stime) / 60
    minutes = {}
    for (_, _, check), ticks in taken.items():
        minutes[check] = minutes.get(check, 0) + ticks / TICKS / 60
    with open(os.path.join(ROOT, "crates.txt")) as file:
        crates = [line.split()[0].rstrip(":") for line in file if line.strip()]
    print("| crate | proof | tests | edits | together |\n|---|---|---|---|---|")
    for crate in crates:
        each = [minutes.get((crate, part), 0) for part in PARTS]
        if any(each):
            print(f"| `{crate}` | " + " | ".join(f"{it:.1f}" for it in [*each, sum(each)]) + " |")
    sums = [sum(it for (_, of), it in minutes.items() if of == part) for part in PARTS]
    print("| all | " + " | ".join(f"{it:.1f}" for it in [*sums, sum(sums)]) + " |")
    print(f"| the rest | | | | {whole - sum(sums):.1f} |")
    return gate.returncode


if __name__ == "__main__":
    sys.exit(main(sys.argv[1:]))
