"""Relays 1 GB of lines through pipes by each command, and compares the program's resident memory at the start of it with that
at the end.

usage: memory.py PROGRAM
"""

import os
import subprocess
import sys
import threading

LINE = b"x" * 79 + b"\n"
BLOCK = LINE * 12_500  # 1 MB
BLOCKS = 1_000
WARM = 20  # megabytes, after which nothing is to be taken any more
SECONDS = 120  # in which the program has to end
GROWTH = 64 * 1024  # bytes that the measure itself may be off by


def resident(pid):
    with open(f"/proc/{pid}/status") as status:
        for line in status:
            if line.startswith("VmRSS:"):
                return int(line.split()[1]) * 1024
    raise LookupError("VmRSS")


def grows(command):
    program = subprocess.Popen(
        [sys.argv[1], command, "line", "len4"], stdin=subprocess.PIPE, stdout=subprocess.DEVNULL
    )
    watch = threading.Timer(SECONDS, program.kill)
    watch.start()
    first = 0
    for block in range(BLOCKS):
        program.stdin.write(BLOCK)
        if block == WARM:
            first = resident(program.pid)
    program.stdin.flush()
    last = resident(program.pid)
    program.stdin.close()
    status = program.wait()
    watch.cancel()
    print(f"1 GB by {command}, status {status}: resident {first} bytes after {WARM} MB, {last} after {BLOCKS} MB")
    return status != 0 or last > first + GROWTH


if __name__ == "__main__":
    if os.path.exists("/proc/self/status"):
        sys.exit(any([grows("copy"), grows("pump")]))
    print("skipped: no /proc")
