"""Runs `pump` and `copy` with a reader that takes nothing for a while.

usage: pump.py PROGRAM
"""

import os
import select
import subprocess
import sys
import threading

from memory import resident

PROGRAM = sys.argv[1]
SECONDS = 120  # in which a program has to end
LINE = b"x" * 79 + b"\n"
FRAME = len(LINE) - 1 + 4  # bytes that a line comes to
QUIET = 1.0  # seconds without a byte, after which a program counts as held back
BLOCK = LINE * 800
OFFERED = 64_000_000  # bytes
WARM = 20_000_000  # bytes, after which no memory is to be taken any more
ROOM = 400_000  # bytes that a program and the two pipes at it have room for at most
GROWTH = 64 * 1024  # bytes that the measure itself may be off by


def offer(program, taken, most, quiet):
    """Offers bytes of lines until so many were taken in all, or none can be for so long. How many were taken."""
    try:
        while taken < most and select.select([], [program.stdin], [], quiet)[1]:
            at = taken % len(BLOCK)
            taken += os.write(program.stdin.fileno(), BLOCK[at:at + most - taken])
    except BrokenPipeError:
        pass
    return taken


def take(pipe, sizes, go_on):
    """Takes what comes; once WARM bytes did, only after it may go on."""
    while piece := pipe.read(1 << 16):
        sizes.append(len(piece))
        if sum(sizes) >= WARM:
            go_on.wait()


def measured(program, sizes, go_on):
    """What was taken until nothing more was, and after a while, the bytes on the way then, what was taken in all, and the
    resident memory at each of the three."""
    os.set_blocking(program.stdin.fileno(), False)
    held = offer(program, 0, OFFERED, QUIET)
    between = held - sum(sizes) * len(LINE) // FRAME
    first = resident(program.pid)
    still = offer(program, held, OFFERED, 2 * QUIET)
    second = resident(program.pid)
    go_on.set()
    taken = offer(program, still, OFFERED, SECONDS)
    return held, still, between, taken, [first, second, resident(program.pid)]


def held_back(command):
    """Whether a reader that takes nothing more holds the input back, and memory stays as it is, then and once it goes on."""
    program = subprocess.Popen([PROGRAM, command, "line", "len4"], stdin=subprocess.PIPE, stdout=subprocess.PIPE)
    watch = threading.Timer(SECONDS, program.kill)
    watch.start()
    sizes, go_on = [], threading.Event()
    reader = threading.Thread(target=take, args=(program.stdout, sizes, go_on))
    reader.start()
    try:
        held, still, between, taken, memory = measured(program, sizes, go_on)
        program.stdin.close()
        reader.join()
        status = program.wait()
    finally:
        program.kill()
        watch.cancel()
        go_on.set()
    print(
        f"{command} held back with {between} bytes on the way, status {status}: "
        f"resident {memory[0]} bytes, {memory[1]} after a while, {memory[2]} once {taken} bytes were taken"
    )
    whole = status == 0 and taken == OFFERED and sum(sizes) == OFFERED // len(LINE) * FRAME
    return whole and held == still and between < ROOM and max(memory) <= memory[0] + GROWTH


if not os.path.exists("/proc/self/status"):
    print("skipped: no /proc")
    sys.exit(0)
sys.exit(not all([held_back("copy"), held_back("pump")]))
