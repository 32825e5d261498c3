"""Runs the program and counts what is as wanted. Each check of this folder that compares many runs stands on it; its first
argument is the program."""

import atexit
import signal
import subprocess
import sys
import threading

PROGRAM = sys.argv[1]
SECONDS = 30
failures = []
passed = 0
started = []


def too_late(number, frame):
    raise TimeoutError(f"no end within {SECONDS} seconds: {started[-1].args}")


def end_what_is_left():
    for program in started:
        if program.poll() is None:
            program.kill()
            program.wait()


signal.signal(signal.SIGALRM, too_late)
atexit.register(end_what_is_left)


def check(name, got, wanted):
    global passed
    if got == wanted:
        passed += 1
    else:
        failures.append(f"{name}: got {got!r:.300}, wanted {wanted!r:.300}")


def start(words, tracer=(), **streams):
    """A program that runs, for SECONDS until the next one is started."""
    program = subprocess.Popen([*tracer, PROGRAM, *words], **{"stderr": subprocess.PIPE, **streams})
    started.append(program)
    signal.alarm(SECONDS)
    return program


def end(program):
    """The status and the line of a program that no longer waits for input."""
    with program.stderr:
        line = program.stderr.read()
    return program.wait(timeout=SECONDS), line


def feed(pipe, pieces):
    try:
        for piece in pieces:
            pipe.write(piece)
            pipe.flush()
        pipe.close()
    except BrokenPipeError:
        pass


def run(words, pieces, **options):
    """Standard output, status and line of a run that is fed these pieces through a pipe."""
    program = start(words, stdin=subprocess.PIPE, stdout=subprocess.PIPE, **options)
    feeder = threading.Thread(target=feed, args=(program.stdin, pieces))
    feeder.start()
    with program.stdout:
        output = program.stdout.read()
    status, line = end(program)
    feeder.join()
    return output, status, line


def finish():
    """Tells what was as wanted and what wasn't, and ends the check."""
    signal.alarm(0)
    for failure in failures:
        print("FAILED", failure)
    print(f"{passed} passed, {len(failures)} failed")
    sys.exit(1 if failures else 0)
