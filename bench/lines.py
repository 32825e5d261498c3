#!/usr/bin/env python3
"""How long `example_lines` takes to read lines, which it does by StreamReader and SeqReader, beside `lines.rs`, which does
so by std's BufReader and `read_until`.

    python3 bench/lines.py [MEGABYTES [BYTES ..]]

wants `crates/example_lines/out/example_lines` and `rustc`, and measures lines of so many bytes, 80 with their line feed if
none are given. Each row is the median time of each program in seconds, of rounds in which both run in turn, and the time of
`example_lines` over that of the other: below 1 it is faster.
"""

import os
import statistics
import subprocess
import sys
import tempfile
import time

HERE = os.path.dirname(os.path.abspath(__file__))
EXAMPLE = os.path.join(HERE, "..", "crates", "example_lines", "out", "example_lines")
ROUNDS = 15


def write_lines(path, length, size):
    line = (b"abcdefghijklmnopqrstuvwxyz0123456789" * (length // 36 + 1))[: length - 1] + b"\n"
    chunk = line * max(1, 1_000_000 // length)
    with open(path, "wb") as file:
        for _ in range(-(-size // len(chunk))):
            file.write(chunk)


def run(program, path):
    """The time that it takes, and what it prints."""
    with open(path, "rb") as source:
        start = time.perf_counter()
        done = subprocess.run([program], stdin=source, stdout=subprocess.PIPE, check=True)
        return time.perf_counter() - start, done.stdout


def main():
    megabytes = int(sys.argv[1]) if len(sys.argv) > 1 else 100
    lengths = [int(word) for word in sys.argv[2:]] or [80]
    with tempfile.TemporaryDirectory() as folder:
        buffered = os.path.join(folder, "lines")
        subprocess.run(["rustc", "-O", "-o", buffered, os.path.join(HERE, "lines.rs")], check=True)
        path = os.path.join(folder, "input")
        print(f"{'line':>8}{'example':>10}{'BufReader':>11}{'ratio':>8}")
        for length in lengths:
            write_lines(path, length, megabytes * 1_000_000)
            times = {program: [] for program in (EXAMPLE, buffered)}
            for _ in range(ROUNDS):
                answers = set()
                for program, taken in times.items():
                    seconds, answer = run(program, path)
                    taken.append(seconds)
                    answers.add(answer)
                assert len(answers) == 1, answers
            example, other = (statistics.median(taken) for taken in times.values())
            print(f"{length:8}{example:10.3f}{other:11.3f}{example / other:8.2f}", flush=True)


main()
