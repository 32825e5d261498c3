#!/usr/bin/env python3
"""How fast `relay copy` is beside two yardsticks in the same run: `buffered.rs`, with the buffered reader and writer of
Rust's library, and `tuned.c`, by hand. From a file to the null device, and through pipes.

    python3 bench/copy.py [MEGABYTES [KEY=VALUE ..]]

wants `crates/relay/out/relay`, `rustc` and `cc`. Each line is a translation and a payload's length, and the speed of `relay`
over that of each yardstick: the quotient of the medians of rounds in which all three run in turn. Above 1 `relay` is faster.
The keys are given to `relay`.

    python3 bench/copy.py tables [MEGABYTES]

writes the same, with the default keys and with large segments, into the tables of docs/ARCHITECTURE.md and README.md, and
prints them.

    python3 bench/copy.py pump [MEGABYTES]

wants the first of them alone, and measures `relay pump` beside `relay copy` on lines of 80 bytes: the least time of each in
seconds, and their ratio.

    python3 bench/copy.py vlen [MEGABYTES]

wants the first alone too, and measures each row that has `vlen` beside the same one with `len4`: the time of the first over that
of the second, from a file to the null device and through pipes.

    python3 bench/copy.py drill [FRAMES]

measures `relay drill`, which makes that many frames and relays them into memory, beside `relay copy` of the same bytes from a
file to the null device: the frames a second of each.

    python3 bench/copy.py batch [MEGABYTES]

measures `relay batch` with 4 workers beside the same with 1, on 8 files of that many megabytes, to files and to the null device:
the least time of each in seconds, and the time of one worker over that of four.
"""

import hashlib
import os
import re
import statistics
import subprocess
import sys
import tempfile
import time

HERE = os.path.dirname(os.path.abspath(__file__))
sys.path.insert(0, os.path.join(HERE, "..", "checks"))
import model

RELAY = os.path.join(HERE, "..", "crates", "relay", "out", "relay")
ROUNDS = 9
# With two threads the times of single runs differ more.
ROUNDS_ON_TWO = 30
FRAMINGS = ["len4", "len2", "line"]
LONGER = [("line", "len4"), ("len4", "line"), ("len4", "len4"), ("line", "line")]
ROWS = [(source, sink, payload) for source in FRAMINGS for sink in FRAMINGS for payload in (12, 80)]
ROWS += [(source, sink, payload) for source, sink in LONGER for payload in (1024, 60000)]
LARGE = ["seg=65536", "pause=1048576", "resume=524288"]
KEYS = [["seg=4096"], ["seg=65536", "pause=1048576"]]
FILES = 8
ROUNDS_OF_BATCH = 5
# The rows of the README's table, with large segments.
SHORT = [("len4", "line", 12), ("len4", "line", 80), ("line", "len4", 80), ("len4", "len4", 80), ("len4", "len4", 60000)]


def build(folder):
    """The yardsticks, as programs."""
    buffered = os.path.join(folder, "buffered")
    tuned = os.path.join(folder, "tuned")
    subprocess.run(["rustc", "-O", "-o", buffered, os.path.join(HERE, "buffered.rs")], check=True)
    subprocess.run(["cc", "-O2", "-o", tuned, os.path.join(HERE, "tuned.c")], check=True)
    return buffered, tuned


def write_input(path, framing, payload, size):
    """A file of so many bytes at least, of frames whose payloads have that length."""
    body = (b"abcdefghijklmnopqrstuvwxyz0123456789" * (payload // 36 + 1))[:payload]
    frame = model.spell(framing, body)
    chunk = frame * max(1, 1_000_000 // len(frame))
    with open(path, "wb") as file:
        for _ in range(-(-size // len(chunk))):
            file.write(chunk)


def file_to_null(words, path):
    with open(path, "rb") as source, open(os.devnull, "wb") as sink:
        start = time.perf_counter()
        subprocess.run(words, stdin=source, stdout=sink, check=True)
        return time.perf_counter() - start


def through_pipes(words, path):
    start = time.perf_counter()
    first = subprocess.Popen(["cat", path], stdout=subprocess.PIPE)
    relay = subprocess.Popen(words, stdin=first.stdout, stdout=subprocess.PIPE)
    last = subprocess.Popen(["cat"], stdin=relay.stdout, stdout=subprocess.DEVNULL)
    first.stdout.close()
    relay.stdout.close()
    codes = [process.wait() for process in (first, relay, last)]
    assert codes == [0, 0, 0], codes
    return time.perf_counter() - start


def digest(words, path):
    with open(path, "rb") as source:
        relay = subprocess.Popen(words, stdin=source, stdout=subprocess.PIPE)
        found = hashlib.file_digest(relay.stdout, "sha256").hexdigest()
        assert relay.wait() == 0
        return found


def least_times(run, programs, path, rounds):
    least = [float("inf")] * len(programs)
    for _ in range(rounds):
        for i, words in enumerate(programs):
            least[i] = min(least[i], run(words, path))
    return least


def pump_beside_copy(size):
    with tempfile.TemporaryDirectory() as folder:
        path = os.path.join(folder, "input")
        write_input(path, "line", 80, size)
        print(f"{'keys':26}{'way':8}{'copy':>8}{'pump':>8}{'pump / copy':>13}")
        for keys in KEYS:
            programs = [[RELAY, command, "line", "len4", *keys] for command in ("copy", "pump")]
            assert len({digest(words, path) for words in programs}) == 1
            for way, run in (("file", file_to_null), ("pipes", through_pipes)):
                copy, pump = least_times(run, programs, path, ROUNDS_ON_TWO)
                print(f"{' '.join(keys):26}{way:8}{copy:8.3f}{pump:8.3f}{pump / copy:13.2f}", flush=True)


def vlen_beside_len4(size):
    """Inputs of as many frames, so that the longer heads of `len4` are no advantage to it."""
    pairs = [("vlen", "vlen"), *[pair for other in FRAMINGS for pair in (("vlen", other), (other, "vlen"))]]
    print(f"{'translation':16}{'payload':>8}{'file':>8}{'pipes':>8}")
    with tempfile.TemporaryDirectory() as folder:
        paths = {framing: os.path.join(folder, framing) for framing in ["vlen", *FRAMINGS]}
        for payload in (12, 80, 1024, 60000):
            for framing, path in paths.items():
                write_input(path, framing, payload, size * len(model.spell(framing, b"a" * payload)) // payload)
            for source, sink in pairs:
                times = []
                for words in ([source, sink], [framing.replace("vlen", "len4") for framing in (source, sink)]):
                    programs = [[RELAY, "copy", *words, *LARGE]]
                    times.append([least_times(run, programs, paths[words[0]], ROUNDS)[0] for run in (file_to_null, through_pipes)])
                file, pipes = [vlen / len4 for vlen, len4 in zip(*times)]
                print(f"{source + ' to ' + sink:16}{payload:8}{file:8.2f}{pipes:8.2f}", flush=True)


def drill_beside_copy(count):
    with tempfile.TemporaryDirectory() as folder:
        path = os.path.join(folder, "input")
        with open(path, "wb") as file:
            file.write(model.generated("line", 7, count))
        programs = [[RELAY, "drill", "7", str(count), "line", "len4"], [RELAY, "copy", "line", "len4"]]
        drill, copy = least_times(file_to_null, programs, path, ROUNDS_ON_TWO)
        print(f"drill {count / drill:.0f} frames a second, copy {count / copy:.0f}, drill / copy in time {drill / copy:.2f}")


def batch_time(words, folder):
    """The time of a run whose outputs are new files, where they aren't links."""
    for file in os.scandir(folder):
        if file.name.endswith(".out") and not file.is_symlink():
            os.remove(file)
    start = time.perf_counter()
    subprocess.run(words, cwd=folder, stdout=subprocess.DEVNULL, check=True)
    return time.perf_counter() - start


def link_outputs(folder, names):
    for name in names:
        output = os.path.join(folder, name + ".out")
        os.remove(output)
        os.symlink(os.devnull, output)


def batch_by_workers(size):
    names = [f"input{number}" for number in range(FILES)]
    programs = [[os.path.abspath(RELAY), "batch", workers, "line", "len4", *names] for workers in ("1", "4")]
    with tempfile.TemporaryDirectory() as folder:
        for name in names:
            write_input(os.path.join(folder, name), "line", 80, size)
        print(f"{'outputs':16}{'1 worker':>10}{'4 workers':>11}{'1 / 4':>8}")
        for outputs in ("files", "the null device"):
            if outputs != "files":
                link_outputs(folder, names)
            one, four = least_times(batch_time, programs, folder, ROUNDS_OF_BATCH)
            print(f"{outputs:16}{one:10.3f}{four:11.3f}{one / four:8.2f}", flush=True)


def speeds(run, programs, path):
    """The speed of the first program over that of each other one."""
    times = [[] for _ in programs]
    for _ in range(ROUNDS):
        for i, words in enumerate(programs):
            times[i].append(run(words, path))
    first, *others = [statistics.median(found) for found in times]
    return [other / first for other in others]


def measure(size, keys):
    """Each row with its four speeds, as they are found."""
    with tempfile.TemporaryDirectory() as folder:
        buffered, tuned = build(folder)
        path = os.path.join(folder, "input")
        for source, sink, payload in sorted(ROWS, key=lambda row: (FRAMINGS.index(row[0]), FRAMINGS.index(row[1]), row[2])):
            write_input(path, source, payload, size)
            programs = [[RELAY, "copy", source, sink, *keys], [buffered, source, sink], [tuned, source, sink]]
            assert len({digest(words, path) for words in programs}) == 1
            found = speeds(file_to_null, programs, path) + speeds(through_pipes, programs, path)
            yield (source, sink, payload), found


def print_rows(size, keys):
    print(f"{'translation':16}{'payload':>8}  {'file: buffered':>15}{'tuned':>7}  {'pipes: buffered':>16}{'tuned':>7}")
    for (source, sink, payload), found in measure(size, keys):
        print(f"{source + ' to ' + sink:16}{payload:8}  {found[0]:15.2f}{found[1]:7.2f}  {found[2]:16.2f}{found[3]:7.2f}", flush=True)


def table(rows):
    lines = ["| Translation | Payload | File, `buffered` | File, `tuned` | Pipes, `buffered` | Pipes, `tuned` |", "|---|---|---|---|---|---|"]
    for (source, sink, payload), found in rows:
        cells = " | ".join(f"{speed:.2f}" for speed in found)
        lines.append(f"| `{source}` to `{sink}` | {payload:,} | {cells} |")
    return "\n".join(lines)


def replace_table(page, name, text):
    """Puts a table between the two marks that have its name."""
    path = os.path.join(HERE, "..", page)
    begin, end = f"<!-- bench: {name} -->\n", f"<!-- bench: end of {name} -->"
    with open(path) as file:
        whole = file.read()
    found, count = re.subn(re.escape(begin) + ".*?" + re.escape(end), lambda _: begin + text + "\n" + end, whole, flags=re.S)
    assert count == 1, (page, name)
    with open(path, "w") as file:
        file.write(found)


def write_tables(size):
    for name, keys in (("default", []), ("large", LARGE)):
        rows = list(measure(size, keys))
        replace_table("docs/ARCHITECTURE.md", name, table(rows))
        print(f"{name}\n\n{table(rows)}\n", flush=True)
    short = [row for row in rows if row[0] in SHORT]
    replace_table("README.md", "short", table(short))
    print(f"short\n\n{table(short)}")


def main():
    if sys.argv[1:2] == ["batch"]:
        batch_by_workers(int(sys.argv[2] if len(sys.argv) > 2 else "50") * 1_000_000)
        return
    if sys.argv[1:2] == ["drill"]:
        drill_beside_copy(int(sys.argv[2] if len(sys.argv) > 2 else "1000000"))
        return
    if sys.argv[1:2] == ["pump"]:
        pump_beside_copy(int(sys.argv[2] if len(sys.argv) > 2 else "200") * 1_000_000)
        return
    if sys.argv[1:2] == ["vlen"]:
        vlen_beside_len4(int(sys.argv[2] if len(sys.argv) > 2 else "50") * 1_000_000)
        return
    if sys.argv[1:2] == ["tables"]:
        write_tables(int(sys.argv[2] if len(sys.argv) > 2 else "100") * 1_000_000)
        return
    print_rows(int(sys.argv[1] if len(sys.argv) > 1 else "100") * 1_000_000, sys.argv[2:])


if __name__ == "__main__":
    main()
