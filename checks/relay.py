"""Runs the real program over pipes, files and devices, and compares what it writes and answers with the model.

usage: relay.py PROGRAM
"""

import itertools
import os
import random
import resource
import select
import subprocess
import tempfile

import model
from running import SECONDS, check, end, feed, finish, run, start

FRAMINGS = ["len4", "len2", "vlen", "line"]
USUAL_MAX = 65536
COMMANDS = ["copy", "pump"]
COPY = ["copy", "len4", "line"]
FRAME = b"\0\0\0\2hi"


def pieces_of(data, rng):
    pieces, at = [], 0
    while at < len(data):
        size = rng.choice([1, 2, 3, 7, 100, 4096, 70000])
        pieces.append(data[at:at + size])
        at += size
    return pieces


def named_cases():
    greatest, two_frames = b"\0\1\0\0" + b"a" * USUAL_MAX, FRAME + b"\0\0\0\1a"
    cases = [
        ("a frame", "len4 line", FRAME, b"hi\n", 0, b""),
        ("two frames", "len4 line", two_frames, b"hi\na\n", 0, b""),
        ("two frames and small thresholds", "len4 line resume=1 seg=64 pause=1", two_frames, b"hi\na\n", 0, b""),
        ("nothing", "len4 line", b"", b"", 0, b""),
        ("an empty payload", "len4 line", b"\0\0\0\0", b"\n", 0, b""),
        ("a carriage return", "line len2", b"a\r\nb", b"\0\2a\r\0\1b", 0, b""),
        ("an empty line of at most nothing", "line len4 seg=64 max=0", b"\n", b"\0\0\0\0", 0, b""),
        ("an empty line below a small pause", "line len4 pause=100", b"\n", b"\0\0\0\0", 0, b""),
        ("an empty line without a pause", "line len4 pause=0 resume=70000", b"\n", b"\0\0\0\0", 0, b""),
        ("the greatest payload", "len4 line", greatest, b"a" * USUAL_MAX + b"\n", 0, b""),
        ("the greatest payload of two bytes", "len4 len2", b"\0\0\xff\xff" + b"a" * 65535, b"\xff\xff" + b"a" * 65535, 0, b""),
        ("a payload past two bytes", "len4 len2", greatest, b"", 2, b"bad frame at 0: byte 65535\n"),
        ("a payload that is too big", "len4 line", b"\0\1\0\1", b"", 2, b"bad frame at 0: length 65537\n"),
        ("a line that is too big", "line len4 seg=64 max=0", b"a\n", b"", 2, b"bad frame at 0: length 1\n"),
        ("a last line that is too big", "line line max=2", b"ab\nabc", b"ab\n", 2, b"bad frame at 3: length 3\n"),
        ("a line feed within a payload", "len4 line", b"\0\0\0\1a\0\0\0\2a\n\0\0\0\1b", b"a\n", 2, b"bad frame at 5: byte 1\n"),
        ("a payload broken off", "len4 line", b"\0\0\0\5h", b"", 3, b"truncated at 0\n"),
        ("a head broken off", "len4 line", FRAME + b"\0\0", b"hi\n", 3, b"truncated at 6\n"),
        ("a first head broken off", "len4 line", b"\0\0", b"", 3, b"truncated at 0\n"),
        ("a length in one group", "vlen line", b"\2hi", b"hi\n", 0, b""),
        ("a head that is longer than needed", "vlen line", b"\1a\x80\0", b"a\n", 2, b"bad frame at 2: head 2\n"),
        ("four groups that all go on", "vlen line", b"\x80" * 4, b"", 2, b"bad frame at 0: head 4\n"),
        ("a head of groups broken off", "vlen line", b"\x80", b"", 3, b"truncated at 0\n"),
        ("a length in two groups", "line vlen", b"a" * 200 + b"\n", b"\xc8\1" + b"a" * 200, 0, b""),
        ("a payload that is too big behind two groups", "vlen len4 max=299", b"\xac\2" + b"a" * 300, b"", 2, b"bad frame at 0: length 300\n"),
        ("the greatest limit", "line line max=268435455", b"a", b"a\n", 0, b""),
    ]
    for command, (name, words, data, output, status, line) in itertools.product(COMMANDS, cases):
        words = [command, *words.split()]
        check(f"{command}: {name}", run(words, [data]), (output, status, line))
        single = [bytes([byte]) for byte in data[:200]] + [data[200:]]
        check(f"{command}: {name}, byte by byte", run(words, single), (output, status, line))


def random_cases(count):
    """Random inputs, in random pieces, for each pair of framings and several greatest payloads. Each command gets the same."""
    rng = random.Random(17)
    for source, sink in itertools.product(FRAMINGS, FRAMINGS):
        for number in range(count):
            greatest = rng.choice([USUAL_MAX, USUAL_MAX, 0, 1, 39, 200000])
            keys = [] if greatest == USUAL_MAX else [f"max={greatest}"]
            keys += rng.choice([[], ["seg=64"], ["seg=65536"], ["pause=1"], ["pause=0", "seg=100"], ["resume=5", "pause=9", "seg=64"]])
            data = model.some_frames(source, greatest, rng)
            wanted = model.copy(source, sink, greatest, data)
            pieces = pieces_of(data, rng)
            for command in COMMANDS:
                words = [command, source, sink, *keys]
                check(f"{' '.join(words)}, random input {number}", run(words, pieces), wanted)


def wrong_words():
    cases = [
        ([], 0), (["Copy", "len4", "line"], 0), (["drill"], 1), (["drill", "4294967296", "1", "line", "len4"], 1), (["serve"], 1), (["serve", "L", "T", "line", "len4"], 5), (["serve", "L", "T", "line", "len4", "0"], 5), (["batch"], 1), (["batch", "0", "line", "len4", "a"], 1), (["batch", "2", "line", "len4"], 4), (["batch", "2", "line", "len4", "a", "a"], 5), (["batch", "2", "line", "len4", "a.out"], 4), (["--help", "x"], 0), (["--verbose"], 0), (["copy"], 1), (["copy", "len4"], 2), (["pump"], 1), (["pump", "len4"], 2),
        (["copy", "len4", "lines"], 2), ([*COPY, "x"], 3), ([*COPY, "max=01"], 3), ([*COPY, "max=268435456"], 3),
        (["pump", "len4", "foo"], 2), (["pump", "line", "len4", "max=1", "max=1"], 4), (["drill", "len4", "line"], 1),
        (["drill", "1", "1000001", "line", "len4"], 2), (["drill", "1", "1", "line", "len4", "x"], 5),
        ([*COPY, "max=1", "max=1"], 4), ([*COPY, "seg=63"], 3), ([*COPY, "resume=70000"], 3), ([*COPY, "resume=9", "pause=8"], 3),
    ]
    for words, index in cases:
        check(f"words {words}", run(words, [FRAME]), (b"", 1, f"usage: word {index}\n".encode()))
    check("a word that is no text", run([b"copy", b"\xff"], [FRAME]), (b"", 1, b"usage: a word is not text\n"))


def help_and_version():
    output, status, line = run(["--help"], [])
    check("--help", (b"relay copy" in output and b"relay pump" in output and b"relay drill" in output and b"relay batch" in output and b"relay serve" in output, status, line), (True, 0, b""))
    output, status, line = run(["--version"], [])
    check("--version", (output.startswith(b"relay "), status, line), (True, 0, b""))
    with open("/dev/full", "wb") as full:
        check("--help on a full device", end(start(["--help"], stdout=full))[0], 5)


def drills():
    cases = [
        ("2 1 line len4", b"frames=1 in=3 out=6\n", 0, b""), ("0 0 line len4", b"frames=0 in=0 out=0\n", 0, b""),
        ("95 2 line len4", b"frames=2 in=109 out=115\n", 0, b""),
        *[("7 100000 line len4", b"frames=100000 in=4849904 out=5149904\n", 0, b"")] * 3,
        ("95 2 len4 line seg=64 pause=1", b"frames=2 in=115 out=109\n", 0, b""),
        ("95 2 vlen line", b"frames=2 in=109 out=109\n", 0, b""), ("95 2 len2 vlen", b"frames=2 in=111 out=109\n", 0, b""),
        ("95 2 line len4 max=94", b"", 2, b"bad frame at 0: length 95\n"),
        ("2 2 len4 line max=2", b"", 2, b"bad frame at 6: length 15\n"),
    ]
    for words, output, status, line in cases:
        check(f"drill {words}", run(["drill", *words.split()], []), (output, status, line))
    lines = model.generated("line", 7, 100000)
    output, status, line = run(["copy", "line", "len4"], [lines])
    check("copy of a generated input", (len(lines), len(output), status, line), (4849904, 5149904, 0, b""))
    with open("/dev/full", "wb") as full:
        check("drill on a full device", end(start(["drill", *"2 1 line len4".split()], stdout=full))[0], 5)


def devices(command):
    words = [command, "len4", "line"]
    with tempfile.TemporaryDirectory() as folder:
        path = os.path.join(folder, "frames")
        with open(path, "wb") as file:
            file.write(FRAME * 1000)
        with open(path, "rb") as source, open(os.path.join(folder, "lines"), "w+b") as sink:
            check(f"{command}: a file to a file", end(start(words, stdin=source, stdout=sink)), (0, b""))
            sink.seek(0)
            check(f"{command}: what the file holds", sink.read(), b"hi\n" * 1000)
        with open(path, "rb") as source, open("/dev/full", "wb") as full:
            check(f"{command}: a full device", end(start(words, stdin=source, stdout=full)), (5, b"write fault after 0\n"))
        with open(path, "ab") as unreadable:
            program = start(words, stdin=unreadable, stdout=subprocess.DEVNULL)
            check(f"{command}: an input that can't be read", end(program), (4, b"read fault after 0\n"))
        directory = os.open(folder, os.O_RDONLY)
        program = start(words, stdin=directory, stdout=subprocess.DEVNULL)
        check(f"{command}: an input that is a folder", end(program), (4, b"read fault after 0\n"))
        os.close(directory)


def faults_that_cannot_be_told():
    with open("/dev/full", "wb") as full:
        program = start(["copy"], stderr=full)
        check("a full standard error", program.wait(timeout=SECONDS), 1)


def reader_gone(command):
    read_end, write_end = os.pipe()
    os.close(read_end)
    program = start([command, "len4", "line"], stdin=subprocess.PIPE, stdout=write_end)
    os.close(write_end)
    feed(program.stdin, [FRAME * 100])
    check(f"{command}: a reader that is gone", end(program), (5, b"write fault after 0\n"))


def read_soon(pipe, size):
    """So many bytes of a pipe, or what came until no more did in time."""
    data = b""
    while len(data) < size and select.select([pipe], [], [], SECONDS)[0]:
        piece = os.read(pipe.fileno(), size - len(data))
        if not piece:
            break
        data += piece
    return data


def passed_on_at_once(command):
    """A whole frame that has come is written while the input stays open."""
    program = start([command, "len4", "line"], stdin=subprocess.PIPE, stdout=subprocess.PIPE)
    for payload in [b"first", b"second"]:
        program.stdin.write(model.spell("len4", payload))
        program.stdin.flush()
        line = model.spell("line", payload)
        check(f"{command}: a frame passed on at once", read_soon(program.stdout, len(line)), line)
    program.stdin.close()
    check(f"{command}: its end", end(program), (0, b""))
    program.stdout.close()


def want_of_memory():
    """With little memory the program answers 6 with nothing written, or works as ever; it never dies by a signal. Not tried
    with `pump`, which may not end where the system makes no second thread."""
    def limit(size):
        return lambda: resource.setrlimit(resource.RLIMIT_AS, (size, size))
    for size in [3, 4, 5, 6, 8, 12, 16]:
        program = start(COPY, stdin=subprocess.PIPE, stdout=subprocess.PIPE, preexec_fn=limit(size << 20))
        output, line = program.communicate(FRAME, timeout=SECONDS)
        # The system itself ends a program that it can't load (127 or a signal): that says nothing of the program.
        if program.returncode in (0, 6):
            check(f"{size} MiB", (output, line), (b"hi\n", b"") if program.returncode == 0 else (b"", b"out of memory\n"))


named_cases()
random_cases(20)
wrong_words()
help_and_version()
drills()
for each in COMMANDS:
    devices(each)
    reader_gone(each)
    passed_on_at_once(each)
faults_that_cannot_be_told()
want_of_memory()
finish()
