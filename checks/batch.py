"""Runs `batch` over real files with 1, 2, 4 and 16 workers, beside `copy` of each file, and with files that can't be opened, read
or written.

usage: batch.py PROGRAM
"""

import filecmp
import os
import random
import resource
import shutil
import subprocess
import tempfile

import model
from running import PROGRAM, SECONDS, check, end, finish, run, start

WORKERS = ["1", "2", "4", "16"]
USUAL_MAX = 65536
MEGABYTE = 1 << 20
LARGE = 20 * MEGABYTE
FRAME = b"\0\0\0\2hi"
LEFT = b"what an earlier run left, which is longer than what is to come\n" * 100


def write_files(folder, inputs):
    for name, data in inputs.items():
        path = os.path.join(folder, name)
        os.makedirs(os.path.dirname(path), exist_ok=True)
        with open(path, "wb") as file:
            file.write(data)


def read_output(folder, name):
    """What the output of a name holds, or None where there is none."""
    try:
        with open(os.path.join(folder, name + ".out"), "rb") as file:
            return file.read()
    except FileNotFoundError:
        return None


def leave_outputs(folder, names):
    for name in names:
        with open(os.path.join(folder, name + ".out"), "wb") as file:
            file.write(LEFT)


def outputs_of(folder, names):
    return {name: read_output(folder, name) for name in names}


def batch(folder, workers, translation, names, **options):
    return run(["batch", workers, *translation, *names], [], cwd=folder, **options)


def copied(path):
    """What `copy` writes and answers for a file."""
    with open(path, "rb") as source:
        program = start(["copy", "line", "len4"], stdin=source, stdout=subprocess.PIPE)
        with program.stdout:
            output = program.stdout.read()
        return output, *end(program)


def small_files(count):
    """Many files with good and bad frames, beside the model and beside `copy` of each."""
    rng = random.Random(23)
    inputs = {f"small {number}": model.some_frames("line", USUAL_MAX, rng) for number in range(count)}
    outputs, lines, status, line = model.batch("line", "len4", USUAL_MAX, inputs)
    with tempfile.TemporaryDirectory() as folder:
        write_files(folder, inputs)
        alone = {name: copied(os.path.join(folder, name)) for name in inputs}
        statuses = [int(told.rsplit(b" ", 2)[1]) for told in lines.splitlines()]
        check("copy of each small file", {name: got[:2] for name, got in alone.items()}, dict(zip(inputs, zip(outputs.values(), statuses))))
        for workers in WORKERS:
            leave_outputs(folder, inputs)
            check(f"{count} small files, {workers} workers", batch(folder, workers, ["line", "len4"], inputs), (lines, status, line))
            check(f"their outputs, {workers} workers", outputs_of(folder, inputs), outputs)


def large_files(count):
    """Some files of LARGE bytes and a line more each, beside `copy` of each."""
    block = b"".join(b"%07d %s\n" % (number, b"x" * (number % 120)) for number in range(MEGABYTE))[:LARGE - 1] + b"\n"
    frames = block.count(b"\n")
    names = [f"large{number}" for number in range(count)]
    with tempfile.TemporaryDirectory() as folder:
        for number, name in enumerate(names):
            path = os.path.join(folder, name)
            with open(path, "wb") as file:
                file.write(b"first\n" * number + block)
            with open(path, "rb") as source, open(path + ".copy", "wb") as sink:
                check(f"copy of {name}", end(start(["copy", "line", "len4"], stdin=source, stdout=sink)), (0, b""))
        lines = b"".join(f"{name} 0 {frames + number}\n".encode() for number, name in enumerate(names))
        for workers in WORKERS:
            check(f"{count} large files, {workers} workers", batch(folder, workers, ["line", "len4"], names), (lines, 0, b""))
            paths = [os.path.join(folder, name) for name in names]
            same = [filecmp.cmp(path + ".copy", path + ".out", shallow=False) for path in paths]
            check(f"their outputs beside those of copy, {workers} workers", same, [True] * count)


def uneven_files(count, rounds):
    """Files of uneven sizes, the large ones neighbours, by 16 workers, some times over."""
    inputs = {f"{number:03}": b"a line of uneven files\n" * (20_000 if number < 8 else number % 50) for number in range(count)}
    outputs, *told = model.batch("line", "len4", USUAL_MAX, inputs)
    with tempfile.TemporaryDirectory() as folder:
        write_files(folder, inputs)
        for turn in range(rounds):
            leave_outputs(folder, inputs)
            check(f"{count} uneven files, time {turn}", batch(folder, "16", ["line", "len4"], inputs), tuple(told))
            check(f"their outputs, time {turn}", outputs_of(folder, inputs), outputs)


def names_of_all_kinds():
    """As many names as may be, names with slashes, blanks and letters beyond ASCII, one that looks like a key, and a link."""
    inputs = {f"{number:03}": FRAME * number for number in range(256)}
    unusual = {name: FRAME * 3 for name in ["a name", "folder/within it/name", "./dotted", "ä", " ", "max=1", "-v"]}
    with tempfile.TemporaryDirectory() as folder:
        for names in [inputs, unusual]:
            write_files(folder, names)
            outputs, *told = model.batch("len4", "line", USUAL_MAX, names)
            check(f"{len(names)} names", batch(folder, "16", ["len4", "line"], names), tuple(told))
            check("their outputs", outputs_of(folder, names), outputs)
        write_files(folder, {"lines": b"a\nbc"})
        check("a last line without a line feed", batch(folder, "1", ["line", "len4"], ["lines"]), (b"lines 0 2\n", 0, b""))
        check("its output", read_output(folder, "lines"), b"\0\0\0\1a\0\0\0\2bc")
        os.symlink("a name", os.path.join(folder, "link"))
        check("a link", batch(folder, "2", ["len4", "line"], ["link"]), (b"link 0 3\n", 0, b""))
        check("its output", read_output(folder, "link"), b"hi\n" * 3)


def refused(title, folder, names, word, made, **options):
    """An opening is refused at this word: the outputs of the names before it are empty, and no other is touched, whether there
    were outputs before or not."""
    wanted = (b"", 8, f"door fault at word {word}\n".encode())
    files = [name for name in names if not os.path.isdir(os.path.join(folder, name + ".out"))]
    for before in [None, LEFT]:
        if before is not None:
            leave_outputs(folder, files)
        check(title, batch(folder, "2", ["len4", "line"], names, **options), wanted)
        outputs = {name: b"" if name in made else before for name in files}
        check(f"{title}: outputs, {'some' if before else 'none'} before", outputs_of(folder, files), outputs)
    for name in files:
        os.remove(os.path.join(folder, name + ".out"))


def few_descriptors():
    """Three streams are open, so the fifth name finds room for its input alone."""
    resource.setrlimit(resource.RLIMIT_NOFILE, (12, 12))


def files_that_cannot_be_opened():
    names = [str(number) for number in range(12)]
    with tempfile.TemporaryDirectory() as folder:
        write_files(folder, {name: FRAME for name in ["a", "b", "c", "secret", *names]})
        refused("a missing input", folder, ["a", "missing", "b"], 5, ["a"])
        missing = batch(folder, "1", ["len4", "line"], ["b", "nowhere/name"])
        check("a folder that is missing", missing, (b"", 8, b"door fault at word 5\n"))
        os.mkdir(os.path.join(folder, "c.out"))
        refused("an output that is a folder", folder, ["a", "b", "c"], 6, ["a", "b"])
        refused("too many open files", folder, names, 8, names[:4], preexec_fn=few_descriptors)
        if os.geteuid() == 0:
            print("skipped: files without permission, since root may open all")
            return
        os.chmod(os.path.join(folder, "secret"), 0)
        refused("an input without permission", folder, ["a", "secret", "b"], 5, ["a"])
        os.chmod(os.path.join(folder, "secret"), 0o600)
        leave_outputs(folder, ["secret"])
        os.chmod(os.path.join(folder, "secret.out"), 0o400)
        closed = batch(folder, "1", ["len4", "line"], ["a", "secret"])
        check("an output without permission", closed, (b"", 8, b"door fault at word 5\n"))


def small_files_only():
    """No file takes more bytes than this. A write that would pass it fails, as on a full disk, since the signal is ignored."""
    resource.setrlimit(resource.RLIMIT_FSIZE, (15101, 15101))


def files_that_fail():
    """A fault of one name, of its own kind each, ends no other."""
    data = FRAME * 2 + b"\0\1\0\1" + FRAME
    with tempfile.TemporaryDirectory() as folder:
        write_files(folder, {"good": FRAME, "bad": data, "short": FRAME + b"\0\0", "full": FRAME * 9, "last": FRAME * 2})
        os.mkdir(os.path.join(folder, "folder"))
        os.symlink("/dev/full", os.path.join(folder, "full.out"))
        cases = [
            ("full", b"full 5 0\n", 5, b"full: write fault after 0\n", {}),
            ("folder", b"folder 4 0\n", 4, b"folder: read fault after 0\n", {"folder": b""}),
            ("bad", b"bad 2 2\n", 2, b"bad: bad frame at 12: length 65537\n", {"bad": b"hi\n" * 2}),
            ("short", b"short 3 1\n", 3, b"short: truncated at 6\n", {"short": b"hi\n"}),
        ]
        for name, told, status, line, left in cases:
            leave_outputs(folder, ["good", "last", *left])
            names = ["good", name, "last"]
            wanted = (b"good 0 1\n" + told + b"last 0 2\n", status, line)
            check(f"{name} among good names", batch(folder, "2", ["len4", "line"], names), wanted)
            outputs = {"good": b"hi\n", "last": b"hi\n" * 2, **left}
            check(f"{name}: outputs", outputs_of(folder, outputs), outputs)
        several = batch(folder, "3", ["len4", "line"], ["last", "short", "bad", "full"])
        check("several faults", several, (b"last 0 2\nshort 3 1\nbad 2 2\nfull 5 0\n", 3, b"short: truncated at 6\n"))
        write_files(folder, {"long": b"\0\0\0\x63" + b"x" * 99 + FRAME * 9000})
        part = batch(folder, "1", ["len4", "line"], ["long"], restore_signals=False, preexec_fn=small_files_only)
        check("a disk that is full behind some frames", part, (b"long 5 5001\n", 5, b"long: write fault after 15101\n"))
        check("what was written before", read_output(folder, "long"), b"x" * 99 + b"\n" + b"hi\n" * 5000 + b"h")
        with open("/dev/full", "wb") as full:
            program = start(["batch", "1", "len4", "line", "good"], cwd=folder, stdout=full)
            check("lines to a full device", end(program), (5, b"write fault after 0\n"))
        check("the output all the same", read_output(folder, "good"), b"hi\n")


def traced(folder, words):
    """The system calls of a run, or None where they can't be traced."""
    if shutil.which("strace") is None:
        print("skipped: no strace")
        return None
    trace = os.path.join(folder, "trace")
    if subprocess.run(["strace", "-f", "-o", trace, "true"], stderr=subprocess.DEVNULL).returncode != 0:
        print("skipped: strace may not trace")
        return None
    words = ["strace", "-f", "-o", trace, PROGRAM, *words]
    subprocess.run(words, cwd=folder, stdout=subprocess.DEVNULL, check=True, timeout=SECONDS)
    with open(trace) as calls:
        return calls.read().splitlines()


def system_calls(segments, segment=4096, piece=32768):
    """A read a segment and one at the end, a write for 32 KiB of frames and one at the end of each segment, and few other calls."""
    lines = segments * segment // 2
    with tempfile.TemporaryDirectory() as folder:
        write_files(folder, {"lines": b"x\n" * lines})
        calls = traced(folder, ["batch", "1", "line", "len4", "lines"])
        if calls is None:
            return
        check("the output of a traced run", os.path.getsize(os.path.join(folder, "lines.out")), 5 * lines)
    first = next(number for number, call in enumerate(calls) if '"lines"' in call and "open" in call)
    reads = sum("read(3, " in call for call in calls[first:])
    writes = sum("write(4, " in call for call in calls[first:])
    check("reads of a name", reads, segments + 1)
    check("writes of a name", writes, segments * -(-5 * segment // 2 // piece))
    check("few other calls", len(calls) - reads - writes < 200, True)
    print(f"{lines} lines in {segments} segments: {reads} reads, {writes} writes, {len(calls) - reads - writes} other calls")


small_files(200)
large_files(8)
uneven_files(256, 10)
names_of_all_kinds()
files_that_cannot_be_opened()
files_that_fail()
system_calls(64)
finish()
