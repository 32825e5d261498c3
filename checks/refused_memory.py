"""Refuses one request for memory in each run of each command, the first, the second and so on until none is left: then nothing was
read and nothing written, or the one name or connection that it meets is told so, or all is as with ample memory. Each block is
given back.

usage: refused_memory.py PROGRAM

The requests are counted and refused by `refuse_memory.c`, which stands before the C library and wants `cc`.
"""

import os
import shutil
import socket
import struct
import subprocess
import tempfile
import threading
import time

from running import SECONDS, check, end, finish, start

HERE = os.path.dirname(os.path.abspath(__file__))
HOST = "127.0.0.1"
FRAMES = b"".join(len(payload).to_bytes(4, "big") + payload for payload in [b"hi", b"", b"x" * 200])
LINES = b"hi\n\n" + b"x" * 200 + b"\n"
NO_MEMORY = b"out of memory\n"
LAST = b"the last"


class Folder:
    """Where the program finds its files, and the library that refuses memory."""

    def __init__(self, path):
        self.path = path
        self.library = self.file("refuse_memory.so")
        source = os.path.join(HERE, "refuse_memory.c")
        subprocess.run(["cc", "-O2", "-shared", "-fPIC", "-o", self.library, source], check=True)

    def file(self, name):
        return os.path.join(self.path, name)

    def write(self, name, data):
        with open(self.file(name), "wb") as file:
            file.write(data)

    def read(self, name):
        with open(self.file(name), "rb") as file:
            return file.read()

    def start(self, words, refused, **streams):
        """The program, to which the request of this number is refused; none where it is 0."""
        environment = {**os.environ, "LD_PRELOAD": self.library, "REFUSE": str(refused), "REFUSE_TELLS": self.file("tells")}
        return start(words, cwd=self.path, env=environment, stdout=subprocess.PIPE, **streams)

    def requests(self):
        """How many requests there were, how many of them came behind the first read, and how many blocks weren't given back."""
        requests, before_read, blocks = struct.unpack("3l", self.read("tells"))
        return requests, requests - (before_read - 1) if before_read else 0, blocks


def end_of(program):
    """The status, the line and standard output of a program."""
    with program.stdout:
        output = program.stdout.read()
    return *end(program), output


def relay(folder, words, refused):
    """A command on standard input: how it ends, and how far it read."""
    folder.write("frames", FRAMES)
    with open(folder.file("frames"), "rb", buffering=0) as source:
        return *end_of(folder.start(words, refused, stdin=source)), source.tell()


def is_relayed(found, ample):
    return found in (ample, (6, NO_MEMORY, b"", 0))


def batch(folder, words, refused):
    """A batch of the names a and b: how it ends, and what their outputs hold, nothing where there is none."""
    for name in ["a", "b"]:
        folder.write(name, FRAMES)
        folder.write(name + ".out", b"")
    program = folder.start([*words, "a", "b"], refused, stdin=subprocess.DEVNULL)
    return *end_of(program), [folder.read("a.out"), folder.read("b.out")]


def is_batch(found, ample):
    status, line, lines, outputs = found
    if found == ample or found == (6, NO_MEMORY, b"", [b"", b""]):
        return True
    told = dict(line.split(b" ", 1) for line in lines.splitlines())
    lacking = [name for name in [b"a", b"b"] if told[name] == b"6 0"]
    wanted = [b"" if name in lacking else LINES for name in [b"a", b"b"]]
    return (status, line, outputs) == (6, lacking[0] + b": " + NO_MEMORY, wanted) and all(
        told[name] == b"0 3" for name in [b"a", b"b"] if name not in lacking
    )


def connect(port, program):
    """A client of a program, once that listens; None where it has ended before."""
    while program.poll() is None:
        try:
            return socket.create_connection((HOST, port), timeout=SECONDS)
        except ConnectionRefusedError:
            time.sleep(0.002)
    return None


def take_each(server, taken):
    """What comes over each connection, up to one over which LAST comes."""
    while True:
        peer = server.accept()[0]
        with peer:
            pieces = []
            while piece := peer.recv(1 << 16):
                pieces.append(piece)
        if pieces == [LAST]:
            return
        taken.append(b"".join(pieces))


def serve(folder, words, refused):
    """Two clients, one after the other: how it ends, and what came to the target over each connection."""
    taken = []
    with socket.create_server((HOST, 0)) as target, socket.create_server((HOST, 0)) as free:
        port = free.getsockname()[1]
        free.close()
        taker = threading.Thread(target=take_each, args=(target, taken), daemon=True)
        taker.start()
        addresses = [f"{HOST}:{port}", f"{HOST}:{target.getsockname()[1]}"]
        program = folder.start([words[0], *addresses, *words[1:]], refused, stdin=subprocess.DEVNULL)
        for _ in range(2):
            client = connect(port, program)
            if client is None:
                break
            with client:
                try:
                    client.sendall(FRAMES)
                    client.shutdown(socket.SHUT_WR)
                    client.recv(1)
                except OSError:
                    pass
        found = end_of(program)
        with socket.create_connection(target.getsockname()) as last:
            last.sendall(LAST)
        taker.join()
    return *found, taken


def is_served(found, ample):
    status, line, lines, taken = found
    if found == ample:
        return True
    told = [tuple(line.split()) for line in lines.splitlines()]
    wanted = [b"" if line[1] == b"6" else LINES for line in told]
    each = all(line in [(b"%d" % number, b"0", b"3"), (b"%d" % number, b"6", b"0")] for number, line in enumerate(told, 1))
    if not each or status != 6 or taken[: len(told)] != wanted:
        return False
    if len(told) < 2:
        return line == NO_MEMORY and all(data == b"" for data in taken[len(told):])
    lacking = next(number for number, line in enumerate(told, 1) if line[1] == b"6")
    return line == b"%d: " % lacking + NO_MEMORY


COMMANDS = [
    (["copy", "len4", "line"], relay, is_relayed),
    (["pump", "len4", "line"], relay, is_relayed),
    (["drill", "7", "100", "len4", "line"], relay, is_relayed),
    (["batch", "2", "len4", "line"], batch, is_batch),
    (["serve", "len4", "line", "2"], serve, is_served),
]


def refuse_each(folder, words, run, is_good):
    name = words[0]
    ample = run(folder, words, 0)
    check(f"{name} with ample memory", ample[0], 0)
    requests, late, left = folder.requests()
    check(f"{name}: what isn't given back", left, 0)
    print(f"{name}: {requests} requests for memory, {late} of them behind its first read")
    if run is relay:
        check(f"{name}: requests behind its first read", late, 0)
    refused, met = 1, True
    while met:
        found = run(folder, words, refused)
        check(f"{name} without the request {refused}: {found}", is_good(found, ample), True)
        requests, _, left = folder.requests()
        check(f"{name} without the request {refused}: what isn't given back", left, 0)
        met = refused <= requests
        refused += 1


if shutil.which("cc") is None:
    print("skipped: no cc")
else:
    with tempfile.TemporaryDirectory() as path:
        for words, run, is_good in COMMANDS:
            refuse_each(Folder(path), words, run, is_good)
    finish()
