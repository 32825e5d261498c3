"""Runs `serve` over loopback, with clients and targets that do as they are told and others, beside the model.

usage: serve.py PROGRAM
"""

import os
import random
import select
import shutil
import socket
import struct
import subprocess
import tempfile
import threading
import time

import model
from memory import resident
from running import SECONDS, check, end, finish, start

HOST = "127.0.0.1"
USUAL_MAX = 65536
FRAME = b"\0\0\0\2hi"
LARGE = 50_000_000  # bytes
WARM = 50  # thousands of frames, after which no memory is to be taken any more
QUIET = 1.0  # seconds without a byte, after which a client counts as held back
ROOM = 64_000_000  # bytes that a relay and the sockets at both of its sides hold at most
GROWTH = 64 * 1024  # bytes that the measure of memory itself may be off by


def listening():
    """A socket at a port of its own, to which a relay may connect."""
    server = socket.create_server((HOST, 0))
    server.settimeout(SECONDS)
    return server


def port_of(server):
    return server.getsockname()[1]


def free_port():
    """A port at which nobody listens."""
    with listening() as server:
        return port_of(server)


def take(peer, count):
    """So many bytes, or those up to the end of the stream."""
    taken = b""
    while len(taken) < count and (piece := peer.recv(count - len(taken))):
        taken += piece
    return taken


def take_all(peer):
    """What comes, up to the end of the stream."""
    with peer:
        pieces = []
        while piece := peer.recv(1 << 20):
            pieces.append(piece)
        return b"".join(pieces)


def is_ended(client):
    """Whether the relay ends a connection, in whichever way."""
    try:
        return client.recv(1) == b""
    except ConnectionResetError:
        return True


class Serving:
    """A relay that serves so many connections, and its target."""

    def __init__(self, count, framings=("len4", "line"), **streams):
        self.target = listening()
        self.port = free_port()
        addresses = [f"{HOST}:{self.port}", f"{HOST}:{port_of(self.target)}"]
        words = ["serve", *addresses, *framings, str(count)]
        self.program = start(words, **{"stdin": subprocess.DEVNULL, "stdout": subprocess.PIPE, **streams})

    def connect(self):
        """A client, once the relay listens."""
        while True:
            try:
                client = socket.create_connection((HOST, self.port), timeout=SECONDS)
                client.setsockopt(socket.IPPROTO_TCP, socket.TCP_NODELAY, 1)
                return client
            except ConnectionRefusedError:
                if self.program.poll() is not None:
                    raise
                time.sleep(0.005)

    def accept(self):
        """What the relay has connected to the target."""
        peer = self.target.accept()[0]
        peer.settimeout(SECONDS)
        return peer

    def open(self):
        """A client, and what the relay has connected for it."""
        return self.connect(), self.accept()

    def pass_on(self, data):
        """What comes to the target of a client that sends this and leaves."""
        client, peer = self.open()
        with client:
            sender = threading.Thread(target=send_all, args=(client, data))
            sender.start()
            taken = take_all(peer)
            sender.join()
            return taken

    def line(self):
        """The line of a connection, which comes once it has ended."""
        return self.program.stdout.readline()

    def end(self):
        """What stands behind the lines that were read, the status and the line."""
        self.target.close()
        with self.program.stdout:
            rest = self.program.stdout.read()
        return rest, *end(self.program)


def send_all(client, data):
    """Sends this and shows the end of it, as far as the other side takes it."""
    try:
        client.sendall(data)
        client.shutdown(socket.SHUT_WR)
    except (ConnectionResetError, BrokenPipeError):
        pass


def reset(client):
    """Ends a connection as one that is cut off."""
    client.setsockopt(socket.SOL_SOCKET, socket.SO_LINGER, struct.pack("ii", 1, 0))
    client.close()


def beside_the_model(title, source, sink, contents):
    """Connections that send this, one after the other, beside the model. Each line comes before the next connection is made."""
    inputs = {str(number): data for number, data in enumerate(contents, 1)}
    outputs, lines, status, line = model.batch(source, sink, USUAL_MAX, inputs)
    serving = Serving(len(inputs), (source, sink))
    taken, told = {}, []
    for number, data in inputs.items():
        taken[number] = serving.pass_on(data)
        told.append(serving.line())
    check(f"{title}: what the target took", taken, outputs)
    check(f"{title}: lines", b"".join(told), lines)
    check(f"{title}: end", serving.end(), (b"", status, line))


def large_connection():
    """LARGE bytes and a frame more over one connection."""
    rng = random.Random(28)
    payload = rng.randbytes(1000).replace(b"\n", b"x")
    frame = model.spell("len4", payload)
    frames = -(-LARGE // len(frame))
    serving = Serving(2)
    check("a large connection", serving.pass_on(frame * frames) == (payload + b"\n") * frames, True)
    check("its line", serving.line(), f"1 0 {frames}\n".encode())
    check("a small one behind it", serving.pass_on(FRAME), b"hi\n")
    check("the end of both", serving.end(), (b"2 0 1\n", 0, b""))


def among_good_ones(title, serve_it, told, line):
    """A connection that isn't good ends no other: those before and behind it are served. The lines, but for its own, the status
    and the line on standard error."""
    serving = Serving(3)
    check(f"before {title}", (serving.pass_on(FRAME), serving.line()), (b"hi\n", b"1 0 1\n"))
    serve_it(serving)
    check(f"{title}: its line", serving.line(), told)
    check(f"behind {title}", (serving.pass_on(FRAME * 2), serving.line()), (b"hi\nhi\n", b"3 0 2\n"))
    check(f"{title}: end", serving.end(), (b"", int(told.split()[1]), line))


def resets(serving):
    """A client that is cut off once its frame has come."""
    client, peer = serving.open()
    client.sendall(FRAME)
    check("a frame comes before the end", take(peer, 3), b"hi\n")
    reset(client)
    check("nothing behind it", take_all(peer), b"")


def leaves_early(serving):
    """A client that sends half a frame, and leaves."""
    check("half a frame", serving.pass_on(FRAME + b"\0\0\0"), b"hi\n")


def sends_a_bad_frame(serving):
    check("a bad frame", serving.pass_on(FRAME + b"\0\1\0\1" + FRAME), b"hi\n")


def stays_silent_behind_a_bad_frame(serving):
    """It holds its connection until it leaves, and the target sees its end only then."""
    client, peer = serving.open()
    client.sendall(b"\0\1\0\1")
    check("no end while a client stays", select.select([peer, serving.program.stdout], [], [], QUIET)[0], [])
    client.close()
    check("nothing of a bad frame", take_all(peer), b"")


def target_closes_early():
    """What a target no longer takes is told as a fault of writing, behind the frames that the relay could hand on."""
    serving = Serving(2)
    client, peer = serving.open()
    client.sendall(FRAME)
    check("a frame before the target closes", take(peer, 3), b"hi\n")
    reset(peer)
    send_all(client, FRAME * 500_000)
    check("the client sees an end", is_ended(client), True)
    client.close()
    number, status, frames = map(int, serving.line().split())
    check("the line of a target that closes early", (number, status, 1 <= frames < 500_001), (1, 5, True))
    check("the next target", serving.pass_on(FRAME), b"hi\n")
    rest, status, line = serving.end()
    check("the line behind it", (rest, status), (b"2 0 1\n", 5))
    start_of_line, written = line.rsplit(b" ", 1)
    check("its fault", (start_of_line, int(written) // 3), (b"1: write fault after", frames))


def no_target():
    """A target that can't be reached ends it, also behind a connection that was served."""
    for served in [0, 1]:
        serving = Serving(3)
        lines = b""
        if served:
            check("a connection before", serving.pass_on(FRAME), b"hi\n")
            lines = serving.line()
        serving.target.close()
        with serving.connect() as client:
            check("a client without a target", is_ended(client), True)
        told = lines + serving.end()[0], serving.program.returncode
        check("no target", told, (b"1 0 1\n" * served, 8))


def faults_of_the_whole():
    """What ends it before it serves any connection, and a place for the lines that takes none."""
    with listening() as taken:
        words = ["serve", f"{HOST}:{port_of(taken)}", f"{HOST}:1", "len4", "line", "1"]
        check("a port that is taken", end(start(words, stdout=subprocess.DEVNULL)), (8, b"door fault at word 1\n"))
    words = ["serve", "no address", f"{HOST}:1", "len4", "line", "1"]
    check("no address", end(start(words, stdout=subprocess.DEVNULL)), (8, b"door fault at word 1\n"))
    serving = Serving(1)
    serving.target.close()
    with serving.connect() as client:
        check("a client without a target", is_ended(client), True)
    check("nobody listens at the target", serving.end(), (b"", 8, b"door fault at word 2\n"))
    with open("/dev/full", "wb") as full:
        serving = Serving(2, stdout=full)
        check("a connection whose line can't be written", serving.pass_on(FRAME), b"hi\n")
        check("lines to a full device", end(serving.program), (5, b"write fault after 0\n"))
        serving.target.close()


def several_clients_at_once():
    """They wait for each other, and are served in the order in which they came."""
    serving = Serving(3)
    clients = [serving.connect() for _ in range(3)]
    for number, client in reversed(list(enumerate(clients))):
        send_all(client, FRAME * (number + 1))
    taken = [take_all(serving.accept()) for _ in clients]
    check("clients that wait", taken, [b"hi\n", b"hi\n" * 2, b"hi\n" * 3])
    check("their lines", serving.end(), (b"1 0 1\n2 0 2\n3 0 3\n", 0, b""))
    for client in clients:
        client.close()


def offer(client, frame, taken):
    """Sends frames over and over until nothing more is taken for a while. How many bytes were taken in all, of which some may be
    a part of a frame."""
    block = frame * 1000
    client.setblocking(False)
    while taken < ROOM and select.select([], [client], [], QUIET)[1]:
        taken += client.send(block[taken % len(frame):])
    client.setblocking(True)
    return taken


def those_that_stall():
    """A client that sends nothing for a while, and a target that takes nothing, which holds its client back: neither costs
    memory."""
    if not os.path.exists("/proc/self/status"):
        print("skipped: no /proc")
        return
    line = b"x" * 80 + b"\n"
    frame = model.spell("len4", b"x" * 80)
    serving = Serving(1)
    client, peer = serving.open()
    for _ in range(WARM):
        client.sendall(frame * 1000)
        check("what comes before a pause", take(peer, 1000 * len(line)) == line * 1000, True)
    memory = [resident(serving.program.pid)]
    check("nothing comes in a pause", select.select([peer, serving.program.stdout], [], [], QUIET)[0], [])
    memory.append(resident(serving.program.pid))
    taken = offer(client, frame, 0)
    memory.append(resident(serving.program.pid))
    check("a client is held back", taken < ROOM, True)
    check("it stays so", offer(client, frame, taken), taken)
    memory.append(resident(serving.program.pid))
    print(f"a target that takes nothing, once {taken} bytes were sent; resident bytes before, after a pause, held back, and later: {memory}")
    check("memory in a pause", memory[1] <= memory[0] + GROWTH, True)
    check("memory while a client is held back", memory[3] <= memory[2] + GROWTH, True)
    frames = -(-taken // len(frame))
    sender = threading.Thread(target=send_all, args=(client, (frame * frames)[taken:]))
    sender.start()
    check("all of it once the target goes on", take_all(peer) == line * frames, True)
    sender.join()
    client.close()
    check("its end", serving.end(), (f"1 0 {WARM * 1000 + frames}\n".encode(), 0, b""))


def traced_calls(trace):
    """How often a relay whose calls were traced read what it accepted, and wrote to what it connected."""
    with open(trace) as file:
        calls = file.read().splitlines()
    accepted = next(call.rsplit(" = ", 1)[1] for call in calls if "accept" in call and " = " in call)
    connected = next(call.split("connect(", 1)[1].split(",")[0] for call in calls if "connect(" in call)
    reads = sum(f"{name}({accepted}, " in call for call in calls for name in ["read", "recvfrom"])
    writes = sum(f"{name}({connected}, " in call for call in calls for name in ["write", "sendto"])
    return reads, writes


def system_calls(frames):
    """A small frame takes one read and one write, and the end of the client one read more."""
    if shutil.which("strace") is None:
        print("skipped: no strace")
        return
    with tempfile.TemporaryDirectory() as folder:
        trace = os.path.join(folder, "trace")
        tracer = ["strace", "-f", "-o", trace]
        if subprocess.run([*tracer, "true"], stderr=subprocess.DEVNULL).returncode != 0:
            print("skipped: strace may not trace")
            return
        serving = Serving(1, tracer=tracer)
        client, peer = serving.open()
        for _ in range(frames):
            client.sendall(FRAME)
            check("a traced frame", take(peer, 3), b"hi\n")
        client.close()
        check("the end of a traced run", (take_all(peer), *serving.end()), (b"", f"1 0 {frames}\n".encode(), 0, b""))
        reads, writes = traced_calls(trace)
    check("reads and writes of small frames", (reads, writes), (frames + 1, frames))
    print(f"{frames} frames, one at a time: {reads} reads, {writes} writes")


rng = random.Random(28)
beside_the_model("200 connections of a frame", "len4", "line", [model.spell("len4", b"%d" % number) for number in range(200)])
for source, sink in [("len4", "line"), ("line", "vlen"), ("vlen", "len2"), ("len2", "len4")]:
    contents = [model.some_frames(source, USUAL_MAX, rng) for _ in range(30)]
    beside_the_model(f"good and bad frames, {source} to {sink}", source, sink, contents)
large_connection()
among_good_ones("a client that resets", resets, b"2 4 1\n", b"2: read fault after 6\n")
among_good_ones("a client that leaves early", leaves_early, b"2 3 1\n", b"2: truncated at 6\n")
among_good_ones("a bad frame", sends_a_bad_frame, b"2 2 1\n", b"2: bad frame at 6: length 65537\n")
among_good_ones("a silent client", stays_silent_behind_a_bad_frame, b"2 2 0\n", b"2: bad frame at 0: length 65537\n")
target_closes_early()
no_target()
faults_of_the_whole()
several_clients_at_once()
those_that_stall()
system_calls(20)
finish()
