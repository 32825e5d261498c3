#!/usr/bin/env python3
"""How fast `relay serve` is beside `serve.rs`, which does the same by the TCP streams and the buffered reader and writer of
Rust's library. Over loopback, from `len4` to `line`, with client and target in this program.

    python3 bench/serve.py [MEGABYTES]

wants `crates/relay/out/relay` and `rustc`. Both programs run in turn in each round, and the medians of the rounds are compared:
the bytes a second over one connection, with payloads of two lengths and with the usual and with large segments; the connections
a second, each of one small frame; and the time from a client's send of a small frame to the target's receipt of it, over one
connection that stays open. The time that client and target take themselves is in all of them.
"""

import os
import socket
import statistics
import subprocess
import sys
import tempfile
import threading
import time

HERE = os.path.dirname(os.path.abspath(__file__))
RELAY = os.path.join(HERE, "..", "crates", "relay", "out", "relay")
HOST = "127.0.0.1"
ROUNDS = 7
CONNECTIONS = 500  # in a round
FRAMES = 1000  # in a round, one at a time
FRAME, LINE = b"\0\0\0\2hi", b"hi\n"
LARGE = ["seg=65536", "pause=1048576", "resume=524288"]


class Server:
    """A program that serves so many connections, and its target."""

    def __init__(self, program, count, keys=()):
        self.target = socket.create_server((HOST, 0))
        with socket.create_server((HOST, 0)) as free:
            self.port = free.getsockname()[1]
        addresses = [f"{HOST}:{self.port}", f"{HOST}:{self.target.getsockname()[1]}"]
        words = [program, *addresses, str(count)]
        if program == RELAY:
            words = [program, "serve", *addresses, "len4", "line", str(count), *keys]
        self.process = subprocess.Popen(words, stdout=subprocess.DEVNULL)

    def open(self):
        """A client, once the program listens, and what came of it at the target."""
        while True:
            try:
                client = socket.create_connection((HOST, self.port))
                break
            except ConnectionRefusedError:
                time.sleep(0.002)
        client.setsockopt(socket.IPPROTO_TCP, socket.TCP_NODELAY, 1)
        return client, self.target.accept()[0]

    def end(self):
        assert self.process.wait() == 0
        self.target.close()


def take_all(peer):
    """How many bytes come up to the end."""
    room, taken = bytearray(1 << 20), 0
    with peer:
        while count := peer.recv_into(room):
            taken += count
    return taken


def send_all(client, chunk, count):
    with client:
        for _ in range(count):
            client.sendall(chunk)


def large_time(program, payload, size, keys):
    """The time of one connection of so many bytes."""
    server = Server(program, 1, keys)
    client, peer = server.open()
    frames = 1_000_000 // (payload + 4)
    chunk = (payload.to_bytes(4, "big") + b"x" * payload) * frames
    count = -(-size // len(chunk))
    begin = time.perf_counter()
    sender = threading.Thread(target=send_all, args=(client, chunk, count))
    sender.start()
    taken = take_all(peer)
    taken_time = time.perf_counter() - begin
    sender.join()
    assert taken == count * frames * (payload + 1), taken
    server.end()
    return taken_time


def connections_time(program):
    """The time of CONNECTIONS connections of a frame each."""
    server = Server(program, CONNECTIONS + 1)
    begin = 0
    for number in range(CONNECTIONS + 1):
        client, peer = server.open()
        if number == 0:
            begin = time.perf_counter()
        send_all(client, FRAME, 1)
        assert take_all(peer) == len(LINE)
    taken = time.perf_counter() - begin
    server.end()
    return taken


def way_times(programs):
    """The times of FRAMES frames over each program, which are sent by turns."""
    servers = [Server(program, 1) for program in programs]
    ends = [server.open() for server in servers]
    times = [[] for _ in programs]
    for _ in range(FRAMES):
        for (client, peer), found in zip(ends, times):
            begin = time.perf_counter()
            client.sendall(FRAME)
            assert peer.recv(16) == LINE
            found.append(time.perf_counter() - begin)
    for server, (client, peer) in zip(servers, ends):
        client.close()
        assert take_all(peer) == 0
        server.end()
    return times


def medians(run, programs):
    """The median time of each program, of rounds in which all run in turn."""
    times = [[] for _ in programs]
    for _ in range(ROUNDS):
        for program, found in zip(programs, times):
            found.append(run(program))
    return [statistics.median(found) for found in times]


def main():
    size = int(sys.argv[1] if len(sys.argv) > 1 else "200") * 1_000_000
    with tempfile.TemporaryDirectory() as folder:
        plain = os.path.join(folder, "serve")
        subprocess.run(["rustc", "-O", "-o", plain, os.path.join(HERE, "serve.rs")], check=True)
        programs = [RELAY, plain]
        for keys in ([], LARGE):
            for payload in (80, 1024, 60_000):
                relay, other = medians(lambda program: large_time(program, payload, size, keys), programs)
                name = f"one connection, payloads of {payload}{', large segments' if keys else ''}"
                print(f"{name}: {size / relay / 1e6:.0f} and {size / other / 1e6:.0f} MB a second, {other / relay:.2f}", flush=True)
        relay, other = medians(connections_time, programs)
        print(f"connections a second: {CONNECTIONS / relay:.0f} and {CONNECTIONS / other:.0f}, {other / relay:.2f}", flush=True)
        rounds = [way_times(programs) for _ in range(ROUNDS)]
        relay, other = (statistics.median([taken for times in rounds for taken in times[place]]) for place in (0, 1))
        print(f"a small frame's way: {relay * 1e6:.1f} and {other * 1e6:.1f} microseconds, {relay / other:.2f} of its time")


main()
