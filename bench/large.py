#!/usr/bin/env python3
"""Times large values over a socket: messages of 1 MB in and out, and lists of 1,000 names and 2,000 flags.

    python3 bench/large.py PROGRAM                        PROGRAM is crates/imapd/out/imapd
    python3 bench/large.py --beside PORT USER SECRET      another server at this port of 127.0.0.1, with a login

The times are on the wall, in milliseconds, with the client's own in them: the median of the turns. The client reads into a
buffer, and looks at the end of what it read alone. A message has lines of 72 octets.
"""

import os
import socket
import statistics
import subprocess
import sys
import tempfile
import time

PORT = 21_166
MEGABYTE = 1 << 20
MESSAGES, TURNS, NAMES, FLAGGED = 20, 9, 1_000, 2_000


class Client:
    """A session. `ask` returns the seconds that a command took."""

    def __init__(self, port, login):
        self.socket = socket.create_connection(("127.0.0.1", port))
        self.socket.setsockopt(socket.IPPROTO_TCP, socket.TCP_NODELAY, 1)
        self.buffer, self.number = bytearray(1 << 18), 0
        self.socket.recv_into(self.buffer)
        for command in login:
            self.ask(command)

    def ask(self, command, literal=b"", wants=b"OK"):
        self.number += 1
        tag = b"t%d " % self.number
        start = time.perf_counter()
        self.socket.sendall(tag + command + (b" {%d}\r\n" % len(literal) if literal else b"\r\n"))
        if literal:
            read = self.socket.recv_into(self.buffer)
            if not self.buffer.startswith(b"+") or self.buffer[read - 2 : read] != b"\r\n":
                sys.exit(f"{command}: {bytes(self.buffer[:read])}")
            self.socket.sendall(literal)
            self.socket.sendall(b"\r\n")
        tail = b""
        while True:
            read = self.socket.recv_into(self.buffer)
            if not read:
                sys.exit(f"{command}: the server left")
            tail = (tail + self.buffer[max(0, read - 512) : read])[-512:]
            if tail.endswith(b"\r\n") and tail[:-2].rpartition(b"\r\n")[2].startswith(tag):
                break
        took = time.perf_counter() - start
        if not tail[:-2].rpartition(b"\r\n")[2].startswith(tag + wants):
            sys.exit(f"{command}: {tail[-100:]}")
        return took


def row(what, times, each=1):
    print(f"| {what} | {statistics.median(times) / each * 1e3:.2f} |", flush=True)


def tell(port, login):
    client = Client(port, login)
    message = (b"Subject: large\r\n\r\n" + (b"x" * 70 + b"\r\n") * (MEGABYTE // 72 + 1))[:MEGABYTE - 2] + b"\r\n"
    client.ask(b"CREATE large")
    client.ask(b"CREATE small")
    print("| What | milliseconds |\n|---|---|")
    row("`NOOP`", [client.ask(b"NOOP") for _ in range(99)])
    row("`APPEND` of 1 MB", [client.ask(b"APPEND large", message) for _ in range(MESSAGES)])
    client.ask(b"SELECT large")
    row("`FETCH 1:*` of messages of 1 MB, each", [client.ask(b"FETCH 1:* BODY.PEEK[]") for _ in range(TURNS)], MESSAGES)
    row("`FETCH` of one", [client.ask(b"FETCH 1 BODY.PEEK[]") for _ in range(TURNS * 3)])
    for number in range(NAMES):
        client.ask(b"CREATE names/%d" % number)
    row(f"`LIST` of {NAMES:,} names", [client.ask(b'LIST "" names/*') for _ in range(TURNS * 3)])
    for _ in range(FLAGGED):
        client.ask(b"APPEND small", b"Subject: small\r\n\r\n" + b"x" * 2_000 + b"\r\n")
    client.ask(b"SELECT small")
    signs = (b"+", b"-")
    row(f"`STORE 1:*` of {FLAGGED:,} messages",
        [client.ask(b"STORE 1:* %sFLAGS.SILENT (\\Flagged)" % signs[turn % 2]) for turn in range(TURNS)])


def main():
    if sys.argv[1] == "--beside":
        port, user, secret = sys.argv[2:5]
        tell(int(port), [f"LOGIN {user} {secret}".encode()])
        return
    with tempfile.TemporaryDirectory() as folder:
        words = [os.path.abspath(sys.argv[1]), "serve", "--db", f"{folder}/mail.db", "--admin", "root"]
        server = subprocess.Popen([*words, "--listen", f"ann={PORT}"], stdout=subprocess.PIPE, stderr=subprocess.DEVNULL)
        try:
            server.stdout.readline()
            tell(PORT, [])
        finally:
            server.kill()
            server.wait()


main()
