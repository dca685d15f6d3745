"""A server over sockets of this machine and its sessions: what `bench/server.py` and `bench/many.py` share."""

import contextlib
import socket
import statistics
import subprocess
import time

FIRST_PORT = 21_143
MESSAGE = b"x" * 2_046 + b"\r\n"


class Connection:
    """A connection to a port, with the octets that were read, of which those before a place were taken."""

    def __init__(self, port):
        self.socket = socket.create_connection(("127.0.0.1", port), timeout=600)
        self.socket.setsockopt(socket.IPPROTO_TCP, socket.TCP_NODELAY, 1)
        self.octets, self.place = b"", 0

    def fileno(self):
        return self.socket.fileno()

    def send(self, octets):
        self.socket.sendall(octets)

    def take_until(self, end):
        """All up to `end`, which is taken too."""
        found = self.octets.find(end, self.place)
        while found < 0:
            more = self.socket.recv(1 << 20)
            if not more:
                raise SystemExit(f"the server closed the connection: {self.octets[-200:]!r}")
            self.octets, self.place = self.octets[self.place :] + more, 0
            found = self.octets.find(end)
        taken = self.octets[self.place : found]
        self.place = found + len(end)
        return taken


class Session(Connection):
    """A session of the user at a port. The tag of its commands is `t`."""

    def __init__(self, port):
        super().__init__(port)
        self.take_until(b"ready\r\n")

    def begin(self, command):
        """Sends a command without its tag."""
        self.send(b"t " + command + b"\r\n")

    def end(self):
        """Takes the answer to a command, which has to be OK."""
        told = self.take_until(b"\r\n")
        while not told.startswith(b"t "):
            told = self.take_until(b"\r\n")
        if not told.startswith(b"t OK"):
            raise SystemExit(f"the server refused: {told!r}")

    def ask(self, command):
        self.begin(command)
        self.end()

    def begin_append(self, mailbox):
        self.begin(b"APPEND %s {%d+}\r\n%s" % (mailbox, len(MESSAGE), MESSAGE))

    def append(self, mailbox):
        """Appends a message of 2 KB."""
        self.begin_append(mailbox)
        self.end()


@contextlib.contextmanager
def serving(program, database, users=("ann",)):
    """Runs the server for these users, at the first port and those after it, and kills it at the end."""
    listen = [f"--listen={user}={FIRST_PORT + place}" for place, user in enumerate(users)]
    words = [program, "serve", "--db", database, "--admin", "root", *listen]
    server = subprocess.Popen(words, stdout=subprocess.PIPE)
    try:
        for _ in users:
            if not server.stdout.readline().startswith(b"listening"):
                raise SystemExit(f"the server ended with {server.wait()}")
        yield server
    finally:
        server.kill()
        server.wait()
        server.stdout.close()


def time_of(action):
    """The time of an action in microseconds."""
    start = time.perf_counter()
    action()
    return (time.perf_counter() - start) * 1e6


def median_of(rounds, action):
    """The median time of an action in microseconds."""
    return statistics.median(time_of(action) for _ in range(rounds))


def medians_beside(rounds, actions):
    """The median time of each action in microseconds. They take turns, each 300 times, as the machine's pace changes."""
    times = [[] for _ in actions]
    for _ in range(rounds // 300 + 1):
        for action, own in zip(actions, times):
            own += [time_of(action) for _ in range(300)]
    return [statistics.median(own) for own in times]


def resident(server, line="VmRSS"):
    """MiB of memory that the server has. With the line `VmHWM`, the most that it has had."""
    with open(f"/proc/{server.pid}/status", encoding="ascii") as file:
        return next(int(found.split()[1]) for found in file if found.startswith(line)) / 1024


def show(what, *microseconds):
    print(f"| {what} | " + " | ".join(f"{one:,.0f}" for one in microseconds) + " |", flush=True)
