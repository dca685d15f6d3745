#!/usr/bin/env python3
"""What the clock tells of mailboxes that a user doesn't see.

    python3 bench/clock.py PROGRAM [SAMPLES [MAILBOXES]]

PROGRAM is `crates/imapd/out/imapd`. Times are of the clock on the wall in microseconds at a socket file of the same
machine, the client's own time included: medians of 6,000 SAMPLES each, in random order. The first table is of commands of
bob on names of hidden mailboxes and on names that are absent. Beside their difference stands that of two halves of the
absent ones, drawn by lot: a difference below it says nothing. The answers have to be equal but for the name.

The second table is of commands of bob beside three servers, of which he sees the same. One has nothing else. One has
16,000 more MAILBOXES, half of them in Ann's tree, of whose lists none names him. One has 16,000 that `anyone` may read,
but for him.
"""

import contextlib
import os
import random
import re
import socket
import statistics
import subprocess
import sys
import tempfile
import time

SAMPLES = int(sys.argv[2]) if len(sys.argv) > 2 else 6_000
MANY = int(sys.argv[3]) if len(sys.argv) > 3 else 16_000
NAMES = 200
MESSAGE = b"Subject: hello\r\n\r\nhello\r\n"
USERS = ("root", "ann", "bob")

# `@` stands for the name
ON_NAMES = (
    "MYRIGHTS @", "STATUS @ (MESSAGES)", "SELECT @", "EXAMINE @", "GETACL @", "LISTRIGHTS @ ann", "SETACL @ ann lr",
    "DELETEACL @ ann", "DELETE @", "CREATE @", "RENAME @ Shared/New", "RENAME Own @", "SUBSCRIBE @", "UNSUBSCRIBE @",
    "APPEND @ {2+}\r\nhi", 'LIST "" @', 'LIST "" @/%', 'LIST (SUBSCRIBED) "" @',
)
BESIDE = (
    "NOOP", "STATUS Shared/seen3 (MESSAGES UNSEEN)", "MYRIGHTS Shared/seen3", "SELECT Shared/seen3", "MYRIGHTS Shared/absent",
    'LIST "" ""', 'LIST "" *', 'LIST "" %', 'LIST "" Shared', 'LIST "" Shared/%', 'LIST "" Shared/*', 'LIST "" Shared/hidden*',
    'LIST "Other Users/" %', 'LIST "" (INBOX Shared/%) RETURN (CHILDREN)', 'LIST "" * RETURN (SUBSCRIBED)',
    'LIST (SUBSCRIBED) "" *', 'LIST "" * RETURN (STATUS (MESSAGES UNSEEN))',
)


class Client:
    """A session of the user at a socket file. The tag of its commands is `t`."""

    def __init__(self, path):
        self.socket = socket.socket(socket.AF_UNIX)
        self.socket.settimeout(600)
        self.socket.connect(path)
        while not self.socket.recv(4096).endswith(b"\r\n"):
            pass

    def ask(self, octets):
        """The answer to a command with its tag, up to the line that ends it."""
        self.socket.sendall(octets)
        told = self.socket.recv(1 << 20)
        while not (told.endswith(b"\r\n") and told[:-2].rpartition(b"\r\n")[2].startswith(b"t ")):
            more = self.socket.recv(1 << 20)
            if not more:
                raise SystemExit(f"the server closed the connection: {told[-200:]!r}")
            told += more
        return told

    def make(self, *commands):
        """Makes commands that have to be answered OK, 100 at a time."""
        for first in range(0, len(commands), 100):
            some = commands[first : first + 100]
            self.socket.sendall(b"".join(b"t %s\r\n" % command for command in some))
            told = b""
            while len(re.findall(rb"(?m)^t .*\r$", told)) < len(some):
                told += self.socket.recv(1 << 20)
            refused = re.search(rb"(?m)^t (?!OK).*", told)
            if refused:
                raise SystemExit(f"the server refused: {refused[0]!r}")


@contextlib.contextmanager
def serving(program, folder):
    """Runs a server with a new store in the folder. Each user has a socket file there."""
    os.makedirs(folder)
    listen = [f"--listen={user}={folder}/{user}" for user in USERS]
    words = [program, "serve", "--db", f"{folder}/mail.db", "--admin", "root", *listen]
    server = subprocess.Popen(words, stdout=subprocess.PIPE)
    try:
        for _ in USERS:
            if not server.stdout.readline().startswith(b"listening"):
                raise SystemExit(f"the server ended with {server.wait()}")
        yield folder
    finally:
        server.kill()
        server.wait()
        server.stdout.close()


def put(mailbox):
    return b"APPEND %s {%d+}\r\n%s" % (mailbox, len(MESSAGE), MESSAGE)


def nanoseconds(client, octets):
    start = time.perf_counter_ns()
    client.ask(octets)
    return time.perf_counter_ns() - start


def median(times):
    return statistics.median(times) / 1e3


def spread(times):
    """The difference of the medians of two halves, drawn by lot."""
    drawn = random.sample(times, len(times))
    return median(drawn[::2]) - median(drawn[1::2])


def command_of(pattern, name):
    return b"t " + pattern.replace("@", name).encode() + b"\r\n"


def is_answered_alike(client, pattern, hidden, absent):
    """Whether both names are answered by the same octets, but for the name."""
    told = [client.ask(command_of(pattern, name)).replace(name.encode(), b"@") for name in (hidden, absent)]
    return told[0] == told[1]


def tell_names(program, folder):
    names = [f"Shared/m{number:03}" for number in range(NAMES)]
    with serving(program, f"{folder}/names") as at:
        root, bob = Client(f"{at}/root"), Client(f"{at}/bob")
        kinds = names[::2], names[1::2]
        for name in (name.encode() for name in kinds[0]):
            root.make(b"CREATE " + name, b"SETACL %s ann lrswi" % name, put(name))
        bob.make(b"CREATE Own")
        print("| Command | hidden | absent | difference | of two halves | answers |\n|---|---|---|---|---|---|")
        for pattern in ON_NAMES:
            order = [0, 1] * SAMPLES
            random.shuffle(order)
            times = [], []
            for kind in order:
                times[kind].append(nanoseconds(bob, command_of(pattern, random.choice(kinds[kind]))))
            is_alike = all(is_answered_alike(bob, pattern, *pair) for pair in zip(*kinds))
            shown = pattern.replace("\r\n", " ")
            hidden, absent = median(times[0]), median(times[1])
            print(f"| `{shown}` | {hidden:.2f} | {absent:.2f} | {hidden - absent:+.2f} | {abs(spread(times[1])):.2f} | "
                  f"{'equal' if is_alike else 'DIFFERENT'} |", flush=True)


def make_seen(at):
    """What bob sees of each store."""
    root, bob = Client(f"{at}/root"), Client(f"{at}/bob")
    for number in range(10):
        name = b"Shared/seen%d" % number
        root.make(b"CREATE " + name, b"SETACL %s bob lr" % name, put(name), put(name))
    bob.make(b"CREATE Own", b"SUBSCRIBE Own", b"SUBSCRIBE Shared/seen3")
    return bob


def hide_without_entries(at):
    Client(f"{at}/root").make(*(b"CREATE Shared/hidden%05d" % number for number in range(MANY // 2)))
    Client(f"{at}/ann").make(*(b"CREATE hidden%05d" % number for number in range(MANY // 2)))


def hide_by_entries(at):
    make = Client(f"{at}/root").make
    make(b"CREATE Shared/hidden", b"SETACL Shared/hidden anyone lr", b"SETACL Shared/hidden -bob lr")
    # each takes the list of the one above it
    make(*(b"CREATE Shared/hidden/%05d" % number for number in range(MANY - 1)))


def tell_beside(program, folder):
    with contextlib.ExitStack() as servers:
        clients = []
        for name, hide in (("none", lambda at: None), ("without", hide_without_entries), ("by", hide_by_entries)):
            at = servers.enter_context(serving(program, f"{folder}/{name}"))
            clients.append(make_seen(at))
            hide(at)
        print(f"\n| Command | nothing hidden | of two halves | {MANY:,} without an entry of his | difference | "
              f"{MANY:,} by `-bob` | difference | answers |\n|---|---|---|---|---|---|---|---|")
        for command in BESIDE:
            octets = command_of(command, "")
            told = [client.ask(octets) for client in clients]
            order = list(range(len(clients))) * SAMPLES
            random.shuffle(order)
            times = [[] for _ in clients]
            for place in order:
                times[place].append(nanoseconds(clients[place], octets))
            none, without, by = (median(own) for own in times)
            print(f"| `{command}` | {none:.2f} | {abs(spread(times[0])):.2f} | {without:.2f} | {without - none:+.2f} | "
                  f"{by:.2f} | {by - none:+.2f} | {'equal' if len(set(told)) == 1 else 'DIFFERENT'} |", flush=True)


def main():
    program = os.path.abspath(sys.argv[1])
    with tempfile.TemporaryDirectory() as folder:
        tell_names(program, folder)
        tell_beside(program, folder)


if __name__ == "__main__":
    main()
