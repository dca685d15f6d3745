#!/usr/bin/env python3
"""Times the server over sockets of this machine.

    python3 bench/server.py PROGRAM [PART]

PROGRAM is `crates/imapd/out/imapd`. It is started with a new database, and beside it `bench/echo.c`, which `cc` compiles. Times
are of the clock on the wall in microseconds, the median of many rounds; the client's own time is in all of them. Python's
sqlite3 then makes the same changes (`bench/database.py`), in a copy of the database that the server leaves. Rounds are divided
by PART, for a quick run.
"""

import os
import shutil
import statistics
import subprocess
import sys
import tempfile
import time

import database
from sessions import FIRST_PORT, Connection, Session, median_of, medians_beside, resident, serving, show

PART = int(sys.argv[2]) if len(sys.argv) > 2 else 1
ECHO_PORT = 21_142
MANY = 2_000 // PART


def echo(connection):
    connection.send(b"t NOOP\r\n")
    connection.take_until(b"\r\n")


def turn_flag(session, numbers):
    """Turns a flag of messages."""
    turn_flag.turn = not getattr(turn_flag, "turn", False)
    session.ask(b"STORE %s %sFLAGS.SILENT (\\Flagged)" % (numbers, b"+" if turn_flag.turn else b"-"))


def fill(session, mailbox, count):
    """Appends messages of 2 KB, one after another."""
    for _ in range(count):
        session.append(mailbox)


def expunge_all(session, count):
    """The median time in which all messages of the selected mailbox are expunged, of which there are so many each time."""
    times = []
    for _ in range(5):
        fill(session, b"Many", count)
        session.ask(b"NOOP")
        session.ask(b"STORE 1:* +FLAGS.SILENT (\\Deleted)")
        times.append(median_of(1, lambda: session.ask(b"EXPUNGE")))
    return statistics.median(times)


def fetch(session, numbers):
    """Fetches messages by one command each, all of which are sent before the first answer is read."""
    session.send(b"".join(b"t FETCH %d BODY.PEEK[]\r\n" % number for number in numbers))
    for _ in numbers:
        session.end()


def measure(server):
    first = Session(FIRST_PORT)
    echoed = Connection(ECHO_PORT)
    print("| What | microseconds |\n|---|---|")
    of_echo, of_noop = medians_beside(20_000 // PART, [lambda: echo(echoed), lambda: first.ask(b"NOOP")])
    show("an echo of 8 octets", of_echo)
    show("`NOOP`", of_noop)
    first.ask(b"CREATE Box")
    show("`APPEND` of 2 KB", median_of(1_000 // PART, lambda: first.append(b"Box")))
    fill(first, b"Box", 100)
    first.ask(b"SELECT Box")
    show("`STORE` of one flag", median_of(1_000 // PART, lambda: turn_flag(first, b"7")))
    show("`FETCH` of 2 KB", median_of(1_000 // PART, lambda: fetch(first, [7])))
    show("`FETCH` of 2 KB, 100 at once, each", median_of(50, lambda: fetch(first, range(1, 101))) / 100)
    first.ask(b"CREATE Many")
    first.ask(b"SELECT Many")
    fill(first, b"Many", MANY)
    first.ask(b"NOOP")
    show(f"`STORE 1:*` of {MANY:,} messages", median_of(21, lambda: turn_flag(first, b"1:*")))
    first.ask(b"STORE 1:* +FLAGS.SILENT (\\Deleted)")
    first.ask(b"EXPUNGE")
    show(f"`EXPUNGE` of {MANY:,} messages", expunge_all(first, MANY))
    fill(first, b"Many", MANY)
    before = resident(server)
    for _ in range(1_000 // PART):
        first.send(b"t NOOP\r\n" * 100)
        for _ in range(100):
            first.end()
    print(f"\n{before:.0f} MiB are resident, and {resident(server):.0f} after {100_000 // PART:,} calls.\n")


def time_changes(box, kind, many, rounds):
    """The median time of a change by python's sqlite3 in microseconds."""
    times = []
    for turn in range(rounds):
        statements = getattr(box, kind)(many, turn)
        times.append(median_of(1, lambda: box.make(statements)))
    return statistics.median(times)


def measure_database(folder):
    """Times the same changes by python's sqlite3, in a copy of the server's database."""
    for end in ("", "-wal"):
        if os.path.exists(f"{folder}/mail.db{end}"):
            shutil.copy(f"{folder}/mail.db{end}", f"{folder}/copy.db{end}")
    box = database.Box(database.connect(f"{folder}/copy.db"), "u/ann", "Many")
    for kind, what, many, rounds in (
        ("add", "a message of 2 KB added", 1, 1_000 // PART),
        ("flag", "a flag set", 1, 1_000 // PART),
        ("flag", f"flags of {MANY:,} messages set", MANY, 21),
        ("expunge", f"{MANY:,} messages removed", MANY, 1),
    ):
        show(f"{what}, by python's sqlite3", time_changes(box, kind, many, rounds))


def main():
    program = sys.argv[1]
    folder = os.path.dirname(os.path.abspath(__file__))
    with tempfile.TemporaryDirectory() as made:
        subprocess.run(["cc", "-O2", "-o", f"{made}/echo", f"{folder}/echo.c"], check=True)
        beside = subprocess.Popen([f"{made}/echo", str(ECHO_PORT)])
        try:
            time.sleep(0.2)
            with serving(program, f"{made}/mail.db") as server:
                measure(server)
        finally:
            beside.kill()
            beside.wait()
        measure_database(made)


if __name__ == "__main__":
    main()
