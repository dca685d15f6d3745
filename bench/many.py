#!/usr/bin/env python3
"""Times the server with many sessions, and with many messages.

    python3 bench/many.py PROGRAM [PART]

PROGRAM is `crates/imapd/out/imapd`. Times are of the clock on the wall in microseconds, the client's own time included. Where
many sessions act at once, each sends its next command when the one before is answered, all from one loop of this program, and
the time is that of all commands by their number. The memory is what the server has resident.

For the turns of the journal python's sqlite3 fills a new store of the server with 100,000 messages of 2 KB in 1,000 mailboxes.
The server makes a new base of its journal after each 10,000 entries, so the longest of many NOOPs are those that a turn kept
waiting. Two sessions ask all the time: one of them turns the journal over and drops the old base, the other waits for the turn
alone. A base shares each mailbox until it changes, so the first STORE after a turn copies its mailbox. Sizes and rounds are
divided by PART, for a quick run.
"""

import select
import statistics
import sys
import tempfile
import time

import database
from sessions import FIRST_PORT, Session, median_of, resident, serving, show, time_of

PART = int(sys.argv[2]) if len(sys.argv) > 2 else 1
USERS = ("ann", "bob", "cat", "dan")
SEATS = 16
MAILBOXES, EACH = 1_000 // PART, 100
TURN = 10_000
CALLS = 100_000 // PART


def at_once(sessions, rounds, begin):
    """The time of one command in microseconds, where each session makes so many, and all are at work."""
    left = {session.fileno(): [session, rounds] for session in sessions}
    waits = select.epoll()
    start = time.perf_counter()
    for session in sessions:
        waits.register(session.fileno(), select.EPOLLIN)
        begin(session)
    while left:
        for number, _ in waits.poll():
            session, more = left[number]
            session.end()
            left[number][1] = more - 1
            if more > 1:
                begin(session)
            else:
                del left[number]
    waits.close()
    return (time.perf_counter() - start) / rounds / len(sessions) * 1e6


def noop(session):
    session.begin(b"NOOP")


def append(session):
    session.begin_append(b"INBOX")


def told(idling, writer, rounds):
    """The median time from an APPEND until all sessions that idle were told of it, and the longest, in microseconds."""
    times = []
    for session in idling:
        session.ask(b"SELECT Told")
        session.begin(b"IDLE")
        session.take_until(b"+ idling\r\n")
    for _ in range(rounds):
        time.sleep(0.1)
        start = time.perf_counter()
        writer.begin_append(b"Told")
        for session in idling:
            session.take_until(b"EXISTS\r\n")
        times.append(time.perf_counter() - start)
        writer.end()
    for session in idling:
        session.send(b"DONE\r\n")
        session.end()
    return statistics.median(times) * 1e6, max(times) * 1e6


def time_sessions(program, folder):
    with serving(program, f"{folder}/mail.db"):
        first, *others = sessions = [Session(FIRST_PORT) for _ in range(SEATS)]
        first.ask(b"CREATE Told")
        show("`NOOP`, one session", median_of(20_000 // PART, lambda: first.ask(b"NOOP")))
        show("`NOOP`, one session, by the loop of many", at_once([first], 20_000 // PART, noop))
        show(f"`NOOP`, {SEATS} sessions at once, each", at_once(sessions, 5_000 // PART, noop))
        show("`APPEND` of 2 KB, one session", at_once([first], 1_000 // PART, append))
        show("`APPEND` of 2 KB, 8 sessions at once, each", at_once(sessions[:8], 250 // PART, append))
        median, longest = told(others, first, 100 // PART)
        show(f"an `APPEND`, until {len(others)} sessions that idle were told", median)
        show("the longest of these", longest)


def show_memory(program, folder):
    """The memory of the server with all sessions of four users, and after many calls of theirs."""
    with serving(program, f"{folder}/mail.db", USERS) as server:
        alone = resident(server)
        sessions = [Session(FIRST_PORT + place) for place in range(len(USERS)) for _ in range(SEATS)]
        for session in sessions:
            session.ask(b"SELECT INBOX")
        begun = resident(server)
        rounds = CALLS // len(sessions) + 1
        at_once(sessions, rounds, noop)
        ended = resident(server)
        at_once(sessions, rounds, noop)
        print(f"\n{alone:.0f} MiB are resident at first, and {begun:.0f} with {len(sessions)} sessions. After {CALLS:,} calls")
        print(f"of theirs there are {ended:.0f}, and {resident(server):.0f} after as many again.", flush=True)


def waits_of(sessions, rounds):
    """When each of so many NOOPs of each session began, and when it was answered. Each session asks again at once."""
    waits = [[] for _ in sessions]
    begun = [time.perf_counter() for _ in sessions]
    for session in sessions:
        noop(session)
    while min(len(one) for one in waits) < rounds:
        ready, _, _ = select.select(sessions, [], [])
        for session in ready:
            place = sessions.index(session)
            session.end()
            waits[place].append((begun[place], time.perf_counter()))
            begun[place] = time.perf_counter()
            noop(session)
    for session in sessions:
        session.end()
    return waits


def beside(wait, others):
    """The longest of the other waits that lie in this one in part."""
    return max((end - begin for begin, end in others if begin < wait[1] and wait[0] < end), default=0.0)


def time_turns(program, folder):
    """How long a NOOP takes beside many messages, and how long those that a turn of the journal kept waiting."""
    path = f"{folder}/mail.db"
    with serving(program, path):
        pass
    database.fill(path, [EACH] * MAILBOXES)
    start = time.perf_counter()
    with serving(program, path) as server:
        started = time.perf_counter() - start
        sessions = [Session(FIRST_PORT), Session(FIRST_PORT)]
        begun, most = resident(server), resident(server, "VmHWM")
        first, second = waits_of(sessions, (3 * TURN + TURN // 2) // 2)
        lengths = [(end - begin) * 1e6 for begin, end in first + second]
        turns = [(wait, second) for wait in first] + [(wait, first) for wait in second]
        turns.sort(key=lambda turn: turn[0][0] - turn[0][1])
        print("\n| What | microseconds | of the other session meanwhile |\n|---|---|---|")
        what = f"`NOOP` of two sessions beside {MAILBOXES * EACH:,} messages in {MAILBOXES:,} mailboxes"
        print(f"| {what} | {statistics.median(lengths):,.0f} | |")
        for word, (wait, others) in zip(("longest", "second", "third", "fourth", "fifth", "sixth"), turns):
            show(f"the {word} of {len(lengths):,}", (wait[1] - wait[0]) * 1e6, beside(wait, others) * 1e6)
        ended = resident(server)
        print(f"\nThe server starts in {started:.1f} s. {begun:.0f} MiB are resident then, at most {most:.0f} were, and there are")
        print(f"{ended:.0f} after the calls.")


def time_first_changes(program, folder):
    """How long the first STORE after a turn of the journal takes, and how long the next one."""
    path = f"{folder}/mail.db"
    with serving(program, path):
        pass
    database.fill(path, [EACH, MAILBOXES * EACH])
    print("\n| What | microseconds | the next one |\n|---|---|---|")
    for name, size in ((b"Shared/Box", EACH), (b"Shared/2", MAILBOXES * EACH)):
        with serving(program, path):
            session = Session(FIRST_PORT)
            session.ask(b"SELECT " + name)
            times = []
            for _ in range(5):
                for _ in range(TURN):
                    session.ask(b"NOOP")
                changes = (b"STORE 1 +FLAGS (\\Flagged)", b"STORE 1 -FLAGS (\\Flagged)")
                times.append([time_of(lambda: session.ask(change)) for change in changes])
            medians = (statistics.median(one) for one in zip(*times))
            show(f"the first `STORE` after a turn, in a mailbox of {size:,} messages, median of 5", *medians)


def time_known_lists(program, folder):
    """How long a turn of the journal keeps a NOOP waiting while each session of a user has selected one mailbox of many messages."""
    path = f"{folder}/mail.db"
    with serving(program, path):
        pass
    database.fill(path, [MAILBOXES * EACH])
    with serving(program, path) as server:
        sessions = [Session(FIRST_PORT) for _ in range(SEATS)]
        begun = resident(server)
        for session in sessions:
            session.ask(b"SELECT Shared/Box")
        known = resident(server) - begun
        waits = waits_of(sessions[:2], (3 * TURN + TURN // 2) // 2)
        lengths = sorted((end - begin for one in waits for begin, end in one), reverse=True)
        print("\n| What | microseconds |\n|---|---|")
        show(f"the longest `NOOP` with {SEATS} sessions that have selected one mailbox of {MAILBOXES * EACH:,} messages", lengths[0] * 1e6)
        show("the fourth", lengths[3] * 1e6)
        print(f"\nThe {SEATS} sessions took {known:.0f} MiB when they selected it.", flush=True)


def main():
    program = sys.argv[1]
    print("| What | microseconds |\n|---|---|", flush=True)
    for measure in (time_sessions, show_memory, time_turns, time_first_changes, time_known_lists):
        with tempfile.TemporaryDirectory() as folder:
            measure(program, folder)


if __name__ == "__main__":
    main()
