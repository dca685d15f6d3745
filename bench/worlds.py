#!/usr/bin/env python3
"""Times the program on worlds of many mailboxes and of many users.

    python3 bench/worlds.py PROGRAM

PROGRAM is the program as `rt run` or `rt ci` leaves it, `crates/imapd/out/imapd`. Each row is a script whose head makes
so many mailboxes, each with an entry of its list, or so many users. The first time is of the head alone, the second of
the head and 10,000 commands `MYRIGHTS`, each of another mailbox, and the third of 10,000 commands `SUBSCRIBE` and
`UNSUBSCRIBE` of one name after another. Each is the best of five runs, in seconds.
"""

import os
import subprocess
import sys
import tempfile
import time

COMMANDS = 10_000
RUNS = 5


def mailbox(number):
    return f"Shared/{number % 100}/{number // 100}" if number >= 100 else f"Shared/{number}"


def of_mailboxes(count):
    lines = ["admin root", "user ann"]
    for number in range(count):
        lines += [f"mailbox {mailbox(number)}", "acl ann lrk"]
    return lines


def of_users(count):
    return ["admin root", "user ann", *(f"user user{number}" for number in range(count))]


def commands(kind, count):
    lines = ["ann.1 open"]
    for number in range(COMMANDS):
        # A step through the mailboxes that is prime to their number.
        place = (number if kind == "rights" else number // 2) * 7919
        name = mailbox(place % count) if count else "INBOX"
        word = "MYRIGHTS" if kind == "rights" else ("SUBSCRIBE", "UNSUBSCRIBE")[number % 2]
        lines.append(f"ann.1 < a{number} {word} {name}")
    return lines


def seconds(program, lines):
    with tempfile.TemporaryDirectory() as folder:
        name = os.path.join(folder, "script")
        with open(name, "w", encoding="ascii") as script:
            script.write("\n".join(lines) + "\n")
        best = float("inf")
        for _ in range(RUNS):
            with open(name, "rb") as script, open(os.path.join(folder, "told"), "wb") as told:
                start = time.perf_counter()
                subprocess.run([program, "script"], stdin=script, stdout=told, check=True)
                best = min(best, time.perf_counter() - start)
        return best


def main():
    if len(sys.argv) != 2:
        raise SystemExit(__doc__)
    print("| World | Head | And 10,000 MYRIGHTS | And 10,000 of SUBSCRIBE and UNSUBSCRIBE |\n|---|---|---|---|")
    for word, sizes, head in (
        ("mailboxes", (100, 1_000, 10_000), of_mailboxes),
        ("users", (100, 1_000, 10_000), of_users),
    ):
        for size in sizes:
            lines = head(size)
            count = size if word == "mailboxes" else 0
            times = [seconds(sys.argv[1], lines + more) for more in ([], commands("rights", count), commands("names", count))]
            print(f"| {size:,} {word} | " + " | ".join(f"{it:.3f}" for it in times) + " |", flush=True)


if __name__ == "__main__":
    main()
