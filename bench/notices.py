#!/usr/bin/env python3
"""Times what a session is told of another one's changes, by the messages of the mailbox.

    python3 bench/notices.py PROGRAM

PROGRAM is the program as `rt run` or `rt ci` leaves it, `crates/imapd/out/imapd`. One session changes flags, and another one
sends NOOP after each change. Each time is in microseconds of processor time: what a change and a NOOP take if the other session
has selected the mailbox, less what they take if it has selected an empty one. The least of five runs each, of which the head
alone is taken off. Messages have an octet; half of the mailboxes have an own `\\Seen` of the user for each of them.
"""

import sys

from commands import seconds, sign

SIZES = (200, 2_000, 20_000, 100_000)
ROUNDS = {0: 20_000, 1: 4_000, 40: 400}
ITEMS = "MESSAGES UIDNEXT UIDVALIDITY UNSEEN DELETED SIZE HIGHESTMODSEQ"


def head(count, flags, other):
    """An INBOX with so many messages, selected, and another session that has selected a mailbox."""
    lines = ["admin root", "user ann", "limit max_messages 100000", "ann.1 open"]
    for number in range(count):
        lines += [f"ann.1 < p{number} APPEND INBOX {flags}{{1+}}", "ann.1 < x"]
    return [*lines, "ann.1 < c CREATE Box", "ann.1 < s SELECT INBOX", "ann.2 open", f"ann.2 < s SELECT {other}"]


def round_of(count, changed, number):
    """A change of so many messages that lie apart, of none if there are none, and the other session's NOOP."""
    if changed:
        numbers = ",".join(str(1 + place * count // changed) for place in range(changed))
        yield f"ann.1 < a{number} STORE {numbers} {sign(number)}FLAGS.SILENT (\\Flagged)"
    yield f"ann.2 < n{number} NOOP"


def rounds(program, lines, count, changed):
    """What a round takes."""
    steps = [line for number in range(ROUNDS[changed]) for line in round_of(count, changed, number)]
    return (seconds(program, lines + steps) - seconds(program, lines)) / ROUNDS[changed] * 1e6


def told(program, count, flags, changed):
    return rounds(program, head(count, flags, "INBOX"), count, changed) - rounds(program, head(count, flags, "Box"), count, changed)


def status(program, count):
    lines = head(count, "", "Box")
    steps = [f"ann.2 < t{number} STATUS INBOX ({ITEMS})" for number in range(400)]
    return (seconds(program, lines + steps) - seconds(program, lines)) / 400 * 1e6


def main():
    if len(sys.argv) != 2:
        raise SystemExit(__doc__)
    program = sys.argv[1]
    print("| What | " + " | ".join(f"{count:,} messages" for count in SIZES) + " |\n|---|" + "---|" * len(SIZES), flush=True)
    for flags, words in (("", ""), ("(\\Seen) ", ", all seen by the user")):
        for changed, name in ((0, "`NOOP` with nothing new"), (1, "one flag"), (40, "flags of 40 messages")):
            times = [told(program, count, flags, changed) for count in SIZES]
            print(f"| {name}{words} | " + " | ".join(f"{it:,.1f}" for it in times) + " |", flush=True)
    print("| `STATUS` with all items | " + " | ".join(f"{status(program, count):,.1f}" for count in SIZES) + " |", flush=True)


main()
