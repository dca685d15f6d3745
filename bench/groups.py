#!/usr/bin/env python3
"""Times MYRIGHTS and LIST over mailboxes with long access control lists, for users in many groups and in none.

    python3 bench/groups.py PROGRAM

PROGRAM is the program as `rt run` or `rt ci` leaves it, `crates/imapd/out/imapd`. Each time is of one command in
microseconds: the difference of a script with many of them and one with none, the best of five runs.
"""

import sys

from worlds import seconds

MAILBOXES = 100
COMMANDS = {"MYRIGHTS Shared/00000": 20_000, 'LIST "" Shared/*': 200}


def entries(count, groups):
    """A list of so many entries, root's and ann's among them; half of the others are of groups, of which ann is in
    the first ones."""
    lines = ["acl root lrswipkxtea", "acl ann l"]
    for number in range(count - 2):
        lines.append(f"acl group:g{number:03} r" if groups and number % 2 == 0 else f"acl user{number:03} r")
    return lines


def head(count, groups):
    lines = ["admin root", "user ann"]
    lines += [f"member g{2 * number:03} ann" for number in range(groups)]
    for number in range(MAILBOXES):
        lines += [f"mailbox Shared/{number:05}", *entries(count, True)]
    return [*lines, "ann.1 open"]


def microseconds(program, lines, command, count):
    steps = [f"ann.1 < a{number} {command}" for number in range(count)]
    return max(0.0, seconds(program, lines + steps) - seconds(program, lines)) / count * 1e6


def main():
    if len(sys.argv) != 2:
        raise SystemExit(__doc__)
    print("| Entries of a list | Groups of the user | `MYRIGHTS` | `LIST` of 100 mailboxes |\n|---|---|---|---|")
    for count in (2, 128):
        for groups in (0, 1, 10, 100):
            lines = head(count, groups)
            times = [microseconds(sys.argv[1], lines, command, number) for command, number in COMMANDS.items()]
            print(f"| {count} | {groups} | " + " | ".join(f"{it:.1f}" for it in times) + " |", flush=True)


main()
