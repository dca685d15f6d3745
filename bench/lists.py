#!/usr/bin/env python3
"""Times LIST over worlds of many mailboxes, and with patterns that a plain matcher takes long for.

    python3 bench/lists.py PROGRAM

PROGRAM is the program as `rt run` or `rt ci` leaves it, `crates/imapd/out/imapd`. Each time is of one command in
milliseconds: the difference of a script with a hundred of them and one with none, the best of five runs.
"""

import sys

from worlds import seconds

COMMANDS = 100
LONG = "a" * 240


def head(names, seen):
    """Mailboxes of which ann holds `l` on `seen`, spread among the others."""
    lines = ["admin root", "user ann"]
    every = max(1, len(names) // seen)
    for number, name in enumerate(names):
        lines.append(f"mailbox Shared/{name}")
        if number % every == 0 and number // every < seen:
            lines.append("acl ann l")
    return [*lines, "ann.1 open"]


def milliseconds(program, lines, command):
    steps = [f"ann.1 < a{number} {command}" for number in range(COMMANDS)]
    return max(0.0, seconds(program, lines + steps) - seconds(program, lines)) / COMMANDS * 1e3


def tell_sizes(program):
    print('| Mailboxes | Of which ann sees | `LIST "" *` | `LIST "" Shared/%` | `LIST (SUBSCRIBED) "" *` |\n|---|---|---|---|---|')
    for count in (1_000, 4_000, 16_000):
        names = [f"{number:05}" for number in range(count)]
        for seen in (10, count):
            lines = head(names, seen)
            times = [milliseconds(program, lines, f"LIST {rest}") for rest in ('"" *', '"" Shared/%', '(SUBSCRIBED) "" *')]
            print(f"| {count:,} | {seen:,} | " + " | ".join(f"{it:.3f}" for it in times) + " |", flush=True)


def tell_patterns(program):
    print("\n| Pattern, over 1,000 names of 245 octets | Time |\n|---|---|")
    lines = head([f"{number:05}{LONG}" for number in range(1_000)], 1_000)
    for shown, pattern in (
        ("`*`", "*"),
        ("`*a%`, 150 times `a`, `b`", "*a%" + "a" * 150 + "b"),
        ("`*`, 100 times `%a`, `b`", "*" + "%a" * 100 + "b"),
        ("8,000 times `%`, `b`", "%" * 8_000 + "b"),
        ("8,000 times `*`, `b`", "*" * 8_000 + "b"),
    ):
        print(f"| {shown} | {milliseconds(program, lines, f'LIST Shared/ {pattern}'):.3f} |", flush=True)


def main():
    if len(sys.argv) != 2:
        raise SystemExit(__doc__)
    tell_sizes(sys.argv[1])
    tell_patterns(sys.argv[1])


main()
