#!/usr/bin/env python3
"""Times commands that change the tree of mailboxes.

    python3 bench/trees.py PROGRAM

PROGRAM is the program as `rt run` or `rt ci` leaves it, `crates/imapd/out/imapd`. Each row is a script whose head makes
so many mailboxes, and whose steps are commands of one kind, each of another mailbox. Each time is of one command in
microseconds: the difference of the script and its head alone, each the best of five runs.

The second table is of RENAME: one mailbox with all below it moves to and fro, between the first name of the tree and
the last one, so that it passes all other mailboxes each time.
"""

import sys

from worlds import mailbox, seconds

FIRST, LAST = "Shared/!", "Shared/~"
RENAMES = 1_000


def head(names):
    lines = ["admin root", "user ann"]
    for name in names:
        lines += [f"mailbox {name}", "acl root lrswipkxtea"]
    return [*lines, "root.1 open"]


def microseconds(program, names, commands):
    lines = head(names)
    steps = [f"root.1 < r{number} {command}" for number, command in enumerate(commands)]
    return (seconds(program, lines + steps) - seconds(program, lines)) / len(steps) * 1e6


def time_changes(program):
    print("| Mailboxes | CREATE of the last | SETACL | DELETE of the last |\n|---|---|---|---|")
    for start, count in ((100, 1_000), (9_000, 10_000)):
        names = [mailbox(number) for number in range(count)]
        created = [f"CREATE {name}" for name in names[start:]]
        changed = [f"SETACL {names[number % count]} ann {'lr'[number % 2]}" for number in range(10_000)]
        deleted = [f"DELETE {name}" for name in reversed(names[start:])]
        times = (
            microseconds(program, names[:start], created),
            microseconds(program, names, changed),
            microseconds(program, names, deleted),
        )
        print(f"| {count:,} | {count - start:,}: {times[0]:.1f} | {times[1]:.1f} | {times[2]:.1f} |", flush=True)


def time_renames(program):
    print("| Mailboxes | Of which are renamed | RENAME |\n|---|---|---|")
    for count in (10, 1_000):
        names = [mailbox(number) for number in range(10_000 - count)]
        names += [FIRST, *(f"{FIRST}/{number}" for number in range(count - 1))]
        renamed = [f"RENAME {FIRST} {LAST}", f"RENAME {LAST} {FIRST}"] * (RENAMES // 2)
        print(f"| 10,000 | {count:,} | {microseconds(program, names, renamed):.0f} |", flush=True)


def main():
    if len(sys.argv) != 2:
        raise SystemExit(__doc__)
    time_changes(sys.argv[1])
    print()
    time_renames(sys.argv[1])


if __name__ == "__main__":
    main()
