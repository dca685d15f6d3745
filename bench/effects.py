#!/usr/bin/env python3
"""Times changes of the messages of a world, CREATE, and copies of a world.

    python3 bench/effects.py [FOLDER]      run at the top of the repository

It builds the program in `bench/effects.txt` as a crate of its own in FOLDER, or in a new folder that it removes, beside copies
of the crates that it stands on; what these have in `out/` is used again. Each time is of one change in microseconds, the
making of what is asked included: the difference of a run that makes it many times and one that makes it never, the best of
five. The octets of a copy are the difference of the most memory that a run had with a copy and without.
"""

import os
import subprocess

from messages import microseconds, run

USES = "imap_batch imap_lex imap_mailbox imap_names imap_rights imap_syntax imap_world"
KINDS = ("add", "flag", "seen", "expunge", "two")
SIZES = (200, 2_000, 20_000)


def row(cells):
    print("| " + " | ".join(cells) + " |", flush=True)


def most_memory(program, line):
    """The most octets of memory that the program has with this line as its input."""
    process = subprocess.Popen([program], stdin=subprocess.PIPE, stdout=subprocess.DEVNULL, text=True)
    process.stdin.write(line)
    process.stdin.close()
    _, status, usage = os.wait4(process.pid, 0)
    if status:
        raise SystemExit(f"{line}: {status}")
    return usage.ru_maxrss * 1024


def time_changes(program):
    row(("Mailboxes", "Messages", "Of which", "added", "flags set", "own Seen set", "added and expunged", "flags set in two mailboxes"))
    row(["---"] * 8)
    for mailboxes, sizes in ((100, SIZES), (1_000, (2_000,)), (10_000, SIZES)):
        for size in sizes:
            for many, times in ((1, 50_000), (size // 10, 1_000_000 // size)):
                if many > 1 and mailboxes > 1_000:
                    continue  # Making the mailboxes takes longer than the changes.
                took = [microseconds(program, f"{kind} {mailboxes} {size} {many}", times) for kind in KINDS]
                row([f"{mailboxes:,}", f"{size:,}", f"{many:,}", *(f"{one:.2f}" for one in took)])


def time_create(program):
    row(("Mailboxes", "CREATE of 1,000 more"))
    row(["---"] * 2)
    for mailboxes in (100, 1_000, 9_000):
        row((f"{mailboxes:,}", f"{microseconds(program, f'create {mailboxes} 0 0', 1_000):.2f}"))


def time_copies(program):
    row(("Mailboxes", "Messages of each", "copy", "octets of a copy"))
    row(["---"] * 4)
    for mailboxes, size in ((100, 100), (1_000, 100), (1_000, 1)):
        line = f"copy {mailboxes} {size} 0"
        octets = most_memory(program, f"{line} 1") - most_memory(program, f"{line} 0")
        row((f"{mailboxes:,}", f"{size:,}", f"{microseconds(program, line, 20):,.0f}", f"{octets:,}"))


def tell(program):
    for table in (time_changes, time_create, time_copies):
        table(program)
        print()


run(tell, "bench/effects.txt", USES)
