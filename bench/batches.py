#!/usr/bin/env python3
"""Times batches of one mailbox: what is asked is found, room is made, and it is written.

    python3 bench/batches.py [FOLDER]      run at the top of the repository

It builds the program in `bench/batches.txt` as a crate of its own in FOLDER, or in a new folder that it removes, beside copies of
the crates that it stands on; what these have in `out/` is used again. Each time is of one batch in microseconds, the making of
its value included: the difference of a run that makes it many times and one that makes it never, the best of five.
"""

from messages import microseconds, run

USES = "imap_batch imap_lex imap_mailbox imap_names imap_syntax"


def tell(program):
    kinds = ("add", "flag", "seen", "expunge")
    print("| Messages | Of which | added | flags set | own Seen set | added, and as many expunged |\n|---|---|---|---|---|---|")
    for size in (200, 2_000, 20_000):
        for many, times in ((1, 20_000), (size // 10, 200_000 // size)):
            took = [microseconds(program, f"{kind} {size} {many}", times) for kind in kinds]
            print(f"| {size:,} | {many:,} | " + " | ".join(f"{one:.2f}" for one in took) + " |", flush=True)


run(tell, "bench/batches.txt", USES)
