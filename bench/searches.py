#!/usr/bin/env python3
"""Times SEARCH of one key that reads no text, without a wire and without a store.

    python3 bench/searches.py [FOLDER]     run at the top of the repository

It builds the program in `bench/searches.txt` as a crate of its own in FOLDER, or in a new folder that it removes, beside copies
of the crates that it stands on; what these have in `out/` is used again. Each time is of one search in nanoseconds a message: the
difference of a run that makes it many times and one that makes it never, the best of five.
"""

from messages import microseconds, run

USES = "imap_answer imap_batch imap_lex imap_mailbox imap_names imap_query imap_rights imap_search imap_session imap_syntax imap_view imap_world"
KEYS = {
    "flagged": "`FLAGGED`, none found", "unseen": "`UNSEEN`, none found", "seen": "`SEEN`, all found", "larger": "`LARGER`, all found",
    "smaller": "`SMALLER`, none found", "since": "`SINCE`, all found", "before": "`BEFORE`, none found",
}
SIZES = (200, 2_000, 20_000)


def tell(program):
    print("| Key | " + " | ".join(f"{size:,} messages" for size in SIZES) + " |\n|---|" + "---|" * len(SIZES), flush=True)
    for key, words in KEYS.items():
        took = [microseconds(program, f"{key} {size}", 4_000_000 // size) / size * 1_000 for size in SIZES]
        print(f"| {words} | " + " | ".join(f"{one:.1f}" for one in took) + " |", flush=True)


if __name__ == "__main__":
    run(tell, "bench/searches.txt", USES)
