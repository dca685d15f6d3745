#!/usr/bin/env python3
"""Times a start over stores of more and more mail, and says what memory the server has then.

    python3 bench/start.py PROGRAM [OCTETS ..]

PROGRAM is `crates/imapd/out/imapd`. `imapd load` brings messages of 75,000 octets, 100,000,000 octets and a thousand million
of them without numbers, from a Maildir. The files are in the memory of the system when the server starts.
"""

import os
import subprocess
import sys
import tempfile
import time

from sessions import resident, serving

EACH = 75_000
LINE = b"0123456789abcdef" * 4 + b"\r\n"


def fill(folder, octets):
    """A Maildir of the user's with messages of so many octets."""
    for part in ("cur", "new", "tmp"):
        os.makedirs(f"{folder}/Other Users/ann/INBOX/{part}")
    for number in range(octets // EACH):
        head = b"Subject: message %d\r\n\r\n" % number
        with open(f"{folder}/Other Users/ann/INBOX/cur/{number}.one.host:2,", "wb") as file:
            file.write(head + (LINE * (EACH // len(LINE) + 1))[: EACH - len(head) - 2] + b"\r\n")


def tell(program, octets):
    with tempfile.TemporaryDirectory() as folder:
        fill(f"{folder}/mail", octets)
        database = f"{folder}/mail.db"
        words = [program, "load", "--db", database, "--from", f"{folder}/mail", "--admin", "root"]
        subprocess.run(words, check=True, capture_output=True)
        start = time.perf_counter()
        with serving(program, database) as server:
            seconds = time.perf_counter() - start
            memory = resident(server) * (1 << 20) / octets
        print(f"| {octets / 1e9:.2f} | {seconds:.1f} | {seconds / (octets / 1e9):.1f} | {memory:.2f} |", flush=True)


def main():
    print("| GB of messages | seconds of the start | a GB | memory by the octets |\n|---|---|---|---|")
    for octets in [int(word) for word in sys.argv[2:]] or (100_000_000, 1_000_000_000):
        tell(os.path.abspath(sys.argv[1]), octets)


if __name__ == "__main__":
    main()
