#!/usr/bin/env python3
"""Times the program on scripts that send many octets, and prints how many it takes a second.

    python3 bench/octets.py PROGRAM [KIND SIZE PIECE]

PROGRAM is the program as `rt run` or `rt ci` leaves it, `crates/imapd/out/imapd`. KIND is `noop` (SIZE short commands),
`set` (SIZE commands, each with a set of 2,000 numbers) or `append` (one message of SIZE octets); the octets are sent in
pieces of PIECE octets. Without them each kind is run at three sizes, in large pieces and one octet at a time.

A script holds octets as hexadecimal digits, and reading these takes longer than all else. So each script is run twice:
with the session open, and with it not open, where the octets are read from the script and go nowhere. The difference is
what framer, parser, machine and printer take; a rate is printed where it is a tenth of the time or more. Each time is
the best of nine runs, in seconds.
"""

import os
import subprocess
import sys
import tempfile
import time

NUMBERS = ",".join(["7"] * 2000)
RUNS = 9
LARGE = 65536
ROWS = [
    *(("noop", size, piece) for piece in (LARGE, 1) for size in (25_000, 50_000, 100_000)),
    *(("set", size, piece) for piece in (LARGE, 1) for size in (100, 200, 400)),
    *(("append", size << 20, LARGE) for size in (8, 16, 32)),
    *(("append", size << 20, 1) for size in (1, 2, 4)),
]


def sent_by(kind, size):
    if kind == "noop":
        return b"".join(b"a%d NOOP\r\n" % number for number in range(size))
    if kind == "set":
        return b"a FETCH %s FLAGS\r\n" % NUMBERS.encode() * size
    if kind == "append":
        message = (b"Subject: x\r\n\r\n" + b"0123456789abcdef" * (size // 16 + 1))[:size]
        return b"a APPEND INBOX {%d}\r\n" % size + message + b"\r\n"
    raise SystemExit(__doc__)


def write_script(script, sent, piece, opens):
    script.write(b"admin root\nuser ann\n" + b"ann.1 open\n" * opens)
    for start in range(0, len(sent), piece):
        script.write(b"ann.1 raw %s\n" % sent[start : start + piece].hex().encode())


def seconds(program, sent, piece, opens):
    with tempfile.TemporaryDirectory() as folder:
        name = os.path.join(folder, "script")
        with open(name, "wb") as script:
            write_script(script, sent, piece, opens)
        best = float("inf")
        for _ in range(RUNS):
            with open(name, "rb") as script, open(os.path.join(folder, "told"), "wb") as told:
                start = time.perf_counter()
                subprocess.run([program, "script"], stdin=script, stdout=told, check=True)
                best = min(best, time.perf_counter() - start)
        return best


def main():
    if len(sys.argv) not in (2, 5):
        raise SystemExit(__doc__)
    rows = [(sys.argv[2], int(sys.argv[3]), int(sys.argv[4]))] if len(sys.argv) == 5 else ROWS
    print("| Kind | Size | Piece | Octets | Open | Not open | MB a second |\n|---|---|---|---|---|---|---|")
    for kind, size, piece in rows:
        sent = sent_by(kind, size)
        opened, closed = (seconds(sys.argv[1], sent, piece, opens) for opens in (True, False))
        taken = opened - closed
        rate = f"{len(sent) / 1e6 / taken:.0f}" if 10 * taken >= opened else ""
        print(f"| {kind} | {size:,} | {piece:,} | {len(sent):,} | {opened:.3f} | {closed:.3f} | {rate} |", flush=True)


main()
