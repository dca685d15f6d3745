#!/usr/bin/env python3
"""Times the store in a file, beside python's sqlite3.

    python3 bench/store.py [FOLDER [PART [FIRST]]]     run at the top of the repository

It builds the program in `bench/store.txt` as a crate of its own in FOLDER, or in a new folder that it removes, beside copies of
the crates that it stands on; what these have in `out/` is used again. Each store is made by the program, filled by python's
sqlite3 (`bench/database.py`) and loaded by the program, and python's sqlite3 then makes the same changes in a copy of it, and
in one of the first version, whose table of messages had their octets too. FIRST is such a program as it was built over the crates
of the first version (`git checkout 0b59b1b4`); it makes the same changes in a store of its own.
Messages have 2 KB, and the user has seen each once. All sizes are divided by PART, for a quick run.

Times are of the process's own processor time, as the kernel counts it, and of the clock on the wall, which has the waits for
the disk. Those of a change are the mean of all of one kind. The memory of a load is the most that the process has had.
"""

import os
import shutil
import subprocess
import sys
import tempfile
import time

import database
from messages import run

USES = "imap_batch imap_keeper imap_lex imap_mailbox imap_names imap_sql_keeper imap_syntax imap_world sqlite"
PART = int(sys.argv[2]) if len(sys.argv) > 2 else 1
FIRST = os.path.abspath(sys.argv[3]) if len(sys.argv) > 3 else None
SIZES = (200, 20_000, 100_000)
MANY = 2_000
MICROSECONDS, MILLISECONDS = 1e6, 1e3
COLUMNS = ("the store", "python", "ratio", "first version: the store", "python", "on the wall: the store", "python",
           "first version: the store", "python")
KINDS = (("add", "a message added"), ("flag", "a flag set"), ("seen", "an own `\\Seen` set"))


class Store:
    """The program over a file. `ask` returns processor time and time on the wall of one line, in seconds."""

    def __init__(self, program, path):
        self.process = subprocess.Popen([program], stdin=subprocess.PIPE, stdout=subprocess.PIPE, text=True, bufsize=1)
        self.opened = self.ask(path)
        self.loaded = self.ask("load")

    def processor_time(self):
        # The clock of another process (clock_getcpuclockid).
        return time.clock_gettime(~self.process.pid << 3 | 2)

    def ask(self, line):
        processor, start = self.processor_time(), time.perf_counter()
        self.process.stdin.write(line + "\n")
        if not self.process.stdout.readline():
            raise SystemExit(f"{line}: the program ended with {self.process.wait()}")
        return self.processor_time() - processor, time.perf_counter() - start

    def most_memory(self):
        """The most octets of memory that the program has had so far. (What `wait4` tells also has those of python.)"""
        with open(f"/proc/{self.process.pid}/status", encoding="ascii") as file:
            (kilobytes,) = [line.split()[1] for line in file if line.startswith("VmHWM:")]
        return int(kilobytes) * 1024

    def close(self):
        """Ends the program."""
        self.process.stdin.close()
        status = self.process.wait()
        if status:
            raise SystemExit(f"the program ended with {status}")
        self.process.stdout.close()


def close(*stores):
    for store in stores:
        if store:
            store.close()


def row(*cells):
    print("| " + " | ".join(cells) + " |", flush=True)


def head(*cells):
    print()
    row(*cells)
    row(*["---"] * len(cells))


def made(program, folder, sizes):
    """The paths of a new store whose mailboxes have so many messages, of its copy, of one of the first version for python, and
    of one that the program of the first version made."""
    path, copy, first, older = (f"{folder}/{name}.db" for name in ("mail", "copy", "first", "older"))
    for name in os.listdir(folder):
        os.remove(f"{folder}/{name}")
    Store(program, path).close()
    database.fill(path, sizes)
    shutil.copy(path, copy)
    shutil.copy(path, first)
    database.to_first_version(first)
    if FIRST:
        Store(FIRST, older).close()
        database.fill(older, sizes, database.FirstBox)
    return path, copy, first, older


def beside(path, box_of, kind, many, times):
    """Processor time and time on the wall of changes by python's sqlite3, in seconds."""
    box = box_of(database.connect(path), "s", "Box")
    processor = wall = 0.0
    for turn in range(times):
        statements = getattr(box, kind)(many, turn)
        before, start = time.process_time(), time.perf_counter()
        box.make(statements)
        processor += time.process_time() - before
        wall += time.perf_counter() - start
    box.database.close()
    return processor, wall


def changes(store, older, copy, first, what, kind, many, times, unit):
    """A row of one kind of change: of the store, of python's sqlite3, their ratio, and of both in the first version. `older` is
    None without a program of the first version."""
    own = store.ask(f"{kind} {many} {times}")
    before = older.ask(f"{kind} {many} {times}") if older else None
    other = beside(copy, database.Box, kind, many, times)
    others = beside(first, database.FirstBox, kind, many, times)
    digits = 0 if unit == MICROSECONDS else 1
    cells = [[f"{took[at] / times * unit:,.{digits}f}" if took else "" for took in (own, other, before, others)] for at in (0, 1)]
    row(*what, *cells[0][:2], f"{own[0] / other[0]:.2f}", *cells[0][2:], *cells[1])


def check_alike(path, copy):
    """The store and the copy have to have the same rows, but for the dates of messages."""
    for table in ("mailbox", "gone", "mark", "acl", "epoch", "message2", "body", "keyword"):
        if database.rows_of(path, table) != database.rows_of(copy, table):
            raise SystemExit(f"other rows of {table}")


def time_single(program, folder):
    head("Messages", "microseconds of", *COLUMNS)
    for size in SIZES:
        path, copy, first, older = made(program, folder, [size // PART])
        store, before = Store(program, path), Store(FIRST, older) if FIRST else None
        for kind, what in KINDS:
            changes(store, before, copy, first, (f"{size // PART:,}", what), kind, 1, 1_000 // PART, MICROSECONDS)
        close(store, before)
        check_alike(path, copy)


def time_batches(program, folder):
    many = MANY // PART
    head("Messages", "milliseconds of", *COLUMNS)
    path, copy, first, older = made(program, folder, [12 * many])
    store, before = Store(program, path), Store(FIRST, older) if FIRST else None
    for kind, what, count, times in (
        ("add", f"{many:,} messages added", many, 5),
        ("flag", f"flags of {many:,} messages set", many, 10),
        ("seen", f"own `\\Seen` of {many:,} messages set", many, 10),
        ("expunge", f"{many:,} messages expunged", many, 5),
        ("delete", "DELETE of the mailbox", 1, 1),
    ):
        changes(store, before, copy, first, (f"{12 * many:,}", what), kind, count, times, MILLISECONDS)
    close(store, before)
    check_alike(path, copy)


def time_loads(program, folder):
    head("Mailboxes", "Messages", "seconds of open", "of load", "both on the wall", "MB of messages", "most MB", "ratio")
    for sizes in ([200], [20_000], [100_000], [100] * 1_000, [0] * 10_000):
        sizes = [size // PART for size in sizes] if len(sizes) == 1 else sizes[::PART]
        path, *_ = made(program, folder, sizes)
        store = Store(program, path)
        times = (store.opened[0], store.loaded[0], store.opened[1] + store.loaded[1])
        octets, memory = sum(sizes) * database.OCTETS, store.most_memory()
        store.close()
        ratio = f"{memory / octets:.2f}" if octets else ""
        cells = (*(f"{time:.3f}" for time in times), f"{octets / 1e6:.1f}", f"{memory / 1e6:.1f}", ratio)
        row(f"{len(sizes):,}", f"{sum(sizes):,}", *cells)


def tell(program):
    program = os.path.abspath(program)
    for table in (time_single, time_batches, time_loads):
        with tempfile.TemporaryDirectory() as folder:
            table(program, folder)


if __name__ == "__main__":
    run(tell, "bench/store.txt", USES)
