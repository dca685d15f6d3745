#!/usr/bin/env python3
"""Times the calls of one mailbox, and the search of a text.

    python3 bench/messages.py [FOLDER]     run at the top of the repository

It builds the program in `bench/messages.txt` as a crate of its own in FOLDER, or in a new folder that it removes, beside copies of
the crates that it stands on; what these have in `out/` is used again. Each time is of one call in microseconds: the
difference of a run that makes it many times and one that makes it never, the best of five.
"""

import os
import shutil
import subprocess
import sys
import tempfile
import time

USES = "imap_lex imap_mailbox imap_syntax imap_text"
RUNS = 5


def below(names):
    """The lines of `crates.txt` of these crates of the repository, and of those on which they stand."""
    with open("crates.txt", encoding="utf-8") as file:
        lines = {line.split(":")[0]: line for line in file if ":" in line and not line.startswith("#")}
    found, left = {}, names.split()
    while left:
        name = left.pop()
        if name in lines and name not in found:
            found[name] = lines[name]
            left += lines[name].split(":")[1].split()
    return found


def build(folder, text, uses):
    """Builds the program in the file `text` in the folder, beside copies of the crates below, and returns its path."""
    crates = below(uses)
    with open(f"{folder}/crates.txt", "w", encoding="utf-8") as file:
        file.write("".join(crates.values()))
        file.write(f"imap_bench: {uses}\n")
    for crate in crates:
        shutil.copytree(f"crates/{crate}", f"{folder}/crates/{crate}", dirs_exist_ok=True)
    os.makedirs(f"{folder}/crates/imap_bench/src", exist_ok=True)
    shutil.copy(text, f"{folder}/crates/imap_bench/src/main.rt")
    subprocess.run(["git", "init", "-q", folder], check=True)
    with open(os.devnull) as nothing:
        subprocess.run(["rt", "run"], cwd=f"{folder}/crates/imap_bench", stdin=nothing, check=True)
    return f"{folder}/crates/imap_bench/out/imap_bench"


def seconds(program, line):
    """The least time of the program over some runs, each with this line as its input."""
    best = float("inf")
    for _ in range(RUNS):
        start = time.perf_counter()
        subprocess.run([program], input=line, text=True, stdout=subprocess.DEVNULL, check=True)
        best = min(best, time.perf_counter() - start)
    return best


def microseconds(program, words, times):
    """What the call or batch of these words takes: many of them, less none."""
    return max(0.0, seconds(program, f"{words} {times}") - seconds(program, f"{words} 0")) / times * 1e6


def tell(program):
    print("| Messages | add | set_flags | mark_seen | row by place | place by UID | all rows |\n|---|---|---|---|---|---|---|")
    for size in (200, 2_000, 20_000):
        kinds = (("add", 20_000), ("flag", 20_000), ("mark", 20_000), ("row", 200_000), ("uid", 200_000), ("walk", 2_000_000 // size))
        took = [microseconds(program, f"{kind} {size}", times) for kind, times in kinds]
        print(f"| {size:,} | " + " | ".join(f"{one:.3f}" for one in took) + " |", flush=True)
    print("\n| Octets of text | search |\n|---|---|")
    for size in (10_000, 100_000, 1_000_000):
        print(f"| {size:,} | {microseconds(program, f'search {size}', 10_000_000 // size):.0f} |", flush=True)


def run(tell, text, uses):
    """Builds the program in the folder that is named, or in one that is removed afterwards, and tells its times."""
    if len(sys.argv) > 1:
        os.makedirs(sys.argv[1], exist_ok=True)
        tell(build(sys.argv[1], text, uses))
    else:
        with tempfile.TemporaryDirectory() as folder:
            tell(build(folder, text, uses))


if __name__ == "__main__":
    run(tell, "bench/messages.txt", USES)
