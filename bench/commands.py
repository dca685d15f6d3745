#!/usr/bin/env python3
"""Times commands on the messages of one mailbox, by their number.

    python3 bench/commands.py PROGRAM

PROGRAM is the program as `rt run` or `rt ci` leaves it, `crates/imapd/out/imapd`. Each time is of one command in
microseconds of processor time: the difference of a script with some thousands of them, or of some tens of those that grow,
and one with none, the least of seven runs each. What can be made once alone is made once, and is less sure by a millisecond
or two.
"""

import os
import subprocess
import sys
import tempfile

SIZES = (200, 2_000, 20_000)
MESSAGE = "x" * 2_046
RUNS = 7
# Bodies of about 2 KB, in lines of up to 76 characters.
WORDS = "The quick brown fox jumps over the lazy dog and runs into the woods beside Riga"
RUSSIAN = "Съешь ещё этих мягких французских булок, да выпей чаю у моря"
PAIRS = [left + right for left in "abcdefghijklmnopqrstuvwxyz0123456789" for right in "abcdefghijklmnopqrstuvwxyz01"][:1_000]
BODIES = {
    "ASCII": [WORDS[:76]] * 26,
    "a letter of another script in each line": [WORDS[:75] + "ā"] * 26,
    "Cyrillic": [RUSSIAN] * 18,
    "a thousand texts of two letters": ["".join(PAIRS[place:place + 38]) for place in range(0, 1_000, 38)],
}


def seconds(program, lines):
    """The least processor time of the program over some runs of this script."""
    with tempfile.NamedTemporaryFile("w", encoding="utf-8") as file:
        file.write("\n".join(lines) + "\n")
        file.flush()
        best = float("inf")
        for _ in range(RUNS):
            with open(file.name, "rb") as script:
                process = subprocess.Popen([program, "script"], stdin=script, stdout=subprocess.DEVNULL)
                _, status, used = os.wait4(process.pid, 0)
                if status:
                    sys.exit(f"{program} ends with status {status}")
                best = min(best, used.ru_utime + used.ru_stime)
        return best


def head(count):
    """An INBOX with so many messages of 2 KB, each seen by ann, selected."""
    lines = ["admin root", "user ann", "limit max_messages 100000", "ann.1 open"]
    for number in range(count):
        lines += [f"ann.1 < p{number} APPEND INBOX (\\Seen) {{2046+}}", f"ann.1 < {MESSAGE}"]
    return [*lines, "ann.1 < c CREATE Box", "ann.1 < s SELECT INBOX"]


def microseconds(program, lines, commands, times):
    steps = [f"ann.1 < {line}" for number in range(times) for line in commands(number)]
    return max(0.0, seconds(program, lines + steps) - seconds(program, lines)) / times * 1e6


def commands(count):
    """The commands, with how often each is made."""
    def one(n):
        return count // 2 + n % (count // 4)

    return (
        ("APPEND of 2 KB", lambda n: [f"a{n} APPEND INBOX {{2046+}}", MESSAGE], 2_000),
        ("APPEND of 2 KB, not selected", lambda n: [f"a{n} APPEND Box {{2046+}}", MESSAGE], 2_000),
        ("NOOP", lambda n: [f"a{n} NOOP"], 50_000),
        ("FETCH n FLAGS", lambda n: [f"a{n} FETCH {one(n)} FLAGS"], 20_000),
        ("UID FETCH n BODY.PEEK[TEXT]", lambda n: [f"a{n} UID FETCH {one(n)} BODY.PEEK[TEXT]"], 10_000),
        ("FETCH n BODY[]", lambda n: [f"a{n} FETCH {one(n)} BODY[]"], 10_000),
        ("STATUS (MESSAGES UNSEEN)", lambda n: [f"a{n} STATUS INBOX (MESSAGES UNSEEN)"], 20_000),
        ("SELECT", lambda n: [f"a{n} SELECT INBOX"], 40),
        ("FETCH 1:* FLAGS", lambda n: [f"a{n} FETCH 1:* FLAGS"], 20),
        ("SEARCH FLAGGED", lambda n: [f"a{n} SEARCH FLAGGED"], 20),
        ("SEARCH SEEN", lambda n: [f"a{n} SEARCH SEEN"], 20),
        ("SEARCH BODY hello", lambda n: [f"a{n} SEARCH BODY hello"], 10),
        ("UID SEARCH of the last ten", lambda n: [f"a{n} UID SEARCH UID {max(1, count - 9)}:*"], 2_000),
        ("UID FETCH 1:* CHANGEDSINCE, none", lambda n: [f"a{n} UID FETCH 1:* (FLAGS) (CHANGEDSINCE {2 * count + 1})"], 2_000),
        ("UID FETCH 1:* CHANGEDSINCE, one", lambda n: [f"a{n} UID FETCH 1:* (FLAGS) (CHANGEDSINCE {2 * count})"], 400),
        ("FETCH 1:* CHANGEDSINCE, one", lambda n: [f"a{n} FETCH 1:* (FLAGS) (CHANGEDSINCE {2 * count})"], 400),
        ("ENABLE, SELECT with QRESYNC, none", lambda n: [f"e{n} ENABLE QRESYNC", f"a{n} SELECT INBOX (QRESYNC (1 {2 * count + 1}))"], 40),
        ("STORE n FLAGS.SILENT", lambda n: [f"a{n} STORE {one(n)} {sign(n // (count // 4))}FLAGS.SILENT (\\Flagged)"], 20_000),
        ("STORE 1:* FLAGS.SILENT", lambda n: [f"a{n} STORE 1:* {sign(n)}FLAGS.SILENT (\\Flagged)"], 20),
        ("STORE 1:* FLAGS", lambda n: [f"a{n} STORE 1:* {sign(n)}FLAGS (\\Flagged)"], 20),
        ("COPY 1:*", lambda n: [f"a{n} COPY 1:* Box"], 4),
    )


def sign(number):
    """Sets the flag and takes it away in turn, so that each command changes something."""
    return "-" if number % 2 else "+"


def once(program, count):
    """What commands take that can be made once: the difference of a script with the command and one without."""
    marked = {"all": "1:*", "every second": ",".join(str(number) for number in range(1, min(count, 3_000) + 1, 2))}
    for which, numbers in marked.items():
        lines = [*head(count), f"ann.1 < m STORE {numbers} +FLAGS.SILENT (\\Deleted)"]
        yield f"EXPUNGE of {which}", (seconds(program, [*lines, "ann.1 < x EXPUNGE"]) - seconds(program, lines)) * 1e6
    yield "MOVE 1:*", (seconds(program, [*head(count), "ann.1 < x MOVE 1:* Box"]) - seconds(program, head(count))) * 1e6


def mail(count, body):
    """An INBOX of so many messages with a header and this body, selected."""
    lines = ["admin root", "user ann", "limit max_messages 100000", "ann.1 open"]
    for number in range(count):
        message = [
            "From: Ann <ann@example.org>", "To: Bob <bob@example.org>", "Date: Fri, 27 Nov 2026 12:00:00 +0000",
            f"Subject: Report {number}", f"Message-ID: <{number}.report@example.org>", "", *body,
        ]
        octets = len("\r\n".join(message).encode())
        lines += [f"ann.1 < p{number} APPEND INBOX {{{octets}+}}", *(f"ann.1 < {line}" for line in message)]
    return [*lines, "ann.1 < s SELECT INBOX"]


def searches(program, count):
    """What SEARCH takes in messages with headers: microseconds of one command."""
    heads = {name: mail(count, body) for name, body in BODIES.items()}
    for name in list(BODIES)[:3]:
        yield f"SEARCH BODY hello, {name}", microseconds(program, heads[name], lambda n: [f"a{n} SEARCH BODY hello"], 10)
    head = heads["ASCII"]
    for name, keys in {"SEARCH SUBJECT hello": "SUBJECT hello", "100 keys SUBJECT": " ".join(["SUBJECT report"] * 100)}.items():
        yield name, microseconds(program, head, lambda n, keys=keys: [f"a{n} SEARCH {keys}"], 10)
    ranges = "1," * 3_999 + "*"
    yield "SEARCH of a set of 4,000 ranges", microseconds(program, head, lambda n: [f"a{n} SEARCH {ranges}"], 4)
    if count <= 2_000:
        pairs, keys = heads["a thousand texts of two letters"], " ".join(f"BODY {pair}" for pair in PAIRS)
        yield "1,000 keys BODY, all found", microseconds(program, pairs, lambda n: [f"a{n} SEARCH {keys}"], 2)


def told(program, count):
    """One flag is changed by one of 16 sessions, and each of the other 15 is told of it by NOOP."""
    others = [f"ann.{number}" for number in range(2, 17)]
    lines = head(count) + [line for label in others for line in (f"{label} open", f"{label} < s SELECT INBOX")]

    def changes(n):
        yield f"ann.1 < a{n} STORE {count // 2} {sign(n)}FLAGS.SILENT (\\Flagged)"
        yield from (f"{label} < n{n} NOOP" for label in others)

    steps = [line for number in range(50) for line in changes(number)]
    return (seconds(program, lines + steps) - seconds(program, lines)) / 50 * 1e6


def main():
    if len(sys.argv) != 2:
        raise SystemExit(__doc__)
    program = sys.argv[1]
    print("| Command | " + " | ".join(f"{count:,} messages" for count in SIZES) + " |\n|---|" + "---|" * len(SIZES))
    heads = {count: head(count) for count in SIZES}
    for place, (name, _, _) in enumerate(commands(0)):
        times = []
        for count in SIZES:
            _, lines, repeated = commands(count)[place]
            times.append(microseconds(program, heads[count], lines, repeated))
        print(f"| `{name}` | " + " | ".join(f"{it:,.1f}" for it in times) + " |", flush=True)
    found = [dict(searches(program, count)) for count in SIZES]
    for name in found[0]:
        print(f"| `{name}` | " + " | ".join(f"{row[name]:,.0f}" if name in row else "" for row in found) + " |", flush=True)
    made = [dict(once(program, count)) for count in SIZES]
    for name in made[0]:
        print(f"| `{name}` | " + " | ".join(f"{row[name]:,.0f}" for row in made) + " |", flush=True)
    print("| one flag, of which 15 sessions are told | " + " | ".join(f"{told(program, count):,.0f}" for count in SIZES) + " |")


if __name__ == "__main__":
    main()
