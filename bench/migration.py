#!/usr/bin/env python3
"""Times how 5,000 messages of 2 KB come from a Maildir into a store: by `imapd load`, and by mbsync over a port.

    python3 bench/migration.py PROGRAM [MESSAGES]     PROGRAM is crates/imapd/out/imapd

mbsync is Debian's package isync. It speaks IMAP4rev1 with the server. Times are on the wall, and of the processor: of
`imapd load`, and of the server and mbsync together. Afterwards both stores have to have as many messages.
"""

import mailbox
import os
import resource
import subprocess
import sys
import tempfile
import time

PORT = 21_165
OCTETS = 2_048
CONFIGURATION = """IMAPStore far
Host 127.0.0.1
Port {port}
User ann
Pass none
SSLType None
AuthMechs LOGIN

MaildirStore near
Path {folder}/
Inbox "{folder}/Other Users/ann/INBOX"
SubFolders Verbatim

Channel mail
Far :far:
Near :near:
Patterns INBOX
Sync PushNew PushFlags
SyncState {state}/
"""


def make_maildir(folder, messages):
    """A Maildir as other programs make it, half of its messages seen."""
    os.makedirs(f"{folder}/Other Users/ann")
    box = mailbox.Maildir(f"{folder}/Other Users/ann/INBOX")
    for number in range(messages):
        head = f"From: ann@mail.example\nSubject: {number}\nMessage-ID: <{number}@mail.example>\n\n"
        message = mailbox.MaildirMessage(head.encode().ljust(OCTETS - 1, b"x") + b"\n")
        message.set_subdir("cur")
        message.set_flags("S" if number % 2 else "")
        box.add(message)


def timed(words):
    """Seconds on the wall and of the processor that a program takes, with its children."""
    before, start = resource.getrusage(resource.RUSAGE_CHILDREN), time.perf_counter()
    subprocess.run(words, check=True, stdout=subprocess.DEVNULL)
    wall, after = time.perf_counter() - start, resource.getrusage(resource.RUSAGE_CHILDREN)
    return wall, after.ru_utime + after.ru_stime - before.ru_utime - before.ru_stime


def processor_time(process):
    # The clock of another process (clock_getcpuclockid).
    return time.clock_gettime(~process.pid << 3 | 2)


def by_load(program, folder, database):
    return timed([program, "load", "--db", database, "--from", folder, "--admin", "root"])


def by_mbsync(program, folder, database):
    path = f"{folder}/mbsyncrc"
    with open(path, "w", encoding="utf-8") as file:
        file.write(CONFIGURATION.format(port=PORT, folder=folder, state=folder))
    words = [program, "serve", "--db", database, "--admin", "root", "--listen", f"ann={PORT}", "--dialect", "rev1"]
    server = subprocess.Popen(words, stdout=subprocess.PIPE, stderr=subprocess.DEVNULL)
    try:
        server.stdout.readline()
        before = processor_time(server)
        wall, processor = timed(["mbsync", "-c", path, "mail"])
        return wall, processor + processor_time(server) - before
    finally:
        server.kill()
        server.wait()


def messages_in(program, database):
    return subprocess.run([program, "check", "--db", database], capture_output=True, text=True, check=True).stdout.split()[-2]


def main():
    program = os.path.abspath(sys.argv[1])
    messages = int(sys.argv[2]) if len(sys.argv) > 2 else 5_000
    print("| Messages | by | seconds on the wall | of the processor |\n|---|---|---|---|")
    for name, bring in (("`imapd load`", by_load), ("mbsync", by_mbsync)):
        with tempfile.TemporaryDirectory() as place:
            folder, database = f"{place}/mail", f"{place}/mail.db"
            make_maildir(folder, messages)
            wall, processor = bring(program, folder, database)
            found = messages_in(program, database)
            if int(found) != messages:
                sys.exit(f"{name}: {found} messages came")
            print(f"| {messages:,} | {name} | {wall:.2f} | {processor:.2f} |")


main()
