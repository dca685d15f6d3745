"""A store as python's sqlite3 fills and changes it: what `bench/store.py` and `bench/server.py` lay the program beside.

The statements are those of `imap_tables`, and in `FirstBox` those of the first version, whose table of messages had their
octets and keywords too. Each change is one transaction of a database with a log (WAL) that is written
to the disk at each commit (FULL).
"""

import os
import sqlite3

USER = "ann"
OCTETS = 2_048
DATE = "26-Nov-2026 12:00:00 +0000"
ALL_RIGHTS = 2_047
STRIDE = 7_919  # As in bench/store.txt.

FIND = "SELECT id FROM mailbox WHERE tree = ?1 AND path = ?2"
ADD = "INSERT INTO message2 (mailbox, uid, date, flags, place) VALUES (?1, ?2, ?3, ?4, ?5)"
ADD_OCTETS = "INSERT INTO body (mailbox, uid, octets) VALUES (?1, ?2, ?3)"
FLAG = "UPDATE message2 SET flags = ?3, place = ?4 WHERE mailbox = ?1 AND uid = ?2"
MARK = "INSERT INTO mark (mailbox, user, own, before, uid, seen) VALUES (?1, ?2, ?3, ?4, ?5, ?6)"
REMOVE = [f"DELETE FROM {table} WHERE mailbox = ?1 AND uid = ?2" for table in ("message2", "body", "keyword")]
GONE = "INSERT INTO gone (mailbox, uid, place) VALUES (?1, ?2, ?3)"
COUNT = "UPDATE mailbox SET uidnext = ?2, shared = ?3 WHERE id = ?1"
DELETE = "DELETE FROM mailbox WHERE tree = ?1 AND path = ?2"

FIRST_ADD = "INSERT INTO message (mailbox, uid, date, octets, flags, keywords, place) VALUES (?1, ?2, ?3, ?4, ?5, ?6, ?7)"
FIRST_FLAG = "UPDATE message SET flags = ?3, keywords = ?4, place = ?5 WHERE mailbox = ?1 AND uid = ?2"
FIRST_REMOVE = "DELETE FROM message WHERE mailbox = ?1 AND uid = ?2"


def connect(path):
    database = sqlite3.connect(path, isolation_level=None)
    for line in ("journal_mode = WAL", "synchronous = FULL", "foreign_keys = ON"):
        database.execute(f"PRAGMA {line}").fetchall()
    return database


def rows_of(path, table):
    """The rows of a table in order. Of a message there is the number of octets in place of these, and no date."""
    database = connect(path)
    columns = {"message2": "mailbox, uid, flags, place", "body": "mailbox, uid, length(octets)"}.get(table, "*")
    rows = sorted(database.execute(f"SELECT {columns} FROM {table}"))
    database.close()
    return rows


def message_row(mailbox, uid, place):
    return mailbox, uid, DATE, 0, place


def octets_row(mailbox, uid):
    return mailbox, uid, b"x" * OCTETS


class Box:
    """A mailbox of a database. Each method returns the statements of a change, for `make`, which makes one change at a time."""

    table = "message2"

    def __init__(self, database, tree, path):
        self.database, self.key = database, (tree, path)
        line = "SELECT id, uidnext, shared FROM mailbox WHERE tree = ?1 AND path = ?2"
        ((self.id, self.next, self.shared),) = database.execute(line, self.key)
        line = f"SELECT uid FROM {self.table} WHERE mailbox = ?1 ORDER BY uid"
        self.uids = [uid for (uid,) in database.execute(line, (self.id,))]
        line = "SELECT count(*) FROM mark WHERE mailbox = ?1 AND user = ?2"
        ((self.own,),) = database.execute(line, (self.id, USER))

    def make(self, statements):
        """Makes statements, each with its rows, in one transaction, which begins with the search for the mailbox."""
        self.database.execute("BEGIN IMMEDIATE")
        self.database.execute(FIND, self.key).fetchall()
        for text, rows in statements:
            self.database.executemany(text, rows)
        self.database.execute("COMMIT")

    def some(self, many, turn):
        """UIDs of messages as far from one another as may be, others in each turn."""
        step = max(1, len(self.uids) // many)
        return self.uids[turn * STRIDE % step :: step][:many]

    def places(self, many):
        """The places of as many new events."""
        self.shared += many
        return range(self.shared - many + 1, self.shared + 1)

    def counts(self):
        return COUNT, [(self.id, self.next, self.shared)]

    def add(self, many, _turn):
        uids = range(self.next, self.next + many)
        self.next += many
        self.uids += uids
        return [*self.rows(uids, self.places(many)), self.counts()]

    def rows(self, uids, places):
        """The statements that add messages."""
        return self.added((self.id, uid, place) for uid, place in zip(uids, places))

    @staticmethod
    def added(messages):
        """The statements that add messages, of each the mailbox, the UID and the place of its last shared event."""
        messages = list(messages)
        return [(ADD, (message_row(*each) for each in messages)), (ADD_OCTETS, (octets_row(at, uid) for at, uid, _ in messages))]

    def flag(self, many, turn):
        flags = 8 if turn % 2 == 0 else 0
        return [self.flags(self.some(many, turn), flags, self.places(many)), self.counts()]

    def flags(self, uids, flags, places):
        """The statement that sets flags."""
        return FLAG, [(self.id, uid, flags, place) for uid, place in zip(uids, places)]

    def seen(self, many, turn):
        self.own += many
        own = range(self.own - many + 1, self.own + 1)
        seen = int(turn % 2 == 0)
        return [(MARK, [(self.id, USER, at, self.shared, uid, seen) for at, uid in zip(own, self.some(many, turn))])]

    def expunge(self, many, turn):
        uids = self.some(many, turn)
        gone = set(uids)
        self.uids = [uid for uid in self.uids if uid not in gone]
        places = self.places(many)
        removed = [(self.id, uid) for uid in uids]
        return [*self.removes(removed), (GONE, [(*row, place) for row, place in zip(removed, places)]), self.counts()]

    def removes(self, removed):
        """The statements that remove messages."""
        return [(text, removed) for text in REMOVE]

    def delete(self, _many, _turn):
        return [(DELETE, [self.key])]


class FirstBox(Box):
    """A mailbox of a database of the first version."""

    table = "message"

    @staticmethod
    def added(messages):
        octets = b"x" * OCTETS
        return [(FIRST_ADD, ((at, uid, DATE, octets, 0, "", place) for at, uid, place in messages))]

    def flags(self, uids, flags, places):
        return FIRST_FLAG, [(self.id, uid, flags, "", place) for uid, place in zip(uids, places)]

    def removes(self, removed):
        return [(FIRST_REMOVE, removed)]


def drop_sums(path):
    """Writes the tables into a database whose pages have no sums, which python's sqlite3 would spoil."""
    new = sqlite3.connect(f"{path}.plain", isolation_level=None)
    new.execute("ATTACH ? AS old", (path,))
    for name, sql in new.execute("SELECT name, sql FROM old.sqlite_schema WHERE type = 'table'").fetchall():
        new.execute(sql)
        new.execute(f"INSERT INTO main.{name} SELECT * FROM old.{name}")
    new.close()
    for beside in (path, f"{path}-wal", f"{path}-shm"):
        if os.path.exists(beside):
            os.remove(beside)
    os.rename(f"{path}.plain", path)


def to_first_version(path):
    """Moves all messages into the table of the first version."""
    database = sqlite3.connect(path, isolation_level=None)
    database.execute("PRAGMA synchronous = OFF")
    database.execute("BEGIN")
    columns = "mailbox, uid, date, octets, flags, keywords, place"
    database.execute(f"INSERT INTO message ({columns}) SELECT mailbox, uid, date, octets, flags, '', place"
                     " FROM message2 JOIN body USING (mailbox, uid) ORDER BY mailbox, uid")
    for table in ("body", "message2"):
        database.execute(f"DELETE FROM {table}")
    database.execute("COMMIT")
    database.execute("VACUUM")
    database.close()


def fill(path, sizes, version=Box):
    """Adds mailboxes to a store, each with so many messages, in the tree that all share. The first is `Box`, and the others have
    numbers. The user has all rights, and has seen each message once. `version` says how messages are kept."""
    drop_sums(path)
    database = sqlite3.connect(path, isolation_level=None)
    database.execute("PRAGMA synchronous = OFF")
    ((last,),) = database.execute("SELECT coalesce(max(id), 0) FROM mailbox")
    boxes = [(last + at, str(at) if at > 1 else "Box", size) for at, size in enumerate(sizes, 1)]
    every = [(at, uid, size) for at, _, size in boxes for uid in range(1, size + 1)]
    database.execute("BEGIN")
    line = "INSERT INTO mailbox VALUES (?1, 's', ?2, 1, ?3, ?4)"
    for text, rows in (
        (line, ((at, path, size + 1, size) for at, path, size in boxes)),
        ("INSERT INTO epoch VALUES ('s', ?1, 1)", ((path,) for _, path, _ in boxes)),
        ("INSERT INTO acl VALUES (?1, ?2, ?3)", ((at, USER, ALL_RIGHTS) for at, _, _ in boxes)),
        *version.added((at, uid, uid) for at, uid, _ in every),
        (MARK, ((at, USER, uid, size, uid, 1) for at, uid, size in every)),
    ):
        database.executemany(text, rows)
    database.execute("COMMIT")
    database.close()
