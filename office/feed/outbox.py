"""The feed's database (SQLite): the reports that the desk hasn't answered yet. A stop at any moment loses and doubles none.

A report gets a number when the feed reads it, and is removed when the desk has answered it under that number. If no answer
comes, the feed sends it again under the same number, and the desk doesn't admit it twice.
"""
import sqlite3
import time

from reports import KEEP_DAYS

# The next number is at least the hundredths of a second since 2000, so that numbers rise even if this file was lost.
EPOCH_2000 = 946_684_800

TABLES = """
create table if not exists outbox (number integer primary key, text text not null, origin text not null);
create table if not exists taken (text text primary key, at integer not null);
create table if not exists refused (at integer not null, text text not null, origin text not null, reason text not null);
create table if not exists files (name text primary key, size integer not null, changed integer not null);
create table if not exists last (number integer not null);
"""


class Outbox:
    def __init__(self, path, clock=time.time):
        self.clock = clock
        self.db = sqlite3.connect(path, isolation_level=None)
        self.db.execute("pragma journal_mode = wal")
        self.db.execute("pragma synchronous = full")
        self.db.executescript(TABLES)

    def next_number(self):
        kept = self.db.execute("select max(number) from last").fetchone()[0]
        number = max((kept or 0) + 1, int((self.clock() - EPOCH_2000) * 100))
        self.db.execute("delete from last")
        self.db.execute("insert into last values (?)", (number,))
        return number

    def take(self, reports, origin, file=None):
        """Stores the new ones of these reports, and the file (name, size, time) as read, in one transaction. Returns how many are new."""
        new = 0
        with self.changing():
            for text in reports:
                is_new = self.db.execute("insert or ignore into taken values (?, ?)", (text, int(self.clock()))).rowcount
                if is_new:
                    self.db.execute("insert into outbox values (?, ?, ?)", (self.next_number(), text, origin))
                    new += 1
            if file:
                self.db.execute("insert or replace into files values (?, ?, ?)", file)
        return new

    def has_read(self, file):
        return self.db.execute("select 1 from files where (name, size, changed) = (?, ?, ?)", file).fetchone() is not None

    def waiting(self, most):
        """The next reports to send. Refuses those that have waited too long: the desk could take their day for a later one."""
        late = "select number, outbox.text, origin from outbox join taken using (text) where at < ?"
        for number, text, origin in self.db.execute(late, (self.oldest(),)).fetchall():
            self.refuse(number, text, origin, "not sent within %d days" % KEEP_DAYS)
        return self.db.execute("select number, text, origin from outbox order by number limit ?", (most,)).fetchall()

    def done(self, number):
        self.db.execute("delete from outbox where number = ?", (number,))

    def refuse(self, number, text, origin, reason):
        with self.changing():
            self.db.execute("insert into refused values (?, ?, ?, ?)", (int(self.clock()), text, origin, reason))
            self.done(number)

    def renumber(self, number, floor):
        """Gives a report a new number above the floor."""
        with self.changing():
            self.db.execute("insert into last values (?)", (floor,))
            self.db.execute("update outbox set number = ? where number = ?", (self.next_number(), number))

    def number_of(self, text):
        return self.db.execute("select number from outbox where text = ?", (text,)).fetchone()[0]

    def refused(self):
        return self.db.execute("select at, text, origin, reason from refused order by rowid").fetchall()

    def oldest(self):
        return int(self.clock()) - KEEP_DAYS * 86_400

    def forget(self):
        """Removes records of reports that are too old for the desk to admit."""
        before = self.oldest()
        with self.changing():
            self.db.execute("delete from taken where at < ? and text not in (select text from outbox)", (before,))
            self.db.execute("delete from refused where at < ?", (before,))

    def changing(self):
        return Change(self.db)


class Change:
    """A transaction."""

    def __init__(self, db):
        self.db = db

    def __enter__(self):
        self.db.execute("begin immediate")

    def __exit__(self, kind, *_):
        self.db.execute("rollback" if kind else "commit")
