"""PostgreSQL servers for tests: each in a folder of its own, on a port of its own, and ended with the test."""
import contextlib
import json
import os
import pwd
import shutil
import signal
import socket
import sqlite3
import subprocess
import tempfile
import threading
import time
from pathlib import Path

from desks import QUICK, Desk, Skipped, free_port, hold

PASSWORD = "pine-4417"
# the table of a desk over a file, by its very text
FILE_TABLE = "CREATE TABLE kept (kind INTEGER NOT NULL, key INTEGER NOT NULL, body TEXT NOT NULL, PRIMARY KEY (kind, key)) STRICT"
# how many seconds a server may take to start, to stop, or to do what a test waits for
PATIENT = 30


def binaries():
    """The folder of the newest server's programs."""
    found = sorted(Path("/usr/lib/postgresql").glob("*/bin/initdb"), key=lambda it: int(it.parent.parent.name))
    if found:
        return found[-1].parent
    there = shutil.which("initdb")
    return Path(os.path.realpath(there)).parent if there else None


def install():
    """Installs Debian's server where this user may, and says whether a server is there."""
    if binaries() is None and os.geteuid() == 0 and shutil.which("apt-get"):
        quiet = dict(stdout=subprocess.DEVNULL, stderr=subprocess.DEVNULL, env=dict(os.environ, DEBIAN_FRONTEND="noninteractive"))
        subprocess.run(["apt-get", "-o", "DPkg::Lock::Timeout=300", "install", "-y", "--no-install-recommends", "postgresql"], **quiet)
    return binaries() is not None


def needed():
    """The folder of the programs, or the reason why the test is skipped."""
    folder = binaries()
    if folder is None:
        raise Skipped("no PostgreSQL server is installed (Debian's package postgresql)")
    return folder


def as_user(words):
    """The command as a user under whom a server runs: never as root."""
    return ["runuser", "-u", "postgres", "--", *words] if os.geteuid() == 0 else list(words)


def below(pid):
    """The processes that this one started, and those that they did."""
    for task in Path("/proc/%d/task" % pid).glob("*/children"):
        for child in task.read_text().split():
            yield from below(int(child))
            yield int(child)


class Server:
    """A server with a database `desk` and a user `desk`. A copy of another one is its standby."""

    def __init__(self, settings=(), of=None, folder=QUICK, port=None):
        self.bin, self.port = needed(), port or free_port()
        self.room = Path(tempfile.mkdtemp(prefix="server-", dir=folder))
        self.data = self.room / "data"
        self.room.chmod(0o755)
        if os.geteuid() == 0:
            shutil.chown(self.room, "postgres")
        if of:
            self.copy(of)
        else:
            self.make()
        self.set(port=self.port, unix_socket_directories="'%s'" % self.room, **dict(settings))
        self.start()
        if not of:
            self.say("create role desk login password '%s'; create role standby login replication password '%s'" % (PASSWORD, PASSWORD), "postgres")
            self.say("create database desk owner desk encoding 'UTF8' locale 'C' template template0", "postgres")

    def __enter__(self):
        return self

    def __exit__(self, *_):
        self.kill()
        shutil.rmtree(self.room, ignore_errors=True)

    def run(self, program, *words, **how):
        how = dict(dict(stdout=subprocess.PIPE, stderr=subprocess.STDOUT, stdin=subprocess.DEVNULL, cwd=self.room), **how)
        done = subprocess.run(as_user([str(self.bin / program), *map(str, words)]), **how)
        hold(done.returncode == 0, program, "ends with", done.returncode, (done.stdout or b"").decode(errors="replace")[-1500:])
        return done.stdout

    def make(self):
        self.run("initdb", "-D", self.data, "-U", "postgres", "-A", "trust", "-E", "UTF8", "--locale=C", "--no-sync", "--data-checksums")
        (self.data / "pg_hba.conf").write_text(
            "local all all trust\nhost all all 127.0.0.1/32 scram-sha-256\nhost replication standby 127.0.0.1/32 scram-sha-256\n")

    def copy(self, other):
        source = "host=127.0.0.1 port=%d user=standby password=%s application_name=standby" % (other.port, PASSWORD)
        self.run("pg_basebackup", "-D", self.data, "-R", "--no-sync", "-c", "fast", "-d", source)

    def set(self, **settings):
        text = "".join("%s = %s\n" % it for it in settings.items())
        with open(self.data / "postgresql.conf", "a") as conf:
            conf.write(text)

    def start(self):
        self.run("pg_ctl", "-D", self.data, "-w", "-t", PATIENT, "-l", self.room / "log", "start", stdout=subprocess.DEVNULL)

    def stop(self, how="fast"):
        self.run("pg_ctl", "-D", self.data, "-w", "-t", PATIENT, "-m", how, "stop", stdout=subprocess.DEVNULL)

    def reload(self):
        self.run("pg_ctl", "-D", self.data, "reload", stdout=subprocess.DEVNULL)

    def pid(self):
        with contextlib.suppress(OSError, ValueError, IndexError):
            return int((self.data / "postmaster.pid").read_text().splitlines()[0])
        return None

    def kill(self):
        """Ends the server and its sessions by signal 9, as if the machine had lost its power."""
        pid = self.pid()
        if pid is None or not Path("/proc/%d" % pid).exists():
            return
        others = list(below(pid))
        for it in (pid, *others):
            with contextlib.suppress(ProcessLookupError):
                os.kill(it, signal.SIGKILL)
        last = time.monotonic() + PATIENT
        while any(Path("/proc/%d" % it).exists() and " Z " not in Path("/proc/%d/stat" % it).read_text() for it in (pid, *others)):
            hold(time.monotonic() < last, "a killed server is still there")
            time.sleep(0.01)
        # nobody may have waited for the dead process yet, whose number the server would find taken
        for lock in (self.data / "postmaster.pid", self.room / (".s.PGSQL.%d.lock" % self.port)):
            lock.unlink(missing_ok=True)

    def say(self, text, database="desk", user="postgres"):
        words = ["-X", "-A", "-t", "-q", "-v", "ON_ERROR_STOP=1", "-h", self.room, "-p", self.port, "-U", user, "-d", database, "-c", text]
        return self.run("psql", *words).decode().strip()

    def empty(self):
        """Leaves the database without a table."""
        self.say("drop table if exists kept")

    def rows(self):
        if self.say("select to_regclass('public.kept') is null") == "t":
            return {}
        text = self.say("select coalesce(json_agg(json_build_array(kind, key, body)), '[]') from kept")
        return {(kind, key % 2**64): body for kind, key, body in json.loads(text)}

    def waits_for(self, query, wanted="t"):
        last = time.monotonic() + PATIENT
        while self.say(query) != wanted:
            hold(time.monotonic() < last, "the server doesn't come to", query)
            time.sleep(0.05)

    def conf(self, port=None, standby="none", user="desk", passfile="/dev/null"):
        return "postgresql host=127.0.0.1 port=%d dbname=desk user=%s passfile=%s standby=%s\n" % (port or self.port, user, passfile, standby)


class ServerDesk(Desk):
    """A desk whose rows a server keeps."""

    def __init__(self, server, standby="none", port=None, password=PASSWORD):
        super().__init__()
        self.server = server
        passfile = self.folder / "passfile"
        passfile.write_text(password + "\n")
        passfile.chmod(0o600)
        self.write("rows.conf", server.conf(port, standby, passfile=passfile))

    def rows(self):
        return self.server.rows()

    def copy(self):
        """Another desk with the same tables and what is kept so far, in a file."""
        other = Desk(self.folder)
        with contextlib.closing(sqlite3.connect(other.folder / "desk.db")) as db, db:
            db.execute(FILE_TABLE)
            db.executemany("insert into kept values (?, ?, ?)", [(kind, key, body) for (kind, key), body in self.rows().items()])
        return other


class Proxy:
    """Passes bytes on to a server until it is told to fall silent. Then it keeps its connections open, and passes nothing."""

    def __init__(self, port):
        self.to, self.silent = port, threading.Event()
        self.door = socket.create_server(("127.0.0.1", 0))
        self.port = self.door.getsockname()[1]
        self.links = []
        threading.Thread(target=self.accept, daemon=True).start()

    def __enter__(self):
        return self

    def __exit__(self, *_):
        for link in (self.door, *self.links):
            with contextlib.suppress(OSError):
                link.close()

    def accept(self):
        with contextlib.suppress(OSError):
            while True:
                one = self.door.accept()[0]
                two = socket.create_connection(("127.0.0.1", self.to))
                self.links += [one, two]
                for a, b in ((one, two), (two, one)):
                    threading.Thread(target=self.passed, args=(a, b), daemon=True).start()

    def passed(self, one, two):
        with contextlib.suppress(OSError):
            while piece := one.recv(65_536):
                while self.silent.is_set():
                    time.sleep(0.05)
                two.sendall(piece)
        for it in (one, two):
            with contextlib.suppress(OSError):
                it.shutdown(socket.SHUT_RDWR)
