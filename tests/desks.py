"""What tests of the built program share: folders in which it runs, scripts for it, its service, and the rows that it keeps."""
import functools
import http.client
import itertools
import json
import os
import re
import shutil
import socket
import sqlite3
import subprocess
import sys
import tempfile
import time
from collections import namedtuple
from datetime import datetime, timedelta
from pathlib import Path

HERE = Path(__file__).resolve().parent.parent
sys.path.append(str(HERE / "tools"))
from ports import free_port

PROGRAM = HERE / "crates" / "release_desk" / "out" / "release_desk"
TABLES = HERE / "examples" / "morning"
SMALL = HERE / "crates" / "scenarios" / "data" / "small_airline"

KEYS = {"okafor": "pine-4417", "hayes": "gate-7730", "wxfeed": "feed-9051", "hangar": "bolt-6248", "records": "file-3375"}
STATIONS = ("KGEG", "KBOI", "CYVR")
NOW = datetime(2026, 11, 12, 14, 0)
META, REPORT, DEFERRAL, RELEASE, REPLY, ALERT = range(6)
LISTENS = "0A"
# how many seconds a test waits for what takes a moment where the machine has nothing else to do
PATIENCE = 60
# how much earlier a test may see an end than the service's clock tells
EARLY = 0.5
# where files cost no time, if there is such a place
QUICK = "/dev/shm" if os.access("/dev/shm", os.W_OK) else None

# what is written with each status: of 4 the beginning of a text, maybe
WRITTEN = {
    2: "error 2 Usage\n",
    3: r"(?s:error 3 ReadFault .*\n)",
    4: r"(?s:.*)",
    5: "error 5 KeeperFault\n",
    6: r"error 6 BadTable .+ [0-9]+ (BadField|Doubled|Unlinked|OverLimit)\n",
    7: r"error 7 (BadRow [0-9]+ [0-9]+ (NotCanonical|NoMeta|OverLimit|Orphan)|BadPair( [0-9]+){4})\n",
    8: "",
    9: "error 9 DoorFault\n",
    10: r"(?s:error 10 InputTooLong .+\n)",
    11: "error 11 ClockFault\n",
    12: r"(?s:error 12 BadInput .+ [0-9]+ (NotPlan|BadPlan|BadField|Doubled|OverLimit)\n)",
}
CLOSED = "END\n"


class Differs(Exception):
    pass


class Late(Differs):
    """A time that isn't as it should be, which may be the machine's fault."""


class Skipped(Exception):
    pass


def expect(what, wanted, got):
    if wanted != got:
        raise Differs("%s\n  wanted %.2000s\n  got    %.2000s" % (what, wanted, got))


def hold(test, *words):
    if not test:
        raise Differs(" ".join(str(word) for word in words)[:4000])


def in_time(test, *words):
    if not test:
        raise Late(" ".join(str(word) for word in words)[:4000])


def tried(case):
    """A case that is played up to three times while it is late: on a busy machine one try of three is enough. Whatever else differs
    fails at once."""
    @functools.wraps(case)
    def played(*words):
        for _ in range(2):
            try:
                return case(*words)
            except Late as why:
                print("%s: once more: %s" % (case.__name__.replace("_", " "), why), flush=True)
        return case(*words)
    return played


def shown(moment):
    return moment.strftime("%Y-%m-%dT%H:%MZ")


def written(value):
    """As the desk writes JSON: no blank, keys in their order."""
    return json.dumps(value, separators=(",", ":"), sort_keys=True)


# --- scripts


def plan(flight):
    alternate = {"fuel": 3400, "minutes": 38, "station": "KPDX"}
    leg = {"alternates": [alternate], "burn": 4600, "eta": "2026-11-13T16:30Z", "etd": "2026-11-13T15:30Z", "extra": 300,
           "from": "KPDX", "minimum": 12275, "minutes": 42, "onboard": 13000, "takeoff_alternate": None, "to": "KSEA"}
    return {"captain": "hayes", "flight": flight, "kind": "domestic", "legs": [leg], "tail": "N237VM"}


def commands(count, begin=NOW, step=1):
    """So many commands that are accepted one after another, as actor, ask and moment: most of them reports, and in each ten a
    release that is drafted, prepared and cancelled, and an item that is deferred and cleared. No moment lies before the one
    before it."""
    for i in range(count):
        at, tenth = begin + timedelta(minutes=i // step), i // 10 + 1
        station = STATIONS[i % 3]
        text = "METAR %s %s 24008KT %dSM BKN%03d RMK %d" % (station, at.strftime("%d%H%MZ"), 1 + i % 9, 5 + i % 40, i)
        actor, ask = {
            0: ("okafor", {"do": "draft", "plan": plan("VM%d" % (i % 9000))}),
            3: ("okafor", {"do": "prepare", "release": tenth}),
            5: ("hangar", {"do": "defer", "tail": "N241VM", "item": "21-1", "found": shown(begin)}),
            6: ("hangar", {"do": "clear", "deferral": tenth}),
            8: ("okafor", {"do": "cancel", "release": tenth}),
        }.get(i % 10, ("wxfeed", {"do": "admit", "text": text}))
        yield actor, ask, at


def numbered(asked, last=0):
    """Calls of these, each person's in order of number."""
    numbers = {actor: itertools.count(last + 1) for actor in KEYS}
    for actor, ask, at in asked:
        yield {"actor": actor, "ask": ask, "at": shown(at), "key": KEYS[actor], "number": next(numbers[actor])}


def script_of(calls):
    return "".join(written(it) + "\n" for it in calls)


def view(at):
    """A view that changes nothing but the clock."""
    return {"actor": "wxfeed", "ask": {"do": "weather", "station": "KBOI"}, "at": at, "key": KEYS["wxfeed"], "number": 0}


# --- tables


def coded(first, number, digits):
    """A capital and some of 0-9 and A-Z, for a number."""
    signs = "0123456789ABCDEFGHIJKLMNOPQRSTUVWXYZ"
    return first + "".join(signs[number // 36**place % 36] for place in reversed(range(digits)))


def records():
    """Of each table its limit, and a record more than that."""
    station = [coded("K", i, 3) for i in range(5_001)]
    kind = [coded("T", i, 2) for i in range(201)]
    item = [coded("I", i, 2) for i in range(251)]
    two = lambda firsts, seconds: itertools.product(range(firsts), range(seconds))
    yield "settings", 9, [*(TABLES / "settings.csv").read_text().splitlines()[1:], "late_on,30"]
    yield "airports", 5_000, (f"{it},1,0" for it in station)
    yield "approaches", 50_000, (f"{station[i % 5_000]},A{i // 5_000},01,ILS,200,200,8" for i in range(50_001))
    yield "alternates", 20_000, (f"{station[i % 5_000]},{600 + i // 5_000},32" for i in range(20_001))
    yield "types", 200, (f"{it},2,380,5300,4600,ILS" for it in kind)
    yield "tails", 5_000, (f"{coded('N', i, 3)},{kind[i % 200]}" for i in range(5_001))
    yield "uses", 200_000, (f"{kind[j]},{station[i]}" for i, j in two(1_001, 200))
    yield "distances", 200_000, (f"{station[j]},{station[1_000 + i]},112" for i, j in two(1_001, 200))
    yield "routes", 50_000, (f"{station[j]},{station[1_000 + i]}" for i, j in two(251, 200))
    yield "mel", 50_000, (f"{kind[j]},{item[i]},C,0,,0,1,0" for i, j in two(251, 200))
    yield "pairs", 50_000, (f"{kind[j]},{item[i % 250]},{item[(i + 1 + i // 250) % 250]}" for i, j in two(251, 200))
    yield "actors", 5_000, (f"{coded('a', i, 3)},key,{'C' if i <= 100 else 'D'}" for i in range(5_001))
    yield "hours", 20_000, (f"{coded('a', i, 3)},{kind[j]},250" for i, j in two(101, 200))


# --- the program in a folder


Ran = namedtuple("Ran", "status said most")


def wait(process, seconds):
    """The status of a process that ends, negative where a signal ended it, and the most memory that it held, in bytes."""
    last = time.monotonic() + seconds
    while process.returncode is None:
        pid, status, used = os.wait4(process.pid, os.WNOHANG)
        if pid:
            process.returncode = -os.WTERMSIG(status) if os.WIFSIGNALED(status) else os.WEXITSTATUS(status)
            return process.returncode, used.ru_maxrss * 1024
        if time.monotonic() > last:
            process.kill()
            process.wait()
            raise Differs("it takes more than %d seconds" % seconds)
        time.sleep(0.001)
    return process.returncode, 0


class Desk:
    """A folder with the tables of an airline, in which the program runs. It lies in memory where that can be and nothing else is said."""

    program = PROGRAM

    def __init__(self, tables=TABLES, folder=QUICK, prefix="desk-"):
        self.folder = Path(tempfile.mkdtemp(prefix=prefix, dir=folder))
        self.folder.chmod(0o755)
        for table in sorted(tables.glob("*.csv")):
            shutil.copy(table, self.folder)

    def __enter__(self):
        return self

    def __exit__(self, *_):
        shutil.rmtree(self.folder, ignore_errors=True)

    def write(self, name, text):
        data = text if isinstance(text, bytes) else text.encode()
        (self.folder / name).write_bytes(data)
        return name

    def start(self, *words, out=subprocess.DEVNULL, err=subprocess.DEVNULL, before=None):
        return subprocess.Popen([str(self.program), *words], cwd=self.folder, stdin=subprocess.DEVNULL, stdout=out, stderr=err,
                                preexec_fn=before)

    def ran(self, *words, seconds=2 * PATIENCE, before=None):
        with tempfile.TemporaryFile() as out:
            process = self.start(*words, out=out, before=before)
            status, most = wait(process, seconds)
            out.seek(0)
            return Ran(status, out.read(), most)

    def run(self, calls, **how):
        """A run of calls, or of a text as it stands."""
        return self.ran("run", self.write("script", calls if isinstance(calls, (str, bytes)) else script_of(calls)), **how)

    def done(self, calls):
        """What a run of calls says that ends well: the replies, and the closing text."""
        calls = list(calls)
        run = self.run(calls, seconds=2 * PATIENCE + len(calls) // 200)
        expect("the status of a run that says %.200s" % run.said, 0, run.status)
        lines = run.said.decode().splitlines(keepends=True)
        return [json.loads(it) for it in lines[:len(calls)]], "".join(lines[len(calls):])

    def copy(self):
        """Another desk with the same tables and what is kept so far."""
        other = Desk(self.folder)
        for part in self.folder.glob("desk.db*"):
            if part.is_file():
                shutil.copy(part, other.folder)
        return other

    def rows(self):
        """The rows, read from a copy, so that the program alone mends what is left."""
        with tempfile.TemporaryDirectory() as copy:
            for part in self.folder.glob("desk.db*"):
                shutil.copy(part, copy)
            file = Path(copy) / "desk.db"
            if not file.exists() or file.stat().st_size == 0:
                return {}
            db = sqlite3.connect(file)
            try:
                if not db.execute("select 1 from sqlite_master where name = 'kept'").fetchall():
                    return {}
                return {(kind, key): body for kind, key, body in db.execute("select kind, key, body from kept")}
            finally:
                db.close()

    def change(self, statement, rows=((),)):
        db = sqlite3.connect(self.folder / "desk.db")
        with db:
            db.executemany(statement, rows)
        db.close()


def expect_told(run, statuses=range(13)):
    """The status is one of these, and what is written is what goes with it."""
    hold(run.status in statuses, "status", run.status, "with", run.said[:300])
    text = run.said.decode(errors="replace")
    told = text.endswith(CLOSED) if run.status == 0 else re.fullmatch(WRITTEN.get(run.status, ""), text)
    hold(told, "with status", run.status, "it wrote", text[:300])


# --- what is kept


def kept_calls(rows, calls):
    """The calls whose replies are kept, in the order in which they were accepted, each at the moment at which it was."""
    asked = {(it["actor"], it["number"]): it for it in calls}
    bodies = [json.loads(rows[row]) for row in sorted(rows) if row[0] == REPLY]
    return [dict(asked[it["actor"], it["number"]], at=it["at"]) for it in bodies], [it["reply"] for it in bodies]


def expect_parts(rows, lanes):
    """The rows are those that a first part of each lane leaves, played in the order in which they were accepted: a run of these
    calls by themselves leaves the same, and says what is kept. How many calls there are is answered."""
    calls = [it for lane in lanes for it in lane]
    kept, replies = kept_calls(rows, calls)
    names = [(it["actor"], it["number"]) for it in kept]
    for lane in lanes:
        mine = [(it["actor"], it["number"]) for it in lane]
        there = [it for it in names if it in set(mine)]
        expect("the calls of a lane that are kept", mine[:len(there)], there)
    expect_alone(rows, kept, replies)
    return len(kept)


def expect_alone(rows, kept, replies):
    """A run of the kept calls by themselves says the kept replies, and leaves the same rows. The clock may have moved oftener where
    other lines were answered, too."""
    if (META, 0) not in rows:
        return expect("rows without that of the clock", {}, rows)
    now = json.loads(rows[META, 0])["now"]
    with Desk() as alone:
        said, _ = alone.done(kept + [view(now)])
        expect("the replies of the kept calls by themselves", replies, said[:-1])
        wanted, events = uncounted(alone.rows())
        got, more = uncounted(rows)
        same_rows("after %d calls by themselves" % len(kept), wanted, got)
        hold(events <= more, "events", more, "where the calls by themselves make", events)


def replies_kept(rows):
    """The rows of kept replies, in order."""
    return [(row, rows[row]) for row in sorted(rows) if row[0] == REPLY]


def expect_front(whole, rows):
    """The replies that are kept are the first of others. How many these are is answered."""
    kept = replies_kept(rows)
    expect("the replies that are kept", replies_kept(whole)[:len(kept)], kept)
    return len(kept)


def uncounted(rows):
    """Rows without the number of events, and that number."""
    meta = json.loads(rows[META, 0])
    events = meta.pop("events")
    return {**rows, (META, 0): written(meta)}, events


def same_rows(what, wanted, got):
    for key in sorted(set(wanted) | set(got)):
        expect("row %s %s" % (key, what), wanted.get(key), got.get(key))


def expect_opens(desk, lanes):
    """A desk is opened over what is left, and holds a first part of each lane, too. How many calls that are is answered."""
    with desk.copy() as copy:
        run = copy.ran("run", "/dev/null")
        hold(run.status == 0 and run.said.endswith(CLOSED.encode()), "the next run ends with", run.status, run.said[:300])
        return expect_parts(copy.rows(), lanes)


# --- the service


def listening(port):
    """Whether something listens at that port of this machine, as the kernel tells."""
    for _, local, _, state, *_ in map(str.split, Path("/proc/net/tcp").read_text().splitlines()[1:]):
        if state == LISTENS and local.endswith(":%04X" % port):
            return True
    return False


class Link(http.client.HTTPConnection):
    """A connection for one request after another. `silent` is how many seconds it had been silent when the latest request was sent."""

    def connect(self):
        self.last, self.silent = time.monotonic(), 0.0
        super().connect()

    def send(self, data):
        try:
            super().send(data)
        finally:
            self.silent = time.monotonic() - self.last

    def getresponse(self):
        answer = super().getresponse()
        self.last = time.monotonic()
        return answer


class Service:
    """The program, which serves so many connections in a desk's folder. It is killed where the block ends, if it hasn't ended."""

    # how many seconds a connection may be silent, and after how many the service may end it at the earliest
    idle = least = 30

    def __init__(self, desk, connections=1000, **how):
        self.start(desk, free_port(), "serve", str(connections), **how)

    def start(self, desk, port, command, *words, **how):
        self.port, self.out = port, tempfile.TemporaryFile()
        self.process = desk.start(command, str(port), *words, out=self.out, **how)

    def listens(self):
        """Whether it comes to listen before it ends."""
        last = time.monotonic() + PATIENCE
        while not listening(self.port):
            if self.process.poll() is not None or time.monotonic() > last:
                return False
            time.sleep(0.005)
        return True

    def __enter__(self):
        if self.listens():
            return self
        status = self.process.returncode
        self.__exit__()
        raise Differs("nothing listens at port %d: status %s" % (self.port, status))

    def __exit__(self, kind=None, fault=None, *_):
        """Kills it, and tells of one that had ended by itself if the block fails."""
        if self.process.returncode is None:
            status = self.process.poll()
            self.process.kill()
            self.process.wait()
            if fault is not None and status is not None:
                fault.add_note("the service had ended with status %d and wrote %r" % (status, self.written()))
        self.out.close()

    def written(self):
        """What it has written to standard output, at most its first 300 bytes."""
        return os.pread(self.out.fileno(), 300, 0)

    def ended(self, seconds=2 * PATIENCE):
        status, most = wait(self.process, seconds)
        self.out.seek(0)
        return Ran(status, self.out.read(), most)

    def connected(self, seconds=PATIENCE):
        return socket.create_connection(("127.0.0.1", self.port), timeout=seconds)

    def link(self, seconds=PATIENCE):
        return Link("127.0.0.1", self.port, timeout=seconds)

    def may_have_ended(self, link):
        """Whether a connection was silent for so long that the service may have ended it, as happens where the machine stalls."""
        return link.silent > self.least - min(EARLY, self.least / 4)


class Staying(Service):
    """The program, which serves in a desk's folder until it is ended, with what it writes to standard error."""

    # (a fifth of a second if all its workers are taken)
    idle, least = 5, 0.2

    def __init__(self, desk, port=0, **how):
        self.err = tempfile.TemporaryFile()
        self.start(desk, port or free_port(), "stay", err=self.err, **how)

    def __exit__(self, *fault):
        super().__exit__(*fault)
        self.err.close()

    def written(self):
        return super().written() + self.told().encode()

    def told(self):
        """What it has written to standard error so far."""
        return os.pread(self.err.fileno(), 1 << 20, 0).decode(errors="replace")

    def ended_by(self, number):
        """Ends it by a signal, which it must do at once, without a word."""
        self.process.send_signal(number)
        run = self.ended()
        expect("status and output after signal %d" % number, (-number, b""), (run.status, run.said))


def asked(link, call):
    """The status and the body that a call is answered over a link; the moment is the service's own."""
    body = written({name: it for name, it in call.items() if name != "at"})
    link.request("POST", "/call", body)
    answer = link.getresponse()
    return answer.status, json.loads(answer.read())


def board(link):
    link.request("GET", "/board", headers={"Desk-Actor": "okafor", "Desk-Key": KEYS["okafor"]})
    answer = link.getresponse()
    return answer.status, json.loads(answer.read())


# --- cases


def passes(case, *words):
    """Whether a case passes. It answers what it has shown, and a line is printed of it."""
    began = time.monotonic()
    name = case.__name__.replace("_", " ")
    try:
        shown_by = case(*words)
    except Skipped as why:
        print("%s: skipped: %s" % (name, why), flush=True)
        return None
    except Exception as fault:
        print("%s: FAILED: %s" % (name, fault if isinstance(fault, Differs) else repr(fault)), *getattr(fault, "__notes__", ()), sep="\n", flush=True)
        return False
    print("%s: %s (%.0f s)" % (name, shown_by, time.monotonic() - began), flush=True)
    return True


def all_pass(name, cases):
    passed = [passes(*case) if isinstance(case, tuple) else passes(case) for case in cases]
    print("%s: %d passed, %d skipped, %d failed" % (name, passed.count(True), passed.count(None), passed.count(False)))
    return 0 if False not in passed else 1
