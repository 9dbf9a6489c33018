"""Sixteen clients that play with a service at random, and what the desk must hold of what they were told."""
import contextlib
import http.client
import itertools
import json
import math
import random
import threading
import time
from datetime import datetime, timedelta, timezone

from desks import KEYS, PATIENCE, RELEASE, REPLY, REPORT, asked, board, expect, expect_alone, hold, kept_calls, plan, shown, written

CLIENTS = 16
# the refusal of a call that couldn't be stored
UNKEPT = 26
ELSEWHERE = ("KGEG", "KBOI", "CYVR")


def today():
    return datetime.now(timezone.utc).replace(second=0, microsecond=0, tzinfo=None)


def posted(call):
    body = written({name: it for name, it in call.items() if name != "at"}).encode()
    return b"POST /call HTTP/1.1\r\nContent-Length: %d\r\n\r\n%s" % (len(body), body)


def plan_for(now, flight):
    made = plan("VM%d" % flight)
    leg, begin = made["legs"][0], now + timedelta(minutes=90)
    leg["etd"], leg["eta"] = shown(begin), shown(begin + timedelta(minutes=60))
    return made


def over(service, link, ask, *words):
    """What is answered over a link. One that the service ended because it was silent for too long is opened again."""
    for _ in range(2):
        try:
            return ask(link, *words)
        except ConnectionError:
            if not service.may_have_ended(link):
                raise
            link.close()
    return ask(link, *words)


def expect_board(service, seconds=PATIENCE):
    with contextlib.closing(service.link(seconds)) as link:
        status, said = over(service, link, board)
    expect("the status of a view", 200, status)
    hold(said["seen"].startswith("BOARD "), "no board:", said)


def heard_to_the_end(link):
    """What comes until the desk ends its writing."""
    heard = b""
    while some := link.recv(65_536):
        heard += some
    return heard


class Beside(threading.Thread):
    """A case that is played beside others."""

    def __init__(self, case):
        super().__init__(daemon=True)
        self.case, self.passed = case, False
        self.__name__ = case.__name__
        self.start()

    def run(self):
        try:
            self.shown_by = self.case()
            self.passed = True
        except Exception as fault:  # told by whoever waits for it
            self.fault = fault

    def __call__(self):
        self.join()
        if not self.passed:
            raise self.fault
        return self.shown_by


class Played:
    """What the clients of a desk asked, and what they were told, each by the person and the number. `open` has the call of each client
    to which it has no answer yet."""

    def __init__(self, seed):
        self.lock = threading.Lock()
        self.pick = random.Random(seed)
        self.numbers = [itertools.count((place + 1) * 10_000_000) for place in range(CLIENTS)]
        self.calls, self.replies, self.open = {}, {}, {}
        self.cuts = self.views = self.connections = 0

    def told(self, call, status, said):
        name = call["actor"], call["number"]
        with self.lock:
            self.calls[name] = call
            if status == 200:
                hold("done" in said, "a call is answered", said)
                hold(self.replies.setdefault(name, said) == said, "the call", name, "is told", said, "after", self.replies[name])
            else:
                hold("refused" in said and name not in self.replies, "the call", name, "is answered", status, said)

    def count(self, what, by=1):
        with self.lock:
            setattr(self, what, getattr(self, what) + by)


class Unkept(Exception):
    """A call couldn't be stored. Where a server keeps the rows, it may be there all the same: it stays open, and the client makes no other."""


class Client(threading.Thread):
    """One client of a service, until its time is up or the service is killed, or so many connections were opened. It begins with the call
    to which it has no answer yet."""

    def __init__(self, played, service, place, until, most):
        super().__init__(daemon=True)
        self.played, self.service, self.place, self.until, self.most = played, service, place, until, most
        self.pick, self.numbers = random.Random(played.pick.random()), played.numbers[place]
        self.link, self.ends_at = None, 0.0
        self.mine = {}
        self.fault, self.is_unkept = None, False

    def run(self):
        try:
            if self.place in self.played.open:
                self.tell(self.played.open[self.place])
            while not self.is_over():
                self.act()
        except Unkept:
            self.is_unkept = True
        except Exception as fault:  # told by the thread that joins this one
            self.fault = fault
        finally:
            self.hang_up()

    def is_over(self):
        return time.monotonic() > self.until or self.played.connections > self.most

    def hang_up(self):
        if self.link is not None:
            self.link.close()
            self.link = None

    def connected(self):
        if self.link is not None and time.monotonic() > self.ends_at:
            self.hang_up()
        if self.link is None:
            self.link = self.service.link(PATIENCE)
            self.link.connect()
            self.played.count("connections")
            self.ends_at = time.monotonic() + self.pick.uniform(0.05, 0.6)
        return self.link

    def cuts(self, call):
        """Sends a part of the request, or all of it, and hears no answer."""
        whole = posted(call)
        self.connected().sock.sendall(whole[:self.pick.choice((1, len(whole) // 2, len(whole) - 1, len(whole), len(whole)))])
        if self.pick.random() < 0.5:
            time.sleep(self.pick.uniform(0, 0.005))
        self.hang_up()
        self.played.count("cuts")

    def ask(self, actor, ask):
        return self.tell({"actor": actor, "ask": ask, "key": KEYS[actor], "number": next(self.numbers)})

    def tell(self, call):
        """Makes a call, which stays open until it is answered."""
        self.played.open[self.place] = call
        while not self.is_over() and self.pick.random() < 0.06:
            self.cuts(call)
        status, said = over(self.service, self.connected(), asked, call)
        self.played.told(call, status, said)
        if said.get("refused") == UNKEPT:
            raise Unkept
        del self.played.open[self.place]
        if status == 200 and self.pick.random() < 0.05:
            again = over(self.service, self.connected(), asked, call)
            expect("the answer to a call that comes again", (status, said), again)
        return said.get("done")

    def act(self):
        what = self.pick.random()
        if what < 0.05:
            self.look()
        elif what < 0.08:
            self.release()
        elif what < 0.10 and self.mine:
            number = self.pick.choice(sorted(self.mine))
            if self.ask("okafor", {"do": "cancel", "release": number}):
                self.mine[number] = "CANCELLED"
        else:
            at = today() - timedelta(minutes=self.pick.randrange(0, 50))
            text = "METAR %s %s %03d%02dKT %dSM BKN%03d RMK %d" % (
                self.pick.choice(ELSEWHERE), at.strftime("%d%H%MZ"), self.pick.randrange(36) * 10, self.pick.randrange(5, 30),
                self.pick.randrange(1, 10), self.pick.randrange(5, 90), next(self.numbers))
            hold(self.ask("wxfeed", {"do": "admit", "text": text}), "a report isn't admitted:", text)

    def release(self):
        """A release that is drafted, and maybe prepared, signed and concurred in."""
        draft = self.ask("okafor", {"do": "draft", "plan": plan_for(today(), self.pick.randrange(1, 9_000))})
        hold(draft, "a draft isn't filed")
        number = draft["release"]
        self.mine[number] = "DRAFTED"
        if self.pick.random() < 0.7:
            prepared = self.ask("okafor", {"do": "prepare", "release": number})
            hold(prepared, "release", number, "isn't prepared")
            signing = {"release": number, "revision": 1, "digest": prepared["digest"]}
            hold(self.ask("okafor", {"do": "sign", **signing}), "release", number, "isn't signed")
            if self.pick.random() < 0.5:
                hold(self.ask("hayes", {"do": "concur", **signing}), "release", number, "isn't concurred in")
                self.mine[number] = "READY"

    def look(self):
        """The board shows each release of this client as it was told of it."""
        status, said = over(self.service, self.connected(), board)
        expect("the status of a view", 200, status)
        self.played.count("views")
        lines = [line.split(" ") for line in said["seen"].split("\n")]
        states = {int(words[0]): words[3] for words in lines if words[0].isdigit()}
        for number, state in self.mine.items():
            expect("the state of release %d on the board" % number, state, states.get(number))


def forecasts(played, link, numbers):
    """Fair weather where the releases fly."""
    now = today()
    hour = now.replace(minute=0)
    for station in ("KPDX", "KSEA"):
        text = "TAF %s %s %s/%s 10005KT P6SM BKN045" % (
            station, now.strftime("%d%H%MZ"), hour.strftime("%d%H"), (hour + timedelta(hours=24)).strftime("%d%H"))
        call = {"actor": "wxfeed", "ask": {"do": "admit", "text": text}, "key": KEYS["wxfeed"], "number": next(numbers)}
        status, said = asked(link, call)
        expect("the answer to a forecast", 200, status)
        played.told(call, status, said)


def clients_of(service, played, seconds, most=math.inf):
    """Sixteen clients, which have begun to play with a service."""
    played.connections = 0
    if not played.calls:
        link = service.link()
        forecasts(played, link, played.numbers[0])
        link.close()
    until = time.monotonic() + seconds
    clients = [Client(played, service, place, until, most) for place in range(CLIENTS)]
    for it in clients:
        it.start()
    return clients


def expect_over(clients, seconds, is_killed=False, keeps=True):
    """All clients end within some seconds and without a fault. Where the service was killed, each may have lost its connection; where its
    server was, a call may not have been stored."""
    last = time.monotonic() + seconds
    for it in clients:
        it.join(max(last - time.monotonic(), 0.1))
        hold(not it.is_alive(), "a client waits for an answer")
        hold(not (keeps and it.is_unkept), "a call couldn't be stored")
        if it.fault is not None and not (is_killed and isinstance(it.fault, (OSError, http.client.HTTPException))):
            raise it.fault


def kept_replies_of(rows):
    """The stored replies by person and number, none of which is there twice."""
    kept = [json.loads(rows[row]) for row in sorted(rows) if row[0] == REPLY]
    found = {(it["actor"], it["number"]): it["reply"] for it in kept}
    expect("how often each call is kept", len(found), len(kept))
    return found


def expect_answered(desk, played):
    """Each call that was answered as done is kept once, with that reply. What is kept beyond that is an open call. How many of these are
    kept is answered."""
    kept = kept_replies_of(desk.rows())
    for name, reply in played.replies.items():
        expect("the reply that is kept of %s" % (name,), reply, kept.pop(name, None))
    unanswered = {(it["actor"], it["number"]) for it in played.open.values()}
    hold(set(kept) <= unanswered, "kept, and asked by nobody:", sorted(set(kept) - unanswered))
    return len(kept)


def expect_kept(desk, played):
    """What was answered as done is kept exactly once, and nothing else is. A run of these calls by themselves leaves the same."""
    rows = desk.rows()
    kept = kept_replies_of(rows)
    expect("the calls that are kept", sorted(played.replies), sorted(kept))
    for name, reply in kept.items():
        expect("the reply that is kept", played.replies[name], reply)
    done = [played.calls[name]["ask"]["do"] for name in kept]
    held = {kind: sum(1 for row in rows if row[0] == kind) for kind in (REPORT, RELEASE)}
    expect("how many reports and releases are held", {REPORT: done.count("admit"), RELEASE: done.count("draft")}, held)
    expect_alone(rows, *kept_calls(rows, played.calls.values()))
    return len(kept)
