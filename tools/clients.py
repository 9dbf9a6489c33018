"""Clients of a service that cost little, and a program that answers in its place, for `tools/measure`.

Each client sends its next request as soon as the last one is answered. Those of `load` keep their connections, those of `load_renewed` open a
new one now and then, as nginx does. Clients are dealt out to as many processes as there are processors, so that they don't wait for one
another within Python.
"""
import array
import math
import multiprocessing
import os
import select
import socket
import sys
import time
from collections import namedtuple

OK = b"HTTP/1.1 200"
FORK = multiprocessing.get_context("fork")
# What clients saw: how many answers and the seconds of it all, how long each answer took, in order, the processor's seconds of the
# clients themselves, and the last answer.
Load = namedtuple("Load", "count seconds waits client answer")


def rate(load):
    return load.count / load.seconds


def part(load, share):
    """The wait that so large a share of all waits doesn't pass."""
    return load.waits[min(int(len(load.waits) * share), len(load.waits) - 1)]


def connected(port):
    for _ in range(400):
        try:
            return socket.create_connection(("127.0.0.1", port), timeout=60)
        except ConnectionRefusedError:
            time.sleep(0.025)
    sys.exit("nothing listens")


def more(link):
    said = link.recv(65536)
    if not said:
        sys.exit("a connection ends within an answer")
    return said


def whole(link, said):
    """An answer that begins so."""
    while b"\r\n\r\n" not in said:
        said += more(link)
    head, _, _ = said.partition(b"\r\n\r\n")
    length = len(head) + 4 + next(int(it.split(b":")[1]) for it in head.split(b"\r\n") if it.lower().startswith(b"content-length"))
    while len(said) < length:
        said += more(link)
    return said


def answers(links, until, most):
    """When each answer had come, how long it took, and the last one, until that moment or until so many have come."""
    poll, clock, sent, waits, said, usual = select.epoll(), time.monotonic, {}, array.array("d"), b"", 0
    for fd, (link, requests) in links.items():
        poll.register(fd, select.EPOLLIN)
        link.sendall(next(requests))
        sent[fd] = clock()
    # one link is waited for by reading from it
    wait, left = poll.poll if len(links) > 1 else lambda: [(fd, 0)], len(links)
    while left:
        for fd, _ in wait():
            link, requests = links[fd]
            said = more(link)
            if len(said) != usual:
                said = whole(link, said)
                usual = len(said)
            now = clock()
            waits.append(now - sent[fd])
            if not said.startswith(OK):
                sys.exit(f"a request is answered {said[:300]!r}")
            if now < until and len(waits) < most:
                link.sendall(next(requests))
                sent[fd] = now
            else:
                left -= 1
    return waits, said


def client(port, streams, seconds, most, barrier, tell):
    """Plays the clients of one process: each connects and asks once, and goes on when all are there."""
    links = {}
    for requests in streams:
        link = connected(port)
        link.setsockopt(socket.IPPROTO_TCP, socket.TCP_NODELAY, 1)
        links[link.fileno()] = link, requests
    answers(links, 0, 1)
    barrier.wait()
    barrier.wait()
    began, used = time.monotonic(), time.process_time()
    waits, said = answers(links, began + seconds, most)
    tell.send((began, time.monotonic(), time.process_time() - used, waits.tobytes(), said))
    barrier.wait()
    for link, _ in links.values():
        link.close()


def dealt(streams):
    workers = min(len(streams), os.cpu_count())
    return [streams[n::workers] for n in range(workers)]


def load(ports, streams, seconds, most=math.inf, at_begin=lambda: None, at_end=lambda: None):
    """What clients see who send these streams of requests, each over a connection, for so many seconds or until so many are answered. The
    first answer over each connection doesn't count; something may be done once that has come, and at the end, before they are closed."""
    hands, told = dealt(streams), []
    barrier = FORK.Barrier(len(hands) + 1)
    for hand, port in zip(hands, ports):
        ours, theirs = FORK.Pipe(False)
        process = FORK.Process(target=client, args=(port, hand, seconds, most / len(hands), barrier, theirs), daemon=True)
        process.start()
        theirs.close()
        told.append((ours, process))
    barrier.wait(60)
    at_begin()
    barrier.wait(60)
    found = [ours.recv() for ours, _ in told]
    at_end()
    barrier.wait(60)
    for _, process in told:
        process.join()
    began, ended, used, waits, said = zip(*found)
    every = sorted(wait for it in waits for wait in array.array("d", it))
    return Load(len(every), max(ended) - min(began), every, sum(used), said[-1])


class Renewed:
    """A client that opens a new connection after so many requests. It sends a request again, over a new connection, if it gets no answer."""

    def __init__(self, port, requests, each, poll, links):
        self.port, self.requests, self.each, self.poll, self.links = port, requests, each, poll, links
        self.lost = 0
        self.request, self.asked = next(requests), time.monotonic()
        self.open()

    def open(self):
        self.link, self.left, self.said, self.is_open = socket.socket(), self.each, b"", False
        self.link.setblocking(False)
        self.link.setsockopt(socket.IPPROTO_TCP, socket.TCP_NODELAY, 1)
        self.link.connect_ex(("127.0.0.1", self.port))
        self.links[self.link.fileno()] = self
        self.poll.register(self.link, select.EPOLLOUT)

    def close(self):
        self.poll.unregister(self.link)
        del self.links[self.link.fileno()]
        self.link.close()

    def again(self):
        """Opens another connection. Where none can be had, the service starts again."""
        self.lost += self.is_open
        self.close()
        if not self.is_open:
            time.sleep(0.001)
        self.open()

    def moves(self):
        """Goes on as far as it can without waiting. Returns whether an answer is whole."""
        try:
            if not self.is_open:
                if self.link.getsockopt(socket.SOL_SOCKET, socket.SO_ERROR):
                    self.again()
                    return False
                self.is_open = True
                self.link.sendall(self.request)
                self.poll.modify(self.link, select.EPOLLIN)
                return False
            some = self.link.recv(65536)
        except OSError:
            some = b""
        if not some:
            self.again()
            return False
        self.said += some
        head, found, body = self.said.partition(b"\r\n\r\n")
        return bool(found) and len(body) >= next(int(it.split(b":")[1]) for it in head.split(b"\r\n") if it.lower().startswith(b"content-length"))

    def next(self):
        """Sends the next request."""
        if not self.said.startswith(OK):
            sys.exit(f"a request is answered {self.said[:300]!r}")
        self.request, self.asked, self.said = next(self.requests), time.monotonic(), b""
        self.left -= 1
        if not self.left:
            self.close()
            self.open()
            return
        try:
            self.link.sendall(self.request)
        except OSError:
            self.again()


def renewed(port, streams, seconds, each, barrier, tell):
    """Plays such clients of one process. Each request counts that began in time, whenever it is answered; half a minute later it is given up."""
    poll, links, waits, answered = select.epoll(), {}, array.array("d"), 0
    barrier.wait()
    until, used = time.monotonic() + seconds, time.process_time()
    clients = [Renewed(port, it, each, poll, links) for it in streams]
    while links and time.monotonic() < until + 30:
        for fd, _ in poll.poll(0.1):
            client = links.get(fd)
            if client is None or not client.moves():
                continue
            now = time.monotonic()
            waits.append(now - client.asked)
            answered += now < until
            if now < until:
                client.next()
            else:
                client.close()
    waits.extend(seconds + 30 for _ in links)
    tell.send((answered, waits.tobytes(), time.process_time() - used, sum(it.lost for it in clients)))


def load_renewed(port, streams, seconds, each):
    """What clients see who send these streams of requests for so many seconds, each over a new connection after so many requests. The last
    part is how often a connection ended without an answer."""
    told, barrier = [], FORK.Barrier(len(dealt(streams)))
    for hand in dealt(streams):
        ours, theirs = FORK.Pipe(False)
        FORK.Process(target=renewed, args=(port, hand, seconds, each, barrier, theirs), daemon=True).start()
        theirs.close()
        told.append(ours)
    answered, waits, used, lost = zip(*(it.recv() for it in told))
    return Load(sum(answered), seconds, sorted(wait for it in waits for wait in array.array("d", it)), sum(used), sum(lost))


def keep_silent(port, count):
    """Keeps so many connections that say nothing, each of which comes again as soon as it was ended. Others come first."""
    time.sleep(0.3)
    poll, links = select.epoll(), {}
    while True:
        while len(links) < count:
            link = socket.socket()
            link.setblocking(False)
            link.connect_ex(("127.0.0.1", port))
            links[link.fileno()] = link
            poll.register(link, select.EPOLLIN)
        for fd, _ in poll.poll():
            poll.unregister(fd)
            links.pop(fd).close()


def load_beside_silent(port, streams, seconds, silent):
    """As `load_renewed`, where connections are kept unless the service ends them, beside so many connections that say nothing."""
    other = FORK.Process(target=keep_silent, args=(port, silent), daemon=True)
    other.start()
    found = load_renewed(port, streams, seconds, math.inf)
    other.kill()
    other.join()
    return found


def answer_all(door, count, answer):
    """Answers so many connections of a door, each time something comes, with the same bytes."""
    poll, links = select.epoll(), {}
    poll.register(door, select.EPOLLIN)
    while count or links:
        for fd, _ in poll.poll():
            if fd == door.fileno():
                link, _ = door.accept()
                links[link.fileno()] = link
                poll.register(link, select.EPOLLIN)
                count -= 1
            elif links[fd].recv(65536):
                links[fd].sendall(answer)
            else:
                poll.unregister(fd)
                links.pop(fd).close()


def load_alone(streams, seconds, answer):
    """What the same clients see of Python programs, one for each of their processes, which answer whatever they ask with the same bytes."""
    doors, programs = [], []
    for hand in dealt(streams):
        door = socket.create_server(("127.0.0.1", 0))
        programs.append(FORK.Process(target=answer_all, args=(door, len(hand), answer), daemon=True))
        programs[-1].start()
        doors.append(door)
    found = load([it.getsockname()[1] for it in doors], streams, seconds)
    for door, program in zip(doors, programs):
        program.join()
        door.close()
    return found
