"""A desk, nginx and a feed in a scratch folder, for the checks of the office.

Each wait is for a condition, and ends after some seconds by a fault. What is started ends with the check, however that ends.
"""
import contextlib
import ctypes
import os
import re
import shlex
import shutil
import signal
import socket
import ssl
import subprocess
import sys
import tempfile
import threading
import time
from datetime import datetime, timedelta, timezone
from pathlib import Path

HERE = Path(__file__).resolve().parent.parent.parent
sys.path.append(str(HERE / "tools"))
from ports import free_port

OFFICE = HERE / "office"
TABLES = HERE / "examples" / "one_flight"
# The built program; DESK_PROGRAM names another command that takes the same words.
PROGRAM = shlex.split(os.environ.get("DESK_PROGRAM", str(HERE / "crates/release_desk/out/release_desk")))
# Seconds for what takes a moment where the machine has nothing else to do.
PATIENCE = 60
NOBODY = 65534
PR_SET_PDEATHSIG = 1


class Failed(Exception):
    """Something isn't as it should be."""


class Late(Failed):
    """A time that isn't as it should be, which may be the machine's fault."""


def in_time(holds, what):
    if not holds:
        raise Late(what)


def expect(what, holds, got=""):
    if not holds:
        raise Failed("%s%s" % (what, "\n  got: %s" % got if got != "" else ""))


def until(what, test, seconds=PATIENCE):
    """The first true answer of a test, within some seconds. `what` is a text, or says it at the end."""
    end = time.monotonic() + seconds
    while True:
        got = test()
        if got:
            return got
        if time.monotonic() > end:
            raise Failed("within %d s: %s" % (seconds, what() if callable(what) else what))
        time.sleep(0.1)


def ended(*words, **options):
    """What a command has said and its status, once it has ended."""
    try:
        return subprocess.run(words, capture_output=True, text=True, timeout=PATIENCE, **options)
    except subprocess.TimeoutExpired as fault:
        raise Failed("%s hasn't ended after %d s" % (words[0], PATIENCE)) from fault


def stops_by_fault():
    """Lets a check that is told to end clear up after itself."""
    def stop(number, _):
        raise Failed("it was ended by signal %d" % number)
    for number in (signal.SIGTERM, signal.SIGHUP, signal.SIGINT):
        signal.signal(number, stop)


def is_overloaded():
    """Whether more programs want to run than can, in the last minute or in the last ten seconds."""
    told = Path("/proc/pressure/cpu")
    some = re.search(r"some avg10=([0-9.]+)", told.read_text()) if told.exists() else None
    return os.getloadavg()[0] > os.cpu_count() or bool(some and float(some[1]) > 25)


class Stalls(threading.Thread):
    """Adds up in `lost`, for a minute, for how many seconds this process didn't run although it was to."""

    def __init__(self):
        super().__init__(daemon=True)
        self.lost = 0.0
        self.start()

    def run(self):
        end = time.monotonic() + PATIENCE
        while time.monotonic() < end:
            began = time.monotonic()
            time.sleep(0.1)
            self.lost += max(0.0, time.monotonic() - began - 0.3)


def moment(minutes):
    return (datetime.now(timezone.utc) + timedelta(minutes=minutes)).strftime("%Y-%m-%dT%H:%MZ")


def period(now, hours):
    """A period from now on, as a forecast writes it."""
    return now.strftime("%d%H") + "/" + (now + timedelta(hours=hours)).strftime("%d%H")


def forecast(station, said, amended="", worse=""):
    """A TAF that was issued now and is valid for a day and more. `worse` is what it says of the next four hours besides."""
    now = datetime.now(timezone.utc)
    besides = " TEMPO %s %s" % (period(now, 4), worse) if worse else ""
    return "TAF %s%s %s %s 16008KT %s%s" % (amended, station, now.strftime("%d%H%MZ"), period(now, 28), said, besides)


LIBC = ctypes.CDLL(None)


def ends_with_parent():
    LIBC.prctl(PR_SET_PDEATHSIG, signal.SIGTERM)


class Service:
    """A process of the scratch folder, with those that it starts."""

    def __init__(self, words, folder, log):
        self.log = log
        with open(log, "ab") as out:
            self.process = subprocess.Popen(words, cwd=folder, stdin=subprocess.DEVNULL, stdout=out, stderr=out, start_new_session=True,
                                            preexec_fn=ends_with_parent)

    def listens(self, port):
        """Whether it listens at the port; a fault where it has ended."""
        expect("%s runs" % self.process.args[0], self.process.poll() is None, self.log.read_text(errors="replace")[-600:])
        return listens(port)

    def stop(self, how=signal.SIGTERM):
        with contextlib.suppress(ProcessLookupError):
            os.killpg(self.process.pid, how)
        try:
            self.process.wait(PATIENCE)
        except subprocess.TimeoutExpired:
            os.killpg(self.process.pid, signal.SIGKILL)
            self.process.wait(PATIENCE)
            raise Failed("%s doesn't end when it is told to" % self.process.args[0]) from None


def listens(port):
    with socket.socket() as it:
        it.settimeout(5)
        return it.connect_ex(("127.0.0.1", port)) == 0


class Office:
    """All that an office runs, at free ports of 127.0.0.1."""

    def __init__(self, folder):
        self.folder = Path(folder)
        self.state = self.folder / "state"
        self.spool = self.folder / "spool"
        self.state.mkdir()
        self.spool.mkdir()
        for table in TABLES.glob("*.csv"):
            shutil.copy(table, self.state)
        self.desk_port, self.http_port, self.port = free_port(), free_port(), free_port()
        self.url = "https://127.0.0.1:%d/" % self.port
        self.services, self.practice = {}, None

    def start_desk(self):
        self.services["desk"] = Service([*PROGRAM, "stay", str(self.desk_port)], self.state, self.folder / "desk.log")
        until("the desk listens", lambda: self.services["desk"].listens(self.desk_port))

    def start_nginx(self, changes=()):
        """Starts nginx with its configuration, in which each old text of `changes` is replaced by the new one."""
        tls = self.folder / "tls"
        made = ended("openssl", "req", "-x509", "-newkey", "rsa:2048", "-nodes", "-days", "2", "-subj", "/CN=127.0.0.1",
                     "-keyout", "%s.key" % tls, "-out", "%s.crt" % tls)
        expect("openssl makes a certificate", made.returncode == 0, made.stderr)
        site = (OFFICE / "nginx" / "vomidegu-desk.conf").read_text()
        for old, new in (("listen 80;", "listen 127.0.0.1:%d;" % self.http_port), ("listen [::]:80;", ""),
                         ("listen 443 ssl", "listen 127.0.0.1:%d ssl" % self.port), ("listen [::]:443 ssl http2;", ""),
                         ("127.0.0.1:8080", "127.0.0.1:%d" % self.desk_port), ("/etc/vomidegu-desk/tls", str(tls)),
                         ("/usr/share/vomidegu-desk/page", str(OFFICE / "page")), ("/var/log/nginx/", "%s/" % self.folder), *changes):
            expect("nginx's configuration has %s" % old, old in site)
            site = site.replace(old, new)
        (self.folder / "site.conf").write_text(site)
        temps = "".join("%s_temp_path %s/%s;" % (it, self.folder, it) for it in ("client_body", "proxy", "fastcgi", "uwsgi", "scgi"))
        user = "user root;" if os.geteuid() == 0 else ""
        whole = "%s daemon off; worker_processes 4; pid %s/nginx.pid; error_log %s/nginx.log;\nevents { }\nhttp { include /etc/nginx/mime.types; %s include %s/site.conf; }\n"
        (self.folder / "nginx.conf").write_text(whole % (user, self.folder, self.folder, temps, self.folder))
        words = [shutil.which("nginx") or "/usr/sbin/nginx", "-e", str(self.folder / "nginx.log"), "-c", str(self.folder / "nginx.conf")]
        tested = ended(*words, "-t", "-q")
        expect("nginx takes its configuration", tested.returncode == 0, tested.stderr)
        self.services["nginx"] = Service(words, self.folder, self.folder / "nginx.out")
        until("nginx listens", lambda: self.services["nginx"].listens(self.port))

    def start_practice(self):
        """Starts nginx by the command of docs/OPERATIONS.md for a practice desk, as a user without rights if this one is root, and returns its URL."""
        # (beside the scratch folder, which no other user may enter)
        folder, port = Path(tempfile.mkdtemp(prefix="practice-", dir="/tmp")), free_port()
        shutil.copytree(OFFICE, folder / "office", ignore=shutil.ignore_patterns("__pycache__"))
        site = folder / "office" / "nginx" / "practice.conf"
        made = site.read_text()
        paths = [line.strip() for line in made.splitlines() if "location ~" in line]
        expect("both configurations pass the same paths on", paths and paths[0] in (OFFICE / "nginx" / "vomidegu-desk.conf").read_text(), paths)
        for old, new in (("127.0.0.1:8085", "127.0.0.1:%d" % port), ("127.0.0.1:8082", "127.0.0.1:%d" % self.desk_port), ("/tmp/vomidegu-practice", str(folder))):
            expect("the practice configuration has %s" % old, old in made)
            made = made.replace(old, new)
        site.write_text(made)
        documented = [line for line in (HERE / "docs" / "OPERATIONS.md").read_text().splitlines() if line.startswith("/usr/sbin/nginx -p office ")]
        user = ["setpriv", "--reuid", str(NOBODY), "--regid", str(NOBODY), "--clear-groups"] if os.geteuid() == 0 else []
        start, stop = ([*user, *shlex.split(line.replace("/tmp/vomidegu-practice", str(folder)), comments=True)] for line in documented)
        if user:
            os.chown(folder, NOBODY, NOBODY)
        self.practice = folder, stop
        started = ended(*start, cwd=folder)
        expect("the practice nginx starts", started.returncode == 0, started.stderr)
        return "http://127.0.0.1:%d/" % port

    def stop_practice(self):
        (folder, stop), self.practice = self.practice, None
        stopped = ended(*stop, cwd=folder)
        expect("the practice nginx stops", stopped.returncode == 0, stopped.stderr)
        until("it has ended", lambda: not (folder / "nginx.pid").exists())
        shutil.rmtree(folder)

    def silent_links(self):
        """Connections to nginx that send nothing, half a head and half a body."""
        context, links = ssl._create_unverified_context(), []
        for said in (b"", b"GET /board HTTP/1.1\r\nHost: d\r\n", b"POST /call HTTP/1.1\r\nHost: d\r\nContent-Length: 90\r\n\r\n{\"actor\":"):
            links.append(context.wrap_socket(socket.create_connection(("127.0.0.1", self.port), PATIENCE), server_hostname="desk"))
            links[-1].sendall(said)
        return links

    def nothing_secret(self):
        """No log contains a key."""
        keys = [line.split(",")[1] for line in (self.state / "actors.csv").read_text().splitlines()[1:]]
        for log in self.folder.glob("*.log"):
            held = log.read_text(errors="replace")
            expect("%s contains no key" % log.name, not any(key in held for key in keys))

    def feed_words(self, *words):
        key = self.folder / "feed.key"
        key.write_text("wxfeed feed-9051\n")
        return [str(OFFICE / "feed" / "feed"), "--desk", "127.0.0.1:%d" % self.desk_port, "--as", str(key),
                "--keep", str(self.folder / "feed.db"), "--stations", str(self.state / "airports.csv"), *words]

    def start_feed(self):
        self.services["feed"] = Service(self.feed_words("--watch", str(self.spool)), self.folder, self.folder / "feed.log")

    def bring(self, name, *reports):
        """Puts a file of reports where the feed looks."""
        (self.spool / name).write_text("\n".join(reports) + "\n")

    def stop(self, name, how=signal.SIGTERM):
        self.services.pop(name).stop(how)

    def stop_all(self):
        """Stops all, whatever comes of one, and then says so."""
        with contextlib.ExitStack() as each:
            if self.practice:
                each.callback(self.stop_practice)
            for name in list(self.services):
                each.callback(self.stop, name)
