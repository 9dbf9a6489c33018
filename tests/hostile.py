"""Bytes, JSON, calls and reports that nobody should have sent: made, or made of good ones, by a random choice that a seed decides."""
import json
from datetime import timedelta

from desks import KEYS, NOW, HERE, shown, written

EXAMPLE = HERE / "examples" / "one_flight"
LIFE = [json.loads(it) for it in (EXAMPLE / "script").read_text().splitlines()]

PIECES = [it.encode("utf-8", "surrogatepass") for it in (
    "", "\0", "\t", " ", "  ", "\n", "\r", "\r\n", "\r\n\r\n", '"', "'", "\\", "\\u0000", "\\ud800", "\\ud83d\\ude00", "\\/", "[", "]", "{", "}",
    ",", ":", ";", "=", "[]", "{}", "[[", "null", "true", "-0", "0", "1", "00", "01", "-1", "1.0", "1e3", "1e999", "18446744073709551616",
    "1000000000000", "1000000000001", "9" * 40, "0.1", "NaN", '"do"', '"ask":', '"at":', "\ufeff", "\u00e9", "\u20ac", "\U0001f600", "\ud800", "\u2028",
    "2026-11-12T15:00Z", "2000-01-01T00:00Z", "2099-12-31T23:59Z", "2100-01-01T00:00Z", "2026-02-29T00:00Z", "2026-11-12T24:00Z",
    "KSEA", "KPDX", "EINN", "N237VM", "okafor", "METAR", "SPECI", "TAF", "AMD", "COR", "NIL", "CNL", "RMK", "TEMPO", "PROB30", "PROB40 TEMPO",
    "BECMG", "FM121800", "1212/1318", "1318/1212", "3299/3299", "121651Z", "312359Z", "000000Z", "OVC///", "VV000", "BKN999", "OVC0O4", "11/2SM",
    "M1/4SM", "P6SM", "0/0SM", "1/0SM", "CAVOK", "9999", "0000", "9999NDV", "SKC", "NSC", "24008G99KT", "$", "x" * 64, "x" * 65, "X" * 2_049,
    "[" * 127, "[" * 128, " " * 3_000, "GET /board HTTP/1.1\r\n\r\n", "POST /call HTTP/1.1\r\n", "Content-Length: 0\r\n", "Content-Length: 5\r\n",
    "Content-Length: 9999999\r\n", "Transfer-Encoding: chunked\r\n", "Connection: close\r\n", "Connection: keep-alive\r\n",
    "Expect: 100-continue\r\n", "Host: x\r\n", "HTTP/1.0", "HTTP/2.0", "/release/1", "/release/99999999999", "/weather/KSEA", "/deferred/a/b", "/board?x",
    "Desk-Actor: okafor\r\n", "Desk-Key: pine-4417\r\n", " \r\n x\r\n",
)] + [b"\xff", b"\xc0\x80", b"\xf4\x90\x80\x80", b"\xc3", b"\x80", b"\x7f", bytes(range(256))]


def bytes_of(pick, count):
    return bytes(pick.randrange(256) for _ in range(count))


def changed(pick, data, times):
    """Bytes with so many changes, each at a random place."""
    for _ in range(times):
        at = pick.randrange(len(data) + 1)
        end = min(len(data), at + int(2 ** pick.uniform(0, 8)))
        what = pick.randrange(8)
        if what == 0 and at < len(data):
            data = data[:at] + bytes([data[at] ^ 1 << pick.randrange(8)]) + data[at + 1:]
        elif what == 1:
            data = data[:at] + bytes_of(pick, pick.randrange(1, 9)) + data[at:]
        elif what == 2:
            data = data[:at] + data[end:]
        elif what == 3:
            data = data[:end] + data[at:end] * pick.randrange(1, 4) + data[end:]
        elif what == 4:
            to = pick.randrange(len(data) + 1)
            data = data[:to] + data[at:end] + data[to:]
        elif what == 5 and pick.random() < 0.2:
            data = data[:at]
        elif what == 6:
            data = data[:at] + pick.choice(PIECES) + data[end:]
        else:
            data = data[:at] + pick.choice(PIECES) + data[at:]
    return data


VALUES = [None, True, False, 0, 1, 2, -1, 3, 4, 7, 10**12, 10**12 + 1, 2**63, 2**64, 1.5, "", "1", "x" * 64, "x" * 65, "KSEA", "KPDX", "EINN", "N237VM",
          "21-1", "okafor", "hayes", "domestic", "flag", [], {}, [[]], [None], {"do": "board"}, "2026-11-12T14:00Z", "2026-11-12T18:00Z",
          "2026-13-12T14:00Z", "\0", "\u20ac", "0" * 64, "a" * 64, "g" * 64, 14_000, 1_000_000, 1_000_001, "X" * 2_049]


def value_changed(pick, value):
    """A JSON value with another value, key or order at one place."""
    if isinstance(value, dict) and value and pick.random() < 0.85:
        key, made = pick.choice(sorted(value)), dict(value)
        what = pick.random()
        if what < 0.08:
            del made[key]
        elif what < 0.13:
            made[pick.choice(sorted(value) + ["x", "at", "do", "release", ""])] = pick.choice(VALUES)
        else:
            made[key] = value_changed(pick, value[key])
        return made
    if isinstance(value, list) and value and pick.random() < 0.85:
        at, made = pick.randrange(len(value)), list(value)
        what = pick.random()
        if what < 0.1:
            del made[at]
        elif what < 0.3:
            made.insert(at, value[pick.randrange(len(value))])
        else:
            made[at] = value_changed(pick, value[at])
        return made
    if isinstance(value, str) and value and pick.random() < 0.4:
        return changed(pick, value.encode("utf-8", "surrogatepass"), 1).decode("utf-8", "replace")
    if type(value) is int and pick.random() < 0.5:
        return value + pick.choice((-1, 1, 10, -60, 60, 1_000))
    return pick.choice(VALUES)


# --- reports


GROUPS = ("10SM", "1/2SM", "1 1/2SM", "M1/4SM", "P6SM", "4800", "9999", "CAVOK", "SKC", "CLR", "FEW010", "SCT020", "BKN003", "OVC008", "VV002", "OVC///",
          "BKN012CB", "24008KT", "24012G20KT", "VRB03KT", "00000KT", "BR", "-RA", "FG", "+TSRA", "R28L/2600FT", "08/07", "M02/M05", "A2988", "Q1013",
          "RMK AO2", "TEMPO 1216/1218", "BECMG 1218/1220", "PROB30 1300/1303", "FM121800", "FM130000 20012KT", "NIL", "CNL", "NSW", "=", "WS020/24045KT")
STATIONS = ("KPDX", "KSEA", "KGEG", "KBOI", "CYVR", "EINN")


def report(pick, at):
    """A report that reads, mostly."""
    begin = at - timedelta(minutes=pick.randrange(0, 90))
    station = pick.choice(STATIONS if pick.random() < 0.9 else ("KXXX", "K", "ksea"))
    if pick.random() < 0.5:
        front = [pick.choice(("METAR", "METAR", "SPECI", "METAR COR")), station, begin.strftime("%d%H%MZ")]
    else:
        hour = begin.replace(minute=0)
        to = hour + timedelta(hours=pick.choice((6, 24, 30)))
        front = [pick.choice(("TAF", "TAF AMD", "TAF COR")), station, begin.strftime("%d%H%MZ"), hour.strftime("%d%H/") + to.strftime("%d%H")]
    groups = [pick.choice(GROUPS) for _ in range(pick.randrange(0, 9))]
    return " ".join(front + groups)


def report_changed(pick, text):
    words = text.split(" ")
    at = pick.randrange(len(words))
    what = pick.randrange(5)
    if what == 0:
        del words[at]
    elif what == 1:
        words.insert(at, words[pick.randrange(len(words))])
    elif what == 2:
        words.insert(at, pick.choice(GROUPS))
    elif what == 3:
        words[at] = changed(pick, words[at].encode(), 1).decode("utf-8", "replace")
    else:
        words[at] = pick.choice(PIECES).decode("utf-8", "replace")
    return " ".join(words)


def some_report(pick, at):
    text = report(pick, at)
    return report_changed(pick, text) if pick.random() < 0.3 else text


# --- calls


def a_plan(pick, at):
    made = json.loads(written(next(it["ask"]["plan"] for it in LIFE if it["ask"]["do"] == "draft")))
    begin = at + timedelta(minutes=pick.choice((30, 60, 90, 600)))
    for number, leg in enumerate(made["legs"]):
        leg["etd"], leg["eta"] = shown(begin + timedelta(minutes=100 * number)), shown(begin + timedelta(minutes=100 * number + 60))
    return value_changed(pick, made) if pick.random() < 0.4 else made


def an_ask(pick, at):
    """A person and what he asks: mostly what is his, and of what there may be."""
    release, digest = pick.choice((1, 1, 1, 2, 2, 3, 4, 0)), pick.choice(LIFE)["ask"].get("digest", "0" * 64)
    signing = {"release": release, "revision": pick.choice((1, 1, 2, 3)), "digest": digest}
    asks = [
        ("wxfeed", {"do": "admit", "text": some_report(pick, at)}), ("wxfeed", {"do": "admit", "text": some_report(pick, at)}),
        ("hangar", {"do": "defer", "tail": pick.choice(("N237VM", "N241VM")), "item": pick.choice(("21-1", "34-1", "34-2", "99-9")),
                    "found": shown(at - timedelta(minutes=pick.choice((0, 60, 6_000, -5))))}),
        ("hangar", {"do": "clear", "deferral": pick.randrange(0, 5)}), ("okafor", {"do": "draft", "plan": a_plan(pick, at)}),
        ("okafor", {"do": "prepare", "release": release}), ("okafor", dict(signing, do="sign")), ("hayes", dict(signing, do="concur")),
        ("okafor", {"do": "amend", "release": release, "plan": a_plan(pick, at)}), ("okafor", {"do": "cancel", "release": release}),
        ("hayes", {"do": "depart", "release": release, "leg": pick.choice((1, 1, 2, 3))}),
        ("hayes", {"do": "arrive", "release": release, "leg": pick.choice((1, 1, 2, 3))}),
        ("okafor", {"do": "acknowledge", "release": release, "version": pick.choice((1, 1, 2, 3))}),
        ("records", {"do": "purge", "release": release}), ("records", {"do": "sweep", "before": shown(at - timedelta(days=pick.choice((0, 3, 4))))}),
        ("okafor", {"do": "board"}), ("hayes", {"do": "alerts"}), ("okafor", {"do": "release", "release": release}),
        ("wxfeed", {"do": "weather", "station": pick.choice(STATIONS)}), ("hangar", {"do": "deferred", "tail": "N237VM"}),
    ]
    actor, ask = pick.choice(asks)
    return (pick.choice(sorted(KEYS)) if pick.random() < 0.04 else actor), ask


class Numbers:
    """The next number of each person; sometimes one that he had."""

    def __init__(self, pick, last=0):
        self.pick, self.last = pick, dict.fromkeys(KEYS, last)

    def of(self, actor):
        if self.last.get(actor, 0) and self.pick.random() < 0.05:
            return self.pick.randrange(self.last[actor] + 1)
        self.last[actor] = self.last.get(actor, 0) + 1
        return self.last[actor]


def calls(pick, count):
    """Calls of a day: the life of a release, where it may be, and others between and after."""
    numbers, at, life = Numbers(pick), NOW, iter(LIFE if pick.random() < 0.7 else ())
    for _ in range(count):
        whole = next(life, None) if pick.random() < 0.6 else None
        if whole is not None:
            at = max(at, NOW)
            actor, ask, moment = whole["actor"], whole["ask"], max(shown(at), whole["at"])
        else:
            at += timedelta(minutes=pick.choice((0, 0, 1, 1, 5, 20)))
            if pick.random() < 0.02:
                at += timedelta(days=pick.choice((1, 4, 100)))
            (actor, ask), moment = an_ask(pick, at), shown(at - timedelta(minutes=pick.choice((0, 0, 0, 0, 30))))
        key = KEYS[actor] if pick.random() > 0.02 else "none"
        yield {"actor": actor, "ask": ask, "at": moment, "key": key, "number": numbers.of(actor)}


def line_of(pick, call):
    """A line of a script for a call: written as it should be, mostly."""
    what = pick.random()
    if what < 0.75:
        return written(call).encode()
    if what < 0.85:
        return json.dumps(call, indent=None, ensure_ascii=False).encode()
    if what < 0.95:
        return json.dumps(value_changed(pick, call), ensure_ascii=False).encode("utf-8", "surrogatepass").replace(b"\n", b" ")
    return changed(pick, written(call).encode(), pick.choice((1, 1, 2, 5)))
