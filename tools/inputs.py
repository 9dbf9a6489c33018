"""What `tools/measure` has the program do: reports, and scripts of calls, the same each time."""
import datetime
import json
import random
from pathlib import Path

EXAMPLE = Path(__file__).resolve().parent.parent / "examples" / "one_flight"
KEYS = {"okafor": "pine-4417", "hayes": "gate-7730", "wxfeed": "feed-9051"}
START = datetime.datetime(2026, 11, 12)
AWAY = [f"K{a}{b}{c}" for a in "MNRTVX" for b in "ABCDEFG" for c in "HJKLPQS"]


def moment(minutes):
    return (START + datetime.timedelta(minutes=minutes)).strftime("%Y-%m-%dT%H:%MZ")


def stamp(minutes, form="%d%H%MZ"):
    return (START + datetime.timedelta(minutes=minutes)).strftime(form)


def metar(rng, minutes, station):
    sky = rng.choice(["CLR", "FEW050", "SCT020 BKN080", "BKN012 OVC020", "OVC006", "FEW015 SCT030 BKN110", "VV004"])
    seen = rng.choice(["10SM", "10SM", "6SM HZ", "3SM BR", "1 1/2SM RA BR", "1/2SM FG", "P6SM"])
    return f"METAR {station} {stamp(minutes)} {rng.randrange(1, 36):02d}0{rng.randrange(3, 20):02d}KT {seen} {sky} {rng.randrange(0, 28):02d}/M{rng.randrange(1, 9):02d} A{rng.randrange(2950, 3050)} RMK AO2 SLP{rng.randrange(0, 999):03d}"


def taf(rng, minutes, station):
    hour = lambda n: stamp(minutes // 60 * 60 + n * 60, "%d%H")
    parts = "".join(
        f" {word} {seen} {sky}"
        for word, seen, sky in (
            (f"FM{hour(5)}00 20012KT", "P6SM", rng.choice(["BKN030", "SCT025", "OVC015"])),
            (f"TEMPO {hour(7)}/{hour(9)}", "2SM BR", "OVC008"),
            (f"BECMG {hour(12)}/{hour(14)}", "P6SM", "SCT040"),
            (f"PROB30 {hour(16)}/{hour(18)}", "1SM FG", "VV003"),
        )
    )
    return f"TAF {station} {stamp(minutes)} {hour(1)}/{hour(25)} 18008KT P6SM BKN020{parts}"


def reports(count, make):
    """A file for `weather`: 240 reports an hour, in order of time."""
    rng = random.Random(7)
    return "".join(f"{moment(i // 4)} {make(rng, i // 4, AWAY[i % 280])}\n" for i in range(count))


class Script:
    """Lines of calls, which may be added in any order of time; each person's requests are numbered in theirs."""

    def __init__(self):
        self.calls = []

    def add(self, minutes, actor, do, **ask):
        self.calls.append((minutes, len(self.calls), actor, {"do": do, **ask}))

    def text(self, last=()):
        """The lines, where each person has used the numbers up to the last one."""
        last, lines = dict.fromkeys(KEYS, 0) | dict(last), []
        for minutes, _, actor, ask in sorted(self.calls, key=lambda it: it[:2]):
            last[actor] += 1
            lines.append(json.dumps({"actor": actor, "ask": ask, "at": moment(minutes), "key": KEYS[actor], "number": last[actor]}))
        return "\n".join(lines) + "\n"


def admissions(count):
    """METARs of 280 stations, which all report in one minute of each hour."""
    rng, script = random.Random(11), Script()
    for i in range(count):
        minutes = i // 280 * 60
        script.add(minutes, "wxfeed", "admit", text=metar(rng, minutes, AWAY[i % 280]))
    return script.text()


def plan(minutes):
    """The plan of the example, with its first departure at that minute."""
    drafted = next(line for line in map(json.loads, (EXAMPLE / "script").read_text().splitlines()) if line["ask"]["do"] == "draft")
    made = drafted["ask"]["plan"]
    for leg, (off, on) in zip(made["legs"], ((0, 60), (100, 160))):
        leg["etd"], leg["eta"] = moment(minutes + off), moment(minutes + on)
    return made


def lives(count, others, digests=()):
    """Whole lives of releases, one begun every five minutes, beside reports of 50 stations that none concerns."""
    script, rng, minutes = Script(), random.Random(13), 5 * count + 240
    for begin in range(4, minutes, 360):
        for station in ("KPDX", "KSEA", "KGEG"):
            script.add(begin, "wxfeed", "admit", text=f"TAF {station} {stamp(begin)} {stamp(begin // 60 * 60, '%d%H')}/{stamp(begin // 60 * 60 + 1800, '%d%H')} 18008KT P6SM SCT050")
    for i in range(others):
        at = 9 + i * (minutes - 9) // others
        script.add(at, "wxfeed", "admit", text=metar(rng, at, AWAY[i % 50]))
    for n in range(count):
        at, release, digest = 10 + 5 * n, n + 1, digests[n] if digests else "0" * 64
        script.add(at, "okafor", "draft", plan=plan(at + 30))
        script.add(at + 1, "okafor", "prepare", release=release)
        script.add(at + 2, "okafor", "sign", release=release, revision=1, digest=digest)
        script.add(at + 3, "hayes", "concur", release=release, revision=1, digest=digest)
        script.add(at + 3, "okafor", "release", release=release)
        for leg, off, on in ((1, 30, 90), (2, 130, 190)):
            script.add(at + off, "hayes", "depart", release=release, leg=leg)
            script.add(at + on, "hayes", "arrive", release=release, leg=leg)
    return script.text()


def active(count, digests=()):
    """Releases that are drafted, prepared, signed and concurred in, and stay active."""
    script = Script()
    for station in ("KPDX", "KSEA", "KGEG"):
        script.add(4, "wxfeed", "admit", text=f"TAF {station} {stamp(4)} {stamp(0, '%d%H')}/{stamp(1800, '%d%H')} 18008KT P6SM SCT050")
    for n in range(count):
        release, digest = n + 1, digests[n] if digests else "0" * 64
        script.add(10, "okafor", "draft", plan=plan(400))
        script.add(10, "okafor", "prepare", release=release)
        script.add(10, "okafor", "sign", release=release, revision=1, digest=digest)
        script.add(10, "hayes", "concur", release=release, revision=1, digest=digest)
    return script.text()
