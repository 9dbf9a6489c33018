"""Splits a text into weather reports, in the layouts of the public services.

A report has one line or several. It ends at `=`, at a blank line, before a line that begins another report, before the
date line of a cycle file, or before the heading of a bulletin. If its word (METAR, SPECI, TAF) is missing, the splitter adds it:
the word that stood alone on a line above, or else the one that the report's form implies.

A report contains its day but no month, so a month-old report looks like one of today. The date line above it tells them apart.
"""
import itertools
import re
import time

WORDS = ("METAR", "SPECI", "TAF")
DATE_LINE = re.compile(r"\d{4}/\d\d/\d\d \d\d:\d\d")
# The lines above a bulletin: `FTUS46 KSEW 121120 AAA` is its heading, `TAFSEW` its name, `000` its number of the day.
HEADING = re.compile(r"([A-Z]{4}\d\d) [A-Z]{4} \d{6}( [A-Z]{3})?|(TAF|MTR|SPE|SPC)[A-Z0-9]{3}|\d{3}")
WORD_ALONE = re.compile(r"(METAR|SPECI|TAF)( TAF| METAR)?( AMD| COR)*")
BEGINS = re.compile(r"(METAR|SPECI|TAF)\b|((AMD|COR) )?[A-Z][A-Z0-9]{3} \d{6}Z\b")
PERIOD = re.compile(r"\d{4}/\d{4}")
# In days. The desk refuses older reports, but would take one that is weeks old for a report of today.
KEEP_DAYS = 5
KINDS = {"SA": ("METAR",), "SP": ("SPECI",), "FT": ("TAF",), "FC": ("TAF",)}


def date_line(moment):
    """The date line for a time in seconds since 1970."""
    return time.strftime("%Y/%m/%d %H:%M", time.gmtime(moment))


def worded(groups, heading):
    """The report of these groups, with its word in front. Words that stand there twice are written once."""
    front = list(itertools.takewhile(lambda it: it in (*WORDS, "AMD", "COR"), groups))
    groups = [*dict.fromkeys(front), *groups[len(front):]]
    if groups[0] not in WORDS:
        if heading:
            groups = [*heading, *groups]
        else:
            groups = ["TAF" if any(map(PERIOD.fullmatch, groups[2:5])) else "METAR", *groups]
    return " ".join(groups)


class Splitter:
    """Takes one line after another, and returns the reports that each line completes.

    `strays` collects text outside of reports. Reports below a date line before `oldest` are skipped and counted in `old`.
    """

    def __init__(self, oldest=""):
        self.groups = []
        self.heading = ()
        self.strays = []
        self.oldest = oldest
        self.is_old = False
        self.old = 0

    def end(self):
        """Ends the open report and returns it, if there is one."""
        groups, self.groups = self.groups, []
        if groups and self.is_old:
            self.old += 1
            return []
        return [worded(groups, self.heading)] if groups else []

    def line(self, line):
        line = re.sub(r"[\x00-\x08\x0e-\x1f\x7f]", " ", line).rstrip()
        plain = " ".join(line.split())
        if not plain or DATE_LINE.fullmatch(plain):
            done = self.end()
            if plain:
                # A date line begins the next entry of a cycle file. Words above it don't apply to that entry.
                self.heading = ()
                self.is_old = plain < self.oldest
            return done
        heading = HEADING.fullmatch(plain)
        if heading:
            done = self.end()
            self.is_old = False
            self.heading = KINDS.get(plain[:2], self.heading) if heading[1] else self.heading
            return done
        if WORD_ALONE.fullmatch(plain):
            done = self.end()
            words = plain.split()
            self.heading = tuple(words[1:] if words[1:2] == words[:1] else words)
            return done
        done = []
        if not line[0].isspace() and BEGINS.match(plain):
            done = self.end()
        for part, mark in re.findall(r"([^=]*)(=?)", plain):
            done += self.part(part.split())
            done += self.end() if mark else []
        return done

    def part(self, groups):
        if groups and not self.groups and not BEGINS.match(" ".join(groups)):
            self.strays.append(" ".join(groups))
            return []
        self.groups += groups
        return []


def reports_in(text, oldest=""):
    """All reports of a text, and the splitter, which has the strays and the number of old reports."""
    splitter = Splitter(oldest)
    found = [report for line in text.split("\n") for report in splitter.line(line)]
    return found + splitter.end(), splitter
