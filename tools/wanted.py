"""Marks the figures of a row of docs/MEASURES.md that miss what the row wants of them: `**` comes before and after each."""
import operator
import re

FIGURE = r"(?<![\d.,])([+-]?\d[\d,]*(?:\.\d+)?)%s(?![\w.])"
LIMIT = re.compile(r"(at most|under|at least|)\s?([\d.]+)( s| MB| time|)s?")
MISSES = {"at most": operator.gt, "under": operator.ge, "at least": operator.lt, "": operator.lt}


def value(figure):
    return float(figure.replace(",", ""))


def limits_of(wanted):
    """What a row wants: of each limit the unit of its figures, the comparison that a figure which misses it passes, and the number."""
    for part in wanted.replace("half a minute", "at most 30 s").split(", "):
        limit = LIMIT.fullmatch(part)
        if limit:
            yield limit[3], MISSES[limit[1]], float(limit[2])


def marked(cells, at):
    """The cells of a row with the marks. The cell at `at` says what is wanted, and those between the first and it have the figures."""
    cells = [it.replace("**", "") for it in cells]
    for unit, misses, limit in limits_of(cells[at]):
        figure = re.compile(FIGURE % (unit and unit + "s?"))
        for place in range(1, at):
            if unit or figure.fullmatch(cells[place]):
                cells[place] = figure.sub(lambda it: f"**{it[0]}**" if misses(value(it[1]), limit) else it[0], cells[place])
    if cells[at] == "none but for the history":
        # a second figure is the memory of that history, in a `run`
        grown, *history = re.findall(FIGURE % " MB", cells[at - 1])
        if value(grown) > sum(map(value, history)):
            cells[at - 1] = cells[at - 1].replace(f"{grown} MB", f"**{grown} MB**", 1)
    return cells
