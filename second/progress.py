"""The lines in which a long run says how it goes: their form, what in them is false, and what a terminal shows of them.

Imported by long_runs.py.
"""
import re

COLUMNS = 120
LINE = re.compile(
    r"robin: (?P<passed>[0-9]+)(?: of (?P<seconds>[0-9]+))? s(?: \[(?P<time>#* *)\])?: "
    r"(?:try (?P<number>[0-9]+), |proving at least (?P<bound>[0-9]+), |(?P<members>[0-9]+) members still to be tried, )?"
    r"(?P<stage>counts|patterns|search|walk on hard constraints|walk on the objective|walk|descent ended|descent)"
    r"(?:, (?P<before>before it )?best (?P<best>[0-9]+) after (?P<after>[0-9]+) s|, infeasibility (?P<infeasibility>[1-9][0-9]*))?"
    r"(?:, (?P<turns>[0-9]+)(?: of (?P<limit>[0-9]+))? (?P<unit>conflicts|moves)(?: \[(?P<bar>#* *)\])?(?:, (?P<rate>[0-9]+(?:\.[0-9])?)/s)?)?"
)


def lines_of(screen):
    """The lines that were written to a terminal one over the other, without what steers it."""
    text = re.sub(rb"\x1b\[[?0-9]*[a-zA-Z]", b"", screen).decode("utf-8", "replace")
    return [part.strip("\n") for part in text.split("\r") if re.match("robin: [0-9]", part)]


def number(found, name):
    """The number of a part of a line, or None."""
    return None if found[name] is None else int(found[name])


def bar_fault(found):
    """What is wrong with the bars of a line: nothing where each has a sign for each tenth of its budget, and there is one at most."""
    if found["time"] is not None and found["bar"] is not None:
        return "two bars"
    for name, spent, budget in (("time", "passed", "seconds"), ("bar", "turns", "limit")):
        if found[name] is None:
            continue
        if not number(found, budget):
            return "a bar of no budget"
        more = 1 if name == "time" else 0
        most = min(10, 10 * (number(found, spent) + more) // number(found, budget))
        least = min(10, 10 * number(found, spent) // number(found, budget))
        if len(found[name]) != 10 or not least <= found[name].count("#") <= most:
            return "the bar [%s]" % found[name]
    return None


def line_fault(line):
    """What is wrong with a line by itself."""
    found = LINE.fullmatch(line)
    if not found:
        return "a line of another form"
    if len(line) > COLUMNS:
        return "a line of %d columns" % len(line)
    if found["unit"] and (found["unit"] == "conflicts") != (found["stage"] in ("patterns", "search")):
        return "%s in %s" % (found["unit"], found["stage"])
    if found["infeasibility"] and found["stage"] != "walk on hard constraints":
        return "an infeasibility in " + found["stage"]
    if (found["before"] is not None) != (found["best"] is not None and found["stage"] == "descent"):
        return "a best season of another time"
    if found["limit"] and number(found, "turns") > number(found, "limit"):
        return "more than the budget"
    if found["after"] and number(found, "after") > number(found, "passed"):
        return "a season to come"
    if found["rate"] and (float(found["rate"]) + 1) * (number(found, "passed") + 1) < number(found, "turns"):
        return "a rate that is too low"
    return bar_fault(found)


def order_fault(earlier, later):
    """What is wrong with a line behind another one of the same run."""
    if number(later, "passed") < number(earlier, "passed"):
        return "time goes back"
    if later["seconds"] != earlier["seconds"]:
        return "another limit"
    if earlier["number"] and later["number"] and number(later, "number") < number(earlier, "number"):
        return "tries go back"
    if earlier["members"] and not later["members"]:
        return "members are forgotten"
    if earlier["best"] and (not later["best"] or number(later, "best") > number(earlier, "best")):
        return "a best season is forgotten"
    if earlier["best"] and later["best"] == earlier["best"] and later["after"] != earlier["after"]:
        return "a season of two times"
    return None


def fault_of(lines):
    """What is wrong with the lines of a run: nothing where each has the form, and no two contradict each other."""
    if not lines:
        return "no line"
    for line in lines:
        fault = line_fault(line)
        if fault:
            return "%s: %s" % (fault, line)
    for earlier, later in zip(lines, lines[1:]):
        fault = order_fault(LINE.fullmatch(earlier), LINE.fullmatch(later))
        if fault:
            return "%s: %s" % (fault, later)
    return None


def has_all(lines, names):
    """The first of some parts of lines that no line has, or None."""
    found = [LINE.fullmatch(line) for line in lines]
    missing = [name for name in names if not any(one and one[name] for one in found)]
    return missing[0] if missing else None


class Screen:
    """What a terminal shows: rows of so many columns, of which the last one has the cursor."""

    def __init__(self, columns):
        self.columns = columns
        self.rows = [""]
        self.at = 0
        self.wraps = True

    def put(self, sign):
        """Shows a sign at the cursor. Behind the last column the next row begins, if the terminal wraps, and else the last sign is written over."""
        if self.at == self.columns:
            if self.wraps:
                self.rows.append("")
                self.at = 0
            else:
                self.at -= 1
        row = self.rows[-1].ljust(self.at)
        self.rows[-1] = row[: self.at] + sign + row[self.at + 1 :]
        self.at += 1

    def feed(self, text):
        """Takes what was written to the terminal."""
        for part in re.findall(rb"\x1b\[[?0-9]*[a-zA-Z]|[\x00-\xff]", text):
            if part == b"\r":
                self.at = 0
            elif part == b"\n":
                self.rows.append("")
            elif part == b"\x1b[K":
                self.rows[-1] = self.rows[-1][: min(self.at, self.columns - 1)]
            elif part in (b"\x1b[?7l", b"\x1b[?7h"):
                self.wraps = part == b"\x1b[?7h"
            else:
                self.put(part.decode("latin-1"))
        return self
