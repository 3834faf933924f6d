"""Leagues, seasons and deviations, from the rules in words (docs/DEFINITIONS.md, docs/FORMATS.md).

Written without a look at the Rattle code, so that two readings of the rules can be compared. It reads
well-formed files alone; faults of form are robin's to find.
"""

import xml.etree.ElementTree as tree
from collections import Counter, namedtuple
from itertools import combinations

Constraint = namedtuple("Constraint", "name hard penalty at")
League = namedtuple("League", "n phased constraints")


def slots_of(n):
    return 2 * (n - 1)


def ids(text):
    return sorted({int(item) for item in text.split(";") if item})


def pairs(text):
    return sorted({tuple(int(team) for team in item.split(",")) for item in text.split(";") if item})


CLASSES = {"CA1", "CA2", "CA3", "CA4", "GA1", "BR1", "BR2", "FA2", "SE1"}
LISTS = {"teams", "teams1", "teams2", "slots"}
NUMBERS = {"min", "max", "intp"}


def read_league(path):
    root = tree.parse(path).getroot()
    n = len(root.findall("Resources/Teams/team"))
    mode = root.find("Structure/Format/gameMode")
    phased = mode is not None and (mode.text or "").strip() == "P"
    found = []
    for group in root.find("Constraints"):
        for it in group:
            at = {"min": 0}
            for key, value in it.attrib.items():
                if key in LISTS:
                    at[key] = ids(value)
                elif key in NUMBERS:
                    at[key] = int(value)
                elif key == "meetings":
                    at[key] = pairs(value)
                else:
                    at[key] = value
            assert it.tag in CLASSES, it.tag
            found.append(Constraint(it.tag, at["type"] == "HARD", int(at.get("penalty", 1)), at))
    return League(n, phased, found)


def read_season(path_or_text):
    text = path_or_text if "<" in path_or_text else open(path_or_text, encoding="utf-8").read()
    root = tree.fromstring(text.encode())
    return [tuple(int(it.get(key)) for key in ("home", "away", "slot")) for it in root.find("Games")]


def excess(count, bound):
    return max(count - bound, 0)


def outside(count, at):
    return max(excess(at["min"], count), excess(count, at["max"]))


class Counts:
    """How often each game stands in a list, and what follows from it."""

    def __init__(self, n, games):
        self.n, self.slots, self.m = n, slots_of(n), Counter(games)
        self.at_home = Counter()
        self.away = Counter()
        for (i, j, s), often in self.m.items():
            self.at_home[i, s] += often
            self.away[j, s] += often

    def side(self, side, i, s):
        return self.at_home[i, s] if side == "H" else self.away[i, s]

    def against(self, side, i, others, s):
        total = 0
        for j in others:
            if j != i:
                if side in ("H", "HA"):
                    total += self.m[i, j, s]
                if side in ("A", "HA"):
                    total += self.m[j, i, s]
        return total

    def is_break(self, side, i, s):
        return s > 0 and self.side(side, i, s - 1) >= 1 and self.side(side, i, s) >= 1

    def breaks(self, side, i, s):
        sides = ("H", "A") if side == "HA" else (side,)
        return sum(self.is_break(it, i, s) for it in sides)


def meetings_of_ca4(at):
    ones, twos, side = at["teams1"], at["teams2"], at["mode1"]
    found = set()
    if side in ("H", "HA"):
        found |= {(a, b) for a in ones for b in twos if a != b}
    if side in ("A", "HA"):
        found |= {(b, a) for a in ones for b in twos if a != b}
    return found


def vector(constraint, counts):
    name, at = constraint.name, constraint.at
    n, slots = counts.n, counts.slots
    if name == "CA1":
        return [outside(sum(counts.side(at["mode"], i, s) for s in at["slots"]), at) for i in at["teams"]]
    if name == "CA2":
        return [
            outside(sum(counts.against(at["mode1"], i, at["teams2"], s) for s in at["slots"]), at)
            for i in at["teams1"]
        ]
    if name == "CA3":
        length = at["intp"]
        return [
            sum(
                outside(sum(counts.against(at["mode1"], i, at["teams2"], s) for s in range(first, first + length)), at)
                for first in range(slots - length + 1)
            )
            for i in at["teams1"]
        ]
    if name == "CA4":
        listed = meetings_of_ca4(at)
        by_slot = [sum(counts.m[i, j, s] for i, j in listed) for s in at["slots"]]
        return [outside(sum(by_slot), at)] if at["mode2"] == "GLOBAL" else [outside(it, at) for it in by_slot]
    if name == "GA1":
        return [outside(sum(counts.m[i, j, s] for i, j in at["meetings"] for s in at["slots"]), at)]
    if name == "BR1":
        side = at["mode2"]
        return [excess(sum(counts.breaks(side, i, s) for s in at["slots"]), at["intp"]) for i in at["teams"]]
    if name == "BR2":
        return [excess(sum(counts.breaks("HA", i, s) for i in at["teams"] for s in at["slots"]), at["intp"])]
    if name == "FA2":
        played = {}
        for i in at["teams"]:
            total, row = 0, []
            for s in range(slots):
                total += counts.at_home[i, s]
                row.append(total)
            played[i] = row
        return [
            max([excess(abs(played[i][s] - played[j][s]), at["intp"]) for s in at["slots"]], default=0)
            for i, j in combinations(at["teams"], 2)
        ]
    found = []
    for i, j in combinations(at["teams"], 2):
        met = sorted(
            s for s in range(slots) for _ in range(counts.m[i, j, s] + counts.m[j, i, s])
        )
        found.append(sum(excess(at["min"], max(t - s - 1, 0)) for s, t in zip(met, met[1:])))
    return found


def structure(league, games):
    n, slots, m = league.n, slots_of(league.n), Counter(games)
    cells, met, halves = Counter(), Counter(), Counter()
    for (i, j, s), often in m.items():
        cells[i, s] += often
        cells[j, s] += often
        met[i, j] += often
        if s < n - 1:
            halves[min(i, j), max(i, j)] += often
    pairs_wrong = sum(met[i, j] != 1 for i in range(n) for j in range(n) if i != j)
    cells_wrong = sum(cells[i, s] != 1 for i in range(n) for s in range(slots))
    phases_wrong = sum(halves[pair] != 1 for pair in combinations(range(n), 2)) if league.phased else 0
    return pairs_wrong, cells_wrong, phases_wrong


def sums(league, games):
    counts = Counts(league.n, games)
    hard = soft = 0
    for it in league.constraints:
        missed = sum(vector(it, counts)) * it.penalty
        hard, soft = (hard + missed, soft) if it.hard else (hard, soft + missed)
    return hard, soft


def is_accepted(league, games):
    counts = Counts(league.n, games)
    return structure(league, games) == (0, 0, 0) and all(
        not any(vector(it, counts)) for it in league.constraints if it.hard
    )


def report(league, games):
    counts = Counts(league.n, games)
    wrong = structure(league, games)
    lines = [
        f"teams {league.n}",
        f"slots {slots_of(league.n)}",
        f"mode {'P' if league.phased else 'NULL'}",
        f"games {len(games)}",
        "structure pairs %d cells %d phases %d" % wrong,
    ]
    for number, it in enumerate(league.constraints, 1):
        entries = vector(it, counts)
        kind = "HARD" if it.hard else "SOFT"
        line = f"constraint {number} {it.name} {kind} penalty {it.penalty} sum {sum(entries)} entries"
        lines.append(" ".join([line, *map(str, entries)]))
    hard, soft = sums(league, games)
    lines += [f"infeasibility {hard}", f"objective {soft}", f"feasible {'yes' if is_accepted(league, games) else 'no'}"]
    return "".join(line + "\n" for line in lines)
