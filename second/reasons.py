"""Why a constraint is missed: by how much at each key, and by which games. And what it demands, in words.

    python3 second/reasons.py LEAGUE SEASON        each constraint that is missed, with its reasons
    python3 second/reasons.py LEAGUE               what each constraint demands
    python3 second/reasons.py --rounds 2000        random seasons, on which the reasons add up to the deviation vectors

Written from the rules in words, without a look at the Rattle code. Games are in order of slot, home team and away team.
"""

import random
import sys
import xml.etree.ElementTree as tree
from collections import namedtuple
from itertools import combinations

from leagues import Constraint, Counts, League, excess, outside, read_league, read_season, slots_of, vector

# how much is missed at a key, where (the first slot of a window, or the slot of a lead), and by what
Reason = namedtuple("Reason", "key amount where games")


def plays(side, i, game):
    return (side in ("H", "HA") and game[0] == i) or (side in ("A", "HA") and game[1] == i)


def plays_against(side, i, others, game):
    at_home = game[0] == i and game[1] in others
    away = game[1] == i and game[0] in others
    return (side in ("H", "HA") and at_home) or (side in ("A", "HA") and away)


def counted(key, at, games, where=None):
    amount = outside(len(games), at)
    return [Reason(key, amount, where, games)] if amount else []


def breaks(games, side, i, slots):
    """The breaks of a team: team, side, later slot, and the games of both slots on this side."""
    found = []
    for s in slots:
        for one in ("H", "A"):
            now = [g for g in games if plays(one, i, g) and g[2] == s]
            before = [g for g in games if plays(one, i, g) and g[2] == s - 1]
            if one in side and now and before:
                found.append((i, one, s, before + now))
    return found


def lead(key, intp, slots, games, i, j):
    """The first slot after which the two teams are furthest apart."""
    def played(team, s):
        return [g for g in games if g[0] == team and g[2] <= s]

    def apart(s):
        return abs(len(played(i, s)) - len(played(j, s)))

    if not slots:
        return []
    s = max(slots, key=lambda s: (apart(s), -s))
    amount = excess(apart(s), intp)
    return [Reason(key, amount, s, (played(i, s), played(j, s)))] if amount else []


def gaps(key, least, mutual):
    found = []
    for one, two in zip(mutual, mutual[1:]):
        amount = excess(least, max(two[2] - one[2] - 1, 0))
        if amount:
            found.append(Reason(key, amount, None, [one, two]))
    return found


def reasons(n, constraint, games):
    """The reasons of a constraint, key by key."""
    games = sorted(games, key=lambda g: (g[2], g[0], g[1]))
    name, at, found = constraint.name, constraint.at, []
    if name == "CA1":
        for key, i in enumerate(at["teams"]):
            found += counted(key, at, [g for g in games if plays(at["mode"], i, g) and g[2] in at["slots"]])
    elif name in ("CA2", "CA3"):
        for key, i in enumerate(at["teams1"]):
            mine = [g for g in games if plays_against(at["mode1"], i, at["teams2"], g)]
            if name == "CA2":
                found += counted(key, at, [g for g in mine if g[2] in at["slots"]])
            else:
                for first in range(slots_of(n) + 1 - at["intp"]):
                    found += counted(key, at, [g for g in mine if first <= g[2] < first + at["intp"]], first)
    elif name == "CA4":
        def between(g):
            at_home = g[0] in at["teams1"] and g[1] in at["teams2"]
            away = g[1] in at["teams1"] and g[0] in at["teams2"]
            return (at["mode1"] in ("H", "HA") and at_home) or (at["mode1"] in ("A", "HA") and away)

        spans = [at["slots"]] if at["mode2"] == "GLOBAL" else [[s] for s in at["slots"]]
        for key, slots in enumerate(spans):
            found += counted(key, at, [g for g in games if between(g) and g[2] in slots])
    elif name == "GA1":
        found += counted(0, at, [g for g in games if g[:2] in at["meetings"] and g[2] in at["slots"]])
    elif name in ("BR1", "BR2"):
        side = at["mode2"] if name == "BR1" else "HA"
        by_team = [breaks(games, side, i, at["slots"]) for i in at["teams"]]
        by_key = by_team if name == "BR1" else [sum(by_team, [])]
        for key, mine in enumerate(by_key):
            if len(mine) > at["intp"]:
                found.append(Reason(key, len(mine) - at["intp"], None, mine))
    elif name == "FA2":
        for key, (i, j) in enumerate(combinations(at["teams"], 2)):
            found += lead(key, at["intp"], at["slots"], games, i, j)
    else:
        for key, (i, j) in enumerate(combinations(at["teams"], 2)):
            found += gaps(key, at["min"], [g for g in games if set(g[:2]) == {i, j}])
    return found


# ---- what a constraint demands


def many(count, noun):
    return {0: f"no {noun}", 1: f"1 {noun}"}.get(count, f"{count} {noun}s")


def bounds(low, high, noun):
    if low > high:
        return f"at least {low} and at most {many(high, noun)}, which can't both be,"
    if high == 0:
        return f"no {noun}"
    if low == high:
        return f"exactly {many(high, noun)}"
    return f"at most {many(high, noun)}" if low == 0 else f"from {low} to {many(high, noun)}"


def bare_bounds(low, high):
    if low > high:
        return f"at least {low} and at most {high}, which can't both be,"
    if high == 0:
        return "none"
    if low == high:
        return f"exactly {high}"
    return f"at most {high}" if low == 0 else f"from {low} to {high}"


def row(items, word="and"):
    return items[0] if len(items) == 1 else f"{', '.join(items[:-1])} {word} {items[-1]}"


def runs(slots):
    """Slots, three or more in a row as one item."""
    items, rest = [], list(slots)
    while rest:
        size = 1
        while size < len(rest) and rest[size] == rest[0] + size:
            size += 1
        items += [f"{rest[0]} to {rest[size - 1]}"] if size > 2 else [str(s) for s in rest[:size]]
        rest = rest[size:]
    return items


class Words:
    def __init__(self, names):
        self.names, self.n = names, len(names)

    def teams(self, teams, front="", word="and", back=""):
        if len(teams) < 2:
            return self.names[teams[0]] if teams else "no team"
        return front + row([self.names[i] for i in teams], word) + back

    def each(self, teams):
        return "each team" if len(teams) == self.n else self.teams(teams, "each of ")

    def together(self, teams):
        return "all teams together" if len(teams) == self.n else self.teams(teams, back=" together")

    def two(self, teams):
        if len(teams) == self.n:
            return "each two teams"
        return ("" if len(teams) == 2 else "each two of ") + self.teams(teams)

    def against(self, teams):
        return "" if len(teams) == self.n else " against " + self.teams(teams, word="or")

    def slots(self, slots):
        if len(slots) == slots_of(self.n):
            return "the whole season"
        if len(slots) < 2:
            return f"slot {slots[0]}" if slots else "no slot"
        return "slots " + row(runs(slots))

    def each_slot(self, slots):
        if len(slots) == slots_of(self.n):
            return "each slot"
        return "each of the slots " + row(runs(slots)) if len(slots) > 1 else self.slots(slots)

    def meetings(self, at):
        games = [f"{self.names[i]} - {self.names[j]}" for i, j in at["meetings"]]
        where = f"in {self.slots(at['slots'])}"
        if len(games) == 1 and at["min"] == at["max"] < 2:
            return f"the game {games[0]}: {'' if at['max'] else 'not '}{where}"
        front = f"of the games {row(games)}" if games else "of no game"
        return f"{front}: {bare_bounds(at['min'], at['max'])} {where}"

    def demand(self, constraint):
        name, at = constraint.name, constraint.at
        side = {"H": "home ", "A": "away ", "HA": ""}
        if name == "CA1":
            what = bounds(at["min"], at["max"], side[at["mode"]] + "game")
            return f"{self.each(at['teams'])}: {what} in {self.slots(at['slots'])}"
        if name in ("CA2", "CA3", "CA4"):
            what = bounds(at["min"], at["max"], side[at["mode1"]] + "game") + self.against(at["teams2"])
            who = self.together(at["teams1"]) if name == "CA4" else self.each(at["teams1"])
            if name == "CA3":
                if at["intp"] > slots_of(self.n):
                    return f"{who}: {what} in {at['intp']} slots in a row, more than the season has"
                return f"{who}: {what} in " + ("each slot" if at["intp"] == 1 else f"any {at['intp']} slots in a row")
            where = self.each_slot if at.get("mode2") == "EVERY" else self.slots
            return f"{who}: {what} in {where(at['slots'])}"
        if name == "GA1":
            return self.meetings(at)
        if name == "BR1":
            what = bounds(0, at["intp"], side[at["mode2"]] + "break")
            return f"{self.each(at['teams'])}: {what} in {self.slots(at['slots'])}"
        if name == "BR2":
            return f"{self.together(at['teams'])}: {bounds(0, at['intp'], 'break')} in {self.slots(at['slots'])}"
        if name == "FA2":
            most = "" if at["intp"] == 0 else "at most "
            games = f"{most}{many(at['intp'], 'home game')} apart after"
            return f"{self.two(at['teams'])}: {games} {self.each_slot(at['slots'])}"
        least = f"at least {many(at['min'], 'slot')}" if at["min"] else "any number of slots"
        return f"{self.two(at['teams'])}: {least} between their games"

    def line(self, number, constraint):
        return f"{'hard' if constraint.hard else 'soft'} {number} {constraint.name}: {self.demand(constraint)}"


# ---- laws


def check(n, constraint, games):
    """The amounts at each key add up to the entry, no amount is 0, and keys are in order."""
    wanted, found = vector(constraint, Counts(n, games)), reasons(n, constraint, games)
    keys = [it.key for it in found]
    assert keys == sorted(keys), constraint
    assert all(it.amount > 0 for it in found), constraint
    assert [sum(it.amount for it in found if it.key == k) for k in range(len(wanted))] == wanted, (constraint, games)


def some(rng, items):
    items = list(items)
    return sorted(rng.sample(items, rng.choice([0, 1, min(2, len(items)), len(items) // 2, len(items)])))


def drawn(rng, n):
    teams, slots = range(n), range(slots_of(n))
    low = rng.choice([0, 0, 1, 2])
    at = {"min": low, "max": rng.choice([0, 1, 2, low, 4]), "intp": rng.choice([0, 1, 2, 3])}
    at.update({key: some(rng, teams) for key in ("teams", "teams1", "teams2")})
    at.update(slots=some(rng, slots), mode=rng.choice("HA"), mode1=rng.choice(["H", "A", "HA"]))
    at["meetings"] = sorted({tuple(rng.sample(teams, 2)) for _ in range(rng.randrange(4))})
    name = rng.choice(["CA1", "CA2", "CA3", "CA4", "GA1", "BR1", "BR2", "FA2", "SE1"])
    if name == "CA3":
        at["intp"] = rng.randrange(1, slots_of(n) + 3)
    if name in ("CA4", "BR1"):
        at["mode2"] = rng.choice(["GLOBAL", "EVERY"] if name == "CA4" else ["H", "A", "HA"])
    return Constraint(name, rng.random() < 0.5, 1, at)


def rounds(count, seed):
    rng = random.Random(seed)
    for _ in range(count):
        n = rng.choice([2, 4, 4, 6, 8])
        games = [(*rng.sample(range(n), 2), rng.randrange(slots_of(n))) for _ in range(rng.randrange(n * n))]
        games += rng.sample(games, min(len(games), rng.randrange(3)))
        constraint = drawn(rng, n)
        check(n, constraint, games)
        Words([f"T{i}" for i in range(n)]).line(1, constraint)
    print(f"{count} rounds, no difference")


def names_in(path):
    teams = tree.parse(path).getroot().findall("Resources/Teams/team")
    by_number = {int(it.get("id")): it.get("name") for it in teams}
    return [by_number[i] or f"team {i}" for i in range(len(by_number))]


def main():
    if sys.argv[1] == "--rounds":
        rounds(int(sys.argv[2]), int(sys.argv[3]) if len(sys.argv) > 3 else 1)
        return
    league, words = read_league(sys.argv[1]), Words(names_in(sys.argv[1]))
    games = read_season(sys.argv[2]) if len(sys.argv) > 2 else None
    for number, constraint in enumerate(league.constraints, 1):
        found = reasons(league.n, constraint, games) if games is not None else None
        if found is None or found:
            print(words.line(number, constraint))
        for it in found or ():
            print(f"  key {it.key} amount {it.amount} where {it.where} by {it.games}")


if __name__ == "__main__":
    main()
