#!/usr/bin/env python3
"""Makes the leagues data/solve-*.xml, their lines of stdin and what is wanted of them in stdout, by going over all seasons of two and of four teams.

Run it in this folder: `python3 leagues.py`. It is no part of the gate. Its reading of the classes is written from docs/DEFINITIONS.md, apart from
the program. Leagues of six teams are made around a season that meets them, or with a demand that no season can meet. Of stdin and stdout only what
stands below the title of these leagues is replaced, up to the next title.
"""
import itertools
import random

TITLE = "# small leagues of all classes, solved"
KINDS = ["CA1", "CA2", "CA3", "CA4", "GA1", "BR1", "BR2", "FA2", "SE1"]


def outside(low, high, count):
    return max(low - count, count - high, 0)


def is_break(season, team, slot, side):
    if slot == 0:
        return False
    now, before = season.home[team][slot], season.home[team][slot - 1]
    return now == before and (side == "HA" or side == ("H" if now else "A"))


class Season:
    def __init__(self, n, games):
        self.n, self.slots, self.games = n, 2 * (n - 1), games
        self.home = [[None] * self.slots for _ in range(n)]
        for i, j, s in games:
            self.home[i][s], self.home[j][s] = True, False


def met(c, season):
    """Whether the season meets the constraint: every entry is 0."""
    kind = c["kind"]
    n, size, games = season.n, season.slots, season.games
    at = set(c.get("slots", ()))
    low, high = c.get("min", 0), c.get("max", 0)
    if kind == "CA1":
        return all(outside(low, high, sum(season.home[t][s] == (c["mode"] == "H") for s in at)) == 0 for t in c["teams"])
    if kind in ("CA2", "CA3"):
        windows = [at] if kind == "CA2" else [set(range(s, s + c["intp"])) for s in range(size - c["intp"] + 1)]
        for t in c["teams1"]:
            others = set(c["teams2"]) - {t}
            for window in windows:
                count = sum(1 for i, j, s in games if s in window and (
                    (i == t and j in others and "H" in c["mode"]) or (j == t and i in others and "A" in c["mode"])))
                if outside(low, high, count):
                    return False
        return True
    if kind == "CA4":
        one, two = set(c["teams1"]), set(c["teams2"])
        def counts(i, j):
            return ("H" in c["mode"] and i in one and j in two) or ("A" in c["mode"] and j in one and i in two)
        parts = [at] if c["all"] == "GLOBAL" else [{s} for s in at]
        return all(outside(low, high, sum(1 for i, j, s in games if s in part and counts(i, j))) == 0 for part in parts)
    if kind == "GA1":
        return outside(low, high, sum(1 for i, j, s in games if s in at and (i, j) in c["meetings"])) == 0
    if kind == "BR1":
        return all(sum(is_break(season, t, s, c["mode"]) for s in at) <= c["intp"] for t in c["teams"])
    if kind == "BR2":
        return sum(is_break(season, t, s, "HA") for t in c["teams"] for s in at) <= c["intp"]
    if kind == "FA2":
        return all(abs(sum(season.home[i][: s + 1]) - sum(season.home[j][: s + 1])) <= c["intp"]
                   for i, j in itertools.combinations(c["teams"], 2) for s in at)
    for i, j in itertools.combinations(c["teams"], 2):
        mutual = sorted(s for a, b, s in games if {a, b} == {i, j})
        if any(t - s - 1 < low for s, t in zip(mutual, mutual[1:])):
            return False
    return True


def text_of(c):
    kind = c["kind"]
    def listed(items):
        return ";".join(map(str, sorted(items)))
    hard = "HARD" if c["hard"] else "SOFT"
    tail = f"penalty='{c['penalty']}' type='{hard}'/>"
    bounds = f"min='{c.get('min', 0)}' max='{c.get('max', 0)}'"
    if kind == "CA1":
        return f"<CA1 teams='{listed(c['teams'])}' {bounds} mode='{c['mode']}' slots='{listed(c['slots'])}' {tail}"
    if kind == "CA2":
        return (f"<CA2 teams1='{listed(c['teams1'])}' teams2='{listed(c['teams2'])}' {bounds} mode1='{c['mode']}' "
                f"slots='{listed(c['slots'])}' {tail}")
    if kind == "CA3":
        return (f"<CA3 teams1='{listed(c['teams1'])}' teams2='{listed(c['teams2'])}' {bounds} mode1='{c['mode']}' "
                f"intp='{c['intp']}' {tail}")
    if kind == "CA4":
        return (f"<CA4 teams1='{listed(c['teams1'])}' teams2='{listed(c['teams2'])}' {bounds} mode1='{c['mode']}' "
                f"mode2='{c['all']}' slots='{listed(c['slots'])}' {tail}")
    if kind == "GA1":
        meetings = "".join(f"{i},{j};" for i, j in sorted(c["meetings"]))
        return f"<GA1 meetings='{meetings}' {bounds} slots='{listed(c['slots'])}' {tail}"
    if kind == "BR1":
        return f"<BR1 teams='{listed(c['teams'])}' intp='{c['intp']}' mode2='{c['mode']}' slots='{listed(c['slots'])}' {tail}"
    if kind == "BR2":
        return f"<BR2 teams='{listed(c['teams'])}' intp='{c['intp']}' slots='{listed(c['slots'])}' {tail}"
    if kind == "FA2":
        return f"<FA2 teams='{listed(c['teams'])}' intp='{c['intp']}' slots='{listed(c['slots'])}' {tail}"
    return f"<SE1 teams='{listed(c['teams'])}' min='{c['min']}' {tail}"


def some(draw, items, least=1):
    items = list(items)
    return draw.sample(items, draw.randint(least, len(items)))


def drawn(draw, n, kind, hard):
    """A constraint of the class with bounds somewhere near what seasons have."""
    slots = range(2 * (n - 1))
    c = {"kind": kind, "hard": hard, "penalty": draw.choice([0, 1, 1, 3, 10]), "mode": draw.choice(["H", "A", "HA"]),
         "slots": some(draw, slots), "teams": some(draw, range(n), 2), "teams1": some(draw, range(n)), "teams2": some(draw, range(n)),
         "all": draw.choice(["GLOBAL", "EVERY"]), "intp": draw.randint(0, 3)}
    most = {"CA1": 3, "CA2": 3, "CA3": 3, "CA4": 4, "GA1": 2}.get(kind, 3)
    c["min"] = draw.choice([0, 0, 1, 2]) if kind != "SE1" else draw.randint(0, 3)
    c["max"] = draw.randint(c["min"], most) if c["min"] <= most else most
    if kind == "CA1":
        c["mode"] = draw.choice(["H", "A"])
    if kind == "CA3":
        c["intp"] = draw.randint(1, 4)
        c["min"] = draw.choice([0, 0, 0, 1])
        c["max"] = draw.randint(1, 3)
    if kind == "GA1":
        c["meetings"] = some(draw, itertools.permutations(range(n), 2))[:4]
    if kind in ("BR1", "BR2"):
        c["slots"] = list(slots)
        c["intp"] = draw.randint(0, 2 if kind == "BR1" else 6)
    return c


def matchings(teams):
    if not teams:
        yield []
        return
    first, rest = teams[0], teams[1:]
    for other in rest:
        left = [t for t in rest if t != other]
        for tail in matchings(left):
            yield [(first, other)] + tail


def seasons(n, phased):
    """All double round robins of so few teams that they can be listed."""
    rounds = list(matchings(list(range(n))))
    slots = 2 * (n - 1)
    for order in set(itertools.permutations([r for r in range(len(rounds)) for _ in range(2)])):
        if phased and len(set(order[: slots // 2])) < slots // 2:
            continue
        pairs = [(r, p) for r, one in enumerate(rounds) for p in one]
        for venue in itertools.product([0, 1], repeat=len(pairs)):
            at_home = dict(zip(pairs, venue))
            games, seen = [], set()
            for s, r in enumerate(order):
                for i, j in rounds[r]:
                    turned = at_home[(r, (i, j))] ^ (r in seen)
                    games.append((j, i, s) if turned else (i, j, s))
                seen.add(r)
            yield Season(n, games)


def circle(n):
    games = []
    for s in range(n - 1):
        a, b = n - 1, s
        games.append((a, b, s) if s % 2 == 0 else (b, a, s))
        for k in range(1, n // 2):
            a, b = (s + k) % (n - 1), (s - k) % (n - 1)
            games.append((a, b, s) if k % 2 == 1 else (b, a, s))
    return games + [(j, i, s + n - 1) for i, j, s in games]


def mixed(draw, n):
    """A season of the circle method with its teams renumbered and its slots in another order, a half at a time."""
    names = draw.sample(range(n), n)
    order = draw.sample(range(n - 1), n - 1)
    return Season(n, [(names[i], names[j], order[s % (n - 1)] + (n - 1) * (s // (n - 1))) for i, j, s in circle(n)])


def instance_text(n, phased, constraints):
    teams = "".join(f"<team id='{t}'/>" for t in range(n))
    slots = "".join(f"<slot id='{s}'/>" for s in range(2 * (n - 1)))
    shape = ("<Structure><Format leagueIds='0'><numberRoundRobin>2</numberRoundRobin><compactness>C</compactness>"
             f"<gameMode>{'P' if phased else 'NULL'}</gameMode></Format></Structure>")
    demands = "".join(text_of(c) for c in constraints)
    return (f"<Instance>{shape}<Resources><Teams>{teams}</Teams><Slots>{slots}</Slots></Resources>"
            f"<Constraints><BasicConstraints>{demands}</BasicConstraints></Constraints></Instance>")


def write_file(name, text):
    """Writes a file of data, each tag on a line of its own."""
    with open(f"data/{name}", "w") as out:
        out.write(text.replace("><", ">\n<") + "\n")


def put_below(name, title, lines):
    """Replaces the lines of a file below a title, up to the next title."""
    with open(name) as old:
        text = old.read()
    first = text.index(title + "\n") + len(title) + 1
    last = text.index("\n# ", first - 1) + 1
    with open(name, "w") as out:
        out.write(text[:first] + "".join(line + "\n" for line in lines) + text[last:])


def main():
    draw = random.Random(41)
    lines, wanted = [], []
    def add(name, n, phased, constraints, is_met):
        file = f"solve-{name}.xml"
        write_file(file, instance_text(n, phased, constraints))
        judged, within = f"solve {file} --conflicts all | judged", f"solve {file} --conflicts 2 | true"
        lines.extend((judged, within))
        found = "a schedule, accepted with its objective\nstatus 0" if is_met else "a refutation, accepted\nstatus 4"
        wanted.extend((f"robin {judged}\n{found}", f"robin {within}\ntrue to its status"))
    all_of_four = {phased: list(seasons(4, phased)) for phased in (False, True)}
    assert len(all_of_four[False]) == 5760 and len(all_of_four[True]) == 36 * 64
    # Each class alone, hard, met by some season and by none; the other classes soft beside it.
    for kind in KINDS:
        found = {True: None, False: None}
        while None in found.values():
            phased = draw.random() < 0.5
            hard = [drawn(draw, 4, kind, True) for _ in range(draw.randint(1, 2))]
            is_met = any(all(met(c, season) for c in hard) for season in all_of_four[phased])
            by_circle = all(met(c, Season(4, circle(4))) for c in hard)
            if found[is_met] is None and not by_circle:
                soft = [drawn(draw, 4, other, False) for other in draw.sample(KINDS, 2)]
                found[is_met] = (phased, hard + soft)
        for is_met, (phased, constraints) in found.items():
            add(f"{kind}-{'met' if is_met else 'unmet'}", 4, phased, constraints, is_met)
    # Several classes together.
    count = {True: 0, False: 0}
    while min(count.values()) < 9:
        phased = draw.random() < 0.5
        hard = [drawn(draw, 4, kind, True) for kind in draw.sample(KINDS, draw.randint(3, 6))]
        by_circle = all(met(c, Season(4, circle(4))) for c in hard)
        each = all(any(met(c, season) for season in all_of_four[phased]) for c in hard)
        is_met = any(all(met(c, season) for c in hard) for season in all_of_four[phased])
        if count[is_met] == 9 or by_circle or not each:
            continue
        count[is_met] += 1
        soft = [drawn(draw, 4, other, False) for other in draw.sample(KINDS, 3)]
        add(f"together-{'met' if is_met else 'unmet'}-{count[is_met]}", 4, phased, hard + soft, is_met)
    # Two teams.
    for k in range(6):
        constraints = [drawn(draw, 2, draw.choice(["CA1", "GA1", "FA2", "SE1", "BR1"]), True) for _ in range(2)]
        is_met = any(all(met(c, season) for c in constraints) for season in seasons(2, False))
        add(f"two-teams-{k + 1}", 2, False, constraints, is_met)
    # Six teams, around a season that meets them all.
    for k in range(8):
        season, constraints = mixed(draw, 6), []
        while len(constraints) < 6:
            c = drawn(draw, 6, draw.choice(KINDS), True)
            if met(c, season):
                constraints.append(c)
        constraints += [drawn(draw, 6, draw.choice(KINDS), False)]
        add(f"six-teams-{k + 1}", 6, True, constraints, True)
    put_below("stdin", TITLE, lines)
    put_below("stdout", TITLE, wanted)
    print(len(lines) // 2, sum("refutation" in w for w in wanted))


if __name__ == "__main__":
    main()
