#!/usr/bin/env python3
"""Makes the leagues and seasons data/least-*.xml, their lines of stdin and what is wanted of them in stdout, by going over all seasons of two and of four teams.

Run it in this folder: `python3 least.py`. It is no part of the gate. Its reading of the deviations is written from docs/DEFINITIONS.md, apart from
the program; seasons and the texts of leagues are those of `leagues.py`. Of stdin and stdout only what stands below the title of these leagues is
replaced, up to the next title.
"""
import itertools
import random

from leagues import KINDS, drawn, instance_text, is_break, outside, put_below, seasons, write_file

TITLE = "# least objectives, from the dearest season down"


def deviation(c, season):
    """By how much the season misses the constraint: the sum of all entries."""
    kind = c["kind"]
    size, games = season.slots, season.games
    at = set(c.get("slots", ()))
    low, high = c.get("min", 0), c.get("max", 0)
    if kind == "CA1":
        return sum(outside(low, high, sum(season.home[t][s] == (c["mode"] == "H") for s in at)) for t in c["teams"])
    if kind in ("CA2", "CA3"):
        windows = [at] if kind == "CA2" else [set(range(s, s + c["intp"])) for s in range(size - c["intp"] + 1)]
        total = 0
        for t in c["teams1"]:
            others = set(c["teams2"]) - {t}
            for window in windows:
                total += outside(low, high, sum(1 for i, j, s in games if s in window and (
                    (i == t and j in others and "H" in c["mode"]) or (j == t and i in others and "A" in c["mode"]))))
        return total
    if kind == "CA4":
        one, two = set(c["teams1"]), set(c["teams2"])
        def counts(i, j):
            return ("H" in c["mode"] and i in one and j in two) or ("A" in c["mode"] and j in one and i in two)
        parts = [at] if c["all"] == "GLOBAL" else [{s} for s in at]
        return sum(outside(low, high, sum(1 for i, j, s in games if s in part and counts(i, j))) for part in parts)
    if kind == "GA1":
        return outside(low, high, sum(1 for i, j, s in games if s in at and (i, j) in c["meetings"]))
    if kind == "BR1":
        return sum(max(sum(is_break(season, t, s, c["mode"]) for s in at) - c["intp"], 0) for t in c["teams"])
    if kind == "BR2":
        return max(sum(is_break(season, t, s, "HA") for t in c["teams"] for s in at) - c["intp"], 0)
    if kind == "FA2":
        return sum(max(max(abs(sum(season.home[i][: s + 1]) - sum(season.home[j][: s + 1])) - c["intp"], 0) for s in at)
                   for i, j in itertools.combinations(c["teams"], 2))
    total = 0
    for i, j in itertools.combinations(c["teams"], 2):
        mutual = sorted(s for a, b, s in games if {a, b} == {i, j})
        total += sum(max(low - (t - s - 1), 0) for s, t in zip(mutual, mutual[1:]))
    return total


def is_accepted(constraints, season):
    return all(deviation(c, season) == 0 for c in constraints if c["hard"])


def objective(constraints, season):
    return sum(c["penalty"] * deviation(c, season) for c in constraints if not c["hard"])


def season_text(season):
    games = sorted((s, i, j) for i, j, s in season.games)
    return "<Solution><Games>" + "".join(f"<ScheduledMatch home='{i}' away='{j}' slot='{s}'/>" for s, i, j in games) + "</Games></Solution>"


def main():
    draw = random.Random(43)
    all_of = {(n, phased): list(seasons(n, phased)) for n in (2, 4) for phased in (False, True)}
    lines, wanted = [], []
    def add(name, n, phased, constraints, above):
        """The league with its dearest accepted season and its least objective, if that is above, unless all seasons cost the same."""
        costs = [(objective(constraints, season), k) for k, season in enumerate(all_of[n, phased]) if is_accepted(constraints, season)]
        if not costs or min(costs)[0] <= above or (n == 4 and min(costs)[0] == max(costs)[0]):
            return False
        dearest = all_of[n, phased][max(costs)[1]]
        league, season = f"least-{name}.xml", f"least-{name}-season.xml"
        write_file(league, instance_text(n, phased, constraints))
        write_file(season, season_text(dearest))
        line, least = f"prove {league} {season} --conflicts all | least", min(costs)[0]
        lines.append(line)
        more = "rejected" if least else "refused"  # the certificate of 0 has no log
        wanted.append(f"robin {line}\nbound {least}: accepted\nbound {least + 1}: {more}\nstatus 0")
        return True
    def until(name, make, above=-1):
        while not add(name, *make(), above):
            pass
    # Each class alone, soft: two leagues whose least is above 0, and one.
    for kind in KINDS:
        for k in range(3):
            until(f"{kind}-{k + 1}", lambda: (4, draw.random() < 0.5, [drawn(draw, 4, kind, False)]), -1 if k == 2 else 0)
    # Several classes together, some of them hard.
    for k in range(12):
        def mixed():
            kinds = draw.sample(KINDS, draw.randint(3, 6))
            return 4, draw.random() < 0.5, [drawn(draw, 4, kind, draw.random() < 0.25) for kind in kinds]
        until(f"together-{k + 1}", mixed)
    for k in range(4):
        until(f"two-teams-{k + 1}", lambda: (2, draw.random() < 0.5, [
            drawn(draw, 2, draw.choice(["CA1", "GA1", "FA2", "SE1", "BR1"]), False) for _ in range(2)]))
    put_below("stdin", TITLE, lines)
    put_below("stdout", TITLE, wanted)
    print(len(lines))


if __name__ == "__main__":
    main()
