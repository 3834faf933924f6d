"""The five moves on a season, as relabellings of its games, from the rules in words."""

from leagues import League, structure


def relabelled(move, games):
    """The games after the move, or None where its own condition fails."""
    kind, *args = move
    games = list(games)
    meets = {}
    for i, j, s in games:
        meets[i, s] = (j, "H")
        meets[j, s] = (i, "A")
    if kind == "HomeSwap":
        i, j = args
        return [(b, a, s) if {a, b} == {i, j} else (a, b, s) for a, b, s in games] if i < j else None
    if kind == "RoundSwap":
        s, t = args
        other = {s: t, t: s}
        return [(a, b, other.get(r, r)) for a, b, r in games] if s < t else None
    if kind == "TeamSwap":
        i, j = args
        return swapped(games, i, j, lambda r: meets[i, r][0] != j) if i < j else None
    if kind == "PartRoundSwap":
        i, s, t = args
        if s >= t:
            return None
        closed, todo = set(), [i]
        while todo:
            team = todo.pop()
            if team not in closed:
                closed.add(team)
                todo += [meets[team, s][0], meets[team, t][0]]
        other = {s: t, t: s}
        return [(a, b, other.get(r, r) if a in closed else r) for a, b, r in games]
    i, j, s = args
    if i >= j or meets[i, s][0] == j:
        return None
    where = {meets[j, r]: r for r in {r for _, _, r in games} if meets[j, r][0] != i}
    slots, todo = set(), s
    while todo not in slots:
        slots.add(todo)
        todo = where[meets[i, todo]]
    return swapped(games, i, j, lambda r: r in slots)


def swapped(games, i, j, chosen):
    name = {i: j, j: i}
    return [(name.get(a, a), name.get(b, b), s) if {a, b} != {i, j} and chosen(s) else (a, b, s) for a, b, s in games]


def made(move, n, phased, games):
    """The games after a legal move, or None where it isn't legal."""
    after = relabelled(move, games)
    if after is None or structure(League(n, phased, []), after) != (0, 0, 0):
        return None
    return after


def neighbours(n):
    slots = range(2 * (n - 1))
    teams = range(n)
    two = lambda of: [(a, b) for a in of for b in of if a < b]
    yield from (("HomeSwap", i, j) for i, j in two(teams))
    yield from (("RoundSwap", s, t) for s, t in two(slots))
    yield from (("TeamSwap", i, j) for i, j in two(teams))
    yield from (("PartRoundSwap", i, s, t) for i in teams for s, t in two(slots))
    yield from (("PartTeamSwap", i, j, s) for i, j in two(teams) for s in slots)
