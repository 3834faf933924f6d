"""The rows of a league, and of its parts, played seasons and least objectives, from the rules in words."""

from itertools import combinations

from leagues import Constraint, League, meetings_of_ca4, slots_of


class Numbers:
    """The numbers of a league's variables."""

    def __init__(self, league):
        self.n, self.slots = league.n, slots_of(league.n)
        self.games = self.n * (self.n - 1) * self.slots
        self.has_breaks = any(it.hard and it.name in ("BR1", "BR2") for it in league.constraints)
        self.count = self.games + self.n * self.slots
        if self.has_breaks:
            self.count += 2 * self.n * (self.slots - 1)

    def x(self, i, j, s):
        return 1 + (i * (self.n - 1) + (j if j < i else j - 1)) * self.slots + s

    def h(self, i, s):
        return 1 + self.games + i * self.slots + s

    def hb(self, i, s):
        return 1 + self.games + self.n * self.slots + i * (self.slots - 1) + s - 1

    def ab(self, i, s):
        return self.hb(i, s) + self.n * (self.slots - 1)


def at_least(degree, literals):
    return [(1, it) for it in sorted(literals, key=abs)], degree


def at_most(bound, literals):
    return [(1, -it) for it in sorted(literals, key=abs)], max(len(literals) - bound, 0)


def both(at, literals):
    return [at_least(at["min"], literals), at_most(at["max"], literals)]


def against(numbers, side, i, others, slots):
    found = []
    for j in others:
        for s in slots:
            if j != i and side in ("H", "HA"):
                found.append(numbers.x(i, j, s))
            if j != i and side in ("A", "HA"):
                found.append(numbers.x(j, i, s))
    return found


def frame(league):
    """The rows that every league of so many teams has."""
    v, n = Numbers(league), league.n
    slots, teams = range(v.slots), range(n)
    rows = []
    for i in teams:
        for j in teams:
            if i != j:
                literals = [v.x(i, j, s) for s in slots]
                rows += [at_least(1, literals), at_most(1, literals)]
    for i in teams:
        for s in slots:
            literals = against(v, "HA", i, teams, [s])
            rows += [at_least(1, literals), at_most(1, literals)]
    if league.phased:
        for i, j in combinations(teams, 2):
            literals = [x for s in range(n - 1) for x in (v.x(i, j, s), v.x(j, i, s))]
            rows += [at_least(1, literals), at_most(1, literals)]
    for i in teams:
        for s in slots:
            games = [v.x(i, j, s) for j in teams if j != i]
            rows.append(at_least(1, [-v.h(i, s), *games]))
            terms = [(1, -x) for x in games] + [(n - 1, v.h(i, s))]
            rows.append((sorted(terms, key=lambda it: abs(it[1])), n - 1))
    for s in slots:
        literals = [v.h(i, s) for i in teams]
        rows += [at_least(n // 2, literals), at_most(n // 2, literals)]
    for i in teams:
        literals = [v.h(i, s) for s in slots]
        rows += [at_least(n - 1, literals), at_most(n - 1, literals)]
    if v.has_breaks:
        for i in teams:
            for s in slots[1:]:
                before, now, hb, ab = v.h(i, s - 1), v.h(i, s), v.hb(i, s), v.ab(i, s)
                clauses = [(-hb, before), (-hb, now), (hb, -before, -now)]
                clauses += [(-ab, -before), (-ab, -now), (ab, before, now)]
                rows += [at_least(1, list(it)) for it in clauses]
    return rows


def windows(slots, length):
    """The windows of so many slots that follow each other, or the one window of all."""
    if length >= slots:
        return [range(slots)]
    return [range(first, first + length) for first in range(slots - length + 1)]


def pair(v, i, j, slots):
    return [x for s in slots for x in (v.x(i, j, s), v.x(j, i, s))]


def groups(constraint, v):
    """For each key the groups of its rows; the rows of a constraint are those of all groups in order."""
    name, at = constraint.name, constraint.at
    if name == "CA1":
        sign = 1 if at["mode"] == "H" else -1
        return [[both(at, [sign * v.h(i, s) for s in at["slots"]])] for i in at["teams"]]
    if name == "CA2":
        return [[both(at, against(v, at["mode1"], i, at["teams2"], at["slots"]))] for i in at["teams1"]]
    if name == "CA3":
        length = at["intp"]
        return [
            [
                both(at, against(v, at["mode1"], i, at["teams2"], range(first, first + length)))
                for first in range(v.slots - length + 1)
            ]
            for i in at["teams1"]
        ]
    if name == "CA4":
        listed = meetings_of_ca4(at)
        parts = [at["slots"]] if at["mode2"] == "GLOBAL" else [[s] for s in at["slots"]]
        return [[both(at, [v.x(i, j, s) for i, j in listed for s in part])] for part in parts]
    if name == "GA1":
        return [[both(at, [v.x(i, j, s) for i, j in at["meetings"] for s in at["slots"]])]]
    if name == "BR1":
        side = at["mode2"]
        found = []
        for i in at["teams"]:
            literals = [v.hb(i, s) for s in at["slots"] if s and side in ("H", "HA")]
            literals += [v.ab(i, s) for s in at["slots"] if s and side in ("A", "HA")]
            found.append([[at_most(at["intp"], literals)]])
        return found
    if name == "BR2":
        literals = [f(i, s) for f in (v.hb, v.ab) for i in at["teams"] for s in at["slots"] if s]
        return [[[at_most(at["intp"], literals)]]]
    if name == "FA2":
        found = []
        for i, j in combinations(at["teams"], 2):
            rows = []
            for s in at["slots"]:
                degree = max(s + 1 - at["intp"], 0)
                for a, b in ((i, j), (j, i)):
                    rows.append(at_least(degree, [f for t in range(s + 1) for f in (-v.h(a, t), v.h(b, t))]))
            found.append([rows])
        return found
    return [
        [[at_most(1, pair(v, i, j, window)) for window in windows(v.slots, at["min"] + 1)]]
        for i, j in combinations(at["teams"], 2)
    ]


def league_rows(league):
    v, rows = Numbers(league), frame(league)
    for it in league.constraints:
        if it.hard:
            rows += [row for key in groups(it, v) for group in key for row in group if row[1] > 0]
    return v.count, rows


def part(league, members):
    return League(league.n, league.phased, [league.constraints[k - 1] for k in members])


def resume_rows(league, played, upto):
    v = Numbers(league)
    count, rows = league_rows(league)
    kept = set(played)
    for s in range(upto):
        for i in range(league.n):
            for j in range(league.n):
                if i != j:
                    rows.append(at_least(1, [v.x(i, j, s) if (i, j, s) in kept else -v.x(i, j, s)]))
    return count, rows


def bound_base(league):
    """The league of the hard constraints, in which breaks have variables if one that is paid for bounds them; and what
    is paid for."""
    base = [it for it in league.constraints if it.hard]
    softs = [it for it in league.constraints if not it.hard and it.penalty >= 1]
    has = any(it.name in ("BR1", "BR2") for it in base)
    if not has and any(it.name in ("BR1", "BR2") for it in softs):
        at = {"teams": [], "slots": [], "intp": 0, "mode2": "HA"}
        base = [*base, Constraint("BR1", True, 1, at)]
    return League(league.n, league.phased, base), softs


def size_of(rows):
    return sum(len(terms) for terms, _ in rows)


def bound_size(league):
    """How many terms the bound rows have; no unit is listed, so that there may be many."""
    league, softs = bound_base(league)
    v = Numbers(league)
    size = size_of(league_rows(league)[1])
    for it in softs:
        if it.name == "SE1":
            size += separation_size(it.at["min"], v.slots) * len(list(combinations(it.at["teams"], 2)))
            continue
        for key in unit_groups(it, v):
            for units, group in key:
                size += sum(len(terms) + units for terms, degree in group if degree > 0)
                size += units + 2 * max(units - 1, 0)
    return size


def separation_size(least, slots):
    """The terms of a pair's softened rows and of its units in the objective row: a unit for each of the least slots."""
    alike = min(least, max(least - slots + 2, 0))
    size = alike * (2 * slots + 2)
    for length in range(2, min(least + 2, slots)):
        size += (slots - length + 1) * (2 * length + 1) + 1
    return size


def softened_rows(league):
    """The rows of the accepted seasons with the softened rows of what is paid for, the units with their penalties, and
    the order rows."""
    league, softs = bound_base(league)
    v = Numbers(league)
    count, rows = league_rows(league)
    priced, orders = [], []
    for it in softs:
        for key in unit_groups(it, v):
            for units, group in key:
                own = range(count + 1, count + units + 1)
                count += units
                for terms, degree in group:
                    if degree > 0:
                        rows.append((terms + [(1, u) for u in own], degree))
                priced += [(it.penalty, u) for u in own]
                orders += [at_least(1, [u, -(u + 1)]) for u in own[:-1]]
    return count, rows, priced, orders


def bound_rows(league, bound):
    """The rows whose solutions are the accepted seasons of an objective of at most the bound."""
    return with_bound(softened_rows(league), bound)


def with_bound(softened, bound):
    """The bound rows of softened rows: with the objective row, and the order rows behind it."""
    count, rows, priced, orders = softened
    total = sum(penalty for penalty, _ in priced)
    return count, [*rows, ([(penalty, -unit) for penalty, unit in priced], max(total - bound, 0)), *orders]


def least_rows(league):
    """The bound rows with a bound that demands nothing, and the units with their penalties, which are to cost least."""
    softened = softened_rows(league)
    return *with_bound(softened, sum(penalty for penalty, _ in softened[2])), softened[2]


def unit_groups(constraint, v):
    at = constraint.at
    if constraint.name != "SE1":
        return [
            [(max([degree for _, degree in group], default=0), group) for group in key]
            for key in groups(constraint, v)
        ]
    return [
        [
            (1, [at_most(1, pair(v, i, j, window)) for window in windows(v.slots, at["min"] - u + 2)])
            for u in range(1, at["min"] + 1)
        ]
        for i, j in combinations(at["teams"], 2)
    ]


def opb(count, rows, priced=None):
    """The rows in the form that pseudo-Boolean solvers read, with what is to be least."""
    lines = [f"* #variable= {count} #constraint= {len(rows)}"]
    if priced is not None:
        lines.append("min: " + " ".join(f"+{coef} x{unit}" for coef, unit in priced or [(0, 1)]) + " ;")
    for terms, degree in rows:
        text = " ".join(f"+{coef} {'~' if lit < 0 else ''}x{abs(lit)}" for coef, lit in terms)
        lines.append(f"{text} >= {degree} ;" if terms else f"+0 x1 >= {degree} ;")
    return "\n".join(lines) + "\n"


def signed(terms, degree):
    """A row without negations: c times the negation of x is c less c times x."""
    degree -= sum(coef for coef, lit in terms if lit < 0)
    return [(coef if lit > 0 else -coef, abs(lit)) for coef, lit in terms] or [(0, 1)], degree


def plain_opb(count, rows, priced=None):
    """The rows in the older form of the same, which has no negations."""
    return opb(count, [], priced).replace("#constraint= 0", f"#constraint= {len(rows)}") + "".join(
        " ".join(f"{coef:+} x{variable}" for coef, variable in terms) + f" >= {degree} ;\n"
        for terms, degree in (signed(*row) for row in rows)
    )


def on_lines(terms):
    """The terms of a sum, on lines of twenty."""
    words = [f"{coef:+} x{variable}" for coef, variable in terms]
    return "\n ".join(" ".join(words[at : at + 20]) for at in range(0, len(words), 20))


def program(count, rows, priced=None):
    """The rows as an integer program in the form of CPLEX (LP)."""
    lines = ["minimize", "objective: " + on_lines(priced or [(0, 1)]), "subject to"]
    for number, row in enumerate(rows, 1):
        terms, degree = signed(*row)
        lines.append(f"r{number}: {on_lines(terms)} >= {degree}")
    lines += ["binary", *(f" x{variable}" for variable in range(1, count + 1)), "end"]
    return "\n".join(lines) + "\n"
