"""Checking a refutation log, from the rules in words. Slow and plain: each hint is looked at from the start."""

WIDEST = 2**127 - 1


def read_log(text):
    lines = text.split("\n")
    assert lines[-1] == "" and lines[-2] == "end", "no end"
    version = {"refutation 1": 1, "refutation 2": 2}[lines[0]]
    steps = []
    for line in lines[1:-2]:
        words = line.split(" ")
        kind = "c"
        if version == 2:
            kind, words = words[0], words[1:]
        numbers = [int(word) for word in words]
        cut = None
        if kind == "c":
            cut = numbers.index(0)
            assert numbers[-1] == 0 and 0 not in numbers[cut + 1 : -1]
            steps.append(("c", numbers[:cut], numbers[cut + 1 : -1]))
        else:
            assert numbers[-2] == 0 and 0 not in numbers[:-2]
            parts = list(zip(numbers[:-2:2], numbers[1:-2:2]))
            steps.append(("l", parts, numbers[-1]))
    return steps


def reach(terms, values):
    return sum(coef for coef, lit in terms if values.get(abs(lit), lit > 0) == (lit > 0))


def follow_clause(clause, hints, rows, count):
    if any(abs(lit) > count for lit in clause):
        return "UnknownVariable"
    if any(-lit in clause for lit in clause):
        return None
    values = {abs(lit): lit < 0 for lit in clause}
    for hint in hints:
        if not 1 <= hint <= len(rows):
            return "UnknownRow"
        terms, degree = rows[hint - 1]
        slack = reach(terms, values) - degree
        if slack < 0:
            return None
        forced = [lit for coef, lit in terms if abs(lit) not in values and coef > slack]
        for lit in forced:
            values[abs(lit)] = lit > 0
    return "NoConflict"


def sum_of(parts, divisor, rows):
    totals, degree = {}, 0
    mass = 0
    for factor, number in parts:
        if not 1 <= number <= len(rows):
            return "UnknownRow", None
        terms, own = rows[number - 1]
        mass += factor * sum(coef for coef, _ in terms)
        degree += factor * own
        if mass > WIDEST or degree > WIDEST:
            return "TooWide", None
        for coef, lit in terms:
            totals[lit] = totals.get(lit, 0) + factor * coef
    for var in {abs(lit) for lit in totals}:
        common = min(totals.get(var, 0), totals.get(-var, 0))
        if common:
            totals[var] -= common
            totals[-var] -= common
            degree = max(degree - common, 0)
    up = lambda number: -(-number // divisor)
    terms = sorted([(up(coef), lit) for lit, coef in totals.items() if coef], key=lambda it: abs(it[1]))
    return None, (terms, up(degree))


def clause_row(clause):
    distinct = sorted(set(clause), key=abs)
    if any(-lit in distinct for lit in distinct):
        return [], 0
    return [(1, lit) for lit in distinct], 1


def places_of(rows):
    """For each variable the places of the rows that it stands in."""
    where = {}
    for place, (terms, _) in enumerate(rows):
        for _, lit in terms:
            where.setdefault(abs(lit), []).append(place)
    return where


def settled(rows, values, where):
    """The values with all that the rows force under them, or None where a row is then in conflict."""
    values, todo, waits = dict(values), list(range(len(rows))), [True] * len(rows)
    while todo:
        place = todo.pop()
        waits[place] = False
        terms, degree = rows[place]
        slack = reach(terms, values) - degree
        if slack < 0:
            return None
        for coef, lit in terms:
            if coef > slack and abs(lit) not in values:
                values[abs(lit)] = lit > 0
                later = [it for it in where[abs(lit)] if not waits[it]]
                todo += later
                for it in later:
                    waits[it] = True
    return values


def is_empowering(clause, rows, where):
    """Whether a quiet assignment leaves a literal of the clause free and has all others false: the least one that has
    them false is what the rows force, since each quiet one holds it."""
    for lit in set(clause):
        others = set(clause) - {lit}
        if lit and not any(-it in clause for it in clause):
            values = settled(rows, {abs(it): it < 0 for it in others}, where)
            if values is not None and abs(lit) not in values:
                return True
    return False


def is_spent(count, rows, steps, limit):
    """Whether a log is spent at a limit over rows: so many clauses, each of which follows and is empowering, and a
    quiet assignment over all."""
    rows = list(rows)
    for kind, clause, hints in steps:
        if kind != "c" or follow_clause(clause, hints, rows, count) or not is_empowering(clause, rows, places_of(rows)):
            return False
        rows.append(clause_row(clause))
    return len(steps) == limit and settled(rows, {}, places_of(rows)) is not None


def check(count, rows, steps):
    rows = list(rows)
    last = False
    for number, (kind, first, second) in enumerate(steps, 1):
        if kind == "c":
            cause, row = follow_clause(first, second, rows, count), clause_row(first)
            last = not first
        else:
            cause, row = sum_of(first, second, rows)
            last = False
        if cause:
            return f"rejected step {number} cause {cause}"
        rows.append(row)
    if not last:
        return f"rejected step {len(steps)} cause NoEmptyClause"
    return f"accepted steps {len(steps)}"
