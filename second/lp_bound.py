"""Proves a bound of the least objective of a league by a linear program.

python3 second/lp_bound.py LEAGUE [--robin PROGRAM] [--out FILE] [--rounds N] [--whole]

It writes a certificate that `robin bound LEAGUE FILE` accepts: that no accepted season costs less than so much. The
linear program is that of the bound rows, with two laws beside them, each derived by steps of the log. In each half of a
phased league all teams together have at least n - 2 breaks. And where two teams are to meet again after at least n - 1
slots, the gaps of all pairs have the mean n - 1. The certificate adds up rows, each so often as its dual value says in
millionths, so that a dual value that is a little wrong costs a little of the bound and never makes a false one.

Soft FA2 and SE1 are left out of the program but for the second law, since they make it large and rarely add to it;
`--whole` takes them in. After each of the rounds the breaks of a subset of the teams are added where the law says more
of it than the program. Nothing here need be believed: `bound` checks every step. It wants Debian's python3-scipy.
"""

import argparse
import math
import os
import subprocess
import sys
import tempfile
import time
from itertools import combinations

sys.path.insert(0, os.path.dirname(os.path.abspath(__file__)))
import leagues
import rows

import numpy
import scipy.sparse
from scipy.optimize import linprog

SCALE = 10**6


class Group:
    """The units of one key of a soft constraint: what its rows have in common."""

    def __init__(self, constraint, first, units):
        self.constraint, self.first, self.units = constraint, first, units
        self.rows = []


class BoundRows:
    """The bound rows of a league without their units, which the program sees as one column a group."""

    def __init__(self, league):
        self.league = league
        self.base, self.softs = rows.bound_base(league)
        self.v = rows.Numbers(self.base)
        self.count, self.rows = rows.league_rows(self.base)
        self.groups, self.group_of = [], {}
        unit = self.count + 1
        for place, it in enumerate(self.softs):
            for key in rows.unit_groups(it, self.v):
                for units, listed in key:
                    self.add(Group(place, unit, units), listed)
                    unit += units
        self.objective_row = len(self.rows) + 1
        orders = sum(max(it.units - 1, 0) for it in self.groups)
        self.first_step = self.objective_row + orders + 1
        self.total = sum(self.penalty(it) * it.units for it in self.groups)

    def add(self, group, listed):
        self.groups.append(group)
        for row in listed:
            if row[1] > 0:
                self.rows.append(row)
                self.group_of[len(self.rows)] = len(self.groups) - 1
                group.rows.append(len(self.rows))

    def penalty(self, group):
        return self.softs[group.constraint].penalty

    def groups_of(self, place):
        """The numbers of the groups of a soft constraint, in order."""
        return [at for at, it in enumerate(self.groups) if it.constraint == place]

    def row(self, number):
        """The literals of a row with their coefficients, and its degree."""
        terms, degree = self.rows[number - 1]
        found = {literal: coefficient for coefficient, literal in terms}
        if number in self.group_of:
            group = self.groups[self.group_of[number]]
            found.update({group.first + at: 1 for at in range(group.units)})
        return found, degree


class Frame:
    """The numbers of the rows that every league of so many teams has, in the order of `rows.frame`: of each two rows
    that say at least and at most the number of the first."""

    def __init__(self, bound):
        n, slots = bound.base.n, bound.v.slots
        teams, self.n = range(n), n
        self.next = 1
        self.pair = self.numbers(((i, j) for i in teams for j in teams if i != j), 2)
        self.cell = self.numbers(((i, s) for i in teams for s in range(slots)), 2)
        self.phase = self.numbers(combinations(teams, 2), 2) if bound.base.phased else {}
        self.link = self.numbers(((i, s) for i in teams for s in range(slots)), 2)
        self.homes = self.numbers(range(slots), 2)
        self.total = self.numbers(teams, 2)
        breaks = bound.v.has_breaks
        self.breaks = self.numbers(((i, s) for i in teams for s in range(1, slots)), 6) if breaks else {}
        assert self.next - 1 == len(rows.frame(bound.base))

    def numbers(self, keys, step):
        found = {}
        for key in keys:
            found[key] = self.next
            self.next += step
        return found

    def idle(self):
        """Rows that say nothing more of fractions: the second link row, and what bounds breaks from above."""
        second = [number + 1 for number in self.link.values()]
        return {*second, *(number + at for number in self.breaks.values() for at in (0, 1, 3, 4))}


class Log:
    """The steps of a certificate, with the row that each derives."""

    def __init__(self, bound):
        self.bound, self.lines, self.own, self.known = bound, [], {}, {}

    def row(self, number):
        return self.own[number] if number in self.own else self.bound.row(number)

    def put(self, line, row):
        number = self.bound.first_step + len(self.lines)
        self.lines.append(line)
        self.own[number] = row
        return number

    def linear(self, parts, divisor=1):
        """Adds up rows, each so many times, and divides what stands, rounded up. It gives the step's number."""
        sums, degree = {}, 0
        for factor, number in parts:
            terms, own = self.row(number)
            degree += factor * own
            for literal, coefficient in terms.items():
                sums[literal] = sums.get(literal, 0) + factor * coefficient
        degree -= sum(min(sums[it], sums[-it]) for it in sums if it > 0 and -it in sums)
        left = {it: sums[it] - sums.get(-it, 0) for it in sums}
        terms = {it: -(-more // divisor) for it, more in left.items() if more > 0}
        words = "".join(f"{factor} {number} " for factor, number in parts)
        return self.put(f"l {words}0 {divisor}", (terms, -(-max(degree, 0) // divisor)))

    def clause(self, literals, hints):
        words = "".join(f"{it} " for it in literals) + "0 " + "".join(f"{it} " for it in hints)
        return self.put(f"c {words}0", (dict.fromkeys(literals, 1), 1))

    def once(self, key, make):
        """The number of what was derived under this key, which is made at the first call."""
        if key not in self.known:
            self.known[key] = make()
        return self.known[key]

    def text(self, bound):
        return f"bound {bound}\nrefutation 2\n" + "\n".join(self.lines) + "\nend\n"


class FewestBreaks:
    """The law of the fewest breaks. Of teams that begin a half on one side at most one has no break at the end of a run
    of places by turns that it began there, since two such teams would never meet."""

    def __init__(self, bound, frame):
        self.bound, self.frame = bound, frame
        n, slots = bound.base.n, bound.v.slots
        self.spans = [range(n - 1), range(n - 1, slots)] if bound.base.phased else [range(slots)]

    def is_home(self, span, at_home, slot):
        """Whether a team without a break that begins at home, or away, is at home in a slot of the span."""
        return ((slot - self.spans[span][0]) % 2 == 0) == at_home

    def literals(self, team, span, at_home):
        """The team begins on the other side, or has such a break."""
        v, slots = self.bound.v, self.spans[span]
        first = v.h(team, slots[0])
        found = [-first if at_home else first]
        for slot in slots[1:]:
            of = v.hb if self.is_home(span, at_home, slot - 1) else v.ab
            found.append(of(team, slot))
        return found

    def cut(self, key):
        teams, span, at_home = key
        literals = [it for team in teams for it in self.literals(team, span, at_home)]
        return [(1, it) for it in literals], len(teams) - 1, []

    def no_home_game(self, log, team, slot):
        """A team that isn't at home in a slot has no home game there."""
        frame, n = self.frame, self.frame.n

        def make():
            half = [(1, frame.cell[it, slot] + 1) for it in range(n)]
            games = log.once(("games", slot), lambda: log.linear(half, 2))
            links = [(1, frame.link[it, slot]) for it in range(n) if it != team]
            return log.linear([*links, (1, frame.homes[slot]), (1, games)])

        return log.once(("no home game", team, slot), make)

    def no_away_game(self, log, team, slot):
        """A team that is at home in a slot has no away game there."""
        parts = [(1, self.frame.link[team, slot]), (1, self.frame.cell[team, slot] + 1)]
        return log.once(("no away game", team, slot), lambda: log.linear(parts))

    def meeting(self, log, i, j, span):
        """Two teams meet in the span."""
        frame = self.frame
        if not frame.phase:
            return frame.pair[i, j]
        if span == 0:
            return frame.phase[i, j]
        parts = [(1, frame.pair[i, j]), (1, frame.pair[j, i]), (1, frame.phase[i, j] + 1)]
        return log.once(("second meeting", i, j), lambda: log.linear(parts))

    def of_pair(self, log, i, j, span, at_home):
        """One of two teams has one of its literals."""
        slots = self.spans[span]

        def make():
            hints = []
            for team in (i, j):
                for slot in slots[1:]:
                    home = self.is_home(span, at_home, slot - 1)
                    hints.append(self.frame.breaks[team, slot] + (2 if home else 5))
            last = self.meeting(log, i, j, span)
            for slot in slots:
                home = self.is_home(span, at_home, slot)
                none = self.no_away_game if home else self.no_home_game
                hints += [none(log, team, slot) for team in (i, j)]
            clause = self.literals(i, span, at_home) + self.literals(j, span, at_home)
            return log.clause(clause, [*hints, last])

        return log.once(("pair", i, j, span, at_home), make)

    def prove(self, log, key):
        """All teams but one have one of their literals: from those of all pairs, a team more each step."""
        teams, span, at_home = key
        number = self.of_pair(log, *teams[:2], span, at_home)
        for count in range(2, len(teams)):
            pairs = [(1, self.of_pair(log, it, teams[count], span, at_home)) for it in teams[:count]]
            before = [(count - 1, number)]
            number = log.linear([*before, *pairs], count)
        return number

    def keys(self):
        if not self.bound.v.has_breaks:
            return []
        teams = tuple(range(self.frame.n))
        return [(teams, span, at_home) for span in range(len(self.spans)) for at_home in (True, False)]

    def violated(self, values):
        """Subsets of the teams of which the law says more than these values of the variables."""
        found = []
        for _, span, at_home in self.keys():
            teams = []
            short = 0
            for team in range(self.frame.n):
                literals = self.literals(team, span, at_home)
                has = sum(values[it - 1] if it > 0 else 1 - values[-it - 1] for it in literals)
                if has < 1 - 1e-7:
                    teams.append(team)
                    short += 1 - has
            if len(teams) >= 2 and short > 1 + 1e-4:
                found.append((tuple(teams), span, at_home))
        return found


class MeanGap:
    """The law of the mean gap in a phased league: two games of a pair in slots s and t of its halves are t - s apart.
    What a soft SE1 with a minimum of n - 1 costs is at least what this says of the pair, by the weights of both slots."""

    def __init__(self, bound, frame, place):
        self.bound, self.frame, self.place = bound, frame, place
        self.half = bound.base.n - 1
        teams = bound.softs[place].at["teams"]
        numbers = iter(bound.groups_of(place))
        # By the length of the window in which the pair may not meet twice.
        self.group = {
            (pair, self.half - unit + 2): next(numbers)
            for pair in combinations(teams, 2)
            for unit in range(1, self.half + 1)
        }

    def keys(self):
        return sorted({pair for pair, _ in self.group})

    def games(self, pair, slot):
        i, j = pair
        return [self.bound.v.x(i, j, slot), self.bound.v.x(j, i, slot)]

    def cut(self, pair):
        half = self.half
        terms = []
        for slot in range(2 * half):
            weight = slot + 1 if slot < half else 2 * half - slot
            terms += [(weight, -it) for it in self.games(pair, slot)]
        most = sum(weight for weight, _ in terms)
        return terms, most - half, [self.group[pair, length] for length in range(2, half + 2)]

    def outside(self, log, pair, reach):
        """A row of degree 0 with the pair's games that are further than so far from the middle, each once: what is needed
        to add them, made with a game elsewhere that is played once."""
        half = self.half
        k, other = [it for it in range(self.frame.n) if it not in pair][:2]
        elsewhere = [self.bound.v.x(k, other, slot) for slot in range(2 * half)]
        far = [slot for slot in range(2 * half) if slot < half - reach or slot >= half + reach]
        clause = log.clause([*elsewhere, *(it for slot in far for it in self.games(pair, slot))], [self.frame.pair[k, other]])
        return log.linear([(1, clause), (1, self.frame.pair[k, other] + 1)])

    def prove(self, log, pair):
        frame, half = self.frame, self.half
        i, j = pair
        first = frame.phase[i, j] + 1
        second = log.linear([(1, frame.pair[i, j] + 1), (1, frame.pair[j, i] + 1), (1, frame.phase[i, j])])
        zero = {reach: self.outside(log, pair, reach) for reach in range(1, half)}
        own = {}
        for length in range(2, half + 2):
            windows = self.bound.groups[self.group[pair, length]].rows
            parts = [(1, windows[half - before]) for before in range(1, length)]
            if half - length + 1 > 0:
                parts += [(half - length + 1, first), (half - length + 1, second)]
            own[length] = log.linear(parts + [(1, zero[reach]) for reach in range(length, half)])
        for lead in range(half + 1, 2, -1):
            for length in range(2, lead):
                own[length] = log.linear([(1, own[lead]), (lead - 2, own[length])], lead - 1)
        return own[2]


class Program:
    """The linear program: a column a variable, from 0 to 1, and a column a group of units, from 0."""

    def __init__(self, bound, frame, left_out):
        self.bound, self.idle = bound, frame.idle()
        self.left_out = left_out

    def matrix(self, cuts):
        """The rows, with what each is: a row's number, or a cut's place."""
        bound, at, column, value = self.bound, [], [], []
        degrees, names = [], []

        def put(terms, degree, groups, name):
            for coefficient, literal in terms:
                at.append(len(degrees))
                column.append(abs(literal) - 1)
                value.append(coefficient if literal > 0 else -coefficient)
                degree -= 0 if literal > 0 else coefficient
            for group in groups:
                at.append(len(degrees))
                column.append(bound.count + group)
                value.append(1)
            degrees.append(degree)
            names.append(name)

        for number, (terms, degree) in enumerate(bound.rows, 1):
            group = bound.group_of.get(number)
            if number in self.idle:
                continue
            if group is None:
                put(terms, degree, [], ("row", number))
            elif bound.softs[bound.groups[group].constraint].name not in self.left_out:
                put(terms, degree, [group], ("row", number))
        for place, cut in enumerate(cuts):
            put(*cut, ("cut", place))
        shape = (len(degrees), bound.count + len(bound.groups))
        matrix = scipy.sparse.csr_matrix((numpy.array(value, float), (at, column)), shape=shape)
        return matrix, numpy.array(degrees, float), names

    def solve(self, cuts):
        """The least value, the values of the variables, and the dual value of each row that has one."""
        bound = self.bound
        matrix, degrees, names = self.matrix(cuts)
        equal, other = split(matrix, degrees)
        costs = numpy.zeros(matrix.shape[1])
        for place, group in enumerate(bound.groups):
            costs[bound.count + place] = bound.penalty(group)
        ranges = [(0, 1)] * bound.count + [(0, None)] * len(bound.groups)
        done = linprog(
            costs,
            A_ub=-matrix[other],
            b_ub=-degrees[other],
            A_eq=matrix[equal] if equal else None,
            b_eq=degrees[equal] if equal else None,
            bounds=ranges,
            method="highs-ipm",
        )
        if done.x is None:
            sys.exit(f"lp_bound: the program has no solution: {done.message}")
        duals = {names[at]: -dual for at, dual in zip(other, done.ineqlin.marginals) if dual < -1e-9}
        if equal:
            for at, dual in zip(equal, done.eqlin.marginals):
                if abs(dual) > 1e-9:
                    duals[names[at if dual > 0 else at + 1]] = abs(dual)
        return done.fun, done.x[: bound.count], duals


def split(matrix, degrees):
    """The places of rows that are the negation of the next one, and so say an equation with it; and of all that aren't of
    such a pair."""
    equal, other, at = [], [], 0
    ends = matrix.indptr
    while at < len(degrees):
        here = slice(ends[at], ends[at + 1])
        if at + 1 < len(degrees) and degrees[at + 1] == -degrees[at]:
            there = slice(ends[at + 1], ends[at + 2])
            if numpy.array_equal(matrix.indices[here], matrix.indices[there]) and numpy.array_equal(
                matrix.data[here], -matrix.data[there]
            ):
                equal.append(at)
                at += 2
                continue
        other.append(at)
        at += 1
    return equal, other


def certificate(bound, value, duals, cuts):
    """The bound that dual values prove, and the text that says so."""
    least = math.ceil(value - 1e-6)
    log, parts = Log(bound), []
    for (kind, at), dual in sorted(duals.items()):
        times = round(dual * SCALE)
        if times > 0:
            parts.append((times, at if kind == "row" else cuts[at][0].prove(log, cuts[at][1])))
    paid = {-(it.first + at): bound.penalty(it) for it in bound.groups for at in range(it.units)}
    log.own[bound.objective_row] = (paid, max(bound.total - (least - 1), 0))
    last = log.linear([*parts, (SCALE, bound.objective_row)])
    log.lines.append(f"c 0 {last} 0")
    return least, log.text(least), len(log.lines)


def best_duals(program, laws, rounds):
    """The largest value of some rounds, with its dual values and its cuts."""
    cuts = [(law, key) for law in laws for key in law.keys()]
    best = None
    for turn in range(rounds):
        began = time.process_time()
        value, values, duals = program.solve([law.cut(key) for law, key in cuts])
        print(f"lp_bound: {value:.3f} with {len(cuts)} cuts, {time.process_time() - began:.1f} s", file=sys.stderr)
        if best is None or value > best[0] + 1e-6:
            best = value, duals, list(cuts)
        more = [(law, key) for law in laws if isinstance(law, FewestBreaks) for key in law.violated(values)]
        more = [it for it in more if it not in cuts]
        if not more:
            break
        cuts += more
    return best


def main():
    words = argparse.ArgumentParser(description=__doc__, formatter_class=argparse.RawDescriptionHelpFormatter)
    words.add_argument("league")
    words.add_argument("--robin", help="the program whose `bound` is to check the certificate")
    words.add_argument("--out", help="the file of the certificate; without it, standard output")
    words.add_argument("--rounds", type=int, default=3)
    words.add_argument("--whole", action="store_true")
    words = words.parse_args()
    league = leagues.read_league(words.league)
    bound = BoundRows(league)
    frame = Frame(bound)
    laws = [FewestBreaks(bound, frame)]
    if league.phased:
        listed = enumerate(bound.softs)
        laws += [MeanGap(bound, frame, at) for at, it in listed if it.name == "SE1" and it.at["min"] == league.n - 1]
    program = Program(bound, frame, () if words.whole else ("FA2", "SE1"))
    value, duals, cuts = best_duals(program, laws, words.rounds)
    least, text, steps = certificate(bound, value, duals, cuts)
    print(f"lp_bound: none costs less than {least}: {steps} steps, {len(text)} bytes", file=sys.stderr)
    if words.out:
        with open(words.out, "w", encoding="utf-8") as out:
            out.write(text)
    else:
        sys.stdout.write(text)
    if words.robin:
        with tempfile.NamedTemporaryFile("w", suffix=".log") as copy:
            copy.write(text)
            copy.flush()
            done = subprocess.run([words.robin, "bound", words.league, copy.name], stdout=subprocess.PIPE)
        print(f"lp_bound: {done.stdout.decode().strip()}", file=sys.stderr)
        sys.exit(done.returncode)


if __name__ == "__main__":
    main()
