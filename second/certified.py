"""Attacks the commands of certificates and of seasons partly played: prove, bound, resume, audit.

The groups are hostile.py's. What is demanded is said from the rules in words (docs/FORMATS.md, docs/DEFINITIONS.md):
the first refusal, in its order; the verdict on each certificate and log, over rows that rows.py makes anew; and of what
`prove` and `resume` answer each season, objective, certificate and log.
"""

import bisect
import collections
import functools
import itertools
import os
import random
import re

import forms
import leagues
import logs
import rows
from attack import BATCH, C4, C4_TEXT, I4, MIB, NO_BREAK, NO_HOME
from attack import example, filled, instance_refusal, instance_text, measured, season_text
from changes import changed_file, changed_log

TERMS = 40_000_000
TWO = [(0, 1, 0), (1, 0, 1)]
AWAY_LATE = '<CA1 teams="0" min="0" max="0" mode="A" slots="3;4;5" type="HARD" penalty="1"/>'
AWAY_LATE_LOG = b"refutation 1\n0 153 178 90 146 0\nend\n"
FIRST_HOME = '<CA1 teams="0" min="0" max="0" mode="H" slots="%s" type="SOFT" penalty="%d"/>'
FIVE = b"bound 5\nrefutation 1\n0 32 32 31 31 27 0\nend\n"


# What is demanded.


@functools.lru_cache(64)
def league_of(instance):
    """The league of an instance file, or the line by which it is refused."""
    return instance_refusal(instance)


@functools.lru_cache(64)
def bound_size_of(instance):
    """The size of a league's bound rows."""
    return rows.bound_size(league_of(instance)[0])


@functools.lru_cache(64)
def softened_of(instance):
    """A league's rows that don't depend on the bound."""
    return rows.softened_rows(league_of(instance)[0])


@functools.lru_cache(64)
def resumed_size(instance, k):
    """The size of the resume rows of k slots."""
    league, _ = league_of(instance)
    return rows.size_of(rows.league_rows(league)[1]) + league.n * (league.n - 1) * k


@functools.lru_cache(64)
def resumed_of(instance, games, k):
    """The number of variables and the resume rows."""
    return rows.resume_rows(league_of(instance)[0], games, k)


@functools.lru_cache(16)
def games_of(solution, n):
    """The games of a solution file, or the line by which it is refused."""
    if len(solution) > forms.FILES["solution"]:
        return None, f"refused solution TooLong limit {forms.FILES['solution']}\n"
    try:
        return tuple(forms.read_solution(solution, n)), None
    except forms.Fault as fault:
        return None, f"refused solution {fault.kind} line {fault.line}\n"


def log_of(text, read):
    """What a log or a certificate says, or the line by which it is refused."""
    if len(text) > forms.FILES["log"]:
        return None, f"refused log TooLong limit {forms.FILES['log']}\n"
    try:
        return read(text), None
    except forms.Fault as fault:
        return None, f"refused log {fault.kind} line {fault.line}\n"


def before_second(instance, k=None):
    """The refusal before the second file is begun: the instance's form, K (none for bounds), the size of the rows."""
    league, refusal = league_of(instance)
    if refusal:
        return refusal
    if k is not None and k > leagues.slots_of(league.n):
        return f"refused slot {k}\n"
    size = bound_size_of(instance) if k is None else resumed_size(instance, k)
    return f"refused rows TooLarge terms {size}\n" if size > TERMS else None


def verdict_on(steps, count, own_rows, accepted):
    """Status and line of a verdict; `accepted` are the line's words where the log is."""
    verdict = logs.check(count, own_rows, steps)
    return (0, f"{accepted} steps {len(steps)}\n") if verdict.startswith("accepted") else (1, verdict + "\n")


def bounded(instance, certificate):
    """Status and text of `bound`."""
    refusal = before_second(instance)
    if refusal:
        return 3, refusal
    said, refusal = log_of(certificate, forms.read_certificate)
    if refusal:
        return 3, refusal
    bound, steps = said
    if bound == 0:
        return 0, "accepted bound 0 steps 0\n"
    return verdict_on(steps, *rows.with_bound(softened_of(instance), bound - 1), f"accepted bound {bound}")


def audited(instance, solution, k, log):
    """Status and text of `audit`."""
    refusal = before_second(instance, k)
    if refusal:
        return 3, refusal
    games, refusal = games_of(solution, league_of(instance)[0].n)
    if refusal:
        return 3, refusal
    steps, refusal = log_of(log, forms.read_log)
    if refusal:
        return 3, refusal
    return verdict_on(steps, *resumed_of(instance, games, k), "accepted")


def is_written(text, games, objective):
    """Whether a text is the solution file of these games with a score, in order."""
    return games == sorted(games, key=lambda it: (it[2], it[0], it[1])) and text == season_text(games, objective)


def season_fault(league, text):
    """What is wrong with a solution file that is written, with the objective of its games."""
    try:
        games = forms.read_solution(text, league.n)
    except forms.Fault as fault:
        return f"form {fault.kind}", [], 0
    objective = leagues.sums(league, games)[1]
    if not leagues.is_accepted(league, games):
        return "not accepted", games, objective
    return (None if is_written(text, games, objective) else "text"), games, objective


def spent_fault(text, count, own_rows, limit):
    """What is wrong with a log that is said to be spent at a limit over rows."""
    if limit is None:
        return "spent without a limit"
    steps, refusal = log_of(text, forms.read_log)
    if refusal:
        return refusal
    if limit > 64:
        # Too slow for this reading: that each step follows, and their number.
        is_spent = logs.check(count, own_rows, steps) == f"rejected step {limit} cause NoEmptyClause"
        return None if is_spent and len(steps) == limit else "not spent"
    return None if logs.is_spent(count, own_rows, steps, limit) else "not spent"


def resume_fault(instance, solution, k, limit, ran):
    """What is wrong with what `resume` answered."""
    refusal = before_second(instance, k)
    league = league_of(instance)[0]
    games, refusal = (None, refusal) if refusal else games_of(solution, league.n)
    if refusal:
        return None if (ran.status, ran.out.decode()) == (3, refusal) else f"not {refusal}"
    if ran.status == 0:
        fault, found, _ = season_fault(league, ran.out)
        early = lambda of: {it for it in of if it[2] < k}
        return fault or (None if early(found) == early(games) else "other games")
    count, own_rows = resumed_of(instance, games, k)
    if ran.status == 5:
        return spent_fault(ran.out, count, own_rows, limit)
    steps, refusal = log_of(ran.out, forms.read_log)
    if ran.status != 4 or refusal:
        return f"status {ran.status} {refusal}"
    verdict = logs.check(count, own_rows, steps)
    return None if verdict.startswith("accepted") else verdict


def floored_fault(instance, text, objective, sought, limit):
    """What is wrong with what `prove` writes where its budget is spent: the objective, a certificate of a floor below what is sought, a log."""
    line, _, rest = text.partition(b"\n")
    if line != b"objective %d" % objective:
        return f"not objective {objective}"
    bound, _, log = rest.partition(b"\n")
    floor = bound + b"\n"
    if bound != b"bound 0":
        proof, end, log = log.partition(b"\nend\n")
        floor += proof + end
    verdict = bounded(instance, floor)
    if verdict[0] != 0 or int(bound.split()[-1]) >= sought:
        return f"{bound} {verdict}"
    return spent_fault(log, *rows.with_bound(softened_of(instance), sought - 1), limit)


def reached_fault(instance, text, objective, sought):
    """What is wrong with what `prove --floor` writes where the floor is proved: the objective, and a certificate of what is sought or more."""
    line, _, certificate = text.partition(b"\n")
    bound = certificate.partition(b"\n")[0]
    verdict = bounded(instance, certificate)
    if line == b"objective %d" % objective and verdict[0] == 0 and sought <= int(bound.split()[-1]) <= objective:
        return None
    return f"{line} {bound} {verdict}"


def prove_fault(instance, solution, limit, ran, floor=None):
    """What is wrong with what `prove` answered."""
    refusal = before_second(instance)
    league = league_of(instance)[0]
    games, refusal = (None, refusal) if refusal else games_of(solution, league.n)
    if refusal:
        return None if (ran.status, ran.out.decode()) == (3, refusal) else f"not {refusal}"
    if not leagues.is_accepted(league, games):
        wanted = (1, leagues.report(league, games))
        return None if (ran.status, ran.out.decode()) == wanted else f"not {wanted}"
    objective = leagues.sums(league, games)[1]
    sought = objective if floor is None else min(floor, objective)
    if ran.status == 9:
        fault, _, better = season_fault(league, ran.out)
        return fault or (None if better < sought else "not better")
    if ran.status == 5 and sought:
        return floored_fault(instance, ran.out, objective, sought, limit)
    if ran.status == 0 and floor is not None:
        return reached_fault(instance, ran.out, objective, sought)
    if ran.status != 0:
        return f"status {ran.status} at {objective}"
    head = b"bound %d\n" % objective
    verdict = bounded(instance, ran.out)
    return None if ran.out.startswith(head) and verdict[0] == 0 else f"{head} {verdict}"


def resumes(t, instance, solution, k, limit, files, then=lambda ran: None):
    """`resume` on two files, judged when its batch is run; then what is said."""
    more = [] if limit is None else ["--conflicts", "all" if limit == "all" else str(limit)]
    limit = {None: 2000, "all": None}.get(limit, limit)

    def judge(ran):
        fault = resume_fault(instance, solution, k, limit, ran)
        t.must(not fault, "resume", k, more, fault, ran.status, ran.out[:300], files=files)
        then(ran)

    t.later(["resume", *files, str(k), *more], judge)


def proves(t, instance, solution, limit, files, then=lambda ran: None, floor=None):
    """`prove` on two files, judged when its batch is run; then what is said."""
    more = [] if limit is None else ["--conflicts", "all" if limit == "all" else str(limit)]
    more += [] if floor is None else ["--floor", str(floor)]
    limit = {None: 2000, "all": None}.get(limit, limit)

    def judge(ran):
        fault = prove_fault(instance, solution, limit, ran, floor)
        t.must(not fault, "prove", more, fault, ran.status, ran.out[:300], files=files)
        then(ran)

    t.later(["prove", *files, *more], judge)


# Leagues, seasons and what is known of them.


def soft_leagues():
    """Small leagues with wishes, and a season that each accepts."""
    two = [FIRST_HOME % ("0;1", 5)]
    yield instance_text(2, True, two), season_text(TWO)
    yield instance_text(2, False, [FIRST_HOME % ("0", 5)]), season_text(TWO)
    yield instance_text(2, True, ['<SE1 teams="0;1" min="3" type="SOFT" penalty="7"/>']), season_text(TWO)
    yield instance_text(2, True, [FIRST_HOME % ("0;1", 4_294_967_295)] * 6), season_text(TWO)
    yield I4, C4_TEXT
    wishes = [FIRST_HOME % ("2;3", 10), '<SE1 teams="0;1;2;3" min="2" type="SOFT" penalty="3"/>']
    wishes.append(NO_BREAK.replace("HARD", "SOFT") % 2)
    yield instance_text(4, True, wishes), C4_TEXT
    wishes = ['<CA3 teams1="0;1;2;3" teams2="0;1;2;3" max="1" min="1" mode1="H" intp="2" type="SOFT" penalty="2"/>']
    wishes.append('<FA2 teams="0;1;2;3" intp="0" slots="0;1;2;3;4;5" type="SOFT" penalty="5"/>')
    wishes.append('<GA1 meetings="0,1;1,0;2,3;" min="1" max="1" slots="0;1" type="SOFT" penalty="9"/>')
    wishes.append('<BR1 teams="0;2" intp="0" mode2="HA" slots="1;2;3;4;5" type="SOFT" penalty="0"/>')
    yield instance_text(4, False, wishes), C4_TEXT
    yield example("nine-classes.xml"), example("accepted-season.xml")


def certificates(t):
    """Leagues with the seasons that `prove` goes by and the certificate at the end; each answer is judged."""
    for number, (instance, season) in enumerate(soft_leagues()):
        files = [t.path(f"soft-{number}.xml", instance), t.path(f"soft-season-{number}.xml", season)]
        for limit in (0, 1, 2, None):
            proves(t, instance, season, limit, files)
            for floor in (0, 1, 3, 10, 2**64 - 1):
                proves(t, instance, season, limit, files, floor=floor)
        for _ in range(60):
            said = []
            proves(t, instance, season, "all", files, said.append)
            t.flush()
            ran = said[0]
            if ran.status != 9:
                break
            season = ran.out
            files[1] = t.path(os.path.basename(files[1]), season)
        t.must(ran.status == 0, "no end", ran.status, files=files)
        yield instance, season, ran.out, files


def late_leagues():
    """Leagues with played seasons of which some can't be gone on with."""
    other = [(i, j, 5 - s) for i, j, s in C4]
    yield I4, C4
    yield instance_text(4, False), other
    yield instance_text(4, True, [AWAY_LATE]), C4
    yield instance_text(4, True, [NO_HOME]), C4
    yield instance_text(4, False, [NO_BREAK % 3]), other
    yield instance_text(4, True, [NO_BREAK % 4, FIRST_HOME % ("1;2", 3)]), C4
    yield instance_text(2, True), TWO
    yield example("nine-classes.xml"), forms.read_solution(example("accepted-season.xml"), 4)


def conflicting(t):
    """Leagues, played seasons, K and the log that refutes the rest; each answer is judged."""
    for number, (instance, games) in enumerate(late_leagues()):
        n = league_of(instance)[0].n
        lists = [games, games[::-1], games + games[:3], games[2:], games[1:], [], games[: n // 2], [games[0]] * 5]
        lists += [games[: n // 2] + [(0, 1, leagues.slots_of(n) - 1)], [(j, i, s) for i, j, s in games]]
        for place, played in enumerate(lists):
            solution = season_text(played)
            files = [t.path(f"late-{number}.xml", instance), t.path(f"played-{number}-{place}.xml", solution)]
            said = []
            for k in range(leagues.slots_of(n) + 1):
                for limit in (0, 1, "all") if place < 2 else (0, "all"):
                    resumes(t, instance, solution, k, limit, files, lambda ran, k=k: said.append((k, ran)))
            t.flush()
            for k, log in dict((k, ran.out) for k, ran in said if ran.status == 4).items():
                yield instance, solution, k, log, files


# Groups.


def shown(t):
    """What `prove` and `resume` answer, with budgets of no conflict to any number; what they prove is checked again."""
    kinds = collections.Counter()
    for instance, _, certificate, files in certificates(t):
        path = t.path("least.log", certificate)
        t.answers(["bound", files[0], path], *bounded(instance, certificate), files=[files[0], path])
        kinds["certificates"] += 1
    for instance, solution, k, log, files in conflicting(t):
        path = t.path("late.log", log)
        t.answers(["audit", *files, str(k), path], *audited(instance, solution, k, log), files=[*files, path])
        kinds["logs of played seasons"] += 1
    print("    " + ", ".join(f"{it}: {count}" for it, count in kinds.items()), flush=True)


def fronts(t):
    """Each front of a league by the four commands, of a played season, of a certificate, of a log."""
    season, two = t.path("season.xml", C4_TEXT), instance_text(2, True, [FIRST_HOME % ("0;1", 5)])
    five, log = t.path("five.log", FIVE), t.path("late.log", AWAY_LATE_LOG)
    late = instance_text(4, True, [AWAY_LATE])
    for text in (two, late):
        for k in range(len(text) - 1):
            it = t.fresh("cut.xml", text[:k])
            told = f"refused instance Truncated line {1 + text.count(bytes([10]), 0, k)}\n"
            for words in (["prove", it, season], ["bound", it, five], ["resume", it, season, "9"]):
                t.demands(words, 3, told, files=[it])
            t.demands(["audit", it, season, "9", log], 3, told, files=[it])
    it, cut = t.path("league.xml", late), None
    for k in range(len(C4_TEXT) + 1):
        text = C4_TEXT[:k]
        cut = t.fresh("cut-season.xml", text)
        resumes(t, late, text, 3, 0, [it, cut])
        proves(t, late, text, 0, [it, cut])
        t.demands(["audit", it, cut, "3", log], *audited(late, text, 3, AWAY_LATE_LOG), files=[cut])
    for k in range(len(AWAY_LATE_LOG) + 1):
        cut = t.fresh("cut.log", AWAY_LATE_LOG[:k])
        t.demands(["audit", it, season, "3", cut], *audited(late, C4_TEXT, 3, AWAY_LATE_LOG[:k]), files=[cut])
    it = t.path("two.xml", two)
    for text in (FIVE, b"bound 18446744073709551615\nrefutation 2\nl 1 31 0 2\nc 0 34 0\nend\n", b"bound 0\n\n"):
        for k in range(len(text) + 1):
            cut = t.fresh("cut.log", text[:k])
            t.demands(["bound", it, cut], *bounded(two, text[:k]), files=[cut])


# The first lines of certificates over the league of two teams of which each home game of the first costs 5.
STATED = [
    (b"", "refused log NoEnd line 1"),
    (b"bound 5", "refused log NoEnd line 1"),
    (b"bound 0", "refused log NoEnd line 1"),
    (b"b" * 100_000, "refused log NoEnd line 1"),
    (b"bound 5\n", "refused log NoEnd line 2"),
    (b"bound 18446744073709551615\n", "refused log NoEnd line 2"),
    (b"bound 0\n", "accepted bound 0 steps 0"),
    (b"bound 0\n\n", "refused log BadLine line 2"),
    (b"bound 0\nx", "refused log BadLine line 2"),
    (b"bound 0\n\0", "refused log BadLine line 2"),
    (b"bound 0\nrefutation 1\n0 0\nend\n", "refused log BadLine line 2"),
    (b"bound 0\nrefutation 1\nend\n", "refused log BadLine line 2"),
    (b"bound 5\nrefutation 1\nend\n", "rejected step 0 cause NoEmptyClause"),
    (b"bound 5\nrefutation 2\nend\n", "rejected step 0 cause NoEmptyClause"),
    (b"bound 5\nrefutation 3\nend\n", "refused log BadLine line 2"),
    (b"bound 5\n\nrefutation 1\nend\n", "refused log BadLine line 2"),
    (b"bound 5\nbound 5\nrefutation 1\nend\n", "refused log BadLine line 2"),
    (b"bound 5\nrefutation 1\nend\n\n", "refused log BadLine line 4"),
    (b"bound 5\nrefutation 1\nend", "refused log NoEnd line 3"),
]
NO_BOUNDS = ["00", "05", "0 ", " 5", " 0", "5 ", "5\t", "5\r", "", "-5", "-0", "+5", "5.0", "5e1", "0x5", "5;", "all"]
NO_BOUNDS += ["5 5", "5\0", "٥", "18446744073709551616", "18446744073709551621", "36893488147419103237"]
NO_BOUNDS += ["9" * 100_000, "0" * 20, "1" + "0" * 20]
NO_HEADS = [b"Bound 5", b"bound\t5", b"bound5", b"bound", b" bound 5", b"\xef\xbb\xbfbound 5", b"refutation 1", b""]
NO_HEADS += [b"#bound 5", b"bounds 5"]

# Single steps over that league's bound rows: 10 variables and 33 rows.
WILD_STEPS = [
    (1, "0 32 32 31 31 27 0", "accepted bound 5 steps 1"),
    (1, "0 32 31 27 0", "accepted bound 5 steps 1"),
    (1, "0 33 0", "rejected step 1 cause NoConflict"),
    (1, "0 34 0", "rejected step 1 cause UnknownRow"),
    (1, "0 18446744073709551615 0", "rejected step 1 cause UnknownRow"),
    (1, "0 18446744073709551616 0", "refused log BadNumber line 3"),
    (1, "0 18446744073709551648 31 27 0", "refused log BadNumber line 3"),
    (1, "0 4294967328 31 27 0", "rejected step 1 cause UnknownRow"),
    (1, "0 9223372036854775840 31 27 0", "rejected step 1 cause UnknownRow"),
    (1, "10 0 33 0", "rejected step 1 cause NoConflict"),
    (1, "11 0 32 31 27 0", "rejected step 1 cause UnknownVariable"),
    (1, "11 -11 0 0", "rejected step 1 cause UnknownVariable"),
    (1, "10 -10 0 34 0", "rejected step 1 cause NoEmptyClause"),
    (1, "2147483647 0 0", "rejected step 1 cause UnknownVariable"),
    (1, "2147483648 0 0", "refused log BadNumber line 3"),
    (1, "-2147483648 0 0", "refused log BadNumber line 3"),
    (1, "4294967297 0 0", "refused log BadNumber line 3"),
    (1, "00 0 0", "refused log BadLine line 3"),
    (1, "-0 0 0", "refused log BadLine line 3"),
    (1, "0 32 -31 0", "refused log BadLine line 3"),
    (1, "0 " + "9" * 100_000 + " 0", "refused log BadNumber line 3"),
    (2, "c 0 32 31 27 0", "accepted bound 5 steps 1"),
    (2, "l 1 32 2 31 0 18446744073709551615", "rejected step 1 cause NoEmptyClause"),
    (2, "l 18446744073709551616 32 0 1", "refused log BadNumber line 3"),
    (2, "l 18446744073709551617 32 0 1", "refused log BadNumber line 3"),
    (2, "l 1 32 0 18446744073709551616", "refused log BadNumber line 3"),
    (2, "l 1 32 0 0", "refused log BadLine line 3"),
    (2, "l 1 4294967328 0 1", "rejected step 1 cause UnknownRow"),
    (2, "l 1 34 0 1", "rejected step 1 cause UnknownRow"),
]


def stated(t):
    """Certificates with wild first lines, wild steps and wild bounds."""
    text = instance_text(2, True, [FIRST_HOME % ("0;1", 5)])
    it = t.path("two.xml", text)
    lines = list(STATED)
    lines += [(b"bound " + word.encode() + b"\n" + FIVE[8:], "refused log BadLine line 1") for word in NO_BOUNDS]
    lines += [(line + b"\n" + FIVE[8:], "refused log BadLine line 1") for line in NO_HEADS]
    for version, step, told in WILD_STEPS:
        lines.append((f"bound 5\nrefutation {version}\n{step}\nend\n".encode(), told))
    for bound in (1, 2, 4, 5, 6, 9, 10, 11, 2**32, 2**63, 2**64 - 1):
        told = f"accepted bound {bound} steps 1" if bound <= 5 else "rejected step 1 cause NoConflict"
        lines.append((b"bound %d\n" % bound + FIVE[8:], told))
    for certificate, answer in lines:
        status = 3 if answer.startswith("refused") else 0 if answer.startswith("accepted") else 1
        path = t.fresh("stated.log", certificate)
        t.demands(["bound", it, path], status, answer + "\n", files=[path])
        own = bounded(text, certificate)
        t.must((status, answer + "\n") == own, "second reading", certificate[:60], own)
    # Coefficients of 4,294,967,295 and factors of 64 bits: totals pass 2^127 - 1 in two steps.
    text = instance_text(2, True, [FIRST_HOME % ("0;1", 4_294_967_295)] * 6)
    it = t.path("dear.xml", text)
    softened = softened_of(text)
    last = len(rows.with_bound(softened, 0)[1])
    objective = last - len(softened[3])
    for bound in (1, 25_769_803_770, 51_539_607_540, 51_539_607_541, 2**64 - 1):
        for factor in (1, 2**62, 2**63 - 1, 2**63, 2**64 - 1):
            for again in (1, 2**28, 2**29, 2**30, 2**31, 2**32, 2**63, 2**64 - 1):
                steps = f"l {factor} {objective} 0 1\nl {again} {last + 1} 0 1\nl {again} {last + 2} 0 7\n"
                certificate = f"bound {bound}\nrefutation 2\n{steps}end\n".encode()
                path = t.fresh("dear.log", certificate)
                t.demands(["bound", it, path], *bounded(text, certificate), files=[path])


WILD_K = [0, 1, 5, 6, 7, 255, 256, 262, 65_535, 65_536, 65_542, 2**31, 2**32, 2**32 + 3, 2**32 + 6, 2**63, 2**64 - 1]
NO_K = [str(2**64), str(2**64 + 3), str(2**64 + 6), "00", "03", "+3", "-3", "", " 3", "3 ", "3.0", "0x3", "all", "3;"]
NO_K += ["9" * 400, "٣"]


def played(t):
    """Wild K, and played lists that are none of a season: games twice, 10,000 of one, none, of late slots alone."""
    late = instance_text(4, True, [AWAY_LATE])
    it, season, log = t.path("late.xml", late), t.path("season.xml", C4_TEXT), t.path("late.log", AWAY_LATE_LOG)
    for word in NO_K:
        for words in (["resume", it, season, word], ["audit", it, season, word, log], ["resume", it, word, season]):
            t.demands(words, 2, "refused words\n")
    for k in WILD_K:
        for words in (["resume", it, season, str(k)], ["audit", it, season, str(k), log]):
            if k > 6:
                t.demands(words, 3, f"refused slot {k}\n")
        if k <= 6:
            resumes(t, late, C4_TEXT, k, 0, [it, season])
            t.demands(["audit", it, season, str(k), log], *audited(late, C4_TEXT, k, AWAY_LATE_LOG))
    one = [(1, 2, 0)]
    lists = [C4 * 800, one * 10_000, one * 10_001, [], [it for it in C4 if it[2] > 2], C4 + one * 9_000, C4[:3], C4[1:]]
    pairs = [(i, j) for i in range(4) for j in range(4) if i != j]
    lists += [[(i, j, s) for s in range(6) for i, j in pairs], [(i, j, 5) for i, j in pairs]]
    leagues_of = [I4, late, instance_text(4, False), instance_text(4, True, [NO_HOME])]
    for text in leagues_of:
        it = t.fresh("league.xml", text)
        for games in lists:
            solution = season_text(games)
            path = t.fresh("played.xml", solution)
            proves(t, text, solution, 1, [it, path])
            for k in range(8):
                for limit in (0, 1, "all"):

                    def audits(ran, text=text, solution=solution, k=k, files=(it, path)):
                        own = ran.out if ran.status == 4 else AWAY_LATE_LOG
                        log = t.fresh("played.log", own)
                        t.demands(["audit", *files, str(k), log], *audited(text, solution, k, own), files=[*files, log])

                    resumes(t, text, solution, k, limit, [it, path], audits)


def order(t):
    """Every combination of what can be refused: the first in the order of the rules gives the answer."""
    large = '<FA2 teams="{0}" intp="0" mode="H" slots="{1}" type="HARD" penalty="1"/>'
    large = instance_text(40, True, [large.format(";".join(map(str, range(40))), ";".join(map(str, range(78))))] * 5)
    many = instance_text(2, True, ['<SE1 teams="0;1" min="4294967295" type="SOFT"/>'])
    absent, folder = os.path.join(t.folder, "absent"), os.path.join(t.folder, "directory")
    os.mkdir(folder)
    late = instance_text(4, True, [AWAY_LATE])
    good = {"instance": late, "solution": C4_TEXT, "log": AWAY_LATE_LOG}

    def choices(which):
        kind = "BadLine line 1" if which == "log" else "BadNesting line 2"
        yield absent, (6, f"read fault {which}\n")
        yield folder, (6, f"read fault {which}\n")
        yield "/dev/zero", (3, f"refused {which} TooLong limit {forms.FILES[which]}\n")
        yield t.path(f"bad-{which}", b"\n<A></A>\n"), (3, f"refused {which} {kind}\n")
        yield t.path(f"good-{which}", good[which]), None

    def sizes(command):
        if command in ("prove", "bound"):
            yield t.path("many.xml", many), (3, f"refused rows TooLarge terms {60 + 6 * 4_294_967_295}\n")
        elif command != "validate":
            more = 1560 * 3 if command in ("resume", "audit") else 0
            yield t.path("large.xml", large), (3, f"refused rows TooLarge terms {49_177_440 + more}\n")

    slots = [("3", None), ("79", (3, "refused slot 79\n")), ("65539", (3, "refused slot 65539\n"))]
    shapes = {"prove": ["solution"], "bound": ["log"], "resume": ["solution"], "audit": ["solution", "log"]}
    shapes.update({"check": ["log"], "validate": ["solution"]})
    for command, later in shapes.items():
        own = bounded(late, AWAY_LATE_LOG)
        for first in [*choices("instance"), *sizes(command)]:
            is_small = first[1] is None or not first[1][1].startswith("refused rows")
            for k in slots if command in ("resume", "audit") else [None]:
                for rest in itertools.product(*[list(choices(which)) for which in later]):
                    # The size comes behind K.
                    stages = [first[1], k and k[1]] if is_small else [k and k[1], first[1]]
                    told = next((it for it in [*stages, *[it[1] for it in rest]] if it), None)
                    words = [command, first[0], rest[0][0], *([k[0]] if k else []), *[it[0] for it in rest[1:]]]
                    if told or command == "bound":
                        t.demands(words, *(told or own))
                    elif command == "resume":
                        resumes(t, late, C4_TEXT, 3, None, words[1:3])
                    elif command == "prove":
                        proves(t, late, C4_TEXT, None, words[1:3])
                    elif command == "audit":
                        t.demands(words, *audited(late, C4_TEXT, 3, AWAY_LATE_LOG))
                    else:
                        t.demands(words, 1, None)


def full(k, extra):
    """A league of 40 teams whose resume rows of k slots (none: bound rows) have 40,000,000 terms and `extra` more."""
    every, slots = ";".join(map(str, range(40))), ";".join(map(str, range(78)))
    fa2 = '<FA2 teams="{}" intp="0" slots="' + slots + '" type="HARD"/>'
    ca1 = '<CA1 teams="{}" max="0" mode="H" slots="{}" type="HARD"/>'
    some = lambda count: ";".join(map(str, range(count)))
    size = 1_113_840 + 4 * 9_612_720 + 35 * 12_324
    classes = [fa2.format(every)] * 4 + [fa2.format(some(8)), fa2.format(some(4)), fa2.format("0;1")]
    if k is None:
        classes.append('<CA1 teams="0" max="0" mode="H" slots="5" type="SOFT"/>')
    left = TERMS + extra - size - (3 if k is None else 1560 * k)
    while left >= 40:
        classes.append(ca1.format(every, some(min(left // 40, 78))))
        left -= 40 * min(left // 40, 78)
    classes += [ca1.format("0", some(left))] if left else []
    return instance_text(40, True, classes)


def sizes(t):
    """The limits of rows, files, lines and lists at and past their edges."""
    absent, season, four = os.path.join(t.folder, "absent"), t.path("season.xml", C4_TEXT), t.path("four.xml", I4)
    none = t.path("none.log", b"refutation 1\n0 0\nend\n")
    one = t.path("one.log", b"bound 1\nrefutation 1\n0 0\nend\n")
    for k in (0, 2, None):
        for extra in (0, 1):
            it = t.path("full.xml", full(k, extra))
            told = (3, f"refused rows TooLarge terms {TERMS + extra}\n") if extra else None
            if k is None:
                t.answers(["prove", it, absent], *(told or (6, "read fault solution\n")))
                t.answers(["bound", it, absent], *(told or (6, "read fault log\n")))
                t.answers(["bound", it, one], *(told or (1, "rejected step 1 cause NoConflict\n")))
                continue
            forty = t.path("forty.xml", t.run("circle", "40").out)
            t.answers(["resume", it, absent, str(k)], *(told or (6, "read fault solution\n")))
            t.answers(["audit", it, absent, str(k), absent], *(told or (6, "read fault solution\n")))
            t.answers(["audit", it, forty, str(k), none], *(told or (1, "rejected step 1 cause NoConflict\n")))
            if not extra:
                told = f"refused rows TooLarge terms {TERMS + 1560}\n"
                t.answers(["audit", it, forty, str(k + 1), none], 3, told)
    two = instance_text(2, True, [FIRST_HOME % ("0;1", 5)])
    it = t.path("two.xml", two)
    for extra in (0, 1):
        over = [b" " * MIB] * 16
        path = t.path("line.log", b"bound 5\nrefutation 1\n", *over, b" " * extra, b"\nend\n")
        t.answers(["bound", it, path], 3, f"refused log {'TooLong' if extra else 'BadLine'} line 3\n")
        path = t.path("line.log", b"bound 5\n", *over, b" " * extra, b"\nend\n")
        t.answers(["bound", it, path], 3, f"refused log {'TooLong' if extra else 'BadLine'} line 2\n")
        path = t.path("line.log", b"bound 5", *over, b" " * extra)
        t.answers(["bound", it, path], 3, "refused log NoEnd line 1\n")
        path = t.path("line.log", b"bound 5", *over, b" " * extra, b"\n", FIVE[8:])
        t.answers(["bound", it, path], 3, "refused log BadLine line 1\n")
        path = t.path("line.log", b"refutation 1\n", *over, b" " * extra, b"\nend\n")
        t.answers(["audit", four, season, "3", path], 3, f"refused log {'TooLong' if extra else 'BadLine'} line 2\n")
        for head, told in ((b"bound 0\n", "BadLine line 2"), (b"bound 5\n", "TooLong line 2"), (b"", "NoEnd line 1")):
            path = t.path("long.log", head, *[b" " * MIB] * 255, b" " * (MIB - len(head) + extra))
            told = f"TooLong limit {256 * MIB}" if extra else told
            t.answers(["bound", it, path], 3, f"refused log {told}\n")
        path = t.path("long.log", *[b" " * MIB] * 256, b" " * extra)
        told = f"TooLong limit {256 * MIB}" if extra else "TooLong line 1"
        t.answers(["audit", four, season, "3", path], 3, f"refused log {told}\n")
        os.remove(path)
        padded = t.path("padded.xml", C4_TEXT + b" " * (MIB - len(C4_TEXT) + extra))
        for words in (["resume", four, padded, "3"], ["prove", four, padded], ["audit", four, padded, "3", none]):
            if extra:
                t.answers(words, 3, f"refused solution TooLong limit {MIB}\n")
            else:
                t.answers(words, *{"resume": (0, None), "prove": (0, "bound 0\n")}.get(words[0], (1, None)))
        spaces = t.path("spaces.xml", *over, b" " * extra)
        told = f"TooLong limit {16 * MIB}" if extra else "Truncated line 1"
        for words in (["prove", spaces, absent], ["bound", spaces, absent], ["resume", spaces, absent, "3"]):
            t.answers(words, 3, f"refused instance {told}\n")
        t.answers(["audit", spaces, absent, "3", absent], 3, f"refused instance {told}\n")
    units(t, absent)


EVERY = "0;1;2;3"
WISHES = [
    f'<CA1 teams="{EVERY}" min="%d" max="%d" mode="H" slots="2" type="SOFT"/>',
    '<CA1 teams="0" min="%d" max="%d" mode="A" slots="" type="SOFT"/>',
    f'<CA2 teams1="{EVERY}" teams2="{EVERY}" min="%d" max="%d" mode1="HA" slots="2;3" type="SOFT"/>',
    f'<CA3 teams1="{EVERY}" teams2="{EVERY}" min="%d" max="%d" mode1="HA" intp="2" type="SOFT"/>',
    f'<CA4 teams1="{EVERY}" teams2="{EVERY}" min="%d" max="%d" mode1="HA" mode2="EVERY" slots="2;3" type="SOFT"/>',
    '<CA4 teams1="" teams2="" min="%d" max="%d" mode1="H" mode2="GLOBAL" slots="" type="SOFT"/>',
    '<GA1 meetings="" min="%d" max="%d" slots="" type="SOFT"/>',
    '<GA1 meetings="0,1;" min="%d" max="%d" slots="2" type="SOFT"/>',
    f'<SE1 teams="{EVERY}" min="%d" intp="%d" type="SOFT"/>',
    '<SE1 teams="0;1" min="%d" intp="%d" type="SOFT"/>',
]


def units(t, absent):
    """Wishes that may be missed by millions, of each class: at the edge of the size, one past it, by the greatest
    number of a file; whether `max` is the same number or 0."""
    most = 4_294_967_295
    one = t.path("one.log", b"bound 1\nrefutation 1\n0 0\nend\n")
    for wish in WISHES:
        for top in (0, 1):
            text_of = lambda least: instance_text(4, True, [wish % (least, least * top)])
            size_of = lambda least: rows.bound_size(league_of(text_of(least))[0])
            last = bisect.bisect_right(range(most), TERMS, key=size_of) - 1
            for least in (last, last + 1, most):
                text = text_of(least)
                it, told = t.path("units.xml", text), before_second(text)
                t.must(bool(told) == (least > last), "edge", wish, least, told)
                t.answers(["prove", it, absent], *((3, told) if told else (6, "read fault solution\n")), files=[it])
                name = f"{wish[1:4]} missed by {least}"
                told = told or "rejected step 1 cause NoConflict\n"
                measured(t, name, ["bound", it, one], 3 if least > last else 1, told, len(text), seconds=120)
    teams = ";".join(map(str, range(40)))
    text = instance_text(40, True, [f'<SE1 teams="{teams}" min="{most}" type="SOFT"/>'] * 20_000)
    path = t.path("units.xml", text)
    told = 1_113_840 + 20_000 * 780 * rows.separation_size(most, 78)
    told = f"refused rows TooLarge terms {told}\n"
    measured(t, "20000 SE1 of so many units", ["bound", path, absent], 3, told, len(text))


def words_of(t):
    """The words of the four commands at their edges, and drawn at random."""
    absent = os.path.join(t.folder, "absent")
    most = 2**64 - 1
    numbers = ["0", "1", str(most), str(most + 1), "01", "-1", "+1", "", " 1", "1 ", "1.0", "0x1", "all", "ALL"]
    numbers.append("9" * 400)

    def told(words):
        return (6, "read fault instance\n") if forms.are_words(words) else (2, "refused words\n")

    for value in [*numbers, "-", "--conflicts", "--moves", str(most - 1)]:
        for command, rest in (("prove", []), ("resume", ["3"]), ("bound", []), ("audit", ["3", "log"])):
            option = ["--conflicts", value]
            for place in range(len(rest) + 3):
                words = [command, *[absent, "b", *rest][:place], *option, *[absent, "b", *rest][place:]]
                t.demands(words, *told(words))
        for words in (["resume", absent, "b", value], ["audit", absent, "b", value, "c"]):
            t.demands(words, *told(words))
            t.demands([words[0], absent, value, *words[2:3]], *told([words[0], absent, value, *words[2:3]]))
        for option in ("--moves", "--tries", "--patterns", "--seed", "--k", "--bound"):
            for command, rest in (("prove", []), ("resume", ["3"])):
                words = [command, absent, "b", *rest, option, value]
                t.demands(words, *told(words))
    rng = random.Random(t.seed)
    pool = [*forms.COMMANDS, *forms.SOLVE, *numbers, "2", "3", "100", absent, absent, absent, "a", "b", "3", "--", "-x"]
    for _ in range(max(t.cases // 10, 200)):
        command = rng.choice(["prove", "bound", "resume", "audit"])
        words = [command, absent] + [rng.choice(pool) for _ in range(rng.randint(0, 6))]
        t.demands(words, *told(words))
        if forms.are_words(words):
            continue
        rest = {"prove": ["b"], "bound": ["b"], "resume": ["b", "3"], "audit": ["b", "3", "c"]}[command]
        if rng.random() < 0.5 and command in ("prove", "resume"):
            place = rng.randint(0, len(rest))
            rest[place:place] = ["--conflicts", rng.choice(numbers)]
        words = [command, absent, *rest]
        t.demands(words, *told(words))


def places(t):
    """Files of the four commands that can't be read, or are other things than they should be."""
    it, season, log = t.path("league.xml", I4), t.path("season.xml", C4_TEXT), t.path("late.log", AWAY_LATE_LOG)
    absent, directory = os.path.join(t.folder, "absent"), os.path.join(t.folder, "directory")
    os.mkdir(directory)
    broken = os.path.join(t.folder, "broken")
    os.symlink(broken, broken)
    for name in (absent, directory, broken, "", it + "/x", "/proc/self/mem", "/dev/tty"):
        for words in (["prove", name, season], ["bound", name, log], ["resume", name, season, "3"]):
            t.demands(words, 6, "read fault instance\n")
        t.demands(["audit", name, season, "3", log], 6, "read fault instance\n")
        for words in (["prove", it, name], ["resume", it, name, "3"], ["audit", it, name, "3", log]):
            t.demands(words, 6, "read fault solution\n")
        for words in (["bound", it, name], ["audit", it, season, "3", name]):
            t.demands(words, 6, "read fault log\n")
        t.demands(["resume", it, name, "7"], 3, "refused slot 7\n")
        t.demands(["audit", it, name, "7", name], 3, "refused slot 7\n")
    null, zero = "/dev/null", "/dev/zero"
    for words, status, told in (
        (["bound", it, null], 3, "refused log NoEnd line 1\n"),
        (["bound", it, zero], 3, "refused log TooLong limit 268435456\n"),
        (["bound", it, it], 3, "refused log BadLine line 1\n"),
        (["bound", it, season], 3, "refused log BadLine line 1\n"),
        (["bound", zero, zero], 3, "refused instance TooLong limit 16777216\n"),
        (["audit", it, season, "0", null], 3, "refused log NoEnd line 1\n"),
        (["audit", it, season, "0", zero], 3, "refused log TooLong limit 268435456\n"),
        (["audit", it, season, "0", season], 3, "refused log BadLine line 1\n"),
        (["audit", it, it, "0", it], 3, "refused solution BadNesting line 2\n"),
        (["audit", it, null, "0", null], 3, "refused solution Truncated line 1\n"),
        (["resume", it, null, "0"], 3, "refused solution Truncated line 1\n"),
        (["resume", it, zero, "0"], 3, "refused solution TooLong limit 1048576\n"),
        (["resume", it, log, "0"], 3, "refused solution Truncated line 4\n"),
        (["prove", season, season], 3, "refused instance BadNesting line 2\n"),
        (["prove", it, it], 3, "refused solution BadNesting line 2\n"),
    ):
        t.demands(words, status, told)


def stands(t):
    """Words of the four commands with the files that they read, one for each way to end."""
    two = t.path("stands-two.xml", instance_text(2, True, [FIRST_HOME % ("0;1", 5)]))
    first = t.path("stands-first.xml", instance_text(2, True, [FIRST_HOME % ("0", 5)]))
    turns, short = t.path("stands-two-season.xml", season_text(TWO)), t.path("stands-short.xml", season_text(TWO[:1]))
    five, six = t.path("stands-five.log", FIVE), t.path("stands-six.log", FIVE.replace(b"5", b"6", 1))
    wishes = [FIRST_HOME % ("2;3", 10), '<SE1 teams="0;1;2;3" min="2" type="SOFT" penalty="3"/>']
    wishes.append(NO_BREAK.replace("HARD", "SOFT") % 2)
    four, best = t.path("stands-four.xml", instance_text(4, True, wishes)), t.path("stands-best.xml", C4_TEXT)
    for _ in range(60):
        ran = t.run("prove", four, best, "--conflicts", "all")
        if ran.status != 9:
            break
        t.path("stands-best.xml", ran.out)
    late, season = t.path("stands-late.xml", instance_text(4, True, [AWAY_LATE])), t.path("stands-season.xml", C4_TEXT)
    breaks = t.path("stands-breaks.xml", instance_text(4, True, [NO_BREAK % 3]))
    log, none = t.path("stands-late.log", AWAY_LATE_LOG), t.path("stands-none.log", b"refutation 1\n0 0\nend\n")
    return [
        (["prove", two, turns, "--conflicts", "0"], ["instance", "solution"]),
        (["prove", first, turns], ["instance", "solution"]),
        (["prove", two, short], ["instance", "solution"]),
        (["prove", four, best, "--conflicts", "1"], ["instance", "solution"]),
        (["bound", two, five], ["instance", "log"]),
        (["bound", two, six], ["instance", "log"]),
        (["resume", late, season, "2"], ["instance", "solution"]),
        (["resume", late, season, "3", "--conflicts", "0"], ["instance", "solution"]),
        (["resume", breaks, season, "0", "--conflicts", "1"], ["instance", "solution"]),
        (["audit", late, season, "3", log], ["instance", "solution", "log"]),
        (["audit", late, season, "3", none], ["instance", "solution", "log"]),
    ]


def told_kind(text):
    """A line of an answer without its numbers."""
    return re.sub(r"\s*\d+", "", text.replace("rejected step", "").replace(" cause", "")).strip()


def rechanged(t):
    """Certificates, and logs, seasons and K of `audit`, changed at random, judged by the second reading."""
    rng = random.Random(t.seed)
    least = [it for it in certificates(t) if len(it[2]) < 12_000]
    late = [it for it in conflicting(t) if len(it[3]) < 8_000]
    rng.shuffle(late)
    late = late[:40]
    whole = [it[2] for it in least] + [it[3] for it in late]
    print(f"    {len(least)} certificates and {len(late)} logs, of", end=" ")
    print(*sorted({text.count(b"\n") for text in whole}), "lines", flush=True)
    kinds = collections.Counter()
    for first in range(0, t.cases, BATCH):
        runs, wanted = [], []
        for number in range(min(BATCH, t.cases - first)):
            out, path = os.path.join(t.folder, f"told-{number}"), os.path.join(t.folder, f"changed-{number}.log")
            if rng.random() < 0.5:
                instance, _, certificate, files = rng.choice(least)
                if rng.random() < 0.2:
                    stated_by, rest = certificate.split(b"\n", 1)
                    near = max(int(stated_by[6:]) + rng.choice([-9, -2, -1, 1, 2, 9, 2**32, 2**63]), 0)
                    text = b"bound %d\n" % near + (rest or b"refutation 1\nend\n" * (near > 0))
                else:
                    text = changed_log(rng, certificate, whole)
                runs.append((out, ["bound", files[0], path]))
                wanted.append(bounded(instance, text))
            else:
                instance, solution, k, text, files = rng.choice(late)
                files = list(files)
                how = rng.randrange(4)
                if how == 0:
                    k = rng.choice([k - 1, k + 1, rng.randint(0, 8), 65_536 + k]) % 2**64
                elif how == 1:
                    solution = changed_file(rng, solution, [C4_TEXT])
                    files[1] = t.path(f"changed-season-{number}.xml", solution)
                else:
                    text = changed_log(rng, text, whole)
                runs.append((out, ["audit", *files, str(k), path]))
                wanted.append(audited(instance, solution, k, text))
            t.path(os.path.basename(path), text)
            kinds[told_kind(wanted[-1][1])] += 1
        t.batch(runs, wanted)
    print("    " + ", ".join(f"{it}: {count}" for it, count in kinds.most_common()), flush=True)


def reshown(t):
    """Leagues, seasons and K changed at random: what `prove` and `resume` answer at small budgets, judged."""
    rng = random.Random(t.seed)
    pairs = [*soft_leagues(), *((instance, season_text(games)) for instance, games in late_leagues())]
    kinds = collections.Counter()
    for number in range(t.cases):
        instance, solution = rng.choice(pairs)
        if rng.random() < 0.6:
            instance = changed_file(rng, instance, [rng.choice(pairs)[0]])
        if rng.random() < 0.4:
            solution = changed_file(rng, solution, [rng.choice(pairs)[1]])
        files = [t.fresh("league.xml", instance), t.fresh("season.xml", solution)]
        limit = rng.choice([0, 1, 2, 4])
        count = lambda ran: kinds.update([ran.status])
        if rng.random() < 0.5:
            proves(t, instance, solution, limit, files, count, rng.choice([None, None, 0, 1, 2, 5, 20]))
        else:
            resumes(t, instance, solution, rng.randint(0, 7), limit, files, count)
        if number % 1000 == 0:
            print(f"    {number} changed, {t.differences[t.group]} differences", flush=True)
    t.flush()
    print("    " + ", ".join(f"status {it}: {count}" for it, count in sorted(kinds.items())), flush=True)


def weighed(t):
    """Certificates of 256 MiB, and of 32 MiB of steps; played lists of 10,000 games: time and peak memory."""
    two, size = instance_text(2, True, [FIRST_HOME % ("0;1", 5)]), 256 * MIB
    it, rng = t.path("two.xml", two), random.Random(3)
    start = b"bound 5\nrefutation 1\n"
    cases = [
        ("random bytes", "BadLine line 1", lambda: (rng.randbytes(MIB) for _ in range(256))),
        ("bound 5 and random bytes", "BadLine line 2", lambda: [b"bound 5\n", *map(rng.randbytes, [MIB] * 255)]),
        ("a first line without end", "NoEnd line 1", lambda: (b"5" * MIB for _ in range(256))),
        ("a single endless step", "TooLong line 3", lambda: filled(start, b"1 ", b"", size)),
        ("empty lines", "BadLine line 3", lambda: filled(start, b"\n", b"", size)),
        ("one byte more", f"TooLong limit {size}", lambda: filled(start, b"1 -1 0 0\n", b"", size + 1)),
        ("bound 0 and more", "BadLine line 2", lambda: filled(b"bound 0\n", b"1 -1 0 0\n", b"", size)),
    ]
    for name, told, chunks in cases:
        path = t.path("heavy.log", *chunks())
        told = f"refused log {told}\n"
        measured(t, "certificate: " + name, ["bound", it, path], 3, told, os.path.getsize(path))
    os.remove(path)
    step_units = ((b"1 -1 0 0\n", "short steps"), (b"1 2 3 4 5 6 7 8 -1 0 0\n", "clauses"))
    for unit, name in (*step_units, (b"1 -1 0 1 1 1 1 1 1 0\n", "hints")):
        many = 32 * MIB // len(unit) // 1024 * 1024
        path = t.path("steps.log", start, *[unit * 1024] * (many // 1024), b"end\n")
        told = f"rejected step {many} cause NoEmptyClause\n"
        measured(t, f"certificate of {many} {name}", ["bound", it, path], 1, told, os.path.getsize(path))
    unit, many = step_units[1][0], 255 * MIB // 24
    path = t.path("steps.log", start, *[unit * 1024] * (many // 1024), unit * (many % 1024), b"end\n")
    told = f"rejected step {many} cause NoEmptyClause\n"
    measured(t, f"certificate of {many} clauses", ["bound", it, path], 1, told, os.path.getsize(path))
    wide = b"1 " * (8 * MIB - 4) + b"0 0\n"
    path = t.path("steps.log", start, *[wide] * 15, b"end\n")
    told = "rejected step 1 cause NoConflict\n"
    measured(t, "certificate of 15 steps of 16 MiB", ["bound", it, path], 1, told, os.path.getsize(path))
    os.remove(path)
    late, season = t.path("late.xml", I4), t.path("many.xml", season_text([(1, 2, 0)] * 10_000))
    size = os.path.getsize(season)
    measured(t, "resume of 10000 games, K 0", ["resume", late, season, "0"], 0, None, size)
    measured(t, "resume of 10000 games, K 1", ["resume", late, season, "1"], 4, None, size)
    measured(t, "prove of 10000 games", ["prove", late, season], 1, None, size)


def roomed(t, words, size, told):
    """`--room`: so many megabytes as the steps take change nothing, and one less ends with want of memory."""
    least = -(-size // 10**6)
    for megabytes, wanted in ((least, (1, told.encode())), (least - 1, (8, b""))):
        ran = t.run(*words, "--room", str(megabytes), memory=6144)
        t.must((ran.status, ran.out) == wanted, f"--room {megabytes} of {words}", ran)


def sums(t):
    """Logs of long sums, each of the one before, with equal rows and with different ones: peak memory beside the file's size."""
    n, slots = 40, 78
    forty = t.path("forty.xml", instance_text(n, True))
    season = t.path("season.xml", t.run("circle", "40").out)
    first = n * (n - 1) * 2 + 1
    own = n * (n - 1) * 2 + n * slots * 2 + n * (n - 1) + n * slots * 2 + slots * 2 + n * 2
    wide = b"l " + b"".join(b"1 %d " % (first + 2 * k) for k in range(n * slots)) + b"0 1\n"
    commands = (
        ("check", [forty], b"", 0),
        ("audit", [forty, season, "0"], b"", 0),
        ("bound", [forty], b"bound 1\n", 1),
    )
    for command, words, head, more in commands:
        for count, rest, kind in ((1, b"", ""), (400, b"", ", all equal"), (400, b"1 %d " % first, ", all different")):
            # The objective row stands behind the league's, and has no terms here.
            lines = [b"l 1 %d %s0 1\n" % (own + more + k + 1, rest) for k in range(count - 1)]
            path = t.path("sums.log", head, b"refutation 2\n", wide, *lines, b"end\n")
            told = f"rejected step {count} cause NoEmptyClause\n"
            name = f"{command} of {count} sums of 121680 terms{kind}"
            measured(t, name, [command, *words, path], 1, told, os.path.getsize(path), memory=6144)
            roomed(t, [command, *words, path], count * (64 + 8 * 121_680), told)
    # Each hint looks at the whole row, which isn't in conflict.
    hints = 20_000
    line = b"c 0 " + b"%d " % (own + 1) * hints + b"0\n"
    path = t.path("sums.log", b"refutation 2\n", wide, line, b"end\n")
    told = "rejected step 2 cause NoConflict\n"
    name = f"check of {hints} hints at a sum of 121680 terms"
    measured(t, name, ["check", forty, path], 1, told, os.path.getsize(path))
    # Of so many rows that no memory of 2 GiB holds them: the answer is want of memory, and nothing is written.
    lines = [b"l 1 %d 1 %d 0 1\n" % (own + k + 1, first) for k in range(5_000)]
    path = t.path("sums.log", b"refutation 2\n", wide, *lines, b"end\n")
    ran = t.run("check", forty, path, memory=2048, seconds=600)
    t.must((ran.status, ran.out) == (8, b""), "sums past 2 GiB", ran)
    print(f"    5001 sums within 2 GiB: status {ran.status}, {ran.seconds:.2f} s, peak {ran.peak:.0f} MiB", flush=True)


GROUPS = [shown, fronts, stated, played, order, sizes, words_of, places, rechanged, reshown]
HEAVY = [weighed, sums]
