"""Attacks the floors of `prove`: what it writes where its budget is spent, cut apart and judged.

The groups are hostile.py's. What the floor of a league is follows from two laws, said here from the rules in words
(docs/METHOD.md, "Where the budget is spent"); its certificate is given to `bound` and, of small leagues, to the second
reading; and no season that is known may cost less.
"""

import collections
import random

import leagues
import rows
from attack import C4_TEXT, NO_BREAK, instance_text, season_text
from certified import FIRST_HOME, floored_fault, games_of, league_of, season_fault, softened_of
from forms import read_log
from rooms import MEGABYTE, MOST, Judge


# What is demanded.


def stretches_of(league):
    """The slots in which each two teams meet: each half of a phased league, and else the season."""
    n, slots = league.n, leagues.slots_of(league.n)
    return [range(n - 1), range(n - 1, slots)] if league.phased else [range(slots)]


def least_units(league, constraint):
    """By how many units a soft constraint is missed at least, by two laws.

    In a stretch in which each two teams meet, two without a break begin on different sides: so all but two have one.
    And the gaps of all pairs have the mean n - 1 in a phased league, so that n - 2 slots stand between two games."""
    at, n = constraint.at, league.n
    if constraint.name == "SE1":
        is_known = league.phased and n >= 4 and len(at["teams"]) == n and at["min"] >= n - 1
        return n * (n - 1) // 2 if is_known else 0
    if constraint.name == "BR2":
        allowed = at["intp"]
    elif constraint.name == "BR1" and at["mode2"] == "HA":
        allowed = at["intp"] * len(at["teams"])
    else:
        return 0
    counted = sum(set(stretch[1:]) <= set(at["slots"]) for stretch in stretches_of(league))
    return max(max(len(at["teams"]) - 2, 0) * counted - allowed, 0)


def floor_of(league):
    """The number below which no accepted season costs, by the laws."""
    return sum(it.penalty * least_units(league, it) for it in league.constraints if not it.hard)


def parted(text):
    """The three texts that stand one behind another with status 5: the line of the objective, a certificate, a log."""
    line, rest = text.split(b"\n", 1)
    bound, rest = rest.split(b"\n", 1)
    if bound == b"bound 0":
        return line + b"\n", bound + b"\n", rest
    proof, log = rest.split(b"\nend\n", 1)
    return line + b"\n", bound + b"\n" + proof + b"\nend\n", log


def settled(t, it, instance, season, words=("--conflicts", "0"), seconds=600):
    """What `prove` answers at last, where it goes on from each better season, and that season; each one is accepted."""
    league, costs = league_of(instance)[0], []
    path = t.fresh("settled.xml", season)
    for _ in range(200):
        ran = t.run("prove", it, path, *words, seconds=seconds)
        if ran.status != 9:
            break
        fault, _, cost = season_fault(league, ran.out)
        t.must(not fault and (not costs or cost < costs[-1]), "a better season", fault, cost, costs[-3:], files=[it, path])
        costs.append(cost)
        path, season = t.fresh("settled.xml", ran.out), ran.out
    return ran, season, path


def floored(t, instance, it, season, path, ran, is_small):
    """Judges a text of status 5, and gives its certificate to `bound`, with and without room. It gives the floor."""
    league, files = league_of(instance)[0], [it, path]
    games, _ = games_of(season, league.n)
    objective, law = leagues.sums(league, games)[1], floor_of(league)
    try:
        line, certificate, log = parted(ran.out)
    except ValueError:
        t.must(False, "three texts", ran.out[:200], files=files)
        return 0
    bound = int(certificate.split(b"\n", 1)[0][6:])
    t.must(line == b"objective %d\n" % objective, "the objective", line, objective, files=files)
    t.must(bound == law < objective, "the floor", bound, "by the laws", law, "of", objective, files=files)
    kept = t.fresh("floor.log", certificate)
    count = max(certificate.count(b"\n") - 3, 0)
    ran_bound = t.answers(["bound", it, kept], 0, f"accepted bound {bound} steps {count}\n", files=[it, kept], seconds=600)
    one_more = t.fresh("floor-more.log", b"bound %d\n" % (bound + 1) + certificate.split(b"\n", 1)[1])
    if bound:
        ran_more = t.run("bound", it, one_more, seconds=600)
        t.must(ran_more.status == 1 and ran_more.out.startswith(b"rejected step "), "one more", ran_more, files=[it, one_more])
    t.must(read_log(log) is not None, "the log behind the floor", files=files)
    if is_small:
        limit = max(log.count(b"\n") - 2, 0)
        fault = floored_fault(instance, ran.out, objective, objective, limit)
        t.must(not fault, "second reading", fault, files=files)
        floor_with_room(t, instance, it, kept, certificate, ran_bound)
    return bound


def floor_with_room(t, instance, it, kept, certificate, plain):
    """The certificate of a floor with as much room as it takes, and with less."""
    bound = int(certificate.split(b"\n", 1)[0][6:])
    if not bound:
        return
    judge = Judge(*rows.with_bound(softened_of(instance), bound - 1))
    lines = certificate.decode().split("\n")[1:-2]
    prefix = "c " if lines[0] == "refutation 1" else ""
    for line in lines[1:]:
        judge.take(prefix + line)
    t.must(not judge.cause and judge.is_false, "the certificate's steps", judge.cause, files=[it, kept])
    least = -(-judge.taken // MEGABYTE)
    for room in (least - 1, least, MOST):
        wanted = (8, "") if room < least else (plain.status, plain.out)
        t.answers(["bound", it, kept, "--room", str(room)], *wanted, files=[it, kept])


# Groups.


def floors_made(t):
    """Leagues of `make` of 4 to 20 teams from the circle method's season: the floor, and seasons that `solve` finds."""
    for n in range(4, 21, 2):
        season = t.run("circle", str(n)).out
        for seed in range(6 if n <= 8 else 3 if n <= 14 else 2):
            instance = t.run("make", str(n), str(seed)).out
            it = t.path("made.xml", instance)
            league = league_of(instance)[0]
            ran, best, path = settled(t, it, instance, season)
            law, costs = floor_of(league), [leagues.sums(league, games_of(best, n)[0])[1]]
            if ran.status == 5:
                floored(t, instance, it, best, path, ran, n <= 6)
            t.must(ran.status == 0 or (ran.status == 5 and law < costs[0]), "made", n, seed, ran.status, files=[it, path])
            for draw in range(3):
                far = ["--moves", "4000" if n <= 10 else "400", "--tries", "2"]
                found = t.run("solve", it, "--seed", str(draw), "--conflicts", "0", *far, seconds=600)
                if found.status == 0:
                    end = found.out.index(b"</Solution>\n") + 12
                    fault, _, cost = season_fault(league, found.out[:end])
                    t.must(not fault, "a season of solve", fault, files=[it])
                    costs.append(cost)
            t.must(law <= min(costs), "a season below the floor", n, seed, law, costs, files=[it, path])
            print(f"    make {n} {seed}: status {ran.status}, floor {law}, seasons {min(costs)} to {max(costs)}", flush=True)


def drawn_slots(rng, n):
    """Slots that count the breaks of both halves, of one, of none for want of a slot; or some."""
    slots = leagues.slots_of(n)
    first, second = list(range(1, n - 1)), list(range(n, slots))
    whole = rng.choice([list(range(slots)), list(range(1, slots)), first + second, first, second, [0, *first], [n - 1, *second]])
    if whole and rng.random() < 0.25:
        whole = [s for s in whole if s != rng.choice(whole)]
    return ";".join(map(str, whole))


PENALTIES = [0, 1, 1, 2, 3, 10, 65_536, 4_294_967_295]


def drawn_soft(rng, n):
    """A soft constraint of a class that a law speaks of, near what the law allows."""
    teams = list(range(n))
    some = teams if rng.random() < 0.6 else sorted(rng.sample(teams, rng.randint(1, n)))
    listed, penalty = ";".join(map(str, some)), rng.choice(PENALTIES)
    how = rng.randrange(3)
    if how == 0:
        side, intp = rng.choice(["HA", "HA", "HA", "H", "A"]), rng.choice([0, 0, 1, 2])
        line = f'<BR1 teams="{listed}" intp="{intp}" mode2="{side}" slots="{drawn_slots(rng, n)}"'
    elif how == 1:
        intp = rng.choice([0, 1, n - 3 if n > 2 else 0, n - 2, 2 * n - 5 if n > 2 else 0, 2 * n - 4, 2 * n])
        line = f'<BR2 teams="{listed}" intp="{intp}" slots="{drawn_slots(rng, n)}"'
    else:
        least = rng.choice([0, 1, n - 2, n - 1, n - 1, n, 2 * n - 4, 2 * n - 3, 2 * n - 2, 2 * n - 1, 2 * n, 3 * n, 100])
        line = f'<SE1 teams="{listed}" min="{least}"'
    return f'{line} type="SOFT" penalty="{penalty}"/>'


def drawn_other(rng, n):
    """A constraint that no law speaks of: a wish, or a hard one that asks for little."""
    teams, slots = ";".join(map(str, range(n))), leagues.slots_of(n)
    kind = rng.choice(['type="SOFT" penalty="%d"' % rng.choice([0, 1, 5]), 'type="HARD"'])
    most = 0 if "SOFT" in kind else slots
    return rng.choice(
        [
            f'<CA1 teams="{teams}" max="{most}" mode="H" slots="0;{slots - 1}" {kind}/>',
            f'<CA2 teams1="0" teams2="{teams}" max="{most}" mode1="HA" slots="0;1" {kind}/>',
            f'<CA3 teams1="{teams}" teams2="{teams}" max="{max(most, 1)}" mode1="A" intp="2" {kind}/>',
            f'<CA4 teams1="{teams}" teams2="0" max="{most}" mode1="H" mode2="EVERY" slots="0;1" {kind}/>',
            f'<GA1 meetings="0,1;" min="0" max="{most}" slots="0;1" {kind}/>',
            f'<FA2 teams="{teams}" intp="{most}" slots="0;1" {kind}/>',
            f'<BR1 teams="0;1" intp="{2 * slots}" mode2="H" slots="1" type="HARD"/>',
            f'<BR2 teams="0;1" intp="{n * slots}" slots="1" {kind}/>',
            f'<SE1 teams="{teams}" min="0" {kind}/>',
        ]
    )


def floors_drawn(t):
    """Leagues drawn near what the laws allow, phased and not: the floor is just that of the laws."""
    rng, kinds = random.Random(t.seed), collections.Counter()
    circles = {n: games_of(t.run("circle", str(n)).out, n)[0] for n in (2, 4, 6, 8, 10)}
    for number in range(max(t.cases // 20, 60)):
        n, phased = rng.choice([2, 4, 4, 4, 6, 6, 8, 10]), rng.random() < 0.7
        classes = [drawn_soft(rng, n) for _ in range(rng.choice([1, 1, 2, 3, 6]))]
        classes += [drawn_other(rng, n) for _ in range(rng.choice([0, 0, 1, 2, 4]))]
        rng.shuffle(classes)
        instance = instance_text(n, phased, classes)
        league, refusal = league_of(instance)
        teams = list(range(n))
        rng.shuffle(teams)
        games = sorted((teams[i], teams[j], s) for i, j, s in circles[n])
        if refusal or not leagues.is_accepted(league, games):
            kinds["no season"] += 1
            continue
        it = t.fresh("drawn.xml", instance)
        conflicts = rng.choice(["0", "0", "1", "3"])
        ran, best, path = settled(t, it, instance, season_text(games), ("--conflicts", conflicts))
        kinds[f"status {ran.status}"] += 1
        cost = leagues.sums(league, games_of(best, n)[0])[1]
        t.must(floor_of(league) <= cost, "a season below the floor", floor_of(league), cost, files=[it, path])
        if ran.status == 5:
            bound = floored(t, instance, it, best, path, ran, n <= 6)
            kinds["floors" if bound else "floors of 0"] += 1
        else:
            kinds["floors of the objective"] += floor_of(league) == cost > 0
            t.must(ran.status == 0 and ran.out.startswith(b"bound %d\n" % cost), "drawn", ran.status, files=[it, path])
        if number % 100 == 0:
            print(f"    {number} leagues, {t.differences[t.group]} differences", flush=True)
    print("    " + ", ".join(f"{it}: {count}" for it, count in sorted(kinds.items())), flush=True)


def stands(t):
    """`prove` of leagues whose floors come of each law, for refused memory and failing devices."""
    gaps = '<SE1 teams="0;1;2;3" min="3" type="SOFT" penalty="3"/>'
    breaks = NO_BREAK.replace("HARD", "SOFT") % 1
    found = []
    for name, classes in (("gaps", [gaps, FIRST_HOME % ("2;3", 10)]), ("breaks", [breaks, FIRST_HOME % ("1;2", 2)])):
        instance = instance_text(4, True, classes)
        it = t.path(f"floors-{name}.xml", instance)
        _, best, _ = settled(t, it, instance, C4_TEXT)
        found.append((["prove", it, t.path(f"floors-{name}-season.xml", best), "--conflicts", "0"], ["instance", "solution"]))
    return found


def floors_large(t):
    """Large leagues: what the floor takes, of time and of memory, where the run has no second and no conflict."""
    leagues_of = [(n, t.run("make", str(n), "1").out) for n in (20, 24, 28)]
    teams = ";".join(map(str, range(40)))
    wide = f'<BR2 teams="{teams}" intp="3" slots="{";".join(map(str, range(78)))}" type="SOFT" penalty="7"/>'
    far = '<SE1 teams="%s" min="31" type="SOFT" penalty="9"/>'
    some = ";".join(map(str, range(32)))
    leagues_of += [(40, instance_text(40, True, [wide])), (32, instance_text(32, True, [far % some]))]
    for n, instance in leagues_of:
        season, it = t.path("large-season.xml", t.run("circle", str(n)).out), t.path("large.xml", instance)
        ran = t.run("prove", it, season, "--seconds", "0", "--conflicts", "0", seconds=1200, memory=8192)
        league = league_of(instance)[0]
        law, line = floor_of(league), b"bound %d\n" % floor_of(league)
        cost = leagues.sums(league, games_of(t.run("circle", str(n)).out, n)[0])[1]
        told = ran.out.startswith(line) if law == cost else b"\n" + line in ran.out[:99]
        t.must(ran.status == (0 if law == cost else 5) and told, n, law, cost, ran.status, ran.out[:99])
        print(f"    {n} teams: floor {law}, {ran.seconds:.1f} s, peak {ran.peak:.0f} MiB, {len(ran.out)} bytes", flush=True)


GROUPS = [floors_made, floors_drawn]
HEAVY = [floors_large]
