"""Attacks what commands answer: `solve --from`, `resume --near`, and the texts of `show`, `rows` and `values`.

The groups are hostile.py's. Each byte of a text is said by a reading of its own (forms.py, leagues.py, moves.py,
rows.py, shown.py), and each season and log is judged.
"""

import collections
import functools
import os
import random
import re

import compare
import forms
import leagues
import logs
import moves
import rows
import shown
from attack import C4, C4_TEXT, I4, MIB, NO_HOME, ONE_HOME
from attack import example, instance_refusal, instance_text, season_text, validated
from certified import AWAY_LATE, FIRST_HOME, TERMS, TWO, games_of, league_of, resume_fault, season_fault
from changes import changed_bytes, changed_file, changed_token

MOST = 2**64 - 1


def start_fault(instance, solution, ran):
    """What is wrong with what `solve --from` answered."""
    league, refusal = league_of(instance)
    games, refusal = (None, refusal) if refusal else games_of(solution, league.n)
    if not refusal and leagues.structure(league, games) != (0, 0, 0):
        wanted = (1, leagues.report(league, games))
        return None if (ran.status, ran.out.decode()) == wanted else f"not {wanted[1][:60]}"
    if not refusal:
        # The size of the rows is asked last.
        size = rows.size_of(rows.league_rows(league)[1])
        refusal = f"refused rows TooLarge terms {size}\n" if size > TERMS else None
    if refusal:
        return None if (ran.status, ran.out.decode()) == (3, refusal) else f"not {refusal}"
    if ran.status in (4, 5):
        steps = forms.read_log(ran.out)
        verdict = logs.check(*rows.league_rows(league), steps)
        spent = f"rejected step {len(steps)} cause NoEmptyClause"
        wanted = f"accepted steps {len(steps)}" if ran.status == 4 else spent
        return None if verdict == wanted else verdict
    if ran.status:
        return f"status {ran.status}"
    return solved_fault(league, ran.out, leagues.sums(league, games)[1] if leagues.is_accepted(league, games) else None)


def solved_fault(league, text, most=None):
    """What is wrong with a season and its comments: the moves are taken back one by one; it costs `most` at most."""
    end = text.index(b"</Solution>\n") + 12
    fault, games, objective = season_fault(league, text[:end])
    form = r"<!-- descent first=(\d+) moves=(\d+) settled=(?:yes|no) -->\n((?:<!-- move \w+(?: \d+)+ -->\n)*)"
    comments = re.fullmatch(form, text[end:].decode())
    if fault or not comments:
        return fault or "comments"
    trail = re.findall(r"<!-- move (\w+) ([\d ]+) -->", comments[3])
    now, score = games, objective
    for kind, numbers in reversed(trail):
        now = moves.made((kind, *map(int, numbers.split())), league.n, league.phased, now)
        if now is None or not leagues.is_accepted(league, now) or leagues.sums(league, now)[1] <= score:
            return f"move {kind} {numbers}"
        score = leagues.sums(league, now)[1]
    if (int(comments[1]), int(comments[2])) != (score, len(trail)):
        return f"first {score} of {len(trail)} moves"
    return "dearer than the start" if most is not None and objective > most else None


def starts_of(rng, n):
    """Games of a season of n teams, and of what is none: turned, mirrored, a half, halves that meet twice, too many."""
    circle = shown.drawn_games(random.Random(rng.random()), n)
    slots = leagues.slots_of(n)
    whole = [it for it in circle if it[2] < slots]
    first = [it for it in whole if it[2] < n - 1]
    turned = [(j, i, s) for i, j, s in whole]
    again = [(i, j, s + n - 1) for i, j, s in first]
    yield from (whole, turned, first, first * 2, first + again, whole + whole[:1], whole[1:], [])
    yield [(i, j, (s + 1) % slots) for i, j, s in whole]
    yield [(i, j, slots - 1 - s) for i, j, s in whole]
    yield first + [(j, i, s + n - 1) for i, j, s in first]
    late = list(range(slots))
    rng.shuffle(late)
    yield [(i, j, late[s]) for i, j, s in whole]


# Five of these have more terms than are worked with.
WIDE = '<FA2 teams="%s" intp="0" mode="H" slots="%s" type="HARD"/>'
WIDE %= (";".join(map(str, range(40))), ";".join(map(str, range(78))))


def begun_order(t):
    """`solve --from` of a league that is too large: the season is read and judged before the size is asked."""
    instance = instance_text(40, True, [WIDE] * 5)
    it, four = t.path("begun-wide.xml", instance), t.path("begun-four.xml", C4_TEXT)
    t.answers(["solve", it, "--from", os.path.join(t.folder, "absent")], 6, "read fault solution\n")
    t.answers(["solve", it, "--from", os.devnull], 3, "refused solution Truncated line 1\n")
    t.answers(["solve", it, "--from", four], *validated(instance, C4_TEXT))
    circle = t.path("begun-circle.xml", t.run("circle", "40").out)
    t.answers(["solve", it, "--from", circle], 3, "refused rows TooLarge terms 49177440\n")


def begun_files(t):
    """Leagues with a season for each."""
    own = [(I4, C4_TEXT), (instance_text(4, True, [NO_HOME]), C4_TEXT), (instance_text(4, False, [ONE_HOME]), C4_TEXT)]
    own += [(example("nine-classes.xml"), example("accepted-season.xml"))]
    own += [(instance_text(2, True, [FIRST_HOME % ("0", 5)]), season_text(TWO))]
    own += [(t.run("make", n, seed).out, t.run("circle", n).out) for n, seed in (("4", "3"), ("6", "2"), ("8", "5"))]
    return own


def begun(t):
    """`solve --from`: every front of a season, seasons changed, single, turned, of another league, out of range."""
    rng, kinds, own = random.Random(t.seed), collections.Counter(), begun_files(t)
    few = ["--moves", "2", "--conflicts", "3", "--patterns", "3"]

    def begins(instance, solution, more=()):
        files = [t.fresh("league.xml", instance), t.fresh("season.xml", solution)]

        def judge(ran):
            fault = start_fault(instance, solution, ran)
            t.must(not fault, "solve --from", more, fault, ran.status, ran.out[:200], files=files)
            kinds[f"status {ran.status}"] += 1

        t.later(["solve", files[0], "--from", files[1], *few, *more], judge)

    for k in range(len(C4_TEXT) + 1):
        begins(own[1][0], C4_TEXT[:k])
    for instance, solution in own:
        for _, other in own:
            begins(instance, other)
        for games in starts_of(rng, league_of(instance)[0].n):
            begins(instance, season_text(games))
            begins(instance, season_text(games), ["--seed", str(rng.randrange(2**64)), "--tries", "2"])
        for game in ((0, 1, 99), (99, 1, 0), (0, 0, 0), (4_294_967_295, 0, 0), (4_294_967_296, 0, 0), ("-1", 0, 0)):
            begins(instance, season_text([*C4[1:], game]))
    while sum(kinds.values()) < t.cases:
        instance, solution = rng.choice(own[:6])
        if rng.random() < 0.3:
            instance = changed_file(rng, instance, [rng.choice(own)[0]])
        if rng.random() < 0.6:
            solution = changed_file(rng, solution, [rng.choice(own)[1]])
        elif rng.random() < 0.5 and league_of(instance)[0]:
            solution = season_text(rng.choice(list(starts_of(rng, league_of(instance)[0].n))))
        begins(instance, solution, rng.choice([[], ["--seed", "7"], ["--tries", "2"]]))
    t.flush()
    begun_order(t)
    print("    " + ", ".join(f"{it}: {count}" for it, count in sorted(kinds.items())), flush=True)


def drawn_league(rng, n, most=5):
    """A league of n teams with a few constraints of all classes."""
    classes = [compare.drawn_class(rng, n) for _ in range(rng.randrange(most))]
    for _, at in classes:
        at["type"], at["penalty"] = rng.choice(["HARD", "SOFT"]), rng.randint(0, 12)
    return compare.league_text(n, rng.random() < 0.5, classes)


def shown_told(instance, solution, options):
    """Status and text of `show`."""
    status, text = validated(instance, solution)
    if status == 3:
        return status, text
    text, _ = shown.shown(instance, solution, **options)
    return status, text


def demands_told(instance, numbers):
    """Status and text of `show --demands`."""
    _, refusal = instance_refusal(instance)
    if refusal:
        return 3, refusal
    text, status = shown.demanded(instance, numbers)
    return status, text


EDGES = [0, 1, 2, 19, 20, 21, 79, 80, 81, 4_294_967_294, 4_294_967_295]


def shows(t, instance, solution, options):
    """`show` of a league and a season, with options."""
    files = [t.fresh("league.xml", instance), t.fresh("season.xml", solution)]
    words = [word for key, value in options.items() for word in (f"--{key}", str(value))]
    if options.get("most") == "all":
        options = {**options, "most": forms.LARGEST}
    t.demands(["show", *files, *words], *shown_told(instance, solution, options), files=files)


def says_demands(t, instance, numbers):
    """`show --demands` of a league: of all its demands, or of those of some numbers."""
    it = t.fresh("league.xml", instance)
    more = [] if numbers is None else [";".join(map(str, numbers))]
    t.demands(["show", it, "--demands", *more], *demands_told(instance, numbers), files=[it])


LISTS = [[1], [2], [3], [9], [10], [1, 2], [1, 4_294_967_295], [4_294_967_295], list(range(1, 300))]


def pictured(t):
    """`show`: fronts of files, leagues and seasons drawn and changed, every option at its edges, and `--demands`."""
    rng = random.Random(t.seed)
    named = shown.named(rng, instance_text(4, True, [NO_HOME, ONE_HOME]).decode(), 4).encode()
    for k in range(len(named) + 1):
        shows(t, named[:k], C4_TEXT, {})
        says_demands(t, named[:k], None)
    for k in range(len(C4_TEXT) + 1):
        shows(t, named, C4_TEXT[:k], {})
    for instance, solution in ((named, C4_TEXT), (example("nine-classes.xml"), example("refused-season.xml"))):
        for key in ("most", "width"):
            for value in [*EDGES, *range(3, 60), *(["all"] if key == "most" else [])]:
                shows(t, instance, solution, {key: value})
        for numbers in LISTS:
            says_demands(t, instance, numbers)
    made = 0
    while made < t.cases:
        n = rng.choice([2, 4, 4, 4, 6, 8])
        instance = shown.named(rng, drawn_league(rng, n, 9), n).encode()
        solution = season_text(shown.drawn_games(rng, n))
        if rng.random() < 0.3:
            instance = changed_file(rng, instance, [named])
        if rng.random() < 0.3:
            solution = changed_file(rng, solution, [C4_TEXT])
        options = {"form": "csv"} if rng.random() < 0.2 else {}
        options.update({key: rng.choice(EDGES) for key in ("most", "width") if rng.random() < 0.4})
        shows(t, instance, solution, options)
        says_demands(t, instance, rng.choice([None, [rng.randint(1, 9)], sorted(rng.sample(range(1, 12), 3))]))
        made += 2
    t.flush()


def rows_told(instance, more):
    """Status and text of `rows`."""
    league, refusal = league_of(instance)
    if refusal:
        return 3, refusal
    size = rows.bound_size(league) if more else rows.size_of(rows.league_rows(league)[1])
    if size > TERMS:
        return 3, f"refused rows TooLarge terms {size}\n"
    if not more:
        return 0, rows.opb(*rows.league_rows(league))
    own = rows.least_rows(league) if more[0] == "--objective" else rows.bound_rows(league, int(more[1]))
    return 0, rows.opb(*own)


def listed(t):
    """`rows`: fronts of a league, leagues drawn and changed, in all three forms, and bounds at their edges."""
    rng = random.Random(t.seed)

    def lists(instance, more):
        it = t.fresh("league.xml", instance)
        words = ["rows", it, *more] if rng.random() < 0.5 else ["rows", *more, it]
        t.demands(words, *rows_told(instance, more), files=[it])

    two = instance_text(2, True, [FIRST_HOME % ("0;1", 5), FIRST_HOME % ("1", 0), FIRST_HOME % ("0", 4_294_967_295)])
    for k in range(len(two) + 1):
        for more in ([], ["--objective"], ["--bound", "4"]):
            lists(two[:k], more)
    for bound in [*range(12), 4_294_967_294, 4_294_967_295, 4_294_967_296, 8_589_934_600, 2**63, MOST - 1, MOST]:
        lists(two, ["--bound", str(bound)])
    known = [two, I4, example("nine-classes.xml")]
    for _ in range(t.cases):
        n = rng.choice([2, 2, 4, 4, 4, 6])
        instance = drawn_league(rng, n).encode() if rng.random() < 0.6 else rng.choice(known)
        if rng.random() < 0.4:
            instance = changed_file(rng, instance, [two])
        lists(instance, rng.choice([[], [], ["--objective"], ["--bound", str(rng.choice([0, 1, 5, 30, MOST]))]]))
    t.flush()


def values_of(league, games):
    """The variables of a league's rows that a season makes true."""
    v = rows.Numbers(league)
    at_home = {(i, s) for i, _, s in games}
    true = {v.x(*it) for it in games} | {v.h(*it) for it in at_home}
    for i in range(league.n):
        for s in range(1, v.slots) if v.has_breaks else ():
            pair = ((i, s - 1) in at_home, (i, s) in at_home)
            true |= {v.hb(i, s)} if all(pair) else set()
            true |= {v.ab(i, s)} if not any(pair) else set()
    return true


@functools.lru_cache(64)
def rows_of(instance):
    """The rows of a league."""
    return rows.league_rows(league_of(instance)[0])[1]


def values_told(instance, text):
    """Status and text of `values`."""
    league, refusal = league_of(instance)
    if refusal:
        return 3, refusal
    size = rows.size_of(rows_of(instance))
    if size > TERMS:
        return 3, f"refused rows TooLarge terms {size}\n"
    try:
        true = forms.read_values(text)
    except forms.Fault as fault:
        return 3, f"refused values {fault.kind} line {fault.line}\n"
    for number, (terms, degree) in enumerate(rows_of(instance), 1):
        if sum(coef for coef, lit in terms if (abs(lit) in true) == (lit > 0)) < degree:
            return 1, f"missed row {number}\n"
    v = rows.Numbers(league)
    every = [(i, j, s) for s in range(v.slots) for i in range(v.n) for j in range(v.n) if i != j]
    games = [it for it in every if v.x(*it) in true]
    return 0, season_text(games, leagues.sums(league, games)[1]).decode()


def as_values(rng, true, count):
    """A text of values as one or another solver prints it."""
    style = rng.choice([("x{}", "-x{}"), ("{}", "-{}"), ("x{}", "~x{}"), ("{}", "~{}"), ("x{}", "")])
    words = [style[0 if it in true else 1].format(it) for it in range(1, count + 1)]
    words = [it for it in words if it]
    if rng.random() < 0.3:
        rng.shuffle(words)
    wide = rng.choice([1, 7, 1000])
    front = rng.choice(["v ", "v", "", "v  "])
    lines = [front + " ".join(words[k : k + wide]) for k in range(0, len(words), wide)]
    head = rng.choice(["", "c a comment x1\no 7\ns OPTIMUM FOUND\n", "s SATISFIABLE\n", "c\n"])
    return (head + "\n".join(lines) + rng.choice(["", "\n", " 0\n", "\nv 0\n", "\n\n"])).encode()


# Words of a file of values, right and wrong.
VALUES = [b"x1", b"-x1", b"~x1", b"0", b"x0", b"x01", b"00", b"x2147483647", b"x2147483648", b"4294967297"]
VALUES += [b"18446744073709551617", b"~~x1", b"v", b"c", b"o", b"s", b"\r", b"\t", b"x", b"-", b"~", b"+x1", b"x-1"]
VALUES += [b"1.5", b"", b"\n", b"  ", b"\0", b"\xff", b"9" * 5000, b"0" * 5000 + b"1"]


def valued_leagues():
    """Leagues with the variables that a season of theirs makes true, and their number."""
    accepted = forms.read_solution(example("accepted-season.xml"), 4)
    own = [(I4, C4), (instance_text(2, True), TWO), (example("nine-classes.xml"), accepted)]
    for instance, games in [*own, (instance_text(2, False, [FIRST_HOME % ("0", 5)]), TWO)]:
        league = league_of(instance)[0]
        yield instance, values_of(league, games), rows.league_rows(league)[0]


def changed_values(rng, true, count):
    """A text of values of which a few are turned, and bytes or words changed."""
    turned = set(rng.sample(range(1, count + 1), rng.choice([0, 1, 1, 2])))
    text = as_values(rng, true ^ turned, count)
    how = rng.randrange(4)
    if how == 0:
        return changed_bytes(rng, text)
    return changed_token(rng, text, rb"[^ \n]+", VALUES) if how < 3 else text


def valued(t):
    """`values`: values of right seasons as solvers print them, every front of them, and values changed at random."""
    rng, kinds, ready = random.Random(t.seed), collections.Counter(), list(valued_leagues())

    def values(instance, text):
        files = [t.fresh("league.xml", instance), t.fresh("values", text)]
        told = values_told(instance, text)
        kinds[f"status {told[0]}"] += 1
        t.demands(["values", *files], *told, files=files)

    for instance, true, count in ready:
        for _ in range(40):
            text = as_values(rng, true, count)
            values(instance, text)
            t.must(values_told(instance, text)[0] == 0, "a right season's values", text[:80])
        text = as_values(random.Random(1), true, count)
        for k in range(len(text) + 1) if len(text) < 3000 else ():
            values(instance, text[:k])
    while sum(kinds.values()) < t.cases:
        instance, true, count = rng.choice(ready)
        text = changed_values(rng, true, count)
        values(changed_file(rng, instance, [I4]) if rng.random() < 0.1 else instance, text)
    t.flush()
    valued_edges(t)
    print("    " + ", ".join(f"{it}: {count}" for it, count in sorted(kinds.items())), flush=True)


def valued_edges(t):
    """`values`: a file at its limit and past it, and files that can't be read."""
    two = t.path("two.xml", instance_text(2, True))
    for extra in (0, 1):
        path = t.path("long", *[b" " * MIB] * 256, b" " * extra)
        told = (3, f"refused values TooLong limit {256 * MIB}\n") if extra else (1, "missed row 1\n")
        t.answers(["values", two, path], *told)
        os.remove(path)
    t.answers(["values", two, os.path.join(t.folder, "absent")], 6, "read fault values\n")
    t.answers(["values", two, t.folder], 6, "read fault values\n")


def stands(t):
    """Words of the newer commands, with the files that they read."""
    nine = t.path("doors-nine.xml", example("nine-classes.xml"))
    season = t.path("doors-season.xml", example("refused-season.xml"))
    two = t.path("doors-two.xml", instance_text(2, True))
    wishes = t.path("doors-wishes.xml", instance_text(2, True, [FIRST_HOME % ("0;1", 5)]))
    four, start = t.path("doors-four.xml", I4), t.path("doors-start.xml", C4_TEXT)
    turns = t.path("doors-turns.xml", season_text(TWO))
    true = values_of(league_of(instance_text(2, True))[0], TWO)
    right = t.path("doors-right", b"v " + b" ".join(b"x%d" % it for it in sorted(true)) + b"\n")
    return [
        (["show", nine, season], ["instance", "solution"]),
        (["show", nine, season, "--form", "csv"], ["instance", "solution"]),
        (["show", nine, "--demands"], ["instance"]),
        (["show", nine, "--demands", "2;9"], ["instance"]),
        (["solve", four, "--from", start, "--moves", "1"], ["instance", "solution"]),
        (["solve", wishes, "--from", turns, "--moves", "1"], ["instance", "solution"]),
        (["solve", four, "--from", season], ["instance", "solution"]),
        (["resume", four, start, "2", "--near", "--moves", "1"], ["instance", "solution"]),
        (["resume", wishes, turns, "0", "--near", "--moves", "1", "--tries", "2"], ["instance", "solution"]),
        (["rows", two], ["instance"]),
        (["rows", wishes, "--objective"], ["instance"]),
        (["rows", wishes, "--bound", "3"], ["instance"]),
        (["values", two, right], ["instance", "values"]),
        (["values", two, two], ["instance", "values"]),
        (["solve", "--help"], []),
        (["--help"], []),
        (["--version"], []),
    ]


# Seasons near an old one.


CHANGED = re.compile(rb"<!-- changed=(\d+) of=(\d+) settled=(?:yes|no) -->\n")


def near_fault(instance, solution, k, limit, ran):
    """What is wrong with what `resume --near` answered, whose search learns at most so many clauses."""
    told = CHANGED.search(ran.out) if ran.status == 0 else None
    if ran.status == 0 and (not told or told.end() != len(ran.out)):
        return "no number of changed games behind the season"
    season = ran.out[: told.start()] if told else ran.out
    fault = resume_fault(instance, solution, k, limit, ran._replace(out=season))
    if fault or not told:
        return fault
    old = [it for it in forms.read_solution(solution, league_of(instance)[0].n) if it[2] >= k]
    new = set(forms.read_solution(season, league_of(instance)[0].n))
    wanted = (sum(it not in new for it in old), len(old))
    return None if (int(told[1]), int(told[2])) == wanted else f"{told[0]} is not {wanted}"


# Options behind --near. Under a time limit tries go on until then, where their number isn't said.
NEAR = [[], ["--tries", "2"], ["--moves", "0"], ["--seed", str(MOST)], ["--patterns", "0"], ["--seconds", "0"]]
NEAR.append(["--tries", "1", "--seconds", str(MOST)])
NEAR.append(["--tries", "1", "--moves", "40", "--seed", "7", "--patterns", "3", "--seconds", "9"])


def near_words(rng):
    """Options behind `--near`, and the most clauses of the search (None: any number)."""
    more = rng.choice(NEAR)
    more = more if "--moves" in more else [*more, "--moves", "9"]
    limit = rng.choice([0, 0, 3])
    return [*more, "--conflicts", str(limit)], limit


def nearby(t):
    """`resume --near`: K and the options at their edges, fronts of a season, leagues and seasons that were changed."""
    rng, kinds = random.Random(t.seed), collections.Counter()
    own = [(I4, C4_TEXT), (instance_text(4, True, [NO_HOME]), C4_TEXT), (instance_text(4, True, [AWAY_LATE]), C4_TEXT)]
    own += [(example("nine-classes.xml"), example("accepted-season.xml")), (instance_text(2, True), season_text(TWO))]
    own += [(t.run("make", n, seed).out, t.run("circle", n).out) for n, seed in (("4", "3"), ("6", "2"))]

    def nears(instance, solution, k):
        files, (more, limit) = [t.fresh("league.xml", instance), t.fresh("season.xml", solution)], near_words(rng)

        def judge(ran):
            # A run whose time is over learns fewer clauses: how many isn't known.
            is_late = more[:2] == ["--seconds", "0"] and ran.status == 5
            fault = None if is_late else near_fault(instance, solution, k, limit, ran)
            t.must(not fault, "resume --near", k, more, fault, ran.status, ran.out[-200:], files=files)
            kinds[f"status {ran.status}"] += 1

        t.later(["resume", *files, str(k), "--near", *more], judge)

    for cut in range(len(C4_TEXT) + 1):
        nears(own[2][0], C4_TEXT[:cut], 2)
    for instance, solution in own:
        for k in (*range(12), 4_294_967_296, MOST):
            nears(instance, solution, k)
        for games in starts_of(rng, league_of(instance)[0].n):
            nears(instance, season_text(games), rng.randint(0, 4))
    while sum(kinds.values()) + len(t.queue) < t.cases:
        instance, solution = rng.choice(own)
        instance = changed_file(rng, instance, [rng.choice(own)[0]]) if rng.random() < 0.4 else instance
        solution = changed_file(rng, solution, [rng.choice(own)[1]]) if rng.random() < 0.4 else solution
        nears(instance, solution, rng.randint(0, 7))
    t.flush()
    print("    " + ", ".join(f"{it}: {count}" for it, count in sorted(kinds.items())), flush=True)


GROUPS = [begun, pictured, listed, valued, nearby]
