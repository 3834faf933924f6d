"""Gives the rows that robin writes to other solvers, and what they find back to robin.

python3 second/solvers.py PROGRAM [--objective] [--solvers NAMES] [--rows PROGRAM] [--seconds N] [--rounds N] [--seed N]
    [LEAGUE ..]

PROGRAM is robin as it was built; `--rows` is a program that takes the words `rows` and `values`, where that is another
one. Each LEAGUE is taken by its hard constraints; without any, so many rounds draw a small one. The text of `rows` is
compared with that of opb.py, also with a bound, and given to each solver of NAMES (clasp,minisat+,cbc) that is installed
for so many seconds of processor time. What a solver finds goes back by `values`: the season has to be one that `validate`
accepts, and with one value changed the row that `values` names has to be the first that the values miss. What the
solvers say has to agree with each other, and with `solve --conflicts all` unless that takes too long. It stops at the
first difference.

With `--objective` the leagues have soft constraints too, and the rows are those of `rows --objective`: what a solver
proves to be least has to be the objective of the season that its values say, the same of each solver, and by `prove
--conflicts all` the least; where it finds no season, `solve --conflicts all` has to say so too.
"""

import argparse
import io
import os
import random
import re
import shutil
import subprocess
import sys
import tempfile
import time

sys.path.insert(0, os.path.dirname(os.path.abspath(__file__)))
import compare
import leagues
import plain
import rows


def limited(seconds, *words):
    """The status, the text and the seconds of a run that may take so many seconds of processor time."""
    began = time.time()
    command = ["bash", "-c", f'ulimit -t {seconds}; exec "$@"', "_", *map(str, words)]
    done = subprocess.run(command, stdout=subprocess.PIPE, stderr=subprocess.DEVNULL)
    return done.returncode, done.stdout.decode(), time.time() - began


def write(name, text):
    with open(name, "w", encoding="utf-8") as out:
        out.write(text)


def read(name):
    if not os.path.exists(name):
        return ""
    with open(name, encoding="utf-8") as it:
        return it.read()


def read_rows(text):
    """The number of variables and the rows that a text in OPB says."""
    first, *lines = text.splitlines()
    count, total = map(int, re.fullmatch(r"\* #variable= (\d+) #constraint= (\d+)", first).groups())
    found = []
    for line in lines:
        *words, relation, degree, end = line.split(" ")
        assert (relation, end) == (">=", ";") and len(words) % 2 == 0 and words, line
        terms = [
            (int(coef), -int(lit[2:]) if lit[0] == "~" else int(lit[1:])) for coef, lit in zip(words[::2], words[1::2])
        ]
        found.append(([term for term in terms if term[0]], int(degree)))
    assert len(found) == total
    return count, found


def missed(found, values):
    """The number of the first row that values miss, from 1, or None."""
    for number, (terms, degree) in enumerate(found, 1):
        if sum(coef for coef, lit in terms if (abs(lit) in values) == (lit > 0)) < degree:
            return number
    return None


def rewritten(text, as_program):
    out = io.StringIO()
    plain.rewrite(io.StringIO(text), out.write, as_program)
    return out.getvalue()


def written(text, system):
    """The rows that robin wrote, in a file of each form that solvers read; they are to be these rows."""
    assert text == rows.opb(*system), "the rows differ"
    forms = {"plain.opb": (False, rows.plain_opb), "rows.lp": (True, rows.program)}
    write("rows.opb", text)
    for name, (as_program, second) in forms.items():
        write(name, rewritten(text, as_program))
        assert read(name) == second(*system), name


def ask(solver, seconds):
    """What a solver says of the rows: the lines of its values, False where there are none, None where it gave up; and
    what it says that they cost, where it says that nothing costs less."""
    if solver == "cbc":
        return ask_cbc(seconds)
    words = ("clasp", "rows.opb") if solver == "clasp" else ("minisat+", "-a", "plain.opb")
    _, said, took = limited(seconds, *words)
    if re.search("^s UNSATISFIABLE", said, re.M):
        return False, None, took
    costs = r"^(?:o|c Found solution:) (\d+)"
    least = re.findall(costs, said, re.M) if re.search("^s OPTIMUM", said, re.M) else []
    found = re.search("^s (SATIS|OPTIMUM)", said, re.M)
    return said if found else None, int(least[-1]) if least else None, took


def ask_cbc(seconds):
    if os.path.exists("answer"):
        os.remove("answer")
    _, said, took = limited(seconds + 5, "cbc", "rows.lp", "-sec", seconds, "-solve", "-solution", "answer")
    answer = read("answer")
    if "infeasible" in said or "infeasible" in answer.split("\n")[0]:
        return False, None, took
    if "Optimal solution found" not in said and "Result - Optimal" not in said:
        return None, None, took
    least = round(float(re.search(r"objective value +([-\d.e+]+)", answer).group(1)))
    true = [int(word) for word in re.findall(r"x(\d+) +(?:1|0\.99\d*)\b", answer)]
    return "v " + " ".join(f"x{v}" for v in true) + "\n", least, took


def true_of(said):
    """The variables that a solver's lines say to be true."""
    words = [word for line in said.splitlines() if line.startswith("v") for word in line[1:].split()]
    return {int(word[1:]) for word in words if word.startswith("x")}


def season_of(programs, said):
    """The values go back: the objective of the season that they say, which is to be accepted."""
    program, own = programs
    write("values", said)
    status, season = compare.run(own, "values", "league.xml", "values")
    assert status == 0, (status, season)
    write("season.xml", season)
    status, report = compare.run(program, "validate", "league.xml", "season.xml")
    assert status == 0 and "\nfeasible yes" in report, report
    return int(re.search("^objective (.*)$", report, re.M).group(1))


def changed(own, said, found, rng):
    """With one value changed, the first row that is missed has to be named."""
    true = true_of(said)
    for _ in range(3):
        at = rng.randint(1, rows.Numbers(leagues.read_league("league.xml")).count)
        write("changed", said + f"v {'-' if at in true else ''}x{at}\n")
        row = missed(found, true ^ {at})
        wanted = (1, f"missed row {row}\n") if row else (0, None)
        status, text = compare.run(own, "values", "league.xml", "changed")
        assert status == wanted[0] and wanted[1] in (None, text), (at, wanted, status, text)


def robin_rows(own, *words):
    status, text = compare.run(own, "rows", "league.xml", *words)
    assert status == 0, text
    return text


def hard(programs, solvers, seconds, rng):
    """A league of hard constraints: what robin and each solver say, in words, and whether there is a season."""
    program, own = programs
    read_league = leagues.read_league("league.xml")
    text = robin_rows(own)
    count, found = rows.league_rows(read_league)
    written(text, (count, found))
    assert read_rows(text) == (count, found)
    bound = rng.randint(0, 5)
    assert robin_rows(own, "--bound", bound) == rows.opb(*rows.bound_rows(read_league, bound))
    status, _, solved = limited(seconds, program, "solve", "league.xml", "--conflicts", "all")
    said = {"robin": {0: True, 4: False}.get(status)}
    words = [f"robin {said['robin']} {solved:.1f}s"]
    for solver in solvers:
        values, _, spent = ask(solver, seconds)
        said[solver] = None if values is None else values is not False
        words.append(f"{solver} {said[solver]} {spent:.1f}s")
        if values:
            season_of(programs, values)
            changed(own, values, found, rng)
    return said, words


def least(programs, solvers, seconds):
    """A league with soft constraints: the least objective by each solver, in words too, and False where no season is."""
    program, own = programs
    written(robin_rows(own, "--objective"), rows.least_rows(leagues.read_league("league.xml")))
    said, words = {}, []
    for solver in solvers:
        values, cost, spent = ask(solver, seconds)
        said[solver] = False if values is False else cost
        words.append(f"{solver} {said[solver]} {spent:.1f}s")
        if values:
            objective = season_of(programs, values)
            assert cost in (None, objective), (solver, cost, objective)
            if cost is not None:
                status, text, _ = limited(seconds, program, "prove", "league.xml", "season.xml", "--conflicts", "all")
                assert status in (0, 5) or status < 0 or status > 128, (solver, status, text[:200])
                said["robin"] = cost if status == 0 else None
        elif values is False:
            status, _, _ = limited(seconds, program, "solve", "league.xml", "--conflicts", "all")
            said["robin"] = {0: True, 4: False}.get(status)
    words.append(f"robin {said.get('robin')}")
    return said, words


def league(programs, name, solvers, seconds, rng, objective):
    said, words = least(programs, solvers, seconds) if objective else hard(programs, solvers, seconds, rng)
    answers = {(type(answer), answer) for answer in said.values() if answer is not None}
    assert len(answers) <= 1, said
    print(f"{name}: {os.path.getsize('rows.opb')} bytes; " + ", ".join(words), flush=True)
    return next(iter(answers))[1] if answers else None


def drawn(rng, objective):
    """A small league with a few constraints, hard ones alone or soft ones too."""
    n = rng.choice([2, 4, 4, 4, 6])
    classes = [compare.drawn_class(rng, n) for _ in range(rng.randint(1, 4))]
    if objective:
        classes += [compare.drawn_class(rng, n) for _ in range(2)]
    types = [rng.choice(["HARD", "SOFT", "SOFT"]) if objective else "HARD" for _ in classes]
    priced = [(name, {**at, "type": kind, "penalty": rng.randint(0, 12)}) for (name, at), kind in zip(classes, types)]
    return compare.league_text(n, rng.random() < 0.5, priced)


def main():
    words = argparse.ArgumentParser(description=__doc__, formatter_class=argparse.RawDescriptionHelpFormatter)
    words.add_argument("program")
    words.add_argument("leagues", nargs="*")
    words.add_argument("--objective", action="store_true")
    words.add_argument("--rows")
    words.add_argument("--solvers", default="clasp,minisat+,cbc")
    words.add_argument("--seconds", type=int, default=60)
    words.add_argument("--rounds", type=int, default=50)
    words.add_argument("--seed", type=int, default=1)
    said = words.parse_intermixed_args()
    rng = random.Random(said.seed)
    programs = os.path.abspath(said.program), os.path.abspath(said.rows or said.program)
    solvers = [it for it in said.solvers.split(",") if shutil.which(it)]
    files = [os.path.abspath(it) for it in said.leagues]
    with tempfile.TemporaryDirectory() as folder:
        os.chdir(folder)
        found = []
        for name in files or range(said.rounds):
            text = read(name) if files else drawn(rng, said.objective)
            lines = text.splitlines(keepends=True)
            write("league.xml", "".join(it for it in lines if said.objective or not files or 'type="SOFT"' not in it))
            short = os.path.basename(str(name))
            found.append(league(programs, short, solvers, said.seconds, rng, said.objective))
    none, spent = [it is False for it in found].count(True), [it is None for it in found].count(True)
    print(f"{len(found)} leagues, {len(found) - none - spent} with a season, {none} with none: no difference")


main()
