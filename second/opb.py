"""Writes a league's rows in the form that pseudo-Boolean solvers read (OPB), to compare robin with them.

python3 second/opb.py LEAGUE                 all rows of the league
python3 second/opb.py LEAGUE --patterns      those without a game's variable
python3 second/opb.py LEAGUE --bound B       the rows of an accepted season with an objective of at most B
python3 second/opb.py LEAGUE --objective     these rows without a bound, and the objective as what is to be least
python3 second/opb.py LEAGUE --keep SEASON K the rows of an accepted season that keeps the games of the first K slots

With --form plain negations are written as negative coefficients (for solvers that read the older form alone, as
minisat+), and with --form lp it is an integer program (for cbc and glpsol).

python3 second/opb.py LEAGUE --season ANSWER the season that a solver's answer, its words x1, x2 .. that are true, says
"""

import argparse
import os
import re
import sys

sys.path.insert(0, os.path.dirname(os.path.abspath(__file__)))
import leagues
import rows


def season(league, answer):
    """The season in which the games take place whose variables the lines `v` of the answer say to be true."""
    v = rows.Numbers(league)
    words = [word for line in answer if line.startswith("v ") for word in line.split()[1:]]
    true = {int(word[1:]) for word in words if re.fullmatch("x[0-9]+", word)}
    games = "".join(
        f'<ScheduledMatch home="{i}" away="{j}" slot="{s}"/>\n'
        for s in range(v.slots)
        for i in range(v.n)
        for j in range(v.n)
        if i != j and v.x(i, j, s) in true
    )
    return f"<Solution><MetaData></MetaData><Games>\n{games}</Games></Solution>\n"


def main():
    words = argparse.ArgumentParser(description=__doc__, formatter_class=argparse.RawDescriptionHelpFormatter)
    words.add_argument("league")
    words.add_argument("--patterns", action="store_true")
    words.add_argument("--bound", type=int)
    words.add_argument("--objective", action="store_true")
    words.add_argument("--keep", nargs=2)
    words.add_argument("--form", choices=["opb", "plain", "lp"], default="opb")
    words.add_argument("--season")
    said = words.parse_args()
    league = leagues.read_league(said.league)
    if said.season:
        with open(said.season, encoding="utf-8") as answer:
            sys.stdout.write(season(league, answer))
        return
    priced = None
    if said.bound is not None:
        count, found = rows.bound_rows(league, said.bound)
    elif said.objective:
        count, found, priced = rows.least_rows(league)
    elif said.keep:
        count, found = rows.resume_rows(league, leagues.read_season(said.keep[0]), int(said.keep[1]))
    else:
        count, found = rows.league_rows(league)
    if said.patterns:
        games = rows.Numbers(league).games
        found = [row for row in found if all(abs(lit) > games for _, lit in row[0])]
    write = {"opb": rows.opb, "plain": rows.plain_opb, "lp": rows.program}[said.form]
    sys.stdout.write(write(count, found, priced))


main()
