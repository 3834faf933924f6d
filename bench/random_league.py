"""python3 bench/random_league.py SEED [few]: a league of six teams with random hard constraints: one to four of any class,
as second/solvers.py draws them. With `few`: at most 8 to 12 breaks in two phases, and a few constraints that a
competition has."""

import os
import random
import sys

sys.path.insert(0, os.path.join(os.path.dirname(os.path.abspath(__file__)), "..", "second"))
import compare

TEAMS, SLOTS = range(6), range(10)


def joined(items):
    return ";".join(map(str, items))


def of_any_class(rng):
    return [compare.drawn_class(rng, 6) for _ in range(rng.randint(1, 4))], rng.random() < 0.5


def pinned(rng):
    first, second = rng.sample(TEAMS, 2)
    meetings = f"{first},{second};{second},{first};"
    return "GA1", {"meetings": meetings, "min": rng.randint(0, 1), "max": 1, "slots": joined(rng.sample(SLOTS, 3))}


def closed(rng):
    slots = sorted(rng.sample(SLOTS, 4))
    return "CA1", {"teams": rng.choice(TEAMS), "min": 0, "max": 1, "mode": rng.choice("HA"), "slots": joined(slots)}


def of_few_breaks(rng):
    most = rng.choice([8, 8, 9, 10, 12])
    found = [("BR2", {"teams": joined(TEAMS), "intp": most, "mode2": "LEQ", "slots": joined(SLOTS)})]
    found += [pinned(rng) for _ in range(rng.randint(1, 3))]
    found += [closed(rng) for _ in range(rng.randint(1, 3))]
    if rng.random() < 0.7:
        found.append(("SE1", {"teams": joined(TEAMS), "min": rng.choice([3, 4, 5]), "mode1": "SLOTS"}))
    if rng.random() < 0.5:
        top = joined(rng.sample(TEAMS, 3))
        bounds = {"min": 0, "max": 2, "mode1": "HA", "mode2": "SLOTS", "intp": 4}
        found.append(("CA3", {"teams1": joined(TEAMS), "teams2": top, **bounds}))
    return found, True


def main():
    rng = random.Random(int(sys.argv[1]))
    classes, phased = of_few_breaks(rng) if "few" in sys.argv[2:] else of_any_class(rng)
    hard = [(name, {**at, "type": "HARD", "penalty": 1}) for name, at in classes]
    print(compare.league_text(6, phased, hard), end="")


main()
