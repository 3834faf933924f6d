"""Compares the moves of a transcript with this second reading of the rules.

python3 second/boards.py [TRANSCRIPT]

TRANSCRIPT is what `example_calls` prints (crates/example_calls/stdout, which the gate compares with what it prints).
Said once more here, from the rules in words: the season of the circle method, whether each worked move is legal, which
games it takes out and puts in, and how many moves of boards of two to eight teams there are and are legal, on the
circle method's season and ten moves away from it. The games of an edit are compared without their order.
"""

import os
import sys
from collections import Counter

sys.path.insert(0, os.path.dirname(os.path.abspath(__file__)))
import moves

TOP = os.path.dirname(os.path.dirname(os.path.abspath(__file__)))
WORKED = ["HomeSwap 0 3", "RoundSwap 2 3", "RoundSwap 0 3", "TeamSwap 1 2", "PartRoundSwap 0 1 4"]
WORKED += ["PartRoundSwap 0 0 4", "PartTeamSwap 0 3 0", "PartTeamSwap 0 1 0"]


def circle(n):
    """The double season of the circle method."""
    first = []
    for s in range(n - 1):
        first.append((n - 1, s, s) if s % 2 == 0 else (s, n - 1, s))
        for k in range(1, n // 2):
            ahead, behind = (s + k) % (n - 1), (s - k) % (n - 1)
            first.append((ahead, behind, s) if k % 2 else (behind, ahead, s))
    return first + [(j, i, s + n - 1) for i, j, s in first]


def league(n, phased):
    """The file of a league of n teams without constraints."""
    return f"{'phased' if phased else 'free'}-{n}.xml"


def worked(phased):
    """The worked moves of four teams: a line for each, and for each game of its edit."""
    season = circle(4)
    for name in WORKED:
        kind, *numbers = name.split(" ")
        after = moves.made((kind, *map(int, numbers)), 4, phased, season)
        asked = f"{league(4, phased)}: edit {name}"
        if after is None:
            yield asked, ["  not legal"]
            continue
        out, into = Counter(season) - Counter(after), Counter(after) - Counter(season)
        games = [("out", it) for it in out.elements()] + [("into", it) for it in into.elements()]
        yield asked, sorted(["  legal"] + ["  %s %d %d %d" % (where, *it) for where, it in games])


def counted(n, phased, season):
    """How many moves there are and how many are legal."""
    legal = [move for move in moves.neighbours(n) if moves.made(move, n, phased, season) is not None]
    return [f"  {len(list(moves.neighbours(n)))} moves, {len(legal)} legal, 0 astray"]


def ten_on(n, phased):
    """The season that ten moves lead to: at step k the first legal one from place 53 k on."""
    season, all_moves = circle(n), list(moves.neighbours(n))
    for k in range(10):
        tried = (moves.made(move, n, phased, season) for move in all_moves[53 * k % len(all_moves) :])
        season = next((after for after in tried if after is not None), season)
    return season


def own():
    """The lines of moves and of all moves."""
    for phased in [True, False]:
        yield from worked(phased)
    for phased in [True, False]:
        for n in [2, 4, 6, 8]:
            yield f"{league(n, phased)}: walked 0", counted(n, phased, circle(n))
    for phased in [True, False]:
        for n in [4, 6, 8]:
            yield f"{league(n, phased)}: walked 10", counted(n, phased, ten_on(n, phased))


def read(path):
    """The transcript's lines of moves and of all moves, each with what is answered to it."""
    found = []
    for line in open(path, encoding="utf-8").read().splitlines():
        if line.startswith("  "):
            found[-1][1].append(line)
        else:
            found.append((line, []))
    return [(line, sorted(told)) for line, told in found if ": edit " in line or ": walked " in line]


def main():
    path = sys.argv[1] if len(sys.argv) > 1 else os.path.join(TOP, "crates/example_calls/stdout")
    told, mine = read(path), list(own())
    wrong = [pair for pair in zip(told, mine) if pair[0] != pair[1]]
    for theirs, ours in wrong:
        print("DIFFERS", theirs, ours)
    games = sum(line.startswith(("  out", "  into")) for _, answers in mine for line in answers)
    print(f"{len(mine)} lines and {games} games, {len(wrong) + abs(len(told) - len(mine))} differences")
    raise SystemExit(1 if wrong or len(told) != len(mine) else 0)


main()
