"""Writes a solution file of games drawn at random, which is no season: many games share a slot.

python3 bench/crowded.py TEAMS GAMES SEED [SLOT]

Each of so many games is between two different teams, in any slot of the season, or in SLOT alone.
"""

import random
import sys

teams, games, seed = map(int, sys.argv[1:4])
slots = [int(sys.argv[4])] if len(sys.argv) > 4 else range(2 * (teams - 1))
draw = random.Random(seed)
print("<Solution><Games>")
for _ in range(games):
    home, away = draw.sample(range(teams), 2)
    print(f'<ScheduledMatch home="{home}" away="{away}" slot="{draw.choice(slots)}"/>')
print("</Games></Solution>")
