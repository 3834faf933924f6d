"""What `show` writes: the grid of a season, what it lacks of a double round robin and what it misses, in words; or what a league demands.

    python3 second/shown.py INSTANCE SOLUTION [--form text|csv] [--most N] [--width N]
    python3 second/shown.py INSTANCE --demands [LIST]
    python3 second/shown.py --rounds 2000 PROGRAM [--seed N]      random leagues, on which PROGRAM writes the same bytes

Written from the rules in words, without a look at the Rattle code. Games are in order of slot, home team and away team.
"""

import argparse
import os
import random
import subprocess
import sys
import tempfile
from itertools import combinations

from compare import drawn_class, league_text, season_text
from forms import Fault, read_solution
from leagues import Counts, is_accepted, slots_of, structure, sums, vector
from reasons import Words, many, reasons, row
from show import Season, labels_of, read_named

VENUES = {"H": "at home", "A": "away"}


def count(k):
    return str(k) if k else "none"


def beyond(at, found):
    few, much = max(at["min"] - found, 0), max(found - at["max"], 0)
    return f"{few} too few" if much <= few else f"{much} too many"


class Told:
    """The lines on what a season misses."""

    def __init__(self, league, labels, games, most):
        self.league, self.labels, self.games, self.most = league, labels, sorted(games, key=lambda g: (g[2], g[:2])), most
        self.words = Words(labels)

    def game(self, g):
        return f"{self.labels[g[0]]} - {self.labels[g[1]]} ({g[2]})"

    def list(self, games):
        return ", ".join(map(self.game, games))

    def after(self, games):
        return f": {self.list(games)}" if games else ""

    def cut(self, lines, front, back):
        more = len(lines) - self.most
        return [front + line for line in lines[: self.most]] + ([f"{front}and {more}{back}"] if more > 0 else [])

    def stretch(self, first, length):
        if length == slots_of(self.league.n):
            return "the whole season"
        return "slot" + ("s" if length > 1 else "") + " " + {
            1: f"{first}", 2: f"{first} and {first + 1}"
        }.get(length, f"{first} to {first + length - 1}")

    def windows(self, found):
        """The reasons of CA3 with how many go on from each: the next window of the same key with the same games."""
        rows = []
        for it in found:
            last = rows[-1] if rows else None
            if last and last[0].key == it.key and last[0].where + last[1] == it.where and last[0].games == it.games:
                last[1] += 1
            else:
                rows.append([it, 1])
        return rows

    def window(self, at, it, often):
        runs = f" in each of {often} runs of {many(at['intp'], 'slot')}" if often > 1 else ""
        where = self.stretch(it.where, often - 1 + at["intp"])
        who = self.labels[at["teams1"][it.key]]
        return f"{who} has {count(len(it.games))} in {where}, {beyond(at, len(it.games))}{runs}{self.after(it.games)}"

    def there(self, at, it, where=""):
        k = len(it.games)
        return f"there {'is' if k < 2 else 'are'} {count(k)}{where}, {beyond(at, k)}{self.after(it.games)}"

    def lead(self, at, it):
        i, j = list(combinations(at["teams"], 2))[it.key]
        (one, mine), (other, fewer) = (i, it.games[0]), (j, it.games[1])
        if len(mine) <= len(fewer):
            (one, mine), (other, fewer) = (other, fewer), (one, mine)
        apart = len(mine) - len(fewer)
        text = f"after slot {it.where} {self.labels[one]} has {many(len(mine), 'home game')} and {self.labels[other]} "
        text += f"{count(len(fewer))}, {apart} apart, {apart - at['intp']} too many"
        each = [f"{self.labels[t]} in {row([str(g[2]) for g in its])}" for t, its in ((one, mine), (other, fewer)) if its]
        return f"{text}: {'; '.join(each)}"

    def gap(self, at, it):
        i, j = list(combinations(at["teams"], 2))[it.key]
        (*_, s), (*_, t) = it.games
        between = max(t - s - 1, 0)
        text = f"{self.labels[i]} and {self.labels[j]} meet in slots {s} and {t}, {many(between, 'slot')} between"
        return f"{text}, {at['min'] - between} too few: {self.list(it.games)}"

    def breaks(self, at, it):
        each = "; ".join(f"{VENUES[side]} {self.list(games)}" for _, side, _, games in it.games)
        return f"{self.labels[at['teams'][it.key]]} has {len(it.games)}, {len(it.games) - at['intp']} too many: {each}"

    def all_breaks(self, at, it):
        k = len(it.games)
        yield f"  there {'is' if k < 2 else 'are'} {count(k)}, {k - at['intp']} too many"
        by_team = []
        for team in at["teams"]:
            its = [f"{VENUES[side]} ({s})" for i, side, s, _ in it.games if i == team]
            by_team += [f"{self.labels[team]} {', '.join(its)}"] if its else []
        yield from self.cut(by_team, "    ", " teams more")

    def lines(self, constraint):
        name, at, found = constraint.name, constraint.at, reasons(self.league.n, constraint, self.games)
        if name == "BR2":
            return [line for it in found for line in self.all_breaks(at, it)]
        if name in ("CA1", "CA2"):
            teams = at["teams" if name == "CA1" else "teams1"]
            each = [f"{self.labels[teams[it.key]]} has {count(len(it.games))}, {beyond(at, len(it.games))}{self.after(it.games)}" for it in found]
        elif name == "CA3":
            each = [self.window(at, it, often) for it, often in self.windows(found)]
        elif name == "CA4" and at["mode2"] == "EVERY":
            each = [self.there(at, it, f" in slot {at['slots'][it.key]}") for it in found]
        elif name in ("CA4", "GA1"):
            each = [self.there(at, it) for it in found]
        else:
            each = [{"BR1": self.breaks, "FA2": self.lead, "SE1": self.gap}[name](at, it) for it in found]
        return self.cut(each, "  ", " more")

    def lacks(self):
        """What the season lacks of a double round robin."""
        n, slots = self.league.n, slots_of(self.league.n)
        lines = []

        def unless_one(place, found, unit):
            if len(found) != 1:
                lines.append(f"{place}: " + (f"{len(found)} {unit}, {self.list(found)}" if found else "no game"))

        for i in range(n):
            for j in range(n):
                if i != j:
                    place = f"{self.labels[i]} at home to {self.labels[j]}"
                    unless_one(place, [g for g in self.games if g[:2] == (i, j)], "times")
        for i in range(n):
            for s in range(slots):
                unless_one(f"{self.labels[i]} in slot {s}", [g for g in self.games if g[2] == s and i in g[:2]], "games")
        for i, j in combinations(range(n), 2) if self.league.phased else ():
            early = [g for g in self.games if {i, j} == set(g[:2]) and g[2] < n - 1]
            unless_one(f"{self.labels[i]} and {self.labels[j]} in the first half", early, "games")
        return ["no double round robin:", *self.cut(lines, "  ", " more"), ""] if lines else []

    def missed(self):
        counts = Counts(self.league.n, self.games)
        found = []
        for number, it in enumerate(self.league.constraints, 1):
            deviation = sum(vector(it, counts))
            if deviation:
                found.append((not it.hard, -deviation * it.penalty, number, deviation, it))
        found.sort(key=lambda one: one[:3])
        hard = sum(it.hard for *_, it in found)
        yield f"missed: {hard} hard and {len(found) - hard} soft of {many(len(self.league.constraints), 'constraint')}"
        for _, cost, number, deviation, it in found[: self.most]:
            yield f"{self.words.line(number, it)}; missed by {deviation}, costs {-cost}"
            yield from self.lines(it)
        if len(found) > self.most:
            yield f"and {len(found) - self.most} more"


def shown(instance, solution, form="text", most=20, width=80):
    """The text, and whether the season is accepted."""
    league, teams, slots = read_named(instance)
    games = read_solution(solution, league.n)
    season, accepted = Season(league, teams, slots, games), is_accepted(league, games)
    if form == "csv":
        return season.csv(), accepted
    told = Told(league, labels_of(teams), games, most)
    infeasible, objective = sums(league, games)
    lines = ["", *told.lacks(), *told.missed(), "", "structure pairs %d cells %d phases %d" % structure(league, games)]
    lines += [f"infeasibility {infeasible}", f"objective {objective}", f"feasible {'yes' if accepted else 'no'}"]
    return season.grid(width) + "".join(line + "\n" for line in lines), accepted


def demanded(instance, numbers=None):
    """What the constraints demand, or those with some numbers: the hard ones first. And the status."""
    league, teams, _ = read_named(instance)
    numbers = range(1, len(league.constraints) + 1) if numbers is None else numbers
    for number in numbers:
        if number > len(league.constraints):
            return f"refused constraint {number} Unknown\n", 3
    words, wanted = Words(labels_of(teams)), [(number, league.constraints[number - 1]) for number in numbers]
    lines = [words.line(number, it) for hard in (True, False) for number, it in wanted if it.hard == hard]
    return "".join(line + "\n" for line in lines), 0


# ---- random leagues

NAMES = ["Ajax", "Brug", "Club", "Dam", "=1+1", "@x", "A, B", 'the "old"', "Zo\u00eb", "&amp;lt;", "\u202eabc", "\u05d0\u05d1", "", " x ", "A" * 45,
         "\u65e5\u672c", "-", "&#27;[2J", "O&apos;Neill", "tab\there", "Ajax"]


def drawn_games(rng, n):
    slots = slots_of(n)
    kind = rng.random()
    if kind < 0.4:
        teams = list(range(n))
        rng.shuffle(teams)
        games = []
        for s in range(n - 1):
            ring = [teams[0]] + [teams[1 + (k + s) % (n - 1)] for k in range(n - 1)]
            for k in range(n // 2):
                pair = (ring[k], ring[-1 - k])[:: 1 if (k + s) % 2 else -1]
                games += [(*pair, s), (pair[1], pair[0], s + n - 1)]
        if kind < 0.2:
            return games
        for _ in range(rng.randint(1, 4)):
            games[rng.randrange(len(games))] = (*rng.sample(range(n), 2), rng.randrange(slots))
        return games
    games = [(*rng.sample(range(n), 2), rng.randrange(slots)) for _ in range(rng.randrange(n * n + 2))]
    return games + rng.choices(games, k=rng.randrange(12)) if games else games


def named(rng, text, n):
    """The file with names of teams and slots."""
    for kind, how_many in (("team", n), ("slot", slots_of(n))):
        for k in range(how_many):
            if rng.random() < 0.6:
                value = rng.choice(NAMES) if kind == "team" or rng.random() < 0.3 else f"Slot {k}"
                name = rng.choice(["name", "name", "publicName"])
                quoted = value.replace('"', "&quot;").replace("<", "&lt;")
                text = text.replace(f'<{kind} id="{k}"/>', f'<{kind} id="{k}" {name}="{quoted}"/>')
    return text


def demands_differ(program, rng, path, instance):
    """Whether the program says something else of what a league demands, and which words it had."""
    numbers = None if rng.random() < 0.4 else sorted(rng.sample(range(1, 11), rng.randint(1, 4)))
    words = ["show", path, "--demands"] + ([";".join(map(str, numbers))] if numbers else [])
    done = subprocess.run([program, *words], capture_output=True)
    text, status = demanded(instance, numbers)
    return (done.stdout, done.returncode) != (text.encode(), status), words


def compared(program, rounds, seed):
    rng, counted = random.Random(seed), [0, 0]
    with tempfile.TemporaryDirectory() as folder:
        paths = [os.path.join(folder, name) for name in ("league.xml", "season.xml")]
        for k in range(rounds):
            n = rng.choice([2, 4, 4, 6, 6, 8, 10, 12])
            classes = [drawn_class(rng, n) for _ in range(rng.randrange(9))]
            for _, at in classes:
                at["type"], at["penalty"] = rng.choice(["HARD", "SOFT"]), rng.randint(0, 12)
            files = [named(rng, league_text(n, rng.random() < 0.5, classes), n), season_text(drawn_games(rng, n))]
            for path, text in zip(paths, files):
                with open(path, "w", encoding="utf-8", newline="") as file:
                    file.write(text)
            differ, words = demands_differ(program, rng, paths[0], files[0].encode())
            if differ:
                with open("/tmp/robin-demands.xml", "w", encoding="utf-8", newline="") as file:
                    file.write(files[0])
                sys.exit(f"DIFFERS in round {k}: /tmp/robin-demands.xml, {' '.join(words)}")
            options = {"form": rng.choice(["text"] * 4 + ["csv"]), "most": rng.choice([0, 1, 2, 5, 20, 20, 2**32 - 1])}
            options["width"] = rng.choice([0, 20, 40, 80, 80, 200])
            words = [word for key, value in options.items() for word in (f"--{key}", str(value).replace(str(2**32 - 1), "all"))]
            done = subprocess.run([program, "show", *paths, *words], capture_output=True)
            text, accepted = shown(*(it.encode() for it in files), **options)
            if done.stdout != text.encode() or done.returncode != (0 if accepted else 1):
                kept = tempfile.mkdtemp(prefix="robin-show-")
                for path, it in zip(("league.xml", "season.xml", "wanted"), [*files, text]):
                    with open(os.path.join(kept, path), "w", encoding="utf-8", newline="") as file:
                        file.write(it)
                sys.exit(f"DIFFERS in round {k}: {kept} {' '.join(words)}, status {done.returncode}")
            counted[accepted] += 1
    print(f"{rounds} leagues, no difference: {counted[1]} seasons accepted, {counted[0]} not")


def main():
    parser = argparse.ArgumentParser(description=__doc__, formatter_class=argparse.RawDescriptionHelpFormatter)
    parser.add_argument("files", nargs="+")
    parser.add_argument("--form", choices=("text", "csv"), default="text")
    parser.add_argument("--most", type=int, default=20)
    parser.add_argument("--width", type=int, default=80)
    parser.add_argument("--demands", nargs="?", const="")
    parser.add_argument("--rounds", type=int)
    parser.add_argument("--seed", type=int, default=1)
    options = parser.parse_args()
    if options.rounds:
        compared(options.files[0], options.rounds, options.seed)
        return
    if options.demands is not None:
        numbers = [int(k) for k in options.demands.split(";")] if options.demands else None
        text, status = demanded(open(options.files[0], "rb").read(), numbers)
        sys.stdout.buffer.write(text.encode())
        sys.exit(status)
    instance, solution = (open(path, "rb").read() for path in options.files)
    try:
        text, accepted = shown(instance, solution, options.form, options.most, options.width)
    except Fault as fault:
        sys.exit(f"{fault.kind} line {fault.line}")
    sys.stdout.buffer.write(text.encode())
    sys.exit(0 if accepted else 1)


if __name__ == "__main__":
    main()
