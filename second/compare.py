"""Compares robin with this second reading of the rules, on leagues drawn at random.

python3 second/compare.py PROGRAM [--seed N] [--rounds N] [--teams N] [--conflicts N]

PROGRAM is robin as it was built. Each round draws a league of up to so many teams, with constraints of all classes,
and compares: the report on seasons that are round robins and on lists that aren't; what `solve` says (a season is
judged, its trail taken backwards move by move, a log checked step by step here and by `robin check`); what `patterns`
says; what `explain` says (the log over the part's own rows, each season of a case); what `prove` and `resume` say
(a season and its objective, a certificate or log here and by `robin bound` and `robin audit`); and, for logs and
certificates with one number changed, the verdict of `robin check`, `bound` and `audit`.
"""

import argparse
import os
import random
import re
import subprocess
import sys
import tempfile

sys.path.insert(0, os.path.dirname(os.path.abspath(__file__)))
import leagues
import logs
import moves
import rows

GROUPS = {"C": "Capacity", "G": "Game", "B": "Break", "F": "Fairness", "S": "Separation"}


def run(program, *words):
    done = subprocess.run([program, *map(str, words)], capture_output=True, text=True)
    return done.returncode, done.stdout


def some(rng, items, most=None):
    items = list(items)
    count = rng.randint(1, min(len(items), most or len(items)))
    return sorted(rng.sample(items, count))


def drawn_class(rng, n):
    slots, teams = range(leagues.slots_of(n)), range(n)
    joined = lambda items: ";".join(map(str, items))
    bounds = {"max": rng.randint(0, 3), "min": rng.choice([0, 0, 0, 1, 2])}
    if rng.random() < 0.8:
        bounds["min"] = 0
    all_slots = joined(slots)
    name = rng.choice(["CA1", "CA2", "CA3", "CA4", "GA1", "BR1", "BR2", "FA2", "SE1"])
    side = rng.choice(["H", "A", "HA"])
    if name == "CA1":
        return name, {"teams": joined(some(rng, teams)), **bounds, "mode": side[0], "slots": joined(some(rng, slots))}
    two = {"teams1": joined(some(rng, teams)), "teams2": joined(some(rng, teams)), **bounds, "mode1": side}
    if name == "CA2":
        return name, {**two, "mode2": "GLOBAL", "slots": joined(some(rng, slots))}
    if name == "CA3":
        return name, {**two, "mode2": "SLOTS", "intp": rng.randint(1, len(slots) + 1)}
    if name == "CA4":
        return name, {**two, "mode2": rng.choice(["GLOBAL", "EVERY"]), "slots": joined(some(rng, slots))}
    if name == "GA1":
        all_pairs = [(i, j) for i in teams for j in teams if i != j]
        text = "".join(f"{i},{j};" for i, j in some(rng, all_pairs, 3))
        return name, {"meetings": text, **bounds, "slots": joined(some(rng, slots))}
    intp = rng.randint(0, 3)
    if name == "BR1":
        at = {"teams": joined(some(rng, teams)), "intp": intp, "mode1": "LEQ", "mode2": side}
        return name, {**at, "slots": all_slots}
    if name == "BR2":
        most = n * (n - 2)
        return name, {"teams": joined(teams), "intp": rng.randint(0, most), "mode2": "LEQ", "slots": all_slots}
    if name == "FA2":
        return name, {"teams": joined(some(rng, teams)), "intp": intp, "mode": "H", "slots": joined(some(rng, slots))}
    return name, {"teams": joined(some(rng, teams)), "min": rng.randint(0, len(slots)), "mode1": "SLOTS"}


def league_text(n, phased, classes):
    mode = "P" if phased else "NULL"
    teams = "".join(f'<team id="{i}"/>' for i in range(n))
    slots = "".join(f'<slot id="{s}"/>' for s in range(leagues.slots_of(n)))
    body = ""
    for name, at in classes:
        group = GROUPS[name[0]] + "Constraints"
        attributes = " ".join(f'{key}="{value}"' for key, value in at.items())
        body += f"<{group}><{name} {attributes}/></{group}>\n"
    return (
        f"<Instance><Structure><Format leagueIds='0'><numberRoundRobin>2</numberRoundRobin>"
        f"<compactness>C</compactness><gameMode>{mode}</gameMode></Format></Structure>"
        f"<Resources><Teams>{teams}</Teams><Slots>{slots}</Slots></Resources>"
        f"<Constraints>\n{body}</Constraints></Instance>\n"
    )


def season_text(games):
    lines = "".join(f'<ScheduledMatch home="{i}" away="{j}" slot="{s}"/>\n' for i, j, s in games)
    return f"<Solution><Games>\n{lines}</Games></Solution>\n"


class Round:
    def __init__(self, program, folder, rng, n, conflicts, say):
        self.program, self.folder, self.rng, self.conflicts, self.say = program, folder, rng, conflicts, say
        self.n, self.phased = n, rng.random() < 0.5
        self.circle = leagues.read_season(run(program, "circle", n)[1])
        self.classes = []
        for _ in range(rng.randint(0, 5)):
            name, at = drawn_class(rng, n)
            at["type"], at["penalty"] = rng.choice(["HARD", "SOFT"]), rng.randint(0, 12)
            self.classes.append((name, at))
        self.path = self.write("league.xml", league_text(n, self.phased, self.classes))
        self.league = leagues.read_league(self.path)
        self.counted = {}

    def write(self, name, text):
        path = os.path.join(self.folder, name)
        with open(path, "w", encoding="utf-8") as it:
            it.write(text)
        return path

    def must(self, what, is_so, *shown):
        self.counted[what] = self.counted.get(what, 0) + 1
        if not is_so:
            kept = os.path.join(tempfile.gettempdir(), "robin-differs.xml")
            os.replace(self.path, kept)
            print("DIFFERS", what, kept, *shown, file=self.say)
            raise SystemExit(1)

    def seasons(self):
        yield self.circle
        names = list(range(self.n))
        self.rng.shuffle(names)
        games = [(names[i], names[j], s) for i, j, s in self.circle]
        for _ in range(20):
            move = self.rng.choice(self.all_moves)
            games = moves.made(move, self.n, self.phased, games) or games
        yield games
        odd = list(games)
        for _ in range(self.rng.randint(1, 6)):
            k = self.rng.randrange(len(odd))
            i, j = self.rng.sample(range(self.n), 2)
            game = (i, j, self.rng.randrange(leagues.slots_of(self.n)))
            odd[k : k + self.rng.randint(0, 1)] = [self.rng.choice([game, odd[k]])] * self.rng.randint(0, 2)
            odd = odd or [game]
        yield odd

    def judge(self):
        self.all_moves = list(moves.neighbours(self.n))
        for games in self.seasons():
            path = self.write("season.xml", season_text(games))
            status, text = run(self.program, "validate", self.path, path)
            own = leagues.report(self.league, games)
            self.must("report", text == own, text, own)
            self.must("status of validate", status == (0 if leagues.is_accepted(self.league, games) else 1))

    def solve(self):
        options = ["--conflicts", self.conflicts, "--moves", self.rng.choice([0, 5, 10000])]
        status, text = run(self.program, "solve", self.path, *options)
        self.must(f"solve ended with {status}", status in (0, 4, 5), status, text)
        if status == 0:
            self.season(text)
        else:
            self.log(status, text, *rows.league_rows(self.league))

    def season(self, text):
        games = leagues.read_season(text)
        self.must("season accepted", leagues.is_accepted(self.league, games), text)
        infeasibility, objective = map(int, re.search(r'ility="(\d+)" objective="(\d+)"', text).groups())
        self.must("objective", (infeasibility, objective) == leagues.sums(self.league, games), text)
        first, count, settled = re.search(r"descent first=(\d+) moves=(\d+) settled=(\w+)", text).groups()
        trail = re.findall(r"<!-- move (\w+) ([\d ]+) -->", text)
        self.must("length of the trail", len(trail) == int(count))
        now, score = games, objective
        for kind, numbers in reversed(trail):
            now = moves.made((kind, *map(int, numbers.split())), self.n, self.phased, now)
            self.must("move taken back", now is not None, kind, numbers)
            hard, soft = leagues.sums(self.league, now)
            self.must("accepted on the way", leagues.is_accepted(self.league, now) and hard == 0)
            self.must("move lowers", soft > score, kind, numbers)
            score = soft
        self.must("first objective", score == int(first), text)
        if settled == "yes" and self.n <= 8:
            for move in self.all_moves:
                after = moves.made(move, self.n, self.phased, games)
                if after is not None and leagues.is_accepted(self.league, after):
                    self.must("no better neighbour", leagues.sums(self.league, after)[1] >= objective, move)

    def log(self, status, text, count, own_rows):
        steps = logs.read_log(text)
        verdict = logs.check(count, own_rows, steps)
        path = self.write("log", text)
        answer = run(self.program, "check", self.path, path)
        self.must("verdict", answer == (0 if verdict.startswith("accepted") else 1, verdict + "\n"), answer, verdict)
        spent = f"rejected step {len(steps)} cause NoEmptyClause"
        self.must("log proves", verdict == (spent if status == 5 else f"accepted steps {len(steps)}"), verdict)
        for _ in range(6):
            self.changed_log(text, count, own_rows)

    def changed_log(self, text, count, own_rows):
        found = list(re.finditer(r"(?<= )[1-9]\d*(?= )", text))
        if not found:
            return
        at = self.rng.choice(found)
        other = self.rng.choice([int(at[0]) + 1, self.rng.randint(1, len(own_rows)), max(int(at[0]) - 1, 1)])
        changed = text[: at.start()] + str(other) + text[at.end() :]
        verdict = logs.check(count, own_rows, logs.read_log(changed))
        answer = run(self.program, "check", self.path, self.write("log", changed))[1]
        self.must("verdict of a changed log", answer == verdict + "\n", answer, verdict)

    def patterns(self):
        status, text = run(self.program, "patterns", self.path, "--conflicts", self.conflicts)
        self.must(f"patterns ended with {status}", status in (0, 4, 5), status, text)
        v = rows.Numbers(self.league)
        count, own_rows = rows.league_rows(self.league)
        if status:
            return self.log(status, text, count, own_rows)
        letters = [line.split(" ")[1] for line in text.splitlines()]
        values = {}
        for i in range(self.n):
            for s in range(v.slots):
                values[v.h(i, s)] = letters[i][s] == "H"
                if v.has_breaks and s:
                    pair = letters[i][s - 1 : s + 1]
                    values[v.hb(i, s)], values[v.ab(i, s)] = pair == "HH", pair == "AA"
        for terms, degree in own_rows:
            if all(abs(lit) > v.games for _, lit in terms):
                self.must("pattern row", logs.reach(terms, values) >= degree, terms, degree)


    def explain(self):
        status, text = run(self.program, "explain", self.path, "--conflicts", self.conflicts)
        self.must(f"explain ended with {status}", status in (0, 4, 5), status, text)
        if status == 0:
            games = leagues.read_season(text)
            self.must("explained season", leagues.is_accepted(self.league, games), text)
        elif status == 5:
            verdict = logs.check(*rows.league_rows(self.league), logs.read_log(text))
            self.must("explained as spent", verdict.endswith("NoEmptyClause"), verdict)
        else:
            self.conflict(text)

    def asked(self, *words):
        return run(self.program, *words, "--conflicts", self.conflicts)

    def better(self):
        """From the circle method's season, or one that is found, by what `prove` says to its end."""
        status, text = self.asked("solve", self.path)
        if status != 0:
            return
        games, softened = leagues.read_season(text), rows.softened_rows(self.league)
        for _ in range(200):
            path = self.write("season.xml", season_text(games))
            objective = leagues.sums(self.league, games)[1]
            status, text = self.asked("prove", self.path, path)
            self.must(f"prove ended with {status}", status in (0, 5, 9), status, text)
            if status != 9:
                break
            games = leagues.read_season(text)
            now = leagues.sums(self.league, games)[1]
            self.must("better", leagues.is_accepted(self.league, games) and now < objective, now, objective)
            told = int(re.search(r'objective="(\d+)"', text)[1])
            self.must("better objective", now == told, now, told)
        if status == 5:
            first, bound, rest = text.split("\n", 2)
            self.must("objective line", first == f"objective {objective}", first, objective)
            if bound != "bound 0":
                floor, rest = rest.split("\nend\n", 1)
                verdict = logs.check(*rows.with_bound(softened, int(bound.split()[1]) - 1), logs.read_log(floor + "\nend\n"))
                self.must("floor", verdict.startswith("accepted"), bound, verdict)
            verdict = logs.check(*rows.with_bound(softened, objective - 1), logs.read_log(rest))
            self.must("prove as spent", objective and verdict.endswith("NoEmptyClause"), verdict)
        else:
            self.certificate(text, objective, softened)

    def certificate(self, text, objective, softened):
        first, rest = text.split("\n", 1)
        self.must("bound line", first == f"bound {objective}" and bool(rest) == (objective > 0), first, objective)
        for bound, log in [(objective, rest), *[self.changed(objective, rest) for _ in range(6 if rest else 0)]]:
            path = self.write("certificate", f"bound {bound}\n{log if bound else ''}")
            answer = run(self.program, "bound", self.path, path)
            steps = logs.read_log(log) if bound else []
            verdict = logs.check(*rows.with_bound(softened, bound - 1), steps) if bound else "accepted steps 0"
            verdict = verdict.replace("accepted", f"accepted bound {bound}")
            is_same = answer == (0 if verdict[0] == "a" else 1, verdict + "\n")
            self.must("verdict on a certificate", is_same, answer, verdict)
            if (bound, log) == (objective, rest):
                self.must("certificate accepted", verdict[0] == "a", verdict)

    def changed(self, number, log):
        """A log with one number changed, or the number beside it."""
        found = list(re.finditer(r"(?<= )[1-9]\d*(?= )", log))
        if self.rng.random() < 0.3 or not found:
            return max(number + self.rng.choice([-2, -1, 1, 2]), 0), log
        at = self.rng.choice(found)
        other = self.rng.choice([int(at[0]) + 1, self.rng.randint(1, 400), max(int(at[0]) - 1, 1)])
        return number, log[: at.start()] + str(other) + log[at.end() :]

    def resumed(self):
        """A season by the circle method or by moves from it, kept up to a slot; games may stand twice, or one lack."""
        games = self.rng.choice(list(self.seasons())[:2])
        if self.rng.random() < 0.2:
            games = games + self.rng.sample(games, 2)
        if self.rng.random() < 0.1:
            games = games[1:]
        k = self.rng.randint(0, leagues.slots_of(self.n))
        path = self.write("played.xml", season_text(games))
        status, text = self.asked("resume", self.path, path, k)
        self.must(f"resume ended with {status}", status in (0, 4, 5), status, text)
        if status == 0:
            found = leagues.read_season(text)
            early = lambda of: {it for it in of if it[2] < k}
            is_kept = early(found) == early(games)
            self.must("resumed season", leagues.is_accepted(self.league, found) and is_kept, k, text)
            told = int(re.search(r'objective="(\d+)"', text)[1])
            self.must("resumed objective", told == leagues.sums(self.league, found)[1], told)
            return
        for upto, log in [(k, text), *[self.changed(k, text) for _ in range(6)]]:
            answer = run(self.program, "audit", self.path, path, upto, self.write("log", log))
            if upto > leagues.slots_of(self.n):
                self.must("slot", answer == (3, f"refused slot {upto}\n"), answer)
                continue
            verdict = logs.check(*rows.resume_rows(self.league, games, upto), logs.read_log(log))
            self.must("verdict of audit", answer == (0 if verdict[0] == "a" else 1, verdict + "\n"), answer, verdict)
            if (upto, log) == (k, text):
                proves = verdict[0] == "a" if status == 4 else verdict.endswith("NoEmptyClause")
                self.must("resume proves" if status == 4 else "resume as spent", proves, verdict)

    def conflict(self, text):
        first, second, rest = text.split("\n", 2)
        members = [int(word) for word in first.split(" ")[1:]]
        log, rest = rest.split("\nend\n", 1)
        alone = rows.part(self.league, members)
        verdict = logs.check(*rows.league_rows(alone), logs.read_log(log + "\nend\n"))
        self.must("log of a conflict", members and verdict.startswith("accepted"), members, verdict)
        self.must("members are hard", all(self.league.constraints[k - 1].hard for k in members), members)
        path = self.write("part.xml", run(self.program, "part", self.path, ";".join(map(str, members)))[1])
        written = leagues.read_league(path)
        kinds = lambda it: [(c.name, c.hard, c.penalty) for c in it.constraints]
        is_same = kinds(written) == kinds(alone) and rows.league_rows(written) == rows.league_rows(alone)
        self.must("part", is_same and written.phased == alone.phased, members)
        told = run(self.program, "check", path, self.write("log", log + "\nend\n"))
        self.must("log of a conflict by check", told[0] == 0, told)
        cases = re.findall(r"^(without|undecided) (\d+)$", rest, re.MULTILINE)
        self.must("a case for each", [int(k) for _, k in cases] == members, cases, members)
        decided = all(kind == "without" for kind, _ in cases)
        self.must("minimal", second == ("minimal yes" if decided else "minimal no"), second, cases)
        seasons = re.findall(r"^without (\d+)\n(<\?xml.*?</Solution>)", rest, re.MULTILINE | re.DOTALL)
        for k, season in seasons:
            others = rows.part(self.league, [it for it in members if it != int(k)])
            self.must("season without a member", leagues.is_accepted(others, leagues.read_season(season)), k)


def main():
    words = argparse.ArgumentParser(description=__doc__, formatter_class=argparse.RawDescriptionHelpFormatter)
    words.add_argument("program")
    words.add_argument("--seed", type=int, default=0)
    words.add_argument("--rounds", type=int, default=100)
    words.add_argument("--teams", type=int, default=6)
    words.add_argument("--conflicts", default="200")
    said = words.parse_args()
    rng, total = random.Random(said.seed), {}
    with tempfile.TemporaryDirectory() as folder:
        for _ in range(said.rounds):
            n = rng.choice(range(2, said.teams + 1, 2))
            it = Round(said.program, folder, rng, n, said.conflicts, sys.stderr)
            it.judge()
            it.solve()
            it.patterns()
            it.explain()
            it.better()
            it.resumed()
            for what, count in it.counted.items():
                total[what] = total.get(what, 0) + count
    for what in sorted(total):
        print(f"{total[what]:8} {what}")


if __name__ == "__main__":
    main()
