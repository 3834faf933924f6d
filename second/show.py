"""A season as a grid of teams by slots, and for a spreadsheet, with the names of an instance file.

    python3 second/show.py INSTANCE SOLUTION [--form text|csv] [--width N]

Written from the rules in words, without a look at the Rattle code. Slow and plain.
"""

import argparse
import sys
from collections import Counter

from forms import Fault, InstanceReader, read_solution
from leagues import Counts, slots_of

# ---- names

LONGEST, BEFORE_DOTS, IN_GRID = 40, 37, 20
ENTITIES = {b"&lt;": b"<", b"&gt;": b">", b"&quot;": b'"', b"&apos;": b"'", b"&amp;": b"&"}
UNPRINTED = [range(0x20), range(0x7F, 0xA0), [0xAD], [0x61C], range(0x180B, 0x1810), range(0x200B, 0x2010)]
UNPRINTED += [range(0x2028, 0x202F), range(0x2060, 0x2070), range(0xFE00, 0xFE10), [0xFEFF], range(0xFFF0, 0x10000)]
UNPRINTED += [range(0x1D173, 0x1D17B), range(0xE0000, 0x110000)]


def expanded(value):
    """The value with the five entities of XML expanded, once, from left to right."""
    out = bytearray()
    while value:
        found = next((name for name in ENTITIES if value.startswith(name)), None)
        out += ENTITIES[found] if found else value[:1]
        value = value[len(found) :] if found else value[1:]
        if b"&" not in value:
            return bytes(out) + value
    return bytes(out)


def plain(value):
    """The name that a value is, as it is printed."""
    text = expanded(value).strip(b" \t\r\n").decode("utf-8", "replace")
    text = "".join(" " if c in "\t\r\n" else "?" if any(ord(c) in it for it in UNPRINTED) else c for c in text)
    return text if len(text) <= LONGEST else text[:BEFORE_DOTS] + "..."


class NamesReader(InstanceReader):
    """The walk over an instance file that keeps the attributes of teams and slots."""

    def __init__(self, text):
        super().__init__(text)
        self.tags = {b"team": {}, b"slot": {}}

    def close(self, piece):
        super().close(piece)
        if piece.name in self.tags:
            self.tags[piece.name][int(piece.at[b"id"])] = piece.at


def names_of(tags, count):
    """The names by number: the public one, or else the other; empty where there is none."""
    values = [[tags[i].get(key, b"") for key in (b"publicName", b"name")] for i in range(count)]
    return [plain(public) or plain(name) for public, name in values]


def labels_of(teams):
    """What each team is called in sentences."""
    shown = [name or f"team {i}" for i, name in enumerate(teams)]
    return shown if len(set(shown)) == len(shown) else [f"#{i} {name}" for i, name in enumerate(shown)]


def read_named(text):
    """The league of an instance file, the names of its teams, and those of its slots."""
    reader = NamesReader(text)
    league = reader.league()
    return league, names_of(reader.tags[b"team"], league.n), names_of(reader.tags[b"slot"], slots_of(league.n))


# ---- the grid


def blocks(n, room):
    """The slots of each block: the season in one, or else each half in as few blocks as it takes, of one width."""
    half = n - 1
    if 2 * half <= room:
        return [list(range(2 * half))]
    count = (half + room - 1) // room
    size = (half + count - 1) // count
    places = range(0, half, size)
    return [list(range(at + first, at + min(first + size, half))) for at in (0, half) for first in places]


def longest_run(flags):
    """The most in a row."""
    return max((len(run) for run in "".join("x" if it else " " for it in flags).split()), default=0)


class Season:
    """A league's games with its names."""

    def __init__(self, league, teams, slots, games):
        self.league, self.teams, self.slots, self.games = league, teams, slots, sorted(games, key=lambda g: (g[2], g[:2]))
        self.counts, self.digits = Counts(league.n, games), len(str(league.n - 1))
        self.early = Counter(frozenset(g[:2]) for g in games if g[2] < league.n - 1)
        wide = max(len(name[:IN_GRID]) for name in teams)
        self.front = max(4, self.digits + (wide + 1 if wide else 0)) + 1

    def head(self, i):
        return f"{i:>{self.digits}} {self.teams[i][:IN_GRID]}".rstrip(" ").ljust(self.front)

    def cell(self, i, s):
        """The game of a team in a slot, or how many it has, with a mark behind it."""
        here = [g for g in self.games if g[2] == s and i in g[:2]]
        if len(here) == 1:
            text = str(here[0][1]) if here[0][0] == i else f"@{here[0][0]}"
        else:
            text = "#+" if len(here) > 9 else f"#{len(here)}" if here else "-"
        broken = self.counts.breaks("HA", i, s) > 0
        wrong = self.league.phased and any(self.early[frozenset(g[:2])] != 1 for g in here)
        mark = {(False, False): " ", (True, False): "*", (False, True): "!", (True, True): "%"}[broken, wrong]
        return text.rjust(self.digits + 1) + mark

    def block(self, slots):
        yield "slot".ljust(self.front) + "".join(f"{s:>{self.digits + 1}} " for s in slots)
        for i in range(self.league.n):
            yield self.head(i) + "".join(self.cell(i, s) for s in slots)
        yield ""

    def legend(self):
        yield "@ away   * break: at home, or away, twice in a row   - no game   #2 two games"
        if self.league.phased:
            yield "! a pair that doesn't meet just once in the first half   % such a pair and a break"
        for s, name in enumerate(self.slots):
            if name not in ("", str(s), f"Slot {s}"):
                yield f"slot {s} is {name}"
        yield ""

    def table(self):
        """Counts a team: home games in each half, breaks, longest runs at home and away."""
        n, of = self.league.n, self.counts
        yield "team".ljust(self.front) + " home 1st  home 2nd  breaks  run home  run away"
        for i in range(n):
            home = [of.at_home[i, s] for s in range(2 * n - 2)]
            away = [of.away[i, s] for s in range(2 * n - 2)]
            broken = sum(of.breaks("HA", i, s) for s in range(2 * n - 2))
            found = sum(home[: n - 1]), sum(home[n - 1 :]), broken, longest_run(home), longest_run(away)
            yield self.head(i) + "".join(str(k).rjust(size) for k, size in zip(found, (9, 10, 8, 10, 10)))

    def grid(self, width=80):
        room = max((width - self.front) // (self.digits + 2) if width > self.front else 0, 1)
        lines = [line for slots in blocks(self.league.n, room) for line in self.block(slots)]
        lines += [*self.legend(), *self.table()]
        return "".join(line.rstrip(" ") + "\n" for line in lines)

    def csv(self):
        """A line a game (RFC 4180), with names that begin like a formula defused."""
        lines = ["slot,slot_name,home,home_name,away,away_name\r\n"]
        for i, j, s in self.games:
            pairs = (s, self.slots[s]), (i, self.teams[i]), (j, self.teams[j])
            lines.append(",".join(f"{k},{field(name)}" for k, name in pairs) + "\r\n")
        return "".join(lines)


def field(name):
    name = "'" + name if name.startswith(("=", "+", "-", "@")) else name
    return '"' + name.replace('"', '""') + '"' if set(name) & set(',"\r\n') else name


def main():
    parser = argparse.ArgumentParser(description=__doc__, formatter_class=argparse.RawDescriptionHelpFormatter)
    parser.add_argument("instance")
    parser.add_argument("solution")
    parser.add_argument("--form", choices=("text", "csv"), default="text")
    parser.add_argument("--width", type=int, default=80)
    options = parser.parse_args()
    try:
        with open(options.instance, "rb") as file:
            league, teams, slots = read_named(file.read())
        with open(options.solution, "rb") as file:
            season = Season(league, teams, slots, read_solution(file.read(), league.n))
    except Fault as fault:
        sys.exit(f"{fault.kind} line {fault.line}")
    text = season.csv() if options.form == "csv" else season.grid(options.width)
    sys.stdout.buffer.write(text.encode())


if __name__ == "__main__":
    main()
