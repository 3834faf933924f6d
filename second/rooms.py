"""Attacks `--room` of check, bound and audit: its words, and logs that take just so many megabytes or a step more.

The groups are hostile.py's. How much the steps of a log take is said from the rules in words (docs/COMMANDS.md,
refutation_check/specs/Room.antt): 64 bytes each step that followed, and 8 each term of its row, or 32 where a
coefficient is past 32 bits or the degree past 64.
"""

import os
import random
import subprocess
import time

import forms
import logs
import rows
from attack import C4, C4_TEXT, MIB, NO_HOME, NO_HOME_LOG
from attack import instance_text, season_text
from certified import AWAY_LATE, AWAY_LATE_LOG, FIRST_HOME, FIVE, league_of, resumed_of, softened_of
from doors import MOST, NUMBERS
from outside import PRINTED, outside, snapshot, work_folder

MEGABYTE = 10**6
# Numbers that come to little where their bytes are cut to 64 or to 32 bits.
WRAPS = [2**58, 2**59, 3 * 2**58, 2**63, 2**64 - 2**58, 2**32, 2**32 + 1, 2**31, 2**44, 2**52, 2**54, MOST - 1, MOST]
WRAPS += [2**64 // MEGABYTE + more for more in (-1, 0, 1)] + [2**63 // MEGABYTE + more for more in (-1, 0, 1)]
FULL = b"robin: the log's steps take more than --room allows, and no answer was written\n"
NOTHING = "c 1 -1 0 0"


# What is demanded.


def row_bytes(terms, degree):
    """What a step with this row takes."""
    is_wide = degree >= 2**64 or any(coef >= 2**32 for coef, _ in terms)
    return 64 + (32 if is_wide else 8) * len(terms)


class Judge:
    """The steps of a log, judged one after another over rows, and what they take."""

    def __init__(self, count, own_rows):
        self.count, self.rows, self.given = count, list(own_rows), len(own_rows)
        self.taken, self.cause, self.is_false = 0, None, False

    def take(self, line):
        """A step more. Behind one that doesn't follow nothing is taken."""
        if self.cause:
            return
        kind, first, second = forms.step_of(line.encode(), forms.FORMS[b"refutation 2"], 2)
        if kind == "c":
            cause, row = logs.follow_clause(first, second, self.rows, self.count), logs.clause_row(first)
        else:
            cause, row = logs.sum_of(first, second, self.rows)
        self.is_false = kind == "c" and not first
        if cause:
            self.cause = f"rejected step {self.steps() + 1} cause {cause}\n"
            return
        self.rows.append(row)
        self.taken += row_bytes(*row)

    def nothing(self, times):
        """So many steps that demand nothing."""
        if not self.cause and times:
            self.rows += [([], 0)] * times
            self.taken += 64 * times
            self.is_false = False

    def steps(self):
        """How many steps followed."""
        return len(self.rows) - self.given

    def verdict(self, accepted):
        """Status and text, where there is room for all."""
        if self.cause:
            return 1, self.cause
        if self.is_false:
            return 0, f"{accepted} steps {self.steps()}\n"
        return 1, f"rejected step {self.steps()} cause NoEmptyClause\n"


# Commands.


class Door:
    """A command that takes `--room`: its words before the log's name, the log's head, its rows, and hints that refute them."""

    def __init__(self, words, head, number, hints, log, accepted="accepted"):
        self.words, self.head, self.hints, self.log, self.accepted = words, head, hints, log, accepted
        self.count, self.rows = number

    def judge(self):
        """A judge of a log over its rows."""
        return Judge(self.count, self.rows)


def room_doors(t):
    """The three commands, each with a small league and a log of one step that refutes its rows."""
    home, late = instance_text(4, True, [NO_HOME]), instance_text(4, True, [AWAY_LATE])
    two = instance_text(2, True, [FIRST_HOME % ("0;1", 5)])
    files = [t.path("room-home.xml", home), t.path("room-two.xml", two), t.path("room-late.xml", late)]
    season = t.path("room-season.xml", C4_TEXT)
    home_rows, two_rows = rows.league_rows(league_of(home)[0]), rows.with_bound(softened_of(two), 4)
    late_rows = resumed_of(late, tuple(C4), 3)
    check = Door(["check", files[0]], "", home_rows, "153 154 155 133", NO_HOME_LOG)
    bound = Door(["bound", files[1]], "bound 5\n", two_rows, "32 32 31 31 27", FIVE, "accepted bound 5")
    audit = Door(["audit", files[2], season, "3"], "", late_rows, "153 178 90 146", AWAY_LATE_LOG)
    return [check, bound, audit]


def stands(t):
    """The three commands with as much room as their steps take, for refused memory and failing devices."""
    found = []
    names = {"check": ["instance", "log"], "bound": ["instance", "log"], "audit": ["instance", "solution", "log"]}
    for door in room_doors(t):
        rng, name = random.Random(len(door.words)), door.words[0]
        lines = drawn_lines(rng, door, 0, 6) + ["c 0 " + door.hints + " 0"]
        path = t.path(f"room-stands-{name}.log", door.head.encode(), log_text(lines))
        found.append(([*door.words, path, "--room", "1"], names[name]))
    return found


# Drawn logs.


def log_text(lines):
    """The text of a log of these steps."""
    return "\n".join(["refutation 2", *lines, "end", ""]).encode()


FACTORS = [1, 1, 2, 3, 2**31, 2**32 - 1, 2**32, 2**32 + 1, 2**62, 2**63 - 1, 2**63, MOST]
DIVISORS = [1, 1, 1, 2, 3, 2**31, 2**32, 2**63, MOST]


def drawn_line(rng, door, before):
    """A step: a clause with its hints, one of a literal and its negation, or a sum that may be wide."""
    how = rng.randrange(6)
    if how == 0:
        return NOTHING
    if how <= 2:
        literals = [rng.randint(1, door.count) * rng.choice([-1, 1]) for _ in range(rng.choice([1, 1, 2, 3, 5, 8]))]
        return " ".join(["c", *map(str, literals), "0", door.hints, "0"])
    known = len(door.rows) + before
    if how == 3:
        # The rows that contradict each other, so often that their degree is at the edge of 64 bits, and a row beside.
        factor = rng.choice([2**61, 2**62, 2**63 - 1, 2**63, MOST])
        parts = [(factor, int(it)) for it in door.hints.split()] + [(1, rng.randint(1, known))] * rng.randint(0, 2)
    else:
        parts = [(rng.choice(FACTORS), rng.randint(1, known)) for _ in range(rng.randint(0, 6))]
    return " ".join(["l", *(f"{factor} {row}" for factor, row in parts), "0", str(rng.choice(DIVISORS))])


def drawn_lines(rng, door, before, count):
    """Steps behind so many others, all of which follow."""
    judge, lines = door.judge(), []
    judge.nothing(before)
    while len(lines) < count:
        line = drawn_line(rng, door, before + len(lines))
        judge.take(line)
        if judge.cause:
            judge.cause = None
        else:
            lines.append(line)
    return lines


def just_full(rng, door):
    """A log that takes just so many megabytes, its judge, and how many they are."""
    before, more = rng.choice([0, 0, 1, 3000]), rng.choice([0, 1, 4, 12])
    lines = [NOTHING] * before + drawn_lines(rng, door, before, more)
    judge = door.judge()
    judge.nothing(before)
    for line in lines[before:]:
        judge.take(line)
    falsum = rng.random() < 0.5
    least = judge.taken + 64 * (1 + falsum)
    megabytes = -(-least // MEGABYTE) + rng.choice([0, 0, 0, 1])
    left = megabytes * MEGABYTE - judge.taken - 64 * (1 + falsum)
    # One of the further steps has as many terms as are wanting.
    literals = " ".join(str(v) for v in range(1, left % 64 // 8 + 1))
    wanting = [" ".join(["c", *literals.split(), "0", door.hints, "0"])] if left % 64 else [NOTHING]
    lines += [NOTHING] * (left // 64) + wanting + ["c 0 " + door.hints + " 0"] * falsum
    judge.nothing(left // 64)
    for line in wanting + ["c 0 " + door.hints + " 0"] * falsum:
        judge.take(line)
    return lines, judge, megabytes


# Groups.


def room_exact(t):
    """Logs of just so many megabytes, and of a step more; with a step that doesn't follow, or a line that is none."""
    rng, doors = random.Random(t.seed), room_doors(t)
    for number in range(max(t.cases // 20, 60)):
        door = doors[number % 3]
        lines, judge, megabytes = just_full(rng, door)
        t.must(judge.taken == megabytes * MEGABYTE and not judge.cause, "a log of whole megabytes", judge.taken)
        whole = t.fresh("whole.log", door.head.encode(), log_text(lines))
        wanted = judge.verdict(door.accepted)
        for room, told in ((megabytes, wanted), (megabytes - 1, (8, "")), (MOST, wanted), (0, (8, ""))):
            t.demands([*door.words, whole, "--room", str(room)], *told, files=[whole])
        t.demands([*door.words, whole], *wanted, files=[whole])
        more = t.fresh("more.log", door.head.encode(), log_text([*lines, NOTHING]))
        judge.nothing(1)
        t.demands([*door.words, more, "--room", str(megabytes)], 8, "", files=[more])
        t.demands([*door.words, more, "--room", str(megabytes + 1)], *judge.verdict(door.accepted), files=[more])
        # What doesn't follow takes nothing, nor does what comes behind it.
        wrong = ["c 0 0", *[NOTHING] * rng.choice([0, 5, 20_000])]
        path = t.fresh("wrong.log", door.head.encode(), log_text(lines + wrong))
        told = f"rejected step {len(lines) + 1} cause NoConflict\n"
        t.demands([*door.words, path, "--room", str(megabytes)], 1, told, files=[path])
        if number % 10 == 0:
            broken_line(t, door, lines, megabytes)
        if number % 30 == 0:
            t.flush()
            print(f"    {number} logs, {t.differences[t.group]} differences", flush=True)
    t.flush()


def broken_line(t, door, lines, megabytes):
    """A line that is no step: before there is no room it is refused; behind that so, or for want of room."""
    text = log_text([*lines, "x"])
    path = t.fresh("broken.log", door.head.encode(), text)
    told = (3, b"refused log BadLine line %d\n" % (len(lines) + 2 + bool(door.head)))
    t.flush()
    ran = t.run(*door.words, path, "--room", str(megabytes))
    t.must((ran.status, ran.out) == told, "a line that is no step", ran, told, files=[path])
    ran = t.run(*door.words, path, "--room", "0")
    t.must((ran.status, ran.out) in (told, (8, b"")), "such a line, and no room", ran, files=[path])
    early = t.fresh("early.log", door.head.encode(), b"refutation 2\nx\n" + text)
    ran = t.run(*door.words, early, "--room", "0")
    told = (3, b"refused log BadLine line %d\n" % (2 + bool(door.head)))
    t.must((ran.status, ran.out) == told, "such a line before all steps", ran, told, files=[early])


def told_of(words, plain, is_little):
    """What words with `--room` get, where the files are there: the plain answer, or want of room."""
    if not forms.are_words(words):
        return 2, "refused words\n"
    return (8, "") if is_little else plain


def room_words(t):
    """`--room` at each place of the line, with each value, twice, without one; of commands that don't take it."""
    folder, absent = work_folder(t, "rooms"), os.path.join(t.folder, "absent")
    for door in room_doors(t):
        path = t.path("one.log", door.log)
        words = [*door.words, path]
        ran = t.run(*words)
        plain = ran.status, ran.out.decode()
        t.must(plain == (0, f"{door.accepted} steps 1\n"), words, ran)
        for value in [*NUMBERS, *map(str, WRAPS), "--room", "--near", "--help", "--version", "--out", path]:
            for place in range(len(words) + 1):
                given = [*words[:place], "--room", value, *words[place:]]
                rest, _ = forms.without_common(given)
                wanted = (2, "refused words\n") if rest is None else told_of(given, plain, value == "0")
                if "" in given:
                    ran = outside(t, given, folder=folder)
                    t.must((ran.status, ran.out.decode()) == wanted, given, ran, wanted)
                else:
                    t.demands(given, *wanted)
        again = ([], ["--room", "1"], ["--room", "0"], ["--room"], ["--room=1"], ["--rooms", "1"], ["-room", "1"])
        for more in (*again, ["--Room", "1"], ["--room ", "1"], ["--room", "1", "--conflicts", "1"], ["--room", "1", "x"]):
            for value in ("0", "1", str(MOST)):
                for given in ([*words, "--room", value, *more], [*more, *words, "--room", value]):
                    wanted = told_of(given, plain, value == "0")
                    t.demands(given, *wanted)
                given = [door.words[0], "--room", value, *more, *words[1:]]
                t.demands(given, *told_of(given, plain, value == "0"))
        t.flush()
        shared_words(t, words, plain, folder)
        # Files that are refused, whatever the room is.
        for value in ("0", "1", str(MOST)):
            t.answers([door.words[0], absent, *words[2:], "--room", value], 6, "read fault instance\n")
            t.answers([*door.words, absent, "--room", value], 6, "read fault log\n")
            empty = t.path("empty.log", door.head.encode(), b"refutation 1\nend\n")
            t.answers([*door.words, empty, "--room", value], 1, "rejected step 0 cause NoEmptyClause\n")
            if door.words[0] == "bound":
                nothing = t.path("nothing.log", b"bound 0\n")
                t.answers([*door.words, nothing, "--room", value], 0, "accepted bound 0 steps 0\n")
    unroomed(t, absent)


def shared_words(t, words, plain, folder):
    """Words that all commands share, between the option and its value too; what goes into a file."""
    for value in ("0", "1"):
        wanted = told_of([*words, "--room", value], plain, value == "0")
        for given in (["--quiet", *words, "--room", value], [*words, "--room", "--quiet", value], [*words, "--quiet", "--room", value]):
            ran = t.run(*given)
            t.must((ran.status, ran.out.decode()) == wanted, given, ran, wanted)
            t.must(ran.err == (FULL if value == "0" else b""), given, "standard error", ran.err)
        for given in ([*words, "--room", value, "--out", "F"], [*words, "--room", "--out", "F", value]):
            ran = outside(t, given, folder=folder)
            files = snapshot(folder)
            kept = {} if value == "0" else {b"F": (0o644, plain[1].encode())}
            t.must((ran.status, ran.out, files) == (wanted[0], b"", kept), given, ran, files)
            t.must(PRINTED.fullmatch(ran.err), given, "standard error", ran.err)
            for name in files:
                os.remove(os.path.join(os.fsencode(folder), name))


def unroomed(t, absent):
    """Each command with `--room`: those that don't take it refuse the words."""
    for command, (wanted, options) in forms.COMMANDS.items():
        own = {forms.is_file: absent, forms.is_list: "1"}
        words = [command, *[own.get(it, "4") for it in wanted]]
        for value in ("0", "1", str(MOST)):
            for place in range(1, len(words) + 1):
                given = [*words[:place], "--room", value, *words[place:]]
                is_taken = command in ("check", "bound", "audit")
                t.must(forms.are_words(given) == is_taken == ("--room" in options), given, "whether it is taken")
                t.demands(given, *((6, "read fault instance\n") if is_taken else (2, "refused words\n")))
    for given in (["show", absent, "--demands", "--room", "1"], ["rows", absent, "--objective", "--room", "1"]):
        t.demands(given, 2, "refused words\n")
    t.demands(["resume", absent, "b", "1", "--near", "--room", "1"], 2, "refused words\n")
    t.flush()


def room_endless(t):
    """A log without end on standard input: the run ends soon behind where there is no room, and reads no further."""
    for door in room_doors(t):
        if door.words[0] == "bound":
            # A certificate is read whole before it is judged.
            continue
        for room in (0, 1, 5):
            began, given = time.monotonic(), 0
            null = subprocess.DEVNULL
            words = [t.program, *door.words, "-", "--room", str(room)]
            child = subprocess.Popen(words, stdin=subprocess.PIPE, stdout=subprocess.PIPE, stderr=null)
            chunk = (NOTHING + "\n").encode() * 1000
            try:
                child.stdin.write(b"refutation 2\n")
                while given < 128 * MIB:
                    child.stdin.write(chunk)
                    given += len(chunk)
            except BrokenPipeError:
                pass
            out = child.stdout.read()
            status = child.wait()
            most = room * MEGABYTE // 64 * 11 + MIB
            t.must((status, out) == (8, b"") and given < most, door.words[0], room, status, out[:99], given, most)
            print(f"    {door.words[0]} --room {room}: {given} bytes given, {time.monotonic() - began:.2f} s", flush=True)


# Large ones.


def room_peaks(t):
    """Peak memory beside what `--room` allows: of long sums of 40 teams, wide ones, and of very many short steps."""
    n, slots = 40, 78
    forty = t.path("forty.xml", instance_text(n, True))
    first = n * (n - 1) * 2 + 1
    own = n * (n - 1) * 2 + n * slots * 2 + n * (n - 1) + n * slots * 2 + slots * 2 + n * 2
    parts = lambda factor: " ".join(f"{factor} {first + 2 * k}" for k in range(n * slots))
    few = t.path("few.log", log_text([NOTHING]))
    base = t.run("check", forty, few).peak
    print(f"    check of one short step: peak {base:.0f} MiB", flush=True)
    for name, factor, width in (("narrow", 1, 8), ("wide", 2**33, 32)):
        # Each sum has another row, since equal ones are kept once.
        others = [f"l 1 {own + k + 1} 1 {first} 0 1" for k in range(400)]
        path = t.path("others.log", log_text([f"l {parts(factor)} 0 1", *others]))
        for room in (2, 10, 50):
            ran = t.run("check", forty, path, "--room", str(room), seconds=600, memory=6144)
            row = (64 + width * 121_680) / MIB
            most = base + room * MEGABYTE / MIB + 2 * row + 32
            t.must((ran.status, ran.out) == (8, b"") and ran.peak <= most, name, room, ran.status, ran.peak, most)
            print(f"    {name} sums, --room {room}: peak {ran.peak:.0f} MiB, {ran.seconds:.2f} s", flush=True)
    two = t.path("room-two.xml", instance_text(4, True))
    for megabytes in (64, 100):
        count = megabytes * MEGABYTE // 64
        path = t.path("short.log", b"refutation 2\n", *[(NOTHING + "\n").encode() * 1000] * (count // 1000), b"end\n")
        ran = t.run("check", two, path, "--room", str(megabytes), seconds=600, memory=6144)
        t.must(ran.status == 1, "short steps", ran)
        print(f"    {count} short steps, {megabytes} megabytes: peak {ran.peak:.0f} MiB, {ran.seconds:.2f} s", flush=True)
    repeated_literals(t)


def repeated_literals(t):
    """Clauses that say one literal millions of times: each takes 72 bytes by the rules, whatever stands in its line."""
    door = room_doors(t)[0]
    line = b"c " + b"1 " * (8 * MIB - 40) + b"0 " + door.hints.encode() + b" 0\n"
    path = t.path("repeated.log", b"refutation 2\n", *[line] * 15, b"end\n")
    for memory in (6144, 512):
        ran = t.run(*door.words, path, "--room", "1", seconds=600, memory=memory)
        print(f"    15 clauses of 8 million equal literals, {memory} MiB of addresses: ", end="")
        print(f"status {ran.status}, peak {ran.peak:.0f} MiB, {ran.seconds:.2f} s", flush=True)
        t.must(ran.status in (1, 8), "equal literals", ran)


GROUPS = [room_words, room_exact, room_endless]
HEAVY = [room_peaks]
