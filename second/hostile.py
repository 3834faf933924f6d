"""Attacks robin from outside: cut files, wild numbers, every limit, refused memory, failing devices, changed files.

python3 second/hostile.py PROGRAM [GROUP ..] [--cases N] [--seed N] [--keep FOLDER]

PROGRAM is robin as it was built. Each GROUP (all but those of HEAVY where none is named) makes its cases in a folder of
its own, runs the program on them under a limit of time and of memory, and compares the status and each byte with what
the rules in words demand (forms.py, leagues.py, rows.py, logs.py). The groups of the commands of certificates and of
seasons partly played stand in certified.py, those of what stands around the commands in doors.py, of `--room` in
rooms.py, of the floors of `prove` in floors.py. One line a group says how many cases there were and how many differed,
and a table says it of all groups at the end; the input of each difference is kept in FOLDER. `--cases` is the number of
changed files or logs. With `--total N` the groups that draw their cases are run with further seeds until there are N
cases in all. `memory` and `faults` want cc; with `--only` they, and `devices`, take these commands alone.
"""

import argparse
import collections
import os
import random
import resource
import signal
import sys
import tempfile
import time

sys.path.insert(0, os.path.dirname(os.path.abspath(__file__)))
import certified
import doors
import floors
import forms
import rooms
import rows
from attack import BATCH, C4_TEXT, I4, MIB, NO_BREAK, NO_HOME, NO_HOME_LOG, ONE_HOME, Tries
from attack import checked, example, filled, instance_refusal, instance_text, is_lawful
from attack import measured, season_text, validated
from changes import SNIPPETS, changed_file, changed_log


# Groups.


def prefixes(t):
    """Every prefix of a file: of the league by each command, of a season, of a log."""
    season = t.path("season.xml", C4_TEXT)
    log = t.path("no.log", NO_HOME_LOG)
    for name, text in (("I4", I4), ("no-home", instance_text(4, True, [NO_HOME]))):
        for k in range(len(text) - 1):
            it = t.path("cut.xml", text[:k])
            line = 1 + text.count(b"\n", 0, k)
            commands = [["validate", it, season], ["solve", it], ["patterns", it], ["explain", it], ["part", it, "1"]]
            for words in [*commands, ["check", it, log]]:
                t.answers(words, 3, f"refused instance Truncated line {line}\n", files=[it])
        it = t.path("cut.xml", text[:-1])
        t.answers(["validate", it, season], *validated(text, C4_TEXT), files=[it])
        t.answers(["validate", it, season], *validated(text[:-1], C4_TEXT), files=[it])
    it = t.path("league.xml", I4)
    for k in range(len(C4_TEXT) + 1):
        cut = t.path("cut-season.xml", C4_TEXT[:k])
        t.answers(["validate", it, cut], *validated(I4, C4_TEXT[:k]), files=[cut])
    text = instance_text(4, True, [NO_HOME])
    it, (count, own) = t.path("league.xml", text), rows.league_rows(forms.read_instance(text))
    for k in range(len(NO_HOME_LOG) + 1):
        cut = t.path("cut.log", NO_HOME_LOG[:k])
        t.answers(["check", it, cut], *checked(count, own, NO_HOME_LOG[:k]), files=[cut])


WILD = [
    ("0 18446744073709551615 0", "rejected step 1 cause UnknownRow"),
    ("0 18446744073709551616 0", "refused log BadNumber line 2"),
    ("2147483647 0 0", "rejected step 1 cause UnknownVariable"),
    ("-2147483648 0 0", "refused log BadNumber line 2"),
    ("00 0 0", "refused log BadLine line 2"),
    ("-0 0 0", "refused log BadLine line 2"),
    ("0 153 -154 0", "refused log BadLine line 2"),
    ("1 -1 0 0", "rejected step 1 cause NoEmptyClause"),
    ("0 157 0", "rejected step 1 cause UnknownRow"),
    ("96 0 153 0", "rejected step 1 cause NoConflict"),
    ("97 0 153 0", "rejected step 1 cause UnknownVariable"),
    ("0 133 0", "rejected step 1 cause NoConflict"),
    ("0 153 0 1", "refused log BadLine line 2"),
    ("3000000000 0 1 0", "refused log BadNumber line 2"),
    ("99999999999 0 0 x", "refused log BadLine line 2"),
    # Numbers that would wrap to rows and variables that are there.
    ("0 4294967449 154 155 133 0", "rejected step 1 cause UnknownRow"),
    ("0 9223372036854775961 154 155 133 0", "rejected step 1 cause UnknownRow"),
    ("0 18446744073709551769 154 155 133 0", "refused log BadNumber line 2"),
    ("4294967297 0 0", "refused log BadNumber line 2"),
    ("-4294967295 0 0", "refused log BadNumber line 2"),
    ("0 153 154 155 133 0", "accepted steps 1"),
    ("0 153 154 155 133 157 0", "accepted steps 1"),
    ("0 " + "9" * 100_000 + " 0", "refused log BadNumber line 2"),
    ("1" + "0" * 100_000 + " 0 0", "refused log BadNumber line 2"),
    ("0" * 100_000, "refused log BadLine line 2"),
]
WILD_SUMS = [
    ("l 18446744073709551616 133 0 1", "refused log BadNumber line 2"),
    ("l 1 133 0 18446744073709551616", "refused log BadNumber line 2"),
    ("l 1 133 0 18446744073709551615", "rejected step 1 cause NoEmptyClause"),
    ("l 18446744073709551615 133 0 1", "rejected step 1 cause NoEmptyClause"),
    ("l 1 18446744073709551615 0 1", "rejected step 1 cause UnknownRow"),
    ("l 1 4294967429 0 1", "rejected step 1 cause UnknownRow"),
    ("l 18446744073709551617 133 0 1", "refused log BadNumber line 2"),
    ("l 1 133 0 18446744073709551617", "refused log BadNumber line 2"),
    ("l 0 1", "rejected step 1 cause NoEmptyClause"),
    ("l 1 133 0 0", "refused log BadLine line 2"),
    ("l 1 -133 0 1", "refused log BadLine line 2"),
    ("c0 157 0", "refused log BadLine line 2"),
    ("0 157 0", "refused log BadLine line 2"),
]


def wild(t):
    """Lines of logs with wild numbers, on the league of no home game in slot 0: 96 variables and 156 rows."""
    text = instance_text(4, True, [NO_HOME])
    it, (count, own) = t.path("league.xml", text), rows.league_rows(forms.read_instance(text))
    for version, lines in ((1, WILD), (2, WILD_SUMS)):
        for line, answer in lines:
            log = f"refutation {version}\n{line}\nend\n".encode()
            status = 3 if answer.startswith("refused") else 0 if answer.startswith("accepted") else 1
            path = t.path("wild.log", log)
            t.answers(["check", it, path], status, answer + "\n", files=[path])
            second = checked(count, own, log)
            t.must((status, answer + "\n") == second, "second reading", line[:50], second)
    wide = 2**127 - 1
    # A row's mass is 4 (133 has four terms): factors of 64 bits make it pass 2^127 - 1 in two steps.
    for line in (f"l {2**64 - 1} 157 0 1", f"l {2**62 - 1} 157 0 1", f"l {2**61} 157 0 1", f"l {2**61 - 1} 157 0 1"):
        log = f"refutation 2\nl {2**64 - 1} 133 0 1\n{line}\nend\n".encode()
        path = t.path("wild.log", log)
        t.answers(["check", it, path], *checked(count, own, log), files=[path])
    numbers = ["0", "4294967295", "4294967296", "00", "-1", "+1", "1 ", "", "1e3", "0x1", "9" * 26, "٣"]
    plain = '<CA1 teams="{}" min="{}" max="{}" mode="H" slots="{}" type="SOFT" penalty="{}"/>'
    ids = ["0;1", "0;", ";", ";;", "0;;1", "0;0;0", "3", "4", "4294967295", "4294967296", "0,1", " 0", "0 ;1", "00;01"]
    ids.append("")
    season = t.path("season.xml", C4_TEXT)
    for place, values in ((0, ids), (1, numbers), (2, numbers), (3, [*ids, "5", "6"]), (4, numbers)):
        for value in values:
            own = ["0", "0", "1", "2", "1"]
            own[place] = value
            text = instance_text(4, True, [plain.format(*own)])
            it = t.path("league.xml", text)
            t.answers(["validate", it, season], *validated(text, C4_TEXT), files=[it])
    it = t.path("league.xml", I4)
    for place in range(3):
        for value in [*numbers, "3", "4", "5", "6"]:
            game = ["1", "0", "0"]
            game[place] = value
            text = season_text([game])
            path = t.path("season.xml", text)
            t.answers(["validate", it, path], *validated(I4, text), files=[path])


def limits(t):
    """Every limit of a file, at and past its edge."""
    it, season = t.path("league.xml", I4), t.path("season.xml", C4_TEXT)
    line = '<CA1 teams="0" min="0" max="9" mode="H" slots="2" type="SOFT" penalty="1"/>'
    for count in (20_000, 20_001):
        text = instance_text(4, True, [line] * count)
        path = t.path("many.xml", text)
        if count > forms.CONSTRAINTS:
            t.answers(["validate", path, season], 3, "refused instance TooMany line 20028\n", files=[path])
            t.answers(["solve", path], 3, "refused instance TooMany line 20028\n", files=[path])
        else:
            ran = t.answers(["validate", path, season], 0, None, files=[path])
            t.must(ran.out.count(b"\nconstraint ") == count, "constraint lines", count)
            told = validated(text, C4_TEXT)
            t.must(ran.out.decode() == told[1], "report of 20000")
    for count in (10_000, 10_001):
        text = season_text([(3, 0, 0)] * count)
        path = t.path("games.xml", text)
        if count > forms.GAMES:
            t.answers(["validate", it, path], 3, "refused solution TooMany line 10004\n", files=[path])
        else:
            ran = t.answers(["validate", it, path], *validated(I4, text), files=[path])
            t.must(b"games 10000\nstructure pairs 12 cells 24 phases 6\n" in ran.out, "10000 games", ran.out)
    for count in (64, 65):
        names = " ".join(f'a{k}="{k}"' for k in range(count - 1))
        text = I4.replace(b'<team id="0"/>', f'<team id="0" {names}/>'.encode())
        path = t.path("wide.xml", text)
        wanted = validated(text, C4_TEXT)
        t.answers(["validate", path, season], *wanted, files=[path])
        t.must((count == 64) == (wanted[0] == 0), "attributes", count, wanted)
        t.must(count == 64 or wanted[1] == "refused instance TooManyAttributes line 12\n", wanted)
    for value in ("4294967295", "4294967296"):
        text = I4.replace(b'<team id="0"/>', f'<team id="{value}"/>'.encode())
        path = t.path("id.xml", text)
        kind = "WrongCounts line 25" if value == "4294967295" else "NumberTooLarge line 12"
        t.answers(["validate", path, season], 3, f"refused instance {kind}\n", files=[path])
        text = I4.replace(b'<slot id="0"/>', f'<slot id="{value}"/>'.encode())
        path = t.path("id.xml", text)
        kind = "WrongCounts line 25" if value == "4294967295" else "NumberTooLarge line 18"
        t.answers(["validate", path, season], 3, f"refused instance {kind}\n", files=[path])
        text = season_text([(value, 0, 0)])
        path = t.path("id.xml", text)
        kind = "UnknownTeam line 4" if value == "4294967295" else "NumberTooLarge line 4"
        t.answers(["validate", it, path], 3, f"refused solution {kind}\n", files=[path])
    for teams in (0, 1, 2, 3, 38, 39, 40, 41, 42, 1000):
        text = instance_text(4, True, teams=teams) if teams else I4.replace(b"<Teams>", b"<Teams></Teams><Teamz>")
        path = t.path("teams.xml", text)
        whole = t.run("circle", str(teams)).out if teams in (2, 38, 40) else C4_TEXT
        full = t.path("whole.xml", whole)
        t.answers(["validate", path, full], *validated(text, whole), files=[path])
        if teams == 42:
            t.answers(["validate", path, full], 3, "refused instance WrongCounts line 139\n", files=[path])
        if teams in (2, 38, 40):
            t.answers(["validate", path, full], 0, None, files=[path])
    for extra in (0, 1):
        spaces = t.path("spaces.xml", b" " * (MIB + extra))
        told = "TooLong limit 1048576" if extra else "Truncated line 1"
        t.answers(["validate", it, spaces], 3, f"refused solution {told}\n")
        padded = t.path("padded.xml", C4_TEXT, b" " * (MIB - len(C4_TEXT) + extra))
        if extra:
            t.answers(["validate", it, padded], 3, "refused solution TooLong limit 1048576\n")
        else:
            t.answers(["validate", it, padded], *validated(I4, C4_TEXT))
        spaces = t.path("spaces.xml", *[b" " * MIB] * 16, b" " * extra)
        told = "TooLong limit 16777216" if extra else "Truncated line 1"
        t.answers(["validate", spaces, season], 3, f"refused instance {told}\n")
        padded = t.path("padded.xml", I4, b" " * (MIB - len(I4)), *[b" " * MIB] * 15, b"\n" * extra)
        for words in (["validate", padded, season], ["solve", padded], ["part", padded, "1"], ["explain", padded]):
            if extra:
                t.answers(words, 3, "refused instance TooLong limit 16777216\n")
            elif words[0] == "validate":
                t.answers(words, *validated(I4, C4_TEXT))
            else:
                known = ["part", it, "1"] if words[0] == "part" else [words[0], it]
                plain = t.run(*known)
                t.answers(words, plain.status, plain.out)
        log = t.path("line.log", b"refutation 1\n", *[b" " * MIB] * 16, b" " * extra)
        for behind in (b"", b"\nend\n"):
            with open(log, "ab") as file:
                file.write(behind)
            kind = "TooLong" if extra else "BadLine" if behind else "NoEnd"
            t.answers(["check", it, log], 3, f"refused log {kind} line 2\n")
    fa2 = '<FA2 teams="{0}" intp="0" mode="H" slots="{1}" type="HARD" penalty="1"/>'
    fa2 = fa2.format(";".join(map(str, range(40))), ";".join(map(str, range(78))))
    path = t.path("rows.xml", instance_text(40, True, [fa2] * 5))
    for words in (["solve", path], ["patterns", path], ["explain", path], ["check", path, "absent"]):
        t.answers(words, 3, "refused rows TooLarge terms 49177440\n", files=[path])


def edges(t):
    """The words of the command line at their edges, and drawn at random."""
    absent = os.path.join(t.folder, "absent")
    most = 2**64 - 1
    numbers = ["0", "1", str(most), str(most + 1), "01", "-1", "+1", "", " 1", "1 ", "1.0", "0x1", "all", "ALL"]
    numbers.append("9" * 400)
    for option in ("--conflicts", "--moves", "--tries", "--patterns", "--seed"):
        for value in [*numbers, "2", "99", "100", "101", "-", "--moves", "18446744073709551614"]:
            for words in (["solve", absent, option, value], ["solve", option, value, absent]):
                t.answers(words, *worded(words, "instance"))
            t.answers(["trial", "2", "0", option, value], *worded(["trial", "2", "0", option, value], None))
            for command in ("patterns", "explain"):
                words = [command, absent, option, value]
                t.answers(words, *worded(words, "instance"))
    for value in [*numbers, "2", "3", "4", "38", "39", "40", "41", "42", "04", "4 ", "٤", "1000000"]:
        for words in (["circle", value], ["make", value, "0"], ["make", "4", value], ["trial", "4", value]):
            t.answers(words, *worded(words, None))
    lists = ["1;2", "2;1", "1;1", ";", "1;", ";1", "1;;2", "0", "4294967295", "4294967296", "1,2", "1;02"]
    for value in [*numbers, *lists]:
        t.answers(["part", absent, value], *worded(["part", absent, value], "instance"))
    short = ([], [""], ["validate"], ["-"], ["--"], ["--help"], ["validate", "a"], ["check", "a.xml", "-"])
    for words in (*short, ["Validate", "a", "b"]):
        t.answers(words, *worded(words, "instance"))
    rng = random.Random(t.seed)
    pool = [*forms.COMMANDS, *forms.SOLVE, *numbers, "2", "4", "100", absent, absent, absent, "1;2", "--", "-x"]
    pool.append("--help")
    for _ in range(t.cases // 10):
        words = [rng.choice(list(forms.COMMANDS))] + [rng.choice(pool) for _ in range(rng.randint(0, 6))]
        if words[0] == "trial" and "40" in words:
            continue
        t.answers(words, *worded(words, "instance"))
    ran = t.run(b"validate", b"\xff\xfe", b"a")
    t.must((ran.status, ran.out) == (10, b""), "not UTF-8", ran)
    ran = t.run("validate", "a" * 100_000, "b")
    t.must((ran.status, ran.out) == (6, b"read fault instance\n"), "long name", ran.status, ran.out)
    ran = t.run("part", absent, ";".join(map(str, range(1, 20_000))))
    t.must((ran.status, ran.out) == (6, b"read fault instance\n"), "long list", ran.status, ran.out)
    ran = t.run("solve", *["x"] * 50_000)
    t.must((ran.status, ran.out) == (2, b"refused words\n"), "many words", ran.status, ran.out)


def worded(words, which):
    """What words get where no file is there."""
    if forms.are_questions(words):
        return 0, None
    if not forms.are_words(words):
        return 2, "refused words\n"
    return (0, None) if words[0] in ("circle", "make", "trial") else (6, f"read fault {which}\n")


def under(t, words, **asked):
    """The program with a planned fault: `at` or `first` of malloc, open, read and write."""
    return t.server.run(words, **asked)


def ranges(statuses):
    """As `8 for 1..40, then 0`."""
    found, first = [], 0
    for k in range(1, len(statuses) + 1):
        if k == len(statuses) or statuses[k] != statuses[first]:
            found.append(f"{statuses[first]} for {first + 1}..{k}")
            first = k
    return ", ".join(found)


def commands(t):
    """Commands with the files that they read, as (words, names), of those that are asked for."""
    found = [*stands(t), *certified.stands(t), *doors.stands(t), *rooms.stands(t), *floors.stands(t)]
    return [it for it in found if not t.only or it[0][0] in t.only]


def stands(t):
    """Words of the older commands, with the files that they read."""
    league = t.path("no-home.xml", instance_text(4, True, [NO_HOME]))
    one = t.path("one-home.xml", instance_text(4, True, [ONE_HOME]))
    nine = os.path.join(os.path.dirname(os.path.abspath(__file__)), "..", "examples", "nine-classes.xml")
    four = t.path("four.xml", instance_text(4, True, [NO_HOME.replace("0;1;2;3", "0")]))
    breaks = t.path("breaks.xml", instance_text(4, True, [NO_BREAK % 3]))
    season, log = t.path("season.xml", C4_TEXT), t.path("no.log", NO_HOME_LOG)
    return [
        (["validate", four, season], ["instance", "solution"]),
        (["validate", nine, season], ["instance", "solution"]),
        (["solve", league, "--conflicts", "0"], ["instance"]),
        (["solve", one], ["instance"]),
        (["solve", four], ["instance"]),
        (["solve", breaks, "--conflicts", "2", "--moves", "0"], ["instance"]),
        (["check", league, log], ["instance", "log"]),
        (["patterns", league], ["instance"]),
        (["patterns", four], ["instance"]),
        (["explain", league], ["instance"]),
        (["part", league, "1"], ["instance"]),
        (["circle", "4"], []),
        (["make", "4", "1"], []),
        (["trial", "4", "1"], []),
    ]


# What a person is told then.
NO_MEMORY = b"robin: memory ran out, and no answer was written\n"


def memory(t):
    """Memory refused at every number, once and from there on: the command's own answer, or 8 with nothing written."""
    for words, _ in commands(t) if t.server.process else []:
        plain = under(t, words)
        shown = " ".join(os.path.basename(it) for it in words)
        t.must(is_lawful(words[0], plain.status, plain.out.decode()), shown, plain)
        for kind in ("at", "first"):
            statuses = []
            for k, ran in enumerate(t.server.each(words, kind, 0, plain.calls[0] + 1), 1):
                statuses.append(ran.status)
                own = (ran.status, ran.out) == (plain.status, plain.out)
                t.must(own or (ran.status, ran.out, ran.err) == (8, b"", NO_MEMORY), shown, kind, k, ran)
            told = "the Nth refused" if kind == "at" else "all from the Nth on"
            print(f"    {shown}: {plain.calls[0]} allocations; {told}: {ranges(statuses)}", flush=True)


def faults(t):
    """A fault of the store and of standard output at every call; reads and writes of a byte each."""
    for words, names in commands(t) if t.server.process else []:
        shown = " ".join(os.path.basename(it) for it in words)
        plain = under(t, words)
        same = lambda ran: (ran.status, ran.out) == (plain.status, plain.out)
        t.must(same(under(t, words, most=1)), shown, "byte by byte")
        for place, what in ((1, "open"), (2, "read")):
            told = []
            for k, ran in enumerate(t.server.each(words, "at", place, plain.calls[place] + 1), 1):
                is_read = ran.status == 6 and ran.out in [f"read fault {it}\n".encode() for it in names]
                t.must(same(ran) if k > plain.calls[place] else is_read, shown, what, k, ran)
                told.append(f"{ran.status} {ran.out.split()[-1].decode()}" if is_read else str(ran.status))
            if names:
                print(f"    {shown}: the Nth {what} fails: {ranges(told)}", flush=True)
        for k, ran in enumerate(t.server.each(words, "at", 3, plain.calls[3] + 1), 1):
            is_cut = ran.status == 7 and plain.out.startswith(ran.out) and ran.out != plain.out
            t.must(same(ran) if k > plain.calls[3] else is_cut, shown, "write", k, ran)
        for k, ran in enumerate(t.server.each(words, "at", 3, min(len(plain.out), 40), most=1), 1):
            t.must((ran.status, ran.out) == (7, plain.out[: k - 1]), shown, "write of a byte", k, ran)
        ran = under(t, words, at=(0, 0, 0, len(plain.out)), most=1)
        t.must((ran.status, ran.out) == (7, plain.out[:-1]), shown, "write of the last byte", ran)


def devices(t):
    """Files that can't be read and places that take nothing."""
    it, season, log = t.path("league.xml", I4), t.path("season.xml", C4_TEXT), t.path("no.log", NO_HOME_LOG)
    absent, directory = os.path.join(t.folder, "absent"), os.path.join(t.folder, "directory")
    os.mkdir(directory)
    broken = os.path.join(t.folder, "broken")
    os.symlink(broken, broken)
    bad = [absent, directory, broken, "", it + "/x", "/proc/self/mem", "/dev/tty"]
    if os.geteuid():
        bad.append(t.path("closed.xml", I4))
        os.chmod(bad[-1], 0)
    for name in bad:
        for words in (["validate", name, season], ["validate", name, absent], ["check", name, log], ["solve", name]):
            t.answers(words, 6, "read fault instance\n")
        for words in (["patterns", name], ["explain", name], ["part", name, "1"]):
            t.answers(words, 6, "read fault instance\n")
        t.answers(["validate", it, name], 6, "read fault solution\n")
        t.answers(["check", it, name], 6, "read fault log\n")
    t.answers(["validate", "/dev/null", season], 3, "refused instance Truncated line 1\n")
    t.answers(["validate", it, "/dev/null"], 3, "refused solution Truncated line 1\n")
    t.answers(["check", it, "/dev/null"], 3, "refused log NoEnd line 1\n")
    t.answers(["validate", "/dev/zero", season], 3, "refused instance TooLong limit 16777216\n")
    t.answers(["validate", it, "/dev/zero"], 3, "refused solution TooLong limit 1048576\n")
    t.answers(["validate", it, it], *validated(I4, I4))
    t.answers(["validate", season, season], *validated(C4_TEXT, C4_TEXT))
    t.answers(["check", it, it], 3, "refused log BadLine line 1\n")
    t.answers(["check", log, log], 3, "refused instance Truncated line 4\n")
    places = [(words, t.run(*words)) for words, _ in commands(t)] + [(["solve", absent], None), (["what"], None)]
    for words, _ in places:
        shown = os.path.basename(" ".join(words))
        with open("/dev/full", "wb") as full:
            ran = t.run(*words, out=full)
        t.must(ran.status == 7, shown, "/dev/full", ran)
        ran = t.run(*words, out="closed")
        t.must((ran.status, ran.out) == (7, b""), shown, "closed", ran)
        reader, writer = os.pipe()
        os.close(reader)
        ran = t.run(*words, out=writer)
        os.close(writer)
        t.must(ran.status == 7, shown, "a pipe without a reader", ran)
        with open(it, "rb") as only:
            ran = t.run(*words, out=only)
        t.must(ran.status == 7, shown, "a file to read", ran)
    text = t.run("circle", "40").out
    for most in (0, 1, 100, 4096, len(text) - 1, len(text)):
        with open(os.path.join(t.folder, "few"), "wb") as few:
            ran = t.run("circle", "40", out=few, limits=[(resource.RLIMIT_FSIZE, most)])
        with open(os.path.join(t.folder, "few"), "rb") as few:
            written = few.read()
        # Past a limit of the shell the system's own signal ends a program that doesn't ask for it.
        ends = (0,) if most == len(text) else (7, -signal.SIGXFSZ)
        is_cut = written == text[:most] and ran.status in ends
        t.must(is_cut, "a file of at most", most, ran.status, len(written))
    fifo = os.path.join(t.folder, "fifo")
    os.mkfifo(fifo)
    if os.fork() == 0:
        with open(fifo, "wb", buffering=0) as file:
            for k in range(len(I4)):
                file.write(I4[k : k + 1])
        os._exit(0)
    t.answers(["validate", fifo, season], *validated(I4, C4_TEXT))
    os.wait()
    for limit in (2, 3, 4, 6, 8, 12, 16, 24, 32, 64):
        for words, plain in places[:-2]:
            ran = t.run(*words, memory=limit)
            is_own = (ran.status, ran.out) == (plain.status, plain.out)
            is_none = (ran.status, ran.out) == (8, b"")
            is_late = limit < 6 and ran.status in (127, -11, -9) and ran.out == b""
            t.must(is_own or is_none or is_late, " ".join(words), "address space of MiB", limit, ran)


def files(t):
    """Leagues and seasons changed at random, judged by the second reading."""
    rng = random.Random(t.seed)
    pairs = [(I4, C4_TEXT), (example("nine-classes.xml"), example("refused-season.xml"))]
    pairs += [(example("nine-classes.xml"), example("accepted-season.xml"))]
    pairs += [(example("competition.xml"), example("competition-season.xml")), (example("one-home-game.xml"), C4_TEXT)]
    pairs += [(t.run("make", n, seed).out, t.run("circle", n).out) for n, seed in (("2", "1"), ("4", "1"), ("6", "2"))]
    kinds = collections.Counter()
    for first in range(0, t.cases, BATCH):
        runs, wanted = [], []
        for k in range(min(BATCH, t.cases - first)):
            league, season = rng.choice(pairs)
            if rng.random() < 0.6:
                league = changed_file(rng, league, [rng.choice(pairs)[0]])
            else:
                season = changed_file(rng, season, [rng.choice(pairs)[1]])
            it, path = t.path(f"league-{k}.xml", league), t.path(f"season-{k}.xml", season)
            runs.append((os.path.join(t.folder, f"told-{k}"), ["validate", it, path]))
            wanted.append(validated(league, season))
            status, text = wanted[-1]
            kinds[" ".join(text.split(" ")[1:3]) if status == 3 else f"status {status}"] += 1
        t.batch(runs, wanted)
        if first // BATCH % 5 == 0:
            told = instance_refusal(league)[1]
            few = ["--conflicts", "30"]
            found = [["solve", it, *few, "--moves", "20"], ["patterns", it, *few], ["explain", it, *few]]
            for words in (*found, ["part", it, "1"]):
                ran = t.run(*words)
                if told:
                    t.must((ran.status, ran.out.decode()) == (3, told), words, ran, told, files=[it])
                else:
                    is_part = words[0] == "part" and ran.out == b"refused constraint 1 Unknown\n"
                    is_other = ran.status in (0, 4, 5) or is_part
                    is_other = is_other or ran.out.startswith(b"refused rows TooLarge")
                    t.must(is_other and is_lawful(words[0], ran.status, ran.out.decode()), words, ran, files=[it])
                if words[0] == "solve" and ran.status == 0:
                    found = t.path("found.xml", ran.out)
                    t.answers(["validate", it, found], *validated(league, ran.out), files=[it, found])
                    t.must(t.run("validate", it, found).status == 0, "a season that is accepted", files=[it, found])
    print("    " + ", ".join(f"{it}: {count}" for it, count in kinds.most_common()), flush=True)


def texts(t):
    """Forms of text that no league has: CDATA, DTD, byte order marks, UTF-16, NUL, CRLF, entities, nesting."""
    season = t.path("season.xml", C4_TEXT)
    crlf = I4.replace(b"\n", b"\r\n")
    mark = b"\xef\xbb\xbf"
    cases = [b"", mark, mark + I4, mark + mark + I4, b"\n\n" + I4, b"x" + I4, b"\0" + I4, I4 + b"\0"]
    cases += [crlf, crlf[:-2], I4.replace(b"\n", b"\r"), I4.replace(b"\n", b"")]
    cases += [I4.decode().encode(it) for it in ("utf-16", "utf-16-be", "utf-32")]
    cases += [b"<!DOCTYPE Instance>" + I4, I4.replace(b"<Resources>", b"<![CDATA[x]]><Resources>")]
    cases += [I4.replace(b"<Resources>", it + b"<Resources>") for it in SNIPPETS]
    cases += [I4.replace(b"<team id=\"0\"/>", b"<team id=\"0\">" + it + b"</team>") for it in SNIPPETS]
    cases += [I4.replace(b"<Constraints>\n", b"<Constraints>" + it) for it in SNIPPETS]
    cases += [I4 + it for it in SNIPPETS] + [it + I4 for it in SNIPPETS]
    twos = [b"2", b" 2\t", b"<!-- -->2", b"2<!---->", b"0<!-- -->2", b"&#50;", b"2\0", b"", b"3", b"02"]
    cases += [I4.replace(b">2<", b">" + it + b"<") for it in twos]
    modes = [b"", b" ", b"NULL", b"p", b"P P", b"<P/>", b"N<!-- -->ULL", b"\r\nP"]
    cases += [I4.replace(b">P<", b">" + it + b"<") for it in modes]
    zeros = [b"'0'", b"0", b"\"0'", b"'0\"", b'"0"x="1"', b'"0"/', b'"0" /', b'"<"', b'">"', b'"&quot;"']
    cases += [I4.replace(b'"0"', it, 1) for it in zeros]
    for text in cases:
        it = t.path("league.xml", text)
        t.answers(["validate", it, season], *validated(text, C4_TEXT), files=[it])
        it = t.path("season-of.xml", text)
        league = t.path("league.xml", I4)
        t.answers(["validate", league, it], *validated(I4, text), files=[it])


def refuted(t):
    """Leagues with their rows and logs."""
    leagues_of = [[NO_HOME], [ONE_HOME], [NO_BREAK % 0], [NO_BREAK % 3]]
    leagues_of.append([NO_BREAK % 5, ONE_HOME.replace('max="1"', 'max="2"')])
    leagues_of.append(['<SE1 teams="0;1;2;3" min="3" type="HARD"/>'])
    leagues_of.append(['<FA2 teams="0;1;2;3" intp="0" slots="0;1;2;3;4;5" type="HARD"/>'])
    for classes in leagues_of:
        for phased in (True, False):
            text = instance_text(4, phased, classes)
            it = t.path("league.xml", text)
            found = []
            for words in (["--conflicts", "all"], ["--conflicts", "12", "--patterns", "0"]):
                ran = t.run("solve", it, *words)
                found += [ran.out] if ran.status in (4, 5) and len(ran.out) < 20_000 else []
            ran = t.run("patterns", it, "--conflicts", "all")
            found += [ran.out] if ran.status == 4 and len(ran.out) < 20_000 else []
            if b"NO" not in text and found:
                yield text, found, rows.league_rows(forms.read_instance(text))


def mutants(t):
    """Logs changed at random by steps, tokens and bytes, judged by the second reading."""
    rng = random.Random(t.seed)
    known = list(refuted(t))
    texts_of = [log for _, found, _ in known for log in found]
    print("    logs of", *sorted(log.count(b"\n") - 2 for log in texts_of), "steps", flush=True)
    kinds = collections.Counter()
    for number, (text, found, (count, own)) in enumerate(known):
        t.path(f"league-{number}.xml", text)
        for log in found:
            path = t.path("whole.log", log)
            it = os.path.join(t.folder, f"league-{number}.xml")
            t.answers(["check", it, path], *checked(count, own, log), files=[path])
    for first in range(0, t.cases, BATCH):
        runs, wanted = [], []
        for k in range(min(BATCH, t.cases - first)):
            number = rng.randrange(len(known))
            _, found, (count, own) = known[number]
            log = changed_log(rng, rng.choice(found), texts_of)
            path = t.path(f"changed-{k}.log", log)
            it = os.path.join(t.folder, f"league-{number}.xml")
            runs.append((os.path.join(t.folder, f"told-{k}"), ["check", it, path]))
            wanted.append(checked(count, own, log))
            kinds[certified.told_kind(wanted[-1][1])] += 1
        t.batch(runs, wanted)
    print("    " + ", ".join(f"{it}: {count}" for it, count in kinds.most_common()), flush=True)


# Large files.


def large(t):
    """Instances of 16 MiB and seasons of 1 MiB: time and peak memory beside the file's size."""
    season, it = t.path("season.xml", C4_TEXT), t.path("league.xml", I4)
    size = 16 * MIB
    head = b"<Instance>\n"
    before, after = I4.split(b"<Resources>")
    whole = validated(I4, C4_TEXT)[1]
    wide = b"<a " + b" ".join(b"a%d=''" % k for k in range(64)) + b"/>"
    value, behind = I4.split(b"<numberR")[0] + b"<numberRoundRobin>", b"2<" + I4.split(b">2<")[1]
    open_groups = before + I4[I4.index(b"<Resources>") : I4.index(b"</Constraints>")]
    cases = [
        ("endless <a>", b"", b"<a>", b"", 3, "refused instance BadNesting line 1\n"),
        ("endless <a> in Instance", head, b"<a>", b"", 3, None),
        ("endless <Instance>", b"", b"<Instance>", b"", 3, None),
        ("nested <a>, closed once", before, b"<a>", b"</a><Resources>" + after, 0, whole),
        ("endless <a/>", before, b"<a/>", b"<Resources>" + after, 0, whole),
        ("endless </a>", head, b"</a>", b"", 3, "refused instance BadNesting line 2\n"),
        ("comments", before, b"<!-- c -->", b"<Resources>" + after, 0, whole),
        ("one comment of dashes", before + b"<!--", b"-", b"--><Resources>" + after, 0, whole),
        ("one comment without end", before + b"<!--", b"- ", b"", 3, None),
        ("comments without end", before, b"<!--", b"", 3, None),
        ("declarations", before, b"<?a?>", b"<Resources>" + after, 0, whole),
        ("entities", before, b"&amp;", b"<Resources>" + after, 0, whole),
        ("text", before, b"text ", b"<Resources>" + after, 0, whole),
        ("lines", before, b"\n", b"<Resources>" + after, 0, whole),
        ("one tag's name", before + b"<", b"a", b"/><Resources>" + after, 0, whole),
        ("one attribute's name", before + b"<a ", b"a", b"='1'/><Resources>" + after, 0, whole),
        ("one attribute's value", before + b"<a a='", b"\n", b"'/><Resources>" + after, 0, whole),
        ("spaces in a tag", before + b"<a ", b" ", b"/><Resources>" + after, 0, whole),
        ("tags of 64 attributes", before, wide, b"<Resources>" + after, 0, whole),
        ("a value of spaces", value, b" ", behind, 0, whole),
        ("a number of zeros", value, b"0", behind, 3, None),
        ("a value in pieces", value, b"<!---->0", behind, 3, None),
        ("teams", I4.split(b"<team")[0], b'<team id="0"/>', I4[I4.index(b"</Teams>") :], 3, None),
        ("slots", I4.split(b"<slot")[0], b"<slot id='9'/>", I4[I4.index(b"</Slots>") :], 3, None),
        ("zero bytes", b"", b"\0", b"", 3, "refused instance Truncated line 1\n"),
        ("bytes 255", b"", b"\xff", b"", 3, "refused instance Truncated line 1\n"),
        ("<", b"", b"<", b"", 3, "refused instance BadTag line 1\n"),
        ("groups", open_groups, b"<GameConstraints/>", b"</Constraints></Instance>", 0, whole),
    ]
    front = I4[: I4.index(b"</Constraints>")] + b"<GameConstraints>"
    back = b"</GameConstraints></Constraints></Instance>"
    listed = b'<CA1 type="SOFT" max="9" mode="H" slots="2" teams="'
    cases.append(("a list of teams", front + listed, b"0;", b'"/>' + back, 0, None))
    cases.append(("a list of teams as 000", front + listed, b"000;", b'"/>' + back, 0, None))
    meetings = b'<GA1 type="SOFT" min="0" max="9" slots="0;1;2;3;4;5" meetings="'
    cases.append(("a list of meetings", front + meetings, b"0,1;1,0;", b'"/>' + back, 0, None))
    cases.append(("an id of zeros", front + listed + b"1;", b"0", b';"/>' + back, 0, None))
    for name, start, unit, end, status, text in cases:
        path = t.path("large.xml", *filled(start, unit, end, size))
        if "Resources" not in name and name in ("a number of zeros", "a value in pieces"):
            status = None
        if status is None:
            ran = t.run("validate", path, season)
            status = ran.status
        measured(t, name, ["validate", path, season], status, text, size)
    rng = random.Random(1)
    path = t.path("large.xml", *[rng.randbytes(MIB) for _ in range(16)])
    measured(t, "random bytes", ["validate", path, season], 3, None, size)
    games = ("games", b'<ScheduledMatch home="3" away="0" slot="0"/>')
    for name, unit in (games, ("comments", b"<!---->"), ("<a>", b"<a>"), ("text", b"a")):
        start = C4_TEXT[: C4_TEXT.index(b"<Games>") + 7]
        path = t.path("large.xml", *filled(start, unit, b"</Games></Solution>", MIB))
        measured(t, "season of " + name, ["validate", it, path], {"games": 3, "<a>": 3}.get(name, 1), None, MIB)


def costly(t):
    """Leagues that are dear to judge: many constraints of one class with all teams and slots; and how `bound` refuses
    the number of their bound rows' terms, which is that of one team's or one pair's so many times."""
    n = 40
    teams, slots = ";".join(map(str, range(n))), ";".join(map(str, range(78)))
    two = f'teams2="{teams}" max="1" mode1="HA"'
    pairs = "".join(f"{i},{j};" for i in range(n) for j in range(n) if i != j)
    cases = [
        ("CA1", f'<CA1 teams="%s" max="1" mode="H" slots="{slots}" type="SOFT"/>', 20_000, "0", n),
        ("CA2", f'<CA2 teams1="%s" {two} slots="{slots}" type="SOFT"/>', 20_000, "0", n),
        ("CA3", f'<CA3 teams1="%s" {two} intp="39" type="SOFT"/>', 20_000, "0", n),
        ("CA4 EVERY", f'<CA4 teams1="%s" {two} mode2="EVERY" slots="{slots}" type="SOFT"/>', 20_000, teams, 1),
        ("GA1", f'<GA1 meetings="%s" min="0" max="1" slots="{slots}" type="SOFT"/>', 1_500, pairs, 1),
        ("BR1", f'<BR1 teams="%s" intp="1" mode2="HA" slots="{slots}" type="SOFT"/>', 20_000, "0", n),
        ("BR2", f'<BR2 teams="%s" intp="1" slots="{slots}" type="SOFT"/>', 20_000, teams, 1),
        ("FA2", f'<FA2 teams="%s" intp="0" slots="{slots}" type="SOFT"/>', 20_000, "0;1", n * (n - 1) // 2),
        ("SE1", '<SE1 teams="%s" min="60" type="SOFT"/>', 20_000, "0;1", n * (n - 1) // 2),
    ]
    season, absent = t.path("forty.xml", t.run("circle", "40").out), os.path.join(t.folder, "absent")
    for name, line, count, few, times in cases:
        text = instance_text(n, True, [line % (pairs if name == "GA1" else teams)] * count)
        path = t.path("costly.xml", text)
        measured(t, f"{count} {name}", ["validate", path, season], 0, None, len(text), seconds=900)
        once, twice = (certified.bound_size_of(instance_text(n, True, [line % few] * k)) for k in (1, 2))
        told = f"refused rows TooLarge terms {once + (count * times - 1) * (twice - once)}\n"
        measured(t, f"bound of {count} {name}", ["bound", path, absent], 3, told, len(text), seconds=900)


def heavy(t):
    """Logs of 256 MiB: time and peak memory beside the file's size."""
    text = instance_text(4, True, [NO_HOME])
    it, size = t.path("league.xml", text), 256 * MIB
    start = b"refutation 1\n"
    rng = random.Random(2)
    cases = [
        ("random bytes", 3, None, lambda: (rng.randbytes(MIB) for _ in range(256))),
        ("spaces", 3, "refused log TooLong line 1\n", lambda: (b" " * MIB for _ in range(256))),
        ("spaces and one", 3, f"refused log TooLong limit {size}\n", lambda: [b" ", *(b" " * MIB for _ in range(256))]),
        ("a single endless step", 3, "refused log TooLong line 2\n", lambda: filled(start, b"1 ", b"", size)),
        ("empty lines", 3, "refused log BadLine line 2\n", lambda: filled(start, b"\n", b"", size)),
    ]
    for name, status, answer, chunks in cases:
        path = t.path("heavy.log", *chunks())
        measured(t, name, ["check", it, path], status, answer, os.path.getsize(path))
    os.remove(path)
    measured(t, "/dev/zero", ["check", it, "/dev/zero"], 3, "refused log TooLong limit 268435456\n", size)


def steps(t):
    """Logs of many steps and of long lines: time and peak memory beside the file's size."""
    it = t.path("league.xml", instance_text(4, True, [NO_HOME]))
    short, clauses = ("short steps", b"1 -1 0 0\n"), ("clauses", b"1 2 3 4 5 6 7 8 -1 0 0\n")
    for name, unit in (short, clauses, ("hints", b"1 -1 0 1 1 1 1 1 1 0\n")):
        many = 32 * MIB // len(unit)
        path = t.path("steps.log", b"refutation 1\n", *[unit * 1024] * (many // 1024), b"end\n")
        answer = f"rejected step {many // 1024 * 1024} cause NoEmptyClause\n"
        measured(t, f"{many // 1024 * 1024} {name}", ["check", it, path], 1, answer, os.path.getsize(path))
    for name, head, unit, tail, told in (
        ("a literal again and again", b"", b"1 ", b"0 0\n", "NoConflict"),
        ("a literal and its negation", b"", b"1 -1 ", b"0 0\n", "NoEmptyClause"),
        ("a hint again and again", b"0 ", b"133 ", b"0\n", "NoConflict"),
        ("literals that are no variable", b"", b"2147483647 ", b"0 0\n", "UnknownVariable"),
    ):
        line = head + unit * ((16 * MIB - len(head) - len(tail)) // len(unit)) + tail
        path = t.path("line.log", b"refutation 1\n", line, b"end\n")
        measured(t, name, ["check", it, path], 1, f"rejected step 1 cause {told}\n", os.path.getsize(path))
    line = b"l " + b"1 133 " * ((16 * MIB - 6) // 6) + b"0 1\n"
    path = t.path("line.log", b"refutation 2\n", line, b"end\n")
    told = "rejected step 1 cause NoEmptyClause\n"
    measured(t, "a sum of one row again and again", ["check", it, path], 1, told, os.path.getsize(path))


HEAVY = [costly, steps, heavy, *certified.HEAVY, *doors.HEAVY, *rooms.HEAVY, *floors.HEAVY]
GROUPS = [prefixes, wild, limits, edges, memory, faults, devices, texts, mutants, files, large]
GROUPS += [*certified.GROUPS, *doors.GROUPS, *rooms.GROUPS, *floors.GROUPS, *HEAVY]
# Groups that draw their cases, as many as are asked for: another seed makes other cases.
DRAWN = {"mutants", "files", "rechanged", "reshown", "said", "begun", "pictured", "listed", "valued", "nearby", "room_exact"}
DRAWN.add("floors_drawn")


class Table:
    """How many cases each group made, how many differed, and how many seconds it took."""

    def __init__(self):
        self.rows = {}

    def add(self, group, *numbers):
        """Adds the cases, differences and seconds of one run of a group."""
        self.rows[group] = [one + more for one, more in zip(self.rows.get(group, (0, 0, 0.0)), numbers)]

    def sums(self):
        """The cases, differences and seconds of all groups."""
        return [sum(row[k] for row in self.rows.values()) for k in range(3)]

    def show(self):
        """Prints a line for each group, and one for all."""
        print(f"{'group':12} {'cases':>9} {'differences':>12} {'seconds':>8}")
        for group, row in [*self.rows.items(), ("all", self.sums())]:
            print(f"{group:12} {row[0]:9} {row[1]:12} {row[2]:8.0f}", flush=True)


def run_group(group, said, seed, table):
    """One run of a group, in a folder of its own."""
    with tempfile.TemporaryDirectory(dir=said.scratch) as folder:
        t = Tries(said.program, folder, said.keep)
        t.group, t.cases, t.seed, t.only = group.__name__, said.cases, seed, said.only and said.only.split(",")
        began = time.monotonic()
        group(t)
        t.flush()
        t.server.end()
        numbers = t.count[t.group], t.differences[t.group], time.monotonic() - began
        print(f"{t.group}: {numbers[0]} cases, {numbers[1]} differences, {numbers[2]:.0f} s", flush=True)
        table.add(t.group, *numbers)


def main():
    """Runs the groups that are named."""
    words = argparse.ArgumentParser(description=__doc__, formatter_class=argparse.RawDescriptionHelpFormatter)
    words.add_argument("program")
    words.add_argument("groups", nargs="*")
    words.add_argument("--cases", type=int, default=2000)
    words.add_argument("--seed", type=int, default=0)
    words.add_argument("--keep")
    words.add_argument("--only", default="", help="commands, joined by `,`")
    words.add_argument("--scratch", help="where the folders stand; one in memory, as /dev/shm, is faster")
    words.add_argument("--names", action="store_true", help="prints the groups, `stopped` among them, and runs none")
    words.add_argument("--total", type=int, default=0, help="at least so many cases in all")
    said = words.parse_args()
    if said.names:
        print(*(it.__name__ for it in GROUPS if it not in HEAVY or it in doors.HEAVY))
        return
    chosen = [it for it in GROUPS if (it.__name__ in said.groups if said.groups else it not in HEAVY)]
    table, seed = Table(), said.seed
    for group in chosen:
        run_group(group, said, seed, table)
    drawn = [it for it in chosen if it.__name__ in DRAWN]
    while drawn and table.sums()[0] < said.total:
        seed += 1
        for group in drawn:
            run_group(group, said, seed, table)
    table.show()
    raise SystemExit(1 if table.sums()[1] else 0)


main()
