#!/usr/bin/env python3
"""Tries what a time limit and the signals do to `solve`, `prove`, `resume` and `explain`, from outside, and counts what is lost.

    python3 second/long_runs.py ./robin
    python3 second/long_runs.py PROGRAM

With PROGRAM the signals are blocked here, as ./robin blocks them; the launcher ./robin is tried too, over a copy of PROGRAM. Each run has to end within SLACK
seconds of its limit or of the signal. Each season that is written is given to `validate`, each log or certificate to `check`, `bound` or `audit`, and of a
conflict the log and each season to these over the league's part. What a run tells on a terminal and in a file (progress.py says what is wrong with it), whether
more time is ever worse, and what SIGKILL leaves in a walk and in a descent, is tried too. What differs is said, and the status is 1 then. An idle machine is
wanted: the limits are of the clock.
"""
import hashlib
import os
import pty
import re
import select
import shlex
import shutil
import signal
import subprocess
import sys
import tempfile
import time

import progress

TOP = os.path.dirname(os.path.dirname(os.path.abspath(__file__)))
BLOCKED = ["env", "--default-signal=INT", "--block-signal=INT", "--block-signal=TERM", "--block-signal=HUP"]
SLACK = float(os.environ.get("SLACK", "0.5"))
EASY = "examples/northern-league.xml"
TIGHT = "bench/leagues/tight-16-phased.xml"
MIDDLE = "bench/leagues/middle-16-phased.xml"
EASY_FOR_WALKS = "bench/leagues/easy-16-phased.xml"
CLOSED = "examples/northern-closed.xml"
SIGNALS = [("INT", signal.SIGINT), ("TERM", signal.SIGTERM), ("HUP", signal.SIGHUP)]
FEW_BREAKS = """<Instance>
<Structure><Format leagueIds="0"><numberRoundRobin>2</numberRoundRobin><compactness>C</compactness><gameMode>P</gameMode></Format></Structure>
<Resources><Teams>%s</Teams><Slots>%s</Slots></Resources>
<Constraints><BreakConstraints>
<BR2 teams="%s" intp="11" homeMode="HA" mode2="LEQ" slots="%s" type="HARD" penalty="1"/>
</BreakConstraints></Constraints>
</Instance>
"""

wrong = 0
runs = 0


def few_breaks(path):
    """Eight teams in two phases with at most 11 breaks: there is no season."""
    teams = "".join('<team id="%d"/>' % team for team in range(8))
    slots = "".join('<slot id="%d"/>' % slot for slot in range(14))
    with open(path, "w") as file:
        file.write(FEW_BREAKS % (teams, slots, ";".join(map(str, range(8))), ";".join(map(str, range(14)))))


def say(name, fault, detail=""):
    """Counts a run, and says what came of it."""
    global wrong, runs
    runs += 1
    if fault:
        wrong += 1
    print("%-62s %s %s" % (name, "WRONG: " + fault if fault else "ok", detail), flush=True)


def judged(command, league, status, text):
    """What is wrong with what `solve` wrote: nothing where a season is accepted, or a log is one."""
    with tempfile.NamedTemporaryFile("wb", suffix=".xml") as file:
        file.write(text)
        file.flush()
        if status == 0:
            done = subprocess.run(command + ["validate", league, file.name], capture_output=True)
            return None if done.returncode == 0 else "validate says %d of its season" % done.returncode
        if status == 4:
            done = subprocess.run(command + ["check", league, file.name], capture_output=True)
            return None if done.returncode == 0 else "check says %d of its log" % done.returncode
        if status == 5:
            return None if text.startswith(b"robin log") or text else "nothing is written"
        return "status %d" % status


def limited(command, league, seconds, options=()):
    """One run with a time limit."""
    began = time.monotonic()
    done = subprocess.run(command + ["solve", league, "--seconds", str(seconds), *options], capture_output=True, cwd=TOP, timeout=seconds + 60)
    passed = time.monotonic() - began
    fault = judged(command, league, done.returncode, done.stdout)
    if passed > seconds + SLACK:
        fault = fault or "late"
    say("solve %s --seconds %d %s" % (os.path.basename(league), seconds, " ".join(options)), fault, "status %d after %.2f s" % (done.returncode, passed))


def run(command, words):
    return subprocess.run(command + words, capture_output=True, cwd=TOP)


def written(command, words, text):
    """What is wrong with a text, by a command over files of which the last is the text's: nothing where the command says yes."""
    with tempfile.NamedTemporaryFile("wb") as file:
        file.write(text)
        file.flush()
        done = run(command, words + [file.name])
    return None if done.returncode == 0 else "%s says %d" % (words[0], done.returncode)


def conflict_parts(text):
    """The members of a conflict, whether it says that all are needed, its log, and of each member the word and the text of its case."""
    first, second, rest = text.split(b"\n", 2)
    log, rest = rest[: rest.index(b"\nend\n") + 5], rest[rest.index(b"\nend\n") + 5 :]
    cases = []
    while rest:
        head, rest = rest.split(b"\n", 1)
        word, number = head.split()
        end = b"</Solution>\n" if word == b"without" else b"end\n"
        size = rest.index(end) + len(end)
        cases.append((word, int(number), rest[:size]))
        rest = rest[size:]
    return [int(word) for word in first.split()[1:]], second, log, cases


def conflict_fault(command, league, text):
    """What is wrong with a conflict: nothing where its log refutes the part of its members, and each season is one of the part of the others."""
    members, minimal, log, cases = conflict_parts(text)
    if [number for _, number, _ in cases] != members:
        return "other cases than members"
    if (minimal == b"minimal yes") != all(word == b"without" for word, _, _ in cases):
        return minimal.decode() + " is wrong"
    with tempfile.NamedTemporaryFile("wb") as part:
        for number, command_word, case in [(0, "check", log)] + [(number, "validate", case) for word, number, case in cases if word == b"without"]:
            others = ";".join(str(member) for member in members if member != number)
            if others:
                part.seek(0)
                part.truncate()
                part.write(run(command, ["part", league, others]).stdout)
                part.flush()
                fault = written(command, [command_word, part.name], case)
                if fault:
                    return "%s of member %d" % (fault, number)
    return None


def answer_fault(command, checks, status, text):
    """What is wrong with an answer. `checks` has, for a status, the command that judges its text; a spent log is looked at."""
    if status == 5:
        return None if b"refutation " in text and text.endswith(b"end\n") else "no log"
    if status not in checks:
        return "status %d" % status
    if text.startswith(b"trial "):
        text = text[re.search(rb"<\?xml|refutation ", text).start() :]
    words = checks[status]
    return conflict_fault(command, words[1], text) if words[0] == "explain" else written(command, words, text)


def left_open(status, text):
    """How many members a conflict leaves undecided, and how many of them weren't tried."""
    if status != 4 or not text.startswith(b"conflict "):
        return ""
    logs = [case for word, _, case in conflict_parts(text)[3] if word == b"undecided"]
    return ", %d members undecided, %d of them untried" % (len(logs), sum(log.count(b"\n") == 2 for log in logs))


def searched(command, words, checks, seconds):
    """One run with a time limit, and no other, whose text goes into a file: a log of five seconds has some 40 MB."""
    with tempfile.TemporaryFile() as file:
        began = time.monotonic()
        done = subprocess.run(command + words + ["--conflicts", "all", "--seconds", str(seconds)], stdout=file, stderr=subprocess.DEVNULL, cwd=TOP, timeout=seconds + 60)
        passed = time.monotonic() - began
        file.seek(0)
        text = file.read()
    fault = answer_fault(command, checks, done.returncode, text)
    if passed > seconds + SLACK:
        fault = fault or "late"
    names = " ".join(os.path.basename(word) for word in words)
    detail = "status %d after %.2f s%s" % (done.returncode, passed, left_open(done.returncode, text))
    say("%s --seconds %d" % (names, seconds), fault, detail)


def interrupted(command, words, checks, asked, times=1):
    """One run that a signal asks to end after two seconds, so many times."""
    name, number = asked
    words = words + ["--conflicts", "all"]
    going = subprocess.Popen(command + words, stdout=subprocess.PIPE, stderr=subprocess.DEVNULL, cwd=TOP)
    time.sleep(2)
    began = time.monotonic()
    for _ in range(times):
        going.send_signal(number)
        time.sleep(0.02)
    text, _ = going.communicate(timeout=60)
    passed = time.monotonic() - began
    fault = "the answer is lost" if going.returncode < 0 else answer_fault(command, checks, going.returncode, text)
    if passed > SLACK + 0.1:
        fault = fault or "late"
    names = " ".join(os.path.basename(word) for word in words[:-2])
    detail = "status %d, %.2f s later%s" % (going.returncode, passed, left_open(going.returncode, text))
    say("%s, %s after 2 s%s" % (names, name, " and again" * (times - 1)), fault, detail)


def crowded(path):
    """Twenty teams, of which the first may not be at home in 20 slots of 38: a conflict of 20 members, each of which takes a search."""
    write_league(path, 20, ['<CA1 teams="0" max="0" mode="H" slots="%d" type="HARD"/>' % slot for slot in range(20)])


def wished(path, n, more=()):
    """Teams that would each rather not be at home, or away, in 30 slots: without more demands the textbook season is accepted, and a long descent begins there."""
    wish = '<CA1 teams="%d" max="0" mode="%s" slots="%d" type="SOFT" penalty="%d"/>'
    wishes = [wish % (team, "HA"[(team + k) * 7 % 5 % 2], (team * 37 + k * 11) % (2 * n - 2), 1 + (team + k) % 10) for team in range(n) for k in range(30)]
    write_league(path, n, [*wishes, *more])


def write_league(path, n, wishes):
    """A league of n teams with these CA1."""
    teams = "".join('<team id="%d"/>' % team for team in range(n))
    slots = "".join('<slot id="%d"/>' % slot for slot in range(2 * n - 2))
    text = FEW_BREAKS.replace(">P<", "><") % (teams, slots, "0", "0")
    first, last = text.index("<BreakConstraints>"), text.index("</Constraints>")
    with open(path, "w") as file:
        file.write(text[:first] + "<CapacityConstraints>\n" + "\n".join(wishes) + "\n</CapacityConstraints>\n" + text[last:])


def made_files(command, folder):
    """A made league, a season of it that no single move betters, the textbook season of 16 teams, and the crowded league."""
    league, season, circle, crowd = (os.path.join(folder, name) for name in ("made.xml", "season.xml", "circle.xml", "crowded.xml"))
    for name, words in ((league, ["make", "16", "7"]), (circle, ["circle", "16"]), (season, ["solve", league])):
        with open(name, "wb") as file:
            subprocess.run(command + words, stdout=file, cwd=TOP)
    crowded(crowd)
    return league, season, circle, crowd


def other_commands(command, files):
    """`prove` over a season that no single move betters, `resume` over one that its league doesn't accept, `explain` over three leagues."""
    league, season, circle, crowd = files
    cases = [(["prove", league, season], {0: ["bound", league], 9: ["validate", league]})]
    for k in ("2", "20"):
        cases.append((["resume", MIDDLE, circle, k], {0: ["validate", MIDDLE], 4: ["audit", MIDDLE, circle, k]}))
    for file in (crowd, TIGHT, CLOSED):
        cases.append((["explain", file], {0: ["validate", file], 4: ["explain", file]}))
    for words, checks in cases:
        for seconds in (0, 1, 5):
            searched(command, words, checks, seconds)
        for asked in SIGNALS:
            interrupted(command, words, checks, asked)
    for words, _ in (cases[0], cases[1], cases[5]):
        same_text(command, words + ["--conflicts", "50"])


def launcher_over(program, folder):
    """The launcher ./robin beside a copy of a program, as if that were the released one of these sources."""
    release = os.path.join(folder, "release")
    os.mkdir(release)
    launcher = shutil.copy(os.path.join(TOP, "robin"), folder)
    copied = shutil.copy(program, os.path.join(release, "robin"))
    with open(copied, "rb") as file:
        checksum = hashlib.sha256(file.read()).hexdigest()
    for name, text in (("sources", "#!/bin/sh\necho these\n"), ("MADE-FROM", "sources: these\n"), ("SHA256SUMS", checksum + "  robin\n")):
        with open(os.path.join(release, name), "w") as file:
            file.write(text)
    os.chmod(os.path.join(release, "sources"), 0o755)
    return [launcher]


def by_launcher(launcher, files):
    """The launcher, asked to end by each signal, once and twice, and by Ctrl-C at a terminal."""
    league, season, circle, crowd = files
    solved = {0: ["validate", MIDDLE], 4: ["check", MIDDLE]}
    cases = [
        (["solve", MIDDLE, "--seconds", "60"], solved),
        (["trial", "16", "7", "--seconds", "60"], {0: ["validate", league], 4: ["check", league]}),
        (["prove", league, season], {0: ["bound", league], 9: ["validate", league]}),
        (["resume", MIDDLE, circle, "2"], {0: ["validate", MIDDLE], 4: ["audit", MIDDLE, circle, "2"]}),
        (["explain", crowd], {0: ["validate", crowd], 4: ["explain", crowd]}),
    ]
    for words, checks in cases:
        for asked in SIGNALS:
            for times in (1, 2):
                interrupted(launcher, words, checks, asked, times)
        for times in (1, 2):
            typed(launcher, words, checks, times)


def typed(command, words, checks, times):
    """One run at a terminal where Ctrl-C is typed after two seconds, so many times."""
    words = words + ["--conflicts", "all"]
    with tempfile.NamedTemporaryFile("rb") as file:
        child, side = pty.fork()
        if child == 0:
            os.dup2(os.open(file.name, os.O_WRONLY), 1)
            os.chdir(TOP)
            os.execvp(command[0], command + words)
        time.sleep(2)
        began = time.monotonic()
        for _ in range(times):
            os.write(side, b"\x03")
            time.sleep(0.02)
        _, code = os.waitpid(child, 0)
        os.close(side)
        passed = time.monotonic() - began
        status = os.waitstatus_to_exitcode(code)
        text = file.read()
    fault = "the answer is lost" if status < 0 else answer_fault(command, checks, status, text)
    if passed > SLACK + 0.1:
        fault = fault or "late"
    names = " ".join(os.path.basename(word) for word in words[:-2])
    say("%s, Ctrl-C typed %s" % (names, "once" if times == 1 else "twice"), fault, "status %d, %.2f s later" % (status, passed))


def asked(command, league, name, number, behind):
    """One run that is asked to end by a signal."""
    going = subprocess.Popen(command + ["solve", league, "--seconds", "60"], stdout=subprocess.PIPE, stderr=subprocess.DEVNULL, cwd=TOP)
    time.sleep(behind)
    going.send_signal(number)
    began = time.monotonic()
    text, _ = going.communicate(timeout=60)
    passed = time.monotonic() - began
    lost = going.returncode < 0 or not text
    fault = "the season is lost" if lost else judged(command, league, going.returncode, text)
    if passed > SLACK + 0.1:
        fault = fault or "late"
    say("solve %s, %s after %.1f s" % (os.path.basename(league), name, behind), fault, "status %d, %.2f s later" % (going.returncode, passed))


def by_timeout(command, league):
    """`timeout` sends TERM, as a job's limit does."""
    done = subprocess.run(["timeout", "2"] + command + ["solve", league, "--seconds", "60"], capture_output=True, cwd=TOP)
    fault = "nothing is written" if not done.stdout else judged(command, league, 0, done.stdout)
    say("timeout 2 .. solve %s" % os.path.basename(league), fault, "status %d" % done.returncode)


def same_text(command, words):
    """The text is the same, whoever hears how the run goes. Only what is said of a conflict comes on standard error with `--quiet` too."""
    print(" ".join(os.path.basename(word) for word in words))
    whole = subprocess.run(command + words + ["--quiet"], capture_output=True, cwd=TOP)
    say("--quiet: standard error is empty", "it isn't" if re.search(rb"robin: [0-9]", whole.stderr) or whole.stderr and whole.returncode != 4 else None)
    words = command + words
    closed = subprocess.run(["sh", "-c", '"$@" 2>&-', "sh"] + words, stdout=subprocess.PIPE, cwd=TOP)
    say("2>&-: the same text", None if closed.stdout == whole.stdout and closed.returncode == whole.returncode else "another text")
    full = subprocess.run(["sh", "-c", '"$@" 2>/dev/full', "sh"] + words, stdout=subprocess.PIPE, cwd=TOP)
    say("2>/dev/full: the same text", None if full.stdout == whole.stdout else "another text")
    piped = subprocess.run(["sh", "-c", '"$@" 2>&1 >/dev/null | head -c 1 >/dev/null; exit 0', "sh"] + words, cwd=TOP)
    say("2>&1 >/dev/null | head -c 1", None if piped.returncode == 0 else "status %d" % piped.returncode)
    text, screen = on_terminal(words)
    say("standard error a terminal: the same text", None if text == whole.stdout else "another text")
    return screen


def on_terminal(words):
    """What goes to standard output, and what to a terminal on standard error."""
    ours, theirs = pty.openpty()
    going = subprocess.Popen(words, stdout=subprocess.PIPE, stderr=theirs, cwd=TOP)
    os.close(theirs)
    text = going.stdout.read()
    going.wait()
    os.set_blocking(ours, False)
    screen = b""
    try:
        while True:
            part = os.read(ours, 65536)
            if not part:
                break
            screen += part
    except OSError:
        pass
    os.close(ours)
    return text, screen


def told(command):
    """A line on a terminal, and a line each ten seconds elsewhere, with a limit and without."""
    for options in (["--seconds", "6"], ["--tries", "2", "--moves", "3000"]):
        text, screen = on_terminal(command + ["solve", MIDDLE, *options])
        lines = progress.lines_of(screen)
        fault = progress.fault_of(lines) or (None if b"\n" not in screen and screen.endswith(b"\r\x1b[K") else "it isn't wiped")
        if text.startswith(b"<?xml") and progress.LINE.fullmatch(lines[-1])["best"]:
            best = progress.number(progress.LINE.fullmatch(lines[-1]), "best")
            fault = fault or (None if objective_of(text) <= best else "a better one was told")
        say("a terminal: one line, wiped at the end, solve %s" % " ".join(options), fault, "%d times" % len(lines))
        show(lines)
    for front, options in (([], ["--seconds", "21"]), (["timeout", "21"], ["--tries", "100"])):
        done = subprocess.run(front + command + ["solve", MIDDLE, *options], capture_output=True, cwd=TOP)
        lines = done.stderr.decode().splitlines()
        fault = progress.fault_of(lines) or ("bars" if any("[" in line for line in lines) else None)
        times = [int(progress.LINE.fullmatch(line)["passed"]) for line in lines] if fault is None else []
        fault = fault or ("not each ten seconds" if any(later - earlier < 9 for earlier, later in zip([0] + times, times)) else None)
        say("no terminal: a line each ten seconds, %s solve %s" % (" ".join(front), " ".join(options)), fault, "%d lines" % len(lines))
        show(lines)


def show(lines):
    """Prints the first line of each stage, and the last line."""
    stages = set()
    for place, line in enumerate(lines):
        found = progress.LINE.fullmatch(line)
        stage = found["stage"] if found else line
        if stage not in stages or place == len(lines) - 1:
            stages.add(stage)
            print("    " + line)


def by_script(command):
    """A terminal's screen as `script` keeps it: each part of the line is seen, and the line keeps to one row, also where the terminal is narrow."""
    cases = [(["--tries", "3", "--moves", "2000"], ("number", "stage", "turns", "limit", "bar", "rate")), (["--seconds", "8"], ("seconds", "time", "best", "rate"))]
    for options, parts in cases:
        words = " ".join(map(shlex.quote, command + ["solve", EASY_FOR_WALKS, *options]))
        with tempfile.NamedTemporaryFile("rb") as file:
            subprocess.run(["script", "-q", "-e", "-c", words + " >/dev/null", file.name], stdin=subprocess.DEVNULL, stdout=subprocess.DEVNULL, cwd=TOP)
            text = file.read()
        start, end = text.find(b"\r\x1b[?7l"), text.rfind(b"\r\x1b[K")
        screen = text[max(start, 0) : end]
        lines = progress.lines_of(screen)
        missing = progress.has_all(lines, parts)
        fault = progress.fault_of(lines) or ("no line has a " + missing if missing else None)
        rows = [len(progress.Screen(columns).feed(screen).rows) for columns in (120, 80, 40)]
        say("script: solve %s: %s" % (" ".join(options), " ".join(parts)), fault or ("%s rows" % rows if max(rows) > 1 else None), "%d times" % len(lines))
        show(lines)


def objective_of(text):
    """The objective that a season file states."""
    match = re.search(rb'objective="([0-9]+)"', text)
    return int(match.group(1)) if match else None


def more_time(command, league):
    """More time is never worse, and counted tries don't hear of the time."""
    best = None
    for seconds in (1, 2, 4, 8):
        done = run(command, ["solve", league, "--seconds", str(seconds), "--quiet"])
        fault = judged(command, league, done.returncode, done.stdout)
        objective = objective_of(done.stdout) if done.returncode == 0 else None
        if best is not None and (objective is None or objective > best):
            fault = fault or "worse than %d in less time" % best
        say("solve %s --seconds %d: not worse than in less time" % (os.path.basename(league), seconds), fault, "objective %s" % objective)
        best = objective if best is None else best
        best = best if objective is None else min(best, objective)
    words = ["solve", league, "--moves", "300", "--tries", "3", "--quiet"]
    same = run(command, words).stdout == run(command, words + ["--seconds", "1000"]).stdout
    say("solve %s --tries 3: the same text with --seconds 1000" % os.path.basename(league), None if same else "another text")


def told_of(command, words, front):
    """What a command tells on a terminal in four seconds; one line has this front behind the seconds. Plain `resume` has no tries."""
    _, screen = on_terminal(command + words + ["--seconds", "4"])
    lines = progress.lines_of(screen)
    fault = progress.fault_of(lines) or (None if any(re.search("s( \\[[# ]*\\])?: " + front, line) for line in lines) else "no such line")
    if words[0] == "resume" and "--near" not in words and any(": try " in line for line in lines):
        fault = fault or "a try"
    say("%s on a terminal: %s" % (words[0], front), fault, "%d times" % len(lines))
    show(lines)


def missed_late(command, folder):
    """A league of 30 teams, which misses a hard demand in the last slot of the textbook season, and that season: a long descent begins at what `resume` finds."""
    league, season = (os.path.join(folder, name) for name in ("late.xml", "late-season.xml"))
    wished(league, 30, ['<CA1 teams="0" max="0" mode="A" slots="57" type="HARD"/>'])
    with open(season, "wb") as file:
        file.write(run(command, ["circle", "30"]).stdout)
    return league, season


def told_by_others(command, files, folder):
    """The lines of `prove`, of `explain` and of `resume`."""
    league, season, circle, crowd = files
    told_of(command, ["prove", league, season, "--conflicts", "all"], "proving at least [0-9]+, search, [0-9]+ conflicts, [0-9.]+/s")
    told_of(command, ["explain", crowd, "--conflicts", "all"], "[0-9]+ members still to be tried, ")
    told_of(command, ["resume", MIDDLE, circle, "2", "--conflicts", "all"], "search, [0-9]+ conflicts")
    told_of(command, ["resume", *missed_late(command, folder), "4"], "descent, [0-9]+ of 10000 moves")
    told_of(command, ["resume", MIDDLE, circle, "2", "--near", "--conflicts", "100"], "try [0-9]+, walk on ")


def killed_at(command, words, pattern):
    """A run at whose terminal a line comes that has this pattern, and which SIGKILL ends then: the line, or None where the run ended, or a minute passed, before."""
    ours, theirs = pty.openpty()
    going = subprocess.Popen(command + words, stdout=subprocess.DEVNULL, stderr=theirs, cwd=TOP)
    os.close(theirs)
    end = time.monotonic() + 60
    screen, line = b"", None
    while line is None and time.monotonic() < end and going.poll() is None:
        if select.select([ours], [], [], 0.1)[0]:
            try:
                screen += os.read(ours, 65536)
            except OSError:
                break
        line = next((each for each in progress.lines_of(screen)[-1:] if re.search(pattern, each)), None)
    going.kill()
    going.wait()
    os.close(ours)
    return line


def killed(command, folder):
    """SIGKILL in a descent and in a walk: the file holds the season from which it began, or a later one; before any season there is none."""
    league, out = (os.path.join(folder, name) for name in ("wished.xml", "best.xml"))
    wished(league, 40)
    cases = [
        (league, [], "descent, before it best [0-9]+ after [0-9]+ s, [1-9]", True),
        (EASY_FOR_WALKS, ["--seconds", "60"], "walk on the objective, best", True),
        (TIGHT, ["--conflicts", "0", "--seconds", "60"], "walk on hard constraints, infeasibility", False),
    ]
    for file, options, pattern, kept in cases:
        line = killed_at(command, ["solve", file, "--out", out, *options], pattern)
        fault = None if line else "no such line"
        if os.path.exists(out):
            fault = fault or (None if run(command, ["validate", file, out]).returncode == 0 else "no season")
            os.remove(out)
        elif kept:
            fault = fault or "nothing is kept"
        say("solve %s --out, SIGKILL at: %s" % (os.path.basename(file), pattern), fault)
        print("    %s" % line)


def limits(command, folder):
    """`solve` of each kind of league within time limits."""
    none = os.path.join(folder, "few-breaks.xml")
    few_breaks(none)
    for league in (EASY, MIDDLE, TIGHT, none):
        for seconds in (0, 1, 5):
            limited(command, league, seconds)
    limited(command, TIGHT, 1, ("--tries", "3"))
    for seconds in (0, 1, 5):
        limited(command, TIGHT, seconds, ("--conflicts", "all", "--moves", "0"))


def main():
    command = sys.argv[1:]
    if not command:
        sys.exit(__doc__)
    command[0] = os.path.abspath(command[0])
    program = command[-1]
    is_launcher = os.path.basename(command[0]) == "robin" and os.access(command[0], os.X_OK) and open(command[0], "rb").read(2) == b"#!"
    os.chdir(TOP)
    with tempfile.TemporaryDirectory() as folder:
        launcher = command if is_launcher else launcher_over(program, folder)
        command = command if is_launcher else BLOCKED + command
        limits(command, folder)
        files = made_files(command, folder)
        other_commands(command, files)
        by_launcher(launcher, files)
        for league in (EASY, MIDDLE):
            for name, number in SIGNALS:
                asked(command, league, name, number, 3.0)
        by_timeout(command, EASY)
        same_text(command, ["solve", MIDDLE, "--moves", "2000", "--seed", "3"])
        told(command)
        by_script(command)
        told_by_others(command, files, folder)
        for league in (EASY, MIDDLE):
            more_time(command, league)
        killed(command, folder)
    print("%d runs, %d wrong" % (runs, wrong))
    sys.exit(1 if wrong else 0)


main()
