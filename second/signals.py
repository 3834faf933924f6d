"""Attacks runs by signals at random moments: what they leave is whole, their status is one that is documented, and they
end soon. The group is hostile.py's.
"""

import collections
import os
import random
import re
import signal
import subprocess
import time

from attack import NO_HOME, example, instance_text
from certified import AWAY_LATE, league_of, season_fault
from outside import OLD, Told, drafts, only_old, outside, work_folder


BLOCKED = ["env", "--default-signal=INT", "--block-signal=INT", "--block-signal=TERM", "--block-signal=HUP"]
SIGNALS = [signal.SIGINT, signal.SIGTERM, signal.SIGHUP, signal.SIGKILL]
# What ends as a time limit does where a signal is blocked.
LONG = ("solve", "trial", "prove", "resume", "explain")
LATE = 2.0
QUICK = ["validate {nine} {season}", "show {nine} {season}", "circle 40", "trial 6 3 --moves 500", "explain {none}"]
QUICK += ["solve {none}", "resume {late} {season} 2", "rows {large} --objective"]


def stopped_words(t):
    """Words whose answer goes into a file, with what judges that file's text: nothing where it is right."""
    leagues_of = [t.path(f"stopped-{n}.xml", t.run("make", n, "7").out) for n in ("6", "8", "12")]
    circle = t.path("stopped-circle.xml", t.run("circle", "8").out)
    for path in leagues_of:
        yield ["solve", path, "--seconds", "5"], lambda text, path=path: written_fault(t, path, text)
        yield ["solve", path, "--moves", "1000000"], lambda text, path=path: written_fault(t, path, text)
    eight = leagues_of[1]
    yield ["solve", eight, "--from", circle, "--seconds", "5"], lambda text: written_fault(t, eight, text)
    yield ["prove", eight, circle, "--conflicts", "all"], lambda text: written_fault(t, eight, text, "bound")
    yield ["resume", eight, circle, "3", "--conflicts", "all"], lambda text: written_fault(t, eight, text)
    near = ["resume", eight, circle, "3", "--near", "--seconds", "5"]
    yield near, lambda text: written_fault(t, eight, text)
    files = {"nine": example("nine-classes.xml"), "season": example("accepted-season.xml")}
    files.update({"none": instance_text(4, True, [NO_HOME]), "late": instance_text(4, True, [AWAY_LATE])})
    named = {name: t.path(f"stopped-{name}.xml", text) for name, text in files.items()}
    for words in QUICK:
        words = words.format(**named, large=leagues_of[2]).split()
        plain = outside(t, words)
        name = words[0]
        yield words, lambda text, plain=plain, name=name: None if text == plain.out else f"not what {name} writes"


def written_fault(t, path, text, other=None):
    """What is wrong with a season for a league, or with a certificate."""
    if other and not text.startswith(b"<?xml"):
        return None if t.run(other, path, t.path("stopped-text", text)).status == 0 else other
    with open(path, "rb") as file:
        league = league_of(file.read())[0]
    end = text.find(b"</Solution>\n") + 12
    fault = season_fault(league, text[:end])[0]
    is_told = re.fullmatch(rb"(<!-- [\w= ]+ -->\n)*", text[end:])
    said_by = t.run("validate", path, t.path("stopped-text", text)).status
    return fault or (None if is_told else "comments") or (None if said_by == 0 else f"validate says {said_by}")


# How a run is started, and what it ended as behind a signal: its words, what ran, and the signal.
Stopped = collections.namedtuple("Stopped", "words way which ran passed")


def stopped(t):
    """Signals at random moments, through ./robin and to the program: FILE is the old text or a whole right one, and the
    run ends within LATE seconds. LAUNCHER is the path of ./robin (none: it isn't tried), which has to start the program
    that is attacked."""
    rng, path = random.Random(t.seed), os.path.join(work_folder(t), "F")
    every = list(stopped_words(t))
    kinds, late = collections.Counter(), [0.0]
    for number in range(min(t.cases, 1000)):
        words, judge = rng.choice(every)
        only_old(path)
        end = stopped_once(t, rng, number, [*words, "--out", path])
        with open(path, "rb") as file:
            held = file.read()
        fault = stopped_fault(end, held, judge, drafts(os.path.dirname(path)))
        named = [os.path.basename(it) for it in words]
        t.must(not fault, end.way, end.which.name, named, fault, end.ran, held[:60])
        t.must(end.passed <= LATE, end.way, end.which.name, named, "late", end.passed)
        kinds[f"{end.way} status {end.ran.status}"] += 1
        kinds["the old text" if held == OLD else "a new text"] += 1
        late.append(end.passed)
        if number % 100 == 99:
            print(f"    {number + 1} runs, {t.differences[t.group]} differences", flush=True)
    print("    " + ", ".join(f"{it}: {count}" for it, count in sorted(kinds.items())), flush=True)
    print(f"    at most {max(late):.2f} s from a signal to the end", flush=True)


def stopped_once(t, rng, number, words):
    """One run that gets a signal at a random moment."""
    launcher = os.environ.get("LAUNCHER")
    way = "launcher" if launcher and number % 4 == 0 else rng.choice(["blocked", "bare"])
    front = {"launcher": [launcher], "blocked": [*BLOCKED, t.program], "bare": [t.program]}[way]
    which = rng.choice(SIGNALS)
    longest = 1.5 if way == "launcher" else 1.2
    ran, passed = signalled([*front, *words], which, rng.uniform(0, rng.choice([0.02, 0.2, longest])))
    return Stopped(words, way, which, ran, passed)


def signalled(words, which, wait):
    """A run that gets a signal behind so many seconds, and how long it goes on then."""
    pipe = subprocess.PIPE
    going = subprocess.Popen(words, stdin=subprocess.DEVNULL, stdout=pipe, stderr=pipe)
    time.sleep(wait)
    going.send_signal(which)
    began = time.monotonic()
    out, err = going.communicate(timeout=120)
    return Told(going.returncode, out, err, wait), time.monotonic() - began


def stopped_fault(end, held, judge, left):
    """What is wrong with how a run ended behind a signal, and with the file that it left."""
    ran, is_ended = end.ran, end.ran.status == -end.which
    if is_ended and end.way == "blocked" and end.which != signal.SIGKILL and end.words[0] in LONG:
        # Before `env` has blocked it a signal ends the run, with nothing begun.
        return None if held == OLD and not left and ran.out == b"" else "ended by a signal that is blocked"
    if not is_ended and ran.status not in range(11):
        return f"status {ran.status}"
    if left and not is_ended:
        return f"{left} is left"
    if is_ended and ran.out:
        return "something is printed"
    if not is_ended and held == OLD and ran.status in (0, 9) or ran.status in (2, 3, 6, 7, 8, 10):
        return "the answer is lost"
    return None if held == OLD else judge(held)


HEAVY = [stopped]
