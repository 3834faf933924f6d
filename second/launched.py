"""Attacks what starts the program: ./robin, the page with files in it, and the scripts of fleet/ that judge answers.

The groups are hostile.py's. ./robin is tried where the released program is one of the sources that stand here: else it
would prove and build the program first.
"""

import base64
import os
import random
import re
import subprocess

import rows
from attack import C4_TEXT, I4, NO_HOME, NO_HOME_LOG, ONE_HOME
from attack import checked, instance_text, validated
from certified import league_of
from changes import changed_file, changed_log
from outside import outside, work_folder



TOP = os.path.abspath(os.path.join(os.path.dirname(os.path.abspath(__file__)), ".."))
LAUNCHER = os.path.join(TOP, "robin")


def is_released(what):
    """Whether the released program, or page, is one of the sources that stand here."""
    words = [os.path.join(TOP, "release", "sources"), *(["--page"] if what == "page" else [])]
    here = subprocess.run(words, capture_output=True, text=True, check=False).stdout.strip()
    with open(os.path.join(TOP, "release", "MADE-FROM"), encoding="utf-8") as file:
        return bool(here) and f"{what}: {here}\n" in file.read()


# Words with whether the answer is to be the same from ./robin and the program.
STARTED = ["--version", "--help", "solve --help", "", "what", "circle 4", "circle 5", "make 4 1", "trial 4 1 --moves 5"]
STARTED += ["validate absent absent", "validate - absent", "circle 4 --quiet", "--build-not", "page-not"]
STARTED.append("circle 4 --out")


def started(t):
    """./robin answers as the program that it starts: from every folder, and without an environment."""
    if not is_released("sources"):
        print("    (the released program is of other sources: ./robin isn't tried)", flush=True)
        return
    released = os.path.join(TOP, "release", "robin")
    ways = [([LAUNCHER], t.folder, None), (["./robin"], TOP, None), ([LAUNCHER], "/", {"PATH": "/usr/bin:/bin"})]
    for text in STARTED:
        words = text.split()
        plain = subprocess.run([released, *words], input=I4, capture_output=True, check=False)
        for front, folder, environment in ways:
            more = {"capture_output": True, "cwd": folder, "env": environment, "check": False}
            ran = subprocess.run([*front, *words], input=I4, **more)
            is_same = (ran.returncode, ran.stdout, ran.stderr) == (plain.returncode, plain.stdout, plain.stderr)
            t.must(is_same, front, folder, words, ran, plain)
    for word in ("\n", "a b", "*", "$(x)", "`x`", "'", '"', "\\", "\u00e9", "-n", "x" * 1000):
        for words in (["circle", word], ["validate", word, "absent"], [word]):
            plain = outside(t, words)
            ran = subprocess.run([LAUNCHER, *words], stdin=subprocess.DEVNULL, capture_output=True, check=False)
            t.must((ran.returncode, ran.stdout) == (plain.status, plain.out), words, ran, plain)


# The page.


GIVEN = re.compile(rb'<script type="text/plain" id="given-(\w+)" data-name="([\w+/=]*)">([\w+/=]*)</script>\n')


def page_of(words, out=subprocess.PIPE):
    """What `./robin page` writes."""
    streams = {"stdin": subprocess.DEVNULL, "stdout": out, "stderr": subprocess.PIPE}
    return subprocess.run([LAUNCHER, "page", *words], check=False, **streams)


def paged(t):
    """`./robin page`: what is in the page is each byte of the files and their names, and all else the released page."""
    if not is_released("page"):
        print("    (the released page is of other sources: it isn't tried)", flush=True)
        return
    rng, folder = random.Random(t.seed), work_folder(t)
    names = ["a", "a b", "'", '"', "</script>", "<!-- files -->", "$(x)", "a\nb", "\u00e9", "&amp;", "-n", "x" * 200]
    texts = [I4, b"", b"</script>", b"<!-- files -->\n", b"\0\xff", rng.randbytes(5000), C4_TEXT * 50]
    for name in names:
        texts_of = [rng.choice(texts) for _ in range(2)]
        paths = [os.path.join(folder, it) for it in (name.replace("/", "_"), "season")]
        for path, text in zip(paths, texts_of):
            with open(path, "wb") as file:
                file.write(text)
        for count in (1, 2):
            ran = page_of(paths[:count])
            fault = page_fault(ran.stdout, paths[:count], texts_of)
            t.must(ran.returncode == 0 and not fault, name, count, fault, ran.returncode, ran.stderr)
    league = t.path("league.xml", I4)
    for words, status in (([], 2), ([league] * 3, 2), ([folder], 6), ([league + "-none"], 6), ([league, folder], 6)):
        ran = page_of(words)
        t.must((ran.returncode, ran.stdout) == (status, b""), words, ran.returncode, ran.stdout[:80], ran.stderr)
    with open("/dev/full", "wb") as full:
        ran = page_of([league], full)
    t.must(ran.returncode == 7, "/dev/full", ran)


def page_fault(text, paths, texts):
    """What is wrong with a page that is to have the texts of these files in it."""
    with open(os.path.join(TOP, "release", "robin.html"), "rb") as file:
        plain = file.read()
    wanted = [(os.path.basename(path), it) for path, it in zip(paths, texts)]
    found = [(base64.b64decode(name).decode(), base64.b64decode(it)) for _, name, it in GIVEN.findall(text)]
    if [it[0] for it in GIVEN.findall(text)] != [b"league", b"season"][: len(paths)]:
        return "other parts"
    if found != wanted:
        return "other files"
    return None if GIVEN.sub(b"", text) == plain else "another page"


# The fleet.


def answer_told(league, name, text):
    """The status and the objective that fleet/best.sh is to say of an answer."""
    if name.endswith(".xml"):
        status, told = validated(league, text)
        objective = re.search(r"\nobjective (\d+)\n", told)
        return ("season", objective[1]) if status == 0 else ({1: "rejected", 3: "broken"}[status], "-")
    own = rows.league_rows(league_of(league)[0])
    status, told = checked(*own, text)
    spent = "spent" if told.endswith("NoEmptyClause\n") else "rejected"
    return {0: "refuted", 1: spent, 3: "broken"}[status], "-"


def fleet_answers(rng, seasons, logs):
    """Names and texts of answers in a folder of tries; and of files that are no answers."""
    found = {}
    for seed in rng.sample([0, 1, 2, 10, 99, 123456789012345], rng.randint(0, 5)):
        if rng.random() < 0.7:
            text = rng.choice(seasons)
            found[f"{seed}.xml"] = changed_file(rng, text, seasons) if rng.random() < 0.6 else text
        else:
            text = rng.choice(logs)
            found[f"{seed}.log"] = changed_log(rng, text, logs) if rng.random() < 0.6 else text
    strange = ["01.xml", "1x.xml", "1.xml.part", "a.xml", "1 2.xml", "-1.xml", "9999999999999999.xml", ".5.xml", "5"]
    return found, {it: rng.choice(seasons) for it in rng.sample(strange, 2)}


def fleets(t):
    """fleet/best.sh over folders of answers that were changed at random: its table, its status and the best season."""
    rng = random.Random(t.seed)
    one = t.path("one.xml", instance_text(4, True, [ONE_HOME]))
    logs = [NO_HOME_LOG, b"refutation 1\nend\n", t.run("solve", one).out]
    leagues = [I4, instance_text(4, True, [NO_HOME]), t.run("make", "4", "3").out]
    seasons = [C4_TEXT, t.run("circle", "4").out]
    seasons += [t.run("solve", t.path("league.xml", it)).out for it in (leagues[0], leagues[2])]
    for number in range(max(10, t.cases // 100)):
        folder = work_folder(t, f"fleet-{number}")
        league = rng.choice(leagues)
        answers, strange = fleet_answers(rng, seasons, logs)
        for name, text in {"league.xml": league, **answers, **strange}.items():
            with open(os.path.join(folder, name), "wb") as file:
                file.write(text)
        judged_folder(t, folder, league, answers)


def judged_folder(t, folder, league, answers):
    """One run of fleet/best.sh, and of it once more, which says the same."""
    told = {name: answer_told(league, name, text) for name, text in answers.items()}
    order = sorted(told, key=lambda name: int(name[:-4]))
    table = ["seed status objective seconds", *(f"{name[:-4]} {' '.join(told[name])} -" for name in order)]
    least = min((int(it[1]) for it in told.values() if it[0] == "season"), default=None)
    is_refuted = any(it[0] == "refuted" for it in told.values())
    status = 1 if is_refuted and least is not None else 4 if is_refuted else 5 if least is None else 0
    for _ in range(2):
        script = [os.path.join(TOP, "fleet", "best.sh"), folder]
        environment = {**os.environ, "ROBIN": t.program}
        ran = subprocess.run(script, capture_output=True, text=True, env=environment, check=False)
        is_so = ran.returncode == status and ran.stdout.split("\n")[: len(table)] == table
        t.must(is_so, sorted(answers), ran.returncode, "not", status, ran.stdout, table, ran.stderr)
        best = os.path.join(folder, "best.xml")
        if least is not None:
            with open(best, "rb") as file:
                said = answer_told(league, "0.xml", file.read())
            t.must(said == ("season", str(least)), "best.xml", said, least)
        else:
            t.must(not os.path.exists(best), "best.xml is there")


GROUPS = [started, paged, fleets]
