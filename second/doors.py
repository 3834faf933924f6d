"""Attacks what stands around the commands: words that all share, help, standard input, time limits.

The groups are hostile.py's. What is demanded is said from the rules in words (docs/COMMANDS.md, docs/FORMATS.md): which
words are a command's, and what each of them gets. The doors of other modules are listed here: files that are written
(written.py), texts (answered.py), signals (signals.py), ./robin, the page and the fleet (launched.py).
"""

import collections
import os
import random
import subprocess

import answered
import forms
import launched
import signals
import written
from answered import stands
from attack import C4_TEXT, I4, NO_HOME, NO_HOME_LOG
from attack import example, instance_text
from certified import AWAY_LATE
from outside import PRINTED, outside, snapshot, tells, work_folder

TOP = os.path.join(os.path.dirname(os.path.abspath(__file__)), "..")


MOST = 2**64 - 1
NUMBERS = ["0", "1", str(MOST), str(MOST + 1), str(2**65), "00", "01", "-1", "-0", "+1", "", " 1", "1 ", "1.0", "1e3"]
NUMBERS.append("0x1")
NUMBERS += ["all", "-", "--", "--quiet", "1;2", "1,0", "\u0661", "9" * 400, "0" * 400, "1\n", "\n"]


def right_words(rng, absent):
    """Words of a command, with files that aren't there."""
    command = rng.choice(list(forms.COMMANDS))
    wanted, options = forms.COMMANDS[command]
    words = [{forms.is_file: absent, forms.is_list: "1;2"}.get(it, "4") for it in wanted]
    if command == "show" and rng.random() < 0.3:
        return [command, absent, "--demands", *rng.choice([[], ["1"], ["2;3"], ["4294967295"]])]
    if command == "rows" and rng.random() < 0.3:
        return [command, *rng.sample([absent, "--objective"], 2)]
    if command == "resume" and rng.random() < 0.5:
        near = [[], ["--tries", "7"], ["--moves", "9", "--seed", "0"], ["--seconds", "9"], ["--conflicts", "all"]]
        near = rng.choice(near)
        return [command, *words, "--near", *near]
    for option in rng.sample(list(options), rng.randint(0, min(len(options), 4))):
        value = {"--form": "csv", "--from": absent, "--tries": "7"}.get(option, rng.choice(["0", "9", "4294967295"]))
        place = rng.choice([k for k in range(len(words) + 1) if not k or not words[k - 1].startswith("--")])
        words[place:place] = [option, value]
    return [command, *words]


def drawn_words(rng, absent, kept):
    """Words of a command, of which a few were changed, put in or taken out; some with words that all commands share."""
    words = right_words(rng, absent)
    pool = [*forms.COMMANDS, "--help", "--version", "--near", "--quiet", "--out", "--log", "--objective", "--demands"]
    pool += ["-", "-x", "--", "", *forms.COMMANDS["solve"][1], "--bound", "--form", "--most", "--width", "--room", "--floor", "/dev/stdin"]
    pool += [absent, absent, "all", "csv"]
    pool += ["0", "1", "4", "6", "101", str(MOST), str(MOST + 1), "01", "1;2", "2;1", "\x1b[2J", "\u00e9", "a\nb"]
    for _ in range(rng.choice([0, 0, 1, 1, 2, 3])):
        place = rng.randint(0, len(words))
        words[place : place + rng.randint(0, 1)] = [rng.choice(pool)] * rng.randint(0, 1)
    for more in (["--quiet"], ["--out", kept], ["--log", kept + "-log"]):
        if rng.random() < 0.25:
            place = rng.randint(0, len(words))
            words[place:place] = more
    # A text that is put into the file that isn't there, or into one of another folder, would stay there.
    pairs = zip(words, words[1:])
    stays = any(first in ("--out", "--log") and (name == absent or name.isalnum()) for first, name in pairs)
    return drawn_words(rng, absent, kept) if stays else words


def told_of(words):
    """What words get where no file is there but standard input, which is empty."""
    if forms.are_questions(words):
        return 0, None
    if not forms.are_words(words):
        return 2, "refused words\n"
    if any(forms.without_common(words)[1].get(option) == "/dev/stdin" for option in ("--out", "--log")):
        return 7, ""
    files = forms.files_of(words)
    if not files:
        return 0, None
    is_given = files[0] in ("-", "/dev/stdin")
    return (3, "refused instance Truncated line 1\n") if is_given else (6, "read fault instance\n")


def said(t):
    """Words of all commands, drawn at random and changed: refused or not, and where the answer goes."""
    rng, folder = random.Random(t.seed), work_folder(t)
    absent, kept = os.path.join(t.folder, "absent"), os.path.join(folder, "F")
    kinds = collections.Counter()
    while sum(kinds.values()) < t.cases:
        words = drawn_words(rng, absent, kept)
        status, text = told_of(words)
        if status == 0 and not forms.are_questions(words) and words.count("trial"):
            continue
        rest, named = forms.without_common(words)
        ran = t.run(*words) if t.server.process and "" not in words else outside(t, words)
        files = snapshot(folder)
        if status == 0 and "--out" in named:
            t.must((ran.status, ran.out) == (0, b""), words, ran)
            plain = t.run(*rest)
            t.must(files == {os.fsencode(os.path.basename(named["--out"])): (0o644, plain.out)}, words, files)
        else:
            tells(t, rest or words, ran, status, text)
            t.must(not files, words, files)
        t.must(bool(ran.err) == (status != 0), words, "standard error", ran.err[:100])
        for name in files:
            os.remove(os.path.join(os.fsencode(folder), name))
        kinds[f"status {status}"] += 1
    print("    " + ", ".join(f"{it}: {count}" for it, count in sorted(kinds.items())), flush=True)


def helped(t):
    """The page of each command, asked for in both ways and put into a file; the list of all; what is no question."""
    folder = work_folder(t)
    listed = t.run("--help").out.decode()
    with open(os.path.join(TOP, "docs", "FORMATS.md"), encoding="utf-8") as file:
        t.must("```help\n" + listed + "```" in file.read(), "the list in docs/FORMATS.md")
    for command, (wanted, options) in forms.COMMANDS.items():
        page = t.run(command, "--help")
        text = page.out.decode()
        tells(t, [command, "--help"], page, 0, None)
        t.must(text.startswith(f"usage: robin {command} ") and f"\n  {command} " in listed, command, text[:80])
        t.must(all(option in text and option in listed for option in options), command, options)
        t.must(max(map(len, text.splitlines())) <= 80, command, "wide lines")
        t.must(f"Example: robin {command}" in text and "Status:" in text, command, "parts of the page")
        asked = [command, "--help"]
        for words in (["--help", command], ["--quiet", *asked], [command, "--quiet", "--help", "--log", "x"]):
            tells(t, words, t.run(*words), 0, page.out)
        ran = outside(t, ["--out", "F", *asked], folder=folder)
        is_kept = (ran.status, ran.out) == (0, b"") and snapshot(folder) == {b"F": (0o644, page.out)}
        t.must(is_kept, command, ran, snapshot(folder))
        for words in ([*asked, "x"], [*asked, "--help"], ["x", *asked], [command, "--version"]):
            tells(t, words, t.run(*words), 2, "refused words\n")
        tells(t, ["--help", command, command], t.run("--help", command, command), 2, "refused words\n")
    for word in ("page", "--build", "Help", "-h", "-", "help", "solve ", "\u00e9", "\x1b[31m", "a\nb", "x" * 100_000):
        for words in ([word], [word, "--help"], ["--help", word]):
            tells(t, words, t.run(*words), 2, "refused words\n")


def long_words(absent, long):
    """Words of which one is long, with the status that they get where no file is there."""
    begun = ["solve", absent]
    yield from ((["validate", long, "b"], 6), (["validate", absent, long], 6), (["circle", long], 2))
    yield from ((["solve", "--seed", long, absent], 2), ([long], 2), ([*begun, "--out", long], 7))
    yield from (([*begun, "--log", long], 7), ([*begun, "--from", long], 6), (["show", absent, "--demands", long], 2))
    yield [long, "--help"], 2


# Words that aren't UTF-8.
ODD = [b"\xff", b"\xc3", b"\xc0\x80", b"\xed\xa0\x80", b"\xf4\x90\x80\x80", b"a\xfe", b"\x80" * 1000, b"\xe2\x82"]


def lengthy(t):
    """More than 1000 words, words of a megabyte, and words that aren't UTF-8."""
    absent, folder = os.path.join(t.folder, "absent"), work_folder(t)
    for count in (997, 998, 999, 1000, 5000):
        quiet = ["--quiet"] * count
        for words in (["solve", absent, *quiet], [*quiet, "circle", "2"], ["x"] * (count + 2)):
            tells(t, words, outside(t, words), 2, "refused words\n")
        for words in (["solve", absent, *["--seed"] * count], ["validate", *[absent] * count]):
            tells(t, words, outside(t, words), 2, "refused words\n")
        ran = outside(t, ["circle", "2", "--out", "F", *quiet], folder=folder)
        t.must(ran.status == 2 and not snapshot(folder), count, ran, snapshot(folder))
    for long in ("x" * 131_000, "/" * 131_000, "9" * 131_000, "\u00e9" * 65_000, "\n" * 100_000, "\x7f" * 100_000):
        for words, status in long_words(absent, long):
            text = {2: b"refused words\n", 6: b"read fault instance\n", 7: b""}[status]
            tells(t, words, outside(t, words), status, text)
    # Many long words at once: a megabyte and more in all.
    wide = ["validate", *["y" * 100_000] * 12]
    for words in (["x" * 100_000] * 12, wide, ["circle", "2", *["--quiet"] * 900, "z" * 130_000]):
        tells(t, words, outside(t, words), 2, "refused words\n")
    for odd in ODD:
        for place in range(6):
            words = [b"solve", b"absent", b"--seed", b"1", b"--out", b"F"]
            words[place] = odd
            ran = outside(t, words, folder=folder)
            t.must((ran.status, ran.out) == (10, b"") and not snapshot(folder), "not UTF-8", place, odd[:9], ran)
            t.must(PRINTED.fullmatch(ran.err), "standard error", ran.err[:100])


def timed_words(t):
    """Words of the commands that take a time limit, with a league and a season for each."""
    four, nine = t.path("timed-four.xml", I4), t.path("timed-nine.xml", example("nine-classes.xml"))
    season, no_home = t.path("timed-season.xml", C4_TEXT), t.path("timed-no.xml", instance_text(4, True, [NO_HOME]))
    late = t.path("timed-late.xml", instance_text(4, True, [AWAY_LATE]))
    made = t.path("timed-made.xml", t.run("make", "6", "2").out)
    best = t.path("timed-six.xml", t.run("circle", "6").out)
    return [
        ["solve", made, "--moves", "300"],
        ["solve", made, "--conflicts", "40", "--moves", "0"],
        ["solve", no_home],
        ["solve", four, "--from", season, "--moves", "9"],
        ["trial", "6", "4", "--moves", "300"],
        ["explain", no_home],
        ["explain", nine],
        ["prove", made, best, "--conflicts", "60"],
        ["resume", late, season, "2"],
        ["resume", late, season, "3"],
    ]


# Limits that are never reached: at the edges of 64 bits, in seconds and where milliseconds and less pass them.
EDGES_OF_64 = {2**bits // 10**k + more for bits in (63, 64) for k in (0, 3, 6, 9) for more in (-1, 0, 1)}
ENDLESS = sorted({10**9, 2**32, *EDGES_OF_64} - {2**64, 2**64 + 1})


def timed(t):
    """`--seconds`: a limit that isn't reached changes no byte, and 0 ends at once; malformed, twice, where none is."""
    absent = os.path.join(t.folder, "absent")
    for words in timed_words(t):
        more = ["--tries", "1"] if words[0] in ("solve", "trial") else []
        plain = outside(t, [*words, *more])
        tells(t, words, plain, plain.status, None)
        for limit in ENDLESS:
            given = [*words, *more, "--seconds", str(limit)]
            t.demands(given, plain.status, plain.out)
        t.flush()
        for given in ([*words, "--seconds", "0"], [words[0], "--seconds", "0", *words[1:]]):
            ran = outside(t, given)
            tells(t, given, ran, ran.status, None)
            t.must(ran.status in (0, 1, 4, 5, 9), given, ran)
        for value in NUMBERS:
            given = words if words[0] == "trial" else [words[0], absent, *words[2:]]
            given = [*given, "--seconds", value]
            status, text = told_of(given)
            if status:
                tells(t, given, outside(t, given) if "" in given else t.run(*given), status, text)
        for given in ([*words, "--seconds"], [*words, "--seconds", "0", "--seconds", "0"], [*words, "--seconds=0"]):
            tells(t, given, t.run(*given), 2, "refused words\n")
    for command, (wanted, options) in forms.COMMANDS.items():
        own = {forms.is_file: absent, forms.is_list: "1"}
        words = [command, *[own.get(it, "4") for it in wanted], "--seconds", "0"]
        if command != "trial":
            tells(t, words, t.run(*words), *told_of(words))
        t.must((told_of(words)[0] == 2) == ("--seconds" not in options), words)


PIPED = ["validate league season", "show league season", "show league --demands", "solve league --moves 3"]
PIPED += ["solve league --from season --moves 3", "patterns league", "explain no-home", "part no-home 1"]
PIPED += ["check no-home log", "prove league season", "bound league certificate", "resume late season 2"]
PIPED += ["audit late season 2 log", "rows league", "rows --objective league", "values league answer"]
PIPED_KINDS = {"league": "instance", "no-home": "instance", "late": "instance", "season": "solution", "log": "log"}
PIPED_KINDS.update({"certificate": "log", "answer": "values"})


def piped(t):
    """`-` in each place of a file: as the file by its name; from a pipe, a file, a file begun, a folder, nothing."""
    texts = {"league": I4, "season": C4_TEXT, "no-home": instance_text(4, True, [NO_HOME]), "log": NO_HOME_LOG}
    texts.update({"late": instance_text(4, True, [AWAY_LATE]), "answer": b"v x1\n", "certificate": b"bound 0\n"})
    files = {name: t.path("piped-" + name, text) for name, text in texts.items()}
    for words in map(str.split, PIPED):
        named = [files.get(it, it) for it in words]
        plain = outside(t, named)
        places = [k for k, it in enumerate(words) if it in files]
        for place in places:
            for word in ("-", "/dev/stdin"):
                given = [*named[:place], word, *named[place + 1 :]]
                same_input(t, given, (texts[words[place]], named[place]), plain, PIPED_KINDS[words[place]])
            for other in places:
                if other != place:
                    both = list(named)
                    both[place], both[other] = "-", random.Random(place).choice(["-", "/dev/stdin"])
                    tells(t, both, outside(t, both, texts[words[place]]), 2, "refused words\n")
    wrong = [["circle", "-"], ["make", "-", "1"], ["make", "4", "-"], ["trial", "4", "-"]]
    for words in [*wrong, ["part", files["no-home"], "-"], ["-"]]:
        tells(t, words, outside(t, words, I4), 2, "refused words\n")


def same_input(t, words, source, plain, which):
    """Standard input of each kind, which has the text of a file or nothing."""
    text, path = source
    tells(t, words, outside(t, words, text), plain.status, plain.out)
    with open(path, "rb") as file:
        tells(t, words, outside(t, words, file), plain.status, plain.out)
    with open(path + "-begun", "wb") as file:
        file.write(b"<!-- the first line -->\n" * 3 + text)
    with open(path + "-begun", "rb", buffering=0) as file:
        file.seek(72)
        tells(t, words, outside(t, words, file), plain.status, plain.out)
    empty = outside(t, words, b"")
    is_refused = empty.status == 3 and empty.out.startswith(b"refused %s " % which.encode())
    t.must(is_refused or which == "values", words, "empty", empty)
    fault = f"read fault {which}\n"
    ran = outside(t, words, before=lambda: os.close(0))
    tells(t, words, ran, 6, fault)
    folder = os.open(t.folder, os.O_RDONLY)
    tells(t, words, outside(t, words, folder), 6, fault)
    os.close(folder)
    with open(path + "-begun", "ab") as file:
        tells(t, words, outside(t, words, file), 6, fault)
    if which != "log" and which != "values":
        with open("/dev/zero", "rb") as file:
            told = f"refused {which} TooLong limit {forms.FILES[which]}\n"
            tells(t, words, outside(t, words, file), 3, told)
    slow = subprocess.Popen(["sh", "-c", 'head -c 9 "$0"; sleep 0.05; tail -c +10 "$0"', path], stdout=subprocess.PIPE)
    tells(t, words, outside(t, words, slow.stdout), plain.status, plain.out)
    slow.stdout.close()
    slow.wait()


GROUPS = [said, helped, lengthy, timed, piped, *written.GROUPS, *answered.GROUPS, *launched.GROUPS]
HEAVY = signals.HEAVY
