#!/usr/bin/env python3
"""Tries what `--out`, `--log` and `-` do to files, from outside, and counts what is lost.

    python3 second/files.py ./robin
    python3 second/files.py PROGRAM

KILLS=N (20) runs are ended by SIGKILL at random moments, drawn by SEED=N (0). What FILE holds then is the old text or a season that `validate` accepts, and no
half; what is better was told of in the last second (and SLACK, 0.5 s). PARTS=NAME,NAME runs some parts alone. What differs is said, and the status is 1 then. As root it also tries a full disk.
"""
import os
import pty
import random
import shutil
import signal
import socket
import subprocess
import sys
import tempfile
import threading
import time

TOP = os.path.dirname(os.path.dirname(os.path.abspath(__file__)))
BLOCKED = ["env", "--default-signal=INT", "--block-signal=INT", "--block-signal=TERM", "--block-signal=HUP"]
KILLS = int(os.environ.get("KILLS", "20"))
SLACK = float(os.environ.get("SLACK", "0.5"))
DRAW = random.Random(int(os.environ.get("SEED", "0")))
EASY = "examples/northern-league.xml"
SEASON = "examples/northern-season.xml"
REFUTED = "examples/one-home-game.xml"
LONG = "bench/leagues/middle-16-phased.xml"
OLD = b"the old text\n"

wrong = 0
runs = 0
program = []
folder = ""


def say(name, fault, detail=""):
    """Counts a case, and says what came of it."""
    global wrong, runs
    runs += 1
    if fault:
        wrong += 1
    print("%-66s %s %s" % (name, "WRONG: " + fault if fault else "ok", detail), flush=True)


def robin(*words, given=None, blocked=False, **more):
    """One run, in the repository's folder."""
    front = BLOCKED if blocked else []
    return subprocess.run(front + program + list(words), input=given, capture_output=True, cwd=TOP, timeout=300, check=False, **more)


def path(name):
    return os.path.join(folder, name)


def read(name):
    """A file's bytes, or None where there is none."""
    try:
        with open(path(name), "rb") as file:
            return file.read()
    except FileNotFoundError:
        return None


def write(name, text):
    with open(path(name), "wb") as file:
        file.write(text)


def clear():
    """Empties the folder."""
    for name in os.listdir(folder):
        os.remove(path(name))


def wanted(name, run, status, out=b"", files=None):
    """Compares a run with its status, what it prints (None: anything), and the files that it leaves."""
    left = {one: read(one) for one in sorted(os.listdir(folder))}
    fault = None
    if run.returncode != status:
        fault = "status %d, and not %d: %s" % (run.returncode, status, run.stderr.decode("utf-8", "replace").strip())
    elif out is not None and run.stdout != out:
        fault = "it prints %r" % run.stdout[:80]
    elif files is not None and left != files:
        fault = "it leaves %s" % {one: (text or b"")[:40] for one, text in left.items()}
    say(name, fault)


# ---- what goes where


def answers():
    """FILE holds what is printed without `--out`; a log goes to `--log` or is printed; a refusal leaves FILE as it was."""
    clear()
    for name, words, status in [
        ("validate", ["validate", EASY, SEASON], 0),
        ("validate, not accepted", ["validate", "examples/nine-classes.xml", "examples/refused-season.xml"], 1),
        ("show", ["show", EASY, SEASON], 0),
        ("solve", ["solve", EASY], 0),
        ("patterns", ["patterns", "examples/four-teams.xml"], 0),
        ("explain, a conflict", ["explain", "examples/no-home-game.xml"], 4),
        ("part", ["part", "examples/no-home-game.xml", "1"], 0),
        ("check", ["check", "examples/no-home-game.xml", "examples/no-home-game.log"], 0),
        ("check, rejected", ["check", REFUTED, "examples/no-home-game.log"], 1),
        ("prove", ["prove", "examples/two-home-unwished.xml", "examples/two-games-home-first.xml"], 0),
        ("resume", ["resume", "examples/home-games-last.xml", "examples/four-teams-season.xml", "2"], 0),
        ("rows", ["rows", EASY], 0),
        ("circle", ["circle", "16"], 0),
        ("make", ["make", "16", "7"], 0),
        ("trial", ["trial", "8", "7"], 0),
        ("--version", ["--version"], 0),
    ]:
        plain = robin(*words)
        write("F", OLD)
        wanted("--out: " + name, robin(*words, "--out", path("F")), status, b"", {"F": plain.stdout})
        if plain.returncode != status or not plain.stdout:
            say("    " + name + " without it", "status %d" % plain.returncode)
        clear()


def logs():
    """A log is printed, or goes to the file of `--log`. The file of `--out` stays as it was."""
    clear()
    refuted = robin("solve", REFUTED).stdout
    for name, words, status, log in [
        ("refuted", ["solve", REFUTED], 4, refuted),
        ("spent", ["solve", LONG, "--conflicts", "3", "--moves", "0"], 5, robin("solve", LONG, "--conflicts", "3", "--moves", "0").stdout),
        ("resume", ["resume", "examples/home-games-last.xml", "examples/four-teams-season.xml", "3"], 4, None),
    ]:
        log = robin(*words).stdout if log is None else log
        write("F", OLD)
        wanted(name + ": the log is printed", robin(*words, "--out", path("F")), status, log, {"F": OLD})
        wanted(name + ": --log with --out", robin(*words, "--log", path("G"), "--out", path("F")), status, b"", {"F": OLD, "G": log})
        clear()
        wanted(name + ": --log alone", robin(*words, "--log", path("G")), status, b"", {"G": log})
        clear()
    season = robin("solve", EASY).stdout
    write("G", OLD)
    wanted("--log alone: a season is printed", robin("solve", EASY, "--log", path("G")), 0, season, {"G": OLD})
    wanted("--log with --out: a season", robin("solve", EASY, "--out", path("F"), "--log", path("G")), 0, b"", {"F": season, "G": OLD})
    clear()


def refusals():
    """Words, files and folders that are refused."""
    clear()
    write("F", OLD)
    old = {"F": OLD}
    file = path("F")
    wanted("refused words", robin("solve", "--out", file), 2, b"refused words\n", old)
    wanted("no such command", robin("solvee", EASY, "--out", file), 2, b"refused words\n", old)
    wanted("a league that isn't there", robin("solve", "absent.xml", "--out", file), 6, b"read fault instance\n", old)
    wanted("a file of another form", robin("solve", SEASON, "--out", file), 3, None, old)
    wanted("a start that is none", robin("solve", EASY, "--from", "examples/four-teams-season.xml", "--out", file), 1, None, old)
    wanted("--out twice", robin("solve", EASY, "--out", file, "--out", file), 2, b"refused words\n", old)
    wanted("--log twice", robin("solve", EASY, "--log", file, "--log", file), 2, b"refused words\n", old)
    wanted("--out without a name", robin("solve", EASY, "--out"), 2, b"refused words\n", old)
    wanted("--out before an option", robin("solve", EASY, "--out", "--log", file), 2, b"refused words\n", old)
    wanted("--out with an empty name", robin("solve", EASY, "--out", ""), 2, b"refused words\n", old)
    wanted("--out -", robin("solve", EASY, "--out", "-"), 2, b"refused words\n", old)
    wanted("120,000 words", robin("solve", *["x"] * 120000, "--out", file), 2, b"refused words\n", old)
    wanted("a folder that isn't there", robin("solve", EASY, "--out", path("none/F")), 7, b"", old)
    wanted("a path through a file", robin("solve", EASY, "--out", path("F/G")), 7, b"", old)
    wanted("a name that is too long", robin("solve", EASY, "--out", path("x" * 250)), 7, b"", old)
    wanted("a folder", robin("solve", EASY, "--out", folder), 7, b"", old)
    wanted("a folder, for --log", robin("solve", EASY, "--log", folder, "--out", file), 7, b"", old)
    wanted("/dev/null", robin("solve", EASY, "--out", "/dev/null"), 7, b"", old)
    wanted("/dev/stdout", robin("solve", EASY, "--out", "/dev/stdout"), 7, b"", old)
    say("/dev/null is still there", None if os.path.exists("/dev/null") and not os.path.isfile("/dev/null") else "it isn't")
    os.symlink(file, path("L"))
    wanted("a link", robin("solve", EASY, "--out", path("L")), 7, b"", {"F": OLD, "L": OLD})
    os.remove(path("L"))
    os.mkfifo(path("P"))
    run = robin("solve", EASY, "--out", path("P"))
    os.remove(path("P"))
    wanted("a pipe by name", run, 7, b"", old)
    os.chmod(file, 0o444)
    wanted("a file that may not be written", robin("solve", EASY, "--out", file), 7, b"", old)
    os.chmod(file, 0o640)
    robin("solve", EASY, "--out", file)
    say("the permissions stay", None if os.stat(file).st_mode & 0o777 == 0o640 else oct(os.stat(file).st_mode))
    clear()


def unwritable():
    """A folder that may not be written, as another user where this one is root."""
    clear()
    write("F", OLD)
    os.chmod(folder, 0o555)
    more = {"user": 65534, "group": 65534, "extra_groups": []} if os.geteuid() == 0 else {}
    probe = subprocess.run(program + ["--version"], capture_output=True, check=False, cwd=TOP, **more)
    if probe.returncode == 0:
        wanted("a folder that may not be written", robin("solve", EASY, "--out", path("F"), **more), 7, b"", {"F": OLD})
        wanted("a new file there", robin("solve", EASY, "--out", path("G"), **more), 7, b"", {"F": OLD})
    else:
        print("(another user can't run the program here: the folder that may not be written isn't tried)")
    os.chmod(folder, 0o755)
    clear()


def fill(name):
    """A file that takes all the room that is left."""
    file = os.open(name, os.O_WRONLY | os.O_CREAT)
    try:
        while os.write(file, b"x" * 4096) > 0:
            pass
    except OSError:
        pass
    os.close(file)


def full_disk():
    """A disk with no room."""
    if os.geteuid() != 0:
        print("(not root: a full disk isn't tried)")
        return
    disk = tempfile.mkdtemp(prefix="robin-disk.")
    if subprocess.run(["mount", "-t", "tmpfs", "-o", "size=64k", "none", disk], check=False, capture_output=True).returncode != 0:
        print("(tmpfs can't be mounted: a full disk isn't tried)")
        os.rmdir(disk)
        return
    try:
        file = os.path.join(disk, "F")
        with open(file, "wb") as out:
            out.write(OLD)
        for name, words in [("a text that is too long", ["rows", LONG]), ("a season", ["solve", LONG, "--seconds", "3"])]:
            if name == "a season":
                fill(os.path.join(disk, "filler"))
            run = robin(*words, "--out", file)
            with open(file, "rb") as out:
                held = out.read()
            left = [one for one in os.listdir(disk) if one not in ("F", "filler")]
            fault = None
            if run.returncode != 7 or run.stdout:
                fault = "status %d" % run.returncode
            elif held != OLD or left:
                fault = "it leaves %r and %s" % (held[:40], left)
            say("a full disk: " + name, fault, run.stderr.decode().strip().splitlines()[-1:])
    finally:
        subprocess.run(["umount", disk], check=False)
        os.rmdir(disk)


# ---- standard input


def standard_input():
    """`-` reads a pipe, a file, a socket, nothing."""
    clear()
    with open(os.path.join(TOP, EASY), "rb") as file:
        league = file.read()
    with open(os.path.join(TOP, SEASON), "rb") as file:
        season = file.read()
    report = robin("validate", EASY, SEASON).stdout
    wanted("-: a pipe, first", robin("validate", "-", SEASON, given=league), 0, report)
    wanted("-: a pipe, second", robin("validate", EASY, "-", given=season), 0, report)
    wanted("-: behind --from", robin("solve", EASY, "--from", "-", "--moves", "0", given=season), 0, None)
    wanted("-: before --objective", robin("rows", "--objective", "-", given=league), 0, robin("rows", EASY, "--objective").stdout)
    with open(os.path.join(TOP, EASY), "rb") as file:
        run = subprocess.run(program + ["validate", "-", SEASON], stdin=file, capture_output=True, cwd=TOP, check=False)
    wanted("-: a file", run, 0, report)
    ours, theirs = socket.socketpair()
    feeder = os.fork()
    if feeder == 0:
        theirs.close()
        ours.sendall(league)
        ours.close()
        os._exit(0)
    ours.close()
    run = subprocess.run(program + ["validate", "-", SEASON], stdin=theirs, capture_output=True, cwd=TOP, check=False)
    theirs.close()
    os.waitpid(feeder, 0)
    wanted("-: a socket", run, 0, report)
    wanted("-: empty", robin("validate", "-", SEASON, given=b""), 3, None)
    closed = subprocess.run(["sh", "-c", '"$@" <&-', "sh"] + program + ["validate", "-", SEASON], capture_output=True, cwd=TOP, check=False)
    wanted("-: closed", closed, 6, b"read fault instance\n")
    wanted("-: twice", robin("validate", "-", "-", given=league), 2, b"refused words\n")
    wanted("-: with /dev/stdin", robin("validate", "-", "/dev/stdin", given=league), 2, b"refused words\n")
    wanted("-: as a number of teams", robin("circle", "-", given=league), 2, b"refused words\n")
    wanted("-: as a number of slots", robin("resume", EASY, SEASON, "-", given=league), 2, b"refused words\n")
    wanted("-: as a seed", robin("solve", EASY, "--seed", "-", given=league), 2, b"refused words\n")
    wanted("- with --out", robin("validate", "-", SEASON, "--out", path("F"), given=league), 0, b"", {"F": report})
    clear()


# ---- long runs


def objective_of(text):
    """The objective that a season's file states."""
    return int(text.split(b'objective="')[1].split(b'"')[0])


def listen(side, told):
    """Notes when a terminal is told of a best objective, and which, until nothing more comes."""
    line = b""
    try:
        while True:
            line += os.read(side, 4096)
            *whole_lines, line = line.split(b"\r")
            for one in whole_lines:
                if b"best " in one:
                    told.append((time.monotonic(), int(one.split(b"best ")[1].split(b" ")[0])))
    except OSError:
        pass


def judged(name):
    """What is wrong with a season that a file holds."""
    run = robin("validate", LONG, path(name))
    return None if run.returncode == 0 else "validate says %d" % run.returncode


def killed():
    """SIGKILL at random moments: FILE holds the old text or a whole accepted season, and what it lacks was told of in the last second."""
    worst = 0.0
    for turn in range(KILLS):
        clear()
        write("F", OLD)
        wait = DRAW.uniform(0.2, 12)
        ours, theirs = pty.openpty()
        run = subprocess.Popen(program + ["solve", LONG, "--seconds", "60", "--seed", str(turn), "--out", path("F")], stdout=subprocess.PIPE, stderr=theirs, cwd=TOP)
        os.close(theirs)
        told = []
        ear = threading.Thread(target=listen, args=(ours, told))
        ear.start()
        time.sleep(wait)
        run.kill()
        end = time.monotonic()
        run.communicate()
        ear.join()
        os.close(ours)
        text = read("F")
        drafts = [name for name in os.listdir(folder) if name != "F"]
        held = None if text == OLD else objective_of(text)
        better = [at for at, cost in told if held is None or cost < held]
        lost = end - min(better) if better else 0.0
        worst = max(worst, lost)
        fault = None if text == OLD else judged("F")
        if lost > 1 + SLACK:
            fault = fault or "%.2f s are lost" % lost
        kept = "the old text" if held is None else "objective %d" % held
        say("KILL after %.1f s" % wait, fault, "%s, told %d times, %.2f s lost%s" % (kept, len(told), lost, ", a draft is left" if drafts else ""))
    print("    at most %.2f s are lost in %d kills" % (worst, KILLS))
    clear()


def asked():
    """Ctrl-C, TERM and HUP: the season is in FILE, and nothing is printed."""
    for name, number in [("Ctrl-C", signal.SIGINT), ("TERM", signal.SIGTERM), ("HUP", signal.SIGHUP)]:
        clear()
        write("F", OLD)
        front = BLOCKED if program[0] != "./robin" else []
        run = subprocess.Popen(front + program + ["solve", LONG, "--seconds", "60", "--out", path("F")], stdout=subprocess.PIPE, stderr=subprocess.DEVNULL, cwd=TOP)
        time.sleep(5)
        run.send_signal(number)
        began = time.monotonic()
        out, _ = run.communicate(timeout=120)
        passed = time.monotonic() - began
        fault = None
        if run.returncode == 0:
            fault = judged("F") or ("something is printed" if out else None)
        elif run.returncode == 5:
            fault = None if out and read("F") == OLD else "the log is lost, or the old text"
        else:
            fault = "status %d" % run.returncode
        if [one for one in os.listdir(folder) if one != "F"]:
            fault = fault or "a draft is left"
        say("%s after 5 s" % name, fault, "status %d, %.2f s later" % (run.returncode, passed))
    clear()


def at_once():
    """Two runs into one FILE: it holds one of their texts, whole."""
    clear()
    words = ["solve", LONG, "--seconds", "8", "--quiet", "--out", path("F"), "--seed"]
    both = [subprocess.Popen(program + words + [seed], stdout=subprocess.PIPE, stderr=subprocess.PIPE, cwd=TOP) for seed in "12"]
    seen = set()
    while any(run.poll() is None for run in both):
        text = read("F")
        if text is not None:
            seen.add(text)
        time.sleep(0.05)
    for run in both:
        run.communicate()
    fault = None
    for text in seen:
        if not text.endswith((b"</Solution>\n", b"-->\n")) or not text.startswith(b"<?xml"):
            fault = "a half was seen"
    fault = fault or judged("F") or (None if os.listdir(folder) == ["F"] else "drafts are left")
    say("two runs into one file", fault, "%d texts were seen" % len(seen))
    clear()


def whole():
    """A reader beside the run never sees a half, and each text costs less than the one before."""
    clear()
    run = subprocess.Popen(program + ["solve", LONG, "--seconds", "10", "--tries", "1", "--quiet", "--out", path("F")], stdout=subprocess.PIPE, stderr=subprocess.PIPE, cwd=TOP)
    seen = []
    while run.poll() is None:
        text = read("F")
        if text is not None and (not seen or seen[-1][1] != text):
            seen.append((time.monotonic(), text))
        time.sleep(0.02)
    run.communicate()
    fault = None
    for _, text in seen:
        if not text.endswith((b"</Solution>\n", b"-->\n")):
            fault = "a half was seen"
    costs = [objective_of(text) for _, text in seen]
    if costs != sorted(costs, reverse=True):
        fault = fault or "a season got dearer"
    gaps = [later - before for (before, _), (later, _) in zip(seen, seen[1:-1])]
    if gaps and min(gaps) < 0.9:
        fault = fault or "two texts within %.2f s" % min(gaps)
    say("a reader beside a run", fault, "objectives %s" % costs)
    clear()


def main():
    global program, folder
    program = sys.argv[1:]
    if not program:
        sys.exit(__doc__)
    if os.path.abspath(program[0]) == os.path.join(TOP, "robin"):
        program[0] = "./robin"
    else:
        program[0] = os.path.abspath(program[0])
    folder = tempfile.mkdtemp(prefix="robin-files.")
    os.chmod(folder, 0o755)
    try:
        for part in [answers, logs, refusals, unwritable, full_disk, standard_input, asked, whole, at_once, killed]:
            if part.__name__ in os.environ.get("PARTS", part.__name__).split(","):
                part()
    finally:
        shutil.rmtree(folder, ignore_errors=True)
    print("%d cases, %d wrong" % (runs, wrong))
    sys.exit(1 if wrong else 0)


main()
