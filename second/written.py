"""Attacks `--out`, `--log` and what is printed: names of files, permissions, memory and calls that fail, streams that
are closed, sinks that fail at a byte.

The groups are hostile.py's. A file that is named by `--out` or `--log` holds its old text or the whole new one, and
nothing stands beside it.
"""

import collections
import fcntl
import os
import re
import resource
import signal
import stat
import subprocess

from attack import C4_TEXT, I4, MIB, NO_HOME, NO_HOME_LOG, ONE_HOME
from attack import instance_text
from certified import AWAY_LATE, league_of, season_fault
from outside import DRAFT, OLD, PRINTED, only_old, outside, snapshot, tells, work_folder


def runs_to_keep(t):
    """Runs with what they print and the option whose file holds it."""
    four, no_home = t.path("kept-four.xml", I4), t.path("kept-no.xml", instance_text(4, True, [NO_HOME]))
    season, late = t.path("kept-season.xml", C4_TEXT), t.path("kept-late.xml", instance_text(4, True, [AWAY_LATE]))
    one, log = t.path("kept-one.xml", instance_text(4, True, [ONE_HOME])), t.path("kept-no.log", NO_HOME_LOG)
    values = t.path("kept-values", b"v -x1 x2\n")
    words_of = [
        (["circle", "4"], "--out"),
        (["solve", four, "--moves", "3"], "--out"),
        (["solve", one], "--log"),
        (["solve", no_home, "--conflicts", "0"], "--log"),
        (["explain", no_home], "--out"),
        (["show", four, season], "--out"),
        (["show", one, season, "--most", "1"], "--out"),
        (["validate", no_home, season], "--out"),
        (["check", no_home, log], "--out"),
        (["check", one, log], "--out"),
        (["rows", four, "--objective"], "--out"),
        (["values", four, values], None),
        (["resume", late, season, "3"], "--log"),
        (["resume", late, season, "2", "--near", "--moves", "3"], "--out"),
        (["part", no_home, "1"], "--out"),
        (["part", no_home, "2"], None),
        (["solve", no_home, "--from", log], None),
        (["patterns", four], "--out"),
        (["--version"], "--out"),
    ]
    return [(words, outside(t, words), place) for words, place in words_of]


def good_names():
    """Names of files that a text can be put into."""
    yield from ("F", "./F", "../work/F", ".F", " ", "F ", "a b", "~", "*", "$(x)", "\\", "F.robin-0", "F\t", "\n")
    yield from ("\r\n", "\x1b[2J", "\x01", "\x7f", "\u00e9", "\u202e", "\u65e5", "\U0001f600", "=1", "F;", "'", '"')
    yield from ("x" * 247, "\u00e9" * 123, "...")
    yield "./" * 1900 + "F"
    yield "./-"
    yield "./--out"


def bad_names(folder):
    """Names of files that nothing can be put into, and what is there already."""
    yield from ("x" * 248, "x" * 255, "x" * 256, "x" * 4000, "\u00e9" * 124, "x" * 5000, "./" * 2100 + "F")
    yield from ("none/F", "directory", "directory/", ".", "..", "/", "./", "F/", "F/G", "F/.", "link", "broken", "loop")
    yield from ("to-directory", "fifo", "read-only", "socket", "/dev/null", "/dev/full", "/dev/zero", "/dev/stdout")
    yield from ("/dev/stdin", "/dev/fd/1", "/proc/self/fd/1")
    yield from ("/proc/self/comm", "/proc/self/mem", "/proc/none", "/sys/kernel/none", folder, "none/../F")


def furnish(folder):
    """Things in a folder that are no file, and a file that may not be written."""
    os.mkdir(os.path.join(folder, "directory"))
    for name, to in (("link", "F"), ("broken", "nowhere"), ("loop", "loop"), ("to-directory", "directory")):
        os.symlink(to, os.path.join(folder, name))
    os.mkfifo(os.path.join(folder, "fifo"))
    os.mknod(os.path.join(folder, "socket"), stat.S_IFSOCK | 0o600)
    for name, mode in (("F", 0o640), ("read-only", 0o444)):
        with open(os.path.join(folder, name), "wb") as file:
            file.write(OLD)
        os.chmod(os.path.join(folder, name), mode)


def keeps(t, run, option, name, folder):
    """One run with a good name behind `--out` or `--log`: its answer is in the file or printed, and all else is as it
    was. The file is then as it was too."""
    words, plain, place = run
    before = snapshot(folder)
    ran = outside(t, [*words, option, name], folder=folder)
    shown_words = [os.path.basename(it) for it in words] + [option, name[:40]]
    if option != place:
        is_so = (ran.status, ran.out) == (plain.status, plain.out) and snapshot(folder) == before
        t.must(is_so, shown_words, ran)
    else:
        own = os.fsencode(os.path.basename(name))
        mode = before[own][0] if own in before else 0o644
        is_so = (ran.status, ran.out) == (plain.status, b"") and snapshot(folder) == {**before, own: (mode, plain.out)}
        t.must(is_so, shown_words, ran, snapshot(folder))
        put_back(os.path.join(os.fsencode(folder), own), before.get(own))
    t.must(PRINTED.fullmatch(ran.err), shown_words, "standard error", ran.err[:200])


def put_back(path, was):
    """A file's old bytes where it was there before, and else no file."""
    if was:
        with open(path, "wb") as file:
            file.write(was[1])
    elif os.path.lexists(path):
        os.remove(path)


def refuses(t, run, option, name, folder):
    """One run with a bad name behind `--out` or `--log`: nothing is written."""
    before = snapshot(folder)
    ran = outside(t, [*run[0], option, name], folder=folder)
    shown_words = [os.path.basename(it) for it in run[0]] + [option, name[:40]]
    t.must((ran.status, ran.out) == (7, b"") and snapshot(folder) == before, shown_words, ran, len(name))
    t.must(PRINTED.fullmatch(ran.err), shown_words, "standard error", ran.err[:200])


def kept(t):
    """`--out` and `--log` with every kind of name, by every kind of answer; names that are no words; both at once."""
    folder = work_folder(t)
    furnish(folder)
    for run in runs_to_keep(t):
        words = run[0]
        for option in ("--out", "--log"):
            for name in good_names():
                keeps(t, run, option, name, folder)
            for name in bad_names(folder):
                refuses(t, run, option, name, folder)
            before = snapshot(folder)
            for name in ("", "-", "-x", "--", "--out", "--log", "--quiet", "-\n"):
                ran = outside(t, [*words, option, name], folder=folder)
                tells(t, [*words, option, name], ran, 2, "refused words\n")
            tells(t, [*words, option], outside(t, [*words, option], folder=folder), 2, "refused words\n")
            t.must(snapshot(folder) == before, words, "refused words leave files")
        one_name(t, run, folder)
    own_inputs(t)
    taken_names(t)
    permissions(t)
    as_another(t)


PAIRS = [["--out", "F", "--log", "F"], ["--log", "F", "--out", "./F"], ["--out", "F", "--log", "G"]]
PAIRS.append(["--log", "F", "--out", "G"])


def one_name(t, run, folder):
    """The same name behind `--out` and `--log`, in either order, and a name for each."""
    words, plain, place = run
    path = os.path.join(os.fsencode(folder), b"F")
    for more in PAIRS:
        before = snapshot(folder)
        ran = outside(t, [*words, *more], folder=folder)
        name = os.fsencode(os.path.basename(more[more.index(place) + 1])) if place else None
        wanted = {**before, name: (before.get(name, (0o644,))[0], plain.out)} if place else before
        is_so = (ran.status, ran.out) == (plain.status, b"" if place else plain.out) and snapshot(folder) == wanted
        t.must(is_so, words, more, ran, snapshot(folder))
        with open(path, "wb") as file:
            file.write(OLD)
        if os.path.exists(os.path.join(folder, "G")):
            os.remove(os.path.join(folder, "G"))


def own_inputs(t):
    """A run whose answer goes into a file that it reads."""
    folder = work_folder(t, "inputs")
    files = {"league": I4, "season": C4_TEXT, "log": NO_HOME_LOG, "no-home": instance_text(4, True, [NO_HOME])}
    cases = [["validate", "league", "season"], ["show", "league", "season"], ["solve", "league", "--from", "season"]]
    cases += [["check", "no-home", "log"], ["rows", "league"], ["part", "no-home", "1"], ["explain", "no-home"]]
    for words in cases:
        for name, text in files.items():
            with open(os.path.join(folder, name), "wb") as file:
                file.write(text)
        plain = outside(t, words, folder=folder)
        for name in [it for it in words if it in files]:
            ran = outside(t, [*words, "--out", name], folder=folder)
            found = snapshot(folder)
            wanted = {os.fsencode(it): (0o644, plain.out if it == name else text) for it, text in files.items()}
            t.must((ran.status, ran.out, found) == (plain.status, b"", wanted), words, name, ran)
            with open(os.path.join(folder, name), "wb") as file:
                file.write(files[name])


def taken_names(t):
    """Files that have the names of the new file stay, and the new file of a killed run hinders nothing."""
    folder = work_folder(t, "taken")
    taken = {}
    for count in (0, 1, 2, 10, 11, 100, 300):
        for k in range(len(taken), count):
            path = os.path.join(folder, f"F{DRAFT}{k}")
            if k % 3 == 0:
                os.mkdir(path)
            elif k % 3 == 1:
                os.symlink("nowhere", path)
            else:
                with open(path, "wb") as file:
                    file.write(OLD)
            taken[k] = path
        before = snapshot(folder)
        ran = outside(t, ["circle", "4", "--out", "F"], folder=folder)
        wanted = {**before, b"F": (0o644, t.run("circle", "4").out)}
        t.must(ran.status == 0 and snapshot(folder) == wanted, count, "names are taken", ran)


def permissions(t):
    """The permissions of a file stay where its text is another."""
    folder = work_folder(t, "taken")
    for mode in (0o600, 0o640, 0o666, 0o755, 0o200, 0o4755, 0o2640, 0o1644):
        path = os.path.join(folder, "M")
        with open(path, "wb") as file:
            file.write(OLD)
        os.chmod(path, mode)
        ran = outside(t, ["circle", "4", "--out", "M"], folder=folder)
        with open(path, "rb") as file:
            is_so = stat.S_IMODE(os.stat(path).st_mode) == mode and file.read() == t.run("circle", "4").out
        t.must(ran.status == 0 and is_so, "permissions", oct(mode), oct(os.stat(path).st_mode), ran)


NOBODY = 65534


def as_nobody():
    """Makes this process one of a user without rights."""
    os.setgroups([])
    os.setgid(NOBODY)
    os.setuid(NOBODY)


def put_owned(folder, name, mode):
    """A file of the old text that belongs to the one whom its name says."""
    path = os.path.join(folder, name)
    with open(path, "wb") as file:
        file.write(OLD)
    os.chmod(path, mode)
    os.chown(path, *((NOBODY, NOBODY) if name.startswith("theirs") else (0, 0)))


OWNED = {"mine": 0o644, "open": 0o666, "theirs": 0o644, "theirs-read-only": 0o444}


def as_another(t):
    """Folders and files that belong to another user, where this one is root and can become one without rights."""
    if os.geteuid():
        print("    (not root: no other user is tried)", flush=True)
        return
    folder = work_folder(t, "others")
    program = os.path.join(t.folder, "robin")
    with open(t.program, "rb") as file, open(program, "wb") as copy:
        copy.write(file.read())
    os.chmod(program, 0o755)
    for name, mode in OWNED.items():
        put_owned(folder, name, mode)
    owner, t.program = t.program, program
    plain = outside(t, ["circle", "4"])
    for mode, names in ((0o555, []), (0o711, []), (0o777, ["open", "theirs", "new"]), (0o1777, ["theirs", "new"])):
        os.chmod(folder, mode)
        for name in [*OWNED, "new"]:
            another_writes(t, plain, folder, name, name in names)
    t.program = owner


def another_writes(t, plain, folder, name, may):
    """One run of a user without rights that is to write a file, and may or may not."""
    mode = oct(os.stat(folder).st_mode)
    before = snapshot(folder)
    ran = outside(t, ["circle", "4", "--out", name], before=as_nobody, folder="/", front=["env", "-C", folder])
    found = snapshot(folder)
    if may:
        is_so = (ran.status, ran.out) == (0, b"") and found[os.fsencode(name)][1] == plain.out
    else:
        is_so = (ran.status, ran.out) == (7, b"") and found == before
    t.must(is_so, "as another user", mode, name, ran, {key: it[1][:20] for key, it in found.items()})
    if name in OWNED:
        put_owned(folder, name, OWNED[name])
    elif os.path.exists(os.path.join(folder, name)):
        os.remove(os.path.join(folder, name))


def unkept(t):
    """With `--out` or `--log`: memory refused at every number, and a fault at every call to the files. FILE is the old
    text or the whole new one, or with `solve --out` the best season so far; and nothing stands beside it, but where the
    call that takes it away is the one that fails."""
    if not t.server.process:
        return
    folder = work_folder(t)
    path = os.path.join(folder, "F")
    for run in runs_to_keep(t):
        if run[0] == ["--version"] or run[2] is None:
            continue
        for option in ("--out", "--log"):
            told = [*run[0], option, path]
            for kind in range(6):
                for way in ("at", "first") if kind in (0, 4) else ("at",):
                    faults_of(t, told, (run[1], run[2] == option), (kind, way), path)


def faults_of(t, words, own, where, path):
    """Each call of a place fails once, or all from there on."""
    (plain, is_kept), (kind, way) = own, where
    shown_words = " ".join(os.path.basename(it) for it in words)
    statuses, calls, k, unseen = collections.Counter(), None, 0, 0
    while calls is None or k <= calls:
        only_old(path)
        fault = {} if k == 0 else {way: [k * (it == kind) for it in range(6)]}
        ran = t.server.run(words, **fault)
        calls = ran.calls[kind] if k == 0 else calls
        with open(path, "rb") as file:
            held = file.read()
        is_whole = (ran.status, ran.out) == (plain.status, b"" if is_kept else plain.out)
        is_own = is_whole and held == (plain.out if is_kept else OLD)
        is_none = is_refused(kind, ran, plain, is_kept) and (held == OLD or is_best(words, held))
        # Two calls a text may fail unseen: the look at FILE and the change of permissions. A write, a sync and a renaming may not.
        unseen += is_own and k > 0 and (kind, way) == (4, "at") and words[0] != "solve"
        t.must((is_own or is_none) and unseen <= 2, shown_words, way, "place", kind, "call", k, ran, held[:60])
        beside = os.listdir(os.path.dirname(path))
        t.must(len(beside) == 1 or kind == 5, shown_words, way, "place", kind, "call", k, "leaves", beside, ran)
        statuses[ran.status] += 1
        k += 1
    if calls:
        told = ", ".join(f"{it}: {count}" for it, count in sorted(statuses.items()))
        print(f"    {shown_words}, place {kind} {way}: {calls} calls; status {told}", flush=True)


def is_refused(kind, ran, plain, is_kept):
    """Whether a run that writes no file's text ended as the fault of a place says. Memory may run out while a text goes
    into a file, which is status 7. A text to be printed is put together in a file, and read from there: a read that
    fails may be of that one."""
    if ran.status not in {0: [7, 8], 1: [6, 7], 2: [6, 7], 3: [7], 4: [7], 5: [7]}[kind]:
        return False
    is_read = ran.status == 6 and re.fullmatch(rb"read fault \w+\n", ran.out)
    is_front = ran.status == 7 and kind in (2, 3) and not is_kept and plain.out.startswith(ran.out)
    return bool(ran.out == b"" or is_read or is_front)


def is_best(words, text):
    """Whether a text is a whole season that `solve --out` has kept before its run failed."""
    if words[0] != "solve" or "--out" not in words or not text.endswith(b"</Solution>\n"):
        return False
    with open(words[1], "rb") as file:
        return not season_fault(league_of(file.read())[0], text)[0]


def shut(t):
    """Each choice of the three standard streams closed, by every kind of answer, with `--out`, with `--log`, with
    neither: what is printed nowhere is status 7, and no file that is opened stands in for a stream. A file grows to
    1 MiB at most."""
    folder = work_folder(t)
    for run in runs_to_keep(t):
        for more in ([], ["--out", "F"], ["--log", "F"], ["--out", "F", "--log", "G"]):
            for closed in ([0], [1], [2], [0, 1], [0, 2], [1, 2], [0, 1, 2]):
                shuts(t, run, more, closed, folder)


def shuts(t, run, more, closed, folder):
    """One run with some standard streams closed."""
    words, plain, place = run

    def before():
        resource.setrlimit(resource.RLIMIT_FSIZE, (MIB, MIB))
        resource.setrlimit(resource.RLIMIT_CPU, (20, 21))
        for stream in closed:
            os.close(stream)

    only_old(os.path.join(folder, "F"))
    ran = outside(t, [*words, *more], before=before, folder=folder)
    name = os.fsencode(more[more.index(place) + 1]) if place in more else None
    wanted, status, out = {b"F": (0o644, OLD)}, plain.status, plain.out
    if name:
        wanted[name], out = (0o644, plain.out), b""
    elif 1 in closed:
        status, out = 7, b""
    found = snapshot(folder)
    sizes = {key: len(it[1]) for key, it in found.items()}
    shown_words = [os.path.basename(it) for it in words] + more
    is_so = (ran.status, ran.out, found) == (status, out, wanted)
    t.must(is_so, shown_words, "closed", closed, ran, "not", status, sizes)


# Sinks that fail at a byte.


PAGE = 4096


def ends_of(size):
    """Numbers of bytes behind which a sink of a text of this size fails."""
    edges = {0, 1, 2, size // 2, max(size - 1, 0), size, size + 1}
    return sorted(edges | {it for it in (PAGE - 1, PAGE, PAGE + 1) if it < size})


def sunk(t):
    """Every text into a sink that takes so many bytes: a full device, a file at its limit, a pipe that is closed. What
    came is the front of the text, and the status says so; FILE of `--out` and `--log` is the old text or the whole."""
    folder = work_folder(t)
    large = t.path("sunk-large.xml", t.run("make", "8", "3").out)
    runs = [*runs_to_keep(t), *((words, outside(t, words), "--out") for words in (["rows", large], ["circle", "40"]))]
    for run in runs:
        with open("/dev/full", "wb") as full:
            ended = subprocess.run([t.program, *run[0]], stdout=full, stderr=subprocess.DEVNULL, check=False).returncode
        t.must(ended == 7, [os.path.basename(it) for it in run[0]], "/dev/full", ended)
        for most in ends_of(len(run[1].out)):
            for is_asked in (True, False):
                into_file(t, run, most, is_asked)
                if run[2]:
                    into_kept(t, run, most, is_asked, folder)
            into_pipe(t, run, most)


def limited(most, is_asked):
    """What gives a run a limit on the size of a file, with or without the signal by which the system says so."""

    def before():
        resource.setrlimit(resource.RLIMIT_FSIZE, (most, most))
        signal.signal(signal.SIGXFSZ, signal.SIG_DFL if is_asked else signal.SIG_IGN)

    return before


def into_file(t, run, most, is_asked):
    """A text that is printed into a file which takes so many bytes."""
    words, plain, _ = run
    path = os.path.join(t.folder, "sunk")
    with open(path, "wb") as file:
        ended = subprocess.run(
            [t.program, *words], stdout=file, stderr=subprocess.DEVNULL, restore_signals=False,
            preexec_fn=limited(most, is_asked), check=False,
        ).returncode
    with open(path, "rb") as file:
        came = file.read()
    cut = {7, -signal.SIGXFSZ} if is_asked else {7}
    wanted = {plain.status} if most >= len(plain.out) else cut
    is_so = came == plain.out[:most] and ended in wanted
    t.must(is_so, [os.path.basename(it) for it in words], "a file of", most, ended, len(came), "of", len(plain.out))


def into_kept(t, run, most, is_asked, folder):
    """A text that goes into FILE by its option, where a file takes so many bytes."""
    words, plain, place = run
    path = os.path.join(folder, "F")
    only_old(path)
    ran = subprocess.run(
        [t.program, *words, place, "F"], capture_output=True, restore_signals=False, cwd=folder,
        preexec_fn=limited(most, is_asked), check=False,
    )
    with open(path, "rb") as file:
        held = file.read()
    beside, is_killed = os.listdir(folder), is_asked and ran.returncode == -signal.SIGXFSZ
    is_whole = (ran.returncode, ran.stdout, held) == (plain.status, b"", plain.out) and most >= len(plain.out)
    is_old = ran.stdout == b"" and most < len(plain.out) and (held == OLD or is_best([*words, place], held))
    is_so = (is_whole or is_old and ran.returncode == 7) and len(beside) == 1 or is_old and is_killed
    shown_words = [os.path.basename(it) for it in words]
    t.must(is_so, shown_words, place, "a file of", most, ran.returncode, held[:40], beside)


def into_pipe(t, run, most):
    """A text that is printed into a pipe of one page, of which so many bytes are read before it is closed."""
    words, plain, _ = run
    reader, writer = os.pipe()
    fcntl.fcntl(writer, fcntl.F_SETPIPE_SZ, PAGE)
    going = subprocess.Popen([t.program, *words], stdout=writer, stderr=subprocess.DEVNULL)
    os.close(writer)
    came = b""
    while len(came) < most:
        more = os.read(reader, most - len(came))
        if not more:
            break
        came += more
    os.close(reader)
    ended = going.wait(60)
    shown_words = [os.path.basename(it) for it in words]
    wanted = {7} if len(plain.out) > most + PAGE else {plain.status} if most > len(plain.out) else {7, plain.status}
    is_so = came == plain.out[:most] and ended in wanted
    t.must(is_so, shown_words, "a pipe closed behind", most, ended, len(came), "of", len(plain.out))


GROUPS = [kept, unkept, shut, sunk]
