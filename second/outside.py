"""What the attacks on the doors stand on: a run in a process of its own, what it tells, and what stands in a folder."""

import collections
import os
import re
import stat
import subprocess
import time

Told = collections.namedtuple("Told", "status out err seconds")
OLD = b"the old text\n"
# What standard error shows: lines of printable text, ASCII and letters of two bytes from U+00C0 to U+053F.
PRINTED = re.compile(rb"(?:[ -~\n]|[\xc3-\xd4][\x80-\xbf])*")
DRAFT = ".robin-"


def outside(t, words, given=b"", before=None, front=(), folder=None):
    """One run in a process of its own; `given` is what stands on standard input: bytes, or a file that is open."""
    source = {"input": given} if isinstance(given, bytes) else {"stdin": given}
    source.update({"preexec_fn": before, "cwd": folder, "timeout": 60})
    began = time.monotonic()
    ran = subprocess.run([*front, t.program, *words], capture_output=True, check=False, **source)
    return Told(ran.returncode, ran.stdout, ran.stderr, time.monotonic() - began)


def tells(t, words, ran, status, text, files=()):
    """Counts a case: a run has this status and text (None: any lawful one), and what it complains of is printable."""
    t.judge(words, ran, status, text, files)
    t.must(PRINTED.fullmatch(ran.err), words, "standard error", ran.err[:200])


def snapshot(folder):
    """What stands in a folder: of each file its permissions and bytes, of a link its goal, of all else its kind."""
    found = {}
    for name in os.listdir(os.fsencode(folder)):
        path = os.path.join(os.fsencode(folder), name)
        kind = os.lstat(path).st_mode
        if stat.S_ISLNK(kind):
            found[name] = os.readlink(path)
        elif stat.S_ISREG(kind):
            with open(path, "rb") as file:
                found[name] = (stat.S_IMODE(kind), file.read())
        else:
            found[name] = stat.S_IFMT(kind)
    return found


def drafts(folder):
    """The new files that are left beside a file."""
    return [name for name in os.listdir(folder) if DRAFT in name]


def work_folder(t, name="work"):
    """An empty folder of its own."""
    folder = os.path.join(t.folder, name)
    os.makedirs(folder, exist_ok=True)
    os.chmod(t.folder, 0o755)
    return folder


def only_old(path):
    """Leaves a file with the old text in its folder, and nothing beside it."""
    folder = os.path.dirname(path)
    for name in os.listdir(folder):
        os.remove(os.path.join(folder, name))
    with open(path, "wb") as file:
        file.write(OLD)
