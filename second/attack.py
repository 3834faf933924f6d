"""What the attacks of hostile.py and certified.py stand on: texts of files, running the program, what is demanded.

The program is loaded once where `cc` is at hand, with a library in front of the system's in which the call of a number
to malloc, open, read or write fails, or of one by which a text comes into its file; else it is started anew for each run.
"""

import collections
import os
import re
import resource
import shutil
import struct
import subprocess
import time

import forms
import leagues
import logs

Ran = collections.namedtuple("Ran", "status out err seconds peak calls clock")
MIB = 1 << 20
BATCH = 200
# The places of the program that can fail: malloc, open, read, a write to standard output, what brings a text into its
# file (a write, fsync, fchmod, rename, statx), and unlink.
PLACES = 6


# Texts of files.


def instance_text(n, phased, classes=(), teams=None):
    """A league as it is written; classes are lines of their own in one group, from line 6 + 3n + 9 on."""
    slots = leagues.slots_of(teams or n)
    lines = ['<?xml version="1.0" encoding="UTF-8"?>', "<Instance>", "<Structure>", '<Format leagueIds="0">']
    lines += ["<numberRoundRobin>2</numberRoundRobin>", "<compactness>C</compactness>"]
    lines += [f"<gameMode>{'P' if phased else 'NULL'}</gameMode>", "</Format>", "</Structure>"]
    lines += ["<Resources>", "<Teams>"]
    lines += [f'<team id="{i}"/>' for i in range(teams or n)] + ["</Teams>", "<Slots>"]
    lines += [f'<slot id="{s}"/>' for s in range(slots)] + ["</Slots>", "</Resources>", "<Constraints>"]
    if classes:
        lines += ["<CapacityConstraints>", *classes, "</CapacityConstraints>"]
    return "\n".join(lines + ["</Constraints>", "</Instance>", ""]).encode()


def season_text(games, objective=None):
    """A solution file as it is written, with a score where an objective is given."""
    value = f'<ObjectiveValue infeasibility="0" objective="{objective}"/>'
    score = [] if objective is None else ["<MetaData>", value, "</MetaData>"]
    head = ['<?xml version="1.0" encoding="UTF-8"?>', "<Solution>", *score, "<Games>"]
    body = [f'<ScheduledMatch home="{i}" away="{j}" slot="{s}"/>' for i, j, s in games]
    return "\n".join([*head, *body, "</Games>", "</Solution>", ""]).encode()


C4 = [(3, 0, 0), (1, 2, 0), (1, 3, 1), (2, 0, 1), (3, 2, 2), (0, 1, 2)]
C4 += [(0, 3, 3), (2, 1, 3), (3, 1, 4), (0, 2, 4), (2, 3, 5), (1, 0, 5)]
NO_HOME = '<CA1 teams="0;1;2;3" min="0" max="0" mode="H" slots="0" type="HARD" penalty="1"/>'
NO_BREAK = '<BR2 teams="0;1;2;3" intp="%d" homeMode="HA" mode2="LEQ" slots="0;1;2;3;4;5" type="HARD" penalty="1"/>'
ONE_HOME = '<CA1 teams="0;1;2;3" min="0" max="1" mode="H" slots="0;1;2" type="HARD" penalty="1"/>'
I4, C4_TEXT = instance_text(4, True), season_text(C4)
NO_HOME_LOG = b"refutation 1\n0 153 154 155 133 0\nend\n"
KINDS = "BadTag|BadAttribute|RepeatedAttribute|TooManyAttributes|Truncated|BadNesting|MissingElement|RepeatedElement|"
KINDS += "MissingAttribute|BadNumber|NumberTooLarge|UnknownTeam|UnknownSlot|SameTeam|BadChoice|UnsupportedClass|"
KINDS += "WrongCounts|TooMany"
REFUSAL = re.compile(
    rf"refused (instance|solution) ({KINDS}) line \d+\n|refused log (BadLine|BadNumber|NoEnd|TooLong) line \d+\n|"
    r"refused constraint \d+ Unknown\n|refused slot \d+\n|refused values BadLine line \d+\n|"
    r"refused (instance|solution|log|values) TooLong limit \d+\n|refused rows TooLarge terms \d+\n"
)
REJECTED = r"rejected step \d+ cause (UnknownRow|UnknownVariable|NoConflict|NoEmptyClause|TooWide)\n"
LOG = r"refutation [12]\n.*end\n"
ENDS = {
    ("validate", 0): r"teams .*\nfeasible yes\n",
    ("validate", 1): r"teams .*\nfeasible no\n",
    ("check", 0): r"accepted steps \d+\n",
    ("check", 1): REJECTED,
    ("show", 0): r"slot .*\nfeasible yes\n|slot,slot_name,.*\r\n|((hard|soft) \d+ [^\n]*\n)*",
    ("show", 1): r"slot .*\nfeasible no\n|slot,slot_name,.*\r\n",
    ("rows", 0): r"\* #variable= \d+ #constraint= \d+\n.*;\n",
    ("values", 0): r"<\?xml .*</Solution>\n",
    ("values", 1): r"missed row \d+\n",
    ("solve", 1): r"teams .*\nfeasible no\n",
    ("solve", 0): r"<\?xml .*</Solution>\n(<!-- [\w= ]+ -->\n)+",
    ("explain", 0): r"<\?xml .*</Solution>\n",
    ("circle", 0): r"<\?xml .*</Solution>\n",
    ("part", 0): r"<\?xml .*</Instance>\n",
    ("make", 0): r"<\?xml .*</Instance>\n",
    ("trial", 0): r"trial \d+ \d+\n.*</Solution>\n(<!-- [\w= ]+ -->\n)+",
    ("patterns", 0): r"(\d+ [HA]+\n)+",
    ("explain", 4): r"conflict( \d+)+\nminimal (yes|no)\nrefutation .*",
    ("prove", 0): rf"(objective \d+\n)?(bound 0\n|bound [1-9]\d*\n{LOG})",
    ("prove", 1): r"teams .*\nfeasible no\n",
    ("prove", 5): rf"objective [1-9]\d*\nbound (0\n|[1-9]\d*\n{LOG}){LOG}",
    ("prove", 9): r"<\?xml .*</Solution>\n",
    ("bound", 0): r"accepted bound (0 steps 0|[1-9]\d* steps \d+)\n",
    ("bound", 1): REJECTED,
    ("resume", 0): r"<\?xml .*</Solution>\n(<!-- changed=\d+ of=\d+ settled=(?:yes|no) -->\n)?",
    ("resume", 4): LOG,
    ("resume", 5): LOG,
    ("audit", 0): r"accepted steps \d+\n",
    ("audit", 1): REJECTED,
}


# How the texts of `--help`, of a page on a command and of `--version` begin.
HELP = ("robin makes and judges", "usage: robin ", "robin 3.")


def is_lawful(command, status, text):
    """Whether a documented status has a text of the kind that it goes with."""
    if status == 0 and text.startswith(HELP):
        return True
    if status in (7, 8, 10):
        return status == 7 or text == ""
    form = {2: r"refused words\n", 6: r"read fault (instance|solution|log|values)\n"}.get(status)
    if status == 3:
        return bool(REFUSAL.fullmatch(text))
    if (command, status) in ENDS:
        form = ENDS[command, status]
    elif command in ("solve", "patterns", "explain") and status in (4, 5):
        form = LOG
    return form is not None and bool(re.fullmatch(form, text, re.DOTALL))


# Running.


class Tries:
    """The program, a folder for its files, and what is counted of each group."""

    def __init__(self, program, folder, keep):
        self.program, self.folder, self.keep = os.path.abspath(program), folder, keep
        self.count = collections.Counter()
        self.differences = collections.Counter()
        self.group = ""
        self.only, self.queue, self.serial = "", [], 0
        self.server = Server(self.program, folder)

    def path(self, name, *chunks):
        """A file of the folder with these bytes."""
        path = os.path.join(self.folder, name)
        with open(path, "wb") as file:
            for chunk in chunks:
                file.write(chunk)
        return path

    def fresh(self, name, *chunks):
        """A file that stands until some thousand more are made."""
        self.serial = (self.serial + 1) % 4000
        return self.path(f"{self.serial}-{name}", *chunks)

    def run(self, *words, seconds=60, memory=4096, out=None, env=None, limits=(), head=1 << 26):
        """The program's answer; at most `seconds` of processor time and `memory` MiB of address space."""

        if out is None and env is None and not limits and self.server.process:
            return self.server.run(words, seconds=seconds, memory=memory, head=head)

        def before():
            resource.setrlimit(resource.RLIMIT_CPU, (seconds, seconds + 1))
            resource.setrlimit(resource.RLIMIT_AS, (memory * MIB, memory * MIB))
            for which, limit in limits:
                resource.setrlimit(which, (limit, limit))
            if out == "closed":
                os.close(1)

        given, err = os.path.join(self.folder, "stdout"), os.path.join(self.folder, "stderr")
        with open(given, "wb") as file, open(err, "wb") as errors:
            to = file if out in (None, "closed") else out
            began = time.monotonic()
            child = subprocess.Popen(
                [self.program, *words], stdin=subprocess.DEVNULL, stdout=to, stderr=errors, preexec_fn=before, env=env
            )
            _, status, used = os.wait4(child.pid, 0)
            child.returncode = os.waitstatus_to_exitcode(status)
        with open(given, "rb") as file, open(err, "rb") as errors:
            said, complaint = file.read(head), errors.read(1 << 16)
        clock = time.monotonic() - began
        spent, peak = used.ru_utime + used.ru_stime, used.ru_maxrss / 1024
        return Ran(child.returncode, said, complaint, spent, peak, None, clock)

    def must(self, is_so, what, *shown, files=()):
        """Counts a case, and where it isn't so says what was seen and keeps the files."""
        self.count[self.group] += 1
        if is_so:
            return True
        self.differences[self.group] += 1
        number = sum(self.differences.values())
        kept = []
        for path in files:
            if self.keep and os.path.isfile(path) and os.path.getsize(path) < 4 * MIB and number <= 200:
                os.makedirs(self.keep, exist_ok=True)
                kept.append(os.path.join(self.keep, f"{self.group}-{number}-{os.path.basename(path)}"))
                shutil.copy(path, kept[-1])
        print("DIFFERS", self.group, what, *[str(it)[:400] for it in shown], *kept, flush=True)
        return False

    def answers(self, words, status, text, files=(), **more):
        """The program's answer on these words is of this status, with this text (None: any lawful one)."""
        ran = self.run(*words, **more)
        self.judge(words, ran, status, text, files)
        return ran

    def demands(self, words, status, text, files=()):
        """As `answers`, with many runs in one process."""
        self.later(words, lambda ran: self.judge(words, ran, status, text, files))

    def judge(self, words, ran, status, text, files=()):
        """Whether a run has this status and text."""
        text = text if text is None or isinstance(text, bytes) else text.encode()
        is_same = ran.status == status and (text is None or ran.out == text)
        is_same = is_same and is_lawful(words[0] if words else "", ran.status, ran.out.decode("utf-8", "replace"))
        shown = [it if len(str(it)) < 60 else str(it)[:60] for it in words]
        self.must(is_same, shown, "gave", ran.status, ran.out[:200], "not", status, (text or b"")[:200], files=files)

    def later(self, words, judge):
        """A run that is judged when a batch of them is full, or at `flush`; its files have to stand until then."""
        if not self.server.process or "" in words:
            judge(self.run(*words))
            return
        self.queue.append((list(words), judge))
        if len(self.queue) >= BATCH:
            self.flush()

    def flush(self):
        """Makes the runs that were put off, many in one process."""
        while self.queue:
            queue, self.queue = self.queue[:BATCH], self.queue[BATCH:]
            runs = [(os.path.join(self.folder, f"told-{k}"), words) for k, (words, _) in enumerate(queue)]
            for (_, judge), (status, out) in zip(queue, self.server.many(runs)):
                judge(Ran(status, out, b"", 0.0, 0, None, 0.0))

    def batch(self, runs, wanted):
        """Many runs at once, where the program can be loaded once, and else one by one."""
        if self.server.process:
            given = self.server.many(runs)
        else:
            given = [(ran.status, ran.out) for ran in (self.run(*words) for _, words in runs)]
        for (_, words), (status, out), (told, text) in zip(runs, given, wanted):
            is_same = (status, out) == (told, text.encode()) and is_lawful(words[0], status, text)
            self.must(is_same, words, "gave", status, out[:200], "not", told, text[:200], files=words[1:])
        if self.count[self.group] % 2000 < len(runs):
            print(f"    {self.count[self.group]} cases, {self.differences[self.group]} differences", flush=True)


# What is demanded.


def instance_refusal(text):
    """The league of an instance file, or the line by which it is refused."""
    if len(text) > forms.FILES["instance"]:
        return None, f"refused instance TooLong limit {forms.FILES['instance']}\n"
    try:
        return forms.read_instance(text), None
    except forms.Fault as fault:
        return None, f"refused instance {fault.kind} line {fault.line}\n"


def validated(instance, solution):
    """Status and text of `validate` on these files."""
    league, refusal = instance_refusal(instance)
    if refusal:
        return 3, refusal
    if len(solution) > forms.FILES["solution"]:
        return 3, f"refused solution TooLong limit {forms.FILES['solution']}\n"
    try:
        games = forms.read_solution(solution, league.n)
    except forms.Fault as fault:
        return 3, f"refused solution {fault.kind} line {fault.line}\n"
    return (0 if leagues.is_accepted(league, games) else 1), leagues.report(league, games)


def checked(count, own_rows, text):
    """Status and text of the verdict on a log over rows."""
    if len(text) > forms.FILES["log"]:
        return 3, f"refused log TooLong limit {forms.FILES['log']}\n"
    try:
        steps = forms.read_log(text)
    except forms.Fault as fault:
        return 3, f"refused log {fault.kind} line {fault.line}\n"
    verdict = logs.check(count, own_rows, steps)
    return (0 if verdict.startswith("accepted") else 1), verdict + "\n"


def example(name):
    """A file of examples/."""
    with open(os.path.join(os.path.dirname(os.path.abspath(__file__)), "..", "examples", name), "rb") as file:
        return file.read()


def measured(t, name, words, status, text, size, **more):
    """A run of which the time and the peak memory are said, beside the size of its file."""
    ran = t.run(*words, memory=more.pop("memory", 8192), seconds=more.pop("seconds", 600), head=1 << 16, **more)
    is_so = ran.status == status and (text is None or ran.out == text.encode())
    t.must(is_so, name, ran.status, ran.out[:100], "not", status, text)
    shown = ran.out[:60].split(b"\n")[0].decode("utf-8", "replace")
    peak = f"peak {ran.peak:.0f} MiB ({ran.peak * MIB / size:.1f} of the file)"
    print(f"    {name}: {size} bytes, {ran.seconds:.2f} s, {peak}, {ran.status} {shown}", flush=True)
    return ran


def filled(head, unit, tail, size):
    """Chunks of a file of just this size: a head, as many units as fit, a tail, spaces."""
    count = (size - len(head) - len(tail)) // len(unit)
    yield head
    many = max(1, MIB // len(unit))
    for _ in range(count // many):
        yield unit * many
    yield unit * (count % many)
    yield tail + b" " * (size - len(head) - len(tail) - count * len(unit))


# The program, loaded once.


SHIM = r"""
#define _GNU_SOURCE
#include <errno.h>
#include <fcntl.h>
#include <link.h>
#include <stdarg.h>
#include <stdio.h>
#include <stdlib.h>
#include <string.h>
#include <sys/mman.h>
#include <sys/resource.h>
#include <sys/stat.h>
#include <sys/syscall.h>
#include <sys/wait.h>
#include <unistd.h>
extern void *__libc_malloc(size_t); extern void *__libc_realloc(void *, size_t);
typedef int entry(int, char **, char **);
struct { long at[6], from[6], most, seconds, bytes, more; } ask;
static long *counts; static int is_child; static entry *whole; static int aside = -1;
static int fails(int k) {
    if (!is_child) return 0;
    long now = ++counts[k];
    return now == ask.at[k] || (ask.from[k] && now >= ask.from[k]);
}
static size_t few(size_t size) { return is_child && ask.most && size > ask.most ? ask.most : size; }
void *malloc(size_t size) { if (fails(0)) { errno = ENOMEM; return 0; } return __libc_malloc(size); }
void *realloc(void *old, size_t size) { if (fails(0)) { errno = ENOMEM; return 0; } return __libc_realloc(old, size); }
int open(const char *path, int flags, ...) {
    va_list rest; va_start(rest, flags); int mode = va_arg(rest, int); va_end(rest);
    /* The process's own status, in which waiting signals stand, is no file of a command: it is neither counted nor fails. */
    int is_aside = !strncmp(path, "/proc/", 6);
    if (!is_aside && fails(1)) { errno = EIO; return -1; }
    int file = syscall(SYS_openat, AT_FDCWD, path, flags, mode);
    if (is_aside) aside = file;
    else if (file == aside) aside = -1;
    return file;
}
ssize_t read(int file, void *room, size_t size) {
    if (file != aside && fails(2)) { errno = EIO; return -1; }
    return syscall(SYS_read, file, room, few(size));
}
static ssize_t put(int file, const void *bytes, size_t size) {
    if (file == 1 && fails(3) || file > 2 && fails(4)) { errno = EIO; return -1; }
    return syscall(SYS_write, file, bytes, file == 1 ? few(size) : size);
}
ssize_t write(int file, const void *bytes, size_t size) { return put(file, bytes, size); }
ssize_t __write(int file, const void *bytes, size_t size) { return put(file, bytes, size); }
#define KEEP(call) { if (fails(4)) { errno = EIO; return -1; } return syscall call; }
int fsync(int file) KEEP((SYS_fsync, file))
int fdatasync(int file) KEEP((SYS_fdatasync, file))
int fchmod(int file, mode_t mode) KEEP((SYS_fchmod, file, mode))
int rename(const char *old, const char *name) KEEP((SYS_rename, old, name))
int statx(int at, const char *path, int flags, unsigned mask, struct statx *room)
    KEEP((SYS_statx, at, path, flags, mask, room))
int unlink(const char *path) { if (fails(5)) { errno = EIO; return -1; } return syscall(SYS_unlink, path); }
static int whole_read(void *room, size_t size) {
    for (size_t had = 0; had < size;) {
        ssize_t got = syscall(SYS_read, 0, (char *)room + had, size - had);
        if (got <= 0) return 0;
        had += got;
    }
    return 1;
}
/* What the program does with its words before `main`, once more. */
static int begin_again(struct dl_phdr_info *it, size_t size, void *given) {
    typedef void first(int, char **, char **);
    first **list = 0; size_t count = 0;
    for (int k = 0; k < it->dlpi_phnum; k++) {
        if (it->dlpi_phdr[k].p_type != PT_DYNAMIC) continue;
        for (ElfW(Dyn) *d = (void *)(it->dlpi_addr + it->dlpi_phdr[k].p_vaddr); d->d_tag; d++) {
            if (d->d_tag == DT_INIT_ARRAY) list = (void *)(it->dlpi_addr + d->d_un.d_ptr);
            if (d->d_tag == DT_INIT_ARRAYSZ) count = d->d_un.d_val / sizeof *list;
        }
    }
    char **words = given; int many = 0;
    while (words[many]) many++;
    for (size_t k = 0; k < count; k++) list[k](many, words, 0);
    return 1;
}
/* One run in a child; of several, each step has the planned calls one later, and files of its own. */
static void run(char *text, int size, char **environment, long step) {
    char names[2][4096];
    char **words = __libc_malloc((size + 2) * sizeof(char *)); int count = 0;
    for (char *at = text; at < text + size; at += strlen(at) + 1) words[count++] = at;
    words[count] = 0;
    for (int k = 0; k < 2; k++) snprintf(names[k], 4096, ask.more ? "%s.%ld" : "%s", words[k], step);
    for (int k = 0; k < 6; k++) { if (ask.at[k]) ask.at[k] += step; if (ask.from[k]) ask.from[k] += step; }
    int out = syscall(SYS_openat, AT_FDCWD, names[0], O_WRONLY | O_CREAT | O_TRUNC, 0600);
    int err = syscall(SYS_openat, AT_FDCWD, names[1], O_WRONLY | O_CREAT | O_TRUNC, 0600);
    dup2(syscall(SYS_openat, AT_FDCWD, "/dev/null", O_RDONLY, 0), 0); dup2(out, 1); dup2(err, 2);
    struct rlimit time = {ask.seconds, ask.seconds + 1}, space = {ask.bytes, ask.bytes};
    setrlimit(RLIMIT_CPU, &time); setrlimit(RLIMIT_AS, &space);
    dl_iterate_phdr(begin_again, words + 2);
    is_child = 1;
    exit(whole(count - 2, words + 2, environment));
}
/* Many runs one after another in this process, each a call of `main`: OUT, ERR, the words, and an empty word. */
static void run_all(char *text, int size, char **environment) {
    static long said[4096]; int runs = 0;
    for (char *at = text; at < text + size; runs++) {
        char *words[64]; int count = 0;
        for (; *at; at += strlen(at) + 1) words[count++] = at;
        words[count] = 0; at++;
        int out = syscall(SYS_openat, AT_FDCWD, words[0], O_WRONLY | O_CREAT | O_TRUNC, 0600), kept = dup(1);
        dup2(out, 1); close(out);
        dl_iterate_phdr(begin_again, words + 1);
        said[runs] = whole(count - 1, words + 1, environment);
        dup2(kept, 1); close(kept);
    }
    syscall(SYS_write, 1, said, runs * sizeof(long));
}
static int serve(int count, char **words, char **environment) {
    int size;
    counts = mmap(0, 4096, PROT_READ | PROT_WRITE, MAP_SHARED | MAP_ANONYMOUS, -1, 0);
    while (whole_read(&ask, sizeof ask) && whole_read(&size, sizeof size)) {
        char *text = __libc_malloc(size + 1); struct rusage used; int status;
        if (!whole_read(text, size)) return 0;
        if (!ask.seconds) { run_all(text, size, environment); free(text); continue; }
        for (long step = 0; step <= ask.more; step++) {
            memset(counts, 0, 6 * sizeof(long));
            int child = fork();
            if (!child) run(text, size, environment, step);
            wait4(child, &status, 0, &used);
            long tick = 1000000, said[9] = {status, used.ru_maxrss};
            said[2] = (used.ru_utime.tv_sec + used.ru_stime.tv_sec) * tick;
            said[2] += used.ru_utime.tv_usec + used.ru_stime.tv_usec;
            memcpy(said + 3, counts, 6 * sizeof(long));
            syscall(SYS_write, 1, said, sizeof said);
        }
        free(text);
    }
    return 0;
}
typedef void hook(void);
int __libc_start_main(entry *start, int count, char **words, hook *a, hook *b, hook *c, void *end) {
    typedef int begin(entry *, int, char **, hook *, hook *, hook *, void *);
    extern void *dlsym(void *, const char *);
    whole = start;
    return ((begin *)dlsym((void *)-1L, "__libc_start_main"))(serve, count, words, a, b, c, end);
}
"""


class Server:
    """The program, loaded once with a library in front of the system's: each request is a child that begins at `main`.
    In a child the call of a number to one of the PLACES can fail, or each read and write be short."""

    def __init__(self, program, folder):
        source, made = os.path.join(folder, "shim.c"), os.path.join(folder, "shim.so")
        with open(source, "w", encoding="ascii") as file:
            file.write(SHIM)
        self.process = None
        compiled = ["cc", "-O1", "-shared", "-fPIC", "-w", "-o", made, source]
        if not shutil.which("cc") or subprocess.run(compiled, check=False).returncode:
            return
        pipe = subprocess.PIPE
        known, null = {"LD_PRELOAD": made}, subprocess.DEVNULL
        self.process = subprocess.Popen([program], stdin=pipe, stdout=pipe, stderr=null, bufsize=0, env=known)
        self.out, self.err = os.path.join(folder, "out"), os.path.join(folder, "err")

    def run(self, words, at=(0, 0, 0, 0), first=(0, 0, 0, 0), most=0, seconds=60, memory=4096, head=1 << 26):
        """One run: the calls `at` these numbers fail, or all from `first` on; reads and writes take `most` bytes."""
        began = time.monotonic()
        text = b"".join(os.fsencode(it) + b"\0" for it in (self.out, self.err, "robin", *words))
        at, first = ([*it, *[0] * (PLACES - len(it))] for it in (at, first))
        self.process.stdin.write(struct.pack("=16qi", *at, *first, most, seconds, memory * MIB, 0, len(text)) + text)
        status, peak, used, *calls = struct.unpack("=9q", self.process.stdout.read(72))
        with open(self.out, "rb") as file, open(self.err, "rb") as errors:
            said, complaint = file.read(head), errors.read(1 << 16)
        clock = time.monotonic() - began
        return Ran(os.waitstatus_to_exitcode(status), said, complaint, used / 1e6, peak / 1024, calls, clock)

    def many(self, runs):
        """The statuses and outputs of many runs, (out, words) each, one after another in one process: `main` is called
        again and again, so each run also shows that the one before left nothing behind."""
        joined = lambda it: b"".join(os.fsencode(word) + b"\0" for word in it)
        text = b"".join(joined((out, "robin", *words)) + b"\0" for out, words in runs)
        self.process.stdin.write(struct.pack("=16qi", *[0] * 16, len(text)) + text)
        told = self.told(8 * len(runs))
        found = []
        for status, (out, _) in zip(struct.unpack(f"={len(runs)}q", told), runs):
            with open(out, "rb") as file:
                found.append((status, file.read()))
        return found

    def told(self, size):
        """So many bytes of what the program that was loaded says."""
        told = b""
        while len(told) < size:
            more = self.process.stdout.read(size - len(told))
            if not more:
                raise SystemExit(f"the program ended within a batch: {self.process.wait()}")
            told += more
        return told

    def each(self, words, kind, place, count, most=0):
        """So many runs, in the kth of which the kth call of a place fails (`at`), or all from there on (`first`)."""
        found = []
        for start in range(1, count + 1, 512):
            many = min(512, count + 1 - start)
            own = [start * (it == place) for it in range(PLACES)]
            plan = [*own, *[0] * PLACES] if kind == "at" else [*[0] * PLACES, *own]
            text = b"".join(os.fsencode(it) + b"\0" for it in (self.out, self.err, "robin", *words))
            # Of one run the files have no numbers: one more is made.
            self.process.stdin.write(struct.pack("=16qi", *plan, most, 60, 4096 * MIB, many, len(text)) + text)
            said = self.told(72 * (many + 1))
            for step in range(many):
                status, peak, used, *calls = struct.unpack_from("=9q", said, 72 * step)
                with open(f"{self.out}.{step}", "rb") as file, open(f"{self.err}.{step}", "rb") as errors:
                    told, complaint = file.read(), errors.read(1 << 16)
                ended = os.waitstatus_to_exitcode(status)
                found.append(Ran(ended, told, complaint, used / 1e6, peak / 1024, calls, 0.0))
        return found

    def end(self):
        """Ends the program that was loaded."""
        if self.process:
            self.process.stdin.close()
            self.process.wait()
