"""The forms of files, logs and words, from the rules in words (docs/FORMATS.md): what is read, or the first fault.

Written without a look at the Rattle code. Slow and plain, and over bytes.
"""

import re

from leagues import Constraint, League

WHITE = b" \t\r\n"
NAME = re.compile(rb"[A-Za-z_\x80-\xff][A-Za-z0-9_.:\x80-\xff-]*")
BLANK = re.compile(rb"[ \t\r\n]*")
LARGEST = 2**32 - 1
ATTRIBUTES, CONSTRAINTS, GAMES, TEAMS = 64, 20_000, 10_000, 40
FILES = {"instance": 16_777_216, "solution": 1_048_576, "log": 268_435_456, "values": 268_435_456}
LINE = 16_777_216


class Fault(Exception):
    """The first fault of a file: its kind and line."""

    def __init__(self, kind, line):
        super().__init__(kind, line)
        self.kind, self.line = kind, line


class Piece:
    """A tag's start or end with its name and attributes, or a text; and its line."""

    def __init__(self, kind, name, at, text, line):
        self.kind, self.name, self.at, self.text, self.line = kind, name, at, text, line


def pieces(text):
    """Start, End and Text pieces; an Empty one is a Start and its End. Behind them one of the kind None: the end."""
    place, line, counted = (3 if text.startswith(b"\xef\xbb\xbf") else 0), 1, 0
    while place < len(text):
        line += text.count(b"\n", counted, place)
        counted = place
        if text.startswith(b"<!--", place) or text.startswith(b"<?", place):
            skip, close = (4, b"-->") if text[place + 1] == 33 else (2, b"?>")
            found = text.find(close, place + skip)
            if found < 0:
                raise Fault("Truncated", line)
            place = found + len(close)
        elif text.startswith(b"<!", place):
            raise Fault("BadTag", line)
        elif text.startswith(b"<", place):
            kind, name, at, place = tag(text, place, line)
            if kind in ("Start", "Empty"):
                yield Piece("Start", name, at, b"", line)
            if kind in ("End", "Empty"):
                yield Piece("End", name, {}, b"", line)
        else:
            found = text.find(b"<", place)
            found = len(text) if found < 0 else found
            yield Piece("Text", b"", {}, text[place:found], line)
            place = found
    yield Piece(None, b"", {}, b"", line + text.count(b"\n", counted))


def tag(text, place, line):
    """The tag that begins at a place: its kind, name, attributes, and the place behind it."""

    def here():
        if place >= len(text):
            raise Fault("Truncated", line)
        return text[place : place + 1]

    is_end = text.startswith(b"</", place)
    place += 2 if is_end else 1
    here()
    found = NAME.match(text, place)
    if not found:
        raise Fault("BadTag", line)
    name, at, place = found[0], {}, found.end()
    while True:
        before, place = place, BLANK.match(text, place).end()
        byte = here()
        if byte == b">":
            return ("End" if is_end else "Start"), name, at, place + 1
        if is_end:
            raise Fault("BadTag", line)
        if byte == b"/":
            place += 1
            if here() != b">":
                raise Fault("BadTag", line)
            return "Empty", name, at, place + 1
        found = NAME.match(text, place)
        if not found or place == before:
            raise Fault("BadTag", line)
        if len(at) == ATTRIBUTES:
            raise Fault("TooManyAttributes", line)
        key, place = found[0], BLANK.match(text, found.end()).end()
        if here() != b"=":
            raise Fault("BadAttribute", line)
        place = BLANK.match(text, place + 1).end()
        quote = here()
        if quote not in (b'"', b"'"):
            raise Fault("BadAttribute", line)
        close, less = text.find(quote, place + 1), text.find(b"<", place + 1)
        if less >= 0 and (close < 0 or less < close):
            raise Fault("BadAttribute", line)
        if close < 0:
            raise Fault("Truncated", line)
        if key in at:
            raise Fault("RepeatedAttribute", line)
        at[key], place = text[place + 1 : close], close + 1


def number(value, line):
    """The number that digits say, leading zeros taken."""
    if not re.fullmatch(rb"[0-9]+", value):
        raise Fault("BadNumber", line)
    digits = value.lstrip(b"0") or b"0"
    if len(digits) > 10 or int(digits) > LARGEST:
        raise Fault("NumberTooLarge", line)
    return int(digits)


def below(value, limit, kind, line):
    """A number that has to be below a limit, or the fault of this kind."""
    found = number(value, line)
    if found >= limit:
        raise Fault(kind, line)
    return found


def items(value):
    """The items of a list that are joined by `;`, with one more `;` taken behind the last."""
    return [] if not value else (value[:-1] if value.endswith(b";") else value).split(b";")


class At:
    """The attributes of one tag, read in the order of the calls."""

    def __init__(self, piece, n):
        self.at, self.line, self.n = piece.at, piece.line, n

    def text(self, key):
        """The value of an attribute that has to be there."""
        if key not in self.at:
            raise Fault("MissingAttribute", self.line)
        return self.at[key]

    def number(self, key, absent=None):
        """A number, or what it is where the attribute may be absent."""
        return absent if absent is not None and key not in self.at else number(self.text(key), self.line)

    def choice(self, key, *words, absent=None):
        """One of some words."""
        if absent and key not in self.at:
            return absent
        if self.text(key) not in words:
            raise Fault("BadChoice", self.line)
        return self.at[key].decode()

    def team(self, key):
        """A team of the league."""
        return below(self.text(key), self.n, "UnknownTeam", self.line)

    def slot(self, key):
        """A slot of the season."""
        return below(self.text(key), 2 * (self.n - 1), "UnknownSlot", self.line)

    def teams(self, key):
        """A set of teams."""
        return sorted({below(it, self.n, "UnknownTeam", self.line) for it in items(self.text(key))})

    def slots(self, key=b"slots"):
        """A set of slots."""
        return sorted({below(it, 2 * (self.n - 1), "UnknownSlot", self.line) for it in items(self.text(key))})

    def meetings(self, key):
        """A set of meetings."""
        found = set()
        for item in items(self.text(key)):
            if item.count(b",") != 1:
                raise Fault("BadNumber", self.line)
            home, away = (below(it, self.n, "UnknownTeam", self.line) for it in item.split(b","))
            if home == away:
                raise Fault("SameTeam", self.line)
            found.add((home, away))
        return sorted(found)


def constraint(piece, n):
    """The constraint of a tag of one of the nine classes; its attributes are read in the order of the rules."""
    it, name = At(piece, n), piece.name.decode()
    kind = it.choice(b"type", b"HARD", b"SOFT")
    penalty = it.number(b"penalty", 1)
    sides = (b"H", b"A", b"HA")
    at = {"min": 0}
    if name == "CA1":
        at["teams"] = it.teams(b"teams")
        at["min"], at["max"] = it.number(b"min", 0), it.number(b"max")
        at["mode"], at["slots"] = it.choice(b"mode", b"H", b"A"), it.slots()
    elif name in ("CA2", "CA3", "CA4"):
        at["teams1"], at["teams2"] = it.teams(b"teams1"), it.teams(b"teams2")
        at["min"], at["max"] = it.number(b"min", 0), it.number(b"max")
        at["mode1"] = it.choice(b"mode1", *sides)
        if name == "CA2":
            it.choice(b"mode2", b"GLOBAL", absent="GLOBAL")
        elif name == "CA3":
            it.choice(b"mode2", b"SLOTS", absent="SLOTS")
            at["intp"] = it.number(b"intp")
            if at["intp"] == 0:
                raise Fault("BadChoice", it.line)
        else:
            at["mode2"] = it.choice(b"mode2", b"GLOBAL", b"EVERY")
        if name != "CA3":
            at["slots"] = it.slots()
    elif name == "GA1":
        at["meetings"] = it.meetings(b"meetings")
        at["min"], at["max"], at["slots"] = it.number(b"min"), it.number(b"max"), it.slots()
    elif name == "SE1":
        at["teams"], at["min"] = it.teams(b"teams"), it.number(b"min")
        it.choice(b"mode1", b"SLOTS", absent="SLOTS")
    else:
        at["teams"], at["intp"] = it.teams(b"teams"), it.number(b"intp")
        if name == "BR1":
            it.choice(b"mode1", b"LEQ", absent="LEQ")
            at["mode2"] = it.choice(b"mode2", *sides)
        elif name == "BR2":
            it.choice(b"homeMode", b"HA", absent="HA")
            it.choice(b"mode2", b"LEQ", absent="LEQ")
        else:
            it.choice(b"mode", b"H", absent="H")
        at["slots"] = it.slots()
    return Constraint(name, kind == "HARD", penalty, at)


CLASSES = {b"CA1", b"CA2", b"CA3", b"CA4", b"GA1", b"BR1", b"BR2", b"FA2", b"SE1"}
GROUPS = {it + b"Constraints" for it in (b"Basic", b"Capacity", b"Game", b"Break", b"Fairness", b"Separation")}


class Reader:
    """A walk over the pieces of one file."""

    def __init__(self, text):
        self.pieces = pieces(text)

    def next(self):
        """The next piece; the end of the file is a fault."""
        piece = next(self.pieces)
        if piece.kind is None:
            raise Fault("Truncated", piece.line)
        return piece

    def tag(self):
        """The next tag; text is passed over."""
        while True:
            piece = self.next()
            if piece.kind != "Text":
                return piece

    def skip(self, name):
        """Passes over an element, up to the first end of its name."""
        while True:
            piece = self.next()
            if piece.kind == "End" and piece.name == name:
                return

    def inside(self, name, known, once=(), none_else=False):
        """The Starts in an element up to its End that are listed; the End's line is in `ended`."""
        seen = set()
        while True:
            piece = self.tag()
            if piece.kind == "End":
                if piece.name != name:
                    raise Fault("BadNesting", piece.line)
                self.ended = piece.line
                return
            if piece.name not in known:
                if none_else:
                    raise Fault("UnsupportedClass", piece.line)
                self.skip(piece.name)
                continue
            if piece.name in once and piece.name in seen:
                raise Fault("RepeatedElement", piece.line)
            seen.add(piece.name)
            yield piece

    def close(self, piece):
        """The end of an element in which no tag may stand."""
        found = self.tag()
        if found.kind != "End" or found.name != piece.name:
            raise Fault("BadNesting", found.line)

    def value(self, piece):
        """The text of a value element, without white bytes at its ends."""
        text = b""
        while True:
            found = self.next()
            if found.kind == "Text":
                text += found.text
            elif found.kind == "End" and found.name == piece.name:
                return text.strip(WHITE)
            else:
                raise Fault("BadNesting", found.line)

    def root(self, name):
        """The root's start, which has to be the first tag."""
        found = self.tag()
        if found.kind != "Start" or found.name != name:
            raise Fault("BadNesting", found.line)

    def last(self):
        """What stands behind the root: no tag."""
        for piece in self.pieces:
            if piece.kind in ("Start", "End"):
                raise Fault("BadNesting", piece.line)

    def need(self, *names):
        """Elements that have to be there, told at the end of the one around them."""
        missing = [it for it in names if it not in self.had]
        if missing:
            raise Fault("MissingElement", self.ended)


class InstanceReader(Reader):
    """The walk over an instance file, element by element."""

    def league(self):
        """The league of the file."""
        self.root(b"Instance")
        had, self.n, self.phased, self.found = set(), None, False, []
        parts = (b"Structure", b"Resources", b"Constraints")
        for piece in self.inside(b"Instance", parts, parts):
            had.add(piece.name)
            if piece.name == b"Structure":
                self.structure()
            elif piece.name == b"Resources":
                self.resources()
            elif b"Resources" not in had:
                raise Fault("MissingElement", piece.line)
            else:
                self.constraints()
        self.had = had
        self.need(*parts)
        self.last()
        return League(self.n, self.phased, self.found)

    def structure(self):
        """What stands in `Structure`."""
        had = set()
        for _ in self.inside(b"Structure", (b"Format",), (b"Format",)):
            had.add(b"Format")
            self.format()
        self.had = had
        self.need(b"Format")

    def format(self):
        """The three values of `Format`."""
        had, values = set(), (b"numberRoundRobin", b"compactness", b"gameMode")
        for piece in self.inside(b"Format", values, values):
            had.add(piece.name)
            text = self.value(piece)
            if piece.name == b"numberRoundRobin":
                if number(text, piece.line) != 2:
                    raise Fault("WrongCounts", piece.line)
            elif piece.name == b"compactness":
                if text != b"C":
                    raise Fault("BadChoice", piece.line)
            elif text not in (b"P", b"NULL", b""):
                raise Fault("BadChoice", piece.line)
            else:
                self.phased = text == b"P"
        self.had = had
        self.need(*values[:2])

    def resources(self):
        """The ids of teams and slots."""
        had, lists = set(), (b"Teams", b"Slots")
        ids = {it: [] for it in lists}
        for piece in self.inside(b"Resources", lists, lists):
            had.add(piece.name)
            one = {b"Teams": b"team", b"Slots": b"slot"}[piece.name]
            for each in self.inside(piece.name, (one,)):
                ids[piece.name].append(At(each, 0).number(b"id"))
                self.close(each)
        self.had = had
        self.need(*lists)
        n = len(ids[b"Teams"])
        is_right = 2 <= n <= TEAMS and n % 2 == 0 and sorted(ids[b"Teams"]) == list(range(n))
        if not is_right or sorted(ids[b"Slots"]) != list(range(2 * n - 2)):
            raise Fault("WrongCounts", self.ended)
        self.n = n

    def constraints(self):
        """The constraints of the groups."""
        for piece in self.inside(b"Constraints", GROUPS, none_else=True):
            for each in self.inside(piece.name, CLASSES, none_else=True):
                if len(self.found) == CONSTRAINTS:
                    raise Fault("TooMany", each.line)
                self.found.append(constraint(each, self.n))
                self.close(each)


def read_instance(text):
    """The league of an instance file."""
    return InstanceReader(text).league()


def read_solution(text, n):
    """The games of a solution file, of a league of n teams."""
    reader, games, had = Reader(text), [], set()
    reader.root(b"Solution")
    for piece in reader.inside(b"Solution", (b"Games",), (b"Games",)):
        had.add(piece.name)
        for each in reader.inside(b"Games", (b"ScheduledMatch",)):
            if len(games) == GAMES:
                raise Fault("TooMany", each.line)
            at = At(each, n)
            game = at.team(b"home"), at.team(b"away"), at.slot(b"slot")
            if game[0] == game[1]:
                raise Fault("SameTeam", each.line)
            games.append(game)
            reader.close(each)
    reader.had = had
    reader.need(b"Games")
    reader.last()
    return games


CLAUSE = rb"(?:-?[1-9][0-9]* )*0 (?:[1-9][0-9]* )*0"
FORMS = {
    b"refutation 1": [re.compile(CLAUSE)],
    b"refutation 2": [re.compile(rb"c " + CLAUSE), re.compile(rb"l (?:[1-9][0-9]* [1-9][0-9]* )*0 [1-9][0-9]*")],
}


def step_of(line, forms, place):
    """The step of one line: its shape is judged whole, then the sizes of its numbers."""
    if not any(form.fullmatch(line) for form in forms):
        raise Fault("BadLine", place)
    words = line.split(b" ")
    kind = words.pop(0) if len(forms) == 2 else b"c"
    cut = words.index(b"0")
    first, second = words[:cut], words[cut + 1 :]
    limit = (2**31 - 1, 10) if kind == b"c" else (2**64 - 1, 20)
    for group, (most, digits) in ((first, limit), (second, (2**64 - 1, 20))):
        for word in group:
            if len(word.lstrip(b"-")) > digits or abs(int(word)) > most:
                raise Fault("BadNumber", place)
    first, second = [int(it) for it in first], [int(it) for it in second]
    if kind == b"c":
        return "c", first, second[:-1]
    return "l", list(zip(first[::2], first[1::2])), second[0]


def read_log(text):
    """The steps as second/logs.py takes them."""
    steps, forms, place, line = [], None, 0, 0
    while True:
        line += 1
        found = text.find(b"\n", place)
        if (len(text) if found < 0 else found) - place > LINE:
            raise Fault("TooLong", line)
        if found < 0:
            raise Fault("NoEnd", line)
        words, place = text[place:found], found + 1
        if line == 1:
            forms = FORMS.get(words)
            if not forms:
                raise Fault("BadLine", 1)
        elif words == b"end":
            if place < len(text):
                raise Fault("BadLine", line + 1)
            return steps
        else:
            steps.append(step_of(words, forms, line))


def read_certificate(text):
    """The stated bound and the steps behind it; lines are counted from the first."""
    found = text.find(b"\n")
    if found < 0:
        raise Fault("NoEnd", 1)
    stated = re.fullmatch(rb"bound (0|[1-9][0-9]{0,19})", text[:found])
    if not stated or int(stated[1]) >= 2**64:
        raise Fault("BadLine", 1)
    bound, rest = int(stated[1]), text[found + 1 :]
    if bound == 0:
        if rest:
            raise Fault("BadLine", 2)
        return 0, []
    try:
        return bound, read_log(rest)
    except Fault as fault:
        raise Fault(fault.kind, fault.line + 1) from None


def is_number(word, least=0, most=2**64 - 1):
    """Whether a word is a number without leading zeros, in a range."""
    return bool(re.fullmatch(r"0|[1-9][0-9]*", word)) and len(word) <= 20 and least <= int(word) <= most


def is_team_count(word):
    """Whether a word is an even number of teams, from 2 to 40."""
    return is_number(word, 2, TEAMS) and int(word) % 2 == 0


def is_list(word):
    """Whether a word is numbers from 1 that rise strictly, joined by `;`."""
    parts = word.split(";")
    if not all(is_number(it, 1, LARGEST) for it in parts):
        return False
    numbers = [int(it) for it in parts]
    return all(a < b for a, b in zip(numbers, numbers[1:]))


CONFLICTS = {"--conflicts": lambda word: word == "all" or is_number(word)}
SECONDS = {"--seconds": is_number}
FLOOR = {"--floor": is_number}
ROOM = {"--room": is_number}
SOLVE = {
    **CONFLICTS,
    "--moves": is_number,
    "--tries": lambda word: is_number(word, 1, 100),
    "--patterns": is_number,
    "--seed": is_number,
}
is_small = lambda word: is_number(word, 0, LARGEST)
SHOW = {
    "--form": lambda word: word in ("text", "csv"),
    "--most": lambda word: word == "all" or is_small(word),
    "--width": is_small,
}


def is_file(word):
    """Whether a word is a file's name: `-` is standard input."""
    return word == "-" or not word.startswith("-")


COMMANDS = {
    "validate": ([is_file, is_file], {}),
    "show": ([is_file, is_file], SHOW),
    "check": ([is_file, is_file], ROOM),
    "solve": ([is_file], {**SOLVE, **SECONDS, "--from": is_file}),
    "patterns": ([is_file], CONFLICTS),
    "explain": ([is_file], {**CONFLICTS, **SECONDS}),
    "part": ([is_file, is_list], {}),
    "prove": ([is_file, is_file], {**CONFLICTS, **SECONDS, **FLOOR}),
    "bound": ([is_file, is_file], ROOM),
    "resume": ([is_file, is_file, is_number], {**CONFLICTS, **SECONDS}),
    "audit": ([is_file, is_file, is_number, is_file], ROOM),
    "rows": ([is_file], {"--bound": is_number}),
    "values": ([is_file, is_file], {}),
    "circle": ([is_team_count], {}),
    "make": ([is_team_count, is_number], {}),
    "trial": ([is_team_count, is_number], {**SOLVE, **SECONDS}),
}
WORDS = 1000


def without_common(words):
    """The words without `--quiet`, and `--out` and `--log` with the word behind each; and the files that are named so.
    Nothing where one of these stands twice or has no name behind it."""
    rest, named, words = [], {}, list(words)
    if words.count("--quiet") > 1 + sum(pair[1] == "--quiet" for pair in zip(words, words[1:]) if pair[0] in ("--out", "--log")):
        return None, {}
    while words:
        word = words.pop(0)
        if word in ("--out", "--log"):
            name = words.pop(0) if words else ""
            if word in named or not name or name.startswith("-"):
                return None, {}
            named[word] = name
        elif word != "--quiet":
            rest.append(word)
    return rest, named


def are_questions(words):
    """Whether the words ask for help or for the version."""
    words, _ = without_common(words) if len(words) <= WORDS else (None, {})
    if words in (["--help"], ["--version"]):
        return True
    return words is not None and len(words) == 2 and "--help" in words and any(word in COMMANDS for word in words)


def files_of(words):
    """The words that name files, of a command on files or numbers; nothing where the words are none."""
    words, _ = without_common(words) if len(words) <= WORDS else (None, {})
    if not words or words[0] not in COMMANDS:
        return None
    wanted, options = COMMANDS[words[0]]
    rest = words[1:]
    if words[0] == "show" and rest[1:2] == ["--demands"]:
        is_right = is_file(rest[0]) and (len(rest) == 2 or len(rest) == 3 and is_list(rest[2]))
        return rest[:1] if is_right else None
    if words[0] == "rows" and "--objective" in rest and len(rest) == 2:
        rest.remove("--objective")
        return rest if is_file(rest[0]) else None
    if words[0] == "resume" and without_near(rest) is not None:
        return given_files(without_near(rest), wanted, {**SOLVE, **SECONDS})
    return given_files(rest, wanted, options)


def without_near(rest):
    """The words without the first `--near` that is no option's value; nothing where there is none."""
    place = 0
    while place < len(rest):
        if rest[place] == "--near":
            return rest[:place] + rest[place + 1 :]
        place += 2 if rest[place].startswith("--") else 1
    return None


def given_files(rest, wanted, options):
    """The names of files among words and options, which have to be those that are wanted."""
    given, had, files = [], set(), []
    while rest:
        word = rest.pop(0)
        if word.startswith("--"):
            if word not in options or word in had or not rest or not options[word](rest[0]):
                return None
            files += [rest[0]] if word == "--from" else []
            had.add(word)
            rest.pop(0)
        else:
            given.append(word)
    if len(given) != len(wanted) or not all(is_right(word) for is_right, word in zip(wanted, given)):
        return None
    return [word for is_right, word in zip(wanted, given) if is_right is is_file] + files


def are_words(words):
    """Whether the words are a command on files or numbers; standard input is named once at most."""
    files = files_of(words)
    return files is not None and sum(word in ("-", "/dev/stdin") for word in files) <= 1


LITERAL = re.compile(rb"([-~]?)x?([0-9]+)")


def read_values(text):
    """The variables that a text of values says to be true."""
    true = set()
    for number, line in enumerate(text.split(b"\n"), 1):
        if line[:1] in (b"c", b"o", b"s"):
            continue
        for word in (line[1:] if line.startswith(b"v") else line).split(b" "):
            literal = LITERAL.fullmatch(word)
            digits = literal[2].lstrip(b"0") if literal else b""
            if word in (b"", b"0"):
                continue
            if not digits or len(digits) > 10 or int(digits) > 2**31 - 1:
                raise Fault("BadLine", number)
            (true.discard if literal[1] else true.add)(int(digits))
    return true
