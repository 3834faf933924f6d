#!/usr/bin/env python3
"""What a reader of a claim must believe: the files of definitions that the clauses of the call `run` rest on, all the way down.

    docs/believe.py             prints the two tables of docs/PROOF.md, and which of these files a crate keeps inside
    docs/believe.py COMMAND..   prints the files that these commands rest on, as docs/believe.py validate circle
    docs/believe.py --check     says whether docs/PROOF.md has these tables: with status 1 where it has others
    docs/believe.py --write     puts them into docs/PROOF.md

It follows names of clauses to the files of specs/ that they are imported from, and the imports of a file to further files, each of which is taken whole. A
command rests on the clauses that name it, on those that name no command, and on its file of robin_run/specs where it has one. Of a file of robin_run/specs
that says something else for each command, only the equations of the command count. It reads text, and proves nothing.
"""
import difflib
import os
import re
import sys

TOP = os.path.dirname(os.path.dirname(os.path.abspath(__file__)))
RUN = "crates/robin_run"
COMMANDS = "crates/command_line/specs/Words.antt"
# The record with a field for each command, which one clause of the call names.
PROMISES = f"{RUN}/specs/Commands.antt"
# Of each group the first table has what those before it don't need.
GROUPS = [["validate", "circle"], ["check", "solve"], ["patterns"], ["explain", "part"], ["make", "trial"], ["prove", "bound"], ["resume", "audit"], ["rows", "values"]]
FILES_HEAD = "| Crate | Files of its `specs/`, with their lines | What they say |"
COMMANDS_HEAD = "| Command alone | Files | Lines |"
USE = re.compile(r"^(?:ghost )?use Rattle\.(\w+)\.specs\.([\w.]+?)(?:\.\{([^}]*)\})?(?: as (\w+))?;?\s*$", re.M)


def read(path):
    with open(path, encoding="utf-8") as it:
        return it.read()


def lines_of(files):
    return sum(read(it).count("\n") for it in files)


def has_name(name, text):
    return re.search(r"(?<![\w'-])" + re.escape(name) + r"(?![\w'-])", text)


def module_file(crate, dotted):
    """The file of a module, which may be named with items that stand in it."""
    parts = dotted.split(".")
    for count in range(len(parts), 0, -1):
        path = "/".join(["crates", crate, "specs", *parts[:count]]) + ".antt"
        if os.path.isfile(path):
            return path
    return None


def imports(text):
    """Each file of this repository's specs/ that a text imports from, with the names that it brings in. Declared types stand in src/."""
    for found in USE.finditer(text):
        crate, dotted, names, other = found.groups()
        path = None if dotted.startswith("declared") else module_file(crate, dotted)
        if path:
            words = [it.strip().split(" as ")[-1].strip() for it in (names or "").split(",")]
            yield path, {it for it in [*words, other or dotted.split(".")[-1]] if it}


def commands():
    """The constructors of the command's type, in their order."""
    lines = iter(read(COMMANDS).split("\n"))
    names = []
    for line in lines:
        if re.match(r"pub data Command\b", line):
            break
    for line in lines:
        found = re.match(r"\s+(\w+) :", line)
        if not found:
            break
        names.append(found[1])
    return names


def clauses():
    """The clauses of the call, and the fields of the record that one of them names in their place: each with the text that imports for it."""
    for name in sorted(os.listdir(f"{RUN}/src")):
        text = read(f"{RUN}/src/{name}")
        begin = re.search(r"^pub fn run\b", text, re.M)
        if begin:
            break
    else:
        sys.exit(f"believe: no function run in {RUN}/src")
    found = []
    # The body begins with a brace in the first column.
    head = text[begin.start() : text.index("\n{", begin.start())]
    for clause in re.finditer(r"^\s*(?:ensures|requires)[^{\n]*\{", head, re.M):
        depth, at = 1, clause.end()
        while depth:
            depth += {"{": 1, "}": -1}.get(head[at], 0)
            at += 1
        found.append((text, head[clause.end() : at - 1]))
    promises = read(PROMISES)
    record = re.search(r"^pub record (\w+)", promises, re.M)[1]
    fields = [(promises, it) for it in re.findall(r"^  pub \w+ : (.*)$", promises, re.M)]
    kept = [it for it in found if not has_name(record, it[1])]
    if len(kept) + 1 != len(found):
        sys.exit(f"believe: not one clause of run names {record}")
    return kept + fields


def own_part(text, command, names):
    """A file of robin_run/specs without its imports and comments, and without what it says of other commands."""
    kept, is_own = [], True
    for line in text.split("\n"):
        if line.startswith(("use ", "--")):
            continue
        if line[:1] not in ("", " "):
            left = line.split(" = ")[0].removesuffix(" =")
            named = {it for it in names if re.search(r"\((?:Some \()?" + it + r"\b", left)}
            is_own = not named or command in named
        if is_own:
            kept.append(line)
    return "\n".join(kept)


def believed(command, names, found):
    """The files that a command rests on."""
    own_files = {f"{RUN}/specs/{it}.antt": it for it in names}

    def owners(text, clause):
        named = {it for it in names if re.search(r"\(" + it + r"\b", clause)}
        return named or {own_files[path] for path, words in imports(text) if path in own_files and any(has_name(it, clause) for it in words)}

    mine = [(text, it) for text, it in found if not owners(text, it) or command in owners(text, it)]
    todo = [path for text, clause in mine for path, words in imports(text) if any(has_name(it, clause) for it in words)]
    own = f"{RUN}/specs/{command}.antt"
    todo += [own] if os.path.isfile(own) else []
    # Its fields were taken as clauses.
    seen = {PROMISES}
    while todo:
        path = todo.pop()
        if path in seen:
            continue
        seen.add(path)
        whole = read(path)
        part = own_part(whole, command, names) if path.startswith(f"{RUN}/") else None
        todo += [it for it, words in imports(whole) if part is None or any(has_name(word, part) for word in words)]
    return seen


def rooms(crate):
    """The modules of a crate's specs/Lib.antt in their order, and those of them that it keeps inside."""
    order, inside, is_inside = [], set(), False
    for line in read(f"crates/{crate}/specs/Lib.antt").split("\n"):
        is_inside = is_inside or line.startswith("-- Kept inside")
        found = re.match(r"(?:pub )?mod (\w+)", line)
        if found:
            order.append(found[1])
            inside |= {found[1]} if is_inside else set()
    return order, inside


def name_of(path):
    """The crate of a file, and its module."""
    parts = path.split("/")
    return parts[1], ".".join(parts[3:]).removesuffix(".antt")


def crates_in_order():
    return [it.split()[0].rstrip(":") for it in re.sub(r"#.*", "", read("crates.txt")).split("\n") if it.strip()]


def said(crate, modules, old):
    """What docs/PROOF.md says of these modules already, or else the first line of the first."""
    best = max((it for it in old if it[0] == crate), key=lambda it: len(it[1] & set(modules)), default=None)
    if best and best[1] & set(modules):
        return best[2]
    first = re.match(r"-- (.*)", read(f"crates/{crate}/specs/{modules[0]}.antt"))
    return first[1].rstrip(".") if first else ""


def old_rows(page):
    """The crates, modules and words of the first table of docs/PROOF.md."""
    found = []
    for line in table_in(page, FILES_HEAD)[2:]:
        cells = [it.strip() for it in line.strip("|").split("|")]
        names = re.findall(r"`(\w+)`", cells[0].split(":")[-1])
        for name, part in zip(names, cells[1].split(";")):
            found.append((name, set(re.findall(r"([A-Z]\w*) \d+", part)), cells[2]))
    return found


def table_in(text, head):
    """The lines of a table, none where the text has no such table."""
    lines = text.split("\n")
    if head not in lines:
        return []
    begin = lines.index(head)
    return lines[begin : lines.index("", begin)]


def shown(words):
    words = [f"`{it}`" for it in words]
    return " and ".join([", ".join(words[:-1]), words[-1]] if words[1:] else words)


def counted(files):
    return f"{len(files)} file{'s' * (len(files) != 1)}, {lines_of(files):,} lines"


def files_table(of, page):
    old, rows, earlier = old_rows(page), [FILES_HEAD, "|---|---|---|"], set()
    rest = [[it] for it in of if not any(it in group for group in GROUPS)]
    for number, group in enumerate([*GROUPS, *rest]):
        files = set().union(*(of[it] for it in group if it in of)) - earlier
        earlier |= files
        if not files:
            continue
        rows.append(f"| *{'for' if not number else 'beyond these for'} {shown(group)}* | {counted(files)} | |")
        for crate in crates_in_order():
            mine = {name_of(it)[1]: lines_of([it]) for it in files if name_of(it)[0] == crate}
            modules = [it for it in rooms(crate)[0] if it in mine] if mine else []
            modules += sorted(set(mine) - set(modules))
            if modules:
                rows.append(f"| `{crate}` | {', '.join(f'{it} {mine[it]}' for it in modules)} | {said(crate, modules, old)} |")
    return [*rows, f"| in all | {counted(earlier)} | |"]


def commands_table(of):
    rows = [COMMANDS_HEAD, "|---|---|---|"]
    rows += [f"| `{it}` | {len(files)} | {lines_of(files):,} |" for it, files in of.items()]
    whole = set().union(*of.values())
    return [*rows, f"| all of them | {len(whole)} | {lines_of(whole):,} |"]


def print_files(of, wanted):
    lacking = [it for it in wanted if it not in of]
    if lacking:
        sys.exit(f"believe: no command {lacking[0]}: the commands are {' '.join(of)}")
    files = set().union(*(of[it] for it in wanted))
    for path in sorted(files):
        print(f"{lines_of([path]):5}  {path}")
    print(f"{lines_of(files):5}  lines in {len(files)} files")


def check(page, tables):
    is_same = True
    for made in tables:
        there = table_in(page, made[0])
        if there != made:
            is_same = False
            print("\n".join(difflib.unified_diff(there, made, "docs/PROOF.md", "docs/believe.py", lineterm="", n=0)))
    print("docs/PROOF.md has the tables that the definitions give" if is_same else "docs/PROOF.md has other tables: docs/believe.py --write puts these there")
    return 0 if is_same else 1


def write(page, tables):
    for made in tables:
        there = table_in(page, made[0])
        if not there:
            sys.exit(f"believe: docs/PROOF.md has no table that begins with the line {made[0]}")
        page = page.replace("\n".join(there), "\n".join(made))
    with open("docs/PROOF.md", "w", encoding="utf-8") as it:
        it.write(page)


def main(words):
    os.chdir(TOP)
    names = commands()
    found = clauses()
    of = {it.lower(): believed(it, names, found) for it in names}
    page = read("docs/PROOF.md")
    if words and not words[0].startswith("-"):
        return print_files(of, words)
    tables = [files_table(of, page), commands_table(of)]
    if words == ["--check"]:
        return check(page, tables)
    if words == ["--write"]:
        return write(page, tables)
    if words:
        sys.exit(__doc__)
    print("\n\n".join("\n".join(it) for it in tables))
    whole = set().union(*of.values())
    inside = sorted(it for it in whole if name_of(it)[1] in rooms(name_of(it)[0])[1])
    print(f"\nkept inside by their crate's specs/Lib.antt: {' '.join(inside) or 'none'}")


sys.exit(main(sys.argv[1:]))
