"""copy_crates.py NAME FOLDER: copies the crate NAME and the crates that it stands on into a folder, as a repository without wrong bodies."""
import os
import shutil
import sys

TOP = os.path.dirname(os.path.dirname(os.path.abspath(__file__)))


def lines_of(text):
    """The line of each crate, and the names of the crates that it uses, by its name."""
    lines = {}
    for line in text.splitlines():
        head, colon, uses = line.partition("#")[0].partition(":")
        if colon:
            lines[head.split()[0]] = line, uses.split()
    return lines


def reached(lines, name, found):
    """Adds a crate, and those that it stands on, to the ones that were found."""
    if name in lines and name not in found:
        found.add(name)
        for below in lines[name][1]:
            reached(lines, below, found)
    return found


def main(name, folder):
    with open(f"{TOP}/crates.txt", encoding="utf-8") as file:
        lines = lines_of(file.read())
    names = sorted(reached(lines, name, set()))
    for it in names:
        shutil.copytree(f"{TOP}/crates/{it}", f"{folder}/crates/{it}", ignore=lambda at, _: {"out", "must-fail"} if at == f"{TOP}/crates/{it}" else set())
    shutil.copy(f"{TOP}/HANDLES", folder)
    with open(f"{folder}/crates.txt", "w", encoding="utf-8") as file:
        file.writelines(f"{lines[it][0]}\n" for it in names)


main(*sys.argv[1:])
