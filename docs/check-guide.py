#!/usr/bin/env python3
"""Runs the commands that a page shows, and compares what they print: check-guide.py PROGRAM PAGE..

Each block of a page that begins with ```console is run in a folder of its own page, which has a copy of examples/ and PROGRAM as ./robin. A line that begins with
"$ " is given to sh. The lines behind it, up to the next such line, must be what it prints, on standard output and standard error. A line "..." stands for
any number of lines, and a line that ends with "..." for any line that begins so. What a run of ten seconds tells of how it goes isn't compared, since a slow
machine brings it. Files that one block writes are there for the next. The status is 0 if all agree, and 1 at the first difference, which is printed.
"""
import os
import re
import shutil
import subprocess
import sys
import tempfile

TOP = os.path.dirname(os.path.dirname(os.path.abspath(__file__)))


def agrees(wanted, got):
    """Whether the lines that are wanted are those that came."""
    if not wanted:
        return not got
    if wanted[0] == "...":
        return any(agrees(wanted[1:], got[k:]) for k in range(len(got) + 1))
    if not got:
        return False
    same = got[0].startswith(wanted[0][:-3]) if wanted[0].endswith("...") else got[0] == wanted[0]
    return same and agrees(wanted[1:], got[1:])


def lines_of(command, place):
    """What a command prints, line by line, standard error between, as on a terminal."""
    done = subprocess.run(["sh", "-c", command], cwd=place, stdout=subprocess.PIPE, stderr=subprocess.STDOUT, text=True, check=False)
    lines = done.stdout.rstrip("\n").split("\n") if done.stdout else []
    return [line for line in lines if not re.match(r"robin: \d+ s: ", line)]


def check(page, program):
    """How many commands of a page agree; ends at the first that differs."""
    with open(page, encoding="utf-8") as it:
        blocks = re.findall(r"^```console\n(.*?)^```$", it.read(), re.M | re.S)
    runs = 0
    with tempfile.TemporaryDirectory() as place:
        shutil.copytree(os.path.join(TOP, "examples"), os.path.join(place, "examples"))
        shutil.copy(program, os.path.join(place, "robin"))
        for run in [run for block in blocks for run in re.split(r"^\$ ", block, flags=re.M)[1:]]:
            command, *wanted = run.rstrip("\n").split("\n")
            got = lines_of(command, place)
            runs += 1
            if not agrees(wanted, got):
                print(f"{page} differs: {command}", "wanted:", *wanted, "got:", *got, sep="\n")
                sys.exit(1)
    return runs


if len(sys.argv) < 3:
    sys.exit(__doc__)
for name in sys.argv[2:]:
    print(f"{name}: {check(name, sys.argv[1])} commands agree")
