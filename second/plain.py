"""Writes a text of `robin rows` for solvers that don't read the negation `~x`, line by line.

python3 second/plain.py < rows.opb > plain.opb      OPB where the negation of x is 1 - x (minisat+, z3, toulbar2)
python3 second/plain.py --lp < rows.opb > rows.lp   an integer program in the form of CPLEX (cbc, glpsol)
"""

import re
import sys


def sum_of(words):
    """The terms of a sum without negations, and what the negations add to it: c times the negation of x is c - c x."""
    terms, more = [], 0
    for coef, lit in zip(map(int, words[::2]), words[1::2]):
        if lit[0] == "~":
            more += coef
            coef, lit = -coef, lit[1:]
        terms.append(f"{coef:+} {lit}")
    return terms, more


def cut(terms):
    """The terms on lines of twenty, since programs have short lines."""
    return "\n ".join(" ".join(terms[at : at + 20]) for at in range(0, len(terms), 20))


def rewrite(lines, put, as_program):
    """Puts the text of these lines in another form: an integer program, or OPB without negations."""
    first = next(lines)
    count = int(re.fullmatch(r"\* #variable= (\d+) #constraint= \d+\n", first).group(1))
    put("minimize\nobjective: " if as_program else first)
    number, priced = 0, False
    for line in lines:
        *words, end = line.split()
        assert end == ";", line
        if words[0] == "min:":
            terms, more = sum_of(words[1:])
            assert (number, priced, more) == (0, False, 0), line
            priced = True
            put(cut(terms) if as_program else "min: " + " ".join(terms) + " ;\n")
            continue
        *words, relation, degree = words
        assert relation == ">=", line
        number += 1
        terms, more = sum_of(words)
        if as_program and number == 1:
            put(("" if priced else "+0 x1") + "\nsubject to\n")
        left = int(degree) - more
        put(f"r{number}: {cut(terms)} >= {left}\n" if as_program else " ".join(terms) + f" >= {left} ;\n")
    if as_program:
        put("binary\n" + "".join(f" x{variable}\n" for variable in range(1, count + 1)) + "end\n")


if __name__ == "__main__":
    rewrite(sys.stdin, sys.stdout.write, sys.argv[1:] == ["--lp"])
