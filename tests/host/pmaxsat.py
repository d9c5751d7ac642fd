#!/usr/bin/env python3
"""A PMaxSAT program for small texts, which tries every assignment: reads a file in the classic DIMACS form and prints
the best one.

    pmaxsat.py [--row] FILE      --row: the values as a row of digits and not as literals
"""
import sys


def main():
    with open(sys.argv[-1], encoding="ascii") as file:
        head, *lines = file.read().splitlines()
    _, form, variables, count, top = head.split()
    variables, top = int(variables), int(top)
    clauses = [[int(word) for word in line.split()] for line in lines]
    assert form == "wcnf" and len(clauses) == int(count) and all(clause[-1] == 0 for clause in clauses)
    best = None
    for bits in range(2**variables):
        def holds(clause):
            return any((bits >> abs(literal) - 1 & 1) == (literal > 0) for literal in clause[1:-1])

        violated = [clause[0] for clause in clauses if not holds(clause)]
        if top not in violated and (best is None or sum(violated) < best[0]):
            best = (sum(violated), bits)
    if best is None:
        print("s UNSATISFIABLE")
        return
    values = [best[1] >> place & 1 for place in range(variables)]
    print("o", best[0])
    print("s OPTIMUM FOUND")
    if "--row" in sys.argv:
        print("v", "".join(map(str, values)))
    else:
        print("v", *(place + 1 if value else -place - 1 for place, value in enumerate(values)), 0)


main()
