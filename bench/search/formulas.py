"""Formulas in DIMACS form for measuring the search, on standard output.

    formulas.py random VARIABLES RATIO SEED   random clauses of three literals
    formulas.py pigeons HOLES                 one pigeon more than there are holes
    formulas.py chain VARIABLES               a chain of equivalences that leads to a contradiction

The literals of a clause stand in the order of their variables.
"""
import random
import sys


def random_clauses(variables, ratio, seed):
    chance = random.Random(seed)
    clauses = []
    for _ in range(int(variables * ratio)):
        chosen = chance.sample(range(1, variables + 1), 3)
        clauses.append([v if chance.random() < 0.5 else -v for v in chosen])
    return variables, clauses


def pigeons(holes):
    def place(pigeon, hole):
        return pigeon * holes + hole + 1

    clauses = [[place(p, h) for h in range(holes)] for p in range(holes + 1)]
    for hole in range(holes):
        for one in range(holes + 1):
            for other in range(one + 1, holes + 1):
                clauses.append([-place(one, hole), -place(other, hole)])
    return (holes + 1) * holes, clauses


def chain(variables):
    clauses = []
    for v in range(1, variables):
        clauses += [[-v, v + 1], [v, -(v + 1)]]
    clauses += [[1, variables], [-1, -variables]]
    return variables, clauses


def main():
    kind, numbers = sys.argv[1], sys.argv[2:]
    if kind == "random":
        variables, clauses = random_clauses(int(numbers[0]), float(numbers[1]), int(numbers[2]))
    elif kind == "pigeons":
        variables, clauses = pigeons(int(numbers[0]))
    else:
        variables, clauses = chain(int(numbers[0]))
    print("p cnf", variables, len(clauses))
    for clause in clauses:
        print(*sorted(clause, key=abs), 0)


main()
