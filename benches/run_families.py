"""Families of problem texts that grow, for runs.sh and searches.py; and the systems of runs.sh, each with its name."""
import itertools
import random

DIFFERENTIAL = "coordinate t\ndifferential d t\n"


def problem(variables, rows):
    """The problem text of a matrix of texts."""
    lines = ["row " + ", ".join(row) + "\n" for row in rows]
    return ("ore 1\norder degrevlex\n" + variables + "matrix %d %d\n" % (len(rows), len(rows[0])) + "".join(lines) + "end\n").encode()


def letters(count):
    """So many letters that commute."""
    return ["x%d" % k for k in range(1, count + 1)]


def plain(names):
    return "".join("plain %s\n" % name for name in names)


def chain(count):
    """Rows with `d` in one column and a number from 1 to 4, negated, in the next."""
    rows = [["0"] * (count + 1) for _ in range(count)]
    for i, row in enumerate(rows):
        row[i : i + 2] = ["d", "-%d" % (i % 4 + 1)]
    return problem(DIFFERENTIAL, rows)


def delays(count):
    """Rows with `d` in one column and a delay, negated, in the next."""
    rows = [["0"] * (count + 1) for _ in range(count)]
    for i, row in enumerate(rows):
        row[i : i + 2] = ["d", "-D"]
    return problem(DIFFERENTIAL + "delay D t 1\n", rows)


def koszul_rows(names, place):
    """The matrix at a place, from 1, of the Koszul complex of some operators: one column of them, and then for each two,
    three .. of them the row of what is left where each of them is left out, times that one, with signs."""
    columns = {chosen: k for k, chosen in enumerate(itertools.combinations(names, place - 1))}
    rows = []
    for chosen in itertools.combinations(names, place):
        row = ["0"] * len(columns)
        for k, name in enumerate(chosen):
            row[columns[chosen[:k] + chosen[k + 1 :]]] = "-" * (k % 2) + name
        rows.append(row)
    return rows


def koszul(count, place):
    """The matrix at a place of the Koszul complex of so many letters that commute."""
    return problem(plain(letters(count)), koszul_rows(letters(count), place))


def curl(count):
    """A field in so many directions without vortices: the second matrix of the Koszul complex of the derivatives."""
    coordinates = letters(count)
    variables = ["coordinate %s\n" % x for x in coordinates] + ["differential d%s %s\n" % (x, x) for x in coordinates]
    return problem("".join(variables), koszul_rows(["d" + x for x in coordinates], 2))


def pendulums(count):
    """So many equal pendulums, each tied to the next by a spring, and a force on the first."""
    rows = [["0"] * (count + 1) for _ in range(count)]
    for i, row in enumerate(rows):
        neighbours = [k for k in (i - 1, i + 1) if 0 <= k < count]
        row[i] = "d^2 + %d" % (1 + len(neighbours))
        for k in neighbours:
            row[k] = "-1"
    rows[0][count] = "-1"
    return problem(DIFFERENTIAL, rows)


def dense(count, degree):
    """Two rows of three sums of all monomials in so many letters up to a degree, with numbers from 1 to 9."""
    numbers = random.Random(1)
    powers = [m for k in range(degree, -1, -1) for m in itertools.combinations_with_replacement(letters(count), k)]
    entry = lambda: " + ".join("*".join(["%d" % numbers.randint(1, 9), *m]) for m in powers)
    return problem(plain(letters(count)), [[entry() for _ in range(3)] for _ in range(2)])


def dense_differential(degree):
    """Two rows of three sums of all powers of `d` up to a degree, with numbers from 1 to 9."""
    numbers = random.Random(1)
    entry = lambda: " + ".join("%d*d^%d" % (numbers.randint(1, 9), k) for k in range(degree, -1, -1))
    return problem(DIFFERENTIAL, [[entry() for _ in range(3)] for _ in range(2)])


def systems():
    for count in (20, 40, 63):
        yield "chain of %d rows" % count, chain(count)
    for count in (5, 10, 20):
        yield "delays, %d rows" % count, delays(count)
    for count, place in ((3, 1), (6, 1), (8, 1), (10, 1), (3, 2), (5, 2), (8, 2), (10, 2), (6, 3), (7, 3), (7, 4)):
        yield "Koszul, %d letters, matrix %d" % (count, place), koszul(count, place)
    for count, degree in ((2, 1), (2, 2), (3, 1)):
        yield "dense, %d letters, degree %d" % (count, degree), dense(count, degree)
    for degree in (1, 2):
        yield "dense in d, degree %d" % degree, dense_differential(degree)
