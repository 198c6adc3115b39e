#!/usr/bin/env python3
"""A second search, in Python and unproved: what the commands that search answer, to compare the program with.

    search.py WORDS [FILE]    reads a problem, from FILE or the standard input

WORDS are those of `orebench`, but for `check`, `generate` and `survey`. It prints what `orebench WORDS` prints, and
ends with the same status. It was written from docs/formats.md and the definitions of runs, of the chain rule and of the
plans, not from the code of the program; it wrote the answers of examples/gallery. tools/check.py reads problems for it,
moves letters past coordinates, and prints operators.
"""
import math
import re
import sys
from collections import namedtuple
from fractions import Fraction
from itertools import takewhile

sys.dont_write_bytecode = True
import check

GREATEST_NUMBER, GREATEST_DEGREE, GREATEST_BUDGET = check.GREATEST_NUMBER, check.GREATEST_DEGREE, check.GREATEST_BUDGET
MOST_BYTES, BUDGET = 1_048_576, 10_000
STATUS = {"overflow": 4, "degree": 5, "budget": 6}


class Stop(Exception):
    """An operation can't be formed: `overflow`, where a number leaves the range, or `degree`."""


class Halt(Exception):
    """The search ends without an answer: its cause, and the last line of the report."""


def within_range(*numbers):
    if any(abs(number) > GREATEST_NUMBER for number in numbers):
        raise Stop("overflow")


def within_degree(degree):
    if degree > GREATEST_DEGREE:
        raise Stop("degree")


def must_hold(identity):  # what the theory promises of a search
    if not identity:
        raise AssertionError("this search is wrong")


def fraction_sum(x, y):
    """The sum of two fractions, formed with what their denominators share divided out."""
    shared = math.gcd(x.denominator, y.denominator)
    first, second = x.numerator * (y.denominator // shared), y.numerator * (x.denominator // shared)
    denominator = x.denominator // shared * (y.denominator // math.gcd(first + second, shared))
    within_range(first, second, first + second, denominator)
    return x + y


def fraction_product(x, y):
    within_range((x * y).numerator, (x * y).denominator)
    return x * y


# An operator is a dictionary as in check.py: the coefficients, none of them 0, of its monomials, which are tuples of
# exponents with a 0 in front. A row is a list of operators; a term of it is a monomial with its column in front.

Matrix = namedtuple("Matrix", "rows columns")


def add_contribution(operator, monomial, coefficient):  # adds to the coefficient of a monomial, in place
    value = fraction_sum(operator.pop(monomial, Fraction(0)), coefficient)
    if value:
        operator[monomial] = value


class Ring:
    """The operations on operators, rows and matrices. The order in which they are formed decides which one stops."""

    def __init__(self, algebra):
        self.algebra = algebra
        (self.one,) = algebra.unit_row(0)

    def constant(self, coefficient):
        return {self.one: coefficient} if coefficient else {}

    def falling(self, operator):
        return sorted(operator, key=self.algebra.key, reverse=True)

    def monomial_product(self, left, right):
        """The monomials of the product of two monomials, with their whole numbers."""
        product = {right: 1}
        for place in range(len(left) - 1, 0, -1):
            product = self.algebra.times_power(place, left[place], product)
        within_range(*product.values())
        return product

    def product(self, f, g):
        if f and g:
            within_degree(max(map(sum, f)) + max(map(sum, g)))
        total = {}
        for left in self.falling(f):
            for right in self.falling(g):
                coefficient = fraction_product(f[left], g[right])
                for monomial, number in self.monomial_product(left, right).items():
                    add_contribution(total, monomial, fraction_product(coefficient, Fraction(number)))
        return total

    def sum(self, f, g):
        total = dict(f)
        for monomial, coefficient in g.items():
            add_contribution(total, monomial, coefficient)
        return total

    def negated(self, f):
        return {monomial: -coefficient for monomial, coefficient in f.items()}

    def adjoint(self, f):
        """Each monomial with its letters in reverse order and its coordinates negated."""
        is_coordinate = [False, *(variable.kind == "coordinate" for variable in self.algebra.variables)]
        total = {}
        for monomial in self.falling(f):
            coordinates = tuple(e if c else 0 for e, c in zip(monomial, is_coordinate))
            others = tuple(0 if c else e for e, c in zip(monomial, is_coordinate))
            coefficient = (-1) ** sum(coordinates) * f[monomial]
            for reverse, number in self.monomial_product(others, coordinates).items():
                add_contribution(total, reverse, fraction_product(coefficient, Fraction(number)))
        return total

    def zero_row(self, columns):
        return [{} for _ in range(columns)]

    def identity(self, size):
        return [[self.constant(Fraction(row == column)) for column in range(size)] for row in range(size)]

    def scaled(self, f, row):
        return [self.product(f, entry) for entry in row]

    def difference(self, row, other):
        return [self.sum(f, self.negated(g)) for f, g in zip(row, other)]

    def negated_row(self, row):
        return [self.negated(entry) for entry in row]

    def combination(self, row, matrix):
        """A row times a matrix, column by column."""
        result = self.zero_row(matrix.columns)
        for column in range(matrix.columns):
            for f, other in zip(row, matrix.rows):
                result[column] = self.sum(result[column], self.product(f, other[column]))
        return result

    def products(self, left, right):
        """The rows of a product of two matrices."""
        return [self.combination(row, right) for row in left.rows]

    def transposed_adjoint(self, matrix):
        rows = [[self.adjoint(row[column]) for row in matrix.rows] for column in range(matrix.columns)]
        return Matrix(rows, len(matrix.rows))

    def lead(self, row):
        """The greatest term of a row that isn't zero, and its coefficient."""
        terms = {(column, *monomial[1:]): c for column, f in enumerate(row) for monomial, c in f.items()}
        lead = max(terms, key=self.algebra.key)
        return lead, terms[lead]


def common_multiple(lead, other):  # the least common multiple of two leads in one column
    return tuple(map(max, lead, other))


def multiplier(multiple, lead, coefficient=Fraction(1)):  # the operator of one term that takes a lead to a multiple
    return {tuple(a - b for a, b in zip(multiple, lead)): coefficient}


Step = namedtuple("Step", "place term")  # the place of a basis row, from 0, and what multiplies it
Pair = namedtuple("Pair", "first second steps syzygy")  # a treated pair; the syzygy is None where there is none
Skip = namedtuple("Skip", "first second third")  # a pair that is skipped by a third basis row
Rest = namedtuple("Rest", "number row steps")  # the number of a row that is not in a row module, and its remainder


class Run:
    """A run on a matrix by the chain rule: a Gröbner basis of its row module, and generators of its left kernel."""

    def __init__(self, ring, matrix, course):
        self.ring, self.matrix, self.course = ring, matrix, course
        self.basis, self.leads, self.cofactors = [], [], []
        self.unlisted, self.choices = {}, []  # the pairs that are left, with what they are compared by; and the others
        self.units = ring.identity(len(matrix.rows))
        # the lead coefficient of each row of the matrix, and 0 for a row of zeros
        self.coefficients = [self.add_monic(row, unit) if any(row) else 0 for row, unit in zip(matrix.rows, self.units)]
        course.runs.append([])
        while self.unlisted:
            self.choose(*min(self.unlisted, key=self.unlisted.get))

    def add_monic(self, row, cofactor):
        """Divides a row by its lead coefficient and takes it into the basis; that coefficient."""
        lead, coefficient = self.ring.lead(row)
        inverse = self.ring.constant(1 / coefficient)
        self.basis.append(self.ring.scaled(inverse, row))
        self.cofactors.append(self.ring.scaled(inverse, cofactor))
        second = len(self.leads)
        for first, other in enumerate(self.leads):
            if other[0] == lead[0]:
                self.unlisted[first, second] = self.rank(first, second, common_multiple(other, lead))
        self.leads.append(lead)
        return coefficient

    def rank(self, first, second, common):
        """What pairs are compared by, the least being next; those with too great a common multiple come last."""
        if sum(common[1:]) > GREATEST_DEGREE:
            return 1, first, second
        return 0, self.ring.algebra.key(common), first, second

    def choose(self, first, second):
        """Skips a pair by the first basis row that allows it, and else treats it."""
        third = next((third for third in range(len(self.basis)) if self.may_skip(first, second, third)), None)
        if third is None:
            self.treat(first, second)
        else:
            self.course.runs[-1].append(f"skip {first + 1} {second + 1} {third + 1}")
            self.choices.append(Skip(first, second, third))
        del self.unlisted[first, second]

    def treat(self, first, second):
        self.course.spend()
        try:
            self.choices.append(self.treated(first, second))
        except Stop as stop:
            raise Halt(str(stop), f"stop treat {first + 1} {second + 1}") from stop
        self.course.runs[-1].append(f"treat {first + 1} {second + 1}")

    def may_skip(self, first, second, third):
        if third in (first, second):
            return False
        is_listed = all(tuple(sorted((place, third))) not in self.unlisted for place in (first, second))
        return is_listed and check.divides(self.leads[third], common_multiple(self.leads[first], self.leads[second]))

    def treated(self, first, second):
        """Forms the combination of a pair and reduces it; what is left becomes a basis row."""
        within_degree(sum(common_multiple(self.leads[first], self.leads[second])[1:]))
        row, cofactor = (self.pair_combination(first, second, rows) for rows in (self.basis, self.cofactors))
        row, cofactor, steps = self.reduced(row, cofactor)
        if not any(row):
            return Pair(first, second, steps, cofactor if any(cofactor) else None)
        coefficient = self.add_monic(row, cofactor)
        return Pair(first, second, [*steps, Step(len(self.basis) - 1, self.ring.constant(coefficient))], None)

    def pair_combination(self, first, second, rows):
        """The difference of the multiples of two basis rows that have one lead, or of other rows in their places."""
        common = common_multiple(self.leads[first], self.leads[second])
        multiples = [self.ring.scaled(multiplier(common, self.leads[place]), rows[place]) for place in (first, second)]
        return self.ring.difference(*multiples)

    def reduced(self, row, cofactor):
        """A row less multiples of basis rows, each time of the first one whose lead divides, and its cofactor row."""
        steps = []
        while any(row):
            lead, coefficient = self.ring.lead(row)
            place = next((place for place, divisor in enumerate(self.leads) if check.divides(divisor, lead)), None)
            if place is None:
                break
            term = multiplier(lead, self.leads[place], coefficient)
            row = self.ring.difference(row, self.ring.scaled(term, self.basis[place]))
            cofactor = self.ring.difference(cofactor, self.ring.scaled(term, self.cofactors[place]))
            steps.append(Step(place, term))
        return row, cofactor, steps

    def reduced_in_order(self, rows):
        """Rows that the matrix takes to the given ones, up to the first that isn't in its row module; and its rest."""
        written = []
        for number, row in enumerate(rows):
            rest, cofactor, steps = self.reduced(row, self.ring.zero_row(len(self.matrix.rows)))
            if any(rest):
                return written, Rest(number, rest, steps)
            written.append(self.ring.negated_row(cofactor))
        return written, None

    def pairs(self):
        return [choice for choice in self.choices if isinstance(choice, Pair)]

    def syzygies(self):
        of_zero_rows = [unit for unit, coefficient in zip(self.units, self.coefficients) if not coefficient]
        return Matrix([*of_zero_rows, *(pair.syzygy for pair in self.pairs() if pair.syzygy)], len(self.matrix.rows))

    def origin(self):
        """The matrix `from`: rows that take the basis to the rows of the matrix."""
        rows, places = [], iter(range(len(self.basis)))
        for coefficient in self.coefficients:
            rows.append(self.ring.zero_row(len(self.basis)))
            if coefficient:
                rows[-1][next(places)] = self.ring.constant(coefficient)
        return Matrix(rows, len(self.basis))

    def inside(self, rows, columns):
        """The matrix `inside`: these rows in the places of the syzygies, and zeros elsewhere."""
        left, has_syzygy = iter(rows), [not coefficient for coefficient in self.coefficients]
        has_syzygy += [pair.syzygy is not None for pair in self.pairs()]
        return Matrix([next(left) if has else self.ring.zero_row(columns) for has in has_syzygy], columns)


class Block:
    """Writes the blocks of a run, and forms what their check forms, in the order of the check: that may stop too."""

    def __init__(self, run):
        self.run, self.ring, self.texts = run, run.ring, Texts(run.ring.algebra)
        self.to = Matrix(run.cofactors, len(run.matrix.rows))

    def exact(self, kernel, inside_rows):
        """The rows that take the matrix of the run to zero are the row module of the kernel."""
        run, inside = self.run, self.run.inside(inside_rows, len(kernel.rows))
        must_hold(not any(map(any, self.ring.products(kernel, run.matrix))))
        lines = ["block exact", *self.basis_lines(), *self.texts.matrix("to", self.to)]
        must_hold(self.ring.products(self.to, run.matrix) == run.basis)
        lines += [*self.pair_lines(), *self.texts.matrix("inside", inside)]
        for row, relation in zip(inside.rows, self.relations()):
            must_hold(relation == self.ring.combination(row, kernel))
        return lines

    def outside(self, row, rest, steps):
        """The row isn't in the row module of the matrix: the steps leave a rest of it that nothing reduces."""
        lines = ["block outside", *self.basis_lines(), *self.pair_lines(), f"steps {len(steps)}"]
        must_hold(self.less_steps(row, steps, self.run.basis) == rest)
        return [*lines, *map(self.texts.step, steps), *self.texts.row("rest", rest)]

    def basis_lines(self):
        origin, basis = self.run.origin(), Matrix(self.run.basis, self.run.matrix.columns)
        must_hold(self.ring.products(origin, basis) == self.run.matrix.rows)
        return [*self.texts.matrix("basis", basis), *self.texts.matrix("from", origin)]

    def pair_lines(self):
        lines = [f"pairs {len(self.run.choices)}"]
        for choice in self.run.choices:
            lines += self.texts.choice(choice)
            if isinstance(choice, Pair):
                self.check_pair(choice)
        return lines

    def check_pair(self, pair):
        leads = self.run.leads
        within_degree(sum(common_multiple(leads[pair.first], leads[pair.second])[1:]))
        row = self.run.pair_combination(pair.first, pair.second, self.run.basis)
        for step in pair.steps:
            within_degree(sum(*step.term) + sum(leads[step.place][1:]))
            row = self.less_steps(row, [step], self.run.basis)
        must_hold(not any(row))

    def less_steps(self, row, steps, rows):
        for place, term in steps:
            row = self.ring.difference(row, self.ring.scaled(term, rows[place]))
        return row

    def relations(self):
        """What each row of `inside` has to be, one after the other."""
        for unit, row in zip(self.run.units, self.run.origin().rows):
            yield self.ring.difference(unit, self.ring.combination(row, self.to))
        for pair in self.run.pairs():
            row = self.run.pair_combination(pair.first, pair.second, self.run.cofactors)
            yield self.less_steps(row, pair.steps, self.run.cofactors)


class Texts:
    """The lines of certificates and problems."""

    def __init__(self, algebra):
        self.algebra = algebra

    def matrix(self, name, matrix):
        rows = ["row " + ", ".join(map(self.algebra.text, row)) for row in matrix.rows]
        return [f"matrix {name} {len(rows)} {matrix.columns}", *(row.rstrip() for row in rows)]

    def row(self, name, row):
        return self.matrix(name, Matrix([row], len(row)))

    def step(self, step):
        return f"step {step.place + 1} {self.algebra.text(step.term)}"

    def choice(self, choice):
        places = " ".join(str(place + 1) for place in choice if isinstance(place, int))
        if isinstance(choice, Skip):
            return [f"skip {places}"]
        return [f"pair {places} {len(choice.steps)}", *map(self.step, choice.steps)]

    def problem(self, matrix):
        lines = ["ore 1", f"order {self.algebra.order}"]
        for name, kind, place, step in self.algebra.variables:
            words = [kind, name, *([self.algebra.variables[place - 1].name] if place else [])]
            lines.append(" ".join([*words, *([str(abs(step))] if kind in ("shift", "delay") else [])]))
        return [*lines, f"matrix {len(matrix.rows)} {matrix.columns}", *self.matrix("", matrix)[1:], "end"]


class Course:
    """The choices of the runs of a search, as a report lists them, and the budget of treated pairs."""

    def __init__(self, budget):
        self.budget, self.left, self.runs = budget, budget, []

    def spend(self):
        if self.left == 0:
            raise Halt(f"budget {self.budget}", "stop budget")
        self.left -= 1


class Search:
    """The plans of the commands: each gives the lines of its certificate."""

    def __init__(self, algebra, matrix, course):
        self.ring, self.matrix, self.course = Ring(algebra), matrix, course
        self.texts, self.adjoint = Texts(algebra), self.ring.transposed_adjoint

    def run(self, matrix):
        return Run(self.ring, matrix, self.course)

    def analyse(self):
        own = self.run(self.matrix)
        image = self.run(self.adjoint(self.run(self.adjoint(self.matrix)).syzygies()))
        inside, rest = own.reduced_in_order(image.syzygies().rows)
        if rest:
            return self.autonomous_element(own, rest.row)
        return ["controllable", *self.texts.matrix("Q", image.matrix), *Block(image).exact(self.matrix, inside)]

    def autonomous_element(self, own, element):
        stacked = self.run(Matrix([element, *self.matrix.rows], self.matrix.columns))
        operator, *others = next(syzygy for syzygy in stacked.syzygies().rows if syzygy[0])
        cofactor = self.ring.negated_row(others)
        must_hold(self.ring.scaled(operator, element) == self.ring.combination(cofactor, self.matrix))
        claim = [*self.texts.row("element", element), f"operator {self.texts.algebra.text(operator)}"]
        shown = [*self.texts.row("cofactor", cofactor), *Block(own).outside(element, element, [])]
        return ["autonomous-element", *claim, *shown]

    def left_kernel(self):
        run = self.run(self.matrix)
        return ["kernel left", *self.kernel_lines("L", run.syzygies(), run, run.syzygies())]

    def right_kernel(self):
        run = self.run(self.adjoint(self.matrix))
        generators = self.adjoint(run.syzygies())
        self.adjoint(self.matrix)
        return ["kernel right", *self.kernel_lines("Q", generators, run, self.adjoint(generators))]

    def kernel_lines(self, name, matrix, run, kernel):
        return [*self.texts.matrix(name, matrix), *Block(run).exact(kernel, self.ring.identity(len(kernel.rows)))]

    def left_inverse(self):
        run = self.run(self.matrix)
        rows, rest = run.reduced_in_order(self.ring.identity(self.matrix.columns))
        if rest:
            return self.no_inverse("left", run, rest)
        inverse = Matrix(rows, len(self.matrix.rows))
        must_hold(self.ring.products(inverse, self.matrix) == self.ring.identity(self.matrix.columns))
        return ["left-inverse", *self.texts.matrix("S", inverse)]

    def right_inverse(self):
        run = self.run(self.adjoint(self.matrix))
        rows, rest = run.reduced_in_order(self.ring.identity(len(self.matrix.rows)))
        if rest:
            self.adjoint(self.matrix)
            return self.no_inverse("right", run, rest)
        inverse = self.adjoint(Matrix(rows, self.matrix.columns))
        must_hold(self.ring.products(self.matrix, inverse) == self.ring.identity(len(self.matrix.rows)))
        return ["right-inverse", *self.texts.matrix("S", inverse)]

    def no_inverse(self, side, run, rest):
        unit = self.ring.identity(run.matrix.columns)[rest.number]
        return [f"no-{side}-inverse", f"unit {rest.number + 1}", *Block(run).outside(unit, rest.row, rest.steps)]

    def resolution(self, length):
        return [f"resolution {length}", *self.links(self.chain(length))]

    def chain(self, length):
        """A run on the matrix, one on its syzygies, and so on."""
        runs = [self.run(self.matrix)]
        while len(runs) < length:
            runs.append(self.run(runs[-1].syzygies()))
        return runs

    def links(self, runs):
        return [line for run in runs for line in self.kernel_lines("L", run.syzygies(), run, run.syzygies())]

    def extension(self, place):
        runs = self.chain(place)
        before, last = runs[-1].matrix, runs[-1].syzygies()
        kernel, image = self.run(self.adjoint(last)), self.run(self.adjoint(before))
        inside, rest = image.reduced_in_order(kernel.syzygies().rows)
        links = self.links(runs)
        last = self.adjoint(last)
        if rest:
            must_hold(not any(self.ring.combination(rest.row, last)))
            self.adjoint(before)
            element = self.texts.row("element", rest.row)
            return [f"ext-nonzero {place}", *links, *element, *Block(image).outside(rest.row, rest.row, [])]
        return [f"ext-zero {place}", *links, *Block(kernel).exact(self.adjoint(before), inside)]


class LimitedAlgebra(check.Algebra):
    """The algebra of a problem whose products stop."""

    def product(self, left, rows):
        return Ring(self).product(left, *rows)


class LimitedExpression(check.Expression):
    """An expression without faults, whose sums and products stop."""

    def value(self, end=""):
        ring, total, sign = Ring(self.algebra), {}, "-" if self.takes("-") else "+"
        while sign in ("+", "-"):
            term = self.factor()
            while self.takes("*"):
                term = self.algebra.product(term, [self.factor()])
            total = ring.sum(total, term if sign == "+" else ring.negated(term))
            sign = self.tokens.pop()
        return total


class Problem(check.Lines):
    """Reads a problem; the faults of a row come before the operations in it that stop."""

    def whole(self):
        """The algebra, and the matrix with lists of operators as its rows."""
        algebra, matrix = self.problem()
        if self.number < len(self.lines) or self.tail:
            self.number += 1
            raise check.Fault("after-end")
        rows = [[{} for _ in range(matrix.columns)] for _ in matrix.rows]
        for row, terms in zip(rows, matrix.rows):
            for (column, *exponents), coefficient in terms.items():
                row[column][0, *exponents] = coefficient
        return algebra, Matrix(rows, matrix.columns)

    def problem_row(self, columns, algebra):
        row = super().problem_row(columns, algebra)
        line = [*self.lines, self.tail][self.number - 1].removesuffix("\r")
        limited = LimitedAlgebra(algebra.order, algebra.variables)
        for text in line[3:].split(",") if columns else []:
            LimitedExpression(limited, text).value()
        return row


def plan_of(words):
    """The name of a command's plan, the call that follows it, and the budget; None where there is no such command."""
    match words:
        case ["analyse"] | ["analyse", "--brief"]:
            return "analyse", Search.analyse, BUDGET
        case ["analyse", "--budget", number] if re.fullmatch(check.COUNT, number) and int(number) <= GREATEST_BUDGET:
            return "analyse", Search.analyse, int(number)
        case ["kernel"]:
            return "kernel left", Search.left_kernel, BUDGET
        case ["parametrise"]:
            return "kernel right", Search.right_kernel, BUDGET
        case ["inverse", "left" | "right" as side]:
            return f"inverse {side}", Search.left_inverse if side == "left" else Search.right_inverse, BUDGET
        case ["resolve", length] if re.fullmatch(check.LENGTH, length):
            return f"resolve {length}", lambda search: search.resolution(int(length)), BUDGET
        case ["ext", place] if re.fullmatch(check.LENGTH, place):
            return f"ext {place}", lambda search: search.extension(int(place)), BUDGET
        case ["adjoint"]:
            return "adjoint", lambda search: search.texts.problem(search.adjoint(search.matrix)), BUDGET
    return None


def answer(words, data):
    """The status and the text for a command and its input."""
    plan = plan_of(words)
    if not plan:
        return 2, "unknown words"
    if len(data) > MOST_BYTES:
        return 9, "too long"
    lines = Problem(data)
    try:
        algebra, matrix = lines.whole()
    except check.Fault as fault:
        return 3, f"malformed {lines.number} {fault}"
    except Stop as stop:
        return STATUS[str(stop)], f"{stop} {lines.number}"
    return searched(words, plan, algebra, matrix)


def searched(words, plan, algebra, matrix):
    name, follow, budget = plan
    course, status = Course(budget), 0
    try:
        lines = follow(Search(algebra, matrix, course))
    except (Stop, Halt) as halt:
        cause, last = halt.args if isinstance(halt, Halt) else (str(halt), "stop forced")
        status = STATUS[cause.split(" ")[0]]
        runs = [line for choices in course.runs for line in [f"run {len(choices)}", *choices]]
        lines = [f"halted {cause}", f"plan {name}", *runs, last]
    if words == ["analyse", "--brief"] and status == 0:
        return status, "\n".join(takewhile(lambda line: not re.match("block|matrix cofactor", line), lines))
    if name == "adjoint" and status == 0:
        return status, "\n".join(lines)
    return status, "\n".join(["certificate 1", *lines, "end"])


def main(words):
    """The last word is a file where the words before it are a command."""
    path = words.pop() if plan_of(words[:-1]) and not plan_of(words) else None
    try:
        with open(path, "rb") if path else sys.stdin.buffer as source:
            status, text = answer(words, source.read(MOST_BYTES + 1) if plan_of(words) else b"")
    except OSError:
        sys.exit(7)
    print(text)
    sys.exit(status)


if __name__ == "__main__":
    main(sys.argv[1:])
