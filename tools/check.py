#!/usr/bin/env python3
"""A second checker of certificates, written from docs/formats.md alone, for those who don't want to trust the first.

    check.py [FILE]    reads a problem and at once its certificate, from FILE or the standard input

It prints what `orebench check` prints, and ends with the same status. It has no limits of numbers and degrees: it says
`valid` or `invalid` where that program says `overflow` or `degree`. Reports of searches that stopped (`halted`) are read
and not checked: `not-checked`, with status 10.
"""
import math
import re
import sys
from collections import Counter, namedtuple
from fractions import Fraction

MOST_BYTES, MOST_VARIABLES, MOST_ROWS, MOST_OPEN = 33_554_432, 12, 64, 64
GREATEST_NUMBER, GREATEST_COUNT = 2**127 - 1, 2**63 - 1
GREATEST_DEGREE, GREATEST_POWER, GREATEST_STEP, GREATEST_BUDGET = 32_767, 64, 1000, 1_000_000
NAME, DIGITS, COUNT, PLACE = "[A-Za-z][A-Za-z0-9_]*", "[0-9]+", "(0|[1-9][0-9]*)", "([1-9][0-9]*)"


class Fault(Exception):
    """The line that was taken last isn't what has to stand there; or the line of a condition, and why it fails."""


def require(condition, *fault):
    if not condition:
        raise Fault(*fault)


def number_of(digits, greatest=GREATEST_COUNT, fault=None):  # the value of some digits, which isn't above the greatest
    significant = digits.lstrip("0") or "0"
    require(len(significant) <= len(str(greatest)) and int(significant) <= greatest, fault)
    return int(significant)


# Rows of operators. A term is a monomial in a column, a tuple: the column, from 0, and the exponents of the variables.
# A row is a dictionary of the coefficients of its terms, none of them 0, and an operator is a row of one column.

Variable = namedtuple("Variable", "name kind place step")  # the place of its coordinate in a term; a delay has -step
Matrix = namedtuple("Matrix", "rows columns line")  # the number of its line `matrix` in a certificate


def raised(term, place, exponent):  # a term with an exponent added at a place
    return *term[:place], term[place] + exponent, *term[place + 1 :]


def divides(term, other):
    return term[0] == other[0] and all(map(int.__le__, term, other))


def add_to(total, row, factor=1):  # adds a multiple of a row to a total, in place
    for term, coefficient in row.items():
        value = total.pop(term, 0) + factor * coefficient
        if value != 0:
            total[term] = value


def row_of(entries):  # the row with these operators as its entries
    return {(column, *term[1:]): c for column, entry in enumerate(entries) for term, c in entry.items()}


class Algebra:
    """The Ore algebra of some variables, with the order of its monomials."""
    def __init__(self, order, variables):
        self.order, self.variables = order, variables
        self.places = {variable.name: place for place, variable in enumerate(variables, 1)}

    def unit_row(self, column):  # the row with 1 in a column, and zeros elsewhere
        return {(column, *[0] * len(self.variables)): Fraction(1)}

    def key(self, term):  # what terms are compared by: the greater one has the greater key
        column, *exponents = term
        return sum(exponents), exponents if self.order == "deglex" else [-e for e in exponents[::-1]], -column

    def lead(self, row):  # the greatest term of a row that isn't zero
        return max(row, key=self.key)

    def times_power(self, own, exponent, row):
        """The product of a power of the variable at a place with a row, letter by letter where they don't commute."""
        _, kind, place, step = self.variables[own - 1]
        if not place or not any(term[place] for term in row):
            return {raised(term, own, exponent): coefficient for term, coefficient in row.items()}
        for _ in range(exponent):
            before, row = row, {}
            for term, coefficient in before.items():
                # by how much the power of the coordinate falls, whether the letter stays, and a factor
                passed = [(0, 1, 1), (1, 0, term[place])]
                if kind != "differential":
                    passed = [(fall, 1, math.comb(term[place], fall) * step**fall) for fall in range(term[place] + 1)]
                for fall, stays, factor in passed:
                    add_to(row, {raised(raised(term, place, -fall), own, stays): factor * coefficient})
        return row

    def product(self, left, rows):
        """The product of a row with the matrix of these rows; an operator has one column, so with one row."""
        result = {}
        for (column, *exponents), coefficient in left.items():
            product = rows[column]
            for own in range(len(exponents), 0, -1):
                product = self.times_power(own, exponents[own - 1], product)
            add_to(result, product, coefficient)
        return result

    def transposed_adjoint(self, matrix):
        """The adjoints of a matrix transposed: their products in reverse order, their coordinates negated."""
        rows = [{} for _ in range(matrix.columns)]
        for number, row in enumerate(matrix.rows):
            for (column, *exponents), coefficient in row.items():
                reverse = self.unit_row(number)
                for own, exponent in enumerate(exponents, 1):
                    reverse = self.times_power(own, exponent, reverse)
                negated = sum(e for v, e in zip(self.variables, exponents) if v.kind == "coordinate")
                add_to(rows[column], reverse, (-1) ** negated * coefficient)
        return Matrix(rows, len(matrix.rows), matrix.line)

    def text(self, operator):  # the canonical text of an operator
        text = ""
        for term in sorted(operator, key=self.key, reverse=True):
            sign = "-" if operator[term] < 0 else "+"
            text += f" {sign} " if text else sign.strip("+")
            powers = [(v.name, power) for v, power in zip(self.variables, term[1:]) if power]
            factors = [name if power == 1 else f"{name}^{power}" for name, power in powers]
            magnitude = abs(operator[term])
            text += "*".join(factors if factors and magnitude == 1 else [str(magnitude), *factors])
        return text or "0"


class Expression:
    """Reads an expression from the left and forms its value; the first fault that it meets decides."""
    def __init__(self, algebra, text):
        self.algebra, self.one, self.open = algebra, algebra.unit_row(0), 0
        self.tokens = re.findall(f" *({DIGITS}|{NAME}|[^ ]|$)", text)[::-1]  # the next one is the last; at the end ""

    def takes(self, token):  # takes the next token if it is this one
        return self.tokens[-1] == token and bool(self.tokens.pop())

    def number(self, greatest, fault):
        require(re.fullmatch(DIGITS, self.tokens[-1]), "syntax")
        return number_of(self.tokens.pop(), greatest, fault)

    def value(self, end=""):  # the value of the expression up to this token
        total, sign = {}, "-" if self.takes("-") else "+"
        while sign in ("+", "-"):
            term = self.factor()
            while self.takes("*"):
                term = self.algebra.product(term, [self.factor()])
            add_to(total, term, 1 if sign == "+" else -1)
            sign = self.tokens.pop()
        require(sign == end, "syntax")
        return total

    def factor(self):
        if re.fullmatch(NAME, self.tokens[-1]):
            place = self.algebra.places.get(self.tokens.pop())
            require(place, "unknown-name")
            exponent = self.number(GREATEST_DEGREE, "power-too-large") if self.takes("^") else 1
            return self.algebra.times_power(place, exponent, self.one)
        if self.takes("("):
            self.open += 1
            require(self.open <= MOST_OPEN, "too-deep")
            base = self.value(")")
            self.open -= 1
        else:
            numerator = self.number(GREATEST_NUMBER, "number-too-wide")
            denominator = self.number(GREATEST_NUMBER, "number-too-wide") if self.takes("/") else 1
            require(denominator, "zero-denominator")
            base = {term: Fraction(numerator, denominator) for term in self.one if numerator}
        value = self.one
        for _ in range(self.number(GREATEST_POWER, "power-too-large") if self.takes("^") else 1):
            value = self.algebra.product(value, [base])
        return value

SHORT_NAME = "[A-Za-z][A-Za-z0-9_]{0,15}"
DECLARATIONS = {"coordinate": (0, 2), "constant": (1, 2), "plain": (2, 2)}  # the group, and the number of words
DECLARATIONS |= {"differential": (2, 3), "shift": (2, 4), "delay": (2, 4)}


class Lines:
    """The lines of an input, and the number of the one that was taken last."""
    def __init__(self, data):
        *self.lines, self.tail = data.decode("latin-1").split("\n")
        self.number = 0

    def take_of_problem(self):
        """The next line of the problem that is no comment; the last one may lack its line end."""
        line = "#"
        while line.startswith("#"):
            line = self.next().removesuffix("\r") if self.number < len(self.lines) else self.tail
            self.number += 1
            require(self.number <= len(self.lines) + bool(self.tail), "no-end")
        return line

    def words(self):
        return [word for word in self.take_of_problem().split(" ") if word]

    def next(self):  # the next line of the certificate, which isn't taken; behind the last one it is empty
        return self.lines[self.number] if self.number < len(self.lines) else ""

    def take(self, pattern):  # the groups of the next line of the certificate, which has to be of this form
        match = re.fullmatch(pattern, self.next())
        self.number += 1
        require(match)
        return match.groups()

    def numbers(self, pattern):  # the number of the next line of the certificate, and the numbers in it
        groups = self.take(pattern)
        return self.number, *map(number_of, filter(None, groups))

    def problem(self):
        """The algebra and the matrix of the problem."""
        require(self.words() == ["ore", "1"], "header")
        order = self.words()
        require(order in (["order", "deglex"], ["order", "degrevlex"]), "header")
        variables = []
        while (words := self.words())[:1] != ["matrix"]:
            variables.append(declared(words, variables))
        require(len(words) == 3 and all(re.fullmatch(COUNT, word) for word in words[1:]), "bad-matrix")
        rows = number_of(words[1], MOST_ROWS, "too-many-rows")
        columns = number_of(words[2], MOST_ROWS, "too-many-columns")
        algebra = Algebra(order[1], variables)
        matrix = Matrix([self.problem_row(columns, algebra) for _ in range(rows)], columns, 0)
        require(self.words() == ["end"], "no-end")
        return algebra, matrix

    def problem_row(self, columns, algebra):
        line = self.take_of_problem()
        require(re.match("row( |$)", line), "bad-row")
        texts = line[3:].split(",") if columns or line[3:].strip(" ") else []
        require(len(texts) == columns, "wrong-length")
        return row_of([Expression(algebra, text).value() for text in texts])


def declared(words, variables):
    """The variable that a declaration adds to those before it."""
    group, count = DECLARATIONS.get(words[0] if words else "", (0, 0))
    forms = [".*", SHORT_NAME, SHORT_NAME, DIGITS][:count]
    require(forms and len(words) == count and all(map(re.fullmatch, forms, words)), "bad-declaration")
    kind, name, on, step = (*words, *["", "", "", "1"][count:])
    require(len(variables) < MOST_VARIABLES, "too-many-variables")
    require(all(variable.name != name for variable in variables), "name-twice")
    require(not variables or group >= DECLARATIONS[variables[-1].kind][0], "group-order")
    if not on:
        return Variable(name, kind, 0, 0)
    places = [place for place, v in enumerate(variables, 1) if (v.kind, v.name) == ("coordinate", on)]
    require(places, "bad-coordinate")
    is_second = (kind, places[0]) in [(v.kind, v.place) for v in variables]
    require(kind != "differential" or not is_second, "two-differentials")
    size = number_of(step, GREATEST_STEP, "bad-step")
    require(size > 0, "bad-step")
    return Variable(name, kind, places[0], -size if kind == "delay" else size)

Step = namedtuple("Step", "line place multiplier")  # a multiple of a basis row, from 1, that is taken away
Entry = namedtuple("Entry", "line first second third steps")  # a pair of basis rows; the third skips it, or is 0
# in a block `origin` is the matrix `from`, and `pairs` the number of the line `pairs`
Exact = namedtuple("Exact", "line basis origin to pairs entries inside")
Outside = namedtuple("Outside", "line basis origin pairs entries steps rest")
LENGTH = "([1-9]|1[0-2])"
PLAN = f"plan (?:analyse|kernel left|kernel right|inverse left|inverse right|resolve {LENGTH}|ext {LENGTH}|adjoint)"


class Certificate:
    """Reads a certificate and checks it. Each kind reads its parts, yields, and then looks at its conditions."""
    def __init__(self, lines, algebra, matrix):
        self.lines, self.algebra, self.matrix = lines, algebra, matrix
        self.adjoint, self.product, self.unit_row = algebra.transposed_adjoint, algebra.product, algebra.unit_row

    def read(self):
        """Reads the whole text; the first word of its kind, and what looks at its conditions."""
        self.lines.take("certificate 1")
        line, nothing = self.lines.next(), "(?!)"
        pattern = next((pattern for pattern in KINDS if re.fullmatch(pattern, line)), nothing)
        groups = self.lines.take(pattern)
        conditions = KINDS[pattern](self, *groups)
        next(conditions)
        self.lines.take("end")
        if self.lines.number < len(self.lines.lines) or self.lines.tail:
            self.lines.take(nothing)
        return line.split(" ")[0], conditions

    def kernel(self, kind):
        matrix, block = self.read_matrix("L" if kind == "kernel left" else "Q"), self.read_exact()
        yield
        a, m = (matrix, self.matrix) if kind == "controllable" else (self.matrix, matrix)
        if kind == "kernel right":
            a, m = self.adjoint(a), self.adjoint(m)
        self.exact(block, a, m, matrix.line)

    def autonomous_element(self):
        element, (text,) = self.read_matrix("element", "(1)"), self.lines.take("operator (.*)")
        line, operator = self.lines.number, self.operator(text)
        cofactor, block = self.read_matrix("cofactor", "(1)"), self.read_outside()
        yield
        self.shape(element, 1, self.matrix.columns)
        require(operator, line, "zero-operator")
        self.shape(cofactor, 1, len(self.matrix.rows))
        self.products(cofactor, self.matrix, [self.product(operator, element.rows)], "cofactor")
        self.outside(block, self.matrix, element.rows[0])

    def inverse(self, side):
        s = self.read_matrix("S")
        yield
        self.shape(s, self.matrix.columns, len(self.matrix.rows))
        if side == "left":
            self.products(s, self.matrix, map(self.unit_row, range(self.matrix.columns)), "identity")
        for column, row in enumerate(self.matrix.rows if side == "right" else []):
            require(self.product(row, s.rows) == self.unit_row(column), s.line + len(s.rows) + 1, "identity")

    def no_inverse(self, side):
        (line, unit), block = self.lines.numbers(f"unit {PLACE}"), self.read_outside()
        yield
        a = self.matrix if side == "left" else self.adjoint(self.matrix)
        require(unit <= a.columns, line, "unit")
        self.outside(block, a, self.unit_row(unit - 1))

    def linked(self, kind, length):
        links = [(self.read_matrix("L"), self.read_exact()) for _ in range(int(length))]
        element = self.read_matrix("element", "(1)") if kind == "ext-nonzero" else None
        block = {"resolution": lambda: None, "ext-zero": self.read_exact, "ext-nonzero": self.read_outside}[kind]()
        yield
        matrices = [self.matrix, *(matrix for matrix, _ in links)]
        for before, (matrix, link) in zip(matrices, links):
            self.exact(link, before, matrix, matrix.line)
        before, last = map(self.adjoint, matrices[-2:])
        if kind == "ext-zero":
            self.exact(block, last, before, block.line)
        elif kind == "ext-nonzero":
            self.shape(element, 1, before.columns)
            require(not self.product(element.rows[0], last.rows), element.line + 1, "not-in-kernel")
            self.outside(block, before, element.rows[0])

    def halted(self, budget):
        number_of(budget or "0", GREATEST_BUDGET)
        self.lines.take(PLAN)
        while self.lines.next().split(" ")[0] == "run":
            for _ in range(self.lines.numbers(f"run {COUNT}")[1]):
                self.lines.numbers(f"skip {PLACE} {PLACE} {PLACE}|treat {PLACE} {PLACE}")
        self.lines.numbers(f"stop (?:forced|budget|treat {PLACE} {PLACE})")
        yield

    def read_exact(self):
        (line,), *matrices = self.lines.numbers("block exact"), *map(self.read_matrix, ("basis", "from", "to"))
        return Exact(line, *matrices, *self.read_all("pairs", self.read_entry), self.read_matrix("inside"))

    def read_outside(self):
        (line,), *matrices = self.lines.numbers("block outside"), *map(self.read_matrix, ("basis", "from"))
        pairs, (_, steps) = self.read_all("pairs", self.read_entry), self.read_all("steps", self.read_step)
        return Outside(line, *matrices, *pairs, steps, self.read_matrix("rest", "(1)"))

    def read_all(self, word, read):  # the number of a line with a count, and as many things behind it
        line, count = self.lines.numbers(f"{word} {COUNT}")
        return line, [read() for _ in range(count)]

    def read_entry(self):
        if self.lines.next().startswith("skip "):
            return Entry(*self.lines.numbers(f"skip {PLACE} {PLACE} {PLACE}"), [])
        line, first, second, steps = self.lines.numbers(f"pair {PLACE} {PLACE} {COUNT}")
        return Entry(line, first, second, 0, [self.read_step() for _ in range(steps)])

    def read_step(self):
        place, text = self.lines.take(f"step {PLACE} (.*)")
        step = Step(self.lines.number, number_of(place), self.operator(text))
        require(len(step.multiplier) == 1)
        return step

    def read_matrix(self, name, count=COUNT):
        line, rows, columns = self.lines.numbers(f"matrix {name} {count} {COUNT}")
        return Matrix([self.read_row(columns) for _ in range(rows)], columns, line)

    def read_row(self, columns):
        (text,) = self.lines.take("row (.*)" if columns else "row()")
        texts = text.split(", ") if columns else []
        require(len(texts) == columns)
        return row_of([self.operator(text) for text in texts])

    def operator(self, text):  # the operator with this canonical text
        require("(" not in text)
        value = Expression(self.algebra, text).value()
        for (_, *exponents), coefficient in value.items():
            size = max(abs(coefficient.numerator), coefficient.denominator)
            require(sum(exponents) <= GREATEST_DEGREE and size <= GREATEST_NUMBER)
        require(self.algebra.text(value) == text)
        return value

    def shape(self, matrix, rows, columns):
        require((len(matrix.rows), matrix.columns) == (rows, columns), matrix.line, "shape")

    def products(self, left, right, rows, reason):  # the product of two matrices has these rows
        for line, (row, wanted) in enumerate(zip(left.rows, rows), left.line + 1):
            require(self.product(row, right.rows) == wanted, line, reason)

    def exact(self, block, a, m, line):
        """The rows that take a to zero are the row module of m, whose width is looked at in this line."""
        require(m.columns == len(a.rows), line, "shape")
        require(not any(self.product(row, a.rows) for row in m.rows), block.line, "not-in-kernel")
        leads = self.basis(block, a)
        self.shape(block.to, len(leads), len(a.rows))
        self.products(block.to, a, block.basis.rows, "to")
        self.pairs(block, leads)
        relations = [self.unit_row(column) for column in range(len(a.rows))]
        for relation, row in zip(relations, block.origin.rows):
            add_to(relation, self.product(row, block.to.rows), -1)
        relations += [self.reduced(entry, leads, block.to.rows) for entry in block.entries if not entry.third]
        self.shape(block.inside, len(relations), len(m.rows))
        self.products(block.inside, m, relations, "inside")

    def outside(self, block, a, row):  # the row isn't in the row module of a
        leads, left = self.basis(block, a), dict(row)
        self.pairs(block, leads)
        for step in block.steps:
            require(step.place <= len(leads), step.line, "step")
            add_to(left, self.product(step.multiplier, [block.basis.rows[step.place - 1]]), -1)
        self.shape(block.rest, 1, a.columns)
        line = block.rest.line + 1
        require(block.rest.rows[0] == left, line, "rest")
        require(left and not any(divides(lead, self.algebra.lead(left)) for lead in leads), line, "reducible")

    def basis(self, block, a):  # the leads of the basis, whose row module has the rows of a
        self.shape(block.basis, len(block.basis.rows), a.columns)
        for line, row in enumerate(block.basis.rows, block.basis.line + 1):
            require(row and row[self.algebra.lead(row)] == 1, line, "not-monic")
        self.shape(block.origin, len(a.rows), len(block.basis.rows))
        self.products(block.origin, block.basis, a.rows, "from")
        return [self.algebra.lead(row) for row in block.basis.rows]

    def pairs(self, block, leads):
        """Each pair of leads in one column has an entry, and each entry meets its conditions."""
        counts = Counter(column for column, *_ in leads).values()
        require(len(block.entries) == sum(math.comb(count, 2) for count in counts), block.pairs, "pairs")
        seen = set()
        for entry in block.entries:
            line, first, second, third, _ = entry
            is_pair = first < second <= len(leads) and leads[first - 1][0] == leads[second - 1][0]
            require(is_pair and (first, second) not in seen, line, "skip" if third else "pair")
            common = tuple(map(max, leads[first - 1], leads[second - 1]))
            if third:
                others = {tuple(sorted([place, third])) for place in (first, second)}
                require(third <= len(leads) and others <= seen and divides(leads[third - 1], common), line, "skip")
            else:
                self.steps(entry, leads, block.basis.rows, common)
            seen.add((first, second))

    def steps(self, pair, leads, rows, common):
        """The steps of a pair stay below its common multiple, and take its combination to zero."""
        key, line = self.algebra.key, pair.line
        for line, place, multiplier in pair.steps:
            require(place <= len(leads), line, "step")
            lead = self.algebra.lead(self.product(multiplier, [{leads[place - 1]: Fraction(1)}]))
            require(key(lead) < key(common), line, "step-too-high")
        require(not self.reduced(pair, leads, rows), line, "remainder")

    def reduced(self, pair, leads, rows):
        """The combination of a pair less its steps, for basis rows or other ones in their places."""
        first, second = leads[pair.first - 1], leads[pair.second - 1]
        to_common = {tuple(max(b - a, 0) for a, b in zip(first, second)): Fraction(1)}
        from_second = {tuple(max(a - b, 0) for a, b in zip(first, second)): Fraction(1)}
        row = self.product(to_common, [rows[pair.first - 1]])
        for step in [Step(pair.line, pair.second, from_second), *pair.steps]:
            add_to(row, self.product(step.multiplier, [rows[step.place - 1]]), -1)
        return row


# The lines of the kinds, and what reads and checks them.
KINDS = {
    "(controllable|kernel left|kernel right)": Certificate.kernel,
    "autonomous-element": Certificate.autonomous_element,
    "(left|right)-inverse": Certificate.inverse,
    "no-(left|right)-inverse": Certificate.no_inverse,
    f"(resolution|ext-zero|ext-nonzero) {LENGTH}": Certificate.linked,
    f"halted (?:overflow|degree|budget {COUNT})": Certificate.halted,
}


def answer(data):
    """The status and the text for an input."""
    lines, certificate = Lines(data), None
    if len(data) > MOST_BYTES:
        return 9, "too long"
    try:
        certificate = Certificate(lines, *lines.problem())
        kind, conditions = certificate.read()
        if kind == "halted":
            return 10, "not-checked"
        next(conditions, None)
        return 0, f"valid {kind}"
    except Fault as fault:
        if len(fault.args) == 2:
            return 1, "invalid {} {}".format(*fault.args)
        return 3, f"malformed {lines.number} {'certificate' if certificate else fault}"


if __name__ == "__main__":
    try:
        with open(sys.argv[1], "rb") if len(sys.argv) > 1 else sys.stdin.buffer as source:
            status, text = answer(source.read(MOST_BYTES + 1))
    except OSError:
        sys.exit(7)
    print(text)
    sys.exit(status)
