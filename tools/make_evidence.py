#!/usr/bin/env python3
"""Makes evidence for the decision on a case, in whole numbers of any size: for a case at which `welungad evidence` is too wide.

    tools/make_evidence.py CASE [REPORT] > EVIDENCE

CASE is a text as in docs/FORMATS.md, with single p-values; `welungad canon` writes one from a sheet or JSON. REPORT is what
`welungad test` prints for CASE: its order of rejections is then taken, and its weights must be those that are found here. Without
it the first hypothesis that may be rejected comes next. If there is no document, the script ends with status 1 and a line on
standard error. It shares no code with `welungad`, nor with check_evidence.py, which decides whether a document is evidence.

In a graph, let K be the inverse of I - G, with G the edges among the removed hypotheses that pass weight on. Then y = w K is what
passes through each of them, h = K g_k is the part of the weight of each that arrives at k, and k has the weight w_k + sum y_r g_rk.
These y are the flows, and these h the exits, of the conditions in docs/REPORTS.md. K is kept as adjugate and determinant of I - G
with whole rows. A removed hypothesis to which all of its weight would come back passes nothing on: its flows and exits are 0.
"""
import re
import signal
import sys
from argparse import ArgumentParser, FileType, RawDescriptionHelpFormatter
from fractions import Fraction
from itertools import zip_longest
from math import gcd, lcm

DECIMAL = r"(?:[0-9]+\.?[0-9]*|\.[0-9]+)(?:[eE][+-]?0*[0-9]{1,4})?"
RANKS = {"+": 1, "-": 1, "*": 2, "/": 2}


# ---- polynomials in epsilon: lists of coefficients by ascending power, the last of which is not 0


def cut(a):
    while a and not a[-1]:
        a.pop()
    return a


def plus(a, b, factor=1):
    return cut([x + factor * y for x, y in zip_longest(a, b, fillvalue=0)])


def times(a, b):
    product = [0] * (len(a) + len(b))
    for i, x in enumerate(a):
        for j, y in enumerate(b):
            product[i + j] += x * y
    return cut(product)


def dot(left, right):
    """Returns the sum of the products of two lists of polynomials."""
    total = []
    for a, b in zip(left, right):
        total = plus(total, times(a, b)) if a and b else total
    return total


def divided(a, b):
    """Returns the quotient of polynomials of whole numbers, the first of which is a multiple of the second."""
    quotient = [0] * len(a)
    while a:
        shift, factor = len(a) - len(b), a[-1] // b[-1]
        quotient[shift] = factor
        a = plus(a, [0] * shift + b, -factor)
    return cut(quotient)


def common_factor(a, b):
    """Returns the greatest common divisor but for whole numbers: Euclid's algorithm, each remainder without its content."""
    while b:
        rest = a
        while len(rest) >= len(b):
            rest = plus(times(rest, [b[-1]]), [0] * (len(rest) - len(b)) + b, -rest[-1])
        a, b = b, [x // gcd(*rest) for x in rest]
    return [x // gcd(*a) for x in a]


def lowest_terms(above, below):
    """Returns the two parts of a quotient without common factors, the lowest coefficient below positive."""
    factor = common_factor(above, below)
    above, below = divided(above, factor), divided(below, factor)
    content = gcd(*above, *below) * (1 if next(filter(None, below)) > 0 else -1)
    return [x // content for x in above], [x // content for x in below]


def quotient_text(above, below):
    """Returns a quotient as evidence has it."""
    above, below = lowest_terms(above, below)
    if len(above) <= len(below) == 1:
        return str(Fraction(*above or [0], *below))
    return "/".join("[" + ",".join(map(str, part)) + "]" for part in (above, below))


def numeral(text, at):
    if not re.fullmatch(rf"[+-]?(?:[0-9]+/0*[1-9][0-9]*|{DECIMAL})", text):
        raise ValueError(f"line {at}: {text[:40]!r} is not a number, or its exponent has more than four digits")
    return Fraction(text)


def expression(text, at):
    """Returns the polynomial that an edge denotes. An operator waits until no operator of a higher rank follows."""
    values, waiting, wants = [], ["("], True
    text = re.sub(r"(?<=[0-9.)n])(?=[ \t]*(?:\\epsilon|\())", "*", text)
    for token in [*re.findall(rf"\\epsilon(?:[ \t]*\^[ \t]*[0-9])?|{DECIMAL}|[^ \t]", text), ")"]:
        ends = token in RANKS or token == ")"
        if wants and token in ("+", "-") and waiting[-1:] == ["("]:
            values.append([])
        elif wants is ends or not waiting:
            raise ValueError(f"line {at}: {text[:40]!r} is not an expression")
        while ends and RANKS.get(waiting[-1], 0) >= RANKS.get(token, 1):
            operator, b, a = waiting.pop(), values.pop(), values.pop()
            if operator == "/" and len(b) != 1:
                raise ValueError(f"line {at}: {text[:40]!r} divides by 0 or by epsilon")
            values.append(plus(a, b, int(operator + "1")) if operator in "+-" else times(a, b if operator == "*" else [1 / b[0]]))
        if token == ")":
            waiting.pop()
        elif ends or token == "(":
            waiting.append(token)
        else:
            power = re.match(r"\\epsilon[ \t]*\^?[ \t]*([0-9]?)", token)
            values.append([Fraction(0)] * int(power[1] or 1) + [Fraction(1)] if power else cut([numeral(token, at)]))
        wants = token in RANKS or token == "("
    if waiting:
        raise ValueError(f"line {at}: {text[:40]!r} is not an expression")
    return values[0]


class Component:
    """A graph with whole numbers, and what its removed hypotheses pass on."""

    def __init__(self, share, weights, edges, size):
        rows = [[edges.get((i, j), []) for j in range(size)] for i in range(size)]
        signed = [[share], [1 - sum(weights)], *([x] for x in weights), *edges.values()]
        signed += [plus([1], dot(row, [[1]] * size), -1) for row in rows] + [plus([], rows[i][i], -1) for i in range(size)]
        if len(weights) != size or any(next(filter(None, x), 1) < 0 for x in signed):
            raise ValueError("a graph has a number below 0, a sum above 1, a loop, or not one weight for each hypothesis")
        self.share, self.whole = share, lcm(*(x.denominator for x in weights))
        self.weights = [cut([int(x * self.whole)]) for x in weights]
        self.scales = [lcm(*(x.denominator for edge in row for x in edge)) for row in rows]
        self.edges = [[[int(x * scale) for x in edge] for edge in row] for row, scale in zip(rows, self.scales)]
        self.passing, self.adjugate, self.determinant, self.arriving = [], [], [1], []

    def exits(self, k):
        """Returns, over the determinant, the part of the weight of each passing hypothesis that arrives at k."""
        return [dot(row, [self.edges[r][k] for r in self.passing]) for row in self.adjugate]

    def texts(self, order, k=None):
        """Returns the flows through the hypotheses of an order, or the exits from them to k."""
        above = [times(x, [self.scales[s]]) for s, x in zip(self.passing, self.arriving)] if k is None else self.exits(k)
        above, below = dict(zip(self.passing, above)), times(self.determinant, [self.whole if k is None else 1])
        return [quotient_text(above.get(r, []), below) for r in order]

    def weight(self, k):
        """Returns the weight of k: the limit of a quotient of polynomials."""
        power = next(i for i, x in enumerate(self.determinant) if x)
        above = dot([self.determinant, *self.arriving], [self.weights[k], *(self.edges[s][k] for s in self.passing)])
        return Fraction(above[power] if power < len(above) else 0, self.determinant[power] * self.whole)

    def remove(self, j):
        """Borders the matrix by a row and a column. Each division leaves no remainder (Bareiss 1968)."""
        row, column, before = [self.edges[j][s] for s in self.passing], self.exits(j), self.determinant
        across = [dot(row, side) for side in zip(*self.adjugate)]
        after = plus(times(before, [self.scales[j]]), dot(row, column), -1)
        if after:
            self.adjugate = [[divided(plus(times(after, x), times(u, v)), before) for x, v in zip(side, across)] + [u]
                             for u, side in zip(column, self.adjugate)] + [[*across, before]]
            self.determinant = after
            self.passing.append(j)
            self.arriving = [dot([self.weights[r] for r in self.passing], side) for side in zip(*self.adjugate)]


class Case:
    """The level, names, p-values and components of a text."""

    def __init__(self, text):
        lines = [(at, re.split("[ \t]+", line.rstrip("\r").strip(" \t"))) for at, line in enumerate(text.split("\n"), 1)]
        self.lines = [(at, words) for at, words in lines if words != [""] and words[0][0] != "#"]
        kinds = "".join(words[0] + " " for _, words in self.lines)
        if "p" not in kinds.split(" ") or "stages" in kinds.split(" "):
            raise ValueError("the case has stages or no p-values, and evidence is of single p-values")
        if not re.fullmatch("alpha hypotheses p (weights (edge )*|(component weights (edge )*)+)", kinds):
            raise ValueError("the lines are not alpha, hypotheses, p, weights and edge, in this order")
        [self.alpha], self.names, self.p = self.numerals(1), self.lines.pop(0)[1][1:], self.numerals()
        if len(self.p) != len({*self.names}) or len(self.p) != len(self.names):
            raise ValueError("the hypotheses do not have different names and a p-value each")
        self.components = []
        while self.lines:
            [share] = self.numerals(1) if self.lines[0][1][0] == "component" else [Fraction(1)]
            self.components.append(Component(share, self.numerals(), dict(self.edges()), len(self.names)))
        if not all(0 <= x <= 1 for x in [*self.p, self.alpha, sum(part.share for part in self.components)]) or not self.alpha:
            raise ValueError("the level, a p-value or the sum of the shares is not from 0 to 1, or the level is 0")

    def numerals(self, most=None):
        at, words = self.lines.pop(0)
        if most not in (None, len(words) - 1):
            raise ValueError(f"line {at}: there is not one number")
        return [numeral(word, at) for word in words[1:]]

    def edges(self):
        while self.lines and self.lines[0][1][0] == "edge":
            at, words = self.lines.pop(0)
            if len(words) < 4 or not {*words[1:3]} <= {*self.names}:
                raise ValueError(f"line {at}: there are not two names and an edge")
            yield (*map(self.names.index, words[1:3]),), expression(" ".join(words[3:]), at)


def evidence(case, report=None):
    """Returns the lines of a document. `ValueError`: the report is not the decision on the case."""
    steps = None if report is None else re.findall(r"(?m)^step \S+ (\S+)", report)
    names, order, lines, decision = case.names, [], ["evidence 2"], [f"alpha {case.alpha}"]
    while True:
        weights = {k: sum(part.share * part.weight(k) for part in case.components) for k in range(len(names)) if k not in order}
        legal = [names[k] for k, w in weights.items() if w > 0 and case.p[k] <= w * case.alpha]
        name = next(iter(legal if steps is None else steps[len(order) :]), None)
        if name not in (legal or [None]):
            raise ValueError(f"step {len(order) + 1} of the report is {name}, and {' '.join(legal) or 'nothing'} may be rejected")
        if name is None:
            break
        j = names.index(name)
        lines.append(f"step {name}")
        for c, part in enumerate(case.components, 1):
            lines += [f"flow {c} {names[r]} {text}" for r, text in zip(order, part.texts(order))]
            part.remove(j)
        order.append(j)
        decision.append(f"step {len(order)} {name} p {case.p[j]} weight {weights[j]}")
    for k, weight in weights.items():
        lines.append(f"keep {names[k]}")
        for c, part in enumerate(case.components, 1):
            lines += [f"exit {c} {names[r]} {text}" for r, text in zip(order, part.texts(order, k))]
        decision.append(f"kept {names[k]} p {case.p[k]} weight {weight}")
    decision.append(" ".join(["rejected", *(names[j] for j in sorted(order))]))
    rest = "".join(rf"adjusted {re.escape(name)} [0-9/]+( not reached)?\n" for name in names) + "end\n"
    if report is not None and not re.fullmatch("".join(re.escape(line) + "\n" for line in decision) + rest, report):
        raise ValueError("the report is not what test prints for this case")
    return [*lines, "end"]


def main():
    parser = ArgumentParser(description=__doc__, formatter_class=RawDescriptionHelpFormatter)
    parser.add_argument("case", type=FileType("rb"))
    parser.add_argument("report", type=FileType("rb"), nargs="?")
    words = parser.parse_args()
    getattr(sys, "set_int_max_str_digits", int)(0)  # else Python prints no number of more than 4,300 digits
    try:
        report = words.report and words.report.read().decode("latin-1")
        print("\n".join(evidence(Case(words.case.read().decode("latin-1")), report)))
    except ValueError as error:
        sys.exit(f"make_evidence.py: {error}")


if __name__ == "__main__":
    if hasattr(signal, "SIGPIPE"): signal.signal(signal.SIGPIPE, signal.SIG_DFL)  # a reader may end first; not every system has it
    main()
