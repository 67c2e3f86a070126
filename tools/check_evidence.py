#!/usr/bin/env python3
"""Checks whether a document is evidence for the rejections of a graphical test. For a reviewer who trusts no program.
    tools/check_evidence.py CASE EVIDENCE [--form text|csv|json] [--alpha N]

CASE and EVIDENCE are files in the formats of docs/FORMATS.md; `--alpha` gives the level of a sheet. The script shares no
code with `welungad` and needs Python's standard library alone. It prints what `welungad check` prints, with its status:
0 and `yes`, 1 and the first broken condition, 3 and what is malformed. Its numbers have no limit of size, so it also decides
what `welungad` refuses as too wide (5), as past a limit (4), or because a number of the evidence is too large (3). Only the depth
of parentheses is limited, and texts of more than 4,000 digits. The stages of a case are not read: it is of the wrong kind.
Where wide numbers occur, it says so on standard error.
A case has hypotheses with p-values p, and components with shares; each component has weights w and edges g. Epsilon is a
positive number below every positive fraction, and lim x is x with epsilon at 0. Evidence lists steps. Each has a hypothesis j
and, in each component, a flow y_r for the hypothesis r of each earlier step. Sums go over the hypotheses e of these steps:
  (1) j is not the hypothesis of an earlier step;
  (2) y_r >= 0  and  y_r <= w_r + sum of y_e * g_er,  in each component, for each r;
  (3) L > 0  and  p_j <= L * alpha,  where L = sum over components of share * lim (w_j + sum of y_e * g_ej).
By (2) y_r is at most the weight that passes through r once all earlier hypotheses are removed, so L is at most the weight of
j then. A set of hypotheses that contains a listed one contains a first one of them; there it has at least this weight, since
weights grow as sets shrink. So the local test rejects every such set, and the closed test each listed hypothesis.
Version 2 also has, for each hypothesis k that no step names, in each component an exit h_r for the hypothesis r of each step:
  (4) h_r >= 0  and  h_r >= g_rk + sum of g_re * h_e,  and  w_k + sum of w_r * h_r <= 1,  in each component, for each r;
  (5) U = 0  or  p_k > U * alpha,  where U = sum over components of share * lim (w_k + sum of w_r * h_r).
By (4) U is at least the weight of k once all listed hypotheses are removed, so by (5) the local test does not reject the set
of all the others, and the closed test rejects none of them.
"""
import csv
import io
import json
import re
import sys
from argparse import ArgumentParser, FileType, Namespace, RawDescriptionHelpFormatter
from fractions import Fraction
from functools import reduce
from itertools import accumulate, product, zip_longest

ZERO, ONE, WIDEST = Fraction(0), Fraction(1), [0, 0]  # so far, the bits of the widest whole number, and the most coefficients


class Stop(Exception):
    """The end of a check, with its status and its line."""


def require(holds, *line, status=3):
    if not holds:
        raise Stop(status, ": ".join(line) + "\n")


def trimmed(a):
    """A polynomial in epsilon: a list of fractions, by ascending power. The last one is not 0."""
    while a and a[-1] == 0:
        a.pop()
    WIDEST[:] = max([WIDEST[0], *(part.bit_length() for x in a for part in x.as_integer_ratio())]), max(WIDEST[1], len(a))
    return a


def plus(a, b):
    return trimmed([x + y for x, y in zip_longest(a, b, fillvalue=ZERO)])


def times(a, b):
    result = [ZERO] * (len(a) + len(b))
    for i, x in enumerate(a):
        for j, y in enumerate(b):
            result[i + j] += x * y
    return trimmed(result)


def total(start, products):
    return reduce(lambda value, product: plus(value, times(*product)), products, start)


def is_at_most(a, b):
    """Whether the first coefficient of b - a that is not 0 is positive, or there is none."""
    return next((x > 0 for x in plus(b, times([-ONE], a)) if x), True)


def numeral(text, where):
    require(re.fullmatch(r"[+-]?([0-9]+/[0-9]+|([0-9]+\.?[0-9]*|\.[0-9]+)([eE][+-]?[0-9]+)?)", text), where, "number")
    require(not re.search("/0+$", text), where, "zero denominator")
    if not re.match("[+-]?[0.]*[1-9]", text):
        return ZERO
    size = text.lstrip("+-0")
    is_short = len(size) <= 4000 and not re.search("[eE][+-]?0*[1-9][0-9]{4}", size)
    require(is_short, where.replace("malformed", "limit"), "digits", status=4)
    return -Fraction(size) if text[0] == "-" else Fraction(size)


def expression(text, where):
    """The polynomial of `sum = [+|-] term {(+|-) term}`, `term = factor {(*|/) factor | epsilon | (sum)}`."""
    tokens = re.findall(r"\\epsilon|(?:[0-9]+\.?[0-9]*|\.[0-9]+)(?:[eE][+-]?[0-9]+)?|[^ \t]", text) + ["end"]
    depth, wrong = 0, []  # the parentheses that are open, and the divisors that are no numbers
    def take(wanted):
        require(tokens[0] in wanted, where, "expression")
        return tokens.pop(0)
    def terms():
        value = times([Fraction((take("+-") if tokens[0] in "+-" else "") + "1")], term())
        while tokens[0] in "+-":
            value = plus(value, times([Fraction(take("+-") + "1")], term()))
        return value
    def term():
        value = factor()
        while tokens[0] in ["*", "/", "(", "\\epsilon"]:
            divides = tokens[0] in "*/" and take("*/") == "/"
            other = factor()
            if divides and len(other) != 1:
                wrong.append("divisor" if other else "zero divisor")
                other = [ONE]
            value = times(value, [1 / other[0]] if divides else other)
        return value
    def factor():
        if re.match("[.]?[0-9]", tokens[0]):
            return trimmed([numeral(tokens.pop(0), where)])
        if take(["(", "\\epsilon"]) == "(":
            nonlocal depth
            depth += 1
            require(depth <= 32, where.replace("malformed", "limit"), "depth", status=4)
            value = terms()
            take(")")
            depth -= 1
            return value
        return [ZERO] * (int(take([*"0123456789"])) if tokens[0] == "^" and take("^") else 1) + [ONE]
    value = terms()
    take(["end"])
    require(not wrong, where, *wrong[:1])
    return value


class Lines:
    """The lines of a text that are not skipped, each with its place."""

    def __init__(self, text, kind):
        lines = re.sub("\n\\Z", "", text).split("\n") if text else []
        rows = [(f"{kind} {n}", re.sub("\r\\Z", "", line).strip(" \t")) for n, line in enumerate(lines, 1)]
        self.rows = [(where, line) for where, line in rows if line and line[0] != "#"] + [(f"{kind} {len(lines) + 1}", "")]

    def first(self):
        """The first word of the next line; that of the end is empty."""
        return re.split("[ \t]+", self.rows[0][1])[0]

    def take(self, word, least, most=10**9, split=0):
        """The place of the next line, which begins with this word, and the words after it."""
        where, line = self.rows[0]
        require(self.first() == word, where, "unexpected" if line else "ended")
        words = re.split("[ \t]+", line, maxsplit=split)[1:]
        require(least <= len(words) <= most, where, "words")
        self.rows.pop(0)
        return where, words

    def numerals(self, word, least, most=10**9):
        where, words = self.take(word, least, most)
        return [numeral(word, where) for word in words]


def read_text(text):
    lines = Lines(text, "malformed: line")
    alpha, names, components = lines.numerals("alpha", 1, 1)[0], lines.take("hypotheses", 0)[1], []
    p, several = lines.numerals("p", 1) if lines.first() == "p" else [], lines.first() == "component"
    while not components or (several and lines.first() == "component"):
        [share] = lines.numerals("component", 1, 1) if several else [ONE]
        components.append(Namespace(share=share, weights=lines.numerals("weights", 0), edges=[]))
        while lines.first() == "edge":
            where, words = lines.take("edge", 3, split=3)
            require({*words[:2]} <= {*names}, where, "unknown name")
            components[-1].edges.append((*map(names.index, words[:2]), expression(words[2], where)))
    require(lines.first() != "stages", "malformed: kind")
    require(not lines.first(), lines.rows[0][0], "unexpected")
    return Namespace(alpha=alpha, names=names, p=p, components=components)


def read_sheet(text, alpha):
    rows = [[cell.strip(" \t") for cell in row] for row in csv.reader(io.StringIO(text, newline="")) if row]
    for column, wanted in enumerate((["", "hypothesis"], ["weight"], ["p"])):
        require(rows and "".join(rows[0][column : column + 1]) in wanted, f"malformed: row 1 column {column + 1}", "header")
    names, p, part = rows.pop(0)[3:], [], Namespace(share=ONE, weights=[], edges=[])
    for i, row in enumerate(rows):
        at = f"malformed: row {i + 2} column"
        require(i < len(names), f"{at} 1", "records")
        require(len(row) == len(names) + 3, f"{at} 1", "width")
        require(row[0] == names[i], f"{at} 1", "name")
        part.weights.append(numeral(row[1], f"{at} 2"))
        p.append(None if row[2] in ("", "NA") else numeral(row[2], f"{at} 3"))
        part.edges += [(i, j, expression(cell, f"{at} {j + 4}")) for j, cell in enumerate(row[3:])]
    require(len(rows) == len(names), f"malformed: row {len(rows) + 2} column 1", "records")
    return Namespace(alpha=alpha, names=names, p=[x for x in p if {*p} != {None}], components=[part])


class Digits(str):
    """The text of a JSON number, which may not be past all doubles."""

    def __new__(cls, text):
        return str.__new__(cls, text) if abs(float(text)) < float("inf") else json.loads("")


def loaded(text):
    """The JSON value of a text, with its numbers as texts."""
    depths = accumulate((c in "[{") - (c in "]}") for c in re.sub(r'"(\\.|[^"\\])*"', "", text, flags=re.DOTALL))
    try:
        require(max(depths, default=0) < 128, "malformed: json", "syntax")
        value = json.loads(text.encode("latin-1").decode(), parse_int=Digits, parse_float=Digits, parse_constant=Digits)
        json.dumps(value, ensure_ascii=False).encode()  # half a surrogate is no text
        return value
    except ValueError:
        raise Stop(3, "malformed: json: syntax\n") from None


def number_of(value, where, read=numeral):
    """What a text denotes, or a whole number of at most 64 bits."""
    require(isinstance(value, str), where, "shape")
    is_whole = re.fullmatch("0|-?[1-9][0-9]{0,19}", value) and -(2**63) <= int(value) < 2**64
    require(type(value) is str or is_whole, where, "not whole")
    return read(value, where)


def list_of(value, where, read, *more):
    require(isinstance(value, list), where, "shape")
    return [read(item, f"{where}/{i}", *more) for i, item in enumerate(value)]


def name_of(value, where, names=None):
    """A text; with names, the first position that it has among them."""
    require(type(value) is str, where, "shape")
    require(names is None or value in names, where, "unknown name")
    return value if names is None else names.index(value)


class Members:
    """The members of an object without other keys. Those that have a default may be missing."""

    def __init__(self, value, where, *known):
        require(isinstance(value, dict) and {*value} <= {*known}, where, "shape")
        self.value, self.where = value, where

    def get(self, key, read, *more, **default):
        require(key in self.value or default, f"{self.where}/{key}", "shape")
        return read(self.value[key], f"{self.where}/{key}", *more) if key in self.value else default["default"]


def edge_of(value, where, names):
    part = Members(value, where, "from", "to", "weight")
    return part.get("from", name_of, names), part.get("to", name_of, names), part.get("weight", number_of, expression)


def component_of(value, where, names):
    part = Members(value, where, "share", "weights", "edges")
    return Namespace(share=part.get("share", number_of, default=ONE), weights=part.get("weights", list_of, number_of),
                     edges=part.get("edges", list_of, edge_of, names))


def read_json(text):
    whole = Members(loaded(text), "malformed: ", "alpha", "hypotheses", "p", "components", "stages")
    alpha, names = whole.get("alpha", number_of), whole.get("hypotheses", list_of, name_of)
    p = whole.get("p", list_of, lambda value, where: None if value is None else number_of(value, where), default=[])
    components = whole.get("components", list_of, component_of, names)
    require("stages" not in whole.value, "malformed: kind")
    return Namespace(alpha=alpha, names=names, p=p, components=components)


def read_case(text, form="text", alpha=None):
    """A valid case, whose edges are polynomials at pairs of positions. Each rule is tested of all parts before the next."""
    case = read_text(text) if form == "text" else read_json(text) if form == "json" else read_sheet(re.sub("\\A\xef\xbb\xbf", "", text), alpha)
    names, parts, no = case.names, [*enumerate(case.components, 1)], "malformed: case"
    edges = [(c, i, j, edge) for c, part in parts for i, j, edge in part.edges]
    require(names, no, "no hypothesis")
    for i, name in enumerate(names, 1):
        require(re.fullmatch("[A-Za-z0-9_.-]{1,32}", name), no, f"name {i}")
    for i, name in enumerate(names):
        require(name not in names[:i], no, f"duplicate name {i + 1}")
    require(parts, no, "no component")
    require(0 < case.alpha <= 1, no, "alpha")
    for c, part in parts:
        require(part.share >= 0, no, f"share component {c}")
    require(sum(part.share for _, part in parts) <= 1, no, "share sum")
    for c, part in parts:
        require(len(part.weights) == len(names), no, f"weight count component {c}")
    for c, part in parts:
        for weight, name in zip(part.weights, names):
            require(weight >= 0, no, f"weight of {name} component {c}")
    for c, part in parts:
        require(sum(part.weights) <= 1, no, f"weight sum component {c}")
    for c, i, j, edge in edges:
        require(i != j or not edge, no, f"self edge of {names[i]} component {c}")
    firsts = {}
    for n, (c, i, j, _) in enumerate(edges):
        require(firsts.setdefault((c, i, j), n) == n, no, f"repeated edge {names[i]} {names[j]} component {c}")
    for c, i, j, edge in edges:
        require(is_at_most([], edge) and is_at_most(edge, [ONE]), no, f"edge {names[i]} {names[j]} component {c}")
    for c, part in parts:
        for i, name in enumerate(names):
            row = reduce(plus, [edge for k, _, edge in part.edges if k == i], [])
            require(is_at_most(row, [ONE]), no, f"row sum of {name} component {c}")
        part.edges = {pair: [] for pair in product(range(len(names)), repeat=2)} | {(i, j): edge for i, j, edge in part.edges}
    require(len(case.p) in (0, len(names)), no, f"p count {len(case.p)}")
    for name, p in zip(names, case.p):
        require(p is not None, no, f"p missing {name}")
    for name, p in zip(names, case.p):
        require(0 <= p <= 1, no, f"p of {name}")
    case.is_plain = all(len(edge) <= 1 for part in case.components for edge in part.edges.values())
    return case


def read_numbers(lines, case, word, steps):
    """For each component, the numbers at the hypotheses of steps: numerators, and one positive denominator of them all."""
    fraction, row = "-?[0-9]+(/[0-9]+)?", r"\[-?[0-9]+(,-?[0-9]+)*\]"
    for c in range(1, len(case.components) + 1):
        pairs, different = [], []
        for j, _ in steps:
            where, words = lines.take(word, 3, 3)
            require(words[:2] == [str(c), case.names[j]], where, word)
            require(re.fullmatch(fraction if case.is_plain else f"{fraction}|{row}/{row}", words[2]), where, "number")
            above, below = (trimmed([*map(Fraction, part.strip("[]").split(","))]) for part in (words[2] + "/1").split("/")[:2])
            require(below, where, "number")
            first = [1 / next(x for x in below if x)]
            pairs.append((times(above, first), times(below, first)))
            different += [] if pairs[-1][1] in different else [pairs[-1][1]]
        numerators = [reduce(times, [x for x in different if x != below], above) for above, below in pairs]
        yield numerators, reduce(times, different, [ONE])


def read_evidence(text, case):
    """The version; the steps, and the keeps: each a hypothesis with its numbers."""
    lines, steps, keeps = Lines(text, "malformed: proof line"), [], []
    where, [version] = lines.take("evidence", 1, 1)
    require(version in ("1", "2"), where, "version")
    while lines.first() == "step":
        where, [name] = lines.take("step", 1, 1)
        require(name in case.names, where, "unknown name")
        steps.append((case.names.index(name), [*read_numbers(lines, case, "flow", steps)]))
    for k, name in enumerate(case.names if version == "2" else []):
        if k not in [j for j, _ in steps]:
            where, words = lines.take("keep", 1, 1)
            require(words == [name], where, "unexpected")
            keeps.append((k, [*read_numbers(lines, case, "exit", steps)]))
    lines.take("end", 0, 0)
    require(not lines.first(), lines.rows[0][0], "unexpected")
    return version, steps, keeps


def limit(above, below):
    """The limit of a quotient from 0 to 1."""
    power = next(i for i, x in enumerate(below) if x)
    return above[power] / below[power] if power < len(above) else ZERO


def check(case, steps, keeps):
    """Tests the conditions. Numbers and their sums are over one positive denominator, `below`."""
    names, listed = case.names, [j for j, _ in steps]
    for s, (j, flows) in enumerate(steps):
        no, level, earlier = f"no: step {s + 1}", ZERO, listed[:s]
        require(j not in earlier, no, "repeated", status=1)
        for c, (part, (ys, below)) in enumerate(zip(case.components, flows), 1):
            sums = {k: total(times([part.weights[k]], below), [(y, part.edges[e, k]) for e, y in zip(earlier, ys)]) for k in [*earlier, j]}
            for r, y in zip(earlier, ys):
                require(is_at_most([], y), no, f"component {c} flow of {names[r]} negative", status=1)
                require(is_at_most(y, sums[r]), no, f"component {c} flow of {names[r]} exceeds", status=1)
            level += part.share * limit(sums[j], below)
        require(level > 0, no, "no level", status=1)
        require(case.p[j] <= level * case.alpha, no, "above level", status=1)
    for k, exits in keeps:
        no, level, parts = f"no: keep {names[k]}", ZERO, [*enumerate(zip(case.components, exits), 1)]
        for c, (part, (hs, below)) in parts:
            for r, h in zip(listed, hs):
                leaving = total(times(part.edges[r, k], below), [(part.edges[r, e], x) for e, x in zip(listed, hs)])
                require(is_at_most([], h), no, f"component {c} exit of {names[r]} negative", status=1)
                require(is_at_most(leaving, h), no, f"component {c} exit of {names[r]} short", status=1)
        for c, (part, (hs, below)) in parts:
            allowed = total(times([part.weights[k]], below), [([part.weights[r]], h) for r, h in zip(listed, hs)])
            require(is_at_most(allowed, below), no, f"component {c} level above one", status=1)
            level += part.share * limit(allowed, below)
        require(level == 0 or case.p[k] > level * case.alpha, no, "legal", status=1)


def case_of(given, form="text", alpha=None):
    """The case that bytes denote."""
    require((form == "csv") == (alpha is not None), "usage: --alpha gives the level of a sheet", status=2)
    try:
        return read_case(given.decode("latin-1"), form, None if alpha is None else numeral(alpha, "usage: --alpha"))
    except csv.Error as error:  # as for a field of more than 131,072 characters
        raise Stop(4, f"limit: {error}\n") from None


def answer(case, evidence, form="text", alpha=None):
    """The status and the text that `welungad check` ends with."""
    try:
        case = case_of(case, form, alpha)
        require(case.p, "malformed: kind")
        version, steps, keeps = read_evidence(evidence.decode("latin-1"), case)
        check(case, steps, keeps)
    except Stop as stop:
        return stop.args
    lists = [("listed", steps), ("kept", keeps)][: int(version)]
    return 0, "".join(["yes\n", *(" ".join([word, *(case.names[k] for k, _ in part)]) + "\n" for word, part in lists), "end\n"])


if __name__ == "__main__":
    getattr(sys, "set_int_max_str_digits", int)(0)  # whole numbers of more than 4,300 digits are read
    usage = "check_evidence.py CASE EVIDENCE [--form text|csv|json] [--alpha N]"
    parser = ArgumentParser(usage=usage, description=__doc__, formatter_class=RawDescriptionHelpFormatter)
    for name in ("case", "evidence"):
        parser.add_argument(name, type=FileType("rb"), metavar=name.upper())
    parser.add_argument("--form", choices=["text", "csv", "json"], default="text", help="the form of CASE; text if left out")
    parser.add_argument("--alpha", help="the level, which a sheet does not have")
    words = parser.parse_args()
    try:
        status, text = answer(words.case.read(), words.evidence.read(), words.form, words.alpha)
    except (OSError, MemoryError) as error:  # as `welungad` ends, since Python would end with the status of a no
        status, text = (6, "read fault\n") if isinstance(error, OSError) else (8, "no memory\n")
    if WIDEST[0] > 59 or WIDEST[1] > 17:
        sys.stderr.write("note: %d bits, %d coefficients: `welungad check` may end with 5, at 127 bits or a degree of 32\n" % (*WIDEST,))
    print(text, end="")  # if standard output is closed, the status alone answers
    sys.exit(status)
