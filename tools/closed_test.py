#!/usr/bin/env python3
"""Decides a graphical test by its definition: the closed test over all intersections, for at most 12 hypotheses.

    tools/closed_test.py CASE [--form text|csv|json] [--alpha N] [--sets] [--adjusted] [--bounds]

CASE is a file, as for check_evidence.py; it may have stages in place of p-values. Nothing is removed from a graph and no order of
rejections is made. For each set I of hypotheses and each k in I, and in each component with weights w and edges g, let h be the
least solution, none of whose numbers is below 0, of

    h_r = g_rk + sum over s outside I of g_rs * h_s,    for each r outside I.

The weight of k in I is the sum, over the components, of share * lim (w_k + sum over r outside I of w_r * h_r). The local test
rejects I where some k in I has a weight above 0 and a p-value of at most its weight times alpha. The closed test rejects a
hypothesis if the local test rejects each set that contains it, and a set if it rejects each set that contains that set.

The script shares no code with `welungad`. It prints the level, the rejected hypotheses, and for each other one a set that contains it
and is not rejected, with status 0. For a case that is refused it prints the line of `welungad`, with its status (4 above 12 hypotheses).

    --sets      first each set, with its weights and the first hypothesis that rejects it
    --adjusted  for each hypothesis the least level at which the closed test rejects it: the greatest, over the sets with it, of the
                least p-value over a weight above 0. `1 not reached` if that is above 1, or if a set has no weight
    --bounds    for each set a lower bound on its false hypotheses: its size, less that of its largest subset that is not rejected

With stages, the local test rejects I if some p-value that has arrived, of a k in I, is at most the level of its stage at the weight
of k in I, and weight and level are above 0. By `spend` this level is a part of weight times alpha; by `table` it is that of the
last step whose weight is at most that of k. Each arrival is printed with what the closed test rejects after it. The last two
options are of single p-values.
"""
import argparse
import os
import signal
import sys
from itertools import combinations

sys.path.insert(0, os.path.dirname(os.path.abspath(__file__)))  # also where Python is told to leave it out

from check_evidence import ONE, ZERO, Stop, limit, plus, require, times, trimmed  # noqa: E402
from staged_case import level, staged_case_of  # noqa: E402

MOST, SHOWN = 12, 500  # hypotheses; sets between two lines of progress, which are printed above 10 hypotheses


# ---- the weights of a set


def exact_quotient(a, b):
    """The quotient of two polynomials, the first of which is a multiple of the second."""
    quotient = [ZERO] * len(a)
    while a:
        shift, factor = len(a) - len(b), a[-1] / b[-1]
        quotient[shift] = factor
        a = plus(a, times([ZERO] * shift + [-factor], b))
    return trimmed(quotient)


def leading_to(edges, outside, members):
    """The hypotheses outside from which a walk leads to a member. For the others h is 0: they are left out of the equations,
    which then have one solution."""
    found = []
    while more := [r for r in outside if r not in found and any(edges[r, k] for k in [*members, *found])]:
        found += more
    return found


def component_weights(part, outside, members):
    """The limits of the weights of the members in a component.

    The equations are M * h = g, where M has 1 - g_rr on its diagonal and -g_rs elsewhere. So the weight w_k + w * h is
    det(M bordered by the column g, the row -w and the corner w_k) / det(M). One elimination without fractions (Bareiss 1968)
    gives all these determinants: each step divides by the pivot before, which leaves no remainder."""
    inner = leading_to(part.edges, outside, members)
    minus = [-ONE]
    rows = [[times(minus, part.edges[r, s]) if r != s else [ONE] for s in inner] + [part.edges[r, k] for k in members] for r in inner]
    rows.append([trimmed([-part.weights[s]]) for s in inner] + [trimmed([part.weights[k]]) for k in members])
    before = [ONE]
    for n in range(len(inner)):
        pivot = rows[n]
        for row in rows[n + 1 :]:
            for m in range(n + 1, len(row)):
                product = plus(times(row[m], pivot[n]), times(minus, times(row[n], pivot[m])))
                row[m] = exact_quotient(product, before)
        before = pivot[n]
    return [limit(x, before) for x in rows[-1][len(inner) :]]


def weights_in(case, members):
    """The weight of each member of a set."""
    outside = [r for r in range(len(case.names)) if r not in members]
    limits = [[part.share * x for x in component_weights(part, outside, members)] for part in case.components]
    return dict(zip(members, map(sum, zip(*limits))))


def all_weights(case):
    """The weights of the members of each set, in the order of what the sets leave out."""
    hypotheses = range(len(case.names))
    leaving_out = sorted(left for size in hypotheses for left in combinations(hypotheses, size))
    for n, left in enumerate(leaving_out):
        if n % SHOWN == 0 and len(case.names) > 10:
            print(f"closed_test.py: {n} of {len(leaving_out)} sets", file=sys.stderr)
        yield weights_in(case, [k for k in hypotheses if k not in left])


# ---- the closed test of single p-values


def passing(case, weights):
    """The members of a set with these weights that reject it."""
    return [k for k, w in weights.items() if w > 0 and case.p[k] <= w * case.alpha]


def adjusted(case, sets):
    """The adjusted p-value of each hypothesis, given the weights of all sets. None if no level up to 1 rejects it."""
    least = [min([case.p[k] / w for k, w in weights.items() if w], default=2) for weights in sets]
    values = [max(x for weights, x in zip(sets, least) if j in weights) for j in range(len(case.names))]
    return [x if x <= 1 else None for x in values]


def bounds(case, sets):
    """The bound of each set, given the weights of all sets."""
    local = {frozenset(weights): bool(passing(case, weights)) for weights in sets}
    closed, most = {}, {frozenset(): 0}
    for members in sorted(local, key=len, reverse=True):
        closed[members] = local[members] and all(closed[members | {k}] for k in range(len(case.names)) if k not in members)
    for members in sorted(local, key=len):
        most[members] = max([0 if closed[members] else len(members), *(most[members - {k}] for k in members)])
    return {members: len(members) - most[members] for members in local}


# ---- the closed test at stages


def first_meeting(case, weights):
    """The number of the first arrival that meets its level in a set with these weights. None if no arrival does."""
    for n, (k, stage, p) in enumerate(case.staging.arrivals, 1):
        if weights.get(k) and 0 < level(case, k, stage, weights[k]) >= p:
            return n
    return None


def rejected_after(case, sets):
    """For each arrival the hypotheses that the closed test rejects after it, given the weights of all sets."""
    first = [first_meeting(case, weights) for weights in sets]
    for n in range(1, len(case.staging.arrivals) + 1):
        kept = {k for weights, by in zip(sets, first) if by is None or by > n for k in weights}
        yield [k for k in range(len(case.names)) if k not in kept]


# ---- the report


def rejecting(case, weights):
    """The hypothesis by which the local test rejects a set with these weights. None if it does not."""
    if not case.staging:
        return next(iter(passing(case, weights)), None)
    n = first_meeting(case, weights)
    return None if n is None else case.staging.arrivals[n - 1][0]


def report(case, with_sets=False, with_adjusted=False, with_bounds=False):
    """The lines that are printed."""
    names, sets = case.names, [*all_weights(case)]
    tested = [(weights, rejecting(case, weights)) for weights in sets]
    for weights, by in tested if with_sets else []:
        verdict = "not rejected" if by is None else f"rejected by {names[by]}"
        yield " ".join(["set", *(f"{names[k]}={w}" for k, w in weights.items()), verdict])
    yield f"alpha {case.alpha}"
    for (k, stage, p), rejected in zip(case.staging.arrivals, rejected_after(case, sets)) if case.staging else []:
        yield " ".join([f"arrive {names[k]} {stage} {p} rejected", *(names[j] for j in rejected)])
    kept = {k: next((weights for weights, by in tested if by is None and k in weights), None) for k in range(len(names))}
    yield " ".join(["rejected", *(names[k] for k, witness in kept.items() if not witness)])
    yield from (" ".join([f"kept {names[k]} in", *(names[i] for i in witness)]) for k, witness in kept.items() if witness)
    if with_adjusted:
        yield from (f"adjusted {name} {'1 not reached' if x is None else x}" for name, x in zip(names, adjusted(case, sets)))
    if with_bounds:
        yield from (" ".join([f"bound {bound} of", *(names[k] for k in sorted(members))]) for members, bound in bounds(case, sets).items())
    yield "end"


def main():
    parser = argparse.ArgumentParser(usage="closed_test.py CASE [--form text|csv|json] [--alpha N] [--sets] [--adjusted] [--bounds]",
                                     description=__doc__, formatter_class=argparse.RawDescriptionHelpFormatter)
    parser.add_argument("case", type=argparse.FileType("rb"))
    parser.add_argument("--form", choices=["text", "csv", "json"], default="text")
    parser.add_argument("--alpha")
    for option in ("--sets", "--adjusted", "--bounds"):
        parser.add_argument(option, action="store_true")
    words = parser.parse_args()
    getattr(sys, "set_int_max_str_digits", int)(0)  # else Python prints no number of more than 4,300 digits
    try:
        case = staged_case_of(words.case.read(), words.form, words.alpha)
        require(case.p or case.staging, "malformed: kind")
        require(case.p or not (words.adjusted or words.bounds), "usage: --adjusted and --bounds are of single p-values", status=2)
        require(len(case.names) <= MOST, f"limit: hypotheses {len(case.names)}", status=4)
        print("\n".join(report(case, words.sets, words.adjusted, words.bounds)))
    except Stop as stop:
        sys.stdout.write(stop.args[1])
        sys.exit(stop.args[0])


if __name__ == "__main__":
    if hasattr(signal, "SIGPIPE"):  # where the reader takes only the first lines, as `head` does, the script ends without a trace
        signal.signal(signal.SIGPIPE, signal.SIG_DFL)
    main()
