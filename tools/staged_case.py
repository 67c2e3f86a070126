"""Reads a case with stages, and finds the level that a hypothesis has at a stage. For closed_test.py and check_page.py.

docs/FORMATS.md describes stages. A case that breaks a rule is refused with the line that `welungad` prints. As in check_evidence.py
numbers have no limit of size; neither have the counts of stages and of steps.
"""
import json
import os
import re
import sys
from argparse import Namespace
from fractions import Fraction

sys.path.insert(0, os.path.dirname(os.path.abspath(__file__)))  # also where Python is told to leave it out

from check_evidence import Digits, Lines, Members, case_of, list_of, loaded, name_of, number_of, numeral, require  # noqa: E402


def parted(given, form):
    """The bytes of a case without its stages, and the unread stages: the lines of a text from there on, or the members of JSON. A case
    without stages is returned with None."""
    if form == "text":
        lines = Lines(given.decode("latin-1"), "malformed: line")
        while lines.first() not in ("stages", ""):
            lines.rows.pop(0)
        at = int(lines.rows[0][0].split(" ")[-1])
        return (b"\n".join([*given.split(b"\n")[: at - 1], b""]), lines) if lines.first() else (given, None)
    value = loaded(given.decode("latin-1")) if form == "json" else None
    if not isinstance(value, dict) or "stages" not in value:
        return given, None
    staging = Members(value.pop("stages"), "malformed: /stages", "count", "spend", "arrivals")
    return written(value).encode(), staging


def written(value):
    """JSON whose numbers are as they were."""
    if isinstance(value, list):
        return "[" + ",".join(map(written, value)) + "]"
    if isinstance(value, dict):
        return "{" + ",".join(f"{json.dumps(key)}:{written(item)}" for key, item in value.items()) + "}"
    return str.__str__(value) if type(value) is Digits else json.dumps(value)


# ---- a text: each hypothesis has steps, each a weight and a number for each stage; the one of a line `spend` has the weight None


def whole(word, where):
    require(re.fullmatch("[0-9]{1,9}", word), where, "whole number")
    return int(word)


def step_in(lines, word, name):
    where, words = lines.take(word, 2 if word == "table" else 1)
    require(words[0] == name, where, "unexpected")
    numbers = [numeral(it, where) for it in words[1:]]
    return (numbers[0], numbers[1:]) if word == "table" else (None, numbers)


def read_lines(lines, names):
    where, [word] = lines.take("stages", 1, 1)
    staging = Namespace(count=whole(word, where), spends=[], arrivals=[])
    for name in names:
        steps = [step_in(lines, "table" if lines.first() == "table" else "spend", name)]
        while steps[0][0] is not None and re.split("[ \t]+", lines.rows[0][1])[:2] == ["table", name]:
            steps.append(step_in(lines, "table", name))
        staging.spends.append(steps)
    while lines.first() == "arrive":
        where, words = lines.take("arrive", 3, 3)
        require(words[0] in names, where, "unknown name")
        staging.arrivals.append((names.index(words[0]), whole(words[1], where), numeral(words[2], where)))
    require(not lines.first(), lines.rows[0][0], "unexpected")
    return staging


# ---- JSON


def count_of(value, where):
    require(type(value) is Digits, where, "shape")
    number = number_of(value, where, lambda text, _: int(text))
    require(number >= 0, where, "shape")
    return number


def step_of(value, where):
    step = Members(value, where, "from", "levels")
    return step.get("from", number_of), step.get("levels", list_of, number_of)


def spend_of(value, where):
    if isinstance(value, list):
        return [(None, list_of(value, where, number_of))]
    return Members(value, where, "steps").get("steps", list_of, step_of)


def arrival_of(value, where, names):
    part = Members(value, where, "hypothesis", "stage", "p")
    return part.get("hypothesis", name_of, names), part.get("stage", count_of), part.get("p", number_of)


def read_members(members, names):
    return Namespace(count=members.get("count", count_of), spends=members.get("spend", list_of, spend_of),
                     arrivals=members.get("arrivals", list_of, arrival_of, names))


# ---- the rules, and levels


def check_steps(case, no):
    """Tests what each hypothesis spends: the weights of its steps, then its numbers, then their sums."""
    for name, steps in zip(case.names, case.staging.spends):
        for n, (least, _) in enumerate(steps if steps[0][0] is not None else []):
            require(0 < least <= 1 and (n == 0 or steps[n - 1][0] < least), no, f"step {n + 1} of {name}")
    for name, steps in zip(case.names, case.staging.spends):
        before = [Fraction(0)] * case.staging.count
        for _, numbers in steps:
            for t, (x, least) in enumerate(zip(numbers, before), 1):
                require(x >= least, no, f"spend of {name} stage {t}")
            before = numbers
    for name, steps in zip(case.names, case.staging.spends):
        for least, numbers in steps:
            require(sum(numbers) <= (1 if least is None else least * case.alpha), no, f"spend sum of {name}")


def check_stages(case):
    """Tests the rules in their order."""
    no, staging = "malformed: case", case.staging
    require(not case.p, no, "mixed")
    require(staging.count, no, "no stage")
    for i, steps in enumerate(staging.spends):
        has_all = steps and all(len(numbers) == staging.count for _, numbers in steps)
        require(i < len(case.names) and has_all, no, f"spend count {i + 1}")
    require(len(staging.spends) == len(case.names), no, f"spend count {len(staging.spends) + 1}")
    check_steps(case, no)
    for n, (_, stage, _) in enumerate(staging.arrivals, 1):
        require(1 <= stage <= staging.count, no, f"arrival {n} stage")
    for n, (k, stage, _) in enumerate(staging.arrivals):
        require((k, stage) not in [known[:2] for known in staging.arrivals[:n]], no, f"arrival {n + 1} repeated")
    for n, (_, _, p) in enumerate(staging.arrivals, 1):
        require(0 <= p <= 1, no, f"arrival {n} p")


def staged_case_of(given, form="text", alpha=None):
    """The case that bytes denote, whose `staging` is None if it has no stages."""
    before, unread = parted(given, form)
    case = case_of(before, form, alpha)
    case.staging = None
    if unread is not None:
        case.staging = (read_lines if isinstance(unread, Lines) else read_members)(unread, case.names)
        check_stages(case)
    return case


def level(case, k, stage, weight):
    """The level of a hypothesis at a stage, from 1, if it has this weight. By `spend` it is a part of weight times alpha; by `table` it
    is that of the last step whose weight is at most this one, or 0 if there is none."""
    steps = case.staging.spends[k]
    if steps[0][0] is None:
        return steps[0][1][stage - 1] * weight * case.alpha
    return next((numbers[stage - 1] for least, numbers in reversed(steps) if least <= weight), Fraction(0))
