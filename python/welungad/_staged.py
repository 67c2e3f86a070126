"""Staged trials: the levels that hypotheses spend over the stages, and the looks as they arrive, as a case has them."""
import re
from decimal import Decimal
from fractions import Fraction
from numbers import Rational
from typing import Any, List, Mapping, NamedTuple, Optional, Sequence

from ._calls import kind_of
from ._hypotheses import (frame_labels, frame_rows, hold_distinct, in_order, is_frame, is_many, order_of, rows_of, unknown_label,
                          values_of)
from ._numbers import double_in, known_value, numeral, value_of, whole


class Spend(NamedTuple):
    """A line `spend` or `table`: its first word, the label of its hypothesis, and its words."""

    word: str
    label: str
    words: List[str]


class Plan(NamedTuple):
    """The number of stages, and the lines of what each hypothesis spends."""

    stages: int
    lines: List[Spend]


class Arriving(NamedTuple):
    """A look: the label of its hypothesis, its stage from 1, its p-value as a numeral, and the double that was given if it is one."""

    label: str
    stage: int
    p: str
    double: Optional[float]


def _stage_key(label: Any) -> Any:
    """Returns what a label of a stage is compared by: the value of a number, of a numeral, or of that in "stage 2"; the text of a date; or
    the label itself."""
    if isinstance(label, bool):
        return label
    if callable(getattr(label, "isoformat", None)):
        return re.sub("[T ]00:00:00(?:[.]0+)?$", "", str(label.isoformat()))
    if isinstance(label, (Rational, Decimal, float)):
        given: Any = label
        return value_of(repr(float(given)) if isinstance(label, float) and not 0 <= label <= 1 else numeral(given, "a stage"))
    if not isinstance(label, str):
        return label
    text = re.sub("^[Ss]tage[ _.]?([0-9]{1,9})$", r"\1", label.strip())
    value = value_of(text)
    return re.sub("[T ]00:00(:00([.]0+)?)?$", "", text) if value is None else value


def _counts(keys: List[Any]) -> List[Any]:
    """Returns the numbers of so many stages, from 1."""
    return [Fraction(number) for number in range(1, len(keys) + 1)]


def stage_keys(stages: Any) -> Optional[List[Any]]:
    """Returns what the stages that are given, from the first to the last, are compared by. Numbers that count stages have to be in their
    places, since looks name stages by these numbers."""
    if stages is None:
        return None
    keys = [_stage_key(label) for label in values_of(stages, "stages").values]
    hold_distinct(keys, "stages")
    if set(keys) == set(_counts(keys)) and keys != _counts(keys):
        raise ValueError(f"stages: stage {keys[0]} is given as the first one")
    return keys


def _order_of_stages(found: Optional[List[Any]], stages: Optional[List[Any]]) -> Optional[List[int]]:
    """Returns where the level of each stage is among those that are given with labels of stages; nothing if these are in order already.

    Labels that are 1, 2, .. or "stage 1", "stage 2", .. are in their order. That of other ones is not known, unless `stages` has them
    from the first stage to the last."""
    if found is None:
        return None
    said = ", ".join(map(repr, found))
    keys = list(map(_stage_key, found))
    hold_distinct(keys, "levels")
    if stages is not None:
        if set(stages) != set(keys):
            raise ValueError(f"stages are {', '.join(map(str, stages))}, and those of the levels are {said}")
        return [keys.index(key) for key in stages]
    if not all(isinstance(key, Fraction) and key.denominator == 1 for key in keys):
        raise ValueError(f"levels: the stages are {said}, and nothing says which is the first: give them as stages=[..], from the first stage "
                         "to the last")
    if keys != _counts(keys):
        raise ValueError(f"levels: the stages are {said}, and levels are given from the first stage to the last")
    return None


def _hold_frame(rows: Optional[List[Any]], columns: Optional[List[Any]], labels: Sequence[str]) -> bool:
    """Returns whether the rows of a frame of levels have the labels of the hypotheses, and not the columns. Refuses it if that is not
    said."""
    by_row = rows is not None and set(rows) == set(labels)
    by_column = columns is not None and set(columns) == set(labels)
    if by_row != by_column:
        return by_row
    for name, found in (("column", columns), ("row", rows)):
        others = [it for it in found or () if it not in labels]
        if others and found is not None and set(labels) <= set(found):
            raise ValueError(f"levels: beside the hypotheses there is a {name} {others[0]!r}: drop it, or make it the labels of the stages")
    raise ValueError(f"levels: {'both' if by_row else 'neither'} the rows {'and' if by_row else 'nor'} the columns have the labels of the "
                     "hypotheses, so that it is not said which are the stages")


def _frame_levels(given: Any, labels: Sequence[str], stages: Optional[List[Any]]) -> List[List[Any]]:
    """Returns the levels of each hypothesis, of a frame whose rows or columns have the labels of the hypotheses."""
    rows, columns = frame_labels(given)
    by_row = _hold_frame(rows, columns, labels)
    order = _order_of_stages(columns if by_row else rows, stages)
    found = frame_rows(given, "levels")
    lists = found if by_row else [list(column) for column in zip(*found)]
    lists = lists if order is None else [[own[at] for at in order] for own in lists]
    return [lists[at] for at in order_of(rows if by_row else columns, labels, "levels")]  # type: ignore[arg-type]


def _levels(given: Any, labels: Sequence[str], stages: Optional[List[Any]]) -> List[Any]:
    """Returns the levels of each hypothesis, in their order."""
    if is_frame(given):
        return _frame_levels(given, labels, stages)
    if callable(getattr(given, "tolist", None)) and getattr(given, "ndim", 0) == 2:
        given = rows_of(given, "levels")
    return in_order(given, labels, "levels")


def _place(stage: int, label: str) -> str:
    return f"level {stage} of {label!r}"


def _list(given: Any, label: str, what: str) -> List[str]:
    """Returns the levels of a list, as numerals."""
    found = values_of(given, what)
    if found.labels is not None:
        raise TypeError(f"{what} are a list, one for each stage, and not of type {kind_of(given)}")
    return [numeral(value, _place(stage, label)) for stage, value in enumerate(found.values, 1)]


def _part(text: str, level: Fraction, place: str) -> str:
    """Returns a level as a fraction of another one."""
    return numeral(known_value(text, place) / level, place)


def _spend(given: Any, label: str, level: Fraction) -> List[Spend]:
    """Returns the lines of what a hypothesis spends: fractions of a level for a list, and a line for each weight of a dict."""
    what = f"the levels of {label!r}"
    if isinstance(given, Mapping):
        return [Spend("table", label, [numeral(weight, f"a weight in {what}"), *_list(own, label, what)]) for weight, own in given.items()]
    return [Spend("spend", label, [_part(text, level, _place(stage, label)) for stage, text in enumerate(_list(given, label, what), 1)])]


def _weight_at(given: Any, label: str) -> Fraction:
    """Returns the weight at which the levels of a hypothesis count."""
    place = f"at of {label!r}"
    text = numeral(given, place)
    weight = known_value(text, place)
    if not 0 < weight <= 1:
        raise ValueError(f"{place} is {text}, and not above 0 and at most 1")
    return weight


def _weights_at(at: Any, labels: Sequence[str], levels: Sequence[Any], begin: Mapping[str, Fraction], alpha: Fraction) -> List[Fraction]:
    """Returns the weight at which the levels of each hypothesis count, in their order. It may be left out if it is 1 for all: each
    hypothesis begins with the weight 1 or 0, or has levels by weight."""
    if at is not None:
        values = in_order(at, labels, "at") if is_many(at) else [at] * len(labels)
        return list(map(_weight_at, values, labels))
    listed = [(label, own) for label, own in zip(labels, levels) if not isinstance(own, Mapping)]
    other = next((label for label, _ in listed if begin[label] not in (0, 1)), None)
    if other is None:
        return [Fraction(1)] * len(labels)
    sums = [sum(known_value(text, "a level") for text in _list(own, label, f"the levels of {label!r}")) for label, own in listed]
    hint = ""
    if all(found == begin[label] * alpha for (label, _), found in zip(listed, sums)):
        hint = f": the levels sum to weight times alpha, so they seem to be meant at the weights of the beginning, at={_said(begin)}"
    raise ValueError(f"at is missing, the weight at which the levels count: {other!r} begins with the weight {begin[other]}{hint}")


def _said(weights: Mapping[str, Fraction]) -> str:
    """Returns weights as they are given in a call."""
    return "{" + ", ".join(f"{label!r}: '{weight}'" for label, weight in weights.items()) + "}"


def plan_of(levels: Any, labels: Sequence[str], alpha: str, at: Any, begin: Mapping[str, Fraction],
            stages: Optional[List[Any]]) -> Plan:
    """Returns the lines of what the hypotheses spend at a level above 0. The arguments are those of `Graph.stages`; `begin` has the
    weights with which the hypotheses begin."""
    given, level = _levels(levels, labels, stages), known_value(alpha, "alpha")
    weights = _weights_at(at, labels, given, begin, level)
    lines = [line for label, own, weight in zip(labels, given, weights) for line in _spend(own, label, level * weight)]
    counts = {len(line.words) - (line.word == "table"): line.label for line in lines}
    if len(counts) > 1:
        said = " and ".join(f"{label!r} has {count}" for count, label in counts.items())
        raise ValueError(f"levels: the hypotheses have different numbers of stages ({said}): give 0 for a stage without a test")
    count = next(iter(counts), 0)
    if stages is not None and len(stages) != count:
        raise ValueError(f"stages: {len(stages)} are given, and the levels have {count}")
    return Plan(count, lines)


def looks_of(looks: Any, labels: Sequence[str], stages: Optional[List[Any]] = None) -> List[Arriving]:
    """Returns looks in the order in which they arrive. `looks` is that of `Graph.stages`."""
    if is_frame(looks):
        columns = list(looks.columns)
        rows = frame_rows(looks, "looks")
        places = order_of(columns, ("hypothesis", "stage", "p"), "the columns of looks")
        triples: List[Any] = [[row[at] for at in places] for row in rows]
    else:
        triples = rows_of(looks, "looks")
    return [_look(triple, number, labels, stages) for number, triple in enumerate(triples, 1)]


def _stage_of(given: Any, place: str, stages: Optional[List[Any]]) -> int:
    """Returns the number of the stage of a look, which is this number, or one of the labels that `stages` has."""
    if stages is None:
        return whole(given, place)
    key = _stage_key(given)
    at = stages.index(key) + 1 if key in stages else None
    counted = int(key) if isinstance(key, Fraction) and key.denominator == 1 and (at is None or 1 <= key <= len(stages)) else None
    if at is None and counted is None:
        raise ValueError(f"{place} is {given!r}, which is none of the stages {', '.join(map(str, stages))}")
    if None not in (at, counted) and at != counted:
        raise ValueError(f"{place} is {given!r}, which is the label of stage {at}: give the labels of stages as `stages` has them")
    return at or counted or 0


def _look(triple: Any, number: int, labels: Sequence[str], stages: Optional[List[Any]]) -> Arriving:
    if not isinstance(triple, (list, tuple)) or len(triple) != 3:
        raise TypeError(f"look {number} is a hypothesis, a stage and a p-value, and not {triple!r}")
    label, stage, p = triple
    if not isinstance(label, str) or label not in labels:
        raise ValueError(f"look {number}: {unknown_label(label, labels)}")
    found = _stage_of(stage, f"the stage of look {number}", stages)
    if found < 1:
        raise ValueError(f"the stage of look {number} is {found}, and stages count from 1")
    # the text of the hypothesis, and not what the class of the label, such as an enumeration, shows for it
    return Arriving(labels[labels.index(label)], found, numeral(p, f"the p-value of look {number}"), double_in(p))
