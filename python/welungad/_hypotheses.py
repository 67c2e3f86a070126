"""Hypotheses: the user's labels, the program's names for them, and the one function that puts values in their order.

A label is any text. The program's names are 1 to 32 ASCII letters, digits, underscores, points and hyphens; the name of another
label is made from it, as R makes it. Values that have labels are put in the order of the hypotheses by them, whatever their
class; values without labels are in that order already. Nothing that cannot be matched once and wholly is taken.
"""
import re
import unicodedata
from collections import Counter
from typing import Any, Dict, List, Mapping, NamedTuple, Optional, Sequence, Tuple

from ._calls import kind_of
from ._numbers import plain

_LONGEST_NAME = 32
_NAME = re.compile(r"[A-Za-z0-9_.-]{1,32}")


# ---- labels and names


def _made_name(label: str, taken: List[str], number: int) -> str:
    """Returns a name for a label that is none; it differs from those that are taken."""
    stem = re.sub(r"[^A-Za-z0-9.-]+", "_", label).strip("_")[:_LONGEST_NAME] or f"H{number}"
    name, count = stem, 1
    while name in taken:
        count += 1
        name = f"{stem[: _LONGEST_NAME - len(str(count)) - 1]}_{count}"
    return name


def names_for(labels: Sequence[str]) -> Tuple[str, ...]:
    """Returns the program's names for labels: a label that is a name stays, and a name that is made differs from all others."""
    names = list(labels)
    for i, label in enumerate(labels):
        if not _NAME.fullmatch(label):
            names[i] = _made_name(label, names[:i] + names[i + 1:], i + 1)
    return tuple(names)


def hold_distinct(labels: Sequence[Any], argument: str) -> None:
    """Refuses labels of which one occurs twice. The message names the argument and the label."""
    for label, count in Counter(labels).items():
        if count > 1:
            raise ValueError(f"{argument}: the label {label!r} occurs {count} times")


def _looks_as(label: str) -> str:
    """Returns what a reader sees of a label: its letters, however they are composed, with single blanks between its words."""
    return " ".join(unicodedata.normalize("NFKC", label).split())


def _difference(label: str, other: str) -> str:
    """Returns where two labels that look alike differ, for a message."""
    at = next((at for at, (one, two) in enumerate(zip(label, other)) if one != two), min(len(label), len(other)))
    said = [f"U+{ord(text[at]):04X} {unicodedata.name(text[at], 'without a name')}" if at < len(text) else "its end" for text in (label, other)]
    return f"at character {at + 1} the one has {said[0]}, and the other {said[1]}"


def hold_labels(labels: Sequence[str], argument: str) -> Tuple[str, ...]:
    """Returns labels, once they are texts, distinct, and not alike but for blanks. The messages name the argument and the label."""
    for number, label in enumerate(labels, 1):
        if not isinstance(label, str):
            raise TypeError(f"{argument}: label {number} is a text, and not {label!r} of type {kind_of(label)}")
    hold_distinct(labels, argument)
    seen: Dict[str, str] = {}
    for label in labels:
        first = seen.setdefault(_looks_as(label), label)
        if first is not label:
            raise ValueError(f"{argument}: the labels {first!r} and {label!r} look alike: {_difference(first, label)}")
    # the text itself, and not what its class, such as an enumeration, shows for it
    return tuple(map(str.__str__, labels))


# ---- values by hypothesis


class Values(NamedTuple):
    """Values as they were given: their labels, if they have any, and the values in the order in which they came."""

    labels: Optional[List[Any]]
    values: List[Any]


def is_sequence(given: Any) -> bool:
    """Whether something is a sequence of values, and neither a text nor bytes."""
    return isinstance(given, Sequence) and not isinstance(given, (str, bytes, bytearray, memoryview))


def is_array(given: Any) -> bool:
    """Whether something is an array, as numpy, pandas and Python have them; a view of bytes is none."""
    return callable(getattr(given, "tolist", None)) and not isinstance(given, memoryview)


def is_many(given: Any) -> bool:
    """Whether something has places for several values: a list, a tuple, a dict, a series, or an array with dimensions."""
    has_places = getattr(given, "ndim", int(hasattr(given, "tolist"))) > 0
    return isinstance(given, (list, tuple, dict)) or hasattr(given, "items") or has_places


def is_frame(given: Any) -> bool:
    """Whether something has columns with labels, as a frame of pandas has."""
    return hasattr(given, "columns") and hasattr(given, "index") and callable(getattr(given, "items", None))


def _own_names(given: Any) -> Optional[List[Any]]:
    """Returns the names that a sequence has for its values, as a named tuple and a row of a database have; nothing for any other."""
    keys = getattr(given, "keys", None)
    return list(keys()) if callable(keys) else list(given._fields) if hasattr(given, "_fields") else None


def _is_numbered(labels: List[Any]) -> bool:
    """Whether labels are the row numbers that pandas gives to what has no labels."""
    return all(isinstance(it, int) and not isinstance(it, bool) and it == i for i, it in enumerate(labels))


def values_of(given: Any, argument: str) -> Values:
    """Returns values with their labels, of a sequence, a dict, a series of pandas or an array. A named tuple has labels too.

    `TypeError`: it is none of these. A set has no order, and an iterator may have lost some values.
    """
    if isinstance(given, Mapping):
        pairs = list(given.items())
        return Values([label for label, _ in pairs], [value for _, value in pairs])
    if is_frame(given):
        raise TypeError(f"{argument} is one value for each hypothesis, and not a frame")
    if hasattr(given, "index") and callable(getattr(given, "items", None)):
        pairs = list(given.items())
        values = plain(given, argument)
        labels = [label for label, _ in pairs]
        return Values(None if _is_numbered(labels) else labels, values)
    if is_array(given):
        found = plain(given, argument)
        if not isinstance(found, list) or any(isinstance(it, list) for it in found):
            raise TypeError(f"{argument} is one value for each hypothesis, and not an array of {getattr(given, 'ndim', 0)} dimensions")
        return Values(None, found)
    if is_sequence(given):
        return Values(_own_names(given), list(given))
    raise TypeError(f"{argument} is a list with a value for each hypothesis, or a dict by their names, and not of type {kind_of(given)}")


def unknown_label(label: Any, labels: Sequence[str]) -> str:
    """Returns what a message says of a label that is none of those of the hypotheses."""
    seen = _looks_as(label) if isinstance(label, str) else None
    alike = next((it for it in labels if _looks_as(it) == seen), None)
    hint = f"; of {label!r} and {alike!r}, {_difference(label, alike)}" if alike is not None else ""
    return f"{label!r} is not the name of a hypothesis: they are {', '.join(map(repr, labels))}{hint}"


def order_of(found: List[Any], labels: Sequence[str], argument: str) -> List[int]:
    """Returns where the label of each hypothesis is in `found`, which has each of them once and nothing else."""
    hold_labels(found, argument)
    places = {label: at for at, label in enumerate(found)}
    unknown = [label for label in found if label not in set(labels)]
    missing = [label for label in labels if label not in places]
    if unknown:
        raise ValueError(f"{argument}: {unknown_label(unknown[0], labels)}")
    if missing:
        raise ValueError(f"{argument}: the hypothesis {missing[0]!r} is missing")
    return [places[label] for label in labels]


def in_order(given: Any, labels: Sequence[str], argument: str) -> List[Any]:
    """Returns the values of `given` in the order of the hypotheses. This is the one function that puts them in order.

    `ValueError`: the labels of `given` are not those of the hypotheses, each once; or it has another number of values.
    `TypeError`: it is not of a class that has values by hypothesis. The messages name the argument.
    """
    found = values_of(given, argument)
    if found.labels is not None:
        return [found.values[at] for at in order_of(found.labels, labels, argument)]
    if len(found.values) != len(labels):
        raise ValueError(f"{argument} has {len(found.values)} values, and there are {len(labels)} hypotheses")
    return found.values


# ---- frames


def frame_labels(given: Any) -> Tuple[Optional[List[Any]], Optional[List[Any]]]:
    """Returns the labels of the rows and of the columns of a frame; nothing for those that pandas numbered."""
    rows, columns = list(given.index), list(given.columns)
    return None if _is_numbered(rows) else rows, None if _is_numbered(columns) else columns


def frame_rows(given: Any, argument: str) -> List[List[Any]]:
    """Returns the rows of a frame. It is read column by column, so that no column takes the type of another."""
    columns = [plain(column, f"{argument}, column {label!r}") for label, column in given.items()]
    return [list(row) for row in zip(*columns)] if columns else [[] for _ in given.index]


def rows_of(given: Any, argument: str) -> List[Any]:
    """Returns the rows of a matrix without labels: a sequence of rows, or an array of two dimensions."""
    if is_array(given) and not hasattr(given, "items"):
        found = plain(given, argument)
        if not isinstance(found, list) or not all(isinstance(it, list) for it in found):
            raise TypeError(f"{argument} is a matrix, and not an array of {getattr(given, 'ndim', 0)} dimensions")
        return found
    if is_sequence(given) and _own_names(given) is None:
        return list(given)
    raise TypeError(f"{argument} is a list of rows, and not of type {kind_of(given)}")
