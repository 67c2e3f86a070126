"""Places: what a user of `Graph` calls the place that the line of a refusal names."""
import re
from fractions import Fraction
from typing import Dict, List, Mapping, Optional, Sequence, Tuple

from ._beside import meant
from ._numbers import value_of

# The lines about a case, and the places that they name. `name` and `other` are names of hypotheses, `number` is a place from 1.
_TABLE: List[Tuple[str, str]] = [
    (r"\w+: case: (?:part )?alpha", "alpha"),
    (r"\w+: case: (?:part )?p (?:of|missing) (?P<name>\S+)", "the p-value of {name!r}"),
    (r"\w+: case: weight sum ", "weights"),
    (r"\w+: case: (?:part )?weight of (?P<name>\S+) ", "the weight of {name!r}"),
    (r"\w+: case: self edge of (?P<name>\S+) ", "the edge from {name!r} to {name!r}"),
    (r"\w+: case: (?:part )?edge (?P<name>\S+) (?P<other>\S+) ", "the edge from {name!r} to {other!r}"),
    (r"\w+: case: row sum of (?P<name>\S+) ", "the edges from {name!r}"),
    (r"\w+: case: share sum", "shares"),
    (r"\w+: case: (?:part )?share component (?P<number>\d+)", "share {number}"),
    (r"\w+: case: (?:part )?spend (?:sum )?of (?P<name>\S+)", "the levels of {name!r}"),
    (r"\w+: case: (?:part )?step \d+ of (?P<name>\S+)", "the levels of {name!r}"),
    (r"\w+: case: spend count (?P<position>\d+)", "the levels of {position!r}"),
    (r"\w+: case: (?:part )?arrival (?P<number>\d+)", "look {number}"),
    (r"\w+: (?:case: no hypothesis|hypotheses )", "weights"),
    (r"\w+: components ", "graphs"),
    (r"\w+: (?:stages|spend steps) ", "levels"),
]
_PLACES = [(re.compile(pattern), place) for pattern, place in _TABLE]


def place_of(line: str, lines: Sequence[str], labels: Mapping[str, str]) -> str:
    """Returns the place that a refusal names, or the empty text.

    `lines` has the place of each line of the case, and `labels` the label of each name, in the order of the hypotheses.
    """
    numbered = re.match(r"\w+: line (\d+): ", line)
    if numbered:
        at = int(numbered[1]) - 1
        return lines[at] if at < len(lines) else ""
    for pattern, place in _PLACES:
        match = pattern.match(line)
        if match:
            return place.format(**_words_of(match.groupdict(), labels))
    return ""


def _words_of(found: Dict[str, str], labels: Mapping[str, str]) -> Dict[str, str]:
    """Returns the words of a line, with labels in place of names and positions."""
    words = {key: labels.get(word, word) for key, word in found.items() if key in ("name", "other")}
    if "position" in found:
        words["position"] = list(labels.values())[int(found["position"]) - 1]
    if "number" in found:
        words["number"] = found["number"]
    return words


# ---- sums above their bound


def sum_above(line: str) -> Optional[Tuple[str, str, int]]:
    """Returns which sum a refusal names: its kind, the name of its hypothesis, and its component, from 0."""
    match = re.match(r"malformed: case: (weight|row|share) sum(?: of (\S+))?(?: component (\d+))?$", line)
    return (match[1], match[2] or "", int(match[3] or 1) - 1) if match else None


def sum_text(texts: Sequence[str]) -> str:
    """Returns what numerals sum to, as they were read, for a message; nothing if one is an expression with epsilon."""
    values = [value_of(text) for text in texts]
    known = [value for value in values if value is not None]
    if len(known) < len(values):
        return ""
    # a double is written as a fraction, and a decimal is the user's
    near = [meant(value) if "/" in text else value for text, value in zip(texts, known)]
    hint = f" ({' + '.join(map(str, near))} by as_exact with a total of 1)" if near != known and sum(near) == 1 else ""
    return f", which sum to {shown(sum(known, Fraction(0)))}{hint}"


def shown(number: Fraction) -> str:
    """Returns a number for a message: as a whole decimal if it ends within 60 places, else as a fraction."""
    for places in range(61):
        if 10**places % number.denominator == 0:
            digits = str(number.numerator * (10**places // number.denominator)).zfill(places + 1)
            return f"{digits[:-places]}.{digits[-places:]}" if places else digits
    return str(number)
