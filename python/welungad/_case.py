"""Cases: the one reader of what `canon` prints, the one spelling of a case that the proved call has accepted."""
import functools
import re
from fractions import Fraction
from typing import Dict, List, NoReturn, Optional, Tuple

from ._refusals import BadAnswer
from ._results import Component, Number, Quotient

NAME = re.compile(r"[A-Za-z0-9_.-]{1,32}")
_FRACTION = re.compile(r"(?:0|[1-9][0-9]*)(?:/[1-9][0-9]*)?")
_WHOLE = re.compile(r"0|[1-9][0-9]*")
_TERM = re.compile(r"([+-]?)([0-9]+(?:/[0-9]+)?)?\*?(\\epsilon(?:\^([0-9]))?)?")
_OF_STAGES = ("spend", "table", "arrive")


# ---- numbers, as all texts of the proved call have them


@functools.lru_cache(maxsize=4096)
def fraction(word: str) -> Fraction:
    """Returns a fraction of at least 0, as it is printed: n, or n/d in lowest terms. `ValueError`: the word is none."""
    found = Fraction(word) if _FRACTION.fullmatch(word) else None
    if found is None or str(found) != word:
        raise ValueError(f"{word!r} is not a fraction in lowest terms")
    return found


def whole_number(word: str) -> int:
    """Returns a whole number of at least 0, as it is printed. `ValueError`: the word is none."""
    if not _WHOLE.fullmatch(word):
        raise ValueError(f"{word!r} is not a whole number")
    return int(word)


def _divided(a: List[Fraction], b: List[Fraction]) -> Tuple[List[Fraction], List[Fraction]]:
    """Returns the quotient and the remainder of two polynomials, whose last coefficients are not 0."""
    rest, found = list(a), [Fraction(0)] * max(0, len(a) - len(b) + 1)
    while len(rest) >= len(b):
        factor, shift = rest[-1] / b[-1], len(rest) - len(b)
        found[shift] = factor
        rest = [x - factor * (b[i - shift] if i >= shift else 0) for i, x in enumerate(rest)]
        while rest and not rest[-1]:
            rest.pop()
    return found, rest


def lowest_terms(x: Number) -> Number:
    """Returns a number in lowest terms: as a fraction if it has no epsilon. The lowest coefficient below that is not 0 is 1."""
    if not isinstance(x, Quotient) or not any(x.numerator):
        return Fraction(0) if isinstance(x, Quotient) else x
    above, below = ([*part[: max(i for i, it in enumerate(part) if it) + 1]] for part in (x.numerator, x.denominator))
    common, rest = above, below
    while rest:
        common, rest = rest, _divided(common, rest)[1]
    above, below = _divided(above, common)[0], _divided(below, common)[0]
    least = next(it for it in below if it)
    over, under = tuple(it / least for it in above), tuple(it / least for it in below)
    return over[0] if len(over) == len(under) == 1 else Quotient(over, under)


def polynomial(text: str) -> Tuple[Fraction, ...]:
    """Returns the coefficients, by ascending power of epsilon, of an edge as a canonical text has it."""
    found = {0: Fraction(0)}
    at = 0
    while at < len(text):
        match = _TERM.match(text, at)
        if match is None or match.end() == at:
            raise ValueError(f"{text!r} is not an edge")
        sign, size, epsilon, power = match.groups()
        found[(int(power) if power else 1) if epsilon else 0] = Fraction(size or 1) * (-1 if sign == "-" else 1)
        at = match.end()
    return tuple(found.get(power, Fraction(0)) for power in range(max(found) + 1))


def edge_of(text: str) -> Number:
    """Returns an edge of a canonical text."""
    coefficients = polynomial(text)
    return coefficients[0] if len(coefficients) == 1 else Quotient(coefficients, (Fraction(1),))


# ---- the text


def _fail(text: str, cause: str) -> NoReturn:
    raise BadAnswer(f"what answered is not an answer to canon: {cause}; it begins with {text[:60]!r}")


def _words(line: str, word: str) -> List[str]:
    """Returns the words of a line after the first one, which is known."""
    first, *words = line.split(" ")
    if first != word:
        raise ValueError(f"{line!r} is not its line {word}")
    return words


def _names_in(line: str) -> Tuple[str, ...]:
    """Returns the names of a line hypotheses."""
    names = tuple(_words(line, "hypotheses"))
    if not names or len({*names}) != len(names) or not all(map(NAME.fullmatch, names)):
        raise ValueError("its names are none, or are not different")
    return names


class Canonical:
    """A canonical text and its parts: the level, the names, the p-values if it has any, the graphs, and the lines of its stages.

    `blocks` has the lines of each graph from its weights on, `before` the text before the stages."""

    def __init__(self, text: str):
        self.text = text
        lines = text.split("\n")
        if len(lines) < 4 or lines.pop():
            raise ValueError("it has no lines alpha, hypotheses and weights, or its last line has no end")
        self.alpha = fraction(*_words(lines[0], "alpha"))
        self.names = _names_in(lines[1])
        self.p: Optional[Dict[str, Fraction]] = None
        self.shares: List[Fraction] = []
        self.weights: List[Dict[str, Fraction]] = []
        self.edges: List[Dict[Tuple[str, str], Number]] = []
        self.blocks: List[List[str]] = []
        self.stages: List[List[str]] = []
        for line in lines[2:]:
            self._put(line)
        if not self.weights or len(self.shares) != len(self.weights):
            raise ValueError("it has no graph, or one without weights")

    def _put(self, line: str) -> None:
        """Takes a line after the first two, which has to be in its place."""
        word, *words = line.split(" ")
        if self.stages or word == "stages":
            self._put_stages(word, words)
        elif word == "p" and self.p is None and not self.shares:
            self.p = self._by_name(words)
        elif word == "component" and len(self.shares) == len(self.weights):
            self.shares.append(fraction(*words))
        elif word == "weights":
            if len(self.shares) == len(self.weights):
                self.shares.append(Fraction(1))
            self.weights.append(self._by_name(words))
            self.edges.append({})
            self.blocks.append([line])
        elif word == "edge":
            start, end, text = words
            if start == end or not {start, end} <= {*self.names} or (start, end) in self.edges[-1]:
                raise ValueError(f"{line!r} is not an edge between two of its hypotheses, or occurs twice")
            self.edges[-1][start, end] = edge_of(text)
            self.blocks[-1].append(line)
        else:
            raise ValueError(f"{line!r} is not a line of it here")

    def _put_stages(self, word: str, words: List[str]) -> None:
        if word == "stages" and not self.stages:
            whole_number(*words)
        elif word not in _OF_STAGES or words[0] not in self.names or not words[1:]:
            raise ValueError(f"{word} {' '.join(words)} is not a line of its stages")
        else:
            for number in words[1:]:
                fraction(number)
        self.stages.append([word, *words])

    def _by_name(self, words: List[str]) -> Dict[str, Fraction]:
        if len(words) != len(self.names):
            raise ValueError(f"it has {len(words)} numbers for {len(self.names)} hypotheses")
        return dict(zip(self.names, map(fraction, words)))

    @property
    def components(self) -> Tuple[Component, ...]:
        """The graphs, by the names of the hypotheses."""
        return tuple(Component(share, dict(weights), edges) for share, weights, edges in zip(self.shares, self.weights, self.edges))

    def of_p(self, p: Dict[str, str], alpha: str = "1/2", component: Optional[int] = None, weights: str = "") -> str:
        """Returns a case of these graphs with other p-values and another level, without stages; of one of them with its own share of 1,
        and with other weights if these are given."""
        at = range(len(self.blocks)) if component is None else [component]
        is_alone = component is not None or (len(self.blocks) == 1 and self.shares[0] == 1)
        lines = [f"alpha {alpha}", " ".join(["hypotheses", *self.names]), " ".join(["p", *(p[name] for name in self.names)])]
        for c in at:
            lines += [] if is_alone else [f"component {self.shares[c]}"]
            lines += [f"weights {weights}" if weights else self.blocks[c][0], *self.blocks[c][1:]]
        return "\n".join([*lines, ""])

    def level_of_stage(self, name: str, stage: int, weight: Fraction) -> Fraction:
        """Returns the level that a hypothesis has at a stage, from 1, if it has this weight."""
        rows = [[Fraction(word) for word in words[2:]] for words in self.stages if words[0] in ("spend", "table") and words[1] == name]
        if ["spend", name] in [words[:2] for words in self.stages]:
            return rows[0][stage - 1] * weight * self.alpha
        return next((row[stage] for row in reversed(rows) if row[0] <= weight), Fraction(0))

    @property
    def before(self) -> str:
        """The text before its stages."""
        lines = self.text.split("\n")
        return self.text if not self.stages else "\n".join([*lines[: len(lines) - 1 - len(self.stages)], ""])


def canonical_names(text: str) -> Tuple[str, ...]:
    """Returns the names of a canonical text, of which nothing else is read. `BadAnswer`: its second line has none."""
    try:
        return _names_in(text.split("\n")[1])
    except (ValueError, IndexError) as error:
        _fail(text, f"its line hypotheses cannot be read ({error})")


def read_canonical(text: str) -> Canonical:
    """Reads a canonical text. `BadAnswer`: it is none."""
    try:
        return Canonical(text)
    except (ValueError, IndexError, TypeError) as error:
        _fail(text, f"a line of it cannot be read ({error})")
