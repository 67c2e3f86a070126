"""Results: what the commands print, as values. Numbers are exact; the names are the user's labels, or those of a text."""
from dataclasses import dataclass, field, replace
from fractions import Fraction
from html import escape
from importlib import import_module
from os import PathLike
from typing import Any, Dict, FrozenSet, Iterable, List, Mapping, Sequence, Tuple, TypeVar, Union

from ._files import write_whole

Value = TypeVar("Value")


def _level(given: Any) -> Fraction:
    """Returns a level as every number is read. `ValueError`: it is not from 0 to 1."""
    from ._beside import exact_value

    level = exact_value(given, "level")
    if not 0 <= level <= 1:
        raise ValueError(f"level is {level}, and not from 0 to 1")
    return level


@dataclass(frozen=True)
class Answer:
    """What every result has: `report` is the text that the proved call printed, byte for byte, `words` are those of the command, and
    `names` are the labels of the hypotheses in their order. `case` is the text of the case that was decided, in which the hypotheses
    have the program's names; it is empty if the caller gave a text."""

    report: str = field(default="", kw_only=True, repr=False, compare=False)
    case: str = field(default="", kw_only=True, repr=False, compare=False)
    words: Tuple[str, ...] = field(default=(), kw_only=True, repr=False, compare=False)
    names: Tuple[str, ...] = field(default=(), kw_only=True, repr=False, compare=False)


Result = TypeVar("Result", bound=Answer)


def answered(result: Result, words: Sequence[str], report: str, names: Sequence[str], case: str = "") -> Result:
    """Returns the result with the words of its call, the labels of the hypotheses, and the texts that it was read from."""
    return replace(result, report=report, case=case, words=tuple(words), names=tuple(names))


def _frame(rows: Sequence[Dict[str, Any]], columns: Sequence[str]) -> Any:
    """Returns a frame of pandas, with exact numbers as objects. `ImportError`: pandas is not there."""
    pandas = import_module("pandas")
    return pandas.DataFrame({column: pandas.Series([row.get(column) for row in rows], dtype=_dtype(row.get(column) for row in rows))
                             for column in columns}, columns=list(columns))


def _dtype(values: Iterable[Any]) -> str:
    """Returns the type of a column: objects, unless all of its values are whole numbers or all truth values."""
    kinds = {type(value) for value in values}
    return "int64" if kinds == {int} else "bool" if kinds == {bool} else "object"


def _of(sets: Mapping[FrozenSet[str], Value], names: Sequence[str]) -> Value:
    """Returns what is known of a set. `ValueError`: a name is not one of a hypothesis, or there is none."""
    known = max(sets, key=len, default=frozenset())
    unknown = next((name for name in names if not isinstance(name, str) or name not in known), None)
    if unknown is not None or not names:
        said = f"{unknown!r} is not the name of a hypothesis" if names else "the set has no hypothesis"
        raise ValueError(f"of: {said}: they are {', '.join(map(repr, sorted(known)))}")
    return sets[frozenset(names)]


@dataclass(frozen=True)
class Tested:
    """A hypothesis, its p-value, and the weight that it is tested with: at weight times alpha."""

    name: str
    p: Fraction
    weight: Fraction


@dataclass(frozen=True)
class Adjusted:
    """The least level at which the closed test rejects a hypothesis. It is 1 and not reached if no level up to 1 does."""

    p: Fraction
    reached: bool


@dataclass(frozen=True)
class Decision(Answer):
    """What `test` prints: the rejections in their order, the retained hypotheses with their last weights, the names of the
    rejected by ascending position, and the adjusted p-values."""

    alpha: Fraction
    steps: Tuple[Tested, ...]
    kept: Tuple[Tested, ...]
    rejected: Tuple[str, ...]
    adjusted: Dict[str, Adjusted] = field(hash=False)

    def rejected_at(self, level: Any) -> Tuple[str, ...]:
        """Returns the names that the test rejects at another level, from 0 to 1: those whose adjusted p-value is at most the level.

        The level is read as every number is, so that 0.015 is 3/200. To compare an adjusted p-value with the double 0.015 is not the
        same, since that is below 3/200."""
        return tuple(name for name, it in self.adjusted.items() if it.reached and it.p <= _level(level))

    def to_frame(self) -> Any:
        """Returns a frame of pandas with a row for each hypothesis, and exact numbers. `step` is 0 if the hypothesis is retained."""
        steps = {it.name: number for number, it in enumerate(self.steps, 1)}
        tested = {it.name: it for it in self.steps + self.kept}
        rows = [{"hypothesis": name, "rejected": name in steps, "step": steps.get(name, 0), "p": tested[name].p, "weight": tested[name].weight,
                 "level": tested[name].weight * self.alpha, "adjusted": it.p, "reached": it.reached} for name, it in self.adjusted.items()]
        return _frame(rows, ("hypothesis", "rejected", "step", "p", "weight", "level", "adjusted", "reached"))

    def _repr_html_(self) -> str:
        from ._page import decision_html

        return decision_html(self)


@dataclass(frozen=True)
class Bounds(Answer):
    """What `bounds` prints: for each set that is not empty, a lower bound on the number of false hypotheses in it."""

    bounds: Dict[FrozenSet[str], int] = field(hash=False)

    def of(self, *names: str) -> int:
        """Returns the bound of the set of these names. `ValueError`: one is not the name of a hypothesis, or there is none."""
        return _of(self.bounds, names)

    def to_frame(self) -> Any:
        """Returns a frame of pandas with a row for each set: whether each hypothesis is in it, and its bound."""
        rows = [{**{name: name in members for name in self.names}, "bound": bound} for members, bound in self.bounds.items()]
        return _frame(rows, (*self.names, "bound"))


@dataclass(frozen=True)
class Weights(Answer):
    """What `weights` prints: for each set that is not empty, the intersection weight of each member."""

    weights: Dict[FrozenSet[str], Dict[str, Fraction]] = field(hash=False)

    def of(self, *names: str) -> Dict[str, Fraction]:
        """Returns the weights of the members of the set of these names. `ValueError`: one is not the name of a hypothesis, or there is
        none."""
        return _of(self.weights, names)

    def to_frame(self) -> Any:
        """Returns a frame of pandas with a row for each set and a column for each hypothesis: its weight, or None if it is not in it."""
        return _frame(list(self.weights.values()), self.names)


@dataclass(frozen=True)
class Simes(Bounds):
    """What `simes` prints: the bounds by Simes' closed test, the bound of the k hypotheses with the least p-values at `top[k - 1]`,
    and the names of the rejected."""

    top: Tuple[int, ...]
    rejected: Tuple[str, ...]


@dataclass(frozen=True)
class Quotient:
    """A quotient of two polynomials in epsilon, as their coefficients by ascending power. Epsilon is a positive number below
    every positive fraction."""

    numerator: Tuple[Fraction, ...]
    denominator: Tuple[Fraction, ...]


Number = Union[Fraction, Quotient]


@dataclass(frozen=True)
class Flow:
    """What flows through a hypothesis, or leaves there, in a component (from 1)."""

    component: int
    name: str
    value: Number


@dataclass(frozen=True)
class Listed:
    """A hypothesis of a document of evidence: a rejected one with its flows, or a retained one with its exits."""

    name: str
    flows: Tuple[Flow, ...]


@dataclass(frozen=True)
class Evidence(Answer):
    """Evidence for a decision. `text` is the document that `check` takes; its hypotheses have the program's names."""

    version: int
    steps: Tuple[Listed, ...]
    keeps: Tuple[Listed, ...]
    text: str


@dataclass(frozen=True)
class Checked(Answer):
    """What `check` answers. It counts as true only if the evidence holds and is of the whole decision: of each hypothesis.

    If it holds, the closed test rejects each hypothesis of `listed`, and in version 2 none of `kept`. Else `reason` is the
    program's line, which says at which step or hypothesis it does not; `explain` has its meaning. A document of version 1 says nothing
    of hypotheses that it does not list."""

    holds: bool
    listed: Tuple[str, ...]
    kept: Tuple[str, ...]
    reason: str

    @property
    def is_whole(self) -> bool:
        """Whether the evidence is of each hypothesis: that it is rejected, or that it is retained."""
        return bool(self.names) and {*self.listed, *self.kept} == {*self.names}

    def __bool__(self) -> bool:
        return self.holds and self.is_whole


@dataclass(frozen=True)
class Settled:
    """A hypothesis that a look rejects: the least stage at which its values meet the test, and its weight at that moment."""

    name: str
    stage: int
    weight: Fraction


@dataclass(frozen=True)
class Arrival:
    """A p-value that arrives at a stage (from 1), and the rejections that it brings."""

    name: str
    stage: int
    p: Fraction
    rejections: Tuple[Settled, ...]


@dataclass(frozen=True)
class Stages(Answer):
    """What `stages` prints: the arrivals in their order, and the names of the rejected by ascending position."""

    alpha: Fraction
    arrivals: Tuple[Arrival, ...]
    rejected: Tuple[str, ...]

    def to_frame(self) -> Any:
        """Returns a frame of pandas with a row for each look, and a row more for each further hypothesis that a look rejects: the look,
        its hypothesis, stage and p-value, and what it rejects with the stage and the weight of the rejection, or None."""
        rows: List[Dict[str, Any]] = []
        for number, it in enumerate(self.arrivals, 1):
            look = {"look": number, "hypothesis": it.name, "stage": it.stage, "p": it.p}
            rows += [{**look, "rejected": one.name, "by_stage": one.stage, "weight": one.weight} for one in it.rejections] or [look]
        return _frame(rows, ("look", "hypothesis", "stage", "p", "rejected", "by_stage", "weight"))


@dataclass(frozen=True)
class Component:
    """A graph and its share of the level. `edges` has the pairs whose edge is not 0: from the first to the second."""

    share: Fraction
    weights: Dict[str, Number] = field(hash=False)
    edges: Dict[Tuple[str, str], Number] = field(hash=False)

    def of_share(self, share: Fraction) -> "Component":
        """Returns this graph with another share."""
        return Component(share, self.weights, self.edges)

    def renamed(self, labels: Mapping[str, str]) -> "Component":
        """Returns this graph with other names of its hypotheses."""
        return Component(self.share, {labels[name]: weight for name, weight in self.weights.items()},
                         {(labels[start], labels[end]): edge for (start, end), edge in self.edges.items()})


@dataclass(frozen=True)
class Updated:
    """A graph after rejections: what is left of each component, and the weight of each remaining hypothesis over all components."""

    components: Tuple[Component, ...]
    weights: Dict[str, Fraction] = field(hash=False)


@dataclass(frozen=True)
class Step:
    """A graph in the course of a decision: what has been rejected so far, in order, and what is left of each component.

    `weights` has the weight of each remaining hypothesis over all components, as a fraction of the level."""

    rejected: Tuple[str, ...]
    weights: Dict[str, Fraction] = field(hash=False)
    components: Tuple[Component, ...]


@dataclass(frozen=True)
class Trials:
    """The decisions on many rows of p-values. Rows count from 1 where they are named, and from 0 where they are indexed.

    `rejected[i]` has for row i a truth value for each hypothesis, in the order of `names`, or is None if the row has no decision.
    `statuses[i]` is then the reason: MALFORMED if a p-value of the row has no reading, TOO_WIDE if a number of the run is too
    wide, LIMIT if a p-value is past a limit. `refused` has what is wrong with each such row, by its number from 1."""

    names: Tuple[str, ...]
    rejected: Tuple["RowDecision", ...]
    statuses: Tuple[int, ...]
    refused: Dict[int, str] = field(hash=False)

    def counts(self) -> Dict[str, int]:
        """Returns in how many rows each hypothesis is rejected. `ValueError`: a row has no decision."""
        if self.refused:
            number, cause = next(iter(self.refused.items()))
            raise ValueError(f"{len(self.refused)} rows have no decision; the first is row {number}: {cause}")
        return {name: sum(row[i] for row in self.rejected if row) for i, name in enumerate(self.names)}

    def to_frame(self) -> Any:
        """Returns a frame of pandas with a row for each trial and a column for each hypothesis: whether it is rejected, or None if the
        row has no decision."""
        return _frame([dict(zip(self.names, row or ())) for row in self.rejected], self.names)


RowDecision = Union[Tuple[bool, ...], None]


@dataclass(frozen=True)
class Look:
    """A look of a study: a p-value at a stage (from 1), and the rejections that it brings."""

    name: str
    stage: int
    p: Fraction
    rejections: Tuple[Settled, ...]


@dataclass(frozen=True)
class RefusedLook:
    """A look that a study does not take, and why: its `stage` does not exist, its value is `known`, or it is out of `range`.
    The study is as before."""

    name: str
    stage: int
    reason: str

    def __bool__(self) -> bool:
        return False


@dataclass(frozen=True)
class Shown:
    """What a study shows: how many looks have been taken, and the names of the rejected by ascending position."""

    looks: int
    rejected: Tuple[str, ...]


@dataclass(frozen=True)
class Picture:
    """A picture of a graph, as the text of an SVG file. Notebooks show it."""

    svg: str = field(repr=False)

    def save(self, path: Union[str, "PathLike[str]"]) -> None:
        """Writes the picture to a file, which has all of it or stays as it was. `OSError`: it cannot be written."""
        write_whole(self.svg, path)

    def _repr_svg_(self) -> str:
        return self.svg


@dataclass(frozen=True)
class Page:
    """A page about a decision, for readers: one HTML file, which has no scripts and needs no other file."""

    html: str = field(repr=False)

    def save(self, path: Union[str, "PathLike[str]"]) -> None:
        """Writes the page to a file, which has all of it or stays as it was. `OSError`: it cannot be written."""
        write_whole(self.html, path)

    def _repr_html_(self) -> str:
        return f'<iframe srcdoc="{escape(self.html)}" width="100%" height="800" style="border: 1px solid #999"></iframe>'
