"""What the proved calls say of a case, read strictly and compared with each other. For the page of a decision."""
import re
from fractions import Fraction
from typing import Callable, Dict, FrozenSet, Iterator, List, Mapping, NamedTuple, Optional, Sequence, Tuple, TypeVar, Union

from . import _reviewer
from ._case import Canonical, read_canonical
from ._labels import tags_for
from ._picture import Drawn
from ._refusals import BadAnswer, Refused
from ._reports import Report, read_bounds, read_decision, read_evidence, read_stages, read_weights, read_whole, take_answer
from ._results import Bounds, Decision, Settled, Stages, Tested, Weights
from ._updates import Calls, Updates

MOST_SETS, MOST_BOUNDS, MOST_PICTURES = 6, 16, 16  # hypotheses of a table of all sets, of bounds, and of a picture for each step

Found = TypeVar("Found")


class State(NamedTuple):
    """The graph once some hypotheses are removed: the weights of the others by name, and what a picture shows."""

    removed: List[str]
    weights: Dict[str, Fraction]
    drawn: Drawn


class Findings:
    """A case, and what the proved calls print of it. The hypotheses have the names of the case."""

    def __init__(self, given: str, calls: Calls, form: str = "text", alpha: Optional[str] = None, labels: Optional[Sequence[str]] = None,
                 priority: Optional[str] = None):
        self.calls, self.given = calls, given
        self.priority = ["--priority", priority] if priority else []
        self.canonical = self.ask(["canon", *words_of(form, alpha)], given)
        self.case = self._read_canonical()
        self.staging = self.case.stages
        self.is_staged = bool(self.staging)
        self._compare_with_given(form, alpha)
        self.names, self.alpha = self.case.names, self.case.alpha
        own = list(self.names if labels is None else labels)
        self.labels = dict(zip(self.names, own))
        if len({*own}) != len(self.names) or len(own) != len(self.names):
            raise ValueError(f"labels: {len(self.names)} different ones are needed, one for each hypothesis")
        self.tags = dict(zip(self.names, tags_for(own, self.names)))
        parts = list(zip(self.case.shares, self.case.weights))
        self.start = {name: sum((share * weights[name] for share, weights in parts), Fraction(0)) for name in self.names}
        self._read_decision()
        self.updates = Updates(self.case, calls)
        self.states = [*self.all_states()]
        self._compare_weights()
        self.weights = self._maybe("weights", read_weights) if len(self.names) <= MOST_SETS else None
        self.bounds = self._maybe("bounds", read_bounds) if len(self.names) <= MOST_BOUNDS and not self.is_staged else None
        self.evidence = None if self.is_staged else self._maybe("evidence", read_evidence, *self.priority)

    # ---- the calls

    def ask(self, words: List[str], case: str) -> str:
        """Returns the text that a command prints. `Refused`: the command is refused."""
        return take_answer(words[0], *self.calls.run(words, case))

    def _read(self, words: List[str], read: Callable[[Report], Found]) -> Found:
        return read_whole(words[0], self.ask(words, self.canonical), dict(zip(self.case.names, self.case.names)), read)

    def _maybe(self, command: str, read: Callable[[Report], Found], *words: str) -> Union[Found, Refused]:
        """Returns what a report says, or the refusal."""
        try:
            return self._read([command, *words], read)
        except Refused as refused:
            return refused

    # ---- the case

    def _read_canonical(self) -> Canonical:
        """Returns the case of the canonical text, which must be its own canonical text."""
        case = read_canonical(self.canonical)
        if self.ask(["canon"], self.canonical) != self.canonical:
            raise BadAnswer("the text of canon is not the canonical text of its own case")
        return case

    def _compare_with_given(self, form: str, alpha: Optional[str]) -> None:
        """Makes sure that the canonical text denotes what the user gave, as a reviewer's script reads both. Of stages only those of the
        text form are compared."""
        script = _reviewer.loaded("check_evidence")
        given = self.given.encode("utf-8", "surrogateescape").decode("latin-1")
        before, staging = parted(given) if form == "text" else (given, self.staging)
        if form == "json" and self.is_staged:
            return
        try:
            case, same = script.case_of(before.encode("latin-1"), form, alpha), script.read_case(self.case.before)
            stages, own = ([_values_of(lines) for lines in listed] for listed in (staging, self.staging))
        except script.Stop as stop:
            raise BadAnswer(f"the program takes a case that check_evidence.py refuses: {stop.args[1].strip()}") from None
        if case != same or stages != own:
            raise BadAnswer("the text of canon is that of another case")

    # ---- the decision

    def _read_decision(self) -> None:
        """Reads the decision, and which names it rejects in which order."""
        words = ["stages"] if self.is_staged else ["test", *self.priority]
        self.report = self.ask(words, self.canonical)
        names = dict(zip(self.names, self.names))
        self.staged: Optional[Stages] = None
        self.decision: Optional[Decision] = None
        if self.is_staged:
            self.staged = read_whole("stages", self.report, names, read_stages)
            self.order = [it.name for look in self.staged.arrivals for it in look.rejections]
            arrived = [(words[1], int(words[2]), Fraction(words[3])) for words in self.staging if words[0] == "arrive"]
            if [(look.name, look.stage, look.p) for look in self.staged.arrivals] != arrived:
                raise BadAnswer("the report of stages has other looks than the case")
        else:
            self.decision = read_whole("test", self.report, names, read_decision)
            self.order = [step.name for step in self.decision.steps]
            if {it.name: it.p for it in self.tested} != self.case.p:
                raise BadAnswer("the report of test has other p-values than the case")
        if (self.staged or self._decided).alpha != self.alpha:
            raise BadAnswer("the report has another level than the case")
        self.steps = {name: n for n, name in enumerate(self.order, 1)}

    @property
    def _decided(self) -> Decision:
        """The decision on single p-values."""
        if self.decision is None:
            raise BadAnswer("the case has stages")
        return self.decision

    @property
    def tested(self) -> Tuple[Tested, ...]:
        """What was tested of single p-values: the rejected ones in their order, and the others."""
        return self._decided.steps + self._decided.kept

    @property
    def rejected(self) -> Tuple[str, ...]:
        """The rejected names, in the order of the hypotheses."""
        return (self.staged or self._decided).rejected

    # ---- the graphs

    def all_states(self) -> Iterator[Union[State, Refused]]:
        """Yields the graph before the first rejection and after each; of a graph of many hypotheses the first one alone."""
        for n in range(len(self.order) + 1 if len(self.names) <= MOST_PICTURES else 1):
            yield self._state(self.order[:n])

    def _state(self, removed: List[str]) -> Union[State, Refused]:
        """Returns the graph once some hypotheses are removed. If the proved call refuses to print it, returns its refusal."""
        try:
            found = self.updates.after(removed)
        except Refused as refused:
            return refused
        p = None if self.case.p is None else {self.tags[name]: value for name, value in self.case.p.items()}
        drawn = Drawn(list(self.tags.values()), self.alpha, p, [it.renamed(self.tags) for it in found.components])
        return State(removed, found.weights, drawn)

    def _compare_weights(self) -> None:
        """Compares the weights of the case and of the decision with those of the graphs, step by step."""
        wanted: List[Mapping[str, Fraction]]
        if self.staged is not None:
            wanted = [{it.name: it.weight} for look in self.staged.arrivals for it in look.rejections]
        else:
            last = {step.name: step.weight for step in self._decided.kept}
            wanted = [*({step.name: step.weight} for step in self._decided.steps), last]
        for found, known in [(self.states[0], self.start), *zip(self.states, wanted)]:
            if not isinstance(found, Refused) and any(found.weights[name] != weight for name, weight in known.items()):
                raise BadAnswer("the weights of the decision are not those of the graph")

    # ---- the closed test

    def rejecting(self, weights: Mapping[str, Fraction]) -> List[str]:
        """Returns the members by which the local test rejects a set with these weights."""
        if self.staged is None:
            p = self.case.p or {}
            return [name for name, weight in weights.items() if weight > 0 and p[name] <= weight * self.alpha]
        values = [(look.name, look.p, self.case.level_of_stage(look.name, look.stage, weights[look.name]))
                  for look in self.staged.arrivals if weights.get(look.name)]
        return [name for name in weights if any(look == name and 0 < level and p <= level for look, p, level in values)]

    def closed(self, sets: Weights, order: Sequence[FrozenSet[str]]) -> Dict[FrozenSet[str], bool]:
        """Returns whether the closed test rejects each set; larger sets come first. It must reject what the report says."""
        rejected: Dict[FrozenSet[str], bool] = {}
        for members in order:
            above = [members | {name} for name in self.names if name not in members]
            rejected[members] = bool(self.rejecting(sets.weights[members])) and all(rejected[it] for it in above)
        if tuple(name for name in self.names if rejected[frozenset([name])]) != self.rejected:
            raise BadAnswer("the weights of all sets do not lead to the decision")
        if isinstance(self.bounds, Bounds) and any((self.bounds.bounds[members] > 0) != rejected[members] for members in order):
            raise BadAnswer("the weights of all sets do not lead to the bounds")
        return rejected

    def rejections(self) -> Dict[str, Tuple[int, Settled]]:
        """Returns the look, from 1, that led to the rejection of each hypothesis of a staged case, and the rejection."""
        looks = self.staged.arrivals if self.staged else ()
        return {it.name: (n, it) for n, look in enumerate(looks, 1) for it in look.rejections}


def words_of(form: str, alpha: Optional[str]) -> List[str]:
    """Returns the options of a command that reads a case in a form."""
    return [*(["--form", form] if form != "text" else []), *(["--alpha", alpha] if alpha is not None else [])]


def parted(text: str) -> Tuple[str, List[List[str]]]:
    """Returns the part of a text before its stages, and the words of the lines of its stages."""
    lines = text.split("\n")
    at = next((n for n, line in enumerate(lines) if re.match("[ \t]*stages[ \t]", line)), len(lines))
    words = [re.sub("\r\\Z", "", line).split() for line in lines[at:]]
    return "\n".join(lines[:at]) + ("\n" if at < len(lines) else ""), [it for it in words if it and it[0][0] != "#"]


def _values_of(words: List[str]) -> List[object]:
    """Returns the words of a line of stages, with values in place of numerals. A name stays, also one that looks like a numeral."""
    named = 1 if words[0] == "stages" else 2
    numeral = _reviewer.loaded("check_evidence").numeral
    return [*words[:named], *(numeral(word, f"the line {words[0]}") for word in words[named:])]
