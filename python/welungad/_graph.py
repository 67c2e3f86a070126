"""Graphs: a weighted graph over hypotheses, and what the proved call answers about it."""
import functools
import os
import re
import warnings
from fractions import Fraction
from typing import Any, Callable, Dict, List, Mapping, NamedTuple, Optional, Sequence, Tuple, TypeVar, Union

from ._beside import BesideWarning, ZeroWarning, beside, beside_fraction
from ._hypotheses import (frame_labels, frame_rows, hold_labels, in_order, is_frame, names_for, order_of, rows_of, values_of)
from ._calls import Text, bytes_of, kind_of, run, update
from ._case import Canonical, read_canonical
from ._commands import PRIORITIES
from ._numbers import LARGEST_DENOMINATOR, Given, double_in, expression, has_many_digits, known_value, numeral, value_of
from ._page import Facts, page_of
from ._picture import Drawn, picture_of
from ._places import place_of, sum_above, sum_text
from ._refusals import BadAnswer, Refused
from ._reports import (Report, check_answer, read_bounds, read_decision, read_evidence, read_simes, read_stages, read_weights, read_whole,
                       take_answer)
from ._results import (Answer, Bounds, Checked, Component, Decision, Evidence, Page, Picture, Simes, Stages, Step, Tested, Trials, Weights,
                       answered)
from ._staged import Arriving, Plan, looks_of, plan_of, stage_keys
from ._study import Study
from ._trials import decide_rows, rows_of_p, ties_of
from ._updates import Calls, Updates

ALPHA = "0.025"
_ANY_ALPHA = "1/40"
_NOT_OF_THE_GRAPH = ("p", "stages", "spend", "table", "arrive")

Found = TypeVar("Found", bound=Answer)


class Line(NamedTuple):
    """A line of a case, and what a user calls what it holds."""

    text: str
    place: str


class Case(NamedTuple):
    """The text of a case, the places of its lines, and the level and the p-values in it, which the answer has to have too."""

    text: str
    places: List[str]
    alpha: Optional[Fraction]
    p: Optional[Dict[str, Optional[Fraction]]]


class Part(NamedTuple):
    """A graph as it is handed in: its share, its weights in the order of the hypotheses, and its edges by rows, all as texts."""

    share: str
    weights: List[str]
    edges: List[List[str]]


# ---- what a user gives


def _edge_place(start: str, end: str) -> str:
    return f"the edge from {start!r} to {end!r}"


def _row(given: Any, start: str, labels: Sequence[str]) -> List[str]:
    """Returns the edges from a hypothesis, as texts in the order of the hypotheses; what a dict does not have is 0."""
    argument = f"the edges from {start!r}"
    if isinstance(given, Mapping):
        hold_labels(list(given), argument)
        order_of([*given, *(label for label in labels if label not in given)], labels, argument)
        values: List[Any] = [given.get(label, 0) for label in labels]
    else:
        values = in_order(given, labels, argument)
    return [expression(value, _edge_place(start, end)) for end, value in zip(labels, values)]


def _by_pairs(given: Mapping[Any, Any]) -> Dict[Any, Dict[Any, Any]]:
    """Returns edges by their two hypotheses as edges by the first and then by the second."""
    rows: Dict[Any, Dict[Any, Any]] = {}
    for pair, value in given.items():
        if not isinstance(pair, tuple) or len(pair) != 2:
            raise TypeError(f"edges: {pair!r} is not a pair of hypotheses, as the other keys are")
        rows.setdefault(pair[0], {})[pair[1]] = value
    return rows


def _frame_rows(given: Any, labels: Sequence[str]) -> List[List[Any]]:
    """Returns the rows of a frame of edges in the order of the hypotheses."""
    rows, columns = frame_labels(given)
    found = frame_rows(given, "edges")
    if (rows is None) != (columns is None):
        raise ValueError(f"edges: the {'columns' if rows is None else 'rows'} have labels, and the others have none")
    if rows is None or columns is None:
        return found
    from_places, to_places = order_of(rows, labels, "the rows of edges"), order_of(columns, labels, "the columns of edges")
    return [[found[i][j] for j in to_places] for i in from_places]


def _edges(given: Any, labels: Sequence[str]) -> List[List[str]]:
    """Returns the edges by rows, as texts, both in the order of the hypotheses."""
    if isinstance(given, Mapping):
        rows = _by_pairs(given) if any(isinstance(key, tuple) for key in given) else given
        order_of([*rows, *(label for label in labels if label not in rows)], labels, "edges")
        return [_row(rows.get(label, {}), label, labels) for label in labels]
    found = _frame_rows(given, labels) if is_frame(given) else rows_of(given, "edges")
    if len(found) != len(labels):
        raise ValueError(f"edges has {len(found)} rows, and there are {len(labels)} hypotheses")
    return [_row(row, label, labels) for label, row in zip(labels, found)]


def _labels(weights: Any, edges: Any, names: Any) -> Tuple[str, ...]:
    """Returns the labels: those that are given, else those of the weights, else those of a frame of edges, else H1, H2, .."""
    found = values_of(weights, "weights")
    if names is not None:
        given = values_of(names, "names")
        if given.labels is not None:
            raise TypeError("names is a list of labels in the order of the hypotheses, and has no labels itself")
        return hold_labels(given.values, "names")
    if found.labels is not None:
        return hold_labels(found.labels, "weights")
    rows = frame_labels(edges)[0] if is_frame(edges) else None
    if rows is not None:
        return hold_labels(rows, "the rows of edges")
    return tuple(f"H{number}" for number in range(1, len(found.values) + 1))


def _numerals(given: Any, labels: Sequence[str], argument: str, one: str) -> List[str]:
    """Returns the numbers of an argument by hypothesis, as texts in the order of the hypotheses."""
    return [numeral(value, f"{one} of {label!r}") for label, value in zip(labels, in_order(given, labels, argument))]


def _priority_words(priority: str) -> List[str]:
    if not isinstance(priority, str):
        raise TypeError(f"priority is a text, and not of type {kind_of(priority)}")
    if priority not in PRIORITIES:
        raise ValueError(f"priority is one of {', '.join(PRIORITIES)}, and not {priority!r}")
    return [] if priority == "first" else ["--priority", priority]


def _warn_of_ties(given: Mapping[str, Any], kept: Sequence[Tested], alpha: Fraction, where: str = "") -> None:
    """Warns of each hypothesis that is retained since its p-value is a double just above a small fraction that is its level."""
    for it in kept:
        double, level = double_in(given[it.name]), it.weight * alpha
        found = beside_fraction(double, level) if double is not None else None
        if found is not None and it.p > level:
            warnings.warn(f"{where}the p-value of {it.name!r} is {double!r}, {found}, which is its level: if {level} was meant, it is "
                          "rejected", BesideWarning, stacklevel=3)


def _warn_of_zeros(values: Mapping[str, Fraction]) -> None:
    """Warns of p-values that are 0, which no test gives."""
    found = [place for place, p in values.items() if p == 0]
    if found:
        warnings.warn(f"the p-value of {', '.join(found)} is 0, as one below all doubles is: it rejects at every level above 0", ZeroWarning,
                      stacklevel=3)


class Graph:
    """A weighted graph over hypotheses, for graphical multiple tests.

    >>> graph = Graph({"low dose": "1/2", "high dose": "1/2"}, [[0, 1], [1, 0]])
    >>> graph.test({"high dose": 0.02, "low dose": 0.01}, alpha=0.025).rejected
    ('low dose', 'high dose')

    `weights` has the part of the level that each hypothesis begins with: numbers from 0 to 1 that sum to at most 1.
    `edges` has the part of its weight that a hypothesis passes to another when it is rejected: numbers from 0 to 1 that sum to at
    most 1 for each hypothesis, or texts with the infinitesimal `\\epsilon`, such as "1-\\epsilon". It is

    - a square matrix: a list of rows, an array of numpy, or a frame of pandas; row i is what hypothesis i passes on; or
    - a dict of dicts, {from: {to: number}}, or a dict by pairs, {(from, to): number}; an edge that it lacks is 0.

    `names` are the labels of the hypotheses: any texts, all different. If they are left out, they are the keys of `weights`, or the
    labels of the rows of `edges`, or else H1, H2 and so on. At most 64 hypotheses.

    What is by hypothesis (weights, p-values, levels) is a list, a tuple or an array in the order of the hypotheses, or a dict,
    a series of pandas or a named tuple with their labels in any order. A number is a Fraction, a Decimal, an int, a text such as
    "0.025" or "1/40", or a double from 0 to 1, which is read as `as_exact` says.

    No method decides anything itself: each hands the graph to proved calls, and returns exact numbers with the user's labels.

    `TypeError`, `ValueError`: an argument has a wrong type, or cannot be matched with the hypotheses once and wholly; the message
    names the argument and the place. `Refused`: the proved call refuses the case. `BadAnswer`: what answered is not the library.
    `OSError`: the library is not found.
    """

    def __init__(self, weights: Any, edges: Any, names: Any = None):
        labels = _labels(weights, edges, names)
        part = Part("1", _numerals(weights, labels, "weights", "the weight"), _edges(edges, labels))
        self._begin(labels, [part])

    @classmethod
    def entangled(cls, graphs: "Sequence[Graph]", shares: Sequence[Given]) -> "Graph":
        """Returns the entangled graph of several graphs over the same hypotheses, each with its share of the level.

        `shares` are numbers from 0 to 1 that sum to at most 1, one for each graph. At most 8 graphs."""
        if not isinstance(graphs, (list, tuple)) or not graphs or not all(isinstance(it, Graph) for it in graphs):
            raise TypeError("graphs is a list of graphs, at least one")
        parts = list(graphs)
        found = values_of(shares, "shares")
        if found.labels is not None:
            raise TypeError("shares is a list in the order of the graphs, and has no labels")
        texts = [numeral(share, f"share {number}") for number, share in enumerate(found.values, 1)]
        if len(texts) != len(parts):
            raise ValueError(f"shares has {len(texts)} values, and there are {len(parts)} graphs")
        for number, graph in enumerate(parts, 1):
            if graph.names != parts[0].names:
                raise ValueError(f"graph {number} has other hypotheses than graph 1, or another order of them")
            if len(graph._parts) != 1:
                raise ValueError(f"graph {number} is entangled already")
        whole = cls.__new__(cls)
        whole._begin(parts[0].names, [graph._parts[0]._replace(share=share) for graph, share in zip(parts, texts)])
        return whole

    def _begin(self, labels: Tuple[str, ...], parts: List[Part]) -> None:
        """Lets the proved call read the graph, and holds what it read to what was given."""
        self._labels = labels
        self._names = names_for(labels)
        self._by_name = dict(zip(self._names, labels))
        self._by_label = dict(zip(labels, self._names))
        self._parts = parts
        self._lines = [line for part in parts for line in self._lines_of(part, len(parts) == 1)]
        case = self._case(_ANY_ALPHA)
        self._canonical = self._canon(case)
        self._hold(self._canonical)

    # ---- what the graph is

    @property
    def names(self) -> Tuple[str, ...]:
        """The labels of the hypotheses, in their order."""
        return self._labels

    @property
    def program_names(self) -> Dict[str, str]:
        """The program's name of each label, as it is in the texts `case` and `report` of a result."""
        return dict(self._by_label)

    @property
    def components(self) -> Tuple[Component, ...]:
        """The graphs with their shares, weights and edges, as the proved call read them: one, unless this graph is entangled."""
        return tuple(it.renamed(self._by_name) for it in self._canonical.components)

    def __len__(self) -> int:
        return len(self._labels)

    def __repr__(self) -> str:
        return f"<Graph of {', '.join(map(repr, self._labels))}>"

    def _repr_html_(self) -> str:
        return self.draw().svg

    # ---- the case

    def _lines_of(self, part: Part, alone: bool) -> List[Line]:
        """Returns the lines of a graph; an edge that is 0 has none."""
        lines = [] if alone and part.share == "1" else [Line(f"component {part.share}", "shares")]
        lines.append(Line(" ".join(["weights", *part.weights]), "weights"))
        for i, row in enumerate(part.edges):
            for j, edge in enumerate(row):
                if value_of(edge) != 0:
                    lines.append(Line(f"edge {self._names[i]} {self._names[j]} {edge}", _edge_place(self._labels[i], self._labels[j])))
        return lines

    def _case(self, alpha: str, p: Optional[List[str]] = None, stages: Sequence[Line] = ()) -> Case:
        """Returns a case of this graph at a level, with p-values or stages."""
        lines = [Line(f"alpha {alpha}", "alpha"), Line(" ".join(["hypotheses", *self._names]), "names")]
        if p is not None:
            lines.append(Line(" ".join(["p", *p]), "p"))
        lines += [*self._lines, *stages]
        values = dict(zip(self._labels, map(value_of, p))) if p is not None else None
        return Case("".join(f"{line.text}\n" for line in lines), [line.place for line in lines], value_of(alpha), values)

    def _case_of_p(self, p: Any, alpha: Given) -> Case:
        texts = _numerals(p, self._labels, "p", "the p-value")
        return self._case(numeral(alpha, "alpha"), texts)

    def _canon(self, case: Case) -> Canonical:
        return read_canonical(self._ask(["canon"], case))

    def _hold(self, found: Canonical) -> None:
        """Refuses a reading of the graph that is not the graph that was given."""
        if found.names != self._names or len(found.weights) != len(self._parts):
            raise BadAnswer("what answered read a graph of other hypotheses than those that were given")
        for part, share, weights, edges in zip(self._parts, found.shares, found.weights, found.edges):
            given = {(start, end): part.edges[i][j] for i, start in enumerate(self._names) for j, end in enumerate(self._names)}
            same = value_of(part.share) == share and list(map(value_of, part.weights)) == list(weights.values())
            if not same or any(edges.get(pair, 0) != value_of(edge) for pair, edge in given.items() if value_of(edge) is not None):
                raise BadAnswer("what answered read other shares, weights or edges than those that were given")

    # ---- the call

    def _ask(self, words: List[str], case: Case, proof: Text = b"") -> str:
        """Makes a call, and returns the whole text of its answer. What is refused names the argument."""
        status, text = run(words, case.text, proof)
        try:
            return take_answer(words[0], status, text)
        except Refused as refused:
            raise Refused(refused.status, refused.line, self._where(refused.line, case), refused.command) from None

    def _answer(self, words: List[str], case: Case, read: Callable[[Report], Found]) -> Found:
        """Makes a call, and returns its result with the user's labels."""
        text = self._ask(words, case)
        result = answered(read_whole(words[0], text, self._by_name, read), words, text, self._labels, case.text)
        if isinstance(result, (Decision, Stages)) and result.alpha != case.alpha:
            raise BadAnswer(f"what answered decided at the level {result.alpha}, and {case.alpha} was given")
        if isinstance(result, Decision) and {it.name: it.p for it in result.steps + result.kept} != case.p:
            raise BadAnswer("what answered decided on other p-values than those that were given")
        return result

    def _where(self, line: str, case: Case) -> str:
        """Returns what a user calls the place that a refusal names, with what a sum above its bound was read as."""
        place = place_of(line, case.places, self._by_name)
        hint = self._hint_of(line, case)
        if hint:
            return f"{place}{hint}"
        found = sum_above(line)
        if found is None:
            return place
        kind, name, component = found
        if kind == "share":
            return place + sum_text([part.share for part in self._parts])
        part = self._parts[component]
        return place + sum_text(part.weights if kind == "weight" else part.edges[self._names.index(name)])

    def _hint_of(self, line: str, case: Case) -> str:
        """Returns what the place of a refusal needs: of a long number the hypothesis that has it, of a level or what is spent a way out."""
        numbered = re.match(r"limit: line (\d+): digits$", line)
        words = case.text.split("\n")[int(numbered[1]) - 1].split(" ") if numbered else []
        if words[:1] in (["p"], ["weights"]):
            long = next((label for label, word in zip(self._labels, words[1:]) if has_many_digits(word)), None)
            return f" of {long!r}" if long is not None else ""
        if line == "limit: case: part alpha" and case.alpha is not None:
            near = case.alpha.limit_denominator(LARGEST_DENOMINATOR)
            return f", which is beside {near}: was {near} meant?" if abs(near - case.alpha) < case.alpha / 10**9 else ""
        if re.match("limit: case: part spend of ", line):
            return ", which are finer fractions of its level than a case has: give them by weight, as {weight: levels}"
        return ""

    # ---- the commands

    def test(self, p: Any, alpha: Given = ALPHA, priority: str = "first") -> Decision:
        """Decides the graphical test: which hypotheses are rejected, in which order, and the adjusted p-values.

        `p` has a p-value for each hypothesis, from 0 to 1. `alpha` is the level, above 0 and at most 1: a fraction of whole numbers up to 10,000.
        `priority` says which hypothesis is rejected first of several that may be: the `first` or the `last` by position, or the one
        with the least `ratio` of p-value and weight. The rejected ones are the same.

        `BesideWarning`: a hypothesis is retained, since its p-value is a double that is a few units in the last place above a
        small fraction that is its level. `ZeroWarning`: a p-value is 0."""
        words, values = ["test", *_priority_words(priority)], in_order(p, self._labels, "p")
        decision = self._answer(words, self._case_of_p(values, alpha), read_decision)
        _warn_of_ties(dict(zip(self._labels, values)), decision.kept, decision.alpha)
        _warn_of_zeros({repr(it.name): it.p for it in decision.steps + decision.kept})
        return decision

    def test_many(self, rows: Any, alpha: Given = ALPHA) -> Trials:
        """Decides many rows of p-values, such as simulated trials. A row that has no decision is named by its number.

        `rows` is a list with a row of p-values for each trial, an array of numpy with a row a trial, or a frame of pandas with a
        column for each hypothesis. A row that is too wide, or has a double without a reading, has no decision, and the others have
        theirs. `TypeError`, `ValueError`: a row has a wrong type or a wrong number of values; the message has its number, from 1.
        `BesideWarning` is that of `test`, for the first such p-value."""
        level = numeral(alpha, "alpha")
        case = self._case(level)
        self._canon(case)
        given, decide = rows_of_p(rows, self._labels), functools.partial(self._decided, level)
        found = decide_rows(case.text, given, self._labels, decide)
        ties = list(ties_of(given, found, known_value(level, "alpha"), decide))
        if ties:
            more = f", and {len(ties) - 1} more such p-values" if ties[1:] else ""
            warnings.warn(f"{ties[0]}: if the fraction was meant, it is rejected{more}", BesideWarning, stacklevel=2)
        return found

    def _decided(self, alpha: str, p: List[str]) -> Decision:
        return self._answer(["test"], self._case(alpha, p), read_decision)

    def weights(self) -> Weights:
        """Returns the weights of all intersections, of at most 16 hypotheses, as fractions of the level."""
        return self._answer(["weights"], self._case(_ANY_ALPHA), read_weights)

    def bounds(self, p: Any, alpha: Given = ALPHA) -> Bounds:
        """Returns a lower bound on the number of false hypotheses in each set of at most 16 hypotheses. Of 16 hypotheses with
        epsilon it may take some seconds."""
        return self._answer(["bounds"], self._case_of_p(p, alpha), read_bounds)

    def simes(self, p: Any, alpha: Given = ALPHA) -> Simes:
        """Returns what the closed test of weighted Simes tests bounds and rejects, of at most 16 hypotheses."""
        return self._answer(["simes"], self._case_of_p(p, alpha), read_simes)

    def evidence(self, p: Any, alpha: Given = ALPHA, priority: str = "first") -> Evidence:
        """Returns evidence, in version 2, for the decision. Its `text` is the document that `check` and the tools take."""
        return self._answer(["evidence", *_priority_words(priority)], self._case_of_p(p, alpha), read_evidence)

    def check(self, p: Any, proof: Union[Text, Evidence], alpha: Given = ALPHA) -> Checked:
        """Checks whether a proof is evidence for the rejections of this graph with these p-values at this level.

        `proof` is what `evidence` returned, or the text of a document, in which the hypotheses have the program's names.

        `ValueError`: in the evidence the program's names stand for other labels."""
        case = self._case_of_p(p, alpha)
        if isinstance(proof, Evidence):
            self._hold_labels(proof)
        given = bytes_of(proof.text if isinstance(proof, Evidence) else proof, "proof")
        words = ["check", "proof"]
        text = self._ask(words, case, given)
        return answered(check_answer(text, given, self._by_name), words, text, self._labels, case.text)

    def _hold_labels(self, proof: Evidence) -> None:
        """Refuses evidence whose document has a name for another label than this graph, and such as was made by hand. That for a text, of
        which there is no case, has names as labels."""
        if not proof.names or proof.text != proof.report:
            raise ValueError("proof is evidence that was made or changed by hand: give the text of the document")
        found, of_text = dict(zip(names_for(proof.names), proof.names)), dict(zip(self._names, self._names))
        if found != self._by_name and (proof.case or found != of_text):
            raise ValueError(f"proof is evidence about other hypotheses: {', '.join(map(repr, proof.names))}")

    def steps(self, p: Any, alpha: Given = ALPHA, priority: str = "first") -> Tuple[Step, ...]:
        """Returns the graph before the first rejection and after each one, as the removal of the rejected hypothesis updates it.

        The weights and edges are those that proved calls print. With an older library, which has no call for the edges, they are read
        off the weights of other calls, without their infinitely small parts; of more than 16 hypotheses there are then no components,
        and a `UserWarning` says so. `Refused`: a number of an updated graph is too wide."""
        decision, updates = self.test(p, alpha, priority), Updates(self._canonical, Calls(run, update))
        steps = []
        for count in range(len(decision.steps) + 1):
            removed = tuple(it.name for it in decision.steps[:count])
            found = updates.after([self._by_label[label] for label in removed])
            weights = {self._by_name[name]: weight for name, weight in found.weights.items()}
            if count < len(decision.steps) and weights[decision.steps[count].name] != decision.steps[count].weight:
                raise BadAnswer(f"what answered prints another weight of {decision.steps[count].name!r} at its rejection than after the removals")
            steps.append(Step(removed, weights, tuple(it.renamed(self._by_name) for it in found.components)))
        if not all(it.components for it in steps):
            warnings.warn("the library is an older one, which prints no edges: of more than 16 hypotheses they are left out after a rejection",
                          stacklevel=2)
        return tuple(steps)

    def stages(self, levels: Any, looks: Any = (), alpha: Given = ALPHA, at: Any = None, stages: Any = None) -> Stages:
        """Decides a staged trial, in which each hypothesis spends its level over several stages, as its p-values arrive.

        `levels` has for each hypothesis the levels of its stages, each from 0 on: a list, in which they count at the weight `at`
        and in proportion at other weights; or a dict {weight: list}, in which each list counts from its weight on. The levels of
        a hypothesis sum to at most its weight times alpha. As a frame of pandas it has the labels of the hypotheses on its rows
        or on its columns, and not on both; the others are the stages. Labels of stages other than 1, 2, .. are taken only with
        `stages`, which has them from the first stage to the last. At most 12 stages.
        `looks` are the p-values in the order in which they arrive: triples of a label, a stage and a p-value, or a frame with the
        columns hypothesis, stage and p. A stage is a number from 1, or one of `stages`. `at` is a weight above 0 and at most 1 for all hypotheses, or has one for each. It may be
        left out if each hypothesis begins with the weight 1 or 0.

        `BesideWarning`: a p-value of a retained hypothesis is a double that is a few units in the last place above a small fraction
        that is its level."""
        result, arrivals = self._staged(levels, looks, alpha, at, stages)
        _warn_of_zeros({f"look {number}": it.p for number, it in enumerate(result.arrivals, 1)})
        self._warn_of_staged_ties(result, arrivals)
        return result

    def _staged(self, levels: Any, looks: Any, alpha: Given, at: Any, stages: Any) -> Tuple[Stages, List[Arriving]]:
        """Makes the call of `stages`, and returns its result with the looks."""
        text = numeral(alpha, "alpha")
        if known_value(text, "alpha") <= 0:
            # of such a level there are no fractions, and the proved call refuses it
            self._canon(self._case(text))
        keys = stage_keys(stages)
        plan: Plan = plan_of(levels, self._labels, text, at, self._begin_weights(), keys)
        lines = [Line(f"stages {plan.stages}", "levels")]
        lines += [Line(" ".join([word, self._by_label[label], *words]), f"the levels of {label!r}") for word, label, words in plan.lines]
        arrivals = looks_of(looks, self._labels, keys)
        lines += [Line(f"arrive {self._by_label[it.label]} {it.stage} {it.p}", f"look {number}") for number, it in enumerate(arrivals, 1)]
        result = self._answer(["stages"], self._case(text, stages=lines), read_stages)
        if [(it.name, it.stage, it.p) for it in result.arrivals] != [(it.label, it.stage, value_of(it.p)) for it in arrivals]:
            raise BadAnswer("what answered decided on other looks than those that were given")
        return result, arrivals

    def _begin_weights(self) -> Dict[str, Fraction]:
        """Returns the weight with which each hypothesis begins, over all components."""
        parts = list(zip(self._canonical.shares, self._canonical.weights))
        return {label: sum((share * weights[name] for share, weights in parts), Fraction(0)) for name, label in self._by_name.items()}

    def _warn_of_staged_ties(self, result: Stages, arrivals: List[Arriving]) -> None:
        """Warns of each look of a retained hypothesis whose p-value is a double just above its level at the last weight of the hypothesis."""
        near = [(number, it) for number, it in enumerate(arrivals, 1) if it.double is not None and it.label not in result.rejected
                and beside(it.double) is not None]
        if not near:
            return
        case = read_canonical(self._ask(["canon"], Case(result.case, [], None, None)))
        weights = Updates(self._canonical, Calls(run)).weights([self._by_label[label] for label in result.rejected])
        for number, it in near:
            name = self._by_label[it.label]
            level = case.level_of_stage(name, it.stage, weights[name])
            found = beside_fraction(it.double, level) if it.double is not None else None
            if found is not None and found.units > 0:
                warnings.warn(f"the p-value of look {number} is {it.double!r}, {found}, which is the level of {it.label!r} at stage {it.stage}: if "
                              f"{level} was meant, it is rejected", BesideWarning, stacklevel=3)

    def study(self, levels: Any, store: Union[str, "os.PathLike[str]"], alpha: Given = ALPHA, at: Any = None, stages: Any = None) -> Study:
        """Returns a study of a staged trial of this graph, whose looks are kept in a file from run to run.

        The arguments are those of `stages`. The study has the labels of this graph, which are kept beside the file."""
        result, _ = self._staged(levels, (), alpha, at, stages)
        return Study(result.case, store, labels=self._labels, stages=stages)

    def draw(self, decision: Optional[Decision] = None) -> Picture:
        """Returns a picture of the graph, as SVG; with a decision on it, what is rejected is filled and has the number of its step.

        `ValueError`: the decision has other hypotheses, is that of another graph, or was changed: with its p-values, its level and its
        priority this graph does not decide the same again."""
        if decision is None:
            return Picture(picture_of(Drawn(self._labels, None, None, self.components)))
        if not isinstance(decision, Decision):
            raise TypeError(f"decision is a decision, and not of type {kind_of(decision)}")
        if tuple(decision.adjusted) != self._labels:
            raise ValueError("the decision is of other hypotheses than the graph")
        p = {it.name: it.p for it in decision.steps + decision.kept}
        self._hold_decided_again(decision, p)
        steps = {it.name: number for number, it in enumerate(decision.steps, 1)}
        return Picture(picture_of(Drawn(self._labels, decision.alpha, p, self.components), steps))

    def _hold_decided_again(self, decision: Decision, p: Dict[str, Fraction]) -> None:
        """Refuses a decision that this graph does not make from its p-values."""
        for priority in PRIORITIES if set(p) == set(self._labels) else ():
            if self._answer(["test", *_priority_words(priority)], self._case_of_p(p, decision.alpha), read_decision) == decision:
                return
        raise ValueError("decision is not a decision of this graph, or it was changed")

    def report(self, decided: Any, file: Optional[Union[str, "os.PathLike[str]"]] = None, alpha: Optional[Given] = None,
               priority: Optional[str] = None, title: Optional[str] = None, protocol: Optional[str] = None,
               data_cut: Optional[str] = None, author: Optional[str] = None) -> Page:
        """Returns a page about a decision for readers, and writes it to a file if one is named.

        `decided` is what `test` or `stages` of this graph returned, or p-values, which are then tested at `alpha` and by `priority`.
        The page has the decision on each hypothesis, the graph step by step, all intersections of few hypotheses, bounds, what two
        checkers answered, the case, and how to repeat and check the decision; the hypotheses have your labels. What it says of the
        decision is what the proved call prints. `title` is its title; `protocol`, `data_cut` and `author` are lines of it, to be filled in
        by hand if they are left out. It is one HTML file, without scripts, that needs no other file.

        `ValueError`: the decision is not of this graph. `OSError`: the file cannot be written, and stays as it was; or the scripts that
        make the page are not found. `BadAnswer`: the proved call does not print the report of the decision again."""
        if not isinstance(decided, (Decision, Stages)):
            decided = self.test(decided, ALPHA if alpha is None else alpha, "first" if priority is None else priority)
        elif alpha is not None or priority is not None:
            raise TypeError("alpha and priority are given with p-values: a decision has its own")
        for name, text in (("title", title), ("protocol", protocol), ("data_cut", data_cut), ("author", author)):
            if text is not None and not isinstance(text, str):
                raise TypeError(f"{name} is a text, and not of type {kind_of(text)}")
        if file is not None and not isinstance(file, (str, os.PathLike)):
            raise TypeError(f"file is the path of a file, and not of type {kind_of(file)}")
        self._hold_own(decided)
        kind, count = "Staged" if isinstance(decided, Stages) else "Graphical", len(self)
        own = f"{kind} test of {count} {'hypothesis' if count == 1 else 'hypotheses'}"
        page = Page(page_of(decided.case, decided.report, decided.words, self._labels, own if title is None else title,
                            Facts(protocol, data_cut, author)))
        if file is not None:
            page.save(file)
        return page

    def _hold_own(self, decided: Union[Decision, Stages]) -> None:
        """Refuses a decision that is not of this graph, or that was changed. Graphs with the same lines may have other labels."""
        own = self._case(_ANY_ALPHA).text.split("\n")[1:]
        given = [line for line in decided.case.split("\n")[1:] if line.split(" ")[0] not in _NOT_OF_THE_GRAPH]
        if given != own or decided.names != self._labels:
            raise ValueError("decided is not a decision of this graph")
        printed: Answer
        if isinstance(decided, Decision):
            printed = read_whole("test", decided.report, self._by_name, read_decision)
        else:
            printed = read_whole("stages", decided.report, self._by_name, read_stages)
        if printed != decided:
            raise ValueError("decided was changed: it is not what its report says")
