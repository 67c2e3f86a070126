"""The graph after rejections, read off proved calls: this package updates no graph.

The call `welungad_update` of the library prints it whole. An older library and the program have no such call. Then the weights are
those that `test` prints once the hypotheses are removed, and the edges of at most 16 hypotheses are read off it too, without their
infinitely small parts. In a graph by itself in which all hypotheses begin with the same weight, let w be the weights after the
removals, and v those after one more hypothesis j is removed. Then the edge from j to k is (v_k - w_k) / w_j.
"""
from fractions import Fraction
from typing import Any, Callable, Dict, NamedTuple, Optional, Sequence, Tuple

from ._case import Canonical
from ._refusals import BadAnswer
from ._reports import read_decision, read_update, read_whole, take_answer
from ._results import Component, Number, Updated

MOST_READ = 16

Answer = Tuple[int, bytes]


class Calls(NamedTuple):
    """How to make proved calls: a command on a case, the update of a graph if there is such a call, and the check of evidence for a case."""

    run: Callable[[Sequence[str], str], Answer]
    update: Optional[Callable[[str, Sequence[int]], Optional[Answer]]] = None
    check: Optional[Callable[[str, str], Answer]] = None


class Updates:
    """The graphs of a case after the removal of hypotheses. `is_whole` is false if edges lack their infinitely small parts."""

    def __init__(self, case: Canonical, calls: Calls):
        self._case, self._calls = case, calls
        self._known: Dict[Tuple[Any, ...], Dict[str, Fraction]] = {}
        self.is_whole = calls.update is not None and calls.update(case.text, []) is not None

    def after(self, removed: Sequence[str]) -> Updated:
        """Returns what is left of the graph once some hypotheses are removed, in this order: without components if there is no call for
        them and they have more than 16 hypotheses. `Refused`: the proved call refuses, since a number is too wide."""
        weights = self.weights(removed)
        if not removed:
            return Updated(self._case.components, weights)
        printed = self._printed(removed)
        if printed is None:
            few = len(self._case.names) <= MOST_READ
            return Updated(tuple(self._component(at, removed) for at in range(len(self._case.shares))) if few else (), weights)
        if printed.weights != weights:
            raise BadAnswer(f"what answered prints other weights after {len(removed)} rejections by its two calls")
        return Updated(tuple(it.of_share(share) for it, share in zip(printed.components, self._case.shares)), weights)

    def weights(self, removed: Sequence[str]) -> Dict[str, Fraction]:
        """Returns the weights of the remaining hypotheses over all components."""
        return self._kept(removed)

    def _printed(self, removed: Sequence[str]) -> Optional[Updated]:
        """Returns what the call of the library prints; nothing if there is none."""
        if self._calls.update is None:
            return None
        found = self._calls.update(self._case.text, [self._case.names.index(name) for name in removed])
        if found is None:
            return None
        labels = {name: name for name in self._case.names if name not in removed}
        printed = read_whole("update", take_answer("update", *found), labels, read_update)
        if len(printed.components) != len(self._case.shares):
            raise BadAnswer(f"what answered updates {len(printed.components)} graphs, and the case has {len(self._case.shares)}")
        return printed

    def _kept(self, removed: Sequence[str], component: Optional[int] = None, weights: str = "") -> Dict[str, Fraction]:
        """Returns the weights that `test` prints for what remains: of all components, or of one with other weights to begin with."""
        key = (component, weights, frozenset(removed))
        if key not in self._known:
            names = self._case.names
            p = {name: "0" if name in removed else "1" for name in names}
            text = take_answer("test", *self._calls.run(["test"], self._case.of_p(p, component=component, weights=weights)))
            decision = read_whole("test", text, dict(zip(names, names)), read_decision)
            if {it.name for it in decision.steps} != {*removed}:
                raise BadAnswer(f"what answered rejects {list(decision.rejected)}, and the p-values of {list(removed)} are 0")
            self._known[key] = {it.name: it.weight for it in decision.kept}
        return self._known[key]

    def _component(self, at: int, removed: Sequence[str]) -> Component:
        """Returns what is left of a component, read off `test`."""
        case, count = self._case, len(self._case.names)
        same = " ".join([str(Fraction(1, count))] * count)
        now = self._kept(removed, at, same)
        edges: Dict[Tuple[str, str], Number] = {}
        for start, weight in now.items() if len(now) > 1 else ():
            after = self._kept([*removed, start], at, same)
            edges.update({(start, end): (after[end] - now[end]) / weight for end in after if after[end] != now[end]})
        if len(case.shares) == 1:
            weights = self._kept(removed, None if case.shares[at] == 1 else at)
        else:
            # A hypothesis may have no weight in one of several components. So they begin with the mean of their own weights and the same
            # ones, and what the latter give is taken off: weights after removals are sums over the weights before.
            mean = " ".join(str((weight + Fraction(1, count)) / 2) for weight in case.weights[at].values())
            weights = {name: 2 * weight - now[name] for name, weight in self._kept(removed, at, mean).items()}
        return Component(case.shares[at], dict(weights), edges)
