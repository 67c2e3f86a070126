"""Reports: the one function that takes a text for the answer to a call, and the values that the text is read into.

A text is taken only if it is the whole answer to this command for the hypotheses of this case: each line in its place, each set in
its order, each fraction in lowest terms. So no other program and no part of an answer passes for a decision. docs/REPORTS.md has the
reports.
"""
import re
from fractions import Fraction
from functools import partial
from typing import Callable, Dict, FrozenSet, Iterator, List, Mapping, NoReturn, Sequence, Tuple, TypeVar

from ._calls import DONE, LIMIT, MALFORMED, NO, NO_MEMORY, TOO_WIDE, UNREADABLE_WORDS, USAGE
from ._case import fraction, lowest_terms, whole_number
from ._refusals import BadAnswer, Refused
from ._results import (Adjusted, Arrival, Bounds, Checked, Component, Decision, Evidence, Flow, Listed, Number, Quotient, Settled, Simes, Stages,
                       Tested, Updated, Weights)

READ_FAULT, KEEPER_FAULT = 6, 9

_REFUSALS = {USAGE: "usage: ", MALFORMED: "malformed: ", LIMIT: "limit: ", TOO_WIDE: "too wide: ", READ_FAULT: "read fault",
             NO_MEMORY: "no memory", KEEPER_FAULT: "keeper fault"}

# How the answer to each command begins; that of canon by its form.
_BEGINS = {"test": "alpha ", "weights": "weights ", "bounds": "bounds ", "simes": "simes ", "evidence": "evidence ",
           "check": "yes\n", "stages": "alpha ", "study": "alpha ", "canon": "alpha ", "canon csv": "hypothesis,weight,p",
           "canon json": "{\"alpha\":", "catalogue": "alpha ", "update": "component "}
_WITHOUT_END = ("canon", "canon csv", "canon json", "catalogue")

Item = TypeVar("Item")


def _bad(command: str, text: str, cause: str) -> NoReturn:
    raise BadAnswer(f"what answered is not an answer to {command}: {cause}; it begins with {text[:60]!r}")


def take_answer(command: str, status: int, text: bytes) -> str:
    """Returns the whole text of an answer: of status DONE, or to `check` of status NO.

    `Refused`: the call was refused. `BadAnswer`: the status or the text is none of this command.
    """
    if status == UNREADABLE_WORDS and not text:
        raise Refused(status, "", command=command)
    try:
        printed = text.decode("ascii")
    except UnicodeDecodeError:
        _bad(command, repr(text[:60]), "its text is not ASCII")
    if status in _REFUSALS or (status == NO and command == "check"):
        begins = _REFUSALS.get(status, "no: ")
        if printed.count("\n") != 1 or not printed.endswith("\n") or not printed.startswith(begins):
            _bad(command, printed, f"its status is {status}, and its text is not one line that begins with {begins!r}")
        if status != NO:
            raise Refused(status, printed[:-1], command=command)
        return printed
    if status != DONE:
        _bad(command, printed, f"its status is {status}")
    if not printed.startswith(_BEGINS[command]):
        _bad(command, printed, f"it does not begin with {_BEGINS[command]!r}")
    if not printed.endswith("\n" if command in _WITHOUT_END else "\nend\n"):
        _bad(command, printed, "it has no end")
    return printed


class Report:
    """The lines of an answer, each as its words, read from the first to the last.

    `labels` has the label of each name of the case, in the order of the hypotheses.
    """

    def __init__(self, command: str, text: str, labels: Mapping[str, str]):
        self.command = command
        self.text = text
        self.labels = labels
        self._lines = [line.split(" ") for line in text.split("\n")[:-1]]
        self._next = 0

    def fail(self, cause: str) -> NoReturn:
        """Refuses the answer. The message has the number of the line that was taken last."""
        _bad(self.command, self.text, f"line {self._next}: {cause}" if self._next else cause)

    def require(self, holds: bool, cause: str) -> None:
        """Refuses the answer unless something holds."""
        if not holds:
            self.fail(cause)

    def is_at(self, word: str) -> bool:
        """Whether the next line begins with this word."""
        return self._next < len(self._lines) and self._lines[self._next][0] == word

    def take(self, word: str) -> List[str]:
        """Takes the next line, which begins with this word, and returns its other words."""
        if not self.is_at(word):
            self.fail(f"the next line does not begin with {word!r}")
        self._next += 1
        return self._lines[self._next - 1][1:]

    def take_all(self, word: str, read: Callable[[List[str]], Item]) -> Tuple[Item, ...]:
        """Takes the lines that begin with this word, and returns what `read` makes of the others' words."""
        items = []
        while self.is_at(word):
            items.append(read(self.take(word)))
        return tuple(items)

    def end(self) -> None:
        """Takes the last line."""
        self.require(not self.take("end"), "its last line is not 'end'")
        self.require(self._next == len(self._lines), "it has lines after its end")

    def label(self, name: str) -> str:
        """Returns the label of a name."""
        if name not in self.labels:
            self.fail(f"{name!r} is not the name of a hypothesis of the case")
        return self.labels[name]

    def all_labels(self) -> Tuple[str, ...]:
        """Returns the labels of all hypotheses, in their order."""
        return tuple(self.labels.values())

    def ascending(self, names: List[str]) -> Tuple[str, ...]:
        """Returns the labels of names, which are in the order of the hypotheses, each at most once."""
        labels = tuple(map(self.label, names))
        self.require(labels == tuple(it for it in self.all_labels() if it in set(labels)), "its names are not in their order")
        return labels

    def numbers(self, words: List[str], *between: str) -> List[str]:
        """Returns every other word of a line; the words between them are these."""
        self.require(tuple(words[1::2]) == between, f"{' '.join(words)!r} is not a line of it")
        return words[::2]


def read_whole(command: str, text: str, labels: Mapping[str, str], read: Callable[[Report], Item]) -> Item:
    """Returns what `read` makes of an answer, every line of which it takes. `BadAnswer`: it cannot be read so."""
    report = Report(command, text, labels)
    try:
        result = read(report)
    except (ValueError, IndexError, ZeroDivisionError) as error:
        report.fail(f"a line of it cannot be read ({error})")
    report.end()
    return result


# ---- test


def _tested(report: Report, words: List[str]) -> Tested:
    name, p, weight = report.numbers(words, "p", "weight")
    return Tested(report.label(name), fraction(p), fraction(weight))


def _adjusted(report: Report, words: List[str]) -> Tuple[str, Adjusted]:
    report.require(words[2:] in ([], ["not", "reached"]), f"{' '.join(words)!r} is not a line of it")
    return report.label(words[0]), Adjusted(fraction(words[1]), len(words) == 2)


def read_decision(report: Report) -> Decision:
    """Reads the report of `test`."""
    (alpha,) = report.take("alpha")
    steps: List[Tested] = []
    while report.is_at("step"):
        number, *words = report.take("step")
        report.require(number == str(len(steps) + 1), f"step {number} is not in its place")
        steps.append(_tested(report, words))
        report.require(steps[-1].name not in [it.name for it in steps[:-1]], f"{steps[-1].name!r} is rejected twice")
    kept = report.take_all("kept", partial(_tested, report))
    rejected = report.ascending(report.take("rejected"))
    adjusted = report.take_all("adjusted", partial(_adjusted, report))
    report.require(set(rejected) == {it.name for it in steps} and len(rejected) == len(steps), "its steps are not what it rejects")
    retained = tuple(name for name in report.all_labels() if name not in rejected)
    report.require(tuple(it.name for it in kept) == retained, "it does not say of each hypothesis whether it is rejected")
    report.require(tuple(name for name, _ in adjusted) == report.all_labels(), "it has not one adjusted p-value for each hypothesis")
    return Decision(fraction(alpha), tuple(steps), kept, rejected, dict(adjusted))


# ---- weights, bounds, simes


def sets_of(labels: Sequence[str]) -> Iterator[List[str]]:
    """Yields the sets in the order of the reports: all, and after each set those that leave out one more, later hypothesis."""
    def without(members: List[str], first: int) -> Iterator[List[str]]:
        if members:
            yield members
        for k in range(first, len(labels)):
            yield from without([label for label in members if label != labels[k]], k + 1)
    return without([*labels], 0)


def _read_count(report: Report, word: str) -> None:
    """Takes the first line, which has the number of the hypotheses."""
    (count,) = report.take(word)
    size = len(report.labels)
    report.require(count == str(size), f"it is of {count} hypotheses, and the case has {size}")


def _weight(report: Report, word: str) -> Tuple[str, str]:
    name, _, weight = word.rpartition("=")
    return report.label(name), weight


def read_weights(report: Report) -> Weights:
    """Reads the report of `weights`."""
    _read_count(report, "weights")
    found = {}
    for members in sets_of(report.all_labels()):
        words = [_weight(report, word) for word in report.take("set")]
        report.require([label for label, _ in words] == members, f"it is not the set of {', '.join(map(repr, members))}")
        found[frozenset(members)] = {label: fraction(weight) for label, weight in words}
    return Weights(found)


def _read_bounds(report: Report, word: str) -> Dict[FrozenSet[str], int]:
    _read_count(report, word)
    found = {}
    for members in sets_of(report.all_labels()):
        bound, of, *names = report.take("bound")
        is_its = of == "of" and list(map(report.label, names)) == members and whole_number(bound) <= len(members)
        report.require(is_its, f"it is not a bound of {', '.join(map(repr, members))}")
        found[frozenset(members)] = int(bound)
    return found


def read_bounds(report: Report) -> Bounds:
    """Reads the report of `bounds`."""
    return Bounds(_read_bounds(report, "bounds"))


def read_simes(report: Report) -> Simes:
    """Reads the report of `simes`."""
    bounds = _read_bounds(report, "simes")
    top = []
    for size in range(1, len(report.labels) + 1):
        number, bound = report.numbers(report.take("top"), "bound")
        report.require(number == str(size), f"top {number} is not in its place")
        top.append(whole_number(bound))
    return Simes(bounds, tuple(top), report.ascending(report.take("rejected")))


# ---- evidence, check


def number(word: str) -> Number:
    """Returns a number of a document of evidence."""
    if not word.startswith("["):
        return fraction(word)
    numerator, denominator = word[1:-1].split("]/[")
    return Quotient(tuple(map(_coefficient, numerator.split(","))), tuple(map(_coefficient, denominator.split(","))))


def _coefficient(word: str) -> Fraction:
    return -fraction(word[1:]) if word.startswith("-") else fraction(word)


def _flow(report: Report, words: List[str]) -> Flow:
    component, name, value = words
    return Flow(whole_number(component), report.label(name), number(value))


def _read_listed(report: Report, word: str, further: str) -> Tuple[Listed, ...]:
    items = []
    while report.is_at(word):
        (name,) = report.take(word)
        items.append(Listed(report.label(name), report.take_all(further, partial(_flow, report))))
    return tuple(items)


def read_evidence(report: Report) -> Evidence:
    """Reads a document of evidence."""
    (version,) = report.take("evidence")
    steps, keeps = _read_listed(report, "step", "flow"), _read_listed(report, "keep", "exit")
    names = [it.name for it in steps]
    report.require(sorted([*names, *(it.name for it in keeps)]) == sorted(report.all_labels()), "it does not list each hypothesis once")
    components = max([1, *(flow.component for it in steps + keeps for flow in it.flows)])
    for number, listed in enumerate(steps + keeps):
        due = [(component, name) for component in range(1, components + 1) for name in names[:number]]
        found = [(flow.component, flow.name) for flow in listed.flows]
        report.require(found == due, f"it has not each number of {listed.name!r}")
    return Evidence(whole_number(version), steps, keeps, report.text)


def read_checked(report: Report) -> Checked:
    """Reads the answer of `check`, if it is yes, for a document of version 1, which says nothing of the retained hypotheses."""
    report.take("yes")
    listed = tuple(map(report.label, report.take("listed")))
    report.require(len(set(listed)) == len(listed), "it lists a hypothesis twice")
    return Checked(True, listed, (), "")


def read_checked_whole(report: Report) -> Checked:
    """Reads the answer of `check`, if it is yes, for a document of version 2."""
    listed = read_checked(report).listed
    kept = report.ascending(report.take("kept"))
    report.require(set(kept) == set(report.all_labels()) - set(listed), "its kept hypotheses are not the others")
    return Checked(True, listed, kept, "")


_VERSION_2 = re.compile(rb"^[ \t]*evidence[ \t]+2[ \t\r]*$", re.M)


def check_answer(text: str, proof: bytes, labels: Mapping[str, str]) -> Checked:
    """Returns what an answer to `check` says of a document."""
    if text.startswith("no: "):
        return Checked(False, (), (), text[:-1])
    return read_whole("check", text, labels, read_checked_whole if _VERSION_2.search(proof) else read_checked)


# ---- stages


def settled(report: Report, words: List[str]) -> Settled:
    """Reads a line `reject`."""
    name, stage, weight = report.numbers(words, "stage", "weight")
    return Settled(report.label(name), whole_number(stage), fraction(weight))


def read_stages(report: Report) -> Stages:
    """Reads the report of `stages`."""
    (alpha,) = report.take("alpha")
    arrivals: List[Arrival] = []
    found: List[str] = []
    while report.is_at("arrive"):
        name, stage, p = report.take("arrive")
        rejections = []
        while report.is_at("reject"):
            rejections.append(settled(report, report.take("reject")))
            report.require(rejections[-1].name not in found, f"{rejections[-1].name!r} is rejected twice")
            found.append(rejections[-1].name)
        arrivals.append(Arrival(report.label(name), whole_number(stage), fraction(p), tuple(rejections)))
    rejected = report.ascending(report.take("rejected"))
    report.require(sorted(found) == sorted(rejected), "what it rejects is not what its looks reject")
    return Stages(fraction(alpha), tuple(arrivals), rejected)


# ---- the graph after rejections


def _level(report: Report, words: List[str]) -> Tuple[str, Fraction]:
    name, level = words
    return report.label(name), fraction(level)


def _edge(report: Report, words: List[str]) -> Tuple[str, str, Number]:
    start, end, value = words
    return report.label(start), report.label(end), lowest_terms(number(value))


def read_update(report: Report) -> Updated:
    """Reads the answer of the call that updates a graph, whose `labels` are those of the hypotheses that remain. A component has no share
    of its own here."""
    components: List[Component] = []
    while report.is_at("component"):
        (at,) = report.take("component")
        report.require(at == str(len(components) + 1), f"component {at} is not in its place")
        weights: Dict[str, Number] = {}
        edges: Dict[Tuple[str, str], Number] = {}
        for label in report.all_labels():
            name, value = report.take("weight")
            report.require(report.label(name) == label, f"it is not the weight of {label!r}")
            weights[label] = lowest_terms(number(value))
            found = report.take_all("edge", partial(_edge, report))
            ends = [end for _, end, _ in found]
            report.require(all(start == label for start, _, _ in found) and label not in ends, f"an edge before it is not one from {label!r}")
            report.require(ends == [it for it in report.all_labels() if it in ends], f"the edges from {label!r} are not in their order")
            edges.update({(start, end): edge for start, end, edge in found})
        components.append(Component(Fraction(1), weights, edges))
    levels = dict(report.take_all("level", partial(_level, report)))
    report.require(tuple(levels) == report.all_labels() and bool(components), "it has not one level for each hypothesis that remains")
    return Updated(tuple(components), levels)
