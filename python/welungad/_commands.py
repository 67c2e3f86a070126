"""The commands over texts: each makes one proved call on a case as a text, and returns what the report says."""
from typing import Callable, List, Optional, Tuple, TypeVar, Union

from ._calls import Text, bytes_of, kind_of, run
from ._case import canonical_names
from ._numbers import Given, numeral
from ._reports import (Report, check_answer, read_bounds, read_decision, read_evidence, read_simes, read_stages, read_weights, read_whole,
                       take_answer)
from ._results import Answer, Bounds, Checked, Decision, Evidence, Simes, Stages, Weights, answered

Level = Given
PRIORITIES = ("first", "last", "ratio")
Found = TypeVar("Found", bound=Answer)


def _words(command: List[str], form: str, alpha: Optional[Level], **options: Optional[str]) -> List[str]:
    """Returns the words of a command, with the options that are given."""
    for option, value in [("form", form), *options.items()]:
        if not isinstance(value, str) and (value is not None or option == "form"):
            raise TypeError(f"{option} is a text, and not of type {kind_of(value)}")
    words = list(command)
    if form != "text":
        words += ["--form", form]
    if alpha is not None:
        words += ["--alpha", numeral(alpha, "alpha")]
    for option, value in options.items():
        if value is not None:
            words += [f"--{option}", value]
    return words


def _names_of(case: bytes, form: str, alpha: Optional[Level]) -> Tuple[str, ...]:
    """Returns the names of the hypotheses of a case that the proved call has accepted."""
    return canonical_names(take_answer("canon", *run(_words(["canon"], form, alpha), case)))


def _read(words: List[str], case: Text, form: str, alpha: Optional[Level], read: Callable[[Report], Found]) -> Found:
    """Makes a call, and returns what `read` makes of its report."""
    given = bytes_of(case, "case")
    text = take_answer(words[0], *run(words, given))
    names = _names_of(given, form, alpha)
    return answered(read_whole(words[0], text, dict(zip(names, names)), read), words, text, names)


def test(case: Text, form: str = "text", alpha: Optional[Level] = None, priority: Optional[str] = None) -> Decision:
    """Decides a case. `form` is text, csv or json; `alpha` is the level of a sheet; `priority` is first, last or ratio."""
    return _read(_words(["test"], form, alpha, priority=priority), case, form, alpha, read_decision)


def weights(case: Text, form: str = "text", alpha: Optional[Level] = None) -> Weights:
    """Returns the weights of all intersections of at most 16 hypotheses."""
    return _read(_words(["weights"], form, alpha), case, form, alpha, read_weights)


def bounds(case: Text, form: str = "text", alpha: Optional[Level] = None) -> Bounds:
    """Returns a lower bound on the number of false hypotheses in each set of at most 16 hypotheses."""
    return _read(_words(["bounds"], form, alpha), case, form, alpha, read_bounds)


def simes(case: Text, form: str = "text", alpha: Optional[Level] = None) -> Simes:
    """Returns what the closed test of weighted Simes tests bounds and rejects, of at most 16 hypotheses."""
    return _read(_words(["simes"], form, alpha), case, form, alpha, read_simes)


def evidence(case: Text, form: str = "text", alpha: Optional[Level] = None, priority: Optional[str] = None) -> Evidence:
    """Returns evidence, in version 2, for the decision on a case."""
    return _read(_words(["evidence"], form, alpha, priority=priority), case, form, alpha, read_evidence)


def check(case: Text, proof: Union[Text, Evidence], form: str = "text", alpha: Optional[Level] = None) -> Checked:
    """Checks whether a proof is evidence for the rejections of a case."""
    given, document = bytes_of(case, "case"), bytes_of(proof.text if isinstance(proof, Evidence) else proof, "proof")
    words = _words(["check", "proof"], form, alpha)
    text = take_answer("check", *run(words, given, document))
    names = _names_of(given, form, alpha)
    return answered(check_answer(text, document, dict(zip(names, names))), words, text, names)


def stages(case: Text, form: str = "text") -> Stages:
    """Returns the decisions as the p-values of a staged case arrive."""
    return _read(_words(["stages"], form, None), case, form, None, read_stages)


def canon(case: Text, form: str = "text", alpha: Optional[Level] = None, to: Optional[str] = None) -> str:
    """Returns the case in its one spelling, in the form `to`: text, csv or json."""
    words = _words(["canon"], form, alpha, to=to)
    command = "canon" if to in (None, "text") else f"canon {to}"
    return take_answer(command, *run(words, bytes_of(case, "case")))
