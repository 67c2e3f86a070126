"""Many rows of p-values, a row a trial. Rows of doubles are decided in blocks, with one proved call each, between which an interrupt
is seen. Any other row is one call of `test`, and so is each row if the library is an older one."""
from fractions import Fraction
from typing import Any, Callable, Dict, Iterator, List, Optional, Sequence, Tuple

from ._beside import beside, beside_fraction
from ._calls import DONE, LIMIT, MALFORMED, NO_MEMORY, TOO_WIDE, has_rows, test_rows
from ._hypotheses import frame_labels, frame_rows, in_order, is_frame, order_of, rows_of
from ._numbers import numeral
from ._refusals import BadAnswer, Refused
from ._results import Decision, RowDecision, Trials

_OF_A_ROW = (MALFORMED, LIMIT, TOO_WIDE)
_ROWS_OF_A_BLOCK = 512

Row = Sequence[Any]


def rows_of_p(given: Any, labels: Sequence[str]) -> List[List[Any]]:
    """Returns the rows of p-values, each in the order of the hypotheses. The messages name the row, from 1."""
    if is_frame(given):
        trials, columns = frame_labels(given)
        if columns is None and set(trials or ()) & set(labels):
            raise ValueError("rows: its rows have the labels of hypotheses, and its columns have none: a row is a trial")
        rows = frame_rows(given, "rows")
        if columns is not None:
            places = order_of(columns, labels, "the columns of rows")
            return [[row[at] for at in places] for row in rows]
        return [in_order(row, labels, f"row {number}") for number, row in enumerate(rows, 1)]
    return [in_order(row, labels, f"row {number}") for number, row in enumerate(rows_of(given, "rows"), 1)]


def _decide_row(number: int, row: Sequence[Any], labels: Sequence[str], decide: Callable[[List[str]], Decision]) -> Tuple[int, RowDecision, str]:
    """Returns the status of a row, its decision if it has one, and what is wrong with it if it has none."""
    try:
        texts = [numeral(value, f"row {number}: the p-value of {label!r}") for label, value in zip(labels, row)]
    except ValueError as error:
        return MALFORMED, None, str(error)
    try:
        rejected = set(decide(texts).rejected)
    except Refused as refused:
        if refused.status not in _OF_A_ROW:
            raise
        return refused.status, None, str(refused)
    return 0, tuple(label in rejected for label in labels), ""


def _is_of_doubles(row: Row) -> bool:
    return all(isinstance(value, float) or (type(value) is int and 0 <= value <= 1) for value in row)


def _decide_doubles(case: str, rows: Sequence[Row]) -> Optional[List[Tuple[int, RowDecision]]]:
    """Returns the status of each row of doubles, and its decision if it has one; nothing if the case is too wide for any row."""
    status, marks, statuses = test_rows(case, (value for row in rows for value in row), len(rows))
    if status == TOO_WIDE:
        return None
    if status == NO_MEMORY:
        raise Refused(status, "no memory")
    if status != DONE or max(marks, default=0) > 1:
        raise BadAnswer(f"the call that decides rows ended with status {status}")
    wide = len(rows[0])
    decisions = [tuple(mark == 1 for mark in marks[wide * at : wide * (at + 1)]) for at in range(len(rows))]
    return [(found, decision if found == DONE else None) for found, decision in zip(statuses, decisions)]


def _by_one_call(case: str, rows: Sequence[Row], begin: int) -> Dict[int, Tuple[int, RowDecision]]:
    """Returns what one call decides of a block of rows, by the number of the row; other rows are left out."""
    numbers = [number for number, row in enumerate(rows, begin) if _is_of_doubles(row)] if has_rows() else []
    found = _decide_doubles(case, [rows[number - begin] for number in numbers]) if numbers else None
    return dict(zip(numbers, found or []))


def decide_rows(case: str, rows: Sequence[Row], labels: Sequence[str], decide: Callable[[List[str]], Decision]) -> Trials:
    """Returns the decision on each row with a case without p-values. `decide` makes that of one row from its p-values as numerals."""
    rejected: List[RowDecision] = []
    statuses: List[int] = []
    refused: Dict[int, str] = {}
    for begin in range(0, len(rows), _ROWS_OF_A_BLOCK):
        block = rows[begin : begin + _ROWS_OF_A_BLOCK]
        found = _by_one_call(case, block, begin + 1)
        for number, row in enumerate(block, begin + 1):
            status, decision = found.get(number, (None, None))
            if status != DONE:
                own, decision, cause = _decide_row(number, row, labels, decide)
                if status not in (None, own):
                    raise BadAnswer(f"what answered has the status {status} for row {number}, and {own} for its p-values as texts")
                if own != DONE:
                    refused[number] = cause
                status = own
            statuses.append(status)
            rejected.append(decision)
    return Trials(tuple(labels), tuple(rejected), tuple(statuses), refused)


def ties_of(rows: Sequence[Row], trials: Trials, alpha: Fraction, decide: Callable[[List[str]], Decision]) -> Iterator[str]:
    """Yields what a warning says of each p-value that is a double just above a small fraction that is its level."""
    most = float(alpha) * (1 + 1e-9)
    for number, (row, decision) in enumerate(zip(rows, trials.rejected), 1):
        near = [at for at, it in enumerate(decision or ()) if not it and isinstance(row[at], float) and 0 < row[at] <= most and beside(row[at])]
        if not near:
            continue
        weights = {it.name: it.weight for it in decide([numeral(value, f"row {number}") for value in row]).kept}
        for at in near:
            level = weights[trials.names[at]] * alpha
            found = beside_fraction(row[at], level)
            if found is not None and found.units > 0:
                yield f"row {number}: the p-value of {trials.names[at]!r} is {row[at]!r}, {found}, which is its level"
