"""Doubles beside small fractions: what sums such as 0.1 + 0.2 leave, a few units in the last place from the fraction that was meant.

They are read as they are. A warning says so where that decides, and `as_exact` with a total reads a row as the fractions beside it.
"""
import struct
from fractions import Fraction
from typing import Any, Dict, List, Mapping, NamedTuple, Optional, Sequence, Tuple, Union, overload

from ._hypotheses import hold_distinct, is_many, values_of
from ._numbers import LARGEST_DENOMINATOR, Given, known_value, numeral, read_double, said

_MOST_UNITS = 4
_COUNTS = ("no units", "one unit", "two units", "three units", "four units")


class BesideWarning(UserWarning):
    """A p-value is a few units in the last place above a small fraction that is its level, and so is not rejected."""


class ZeroWarning(UserWarning):
    """A p-value is 0, which rejects its hypothesis at every level."""


class Beside(NamedTuple):
    """A small fraction, and how many units in the last place a double is above it."""

    fraction: Fraction
    units: int

    def __str__(self) -> str:
        return f"{_COUNTS[abs(self.units)]} in the last place {'above' if self.units > 0 else 'below'} {self.fraction}"


def _place(double: float) -> int:
    """Returns the place of a double that is not below 0 among all doubles."""
    (bits,) = struct.unpack(">Q", struct.pack(">d", double))
    return int(bits)


def beside_fraction(double: float, fraction: Fraction) -> Optional[Beside]:
    """Returns a small fraction with the units in the last place from it to a double, if these are one to four; else nothing."""
    if fraction.denominator > LARGEST_DENOMINATOR or not 0 <= fraction <= 1 or not 0 <= double <= 1:
        return None
    units = _place(double) - _place(fraction.numerator / fraction.denominator)
    return Beside(fraction, units) if 0 < abs(units) <= _MOST_UNITS else None


def beside(double: float) -> Optional[Beside]:
    """Returns the small fraction beside a double, if there is one and the double is not read as it."""
    return beside_fraction(double, Fraction(double).limit_denominator(LARGEST_DENOMINATOR))


def meant(value: Fraction) -> Fraction:
    """Returns the small fraction beside a number that may have been read from a double; else the number."""
    double = value.numerator / value.denominator if 0 <= value <= 1 else -1.0
    found = beside(double) if 0 <= double <= 1 and read_double(double) == value else None
    return found.fraction if found else value


def exact_value(given: Any, place: str) -> Fraction:
    """Returns the exact value of one number."""
    return known_value(numeral(given, place), place)


@overload
def as_exact(given: Given, total: None = None) -> Fraction: ...


@overload
def as_exact(given: Union[List[Any], Tuple[Any, ...]], total: Optional[Given] = None) -> List[Fraction]: ...


@overload
def as_exact(given: Mapping[str, Any], total: Optional[Given] = None) -> Dict[str, Fraction]: ...


@overload
def as_exact(given: Any, total: Optional[Given] = None) -> Any: ...


def as_exact(given: Any, total: Optional[Given] = None) -> Union[Fraction, List[Fraction], Dict[str, Fraction]]:
    """Returns the exact value of a number, or of each number of a row, as every method of `Graph` reads it.

    A number is a Fraction, a Decimal, an int, a text such as "0.025" or "1/40", or a double from 0 to 1. A double is read as the
    fraction with the least denominator up to 10,000 that rounds to it, else as the shortest decimal that does. A list, a tuple or
    an array gives a list; a dict, a series or a named tuple gives a dict.

    >>> as_exact(1 / 3), as_exact(0.025), as_exact("2.5e-2")
    (Fraction(1, 3), Fraction(1, 40), Fraction(1, 40))

    With a `total`, a double that is at most four units in the last place beside a fraction with a denominator up to 10,000 is read
    as this fraction, and the row has to sum to the total.

    >>> as_exact([0.1 + 0.2, 0.7], total=1)
    [Fraction(3, 10), Fraction(7, 10)]

    `TypeError`: it is not a number; a bool is none. `ValueError`: it has no value, is a double that is not from 0 to 1, the row
    does not sum to the total, or a label of it occurs twice.
    """
    if not is_many(given):
        if total is not None:
            raise TypeError("a total is that of a row: give a list of numbers")
        return exact_value(given, "number")
    found = values_of(given, "numbers")
    values = [exact_value(value, f"number {at}") for at, value in enumerate(found.values, 1)]
    if total is not None:
        values = _with_total(found.values, values, exact_value(total, "total"))
    if found.labels is None:
        return values
    hold_distinct(found.labels, "numbers")
    return dict(zip(found.labels, values))


def _with_total(given: Sequence[Any], values: Sequence[Fraction], total: Fraction) -> List[Fraction]:
    """Returns a row as the fractions beside its doubles, which sum to the total with its other numbers."""
    found = [meant(value) if isinstance(it, float) else value for it, value in zip(given, values)]
    if sum(found) != total:
        raise ValueError(f"the row reads as {' + '.join(map(said, found))}, which is {said(sum(found, Fraction(0)))}, and not {said(total)}")
    return found
