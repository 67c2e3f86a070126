"""Numbers: how a number of Python becomes an exact fraction, and the one function that writes it for the program.

A Fraction, an int, a Decimal and a text are taken as they are. A double is read by this rule, which R has too. Its rounding
interval has the rationals that round to it. It is read as

1. the fraction of the interval with the least denominator, if that is at most 10,000;
2. else the multiple of 10^-j in the interval with the least j up to 30, of several the one nearest to the double, of two the one
   with the even numerator;
3. else the double rounded up to a multiple of 10^-30.

The library reads doubles by a proved function, and nothing here reads them without it.

So 1/3 is 1/3, 0.025 is 1/40, and 0.1 + 0.2, which is not the double 0.3, is 0.30000000000000004. A double below 0 or above 1, an
infinite one and NaN have no reading.
"""
import re
import warnings
from decimal import Decimal
from fractions import Fraction
from numbers import Rational
from typing import Any, Iterator, Optional, Union

from ._calls import kind_of, readings
from ._refusals import BadAnswer

Given = Union[Fraction, Decimal, str, int, float]

LARGEST_DENOMINATOR = 10_000
_DIGITS_OF_A_DOUBLE = 15
# far above what a case may have, and below what Python turns into a whole number at once
_MOST_CHARACTERS, _MOST_BITS = 4000, 4096

_NUMERAL = re.compile(r"[+-]?(?:(?P<whole>[0-9]+)/(?P<parts>[0-9]+)"
                      r"|(?P<before>[0-9]+)\.?(?P<after>[0-9]*)(?:[eE](?P<power>[+-]?[0-9]+))?"
                      r"|\.(?P<only>[0-9]+)(?:[eE](?P<exponent>[+-]?[0-9]+))?)")

# What an edge is written with: the tokens of an expression, and blanks.
_EXPRESSION = re.compile(r"(?:[0-9.eE+\-*/()^ \t]|\\epsilon)*")


class PrintedDoubleWarning(UserWarning):
    """A text has the digits with which the double of a small fraction is printed, and is another number than the fraction."""


# ---- doubles


def read_double(double: float) -> Fraction:
    """Returns the fraction that a double is read as, by the library.

    `ValueError`: it is not from 0 to 1. `OSError`: there is no library, or an older one, which reads no doubles."""
    if not 0 <= double <= 1:
        raise ValueError(f"{double!r} is not from 0 to 1")
    [(n, d)] = readings([double])
    if d == 0:
        raise BadAnswer(f"what answered has no reading of {double!r}")
    return Fraction(n, d)


# ---- texts


def value_of(text: str) -> Optional[Fraction]:
    """Returns the value of a numeral; nothing for any other text, and for a decimal with more than 9,999 places."""
    match = _NUMERAL.fullmatch(text)
    if match is None:
        return None
    sign = -1 if text[0] == "-" else 1
    if match["whole"] is not None:
        parts = int(match["parts"])
        return sign * Fraction(int(match["whole"]), parts) if parts else None
    before, after = match["before"] or "", match["after"] or match["only"] or ""
    digits = int(before + after)
    power = int(match["power"] or match["exponent"] or 0) - len(after)
    if digits == 0:
        return Fraction(0)
    if abs(power) > 9999:
        return None
    return sign * digits * Fraction(10)**power


def has_many_digits(text: str) -> bool:
    """Whether a numeral, written out without its exponent, has more than 38 digits or decimal places."""
    value = value_of(text)
    if value is None:
        return True
    parts = re.split("[/.]", re.sub("[eE].*", "", text.lstrip("+-")))
    places = next((places for places in range(40) if value * 10**places % 1 == 0), 40) if "/" not in text else 0
    return places > 38 or max(len(part.lstrip("0")) for part in parts) > 38 or value.numerator >= 10**38


def known_value(text: str, place: str) -> Fraction:
    """Returns the value of a numeral. `ValueError`: it has none that is known here."""
    value = value_of(text)
    if value is None:
        raise ValueError(f"{place} is {text}, which has no value within reach")
    return value


def _has_parts(number: Any) -> bool:
    """Whether a rational has its two parts as Python's own have them; Sage has methods in their place."""
    return all(hasattr(number, part) and not callable(getattr(number, part)) for part in ("numerator", "denominator"))


def _is_long(number: Rational) -> bool:
    """Whether a number has more digits than any that is written."""
    return max(int(number.numerator).bit_length(), int(number.denominator).bit_length()) > _MOST_BITS


def said(number: Fraction) -> str:
    """Returns a number for a message."""
    return "a number of too many digits" if _is_long(number) else str(number)


def fraction_text(fraction: Rational) -> str:
    """Returns a fraction as the program reads it: n/d, or n if d is 1."""
    n, d = int(fraction.numerator), int(fraction.denominator)
    return str(n) if d == 1 else f"{n}/{d}"


def printed_double(text: str) -> Optional[Fraction]:
    """Returns the fraction that a text is the printed double of, if the text itself is another number: 1/3 for
    "0.3333333333333333", and for what C and the files of numpy have for it."""
    if len(text) < _DIGITS_OF_A_DOUBLE or value_of(text) is None or "/" in text:
        return None
    double = float(text)
    is_printed = text in (repr(double), f"{double:.17g}", f"{double:.18e}")
    if not (0 < double <= 1 and is_printed):
        return None
    found = read_double(double)
    return None if found == value_of(text) or found.denominator > LARGEST_DENOMINATOR else found


def _texts(found: Any) -> Iterator[str]:
    """Yields the texts in lists of lists."""
    if isinstance(found, list):
        for it in found:
            yield from _texts(it)
    elif isinstance(found, str):
        yield found


def _has_doubles(found: Any) -> bool:
    """Whether there is a double in lists of lists."""
    return any(map(_has_doubles, found)) if isinstance(found, list) else isinstance(found, float)


def _is_of_times(value: Any) -> bool:
    """Whether something has the times or spans of numpy, which are whole numbers of nanoseconds to Python."""
    return getattr(getattr(value, "dtype", None), "kind", "") in ("m", "M")


def _type_of_numbers(value: Any) -> Any:
    """Returns the type of the numbers of an array, if it has one: of a sparse or a categorical array of pandas that of what it holds."""
    dtype = getattr(value, "dtype", None)
    categories = getattr(dtype, "categories", None)
    return getattr(categories, "dtype", getattr(dtype, "subtype", dtype))


def _has_unit(value: Any) -> bool:
    """Whether something is of a class whose numbers have a unit, such as percents, as astropy, pint and quantities have them."""
    return any(hasattr(type(value), name) for name in ("unit", "units"))


def plain(value: Any, place: str) -> Any:
    """Returns what an array, or a scalar of numpy, holds, as lists and numbers of Python.

    `TypeError`: its numbers have other digits than a double, or may have, so that they are not the doubles that they look like; they
    are times, or have a unit; they are in fields with names; or numpy has turned doubles into texts, since there was a text among them.
    """
    dtype = _type_of_numbers(value)
    kind = getattr(dtype, "kind", "")
    if _is_of_times(value):
        raise TypeError(f"{place} is of type {dtype}, and times are no numbers")
    if _has_unit(value):
        raise TypeError(f"{place} is of type {kind_of(value)}, whose numbers have a unit: give the numbers alone")
    if kind == "V":
        raise TypeError(f"{place} is of type {dtype}, whose fields have names: give a frame, a dict or a list")
    found = value.tolist()
    # of a dictionary of pyarrow pandas says that it has objects, and these are made of short floats too
    is_unknown = kind == "O" and hasattr(dtype, "pyarrow_dtype")
    size = None if is_unknown else getattr(dtype, "itemsize", getattr(value, "itemsize", None))
    if size != 8 and (kind != "O" or is_unknown) and (kind == "f" or _has_doubles(found)):
        of, are = kind_of(value) if dtype is None else dtype, "may not be" if size is None else "are not"
        raise TypeError(f"{place} is of type {of}, whose numbers {are} doubles: give doubles, fractions or texts")
    if type(found) is type(value):
        raise TypeError(f"{place} is a number, and not of type {kind_of(value)}")
    for text in _texts(found) if kind == "U" else ():
        if printed_double(text):
            raise TypeError(f"{place} has the text {text!r}, which numpy made of the double {printed_double(text)}: give an array of "
                            "doubles, or of objects")
    return found


def double_in(value: Any) -> Optional[float]:
    """Returns the double that a number is, also one of an array without dimensions; nothing for any other number."""
    if callable(getattr(value, "tolist", None)) and getattr(value, "ndim", None) == 0:
        value = value.tolist()
    return float(value) if isinstance(value, float) else None


def _warn_of_printed_double(text: str, place: str) -> None:
    """Warns of a text that looks like a printed double of a fraction; it is taken as it is written."""
    found = printed_double(text)
    if found is not None:
        warnings.warn(f"{place} is the text {text!r}, which is taken as it is written, and not as {found}, whose double is printed so",
                      PrintedDoubleWarning, stacklevel=2)


def numeral(value: Given, place: str) -> str:
    """Returns a number as the program reads it. This is the one function that writes numbers.

    `place` names the argument and the place in it, for the messages. `TypeError`: the value is not a number. `ValueError`: it has
    no value, or is a double that is not from 0 to 1, or a text that is not one numeral.
    """
    if isinstance(value, bool) or value is None:
        raise TypeError(f"{place} is a number, and not {value}")
    if isinstance(value, float):
        if not 0 <= value <= 1:
            raise ValueError(f"{place} is {float(value)!r}, and not from 0 to 1")
        return fraction_text(read_double(float(value)))
    if isinstance(value, Rational) and not _is_of_times(value) and _has_parts(value):
        if _is_long(value):
            raise ValueError(f"{place} has too many digits")
        return fraction_text(value)
    if isinstance(value, Decimal):
        if not value.is_finite():
            raise ValueError(f"{place} is {value}, and not from 0 to 1")
        return numeral(Decimal.__str__(value), place)
    if isinstance(value, str):
        text = value.strip(" \t")
        if len(text) > _MOST_CHARACTERS:
            raise ValueError(f"{place} has too many digits")
        if not _NUMERAL.fullmatch(text):
            raise ValueError(f"{place} is {value!r}, which is not a numeral: write 0.025, 1/40 or 2.5e-2")
        _warn_of_printed_double(text, place)
        return text
    if callable(getattr(value, "tolist", None)) and getattr(value, "ndim", None) == 0:
        return numeral(plain(value, place), place)
    raise TypeError(f"{place} is a number, and not of type {kind_of(value)}")


def expression(value: Given, place: str) -> str:
    """Returns an edge as the program reads it: a number, or a text with `\\epsilon` such as `1-\\epsilon`.

    `ValueError`: the text has a character that no expression has.
    """
    if not isinstance(value, str) or _NUMERAL.fullmatch(value.strip(" \t")):
        return numeral(value, place)
    if not value.strip(" \t") or not _EXPRESSION.fullmatch(value):
        raise ValueError(f"{place} is {value!r}, which is not an edge: write 1/2, 1-\\epsilon or 1/2*\\epsilon^2")
    return value.strip(" \t")


def whole(value: Any, place: str) -> int:
    """Returns a whole number. `TypeError`: the value is none; a double is none either."""
    if callable(getattr(value, "tolist", None)) and getattr(value, "ndim", None) == 0:
        value = plain(value, place)
    if isinstance(value, bool) or not isinstance(value, int):
        raise TypeError(f"{place} is a whole number, and not {value!r}")
    return int(value)
