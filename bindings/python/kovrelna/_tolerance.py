"""Tolerances.

- `Ratio`, `Counts`, `Noise`, `Parts`, `Tolerance`: the forms.
- `lend`, `lend_all`: a tolerance as the library takes it, which decides what is allowed; several.
- `parts`: the parts that the library answers with.
- `fault`: what is wrong with a tolerance that the library has refused, in words; `shown`: a number.
"""

import math
import numbers
import operator
from dataclasses import dataclass
from fractions import Fraction
from typing import Any, Generic, Optional, Sequence, Tuple, TypeVar, Union

from . import _library


@dataclass(frozen=True)
class Ratio:
    """The tolerance p/q; `q` from 1 to 1,048,575, `p` from 0 to 65,535 times `q`."""

    p: int
    q: int


@dataclass(frozen=True)
class Counts:
    """A tolerance from 0 to 65,535 of which 64 times is whole."""

    counts: float


@dataclass(frozen=True)
class Noise:
    """A channel's noise times the multiple wanted, exactly: the noise from 0 to 1,023 and 64 times
    it whole, the multiple from 0 to 63 and 8 times it whole."""

    noise: float
    multiple: float


# What a part is given as.
_Part = Union[Ratio, int, Fraction]
_Above = TypeVar("_Above", bound=_Part, covariant=True)
_Below = TypeVar("_Below", bound=_Part, covariant=True)


@dataclass(frozen=True)
class Parts(Generic[_Above, _Below]):
    """A tolerance of two parts, one for samples above the line and one for those below it. Each is a
    `Ratio`, a whole number or a Fraction, as it is allowed for a tolerance; they may be equal. As a
    tolerance is held, both are Fractions."""

    above: _Above
    """For samples above the line."""
    below: _Below
    """For samples below it."""

    @property
    def one(self) -> Optional[Fraction]:
        """The fraction that both parts are, None where they differ."""
        (p, q), (below_p, below_q) = _pairs(self)
        return Fraction(p, q) if q and below_q and p * below_q == below_p * q else None

    def __str__(self) -> str:
        if self.one is not None:
            return str(self.one)
        above, below = (shown(p) if q == 1 else f"{shown(p)}/{shown(q)}" for p, q in _pairs(self))
        return f"{above} above and {below} below"


# A whole number and a Fraction are ratios, a float is counts.
Tolerance = Union[Ratio, Counts, Noise, Parts[_Part, _Part], int, Fraction, float]


def _pairs(tolerance: Parts[_Part, _Part]) -> Tuple[Tuple[int, int], Tuple[int, int]]:
    """p and q of the part above, and of the part below."""
    return _pair("above", tolerance.above), _pair("below", tolerance.below)


def _pair(side: str, part: Any) -> Tuple[int, int]:
    if isinstance(part, Ratio):
        return operator.index(part.p), operator.index(part.q)
    if isinstance(part, numbers.Rational):
        return operator.index(part.numerator), operator.index(part.denominator)
    instead = ""
    if isinstance(part, (Counts, Noise)):
        instead = f"; write hold({part}).one"
    elif isinstance(part, numbers.Real) and math.isfinite(part):
        instead = _instead(float(part))
    kind = type(part).__name__
    message = f"the part {side} must be Ratio, a whole number or a Fraction, not {kind}"
    raise TypeError(f"{message}{instead}")


def _form(tolerance: Any) -> Union[Ratio, Counts, Noise, Parts[_Part, _Part]]:
    if isinstance(tolerance, (Ratio, Counts, Noise, Parts)):
        return tolerance
    if isinstance(tolerance, numbers.Rational):
        return Ratio(tolerance.numerator, tolerance.denominator)
    if isinstance(tolerance, numbers.Real):
        return Counts(tolerance)  # type: ignore[arg-type]
    raise TypeError(
        "tolerance must be Ratio, Counts, Noise, Parts, a whole number, a Fraction or a float, "
        f"not {type(tolerance).__name__}"
    )


def lend(tolerance: Tolerance) -> _library.Tolerance:
    if type(tolerance) is float:
        return _library.Tolerance(1, 0, 0, tolerance, 0.0)
    form = _form(tolerance)
    if isinstance(form, Ratio):
        return _library.Tolerance(0, *_fields(operator.index(form.p), operator.index(form.q)))
    if isinstance(form, Parts):
        above, below = (_fields(*pair) for pair in _pairs(form))
        return _library.Tolerance(3, *above, 0.0, 0.0, *below)
    if isinstance(form, Counts):
        return _library.Tolerance(1, 0, 0, _float(form.counts), 0.0)
    return _library.Tolerance(2, 0, 0, _float(form.noise), _float(form.multiple))


def _fields(p: int, q: int) -> Tuple[int, int]:
    """A ratio that does not fit the library's fields is lent as 0/0, which is not allowed either."""
    return (p, q) if 0 <= p < 2**64 and 0 <= q < 2**64 else (0, 0)


def lend_all(tolerances: Sequence[Tolerance]) -> _library.Tolerances:
    """Of more than the library takes, its first ones with the whole count, which is refused."""
    lent = _library.Tolerances(len(tolerances))
    for position, tolerance in enumerate(tolerances[: _library.TOLERANCES]):
        try:
            lent.list[position] = lend(tolerance)
        except TypeError as error:
            raise TypeError(f"tolerances[{position}]: {error}") from None
    return lent


def parts(answer: Any) -> Parts[Fraction, Fraction]:
    above = Fraction(answer.p, answer.q)
    if (answer.below_p, answer.below_q) == (answer.p, answer.q):
        return Parts(above, above)
    return Parts(above, Fraction(answer.below_p, answer.below_q))


def _float(number: Any) -> float:
    """The number as a float. One that no float equals is lent as NaN, which is not allowed either:
    whatever is allowed is a float."""
    if not isinstance(number, numbers.Real):
        raise TypeError(f"a tolerance must be of real numbers, not {type(number).__name__}")
    try:
        nearest = float(number)
    except OverflowError:
        return math.nan
    return nearest if nearest == number else math.nan


def fault(tolerance: Tolerance) -> str:
    form = _form(tolerance)
    if isinstance(form, Ratio):
        return _ratio_fault(form.p, form.q)
    if isinstance(form, Parts):
        for side, (p, q) in zip(("above", "below"), _pairs(form)):
            if not (1 <= q <= 1048575 and 0 <= p <= 65535 * q):
                return f"of the part {side}, {_ratio_fault(p, q)}"
        return f"the parts must be equal here, not {form}"
    if isinstance(form, Counts):
        words = _fault("counts are", form.counts, 65535, 64)
        return words + (_instead(form.counts) if words.endswith("1/64") else "")
    noise = _fault("the noise is", form.noise, 1023, 64)
    return noise or _fault("the multiple is", form.multiple, 63, 8)


def _ratio_fault(p: int, q: int) -> str:
    limits = "p/q has q from 1 to 1,048,575 and p from 0 to 65,535 times q"
    return f"{limits}, not {shown(p)}/{shown(q)}"


def _fault(what: str, number: float, most: int, steps: int) -> str:
    """What is wrong with a number that is to be from 0 to the most and `steps` times whole."""
    if not 0 <= number <= most:
        return f"{what} from 0 to {most:,}, not {shown(number)}"
    exact = number if isinstance(number, numbers.Rational) else float(number)
    whole = (Fraction(exact) * steps).denominator == 1
    return "" if whole else f"{number} is not a multiple of 1/{steps}"


def _instead(counts: float) -> str:
    """The ratio that is meant, where the counts are written with few digits."""
    meant = Fraction(str(counts))
    p, q = (meant.numerator, meant.denominator) if meant.denominator <= 1048575 else ("p", "q")
    return f"; write Ratio({p}, {q}) or Fraction({p}, {q})"


def shown(number: Any) -> str:
    """The number, unless it has more digits than Python shows."""
    try:
        return str(number)
    except ValueError:
        return "so long a number"
