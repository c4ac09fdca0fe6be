"""Reduced traces: the proved library Kovrelna, over its shared library.

- `Ratio`, `Counts`, `Noise`, `Parts`, `hold`: a tolerance, and the fractions it is held as.
- `GAP_MAX`: the largest gap limit, which is none.
- `Measure`, `measure`: a link's error, and the first sample where it occurs.
- `Verdict`, `judge`: whether every link of a proposed list is valid.
- `GreedyVerdict`, `judge_greedy`: whether the size bound of `walk` and `gallop` holds of a proposed
  list too.
- `walk`, `Galloped`, `gallop`, `minimum`: kept lists with every link valid.
- `Least`, `least`: the least error that so many samples allow.
- `scan`: what `walk` keeps at each of several tolerances, in one pass.
- `View`: a view of a trace that grows, sample by sample.
- `Sum`, `sum`: two traces with the same ticks added, and their kept lists joined.
- `Summary`, `Report`, `report`: a row for each channel of a crate, and totals.
- `Run`, `Pedestals`, `pedestals`: which channels have moved or are noisy since a run before.
- `expand`, `expand_with`: the values of range codes, by the rule or by a table of one's own.
- `write`, `Content`, `read`, `same`: records of kept samples.
- `Checked`, `check`: whether a record may stand for its trace, before that is erased.
- `Refusal`: why a call declined.

A trace is two lists of equal length: ticks (unsigned, 32 bits) and values (ADC counts; signed, 16
bits). It has 1 to 4,096 samples, numbered from 0. Ticks rise strictly; the last minus the first is
at most 1,048,575.

A link goes from sample i to a later sample j. Its deviation at a sample k between them is the
vertical distance from value k to the straight line through samples i and j, an exact fraction. The
link's error is the greatest of these, 0 where nothing lies between.

A tolerance has two parts, U for samples above the line and D for those below it; one tolerance means
both, and `Parts` gives each. A link is within it if each sample between that lies above the line
lies at most U above it, and each that lies below at most D below it; equality is within. With equal
parts that is so exactly if the link's error is at most the tolerance.

A gap limit is a whole number of ticks from 1 to 1,048,575. A hole is two neighbouring samples that
lie more ticks apart than the gap limit. A link obeys the gap limit if it goes one step, from sample
i to i+1, or crosses no hole. It is valid if it obeys the gap limit and is within the tolerance. So a
link of one step is always valid, and a longer one never if it crosses a hole. Calls that are given
no gap limit take the largest, `GAP_MAX`: no two samples of a trace lie further apart.

A kept list (unsigned, 16 bits) begins with sample 0, rises strictly and ends with the last sample.
Its links join neighbouring entries and are counted from 0.

Lists are lent as buffers and not copied: arrays of numpy, array.array, bytes, bytearray,
memoryview, or anything else with a one-dimensional, contiguous, aligned buffer of these elements.
Other elements and masked arrays raise TypeError; nothing is converted. Only a list, a tuple or a
range of whole numbers is copied into such a buffer, and the few lengths of `report` and
`pedestals`, whatever holds them; a number that does not fit raises OverflowError.

An output is a buffer that the caller lends, or is made anew: an array of numpy if the ticks (those of
trace 1, the codes, the record) are one or if that is asked for (`expand`, `expand_with`, `read`),
otherwise an array.array. Of a lent output only the entries used change, and the call returns a view
of these. It overlaps no other list; one that does raises ValueError.

A call may run at the same time as others on any threads. Nothing else may write to a lent list
before the call returns. minimum, least and report take up to 18 KiB of stack, scan up to 4 KiB, every
other call under 1 KiB.

>>> ticks, values = [0, 1, 3], [0, 1, 1]
>>> kept = walk(ticks, values, Ratio(4, 6))
>>> kept.tolist()
[0, 2]
>>> judge(ticks, values, kept, Ratio(665, 1000))
Verdict(passed=False, link=0, measure=Measure(error=Fraction(2, 3), sample=1, side='above'))
>>> judge(ticks, values, [0, 1], Ratio(4, 6))
Traceback (most recent call last):
    ...
kovrelna.Refusal: refused as 6: no kept list: it ends with 1, not with the last sample, 2
"""

from __future__ import annotations

import builtins
import ctypes
import itertools
import operator
from dataclasses import dataclass
from fractions import Fraction
from typing import Any, Iterable, List, NamedTuple, Optional, SupportsIndex, Tuple, overload

from . import _library, _tolerance
from ._lists import BYTE, ENTRY, LENGTH, SPARE, TICK, VALUE, Lent, Loan, Numbers, Output, Whole
from ._lists import new, parts, used, whole
from ._tolerance import Counts, Noise, Parts, Ratio, Tolerance
from ._words import strays, words

__version__ = "0.1.0"

__all__ = [
    "Checked",
    "Content",
    "Counts",
    "GAP_MAX",
    "Galloped",
    "GreedyVerdict",
    "Least",
    "Measure",
    "Noise",
    "Parts",
    "Pedestals",
    "Ratio",
    "Refusal",
    "Report",
    "Run",
    "Sum",
    "Summary",
    "Verdict",
    "View",
    "check",
    "expand",
    "expand_with",
    "gallop",
    "hold",
    "judge",
    "judge_greedy",
    "least",
    "measure",
    "minimum",
    "pedestals",
    "read",
    "report",
    "same",
    "scan",
    "sum",
    "walk",
    "write",
]

# The largest gap limit, which is none: no two samples of a trace lie further apart.
GAP_MAX = 1048575

# The most samples that a trace has, and one for `least`; the most channels of a crate.
_SAMPLES = 4096
_LEAST_SAMPLES = 256
_CHANNELS = 64


class Refusal(ValueError):
    """A call declined. It checks the rows that concern it in rising number, only 14 and then 11
    before all others, 12 right after 1, 20 right after 3, 19 right before 4, 15 right after 4 (in
    `least` right after 3) and 16 right after 5; `pedestals` checks 1, 2, 3 and 13 after 4, channel by
    channel, and `sum` checks 1, 2, 3 of trace 1 before those of trace 2, and 10 last. It answers with
    the first that fits; a refused call leaves every list and view as it was. `number` and `value` are
    the row's; `words` say what is wrong with what was given.

    | Number | Cause | Value |
    |---|---|---|
    | 1 | no samples or codes, too many (for `least`, over 256), or not as many values as ticks | 0 |
    | 2 | a tick is not above the one before | its sample |
    | 3 | the span is too long | the first sample over 1,048,575 ticks after the first |
    | 4 | the tolerance or one of its parts is not allowed; in `pedestals` also parts that differ \
| 0; in `scan` the position of the first such tolerance |
    | 5 | the allowance is below 2 or above 4,096 | 0 |
    | 6 | the proposed list is no kept list, or two samples are no link of the trace | the position \
of the first bad entry; the list's length if it only stops short; 0 if it is empty |
    | 7 | the list to be written has an invalid link | the position of the first |
    | 8 | the record is faulty | the fault's byte |
    | 9 | the second record of a comparison is faulty | the fault's byte |
    | 10 | the output is too short | the entries or bytes needed |
    | 11 | there are no channels, more than 64, lengths that do not add up to the lists, or two runs \
with unequal channel counts | 0 |
    | 12 | the range table does not have 256 values, or does not rise | 0; the first code whose \
value is not above the one before |
    | 13 | two runs differ in a channel's number of samples | the channel |
    | 14 | the noise factor is below 1 or above 16 | 0 |
    | 15 | the gap limit is below 1 or above 1,048,575 | 0 |
    | 16 | every list that obeys the gap limit has more samples than the allowance | 0 |
    | 17 | the ticks of two traces differ | the first sample whose ticks differ or that one of the \
traces does not have |
    | 18 | a sum is below -32,768 or above 32,767 | its sample |
    | 19 | there are no tolerances, or more than 16 | 0 |
    | 20 | k of a view is above 32, or its state is no view of the earlier samples | 0 |

    In `pedestals` the value of 1, 2 and 3 is the channel. A bad entry is a first one that is not 0,
    one that is not above the entry before it, or one beyond the trace. In `measure` the value of 6
    is 0 if i is beyond the trace, and 1 if j is beyond it or not above i.

    >>> try:
    ...     walk([5, 5], [0, 0], 1)
    ... except Refusal as refusal:
    ...     print(refusal.number, refusal.value)
    ...     print(refusal)
    2 1
    refused as 2: the tick of sample 1 is not above the one before: 5 after 5
    """

    def __init__(self, number: int, value: int, words: str) -> None:
        super().__init__(number, value, words)
        self.number = number
        self.value = value
        self.words = words

    def __str__(self) -> str:
        return f"refused as {self.number}: {self.words}"


def _check(answer: Any, loan: Loan, **given: Any) -> None:
    """Raises a refusal; `given` are other arguments of `words`."""
    if answer.number != 0:
        row = answer.number, answer.value
        raise Refusal(*row, words(*row, loan, **given))


def hold(tolerance: Tolerance) -> Parts[Fraction, Fraction]:
    """The tolerance as the two reduced fractions under which it is held, which are a tolerance
    again. `Parts.one` is the fraction of both where they are equal. Refusal: 4.

    >>> hold(Noise(1.5, 2.125))
    Parts(above=Fraction(51, 16), below=Fraction(51, 16))
    >>> hold(0.75).one
    Fraction(3, 4)
    >>> hold(Parts(Ratio(4, 6), 1))
    Parts(above=Fraction(2, 3), below=Fraction(1, 1))
    >>> print(hold(Parts(2, 1)))
    2 above and 1 below
    >>> hold(0.1)
    Traceback (most recent call last):
        ...
    kovrelna.Refusal: refused as 4: the tolerance is not allowed: 0.1 is not a multiple of 1/64; \
write Ratio(1, 10) or Fraction(1, 10)
    """
    answer = _library.hold(_tolerance.lend(tolerance))
    _check(answer, Loan(), tolerance=tolerance)
    return _tolerance.parts(answer)


def _number(given: SupportsIndex, bits: int) -> int:
    """A whole number of which 0 is not allowed. One that does not fit the library's, which has so
    many bits, is lent as 0."""
    number = operator.index(given)
    return number if 0 <= number < 2**bits else 0


def _limits(tolerance: Tolerance, gap: SupportsIndex) -> _library.Limits:
    """A tolerance and a gap limit as the library takes them."""
    return _library.Limits(_tolerance.lend(tolerance), _number(gap, 32))


class Measure(NamedTuple):
    """What `measure` returns, and what `judge` says of the first invalid link."""

    error: Fraction
    """The link's error."""
    sample: int
    """The first sample between its ends whose deviation is the error; where the error is 0, the one
    that the link begins with."""
    side: str
    """Where that sample lies beside the line: "above", "below" or, where the error is 0, "on". With
    "gap", which `judge` alone says, only the gap limit makes the link invalid: it is within the
    tolerance, its error may be 0, and the sample is the one before the first hole."""


# The sides by their numbers.
_SIDES = "on", "above", "below", "gap"


def _measure(answer: Any) -> Measure:
    """The measure in an answer."""
    return Measure(Fraction(answer.p, answer.q), answer.sample, _SIDES[answer.side])


def measure(ticks: Lent, values: Lent, i: SupportsIndex, j: SupportsIndex) -> Measure:
    """The error of the link from sample i to sample j of this trace, the first sample between them
    where it occurs, and whether that sample lies above or below the line. Samples are counted from
    0; negative numbers do not count from the end. Refusals: 1, 2, 3, 6.

    >>> measure(range(5), [0, 2, 0, -2, 0], 0, 4)
    Measure(error=Fraction(2, 1), sample=1, side='above')
    >>> measure(range(5), [0, 2, 0, -2, 0], 1, 4)
    Measure(error=Fraction(8, 3), sample=3, side='below')
    >>> measure([0, 1, 3], [0, 0, 0], 0, 2)
    Measure(error=Fraction(0, 1), sample=0, side='on')
    >>> measure([0, 1, 3], [0, 0, 0], 1, 3)
    Traceback (most recent call last):
        ...
    kovrelna.Refusal: refused as 6: no link: j must be a sample of the trace, from 0 to 2, not 3
    """
    link = operator.index(i), operator.index(j)
    # A number that does not fit the library's is lent as the largest, which is no sample either.
    ends = (end if 0 <= end < 2**64 else 2**64 - 1 for end in link)
    with Loan() as loan:
        answer = _library.measure(
            *loan.input("ticks", ticks, TICK), *loan.input("values", values, VALUE), *ends
        )
        _check(answer, loan, most=_SAMPLES, link=link)
    return _measure(answer)


@dataclass(frozen=True)
class Verdict:
    """What `judge` says of a kept list. True exactly if it has passed."""

    passed: bool
    """Whether every link is valid."""
    link: Optional[int]
    """The position of the first invalid link, counted from 0, if there is one."""
    measure: Optional[Measure] = None
    """The measure of that link, if there is one. A verdict may also be made without it."""

    def __bool__(self) -> bool:
        return self.passed


def _judge(
    call: Any,
    ticks: Lent,
    values: Lent,
    proposed: Lent,
    tolerance: Tolerance,
    gap: SupportsIndex,
) -> Any:
    """The answer of a call that judges a proposed list."""
    with Loan() as loan:
        answer = call(
            *loan.input("ticks", ticks, TICK),
            *loan.input("values", values, VALUE),
            *loan.input("proposed", proposed, ENTRY),
            _limits(tolerance, gap),
        )
        _check(answer, loan, most=_SAMPLES, tolerance=tolerance, gap=gap)
    return answer


def judge(
    ticks: Lent,
    values: Lent,
    proposed: Lent,
    tolerance: Tolerance,
    *,
    gap: SupportsIndex = GAP_MAX,
) -> Verdict:
    """Whether every link of the proposed list is valid on this trace. If not, the position of the
    first invalid link comes with its measure: the one that `measure` gives, or, for a link that only
    the gap limit makes invalid, "gap" with its error and the sample before its first hole. Refusals:
    1, 2, 3, 4, 15, 6.

    The measure is of the plain distance, the same above and below. So with unequal parts the sample
    that it names may lie within its own part, where another that is nearer to the line lies on the
    other side and outside the part there. With equal parts the sample named is outside the
    tolerance.

    >>> ticks, values = range(5), [0, 3, 0, 3, 0]
    >>> judge(ticks, values, [0, 3, 4], 2)
    Verdict(passed=True, link=None, measure=None)
    >>> verdict = judge(ticks, values, [0, 1, 2, 4], 2)
    >>> verdict.link, verdict.measure
    (2, Measure(error=Fraction(3, 1), sample=3, side='above'))
    >>> judge([0, 1, 9], [0, 0, 0], [0, 2], 2, gap=7).measure
    Measure(error=Fraction(0, 1), sample=1, side='gap')

    Here only sample 1, below by 1/3, makes the link invalid:

    >>> judge(range(4), [1, 0, 1, -1], [0, 3], Parts(above=5, below=0)).measure
    Measure(error=Fraction(4, 3), sample=2, side='above')
    """
    answer = _judge(_library.judge, ticks, values, proposed, tolerance, gap)
    return Verdict(True, None) if answer.passed else Verdict(False, answer.value, _measure(answer))


# The faults by their numbers.
_FAULTS: Tuple[Optional[str], ...] = (None, "link", "stop")


@dataclass(frozen=True)
class GreedyVerdict:
    """What `judge_greedy` says of a kept list. True exactly if it has passed."""

    passed: bool
    """Whether no link is at fault."""
    link: Optional[int]
    """The position of the first link at fault, counted from 0, if there is one."""
    fault: Optional[str]
    """Its fault, if there is one: "link" if it is invalid; "stop" if it is valid, does not end at the
    last sample, and the link from the same start to the sample after its end is valid too."""

    def __bool__(self) -> bool:
        return self.passed


def judge_greedy(
    ticks: Lent,
    values: Lent,
    proposed: Lent,
    tolerance: Tolerance,
    *,
    gap: SupportsIndex = GAP_MAX,
) -> GreedyVerdict:
    """Whether every link of the proposed list is valid on this trace, and each stop but the last
    sample is followed by an invalid link from the same start: where a link goes from sample i to
    sample j, and j is not the last sample, the link from i to j+1 is invalid. Sample j+1 need not be
    kept. If not, the position of the first link at fault comes with its fault; an invalid link is
    named as such, whatever the link to the next sample is. A no carries no measure: `judge` and
    `measure` give that of an invalid link. Refusals: 1, 2, 3, 4, 15, 6.

    A list that passes, however it was made, has at most as many samples as any kept list that obeys
    the gap limit and whose links have every sample at most a above and at most b below their lines,
    for all fractions a and b, neither below 0, whose sum is at most the smaller of U and D. With equal
    parts, and a and b each half of them: at most as many as any kept list whose links are all valid
    at half the tolerance under the same gap limit. The lists of `walk` and `gallop` always pass; those
    of `minimum` need not. A list that passes here passes `judge` too.

    >>> ticks, wave = range(5), [0, 2, 0, -2, 0]
    >>> judge_greedy(ticks, wave, [0, 2, 4], 2)
    GreedyVerdict(passed=True, link=None, fault=None)

    The link from 0 to 1 is valid, and so is the one from 0 to 2; that from 0 to 3 is not:

    >>> judge_greedy(ticks, wave, [0, 1, 4], 2)
    GreedyVerdict(passed=False, link=0, fault='stop')
    >>> judge_greedy(ticks, wave, [0, 3, 4], 2)
    GreedyVerdict(passed=False, link=0, fault='link')
    """
    answer = _judge(_library.judge_greedy, ticks, values, proposed, tolerance, gap)
    link = None if answer.passed else answer.value
    return GreedyVerdict(bool(answer.passed), link, _FAULTS[answer.fault])


def _reduce(
    call: Any,
    ticks: Lent,
    values: Lent,
    asked: Tuple[Any, ...],
    out: Optional[Output],
    **given: Any,
) -> Any:
    """The answer of a call that keeps samples, and the kept list. It takes what is asked of the list
    between the trace and the output. `given` is as for `_check`."""
    with Loan() as loan:
        trace = loan.input("ticks", ticks, TICK) + loan.input("values", values, VALUE)
        room = new(ENTRY, min(trace[1], _SAMPLES), ticks) if out is None else out
        answer = call(*trace, *asked, *loan.output("out", room, ENTRY))
        _check(answer, loan, **given)
    return answer, used(room, ENTRY, 0, answer.value, out is None)


def _bounded(
    call: Any,
    ticks: Lent,
    values: Lent,
    tolerance: Tolerance,
    out: Optional[Output],
    gap: SupportsIndex,
) -> Any:
    """The same of a call that takes a tolerance."""
    asked = (_limits(tolerance, gap),)
    return _reduce(call, ticks, values, asked, out, most=_SAMPLES, tolerance=tolerance, gap=gap)


def walk(
    ticks: Lent,
    values: Lent,
    tolerance: Tolerance,
    out: Optional[Output] = None,
    *,
    gap: SupportsIndex = GAP_MAX,
) -> Numbers:
    """From sample i, beginning with 0, tests the links to i+1, i+2, ... and keeps the sample before
    the first invalid one, or the last sample if none is invalid; goes on from there.

    Returns the kept list. It has at most as many samples as any kept list that obeys the gap limit
    and whose links have every sample at most a above and at most b below their lines, for all
    fractions a and b, neither below 0, whose sum is at most the smaller of U and D. With equal parts,
    and a and b each half of them: no kept list whose links are all valid at half the tolerance under
    the same gap limit has fewer. One that does not obey the gap limit may, and so may one within U/2
    and D/2 where U and D differ. Refusals: 1, 2, 3, 4, 15, and 10 if `out` has fewer entries than the
    trace has samples.

    >>> from array import array
    >>> ticks, values = range(5), [0, 2, 0, -2, 0]
    >>> walk(ticks, values, 2)
    array('H', [0, 2, 4])
    >>> out = array("H", [9, 9, 9, 9, 9, 9])
    >>> walk(ticks, values, 2, out).tolist()
    [0, 2, 4]
    >>> out
    array('H', [0, 2, 4, 9, 9, 9])
    >>> walk([0, 1, 2, 10, 11, 12], [0] * 6, 2, gap=7)
    array('H', [0, 2, 3, 5])
    >>> walk(ticks, values, Parts(above=2, below=1))
    array('H', [0, 2, 3, 4])
    """
    return _bounded(_library.walk, ticks, values, tolerance, out, gap)[1]


class Galloped(NamedTuple):
    """What `gallop` returns."""

    kept: Numbers
    """The kept list."""
    probes: int
    """The probe total."""


def gallop(
    ticks: Lent,
    values: Lent,
    tolerance: Tolerance,
    out: Optional[Output] = None,
    *,
    gap: SupportsIndex = GAP_MAX,
) -> Galloped:
    """From sample i, beginning with 0, probes the links to i+2, i+4, i+8, ... until one is invalid.
    Low is the last valid offset, or 1; high is the invalid one. While low < high - 1, probes the
    offset (low + high) / 2, rounded down, and moves low there if that link is valid, high if not.
    Keeps sample i + low and goes on from there.

    A probe past the last sample is invalid, and counts.

    A stop is a kept sample after the first. One that advances by r samples takes exactly
    2 floor(log2 r) + 1 probes, the last stop too, and the total is the sum of these. For s stops of a
    trace of n samples it is at most s (2 floor(log2(n - 1)) + 1), and at most 2 (n - 1) - s, which is
    reached exactly where no stop advances by more than 2 samples. One sample takes no probe.

    The promise of the kept list and the refusals are those of `walk`.

    >>> gallop(range(5), [0, 2, 0, -2, 0], 2)
    Galloped(kept=array('H', [0, 4]), probes=5)
    >>> 2 * ((4 - 0).bit_length() - 1) + 1
    5
    """
    answer, kept = _bounded(_library.gallop, ticks, values, tolerance, out, gap)
    return Galloped(kept, answer.probes)


def minimum(
    ticks: Lent,
    values: Lent,
    tolerance: Tolerance,
    out: Optional[Output] = None,
    *,
    gap: SupportsIndex = GAP_MAX,
) -> Numbers:
    """The kept list of valid links with fewest samples. Of several, the one whose second sample is
    latest, then its third, and so on. The refusals are those of `walk`.

    >>> minimum(range(5), [0, 3, 0, 3, 0], 2)
    array('H', [0, 3, 4])
    """
    return _bounded(_library.minimum, ticks, values, tolerance, out, gap)[1]


class Least(NamedTuple):
    """What `least` returns."""

    kept: Numbers
    """The kept list."""
    error: Fraction
    """Its error: the least there is."""


def least(
    ticks: Lent,
    values: Lent,
    allowance: SupportsIndex,
    out: Optional[Output] = None,
    *,
    gap: SupportsIndex = GAP_MAX,
) -> Least:
    """The least error over the kept lists of at most `allowance` samples that obey the gap limit,
    and the kept list that `minimum` finds at that error, in both parts, under the same gap limit. An
    error is the plain distance, the same above and below. Traces here have at most 256 samples.

    Refusals: 1, 2, 3, 15, 5, 16, and 10 if `out` has fewer entries than the trace has samples. The
    shortest kept list that obeys the gap limit has both ends of the trace and the two samples beside
    each hole; 16 is refused exactly if it has more than `allowance` samples.

    >>> least(range(5), [0, 3, 0, 3, 0], 3)
    Least(kept=array('H', [0, 3, 4]), error=Fraction(2, 1))
    >>> least([0, 1, 2, 10, 11, 12], [0] * 6, 3, gap=7)
    Traceback (most recent call last):
        ...
    kovrelna.Refusal: refused as 16: every list that obeys the gap limit, 7, has more samples than \
the allowance, 3: the shortest has 4
    """
    asked = _number(gap, 32), _number(allowance, 64)
    answer, kept = _reduce(
        _library.least, ticks, values, asked, out, most=_LEAST_SAMPLES, gap=gap, allowance=allowance
    )
    return Least(kept, Fraction(answer.p, answer.q))


def scan(
    ticks: Lent,
    values: Lent,
    tolerances: Iterable[Tolerance],
    out: Optional[Output] = None,
    *,
    gap: SupportsIndex = GAP_MAX,
) -> List[Numbers]:
    """What `walk` keeps at each of 1 to 16 tolerances under one gap limit, found in a single pass over
    the trace. The tolerances may repeat, and come in any order and in any form, each with parts of
    its own.

    Returns the kept list at each tolerance. In a lent output they lie one after another, each in a
    part with an entry for each sample: for a trace of n samples the list at tolerance a begins with
    entry a n. All other entries are as they were: the rest of each part, and what lies behind the
    last part.

    In the pass, once sample j has been taken in, from sample 1 on, the samples kept so far with
    sample j as the last are the lists of `walk` of samples 0 to j.

    Refusals: 1, 2, 3; 19; 4 with the position of the first tolerance that is not allowed, for either
    part; 15; 10 with the number of tolerances times that of samples, if `out` has fewer entries.

    >>> from array import array
    >>> ticks, values = range(5), [0, 2, 0, -2, 0]
    >>> scan(ticks, values, [2, Ratio(8, 3)])
    [array('H', [0, 2, 4]), array('H', [0, 4])]
    >>> out = array("H", [9] * 11)
    >>> [kept.tolist() for kept in scan(ticks, values, [2, 0.5], out)]
    [[0, 2, 4], [0, 1, 3, 4]]
    >>> out
    array('H', [0, 2, 4, 9, 9, 0, 1, 3, 4, 9, 9])
    >>> scan([0, 1, 2, 10, 11, 12], [0] * 6, [2], gap=7)
    [array('H', [0, 2, 3, 5])]
    >>> scan(ticks, values, [2, 0.1])
    Traceback (most recent call last):
        ...
    kovrelna.Refusal: refused as 4: tolerances[1] is not allowed: 0.1 is not a multiple of 1/64; \
write Ratio(1, 10) or Fraction(1, 10)
    """
    try:
        # Where there are more tolerances, one too many is refused as well.
        given = list(itertools.islice(tolerances, _library.TOLERANCES + 1))
    except TypeError:
        message = f"tolerances must be a list of tolerances, not {tolerances!r}"
        raise TypeError(message) from None
    lent = _tolerance.lend_all(given)
    count = min(len(given), _library.TOLERANCES)
    with Loan() as loan:
        trace = loan.input("ticks", ticks, TICK) + loan.input("values", values, VALUE)
        samples = min(trace[1], _SAMPLES)
        room = new(ENTRY, count * samples, ticks) if out is None else out
        answer = _library.scan(*trace, lent, _number(gap, 32), *loan.output("out", room, ENTRY))
        _check(answer, loan, most=_SAMPLES, tolerances=given, gap=gap)
    return parts(room, ENTRY, samples, answer.kept[:count], out is None)


class View:
    """A live view, which keeps a few samples of a trace while it grows: with k from 0 to 32, both
    ends and at most 2 k inner samples, those between the ends. It is begun from k alone, as the view
    of the first sample, and each new sample is added to it. Refusal: 20 if k is below 0 or above 32.

    A view can be copied and pickled, and the copy goes on as the view itself does; if what is restored
    is no view, the next addition refuses it. Two views are equal if their k and their samples are.
    Where additions to one view run at the same time on several threads, only the last that succeeds
    counts.

    >>> ticks, values = range(8), [-4, -4, 0, 4, -4, 4, -4, 0]
    >>> view = View(1)
    >>> view.samples
    [0]
    >>> for n in range(2, 9):
    ...     view.add(ticks[:n], values[:n])
    >>> view
    View(k=1, samples=[0, 4, 5, 7])
    >>> view.add(ticks, values)
    Traceback (most recent call last):
        ...
    kovrelna.Refusal: refused as 20: no view of the earlier samples: it ends with sample 7, and the \
new sample, the last that is lent, is 7, not 8
    """

    def __init__(self, k: SupportsIndex) -> None:
        number = operator.index(k)
        # One that does not fit the library's is lent as the largest, which is not allowed either.
        answer = _library.view_begin(number if 0 <= number < 2**64 else 2**64 - 1)
        _check(answer, Loan(), k=number)
        self._state = _library.View.from_buffer_copy(answer.view)

    @property
    def k(self) -> int:
        """Half the most inner samples that are kept."""
        return int(self._state.k)

    @property
    def samples(self) -> List[int]:
        """The kept list, as a new list."""
        return list(self._state.samples[: self._state.count])

    def add(self, ticks: Lent, values: Lent) -> None:
        """Adds a new sample to the view of the samples before it. The trace has all of these, with
        the new sample last, so that the first addition is lent two samples.

        The new sample is put at the end of the list. If that makes 2 k + 1 inner samples, the one
        whose neighbours in the list have the link with the least error is dropped, the earliest
        among equals: so the new sample never is, and the one before it, the last until then, may be.
        No gap limit and no tolerance applies: an error is the plain distance, the same above and
        below.

        For a view that was begun on the first sample and changed only by additions, with k and the
        earlier samples unaltered, the list's error, that of its worst link, is at most twice that of
        every kept list of the trace with at most k inner samples; so it is at most twice the error
        of `least` with the allowance k + 2 and no gap limit, for as many samples as that takes. For
        a state set by hand there is no such bound.

        An addition checks every tick that it is lent and, where it drops a sample, looks at each
        sample at most twice: its time grows in proportion to the number of samples lent. So a whole
        trace of n samples, added one by one, takes time in proportion to n squared. Plain lists are
        copied at each addition besides.

        Refusals: 1, 2, 3 of the trace with the new sample; 20 if the state is no view of the samples
        before the new one, such as where a sample is added twice or left out. A refused addition
        leaves the view as it was.
        """
        # A copy, which nothing else sees while it changes.
        state = _library.View.from_buffer_copy(self._state)
        with Loan() as loan:
            trace = loan.input("ticks", ticks, TICK) + loan.input("values", values, VALUE)
            answer = _library.view_add(state, *trace)
            _check(answer, loan, most=_SAMPLES, view=state)
        self._state = state

    def __repr__(self) -> str:
        return f"View(k={self.k}, samples={self.samples})"

    def __eq__(self, other: object) -> bool:
        if not isinstance(other, View):
            return NotImplemented
        counts = self._state.count, other._state.count
        return (self.k, counts[0], self.samples) == (other.k, counts[1], other.samples)

    def __getstate__(self) -> bytes:
        return bytes(self._state)

    def __setstate__(self, state: bytes) -> None:
        size = ctypes.sizeof(_library.View)
        if len(state) != size:
            raise ValueError(f"the state of a view has {size} bytes, not {len(state)}")
        self._state = _library.View.from_buffer_copy(state)


class Sum(NamedTuple):
    """What `sum` returns."""

    sums: Numbers
    """The values of the summed trace."""
    joined: Numbers
    """The joined list, a kept list of that trace."""


def sum(
    ticks1: Lent,
    values1: Lent,
    ticks2: Lent,
    values2: Lent,
    list1: Lent,
    list2: Lent,
    sums: Optional[Output] = None,
    joined: Optional[Output] = None,
) -> Sum:
    """Adds two traces with the same ticks sample by sample, and joins their two kept lists into the
    rising list of the samples in either, each once. The sums are the values of the summed trace,
    whose ticks are those of either trace; the joined list is a kept list of it. After
    `from kovrelna import *` the name `sum` is no longer Python's own.

    If every link of list 1 is valid on trace 1 at parts U1 above and D1 below, and every link of list
    2 on trace 2 at U2 and D2, under the same gap limit, then every link of the joined list is valid
    on the summed trace at U1 + D1 + U2 + D2, above and below alike, under that gap limit. With equal
    parts T1 and T2 that is 2 (T1 + T2). This holds for any fractions, whether they are allowed as
    tolerances or not. It does not hold at U1 + U2 above and D1 + D2 below: with equal parts, not at
    T1 + T2.

    Refusals, in this order: 1, 2, 3 of trace 1; 1, 2, 3 of trace 2; 6 of list 1, for trace 1; 6 of
    list 2, for trace 2; 17; 18; 10 with the number of samples, as each output needs an entry for
    each.

    >>> ticks, values1, values2 = range(5), [-6, -6, 0, 6, -6], [3, 4, 2, 4, 3]
    >>> list1, list2 = walk(ticks, values1, 0), minimum(ticks, values2, 1)
    >>> list1.tolist(), list2.tolist()
    ([0, 1, 3, 4], [0, 4])
    >>> summed = sum(ticks, values1, ticks, values2, list1, list2)
    >>> summed
    Sum(sums=array('h', [-3, -2, 2, 10, -3]), joined=array('H', [0, 1, 3, 4]))
    >>> judge(ticks, summed.sums, summed.joined, 2 * (0 + 1)).passed
    True
    >>> judge(ticks, summed.sums, summed.joined, 0 + 1).measure
    Measure(error=Fraction(2, 1), sample=2, side='below')
    >>> sum(ticks, values1, range(1, 6), values2, list1, list2)
    Traceback (most recent call last):
        ...
    kovrelna.Refusal: refused as 17: the ticks of sample 0 differ: 0 in trace 1 and 1 in trace 2
    """
    with Loan() as loan:
        lent = (
            *loan.input("ticks1", ticks1, TICK),
            *loan.input("values1", values1, VALUE),
            *loan.input("ticks2", ticks2, TICK),
            *loan.input("values2", values2, VALUE),
            *loan.input("list1", list1, ENTRY),
            *loan.input("list2", list2, ENTRY),
        )
        samples = min(lent[1], _SAMPLES)
        to_sums = new(VALUE, samples, ticks1) if sums is None else sums
        to_joined = new(ENTRY, samples, ticks1) if joined is None else joined
        answer = _library.sum(
            *lent, *loan.output("sums", to_sums, VALUE), *loan.output("joined", to_joined, ENTRY)
        )
        _check(answer, loan, pair=True)
    return Sum(
        used(to_sums, VALUE, 0, samples, sums is None),
        used(to_joined, ENTRY, 0, answer.value, joined is None),
    )


class Summary(NamedTuple):
    """A channel's row in a `Report`. If its trace is refused, all else is 0."""

    samples: int
    """How many samples it has."""
    kept: int
    """How many of them `walk` keeps."""
    error: Fraction
    """The error of walk's list: that of its worst link, a plain distance, the same above and below;
    at most the greater part of the tolerance."""
    sample: int
    """The sample of the measure of the first link with that error, counted from 0 in the channel's
    own trace; 0 where the error is 0."""
    number: int
    """0, or the number under which its trace is refused: 1, 2 or 3."""


class Report(NamedTuple):
    """What `report` returns."""

    rows: List[Summary]
    """A row for each channel."""
    samples: int
    """The sum of the rows' samples."""
    kept: int
    """The sum of their kept numbers."""
    error: Fraction
    """The greatest of their errors."""


def _crate(
    loan: Loan, ticks: Lent, values: Lent, lengths: Whole, run: str = ""
) -> Tuple[Any, ...]:
    """The three lists of a crate, lent under names that begin with that of the run."""
    # Where there are more channels, one too many is refused as well.
    parts = whole(f"{run}lengths", lengths, LENGTH, _CHANNELS + 1)
    most = builtins.sum(parts) + SPARE
    return (
        *loan.input(f"{run}ticks", ticks, TICK, most),
        *loan.input(f"{run}values", values, VALUE, most),
        *loan.input(f"{run}lengths", parts, LENGTH),
    )


def report(
    ticks: Lent,
    values: Lent,
    lengths: Whole,
    tolerance: Tolerance,
    *,
    gap: SupportsIndex = GAP_MAX,
) -> Report:
    """Reports on a crate of 1 to 64 channels, whose traces come end to end in ticks and values;
    `lengths` has the number of samples of each: whole numbers in a list, an array of any kind, or
    anything else that gives them in turn. The rows are a list of named tuples, also where the ticks
    are an array of numpy.

    A row depends on its channel's trace, on the tolerance and on the gap limit, on nothing else in
    the crate. A channel whose trace is refused, such as one of no samples or of more than 4,096, has
    the number in its row, and the call goes on. Refusals: 11, before all others; 4; 15.

    >>> crate = report([0, 1, 2, 5, 5], [0, 3, 0, 1, 1], [3, 2], 3)
    >>> crate.rows[0]
    Summary(samples=3, kept=2, error=Fraction(3, 1), sample=1, number=0)
    >>> crate.rows[1]
    Summary(samples=0, kept=0, error=Fraction(0, 1), sample=0, number=2)
    >>> crate.samples, crate.kept, crate.error
    (3, 2, Fraction(3, 1))
    """
    with Loan() as loan:
        crate = _crate(loan, ticks, values, lengths)
        rows = (_library.Summary * crate[-1])()
        answer = _library.report(*crate, _limits(tolerance, gap), rows, len(rows))
        _check(answer, loan, tolerance=tolerance, gap=gap)
    return Report(
        [
            Summary(row.samples, row.kept, Fraction(row.p, row.q), row.sample, row.number)
            for row in rows
        ],
        answer.samples,
        answer.kept,
        Fraction(answer.p, answer.q),
    )


class Run(NamedTuple):
    """A run of a crate of 1 to 64 channels, whose traces come end to end, as `report` takes them."""

    ticks: Lent
    """The ticks of all channels."""
    values: Lent
    """The values of all channels."""
    lengths: Whole
    """The number of samples of each channel."""


class Pedestals(NamedTuple):
    """What `pedestals` returns: channels, counted from 0, in channel order."""

    moved: List[int]
    """Those that have moved."""
    noisy: List[int]
    """Those that are noisy."""


def _run(loan: Loan, name: str, run: Any) -> Tuple[Any, ...]:
    """The three lists of a run."""
    if not isinstance(run, tuple) or len(run) != 3:
        given = f"a tuple of {len(run)}" if isinstance(run, tuple) else type(run).__name__
        message = f"{name} must be a Run, or another tuple of ticks, values and lengths"
        raise TypeError(f"{message}, not {given}")
    ticks, values, lengths = run
    return _crate(loan, ticks, values, lengths, f"{name}.")


def pedestals(
    today: Tuple[Lent, Lent, Whole],
    before: Tuple[Lent, Lent, Whole],
    tolerance: Tolerance,
    k: SupportsIndex,
) -> Pedestals:
    """Compares two pedestal runs of a crate, today's and one before, channel by channel. Each is a
    `Run`, or another tuple of ticks, values and lengths, with ticks of its own. A channel has n
    samples in both; S1 is the sum of its values today and Q1 that of their squares, S2 and Q2 are
    those of the run before.

    A channel has moved if |S1 - S2| q exceeds p n for the one tolerance p/q: its means differ by more
    than that. It is noisy if n Q1 - S1^2 exceeds k^2 (n Q2 - S2^2): its standard deviation is more
    than k times that of the run before. The noise factor `k` is whole, from 1 to 16. Both tests are
    exact. The channels are plain lists, also where the ticks are an array of numpy.

    Refusals: 14; 11; 4, also for a tolerance whose parts differ; then, channel by channel, 1, 2 or 3
    for today's trace, 1, 2 or 3 for the one before, and 13, each with the channel.

    >>> ticks, lengths = 3 * [0, 1, 2, 3], [4, 4, 4]
    >>> today = Run(ticks, [11, 13, 11, 13, -5, -5, -5, -4, 0, 2, 0, 2], lengths)
    >>> before = Run(ticks, [10, 12, 10, 12, -5, -5, -5, -5, 0, 1, 0, 1], lengths)
    >>> pedestals(today, before, Ratio(1, 2), 2)
    Pedestals(moved=[0], noisy=[1])
    >>> pedestals(today, before._replace(ticks=[0, 1, 2, 2] + ticks[4:]), Ratio(1, 2), 2)
    Traceback (most recent call last):
        ...
    kovrelna.Refusal: refused as 2: the run before: in channel 0, the tick of sample 3 is not above \
the one before: 2 after 2
    """
    with Loan() as loan:
        first, second = _run(loan, "today", today), _run(loan, "before", before)
        moved, noisy = ((_library.Channel * first[-1])() for _ in range(2))
        answer = _library.pedestals(
            *first,
            *second,
            _tolerance.lend(tolerance),
            _number(k, 64),
            moved,
            len(moved),
            noisy,
            len(noisy),
        )
        _check(answer, loan, tolerance=tolerance, factor=k)
    return Pedestals(moved[: answer.moved], noisy[: answer.noisy])


def _expand(
    call: Any, codes: Lent, out: Optional[Output], numpy: bool, *tables: Lent
) -> Numbers:
    """What a call that expands codes, by no table or one, writes."""
    with Loan() as loan:
        lent = loan.input("codes", codes, BYTE)
        values = [part for table in tables for part in loan.input("table", table, VALUE)]
        room = new(VALUE, min(lent[1], _SAMPLES), codes, numpy) if out is None else out
        answer = call(*lent, *values, *loan.output("out", room, VALUE))
        _check(answer, loan, most=_SAMPLES)
    return used(room, VALUE, 0, answer.value, out is None)


def expand(codes: Lent, out: Optional[Output] = None, *, numpy: bool = False) -> Numbers:
    """The value of each range code: a code is one byte, 32 e + m with m below 32, and its value is
    2^e times (m + 32), minus 32. Every code is legal. With `numpy=True` a new output is an array of
    numpy, whatever the codes are. Refusals: 1 if there are no codes or more than 4,096; 10 with the
    number of values.

    >>> expand(bytes([31, 32, 63, 64, 255]))
    array('h', [31, 32, 94, 96, 8032])
    """
    return _expand(_library.expand, codes, out, numpy)


def expand_with(
    codes: Lent, table: Lent, out: Optional[Output] = None, *, numpy: bool = False
) -> Numbers:
    """The value of each range code as `expand` gives it, with a table of one's own in place of its
    values: code c has the value `table[c]`. The table has 256 values (signed, 16 bits), each above
    the one before. All of it is checked at each call, whatever codes occur. There is always one: an
    empty table is refused, and None raises TypeError. With `numpy=True` a new output is an array of
    numpy, whatever the codes are.

    Refusals: 1 if there are no codes or more than 4,096; 12; 10 with the number of values.

    >>> table = [100 * (code - 200) for code in range(256)]
    >>> expand_with(bytes([0, 200, 255]), table)
    array('h', [-20000, 0, 5500])
    >>> table[31] = table[30]
    >>> expand_with(bytes([0, 200, 255]), table)
    Traceback (most recent call last):
        ...
    kovrelna.Refusal: refused as 12: the value of code 31 is not above the one before: \
-17000 after -17000
    """
    return _expand(_library.expand_with, codes, out, numpy, table)


@overload
def write(
    ticks: Lent,
    values: Lent,
    kept: Lent,
    tolerance: Tolerance,
    buffer: None = None,
    *,
    gap: SupportsIndex = GAP_MAX,
) -> bytes: ...
@overload
def write(
    ticks: Lent,
    values: Lent,
    kept: Lent,
    tolerance: Tolerance,
    buffer: Output,
    place: SupportsIndex = 0,
    *,
    gap: SupportsIndex = GAP_MAX,
) -> Numbers: ...
def write(
    ticks: Lent,
    values: Lent,
    kept: Lent,
    tolerance: Tolerance,
    buffer: Optional[Output] = None,
    place: SupportsIndex = 0,
    *,
    gap: SupportsIndex = GAP_MAX,
) -> Any:
    """The record of the kept samples and the tolerance: new bytes, or written into the buffer from
    the byte at `place` on, where the bytes before and after the record keep their values; then a
    view of the record is returned.

    A record consists of commands of one byte, here hexadecimal, with fixed operands, high byte
    first, signed ones in two's complement:

    | Byte | Operands |
    |---|---|
    | 54 | tolerance with equal parts: p (5 bytes), q (3) |
    | 42 | tolerance with unequal parts: p (5), q (3) of the part above, then p (5), q (3) of that \
below |
    | 41 | first sample: tick (4), value (2) |
    | 53 | short step: advance (1, from 1), change of value (1, signed) |
    | 4C | long step: advance (3, from 1), new value (2) |
    | 45 | end: the number of samples given (2) |

    They come in the order 54 or 42, 41, any steps, 45, and nothing more. Each part of the tolerance
    is in lowest terms. A step is short exactly if its advance is at most 255 and its change from -128
    to 127. A record has at most 24,597 bytes. The gap limit is asked of the links and is not part of
    the record.

    Refusals: 1, 2, 3, 4, 15, 6, 7, and 10 with the record's length; from a place past the end of the
    buffer there is no room.

    >>> write([0, 1, 3], [0, 1, 1], [0, 2], Ratio(2, 3)).hex(" ")
    '54 00 00 00 00 02 00 00 03 41 00 00 00 00 00 00 53 03 01 45 00 02'
    >>> write([0, 1, 3], [0, 1, 1], [0, 2], Parts(Ratio(2, 3), 1))[:17].hex(" ")
    '42 00 00 00 00 02 00 00 03 00 00 00 00 01 00 00 01'
    >>> event = bytearray(30)
    >>> len(write([0, 1, 3], [0, 1, 1], [0, 2], Ratio(2, 3), event, 8))
    22
    >>> event.hex()
    '000000000000000054000000000200000341000000000000530301450002'
    """
    place = operator.index(place)
    if place < 0 or (buffer is None and place != 0):
        raise ValueError(f"place must be from 0 on, and 0 without a buffer, not {place}")
    with Loan() as loan:
        trace = loan.input("ticks", ticks, TICK) + loan.input("values", values, VALUE)
        entries = loan.input("kept", kept, ENTRY)
        # The longest record of so many samples.
        new_record = bytearray(21 + 6 * min(entries[1], _SAMPLES) if buffer is None else 0)
        lent = loan.output("buffer", new_record if buffer is None else buffer, BYTE)
        limits = _limits(tolerance, gap)
        answer = _library.write(*trace, *entries, limits, *lent, min(place, lent[1]))
        strayed = None
        if answer.number == 7:
            strayed = _measure(_library.judge(*trace, *entries, limits))
        _check(
            answer,
            loan,
            most=_SAMPLES,
            tolerance=tolerance,
            gap=gap,
            place=place,
            measure=strayed,
        )
    if buffer is None:
        return bytes(new_record[: answer.value])
    return used(buffer, BYTE, place, answer.value)


class Content(NamedTuple):
    """What `read` returns."""

    ticks: Numbers
    """The ticks of the record's samples."""
    values: Numbers
    """Their values."""
    tolerance: Parts[Fraction, Fraction]
    """The record's tolerance."""


def read(
    record: Lent,
    ticks: Optional[Output] = None,
    values: Optional[Output] = None,
    *,
    numpy: bool = False,
) -> Content:
    """What a record holds, as `write` describes it. With `numpy=True` new outputs are arrays of
    numpy, whatever the record is: `read(record, numpy=True)`.

    Refusals: 8; 10 with the number of samples, as each output needs an entry for each. A fault lies
    at the first byte of the first command that breaks a rule or is cut off, at the first byte after
    a whole 45 command, or at the record's end where a command is missing.

    >>> record = write([0, 1, 3], [0, 1, 1], [0, 2], Ratio(2, 3))
    >>> content = read(record)
    >>> content.ticks, content.values
    (array('I', [0, 3]), array('h', [0, 1]))
    >>> content.tolerance
    Parts(above=Fraction(2, 3), below=Fraction(2, 3))
    >>> read(record[:18])
    Traceback (most recent call last):
        ...
    kovrelna.Refusal: refused as 8: the record is faulty at byte 16
    """
    with Loan() as loan:
        lent = loan.input("record", record, BYTE)
        # A sample takes at least 3 bytes.
        samples = min(lent[1] // 3, _SAMPLES)
        to_ticks = new(TICK, samples, record, numpy) if ticks is None else ticks
        to_values = new(VALUE, samples, record, numpy) if values is None else values
        answer = _library.read(
            *lent,
            *loan.output("ticks", to_ticks, TICK),
            *loan.output("values", to_values, VALUE),
        )
        _check(answer, loan)
    return Content(
        used(to_ticks, TICK, 0, answer.value, ticks is None),
        used(to_values, VALUE, 0, answer.value, values is None),
        _tolerance.parts(answer),
    )


def same(first: Lent, second: Lent) -> bool:
    """Whether two records are the same: their samples agree, and so do both parts of their
    tolerances. For accepted records that is so exactly if their bytes agree. Whether the samples
    alone agree, `read` of each shows. Refusals: 8 for the first record, then 9 for the second; 8 for
    two faulty records with the same bytes.

    >>> records = [write([0, 1, 3], [0, 1, 1], [0, 2], counts) for counts in (1.0, 2.5)]
    >>> same(*records)
    False
    >>> one, other = map(read, records)
    >>> (one.ticks, one.values) == (other.ticks, other.values)
    True
    """
    with Loan() as loan:
        answer = _library.same(
            *loan.input("first", first, BYTE), *loan.input("second", second, BYTE)
        )
        _check(answer, loan)
    return bool(answer.passed)


@dataclass(frozen=True)
class Checked:
    """What `check` says of a record and a trace. True exactly if the record may stand for it."""

    passed: bool
    """Whether it may."""
    cause: Optional[str]
    """Why it may not, with the place."""

    def __bool__(self) -> bool:
        return self.passed


def check(
    record: Lent, ticks: Lent, values: Lent, *, gap: SupportsIndex = GAP_MAX
) -> Checked:
    """Whether the record may stand for this trace: its samples are samples of the trace, the first
    and the last among them, and every link is valid at the record's own tolerance under this gap
    limit. Refusals: 8 for the record; 1, 2, 3 for the trace; 15.

    >>> ticks, values = [0, 1, 3], [0, 1, 1]
    >>> record = write(ticks, values, [0, 2], Ratio(2, 3))
    >>> check(record, ticks, values)
    Checked(passed=True, cause=None)
    >>> check(record, ticks, [0, 2, 1]).cause
    'link 0, from sample 0 at tick 0 to sample 2 at tick 3, is not within 2/3: sample 1 at tick 1 \
lies 5/3 above the line'
    >>> check(record, ticks, values, gap=2)
    Checked(passed=True, cause=None)
    >>> check(record, ticks, values, gap=1).cause
    'link 0, from sample 0 at tick 0 to sample 2 at tick 3, crosses the hole from tick 1 to tick 3, \
and its error is 2/3'
    """
    content = read(record)
    try:
        judge(ticks, values, (), content.tolerance, gap=gap)
    except Refusal as refusal:
        # The empty list is refused as 6, after the checks of the trace and the gap limit.
        if refusal.number != 6:
            raise
    with Loan() as loan:
        loan.input("ticks", ticks, TICK)
        loan.input("values", values, VALUE)
        trace = list(loan.numbers(TICK)), list(loan.numbers(VALUE))
        cause = _cause(content, *trace, operator.index(gap))
    return Checked(cause is None, cause)


def _cause(content: Content, ticks: list[int], values: list[int], gap: int) -> Optional[str]:
    """Why the content may not stand for the trace, if it may not."""
    samples = {tick: sample for sample, tick in enumerate(ticks)}
    for number, (tick, value) in enumerate(zip(content.ticks, content.values)):
        here = f"sample {number} of the record, at tick {tick},"
        if tick not in samples:
            return f"{here} is not in the trace"
        other = values[samples[tick]]
        if other != value:
            return f"{here} has value {value}, and the trace has {other}"
    kept = [samples[tick] for tick in content.ticks]
    for end, sample, entry in (("first", 0, kept[0]), ("last", len(ticks) - 1, kept[-1])):
        if entry != sample:
            return f"the {end} sample of the trace, at tick {ticks[sample]}, is not kept"
    verdict = judge(ticks, values, kept, content.tolerance, gap=gap)
    if verdict.link is None or verdict.measure is None:
        return None
    start, end = (f"sample {k} at tick {ticks[k]}" for k in kept[verdict.link :][:2])
    fault = strays(ticks, content.tolerance, *verdict.measure)
    return f"link {verdict.link}, from {start} to {end}, {fault}"
