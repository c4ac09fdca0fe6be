"""Why a call declined, in words, from what it was lent: `words`. Why a link is invalid: `strays`."""

import itertools
import operator
from fractions import Fraction
from typing import List, Optional, Sequence, SupportsIndex, Tuple

from . import _library, _tolerance
from ._lists import ENTRY, MOST, SPARE, TICK, VALUE, Borrowed, Loan


def words(
    number: int,
    value: int,
    loan: Loan,
    *,
    most: int = 0,
    tolerance: _tolerance.Tolerance = 0,
    tolerances: Optional[Sequence[_tolerance.Tolerance]] = None,
    gap: SupportsIndex = 0,
    allowance: SupportsIndex = 0,
    place: int = 0,
    factor: Optional[SupportsIndex] = None,
    link: Optional[Tuple[int, int]] = None,
    measure: Optional[Tuple[Fraction, int, str]] = None,
    pair: bool = False,
    k: SupportsIndex = 0,
    view: Optional[_library.View] = None,
) -> str:
    """The refusal with this number and value of a call that was lent these lists, of samples or
    codes at most so many, and this tolerance or these, gap limit or allowance; an output counts from
    the place on. A call with a noise factor was lent two runs, one with a pair two traces and a list of
    each. A link is two samples that are asked for; the measure is that of an invalid link, as
    `judge` gives it. A view is begun from k; a sample is added to its state."""
    if number == 4 and tolerances is not None:
        return f"tolerances[{value}] is not allowed: {_tolerance.fault(tolerances[value])}"
    if number == 4:
        return f"the tolerance is not allowed: {_tolerance.fault(tolerance)}"
    if number == 14:
        return f"the noise factor must be from 1 to 16, not {_tolerance.shown(factor)}"
    if number == 15:
        return f"the gap limit must be from 1 to 1,048,575, not {_tolerance.shown(gap)}"
    if number == 19:
        most = _library.TOLERANCES
        return _many("tolerances", most) if tolerances else "no tolerances"
    if number == 20:
        return _unviewed(loan, view) if view else _k(k)
    if factor is not None:
        return _runs(number, value, loan)
    if pair and number != 10:
        return _pair(number, value, loan)
    if number == 1:
        return _length(loan, most)
    if number == 2:
        return _stuck(loan.numbers(TICK), value)
    if number == 3:
        return _beyond(value)
    if number == 5:
        return f"the allowance must be from 2 to 4,096, not {_tolerance.shown(allowance)}"
    if number == 6:
        if link:
            return f"no link: {_end(loan, *link)}"
        return f"no kept list: {_entry(loan.numbers(ENTRY), _last(loan), value)}"
    if number == 7 and measure:
        i, j = loan.numbers(ENTRY)[value : value + 2]
        held = _tolerance.parts(_library.hold(_tolerance.lend(tolerance)))
        fault = strays(loan.numbers(TICK), held, *measure, "this tolerance")
        return f"link {value}, from sample {i} to sample {j}, {fault}"
    if number == 11:
        return _crate(loan.lists)
    if number == 12:
        return _table(loan, value)
    if number in (8, 9):
        return f"the {'second ' if number == 9 else ''}record is faulty at byte {value}"
    if number == 16:
        return _crowded(loan.numbers(TICK), operator.index(gap), operator.index(allowance))
    return f"the output is too short: {_room(loan, value, place)}"


def _length(loan: Loan, most: int) -> str:
    counted = "ticks", "values", "codes"
    inputs = [(lent.name, len(lent.view)) for lent in loan.lists if lent.name in counted]
    what = "codes" if inputs[0][0] == "codes" else "samples"
    if any(length > most for _, length in inputs):
        return _many(what, most)
    if any(length != inputs[0][1] for _, length in inputs):
        return _unequal(*(length for _, length in inputs))
    return f"no {what}"


def _many(what: str, most: int) -> str:
    return f"too many {what}: at most {most:,} are allowed"


def _unequal(ticks: int, values: int) -> str:
    return f"not as many values as ticks: {ticks} ticks and {values} values"


def _stuck(ticks: memoryview, sample: int) -> str:
    after = f"{ticks[sample]} after {ticks[sample - 1]}"
    return f"the tick of sample {sample} is not above the one before: {after}"


def _beyond(sample: int) -> str:
    return f"sample {sample} is over 1,048,575 ticks after the first"


def strays(
    ticks: Sequence[int],
    tolerance: _tolerance.Parts[Fraction, Fraction],
    error: Fraction,
    sample: int,
    side: str,
    name: str = "",
) -> str:
    """What makes a link invalid that has this measure, as `judge` gives it: the hole that it
    crosses, or the sample farthest from its line. Where that one is within its own part, another is
    outside the part of the other side. The tolerance may be called by a name."""
    tick = ticks[sample]
    if side == "gap":
        hole = f"the hole from tick {tick} to tick {ticks[sample + 1]}"
        return f"crosses {hole}, and its error is {error}"
    where = f"sample {sample} at tick {tick} lies {error} {side} the line"
    part, other = tolerance.above, f"{tolerance.below} below"
    if side == "below":
        part, other = tolerance.below, f"{tolerance.above} above"
    if error <= part:
        where += f", and another sample more than {other} it"
    return f"is not within {name or tolerance}: {where}"


def _crowded(ticks: Sequence[int], gap: int, allowance: int) -> str:
    """Why the allowance is too small: the shortest list that obeys the gap limit has both ends, and
    the two samples beside each hole."""
    last = len(ticks) - 1
    holes = [k for k in range(last) if ticks[k + 1] - ticks[k] > gap]
    fewest = len({0, last, *holes, *(k + 1 for k in holes)})
    more = f"has more samples than the allowance, {allowance}: the shortest has {fewest}"
    return f"every list that obeys the gap limit, {gap}, {more}"


def _crate(lists: List[Borrowed]) -> str:
    """What keeps the first two lists from being those of the channels whose lengths the third has;
    empty if nothing does."""
    ticks, values, lengths = (lent.numbers for lent in lists)
    if len(lengths) == 0:
        return "no channels"
    if len(lengths) > 64:
        return _many("channels", 64)
    total = sum(lengths)
    if len(ticks) == len(values) == total:
        return ""
    n, m = (len(x) if len(x) < total + SPARE else "more" for x in (ticks, values))
    return f"the lengths add up to {total}, and there are {n} ticks and {m} values"


def _channel(lists: List[Borrowed], channel: int) -> str:
    """What is wrong with the trace of this channel; empty if nothing is."""
    ticks, values, lengths = (lent.numbers for lent in lists)
    start = sum(lengths[:channel])
    part = slice(start, start + lengths[channel])
    return _trace(ticks[part], values[part])


def _trace(ticks: memoryview, values: memoryview) -> str:
    """What is wrong with this trace; empty if nothing is."""
    samples = len(ticks)
    if max(samples, len(values)) > 4096:
        return _many("samples", 4096)
    if samples != len(values):
        return _unequal(samples, len(values))
    if samples == 0:
        return "no samples"
    later = range(1, samples)
    stuck = (_stuck(ticks, k) for k in later if ticks[k] <= ticks[k - 1])
    beyond = (_beyond(k) for k in later if ticks[k] - ticks[0] > 1048575)
    return next(itertools.chain(stuck, beyond), "")


def _runs(number: int, channel: int, loan: Loan) -> str:
    """What keeps two runs, three lists each, from being compared: what is wrong with one, with this
    channel of one, or with the two together."""
    runs = loan.lists[:3], loan.lists[3:]
    place = "" if number == 11 else f"in channel {channel}, "
    for name, lists in zip(("today's run", "the run before"), runs):
        fault = _crate(lists) if number == 11 else _channel(lists, channel)
        if fault:
            return f"{name}: {place}{fault}"
    today, before = (lists[2].numbers for lists in runs)
    if number == 11:
        return f"unequal channel counts: {len(today)} today and {len(before)} before"
    differ = f"the runs differ in the number of samples of channel {channel}"
    return f"{differ}: {today[channel]} today and {before[channel]} before"


def _pair(number: int, value: int, loan: Loan) -> str:
    """What keeps two traces from being summed and their lists from being joined: what is wrong with
    one trace, with one list, or with the two traces together."""
    ticks1, values1, ticks2, values2, list1, list2, *_ = (lent.numbers for lent in loan.lists)
    if number == 17:
        return _mismatch(ticks1, ticks2, value)
    if number == 18:
        x, y = values1[value], values2[value]
        must = f"the sum of sample {value} must be from -32,768 to 32,767"
        return f"{must}, not {x + y}: {x} in trace 1 and {y} in trace 2"
    if number == 6:
        last = len(ticks1) - 1
        if not _is_kept(list1, last):
            return f"list 1 is no kept list: {_entry(list1, last, value)}"
        return f"list 2 is no kept list: {_entry(list2, len(ticks2) - 1, value)}"
    fault = _trace(ticks1, values1)
    return f"trace 1: {fault}" if fault else f"trace 2: {_trace(ticks2, values2)}"


def _mismatch(ticks1: memoryview, ticks2: memoryview, sample: int) -> str:
    """What keeps two traces from having the same ticks, first at this sample."""
    for name, ticks in (("trace 1", ticks1), ("trace 2", ticks2)):
        if sample == len(ticks):
            lengths = f"{len(ticks1)} and {len(ticks2)}"
            return f"{name} has no sample {sample}: the traces have {lengths} samples"
    both = f"{ticks1[sample]} in trace 1 and {ticks2[sample]} in trace 2"
    return f"the ticks of sample {sample} differ: {both}"


def _table(loan: Loan, code: int) -> str:
    """What keeps the first list of values from being a range table; with 0 its length."""
    table = loan.numbers(VALUE)
    if code == 0:
        there = len(table) if len(table) < MOST else f"{MOST} or more"
        return f"the table must have 256 values, not {there}"
    after = f"{table[code]} after {table[code - 1]}"
    return f"the value of code {code} is not above the one before: {after}"


def _last(loan: Loan) -> int:
    """The last sample of the first trace."""
    return len(loan.numbers(TICK)) - 1


def _is_kept(entries: memoryview, last: int) -> bool:
    """Whether this is a kept list of a trace with this last sample."""
    if len(entries) == 0 or entries[0] != 0 or entries[-1] != last:
        return False
    return all(map(operator.lt, entries, entries[1:]))


def _entry(entries: Sequence[int], last: int, position: int) -> str:
    """The rule that the list breaks at this position."""
    if len(entries) == 0:
        return "it is empty"
    if position == len(entries):
        return f"it ends with {entries[-1]}, not with the last sample, {last}"
    entry = entries[position]
    if position == 0 and entry != 0:
        return f"entry 0 is {entry}, and the first must be 0"
    if entry > last:
        return f"entry {position} is {entry}, beyond the last sample, {last}"
    return f"entry {position} is {entry}, not above the entry before it, {entries[position - 1]}"


def _k(k: SupportsIndex) -> str:
    return f"k of a view must be from 0 to 32, not {_tolerance.shown(k)}"


def _unviewed(loan: Loan, view: _library.View) -> str:
    """What keeps the state from being a view of the samples before the last."""
    new, kept = _last(loan), view.samples[: view.count]
    risen = [kept[at] > kept[at - 1] if at else kept[at] == 0 for at in range(len(kept))]
    if view.k > 32:
        return _k(view.k)
    if view.count > len(kept):
        return f"no view: it has {view.count} samples, and at most {len(kept)} are kept"
    if not kept or not all(risen):
        return f"no view: {_entry(kept, ENTRY.most, risen.index(False) if kept else 0)}"
    if kept[-1] != new - 1:
        lent = f"the new sample, the last that is lent, is {new}, not {kept[-1] + 1}"
        return f"no view of the earlier samples: it ends with sample {kept[-1]}, and {lent}"
    return f"no view: at most {2 * view.k} inner samples are kept, not {len(kept) - 2}"


def _end(loan: Loan, i: int, j: int) -> str:
    """What keeps two samples from being those of a link."""
    last = _last(loan)
    for name, sample in (("i", i), ("j", j)):
        if not 0 <= sample <= last:
            must = f"{name} must be a sample of the trace, from 0 to {last}"
            return f"{must}, not {_tolerance.shown(sample)}"
    return f"j must be above i, and {j} is not above {i}"


def _room(loan: Loan, needed: int, place: int) -> str:
    for lent in loan.lists:
        room = max(len(lent.view) - place, 0)
        if lent.output and room < needed:
            break
    unit = "bytes" if lent.name == "buffer" else "entries"
    start = f" from place {place} on" if place else ""
    return f"{needed} {unit} are needed, and {lent.name} has {room}{start}"
