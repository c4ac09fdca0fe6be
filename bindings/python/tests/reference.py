"""The slow reference: document 01 and wishes 1, 3, 4, 6 to 8 and 10 to 13 of document 02 once more,
with fractions, clear before fast. It knows nothing of the library that is compared with it.

- `Refused`: a row of the table of refusals.
- `held`: a tolerance, as the part above and the part below. Its forms are ("ratio", p, q),
  ("counts", x), ("noise", noise, multiple) and ("parts", p, q, below_p, below_q).
- `measure`, `judge`, `judge_greedy`, `walk`, `gallop`, `minimum`, `least`, `report`, `pedestals`,
  `expand`, `expand_with`, `write`, `read`, `same`: the calls.
- `scan`, `closed`: the call; what it has kept after a sample.
- `view_begin`, `view_add`: the calls of a view, whose state is k and its list; `least_error`: the
  least error with at most so many inner samples.
- `summed`: the call `sum`.
- `valid`: what `judge` asks of a list; `sides`: how far a list's samples lie above and below.
- `shift`, `noise`: what `pedestals` compares of a channel.
"""

import itertools
from fractions import Fraction

SAMPLES = 4096
SPAN = 1048575
CHANNELS = 64
TOLERANCES = 16


class Refused(Exception):
    """Its arguments are the number and the value."""


def check_trace(ticks, values, most=SAMPLES):
    """Rows 1 to 3."""
    if len(ticks) != len(values) or not 1 <= len(ticks) <= most:
        raise Refused(1, 0)
    for k in range(1, len(ticks)):
        if ticks[k] <= ticks[k - 1]:
            raise Refused(2, k)
    for k in range(1, len(ticks)):
        if ticks[k] - ticks[0] > SPAN:
            raise Refused(3, k)


def held(tolerance):
    """The tolerance as two fractions: above and below the line. Row 4."""
    form, *numbers = tolerance
    if form == "parts":
        return held_one("ratio", numbers[:2]), held_one("ratio", numbers[2:])
    one = held_one(form, numbers)
    return one, one


def held_one(form, numbers):
    """One tolerance as a fraction."""
    if form == "ratio":
        p, q = numbers
        allowed = 1 <= q <= 1048575 and 0 <= p <= 65535 * q
    elif form == "counts":
        allowed = in_steps(numbers[0], 65535, 64)
    else:
        allowed = in_steps(numbers[0], 1023, 64) and in_steps(numbers[1], 63, 8)
    if not allowed:
        raise Refused(4, 0)
    if form == "ratio":
        return Fraction(*numbers)
    product = Fraction(1)
    for number in numbers:
        product *= Fraction(number)
    return product


def in_steps(number, most, steps):
    """Whether the f64 is from 0 to the most and `steps` times it is whole. Not for not-a-number."""
    return 0 <= number <= most and (Fraction(number) * steps).denominator == 1


def height(ticks, values, i, j, k):
    """How far sample k lies above the line from sample i to sample j; negative below it."""
    rise = (values[k] - values[i]) * (ticks[j] - ticks[i])
    line = (values[j] - values[i]) * (ticks[k] - ticks[i])
    return Fraction(rise - line, ticks[j] - ticks[i])


def link_error(ticks, values, i, j):
    heights = (height(ticks, values, i, j, k) for k in range(i + 1, j))
    return max(map(abs, heights), default=Fraction(0))


def link_measure(ticks, values, i, j):
    """The link's error, the first sample that lies so far from its line, and its side."""
    error = link_error(ticks, values, i, j)
    if error == 0:
        return error, i, "on"
    heights = {k: height(ticks, values, i, j, k) for k in range(i + 1, j)}
    sample = min(k for k in heights if abs(heights[k]) == error)
    return error, sample, "above" if heights[sample] > 0 else "below"


def measure(ticks, values, i, j):
    """Row 6 after 1 to 3."""
    check_trace(ticks, values)
    if not 0 <= i < len(ticks):
        raise Refused(6, 0)
    if not i < j < len(ticks):
        raise Refused(6, 1)
    return link_measure(ticks, values, i, j)


def list_error(ticks, values, kept):
    links = zip(kept, kept[1:])
    return max((link_error(ticks, values, i, j) for i, j in links), default=Fraction(0))


def check_gap(gap):
    """Row 15."""
    if not 1 <= gap <= SPAN:
        raise Refused(15, 0)


def obeys(ticks, kept, gap):
    """Whether each link goes one step, or over neighbours that lie at most `gap` ticks apart."""
    return all(
        j == i + 1 or all(ticks[k + 1] - ticks[k] <= gap for k in range(i, j))
        for i, j in zip(kept, kept[1:])
    )


def sides(ticks, values, kept):
    """How far samples lie above the lines of a list's links at most, and how far below."""
    heights = [
        height(ticks, values, i, j, k)
        for i, j in zip(kept, kept[1:])
        for k in range(i + 1, j)
    ]
    return max([*heights, Fraction(0)]), -min([*heights, Fraction(0)])


def within(ticks, values, kept, parts):
    """Whether each sample is at most the first part above its link's line or at most the second
    below it."""
    above, below = sides(ticks, values, kept)
    return above <= parts[0] and below <= parts[1]


def valid(ticks, values, kept, parts, gap):
    """Whether each link is valid."""
    return obeys(ticks, kept, gap) and within(ticks, values, kept, parts)


def check_list(kept, samples):
    """Row 6."""
    before = -1
    for position, entry in enumerate(kept):
        if entry <= before or entry >= samples or (position == 0 and entry != 0):
            raise Refused(6, position)
        before = entry
    if before != samples - 1:
        raise Refused(6, len(kept))


def check_proposed(ticks, values, proposed, tolerance, gap):
    """The rows of a call that judges a list; the parts of the tolerance."""
    check_trace(ticks, values)
    parts = held(tolerance)
    check_gap(gap)
    check_list(proposed, len(ticks))
    return parts


def judge(ticks, values, proposed, tolerance, gap):
    """The position of the first invalid link and its measure, or None."""
    parts = check_proposed(ticks, values, proposed, tolerance, gap)
    for position, link in enumerate(zip(proposed, proposed[1:])):
        if not valid(ticks, values, link, parts, gap):
            return position, strayed(ticks, values, *link, parts, gap)
    return None


def judge_greedy(ticks, values, proposed, tolerance, gap):
    """The position of the first link at fault and its fault, or None."""
    parts = check_proposed(ticks, values, proposed, tolerance, gap)
    for position, (i, j) in enumerate(zip(proposed, proposed[1:])):
        if not valid(ticks, values, [i, j], parts, gap):
            return position, "link"
        if j != len(ticks) - 1 and valid(ticks, values, [i, j + 1], parts, gap):
            return position, "stop"
    return None


def strayed(ticks, values, i, j, parts, gap):
    """The measure of an invalid link; if it is within both parts, its error, "gap" and the sample
    before its first hole."""
    if not within(ticks, values, [i, j], parts):
        return link_measure(ticks, values, i, j)
    error = link_error(ticks, values, i, j)
    return error, min(k for k in range(i, j) if ticks[k + 1] - ticks[k] > gap), "gap"


def check_room(room, needed):
    """Row 10."""
    if room < needed:
        raise Refused(10, needed)


def walk(ticks, values, tolerance, gap, room):
    check_trace(ticks, values)
    parts = held(tolerance)
    check_gap(gap)
    check_room(room, len(ticks))
    kept, last = [0], len(ticks) - 1
    while kept[-1] != last:
        i = j = kept[-1]
        while j < last and valid(ticks, values, [i, j + 1], parts, gap):
            j += 1
        kept.append(j)
    return kept


def gallop(ticks, values, tolerance, gap, room):
    """The kept list and the probe total."""
    check_trace(ticks, values)
    parts = held(tolerance)
    check_gap(gap)
    check_room(room, len(ticks))
    kept, last, probes = [0], len(ticks) - 1, 0

    def probe(i, offset):
        return i + offset <= last and valid(ticks, values, [i, i + offset], parts, gap)

    while kept[-1] != last:
        i, low, high = kept[-1], 1, 2
        probes += 1
        while probe(i, high):
            low, high = high, 2 * high
            probes += 1
        while low < high - 1:
            middle = (low + high) // 2
            probes += 1
            if probe(i, middle):
                low = middle
            else:
                high = middle
        kept.append(i + low)
    return kept, probes


def kept_lists(samples, most):
    """Every kept list of at most so many samples: shorter ones first, then the one whose second
    sample is latest, then its third."""
    if samples == 1:
        yield [0]
        return
    for between in range(min(samples, most) - 1):
        chosen = itertools.combinations(range(1, samples - 1), between)
        for middle in sorted(chosen, reverse=True):
            yield [0, *middle, samples - 1]


def minimum(ticks, values, tolerance, gap, room):
    check_trace(ticks, values)
    parts = held(tolerance)
    check_gap(gap)
    check_room(room, len(ticks))
    for kept in kept_lists(len(ticks), len(ticks)):
        if valid(ticks, values, kept, parts, gap):
            return kept


def least(ticks, values, gap, allowance, room):
    """The minimum's list at the least error, and that error. Row 16 between 5 and 10."""
    check_trace(ticks, values, 256)
    check_gap(gap)
    if not 2 <= allowance <= SAMPLES:
        raise Refused(5, 0)
    lists = [kept for kept in kept_lists(len(ticks), allowance) if obeys(ticks, kept, gap)]
    if not lists:
        raise Refused(16, 0)
    check_room(room, len(ticks))
    error = min(list_error(ticks, values, kept) for kept in lists)
    for kept in kept_lists(len(ticks), len(ticks)):
        if valid(ticks, values, kept, (error, error), gap):
            return kept, error


def scan(ticks, values, tolerances, gap, room):
    """Walk's list at each tolerance. Row 19 between 3 and 4, which has the position of the first bad
    tolerance."""
    check_trace(ticks, values)
    if not 1 <= len(tolerances) <= TOLERANCES:
        raise Refused(19, 0)
    for position, tolerance in enumerate(tolerances):
        try:
            held(tolerance)
        except Refused:
            raise Refused(4, position)
    check_gap(gap)
    check_room(room, len(tolerances) * len(ticks))
    return [walk(ticks, values, tolerance, gap, len(ticks)) for tolerance in tolerances]


def closed(kept, j):
    """Walk's stops that are fixed once sample j has been taken in, closed with sample j: a stop is
    fixed by the sample after it."""
    return [k for k in kept if k < j] + [j]


def view_begin(k):
    """The list of a new view. Row 20."""
    if not 0 <= k <= 32:
        raise Refused(20, 0)
    return [0]


def view_add(k, kept, ticks, values):
    """The list once the last sample has been added to it. Rows 1 to 3, then 20."""
    check_trace(ticks, values)
    new = len(ticks) - 1
    try:
        check_list(kept, new)
    except Refused:
        raise Refused(20, 0)
    if k > 32 or not kept or len(kept[1:-1]) > 2 * k:
        raise Refused(20, 0)
    kept = [*kept, new]
    inner = kept[1:-1]
    if len(inner) > 2 * k:
        triples = zip(kept, inner, kept[2:])
        errors = [(link_error(ticks, values, i, j), sample) for i, sample, j in triples]
        kept.remove(min(errors)[1])
    return kept


def least_error(ticks, values, inner):
    """Over all kept lists with at most so many inner samples."""
    lists = kept_lists(len(ticks), inner + 2)
    return min(list_error(ticks, values, kept) for kept in lists)


def summed(ticks1, values1, ticks2, values2, list1, list2, rooms):
    """The sums and the joined list. Rows 1 to 3 of trace 1, then of trace 2, row 6 of list 1, then of
    list 2, then 17, 18 and 10."""
    check_trace(ticks1, values1)
    check_trace(ticks2, values2)
    check_list(list1, len(ticks1))
    check_list(list2, len(ticks2))
    for k, (one, other) in enumerate(itertools.zip_longest(ticks1, ticks2)):
        if one != other:
            raise Refused(17, k)
    sums = [one + other for one, other in zip(values1, values2)]
    for k, value in enumerate(sums):
        if not -(2**15) <= value < 2**15:
            raise Refused(18, k)
    check_room(min(rooms), len(sums))
    return sums, sorted({*list1, *list2})


def row(ticks, values, tolerance, gap):
    """A channel's samples, walk's kept number, its list's error, the sample of the first link with
    that error, 0 if there is no link, and a refusal's number or 0."""
    try:
        kept = walk(ticks, values, tolerance, gap, len(ticks))
    except Refused as refused:
        return 0, 0, Fraction(0), 0, refused.args[0]
    error = list_error(ticks, values, kept)
    measures = [link_measure(ticks, values, i, j) for i, j in zip(kept, kept[1:])]
    worst = [sample for one, sample, _ in measures if one == error]
    return len(ticks), len(kept), error, worst[0] if worst else 0, 0


def channels_of(ticks, values, lengths):
    """The ticks and values of each channel. Row 11."""
    if not 1 <= len(lengths) <= CHANNELS or not len(ticks) == len(values) == sum(lengths):
        raise Refused(11, 0)
    ends = list(itertools.accumulate(lengths))
    parts = [slice(end - length, end) for end, length in zip(ends, lengths)]
    return [(ticks[part], values[part]) for part in parts]


def report(ticks, values, lengths, tolerance, gap, room):
    """The rows, both sums and the largest error. Row 11, then 4, 15 and 10."""
    channels = channels_of(ticks, values, lengths)
    held(tolerance)
    check_gap(gap)
    check_room(room, len(lengths))
    rows = [row(*channel, tolerance, gap) for channel in channels]
    samples, kept, errors, _, _ = zip(*rows)
    return rows, sum(samples), sum(kept), max(errors)


def shift(today, before, bound):
    """How far the values have moved beyond the bound p/q: |S1 - S2| q - p n."""
    apart = abs(sum(today) - sum(before))
    return apart * bound.denominator - bound.numerator * len(today)


def noise(values):
    """n Q - S^2."""
    return len(values) * sum(value * value for value in values) - sum(values) ** 2


def pedestals(today, before, tolerance, k):
    """The channels that have moved and the noisy ones, for outputs that have room. Row 14, then 11
    and 4, then of each channel rows 1 to 3 of today's trace, of the one before, and 13."""
    if not 1 <= k <= 16:
        raise Refused(14, 0)
    first, second = channels_of(*today), channels_of(*before)
    if len(first) != len(second):
        raise Refused(11, 0)
    bound, below = held(tolerance)
    if below != bound:
        raise Refused(4, 0)
    for channel, traces in enumerate(zip(first, second)):
        try:
            for trace in traces:
                check_trace(*trace)
        except Refused as refused:
            raise Refused(refused.args[0], channel)
        if len(traces[0][0]) != len(traces[1][0]):
            raise Refused(13, channel)
    pairs = list(enumerate((x, y) for (_, x), (_, y) in zip(first, second)))
    moved = [channel for channel, (x, y) in pairs if shift(x, y, bound) > 0]
    noisy = [channel for channel, (x, y) in pairs if noise(x) > k * k * noise(y)]
    return moved, noisy


def check_codes(codes):
    """Row 1."""
    if not 1 <= len(codes) <= SAMPLES:
        raise Refused(1, 0)


def expand(codes, room):
    check_codes(codes)
    check_room(room, len(codes))
    return [2 ** (code // 32) * (code % 32 + 32) - 32 for code in codes]


def expand_with(codes, table, room):
    """Row 12 between 1 and 10."""
    check_codes(codes)
    if len(table) != 256:
        raise Refused(12, 0)
    for code in range(1, 256):
        if table[code] <= table[code - 1]:
            raise Refused(12, code)
    check_room(room, len(codes))
    return [table[code] for code in codes]


def is_short(advance, change):
    return advance <= 255 and -128 <= change <= 127


def write(ticks, values, kept, tolerance, gap, room):
    """The record, for a buffer with so many bytes from the place on."""
    invalid = judge(ticks, values, kept, tolerance, gap)
    if invalid is not None:
        raise Refused(7, invalid[0])
    above, below = held(tolerance)
    record = bytearray([0x54 if above == below else 0x42])
    for part in [above] if above == below else [above, below]:
        record += part.numerator.to_bytes(5, "big") + part.denominator.to_bytes(3, "big")
    record += b"\x41" + ticks[0].to_bytes(4, "big") + values[0].to_bytes(2, "big", signed=True)
    for i, j in zip(kept, kept[1:]):
        advance, change = ticks[j] - ticks[i], values[j] - values[i]
        if is_short(advance, change):
            record += bytes([0x53, advance]) + change.to_bytes(1, "big", signed=True)
        else:
            record += b"\x4C" + advance.to_bytes(3, "big")
            record += values[j].to_bytes(2, "big", signed=True)
    record += b"\x45" + len(kept).to_bytes(2, "big")
    check_room(room, len(record))
    return bytes(record)


def read(record):
    """Ticks, values and the two parts of the tolerance. Row 8."""
    place = 0

    def command(expected, *sizes):
        """The operands of the command at the place, which is one of those expected."""
        operands = record[place + 1 : place + 1 + sum(sizes)]
        if record[place : place + 1] != bytes([expected]) or len(operands) != sum(sizes):
            raise Refused(8, place)
        split = list(itertools.accumulate(sizes, initial=0))
        return [int.from_bytes(operands[a:b], "big") for a, b in zip(split, split[1:])]

    def signed(number, size):
        return number - 256**size if number >= 256**size // 2 else number

    two = record[:1] == b"\x42"
    numbers = command(0x42, 5, 3, 5, 3) if two else command(0x54, 5, 3)
    try:
        parts = held(("parts" if two else "ratio", *numbers))
    except Refused:
        raise Refused(8, place)
    lowest = [(part.numerator, part.denominator) for part in parts]
    if (lowest[0] != lowest[1]) != two or tuple(numbers) != sum(lowest[: 1 + two], ()):
        raise Refused(8, place)
    place = 17 if two else 9
    tick, value = command(0x41, 4, 2)
    ticks, values = [tick], [signed(value, 2)]
    place += 7
    while record[place : place + 1] in (b"\x53", b"\x4C"):
        short = record[place] == 0x53
        advance, number = command(record[place], 1, 1) if short else command(record[place], 3, 2)
        value = values[-1] + signed(number, 1) if short else signed(number, 2)
        tick = ticks[-1] + advance
        legal = advance >= 1 and tick < 2**32 and -(2**15) <= value < 2**15
        legal = legal and tick - ticks[0] <= SPAN and len(ticks) < SAMPLES
        if not legal or is_short(advance, value - values[-1]) != short:
            raise Refused(8, place)
        ticks.append(tick)
        values.append(value)
        place += 3 if short else 6
    (count,) = command(0x45, 2)
    if count != len(ticks):
        raise Refused(8, place)
    place += 3
    if place != len(record):
        raise Refused(8, place)
    return ticks, values, parts


def same(first, second):
    """Row 9 for the second record."""
    content = read(first)
    try:
        return content == read(second)
    except Refused as refused:
        raise Refused(9, refused.args[1])
