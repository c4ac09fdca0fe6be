"""Times the Python module beside the library: prints the summary table of docs/SPEED.md.

Run from the repository's root: python.py BENCH, where BENCH is the program of bench.c, whose summary
is taken. From Python the same calls are made with arrays of module array, and make their outputs.
"""

import copy
import statistics
import subprocess
import sys
import time
from array import array
from fractions import Fraction

import kovrelna

CHANNELS = 64
# The machine's speed changes: the library and Python are timed in turn, and medians are printed.
ROUNDS = 5


def lines(mode):
    """What the program prints in this mode, each line split."""
    ran = subprocess.run([sys.argv[1], mode], stdout=subprocess.PIPE, check=True)
    return [line.split() for line in ran.stdout.decode().splitlines()]


def trace(mode):
    """Ticks and values."""
    columns = zip(*lines(mode))
    return [array(code, map(int, column)) for code, column in zip("Ih", columns)]


def crate(ticks, values, samples):
    """So many samples a channel of the trace, from another sample on in each, as in bench.c."""
    twice = values + values
    channels = [twice[start : start + samples] for start in range(0, 61 * CHANNELS, 61)]
    return CHANNELS * ticks[:samples], sum(channels, array("h")), CHANNELS * [samples]


def microseconds(call, *arguments):
    """The processor's time of a call: the median, over at least 0.1 seconds."""
    start, calls = time.process_time(), 0
    while time.process_time() - start < 0.02:
        call(*arguments)
        calls += 1
    times = []
    for _ in range(5):
        start = time.process_time()
        for _ in range(calls):
            call(*arguments)
        times.append(1e6 * (time.process_time() - start) / calls)
    return statistics.median(times)


def shown(number):
    """Microseconds, or milliseconds, with about three digits."""
    unit = "µs"
    if number >= 1000:
        number, unit = number / 1000, "ms"
    return f"{number:.3g} {unit}"


def view_add(view, had, ticks, values):
    """A copy of the view of so many samples, to which the others are added one by one."""
    view = copy.copy(view)
    for n in range(had + 1, len(ticks) + 1):
        view.add(ticks[:n], values[:n])
    return view


def main():
    ticks, values = whole = trace("trace")
    part = trace("part")
    kept = kovrelna.walk(ticks, values, 7.5)
    record = kovrelna.write(ticks, values, kept, 7.5)
    codes = bytes((7 * k + value) % 256 for k, value in enumerate(values))
    table = array("h", (k * (k + 1) // 2 for k in range(256)))
    two, last = [numbers[:2] for numbers in whole], len(ticks) - 1
    long, short = ([crate(*whole, count) for _ in range(2)] for count in (4096, 16))
    runs = f"two runs of {CHANNELS} channels"
    samples = f"{len(ticks):,} samples, tolerance 7.5"
    tolerances = [k / 2 for k in range(1, 17)]
    scanned = f"{len(ticks):,} samples, {len(tolerances)} tolerances from 0.5 to 8"
    lent = [memoryview(numbers) for numbers in whole]
    begun = kovrelna.View(32)
    all_but_last = view_add(begun, 1, *(numbers[:-1] for numbers in lent))
    viewed = f"of {len(ticks):,} samples, k = 32"
    listed = f"a list of {len(kept)} of {len(ticks):,} samples"
    # The trace from another sample on, as in bench.c.
    others = values[61:] + values[:61]
    lists = kept, kovrelna.walk(ticks, others, 7.5)
    pair = ticks, values, array("I", ticks), others, *lists
    summed = f"two traces of {len(ticks):,} samples, lists of {len(kept)} and {len(lists[1])}"
    parts = kovrelna.Parts(Fraction(15, 2), Fraction(10, 3))
    unequal = f"{len(ticks):,} samples, 7.5 above and 10/3 below"
    several = [kovrelna.Parts(Fraction(k, 2), Fraction(k, 3)) for k in range(1, 17)]
    scanned_parts = f"{len(ticks):,} samples, {len(several)} times 1/2 above and 1/3 below"
    other_kept = kovrelna.walk(ticks, values, parts)
    listed_parts = f"a list of {len(other_kept)} of {unequal}"
    calls = {
        "walk": (samples, kovrelna.walk, *whole, 7.5),
        "gallop": (samples, kovrelna.gallop, *whole, 7.5),
        "minimum": (samples, kovrelna.minimum, *whole, 7.5),
        "scan": (scanned, kovrelna.scan, *whole, tolerances),
        "view_add": (f"the last {viewed}", view_add, all_but_last, last, *lent),
        "view_run": (f"each {viewed}", view_add, begun, 1, *lent),
        "least": (f"{len(part[0])} samples, allowance 20", kovrelna.least, *part, 20),
        "report": (f"{CHANNELS} channels of {samples}", kovrelna.report, *crate(*whole, 4096), 7.5),
        "pedestals": (f"{runs} of {samples}, factor 2", kovrelna.pedestals, *long, 7.5, 2),
        "measure": (f"a link over {len(ticks):,} samples", kovrelna.measure, *whole, 0, last),
        "judge": (listed, kovrelna.judge, *whole, kept, 7.5),
        "judge_greedy": (listed, kovrelna.judge_greedy, *whole, kept, 7.5),
        "write": (listed, kovrelna.write, *whole, kept, 7.5),
        "sum": (summed, kovrelna.sum, *pair),
        "read": (f"a record of {len(kept)} samples", kovrelna.read, record),
        "same": (f"two records of {len(kept)} samples", kovrelna.same, record, bytes(record)),
        "expand": (f"{len(codes):,} codes", kovrelna.expand, codes),
        "expand_with": (f"{len(codes):,} codes, a table", kovrelna.expand_with, codes, table),
        "shortest": ("2 samples", kovrelna.walk, *two, 7.5),
        "small": (f"{CHANNELS} channels of 2 samples", kovrelna.report, *crate(*whole, 2), 7.5),
        "small_runs": (f"{runs} of 16 samples", kovrelna.pedestals, *short, 7.5, 2),
        "walk_parts": (unequal, kovrelna.walk, *whole, parts),
        "gallop_parts": (unequal, kovrelna.gallop, *whole, parts),
        "minimum_parts": (unequal, kovrelna.minimum, *whole, parts),
        "scan_parts": (scanned_parts, kovrelna.scan, *whole, several),
        "report_parts": (
            f"{CHANNELS} channels of {unequal}", kovrelna.report, *crate(*whole, 4096), parts
        ),
        "judge_parts": (listed_parts, kovrelna.judge, *whole, other_kept, parts),
        "judge_greedy_parts": (listed_parts, kovrelna.judge_greedy, *whole, other_kept, parts),
        "write_parts": (listed_parts, kovrelna.write, *whole, other_kept, parts),
    }
    rounds = {name: [] for name in calls}
    for _ in range(ROUNDS):
        measured = {name: map(float, numbers) for name, *numbers in lines("summary")}
        for name, (_, call, *arguments) in calls.items():
            rounds[name].append((*measured[name], microseconds(call, *arguments)))
    print("| Call | Input | Library | × C | From Python |\n|---|---|---|---|---|")
    for name, (given, call, *_) in calls.items():
        library, ratio, python = map(statistics.median, zip(*rounds[name]))
        row = call.__name__, given, shown(library), f"{ratio:.2f}", shown(python)
        print("| " + " | ".join(row) + " |")


main()
