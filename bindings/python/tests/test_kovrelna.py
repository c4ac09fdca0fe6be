"""The Python module as a user calls it: document 01's figures, every refusal of every call, buffers
that are lent and not copied, and random traces, limits, scans, views, pairs, runs, range tables and
records beside the slow reference. Arrays of numpy are tried where numpy is present; a stand-in for it
always is.
"""

import array
import copy
import ctypes
import doctest
import inspect
import itertools
import mmap
import operator
import os
import pickle
import random
import shutil
import struct
import subprocess
import sys
import tempfile
import threading
import tracemalloc
import types
import unittest
from fractions import Fraction
from unittest import mock

import kovrelna
import reference
from kovrelna import GAP_MAX, Counts, GreedyVerdict, Measure, Noise, Parts, Ratio, Refusal, Run
from kovrelna import Verdict, View

try:
    import numpy
except ImportError:
    numpy = None

EVEN = range(5)
ZIGZAG = [0, 3, 0, 3, 0]
WAVE = [0, 2, 0, -2, 0]
RECORD = bytes.fromhex("54 00 00 00 00 02 00 00 03 41 00 00 00 00 00 00 53 03 01 45 00 02")
# That record with another part below: 2/3 above and 1 below.
TWO_PARTS = bytes.fromhex("42 00 00 00 00 02 00 00 03 00 00 00 00 01 00 00 01") + RECORD[9:]
REDUCTIONS = (kovrelna.walk, kovrelna.gallop, kovrelna.minimum)
JUDGES = (kovrelna.judge, kovrelna.judge_greedy)
# Parts of which the one above is not allowed, and of which the one below is not.
NO_PART = [Ratio(0, 0), Ratio(1, 0), -1, 65536, Fraction(1, 1048576), 2**64, Ratio(2**64, 2**64)]
NO_PARTS = [Parts(part, 1) for part in NO_PART] + [Parts(1, part) for part in NO_PART]
# Two runs of samples, 8 ticks apart, and gap limits that are refused, of 32 bits and of more.
HOLED = [0, 1, 2, 10, 11, 12]
NO_GAPS = [0, 2**20, 2**32 - 1]
NO_GAPS += [-1, 2**32, 2**32 + 7, 7 - 2**32, 2**64, 2**64 + 7, 7 - 2**64]
# Values at ticks 0 to 7 whose view at k = 1 has twice the least error, and its list after each.
TWICE = [-4, -4, 0, 4, -4, 4, -4, 0]
OF_TWICE = [[0], [0, 1], [0, 1, 2], [0, 1, 2, 3], [0, 1, 3, 4], [0, 3, 4, 5]]
OF_TWICE += [[0, 4, 5, 6], [0, 4, 5, 7]]
# k of no view, of 64 bits and of more.
NO_KS = [33, 34, 2**31, 2**32, 2**32 + 1, 2**64 - 1, -1, -(2**32), 2**64, 2**64 + 1, 1 - 2**64]
# Two traces with the same ticks and a list of each, as `sum` takes them; their sums and the joined
# list.
PAIR = EVEN, [-6, -6, 0, 6, -6], EVEN, [3, 4, 2, 4, 3], [0, 1, 3, 4], [0, 4]
SUMS, JOINED = [-3, -2, 2, 10, -3], [0, 1, 3, 4]
TABLE = [100 * (code - 200) for code in range(256)]
# At tolerance 1/2 and factor 2 channel 0 has moved, 1 is noisy, and 2 is at both limits.
TODAY = Run([0, 1, 2, 3] * 3, [11, 13, 11, 13, -5, -5, -5, -4, 0, 2, 0, 2], [4, 4, 4])
BEFORE = Run([0, 1, 2, 3] * 3, [10, 12, 10, 12, -5, -5, -5, -5, 0, 1, 0, 1], [4, 4, 4])


def load_tests(loader, tests, pattern):
    tests.addTests(doctest.DocTestSuite(kovrelna))
    return tests


def kept_by(call, *arguments, **limits):
    """The kept list of a reduction, as a plain list."""
    answer = call(*arguments, **limits)
    return list(answer.kept if call is kovrelna.gallop else answer)


def scan_of(*arguments, **limits):
    """The kept lists, as plain lists."""
    return list(map(list, kovrelna.scan(*arguments, **limits)))


def view_of(k, samples, count=None):
    """A view whose state is set by hand; the entries behind the list differ."""
    entries = [*samples, *range(40000, 40066)][:66]
    view = View(0)
    view.__setstate__(struct.pack("=II66H", k, len(samples) if count is None else count, *entries))
    return view


def grown(view, ticks, values):
    """The view, to which the samples of the trace are added from the one after its last on."""
    for n in range(view.samples[-1] + 2, len(ticks) + 1):
        view.add(ticks[:n], values[:n])
    return view


def sum_of(*pair):
    """The sums and the joined list, as plain lists."""
    return tuple(map(list, kovrelna.sum(*pair)))


def outputs_of(sums, joined):
    """Outputs of `sum` with so many entries."""
    return array.array("h", [999] * sums), array.array("H", [999] * joined)


def table_with(values):
    """The table with other values of some codes."""
    return [values.get(code, value) for code, value in enumerate(TABLE)]


def ticks_run(*channels):
    """The run of channels with these ticks; all values are 0."""
    ticks = list(itertools.chain(*channels))
    return Run(ticks, [0] * len(ticks), [len(channel) for channel in channels])


def values_run(*channels):
    """The run of channels with these values, at ticks from 0 on."""
    run = ticks_run(*[range(len(channel)) for channel in channels])
    return run._replace(values=list(itertools.chain(*channels)))


class Case(unittest.TestCase):
    def refused(self, number, value, call, *arguments, **limits):
        with self.assertRaises(Refusal) as caught:
            call(*arguments, **limits)
        found = (caught.exception.number, caught.exception.value)
        self.assertEqual(found, (number, value), f"{call.__name__} {arguments} {limits}")


class Figures(Case):
    def test_reductions(self):
        every = [0, 1, 2, 3, 4]
        for values, tolerance, walked, galloped, probes, shortest in [
            (ZIGZAG, 2, every, every, 4, [0, 3, 4]),
            (ZIGZAG, 3, [0, 4], [0, 4], 5, [0, 4]),
            (WAVE, 2, [0, 2, 4], [0, 4], 5, [0, 4]),
        ]:
            forms = [tolerance, Ratio(6 * tolerance, 6), Fraction(tolerance), float(tolerance)]
            for form in forms + [Counts(tolerance), Noise(tolerance / 4, 4)]:
                with self.subTest(values=values, form=form):
                    self.assertEqual(list(kovrelna.walk(EVEN, values, form)), walked)
                    gallop = kovrelna.gallop(EVEN, values, form)
                    self.assertEqual((list(gallop.kept), gallop.probes), (galloped, probes))
                    self.assertEqual(list(kovrelna.minimum(EVEN, values, form)), shortest)

    def test_least(self):
        every = [0, 1, 2, 3, 4]
        for allowance, error, kept in [
            (2, 3, [0, 4]),
            (3, 2, [0, 3, 4]),
            (4, 2, [0, 3, 4]),
            (5, 0, every),
            (4096, 0, every),
        ]:
            answer = kovrelna.least(EVEN, ZIGZAG, allowance)
            self.assertEqual((list(answer.kept), answer.error), (kept, error))
            self.assertIs(type(answer.error), Fraction)
        self.assertEqual(kovrelna.least([0, 1, 3], [0, 1, 1], 2).error, Fraction(2, 3))
        self.assertEqual(kovrelna.least([7], [7], 2), (array.array("H", [0]), 0))

    def test_parts(self):
        """Document 02's figures, and their mirror images with U and D exchanged."""
        every, ends = [0, 1, 2], [0, 3]
        for ticks, values, above, below, walked, probes, shortest in [
            (EVEN, WAVE, 2, 1, [0, 2, 3, 4], 5, [0, 2, 3, 4]),
            (EVEN, WAVE, 1, 2, [0, 1, 3, 4], 5, [0, 1, 3, 4]),
            # Shorter lists are within U/2 and D/2; within parts that add up to the greater of U and
            # D; within the smaller on either side.
            (range(4), [1, 1, 0, 1], 0, 3, [0, 1, 3], 4, ends),
            (range(3), [1, 1, -1], Ratio(1, 2), 2, every, 2, every),
            (range(4), [0, 2, 1, 3], 1, Fraction(3), [0, 1, 3], 4, ends),
            ([0, 1, 3], [0, 1, 1], Ratio(4, 6), 0, [0, 2], 3, [0, 2]),
            ([0, 1, 3], [0, 1, 1], Ratio(665, 1000), 65535, every, 2, every),
        ]:
            mirror = [-value for value in values]
            for side, parts in [(values, Parts(above, below)), (mirror, Parts(below, above))]:
                with self.subTest(values=side, parts=parts):
                    self.assertEqual(list(kovrelna.walk(ticks, side, parts)), walked)
                    gallop = kovrelna.gallop(ticks, side, parts)
                    self.assertEqual((list(gallop.kept), gallop.probes), (walked, probes))
                    self.assertEqual(list(kovrelna.minimum(ticks, side, parts)), shortest)
                    self.assertEqual(scan_of(ticks, side, [parts, parts]), [walked, walked])
                    row = kovrelna.report(ticks, side, [len(ticks)], parts).rows[0]
                    self.assertEqual((row.samples, row.kept), (len(ticks), len(walked)))
                    for kept in (walked, shortest):
                        self.assertTrue(kovrelna.judge(ticks, side, kept, parts))
                        record = kovrelna.write(ticks, side, kept, parts)
                        self.assertEqual(kovrelna.read(record).tolerance, kovrelna.hold(parts))
        # Equal parts, in any terms, are one tolerance.
        for parts in (Parts(2, 2), Parts(Ratio(4, 2), Fraction(2)), kovrelna.hold(2.0)):
            self.assertEqual(list(kovrelna.walk(EVEN, WAVE, parts)), [0, 2, 4])
            self.assertEqual(kept_by(kovrelna.gallop, EVEN, WAVE, parts), [0, 4])
            self.assertEqual(kovrelna.write(EVEN, WAVE, [0, 4], parts)[0], 0x54)

    def test_the_sample_named(self):
        """It is the farthest, though it may be within its own part and another outside the other."""
        values, farthest = [1, 0, 1, -1], Measure(Fraction(4, 3), 2, "above")
        for above, below in [(5, 0), (Ratio(4, 3), Ratio(1, 4)), (1, Ratio(1, 3)), (0, 0)]:
            found = kovrelna.judge(range(4), values, [0, 3], Parts(above, below))
            self.assertEqual(found, Verdict(False, 0, farthest))
            self.refused(7, 0, kovrelna.write, range(4), values, [0, 3], Parts(above, below))
        self.assertTrue(kovrelna.judge(range(4), values, [0, 3], Parts(Ratio(4, 3), Ratio(1, 3))))
        # The gap limit alone makes a link invalid exactly if it is within both parts.
        peak, trough = [0, 3, 0, 0, 0, 0], [0, -3, 0, 0, 0, 0]
        for values, above, below, sample, side in [
            (peak, 3, 0, 2, "gap"),
            (peak, 2, 3, 1, "above"),
            (trough, 0, 3, 2, "gap"),
            (trough, 3, 2, 1, "below"),
        ]:
            found = kovrelna.judge(HOLED, values, [0, 5], Parts(above, below), gap=7)
            self.assertEqual(found, Verdict(False, 0, Measure(Fraction(3), sample, side)))

    def test_records_of_parts(self):
        parts = Parts(Ratio(4, 6), 1)
        for trace in [([0, 1, 3], [0, 1, 1], [0, 2]), ([0, 3], [0, 1], [0, 1])]:
            self.assertEqual(kovrelna.write(*trace, parts), TWO_PARTS)
            event = bytearray(40)
            self.assertEqual(bytes(kovrelna.write(*trace, parts, event, 7)), TWO_PARTS)
            self.assertEqual(event, bytes(7) + TWO_PARTS + bytes(3))
        content = kovrelna.read(TWO_PARTS)
        self.assertEqual((list(content.ticks), list(content.values)), ([0, 3], [0, 1]))
        self.assertEqual(content.tolerance, Parts(Fraction(2, 3), Fraction(1)))
        self.assertIsNone(content.tolerance.one)
        # Each part counts, and which is which.
        forms = [1, 2, Parts(1, 2), Parts(2, 1), Parts(1, 3), Parts(3, 1), Ratio(1, 3)]
        records = [kovrelna.write([0, 4], [0, 0], [0, 1], form) for form in forms]
        for one, other in itertools.product(records, repeat=2):
            self.assertIs(kovrelna.same(one, other), one is other)

    def test_gaps(self):
        flat, ends = [0] * 6, [0, 5]
        for gap, kept, probes in [(7, [0, 2, 3, 5], 7), (8, ends, 5), (GAP_MAX, ends, 5)]:
            for call in REDUCTIONS:
                self.assertEqual(kept_by(call, HOLED, flat, 0, gap=gap), kept)
            self.assertEqual(kovrelna.gallop(HOLED, flat, 0, gap=gap).probes, probes)
            for allowance in (4, 5, 4096):
                answer = kovrelna.least(HOLED, flat, allowance, gap=gap)
                self.assertEqual((list(answer.kept), answer.error), (kept, 0))
            crate = kovrelna.report(HOLED + [9], flat + [9], [6, 1], 0, gap=gap)
            self.assertEqual(crate.rows, [(6, len(kept), 0, 0, 0), (1, 1, 0, 0, 0)])
            self.assertEqual((crate.samples, crate.kept), (7, len(kept) + 1))
            # A record does not carry the gap limit.
            record = kovrelna.write(HOLED, flat, kept, 0, gap=gap)
            self.assertEqual(record, kovrelna.write(HOLED, flat, kept, 0))
        self.refused(16, 0, kovrelna.least, HOLED, flat, 3, gap=7)
        for proposed, link in [(ends, 0), ([0, 2, 5], 1), ([0, 1, 3, 5], 1), ([0, 2, 4, 5], 1)]:
            verdict = Verdict(False, link, Measure(Fraction(0), 2, "gap"))
            self.assertEqual(kovrelna.judge(HOLED, flat, proposed, 0, gap=7), verdict)
            self.assertTrue(kovrelna.judge(HOLED, flat, proposed, 0, gap=8))
            self.refused(7, link, kovrelna.write, HOLED, flat, proposed, 0, gap=7)
        # A link of one step is valid over any hole, and whatever its values are.
        self.assertTrue(kovrelna.judge(HOLED, [9, -9] * 3, range(6), 0, gap=1))
        # A list that does not obey the gap limit may have fewer samples at any tolerance.
        for call in REDUCTIONS:
            self.assertEqual(kept_by(call, [0, 2, 3], [0, 0, 0], 0, gap=1), [0, 1, 2])
            self.assertEqual(kept_by(call, [0, 2, 3], [0, 0, 0], 0), [0, 2])

    def test_no_gap_limit(self):
        """The largest is the default, and crosses whatever there is."""
        self.assertEqual(GAP_MAX, 1048575)
        calls = REDUCTIONS + JUDGES + (kovrelna.least, kovrelna.write, kovrelna.report)
        for call in calls + (kovrelna.check,):
            gap = inspect.signature(call).parameters["gap"]
            self.assertEqual((gap.kind, gap.default), (gap.KEYWORD_ONLY, GAP_MAX))
        ticks, flat, ends = [0, 1, 1048575], [0, 0, 0], [0, 2]
        record = kovrelna.write(ticks, flat, ends, 0)
        for gap, kept in [(1048573, [0, 1, 2]), (1048574, ends), (GAP_MAX, ends), (None, ends)]:
            limits = {} if gap is None else {"gap": gap}
            for call in REDUCTIONS:
                self.assertEqual(kept_by(call, ticks, flat, 0, **limits), kept)
            self.assertEqual(list(kovrelna.least(ticks, flat, 3, **limits).kept), kept)
            self.assertEqual(kovrelna.judge(ticks, flat, ends, 0, **limits).passed, kept == ends)
            self.assertEqual(kovrelna.report(ticks, flat, [3], 0, **limits).kept, len(kept))
            self.assertEqual(kovrelna.check(record, ticks, flat, **limits).passed, kept == ends)
            if kept == ends:
                self.assertEqual(kovrelna.write(ticks, flat, ends, 0, **limits), record)

    def test_every_hole(self):
        """Of values that do not differ, the two samples beside each hole are kept."""
        flat = [0] * 6
        for steps in itertools.product([1, 7, 8], repeat=5):
            ticks = list(itertools.accumulate(steps, initial=3))
            holes = [k for k, step in enumerate(steps) if step > 7]
            kept = sorted({0, 5, *holes, *(k + 1 for k in holes)})
            for call in REDUCTIONS:
                self.assertEqual(kept_by(call, ticks, flat, 0, gap=7), kept, steps)
            answer = kovrelna.least(ticks, flat, len(kept), gap=7)
            self.assertEqual((list(answer.kept), answer.error), (kept, 0), steps)
            if holes:
                self.refused(16, 0, kovrelna.least, ticks, flat, len(kept) - 1, gap=7)

    def test_the_place_of_a_hole(self):
        flat, last = [0] * 300, 299
        for hole in range(last):
            ticks = [k + 7 * (k > hole) for k in range(300)]
            for call in REDUCTIONS:
                kept = kept_by(call, ticks, flat, 0, gap=7)
                self.assertEqual(kept, sorted({0, hole, hole + 1, last}), hole)
                self.assertEqual(kept_by(call, ticks, flat, 0, gap=8), [0, last], hole)
            self.assertFalse(kovrelna.judge(ticks, flat, [0, last], 0, gap=7))
            self.assertTrue(kovrelna.judge(ticks, flat, [0, last], 0, gap=8))

    def test_measure(self):
        two_thirds, low, high = Fraction(2, 3), -32768, 32767
        far = 2**32 - 1048576
        for ticks, values, i, j, measure in [
            ([0, 1, 3], [0, 1, 1], 0, 2, (two_thirds, 1, "above")),
            ([0, 1, 3], [0, -1, -1], 0, 2, (two_thirds, 1, "below")),
            ([0, 1, 3], [0, 0, 0], 0, 2, (0, 0, "on")),
            (range(4), [1, 0, 1, -1], 0, 3, (Fraction(4, 3), 2, "above")),
            # Nothing lies between, or all on the line.
            (EVEN, ZIGZAG, 0, 1, (0, 0, "on")),
            (EVEN, ZIGZAG, 3, 4, (0, 3, "on")),
            (EVEN, [0, 9, 10, 11, 0], 1, 3, (0, 1, "on")),
            # Of several samples the first, on either side.
            (EVEN, ZIGZAG, 0, 4, (3, 1, "above")),
            (EVEN, WAVE, 0, 4, (2, 1, "above")),
            (EVEN, [-value for value in WAVE], 0, 4, (2, 1, "below")),
            (EVEN, [0, 1, 2, -2, 0], 0, 4, (2, 2, "above")),
            # What lies beside the link does not count.
            (EVEN, [99, 0, 1, 0, -99], 1, 3, (1, 2, "above")),
            (EVEN, WAVE, 1, 4, (Fraction(8, 3), 3, "below")),
            # The greatest error, and the least with the greatest run.
            ([0, 1, 1048575], [high, low, high], 0, 2, (65535, 1, "below")),
            ([far, far + 1, far + 1048575], [low, high, low], 0, 2, (65535, 1, "above")),
            ([0, 1, 1048575], [0, 0, 1], 0, 2, (Fraction(1, 1048575), 1, "below")),
        ]:
            found = kovrelna.measure(ticks, values, i, j)
            self.assertEqual(found, measure, (ticks, values, i, j))
            self.assertEqual((found.error, found.sample, found.side), measure)
            self.assertEqual([type(part) for part in found], [Fraction, int, str])

    def test_strays(self):
        """What the tolerance makes invalid, what only the gap limit does, and what both do."""
        peak, trough = [0, 3, 0, 0, 0, 0], [0, 0, 0, 0, -3, 0]
        for values, proposed, bound, gap, link, measure in [
            (peak, [0, 5], 2, 8, 0, (3, 1, "above")),
            (peak, [0, 5], 2, 7, 0, (3, 1, "above")),
            (peak, [0, 5], 3, 7, 0, (3, 2, "gap")),
            (trough, [0, 5], 2, 7, 0, (3, 4, "below")),
            (trough, [0, 5], 3, 7, 0, (3, 2, "gap")),
            (trough, [0, 1, 5], Ratio(29, 10), 7, 1, (3, 4, "below")),
            (trough, [0, 1, 5], Ratio(31, 10), 7, 1, (3, 2, "gap")),
            (trough, [0, 2, 3, 5], 2, 7, 2, (3, 4, "below")),
            # The first invalid link comes before a worse one.
            ([0, 3, 0, 0, 9, 0], [0, 2, 3, 5], 2, 7, 0, (3, 1, "above")),
        ]:
            found = kovrelna.judge(HOLED, values, proposed, bound, gap=gap)
            self.assertEqual(found, Verdict(False, link, Measure(*measure)))
            self.assertIs(type(found.measure), Measure)
            self.assertFalse(found)
        # Of several holes the first.
        ticks, flat = [0, 9, 18, 19, 20, 30, 31], [0] * 7
        for proposed, gap, link, sample in [
            ([0, 6], 8, 0, 0),
            ([0, 1, 3, 6], 8, 1, 1),
            ([0, 1, 2, 6], 8, 2, 4),
            ([0, 1, 2, 4, 6], 8, 3, 4),
            # Neighbours exactly the gap limit apart are no hole.
            ([0, 6], 9, 0, 4),
        ]:
            found = kovrelna.judge(ticks, flat, proposed, 0, gap=gap)
            self.assertEqual((found.link, found.measure), (link, (0, sample, "gap")))

    def test_greedy_lists(self):
        """Each fault, the first of several, parts and gap limits; the next sample, not the next kept
        one; an invalid link is named, though the one to the next sample is valid."""
        rise, more, flat = [-2, 0, 2, 2, 0], [2, -2, -1, 0, -2, 2, -1], [0] * 6
        steps = [0, 0, 0, 9, 9, 9, 0]
        for ticks, values, proposed, tolerance, gap, link, fault in [
            (EVEN, ZIGZAG, EVEN, 2, GAP_MAX, None, None),
            (EVEN, ZIGZAG, [0, 3, 4], 2, GAP_MAX, None, None),
            (EVEN, ZIGZAG, [0, 1, 4], 2, GAP_MAX, None, None),
            (EVEN, ZIGZAG, [0, 4], 2, GAP_MAX, 0, "link"),
            (EVEN, ZIGZAG, [0, 1, 2, 4], 2, GAP_MAX, 2, "link"),
            (EVEN, WAVE, [0, 2, 4], 2, GAP_MAX, None, None),
            (EVEN, WAVE, [0, 4], 2, GAP_MAX, None, None),
            (EVEN, WAVE, [0, 1, 4], 2, GAP_MAX, 0, "stop"),
            (EVEN, WAVE, [0, 3, 4], 2, GAP_MAX, 0, "link"),
            (EVEN, WAVE, [0, 2, 3, 4], 2, GAP_MAX, 1, "stop"),
            (EVEN, WAVE, [0, 2, 3, 4], Parts(2, 1), GAP_MAX, None, None),
            (EVEN, WAVE, [0, 2, 3, 4], Parts(1, 2), GAP_MAX, 0, "link"),
            (EVEN, WAVE, [0, 1, 3, 4], Parts(1, 2), GAP_MAX, None, None),
            (EVEN, WAVE, [0, 1, 3, 4], Parts(2, 1), GAP_MAX, 0, "stop"),
            (EVEN, rise, [0, 1, 3, 4], 1, GAP_MAX, 0, "stop"),
            (range(7), more, [0, 2, 6], 3, GAP_MAX, None, None),
            (range(7), more, [0, 4, 5, 6], 3, GAP_MAX, None, None),
            (range(7), steps, [0, 2, 3, 5, 6], 0, GAP_MAX, None, None),
            (range(7), steps, [0, 1, 3, 5, 6], 0, GAP_MAX, 0, "stop"),
            (range(7), steps, [0, 2, 3, 4, 6], 0, GAP_MAX, 2, "stop"),
            (range(7), steps, [0, 2, 3, 6], 0, GAP_MAX, 2, "link"),
            (HOLED, flat, [0, 2, 3, 5], 0, 7, None, None),
            (HOLED, flat, [0, 2, 3, 5], 0, 8, 0, "stop"),
            (HOLED, flat, [0, 2, 3, 4, 5], 0, 7, 2, "stop"),
            (HOLED, flat, [0, 2, 5], 0, 7, 1, "link"),
            (HOLED, flat, [0, 5], 0, 7, 0, "link"),
            (HOLED, flat, [0, 5], 0, 8, None, None),
            ([0, 1048575], [-32768, 32767], [0, 1], 0, 1, None, None),
            ([7], [7], [0], 0, 1, None, None),
        ]:
            found = kovrelna.judge_greedy(ticks, values, proposed, tolerance, gap=gap)
            expected = GreedyVerdict(fault is None, link, fault)
            self.assertEqual(found, expected, (values, proposed, tolerance, gap))
            self.assertEqual(bool(found), fault is None)

    def test_two_thirds(self):
        trace = [0, 1, 3], [0, 1, 1], [0, 2]
        strays = Verdict(False, 0, Measure(Fraction(2, 3), 1, "above"))
        self.assertEqual(kovrelna.judge(*trace, Ratio(4, 6)), Verdict(True, None))
        self.assertEqual(kovrelna.judge(*trace, Ratio(665, 1000)), strays)
        self.assertTrue(kovrelna.judge(*trace, Ratio(4, 6)))
        self.assertFalse(kovrelna.judge(*trace, Ratio(665, 1000)))
        self.assertEqual(kovrelna.write(*trace, Ratio(4, 6)), RECORD)
        content = kovrelna.read(RECORD)
        self.assertEqual((list(content.ticks), list(content.values)), ([0, 3], [0, 1]))
        self.assertEqual(content.tolerance, Parts(Fraction(2, 3), Fraction(2, 3)))
        self.assertEqual(content.tolerance.one, Fraction(2, 3))

    def test_scans(self):
        every, ends = [0, 1, 2, 3, 4], [0, 4]
        forms = [2, 3.0, Noise(0.5, 4), Ratio(18, 6), Fraction(2), Counts(65535)]
        lists = [every, ends, every, ends, every, ends]
        self.assertEqual(scan_of(EVEN, ZIGZAG, forms), lists)
        self.assertEqual(scan_of(EVEN, ZIGZAG, iter(forms[::-1])), lists[::-1])
        tolerances = 2, Ratio(8, 3), 0.5
        self.assertEqual(scan_of(EVEN, WAVE, tolerances), [[0, 2, 4], ends, [0, 1, 3, 4]])
        for gap, kept in [(7, [0, 2, 3, 5]), (8, [0, 5])]:
            self.assertEqual(scan_of(HOLED, [0] * 6, [0, 1], gap=gap), [kept, kept])
        self.assertEqual(scan_of([7], [7], [0] * 16), [[0]] * 16)
        for kept in kovrelna.scan(EVEN, ZIGZAG, forms):
            self.assertIsInstance(kept, array.array)
            self.assertEqual(kept.typecode, "H")

    def test_scans_in_parts(self):
        """Each list in its own part of the output; all other entries stay."""
        for spare in (0, 1, 7):
            out = array.array("H", [9] * (15 + spare))
            found = kovrelna.scan(EVEN, WAVE, [2, Ratio(8, 3), 0.5], out)
            lists = [0, 2, 4, 9, 9, 0, 4, 9, 9, 9, 0, 1, 3, 4, 9]
            self.assertEqual(out.tolist(), lists + [9] * spare)
            self.assertEqual([kept.tolist() for kept in found], [[0, 2, 4], [0, 4], [0, 1, 3, 4]])
            out[5] = 77
            self.assertEqual([kept[0] for kept in found], [0, 77, 0])

    def test_views(self):
        view = View(1)
        for n, kept in enumerate(OF_TWICE, 1):
            if n > 1:
                self.assertIsNone(view.add(range(n), TWICE[:n]))
            self.assertEqual((view.k, view.samples), (1, kept))
            self.assertEqual({type(number) for number in (view.k, *view.samples)}, {int})
        self.assertEqual(reference.list_error(range(8), TWICE, view.samples), 8)
        self.assertEqual(kovrelna.least(range(8), TWICE, 3).error, 4)
        # More than twice the least error with two inner samples, and less than twice that with one.
        ticks, ridge = [0, 3, 6, 8, 9, 11, 13, 14], [-7, 4, 11, 15, 27, 31, 23, 16]
        view = grown(View(1), ticks, ridge)
        self.assertEqual(view.samples, [0, 4, 6, 7])
        self.assertEqual(reference.list_error(ticks, ridge, view.samples), Fraction(74, 9))
        self.assertEqual(kovrelna.least(ticks, ridge, 3).error, Fraction(62, 11))
        self.assertEqual(kovrelna.least(ticks, ridge, 4).error, 4)
        # A state set by hand has no bound.
        view = grown(view_of(1, [0, 2]), range(4), [0, 1, 0, -1])
        self.assertEqual(view.samples, [0, 2, 3])
        self.assertEqual(reference.list_error(range(4), [0, 1, 0, -1], [0, 2, 3]), 1)
        self.assertEqual(kovrelna.least(range(4), [0, 1, 0, -1], 3).error, 0)

    def test_which_sample_is_dropped(self):
        every, wide = [0, 1, 2, 3], [0, 1, 2, 1048574, 1048575]
        extreme = [-32768, 32767, -32768, 32767, -32768]
        for ticks, values, kept in [
            (EVEN, [0, 9, 1, 9, 0], [0, 1, 3, 4]),
            (EVEN, [0, 9, 0, 0, 0], [0, 1, 2, 4]),
            # Of equals the earliest.
            (EVEN, ZIGZAG, [0, 2, 3, 4]),
            (EVEN, [0] * 5, [0, 2, 3, 4]),
            (EVEN, [0, 1, 5, 1, 0], [0, 2, 3, 4]),
            (EVEN, [-20, 9, 0, 3, -6], [0, 1, 3, 4]),
            # The errors are 2/3, 2/3 and 1/3.
            ([0, 1, 3, 4, 6], [0, 1, 1, 2, 3], [0, 1, 2, 4]),
            # No gap limit applies; the greatest products.
            ([0, 1, 2, 1000002, 1000003], [0] * 5, [0, 2, 3, 4]),
            (wide, extreme, reference.view_add(1, every, wide, extreme)),
        ]:
            view = view_of(1, every)
            view.add(ticks, values)
            self.assertEqual(view, view_of(1, kept), (ticks, values))
            # None is dropped before there are 2 k + 1 inner samples; k = 0 keeps both ends.
            for k in (2, 32):
                self.assertEqual(grown(view_of(k, every), ticks, values).samples, every + [4])
            self.assertEqual(grown(View(0), ticks, values).samples, [0, 4])

    def test_sums(self):
        short = range(4), [0, 0, 1, 1], range(4), [0, -1, 0, 1], [0, 3], [0, 1, 3]
        for pair, sums, joined, first, second, both in [
            (short, [0, -1, 1, 2], [0, 1, 3], Fraction(1, 3), 0, Fraction(1, 2)),
            (PAIR, SUMS, JOINED, 0, 1, 2),
        ]:
            ticks, values1, _, values2, list1, list2 = pair
            found = kovrelna.sum(*pair)
            self.assertEqual((list(found.sums), list(found.joined)), (sums, joined))
            self.assertEqual([part.typecode for part in found], ["h", "H"])
            turned = kovrelna.sum(ticks, values2, ticks, values1, list2, list1)
            self.assertEqual(turned, found)
            lists = (values1, list1, first), (values2, list2, second), (*found, both)
            for values, kept, error in lists:
                self.assertEqual(reference.list_error(ticks, values, kept), error)
                # With a trace of zeros and the list of its two ends.
                zeros, ends = [0] * len(ticks), [0, len(ticks) - 1]
                same = list(values), list(kept)
                self.assertEqual(sum_of(ticks, values, ticks, zeros, kept, ends), same)
                self.assertEqual(sum_of(ticks, zeros, ticks, values, ends, kept), same)
            # Within 2 (T1 + T2), and not within T1 + T2.
            self.assertTrue(kovrelna.judge(ticks, *found, 2 * (first + second)))
            self.assertFalse(kovrelna.judge(ticks, *found, first + second))
        self.assertEqual(sum_of([7], [7], [7], [-9], [0], [0]), ([-2], [0]))
        # The last tick, and the greatest span.
        ticks = [2**32 - 1048576, 2**32 - 1]
        self.assertEqual(sum_of(ticks, [1, 2], ticks, [3, 4], [0, 1], [0, 1]), ([4, 6], [0, 1]))

    def test_same(self):
        """A trace kept at 2 counts and at 5 ends with the same samples."""
        values, records = [0, 2, 0, 2, 0], []
        for counts in (2, 5):
            kept = kovrelna.walk(EVEN, values, counts)
            self.assertEqual(list(kept), [0, 4])
            records.append(kovrelna.write(EVEN, values, kept, counts))
        self.assertEqual(kovrelna.read(records[0])[:2], kovrelna.read(records[1])[:2])
        self.assertIs(kovrelna.same(*records), False)
        for form in (5, 5.0, Ratio(10, 2), Counts(5), Noise(2.5, 2)):
            again = kovrelna.write(EVEN, values, [0, 4], form)
            self.assertIs(kovrelna.same(records[1], again), True)
        # Another value, another tick, a sample more.
        for ticks, changed in [([0, 4], [0, 1]), ([0, 5], [0, 0]), ([0, 4, 5], [0, 0, 0])]:
            other = kovrelna.write(ticks, changed, range(len(ticks)), 5)
            self.assertIs(kovrelna.same(records[1], other), False)
        # Ratios that differ in one byte of the record or in more.
        forms = [Ratio(1, q) for q in (1, 2, 257, 65537)]
        forms += [Ratio(5 + more, 1048573) for more in (0, 2**8, 2**16, 2**24, 2**32)]
        records = [kovrelna.write([0, 4], [0, 0], [0, 1], form) for form in forms]
        for one in records:
            for other in records:
                self.assertIs(kovrelna.same(one, other), one is other)

    def test_every_pair_of_lists(self):
        for size in range(1, 6):
            every = list(reference.kept_lists(size, size))
            self.assertEqual(len(every), 2 ** max(size - 2, 0))
            trace = range(size), [1] * size
            for list1, list2 in itertools.product(every, repeat=2):
                union = [k for k in range(size) if k in list1 or k in list2]
                self.assertEqual(sum_of(*trace, *trace, list1, list2), ([2] * size, union))

    def test_sums_at_the_limits(self):
        low, high = -32768, 32767
        pairs = [(low, 0), (low // 2, low // 2), (-1, low + 1), (high, 0), (high // 2, 16384)]
        pairs += [(high, low), (low, high), (1, high - 1)]
        columns = [list(column) for column in zip(*pairs)]
        ticks, ends = range(len(pairs)), [0, len(pairs) - 1]
        sums = [low, low, low, high, high, -1, -1, high]
        self.assertEqual(sum_of(ticks, columns[0], ticks, columns[1], ends, ends), (sums, ends))
        beyond = [(low, -1), (low // 2, low // 2 - 1), (low, low), (high, 1), (16384, 16384)]
        for one, other in beyond + [(high, high), (1, high), (-1, low)]:
            for k, columns in itertools.product(EVEN, ([one, other], [other, one])):
                values1, values2 = ([0] * k + [value] * (5 - k) for value in columns)
                pair = EVEN, values1, EVEN, values2, [0, 4], [0, 4]
                outputs = outputs_of(5, 5)
                self.refused(18, k, kovrelna.sum, *pair, *outputs)
                self.assertEqual(outputs, outputs_of(5, 5))

    def test_report(self):
        crate = [0, 1, 2, 3, 4, 5, 5, 7], WAVE + [1, 1, 9], [5, 0, 2, 1]
        rows = [(5, 3, 2, 1, 0), (0, 0, 0, 0, 1), (0, 0, 0, 0, 2), (1, 1, 0, 0, 0)]
        for form in (2, Ratio(4, 2), Counts(2), Noise(0.5, 4)):
            answer = kovrelna.report(*crate, form)
            self.assertEqual(answer, (rows, 6, 4, 2))
            self.assertEqual({type(row.error) for row in answer.rows}, {Fraction})
            self.assertIs(type(answer.error), Fraction)
        two_thirds = kovrelna.report([0, 1, 3], [0, 1, 1], [3], Ratio(4, 6))
        self.assertEqual(two_thirds.rows[0].error, Fraction(2, 3))
        self.assertEqual((two_thirds.samples, two_thirds.kept), (3, 2))
        # Every channel is refused.
        self.assertEqual(kovrelna.report([], [], [0], 1), ([(0, 0, 0, 0, 1)], 0, 0, 0))

    def test_the_worst_sample(self):
        """Of walk's links 0 to 2, 2 to 3 and 3 to 5: numbered in the channel's own trace."""
        for values, error, sample in [
            ([0, 0, 0, 0, 0, 0], 0, 0),
            ([0, 1, 0, 0, 2, 0], 2, 4),
            ([0, 2, 0, 0, 1, 0], 2, 1),
            ([0, -2, 0, 0, 2, 0], 2, 1),
            ([0, 1, 1, 0, -1, 0], 1, 4),
            ([9, 9, 9, -9, -9, -9], 0, 0),
        ]:
            crate = [7] + 2 * HOLED + [5, 99], [7] + 2 * values + [0, 9], [1, 6, 6, 2]
            row = 6, 4, error, sample, 0
            expected = [(1, 1, 0, 0, 0), row, row, (2, 2, 0, 0, 0)]
            self.assertEqual(kovrelna.report(*crate, 2, gap=7), (expected, 15, 11, error))

    def test_the_worst_by_plain_distance(self):
        """A sample well within the greater part comes before one at the limit of the smaller."""
        for values, above, below in [
            ([0, 3, 0, 0, -1, 0] + [0, -1, 0, 0, 3, 0], 5, 1),
            ([0, -3, 0, 0, 1, 0] + [0, 1, 0, 0, -3, 0], 1, 5),
        ]:
            crate = 2 * HOLED, values, [6, 6]
            rows = [(6, 4, 3, 1, 0), (6, 4, 3, 4, 0)]
            found = kovrelna.report(*crate, Parts(above, below), gap=7)
            self.assertEqual(found, (rows, 12, 8, 3))
            # With the parts exchanged that sample is kept.
            rows = [(6, 5, 1, 4, 0), (6, 5, 1, 1, 0)]
            found = kovrelna.report(*crate, Parts(below, above), gap=7)
            self.assertEqual(found, (rows, 12, 10, 1))

    def test_pedestals(self):
        half = Ratio(1, 2)
        equal = Parts(half, Fraction(1, 2))
        for form in (half, Ratio(2, 4), Fraction(1, 2), 0.5, Counts(0.5), Noise(0.25, 2), equal):
            found = kovrelna.pedestals(TODAY, BEFORE, form, 2)
            self.assertEqual((found.moved, found.noisy), ([0], [1]))
            self.assertEqual({type(channel) for part in found for channel in part}, {int})
        self.assertEqual(kovrelna.pedestals(TODAY, BEFORE, Ratio(499, 1000), 2), ([0, 2], [1]))
        self.assertEqual(kovrelna.pedestals(TODAY, BEFORE, half, 1), ([0], [1, 2]))
        self.assertEqual(kovrelna.pedestals(BEFORE, TODAY, half, 1), ([0], []))
        self.assertEqual(kovrelna.pedestals(TODAY, TODAY, 0, 1), ([], []))
        # Each run has ticks of its own.
        before = BEFORE._replace(ticks=[9, 10, 2**20, 2**20 + 8] * 3)
        self.assertEqual(kovrelna.pedestals(TODAY, tuple(before), half, 2), ([0], [1]))

    def test_moved_at_the_limit(self):
        """|S1 - S2| q beside p n: one below, the same, one above."""
        for samples, apart, bound, beyond in [
            (3, 1, Fraction(1, 2), -1),
            (3, 3, Fraction(1), 0),
            (3, 2, Fraction(1, 2), 1),
            (4096, 4097, Fraction(1048831, 1048575), -1),
            (4096, 1, Fraction(1, 4096), 0),
            (4096, 4095, Fraction(1048319, 1048575), 1),
        ]:
            today, before = [apart] + [0] * (samples - 1), [0] * samples
            self.assertEqual(reference.shift(today, before, bound), beyond)
            for runs in itertools.permutations([values_run(today), values_run(before)]):
                moved = kovrelna.pedestals(*runs, bound, 16).moved
                self.assertEqual(moved, [0] if beyond > 0 else [], (samples, apart, bound))

    def test_noisy_at_the_limit(self):
        """n Q1 - S1^2 beside k^2 (n Q2 - S2^2): one below, the same, one above."""
        spread, even = [1] * 32 + [-1] * 31 + [0] * 4033, [1] * 64 + [0] * 4032
        for k, today, before, beyond in [
            (1, [0, 0, 0, 1], [0, 0, 1, 1], -1),
            (1, [5], [7], 0),
            (1, [0, 0, 1, 1], [0, 0, 0, 1], 1),
            (1, spread, even, -1),
            (1, even, even, 0),
            (1, even, spread, 1),
            (3, [0, 1, 2, 4], [0, 0, 1, 1], -1),
            (3, [0, 0, 0, 3], [0, 0, 0, 1], 0),
            (3, [0, 0, 5, 5], [0, 0, 1, 2], 1),
            (15, [0, 0, 0, 2, 10, 14], [0, 0, 0, 0, 0, 1], -1),
            (16, [0, 0, 0, 0, 0, 16], [0, 0, 0, 0, 0, 1], 0),
            (16, [0, 0, 0, 7, 11, 15], [0, 0, 0, 0, 0, 1], 1),
        ]:
            self.assertEqual(reference.noise(today) - k * k * reference.noise(before), beyond)
            for up, down in [(0, 0), (32751, -32767)]:
                runs = [value + up for value in today], [value + down for value in before]
                noisy = kovrelna.pedestals(*map(values_run, runs), 65535, k).noisy
                self.assertEqual(noisy, [0] if beyond > 0 else [], (k, today, before))

    def test_codes(self):
        values = [31, 32, 94, 96, 8032]
        self.assertEqual(list(kovrelna.expand([31, 32, 63, 64, 255])), values)
        rule = [2**e * (m + 32) - 32 for e in range(8) for m in range(32)]
        self.assertEqual(list(kovrelna.expand(bytes(range(256)))), rule)

    def test_tables(self):
        every = bytes(range(256))
        self.assertEqual(list(kovrelna.expand_with([0, 200, 255], TABLE)), [-20000, 0, 5500])
        self.assertEqual(list(kovrelna.expand_with(every, TABLE)), TABLE)
        # The example of document 02.
        table = [257 * code - 32768 for code in every]
        values = [-32768, -129, 128, 32767]
        self.assertEqual(list(kovrelna.expand_with([0, 127, 128, 255], table)), values)
        self.refused(12, 255, kovrelna.expand_with, [0], table[:255] + table[254:255])
        self.refused(12, 1, kovrelna.expand_with, [0], [32767] + table[1:])
        self.refused(12, 0, kovrelna.expand_with, [0], table[:255])
        # The values of expand as a table.
        table = kovrelna.expand(every)
        mixed = random.Random(2).choices(every, k=4096)
        for codes in [every, mixed] + [[code] for code in every]:
            self.assertEqual(kovrelna.expand_with(codes, table), kovrelna.expand(codes))
        # The least and the greatest value, and a rise by more than the greatest.
        low, high = range(-32768, -32640), range(32640, 32768)
        for table in (table_with({0: -32768, 255: 32767}), [*low, *high]):
            self.assertEqual(list(kovrelna.expand_with([255, 0], table)), [32767, -32768])

    def test_ticks(self):
        for call in JUDGES:
            self.assertTrue(call([0, 1048575], [0, 0], [0, 1], 0))
            self.refused(3, 1, call, [0, 1048576], [0, 0], [0, 1], 0)
            self.refused(2, 1, call, [5, 5], [0, 0], [0, 1], 0)

    def test_steps(self):
        for advance, change, step in [
            (255, 127, b"\x53\xff\x7f"),
            (255, -128, b"\x53\xff\x80"),
            (256, 0, b"\x4c\x00\x01\x00\x00\x28"),
            (1, 128, b"\x4c\x00\x00\x01\x00\xa8"),
        ]:
            ticks, values = [9, 9 + advance], [40, 40 + change]
            record = kovrelna.write(ticks, values, [0, 1], 0)
            self.assertEqual(record[16:-3], step)
            content = kovrelna.read(record)
            self.assertEqual((list(content.ticks), list(content.values)), (ticks, values))


class Tolerances(Case):
    def test_held(self):
        for tolerance, fraction in [
            (Ratio(4, 6), Fraction(2, 3)),
            (Ratio(0, 1048575), Fraction(0)),
            (Ratio(65535 * 1048575, 1048575), Fraction(65535)),
            (Counts(65534.984375), Fraction(4194239, 64)),
            (Counts(-0.0), Fraction(0)),
            (Counts(3), Fraction(3)),
            (Counts(Fraction(3, 2)), Fraction(3, 2)),
            (Noise(0.015625, 0.125), Fraction(1, 512)),
            (Noise(1023, 63), Fraction(64449)),
            (7, Fraction(7)),
            (Fraction(5, 1048575), Fraction(1, 209715)),
            (0.75, Fraction(3, 4)),
        ]:
            held = kovrelna.hold(tolerance)
            self.assertEqual(held, Parts(fraction, fraction), tolerance)
            self.assertEqual((held.one, str(held)), (fraction, str(fraction)))
            self.assertEqual({type(part) for part in (held.above, held.below, held.one)}, {Fraction})

    def test_held_parts(self):
        greatest = 65535 * 1048575
        for parts, above, below in [
            (Parts(2, 1), 2, 1),
            (Parts(above=1, below=2), 1, 2),
            (Parts(Ratio(4, 6), Ratio(10, 4)), Fraction(2, 3), Fraction(5, 2)),
            (Parts(Fraction(1, 3), True), Fraction(1, 3), 1),
            (Parts(Ratio(0, 9), Ratio(7, 7)), 0, 1),
            (Parts(65535, Ratio(greatest - 1, 1048575)), 65535, Fraction(greatest - 1, 1048575)),
            (Parts(Ratio(2, 2), 1), 1, 1),
        ]:
            held = kovrelna.hold(parts)
            self.assertEqual((held.above, held.below), (above, below))
            self.assertEqual({type(held.above), type(held.below)}, {Fraction})
            one = above if above == below else None
            self.assertEqual((held.one, parts.one), (one, one))
            # A held tolerance is one again.
            self.assertEqual(kovrelna.hold(held), held)
            self.assertEqual(pickle.loads(pickle.dumps(held)), held)
            self.assertEqual(len({held, copy.copy(held)}), 1)

    def test_parts(self):
        self.assertEqual(Parts(2, 1), Parts(Fraction(2), Fraction(1)))
        self.assertNotEqual(Parts(2, 1), Parts(1, 2))
        self.assertEqual(repr(Parts(2, Ratio(1, 3))), "Parts(above=2, below=Ratio(p=1, q=3))")
        for parts, words in [
            (Parts(2, 1), "2 above and 1 below"),
            (Parts(Ratio(1, 3), Fraction(5, 2)), "1/3 above and 5/2 below"),
            (Parts(Ratio(4, 6), Fraction(2, 3)), "2/3"),
            (Parts(Ratio(1, 0), Ratio(1, 0)), "1/0 above and 1/0 below"),
            (Parts(Ratio(1, 2), Ratio(0, 0)), "1/2 above and 0/0 below"),
        ]:
            self.assertEqual(str(parts), words)
        with self.assertRaises(AttributeError):
            Parts(2, 1).above = 3

    def test_refused(self):
        infinity, nan = float("inf"), float("nan")
        numbers = [-1, 65536, 2**64, -(2**64), Fraction(-1, 2), Fraction(1, 1048576), 1 / 128, -0.5]
        ratios = [Ratio(0, 0), Ratio(1, 0), Ratio(-1, -2), Ratio(2**64, 2**64), Ratio(1, 2**64 + 1)]
        counts = [Counts(x) for x in (65535.015625, 0.0078125, nan, infinity, -infinity)]
        # The nearest float is allowed, or there is none.
        counts += [Counts(2 + Fraction(1, 2**60)), Counts(10**400), Counts(-(10**400))]
        noises = [Noise(1023.015625, 0), Noise(0, 63.125), Noise(1, 0.0625), Noise(nan, 0)]
        noises += [Noise(2 + Fraction(1, 2**60), 1), Noise(1, 2 + Fraction(1, 2**60))]
        for tolerance in numbers + ratios + counts + noises + [nan, infinity] + NO_PARTS:
            self.refused(4, 0, kovrelna.hold, tolerance)
            for call in REDUCTIONS:
                self.refused(4, 0, call, EVEN, WAVE, tolerance)
                self.refused(2, 1, call, [5, 5], [0, 0], tolerance)

    def test_other_types(self):
        forms = [Ratio(1.5, 2), Ratio("1", 2), Counts("2"), Noise(1, None)]
        forms += [(2, 1), Parts(1, Ratio(1.5, 2)), Parts(Ratio("1", 2), 1)]
        for tolerance in ["2", None, b"2", [2], 2j] + forms:
            with self.assertRaises(TypeError):
                kovrelna.hold(tolerance)

    def test_other_parts(self):
        """Each part is a ratio; of others it is said how to write them."""
        for part, words in [
            (0.5, "float; write Ratio(1, 2) or Fraction(1, 2)"),
            (0.1, "float; write Ratio(1, 10) or Fraction(1, 10)"),
            (2.0, "float; write Ratio(2, 1) or Fraction(2, 1)"),
            (1 / 3, "float; write Ratio(p, q) or Fraction(p, q)"),
            (float("nan"), "float"),
            (float("inf"), "float"),
            (Counts(0.5), "Counts; write hold(Counts(counts=0.5)).one"),
            (Noise(1.5, 2.0), "Noise; write hold(Noise(noise=1.5, multiple=2.0)).one"),
            (Parts(1, 2), "Parts"),
            ("1/2", "str"),
            (None, "NoneType"),
        ]:
            for side, parts in [("above", Parts(part, 1)), ("below", Parts(1, part))]:
                must = f"the part {side} must be Ratio, a whole number or a Fraction"
                for call in (kovrelna.hold, lambda parts: kovrelna.walk(EVEN, WAVE, parts)):
                    with self.assertRaises(TypeError) as caught:
                        call(parts)
                    self.assertEqual(str(caught.exception), f"{must}, not {words}")
        self.assertEqual(kovrelna.hold(Parts(kovrelna.hold(Counts(0.5)).one, 1)).above, 0.5)


class Views(Case):
    """A view as an object."""

    def test_begun(self):
        for k in (*range(33), True):
            view = View(k)
            self.assertEqual((view.k, view.samples), (k, [0]))
            self.assertEqual(view.__getstate__(), struct.pack("=II66H", k, 1, *[0] * 66))
        self.assertEqual(View(k=3).k, 3)
        for k in NO_KS:
            self.refused(20, 0, View, k)
        for k in (1.0, "1", None, Fraction(1), [1]):
            with self.assertRaises(TypeError):
                View(k)

    def test_the_list_is_a_copy(self):
        view = grown(View(1), range(8), TWICE)
        view.samples.append(9)
        view.samples[0] = 9
        self.assertEqual(view.samples, OF_TWICE[-1])
        for name in ("k", "samples"):
            with self.assertRaises(AttributeError):
                setattr(view, name, 1)

    def test_copies(self):
        """Each goes on as the view itself does, and on its own."""
        kinds = [copy.copy, copy.deepcopy]
        for protocol in range(pickle.HIGHEST_PROTOCOL + 1):
            kinds.append(lambda view, protocol=protocol: pickle.loads(pickle.dumps(view, protocol)))
        ticks, values = range(40), [k * k * k % 31 for k in range(40)]
        for k, n in itertools.product((0, 1, 2, 7), (1, 2, 5, 20)):
            whole = grown(View(k), ticks, values)
            for kind in kinds:
                view = grown(View(k), ticks[:n], values[:n])
                before = view.samples
                other = kind(view)
                self.assertIsInstance(other, View)
                self.assertEqual(other, view)
                self.assertEqual(grown(other, ticks, values), whole)
                self.assertEqual(view.samples, before)
                self.assertEqual(grown(view, ticks, values), whole)

    def test_equality(self):
        view = grown(View(1), range(8), TWICE)
        # What lies behind the list means nothing.
        self.assertEqual(view, view_of(1, [0, 4, 5, 7]))
        self.assertNotEqual(view.__getstate__(), view_of(1, [0, 4, 5, 7]).__getstate__())
        others = view_of(2, [0, 4, 5, 7]), view_of(1, [0, 4, 6, 7]), view_of(1, [0, 4, 5])
        counts = view_of(1, range(66), 67), view_of(1, range(66), 68)
        for one, other in itertools.combinations((view, *others, *counts), 2):
            self.assertNotEqual(one, other)
        for other in ([0, 4, 5, 7], (1, [0, 4, 5, 7]), None):
            self.assertNotEqual(view, other)
        with self.assertRaises(TypeError):
            hash(view)

    def test_words(self):
        self.assertEqual(repr(View(32)), "View(k=32, samples=[0])")
        self.assertEqual(repr(grown(View(1), range(8), TWICE)), "View(k=1, samples=[0, 4, 5, 7])")
        self.assertEqual(repr(view_of(40, [])), "View(k=40, samples=[])")

    def test_any_state(self):
        """Whatever bytes are restored: the next addition refuses what is no view, and leaves it."""
        chosen = random.Random(2)
        for _ in range(2000):
            state = bytearray(view_of(chosen.choice([0, 1, 32]), [0, 1, 2]).__getstate__())
            for _ in range(chosen.choice([1, 2, 140])):
                at = chosen.choice([chosen.randrange(14), chosen.randrange(140)])
                state[at] = chosen.choice([0, 1, 67, 255, chosen.randrange(256)])
            view = View(0)
            view.__setstate__(bytes(state))
            k, count = struct.unpack_from("=II", state)
            self.assertEqual((view.k, len(view.samples)), (k, min(count, 66)))
            expected = answer(reference.view_add, k, view.samples, range(4), [0] * 4)
            found = answer(view.add, range(4), [0] * 4)
            if count > 66 or expected[0] == "refused":
                self.assertEqual(found, ("refused", (20, 0)))
                self.assertEqual(view.__getstate__(), state)
            else:
                self.assertEqual((found, view.samples), (None, expected))

    def test_no_state(self):
        view = grown(View(1), range(8), TWICE)
        for length in (0, 139, 141, 280):
            words = f"^the state of a view has 140 bytes, not {length}$"
            with self.assertRaisesRegex(ValueError, words):
                view.__setstate__(bytes(length))
        for state in (None, 7, "x" * 140, [0] * 140):
            with self.assertRaises(TypeError):
                view.__setstate__(state)
        self.assertEqual(view.samples, OF_TWICE[-1])


class Refusals(Case):
    def not_added(self, number, value, view, ticks, values):
        """Refused: the view stays as it was, and the library leaves every byte of its state."""
        before, lent = view.__getstate__(), []
        real = kovrelna._library.view_add

        def recorded(state, *trace):
            lent.append(state)
            return real(state, *trace)

        with mock.patch.object(kovrelna._library, "view_add", recorded):
            self.refused(number, value, view.add, ticks, values)
        self.assertEqual([bytes(state) for state in lent], [before])
        self.assertEqual(view.__getstate__(), before)

    def not_scanned(self, number, value, *given, **limits):
        """Refused by `scan` with a new output, and with lent ones, which stay as they were."""
        self.refused(number, value, kovrelna.scan, *given, **limits)
        for length in (0, 99):
            out = array.array("H", [9] * length)
            self.refused(number, value, kovrelna.scan, *given, out, **limits)
            self.assertEqual(out, array.array("H", [9] * length))

    def not_summed(self, number, value, *pair):
        """Refused by `sum` with new outputs, and with lent ones, which stay as they were."""
        self.refused(number, value, kovrelna.sum, *pair)
        for rooms in [(0, 0), (9, 9), (0, 9)]:
            outputs = outputs_of(*rooms)
            self.refused(number, value, kovrelna.sum, *pair, *outputs)
            self.assertEqual(outputs, outputs_of(*rooms))

    """Every row of every call; where a row has several causes, each."""

    flat = [0] * 5
    traces = [
        # Row 1: no samples, too many, list lengths differ.
        (1, 0, [], []),
        (1, 0, range(4097), [0] * 4097),
        (1, 0, EVEN, [0] * 4),
        (1, 0, EVEN, []),
        (1, 0, [], flat),
        # Row 2, also before row 3.
        (2, 1, [5, 5, 6, 7, 8], flat),
        (2, 4, [0, 1, 2, 3, 3], flat),
        (2, 2, [0, 5, 4, 6, 7], flat),
        (2, 4, [0, 1048576, 1048577, 1048578, 0], flat),
        # Row 3.
        (3, 1, [0, 1048576, 1048577, 1048578, 1048579], flat),
        (3, 4, [0, 1, 2, 3, 1048576], flat),
    ]

    def test_traces(self):
        for (number, value, ticks, values), tolerance, gap in itertools.product(
            self.traces, (0, Ratio(0, 0), Parts(Ratio(0, 0), 1), Parts(1, Ratio(0, 0))), (GAP_MAX, 0)
        ):
            row, out = (number, value), array.array("H")
            for call in REDUCTIONS:
                self.refused(*row, call, ticks, values, tolerance, gap=gap)
                self.refused(*row, call, ticks, values, tolerance, out, gap=gap)
            for allowance in (2, 0):
                self.refused(*row, kovrelna.least, ticks, values, allowance, gap=gap)
                self.refused(*row, kovrelna.least, ticks, values, allowance, out, gap=gap)
            if len(ticks) == len(values) and tolerance == 0:
                crate = kovrelna.report(ticks, values, [len(ticks)], tolerance)
                self.assertEqual(crate, ([(0, 0, 0, 0, number)], 0, 0, 0))
                for runs in itertools.permutations([ticks_run(EVEN, ticks), ticks_run(EVEN, EVEN)]):
                    self.refused(number, 1, kovrelna.pedestals, *runs, tolerance, 1)
            for i, j in [(0, 1), (4, 0), (-1, 2**64)]:
                self.refused(*row, kovrelna.measure, ticks, values, i, j)
            for count in (1, 0, 17):
                self.not_scanned(*row, ticks, values, [tolerance] * count, gap=gap)
            for view in (view_of(1, [0, 3]), View(1), view_of(33, []), view_of(1, [0], 2**32 - 1)):
                self.not_added(*row, view, ticks, values)
            for lists in ([[0, 4], [0, 4]], [[], [1]], [[0, 65535], []]):
                self.not_summed(*row, ticks, values, EVEN, self.flat, *lists)
                self.not_summed(*row, EVEN, self.flat, ticks, values, *lists)
                self.not_summed(*row, ticks, values, [7, 7], [], *lists)
            for kept in ([0, 4], [], [1]):
                for call in (*JUDGES, kovrelna.write):
                    self.refused(*row, call, ticks, values, kept, tolerance, gap=gap)

    def test_tolerances(self):
        for none, gap in itertools.product([Ratio(0, 0), *NO_PARTS], (GAP_MAX, 0)):
            self.refused(4, 0, kovrelna.hold, none)
            for call in REDUCTIONS:
                self.refused(4, 0, call, EVEN, self.flat, none, gap=gap)
                self.refused(4, 0, call, EVEN, self.flat, none, array.array("H"), gap=gap)
            for call in JUDGES:
                self.refused(4, 0, call, EVEN, self.flat, [1], none, gap=gap)
            self.refused(4, 0, kovrelna.write, EVEN, self.flat, [1], none, bytearray(0), gap=gap)
            self.refused(4, 0, kovrelna.report, EVEN, self.flat, [5], none, gap=gap)
            self.refused(4, 0, kovrelna.pedestals, ticks_run([]), ticks_run([0, 0]), none, 1)

    def test_unequal_parts(self):
        """Pedestals are compared at equal parts: in the row of the tolerance."""
        for parts in (Parts(2, 1), Parts(1, 2), Parts(0, Ratio(1, 1048575)), Parts(1, Ratio(2, 3))):
            self.refused(4, 0, kovrelna.pedestals, TODAY, BEFORE, parts, 2)
            self.refused(4, 0, kovrelna.pedestals, ticks_run([]), ticks_run([0, 0]), parts, 1)
            self.refused(11, 0, kovrelna.pedestals, ticks_run([0]), ticks_run(), parts, 1)
            self.refused(14, 0, kovrelna.pedestals, TODAY, BEFORE, parts, 0)

    def test_scans(self):
        """19 before 4, 4 with its position before 15, and 10 last."""
        bad = [Ratio(1, 0), Counts(0.01), Noise(1024, 0), -1, float("nan"), Fraction(1, 1048576)]
        bad += [Parts(1, Ratio(1, 0)), Parts(Ratio(1, 0), 1)]
        for gap in (GAP_MAX, 1, *NO_GAPS):
            for tolerance in (0, *bad):
                for count in (0, 17, 18, 100):
                    self.not_scanned(19, 0, EVEN, self.flat, [tolerance] * count, gap=gap)
            for tolerance, at in itertools.product(bad, (0, 1, 7, 15)):
                several = [0] * at + [tolerance] * (16 - at)
                self.not_scanned(4, at, EVEN, self.flat, several, gap=gap)
                one = [0] * at + [tolerance] + [0] * (15 - at)
                self.not_scanned(4, at, EVEN, self.flat, one, gap=gap)
        for gap, count in itertools.product(NO_GAPS, (1, 16)):
            self.not_scanned(15, 0, EVEN, self.flat, [0] * count, gap=gap)
        for count in (1, 2, 16):
            for length in {0, 4, 5 * count - 1}:
                out = array.array("H", [9] * length)
                self.refused(10, 5 * count, kovrelna.scan, EVEN, self.flat, [0] * count, out)
                self.assertEqual(out, array.array("H", [9] * length))
        endless = itertools.repeat(0)
        self.not_scanned(19, 0, EVEN, self.flat, endless)
        self.assertEqual(scan_of(EVEN, self.flat, [0] * 16), [[0, 4]] * 16)

    def test_views(self):
        """20 after 1, 2 and 3, for each state that is no view of the earlier samples."""
        views = [(0, [0, 3]), (1, [0, 3]), (1, [0, 1, 3]), (1, [0, 1, 2, 3]), (32, [0, 1, 2, 3])]
        # k out of range; some make 2 k + 2 a small number where 32 bits are not enough.
        others = [(k, [0, 3]) for k in (33, 34, 2**31 - 1, 2**31, 2**31 + 1, 2**32 - 1)]
        # Empty; a first entry that is not 0; one that does not rise; one beyond.
        others += [(1, []), (1, [1, 3]), (1, [3]), (2, [0, 0, 3]), (2, [0, 3, 3]), (2, [0, 2, 1, 3])]
        others += [(2, [0, 4, 3]), (1, [0, 4]), (1, [0, 3, 4]), (1, [0, 65535]), (1, [0, 4096])]
        # Stops short; too many inner samples.
        others += [(1, [0]), (1, [0, 2]), (1, [0, 1, 2]), (0, [0, 1, 3]), (0, [0, 1, 2, 3])]
        for k, kept in others:
            self.not_added(20, 0, view_of(k, kept), EVEN, self.flat)
        # A count above the room, or one that is the list's if it is cut to fewer bits.
        for kept in ([0, 3], range(66)):
            for more in (67 - len(kept), 68 - len(kept), 2**8, 2**16, 2**31, -len(kept) - 1):
                view = view_of(32, kept, (len(kept) + more) % 2**32)
                for n in (kept[-1] + 2, kept[-1] + 3):
                    self.not_added(20, 0, view, range(n), [0] * n)
        for k, kept in views:
            view = view_of(k, kept)
            # A sample is added once, and none is left out.
            for n in (1, 2, 3, 4, 6, 7):
                self.not_added(20, 0, view, range(n), [0] * n)
            view.add(EVEN, self.flat)
            self.not_added(20, 0, view, EVEN, self.flat)
        # At each k as many inner samples as there may be, and one more.
        for k in range(33):
            room = 2 * k + 2
            full = view_of(k, range(room))
            full.add(range(room + 1), [0] * (room + 1))
            self.assertEqual(full, view_of(k, [0, *range(2, room + 1)]))
            if room < 66:
                more = view_of(k, range(room + 1))
                self.not_added(20, 0, more, range(room + 2), [0] * (room + 2))
        for k in range(33):
            self.not_added(20, 0, View(k), [7], [7])

    def test_gaps(self):
        for gap in NO_GAPS:
            for length in (0, 5):
                out, buffer = array.array("H", [7] * length), bytearray(b"\7" * 5 * length)
                for call in REDUCTIONS:
                    self.refused(15, 0, call, EVEN, self.flat, 0, out, gap=gap)
                for allowance in (0, 2):
                    self.refused(15, 0, kovrelna.least, EVEN, self.flat, allowance, out, gap=gap)
                for kept in ([], [1], [0, 4]):
                    given = EVEN, ZIGZAG, kept, 0
                    for call in (*JUDGES, kovrelna.write):
                        self.refused(15, 0, call, *given, gap=gap)
                    self.refused(15, 0, kovrelna.write, *given, buffer, gap=gap)
                self.assertEqual(set(out) | set(buffer) | {7}, {7})
            self.refused(15, 0, kovrelna.report, EVEN, self.flat, [5], 0, gap=gap)
            self.refused(15, 0, kovrelna.report, [], [], [0], 0, gap=gap)

        class One:
            """A whole number that is no int."""

            def __index__(self):
                return 1

        calls = [
            *((call, EVEN, self.flat, 0) for call in REDUCTIONS),
            (kovrelna.least, EVEN, self.flat, 2),
            (kovrelna.scan, EVEN, self.flat, [0]),
            *((call, EVEN, self.flat, [0, 4], 0) for call in (*JUDGES, kovrelna.write)),
            (kovrelna.report, EVEN, self.flat, [5], 0),
            (kovrelna.check, RECORD, [0, 1, 3], [0, 1, 1]),
        ]
        for call, *given in calls:
            for gap in (7.0, "7", None, Fraction(7), [7]):
                with self.assertRaises(TypeError):
                    call(*given, gap=gap)
            self.assertEqual(call(*given, gap=One()), call(*given, gap=1))

    def test_holes(self):
        for gap, fewest in [(7, 4), (1, 4), (8, 2)]:
            for length in (0, 5, 6):
                out = array.array("H", [9] * length)
                for allowance in (-1, 0, 1, 4097, 2**64 + 4):
                    given = HOLED, ZIGZAG + [0], allowance, out
                    self.refused(5, 0, kovrelna.least, *given, gap=gap)
                for allowance in range(2, fewest):
                    given = HOLED, ZIGZAG + [0], allowance, out
                    self.refused(16, 0, kovrelna.least, *given, gap=gap)
                self.assertEqual(set(out) | {9}, {9})
                if length < 6:
                    given = HOLED, ZIGZAG + [0], fewest, out
                    self.refused(10, 6, kovrelna.least, *given, gap=gap)
        # Of one sample and of two there is always a list.
        self.assertEqual(kovrelna.least([7], [7], 2, gap=1), (array.array("H", [0]), 0))
        self.assertEqual(kovrelna.least([7, 99], [7, 7], 2, gap=1), (array.array("H", [0, 1]), 0))
        # Every step is a hole.
        ticks, values = range(0, 512, 2), [0] * 256
        self.refused(16, 0, kovrelna.least, ticks, values, 255, gap=1)
        self.assertEqual(list(kovrelna.least(ticks, values, 256, gap=1).kept), list(range(256)))
        self.assertEqual(list(kovrelna.least(ticks, values, 2, gap=2).kept), [0, 255])

    def test_crates(self):
        for lengths in ([], [4], [6], [5, 1], [2**64 - 1, 6], [2**63, 2**63, 5], [1] * 65):
            for tolerance in (0, Ratio(0, 0)):
                for gap in (GAP_MAX, 0):
                    given = self.flat, lengths, tolerance
                    self.refused(11, 0, kovrelna.report, EVEN, *given, gap=gap)
                    self.refused(11, 0, kovrelna.report, [0] * 65, *given, gap=gap)
                for ticks in (EVEN, [0] * 65):
                    runs = (ticks, self.flat, lengths), (EVEN, self.flat, [5])
                    self.refused(11, 0, kovrelna.pedestals, *runs, tolerance, 1)
                    self.refused(11, 0, kovrelna.pedestals, *runs[::-1], tolerance, 1)
        self.refused(11, 0, kovrelna.report, EVEN, [0] * 4, [5], 0)
        self.refused(11, 0, kovrelna.report, EVEN, [0] * 4, [4], 0)
        self.refused(11, 0, kovrelna.report, [], [], [0] * 65, 0)
        self.refused(11, 0, kovrelna.report, [], [], [2**58] * 64, 0)
        self.assertEqual(kovrelna.report([], [], [0] * 64, 0).rows, [(0, 0, 0, 0, 1)] * 64)
        for channels in (0, 65):
            run = ticks_run(*channels * [[0]])
            self.refused(11, 0, kovrelna.pedestals, run, run, 0, 1)
        run = ticks_run(*64 * [[0]])
        self.assertEqual(kovrelna.pedestals(run, run, 0, 1), ([], []))

    def test_runs(self):
        """Each of these faults is found before all above it."""
        today, before = [[EVEN] * 4 for _ in range(2)]
        for number, run, channel, ticks in [
            (13, today, 3, range(6)),
            (3, before, 3, [0, 1048576, 1048577]),
            (2, before, 3, [0, 1048576, 1048576]),
            (1, before, 3, []),
            (3, today, 3, [0, 1, 2, 3, 1048576]),
            (2, today, 3, [0, 1048576, 1048577, 0]),
            (1, today, 3, range(4097)),
            (13, before, 2, range(4)),
            (1, before, 1, range(4097)),
            (3, today, 1, [2**32 - 1048577, 2**32 - 1]),
            (13, before, 0, [7]),
            (2, before, 0, [7, 7]),
            (3, today, 0, [0, 1048576]),
        ]:
            run[channel] = ticks
            runs = ticks_run(*today), ticks_run(*before)
            self.refused(number, channel, kovrelna.pedestals, *runs, 0, 1)
            self.refused(4, 0, kovrelna.pedestals, *runs, Ratio(0, 0), 1)
            for more in (ticks_run(*today, EVEN), runs[0]._replace(values=[])):
                self.refused(11, 0, kovrelna.pedestals, more, runs[1], Ratio(0, 0), 16)
                self.refused(11, 0, kovrelna.pedestals, runs[1], more, Ratio(0, 0), 16)
                self.refused(14, 0, kovrelna.pedestals, more, runs[1], Ratio(0, 0), 17)

    def test_factors(self):
        for k in (-1, 0, 17, 2**32 + 2, 2**64 - 1, 2**64 + 2, -(2**64) + 2):
            self.refused(14, 0, kovrelna.pedestals, TODAY, BEFORE, 1, k)
            self.refused(14, 0, kovrelna.pedestals, ([], [], []), ([], [], []), Ratio(0, 0), k)
        for k in range(1, 17):
            noisy = kovrelna.pedestals(TODAY, BEFORE, 1, k).noisy
            self.assertEqual(noisy, [1, 2] if k == 1 else [1])
        for k in (2.0, "2", None):
            with self.assertRaises(TypeError):
                kovrelna.pedestals(TODAY, BEFORE, 1, k)

    def test_allowances(self):
        out = array.array("H")
        for allowance in (-1, 0, 1, 4097, 2**32 + 2, 2**64 - 1, 2**64 + 2, -(2**64) + 2):
            self.refused(5, 0, kovrelna.least, EVEN, self.flat, allowance)
            self.refused(5, 0, kovrelna.least, EVEN, self.flat, allowance, out)
            self.refused(2, 1, kovrelna.least, [5, 5], [0, 0], allowance, out)
        self.refused(1, 0, kovrelna.least, range(257), [0] * 257, 2)
        self.assertEqual(list(kovrelna.least(range(256), [0] * 256, 2).kept), [0, 255])
        for allowance in (2.0, "2", None):
            with self.assertRaises(TypeError):
                kovrelna.least(EVEN, self.flat, allowance)

    def test_lists(self):
        for kept, position in [
            ([], 0),
            ([1, 4], 0),
            ([65535], 0),
            ([0, 0, 4], 1),
            ([0, 3, 2, 4], 2),
            ([0, 5], 1),
            ([0, 2, 65535], 2),
            ([0], 1),
            ([0, 1, 3], 3),
            ([0, 4, 4], 2),
        ]:
            for call in (*JUDGES, kovrelna.write):
                self.refused(6, position, call, EVEN, ZIGZAG, kept, 0)
            self.refused(6, position, kovrelna.write, EVEN, ZIGZAG, kept, 0, bytearray(0))
            traces = EVEN, [32767] * 5, range(1, 6), [32767] * 5
            self.not_summed(6, position, *traces, kept, [0, 4])
            self.not_summed(6, position, *traces, [0, 4], kept)
            self.not_summed(6, position, *traces, kept, [0, 1, 1])
            self.not_summed(6, 2, *traces, [0, 1, 1], kept)

    def test_sums(self):
        """Each of these faults is found before all above it."""
        names = "ticks1", "values1", "ticks2", "values2", "list1", "list2"
        given = dict(zip(names, PAIR))
        self.assertEqual(kovrelna.sum(**given), kovrelna.sum(*PAIR))
        for number, value, faults in [
            (18, 4, {"values1": [0, 0, 0, 0, 32767], "values2": [1] * 5}),
            (18, 1, {"values1": [0, -32768, 0, 0, 0], "values2": [-1] * 5}),
            (17, 4, {"ticks2": [0, 1, 2, 3, 5]}),
            (17, 3, {"ticks2": [0, 1, 2], "values2": [-1] * 3, "list2": [0, 2]}),
            (17, 0, {"ticks2": [1, 2, 3]}),
            (6, 1, {"list2": [0]}),
            (6, 1, {"list2": [0, 3]}),
            (6, 0, {"list2": []}),
            (6, 3, {"list1": [0, 1, 2]}),
            (6, 2, {"list1": [0, 4, 4]}),
            (6, 0, {"list1": [1]}),
            (3, 2, {"ticks2": [0, 1, 1048576]}),
            (2, 1, {"ticks2": [5, 5, 1048581]}),
            (1, 0, {"values2": []}),
            (3, 4, {"ticks1": [0, 1, 2, 3, 1048576]}),
            (2, 3, {"ticks1": [0, 1, 1048577, 7, 8]}),
            (1, 0, {"ticks1": range(4097)}),
        ]:
            given.update(faults)
            self.not_summed(number, value, *(given[name] for name in names))

    def test_mismatches(self):
        for n, m in itertools.permutations(range(1, 6), 2):
            traces = range(n), [32767] * n, range(m), [32767] * m
            lists = sorted({0, n - 1}), sorted({0, m - 1})
            self.not_summed(17, min(n, m), *traces, *lists)
        ticks, ends = range(10, 20), [0, 9]
        for k, by in itertools.product(range(10), (-1, 1)):
            # All ticks from sample k on, or up to it, differ.
            for low, high in [(k, 10), (0, k + 1)]:
                other = [tick + by * (low <= j < high) for j, tick in enumerate(ticks)]
                if sorted(set(other)) != other:
                    continue
                for pair in itertools.permutations([ticks, other]):
                    first, second = ([one, [32767] * 10] for one in pair)
                    self.not_summed(17, low, *first, *second, ends, ends)

    def test_samples(self):
        beyond = [5, 6, 4096, 2**16, 2**32, 2**32 + 1, 2**63, 2**64 - 1, 2**64, 2**64 + 1]
        beyond += [-1, -4, -5, 1 - 2**32, 1 - 2**64, -(2**64)]
        for i in [*EVEN, *beyond]:
            for j in [*EVEN, *beyond]:
                if i in beyond:
                    self.refused(6, 0, kovrelna.measure, EVEN, ZIGZAG, i, j)
                elif j in beyond or j <= i:
                    self.refused(6, 1, kovrelna.measure, EVEN, ZIGZAG, i, j)
                else:
                    found = kovrelna.measure(EVEN, ZIGZAG, i, j)
                    self.assertEqual(found, reference.measure(EVEN, ZIGZAG, i, j))
        # One sample has no link.
        for i, j, value in [(0, 0, 1), (0, 1, 1), (0, -1, 1), (1, 0, 0), (1, 2, 0), (-1, 0, 0)]:
            self.refused(6, value, kovrelna.measure, [7], [7], i, j)
        self.assertEqual(kovrelna.measure(EVEN, ZIGZAG, False, True), (0, 0, "on"))
        for end in (1.0, "1", None, Fraction(1), [1]):
            for ends in [(0, end), (end, 4), (9, end), (end, 9)]:
                with self.assertRaises(TypeError):
                    kovrelna.measure(EVEN, ZIGZAG, *ends)

    def test_links(self):
        self.refused(7, 0, kovrelna.write, EVEN, ZIGZAG, [0, 4], 2)
        self.refused(7, 2, kovrelna.write, EVEN, ZIGZAG, [0, 1, 2, 4], 2)
        self.refused(7, 2, kovrelna.write, EVEN, ZIGZAG, [0, 1, 2, 4], 2, bytearray(0))

    def test_records(self):
        starts = [0] * 9 + [9] * 7 + [16] * 3 + [19] * 3
        for length, byte in enumerate(starts):
            self.refused(8, byte, kovrelna.read, RECORD[:length])
            outputs = array.array("I"), array.array("h")
            self.refused(8, byte, kovrelna.read, RECORD[:length], *outputs)
            self.refused(8, byte, kovrelna.same, RECORD[:length], RECORD)
            self.refused(8, byte, kovrelna.same, RECORD[:length], b"")
            self.refused(8, byte, kovrelna.same, RECORD[:length], RECORD[:length])
            self.refused(9, byte, kovrelna.same, RECORD, RECORD[:length])
        self.refused(8, 22, kovrelna.read, RECORD + b"\x45")
        self.refused(9, 22, kovrelna.same, RECORD, RECORD + b"\x45")

    def test_records_of_parts(self):
        """Every later fault is 8 bytes further on than with one tolerance."""
        starts = [0] * 17 + [17] * 7 + [24] * 3 + [27] * 3
        self.assertEqual(len(starts), len(TWO_PARTS))
        for length, byte in enumerate(starts):
            self.refused(8, byte, kovrelna.read, TWO_PARTS[:length])
            self.refused(8, byte, kovrelna.same, TWO_PARTS[:length], RECORD)
            self.refused(9, byte, kovrelna.same, RECORD, TWO_PARTS[:length])
        self.refused(8, 30, kovrelna.read, TWO_PARTS + b"\x45")

        def parts_of(*numbers):
            p, q, below_p, below_q = numbers
            parts = p.to_bytes(5, "big") + q.to_bytes(3, "big")
            return b"\x42" + parts + below_p.to_bytes(5, "big") + below_q.to_bytes(3, "big")

        self.assertEqual(parts_of(2, 3, 1, 1) + RECORD[9:], TWO_PARTS)
        for numbers in [
            # Equal; not in lowest terms; not allowed.
            *[(2, 3, 2, 3), (0, 1, 0, 1), (1, 1, 1, 1), (4, 6, 2, 3), (2, 3, 4, 6)],
            *[(4, 6, 1, 1), (1, 1, 4, 6), (0, 2, 1, 1), (1, 1, 0, 2), (2, 2, 1, 3)],
            *[(1, 0, 1, 1), (1, 1, 1, 0), (0, 0, 1, 1), (1, 1, 0, 0), (0, 0, 0, 0)],
            *[(65536, 1, 1, 1), (1, 1, 65536, 1), (1, 1048576, 1, 1), (1, 1, 1, 1048576)],
        ]:
            record = parts_of(*numbers) + RECORD[9:]
            self.refused(8, 0, kovrelna.read, record)
            self.refused(8, 0, kovrelna.same, record, record)
            self.refused(9, 0, kovrelna.same, RECORD, record)
        # One tolerance after the other command, and the other way round.
        self.refused(8, 0, kovrelna.read, b"\x42" + RECORD[1:])
        self.refused(8, 9, kovrelna.read, b"\x54" + TWO_PARTS[1:])
        self.refused(8, 17, kovrelna.read, TWO_PARTS[:17] + TWO_PARTS)

    def test_room(self):
        for length in range(5):
            out = array.array("H", [7] * length)
            for call in REDUCTIONS + (kovrelna.least,):
                self.refused(10, 5, call, EVEN, ZIGZAG, 3, out)
            values = array.array("h", [7] * length)
            self.refused(10, 5, kovrelna.expand, bytes(5), values)
            self.refused(10, 5, kovrelna.expand_with, bytes(5), TABLE, values)
            self.assertEqual((set(out) | set(values)) - {7}, set())
        for length, place in [(21, 0), (22, 1), (22, 22), (22, 23), (22, 2**64), (0, 0), (25, 4)]:
            buffer = bytearray(b"\7" * length)
            trace = [0, 1, 3], [0, 1, 1], [0, 2], Ratio(2, 3)
            self.refused(10, 22, kovrelna.write, *trace, buffer, place)
            self.assertEqual(set(buffer) - {7}, set())
        for ticks, values in [(1, 2), (2, 1), (0, 0), (9, 0)]:
            outputs = array.array("I", [7] * ticks), array.array("h", [7] * values)
            self.refused(10, 2, kovrelna.read, RECORD, *outputs)
            self.assertEqual(set(outputs[0]) | set(outputs[1]) | {7}, {7})
        # However few samples the joined list has.
        for rooms in [(4, 5), (5, 4), (4, 4), (0, 9), (9, 0), (0, 0)]:
            outputs = outputs_of(*rooms)
            for lists in (PAIR[4:], ([0, 4], [0, 4]), (EVEN, EVEN)):
                self.refused(10, 5, kovrelna.sum, *PAIR[:4], *lists, *outputs)
            self.assertEqual(outputs, outputs_of(*rooms))

    def test_codes(self):
        self.refused(1, 0, kovrelna.expand, b"")
        self.refused(1, 0, kovrelna.expand, bytes(4097))
        self.refused(1, 0, kovrelna.expand, bytes(4097), array.array("h"))

    def test_tables(self):
        rising, low, high = range(300), -32768, 32767
        tables = [(rising[:length], 0) for length in (0, 1, 255, 257, 300)] + [
            ([7] * 255, 0),
            ([7] * 257, 0),
            (TABLE[::-1], 1),
            (table_with({0: high, 255: low}), 1),
            (table_with({255: low}), 255),
            # Two faults, also of codes that are not given.
            (table_with({9: low, 200: low}), 9),
        ]
        for code in range(1, 256):
            for value in (TABLE[code - 1], TABLE[code - 1] - 1):
                tables.append((table_with({code: value}), code))
        for table, value in tables:
            for lent in (table, array.array("h", table)):
                for out in (None, array.array("h"), array.array("h", [7] * 2)):
                    self.refused(12, value, kovrelna.expand_with, b"\0\1", lent, out)
                    self.refused(1, 0, kovrelna.expand_with, b"", lent, out)
                    self.refused(1, 0, kovrelna.expand_with, bytes(4097), lent, out)
                    self.assertEqual(set(out or [7]), {7})
        for out in (None, array.array("h")):
            self.refused(1, 0, kovrelna.expand_with, b"", TABLE, out)
            self.refused(1, 0, kovrelna.expand_with, bytes(4097), TABLE, out)

    def test_there_is_always_a_table(self):
        with self.assertRaisesRegex(TypeError, "^table must be a buffer .*: NoneType is none"):
            kovrelna.expand_with(b"\0", None)
        with self.assertRaisesRegex(TypeError, "missing 1 required .* 'table'"):
            kovrelna.expand_with(b"\0")
        with self.assertRaisesRegex(TypeError, "unexpected keyword argument 'table'"):
            kovrelna.expand(b"\0", table=TABLE)


class Words(Case):
    """What a refusal says."""

    flat = [0] * 5

    def says(self, number, words, call, *arguments, **limits):
        with self.assertRaises(Refusal) as caught:
            call(*arguments, **limits)
        refusal = caught.exception
        self.assertIsInstance(refusal, ValueError)
        for copy in (refusal, pickle.loads(pickle.dumps(refusal))):
            self.assertEqual(str(copy), f"refused as {number}: {words}")
            self.assertEqual((copy.number, copy.value), (number, refusal.value))

    def test_lengths(self):
        self.says(1, "no samples", kovrelna.walk, [], [], 1)
        words = "too many samples: at most 4,096 are allowed"
        self.says(1, words, kovrelna.walk, range(10**30), [], 1)
        words = "too many samples: at most 256 are allowed"
        self.says(1, words, kovrelna.least, range(257), [0] * 257, 2)
        words = "not as many values as ticks: 5 ticks and 4 values"
        for call in JUDGES:
            self.says(1, words, call, EVEN, [0] * 4, [0, 4], 1)
        words = "too many codes: at most 4,096 are allowed"
        for call, *table in [(kovrelna.expand,), (kovrelna.expand_with, [0] * 5000)]:
            self.says(1, "no codes", call, b"", *table)
            self.says(1, words, call, bytes(4097), *table)

    def test_ticks(self):
        words = "the tick of sample 2 is not above the one before: 4 after 5"
        self.says(2, words, kovrelna.gallop, [0, 5, 4, 6, 7], self.flat, 1)
        words = "the tick of sample 1 is not above the one before: 7 after 7"
        self.says(2, words, kovrelna.walk, memoryview((ctypes.c_uint32 * 2)(7, 7)), [0, 0], 1)
        words = "sample 4 is over 1,048,575 ticks after the first"
        self.says(3, words, kovrelna.minimum, [0, 1, 2, 3, 1048576], self.flat, 1)

    def test_tolerances(self):
        ratios = "p/q has q from 1 to 1,048,575 and p from 0 to 65,535 times q"
        tenth = "is not a multiple of 1/64; write Ratio(1, 10) or Fraction(1, 10)"
        third = "is not a multiple of 1/64; write Ratio(p, q) or Fraction(p, q)"
        for tolerance, words in [
            (-1, f"{ratios}, not -1/1"),
            (Ratio(1, 0), f"{ratios}, not 1/0"),
            (float("nan"), "counts are from 0 to 65,535, not nan"),
            (Counts(-1), "counts are from 0 to 65,535, not -1"),
            (0.1, f"0.1 {tenth}"),
            (Counts(Fraction(1, 10)), f"1/10 {tenth}"),
            (1 / 3, f"{1 / 3} {third}"),
            (Noise(1024, 2), "the noise is from 0 to 1,023, not 1024"),
            (Noise(0.1, 2), "0.1 is not a multiple of 1/64"),
            (Noise(1.5, 64), "the multiple is from 0 to 63, not 64"),
            (Noise(1.5, 2.1), "2.1 is not a multiple of 1/8"),
            (Parts(-1, 1), f"of the part above, {ratios}, not -1/1"),
            (Parts(1, Ratio(1, 0)), f"of the part below, {ratios}, not 1/0"),
            (Parts(Ratio(0, 0), Ratio(1, 0)), f"of the part above, {ratios}, not 0/0"),
            (Parts(1, 2**64), f"of the part below, {ratios}, not {2**64}/1"),
        ]:
            words = f"the tolerance is not allowed: {words}"
            self.says(4, words, kovrelna.hold, tolerance)
            for call in REDUCTIONS:
                self.says(4, words, call, EVEN, self.flat, tolerance)
            for call in (*JUDGES, kovrelna.write):
                self.says(4, words, call, EVEN, self.flat, [0, 4], tolerance)

    def test_scans(self):
        for tolerances in ([], (), iter([])):
            self.says(19, "no tolerances", kovrelna.scan, EVEN, self.flat, tolerances)
        words = "too many tolerances: at most 16 are allowed"
        for count in (17, 18, 10**6):
            self.says(19, words, kovrelna.scan, EVEN, self.flat, [1] * count)
        ratios = "p/q has q from 1 to 1,048,575 and p from 0 to 65,535 times q"
        tenth = "is not a multiple of 1/64; write Ratio(1, 10) or Fraction(1, 10)"
        for at, tolerance, words in [
            (0, Ratio(1, 0), f"{ratios}, not 1/0"),
            (2, 0.1, f"0.1 {tenth}"),
            (15, Noise(1.5, 64), "the multiple is from 0 to 63, not 64"),
            (3, Parts(1, Ratio(1, 0)), f"of the part below, {ratios}, not 1/0"),
        ]:
            tolerances = [1] * at + [tolerance, Ratio(0, 0)][: 16 - at]
            words = f"tolerances[{at}] is not allowed: {words}"
            self.says(4, words, kovrelna.scan, EVEN, self.flat, tolerances)
        words = "the gap limit must be from 1 to 1,048,575, not 0"
        self.says(15, words, kovrelna.scan, EVEN, self.flat, [1], gap=0)
        words = "too many samples: at most 4,096 are allowed"
        self.says(1, words, kovrelna.scan, range(10**30), [], [1])
        words = "the tick of sample 1 is not above the one before: 5 after 5"
        self.says(2, words, kovrelna.scan, [5, 5], [0, 0], [])

    def test_views(self):
        for k in NO_KS:
            self.says(20, f"k of a view must be from 0 to 32, not {k}", View, k)
        beyond = "no view: it has {} samples, and at most 66 are kept".format
        for view, words in [
            (view_of(33, []), "k of a view must be from 0 to 32, not 33"),
            (view_of(2**32 - 1, [0, 3]), "k of a view must be from 0 to 32, not 4294967295"),
            (view_of(32, range(66), 67), beyond(67)),
            (view_of(32, [1], 2**32 - 1), beyond(2**32 - 1)),
            (view_of(1, []), "no view: it is empty"),
            (view_of(1, [1, 3]), "no view: entry 0 is 1, and the first must be 0"),
            (view_of(1, [0, 3, 3]), "no view: entry 2 is 3, not above the entry before it, 3"),
            (view_of(2, [0, 9, 3]), "no view: entry 2 is 3, not above the entry before it, 9"),
            (view_of(0, [0, 1, 3]), "no view: at most 0 inner samples are kept, not 1"),
            (view_of(0, [0, 1, 2, 3]), "no view: at most 0 inner samples are kept, not 2"),
        ]:
            self.says(20, words, view.add, EVEN, self.flat)
        lent = "the new sample, the last that is lent, is"
        for kept, n, numbers in [
            ([0, 3], 4, "3, and {} 3, not 4"),
            ([0, 3], 6, "3, and {} 5, not 4"),
            ([0], 1, "0, and {} 0, not 1"),
            ([0, 65535], 5, "65535, and {} 4, not 65536"),
        ]:
            words = f"no view of the earlier samples: it ends with sample {numbers.format(lent)}"
            self.says(20, words, view_of(1, kept).add, range(n), [0] * n)
        words = "too many samples: at most 4,096 are allowed"
        self.says(1, words, View(1).add, range(10**30), [])
        words = "not as many values as ticks: 2 ticks and 1 values"
        self.says(1, words, view_of(33, []).add, [5, 5], [0])
        words = "the tick of sample 1 is not above the one before: 5 after 5"
        self.says(2, words, view_of(33, []).add, [5, 5], [0, 0])

    def test_crates(self):
        self.says(11, "no channels", kovrelna.report, EVEN, self.flat, [], 1)
        words = "too many channels: at most 64 are allowed"
        self.says(11, words, kovrelna.report, EVEN, self.flat, range(10**12), 1)
        words = "the lengths add up to 7, and there are 5 ticks and 5 values"
        self.says(11, words, kovrelna.report, EVEN, self.flat, [3, 4], 1)
        words = "the lengths add up to 5, and there are 5 ticks and 70000 values"
        self.says(11, words, kovrelna.report, EVEN, [0] * 70000, [5], 1)
        words = "the lengths add up to 5, and there are more ticks and 5 values"
        self.says(11, words, kovrelna.report, range(10**30), self.flat, [5], 1)

    def test_runs(self):
        call, good, one = kovrelna.pedestals, (EVEN, self.flat, [3, 2]), (EVEN, self.flat, [5])
        sums = "the lengths add up to 5, and there are"
        for run, words in [
            ((EVEN, self.flat, []), "no channels"),
            ((EVEN, self.flat, range(10**12)), "too many channels: at most 64 are allowed"),
            ((range(6), [0] * 7, [3, 2]), f"{sums} 6 ticks and 7 values"),
            ((EVEN, [0] * 2**21, [3, 2]), f"{sums} 5 ticks and more values"),
        ]:
            self.says(11, f"today's run: {words}", call, run, good, 1, 2)
            self.says(11, f"today's run: {words}", call, run, ([], [], []), 1, 2)
            self.says(11, f"the run before: {words}", call, good, run, 1, 2)
        self.says(11, "unequal channel counts: 2 today and 1 before", call, good, one, 1, 2)
        self.says(11, "unequal channel counts: 1 today and 2 before", call, one, good, 1, 2)
        good, below = ticks_run(EVEN, range(7), [0]), "is not above the one before:"
        for number, ticks, words in [
            (1, [], "no samples"),
            (1, range(4097), "too many samples: at most 4,096 are allowed"),
            (2, [0, 5, 4, 4], f"the tick of sample 2 {below} 4 after 5"),
            (2, [0, 1048576, 1048576], f"the tick of sample 2 {below} 1048576 after 1048576"),
            (3, [9, 10, 1048585, 1048586], "sample 2 is over 1,048,575 ticks after the first"),
        ]:
            run = ticks_run(EVEN, ticks, [])
            words = f"in channel 1, {words}"
            for fault in (run, run._replace(ticks=array.array("I", run.ticks))):
                self.says(number, f"today's run: {words}", call, fault, good, 1, 2)
                self.says(number, f"today's run: {words}", call, fault, run, 1, 2)
                self.says(number, f"the run before: {words}", call, good, fault, 1, 2)
        words = "the runs differ in the number of samples of channel 1: 7 today and 4096 before"
        self.says(13, words, call, ticks_run([0], range(7)), ticks_run([0], range(4096)), 1, 2)
        words = "the tolerance is not allowed: counts are from 0 to 65,535, not -0.5"
        self.says(4, words, call, TODAY, BEFORE, -0.5, 2)
        words = "the tolerance is not allowed: the parts must be equal here, not 2/3 above and 1 below"
        self.says(4, words, call, TODAY, BEFORE, Parts(Ratio(2, 3), 1), 2)
        for k in (-(2**64), -1, 0, 17, 2**64 + 2):
            words = f"the noise factor must be from 1 to 16, not {k}"
            self.says(14, words, call, TODAY, BEFORE, 1, k)

    def test_tables(self):
        length, below = "the table must have 256 values, not", "is not above the one before:"
        for table, words in [
            ([], f"{length} 0"),
            (TABLE[1:], f"{length} 255"),
            ([0] * 65535, f"{length} 65535"),
            ([0] * 70000, f"{length} 65536 or more"),
            (table_with({1: -20000}), f"the value of code 1 {below} -20000 after -20000"),
            (table_with({255: -7}), f"the value of code 255 {below} -7 after 5400"),
        ]:
            self.says(12, words, kovrelna.expand_with, b"\0", table)
            table = memoryview((ctypes.c_int16 * len(table))(*table))
            self.says(12, words, kovrelna.expand_with, b"\0", table)

    def test_allowances(self):
        words = "the allowance must be from 2 to 4,096, not 1"
        self.says(5, words, kovrelna.least, EVEN, self.flat, 1)

    def test_gaps(self):
        for gap in NO_GAPS:
            words = f"the gap limit must be from 1 to 1,048,575, not {gap}"
            for call in REDUCTIONS + (kovrelna.least,):
                self.says(15, words, call, EVEN, self.flat, 2, gap=gap)
            for call in (*JUDGES, kovrelna.write):
                self.says(15, words, call, EVEN, self.flat, [0, 4], 1, gap=gap)
            self.says(15, words, kovrelna.report, EVEN, self.flat, [5], 1, gap=gap)
            self.says(15, words, kovrelna.check, RECORD, [0, 1, 3], [0, 1, 1], gap=gap)

    def test_holes(self):
        parts = [0, 9, 18, 19, 20, 30, 31]
        for ticks, allowance, gap, fewest in [
            (HOLED, 3, 7, 4),
            (memoryview(array.array("I", parts)), 2, 8, 6),
            (parts, 5, 8, 6),
            (parts, 2, 9, 4),
        ]:
            more = f"has more samples than the allowance, {allowance}: the shortest has {fewest}"
            words = f"every list that obeys the gap limit, {gap}, {more}"
            self.says(16, words, kovrelna.least, ticks, [0] * len(ticks), allowance, gap=gap)
        for kept, link, hole in [
            ([0, 6], "link 0, from sample 0 to sample 6", "from tick 0 to tick 9"),
            ([0, 1, 3, 6], "link 1, from sample 1 to sample 3", "from tick 9 to tick 18"),
            ([0, 1, 2, 6], "link 2, from sample 2 to sample 6", "from tick 20 to tick 30"),
        ]:
            words = f"{link}, crosses the hole {hole}, and its error is 0"
            self.says(7, words, kovrelna.write, parts, [0] * 7, kept, 0, gap=8)
        # The tolerance alone, and both.
        link, place = "link 0, from sample 0 to sample 2", "sample 1 at tick 9"
        words = f"{link}, is not within this tolerance: {place} lies 9 above the line"
        for gap in (9, 8):
            given = parts, [0, 9, 0, 0, 0, 0, 0], [0, 2, 6], Ratio(17, 2)
            self.says(7, words, kovrelna.write, *given, gap=gap)
        words = f"{link}, crosses the hole from tick 0 to tick 9, and its error is 9"
        self.says(7, words, kovrelna.write, parts, [0, 9, 0, 0, 0, 0, 0], [0, 2, 6], 9, gap=8)

    def test_long_numbers(self):
        for words, call, arguments in [
            ("the tolerance is not allowed", kovrelna.hold, (10**5000,)),
            ("the tolerance is not allowed", kovrelna.hold, (Counts(10**5000),)),
            ("of the part below", kovrelna.hold, (Parts(1, 10**5000),)),
            ("the allowance must be from 2", kovrelna.least, (EVEN, self.flat, 10**5000)),
            ("the noise factor must be", kovrelna.pedestals, (TODAY, BEFORE, 1, 10**5000)),
            ("i must be a sample of", kovrelna.measure, (EVEN, self.flat, -(10**5000), 1)),
            ("j must be a sample of", kovrelna.measure, (EVEN, self.flat, 0, 10**5000)),
            ("k of a view must be from", View, (-(10**5000),)),
        ]:
            with self.assertRaisesRegex(Refusal, words):
                call(*arguments)
        with self.assertRaisesRegex(Refusal, "the gap limit must be from 1"):
            kovrelna.walk(EVEN, self.flat, 1, gap=10**5000)

    def test_lists(self):
        for kept, words in [
            ([], "it is empty"),
            ([1, 4], "entry 0 is 1, and the first must be 0"),
            ([65535], "entry 0 is 65535, and the first must be 0"),
            ([0, 3, 2, 4], "entry 2 is 2, not above the entry before it, 3"),
            ([0, 0], "entry 1 is 0, not above the entry before it, 0"),
            ([0, 4, 4], "entry 2 is 4, not above the entry before it, 4"),
            ([0, 2, 5], "entry 2 is 5, beyond the last sample, 4"),
            ([0, 2, 3], "it ends with 3, not with the last sample, 4"),
        ]:
            for call in (*JUDGES, kovrelna.write):
                self.says(6, f"no kept list: {words}", call, EVEN, self.flat, kept, 1)
        link, place = "link 2, from sample 2 to sample 4", "sample 3 at tick 3"
        words = f"{link}, is not within this tolerance: {place} lies 3 above the line"
        self.says(7, words, kovrelna.write, EVEN, ZIGZAG, [0, 1, 2, 4], 2)
        link, place = "link 0, from sample 0 to sample 3", "sample 2 at tick 2"
        words = f"{link}, is not within this tolerance: {place} lies 8/3 below the line"
        self.says(7, words, kovrelna.write, range(4), [2, 2, -2, 0], [0, 3], 2)
        self.says(7, words, kovrelna.write, range(4), [2, 2, -2, 0], [0, 3], Parts(9, 2))
        # The sample named is within its own part.
        for values, parts, words in [
            ([1, 0, 1, -1], Parts(5, 0), ("above", "0 below")),
            ([-1, 0, -1, 1], Parts(Ratio(1, 4), 2), ("below", "1/4 above")),
        ]:
            lies = "{} lies 4/3 {} the line, and another sample more than {} it".format(place, *words)
            words = f"{link}, is not within this tolerance: {lies}"
            self.says(7, words, kovrelna.write, range(4), values, [0, 3], parts)

    def test_sums(self):
        good, ends, call = (EVEN, self.flat), [0, 4], kovrelna.sum
        for number, ticks, values, words in [
            (1, [], [], "no samples"),
            (1, range(10**30), [], "too many samples: at most 4,096 are allowed"),
            (1, [], [0] * 5000, "too many samples: at most 4,096 are allowed"),
            (1, EVEN, [0] * 4, "not as many values as ticks: 5 ticks and 4 values"),
            (2, [0, 5, 4], [0] * 3, "the tick of sample 2 is not above the one before: 4 after 5"),
            (3, [9, 10, 1048585], [0] * 3, "sample 2 is over 1,048,575 ticks after the first"),
        ]:
            for lists in ([ends, ends], [[], []]):
                self.says(number, f"trace 1: {words}", call, ticks, values, *good, *lists)
                self.says(number, f"trace 1: {words}", call, ticks, values, [7, 7], [], *lists)
                self.says(number, f"trace 2: {words}", call, *good, ticks, values, *lists)
        for kept, words in [
            ([], "it is empty"),
            ([1, 4], "entry 0 is 1, and the first must be 0"),
            ([0, 3, 2, 4], "entry 2 is 2, not above the entry before it, 3"),
            ([0, 4, 4], "entry 2 is 4, not above the entry before it, 4"),
            ([0, 2, 5], "entry 2 is 5, beyond the last sample, 4"),
            ([0, 2, 3], "it ends with 3, not with the last sample, 4"),
        ]:
            for lent in (kept, memoryview((ctypes.c_uint16 * len(kept))(*kept))):
                words1, words2 = (f"list {n} is no kept list: {words}" for n in (1, 2))
                self.says(6, words1, call, *good, *good, lent, ends)
                self.says(6, words1, call, *good, *good, lent, [1])
                self.says(6, words2, call, *good, *good, ends, lent)
        # Each list is one of its own trace.
        longer = range(6), [0] * 6
        words = "list 2 is no kept list: it ends with 4, not with the last sample, 5"
        self.says(6, words, call, *good, *longer, ends, ends)
        words = "list 1 is no kept list: it ends with 4, not with the last sample, 5"
        self.says(6, words, call, *longer, *good, ends, ends)
        words = "trace 1 has no sample 5: the traces have 5 and 6 samples"
        self.says(17, words, call, *good, *longer, ends, [0, 5])
        words = "trace 2 has no sample 5: the traces have 6 and 5 samples"
        self.says(17, words, call, *longer, *good, [0, 5], ends)
        late = array.array("I", [0, 1, 2, 1048574, 1048575]), self.flat
        words = "the ticks of sample 3 differ: 3 in trace 1 and 1048574 in trace 2"
        self.says(17, words, call, *good, *late, ends, ends)
        words = "the ticks of sample 3 differ: 1048574 in trace 1 and 3 in trace 2"
        self.says(17, words, call, *late, *good, ends, ends)
        must = "the sum of sample 2 must be from -32,768 to 32,767, not"
        for one, other in [(32767, 1), (1, 32767), (-32768, -1), (-32768, -32768)]:
            words = f"{must} {one + other}: {one} in trace 1 and {other} in trace 2"
            values1, values2 = ([0, 0, value, value, 0] for value in (one, other))
            self.says(18, words, call, EVEN, values1, EVEN, values2, ends, ends)

    def test_samples(self):
        must = "must be a sample of the trace, from 0 to 4, not"
        for i, j, words in [
            (5, 9, f"i {must} 5"),
            (-1, 4, f"i {must} -1"),
            (2**64, 4, f"i {must} {2**64}"),
            (0, 5, f"j {must} 5"),
            (4, 2**64 + 1, f"j {must} {2**64 + 1}"),
            (3, -1, f"j {must} -1"),
            (3, 2, "j must be above i, and 2 is not above 3"),
            (4, 4, "j must be above i, and 4 is not above 4"),
        ]:
            self.says(6, f"no link: {words}", kovrelna.measure, EVEN, self.flat, i, j)
        words = "no link: j must be a sample of the trace, from 0 to 0, not 1"
        self.says(6, words, kovrelna.measure, [7], [7], 0, 1)
        self.says(1, "no samples", kovrelna.measure, [], [], 0, 1)
        words = "not as many values as ticks: 5 ticks and 4 values"
        self.says(1, words, kovrelna.measure, EVEN, [0] * 4, 0, 4)
        words = "too many samples: at most 4,096 are allowed"
        self.says(1, words, kovrelna.measure, range(10**30), [], 0, 4)

    def test_records(self):
        self.says(8, "the record is faulty at byte 16", kovrelna.read, RECORD[:18])
        self.says(8, "the record is faulty at byte 0", kovrelna.same, b"", RECORD)
        words = "the second record is faulty at byte 22"
        self.says(9, words, kovrelna.same, RECORD, RECORD + b"\x45")

    def test_room(self):
        ticks, values, out = array.array("I", [9] * 2), array.array("h", [9] * 2), array.array("H")
        trace = [0, 1, 3], [0, 1, 1], [0, 2], 1
        for words, call, arguments in [
            ("5 entries are needed, and out has 0", kovrelna.least, (EVEN, self.flat, 2, out)),
            ("5 entries are needed, and out has 2", kovrelna.expand, (bytes(5), values)),
            ("3 entries are needed, and out has 2", kovrelna.expand_with, (b"abc", TABLE, values)),
            ("2 entries are needed, and ticks has 1", kovrelna.read, (RECORD, ticks[1:])),
            ("2 entries are needed, and values has 1", kovrelna.read, (RECORD, ticks, values[1:])),
            ("15 entries are needed, and out has 0", kovrelna.scan, (EVEN, self.flat, [1] * 3, out)),
            ("5 entries are needed, and sums has 2", kovrelna.sum, (*PAIR, values)),
            ("5 entries are needed, and joined has 0", kovrelna.sum, (*PAIR, None, out)),
            ("22 bytes are needed, and buffer has 21", kovrelna.write, (*trace, bytearray(21))),
        ]:
            self.says(10, f"the output is too short: {words}", call, *arguments)
        for size, place, room in [(25, 7, 18), (8, 9, 0)]:
            words = f"22 bytes are needed, and buffer has {room} from place {place} on"
            words = f"the output is too short: {words}"
            self.says(10, words, kovrelna.write, *trace, bytearray(size), place)


class Longest(Case):
    def test_all_kept(self):
        ticks = array.array("I", range(0, 4096 * 256, 256))
        values = array.array("h", [10000 * (k % 2) for k in range(4096)])
        for call in REDUCTIONS:
            self.assertEqual(kept_by(call, ticks, values, 0), list(range(4096)))
        record = kovrelna.write(ticks, values, range(4096), 0)
        self.assertEqual(len(record), 24589)
        self.assertEqual(kovrelna.read(record), (ticks, values, Parts(0, 0)))
        self.assertTrue(kovrelna.same(record, record))
        longer = kovrelna.write(ticks, values, range(4096), Parts(0, 1))
        self.assertEqual((len(longer), longer[17:]), (24597, record[9:]))
        self.assertEqual(kovrelna.read(longer), (ticks, values, Parts(0, 1)))
        self.assertFalse(kovrelna.same(record, longer))
        self.assertEqual(len(kovrelna.expand(bytes(4096))), 4096)
        self.assertEqual(list(kovrelna.expand_with(bytes(4096), TABLE)), TABLE[:1] * 4096)
        crate = kovrelna.report(64 * ticks, 64 * values, [4096] * 64, 0)
        self.assertEqual(crate, ([(4096, 4096, 0, 0, 0)] * 64, 64 * 4096, 64 * 4096, 0))
        # As far above the line at the second sample as below it at the last but one.
        error = Fraction(10000 * 4094, 4095)
        self.assertEqual(kovrelna.measure(ticks, values, 0, 4095), (error, 1, "above"))
        strays = kovrelna.judge(ticks, values, [0, 4095], 9997).measure
        self.assertEqual(strays, (error, 1, "above"))
        for kept, tolerance, link, fault in [
            (range(4096), 0, None, None),
            (range(4096), 10000, 0, "stop"),
            ([*range(4094), 4095], 0, 4093, "link"),
            ([0, 4095], 9997, 0, "link"),
            ([0, 4095], 10000, None, None),
        ]:
            found = kovrelna.judge_greedy(ticks, values, kept, tolerance)
            self.assertEqual((found.link, found.fault), (link, fault))
        flat, every = array.array("h", [0] * 4096), list(range(64))
        runs = [(64 * ticks, 64 * part, [4096] * 64) for part in (values, flat)]
        self.assertEqual(kovrelna.pedestals(*runs, 4999, 16), (every, every))
        self.assertEqual(kovrelna.pedestals(*runs, 5000, 16), ([], every))
        for call in REDUCTIONS:
            self.assertEqual(kept_by(call, ticks, flat, 0, gap=255), list(range(4096)))
            self.assertEqual(kept_by(call, ticks, flat, 0, gap=256), [0, 4095])
        lists = [range(4096)] * 15 + [[0, 4095]]
        self.assertEqual(scan_of(ticks, values, [*range(15), 10000]), list(map(list, lists)))
        for k in (0, 8, 32):
            view = grown(View(k), memoryview(ticks), memoryview(flat))
            self.assertEqual(view.samples, [0, *range(4095 - 2 * k, 4096)])
            self.refused(20, 0, view.add, ticks, flat)
            self.refused(1, 0, view.add, range(4097), [0] * 4097)
        ends, every = array.array("H", [0, 4095]), array.array("H", range(4096))
        for list1, list2 in itertools.product((ends, every), repeat=2):
            found = kovrelna.sum(ticks, values, ticks, values, list1, list2)
            joined = ends if list1 is list2 is ends else every
            self.assertEqual(found, (array.array("h", [20000 * (k % 2) for k in every]), joined))
        longer, more = array.array("I", range(4097)), array.array("h", [0] * 4097)
        self.refused(1, 0, kovrelna.sum, longer, more, ticks, values, every, every)
        self.refused(1, 0, kovrelna.sum, ticks, values, longer, more, every, every)
        short = ticks[:4095], values[:4095], ticks, values, every[:4095], every
        self.refused(17, 4095, kovrelna.sum, *short)
        # Plain lists: a channel may be longer than a trace.
        crate = kovrelna.report(range(10**5), [0] * 10**5, [10**5 - 4096, 4096], 0)
        self.assertEqual(crate, ([(0, 0, 0, 0, 1), (4096, 2, 0, 0, 0)], 4096, 2, 0))


class Buffers(Case):
    ticks = array.array("I", [0, 1, 3])
    values = array.array("h", [0, 1, 1])
    kept = array.array("H", [0, 2])

    def lent(self, name, call, *arguments):
        """The addresses and lengths that the library's call is given."""
        real = getattr(kovrelna._library, name)
        given = []

        def recorded(*arguments):
            given.extend(arguments)
            return real(*arguments)

        with mock.patch.object(kovrelna._library, name, recorded):
            call(*arguments)
        pointers = [k for k, kind in enumerate(real.argtypes) if kind is ctypes.c_void_p]
        return [(given[k], given[k + 1]) for k in pointers]

    def test_nothing_is_copied(self):
        out, buffer = array.array("H", [9] * 4), array.array("B", [9] * 30)
        ticks, values = array.array("I", [9] * 3), array.array("h", [9] * 3)
        codes, decoded = array.array("B", [31, 32]), array.array("h", [9] * 3)
        table, mapped = array.array("h", TABLE), array.array("h", [9] * 3)
        record = array.array("B", RECORD)
        pair = [array.array(code, numbers) for code, numbers in zip("IhIhHH", PAIR)]
        sums, joined = outputs_of(7, 6)
        trace = [self.ticks, self.values]
        calls = [(call.__name__, call, trace + [1], [out]) for call in REDUCTIONS] + [
            ("least", kovrelna.least, trace + [2], [out]),
            ("sum", kovrelna.sum, pair, [sums, joined]),
            ("measure", kovrelna.measure, trace + [0, 2], []),
            *((call.__name__, call, trace + [self.kept, 1], []) for call in JUDGES),
            ("write", kovrelna.write, trace + [self.kept, 1], [buffer]),
            ("read", kovrelna.read, [record], [ticks, values]),
            ("same", kovrelna.same, [record, record], []),
            ("expand", kovrelna.expand, [codes], [decoded]),
            ("expand_with", kovrelna.expand_with, [codes, table], [mapped]),
        ]
        for name, call, inputs, outputs in calls:
            lists = [one for one in inputs + outputs if isinstance(one, array.array)]
            expected = [one.buffer_info() for one in lists]
            self.assertEqual(self.lent(name, call, *inputs, *outputs), expected, name)
        self.assertEqual(out.tolist(), [0, 2, 9, 9])
        self.assertEqual((ticks.tolist(), values.tolist()), ([0, 3, 9], [0, 1, 9]))
        self.assertEqual(sums.tolist(), SUMS + [999] * 2)
        self.assertEqual(joined.tolist(), JOINED + [999] * 2)
        self.assertEqual([part.tolist() for part in pair], [list(numbers) for numbers in PAIR])
        self.assertEqual(decoded.tolist(), [31, 32, 9])
        self.assertEqual(mapped.tolist(), [-16900, -16800, 9])
        self.assertEqual((codes.tolist(), table.tolist()), ([31, 32], TABLE))
        self.assertEqual(bytes(buffer), kovrelna.write(*trace, self.kept, 1) + b"\t" * 8)

    def test_the_lent_output_is_returned(self):
        out = array.array("H", [9] * 4)
        for call in REDUCTIONS:
            answer = call(self.ticks, self.values, 1, out)
            view = answer.kept if call is kovrelna.gallop else answer
            self.assertEqual(view.tolist(), [0, 2])
            out[1] = 77
            self.assertEqual(view.tolist(), [0, 77])
        # Either output of a sum, or both.
        for lent in [(True, False), (False, True), (True, True)]:
            outputs = [out if is_lent else None for out, is_lent in zip(outputs_of(7, 6), lent)]
            found = kovrelna.sum(*PAIR, *outputs)
            self.assertEqual([part.tolist() for part in found], [SUMS, JOINED])
            for part, out in zip(found, outputs):
                self.assertEqual(isinstance(part, memoryview), out is not None)
                if out is not None:
                    out[1] = 77
                    self.assertEqual((part[1], out[-1]), (77, 999))

    def test_the_record_is_at_its_place(self):
        for place in range(9):
            event = bytearray(b"\xa5" * 30)
            view = kovrelna.write([0, 1, 3], [0, 1, 1], [0, 2], Ratio(2, 3), event, place)
            self.assertEqual(event, b"\xa5" * place + RECORD + b"\xa5" * (8 - place))
            self.assertEqual(view, RECORD)
            event[place] = 0
            self.assertEqual(view[0], 0)

    def test_crates(self):
        ticks, values = array.array("I", [0, 1, 3, 5]), array.array("h", [0, 1, 1, 9])
        expected = [(3, 2, Fraction(2, 3), 1, 0), (1, 1, 0, 0, 0)]
        lengths = [array.array(code, [3, 1]) for code in "bBhHiIlLqQ"]
        lengths += [[3, 1], (3, 1), range(3, 0, -2), b"\3\1", iter([3, 1]), memoryview(lengths[3])]
        for given in lengths:
            self.assertEqual(kovrelna.report(ticks, values, given, 1).rows, expected)
        lent = self.lent("report", kovrelna.report, ticks, values, [3, 1], 1)
        self.assertEqual(lent[:2], [ticks.buffer_info(), values.buffer_info()])
        self.assertEqual([length for _, length in lent[2:]], [2, 2])
        for given, kind, words in [
            ([3, -1], OverflowError, r"^lengths\[1\] must be from 0 to \d+, not -1$"),
            ([2**64], OverflowError, r"^lengths\[0\] must be from 0 to"),
            ([3, 1.0], TypeError, r"^lengths\[1\] must be a whole number, not 1.0$"),
            ("31", TypeError, r"^lengths\[0\] must be a whole number, not '3'$"),
            (4, TypeError, "^lengths must be whole numbers, such as a list of them, not 4$"),
            (None, TypeError, "^lengths must be whole numbers, .*, not None$"),
        ]:
            with self.assertRaisesRegex(kind, words):
                kovrelna.report(ticks, values, given, 1)
        ticks.append(6)

    def test_runs(self):
        today, before = (
            Run(array.array("I", ticks), array.array("h", values), array.array("Q", lengths))
            for ticks, values, lengths in (TODAY, BEFORE)
        )
        lent = self.lent("pedestals", kovrelna.pedestals, today, before, 0.5, 2)
        inputs = [part.buffer_info() for part in today[:2] + before[:2]]
        self.assertEqual(lent[:2] + lent[3:5], inputs)
        self.assertEqual([length for _, length in lent], [12, 12, 3, 12, 12, 3, 3, 3])
        for lengths in ([4, 4, 4], (4, 4, 4), b"\4\4\4", array.array("b", [4, 4, 4])):
            first, second = today._replace(lengths=lengths), (*before[:2], iter(lengths))
            self.assertEqual(kovrelna.pedestals(first, second, 0.5, 2), ([0], [1]))
        # A run may be lent twice.
        self.assertEqual(kovrelna.pedestals(today, today, 0, 1), ([], []))
        self.refused(14, 0, kovrelna.pedestals, today, before, 1, 0)
        self.refused(13, 0, kovrelna.pedestals, today, (*before[:2], [3, 5, 4]), 1, 1)
        for run, given in [(today, TODAY), (before, BEFORE)]:
            self.assertEqual(tuple(map(list, run)), given)
            for part in run:
                part.append(7)

    def test_scans(self):
        ticks, values = array.array("I", EVEN), array.array("h", WAVE)
        out = array.array("H", [9] * 10)
        lent = self.lent("scan", kovrelna.scan, ticks, values, [2, 3], out)
        # Between the trace and the output are the tolerances and the gap limit.
        self.assertEqual(lent[:2], [ticks.buffer_info(), values.buffer_info()])
        self.assertEqual(lent[-1], out.buffer_info())
        lent = self.lent("scan", kovrelna.scan, ticks, values, [2, 3])
        self.assertEqual(lent[-1][1], 10)
        found = kovrelna.scan(ticks, values, [2, 3])
        for part in (ticks, values, out, *found):
            part.append(7)
        self.assertEqual([kept.tolist() for kept in found], [[0, 2, 4, 7], [0, 4, 7]])
        for tolerances, words in [
            (2, "^tolerances must be a list of tolerances, not 2$"),
            (None, "^tolerances must be a list of tolerances, not None$"),
            (Ratio(1, 2), "^tolerances must be a list of tolerances, not Ratio"),
            ([1, "2"], r"^tolerances\[1\]: tolerance must be Ratio, .*, not str$"),
            ("12", r"^tolerances\[0\]: tolerance must be Ratio, .*, not str$"),
            ([1, 2, Counts("2")], r"^tolerances\[2\]: a tolerance must be of real numbers"),
        ]:
            with self.assertRaisesRegex(TypeError, words):
                kovrelna.scan(EVEN, WAVE, tolerances)

    def test_views(self):
        view = view_of(0, [0, 1])
        lent = self.lent("view_add", view.add, self.ticks, self.values)
        self.assertEqual(lent, [self.ticks.buffer_info(), self.values.buffer_info()])
        self.assertEqual(view.samples, [0, 2])
        words = (ctypes.c_uint32 * 3)(0, 1, 3)
        for ticks in (memoryview(self.ticks), memoryview(self.ticks).toreadonly(), words, [0, 1, 3]):
            view = view_of(0, [0, 1])
            view.add(ticks, (0, True, 1))
            self.assertEqual(view.samples, [0, 2])
        ticks, values, before = self.ticks[:], self.values[:], view.__getstate__()
        for given, error in [
            ((ticks, values), Refusal),
            ((array.array("i", ticks), values), TypeError),
            ((ticks, array.array("H", values)), TypeError),
            ((ticks, None), TypeError),
            ((ticks, [0, 1, 32768]), OverflowError),
            ((ticks,), TypeError),
        ]:
            with self.assertRaises(error):
                view.add(*given)
            self.assertEqual(view.__getstate__(), before)
        for part in (ticks, values):
            part.append(7)
        view.add(ticks, values)
        self.assertEqual(view.samples, [0, 3])

    def test_views_on_threads(self):
        """Several threads add the same samples to one view: each sample is added, and the others are
        refused or come to the same."""
        ticks = array.array("I", range(400))
        values = array.array("h", [k * k % 777 for k in range(400)])
        expected = grown(View(8), ticks, values)
        view = View(8)

        def work():
            while view.samples[-1] < 399:
                n = view.samples[-1] + 2
                answer(view.add, ticks[:n], values[:n])

        threads = [threading.Thread(target=work) for _ in range(4)]
        for thread in threads:
            thread.start()
        for thread in threads:
            thread.join()
        self.assertEqual(view, expected)

    def test_pairs(self):
        codes = "IhIhHH"
        given = [array.array(code, numbers) for code, numbers in zip(codes, PAIR)]
        lent = self.lent("sum", kovrelna.sum, *given)
        self.assertEqual(lent[:6], [part.buffer_info() for part in given])
        self.assertEqual([length for _, length in lent[6:]], [5, 5])
        self.assertEqual(sum_of(*map(tuple, PAIR)), (SUMS, JOINED))
        self.assertEqual(sum_of(*map(memoryview, given)), (SUMS, JOINED))
        # A trace may be lent twice.
        ticks, values, _, _, kept, _ = given
        twice = [2 * value for value in values]
        found = kovrelna.sum(ticks, values, ticks, values, kept, kept)
        self.assertEqual(found, (array.array("h", twice), kept))
        self.refused(17, 4, kovrelna.sum, *given[:2], ticks[:4], values[:4], kept, [0, 3])
        self.refused(18, 1, kovrelna.sum, *given[:3], [9, -32768, 0, 0, 0], *given[4:])
        self.assertEqual([part.tolist() for part in given], [list(numbers) for numbers in PAIR])
        for part in (*given, *found):
            part.append(7)
        names = list(inspect.signature(kovrelna.sum).parameters)
        inputs, outputs = names[:6], names[6:]
        self.assertEqual(inputs, ["ticks1", "values1", "ticks2", "values2", "list1", "list2"])
        self.assertEqual(outputs, ["sums", "joined"])
        for position, name in enumerate(inputs):
            for wrong, kind, words in [
                (None, TypeError, " must be a buffer of .*: NoneType is none"),
                (array.array("d", [0, 1]), TypeError, r" must be .*; write array.array\("),
                ([0.5], TypeError, r"\[0\] must be a whole number, not 0.5"),
                ([2**40], OverflowError, r"\[0\] must be from"),
            ]:
                with self.assertRaisesRegex(kind, f"^{name}{words}"):
                    kovrelna.sum(*PAIR[:position], wrong, *PAIR[position + 1 :])

    def test_wrong_runs(self):
        message = "must be a Run, or another tuple of ticks, values and lengths, not"
        for run, kind, words in [
            (None, TypeError, f" {message} NoneType"),
            (list(TODAY), TypeError, f" {message} list"),
            (TODAY[:2], TypeError, f" {message} a tuple of 2"),
            ((*TODAY, 4), TypeError, f" {message} a tuple of 4"),
            (TODAY._replace(ticks=None), TypeError, r"\.ticks must be a buffer of unsigned 32-bit"),
            (TODAY._replace(values=[0.5]), TypeError, r"\.values\[0\] must be a whole number, not"),
            (TODAY._replace(values=[2**15]), OverflowError, r"\.values\[0\] must be from -32768"),
            (TODAY._replace(lengths=12), TypeError, r"\.lengths must be whole numbers, .* not 12"),
            (TODAY._replace(lengths=[-1]), OverflowError, r"\.lengths\[0\] must be from 0 to"),
            (
                TODAY._replace(ticks=array.array("q", TODAY.ticks)),
                TypeError,
                r"\.ticks must be .*; write array.array\('I', \w+\.ticks\)",
            ),
        ]:
            with self.assertRaisesRegex(kind, f"^today{words}"):
                kovrelna.pedestals(run, BEFORE, 1, 2)
            with self.assertRaisesRegex(kind, f"^before{words}"):
                kovrelna.pedestals(TODAY, run, 1, 2)

    def test_kinds_of_buffers(self):
        words = (ctypes.c_uint32 * 3)(0, 1, 3)
        shared = mmap.mmap(-1, 30)
        for ticks in (self.ticks, memoryview(self.ticks), memoryview(self.ticks).toreadonly(),
        words):
            out = (ctypes.c_uint16 * 3)(9, 9, 9)
            kept = kovrelna.walk(ticks, memoryview(self.values), 1, out)
            self.assertEqual((kept.tolist(), list(out)), ([0, 2], [0, 2, 9]))
        for record in (RECORD, bytearray(RECORD), memoryview(RECORD), memoryview(RECORD).cast("c")):
            self.assertTrue(kovrelna.same(record, list(RECORD)))
        self.assertEqual(kovrelna.write(self.ticks, self.values, self.kept, 1, shared, 8)[0], 0x54)
        self.assertEqual(shared[7:9], b"\x00\x54")
        half = memoryview(array.array("H", range(20)))[5:10]
        self.assertEqual(kovrelna.walk(EVEN, WAVE, 2, half).tolist(), [0, 2, 4])
        self.assertEqual(half.obj[4:9].tolist(), [4, 0, 2, 4, 8])

    def test_buffers_are_released(self):
        ticks, values, out = self.ticks[:], self.values[:], array.array("H", [9] * 3)
        kovrelna.walk(ticks, values, 1, out)
        with self.assertRaises(Refusal):
            kovrelna.walk(ticks, values, Ratio(0, 0), out)
        with self.assertRaises(Refusal):
            kovrelna.measure(ticks, values, 2, 1)
        with self.assertRaises(Refusal):
            kovrelna.write(ticks, values, self.kept, 0)
        with self.assertRaises(Refusal):
            kovrelna.sum(ticks, values, ticks, values, self.kept, out)
        with self.assertRaises(TypeError):
            kovrelna.walk(ticks, values, 1, out.tobytes())
        for lent in (ticks, values, out):
            lent.append(1)

    def test_plain_lists(self):
        for ticks in ([0, 1, 3], (0, 1, 3)):
            self.assertEqual(list(kovrelna.walk(ticks, (0, True, 1), 1)), [0, 2])
        for call in (kovrelna.walk, kovrelna.minimum, kovrelna.gallop):
            for ticks, values, words in [
                ([0, -1], [0, 0], r"ticks\[1\] must be from 0 to 4294967295, not -1"),
                ([0, 2**32], [0, 0], r"ticks\[1\] must be from 0 to 4294967295"),
                ([0, 1], [0, 32768], r"values\[1\] must be from -32768 to 32767, not 32768"),
                ([0, 1], [-32769, 0], r"values\[0\] must be from -32768"),
            ]:
                with self.assertRaisesRegex(OverflowError, words):
                    call(ticks, values, 1)
            for number in (1.0, "1", None, Fraction(1)):
                with self.assertRaisesRegex(TypeError, r"values\[1\] must be a whole number, not"):
                    call([0, 1], [0, number], 1)
        with self.assertRaisesRegex(OverflowError, r"proposed\[1\] must be from 0 to 65535"):
            kovrelna.judge([0, 1], [0, 0], [0, 65536], 1)
        with self.assertRaisesRegex(OverflowError, r"proposed\[1\] must be from 0 to 65535"):
            kovrelna.judge_greedy([0, 1], [0, 0], [0, 65536], 1)
        with self.assertRaisesRegex(OverflowError, r"codes\[0\] must be from 0 to 255, not 256"):
            kovrelna.expand([256])
        with self.assertRaisesRegex(OverflowError, r"table\[255\] must be from -32768 to 32767"):
            kovrelna.expand_with([0], table_with({255: 32768}))

    def test_long_lists(self):
        endless = range(10**12)
        for call in REDUCTIONS + (kovrelna.least,):
            self.refused(1, 0, call, endless, [0], 2)
        self.refused(1, 0, kovrelna.expand, [0] * 65537)
        self.refused(1, 0, kovrelna.expand_with, [0] * 65537, TABLE)
        self.refused(12, 0, kovrelna.expand_with, [0], [0] * 65537)
        for kept, position in [(endless, 5), ([0] * 65537, 1), (tuple(range(5)) * 20000, 5)]:
            for call in (*JUDGES, kovrelna.write):
                self.refused(6, position, call, EVEN, WAVE, kept, 1)
            self.refused(6, position, kovrelna.sum, EVEN, WAVE, EVEN, WAVE, kept, [0, 4])
            self.refused(6, position, kovrelna.sum, EVEN, WAVE, EVEN, WAVE, [0, 4], kept)
        self.refused(1, 0, kovrelna.sum, endless, [0], EVEN, WAVE, [0, 4], [0, 4])
        self.refused(1, 0, kovrelna.sum, EVEN, WAVE, endless, [0], [0, 4], [0, 4])
        long = list(RECORD) + [0] * 65536
        self.refused(8, len(RECORD), kovrelna.read, long)
        self.refused(9, len(RECORD), kovrelna.same, RECORD, long)

    def test_masks(self):
        class Masked(array.array):
            mask = False

        trace = array.array("I", [0, 1]), array.array("h", [0, 0])
        for ticks, values, out in [
            (Masked("I", [0, 1]), trace[1], None),
            (trace[0], Masked("h", [0, 0]), None),
            (*trace, Masked("H", [9, 9])),
        ]:
            with self.assertRaisesRegex(TypeError, "it has a mask, which would be lost$"):
                kovrelna.walk(ticks, values, 1, out)
        with self.assertRaisesRegex(TypeError, "^lengths must be .* which would be lost$"):
            kovrelna.report(*trace, Masked("H", [2]), 1)

    def test_wrong_buffers(self):
        wrong = [
            (array.array("d", [0, 1]), "format 'd' with 8 bytes"),
            (array.array("f", [0, 1]), "format 'f' with 4 bytes"),
            (array.array("i", [0, 1]), "format 'i'"),
            (array.array("H", [0, 1]), "format 'H' with 2 bytes"),
            (array.array("Q", [0, 1]), "format 'Q' with 8 bytes"),
            (b"\0\0\0\0\1\0\0\0", "format 'B'"),
            ((ctypes.c_uint32.__ctype_be__ * 2)(0, 1), "format '>I'"),
            (memoryview(array.array("I", [0, 9, 1, 9]))[::2], "not contiguous"),
            (memoryview(array.array("I", [1, 0]))[::-1], "not contiguous"),
            (memoryview(bytes(8)).cast("I", (2, 1)), "2 dimensions"),
            ("01", "str is none"),
            ({0, 1}, "set is none"),
            (iter([0, 1]), "list_iterator is none"),
            (None, "NoneType is none"),
            (7, "int is none"),
        ]
        for ticks, words in wrong:
            for call in REDUCTIONS:
                with self.assertRaisesRegex(TypeError, words) as caught:
                    call(ticks, [0, 0], 1)
                self.assertIn("unsigned 32-bit integers", str(caught.exception))
        for values in (array.array("H", [0, 0]), array.array("i", [0, 0])):
            with self.assertRaisesRegex(TypeError, "values must be a buffer of signed 16-bit"):
                kovrelna.walk([0, 1], values, 1)
        for record in (array.array("b", RECORD[:0]), array.array("H", RECORD), "54"):
            with self.assertRaisesRegex(TypeError, "must be a buffer of unsigned 8-bit"):
                kovrelna.read(record)

    def test_what_to_write_instead(self):
        ticks = array.array("q", [0, 1, 3])
        with self.assertRaisesRegex(TypeError, r"; write array.array\('I', ticks\)$"):
            kovrelna.walk(ticks, [0, 1, 1], 1)
        self.assertEqual(list(kovrelna.walk(array.array("I", ticks), [0, 1, 1], 1)), [0, 2])

        class Series:
            """A column as pandas has it: no buffer."""

            def to_numpy(self, kind):
                return kind

        with self.assertRaisesRegex(TypeError, r"; write values.to_numpy\(numpy.int16\)$"):
            kovrelna.walk([0, 1], Series(), 1)

    def test_wrong_outputs(self):
        wrong = [
            (bytes(10), "format 'B'"),
            (memoryview(array.array("H", [9] * 5)).toreadonly(), "it is read-only"),
            (memoryview(array.array("H", [9] * 10))[::2], "not contiguous"),
            (array.array("h", [9] * 5), "format 'h'"),
            ([9] * 5, "list is none"),
        ]
        for out, words in wrong:
            for call in REDUCTIONS:
                with self.assertRaisesRegex(TypeError, words) as caught:
                    call(EVEN, WAVE, 2, out)
                self.assertIn("out must be a writable buffer", str(caught.exception))
        read_only = [
            ("buffer", kovrelna.write, [0, 1, 3], [0, 1, 1], [0, 2], 1, bytes(40)),
            ("out", kovrelna.expand, b"\7", memoryview(bytes(2)).cast("h")),
            ("out", kovrelna.expand_with, b"\7", TABLE, memoryview(bytes(2)).cast("h")),
            ("ticks", kovrelna.read, RECORD, memoryview(bytes(8)).cast("I")),
            ("values", kovrelna.read, RECORD, None, memoryview(bytes(4)).cast("h")),
            ("out", kovrelna.scan, EVEN, WAVE, [1], memoryview(bytes(10)).cast("H")),
            ("sums", kovrelna.sum, *PAIR, memoryview(bytes(10)).cast("h")),
            ("joined", kovrelna.sum, *PAIR, None, memoryview(bytes(10)).cast("H")),
        ]
        for name, call, *arguments in read_only:
            with self.assertRaisesRegex(TypeError, f"{name} must be a writable .* read-only"):
                call(*arguments)

    def test_overlaps(self):
        memory = memoryview(bytearray(64))
        ticks, out = memory[:8].cast("I"), memory[6:12].cast("H")
        ticks[:] = memoryview(array.array("I", [1, 2]))
        with self.assertRaisesRegex(ValueError, "out and ticks overlap"):
            kovrelna.walk(ticks, [0, 0], 1, out)
        self.assertEqual(kovrelna.walk(ticks, [0, 0], 1, memory[8:12].cast("H")).tolist(), [0, 1])
        with self.assertRaisesRegex(ValueError, "out and ticks overlap"):
            kovrelna.scan(ticks, [0, 0], [1], out)
        with self.assertRaisesRegex(ValueError, "values and ticks overlap"):
            kovrelna.read(RECORD, memory[:8].cast("I"), memory[4:8].cast("h"))
        with self.assertRaisesRegex(ValueError, "joined and sums overlap"):
            kovrelna.sum(*PAIR, memory[:10].cast("h"), memory[8:18].cast("H"))
        with self.assertRaisesRegex(ValueError, "joined and list2 overlap"):
            kovrelna.sum(*PAIR[:5], memory[:4].cast("H"), None, memory[2:12].cast("H"))
        outputs = memory[20:30].cast("h"), memory[30:40].cast("H")
        self.assertEqual(sum_of(*PAIR, *outputs), (SUMS, JOINED))
        table = memoryview(array.array("h", TABLE + [7]))
        with self.assertRaisesRegex(ValueError, "out and table overlap"):
            kovrelna.expand_with(b"\0\0", table[:256], table[255:])
        self.assertEqual(kovrelna.expand_with(b"\0", table[:256], table[256:]).tolist(), [-20000])
        self.assertTrue(kovrelna.same(memoryview(RECORD), memoryview(RECORD)))

    def test_alignment(self):
        memory = memoryview(array.array("Q", [0, 0])).cast("B")
        for offset in range(1, 4):
            ticks = memory[offset : offset + 4].cast("I")
            with self.assertRaisesRegex(ValueError, "ticks must begin at a multiple of 4 bytes"):
                kovrelna.walk(ticks, [0], 1)
        with self.assertRaisesRegex(ValueError, "out must begin at a multiple of 2 bytes"):
            kovrelna.walk([0], [0], 1, memory[3:5].cast("H"))
        self.assertEqual(list(kovrelna.walk(memory[4:8].cast("I"), [0], 1)), [0])
        self.assertEqual(list(kovrelna.expand(memory[3:5])), [0, 0])

    def test_places(self):
        trace = [0, 1, 3], [0, 1, 1], [0, 2], 1
        for place, buffer in [(-1, bytearray(40)), (1, None)]:
            with self.assertRaisesRegex(ValueError, "place must be from 0 on"):
                kovrelna.write(*trace, buffer, place)
        with self.assertRaises(TypeError):
            kovrelna.write(*trace, bytearray(40), 1.0)

    def test_threads(self):
        ticks = array.array("I", range(4096))
        values = array.array("h", [k * k % 777 for k in range(4096)])
        expected = [list(kovrelna.minimum(ticks, values, bound)) for bound in range(4)]
        found = [None] * 4

        def work(bound):
            found[bound] = list(kovrelna.minimum(ticks, values, bound))

        threads = [threading.Thread(target=work, args=(bound,)) for bound in range(4)]
        for thread in threads:
            thread.start()
        for thread in threads:
            thread.join()
        self.assertEqual(found, expected)


class NumpyArrays:
    """With numpy, or with its stand-in: `module` is the one that the module under test finds."""

    def test_outputs_are_made_by_numpy(self):
        ticks = self.module.array([0, 1, 3], "I")
        values = self.module.array([0, 1, 1], "h")
        record = self.module.array(list(RECORD), "B")
        with mock.patch.dict(sys.modules, numpy=self.module):
            answers = [kovrelna.walk(ticks, values, 1), kovrelna.minimum(ticks, values, 1)]
            answers += [kovrelna.gallop(ticks, values, 1).kept]
            answers += [kovrelna.least(ticks, values, 2).kept]
            answers += [kovrelna.sum(ticks, values, [0, 1, 3], [0, 1, 1], [0, 2], [0, 2]).joined]
            answers += kovrelna.scan(ticks, values, [1, 2])
            for kept in answers:
                self.assertEqual(kept.tolist(), [0, 2])
            answers += kovrelna.read(record)[:2]
            answers += kovrelna.read(RECORD, numpy=True)[:2]
            answers += [kovrelna.expand(record), kovrelna.expand(RECORD, numpy=True)]
            answers += [kovrelna.expand_with(record, TABLE)]
            answers += [kovrelna.expand_with(RECORD, TABLE, numpy=True)]
            self.assertEqual([len(answer) for answer in answers], [2] * 11 + [22] * 4)
            kept = self.module.array([0, 1, 2], "H")
            answers += kovrelna.sum(ticks, values, ticks, values, kept, kept)
            self.assertEqual([answer.tolist() for answer in answers[-2:]], [[0, 2, 2], [0, 1, 2]])
            for answer in kovrelna.sum([0, 1, 3], values, ticks, values, kept, kept):
                self.assertNotIsInstance(answer, self.module.ndarray)
            self.assertNotIsInstance(kovrelna.walk(ticks.tolist(), values, 1), self.module.ndarray)
            for kept in kovrelna.scan(ticks.tolist(), values, [1, 2]):
                self.assertNotIsInstance(kept, self.module.ndarray)
            answers += kovrelna.scan(ticks, values, [0])
            self.assertEqual(answers[-1].tolist(), [0, 1, 2])
            table = self.module.array(TABLE, "h")
            self.assertNotIsInstance(kovrelna.expand_with(RECORD, table), self.module.ndarray)
            given = self.module.array([9] * 2, "I")
            content = kovrelna.read(RECORD, given, numpy=True)
            self.assertEqual((given.tolist(), content.values.tolist()), ([0, 3], [0, 1]))
        for answer in answers:
            self.assertIsInstance(answer, self.module.ndarray)
            # It holds no more than what is used.
            memory = answer if answer.base is None else answer.base
            self.assertEqual(memoryview(memory).nbytes, memoryview(answer).nbytes)

    def test_outputs_are_lent(self):
        out = self.module.array([9] * 5, "H")
        with mock.patch.dict(sys.modules, numpy=self.module):
            kept = kovrelna.walk(EVEN, WAVE, 2, out)
        self.assertIsInstance(kept, self.module.ndarray)
        self.assertEqual((kept.tolist(), out.tolist()), ([0, 2, 4], [0, 2, 4, 9, 9]))
        kept[1] = 7
        self.assertEqual(out.tolist(), [0, 7, 4, 9, 9])
        out = self.module.array([9] * 11, "H")
        with mock.patch.dict(sys.modules, numpy=self.module):
            found = kovrelna.scan(EVEN, WAVE, [2, 3], out)
        self.assertEqual([kept.tolist() for kept in found], [[0, 2, 4], [0, 4]])
        self.assertEqual(out.tolist(), [0, 2, 4, 9, 9, 0, 4, 9, 9, 9, 9])
        found[1][0] = 7
        self.assertEqual(out.tolist()[5], 7)
        sums, out = self.module.array([9] * 6, "h"), self.module.array([9] * 5, "H")
        with mock.patch.dict(sys.modules, numpy=self.module):
            found = kovrelna.sum(*PAIR, sums, out)
        self.assertEqual([part.tolist() for part in found], [SUMS, JOINED])
        self.assertEqual((sums.tolist(), out.tolist()), (SUMS + [9], JOINED + [9]))


class StandIn(NumpyArrays, Case):
    class ndarray:
        """Beside an array of ctypes: a slice shares the memory."""

        def __getitem__(self, key):
            if not isinstance(key, slice):
                return super().__getitem__(key)
            start, stop, _ = key.indices(len(self))
            kind = StandIn.kind(self._type_, stop - start)
            part = kind.from_buffer(self, start * ctypes.sizeof(self._type_))
            part.base = self
            return part

        base = None

        def copy(self):
            return StandIn.kind(self._type_, len(self))(*self)

        def tolist(self):
            return list(self)

    def kind(element, length):
        return type(ctypes.Array)("array", (StandIn.ndarray, element * length), {})

    def made(numbers, code):
        elements = {"B": ctypes.c_uint8, "H": ctypes.c_uint16, "h": ctypes.c_int16}
        element = elements.get(code, ctypes.c_uint32)
        return StandIn.kind(element, len(numbers))(*numbers)

    module = types.ModuleType("numpy")
    module.ndarray = ndarray
    module.array = made
    module.empty = lambda length, code: StandIn.made([1] * length, code)


@unittest.skipIf(numpy is None, "numpy is not installed")
class Numpy(NumpyArrays, Case):
    module = numpy

    def test_nothing_is_copied(self):
        ticks = numpy.array([0, 1, 3], numpy.uint32)
        values = numpy.array([0, 1, 1], numpy.int16)
        out = numpy.full(3, 9, numpy.uint16)
        lent = Buffers.lent(self, "walk", kovrelna.walk, ticks, values, 1, out)
        self.assertEqual(lent, [(one.ctypes.data, 3) for one in (ticks, values, out)])
        self.assertTrue(numpy.shares_memory(kovrelna.walk(ticks, values, 1, out), out))
        ticks.flags.writeable = False
        self.assertEqual(kovrelna.walk(ticks, values, 1).tolist(), [0, 2])
        out.flags.writeable = False
        with self.assertRaisesRegex(TypeError, "read-only"):
            kovrelna.walk(ticks, values, 1, out)

    def test_crates(self):
        ticks = numpy.array([0, 1, 3, 5], numpy.uint32)
        values = numpy.array([0, 1, 1, 9], numpy.int16)
        expected = [(3, 2, Fraction(2, 3), 1, 0), (1, 1, 0, 0, 0)]
        for kind in ("i1", "u1", "i2", "u2", "i4", "u4", "i8", "u8", ">i8", ">u2"):
            for lengths in (numpy.array([3, 1], kind), numpy.array([3, 9, 1], kind)[::2]):
                crate = kovrelna.report(ticks, values, lengths, 1)
                self.assertEqual(crate.rows, expected)
                self.assertEqual({type(row) for row in crate.rows}, {kovrelna.Summary})
        for lengths in (numpy.array([3.0, 1.0]), numpy.array([[3], [1]]), numpy.array(4)):
            with self.assertRaisesRegex(TypeError, "^lengths"):
                kovrelna.report(ticks, values, lengths, 1)

    def test_runs(self):
        kinds = numpy.uint32, numpy.int16, numpy.int64
        today, before = (Run(*map(numpy.array, run, kinds)) for run in (TODAY, BEFORE))
        found = kovrelna.pedestals(today, before, numpy.float64(0.5), numpy.int32(2))
        self.assertEqual(found, ([0], [1]))
        for part in found:
            self.assertEqual([type(part), type(part[0])], [list, int])
        lent = Buffers.lent(self, "pedestals", kovrelna.pedestals, today, before, 0.5, 2)
        arrays = [*today[:2], *before[:2]]
        self.assertEqual(lent[:2] + lent[3:5], [(part.ctypes.data, 12) for part in arrays])
        for part in today:
            part.flags.writeable = False
        self.assertEqual(kovrelna.pedestals(today, BEFORE, 0.5, 2), ([0], [1]))
        words = r"^before.values must be .*; write before.values.astype\(numpy.int16\)"
        with self.assertRaisesRegex(TypeError, words):
            kovrelna.pedestals(today, before._replace(values=before.values + 0.5), 0.5, 2)

    def test_scans(self):
        ticks, values = numpy.arange(5, dtype=numpy.uint32), numpy.array(WAVE, numpy.int16)
        tolerances = numpy.array([2.0, 0.5, 3.0])
        for given in (tolerances, tolerances.tolist(), [numpy.int64(2), 0.5, numpy.float32(3)]):
            found = kovrelna.scan(ticks, values, given)
            self.assertEqual([kept.dtype for kept in found], [numpy.uint16] * 3)
            lists = [[0, 2, 4], [0, 1, 3, 4], [0, 4]]
            self.assertEqual([kept.tolist() for kept in found], lists)
        self.refused(4, 1, kovrelna.scan, ticks, values, numpy.array([2.0, 0.1]))
        self.refused(19, 0, kovrelna.scan, ticks, values, numpy.zeros(17))
        with self.assertRaisesRegex(TypeError, "^tolerances must be a list of tolerances"):
            kovrelna.scan(ticks, values, numpy.array(2.0))

    def test_views(self):
        ticks, values = numpy.arange(8, dtype=numpy.uint32), numpy.array(TWICE, numpy.int16)
        view = grown(View(numpy.int64(1)), ticks, values)
        self.assertEqual(view, grown(View(1), range(8), TWICE))
        self.assertEqual({type(number) for number in (view.k, *view.samples)}, {int})
        lent = Buffers.lent(self, "view_add", view_of(1, [0, 2]).add, ticks[:4], values[:4])
        self.assertEqual(lent, [(ticks.ctypes.data, 4), (values.ctypes.data, 4)])
        self.refused(20, 0, View, numpy.int64(-1))
        with self.assertRaisesRegex(TypeError, r"; write values.astype\(numpy.int16\)"):
            view.add(ticks, values + 0.5)
        with self.assertRaisesRegex(TypeError, r"; write numpy.ascontiguousarray\(ticks\)$"):
            view.add(ticks[::2], values[::2])

    def test_pairs(self):
        kinds = numpy.uint32, numpy.int16, numpy.uint32, numpy.int16, numpy.uint16, numpy.uint16
        pair = list(map(numpy.array, PAIR, kinds))
        found = kovrelna.sum(*pair)
        self.assertEqual([part.dtype for part in found], [numpy.int16, numpy.uint16])
        self.assertEqual([part.tolist() for part in found], [SUMS, JOINED])
        lent = Buffers.lent(self, "sum", kovrelna.sum, *pair)
        self.assertEqual(lent[:6], [(part.ctypes.data, len(part)) for part in pair])
        self.assertTrue(kovrelna.judge(pair[0], *found, 2))
        words = r"^values2 must be .*; write values2.astype\(numpy.int16\)"
        with self.assertRaisesRegex(TypeError, words):
            kovrelna.sum(*pair[:3], pair[3] + 0.5, *pair[4:])

    def test_what_to_write_instead(self):
        two = numpy.array([[0, 7], [1, 7], [3, 7]])
        words = "ticks.astype(numpy.uint32), if all are from 0 to 4294967295"
        whole = "ticks.astype(numpy.uint32), if all are whole and from 0 to 4294967295"
        first = "numpy.ascontiguousarray(ticks[:, 0]) for its first column"
        for ticks, instead, words in [
            (numpy.array([0, 1, 3]), "ticks.astype(numpy.uint32)", words),
            (two[:, 0], "ticks.astype(numpy.uint32)", words),
            (two[:, 0].astype(">u4"), "ticks.astype(numpy.uint32)", words),
            (two[:, 0].astype("f4"), "ticks.astype(numpy.uint32)", whole),
            (two.astype("u4")[:, 0], "numpy.ascontiguousarray(ticks)", ""),
            (two.astype("u4"), "numpy.ascontiguousarray(ticks[:, 0])", first),
        ]:
            with self.assertRaises(TypeError) as caught:
                kovrelna.walk(ticks, [0, 1, 1], 1)
            said = str(caught.exception)
            self.assertTrue(said.endswith(f"; write {words or instead}"), said)
            self.assertEqual(kovrelna.walk(eval(instead), [0, 1, 1], 1).tolist(), [0, 2])
        words = r"; write values.astype\(numpy.int16\), if all are from -32768 to 32767$"
        with self.assertRaisesRegex(TypeError, words):
            kovrelna.walk([0, 1, 3], numpy.array([0, 1, 1], numpy.uint16), 1)
        unaligned = numpy.zeros(13, numpy.uint8)[1:].view(numpy.uint32)
        with self.assertRaisesRegex(ValueError, r"; write ticks.copy\(\)$"):
            kovrelna.walk(unaligned, [0, 1, 1], 1)
        # A copy of an output would be filled in vain.
        with self.assertRaisesRegex(TypeError, "bytes an item$"):
            kovrelna.walk([0, 1, 3], [0, 1, 1], 1, numpy.zeros(3, int))

    def test_little_is_held(self):
        ticks, values = numpy.arange(4096, dtype=numpy.uint32), numpy.zeros(4096, numpy.int16)
        tracemalloc.start()
        held = [kovrelna.walk(ticks, values, 1) for _ in range(1000)]
        size = tracemalloc.get_traced_memory()[0]
        tracemalloc.stop()
        self.assertEqual(held[0].tolist(), [0, 4095])
        self.assertLess(size, 1000 * 500)

    def test_wrong_arrays(self):
        for kind in ("f8", "f4", "i4", "u2", "i8", "u8", ">u4", "datetime64[s]", object, "?"):
            with self.assertRaisesRegex(TypeError, "unsigned 32-bit"):
                kovrelna.walk(numpy.array([0, 1, 2, 3, 4]).astype(kind), WAVE, 1)
        for ticks in (numpy.zeros((2, 2), "u4"), numpy.zeros(9, "u4")[::2], numpy.zeros((), "u4")):
            with self.assertRaisesRegex(TypeError, "ticks must be"):
                kovrelna.walk(ticks, WAVE, 1)

    def test_scalars(self):
        self.assertEqual(kovrelna.hold(numpy.float32(0.75)).one, Fraction(3, 4))
        self.assertEqual(kovrelna.hold(numpy.int64(3)).one, 3)
        held = kovrelna.hold(Parts(numpy.int64(3), numpy.uint16(2)))
        self.assertEqual((held, type(held.above)), (Parts(3, 2), Fraction))
        for part in (numpy.float64(0.5), numpy.float32(0.5)):
            with self.assertRaisesRegex(TypeError, r"; write Ratio\(1, 2\) or Fraction\(1, 2\)$"):
                kovrelna.hold(Parts(part, 1))
        self.assertEqual(list(kovrelna.walk(list(numpy.arange(5)), WAVE, 2)), [0, 2, 4])
        for gap, kept in [(numpy.int32(7), [0, 2, 3, 5]), (numpy.uint64(8), [0, 5])]:
            self.assertEqual(list(kovrelna.walk(HOLED, [0] * 6, 0, gap=gap)), kept)
        self.refused(15, 0, kovrelna.walk, HOLED, [0] * 6, 0, gap=numpy.int64(-1))
        ticks, values = numpy.arange(5, dtype=numpy.uint32), numpy.array(WAVE, numpy.int16)
        found = kovrelna.measure(ticks, values, numpy.int64(1), numpy.uint16(4))
        self.assertEqual(found, (Fraction(8, 3), 3, "below"))
        self.assertEqual([type(part) for part in found], [Fraction, int, str])
        self.refused(6, 0, kovrelna.measure, ticks, values, numpy.int64(-1), 4)


def answer(call, *arguments, **limits):
    """What the call returns, or its refusal as a number and a value."""
    try:
        return call(*arguments, **limits)
    except (Refusal, reference.Refused) as refused:
        return "refused", refused.args[:2]


class Reference(Case):
    """Random traces, limits, scans, views, pairs, runs, range tables and records beside the slow
    reference."""

    def setUp(self):
        self.random = random.Random(1)

    def trace(self):
        """A trace, sometimes one with a fault."""
        choose = self.random.choice
        samples = choose([1, 2, 3, 4, 5, 6, 7, 8])
        most = choose([1, 3, 300, 600000])
        ticks = [choose([0, 7, 2**32 - 5000000])]
        for _ in range(samples - 1):
            ticks.append(ticks[-1] + self.random.randint(1, most))
        low, high = choose([(0, 3), (-9, 9), (-200, 200), (-32768, 32767)])
        values = [self.random.randint(low, high) for _ in range(samples)]
        if choose(range(8)) == 0:
            at = self.random.randrange(samples)
            ticks[at] = ticks[at - 1]
        if choose(range(12)) == 0:
            choose([ticks, values]).pop()
        return ticks, values

    def tolerance(self):
        """A tolerance as the reference and as the module takes it."""
        q = self.random.choice([1, 2, 3, 1000, 1048575, 1048576, 0])
        p = self.random.choice([0, 1, 2, 5, 100, q, 5 * q, 65535 * q, 65535 * q + 1])
        x, y = self.random.randint(-1, 640) / 64, self.random.randint(-1, 40) / 8
        below_p, below_q = self.random.choice([(0, 1), (1, 1), (7, 3), (100, 1048575), (p, q), (9, 0)])
        parts = [p, q, below_p, below_q]
        if self.random.randrange(2):
            parts = parts[2:] + parts[:2]
        form = self.random.randrange(5)
        return [
            (("ratio", p, q), Ratio(p, q)),
            (("counts", x), Counts(x)),
            (("noise", x, y), Noise(x, y)),
            (("parts", *parts), Parts(Ratio(*parts[:2]), Ratio(*parts[2:]))),
            (("parts", *parts), Parts(Ratio(*parts[:2]), Ratio(*parts[2:]))),
        ][form]

    def gap(self, ticks):
        """A gap limit: at the distance of two neighbours, or one below or above it; none; sometimes
        one that is refused."""
        steps = [after - before for before, after in zip(ticks, ticks[1:])] or [1]
        near = self.random.choice(steps) + self.random.choice([-1, -1, 0, 0, 1])
        return self.random.choice([near] * 6 + [GAP_MAX, self.random.choice(NO_GAPS)])

    def kept(self, samples):
        """A kept list, sometimes one with a fault."""
        between = [k for k in range(1, samples - 1) if self.random.randrange(2)]
        kept = [0] + between + [samples - 1] * (samples > 1)
        if self.random.randrange(4) == 0:
            kept[self.random.randrange(len(kept))] = self.random.randrange(samples + 1)
        return kept

    def test_traces(self):
        seen, holes = set(), set()
        for _ in range(900):
            (ticks, values), (form, tolerance) = self.trace(), self.tolerance()
            gap = self.gap(ticks)
            given = ticks, values, form, gap
            room = self.random.choice([8, 8, len(ticks), len(ticks) - 1])
            out = array.array("H", [999] * max(room, 0))
            for call in (kovrelna.walk, kovrelna.minimum, kovrelna.gallop):
                expected = answer(getattr(reference, call.__name__), *given, len(out))
                found = answer(call, ticks, values, tolerance, out, gap=gap)
                seen.add(expected[1][0] if expected[0] == "refused" else 0)
                if expected[0] != "refused":
                    holes.update(self.holes(ticks, gap))
                    if call is kovrelna.gallop:
                        found = list(found.kept), found.probes
                        stops = zip(found[0], found[0][1:])
                        total = sum(2 * (j - i).bit_length() - 1 for i, j in stops)
                        self.assertEqual(found[1], total, given)
                    else:
                        found = list(found)
                self.assertEqual(found, expected, (call.__name__, *given))
            allowance = self.random.choice([1, 2, 2, 3, 4, 5, 4096, 4097])
            expected = answer(reference.least, ticks, values, gap, allowance, len(out))
            found = answer(kovrelna.least, ticks, values, allowance, out, gap=gap)
            seen.add(expected[1][0] if expected[0] == "refused" else 0)
            if expected[0] != "refused":
                found = list(found.kept), found.error
            self.assertEqual(found, expected, ("least", ticks, values, gap, allowance))
            kept = self.kept(max(len(ticks), 1))
            expected = answer(reference.judge, ticks, values, kept, form, gap)
            found = answer(kovrelna.judge, ticks, values, kept, tolerance, gap=gap)
            if isinstance(found, Verdict):
                found = self.invalid(found)
            self.assertEqual(found, expected, (kept, *given))
            expected = answer(reference.judge_greedy, ticks, values, kept, form, gap)
            found = answer(kovrelna.judge_greedy, ticks, values, kept, tolerance, gap=gap)
            if isinstance(found, GreedyVerdict):
                found = self.at_fault(found)
            self.assertEqual(found, expected, (kept, *given))
        self.assertEqual(seen, {0, 1, 2, 3, 4, 5, 10, 15, 16})
        self.assertEqual(holes, {"at", "above", "first", "last", "in a row"})

    def invalid(self, verdict):
        """The position of the first invalid link and its measure, or None."""
        self.assertEqual(verdict.passed, verdict.link is None)
        self.assertEqual(verdict.passed, verdict.measure is None)
        return None if verdict.passed else (verdict.link, verdict.measure)

    def at_fault(self, verdict):
        """The position of the first link at fault and its fault, or None."""
        self.assertEqual(verdict.passed, verdict.link is None)
        self.assertEqual(verdict.passed, verdict.fault is None)
        return None if verdict.passed else (verdict.link, verdict.fault)

    def near(self, error):
        """A bound that is the error, or a little below or above it."""
        return max(error + self.random.choice([-1, 0, 1]) * Fraction(1, 1000), Fraction(0))

    def small(self):
        """A trace of 2 to 9 samples, and a gap limit."""
        samples = self.random.randint(2, 9)
        steps = self.random.choices([1, 1, 2, 3], k=samples - 1)
        ticks = list(itertools.accumulate(steps, initial=7))
        values = self.random.choices(range(-3, 4), k=samples)
        return ticks, values, self.random.choice([1, 2, GAP_MAX])

    def test_parts(self):
        """At parts that a list's samples reach above and below its lines, or a little beside them:
        what judge says, and which of the two sides fails."""
        seen, hidden = set(), 0
        for _ in range(1500):
            ticks, values, gap = self.small()
            kept = [0, *(k for k in range(1, len(ticks) - 1) if self.random.random() < 0.3)]
            kept.append(len(ticks) - 1)
            above, below = reference.sides(ticks, values, kept)
            parts = Parts(self.near(above), self.near(below))
            form = "parts", *parts.above.as_integer_ratio(), *parts.below.as_integer_ratio()
            expected = reference.judge(ticks, values, kept, form, gap)
            found = self.invalid(kovrelna.judge(ticks, values, kept, parts, gap=gap))
            self.assertEqual(found, expected, (ticks, values, kept, parts, gap))
            seen.add((above > parts.above, below > parts.below, gap == GAP_MAX))
            if expected is not None and expected[1][2] != "gap":
                error, _, side = expected[1]
                hidden += error <= (parts.above if side == "above" else parts.below)
            for call in REDUCTIONS:
                expected = getattr(reference, call.__name__)(ticks, values, form, gap, len(ticks))
                found = call(ticks, values, parts, gap=gap)
                if call is kovrelna.gallop:
                    found, probes = found
                    expected, total = expected
                    self.assertEqual(probes, total, (ticks, values, parts, gap))
                self.assertEqual(list(found), expected, (call.__name__, ticks, values, parts, gap))
        self.assertEqual(seen, set(itertools.product([False, True], repeat=3)))
        self.assertGreater(hidden, 20)

    def test_sizes(self):
        """No list that obeys the gap limit is shorter than walk's and gallop's where its samples are
        at most a above and b below its lines and a + b is at most the smaller part."""
        shorter = set()
        for _ in range(1500):
            ticks, values, gap = self.small()
            above, below = (Fraction(third, 3) for third in self.random.choices([0, 0, 1, 3, 4, 9], k=2))
            given = ticks, values, Parts(above, below)
            size = max(len(kept_by(call, *given, gap=gap)) for call in REDUCTIONS[:2])
            for kept in reference.kept_lists(len(ticks), len(ticks)):
                if not reference.obeys(ticks, kept, gap):
                    continue
                a, b = reference.sides(ticks, values, kept)
                within = {
                    "the sum within the smaller": a + b <= min(above, below),
                    "the sum within the greater": a + b <= max(above, below),
                    "each within the smaller": max(a, b) <= min(above, below),
                    "each within half of its own": a <= above / 2 and b <= below / 2,
                }
                if len(kept) < size:
                    shorter.update(rule for rule in within if within[rule])
                self.assertNotIn("the sum within the smaller", shorter, (given, gap))
        self.assertEqual(len(shorter), 3, shorter)

    def test_greedy_lists(self):
        """The lists of the reductions, and each with one sample more or fewer. Walk's and gallop's
        pass, minimum's have no invalid link, and of lists that pass none has more samples than the
        smallest within a above and b below where a + b is at most the smaller part."""
        seen = set()
        for _ in range(600):
            ticks, values, gap = self.small()
            parts = [Fraction(third, 3) for third in self.random.choices([0, 1, 3, 4, 9], k=2)]
            form = "parts", *parts[0].as_integer_ratio(), *parts[1].as_integer_ratio()
            given, limits = (ticks, values), {"gap": gap}
            within = [
                len(kept)
                for kept in reference.kept_lists(len(ticks), len(ticks))
                if reference.obeys(ticks, kept, gap)
                and sum(reference.sides(ticks, values, kept)) <= min(parts)
            ]
            for call in REDUCTIONS:
                kept = kept_by(call, *given, Parts(*parts), **limits)
                other = {*kept} ^ ({self.random.randrange(len(ticks))} - {0, len(ticks) - 1})
                for proposed in (kept, sorted(other)):
                    expected = reference.judge_greedy(*given, proposed, form, gap)
                    found = kovrelna.judge_greedy(*given, proposed, Parts(*parts), **limits)
                    self.assertEqual(self.at_fault(found), expected, (given, proposed, parts, gap))
                    fault = found.fault
                    seen.add((call.__name__, proposed is kept, fault))
                    if found:
                        self.assertTrue(kovrelna.judge(*given, proposed, Parts(*parts), **limits))
                        self.assertLessEqual(len(proposed), min(within), (given, parts, gap))
        faults = None, "link", "stop"
        names = [call.__name__ for call in REDUCTIONS]
        spoilt = {(name, False, fault) for name in names for fault in faults}
        kept = {(name, True, None) for name in names} | {("minimum", True, "stop")}
        self.assertEqual(seen, spoilt | kept)

    def test_strays(self):
        """At the error of one of the links, or a little below or above it."""
        seen = set()
        for _ in range(600):
            ticks, values, gap = self.small()
            kept = [0, *(k for k in range(1, len(ticks) - 1) if self.random.random() < 0.3)]
            kept.append(len(ticks) - 1)
            error = reference.link_error(ticks, values, *self.random.choice([*zip(kept, kept[1:])]))
            bound = self.near(error)
            form = "ratio", bound.numerator, bound.denominator
            expected = reference.judge(ticks, values, kept, form, gap)
            found = self.invalid(kovrelna.judge(ticks, values, kept, bound, gap=gap))
            self.assertEqual(found, expected, (ticks, values, kept, bound, gap))
            if expected is not None:
                link, (error, _, side) = expected
                obeys = reference.obeys(ticks, kept[link : link + 2], gap)
                seen.add((side, obeys, error == 0, error == bound))
        # The tolerance alone, both, and the gap limit alone, also with the tolerance met exactly.
        either = [False, True]
        strayed = {(side, obeys, False, False) for side in ("above", "below") for obeys in either}
        across = {("gap", False, zero, met) for zero in either for met in either}
        self.assertEqual(seen, strayed | across)

    def test_measures(self):
        seen, ties = set(), set()
        for _ in range(1500):
            ticks, values = self.trace()
            i, j = self.random.choices([-1, *range(len(ticks) + 1), 2**64], k=2)
            if self.random.randrange(2):
                i, j = 0, len(ticks) - 1
            expected = answer(reference.measure, ticks, values, i, j)
            found = answer(kovrelna.measure, ticks, values, i, j)
            self.assertEqual(found, expected, (ticks, values, i, j))
            if expected[0] == "refused":
                number, value = expected[1]
                seen.add((number, value) if number == 6 else number)
                continue
            error, sample, side = expected
            seen.add(side)
            heights = [reference.height(ticks, values, i, j, k) for k in range(sample + 1, j)]
            ties.update((side, height > 0) for height in heights if 0 < error == abs(height))
        self.assertEqual(seen, {1, 2, 3, (6, 0), (6, 1), "on", "above", "below"})
        # A later sample lies as far from the line, on the same side and on the other.
        self.assertEqual(ties, set(itertools.product(["above", "below"], [False, True])))

    def holes(self, ticks, gap):
        """What the trace has: neighbours that lie exactly the gap limit apart, or one tick more; a
        hole at the first step, at the last one, or two in a row."""
        steps = [after - before for before, after in zip(ticks, ticks[1:])]
        far = [step > gap for step in steps]
        found = {
            "at": gap in steps,
            "above": gap + 1 in steps,
            "first": far[:1] == [True],
            "last": far[-1:] == [True],
            "in a row": any(map(operator.and_, far, far[1:])),
        }
        return {name for name in found if found[name]}

    def test_long_traces(self):
        """Holes after every second sample, or after some or none of up to 200."""
        counts = set()
        for _ in range(24):
            samples, gap = self.random.randint(60, 200), self.random.choice([3, 50])
            often = self.random.choice([0.5, 0.1, 0.02, 0.01])
            ticks = [self.random.choice([0, 2**32 - 50000])]
            for _ in range(samples - 1):
                far = gap + 1 if self.random.random() < often else self.random.randint(1, gap)
                ticks.append(ticks[-1] + far)
            values = [self.random.randint(-2, 2) for _ in ticks]
            forms = [(("counts", x), x) for x in (0.0, 1.0, 2.5)]
            for p, q in [(2, 9), (5, 2)]:
                forms.append((("parts", p, 2, q, 3), Parts(Ratio(p, 2), Ratio(q, 3))))
            form, tolerance = self.random.choice(forms)
            given = ticks, values, form, gap
            walked = kept_by(kovrelna.walk, ticks, values, tolerance, gap=gap)
            self.assertEqual(walked, reference.walk(*given, samples), given)
            galloped = kovrelna.gallop(ticks, values, tolerance, gap=gap)
            expected = reference.gallop(*given, samples)
            self.assertEqual((list(galloped.kept), galloped.probes), expected, given)
            shortest = kept_by(kovrelna.minimum, ticks, values, tolerance, gap=gap)
            parts = reference.held(form)
            self.assertTrue(reference.valid(ticks, values, shortest, parts, gap), given)
            self.assertLessEqual(len(shortest), min(len(walked), len(galloped.kept)))
            for kept in (walked, shortest, [0, samples - 1]):
                invalid = reference.judge(ticks, values, kept, form, gap)
                found = kovrelna.judge(ticks, values, kept, tolerance, gap=gap)
                self.assertEqual(self.invalid(found), invalid, given)
                fault = reference.judge_greedy(ticks, values, kept, form, gap)
                found = kovrelna.judge_greedy(ticks, values, kept, tolerance, gap=gap)
                self.assertEqual(self.at_fault(found), fault, given)
            i, j = sorted(self.random.sample(range(samples), 2))
            found = kovrelna.measure(ticks, values, i, j)
            self.assertEqual(found, reference.measure(ticks, values, i, j), given)
            counts.add(sum(b - a > gap for a, b in zip(ticks, ticks[1:])))
        self.assertTrue({0, 1, 2} & counts and max(counts) > 50, counts)

    def test_scans(self):
        seen, counts = set(), set()
        for _ in range(1500):
            ticks, values = self.trace()
            gap = self.gap(ticks)
            count = self.random.choice([1, 2, 3, 5, 16, self.random.randrange(19)])
            pairs = [self.tolerance() for _ in range(count)]
            if self.random.randrange(4):
                allowed = [answer(reference.held, form)[0] != "refused" for form, _ in pairs]
                pairs = list(itertools.compress(pairs, allowed))
            forms, tolerances = [pair[0] for pair in pairs], [pair[1] for pair in pairs]
            samples, needed = len(ticks), len(pairs) * len(ticks)
            room = self.random.choice([needed] * 6 + [needed + 7, max(needed - 1, 0), samples])
            out = array.array("H", [999] * room)
            after = out[:]
            expected = answer(reference.scan, ticks, values, forms, gap, room)
            found = answer(kovrelna.scan, ticks, values, tolerances, out, gap=gap)
            given = ticks, values, tolerances, gap
            if expected[0] == "refused":
                self.assertEqual((found, out), (expected, after), given)
                seen.add(expected[1] if expected[1][0] == 4 else expected[1][0])
                continue
            counts.add(len(pairs))
            self.assertEqual([list(kept) for kept in found], expected, given)
            for part, kept in enumerate(expected):
                after[part * samples : part * samples + len(kept)] = array.array("H", kept)
            self.assertEqual(out, after, given)
            # After each sample: the stops fixed by then, closed with it.
            for j in range(1, samples):
                so_far = scan_of(ticks[: j + 1], values[: j + 1], tolerances, gap=gap)
                self.assertEqual(so_far, [reference.closed(kept, j) for kept in expected], given)
        self.assertTrue({1, 2, 3, 19, 15, 10} < seen and {1, 16} < counts, (seen, counts))
        positions = {row[1] for row in seen if isinstance(row, tuple)}
        self.assertTrue({0, 1, 2, 3} < positions, positions)

    def test_views(self):
        """Whole traces, and the bound after each sample; then a state set by hand, sometimes with
        faults."""
        seen, near = set(), set()
        for _ in range(500):
            samples = self.random.choice([2, 5, 8, 9])
            steps = [self.random.choice([1, 1, 2, 3, 100000]) for _ in range(samples - 1)]
            ticks = list(itertools.accumulate(steps, initial=self.random.choice([0, 2**32 - 900000])))
            most = self.random.choice([0, 1, 3, 9, 32767])
            values = [self.random.randint(-most, most) for _ in ticks]
            k = self.random.choice([0, 1, 1, 2, 2, 3, 32])
            view, kept = View(k), reference.view_begin(k)
            for n in range(2, samples + 1):
                trace = ticks[:n], values[:n]
                view.add(*trace)
                kept = reference.view_add(k, kept, *trace)
                self.assertEqual((view.k, view.samples), (k, kept), trace)
                error = reference.list_error(*trace, kept)
                least = reference.least_error(*trace, k)
                self.assertLessEqual(error, 2 * least, (k, trace))
                near.add((error > least) - (error < least))
        for _ in range(3000):
            ticks, values = self.trace()
            k, kept = self.random.choice([0, 1, 2, 3, 32, 33]), self.kept(max(len(ticks) - 1, 1))
            view = view_of(k, kept)
            before = view.__getstate__()
            expected = answer(reference.view_add, k, kept, ticks, values)
            found = answer(view.add, ticks, values)
            given = k, kept, ticks, values
            if expected[0] == "refused":
                self.assertEqual((found, view.__getstate__()), (expected, before), given)
                seen.add(expected[1])
                continue
            self.assertEqual((found, view.samples), (None, expected), given)
            # Entries behind the list stay.
            behind = 8 + 2 * max(len(kept), len(expected))
            self.assertEqual(view.__getstate__()[behind:], before[behind:], given)
            seen.add(0)
        self.assertTrue({0, (1, 0), (2, 1), (2, 2), (3, 2), (3, 3), (20, 0)} < seen, seen)
        self.assertEqual(near, {-1, 0, 1})

    def test_long_views(self):
        """At every k, over more samples than the view keeps, in ties too."""
        for k in range(33):
            samples = 2 * k + 12
            most = self.random.choice([1, 5, 32767])
            values = [self.random.randint(-most, most) for _ in range(samples)]
            view, kept = View(k), reference.view_begin(k)
            for n in range(2, samples + 1):
                view.add(range(n), values[:n])
                kept = reference.view_add(k, kept, range(n), values[:n])
                self.assertEqual(view.samples, kept, (k, values[:n]))
            least = kovrelna.least(range(samples), values, k + 2).error
            self.assertLessEqual(reference.list_error(range(samples), values, kept), 2 * least)

    def pair(self):
        """Two traces and a list of each, sometimes with faults, or with ticks that differ."""
        choose = self.random.choice
        ticks, values = self.trace()
        others = ticks[:], [choose([0, 1, -1, value // 2, -value - 1]) for value in values]
        if choose(range(6)) == 0:
            others = self.trace()
        if choose(range(8)) == 0 and others[0]:
            at = self.random.randrange(len(others[0]))
            others[0][at] = max(others[0][at] + choose([-1, 1]), 0)
        if choose(range(8)) == 0:
            for numbers in choose([(ticks, values), others]):
                del numbers[-1:]
        lists = (self.kept(max(len(trace[0]), 1)) for trace in ((ticks, values), others))
        return (ticks, values, *others, *lists)

    def test_pairs(self):
        seen, within = set(), set()
        for _ in range(3000):
            pair = self.pair()
            samples = len(pair[0])
            sizes = [samples] * 6 + [samples + 3, max(samples - 1, 0)]
            rooms = self.random.choices(sizes, k=2)
            outputs, after = outputs_of(*rooms), outputs_of(*rooms)
            expected = answer(reference.summed, *pair, rooms)
            found = answer(kovrelna.sum, *pair, *outputs)
            seen.add(expected[1][0] if expected[0] == "refused" else 0)
            if expected[0] == "refused":
                self.assertEqual(found, expected, pair)
                self.assertEqual(outputs, after, pair)
                continue
            self.assertEqual((list(found.sums), list(found.joined)), expected, pair)
            for out, numbers in zip(after, expected):
                out[: len(numbers)] = array.array(out.typecode, numbers)
            self.assertEqual(outputs, after, pair)
            ticks, values1, _, values2, list1, list2 = pair
            turned = sum_of(ticks, values2, ticks, values1, list2, list1)
            self.assertEqual(turned, expected, pair)
            bound = reference.list_error(ticks, values1, list1)
            bound += reference.list_error(ticks, values2, list2)
            gap = self.gap(ticks)
            obeyed = all(reference.obeys(ticks, kept, gap) for kept in (list1, list2))
            error = reference.list_error(ticks, *expected)
            self.assertLessEqual(error, 2 * bound, pair)
            # By parts: U1 + D1 + U2 + D2 on either side.
            parts = [*reference.sides(ticks, values1, list1), *reference.sides(ticks, values2, list2)]
            self.assertLessEqual(error, sum(parts), pair)
            self.assertLessEqual(obeyed, reference.obeys(ticks, expected[1], gap), (pair, gap))
            within.add((error <= bound, obeyed))
        self.assertEqual(seen, {0, 1, 2, 3, 6, 17, 18, 10})
        # The sum of both errors is not the bound.
        self.assertEqual(within, set(itertools.product([False, True], repeat=2)))

    def test_long_pairs(self):
        """Lists of walk and minimum: the joined list passes at the sum of all parts of their
        tolerances, under the same gap limit."""
        lengths = set()
        for _ in range(40):
            samples, gap = self.random.randint(100, 300), self.random.choice([3, 4, GAP_MAX])
            steps = self.random.choices([1, 2, 3, 3, 4], k=samples - 1)
            ticks = list(itertools.accumulate(steps, initial=self.random.choice([0, 2**32 - 2000])))
            most = self.random.choice([1, 3, 100, 8000])
            values1, values2 = (self.random.choices(range(-most, most + 1), k=samples) for _ in "12")
            first, second = (Fraction(self.random.randint(0, 4 * most), 3) for _ in "12")
            more, less = first + self.random.randint(0, 3), second / self.random.randint(1, 3)
            list1 = kovrelna.walk(ticks, values1, Parts(more, first), gap=gap)
            list2 = kovrelna.minimum(ticks, values2, Parts(less, second), gap=gap)
            found = kovrelna.sum(ticks, values1, ticks, values2, list1, list2)
            pair = ticks, values1, ticks, values2, list1, list2
            expected = reference.summed(*pair, [samples, samples])
            self.assertEqual((list(found.sums), list(found.joined)), expected)
            bound = more + first + less + second
            self.assertTrue(kovrelna.judge(ticks, *found, bound, gap=gap))
            lengths.add(len(found.joined))
        self.assertLess(min(lengths), 60)
        self.assertGreater(max(lengths), 100)

    def crate(self):
        """A crate, sometimes one with channels or lengths that are at fault."""
        choose = self.random.choice
        ticks, values, lengths = [], [], []
        for _ in range(choose([0, 1, 2, 3, 4, 64, 65] if choose(range(8)) == 0 else [1, 2, 3, 4])):
            channel = self.trace()
            length = choose([len(channel[0])] * 8 + [0])
            if choose(range(30)) == 0:
                length, channel = 4097, (list(range(4097)), [0] * 4097)
            ticks += channel[0][:length]
            values += channel[1][:length]
            lengths.append(length)
        if choose(range(12)) == 0 and lengths:
            lengths[self.random.randrange(len(lengths))] += choose([-1, 1, 2**63])
        return ticks, values, [max(length, 0) for length in lengths]

    def test_crates(self):
        seen, rows, samples = set(), set(), set()
        for _ in range(600):
            (ticks, values, lengths), (form, tolerance) = self.crate(), self.tolerance()
            gap = self.gap(ticks[:8])
            expected = answer(reference.report, ticks, values, lengths, form, gap, len(lengths))
            found = answer(kovrelna.report, ticks, values, lengths, tolerance, gap=gap)
            self.assertEqual(found, expected, (ticks, values, lengths, form, gap))
            refused = expected[0] == "refused"
            seen.add(expected[1][0] if refused else 0)
            rows.update([] if refused else [row[4] for row in expected[0]])
            samples.update([] if refused else [row[3] for row in expected[0]])
        self.assertEqual((seen, rows), ({0, 4, 11, 15}, {0, 1, 2, 3}))
        self.assertEqual(samples, set(range(7)))

    def run_of(self, lengths):
        """A run of channels with so many samples, sometimes one with faults."""
        choose = self.random.choice
        if choose(range(12)) == 0:
            lengths = [choose([length] * 8 + [length + 1, 0, 4096, 4097]) for length in lengths]
        if choose(range(24)) == 0:
            lengths = choose([[], lengths + [1], lengths[1:], [1] * 65])
        channels = []
        for length in lengths:
            first = choose([0, 7, 2**32 - 1100000])
            ticks = list(range(first, first + length))
            if ticks and choose(range(8 * len(lengths))) == 0:
                at = self.random.randrange(length)
                ticks[at] = choose([ticks[at - 1], first + 1048575, first + 1048576])
            low, high = choose([(0, 1), (0, 1), (-2, 3), (-200, 200), (-32768, 32767)])
            channels.append((ticks, [self.random.randint(low, high) for _ in ticks]))
        ticks, values = (sum(parts, []) for parts in zip([[], []], *channels))
        if choose(range(24)) == 0:
            choose([ticks, values, lengths]).append(1)
        return ticks, values, lengths

    def test_runs(self):
        seen, shifts, noises = set(), set(), set()
        for _ in range(600):
            channels = self.random.choice([1, 2, 3, 64])
            lengths = self.random.choices([1, 2, 3, 4, 5, 8, 20], k=channels)
            today, before = self.run_of(lengths[:]), self.run_of(lengths[:])
            p, q = self.random.randint(0, 4), self.random.randint(1, 4)
            small = ("ratio", p, q), Ratio(p, q)
            form, tolerance = self.random.choice([small, self.tolerance()])
            k = self.random.choice([1, 1, 2, 2, 3, 15, 16] * 3 + [-1, 0, 17, 2**64 + 1])
            expected = answer(reference.pedestals, today, before, form, k)
            found = answer(kovrelna.pedestals, today, before, tolerance, k)
            self.assertEqual(found, expected, (today, before, form, k))
            seen.add(expected[1][0] if expected[0] == "refused" else 0)
            if expected[0] != "refused":
                traces = zip(reference.channels_of(*today), reference.channels_of(*before))
                for (_, x), (_, y) in traces:
                    shifts.add(reference.shift(x, y, reference.held(form)[0]))
                    noises.add(reference.noise(x) - k * k * reference.noise(y))
        self.assertEqual(seen, {0, 1, 2, 3, 4, 11, 13, 14})
        # Each limit is met, missed by one and exceeded by one.
        self.assertLessEqual({-1, 0, 1}, shifts & noises)

    def test_extreme_runs(self):
        low, high = -32768, 32767
        long = [[low] * 4096, [high] * 4096, [0] * 4096, [low, high] * 2048, [low, low + 1] * 2048]
        long += [[low] * 4095 + [high], [high] * 4095 + [low]]
        short = [[low], [high]], [[low, low], [low, high], [high, low]]
        pairs = [pair for kind in (long, *short) for pair in itertools.product(kind, repeat=2)]
        today, before = (values_run(*channels) for channels in zip(*pairs))
        for k, p, q in [
            (1, 0, 1),
            (2, 65535 * 1048575, 1048575),
            (16, 65535 * 1048575 - 1, 1048575),
            (15, 1, 1048575),
        ]:
            expected = reference.pedestals(today, before, ("ratio", p, q), k)
            self.assertEqual(kovrelna.pedestals(today, before, Ratio(p, q), k), expected)
            self.assertEqual(expected[0] == [], k == 2)
            self.assertNotEqual(expected[1], [])

    def table(self):
        """A range table, sometimes one with faults."""
        choose = self.random.choice
        first = choose([-32768, -500, 0, 32767 - 255])
        spread = sorted(self.random.sample(range(-32768, 32768), 256))
        table = choose([spread, list(range(first, first + 256)), TABLE[:]])
        if choose(range(4)) == 0:
            table[0], table[255] = -32768, 32767
        for _ in range(choose([0, 0, 0, 0, 1, 1, 2])):
            code = choose([1, 255, self.random.randint(1, 255)])
            before = table[code - 1]
            table[code] = choose([before, max(before - 1, -32768), -32768])
        if choose(range(8)) == 0:
            table = choose([[], table[:255], table + [32767], table + table])
        return table

    def test_tables(self):
        seen = set()
        for _ in range(600):
            count = self.random.choice([0, 1, 2, 5, 40, 40, 40, 4096, 4097])
            codes, table = bytes(self.random.choices(range(256), k=count)), self.table()
            room = self.random.choice([0, max(count - 1, 0), count, count, count + 3])
            out = array.array("h", [999] * room)
            expected = answer(reference.expand_with, codes, table, room)
            found = answer(kovrelna.expand_with, codes, table, out)
            after = [999] * room
            seen.add(expected[1][0] if expected[0] == "refused" else 0)
            if expected[0] != "refused":
                found = list(found)
                after[:count] = expected
            self.assertEqual(found, expected, (codes, table, room))
            self.assertEqual(out.tolist(), after)
        self.assertEqual(seen, {0, 1, 10, 12})

    def test_records(self):
        seen = set()
        for _ in range(600):
            (ticks, values), (form, tolerance) = self.trace(), self.tolerance()
            kept, gap = self.kept(max(len(ticks), 1)), self.gap(ticks)
            size, place = self.random.randrange(70), self.random.choice([0, 3, 80])
            expected = answer(reference.write, ticks, values, kept, form, gap, max(size - place, 0))
            event = bytearray(b"\xa5" * size)
            found = answer(kovrelna.write, ticks, values, kept, tolerance, event, place, gap=gap)
            seen.add(expected[1][0] if expected[0] == "refused" else 0)
            after = b"\xa5" * size
            if expected[0] != "refused":
                found = bytes(found)
                after = after[:place] + expected + after[place + len(expected) :]
            self.assertEqual(found, expected, (ticks, values, kept, form, gap))
            self.assertEqual(event, after)
        self.assertEqual(seen, {0, 1, 2, 3, 4, 6, 7, 10, 15})

    def damaged(self, record):
        """The record with one change, which may leave it whole."""
        at = self.random.randrange(len(record))
        byte = bytes([self.random.choice([0, 1, 2, 0x41, 0x42, 0x45, 0x4C, 0x53, 0x54, 0xFF])])
        return self.random.choice(
            [
                record,
                record[:at],
                record[:at] + byte + record[at + 1 :],
                record[:at] + byte + record[at:],
                record[:at] + record[at + 1 :],
            ]
        )

    def test_damaged_records(self):
        records, seen = [RECORD, TWO_PARTS], set()
        while len(records) < 400:
            (ticks, values), (form, _) = self.trace(), self.tolerance()
            record = answer(reference.write, ticks, values, range(len(ticks)), form, GAP_MAX, 99)
            if isinstance(record, bytes):
                records.append(record)
        for record in records:
            first, second = self.damaged(record), self.damaged(record)
            expected = answer(reference.read, first)
            found = answer(kovrelna.read, first)
            if expected[0] != "refused":
                parts = found.tolerance
                found = list(found.ticks), list(found.values), (parts.above, parts.below)
            self.assertEqual(found, expected, first.hex(" "))
            compared = answer(reference.same, first, second)
            seen.add(compared if isinstance(compared, bool) else compared[1][0])
            self.assertEqual(answer(kovrelna.same, first, second), compared)
        self.assertEqual(seen, {True, False, 8, 9})


class Checks(Case):
    """A record beside the trace that it is to stand for."""

    def test_causes(self):
        record = kovrelna.write(EVEN, ZIGZAG, [0, 3, 4], 2)
        self.assertEqual(kovrelna.check(record, EVEN, ZIGZAG), kovrelna.Checked(True, None))
        for ticks, values, cause in (
            ([0, 1, 2, 4, 5], ZIGZAG, "sample 1 of the record, at tick 3, is not in the trace"),
            (EVEN, [0, 3, 0, 2, 0], "at tick 3, has value 3, and the trace has 2"),
            ([0, 1, 2, 3, 4, 5], ZIGZAG + [0], "the last sample of the trace, at tick 5, is not"),
            (EVEN, [0, 3, -1, 3, 0], "link 0, from sample 0 at tick 0 to sample 3 at tick 3, is"),
            (EVEN, [0, 3, -1, 3, 0], "is not within 2: sample 2 at tick 2 lies 3 below the line"),
        ):
            checked = kovrelna.check(record, ticks, values)
            self.assertFalse(checked)
            self.assertIn(cause, checked.cause)
        parts = kovrelna.write(HOLED, [0] * 6, [0, 2, 5], 0)
        link = "link 1, from sample 2 at tick 2 to sample 5 at tick 12"
        checked = kovrelna.check(parts, HOLED, [0] * 6, gap=7)
        cause = f"{link}, crosses the hole from tick 2 to tick 10, and its error is 0"
        self.assertEqual(checked.cause, cause)
        self.assertTrue(kovrelna.check(parts, HOLED, [0] * 6, gap=8))
        cause = f"{link}, is not within 0: sample 4 at tick 11 lies 1 above the line"
        for gap in (8, 7):
            checked = kovrelna.check(parts, HOLED, [0, 0, 0, 0, 1, 0], gap=gap)
            self.assertEqual(checked.cause, cause)
        # With parts, also where the sample named is within its own.
        record = kovrelna.write([0, 3], [1, -1], [0, 1], Parts(5, 0))
        link = "link 0, from sample 0 at tick 0 to sample 3 at tick 3, is not within"
        for values, words in [
            ([1, 0, 1, -1], "4/3 above the line, and another sample more than 0 below it"),
            ([1, 1, 6, -1], "19/3 above the line"),
        ]:
            cause = f"{link} 5 above and 0 below: sample 2 at tick 2 lies {words}"
            self.assertEqual(kovrelna.check(record, range(4), values).cause, cause)
        self.assertTrue(kovrelna.check(record, range(4), [1, 1, 4, -1]))
        later = kovrelna.write([1, 2], [3, 0], [0, 1], 2)
        cause = "the first sample of the trace, at tick 0, is not kept"
        self.assertEqual(kovrelna.check(later, [0, 1, 2], [0, 3, 0]).cause, cause)

    def test_refusals(self):
        self.refused(8, 0, kovrelna.check, b"", [], [])
        self.refused(8, 16, kovrelna.check, RECORD[:18], [0, 1, 3], [0, 1, 1])
        self.refused(1, 0, kovrelna.check, RECORD, [], [])
        self.refused(1, 0, kovrelna.check, RECORD, [0, 1, 3], [0, 1])
        self.refused(2, 1, kovrelna.check, RECORD, [0, 0, 3], [0, 1, 1])
        self.refused(3, 2, kovrelna.check, RECORD, [0, 1, 1_048_576], [0, 1, 1])
        for gap in NO_GAPS:
            self.refused(8, 0, kovrelna.check, b"", [], [], gap=gap)
            self.refused(1, 0, kovrelna.check, RECORD, [0, 1, 3], [0, 1], gap=gap)
            self.refused(2, 1, kovrelna.check, RECORD, [0, 0, 3], [0, 1, 1], gap=gap)
            self.refused(3, 2, kovrelna.check, RECORD, [0, 1, 1_048_576], [0, 1, 1], gap=gap)
            self.refused(15, 0, kovrelna.check, RECORD, [0, 1, 3], [0, 1, 1], gap=gap)
            self.refused(15, 0, kovrelna.check, RECORD, [7], [7], gap=gap)

    def test_every_list(self):
        """Of every list of every kept sample, passed exactly if judge passes it."""
        uneven = [0, 1, 3, 4, 6]
        for size, gap in itertools.product(range(1, 6), (1, 2, GAP_MAX)):
            ticks, values = uneven[:size], ZIGZAG[:size]
            for between in itertools.product([False, True], repeat=max(size - 2, 0)):
                kept = [0] + [k + 1 for k, keep in enumerate(between) if keep]
                kept += [size - 1] * (size > 1)
                samples = [ticks[k] for k in kept], [values[k] for k in kept]
                record = kovrelna.write(*samples, range(len(kept)), 2)
                passed = kovrelna.judge(ticks, values, kept, 2, gap=gap).passed
                checked = kovrelna.check(record, ticks, values, gap=gap)
                self.assertEqual(checked.passed, passed, (kept, gap))


class Loading(unittest.TestCase):
    """Where the module finds the shared library."""

    def setUp(self):
        self.place = tempfile.TemporaryDirectory()
        self.addCleanup(self.place.cleanup)
        source = os.path.dirname(os.path.abspath(kovrelna.__file__))
        self.package = os.path.join(self.place.name, "kovrelna")
        shutil.copytree(source, self.package)
        self.library = os.path.abspath(kovrelna._library._LIBRARY._name)

    def loaded(self, **environment):
        """The path of the library that is loaded, or what is said where there is none."""
        program = "import kovrelna; print(kovrelna._library._LIBRARY._name, kovrelna.hold(2))"
        environment = {"PYTHONPATH": self.place.name, **environment}
        ran = subprocess.run(
            [sys.executable, "-B", "-c", program],
            env=environment,
            stdout=subprocess.PIPE,
            stderr=subprocess.STDOUT,
            universal_newlines=True,
        )
        return ran.stdout.strip().splitlines()[-1]

    def test_places(self):
        name = kovrelna._library.NAME
        folder = os.path.join(self.place.name, "lib")
        os.mkdir(folder)
        shutil.copy(self.library, os.path.join(folder, name))
        self.assertEqual(self.loaded(LD_LIBRARY_PATH=folder), f"{name} 2")
        beside = os.path.join(self.package, name)
        shutil.copy(self.library, beside)
        self.assertEqual(self.loaded(), f"{beside} 2")
        self.assertEqual(self.loaded(KOVRELNA_LIBRARY=self.library), f"{self.library} 2")
        said = self.loaded(KOVRELNA_LIBRARY="/nowhere/libkovrelna.so")
        self.assertRegex(said, "^ImportError: the shared library of Kovrelna cannot be loaded")

    def test_another_library(self):
        said = self.loaded(KOVRELNA_LIBRARY="libc.so.6")
        self.assertRegex(said, "^ImportError: libc.so.6 is no library of this version")


if __name__ == "__main__":
    unittest.main()
