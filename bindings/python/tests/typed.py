"""Calls as mypy sees them, with strict types: each line that it must refuse says why. Not run."""

import array
from fractions import Fraction
from typing import Any, Dict

import kovrelna
from kovrelna import Counts, Noise, Parts, Ratio


class Array:
    """As numpy's arrays are typed."""

    @property
    def __array_interface__(self) -> Dict[str, Any]:
        return {}


ticks, values, kept = [0, 1, 3], (0, 1, 1), range(3)

kovrelna.walk(ticks, values, 1)
kovrelna.walk(array.array("I", ticks), memoryview(b""), Fraction(1, 10), array.array("H"))
kovrelna.gallop(Array(), Array(), Counts(2.5), Array()).kept.tolist()
kovrelna.minimum(range(3), b"", Noise(1.5, 2.125))
kovrelna.minimum(ticks, values, 1, array.array("H"), gap=kovrelna.GAP_MAX).tolist()
kovrelna.measure(ticks, values, 0, 2).error.denominator
kovrelna.measure(Array(), Array(), False, True).side.upper()
kovrelna.judge(ticks, values, kept, Ratio(1, 10)).link
kovrelna.judge(ticks, values, kept, 1, gap=7).link
kovrelna.judge(ticks, values, kept, Parts(above=2, below=Fraction(1, 10))).link
kovrelna.judge_greedy(ticks, values, kept, Ratio(1, 10)).link
kovrelna.judge_greedy(Array(), Array(), Array(), Parts(1, 2), gap=7).passed is True
kovrelna.least(ticks, values, 2).error.denominator
kovrelna.least(ticks, values, 2, gap=True).kept.tolist()
kovrelna.scan(ticks, values, [1, 0.5, Fraction(1, 10), Ratio(1, 10)])[0].tolist()
kovrelna.scan(Array(), Array(), (Counts(n) for n in ticks), Array(), gap=7).index(0)
kovrelna.scan(ticks, values, [1, Parts(Ratio(1, 10), 2), Parts(1, 0)])[0].tolist()
view = kovrelna.View(True)
view.add(ticks, values)
view.add(Array(), array.array("h"))
view.samples[0].bit_length() + view.k.bit_length()
kovrelna.View(k=1) == view
kovrelna.sum(ticks, values, ticks, values, kept, kept).sums.tolist()
kovrelna.sum(Array(), Array(), array.array("I"), b"", (0, 2), memoryview(b"")).joined[0]
kovrelna.sum(ticks, values, ticks, values, kept, kept, Array(), array.array("H")).joined[0]
kovrelna.report(ticks, values, kept, 1).rows[0].error.denominator
kovrelna.report(ticks, values, kept, 1).rows[0].sample.bit_length()
kovrelna.report(Array(), Array(), Array(), 1).kept.bit_length()
kovrelna.report(ticks, values, (n for n in ticks), 1, gap=7).error.denominator
run = kovrelna.Run(ticks, values, kept)
kovrelna.pedestals(run, (Array(), Array(), Array()), 0.5, 2).moved[0].bit_length()
kovrelna.pedestals((array.array("I"), b"", (n for n in ticks)), run, 1, True).noisy.index(1)
kovrelna.expand(b"", numpy=True)
kovrelna.expand_with(b"", values, array.array("h"))
kovrelna.expand_with(Array(), Array(), numpy=True)
kovrelna.write(ticks, values, kept, 0.5).hex()
kovrelna.write(ticks, values, kept, 0.5, gap=7).hex()
kovrelna.write(ticks, values, kept, 0.5, bytearray(40), 8)
kovrelna.write(ticks, values, kept, 0.5, bytearray(40), gap=7)
kovrelna.read(b"", numpy=True).tolerance.above.denominator
kovrelna.same(b"", bytearray()) is True
kovrelna.check(b"", Array(), values).cause
kovrelna.check(b"", ticks, values, gap=7).cause
kovrelna.hold(1).below.numerator
kovrelna.hold(kovrelna.hold(Parts(1, Ratio(1, 10)))).one == Fraction(1, 10)
two: Parts[int, Ratio] = Parts(1, Ratio(1, 10))
kovrelna.hold(two).above.numerator
two.above.bit_length() + two.below.q.bit_length()
kovrelna.__version__.split(".")
kovrelna.GAP_MAX.bit_length()

kovrelna.walk("junk", values, 1)  # type: ignore[arg-type]
kovrelna.walk(ticks, {}, 1)  # type: ignore[arg-type]
kovrelna.walk([0.5, 1.5, 2.5], values, 1)  # type: ignore[list-item]
kovrelna.walk(ticks, values)  # type: ignore[call-arg]
kovrelna.walk(ticks, values, "1/10")  # type: ignore[arg-type]
kovrelna.walk(ticks, values, (1, 10))  # type: ignore[arg-type]
kovrelna.walk(ticks, values, 1, [0, 0, 0])  # type: ignore[arg-type]
kovrelna.walk(ticks, values, 1, gap=7.0)  # type: ignore[arg-type]
kovrelna.gallop(ticks, values, 1, gap="7")  # type: ignore[arg-type]
kovrelna.gallop(ticks, values, 1).samples  # type: ignore[attr-defined]
kovrelna.measure(ticks, values, 0)  # type: ignore[call-arg]
kovrelna.measure(ticks, values, 0, 2.0)  # type: ignore[arg-type]
kovrelna.measure(ticks, values, 0, 2, gap=7)  # type: ignore[call-arg]
kovrelna.judge(ticks, values, None, 1)  # type: ignore[arg-type]
kovrelna.judge(ticks, values, kept, 1).measure.side  # type: ignore[union-attr]
kovrelna.judge_greedy(ticks, values, kept)  # type: ignore[call-arg]
kovrelna.judge_greedy(ticks, values, kept, 1).fault.upper()  # type: ignore[union-attr]
kovrelna.judge_greedy(ticks, values, kept, 1).measure  # type: ignore[attr-defined]
kovrelna.least(ticks, values, 2.0)  # type: ignore[arg-type]
kovrelna.least(ticks, values, 2, gap=None)  # type: ignore[arg-type]
kovrelna.scan(ticks, values)  # type: ignore[call-arg]
kovrelna.scan(ticks, values, 1)  # type: ignore[arg-type]
kovrelna.scan(ticks, values, ["1/10"])  # type: ignore[list-item]
kovrelna.scan(ticks, values, [1], [0, 0, 0])  # type: ignore[arg-type]
kovrelna.scan(ticks, values, [1], gap=None)  # type: ignore[arg-type]
kovrelna.scan(ticks, values, [1]).kept  # type: ignore[attr-defined]
kovrelna.View()  # type: ignore[call-arg]
kovrelna.View(1.0)  # type: ignore[arg-type]
kovrelna.View(1, [0])  # type: ignore[call-arg]
view.k = 2  # type: ignore[misc]
view.samples = [0]  # type: ignore[misc]
view.add(ticks)  # type: ignore[call-arg]
view.add(ticks, None)  # type: ignore[arg-type]
view.add(ticks, values, gap=7)  # type: ignore[call-arg]
view.add(ticks, values).samples  # type: ignore[func-returns-value]
kovrelna.sum(ticks, values, ticks, values, kept)  # type: ignore[call-arg]
kovrelna.sum(ticks, values, ticks, values, kept, None)  # type: ignore[arg-type]
kovrelna.sum(ticks, values, ticks, values, kept, kept, gap=7)  # type: ignore[call-arg]
kovrelna.sum(ticks, values, ticks, values, kept, kept, [0, 2])  # type: ignore[arg-type]
kovrelna.sum(ticks, values, ticks, values, kept, kept).values  # type: ignore[attr-defined]
kovrelna.report(ticks, values, "31", 1)  # type: ignore[arg-type]
kovrelna.report(ticks, values, 3, 1)  # type: ignore[arg-type]
kovrelna.report(ticks, values, [3], 1).rows.samples  # type: ignore[attr-defined]
kovrelna.pedestals(run, run, 1)  # type: ignore[call-arg]
kovrelna.pedestals(run, run, 1, 2.0)  # type: ignore[arg-type]
kovrelna.pedestals(run, (ticks, values), 1, 2)  # type: ignore[arg-type]
kovrelna.pedestals([ticks, values, kept], run, 1, 2)  # type: ignore[arg-type]
kovrelna.pedestals(run, run, 1, 2).quiet  # type: ignore[attr-defined]
kovrelna.expand("codes")  # type: ignore[arg-type]
kovrelna.expand(b"", table=values)  # type: ignore[call-arg]
kovrelna.expand_with(b"")  # type: ignore[call-arg]
kovrelna.expand_with(b"", None)  # type: ignore[arg-type]
kovrelna.expand_with(b"", [0.5])  # type: ignore[list-item]
kovrelna.write(ticks, values, kept, 1, place=8)  # type: ignore[call-overload]
kovrelna.read(7)  # type: ignore[arg-type]
kovrelna.same(b"", None)  # type: ignore[arg-type]
kovrelna.check(b"", ticks)  # type: ignore[call-arg]
kovrelna.hold(None)  # type: ignore[arg-type]
kovrelna.hold(1).numerator  # type: ignore[attr-defined]
kovrelna.hold(1).one.numerator  # type: ignore[union-attr]
Parts(0.5, 1)  # type: ignore[type-var]
Parts(1, Counts(0.5))  # type: ignore[type-var]
Parts(1)  # type: ignore[call-arg]
two.above = 2  # type: ignore[misc]
kovrelna.hold(1, gap=7)  # type: ignore[call-arg]
