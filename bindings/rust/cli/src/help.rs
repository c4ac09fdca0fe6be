//! What `--help` and `--version` print.

pub const VERSION: &str = concat!("kovrelna ", env!("CARGO_PKG_VERSION"), "\n");

pub const TOOL: &str = "\
Reduces traces of ADC samples, judges the result and records it.

Usage: kovrelna COMMAND [OPTION..] [FILE..]
       kovrelna COMMAND --help
       kovrelna --help | --version

  record    make a record from a trace
  show      print records as text
  judge     say whether a list of samples is within a tolerance
  check     say whether a record may stand for a trace
  same      say whether two records are the same, or what differs
  measure   say how far a link strays from its trace, and at which sample
  least     say how near a list of so many samples can come
  near      say how near the lists of walk and gallop are to the shortest
  probes    say how many probes gallop takes
  scan      say how many samples walk keeps at each of several tolerances
  watch     show a trace while it grows, by a few of its samples
  sum       add two traces, and join what is kept of them
  summary   print a line for each record, and a total
  report    print the sheet of a crate: a line for each channel, and totals
  pedestals list the channels of a crate that have moved or are noisy
  draw      draw a trace, its lines and its tolerance band as SVG

A trace is text: a line for each sample with its tick (0 to 4294967295) and its
value (-32768 to 32767), between them a comma, a semicolon, a tab or spaces.
What follows a # is skipped, but for a line `# tolerance p/q` (record --help);
so are blank lines and a heading of words. A trace has 1 to 4,096 samples;
ticks rise; the last is at most 1,048,575 above the first.

A tolerance is p/q (2/3), counts (2 or 1.5, in steps of 1/64), or a channel's
noise and the multiple wanted (3.25x4). --above U --below D, in place of
--tolerance T, give it two parts, each written in one of these ways: a sample
above its line may be U above it, and one below its line D below it. Where they
differ, both are printed, U first: 2/1 16/1.

A gap limit (--gap) is from 1 to 1048575 ticks. Two neighbouring samples that
lie further apart are a hole: no link crosses it but the one between these two.

Without a file, or with -, standard input is read. Errors go to standard error
as `kovrelna: FILE: cause` or `kovrelna: FILE:LINE: cause`.

Exit status: 0 done (judge, check, same: yes; pedestals: nothing is listed), 1
judge, check or same says no, or pedestals lists a channel, 2 error, also,
without a word, where a pipe is closed before all is written. A closed standard
output (>&-) is not noticed: what is written there is lost.
";

pub const RECORD: &str = "\
Makes a record from a trace: keeps a few samples, so that the straight lines
between them pass all others within the tolerance.

Usage: kovrelna record TOLERANCE [--gap G] [-m METHOD] [-o FILE [-b]] [INPUT]
       kovrelna record [-o FILE [-b]] [INPUT]

TOLERANCE is -t T, or --above U --below D:

  -t, --tolerance T   p/q, counts, or noise x multiple: 2/3, 1.5, 3.25x4
      --above U       the part for samples above their line, written as T is
      --below D       the part for samples below their line
      --gap G         a link longer than one step crosses no two neighbouring
                      samples more than G ticks apart; default: no limit
  -m, --method M      walk (the default; one pass), gallop, or minimum (as few
                      samples as possible)
  -o, --output FILE   write to FILE instead of standard output (-); FILE is
                      replaced only when all is written, and other hard links
                      to it keep what they had; after kill -9 a new file
                      .kovrelna-* may be left beside it, until FILE is written
  -b, --budget        print what an error budget may say of the record: the
                      tolerance, and a paragraph to copy

Without a tolerance, INPUT has a line `# tolerance p/q`, or `# tolerance U D`
with two ratios, before its samples, as `kovrelna show` prints it, and every
sample is kept: show and record without options give the same record again.
Two equal ratios are taken as one. With a tolerance such a line is refused:
samples reduced at one tolerance and again at another are within the sum of
both only.

Exit status: 0 done, 2 error.
";

pub const SHOW: &str = "\
Prints records as text: a line `# tolerance p/q`, or `# tolerance U D` with two
ratios where the tolerance has two parts, then each sample's tick and value,
with a comma between. Before each of several records is a line with its name.
`kovrelna record` reads the text of one record back.

Usage: kovrelna show [FILE..]

After a faulty record the others are still printed.

Exit status: 0 done, 2 error.
";

pub const JUDGE: &str = "\
Says whether a list of samples is within a tolerance: prints `yes`, or `no at
link N, from sample I to J: CAUSE` with the first link that is invalid. CAUSE
is one of

  sample K at tick T lies p/q above the line
  sample K at tick T lies p/q below the line
  it crosses the hole from tick A to tick B, and its error is p/q

Of the samples that are farthest from the straight line between the link's
ends, K is the first, and p/q is its exact distance. A hole is named only if
every sample is within the tolerance. Samples and links are counted from 0; the
list begins with 0, rises, and ends with the last one. INPUT is the original
trace: samples with a line `# tolerance p/q` are refused.

Where the tolerance has two parts, the sample that is farthest from the line
may lie within its own part. It is named all the same, and a sample on the
other side is what makes the link invalid. CAUSE is then one of

  sample K at tick T lies p/q above the line, within U; another lies more
  than D below it
  sample K at tick T lies p/q below the line, within D; another lies more
  than U above it

each in one line.

With --greedy the question is whether the list obeys the size bound of the
lists of walk and gallop, however it was made: whether every link is valid, and
wherever one ends before the last sample, the link from its start to the sample
after its end is not. Walk's and gallop's lists pass always. The answer is
`yes` and a line to quote, which states the bound with its numbers; or `no at
link N, from sample I at tick S to sample J at tick T: FAULT` with the first
link at fault. FAULT is one of

  the link is invalid; kovrelna judge without --greedy says where it strays
  the stop is at fault, as the link from sample I to sample K at tick U is
  valid too

each in one line; K is the sample after J. An invalid link is named as such,
whatever the link to sample K is.

Usage: kovrelna judge TOLERANCE [--gap G] [--greedy] -l LIST [INPUT]
       kovrelna judge TOLERANCE [--gap G] [--greedy] -f FILE [INPUT]

TOLERANCE is -t T, or --above U --below D:

  -t, --tolerance T     p/q, counts, or noise x multiple: 2/3, 1.5, 3.25x4
      --above U         the part for samples above their line, written as T is
      --below D         the part for samples below their line
      --gap G           a link longer than one step crosses no two neighbouring
                        samples more than G ticks apart; default: no limit
  -l, --list LIST       samples, with commas between: 0,3,4
  -f, --list-file FILE  a file with the samples, with commas, spaces or line
                        ends between
      --greedy          ask whether the size bound of walk and gallop holds too

Exit status: 0 yes, 1 no, 2 error.
";

pub const CHECK: &str = "\
Says whether a record may stand for a trace, before the trace is erased: its
samples are samples of the trace, with the same values, the first and the last
among them, and every link is valid at the record's own tolerance, with both
its parts. No record has a gap limit: --gap asks for one here. Prints `yes`, or
`no: RECORD: cause` with the first sample or link that is wrong, and where the
link strays, as `kovrelna judge` does, whose help says what it means that the
sample lies within its own part. Samples and links are counted from 0. TRACE is
the original trace as text: samples with a line `# tolerance p/q` are refused.
One of the two may be - for standard input.

Usage: kovrelna check [--gap G] RECORD TRACE

      --gap G   a link longer than one step crosses no two neighbouring samples
                more than G ticks apart; default: no limit

Exit status: 0 yes, 1 no, 2 error (the record is faulty, TRACE is no trace, or
one of them cannot be read).
";

pub const SAME: &str = "\
Says whether two records are the same: their samples agree, and so do their
tolerances, with both parts. That is so exactly if their bytes agree. Prints
`yes`, or a line with what differs,

  no: the samples differ
  no: the tolerances differ
  no: the samples and the tolerances differ

and after it, where samples differ, a line with the first that differs or that
one of them lacks; where tolerances differ, a line with both. Samples are
counted from 0. One of the two may be - for standard input.

Usage: kovrelna same RECORD RECORD

Exit status: 0 yes, 1 no, 2 error (a record is faulty or cannot be read).
";

pub const MEASURE: &str = "\
Prints the measure of a link, the straight line from sample I of a trace to
sample J:

  error p/q    how far the samples between them are from the line at most
  sample K     the first sample that is so far from it
  tick T       its tick
  value V      its value
  side above   it lies above the line; `side below`: it lies below

Where every sample is on the line, or there is none between, the error is 0/1,
the sample is I and the side is `on`. Nothing is rounded. Samples are counted
from 0, as in the lists of `kovrelna judge`; J is above I. INPUT is the
original trace: samples with a line `# tolerance p/q` are refused.

Usage: kovrelna measure [INPUT] I J

Exit status: 0 done, 2 error.
";

pub const LEAST: &str = "\
Prints the least tolerance that a list of at most so many samples is within, as
`error p/q`, and the list that minimum keeps at it, as `list 0,3,4`. The trace
has at most 256 samples; samples with a line `# tolerance p/q` are refused.

With a gap limit only lists that obey it count. The shortest of them has both
ends of the trace and the two samples beside each hole; a lesser allowance is
refused.

Usage: kovrelna least -a ALLOWANCE [--gap G] [INPUT]

  -a, --allowance M   at most so many samples are kept, from 2 to 4096
      --gap G         a link longer than one step crosses no two neighbouring
                      samples more than G ticks apart; default: no limit

Exit status: 0 done, 2 error.
";

pub const NEAR: &str = "\
Prints how near the lists of walk and gallop are to the shortest: for each
trace, under a heading, its samples, how many of them walk, gallop and minimum
keep at the tolerance, how many minimum keeps at half of it, and the file; for
several traces also the total. No list within the tolerance has fewer samples
than minimum's, and walk and gallop keep at most as many as minimum at half the
tolerance; with a gap limit this is said of lists that obey it. Of a tolerance
with two parts, half is half of the smaller part, on either side of the lines.
Half of p/q is p over 2q; where no denominator so great is allowed, `-` stands
in its place. Samples with a line `# tolerance p/q` are refused.

Usage: kovrelna near TOLERANCE [--gap G] [FILE..]

TOLERANCE is -t T, or --above U --below D:

  -t, --tolerance T   p/q, counts, or noise x multiple: 2/3, 1.5, 3.25x4
      --above U       the part for samples above their line, written as T is
      --below D       the part for samples below their line
      --gap G         a link longer than one step crosses no two neighbouring
                      samples more than G ticks apart; default: no limit

After a faulty trace the others are still counted.

Exit status: 0 done, 2 error (also if one trace is faulty).
";

pub const PROBES: &str = "\
Prints how many probes gallop takes: for each trace, under a heading, its
samples, gallop's stops and probes, and the file; for several traces also the
total.

A stop is a kept sample after the first. One that advances by r samples takes
exactly 2 floor(log2 r) + 1 probes, the last stop of a trace too, and the total
is the sum of these. For s stops of a trace of n samples it is at most
s (2 floor(log2(n - 1)) + 1), and at most 2 (n - 1) - s, which is reached
exactly where no stop advances by more than 2 samples. One sample takes no
probe. Samples with a line `# tolerance p/q` are refused.

Usage: kovrelna probes TOLERANCE [--gap G] [FILE..]

TOLERANCE is -t T, or --above U --below D:

  -t, --tolerance T   p/q, counts, or noise x multiple: 2/3, 1.5, 3.25x4
      --above U       the part for samples above their line, written as T is
      --below D       the part for samples below their line
      --gap G         a link longer than one step crosses no two neighbouring
                      samples more than G ticks apart; default: no limit

After a faulty trace the others are still counted.

Exit status: 0 done, 2 error (also if one trace is faulty).
";

pub const SCAN: &str = "\
Scans a trace at 1 to 16 tolerances in one pass: prints, under a heading, a
line for each in the order given, with the tolerance, how many samples walk
keeps at it, and the bytes of the record of these. Tolerances may repeat.

Usage: kovrelna scan TOLERANCE.. [--gap G] [--csv] [INPUT]
       kovrelna scan TOLERANCE.. [--gap G] --draw [-o FILE] [INPUT]

TOLERANCE is -t T, or --above U --below D, which follow one another:

  -t, --tolerance T   p/q, counts, or noise x multiple: 2/3, 1.5, 3.25x4
      --above U       the part for samples above their line, written as T is
      --below D       the part for samples below their line
      --gap G         a link longer than one step crosses no two neighbouring
                      samples more than G ticks apart; default: no limit
      --csv           print CSV for a spreadsheet, with two columns for a
                      tolerance, one for the bound and, at the end, one for the
                      gap limit, if it is given; where a tolerance has two
                      parts, the two columns are for U and two more at the end
                      for D
      --draw          draw the kept numbers by tolerance as SVG instead, with
                      the bound of each; no tolerance may have two parts that
                      differ, as its place on the axis is one number
  -o, --output FILE   write the picture to FILE instead of standard output (-),
                      as `kovrelna draw` does

The bound is how many samples minimum keeps at half the tolerance, or half of
its smaller part, under the same gap limit: walk never keeps more. Half of p/q
is p over 2q; where no denominator so great is allowed, there is no bound, and
the picture says so. It has each tolerance once, and an axis whose numbers are
far apart is logarithmic. INPUT is the original trace: samples with a line
`# tolerance p/q` are refused.

Exit status: 0 done, 2 error.
";

pub const WATCH: &str = "\
Watches a trace grow: reads its samples as they come, each as soon as its line
is there, and shows a view of all samples so far. The view keeps the first, the
last and at most 2 K between them. Its error is at most twice the least error
of lists with at most K samples between both ends; no gap limit applies.

Usage: kovrelna watch [-k K] [INPUT]

  -k, --inner K   from 0 to 32; default: 8

On a terminal one line is redrawn: how many samples are kept of how many, the
least and the greatest value of these, the last value, and a plot of the lines
between them, from the first tick to the last and from the least value to the
greatest, as wide as the terminal. Where that is narrow, the first two numbers
and the plot; where the locale has no UTF-8, the plot is of .:-=+*#@, from low
to high.

Elsewhere a line is printed after each sample: how many there are so far, and
those that are kept, counted from 0, as `kovrelna judge --list` takes them:

  5 0,2,4

INPUT is read to its end; for a file that is still written, `tail -n +1 -f FILE
| kovrelna watch`. A signal, as by Ctrl-C, ends it as it ends other programs,
with the terminal in order. Where a line is no sample, a tick does not rise or
the samples are too many, it ends, and what was shown before stays. INPUT is
the original trace: samples with a line `# tolerance p/q` are refused.

Exit status: 0 done, 2 error.
";

pub const SUM: &str = "\
Adds two traces with the same ticks sample by sample, and joins what is kept of
them: A is reduced at the tolerance T1 and B at T2, under the same gap limit,
and the joined list has the samples that either list has. Prints

  samples N                     how many samples the summed trace has
  kept K, joined from I and J   of these, how many the joined list has, and how
                                many the lists of A and B have
  tolerance p/q                 2 (T1 + T2), or U1 + D1 + U2 + D2
  error p/q                     how far the samples are from the lines between
                                the joined ones at most

Of any two traces, the error is at most 2 (T1 + T2) and the joined list obeys
the gap limit, so that its record may have the tolerance 2 (T1 + T2). The error
may be above T1 + T2. Where a tolerance has two parts, the same is said of all
four added, U1 + D1 + U2 + D2: it is one tolerance, above the lines and below.
Where the denominator of 2 (T1 + T2) is above 1,048,575, the record has the
least allowed tolerance above it; where it is above 65,535, the record has
65535/1, as no error is more. The line then ends with `in place of`, the exact
sum and the cause. Nothing else is rounded.

Usage: kovrelna sum TOLERANCE [TOLERANCE2] [--gap G] [-m METHOD] [-o FILE]
                    [--trace FILE] A B

TOLERANCE is -t T1, or --above U1 --below D1; TOLERANCE2, for B, is
--tolerance2 T2, or --above2 U2 --below2 D2; default: that of A.

  -t, --tolerance T1    p/q, counts, or noise x multiple: 2/3, 1.5, 3.25x4
      --above U1        the part for samples above their line, written as T1 is
      --below D1        the part for samples below their line
      --tolerance2 T2, --above2 U2, --below2 D2
                        the same for B
      --gap G           a link longer than one step crosses no two neighbouring
                        samples more than G ticks apart; default: no limit
  -m, --method M        walk (the default), gallop or minimum
  -o, --output FILE     write a record of the joined samples to FILE, at this
                        tolerance; FILE is replaced as by `kovrelna record`
      --trace FILE      write the summed trace to FILE as text in the same way,
                        before the record

A and B are original traces: samples with a line `# tolerance p/q` are refused.
One of the two may be - for standard input. Where their ticks differ, one has
more samples, or a sum is not from -32768 to 32767, there is no answer.

Exit status: 0 done, 2 error.
";

pub const SUMMARY: &str = "\
Prints a line for each record, under a heading, with tabs between: samples,
span in ticks, tolerance, least and greatest value, bytes, file. A tolerance
with two parts has both in its field, U first, with a space between. The last
line is the total: samples, spans and bytes added, least and greatest of all
values, and the tolerance if all records have the same.

Usage: kovrelna summary [-b] [FILE..]

  -b, --budget   print what an error budget may say of all records: the
                 greatest tolerance, or the greatest part of each side, and a
                 paragraph to copy; nothing if a record is faulty

After a faulty record the others are still summarised.

Exit status: 0 done, 2 error (also if one record is faulty).
";

pub const REPORT: &str = "\
Prints the sheet of a crate of up to 64 channels: a line for each, with its
samples, how many of them walk keeps at the tolerance, the error of what is
kept, the worst sample, 0 or the number of a refusal, and the file; then the
totals, with the largest error. The worst sample is the first whose distance
from its line is the error, above the line or below it alike, counted from 0 in
its channel; where the error is 0 there is none.

Usage: kovrelna report TOLERANCE [--gap G] [--csv] [FILE..]

TOLERANCE is -t T, or --above U --below D:

  -t, --tolerance T   p/q, counts, or noise x multiple: 2/3, 1.5, 3.25x4
      --above U       the part for samples above their line, written as T is
      --below D       the part for samples below their line
      --gap G         a link longer than one step crosses no two neighbouring
                      samples more than G ticks apart; default: no limit
      --csv           print CSV for a spreadsheet, with two columns for a ratio
                      and, at the end, one for the gap limit, if it is given,
                      and two for D, if it is not U; where the error is 0, the
                      sample is 0

Each of several files is the trace of a channel; channels are counted from 0.
One file may have all of them, with the channel's number (0 to 4294967295) in a
third column: lines of a channel are in order, those of others may be between
them, and channels are printed by rising number.

A channel that is no trace is refused, which does not end the report: beside
zeros its line has the number 1 (no samples, or more than 4,096), 2 (a tick not
above the one before) or 3 (a span over 1,048,575 ticks), and the cause. Where
a file cannot be read, is no such text, or has a line `# tolerance p/q`, there
is no report.

Exit status: 0 done, 2 error.
";

pub const PEDESTALS: &str = "\
Compares two pedestal runs of a crate of up to 64 channels: prints a line for
each channel that has moved or is noisy, and a summary. A channel has moved if
the means of its values differ by more than the tolerance; it is noisy if the
width (standard deviation) of today's is more than K times that of yesterday's.
A channel at its limit is not listed: all is compared exactly. Means, widths
and limits are rounded to 1/1000 in print alone.

Usage: kovrelna pedestals -t TOLERANCE -k K [--csv] TODAY YESTERDAY
       kovrelna pedestals -t TOLERANCE -k K --draw [-o FILE] TODAY YESTERDAY

  -t, --tolerance T   p/q, counts, or noise x multiple: 2/3, 1.5, 3.25x4; one
                      for means that rise and fall: there is no --above and no
                      --below here
  -k, --noise K       so many times yesterday's width is allowed: 1 to 16
      --csv           print CSV for a spreadsheet: in place of what is rounded,
                      the samples, their sum and the sum of their squares
      --draw          draw both runs by channel as SVG instead: means, their
                      differences and widths, each with the band of its limits
  -o, --output FILE   write the picture to FILE instead of standard output (-),
                      as `kovrelna draw` does

TODAY and YESTERDAY are two files or two folders; a file may be - for standard
input. A file has all channels, with the channel's number (0 to 4294967295) in
a third column, as for `kovrelna report`; without that column it is channel 0.
A folder has a file for each channel: they are counted from 0 in the order of
their names, numbers in them by value (ch2 before ch10); hidden files (.name)
and folders in it are passed over.

A channel is compared with that of the same number or the same file name; their
ticks may differ. Where one of the runs lacks a channel, or a channel is no
trace, has not as many samples in both, or has a line `# tolerance p/q`, there
is no answer.

Exit status: 0 nothing is listed, 1 a channel is listed, 2 error.
";

pub const DRAW: &str = "\
Draws a trace with the lines that are kept of it and their tolerance band, as
SVG, and below it how far the trace is above or below the lines, in the same
band. Of a tolerance with two parts the band reaches U above the lines and D
below them. An arrowhead points at the worst sample, the first that is farthest
from its line, with the exact distance below, unless every sample is on the
lines. With a gap limit nothing but a line that is kept goes across a hole. Of
a record, or its text as `kovrelna show` prints it, the lines and the band are
drawn at its own tolerance; its holes are not known.

Usage: kovrelna draw TOLERANCE [--gap G] [-m METHOD] [OPTION..] [INPUT]
       kovrelna draw [OPTION..] [RECORD]

TOLERANCE is -t T, or --above U --below D:

  -t, --tolerance T   p/q, counts, or noise x multiple: 2/3, 1.5, 3.25x4
      --above U       the part for samples above their line, written as T is
      --below D       the part for samples below their line
      --gap G         a link longer than one step crosses no two neighbouring
                      samples more than G ticks apart; default: no limit
  -m, --method M      walk (the default), gallop or minimum
      --from TICK     draw what is kept of the whole trace from this tick on
      --to TICK       draw it up to this tick
  -o, --output FILE   write to FILE instead of standard output (-); FILE is
                      replaced only when all is written, and other hard links
                      to it keep what they had; after kill -9 a new file
                      .kovrelna-* may be left beside it, until FILE is written

Exit status: 0 done, 2 error.
";
