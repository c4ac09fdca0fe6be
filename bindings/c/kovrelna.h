/* Kovrelna: reduced traces. For C99, C++11 and later; link with libkovrelna.a or libkovrelna.so
 * (x86-64, System V ABI), as `pkg-config --cflags --libs kovrelna` says once they are installed.
 *
 * Contents, in order: version and bounds; refusals; tolerances; limits; links; lists; reductions;
 * scans; live views; sums; crates; range codes; records.
 *
 * A trace is two lists of equal length: ticks and values (ADC counts). It has 1 to 4,096 samples,
 * numbered from 0. Ticks rise strictly; the last minus the first is at most 1,048,575.
 *
 * A link goes from sample i to a later sample j. Its deviation at a sample k between them is the
 * vertical distance from value k to the straight line through samples i and j, an exact fraction.
 * The link's error is the greatest of these, 0 where nothing lies between.
 *
 * A tolerance has two parts, U for samples above the line and D for those below it; one tolerance
 * means both. A link is within it if each sample between that lies above the line lies at most U
 * above it, and each that lies below at most D below it; equality is within. With equal parts that
 * is so exactly if the link's error is at most the tolerance.
 *
 * A hole is two neighbouring samples that lie more ticks apart than the gap limit. A link obeys the
 * gap limit if it goes one step, from sample i to i+1, or crosses no hole. It is valid if it obeys
 * the gap limit and is within the tolerance. So a link of one step is always valid, and a longer one
 * never if it crosses a hole.
 *
 * A kept list begins with sample 0, rises strictly and ends with the last sample. Its links join
 * neighbouring entries and are counted from 0.
 *
 * For every call:
 * - A list is passed as a pointer to its first element, then the number of elements. The pointer is
 *   aligned for its element and valid for that many elements. Of an empty list nothing is read or
 *   written, and the pointer may be null.
 * - An output overlaps no other list. All other lists are only read.
 * - Any content is allowed: what does not fit is refused with a number, as listed below.
 * - Nothing is allocated and nothing is kept after the call returns. There is no global state: calls
 *   may run at the same time on any threads.
 * - kovrelna_minimum, kovrelna_least and kovrelna_report take up to 18 KiB of stack, kovrelna_scan
 *   up to 4 KiB, every other call under 1 KiB.
 */
#ifndef KOVRELNA_H
#define KOVRELNA_H

#include <stddef.h>
#include <stdint.h>

#ifdef __cplusplus
extern "C" {
#endif

/* ---- Version and bounds ---- */

#define KOVRELNA_VERSION_MAJOR 0
#define KOVRELNA_VERSION_MINOR 1
#define KOVRELNA_VERSION_PATCH 0
#define KOVRELNA_VERSION "0.1.0"

/* The most samples of a trace, and of one for kovrelna_least. */
#define KOVRELNA_SAMPLES_MAX 4096
#define KOVRELNA_LEAST_SAMPLES_MAX 256
/* The most tolerances of a scan. */
#define KOVRELNA_TOLERANCES_MAX 16
/* The largest k of a view, and the most samples that one keeps: 2 k + 2 at the largest k. */
#define KOVRELNA_VIEW_K_MAX 32
#define KOVRELNA_VIEW_SAMPLES_MAX 66
/* The most channels of a crate. */
#define KOVRELNA_CHANNELS_MAX 64
/* The largest gap limit, which is none: no two samples of a trace lie further apart. */
#define KOVRELNA_GAP_MAX 1048575
/* The most bytes of a record of so many samples, from 1 on, and of any record: 24,597. With equal
 * parts of the tolerance it is 8 fewer. */
#define KOVRELNA_RECORD_BYTES(samples) (21 + 6 * (samples))
#define KOVRELNA_RECORD_MAX KOVRELNA_RECORD_BYTES(KOVRELNA_SAMPLES_MAX)

/* ---- Refusals ----
 *
 * Each answer has a number, 0 if the call succeeded, and a value. A call checks the rows that
 * concern it in rising number, only 14 and then 11 before all others, 12 right after 1, 20 right
 * after 3, 19 right before 4, 15 right after 4 (in kovrelna_least right after 3) and 16 right after
 * 5, and answers with the first that fits; in kovrelna_pedestals 1, 2, 3 and 13 come after 4, channel
 * by channel, and in kovrelna_sum 1, 2, 3 of trace 1 come before those of trace 2, and 10 last. A
 * refused call leaves every list, buffer and view as it was.
 */
enum kovrelna_refusal {
  /* No samples or codes, too many, or ticks and values differ in length. Value: 0; in
   * kovrelna_pedestals the channel. */
  KOVRELNA_REFUSED_LENGTH = 1,
  /* A tick is not above the one before. Value: the first such sample; in kovrelna_pedestals the
   * channel. */
  KOVRELNA_REFUSED_TICK = 2,
  /* The span is too long. Value: the first sample more than 1,048,575 ticks after sample 0; in
   * kovrelna_pedestals the channel. */
  KOVRELNA_REFUSED_SPAN = 3,
  /* The tolerance or one of its parts is not allowed; in kovrelna_pedestals also parts that differ.
   * Value: 0; in kovrelna_scan the position of the first such tolerance. */
  KOVRELNA_REFUSED_TOLERANCE = 4,
  /* The allowance is below 2 or above 4,096. Value: 0. */
  KOVRELNA_REFUSED_ALLOWANCE = 5,
  /* The proposed list is no kept list. Value: the position of the first bad entry (a first one that
   * is not 0, one that is not above the entry before it, one beyond the trace); the list's length if
   * it only stops short; 0 if it is empty. In kovrelna_measure the two samples are no link of the
   * trace. Value: 0 if i is beyond it; 1 if j is beyond it or not above i. */
  KOVRELNA_REFUSED_LIST = 6,
  /* The list to be written has an invalid link. Value: the position of the first. */
  KOVRELNA_REFUSED_LINK = 7,
  /* The record is faulty. Value: the fault's byte. */
  KOVRELNA_REFUSED_RECORD = 8,
  /* The second record of a comparison is faulty. Value: the fault's byte. */
  KOVRELNA_REFUSED_SECOND_RECORD = 9,
  /* The output is too short. Value: the entries or bytes needed. */
  KOVRELNA_REFUSED_ROOM = 10,
  /* There are no channels, more than 64, or their lengths do not add up to the length of ticks and
   * to that of values; or two runs have unequal channel counts. Value: 0. */
  KOVRELNA_REFUSED_CRATE = 11,
  /* The range table does not have 256 values, or does not rise. Value: 0 without 256 values, else
   * the first code whose value is not above the one before. */
  KOVRELNA_REFUSED_TABLE = 12,
  /* Two runs differ in a channel's number of samples. Value: the channel. */
  KOVRELNA_REFUSED_SAMPLES = 13,
  /* The noise factor is below 1 or above 16. Value: 0. */
  KOVRELNA_REFUSED_FACTOR = 14,
  /* The gap limit is below 1 or above 1,048,575. Value: 0. */
  KOVRELNA_REFUSED_GAP = 15,
  /* Every kept list that obeys the gap limit has more samples than the allowance. Value: 0. */
  KOVRELNA_REFUSED_HOLES = 16,
  /* The ticks of two traces differ. Value: the first sample whose ticks differ or that one of the
   * traces does not have. */
  KOVRELNA_REFUSED_MISMATCH = 17,
  /* A sum is below -32,768 or above 32,767. Value: its sample. */
  KOVRELNA_REFUSED_OVERFLOW = 18,
  /* There are no tolerances, or more than 16. Value: 0. */
  KOVRELNA_REFUSED_COUNT = 19,
  /* k of a view is above 32, or its state is no view of the samples before the new one. Value: 0. */
  KOVRELNA_REFUSED_VIEW = 20
};

/* The cause in words, for a message; "none" for a number that is no refusal's. */
static inline const char *kovrelna_cause(uint32_t number) {
  switch (number) {
  case KOVRELNA_REFUSED_LENGTH:
    return "no samples or codes, too many (for least, over 256), or list lengths differ";
  case KOVRELNA_REFUSED_TICK:
    return "a tick not above the one before";
  case KOVRELNA_REFUSED_SPAN:
    return "span over 1,048,575 ticks";
  case KOVRELNA_REFUSED_TOLERANCE:
    return "tolerance not allowed";
  case KOVRELNA_REFUSED_ALLOWANCE:
    return "allowance below 2 or above 4,096";
  case KOVRELNA_REFUSED_LIST:
    return "proposed list no kept list, or two samples that are no link of the trace";
  case KOVRELNA_REFUSED_LINK:
    return "list to be written has an invalid link";
  case KOVRELNA_REFUSED_RECORD:
    return "record faulty";
  case KOVRELNA_REFUSED_SECOND_RECORD:
    return "second record of a comparison faulty";
  case KOVRELNA_REFUSED_ROOM:
    return "output too short";
  case KOVRELNA_REFUSED_CRATE:
    return "no channels, more than 64, lengths that do not add up to the lists, or two runs with "
           "unequal channel counts";
  case KOVRELNA_REFUSED_TABLE:
    return "a range table that does not have 256 values, or does not rise";
  case KOVRELNA_REFUSED_SAMPLES:
    return "two runs differ in a channel's number of samples";
  case KOVRELNA_REFUSED_FACTOR:
    return "noise factor below 1 or above 16";
  case KOVRELNA_REFUSED_GAP:
    return "gap limit below 1 or above 1,048,575";
  case KOVRELNA_REFUSED_HOLES:
    return "every list that obeys the gap limit has more samples than the allowance";
  case KOVRELNA_REFUSED_MISMATCH:
    return "ticks of two traces differ";
  case KOVRELNA_REFUSED_OVERFLOW:
    return "a sum below -32,768 or above 32,767";
  case KOVRELNA_REFUSED_COUNT:
    return "no tolerances, or more than 16";
  case KOVRELNA_REFUSED_VIEW:
    return "k of a view above 32, or a state that is no view of the earlier samples";
  default:
    return "none";
  }
}

/* number 0: value is what the call says. Otherwise: the refusal's number and value. */
typedef struct kovrelna_answer {
  uint32_t number;
  uint64_t value;
} kovrelna_answer;

/* ---- Tolerances ---- */

enum kovrelna_form {
  KOVRELNA_FORM_RATIO = 0,
  KOVRELNA_FORM_COUNTS = 1,
  KOVRELNA_FORM_NOISE = 2,
  KOVRELNA_FORM_PARTS = 3
};

/* A tolerance in one of four forms. Fields that its form does not name are not read.
 *
 * form 0, ratio:  p/q; q from 1 to 1,048,575, p from 0 to 65,535 times q.
 * form 1, counts: x; from 0 to 65,535, and 64 times x is whole.
 * form 2, noise:  x times y, exactly; the noise x is from 0 to 1,023 and 64 times x is whole, the
 *                 multiple y is from 0 to 63 and 8 times y is whole.
 * form 3, parts:  p/q for samples above the line, below_p/below_q for those below it; each as in
 *                 form 0. They may be equal.
 *
 * Forms 0 to 2 give one tolerance, which is both parts. Minus zero is zero. All else is refused as 4:
 * other numbers, in either part; not-a-number, infinities, any other form.
 */
typedef struct kovrelna_tolerance {
  uint64_t form;
  uint64_t p;
  uint64_t q;
  double x;
  double y;
  uint64_t below_p;
  uint64_t below_q;
} kovrelna_tolerance;

/* The tolerance p/q. */
static inline kovrelna_tolerance kovrelna_ratio(uint64_t p, uint64_t q) {
  kovrelna_tolerance tolerance = {KOVRELNA_FORM_RATIO, p, q, 0.0, 0.0, 0, 0};
  return tolerance;
}

/* The tolerance of so many counts. */
static inline kovrelna_tolerance kovrelna_counts(double counts) {
  kovrelna_tolerance tolerance = {KOVRELNA_FORM_COUNTS, 0, 0, counts, 0.0, 0, 0};
  return tolerance;
}

/* The tolerance of a channel's noise times the multiple wanted. */
static inline kovrelna_tolerance kovrelna_noise(double noise, double multiple) {
  kovrelna_tolerance tolerance = {KOVRELNA_FORM_NOISE, 0, 0, noise, multiple, 0, 0};
  return tolerance;
}

/* The tolerance of p/q for samples above the line and below_p/below_q for those below it. */
static inline kovrelna_tolerance kovrelna_parts(uint64_t p, uint64_t q, uint64_t below_p,
                                                uint64_t below_q) {
  kovrelna_tolerance tolerance = {KOVRELNA_FORM_PARTS, p, q, 0.0, 0.0, below_p, below_q};
  return tolerance;
}

/* number 0: p/q is the part above and below_p/below_q the part below, each in lowest terms (zero is
 * 0/1), and value is 0. So the parts are equal exactly if p is below_p and q is below_q.
 * Otherwise: the refusal's number and value; all else is 0. */
typedef struct kovrelna_held {
  uint32_t number;
  uint64_t value;
  uint64_t p;
  uint64_t q;
  uint64_t below_p;
  uint64_t below_q;
} kovrelna_held;

/* The tolerance as the two reduced ratios under which it is held. Refusal: 4. */
kovrelna_held kovrelna_hold(kovrelna_tolerance tolerance);

/* ---- Limits ---- */

/* What a link is asked to meet: a tolerance, with both its parts, and a gap limit from 1 to 1,048,575
 * ticks. Exactly so many ticks apart is no hole. Other gap limits are refused as 15. */
typedef struct kovrelna_limits {
  kovrelna_tolerance tolerance;
  uint32_t gap;
} kovrelna_limits;

/* A tolerance and a gap limit; KOVRELNA_GAP_MAX is none. */
static inline kovrelna_limits kovrelna_limited(kovrelna_tolerance tolerance, uint32_t gap) {
  kovrelna_limits limits = {tolerance, gap};
  return limits;
}

/* ---- Links ---- */

/* Where a sample lies beside a link: on its line, above it or below it. The gap is said of links by
 * kovrelna_judge alone. */
enum kovrelna_side {
  KOVRELNA_SIDE_ON = 0,
  KOVRELNA_SIDE_ABOVE = 1,
  KOVRELNA_SIDE_BELOW = 2,
  KOVRELNA_SIDE_GAP = 3
};

/* The side in a word, for a message: "on", "above", "below", "gap"; "none" for a number that is no
 * side's. */
static inline const char *kovrelna_side_name(uint32_t side) {
  switch (side) {
  case KOVRELNA_SIDE_ON:
    return "on";
  case KOVRELNA_SIDE_ABOVE:
    return "above";
  case KOVRELNA_SIDE_BELOW:
    return "below";
  case KOVRELNA_SIDE_GAP:
    return "gap";
  default:
    return "none";
  }
}

/* number 0: p/q is the link's error in lowest terms (zero is 0/1), sample and side are what the call
 * says, and value is 0.
 * Otherwise: the refusal's number and value; all else is 0. */
typedef struct kovrelna_measured {
  uint32_t number;
  uint32_t side;
  uint64_t value;
  uint64_t p;
  uint64_t q;
  uint64_t sample;
} kovrelna_measured;

/* The measure of the link from sample i to sample j: its error, the first sample between them whose
 * deviation is that error, and whether this sample lies above or below the line. An error of 0 gives
 * the sample i and "on". Refusals: 1, 2, 3, 6. */
kovrelna_measured kovrelna_measure(const uint32_t *ticks, size_t ticks_len,
                                   const int16_t *values, size_t values_len,
                                   size_t i, size_t j);

/* ---- Lists ---- */

/* number 0: passed is 1 for yes; value and all else is 0. Passed is 0 for no; value is the position
 * of the first invalid link, and p/q, sample and side say where it strays.
 * Otherwise: the refusal's number and value; all else is 0. */
typedef struct kovrelna_judged {
  uint32_t number;
  uint32_t passed;
  uint64_t value;
  uint64_t p;
  uint64_t q;
  uint64_t sample;
  uint32_t side;
} kovrelna_judged;

/* Whether every link of the proposed list is valid on this trace. If not, of the first invalid
 * link: where it is not within the tolerance, its measure, as kovrelna_measure gives it; otherwise
 * only the gap limit makes it invalid, the side is KOVRELNA_SIDE_GAP, p/q is its error, which may
 * be 0, and the sample is the one before its first hole.
 *
 * The measure is of the plain distance, the same above and below. So with unequal parts the sample
 * that it names may lie within its own part, where another that is nearer to the line lies on the
 * other side and outside the part there. With ticks 0 1 2 3, values 1 0 1 -1, the part above 5 and
 * the part below 0, the list 0 3 is a no at link 0 with 4/3, sample 2 and "above", though only
 * sample 1, below by 1/3, makes the link invalid. With equal parts the sample named is outside the
 * tolerance.
 *
 * Refusals: 1, 2, 3, 4, 15, 6. */
kovrelna_judged kovrelna_judge(const uint32_t *ticks, size_t ticks_len,
                               const int16_t *values, size_t values_len,
                               const uint16_t *list, size_t list_len,
                               kovrelna_limits limits);

/* What kovrelna_judge_greedy finds at fault: a link, which is invalid, or the stop at its end. */
enum kovrelna_fault {
  KOVRELNA_FAULT_NONE = 0,
  KOVRELNA_FAULT_LINK = 1,
  KOVRELNA_FAULT_STOP = 2
};

/* The fault in a word, for a message: "link", "stop"; "none" for a number that is no fault's. */
static inline const char *kovrelna_fault_name(uint32_t fault) {
  switch (fault) {
  case KOVRELNA_FAULT_LINK:
    return "link";
  case KOVRELNA_FAULT_STOP:
    return "stop";
  default:
    return "none";
  }
}

/* number 0: passed is 1 for yes; value and fault are 0. Passed is 0 for no; value is the position of
 * the first link at fault, and fault says which.
 * Otherwise: the refusal's number and value; passed and fault are 0. */
typedef struct kovrelna_judged_greedy {
  uint32_t number;
  uint32_t passed;
  uint64_t value;
  uint32_t fault;
} kovrelna_judged_greedy;

/* Whether every link of the proposed list is valid on this trace, and each stop but the last sample is
 * followed by an invalid link from the same start: where a link goes from sample i to sample j, and j
 * is not the last sample, the link from i to j+1 is invalid. Sample j+1 need not be kept. If not, the
 * first link at fault: with KOVRELNA_FAULT_LINK if it is invalid itself, whatever the link to the next
 * sample is, otherwise with KOVRELNA_FAULT_STOP. A no carries no measure: kovrelna_judge and
 * kovrelna_measure give that of an invalid link.
 *
 * A list that passes, however it was made, has at most as many samples as any kept list of the trace
 * that obeys the gap limit and whose links have every sample at most a above and at most b below
 * their lines, for all fractions a and b, neither below 0, whose sum is at most the smaller of U and
 * D. The lists of kovrelna_walk and kovrelna_gallop always pass; those of kovrelna_minimum need not. A
 * list that passes here passes kovrelna_judge too.
 *
 * Refusals: 1, 2, 3, 4, 15, 6. */
kovrelna_judged_greedy kovrelna_judge_greedy(const uint32_t *ticks, size_t ticks_len,
                                             const int16_t *values, size_t values_len,
                                             const uint16_t *list, size_t list_len,
                                             kovrelna_limits limits);

/* ---- Reductions ----
 *
 * Each finds a kept list of the trace. The value is the kept number, and the first that many entries
 * of out are the kept list; the entries after them are as they were. The output needs as many
 * entries as the trace has samples, however many are kept; 10 returns that number.
 *
 * Walk, gallop and minimum find one with every link valid. Refusals: 1, 2, 3, 4, 15, 10.
 *
 * The lists of walk and gallop have at most as many samples as any kept list that obeys the gap
 * limit and whose links have every sample at most a above and at most b below their lines, for all
 * fractions a and b, neither below 0, whose sum is at most the smaller of U and D. With equal parts,
 * and a and b each half of them: at most as many as any kept list whose links are all valid at half
 * the tolerance under the same gap limit. A list that does not obey the gap limit may have fewer, and
 * so may one within U/2 and D/2 where U and D differ.
 */

/* An answer, with the probe total; probes is 0 with a refusal. */
typedef struct kovrelna_galloped {
  uint32_t number;
  uint64_t value;
  uint64_t probes;
} kovrelna_galloped;

/* From sample i, beginning with 0, tests the links to i+1, i+2, ... and keeps the sample before the
 * first invalid one, or the last sample if none is invalid; goes on from there. */
kovrelna_answer kovrelna_walk(const uint32_t *ticks, size_t ticks_len,
                              const int16_t *values, size_t values_len,
                              kovrelna_limits limits,
                              uint16_t *out, size_t out_len);

/* From sample i, beginning with 0, probes the links to i+2, i+4, i+8, ... until one is invalid. Low
 * is the last valid offset, or 1; high is the invalid one. While low < high - 1, probes the offset
 * (low + high) / 2, rounded down, and moves low there if that link is valid, high if not. Keeps
 * sample i + low and goes on from there. A probe past the last sample is invalid, and counts.
 *
 * A stop is a kept sample after the first. One that advances by r samples takes exactly
 * 2 floor(log2 r) + 1 probes, the last stop too, and the total is the sum of these. For s stops of a
 * trace of n samples it is at most s (2 floor(log2(n - 1)) + 1), and at most 2 (n - 1) - s, which is
 * reached exactly where no stop advances by more than 2 samples. One sample takes no probe. */
kovrelna_galloped kovrelna_gallop(const uint32_t *ticks, size_t ticks_len,
                                  const int16_t *values, size_t values_len,
                                  kovrelna_limits limits,
                                  uint16_t *out, size_t out_len);

/* The kept list of valid links with fewest samples. Of several, the one whose second sample is
 * latest, then its third, and so on. */
kovrelna_answer kovrelna_minimum(const uint32_t *ticks, size_t ticks_len,
                                 const int16_t *values, size_t values_len,
                                 kovrelna_limits limits,
                                 uint16_t *out, size_t out_len);

/* number 0: value is the kept number and p/q is the list's error in lowest terms (zero is 0/1).
 * Otherwise: the refusal's number and value; p and q are 0. */
typedef struct kovrelna_closest {
  uint32_t number;
  uint64_t value;
  uint64_t p;
  uint64_t q;
} kovrelna_closest;

/* The least error over the kept lists of at most `allowance` samples that obey the gap limit, with
 * the list of kovrelna_minimum at that error as the tolerance, in both parts, under the same gap
 * limit. No kept list of this trace that obeys it and has at most so many samples has a lesser
 * error. An error is the plain distance, the same above and below. The trace has at most 256
 * samples.
 *
 * Refusals: 1 (also for more than 256 samples), 2, 3, 15, 5, 16, 10. The shortest kept list that
 * obeys the gap limit has both ends of the trace and the two samples beside each hole; 16 is refused
 * exactly if it has more than `allowance` samples. */
kovrelna_closest kovrelna_least(const uint32_t *ticks, size_t ticks_len,
                                const int16_t *values, size_t values_len,
                                uint32_t gap, uint64_t allowance,
                                uint16_t *out, size_t out_len);

/* ---- Scans ---- */

/* The tolerances of a scan: the first `count` of `list`, 1 to 16. The others are not read. */
typedef struct kovrelna_tolerances {
  uint64_t count;
  kovrelna_tolerance list[KOVRELNA_TOLERANCES_MAX];
} kovrelna_tolerances;

/* So many tolerances. Of more than 16 it has the first 16 with the whole count, so that they are
 * refused as 19. */
static inline kovrelna_tolerances kovrelna_tolerances_of(const kovrelna_tolerance *list,
                                                         size_t count) {
  kovrelna_tolerances tolerances = {count, {{0, 0, 0, 0.0, 0.0, 0, 0}}};
  size_t k;
  for (k = 0; k < count && k < KOVRELNA_TOLERANCES_MAX; k++) tolerances.list[k] = list[k];
  return tolerances;
}

/* number 0: kept[a] is the kept number at tolerance a, and 0 from the number of tolerances on; value
 * is 0.
 * Otherwise: the refusal's number and value; kept is 0 throughout. */
typedef struct kovrelna_scanned {
  uint32_t number;
  uint64_t value;
  uint64_t kept[KOVRELNA_TOLERANCES_MAX];
} kovrelna_scanned;

/* What kovrelna_walk keeps at each of 1 to 16 tolerances under one gap limit, found in a single pass
 * over the trace. The tolerances may repeat, and come in any order and in any form, each with parts
 * of its own.
 *
 * The lists lie one after another in out, each in a part with an entry for each sample: for a trace
 * of n samples the entries from a n on, kept[a] of them, are the list of kovrelna_walk at tolerance
 * a. All other entries are as they were: the rest of each part, and what lies behind the last part.
 *
 * In the pass, once sample j has been taken in, from sample 1 on, the samples kept so far with sample
 * j as the last are the lists of kovrelna_walk of samples 0 to j.
 *
 * Refusals, in this order: 1, 2, 3; 19; 4 with the position of the first tolerance that is not
 * allowed, for either part; 15; 10 with the number of tolerances times that of samples, which is
 * how many entries out needs. */
kovrelna_scanned kovrelna_scan(const uint32_t *ticks, size_t ticks_len,
                               const int16_t *values, size_t values_len,
                               kovrelna_tolerances tolerances, uint32_t gap,
                               uint16_t *out, size_t out_len);

/* ---- Live views ----
 *
 * A live view keeps a few samples of a trace while it grows: with k from 0 to 32, both ends and at
 * most 2 k inner samples, those between the ends. It is begun from k alone, and each new sample is
 * added to it in place.
 */

/* The state of a view: its kept list is the first `count` entries of `samples`. The entries behind
 * the list mean nothing, and additions leave them as they were. A state is plain data, 140 bytes
 * without padding: a caller may copy it, save it and restore it. */
typedef struct kovrelna_view {
  uint32_t k;
  uint32_t count;
  uint16_t samples[KOVRELNA_VIEW_SAMPLES_MAX];
} kovrelna_view;

/* number 0: the view; value is 0.
 * Otherwise: the refusal's number and value; view is 0 throughout, which every addition refuses. */
typedef struct kovrelna_begun {
  uint32_t number;
  uint64_t value;
  kovrelna_view view;
} kovrelna_begun;

/* Begins a view: this k and the list 0, which is the view of the first sample. All entries of its
 * samples are 0. Refusal: 20 if k is above 32. */
kovrelna_begun kovrelna_view_begin(uint64_t k);

/* Adds a new sample to the view of the samples before it. The trace has all of these, with the new
 * sample last, so that the first addition is lent two samples. The value is 0.
 *
 * The new sample is put at the end of the list. If that makes 2 k + 1 inner samples, the one whose
 * neighbours in the list have the link with the least error is dropped, the earliest among equals:
 * so the new sample never is, and the one before it, the last until then, may be. No gap limit and
 * no tolerance applies: an error is the plain distance, the same above and below.
 *
 * For a view that was begun on the first sample and changed only by additions, with k and the earlier
 * samples unaltered, the list's error, that of its worst link, is at most twice that of every kept
 * list of the trace with at most k inner samples; so it is at most twice the error of kovrelna_least
 * with the allowance k + 2 and no gap limit, for as many samples as that takes. For a state set by
 * hand there is no such bound.
 *
 * An addition checks every tick that it is lent and, where it drops a sample, looks at each sample at
 * most twice: its time grows in proportion to the number of samples lent. So a whole trace of n
 * samples, added one by one, takes time in proportion to n squared.
 *
 * The view overlaps neither list; the pointer is aligned, and valid for one state.
 *
 * Refusals, in this order: 1, 2, 3 of the trace with the new sample; 20 if k is above 32, if the list
 * is no kept list of the samples before the new one (a count of 0 or above 66 is none, and of a trace
 * of one sample there is none), or if it has more than 2 k inner samples. A refused addition leaves
 * every byte of the state as it was. */
kovrelna_answer kovrelna_view_add(kovrelna_view *view,
                                  const uint32_t *ticks, size_t ticks_len,
                                  const int16_t *values, size_t values_len);

/* ---- Sums ---- */

/* Adds two traces with the same ticks sample by sample, and joins their two kept lists into the
 * rising list of the samples in either, each once. The sums are the values of the summed trace, whose
 * ticks are those of either trace; the joined list is a kept list of it. The value is its kept
 * number. Written are the first entries of sums, one for each sample, and of joined, as many as the
 * kept number; the entries after them are as they were.
 *
 * If every link of list 1 is valid on trace 1 at parts U1 above and D1 below, and every link of
 * list 2 on trace 2 at U2 and D2, under the same gap limit, then every link of the joined list is
 * valid on the summed trace at U1 + D1 + U2 + D2, above and below alike, under that gap limit. With
 * equal parts T1 and T2 that is 2 (T1 + T2). This holds for any fractions, whether they are allowed
 * as tolerances or not. It does not hold at U1 + U2 above and D1 + D2 below: with equal parts, not
 * at T1 + T2.
 *
 * Refusals, in this order: 1, 2, 3 of trace 1; 1, 2, 3 of trace 2; 6 of list 1, for trace 1; 6 of
 * list 2, for trace 2; 17; 18; last 10 with the number of samples, as each output needs an entry for
 * each. */
kovrelna_answer kovrelna_sum(const uint32_t *ticks1, size_t ticks1_len,
                             const int16_t *values1, size_t values1_len,
                             const uint32_t *ticks2, size_t ticks2_len,
                             const int16_t *values2, size_t values2_len,
                             const uint16_t *list1, size_t list1_len,
                             const uint16_t *list2, size_t list2_len,
                             int16_t *sums, size_t sums_len,
                             uint16_t *joined, size_t joined_len);

/* ---- Crates ----
 *
 * A crate has 1 to 64 channels, each with a trace of its own. The traces come end to end in two
 * lists, ticks and values; the list of lengths has the number of samples of each channel.
 */

/* A channel's row. number 0: its samples, the kept number of kovrelna_walk, the error p/q of walk's
 * list in lowest terms (zero is 0/1), and the sample where that error occurs first: that of the
 * measure of the first link whose error is p/q, numbered in the channel's own trace; 0 where there
 * is no link. The error is the plain distance, the same above and below: at most the greater part of
 * the tolerance. Otherwise the channel's trace is refused as 1, 2 or 3: number says which, p/q is
 * 0/1, and all else is 0. */
typedef struct kovrelna_summary {
  size_t samples;
  size_t kept;
  uint64_t p;
  uint64_t q;
  size_t sample;
  uint32_t number;
} kovrelna_summary;

/* number 0: the sums of the rows' samples and kept numbers and the greatest of their errors, p/q
 * (zero is 0/1); value is 0.
 * Otherwise: the refusal's number and value; all else is 0. */
typedef struct kovrelna_totals {
  uint32_t number;
  uint64_t value;
  uint64_t samples;
  uint64_t kept;
  uint64_t p;
  uint64_t q;
} kovrelna_totals;

/* Reports on a crate: the first entries of out are the rows, one for each channel; the entries after
 * them are as they were. A row depends on its channel's trace and on the limits, on nothing else in
 * the crate. Refusals: 11, before all others; 4; 15; 10 with the number of channels. A channel whose
 * trace is refused, such as one of no samples or of more than 4,096, has its number in its row, and
 * the call goes on. */
kovrelna_totals kovrelna_report(const uint32_t *ticks, size_t ticks_len,
                                const int16_t *values, size_t values_len,
                                const size_t *lengths, size_t lengths_len,
                                kovrelna_limits limits,
                                kovrelna_summary *out, size_t out_len);

/* number 0: how many channels have moved and how many are noisy; value is 0.
 * Otherwise: the refusal's number and value; moved and noisy are 0. */
typedef struct kovrelna_compared {
  uint32_t number;
  uint64_t value;
  uint64_t moved;
  uint64_t noisy;
} kovrelna_compared;

/* Compares two pedestal runs of a crate channel by channel: run 1, today's, and run 2, one before.
 * Each has lists of its own; the ticks of the two need not agree.
 *
 * A channel has n samples in either run; S is their sum and Q the sum of their squares. At one
 * tolerance p/q it has moved if |S1 - S2| times q exceeds p times n: its means S/n differ by more
 * than p/q. It is noisy if n Q1 - S1 squared exceeds k squared times (n Q2 - S2 squared): its
 * standard deviation is more than k times that of run 2. Equality is neither.
 *
 * The first entries of moved are exactly the channels that have moved, and those of noisy exactly
 * the noisy ones, counted from 0, in channel order; the entries after them are as they were.
 *
 * Refusals, in this order: 14 if k is below 1 or above 16; 11 for either run, or if the runs have
 * unequal channel counts; 4, also for a tolerance whose parts differ; then for channel 0, 1, ... in
 * turn 1, 2 or 3 if its trace in run 1 is refused, then the same of run 2, then 13 if the runs
 * differ in its number of samples, each with the channel as its value; last 10 with the number of
 * channels, as each output needs an entry for each. */
kovrelna_compared kovrelna_pedestals(const uint32_t *ticks1, size_t ticks1_len,
                                     const int16_t *values1, size_t values1_len,
                                     const size_t *lengths1, size_t lengths1_len,
                                     const uint32_t *ticks2, size_t ticks2_len,
                                     const int16_t *values2, size_t values2_len,
                                     const size_t *lengths2, size_t lengths2_len,
                                     kovrelna_tolerance tolerance, uint64_t k,
                                     uint16_t *moved, size_t moved_len,
                                     uint16_t *noisy, size_t noisy_len);

/* ---- Range codes ----
 *
 * A code is one byte, 32 e + m with m below 32; its value is 2^e times (m + 32), minus 32. Every
 * code is legal.
 */

/* Writes the value of each code. The value of the answer is the number of values written, one for
 * each code; the entries of out after them are as they were. Refusals: 1 if there are no codes or
 * more than 4,096; 10 with the number of values. */
kovrelna_answer kovrelna_expand(const uint8_t *codes, size_t codes_len,
                                int16_t *out, size_t out_len);

/* The same with a range table of the caller's own in place of the values above: code c has the
 * value table[c]. The table has 256 values, of any sign, each above the one before. All of it is
 * checked at each call, whatever codes occur. An empty table is refused too: it does not mean the
 * values above. Refusals: 1 if there are no codes or more than 4,096; 12; 10 with the number of
 * values. */
kovrelna_answer kovrelna_expand_with(const uint8_t *codes, size_t codes_len,
                                     const int16_t *table, size_t table_len,
                                     int16_t *out, size_t out_len);

/* ---- Records ----
 *
 * A record holds a tolerance and the kept samples of a trace. It consists of commands of one byte,
 * here hexadecimal, with fixed operands, high byte first, signed ones in two's complement:
 *
 * 54  tolerance with equal parts: p (5 bytes), q (3)
 * 42  tolerance with unequal parts: p (5), q (3) of the part above, then p (5), q (3) of that below
 * 41  first sample: tick (4), value (2)
 * 53  short step: advance (1, from 1), change of value (1, signed)
 * 4C  long step: advance (3, from 1), new value (2)
 * 45  end: the number of samples given (2)
 *
 * They come in the order 54 or 42, 41, any steps, 45, and nothing more. Each part of the tolerance
 * is allowed and in lowest terms. A step is short exactly if its advance is at most 255 and its
 * change from -128 to 127. The samples obey the limits of a trace. So a record has at most 24,597
 * bytes.
 *
 * A fault lies at the first byte of the first command that breaks a rule or is cut off, at the first
 * byte after a whole 45 command, or at the record's end where a command is missing.
 */

/* Writes the record of the listed samples and the tolerance into the buffer, from the byte at
 * `place` on. The value is the record's length; the bytes before and after the record are as they
 * were. The gap limit is asked of the links and is not part of the record. Refusals: 1, 2, 3, 4, 15,
 * 6, 7, 10. 10 returns the record's length; from a place past the end of the buffer there is no
 * room. */
kovrelna_answer kovrelna_write(const uint32_t *ticks, size_t ticks_len,
                               const int16_t *values, size_t values_len,
                               const uint16_t *list, size_t list_len,
                               kovrelna_limits limits,
                               uint8_t *buffer, size_t buffer_len, size_t place);

/* number 0: value is the number of samples; p/q is the part above of the record's tolerance and
 * below_p/below_q the part below, each in lowest terms.
 * Otherwise: the refusal's number and value; all else is 0. */
typedef struct kovrelna_content {
  uint32_t number;
  uint64_t value;
  uint64_t p;
  uint64_t q;
  uint64_t below_p;
  uint64_t below_q;
} kovrelna_content;

/* Reads a record: its samples fill the first entries of ticks and of values; the entries after them
 * are as they were. Refusals: 8; 10 with the number of samples, as each output needs an entry for
 * each. */
kovrelna_content kovrelna_read(const uint8_t *record, size_t record_len,
                               uint32_t *ticks, size_t ticks_len,
                               int16_t *values, size_t values_len);

/* number 0: passed is 1 for yes, 0 for no; value is 0.
 * Otherwise: the refusal's number and value; passed is 0. */
typedef struct kovrelna_verdict {
  uint32_t number;
  uint32_t passed;
  uint64_t value;
} kovrelna_verdict;

/* Whether two records are the same: their samples agree, and so do both parts of their tolerances.
 * For accepted records that is so exactly if their bytes agree. Whether the samples alone agree,
 * kovrelna_read of each shows. Refusals: 8 for the first record, then 9 for the second; 8 for two
 * faulty records with the same bytes. */
kovrelna_verdict kovrelna_same(const uint8_t *first, size_t first_len,
                               const uint8_t *second, size_t second_len);

#ifdef __cplusplus
}
#endif

#endif
