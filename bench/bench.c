/* Times the library's calls beside the peers in plain C, and counts what the reductions keep.
 *
 * The traces of kind dropout have holes and are given a gap limit, the others none.
 *
 * bench: prints a table of times for each call, and the kept numbers.
 * bench kept: prints the kept numbers.
 * bench summary: prints each call's microseconds and its ratio to C on the pulse trace at tolerance
 *   7.5, with walk's list; for measure with the link from the first sample to the last; for sum with
 *   another trace and walk's list of it; for scan at 16 tolerances from 0.5 to 8; for view_add with
 *   the last sample at k = 32, and with all of them; for least with allowance 20; for report and
 *   pedestals on crates of pulse traces; last, under the names with parts, at 7.5 above and 10/3
 *   below, for scan at 16 times 1/2 above and 1/3 below.
 * bench trace, bench part: prints that trace, and the part of it for least.
 * bench once KIND FUNCTION [NUMBER [PARTS]]: calls one function once, so that instructions can be
 *   counted; report and pedestals with so many samples a channel, 4,096 unless given; scan and its
 *   peers with the set of tolerances of this number, 0 unless given, 2 and 3 with unequal parts;
 *   view_add and its peer at this k, 32 unless given, where the names with run add all samples. With
 *   PARTS the others have the unequal parts of this number, from 0 to 3, and walk's list in place of
 *   all samples, which judge_greedy has always. */
#define _POSIX_C_SOURCE 199309L
#include "kovrelna.h"
#include "peers.h"

#include <stdio.h>
#include <stdlib.h>
#include <string.h>
#include <time.h>

#define COUNT(array) (sizeof(array) / sizeof((array)[0]))

/* A fast function is called CALLS times in each repetition, a slow one once in some of them. */
enum { SAMPLES = 4096, REPETITIONS = 201, CALLS = 3, SLOW_REPETITIONS = 15 };

/* The functions that are compared, under one signature. */
typedef reduced reducer(const uint32_t *, const int16_t *, size_t, parts, uint32_t, uint16_t *);

static void fail(const char *what) {
  fprintf(stderr, "bench: %s\n", what);
  exit(1);
}

static int is_one(parts t) { return t.above.p == t.below.p && t.above.q == t.below.q; }

/* The tolerance as the library takes it: a ratio, or parts where they differ. */
static kovrelna_tolerance lent(parts t) {
  uint64_t p = (uint64_t)t.above.p, q = (uint64_t)t.above.q;
  if (is_one(t)) return kovrelna_ratio(p, q);
  return kovrelna_parts(p, q, (uint64_t)t.below.p, (uint64_t)t.below.q);
}

static kovrelna_limits limits_of(parts t, uint32_t gap) { return kovrelna_limited(lent(t), gap); }

typedef kovrelna_answer kept_call(const uint32_t *, size_t, const int16_t *, size_t,
                                  kovrelna_limits, uint16_t *, size_t);

static reduced library_kept(kept_call *call, const uint32_t *ticks, const int16_t *values, size_t n,
                            parts t, uint32_t gap, uint16_t *out) {
  kovrelna_answer kept = call(ticks, n, values, n, limits_of(t, gap), out, n);
  reduced answer = {(size_t)kept.value, 0};
  if (kept.number != 0) fail("the library refused a trace");
  return answer;
}

static reduced library_walk(const uint32_t *ticks, const int16_t *values, size_t n, parts t,
                            uint32_t gap, uint16_t *out) {
  return library_kept(kovrelna_walk, ticks, values, n, t, gap, out);
}

static reduced library_gallop(const uint32_t *ticks, const int16_t *values, size_t n, parts t,
                              uint32_t gap, uint16_t *out) {
  kovrelna_galloped kept = kovrelna_gallop(ticks, n, values, n, limits_of(t, gap), out, n);
  reduced answer = {(size_t)kept.value, kept.probes};
  if (kept.number != 0) fail("the library refused a trace");
  return answer;
}

static reduced library_minimum(const uint32_t *ticks, const int16_t *values, size_t n, parts t,
                               uint32_t gap, uint16_t *out) {
  return library_kept(kovrelna_minimum, ticks, values, n, t, gap, out);
}

enum {
  WALK,
  WALK_C,
  GALLOP,
  GALLOP_C,
  MINIMUM,
  MINIMUM_C,
  MINIMUM_C_NOSTOP,
  DOUGLAS_PEUCKER_C,
  REDUCERS
};

static const struct {
  const char *name;
  reducer *call;
  int repetitions, calls;
} REDUCER[REDUCERS] = {
    {"kovrelna_walk", library_walk, REPETITIONS, CALLS},
    {"walk_c", walk_c, REPETITIONS, CALLS},
    {"kovrelna_gallop", library_gallop, REPETITIONS, CALLS},
    {"gallop_c", gallop_c, REPETITIONS, CALLS},
    {"kovrelna_minimum", library_minimum, SLOW_REPETITIONS, 1},
    {"minimum_c", minimum_c, SLOW_REPETITIONS, 1},
    {"minimum_c_nostop", minimum_c_nostop, SLOW_REPETITIONS, 1},
    {"douglas_peucker_c", douglas_peucker_c, REPETITIONS, CALLS},
};

/* ---- Traces ---- */

/* Ticks between two neighbours, and between those beside a hole. */
enum { TICK = 4, HOLE = 1000 };

/* Each kind with its gap limit. */
static const struct {
  const char *name;
  uint32_t gap;
} KINDS[] = {{"pulse", KOVRELNA_GAP_MAX},  {"noise", KOVRELNA_GAP_MAX}, {"ramp", KOVRELNA_GAP_MAX},
             {"zigzag", KOVRELNA_GAP_MAX}, {"spike", KOVRELNA_GAP_MAX}, {"dropout", 100}};

enum { PULSE, DROPOUT = COUNT(KINDS) - 1 };

static uint32_t ticks[COUNT(KINDS)][SAMPLES];
static int16_t values[COUNT(KINDS)][SAMPLES];

static uint64_t state = 1;

/* From -most to most. */
static int within(int most) {
  state ^= state << 13;
  state ^= state >> 7;
  state ^= state << 17;
  return (int)(state % (uint64_t)(2 * most + 1)) - most;
}

static int noise(int most) { return (within(most) + within(most) + within(most)) / 3; }

static void make_traces(void) {
  double height = 0;
  size_t kind;
  int k;
  for (k = 0; k < SAMPLES; k++) {
    for (kind = 0; kind < COUNT(KINDS); kind++) ticks[kind][k] = 1000 + TICK * (uint32_t)k;
    /* A baseline with noise; at times a pulse with an exponential tail. */
    height *= 0.97;
    if (within(200) == 0) height += 4500 + within(4000);
    values[0][k] = (int16_t)(200 + (int)height + noise(6));
    values[1][k] = (int16_t)noise(40);
    values[2][k] = (int16_t)(7 * k - 14000 + noise(3));
    values[3][k] = (int16_t)(k % 2 == 0 ? 0 : 3);
    values[4][k] = (int16_t)(within(32) == 0 ? within(2000) : noise(3));
  }
}

/* The pulse trace with a hole after every 100 to 200 samples. */
static void make_dropout(void) {
  int k, next = 100, holes = 0;
  for (k = 1; k < SAMPLES; k++) {
    ticks[DROPOUT][k] = ticks[DROPOUT][k - 1] + (k == next ? HOLE : TICK);
    if (k == next) next += 100 + 37 * ++holes % 101;
  }
  memcpy(values[DROPOUT], values[PULSE], sizeof(values[PULSE]));
}

/* ---- Measuring ---- */

static const parts TOLERANCES[] = {{{2, 1}, {2, 1}}, {{15, 2}, {15, 2}}, {{40, 1}, {40, 1}}};
/* Unequal parts, with unequal denominators and with equal ones. */
static const parts UNEQUAL[] = {{{2, 1}, {3, 2}}, {{15, 2}, {10, 3}}, {{15, 2}, {5, 2}},
                                {{10, 3}, {40, 1}}};
/* The position of the usual one, 7.5 above, in either list. */
enum { USUAL = 1 };

static double number_of(ratio x) { return (double)x.p / (double)x.q; }

typedef struct row {
  const char *kind;
  parts tolerance;
  reduced answers[REDUCERS];
  double times[REDUCERS][REPETITIONS]; /* nanoseconds a sample */
} row;

static row rows[COUNT(KINDS) * COUNT(TOLERANCES)], unequal_rows[COUNT(KINDS) * COUNT(UNEQUAL)];

/* Nanoseconds of processor time, so that other load counts little. */
static double now(void) {
  struct timespec time;
  clock_gettime(CLOCK_PROCESS_CPUTIME_ID, &time);
  return 1e9 * (double)time.tv_sec + (double)time.tv_nsec;
}

static int order(const void *a, const void *b) {
  double x = *(const double *)a, y = *(const double *)b;
  return (x > y) - (x < y);
}

/* The median of the times x, each divided by the time y of the same repetition if there is one. */
static double median_of(const double *x, const double *y, int repetitions) {
  double list[REPETITIONS];
  int k;
  for (k = 0; k < repetitions; k++) list[k] = x[k] / (y == NULL ? 1.0 : y[k]);
  qsort(list, (size_t)repetitions, sizeof(double), order);
  return list[repetitions / 2];
}

/* The median for reducer x, in the same way relative to reducer y if there is one. */
static double median(const row *r, int x, int y) {
  return median_of(r->times[x], y < 0 ? NULL : r->times[y], REDUCER[x].repetitions);
}

static uint16_t lists[REDUCERS][SAMPLES];

static reduced call(int x, size_t kind, parts tolerance) {
  return REDUCER[x].call(ticks[kind], values[kind], SAMPLES, tolerance, KINDS[kind].gap, lists[x]);
}

static void same(const reduced *answers, int x, int y) {
  const reduced *a = &answers[x], *b = &answers[y];
  if (a->kept != b->kept || a->probes != b->probes ||
      memcmp(lists[x], lists[y], a->kept * sizeof(uint16_t)) != 0)
    fail("the library and the peer differ");
}

static void measure(row *r, size_t kind, parts tolerance) {
  int repetition, x, k;
  r->kind = KINDS[kind].name;
  r->tolerance = tolerance;
  for (repetition = 0; repetition < REPETITIONS; repetition++) {
    for (x = 0; x < REDUCERS; x++) {
      double start = now();
      if (repetition >= REDUCER[x].repetitions) continue;
      if (x == DOUGLAS_PEUCKER_C && !is_one(tolerance)) continue;
      for (k = 0; k < REDUCER[x].calls; k++) r->answers[x] = call(x, kind, tolerance);
      r->times[x][repetition] = (now() - start) / REDUCER[x].calls / SAMPLES;
    }
  }
  same(r->answers, WALK, WALK_C);
  same(r->answers, GALLOP, GALLOP_C);
  same(r->answers, MINIMUM, MINIMUM_C);
  same(r->answers, MINIMUM, MINIMUM_C_NOSTOP);
  if (is_one(tolerance) &&
      !kovrelna_judge(ticks[kind], SAMPLES, values[kind], SAMPLES, lists[DOUGLAS_PEUCKER_C],
                      r->answers[DOUGLAS_PEUCKER_C].kept, limits_of(tolerance, KINDS[kind].gap))
           .passed)
    fail("the list of Douglas-Peucker has an invalid link");
}

/* ---- Records, lists and codes ---- */

/* The trace that is added to a trace has its values from sample SHIFT on. */
enum { BYTES = KOVRELNA_RECORD_MAX, RECORD_CALLS = 20, CODES = 256, SHIFT = 61 };

/* A trace with a kept list. */
typedef struct summand {
  uint32_t ticks[SAMPLES];
  int16_t values[SAMPLES];
  uint16_t list[SAMPLES];
  size_t kept;
} summand;

/* A kept list of a trace, how many of its links come before the first that is at fault, its record at
 * a tolerance and a copy of it; the measure of the link over the whole trace; codes, a range table and
 * their values; another trace with the same ticks, the sums of both and the joined list. */
typedef struct kept_record {
  const uint32_t *ticks;
  const int16_t *values;
  parts tolerance;
  uint32_t gap;
  link_measure measure;
  uint8_t codes[SAMPLES];
  int16_t table[CODES];
  int16_t expanded[SAMPLES];
  uint16_t list[SAMPLES];
  size_t kept, faultless, length;
  uint8_t bytes[BYTES], copy[BYTES];
  uint32_t read_ticks[SAMPLES];
  int16_t read_values[SAMPLES];
  summand other;
  int16_t sums[SAMPLES];
  uint16_t joined[SAMPLES];
  size_t joined_kept;
} kept_record;

static size_t library_write(kept_record *r) {
  kovrelna_answer answer =
      kovrelna_write(r->ticks, SAMPLES, r->values, SAMPLES, r->list, r->kept,
                     limits_of(r->tolerance, r->gap), r->bytes, BYTES, 0);
  return answer.number == 0 ? (size_t)answer.value : 0;
}

static size_t plain_write(kept_record *r) {
  return write_c(r->ticks, r->values, SAMPLES, r->list, r->kept, r->tolerance, r->gap, r->bytes,
                 BYTES);
}

static size_t library_read(kept_record *r) {
  kovrelna_content content =
      kovrelna_read(r->bytes, r->length, r->read_ticks, SAMPLES, r->read_values, SAMPLES);
  return content.number == 0 ? (size_t)content.value : 0;
}

static size_t plain_read(kept_record *r) {
  return read_c(r->bytes, r->length, r->read_ticks, r->read_values, SAMPLES);
}

/* How many samples the record has, if its copy is the same. */
static size_t library_same(kept_record *r) {
  return kovrelna_same(r->bytes, r->length, r->copy, r->length).passed ? r->kept : 0;
}

static size_t plain_same(kept_record *r) {
  return same_c(r->bytes, r->length, r->copy, r->length) > 0 ? r->kept : 0;
}

/* How many samples are kept, if the list passes. */
static size_t library_judge(kept_record *r) {
  kovrelna_judged answer = kovrelna_judge(r->ticks, SAMPLES, r->values, SAMPLES, r->list, r->kept,
                                          limits_of(r->tolerance, r->gap));
  return answer.passed ? r->kept : 0;
}

static size_t plain_judge(kept_record *r) {
  judged answer =
      judge_c(r->ticks, r->values, SAMPLES, r->list, r->kept, r->tolerance, r->gap);
  return answer.passed ? r->kept : 0;
}

/* How many links come before the first that is at fault. */
static size_t library_judge_greedy(kept_record *r) {
  kovrelna_judged_greedy answer = kovrelna_judge_greedy(
      r->ticks, SAMPLES, r->values, SAMPLES, r->list, r->kept, limits_of(r->tolerance, r->gap));
  return answer.passed ? r->kept - 1 : (size_t)answer.value;
}

static size_t plain_judge_greedy(kept_record *r) {
  judged_greedy answer =
      judge_greedy_c(r->ticks, r->values, SAMPLES, r->list, r->kept, r->tolerance, r->gap);
  return answer.passed ? r->kept - 1 : answer.link;
}

static link_measure measure_from(uint64_t p, uint64_t q, uint64_t sample, uint32_t side) {
  link_measure measure = {(int64_t)p, (int64_t)q, (size_t)sample, side};
  return measure;
}

static size_t library_measure(kept_record *r) {
  kovrelna_measured found =
      kovrelna_measure(r->ticks, SAMPLES, r->values, SAMPLES, 0, SAMPLES - 1);
  r->measure = measure_from(found.p, found.q, found.sample, found.side);
  return found.number == 0 ? SAMPLES : 0;
}

static size_t plain_measure(kept_record *r) {
  r->measure = measure_c(r->ticks, r->values, SAMPLES, 0, SAMPLES - 1);
  return r->measure.q != 0 ? SAMPLES : 0;
}

static size_t library_sum(kept_record *r) {
  const summand *other = &r->other;
  kovrelna_answer answer = kovrelna_sum(
      r->ticks, SAMPLES, r->values, SAMPLES, other->ticks, SAMPLES, other->values, SAMPLES, r->list,
      r->kept, other->list, other->kept, r->sums, SAMPLES, r->joined, SAMPLES);
  return answer.number == 0 ? (size_t)answer.value : 0;
}

static size_t plain_sum(kept_record *r) {
  const summand *other = &r->other;
  reduced_trace one = {r->ticks, r->values, SAMPLES, r->list, r->kept};
  reduced_trace two = {other->ticks, other->values, SAMPLES, other->list, other->kept};
  answered answer = sum_c(&one, &two, r->sums, SAMPLES, r->joined, SAMPLES);
  return answer.number == 0 ? answer.value : 0;
}

static size_t library_expand(kept_record *r) {
  kovrelna_answer answer = kovrelna_expand(r->codes, SAMPLES, r->expanded, SAMPLES);
  return answer.number == 0 ? (size_t)answer.value : 0;
}

static size_t plain_expand(kept_record *r) {
  return expand_c(r->codes, SAMPLES, r->expanded, SAMPLES);
}

static size_t plain_expand_table(kept_record *r) {
  return expand_table_c(r->codes, SAMPLES, r->expanded, SAMPLES);
}

static size_t library_expand_with(kept_record *r) {
  kovrelna_answer answer =
      kovrelna_expand_with(r->codes, SAMPLES, r->table, CODES, r->expanded, SAMPLES);
  return answer.number == 0 ? (size_t)answer.value : 0;
}

static size_t plain_expand_with(kept_record *r) {
  answered answer = expand_with_c(r->codes, SAMPLES, r->table, CODES, r->expanded, SAMPLES);
  return answer.number == 0 ? answer.value : 0;
}

/* Each call and its peer in C; last the peer of expand that has a table. */
enum {
  WRITE,
  WRITE_C,
  READ,
  READ_C,
  SAME,
  SAME_C,
  JUDGE,
  JUDGE_C,
  JUDGE_GREEDY,
  JUDGE_GREEDY_C,
  MEASURE,
  MEASURE_C,
  SUM,
  SUM_C,
  EXPAND,
  EXPAND_C,
  EXPAND_WITH,
  EXPAND_WITH_C,
  EXPAND_TABLE_C,
  RECORDERS
};

static const struct {
  const char *name;
  size_t (*call)(kept_record *);
} RECORDER[RECORDERS] = {{"kovrelna_write", library_write},
                         {"write_c", plain_write},
                         {"kovrelna_read", library_read},
                         {"read_c", plain_read},
                         {"kovrelna_same", library_same},
                         {"same_c", plain_same},
                         {"kovrelna_judge", library_judge},
                         {"judge_c", plain_judge},
                         {"kovrelna_judge_greedy", library_judge_greedy},
                         {"judge_greedy_c", plain_judge_greedy},
                         {"kovrelna_measure", library_measure},
                         {"measure_c", plain_measure},
                         {"kovrelna_sum", library_sum},
                         {"sum_c", plain_sum},
                         {"kovrelna_expand", library_expand},
                         {"expand_c", plain_expand},
                         {"kovrelna_expand_with", library_expand_with},
                         {"expand_with_c", plain_expand_with},
                         {"expand_table_c", plain_expand_table}};

static double record_times[RECORDERS][REPETITIONS]; /* microseconds a call */

/* Lists all samples or those that walk keeps, and returns how many. */
static size_t make_list(const uint32_t *tick, const int16_t *value, parts tolerance, uint32_t gap,
                        int all, uint16_t *list) {
  size_t k;
  if (!all) return walk_c(tick, value, SAMPLES, tolerance, gap, list).kept;
  for (k = 0; k < SAMPLES; k++) list[k] = (uint16_t)k;
  return SAMPLES;
}

/* The trace that is added to this one. */
static void make_other(kept_record *r, int all) {
  summand *other = &r->other;
  size_t k;
  memcpy(other->ticks, r->ticks, sizeof(other->ticks));
  for (k = 0; k < SAMPLES; k++) other->values[k] = r->values[(k + SHIFT) % SAMPLES];
  other->kept = make_list(other->ticks, other->values, r->tolerance, r->gap, all, other->list);
}

/* The record of all samples or of walk's list, written by this writer. */
static void make_record(kept_record *r, size_t kind, parts tolerance, int all,
                        size_t (*write)(kept_record *)) {
  size_t k;
  r->ticks = ticks[kind];
  r->values = values[kind];
  r->tolerance = tolerance;
  r->gap = KINDS[kind].gap;
  r->kept = make_list(r->ticks, r->values, tolerance, r->gap, all, r->list);
  make_other(r, all);
  for (k = 0; k < SAMPLES; k++) r->codes[k] = (uint8_t)(7 * k + (size_t)r->values[k]);
  for (k = 0; k < CODES; k++) r->table[k] = (int16_t)(k * (k + 1) / 2);
  r->length = write(r);
  memcpy(r->copy, r->bytes, r->length);
}

/* What a call answers. */
static size_t expected(const kept_record *r, int x) {
  if (x == WRITE || x == WRITE_C) return r->length;
  if (x == JUDGE_GREEDY || x == JUDGE_GREEDY_C) return r->faultless;
  if (x == SUM || x == SUM_C) return r->joined_kept;
  return x >= MEASURE ? SAMPLES : r->kept;
}

static int same_measure(const link_measure *a, const link_measure *b) {
  return a->p == b->p && a->q == b->q && a->sample == b->sample && a->side == b->side;
}

/* Whether judge's second question and its peer say the same of this list. */
static int same_faults(const kept_record *r, const uint16_t *list, size_t kept, parts tolerance) {
  kovrelna_judged_greedy a = kovrelna_judge_greedy(r->ticks, SAMPLES, r->values, SAMPLES, list, kept,
                                                   limits_of(tolerance, r->gap));
  judged_greedy b = judge_greedy_c(r->ticks, r->values, SAMPLES, list, kept, tolerance, r->gap);
  return a.number == 0 && (int)a.passed == b.passed && a.value == b.link && a.fault == b.fault;
}

/* The record's list, and lists of every second sample, every fourth, and so on, at its tolerance and
 * at the greatest: judge and its peer say the same of the first invalid link, and of the first link at
 * fault. */
static void same_verdicts(const kept_record *r) {
  const parts greatest = {{65535, 1}, {65535, 1}}, tolerances[] = {r->tolerance, greatest};
  uint16_t list[SAMPLES];
  size_t t, step;
  if (!same_faults(r, r->list, r->kept, r->tolerance)) fail("judge_greedy and its peer differ");
  for (step = 2; step <= SAMPLES; step *= 2) {
    size_t kept = 0, k;
    for (k = 0; k < SAMPLES - 1; k += step) list[kept++] = (uint16_t)k;
    list[kept++] = SAMPLES - 1;
    for (t = 0; t < COUNT(tolerances); t++) {
      kovrelna_judged a = kovrelna_judge(r->ticks, SAMPLES, r->values, SAMPLES, list, kept,
                                         limits_of(tolerances[t], r->gap));
      judged b = judge_c(r->ticks, r->values, SAMPLES, list, kept, tolerances[t], r->gap);
      link_measure measure = measure_from(a.p, a.q, a.sample, a.side);
      if (a.number != 0 || (int)a.passed != b.passed || a.value != b.link ||
          !same_measure(&measure, &b.measure))
        fail("judge and its peer differ");
      if (!same_faults(r, list, kept, tolerances[t])) fail("judge_greedy and its peer differ");
    }
  }
}

/* Whether the samples read are those of the list. */
static int is_read(const kept_record *r) {
  size_t k;
  for (k = 0; k < r->kept; k++)
    if (r->read_ticks[k] != r->ticks[r->list[k]] || r->read_values[k] != r->values[r->list[k]])
      return 0;
  return 1;
}

/* Whether these are the sums and the samples in either list. */
static int is_summed(const kept_record *r) {
  static uint8_t either[SAMPLES];
  size_t k, count = 0;
  memset(either, 0, sizeof(either));
  for (k = 0; k < r->kept; k++) either[r->list[k]] = 1;
  for (k = 0; k < r->other.kept; k++) either[r->other.list[k]] = 1;
  for (k = 0; k < SAMPLES; k++) {
    if (r->sums[k] != r->values[k] + r->other.values[k]) return 0;
    if (either[k] && r->joined[count++] != k) return 0;
  }
  return count == r->joined_kept;
}

/* Whether these are the values of the codes, by the rule or in the table. */
static int is_expanded(const kept_record *r, int by_table) {
  size_t k;
  for (k = 0; k < SAMPLES; k++) {
    unsigned c = r->codes[k];
    if (r->expanded[k] != (by_table ? r->table[c] : (int)((c % 32 + 32) << (c / 32)) - 32))
      return 0;
  }
  return 1;
}

/* Times every call on the record of all samples or of walk's list. */
static void measure_records(kept_record *r, size_t kind, parts tolerance, int all) {
  link_measure measure;
  int repetition, x, k;
  make_record(r, kind, tolerance, all, plain_write);
  same_verdicts(r);
  r->faultless = plain_judge_greedy(r);
  plain_measure(r);
  measure = r->measure;
  r->joined_kept = plain_sum(r);
  for (repetition = 0; repetition < REPETITIONS; repetition++) {
    for (x = 0; x < RECORDERS; x++) {
      size_t answer = 0;
      double start;
      if (x == WRITE || x == WRITE_C) memset(r->bytes, 0, BYTES);
      if (x == READ || x == READ_C) memset(r->read_ticks, 0, sizeof(r->read_ticks));
      if (x == MEASURE || x == MEASURE_C) memset(&r->measure, 0, sizeof(r->measure));
      if (x == SUM || x == SUM_C) memset(r->joined, 0, sizeof(r->joined));
      if (x >= EXPAND) memset(r->expanded, 0, sizeof(r->expanded));
      start = now();
      for (k = 0; k < RECORD_CALLS; k++) answer = RECORDER[x].call(r);
      record_times[x][repetition] = 1e-3 * (now() - start) / RECORD_CALLS;
      if (answer != expected(r, x) || memcmp(r->bytes, r->copy, r->length) != 0 ||
          !same_measure(&r->measure, &measure) ||
          ((x == READ || x == READ_C) && !is_read(r)) ||
          ((x == SUM || x == SUM_C) && !is_summed(r)) ||
          (x >= EXPAND && !is_expanded(r, x == EXPAND_WITH || x == EXPAND_WITH_C)))
        fail("a call does not answer as its peer does");
    }
  }
}

/* Of a call and its peer: both times and their ratio. */
static void print_recorder(int x) {
  printf(" %9.2f %7.2f %7.2f", median_of(record_times[x], NULL, REPETITIONS),
         median_of(record_times[x + 1], NULL, REPETITIONS),
         median_of(record_times[x], record_times[x + 1], REPETITIONS));
}

static void print_records(void) {
  static kept_record r;
  int x, all;
  size_t kind;
  printf("\nWalk's list and all samples at tolerance 7.50: written to a record, read, compared with a\n"
         "copy, judged by both questions; the link from the first sample to the last measured; the\n"
         "trace and its list added to another with such a list; and %d range codes expanded, also by a\n"
         "table of the caller; last C that expands them by a table of its own, and the ratio of expand\n"
         "to it.\n"
         "Microseconds a call.\n"
         "         samples   bytes     write       C   ratio      read       C   ratio"
         "      same       C   ratio     judge       C   ratio    greedy       C   ratio"
         "   measure       C   ratio"
         "       sum       C   ratio"
         "    expand       C   ratio  by table       C   ratio C table   ratio\n",
         SAMPLES);
  for (kind = 0; kind < COUNT(KINDS); kind++) {
    for (all = 0; all <= 1; all++) {
      measure_records(&r, kind, TOLERANCES[USUAL], all);
      printf("%-8s %7zu %7zu", KINDS[kind].name, r.kept, r.length);
      for (x = 0; x < EXPAND_TABLE_C; x += 2) print_recorder(x);
      printf(" %7.2f %7.2f\n", median_of(record_times[EXPAND_TABLE_C], NULL, REPETITIONS),
             median_of(record_times[EXPAND], record_times[EXPAND_TABLE_C], REPETITIONS));
    }
  }
}

static void print_unequal_records(void) {
  static const int timed[] = {WRITE, READ, SAME, JUDGE, JUDGE_GREEDY};
  static kept_record r;
  size_t kind, t, x;
  printf("\nWalk's list at unequal parts: written to a record, read, compared with a copy, judged by both\n"
         "questions.\n"
         "Microseconds a call.\n"
         "            above   below samples   bytes     write       C   ratio      read       C   ratio"
         "      same       C   ratio     judge       C   ratio    greedy       C   ratio\n");
  for (kind = 0; kind < COUNT(KINDS); kind++) {
    for (t = 0; t < COUNT(UNEQUAL); t++) {
      measure_records(&r, kind, UNEQUAL[t], 0);
      printf("%-8s %8.2f %7.2f %7zu %7zu", KINDS[kind].name, number_of(UNEQUAL[t].above),
             number_of(UNEQUAL[t].below), r.kept, r.length);
      for (x = 0; x < COUNT(timed); x++) print_recorder(timed[x]);
      puts("");
    }
  }
}

/* ---- Scans ---- */

enum { SCANNED = KOVRELNA_TOLERANCES_MAX };

/* The tolerances of a scan are the multiples of these from 1 to 16 times; then of unequal parts, with
 * unequal denominators and with equal ones. */
static const parts STEPS[] = {
    {{1, 2}, {1, 2}}, {{5, 2}, {5, 2}}, {{1, 2}, {1, 3}}, {{3, 2}, {5, 2}}};
enum { EQUAL_STEPS = 2 };

/* 16 tolerances as the library and as C takes them. */
typedef struct scan_set {
  kovrelna_tolerances lent;
  parts parts[SCANNED];
} scan_set;

/* So many times p/q, of which q is 2 or 3. */
static ratio multiple(int64_t times, ratio x) {
  x.p *= times;
  if (x.p % x.q == 0) x.p /= x.q, x.q = 1;
  return x;
}

static scan_set make_set(parts step) {
  scan_set set;
  int64_t a;
  set.lent.count = SCANNED;
  for (a = 0; a < SCANNED; a++) {
    set.parts[a].above = multiple(a + 1, step.above);
    set.parts[a].below = multiple(a + 1, step.below);
    set.lent.list[a] = lent(set.parts[a]);
  }
  return set;
}

/* The lists and the kept numbers of a scan. */
typedef struct scan_lists {
  uint16_t out[SCANNED * SAMPLES];
  size_t kept[SCANNED];
} scan_lists;

static void library_scan(size_t kind, const scan_set *set, scan_lists *to) {
  kovrelna_scanned found =
      kovrelna_scan(ticks[kind], SAMPLES, values[kind], SAMPLES, set->lent, KINDS[kind].gap, to->out,
                    SCANNED * SAMPLES);
  size_t a;
  if (found.number != 0) fail("the library refused a scan");
  for (a = 0; a < SCANNED; a++) to->kept[a] = (size_t)found.kept[a];
}

/* The separate calls. */
static void library_walks(size_t kind, const scan_set *set, scan_lists *to) {
  size_t a;
  for (a = 0; a < SCANNED; a++)
    to->kept[a] = library_walk(ticks[kind], values[kind], SAMPLES, set->parts[a], KINDS[kind].gap,
                               to->out + a * SAMPLES)
                      .kept;
}

static void plain_scan(size_t kind, const scan_set *set, scan_lists *to) {
  if (scan_c(ticks[kind], values[kind], SAMPLES, set->parts, SCANNED, KINDS[kind].gap, to->out,
             SCANNED * SAMPLES, to->kept)
          .number != 0)
    fail("the peer refused a scan");
}

enum { SCAN, SCAN_C, SCAN_WALKS, SCANNERS };

static const struct {
  const char *name;
  void (*call)(size_t, const scan_set *, scan_lists *);
} SCANNER[SCANNERS] = {{"kovrelna_scan", library_scan},
                       {"scan_c", plain_scan},
                       {"kovrelna_walks", library_walks}};

static scan_lists scan_found[SCANNERS];

static void same_scans(void) {
  int x;
  size_t a;
  for (x = 1; x < SCANNERS; x++)
    for (a = 0; a < SCANNED; a++)
      if (scan_found[0].kept[a] != scan_found[x].kept[a] ||
          memcmp(&scan_found[0].out[a * SAMPLES], &scan_found[x].out[a * SAMPLES],
                 scan_found[0].kept[a] * sizeof(uint16_t)) != 0)
        fail("scan and its peers differ");
}

/* Microseconds of scan, of its peer in C and of the separate calls; the ratios of scan to these. */
typedef struct scan_row {
  double times[SCANNERS], ratios[SCANNERS];
} scan_row;

static scan_row measure_scan(size_t kind, const scan_set *set) {
  static double list[SCANNERS][REPETITIONS];
  scan_row row;
  int repetition, turn, x, k;
  for (repetition = 0; repetition < REPETITIONS; repetition++) {
    for (turn = 0; turn < SCANNERS; turn++) {
      double start;
      /* There and back, so that C is always between the two that may share code, and each with a
       * call before that is not timed: a branch may be foreseen from an earlier call. */
      x = repetition % 2 == 0 ? turn : SCANNERS - 1 - turn;
      SCANNER[x].call(kind, set, &scan_found[x]);
      start = now();
      for (k = 0; k < CALLS; k++) SCANNER[x].call(kind, set, &scan_found[x]);
      list[x][repetition] = 1e-3 * (now() - start) / CALLS;
    }
  }
  same_scans();
  for (x = 0; x < SCANNERS; x++) {
    row.times[x] = median_of(list[x], NULL, REPETITIONS);
    row.ratios[x] = median_of(list[SCAN], list[x], REPETITIONS);
  }
  return row;
}

/* Of a scan at the multiples of this step. */
static void print_scan(size_t kind, parts step) {
  scan_set set = make_set(step);
  scan_row row = measure_scan(kind, &set);
  printf(" %9.2f %8.2f %7.2f %7.2f %7.2f\n", row.times[SCAN], row.times[SCAN_WALKS],
         row.ratios[SCAN_WALKS], row.times[SCAN_C], row.ratios[SCAN_C]);
}

static void print_scans(void) {
  size_t kind, s;
  printf("\nscan, %d samples at %d tolerances, beside walk at each and beside C. Microseconds for\n"
         "all tolerances.\n"
         "             from      to  kovrelna 16 walks   ratio       C   ratio\n",
         SAMPLES, SCANNED);
  for (kind = 0; kind < COUNT(KINDS); kind++) {
    for (s = 0; s < EQUAL_STEPS; s++) {
      double step = number_of(STEPS[s].above);
      printf("%-8s %8.2f %7.2f", KINDS[kind].name, step, SCANNED * step);
      print_scan(kind, STEPS[s]);
    }
  }
  printf("\nThe same at unequal parts: the first above and below, and the last\n"
         "            above   below      to      to  kovrelna 16 walks   ratio       C   ratio\n");
  for (kind = 0; kind < COUNT(KINDS); kind++) {
    for (s = EQUAL_STEPS; s < COUNT(STEPS); s++) {
      double above = number_of(STEPS[s].above), below = number_of(STEPS[s].below);
      printf("%-8s %8.2f %7.2f %7.2f %7.2f", KINDS[kind].name, above, below, SCANNED * above,
             SCANNED * below);
      print_scan(kind, STEPS[s]);
    }
  }
}

/* ---- Views ---- */

/* The k of the views. */
static const uint32_t KS[] = {8, 32};

/* Adds sample n - 1 to the view. */
static void library_add(kovrelna_view *view, size_t kind, size_t n) {
  if (kovrelna_view_add(view, ticks[kind], n, values[kind], n).number != 0)
    fail("the library refused a sample");
}

static void plain_add(kovrelna_view *view, size_t kind, size_t n) {
  if (view_add_c(view->k, &view->count, view->samples, ticks[kind], values[kind], n).number != 0)
    fail("the peer refused a sample");
}

enum { VIEW_ADD, VIEW_ADD_C, VIEWERS };

/* Each with the name under which it adds all samples. */
static const struct {
  const char *name, *run;
  void (*add)(kovrelna_view *, size_t, size_t);
} VIEWER[VIEWERS] = {{"kovrelna_view_add", "kovrelna_view_run", library_add},
                     {"view_add_c", "view_run_c", plain_add}};

/* The view of the first n samples, each added. */
static kovrelna_view viewed(int x, size_t kind, uint32_t k, size_t n) {
  kovrelna_view view = kovrelna_view_begin(k).view;
  size_t m;
  for (m = 2; m <= n; m++) VIEWER[x].add(&view, kind, m);
  return view;
}

/* Adds the last sample; all others are added by the other one. */
static void add_last(int x, size_t kind, uint32_t k) {
  kovrelna_view view = viewed(1 - x, kind, k, SAMPLES - 1);
  VIEWER[x].add(&view, kind, SAMPLES);
}

/* Of the addition of the last sample microseconds, of that of all samples milliseconds; and their
 * ratios to C. */
typedef struct view_row {
  double last[VIEWERS], all[VIEWERS], last_ratio, all_ratio;
} view_row;

static view_row measure_view(size_t kind, uint32_t k) {
  static double last[VIEWERS][REPETITIONS], all[VIEWERS][REPETITIONS];
  const kovrelna_view before = viewed(VIEW_ADD_C, kind, k, SAMPLES - 1);
  kovrelna_view after[VIEWERS], whole[VIEWERS];
  view_row row;
  int repetition, x, c;
  for (repetition = 0; repetition < REPETITIONS; repetition++) {
    for (x = 0; x < VIEWERS; x++) {
      double start = now();
      for (c = 0; c < CALLS; c++) {
        after[x] = before;
        VIEWER[x].add(&after[x], kind, SAMPLES);
      }
      last[x][repetition] = 1e-3 * (now() - start) / CALLS;
      if (repetition >= SLOW_REPETITIONS) continue;
      start = now();
      whole[x] = viewed(x, kind, k, SAMPLES);
      all[x][repetition] = 1e-6 * (now() - start);
    }
  }
  if (memcmp(&after[0], &after[1], sizeof(after[0])) != 0 ||
      memcmp(&whole[0], &whole[1], sizeof(whole[0])) != 0 ||
      memcmp(&after[0], &whole[0], sizeof(after[0])) != 0)
    fail("view_add and its peer differ");
  for (x = 0; x < VIEWERS; x++) {
    row.last[x] = median_of(last[x], NULL, REPETITIONS);
    row.all[x] = median_of(all[x], NULL, SLOW_REPETITIONS);
  }
  row.last_ratio = median_of(last[VIEW_ADD], last[VIEW_ADD_C], REPETITIONS);
  row.all_ratio = median_of(all[VIEW_ADD], all[VIEW_ADD_C], SLOW_REPETITIONS);
  return row;
}

static void print_views(void) {
  size_t kind, x;
  printf("\nview_add of the last of %d samples, microseconds; of each in turn, milliseconds in all.\n"
         "               k  kovrelna       C   ratio  kovrelna       C   ratio\n",
         SAMPLES);
  for (kind = 0; kind < COUNT(KINDS); kind++) {
    for (x = 0; x < COUNT(KS); x++) {
      view_row row = measure_view(kind, KS[x]);
      printf("%-8s %7lu %9.2f %7.2f %7.2f %9.2f %7.2f %7.2f\n", KINDS[kind].name,
             (unsigned long)KS[x], row.last[VIEW_ADD], row.last[VIEW_ADD_C], row.last_ratio,
             row.all[VIEW_ADD], row.all[VIEW_ADD_C], row.all_ratio);
    }
  }
}

/* ---- Least ---- */

enum { FEW = 256, LEAST_REPETITIONS = 9 };

/* Parts of the traces above, plateaus, and a trace whose link errors differ by little. */
static const char *const FEW_KINDS[] = {"pulse", "noise",   "ramp",    "zigzag",
                                        "spike", "dropout", "plateau", "near"};
static const size_t ALLOWANCES[] = {2, 3, 5, 10, 20, 50, 100, 200, 255, 256};

static uint32_t few_ticks[COUNT(FEW_KINDS)][FEW];
static int16_t few_values[COUNT(FEW_KINDS)][FEW];

/* Ticks at distances near powers of 2 and values 0 and 1, with high samples beside low ones at both
 * ends and in the middle. */
static void make_near(uint32_t *tick, int16_t *value) {
  static const int spikes[] = {1, FEW / 2, FEW - 3};
  size_t k;
  for (k = 0; k < FEW; k++) {
    int power = 1 << (6 + within(6));
    tick[k] = k == 0 ? 0 : tick[k - 1] + (uint32_t)(power + within(power / 4));
    value[k] = (int16_t)(within(1) > 0);
  }
  for (k = 0; k < COUNT(spikes); k++) {
    value[spikes[k]] = 10000;
    value[spikes[k] + 1] = -10000;
  }
}

static void make_few(void) {
  size_t kind, k, from = 0;
  while (from < SAMPLES - FEW && values[0][from + FEW / 4] < 2000) from++;
  for (kind = 0; kind < COUNT(FEW_KINDS); kind++) {
    for (k = 0; k < FEW; k++) {
      few_ticks[kind][k] = ticks[kind < COUNT(KINDS) ? kind : PULSE][k];
      few_values[kind][k] = (int16_t)(500 * (k / 32 % 3));
      if (kind < COUNT(KINDS)) few_values[kind][k] = values[kind][from + k];
    }
  }
  make_near(few_ticks[COUNT(FEW_KINDS) - 1], few_values[COUNT(FEW_KINDS) - 1]);
}

static least_found library_least(const uint32_t *tick, const int16_t *value, size_t n, uint32_t gap,
                                 size_t m, uint16_t *out) {
  kovrelna_closest closest = kovrelna_least(tick, n, value, n, gap, m, out, n);
  least_found found = {(size_t)closest.value, (int64_t)closest.p, (int64_t)closest.q, 0};
  if (closest.number != 0 && closest.number != KOVRELNA_REFUSED_HOLES)
    fail("the library refused a trace");
  return found;
}

enum { LEAST, LEAST_C, LEASTS };

static const struct {
  const char *name;
  least_found (*call)(const uint32_t *, const int16_t *, size_t, uint32_t, size_t, uint16_t *);
} LEASTER[LEASTS] = {{"kovrelna_least", library_least}, {"least_c", least_c}};

static least_found call_least(int x, size_t kind, size_t m) {
  uint32_t gap = kind < COUNT(KINDS) ? KINDS[kind].gap : KOVRELNA_GAP_MAX;
  return LEASTER[x].call(few_ticks[kind], few_values[kind], FEW, gap, m, lists[x]);
}

/* Milliseconds of each, their ratio, and the lists that the search found by minimum: none where
 * every list that obeys the gap limit has more samples than the allowance. */
typedef struct least_row {
  double times[LEASTS], ratio;
  unsigned runs;
} least_row;

static least_row measure_least(size_t kind, size_t m) {
  double list[LEASTS][LEAST_REPETITIONS];
  least_found found[LEASTS];
  least_row row;
  int repetition, x;
  for (repetition = 0; repetition < LEAST_REPETITIONS; repetition++) {
    for (x = 0; x < LEASTS; x++) {
      double start = now();
      found[x] = call_least(x, kind, m);
      list[x][repetition] = 1e-6 * (now() - start);
    }
  }
  if (found[LEAST].kept != found[LEAST_C].kept || found[LEAST].p != found[LEAST_C].p ||
      found[LEAST].q != found[LEAST_C].q ||
      memcmp(lists[LEAST], lists[LEAST_C], found[LEAST].kept * sizeof(uint16_t)) != 0)
    fail("least and its peer differ");
  for (x = 0; x < LEASTS; x++) row.times[x] = median_of(list[x], NULL, LEAST_REPETITIONS);
  row.ratio = median_of(list[LEAST], list[LEAST_C], LEAST_REPETITIONS);
  row.runs = found[LEAST_C].runs;
  return row;
}

/* The median and the greatest of some numbers. */
typedef struct spread {
  double typical, worst;
} spread;

static spread spread_of(double *list, size_t count) {
  spread s;
  qsort(list, count, sizeof(double), order);
  s.typical = list[count / 2];
  s.worst = list[count - 1];
  return s;
}

static void print_least(void) {
  double times[LEASTS][COUNT(ALLOWANCES)], ratios[COUNT(ALLOWANCES)], runs[COUNT(ALLOWANCES)];
  size_t kind, m, count;
  int x;
  printf("\nleast, %d samples, allowances 2 to %d: median and worst of them. Milliseconds a call;\n"
         "runs: the lists that the search finds by minimum.\n"
         "         kovrelna   worst       C   worst   ratio   worst    runs   worst\n",
         FEW, FEW);
  for (kind = 0; kind < COUNT(FEW_KINDS); kind++) {
    spread s[4];
    for (m = 0, count = 0; m < COUNT(ALLOWANCES); m++) {
      least_row row = measure_least(kind, ALLOWANCES[m]);
      if (row.runs == 0) continue;
      for (x = 0; x < LEASTS; x++) times[x][count] = row.times[x];
      ratios[count] = row.ratio;
      runs[count++] = row.runs;
    }
    for (x = 0; x < LEASTS; x++) s[x] = spread_of(times[x], count);
    s[2] = spread_of(ratios, count);
    s[3] = spread_of(runs, count);
    printf("%-8s %8.2f %7.2f %7.2f %7.2f %7.2f %7.2f %7.0f %7.0f\n", FEW_KINDS[kind],
           s[0].typical, s[0].worst, s[1].typical, s[1].worst, s[2].typical, s[2].worst,
           s[3].typical, s[3].worst);
  }
}

/* ---- Crates ---- */

/* Of crates with fewer than SAMPLES samples a channel, SMALL_CALLS calls are made in each
 * repetition. FACTOR is the noise factor of pedestals. */
enum { CHANNELS = KOVRELNA_CHANNELS_MAX, SMALL = 2, SMALL_CALLS = 64, FACTOR = 2 };

/* Traces end to end, in two runs; what is reported on is today's. */
typedef struct crate {
  uint32_t ticks[CHANNELS * SAMPLES];
  int16_t values[CHANNELS * SAMPLES];
  size_t lengths[CHANNELS];
} crate;

static crate today, before;

/* What the library and its peer answer. */
static kovrelna_summary crate_rows[CHANNELS];
static channel_row crate_rows_c[CHANNELS];
static crate_totals totals[2];
static uint16_t moved[2][CHANNELS], noisy[2][CHANNELS];
static compared comparisons[2];

/* The gap limit of the traces. */
static uint32_t crate_gap;

/* So many samples a channel of the trace, from another sample on in each; in the run before, their
 * values divided by 1, 2, 3 or 4. */
static void make_crates(size_t kind, size_t samples) {
  size_t channel, k, at = 0;
  crate_gap = KINDS[kind].gap;
  for (channel = 0; channel < CHANNELS; channel++) {
    today.lengths[channel] = before.lengths[channel] = samples;
    for (k = 0; k < samples; k++, at++) {
      int value = values[kind][(k + 61 * channel) % SAMPLES];
      today.ticks[at] = before.ticks[at] = ticks[kind][k];
      today.values[at] = (int16_t)value;
      before.values[at] = (int16_t)(value / (int)(1 + channel % 4));
    }
  }
}

static void library_report(size_t n, parts tolerance) {
  kovrelna_totals found =
      kovrelna_report(today.ticks, n, today.values, n, today.lengths, CHANNELS,
                      limits_of(tolerance, crate_gap), crate_rows, CHANNELS);
  totals[0].samples = (size_t)found.samples;
  totals[0].kept = (size_t)found.kept;
  totals[0].p = (int64_t)found.p;
  totals[0].q = (int64_t)found.q;
}

static void plain_report(size_t n, parts tolerance) {
  totals[1] = report_c(today.ticks, today.values, n, today.lengths, CHANNELS, tolerance, crate_gap,
                       crate_rows_c, CHANNELS);
}

static void library_pedestals(size_t n, parts tolerance) {
  kovrelna_compared found = kovrelna_pedestals(
      today.ticks, n, today.values, n, today.lengths, CHANNELS, before.ticks, n, before.values, n,
      before.lengths, CHANNELS, lent(tolerance), FACTOR, moved[0], CHANNELS, noisy[0], CHANNELS);
  comparisons[0].number = found.number;
  comparisons[0].moved = (size_t)found.moved;
  comparisons[0].noisy = (size_t)found.noisy;
}

static void plain_pedestals(size_t n, parts tolerance) {
  crate_run first = {today.ticks, today.values, n, today.lengths, CHANNELS};
  crate_run second = {before.ticks, before.values, n, before.lengths, CHANNELS};
  comparisons[1] = pedestals_c(&first, &second, tolerance.above.p, tolerance.above.q, FACTOR,
                               moved[1], CHANNELS, noisy[1], CHANNELS);
}

enum { REPORT, REPORT_C, PEDESTALS, PEDESTALS_C, CRATE_CALLS };

static const struct {
  const char *name;
  void (*call)(size_t, parts);
} CRATE_CALL[CRATE_CALLS] = {{"kovrelna_report", library_report},
                             {"report_c", plain_report},
                             {"kovrelna_pedestals", library_pedestals},
                             {"pedestals_c", plain_pedestals}};

static void same_report(void) {
  const crate_totals *a = &totals[0], *b = &totals[1];
  size_t k;
  int same = a->samples == b->samples && a->kept == b->kept && a->p == b->p && a->q == b->q;
  for (k = 0; k < CHANNELS; k++) {
    const kovrelna_summary *x = &crate_rows[k];
    const channel_row *y = &crate_rows_c[k];
    same = same && x->samples == y->samples && x->kept == y->kept && x->p == (uint64_t)y->p &&
           x->q == (uint64_t)y->q && x->sample == y->sample && x->number == y->number;
  }
  if (!same || b->q == 0) fail("report and its peer differ");
}

static void same_pedestals(void) {
  const compared *a = &comparisons[0], *b = &comparisons[1];
  if (a->number != 0 || b->number != 0 || a->moved != b->moved || a->noisy != b->noisy ||
      memcmp(moved[0], moved[1], a->moved * sizeof(uint16_t)) != 0 ||
      memcmp(noisy[0], noisy[1], a->noisy * sizeof(uint16_t)) != 0)
    fail("pedestals and its peer differ");
}

/* Microseconds of a call and of its peer, and their ratio. */
typedef struct crate_row {
  double times[2], ratio;
} crate_row;

/* Times call x and its peer, the next, on crates of so many samples a channel. */
static crate_row measure_crates(int x, size_t kind, size_t samples, parts tolerance) {
  static double list[2][REPETITIONS];
  crate_row row;
  int calls = samples < SAMPLES ? SMALL_CALLS : 1, repetition, y, k;
  make_crates(kind, samples);
  for (repetition = 0; repetition < REPETITIONS; repetition++) {
    for (y = 0; y < 2; y++) {
      double start = now();
      for (k = 0; k < calls; k++) CRATE_CALL[x + y].call(CHANNELS * samples, tolerance);
      list[y][repetition] = 1e-3 * (now() - start) / calls;
    }
  }
  if (x == REPORT) same_report();
  if (x == PEDESTALS) same_pedestals();
  for (y = 0; y < 2; y++) row.times[y] = median_of(list[y], NULL, REPETITIONS);
  row.ratio = median_of(list[0], list[1], REPETITIONS);
  return row;
}

static void print_report(size_t kind, size_t samples, parts tolerance) {
  crate_row row = measure_crates(REPORT, kind, samples, tolerance);
  printf("%-8s %7zu %9.2f", KINDS[kind].name, samples, number_of(tolerance.above));
  if (!is_one(tolerance)) printf(" %7.2f", number_of(tolerance.below));
  printf(" %7zu %9.2f %7.2f %7.2f\n", totals[0].kept, row.times[0], row.times[1], row.ratio);
}

static void print_reports(void) {
  size_t kind, t;
  printf("\nreport, %d channels of %d samples, and of 2. Microseconds a call.\n"
         "         samples tolerance    kept  kovrelna       C   ratio\n",
         CHANNELS, SAMPLES);
  for (kind = 0; kind < COUNT(KINDS); kind++)
    for (t = 0; t < COUNT(TOLERANCES); t++) print_report(kind, SAMPLES, TOLERANCES[t]);
  print_report(PULSE, SMALL, TOLERANCES[USUAL]);
  printf("\nThe same at unequal parts\n"
         "         samples     above   below    kept  kovrelna       C   ratio\n");
  for (kind = 0; kind < COUNT(KINDS); kind++)
    for (t = 0; t < COUNT(UNEQUAL); t++) print_report(kind, SAMPLES, UNEQUAL[t]);
}

/* Samples a channel of the runs that are compared. */
static const size_t RUNS[] = {SAMPLES, 256, 16};

/* On the pulse and the noise trace. */
static void print_pedestals(void) {
  size_t kind, s;
  printf("\npedestals, two runs of %d channels at tolerance 7.50 and noise factor %d.\n"
         "Microseconds a call.\n"
         "         samples   moved   noisy  kovrelna       C   ratio\n",
         CHANNELS, FACTOR);
  for (kind = 0; kind < 2; kind++) {
    for (s = 0; s < COUNT(RUNS); s++) {
      crate_row row = measure_crates(PEDESTALS, kind, RUNS[s], TOLERANCES[USUAL]);
      printf("%-8s %7zu %7zu %7zu %9.2f %7.2f %7.2f\n", KINDS[kind].name, RUNS[s],
             comparisons[0].moved, comparisons[0].noisy, row.times[0], row.times[1], row.ratio);
    }
  }
}

/* ---- Tables ---- */

static void print_times(void) {
  const row *r, *end = rows + COUNT(rows);
  const double milliseconds = 1e-6 * SAMPLES; /* of a call with 1 nanosecond a sample */
  printf("Traces of %d samples. Times are nanoseconds a sample, for minimum milliseconds a call:\n"
         "medians of %d repetitions in turn, for minimum %d. Ratios are of the same repetition.\n"
         "Times are of the processor, and depend on the machine.\n"
         "dropout: the pulse trace with holes of %d ticks, under the gap limit %lu.\n"
         "C: %s (%s)\n",
         SAMPLES, REPETITIONS, SLOW_REPETITIONS, HOLE, (unsigned long)KINDS[DROPOUT].gap, FLAGS,
         __VERSION__);
  printf("\nwalk     tolerance    kept  kovrelna       C   ratio\n");
  for (r = rows; r < end; r++)
    printf("%-8s %9.2f %7zu %9.2f %7.2f %7.2f\n", r->kind, number_of(r->tolerance.above),
           r->answers[WALK].kept, median(r, WALK, -1), median(r, WALK_C, -1),
           median(r, WALK, WALK_C));
  printf("\ngallop   tolerance    kept  kovrelna       C   ratio  gallop/walk  probes\n");
  for (r = rows; r < end; r++)
    printf("%-8s %9.2f %7zu %9.2f %7.2f %7.2f %12.2f %7llu\n", r->kind,
           number_of(r->tolerance.above), r->answers[GALLOP].kept, median(r, GALLOP, -1), median(r, GALLOP_C, -1),
           median(r, GALLOP, GALLOP_C), median(r, GALLOP, WALK),
           (unsigned long long)r->answers[GALLOP].probes);
  printf("\nminimum  tolerance    kept  kovrelna       C   ratio  C, no stop   ratio\n");
  for (r = rows; r < end; r++)
    printf("%-8s %9.2f %7zu %9.2f %7.2f %7.2f %11.2f %7.2f\n", r->kind,
           number_of(r->tolerance.above), r->answers[MINIMUM].kept, milliseconds * median(r, MINIMUM, -1),
           milliseconds * median(r, MINIMUM_C, -1), median(r, MINIMUM, MINIMUM_C),
           milliseconds * median(r, MINIMUM_C_NOSTOP, -1), median(r, MINIMUM, MINIMUM_C_NOSTOP));
  printf("\nDouglas-Peucker (DP) in C, vertical distance\n"
         "         tolerance    kept  walk keeps       C  walk/DP\n");
  for (r = rows; r < end; r++)
    printf("%-8s %9.2f %7zu %11zu %7.2f %8.3f\n", r->kind, number_of(r->tolerance.above),
           r->answers[DOUGLAS_PEUCKER_C].kept, r->answers[WALK].kept,
           median(r, DOUGLAS_PEUCKER_C, -1), median(r, WALK, DOUGLAS_PEUCKER_C));
}

static void print_unequal_times(void) {
  static const int reducers[] = {WALK, GALLOP, MINIMUM};
  const row *r, *end = unequal_rows + COUNT(unequal_rows);
  size_t m;
  for (m = 0; m < COUNT(reducers); m++) {
    int x = reducers[m], peer = x + 1;
    double unit = x == MINIMUM ? 1e-6 * SAMPLES : 1;
    printf("\n%s at unequal parts\n"
           "            above   below    kept  kovrelna       C   ratio\n",
           REDUCER[x].name + strlen("kovrelna_"));
    for (r = unequal_rows; r < end; r++)
      printf("%-8s %8.2f %7.2f %7zu %9.2f %7.2f %7.2f\n", r->kind, number_of(r->tolerance.above),
             number_of(r->tolerance.below), r->answers[x].kept, unit * median(r, x, -1),
             unit * median(r, peer, -1), median(r, x, peer));
  }
}

/* What walk, gallop and minimum keep, and minimum at half the tolerance. */
static void print_kept(void) {
  static const ratio tolerances[] = {{1, 2}, {1, 1}, {2, 1}, {5, 2}, {5, 1}, {15, 2}, {15, 1},
                                     {40, 1}};
  static const int reducers[] = {WALK, GALLOP, MINIMUM};
  size_t kind, t, m;
  printf("Kept numbers, traces of %d samples\n"
         "         tolerance    walk  gallop  minimum  minimum at half\n",
         SAMPLES);
  for (kind = 0; kind < COUNT(KINDS); kind++) {
    for (t = 0; t < COUNT(tolerances); t++) {
      const ratio one = tolerances[t], by_half = {one.p, 2 * one.q};
      const parts whole = {one, one}, half = {by_half, by_half};
      reduced answers[REDUCERS];
      for (m = 0; m < COUNT(reducers); m++) {
        int x = reducers[m], peer = x + 1;
        answers[x] = call(x, kind, whole);
        answers[peer] = call(peer, kind, whole);
        same(answers, x, peer);
      }
      printf("%-8s %9.2f %7zu %7zu %8zu %16zu\n", KINDS[kind].name, number_of(one),
             answers[WALK].kept, answers[GALLOP].kept, answers[MINIMUM].kept,
             call(MINIMUM, kind, half).kept);
    }
  }
}

/* ---- Summary ---- */

/* One line of the summary: the call, its microseconds and its ratio to C. */
static void print_line(const char *name, double microseconds, double ratio) {
  printf("%s %.3f %.2f\n", name + strlen("kovrelna_"), microseconds, ratio);
}

/* Walk on two samples. */
static void print_shortest(void) {
  enum { MANY = 1000 };
  static double times[2][REPETITIONS];
  int repetition, x, k;
  for (repetition = 0; repetition < REPETITIONS; repetition++) {
    for (x = WALK; x <= WALK_C; x++) {
      double start = now();
      for (k = 0; k < MANY; k++)
        REDUCER[x].call(ticks[PULSE], values[PULSE], 2, TOLERANCES[USUAL], KINDS[PULSE].gap,
                        lists[x]);
      times[x][repetition] = 1e-3 * (now() - start) / MANY;
    }
  }
  print_line("kovrelna_shortest", median_of(times[WALK], NULL, REPETITIONS),
             median_of(times[WALK], times[WALK_C], REPETITIONS));
}

/* A line of a call on crates of the pulse trace. */
static void print_crates(const char *name, int x, size_t samples, parts tolerance) {
  crate_row row = measure_crates(x, 0, samples, tolerance);
  print_line(name, row.times[0], row.ratio);
}

/* The lines of the calls at unequal parts. */
static void print_unequal_summary(void) {
  static const char *const reducers[] = {"kovrelna_walk_parts", "kovrelna_gallop_parts",
                                         "kovrelna_minimum_parts"};
  static kept_record r;
  scan_set set = make_set(STEPS[EQUAL_STEPS]);
  scan_row scan;
  int x;
  measure(&rows[0], 0, UNEQUAL[USUAL]);
  for (x = WALK; x <= MINIMUM; x += 2)
    print_line(reducers[x / 2], 1e-3 * SAMPLES * median(&rows[0], x, -1),
               median(&rows[0], x, x + 1));
  scan = measure_scan(0, &set);
  print_line("kovrelna_scan_parts", scan.times[SCAN], scan.ratios[SCAN_C]);
  print_crates("kovrelna_report_parts", REPORT, SAMPLES, UNEQUAL[USUAL]);
  measure_records(&r, 0, UNEQUAL[USUAL], 0);
  print_line("kovrelna_judge_parts", median_of(record_times[JUDGE], NULL, REPETITIONS),
             median_of(record_times[JUDGE], record_times[JUDGE_C], REPETITIONS));
  print_line("kovrelna_judge_greedy_parts",
             median_of(record_times[JUDGE_GREEDY], NULL, REPETITIONS),
             median_of(record_times[JUDGE_GREEDY], record_times[JUDGE_GREEDY_C], REPETITIONS));
  print_line("kovrelna_write_parts", median_of(record_times[WRITE], NULL, REPETITIONS),
             median_of(record_times[WRITE], record_times[WRITE_C], REPETITIONS));
}

static void print_summary(void) {
  static kept_record r;
  scan_set set = make_set(STEPS[0]);
  scan_row scan;
  view_row view;
  least_row least;
  int x;
  measure(&rows[0], 0, TOLERANCES[USUAL]);
  for (x = WALK; x <= MINIMUM; x += 2)
    print_line(REDUCER[x].name, 1e-3 * SAMPLES * median(&rows[0], x, -1),
               median(&rows[0], x, x + 1));
  scan = measure_scan(0, &set);
  print_line(SCANNER[SCAN].name, scan.times[SCAN], scan.ratios[SCAN_C]);
  view = measure_view(0, KOVRELNA_VIEW_K_MAX);
  print_line(VIEWER[VIEW_ADD].name, view.last[VIEW_ADD], view.last_ratio);
  print_line(VIEWER[VIEW_ADD].run, 1e3 * view.all[VIEW_ADD], view.all_ratio);
  least = measure_least(0, 20);
  print_line(LEASTER[LEAST].name, 1e3 * least.times[LEAST], least.ratio);
  print_crates(CRATE_CALL[REPORT].name, REPORT, SAMPLES, TOLERANCES[USUAL]);
  print_crates("kovrelna_small", REPORT, SMALL, TOLERANCES[USUAL]);
  print_crates(CRATE_CALL[PEDESTALS].name, PEDESTALS, RUNS[0], TOLERANCES[USUAL]);
  print_crates("kovrelna_small_runs", PEDESTALS, RUNS[2], TOLERANCES[USUAL]);
  measure_records(&r, 0, TOLERANCES[USUAL], 0);
  for (x = 0; x < EXPAND_TABLE_C; x += 2)
    print_line(RECORDER[x].name, median_of(record_times[x], NULL, REPETITIONS),
               median_of(record_times[x], record_times[x + 1], REPETITIONS));
  print_shortest();
  print_unequal_summary();
}

/* A line for each sample. */
static void print_trace(const uint32_t *tick, const int16_t *value, size_t samples) {
  size_t k;
  for (k = 0; k < samples; k++) printf("%lu %d\n", (unsigned long)tick[k], value[k]);
}

int main(int argc, char **argv) {
  const char *what = argc == 2 ? argv[1] : "";
  size_t kind, t;
  int x;
  make_traces();
  make_dropout();
  make_few();
  if (argc >= 4 && argc <= 6 && strcmp(argv[1], "once") == 0) {
    static kept_record record;
    size_t samples = argc >= 5 ? (size_t)atoi(argv[4]) : SAMPLES;
    size_t number = argc >= 5 ? (size_t)atoi(argv[4]) : 0;
    uint32_t k = argc >= 5 ? (uint32_t)atoi(argv[4]) : KOVRELNA_VIEW_K_MAX;
    parts tolerance = argc == 6 ? UNEQUAL[(size_t)atoi(argv[5]) % COUNT(UNEQUAL)] : TOLERANCES[USUAL];
    scan_set set = make_set(STEPS[number % COUNT(STEPS)]);
    for (kind = 0; kind < COUNT(KINDS); kind++) {
      if (strcmp(argv[2], KINDS[kind].name) != 0) continue;
      for (x = 0; x < REDUCERS; x++)
        if (strcmp(argv[3], REDUCER[x].name) == 0) call(x, kind, tolerance);
      for (x = 0; x < RECORDERS; x++) {
        /* In a list of all samples a stop is soon at fault. */
        int all = is_one(tolerance) && x != JUDGE_GREEDY && x != JUDGE_GREEDY_C;
        if (strcmp(argv[3], RECORDER[x].name) != 0) continue;
        make_record(&record, kind, tolerance, all,
                    x == WRITE_C ? library_write : plain_write);
        RECORDER[x].call(&record);
      }
      for (x = 0; x < SCANNERS; x++)
        if (strcmp(argv[3], SCANNER[x].name) == 0) SCANNER[x].call(kind, &set, &scan_found[x]);
      for (x = 0; x < VIEWERS; x++) {
        if (strcmp(argv[3], VIEWER[x].name) == 0) add_last(x, kind, k);
        if (strcmp(argv[3], VIEWER[x].run) == 0) viewed(x, kind, k, SAMPLES);
      }
      for (x = 0; x < LEASTS; x++)
        if (strcmp(argv[3], LEASTER[x].name) == 0) call_least(x, kind, 20);
      make_crates(kind, samples);
      for (x = 0; x < CRATE_CALLS; x++)
        if (strcmp(argv[3], CRATE_CALL[x].name) == 0)
          CRATE_CALL[x].call(CHANNELS * samples, tolerance);
    }
    return 0;
  }
  if (strcmp(what, "kept") == 0) return print_kept(), 0;
  if (strcmp(what, "summary") == 0) return print_summary(), 0;
  if (strcmp(what, "trace") == 0) return print_trace(ticks[PULSE], values[PULSE], SAMPLES), 0;
  if (strcmp(what, "part") == 0) return print_trace(few_ticks[0], few_values[0], FEW), 0;
  for (kind = 0; kind < COUNT(KINDS); kind++)
    for (t = 0; t < COUNT(TOLERANCES); t++)
      measure(&rows[kind * COUNT(TOLERANCES) + t], kind, TOLERANCES[t]);
  for (kind = 0; kind < COUNT(KINDS); kind++)
    for (t = 0; t < COUNT(UNEQUAL); t++)
      measure(&unequal_rows[kind * COUNT(UNEQUAL) + t], kind, UNEQUAL[t]);
  print_times();
  print_unequal_times();
  print_scans();
  print_views();
  print_least();
  print_reports();
  print_pedestals();
  print_records();
  print_unequal_records();
  puts("");
  print_kept();
  return 0;
}
