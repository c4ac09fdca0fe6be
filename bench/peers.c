#include "peers.h"

#include <string.h>

enum { SAMPLES = 4096, SPAN = 1048575, CHANNELS = 64, CODES = 256, FACTOR = 16, TOLERANCES = 16 };
enum { VIEW_K = 32 };

/* Samples that are searched for a hole at once, by vector instructions. */
enum { BLOCK = 64 };

/* For what is compiled once for equal parts, where both edges of a cone have one scale, and once for
 * unequal ones. */
#define FOR_PARTS static inline __attribute__((always_inline))

static int is_trace(const uint32_t *ticks, size_t n) {
  unsigned stuck = 0;
  size_t k;
  if (n == 0 || n > SAMPLES) return 0;
  for (k = 1; k < n; k++) stuck |= ticks[k] <= ticks[k - 1];
  return !stuck && ticks[n - 1] - ticks[0] <= SPAN;
}

/* Whether a hole follows a sample from a on and before b. */
static int some_hole(const uint32_t *ticks, size_t a, size_t b, uint32_t gap) {
  unsigned far = 0;
  size_t k;
  for (k = a; k < b; k++) far |= ticks[k + 1] - ticks[k] > gap;
  return far != 0;
}

/* The first sample from a on and before b that a hole follows, b if there is none. */
static size_t first_hole(const uint32_t *ticks, size_t a, size_t b, uint32_t gap) {
  if (gap >= SPAN) return b;
  while (a + BLOCK <= b && !some_hole(ticks, a, a + BLOCK, gap)) a += BLOCK;
  while (a < b && ticks[a + 1] - ticks[a] <= gap) a++;
  return a;
}

/* The sample after the last to which links from sample i obey the gap limit, where e is the first
 * from i on that a hole follows, or the last. */
static size_t past_links(size_t i, size_t e) { return (e == i ? i + 1 : e) + 1; }

/* A tolerance: the part above, the part below, and each in units of the other's denominator,
 * rounded up. */
typedef struct band {
  ratio up, down;
  int64_t up_most, down_most;
} band;

static int64_t in_units(ratio part, int64_t q) { return (part.p * q + part.q - 1) / part.q; }

static band band_of(parts t) {
  band b = {t.above, t.below, in_units(t.above, t.below.q), in_units(t.below, t.above.q)};
  return b;
}

static int is_one(parts t) { return t.above.p == t.below.p && t.above.q == t.below.q; }

/* That of equal parts. */
FOR_PARTS band one_band(ratio part) {
  band b = {part, part, part.p, part.p};
  return b;
}

/* The slopes of the lines from a start that pass every sample taken in within the band: from low to
 * high. A low rise is in units of the part above's denominator and a high one in those of the part
 * below's; it is below 2^38, and a run below 2^20. */
typedef struct cone {
  int64_t high_rise, high_run, low_rise, low_run;
} cone;

/* A sample as seen from the start of a cone: its rise in either unit. */
typedef struct sight {
  int64_t low_rise, high_rise, run;
} sight;

FOR_PARTS sight sight_of(int64_t change, int64_t run, band b) {
  sight s = {b.up.q * change, b.down.q * change, run};
  return s;
}

FOR_PARTS cone around(sight s, band b) {
  cone c = {s.high_rise + b.down.p, s.run, s.low_rise - b.up.p, s.run};
  return c;
}

/* How far a sample is above the high edge, and below the low edge, times both runs. */
FOR_PARTS int64_t above(cone c, sight s) { return s.high_rise * c.high_run - c.high_rise * s.run; }

FOR_PARTS int64_t below(cone c, sight s) { return c.low_rise * s.run - s.low_rise * c.low_run; }

/* The cone with one more sample, which has these distances from its edges. */
FOR_PARTS cone narrowed(cone c, sight s, band b, int64_t over, int64_t under) {
  int high = over + b.down.p * c.high_run < 0, low = under + b.up.p * c.low_run < 0;
  c.high_rise = high ? s.high_rise + b.down.p : c.high_rise;
  c.high_run = high ? s.run : c.high_run;
  c.low_rise = low ? s.low_rise - b.up.p : c.low_rise;
  c.low_run = low ? s.run : c.low_run;
  return c;
}

/* Writes walk's list of a trace that is one, and returns its kept number. */
FOR_PARTS size_t walk_band(const uint32_t *ticks, const int16_t *values, size_t n, band b,
                           uint32_t gap, uint16_t *out) {
  size_t i = 0, kept = 0;
  out[kept++] = 0;
  while (i < n - 1) {
    size_t past = past_links(i, first_hole(ticks, i, n - 1, gap));
    while (i < past - 1) {
      size_t k = i + 1;
      int64_t tick = ticks[i], value = values[i];
      cone c = around(sight_of(values[k] - value, ticks[k] - tick, b), b);
      while (++k < past) {
        sight s = sight_of(values[k] - value, ticks[k] - tick, b);
        int64_t over = above(c, s), under = below(c, s);
        if ((over > 0) | (under > 0)) break;
        c = narrowed(c, s, b, over, under);
      }
      i = k - 1;
      out[kept++] = (uint16_t)i;
    }
  }
  return kept;
}

static inline size_t walk_list(const uint32_t *ticks, const int16_t *values, size_t n, parts t,
                               uint32_t gap, uint16_t *out) {
  if (is_one(t)) return walk_band(ticks, values, n, one_band(t.above), gap, out);
  return walk_band(ticks, values, n, band_of(t), gap, out);
}

reduced walk_c(const uint32_t *ticks, const int16_t *values, size_t n, parts t, uint32_t gap,
               uint16_t *out) {
  reduced answer = {0, 0};
  if (is_trace(ticks, n)) answer.kept = walk_list(ticks, values, n, t, gap, out);
  return answer;
}

/* Whether surely no line passes all samples and one more, which has these distances from the edges:
 * its own low edge is above the high one, or its high edge below the low one. With equal
 * denominators exactly then; otherwise its own edges are taken in the other's units, rounded outwards,
 * so that no product exceeds 64 bits. */
FOR_PARTS int is_empty(cone c, band b, int64_t over, int64_t under) {
  return (over > b.up_most * c.high_run) | (under > b.down_most * c.low_run);
}

/* Whether the link from i to j is valid, where the cone has the samples after i and before `from`.
 * Takes in the samples up to j. */
FOR_PARTS int extend(cone *c, const uint32_t *ticks, const int16_t *values, size_t i, size_t from,
                     size_t j, band b) {
  int64_t over = 0, under = 0;
  size_t k;
  for (k = from; k <= j; k++) {
    sight s = sight_of(values[k] - values[i], ticks[k] - (int64_t)ticks[i], b);
    over = above(*c, s);
    under = below(*c, s);
    if (is_empty(*c, b, over, under)) return 0;
    *c = narrowed(*c, s, b, over, under);
  }
  return (over <= 0) & (under <= 0);
}

FOR_PARTS reduced gallop_band(const uint32_t *ticks, const int16_t *values, size_t n, band b,
                              uint32_t gap, uint16_t *out) {
  reduced answer = {0, 0};
  size_t i = 0;
  out[answer.kept++] = 0;
  while (i < n - 1) {
    size_t past = past_links(i, first_hole(ticks, i, n - 1, gap));
    while (i < past - 1) {
      size_t low = 1, high = 2;
      int64_t run = ticks[i + 1] - (int64_t)ticks[i];
      cone c = around(sight_of(values[i + 1] - values[i], run, b), b);
      for (;;) {
        cone wider = c;
        answer.probes++;
        if (i + high >= past || !extend(&wider, ticks, values, i, i + low + 1, i + high, b))
          break;
        c = wider;
        low = high;
        high *= 2;
      }
      while (low < high - 1) {
        size_t middle = (low + high) / 2;
        cone wider = c;
        answer.probes++;
        if (i + middle < past && extend(&wider, ticks, values, i, i + low + 1, i + middle, b)) {
          c = wider;
          low = middle;
        } else {
          high = middle;
        }
      }
      i += low;
      out[answer.kept++] = (uint16_t)i;
    }
  }
  return answer;
}

reduced gallop_c(const uint32_t *ticks, const int16_t *values, size_t n, parts t, uint32_t gap,
                 uint16_t *out) {
  reduced none = {0, 0};
  if (!is_trace(ticks, n)) return none;
  if (is_one(t)) return gallop_band(ticks, values, n, one_band(t.above), gap, out);
  return gallop_band(ticks, values, n, band_of(t), gap, out);
}

FOR_PARTS reduced minimum_band(const uint32_t *ticks, const int16_t *values, size_t n, band b,
                               uint32_t gap, uint16_t *out, int stop) {
  reduced answer = {0, 0};
  /* The links of the shortest list from each sample to the last, and the latest next sample. */
  uint16_t links[SAMPLES], next[SAMPLES];
  size_t i, k, past = n;
  links[n - 1] = 0;
  for (i = n - 1; i-- > 0;) {
    int64_t tick = ticks[i], value = values[i];
    cone c = around(sight_of(values[i + 1] - value, ticks[i + 1] - tick, b), b);
    size_t best = i + 1;
    unsigned fewest = links[best];
    /* Only the link of one step crosses a hole after sample i. */
    if (ticks[i + 1] - ticks[i] > gap) past = i + 1;
    for (k = i + 2; k < past; k++) {
      sight s = sight_of(values[k] - value, ticks[k] - tick, b);
      int64_t over = above(c, s), under = below(c, s);
      if ((over <= 0) & (under <= 0)) {
        if (links[k] <= fewest) {
          fewest = links[k];
          best = k;
        }
      } else if (stop && is_empty(c, b, over, under)) {
        break;
      }
      c = narrowed(c, s, b, over, under);
    }
    links[i] = (uint16_t)(fewest + 1);
    next[i] = (uint16_t)best;
  }
  for (i = 0; i < n - 1; i = next[i]) out[answer.kept++] = (uint16_t)i;
  out[answer.kept++] = (uint16_t)i;
  return answer;
}

FOR_PARTS reduced minimum_by_table(const uint32_t *ticks, const int16_t *values, size_t n, parts t,
                                   uint32_t gap, uint16_t *out, int stop) {
  reduced none = {0, 0};
  if (!is_trace(ticks, n)) return none;
  if (is_one(t)) return minimum_band(ticks, values, n, one_band(t.above), gap, out, stop);
  return minimum_band(ticks, values, n, band_of(t), gap, out, stop);
}

reduced minimum_c(const uint32_t *ticks, const int16_t *values, size_t n, parts t, uint32_t gap,
                  uint16_t *out) {
  return minimum_by_table(ticks, values, n, t, gap, out, 1);
}

reduced minimum_c_nostop(const uint32_t *ticks, const int16_t *values, size_t n, parts t,
                         uint32_t gap, uint16_t *out) {
  return minimum_by_table(ticks, values, n, t, gap, out, 0);
}

/* How far sample k is above the line of the link from i to j, times the link's run. */
static int64_t height(const uint32_t *ticks, const int16_t *values, size_t i, size_t j, size_t k) {
  return (values[k] - values[i]) * (ticks[j] - (int64_t)ticks[i]) -
         (values[j] - values[i]) * (ticks[k] - (int64_t)ticks[i]);
}

/* The first of the samples of a link that are farthest from its line, and their distance times the
 * link's run; the link's first sample if all are on the line. */
typedef struct farthest {
  size_t sample;
  int64_t distance, run;
} farthest;

static inline farthest farthest_of(const uint32_t *ticks, const int16_t *values, size_t i,
                                   size_t j) {
  farthest f = {i, 0, ticks[j] - (int64_t)ticks[i]};
  size_t k;
  for (k = i + 1; k < j; k++) {
    int64_t distance = height(ticks, values, i, j, k);
    if (distance < 0) distance = -distance;
    if (distance > f.distance) {
      f.distance = distance;
      f.sample = k;
    }
  }
  return f;
}

/* Marks the samples that Douglas-Peucker keeps of those after i and up to `end`. */
static void divide(const uint32_t *ticks, const int16_t *values, size_t i, size_t end, ratio bound,
                   unsigned char *keep) {
  /* The ends of the links that remain, from the last back. */
  uint16_t ends[SAMPLES];
  size_t open = 0;
  if (end > i) ends[open++] = (uint16_t)end;
  while (open > 0) {
    size_t j = ends[open - 1];
    farthest f = farthest_of(ticks, values, i, j);
    if (f.distance * bound.q > bound.p * f.run) {
      ends[open++] = (uint16_t)f.sample;
    } else {
      keep[j] = 1;
      i = j;
      open--;
    }
  }
}

reduced douglas_peucker_c(const uint32_t *ticks, const int16_t *values, size_t n, parts t,
                          uint32_t gap, uint16_t *out) {
  reduced answer = {0, 0};
  unsigned char keep[SAMPLES];
  size_t i, end, k;
  if (!is_trace(ticks, n)) return answer;
  memset(keep, 0, n);
  for (i = 0; i < n; i = end + 1) {
    end = first_hole(ticks, i, n - 1, gap);
    keep[i] = 1;
    divide(ticks, values, i, end, t.above, keep);
  }
  for (k = 0; k < n; k++)
    if (keep[k]) out[answer.kept++] = (uint16_t)k;
  return answer;
}

/* A fraction has p below 2^38 and q from 1 to SPAN. */
typedef ratio fraction;

static int at_most(fraction x, fraction y) { return x.p * y.q <= y.p * x.q; }

static fraction lowest(int64_t p, int64_t q) {
  int64_t a = p, b = q;
  fraction x;
  while (b != 0) {
    int64_t rest = a % b;
    a = b;
    b = rest;
  }
  x.p = p / a;
  x.q = q / a;
  return x;
}

/* The most turns k with k v at most u and k by at most room. */
static int64_t turns(int64_t u, int64_t v, int64_t room, int64_t by) {
  int64_t most = room / by;
  if (v == 0) return most;
  return u / v < most ? u / v : most;
}

/* The nearest fractions around p/q, p from 1: left below it, right not below it. */
static void neighbours(int64_t p, int64_t q, fraction *left, fraction *right) {
  int64_t whole = (p - 1) / q, under = (p - 1) % q + 1, above = q - under;
  fraction l = {whole, 1}, r = {whole + 1, 1};
  while (l.q + r.q <= SPAN) {
    if (above < under) {
      int64_t k = turns(under - 1, above, SPAN - l.q, r.q);
      l.p += k * r.p;
      l.q += k * r.q;
      under -= k * above;
    } else {
      int64_t k = turns(above, under, SPAN - r.q, l.q);
      r.p += k * l.p;
      r.q += k * l.q;
      above -= k * under;
    }
  }
  *left = l;
  *right = r;
}

/* That of the first worst link of a kept list; sample 0 if there is no link or all samples are on
 * their lines. */
static farthest list_farthest(const uint32_t *ticks, const int16_t *values, const uint16_t *list,
                              size_t kept) {
  farthest worst = {0, 0, 1};
  size_t k;
  for (k = 1; k < kept; k++) {
    farthest f = farthest_of(ticks, values, list[k - 1], list[k]);
    if (f.distance * worst.run > worst.distance * f.run) worst = f;
  }
  return worst;
}

/* The error of a kept list, in lowest terms. */
static fraction list_error(const uint32_t *ticks, const int16_t *values, const uint16_t *list,
                           size_t kept) {
  farthest worst = list_farthest(ticks, values, list, kept);
  return lowest(worst.distance, worst.run);
}

static answered answer_of(unsigned number, size_t value) {
  answered answer = {number, value};
  return answer;
}

/* Why a trace is refused; number 0 if it is not. */
static answered trace_refusal(const uint32_t *ticks, size_t n) {
  size_t k;
  if (is_trace(ticks, n)) return answer_of(0, n);
  if (n == 0 || n > SAMPLES) return answer_of(1, 0);
  for (k = 1; k < n; k++)
    if (ticks[k] <= ticks[k - 1]) return answer_of(2, k);
  for (k = 1; ticks[k] - ticks[0] <= SPAN;) k++;
  return answer_of(3, k);
}

static int is_allowed(ratio part) {
  return part.q >= 1 && part.q <= SPAN && part.p >= 0 && part.p <= 65535 * part.q;
}

/* The position of the first tolerance that is not allowed, `count` if there is none. */
static size_t first_refused(const parts *tolerances, size_t count) {
  size_t a = 0;
  while (a < count && is_allowed(tolerances[a].above) && is_allowed(tolerances[a].below)) a++;
  return a;
}

answered scan_c(const uint32_t *ticks, const int16_t *values, size_t n, const parts *tolerances,
                size_t count, uint32_t gap, uint16_t *restrict out, size_t room,
                size_t *restrict kept) {
  answered trace = trace_refusal(ticks, n);
  size_t a;
  if (trace.number != 0) return trace;
  if (count == 0 || count > TOLERANCES) return answer_of(19, 0);
  a = first_refused(tolerances, count);
  if (a < count) return answer_of(4, a);
  if (gap == 0 || gap > SPAN) return answer_of(15, 0);
  if (room < count * n) return answer_of(10, count * n);
  for (a = 0; a < count; a++)
    kept[a] = walk_list(ticks, values, n, tolerances[a], gap, out + a * n);
  return answer_of(0, count);
}

static channel_row row_of(const uint32_t *ticks, const int16_t *values, size_t n, parts t,
                          uint32_t gap) {
  uint16_t list[SAMPLES];
  channel_row row = {0, 0, 0, 1, 0, 0};
  farthest worst;
  fraction error;
  row.kept = walk_c(ticks, values, n, t, gap, list).kept;
  if (row.kept == 0) {
    row.number = trace_refusal(ticks, n).number;
    return row;
  }
  worst = list_farthest(ticks, values, list, row.kept);
  error = lowest(worst.distance, worst.run);
  row.samples = n;
  row.p = error.p;
  row.q = error.q;
  row.sample = worst.sample;
  return row;
}

/* Whether there are not too few or too many channels and the lengths add up to n. */
static int is_crate(const size_t *lengths, size_t channels, size_t n) {
  size_t k;
  if (channels == 0 || channels > CHANNELS) return 0;
  for (k = 0; k < channels; k++) {
    if (lengths[k] > n) return 0;
    n -= lengths[k];
  }
  return n == 0;
}

crate_totals report_c(const uint32_t *ticks, const int16_t *values, size_t n, const size_t *lengths,
                      size_t channels, parts t, uint32_t gap, channel_row *rows, size_t room) {
  crate_totals totals = {0, 0, 0, 0};
  fraction worst = {0, 1};
  size_t k, at = 0;
  if (!is_crate(lengths, channels, n) || room < channels) return totals;
  for (k = 0; k < channels; k++) {
    fraction error;
    rows[k] = row_of(ticks + at, values + at, lengths[k], t, gap);
    at += lengths[k];
    totals.samples += rows[k].samples;
    totals.kept += rows[k].kept;
    error.p = rows[k].p;
    error.q = rows[k].q;
    if (at_most(worst, error)) worst = error;
  }
  totals.p = worst.p;
  totals.q = worst.q;
  return totals;
}

/* The sum of a trace's values and that of their squares, at most 2^27 and 2^42. */
typedef struct sums {
  int64_t values, squares;
} sums;

/* A square is at most 2^30: as 32 bits without a sign it is widened at the least cost. */
static sums sums_of(const int16_t *values, size_t n) {
  int32_t sum = 0;
  uint64_t squares = 0;
  sums s;
  size_t k;
  for (k = 0; k < n; k++) {
    sum += values[k];
    squares += (uint32_t)(values[k] * values[k]);
  }
  s.values = sum;
  s.squares = (int64_t)squares;
  return s;
}

/* n squared times the variance, at most 2^54. */
static int64_t noise_of(sums s, int64_t n) { return n * s.squares - s.values * s.values; }

static compared declined(unsigned number, size_t value) {
  compared answer = {number, value, 0, 0};
  return answer;
}

compared pedestals_c(const crate_run *today, const crate_run *before, int64_t p, int64_t q,
                     int64_t k, uint16_t *moved, size_t moved_room, uint16_t *noisy,
                     size_t noisy_room) {
  compared answer = {0, 0, 0, 0};
  size_t channels = today->channels, c, at = 0;
  if (k < 1 || k > FACTOR) return declined(14, 0);
  if (!is_crate(today->lengths, channels, today->n) ||
      !is_crate(before->lengths, before->channels, before->n) || before->channels != channels)
    return declined(11, 0);
  for (c = 0; c < channels; c++) {
    size_t n = today->lengths[c];
    unsigned number = trace_refusal(today->ticks + at, n).number;
    if (number == 0) number = trace_refusal(before->ticks + at, before->lengths[c]).number;
    if (number == 0 && before->lengths[c] != n) number = 13;
    if (number != 0) return declined(number, c);
    at += n;
  }
  if (moved_room < channels || noisy_room < channels) return declined(10, channels);
  for (c = 0, at = 0; c < channels; c++) {
    size_t n = today->lengths[c];
    sums x = sums_of(today->values + at, n), y = sums_of(before->values + at, n);
    int64_t change = x.values - y.values;
    if ((change < 0 ? -change : change) * q > p * (int64_t)n) moved[answer.moved++] = (uint16_t)c;
    if (noise_of(x, (int64_t)n) > k * k * noise_of(y, (int64_t)n))
      noisy[answer.noisy++] = (uint16_t)c;
    at += n;
  }
  return answer;
}

/* Why a list is refused for a trace of n samples; number 0 if it is a kept list. */
static answered list_refusal(const uint16_t *list, size_t kept, size_t n) {
  unsigned stuck = 0;
  size_t k;
  for (k = 1; k < kept; k++) stuck |= list[k] <= list[k - 1];
  if (!stuck && kept != 0 && list[0] == 0 && list[kept - 1] == n - 1) return answer_of(0, kept);
  for (k = 0; k < kept && list[k] < n; k++)
    if (k == 0 ? list[k] != 0 : list[k] <= list[k - 1]) break;
  return answer_of(6, k);
}

/* The first sample whose ticks differ, n if there is none. */
static size_t first_mismatch(const uint32_t *one, const uint32_t *two, size_t n) {
  unsigned differ = 0;
  size_t k;
  for (k = 0; k < n; k++) differ |= one[k] != two[k];
  if (differ)
    for (k = 0; one[k] == two[k];) k++;
  return k;
}

static int is_overflow(int sum) { return sum < INT16_MIN || sum > INT16_MAX; }

/* The first sample whose sum does not fit, n if there is none. */
static size_t first_overflow(const int16_t *one, const int16_t *two, size_t n) {
  unsigned over = 0;
  size_t k;
  for (k = 0; k < n; k++) over |= is_overflow(one[k] + two[k]);
  if (over)
    for (k = 0; !is_overflow(one[k] + two[k]);) k++;
  return k;
}

/* Writes the samples in either list, and returns their number. Both lists end with the same one. */
static size_t join(const uint16_t *one, size_t kept, const uint16_t *two,
                   uint16_t *restrict joined) {
  size_t i = 0, j = 0, count = 0;
  while (i < kept) {
    uint16_t x = one[i], y = two[j];
    joined[count++] = x < y ? x : y;
    i += x <= y;
    j += y <= x;
  }
  return count;
}

answered sum_c(const reduced_trace *one, const reduced_trace *two, int16_t *restrict sums,
               size_t sums_room, uint16_t *restrict joined, size_t joined_room) {
  size_t n = one->n, same, over, k;
  answered fault = trace_refusal(one->ticks, n);
  if (fault.number == 0) fault = trace_refusal(two->ticks, two->n);
  if (fault.number == 0) fault = list_refusal(one->list, one->kept, n);
  if (fault.number == 0) fault = list_refusal(two->list, two->kept, two->n);
  if (fault.number != 0) return fault;
  same = first_mismatch(one->ticks, two->ticks, n < two->n ? n : two->n);
  if (same < n || same < two->n) return answer_of(17, same);
  over = first_overflow(one->values, two->values, n);
  if (over < n) return answer_of(18, over);
  if (sums_room < n || joined_room < n) return answer_of(10, n);
  for (k = 0; k < n; k++) sums[k] = (int16_t)(one->values[k] + two->values[k]);
  return answer_of(0, join(one->list, one->kept, two->list, joined));
}

/* A trace with the gap limit and the allowance, the list tried last, and the number of lists
 * tried. */
typedef struct search {
  const uint32_t *ticks;
  const int16_t *values;
  size_t n;
  uint32_t gap;
  size_t m;
  uint16_t *out;
  unsigned runs;
} search;

/* One tolerance: both parts. */
static parts both(fraction x) {
  parts t = {x, x};
  return t;
}

/* Whether the minimum's list at x has at most m samples; x is then its error. */
static int fits(search *s, fraction *x) {
  size_t kept = minimum_c(s->ticks, s->values, s->n, both(*x), s->gap, s->out).kept;
  s->runs++;
  if (kept > s->m) return 0;
  *x = list_error(s->ticks, s->values, s->out, kept);
  return 1;
}

/* Tries a tolerance next to the middle. */
static void halve(search *s, fraction *low, fraction *high) {
  fraction left, right, x;
  if (high->p == 0) return;
  neighbours(low->p * high->q + high->p * low->q, 2 * low->q * high->q, &left, &right);
  x = at_most(left, *low) ? right : left;
  if (at_most(*high, x)) return;
  if (fits(s, &x))
    *high = x;
  else
    *low = x;
}

/* Whether the two are at most 1/64 apart. */
static int is_narrow(fraction low, fraction high) {
  return 64 * high.p * low.q <= 64 * low.p * high.q + low.q * high.q;
}

/* Writes the shortest list that obeys the gap limit, and returns its kept number. */
static size_t obeying(const uint32_t *ticks, size_t n, uint32_t gap, uint16_t *list) {
  size_t kept = 0, i = 0;
  list[kept++] = 0;
  while (i < n - 1) {
    i = past_links(i, first_hole(ticks, i, n - 1, gap)) - 1;
    list[kept++] = (uint16_t)i;
  }
  return kept;
}

least_found least_c(const uint32_t *ticks, const int16_t *values, size_t n, uint32_t gap, size_t m,
                    uint16_t *out) {
  search s = {ticks, values, n, gap, m, out, 0};
  fraction low = {0, 1}, high = {0, 1};
  least_found found = {0, 0, 0, 0};
  uint16_t shortest[256];
  size_t fewest;
  int turn;
  if (n > 256 || !is_trace(ticks, n)) return found;
  fewest = obeying(ticks, n, gap, shortest);
  if (fewest > m) return found;
  if (!fits(&s, &high)) high = list_error(ticks, values, shortest, fewest);
  for (turn = 0; turn < 44 && !is_narrow(low, high); turn++) halve(&s, &low, &high);
  while (high.p > 0) {
    fraction x, right;
    neighbours(high.p, high.q, &x, &right);
    if (!fits(&s, &x)) break;
    high = x;
    halve(&s, &low, &high);
  }
  found.kept = minimum_c(ticks, values, n, both(high), gap, out).kept;
  found.p = high.p;
  found.q = high.q;
  found.runs = s.runs + 1;
  return found;
}

static int is_list(const uint16_t *list, size_t kept, size_t n) {
  size_t k;
  if (kept == 0 || list[0] != 0 || list[kept - 1] != n - 1) return 0;
  for (k = 1; k < kept; k++)
    if (list[k] <= list[k - 1]) return 0;
  return 1;
}

/* The error of a link, not in lowest terms. */
static inline fraction error_of(const uint32_t *ticks, const int16_t *values, size_t i, size_t j) {
  int64_t tick = ticks[i], value = values[i], run = ticks[j] - tick, change = values[j] - value;
  fraction error = {0, run};
  size_t k;
  for (k = i + 1; k < j; k++) {
    int64_t distance = (values[k] - value) * run - change * (ticks[k] - tick);
    if (distance < 0) distance = -distance;
    if (distance > error.p) error.p = distance;
  }
  return error;
}

answered view_add_c(uint32_t k, uint32_t *restrict count, uint16_t *restrict samples,
                    const uint32_t *ticks, const int16_t *values, size_t n) {
  answered trace = trace_refusal(ticks, n);
  size_t kept = *count, dropped = 1, x;
  fraction least;
  if (trace.number != 0) return trace;
  if (k > VIEW_K || kept > 2 * k + 2 || !is_list(samples, kept, n - 1)) return answer_of(20, 0);
  if (kept < 2 * k + 2) {
    samples[kept] = (uint16_t)(n - 1);
    *count = (uint32_t)kept + 1;
    return answer_of(0, 0);
  }
  least = error_of(ticks, values, samples[0], kept > 2 ? samples[2] : n - 1);
  for (x = 2; x < kept; x++) {
    fraction error =
        error_of(ticks, values, samples[x - 1], x + 1 < kept ? samples[x + 1] : n - 1);
    if (at_most(least, error)) continue;
    least = error;
    dropped = x;
  }
  memmove(&samples[dropped], &samples[dropped + 1], (kept - 1 - dropped) * sizeof(uint16_t));
  samples[kept - 1] = (uint16_t)(n - 1);
  return answer_of(0, 0);
}

FOR_PARTS int is_within_band(const uint32_t *ticks, const int16_t *values, size_t i, size_t j,
                             ratio up, ratio down) {
  int64_t run = ticks[j] - (int64_t)ticks[i], change = values[j] - values[i];
  size_t k;
  for (k = i + 1; k < j; k++) {
    int64_t height = (values[k] - values[i]) * run - change * (ticks[k] - (int64_t)ticks[i]);
    if (up.q * height > up.p * run || down.q * height < -down.p * run) return 0;
  }
  return 1;
}

/* Whether each sample of a link is within its part. */
static inline int is_within(const uint32_t *ticks, const int16_t *values, size_t i, size_t j,
                            parts t) {
  if (is_one(t)) return is_within_band(ticks, values, i, j, t.above, t.above);
  return is_within_band(ticks, values, i, j, t.above, t.below);
}

/* For a link of more than one step: one of one step is always valid. */
static int is_valid(const uint32_t *ticks, const int16_t *values, size_t i, size_t j, parts t,
                    uint32_t gap) {
  return first_hole(ticks, i, j, gap) == j && is_within(ticks, values, i, j, t);
}

static link_measure measure_of(const uint32_t *ticks, const int16_t *values, size_t i, size_t j) {
  farthest f = farthest_of(ticks, values, i, j);
  fraction error = lowest(f.distance, f.run);
  link_measure m = {error.p, error.q, f.sample, SIDE_ON};
  if (f.distance != 0)
    m.side = height(ticks, values, i, j, f.sample) > 0 ? SIDE_ABOVE : SIDE_BELOW;
  return m;
}

link_measure measure_c(const uint32_t *ticks, const int16_t *values, size_t n, size_t i, size_t j) {
  link_measure none = {0, 0, 0, SIDE_ON};
  if (!is_trace(ticks, n) || i >= n || j >= n || j <= i) return none;
  return measure_of(ticks, values, i, j);
}

/* The measure of an invalid link: where it is within both parts, a hole makes it so. */
static link_measure strayed(const uint32_t *ticks, const int16_t *values, size_t i, size_t j,
                            parts t, uint32_t gap) {
  link_measure m = measure_of(ticks, values, i, j);
  if (is_within(ticks, values, i, j, t)) {
    m.sample = first_hole(ticks, i, j, gap);
    m.side = SIDE_GAP;
  }
  return m;
}

judged judge_c(const uint32_t *ticks, const int16_t *values, size_t n, const uint16_t *list,
               size_t kept, parts t, uint32_t gap) {
  judged answer = {0, 0, {0, 0, 0, SIDE_ON}};
  size_t k;
  if (!is_trace(ticks, n) || !is_list(list, kept, n)) return answer;
  for (k = 1; k < kept; k++) {
    size_t i = list[k - 1], j = list[k];
    if (j > i + 1 && !is_valid(ticks, values, i, j, t, gap)) {
      answer.link = k - 1;
      answer.measure = strayed(ticks, values, i, j, t, gap);
      return answer;
    }
  }
  answer.passed = 1;
  return answer;
}

/* The fault of the link from i to j, where links from i obey the gap limit before sample `past`: the
 * cone of its samples tests its end and the sample after it. Without a sample after it that obeys the
 * limit, the link alone is tested. */
FOR_PARTS unsigned fault_of(const uint32_t *ticks, const int16_t *values, size_t i, size_t j,
                            size_t past, band b) {
  int64_t tick = ticks[i], value = values[i];
  size_t k = i + 1;
  sight s = sight_of(values[k] - value, ticks[k] - tick, b);
  cone c = around(s, b);
  if (j >= past) return FAULT_LINK;
  if (j + 1 == past)
    return is_within_band(ticks, values, i, j, b.up, b.down) ? FAULT_NONE : FAULT_LINK;
  while (k < j) {
    int64_t over, under;
    k++;
    s = sight_of(values[k] - value, ticks[k] - tick, b);
    over = above(c, s), under = below(c, s);
    if (k == j && ((over > 0) | (under > 0))) return FAULT_LINK;
    c = narrowed(c, s, b, over, under);
  }
  s = sight_of(values[j + 1] - value, ticks[j + 1] - tick, b);
  return (above(c, s) > 0) | (below(c, s) > 0) ? FAULT_NONE : FAULT_STOP;
}

FOR_PARTS judged_greedy judge_greedy_band(const uint32_t *ticks, const int16_t *values, size_t n,
                                          const uint16_t *list, size_t kept, band b, uint32_t gap) {
  judged_greedy answer = {0, 0, FAULT_NONE};
  size_t hole = first_hole(ticks, 0, n - 1, gap), k;
  for (k = 1; k < kept; k++) {
    size_t i = list[k - 1];
    if (i > hole) hole = first_hole(ticks, i, n - 1, gap);
    answer.fault = fault_of(ticks, values, i, list[k], past_links(i, hole), b);
    if (answer.fault != FAULT_NONE) {
      answer.link = k - 1;
      return answer;
    }
  }
  answer.passed = 1;
  return answer;
}

judged_greedy judge_greedy_c(const uint32_t *ticks, const int16_t *values, size_t n,
                             const uint16_t *list, size_t kept, parts t, uint32_t gap) {
  judged_greedy none = {0, 0, FAULT_NONE};
  if (!is_trace(ticks, n) || !is_list(list, kept, n)) return none;
  if (is_one(t)) return judge_greedy_band(ticks, values, n, list, kept, one_band(t.above), gap);
  return judge_greedy_band(ticks, values, n, list, kept, band_of(t), gap);
}

static int16_t code_value(unsigned c) { return (int16_t)(((c % 32 + 32) << (c / 32)) - 32); }

size_t expand_c(const uint8_t *codes, size_t n, int16_t *restrict values, size_t room) {
  size_t k;
  if (n == 0 || n > SAMPLES || room < n) return 0;
  for (k = 0; k < n; k++) values[k] = code_value(codes[k]);
  return n;
}

size_t expand_table_c(const uint8_t *codes, size_t n, int16_t *restrict values, size_t room) {
  static int16_t table[CODES];
  size_t k;
  if (n == 0 || n > SAMPLES || room < n) return 0;
  if (table[255] == 0)
    for (k = 0; k < CODES; k++) table[k] = code_value((unsigned)k);
  for (k = 0; k < n; k++) values[k] = table[codes[k]];
  return n;
}

/* The first code whose value is not above the one before, 256 if there is none. */
static size_t first_stuck(const int16_t *table) {
  unsigned stuck = 0;
  size_t c;
  for (c = 1; c < CODES; c++) stuck |= table[c] <= table[c - 1];
  if (stuck)
    for (c = 1; table[c] > table[c - 1];) c++;
  return c;
}

answered expand_with_c(const uint8_t *codes, size_t n, const int16_t *table, size_t table_n,
                       int16_t *restrict values, size_t room) {
  answered answer = {0, n};
  size_t fault, k;
  if (n == 0 || n > SAMPLES) return answer_of(1, 0);
  if (table_n != CODES) return answer_of(12, 0);
  fault = first_stuck(table);
  if (fault < CODES) return answer_of(12, fault);
  if (room < n) return answer_of(10, n);
  for (k = 0; k < n; k++) values[k] = table[codes[k]];
  return answer;
}

static int is_short(int64_t advance, int64_t change) {
  return advance <= 255 && change >= -128 && change <= 127;
}

/* Bytes of each command, and of a ratio in that of the tolerance. */
enum { TOLERANCE = 9, PARTS = 17, FIRST = 7, SHORT = 3, LONG = 6, END = 3, RATIO = 8 };

static uint8_t *put(uint8_t *at, uint64_t number, int bytes) {
  while (bytes-- > 0) *at++ = (uint8_t)(number >> (8 * bytes));
  return at;
}

static uint64_t get(const uint8_t *at, int bytes) {
  uint64_t number = 0;
  while (bytes-- > 0) number = number << 8 | *at++;
  return number;
}

static uint8_t *put_ratio(uint8_t *at, ratio part) {
  return put(put(at, (uint64_t)part.p, 5), (uint64_t)part.q, 3);
}

size_t write_c(const uint32_t *ticks, const int16_t *values, size_t n, const uint16_t *list,
               size_t kept, parts t, uint32_t gap, uint8_t *buffer, size_t size) {
  size_t length = (is_one(t) ? TOLERANCE : PARTS) + FIRST + END, k;
  uint8_t *at = buffer;
  if (!is_trace(ticks, n) || !is_list(list, kept, n)) return 0;
  for (k = 1; k < kept; k++) {
    size_t i = list[k - 1], j = list[k];
    if (j > i + 1 && !is_valid(ticks, values, i, j, t, gap)) return 0;
    length += is_short(ticks[j] - (int64_t)ticks[i], values[j] - values[i]) ? SHORT : LONG;
  }
  if (size < length) return 0;
  *at++ = is_one(t) ? 0x54 : 0x42;
  at = put_ratio(at, t.above);
  if (!is_one(t)) at = put_ratio(at, t.below);
  *at++ = 0x41;
  at = put(at, ticks[0], 4);
  at = put(at, (uint16_t)values[0], 2);
  for (k = 1; k < kept; k++) {
    size_t i = list[k - 1], j = list[k];
    int64_t advance = ticks[j] - (int64_t)ticks[i], change = values[j] - values[i];
    if (is_short(advance, change)) {
      *at++ = 0x53;
      *at++ = (uint8_t)advance;
      *at++ = (uint8_t)change;
    } else {
      *at++ = 0x4C;
      at = put(at, (uint64_t)advance, 3);
      at = put(at, (uint16_t)values[j], 2);
    }
  }
  *at++ = 0x45;
  put(at, kept, 2);
  return length;
}

/* Whether this is an allowed ratio in lowest terms. */
static int is_ratio(const uint8_t *at) {
  uint64_t p = get(at, 5), q = get(at + 5, 3);
  if (q < 1 || q > SPAN || p > 65535 * q) return 0;
  while (q != 0) {
    uint64_t rest = p % q;
    p = q;
    q = rest;
  }
  return p == 1;
}

/* Moves the sample by a whole step; returns the next command. */
static const uint8_t *take_step(const uint8_t *at, int64_t *tick, int64_t *value) {
  if (at[0] == 0x53) {
    *tick += at[1];
    *value += (int8_t)at[2];
    return at + SHORT;
  }
  *tick += (int64_t)get(at + 1, 3);
  *value = (int16_t)get(at + 4, 2);
  return at + LONG;
}

/* The bytes of the record's tolerance, 0 if it is faulty: two ratios differ. */
static size_t header_of(const uint8_t *record, size_t length) {
  if (length < TOLERANCE || !is_ratio(record + 1)) return 0;
  if (record[0] == 0x54) return TOLERANCE;
  if (record[0] != 0x42 || length < PARTS || !is_ratio(record + 1 + RATIO) ||
      memcmp(record + 1, record + 1 + RATIO, RATIO) == 0)
    return 0;
  return PARTS;
}

/* The number of the record's samples, 0 if it is faulty. */
static size_t samples_in(const uint8_t *record, size_t length) {
  const uint8_t *at, *end = record + length;
  size_t samples = 1, header = header_of(record, length);
  int64_t first, tick, value;
  if (header == 0 || length < header + FIRST + END || record[header] != 0x41) return 0;
  at = record + header + FIRST;
  first = tick = (int64_t)get(record + header + 1, 4);
  value = (int16_t)get(record + header + 5, 2);
  while ((end - at >= SHORT && at[0] == 0x53) || (end - at >= LONG && at[0] == 0x4C)) {
    int64_t from = tick, before = value;
    int is_short_step = at[0] == 0x53;
    at = take_step(at, &tick, &value);
    if (tick == from || is_short(tick - from, value - before) != is_short_step ||
        tick - first > SPAN || tick > UINT32_MAX || value != (int16_t)value || samples == SAMPLES)
      return 0;
    samples++;
  }
  return end - at == END && at[0] == 0x45 && get(at + 1, 2) == samples ? samples : 0;
}

size_t read_c(const uint8_t *record, size_t length, uint32_t *ticks, int16_t *values, size_t room) {
  const uint8_t *first = record + (length > 0 && record[0] == 0x42 ? PARTS : TOLERANCE);
  const uint8_t *steps = first + FIRST;
  size_t samples = samples_in(record, length), k;
  int64_t tick, value;
  if (samples == 0 || room < samples) return 0;
  tick = (int64_t)get(first + 1, 4);
  value = (int16_t)get(first + 5, 2);
  ticks[0] = (uint32_t)tick;
  values[0] = (int16_t)value;
  for (k = 1; k < samples; k++) {
    steps = take_step(steps, &tick, &value);
    ticks[k] = (uint32_t)tick;
    values[k] = (int16_t)value;
  }
  return samples;
}

int same_c(const uint8_t *first, size_t first_n, const uint8_t *second, size_t second_n) {
  if (samples_in(first, first_n) == 0 || samples_in(second, second_n) == 0) return -1;
  return first_n == second_n && memcmp(first, second, first_n) == 0;
}
