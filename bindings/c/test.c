/* The C interface as a user calls it. Compiles as C and as C++. Prints "c: ok" and returns 0, or
 * says what differs and returns 1.
 *
 * Contents, in order: lent lists and where they are placed; the table of calls; cases of each call;
 * empty lists; the longest trace, scan, view, sum, crate and pedestal runs; the version, and causes,
 * sides and faults in words.
 *
 * Each case is called once in every placement of its lists: against a page that cannot be read or
 * written, between guard bytes, and at exact size on the heap. Where the program is built with
 * AddressSanitizer, the lists on the heap have its red zones around them.
 */
#define _DEFAULT_SOURCE /* mmap */
#include "kovrelna.h"

#include <math.h>
#include <signal.h>
#include <stdio.h>
#include <stdlib.h>
#include <string.h>
#include <sys/mman.h>
#include <unistd.h>

#define COUNT(array) (sizeof(array) / sizeof((array)[0]))

static int failures = 0;

/* The call that is tried, and the line of its case. */
static const char *now_name;
static int now_line;

static void differ(const char *field, uint64_t found, uint64_t expected) {
  if (found == expected) return;
  printf("c: line %d, %s: %s: %llu, not %llu\n", now_line, now_name, field,
         (unsigned long long)found, (unsigned long long)expected);
  failures++;
}

static void beyond(int signal_number) {
  (void)signal_number;
  printf("c: line %d, %s: reads or writes beyond a list, or writes an input\n", now_line, now_name);
  fflush(stdout);
  _exit(1);
}

static void fail(const char *what) {
  printf("c: %s\n", what);
  exit(1);
}

/* ---- Lent lists ---- */

/* Where a list lies. AT_END, AT_START: before or after a page that cannot be read or written; an
 * empty list points into that page, and an input's own pages cannot be written. GUARDED: between
 * GUARD bytes before and after. EXACT: in a block of its own size on the heap; an empty list has a
 * null pointer. */
enum placement { AT_END, AT_START, GUARDED, EXACT, PLACEMENTS };
enum { GUARD = 64 };

/* A list as it is lent to a call. */
struct list {
  size_t size, len;     /* bytes of an element; elements */
  const void *content;  /* what an input or a state holds; null for an output, which `lend` fills */
  const void *written;  /* what the call writes into an output or a state, */
  size_t at, count;     /* from this byte on, so many bytes; */
  const uint8_t *only;  /* of these elements those with 1 alone, if it is not null */
  unsigned char *first; /* the first element as lent */
  unsigned char *block; /* what is allocated for it, */
  size_t block_size;    /* so many bytes */
};

static struct list input(const void *content, size_t len, size_t size) {
  struct list list = {size, len, content, NULL, 0, 0, NULL, NULL, NULL, 0};
  return list;
}

/* An output that stays as it is. */
static struct list output(size_t len, size_t size) {
  struct list list = {size, len, NULL, NULL, 0, 0, NULL, NULL, NULL, 0};
  return list;
}

/* An output into which the call writes these elements, from the element `at` on. */
static struct list filled(size_t len, size_t size, const void *written, size_t at, size_t count) {
  struct list list = {size, len, NULL, written, at * size, count * size, NULL, NULL, NULL, 0};
  return list;
}

/* A state, of which the call makes another in place. */
static struct list state(const void *before, const void *after, size_t size) {
  struct list list = {size, 1, before, after, 0, size, NULL, NULL, NULL, 0};
  return list;
}

static int is_input(const struct list *list) {
  return list->content != NULL && list->written == NULL;
}

/* The byte at k of an output, or of guard bytes, before a call. */
static unsigned char filler(enum placement placement, size_t k) {
  return (unsigned char)(0xA5 + 0x55 * (size_t)placement + 7 * k);
}

static size_t page(void) { return (size_t)sysconf(_SC_PAGESIZE); }

static void allocate(struct list *list, enum placement placement) {
  size_t bytes = list->size * list->len;
  if (placement == EXACT || placement == GUARDED) {
    size_t guard = placement == GUARDED ? GUARD : 0, k;
    list->block_size = guard + bytes + guard;
    list->block = list->block_size == 0 ? NULL : (unsigned char *)malloc(list->block_size);
    if (list->block_size != 0 && list->block == NULL) fail("no memory");
    for (k = 0; k < list->block_size; k++) list->block[k] = filler(placement, k);
    list->first = list->block_size == 0 ? NULL : list->block + guard;
  } else {
    size_t pages = (bytes + page() - 1) / page() * page();
    void *block = mmap(NULL, pages + page(), PROT_READ | PROT_WRITE, MAP_PRIVATE | MAP_ANONYMOUS,
                       -1, 0);
    if (block == MAP_FAILED) fail("no memory");
    list->block = (unsigned char *)block;
    list->block_size = pages + page();
    list->first = list->block + (placement == AT_END ? pages - bytes : bytes == 0 ? 0 : page());
  }
}

/* Makes the page beside the list, and an input's own pages, as enum placement says. */
static void protect(const struct list *list, enum placement placement) {
  size_t pages = list->block_size - page();
  unsigned char *own = placement == AT_END ? list->block : list->block + page();
  unsigned char *other = placement == AT_END ? list->block + pages : list->block;
  if (mprotect(other, page(), PROT_NONE) != 0 ||
      (is_input(list) && pages != 0 && mprotect(own, pages, PROT_READ) != 0))
    fail("no protection");
}

/* Places the list anew, with its content. */
static void lend(struct list *list, enum placement placement) {
  size_t bytes = list->size * list->len, k;
  allocate(list, placement);
  for (k = 0; k < bytes; k++)
    list->first[k] = list->content == NULL ? filler(placement, k)
                                           : ((const unsigned char *)list->content)[k];
  if (placement == AT_END || placement == AT_START) protect(list, placement);
}

/* Whether the byte at k belongs to no field: a summary has such bytes behind its last one. A call
 * that writes an element may change them. */
static int is_padding(const struct list *list, size_t k) {
  return list->size == sizeof(kovrelna_summary) &&
         k % list->size >= offsetof(kovrelna_summary, number) + sizeof(uint32_t);
}

/* Whether the call writes the byte at k. */
static int is_written(const struct list *list, size_t k) {
  return k >= list->at && k < list->at + list->count &&
         (list->only == NULL || list->only[(k - list->at) / list->size] != 0);
}

/* Checks what the list holds after the call, and frees it. */
static void take_back(struct list *list, enum placement placement) {
  const unsigned char *content = (const unsigned char *)list->content,
                      *written = (const unsigned char *)list->written;
  size_t bytes = list->size * list->len, changed = 0, k;
  for (k = 0; k < bytes; k++) {
    unsigned char expected = content != NULL ? content[k] : filler(placement, k);
    if (is_written(list, k)) {
      if (is_padding(list, k)) continue;
      expected = written[k - list->at];
    }
    changed += list->first[k] != expected;
  }
  differ(is_input(list) ? "bytes of an input changed" : "wrong bytes of an output or a state",
         changed, 0);
  if (placement == GUARDED) {
    for (changed = 0, k = 0; k < GUARD; k++)
      changed += (list->block[k] != filler(placement, k)) +
                 (list->block[GUARD + bytes + k] != filler(placement, GUARD + bytes + k));
    differ("guard bytes changed", changed, 0);
  }
  if (placement == EXACT || placement == GUARDED)
    free(list->block);
  else
    munmap(list->block, list->block_size);
}

/* ---- The calls ---- */

/* The answer of any call; fields that it does not have are 0. */
struct answer {
  uint32_t number;
  uint64_t value, passed, probes, p, q, samples, kept, moved, noisy, sample, side, below_p, below_q,
      fault;
};

/* Number and value; all else is 0. */
static struct answer answered(uint32_t number, uint64_t value) {
  struct answer answer = {number, value, 0, 0, 0, 0, 0, 0, 0, 0, 0, 0, 0, 0, 0};
  return answer;
}

static struct answer with_ratio(uint32_t number, uint64_t value, uint64_t p, uint64_t q) {
  struct answer answer = answered(number, value);
  answer.p = p;
  answer.q = q;
  return answer;
}

static struct answer with_parts(uint32_t number, uint64_t value, uint64_t p, uint64_t q,
                                uint64_t below_p, uint64_t below_q) {
  struct answer answer = with_ratio(number, value, p, q);
  answer.below_p = below_p;
  answer.below_q = below_q;
  return answer;
}

static struct answer with_passed(uint32_t number, uint64_t value, uint64_t passed) {
  struct answer answer = answered(number, value);
  answer.passed = passed;
  return answer;
}

static struct answer with_measure(uint32_t number, uint64_t value, uint64_t p, uint64_t q,
                                  uint64_t sample, uint64_t side) {
  struct answer answer = with_ratio(number, value, p, q);
  answer.sample = sample;
  answer.side = side;
  return answer;
}

static struct answer with_fault(uint64_t link, uint64_t fault) {
  struct answer answer = answered(0, link);
  answer.fault = fault;
  return answer;
}

static struct answer plain(kovrelna_answer from) { return answered(from.number, from.value); }

#define U8(k) (uint8_t *)lists[k].first, lists[k].len
#define U16(k) (uint16_t *)(void *)lists[k].first, lists[k].len
#define I16(k) (int16_t *)(void *)lists[k].first, lists[k].len
#define U32(k) (uint32_t *)(void *)lists[k].first, lists[k].len
#define LENGTHS(k) (size_t *)(void *)lists[k].first, lists[k].len
#define SUMMARIES(k) (kovrelna_summary *)(void *)lists[k].first, lists[k].len

/* The tolerance's p and q stand for the samples i and j. */
static struct answer call_measure(const struct list *lists, kovrelna_limits limits, size_t place) {
  kovrelna_measured from = kovrelna_measure(U32(0), I16(1), (size_t)limits.tolerance.p,
                                            (size_t)limits.tolerance.q);
  (void)place;
  return with_measure(from.number, from.value, from.p, from.q, from.sample, from.side);
}

static struct answer call_judge(const struct list *lists, kovrelna_limits limits, size_t place) {
  kovrelna_judged from = kovrelna_judge(U32(0), I16(1), U16(2), limits);
  struct answer answer =
      with_measure(from.number, from.value, from.p, from.q, from.sample, from.side);
  answer.passed = from.passed;
  (void)place;
  return answer;
}

static struct answer call_judge_greedy(const struct list *lists, kovrelna_limits limits,
                                       size_t place) {
  kovrelna_judged_greedy from = kovrelna_judge_greedy(U32(0), I16(1), U16(2), limits);
  struct answer answer = with_passed(from.number, from.value, from.passed);
  answer.fault = from.fault;
  (void)place;
  return answer;
}

static struct answer call_walk(const struct list *lists, kovrelna_limits limits, size_t place) {
  (void)place;
  return plain(kovrelna_walk(U32(0), I16(1), limits, U16(2)));
}

static struct answer call_gallop(const struct list *lists, kovrelna_limits limits, size_t place) {
  kovrelna_galloped from = kovrelna_gallop(U32(0), I16(1), limits, U16(2));
  struct answer answer = answered(from.number, from.value);
  answer.probes = from.probes;
  (void)place;
  return answer;
}

static struct answer call_minimum(const struct list *lists, kovrelna_limits limits, size_t place) {
  (void)place;
  return plain(kovrelna_minimum(U32(0), I16(1), limits, U16(2)));
}

static struct answer call_least(const struct list *lists, kovrelna_limits limits,
                                size_t allowance) {
  kovrelna_closest from = kovrelna_least(U32(0), I16(1), limits.gap, allowance, U16(2));
  return with_ratio(from.number, from.value, from.p, from.q);
}

/* Tolerances of a scan, and the kept number at each. */
struct scan {
  kovrelna_tolerances tolerances;
  uint64_t kept[KOVRELNA_TOLERANCES_MAX];
};

/* The scan that is tried; if it is null, one at the tolerance of the limits. */
static const struct scan *now_scan = NULL;

static struct answer call_scan(const struct list *lists, kovrelna_limits limits, size_t place) {
  kovrelna_tolerances tolerances = kovrelna_tolerances_of(&limits.tolerance, 1);
  kovrelna_scanned from;
  struct answer answer;
  size_t k;
  if (now_scan != NULL) tolerances = now_scan->tolerances;
  from = kovrelna_scan(U32(0), I16(1), tolerances, limits.gap, U16(2));
  answer = answered(from.number, from.value);
  answer.kept = from.kept[0];
  for (k = 1; k < KOVRELNA_TOLERANCES_MAX; k++)
    differ("kept", from.kept[k], now_scan == NULL ? 0 : now_scan->kept[k]);
  (void)place;
  return answer;
}

static struct answer call_view_add(const struct list *lists, kovrelna_limits limits,
                                   size_t place) {
  (void)limits, (void)place;
  return plain(kovrelna_view_add((kovrelna_view *)(void *)lists[0].first, U32(1), I16(2)));
}

static struct answer call_sum(const struct list *lists, kovrelna_limits limits, size_t place) {
  (void)limits, (void)place;
  return plain(kovrelna_sum(U32(0), I16(1), U32(2), I16(3), U16(4), U16(5), I16(6), U16(7)));
}

static struct answer call_expand(const struct list *lists, kovrelna_limits limits, size_t place) {
  (void)limits, (void)place;
  return plain(kovrelna_expand(U8(0), I16(1)));
}

static struct answer call_expand_with(const struct list *lists, kovrelna_limits limits,
                                      size_t place) {
  (void)limits, (void)place;
  return plain(kovrelna_expand_with(U8(0), I16(1), I16(2)));
}

static struct answer call_write(const struct list *lists, kovrelna_limits limits, size_t place) {
  return plain(kovrelna_write(U32(0), I16(1), U16(2), limits, U8(3), place));
}

static struct answer call_read(const struct list *lists, kovrelna_limits limits, size_t place) {
  kovrelna_content from = kovrelna_read(U8(0), U32(1), I16(2));
  (void)limits, (void)place;
  return with_parts(from.number, from.value, from.p, from.q, from.below_p, from.below_q);
}

static struct answer call_same(const struct list *lists, kovrelna_limits limits, size_t place) {
  kovrelna_verdict from = kovrelna_same(U8(0), U8(1));
  (void)limits, (void)place;
  return with_passed(from.number, from.value, from.passed);
}

static struct answer call_report(const struct list *lists, kovrelna_limits limits, size_t place) {
  kovrelna_totals from = kovrelna_report(U32(0), I16(1), LENGTHS(2), limits, SUMMARIES(3));
  struct answer answer = with_ratio(from.number, from.value, from.p, from.q);
  answer.samples = from.samples;
  answer.kept = from.kept;
  (void)place;
  return answer;
}

static struct answer call_pedestals(const struct list *lists, kovrelna_limits limits,
                                    size_t factor) {
  kovrelna_compared from =
      kovrelna_pedestals(U32(0), I16(1), LENGTHS(2), U32(3), I16(4), LENGTHS(5), limits.tolerance,
                         factor, U16(6), U16(7));
  struct answer answer = answered(from.number, from.value);
  answer.moved = from.moved;
  answer.noisy = from.noisy;
  return answer;
}

/* Document 01's fifth and sixth figures: a trace, its list and their record at tolerance 2/3. */
static const uint32_t uneven[] = {0, 1, 3};
static const int16_t step[] = {0, 1, 1};
static const uint16_t pair[] = {0, 2};
static const uint8_t figure[] = {0x54, 0, 0, 0, 0, 2, 0, 0, 3, 0x41, 0, 0, 0, 0, 0, 0, 0x53, 3, 1,
                                 0x45, 0, 2};
/* The samples of that record. */
static const uint32_t kept_ticks[] = {0, 3};
static const int16_t kept_values[] = {0, 1};
/* A view of that trace at k = 0, before its last sample and with it. */
static const kovrelna_view view_before = {0, 2, {0, 1, 9}}, view_with = {0, 2, {0, 2, 9}};
/* The values of another trace with these ticks, and the sums of both. */
static const int16_t other_step[] = {5, 3, -2}, both_steps[] = {5, 4, -1};
/* That trace as a crate of one channel, and its row. */
static const size_t one_length[] = {3};
static const kovrelna_summary one_row[] = {{3, 2, 2, 3, 1, 0}};
/* Two pedestal runs of a crate. At tolerance 1/2 and noise factor 2 channel 0 has moved: its sums
 * are 48 and 44. Channel 1 is noisy: 4 * 91 - 19 * 19 is 3, and 0 in the run before. Channel 2 is
 * at both limits: 2 * 2 is 1 * 4, and 4 * 8 - 4 * 4 is 4 * (4 * 2 - 2 * 2). */
static const uint32_t four_each[] = {0, 1, 2, 3, 0, 1, 2, 3, 0, 1, 2, 3};
static const int16_t today[] = {11, 13, 11, 13, -5, -5, -5, -4, 0, 2, 0, 2};
static const int16_t before[] = {10, 12, 10, 12, -5, -5, -5, -5, 0, 1, 0, 1};
static const size_t fours[] = {4, 4, 4};
static const uint16_t channel_0[] = {0}, channel_1[] = {1};
/* The codes of the seventh figure, and their values. */
static const uint8_t some_codes[] = {31, 32, 63, 64, 255};
static const int16_t code_values[] = {31, 32, 94, 96, 8032};
/* A range table, where code c has the value 100 (c - 200), and its values of these codes. */
enum { CODES = 256 };
static int16_t own_table[CODES];
static const int16_t own_values[] = {-16900, -16800, -13700, -13600, 5500};

static void make_table(void) {
  int c;
  for (c = 0; c < CODES; c++) own_table[c] = (int16_t)(100 * (c - 200));
}

/* A list of a call: bytes of an element, elements, the content of an input, what is written into an
 * output; for a state, which is never empty, both. The last two: the refusal where the list is
 * empty, and its value. */
struct parameter {
  size_t size, len;
  const void *content, *written;
  size_t count;
  uint32_t number;
  uint64_t value;
};

#define IN(list, number, value)                                                                    \
  { sizeof((list)[0]), COUNT(list), list, NULL, 0, number, value }
#define OUT(len, list, number, value)                                                              \
  { sizeof((list)[0]), len, NULL, list, COUNT(list), number, value }
#define STATE(before, after)                                                                       \
  { sizeof(before), 1, &(before), &(after), 1, 0, 0 }

static int is_state(const struct parameter *parameter) {
  return parameter->content != NULL && parameter->written != NULL;
}

/* Every call that is lent lists, as it is made on the figures at tolerance 4/6, no gap limit, place
 * 0, and allowance or noise factor 2, and its answer; measure of the link from sample 0 to 2. */
enum {
  MEASURE_CALL,
  JUDGE_CALL,
  JUDGE_GREEDY,
  WALK,
  GALLOP,
  MINIMUM,
  LEAST,
  SCAN,
  VIEW_ADD,
  SUM,
  EXPAND,
  EXPAND_WITH,
  WRITE_CALL,
  READ_CALL,
  SAME_CALL,
  REPORT,
  PEDESTALS
};
enum { LISTS = 8 };
static const struct call {
  const char *name;
  struct answer (*make)(const struct list *, kovrelna_limits, size_t);
  size_t lists;
  struct parameter parameters[LISTS];
  struct answer answer;
} calls[] = {
    {"measure", call_measure, 2,
     {IN(uneven, 1, 0), IN(step, 1, 0)},
     {0, 0, 0, 0, 2, 3, 0, 0, 0, 0, 1, KOVRELNA_SIDE_ABOVE, 0, 0, 0}},
    {"judge", call_judge, 3,
     {IN(uneven, 1, 0), IN(step, 1, 0), IN(pair, 6, 0)},
     {0, 0, 1, 0, 0, 0, 0, 0, 0, 0, 0, 0, 0, 0, 0}},
    {"judge_greedy", call_judge_greedy, 3,
     {IN(uneven, 1, 0), IN(step, 1, 0), IN(pair, 6, 0)},
     {0, 0, 1, 0, 0, 0, 0, 0, 0, 0, 0, 0, 0, 0, 0}},
    {"walk", call_walk, 3,
     {IN(uneven, 1, 0), IN(step, 1, 0), OUT(3, pair, 10, 3)},
     {0, 2, 0, 0, 0, 0, 0, 0, 0, 0, 0, 0, 0, 0, 0}},
    {"gallop", call_gallop, 3,
     {IN(uneven, 1, 0), IN(step, 1, 0), OUT(3, pair, 10, 3)},
     {0, 2, 0, 3, 0, 0, 0, 0, 0, 0, 0, 0, 0, 0, 0}},
    {"minimum", call_minimum, 3,
     {IN(uneven, 1, 0), IN(step, 1, 0), OUT(3, pair, 10, 3)},
     {0, 2, 0, 0, 0, 0, 0, 0, 0, 0, 0, 0, 0, 0, 0}},
    {"least", call_least, 3,
     {IN(uneven, 1, 0), IN(step, 1, 0), OUT(3, pair, 10, 3)},
     {0, 2, 0, 0, 2, 3, 0, 0, 0, 0, 0, 0, 0, 0, 0}},
    {"scan", call_scan, 3,
     {IN(uneven, 1, 0), IN(step, 1, 0), OUT(3, pair, 10, 3)},
     {0, 0, 0, 0, 0, 0, 0, 2, 0, 0, 0, 0, 0, 0, 0}},
    {"view_add", call_view_add, 3,
     {STATE(view_before, view_with), IN(uneven, 1, 0), IN(step, 1, 0)},
     {0, 0, 0, 0, 0, 0, 0, 0, 0, 0, 0, 0, 0, 0, 0}},
    {"sum", call_sum, 8,
     {IN(uneven, 1, 0), IN(step, 1, 0), IN(uneven, 1, 0), IN(other_step, 1, 0), IN(pair, 6, 0),
      IN(pair, 6, 0), OUT(3, both_steps, 10, 3), OUT(3, pair, 10, 3)},
     {0, 2, 0, 0, 0, 0, 0, 0, 0, 0, 0, 0, 0, 0, 0}},
    {"expand", call_expand, 2,
     {IN(some_codes, 1, 0), OUT(5, code_values, 10, 5)},
     {0, 5, 0, 0, 0, 0, 0, 0, 0, 0, 0, 0, 0, 0, 0}},
    {"expand_with", call_expand_with, 3,
     {IN(some_codes, 1, 0), IN(own_table, 12, 0), OUT(5, own_values, 10, 5)},
     {0, 5, 0, 0, 0, 0, 0, 0, 0, 0, 0, 0, 0, 0, 0}},
    {"write", call_write, 4,
     {IN(uneven, 1, 0), IN(step, 1, 0), IN(pair, 6, 0),
      OUT(22, figure, 10, 22)},
     {0, 22, 0, 0, 0, 0, 0, 0, 0, 0, 0, 0, 0, 0, 0}},
    {"read", call_read, 3,
     {IN(figure, 8, 0), OUT(2, kept_ticks, 10, 2), OUT(2, kept_values, 10, 2)},
     {0, 2, 0, 0, 2, 3, 0, 0, 0, 0, 0, 0, 2, 3, 0}},
    {"same", call_same, 2,
     {IN(figure, 8, 0), IN(figure, 9, 0)},
     {0, 0, 1, 0, 0, 0, 0, 0, 0, 0, 0, 0, 0, 0, 0}},
    {"report", call_report, 4,
     {IN(uneven, 11, 0), IN(step, 11, 0), IN(one_length, 11, 0), OUT(1, one_row, 10, 1)},
     {0, 0, 0, 0, 2, 3, 3, 2, 0, 0, 0, 0, 0, 0, 0}},
    {"pedestals", call_pedestals, 8,
     {IN(four_each, 11, 0), IN(today, 11, 0), IN(fours, 11, 0), IN(four_each, 11, 0),
      IN(before, 11, 0), IN(fours, 11, 0), OUT(3, channel_0, 10, 3), OUT(3, channel_1, 10, 3)},
     {0, 0, 0, 0, 0, 0, 0, 0, 1, 1, 0, 0, 0, 0, 0}},
};

/* Makes the call in every placement, with these limits, and this place, allowance or noise factor:
 * it answers so, and the lists then hold what they are to. */
static void run(int line, int which, struct list *lists, kovrelna_limits limits, size_t number,
                struct answer expected) {
  const struct call *call = &calls[which];
  int placement;
  now_name = call->name;
  now_line = line;
  for (placement = 0; placement < PLACEMENTS; placement++) {
    struct answer answer;
    size_t k;
    for (k = 0; k < call->lists; k++) lend(&lists[k], (enum placement)placement);
    answer = call->make(lists, limits, number);
    differ("number", answer.number, expected.number);
    differ("value", answer.value, expected.value);
    differ("passed", answer.passed, expected.passed);
    differ("probes", answer.probes, expected.probes);
    differ("p", answer.p, expected.p);
    differ("q", answer.q, expected.q);
    differ("samples", answer.samples, expected.samples);
    differ("kept", answer.kept, expected.kept);
    differ("moved", answer.moved, expected.moved);
    differ("noisy", answer.noisy, expected.noisy);
    differ("sample", answer.sample, expected.sample);
    differ("side", answer.side, expected.side);
    differ("below_p", answer.below_p, expected.below_p);
    differ("below_q", answer.below_q, expected.below_q);
    differ("fault", answer.fault, expected.fault);
    for (k = 0; k < call->lists; k++) take_back(&lists[k], (enum placement)placement);
  }
}

/* Limits of a tolerance in each form, and no gap limit. */
static kovrelna_limits within_ratio(uint64_t p, uint64_t q) {
  return kovrelna_limited(kovrelna_ratio(p, q), KOVRELNA_GAP_MAX);
}

static kovrelna_limits within_counts(double counts) {
  return kovrelna_limited(kovrelna_counts(counts), KOVRELNA_GAP_MAX);
}

static kovrelna_limits within_noise(double noise, double multiple) {
  return kovrelna_limited(kovrelna_noise(noise, multiple), KOVRELNA_GAP_MAX);
}

static kovrelna_limits within_parts(uint64_t p, uint64_t q, uint64_t below_p, uint64_t below_q) {
  return kovrelna_limited(kovrelna_parts(p, q, below_p, below_q), KOVRELNA_GAP_MAX);
}

/* A whole tolerance with this gap limit. */
static kovrelna_limits within_gap(uint64_t p, uint32_t gap) {
  return kovrelna_limited(kovrelna_ratio(p, 1), gap);
}

/* Whole parts with this gap limit. */
static kovrelna_limits within_both(uint64_t above, uint64_t below, uint32_t gap) {
  return kovrelna_limited(kovrelna_parts(above, 1, below, 1), gap);
}

/* hold answers with this number and these parts; the value is always 0. */
static void hold(int line, kovrelna_tolerance tolerance, uint32_t number, uint64_t p, uint64_t q,
                 uint64_t below_p, uint64_t below_q) {
  kovrelna_held answer = kovrelna_hold(tolerance);
  now_name = "hold";
  now_line = line;
  differ("number", answer.number, number);
  differ("value", answer.value, 0);
  differ("p", answer.p, p);
  differ("q", answer.q, q);
  differ("below_p", answer.below_p, below_p);
  differ("below_q", answer.below_q, below_q);
}

/* Both parts are p/q. */
#define HOLD(tolerance, number, p, q) hold(__LINE__, tolerance, number, p, q, p, q)

#define HOLD_PARTS(tolerance, p, q, below_p, below_q)                                              \
  hold(__LINE__, tolerance, 0, p, q, below_p, below_q)

/* Tolerances that are not allowed: a ratio, parts of which the one above is not allowed, parts of
 * which the one below is not, and a form that there is not. */
static const kovrelna_tolerance not_allowed[] = {
    {KOVRELNA_FORM_RATIO, 0, 0, 0.0, 0.0, 0, 1},
    {KOVRELNA_FORM_PARTS, 0, 0, 0.0, 0.0, 0, 1},
    {KOVRELNA_FORM_PARTS, 0, 1048576, 0.0, 0.0, 0, 1},
    {KOVRELNA_FORM_PARTS, 65536, 1, 0.0, 0.0, 65535, 1},
    {KOVRELNA_FORM_PARTS, 0, 1, 0.0, 0.0, 0, 0},
    {KOVRELNA_FORM_PARTS, 0, 1, 0.0, 0.0, 0, 1048576},
    {KOVRELNA_FORM_PARTS, 65535, 1, 0.0, 0.0, 65536, 1},
    {KOVRELNA_FORM_PARTS + 1, 0, 1, 0.0, 0.0, 0, 1}};

/* Samples i and j as call_measure takes them. */
static kovrelna_limits ends_of(size_t i, size_t j) {
  return kovrelna_limited(kovrelna_ratio(i, j), 0);
}

static void measure(int line, const uint32_t *ticks, size_t ticks_len, const int16_t *values,
                    size_t values_len, size_t i, size_t j, struct answer expected) {
  struct list lists[2];
  lists[0] = input(ticks, ticks_len, sizeof(uint32_t));
  lists[1] = input(values, values_len, sizeof(int16_t));
  run(line, MEASURE_CALL, lists, ends_of(i, j), 0, expected);
}

#define MEASURE(ticks, values, i, j, p, q, sample, side)                                          \
  measure(__LINE__, ticks, COUNT(ticks), values, COUNT(values), i, j,                             \
          with_measure(0, 0, p, q, sample, side))

#define NO_MEASURE(ticks, values, i, j, number, value)                                            \
  measure(__LINE__, ticks, COUNT(ticks), values, COUNT(values), i, j, answered(number, value))

/* One of judge's two questions. */
static void ask(int line, int which, const uint32_t *ticks, size_t ticks_len, const int16_t *values,
                size_t values_len, const uint16_t *list, size_t list_len, kovrelna_limits limits,
                struct answer expected) {
  struct list lists[3];
  lists[0] = input(ticks, ticks_len, sizeof(uint32_t));
  lists[1] = input(values, values_len, sizeof(int16_t));
  lists[2] = input(list, list_len, sizeof(uint16_t));
  run(line, which, lists, limits, 0, expected);
}

/* The second question is refused as the first is. */
static void judge(int line, const uint32_t *ticks, size_t ticks_len, const int16_t *values,
                  size_t values_len, const uint16_t *list, size_t list_len, kovrelna_limits limits,
                  struct answer expected) {
  int which, last = expected.number != 0 ? JUDGE_GREEDY : JUDGE_CALL;
  for (which = JUDGE_CALL; which <= last; which++)
    ask(line, which, ticks, ticks_len, values, values_len, list, list_len, limits, expected);
}

/* The list passes, or is refused. */
#define JUDGE(ticks, values, list, limits, number, passed, value)                                 \
  judge(__LINE__, ticks, COUNT(ticks), values, COUNT(values), list, COUNT(list), limits,          \
        with_passed(number, value, passed))

/* The first invalid link and its measure. */
#define STRAYS(ticks, values, list, limits, link, p, q, sample, side)                             \
  judge(__LINE__, ticks, COUNT(ticks), values, COUNT(values), list, COUNT(list), limits,          \
        with_measure(0, link, p, q, sample, side))

/* The list passes the second question. */
#define GREEDY(ticks, values, list, limits)                                                       \
  ask(__LINE__, JUDGE_GREEDY, ticks, COUNT(ticks), values, COUNT(values), list, COUNT(list),      \
      limits, with_passed(0, 0, 1))

/* The first link at fault, and its fault. */
#define AT_FAULT(ticks, values, list, limits, link, fault)                                        \
  ask(__LINE__, JUDGE_GREEDY, ticks, COUNT(ticks), values, COUNT(values), list, COUNT(list),      \
      limits, with_fault(link, fault))

/* The sum over the list's stops of 2 floor(log2 r) + 1, where a stop advances by r samples. */
static uint64_t list_probes(const uint16_t *list, size_t len) {
  uint64_t total = 0;
  size_t k;
  for (k = 1; k < len; k++) {
    unsigned r = (unsigned)list[k] - list[k - 1];
    total++;
    while (r >>= 1) total += 2;
  }
  return total;
}

/* With number 0 the method writes the list, which has `value` entries; walk's and gallop's pass the
 * second question. */
static void reduce(int line, int method, const uint32_t *ticks, size_t ticks_len,
                   const int16_t *values, size_t values_len, kovrelna_limits limits, size_t out_len,
                   uint32_t number, uint64_t value, uint64_t probes, const uint16_t *list) {
  struct answer expected = answered(number, value);
  struct list lists[3];
  expected.probes = probes;
  lists[0] = input(ticks, ticks_len, sizeof(uint32_t));
  lists[1] = input(values, values_len, sizeof(int16_t));
  lists[2] = number != 0 ? output(out_len, sizeof(uint16_t))
                         : filled(out_len, sizeof(uint16_t), list, 0, (size_t)value);
  run(line, method, lists, limits, 0, expected);
  if (method == GALLOP && number == 0)
    differ("probes of the list", probes, list_probes(list, (size_t)value));
  if (method != MINIMUM && number == 0)
    ask(line, JUDGE_GREEDY, ticks, ticks_len, values, values_len, list, (size_t)value, limits,
        with_passed(0, 0, 1));
}

#define REDUCE(method, ticks, values, limits, out_len, probes, list)                              \
  reduce(__LINE__, method, ticks, COUNT(ticks), values, COUNT(values), limits, out_len, 0,        \
         COUNT(list), probes, list)

/* Every method refuses so, with 0 probes. */
static void refuse(int line, const uint32_t *ticks, size_t ticks_len, const int16_t *values,
                   size_t values_len, kovrelna_limits limits, size_t out_len, uint32_t number,
                   uint64_t value) {
  int method;
  for (method = WALK; method <= MINIMUM; method++)
    reduce(line, method, ticks, ticks_len, values, values_len, limits, out_len, number, value, 0,
           NULL);
}

#define REFUSE(ticks, values, limits, out_len, number, value)                                     \
  refuse(__LINE__, ticks, COUNT(ticks), values, COUNT(values), limits, out_len, number, value)

/* With number 0 least writes the list, which has `value` entries. */
static void least(int line, const uint32_t *ticks, size_t ticks_len, const int16_t *values,
                  size_t values_len, uint32_t gap, size_t allowance, size_t out_len,
                  uint32_t number, uint64_t value, uint64_t p, uint64_t q, const uint16_t *list) {
  struct answer expected = with_ratio(number, value, p, q);
  struct list lists[3];
  lists[0] = input(ticks, ticks_len, sizeof(uint32_t));
  lists[1] = input(values, values_len, sizeof(int16_t));
  lists[2] = number != 0 ? output(out_len, sizeof(uint16_t))
                         : filled(out_len, sizeof(uint16_t), list, 0, (size_t)value);
  run(line, LEAST, lists, kovrelna_limited(kovrelna_ratio(0, 0), gap), allowance, expected);
}

/* A kept list of this error. */
#define CLOSEST(ticks, values, gap, allowance, out_len, p, q, list)                               \
  least(__LINE__, ticks, COUNT(ticks), values, COUNT(values), gap, allowance, out_len, 0,         \
        COUNT(list), p, q, list)

/* A refusal. */
#define NO_CLOSEST(ticks, values, gap, allowance, out_len, number, value)                         \
  least(__LINE__, ticks, COUNT(ticks), values, COUNT(values), gap, allowance, out_len, number,    \
        value, 0, 0, NULL)

/* A trace as it is lent. */
struct trace {
  const uint32_t *ticks;
  size_t ticks_len;
  const int16_t *values;
  size_t values_len;
};

static struct trace trace(const uint32_t *ticks, size_t ticks_len, const int16_t *values,
                          size_t values_len) {
  struct trace trace = {ticks, ticks_len, values, values_len};
  return trace;
}

#define TRACE(ticks, values) trace(ticks, COUNT(ticks), values, COUNT(values))

/* With number 0 scan writes the kept numbers' entries of each part of `lists`. */
static void scan(int line, struct trace trace, const struct scan *given, uint32_t gap,
                 size_t out_len, uint32_t number, uint64_t value, const uint16_t *lists) {
  static uint8_t kept[KOVRELNA_TOLERANCES_MAX * KOVRELNA_SAMPLES_MAX];
  struct answer expected = answered(number, value);
  size_t count = number != 0 ? 0 : (size_t)given->tolerances.count, a, k, n = trace.ticks_len;
  struct list lent[3];
  for (a = 0; a < count; a++)
    for (k = 0; k < n; k++) kept[a * n + k] = k < given->kept[a];
  lent[0] = input(trace.ticks, n, sizeof(uint32_t));
  lent[1] = input(trace.values, trace.values_len, sizeof(int16_t));
  lent[2] = filled(out_len, sizeof(uint16_t), lists, 0, count * n);
  lent[2].only = kept;
  expected.kept = given->kept[0];
  now_scan = given;
  run(line, SCAN, lent, within_gap(0, gap), 0, expected);
  now_scan = NULL;
}

/* These lists, each in a part of n entries, with an output of exactly enough room or more. */
static void scanned(int line, struct trace trace, const kovrelna_tolerance *tolerances,
                    size_t count, uint32_t gap, const uint64_t *kept, const uint16_t *lists) {
  struct scan given = {kovrelna_tolerances_of(tolerances, count), {0}};
  size_t k, n = trace.ticks_len;
  for (k = 0; k < count; k++) given.kept[k] = kept[k];
  scan(line, trace, &given, gap, count * n, 0, 0, lists);
  scan(line, trace, &given, gap, count * n + 1, 0, 0, lists);
  scan(line, trace, &given, gap, count * n + 3 * n, 0, 0, lists);
  /* Tolerances behind the count are not read. */
  for (k = count; k < KOVRELNA_TOLERANCES_MAX; k++)
    given.tolerances.list[k] = k % 2 == 0 ? kovrelna_counts(NAN) : kovrelna_ratio(1, 1);
  scan(line, trace, &given, gap, count * n, 0, 0, lists);
}

#define SCANNED(ticks, values, tolerances, gap, kept, lists)                                       \
  scanned(__LINE__, TRACE(ticks, values), tolerances, COUNT(tolerances), gap, kept, &(lists)[0][0])

/* The lists are those of walk at each tolerance. */
static void scanned_as_walk(int line, struct trace trace, const kovrelna_tolerance *tolerances,
                            size_t count, uint32_t gap) {
  static uint16_t lists[KOVRELNA_TOLERANCES_MAX * KOVRELNA_SAMPLES_MAX];
  uint64_t kept[KOVRELNA_TOLERANCES_MAX];
  size_t a, n = trace.ticks_len;
  for (a = 0; a < count; a++)
    kept[a] = kovrelna_walk(trace.ticks, n, trace.values, n, kovrelna_limited(tolerances[a], gap),
                            &lists[a * n], n)
                  .value;
  scanned(line, trace, tolerances, count, gap, kept, lists);
}

/* Refused, without an output and with one. */
static void not_scanned(int line, struct trace trace, kovrelna_tolerances tolerances, uint32_t gap,
                        uint32_t number, uint64_t value) {
  struct scan given = {tolerances, {0}};
  scan(line, trace, &given, gap, 0, number, value, NULL);
  if (number != KOVRELNA_REFUSED_ROOM)
    scan(line, trace, &given, gap, 20 * trace.ticks_len, number, value, NULL);
}

#define NOT_SCANNED(trace, tolerances, gap, number, value)                                         \
  not_scanned(__LINE__, trace, tolerances, gap, number, value)

/* view_begin answers with this number: a view has the list 0, and zeros behind it; a refusal has
 * zeros alone. */
static void begin(int line, uint64_t k, uint32_t number) {
  kovrelna_begun answer = kovrelna_view_begin(k);
  size_t entry;
  now_name = "view_begin";
  now_line = line;
  differ("number", answer.number, number);
  differ("value", answer.value, 0);
  differ("k", answer.view.k, number == 0 ? k : 0);
  differ("count", answer.view.count, number == 0);
  for (entry = 0; entry < KOVRELNA_VIEW_SAMPLES_MAX; entry++)
    differ("sample", answer.view.samples[entry], 0);
}

/* The view with this list. */
static kovrelna_view with_list(kovrelna_view view, const uint16_t *list, uint32_t count) {
  view.count = count;
  memcpy(view.samples, list, count * sizeof(uint16_t));
  return view;
}

/* A view with this list, and something else in each entry behind it. */
static kovrelna_view view_of(uint32_t k, const uint16_t *list, uint32_t count) {
  kovrelna_view view;
  uint32_t entry;
  view.k = k;
  for (entry = 0; entry < KOVRELNA_VIEW_SAMPLES_MAX; entry++)
    view.samples[entry] = (uint16_t)(40000 + 7 * entry);
  return with_list(view, list, count);
}

#define VIEW(k, list) view_of(k, list, COUNT(list))

/* The addition answers so, and makes this of the state. */
static void add(int line, kovrelna_view before, struct trace trace, uint32_t number, uint64_t value,
                kovrelna_view after) {
  struct list lists[3];
  lists[0] = state(&before, &after, sizeof(kovrelna_view));
  lists[1] = input(trace.ticks, trace.ticks_len, sizeof(uint32_t));
  lists[2] = input(trace.values, trace.values_len, sizeof(int16_t));
  run(line, VIEW_ADD, lists, within_ratio(0, 0), 0, answered(number, value));
}

/* The list becomes this one, and all else stays. */
#define ADDED(k, list, ticks, values, becomes)                                                     \
  add(__LINE__, VIEW(k, list), TRACE(ticks, values), 0, 0,                                         \
      with_list(VIEW(k, list), becomes, COUNT(becomes)))

/* Refused: the state stays. */
#define NOT_ADDED(view, trace, number, value) add(__LINE__, view, trace, number, value, view)

/* What an addition makes of a view, by the measures of links: sample n - 1 is last, and of 2 k + 1
 * inner samples the first is dropped whose neighbours' link has the least error. */
static kovrelna_view view_after(kovrelna_view view, struct trace trace) {
  uint16_t list[KOVRELNA_VIEW_SAMPLES_MAX + 1];
  uint32_t count = view.count, dropped = 0, entry;
  kovrelna_measured least = {0, 0, 0, 0, 0, 0};
  memcpy(list, view.samples, count * sizeof(uint16_t));
  list[count++] = (uint16_t)(trace.ticks_len - 1);
  if (count == 2 * view.k + 3) {
    for (entry = 1; entry + 1 < count; entry++) {
      kovrelna_measured link = kovrelna_measure(trace.ticks, trace.ticks_len, trace.values,
                                                trace.values_len, list[entry - 1], list[entry + 1]);
      if (dropped != 0 && link.p * least.q >= least.p * link.q) continue;
      least = link;
      dropped = entry;
    }
    count--;
    memmove(&list[dropped], &list[dropped + 1], (count - dropped) * sizeof(uint16_t));
  }
  return with_list(view, list, count);
}

/* The trace grows to the end, from the samples of this view on: each addition does what view_after
 * says. */
static kovrelna_view grown(int line, struct trace whole, kovrelna_view view) {
  size_t n;
  for (n = (size_t)view.samples[view.count - 1] + 2; n <= whole.ticks_len; n++) {
    struct trace so_far = trace(whole.ticks, n, whole.values, n);
    kovrelna_view after = view_after(view, so_far);
    add(line, view, so_far, 0, 0, after);
    view = after;
  }
  return view;
}

#define GROWN(ticks, values, view) grown(__LINE__, TRACE(ticks, values), view)

/* A trace and a list of it as they are lent. */
struct reduced {
  const uint32_t *ticks;
  size_t ticks_len;
  const int16_t *values;
  size_t values_len;
  const uint16_t *list;
  size_t list_len;
};

static struct reduced reduced(const uint32_t *ticks, size_t ticks_len, const int16_t *values,
                              size_t values_len, const uint16_t *list, size_t list_len) {
  struct reduced reduced = {ticks, ticks_len, values, values_len, list, list_len};
  return reduced;
}

#define REDUCED(ticks, values, list)                                                               \
  reduced(ticks, COUNT(ticks), values, COUNT(values), list, COUNT(list))

/* With number 0 sum writes these sums, one for each sample, and the joined list, which has `value`
 * entries. */
static void sum(int line, struct reduced one, struct reduced two, size_t sums_len,
                size_t joined_len, uint32_t number, uint64_t value, const int16_t *sums,
                const uint16_t *joined) {
  struct list lists[8];
  lists[0] = input(one.ticks, one.ticks_len, sizeof(uint32_t));
  lists[1] = input(one.values, one.values_len, sizeof(int16_t));
  lists[2] = input(two.ticks, two.ticks_len, sizeof(uint32_t));
  lists[3] = input(two.values, two.values_len, sizeof(int16_t));
  lists[4] = input(one.list, one.list_len, sizeof(uint16_t));
  lists[5] = input(two.list, two.list_len, sizeof(uint16_t));
  lists[6] = number != 0 ? output(sums_len, sizeof(int16_t))
                         : filled(sums_len, sizeof(int16_t), sums, 0, one.ticks_len);
  lists[7] = number != 0 ? output(joined_len, sizeof(uint16_t))
                         : filled(joined_len, sizeof(uint16_t), joined, 0, (size_t)value);
  run(line, SUM, lists, within_ratio(0, 0), 0, answered(number, value));
}

/* These sums and this joined list, whichever trace comes first, with outputs of exactly enough room
 * or more. */
static void summed(int line, struct reduced one, struct reduced two, const int16_t *sums,
                   const uint16_t *joined, size_t joined_count) {
  size_t spare, n = one.ticks_len;
  for (spare = 0; spare < 4; spare++) {
    size_t sums_len = n + 3 * (spare % 2), joined_len = n + 3 * (spare / 2);
    sum(line, one, two, sums_len, joined_len, 0, joined_count, sums, joined);
    sum(line, two, one, sums_len, joined_len, 0, joined_count, sums, joined);
  }
}

#define SUMMED(one, two, sums, joined) summed(__LINE__, one, two, sums, joined, COUNT(joined))

/* Refused, without outputs and with them. */
static void not_summed(int line, struct reduced one, struct reduced two, uint32_t number,
                       uint64_t value) {
  size_t room = one.ticks_len + two.ticks_len;
  sum(line, one, two, 0, 0, number, value, NULL, NULL);
  sum(line, one, two, room, room, number, value, NULL, NULL);
}

#define NOT_SUMMED(one, two, number, value) not_summed(__LINE__, one, two, number, value)

/* With number 0 expand writes these values, `value` of them. */
static void expand(int line, const uint8_t *codes, size_t codes_len, size_t out_len,
                   uint32_t number, uint64_t value, const int16_t *values) {
  struct answer expected = answered(number, value);
  struct list lists[2];
  lists[0] = input(codes, codes_len, 1);
  lists[1] = number != 0 ? output(out_len, sizeof(int16_t))
                         : filled(out_len, sizeof(int16_t), values, 0, (size_t)value);
  run(line, EXPAND, lists, within_ratio(0, 0), 0, expected);
}

/* With number 0 expand_with writes these values, `value` of them. */
static void expand_with(int line, const uint8_t *codes, size_t codes_len, const int16_t *table,
                        size_t table_len, size_t out_len, uint32_t number, uint64_t value,
                        const int16_t *values) {
  struct answer expected = answered(number, value);
  struct list lists[3];
  lists[0] = input(codes, codes_len, 1);
  lists[1] = input(table, table_len, sizeof(int16_t));
  lists[2] = number != 0 ? output(out_len, sizeof(int16_t))
                         : filled(out_len, sizeof(int16_t), values, 0, (size_t)value);
  run(line, EXPAND_WITH, lists, within_ratio(0, 0), 0, expected);
}

/* The table has these values. */
#define EXPANDED(codes, table, out_len, values)                                                    \
  expand_with(__LINE__, codes, COUNT(codes), table, CODES, out_len, 0, COUNT(codes), values)

/* The table is refused as 12 with this value, for code 0 alone, without an output and with one. */
static void no_table(int line, const int16_t *table, size_t table_len, uint64_t value) {
  const uint8_t zero = 0;
  expand_with(line, &zero, 1, table, table_len, 0, KOVRELNA_REFUSED_TABLE, value, NULL);
  expand_with(line, &zero, 1, table, table_len, 1, KOVRELNA_REFUSED_TABLE, value, NULL);
}

#define NO_TABLE(table, table_len, value) no_table(__LINE__, table, table_len, value)

/* With number 0 the record is then at the place. */
static void write_record(int line, const uint32_t *ticks, size_t ticks_len, const int16_t *values,
                         size_t values_len, const uint16_t *list, size_t list_len,
                         kovrelna_limits limits, size_t size, size_t place, uint32_t number,
                         uint64_t value, const uint8_t *record) {
  struct answer expected = answered(number, value);
  struct list lists[4];
  lists[0] = input(ticks, ticks_len, sizeof(uint32_t));
  lists[1] = input(values, values_len, sizeof(int16_t));
  lists[2] = input(list, list_len, sizeof(uint16_t));
  lists[3] = number != 0 ? output(size, 1) : filled(size, 1, record, place, (size_t)value);
  run(line, WRITE_CALL, lists, limits, place, expected);
}

#define WRITE(ticks, values, list, limits, size, place, number, value, record)                    \
  write_record(__LINE__, ticks, COUNT(ticks), values, COUNT(values), list, COUNT(list), limits,   \
               size, place, number, value, record)

/* With number 0 the outputs then begin with the samples, `value` of them. */
static void read_record(int line, const uint8_t *record, size_t record_len, size_t ticks_len,
                        size_t values_len, struct answer expected, const uint32_t *ticks,
                        const int16_t *values) {
  size_t count = expected.number != 0 ? 0 : (size_t)expected.value;
  struct list lists[3];
  lists[0] = input(record, record_len, 1);
  lists[1] = filled(ticks_len, sizeof(uint32_t), ticks, 0, count);
  lists[2] = filled(values_len, sizeof(int16_t), values, 0, count);
  run(line, READ_CALL, lists, within_ratio(0, 0), 0, expected);
}

/* The samples, and equal parts p/q. */
#define READ(record, ticks_len, values_len, samples, p, q, ticks, values)                          \
  read_record(__LINE__, record, COUNT(record), ticks_len, values_len,                              \
              with_parts(0, samples, p, q, p, q), ticks, values)

/* The outputs are too short. */
#define NOT_READ(record, ticks_len, values_len, samples)                                           \
  read_record(__LINE__, record, COUNT(record), ticks_len, values_len,                              \
              answered(KOVRELNA_REFUSED_ROOM, samples), NULL, NULL)

/* The first `length` bytes are refused as 8 with this byte, with outputs and without. */
static void faulty(int line, const uint8_t *record, size_t length, uint64_t byte) {
  struct answer expected = answered(KOVRELNA_REFUSED_RECORD, byte);
  read_record(line, record, length, 8, 8, expected, NULL, NULL);
  read_record(line, record, length, 0, 0, expected, NULL, NULL);
}

#define FAULTY(record, length, byte) faulty(__LINE__, record, length, byte)

static void same(int line, const uint8_t *first, size_t first_len, const uint8_t *second,
                 size_t second_len, uint32_t number, uint32_t passed, uint64_t value) {
  struct answer expected = with_passed(number, value, passed);
  struct list lists[2];
  lists[0] = input(first, first_len, 1);
  lists[1] = input(second, second_len, 1);
  run(line, SAME_CALL, lists, within_ratio(0, 0), 0, expected);
}

#define SAME(first, first_len, second, second_len, number, passed, value)                         \
  same(__LINE__, first, first_len, second, second_len, number, passed, value)

/* A crate as it is lent. */
struct crate {
  const uint32_t *ticks;
  size_t ticks_len;
  const int16_t *values;
  size_t values_len;
  const size_t *lengths;
  size_t lengths_len;
};

static struct crate crate(const uint32_t *ticks, size_t ticks_len, const int16_t *values,
                          size_t values_len, const size_t *lengths, size_t lengths_len) {
  struct crate crate = {ticks, ticks_len, values, values_len, lengths, lengths_len};
  return crate;
}

#define CRATE(ticks, values, lengths)                                                              \
  crate(ticks, COUNT(ticks), values, COUNT(values), lengths, COUNT(lengths))

/* The crate's three lists. */
static void inputs(struct list *lists, struct crate crate) {
  lists[0] = input(crate.ticks, crate.ticks_len, sizeof(uint32_t));
  lists[1] = input(crate.values, crate.values_len, sizeof(int16_t));
  lists[2] = input(crate.lengths, crate.lengths_len, sizeof(size_t));
}

/* With number 0 report writes these rows, one for each length, and these are the totals. */
static void report(int line, const uint32_t *ticks, size_t ticks_len, const int16_t *values,
                   size_t values_len, const size_t *lengths, size_t lengths_len,
                   kovrelna_limits limits, size_t out_len, struct answer expected,
                   const kovrelna_summary *rows) {
  struct list lists[4];
  inputs(lists, crate(ticks, ticks_len, values, values_len, lengths, lengths_len));
  lists[3] = expected.number != 0 ? output(out_len, sizeof(kovrelna_summary))
                                  : filled(out_len, sizeof(kovrelna_summary), rows, 0, lengths_len);
  run(line, REPORT, lists, limits, 0, expected);
}

static struct answer totals(uint64_t samples, uint64_t kept, uint64_t p, uint64_t q) {
  struct answer answer = with_ratio(0, 0, p, q);
  answer.samples = samples;
  answer.kept = kept;
  return answer;
}

#define REPORT_ROWS(ticks, values, lengths, limits, out_len, expected, rows)                       \
  report(__LINE__, ticks, COUNT(ticks), values, COUNT(values), lengths, COUNT(lengths), limits,    \
         out_len, expected, rows)

/* Refused, without an output and with one. */
#define NO_REPORT(ticks, ticks_len, values, values_len, lengths, lengths_len, limits, number)      \
  do {                                                                                             \
    report(__LINE__, ticks, ticks_len, values, values_len, lengths, lengths_len, limits, 0,        \
           answered(number, 0), NULL);                                                             \
    report(__LINE__, ticks, ticks_len, values, values_len, lengths, lengths_len, limits, 70,       \
           answered(number, 0), NULL);                                                             \
  } while (0)

/* pedestals writes these channels. */
static void pedestals(int line, struct crate one, struct crate two, kovrelna_tolerance tolerance,
                      size_t factor, size_t moved_len, size_t noisy_len, struct answer expected,
                      const uint16_t *moved, const uint16_t *noisy) {
  struct list lists[8];
  inputs(lists, one);
  inputs(lists + 3, two);
  lists[6] = filled(moved_len, sizeof(uint16_t), moved, 0, (size_t)expected.moved);
  lists[7] = filled(noisy_len, sizeof(uint16_t), noisy, 0, (size_t)expected.noisy);
  run(line, PEDESTALS, lists, kovrelna_limited(tolerance, 0), factor, expected);
}

/* These channels have moved and these are noisy, with outputs of exactly enough room or more. */
static void compared(int line, struct crate one, struct crate two, kovrelna_tolerance tolerance,
                     size_t factor, const uint16_t *moved, size_t moved_count,
                     const uint16_t *noisy, size_t noisy_count) {
  struct answer expected = answered(0, 0);
  size_t spare;
  expected.moved = moved_count;
  expected.noisy = noisy_count;
  for (spare = 0; spare < 4; spare++)
    pedestals(line, one, two, tolerance, factor, one.lengths_len + spare % 2,
              one.lengths_len + spare / 2, expected, moved, noisy);
}

#define COMPARED(one, two, tolerance, factor, moved, moved_count, noisy, noisy_count)              \
  compared(__LINE__, one, two, tolerance, factor, moved, moved_count, noisy, noisy_count)

/* Refused, without outputs and with them. */
static void not_compared(int line, struct crate one, struct crate two,
                         kovrelna_tolerance tolerance, size_t factor, uint32_t number,
                         uint64_t value) {
  pedestals(line, one, two, tolerance, factor, 0, 0, answered(number, value), NULL, NULL);
  pedestals(line, one, two, tolerance, factor, 70, 70, answered(number, value), NULL, NULL);
}

#define NOT_COMPARED(one, two, tolerance, factor, number, value)                                   \
  not_compared(__LINE__, one, two, tolerance, factor, number, value)

/* The record is cut off after each of its bytes: the fault is at the command that is cut, or at the
 * end where one is missing. `commands` has the first byte of each. */
static void cut(int line, const uint8_t *record, size_t record_len, const size_t *commands,
                size_t commands_len) {
  size_t length, k = 0;
  for (length = 0; length < record_len; length++) {
    if (k + 1 < commands_len && commands[k + 1] == length) k++;
    faulty(line, record, length, commands[k]);
    same(line, record, length, record, record_len, KOVRELNA_REFUSED_RECORD, 0, commands[k]);
    same(line, record, record_len, record, length, KOVRELNA_REFUSED_SECOND_RECORD, 0, commands[k]);
    same(line, record, length, record, length, KOVRELNA_REFUSED_RECORD, 0, commands[k]);
  }
}

#define CUT(record, commands)                                                                     \
  cut(__LINE__, record, COUNT(record), commands, COUNT(commands))

/* ---- Cases ---- */

static void tolerances(void) {
  kovrelna_tolerance other = {4, 1, 1, 1.0, 1.0, 1, 1};
  kovrelna_tolerance ratio = {KOVRELNA_FORM_RATIO, 4, 6, (double)NAN, -1.0, 7, 0};
  kovrelna_tolerance counts = {KOVRELNA_FORM_COUNTS, UINT64_MAX, 0, 0.75, (double)NAN, 7, 0};
  kovrelna_tolerance noise = {KOVRELNA_FORM_NOISE, UINT64_MAX, 0, 1.5, 2.125, 7, 0};
  kovrelna_tolerance parts = {KOVRELNA_FORM_PARTS, 4, 6, (double)NAN, (double)NAN, 10, 4};
  const uint64_t greatest = 65535u * UINT64_C(1048575);
  size_t k;

  HOLD(kovrelna_ratio(4, 6), 0, 2, 3);
  HOLD(kovrelna_ratio(0, 1048575), 0, 0, 1);
  HOLD(kovrelna_ratio(65535u * UINT64_C(1048575), 1048575), 0, 65535, 1);
  HOLD(kovrelna_ratio(65536, 1), KOVRELNA_REFUSED_TOLERANCE, 0, 0);
  HOLD(kovrelna_ratio(0, 0), KOVRELNA_REFUSED_TOLERANCE, 0, 0);
  HOLD(kovrelna_ratio(1, 1048576), KOVRELNA_REFUSED_TOLERANCE, 0, 0);
  HOLD(kovrelna_ratio(UINT64_MAX, UINT64_MAX), KOVRELNA_REFUSED_TOLERANCE, 0, 0);

  HOLD(kovrelna_counts(2.0), 0, 2, 1);
  HOLD(kovrelna_counts(65534.984375), 0, 4194239, 64);
  HOLD(kovrelna_counts(-0.0), 0, 0, 1);
  HOLD(kovrelna_counts(0.0078125), KOVRELNA_REFUSED_TOLERANCE, 0, 0);
  HOLD(kovrelna_counts(65535.015625), KOVRELNA_REFUSED_TOLERANCE, 0, 0);
  HOLD(kovrelna_counts((double)NAN), KOVRELNA_REFUSED_TOLERANCE, 0, 0);
  HOLD(kovrelna_counts((double)-INFINITY), KOVRELNA_REFUSED_TOLERANCE, 0, 0);

  HOLD(kovrelna_noise(0.015625, 0.125), 0, 1, 512);
  HOLD(kovrelna_noise(1023.0, 63.0), 0, 64449, 1);
  HOLD(kovrelna_noise(-0.0, 63.0), 0, 0, 1);
  HOLD(kovrelna_noise(1023.015625, 0.0), KOVRELNA_REFUSED_TOLERANCE, 0, 0);
  HOLD(kovrelna_noise(0.0, 63.125), KOVRELNA_REFUSED_TOLERANCE, 0, 0);
  HOLD(kovrelna_noise(1.0, 0.0625), KOVRELNA_REFUSED_TOLERANCE, 0, 0);

  /* Each part in its own lowest terms; equal ones too. */
  HOLD_PARTS(kovrelna_parts(2, 1, 1, 1), 2, 1, 1, 1);
  HOLD_PARTS(kovrelna_parts(4, 6, 10, 4), 2, 3, 5, 2);
  HOLD_PARTS(kovrelna_parts(0, 1048575, 6, 6), 0, 1, 1, 1);
  HOLD_PARTS(kovrelna_parts(6, 6, 0, 1048575), 1, 1, 0, 1);
  HOLD_PARTS(kovrelna_parts(greatest, 1048575, 1, 1048575), 65535, 1, 1, 1048575);
  HOLD_PARTS(kovrelna_parts(1, 1048575, greatest - 1, 1048575), 1, 1048575, greatest - 1, 1048575);
  HOLD(kovrelna_parts(2, 2, 1, 1), 0, 1, 1);
  HOLD(kovrelna_parts(4, 6, 6, 9), 0, 2, 3);
  HOLD(kovrelna_parts(0, 7, 0, 9), 0, 0, 1);
  for (k = 0; k < COUNT(not_allowed); k++) HOLD(not_allowed[k], KOVRELNA_REFUSED_TOLERANCE, 0, 0);
  HOLD(kovrelna_parts(greatest + 1, 1048575, 0, 1), KOVRELNA_REFUSED_TOLERANCE, 0, 0);
  HOLD(kovrelna_parts(0, 1, greatest + 1, 1048575), KOVRELNA_REFUSED_TOLERANCE, 0, 0);
  HOLD(kovrelna_parts(UINT64_MAX, UINT64_MAX, 1, 1), KOVRELNA_REFUSED_TOLERANCE, 0, 0);
  HOLD(kovrelna_parts(1, 1, UINT64_MAX, UINT64_MAX), KOVRELNA_REFUSED_TOLERANCE, 0, 0);

  /* The form alone says which fields are read; there is no fifth form. */
  HOLD(ratio, 0, 2, 3);
  HOLD(counts, 0, 3, 4);
  HOLD(noise, 0, 51, 16);
  HOLD_PARTS(parts, 2, 3, 5, 2);
  HOLD(other, KOVRELNA_REFUSED_TOLERANCE, 0, 0);
  other.form = UINT64_C(1) << 32;
  HOLD(other, KOVRELNA_REFUSED_TOLERANCE, 0, 0);
  other.form = UINT64_MAX;
  HOLD(other, KOVRELNA_REFUSED_TOLERANCE, 0, 0);
}

static void links(void) {
  const uint32_t even[] = {0, 1, 2, 3, 4}, wide[] = {0, 1, 1048575},
                 high[] = {UINT32_MAX - 1048575, UINT32_MAX - 1, UINT32_MAX};
  const int16_t zigzag[] = {0, 3, 0, 3, 0}, wave[] = {0, 2, 0, -2, 0}, turned[] = {0, -2, 0, 2, 0},
                between[] = {99, 0, 1, 0, -99}, fall[] = {0, -1, -1}, flat[] = {0, 0, 0},
                rise[] = {0, 0, 1}, deepest[] = {32767, -32768, 32767},
                highest[] = {-32768, 32767, -32768};

  MEASURE(uneven, step, 0, 2, 2, 3, 1, KOVRELNA_SIDE_ABOVE);
  MEASURE(uneven, fall, 0, 2, 2, 3, 1, KOVRELNA_SIDE_BELOW);
  MEASURE(uneven, flat, 0, 2, 0, 1, 0, KOVRELNA_SIDE_ON);
  MEASURE(even, wave, 1, 4, 8, 3, 3, KOVRELNA_SIDE_BELOW);
  /* Nothing lies between, or all on the line. */
  MEASURE(even, zigzag, 0, 1, 0, 1, 0, KOVRELNA_SIDE_ON);
  MEASURE(even, zigzag, 3, 4, 0, 1, 3, KOVRELNA_SIDE_ON);
  MEASURE(even, wave, 1, 3, 0, 1, 1, KOVRELNA_SIDE_ON);
  /* Of several samples the first, on either side. */
  MEASURE(even, zigzag, 0, 4, 3, 1, 1, KOVRELNA_SIDE_ABOVE);
  MEASURE(even, zigzag, 1, 4, 2, 1, 2, KOVRELNA_SIDE_BELOW);
  MEASURE(even, wave, 0, 4, 2, 1, 1, KOVRELNA_SIDE_ABOVE);
  MEASURE(even, turned, 0, 4, 2, 1, 1, KOVRELNA_SIDE_BELOW);
  /* What lies beside the link does not count. */
  MEASURE(even, between, 1, 3, 1, 1, 2, KOVRELNA_SIDE_ABOVE);
  /* The greatest error, and errors with the greatest run. */
  MEASURE(wide, deepest, 0, 2, 65535, 1, 1, KOVRELNA_SIDE_BELOW);
  MEASURE(high, highest, 0, 2, 65535, 1, 1, KOVRELNA_SIDE_ABOVE);
  MEASURE(wide, rise, 0, 2, 1, 1048575, 1, KOVRELNA_SIDE_BELOW);
  MEASURE(high, rise, 0, 2, 1048574, 1048575, 1, KOVRELNA_SIDE_BELOW);
}

/* Rows 1, 2, 3 and 6 of measure, in their order. */
static void no_links(void) {
  enum { SAMPLES = 5 };
  static uint32_t many[KOVRELNA_SAMPLES_MAX + 1];
  static const int16_t level[KOVRELNA_SAMPLES_MAX + 1] = {0};
  const uint32_t equal[] = {5, 5}, around[] = {UINT32_MAX, 0}, beyond_span[] = {0, 1048576},
                 stuck[] = {0, 1048576, 1048577, 1048578, 1048578};
  const int16_t flat[] = {0, 0, 0, 0, 0}, two[] = {0, 0};
  const size_t ends[] = {0, 1, 2, 3, 4, 5, 6, 4095, 4096, 65536, (size_t)UINT32_MAX + 1,
                         (size_t)UINT32_MAX + 3, SIZE_MAX / 2, SIZE_MAX - 1, SIZE_MAX};
  size_t x, y;
  for (x = 0; x < COUNT(many); x++) many[x] = (uint32_t)x;

  for (x = 0; x < COUNT(ends); x++) {
    for (y = 0; y < COUNT(ends); y++) {
      size_t i = ends[x], j = ends[y];
      struct answer expected = with_measure(0, 0, 0, 1, i, KOVRELNA_SIDE_ON);
      if (i >= SAMPLES)
        expected = answered(KOVRELNA_REFUSED_LIST, 0);
      else if (j >= SAMPLES || j <= i)
        expected = answered(KOVRELNA_REFUSED_LIST, 1);
      measure(__LINE__, many, SAMPLES, level, SAMPLES, i, j, expected);
      NO_MEASURE(stuck, two, i, j, KOVRELNA_REFUSED_LENGTH, 0);
      NO_MEASURE(equal, two, i, j, KOVRELNA_REFUSED_TICK, 1);
      NO_MEASURE(around, two, i, j, KOVRELNA_REFUSED_TICK, 1);
      NO_MEASURE(stuck, flat, i, j, KOVRELNA_REFUSED_TICK, 4);
      NO_MEASURE(beyond_span, two, i, j, KOVRELNA_REFUSED_SPAN, 1);
      /* One sample has no link. */
      measure(__LINE__, many, 1, level, 1, i, j, answered(KOVRELNA_REFUSED_LIST, i == 0 ? 1 : 0));
    }
  }
  NO_MEASURE(many, level, 0, 1, KOVRELNA_REFUSED_LENGTH, 0);
  NO_MEASURE(many, level, SIZE_MAX, 0, KOVRELNA_REFUSED_LENGTH, 0);
}

static void lists(void) {
  const uint32_t even[] = {0, 1, 2, 3, 4};
  const int16_t zigzag[] = {0, 3, 0, 3, 0}, wave[] = {0, 2, 0, -2, 0};
  const uint16_t all[] = {0, 1, 2, 3, 4}, ends[] = {0, 4}, late[] = {0, 3, 4}, middle[] = {0, 2, 4},
                 early[] = {0, 1, 4}, three[] = {0, 1, 2, 4};

  JUDGE(even, zigzag, all, within_ratio(0, 1), 0, 1, 0);
  JUDGE(even, zigzag, late, within_ratio(2, 1), 0, 1, 0);
  STRAYS(even, zigzag, middle, within_ratio(2, 1), 0, 3, 1, 1, KOVRELNA_SIDE_ABOVE);
  STRAYS(even, zigzag, early, within_ratio(1, 1), 1, 2, 1, 2, KOVRELNA_SIDE_BELOW);
  STRAYS(even, zigzag, ends, within_ratio(2, 1), 0, 3, 1, 1, KOVRELNA_SIDE_ABOVE);
  JUDGE(even, zigzag, ends, within_counts(3.0), 0, 1, 0);
  JUDGE(even, zigzag, ends, within_noise(1.5, 2.0), 0, 1, 0);
  JUDGE(even, wave, middle, within_ratio(2, 1), 0, 1, 0);
  JUDGE(even, wave, ends, within_ratio(2, 1), 0, 1, 0);
  STRAYS(even, wave, three, within_ratio(1, 1), 2, 2, 1, 3, KOVRELNA_SIDE_BELOW);
  JUDGE(uneven, step, pair, within_ratio(4, 6), 0, 1, 0);
  STRAYS(uneven, step, pair, within_ratio(665, 1000), 0, 2, 3, 1, KOVRELNA_SIDE_ABOVE);
}

/* Judge's second question: document 02's figures, each fault, the first of several, parts, gap limits
 * and the shortest traces. */
static void greedy_lists(void) {
  const uint32_t even[] = {0, 1, 2, 3, 4}, seven[] = {0, 1, 2, 3, 4, 5, 6},
                 hole[] = {0, 1, 2, 10, 11, 12}, apart[] = {0, 1048575};
  const int16_t zigzag[] = {0, 3, 0, 3, 0}, wave[] = {0, 2, 0, -2, 0}, rise[] = {-2, 0, 2, 2, 0},
                other[] = {2, -2, -1, 0, -2, 2, -1}, level[] = {0, 0, 0, 0, 0, 0},
                steps[] = {0, 0, 0, 9, 9, 9, 0}, steep[] = {-32768, 32767};
  const uint16_t all[] = {0, 1, 2, 3, 4}, ends[] = {0, 4}, late[] = {0, 3, 4}, middle[] = {0, 2, 4},
                 early[] = {0, 1, 4}, three[] = {0, 1, 2, 4}, inner[] = {0, 1, 3, 4},
                 last[] = {0, 2, 3, 4}, walked[] = {0, 2, 6}, galloped[] = {0, 4, 5, 6},
                 sides[] = {0, 2, 3, 5}, cut[] = {0, 2, 3, 4, 5}, across[] = {0, 2, 5},
                 across_first[] = {0, 3, 5}, hole_ends[] = {0, 5}, kept[] = {0, 2, 3, 5, 6},
                 cut_first[] = {0, 1, 3, 5, 6}, cut_later[] = {0, 2, 3, 4, 6},
                 joined[] = {0, 2, 3, 6}, both[] = {0, 1};
  kovrelna_limits two = within_ratio(2, 1), zero = within_ratio(0, 1);

  GREEDY(even, zigzag, all, two);
  GREEDY(even, zigzag, late, two);
  GREEDY(even, zigzag, early, two);
  AT_FAULT(even, zigzag, ends, two, 0, KOVRELNA_FAULT_LINK);
  AT_FAULT(even, zigzag, three, two, 2, KOVRELNA_FAULT_LINK);
  GREEDY(even, wave, middle, two);
  GREEDY(even, wave, ends, two);
  AT_FAULT(even, wave, early, two, 0, KOVRELNA_FAULT_STOP);
  AT_FAULT(even, wave, last, two, 1, KOVRELNA_FAULT_STOP);
  /* An invalid link is named, though the link to the next sample is valid. */
  AT_FAULT(even, wave, late, two, 0, KOVRELNA_FAULT_LINK);
  /* The next sample, not the next kept one. */
  AT_FAULT(even, rise, inner, within_ratio(1, 1), 0, KOVRELNA_FAULT_STOP);
  GREEDY(even, rise, middle, within_ratio(1, 1));
  /* Gallop's list has more samples than walk's. */
  GREEDY(seven, other, walked, within_ratio(3, 1));
  GREEDY(seven, other, galloped, within_ratio(3, 1));
  /* Of several faults the first. */
  GREEDY(seven, steps, kept, zero);
  AT_FAULT(seven, steps, cut_first, zero, 0, KOVRELNA_FAULT_STOP);
  AT_FAULT(seven, steps, cut_later, zero, 2, KOVRELNA_FAULT_STOP);
  AT_FAULT(seven, steps, joined, zero, 2, KOVRELNA_FAULT_LINK);
  /* Each part on its own side. */
  GREEDY(even, wave, last, within_parts(2, 1, 1, 1));
  AT_FAULT(even, wave, last, within_parts(1, 1, 2, 1), 0, KOVRELNA_FAULT_LINK);
  GREEDY(even, wave, inner, within_parts(1, 1, 2, 1));
  AT_FAULT(even, wave, inner, within_parts(2, 1, 1, 1), 0, KOVRELNA_FAULT_STOP);
  /* A hole ends a stop. */
  GREEDY(hole, level, sides, within_gap(0, 7));
  AT_FAULT(hole, level, sides, within_gap(0, 8), 0, KOVRELNA_FAULT_STOP);
  AT_FAULT(hole, level, cut, within_gap(0, 7), 2, KOVRELNA_FAULT_STOP);
  AT_FAULT(hole, level, across, within_gap(0, 7), 1, KOVRELNA_FAULT_LINK);
  AT_FAULT(hole, level, across_first, within_gap(0, 7), 0, KOVRELNA_FAULT_LINK);
  AT_FAULT(hole, level, hole_ends, within_gap(0, 7), 0, KOVRELNA_FAULT_LINK);
  GREEDY(hole, level, hole_ends, within_gap(0, 8));
  /* Two samples, and one. */
  GREEDY(apart, steep, both, within_gap(0, 1));
  ask(__LINE__, JUDGE_GREEDY, even, 1, wave, 1, all, 1, within_gap(0, 1), with_passed(0, 0, 1));
}

static void reductions(void) {
  const uint32_t even[] = {0, 1, 2, 3, 4}, nine[] = {0, 1, 2, 3, 4, 5, 6, 7, 8};
  const int16_t zigzag[] = {0, 3, 0, 3, 0}, wave[] = {0, 2, 0, -2, 0}, bend[] = {0, 0, 0, 5, 10},
                longer[] = {0, 3, 0, 3, 0, 3, 0, 3, 0};
  const uint16_t all[] = {0, 1, 2, 3, 4}, ends[] = {0, 4}, late[] = {0, 3, 4}, middle[] = {0, 2, 4},
                 three[] = {0, 1, 2}, two[] = {0, 1}, one[] = {0}, latest[] = {0, 3, 6, 7, 8};
  size_t out_len;

  /* The output is as long as the trace, or longer. */
  for (out_len = 5; out_len <= 9; out_len++) {
    REDUCE(WALK, even, zigzag, within_ratio(2, 1), out_len, 0, all);
    REDUCE(GALLOP, even, zigzag, within_ratio(2, 1), out_len, 4, all);
    REDUCE(MINIMUM, even, zigzag, within_ratio(2, 1), out_len, 0, late);
    REDUCE(WALK, even, zigzag, within_counts(3.0), out_len, 0, ends);
    REDUCE(GALLOP, even, zigzag, within_counts(3.0), out_len, 5, ends);
    REDUCE(MINIMUM, even, zigzag, within_counts(3.0), out_len, 0, ends);
    REDUCE(WALK, even, wave, within_noise(0.5, 4.0), out_len, 0, middle);
    REDUCE(GALLOP, even, wave, within_noise(0.5, 4.0), out_len, 5, ends);
    REDUCE(MINIMUM, even, wave, within_noise(0.5, 4.0), out_len, 0, ends);
    REDUCE(WALK, even, bend, within_ratio(0, 1), out_len, 0, middle);
    REDUCE(GALLOP, even, bend, within_ratio(0, 1), out_len, 6, middle);
    REDUCE(MINIMUM, even, bend, within_ratio(0, 1), out_len, 0, middle);
  }
  REDUCE(WALK, uneven, step, within_ratio(4, 6), 3, 0, pair);
  REDUCE(GALLOP, uneven, step, within_ratio(4, 6), 3, 3, pair);
  REDUCE(MINIMUM, uneven, step, within_ratio(4, 6), 3, 0, pair);
  REDUCE(WALK, uneven, step, within_ratio(665, 1000), 3, 0, three);
  REDUCE(GALLOP, uneven, step, within_ratio(665, 1000), 3, 2, three);
  REDUCE(MINIMUM, uneven, step, within_ratio(665, 1000), 3, 0, three);
  /* Of several lists of five samples, the one whose second is latest, then its third. */
  REDUCE(MINIMUM, nine, longer, within_ratio(2, 1), 9, 0, latest);
  /* Two samples, and one. */
  reduce(__LINE__, WALK, even, 2, zigzag, 2, within_ratio(0, 1), 2, 0, 2, 0, two);
  reduce(__LINE__, GALLOP, even, 2, zigzag, 2, within_ratio(0, 1), 2, 0, 2, 1, two);
  reduce(__LINE__, MINIMUM, even, 2, zigzag, 2, within_ratio(0, 1), 2, 0, 2, 0, two);
  reduce(__LINE__, WALK, even, 1, zigzag, 1, within_ratio(0, 1), 1, 0, 1, 0, one);
  reduce(__LINE__, GALLOP, even, 1, zigzag, 1, within_ratio(0, 1), 1, 0, 1, 0, one);
  reduce(__LINE__, MINIMUM, even, 1, zigzag, 1, within_ratio(0, 1), 1, 0, 1, 0, one);
}

static void refusals(void) {
  const uint32_t even[] = {0, 1, 2, 3, 4}, whole[] = {0, 1048575}, beyond[] = {0, 1048576},
                 equal[] = {5, 5}, high[] = {UINT32_MAX - 1048575, UINT32_MAX},
                 around[] = {UINT32_MAX, 0}, stuck[] = {0, 1048576, 1048577, 1048578, 1048578};
  const int16_t flat[] = {0, 0, 0, 0, 0}, two[] = {0, 0};
  const uint16_t ends[] = {0, 4}, both[] = {0, 1}, late[] = {1, 4}, again[] = {0, 2, 2, 4},
                 outside[] = {0, 3, 5}, brief[] = {0, 2, 3};
  kovrelna_limits zero = within_ratio(0, 1);
  size_t k;

  JUDGE(whole, two, both, zero, 0, 1, 0);
  JUDGE(high, two, both, zero, 0, 1, 0);
  JUDGE(around, two, both, zero, KOVRELNA_REFUSED_TICK, 0, 1);
  JUDGE(even, flat, late, zero, KOVRELNA_REFUSED_LIST, 0, 0);
  JUDGE(even, flat, again, zero, KOVRELNA_REFUSED_LIST, 0, 2);
  JUDGE(even, flat, outside, zero, KOVRELNA_REFUSED_LIST, 0, 2);
  JUDGE(even, flat, brief, zero, KOVRELNA_REFUSED_LIST, 0, 3);

  /* One sample: its list is the sample itself. */
  judge(__LINE__, even, 1, flat, 1, ends, 1, zero, with_passed(0, 0, 1));

  /* The reductions, without an output and with one. */
  REFUSE(even, two, zero, 5, KOVRELNA_REFUSED_LENGTH, 0);
  REFUSE(beyond, two, zero, 2, KOVRELNA_REFUSED_SPAN, 1);
  REFUSE(even, flat, zero, 0, KOVRELNA_REFUSED_ROOM, 5);
  REFUSE(even, flat, zero, 4, KOVRELNA_REFUSED_ROOM, 5);

  /* 1, 2, 3 before 4, and 4 before 6, 7 and 10. */
  for (k = 0; k < COUNT(not_allowed); k++) {
    kovrelna_limits none = kovrelna_limited(not_allowed[k], KOVRELNA_GAP_MAX);
    JUDGE(even, two, ends, none, KOVRELNA_REFUSED_LENGTH, 0, 0);
    JUDGE(equal, two, both, none, KOVRELNA_REFUSED_TICK, 0, 1);
    JUDGE(stuck, flat, ends, none, KOVRELNA_REFUSED_TICK, 0, 4);
    JUDGE(beyond, two, both, none, KOVRELNA_REFUSED_SPAN, 0, 1);
    JUDGE(even, flat, late, none, KOVRELNA_REFUSED_TOLERANCE, 0, 0);
    JUDGE(even, flat, ends, none, KOVRELNA_REFUSED_TOLERANCE, 0, 0);
    REFUSE(even, two, none, 0, KOVRELNA_REFUSED_LENGTH, 0);
    REFUSE(equal, two, none, 0, KOVRELNA_REFUSED_TICK, 1);
    REFUSE(stuck, flat, none, 5, KOVRELNA_REFUSED_TICK, 4);
    REFUSE(beyond, two, none, 0, KOVRELNA_REFUSED_SPAN, 1);
    REFUSE(even, flat, none, 0, KOVRELNA_REFUSED_TOLERANCE, 0);
    REFUSE(even, flat, none, 5, KOVRELNA_REFUSED_TOLERANCE, 0);
    WRITE(even, two, ends, none, 22, 0, KOVRELNA_REFUSED_LENGTH, 0, NULL);
    WRITE(equal, two, both, none, 22, 0, KOVRELNA_REFUSED_TICK, 1, NULL);
    WRITE(beyond, two, both, none, 22, 0, KOVRELNA_REFUSED_SPAN, 1, NULL);
    WRITE(even, flat, late, none, 22, 0, KOVRELNA_REFUSED_TOLERANCE, 0, NULL);
    WRITE(uneven, step, pair, none, 0, 0, KOVRELNA_REFUSED_TOLERANCE, 0, NULL);
    WRITE(even, flat, ends, none, 30, 0, KOVRELNA_REFUSED_TOLERANCE, 0, NULL);
  }
}

static void least_errors(void) {
  const uint32_t even[] = {0, 1, 2, 3, 4}, beyond_span[] = {0, 1048576}, equal[] = {5, 5};
  const int16_t zigzag[] = {0, 3, 0, 3, 0}, two[] = {0, 0};
  const uint16_t all[] = {0, 1, 2, 3, 4}, ends[] = {0, 4}, late[] = {0, 3, 4}, one[] = {0},
                 both[] = {0, KOVRELNA_LEAST_SAMPLES_MAX - 1};
  static uint32_t ticks[KOVRELNA_LEAST_SAMPLES_MAX + 1];
  static const int16_t flat[KOVRELNA_LEAST_SAMPLES_MAX + 1] = {0};
  const uint32_t any = KOVRELNA_GAP_MAX;
  size_t k;
  for (k = 0; k < COUNT(ticks); k++) ticks[k] = (uint32_t)k;

  for (k = 5; k <= 9; k++) {
    CLOSEST(even, zigzag, any, 2, k, 3, 1, ends);
    CLOSEST(even, zigzag, any, 3, k, 2, 1, late);
    CLOSEST(even, zigzag, any, 4, k, 2, 1, late);
    CLOSEST(even, zigzag, any, 5, k, 0, 1, all);
    CLOSEST(even, zigzag, any, 4096, k, 0, 1, all);
  }
  CLOSEST(uneven, step, any, 2, 3, 2, 3, pair);
  least(__LINE__, even, 1, zigzag, 1, any, 2, 1, 0, 1, 0, 1, one);
  least(__LINE__, ticks, COUNT(ticks) - 1, flat, COUNT(flat) - 1, any, 2, COUNT(ticks) - 1, 0, 2, 0,
        1, both);

  NO_CLOSEST(ticks, flat, any, 0, 0, KOVRELNA_REFUSED_LENGTH, 0);
  NO_CLOSEST(ticks, flat, any, 2, COUNT(ticks), KOVRELNA_REFUSED_LENGTH, 0);
  NO_CLOSEST(even, two, any, 0, 5, KOVRELNA_REFUSED_LENGTH, 0);
  NO_CLOSEST(equal, two, any, 0, 0, KOVRELNA_REFUSED_TICK, 1);
  NO_CLOSEST(beyond_span, two, any, 0, 0, KOVRELNA_REFUSED_SPAN, 1);
  NO_CLOSEST(even, zigzag, any, 0, 0, KOVRELNA_REFUSED_ALLOWANCE, 0);
  NO_CLOSEST(even, zigzag, any, 1, 5, KOVRELNA_REFUSED_ALLOWANCE, 0);
  NO_CLOSEST(even, zigzag, any, 4097, 5, KOVRELNA_REFUSED_ALLOWANCE, 0);
  NO_CLOSEST(even, zigzag, any, SIZE_MAX, 5, KOVRELNA_REFUSED_ALLOWANCE, 0);
  NO_CLOSEST(even, zigzag, any, 2, 4, KOVRELNA_REFUSED_ROOM, 5);
}

/* Two runs of samples, 8 ticks apart. */
static const uint32_t holed[] = {0, 1, 2, 10, 11, 12};
static const int16_t holed_values[] = {0, 0, 0, 0, 0, 0};
static const uint16_t holed_ends[] = {0, 5}, holed_sides[] = {0, 2, 3, 5};

static kovrelna_limits under(uint32_t gap) { return within_gap(0, gap); }

/* Every method keeps these samples, of values that do not differ. */
static void keeps(int line, const uint32_t *ticks, size_t len, uint32_t gap, const uint16_t *list,
                  size_t kept) {
  static const int16_t flat[KOVRELNA_SAMPLES_MAX] = {0};
  int method;
  for (method = WALK; method <= MINIMUM; method++)
    reduce(line, method, ticks, len, flat, len, under(gap), len, 0, kept,
           method == GALLOP ? list_probes(list, kept) : 0, list);
}

#define KEEPS(ticks, gap, list) keeps(__LINE__, ticks, COUNT(ticks), gap, list, COUNT(list))

static void gap_limits(void) {
  enum { SAMPLES = 200 };
  const uint16_t ends[] = {0, 2}, all[] = {0, 1, 2, 3, 4, 5}, early[] = {0, 1, 3, 5},
                 late[] = {0, 2, 5}, across[] = {0, 2, 4, 5};
  const uint32_t apart[] = {0, 8}, far_first[] = {0, 2, 3}, widest[] = {0, 1, 1048575},
                 nearly[] = {0, 7, 15, 23};
  const uint16_t both[] = {0, 1}, three[] = {0, 1, 2}, nearly_ends[] = {0, 3};
  const int16_t flat[] = {0, 0, 0, 0, 0, 0, 0, 0, 0}, steep[] = {-32768, 32767},
                peak[] = {0, 3, 0, 0, 0, 0}, trough[] = {0, 0, 0, 0, -3, 0},
                level_four[] = {0, 0, 0, 0};
  /* Holes at the first and the last step, and two in a row. */
  const uint32_t single[] = {0, 8, 9, 10, 18, 26, 27, 28, 36};
  const uint16_t single_sides[] = {0, 1, 3, 4, 5, 7, 8}, single_ends[] = {0, 8},
                 single_first[] = {0, 1, 8}, single_last[] = {0, 1, 3, 4, 5, 8};
  /* A zigzag on each side of a hole. */
  const uint32_t twice[] = {0, 1, 2, 3, 4, 12, 13, 14, 15, 16};
  const int16_t zigzags[] = {0, 3, 0, 3, 0, 0, 3, 0, 3, 0};
  const uint16_t twice_sides[] = {0, 4, 5, 9}, twice_late[] = {0, 3, 4, 5, 8, 9},
                 twice_all[] = {0, 1, 2, 3, 4, 5, 6, 7, 8, 9};
  /* The records of holed_sides and holed_ends. */
  const uint8_t sides_record[] = {0x54, 0, 0, 0, 0, 0, 0, 0, 1, 0x41, 0, 0, 0, 0, 0, 0, 0x53, 2, 0,
                                  0x53, 8, 0, 0x53, 2, 0, 0x45, 0, 4};
  const uint8_t ends_record[] = {0x54, 0, 0, 0, 0, 0, 0, 0, 1, 0x41, 0, 0, 0, 0, 0, 0, 0x53, 12, 0,
                                 0x45, 0, 2};
  /* Channels of 6, 1 and 2 samples. */
  const uint32_t crate_ticks[] = {0, 1, 2, 10, 11, 12, 7, 5, 99};
  const size_t lengths[] = {6, 1, 2};
  const kovrelna_summary split[] = {{6, 4, 0, 1, 0, 0}, {1, 1, 0, 1, 0, 0}, {2, 2, 0, 1, 0, 0}};
  const kovrelna_summary whole[] = {{6, 2, 0, 1, 0, 0}, {1, 1, 0, 1, 0, 0}, {2, 2, 0, 1, 0, 0}};
  /* Three channels of 6 samples: the worst link is the last, the first, or both are as bad. */
  const uint32_t three_ticks[] = {0, 1, 2, 10, 11, 12, 0, 1, 2, 10, 11, 12, 0, 1, 2, 10, 11, 12};
  const int16_t three_values[] = {0, 1, 0, 0, 2, 0, 0, -2, 0, 0, 1, 0, 0, -2, 0, 0, 2, 0};
  const size_t sixes[] = {6, 6, 6};
  const kovrelna_summary worst[] = {{6, 4, 2, 1, 4, 0}, {6, 4, 2, 1, 1, 0}, {6, 4, 2, 1, 1, 0}};
  static uint32_t ticks[SAMPLES];
  static const int16_t level[SAMPLES] = {0};
  size_t k, hole;

  for (k = 6; k <= 8; k++) {
    REDUCE(WALK, holed, holed_values, under(7), k, 0, holed_sides);
    REDUCE(GALLOP, holed, holed_values, under(7), k, 7, holed_sides);
    REDUCE(MINIMUM, holed, holed_values, under(7), k, 0, holed_sides);
    REDUCE(WALK, holed, holed_values, under(8), k, 0, holed_ends);
    REDUCE(GALLOP, holed, holed_values, under(8), k, 5, holed_ends);
    REDUCE(MINIMUM, holed, holed_values, under(8), k, 0, holed_ends);
    CLOSEST(holed, holed_values, 7, 4, k, 0, 1, holed_sides);
    CLOSEST(holed, holed_values, 7, 4096, k, 0, 1, holed_sides);
    CLOSEST(holed, holed_values, 8, 2, k, 0, 1, holed_ends);
  }
  KEEPS(single, 7, single_sides);
  KEEPS(single, 8, single_ends);
  CLOSEST(single, flat, 7, 7, 9, 0, 1, single_sides);
  /* Only a list that does not obey the gap limit has fewer samples. */
  KEEPS(far_first, 1, three);
  KEEPS(far_first, 2, ends);
  /* The largest gap limit, and the greatest distance of two neighbours. */
  KEEPS(widest, 1048573, three);
  KEEPS(widest, 1048574, ends);
  KEEPS(widest, KOVRELNA_GAP_MAX, ends);
  KEEPS(apart, 1, both);
  keeps(__LINE__, holed, 1, 1, all, 1);
  least(__LINE__, holed, 1, holed_values, 1, 1, 2, 1, 0, 1, 0, 1, all);
  least(__LINE__, apart, 2, steep, 2, 1, 2, 2, 0, 2, 0, 1, both);
  /* Both runs share the allowance. */
  CLOSEST(twice, zigzags, 7, 4, 10, 3, 1, twice_sides);
  CLOSEST(twice, zigzags, 7, 5, 10, 3, 1, twice_sides);
  CLOSEST(twice, zigzags, 7, 6, 10, 2, 1, twice_late);
  CLOSEST(twice, zigzags, 7, 9, 10, 2, 1, twice_late);
  CLOSEST(twice, zigzags, 7, 10, 10, 0, 1, twice_all);
  /* A hole after each sample in turn. */
  for (hole = 0; hole + 1 < SAMPLES; hole++) {
    uint16_t list[4] = {0};
    size_t kept = 1;
    for (k = 0; k < SAMPLES; k++) ticks[k] = (uint32_t)(k + (k > hole ? 7 : 0));
    if (hole > 0) list[kept++] = (uint16_t)hole;
    list[kept++] = (uint16_t)(hole + 1);
    if (hole + 2 < SAMPLES) list[kept++] = SAMPLES - 1;
    keeps(__LINE__, ticks, SAMPLES, 7, list, kept);
    list[1] = SAMPLES - 1;
    keeps(__LINE__, ticks, SAMPLES, 8, list, 2);
    judge(__LINE__, ticks, SAMPLES, level, SAMPLES, list, 2, under(7),
          with_measure(0, 0, 0, 1, hole, KOVRELNA_SIDE_GAP));
  }

  JUDGE(holed, holed_values, holed_sides, under(7), 0, 1, 0);
  STRAYS(holed, holed_values, holed_ends, under(7), 0, 0, 1, 2, KOVRELNA_SIDE_GAP);
  JUDGE(holed, holed_values, holed_ends, under(8), 0, 1, 0);
  STRAYS(holed, holed_values, early, under(7), 1, 0, 1, 2, KOVRELNA_SIDE_GAP);
  STRAYS(holed, holed_values, late, under(7), 1, 0, 1, 2, KOVRELNA_SIDE_GAP);
  STRAYS(holed, holed_values, across, under(7), 1, 0, 1, 2, KOVRELNA_SIDE_GAP);
  JUDGE(holed, holed_values, across, under(8), 0, 1, 0);
  JUDGE(holed, holed_values, all, under(1), 0, 1, 0);
  JUDGE(apart, steep, both, under(1), 0, 1, 0);
  /* Of several holes the first; before it two neighbours exactly the gap limit apart. */
  STRAYS(nearly, level_four, nearly_ends, under(7), 0, 0, 1, 1, KOVRELNA_SIDE_GAP);
  STRAYS(single, flat, single_ends, under(7), 0, 0, 1, 0, KOVRELNA_SIDE_GAP);
  STRAYS(single, flat, single_first, under(7), 1, 0, 1, 3, KOVRELNA_SIDE_GAP);
  STRAYS(single, flat, single_last, under(7), 4, 0, 1, 7, KOVRELNA_SIDE_GAP);
  /* The tolerance alone makes a link invalid, both do, the gap limit alone does. */
  STRAYS(holed, peak, holed_ends, within_gap(2, 8), 0, 3, 1, 1, KOVRELNA_SIDE_ABOVE);
  STRAYS(holed, peak, holed_ends, within_gap(2, 7), 0, 3, 1, 1, KOVRELNA_SIDE_ABOVE);
  STRAYS(holed, peak, holed_ends, within_gap(3, 7), 0, 3, 1, 2, KOVRELNA_SIDE_GAP);
  STRAYS(holed, trough, late, within_gap(2, 8), 1, 3, 1, 4, KOVRELNA_SIDE_BELOW);
  STRAYS(holed, trough, late, within_gap(2, 7), 1, 3, 1, 4, KOVRELNA_SIDE_BELOW);
  STRAYS(holed, trough, late, within_gap(3, 7), 1, 3, 1, 2, KOVRELNA_SIDE_GAP);
  STRAYS(holed, trough, holed_sides, within_gap(2, 7), 2, 3, 1, 4, KOVRELNA_SIDE_BELOW);

  WRITE(holed, holed_values, holed_sides, under(7), 28, 0, 0, 28, sides_record);
  WRITE(holed, holed_values, holed_sides, under(KOVRELNA_GAP_MAX), 28, 0, 0, 28, sides_record);
  WRITE(holed, holed_values, holed_ends, under(8), 25, 2, 0, 22, ends_record);

  REPORT_ROWS(crate_ticks, flat, lengths, under(7), 3, totals(9, 7, 0, 1), split);
  REPORT_ROWS(crate_ticks, flat, lengths, under(8), 4, totals(9, 5, 0, 1), whole);
  REPORT_ROWS(three_ticks, three_values, sixes, within_gap(2, 7), 3, totals(18, 12, 2, 1), worst);
}

/* Rows 7, 15 and 16, in their order. */
static void no_gap_limits(void) {
  const uint32_t beyond_span[] = {0, 1048576}, equal[] = {5, 5};
  const int16_t two[] = {0, 0}, bent[] = {0, 0, 0, 0, 9, 0};
  const uint16_t late[] = {0, 2, 5}, both[] = {0, 1}, none[] = {1}, all[] = {0, 1, 2, 3, 4, 5};
  const size_t lengths[] = {6}, less[] = {5};
  const uint32_t gaps[] = {0, KOVRELNA_GAP_MAX + 1, UINT32_MAX};
  size_t k, t, room;

  for (k = 0; k < COUNT(gaps); k++) {
    const uint32_t gap = gaps[k];
    kovrelna_limits given = under(gap);
    for (room = 0; room <= 40; room += 40) {
      REFUSE(holed, two, given, room, KOVRELNA_REFUSED_LENGTH, 0);
      REFUSE(equal, two, given, room, KOVRELNA_REFUSED_TICK, 1);
      REFUSE(beyond_span, two, given, room, KOVRELNA_REFUSED_SPAN, 1);
      REFUSE(holed, holed_values, given, room, KOVRELNA_REFUSED_GAP, 0);

      WRITE(holed, two, both, given, room, 0, KOVRELNA_REFUSED_LENGTH, 0, NULL);
      WRITE(equal, two, both, given, room, 0, KOVRELNA_REFUSED_TICK, 1, NULL);
      WRITE(beyond_span, two, both, given, room, 0, KOVRELNA_REFUSED_SPAN, 1, NULL);
      WRITE(holed, bent, none, given, room, 0, KOVRELNA_REFUSED_GAP, 0, NULL);
      WRITE(holed, bent, holed_ends, given, room, 0, KOVRELNA_REFUSED_GAP, 0, NULL);
      WRITE(holed, bent, all, given, room, 0, KOVRELNA_REFUSED_GAP, 0, NULL);

      NO_CLOSEST(holed, two, gap, 0, room, KOVRELNA_REFUSED_LENGTH, 0);
      NO_CLOSEST(equal, two, gap, 0, room, KOVRELNA_REFUSED_TICK, 1);
      NO_CLOSEST(beyond_span, two, gap, 0, room, KOVRELNA_REFUSED_SPAN, 1);
      NO_CLOSEST(holed, bent, gap, 0, room, KOVRELNA_REFUSED_GAP, 0);
      NO_CLOSEST(holed, bent, gap, 2, room, KOVRELNA_REFUSED_GAP, 0);
      NO_CLOSEST(holed, bent, gap, 4096, room, KOVRELNA_REFUSED_GAP, 0);
    }
    JUDGE(holed, two, both, given, KOVRELNA_REFUSED_LENGTH, 0, 0);
    JUDGE(equal, two, both, given, KOVRELNA_REFUSED_TICK, 0, 1);
    JUDGE(beyond_span, two, both, given, KOVRELNA_REFUSED_SPAN, 0, 1);
    JUDGE(holed, bent, none, given, KOVRELNA_REFUSED_GAP, 0, 0);
    JUDGE(holed, bent, holed_ends, given, KOVRELNA_REFUSED_GAP, 0, 0);
    NO_REPORT(holed, 6, holed_values, 6, less, 1, given, KOVRELNA_REFUSED_CRATE);
    NO_REPORT(holed, 6, holed_values, 6, lengths, 1, given, KOVRELNA_REFUSED_GAP);
    /* 4 before 15. */
    for (t = 0; t < COUNT(not_allowed); t++) {
      kovrelna_limits bad = kovrelna_limited(not_allowed[t], gap);
      REFUSE(holed, holed_values, bad, 40, KOVRELNA_REFUSED_TOLERANCE, 0);
      WRITE(holed, bent, none, bad, 40, 0, KOVRELNA_REFUSED_TOLERANCE, 0, NULL);
      JUDGE(holed, bent, none, bad, KOVRELNA_REFUSED_TOLERANCE, 0, 0);
      NO_REPORT(holed, 6, holed_values, 6, less, 1, bad, KOVRELNA_REFUSED_CRATE);
      NO_REPORT(holed, 6, holed_values, 6, lengths, 1, bad, KOVRELNA_REFUSED_TOLERANCE);
    }
  }

  /* 6 before 7, and 7 before 10, where only the gap limit makes a link invalid. */
  for (room = 0; room <= 40; room += 40) {
    WRITE(holed, holed_values, none, under(7), room, 0, KOVRELNA_REFUSED_LIST, 0, NULL);
    WRITE(holed, holed_values, holed_ends, under(7), room, 0, KOVRELNA_REFUSED_LINK, 0, NULL);
    WRITE(holed, holed_values, late, under(7), room, 0, KOVRELNA_REFUSED_LINK, 1, NULL);
  }
  WRITE(holed, holed_values, late, under(8), 24, 0, KOVRELNA_REFUSED_ROOM, 25, NULL);

  /* 5 before 16, and 16 before 10. */
  for (room = 0; room <= 6; room += 2) {
    NO_CLOSEST(holed, holed_values, 7, 0, room, KOVRELNA_REFUSED_ALLOWANCE, 0);
    NO_CLOSEST(holed, holed_values, 7, 1, room, KOVRELNA_REFUSED_ALLOWANCE, 0);
    NO_CLOSEST(holed, holed_values, 7, 4097, room, KOVRELNA_REFUSED_ALLOWANCE, 0);
    NO_CLOSEST(holed, holed_values, 7, 2, room, KOVRELNA_REFUSED_HOLES, 0);
    NO_CLOSEST(holed, holed_values, 7, 3, room, KOVRELNA_REFUSED_HOLES, 0);
    NO_CLOSEST(holed, holed_values, 1, 3, room, KOVRELNA_REFUSED_HOLES, 0);
    if (room == 6) break;
    NO_CLOSEST(holed, holed_values, 7, 4, room, KOVRELNA_REFUSED_ROOM, 6);
    NO_CLOSEST(holed, holed_values, 8, 2, room, KOVRELNA_REFUSED_ROOM, 6);
  }
}

/* One part for samples above the line and one for those below it: document 02's figures and their
 * mirror images, where U and D are exchanged with the signs of the values. */
static void unequal_parts(void) {
  const uint32_t five[] = {0, 1, 2, 3, 4}, four[] = {0, 1, 2, 3}, three[] = {0, 1, 2},
                 wide[] = {0, 1, 1048575}, hole[] = {0, 1, 2, 12};
  const int16_t wave[] = {0, 2, 0, -2, 0}, turned[] = {0, -2, 0, 2, 0}, hidden[] = {1, 0, 1, -1},
                hidden_turned[] = {-1, 0, -1, 1}, dip[] = {1, 1, 0, 1}, drop[] = {1, 1, -1},
                stairs[] = {0, 2, 1, 3}, fall[] = {0, -1, -1}, peak[] = {0, 3, 0, 0, 0, 0},
                trough[] = {0, -3, 0, 0, 0, 0}, deepest[] = {32767, -32768, 32767},
                highest[] = {-32768, 32767, -32768}, far_hidden[] = {1, 0, 4, -1};
  const uint16_t all[] = {0, 1, 2}, ends[] = {0, 2}, four_ends[] = {0, 3}, late[] = {0, 2, 3, 4},
                 early[] = {0, 1, 3, 4}, middle[] = {0, 2, 4}, five_ends[] = {0, 4},
                 second[] = {0, 1, 3};
  const uint64_t greatest = 65535u * UINT64_C(1048575);
  size_t k;

  for (k = 5; k <= 7; k++) {
    REDUCE(WALK, five, wave, within_parts(2, 1, 1, 1), k, 0, late);
    REDUCE(GALLOP, five, wave, within_parts(2, 1, 1, 1), k, 5, late);
    REDUCE(MINIMUM, five, wave, within_parts(2, 1, 1, 1), k, 0, late);
    REDUCE(WALK, five, wave, within_parts(1, 1, 2, 1), k, 0, early);
    REDUCE(GALLOP, five, wave, within_parts(1, 1, 2, 1), k, 5, early);
    REDUCE(MINIMUM, five, wave, within_parts(1, 1, 2, 1), k, 0, early);
    REDUCE(WALK, five, turned, within_parts(1, 1, 2, 1), k, 0, late);
    REDUCE(GALLOP, five, turned, within_parts(1, 1, 2, 1), k, 5, late);
    REDUCE(MINIMUM, five, turned, within_parts(1, 1, 2, 1), k, 0, late);
  }
  /* Equal parts, in any terms, are one tolerance. */
  REDUCE(WALK, five, wave, within_parts(4, 2, 6, 3), 5, 0, middle);
  REDUCE(GALLOP, five, wave, within_parts(4, 2, 6, 3), 5, 5, five_ends);
  REDUCE(MINIMUM, five, wave, within_parts(4, 2, 6, 3), 5, 0, five_ends);
  /* The greedy lists are longer than one within U/2 and D/2, than one whose parts add up to the
   * greater of U and D, and than one that is within the smaller on either side. */
  REDUCE(WALK, four, dip, within_parts(0, 1, 3, 1), 4, 0, second);
  REDUCE(GALLOP, four, dip, within_parts(0, 1, 3, 1), 4, 4, second);
  REDUCE(MINIMUM, four, dip, within_parts(0, 1, 3, 1), 4, 0, four_ends);
  JUDGE(four, dip, four_ends, within_parts(0, 1, 3, 2), 0, 1, 0);
  REDUCE(WALK, three, drop, within_parts(1, 2, 2, 1), 3, 0, all);
  REDUCE(GALLOP, three, drop, within_parts(1, 2, 2, 1), 3, 2, all);
  REDUCE(MINIMUM, three, drop, within_parts(1, 2, 2, 1), 3, 0, all);
  JUDGE(three, drop, ends, within_parts(1, 1, 0, 1), 0, 1, 0);
  REDUCE(WALK, four, stairs, within_parts(1, 1, 3, 1), 4, 0, second);
  REDUCE(GALLOP, four, stairs, within_parts(1, 1, 3, 1), 4, 4, second);
  REDUCE(MINIMUM, four, stairs, within_parts(1, 1, 3, 1), 4, 0, four_ends);
  JUDGE(four, stairs, four_ends, within_parts(1, 1, 1, 1), 0, 1, 0);

  /* Equality is valid on either side, and the other part does not matter. */
  JUDGE(uneven, step, pair, within_parts(4, 6, 0, 1), 0, 1, 0);
  STRAYS(uneven, step, pair, within_parts(665, 1000, 65535, 1), 0, 2, 3, 1, KOVRELNA_SIDE_ABOVE);
  JUDGE(uneven, fall, pair, within_parts(0, 1, 4, 6), 0, 1, 0);
  STRAYS(uneven, fall, pair, within_parts(65535, 1, 665, 1000), 0, 2, 3, 1, KOVRELNA_SIDE_BELOW);
  JUDGE(wide, highest, ends, within_parts(65535, 1, 1, 1048575), 0, 1, 0);
  STRAYS(wide, highest, ends, within_parts(greatest - 1, 1048575, 65535, 1), 0, 65535, 1, 1,
         KOVRELNA_SIDE_ABOVE);
  JUDGE(wide, deepest, ends, within_parts(1, 1048575, 65535, 1), 0, 1, 0);
  STRAYS(wide, deepest, ends, within_parts(65535, 1, greatest - 1, 1048575), 0, 65535, 1, 1,
         KOVRELNA_SIDE_BELOW);
  REDUCE(WALK, wide, highest, within_parts(65535, 1, 1, 1048575), 3, 0, ends);
  REDUCE(WALK, wide, highest, within_parts(greatest - 1, 1048575, 65535, 1), 3, 0, all);
  REDUCE(GALLOP, wide, deepest, within_parts(1, 1048575, 65535, 1), 3, 3, ends);
  REDUCE(GALLOP, wide, deepest, within_parts(65535, 1, greatest - 1, 1048575), 3, 2, all);
  REDUCE(MINIMUM, wide, highest, within_parts(65535, 1, 1, 1048575), 3, 0, ends);
  REDUCE(MINIMUM, wide, deepest, within_parts(65535, 1, greatest - 1, 1048575), 3, 0, all);

  /* The sample named may lie within its own part: sample 1 is outside the other, by 1/3. */
  STRAYS(four, hidden, four_ends, within_parts(5, 1, 0, 1), 0, 4, 3, 2, KOVRELNA_SIDE_ABOVE);
  STRAYS(four, hidden, four_ends, within_parts(4, 3, 1, 4), 0, 4, 3, 2, KOVRELNA_SIDE_ABOVE);
  STRAYS(four, hidden, four_ends, within_parts(1, 1, 1, 3), 0, 4, 3, 2, KOVRELNA_SIDE_ABOVE);
  JUDGE(four, hidden, four_ends, within_parts(4, 3, 1, 3), 0, 1, 0);
  STRAYS(four, hidden_turned, four_ends, within_parts(0, 1, 5, 1), 0, 4, 3, 2, KOVRELNA_SIDE_BELOW);
  JUDGE(four, hidden_turned, four_ends, within_parts(1, 3, 4, 3), 0, 1, 0);

  /* The gap limit alone makes a link invalid exactly if it is within both parts. */
  STRAYS(holed, peak, holed_ends, within_both(3, 0, 7), 0, 3, 1, 2, KOVRELNA_SIDE_GAP);
  STRAYS(holed, peak, holed_ends, within_both(2, 3, 7), 0, 3, 1, 1, KOVRELNA_SIDE_ABOVE);
  STRAYS(holed, trough, holed_ends, within_both(0, 3, 7), 0, 3, 1, 2, KOVRELNA_SIDE_GAP);
  STRAYS(holed, trough, holed_ends, within_both(3, 2, 7), 0, 3, 1, 1, KOVRELNA_SIDE_BELOW);
  STRAYS(holed, holed_values, holed_ends, within_both(0, 1, 7), 0, 0, 1, 2, KOVRELNA_SIDE_GAP);
  STRAYS(hole, far_hidden, four_ends, within_both(5, 0, 7), 0, 10, 3, 2, KOVRELNA_SIDE_ABOVE);
  STRAYS(hole, far_hidden, four_ends, within_both(4, 1, 7), 0, 10, 3, 2, KOVRELNA_SIDE_GAP);
  JUDGE(hole, far_hidden, four_ends, within_both(4, 1, 10), 0, 1, 0);
}

static void scans(void) {
  const uint32_t even[] = {0, 1, 2, 3, 4};
  const int16_t zigzag[] = {0, 3, 0, 3, 0}, wave[] = {0, 2, 0, -2, 0};
  const uint64_t five[] = {5, 2, 5, 2, 2};
  const uint16_t five_lists[][5] = {
      {0, 1, 2, 3, 4}, {0, 4}, {0, 1, 2, 3, 4}, {0, 4}, {0, 4}};
  const uint64_t three[] = {3, 2, 4};
  const uint16_t three_lists[][5] = {{0, 2, 4}, {0, 4}, {0, 1, 3, 4}};
  const uint64_t two[] = {2, 3}, fours[] = {4, 4}, twos[] = {2, 2}, ones[] = {1, 1, 1};
  const uint16_t two_lists[][3] = {{0, 2}, {0, 1, 2}}, side_lists[][6] = {{0, 2, 3, 5},
                                                                          {0, 2, 3, 5}};
  const uint16_t end_lists[][6] = {{0, 5}, {0, 5}}, one_lists[][1] = {{0}, {0}, {0}};
  const uint64_t four_kept[] = {4, 4, 3, 3};
  const uint16_t four_lists[][5] = {{0, 2, 3, 4}, {0, 1, 3, 4}, {0, 2, 4}, {0, 2, 4}};
  kovrelna_tolerance forms[5], mixed[3], nearly[2], both_parts[4], any[KOVRELNA_TOLERANCES_MAX];
  size_t count, k;
  uint32_t gap;

  /* All forms; equal tolerances, in any order. */
  forms[0] = kovrelna_ratio(4, 2);
  forms[1] = kovrelna_counts(3.0);
  forms[2] = kovrelna_noise(0.5, 4.0);
  forms[3] = kovrelna_ratio(3, 1);
  forms[4] = kovrelna_counts(65535.0);
  SCANNED(even, zigzag, forms, KOVRELNA_GAP_MAX, five, five_lists);
  mixed[0] = kovrelna_counts(2.0);
  mixed[1] = kovrelna_ratio(8, 3);
  mixed[2] = kovrelna_noise(0.25, 2.0);
  SCANNED(even, wave, mixed, 1, three, three_lists);
  nearly[0] = kovrelna_ratio(4, 6);
  nearly[1] = kovrelna_ratio(665, 1000);
  SCANNED(uneven, step, nearly, KOVRELNA_GAP_MAX, two, two_lists);
  /* Parts, each tolerance with its own. */
  both_parts[0] = kovrelna_parts(2, 1, 1, 1);
  both_parts[1] = kovrelna_parts(1, 1, 2, 1);
  both_parts[2] = kovrelna_parts(2, 1, 2, 1);
  both_parts[3] = kovrelna_ratio(2, 1);
  SCANNED(even, wave, both_parts, KOVRELNA_GAP_MAX, four_kept, four_lists);
  /* Gap limits. */
  SCANNED(holed, holed_values, nearly, 7, fours, side_lists);
  SCANNED(holed, holed_values, nearly, 8, twos, end_lists);
  /* One sample. */
  scanned(__LINE__, trace(even, 1, zigzag, 1), mixed, 3, 1, ones, &one_lists[0][0]);

  /* As many as there may be, equal ones among them, and every number below. */
  for (k = 0; k < COUNT(any); k++)
    any[k] = k % 4 == 0   ? kovrelna_ratio(7 * k % 11, 2)
             : k % 4 == 1 ? kovrelna_counts((double)(5 * k % 7) / 64)
             : k % 4 == 2 ? kovrelna_noise(0.5, (double)(k % 5))
                          : kovrelna_parts(k % 5, 2, 7 * k % 11, 3);
  any[15] = any[4];
  for (count = 1; count <= COUNT(any); count++)
    for (gap = 1; gap <= 9; gap += 4) {
      scanned_as_walk(__LINE__, TRACE(even, zigzag), any, count, gap);
      scanned_as_walk(__LINE__, TRACE(even, wave), any, count, gap);
      scanned_as_walk(__LINE__, TRACE(holed, holed_values), any, count, gap);
    }
}

/* Every trace, number of tolerances, position of a bad one and gap limit beside every other: the
 * first row in the order 1, 2, 3, 19, 4, 15, 10. */
static void no_scans(void) {
  enum { SAMPLES = 5, MOST = KOVRELNA_TOLERANCES_MAX };
  static const struct {
    uint32_t ticks[SAMPLES];
    size_t values_len;
    uint32_t number;
    uint64_t value;
  } traces[] = {{{0, 1, 2, 3, 4}, 5, 0, 0},
                {{0, 1, 2, 3, 4}, 4, 1, 0},
                {{0, 1, 1, 3, 3}, 5, 2, 2},
                {{0, 1, 2, 1048576, 1048577}, 5, 3, 3}};
  static const uint64_t counts[] = {1, 7, 16, 0, 17, 18, UINT64_C(1) << 32 | 1, UINT64_MAX};
  static const size_t none = MOST, positions[] = {MOST, 0, 6, 7, 15};
  static const uint32_t gaps[] = {1, KOVRELNA_GAP_MAX, 0, KOVRELNA_GAP_MAX + 1, UINT32_MAX};
  const int16_t flat[] = {0, 0, 0, 0, 0};
  const kovrelna_tolerance bad[] = {kovrelna_ratio(1, 0),        kovrelna_counts(0.01),
                                    kovrelna_noise(1024.0, 0.0), kovrelna_parts(1, 0, 1, 1),
                                    kovrelna_parts(1, 1, 1, 0),  {4, 1, 1, 1.0, 1.0, 1, 1}};
  const kovrelna_tolerance good = kovrelna_ratio(0, 1);
  size_t t, c, p, g, b, k;

  for (t = 0; t < COUNT(traces); t++)
    for (c = 0; c < COUNT(counts); c++)
      for (p = 0; p < COUNT(positions); p++)
        for (g = 0; g < COUNT(gaps); g++)
          for (b = 0; b < COUNT(bad); b++) {
            struct trace given = trace(traces[t].ticks, SAMPLES, flat, traces[t].values_len);
            int is_counted = counts[c] >= 1 && counts[c] <= MOST;
            int is_allowed = positions[p] == none || positions[p] >= counts[c];
            kovrelna_tolerances tolerances;
            tolerances.count = counts[c];
            /* Of several that are not allowed the first. */
            for (k = 0; k < MOST; k++)
              tolerances.list[k] = positions[p] != none && k >= positions[p] ? bad[b] : good;
            if (traces[t].number != 0)
              NOT_SCANNED(given, tolerances, gaps[g], traces[t].number, traces[t].value);
            else if (!is_counted)
              NOT_SCANNED(given, tolerances, gaps[g], KOVRELNA_REFUSED_COUNT, 0);
            else if (!is_allowed)
              NOT_SCANNED(given, tolerances, gaps[g], KOVRELNA_REFUSED_TOLERANCE, positions[p]);
            else if (g > 1)
              NOT_SCANNED(given, tolerances, gaps[g], KOVRELNA_REFUSED_GAP, 0);
            else
              NOT_SCANNED(given, tolerances, gaps[g], KOVRELNA_REFUSED_ROOM, SAMPLES * counts[c]);
          }
  /* Last 10, with any room that is too little. */
  for (c = 0; c < 3; c++) {
    struct scan given;
    memset(&given, 0, sizeof(given));
    given.tolerances.count = counts[c];
    for (k = 0; k < MOST; k++) given.tolerances.list[k] = good;
    for (k = 0; k < SAMPLES * counts[c]; k++)
      scan(__LINE__, trace(traces[0].ticks, SAMPLES, flat, SAMPLES), &given, 1, k,
           KOVRELNA_REFUSED_ROOM, SAMPLES * counts[c], NULL);
  }
}

/* The tolerances of a scan from a list: none where it is empty, the first 16 of a longer one. */
static void lists_of_tolerances(void) {
  enum { MOST = KOVRELNA_TOLERANCES_MAX };
  kovrelna_tolerance list[MOST + 2];
  size_t count, k;
  now_name = "tolerances_of";
  now_line = __LINE__;
  for (k = 0; k < COUNT(list); k++) list[k] = kovrelna_parts(k + 1, k + 2, k + 3, k + 4);
  for (count = 0; count <= COUNT(list); count++) {
    kovrelna_tolerances found = kovrelna_tolerances_of(count == 0 ? NULL : list, count);
    differ("count", found.count, count);
    for (k = 0; k < MOST; k++) {
      differ("p", found.list[k].p, k < count ? k + 1 : 0);
      differ("q", found.list[k].q, k < count ? k + 2 : 0);
      differ("below_p", found.list[k].below_p, k < count ? k + 3 : 0);
      differ("below_q", found.list[k].below_q, k < count ? k + 4 : 0);
      differ("form", found.list[k].form, k < count ? KOVRELNA_FORM_PARTS : KOVRELNA_FORM_RATIO);
    }
  }
}

static void begun_views(void) {
  uint64_t k;
  for (k = 0; k <= KOVRELNA_VIEW_K_MAX; k++) begin(__LINE__, k, 0);
  for (; k <= 300; k++) begin(__LINE__, k, KOVRELNA_REFUSED_VIEW);
  begin(__LINE__, 65536, KOVRELNA_REFUSED_VIEW);
  begin(__LINE__, UINT32_MAX, KOVRELNA_REFUSED_VIEW);
  for (k = 0; k <= KOVRELNA_VIEW_K_MAX; k++) {
    begin(__LINE__, (UINT64_C(1) << 32) + k, KOVRELNA_REFUSED_VIEW);
    begin(__LINE__, UINT64_MAX - k, KOVRELNA_REFUSED_VIEW);
  }
}

static void views(void) {
  const uint32_t eight[] = {0, 1, 2, 3, 4, 5, 6, 7}, rising[] = {0, 3, 6, 8, 9, 11, 13, 14},
                 four[] = {0, 1, 2, 3}, five[] = {0, 1, 2, 3, 4}, apart[] = {0, 1, 3, 4, 6},
                 hole[] = {0, 1, 2, 1000002, 1000003}, wide[] = {0, 1, 2, 1048574, 1048575},
                 high[] = {UINT32_MAX - 1048575, UINT32_MAX - 3, UINT32_MAX - 2, UINT32_MAX - 1,
                           UINT32_MAX};
  const int16_t twice[] = {-4, -4, 0, 4, -4, 4, -4, 0}, ridge[] = {-7, 4, 11, 15, 27, 31, 23, 16},
                turn[] = {0, 1, 0, -1}, flat[] = {0, 0, 0, 0, 0}, zigzag[] = {0, 3, 0, 3, 0},
                steep[] = {0, 9, 1, 9, 0}, early[] = {0, 9, 0, 0, 0}, roof[] = {0, 1, 5, 1, 0},
                late[] = {-20, 9, 0, 3, -6}, thirds[] = {0, 1, 1, 2, 3},
                extreme[] = {-32768, 32767, -32768, 32767, -32768};
  static const uint16_t of_twice[][4] = {{0, 1, 0, 0}, {0, 1, 2, 0}, {0, 1, 2, 3}, {0, 1, 3, 4},
                                         {0, 3, 4, 5}, {0, 4, 5, 6}, {0, 4, 5, 7}};
  const uint16_t first[] = {0}, two[] = {0, 1}, three[] = {0, 1, 2}, all[] = {0, 1, 2, 3},
                 whole[] = {0, 1, 2, 3, 4}, not_1[] = {0, 2, 3, 4}, not_2[] = {0, 1, 3, 4},
                 not_3[] = {0, 1, 2, 4}, ends[] = {0, 3}, next_ends[] = {0, 4}, set[] = {0, 2},
                 set_next[] = {0, 2, 3}, better[] = {0, 1, 3}, middle[] = {0, 2, 7},
                 of_ridge[] = {0, 4, 6, 7}, peak[] = {0, 5, 7}, peaks[] = {0, 2, 5, 7};
  kovrelna_view view = VIEW(1, first);
  uint32_t entry;
  size_t n;

  /* Document 02's example, sample by sample. Its error is 8, and the least with one inner sample is
   * 4. */
  for (n = 2; n <= COUNT(eight); n++) {
    kovrelna_view after = with_list(view, of_twice[n - 2], n < 4 ? (uint32_t)n : 4);
    add(__LINE__, view, trace(eight, n, twice, n), 0, 0, after);
    view = after;
  }
  STRAYS(eight, twice, of_twice[6], within_ratio(7, 1), 0, 8, 1, 3, KOVRELNA_SIDE_ABOVE);
  JUDGE(eight, twice, of_twice[6], within_ratio(8, 1), 0, 1, 0);
  CLOSEST(eight, twice, KOVRELNA_GAP_MAX, 3, 8, 4, 1, middle);
  /* More than twice the least error with two inner samples, and less than twice that with one. */
  view = GROWN(rising, ridge, VIEW(1, first));
  differ("kept", view.count, COUNT(of_ridge));
  for (entry = 0; entry < COUNT(of_ridge); entry++)
    differ("sample", view.samples[entry], of_ridge[entry]);
  STRAYS(rising, ridge, of_ridge, within_ratio(8, 1), 0, 74, 9, 3, KOVRELNA_SIDE_BELOW);
  CLOSEST(rising, ridge, KOVRELNA_GAP_MAX, 4, 8, 4, 1, peaks);
  CLOSEST(rising, ridge, KOVRELNA_GAP_MAX, 3, 8, 62, 11, peak);
  /* A state set by hand: its error becomes 1, and the least with one inner sample is 0. */
  ADDED(1, set, four, turn, set_next);
  STRAYS(four, turn, set_next, within_ratio(0, 1), 0, 1, 1, 1, KOVRELNA_SIDE_ABOVE);
  CLOSEST(four, turn, KOVRELNA_GAP_MAX, 3, 4, 0, 1, better);

  /* Any inner sample is dropped, the last until then too; of equals the earliest. */
  ADDED(1, all, five, steep, not_2);
  ADDED(1, all, five, early, not_3);
  ADDED(1, all, five, zigzag, not_1);
  ADDED(1, all, five, flat, not_1);
  ADDED(1, all, five, roof, not_1);
  ADDED(1, all, five, late, not_2);
  /* The errors are 2/3, 2/3 and 1/3. */
  ADDED(1, all, apart, thirds, not_3);
  /* Fewer than 2 k + 1 inner samples all stay. */
  ADDED(2, all, five, flat, whole);
  ADDED(KOVRELNA_VIEW_K_MAX, all, five, flat, whole);
  /* Both ends alone; no gap limit applies. */
  add(__LINE__, VIEW(0, first), trace(five, 2, steep, 2), 0, 0, with_list(VIEW(0, first), two, 2));
  add(__LINE__, VIEW(1, two), trace(five, 3, steep, 3), 0, 0, with_list(VIEW(1, two), three, 3));
  ADDED(0, ends, five, steep, next_ends);
  ADDED(0, ends, hole, flat, next_ends);
  ADDED(1, all, hole, flat, not_1);
  /* The longest span and the greatest errors. */
  GROWN(wide, extreme, VIEW(0, first));
  GROWN(wide, extreme, VIEW(1, first));
  GROWN(high, extreme, VIEW(0, first));
  GROWN(high, extreme, VIEW(1, first));
}

/* Traces that grow, at every k, with ties and without: from where a view is begun, and from states
 * with something else behind their lists. */
static void growing_views(void) {
  enum { SAMPLES = 80 };
  static const int ranges[] = {1, 2, 5, 65536};
  uint32_t ticks[SAMPLES], k, random = 1;
  int16_t values[SAMPLES];
  const uint16_t first[] = {0};
  size_t r, n;
  for (r = 0; r < COUNT(ranges); r++) {
    for (n = 0; n < SAMPLES; n++) {
      random = 1664525 * random + 1013904223;
      ticks[n] = n == 0 ? 7 : ticks[n - 1] + 1 + (r % 2 == 0 ? 0 : random >> 19);
      values[n] = (int16_t)((int)(random >> 8 & 65535) % ranges[r] - ranges[r] / 2);
    }
    for (k = 0; k <= KOVRELNA_VIEW_K_MAX; k++) {
      kovrelna_view view = GROWN(ticks, values, kovrelna_view_begin(k).view);
      differ("kept", view.count, 2 * k + 2);
      GROWN(ticks, values, VIEW(k, first));
    }
  }
}

/* A state that was copied, and one that was saved as bytes, go on as the state itself does; each on
 * its own. */
static void copied_views(void) {
  enum { SAMPLES = 20 };
  uint32_t ticks[SAMPLES];
  int16_t values[SAMPLES];
  unsigned char saved[sizeof(kovrelna_view)];
  kovrelna_view view = kovrelna_view_begin(2).view, copy, restored, before;
  size_t n;
  now_name = "view_add";
  now_line = __LINE__;
  for (n = 0; n < SAMPLES; n++) {
    ticks[n] = (uint32_t)(3 * n);
    values[n] = (int16_t)(n * n * n % 31);
  }
  for (n = 2; n <= SAMPLES / 2; n++) kovrelna_view_add(&view, ticks, n, values, n);
  before = copy = view;
  memcpy(saved, &view, sizeof(view));
  for (; n <= SAMPLES; n++)
    differ("number", kovrelna_view_add(&view, ticks, n, values, n).number, 0);
  differ("copy changed", memcmp(&copy, &before, sizeof(copy)) != 0, 0);
  memcpy(&restored, saved, sizeof(restored));
  for (n = SAMPLES / 2 + 1; n <= SAMPLES; n++) {
    differ("number", kovrelna_view_add(&copy, ticks, n, values, n).number, 0);
    differ("number", kovrelna_view_add(&restored, ticks, n, values, n).number, 0);
  }
  differ("copy differs", memcmp(&copy, &view, sizeof(copy)) != 0, 0);
  differ("restored state differs", memcmp(&restored, &view, sizeof(restored)) != 0, 0);
}

/* Every trace beside every state: the first row in the order 1, 2, 3, 20. A refusal leaves every
 * byte of the state. */
static void no_views(void) {
  enum { SAMPLES = 5, MOST = KOVRELNA_VIEW_SAMPLES_MAX };
  static const struct {
    uint32_t ticks[SAMPLES];
    size_t ticks_len, values_len;
    uint32_t number;
    uint64_t value;
  } traces[] = {{{0, 1, 2, 3, 4}, 5, 5, 0, 0},
                {{0, 1, 2, 3, 1048575}, 5, 5, 0, 0},
                {{0, 1, 2, 3, 4}, 0, 0, 1, 0},
                {{0, 1, 2, 3, 4}, 5, 4, 1, 0},
                {{0, 1, 2, 3, 4}, 4, 5, 1, 0},
                {{0, 0, 1048576, 0, 4}, 5, 4, 1, 0},
                {{0, 1, 1, 3, 3}, 5, 5, 2, 2},
                {{0, 1, 2, 3, 3}, 5, 5, 2, 4},
                {{0, 1048576, 1048577, 1048578, 1048578}, 5, 5, 2, 4},
                {{0, 1, 2, 1048576, 1048577}, 5, 5, 3, 3},
                {{0, 1, 2, 3, 1048576}, 5, 5, 3, 4}};
  /* States for five samples: k, count, list, and whether it is a view of the first four. */
  static const struct {
    uint32_t k, count;
    uint16_t list[6];
    int is_view;
  } states[] = {{0, 2, {0, 3}, 1},
                {1, 2, {0, 3}, 1},
                {1, 3, {0, 1, 3}, 1},
                {1, 4, {0, 1, 2, 3}, 1},
                {32, 4, {0, 1, 2, 3}, 1},
                /* k out of range; some make 2 k + 2 a small number where 32 bits are not enough. */
                {33, 2, {0, 3}, 0},
                {34, 4, {0, 1, 2, 3}, 0},
                {256, 2, {0, 3}, 0},
                {65536, 2, {0, 3}, 0},
                {0x7FFFFFFF, 2, {0, 3}, 0},
                {0x80000000, 2, {0, 3}, 0},
                {0x80000001, 4, {0, 1, 2, 3}, 0},
                {UINT32_MAX, 2, {0, 3}, 0},
                /* No entries, or more than there is room for. */
                {0, 0, {0, 3}, 0},
                {1, 0, {0, 3}, 0},
                {32, 67, {0, 1, 2, 3}, 0},
                {32, 68, {0, 1, 2, 3}, 0},
                {32, 258, {0, 3}, 0},
                {32, 65538, {0, 3}, 0},
                {32, 0x80000002, {0, 3}, 0},
                {32, UINT32_MAX, {0, 1, 2, 3}, 0},
                {UINT32_MAX, UINT32_MAX, {0, 1, 2, 3}, 0},
                /* A first entry that is not 0, one that does not rise, one beyond. */
                {1, 2, {1, 3}, 0},
                {1, 1, {3}, 0},
                {1, 3, {1, 2, 3}, 0},
                {2, 3, {0, 0, 3}, 0},
                {2, 3, {0, 3, 3}, 0},
                {2, 4, {0, 2, 1, 3}, 0},
                {2, 4, {0, 2, 2, 3}, 0},
                {2, 4, {0, 3, 2, 3}, 0},
                {2, 4, {0, 4, 1, 3}, 0},
                {2, 4, {0, 65535, 1, 3}, 0},
                {1, 2, {0, 4}, 0},
                {1, 3, {0, 3, 4}, 0},
                {1, 2, {0, 65535}, 0},
                {2, 5, {0, 1, 2, 3, 4}, 0},
                /* Stops short. */
                {1, 1, {0}, 0},
                {1, 2, {0, 2}, 0},
                {1, 3, {0, 1, 2}, 0},
                /* Too many inner samples. */
                {0, 3, {0, 1, 3}, 0},
                {0, 3, {0, 2, 3}, 0},
                {0, 4, {0, 1, 2, 3}, 0}};
  static uint32_t ticks[MOST + 2];
  static const int16_t level[MOST + 2] = {0};
  static const uint32_t beyond_room[] = {MOST + 1, MOST + 2, 256 + MOST, 65536 + MOST, UINT32_MAX};
  uint16_t all[MOST];
  const uint16_t first[] = {0};
  kovrelna_view view;
  uint32_t k;
  size_t t, x;

  for (x = 0; x < COUNT(states); x++) {
    view = view_of(states[x].k, states[x].list, COUNT(states[x].list));
    view.count = states[x].count;
    for (t = 0; t < COUNT(traces); t++) {
      struct trace given = trace(traces[t].ticks, traces[t].ticks_len, level, traces[t].values_len);
      if (traces[t].number != 0)
        NOT_ADDED(view, given, traces[t].number, traces[t].value);
      else if (!states[x].is_view)
        NOT_ADDED(view, given, KOVRELNA_REFUSED_VIEW, 0);
      else
        add(__LINE__, view, given, 0, 0, view_after(view, given));
    }
  }

  /* At each k: 2 k inner samples, and one more. */
  for (x = 0; x < COUNT(ticks); x++) ticks[x] = (uint32_t)x;
  for (x = 0; x < COUNT(all); x++) all[x] = (uint16_t)x;
  for (k = 0; k <= KOVRELNA_VIEW_K_MAX; k++) {
    uint32_t most = 2 * k + 2;
    struct trace given = trace(ticks, most + 1, level, most + 1);
    view = view_of(k, all, most);
    add(__LINE__, view, given, 0, 0, view_after(view, given));
    if (most == MOST) break;
    given = trace(ticks, most + 2, level, most + 2);
    NOT_ADDED(view_of(k, all, most + 1), given, KOVRELNA_REFUSED_VIEW, 0);
  }
  /* All entries are a view, and the count is above them. */
  for (x = 0; x < COUNT(beyond_room); x++) {
    view.count = beyond_room[x];
    NOT_ADDED(view, trace(ticks, MOST + 1, level, MOST + 1), KOVRELNA_REFUSED_VIEW, 0);
    NOT_ADDED(view, trace(ticks, MOST + 2, level, MOST + 2), KOVRELNA_REFUSED_VIEW, 0);
  }

  /* There is no sample before the first. A sample is added once, and none is left out. */
  NOT_ADDED(VIEW(1, first), trace(ticks, 1, level, 1), KOVRELNA_REFUSED_VIEW, 0);
  NOT_ADDED(view_of(1, all, 2), trace(ticks, 2, level, 2), KOVRELNA_REFUSED_VIEW, 0);
  NOT_ADDED(view_of(1, all, 2), trace(ticks, 4, level, 4), KOVRELNA_REFUSED_VIEW, 0);
  NOT_ADDED(kovrelna_view_begin(2).view, trace(ticks, 3, level, 3), KOVRELNA_REFUSED_VIEW, 0);
  /* What is returned beside a refusal is no view of any trace. */
  for (x = 1; x <= SAMPLES; x++)
    NOT_ADDED(kovrelna_view_begin(33).view, trace(ticks, x, level, x), KOVRELNA_REFUSED_VIEW, 0);
}

static void sums(void) {
  const uint32_t four[] = {0, 1, 2, 3}, five[] = {0, 1, 2, 3, 4},
                 last[] = {UINT32_MAX - 1048575, UINT32_MAX};
  const int16_t late[] = {0, 0, 1, 1}, dip[] = {0, -1, 0, 1}, late_dip[] = {0, -1, 1, 2},
                spike[] = {-6, -6, 0, 6, -6}, wave[] = {3, 4, 2, 4, 3},
                spike_wave[] = {-3, -2, 2, 10, -3}, dent[] = {3, 4, 1, 4, 3},
                spike_dent[] = {-3, -2, 1, 10, -3}, zeros[] = {0, 0, 0, 0, 0}, one[] = {7},
                other[] = {-9}, both[] = {-2}, two[] = {1, 2}, twice[] = {2, 4};
  const int16_t lows[] = {-32768, -16384, -1, 32767, 0},
                more_lows[] = {0, -16384, -32767, -32768, -1},
                lowest[] = {-32768, -32768, -32768, -1, -1},
                highs[] = {32767, 16383, 1, -32768, 16384},
                more_highs[] = {0, 16384, 32766, 32767, 16383},
                highest[] = {32767, 32767, 32767, -1, 32767};
  const uint16_t four_ends[] = {0, 3}, dip_list[] = {0, 1, 3}, ends[] = {0, 4},
                 spike_list[] = {0, 1, 3, 4}, middle[] = {0, 2, 4}, early[] = {0, 1, 4},
                 late_list[] = {0, 3, 4}, halves[] = {0, 1, 2, 4}, all[] = {0, 1, 2, 3, 4},
                 first[] = {0}, pair_ends[] = {0, 1};

  /* The errors of the lists are 1/3 and 0, and 1/2 of the joined list. */
  SUMMED(REDUCED(four, late, four_ends), REDUCED(four, dip, dip_list), late_dip, dip_list);
  STRAYS(four, late_dip, dip_list, within_ratio(1, 3), 1, 1, 2, 2, KOVRELNA_SIDE_ABOVE);
  JUDGE(four, late_dip, dip_list, within_ratio(2, 3), 0, 1, 0);
  /* They are 0 and 1, and 2. */
  SUMMED(REDUCED(five, spike, spike_list), REDUCED(five, wave, ends), spike_wave, spike_list);
  STRAYS(five, spike_wave, spike_list, within_ratio(1, 1), 1, 2, 1, 2, KOVRELNA_SIDE_BELOW);
  JUDGE(five, spike_wave, spike_list, within_ratio(2, 1), 0, 1, 0);
  /* List 2 is within 1 above and 2 below, list 1 within 0, the joined list within 3. */
  SUMMED(REDUCED(five, spike, spike_list), REDUCED(five, dent, ends), spike_dent, spike_list);
  JUDGE(five, dent, ends, within_parts(1, 1, 2, 1), 0, 1, 0);
  STRAYS(five, spike_dent, spike_list, within_parts(1, 1, 2, 1), 1, 3, 1, 2, KOVRELNA_SIDE_BELOW);
  JUDGE(five, spike_dent, spike_list, within_ratio(3, 1), 0, 1, 0);
  /* With a trace of zeros. */
  SUMMED(REDUCED(five, spike, spike_list), REDUCED(five, zeros, ends), spike, spike_list);
  SUMMED(REDUCED(five, wave, ends), REDUCED(five, zeros, ends), wave, ends);
  /* Samples in one list, in both, in turn and one after the other. */
  SUMMED(REDUCED(five, spike, middle), REDUCED(five, wave, middle), spike_wave, middle);
  SUMMED(REDUCED(five, spike, early), REDUCED(five, wave, middle), spike_wave, halves);
  SUMMED(REDUCED(five, spike, early), REDUCED(five, wave, late_list), spike_wave, spike_list);
  SUMMED(REDUCED(five, spike, spike_list), REDUCED(five, wave, middle), spike_wave, all);
  SUMMED(REDUCED(five, spike, all), REDUCED(five, wave, ends), spike_wave, all);
  SUMMED(REDUCED(five, spike, all), REDUCED(five, wave, all), spike_wave, all);
  /* One sample; the last tick; the ends of the range of sums. */
  SUMMED(reduced(four + 3, 1, one, 1, first, 1), reduced(five + 3, 1, other, 1, first, 1), both,
         first);
  SUMMED(REDUCED(last, two, pair_ends), REDUCED(last, two, pair_ends), twice, pair_ends);
  SUMMED(REDUCED(five, lows, ends), REDUCED(five, more_lows, ends), lowest, ends);
  SUMMED(REDUCED(five, highs, ends), REDUCED(five, more_highs, ends), highest, ends);
}

/* Every row, in its order. */
static void no_sums(void) {
  enum { SAMPLES = 5 };
  /* Traces and lists, with what is wrong with the trace and with the list. */
  static const struct {
    uint32_t ticks[SAMPLES];
    size_t ticks_len, values_len;
    uint16_t list[3];
    size_t list_len;
    uint32_t trace_number;
    uint64_t trace_value;
    uint32_t list_number;
    uint64_t list_value;
  } given[] = {
      {{0, 1, 2, 3, 4}, 5, 5, {0, 4}, 2, 0, 0, 0, 0},
      {{0, 1, 2, 3, 4}, 4, 4, {0, 3}, 2, 0, 0, 0, 0},
      {{0, 1, 2, 3, 4}, 1, 1, {0}, 1, 0, 0, 0, 0},
      {{0, 1, 2, 3, 5}, 5, 5, {0, 4}, 2, 0, 0, 0, 0},
      {{0, 1, 2, 4, 5}, 5, 5, {0, 4}, 2, 0, 0, 0, 0},
      {{1, 2, 3, 4, 5}, 5, 5, {0, 4}, 2, 0, 0, 0, 0},
      {{0, 1, 2, 3, 1048575}, 5, 5, {0, 4}, 2, 0, 0, 0, 0},
      /* 1, 2 and 3, also with a list that is none. */
      {{0, 1, 2, 3, 4}, 0, 0, {0, 4}, 2, 1, 0, 6, 0},
      {{0, 1, 2, 3, 4}, 5, 4, {0, 4}, 2, 1, 0, 0, 0},
      {{0, 1, 1, 3, 4}, 4, 5, {1, 4}, 2, 1, 0, 6, 0},
      {{0, 0, 2, 3, 4}, 5, 5, {0, 4}, 2, 2, 1, 0, 0},
      {{0, 1048576, 1048577, 1048578, 1048578}, 5, 5, {0, 4}, 2, 2, 4, 0, 0},
      {{0, 1, 2, 4, 3}, 5, 5, {0, 0}, 0, 2, 4, 6, 0},
      {{0, 1, 2, 3, 1048576}, 5, 5, {0, 4}, 2, 3, 4, 0, 0},
      {{0, 1048576, 1048577, 1048578, 1048579}, 5, 5, {0, 5}, 2, 3, 1, 6, 1},
      /* 6: empty, not from 0 on, not rising, beyond the trace, short of its end. */
      {{0, 1, 2, 3, 4}, 5, 5, {0, 4}, 0, 0, 0, 6, 0},
      {{0, 1, 2, 3, 4}, 5, 5, {1, 4}, 2, 0, 0, 6, 0},
      {{0, 1, 2, 3, 4}, 5, 5, {0, 4, 4}, 3, 0, 0, 6, 2},
      {{0, 1, 2, 3, 5}, 5, 5, {0, 2, 1}, 3, 0, 0, 6, 2},
      {{0, 1, 2, 3, 4}, 5, 5, {0, 65535}, 2, 0, 0, 6, 1},
      {{0, 1, 2, 3, 4}, 4, 4, {0, 4}, 2, 0, 0, 6, 1},
      {{0, 1, 2, 3, 4}, 5, 5, {0, 3}, 2, 0, 0, 6, 2},
      {{1, 2, 3, 4, 5}, 5, 5, {0}, 1, 0, 0, 6, 1},
  };
  /* Sums of 0, and ones that are all beyond the range. */
  static const int16_t levels[][SAMPLES] = {{0, 0, 0, 0, 0}, {20000, 20000, 20000, 20000, 20000}};
  static const int16_t pairs[][2] = {{32767, 1},       {1, 32767},   {16384, 16384},
                                     {32767, 32767},   {-32768, -1}, {-1, -32768},
                                     {-16384, -16385}, {-32768, -32768}};
  const uint16_t ends[] = {0, 4}, first[] = {0}, all[] = {0, 1, 2, 3, 4};
  const uint32_t *even = given[0].ticks;
  struct reduced good = reduced(even, 5, levels[0], 5, ends, 2), whole = good;
  size_t i, j, k, l;

  for (i = 0; i < COUNT(given); i++) {
    for (j = 0; j < COUNT(given); j++) {
      size_t n = given[i].ticks_len, m = given[j].ticks_len, same = 0;
      while (same < n && same < m && given[i].ticks[same] == given[j].ticks[same]) same++;
      for (l = 0; l < COUNT(levels); l++) {
        struct reduced one = reduced(given[i].ticks, n, levels[l], given[i].values_len,
                                     given[i].list, given[i].list_len),
                       two = reduced(given[j].ticks, m, levels[l], given[j].values_len,
                                     given[j].list, given[j].list_len);
        if (given[i].trace_number != 0)
          NOT_SUMMED(one, two, given[i].trace_number, given[i].trace_value);
        else if (given[j].trace_number != 0)
          NOT_SUMMED(one, two, given[j].trace_number, given[j].trace_value);
        else if (given[i].list_number != 0)
          NOT_SUMMED(one, two, given[i].list_number, given[i].list_value);
        else if (given[j].list_number != 0)
          NOT_SUMMED(one, two, given[j].list_number, given[j].list_value);
        else if (same < n || same < m)
          NOT_SUMMED(one, two, KOVRELNA_REFUSED_MISMATCH, same);
        else if (l != 0)
          NOT_SUMMED(one, two, KOVRELNA_REFUSED_OVERFLOW, 0);
        else
          summed(__LINE__, one, two, levels[0], given[i].list, given[i].list_len);
      }
    }
  }
  /* 18: the first of several. */
  for (k = 0; k < SAMPLES; k++) {
    for (i = 0; i < COUNT(pairs); i++) {
      int16_t values1[SAMPLES] = {0, 0, 0, 0, 0}, values2[SAMPLES] = {0, 0, 0, 0, 0};
      for (j = k; j < SAMPLES; j++) {
        values1[j] = pairs[i][0];
        values2[j] = pairs[i][1];
      }
      NOT_SUMMED(reduced(even, 5, values1, 5, ends, 2), reduced(even, 5, values2, 5, ends, 2),
                 KOVRELNA_REFUSED_OVERFLOW, k);
    }
  }
  /* Last 10, of either output or of both, however few samples the joined list has. */
  whole.list = all;
  whole.list_len = SAMPLES;
  for (k = 0; k < SAMPLES; k++) {
    sum(__LINE__, good, good, k, 5, KOVRELNA_REFUSED_ROOM, 5, NULL, NULL);
    sum(__LINE__, good, good, 5, k, KOVRELNA_REFUSED_ROOM, 5, NULL, NULL);
    sum(__LINE__, good, good, k, k, KOVRELNA_REFUSED_ROOM, 5, NULL, NULL);
    sum(__LINE__, good, whole, k, 9, KOVRELNA_REFUSED_ROOM, 5, NULL, NULL);
    sum(__LINE__, whole, good, 9, k, KOVRELNA_REFUSED_ROOM, 5, NULL, NULL);
  }
  good = reduced(even, 1, levels[0], 1, first, 1);
  sum(__LINE__, good, good, 0, 1, KOVRELNA_REFUSED_ROOM, 1, NULL, NULL);
  sum(__LINE__, good, good, 1, 0, KOVRELNA_REFUSED_ROOM, 1, NULL, NULL);
}

static void codes(void) {
  static const uint8_t many[KOVRELNA_SAMPLES_MAX + 1] = {0};
  static const int16_t zeros[KOVRELNA_SAMPLES_MAX] = {0};
  uint8_t code;
  int e, m;

  for (e = 5; e <= 9; e++)
    expand(__LINE__, some_codes, 5, (size_t)e, 0, 5, code_values);
  for (e = 0; e < 8; e++) {
    for (m = 0; m < 32; m++) {
      int16_t value = (int16_t)((m + 32) * (1 << e) - 32);
      code = (uint8_t)(32 * e + m);
      expand(__LINE__, &code, 1, 1, 0, 1, &value);
    }
  }
  expand(__LINE__, many, COUNT(zeros), COUNT(zeros), 0, COUNT(zeros), zeros);
  expand(__LINE__, many, COUNT(many), COUNT(many), KOVRELNA_REFUSED_LENGTH, 0, NULL);
  expand(__LINE__, many, COUNT(many), 0, KOVRELNA_REFUSED_LENGTH, 0, NULL);
  expand(__LINE__, some_codes, 5, 4, KOVRELNA_REFUSED_ROOM, 5, NULL);
}

static void tables(void) {
  static uint8_t every[CODES], many[KOVRELNA_SAMPLES_MAX + 1];
  static int16_t table[CODES + 1], expanded[KOVRELNA_SAMPLES_MAX];
  const uint8_t ends[] = {255, 0}, halves[] = {127, 128}, four[] = {0, 127, 128, 255};
  const int16_t widest[] = {32767, -32768}, apart[] = {-32641, 32640};
  const int16_t four_values[] = {-32768, -129, 128, 32767};
  size_t k, out_len;
  for (k = 0; k < CODES; k++) every[k] = (uint8_t)k;
  for (k = 0; k < COUNT(many); k++) many[k] = (uint8_t)(k * k / 3 + 5 * k);

  for (out_len = 5; out_len <= 9; out_len++) EXPANDED(some_codes, own_table, out_len, own_values);
  for (out_len = CODES; out_len <= CODES + 2; out_len++)
    EXPANDED(every, own_table, out_len, own_table);
  expand_with(__LINE__, some_codes, 5, own_table, CODES, 4, KOVRELNA_REFUSED_ROOM, 5, NULL);
  expand_with(__LINE__, some_codes, 5, own_table, CODES, 0, KOVRELNA_REFUSED_ROOM, 5, NULL);

  /* The example of document 02. */
  for (k = 0; k < CODES; k++) table[k] = (int16_t)(257 * (int)k - 32768);
  EXPANDED(four, table, 4, four_values);
  NO_TABLE(table, CODES - 1, 0);
  table[255] = table[254];
  NO_TABLE(table, CODES, 255);
  table[0] = 32767;
  NO_TABLE(table, CODES, 1);

  /* The built-in values give what expand gives: all together, each alone, and mixed. */
  kovrelna_expand(every, CODES, table, CODES);
  EXPANDED(every, table, CODES, table);
  for (k = 0; k < CODES; k++)
    expand_with(__LINE__, &every[k], 1, table, CODES, 1, 0, 1, &table[k]);
  kovrelna_expand(many, COUNT(expanded), expanded, COUNT(expanded));
  expand_with(__LINE__, many, COUNT(expanded), table, CODES, COUNT(expanded), 0, COUNT(expanded),
              expanded);

  /* Lengths, of values that rise and of values that do not. */
  for (k = 0; k <= CODES; k++) table[k] = (int16_t)k;
  NO_TABLE(table, 0, 0);
  NO_TABLE(table, 1, 0);
  NO_TABLE(table, CODES - 1, 0);
  NO_TABLE(table, CODES + 1, 0);
  table[1] = 0;
  NO_TABLE(table, CODES - 1, 0);
  NO_TABLE(table, CODES + 1, 0);

  /* 1 before 12 and 10: with no codes or too many, whatever the table and the output are. */
  for (k = 0; k < 8; k++) {
    size_t count = k & 1 ? 0 : COUNT(many), table_len = k & 2 ? CODES : CODES - 1;
    out_len = k & 4 ? 0 : COUNT(many);
    expand_with(__LINE__, many, count, table, table_len, out_len, KOVRELNA_REFUSED_LENGTH, 0, NULL);
    expand_with(__LINE__, many, count, own_table, CODES, out_len, KOVRELNA_REFUSED_LENGTH, 0, NULL);
  }

  /* Each code in turn is equal to the one before, below it, and far below it. */
  for (k = 1; k < CODES; k++) {
    memcpy(table, own_table, sizeof(own_table));
    table[k] = table[k - 1];
    NO_TABLE(table, CODES, k);
    table[k] = (int16_t)(table[k - 1] - 1);
    NO_TABLE(table, CODES, k);
    table[k] = -32768;
    NO_TABLE(table, CODES, k);
  }

  /* The least and the greatest value at the ends, and a rise by more than the greatest. */
  memcpy(table, own_table, sizeof(own_table));
  table[0] = -32768;
  table[255] = 32767;
  EXPANDED(ends, table, 2, widest);
  for (k = 0; k < CODES; k++) table[k] = (int16_t)(k < 128 ? (int)k - 32768 : (int)k + 32512);
  EXPANDED(ends, table, 2, widest);
  EXPANDED(halves, table, 2, apart);
  /* The wrong way round: both, the first, the last. */
  memcpy(table, own_table, sizeof(own_table));
  table[0] = 32767;
  table[255] = -32768;
  NO_TABLE(table, CODES, 1);
  table[255] = own_table[255];
  NO_TABLE(table, CODES, 1);
  table[0] = own_table[0];
  table[255] = -32768;
  NO_TABLE(table, CODES, 255);

  /* Of two faults the first is named. */
  table[9] = table[8];
  NO_TABLE(table, CODES, 9);
  table[200] = -32768;
  NO_TABLE(table, CODES, 9);
}

static void records(void) {
  const uint32_t far[] = {0, 255, 510, 766, 767}, high[] = {UINT32_MAX - 1, UINT32_MAX};
  const int16_t changes[] = {0, 127, -1, -1, 127}, low[] = {-32768, 32767};
  const uint16_t all[] = {0, 1, 2, 3, 4}, both[] = {0, 1}, one[] = {0};
  /* Short steps 255/+127 and 255/-128, long steps 256/0 and 1/+128. */
  const uint8_t steps[] = {0x54, 0, 0, 0, 0, 0, 0, 0, 1, 0x41, 0, 0, 0, 0, 0, 0, 0x53, 255, 127,
                           0x53, 255, 0x80, 0x4C, 0, 1, 0, 0xFF, 0xFF, 0x4C, 0, 0, 1, 0, 0x7F,
                           0x45, 0, 5};
  /* The greatest tolerance that is not whole, the last ticks, the least and the greatest value. */
  const uint8_t wide[] = {0x54, 0x0F, 0xFF, 0xEF, 0, 0, 0x0F, 0xFF, 0xFF, 0x41, 0xFF, 0xFF, 0xFF,
                          0xFE, 0x80, 0, 0x4C, 0, 0, 1, 0x7F, 0xFF, 0x45, 0, 2};
  const uint8_t single[] = {0x54, 0, 0, 0, 0, 0, 0, 0, 1, 0x41, 0, 0, 0, 0, 0, 0, 0x45, 0, 1};
  const size_t figure_commands[] = {0, 9, 16, 19}, steps_commands[] = {0, 9, 16, 19, 22, 28, 34},
               wide_commands[] = {0, 9, 16, 22}, single_commands[] = {0, 9, 16};
  kovrelna_limits two_thirds = within_ratio(4, 6), zero = within_ratio(0, 1),
                  widest = within_ratio(UINT64_C(0xFFFEF0000), 1048575);
  uint8_t changed[64];
  size_t place, spare;

  for (place = 0; place < 5; place++) {
    for (spare = 0; spare < 4; spare++) {
      WRITE(uneven, step, pair, two_thirds, place + 22 + spare, place, 0, 22, figure);
      WRITE(far, changes, all, zero, place + 37 + spare, place, 0, 37, steps);
    }
    WRITE(uneven, step, pair, two_thirds, place + 21, place, KOVRELNA_REFUSED_ROOM, 22, NULL);
  }
  WRITE(uneven, step, pair, two_thirds, 22, 1, KOVRELNA_REFUSED_ROOM, 22, NULL);
  WRITE(uneven, step, pair, two_thirds, 22, 22, KOVRELNA_REFUSED_ROOM, 22, NULL);
  WRITE(uneven, step, pair, two_thirds, 22, 23, KOVRELNA_REFUSED_ROOM, 22, NULL);
  WRITE(uneven, step, pair, two_thirds, 22, SIZE_MAX, KOVRELNA_REFUSED_ROOM, 22, NULL);
  WRITE(uneven, step, pair, two_thirds, 0, 0, KOVRELNA_REFUSED_ROOM, 22, NULL);
  WRITE(uneven, step, pair, two_thirds, 0, SIZE_MAX - 21, KOVRELNA_REFUSED_ROOM, 22, NULL);
  WRITE(high, low, both, widest, 25, 0, 0, 25, wide);
  write_record(__LINE__, uneven, 1, step, 1, one, 1, zero, 19, 0, 0, 19, single);

  WRITE(uneven, kept_values, pair, zero, 0, 0, KOVRELNA_REFUSED_LENGTH, 0, NULL);
  WRITE(uneven, step, pair, within_ratio(0, 0), 0, 0, KOVRELNA_REFUSED_TOLERANCE, 0, NULL);
  WRITE(uneven, step, both, zero, 0, 0, KOVRELNA_REFUSED_LIST, 2, NULL);
  WRITE(uneven, step, pair, within_ratio(665, 1000), 0, 0, KOVRELNA_REFUSED_LINK, 0, NULL);
  WRITE(uneven, step, pair, within_ratio(665, 1000), 22, 0, KOVRELNA_REFUSED_LINK, 0, NULL);

  READ(figure, 2, 2, 2, 2, 3, kept_ticks, kept_values);
  READ(figure, 9, 4, 2, 2, 3, kept_ticks, kept_values);
  READ(steps, 5, 6, 5, 0, 1, far, changes);
  READ(wide, 2, 2, 2, UINT64_C(0xFFFEF0000), 1048575, high, low);
  READ(single, 1, 1, 1, 0, 1, kept_ticks, kept_values);
  NOT_READ(figure, 1, 2, 2);
  NOT_READ(figure, 2, 1, 2);
  NOT_READ(figure, 0, 0, 2);

  CUT(figure, figure_commands);
  CUT(steps, steps_commands);
  CUT(wide, wide_commands);
  CUT(single, single_commands);
  /* A byte too many; a wrong count; an advance of 0; a tolerance that is not reduced. */
  memcpy(changed, figure, 22);
  changed[22] = 0x45;
  FAULTY(changed, 23, 22);
  changed[21] = 3;
  FAULTY(changed, 22, 19);
  changed[17] = 0;
  FAULTY(changed, 22, 16);
  changed[8] = 4;
  FAULTY(changed, 22, 0);

  /* Another q, another p, another value, all of these, and other samples. */
  SAME(figure, 22, figure, 22, 0, 1, 0);
  memcpy(changed, figure, 22);
  changed[8] = 5;
  SAME(figure, 22, changed, 22, 0, 0, 0);
  changed[5] = 1;
  changed[8] = 3;
  SAME(figure, 22, changed, 22, 0, 0, 0);
  changed[5] = 2;
  changed[18] = 2;
  SAME(figure, 22, changed, 22, 0, 0, 0);
  changed[5] = 1;
  changed[8] = 5;
  SAME(figure, 22, changed, 22, 0, 0, 0);
  SAME(figure, 22, steps, 37, 0, 0, 0);
  /* The high byte of p alone. */
  memcpy(changed, wide, 25);
  changed[1] = 0x0E;
  SAME(wide, 25, changed, 25, 0, 0, 0);
  SAME(changed, 25, changed, 25, 0, 1, 0);
  SAME(figure, 22, figure, 21, KOVRELNA_REFUSED_SECOND_RECORD, 0, 19);
  SAME(figure, 15, figure, 22, KOVRELNA_REFUSED_RECORD, 0, 9);
  SAME(figure, 15, figure, 21, KOVRELNA_REFUSED_RECORD, 0, 9);
}

/* Records whose tolerance has two parts: every fault after it lies 8 bytes further on. */
static void records_of_parts(void) {
  /* The record of document 02: the sixth figure's samples at 2/3 above and 1 below. */
  const uint8_t unequal[] = {0x42, 0, 0, 0, 0, 2, 0, 0, 3, 0, 0, 0, 0, 1, 0, 0, 1, 0x41, 0, 0,
                             0, 0, 0, 0, 0x53, 3, 1, 0x45, 0, 2};
  /* The greatest part that is not whole and the least that is not 0. */
  const uint8_t wide[] = {0x42, 0x0F, 0xFF, 0xEF, 0, 0, 0x0F, 0xFF, 0xFF, 0, 0, 0, 0, 1, 0x0F, 0xFF,
                          0xFF, 0x41, 0xFF, 0xFF, 0xFF, 0xFE, 0x80, 0, 0x4C, 0, 0, 1, 0x7F, 0xFF,
                          0x45, 0, 2};
  const size_t commands[] = {0, 17, 24, 27}, wide_commands[] = {0, 17, 24, 30};
  /* Parts that no record has: p and q of the part above, then of the part below. */
  static const uint8_t bad[][16] = {
      {0, 0, 0, 0, 2, 0, 0, 3, 0, 0, 0, 0, 2, 0, 0, 3},          /* equal */
      {0, 0, 0, 0, 0, 0, 0, 1, 0, 0, 0, 0, 0, 0, 0, 1},          /* equal, zero */
      {0, 0, 0, 0, 4, 0, 0, 6, 0, 0, 0, 0, 2, 0, 0, 3},          /* equal, one not reduced */
      {0, 0, 0, 0, 4, 0, 0, 6, 0, 0, 0, 0, 1, 0, 0, 1},          /* above not reduced */
      {0, 0, 0, 0, 2, 0, 0, 3, 0, 0, 0, 0, 2, 0, 0, 2},          /* below not reduced */
      {0, 0, 0, 0, 0, 0, 0, 2, 0, 0, 0, 0, 1, 0, 0, 1},          /* above zero, not reduced */
      {0, 0, 0, 0, 1, 0, 0, 1, 0, 0, 0, 0, 0, 0, 0, 2},          /* below zero, not reduced */
      {0, 0, 0, 0, 1, 0, 0, 0, 0, 0, 0, 0, 1, 0, 0, 1},          /* above over 0 */
      {0, 0, 0, 0, 1, 0, 0, 1, 0, 0, 0, 0, 1, 0, 0, 0},          /* below over 0 */
      {0, 0, 0, 0, 0, 0, 0, 0, 0, 0, 0, 0, 1, 0, 0, 1},          /* above 0 over 0 */
      {0, 0, 0, 0, 1, 0, 0, 1, 0, 0, 0, 0, 0, 0, 0, 0},          /* below 0 over 0 */
      {0, 0, 0, 0, 1, 0x10, 0, 0, 0, 0, 0, 0, 1, 0, 0, 1},       /* above: q too large */
      {0, 0, 0, 0, 1, 0, 0, 1, 0, 0, 0, 0, 1, 0x10, 0, 0},       /* below: q too large */
      {0, 0, 1, 0, 0, 0, 0, 1, 0, 0, 0, 0, 1, 0, 0, 1},          /* above: p too large */
      {0, 0, 0, 0, 1, 0, 0, 1, 0, 0, 1, 0, 0, 0, 0, 1},          /* below: p too large */
      {0xFF, 0xFF, 0xFF, 0xFF, 0xFF, 0, 0, 1, 0, 0, 0, 0, 1, 0, 0, 1},
      {0, 0, 0, 0, 1, 0, 0, 1, 0xFF, 0xFF, 0xFF, 0xFF, 0xFF, 0, 0, 1}};
  const uint32_t high[] = {UINT32_MAX - 1, UINT32_MAX};
  const int16_t low[] = {-32768, 32767}, fall[] = {0, -1, -1};
  const uint16_t both[] = {0, 1};
  const uint64_t most = UINT64_C(0xFFFEF0000);
  kovrelna_limits limits = within_parts(4, 6, 7, 7);
  struct answer content = with_parts(0, 2, 2, 3, 1, 1);
  uint8_t changed[64];
  size_t place, spare, k;

  for (place = 0; place < 5; place++) {
    for (spare = 0; spare < 4; spare++) {
      WRITE(uneven, step, pair, limits, place + 30 + spare, place, 0, 30, unequal);
      WRITE(kept_ticks, kept_values, both, limits, place + 30 + spare, place, 0, 30, unequal);
    }
    WRITE(uneven, step, pair, limits, place + 29, place, KOVRELNA_REFUSED_ROOM, 30, NULL);
  }
  WRITE(high, low, both, within_parts(most, 1048575, 1, 1048575), 33, 0, 0, 33, wide);
  /* Equal parts in other terms: the command of one tolerance. */
  WRITE(uneven, step, pair, within_parts(4, 6, 6, 9), 22, 0, 0, 22, figure);
  WRITE(uneven, step, pair, within_parts(2, 3, 2, 3), 21, 0, KOVRELNA_REFUSED_ROOM, 22, NULL);
  /* A link that is not within its part, whatever the other. */
  WRITE(uneven, step, pair, within_parts(665, 1000, 65535, 1), 40, 0, KOVRELNA_REFUSED_LINK, 0,
        NULL);
  WRITE(uneven, fall, pair, within_parts(65535, 1, 665, 1000), 0, 0, KOVRELNA_REFUSED_LINK, 0,
        NULL);
  WRITE(uneven, fall, pair, within_parts(0, 1, 2, 3), 0, 0, KOVRELNA_REFUSED_ROOM, 30, NULL);

  read_record(__LINE__, unequal, 30, 2, 2, content, kept_ticks, kept_values);
  read_record(__LINE__, unequal, 30, 9, 4, content, kept_ticks, kept_values);
  read_record(__LINE__, wide, 33, 2, 3, with_parts(0, 2, most, 1048575, 1, 1048575), high, low);
  NOT_READ(unequal, 1, 2, 2);
  NOT_READ(unequal, 2, 1, 2);

  CUT(unequal, commands);
  CUT(wide, wide_commands);
  for (k = 0; k < COUNT(bad); k++) {
    memcpy(changed, unequal, 30);
    memcpy(changed + 1, bad[k], 16);
    FAULTY(changed, 30, 0);
    SAME(changed, 30, unequal, 30, KOVRELNA_REFUSED_RECORD, 0, 0);
    SAME(unequal, 30, changed, 30, KOVRELNA_REFUSED_SECOND_RECORD, 0, 0);
    SAME(changed, 30, changed, 30, KOVRELNA_REFUSED_RECORD, 0, 0);
  }
  /* A byte too many; a wrong count; an advance of 0; a second tolerance; another first byte. */
  memcpy(changed, unequal, 30);
  changed[30] = 0x45;
  FAULTY(changed, 31, 30);
  changed[29] = 3;
  FAULTY(changed, 30, 27);
  changed[25] = 0;
  FAULTY(changed, 30, 24);
  changed[17] = 0x42;
  FAULTY(changed, 30, 17);
  changed[0] = 0x43;
  FAULTY(changed, 30, 0);
  /* The command of one tolerance with two, and that of two with one. */
  memcpy(changed, unequal, 30);
  changed[0] = 0x54;
  FAULTY(changed, 30, 9);
  memcpy(changed, figure, 22);
  changed[0] = 0x42;
  FAULTY(changed, 22, 0);

  /* Another part below, another above, the parts exchanged, and one tolerance. */
  SAME(unequal, 30, unequal, 30, 0, 1, 0);
  memcpy(changed, unequal, 30);
  changed[13] = 3;
  SAME(unequal, 30, changed, 30, 0, 0, 0);
  changed[13] = 1;
  changed[16] = 2;
  SAME(unequal, 30, changed, 30, 0, 0, 0);
  changed[16] = 1;
  changed[8] = 5;
  SAME(unequal, 30, changed, 30, 0, 0, 0);
  memcpy(changed + 1, unequal + 9, 8);
  memcpy(changed + 9, unequal + 1, 8);
  SAME(unequal, 30, changed, 30, 0, 0, 0);
  SAME(changed, 30, changed, 30, 0, 1, 0);
  SAME(unequal, 30, figure, 22, 0, 0, 0);
  SAME(figure, 22, unequal, 30, 0, 0, 0);
}

static void layouts(void) {
  now_name = "layout of a tolerance";
  now_line = __LINE__;
  differ("size", sizeof(kovrelna_tolerance), 56);
  differ("form", offsetof(kovrelna_tolerance, form), 0);
  differ("p", offsetof(kovrelna_tolerance, p), 8);
  differ("q", offsetof(kovrelna_tolerance, q), 16);
  differ("x", offsetof(kovrelna_tolerance, x), 24);
  differ("y", offsetof(kovrelna_tolerance, y), 32);
  differ("below_p", offsetof(kovrelna_tolerance, below_p), 40);
  differ("below_q", offsetof(kovrelna_tolerance, below_q), 48);
  now_name = "layout of a tolerance as held";
  differ("size", sizeof(kovrelna_held), 48);
  differ("number", offsetof(kovrelna_held, number), 0);
  differ("value", offsetof(kovrelna_held, value), 8);
  differ("p", offsetof(kovrelna_held, p), 16);
  differ("q", offsetof(kovrelna_held, q), 24);
  differ("below_p", offsetof(kovrelna_held, below_p), 32);
  differ("below_q", offsetof(kovrelna_held, below_q), 40);
  now_name = "layout of limits";
  differ("size", sizeof(kovrelna_limits), 64);
  differ("tolerance", offsetof(kovrelna_limits, tolerance), 0);
  differ("gap", offsetof(kovrelna_limits, gap), 56);
  now_name = "layout of the tolerances of a scan";
  differ("size", sizeof(kovrelna_tolerances), 904);
  differ("count", offsetof(kovrelna_tolerances, count), 0);
  differ("list", offsetof(kovrelna_tolerances, list), 8);
  now_name = "layout of a record's content";
  differ("size", sizeof(kovrelna_content), 48);
  differ("number", offsetof(kovrelna_content, number), 0);
  differ("value", offsetof(kovrelna_content, value), 8);
  differ("p", offsetof(kovrelna_content, p), 16);
  differ("q", offsetof(kovrelna_content, q), 24);
  differ("below_p", offsetof(kovrelna_content, below_p), 32);
  differ("below_q", offsetof(kovrelna_content, below_q), 40);
  now_name = "layout of a measure";
  differ("size", sizeof(kovrelna_measured), 40);
  differ("number", offsetof(kovrelna_measured, number), 0);
  differ("side", offsetof(kovrelna_measured, side), 4);
  differ("value", offsetof(kovrelna_measured, value), 8);
  differ("p", offsetof(kovrelna_measured, p), 16);
  differ("q", offsetof(kovrelna_measured, q), 24);
  differ("sample", offsetof(kovrelna_measured, sample), 32);
  now_name = "layout of what judge says";
  differ("size", sizeof(kovrelna_judged), 48);
  differ("number", offsetof(kovrelna_judged, number), 0);
  differ("passed", offsetof(kovrelna_judged, passed), 4);
  differ("value", offsetof(kovrelna_judged, value), 8);
  differ("p", offsetof(kovrelna_judged, p), 16);
  differ("q", offsetof(kovrelna_judged, q), 24);
  differ("sample", offsetof(kovrelna_judged, sample), 32);
  differ("side", offsetof(kovrelna_judged, side), 40);
  now_name = "layout of what judge_greedy says";
  differ("size", sizeof(kovrelna_judged_greedy), 24);
  differ("number", offsetof(kovrelna_judged_greedy, number), 0);
  differ("passed", offsetof(kovrelna_judged_greedy, passed), 4);
  differ("value", offsetof(kovrelna_judged_greedy, value), 8);
  differ("fault", offsetof(kovrelna_judged_greedy, fault), 16);
  now_name = "layout of a view";
  differ("size", sizeof(kovrelna_view), 140);
  differ("k", offsetof(kovrelna_view, k), 0);
  differ("count", offsetof(kovrelna_view, count), 4);
  differ("samples", offsetof(kovrelna_view, samples), 8);
  now_name = "layout of a view that is begun";
  differ("size", sizeof(kovrelna_begun), 160);
  differ("number", offsetof(kovrelna_begun, number), 0);
  differ("value", offsetof(kovrelna_begun, value), 8);
  differ("view", offsetof(kovrelna_begun, view), 16);
  now_name = "layout of a summary";
  differ("size", sizeof(kovrelna_summary), 48);
  differ("samples", offsetof(kovrelna_summary, samples), 0);
  differ("kept", offsetof(kovrelna_summary, kept), 8);
  differ("p", offsetof(kovrelna_summary, p), 16);
  differ("q", offsetof(kovrelna_summary, q), 24);
  differ("sample", offsetof(kovrelna_summary, sample), 32);
  differ("number", offsetof(kovrelna_summary, number), 40);
  now_name = "layout of totals";
  differ("size", sizeof(kovrelna_totals), 48);
  differ("number", offsetof(kovrelna_totals, number), 0);
  differ("value", offsetof(kovrelna_totals, value), 8);
  differ("samples", offsetof(kovrelna_totals, samples), 16);
  differ("kept", offsetof(kovrelna_totals, kept), 24);
  differ("p", offsetof(kovrelna_totals, p), 32);
  differ("q", offsetof(kovrelna_totals, q), 40);
  now_name = "layout of a comparison";
  differ("size", sizeof(kovrelna_compared), 32);
  differ("number", offsetof(kovrelna_compared, number), 0);
  differ("value", offsetof(kovrelna_compared, value), 8);
  differ("moved", offsetof(kovrelna_compared, moved), 16);
  differ("noisy", offsetof(kovrelna_compared, noisy), 24);
}

static void reports(void) {
  enum { CHANNELS = KOVRELNA_CHANNELS_MAX, SAMPLES = 3 * (CHANNELS + 1) };
  /* Channels of 5, 0, 2 and 1 samples: a wave, none, a tick that does not rise, one sample. */
  const uint32_t ticks[] = {0, 1, 2, 3, 4, 5, 5, 7};
  const int16_t values[] = {0, 2, 0, -2, 0, 1, 1, 9};
  const size_t parts[] = {5, 0, 2, 1}, less[] = {5, 0, 1, 1}, more[] = {5, 0, 2, 2};
  const kovrelna_summary rows[] = {
      {5, 3, 2, 1, 1, 0}, {0, 0, 0, 1, 0, 1}, {0, 0, 0, 1, 0, 2}, {1, 1, 0, 1, 0, 0}};
  /* Errors 2/3, 3/4 and 1/2, at tolerance 1; a span that is too long. */
  const uint32_t thirds[] = {0, 1, 3, 7, 8, 11, 20, 21, 22, 0, 1048576};
  const int16_t steps[] = {0, 1, 1, 0, 1, 1, 0, 0, 1, 0, 0};
  const size_t three[] = {3, 3, 3, 2};
  const kovrelna_summary errors[] = {
      {3, 2, 2, 3, 1, 0}, {3, 2, 3, 4, 1, 0}, {3, 2, 1, 2, 1, 0}, {0, 0, 0, 1, 0, 3}};
  /* Channels with a hole, a sample 3 above a line and one 1 below another; their mirror image. */
  const uint32_t six_each[] = {0, 1, 2, 10, 11, 12, 0, 1, 2, 10, 11, 12};
  const int16_t bumps[] = {0, 3, 0, 0, -1, 0, 0, -1, 0, 0, 3, 0},
                dips[] = {0, -3, 0, 0, 1, 0, 0, 1, 0, 0, -3, 0};
  const size_t sixes[] = {6, 6};
  const kovrelna_summary whole_rows[] = {{6, 4, 3, 1, 1, 0}, {6, 4, 3, 1, 4, 0}},
                         split_rows[] = {{6, 5, 1, 1, 4, 0}, {6, 5, 1, 1, 1, 0}};
  /* Channels without samples. */
  const size_t none[] = {0, 0};
  const kovrelna_summary empty[] = {{0, 0, 0, 1, 0, 1}, {0, 0, 0, 1, 0, 1}};
  /* Sums that would come round to 8 in the type's range; `huge` has one that would come to 0. */
  const size_t round[] = {SIZE_MAX, 9}, halves[] = {SIZE_MAX / 2 + 1, 4, SIZE_MAX / 2 + 1, 4};
  static uint32_t many_ticks[SAMPLES];
  static int16_t many_values[SAMPLES];
  static size_t many[CHANNELS + 1], zeros[CHANNELS + 1], huge[CHANNELS];
  static kovrelna_summary many_rows[CHANNELS];
  kovrelna_limits two = within_ratio(2, 1), bad = within_ratio(0, 0);
  uint64_t kept = 0;
  size_t k, good = 0, out_len;

  for (out_len = 4; out_len <= 9; out_len++)
    REPORT_ROWS(ticks, values, parts, two, out_len, totals(6, 4, 2, 1), rows);
  REPORT_ROWS(ticks, values, parts, within_counts(2.0), 4, totals(6, 4, 2, 1), rows);
  REPORT_ROWS(ticks, values, parts, within_noise(0.5, 4.0), 4, totals(6, 4, 2, 1), rows);
  REPORT_ROWS(thirds, steps, three, within_ratio(1, 1), 5, totals(9, 6, 3, 4), errors);
  /* Parts: an error is the plain distance, so that of a sample well within the greater part comes
   * before that of one at the limit of the smaller. */
  REPORT_ROWS(six_each, bumps, sixes, within_both(5, 1, 7), 2, totals(12, 8, 3, 1), whole_rows);
  REPORT_ROWS(six_each, dips, sixes, within_both(1, 5, 7), 3, totals(12, 8, 3, 1), whole_rows);
  REPORT_ROWS(six_each, bumps, sixes, within_both(1, 5, 7), 2, totals(12, 10, 1, 1), split_rows);
  REPORT_ROWS(six_each, dips, sixes, within_both(5, 1, 7), 2, totals(12, 10, 1, 1), split_rows);
  /* Every channel is refused. */
  report(__LINE__, NULL, 0, NULL, 0, none, 1, two, 1, totals(0, 0, 0, 1), empty);
  report(__LINE__, NULL, 0, NULL, 0, none, 2, two, 3, totals(0, 0, 0, 1), empty);

  /* 11 before 4 before 10. */
  NO_REPORT(ticks, 8, values, 8, NULL, 0, bad, KOVRELNA_REFUSED_CRATE);
  NO_REPORT(ticks, 8, values, 8, NULL, 0, two, KOVRELNA_REFUSED_CRATE);
  NO_REPORT(ticks, 8, values, 8, less, 4, bad, KOVRELNA_REFUSED_CRATE);
  NO_REPORT(ticks, 8, values, 8, less, 4, two, KOVRELNA_REFUSED_CRATE);
  NO_REPORT(ticks, 8, values, 8, more, 4, two, KOVRELNA_REFUSED_CRATE);
  NO_REPORT(ticks, 7, values, 8, parts, 4, two, KOVRELNA_REFUSED_CRATE);
  NO_REPORT(ticks, 8, values, 7, parts, 4, two, KOVRELNA_REFUSED_CRATE);
  NO_REPORT(ticks, 8, values, 8, round, 2, two, KOVRELNA_REFUSED_CRATE);
  NO_REPORT(ticks, 8, values, 8, halves, 4, bad, KOVRELNA_REFUSED_CRATE);
  for (k = 0; k < COUNT(not_allowed); k++) {
    kovrelna_limits none = kovrelna_limited(not_allowed[k], KOVRELNA_GAP_MAX);
    NO_REPORT(ticks, 8, values, 8, less, 4, none, KOVRELNA_REFUSED_CRATE);
    NO_REPORT(ticks, 8, values, 8, parts, 4, none, KOVRELNA_REFUSED_TOLERANCE);
  }
  for (out_len = 0; out_len < 4; out_len++)
    report(__LINE__, ticks, 8, values, 8, parts, 4, two, out_len,
           answered(KOVRELNA_REFUSED_ROOM, 4), NULL);

  /* 64 channels of 3 samples, of which every third has a tick that does not rise. */
  for (k = 0; k < CHANNELS + 1; k++) {
    int fits = k % 3 != 2;
    many[k] = 3;
    zeros[k] = 0;
    many_ticks[3 * k] = (uint32_t)k;
    many_ticks[3 * k + 1] = (uint32_t)(fits ? k + 1 : k);
    many_ticks[3 * k + 2] = (uint32_t)k + 2;
    many_values[3 * k + 1] = (int16_t)k;
    if (k == CHANNELS) break;
    huge[k] = SIZE_MAX / CHANNELS + 1;
    good += fits ? 1 : 0;
    many_rows[k].samples = fits ? 3 : 0;
    many_rows[k].kept = fits ? (k <= 32 ? 2 : 3) : 0;
    many_rows[k].p = fits && k <= 32 ? k : 0;
    many_rows[k].q = 1;
    many_rows[k].sample = many_rows[k].p != 0 ? 1 : 0;
    many_rows[k].number = fits ? 0 : 2;
    kept += many_rows[k].kept;
  }
  report(__LINE__, many_ticks, 3 * CHANNELS, many_values, 3 * CHANNELS, many, CHANNELS,
         within_ratio(32, 1), CHANNELS + 1, totals(3 * good, kept, 31, 1), many_rows);
  report(__LINE__, many_ticks, 3 * CHANNELS, many_values, 3 * CHANNELS, many, CHANNELS, two,
         CHANNELS - 1, answered(KOVRELNA_REFUSED_ROOM, CHANNELS), NULL);
  NO_REPORT(many_ticks, SAMPLES, many_values, SAMPLES, many, CHANNELS + 1, bad,
            KOVRELNA_REFUSED_CRATE);
  NO_REPORT(many_ticks, SAMPLES, many_values, SAMPLES, many, CHANNELS + 1, two,
            KOVRELNA_REFUSED_CRATE);
  NO_REPORT(NULL, 0, NULL, 0, zeros, CHANNELS + 1, two, KOVRELNA_REFUSED_CRATE);
  NO_REPORT(NULL, 0, NULL, 0, huge, CHANNELS, two, KOVRELNA_REFUSED_CRATE);
}

static void pedestal_runs(void) {
  const uint16_t all[] = {0, 1, 2}, apart[] = {0, 2}, later[] = {1, 2}, channel_2[] = {2};
  /* Ticks of the greatest span, and the last ones. */
  const uint32_t others[] = {7, 9, 8000, 1048582, 0, 1, 2, 1048575, UINT32_MAX - 1048575,
                             UINT32_MAX - 2, UINT32_MAX - 1, UINT32_MAX};
  /* Channels of 1, 3 and 2 samples. In the first the values are 65,535 apart; the third is 15 times
   * as wide in one run as in the other. */
  const uint32_t six[] = {5, 5, 6, 7, 0, 9};
  const int16_t widest[] = {32767, 8, 8, 8, -32768, 32767},
                narrow[] = {-32768, 7, 8, 9, -2184, 2185};
  const size_t mixed[] = {1, 3, 2};
  struct crate one = CRATE(four_each, today, fours), two = CRATE(four_each, before, fours),
               wide = CRATE(six, widest, mixed), other = CRATE(six, narrow, mixed);
  kovrelna_tolerance half = kovrelna_ratio(1, 2), zero = kovrelna_ratio(0, 1);

  COMPARED(one, two, half, 2, channel_0, 1, channel_1, 1);
  COMPARED(one, two, kovrelna_ratio(3, 6), 2, channel_0, 1, channel_1, 1);
  COMPARED(one, two, kovrelna_counts(0.5), 2, channel_0, 1, channel_1, 1);
  COMPARED(one, two, kovrelna_noise(0.25, 2.0), 2, channel_0, 1, channel_1, 1);
  COMPARED(one, two, kovrelna_parts(1, 2, 1, 2), 2, channel_0, 1, channel_1, 1);
  COMPARED(one, two, kovrelna_parts(3, 6, 4, 8), 2, channel_0, 1, channel_1, 1);
  COMPARED(one, CRATE(others, before, fours), half, 2, channel_0, 1, channel_1, 1);
  COMPARED(CRATE(others, today, fours), two, half, 2, channel_0, 1, channel_1, 1);
  /* The other way round, and a run with itself. */
  COMPARED(two, one, half, 2, channel_0, 1, NULL, 0);
  COMPARED(one, one, zero, 1, NULL, 0, NULL, 0);
  /* The sums differ by 4, 1 and 2; the squared widths are 16 and 16, 3 and 0, 16 and 4. */
  COMPARED(one, two, kovrelna_ratio(1, 1), 2, NULL, 0, channel_1, 1);
  COMPARED(one, two, kovrelna_ratio(1048574, 1048575), 2, channel_0, 1, channel_1, 1);
  COMPARED(one, two, kovrelna_ratio(1, 4), 1, apart, 2, later, 2);
  COMPARED(one, two, kovrelna_ratio(262143, 1048575), 3, all, 3, channel_1, 1);
  COMPARED(one, two, zero, 16, all, 3, channel_1, 1);

  COMPARED(wide, other, kovrelna_ratio(65535, 1), 15, NULL, 0, NULL, 0);
  COMPARED(wide, other, kovrelna_counts(65534.984375), 14, channel_0, 1, channel_2, 1);
  COMPARED(other, wide, kovrelna_counts(65534.984375), 1, channel_0, 1, channel_1, 1);
}

static void no_comparison(void) {
  enum { CHANNELS = KOVRELNA_CHANNELS_MAX };
  /* Runs, with what is wrong with the trace of each channel. */
  static const struct {
    uint32_t ticks[12];
    size_t lengths[3];
    uint32_t numbers[3];
  } runs[] = {
      {{0, 1, 2, 3, 4, 5, 6, 7, 8, 9, 10, 11}, {4, 4, 4}, {0, 0, 0}},
      {{0, 1, 2, 3, 4, 5, 6, 7, 8, 9, 10, 11}, {3, 5, 4}, {0, 0, 0}},
      {{0, 1, 2, 3, 4, 5, 6, 7, 8, 9, 10, 11}, {4, 3, 5}, {0, 0, 0}},
      {{0, 1, 2, 3, 4, 5, 6, 7, 8, 9, 10, 11}, {0, 8, 4}, {1, 0, 0}},
      {{0, 1, 2, 3, 4, 5, 6, 7, 8, 9, 10, 11}, {4, 0, 8}, {0, 1, 0}},
      {{0, 1, 2, 3, 4, 5, 6, 7, 8, 9, 10, 11}, {4, 8, 0}, {0, 0, 1}},
      {{0, 0, 2, 3, 4, 5, 6, 7, 8, 9, 10, 11}, {4, 4, 4}, {2, 0, 0}},
      {{0, 1, 2, 3, 4, 5, 6, 6, 8, 9, 10, 11}, {4, 4, 4}, {0, 2, 0}},
      {{0, 1, 2, 3, 4, 5, 6, 7, 8, 9, 10, 0}, {4, 3, 5}, {0, 0, 2}},
      {{0, 1, 2, 1048576, 4, 5, 6, 7, 8, 9, 10, 11}, {4, 4, 4}, {3, 0, 0}},
      {{0, 1, 2, 3, 0, 1048576, 1048577, 1048578, 8, 9, 10, 11}, {4, 4, 4}, {0, 3, 0}},
      {{0, 1, 2, 3, 4, 5, 6, 7, 8, 9, 10, UINT32_MAX}, {3, 5, 4}, {0, 0, 3}},
      /* 2 before 3 in a trace; faults of every channel. */
      {{0, 1, 2, 3, 0, 1048576, 1048577, 1048577, 8, 8, 8, 8}, {4, 4, 4}, {0, 2, 2}},
      {{9, 1, 2, 3, 0, 1048576, 1048577, 1048578, 8, 8, 8, 8}, {4, 4, 4}, {2, 3, 2}},
  };
  static const int16_t flat[12] = {0};
  static uint32_t ticks[CHANNELS + 1];
  static int16_t values[CHANNELS + 1];
  static size_t ones[CHANNELS + 1], zeros[CHANNELS + 1];
  /* Sums that are 11 and 13, and one that would come round to 12 in the type's range. */
  const size_t less[] = {4, 4, 3}, more[] = {4, 4, 5}, round[] = {SIZE_MAX, 9, 4}, pairs[] = {8, 4};
  const size_t factors[] = {0, 17, (size_t)UINT32_MAX + 2, SIZE_MAX};
  struct crate good = CRATE(runs[0].ticks, flat, fours), stuck = CRATE(runs[13].ticks, flat, fours),
               fewer = CRATE(runs[0].ticks, flat, pairs),
               most = crate(ticks, CHANNELS, values, CHANNELS, ones, CHANNELS), bad[9];
  /* Tolerances that are not allowed, and parts that differ: much, by the least, and from 0. */
  kovrelna_tolerance half = kovrelna_ratio(1, 2), none = kovrelna_ratio(0, 0),
                     refused[COUNT(not_allowed) + 4];
  size_t i, j, k;
  for (k = 0; k < COUNT(ones); k++) ones[k] = 1;
  memcpy(refused, not_allowed, sizeof(not_allowed));
  refused[COUNT(not_allowed)] = kovrelna_parts(2, 1, 1, 1);
  refused[COUNT(not_allowed) + 1] = kovrelna_parts(1, 1, 2, 1);
  refused[COUNT(not_allowed) + 2] = kovrelna_parts(524287, 1048575, 1, 2);
  refused[COUNT(not_allowed) + 3] = kovrelna_parts(0, 1, 1, 1048575);

  /* 4; then channel by channel 1, 2 or 3 of run 1 and of run 2, and 13. */
  for (i = 0; i < COUNT(runs); i++) {
    struct crate one = CRATE(runs[i].ticks, flat, runs[i].lengths);
    for (j = 0; j < COUNT(runs); j++) {
      struct crate two = CRATE(runs[j].ticks, flat, runs[j].lengths);
      uint32_t number = 0;
      for (k = 0; k < 3 && number == 0; k++)
        number = runs[i].numbers[k] != 0                    ? runs[i].numbers[k]
                 : runs[j].numbers[k] != 0                  ? runs[j].numbers[k]
                 : runs[i].lengths[k] != runs[j].lengths[k] ? KOVRELNA_REFUSED_SAMPLES
                                                            : 0;
      if (number != 0)
        NOT_COMPARED(one, two, half, 1, number, k - 1);
      else
        COMPARED(one, two, half, 1, NULL, 0, NULL, 0);
      for (k = 0; k < COUNT(refused); k++)
        NOT_COMPARED(one, two, refused[k], 1, KOVRELNA_REFUSED_TOLERANCE, 0);
    }
  }

  /* 14, then 11 of either run or of both; later rows fail too. */
  bad[0] = crate(stuck.ticks, 12, flat, 12, NULL, 0);
  bad[1] = crate(stuck.ticks, 12, flat, 12, less, 3);
  bad[2] = crate(stuck.ticks, 12, flat, 12, more, 3);
  bad[3] = crate(stuck.ticks, 12, flat, 12, round, 3);
  bad[4] = crate(stuck.ticks, 12, flat, 12, fours, 2);
  bad[5] = crate(stuck.ticks, 11, flat, 12, fours, 3);
  bad[6] = crate(stuck.ticks, 12, flat, 11, fours, 3);
  bad[7] = crate(NULL, 0, NULL, 0, zeros, CHANNELS + 1);
  bad[8] = CRATE(ticks, values, ones);
  for (i = 0; i < COUNT(bad); i++) {
    for (j = 0; j < 6; j++) {
      struct crate one = j % 3 == 1 ? good : bad[i], two = j % 3 == 2 ? good : bad[i];
      kovrelna_tolerance tolerance = j < 3 ? half : refused[(i + j) % COUNT(refused)];
      NOT_COMPARED(one, two, tolerance, 1, KOVRELNA_REFUSED_CRATE, 0);
      NOT_COMPARED(one, two, tolerance, 17, KOVRELNA_REFUSED_FACTOR, 0);
    }
  }
  /* Unequal channel counts. */
  NOT_COMPARED(good, fewer, half, 1, KOVRELNA_REFUSED_CRATE, 0);
  NOT_COMPARED(fewer, good, none, 1, KOVRELNA_REFUSED_CRATE, 0);
  NOT_COMPARED(most, crate(ticks, 1, values, 1, ones, 1), half, 1, KOVRELNA_REFUSED_CRATE, 0);
  COMPARED(most, most, half, 1, NULL, 0, NULL, 0);
  for (k = 0; k < COUNT(factors); k++) {
    NOT_COMPARED(good, good, half, factors[k], KOVRELNA_REFUSED_FACTOR, 0);
    NOT_COMPARED(stuck, good, none, factors[k], KOVRELNA_REFUSED_FACTOR, 0);
  }
  /* Last 10, of either output or of both. */
  for (k = 0; k < 3; k++) {
    pedestals(__LINE__, good, good, half, 16, k, 3, answered(KOVRELNA_REFUSED_ROOM, 3), NULL, NULL);
    pedestals(__LINE__, good, good, half, 16, 3, k, answered(KOVRELNA_REFUSED_ROOM, 3), NULL, NULL);
    pedestals(__LINE__, good, good, half, 16, k, k, answered(KOVRELNA_REFUSED_ROOM, 3), NULL, NULL);
  }
}

/* Where a refusal that an empty list may cause comes in the order of the checks: by its number,
 * only 11 before all others and 12 right after 1. */
static uint32_t place_of(uint32_t number) {
  return number == KOVRELNA_REFUSED_CRATE   ? 0
         : number == KOVRELNA_REFUSED_TABLE ? 2 * KOVRELNA_REFUSED_LENGTH + 1
                                            : 2 * number;
}

/* Whether the call takes a tolerance. */
static int takes_tolerance(size_t which) {
  return which == JUDGE_CALL || which == JUDGE_GREEDY || which == WALK || which == GALLOP ||
         which == MINIMUM || which == SCAN || which == WRITE_CALL || which == REPORT ||
         which == PEDESTALS;
}

/* Each set of a call's lists is empty in turn, its states aside: the first of their refusals
 * answers, and of that with this number of a tolerance that is not allowed. */
static void with_tolerance(kovrelna_tolerance tolerance, uint32_t number) {
  size_t which, set, k;
  for (which = 0; which < COUNT(calls); which++) {
    const struct call *call = &calls[which];
    for (set = 0; set < (size_t)1 << call->lists; set++) {
      struct answer expected =
          number != 0 && takes_tolerance(which) ? answered(number, 0) : call->answer;
      struct list lists[LISTS];
      for (k = 0; k < call->lists; k++) {
        const struct parameter *parameter = &call->parameters[k];
        if ((set >> k & 1) == 0 || is_state(parameter) ||
            (expected.number != 0 && place_of(parameter->number) >= place_of(expected.number)))
          continue;
        expected = answered(parameter->number, parameter->value);
      }
      for (k = 0; k < call->lists; k++) {
        const struct parameter *parameter = &call->parameters[k];
        size_t len = (set >> k & 1) != 0 ? 0 : parameter->len;
        if (is_state(parameter))
          lists[k] = state(parameter->content,
                           expected.number != 0 ? parameter->content : parameter->written,
                           parameter->size);
        else
          lists[k] = parameter->content != NULL ? input(parameter->content, len, parameter->size)
                     : expected.number != 0     ? output(len, parameter->size)
                                                : filled(len, parameter->size, parameter->written,
                                                         0, parameter->count);
      }
      run(__LINE__, (int)which, lists,
          which == MEASURE_CALL ? ends_of(0, 2) : kovrelna_limited(tolerance, KOVRELNA_GAP_MAX),
          which == LEAST || which == PEDESTALS ? 2 : 0, expected);
    }
  }
}

/* One tolerance, equal parts, and tolerances that are not allowed. */
static void empty_lists(void) {
  size_t k;
  with_tolerance(kovrelna_ratio(4, 6), 0);
  with_tolerance(kovrelna_parts(4, 6, 6, 9), 0);
  for (k = 0; k < COUNT(not_allowed); k++)
    with_tolerance(not_allowed[k], KOVRELNA_REFUSED_TOLERANCE);
}

/* A trace of 4,096 samples of which all are kept, each at a long step, so that its record is the
 * longest there is, with equal parts and with unequal ones. */
static void longest(void) {
  enum { SAMPLES = KOVRELNA_SAMPLES_MAX, MOST = KOVRELNA_RECORD_MAX, BYTES = MOST - 8 };
  const uint16_t ends[] = {0, SAMPLES - 1};
  static uint32_t ticks[SAMPLES];
  static int16_t values[SAMPLES];
  static uint16_t all[SAMPLES], but_one[SAMPLES - 1];
  static uint8_t record[BYTES], longer[MOST];
  static const uint8_t two_parts[17] = {0x42, 0, 0, 0, 0, 0, 0, 0, 1, 0, 0, 0, 0, 1, 0, 0, 1};
  kovrelna_limits zero = within_ratio(0, 1), unequal = within_parts(0, 1, 1, 1);
  kovrelna_answer written;
  size_t k;
  for (k = 0; k < SAMPLES; k++) {
    ticks[k] = (uint32_t)(256 * k);
    values[k] = (int16_t)(k % 2 * 10000);
    all[k] = (uint16_t)k;
  }
  memcpy(but_one, all, sizeof(but_one));
  but_one[SAMPLES - 2] = SAMPLES - 1;
  /* As far above the line at sample 1 as below it at the last but one. */
  MEASURE(ticks, values, 0, SAMPLES - 1, 8188000, 819, 1, KOVRELNA_SIDE_ABOVE);
  MEASURE(ticks, values, 1, SAMPLES - 2, 40920000, 4093, 2, KOVRELNA_SIDE_BELOW);
  NO_MEASURE(ticks, values, SAMPLES, SAMPLES, KOVRELNA_REFUSED_LIST, 0);
  NO_MEASURE(ticks, values, SAMPLES - 1, SAMPLES, KOVRELNA_REFUSED_LIST, 1);
  STRAYS(ticks, values, ends, within_ratio(9997, 1), 0, 8188000, 819, 1, KOVRELNA_SIDE_ABOVE);
  JUDGE(ticks, values, all, zero, 0, 1, 0);
  AT_FAULT(ticks, values, ends, within_ratio(9997, 1), 0, KOVRELNA_FAULT_LINK);
  AT_FAULT(ticks, values, all, within_ratio(10000, 1), 0, KOVRELNA_FAULT_STOP);
  AT_FAULT(ticks, values, but_one, zero, SAMPLES - 3, KOVRELNA_FAULT_LINK);
  GREEDY(ticks, values, ends, within_ratio(10000, 1));
  REDUCE(WALK, ticks, values, zero, SAMPLES, 0, all);
  REDUCE(GALLOP, ticks, values, zero, SAMPLES, SAMPLES - 1, all);
  REDUCE(MINIMUM, ticks, values, zero, SAMPLES, 0, all);
  REFUSE(ticks, values, zero, SAMPLES - 1, KOVRELNA_REFUSED_ROOM, SAMPLES);
  KEEPS(ticks, 255, all);
  KEEPS(ticks, 256, ends);
  written = kovrelna_write(ticks, SAMPLES, values, SAMPLES, all, SAMPLES, zero, record, BYTES, 0);
  differ("the longest record", written.value, BYTES);
  WRITE(ticks, values, all, zero, BYTES, 0, 0, BYTES, record);
  WRITE(ticks, values, all, zero, BYTES - 1, 0, KOVRELNA_REFUSED_ROOM, BYTES, NULL);
  READ(record, SAMPLES, SAMPLES, SAMPLES, 0, 1, ticks, values);
  FAULTY(record, BYTES - 1, BYTES - 3);
  FAULTY(record, BYTES - 4, BYTES - 9);
  SAME(record, BYTES, record, BYTES, 0, 1, 0);
  memcpy(longer, two_parts, 17);
  memcpy(longer + 17, record + 9, BYTES - 9);
  differ("the longest record", MOST, 24597);
  WRITE(ticks, values, all, unequal, MOST, 0, 0, MOST, longer);
  WRITE(ticks, values, all, unequal, MOST - 1, 0, KOVRELNA_REFUSED_ROOM, MOST, NULL);
  read_record(__LINE__, longer, MOST, SAMPLES, SAMPLES, with_parts(0, SAMPLES, 0, 1, 1, 1), ticks,
              values);
  FAULTY(longer, MOST - 1, MOST - 3);
  FAULTY(longer, MOST - 4, MOST - 9);
  SAME(longer, MOST, longer, MOST, 0, 1, 0);
  SAME(longer, MOST, record, BYTES, 0, 0, 0);
}

/* A trace of 4,096 samples at 16 tolerances, with one entry too few, and with a sample too many. */
static void longest_scan(void) {
  enum { SAMPLES = KOVRELNA_SAMPLES_MAX, MOST = KOVRELNA_TOLERANCES_MAX };
  static uint32_t ticks[SAMPLES + 1];
  static int16_t values[SAMPLES + 1];
  kovrelna_tolerance tolerances[MOST];
  struct scan given;
  size_t k;
  for (k = 0; k <= SAMPLES; k++) {
    ticks[k] = (uint32_t)(255 * k);
    values[k] = (int16_t)(k * k % 997 * (k % 512 / 256));
  }
  for (k = 0; k < MOST; k++)
    tolerances[k] = k % 4 == 3 ? kovrelna_parts(k * k * k, 3, k * k, 5)
                               : kovrelna_ratio(k * k * k, 3);
  scanned_as_walk(__LINE__, trace(ticks, SAMPLES, values, SAMPLES), tolerances, MOST,
                  KOVRELNA_GAP_MAX);
  scanned_as_walk(__LINE__, trace(ticks, SAMPLES, values, SAMPLES), tolerances, MOST, 254);
  memset(&given, 0, sizeof(given));
  given.tolerances = kovrelna_tolerances_of(tolerances, MOST);
  scan(__LINE__, trace(ticks, SAMPLES, values, SAMPLES), &given, 1, MOST * SAMPLES - 1,
       KOVRELNA_REFUSED_ROOM, MOST * SAMPLES, NULL);
  NOT_SCANNED(TRACE(ticks, values), given.tolerances, 1, KOVRELNA_REFUSED_LENGTH, 0);
}

/* Views of a trace of 4,096 samples, the last additions as view_after says; then without a new
 * sample, and with a sample too many. */
static void longest_view(void) {
  enum { SAMPLES = KOVRELNA_SAMPLES_MAX };
  static const uint32_t ks[] = {0, 1, 8, KOVRELNA_VIEW_K_MAX};
  static uint32_t ticks[SAMPLES + 1];
  static int16_t values[SAMPLES + 1];
  size_t x, n;
  for (n = 0; n <= SAMPLES; n++) {
    ticks[n] = (uint32_t)(255 * n);
    values[n] = (int16_t)(n * n % 997 * (n % 512 / 256));
  }
  for (x = 0; x < COUNT(ks); x++) {
    kovrelna_view view = kovrelna_view_begin(ks[x]).view;
    for (n = 2; n < SAMPLES; n++) kovrelna_view_add(&view, ticks, n, values, n);
    differ("last sample", view.samples[view.count - 1], SAMPLES - 2);
    view = grown(__LINE__, trace(ticks, SAMPLES, values, SAMPLES), view);
    NOT_ADDED(view, trace(ticks, SAMPLES, values, SAMPLES), KOVRELNA_REFUSED_VIEW, 0);
    NOT_ADDED(view, TRACE(ticks, values), KOVRELNA_REFUSED_LENGTH, 0);
  }
}

/* Two traces of 4,096 samples, with the two ends, every second sample and all of them kept; then
 * with a sample too many or too few, and with faults of the last sample. */
static void longest_sum(void) {
  enum { SAMPLES = KOVRELNA_SAMPLES_MAX };
  static uint32_t ticks[SAMPLES + 1], others[SAMPLES + 1];
  static int16_t values1[SAMPLES + 1], values2[SAMPLES + 1], sums[SAMPLES];
  static uint16_t all[SAMPLES + 1], even[SAMPLES / 2 + 1], odd[SAMPLES / 2 + 1];
  const uint16_t ends[] = {0, SAMPLES - 1};
  struct reduced one, two, longer;
  size_t k;
  for (k = 0; k <= SAMPLES; k++) {
    ticks[k] = others[k] = (uint32_t)(255 * k);
    values1[k] = (int16_t)(7 * k - 14000);
    values2[k] = (int16_t)(3 * (k % 100));
    all[k] = (uint16_t)k;
    if (k < SAMPLES) sums[k] = (int16_t)(values1[k] + values2[k]);
    if (k <= SAMPLES / 2) {
      even[k] = (uint16_t)(k < SAMPLES / 2 ? 2 * k : SAMPLES - 1);
      odd[k] = (uint16_t)(k == 0 ? 0 : 2 * k - 1);
    }
  }
  one = reduced(ticks, SAMPLES, values1, SAMPLES, ends, 2);
  two = reduced(others, SAMPLES, values2, SAMPLES, ends, 2);
  longer = REDUCED(others, values2, all);
  summed(__LINE__, one, two, sums, ends, 2);
  sum(__LINE__, one, two, SAMPLES - 1, SAMPLES, KOVRELNA_REFUSED_ROOM, SAMPLES, NULL, NULL);
  sum(__LINE__, one, two, SAMPLES, SAMPLES - 1, KOVRELNA_REFUSED_ROOM, SAMPLES, NULL, NULL);
  one.list = even;
  two.list = odd;
  one.list_len = two.list_len = COUNT(even);
  summed(__LINE__, one, two, sums, all, SAMPLES);
  two.list = even;
  summed(__LINE__, one, two, sums, even, COUNT(even));
  two.list = all;
  two.list_len = SAMPLES;
  summed(__LINE__, one, two, sums, all, SAMPLES);
  NOT_SUMMED(one, longer, KOVRELNA_REFUSED_LENGTH, 0);
  NOT_SUMMED(longer, one, KOVRELNA_REFUSED_LENGTH, 0);
  NOT_SUMMED(one, reduced(ticks, SAMPLES - 1, values2, SAMPLES - 1, all, SAMPLES - 1),
             KOVRELNA_REFUSED_MISMATCH, SAMPLES - 1);
  values2[SAMPLES - 1] = 32767;
  NOT_SUMMED(one, two, KOVRELNA_REFUSED_OVERFLOW, SAMPLES - 1);
  others[SAMPLES - 1]++;
  NOT_SUMMED(one, two, KOVRELNA_REFUSED_MISMATCH, SAMPLES - 1);
}

/* A crate of 64 channels of 4,096 samples that are all kept; then two channels, of which the second
 * has a sample too many. */
static void longest_crate(void) {
  enum { CHANNELS = KOVRELNA_CHANNELS_MAX, SAMPLES = KOVRELNA_SAMPLES_MAX };
  static uint32_t ticks[CHANNELS * SAMPLES];
  static int16_t values[CHANNELS * SAMPLES];
  static size_t parts[CHANNELS];
  static kovrelna_summary rows[CHANNELS];
  const kovrelna_summary row = {SAMPLES, SAMPLES, 0, 1, 0, 0}, refused = {0, 0, 0, 1, 0, 1};
  size_t k;
  for (k = 0; k < CHANNELS * SAMPLES; k++) {
    ticks[k] = (uint32_t)(256 * (k % SAMPLES) + k / SAMPLES);
    values[k] = (int16_t)(k % 2 * 10000);
  }
  for (k = 0; k < CHANNELS; k++) {
    parts[k] = SAMPLES;
    rows[k] = row;
  }
  REPORT_ROWS(ticks, values, parts, within_ratio(0, 1), CHANNELS,
              totals(CHANNELS * SAMPLES, CHANNELS * SAMPLES, 0, 1), rows);
  parts[1] = SAMPLES + 1;
  rows[1] = refused;
  report(__LINE__, ticks, 2 * SAMPLES + 1, values, 2 * SAMPLES + 1, parts, 2, within_ratio(0, 1),
         2, totals(SAMPLES, SAMPLES, 0, 1), rows);
}

/* Two runs of 64 channels of 4,096 samples: at the limits of both tests, and all at the ends of the
 * range; then with a sample too many in channel 1. */
static void longest_runs(void) {
  enum { CHANNELS = KOVRELNA_CHANNELS_MAX, SAMPLES = KOVRELNA_SAMPLES_MAX };
  static uint32_t ticks[CHANNELS * SAMPLES];
  static int16_t values1[CHANNELS * SAMPLES], values2[CHANNELS * SAMPLES];
  static size_t parts[CHANNELS];
  uint16_t all[CHANNELS], moved[CHANNELS], noisy[CHANNELS];
  struct crate one = CRATE(ticks, values1, parts), two = CRATE(ticks, values2, parts), longer;
  const uint64_t greatest = 65535u * UINT64_C(1048575);
  size_t k, moved_count = 0, noisy_count = 0;
  for (k = 0; k < CHANNELS; k++) {
    parts[k] = SAMPLES;
    all[k] = (uint16_t)k;
    if (k % 3 == 2) noisy[noisy_count++] = (uint16_t)k;
    if (k % 3 == 2 && k % 2 == 0) moved[moved_count++] = (uint16_t)k;
  }
  /* Half the samples are 65,519, 65,520 or 65,521 above the others, and in the run before 4,095. */
  for (k = 0; k < CHANNELS * SAMPLES; k++) {
    int channel = (int)(k / SAMPLES), upper = (int)(k % 2);
    ticks[k] = (uint32_t)(256 * (k % SAMPLES));
    values1[k] = (int16_t)(-32768 + upper * (65519 + channel % 3));
    values2[k] = (int16_t)(-32768 + upper * 4095 + channel % 2);
  }
  COMPARED(one, two, kovrelna_ratio(61425, 2), 16, moved, moved_count, noisy, noisy_count);
  COMPARED(one, two, kovrelna_ratio(61421, 2), 15, all, CHANNELS, all, CHANNELS);
  COMPARED(two, one, kovrelna_ratio(61427, 2), 1, NULL, 0, NULL, 0);
  for (k = 0; k < CHANNELS * SAMPLES; k++) {
    values1[k] = 32767;
    values2[k] = -32768;
  }
  COMPARED(one, two, kovrelna_ratio(greatest, 1048575), 16, NULL, 0, NULL, 0);
  COMPARED(two, one, kovrelna_ratio(greatest - 1, 1048575), 1, all, CHANNELS, NULL, 0);
  longer = crate(ticks, 2 * SAMPLES + 1, values1, 2 * SAMPLES + 1, parts, 2);
  parts[1] = SAMPLES + 1;
  NOT_COMPARED(longer, longer, kovrelna_ratio(0, 1), 1, KOVRELNA_REFUSED_LENGTH, 1);
}

/* The version's numbers are those of its text. Every cause has words of its own. Every side and every
 * fault has its word. */
static void words(void) {
  static const char *const sides[] = {"on", "above", "below", "gap", "none", "none"};
  static const char *const faults[] = {"none", "link", "stop", "none"};
  /* By pointers that no compiler sees through, since some warn of words that always differ. */
  const char *(*volatile cause)(uint32_t) = kovrelna_cause;
  const char *(*volatile side)(uint32_t) = kovrelna_side_name;
  const char *(*volatile fault)(uint32_t) = kovrelna_fault_name;
  char version[40];
  uint32_t number, other;
  now_name = "version";
  now_line = __LINE__;
  snprintf(version, sizeof(version), "%d.%d.%d", KOVRELNA_VERSION_MAJOR, KOVRELNA_VERSION_MINOR,
           KOVRELNA_VERSION_PATCH);
  differ("its text", strcmp(version, KOVRELNA_VERSION) != 0, 0);
  now_name = "cause";
  differ("no refusal", strcmp(cause(0), "none") != 0, 0);
  differ("no refusal", strcmp(cause(UINT32_MAX), "none") != 0, 0);
  differ("no refusal", strcmp(cause(KOVRELNA_REFUSED_VIEW + 1), "none") != 0, 0);
  for (number = 0; number <= KOVRELNA_REFUSED_VIEW; number++)
    for (other = 0; other < number; other++)
      differ("the same words", strcmp(cause(number), cause(other)) == 0, 0);
  now_name = "side";
  for (number = 0; number < COUNT(sides); number++)
    differ("its word", strcmp(side(number), sides[number]) != 0, 0);
  differ("no side", strcmp(side(UINT32_MAX), "none") != 0, 0);
  now_name = "fault";
  for (number = 0; number < COUNT(faults); number++)
    differ("its word", strcmp(fault(number), faults[number]) != 0, 0);
  differ("no fault", strcmp(fault(UINT32_MAX), "none") != 0, 0);
}

int main(void) {
  signal(SIGSEGV, beyond);
  signal(SIGBUS, beyond);
  make_table();
  tolerances();
  links();
  no_links();
  lists();
  greedy_lists();
  reductions();
  refusals();
  least_errors();
  gap_limits();
  no_gap_limits();
  unequal_parts();
  scans();
  no_scans();
  lists_of_tolerances();
  begun_views();
  views();
  growing_views();
  copied_views();
  no_views();
  sums();
  no_sums();
  codes();
  tables();
  records();
  records_of_parts();
  layouts();
  reports();
  pedestal_runs();
  no_comparison();
  empty_lists();
  longest();
  longest_scan();
  longest_view();
  longest_sum();
  longest_crate();
  longest_runs();
  words();
  if (failures != 0) return 1;
  puts("c: ok");
  return 0;
}
