/* The library's calls in plain C, to compare with. A peer that takes a trace checks it as the
 * library does, and takes an allowed tolerance and an allowed gap limit. A reduction takes an output
 * of n entries and writes the kept list; it looks for the next hole once in each run of samples
 * between holes.
 *
 * With equal parts of the tolerance a peer works with one denominator. With unequal ones the low edge
 * of its cone is in units of the denominator of the part above, the high edge in those of the part
 * below: no product exceeds 64 bits. */
#ifndef PEERS_H
#define PEERS_H

#include <stddef.h>
#include <stdint.h>

/* The ratio p/q, in lowest terms. */
typedef struct ratio {
  int64_t p, q;
} ratio;

/* A tolerance: the part for samples above the line and that for those below it. */
typedef struct parts {
  ratio above, below;
} parts;

/* The kept number, 0 if the trace is refused, and gallop's probe total. */
typedef struct reduced {
  size_t kept;
  uint64_t probes;
} reduced;

/* Walk, with the two edges of its cone. */
reduced walk_c(const uint32_t *ticks, const int16_t *values, size_t n, parts t, uint32_t gap,
               uint16_t *out);

/* Gallop; a probe goes on with the cone of the last valid link. */
reduced gallop_c(const uint32_t *ticks, const int16_t *values, size_t n, parts t, uint32_t gap,
                 uint16_t *out);

/* Minimum: a table from the last sample back. From each sample one cone takes in the later ones in
 * turn and tests the link to each; it stops where surely no line is left, and before a hole. */
reduced minimum_c(const uint32_t *ticks, const int16_t *values, size_t n, parts t, uint32_t gap,
                  uint16_t *out);

/* The same without the stop where no line is left. */
reduced minimum_c_nostop(const uint32_t *ticks, const int16_t *values, size_t n, parts t,
                         uint32_t gap, uint16_t *out);

/* Douglas-Peucker with vertical distance: both ends of each run, then the farthest sample of every
 * link that is not valid. For equal parts alone. */
reduced douglas_peucker_c(const uint32_t *ticks, const int16_t *values, size_t n, parts t,
                          uint32_t gap, uint16_t *out);

/* The kept number, 0 if the trace or the allowance is refused, the least error in lowest terms, and
 * how many lists the search for it found by minimum. */
typedef struct least_found {
  size_t kept;
  int64_t p, q;
  unsigned runs;
} least_found;

/* Least, for up to 256 samples and an allowance m of 2 or more: halves an interval of tolerances,
 * each a fraction of a denominator up to 1,048,575 and tried by its minimum's list, then goes down
 * to an error such that no list fits at the greatest such fraction below it. */
least_found least_c(const uint32_t *ticks, const int16_t *values, size_t n, uint32_t gap, size_t m,
                    uint16_t *out);

/* A row of a report: the samples of a channel, walk's kept number, the error p/q of its list in
 * lowest terms and the sample where that occurs first; or the number under which its trace is
 * refused, with zeros and 0/1. */
typedef struct channel_row {
  size_t samples, kept;
  int64_t p, q;
  size_t sample;
  unsigned number;
} channel_row;

/* The sums of the rows' samples and kept numbers, and the greatest of their errors; q is 0 if the
 * crate is refused. */
typedef struct crate_totals {
  size_t samples, kept;
  int64_t p, q;
} crate_totals;

/* Reports on the channels whose traces of n samples come end to end: walk, the error of its list
 * and where that occurs, for each. Writes a row for each into the first of so many rows. */
crate_totals report_c(const uint32_t *ticks, const int16_t *values, size_t n, const size_t *lengths,
                      size_t channels, parts t, uint32_t gap, channel_row *rows, size_t room);

/* A run of a crate: channels whose traces of n samples come end to end. */
typedef struct crate_run {
  const uint32_t *ticks;
  const int16_t *values;
  size_t n;
  const size_t *lengths;
  size_t channels;
} crate_run;

/* number 0: how many channels have moved and how many are noisy. Otherwise: the refusal's number
 * and value. */
typedef struct compared {
  unsigned number;
  size_t value, moved, noisy;
} compared;

/* Compares two pedestal runs at the tolerance p/q, with noise factor k: checks all ticks, then sums all values once.
 * Writes the channels into the first of so many entries of each list. */
compared pedestals_c(const crate_run *today, const crate_run *before, int64_t p, int64_t q,
                     int64_t k, uint16_t *moved, size_t moved_room, uint16_t *noisy,
                     size_t noisy_room);

/* number 0: value is what the call says. Otherwise: the refusal's number and value. */
typedef struct answered {
  unsigned number;
  size_t value;
} answered;

/* The same as walk at each tolerance, one after another: checks everything once, then writes each
 * list into a part of n entries, and its kept number into `kept`. The value is the number of
 * tolerances. The outputs overlap no other list, which the library assumes too. */
answered scan_c(const uint32_t *ticks, const int16_t *values, size_t n, const parts *tolerances,
                size_t count, uint32_t gap, uint16_t *restrict out, size_t room,
                size_t *restrict kept);

/* Adds sample n - 1 to the view with this k and this kept list, of the samples before it: checks the
 * ticks and the list, and if that makes one inner sample too many, drops the first whose neighbours'
 * link has the least error. There is room for 66 samples. The value is 0. */
answered view_add_c(uint32_t k, uint32_t *restrict count, uint16_t *restrict samples,
                    const uint32_t *ticks, const int16_t *values, size_t n);

/* A trace of n samples with a kept list of it. */
typedef struct reduced_trace {
  const uint32_t *ticks;
  const int16_t *values;
  size_t n;
  const uint16_t *list;
  size_t kept;
} reduced_trace;

/* Sums two traces and joins their lists: checks everything, by loops that vector instructions take,
 * before it writes. The value is the kept number of the joined list. The outputs overlap no other
 * list, which the library assumes too. */
answered sum_c(const reduced_trace *one, const reduced_trace *two, int16_t *restrict sums,
               size_t sums_room, uint16_t *restrict joined, size_t joined_room);

/* The sides by the library's numbers. */
enum { SIDE_ON, SIDE_ABOVE, SIDE_BELOW, SIDE_GAP };

/* The error p/q of a link in lowest terms, its sample and that sample's side. */
typedef struct link_measure {
  int64_t p, q;
  size_t sample;
  unsigned side;
} link_measure;

/* The measure of the link from sample i to sample j, in one pass; q is 0 if the trace or the link
 * is refused. */
link_measure measure_c(const uint32_t *ticks, const int16_t *values, size_t n, size_t i, size_t j);

/* Whether each link of the list is valid; if not, the position of the first invalid one and its
 * measure. There q is 0 if the trace or the list is refused. */
typedef struct judged {
  int passed;
  size_t link;
  link_measure measure;
} judged;

judged judge_c(const uint32_t *ticks, const int16_t *values, size_t n, const uint16_t *list,
               size_t kept, parts t, uint32_t gap);

/* The faults by the library's numbers. */
enum { FAULT_NONE, FAULT_LINK, FAULT_STOP };

/* Whether no link of the list is at fault; if one is, the position of the first and its fault, which
 * is none if the trace or the list is refused. */
typedef struct judged_greedy {
  int passed;
  size_t link;
  unsigned fault;
} judged_greedy;

/* Judge's second question in one pass: the cone of each link tests its end and the sample after it. */
judged_greedy judge_greedy_c(const uint32_t *ticks, const int16_t *values, size_t n,
                             const uint16_t *list, size_t kept, parts t, uint32_t gap);

/* Expands range codes: each value is worked out from its code, as the library does it, or looked up
 * in a table, which the first call fills. Returns their number, 0 if there is none, there are too many
 * or the output has no room. The output does not overlap the codes, which the library assumes too. */
size_t expand_c(const uint8_t *codes, size_t n, int16_t *restrict values, size_t room);
size_t expand_table_c(const uint8_t *codes, size_t n, int16_t *restrict values, size_t room);

/* Checks the range table as the library does, and expands the codes by it. The value is their number.
 * The output overlaps no other list, which the library assumes too. */
answered expand_with_c(const uint8_t *codes, size_t n, const int16_t *table, size_t table_n,
                       int16_t *restrict values, size_t room);

/* Writes the record of the kept list. Returns its length, 0 if the trace, the list or a link is
 * refused or the buffer has no room. */
size_t write_c(const uint32_t *ticks, const int16_t *values, size_t n, const uint16_t *list,
               size_t kept, parts t, uint32_t gap, uint8_t *buffer, size_t size);

/* Checks the record, then reads its samples. Returns their number, 0 if the record is faulty or an
 * output has no room. */
size_t read_c(const uint8_t *record, size_t length, uint32_t *ticks, int16_t *values, size_t room);

/* Checks both records, then compares their bytes: 1 if they are the same, 0 if not, -1 if one is
 * faulty. */
int same_c(const uint8_t *first, size_t first_n, const uint8_t *second, size_t second_n);

#endif
