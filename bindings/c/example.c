/* Reduces the trace of a pulse, prints the kept samples, writes their record and reads it back. */
#include <kovrelna.h>
#include <stdio.h>

enum { SAMPLES = 14 };

/* Says which call was refused and why; returns the exit status. */
static int refused(const char *call, uint32_t number, uint64_t value) {
  fprintf(stderr, "%s: refused as %lu at %llu: %s\n", call, (unsigned long)number,
          (unsigned long long)value, kovrelna_cause(number));
  return 1;
}

int main(void) {
  const uint32_t ticks[SAMPLES] = {0, 1, 2, 3, 4, 5, 6, 7, 8, 10, 12, 16, 20, 24};
  const int16_t values[SAMPLES] = {-1, 0, 1, 0, 40, 81, 119, 160, 131, 80, 50, 20, 9, 4};
  const kovrelna_limits limits = kovrelna_limited(kovrelna_counts(2.5), KOVRELNA_GAP_MAX);
  uint16_t kept[SAMPLES];
  uint8_t record[KOVRELNA_RECORD_BYTES(SAMPLES)];
  uint32_t read_ticks[SAMPLES];
  int16_t read_values[SAMPLES];
  kovrelna_answer walked, written;
  kovrelna_content content;
  uint64_t k;

  walked = kovrelna_walk(ticks, SAMPLES, values, SAMPLES, limits, kept, SAMPLES);
  if (walked.number != 0) return refused("walk", walked.number, walked.value);
  printf("kept %llu of %d samples:", (unsigned long long)walked.value, SAMPLES);
  for (k = 0; k < walked.value; k++) printf(" %d", kept[k]);
  printf("\n");

  written = kovrelna_write(ticks, SAMPLES, values, SAMPLES, kept, (size_t)walked.value, limits,
                           record, sizeof(record), 0);
  if (written.number != 0) return refused("write", written.number, written.value);
  printf("record of %llu bytes:", (unsigned long long)written.value);
  for (k = 0; k < written.value; k++) printf(" %02X", record[k]);
  printf("\n");

  content = kovrelna_read(record, (size_t)written.value, read_ticks, SAMPLES, read_values, SAMPLES);
  if (content.number != 0) return refused("read", content.number, content.value);
  printf("tolerance %llu/%llu\n", (unsigned long long)content.p, (unsigned long long)content.q);
  for (k = 0; k < content.value; k++)
    printf("tick %lu value %d\n", (unsigned long)read_ticks[k], read_values[k]);
  return 0;
}
