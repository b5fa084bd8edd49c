/* Says what a list costs, at a rate in cents per hour for each job of its sheet: cost SHEET LIST RATE... Prints COST, whole cents and
   the sixtieths of a cent that are left. Status 0: the cost. 1: another answer. 2: wrong use.
   Built with: cc cost.c $(pkg-config --cflags --libs corrumai) -o cost */
#include <corrumai.h>
#include <inttypes.h>
#include <stdio.h>
#include <stdlib.h>

/* Reads at most `most` bytes; -1 if the file cannot be read. */
static long load(const char *name, uint8_t *bytes, size_t most) {
  FILE *file = fopen(name, "rb");
  if (!file) return -1;
  size_t length = fread(bytes, 1, most, file);
  int failed = ferror(file);
  fclose(file);
  return failed ? -1 : (long)length;
}

int main(int count, char **words) {
  static uint8_t sheet[CORRUMAI_LONGEST_SHEET + 1], list[CORRUMAI_LONGEST_LIST + 1];
  /* One more than the most jobs, and one more than the highest rate: whatever is more is refused as these are. */
  uint32_t rates[CORRUMAI_MOST_JOBS + 1];
  size_t rates_len = 0;
  int good = count >= 3;
  for (int word = 3; word < count && rates_len <= CORRUMAI_MOST_JOBS; word++) {
    char *end;
    unsigned long rate = strtoul(words[word], &end, 10);
    good = good && words[word][0] >= '0' && words[word][0] <= '9' && *end == 0;
    rates[rates_len++] = rate > CORRUMAI_MOST_RATE ? CORRUMAI_MOST_RATE + 1 : (uint32_t)rate;
  }
  long sheet_len = good ? load(words[1], sheet, sizeof sheet) : -1, list_len = good ? load(words[2], list, sizeof list) : -1;
  if (sheet_len < 0 || list_len < 0) {
    fprintf(stderr, "usage: cost SHEET LIST RATE...\n");
    return 2;
  }

  uint64_t cents, sixtieths;
  uint8_t number = corrumai_cost(sheet, (size_t)sheet_len, list, (size_t)list_len, rates, rates_len, &cents, &sixtieths);
  if (number != CORRUMAI_DONE) {
    printf("ANSWER %d 0\n", number);
    return 1;
  }
  printf("COST %" PRIu64 " %" PRIu64 "\n", cents, sixtieths);
  return 0;
}
