/* Follows the run of a list whose instances start late: late SHEET LIST DELAY... Prints the facts held before tick 0 and after each
   tick that changes them, bit f for fact f, then the answer. Status 0: still a plan. 1: another answer. 2: wrong use.
   Built with: cc late.c $(pkg-config --cflags --libs corrumai) -o late */
#include <corrumai.h>
#include <inttypes.h>
#include <stdio.h>
#include <stdlib.h>

/* Reads at most `most` bytes; -1 if the file cannot be read. */
static long load(const char *name, uint8_t *bytes, size_t most) {
  FILE *file = fopen(name, "rb");
  if (!file) return -1;
  size_t length = fread(bytes, 1, most, file);
  int failed = ferror(file);
  fclose(file);
  return failed ? -1 : (long)length;
}

int main(int count, char **words) {
  static uint8_t sheet[CORRUMAI_LONGEST_SHEET + 1], list[CORRUMAI_LONGEST_LIST + 1];
  /* One more than the most instances, and one more than the most delay: whatever is more is refused as these are. */
  uint16_t delays[CORRUMAI_MOST_INSTANCES + 1];
  size_t delays_len = 0;
  int good = count >= 3;
  for (int word = 3; word < count && delays_len <= CORRUMAI_MOST_INSTANCES; word++) {
    char *end;
    unsigned long delay = strtoul(words[word], &end, 10);
    good = good && words[word][0] >= '0' && words[word][0] <= '9' && *end == 0;
    delays[delays_len++] = (uint16_t)(delay > CORRUMAI_MOST_DELAY ? CORRUMAI_MOST_DELAY + 1 : delay);
  }
  long sheet_len = good ? load(words[1], sheet, sizeof sheet) : -1, list_len = good ? load(words[2], list, sizeof list) : -1;
  if (sheet_len < 0 || list_len < 0) {
    fprintf(stderr, "usage: late SHEET LIST DELAY...\n");
    return 2;
  }

  size_t detail;
  uint8_t number = corrumai_late(sheet, (size_t)sheet_len, list, (size_t)list_len, delays, delays_len, &detail);
  /* A run that goes wrong moves on too; sheet, list or delays that are refused do not, and behind the horizon nothing does. */
  corrumai_run run = {0, 0}, before;
  if (corrumai_fresh(sheet, (size_t)sheet_len, &run.held) == CORRUMAI_DONE) {
    do {
      before = run;
      if (corrumai_move_on(sheet, (size_t)sheet_len, list, (size_t)list_len, delays, delays_len, &run) != CORRUMAI_DONE) break;
      if (before.next == 0) printf("at the start: %" PRIx64 "\n", before.held);
      if (run.held != before.held) printf("after tick %" PRIu64 ": %" PRIx64 "\n", before.next, run.held);
    } while (run.next != before.next);
  }
  printf("ANSWER %d %zu\n", number, detail);
  return number == CORRUMAI_PLAN ? 0 : 1;
}
