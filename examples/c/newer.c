/* Writes the sheet that counts of two, the one with the higher revision, to standard output: newer FIRST SECOND. Status 0: it is
   written. 1: another answer, on standard error. 2: wrong use.
   Built with: cc newer.c $(pkg-config --cflags --libs corrumai) -o newer */
#include <corrumai.h>
#include <stdio.h>

/* Reads at most `most` bytes; -1 if the file cannot be read. */
static long load(const char *name, uint8_t *bytes, size_t most) {
  FILE *file = fopen(name, "rb");
  if (!file) return -1;
  size_t length = fread(bytes, 1, most, file);
  int failed = ferror(file);
  fclose(file);
  return failed ? -1 : (long)length;
}

int main(int count, char **words) {
  static uint8_t first[CORRUMAI_LONGEST_SHEET + 1], second[CORRUMAI_LONGEST_SHEET + 1];
  long first_len = count == 3 ? load(words[1], first, sizeof first) : -1;
  long second_len = count == 3 ? load(words[2], second, sizeof second) : -1;
  if (first_len < 0 || second_len < 0) {
    fprintf(stderr, "usage: newer FIRST SECOND\n");
    return 2;
  }

  size_t detail, part_len;
  uint8_t which;
  uint8_t number = corrumai_newer(first, (size_t)first_len, second, (size_t)second_len, &detail, &which, &part_len);
  if (number != CORRUMAI_DONE) {
    fprintf(stderr, "ANSWER %d %zu\n", number, detail);
    return 1;
  }
  /* The part is the sheet itself, and no copy of it. */
  const uint8_t *part = corrumai_newer_part(first, second, which);
  return fwrite(part, 1, part_len, stdout) == part_len && fflush(stdout) == 0 ? 0 : 2;
}
