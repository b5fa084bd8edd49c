/* Rewrites a sheet of edition 1 to edition 2: edition2 SHEET OUT. Status 0: written. 1: another answer. 2: wrong use.
   Built with: cc edition2.c $(pkg-config --cflags --libs corrumai) -o edition2 */
#include <corrumai.h>
#include <stdio.h>

int main(int count, char **words) {
  /* One byte more than the longest sheet: whatever is longer is refused as it would be at any length. */
  static uint8_t sheet[CORRUMAI_LONGEST_SHEET + 1], rewritten[CORRUMAI_LONGEST_SHEET];
  FILE *file = count == 3 ? fopen(words[1], "rb") : NULL;
  if (!file) {
    fprintf(stderr, "usage: edition2 SHEET OUT\n");
    return 2;
  }
  size_t length = fread(sheet, 1, sizeof sheet, file);
  fclose(file);
  size_t detail;
  uint8_t number = corrumai_to_edition2(sheet, length, rewritten, sizeof rewritten, &detail);
  if (number != CORRUMAI_DONE) {
    printf("ANSWER %d %zu\n", number, detail);
    return 1;
  }
  file = fopen(words[2], "wb");
  if (!file || fwrite(rewritten, 1, detail, file) != detail || fclose(file)) {
    perror(words[2]);
    return 2;
  }
  return 0;
}
