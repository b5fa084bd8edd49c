/* Plans a sheet and prints its run list in hexadecimal: plan SHEET. Status 0: a plan. 1: another answer. 2: wrong use.
   Built with: cc plan.c $(pkg-config --cflags --libs corrumai) -o plan */
#include <corrumai.h>
#include <stdio.h>
#include <stdlib.h>

int main(int count, char **words) {
  /* One byte more than the longest sheet: whatever is longer is refused as it would be at any length. */
  static uint8_t sheet[CORRUMAI_LONGEST_SHEET + 1];
  FILE *file = count == 2 ? fopen(words[1], "rb") : NULL;
  if (!file) {
    fprintf(stderr, "usage: plan SHEET\n");
    return 2;
  }
  size_t length = fread(sheet, 1, sizeof sheet, file);
  if (ferror(file)) {
    perror(words[1]);
    return 2;
  }
  fclose(file);

  /* A buffer of 0 bytes asks for the length; its pointer may be null. */
  size_t detail;
  uint8_t number = corrumai_plan(sheet, length, NULL, 0, &detail);
  if (number != CORRUMAI_BUFFER_TOO_SHORT) {
    printf("ANSWER %d %zu\n", number, detail);
    return 1;
  }
  uint8_t *list = malloc(detail);
  if (!list) return 2;
  size_t needed = detail;
  number = corrumai_plan(sheet, length, list, needed, &detail);
  if (number == CORRUMAI_PLAN) {
    for (size_t at = 0; at < detail; at++) printf("%02X%c", list[at], at + 1 == detail ? '\n' : ' ');
  }
  free(list);
  return number == CORRUMAI_PLAN ? 0 : 1;
}
