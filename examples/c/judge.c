/* Says whether a list is a plan for a sheet: judge SHEET LIST. Status 0: yes. 1: another answer. 2: wrong use.
   Built with: cc judge.c $(pkg-config --cflags --libs corrumai) -o judge */
#include <corrumai.h>
#include <stdio.h>

/* Reads at most `most` bytes; -1 if the file cannot be read. */
static long load(const char *name, uint8_t *bytes, size_t most) {
  FILE *file = fopen(name, "rb");
  if (!file) return -1;
  size_t length = fread(bytes, 1, most, file);
  int failed = ferror(file);
  fclose(file);
  return failed ? -1 : (long)length;
}

int main(int count, char **words) {
  static uint8_t sheet[CORRUMAI_LONGEST_SHEET + 1], list[CORRUMAI_LONGEST_LIST + 1];
  if (count != 3) {
    fprintf(stderr, "usage: judge SHEET LIST\n");
    return 2;
  }
  long sheet_len = load(words[1], sheet, sizeof sheet), list_len = load(words[2], list, sizeof list);
  if (sheet_len < 0 || list_len < 0) {
    fprintf(stderr, "judge: a file cannot be read\n");
    return 2;
  }
  size_t detail;
  switch (corrumai_judge(sheet, (size_t)sheet_len, list, (size_t)list_len, &detail)) {
    case CORRUMAI_PLAN: puts("a plan"); return 0;
    case CORRUMAI_NOT_A_PLAN: puts("not a plan"); return 1;
    case CORRUMAI_BAD_LIST: puts("no list for this sheet"); return 1;
    default: puts("no well-formed sheet"); return 1;
  }
}
