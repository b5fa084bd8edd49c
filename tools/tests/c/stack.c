/* Measures the peak of the stack in a call: paints a stack, calls on it, and looks how far the paint is gone.
   stack FILE..: a sheet each, or a sheet and its list as SHEET,LIST. Prints the most that planner, judge, rewriting, late starts with
   their moves, cost, and which of two sheets counts took, in bytes. */
#define _GNU_SOURCE
#include "corrumai.h"
#include <stdio.h>
#include <stdlib.h>
#include <string.h>
#include <ucontext.h>

enum { STACK = 1 << 20, PAINT = 0xA5, FILE_MOST = 1 << 16, GAP = 29, REVISION = 30 };

static uint8_t stack[STACK] __attribute__((aligned(4096)));
static uint8_t sheet[FILE_MOST], list[FILE_MOST], buffer[CORRUMAI_LONGEST_SHEET];
static size_t sheet_len, list_len, detail;
static uint16_t delays[CORRUMAI_MOST_INSTANCES];
static size_t delays_len;
static uint64_t held;
static corrumai_run run;
static uint32_t rates[CORRUMAI_MOST_JOBS];
static size_t rates_len;
static uint64_t cents, sixtieths;
static uint8_t other[FILE_MOST], which;
static size_t part_len;
static uint8_t number;
static ucontext_t here, there;

static void nothing(void) {}

static void plan(void) {
  number = corrumai_plan(sheet, sheet_len, buffer, sizeof buffer, &detail);
}

static void judge(void) {
  number = corrumai_judge(sheet, sheet_len, list, list_len, &detail);
}

static void to_edition2(void) {
  number = corrumai_to_edition2(sheet, sheet_len, buffer, sizeof buffer, &detail);
}

static void to_edition1(void) {
  number = corrumai_to_edition1(sheet, sheet_len, buffer, sizeof buffer, &detail);
}

static void late(void) {
  number = corrumai_late(sheet, sheet_len, list, list_len, delays, delays_len, &detail);
}

static void fresh(void) {
  number = corrumai_fresh(sheet, sheet_len, &held);
}

static void move_on(void) {
  number = corrumai_move_on(sheet, sheet_len, list, list_len, delays, delays_len, &run);
}

static void cost(void) {
  number = corrumai_cost(sheet, sheet_len, list, list_len, rates, rates_len, &cents, &sixtieths);
}

static void newer(void) {
  number = corrumai_newer(sheet, sheet_len, other, sheet_len, &detail, &which, &part_len);
}

/* How many bytes of the stack the call changed. */
static size_t spent(void (*call)(void)) {
  memset(stack, PAINT, sizeof stack);
  getcontext(&there);
  there.uc_stack.ss_sp = stack;
  there.uc_stack.ss_size = sizeof stack;
  there.uc_link = &here;
  makecontext(&there, call, 0);
  swapcontext(&here, &there);
  size_t kept = 0;
  while (kept < sizeof stack && stack[kept] == PAINT) kept++;
  return sizeof stack - kept;
}

static size_t load(const char *name, uint8_t *bytes) {
  FILE *file = fopen(name, "rb");
  if (!file) { perror(name); exit(2); }
  size_t length = fread(bytes, 1, FILE_MOST, file);
  fclose(file);
  return length;
}

static size_t base;

/* The most so far, or what this call takes beyond an idle one. */
static size_t more(size_t most, void (*call)(void)) {
  size_t taken = spent(call) - base;
  return taken > most ? taken : most;
}

int main(int count, char **words) {
  size_t most_plan = 0, most_judge = 0, most_rewrite = 0, most_late = 0, most_cost = 0, most_newer = 0;
  base = spent(nothing);
  for (int word = 1; word < count; word++) {
    char *comma = strchr(words[word], ',');
    if (comma) *comma = 0;
    sheet_len = load(words[word], sheet);
    most_plan = more(most_plan, plan);
    if (comma) {
      list_len = load(comma + 1, list);
    } else {
      list_len = number == CORRUMAI_PLAN ? detail : 0;
      memcpy(list, buffer, list_len);
    }
    most_judge = more(most_judge, judge);
    most_rewrite = more(more(most_rewrite, to_edition2), to_edition1);
    /* In time, then all a minute late. */
    delays_len = list_len > 2 && list[2] <= CORRUMAI_MOST_INSTANCES ? list[2] : 0;
    for (uint16_t delay = 0; delay < 2; delay++) {
      for (size_t place = 0; place < delays_len; place++) delays[place] = delay;
      most_late = more(more(more(most_late, late), fresh), move_on);
    }
    /* At the highest rates, one for each job by the length of the jobs body; then without any. */
    size_t jobs = (sheet[12] + 256u * sheet[13]) / (sheet[0] == 1 ? 2 : 4);
    rates_len = jobs <= CORRUMAI_MOST_JOBS ? jobs : 0;
    for (size_t place = 0; place < rates_len; place++) rates[place] = CORRUMAI_MOST_RATE;
    most_cost = more(most_cost, cost);
    rates_len = 0;
    most_cost = more(most_cost, cost);
    /* The sheet and itself; then with another gap, and with another revision. */
    memcpy(other, sheet, sheet_len);
    most_newer = more(most_newer, newer);
    size_t changed[] = {GAP, REVISION};
    for (int place = 0; place < 2; place++) {
      other[changed[place]] ^= 1;
      most_newer = more(most_newer, newer);
      other[changed[place]] ^= 1;
    }
  }
  printf("plan %zu judge %zu rewrite %zu late %zu cost %zu newer %zu\n", most_plan, most_judge, most_rewrite, most_late, most_cost,
         most_newer);
  return 0;
}
