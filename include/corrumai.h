/* Corrumai: run lists from job sheets. docs/FORMAT.md says what sheets, lists and plans are, docs/REFUSALS.md what to do
   with each answer. */
#ifndef CORRUMAI_H
#define CORRUMAI_H

#include <stddef.h>
#include <stdint.h>

#ifdef __cplusplus
extern "C" {
#endif

/* The version of this header, that of the file VERSION. */
#define CORRUMAI_VERSION "0.9.0"
#define CORRUMAI_VERSION_MAJOR 0
#define CORRUMAI_VERSION_MINOR 9
#define CORRUMAI_VERSION_PATCH 0

/* The numbers that the functions return. */
enum corrumai_answer {
  CORRUMAI_PLAN = 0,              /* planner: there is a plan, detail is its length; judge: the list is a plan; late: the delayed list is */
  CORRUMAI_DONE = 0,              /* rewriting: the sheet is written, detail is its length; fresh and move_on: the state is stored;
                                     cost: cents and sixtieths are; newer: one of the two sheets counts */
  CORRUMAI_NO_PLAN = 1,           /* planner: no plan exists, of any length */
  CORRUMAI_BAD_CONTENTS = 10,     /* the sheet's contents are not as they should be, or it has under 26 bytes;
                                     rewriting and newer: also a sheet of another edition than the one asked for */
  CORRUMAI_BAD_FACTS = 11,        /* the facts body is not as it should be */
  CORRUMAI_BAD_JOBS = 12,         /* the jobs body */
  CORRUMAI_BAD_EVENTS = 13,       /* the events body */
  CORRUMAI_BAD_BOUNDS = 14,       /* the bounds body */
  CORRUMAI_NO_OWN_TIMES = 15,     /* given by nobody: up to 0.5.0 the planner's answer for a job that cannot run even alone */
  CORRUMAI_TWO_SETTERS = 20,      /* planner: two jobs set a wanted fact, detail is the lowest such fact */
  CORRUMAI_NO_ORDER = 21,         /* planner: nothing orders a wanted fact's sets and clears, detail as before */
  CORRUMAI_NO_ORDER_UNWANTED = 22, /* planner: the same for a fact that nobody wants */
  CORRUMAI_BUFFER_TOO_SHORT = 30, /* there is a plan, or the sheet of the other edition; detail is the length that it needs */
  CORRUMAI_BAD_LIST = 40,         /* judge: this is no list for the sheet;
                                     late and move_on: also a delay above 600, or delays that are not one for each instance */
  CORRUMAI_NOT_A_PLAN = 41,       /* judge: a list, and not a plan; late: also a plan that the delays break, detail is the first tick
                                     at which it goes wrong, or H */
  CORRUMAI_NO_WAY_BACK = 50,      /* to edition 1: the gap byte is not 1, or a release or the revision is not zero */
  CORRUMAI_BAD_RATES = 51,        /* cost: a rate is above 1,000,000, or the rates are not one for each job of the sheet */
  CORRUMAI_OTHER_BYTES = 56       /* newer: the two sheets have the same revision and other bytes */
};

/* The greatest length of a well-formed sheet of either edition, of a list that the planner writes, and of a list that the judge takes,
   in bytes. */
#define CORRUMAI_LONGEST_SHEET 2528
#define CORRUMAI_LONGEST_PLAN 644
#define CORRUMAI_LONGEST_LIST 1284

/* The most instances that a list names, and the most ticks that one of them may be late. */
#define CORRUMAI_MOST_INSTANCES 64
#define CORRUMAI_MOST_DELAY 600

/* The most jobs that a sheet has, and the highest rate of one, in cents per hour. */
#define CORRUMAI_MOST_JOBS 32
#define CORRUMAI_MOST_RATE 1000000

/* The most stack that a call takes, in bytes, as measured on the most expensive sheets that are known, and rounded up: for any sheet,
   and for ordinary ones (32 jobs with 8 events each, and smaller). */
#define CORRUMAI_STACK_PLAN 163840
#define CORRUMAI_STACK_PLAN_ORDINARY 32768
#define CORRUMAI_STACK_JUDGE 8192
#define CORRUMAI_STACK_REWRITE 1024
#define CORRUMAI_STACK_LATE 16384
#define CORRUMAI_STACK_COST 8192
#define CORRUMAI_STACK_NEWER 512

/* For all functions. Any bytes and lengths are taken; byte 0 of a sheet says its edition, 1 or 2. Calls may be made from any thread
   and at once: there is no global state, no allocation, no input or output, and no call of anything but memcpy and memset. Only
   what the lengths name, *held and *run are read; only *detail, *held, *run, *cents, *sixtieths, *which, *part_len and, with answer 0,
   the first *detail bytes of buffer are written. A pointer that goes with length 0 may be null, as a std::vector's data() is. What is
   written overlaps nothing else that is handed in, and detail, held, run, cents, sixtieths, which and part_len are never null; what is
   only read may overlap. With every answer but 0, buffer, *held and *run are unchanged.
   In edition 2 gap byte 0 stands for the default, 2 minutes; edition 1 means 1. A pair of events may have several bounds, which stand
   together and all apply; before 0.5.0 such a sheet got 14. A job without own times, as a retired one, whose bounds cannot all hold, is
   absent: the planner plans as if it were not in the sheet, and the judge gives 41 for a list with it.
   What the answers mean is proved; what this paragraph says of threads, pointers and the stack is tested. */

/* Judges a run list for a sheet. Returns the number (0: the list is a plan) and stores the detail, which is 0. */
uint8_t corrumai_judge(const uint8_t *sheet, size_t sheet_len,
                       const uint8_t *list, size_t list_len,
                       size_t *detail);

/* Plans for a sheet. Returns the number and stores the detail. With 0 the least list stands in the first *detail bytes of
   buffer and the rest is unchanged; with 30 *detail is the length needed, so that a call with a buffer of 0 bytes asks for it.
   CORRUMAI_LONGEST_PLAN bytes are enough for every sheet. The tests come in the order 10 to 14, 20 to 22, 1, 30, 0. */
uint8_t corrumai_plan(const uint8_t *sheet, size_t sheet_len,
                      uint8_t *buffer, size_t buffer_len,
                      size_t *detail);

/* Rewrites a sheet of edition 1 to edition 2: the sheet that says the same, with gap byte 1, revision 0 and releases 0. Returns the
   number and stores the detail. With 0 that sheet stands in the first *detail bytes of buffer and the rest is unchanged; with 30
   *detail is the length needed, 3 bytes more than the sheet's own and 2 more for each job. A sheet of edition 2 gets 10.
   CORRUMAI_LONGEST_SHEET bytes are enough for every sheet. */
uint8_t corrumai_to_edition2(const uint8_t *sheet, size_t sheet_len,
                             uint8_t *buffer, size_t buffer_len,
                             size_t *detail);

/* Rewrites a sheet of edition 2 to edition 1, which says the same in as many bytes less. Returns the number and stores the detail,
   as above. With 50, tested before 30, edition 1 cannot say what the sheet says: its gap byte is not 1, or a release or its
   revision is not zero. A sheet of edition 1 gets 10. Before 0.4.0 gap byte 0 stood for 1 minute, and to_edition2 wrote it: 1 in
   byte 29 mends a sheet from then. */
uint8_t corrumai_to_edition1(const uint8_t *sheet, size_t sheet_len,
                             uint8_t *buffer, size_t buffer_len,
                             size_t *detail);

/* The state of a run that is followed tick by tick. Any two numbers may be handed in. */
typedef struct corrumai_run {
  uint64_t next; /* the tick that the next move runs: 0 in a fresh state, one more than the tick that it stands at in any other */
  uint64_t held; /* the facts now held: bit f is fact f */
} corrumai_run;

/* Tries late starts: a list that the judge accepts, with the delay of each instance added to all its times. The delays are two-byte
   numbers in memory, of ticks, one for each entry of the list, in entry order; delays_len counts numbers, not bytes. Returns the number
   and stores the detail. First come the judge's 10 to 14, 40 and 41 for the given list, detail 0; then 40, detail 0, if a delay is above
   CORRUMAI_MOST_DELAY or the delays are not one for each instance; then 0, detail 0, if the judge accepts the delayed list. Otherwise it
   is 41 with the first tick, up to H, at which a set meets a clear of the same fact, a need begins with no source that is uncleared
   before that tick, or a clear, from a need's begin on, comes before the need's end, or before end and gap if another instance clears.
   If there is no such tick, it is 41 with H: a goal is lost, or a time lies above H. So 41 with detail 0 means that the given list is
   no plan, unless H is 0. */
uint8_t corrumai_late(const uint8_t *sheet, size_t sheet_len,
                      const uint8_t *list, size_t list_len,
                      const uint16_t *delays, size_t delays_len,
                      size_t *detail);

/* Stores the facts of a fresh state, which stands before tick 0 with the initial facts: the state is {0, *held}. Returns 10 to 14 for
   a sheet that is none, and *held is unchanged, or 0. The detail would always be 0, and none is stored. */
uint8_t corrumai_fresh(const uint8_t *sheet, size_t sheet_len, uint64_t *held);

/* Moves a state on by one tick of the delayed list. Returns the number; the detail would always be 0, and none is stored. The tests
   are those of corrumai_late, in its order, up to 40 for the delays, and with them *run is unchanged. After them it is 0, always: a
   delayed list that fails moves on too. If next is above H, nothing changes; else the facts set at tick next are added to those held,
   then those cleared at it are taken away, and next is one more. Bits from the count of facts on stay as they came. Moved on n times
   from a fresh state, with the same sheet, list and delays, n from 0 to H + 1, next is n, and held are exactly the facts that are
   initial or set before tick n and not cleared since; from H + 1 on the state stays. */
uint8_t corrumai_move_on(const uint8_t *sheet, size_t sheet_len,
                         const uint8_t *list, size_t list_len,
                         const uint16_t *delays, size_t delays_len,
                         corrumai_run *run);

/* What a run costs: a list that the judge accepts, billed by job. The rates are four-byte numbers in memory, cents per hour, one for each
   job of the sheet, in sheet order, whatever jobs the list names; rates_len counts numbers, not bytes. Returns the number and stores
   whole cents and the remainder in sixtieths of a cent, which stand in the place of the detail. First come the judge's 10 to 14, 40
   and 41; then 51 if a rate is above CORRUMAI_MOST_RATE or the rates are not one for each job; then 0. Each instance is billed from its
   first to its last event in time, and one with no event or a single one costs nothing; an instance that stands twice is billed twice.
   With 0, 60 * *cents + *sixtieths is exactly the sum of minutes times rate over all instances, *sixtieths is below 60, and *cents at
   most 10,752,000,000: it takes 34 bits. With every other number both are stored as 0. */
uint8_t corrumai_cost(const uint8_t *sheet, size_t sheet_len,
                      const uint8_t *list, size_t list_len,
                      const uint32_t *rates, size_t rates_len,
                      uint64_t *cents, uint64_t *sixtieths);

/* Which of two sheets counts: of two sheets of edition 2 the one with the higher revision, an unsigned number of two bytes, supersedes the
   other. Returns the number and stores which sheet counts and how many bytes it has: the part handed back is that very sheet, not a
   copy. The tests come in the order: 10 to 14 of the first sheet; 10 to 14 of the second; 56 for the same revision with other bytes;
   0. A sheet whose byte 0 is not 2 gets 10, whatever else is wrong with it. With 0 *which is 0 for the first sheet and 1 for the second,
   and *part_len is its whole length; with the same revision and the same bytes it is the first. With every other number *which and
   *part_len are 0: the part is empty. *detail is always 0: no bytes are written. Whole sheets are compared, and nothing is planned: gap
   bytes 0 and 2 are other bytes, though they plan alike. first and second may be the same sheet. */
uint8_t corrumai_newer(const uint8_t *first, size_t first_len,
                       const uint8_t *second, size_t second_len,
                       size_t *detail, uint8_t *which, size_t *part_len);

/* The pointer of the part that corrumai_newer handed back: second if which is 1, else first. Plain C, outside the proof. With a refusal
   it is first, which may be null, and *part_len is 0: none of its bytes is in the part. */
static inline const uint8_t *corrumai_newer_part(const uint8_t *first, const uint8_t *second, uint8_t which) {
  return which == 1 ? second : first;
}

/* The version of this header, as text. */
static inline const char *corrumai_version(void) { return CORRUMAI_VERSION; }

#ifdef __cplusplus
}
#endif

#endif
