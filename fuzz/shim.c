/* Faults put between the fuzz target and the library, to see that the target reports them: fuzz/run broken.
   The linker's --wrap sends the calls here and gives the library's own as __real_. */
#include <stddef.h>
#include <stdint.h>
#include <string.h>

uint8_t __real_corrumai_judge(const uint8_t *, size_t, const uint8_t *, size_t, size_t *);
uint8_t __real_corrumai_plan(const uint8_t *, size_t, uint8_t *, size_t, size_t *);
uint8_t __real_corrumai_to_edition2(const uint8_t *, size_t, uint8_t *, size_t, size_t *);
uint8_t __real_corrumai_to_edition1(const uint8_t *, size_t, uint8_t *, size_t, size_t *);

typedef struct { uint64_t next, held; } state;
uint8_t __real_corrumai_late(const uint8_t *, size_t, const uint8_t *, size_t, const uint16_t *, size_t, size_t *);
uint8_t __real_corrumai_fresh(const uint8_t *, size_t, uint64_t *);
uint8_t __real_corrumai_move_on(const uint8_t *, size_t, const uint8_t *, size_t, const uint16_t *, size_t, state *);
uint8_t __real_corrumai_cost(const uint8_t *, size_t, const uint8_t *, size_t, const uint32_t *, size_t, uint64_t *, uint64_t *);
uint8_t __real_corrumai_newer(const uint8_t *, size_t, const uint8_t *, size_t, size_t *, uint8_t *, size_t *);

/* Where the gap byte of edition 2 stands, the greatest one, what is no fact, and the longest sheet that the target tries. The bytes of a
   bound, and what means none. */
enum { GAP_AT = 29, MOST_GAP = 60, NO_FACT = 64, LONGEST = 64 * 4096 };
enum { ROW = 6, NO_LOW = -32768, NO_HIGH = 32767 };
static uint8_t taken[LONGEST + 1];

/* The sheet where its gap byte, in edition 2, is taken for another. */
static const uint8_t *with_gap(const uint8_t *sheet, size_t sheet_len, uint8_t from, uint8_t to) {
  if (sheet_len <= GAP_AT || sheet[0] != 2 || sheet[GAP_AT] != from) return sheet;
  memcpy(taken, sheet, sheet_len);
  taken[GAP_AT] = to;
  return taken;
}

/* The gap byte, or one that no sheet has. */
static uint8_t gap_byte(const uint8_t *sheet, size_t sheet_len) {
  return sheet_len > GAP_AT && sheet[0] == 2 ? sheet[GAP_AT] : 255;
}

/* The sheet where its gap, in edition 2, is taken for a tick more. */
static const uint8_t *with_longer_gap(const uint8_t *sheet, size_t sheet_len) {
  uint8_t gap = gap_byte(sheet, sheet_len);
  return gap < MOST_GAP ? with_gap(sheet, sheet_len, gap, gap == 0 ? 3 : gap + 1) : sheet;
}

/* The sheet where its gap, in edition 2, is taken for one tick. */
static const uint8_t *with_one_tick(const uint8_t *sheet, size_t sheet_len) {
  uint8_t gap = gap_byte(sheet, sheet_len);
  return gap <= MOST_GAP ? with_gap(sheet, sheet_len, gap, 1) : sheet;
}

static size_t two_bytes(const uint8_t *at) { return at[0] + 256 * at[1]; }

/* Whether an entry of a plan clears a fact sooner than the gap after its own need of it ends. */
static int clears_soon(const uint8_t *sheet, const uint8_t *list) {
  size_t gap = sheet[0] == 1 ? 1 : sheet[GAP_AT] == 0 ? 2 : sheet[GAP_AT];
  size_t row = sheet[0] == 1 ? 2 : 4;
  const uint8_t *jobs = sheet + two_bytes(sheet + 10), *events = sheet + two_bytes(sheet + 16);
  const uint8_t *behind = events + two_bytes(sheet + 18);
  for (const uint8_t *entry = list + 4; entry < list + 4 + 4 * two_bytes(list + 2); entry += 4) {
    const uint8_t *time = list + two_bytes(entry + 2);
    size_t job = 0, fact = NO_FACT, end = 0;
    while (two_bytes(jobs + row * job) != two_bytes(entry)) job++;
    for (const uint8_t *event = events; event < behind; event += 3) {
      if (event[0] != job) continue;
      if (event[1] == 1) fact = event[2], end = two_bytes(time);
      if (event[1] == 3 && event[2] == fact && two_bytes(time) < end + gap) return 1;
      time += 2;
    }
  }
  return 0;
}

/* Whether a list has two entries of one job, each of which alone would be a plan. */
static int plans_alone(const uint8_t *sheet, size_t sheet_len, const uint8_t *list, size_t list_len) {
  if (two_bytes(list + 2) != 2 || two_bytes(list + 4) != two_bytes(list + 8)) return 0;
  size_t body = (list_len - 12) / 2, detail;
  memcpy(taken, (const uint8_t[]){1, 0, 1, 0, list[4], list[5], 8, 0}, 8);
  for (int k = 0; k < 2; k++) {
    memcpy(taken + 8, list + 12 + k * body, body);
    if (__real_corrumai_judge(sheet, sheet_len, taken, 8 + body, &detail) != 0) return 0;
  }
  return 1;
}

/* What is taken for low and high of a pair with several rows. */
enum take { TIGHTEST, FIRST, LAST, ALL_BUT_LAST, NONE_LOOSENS, GREATEST_HIGH, LEAST_LOW };

static int low_of(const uint8_t *row) { return (int16_t)two_bytes(row + 2); }
static int high_of(const uint8_t *row) { return (int16_t)two_bytes(row + 4); }
static int is_pair_of(const uint8_t *one, const uint8_t *other) { return one[0] == other[0] && one[1] == other[1]; }

static int well_formed(const uint8_t *sheet, size_t sheet_len) {
  size_t detail;
  return __real_corrumai_judge(sheet, sheet_len, (const uint8_t[]){0}, 1, &detail) == 40;
}

/* The row behind those of the pair that starts here. */
static const uint8_t *next_pair(const uint8_t *row, const uint8_t *behind) {
  const uint8_t *next = row + ROW;
  while (next < behind && is_pair_of(next, row)) next += ROW;
  return next;
}

static void look_up(const uint8_t *row, const uint8_t *next, enum take how, int *low, int *high) {
  int least_low = NO_HIGH, greatest_low = NO_LOW, least_high = NO_HIGH, greatest_high = NO_LOW;
  if (how == FIRST) next = row + ROW;
  if (how == LAST) row = next - ROW;
  if (how == ALL_BUT_LAST) next -= ROW;
  for (; row < next; row += ROW) {
    if (low_of(row) < least_low) least_low = low_of(row);
    if (low_of(row) > greatest_low) greatest_low = low_of(row);
    if (high_of(row) < least_high) least_high = high_of(row);
    if (high_of(row) > greatest_high) greatest_high = high_of(row);
  }
  *low = how == LEAST_LOW || (how == NONE_LOOSENS && least_low == NO_LOW) ? least_low : greatest_low;
  *high = how == GREATEST_HIGH || (how == NONE_LOOSENS && greatest_high == NO_HIGH) ? greatest_high : least_high;
}

/* One more row of the pair, at this place of the sheet that is taken; the place behind it. */
static size_t put_row(size_t at, const uint8_t *pair, int low, int high) {
  const uint8_t row[ROW] = {pair[0], pair[1], low & 255, low >> 8 & 255, high & 255, high >> 8 & 255};
  memcpy(taken + at, row, ROW);
  return at + ROW;
}

/* The taken sheet ends here: so do its bounds. */
static const uint8_t *ended(size_t end, size_t *sheet_len) {
  size_t length = end - two_bytes(taken + 22);
  taken[24] = length & 255, taken[25] = length >> 8;
  *sheet_len = end;
  return taken;
}

/* A sheet where several rows of a pair are taken so. Low and high become two rows, since they may cross. */
static const uint8_t *with_lookup(const uint8_t *sheet, size_t *sheet_len, enum take how) {
  if (!well_formed(sheet, *sheet_len)) return sheet;
  const uint8_t *row = sheet + two_bytes(sheet + 22), *behind = sheet + *sheet_len, *next;
  size_t at = row - sheet;
  memcpy(taken, sheet, at);
  for (; row < behind; row = next) {
    int low, high;
    next = next_pair(row, behind);
    look_up(row, next, how, &low, &high);
    if (next == row + ROW) {
      at = put_row(at, row, low_of(row), high_of(row));
    } else {
      at = put_row(at, row, low, NO_HIGH);
      at = put_row(at, row, NO_LOW, high);
    }
  }
  return ended(at, sheet_len);
}

/* Whether a well-formed sheet has a pair with several rows, or with rows that cannot all hold. */
static int has_several(const uint8_t *sheet, size_t sheet_len, int crossing) {
  if (!well_formed(sheet, sheet_len)) return 0;
  const uint8_t *row = sheet + two_bytes(sheet + 22), *behind = sheet + sheet_len, *next;
  for (; row < behind; row = next) {
    int low, high;
    next = next_pair(row, behind);
    look_up(row, next, TIGHTEST, &low, &high);
    if (next > row + ROW && (!crossing || low > high)) return 1;
  }
  return 0;
}

/* A sheet where a row that stands behind another pair is taken to stand behind its own, if that came before. */
static const uint8_t *gathered(const uint8_t *sheet, size_t *sheet_len) {
  if (*sheet_len < 26 || *sheet_len > LONGEST) return sheet;
  size_t first = two_bytes(sheet + 22);
  if (first > *sheet_len || (*sheet_len - first) % ROW != 0) return sheet;
  memcpy(taken, sheet, *sheet_len);
  for (size_t at = first + ROW; at < *sheet_len; at += ROW) {
    uint8_t row[ROW];
    memcpy(row, taken + at, ROW);
    size_t to = at;
    while (to > first && !is_pair_of(taken + to - ROW, row)) to -= ROW;
    if (to == first) continue;
    memmove(taken + to + ROW, taken + to, at - to);
    memcpy(taken + to, row, ROW);
  }
  return taken;
}

/* A sheet where rows of (d, e) right behind those of (e, d) are taken for rows of it. */
static const uint8_t *turned(const uint8_t *sheet, size_t sheet_len) {
  if (!well_formed(sheet, sheet_len)) return sheet;
  memcpy(taken, sheet, sheet_len);
  uint8_t *row = taken + two_bytes(taken + 22) + ROW;
  for (; row < taken + sheet_len; row += ROW)
    if (row[0] == row[1 - ROW] && row[1] == row[-ROW]) row[0] = row[-ROW], row[1] = row[1 - ROW];
  return taken;
}

/* The rows of the first pair that has several different ones stand in another order. */
static void reorder(uint8_t *sheet, size_t sheet_len) {
  uint8_t *row = sheet + two_bytes(sheet + 22), kept[ROW];
  for (; row + ROW < sheet + sheet_len; row += ROW)
    if (is_pair_of(row, row + ROW) && memcmp(row, row + ROW, ROW) != 0) {
      memcpy(kept, row, ROW);
      memcpy(row, row + ROW, ROW);
      memcpy(row + ROW, kept, ROW);
      return;
    }
}

/* What a rule does to the ticks of a job: at least so many ticks from one event to the other. 1 if it lifted one. */
static int lift(int *ticks, int from, int to, int gap) {
  if (ticks[to] >= ticks[from] + gap) return 0;
  ticks[to] = ticks[from] + gap;
  return 1;
}

/* One round over the rules of a job, with the places of its first event and of the one behind its last. */
static int lift_all(const uint8_t *sheet, size_t sheet_len, int *ticks, size_t first, size_t last) {
  const uint8_t *events = sheet + two_bytes(sheet + 16), *row = sheet + two_bytes(sheet + 22);
  int lifted = 0;
  for (size_t e = first; e < last; e++)
    if (events[3 * e + 1] == 0) lifted |= lift(ticks, e, e + 1, 0);
  for (; row < sheet + sheet_len; row += ROW) {
    if (row[0] < first || row[0] >= last) continue;
    if (low_of(row) != NO_LOW) lifted |= lift(ticks, row[1], row[0], low_of(row));
    if (high_of(row) != NO_HIGH) lifted |= lift(ticks, row[0], row[1], -high_of(row));
  }
  return lifted;
}

/* Whether the job with these events has no own times up to this tick. */
static int is_absent(const uint8_t *sheet, size_t sheet_len, size_t job, size_t first, size_t last, int horizon) {
  int ticks[257], release = sheet[0] == 2 ? (int)two_bytes(sheet + two_bytes(sheet + 10) + 4 * job + 2) : 0;
  for (size_t e = first; e < last; e++) ticks[e] = release;
  for (size_t round = first; round < last && lift_all(sheet, sheet_len, ticks, first, last); round++) {}
  if (first < last && lift_all(sheet, sheet_len, ticks, first, last)) return 1;
  for (size_t e = first; e < last; e++)
    if (ticks[e] > horizon) return 1;
  return 0;
}

/* How many jobs of a well-formed sheet have no own times up to H less so many ticks, and the lowest of them. */
static int absent_jobs(const uint8_t *sheet, size_t sheet_len, int less, size_t *lowest) {
  if (!well_formed(sheet, sheet_len)) return 0;
  size_t jobs = two_bytes(sheet + 12) / (sheet[0] == 1 ? 2 : 4), events = two_bytes(sheet + 18) / 3, last = 0;
  const uint8_t *event = sheet + two_bytes(sheet + 16);
  int count = 0;
  for (size_t job = 0; job < jobs; job++) {
    size_t first = last;
    while (last < events && event[3 * last] == job) last++;
    if (!is_absent(sheet, sheet_len, job, first, last, (int)two_bytes(sheet + 27) - less)) continue;
    if (count++ == 0) *lowest = job;
  }
  return count;
}

/* A sheet of edition 1 where it is taken for one of edition 2 with gap byte 0. */
static const uint8_t *by_default(const uint8_t *sheet, size_t *sheet_len) {
  size_t length;
  if (__real_corrumai_to_edition2(sheet, *sheet_len, taken, LONGEST, &length) != 0) return sheet;
  taken[GAP_AT] = 0;
  *sheet_len = length;
  return taken;
}

/* Delays that are taken for those given, and how many of them there may be. */
enum { MOST_DELAYS = 64, MOST_DELAY = 600 };
static uint16_t delayed[MOST_DELAYS];

/* The delays where this one is taken for another. */
static const uint16_t *with_delay(const uint16_t *delays, size_t count, size_t from, uint16_t to) {
  if (count > MOST_DELAYS) return delays;
  for (size_t k = 0; k < count; k++) delayed[k] = delays[k] == from ? to : delays[k];
  return delayed;
}

/* The delays of a list, where all entries of a job are taken to have that of the first. */
static const uint16_t *by_job(const uint8_t *list, const uint16_t *delays, size_t count) {
  if (count > MOST_DELAYS || count != two_bytes(list + 2)) return delays;
  for (size_t k = 0; k < count; k++) {
    size_t first = 0;
    while (two_bytes(list + 4 + 4 * first) != two_bytes(list + 4 + 4 * k)) first++;
    delayed[k] = delays[first];
  }
  return delayed;
}

static int has_delay(const uint16_t *delays, size_t count, uint16_t delay) {
  for (size_t k = 0; k < count; k++)
    if (delays[k] == delay) return 1;
  return 0;
}

static size_t horizon_of(const uint8_t *sheet) { return two_bytes(sheet + 27); }

uint8_t __wrap_corrumai_late(const uint8_t *sheet, size_t sheet_len, const uint8_t *list, size_t list_len, const uint16_t *delays,
                             size_t delays_len, size_t *detail) {
  const uint16_t *given = delays;
#if FAULT == 59 /* a delay of 601 is taken */
  given = with_delay(delays, delays_len, MOST_DELAY + 1, MOST_DELAY);
#elif FAULT == 60 /* every entry of a job has the delay of the first */
  if (list_len > 4 && __real_corrumai_judge(sheet, sheet_len, list, list_len, detail) == 0) given = by_job(list, delays, delays_len);
#elif FAULT == 61 /* a delayed list needs one tick of gap */
  sheet = with_one_tick(sheet, sheet_len);
#elif FAULT == 62 /* a delay of 3 ticks is taken for 2 */
  given = with_delay(delays, delays_len, 3, 2);
#endif
  uint8_t number = __real_corrumai_late(sheet, sheet_len, list, list_len, given, delays_len, detail);
#if FAULT == 63 /* a delay of 600 is refused */
  if ((number == 0 || *detail > 0) && has_delay(delays, delays_len, MOST_DELAY)) number = 40, *detail = 0;
#elif FAULT == 64 /* 0 is told where H is due */
  if (number == 41 && *detail == horizon_of(sheet)) *detail = 0;
#elif FAULT == 65 /* a fault is told a tick late, from tick 8 on */
  if (number == 41 && *detail >= 8) *detail += 1;
#elif FAULT == 66 /* a list that fails holds, where its first delay is 1 */
  if (number == 41 && *detail > 0 && delays[0] == 1) number = 0, *detail = 0;
#elif FAULT == 67 /* too few delays are told before a list that is no plan */
  if (number == 41 && *detail == 0 && delays_len < two_bytes(list + 2)) number = 40;
#elif FAULT == 68 /* what stands behind the delays is read */
  volatile uint16_t behind = delays[delays_len];
  (void)behind;
#elif FAULT == 69 /* a delay is changed, where a list fails */
  if (number == 41 && *detail > 0) ((uint16_t *)delays)[0] ^= 1;
#elif FAULT == 70 /* the detail is not stored, where the delays are refused */
  if (number == 40) *detail = delays_len;
#endif
  return number;
}

uint8_t __wrap_corrumai_fresh(const uint8_t *sheet, size_t sheet_len, uint64_t *held) {
  uint8_t number = __real_corrumai_fresh(sheet, sheet_len, held);
#if FAULT == 71 /* with a refusal a fresh state holds nothing */
  if (number != 0) *held = 0;
#elif FAULT == 72 /* a fresh state holds no fact from 32 on */
  if (number == 0) *held &= 0xFFFFFFFF;
#elif FAULT == 73 /* what stands behind a fresh state's facts is written */
  held[1] ^= 1;
#endif
  return number;
}

uint8_t __wrap_corrumai_move_on(const uint8_t *sheet, size_t sheet_len, const uint8_t *list, size_t list_len, const uint16_t *delays,
                                size_t delays_len, state *run) {
  const state from = *run;
  (void)from;
#if FAULT == 74 /* the tick of a state is read in 16 bits */
  if (from.next != UINT64_MAX) run->next &= 65535;
#elif FAULT == 75 /* a state is moved without its delays */
  const uint16_t *given = delays;
  for (size_t k = 0; k < delays_len && k < MOST_DELAYS; k++) delayed[k] = given[k] <= MOST_DELAY ? 0 : given[k];
  if (delays_len <= MOST_DELAYS) delays = delayed;
#endif
  uint8_t number = __real_corrumai_move_on(sheet, sheet_len, list, list_len, delays, delays_len, run);
#if FAULT == 76 /* a refusal moves the state */
  if (number != 0) run->next += 1;
#elif FAULT == 77 /* no move at H */
  if (number == 0 && from.next == horizon_of(sheet)) *run = from;
#elif FAULT == 78 /* a move past H */
  if (number == 0 && from.next == horizon_of(sheet) + 1) run->next += 1;
#elif FAULT == 79 /* a list that fails is not moved on */
  size_t detail;
  if (number == 0) number = __real_corrumai_late(sheet, sheet_len, list, list_len, delays, delays_len, &detail);
#elif FAULT == 80 /* facts that the sheet does not have are dropped */
  if (number == 0 && sheet[26] < 64) run->held &= ((uint64_t)1 << sheet[26]) - 1;
#elif FAULT == 81 /* what is held stays, where a clear comes */
  if (number == 0) run->held |= from.held;
#elif FAULT == 82 /* what stands behind the state is written */
  run[1].next ^= 1;
#endif
  return number;
}

/* Rates that are taken for those given, and how many of them there may be. */
enum { MOST_JOBS = 32, MOST_RATE = 1000000 };
static uint32_t billed[MOST_JOBS];

/* How many jobs a well-formed sheet has. */
static size_t job_count(const uint8_t *sheet) { return two_bytes(sheet + 12) / (sheet[0] == 1 ? 2 : 4); }

/* The number of an entry's job, in a plan. */
static size_t job_of(const uint8_t *sheet, const uint8_t *list, size_t entry) {
  const uint8_t *jobs = sheet + two_bytes(sheet + 10), *code = list + 4 + 4 * entry;
  size_t row = sheet[0] == 1 ? 2 : 4, job = 0;
  while (two_bytes(jobs + row * job) != two_bytes(code)) job++;
  return job;
}

static int is_too_high(const uint32_t *rates, size_t count) {
  for (size_t k = 0; k < count; k++)
    if (rates[k] > MOST_RATE) return 1;
  return 0;
}

/* The first so many rates, 0 where there are none, and this one taken for another. */
static const uint32_t *with_rate(const uint32_t *rates, size_t count, size_t given, uint32_t from, uint32_t to) {
  if (count > MOST_JOBS) return rates;
  for (size_t k = 0; k < count; k++) billed[k] = k >= given ? 0 : rates[k] == from ? to : rates[k];
  return billed;
}

/* Rates where those of jobs that a plan does not list are taken for 0. */
static const uint32_t *of_listed(const uint8_t *sheet, const uint8_t *list, const uint32_t *rates, size_t count) {
  memset(billed, 0, sizeof billed);
  if (count != job_count(sheet)) return rates;
  for (size_t k = 0; k < two_bytes(list + 2); k++) billed[job_of(sheet, list, k)] = rates[job_of(sheet, list, k)];
  return billed;
}

/* What goes wrong in the sum of a plan. */
enum wrong { NOTHING, ROUNDED, IN_SHEET_ORDER, BY_ENTRY, FIRST_ALONE, MINUTE_MORE };

/* The minutes of an entry. */
static uint64_t minutes_of(const uint8_t *sheet, const uint8_t *list, size_t entry, enum wrong how) {
  const uint8_t *event = sheet + two_bytes(sheet + 16), *behind = event + two_bytes(sheet + 18);
  const uint8_t *time = list + two_bytes(list + 4 + 4 * entry + 2);
  size_t job = job_of(sheet, list, entry), least = SIZE_MAX, greatest = 0, first = SIZE_MAX, last = 0;
  for (; event < behind; event += 3) {
    if (event[0] != job) continue;
    last = two_bytes(time);
    if (first == SIZE_MAX) first = last;
    if (last < least) least = last;
    if (last > greatest) greatest = last;
    time += 2;
  }
  if (first == SIZE_MAX) return 0;
  if (how == IN_SHEET_ORDER) return last > first ? last - first : 0;
  return greatest - least + (how == MINUTE_MORE);
}

/* Minutes times rate of a plan, one way wrong. */
static uint64_t sum_of(const uint8_t *sheet, const uint8_t *list, const uint32_t *rates, size_t count, enum wrong how) {
  uint64_t sum = 0;
  for (size_t k = 0; k < two_bytes(list + 2); k++) {
    size_t job = job_of(sheet, list, k), twin = 0;
    while (job_of(sheet, list, twin) != job) twin++;
    uint64_t one = minutes_of(sheet, list, k, how) * rates[how == BY_ENTRY ? k % count : job];
    if (how == ROUNDED) one -= one % 60;
    if (how != FIRST_ALONE || twin == k) sum += one;
  }
  return sum;
}

uint8_t __wrap_corrumai_cost(const uint8_t *sheet, size_t sheet_len, const uint8_t *list, size_t list_len, const uint32_t *rates,
                             size_t rates_len, uint64_t *cents, uint64_t *sixtieths) {
  const uint64_t old_cents = *cents, old_sixtieths = *sixtieths;
  const uint32_t *given = rates;
  size_t given_len = rates_len, detail;
  int is_plan = __real_corrumai_judge(sheet, sheet_len, list, list_len, &detail) == 0;
  enum wrong how = NOTHING;
#if FAULT == 83 /* a rate of 1,000,001 is taken */
  given = with_rate(rates, rates_len, rates_len, MOST_RATE + 1, MOST_RATE);
#elif FAULT == 84 /* the highest rate that a number can be is taken for 0 */
  given = with_rate(rates, rates_len, rates_len, UINT32_MAX, 0);
#elif FAULT == 85 /* rates of jobs that are not listed are not looked at */
  if (is_plan) given = of_listed(sheet, list, rates, rates_len);
#elif FAULT == 86 /* one rate too many is taken */
  if (is_plan && rates_len == job_count(sheet) + 1) given_len--;
#elif FAULT == 87 /* a rate too few is taken for 0 */
  if (is_plan && rates_len + 1 == job_count(sheet)) given = with_rate(rates, ++given_len, rates_len, 0, 0);
#elif FAULT == 88 /* cents are rounded for each instance */
  how = ROUNDED;
#elif FAULT == 89 /* the last event less the first, in sheet order */
  how = IN_SHEET_ORDER;
#elif FAULT == 90 /* rates go by entry */
  how = BY_ENTRY;
#elif FAULT == 91 /* the first instance of a job alone is billed */
  how = FIRST_ALONE;
#elif FAULT == 92 /* a minute too many for each instance with events */
  how = MINUTE_MORE;
#endif
  uint8_t number = __real_corrumai_cost(sheet, sheet_len, list, list_len, given, given_len, cents, sixtieths);
  uint64_t sum = 60 * *cents + *sixtieths;
  if (number == 0 && how != NOTHING) {
    sum = sum_of(sheet, list, rates, rates_len, how);
    *cents = sum / 60, *sixtieths = sum % 60;
  }
#if FAULT == 93 /* a rate of 1,000,000 is refused */
  for (size_t k = 0; number == 0 && k < rates_len; k++)
    if (rates[k] == MOST_RATE) number = 51, *cents = *sixtieths = 0;
#elif FAULT == 94 /* a rate too high is told before a list that is no plan */
  if (number == 41 && is_too_high(rates, rates_len)) number = 51;
#elif FAULT == 95 /* too few rates are told before a fault of the list's form */
  if (number == 40 && rates_len < job_count(sheet)) number = 51;
#elif FAULT == 96 /* the sum is one of 32 bits */
  if (number == 0) *cents = (uint32_t)sum / 60, *sixtieths = (uint32_t)sum % 60;
#elif FAULT == 97 /* with 51 cents are not stored */
  if (number == 51) *cents = old_cents;
#elif FAULT == 98 /* with a refusal of the judge sixtieths are not stored */
  if (number != 0 && number != 51) *sixtieths = old_sixtieths;
#elif FAULT == 99 /* sixtieths are not stored, where there are none */
  if (number == 0 && *sixtieths == 0) *sixtieths = old_sixtieths;
#elif FAULT == 100 /* what stands behind the rates is read */
  volatile uint32_t behind = rates[rates_len];
  (void)behind;
#elif FAULT == 101 /* a rate is changed, where a list costs something */
  if (number == 0 && sum > 0) ((uint32_t *)rates)[0] ^= 1;
#elif FAULT == 102 /* what stands behind cents is written */
  cents[1] ^= 1;
#elif FAULT == 103 /* what stands before sixtieths is written */
  sixtieths[-1] ^= 1;
#endif
  (void)is_plan, (void)old_cents, (void)old_sixtieths;
  return number;
}

/* Where the revision of edition 2 stands. */
enum { REVISION_AT = 30 };

static size_t revision_of(const uint8_t *sheet) { return two_bytes(sheet + REVISION_AT); }
static size_t big_endian_of(const uint8_t *sheet) { return 256 * sheet[REVISION_AT] + sheet[REVISION_AT + 1]; }

/* The number of a sheet of edition 2. */
static uint8_t fault_of(const uint8_t *sheet, size_t sheet_len) {
  size_t detail, length;
  uint8_t which;
  return __real_corrumai_newer(sheet, sheet_len, sheet, sheet_len, &detail, &which, &length);
}

/* Whether they have the same bytes up to this many before the end. */
static int is_same(const uint8_t *first, size_t first_len, const uint8_t *second, size_t second_len, size_t but) {
  return first_len == second_len && first_len >= but && memcmp(first, second, first_len - but) == 0;
}

uint8_t __wrap_corrumai_newer(const uint8_t *first, size_t first_len, const uint8_t *second, size_t second_len, size_t *detail,
                              uint8_t *which, size_t *part_len) {
  const size_t old_detail = *detail, old_len = *part_len;
  const uint8_t old_which = *which;
  int same = is_same(first, first_len, second, second_len, 0);
#if FAULT == 104 /* a sheet of edition 1 is read as the first */
  first = by_default(first, &first_len);
#endif
  uint8_t number = __real_corrumai_newer(first, first_len, second, second_len, detail, which, part_len);
  /* The sheets have other revisions. */
  int differ = number == 0 && revision_of(first) != revision_of(second);
#if FAULT == 105 /* the second of two equal sheets is handed back */
  if (number == 0 && same) *which = 1;
#elif FAULT == 106 /* the sheet of the lower revision is handed back */
  if (differ) *which ^= 1, *part_len = *which ? second_len : first_len;
#elif FAULT == 107 /* revisions are read big-endian */
  if (differ) *which = big_endian_of(first) < big_endian_of(second), *part_len = *which ? second_len : first_len;
#elif FAULT == 108 /* revisions are signed */
  if (differ) *which = (int16_t)revision_of(first) < (int16_t)revision_of(second), *part_len = *which ? second_len : first_len;
#elif FAULT == 109 /* the second sheet is tested first */
  if (fault_of(second, second_len) != 0) number = fault_of(second, second_len);
#elif FAULT == 110 /* equal sheets that are ill formed are handed back */
  if (number != 0 && same) number = 0, *part_len = first_len;
#elif FAULT == 111 /* 56 is told before the form of a second sheet of the same revision */
  if (number > 10 && number != 56 && fault_of(first, first_len) == 0 && second_len > REVISION_AT + 1 &&
      revision_of(first) == revision_of(second))
    number = 56;
#elif FAULT == 112 /* with 56 the part is the first sheet */
  if (number == 56) *part_len = first_len;
#elif FAULT == 113 /* the part lacks its last byte */
  if (number == 0) *part_len -= 1;
#elif FAULT == 114 /* with a refusal the length is not stored */
  if (number != 0) *part_len = old_len;
#elif FAULT == 115 /* which is not stored, where the second counts */
  if (number == 0 && *which == 1) *which = old_which;
#elif FAULT == 116 /* with 56 the detail is not stored */
  if (number == 56) *detail = old_detail;
#elif FAULT == 117 /* the last byte is not compared */
  if (number == 56 && is_same(first, first_len, second, second_len, 1)) number = 0, *part_len = first_len;
#elif FAULT == 118 /* gap byte 0 is the same as gap byte 2 */
  if (number == 56 && is_same(with_gap(first, first_len, 0, 2), first_len, second, second_len, 0)) number = 0, *part_len = first_len;
#elif FAULT == 119 /* the byte behind the second sheet is read */
  volatile uint8_t behind = second[second_len];
  (void)behind;
#elif FAULT == 120 /* a byte of the second sheet is changed with 56 */
  if (number == 56) ((uint8_t *)second)[second_len - 1] ^= 1;
#elif FAULT == 121 /* what stands behind which is written */
  which[1] ^= 1;
#elif FAULT == 122 /* a sheet handed in twice, from one place, gets 56 */
  if (number == 0 && first == second) number = 56, *part_len = 0;
#endif
  (void)same, (void)differ, (void)old_detail, (void)old_len, (void)old_which;
  return number;
}

uint8_t __wrap_corrumai_judge(const uint8_t *sheet, size_t sheet_len, const uint8_t *list, size_t list_len, size_t *detail) {
#if FAULT == 1 /* the judge takes gap byte 0 for one tick */
  sheet = with_gap(sheet, sheet_len, 0, 1);
#elif FAULT == 2 /* the judge takes the default for the gap of edition 1 */
  sheet = by_default(sheet, &sheet_len);
#elif FAULT == 33 /* the judge asks another for one tick, whatever the gap */
  sheet = with_one_tick(sheet, sheet_len);
#elif FAULT == 34 /* the judge asks another for a tick more than the gap */
  sheet = with_longer_gap(sheet, sheet_len);
#elif FAULT == 39 /* the judge goes by the first row of a pair */
  sheet = with_lookup(sheet, &sheet_len, FIRST);
#elif FAULT == 40 /* the judge goes by the last row of a pair */
  sheet = with_lookup(sheet, &sheet_len, LAST);
#elif FAULT == 41 /* the judge takes the greatest high of a pair */
  sheet = with_lookup(sheet, &sheet_len, GREATEST_HIGH);
#elif FAULT == 42 /* for the judge a pair may come back */
  sheet = gathered(sheet, &sheet_len);
#endif
  uint8_t number = __real_corrumai_judge(sheet, sheet_len, list, list_len, detail);
#if FAULT == 3 /* a list of one entry that is not a plan is called one */
  if (number == 41 && list[2] == 1) number = 0;
#elif FAULT == 4 /* the detail of a list of bad form is not stored */
  if (number == 40) *detail = 1;
#elif FAULT == 5 /* the byte behind the list is read */
  volatile uint8_t behind = list[list_len];
  (void)behind;
#elif FAULT == 35 /* the judge asks an own clear for the gap */
  if (number == 0 && clears_soon(sheet, list)) number = 41;
#elif FAULT == 36 /* two entries of one job are a plan where each alone is one */
  if (number == 41 && plans_alone(sheet, sheet_len, list, list_len)) number = 0;
#elif FAULT == 43 /* the judge takes rows that cross for a fault of form */
  if (has_several(sheet, sheet_len, 1)) number = 14;
#elif FAULT == 44 /* for the judge an event may stand twice */
  if (number == 13)
    for (size_t at = two_bytes(sheet + 16); at + 6 <= two_bytes(sheet + 22); at += 3)
      if (memcmp(sheet + at, sheet + at + 3, 3) == 0) number = 40;
#endif
  return number;
}

uint8_t __wrap_corrumai_plan(const uint8_t *sheet, size_t sheet_len, uint8_t *buffer, size_t buffer_len, size_t *detail) {
#if FAULT == 6 /* the planner takes gap byte 0 for one tick */
  sheet = with_gap(sheet, sheet_len, 0, 1);
#elif FAULT == 7 /* the planner takes the default for the gap of edition 1 */
  sheet = by_default(sheet, &sheet_len);
#elif FAULT == 8 /* the planner takes gap byte 1 for the default */
  sheet = with_gap(sheet, sheet_len, 1, 0);
#elif FAULT == 37 /* the planner asks another for one tick, whatever the gap */
  sheet = with_one_tick(sheet, sheet_len);
#elif FAULT == 38 /* the planner asks another for a tick more than the gap */
  sheet = with_longer_gap(sheet, sheet_len);
#elif FAULT == 45 /* the planner goes by the first row of a pair */
  sheet = with_lookup(sheet, &sheet_len, FIRST);
#elif FAULT == 46 /* the planner goes by the last row of a pair */
  sheet = with_lookup(sheet, &sheet_len, LAST);
#elif FAULT == 47 /* the planner stops one row early */
  sheet = with_lookup(sheet, &sheet_len, ALL_BUT_LAST);
#elif FAULT == 48 /* for the planner a none loosens */
  sheet = with_lookup(sheet, &sheet_len, NONE_LOOSENS);
#elif FAULT == 49 /* the planner takes the least low of a pair */
  sheet = with_lookup(sheet, &sheet_len, LEAST_LOW);
#elif FAULT == 50 /* the planner takes (d, e) behind (e, d) for the same pair */
  sheet = turned(sheet, sheet_len);
#endif
  uint8_t number = __real_corrumai_plan(sheet, sheet_len, buffer, buffer_len, detail);
#if FAULT == 9 /* the third class rule is reported as the second */
  if (number == 22) number = 21;
#elif FAULT == 10 /* the fact of a broken class rule is one too high */
  if (number == 21) *detail += 1;
#elif FAULT == 11 /* the last tick of a long list is one too late */
  if (number == 0 && *detail > 100) buffer[*detail - 2] += 1;
#elif FAULT == 12 /* a byte behind the list is cleared */
  if (number == 0 && *detail < buffer_len) buffer[*detail] = 0;
#elif FAULT == 13 /* where the list does not fit, its first byte is written */
  if (number == 30 && buffer_len > 0) buffer[0] = 1;
#elif FAULT == 14 /* the byte before the buffer is written, where there is no plan */
  if (number == 1) buffer[-1] ^= 1;
#elif FAULT == 15 /* the length needed is one too great */
  if (number == 30) *detail += 1;
#elif FAULT == 16 /* no plan, where job 20 of P1 would have to start on tick 6 of a horizon of 9 */
  if (number == 0 && *detail == 24 && sheet[27] == 9) number = 1;
#elif FAULT == 17 /* a byte of the sheet is changed, where the second class rule is broken */
  if (number == 21) ((uint8_t *)sheet)[sheet_len - 1] ^= 1;
#elif FAULT == 18 /* no plan, where a list of seven entries ends on the last tick of the horizon */
  size_t at = number == 0 && buffer[2] == 7 ? 4 + 4 * 7 : *detail;
  for (; number == 0 && at < *detail; at += 2)
    if (buffer[at] == sheet[27] && buffer[at + 1] == sheet[28]) number = 1;
  if (number == 1) *detail = 0;
#elif FAULT == 19 /* no plan, where two jobs are absent */
  size_t lowest;
  if (number == 0 && absent_jobs(sheet, sheet_len, 0, &lowest) == 2) number = 1, *detail = 0;
#elif FAULT == 20 /* the third class rule is passed over for facts from 40 on */
  if (number == 22 && *detail >= 40) number = 1, *detail = 0;
#elif FAULT == 21 /* no plan, where an edition 2 sheet has a gap of 5 and a list of two entries */
  if (number == 0 && sheet[0] == 2 && sheet[GAP_AT] == 5 && buffer[2] == 2) number = 1, *detail = 0;
#elif FAULT == 22 /* in edition 2 an absent job gets 15 where there is a plan */
  size_t lowest;
  if (number == 0 && sheet[0] == 2 && absent_jobs(sheet, sheet_len, 0, &lowest) > 0) number = 15, *detail = lowest;
#elif FAULT == 51 /* the planner takes rows that cross for a fault of form */
  if (has_several(sheet, sheet_len, 1)) number = 14, *detail = 0;
#elif FAULT == 52 /* no plan, where rows cross */
  if (number == 0 && has_several(sheet, sheet_len, 1)) number = 1, *detail = 0;
#elif FAULT == 55 /* 15 is given again */
  size_t lowest;
  if (absent_jobs(sheet, sheet_len, 0, &lowest) > 0) number = 15, *detail = lowest;
#elif FAULT == 56 /* no plan, where a job is absent */
  size_t lowest;
  if (number == 0 && absent_jobs(sheet, sheet_len, 0, &lowest) > 0) number = 1, *detail = 0;
#elif FAULT == 57 /* no plan, where one job is absent with a tick less and none else */
  size_t lowest;
  if (number == 0 && absent_jobs(sheet, sheet_len, 0, &lowest) == 0 && absent_jobs(sheet, sheet_len, 1, &lowest) == 1) number = 1, *detail = 0;
#elif FAULT == 58 /* the first class rule gets another fact, where a job is absent */
  size_t lowest;
  if (number == 20 && absent_jobs(sheet, sheet_len, 0, &lowest) > 0) *detail += 1;
#endif
  return number;
}

uint8_t __wrap_corrumai_to_edition2(const uint8_t *sheet, size_t sheet_len, uint8_t *buffer, size_t buffer_len, size_t *detail) {
  uint8_t number = __real_corrumai_to_edition2(sheet, sheet_len, buffer, buffer_len, detail);
#if FAULT == 23 /* gap byte 0 is written */
  if (number == 0) buffer[GAP_AT] = 0;
#elif FAULT == 24 /* gap byte 2 is written */
  if (number == 0) buffer[GAP_AT] = 2;
#elif FAULT == 25 /* a sheet of edition 2 without a facts body gets 11 */
  if (number == 10 && sheet_len > 26 && sheet[0] == 2 && sheet[6] == 0) number = 11;
#elif FAULT == 26 /* the length of a sheet with 31 jobs is two bytes too small */
  if (number == 30 && sheet[12] == 62 && sheet[13] == 0) *detail -= 2;
#elif FAULT == 53 /* on the way there two rows of a pair change places */
  if (number == 0) reorder(buffer, *detail);
#endif
  return number;
}

uint8_t __wrap_corrumai_to_edition1(const uint8_t *sheet, size_t sheet_len, uint8_t *buffer, size_t buffer_len, size_t *detail) {
#if FAULT == 27 /* gap byte 0 goes back */
  sheet = with_gap(sheet, sheet_len, 0, 1);
#elif FAULT == 28 /* gap byte 2 goes back */
  sheet = with_gap(sheet, sheet_len, 2, 1);
#elif FAULT == 29 /* ticks are compared: those of the default go back, gap byte 1 does not */
  const uint8_t *other = with_gap(sheet, sheet_len, 1, 60);
  if (other == sheet) other = with_gap(sheet, sheet_len, 0, 1);
  if (other == sheet) other = with_gap(sheet, sheet_len, 2, 1);
  sheet = other;
#endif
  uint8_t number = __real_corrumai_to_edition1(sheet, sheet_len, buffer, buffer_len, detail);
#if FAULT == 30 /* where there is no room, revision 256 gets 30 */
  if (number == 50 && sheet[30] == 0 && sheet[31] == 1 && buffer_len == 0) number = 30;
#elif FAULT == 31 /* with 50 a byte is written */
  if (number == 50 && buffer_len > 0) buffer[buffer_len - 1] ^= 1;
#elif FAULT == 32 /* the last byte of the marks is lost */
  if (number == 0 && sheet[26] > 0) buffer[28 + sheet[26]] = 0;
#elif FAULT == 54 /* on the way back a repeated pair gets 14 */
  if ((number == 0 || number == 30) && has_several(sheet, sheet_len, 0)) number = 14, *detail = 0;
#endif
  return number;
}
