/* Holds the library to what include/corrumai.h says of pointers, lengths and threads. border SHEET..: prints how many calls went well. */
#define _GNU_SOURCE
#include "corrumai.h"
#include <pthread.h>
#include <stdio.h>
#include <stdlib.h>
#include <string.h>
#include <sys/mman.h>

enum { PAGE = 4096, PAGES = 2, ROOM = PAGE * PAGES, THREADS = 4, ROUNDS = 50 };

static size_t good;

#define CHECK(holds) \
  do { \
    if (!(holds)) { fprintf(stderr, "border: line %d: %s\n", __LINE__, #holds); exit(1); } \
    good++; \
  } while (0)

/* Room between two pages that cannot be touched. */
static uint8_t *guarded(void) {
  uint8_t *all = mmap(NULL, ROOM + 2 * PAGE, PROT_NONE, MAP_PRIVATE | MAP_ANONYMOUS, -1, 0);
  if (all == MAP_FAILED || mprotect(all + PAGE, ROOM, PROT_READ | PROT_WRITE)) { perror("border"); exit(2); }
  return all + PAGE;
}

typedef uint8_t writer(const uint8_t *, size_t, uint8_t *, size_t, size_t *);

/* The functions that write into a buffer, and the most that each writes. */
static writer *const writers[] = {corrumai_plan, corrumai_to_edition2, corrumai_to_edition1};
enum { TO_EDITION1 = 2, WRITERS, MOST = CORRUMAI_LONGEST_SHEET };

/* Where a sheet of edition 2 says its horizon and its revision. */
enum { GAP = 29, REVISION = 30 };

/* What a writer gave for a sheet. */
struct written {
  uint8_t bytes[MOST], number;
  size_t detail, length;
};

/* What late starts gave for a sheet and its list, and one move of a state. */
struct tried {
  uint16_t delays[CORRUMAI_MOST_INSTANCES];
  size_t length, detail;
  uint8_t late, fresh, move;
  uint64_t held;
  corrumai_run moved;
};

/* What a sheet's list costs at these rates. */
struct billed {
  uint32_t rates[CORRUMAI_MOST_JOBS];
  size_t length;
  uint8_t number;
  uint64_t cents, sixtieths;
};

struct sheet {
  uint8_t bytes[ROOM];
  size_t length;
  struct written written[WRITERS];
  uint8_t verdict;
  struct tried tried;
  struct billed billed;
};

/* The state that is moved, and one that is handed in where it must stay; all bits of a state are told apart. */
static const corrumai_run moving = {5, 0xF000000000000001}, staying = {0x123456789ABCDEF0, 0xFEDCBA9876543210};

static int same(corrumai_run one, corrumai_run other) { return one.next == other.next && one.held == other.held; }

/* Every third instance of the sheet's plan is a minute late. */
static void try_late(const struct sheet *sheet, struct tried *tried) {
  const struct written *list = &sheet->written[0];
  memset(tried, 0, sizeof *tried);
  tried->length = list->length ? list->bytes[2] : 0;
  for (size_t place = 0; place < tried->length; place++) tried->delays[place] = place % 3 == 2;
  tried->moved = moving;
  tried->late = corrumai_late(sheet->bytes, sheet->length, list->bytes, list->length, tried->delays, tried->length, &tried->detail);
  tried->fresh = corrumai_fresh(sheet->bytes, sheet->length, &tried->held);
  tried->move = corrumai_move_on(sheet->bytes, sheet->length, list->bytes, list->length, tried->delays, tried->length, &tried->moved);
}

/* The sheet's plan at another rate for each job. */
static void bill(const struct sheet *sheet, struct billed *billed) {
  const struct written *list = &sheet->written[0];
  memset(billed, 0, sizeof *billed);
  /* The jobs body by its length in the contents: two bytes for each job, in edition 2 four. */
  size_t jobs = (sheet->bytes[12] + 256u * sheet->bytes[13]) / (sheet->bytes[0] == 1 ? 2 : 4);
  billed->length = jobs <= CORRUMAI_MOST_JOBS ? jobs : 0;
  for (size_t place = 0; place < billed->length; place++) billed->rates[place] = CORRUMAI_MOST_RATE - 10007 * (uint32_t)place;
  billed->number = corrumai_cost(sheet->bytes, sheet->length, list->bytes, list->length, billed->rates, billed->length, &billed->cents,
                                 &billed->sixtieths);
}

/* The number of what is no sheet of edition 2, or 0: to_edition1 takes the same sheets. */
static uint8_t fault(const struct sheet *sheet) {
  uint8_t number = sheet->written[TO_EDITION1].number;
  return number >= CORRUMAI_BAD_CONTENTS && number <= CORRUMAI_BAD_BOUNDS ? number : CORRUMAI_DONE;
}

/* Two sheets, and what has to be handed back of them. */
struct pair {
  const uint8_t *first, *second;
  size_t first_len, second_len;
  uint8_t number, which;
  size_t part_len;
};

/* Whether that is handed back, between numbers that must stay. */
static int chosen(struct pair due) {
  struct { uint8_t before, which, after; } place = {1, 99, 2};
  struct { size_t before, detail, between, part_len, after; } kept = {3, 98, 4, 97, 5};
  uint8_t number = corrumai_newer(due.first, due.first_len, due.second, due.second_len, &kept.detail, &place.which, &kept.part_len);
  return number == due.number && kept.detail == 0 && place.which == due.which && kept.part_len == due.part_len &&
         place.before == 1 && place.after == 2 && kept.before == 3 && kept.between == 4 && kept.after == 5 &&
         corrumai_newer_part(due.first, due.second, place.which) == (due.which == 0 ? due.first : due.second);
}

/* Whether of the sheet and itself the first is handed back, or nothing. */
static int itself(const uint8_t *first, const uint8_t *second, const struct sheet *sheet) {
  uint8_t number = fault(sheet);
  return chosen((struct pair){first, second, sheet->length, sheet->length, number, 0, number == CORRUMAI_DONE ? sheet->length : 0});
}

static void load(const char *name, struct sheet *sheet) {
  FILE *file = fopen(name, "rb");
  if (!file) { perror(name); exit(2); }
  sheet->length = fread(sheet->bytes, 1, sizeof sheet->bytes, file);
  fclose(file);
  size_t detail;
  for (int place = 0; place < WRITERS; place++) {
    struct written *written = &sheet->written[place];
    written->number = writers[place](sheet->bytes, sheet->length, written->bytes, MOST, &written->detail);
    written->length = written->number == CORRUMAI_DONE ? written->detail : 0;
  }
  sheet->verdict = corrumai_judge(sheet->bytes, sheet->length, sheet->written[0].bytes, sheet->written[0].length, &detail);
  try_late(sheet, &sheet->tried);
  bill(sheet, &sheet->billed);
}

/* A pointer with length 0: null, and one that cannot be read. */
static void length_zero(const struct sheet *sheet, uint8_t *edge) {
  size_t detail = 99;
  uint8_t *none[] = {NULL, edge};
  for (int place = 0; place < 2; place++) {
    uint8_t *nothing = none[place], byte = 7, number;
    for (int way = 0; way < WRITERS; way++) {
      CHECK(writers[way](nothing, 0, nothing, 0, &detail) == CORRUMAI_BAD_CONTENTS && detail == 0);
      CHECK(writers[way](nothing, 0, &byte, 1, &detail) == CORRUMAI_BAD_CONTENTS && byte == 7);
      const struct written *due = &sheet->written[way];
      number = writers[way](sheet->bytes, sheet->length, nothing, 0, &detail);
      CHECK(number == (due->number == CORRUMAI_DONE ? CORRUMAI_BUFFER_TOO_SHORT : due->number));
      CHECK(detail == due->detail);
    }
    CHECK(corrumai_judge(nothing, 0, nothing, 0, &detail) == CORRUMAI_BAD_CONTENTS && detail == 0);
    CHECK(corrumai_judge(nothing, 0, &byte, 1, &detail) == CORRUMAI_BAD_CONTENTS);
    number = corrumai_judge(sheet->bytes, sheet->length, nothing, 0, &detail);
    uint8_t planned = sheet->written[0].number;
    int form = planned >= CORRUMAI_BAD_CONTENTS && planned <= CORRUMAI_BAD_BOUNDS;
    CHECK(number == (form ? planned : CORRUMAI_BAD_LIST) && detail == 0);
  }
}

/* The same for late starts, where the delays' pointer goes with a length too; with a refusal the state stays. */
static void nothing_late(const struct sheet *sheet, uint8_t *edge) {
  const struct written *list = &sheet->written[0];
  const struct tried *tried = &sheet->tried;
  void *none[] = {NULL, edge};
  for (int place = 0; place < 2; place++) {
    void *nothing = none[place];
    size_t detail = 99;
    uint64_t held = 7;
    corrumai_run run = staying;
    CHECK(corrumai_late(nothing, 0, nothing, 0, nothing, 0, &detail) == CORRUMAI_BAD_CONTENTS && detail == 0);
    CHECK(corrumai_fresh(nothing, 0, &held) == CORRUMAI_BAD_CONTENTS && held == 7);
    CHECK(corrumai_move_on(nothing, 0, nothing, 0, nothing, 0, &run) == CORRUMAI_BAD_CONTENTS && same(run, staying));
    uint8_t due = sheet->verdict == CORRUMAI_PLAN && tried->length > 0 ? CORRUMAI_BAD_LIST : tried->late;
    detail = 99;
    CHECK(corrumai_late(sheet->bytes, sheet->length, list->bytes, list->length, nothing, 0, &detail) == due);
    CHECK(detail == (due == tried->late ? tried->detail : 0));
    due = due == CORRUMAI_BAD_LIST ? due : tried->move;
    CHECK(corrumai_move_on(sheet->bytes, sheet->length, list->bytes, list->length, nothing, 0, &run) == due && same(run, staying));
  }
}

/* The same for what a list costs: both numbers are stored, whatever the answer. */
static void nothing_billed(const struct sheet *sheet, uint8_t *edge) {
  const struct written *list = &sheet->written[0];
  void *none[] = {NULL, edge};
  for (int place = 0; place < 2; place++) {
    void *nothing = none[place];
    uint64_t cents = 99, sixtieths = 98;
    CHECK(corrumai_cost(nothing, 0, nothing, 0, nothing, 0, &cents, &sixtieths) == CORRUMAI_BAD_CONTENTS);
    CHECK(cents == 0 && sixtieths == 0);
    uint8_t due = sheet->verdict == CORRUMAI_PLAN && sheet->billed.length > 0 ? CORRUMAI_BAD_RATES : sheet->billed.number;
    cents = sixtieths = 97;
    CHECK(corrumai_cost(sheet->bytes, sheet->length, list->bytes, list->length, nothing, 0, &cents, &sixtieths) == due);
    CHECK(cents == 0 && sixtieths == 0);
  }
}

/* The same for two sheets: what is stored is 0, whichever has no bytes. */
static void nothing_chosen(const struct sheet *sheet, uint8_t *edge) {
  uint8_t *none[] = {NULL, edge};
  uint8_t number = fault(sheet) == CORRUMAI_DONE ? CORRUMAI_BAD_CONTENTS : fault(sheet);
  for (int place = 0; place < 2; place++) {
    uint8_t *nothing = none[place];
    CHECK(chosen((struct pair){nothing, nothing, 0, 0, CORRUMAI_BAD_CONTENTS, 0, 0}));
    CHECK(chosen((struct pair){nothing, sheet->bytes, 0, sheet->length, CORRUMAI_BAD_CONTENTS, 0, 0}));
    CHECK(chosen((struct pair){sheet->bytes, nothing, sheet->length, 0, number, 0, 0}));
  }
}

/* What a writer writes, and leaves alone, in a buffer at this place of the room. */
static void write_at(const struct sheet *sheet, int way, const uint8_t *bytes, uint8_t *room, uint8_t *buffer) {
  const struct written *due = &sheet->written[way];
  size_t detail = 99, changed = 0;
  memset(room, 0x5A, ROOM);
  CHECK(writers[way](bytes, sheet->length, buffer, due->length, &detail) == due->number);
  CHECK(detail == due->detail && memcmp(buffer, due->bytes, due->length) == 0);
  for (size_t at = 0; at < ROOM; at++) changed += room + at < buffer || room + at >= buffer + due->length ? room[at] != 0x5A : 0;
  CHECK(changed == 0);
  if (due->length == 0) return;
  memset(room, 0x5A, ROOM);
  CHECK(writers[way](bytes, sheet->length, buffer, due->length - 1, &detail) == CORRUMAI_BUFFER_TOO_SHORT);
  for (size_t at = 0; at < ROOM; at++) changed += room[at] != 0x5A;
  CHECK(changed == 0 && detail == due->detail);
}

/* Sheet, list and buffer that end, or begin, where memory does. */
static void edges(const struct sheet *sheet, uint8_t *first, uint8_t *second) {
  const struct written *list = &sheet->written[0];
  for (int at_end = 0; at_end < 2; at_end++) {
    uint8_t *bytes = first + (at_end ? ROOM - sheet->length : 0);
    memcpy(bytes, sheet->bytes, sheet->length);
    for (int way = 0; way < WRITERS; way++) {
      write_at(sheet, way, bytes, second, second + (at_end ? ROOM - sheet->written[way].length : 0));
    }
    size_t detail = 99;
    uint8_t *there = second + (at_end ? ROOM - list->length : 0);
    memcpy(there, list->bytes, list->length);
    CHECK(corrumai_judge(bytes, sheet->length, there, list->length, &detail) == sheet->verdict && detail == 0);
  }
}

/* Late starts, with sheet, list and delays that end, or begin, where memory does, and numbers that must stay around the state. */
static void late_edges(const struct sheet *sheet, uint8_t *first, uint8_t *second, uint8_t *third) {
  const struct written *list = &sheet->written[0];
  const struct tried *tried = &sheet->tried;
  for (int at_end = 0; at_end < 2; at_end++) {
    size_t size = tried->length * sizeof tried->delays[0], detail = 99;
    uint8_t *bytes = memcpy(first + (at_end ? ROOM - sheet->length : 0), sheet->bytes, sheet->length);
    uint8_t *there = memcpy(second + (at_end ? ROOM - list->length : 0), list->bytes, list->length);
    uint16_t *delays = memcpy(third + (at_end ? ROOM - size : 0), tried->delays, size);
    CHECK(corrumai_late(bytes, sheet->length, there, list->length, delays, tried->length, &detail) == tried->late);
    CHECK(detail == tried->detail);
    struct { uint64_t before; corrumai_run run; uint64_t after; } kept = {1, moving, 2};
    CHECK(corrumai_move_on(bytes, sheet->length, there, list->length, delays, tried->length, &kept.run) == tried->move);
    CHECK(same(kept.run, tried->moved) && kept.before == 1 && kept.after == 2);
    uint64_t held[] = {3, tried->fresh == CORRUMAI_DONE ? ~tried->held : tried->held, 4};
    CHECK(corrumai_fresh(bytes, sheet->length, &held[1]) == tried->fresh);
    CHECK(held[0] == 3 && held[1] == tried->held && held[2] == 4);
    CHECK(memcmp(delays, tried->delays, size) == 0);
  }
}

/* What a list costs, with sheet, list and rates that end, or begin, where memory does, and numbers that must stay around the two; then
   with the last rate too high. */
static void cost_edges(const struct sheet *sheet, uint8_t *first, uint8_t *second, uint8_t *third) {
  const struct written *list = &sheet->written[0];
  const struct billed *billed = &sheet->billed;
  for (int at_end = 0; at_end < 2; at_end++) {
    size_t length = billed->length, size = length * sizeof billed->rates[0];
    uint8_t *bytes = memcpy(first + (at_end ? ROOM - sheet->length : 0), sheet->bytes, sheet->length);
    uint8_t *there = memcpy(second + (at_end ? ROOM - list->length : 0), list->bytes, list->length);
    uint32_t *rates = memcpy(third + (at_end ? ROOM - size : 0), billed->rates, size);
    struct { uint64_t before, cents, between, sixtieths, after; } kept = {1, 2, 3, 4, 5};
    CHECK(corrumai_cost(bytes, sheet->length, there, list->length, rates, length, &kept.cents, &kept.sixtieths) == billed->number);
    CHECK(kept.cents == billed->cents && kept.sixtieths == billed->sixtieths && memcmp(rates, billed->rates, size) == 0);
    if (length > 0 && sheet->verdict == CORRUMAI_PLAN) {
      rates[length - 1] = CORRUMAI_MOST_RATE + 1;
      CHECK(corrumai_cost(bytes, sheet->length, there, list->length, rates, length, &kept.cents, &kept.sixtieths) == CORRUMAI_BAD_RATES);
      CHECK(kept.cents == 0 && kept.sixtieths == 0);
    }
    CHECK(kept.before == 1 && kept.between == 3 && kept.after == 5);
  }
}

/* Two sheets that end, or begin, where memory does: the same bytes, one byte less, a higher revision, another horizon. */
static void newer_edges(const struct sheet *sheet, uint8_t *first, uint8_t *second) {
  size_t length = sheet->length;
  for (int at_end = 0; at_end < 2; at_end++) {
    uint8_t *one = memcpy(first + (at_end ? ROOM - length : 0), sheet->bytes, length);
    uint8_t *other = memcpy(second + (at_end ? ROOM - length : 0), sheet->bytes, length);
    CHECK(itself(one, other, sheet) && itself(one, one, sheet));
    CHECK(memcmp(one, sheet->bytes, length) == 0 && memcmp(other, sheet->bytes, length) == 0);
    if (fault(sheet) != CORRUMAI_DONE) continue;
    CHECK(chosen((struct pair){one, other, length, length - 1, CORRUMAI_BAD_CONTENTS, 0, 0}));
    CHECK(chosen((struct pair){one, other, length - 1, length, CORRUMAI_BAD_CONTENTS, 0, 0}));
    other[REVISION + 1]++;
    CHECK(chosen((struct pair){one, other, length, length, CORRUMAI_DONE, 1, length}));
    CHECK(chosen((struct pair){other, one, length, length, CORRUMAI_DONE, 0, length}));
    other[REVISION + 1]--;
    other[GAP] = one[GAP] == 1 ? 2 : 1;
    CHECK(chosen((struct pair){one, other, length, length, CORRUMAI_OTHER_BYTES, 0, 0}));
    CHECK(memcmp(one, sheet->bytes, length) == 0);
  }
}

/* Returns the sheet if each call went as the first one did, and null if not. */
static void *again(void *given) {
  struct sheet *sheet = given;
  uint8_t buffer[MOST];
  size_t detail;
  for (int round = 0; round < ROUNDS; round++) {
    for (int way = 0; way < WRITERS; way++) {
      const struct written *due = &sheet->written[way];
      uint8_t number = writers[way](sheet->bytes, sheet->length, buffer, MOST, &detail);
      if (number != due->number || detail != due->detail || memcmp(buffer, due->bytes, due->length)) return NULL;
    }
    const struct written *list = &sheet->written[0];
    if (corrumai_judge(sheet->bytes, sheet->length, list->bytes, list->length, &detail) != sheet->verdict) return NULL;
    struct tried tried;
    try_late(sheet, &tried);
    if (memcmp(&tried, &sheet->tried, sizeof tried)) return NULL;
    struct billed billed;
    bill(sheet, &billed);
    if (memcmp(&billed, &sheet->billed, sizeof billed)) return NULL;
    if (!itself(sheet->bytes, sheet->bytes, sheet)) return NULL;
  }
  return sheet;
}

/* Threads at once, each with a little more stack than the header names. */
static void threads(struct sheet *sheet) {
  pthread_t all[THREADS];
  pthread_attr_t attributes;
  pthread_attr_init(&attributes);
  pthread_attr_setstacksize(&attributes, CORRUMAI_STACK_PLAN + 64 * 1024);
  for (int place = 0; place < THREADS; place++) {
    if (pthread_create(&all[place], &attributes, again, sheet)) { perror("border"); exit(2); }
  }
  for (int place = 0; place < THREADS; place++) {
    void *well;
    pthread_join(all[place], &well);
    CHECK(well != NULL);
  }
}

int main(int count, char **words) {
  static struct sheet sheet;
  uint8_t *first = guarded(), *second = guarded(), *third = guarded();
  CHECK(strcmp(corrumai_version(), CORRUMAI_VERSION) == 0);
  for (int word = 1; word < count; word++) {
    memset(&sheet, 0, sizeof sheet);
    load(words[word], &sheet);
    length_zero(&sheet, first + ROOM);
    nothing_late(&sheet, first + ROOM);
    nothing_billed(&sheet, first + ROOM);
    nothing_chosen(&sheet, first + ROOM);
    edges(&sheet, first, second);
    late_edges(&sheet, first, second, third);
    cost_edges(&sheet, first, second, third);
    newer_edges(&sheet, first, second);
    threads(&sheet);
  }
  printf("%zu calls\n", good);
  return 0;
}
