// Measures the functions of crates/ripemd_c in one process with those of other libraries, whichever
// the machine has, and prints tables in Markdown on standard output. libraries.c calls them.
//   linked LEVEL=FILE.so..      ours, as built for some levels of processors
// A function is timed only after its digests were compared with a published one and, at many
// lengths, with ours, its tags with a published one, and its keys with one of tests/data/keys.txt and with
// ours. A figure is the best of many slices of some 10 ms, in the thread's processor time. The
// libraries take turns, and the rounds are outermost: a disturbance of seconds spoils a round of all
// figures, not all rounds of one. There are more rounds while figures still fall. Below each table
// stands how far its ratios were apart in single rounds: little, where the machine was quiet.
#include "libraries.h"
#include <alloca.h>
#include <stdio.h>
#include <stdlib.h>
#include <string.h>
#include <time.h>

enum { ROUNDS = 8, MOST_ROUNDS = 40, SLICES = 6, VARIANTS = 4, MIB = 1 << 20 };

static const int SIZES[VARIANTS] = {16, 20, 32, 40};

// What the authors published.
static const char MESSAGE[] = "abcdbcdecdefdefgefghfghighijhijkijkljklmklmnlmnomnopnopq";
static const char *const DIGESTS[VARIANTS] = {
    "a1aa0689d0fafa2ddc22e88b49133a06",
    "12a053384a9c0c88e405a06c27dcf49ada62eb2b",
    "3843045583aac6c8c8d9128573e7a9809afb2a0f34ccc36ea9e72f16f6368e3f",
    "d034a7950cf722021ba4b84df769a5de2060e259df4c9bb4a4268c0e935bbc7470a969c9d072a1ac",
};

// What is measured: messages of one size that lie one after another, and their digests or, under one
// key, their tags.
static const struct task {
  const char *title;
  size_t size, count;
  int in_ns, keyed;
} TASKS[] = {
    {"One message of 1 MiB, MB/s", MIB, 1, 0, 0},
    {"One message of 32 bytes, ns", 32, 1, 1, 0},
    {"128 messages of 4 KiB, ours at once, MB/s", 4096, 128, 0, 0},
    {"8,192 messages of 32 bytes, ours at once, ns for each", 32, 8192, 1, 0},
    {"8,192 texts of 32 bytes under one key, ours at once, ns for each tag", 32, 8192, 1, 1},
};
enum { TASKS_COUNT = sizeof TASKS / sizeof TASKS[0] };

// Pieces of a message, each taken in by one call; then the call that begins a message, and that with
// the one that ends it.
static const struct {
  const char *name;
  size_t size;
} PIECES[] = {{"1 byte", 1},          {"8 bytes", 8},   {"16 bytes", 16},
              {"32 bytes", 32},       {"64 bytes", 64}, {"4,096 bytes", 4096},
              {"1 MiB", MIB}};
enum {
  PIECES_COUNT = sizeof PIECES / sizeof PIECES[0],
  INIT = PIECES_COUNT,
  INIT_AND_FINAL,
  CALLS_COUNT
};

// Keys of one length from passwords of 8 bytes, each with a salt of 8 bytes, by so many rounds of
// PBKDF2.
enum { KEY_ROUNDS = 2000, PASSWORDS = 8, PASSWORD = 8 };
static const struct {
  size_t length, count;
} KEYS[] = {{20, 1}, {64, 1}, {192, 1}, {20, PASSWORDS}};
enum { KEYS_COUNT = sizeof KEYS / sizeof KEYS[0] };

// The key by 3 rounds in tests/data/keys.txt, from the bytes 1 to 8 with the salt 0 to 7.
static const char DERIVED[] =
    "95948057310ca113412571efb203bbeedcc2555d24d45a8c3cd021a6f714a324fcfa312ef638b48ac59b1e5a0becf0"
    "9f5191a002478e944bc587eb85313e628d26cca0";
enum { DERIVED_SIZE = sizeof DERIVED / 2 };

// The tag that RFC 2286 publishes for "Hi There" under the key, by RIPEMD-160.
static const char TEXT[] = "Hi There";
static const char TAG[] = "24cb4bd67d20fc1a5d2ed7732dcc39377f0a5668";

// What is timed: each task by each variant, each call of pieces, and each key.
enum {
  PIECE_CELLS = TASKS_COUNT * VARIANTS,
  KEY_CELLS = PIECE_CELLS + CALLS_COUNT,
  CELLS = KEY_CELLS + KEYS_COUNT
};

// How long each library took for it.
static struct time {
  double least, in_round;     // seconds, of all rounds and of this one
  double ratios[MOST_ROUNDS]; // to the fastest of the others, of ours, in single rounds
} times[MOST][CELLS];

static uint8_t bytes[MIB], digests[8192 * 40];
static struct iovec passwords[PASSWORDS], salts[PASSWORDS];
static void perform(const struct library *by, int v, const struct task *task) {
  size_t length = task->count * task->size, size = SIZES[v], all = task->count * size;
  if (task->keyed && by->tag_each)
    by->tag_each(8 * size, key, sizeof key, bytes, length, task->size, digests, all);
  else if (!task->keyed && by->each && task->count > 1)
    by->each(8 * size, bytes, length, task->size, digests, all);
  else
    for (size_t i = 0; i < task->count; i++)
      if (task->keyed)
        by->tag(bytes + i * task->size, task->size, digests + i * size);
      else
        by->digest(8 * size, bytes + i * task->size, task->size, digests + i * size, size);
}

// Whether the library has a function for it.
static int has(const struct library *by, int v, const struct task *task) {
  return (by->all || v == 1) && (task->keyed ? by->tag || by->tag_each : by->digest != NULL);
}

// Whether bytes are those that stand there in hexadecimal.
static bool is_hex_of(const uint8_t *found, const char *digits, size_t size) {
  uint8_t byte = 0;
  for (size_t i = 0; i < size; i++)
    if (sscanf(digits + 2 * i, "%2hhx", &byte) != 1 || byte != found[i])
      return false;
  return true;
}

static void check_tag(const struct library *by) {
  uint8_t tag[20];
  for (int again = 0; again < 2; again++) {
    if (by->tag_each)
      by->tag_each(160, key, sizeof key, (const uint8_t *)TEXT, strlen(TEXT), strlen(TEXT), tag,
                   20);
    else
      by->tag((const uint8_t *)TEXT, strlen(TEXT), tag);
    if (!is_hex_of(tag, TAG, 20))
      fail(by->name, "a wrong tag");
  }
}

static void check(const struct library *by, int v) {
  const int size = SIZES[v], bits = 8 * size;
  uint8_t digest[40], wanted[40];
  by->digest(bits, (const uint8_t *)MESSAGE, strlen(MESSAGE), digest, size);
  int wrong = !is_hex_of(digest, DIGESTS[v], size);
  for (size_t length = 0; length < 300; length++) {
    by->digest(bits, bytes + length, length, digest, size);
    libraries[0].digest(bits, bytes + length, length, wanted, size);
    wrong |= memcmp(digest, wanted, size);
  }
  for (int t = 0; t < TASKS_COUNT; t++) {
    if (TASKS[t].keyed)
      continue;
    memset(digests, 0, sizeof digests);
    perform(by, v, &TASKS[t]);
    for (size_t i = 0; i < TASKS[t].count; i++) {
      libraries[0].digest(bits, bytes + i * TASKS[t].size, TASKS[t].size, wanted, size);
      wrong |= memcmp(digests + i * size, wanted, size);
    }
  }
  if (wrong)
    fail(by->name, "a wrong digest");
}

// The published message, byte by byte.
static void check_pieces(const struct library *by) {
  uint8_t digest[20];
  for (int again = 0; again < 2; again++) {
    by->inits(by, 1);
    for (const char *at = MESSAGE; *at; at++)
      by->updates(by, (const uint8_t *)at, 1, 1);
    by->finals(by, digest, 1);
    if (!is_hex_of(digest, DIGESTS[1], 20))
      fail(by->name, "a wrong digest of pieces");
  }
}

static void derive(const struct library *by, int k) {
  size_t length = KEYS[k].length, n = KEYS[k].count;
  if (by->derive_list && n > 1)
    by->derive_list(160, passwords, n, salts, n, KEY_ROUNDS, length, digests, n * length);
  else
    for (size_t i = 0; i < n; i++)
      by->derive(160, passwords[i].iov_base, PASSWORD, salts[i].iov_base, PASSWORD, KEY_ROUNDS,
                 digests + i * length, length);
}

static void check_keys(const struct library *by) {
  uint8_t password[PASSWORD], salt[PASSWORD], derived[DERIVED_SIZE], wanted[192];
  for (int i = 0; i < PASSWORD; i++)
    password[i] = i + 1, salt[i] = i;
  int wrong = !by->derive(160, password, PASSWORD, salt, PASSWORD, 3, derived, DERIVED_SIZE) ||
              !is_hex_of(derived, DERIVED, DERIVED_SIZE);
  for (int k = 0; k < KEYS_COUNT; k++) {
    size_t length = KEYS[k].length;
    memset(digests, 0, sizeof digests);
    derive(by, k);
    for (size_t i = 0; i < KEYS[k].count; i++) {
      libraries[0].derive(160, passwords[i].iov_base, PASSWORD, salts[i].iov_base, PASSWORD,
                          KEY_ROUNDS, wanted, length);
      wrong |= memcmp(digests + i * length, wanted, length);
    }
  }
  if (wrong)
    fail(by->name, "a wrong key");
}

static double now(void) {
  struct timespec time;
  clock_gettime(CLOCK_THREAD_CPUTIME_ID, &time);
  return time.tv_sec + 1e-9 * time.tv_nsec;
}

// Whether a library has what a cell times.
static bool has_cell(const struct library *by, int cell) {
  return cell < PIECE_CELLS ? has(by, cell % VARIANTS, &TASKS[cell / VARIANTS])
         : cell < KEY_CELLS ? by->updates != NULL
                            : by->derive != NULL;
}

// Does so often what a cell times, in a loop for its kind. The first message of each call begins with
// bytes of the last digest, so no call runs ahead.
static void repeat(const struct library *by, int cell, int times) {
  int c = cell - PIECE_CELLS;
  if (c < 0)
    for (int i = 0; i < times; i++) {
      perform(by, cell % VARIANTS, &TASKS[cell / VARIANTS]);
      memcpy(bytes, digests, 8);
    }
  else if (c < PIECES_COUNT)
    by->updates(by, bytes, PIECES[c].size, times);
  else if (c == INIT)
    by->inits(by, times);
  else if (c == INIT_AND_FINAL)
    by->finals(by, digests, times);
  else
    for (int i = 0; i < times; i++) {
      derive(by, cell - KEY_CELLS);
      memcpy(bytes, digests, PASSWORD);
    }
}

// How often before the clock is read again: after some 4,096 blocks.
static int batch_of(int cell) {
  if (cell >= KEY_CELLS)
    return 1;
  int c = cell - PIECE_CELLS;
  const struct task *task = &TASKS[c < 0 ? cell / VARIANTS : 0];
  size_t blocks = c < 0                ? task->count * (task->size / 64 + 1)
                  : c < PIECES_COUNT ? PIECES[c].size / 64 + 1
                                       : 4;
  return 4096 / blocks + 1;
}

static bool fell; // whether a figure fell in this round by half a percent or more

static void measure(int l, int cell) {
  const struct library *by = &libraries[l];
  struct time *time = &times[l][cell];
  int batch = batch_of(cell);
  time->in_round = 0;
  if (cell >= PIECE_CELLS && cell < KEY_CELLS)
    by->inits(by, 1);
  for (int s = 0; s < SLICES; s++) {
    double start = now(), taken;
    int calls = 0;
    do {
      repeat(by, cell, batch);
      calls += batch;
      taken = now() - start;
    } while (taken < 0.01);
    if (!time->in_round || taken / calls < time->in_round)
      time->in_round = taken / calls;
  }
  fell |= !time->least || time->in_round < 0.995 * time->least;
  if (!time->least || time->in_round < time->least)
    time->least = time->in_round;
}

// The time of the fastest of the others, divided by that of one of ours; 0 if there is none. Of this
// round, or of all.
static double ratio(int l, int cell, bool of_round) {
  double least = 0;
  for (int other = ours; other < count; other++) {
    const struct time *time = &times[other][cell];
    double theirs = of_round ? time->in_round : time->least;
    least = theirs && (!least || theirs < least) ? theirs : least;
  }
  const struct time *time = &times[l][cell];
  return least / (of_round ? time->in_round : time->least);
}

// Measures all cells, the libraries in turn. In each round the stack lies elsewhere within 4 KiB: a
// load waits for an earlier store whose address is equal modulo 4 KiB, and where the stack begins is a
// matter of how the program was started.
static void measure_all(int round) {
  *(volatile char *)alloca(1 + 64 * (11 * round % 64)) = 0;
  for (int cell = 0; cell < CELLS; cell++) {
    for (int l = 0; l < count; l++)
      if (has_cell(&libraries[l], cell))
        measure(l, cell);
    for (int l = 0; l < ours; l++)
      times[l][cell].ratios[round] = ratio(l, cell, true);
  }
}

static int by_size(const void *one, const void *other) {
  double difference = *(const double *)one - *(const double *)other;
  return difference < 0 ? -1 : difference > 0;
}

// How far apart the ratios of one cell were in single rounds, at most: in all rounds, and in the half
// of them that is in the middle.
static void print_spread(int first, int cells, int rounds) {
  double all = 1, middle = 1;
  for (int l = 0; l < ours; l++)
    for (int cell = first; cell < first + cells; cell++) {
      double *ratios = times[l][cell].ratios;
      qsort(ratios, rounds, sizeof *ratios, by_size);
      if (!ratios[0])
        continue; // no other library has it
      double most = ratios[rounds - 1] / ratios[0];
      double half = ratios[rounds - 1 - rounds / 4] / ratios[rounds / 4];
      all = most > all ? most : all;
      middle = half > middle ? half : middle;
    }
  printf("\nA ratio was up to %.0f %% apart in %d rounds, up to %.0f %% in the middle half of them.\n",
         100 * (all - 1), rounds, 100 * (middle - 1));
}

// Of a task the MB of a second, or the ns for each message; of pieces the ns for each call; of keys
// the thousands of rounds of a second.
static double figure(int cell, double taken) {
  if (cell >= KEY_CELLS)
    return KEYS[cell - KEY_CELLS].count * KEY_ROUNDS / taken / 1e3;
  if (cell >= PIECE_CELLS)
    return 1e9 * taken;
  const struct task *task = &TASKS[cell / VARIANTS];
  return task->in_ns ? 1e9 * taken / task->count : task->size * task->count / taken / 1e6;
}

// A row for each library, with the ratio to the fastest of the others behind each figure of ours.
static void print_rows(int first, int cells, int rounds) {
  for (int l = 0; l < count; l++) {
    bool any = false;
    for (int cell = first; cell < first + cells; cell++)
      any |= has_cell(&libraries[l], cell);
    if (!any)
      continue;
    printf("| %s |", libraries[l].name);
    for (int cell = first; cell < first + cells; cell++) {
      const double taken = times[l][cell].least;
      const double part = taken && l < ours ? ratio(l, cell, false) : 0;
      if (taken)
        printf(cell >= PIECE_CELLS && taken < 1e-7 ? " %.1f" : " %.0f", figure(cell, taken));
      if (part)
        printf(" (%.2f)", part);
      printf(" |");
    }
    printf("\n");
  }
  print_spread(first, cells, rounds);
}

int main(int argc, char **argv) {
  for (int i = 0; i < MIB; i++)
    bytes[i] = i * 7 + (i >> 8);
  for (int i = 0; i < PASSWORDS; i++) {
    passwords[i] = (struct iovec){bytes + i * PASSWORD, PASSWORD};
    salts[i] = (struct iovec){bytes + (PASSWORDS + i) * PASSWORD, PASSWORD};
  }
  add_libraries(argv + 1);
  for (const struct library *by = libraries; by < libraries + count; by++) {
    for (int v = 0; v < VARIANTS; v++)
      if (has(by, v, &TASKS[0]))
        check(by, v);
    if (by->tag || by->tag_each)
      check_tag(by);
    if (by->updates)
      check_pieces(by);
    if (by->derive)
      check_keys(by);
  }
  int round = 0;
  for (int still = 0; round < MOST_ROUNDS && (round < ROUNDS || still < 3); round++) {
    fell = false;
    measure_all(round);
    still = fell ? 0 : still + 1;
  }
  for (int t = 0; t < TASKS_COUNT; t++) {
    printf("\n%s:\n\n| | 128 | 160 | 256 | 320 |\n|---|---|---|---|---|\n", TASKS[t].title);
    print_rows(t * VARIANTS, VARIANTS, round);
  }
  printf("\nMessages in pieces, RIPEMD-160, ns for each call:\n\n|");
  for (int c = 0; c < PIECES_COUNT; c++)
    printf(" | update, %s", PIECES[c].name);
  printf(" | init | init and final |\n|---|---|---|---|---|---|---|---|---|---|\n");
  print_rows(PIECE_CELLS, CALLS_COUNT, round);
  printf("\nKeys from passwords, PBKDF2 with HMAC and RIPEMD-160, thousands of rounds a second:\n\n"
         "| | 20 bytes | 64 bytes | 192 bytes | eight of 20 bytes, ours at once |\n"
         "|---|---|---|---|---|\n");
  print_rows(KEY_CELLS, KEYS_COUNT, round);
}
