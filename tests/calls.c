// Tries the functions of nattizhu.h as a caller in C has them, and as one in C++. All memory that
// is handed over lies against an unmapped page, first behind it and then in front of it, and what a
// call must not write is looked at. A pointer to no bytes is null, and then to such a page.
//   calls FILE [VARIANT]  of values, as conftest.py writes them; and 160, for example, to try one
//                         variant alone
#include <stdio.h>
#include <stdlib.h>
#include <string.h>
#include <sys/mman.h>
#include <unistd.h>

#include "calls.h"

// The most messages of a list. tests/test_c.py takes fewer where a checker makes all of it slow.
#ifndef MOST
#define MOST 300
#endif

enum { LONGEST = 400, MESSAGE = 200, PAIRS = 130, MAX = NATTIZHU_MAX_SIZE };
enum { STATE_SIZE = NATTIZHU_STATE_SIZE, HMAC_STATE_SIZE = NATTIZHU_HMAC_STATE_SIZE };

// The variant that is tried, and the bytes of its digests.
static nattizhu_variant v;
static size_t size;

static int tried, failed;

static void check(bool right, const char *what, size_t at) {
  tried++;
  if (!right && failed++ < 10)
    printf("calls: FAILED: %s, RIPEMD-%u, %zu\n", what, (unsigned)v, at);
}

// ---- memory between unmapped pages

enum { KEY, BYTES, LIST, SALTS, MESSAGES, SALT_BYTES, STATE, OUT, ROOMS, BESIDE = 64 };
static uint8_t *rooms[ROOMS];
static size_t room_size;
static bool at_end;

static void make_rooms(void) {
  const size_t page = (size_t)sysconf(_SC_PAGESIZE);
  room_size = ((MOST * LONGEST + BESIDE) / page + 1) * page;
  for (int i = 0; i < ROOMS; i++) {
    uint8_t *all = (uint8_t *)mmap(NULL, room_size + 2 * page, PROT_READ | PROT_WRITE,
                                   MAP_PRIVATE | MAP_ANONYMOUS, -1, 0);
    if (all == MAP_FAILED || mprotect(all, page, PROT_NONE) ||
        mprotect(all + page + room_size, page, PROT_NONE)) {
      perror("calls");
      exit(2);
    }
    rooms[i] = all + page;
  }
}

// So many bytes of a room, against the page behind it or in front of it.
static uint8_t *in_room(int room, size_t length) {
  return at_end ? rooms[room] + room_size - length : length ? rooms[room] : NULL;
}

// The bytes at their other side.
static uint8_t *beside(int room, size_t length) {
  return at_end ? rooms[room] + room_size - length - BESIDE : rooms[room] + length;
}

// Bytes of a room for what a call writes: 7s, as at their other side.
static uint8_t *output(int room, size_t length) {
  memset(at_end ? beside(room, length) : rooms[room], 7, length + BESIDE);
  return in_room(room, length);
}

// The same, with a copy of these bytes.
static uint8_t *copied(int room, const void *from, size_t length) {
  uint8_t *to = output(room, length);
  if (length)
    memcpy(to, from, length);
  return to;
}

// Whether these bytes are there, or 7s if they are null, and nothing was written beside them.
static bool holds(int room, const void *bytes, size_t length) {
  const uint8_t *there = in_room(room, length);
  return (!bytes ? all_are(there, length, 7) : !length || !memcmp(there, bytes, length)) &&
         all_are(beside(room, length), BESIDE, 7);
}

// ---- the calls that write digests, tags or keys

static const char *const NAMES[CALLS] = {
    "a digest", "digests of records", "digests of a list", "a key",
    "a tag",    "tags of records",    "tags of a list",    "keys of a list"};

// A call has to write these bytes; or, if they are null, to refuse and to write nothing. What it
// reads stays, of which it has copies.
static void try_call(nattizhu_variant variant, int kind, const input *in, const uint8_t *wanted,
                     size_t length) {
  const size_t list = in->count * sizeof *in->list, salts = in->salt_count * sizeof *in->salts;
  input copy = *in;
  copy.key = copied(KEY, in->key, in->key_length);
  copy.bytes = copied(BYTES, in->bytes, in->length);
  copy.list = (const nattizhu_message *)(void *)copied(LIST, in->list, list);
  copy.salts = (const nattizhu_message *)(void *)copied(SALTS, in->salts, salts);
  check(call(kind, variant, &copy, output(OUT, length), length) == (wanted != NULL) &&
            holds(OUT, wanted, length) && holds(KEY, in->key, in->key_length) &&
            holds(BYTES, in->bytes, in->length) && holds(LIST, in->list, list) &&
            holds(SALTS, in->salts, salts),
        NAMES[kind], length);
}

// What a call writes, to compare with.
static void by_call(int kind, const input *in, uint8_t *out, size_t length) {
  check(call(kind, v, in, out, length), NAMES[kind], length);
}

static uint8_t ramp[MOST * LONGEST]; // 0, 1, 2 and so on

static size_t from_hex(const char *digits, uint8_t *bytes) {
  size_t length = strlen(digits) / 2;
  for (size_t i = 0; i < length; i++)
    sscanf(digits + 2 * i, "%2hhx", &bytes[i]);
  return length;
}

// Messages of unlike lengths, one behind the other in a room. Empty ones are null or at an unmapped
// page.
static void make_list(int room, nattizhu_message *messages, size_t count, size_t least,
                      size_t most) {
  size_t all = 0, at = 0;
  for (size_t i = 0; i < count; i++)
    all += messages[i].length = least + i * i * 7 % (most - least + 1);
  const uint8_t *bytes = copied(room, ramp, all);
  for (size_t i = 0; i < count; at += messages[i++].length)
    messages[i].bytes = messages[i].length ? bytes + at : i % 2 ? rooms[room] + room_size : NULL;
}

// The next number of messages that is tried: all small ones, and all near groups of 64.
static size_t next_count(size_t count) {
  return count + (count < 20 || (count + 3) % 64 < 6 || count + 11 > MOST ? 1 : 11);
}

// Digests of lists, and tags under one key, against those of each message alone; and of records,
// where the messages have one length.
static void try_many(void) {
  static const size_t lengths[][2] = {
      {0, 0}, {1, 1}, {64, 64}, {65, 65}, {LONGEST, LONGEST}, {0, 130}, {20, 120}, {0, LONGEST}};
  static const size_t keys[] = {0, 64, 65};
  static uint8_t digests[MOST * MAX], tags[MOST * MAX];
  static nattizhu_message list[MOST];
  for (size_t l = 0; l < sizeof lengths / sizeof lengths[0]; l++)
    for (size_t k = 0; k < sizeof keys / sizeof keys[0]; k++) {
      const size_t least = lengths[l][0], most = lengths[l][1];
      make_list(MESSAGES, list, MOST, least, most);
      for (size_t i = 0; i < MOST; i++) {
        const input one = inputs(ramp + 7, keys[k], list[i].bytes, list[i].length);
        by_call(DIGEST, &one, digests + i * size, size);
        by_call(HMAC, &one, tags + i * size, size);
        if (i == 0)
          try_call(v, HMAC, &one, tags, size);
      }
      for (size_t count = 0; count <= MOST; count = next_count(count)) {
        const input in = {ramp + 7, ramp, keys[k], count * least, least, list, NULL, count, 0, 1};
        try_call(v, LISTED, &in, digests, count * size);
        try_call(v, HMAC_LISTED, &in, tags, count * size);
        if (least == most) {
          try_call(v, EACH, &in, digests, count * size);
          try_call(v, HMAC_EACH, &in, tags, count * size);
        }
      }
    }
}

// Keys of unlike passwords and salts against those of each alone; none by no rounds, none to an
// output that is too long, and none where there is a salt too many or too few.
static void try_key_lists(void) {
  static const size_t counts[] = {0, 1, 3, 8, 9, 64, 65, 128, 129, PAIRS};
  const size_t lengths[] = {0, 1, size - 1, size, size + 1, 3 * size + 5};
  static uint8_t keys[PAIRS * (3 * MAX + 5)];
  static nattizhu_message passwords[PAIRS], salts[PAIRS + 1];
  make_list(MESSAGES, passwords, PAIRS, 0, 130);
  make_list(SALT_BYTES, salts, PAIRS + 1, 0, 70);
  for (size_t l = 0; l < sizeof lengths / sizeof lengths[0]; l++)
    for (uint32_t rounds = 0; rounds <= 3; rounds++) {
      const size_t length = lengths[l];
      for (size_t i = 0; i < PAIRS; i++) {
        input one =
            inputs(passwords[i].bytes, passwords[i].length, salts[i].bytes, salts[i].length);
        one.rounds = rounds;
        if (rounds)
          by_call(PBKDF2, &one, keys + i * length, length);
        else
          try_call(v, PBKDF2, &one, NULL, length);
      }
      for (size_t c = 0; c < sizeof counts / sizeof counts[0]; c++) {
        const size_t count = counts[c], all = count * length;
        input in = {NULL, NULL, 0, 0, length, passwords, salts, count, count, rounds};
        try_call(v, PBKDF2_LISTED, &in, rounds ? keys : NULL, all);
        try_call(v, PBKDF2_LISTED, &in, NULL, all + 1);
        in.salt_count = count + 1;
        try_call(v, PBKDF2_LISTED, &in, NULL, all);
        in.salt_count = count - 1;
        if (count)
          try_call(v, PBKDF2_LISTED, &in, NULL, all);
      }
    }
}

// What calls only read may overlap. The ramp has the same bytes 256 further on.
static void try_overlaps(void) {
  const nattizhu_message list[] = {{ramp, 60}, {ramp + 1, 40}, {ramp + 10, 30}};
  const nattizhu_message apart[] = {{ramp + 256, 60}, {ramp + 513, 40}, {ramp + 778, 30}};
  const nattizhu_message salts[] = {{ramp + 1024, 60}, {ramp + 1281, 40}, {ramp + 1546, 30}};
  const input in = {ramp + 10, ramp, 30, 3 * size, size, list, list, 3, 3, 2};
  const input other = {ramp + 2058, ramp, 30, 3 * size, size, apart, salts, 3, 3, 2};
  uint8_t wanted[3 * MAX], got[3 * MAX];
  for (int kind = 0; kind < CALLS; kind++) {
    const size_t length = kind == DIGEST || kind == HMAC ? size : 3 * size;
    by_call(kind, &other, wanted, length);
    by_call(kind, &in, got, length);
    check(!memcmp(got, wanted, length), "what overlaps", (size_t)kind);
    if (kind == HMAC)
      check(nattizhu_hmac_verify_text(v, ramp + 10, 30, ramp, 3 * size, wanted, size),
            "a tag of what overlaps", 0);
  }
}

// ---- messages in pieces, and states: of hash functions, or of HMAC where they are keyed

enum { MOST_SAVED = NATTIZHU_HMAC_SAVED_SIZE(NATTIZHU_MAX_SIZE) };

// The rules of docs/C.md: whether bytes are a state, and which of them mean something then.
static bool is_state(int keyed, const uint8_t *bytes, bool means[HMAC_STATE_SIZE]) {
  const size_t digest = bytes[0] - (keyed ? (size_t)128 : 0);
  bool right = false;
  memset(means, 0, HMAC_STATE_SIZE * sizeof *means);
  means[0] = true;
  for (int i = 0; i < VARIANTS; i++)
    right |= digest == (size_t)ALL[i] / 8;
  for (size_t part = 0; right && part <= (size_t)keyed; part++) {
    const size_t from = 1 + part * (digest + 72), tail = bytes[from + digest + 8];
    right = tail < 64;
    for (size_t i = 0; right && i < digest + 9 + tail; i++)
      means[from + i] = true;
  }
  return right;
}

// The same of bytes that a state may be saved as: so many, and where they mean nothing, zeros.
static bool is_saved(int keyed, size_t digest, const uint8_t *saved, size_t length) {
  uint8_t bytes[HMAC_STATE_SIZE] = {(uint8_t)(digest + (keyed ? 128 : 0))};
  bool means[HMAC_STATE_SIZE], right = length == saved_size(keyed, digest);
  if (right)
    memcpy(bytes + 1, saved, length);
  right = right && is_state(keyed, bytes, means);
  for (size_t i = 1; right && i <= length; i++)
    right = means[i] || !bytes[i];
  return right;
}

// Whether a state is there, with these bytes where they mean something, behind its mark. Others may
// be any, up to those behind `1 + size + 72`, or twice that, which are `value`.
static bool is_kept(int room, int keyed, const uint8_t *saved, uint8_t value) {
  const uint8_t *there = in_room(room, STATE_SIZES[keyed]);
  const size_t length = saved_size(keyed, size);
  bool means[HMAC_STATE_SIZE];
  bool right = there[0] == size + (keyed ? 128 : 0) && is_state(keyed, there, means) &&
               all_are(there + 1 + length, STATE_SIZES[keyed] - 1 - length, value) &&
               all_are(beside(room, STATE_SIZES[keyed]), BESIDE, 7);
  for (size_t i = 0; i < length; i++)
    right &= !means[1 + i] || there[1 + i] == saved[i];
  return right;
}

// Changes each byte of a state that means nothing, by an amount of its own.
static void muddle(int keyed, uint8_t *state) {
  bool means[HMAC_STATE_SIZE];
  if (is_state(keyed, state, means))
    for (size_t i = 0; i < STATE_SIZES[keyed]; i++)
      state[i] = (uint8_t)(state[i] + (means[i] ? 0 : 1 + i % 255));
}

// Whether a state has so many blocks and this tail, behind a chaining value.
static bool has(const uint8_t *part, size_t blocks, const uint8_t *tail, size_t length) {
  part += size;
  return part[0] == blocks && all_are(part + 1, 7, 0) && part[8] == length &&
         !memcmp(part + 9, tail, length);
}

// Whether a state ends with the digest or the tag of what it was given, and only in so many bytes.
static bool ends(int keyed, const uint8_t *state, const input *in) {
  uint8_t wanted[MAX];
  bool right = call(keyed ? HMAC : DIGEST, v, in, wanted, size);
  for (size_t n = 0; n <= MAX + 1; n++) {
    uint8_t *out = output(OUT, n);
    right &= end(keyed, state, out, n) == (n == size) && holds(OUT, n == size ? wanted : NULL, n);
  }
  return right;
}

// The message in two pieces at every cut, and then the state copied and taken on in another place.
// What means nothing is changed between the calls.
static void try_pieces(int keyed) {
  const size_t length = saved_size(keyed, size), all = STATE_SIZES[keyed], rest = all - 1 - length;
  const input whole = inputs(ramp, 20, ramp, MESSAGE);
  for (size_t cut = 0; cut <= MESSAGE; cut++) {
    uint8_t *state = output(STATE, all), *behind = state + 1 + length;
    uint8_t copy[HMAC_STATE_SIZE], saved[MOST_SAVED], again[MOST_SAVED];
    const input first = inputs(ramp, 20, ramp, cut);
    bool right = begin(v, keyed, state, ramp, 20) && state[0] == size + (keyed ? 128 : 0) &&
                 has(state + 1, (size_t)keyed, ramp, 0) && all_are(behind, rest, 7);
    muddle(keyed, state);
    memset(behind, 9, rest);
    right &= update(keyed, state, copied(BYTES, ramp, cut), cut) &&
             has(state + 1, (size_t)keyed + cut / 64, ramp + cut / 64 * 64, cut % 64) &&
             save(keyed, state, saved, length) && is_kept(STATE, keyed, saved, 9);
    memcpy(copy, state, all);
    muddle(keyed, state);
    memset(behind, 9, rest);
    right &= ends(keyed, state, &first) && update(keyed, state, copied(BYTES, ramp, 0), 0) &&
             is_kept(STATE, keyed, saved, 9) && save(keyed, state, again, length) &&
             !memcmp(saved, again, length);
    right &= update(keyed, state, copied(BYTES, ramp + cut, MESSAGE - cut), MESSAGE - cut) &&
             ends(keyed, state, &whole) && save(keyed, state, saved, length) &&
             is_kept(STATE, keyed, saved, 9) && update(keyed, copy, ramp + cut, MESSAGE - cut) &&
             save(keyed, copy, again, length) && !memcmp(saved, again, length);
    check(right, "two pieces", cut);
  }
}

// A state is saved as these bytes, to a place of just so many; and loaded from them in memory that
// is not initialized.
static bool is_saved_as(int keyed, const uint8_t *state, const uint8_t *saved) {
  const size_t length = saved_size(keyed, size), all = STATE_SIZES[keyed];
  uint8_t loaded[HMAC_STATE_SIZE], again[MOST_SAVED];
  bool right = true;
  for (size_t n = 0; n <= MOST_SAVED + 1; n++) {
    uint8_t *out = output(OUT, n);
    right &=
        save(keyed, state, out, n) == (n == length) && holds(OUT, n == length ? saved : NULL, n);
  }
  right &= load(v, keyed, output(KEY, all), copied(BYTES, saved, length), length) &&
           is_kept(KEY, keyed, saved, 7) && holds(BYTES, saved, length);
  return right && load(v, keyed, loaded, saved, length) && save(keyed, loaded, again, length) &&
         !memcmp(again, saved, length);
}

// What a state is saved as after a message in two pieces; it goes on from there. None of its memory
// is initialized.
static void try_saved(int keyed, const input *in, const uint8_t *saved) {
  const size_t cut = in->length / 3;
  uint8_t state[HMAC_STATE_SIZE], loaded[HMAC_STATE_SIZE], more[LONGEST + MESSAGE];
  input longer = *in;
  longer.bytes = more, longer.length += MESSAGE;
  memcpy(more, in->bytes, in->length);
  memcpy(more + in->length, ramp, MESSAGE);
  check(begin(v, keyed, state, in->key, in->key_length) && update(keyed, state, in->bytes, cut) &&
            update(keyed, state, in->bytes + cut, in->length - cut) &&
            is_saved_as(keyed, state, saved) &&
            load(v, keyed, loaded, saved, saved_size(keyed, size)) && ends(keyed, loaded, in) &&
            update(keyed, loaded, ramp, MESSAGE) && ends(keyed, loaded, &longer),
        "a saved state", in->length);
}

// Bytes that may be no state: each call takes them exactly if they are one, and writes nothing if
// they are none. Other bytes where they mean nothing make no difference. `tag` is that of the state
// from which they were made.
static void try_bytes(int keyed, const uint8_t *bytes, const uint8_t *tag, size_t at) {
  const size_t all = STATE_SIZES[keyed], digest = bytes[0] & (keyed ? 127 : 255);
  uint8_t other[HMAC_STATE_SIZE], saved[MOST_SAVED] = {0}, again[MOST_SAVED], out[MAX];
  bool means[HMAC_STATE_SIZE];
  const bool right = is_state(keyed, bytes, means);
  const size_t behind = right ? 1 + saved_size(keyed, digest) : all;
  memcpy(other, bytes, all);
  muddle(keyed, other);
  for (size_t i = 1; i < behind; i++)
    saved[i - 1] = means[i] ? bytes[i] : 0;
  uint8_t *one = copied(STATE, bytes, all), *two = copied(KEY, other, all);
  for (int i = 0; i < VARIANTS; i++) {
    const size_t length = (size_t)ALL[i] / 8, room = saved_size(keyed, length);
    const bool fits = right && length == digest;
    check(end(keyed, one, output(OUT, length), length) == fits &&
              (fits || holds(OUT, NULL, length)),
          "the end of bytes as a state", at);
    memcpy(out, fits ? in_room(OUT, length) : tag, length);
    check(end(keyed, two, output(OUT, length), length) == fits &&
              holds(OUT, fits ? out : NULL, length),
          "the end of other bytes as the state", at);
    check(save(keyed, one, output(OUT, room), room) == fits &&
              holds(OUT, fits ? saved : NULL, room) &&
              save(keyed, two, output(OUT, room), room) == fits &&
              holds(OUT, fits ? saved : NULL, room),
          "bytes saved as a state", at);
    if (keyed)
      check(nattizhu_hmac_verify((const nattizhu_hmac_state *)(void *)one, copied(OUT, out, length),
                                 length) == fits &&
                nattizhu_hmac_verify((const nattizhu_hmac_state *)(void *)two, out, length) == fits,
            "a tag verified by bytes as an HMAC state", at);
  }
  check(holds(STATE, bytes, all) && holds(KEY, other, all), "a state that stays", at);
  for (size_t length = 0; length < 20; length += 10) {
    const size_t room = saved_size(keyed, digest);
    one = copied(STATE, bytes, all), two = copied(KEY, other, all);
    const uint8_t *text = copied(BYTES, ramp, length);
    check(update(keyed, one, text, length) == right && update(keyed, two, text, length) == right,
          "an update of bytes as a state", at);
    if (!right)
      check(holds(STATE, bytes, all) && holds(KEY, other, all), "a state that stays", at);
    else
      check(save(keyed, one, output(OUT, room), room) && save(keyed, two, again, room) &&
                holds(OUT, again, room) && (length || !memcmp(again, saved, room)) &&
                one[0] == bytes[0] && two[0] == bytes[0] &&
                !memcmp(one + behind, bytes + behind, all - behind) &&
                !memcmp(two + behind, other + behind, all - behind) &&
                all_are(beside(STATE, all), BESIDE, 7) && all_are(beside(KEY, all), BESIDE, 7),
            "what an update makes of bytes as a state", at);
  }
}

// So many bytes that may be no saved state: each variant loads them exactly if they are one of its
// own, and saves them again. Otherwise the state stays.
static void try_load(int keyed, const uint8_t *saved, size_t length, size_t at) {
  const size_t all = STATE_SIZES[keyed];
  for (int i = 0; i < VARIANTS; i++) {
    const size_t digest = (size_t)ALL[i] / 8;
    const bool right = is_saved(keyed, digest, saved, length);
    uint8_t *state = output(STATE, all);
    bool as_wanted = load(ALL[i], keyed, state, copied(BYTES, saved, length), length) == right &&
                     holds(BYTES, saved, length);
    if (!right)
      as_wanted &= holds(STATE, NULL, all);
    else
      as_wanted &= state[0] == digest + (keyed ? 128 : 0) &&
                   all_are(state + 1 + length, all - 1 - length, 7) &&
                   all_are(beside(STATE, all), BESIDE, 7) &&
                   save(keyed, state, output(OUT, length), length) && holds(OUT, saved, length);
    check(as_wanted, keyed ? "bytes loaded as an HMAC state" : "bytes loaded as a state", at);
  }
}

// Zeros; and states of both kinds after some lengths, with each value of the first byte, which has
// the variant and the kind, and with some values of each other byte. The same of what these are
// saved as, in any number.
static void try_states(void) {
  static const uint8_t zeros[HMAC_STATE_SIZE] = {0}, values[] = {0, 1, 63, 64, 255};
  for (int keyed = 0; keyed < 2; keyed++) {
    try_bytes(keyed, zeros, ramp, 0);
    for (size_t n = 0; n <= MOST_SAVED + 1; n++)
      try_load(keyed, zeros, n, n);
  }
  for (size_t length = 0; length <= 70; length += 70)
    for (int keyed = 0; keyed < 2; keyed++) {
      const size_t all = saved_size(keyed, size);
      uint8_t bytes[HMAC_STATE_SIZE] = {0}, saved[HMAC_STATE_SIZE] = {0}, tag[MAX] = {0};
      check(begin(v, keyed, bytes, ramp, 20) && update(keyed, bytes, ramp, length) &&
                end(keyed, bytes, tag, size),
            "a state to change", length);
      check(save(keyed, bytes, saved, all), "a state to load", length);
      for (size_t at = 0; at < HMAC_STATE_SIZE; at++)
        for (int i = 0; i < (at ? 5 : 256); i++) {
          const uint8_t kept = bytes[at];
          bytes[at] = at ? values[i] : (uint8_t)i;
          for (int as = 0; as < 2; as++)
            try_bytes(as, bytes, tag, at);
          bytes[at] = kept;
        }
      for (size_t n = 0; n <= MOST_SAVED + 1; n++)
        for (int as = 0; as < 2; as++)
          try_load(as, saved, n, n);
      for (size_t at = 0; at < all; at++)
        for (int i = 0; i < 5; i++) {
          const uint8_t kept = saved[at];
          saved[at] = values[i];
          try_load(keyed, saved, all, at);
          saved[at] = kept;
        }
    }
}

static void try_wipe(void) {
  static const uint8_t zeros[200] = {0};
  for (size_t length = 0; length <= sizeof zeros; length++) {
    nattizhu_wipe(output(OUT, length), length);
    check(holds(OUT, zeros, length), "wiped bytes", length);
  }
}

// ---- what is refused

// Outputs that are up to 40 bytes too short or too long, as those of the other variants are; and by
// no variant, of any length.
static void try_refused(nattizhu_variant variant) {
  static const size_t counts[] = {0, 1, 65, 129};
  static nattizhu_message list[129];
  make_list(MESSAGES, list, 129, 0, 100);
  for (int c = 0; c < 4; c++)
    for (int more = counts[c] ? -(int)size : 0; more <= MAX; more += variant == v ? 1 : 4)
      for (int kind = 0; kind < CALLS; kind++)
        for (size_t key = 0; key <= 100; key += 100) {
          const size_t count = counts[c], all = count * size, length = all + (size_t)more;
          const input in = {ramp, ramp, key, all, size, list, list, count, count, 1};
          const bool single = kind == DIGEST || kind == HMAC;
          if (variant != v || (kind != PBKDF2 && length != (single ? size : all)))
            try_call(variant, kind, &in, NULL, length);
        }
}

// Numbers of no variant.
static void try_no_variant(void) {
  static const uint32_t numbers[] = {0,   1,   20,  64,  127,         129,
                                     159, 384, 416, 511, 65536 + 160, UINT32_MAX};
  static const uint8_t zeros[MOST_SAVED] = {0};
  const input in = inputs(ramp, 20, ramp, 3);
  uint8_t tag[MAX];
  by_call(HMAC, &in, tag, size);
  for (size_t i = 0; i < sizeof numbers / sizeof numbers[0]; i++) {
#ifdef __cplusplus
    if (numbers[i] > 511) // there this enum has no greater value
      break;
#endif
    const nattizhu_variant none = (nattizhu_variant)numbers[i];
    nattizhu_state *state = (nattizhu_state *)(void *)output(STATE, STATE_SIZE);
    nattizhu_hmac_state *hmac = (nattizhu_hmac_state *)(void *)output(OUT, HMAC_STATE_SIZE);
    bool refused = true;
    for (int k = 0; k < VARIANTS; k++) // these are a state of each variant
      refused &= !nattizhu_load(none, state, zeros, saved_size(0, (size_t)ALL[k] / 8)) &&
                 !nattizhu_hmac_load(none, hmac, zeros, saved_size(1, (size_t)ALL[k] / 8));
    check(refused && !nattizhu_digest_size(none) && !nattizhu_init(none, state) &&
              !nattizhu_hmac_init(none, hmac, ramp, 3) &&
              !nattizhu_hmac_verify_text(none, ramp, 20, ramp, 3, tag, size) &&
              holds(STATE, NULL, STATE_SIZE) && holds(OUT, NULL, HMAC_STATE_SIZE),
          "no variant", numbers[i]);
    try_refused(none);
  }
}

// Null pointers that should lead to something: each in turn that a call takes, where it does its
// work without. Of a list the last message has one; with others or without, that lead to nothing.
static void try_nulls(void) {
  static const unsigned takes[CALLS] = {1 << BYTES,
                                        1 << BYTES,
                                        1 << LIST | 1 << MESSAGES,
                                        1 << KEY | 1 << BYTES,
                                        1 << KEY | 1 << BYTES,
                                        1 << KEY | 1 << BYTES,
                                        1 << KEY | 1 << LIST | 1 << MESSAGES,
                                        1 << LIST | 1 << MESSAGES | 1 << SALTS | 1 << SALT_BYTES};
  static nattizhu_message list[129], salts[129];
  const nattizhu_message last = {ramp, 9}, wrong = {NULL, 1};
  for (size_t least = 0; least < 2; least++)
    for (size_t count = 1; count <= 129; count += 64)
      for (int kind = 0; kind < CALLS; kind++)
        for (int null = 0; null < ROOMS; null++) {
          const size_t all = count * size, length = kind == DIGEST || kind == HMAC ? size : all;
          input in = {ramp, ramp, 20, all, size, list, salts, count, count, 1};
          if (null != OUT && !(takes[kind] >> null & 1))
            continue;
          make_list(MESSAGES, list, count, least, 100);
          make_list(SALT_BYTES, salts, count, least, 50);
          list[count - 1] = salts[count - 1] = last;
          by_call(kind, &in, output(OUT, length), length);
          in.key = null == KEY ? NULL : in.key;
          in.bytes = null == BYTES ? NULL : in.bytes;
          in.list = null == LIST ? NULL : in.list;
          in.salts = null == SALTS ? NULL : in.salts;
          list[count - 1] = null == MESSAGES ? wrong : last;
          salts[count - 1] = null == SALT_BYTES ? wrong : last;
          uint8_t *out = output(OUT, length);
          check(!call(kind, v, &in, null == OUT ? NULL : out, length) && holds(OUT, NULL, length),
                "a null pointer", (size_t)null);
        }
}

// The same of calls over states and those that verify.
static void try_nulls_and_states(void) {
  uint8_t tag[MAX];
  nattizhu_hmac_state hmac;
  const input in = inputs(ramp, 20, ramp, 3);
  by_call(HMAC, &in, tag, size);
  check(nattizhu_hmac_init(v, &hmac, ramp, 20) && nattizhu_hmac_update(&hmac, ramp, 3) &&
            nattizhu_hmac_verify(&hmac, tag, size) && !nattizhu_hmac_verify(&hmac, NULL, size) &&
            nattizhu_hmac_verify_text(v, ramp, 20, ramp, 3, tag, size) &&
            !nattizhu_hmac_verify_text(v, NULL, 20, ramp, 3, tag, size) &&
            !nattizhu_hmac_verify_text(v, ramp, 20, NULL, 3, tag, size) &&
            !nattizhu_hmac_verify_text(v, ramp, 20, ramp, 3, NULL, size),
        "a null pointer to verify", 0);
  for (int keyed = 0; keyed < 2; keyed++) {
    const size_t all = STATE_SIZES[keyed], length = saved_size(keyed, size);
    uint8_t *state = output(STATE, all);
    check(begin(v, keyed, state, ramp, 20) && update(keyed, state, ramp, 70) &&
              end(keyed, state, tag, size),
          "a state", 0);
    uint8_t kept[HMAC_STATE_SIZE];
    memcpy(kept, state, all);
    check(!update(keyed, state, NULL, 1) && !update(keyed, state, NULL, 64) &&
              !end(keyed, state, NULL, size) && !save(keyed, state, NULL, length) &&
              !load(v, keyed, state, NULL, length) && !(keyed && begin(v, keyed, state, NULL, 1)) &&
              holds(STATE, kept, all),
          "a null pointer and a state", (size_t)keyed);
  }
}

// Records whose length is not their number times their size: a length, a size and a number.
static void try_wrong_records(void) {
  const size_t half = SIZE_MAX / 2 + 1, third = SIZE_MAX / 3 + 1;
  const size_t wrong[][3] = {{6, 7, 1},  {8, 7, 1}, {0, 7, 1},    {7, 0, 1},    {27, 7, 4},
                             {29, 7, 4}, {7, 7, 0}, {0, half, 2}, {2, third, 3}};
  for (size_t i = 0; i < sizeof wrong / sizeof wrong[0]; i++)
    for (size_t key = 0; key <= 200; key += 100) {
      input in = inputs(ramp, key, ramp, wrong[i][0]);
      in.record = wrong[i][1];
      try_call(v, EACH, &in, NULL, wrong[i][2] * size);
      try_call(v, HMAC_EACH, &in, NULL, wrong[i][2] * size);
    }
}

// A key of one byte more than 2^32 - 1 digests, in memory that nothing may touch. Then so many
// messages there that the length of all keys overflows.
static void try_too_long(void) {
  const size_t most = (size_t)0xffffffff * size, length = most + 1, count = SIZE_MAX / most + 1;
  const nattizhu_message one = {ramp, 8};
  check(!nattizhu_pbkdf2_list(v, NULL, 0, NULL, 0, 1, length, NULL, 0) &&
            nattizhu_pbkdf2_list(v, NULL, 0, NULL, 0, 1, most, NULL, 0) &&
            !nattizhu_pbkdf2_list(v, NULL, 0, NULL, 0, 1, SIZE_MAX, NULL, 0),
        "an empty list of keys too long", 0);
  uint8_t *key =
      (uint8_t *)mmap(NULL, length, PROT_NONE, MAP_PRIVATE | MAP_ANONYMOUS | MAP_NORESERVE, -1, 0);
  if (key == MAP_FAILED) {
    printf("calls: there are no addresses for a key that is too long\n");
    return;
  }
  const nattizhu_message *list = (const nattizhu_message *)(void *)key;
  check(!nattizhu_pbkdf2(v, ramp, 8, ramp, 8, 1, key, length) &&
            !nattizhu_pbkdf2_list(v, &one, 1, &one, 1, 1, length, key, length),
        "a key too long", 0);
  check(!nattizhu_pbkdf2_list(v, list, count, list, count, 1, most, key, count * most),
        "too many keys", 0);
  munmap(key, length);
}

// ---- what others gave

// A tag, whole and of a state, and verified: as it is, too short or too long, and with each byte
// wrong.
static void try_tag(const input *in, uint8_t *tag) {
  uint8_t *state = output(STATE, HMAC_STATE_SIZE), kept[HMAC_STATE_SIZE];
  const nattizhu_hmac_state *hmac = (const nattizhu_hmac_state *)(const void *)state;
  try_call(v, HMAC, in, tag, size);
  const uint8_t *key = copied(KEY, in->key, in->key_length);
  const uint8_t *text = copied(BYTES, in->bytes, in->length);
  bool right = begin(v, 1, state, key, in->key_length) && update(1, state, text, in->length);
  muddle(1, state);
  memcpy(kept, state, sizeof kept);
  for (size_t i = 0; i <= 2 * size + 1; i++) {
    const size_t length = i <= size + 1 ? i : size; // then each byte wrong
    uint8_t *out = output(OUT, length);
    right &= end(1, state, out, length) == (length == size) &&
             holds(OUT, length == size ? tag : NULL, length);
    out = copied(OUT, tag, length);
    if (i > size + 1)
      out[i - size - 2] ^= 1;
    right &= nattizhu_hmac_verify(hmac, out, length) == (i == size) &&
             nattizhu_hmac_verify_text(v, key, in->key_length, text, in->length, out, length) ==
                 (i == size);
  }
  check(right && holds(STATE, kept, HMAC_STATE_SIZE), "a tag of a state", in->key_length);
}

// The lines of the file about the variant: the number of a call, the variant, rounds, and in
// hexadecimal, behind an x each, a key or a password, a message, a text or a salt, what is written,
// and what a state is saved as then. Each key is tried with the empty text too.
static void try_values(const char *name) {
  enum { TIMES = 9 };
  char words[4][900];
  uint8_t key[LONGEST], bytes[LONGEST], wanted[TIMES * 450] = {0}, saved[MOST_SAVED];
  unsigned bits, rounds;
  int kind;
  size_t lines = 0;
  FILE *file = fopen(name, "r");
  if (!file) {
    perror(name);
    exit(2);
  }
  while (fscanf(file, "%d %u %u %899s %899s %899s %899s", &kind, &bits, &rounds, words[0], words[1],
                words[2], words[3]) == 7) {
    if (bits != (unsigned)v)
      continue;
    lines++;
    const size_t key_length = from_hex(words[0] + 1, key), length = from_hex(words[1] + 1, bytes);
    const size_t all = from_hex(words[2] + 1, wanted);
    input in = inputs(key, key_length, bytes, length);
    from_hex(words[3] + 1, saved);
    if (kind == DIGEST) {
      try_call(v, DIGEST, &in, wanted, all);
      try_saved(0, &in, saved);
    } else if (kind == HMAC) {
      try_tag(&in, wanted);
      try_saved(1, &in, saved);
      in.length = 0;
      by_call(HMAC, &in, wanted, size);
      try_tag(&in, wanted);
    } else {
      const nattizhu_message password = {key, key_length}, salt = {bytes, length};
      nattizhu_message passwords[TIMES], salts[TIMES];
      for (int i = 0; i < TIMES; i++) {
        passwords[i] = password, salts[i] = salt;
        memmove(wanted + i * all, wanted, all);
      }
      in.record = all, in.rounds = rounds;
      in.list = passwords, in.salts = salts;
      in.count = in.salt_count = TIMES;
      try_call(v, PBKDF2, &in, wanted, all);
      try_call(v, PBKDF2_LISTED, &in, wanted, TIMES * all);
    }
  }
  fclose(file);
  check(lines > MESSAGE + 15, name, lines);
}

int main(int argc, char **argv) {
  if (argc < 2)
    return 2;
  for (size_t i = 0; i < sizeof ramp; i++)
    ramp[i] = (uint8_t)i;
  make_rooms();
  for (int i = 0; i < 2 * VARIANTS; i++) {
    v = ALL[i / 2];
    size = (size_t)v / 8;
    at_end = i % 2;
    if (argc > 2 && atoi(argv[2]) != (int)v)
      continue;
    try_values(argv[1]);
    try_many();
    try_key_lists();
    try_overlaps();
    try_pieces(0);
    try_pieces(1);
    try_states();
    try_wipe();
    try_refused(v);
    try_no_variant();
    try_nulls();
    try_nulls_and_states();
    try_wrong_records();
    if (at_end)
      try_too_long();
    check(nattizhu_digest_size(v) == size, "the size of a digest", 0);
  }
  check(nattizhu_state_size() == sizeof(nattizhu_state) &&
            nattizhu_hmac_state_size() == sizeof(nattizhu_hmac_state),
        "the sizes of states", 0);
  check(!strcmp(nattizhu_version(), NATTIZHU_VERSION), "the version", 0);
  printf("calls: %d of %d cases as expected\n", tried - failed, tried);
  return failed != 0;
}
