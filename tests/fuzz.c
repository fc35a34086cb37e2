// Arbitrary calls of nattizhu.h, for libFuzzer: any bytes as states, any numbers as variants,
// lengths and counts. What a call reads and writes lies in memory of just that size, which the
// sanitizers watch. A call answers true exactly if what it was given fits, and otherwise writes
// nothing.
#include <stdio.h>
#include <stdlib.h>
#include <string.h>

#include "calls.h"

#define MUST(fact)                                                                                 \
  do                                                                                               \
    if (!(fact)) {                                                                                 \
      fprintf(stderr, "fuzz.c:%d: %s\n", __LINE__, #fact);                                         \
      abort();                                                                                     \
    }                                                                                              \
  while (0)

// What is left of the input.
static const uint8_t *next;
static size_t left;

static uint8_t byte(void) { return left ? left--, *next++ : 0; }

// Mostly a small number.
static size_t number(void) {
  const uint8_t first = byte();
  if (first < 250)
    return first < 200 ? first : (size_t)(first - 200) * 64;
  uint64_t all = 0;
  for (int i = 0; i < 8; i++)
    all = all << 8 | byte();
  return all >> (first - 250) * 12;
}

// The variant of a number: one of the four, unless the number is large.
static nattizhu_variant variant_of(size_t number) {
  return number < 200 ? ALL[number % VARIANTS] : (nattizhu_variant)number;
}

// Memory of just so many bytes, all `value`.
static uint8_t *filled(size_t length, uint8_t value) {
  uint8_t *bytes = malloc(length + !length);
  MUST(bytes);
  memset(bytes, value, length);
  return bytes;
}

// Bytes of the input, a few of them again and again.
typedef struct {
  uint8_t *bytes;
  size_t length;
} piece;

static piece take(void) {
  piece it = {NULL, number() % 5000};
  it.bytes = filled(it.length, byte());
  for (size_t i = 0; i < it.length && i < 200 && left; i++)
    it.bytes[i] = byte();
  return it;
}

// A list of parts of a piece.
typedef struct {
  nattizhu_message *messages;
  size_t count;
} list;

static list parts(piece whole) {
  list it = {NULL, number() % 300};
  it.messages = (nattizhu_message *)(void *)filled(it.count * sizeof *it.messages, 0);
  const size_t step = byte();
  for (size_t i = 0; i < it.count; i++) {
    const size_t from = whole.length ? i * step % whole.length : 0;
    it.messages[i].bytes = i % 7 || whole.length ? whole.bytes + from : NULL;
    it.messages[i].length = (whole.length - from) % (step + 1);
  }
  return it;
}

static bool is_product(size_t product, size_t a, size_t b) {
  return a == 0 ? product == 0 : product / a == b && product % a == 0;
}

// The length of an output: one that may fit, or any.
static size_t output_length(size_t fitting) {
  const size_t any = number();
  return (any < 150 && fitting < 100000 ? fitting : any) % 100000;
}

// These bytes, or a null pointer in their place, as the input says.
static uint8_t *or_null(uint8_t *bytes) { return byte() < 200 ? bytes : NULL; }

// The calls that write digests, tags and keys. They refuse null pointers whose length is not 0.
static void try_outputs(int kind, nattizhu_variant v) {
  const piece key = take(), bytes = take();
  const list messages = parts(bytes), salts = parts(key);
  const size_t size = nattizhu_digest_size(v), record = number(), rounds = byte() % 3;
  const size_t salt_count = byte() % 2 ? messages.count : salts.count;
  const nattizhu_message *salt = salt_count == salts.count ? salts.messages : messages.messages;
  const size_t outputs[] = {size, (record ? bytes.length / record : 3) * size,
                            messages.count * size,
                            kind == PBKDF2 ? number() : messages.count * record};
  const size_t length = output_length(outputs[kind % 4]);
  uint8_t *room = filled(length, 7), *out = or_null(room);
  const uint8_t *const k = or_null(key.bytes), *const b = or_null(bytes.bytes);
  input in = inputs(k, key.length, b, bytes.length);
  in.record = record, in.rounds = (uint32_t)rounds;
  in.list = messages.messages, in.count = messages.count;
  in.salts = salt, in.salt_count = salt_count;
  const bool has_key = k || !key.length, has_bytes = b || !bytes.length;
  bool fits = size != 0 && (out || !length) && (has_key || kind < PBKDF2 || kind == PBKDF2_LISTED);
  switch (kind) {
  case DIGEST:
  case HMAC:
    fits = fits && has_bytes && length == size;
    break;
  case EACH:
  case HMAC_EACH:
    fits =
        fits && has_bytes && length % size == 0 && is_product(bytes.length, length / size, record);
    break;
  case LISTED:
  case HMAC_LISTED:
    fits = fits && length == messages.count * size;
    break;
  case PBKDF2:
    fits = fits && has_bytes && rounds;
    break;
  default:
    fits = fits && rounds && salt_count == messages.count &&
           is_product(length, messages.count, record) && record <= UINT32_MAX * size;
  }
  const bool done = call(kind, v, &in, out, length);
  MUST(done == fits);
  MUST(done || all_are(room, length, 7));
  MUST(kind != HMAC ||
       nattizhu_hmac_verify_text(v, k, key.length, b, bytes.length, out, length) == done);
  free(room);
  free(messages.messages);
  free(salts.messages);
  free(key.bytes);
  free(bytes.bytes);
}

// Some bytes of a state, or of what it is saved as, are replaced by bytes of the input.
static void replace(uint8_t *state, size_t length) {
  for (size_t n = byte() % 8; n && left; n--)
    state[number() % length] = byte();
}

// What a state is saved as. If it is none, or is not saved as so many bytes, nothing is written.
static piece saved(int keyed, const uint8_t *state, size_t length) {
  piece it = {filled(length, 7), length};
  if (!save(keyed, state, it.bytes, length)) {
    MUST(all_are(it.bytes, length, 7));
    it.length = 0;
  }
  return it;
}

static bool are_equal(piece one, piece other) {
  return one.length == other.length && !memcmp(one.bytes, other.bytes, one.length);
}

// Bytes are loaded exactly if they are what a state is saved as: then it is saved as these again.
// Otherwise the state stays.
static void try_load(int keyed, nattizhu_variant v, piece bytes) {
  uint8_t *state = filled(STATE_SIZES[keyed], 7);
  if (load(v, keyed, state, bytes.bytes, bytes.length)) {
    const piece again = saved(keyed, state, saved_size(keyed, nattizhu_digest_size(v)));
    MUST(are_equal(bytes, again));
    free(again.bytes);
  } else {
    MUST(all_are(state, STATE_SIZES[keyed], 7));
  }
  free(state);
}

// A state, of HMAC if it is keyed, is taken by all calls or by none. What is refused stays; what
// takes in no bytes is saved as before. Where a state was loaded from what it is saved as, it goes
// on in the same way.
static void try_state(int keyed, nattizhu_variant v) {
  const size_t whole = STATE_SIZES[keyed];
  const piece none = {NULL, 0}, key = keyed ? take() : none, bytes = take();
  uint8_t *state = filled(whole, byte()), *before = filled(whole, 0), *loaded = filled(whole, 0);
  if (!begin(v, keyed, state, key.bytes, key.length))
    MUST(nattizhu_digest_size(v) == 0);
  replace(state, whole);
  memcpy(before, state, whole);
  const size_t size = state[0] & (keyed ? 127 : 255), all = saved_size(keyed, size);
  const piece first = saved(keyed, state, all);
  const bool is_state = update(keyed, state, NULL, 0);
  const piece same = saved(keyed, state, all);
  MUST(is_state == (first.length != 0) && are_equal(first, same));
  MUST(is_state || !memcmp(state, before, whole));
  MUST(update(keyed, state, bytes.bytes, bytes.length) == is_state);
  MUST(is_state || !memcmp(state, before, whole));
  if (is_state) {
    MUST(load((nattizhu_variant)(8 * size), keyed, loaded, first.bytes, first.length));
    MUST(update(keyed, loaded, bytes.bytes, bytes.length));
    const piece one = saved(keyed, state, all), other = saved(keyed, loaded, all);
    MUST(one.length && are_equal(one, other));
    free(one.bytes);
    free(other.bytes);
  }
  replace(first.bytes, all);
  const piece forged = {first.bytes, all}, any = saved(keyed, state, output_length(all));
  try_load(keyed, v, forged);
  try_load(keyed, v, bytes);
  free(any.bytes);
  free(first.bytes);
  free(same.bytes);
  const size_t length = output_length(size);
  uint8_t *out = filled(length, 7);
  const bool done = end(keyed, state, out, length);
  MUST(done == (is_state && length == size));
  MUST(done || all_are(out, length, 7));
  if (keyed) {
    const nattizhu_hmac_state *hmac = (const nattizhu_hmac_state *)(const void *)state;
    MUST(nattizhu_hmac_verify(hmac, out, length) == done);
    if (done) {
      out[byte() % length] ^= 1;
      MUST(!nattizhu_hmac_verify(hmac, out, length));
    }
  }
  free(out);
  free(loaded);
  free(before);
  free(state);
  free(key.bytes);
  free(bytes.bytes);
}

int LLVMFuzzerTestOneInput(const uint8_t *data, size_t size) {
  next = data;
  left = size;
  const int kind = byte() % (CALLS + 2);
  const nattizhu_variant v = variant_of(number());
  if (kind < CALLS)
    try_outputs(kind, v);
  else
    try_state(kind - CALLS, v);
  return 0;
}
