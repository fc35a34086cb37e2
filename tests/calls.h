// The calls of nattizhu.h by a number, for calls.c and fuzz.c: those that write digests, tags or
// keys, and those over states, of hash functions or, where they are keyed, of HMAC.
#include "nattizhu.h"

enum { VARIANTS = 4 };
static const nattizhu_variant ALL[VARIANTS] = {NATTIZHU_RIPEMD128, NATTIZHU_RIPEMD160,
                                               NATTIZHU_RIPEMD256, NATTIZHU_RIPEMD320};

static inline bool all_are(const uint8_t *bytes, size_t length, uint8_t value) {
  for (size_t i = 0; i < length; i++)
    if (bytes[i] != value)
      return false;
  return true;
}

// tests/data/fuzz.txt has these numbers.
enum { DIGEST, EACH, LISTED, PBKDF2, HMAC, HMAC_EACH, HMAC_LISTED, PBKDF2_LISTED, CALLS };

// What these read: a key or a password; a message, a text, records or a salt; lists.
typedef struct {
  const uint8_t *key, *bytes;
  size_t key_length, length, record;
  const nattizhu_message *list, *salts;
  size_t count, salt_count;
  uint32_t rounds;
} input;

static inline input inputs(const uint8_t *key, size_t key_length, const uint8_t *bytes,
                           size_t length) {
  const input in = {key, bytes, key_length, length, 0, NULL, NULL, 0, 0, 1};
  return in;
}

static inline bool call(int kind, nattizhu_variant variant, const input *in, uint8_t *out,
                        size_t length) {
  switch (kind) {
  case DIGEST:
    return nattizhu_digest(variant, in->bytes, in->length, out, length);
  case EACH:
    return nattizhu_each(variant, in->bytes, in->length, in->record, out, length);
  case LISTED:
    return nattizhu_list(variant, in->list, in->count, out, length);
  case PBKDF2:
    return nattizhu_pbkdf2(variant, in->key, in->key_length, in->bytes, in->length, in->rounds, out,
                           length);
  case HMAC:
    return nattizhu_hmac(variant, in->key, in->key_length, in->bytes, in->length, out, length);
  case HMAC_EACH:
    return nattizhu_hmac_each(variant, in->key, in->key_length, in->bytes, in->length, in->record,
                              out, length);
  case HMAC_LISTED:
    return nattizhu_hmac_list(variant, in->key, in->key_length, in->list, in->count, out, length);
  default:
    return nattizhu_pbkdf2_list(variant, in->list, in->count, in->salts, in->salt_count, in->rounds,
                                in->record, out, length);
  }
}

static const size_t STATE_SIZES[] = {NATTIZHU_STATE_SIZE, NATTIZHU_HMAC_STATE_SIZE};

static inline size_t saved_size(int keyed, size_t digest) {
  return keyed ? NATTIZHU_HMAC_SAVED_SIZE(digest) : NATTIZHU_SAVED_SIZE(digest);
}

static inline bool begin(nattizhu_variant variant, int keyed, uint8_t *state, const uint8_t *key,
                         size_t length) {
  return keyed ? nattizhu_hmac_init(variant, (nattizhu_hmac_state *)(void *)state, key, length)
               : nattizhu_init(variant, (nattizhu_state *)(void *)state);
}

static inline bool update(int keyed, uint8_t *state, const uint8_t *bytes, size_t length) {
  return keyed ? nattizhu_hmac_update((nattizhu_hmac_state *)(void *)state, bytes, length)
               : nattizhu_update((nattizhu_state *)(void *)state, bytes, length);
}

static inline bool end(int keyed, const uint8_t *state, uint8_t *out, size_t length) {
  return keyed ? nattizhu_hmac_final((const nattizhu_hmac_state *)(const void *)state, out, length)
               : nattizhu_final((const nattizhu_state *)(const void *)state, out, length);
}

static inline bool save(int keyed, const uint8_t *state, uint8_t *saved, size_t length) {
  return keyed ? nattizhu_hmac_save((const nattizhu_hmac_state *)(const void *)state, saved, length)
               : nattizhu_save((const nattizhu_state *)(const void *)state, saved, length);
}

static inline bool load(nattizhu_variant variant, int keyed, uint8_t *state, const uint8_t *saved,
                        size_t length) {
  return keyed ? nattizhu_hmac_load(variant, (nattizhu_hmac_state *)(void *)state, saved, length)
               : nattizhu_load(variant, (nattizhu_state *)(void *)state, saved, length);
}
