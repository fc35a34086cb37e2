/* nattizhu - RIPEMD-128, RIPEMD-160, RIPEMD-256 and RIPEMD-320 (1996), HMAC over them (RFC 2104),
 * and keys from passwords by HMAC (PBKDF2, RFC 8018)
 *
 * What the functions in Rattle write and return is proved. nattizhu.c, which calls them and is
 * tested, looks after null pointers.
 *
 * Each call that returns a bool returns true where it did what it says. It returns false and writes
 * nothing where it can't: if there is no such variant, if what it writes to does not have its size,
 * if a pointer is null whose length or count is not 0, if bytes given as a state are not one, or as
 * the function says. A product that overflows equals no length. Compilers warn where an answer is
 * ignored.
 *
 * Arguments come in this order: the variant; the state; what is read; what is written. The length
 * of a piece of memory, or the count of a list, follows its pointer, which may be null where that is
 * 0. Lengths and sizes are in bytes.
 *
 * Each caller has to ensure this, which nothing checks:
 *
 * - A pointer leads to as many bytes or messages as the length or count after it says, or to what
 *   its type says. Each of these pieces of memory is smaller than 2^63 bytes.
 * - No pointer to a state is null.
 * - What a call writes overlaps nothing else that it is given; what it only reads may overlap.
 * - While a call runs, no other thread writes what it reads, or reads or writes what it writes.
 *
 * Outputs, and a state before init or load, need not be initialized.
 *
 * No call allocates memory, keeps a pointer, or uses global data that changes: all calls may
 * run at once in any number of threads.
 *
 * A call that takes a key, a password or an HMAC state clears the stack and the registers that it
 * used. Nothing else is wiped by itself: nattizhu_wipe is for that. */

#ifndef NATTIZHU_H
#define NATTIZHU_H

#include <stddef.h>
#include <stdint.h>
#ifndef __cplusplus
#include <stdbool.h>
#endif

#define NATTIZHU_VERSION "0.1.0"

/* ---- Variants and sizes */

/* Bytes of a block, of every variant. */
#define NATTIZHU_BLOCK_SIZE 64

/* Bytes of a digest, and of a tag: of each variant, and the most. */
#define NATTIZHU_RIPEMD128_SIZE 16
#define NATTIZHU_RIPEMD160_SIZE 20
#define NATTIZHU_RIPEMD256_SIZE 32
#define NATTIZHU_RIPEMD320_SIZE 40
#define NATTIZHU_MAX_SIZE NATTIZHU_RIPEMD320_SIZE

/* Bytes of a hash state and of an HMAC state, of every variant. */
#define NATTIZHU_STATE_SIZE 113
#define NATTIZHU_HMAC_STATE_SIZE 225

/* Bytes that a hash state and an HMAC state are saved as, whose digests have `size` bytes. */
#define NATTIZHU_SAVED_SIZE(size) ((size) + 72)
#define NATTIZHU_HMAC_SAVED_SIZE(size) (2 * NATTIZHU_SAVED_SIZE(size))

#if defined(__cplusplus) ? __cplusplus >= 201703L                                                  \
                         : defined(__STDC_VERSION__) && __STDC_VERSION__ >= 202311L
#define NATTIZHU_CHECKED [[nodiscard]]
#elif defined(__GNUC__)
#define NATTIZHU_CHECKED __attribute__((warn_unused_result))
#else
#define NATTIZHU_CHECKED
#endif

#ifdef __cplusplus
extern "C" {
#endif

/* The hash functions, by the bits of their digests. The type has 32 bits: compile without
 * -fshort-enums. */
typedef enum nattizhu_variant {
  NATTIZHU_RIPEMD128 = 128,
  NATTIZHU_RIPEMD160 = 160,
  NATTIZHU_RIPEMD256 = 256,
  NATTIZHU_RIPEMD320 = 320
} nattizhu_variant;

/* The version of the library that is loaded, as NATTIZHU_VERSION is that of this header. */
NATTIZHU_CHECKED const char *nattizhu_version(void);

/* Bytes of a digest and of a tag; 0 if there is no such variant. */
NATTIZHU_CHECKED size_t nattizhu_digest_size(nattizhu_variant variant);

/* NATTIZHU_STATE_SIZE and NATTIZHU_HMAC_STATE_SIZE of the library that is loaded. */
NATTIZHU_CHECKED size_t nattizhu_state_size(void);
NATTIZHU_CHECKED size_t nattizhu_hmac_state_size(void);

/* ---- Digests of whole messages */

/* Writes the digest of the message. `digest_length` has to be the size of the variant's digests. */
NATTIZHU_CHECKED bool nattizhu_digest(nattizhu_variant variant, const uint8_t *message,
                                      size_t length, uint8_t *digest, size_t digest_length);

/* ---- Digests of many messages, up to eight at once */

/* Writes the digests of records of `size` bytes, one after another. For n records, which lie one
 * after another too, `length` has to be n * `size`, and `digests_length` n digests. Records of 0
 * bytes are empty messages, and `length` then is 0. */
NATTIZHU_CHECKED bool nattizhu_each(nattizhu_variant variant, const uint8_t *records, size_t length,
                                    size_t size, uint8_t *digests, size_t digests_length);

/* A message of a list. It has the layout of POSIX's struct iovec. */
typedef struct nattizhu_message {
  const uint8_t *bytes;
  size_t length;
} nattizhu_message;

/* Writes the digests of messages of any lengths, one after another. `digests_length` has to be
 * `count` digests. */
NATTIZHU_CHECKED bool nattizhu_list(nattizhu_variant variant, const nattizhu_message *messages,
                                    size_t count, uint8_t *digests, size_t digests_length);

/* ---- Digests of messages in pieces */

/* A hash state is bytes without pointers, the same on every machine: it may be copied, also to
 * another process, and both go on. It may still hold bytes of the message that no longer matter:
 * what others may see is its saved form. Its first byte is the size of its digests. Some bytes mean
 * nothing and need not be initialized. To store a state or to compare states, save them. States are
 * not authenticated: each call checks the first byte and the number of bytes that wait for a block,
 * and nothing else. Zeros are no state. */
typedef struct nattizhu_state {
  uint8_t bytes[NATTIZHU_STATE_SIZE];
} nattizhu_state;

/* Writes the state of the empty message. */
NATTIZHU_CHECKED bool nattizhu_init(nattizhu_variant variant, nattizhu_state *state);

/* Appends bytes to the message: writes the state that follows. */
NATTIZHU_CHECKED bool nattizhu_update(nattizhu_state *state, const uint8_t *bytes, size_t length);

/* Writes the digest of the message so far. `digest_length` has to be the size of the digests of the
 * state's variant. The state stays as it is, and the message may go on. */
NATTIZHU_CHECKED bool nattizhu_final(const nattizhu_state *state, uint8_t *digest,
                                     size_t digest_length);

/* Writes the bytes that the state is saved as: those that the library in Rattle, Python, Rust and
 * JavaScript save of a hasher, and the same of equal states. `saved_length` has to be
 * NATTIZHU_SAVED_SIZE of the size of the state's digests. The state stays as it is. */
NATTIZHU_CHECKED bool nattizhu_save(const nattizhu_state *state, uint8_t *saved,
                                    size_t saved_length);

/* Writes the state that is saved as these bytes, all of them; returns false if no state of the
 * variant is. It checks how many bytes there are, how many of them wait for a block, and that zeros
 * follow those, and nothing else. */
NATTIZHU_CHECKED bool nattizhu_load(nattizhu_variant variant, nattizhu_state *state,
                                    const uint8_t *saved, size_t saved_length);

/* ---- Tags (HMAC)
 *
 * A key has any length: one longer than 64 bytes is replaced by its digest, and a shorter one is
 * filled with zeros to 64 bytes. */

/* Writes the tag of the text under the key. `tag_length` has to be the size of the variant's
 * digests. */
NATTIZHU_CHECKED bool nattizhu_hmac(nattizhu_variant variant, const uint8_t *key, size_t key_length,
                                    const uint8_t *text, size_t text_length, uint8_t *tag,
                                    size_t tag_length);

/* Returns whether these bytes are the tag of the text under the key, all of them. It compares all
 * bytes of a tag of the right length, whatever they are, and returns false at once to another
 * length; memcmp takes a time that shows where a wrong tag differs. That the time of this is always
 * the same is not proved. It writes nothing. */
NATTIZHU_CHECKED bool nattizhu_hmac_verify_text(nattizhu_variant variant, const uint8_t *key,
                                                size_t key_length, const uint8_t *text,
                                                size_t text_length, const uint8_t *tag,
                                                size_t tag_length);

/* As nattizhu_each and nattizhu_list, the tags of records and of texts under one key. */
NATTIZHU_CHECKED bool nattizhu_hmac_each(nattizhu_variant variant, const uint8_t *key,
                                         size_t key_length, const uint8_t *records, size_t length,
                                         size_t size, uint8_t *tags, size_t tags_length);
NATTIZHU_CHECKED bool nattizhu_hmac_list(nattizhu_variant variant, const uint8_t *key,
                                         size_t key_length, const nattizhu_message *texts,
                                         size_t count, uint8_t *tags, size_t tags_length);

/* An HMAC state, and what it is saved as, are as secret as the key: whoever has them can make tags.
 * For many tags under one key, copy the state after init. It is bytes as a hash state is. Its first
 * byte is 128 plus the size of its tags. */
typedef struct nattizhu_hmac_state {
  uint8_t bytes[NATTIZHU_HMAC_STATE_SIZE];
} nattizhu_hmac_state;

/* Writes the state under this key, of the empty text. */
NATTIZHU_CHECKED bool nattizhu_hmac_init(nattizhu_variant variant, nattizhu_hmac_state *state,
                                         const uint8_t *key, size_t key_length);

/* Appends bytes to the text: writes the state that follows. */
NATTIZHU_CHECKED bool nattizhu_hmac_update(nattizhu_hmac_state *state, const uint8_t *bytes,
                                           size_t length);

/* Writes the tag of the text so far. The state stays as it is. */
NATTIZHU_CHECKED bool nattizhu_hmac_final(const nattizhu_hmac_state *state, uint8_t *tag,
                                          size_t tag_length);

/* Returns whether these bytes are the tag of the text so far, all of them, as
 * nattizhu_hmac_verify_text does of a whole text; false too if the state is no HMAC state. */
NATTIZHU_CHECKED bool nattizhu_hmac_verify(const nattizhu_hmac_state *state, const uint8_t *tag,
                                           size_t tag_length);

/* As nattizhu_save and nattizhu_load, with the bytes that an HMAC state is saved as: those of the
 * inner hasher, and then those of the outer one. `saved_length` has to be NATTIZHU_HMAC_SAVED_SIZE
 * of the size of the state's tags. */
NATTIZHU_CHECKED bool nattizhu_hmac_save(const nattizhu_hmac_state *state, uint8_t *saved,
                                         size_t saved_length);
NATTIZHU_CHECKED bool nattizhu_hmac_load(nattizhu_variant variant, nattizhu_hmac_state *state,
                                         const uint8_t *saved, size_t saved_length);

/* ---- Keys from passwords (PBKDF2, RFC 8018) */

/* Fills `key` with the key that is derived from the password and the salt by HMAC over the hash
 * function, so many rounds of it. It returns false too if `rounds` is 0, or the key is longer than
 * 2^32 - 1 digests. */
NATTIZHU_CHECKED bool nattizhu_pbkdf2(nattizhu_variant variant, const uint8_t *password,
                                      size_t password_length, const uint8_t *salt,
                                      size_t salt_length, uint32_t rounds, uint8_t *key,
                                      size_t key_length);

/* Derives a key of `size` bytes from each password and the salt at its place, up to eight at once,
 * and writes one after another. It returns false too if the counts differ, if `keys_length` is not
 * `count` * `size`, and, for empty lists too, if `rounds` is 0 or `size` is more than 2^32 - 1
 * digests. */
NATTIZHU_CHECKED bool nattizhu_pbkdf2_list(nattizhu_variant variant,
                                           const nattizhu_message *passwords, size_t count,
                                           const nattizhu_message *salts, size_t salt_count,
                                           uint32_t rounds, size_t size, uint8_t *keys,
                                           size_t keys_length);

/* ---- Secrets in memory */

/* Writes zeros to these bytes, also where a compiler would leave memset out. It also clears what
 * calls for one message, as nattizhu_digest, have left of it on the stack below its caller and in
 * registers; `size` may be 0 for that alone. */
void nattizhu_wipe(void *pointer, size_t size);

#ifdef __cplusplus
}
#endif

#endif
