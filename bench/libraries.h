// The libraries that bench/linked.c measures, and what it calls of each.
#include <stdbool.h>
#include <stddef.h>
#include <stdint.h>
#include <sys/uio.h>

// The functions of a library, NULL where it has none. They have the arguments of ours, the variant
// and lengths of what is written among them, of which others take what they need. A tag is made from
// a copy of the state after the key, which the library keeps; ours hashes the key once for a list.
// What is done to messages in pieces, so many times, and the functions of keys are of RIPEMD-160.
struct library {
  char name[80];
  bool all; // the variants, or RIPEMD-160 alone
  bool (*digest)(int variant, const uint8_t *message, size_t length, uint8_t *digest,
                 size_t digest_length);
  void (*tag)(const uint8_t *text, size_t length, uint8_t *tag);
  bool (*each)(int variant, const uint8_t *records, size_t length, size_t size, uint8_t *digests,
               size_t digests_length);
  bool (*tag_each)(int variant, const uint8_t *key, size_t key_length, const uint8_t *records,
                   size_t length, size_t size, uint8_t *tags, size_t tags_length);
  void *state;
  void (*inits)(const struct library *by, int times);
  void (*updates)(const struct library *by, const uint8_t *piece, size_t length, int times);
  void (*finals)(const struct library *by, uint8_t *digest, int times); // each with an init
  bool (*init)(int variant, void *state); // ours alone, as the next two
  bool (*update)(void *state, const uint8_t *bytes, size_t length);
  bool (*final)(void *state, uint8_t *digest, size_t digest_length);
  bool (*derive)(int variant, const uint8_t *password, size_t password_length, const uint8_t *salt,
                 size_t salt_length, uint32_t rounds, uint8_t *key, size_t key_length);
  bool (*derive_list)(int variant, const struct iovec *passwords, size_t count,
                      const struct iovec *salts, size_t salt_count, uint32_t rounds, size_t size,
                      uint8_t *keys, size_t keys_length);
};

enum { MOST = 8 };
extern struct library libraries[MOST]; // ours first
extern int ours, count;
extern const uint8_t key[20]; // of all tags

void fail(const char *what, const char *why);

// Adds ours, as LEVEL=FILE.so names each, and those others that the machine has.
void add_libraries(char **files);
