// How bench/linked.c calls each library.
#include "libraries.h"
#include <dlfcn.h>
#include <stdio.h>
#include <stdlib.h>
#include <string.h>

struct library libraries[MOST];
int ours, count;
const uint8_t key[20] = {[0 ... 19] = 0x0b};

void fail(const char *what, const char *why) {
  fprintf(stderr, "linked: %s: %s\n", what, why);
  exit(1);
}

static void *function(void *from, const char *name) {
  void *found = dlsym(from, name);
  if (!found)
    fail(name, "there is no such function");
  return found;
}

static struct library *add(const char *name, const char *version) {
  snprintf(libraries[count].name, sizeof libraries[count].name, "%s %s", name, version);
  return &libraries[count++];
}

// What a library does to messages in pieces: loops over its own calls, so that all are called alike.
#define PIECES_BY(name, init_call, update_call, final_call)                                        \
  static void name##_inits(const struct library *by, int times) {                                  \
    for (int i = 0; i < times; i++)                                                                \
      init_call;                                                                                   \
  }                                                                                                \
  static void name##_updates(const struct library *by, const uint8_t *piece, size_t length,        \
                             int times) {                                                          \
    for (int i = 0; i < times; i++)                                                                \
      update_call;                                                                                 \
  }                                                                                                \
  static void name##_finals(const struct library *by, uint8_t *digest, int times) {                \
    for (int i = 0; i < times; i++) {                                                              \
      final_call;                                                                                  \
      init_call;                                                                                   \
    }                                                                                              \
  }                                                                                                \
  static void name##_pieces(struct library *of, void *state) {                                     \
    of->state = state;                                                                             \
    of->inits = name##_inits;                                                                      \
    of->updates = name##_updates;                                                                  \
    of->finals = name##_finals;                                                                    \
  }

// ---- the other libraries

// A library of one of these versions, the newest that is there, or NULL.
static void *find(const char *name, int newest, int oldest) {
  char file[40];
  void *found = NULL;
  for (int version = newest; !found && version >= oldest; version--) {
    snprintf(file, sizeof file, "%s.so.%d", name, version);
    found = dlopen(file, RTLD_NOW);
  }
  return found;
}

#define TAKE(from, name) (*(void **)&name = function(from, #name))

static void *rhash_context;
static void (*rhash_reset)(void *);
static int (*rhash_update)(void *, const void *, size_t);
static int (*rhash_final)(void *, unsigned char *);
static bool by_rhash(int variant, const uint8_t *message, size_t length, uint8_t *digest,
                     size_t digest_length) {
  rhash_reset(rhash_context);
  rhash_update(rhash_context, message, length);
  return !rhash_final(rhash_context, digest);
}
PIECES_BY(rhash, rhash_reset(by->state), rhash_update(by->state, piece, length),
          rhash_final(by->state, digest))

static void add_rhash(void *from) {
  void (*rhash_library_init)(void);
  uintptr_t (*rhash_transmit)(unsigned, void *, uintptr_t, uintptr_t);
  void *(*rhash_init)(unsigned);
  TAKE(from, rhash_library_init), TAKE(from, rhash_transmit), TAKE(from, rhash_init);
  TAKE(from, rhash_reset), TAKE(from, rhash_update), TAKE(from, rhash_final);
  rhash_library_init();
  rhash_context = rhash_init(0x400); // RIPEMD-160
  unsigned number = rhash_transmit(20, NULL, 0, 0);
  char version[20];
  snprintf(version, sizeof version, "%u.%u.%u", number >> 24, number >> 16 & 255,
           number >> 8 & 255);
  struct library *rhash = add("RHash", version);
  rhash->digest = by_rhash;
  rhash_pieces(rhash, rhash_context);
}

static void (*gcry_md_hash_buffer)(int, void *, const void *, size_t);
static bool by_gcrypt(int variant, const uint8_t *message, size_t length, uint8_t *digest,
                      size_t digest_length) {
  gcry_md_hash_buffer(3, digest, message, length); // RIPEMD-160
  return true;
}

static void *gcrypt_keyed;
static void (*gcry_md_reset)(void *);
static void (*gcry_md_write)(void *, const void *, size_t);
static unsigned char *(*gcry_md_read)(void *, int);
static void tag_by_gcrypt(const uint8_t *text, size_t length, uint8_t *tag) {
  gcry_md_reset(gcrypt_keyed); // keeps the key
  gcry_md_write(gcrypt_keyed, text, length);
  memcpy(tag, gcry_md_read(gcrypt_keyed, 3), 20);
}

PIECES_BY(gcrypt, gcry_md_reset(by->state), gcry_md_write(by->state, piece, length),
          memcpy(digest, gcry_md_read(by->state, 3), 20))

static unsigned (*gcry_kdf_derive)(const void *, size_t, int, int, const void *, size_t,
                                   unsigned long, size_t, void *);
static bool derive_by_gcrypt(int variant, const uint8_t *password, size_t password_length,
                             const uint8_t *salt, size_t salt_length, uint32_t rounds, uint8_t *key,
                             size_t key_length) {
  return !gcry_kdf_derive(password, password_length, 34, 3, salt, salt_length, rounds, key_length,
                          key); // 34: PBKDF2
}

static void add_gcrypt(void *from) {
  const char *(*gcry_check_version)(const char *);
  unsigned (*gcry_control)(int, ...);
  unsigned (*gcry_md_open)(void **, int, unsigned);
  unsigned (*gcry_md_setkey)(void *, const void *, size_t);
  TAKE(from, gcry_md_hash_buffer), TAKE(from, gcry_check_version), TAKE(from, gcry_control);
  TAKE(from, gcry_md_open), TAKE(from, gcry_md_setkey);
  TAKE(from, gcry_md_reset), TAKE(from, gcry_md_write), TAKE(from, gcry_md_read);
  TAKE(from, gcry_kdf_derive);
  struct library *gcrypt = add("libgcrypt", gcry_check_version(NULL));
  gcry_control(37, 0); // no secure memory
  gcry_control(38, 0); // initialized
  gcrypt->digest = by_gcrypt;
  if (gcry_md_open(&gcrypt_keyed, 3, 2) || gcry_md_setkey(gcrypt_keyed, key, sizeof key)) // HMAC
    fail("libgcrypt", "it takes no key");
  void *state;
  if (gcry_md_open(&state, 3, 0))
    fail("libgcrypt", "it has no RIPEMD-160");
  gcrypt_pieces(gcrypt, state);
  gcrypt->tag = tag_by_gcrypt;
  gcrypt->derive = derive_by_gcrypt;
}

static void *av_context;
static int (*av_ripemd_init)(void *, int);
static void (*av_ripemd_update)(void *, const uint8_t *, size_t);
static void (*av_ripemd_final)(void *, uint8_t *);
static bool by_avutil(int variant, const uint8_t *message, size_t length, uint8_t *digest,
                      size_t digest_length) {
  av_ripemd_init(av_context, variant);
  av_ripemd_update(av_context, message, length);
  av_ripemd_final(av_context, digest);
  return true;
}

PIECES_BY(avutil, av_ripemd_init(by->state, 160), av_ripemd_update(by->state, piece, length),
          av_ripemd_final(by->state, digest))

static void add_avutil(void *from) {
  void *(*av_ripemd_alloc)(void);
  const char *(*av_version_info)(void);
  TAKE(from, av_ripemd_alloc), TAKE(from, av_ripemd_init), TAKE(from, av_ripemd_update);
  TAKE(from, av_ripemd_final), TAKE(from, av_version_info);
  av_context = av_ripemd_alloc();
  struct library *avutil = add("libavutil", av_version_info());
  avutil->all = true;
  avutil->digest = by_avutil;
  avutil_pieces(avutil, av_context);
}

static void (*nettle_ripemd160_init)(void *);
static void (*nettle_ripemd160_update)(void *, size_t, const uint8_t *);
static void (*nettle_ripemd160_digest)(void *, size_t, uint8_t *);
PIECES_BY(nettle, nettle_ripemd160_init(by->state),
          nettle_ripemd160_update(by->state, length, piece),
          nettle_ripemd160_digest(by->state, 20, digest))

static void (*nettle_hmac_ripemd160_set_key)(void *, size_t, const uint8_t *);
static void *nettle_hmac_ripemd160_update, *nettle_hmac_ripemd160_digest;
static void (*nettle_pbkdf2)(void *, void *, void *, size_t, unsigned, size_t, const uint8_t *,
                             size_t, uint8_t *);
static bool derive_by_nettle(int variant, const uint8_t *password, size_t password_length,
                             const uint8_t *salt, size_t salt_length, uint32_t rounds, uint8_t *key,
                             size_t key_length) {
  uint64_t context[128]; // more than an HMAC state has
  nettle_hmac_ripemd160_set_key(context, password_length, password);
  nettle_pbkdf2(context, nettle_hmac_ripemd160_update, nettle_hmac_ripemd160_digest, 20, rounds,
                salt_length, salt, key_length, key);
  return true;
}

static void add_nettle(void *from) {
  int (*nettle_version_major)(void), (*nettle_version_minor)(void);
  TAKE(from, nettle_version_major), TAKE(from, nettle_version_minor), TAKE(from, nettle_pbkdf2);
  TAKE(from, nettle_hmac_ripemd160_set_key), TAKE(from, nettle_hmac_ripemd160_update);
  TAKE(from, nettle_hmac_ripemd160_digest), TAKE(from, nettle_ripemd160_init);
  TAKE(from, nettle_ripemd160_update), TAKE(from, nettle_ripemd160_digest);
  static _Alignas(64) uint64_t state[32]; // more than a hash state has
  char version[30];
  snprintf(version, sizeof version, "%d.%d", nettle_version_major(), nettle_version_minor());
  struct library *nettle = add("Nettle", version);
  nettle->derive = derive_by_nettle;
  nettle_pieces(nettle, state);
}

static unsigned char *(*RIPEMD160)(const unsigned char *, size_t, unsigned char *);
static bool by_openssl(int variant, const uint8_t *message, size_t length, uint8_t *digest,
                       size_t digest_length) {
  return RIPEMD160(message, length, digest);
}

static void *openssl_keyed;
static int (*HMAC_Init_ex)(void *, const void *, int, const void *, void *);
static int (*HMAC_Update)(void *, const unsigned char *, size_t);
static int (*HMAC_Final)(void *, unsigned char *, unsigned *);
static void tag_by_openssl(const uint8_t *text, size_t length, uint8_t *tag) {
  HMAC_Init_ex(openssl_keyed, NULL, 0, NULL, NULL); // keeps the key
  HMAC_Update(openssl_keyed, text, length);
  HMAC_Final(openssl_keyed, tag, NULL);
}

static const void *ripemd160_of_openssl; // fetched, so that no call looks for it
static int (*EVP_DigestInit_ex)(void *, const void *, void *);
static int (*EVP_DigestUpdate)(void *, const void *, size_t);
static int (*EVP_DigestFinal_ex)(void *, unsigned char *, unsigned *);
PIECES_BY(openssl, EVP_DigestInit_ex(by->state, ripemd160_of_openssl, NULL),
          EVP_DigestUpdate(by->state, piece, length),
          EVP_DigestFinal_ex(by->state, digest, NULL))

static int (*PKCS5_PBKDF2_HMAC)(const void *, int, const unsigned char *, int, int, const void *,
                                int, unsigned char *);
static bool derive_by_openssl(int variant, const uint8_t *password, size_t password_length,
                              const uint8_t *salt, size_t salt_length, uint32_t rounds,
                              uint8_t *key, size_t key_length) {
  return PKCS5_PBKDF2_HMAC(password, password_length, salt, salt_length, rounds,
                           ripemd160_of_openssl, key_length, key);
}

static void add_openssl(void *from) {
  const char *(*OpenSSL_version)(int);
  void *(*HMAC_CTX_new)(void), *(*EVP_MD_CTX_new)(void);
  const void *(*EVP_MD_fetch)(void *, const char *, const char *);
  TAKE(from, RIPEMD160), TAKE(from, OpenSSL_version), TAKE(from, HMAC_CTX_new);
  TAKE(from, EVP_MD_fetch), TAKE(from, HMAC_Init_ex), TAKE(from, HMAC_Update);
  TAKE(from, HMAC_Final), TAKE(from, EVP_MD_CTX_new), TAKE(from, EVP_DigestInit_ex);
  TAKE(from, EVP_DigestUpdate), TAKE(from, EVP_DigestFinal_ex), TAKE(from, PKCS5_PBKDF2_HMAC);
  struct library *openssl = add("OpenSSL", OpenSSL_version(6)); // 6: the number alone
  openssl->digest = by_openssl;
  openssl_keyed = HMAC_CTX_new();
  ripemd160_of_openssl = EVP_MD_fetch(NULL, "RIPEMD160", NULL);
  if (!ripemd160_of_openssl)
    return;
  if (HMAC_Init_ex(openssl_keyed, key, sizeof key, ripemd160_of_openssl, NULL)) {
    openssl->tag = tag_by_openssl;
    openssl->derive = derive_by_openssl;
  }
  openssl_pieces(openssl, EVP_MD_CTX_new());
}

// ---- ours

PIECES_BY(our, by->init(160, by->state), by->update(by->state, piece, length),
          by->final(by->state, digest, 20))

static void add_ours(char *argument) {
  char *file = strchr(argument, '=');
  if (!file)
    fail(argument, "LEVEL=FILE.so is wanted");
  *file++ = 0;
  void *from = dlopen(file, RTLD_NOW | RTLD_LOCAL);
  if (!from)
    fail(file, dlerror());
  struct library *added = add("ours, built for", argument);
  added->all = true;
  *(void **)&added->digest = function(from, "nattizhu_digest");
  *(void **)&added->each = function(from, "nattizhu_each");
  *(void **)&added->tag_each = function(from, "nattizhu_hmac_each");
  static _Alignas(64) uint8_t states[MOST][128]; // a state takes 113 of 128 bytes
  our_pieces(added, states[added - libraries]);
  *(void **)&added->init = function(from, "nattizhu_init");
  *(void **)&added->update = function(from, "nattizhu_update");
  *(void **)&added->final = function(from, "nattizhu_final");
  *(void **)&added->derive = function(from, "nattizhu_pbkdf2");
  *(void **)&added->derive_list = function(from, "nattizhu_pbkdf2_list");
}

void add_libraries(char **files) {
  for (; files[ours] && ours + 5 < MOST; ours++)
    add_ours(files[ours]);
  void *found;
  if ((found = find("librhash", 1, 0)))
    add_rhash(found);
  if ((found = find("libgcrypt", 20, 20)))
    add_gcrypt(found);
  if ((found = find("libavutil", 60, 52)))
    add_avutil(found);
  if ((found = find("libnettle", 8, 6)))
    add_nettle(found);
  if ((found = find("libcrypto", 3, 3)))
    add_openssl(found);
}
