// Tries what only C sees of the provider, which OPENSSL_MODULES leads to: the functions that it
// hands to OpenSSL, memory, places of every size, what it refuses, library contexts and threads.
//   evp PAIRS   so many pairs of library contexts. Standard input has lines of a variant, a length
//               and the digest of the bytes 0, 1, 2 and so on, which others gave
#include <malloc.h>
#include <openssl/core_dispatch.h>
#include <openssl/core_names.h>
#include <openssl/err.h>
#include <openssl/evp.h>
#include <openssl/params.h>
#include <openssl/provider.h>
#include <pthread.h>
#include <stdbool.h>
#include <stdio.h>
#include <stdlib.h>
#include <string.h>

#define OURS "provider=nattizhu"

enum { MOST = 12288, THREADS = 8 };

#define COUNT(array) (sizeof(array) / sizeof(array)[0])

static _Atomic int tried, failed;

static void check(bool right, const char *what, size_t at) {
  tried++;
  if (!right && failed++ < 10) {
    printf("evp: FAILED: %s, %zu\n", what, at);
    ERR_print_errors_fp(stdout);
  }
}

static void must(bool right, const char *what) {
  if (right)
    return;
  printf("evp: %s\n", what);
  ERR_print_errors_fp(stdout);
  exit(2);
}

// ---- OpenSSL's memory: how many blocks it took and gave back, whether the next request fails, and
// whether all that was given back since then was zeros

static _Atomic size_t taken, given;
static _Atomic bool refuse, wiped;

// Bytes that could be a state, and zeros behind them, which malloc_usable_size may count too.
static void *take(size_t size, const char *file, int line) {
  (void)file, (void)line;
  void *bytes = refuse ? NULL : calloc(1, size);
  taken += bytes != NULL;
  return bytes ? memset(bytes, 20, size) : NULL;
}

static void give(void *bytes, const char *file, int line) {
  (void)file, (void)line;
  for (size_t i = 0; wiped && i < malloc_usable_size(bytes); i++)
    wiped = !((unsigned char *)bytes)[i];
  given += bytes != NULL;
  free(bytes);
}

// ---- library contexts

struct loaded {
  OSSL_LIB_CTX *library;
  OSSL_PROVIDER *other, *ours;
};

// A library context with another provider, if it is named, and then ours.
static struct loaded load(const char *other) {
  struct loaded l = {OSSL_LIB_CTX_new(), NULL, NULL};
  must((!other || (l.other = OSSL_PROVIDER_load(l.library, other))) &&
           (l.ours = OSSL_PROVIDER_load(l.library, "nattizhu")),
       "a provider is not loaded");
  return l;
}

static void unload(struct loaded l) {
  must((!l.other || OSSL_PROVIDER_unload(l.other)) && OSSL_PROVIDER_unload(l.ours),
       "a provider is not unloaded");
  OSSL_LIB_CTX_free(l.library);
}

// ---- the functions themselves, which have to do what OpenSSL's own do

#define EACH_FUNCTION(DO)                                                                          \
  DO(NEWCTX, newctx)                                                                               \
  DO(FREECTX, freectx)                                                                             \
  DO(DUPCTX, dupctx) DO(INIT, init) DO(UPDATE, update) DO(FINAL, final) DO(DIGEST, digest)
#define MEMBER(NUMBER, name) OSSL_FUNC_digest_##name##_fn *name;
#define TAKE(NUMBER, name)                                                                         \
  if (d->function_id == OSSL_FUNC_DIGEST_##NUMBER)                                                 \
    f.name = OSSL_FUNC_digest_##name(d);

struct functions {
  EACH_FUNCTION(MEMBER)
};

static struct functions functions_of(OSSL_PROVIDER *provider, int bits) {
  struct functions f = {0};
  char names[20];
  int no_cache = 2;
  const OSSL_ALGORITHM *a = OSSL_PROVIDER_query_operation(provider, OSSL_OP_DIGEST, &no_cache);
  snprintf(names, sizeof names, "RIPEMD-%d:", bits);
  while (a && a->algorithm_names && strncmp(a->algorithm_names, names, strlen(names)))
    a++;
  must(a && a->algorithm_names && !no_cache, names);
  for (const OSSL_DISPATCH *d = a->implementation; d->function_id; d++) {
    EACH_FUNCTION(TAKE)
  }
  return f;
}

static void try_digest(const struct functions *f, const unsigned char *message, size_t length,
                       const unsigned char *wanted, size_t size) {
  static const size_t PIECES[] = {1, 3, 63, 64, 65, MOST};
  static const OSSL_PARAM NONE[] = {OSSL_PARAM_END};
  const size_t rooms[] = {0, 1, size - 1, size, size + 1, (size_t)-1};
  const size_t taken_before = taken, given_before = given;
  unsigned char digest[EVP_MAX_MD_SIZE], expected[EVP_MAX_MD_SIZE];
  size_t contexts = 1, got = 7;
  void *context = f->newctx(NULL);
  wiped = true;
  refuse = true;
  check(context && !f->newctx(NULL) && !f->dupctx(context), "without memory", length);
  refuse = false;

  // Where OpenSSL's own, which have no such call for a whole message, write what is no digest.
  if (f->digest)
    check(!f->update(context, message, 1) && !f->final(context, digest, &got, sizeof digest) &&
              got == 7,
          "before init", length);
  for (size_t p = 0; p < COUNT(PIECES); p++) {
    bool right = f->init(context, NULL) && f->update(context, NULL, 0);
    for (size_t at = 0; at < length; at += PIECES[p]) {
      // Often one of a context and its copy goes on, and the other takes other bytes and is freed.
      if (PIECES[p] > 3 || at % 7 == 0) {
        void *both[] = {context, f->dupctx(context)};
        context = both[at % 2];
        right = right && both[1] && both[0] != both[1] && f->update(both[1 - at % 2], wanted, size);
        f->freectx(both[1 - at % 2]);
        contexts++;
      }
      right = right &&
              f->update(context, message + at, length - at < PIECES[p] ? length - at : PIECES[p]);
    }
    check(right && f->final(context, digest, &got, size) && got == size &&
              !memcmp(digest, wanted, size),
          "pieces and copies", length);
  }

  for (size_t r = 0; r < COUNT(rooms); r++)
    for (int one = 0; one <= (f->digest != NULL); one++) {
      const bool fits = rooms[r] >= size;
      memset(expected, got = 7, sizeof expected);
      memset(digest, 7, sizeof digest);
      memcpy(expected, wanted, fits ? size : 0);
      const bool done =
          one ? f->digest(NULL, length ? message : NULL, length, digest, &got, rooms[r])
              : f->init(context, NONE) && f->update(context, message, 0) &&
                    f->update(context, message, length) &&
                    f->final(context, digest, &got, rooms[r]);
      check(done == fits && got == (fits ? size : 7) && !memcmp(digest, expected, sizeof digest),
            one ? "one call" : "final", rooms[r]);
    }

  f->freectx(context);
  f->freectx(NULL);
  check(wiped && taken - taken_before == contexts && given - given_before == contexts,
        "one block for a context, of zeros at the end", length);
  wiped = false;
}

static void digests(void) {
  static unsigned char message[MOST];
  unsigned char wanted[EVP_MAX_MD_SIZE];
  char text[2 * EVP_MAX_MD_SIZE + 1];
  int bits;
  size_t length, size;
  struct loaded l = load("default");
  for (size_t i = 0; i < MOST; i++)
    message[i] = (unsigned char)i;
  while (scanf("%d %zu %128s", &bits, &length, text) == 3) {
    must(length <= MOST && OPENSSL_hexstr2buf_ex(wanted, sizeof wanted, &size, text, '\0'), text);
    const struct functions ours = functions_of(l.ours, bits);
    check(ours.digest != NULL, "one call", length);
    try_digest(&ours, message, length, wanted, size);
    if (bits == 160) {
      const struct functions theirs = functions_of(l.other, bits);
      try_digest(&theirs, message, length, wanted, size);
    }
  }
  unload(l);
}

// ---- parameters, and what else is refused

// Whether both answer alike when they are asked for a value of this type and size, or, without a
// name, for none: with a size for one that is their own.
static bool alike(const EVP_MD *const both[2], const char *name, unsigned type, size_t size) {
  long long answers[2][5];
  for (int i = 0; i < 2; i++) {
    _Alignas(double) unsigned char value[32];
    OSSL_PARAM params[] = {{name, type, size ? value : NULL, size, OSSL_PARAM_UNMODIFIED},
                           OSSL_PARAM_END};
    int64_t number;
    memset(value, 0x5a, sizeof value);
    ERR_clear_error();
    const int answered = EVP_MD_get_params(both[i], params);
    const unsigned long error = ERR_peek_last_error();
    if (!answered || !OSSL_PARAM_modified(params) || !size ||
        !OSSL_PARAM_get_int64(params, &number))
      number = value[0];
    else if (!strcmp(name, OSSL_DIGEST_PARAM_SIZE))
      number -= EVP_MD_get_size(both[i]);
    const long long all[] = {answered, (long long)params[0].return_size, number, value[size],
                             (long long)error};
    memcpy(answers[i], all, sizeof all);
  }
  return !memcmp(answers[0], answers[1], sizeof answers[0]);
}

static void parameters(void) {
  static const int BITS[] = {128, 160, 256, 320};
  static const char *const NAMES[] = {OSSL_DIGEST_PARAM_SIZE, OSSL_DIGEST_PARAM_BLOCK_SIZE,
                                      "unknown", NULL};
  static const unsigned TYPES[] = {OSSL_PARAM_UNSIGNED_INTEGER, OSSL_PARAM_INTEGER, OSSL_PARAM_REAL,
                                   OSSL_PARAM_UTF8_STRING};
  static const size_t SIZES[] = {0, 1, 2, 4, 8, 16};
  struct loaded l = load("default");
  EVP_MD *theirs = EVP_MD_fetch(l.library, "RIPEMD-160", "provider=default");
  for (size_t v = 0; v < COUNT(BITS); v++) {
    char name[20];
    snprintf(name, sizeof name, "RIPEMD-%d", BITS[v]);
    EVP_MD *ours = EVP_MD_fetch(l.library, name, OURS);
    check(EVP_MD_get_size(ours) == BITS[v] / 8 && EVP_MD_get_block_size(ours) == 64 &&
              EVP_MD_get_flags(ours) == 0 && EVP_MD_get_params(ours, NULL),
          name, 0);
    for (size_t n = 0; n < COUNT(NAMES); n++)
      for (size_t t = 0; t < COUNT(TYPES); t++)
        for (size_t s = 0; s < COUNT(SIZES); s++)
          check(alike((const EVP_MD *[]){ours, theirs}, NAMES[n], TYPES[t], SIZES[s]),
                "an answer of OpenSSL's own", 100 * n + 10 * t + s);
    EVP_MD_free(ours);
  }
  EVP_MD_free(theirs);

  int number = 7;
  OSSL_PARAM params[] = {OSSL_PARAM_construct_int(OSSL_PROV_PARAM_NAME, &number), OSSL_PARAM_END};
  check(!OSSL_PROVIDER_get_params(l.ours, params), "a name as a number", 0);
  for (int operation = 0; operation <= OSSL_OP__HIGHEST; operation++)
    check((OSSL_PROVIDER_query_operation(l.ours, operation, &number) != NULL) ==
              (operation == OSSL_OP_DIGEST),
          "an operation", (size_t)operation);
  unload(l);
}

// ---- many library contexts, and many threads

// The digest of "abc" or of nothing, by turns.
static void use(OSSL_LIB_CTX *library, int turn) {
  static const unsigned char DIGESTS[][20] = {
      {0x8e, 0xb2, 0x08, 0xf7, 0xe0, 0x5d, 0x98, 0x7a, 0x9b, 0x04,
       0x4a, 0x8e, 0x98, 0xc6, 0xb0, 0x87, 0xf1, 0x5a, 0x0b, 0xfc},
      {0x9c, 0x11, 0x85, 0xa5, 0xc5, 0xe9, 0xfc, 0x54, 0x61, 0x28,
       0x08, 0x97, 0x7e, 0xe8, 0xf5, 0x48, 0xb2, 0x25, 0x8d, 0x31}};
  unsigned char digest[EVP_MAX_MD_SIZE];
  size_t size = 0;
  check(EVP_Q_digest(library, "RIPEMD-160", OURS, "abc", turn % 2 ? 0 : 3, digest, &size) &&
            size == sizeof DIGESTS[0] && !memcmp(digest, DIGESTS[turn % 2], size),
        "a library context", 0);
}

// Two at once; the one that was loaded last stays in use when the other one is gone.
static void use_two(int turn) {
  struct loaded first = load(NULL), second = load(turn % 2 ? "base" : NULL);
  use(first.library, turn);
  unload(first);
  use(second.library, turn);
  unload(second);
}

static void *work(void *library) {
  for (int i = 0; i < 12; i++) {
    use_two(i);
    for (int j = 0; j < 10; j++)
      use(library, j);
  }
  return NULL;
}

static void threads(void) {
  struct loaded l = load("base");
  pthread_t all[THREADS];
  for (int i = 0; i < THREADS; i++)
    must(!pthread_create(&all[i], NULL, work, l.library), "there is no thread");
  for (int i = 0; i < THREADS; i++)
    pthread_join(all[i], NULL);
  unload(l);
}

int main(int argc, char **argv) {
  must(argc == 2 && CRYPTO_set_mem_functions(take, NULL, give), "evp PAIRS");
  digests();
  parameters();
  for (int i = 0; i < atoi(argv[1]); i++)
    use_two(i);
  threads();
  printf("evp: %d of %d cases as expected\n", tried - failed, tried);
  return failed != 0;
}
