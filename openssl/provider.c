/* A provider of OpenSSL 3 over libnattizhu: the hash functions RIPEMD-128, -160, -256 and -320.
 * OpenSSL itself makes HMAC, PBKDF2 and signatures of them. What each function has to do is in
 * OpenSSL's pages provider(7), provider-base(7) and provider-digest(7). */
#include <openssl/core_dispatch.h>
#include <openssl/core_names.h>
#include <openssl/crypto.h>
#include <openssl/err.h>
#include <openssl/params.h>
#include <openssl/proverr.h>

#include "nattizhu.h"

/* ---- Digests. A context is a nattizhu_state, whose first byte is the size of its digests. How
 * many bytes wait for a block stands behind its chaining value and count. Before init it is zeros,
 * which are no state. */

/* The answer of a call that hashed a block, after what it left of the message is wiped: in an HMAC
 * by OpenSSL it is of the key. */
static int wiped(int answer) {
  nattizhu_wipe(NULL, 0);
  return answer;
}

static OSSL_FUNC_digest_newctx_fn new_context;
static void *new_context(void *provider) {
  (void)provider;
  return OPENSSL_zalloc(sizeof(nattizhu_state));
}

static OSSL_FUNC_digest_freectx_fn free_context;
static void free_context(void *context) { OPENSSL_clear_free(context, sizeof(nattizhu_state)); }

static OSSL_FUNC_digest_dupctx_fn copy_context;
static void *copy_context(void *context) { return OPENSSL_memdup(context, sizeof(nattizhu_state)); }

static OSSL_FUNC_digest_update_fn update;
static int update(void *context, const unsigned char *bytes, size_t length) {
  const nattizhu_state *state = context;
  const size_t waiting = state->bytes[1 + state->bytes[0] + 8];
  const int answer = nattizhu_update(context, bytes, length);
  return length < NATTIZHU_BLOCK_SIZE - waiting ? answer : wiped(answer);
}

static OSSL_FUNC_digest_final_fn final;
static int final(void *context, unsigned char *digest, size_t *length, size_t room) {
  const nattizhu_state *state = context;
  const size_t size = state->bytes[0];
  if (room < size || !wiped(nattizhu_final(state, digest, size)))
    return 0;
  *length = size;
  return 1;
}

static OSSL_FUNC_digest_gettable_params_fn gettable_params;
static const OSSL_PARAM *gettable_params(void *provider) {
  static const OSSL_PARAM gettable[] = {OSSL_PARAM_size_t(OSSL_DIGEST_PARAM_BLOCK_SIZE, NULL),
                                        OSSL_PARAM_size_t(OSSL_DIGEST_PARAM_SIZE, NULL),
                                        OSSL_PARAM_END};
  (void)provider;
  return gettable;
}

static int get_params(OSSL_PARAM params[], size_t size) {
  OSSL_PARAM *of_block = OSSL_PARAM_locate(params, OSSL_DIGEST_PARAM_BLOCK_SIZE);
  OSSL_PARAM *of_digest = OSSL_PARAM_locate(params, OSSL_DIGEST_PARAM_SIZE);
  if ((of_block && !OSSL_PARAM_set_size_t(of_block, NATTIZHU_BLOCK_SIZE)) ||
      (of_digest && !OSSL_PARAM_set_size_t(of_digest, size))) {
    ERR_raise(ERR_LIB_PROV, PROV_R_FAILED_TO_SET_PARAMETER);
    return 0;
  }
  return 1;
}

#define FUNCTION(kind, function)                                                                   \
  { OSSL_FUNC_DIGEST_##kind, (void (*)(void))(function) }

/* The functions of a variant. */
#define VARIANT(bits)                                                                              \
  static OSSL_FUNC_digest_init_fn init_##bits;                                                     \
  static int init_##bits(void *context, const OSSL_PARAM params[]) {                               \
    (void)params;                                                                                  \
    return nattizhu_init(NATTIZHU_RIPEMD##bits, context);                                          \
  }                                                                                                \
                                                                                                   \
  static OSSL_FUNC_digest_digest_fn digest_##bits;                                                 \
  static int digest_##bits(void *provider, const unsigned char *message, size_t message_length,    \
                           unsigned char *digest, size_t *length, size_t room) {                   \
    (void)provider;                                                                                \
    if (room < NATTIZHU_RIPEMD##bits##_SIZE ||                                                     \
        !wiped(nattizhu_digest(NATTIZHU_RIPEMD##bits, message, message_length, digest,             \
                               NATTIZHU_RIPEMD##bits##_SIZE)))                                     \
      return 0;                                                                                    \
    *length = NATTIZHU_RIPEMD##bits##_SIZE;                                                        \
    return 1;                                                                                      \
  }                                                                                                \
                                                                                                   \
  static OSSL_FUNC_digest_get_params_fn get_params_##bits;                                         \
  static int get_params_##bits(OSSL_PARAM params[]) {                                              \
    return get_params(params, NATTIZHU_RIPEMD##bits##_SIZE);                                       \
  }                                                                                                \
                                                                                                   \
  static const OSSL_DISPATCH functions_##bits[] = {FUNCTION(NEWCTX, new_context),                  \
                                                   FUNCTION(FREECTX, free_context),                \
                                                   FUNCTION(DUPCTX, copy_context),                 \
                                                   FUNCTION(INIT, init_##bits),                    \
                                                   FUNCTION(UPDATE, update),                       \
                                                   FUNCTION(FINAL, final),                         \
                                                   FUNCTION(DIGEST, digest_##bits),                \
                                                   FUNCTION(GET_PARAMS, get_params_##bits),        \
                                                   FUNCTION(GETTABLE_PARAMS, gettable_params),     \
                                                   {0, NULL}};

VARIANT(128)
VARIANT(160)
VARIANT(256)
VARIANT(320)

/* ---- The provider. It keeps nothing, and so needs no teardown. */

static OSSL_FUNC_provider_gettable_params_fn provider_gettable_params;
static const OSSL_PARAM *provider_gettable_params(void *provider) {
  static const OSSL_PARAM gettable[] = {
      OSSL_PARAM_DEFN(OSSL_PROV_PARAM_NAME, OSSL_PARAM_UTF8_PTR, NULL, 0),
      OSSL_PARAM_DEFN(OSSL_PROV_PARAM_VERSION, OSSL_PARAM_UTF8_PTR, NULL, 0),
      OSSL_PARAM_DEFN(OSSL_PROV_PARAM_BUILDINFO, OSSL_PARAM_UTF8_PTR, NULL, 0),
      OSSL_PARAM_DEFN(OSSL_PROV_PARAM_STATUS, OSSL_PARAM_INTEGER, NULL, 0), OSSL_PARAM_END};
  (void)provider;
  return gettable;
}

static OSSL_FUNC_provider_get_params_fn provider_get_params;
static int provider_get_params(void *provider, OSSL_PARAM params[]) {
  OSSL_PARAM *name = OSSL_PARAM_locate(params, OSSL_PROV_PARAM_NAME);
  OSSL_PARAM *version = OSSL_PARAM_locate(params, OSSL_PROV_PARAM_VERSION);
  OSSL_PARAM *build = OSSL_PARAM_locate(params, OSSL_PROV_PARAM_BUILDINFO);
  OSSL_PARAM *status = OSSL_PARAM_locate(params, OSSL_PROV_PARAM_STATUS);
  (void)provider;
  return (!name || OSSL_PARAM_set_utf8_ptr(name, "Nattizhu")) &&
         (!version || OSSL_PARAM_set_utf8_ptr(version, NATTIZHU_VERSION)) &&
         (!build || OSSL_PARAM_set_utf8_ptr(build, nattizhu_version())) &&
         (!status || OSSL_PARAM_set_int(status, 1));
}

/* RIPEMD-160 has the names that OpenSSL gives it, and the others like ones; RIPEMD-320 has no OID. */
static OSSL_FUNC_provider_query_operation_fn query_operation;
static const OSSL_ALGORITHM *query_operation(void *provider, int operation, int *no_cache) {
  static const char ours[] = "provider=nattizhu";
  static const OSSL_ALGORITHM digests[] = {
      {"RIPEMD-128:RIPEMD128:RMD128:1.3.36.3.2.2", ours, functions_128, NULL},
      {"RIPEMD-160:RIPEMD160:RIPEMD:RMD160:1.3.36.3.2.1", ours, functions_160, NULL},
      {"RIPEMD-256:RIPEMD256:RMD256:1.3.36.3.2.3", ours, functions_256, NULL},
      {"RIPEMD-320:RIPEMD320:RMD320", ours, functions_320, NULL},
      {NULL, NULL, NULL, NULL}};
  (void)provider;
  *no_cache = 0;
  return operation == OSSL_OP_DIGEST ? digests : NULL;
}

/* A library whose states have another size than a context is refused. */
int OSSL_provider_init(const OSSL_CORE_HANDLE *handle, const OSSL_DISPATCH *core,
                       const OSSL_DISPATCH **functions, void **provider) {
  static const OSSL_DISPATCH own[] = {
      {OSSL_FUNC_PROVIDER_GETTABLE_PARAMS, (void (*)(void))provider_gettable_params},
      {OSSL_FUNC_PROVIDER_GET_PARAMS, (void (*)(void))provider_get_params},
      {OSSL_FUNC_PROVIDER_QUERY_OPERATION, (void (*)(void))query_operation},
      {0, NULL}};
  (void)handle, (void)core, (void)provider;
  if (nattizhu_state_size() != sizeof(nattizhu_state)) {
    ERR_raise_data(ERR_LIB_PROV, ERR_R_INIT_FAIL, "libnattizhu is %s, and this provider for %s",
                   nattizhu_version(), NATTIZHU_VERSION);
    return 0;
  }
  *functions = own;
  return 1;
}
