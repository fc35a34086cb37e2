// What OpenSSL's HMAC over a provider's RIPEMD-160 leaves on the stack below its caller: prints how
// often words of the key stand there, of the key with either mask, and of the inner and the outer
// chaining value.
//   left_evp PROVIDER
#include <openssl/core_names.h>
#include <openssl/evp.h>
#include <openssl/provider.h>
#include <stdio.h>
#include <stdlib.h>

#include "left.h"
#include "nattizhu.h"

enum { SIZE = NATTIZHU_RIPEMD160_SIZE, KEY = 32 };

static uint8_t key[KEY], text[100], tag[SIZE];
static EVP_MAC_CTX *context;
static OSSL_PARAM params[3];

static void must(bool right) {
  if (!right)
    abort();
}

static void make_tag(void) {
  size_t length;
  must(EVP_MAC_init(context, key, sizeof key, params) &&
       EVP_MAC_update(context, text, sizeof text) &&
       EVP_MAC_final(context, tag, &length, sizeof tag));
}

int main(int argc, char **argv) {
  static uint8_t left[STACK];
  char digest[] = "RIPEMD-160", properties[50];
  uint8_t inner[KEY], outer[KEY], saved[NATTIZHU_HMAC_SAVED_SIZE(SIZE)];
  nattizhu_hmac_state state;
  must(argc > 1 && OSSL_PROVIDER_load(NULL, "default") && OSSL_PROVIDER_load(NULL, argv[1]));
  snprintf(properties, sizeof properties, "provider=%s", argv[1]);
  params[0] = OSSL_PARAM_construct_utf8_string(OSSL_MAC_PARAM_DIGEST, digest, 0);
  params[1] = OSSL_PARAM_construct_utf8_string(OSSL_MAC_PARAM_PROPERTIES, properties, 0);
  params[2] = OSSL_PARAM_construct_end();
  context = EVP_MAC_CTX_new(EVP_MAC_fetch(NULL, "HMAC", NULL));
  must(context);
  make_tag(); // once elsewhere, since the first call finds the digest
  fill(key, sizeof key);
  run(make_tag, left);
  for (int i = 0; i < KEY; i++) {
    inner[i] = key[i] ^ 0x36;
    outer[i] = key[i] ^ 0x5c;
  }
  must(nattizhu_hmac_init(NATTIZHU_RIPEMD160, &state, key, sizeof key) &&
       nattizhu_hmac_save(&state, saved, sizeof saved));
  const uint8_t *const secrets[] = {key, inner, outer, saved, saved + SIZE + 72};
  const size_t sizes[] = {KEY, KEY, KEY, SIZE, SIZE};
  for (int i = 0; i < 5; i++)
    printf("%zu ", words_of(secrets[i], sizes[i], left));
  printf("\n");
  return 0;
}
