// What the first call of a program with a key leaves on the stack below its caller, where the
// loader has still to find the functions of the C library that it calls: prints how often words of
// the key stand there, and of the key with either mask.
//   left NUMBER        which call is the first
#include <stdio.h>
#include <stdlib.h>

#include "left.h"
#include "nattizhu.h"

enum { SIZE = NATTIZHU_RIPEMD160_SIZE, KEY = 32 };

static uint8_t key[KEY], text[100], output[100];
static nattizhu_hmac_state state;
static nattizhu_message list[1];
static bool answer;

static void make_tag(void) {
  answer = nattizhu_hmac(NATTIZHU_RIPEMD160, key, KEY, text, sizeof text, output, SIZE);
}

static void make_state(void) {
  answer = nattizhu_hmac_init(NATTIZHU_RIPEMD160, &state, key, KEY);
}

static void make_tags(void) {
  answer = nattizhu_hmac_list(NATTIZHU_RIPEMD160, key, KEY, list, 1, output, SIZE);
}

int main(int argc, char **argv) {
  static void (*const calls[])(void) = {make_tag, make_state, make_tags};
  static uint8_t left[STACK];
  fill(key, KEY);
  list[0].bytes = key;
  list[0].length = KEY;
  run(calls[argc > 1 ? atoi(argv[1]) : 0], left);
  for (int mask = 0; mask < 3; mask++) {
    static const uint8_t masks[] = {0, 0x36, 0x5c};
    uint8_t masked[KEY];
    for (int i = 0; i < KEY; i++)
      masked[i] = key[i] ^ masks[mask];
    printf("%zu ", words_of(masked, KEY, left));
  }
  printf("\n");
  return !answer;
}
