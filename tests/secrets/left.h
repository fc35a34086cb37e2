// What a call leaves on the stack below its caller, for the programs here.
#include <stddef.h>
#include <stdint.h>
#include <string.h>
#include <ucontext.h>

enum { STACK = 65536, UNTOUCHED = 0xa5 };

// Any bytes, which are written by no function of the C library.
static uint32_t seed;

static void fill(uint8_t *bytes, size_t length) {
  for (size_t i = 0; i < length; i++)
    ((volatile uint8_t *)bytes)[i] = (uint8_t)((seed = seed * 1664525 + 1013904223) >> 24);
}

// Makes a call on a stack of its own, and copies what then stands there.
static void run(void (*function)(void), uint8_t left[STACK]) {
  static uint8_t stack[STACK] __attribute__((aligned(64)));
  static ucontext_t here, there;
  for (size_t i = 0; i < STACK; i++)
    ((volatile uint8_t *)stack)[i] = UNTOUCHED;
  getcontext(&there);
  there.uc_stack.ss_sp = stack;
  there.uc_stack.ss_size = STACK;
  there.uc_link = &here;
  makecontext(&there, function, 0);
  swapcontext(&here, &there);
  memcpy(left, stack, STACK);
}

// How often a word of a secret stands there, at any place.
static size_t words_of(const uint8_t *secret, size_t length, const uint8_t left[STACK]) {
  size_t found = 0;
  for (size_t at = 0; at + 4 <= STACK; at++)
    for (size_t word = 0; word + 4 <= length; word += 4)
      found += !memcmp(left + at, secret + word, 4);
  return found;
}
