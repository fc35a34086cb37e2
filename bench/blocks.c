// Hashes by RIPEMD-160 with one of the libraries that libraries.c calls, and prints the digest:
// bench/arm64 counts the instructions. Without further arguments it prints the libraries' names.
//   blocks LEVEL=FILE.so [LIBRARY BLOCKS MESSAGES]      ours in FILE.so; messages of so many blocks
#include "libraries.h"
#include <stdio.h>
#include <stdlib.h>
#include <string.h>

enum { SIZE = 20, BLOCK = 64 };

int main(int argc, char **argv) {
  add_libraries((char *[]){argv[1], NULL});
  for (const struct library *by = libraries; by < libraries + count; by++) {
    if (argc < 5) {
      puts(by->name);
    } else if (!strcmp(by->name, argv[2])) {
      const size_t length = (size_t)atoi(argv[3]) * BLOCK, messages = (size_t)atoi(argv[4]);
      uint8_t *bytes = calloc(messages, length), *digests = calloc(messages, SIZE);
      if (messages > 1) {
        by->each(160, bytes, messages * length, length, digests, messages * SIZE);
      } else {
        by->inits(by, 1);
        by->updates(by, bytes, length, 1);
        by->finals(by, digests, 1);
      }
      for (int i = 0; i < SIZE; i++)
        printf("%02x", digests[i]);
    }
  }
}
