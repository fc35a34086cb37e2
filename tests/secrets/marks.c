// Tells memcheck what is secret, for the programs here in other languages. Outside of valgrind
// nothing is done.
#include <stddef.h>
#include <valgrind/memcheck.h>

// These bytes are secret: no jump and no address may depend on them.
void mark_secret(const void *bytes, size_t length) {
  (void)VALGRIND_MAKE_MEM_UNDEFINED(bytes, length);
}

// How many of these bytes depend on no secret, wholly or in part.
size_t count_known(const void *bytes, size_t length) {
  size_t known = 0;
  for (size_t i = 0; i < length; i++) {
    unsigned char unknown_bits = 0;
    known += VALGRIND_GET_VBITS((const char *)bytes + i, &unknown_bits, 1) != 1 || !unknown_bits;
  }
  return known;
}
