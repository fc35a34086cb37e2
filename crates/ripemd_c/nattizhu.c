/* The functions of nattizhu.h over the proved ones of this crate, whose names end in `_nonnull`:
 * they refuse null pointers that should lead to something, replace those that lead to nothing, and
 * hand on in groups the lists that have such. After calls with secrets they clear the stack and the
 * registers. */
#include "nattizhu.h"

#include <string.h>
#ifdef __x86_64__
#include <cpuid.h>
#endif

/* What the functions in Rattle take these types for. */
_Static_assert(sizeof(nattizhu_variant) == 4, "a variant has 32 bits");
_Static_assert(sizeof(size_t) == 8, "a length has 64 bits");
_Static_assert(sizeof(nattizhu_state) == 113, "a state has 113 bytes");
_Static_assert(sizeof(nattizhu_hmac_state) == 225, "a state of HMAC has 225 bytes");
_Static_assert(sizeof(nattizhu_message) == 16 && offsetof(nattizhu_message, length) == 8,
               "a message is an address and a length");

/* Messages of such a list that are handed on at once. */
enum { MESSAGES_AT_ONCE = 128 };

/* The words of a vector by which lists go: four on x86-64 without AVX2, where it takes less time
 * (docs/DECISIONS.md), and elsewhere eight. On ARM64 neither was timed. */
#if defined __x86_64__ && !defined __AVX2__
enum { WORDS = 4 };
#else
enum { WORDS = 8 };
#endif

bool nattizhu_digest_nonnull(nattizhu_variant, const uint8_t *, size_t, uint8_t *, size_t);
bool nattizhu_each_nonnull(nattizhu_variant, uint32_t, const uint8_t *, size_t, size_t, uint8_t *,
                           size_t);
bool nattizhu_list_nonnull(nattizhu_variant, uint32_t, const nattizhu_message *, size_t, uint8_t *,
                           size_t);
bool nattizhu_update_nonnull(nattizhu_state *, const uint8_t *, size_t);
bool nattizhu_final_nonnull(const nattizhu_state *, uint8_t *, size_t);
bool nattizhu_save_nonnull(const nattizhu_state *, uint8_t *, size_t);
bool nattizhu_load_nonnull(nattizhu_variant, nattizhu_state *, const uint8_t *, size_t);
bool nattizhu_hmac_nonnull(nattizhu_variant, const uint8_t *, size_t, const uint8_t *, size_t,
                           uint8_t *, size_t);
bool nattizhu_hmac_verify_text_nonnull(nattizhu_variant, const uint8_t *, size_t, const uint8_t *,
                                       size_t, const uint8_t *, size_t);
bool nattizhu_hmac_each_nonnull(nattizhu_variant, uint32_t, const uint8_t *, size_t,
                                const uint8_t *, size_t, size_t, uint8_t *, size_t);
bool nattizhu_hmac_list_nonnull(nattizhu_variant, uint32_t, const uint8_t *, size_t,
                                const nattizhu_message *, size_t, uint8_t *, size_t);
bool nattizhu_hmac_init_nonnull(nattizhu_variant, nattizhu_hmac_state *, const uint8_t *, size_t);
bool nattizhu_hmac_update_nonnull(nattizhu_hmac_state *, const uint8_t *, size_t);
bool nattizhu_hmac_final_nonnull(const nattizhu_hmac_state *, uint8_t *, size_t);
bool nattizhu_hmac_verify_nonnull(const nattizhu_hmac_state *, const uint8_t *, size_t);
bool nattizhu_hmac_save_nonnull(const nattizhu_hmac_state *, uint8_t *, size_t);
bool nattizhu_hmac_load_nonnull(nattizhu_variant, nattizhu_hmac_state *, const uint8_t *, size_t);
bool nattizhu_pbkdf2_nonnull(nattizhu_variant, const uint8_t *, size_t, const uint8_t *, size_t,
                             uint32_t, uint8_t *, size_t);
bool nattizhu_pbkdf2_list_nonnull(nattizhu_variant, const nattizhu_message *, size_t,
                                  const nattizhu_message *, size_t, uint32_t, size_t, uint8_t *,
                                  size_t);

/* How many bytes of the stack below its caller a call uses at most, as tests/machine shows of each
 * build, in multiples of 64: one that copies a state, appends to one, ends one, hashes a message,
 * makes a tag, works on many, or makes keys. */
enum { COPY = 64, APPEND = 1024, END = 1472, HASH = 1280, TAG = 2048, MANY = 5248, KEYS = 7424 };

/* How many more, in multiples of 64, each time that records are halved, until there are 32. */
enum { HALVING = 320 };

/* Overwrites so many bytes with zeros. The compiler can't leave that out: it may not know that the
 * function is still memset. */
static void wipe(void *pointer, size_t size) {
  static void *(*const volatile set)(void *, int, size_t) = memset;
  if (size != 0)
    set(pointer, 0, size);
}

/* The registers for vectors that there are: the C library copies by all of them. */
static enum { SSE, AVX, AVX512 } vectors;

/* Runs when the program starts. The loader finds here the functions of the C library that calls
 * use: where it does so at their first use, it stores registers on the stack, deeper than calls
 * reach. */
__attribute__((constructor)) static void prepare(void) {
  static uint8_t bytes[2];
  volatile size_t none = 0;
  memcpy(bytes, bytes + 1, none);
  memmove(bytes, bytes + 1, none);
  memset(bytes, 0, none);
#ifdef __x86_64__
  unsigned int eax, ebx, ecx, edx, enabled = 0;
  if (__get_cpuid(1, &eax, &ebx, &ecx, &edx) && (ecx & bit_OSXSAVE) && (ecx & bit_AVX))
    __asm__("xgetbv" : "=a"(enabled), "=d"(edx) : "c"(0));
  if ((enabled & 6) == 6)
    vectors = AVX;
  if ((enabled & 0xe6) == 0xe6 && __get_cpuid_count(7, 0, &eax, &ebx, &ecx, &edx) &&
      (ebx & bit_AVX512VL))
    vectors = AVX512;
#endif
}

/* Returns this answer of a call, after it has cleared what the call left in so many bytes below its
 * caller and in the registers that a call may change. It is in assembly, since a compiler may leave
 * a gap between its caller and what a function has on the stack. Of AVX-512 an instruction of 128
 * bits clears all 512 of a register; after one of 512 the processor is slower for a while. */
__attribute__((visibility("hidden"))) bool nattizhu_wiped(size_t depth, bool answer, int vectors);
__asm__(".text\n"
        ".globl nattizhu_wiped\n"
        ".hidden nattizhu_wiped\n"
        ".type nattizhu_wiped, STT_FUNC\n"
        "nattizhu_wiped:\n"
        "  .cfi_startproc\n"
#ifdef __x86_64__
        "  movzbl %sil, %eax\n"
        "  mov %rsp, %rcx\n"
        "  .cfi_def_cfa_register %rcx\n"
        "  sub %rdi, %rsp\n"
        "  mov %rsp, %rsi\n"
        "  test %edx, %edx\n"
        "  jnz 2f\n"
        "  .irp n,0,1,2,3,4,5,6,7,8,9,10,11,12,13,14,15\n"
        "  pxor %xmm\\n, %xmm\\n\n"
        "  .endr\n"
        "1:\n"
        "  .irp n,0,16,32,48\n"
        "  movups %xmm0, \\n(%rsi)\n"
        "  .endr\n"
        "  add $64, %rsi\n"
        "  cmp %rcx, %rsi\n"
        "  jne 1b\n"
        "  jmp 4f\n"
        "2:\n"
        "  .irp n,0,1,2,3,4,5,6,7,8,9,10,11,12,13,14,15\n"
        "  vpxor %xmm\\n, %xmm\\n, %xmm\\n\n"
        "  .endr\n"
        "3:\n"
        "  vmovups %ymm0, (%rsi)\n"
        "  vmovups %ymm0, 32(%rsi)\n"
        "  add $64, %rsi\n"
        "  cmp %rcx, %rsi\n"
        "  jne 3b\n"
        "  vzeroupper\n"
        "  cmp $2, %edx\n"
        "  jne 4f\n"
        "  .irp n,16,17,18,19,20,21,22,23,24,25,26,27,28,29,30,31\n"
        "  vpxorq %xmm\\n, %xmm\\n, %xmm\\n\n"
        "  .endr\n"
        "4:\n"
        "  mov %rcx, %rsp\n"
        "  .cfi_def_cfa_register %rsp\n"
        "  .irp n,ecx,edx,esi,edi,r8d,r9d,r10d,r11d\n"
        "  xor %\\n, %\\n\n"
        "  .endr\n"
#else
        "  hint #34\n" /* where a jump may lead, if the processor checks that */
        "  mov x2, sp\n"
        "  .cfi_def_cfa_register x2\n"
        "  sub x3, x2, x0\n"
        "  mov sp, x3\n"
        "  .irp n,0,1,2,3,4,5,6,7,16,17,18,19,20,21,22,23,24,25,26,27,28,29,30,31\n"
        "  movi v\\n\\().2d, #0\n"
        "  .endr\n"
        "  .irp n,8,9,10,11,12,13,14,15\n"
        "  mov v\\n\\().d[1], xzr\n" /* a call keeps the other half */
        "  .endr\n"
        "1:\n"
        "  stp q0, q0, [x3], #32\n"
        "  cmp x3, x2\n"
        "  b.ne 1b\n"
        "  mov sp, x2\n"
        "  .cfi_def_cfa_register sp\n"
        "  and w0, w1, #255\n"
        "  .irp n,1,2,3,4,5,6,7,8,9,10,11,12,13,14,15,16,17,18\n"
        "  mov x\\n, xzr\n"
        "  .endr\n"
#endif
        "  ret\n"
        "  .cfi_endproc\n"
        ".size nattizhu_wiped, . - nattizhu_wiped\n");

static bool wiped(size_t depth, bool answer) { return nattizhu_wiped(depth, answer, vectors); }

/* Whether so many bytes may be read. A null pointer that leads to nothing is replaced. */
static bool readable(const uint8_t **bytes, size_t length) {
  if (*bytes)
    return true;
  *bytes = (const uint8_t *)"";
  return length == 0;
}

/* The same of bytes that are written. */
static bool writable(uint8_t **bytes, size_t length) {
  static uint8_t none[1];
  if (*bytes)
    return true;
  *bytes = none;
  return length == 0;
}

/* The same of a list, whose messages stay. Sets `nulls` if one of them has a null pointer. */
static bool readable_list(const nattizhu_message **messages, size_t count, bool *nulls) {
  static const nattizhu_message none[1];
  if (!*messages) {
    *messages = none;
    return count == 0;
  }
  for (size_t i = 0; i < count; i++)
    if (!(*messages)[i].bytes) {
      if ((*messages)[i].length != 0)
        return false;
      *nulls = true;
    }
  return true;
}

/* The messages of a list from a place on, a group at most, without null pointers. Returns how
 * many. */
static size_t next_group(nattizhu_message group[MESSAGES_AT_ONCE],
                         const nattizhu_message *messages, size_t at, size_t count) {
  size_t n = count - at < MESSAGES_AT_ONCE ? count - at : MESSAGES_AT_ONCE;
  for (size_t i = 0; i < n; i++) {
    group[i] = messages[at + i];
    if (!group[i].bytes)
      group[i].bytes = (const uint8_t *)"";
  }
  return n;
}

/* Whether a length is so many times a size. */
static bool is_product(size_t length, size_t count, size_t size) {
  size_t product;
  return !__builtin_mul_overflow(count, size, &product) && length == product;
}

const char *nattizhu_version(void) { return NATTIZHU_VERSION; }

size_t nattizhu_state_size(void) { return sizeof(nattizhu_state); }

size_t nattizhu_hmac_state_size(void) { return sizeof(nattizhu_hmac_state); }

void nattizhu_wipe(void *pointer, size_t size) {
  wipe(pointer, size);
  wiped(HASH, true);
}

bool nattizhu_digest(nattizhu_variant variant, const uint8_t *message, size_t length,
                     uint8_t *digest, size_t digest_length) {
  return readable(&message, length) && writable(&digest, digest_length) &&
         nattizhu_digest_nonnull(variant, message, length, digest, digest_length);
}

bool nattizhu_each(nattizhu_variant variant, const uint8_t *records, size_t length, size_t size,
                   uint8_t *digests, size_t digests_length) {
  return readable(&records, length) && writable(&digests, digests_length) &&
         nattizhu_each_nonnull(variant, WORDS, records, length, size, digests, digests_length);
}

/* The digests of a list, or its tags where there is a key. No pointer to bytes is null. */
static bool put_list(nattizhu_variant variant, const uint8_t *key, size_t key_length,
                     const nattizhu_message *messages, size_t count, uint8_t *outputs,
                     size_t outputs_length) {
  return key ? wiped(MANY, nattizhu_hmac_list_nonnull(variant, WORDS, key, key_length, messages,
                                                      count, outputs, outputs_length))
             : nattizhu_list_nonnull(variant, WORDS, messages, count, outputs, outputs_length);
}

/* The same in groups, of messages whose pointers may be null where they lead to nothing. In a frame
 * of its own, since `wiped` clears the stack below that of its caller. */
__attribute__((noinline)) static bool put_groups(nattizhu_variant variant, const uint8_t *key,
                                                 size_t key_length,
                                                 const nattizhu_message *messages, size_t count,
                                                 uint8_t *outputs, size_t outputs_length) {
  const size_t size = nattizhu_digest_size(variant);
  nattizhu_message group[MESSAGES_AT_ONCE];
  if (size == 0 || !is_product(outputs_length, count, size))
    return false;
  for (size_t at = 0, n; at < count; at += n) {
    n = next_group(group, messages, at, count);
    if (!put_list(variant, key, key_length, group, n, outputs + at * size, n * size))
      return false;
  }
  return true;
}

/* The same where each pointer may be null, but that of a key. */
static bool put_any_list(nattizhu_variant variant, const uint8_t *key, size_t key_length,
                         const nattizhu_message *messages, size_t count, uint8_t *outputs,
                         size_t outputs_length) {
  bool nulls = false;
  if (!writable(&outputs, outputs_length) || !readable_list(&messages, count, &nulls))
    return false;
  return nulls ? put_groups(variant, key, key_length, messages, count, outputs, outputs_length)
               : put_list(variant, key, key_length, messages, count, outputs, outputs_length);
}

bool nattizhu_list(nattizhu_variant variant, const nattizhu_message *messages, size_t count,
                   uint8_t *digests, size_t digests_length) {
  return put_any_list(variant, NULL, 0, messages, count, digests, digests_length);
}

bool nattizhu_update(nattizhu_state *state, const uint8_t *bytes, size_t length) {
  return readable(&bytes, length) && nattizhu_update_nonnull(state, bytes, length);
}

bool nattizhu_final(const nattizhu_state *state, uint8_t *digest, size_t digest_length) {
  return writable(&digest, digest_length) && nattizhu_final_nonnull(state, digest, digest_length);
}

bool nattizhu_save(const nattizhu_state *state, uint8_t *saved, size_t saved_length) {
  return writable(&saved, saved_length) && nattizhu_save_nonnull(state, saved, saved_length);
}

bool nattizhu_load(nattizhu_variant variant, nattizhu_state *state, const uint8_t *saved,
                   size_t saved_length) {
  return readable(&saved, saved_length) &&
         nattizhu_load_nonnull(variant, state, saved, saved_length);
}

bool nattizhu_hmac(nattizhu_variant variant, const uint8_t *key, size_t key_length,
                   const uint8_t *text, size_t text_length, uint8_t *tag, size_t tag_length) {
  return readable(&key, key_length) && readable(&text, text_length) && writable(&tag, tag_length) &&
         wiped(TAG,
               nattizhu_hmac_nonnull(variant, key, key_length, text, text_length, tag, tag_length));
}

bool nattizhu_hmac_verify_text(nattizhu_variant variant, const uint8_t *key, size_t key_length,
                               const uint8_t *text, size_t text_length, const uint8_t *tag,
                               size_t tag_length) {
  return readable(&key, key_length) && readable(&text, text_length) && readable(&tag, tag_length) &&
         wiped(TAG, nattizhu_hmac_verify_text_nonnull(variant, key, key_length, text, text_length,
                                                      tag, tag_length));
}

/* How often the records are halved at most whose outputs, of 16 bytes or more, have this length. */
static size_t halvings(size_t outputs_length) {
  size_t n = 0;
  for (size_t groups = outputs_length / (16 * 32); groups != 0; groups /= 2)
    n++;
  return n;
}

bool nattizhu_hmac_each(nattizhu_variant variant, const uint8_t *key, size_t key_length,
                        const uint8_t *records, size_t length, size_t size, uint8_t *tags,
                        size_t tags_length) {
  return readable(&key, key_length) && readable(&records, length) && writable(&tags, tags_length) &&
         wiped(MANY + HALVING * halvings(tags_length),
               nattizhu_hmac_each_nonnull(variant, WORDS, key, key_length, records, length, size,
                                          tags, tags_length));
}

bool nattizhu_hmac_list(nattizhu_variant variant, const uint8_t *key, size_t key_length,
                        const nattizhu_message *texts, size_t count, uint8_t *tags,
                        size_t tags_length) {
  return readable(&key, key_length) &&
         put_any_list(variant, key, key_length, texts, count, tags, tags_length);
}

bool nattizhu_hmac_init(nattizhu_variant variant, nattizhu_hmac_state *state, const uint8_t *key,
                        size_t key_length) {
  return readable(&key, key_length) &&
         wiped(TAG, nattizhu_hmac_init_nonnull(variant, state, key, key_length));
}

/* Bytes that only wait for a block leave little. How many wait stands in the inner saved state,
 * behind its chaining value and count. */
bool nattizhu_hmac_update(nattizhu_hmac_state *state, const uint8_t *bytes, size_t length) {
  const size_t waiting = state->bytes[1 + (state->bytes[0] & 127) + 8];
  return readable(&bytes, length) &&
         wiped(length < NATTIZHU_BLOCK_SIZE - waiting ? COPY : APPEND,
               nattizhu_hmac_update_nonnull(state, bytes, length));
}

bool nattizhu_hmac_final(const nattizhu_hmac_state *state, uint8_t *tag, size_t tag_length) {
  return writable(&tag, tag_length) &&
         wiped(END, nattizhu_hmac_final_nonnull(state, tag, tag_length));
}

bool nattizhu_hmac_verify(const nattizhu_hmac_state *state, const uint8_t *tag, size_t tag_length) {
  return readable(&tag, tag_length) &&
         wiped(END, nattizhu_hmac_verify_nonnull(state, tag, tag_length));
}

bool nattizhu_hmac_save(const nattizhu_hmac_state *state, uint8_t *saved, size_t saved_length) {
  return writable(&saved, saved_length) &&
         wiped(COPY, nattizhu_hmac_save_nonnull(state, saved, saved_length));
}

bool nattizhu_hmac_load(nattizhu_variant variant, nattizhu_hmac_state *state, const uint8_t *saved,
                        size_t saved_length) {
  return readable(&saved, saved_length) &&
         wiped(COPY, nattizhu_hmac_load_nonnull(variant, state, saved, saved_length));
}

bool nattizhu_pbkdf2(nattizhu_variant variant, const uint8_t *password, size_t password_length,
                     const uint8_t *salt, size_t salt_length, uint32_t rounds, uint8_t *key,
                     size_t key_length) {
  return readable(&password, password_length) && readable(&salt, salt_length) &&
         writable(&key, key_length) &&
         wiped(KEYS, nattizhu_pbkdf2_nonnull(variant, password, password_length, salt, salt_length,
                                             rounds, key, key_length));
}

/* Keys from lists in groups, as put_groups makes digests. The first group says whether it is
 * allowed. */
__attribute__((noinline)) static bool derive_groups(nattizhu_variant variant,
                                                    const nattizhu_message *passwords,
                                                    const nattizhu_message *salts, size_t count,
                                                    uint32_t rounds, size_t size, uint8_t *keys) {
  nattizhu_message password_group[MESSAGES_AT_ONCE], salt_group[MESSAGES_AT_ONCE];
  for (size_t at = 0, n; at < count; at += n) {
    n = next_group(password_group, passwords, at, count);
    next_group(salt_group, salts, at, count);
    if (!wiped(KEYS, nattizhu_pbkdf2_list_nonnull(variant, password_group, n, salt_group, n, rounds,
                                                  size, keys + at * size, n * size)))
      return false;
  }
  return true;
}

bool nattizhu_pbkdf2_list(nattizhu_variant variant, const nattizhu_message *passwords, size_t count,
                          const nattizhu_message *salts, size_t salt_count, uint32_t rounds,
                          size_t size, uint8_t *keys, size_t keys_length) {
  bool nulls = false;
  if (salt_count != count || !is_product(keys_length, count, size) ||
      !writable(&keys, keys_length) || !readable_list(&passwords, count, &nulls) ||
      !readable_list(&salts, count, &nulls))
    return false;
  return nulls ? derive_groups(variant, passwords, salts, count, rounds, size, keys)
               : wiped(KEYS, nattizhu_pbkdf2_list_nonnull(variant, passwords, count, salts, count,
                                                          rounds, size, keys, keys_length));
}
