// The hash functions, HMAC (RFC 2104) and PBKDF2 (RFC 8018) in the form of @noble/hashes 1.x, over an engine (`run`)
// with the larger module.
import { AT, IN, OUT, PIECE, STATE, big } from './engine.js';
import { Hash, append, bitsOf, final, hasher, init, loaded, update } from './hash.js';
import { abytes, anumber, part, toBytes } from './input.js';
import { otherTasks, pieces, stream } from './pieces.js';

const VARIANTS = [128, 160, 256, 320];
const MOST = 2 ** 32 - 1;

const hashKind = (bits, size = bits / 8, n = BigInt(size)) => ({
  size,
  length: 1 + size + 72,
  digest: (calls, length) => calls.nattizhu_digest_nonnull(bits, AT.in, length, AT.out, n),
  init: (calls) => calls.nattizhu_init(bits, AT.state),
  update: (calls, length) => calls.nattizhu_update_nonnull(AT.state, AT.in, length),
  final: (calls) => calls.nattizhu_final_nonnull(AT.state, AT.out, n),
  save: (calls, length) => calls.nattizhu_save_nonnull(AT.state, AT.in, length),
  load: (calls, length) => calls.nattizhu_load_nonnull(bits, AT.state, AT.in, length),
});

const hmacKind = (bits, size = bits / 8, n = BigInt(size)) => ({
  keyed: true,
  size,
  length: 1 + 2 * (size + 72),
  init: (calls, length) => calls.nattizhu_hmac_init_nonnull(bits, AT.state, AT.in, length),
  update: (calls, length) => calls.nattizhu_hmac_update_nonnull(AT.state, AT.in, length),
  final: (calls) => calls.nattizhu_hmac_final_nonnull(AT.state, AT.out, n),
  save: (calls, length) => calls.nattizhu_hmac_save_nonnull(AT.state, AT.in, length),
  load: (calls, length) => calls.nattizhu_hmac_load_nonnull(bits, AT.state, AT.in, length),
});

function ahash(hash) {
  if (!bitsOf.has(hash)) throw new TypeError('hash function of nattizhu expected, such as ripemd160');
  return bitsOf.get(hash);
}

// What `action` makes of each record of `size` bytes.
function ofEach(records, size, action) {
  const bytes = abytes(records);
  anumber('size', size, 1);
  if (bytes.length % size !== 0) throw new Error(`records of ${size} bytes expected, got length=${bytes.length}`);
  const results = [];
  for (let i = 0; i < bytes.length; i += size) results.push(action(part(bytes, i, i + size)));
  return results;
}

// What `action` makes of each message. A text is one message, not a list of its characters.
function ofList(messages, action) {
  if (typeof messages?.valueOf?.() === 'string' || typeof messages?.[Symbol.iterator] !== 'function')
    throw new TypeError('array or other iterable of messages expected');
  return Array.from(messages, (message) => action(message));
}

// What `action` gives; an Error, where there is not enough memory for it.
function inMemory(action) {
  try {
    return action();
  } catch (error) {
    throw error instanceof RangeError ? new Error('the key does not fit in memory') : error;
  }
}

/** All functions of the package. */
export function over(run) {
  const [ripemd128, ripemd160, ripemd256, ripemd320] = VARIANTS.map((bits) => {
    const hash = hasher(run, hashKind(bits));
    return Object.assign(hash, {
      each: (records, size) => ofEach(records, size, hash),
      list: (messages) => ofList(messages, hash),
    });
  });
  const kinds = new Map(VARIANTS.map((bits) => [bits, hmacKind(bits)]));

  // A key that does not fit into its place stands for its digest, as by HMAC each of more than 64 bytes does.
  function fitting(bits, key) {
    if (key.length <= PIECE) return key;
    const kind = { ...hashKind(bits), keyed: true };
    return new Hash(run, kind, init(run, kind)).update(key).digest();
  }

  // What `action` makes of a key and a text in their places, with room for `more` bytes behind.
  const placed = (key, text, more, action) => run(key.length + text.length + more, true, (calls, memory) => {
    const textAt = IN + key.length;
    memory.set(key, IN);
    memory.set(text, textAt);
    return action(calls, memory, AT.in, big(key.length), BigInt(textAt), big(text.length));
  });

  // As much of a tag as shows that it is too long.
  const cut = (size, tag) => part(tag, 0, Math.min(size + 1, tag.length));

  class Hmac extends Hash {
    verify(tag) {
      const saved = this.save(), size = saved.length / 2 - 72;
      try {
        const given = cut(size, abytes(tag));
        return run(saved.length, true, (calls, memory) => {
          memory.set(saved, IN);
          memory.set(given, OUT);
          calls.nattizhu_hmac_load_nonnull(8 * size, AT.state, AT.in, big(saved.length));
          return calls.nattizhu_hmac_verify_nonnull(AT.state, AT.out, big(given.length)) === 1;
        });
      } finally {
        saved.fill(0);
      }
    }
  }

  const create = (bits, key) => new Hmac(run, kinds.get(bits), init(run, kinds.get(bits), fitting(bits, key)));

  function hmac(hash, key, message) {
    const bits = ahash(hash), bytes = toBytes(key), text = toBytes(message);
    if (bytes.length + text.length > PIECE) return create(bits, bytes).update(text).digest();
    return placed(bytes, text, 0, (calls, memory, keyAt, keyLength, textAt, textLength) => {
      calls.nattizhu_hmac_nonnull(bits, keyAt, keyLength, textAt, textLength, AT.out, big(bits / 8));
      return memory.slice(OUT, OUT + bits / 8);
    });
  }

  hmac.verify = (hash, key, message, tag) => {
    const bits = ahash(hash), bytes = toBytes(key), text = toBytes(message), given = cut(bits / 8, abytes(tag));
    if (bytes.length + text.length > PIECE) {
      const mac = create(bits, bytes).update(text), answer = mac.verify(given);
      mac.destroy();
      return answer;
    }
    return placed(bytes, text, 0, (calls, memory, keyAt, keyLength, textAt, textLength) => {
      memory.set(given, OUT);
      return calls.nattizhu_hmac_verify_text_nonnull(
        bits, keyAt, keyLength, textAt, textLength, AT.out, big(given.length)) === 1;
    });
  };

  hmac.create = (hash, key) => create(ahash(hash), toBytes(key));

  hmac.load = (hash, saved) => loaded(Hmac, run, kinds.get(ahash(hash)), saved);

  // What `action` makes of what gives the tag of a message under one key, which is hashed and masked once.
  function underOne(hash, key, action) {
    const bits = ahash(hash), kind = kinds.get(bits), keyed = init(run, kind, fitting(bits, toBytes(key)));
    try {
      return action((message) => {
        const bytes = toBytes(message);
        return run(Math.min(bytes.length, PIECE), true, (calls, memory, output) => {
          memory.set(keyed, STATE);
          append(kind, calls, memory, bytes);
          kind.final(calls);
          return output(kind.size);
        });
      });
    } finally {
      keyed.fill(0);
    }
  }

  hmac.each = (hash, key, records, size) => underOne(hash, key, (tagOf) => ofEach(records, size, tagOf));

  hmac.list = (hash, key, messages) => underOne(hash, key, (tagOf) => ofList(messages, tagOf));

  function checked(hash, password, salt, options) {
    const bits = ahash(hash), { c, dkLen = 32, asyncTick = 10 } = options ?? {};
    anumber('iterations (c)', c, 1, MOST);
    anumber('dkLen', dkLen, 1);
    anumber('asyncTick', asyncTick);
    const long = toBytes(password), saltBytes = toBytes(salt), key = inMemory(() => new Uint8Array(dkLen));
    return { bits, password: fitting(bits, long), salt: saltBytes, c, key, asyncTick };
  }

  function pbkdf2(hash, password, salt, options) {
    const given = checked(hash, password, salt, options), { bits, c, key } = given;
    const at = IN + given.password.length + given.salt.length;
    return inMemory(() => placed(given.password, given.salt, key.length, (calls, memory, ...places) => {
      calls.nattizhu_pbkdf2_scalar(bits, ...places, c, BigInt(at), BigInt(key.length));
      key.set(memory.subarray(at, at + key.length));
      return key;
    }));
  }

  // Goes on with a block of a key, in which `left` tags are still to come. `tag` is the last one, and `sum` the sum
  // of all. It stops at about the time `end`, and returns how many are left.
  const goOn = (kind, keyed, tag, sum, left, end) => run(kind.length, true, (calls, memory) => {
    const size = BigInt(kind.size);
    memory.set(keyed, IN);
    memory.set(tag, OUT);
    while (left > 0) {
      memory.copyWithin(STATE, IN, IN + kind.length);
      calls.nattizhu_hmac_update_nonnull(AT.state, AT.out, size);
      kind.final(calls);
      for (let i = 0; i < sum.length; i++) sum[i] ^= memory[OUT + i];
      left -= 1;
      if (left % 64 === 0 && performance.now() >= end) break;
    }
    tag.set(memory.subarray(OUT, OUT + kind.size));
    return left;
  });

  async function pbkdf2Async(hash, password, salt, options) {
    const given = checked(hash, password, salt, options), { bits, c, key, asyncTick } = given;
    const kind = kinds.get(bits);
    const keyed = init(run, kind, given.password), salted = keyed.slice(), state = keyed.slice();
    try {
      let end = performance.now() + asyncTick;
      update(run, kind, salted, given.salt);
      for (let at = 0, i = 1; at < key.length; at += kind.size, i++) {
        state.set(salted);
        update(run, kind, state, Uint8Array.of(i >>> 24, i >>> 16, i >>> 8, i));
        const tag = final(run, kind, state), sum = key.subarray(at, at + kind.size);
        sum.set(tag.subarray(0, sum.length));
        let left = c - 1;
        do {
          left = goOn(kind, keyed, tag, sum, left, end);
          if (performance.now() >= end) {
            await otherTasks();
            end = performance.now() + asyncTick;
          }
        } while (left > 0);
        tag.fill(0);
      }
      return key;
    } finally {
      for (const secret of [keyed, salted, state]) secret.fill(0);
    }
  }

  return { ripemd128, ripemd160, ripemd256, ripemd320, hmac, pbkdf2, pbkdf2Async, pieces, stream };
}
