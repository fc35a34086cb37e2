// Saved states, by the layout that docs/C.md describes.
import assert from 'node:assert/strict';
import test from 'node:test';
import { hmac, ripemd128, ripemd160, ripemd256, ripemd320 } from 'nattizhu';
import { ripemd160 as alone } from 'nattizhu/ripemd160.js';
import { concat, digestOf, hex, tagOf, unhex } from './help.js';

// The initial chaining values of the paper, as words, which are little-endian as bytes.
const LEFT = [0x67452301, 0xefcdab89, 0x98badcfe, 0x10325476], RIGHT = [0x76543210, 0xfedcba98, 0x89abcdef, 0x01234567];
const FIFTH = 0xc3d2e1f0, TENTH = 0x3c2d1e0f;
const FIRST = Object.fromEntries(Object.entries({
  128: LEFT, 160: [...LEFT, FIFTH], 256: [...LEFT, ...RIGHT], 320: [...LEFT, FIFTH, ...RIGHT, TENTH],
}).map(([bits, words]) => [bits, concat(...words.map((word) => [word, word >> 8, word >> 16, word >> 24]))]));

const state = (chaining, blocks, tail) => concat(chaining, [blocks, 0, 0, 0, 0, 0, 0, 0, tail.length], tail,
  new Uint8Array(63 - tail.length));

// A message of less than 56 bytes as the block that it is padded to, whose chaining value is its digest.
const padded = (text) => concat(Buffer.from(text), [0x80], new Uint8Array(55 - text.length),
  [text.length * 8 % 256, text.length >> 5, 0, 0, 0, 0, 0, 0]);

test('states as they are saved', () => {
  for (const [bits, hash] of Object.entries({ 128: ripemd128, 160: ripemd160, 256: ripemd256, 320: ripemd320 })) {
    assert.deepEqual(hash.create().save(), state(FIRST[bits], 0, []));
    assert.deepEqual(hash.create().update('ab').save(), state(FIRST[bits], 0, Buffer.from('ab')));
    assert.deepEqual(hash.create().update(padded('abc')).update('xy').save(), state(hash('abc'), 1, Buffer.from('xy')));
  }
});

test('states that another process saved', () => {
  for (const hash of [ripemd160, alone]) {
    const first = state(FIRST[160], 0, Buffer.from('ab'));
    assert.equal(hex(hash.load(first).update('c').digest()), digestOf('abc'));
    const later = state(unhex(digestOf('abc')), 1, Buffer.from('xy'));
    assert.equal(hex(hash.load(later).update('z').digest()), digestOf(concat(padded('abc'), Buffer.from('xyz'))));
    assert.deepEqual(hash.load(later).save(), later);
  }
});

test('states of HMAC', () => {
  const saved = hmac.create(ripemd160, 'key').update('ab').save();
  assert.equal(saved.length, 184);
  assert.deepEqual([...saved.subarray(20, 31)], [1, 0, 0, 0, 0, 0, 0, 0, 2, 97, 98]);
  assert.deepEqual([...saved.subarray(112, 122)], [1, 0, 0, 0, 0, 0, 0, 0, 0, 0]);
  // The inner hasher of a state is one of a hash function, as the outer one is.
  const inner = ripemd160.load(saved.subarray(0, 92)).update('c').digest();
  assert.equal(hex(ripemd160.load(saved.subarray(92)).update(inner).digest()), tagOf('key', 'abc'));
  assert.equal(hex(hmac.load(ripemd160, saved).update('c').digest()), tagOf('key', 'abc'));
});

test('zeros behind the tail, whatever was there', () => {
  const long = new Uint8Array(63).fill(255);
  for (const hash of [ripemd128, ripemd160, ripemd256, ripemd320, alone]) {
    const makers = hash === alone ? [hash.create] : [hash.create, () => hmac.create(hash, 'key')];
    for (const make of makers) {
      // Tails of 63, 62 and 2 bytes.
      const saved = make().update(long).update(long).update('abcd').save(), size = hash.outputLen + 72;
      assert.deepEqual(saved.subarray(size - 64, size), concat([2, 99, 100], new Uint8Array(61)));
      assert(saved.subarray(size).subarray(size - 64).every((byte) => byte === 0));
      assert.deepEqual((saved.length === size ? hash.load(saved) : hmac.load(hash, saved)).save(), saved);
    }
  }
});

test('a saved state is a copy', () => {
  const hash = ripemd160.create().update('ab'), saved = hash.save(), other = ripemd160.load(saved);
  saved.fill(255);
  assert.equal(hex(hash.update('c').digest()), digestOf('abc'));
  assert.equal(hex(other.update('c').digest()), digestOf('abc'));
});

test('bytes that are no state', () => {
  const good = state(FIRST[160], 0, Buffer.from('ab')), mac = hmac.create(ripemd160, 'key').save();
  const message = 'saved state expected';
  // A tail of 64 or 255 bytes, one that is longer than its length, and a byte behind it.
  for (const [at, byte] of [[28, 64], [28, 255], [28, 1], [91, 1]]) {
    for (const hash of [ripemd160, alone])
      assert.throws(() => hash.load(good.map((old, i) => (i === at ? byte : old))), { name: 'Error', message });
  }
  for (const [at, byte] of [[28, 64], [91, 1], [120, 64], [183, 1]])
    assert.throws(() => hmac.load(ripemd160, mac.map((old, i) => (i === at ? byte : old))), { name: 'Error', message });
  for (const length of [0, 91, 93, 88, 184]) {
    for (const hash of [ripemd160, alone])
      assert.throws(() => hash.load(new Uint8Array(length)), { message: `Uint8Array expected of length 92, got length=${length}` });
  }
  assert.throws(() => hmac.load(ripemd160, good), { name: 'Error', message: 'Uint8Array expected of length 184, got length=92' });
  assert.throws(() => ripemd128.load(good), { name: 'Error', message: 'Uint8Array expected of length 88, got length=92' });
  assert.throws(() => ripemd160.load('x'), { name: 'TypeError', message: 'Uint8Array expected' });
});
