// RIPEMD-160 beside Node's crypto, which is OpenSSL.
import assert from 'node:assert/strict';
import test from 'node:test';
import { randomBytes, randomInt } from 'node:crypto';
import { hmac, pbkdf2, pbkdf2Async, ripemd160 } from 'nattizhu';
import { ripemd160 as alone } from 'nattizhu/ripemd160.js';
import { digestOf, hex, keyOf, tagOf } from './help.js';

const LENGTHS = [...Array(301).keys(), 65535, 65536, 65537, 200000, 1 << 20];

for (const [name, hash] of Object.entries({ ripemd160, alone })) {
  test(`${name}: messages whole and in pieces`, () => {
    for (const length of LENGTHS) {
      const message = randomBytes(length), digest = digestOf(message), pieces = hash.create();
      assert.equal(hex(hash(message)), digest, `${length} bytes`);
      for (let i = 0, size; i < length; i += size) {
        size = randomInt(length > 300 ? 70000 : 90);
        pieces.update(message.subarray(i, i + size));
      }
      const copy = pieces.clone(), other = hash.load(pieces.save()), into = hash.create().update('x');
      assert.equal(pieces._cloneInto(into), into);
      assert.equal(hex(pieces.digest()), digest, `${length} bytes in pieces`);
      const twice = digestOf(Buffer.concat([message, message]));
      for (const one of [copy, other, into]) assert.equal(hex(one.update(message).digest()), twice);
    }
  });

  test(`${name}: texts and every kind of bytes`, () => {
    for (const text of ['', 'abc', 'na\u00efve \u{1f600} \ud800', 'x'.repeat(70000)]) {
      assert.equal(hex(hash(text)), digestOf(text));
      assert.equal(hex(hash.create().update(text).digest()), digestOf(text));
    }
    const buffer = randomBytes(1000).buffer.slice(0, 1000), shared = new Uint8Array(new SharedArrayBuffer(100)).fill(7);
    const view = new Uint8Array(buffer, 13, 70), detached = new Uint8Array(70);
    assert.equal(hex(hash(view)), digestOf(view));
    assert.equal(hex(hash(shared)), digestOf(Buffer.alloc(100, 7)));
    assert.equal(hex(hash(shared.subarray(3, 80))), digestOf(Buffer.alloc(77, 7)));
    structuredClone(detached, { transfer: [detached.buffer] });
    assert.equal(hex(hash(detached)), digestOf(''));
    assert.equal(hex(hash('abc')), digestOf('abc'));
  });
}

test('two messages and two texts at the same time', () => {
  const hashes = [ripemd160, alone].map((hash) => hash.create()), mac = hmac.create(ripemd160, 'key'), other = mac.clone();
  for (const part of ['a', 'b', 'c']) {
    for (const one of [...hashes, mac]) one.update(part);
    other.update('x');
  }
  for (const hash of hashes) assert.equal(hex(hash.digest()), digestOf('abc'));
  assert.equal(hex(mac.digest()), tagOf('key', 'abc'));
  assert.equal(hex(other.digest()), tagOf('key', 'xxx'));
});

test('tags', () => {
  for (const length of [...Array(131).keys(), 65535, 65536, 65537, 200000]) {
    for (const size of [0, 32, 119, 70000]) {
      const key = randomBytes(length), text = randomBytes(size), tag = Buffer.from(tagOf(key, text), 'hex');
      assert.equal(hex(hmac(ripemd160, key, text)), hex(tag));
      const mac = hmac.create(ripemd160, key).update(text);
      const wrong = [Buffer.alloc(0), tag.subarray(1), Buffer.concat([tag, Buffer.alloc(1)]), Buffer.alloc(100000),
        ...[0, 9, 19].map((at) => tag.map((byte, i) => byte ^ (i === at)))];
      for (const [given, answer] of [[tag, true], ...wrong.map((each) => [each, false])]) {
        assert.equal(mac.verify(given), answer);
        assert.equal(hmac.verify(ripemd160, key, text, given), answer);
      }
      assert.equal(hex(mac.digest()), hex(tag));
    }
  }
});

// Its `subarray` makes an array of 20 bytes, whatever is asked for.
class Digest extends Uint8Array {
  constructor() {
    super(20);
  }
}

test('bytes of another class', async () => {
  const bytes = new Digest(), own = new Digest();
  bytes.set(randomBytes(20));
  for (const hash of [ripemd160, alone]) {
    assert.equal(hex(hash(bytes)), digestOf(bytes));
    assert.equal(hex(hash.create().update(bytes).digest()), digestOf(bytes));
  }
  assert.equal(hex(hmac.create(ripemd160, bytes).update(bytes).digest()), tagOf(bytes, bytes));
  assert.equal(hex(pbkdf2(ripemd160, bytes, bytes, { c: 2 })), keyOf(bytes, bytes, 2, 32));
  assert.equal(hex(await pbkdf2Async(ripemd160, bytes, bytes, { c: 2 })), keyOf(bytes, bytes, 2, 32));
  assert.deepEqual(ripemd160.each(bytes, 5).map(hex), [0, 5, 10, 15].map((at) => digestOf(Buffer.from(bytes).subarray(at, at + 5))));
  own.set(hmac(ripemd160, 'key', 'text'));
  assert(hmac.verify(ripemd160, 'key', 'text', own) && hmac.create(ripemd160, 'key').update('text').verify(own));
  ripemd160.create().update('abc').digestInto(own);
  assert.equal(hex(own), digestOf('abc'));
});

test('records and lists', () => {
  for (const [n, size] of [[0, 5], [1, 1], [7, 32], [5000, 33], [3, 100000]]) {
    const records = randomBytes(n * size);
    const list = Array.from({ length: n }, (_, i) => records.subarray(i * size, i * size + size));
    assert.deepEqual(ripemd160.each(records, size).map(hex), list.map(digestOf));
    assert.deepEqual(ripemd160.list(list.values()).map(hex), list.map(digestOf));
  }
  const reused = Buffer.alloc(2);
  const texts = function* () { for (const text of ['ab', 'cd']) { reused.write(text); yield reused; } };
  assert.deepEqual(ripemd160.list(texts()).map(hex), ['ab', 'cd'].map(digestOf));
});

test('tags of records and lists', () => {
  for (const [length, n, size] of [[0, 0, 5], [20, 7, 33], [64, 1, 1], [65, 7, 64], [70000, 3, 100000]]) {
    const key = randomBytes(length), records = randomBytes(n * size);
    const list = Array.from({ length: n }, (_, i) => records.subarray(i * size, i * size + size));
    const tags = list.map((text) => tagOf(key, text));
    assert.deepEqual(hmac.each(ripemd160, key, records, size).map(hex), tags);
    assert.deepEqual(hmac.list(ripemd160, key, list.values()).map(hex), tags);
  }
});

test('keys', async () => {
  for (const [p, s, c, dkLen] of [[0, 0, 1, 20], [8, 8, 1000, 20], [64, 16, 3, 64], [65, 16, 130, 333],
    [70000, 16, 2, 19], [300, 200000, 2, 100000]]) {
    const password = randomBytes(p), salt = randomBytes(s), key = keyOf(password, salt, c, dkLen);
    assert.equal(hex(pbkdf2(ripemd160, password, salt, { c, dkLen })), key);
    assert.equal(hex(await pbkdf2Async(ripemd160, password, salt, { c, dkLen })), key);
  }
  assert.equal(hex(pbkdf2(alone, 'p\u00e4ss', 'salt', { c: 2 })), keyOf('p\u00e4ss', 'salt', 2, 32));
});

test('keys in turns with other tasks', async () => {
  let turns = 0, waits = true;
  const timer = setInterval(() => { turns += 1; }, 0).unref();
  const key = pbkdf2Async(ripemd160, 'password', 'salt', { c: 60000, dkLen: 41, asyncTick: 2 });
  key.finally(() => { waits = false; });
  while (waits) {
    assert.equal(hex(hmac(ripemd160, 'other', 'text')), tagOf('other', 'text'));
    assert.equal(hex(ripemd160('abc')), digestOf('abc'));
    assert.equal(hex(pbkdf2(ripemd160, 'a', 'b', { c: 3 })), keyOf('a', 'b', 3, 32));
    await new Promise(setImmediate);
  }
  clearInterval(timer);
  assert.equal(hex(await key), keyOf('password', 'salt', 60000, 41));
  assert(turns > 5, `${turns} turns`);
});

test('two keys at the same time', async () => {
  const options = { c: 5000, dkLen: 25, asyncTick: 0 };
  const keys = await Promise.all(['a', 'b'].map((password) => pbkdf2Async(ripemd160, password, 'salt', options)));
  assert.deepEqual(keys.map(hex), ['a', 'b'].map((password) => keyOf(password, 'salt', 5000, 25)));
});
