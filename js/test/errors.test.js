// What is refused, with the messages of @noble/hashes 1.8: a wrong type or number by a TypeError. Nothing has changed after an error.
import assert from 'node:assert/strict';
import test from 'node:test';
import { hmac, pbkdf2, pbkdf2Async, pieces, ripemd128, ripemd160, stream } from 'nattizhu';
import { ripemd160 as alone } from 'nattizhu/ripemd160.js';
import { load } from 'nattizhu/load.js';
import { digestOf, hex, tagOf } from './help.js';

const NO_BYTES = [undefined, null, 7, 7n, true, {}, [1, 2], new ArrayBuffer(3), new Uint16Array(3), new DataView(new ArrayBuffer(3)),
  Symbol('x'), () => {}, new Proxy(new Uint8Array(3), {}),
  new Proxy(Buffer.alloc(3), { get: (bytes, name) => (name === 'length' ? 5 : bytes[name]) }),
  Object.create(Uint8Array.prototype, { length: { value: 5 } }), Object.setPrototypeOf(new Uint16Array(3), Uint8Array.prototype)];
const NO_HASHES = [undefined, null, 'ripemd160', {}, () => {}, digestOf, ripemd160.create(),
  Object.assign(() => {}, { create() {}, outputLen: 20, blockLen: 64 })];
const text = 'what do ya want for nothing?', key = 'Jefe';

const refused = (action, message, name = 'Error') => assert.throws(action, { name, message });
const rejected = (action, message, name = 'TypeError') => assert.rejects(action, { name, message });
const mistaken = (action, message) => refused(action, message, 'TypeError');

test('no bytes', async () => {
  const message = 'Uint8Array expected', hash = ripemd160.create().update('ab'), mac = hmac.create(ripemd160, key).update('ab');
  const listed = (bytes) => [[bytes], ['abc', bytes], new Set([bytes])];
  for (const bytes of NO_BYTES) {
    for (const action of [() => ripemd160(bytes), () => alone(bytes), () => hash.update(bytes), () => mac.update(bytes),
      () => hash.digestInto(bytes), () => mac.digestInto(bytes), () => mac.verify(bytes), () => ripemd160.load(bytes),
      () => hmac.load(ripemd160, bytes), () => ripemd160.each(bytes, 1), () => hmac.each(ripemd160, key, bytes, 1),
      () => hmac(ripemd160, bytes, text), () => hmac(ripemd160, key, bytes), () => hmac.create(ripemd160, bytes),
      () => hmac.each(ripemd160, bytes, new Uint8Array(1), 1), () => hmac.list(ripemd160, bytes, []),
      () => hmac.verify(ripemd160, bytes, text, new Uint8Array(20)), () => hmac.verify(ripemd160, key, bytes, new Uint8Array(20)),
      () => hmac.verify(ripemd160, key, text, bytes), () => pbkdf2(ripemd160, bytes, 'salt', { c: 1 }),
      () => pbkdf2(ripemd160, 'password', bytes, { c: 1 }), ...listed(bytes).map((list) => () => ripemd160.list(list)),
      ...listed(bytes).map((list) => () => hmac.list(ripemd160, key, list))])
      mistaken(action, message);
    await rejected(pbkdf2Async(ripemd160, bytes, 'salt', { c: 1 }), message);
    await rejected(pbkdf2Async(ripemd160, 'password', bytes, { c: 1 }), message);
    await rejected(stream(ripemd160.create(), [bytes]), message);
    await rejected(stream(hmac.create(ripemd160, key), [bytes]), message);
  }
  mistaken(() => mac.verify('x'.repeat(20)), message);
  mistaken(() => hash.digestInto('x'.repeat(20)), message);
  assert.equal(hex(hash.update('c').digest()), digestOf('abc'));
  assert.equal(hex(mac.update('c').digest()), tagOf(key, 'abc'));
});

test('lengths that arrays do not have', async () => {
  const bytes = () => new Uint8Array(1000).fill(7), right = digestOf(bytes());
  class Longer extends Uint8Array {
    get length() { return 5000; }
  }
  const own = (property) => Object.defineProperty(bytes(), 'length', property);
  let last = 1000;
  const longer = Object.assign(bytes(), { subarray: () => new Uint8Array(5000) });
  for (const data of [new Longer(1000).fill(7), longer, own({ value: 5000 }), own({ value: 3 }), own({ get: () => last++ }),
    Object.defineProperty(Buffer.from(bytes()), 'length', { value: 100000 }), own({ value: Infinity })]) {
    for (const one of [ripemd160, alone]) {
      assert.equal(hex(one(data)), right);
      assert.equal(hex(one.create().update(data).digest()), right);
    }
    assert.equal(hex(await stream(ripemd160.create(), [data])), right);
    assert.equal(hex(hmac(ripemd160, data, data)), tagOf(bytes(), bytes()));
    assert.deepEqual(ripemd160.each(data, 500).map(hex), Array(2).fill(digestOf(bytes().subarray(500))));
    assert(hmac.verify(ripemd160, data, data, hmac(ripemd160, data, data)));
    refused(() => ripemd160.load(data), 'Uint8Array expected of length 92, got length=1000');
  }
  const place = Object.defineProperty(new Uint8Array(3), 'length', { value: 20 });
  refused(() => ripemd160.create().digestInto(place), 'digestInto() expects output buffer of length at least 20');
});

test('no list of messages', () => {
  for (const messages of ['abc', '', new String('abc'), undefined, null, 5, {}, { length: 1, 0: 'abc' }]) {
    for (const list of [() => ripemd160.list(messages), () => hmac.list(ripemd160, key, messages)])
      mistaken(list, 'array or other iterable of messages expected');
  }
});

test('encodings', () => {
  const hash = ripemd160.create().update('abc'), mac = hmac.create(ripemd160, key).update(text);
  for (const one of [hash, mac, alone.create()])
    mistaken(() => one.digest('hex'), 'digest() takes no encoding, and returns bytes');
  assert.equal(hex(hash.digest(undefined)), digestOf('abc'));
  assert.equal(hex(mac.digest()), tagOf(key, text));
});

test('places of the wrong length', () => {
  const hash = ripemd160.create().update('abc'), mac = hmac.create(ripemd160, key).update(text);
  for (const length of [0, 19]) {
    const out = new Uint8Array(length).fill(7);
    refused(() => hash.digestInto(out), 'digestInto() expects output buffer of length at least 20');
    refused(() => mac.digestInto(out), `Uint8Array expected of length 20, got length=${length}`);
    assert(out.every((byte) => byte === 7));
  }
  refused(() => mac.digestInto(new Uint8Array(21)), 'Uint8Array expected of length 20, got length=21');
  const out = new Uint8Array(25).fill(7);
  assert.equal(hash.digestInto(out), undefined);
  assert.equal(hex(out), `${digestOf('abc')}0707070707`);
  mac.digestInto(out.subarray(2, 22));
  assert.equal(hex(out.subarray(2, 22)), tagOf(key, text));
});

test('messages that have ended', () => {
  const uses = (hash) => [() => hash.update('x'), () => hash.digest(), () => hash.digestInto(new Uint8Array(20)), () => hash.save()];
  for (const create of [ripemd160.create, alone.create, () => hmac.create(ripemd160, key)]) {
    const [digested, destroyed, written] = [create(), create(), create()];
    digested.digest();
    destroyed.destroy();
    destroyed.destroy();
    written.digestInto(new Uint8Array(20));
    const isMac = 'verify' in written;
    const gone = 'Hash instance has been destroyed', ended = 'Hash#digest() has already been called';
    for (const [hash, message] of [[digested, gone], [destroyed, gone], [written, isMac ? gone : ended]]) {
      for (const use of [...uses(hash), ...uses(hash.clone())]) refused(use, message);
      if (isMac) refused(() => hash.verify(new Uint8Array(20)), message);
      refused(() => hash.update(7), message);
    }
    assert.equal(hex(create()._cloneInto(digested).update('abc').digest()), hex(create().update('abc').digest()));
  }
});

test('copies into another function', () => {
  const message = 'Hash of the same function expected';
  mistaken(() => ripemd160.create()._cloneInto(ripemd128.create()), message);
  mistaken(() => ripemd160.create()._cloneInto(hmac.create(ripemd160, key)), message);
  assert.throws(() => ripemd160.create()._cloneInto({}), TypeError);
});

test('no hash function', async () => {
  const message = 'hash function of nattizhu expected, such as ripemd160';
  for (const hash of NO_HASHES) {
    for (const action of [() => hmac(hash, key, text), () => hmac.create(hash, key), () => hmac.load(hash, new Uint8Array(184)),
      () => hmac.verify(hash, key, text, new Uint8Array(20)), () => hmac.each(hash, key, new Uint8Array(3), 1),
      () => hmac.list(hash, key, ['abc']), () => pbkdf2(hash, key, 'salt', { c: 1 })])
      mistaken(action, message);
    await rejected(pbkdf2Async(hash, key, 'salt', { c: 1 }), message);
  }
});

test('numbers', async () => {
  const options = [...[{}, undefined, null, 5, { c: '1' }, { c: 1.5 }, { c: -1 }, { c: NaN }].map((given) =>
    [given, `iterations (c): positive integer expected, got ${given?.c}`]),
    [{ c: 0 }, 'iterations (c) should be >= 1'], [{ c: 2 ** 32 }, 'iterations (c) should be <= 4294967295'],
    [{ c: 1, dkLen: 0 }, 'dkLen should be >= 1'], ...[-1, 1.5, '20'].map((dkLen) =>
      [{ c: 1, dkLen }, `dkLen: positive integer expected, got ${dkLen}`]),
    [{ c: 1, dkLen: 2 ** 53 - 1 }, 'the key does not fit in memory']];
  for (const [given, message] of options) {
    const name = message.endsWith('memory') ? 'Error' : 'TypeError';
    refused(() => pbkdf2(ripemd160, 'password', 'salt', given), message, name);
    await rejected(pbkdf2Async(ripemd160, 'password', 'salt', given), message, name);
  }
  await rejected(pbkdf2Async(ripemd160, 'password', 'salt', { c: 1, asyncTick: -1 }),
    'asyncTick: positive integer expected, got -1');
  refused(() => pbkdf2(ripemd160, 'password', 'salt', { c: 1, dkLen: 2 ** 32 }), 'the key does not fit in memory');
  assert.equal(hex(pbkdf2(ripemd160, 'password', '\x12\x34\x56\x78', { c: 5, dkLen: 16 })), '7a3d7c03e7266bf83d78fb29d2641f56');
});

test('records that are not whole', () => {
  const records = new Uint8Array(10);
  for (const each of [(size) => ripemd160.each(records, size), (size) => hmac.each(ripemd160, key, records, size)]) {
    for (const size of [3, 11]) refused(() => each(size), `records of ${size} bytes expected, got length=10`);
    for (const size of [-1, 2.5, undefined, '5']) mistaken(() => each(size), `size: positive integer expected, got ${size}`);
    mistaken(() => each(0), 'size should be >= 1');
    assert.equal(each(5).length, 2);
  }
  mistaken(() => ripemd160.each(new Uint8Array(0), 0), 'size should be >= 1');
});

test('no sources', async () => {
  for (const source of [undefined, null, 7, {}, new ArrayBuffer(3)]) {
    await rejected(stream(ripemd160.create(), source), 'Blob, ReadableStream or iterable expected');
    await rejected(pieces(source).next(), 'Blob, ReadableStream or iterable expected');
  }
  await rejected(stream(ripemd160, ['abc']), 'Hash expected');
});

test('no module of this package', async () => {
  const empty = Uint8Array.of(0, 97, 115, 109, 1, 0, 0, 0);
  for (const source of [empty, new WebAssembly.Module(empty), new Response(empty, { headers: { 'content-type': 'application/wasm' } })])
    await rejected(load(source), 'nattizhu.wasm expected', 'Error');
  await assert.rejects(load(new Uint8Array(8)), WebAssembly.CompileError);
  await assert.rejects(load(new Response('')), WebAssembly.CompileError);
  await assert.rejects(load(Promise.reject(new RangeError('gone'))), RangeError);
});
