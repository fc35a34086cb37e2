// The memory of the module, seen through WebAssembly.Instance, which this file wraps before the package is loaded.
import assert from 'node:assert/strict';
import test from 'node:test';
import { randomBytes } from 'node:crypto';
import { digestOf, hex, keyOf, tagOf } from './help.js';

const instances = [], KEY_LENGTH = 54321;
let trap, keys = 0;
const { Instance } = WebAssembly;
WebAssembly.Instance = function (...given) {
  const { exports } = new Instance(...given);
  instances.push(exports);
  const trapping = (call) => (...words) => {
    if (trap) throw trap;
    if (words.includes(BigInt(KEY_LENGTH))) keys += 1;
    return call(...words);
  };
  return { exports: Object.fromEntries(Object.entries(exports).map(([name, one]) =>
    [name, typeof one === 'function' ? trapping(one) : one])) };
};
const slices = [], { slice } = Uint8Array.prototype;
Uint8Array.prototype.slice = function (...range) {
  const made = slice.apply(this, range);
  slices.push(made);
  return made;
};

const { hmac, pbkdf2, pbkdf2Async, ripemd160, stream } = await import('nattizhu');
const { ripemd160: alone } = await import('nattizhu/ripemd160.js');

const memory = () => Buffer.from(instances.at(-1).memory.buffer);

test('no instance before the first call', () => assert.equal(instances.length, 0));

// No other call has been made here, so all of the memory is still 0 outside of what is overwritten.
test('keyed calls leave nothing in the memory', async () => {
  const [key, text, long] = [randomBytes(40), randomBytes(100), randomBytes(150000)];
  const mac = hmac.create(ripemd160, key), tag = hmac(ripemd160, key, text), saved = mac.save();
  const calls = [() => hmac(ripemd160, key, text), () => hmac(ripemd160, long, text), () => hmac(ripemd160, key, long),
    () => hmac.create(ripemd160, key), () => hmac.create(ripemd160, long), () => mac.update(text), () => mac.update(long),
    () => mac.clone().digest(), () => mac.clone().digestInto(new Uint8Array(20)), () => mac.verify(tag),
    () => mac.save(), () => hmac.load(ripemd160, saved), () => hmac.verify(ripemd160, key, text, tag),
    () => hmac.verify(ripemd160, key, long, tag),
    () => hmac.each(ripemd160, key, text, 10), () => hmac.list(ripemd160, key, [text, long, 'abc']),
    () => stream(hmac.create(ripemd160, key), [text, long]), () => pbkdf2(ripemd160, key, text, { c: 3, dkLen: 50 }),
    () => pbkdf2(ripemd160, long, text, { c: 2 }), () => pbkdf2(ripemd160, key, long, { c: 2, dkLen: 100000 }),
    () => pbkdf2Async(ripemd160, key, text, { c: 200, dkLen: 50, asyncTick: 0 }),
    () => pbkdf2Async(ripemd160, long, long, { c: 2 })];
  for (const call of calls) {
    await call();
    assert(memory().every((byte) => byte === 0), `${call}`);
  }
  assert.equal(instances.length, 1);
});

test('between the turns of a key, the memory has nothing of it', async () => {
  const key = pbkdf2Async(ripemd160, 'password', 'salt', { c: 2000, asyncTick: 0 });
  let waits = true, turns = 0;
  key.finally(() => { waits = false; });
  while (waits) {
    assert(memory().every((byte) => byte === 0));
    await new Promise(setImmediate);
    turns += 1;
  }
  assert(turns > 5);
  assert.equal(hex(await key), keyOf('password', 'salt', 2000, 32));
});

test('a key for many texts is taken once', () => {
  const key = randomBytes(KEY_LENGTH), texts = ['a', 'b', 'c'];
  for (const call of [() => hmac.list(ripemd160, key, texts), () => hmac.each(ripemd160, key, Buffer.from('abc'), 1)]) {
    keys = 0;
    assert.deepEqual(call().map(hex), texts.map((text) => tagOf(key, text)));
    assert.equal(keys, 1, `${call}`);
  }
});

test('a key is gone after a long message', () => {
  const key = randomBytes(40);
  for (const hash of [ripemd160, alone]) hash(randomBytes(200000));
  hmac(ripemd160, key, 'text');
  assert.equal(memory().indexOf(key.subarray(0, 8)), -1);
});

// All states are slices: of the memory, or of another state.
test('states are overwritten', async () => {
  const key = randomBytes(40), long = randomBytes(70000), tag = tagOf(key, long);
  const calls = [() => ripemd160.create().update('abc').destroy(), () => ripemd160.create().update('abc').digest(),
    () => hmac.create(ripemd160, key).update('abc').destroy(), () => hmac.create(ripemd160, key).digest(),
    () => hmac.create(ripemd160, key).digestInto(new Uint8Array(20)), () => hmac(ripemd160, key, long),
    () => assert(hmac.verify(ripemd160, key, long, Buffer.from(tag, 'hex'))),
    () => { const mac = hmac.create(ripemd160, key); mac.verify(key); mac.destroy(); },
    () => hmac.each(ripemd160, key, long, 10000), () => hmac.list(ripemd160, key, ['abc', long]),
    () => assert.throws(() => hmac.list(ripemd160, key, ['abc', 7])),
    () => stream(hmac.create(ripemd160, key), ['abc']), () => pbkdf2Async(ripemd160, key, 'salt', { c: 3, dkLen: 50 })];
  for (const call of calls) {
    slices.length = 0;
    await call();
    assert(slices.length > 0 && slices.every((state) => state.every((byte) => byte === 0)), `${call}`);
  }
});

test('the memory does not grow', () => {
  const message = randomBytes(100), key = randomBytes(20), long = randomBytes(1 << 20);
  hmac(ripemd160, key, long);
  alone(long);
  const sizes = () => instances.map((exports) => exports.memory.buffer.byteLength);
  const [before, made] = [sizes(), instances.length];
  const hash = ripemd160.create();
  for (let i = 0; i < 100000; i++) {
    ripemd160(message);
    alone(message);
    hash.update(message);
    if (i % 10 === 0) hmac.create(ripemd160, key).update(message).clone();
    if (i % 10000 === 0) ripemd160(long);
  }
  assert.deepEqual(sizes(), before);
  assert.equal(instances.length, made);
});

test('the memory that a long key took does not grow again', () => {
  const options = { c: 1, dkLen: 300000 };
  const first = pbkdf2(ripemd160, 'password', 'salt', options), size = memory().length;
  for (let i = 0; i < 10; i++) assert.deepEqual(pbkdf2(ripemd160, 'password', 'salt', options), first);
  assert.equal(memory().length, size);
  assert.equal(hex(first), keyOf('password', 'salt', 1, 300000));
});

test('after a trap', async () => {
  const key = randomBytes(40), long = randomBytes(100000), pieces = ripemd160.create().update('a');
  const mac = hmac.create(ripemd160, key).update('a'), saved = [pieces.save(), mac.save()];
  for (const use of [() => ripemd160('abc'), () => ripemd160.create(), () => ripemd160(long), () => pieces.update('x'),
    () => pieces.digest(), () => pieces.digestInto(new Uint8Array(20)), () => pieces.save(), () => ripemd160.load(saved[0]),
    () => hmac(ripemd160, key, 'abc'), () => hmac.create(ripemd160, key), () => mac.update('x'), () => mac.digest(),
    () => mac.verify(new Uint8Array(20)), () => mac.save(), () => hmac.load(ripemd160, saved[1]),
    () => pbkdf2(ripemd160, key, 'salt', { c: 2 }),
    () => hmac.verify(ripemd160, key, 'abc', new Uint8Array(20)), () => pbkdf2Async(ripemd160, key, 'salt', { c: 2 })]) {
    const made = instances.length;
    trap = new WebAssembly.RuntimeError('unreachable');
    await assert.rejects(async () => use(), trap);
    trap = undefined;
    assert.equal(memory().indexOf(key.subarray(0, 8)), -1);
    assert.deepEqual([pieces.save(), mac.save()], saved);
    assert.equal(hex(ripemd160('abc')), digestOf('abc'));
    assert.equal(hex(hmac(ripemd160, key, 'abc')), tagOf(key, 'abc'));
    assert.equal(instances.length, made + 1);
  }
  assert.equal(hex(pieces.update('bc').digest()), digestOf('abc'));
  assert.equal(hex(mac.update('bc').digest()), tagOf(key, 'abc'));
});

test('after a trap of the module', () => {
  const outside = [2n ** 32n - 16n, 100n, BigInt(memory().length - 20), 20n];
  ripemd160('abc');
  assert.throws(() => instances.at(-1).nattizhu_digest_nonnull(160, ...outside), WebAssembly.RuntimeError);
  assert.throws(() => instances.at(-1).nattizhu_digest_nonnull(160, 65856n, 3n, 65792n, 20n), WebAssembly.RuntimeError);
  assert.throws(() => ripemd160('abc'), WebAssembly.RuntimeError);
  assert.equal(hex(ripemd160('abc')), digestOf('abc'));
});
