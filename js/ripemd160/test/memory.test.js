// The memory of the module, and what hashes keep.
import assert from 'node:assert/strict';
import test from 'node:test';
import { createRequire } from 'node:module';

const instances = [];
const { Instance } = WebAssembly;
WebAssembly.Instance = function (...given) {
  instances.push(new Instance(...given));
  return instances.at(-1);
};
const RIPEMD160 = createRequire(import.meta.url)('ripemd160');

test('a digest leaves nothing in its hash', () => {
  const left = (hash) => Object.entries(hash).filter(([, value]) => Object(value) !== value || Symbol.iterator in value);
  for (const length of [10, 1000]) {
    const [one, other] = [7, 8].map((byte) => new RIPEMD160().update(Buffer.alloc(length, byte)).update(Buffer.alloc(10, byte)));
    for (const hash of [one, other]) hash.digest();
    assert.deepEqual(left(one), left(other));
    assert(one._block.every((byte) => byte === 0));
  }
});

test('it does not grow, though most hashes are dropped', () => {
  const piece = Buffer.alloc(1000), kept = new RIPEMD160().update(piece);
  const size = () => instances.map(({ exports }) => exports.memory.buffer.byteLength);
  const before = size();
  for (let i = 0; i < 100000; i++) new RIPEMD160().update(piece);
  assert.deepEqual([size(), before.length], [before, 1]);
  assert.equal(kept.digest('hex'), new RIPEMD160().update(piece).digest('hex'));
});
