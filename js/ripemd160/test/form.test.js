// The package beside the one that it replaces, which the folder RIPEMD160_REPLACED has: the same results and errors.
import assert from 'node:assert/strict';
import test from 'node:test';
import { createRequire } from 'node:module';
import { Readable, Transform } from 'node:stream';
import { pipeline } from 'node:stream/promises';
import { inherits } from 'node:util';
import { randomBytes } from 'node:crypto';
import HashBase from 'hash-base';
import Ours from 'ripemd160';
import { digestOf } from './help.js';

const require = createRequire(import.meta.url);
const Theirs = require(process.env.RIPEMD160_REPLACED);

// What an action gives, or its error.
async function outcome(action, Kind) {
  try {
    return await action(Kind);
  } catch ({ name, message, code }) {
    return { name, message, code };
  }
}

const same = (name, actions) => test(name, async () => {
  for (const action of actions) {
    const [ours, theirs] = [await outcome(action, Ours), await outcome(action, Theirs)];
    assert.deepEqual(ours, theirs, `${action}`);
  }
});

const LENGTHS = [0, 1, 63, 64, 65, 127, 128, 129, 200, 100000];
const ENCODINGS = [undefined, null, '', 'utf8', 'hex', 'base64', 'latin1', 'utf16le', 'none', 5];
const TEXTS = ['', 'abc', 'äß€😀', ...LENGTHS.map((length) => 'äb€4'.repeat(length).slice(0, length)), 'ab12'.repeat(40)];
const OTHERS = [undefined, null, 7, true, [1, 2], {}, new Uint8Array(100), new Uint16Array(100), new ArrayBuffer(100),
  new DataView(new ArrayBuffer(100)), new String('abc')];

test('it is another package', () => {
  assert.notEqual(Ours, Theirs);
  assert.equal(require('ripemd160'), Ours);
});

same('buffers', LENGTHS.flatMap((length) => [randomBytes(length), Buffer.alloc(length + 3, 7).subarray(3)])
  .map((data) => (Kind) => new Kind().update(data).digest('hex')));

same('buffers of a class of their own', [10, 200].map((length) => (Kind) => {
  class Mine extends Buffer { subarray() { return Buffer.alloc(1); } }
  return new Kind().update(Object.setPrototypeOf(Buffer.alloc(length, 7), Mine.prototype)).digest('hex');
}));

same('texts in encodings', TEXTS.flatMap((text) => ENCODINGS.flatMap((encoding) => [
  (Kind) => new Kind().update(text, encoding).digest('hex'),
  (Kind) => new Kind().update('a').update(text, encoding).update(text, encoding).digest('hex'),
])));

same('digests in encodings', ENCODINGS.map((encoding) => (Kind) => new Kind().update('abc').digest(encoding)));

same('other data, which leaves everything as it was', [...OTHERS.map((data) => [data]), ['a'.repeat(200), 'none']]
  .flatMap((data) => ['', 'ab', 'c'.repeat(100), 'c'.repeat(200)].flatMap((before) => [
    (Kind) => new Kind().update(before).update(...data).digest('hex'),
    async (Kind) => {
      const hash = new Kind().update(before), error = await outcome(() => hash.update(...data) === hash);
      return [error, hash.update('d').digest('hex')];
    },
  ])));

const ended = (Kind) => {
  const hash = new Kind().update('abc');
  hash.digest();
  return hash;
};

same('after the digest', [
  ...[['abc'], ['a'.repeat(200)], ['a'.repeat(200), 'none'], [Buffer.alloc(200)], [7]].map((data) => (Kind) => ended(Kind).update(...data)),
  (Kind) => ended(Kind).digest(),
  (Kind) => ended(Kind).digest('none'),
  (Kind) => [ended(Kind)._finalized, new Kind()._finalized],
]);

same('pieces of any lengths', Array.from({ length: 300 }, () => {
  const pieces = Array.from({ length: Math.floor(Math.random() * 8) }, () => randomBytes(Math.floor(Math.random() * 150)));
  return (Kind) => pieces.reduce((hash, piece) => hash.update(piece), new Kind()).digest('hex');
}));

test('other arrays, where hash-base takes them', () => {
  const { update } = HashBase.prototype;
  HashBase.prototype.update = function (data, encoding) {
    return update.call(this, data instanceof Uint8Array ? Buffer.from(data) : data, encoding);
  };
  try {
    for (const before of LENGTHS) {
      for (const length of LENGTHS) {
        const parts = [randomBytes(before), new Uint8Array(randomBytes(length)), randomBytes(30), new Uint8Array(70)];
        const hash = parts.reduce((made, part) => made.update(part), new Ours());
        assert.equal(hash.digest('hex'), digestOf(Buffer.concat(parts)));
      }
    }
  } finally {
    HashBase.prototype.update = update;
  }
});

same('data that changes after the call', LENGTHS.map((length) => (Kind) => {
  const data = Buffer.alloc(length, 7), hash = new Kind().update(data);
  data.fill(8);
  return hash.digest('hex');
}));

same('the digest is a buffer of its own', [(Kind) => {
  const [one, other] = [new Kind().digest(), new Kind().digest()];
  one.fill(0);
  return [Buffer.isBuffer(one), one.length, one.buffer.byteLength, other, new Kind().digest()];
}]);

same('two hashes in turn', LENGTHS.map((length) => (Kind) => {
  const [one, other] = [new Kind(), new Kind()];
  for (let i = 0; i < 3; i++) one.update(Buffer.alloc(length, i)), other.update(Buffer.alloc(length, i + 9));
  return [one.digest('hex'), other.digest('hex')];
}));

// As some libraries clone a hash: with its properties, of which Buffers and arrays are copied.
const copied = (value) => (Buffer.isBuffer(value) ? Buffer.from(value) : Array.isArray(value) ? value.slice() : value);
const copyOf = (hash) => Object.assign(Object.create(Object.getPrototypeOf(hash)),
  Object.fromEntries(Object.entries(hash).map(([name, value]) => [name, copied(value)])));

same('copies of the properties', LENGTHS.flatMap((length) => LENGTHS.map((more) => (Kind) => {
  const hash = new Kind().update(Buffer.alloc(length, 7)), [one, other] = [copyOf(hash), copyOf(hash)];
  one.update(Buffer.alloc(more, 8)).update('abc');
  return [hash, copyOf(one), one, other.update('d')].map((each) => each.digest('hex'));
})));

test('lengths that Buffers do not have', () => {
  for (const length of [3, 200]) {
    for (const value of [5, 1e9, NaN, -1]) {
      const data = Buffer.alloc(length), proxy = new Proxy(data, { get: (bytes, name) => (name === 'length' ? value : bytes[name]) });
      assert.throws(() => new Ours().update(proxy), TypeError);
      assert.equal(new Ours().update(Object.defineProperty(data, 'length', { value })).digest('hex'), digestOf(Buffer.alloc(length)));
    }
  }
});

same('constructors', [
  (Kind) => [Kind.name, Kind.length, Kind.super_.name, typeof Kind.prototype._update, typeof Kind.prototype._digest],
  (Kind) => Kind(),
  (Kind) => Kind.call({}),
  (Kind) => new Kind(7)._blockSize,
  (Kind) => [new Kind() instanceof Kind, new Kind().constructor === Kind, new Kind() instanceof Transform],
  (Kind) => new (class Mine extends Kind {})().update('abc').digest('hex'),
  (Kind) => {
    function Mine() { Kind.call(this); }
    inherits(Mine, Kind);
    return new Mine().update('a'.repeat(100)).digest('hex');
  },
]);

const events = (hash, action) => new Promise((resolve) => {
  const seen = [];
  for (const name of ['data', 'end', 'finish', 'error'])
    hash.on(name, (value) => seen.push([name, value instanceof Error ? value.message : value]));
  action(hash);
  setTimeout(() => resolve(seen), 20);
});

same('streams', [
  ...TEXTS.flatMap((text) => [
    (Kind) => { const hash = new Kind(); hash.end(text); return hash.read(); },
    (Kind) => { const hash = new Kind(); hash.setEncoding('hex'); hash.write('abc'); hash.end(text, 'latin1'); return hash.read(); },
    (Kind) => events(new Kind(), (hash) => { hash.write(text); hash.end(); }),
  ]),
  (Kind) => events(new Kind(), (hash) => hash.end()),
  (Kind) => events(new Kind(), (hash) => { hash.update('abc'); hash.end('def'); }),
  (Kind) => events(new Kind(), (hash) => { hash.digest(); hash.end('def'); }),
  (Kind) => events(new Kind(), (hash) => { hash.digest(); hash.end(); }),
  (Kind) => events(new Kind(), (hash) => { hash.end('abc'); hash.write('def'); }),
  (Kind) => events(new Kind(), (hash) => hash.write(new Uint8Array(100)) && hash.end()),
  (Kind) => { const hash = new Kind(); hash.write(7); },
  async (Kind) => {
    const hash = new Kind();
    await pipeline(Readable.from(LENGTHS.map((length) => Buffer.alloc(length, 5))), hash, async function (source) {
      for await (const digest of source) hash.seen = digest;
    });
    return hash.seen;
  },
]);
