// The package ripemd160 2.0 over the smaller module. hash-base is its stream, and checks what it is given.
import { Buffer } from 'buffer';
import HashBase from 'hash-base';
import inherits from 'inherits';
import { STATE } from '../src/engine.js';
import { append, whole } from '../src/hash.js';
import { abytes, lengthOf, part } from '../src/input.js';
import { kind, run } from '../src/ripemd160.js';

// The block holds so many bytes, by which a short message, or a round of PBKDF2, takes one call of the module.
const HELD = 128;
const NONE = new Uint8Array(0);
const short = whole(kind);

export default function RIPEMD160() {
  HashBase.call(this, HELD);
  this._blockSize = 64;
  this._a = this._b = this._c = this._d = this._e = this._low = this._high = undefined; // before what the block holds
}

inherits(RIPEMD160, HashBase);

// What the block holds, as a plain array: bundles for browsers make a Buffer more slowly.
const held = (hash) => part(hash._block, 0, hash._blockOffset);

// Takes in what the block holds and more bytes. The block then holds the tail of the state, whose layout docs/C.md has,
// and the hash its other words. They are numbers, so that a copy of a hash's properties is a hash of its own. At the `end`
// the words are overwritten, and this gives the digest.
const take = (hash, bytes, end) => run(0, false, (calls, memory, output) => {
  const words = new DataView(memory.buffer, STATE + 1);
  const put = (i, word) => words.setInt32(4 * i, word, true);
  const get = (i) => (end ? 0 : words.getInt32(4 * i, true));
  kind.init(calls);
  if (hash._a !== undefined) {
    put(0, hash._a);
    put(1, hash._b);
    put(2, hash._c);
    put(3, hash._d);
    put(4, hash._e);
    put(5, hash._low);
    put(6, hash._high);
  }
  append(kind, calls, memory, held(hash));
  append(kind, calls, memory, bytes);
  hash._a = get(0);
  hash._b = get(1);
  hash._c = get(2);
  hash._d = get(3);
  hash._e = get(4);
  hash._low = get(5);
  hash._high = get(6);
  if (end) {
    kind.final(calls);
    return output(kind.size);
  }
  hash._blockOffset = memory[STATE + 29];
  hash._block.set(memory.subarray(STATE + 30, STATE + kind.length));
});

RIPEMD160.prototype.update = function (data, encoding) {
  const isText = typeof data === 'string';
  if (this._finalized || !(isText || Buffer.isBuffer(data))) {
    // An error, or what other versions of hash-base take.
    take(this, NONE);
    return HashBase.prototype.update.call(this, data, encoding);
  }
  const bytes = isText ? Buffer.from(data, encoding) : data, length = lengthOf.call(bytes);
  if (this._blockOffset + length > HELD) {
    take(this, abytes(bytes));
  } else {
    this._block.set(bytes, this._blockOffset);
    this._blockOffset += length;
  }
  return this;
};

// hash-base has filled a block of 64 bytes.
RIPEMD160.prototype._update = function () {
  this._blockOffset = 64;
  take(this, NONE);
};

RIPEMD160.prototype._digest = function () {
  const digest = Buffer.alloc(20);
  digest.set(this._a === undefined ? run(0, false, short, held(this)) : take(this, NONE, true));
  return digest;
};
