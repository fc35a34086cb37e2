// HMAC and PBKDF2 over a hash function as @noble/hashes 1.8 computes them: written anew, with the same calls in the
// same order.
import assert from 'node:assert/strict';
import test from 'node:test';
import { ripemd160 } from 'nattizhu';
import { ripemd160 as alone } from 'nattizhu/ripemd160.js';
import { hex, keyOf, tagOf } from './help.js';

class HMAC {
  finished = false;
  destroyed = false;

  constructor(hash, key) {
    this.iHash = hash.create();
    this.blockLen = this.iHash.blockLen;
    this.outputLen = this.iHash.outputLen;
    const pad = new Uint8Array(this.blockLen);
    pad.set(key.length > this.blockLen ? hash.create().update(key).digest() : key);
    this.iHash.update(pad.map((byte) => byte ^ 0x36));
    this.oHash = hash.create();
    this.oHash.update(pad.map((byte) => byte ^ 0x5c));
  }

  update(bytes) {
    this.iHash.update(bytes);
    return this;
  }

  digestInto(out) {
    this.finished = true;
    this.iHash.digestInto(out);
    this.oHash.update(out);
    this.oHash.digestInto(out);
    this.destroy();
  }

  digest() {
    const out = new Uint8Array(this.oHash.outputLen);
    this.digestInto(out);
    return out;
  }

  _cloneInto(to) {
    to ||= Object.create(Object.getPrototypeOf(this), {});
    const { oHash, iHash, finished, destroyed, blockLen, outputLen } = this;
    Object.assign(to, { finished, destroyed, blockLen, outputLen });
    to.oHash = oHash._cloneInto(to.oHash);
    to.iHash = iHash._cloneInto(to.iHash);
    return to;
  }

  destroy() {
    this.destroyed = true;
    this.oHash.destroy();
    this.iHash.destroy();
  }
}

function pbkdf2(hash, password, salt, { c, dkLen }) {
  const key = new Uint8Array(dkLen), counter = new Uint8Array(4), u = new Uint8Array(hash.outputLen);
  const prf = new HMAC(hash, password), salted = prf._cloneInto().update(salt);
  let working;
  for (let i = 1, at = 0; at < dkLen; i++, at += prf.outputLen) {
    const block = key.subarray(at, at + prf.outputLen);
    new DataView(counter.buffer).setInt32(0, i, false);
    (working = salted._cloneInto(working)).update(counter).digestInto(u);
    block.set(u.subarray(0, block.length));
    for (let round = 1; round < c; round++) {
      prf._cloneInto(working).update(u).digestInto(u);
      for (let j = 0; j < block.length; j++) block[j] ^= u[j];
    }
  }
  for (const one of [prf, salted, working]) one.destroy();
  return key;
}

for (const [name, hash] of Object.entries({ ripemd160, alone })) {
  test(`${name}: HMAC and PBKDF2 of @noble/hashes over it`, () => {
    for (const length of [0, 20, 64, 65, 200]) {
      const key = new Uint8Array(length).fill(length), text = new Uint8Array(100).fill(1);
      assert.equal(hex(new HMAC(hash, key).update(text).digest()), tagOf(key, text));
      assert.equal(hex(pbkdf2(hash, key, text, { c: 10, dkLen: 50 })), keyOf(key, text, 10, 50));
    }
  });
}
