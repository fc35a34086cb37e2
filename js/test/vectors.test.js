// The values of tests/data, whose files say where they come from.
import assert from 'node:assert/strict';
import test from 'node:test';
import { readFile } from 'node:fs/promises';
import { createRequire } from 'node:module';
import * as nattizhu from 'nattizhu';
import { ripemd160 } from 'nattizhu/ripemd160.js';
import { load } from 'nattizhu/load.js';
import { BITS, count, hex, lines, unhex } from './help.js';

const file = createRequire(import.meta.url).resolve('nattizhu/nattizhu.wasm');
const loaded = await load(await readFile(file));
const alone = { ripemd160 };

for (const [name, entry] of Object.entries({ nattizhu, loaded, alone })) {
  for (const bits of BITS) {
    const hash = entry[`ripemd${bits}`];
    if (!hash) continue;
    const longer = lines('digests-long.txt').filter(([variant]) => +variant === bits).map((words) => words.slice(1));
    const vectors = [...lines(`digests-${bits}.txt`), ...longer].map(([length, digest]) => [count(+length), digest]);

    test(`${name}: digests of RIPEMD-${bits}`, () => {
      assert(vectors.length > 200);
      assert.deepEqual([hash.outputLen, hash.blockLen], [bits / 8, 64]);
      for (const [message, digest] of vectors) {
        assert.equal(hex(hash(message)), digest);
        for (const at of [0, 1, 63, 64, message.length >> 1]) {
          const pieces = hash.create().update(message.subarray(0, at));
          const other = hash.load(pieces.save());
          assert.equal(hex(pieces.update(message.subarray(at)).digest()), digest);
          assert.equal(hex(other.update(message.subarray(at)).digest()), digest);
        }
      }
      if (entry !== alone) assert.deepEqual(hash.list(vectors.map(([message]) => message)).map(hex), vectors.map(([, digest]) => digest));
    });

    if (entry !== alone) test(`${name}: digests of records by RIPEMD-${bits}`, () => {
      for (const [message, digest] of vectors.filter(([{ length }]) => length > 0 && length < 200))
        assert.deepEqual(hash.each(Buffer.concat([message, message, message]), message.length).map(hex), [digest, digest, digest]);
    });
  }
}

for (const [name, { hmac, pbkdf2, pbkdf2Async, ...hashes }] of Object.entries({ nattizhu, loaded })) {
  test(`${name}: tags`, () => {
    const tags = lines('tags.txt').map(([bits, length, tag]) => [bits, count(+length, 1), count(150), tag]);
    const rfc = lines('rfc2286.txt').map(([bits, key, text, tag]) => [bits, unhex(key), unhex(text), tag]);
    assert(tags.length > 20 && rfc.length > 10);
    for (const [bits, key, text, tag] of [...tags, ...rfc]) {
      const hash = hashes[`ripemd${bits}`], whole = hmac(hash, key, text);
      assert.equal(hex(whole), tag);
      assert(hmac.verify(hash, key, text, unhex(tag)));
      const pieces = hmac.create(hash, key).update(text.subarray(0, 3));
      const other = hmac.load(hash, pieces.save()).update(text.subarray(3));
      assert(other.verify(unhex(tag)));
      assert.equal(hex(pieces.update(text.subarray(3)).digest()), tag);
      assert.equal(hex(other.digest()), tag);
      assert.deepEqual(hmac.list(hash, key, [text, 'x', text]).map(hex).filter((each) => each === tag), [tag, tag]);
      assert.deepEqual(hmac.each(hash, key, Buffer.concat([text, text]), text.length).map(hex), [tag, tag]);
    }
  });

  test(`${name}: keys`, async () => {
    const keys = lines('keys.txt');
    assert(keys.length > 50);
    for (const [bits, password, salt, rounds, key] of keys) {
      const options = { c: +rounds, dkLen: key.length / 2 };
      const given = [hashes[`ripemd${bits}`], count(+password, 1), count(+salt), options];
      assert.equal(hex(pbkdf2(...given)), key);
      assert.equal(hex(await pbkdf2Async(...given)), key);
    }
  });
}

test('HMAC by the hash of the smaller module', () => {
  const [, key, text, tag] = lines('rfc2286.txt').find(([bits]) => bits === '160');
  assert.equal(hex(nattizhu.hmac(ripemd160, unhex(key), unhex(text))), tag);
  assert.equal(hex(loaded.hmac(nattizhu.ripemd160, unhex(key), unhex(text))), tag);
});
