// Packages that depend on this one, as browsers have them, by the values of tests/data.
import assert from 'node:assert/strict';
import test from 'node:test';
import createHash from 'create-hash/browser.js';
import createHmac from 'create-hmac/browser.js';
import { pbkdf2, pbkdf2Sync } from 'pbkdf2/browser.js';
import pbkdf2InBrowsers from 'pbkdf2/lib/sync-browser.js';
import { count, lines, unhex } from './help.js';

const of160 = (name) => lines(name).filter(([bits]) => bits === '160').map((words) => words.slice(1));
const buffer = (length, first) => Buffer.from(count(+length, first));

test('create-hash', () => {
  const vectors = [...lines('digests-160.txt'), ...of160('digests-long.txt')];
  assert(vectors.length > 200);
  for (const [length, digest] of vectors) {
    const message = buffer(length), stream = createHash('rmd160'), pieces = createHash('ripemd160');
    assert.equal(createHash('ripemd160').update(message).digest('hex'), digest);
    assert.equal(createHash('RMD160').update(message.toString('base64'), 'base64').digest('hex'), digest);
    stream.end(message);
    assert.equal(stream.read().toString('hex'), digest);
    for (let i = 0; i < message.length; i += 37) pieces.update(message.subarray(i, i + 37));
    assert.equal(pieces.digest('hex'), digest);
  }
});

test('create-hmac', () => {
  const tags = of160('tags.txt').map(([length, tag]) => [buffer(length, 1), buffer(150), tag]);
  const rfc = of160('rfc2286.txt').map(([key, text, tag]) => [...[key, text].map((one) => Buffer.from(unhex(one))), tag]);
  assert(tags.length > 5 && rfc.length > 5);
  for (const [key, text, tag] of [...tags, ...rfc]) {
    assert.equal(createHmac('rmd160', key).update(text).digest('hex'), tag);
    assert.equal(createHmac('ripemd160', key).update(text.subarray(0, 5)).update(text.subarray(5)).digest('hex'), tag);
  }
});

test('pbkdf2', async () => {
  const keys = of160('keys.txt');
  assert(keys.length > 10);
  for (const [password, salt, rounds, key] of keys) {
    const given = [buffer(password, 1), buffer(salt), +rounds, key.length / 2];
    for (const derive of [pbkdf2Sync, pbkdf2InBrowsers]) assert.equal(derive(...given, 'rmd160').toString('hex'), key);
    const later = await new Promise((resolve, reject) => {
      pbkdf2(...given, 'ripemd160', (error, derived) => (error ? reject(error) : resolve(derived)));
    });
    assert.equal(later.toString('hex'), key);
  }
});
