// Streams, blobs and iterables.
import assert from 'node:assert/strict';
import test from 'node:test';
import { createServer } from 'node:http';
import { createReadStream } from 'node:fs';
import { readFile } from 'node:fs/promises';
import { createRequire } from 'node:module';
import { Readable } from 'node:stream';
import { randomBytes } from 'node:crypto';
import { once } from 'node:events';
import { hmac, pieces, ripemd160, stream } from 'nattizhu';
import { ripemd160 as alone } from 'nattizhu/ripemd160.js';
import { load } from 'nattizhu/load.js';
import { digestOf, hex, tagOf } from './help.js';

const message = randomBytes(300000), parts = [0, 1, 5000, 5000, 70000, 300000].map((at, i, all) => message.subarray(all[i - 1], at));
const file = createRequire(import.meta.url).resolve('nattizhu/nattizhu.wasm');

async function* slowly(list) {
  for (const each of list) {
    await new Promise(setImmediate);
    yield each;
  }
}

const streamOf = (list, more = {}) => {
  const rest = [...list];
  return new ReadableStream({ pull: (c) => (rest.length ? c.enqueue(rest.shift()) : c.close()), ...more });
};

const SOURCES = {
  Blob: () => new Blob([message]),
  ReadableStream: () => streamOf(parts),
  Readable: () => Readable.from(parts),
  array: () => parts,
  generator: () => parts.values(),
  'async generator': () => slowly(parts),
};

for (const [name, source] of Object.entries(SOURCES)) {
  test(`${name}: whole`, async () => {
    for (const hash of [ripemd160, alone]) assert.equal(hex(await stream(hash.create(), source())), digestOf(message));
    assert.equal(hex(await stream(hmac.create(ripemd160, 'key'), source())), tagOf('key', message));
    const got = [];
    for await (const piece of pieces(source())) got.push(piece.slice());
    assert.deepEqual(Buffer.concat(got), message);
  });

  test(`${name}: progress`, async () => {
    const told = [];
    await stream(ripemd160.create(), source(), { progress: (...words) => told.push(words) });
    assert.deepEqual(told.at(-1), [message.length, name === 'Blob' ? message.length : undefined]);
    assert(told.every(([done], i) => i === 0 || done >= told[i - 1][0]));
    assert(told.every(([, total]) => total === told[0][1]));
  });

  test(`${name}: aborted`, async () => {
    const reason = new Error('enough'), controller = new AbortController(), { signal } = controller;
    const progress = () => controller.abort(reason);
    await assert.rejects(stream(ripemd160.create(), source(), { progress, signal }), reason);
    await assert.rejects(stream(hmac.create(ripemd160, 'key'), source(), { signal }), reason);
    await assert.rejects(pieces(source(), { signal }).next(), reason);
    await assert.rejects(stream(ripemd160.create(), source(), { signal: AbortSignal.abort() }), { name: 'AbortError' });
  });
}

test('nothing, and texts', async () => {
  for (const source of [new Blob([]), streamOf([]), [], slowly([]), [''], ['', new Uint8Array(0)]])
    assert.equal(hex(await stream(ripemd160.create(), source)), digestOf(''));
  for (const source of [['a', 'bc'], slowly(['ab', new Uint8Array([99])]), new Set(['a', 'b', 'c'])])
    assert.equal(hex(await stream(ripemd160.create(), source)), digestOf('abc'));
  const source = streamOf(['abc']), left = streamOf(['abc', 'def']);
  await stream(ripemd160.create(), source);
  for await (const piece of pieces(left)) if (piece) break;
  await new Promise(setImmediate);
  assert.deepEqual([source.locked, left.locked], [false, false]);
});

test('a file', async () => {
  assert.equal(hex(await stream(ripemd160.create(), createReadStream(file))), digestOf(await readFile(file)));
});

test('a stream that says nothing is cancelled when the signal is aborted', async () => {
  const reason = new Error('enough'), controller = new AbortController(), { signal } = controller;
  let cancelled;
  const silent = new ReadableStream({ cancel: (why) => { cancelled = why; } });
  const never = { [Symbol.asyncIterator]: () => ({ next: () => new Promise(() => {}) }) };
  setTimeout(() => controller.abort(reason), 5);
  await Promise.all([silent, never].map((source) => assert.rejects(stream(ripemd160.create(), source, { signal }), reason)));
  assert.equal(cancelled, reason);
});

test('a source ends with the loop over its pieces, and with a bad piece', async () => {
  const ends = [];
  const cancel = () => ends.push('stream');
  for await (const piece of pieces(streamOf(parts, { cancel }))) if (piece) break;
  await assert.rejects(stream(ripemd160.create(), streamOf([new Uint8Array(3), 7, ...parts], { cancel })), { message: 'Uint8Array expected' });
  const generator = function* () { try { yield 'a'; yield 7; } finally { ends.push('generator'); } };
  await assert.rejects(stream(ripemd160.create(), generator()), { message: 'Uint8Array expected' });
  for await (const piece of pieces(generator())) if (piece) break;
  assert.deepEqual(ends, ['stream', 'stream', 'generator', 'generator']);
});

test('errors of a source', async () => {
  const error = new RangeError('broken');
  const sources = [streamOf([], { pull: () => { throw error; } }), (async function* () { yield 'a'; throw error; })(),
    (function* () { yield 'a'; throw error; })()];
  for (const source of sources) await assert.rejects(stream(ripemd160.create(), source), error);
});

test('listeners of a signal do not remain', async () => {
  const signal = new EventTarget();
  let listeners = 0;
  signal.addEventListener = () => { listeners += 1; };
  signal.removeEventListener = () => { listeners -= 1; };
  await stream(ripemd160.create(), parts, { signal });
  await new Promise(setImmediate);
  assert.equal(listeners, 0);
});

test('the module by URL', async () => {
  const bytes = await readFile(file);
  const server = createServer((request, response) => {
    response.writeHead(request.url === '/nattizhu.wasm' ? 200 : 404, { 'content-type': 'application/octet-stream' });
    response.end(bytes);
  }).listen(0, '127.0.0.1');
  await once(server, 'listening');
  const url = `http://127.0.0.1:${server.address().port}/nattizhu.wasm`;
  for (const source of [url, new URL(url), fetch(url), await fetch(url), bytes, bytes.buffer.slice(bytes.byteOffset, bytes.byteOffset + bytes.length),
    new WebAssembly.Module(bytes)]) {
    const module = await load(source);
    assert.equal(hex(module.ripemd160('abc')), digestOf('abc'));
    assert.equal(hex(module.hmac(ripemd160, 'key', 'abc')), tagOf('key', 'abc'));
    assert.equal(hex(hmac(module.ripemd160, 'key', 'abc')), tagOf('key', 'abc'));
    assert.equal(hex(await module.stream(module.ripemd160.create(), module.pieces(['abc']))), digestOf('abc'));
  }
  await assert.rejects(load(`${url}.none`), { message: `${url}.none: 404` });
  server.closeAllConnections();
  server.close();
});
